"""Runs the built program beside the plain second desk of `plain_desk.py`: over a show cut at each of its bytes, over the same with
each byte replaced, over awkward bytes, and over random shows and scripts. `program.py` calls it; by hand

    walks.py PROGRAM [--walks N] [--seed S]

walks as far as one likes. Prints each input on which the two differ, and last 'N passed, M failed'.
"""
import argparse
import os
import random
import subprocess
import sys
import tempfile

import plain_desk

TOP = os.path.dirname(os.path.dirname(os.path.abspath(__file__)))
TIME_LIMIT = 60
JOBS = [("render",), ("render", "states"), ("check",), ("check", "states"), ("sheet",), ("sheet", "states")]


def differs(program, words, data):
    """What the program answered otherwise than the plain desk, in words; nothing where it agrees."""
    try:
        run = subprocess.run([program, *words], input=data, stdout=subprocess.PIPE, stderr=subprocess.PIPE, timeout=TIME_LIMIT)
    except subprocess.TimeoutExpired:
        return f"no end within {TIME_LIMIT} seconds"
    wanted = plain_desk.output(words, data)
    if (run.returncode, run.stdout, run.stderr) == (*wanted, b""):
        return ""
    ours, plain = run.stdout.split(b"\n"), wanted[1].split(b"\n")
    at = next((k for k, (a, b) in enumerate(zip(ours, plain)) if a != b), min(len(ours), len(plain)))
    return f"status {run.returncode}, not {wanted[0]}; line {at + 1} {ours[at:at + 1]}, not {plain[at:at + 1]}; {run.stderr[:200]!r}"


# ---------------------------------------------------------------------------------------------------------------------
# Broken texts.


def house():
    with open(os.path.join(TOP, "examples/house.asc"), "rb") as file:
        return file.read()


def cut_inputs():
    """The example cut at each byte."""
    text = house()
    for k in range(len(text)):
        yield ("sheet",), text[:k]


def replaced_inputs():
    """Each byte of the example's show replaced in turn by each separator, a letter, a digit, CR, NUL, `!`, `$` and 255."""
    text = house()
    end = text.index(b"ENDDATA") + len(b"ENDDATA")
    for k in range(end):
        for byte in b" \t,;/<=>@x7\r\0!$\xff":
            yield ("check",), text[:k] + bytes([byte]) + text[k + 1:end + 1]


def awkward_inputs():
    """Lines about the greatest length, long numbers, CR and other bytes in every place."""
    ident, cue = b"IDENT 3:0\n", b"CUE 1\n"
    text = house()
    for length in (4095, 4096, 4097):
        yield ("check",), ident + b"x" * length + b"\nENDDATA\n"
        yield ("check",), ident + b"\r".join([b"x" * (length - 100), b"y" * 100]) + b"\r\nENDDATA\n"
        yield ("sheet",), ident + cue + b"TEXT " + b"z" * (length - 5) + b"\nENDDATA\n"
        yield ("render",), ident + b"ENDDATA\n" + b"go" + b" " * (length - 2) + b"\n"
        yield ("render",), ident + cue + b"ENDDATA\nlabel 1 " + b"a" * (length - 8) + b"\nsave\n"
    for digits in (b"0" * 4000 + b"1", b"9" * 4000, b"." + b"1" * 3000, b"1." + b"0" * 3000, b"1:00." + b"9" * 3000):
        for line in (b"UP ", b"FOLLOWON ", b"LINK ", b"PART ", b"CHAN 1@", b"CHAN "):
            yield ("check",), ident + cue + line + digits + b"\nENDDATA\n"
        yield ("check",), ident + b"CUE " + digits + b"\nENDDATA\n"
        yield ("render",), ident + cue + b"ENDDATA\ntick " + digits[:200] + b"x\ngoto " + digits + b"\nset 1 chan 1 at " + digits + b"\nframe\n"
    for byte in range(256):
        one = bytes([byte])
        yield ("sheet",), ident + cue + b"TEXT a" + one + b"b\nCHAN 1" + one + b"50\n" + one + b"UP 2\nENDDATA" + one + b"\nENDDATA\n"
        yield ("render",), ident + b"ENDDATA\nframe" + one + b"2\n" + one + b"frame\ncue 1\nlabel 1" + one + b" x" + one + b"\nsave\n"
    for k in range(len(text)):
        yield ("check",), text[:k] + b"\r" + text[k:]


# ---------------------------------------------------------------------------------------------------------------------
# Random shows and scripts.


class Walk:
    """A random show and script: few channels and cues, so that runs and edits meet."""

    def __init__(self, seed):
        self.random = random.Random(seed)
        self.channels = self.pick(3, 6, 12, 40, 513)
        self.words = self.pick(("render",), ("render",), ("render",), ("undo",), ("undo", "states"), ("two",), ("two", "states"), *JOBS)

    def pick(self, *among):
        return self.random.choice(among)

    def often(self, chance):
        return self.random.random() < chance

    def below(self, most):
        return self.random.randrange(1, most + 1)

    def level(self):
        return self.pick("0", "50", "100", "FL", "H80", "H01", "HFE", f"H{self.random.randrange(256):02X}", str(self.random.randrange(101)))

    def time(self):
        return self.pick("0", "0.01", "0.02", "0.1", "0.5", "1", "2.5", "3", "5")

    def cue(self):
        if self.words[0] == "two" and self.often(.4):
            return self.pick("4999.999", "5000", "5000.5", "5001", "6000")
        return self.pick("0.5", "1", "2", "2.5", "3", "3.25", "3.255", "4", "5", "6", "7", "8")

    def levels(self):
        return "CHAN " + " ".join(f"{self.below(self.channels)}@{self.level()}" for _ in range(self.below(4)))

    def times(self, word):
        return f"{word} {self.time() if self.often(.9) else '40:00'}" + (f" {self.time()}" if self.often(.4) else "")

    def cue_lines(self, number):
        yield f"CUE {number}"
        for chance, line in ((.3, "TEXT Preset !1"), (.2, "$$BLOCK"), (.2, "$$ASSERT"), (.2, f"FOLLOWON {self.time()}"), (.1, f"LINK {self.cue()}")):
            if self.often(chance):
                yield line
        for part in range(self.pick(1, 1, 1, 2, 3)):
            if part:
                yield f"PART {self.below(4)}"
            for chance, line in ((.7, self.times("UP")), (.7, self.times("DOWN")), (.8, self.levels())):
                if self.often(chance):
                    yield line

    def show(self):
        yield "IDENT 3:0"
        if self.often(.7):
            yield f"SET CHANNELS {self.channels}"
        for d in range(1, self.below(13)):
            yield f"PATCH 1 {self.below(self.channels)}<{self.pick(d, d, 512 + d, 512 * d, 16384 - d)}@{self.pick('FL', self.level())}"
        for number in sorted({self.cue() for _ in range(self.random.randrange(7))}, key=float):
            yield from self.cue_lines(number)
        for word in ("GROUP", "SUB"):
            for _ in range(self.random.randrange(3)):
                yield f"{word} {self.below(3)}"
                yield self.levels()
        if self.often(.05):
            yield self.pick("CHAN 1@101", "BOGUS", "$x", "$$y", "CUE 0", "TEXT z", "CUE 3 2", "CLEAR ALL", "CHAN 1", "UP x")
        yield "ENDDATA"

    def range(self):
        first = self.below(self.channels + 1)
        return f"chan {first}" + ("" if self.often(.6) else f" thru {first + self.random.randrange(4)}")

    def edit(self):
        cue, only = self.cue(), self.pick("", "", " only")
        part = self.pick("", f" part {self.below(3)}")
        return self.pick(
            f"cue {cue}", f"delete {cue}{only}", f"set {cue} {self.range()} at {self.level()}{part}{only}",
            f"set {cue} {self.range()} at {self.level()}{only}", f"set {cue} group {self.below(3)} at {self.level()}{part}{only}",
            f"release {cue} {self.range()}{only}", f"time {cue}{part} {self.pick('up', 'down')} {self.time()}" + self.pick("", f" {self.time()}"),
            f"part {cue} {self.below(4)}", f"unpart {cue} {self.below(4)}", f"{self.pick('block', 'unblock')} {cue}",
            f"{self.pick('assert', 'assert', 'unassert')} {cue}",
            f"follow {cue} {self.pick('off', self.time())}", f"label {cue} {self.pick('', 'two  words', '!x')}",
            f"group {self.below(3)} {self.range()} at {self.level()}", f"sub {self.below(3)} {self.range()} at {self.level()}",
            f"patch {self.pick(1, 2, 513, 16384, 14)} chan {self.below(self.channels + 1)} at {self.level()}", f"unpatch {self.pick(1, 2, 513, 16384)}")

    def key(self):
        return self.pick("go", "go", "go", "back", f"goto {self.cue()}", "settle", f"fader {self.below(3)} at {self.level()}", f"master at {self.level()}")

    def line(self):
        return "2 " * (self.words[0] == "two" and self.often(.4)) + self.plain_line()

    def plain_line(self):
        if self.words[0] == "undo" and self.often(.2):
            return self.pick("undo", "undo", "redo", f"record {self.cue()}", f"record {self.cue()} only")
        chance = self.random.random()
        if chance < .25:
            return self.key()
        if chance < .42:
            return "tick " + self.pick("", "1", "3", "5", "25", "50", "100", "300", "2000")
        if chance < .6:
            return self.pick("frame", "frame", "frame 2", "frame 32", f"sheet {self.cue()}", "save")
        if chance < .98:
            return self.edit()
        return self.pick("bogus", "set 1", "go 1", "", "  ! c", "tick 0")

    def input(self):
        script = [self.line() for _ in range(self.random.randrange(5, 120))]
        return "\n".join([*self.show(), *script, "frame", "frame 2", "save", ""]).encode()


def walk_inputs(count, seed):
    for k in range(count):
        walk = Walk(1_000_000 * seed + k)
        yield walk.words, walk.input()


# ---------------------------------------------------------------------------------------------------------------------


def tables(walks, seed):
    return [("the example cut at each byte", cut_inputs()), ("the example with each byte replaced", replaced_inputs()),
            ("awkward bytes, lengths and numbers", awkward_inputs()), (f"{walks} random walks", walk_inputs(walks, seed))]


def wrong_in_table(program, inputs):
    """How many inputs were run, and what went wrong: the first three, each kept in a file to look at."""
    wrong = []
    count = 0
    for count, (words, data) in enumerate(inputs, 1):
        said = differs(program, words, data)
        if said:
            with tempfile.NamedTemporaryFile(prefix="walk-", suffix=".asc", delete=False) as kept:
                kept.write(data)
            wrong.append(f"{' '.join(words)} < {kept.name}: {said}")
            if len(wrong) == 3:
                break
    return count, wrong


def main():
    parser = argparse.ArgumentParser()
    parser.add_argument("program")
    parser.add_argument("--walks", type=int, default=1000)
    parser.add_argument("--seed", type=int, default=1)
    given = parser.parse_args()
    failed = 0
    for name, inputs in tables(given.walks, given.seed):
        count, wrong = wrong_in_table(os.path.abspath(given.program), inputs)
        failed += bool(wrong)
        print(f"{name}: {count} inputs", *wrong, sep="\n    ")
    print(f"{4 - failed} passed, {failed} failed")
    return 1 if failed else 0


if __name__ == "__main__":
    sys.exit(main())
