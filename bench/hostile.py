#!/usr/bin/env python3
"""Hostile texts of the greatest size, one of each kind: what the program answers, in what time and memory. Run by hand.

    hostile.py [PROGRAM]

Wanted is that each ends with the answer of the rules within two seconds and 64 MB. Prints a row for each, and fails where the answer is another
or a bound is passed. Without a path it takes crates/cuedesk/out/cuedesk.
"""
import os
import sys
import tempfile
import time

TOP = os.path.dirname(os.path.dirname(os.path.abspath(__file__)))
SIZE = 67_108_864
BLOCK = 1 << 20
SECONDS, MEGABYTES = 2.0, 64
IDENT, END = b"IDENT 3:0\n", b"ENDDATA\n"


class Repeated:
    """A front, a piece again and again, and an end: more bytes than this script holds at once, so that its own memory isn't taken for the program's."""

    def __init__(self, front=b"", piece=b"", count=0, end=b""):
        self.front, self.piece, self.count, self.end = front, piece, count, end

    def __len__(self):
        return len(self.front) + len(self.piece) * self.count + len(self.end)

    def blocks(self):
        yield self.front
        at_once = max(1, BLOCK // max(1, len(self.piece)))
        for done in range(0, self.count, at_once):
            yield self.piece * min(at_once, self.count - done)
        yield self.end


def filled(front, piece, end=b""):
    """The front, then the piece as often as it fits before the end."""
    return Repeated(front, piece, (SIZE - len(front) - len(end)) // len(piece), end)


class Looks:
    """2,000 cues that each move every channel."""

    def __init__(self):
        self.front, self.moves = IDENT + b"SET CHANNELS 2048\n", every_channel()

    def __len__(self):
        return sum(len(block) for block in self.blocks())

    def blocks(self):
        yield self.front
        for cue in range(1, 2001):
            yield b"CUE %d\n" % cue + self.moves
        yield END


def every_channel():
    """Lines that move every channel."""
    lines = (b"CHAN " + b" ".join(b"%d@%d" % (chan, chan % 101) for chan in range(first, first + 256)) for first in range(1, 2049, 256))
    return b"\n".join(lines) + b"\n"


def texts():
    """Name, word, input, status and output. A missing end is told at the number of lines and one more."""
    def shown(cues, channels=512, skipped=0, first=0):
        return Repeated(b"show cues %d channels %d skipped %d first %d\n" % (cues, channels, skipped, first))

    def unended(text, before):
        return Repeated(b"show NoEndData %d\n" % (before + text.count + 1))

    lines = filled(b"", b"\n")
    yield "line ends alone", "check", lines, 1, unended(lines, 0)
    cues = filled(IDENT, b"CUE 1\n")
    yield "one cue again and again", "check", cues, 1, unended(cues, 1)
    yield "sections that alternate", "check", filled(IDENT, b"CUE 1\nGROUP 1\nSUB 1\nCUE 2\n", END), 0, shown(2)
    cues = b"".join(b"CUE %d\n" % cue for cue in range(1, 2000))
    last = b"CUE 2000\n" + every_channel()
    yield "every channel in the last of 2,000 cues", "check", filled(IDENT + b"SET CHANNELS 2048\n" + cues, last, END), 0, shown(2000, 2048)
    yield "2,000 cues of every channel", "check", Looks(), 0, shown(2000, 2048)
    yield "two channels again and again", "check", filled(IDENT + b"CUE 1\n", b"CHAN 512@1 1@2\n", END), 0, shown(1)
    falling = b"CLEAR ALL\nCUE 1\n" + b"".join(b"CHAN %d@50\n" % chan for chan in range(512, 0, -1))
    yield "channels in falling order", "check", filled(IDENT, falling, END), 0, shown(1)
    yield "comments alone", "check", filled(IDENT, b"! a comment\n", END), 0, shown(0)
    skipped = filled(IDENT, b"NOISE\n", END)
    yield "lines that are skipped", "check", skipped, 0, shown(0, skipped=skipped.count, first=2)
    yield "two dimmers patched again", "check", filled(IDENT, b"PATCH 1 1<8192@50 1<1@50\n", END), 0, shown(0)
    yield "a line without an end", "check", filled(IDENT, b"x"), 1, Repeated(b"show LineTooLong 2\n")
    bad = filled(IDENT + END, b"fly\n")
    yield "a script of bad lines", "render", bad, 0, Repeated(piece=b"bad\n", count=bad.count)
    noise = filled(IDENT + END, bytes(range(1, 10)) + bytes(range(11, 256)) + b"\n")
    yield "a script of all bytes", "render", noise, 0, Repeated(piece=b"bad\n", count=noise.count)


def run(program, word, text, answer):
    """Status, seconds and the most memory in megabytes; what it wrote is in the answer."""
    with tempfile.TemporaryFile() as source:
        for block in text.blocks():
            source.write(block)
        source.flush()
        os.lseek(source.fileno(), 0, os.SEEK_SET)
        began = time.monotonic()
        child = os.posix_spawn(program, [program, word], os.environ,
                               file_actions=[(os.POSIX_SPAWN_DUP2, source.fileno(), 0), (os.POSIX_SPAWN_DUP2, answer.fileno(), 1)])
        _, ended, usage = os.wait4(child, 0)
        return os.waitstatus_to_exitcode(ended), time.monotonic() - began, usage.ru_maxrss / 1024


def is_written(answer, output):
    """Whether the answer is this output."""
    answer.seek(0)
    return all(answer.read(len(block)) == block for block in output.blocks()) and answer.read(1) == b""


def main():
    program = os.path.abspath(sys.argv[1]) if len(sys.argv) > 1 else os.path.join(TOP, "crates/cuedesk/out/cuedesk")
    failed = 0
    for name, word, text, status, output in texts():
        with tempfile.TemporaryFile() as answer:
            got, seconds, memory = run(program, word, text, answer)
            wrong = [f"status {got}, not {status}"] * (got != status) + ["another output"] * (not is_written(answer, output))
        wrong += ["too slow"] * (seconds > SECONDS) + ["too much memory"] * (memory > MEGABYTES)
        failed += bool(wrong)
        print(f"{name:42}{len(text):>10} bytes {seconds:6.2f} s {memory:6.1f} MB  {'; '.join(wrong) or 'as wanted'}", flush=True)
    print(f"{failed} failed")
    return 1 if failed else 0


if __name__ == "__main__":
    sys.exit(main())
