"""For the tests: what the program says of a show at a moment, asked for by scripts of their own, beside the views' ways."""
import os
import random
import subprocess

TOP = os.path.dirname(os.path.dirname(os.path.abspath(__file__)))


def output(program: str, words: list[str], text: str) -> list[str]:
    """The lines that the program writes."""
    return subprocess.run([program, *words], input=text.encode(), stdout=subprocess.PIPE, check=False).stdout.decode().splitlines()


class Asked:
    """A show and its script, cut at any moment."""

    def __init__(self, program: str, path: str, job: str = "render") -> None:
        with open(path, encoding="utf-8") as file:
            lines = file.read().splitlines()
        self.program, self.job = program, job
        self.first = lines.index("ENDDATA") + 1
        self.head, self.script = "\n".join(lines[:self.first - 1]) + "\n", lines[self.first:]
        self.script = self.script[:self.script.index("quit")] if "quit" in self.script else self.script
        self.channels = int(output(program, ["check", *job.split()[1:]], self.head + "ENDDATA\n")[0].split()[4])

    def ask(self, script: list[str], patched: bool = False) -> list[str]:
        """The replies to a script; with `patched` channel c is on dimmer c alone."""
        rows = "".join(f"PATCH 1 {c}<{c}@FL\n" for c in range(1, self.channels + 1)) if patched else ""
        return output(self.program, self.job.split(), self.head + rows + "ENDDATA\n" + "".join(line + "\n" for line in script))

    def until(self, number: int, time: int) -> list[str]:
        """The script up to a moment after the line of that number in the file: the whole line, or of its ticks those up to the moment."""
        lines = self.script[:number - self.first]
        if not lines or lines[-1].split()[:1] != ["tick"]:
            return lines
        before = int(self.ask(lines[:-1] + ["frame 32"])[-1].split()[1])
        return lines[:-1] + ([f"tick {(time - before) // 2}"] if time > before else [])

    def outputs(self, number: int, time: int) -> dict[int, int]:
        """Each channel's output at a moment, of those that are up."""
        kept = [line for line in self.until(number, time) if line.split()[:1] not in (["patch"], ["unpatch"])]
        universes = -(-self.channels // 512)
        frames = self.ask(kept + [f"frame {u}" for u in range(1, universes + 1)], patched=True)[-universes:]
        cells = [(512 * u + int(slot), int(level)) for u, frame in enumerate(frames) for slot, level in (cell.split("=") for cell in frame.split()[3:])]
        return {slot: level for slot, level in cells if slot <= self.channels}

    def rows(self, number: int, time: int, cues: list[str]) -> dict[str, dict[int, int]]:
        """The tracked levels of cues at a moment, of those that are up."""
        found = {}
        for reply in self.ask(self.until(number, time) + [f"sheet {cue}" for cue in cues])[-len(cues):]:
            _, cue, *cells = reply.split()
            found[cue] = {int(c): int(level) for c, level in (cell.split("=") for cell in cells)}
        return found

    def position(self, number: int, time: int) -> str:
        """The cue that runs: with all cues taken away, `go` is refused with its number."""
        lines = self.until(number, time)
        cues = [line.split()[1] for line in self.ask(lines + ["save"]) if line.startswith("CUE ")]
        return self.ask(lines + [f"delete {cue}" for cue in cues] + ["go"])[-1].split()[-1]


def greatest(path: str, cues: int = 2000, channels: int = 2048) -> None:
    """Writes the greatest show that the page is for: each cue moves each channel, and a script plays some of them."""
    draw = random.Random(7)
    out = ["IDENT 3:0", f"SET CHANNELS {channels}"]
    for group in range(1, channels // 256 + 1):
        members = range((group - 1) * 256 + 1, group * 256 + 1)
        out += [f"GROUP {group}", f"TEXT Bar {group}"] + ["CHAN " + " ".join(f"{c}@FL" for c in members[k:k + 64]) for k in range(0, 256, 64)]
    out += ["SUB 1", "TEXT House", "CHAN " + " ".join(f"{c}@50" for c in range(1, 65))]
    for n in range(1, cues + 1):
        out += [f"CUE {n}", f"TEXT Cue number {n}", f"UP {draw.randrange(1, 400) / 100} {draw.randrange(100) / 100}", f"DOWN {draw.randrange(1, 400) / 100}"]
        out += ["$$BLOCK"] * (n % 50 == 0) + ["$$ASSERT"] * (n % 70 == 0) + ["FOLLOWON 1.5"] * (n % 7 == 3)
        out += ["CHAN " + " ".join(f"{c}@H{draw.randrange(256):02X}" for c in range(k, k + 256)) for k in range(1, channels, 256)]
    with open(path, "w", encoding="utf-8") as file:
        file.write("\n".join(out + ["ENDDATA"] + greatest_script(draw, channels)) + "\n")


def greatest_script(draw: random.Random, channels: int) -> list[str]:
    """Forty keys with ticks between them, a few edits and faders, and two lines that can't be done."""
    script = []
    for k in range(40):
        script += ["go", f"tick {draw.randrange(20, 120)}"]
        script += [f"set {k} chan {draw.randrange(1, channels)} at 50"] * (k % 10 == 4) + ["fader 1 at 80"] * (k % 9 == 5) + ["master at 70"] * (k % 11 == 7)
        script += ["goto 1500", "tick 50", "go", "bad line", "goto 2001"] * (k == 20)
    return script
