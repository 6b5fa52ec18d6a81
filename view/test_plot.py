"""Plots, read back: the curve of each channel at ten moments, the lines of keys and follow-ons, delays and interrupted fades."""
import os
import re
import subprocess
import sys
import xml.etree.ElementTree as tree

from asking import TOP, Asked

PLOT = os.path.join(TOP, "view/plot.py")
MOMENTS = 10


def make(program: str, show: str, *more: str) -> tuple[tree.Element, int]:
    """Makes a plot; its tree and the status."""
    run = subprocess.run([sys.executable, PLOT, show, "--program", program, *more], stdout=subprocess.PIPE, check=False)
    return tree.fromstring(run.stdout), run.returncode


def of_class(picture: tree.Element, name: str) -> list[tree.Element]:
    """The elements of a class."""
    return [each for each in picture.iter() if name in each.get("class", "").split()]


def points(path: str) -> list[tuple[float, float]]:
    """The points of a path of straight lines."""
    return [(float(x), float(y)) for x, y in (pair.split() for pair in path[1:].split("L"))]


def curve_at(line: list[tuple[float, float]], place: float) -> list[float]:
    """The heights of a curve at a place: both where it jumps there."""
    near = [y for x, y in line if abs(x - place) < 0.06]
    if near:
        return near
    (x0, y0), (x1, y1) = next((a, b) for a, b in zip(line, line[1:]) if a[0] <= place <= b[0])
    return [y0 + (y1 - y0) * (place - x0) / (x1 - x0)]


def ten_moments(program: str, _: str, name: str, channels: list[int]) -> list[str]:
    """The curves at ten moments."""
    show, wrong = os.path.join(TOP, "examples", name), []
    picture, _ = make(program, show, "--channels", ",".join(map(str, channels)))
    asked = Asked(program, show)
    length = int(asked.ask(asked.script + ["frame 32"])[-1].split()[1])
    grid = [each for each in of_class(picture, "grid") if "H" in each.get("d", "")]
    for path, lane in zip(of_class(picture, "level"), grid):
        channel, line = int(path.get("data-channel")), points(path.get("d"))
        low, high = (float(y) for y in re.findall(r"M[\d.]+ ([\d.]+)H", lane.get("d")))
        for i in range(MOMENTS):
            moment = length * i // (MOMENTS - 1) // 2 * 2
            number = line_at(asked, moment)
            wanted = asked.outputs(number, moment).get(channel, 0)
            levels = [(low - y) / (low - high) * 255 for y in curve_at(line, line[0][0] + (line[-1][0] - line[0][0]) * moment / length)]
            if not any(abs(level - wanted) < 0.7 for level in levels):
                wrong.append(f"channel {channel} at {moment}: {levels} for {wanted}")
    return wrong + ([] if len(grid) == len(channels) == len(of_class(picture, "level")) else ["a lane is missing"])


def line_at(asked: Asked, moment: int) -> int:
    """The number of a line whose ticks reach a moment, or of the first line."""
    for i, line in enumerate(asked.script):
        if line.startswith("tick") and int(asked.ask(asked.script[:i + 1] + ["frame 32"])[-1].split()[1]) >= moment:
            return asked.first + i + 1 if moment else asked.first
    return asked.first


def marks(program: str, _: str) -> list[str]:
    """What the plot of the fades says: keys, the follow-on, the delays, and the fades that are interrupted at a quarter or so."""
    picture, _ = make(program, os.path.join(TOP, "examples/fades.asc"))
    titles = [title.text for name in ("key", "follow", "delay", "ring") for each in of_class(picture, name) for title in each.iter("{http://www.w3.org/2000/svg}title")]
    # Channel 1 is three quarters up at 1.5 s, when cue 2 takes it: 255 x 75 / 100. Channel 3 has gone 100 of its 400 when cue 3 follows.
    wanted = ["go → 1", "go → 2", "follow → 3", "channel 2 waits for 1 s", "channel 1 waits for 0.5 s", "channel 2 waits for 0.5 s",
              "channel 1 is interrupted at 191 of 255", "channel 3 is interrupted at 63 of 255"]
    return [f"{each!r} isn't said" for each in wanted if each not in titles] + [f"{each!r} is said" for each in titles if each not in wanted and "waits" not in each]


def bad_input(program: str, folder: str) -> list[str]:
    """A show with a fault, wrong lines, no script, a channel that isn't there."""
    wrong = []
    for name, text, more, status, wanted in (
            ("fault", "IDENT 3:0\nCUE x\n", [], 1, "this show is refused: BadNumber, line 2"), ("lines", "IDENT 3:0\nCUE 1\nCHAN 1@FL\nENDDATA\ngo\ngo\nfly\n", [], 0, "2 lines of the script (✗) were refused or bad"),
            ("none", "IDENT 3:0\nCUE 1\nCHAN 1@FL\nENDDATA\n", [], 0, "There is no script")):
        show = os.path.join(folder, f"plot-{name}.asc")
        with open(show, "w", encoding="utf-8") as file:
            file.write(text)
        picture, ended = make(program, show, *more)
        if ended != status or wanted not in "".join(picture.itertext()):
            wrong.append(f"{name}: status {ended}, {wanted!r} isn't said")
    run = subprocess.run([sys.executable, PLOT, os.path.join(TOP, "examples/fades.asc"), "--channels", "600", "--program", program], capture_output=True, check=False)
    return wrong + ([] if run.returncode == 2 and b"no channel 600" in run.stderr and not run.stdout else ["channel 600 isn't named"])


def full_device(program: str, _: str) -> list[str]:
    """Where what is made can't be written, one line says so, and the status is 2."""
    wrong = []
    for name in ("plot.py", "page.py"):
        with open("/dev/full", "wb") as full:
            words = [sys.executable, os.path.join(TOP, "view", name), os.path.join(TOP, "examples/first.asc"), "--program", program]
            run = subprocess.run(words, stdout=full, stderr=subprocess.PIPE, check=False)
        wrong += [] if (run.returncode, run.stderr) == (2, f"{name}: the output can't be written: No space left on device\n".encode()) else [f"{name}: status {run.returncode}, {run.stderr[-300:]!r}"]
    return wrong


def any_text(program: str, folder: str) -> list[str]:
    """File names and texts of any letters, and what XML can't have: the picture can be read, in any locale."""
    wrong = []
    name = "Bühne 客席 <&>.asc"
    show = os.path.join(folder, name)
    with open(show, "w", encoding="utf-8") as file:
        file.write("IDENT 3:0\nCUE 1\nCHAN 1@FL\nENDDATA\ngo\ntick 5\nlabel 1 Tür\x01<&>\x1b[1m\ntick 5\n")
    for locale in ("C.UTF-8", "POSIX"):
        run = subprocess.run([sys.executable, PLOT, show, "--program", program], stdout=subprocess.PIPE, env={**os.environ, "LC_ALL": locale, "PYTHONIOENCODING": "ascii"}, check=False)
        said = "".join(tree.fromstring(run.stdout).itertext()) if run.returncode == 0 else ""
        wrong += [f"{locale}: {part!r} isn't said" for part in (name, "label 1 Tür\ufffd<&>\ufffd[1m") if part not in said]
    return wrong


def cases() -> list[tuple[str, object]]:
    """What is tested, by name."""
    shows = [("fades.asc", [1, 2, 3]), ("live.asc", [1, 2, 3, 4]), ("play.asc", [1, 3, 9, 21])]
    return [*[(f"plot: ten moments of {name}", lambda p, f, name=name, channels=channels: ten_moments(p, f, name, channels)) for name, channels in shows],
            ("plot: keys, delays, interrupted fades", marks), ("plot: bad input", bad_input), ("plot: any text", any_text), ("plot and page: a full device", full_device)]
