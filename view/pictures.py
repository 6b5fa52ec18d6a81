#!/usr/bin/env python3
"""Makes the pictures of docs/GUIDE.md from shows in examples/, so that none is out of date.

    view/pictures.py [--program PATH] [--only NAME]

Pages are taken by Chromium, the stage and the operator's seat in tmux (`aha` makes a page of its colours); pngquant and optipng make them
small. What each picture was made of is kept in docs/pictures/sources.txt, which view/test.py compares.
"""
import argparse
import glob
import hashlib
import os
import shutil
import subprocess
import sys
import tempfile
from dataclasses import dataclass

from browser import Browser
from shows import TOP, default_program
from test_stage import STAGE, Terminal, outlets, start

PICTURES = os.path.join(TOP, "docs/pictures")
SOURCES = os.path.join(PICTURES, "sources.txt")
GRID = "document.getElementById('grid')"


@dataclass
class Page:
    """A picture of a page: the show and options, the moment's place, the part of the page, dark or light."""
    words: list[str]
    moment: int = 0
    part: str = "document.documentElement"
    dark: bool = False
    width: int = 1440
    before: str = ""


@dataclass
class Plot:
    """A plot, which is kept as it is written."""
    words: list[str]


@dataclass
class Live:
    """The stage in a terminal, once a text stands there."""
    show: str
    universes: int
    until: str
    columns: int
    rows: int


@dataclass
class Seat:
    """The operator's seat over a show: keys, each once a text stands on the screen, and the text that is waited for at the end."""
    show: str
    keys: list[tuple[str, str]]
    until: str
    columns: int
    rows: int


MAKES: dict[str, "Page | Plot | Live | Seat"] = {
    "rehearsal.png": Page(["play.asc"], 861, before="document.getElementById('lines').hidden = true"),
    "dark.png": Page(["play.asc"], 1475, dark=True, before="document.getElementById('lines').hidden = true"),
    "tracking.png": Page(["tracking.asc"], 3, GRID, width=800),
    "block.png": Page(["play.asc"], 1420, GRID),
    "only.png": Page(["edits.asc"], 53, GRID, width=800),
    "refused.png": Page(["edits.asc"], 57, "document.querySelector('header')", width=900),
    "undo.png": Page(["undo.asc", "--job", "undo"], 253, GRID, width=800),
    "fades.svg": Plot(["fades.asc"]),
    "assert.svg": Plot(["assert.asc", "asserted.txt"]),
    "follow.svg": Plot(["play.asc", "--channels", "9,17,22,24"]),
    "mix.svg": Plot(["mix.asc"]),
    "change.svg": Plot(["edits.asc", "change.txt", "--channels", "1"]),
    "lists.svg": Plot(["lists.asc", "two.txt", "--job", "two"]),
    "stage.png": Live("live.asc", 2, r"universe 1  4\.[5-9]", 84, 8),
    "grid.png": Live("wash.asc", 1, r"universe 1  5\.[5-9]", 106, 18),
    "seat.png": Seat("play.asc", [("last tick", "Space"), (r" 1 Preset .* [1-4]\.\d of", "Space"), (r" 2 House .* [2-3]\.\d of", "b"), ("back: ok", "b"),
                                  ("NoCueBefore", "g"), ("goto", "3"), ("goto 3", "Enter")], r" 3 She enters .* [2-4]\.\d of", 104, 34),
}


def example(name: str) -> str:
    """A file of examples/."""
    return os.path.join(TOP, "examples", name)


def words_of(words: list[str]) -> list[str]:
    """The words of a view, of which files stand in examples/."""
    return [example(word) if word.endswith((".asc", ".txt")) else word for word in words]


def view(program: str, name: str, words: list[str]) -> bytes:
    """What a view writes."""
    return subprocess.run([sys.executable, os.path.join(TOP, "view", name), *words_of(words), "--program", program], stdout=subprocess.PIPE, check=True).stdout


def seat_sources() -> list[str]:
    """The files of the operator's seat."""
    bridges = os.path.join(TOP, "bridges")
    return [os.path.join(bridges, "desk.py"), *sorted(glob.glob(os.path.join(bridges, "seat", "*.py")))]


def source(program: str, make: "Page | Plot | Live | Seat") -> bytes:
    """All that a picture is made of."""
    if isinstance(make, Seat):
        return b"".join(open(path, "rb").read() for path in [example(make.show), *seat_sources()]) + repr(make).encode()
    if isinstance(make, Live):
        with open(example(make.show), "rb") as show, open(STAGE, "rb") as stage:
            return show.read() + stage.read() + repr(make).encode()
    return view(program, "plot.py", make.words) if isinstance(make, Plot) else view(program, "page.py", make.words) + repr(make).encode()


def sum_of(data: bytes) -> str:
    """A short name for what a picture is made of."""
    return hashlib.sha256(data).hexdigest()[:16]


def take(program: str, make: "Page | Plot | Live | Seat", data: bytes, path: str, folder: str) -> None:
    """Makes one picture."""
    if isinstance(make, Plot):
        with open(path, "wb") as file:
            file.write(data)
    elif isinstance(make, Page):
        page = os.path.join(folder, "page.html")
        with open(page, "wb") as file:
            file.write(view(program, "page.py", make.words))
        with Browser(width=make.width, dark=make.dark) as browser:
            browser.open(page, f"#{make.moment}")
            browser.value(make.before or "0")
            browser.picture(path, make.part, 16 if make.part == Page.part else 2)
    elif isinstance(make, Seat):
        seat(make, path, folder)
    else:
        stage(program, make, path, folder)


def stage(program: str, make: Live, path: str, folder: str) -> None:
    """Takes the stage while a run goes on."""
    with Terminal(make.columns, make.rows) as terminal:
        start(terminal, program, outlets(folder, os.path.basename(path), make.universes), example(make.show), make.universes)
        screen(terminal, make.until, path, folder)


def seat(make: Seat, path: str, folder: str) -> None:
    """Takes the operator's seat while a show is played."""
    with Terminal(make.columns, make.rows) as terminal:
        terminal.type(f"{sys.executable} {seat_sources()[0]} {example(make.show)}")
        for until, key in make.keys:
            terminal.until(until)
            terminal.type("", key)
        screen(terminal, make.until, path, folder, "-peN")


def screen(terminal: Terminal, until: str, path: str, folder: str, how: str = "-pe") -> None:
    """Takes a terminal once a text stands there; with N in `how` rows are as long as it is wide."""
    terminal.until(until)
    text = terminal.tmux("capture-pane", "-t", "a", how)
    terminal.type("", "C-c")
    page = os.path.join(folder, "screen.html")
    with open(page, "wb") as file:
        file.write(subprocess.run(["aha", "--black"], input=text.rstrip().encode(), stdout=subprocess.PIPE, check=True).stdout.replace(b"<pre>", b"<pre style='display: inline-block; margin: 8px; font-family: DejaVu Sans Mono'>"))
    with Browser(width=1000) as browser:
        browser.open(page)
        browser.picture(path, "document.querySelector('pre')", 8)


def smaller(path: str) -> None:
    """Makes a picture small."""
    if path.endswith(".png"):
        subprocess.run(["pngquant", "--force", "--skip-if-larger", "--quality", "70-95", "--strip", "--output", path, path], check=False)
        subprocess.run(["optipng", "-quiet", "-o2", path], check=True)


def known_sums() -> dict[str, str]:
    """What each picture was made of when it was made."""
    if not os.path.exists(SOURCES):
        return {}
    with open(SOURCES, encoding="utf-8") as file:
        return dict(line.split() for line in file)


def main() -> int:
    """Makes the pictures that are out of date, or those named."""
    parser = argparse.ArgumentParser(description="Makes the pictures of docs/GUIDE.md.")
    parser.add_argument("--program", help="the program, where it isn't this repository's")
    parser.add_argument("--only", default="", help="pictures whose names have this in them, whether out of date or not")
    given = parser.parse_args()
    lacking = [name for name in ("chromium", "tmux", "aha", "pngquant", "optipng") if not shutil.which(name)]
    if lacking:
        print(f"pictures.py: apt-get install {' '.join(lacking)}", file=sys.stderr)
        return 2
    program, sums = os.path.abspath(given.program or default_program()), known_sums()
    os.makedirs(PICTURES, exist_ok=True)
    for name, make in MAKES.items():
        data, path = source(program, make), os.path.join(PICTURES, name)
        if given.only in name if given.only else sums.get(name) != sum_of(data) or not os.path.exists(path):
            with tempfile.TemporaryDirectory(prefix="view-pictures-") as folder:
                take(program, make, data, path, folder)
            smaller(path)
            print(f"{name}: {os.path.getsize(path):,} bytes")
        sums[name] = sum_of(data)
    with open(SOURCES, "w", encoding="utf-8") as file:
        file.write("".join(f"{name} {sums[name]}\n" for name in MAKES))
    return 0


if __name__ == "__main__":
    sys.exit(main())
