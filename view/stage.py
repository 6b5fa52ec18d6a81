#!/usr/bin/env python3
"""Draws a live run in a terminal: the slots of the universes 1 to U, as the outlets of `cuedesk run U` bring them.

    view/stage.py U [--folder FOLDER] [--plain]

The outlets are the named pipes (or files) universe-1.txt to universe-U.txt in the folder. Bars where all slots that were ever up fit,
else a grid of 512 to a universe; arrow keys move where there is more than a screen, q ends. At the end the terminal is as it was, and
the last stage stands below as lines. Where standard output is no terminal, or one that isn't known here, each draw is a line a universe.
"""
import argparse
import curses
import locale
import os
import signal
import sys
import threading
import time
from dataclasses import dataclass, field
from typing import Callable, Iterator, NamedTuple

from shows import percent

DRAWS = 25
SLOTS = 512
# How many slots stand in a row of the grid, and in how many columns each, by the terminal's width.
GRIDS = ((32, 3), (32, 2), (16, 3), (8, 3), (4, 3))
# Colours of 256 for levels from dark to bright; on the darkest two text is white, on the others black.
SHADES, WHITE, BLACK = (58, 94, 136, 178, 214, 220, 221), 231, 16
EIGHTHS = " ▏▎▍▌▋▊▉█"


@dataclass
class Universe:
    """The last line of an outlet, and the slots that were ever up."""
    number: int
    count: int = 0
    moment: int = 0
    levels: bytearray = field(default_factory=lambda: bytearray(SLOTS))
    known: set[int] = field(default_factory=set)
    lines: int = 0
    said: str = "no line yet"
    open: bool = True

    def take(self, line: str) -> None:
        """A line of the outlet: `frame COUNT MOMENT UNIVERSE` and `slot=value` for each slot that isn't 0. One that was cut off is no frame."""
        self.lines += 1
        try:
            word, count, moment, universe, *cells = line.split()
            pairs = [tuple(map(int, cell.split("="))) for cell in cells]
            if not line.endswith("\n") or word != "frame" or int(universe) != self.number or any(not (1 <= s <= SLOTS and 0 <= v <= 255) for s, v in pairs):
                raise ValueError(line)
            self.count, self.moment, self.levels, self.said = int(count), int(moment), bytearray(SLOTS), ""
        except ValueError:
            self.said = f"line {self.lines} of universe-{self.number}.txt is no frame of this universe"
            return
        for slot, value in pairs:
            self.levels[slot - 1] = value
            self.known.add(slot)

    def head(self) -> str:
        """What stands above its slots."""
        up = sum(map(bool, self.levels))
        state = "" if self.open else ", closed"
        return f"universe {self.number}  {self.moment / 100:.2f} s  after {self.count} command{'' if self.count == 1 else 's'}, {up} {'slot' if up == 1 else 'slots'} up{state}" + (f"  ({self.said})" if self.said else "")


@dataclass
class Stage:
    """All universes, which readers fill and one drawer shows."""
    universes: list[Universe]
    lock: threading.Lock = field(default_factory=threading.Lock)
    changed: bool = True

    def read(self, universe: Universe, path: str) -> None:
        """Takes the lines of an outlet until it is closed."""
        try:
            with open(path, encoding="latin-1") as outlet:
                for line in outlet:
                    with self.lock:
                        universe.take(line)
                        self.changed = True
        except OSError as error:
            universe.said = f"{path} can't be read: {error.strerror}"
        with self.lock:
            universe.open, self.changed = False, True

    def over(self) -> bool:
        """Whether every outlet is closed."""
        return not any(universe.open for universe in self.universes)

    def start(self, folder: str) -> None:
        """A reader for each outlet; they end with the program."""
        for universe in self.universes:
            threading.Thread(target=self.read, args=(universe, os.path.join(folder, f"universe-{universe.number}.txt")), daemon=True).start()

    def bars_fit(self, rows: int) -> bool:
        """Whether a bar for each slot that was ever up has room."""
        return sum(len(universe.known) + 1 for universe in self.universes) <= rows


class Piece(NamedTuple):
    """A piece of a row of the screen: its text, how it looks (`plain`, `dim`, `head`, `bar`, `cell`), and the level it shows."""
    text: str
    look: str = "plain"
    level: int = 0


Row = list[Piece]


def bar(level: int, wide: int, fine: bool) -> str:
    """A bar as long as a level, in eighths of a column where the terminal can."""
    eighths = level * wide * 8 // 255
    text = "█" * (eighths // 8) + (EIGHTHS[eighths % 8] if eighths % 8 else "") if fine else "#" * (eighths // 8)
    return text.ljust(wide, " " if fine else ".")


def bar_rows(universe: Universe, columns: int, fine: bool) -> Iterator[Row]:
    """A row for each slot that was ever up."""
    wide = max(4, min(100, columns - 14))
    for slot in sorted(universe.known):
        level = universe.levels[slot - 1]
        yield [Piece(f" {slot:4} ", "dim"), Piece(bar(level, wide, fine), "bar", level), Piece(f" {percent(level):>5}")]


def grid_rows(universe: Universe, columns: int, fine: bool) -> Iterator[Row]:
    """All 512 slots, 32 to a row where they fit: per cent, FL for full, a dot for a slot that is dark. Where cells touch, every second is underlined."""
    across, wide = next(((n, w) for n, w in GRIDS if 7 + n * w <= columns), GRIDS[-1])
    for first in range(0, SLOTS, across):
        cells = [(percent(level).replace(" %", "") if level else "·" if fine else ".").rjust(min(2, wide)) for level in universe.levels[first:first + across]]
        row = [Piece(f"{first + 1:4}  ", "dim")]
        for i, text in enumerate(cells):
            row += [Piece(text, "odd" if wide == 2 and i % 2 else "cell", universe.levels[first + i]), Piece(" " * (wide - 2))]
        yield row


def rows_of(stage: Stage, columns: int, rows: int, fine: bool) -> list[Row]:
    """The whole picture, however long it is."""
    out: list[Row] = []
    bars = stage.bars_fit(rows)
    for universe in stage.universes:
        out.append([Piece(universe.head(), "head")])
        out += bar_rows(universe, columns, fine) if bars else grid_rows(universe, columns, fine)
    return out


class Screen:
    """The terminal while the run goes on."""

    def __init__(self, window: "curses.window", stage: Stage, fine: bool) -> None:
        self.window, self.stage, self.fine, self.top = window, stage, fine, 0
        window.nodelay(True)
        window.keypad(True)
        self.coloured = self.colours()
        try:
            curses.curs_set(0)
        except curses.error:
            pass

    @staticmethod
    def colours() -> bool:
        """Makes colours for levels, of bars and behind cells; whether the terminal has enough of them."""
        if not curses.has_colors() or curses.COLORS < 256:
            return False
        curses.use_default_colors()
        for i, shade in enumerate(SHADES):
            curses.init_pair(1 + i, shade, -1)
            curses.init_pair(1 + len(SHADES) + i, WHITE if i < 2 else BLACK, shade)
        return True

    def look(self, piece: Piece) -> int:
        """How a piece looks: a level by its shade, full in bold; a dark slot faint."""
        if piece.look not in ("bar", "cell", "odd"):
            return {"head": curses.A_BOLD, "dim": curses.A_DIM}.get(piece.look, curses.A_NORMAL)
        shade = 1 + piece.level * len(SHADES) // 256 + (0 if piece.look == "bar" else len(SHADES))
        ink = curses.A_DIM if not piece.level else curses.color_pair(shade) if self.coloured else curses.A_NORMAL
        return ink | (curses.A_BOLD if piece.level == 255 else 0) | (curses.A_UNDERLINE if piece.look == "odd" else 0)

    def draw(self) -> None:
        """One draw, as large as the terminal is now."""
        rows, columns = self.window.getmaxyx()
        with self.stage.lock:
            picture = rows_of(self.stage, columns, rows, self.fine)
            self.stage.changed = False
        more = len(picture) > rows
        self.top = max(0, min(self.top, len(picture) - rows + 1)) if more else 0
        self.window.erase()
        for y, row in enumerate(picture[self.top:self.top + rows - more]):
            self.put(y, row, columns)
        if more:
            self.put(rows - 1, [Piece(f"rows {self.top + 1} to {self.top + rows - 1} of {len(picture)}; arrow keys show others, q ends", "dim")], columns)
        self.window.refresh()

    def put(self, y: int, row: Row, columns: int) -> None:
        """One row; what reaches past the right edge is cut off."""
        x = 0
        for piece in row:
            text = piece.text[:max(0, columns - 1 - x)]
            if text:
                self.window.addstr(y, x, text, self.look(piece))
            x += len(text)

    def keys(self) -> bool:
        """Takes the keys that were pressed; whether to go on."""
        while (key := self.window.getch()) != -1:
            rows = self.window.getmaxyx()[0]
            step = {curses.KEY_UP: -1, curses.KEY_DOWN: 1, curses.KEY_PPAGE: 1 - rows, curses.KEY_NPAGE: rows - 1, curses.KEY_HOME: -10 ** 6, curses.KEY_END: 10 ** 6}
            if key in (ord("q"), ord("Q")):
                return False
            self.top += step.get(key, 0)
            self.stage.changed = True
        return True

    def run(self) -> None:
        """Draws what changed, at most 25 times a second, until all outlets are closed."""
        while self.keys():
            if self.stage.changed:
                self.draw()
            elif self.stage.over():
                return
            time.sleep(1 / DRAWS)


def plain_row(universe: Universe) -> str:
    """A universe in one line."""
    slots = "".join(f" {slot}={percent(level).replace(' ', '')}" for slot, level in enumerate(universe.levels, 1) if level)
    return universe.head() + ":" + (slots or " dark")


def run_plain(stage: Stage, write: Callable[[str], None]) -> None:
    """Writes a line for each universe that changed, at most 25 times a second; the last of each is always written."""
    written: dict[int, str] = {}
    while True:
        with stage.lock:
            over = stage.over()
            lines = {universe.number: plain_row(universe) for universe in stage.universes if universe.lines or not universe.open}
        for number, line in lines.items():
            if written.get(number) != line:
                write(line)
        written.update(lines)
        if over:
            return
        time.sleep(1 / DRAWS)


def last_stage(stage: Stage, fine: bool) -> str:
    """The stage at the end, as lines for the terminal that is as it was."""
    size = os.get_terminal_size(sys.stdout.fileno())
    with stage.lock:
        rows = rows_of(stage, size.columns, max(24, size.lines), fine)
    return "".join("".join(piece.text for piece in row)[:size.columns].rstrip() + "\n" for row in rows)


def run_screen(stage: Stage) -> None:
    """The terminal's stage; whatever ends it, the terminal is as it was."""
    fine = locale.nl_langinfo(locale.CODESET).upper().replace("-", "") == "UTF8"
    try:
        curses.wrapper(lambda window: Screen(window, stage, fine).run())
    finally:
        sys.stdout.write(last_stage(stage, fine))
        sys.stdout.flush()


def is_known_terminal() -> bool:
    """Whether the machine knows how to draw on the terminal."""
    try:
        curses.setupterm()
    except curses.error:
        return False
    return True


def universe_count(text: str) -> int:
    """How many universes: 1 to 32."""
    if not text.isdigit() or not 1 <= int(text) <= 32:
        raise argparse.ArgumentTypeError(f"{text} isn't a number from 1 to 32")
    return int(text)


def options() -> argparse.Namespace:
    """The words of the command line."""
    parser = argparse.ArgumentParser(description="Draws the outlets of `cuedesk run U` in a terminal.")
    parser.add_argument("universes", metavar="U", type=universe_count, help="how many universes, 1 to 32")
    parser.add_argument("--folder", default=".", help="where universe-1.txt and so on are (this folder)")
    parser.add_argument("--plain", action="store_true", help="lines, also on a terminal")
    return parser.parse_args()


def main() -> int:
    """Draws until the outlets are closed; 1 where one isn't there, 130 after Ctrl-C."""
    given = options()
    locale.setlocale(locale.LC_ALL, "")
    signal.signal(signal.SIGTERM, lambda *_: sys.exit(143))
    stage = Stage([Universe(number) for number in range(1, given.universes + 1)])
    missing = [path for u in stage.universes if not os.path.exists(path := os.path.join(given.folder, f"universe-{u.number}.txt"))]
    if missing:
        print(f"stage.py: there is no outlet {missing[0]}; make it by `mkfifo {missing[0]}`, start this, and then `cuedesk run {given.universes}` in that folder", file=sys.stderr)
        return 1
    stage.start(given.folder)
    try:
        if given.plain or not sys.stdout.isatty() or not is_known_terminal():
            run_plain(stage, lambda line: print(line, flush=True))
        else:
            run_screen(stage)
    except KeyboardInterrupt:
        return 130
    except BrokenPipeError:
        os.dup2(os.open(os.devnull, os.O_WRONLY), sys.stdout.fileno())
    return 0


if __name__ == "__main__":
    sys.exit(main())
