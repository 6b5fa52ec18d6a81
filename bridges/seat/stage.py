"""The stage as rows of text: a bar for each slot that was ever up where they have room, else a grid."""
from typing import Dict, Iterator, List, NamedTuple, Set

from .words import percent

SLOTS = 512
# How many slots stand in a row of the grid, by what has room; how many columns each takes; and where they begin.
ACROSS, WIDE, LEFT = (32, 20, 10), 3, 6
EIGHTHS = " ▏▎▍▌▋▊▉█"
# How a level looks: its shade, from 1 for the darkest to 7; a slot that is dark is 0.
SHADES = 7
SHADE = [0] + [1 + level * SHADES // 256 for level in range(1, 256)]
# A level in a cell: per cent, FL for full, a dot for none.
CELL = [text.rjust(WIDE) for text in ["·"] + [percent(level).replace(" %", "") for level in range(1, 256)]]


class Piece(NamedTuple):
    """A piece of a row: its text, and how it looks, by a name or by a shade behind or before the text."""

    text: str
    look: str = "plain"
    shade: int = 0


Row = List[Piece]


def bar(part: float, wide: int, is_fine: bool) -> str:
    """A bar as long as a part of the columns given, in eighths of a column where the terminal can."""
    eighths = int(part * wide * 8)
    text = "█" * (eighths // 8) + (EIGHTHS[eighths % 8] if eighths % 8 else "") if is_fine else "#" * (eighths // 8)
    return text.ljust(wide, " " if is_fine else ".")


class Stage:
    """Draws the frames of some universes, and knows which slots were ever up."""

    def __init__(self, is_fine: bool) -> None:
        """With `is_fine` the terminal has blocks of eighths."""
        self._is_fine = is_fine
        self._known: Dict[int, Set[int]] = {}

    def note(self, universe: int, levels: bytes) -> None:
        """A new frame: slots that are up in it stay on show from now on."""
        known = self._known.setdefault(universe, set())
        known.update(place for place, level in enumerate(levels) if level)

    def rows(self, frames: Dict[int, bytes], columns: int, rows: int) -> List[Row]:
        """The whole stage, however many rows it is."""
        has_bars = len(frames) + sum(map(len, self._known.values())) <= rows
        out: List[Row] = []
        for universe, levels in frames.items():
            out.append([Piece(f"      UNIVERSE {universe}" + ("" if any(levels) else ", dark"), "dim")])
            out += self._bars(universe, levels, columns) if has_bars else self._grid(universe, levels, columns)
        return out

    def _bars(self, universe: int, levels: bytes, columns: int) -> Iterator[Row]:
        """A row for each slot that was ever up."""
        wide = max(4, min(60, columns - 15))
        for place in sorted(self._known.get(universe, ())):
            level = levels[place]
            yield [Piece(f" {place + 1:4} ", "dim"), Piece(bar(level / 255, wide, self._is_fine), "bar", SHADE[level]), Piece(f" {percent(level):>5}")]

    def _grid(self, universe: int, levels: bytes, columns: int) -> Iterator[Row]:
        """The rows of the grid in which a slot was ever up."""
        across = next((count for count in ACROSS if LEFT + WIDE * count < columns), ACROSS[-1])
        for number in sorted({place // across for place in self._known.get(universe, ())}):
            first = number * across
            yield [Piece(f"{first + 1:4}  ", "dim"), *cells(levels[first:first + across])]


def cells(levels: bytes) -> Iterator[Piece]:
    """The cells of a row, those that look the same in one piece."""
    text, shade = "", 0
    for level in levels:
        if SHADE[level] != shade and text:
            yield Piece(text, "cell", shade)
            text = ""
        shade = SHADE[level]
        text += CELL[level]
    yield Piece(text, "cell", shade)
