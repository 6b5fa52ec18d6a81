"""The seat's screen: cue list, stage, faders, what was said, keys."""
import curses
from typing import Dict, List, Optional, Tuple

from .clock import Clock
from .engine import Cue
from .keys import HELP, Operator
from .player import Player
from .stage import SHADES, Piece, Row, Stage, bar
from .words import clock_text, cut, percent, seconds, tail, wrapped

# Colours of 256 from dark to bright; text on the darkest two is white.
INKS, WHITE, BLACK = (58, 94, 136, 178, 214, 220, 221), 231, 16
# From this many columns on the stage stands beside the cue list.
BESIDE = 150
LIST_COLUMNS = 46
HEADING = [Piece("      CUE  UP/DOWN     LABEL", "dim")]
# How many rows what was said has; more where the last line is longer.
SAID = 3
# How much of a label stands in the row of the cue that runs.
LABEL = 24
# What stands for the letters beyond ASCII where the terminal has none of them.
ASCII = str.maketrans("▶›·", ">-.")
# Looks that fill their row.
FILLS = ("title", "runs")


def cue_name(number: str, cue: Optional[Cue]) -> str:
    """A cue by its number and its label."""
    return f"{number} {cue.label[:LABEL]}".rstrip() if cue else number


def running_row(player: Player, is_fine: bool) -> Row:
    """The cue that runs with its fade's progress, and the next one."""
    state = player.state
    name = cue_name(state.position, player.cue(state.position)) if state.position != "0" else "before the first cue"
    row = [Piece(f" {name}  ", "head")]
    if state.moment < state.ends:
        whole, gone = state.ends - state.began, state.moment - state.began
        row += [Piece(bar(gone / whole, 16, is_fine), "bar", SHADES), Piece(f" {seconds(gone)} of {seconds(whole)} s")]
    else:
        row.append(Piece("done" if state.live else "at rest"))
    following = "" if state.next is None else f"   next {cue_name(state.next, player.cue(state.next))}"
    if state.next and state.follow_at is not None:
        following += f", follows in {seconds(max(0, state.follow_at - state.moment))} s"
    return [*row, Piece(following or "   no next cue", "next")]


def cue_rows(player: Player, rows: int) -> List[Row]:
    """The part of the cue list around the cue that runs."""
    state = player.state
    here = next((place for place in map(player.place, (state.position, state.next)) if place is not None), len(player.cues))
    top = max(0, min(here - (rows - 1) // 3, len(player.cues) - rows))
    out = []
    for cue in player.cues[top:top + rows]:
        look = "runs" if cue.number == state.position else "next" if cue.number == state.next else "plain"
        mark = {"runs": "▶", "next": "›", "plain": " "}[look]
        out.append([Piece(f"{mark}{cue.number:>8}  {cue.times:<11} {cue.label}  {cue.marks}", look)])
    return out


def fader_row(player: Player, operator: Operator) -> Row:
    """The master and the submasters, of which the arrows move one."""
    labels = {sub.number: sub.label for sub in player.subs}
    row: Row = [Piece(" ")]
    for place, sub in enumerate(operator.faders()[operator.chosen // 6 * 6:][:6], operator.chosen // 6 * 6):
        level = player.fader(sub) if sub else player.state.master
        name = f"sub {sub} {labels[sub]}".strip()[:18] if sub else "master"
        row.append(Piece(f" {name} {percent(level)} ", "chosen" if place == operator.chosen else "plain"))
    return row


def said_rows(player: Player, most: int, columns: int) -> List[Row]:
    """What was said: the last line whole, as far as there is room for it, and lines before it."""
    out: List[str] = []
    for text in reversed(player.log):
        lines = wrapped(text[:most * columns], max(10, columns - 3)) or [""]
        if len(out) + len(lines) > (SAID if out else most):
            break
        out[:0] = lines
    return [[Piece(f" {line}")] for line in [""] * (SAID - len(out)) + out]


class Screen:
    """Puts the seat on the terminal, a row only where it is another one than before."""

    def __init__(self, window: "curses.window", player: Player, operator: Operator, name: str, is_fine: bool) -> None:
        self._window, self._player, self._operator, self._name, self._is_fine = window, player, operator, name, is_fine
        self._stage = Stage(is_fine)
        self._drawn: Dict[Tuple[int, int], Row] = {}
        self._size = (0, 0)
        for universe, levels in player.frames.items():
            self._stage.note(universe, levels)
        player.frame_listeners.append(self._stage.note)
        self._looks = looks()
        self._show_cursor(False)

    def draw(self, clock: Clock) -> None:
        """One draw, as large as the terminal is now."""
        self._player.refresh()
        size = rows, columns = self._window.getmaxyx()
        if size != self._size:
            self._window.erase()
            self._drawn.clear()
            self._size = size
        said = said_rows(self._player, max(2, rows // 4), columns)
        faders = rows - 2 - len(said)
        self._put(0, 0, self._title(clock), columns)
        self._put(1, 0, running_row(self._player, self._is_fine), columns)
        self._put(2, 0, HEADING, columns)
        self._draw_middle(3, max(0, faders - 4), columns)
        self._put(faders - 1, 0, [], columns)
        self._put(faders, 0, fader_row(self._player, self._operator), columns)
        for place, row in enumerate(said, faders + 1):
            self._put(place, 0, row, columns)
        self._draw_bottom(rows - 1, columns)
        self._window.refresh()

    def _title(self, clock: Clock) -> Row:
        """The show, the moment, how late the last tick was."""
        late = f"last tick {clock.late / 1e6:.1f} ms late, worst {clock.worst / 1e6:.1f}"
        return [Piece(f" {self._name}   {clock_text(self._player.state.moment)}   {late}", "title")]

    def _draw_middle(self, top: int, rows: int, columns: int) -> None:
        """The cue list, and the stage beside it or below."""
        if columns >= BESIDE:
            self._draw_list(top, rows, LIST_COLUMNS)
            self._draw_stage(top, rows, LIST_COLUMNS + 2, columns)
        else:
            listed = min(len(self._player.cues), max(1, rows * 2 // 5)) if rows else 0
            self._draw_list(top, listed, columns)
            self._draw_stage(top + listed, rows - listed, 0, columns)

    def _draw_list(self, top: int, rows: int, columns: int) -> None:
        """The cue list."""
        lines = cue_rows(self._player, rows)
        for place in range(rows):
            self._put(top + place, 0, lines[place] if place < len(lines) else [], columns)

    def _draw_stage(self, top: int, rows: int, left: int, columns: int) -> None:
        """The stage, as far as it has room; what doesn't fit can be scrolled to."""
        picture = self._stage.rows(self._player.frames, columns - left, rows)
        scroll = self._operator.scroll = max(0, min(self._operator.scroll, len(picture) - rows))
        shown = picture[scroll:scroll + rows]
        if len(picture) > rows and shown:
            shown[-1] = [Piece(f" rows {scroll + 1} to {scroll + rows - 1} of {len(picture)}; page keys show others", "dim")]
        for place in range(rows):
            self._put(top + place, left, shown[place] if place < len(shown) else [], columns)

    def _draw_bottom(self, y: int, columns: int) -> None:
        """The keys, or the line that is being typed with the cursor behind it."""
        prompt = self._operator.prompt
        text, wide = tail(f" {prompt.label}{prompt.typed}", max(0, columns - 2)) if prompt else (f" {HELP}", 0)
        self._put(y, 0, [Piece(text, "head" if prompt else "dim")], columns)
        self._show_cursor(bool(prompt))
        if prompt:
            self._window.move(y, wide)

    def _put(self, y: int, left: int, row: Row, right: int) -> None:
        """One row from a column on; what reaches past the right edge is cut off, and the rest up to there is cleared."""
        if y < 0 or y >= self._size[0] or self._drawn.get((y, left)) == row:
            return
        x = left
        for piece in row:
            whole = piece.text if self._is_fine else piece.text.translate(ASCII).encode("ascii", "replace").decode()
            text, wide = cut(whole, right - 1 - x)
            if text:
                self._window.addstr(y, x, text, self._looks.get((piece.look, piece.shade), curses.A_NORMAL))
            x += wide
        if x < right - 1:
            self._window.addstr(y, x, " " * (right - 1 - x), self._looks["title", 0] if row and row[-1].look in FILLS else curses.A_NORMAL)
        self._drawn[y, left] = row

    @staticmethod
    def _show_cursor(is_shown: bool) -> None:
        """Shows the cursor, or not."""
        try:
            curses.curs_set(1 if is_shown else 0)
        except curses.error:
            pass


def looks() -> Dict[Tuple[str, int], int]:
    """What each look of a piece is on this terminal; levels have colours where there are enough."""
    table = {("title", 0): curses.A_REVERSE, ("head", 0): curses.A_BOLD, ("dim", 0): curses.A_DIM, ("runs", 0): curses.A_REVERSE, ("next", 0): curses.A_BOLD,
             ("chosen", 0): curses.A_REVERSE, ("cell", 0): curses.A_DIM, ("bar", 0): curses.A_DIM}
    if not curses.has_colors() or curses.COLORS < 256:
        return table
    curses.use_default_colors()
    for place, ink in enumerate(INKS):
        curses.init_pair(1 + place, ink, -1)
        curses.init_pair(1 + SHADES + place, WHITE if place < 2 else BLACK, ink)
        table["bar", 1 + place] = curses.color_pair(1 + place)
        table["cell", 1 + place] = curses.color_pair(1 + SHADES + place)
    return table
