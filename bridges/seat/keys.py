"""What the operator's keys mean."""
import curses
import os
from dataclasses import dataclass
from typing import Callable, List, Optional, Union

from .player import Player
from .saving import Saver
from .words import tokens

Key = Union[str, int]

# How far an arrow moves a fader, in per cent.
STEP = 5
# What each key plays.
LINES = {" ": "go", "b": "back", "s": "settle", "u": "undo", "r": "redo"}
HELP = "space go  b back  g cue  s settle  arrows level  u undo  r redo  : line  q end"
ENTER, ESCAPE, ERASE = ("\n", "\r", curses.KEY_ENTER), "\x1b", ("\b", "\x7f", curses.KEY_BACKSPACE)


@dataclass
class Prompt:
    """A line that the operator is typing, and what is done with it. A question is answered by one key instead."""

    label: str
    done: Callable[[str], None]
    typed: str = ""
    is_question: bool = False
    takes: Callable[[str], bool] = str.isprintable


class Operator:
    """Takes one key after the other. Nothing here waits: while a line is typed the show plays on."""

    def __init__(self, player: Player, saver: Saver) -> None:
        self._player = player
        self._saver = saver
        self.prompt: Optional[Prompt] = None
        self.chosen = 0
        self.scroll = 0
        self.has_left = False

    def take(self, key: Key) -> None:
        """One key."""
        if self.prompt:
            self._take_typed(self.prompt, key)
        elif isinstance(key, str) and key in LINES:
            self._player.do(LINES[key])
        elif key == "g":
            self.prompt = Prompt("goto ", self._goto, takes=lambda letter: letter in "0123456789.")
        elif key == ":":
            self.prompt = Prompt(":", self._line)
        elif key == "q":
            self._ask_to_leave()
        elif key in (curses.KEY_UP, curses.KEY_DOWN):
            self._move(STEP if key == curses.KEY_UP else -STEP)
        elif key in (curses.KEY_LEFT, curses.KEY_RIGHT):
            self.chosen = max(0, min(self.chosen + (1 if key == curses.KEY_RIGHT else -1), len(self._player.subs)))
        elif key in (curses.KEY_NPAGE, curses.KEY_PPAGE):
            self.scroll = max(0, self.scroll + (8 if key == curses.KEY_NPAGE else -8))

    def faders(self) -> List[str]:
        """The master as the empty text, and the numbers of the submasters; `chosen` is a place in it."""
        return ["", *(sub.number for sub in self._player.subs)]

    def _take_typed(self, prompt: Prompt, key: Key) -> None:
        """A key while a line is typed."""
        if key == ESCAPE:
            self.prompt = None
        elif prompt.is_question:
            self.prompt = None
            prompt.done(key if isinstance(key, str) else "")
        elif key in ENTER:
            self.prompt = None
            if prompt.typed.strip():
                prompt.done(prompt.typed.strip())
        elif key in ERASE:
            prompt.typed = prompt.typed[:-1]
        elif key == "\x15":
            prompt.typed = ""
        elif isinstance(key, str) and prompt.takes(key):
            prompt.typed += key

    def _goto(self, number: str) -> None:
        """Goes to the cue of a number."""
        self._player.do(f"goto {number}")

    def _line(self, line: str) -> None:
        """A line of a script; `save` and `quit` are done here."""
        words = tokens(line)
        if words == ["save"]:
            self.prompt = Prompt("save into: ", self._save)
        elif words == ["quit"]:
            self._ask_to_leave()
        else:
            self._player.do(line)

    def _move(self, step: int) -> None:
        """Moves the chosen fader, or the master."""
        self.chosen = min(self.chosen, len(self._player.subs))
        sub = self.faders()[self.chosen]
        level = self._player.fader(sub) if sub else self._player.state.master
        wanted = max(0, min(100, int(level / 2.55 + 0.5) + step))
        self._player.do(f"fader {sub} at {wanted}" if sub else f"master at {wanted}")

    def _save(self, path: str, leaves: bool = False) -> None:
        """Saves the show into a file, which is asked about where it is there already."""
        path = os.path.expanduser(path)

        def answered(key: str) -> None:
            """Replaces it after a yes."""
            if key in ("y", "Y"):
                self._write(path, leaves)

        if os.path.exists(path):
            self.prompt = Prompt(f"{path} is there already: replace it? (y/n) ", answered, is_question=True)
        else:
            self._write(path, leaves)

    def _write(self, path: str, leaves: bool) -> None:
        """Begins to write; leaving waits for the end of it."""
        text = self._player.show_text()
        if text is None:
            self._player.say("save: out of memory")
        else:
            self._saver.begin(path, text, then=self._leave if leaves else None)

    def _leave(self) -> None:
        """Ends the seat."""
        self.has_left = True

    def _ask_to_leave(self) -> None:
        """Ends the seat, but where there are edits that aren't saved asks first."""
        def answered(key: str) -> None:
            """Leaves after a yes, or asks for a file."""
            if key in ("y", "Y"):
                self._leave()
            elif key in ("s", "S"):
                self.prompt = Prompt("save into: ", lambda path: self._save(path, leaves=True))

        if self._player.has_edits():
            self.prompt = Prompt("edits aren't saved: leave without them? (y, n, or s to save) ", answered, is_question=True)
        else:
            self._leave()
