"""The hosts' library, where it is, and what it tells of the show's lists."""
import importlib
import os
import re
import sys
from dataclasses import dataclass, replace
from types import ModuleType
from typing import TYPE_CHECKING, List

from .words import TOP, clean

if TYPE_CHECKING:
    from cuedesk import Desk

# How many shows that edits replaced are kept for `undo`, as by `cuedesk undo`.
UNDO = 16
# Lines of a canonical text that no list shows, and those that one does.
LEVELS = re.compile(rb"(?:^(?:CHAN|PATCH) [^\n]*\n)+", re.MULTILINE)
LINES = re.compile(rb"^(CUE|SUB|GROUP|\$\$BLOCK|\$\$ASSERT|TEXT|FOLLOWON|PART|UP|DOWN)\b ?(.*)$", re.MULTILINE)
# How many bytes of a text are read at a time: some ten milliseconds.
PIECE = 1 << 19


class Fault(Exception):
    """Why the seat can't begin."""


@dataclass(frozen=True)
class Cue:
    """A cue as the list shows it; times are texts in seconds."""

    number: str
    label: str = ""
    up: str = ""
    down: str = ""
    follow: str = ""
    parts: int = 0
    is_block: bool = False
    is_asserted: bool = False

    @property
    def marks(self) -> str:
        """What else there is to know of it: block, asserted, its parts, its follow-on."""
        words = ["block"] * self.is_block + ["assert"] * self.is_asserted + [f"{self.parts} parts"] * (self.parts > 1)
        return " ".join(words + [f"then {self.follow} s"] * bool(self.follow))

    @property
    def times(self) -> str:
        """The times of part 1: up and down, each with its delay, or one where they are the same."""
        return self.up if self.up == self.down else f"{self.up}/{self.down}"


@dataclass(frozen=True)
class Sub:
    """A submaster."""

    number: str
    label: str = ""


def library() -> ModuleType:
    """The hosts' module for Python, over the library that `make -C host` built, else the released one, or the one that CUEDESK_LIBRARY names."""
    sys.path.append(os.path.join(TOP, "host", "python"))
    try:
        return importlib.import_module("cuedesk")
    except (ImportError, OSError, AttributeError) as error:
        raise Fault(f"the hosts' library isn't there ({error}): `make -C host` builds it") from error


def opened(show: bytes, is_states: bool) -> "Desk":
    """A desk over the show's text."""
    cuedesk = library()
    try:
        return cuedesk.Desk(show, states=is_states, undo=UNDO)
    except (ValueError, MemoryError) as error:
        raise Fault(str(error)) from error


class Lists:
    """The cues and submasters of a canonical text, as `save` writes it; read piece by piece, so that ticks may go between."""

    def __init__(self, show: bytes) -> None:
        self.cues: List[Cue] = []
        self.subs: List[Sub] = []
        self._show = show
        self._at = 0
        self._record = b""

    def read_on(self) -> bool:
        """Reads the next piece. Whether it was the last one."""
        end = self._show.find(b"\n", self._at + PIECE) + 1 or len(self._show)
        for word, rest in LINES.findall(LEVELS.sub(b"", self._show[self._at:end])):
            self._take(word, clean(rest.decode(errors="replace")))
        self._at = end
        return end == len(self._show)

    def _take(self, word: bytes, rest: str) -> None:
        """One line."""
        if word in (b"CUE", b"SUB", b"GROUP"):
            self._record = word
            self.cues += [Cue(rest)] * (word == b"CUE")
            self.subs += [Sub(rest)] * (word == b"SUB")
        elif self._record == b"CUE":
            self.cues[-1] = with_line(self.cues[-1], word, rest)
        elif self._record == b"SUB" and word == b"TEXT":
            self.subs[-1] = Sub(self.subs[-1].number, rest)


def with_line(cue: Cue, word: bytes, text: str) -> Cue:
    """The cue with one line of its record more."""
    if word == b"PART":
        return replace(cue, parts=cue.parts + 1)
    if word in (b"UP", b"DOWN"):
        if cue.parts > 1:
            return cue
        time, _, delay = text.partition(" ")
        return replace(cue, **{word.decode().lower(): time if delay in ("", "0") else f"{time}+{delay}"})
    if word in (b"$$BLOCK", b"$$ASSERT"):
        return replace(cue, **{"is_block" if word == b"$$BLOCK" else "is_asserted": True})
    return replace(cue, **{"label" if word == b"TEXT" else "follow": text})
