"""What is played: lines and ticks go to the desk, and what comes of them goes to whoever wants to know."""
from collections import deque
from dataclasses import dataclass
from typing import TYPE_CHECKING, Callable, Deque, Dict, List, Optional

from .engine import Cue, Lists, Sub
from .words import clean, clock_text, tokens, why

if TYPE_CHECKING:
    from cuedesk import Desk, State

# How many lines of what was said are kept.
KEPT = 100
# First words of lines that leave the show as it is.
NO_EDITS = frozenset(("go", "back", "goto", "settle", "fader", "master", "tick", "frame", "sheet", "save"))


@dataclass
class Reply:
    """The answer to one line."""

    line: str
    lines: List[str]

    @property
    def is_refused(self) -> bool:
        """Whether the line was refused or bad: then nothing has changed."""
        return bool(self.lines) and (self.lines[0] == "bad" or self.lines[0].startswith("refused "))

    @property
    def text(self) -> str:
        """The whole of it in one line; behind a refusal stands what it means."""
        text = " ".join(self.lines)
        return f"{text}: {meaning}" if self.is_refused and (meaning := why(text)) else text


class Player:
    """A show that is played. What was said is kept for the screen; listeners are told of each new frame and of each refusal."""

    def __init__(self, desk: "Desk", universes: int) -> None:
        """Frames are told of the universes from 1 to this one."""
        self._desk = desk
        self._saved = desk.show_text()
        self._lists: Optional[Lists] = Lists(self._saved)
        self._has_stale_lists = False
        self._is_at_end = False
        self.cues: List[Cue] = []
        self.subs: List[Sub] = []
        self._places: Dict[str, int] = {}
        self.state: "State" = desk.state()
        self.log: Deque[str] = deque(maxlen=KEPT)
        self.frames: Dict[int, bytes] = {universe: desk.frame(universe) for universe in range(1, universes + 1)}
        self.frame_listeners: List[Callable[[int, bytes], None]] = []
        self.refusal_listeners: List[Callable[[str, str], None]] = []
        while self._lists:
            self.refresh()

    def say(self, text: str) -> None:
        """Keeps one line for the operator, with the moment at which it was said."""
        self.log.append(f"{clock_text(self.state.moment)}  {clean(text)}")

    def do(self, line: str) -> Reply:
        """Has one script line answered at once; what it starts moves from the next tick on."""
        try:
            reply = Reply(line, self._desk.command(line))
        except MemoryError:
            reply = Reply(line, ["out of memory"])
        self._has_stale_lists |= not reply.is_refused and not NO_EDITS.issuperset(tokens(line)[:1])
        self.say(f"{line}: {reply.text}")
        if reply.is_refused:
            self._tell_refusal(line, reply.text)
        self.look()
        return reply

    def refuse(self, what: str, reason: str) -> None:
        """Says why something was refused without the desk."""
        self.say(f"{what}: {reason}")
        self._tell_refusal(what, reason)

    def tick(self) -> None:
        """Lets a tick pass."""
        if not self._desk.tick(1) and not self._is_at_end:
            self._is_at_end = True
            self.say("the last moment is reached: no tick passes any more")
        self.look()

    def look(self) -> None:
        """Takes where the desk is, and tells of each frame that is another one than before."""
        self.state = self._desk.state()
        for universe in self.frames:
            if self._desk.changed(universe):
                self.frames[universe] = self._desk.frame(universe)
                for tell in self.frame_listeners:
                    tell(universe, self.frames[universe])

    def refresh(self) -> None:
        """Reads on in the lists of cues and submasters, where an edit may have changed them."""
        if self._has_stale_lists:
            text = self.show_text()
            self._lists, self._has_stale_lists = Lists(text) if text is not None else None, text is None
        if self._lists and self._lists.read_on():
            self.cues, self.subs, self._lists = self._lists.cues, self._lists.subs, None
            self._places = {cue.number: place for place, cue in enumerate(self.cues)}

    def show_text(self) -> Optional[bytes]:
        """The canonical text of the show as it is now, or None where memory is wanted for it."""
        try:
            return self._desk.show_text()
        except MemoryError:
            return None

    def has_edits(self) -> bool:
        """Whether the show is another one than was opened, or saved last."""
        return self.show_text() != self._saved

    def saved(self, show: bytes) -> None:
        """This text was saved."""
        self._saved = show

    def fader(self, sub: str) -> int:
        """The level of a submaster's fader."""
        return self._desk.fader(int(sub))

    def cue(self, number: Optional[str]) -> Optional[Cue]:
        """The cue of a number, where there is one."""
        place = self.place(number)
        return None if place is None else self.cues[place]

    def place(self, number: Optional[str]) -> Optional[int]:
        """The place of a cue in the list."""
        return self._places.get(number or "")

    def _tell_refusal(self, what: str, reason: str) -> None:
        """Tells whoever wants to know of refusals."""
        for tell in self.refusal_listeners:
            tell(what, reason)
