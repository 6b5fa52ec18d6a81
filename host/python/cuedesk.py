"""cuedesk: a theatre lighting desk's engine, in Python.

    import cuedesk

    with cuedesk.Desk(show_text) as desk:
        desk.do("go")
        while desk.state().fades:
            desk.tick()
            if desk.changed(1):
                send(1, desk.frame(1))

A desk is opened over a show's text, and does the lines of a script (docs/FORMATS.md): keys, faders, edits, ticks, and lines that show
something. It is libcuedesk, by ctypes; nothing here is compiled. The library is looked for at the path in the environment variable
CUEDESK_LIBRARY, then beside this file and in the folder above it, then where the system keeps libraries. In a checkout of the repository
it is the one that `make -C host` built, or else the released one.

A desk belongs to one thread at a time; several desks in several threads share nothing. While a call is in the library, other threads run.
"""
from __future__ import annotations

import ctypes
import os
from decimal import Decimal
from types import TracebackType
from typing import Any, Callable, Dict, List, NamedTuple, Optional, Type, Union

__all__ = ["BadLine", "Cue", "Desk", "Refused", "ShowRefused", "State", "SLOTS", "TICK", "UNIVERSES", "__version__"]
__version__ = "1.0.9"

#: Universes, the slots of each, and how many hundredths of a second a tick is.
UNIVERSES = 32
SLOTS = 512
TICK = 2

#: A cue number: `"1.5"` as in a script, or the number.
CueNumber = Union[str, int, float, Decimal]

# The version of the header that this was written from, and the library's file.
_VERSION = 1
_NAME = "libcuedesk.so.1"
_ROOM = ctypes.c_size_t(1 << 16)
_SLOTS = ctypes.c_size_t(SLOTS)
_CUE_MAX = 9_999_999
_OK, _CLOSED, _OPEN, _MEMORY, _SHOW_REFUSED, _TOO_LONG, _NOT_A_LINE, _OUT_OF_RANGE, _QUIT, _AT_END, _MORE = range(11)
_CAUSES = ["", "NoIdent", "BadNumber", "OutOfRange", "NotInRecord", "LineTooLong", "ShortList", "NoEndData"]


class ShowRefused(ValueError):
    """The show's text has a fault."""

    def __init__(self, cause: str, line: int) -> None:
        super().__init__(f"show {cause} {line}")
        #: The first fault, as `show CAUSE LINE` names it: `"BadNumber"`, for one.
        self.cause = cause
        #: The number of its line, from 1.
        self.line = line


class Refused(ValueError):
    """A line was refused, and changed nothing; but a line `tick k` keeps the ticks before the one that was refused."""

    def __init__(self, line: str, reason: str) -> None:
        super().__init__(f"{line.strip()}: refused {reason}")
        #: The line.
        self.line = line
        #: Why: a name and its numbers, as `"NoCueAfter 3"`.
        self.reason = reason


class BadLine(ValueError):
    """A line can't be read, and did nothing."""

    def __init__(self, line: str) -> None:
        super().__init__(f"{line.strip()}: bad")
        #: The line.
        self.line = line


class State(NamedTuple):
    """Where the playback stands. Moments are hundredths of a second since the opening; cue numbers are as in a script."""

    #: The present moment.
    moment: int
    #: The cue that runs: that of the newest live run, or where the playback came to rest; `"0"` before the first.
    position: str
    #: The cue that a `go` would run, or None where none is above the position.
    next: Optional[str]
    #: How many runs are live; with 0 the playback is at rest.
    live: int
    #: From this moment on every live run is over; 0 where none is live.
    over_at: int
    #: The moment at which the newest live run began; 0 where none is live.
    began: int
    #: From this moment on that run is over; 0 where none is live.
    ends: int
    #: The moment at which the pending follow-on is due, or None where none is pending.
    follow_at: Optional[int]
    #: The master, 0 to 255.
    master: int
    #: How many channels the show has.
    channels: int
    #: How many cues the show has.
    cues: int

    @property
    def rests(self) -> bool:
        """No run is live."""
        return self.live == 0

    @property
    def fades(self) -> bool:
        """Some live run isn't over yet, so levels may still change."""
        return self.moment < self.over_at

    @property
    def waits(self) -> bool:
        """A follow-on is pending."""
        return self.follow_at is not None


class Cue(NamedTuple):
    """A cue of the show's list."""

    #: Its number, as in a script.
    number: str
    #: Its label, or the empty text.
    label: str


class _Desk(ctypes.Structure):
    _fields_ = [("at_", ctypes.c_void_p), ("open_", ctypes.c_bool)]


class _Report(ctypes.Structure):
    _fields_ = [("fault", ctypes.c_uint32), ("line", ctypes.c_uint32)]


class _Playback(ctypes.Structure):
    _fields_ = [(name, ctypes.c_uint32) for name in ("moment", "position", "next", "live", "over_at", "began", "ends", "follow_at", "channels", "cues")]
    _fields_ += [("master", ctypes.c_uint8), ("follows", ctypes.c_bool)]


def _places() -> List[str]:
    """Where the library may stand near this file. A checkout is known by the header beside this file's folder."""
    here = os.path.dirname(os.path.abspath(__file__))
    above = os.path.dirname(here)
    folders = [here, above]
    if os.path.exists(os.path.join(above, "cuedesk.h")):
        folders += [os.path.join(above, "build"), os.path.join(os.path.dirname(above), "release", "lib")]
    return [os.path.join(folder, _NAME) for folder in folders]


def _loaded() -> ctypes.CDLL:
    """The library, with the types of its calls' answers. Those of arguments aren't told, since looking at them takes longer than a call: a
    size is passed as a c_size_t, anything else by its address or as an int of 32 bits."""
    library = ctypes.CDLL(os.environ.get("CUEDESK_LIBRARY") or next(filter(os.path.exists, _places()), _NAME))
    for name in ("version", "open", "open_undo", "close", "command", "reply", "tick", "frame", "changed", "level", "tracked", "fader", "state"):
        getattr(library, f"cuedesk_{name}").restype = None if name == "close" else ctypes.c_uint32
    if library.cuedesk_version() != _VERSION:
        raise ImportError(f"libcuedesk has version {library.cuedesk_version()}, and {_VERSION} is wanted")
    return library


_LIBRARY = _loaded()


def _bytes_of(text: Union[str, bytes]) -> bytes:
    return text.encode("utf-8", "surrogateescape") if isinstance(text, str) else bytes(text)


def _text_of(text: bytes) -> str:
    return text.decode("utf-8", "surrogateescape")


def _cue_text(thousandths: int) -> str:
    whole, rest = divmod(thousandths, 1000)
    return f"{whole}.{rest:03}".rstrip("0") if rest else str(whole)


def _thousandths(cue: CueNumber) -> int:
    try:
        number = Decimal(str(cue)) * 1000
        if number == int(number) and 0 <= number <= _CUE_MAX:
            return int(number)
    except (ArithmeticError, ValueError):
        pass
    raise ValueError(f"{cue}: no cue number")


def _number(given: int) -> int:
    """A number as a call takes it: any other is out of range, and stays so."""
    return given if 0 <= given < 1 << 32 else (1 << 32) - 1


class Desk:
    """A desk over a show: its cues in playback, and what goes out.

    Close it, or use it in a `with`: `close` gives back what it holds. After that each call raises a ValueError.
    """

    def __init__(self, show_text: Union[str, bytes], *, states: bool = False, undo: Optional[int] = None) -> None:
        """Opens a desk over a show's text, which is read up to its line ENDDATA. With `states` the levels of cues are whole looks, else
        moves. With `undo=n` the last n shows that edits and records replaced are kept, and the lines `undo`, `redo` and `record n [only]`
        are known.

        Raises ShowRefused where the text has a fault, ValueError where its lines up to ENDDATA are longer than 67,108,864 bytes, and
        MemoryError.
        """
        self._desk = _Desk()
        self._at = ctypes.byref(self._desk)
        self._room = ctypes.create_string_buffer(_ROOM.value)
        self._slots = ctypes.create_string_buffer(SLOTS)
        self._len, self._count, self._byte, self._flag = ctypes.c_size_t(), ctypes.c_uint32(), ctypes.c_uint8(), ctypes.c_bool()
        self._len_at, self._count_at = ctypes.byref(self._len), ctypes.byref(self._count)
        self._ended = False
        text, report = _bytes_of(show_text), _Report()
        size = ctypes.c_size_t(len(text))
        if undo is None:
            status = _LIBRARY.cuedesk_open(self._at, text, size, bool(states), ctypes.byref(report))
        elif 0 <= undo < 1 << 32:
            status = _LIBRARY.cuedesk_open_undo(self._at, text, size, bool(states), undo, ctypes.byref(report))
        else:
            raise ValueError(f"undo={undo}: no depth")
        if status == _SHOW_REFUSED:
            raise ShowRefused(_CAUSES[report.fault], report.line)
        if status:
            raise self._fault(status)

    def close(self) -> None:
        """Gives back what the desk holds. A closed one stays so."""
        _LIBRARY.cuedesk_close(self._at)

    @property
    def closed(self) -> bool:
        """The desk is closed."""
        return not self._desk.open_

    @property
    def ended(self) -> bool:
        """A line `quit` was given, at which a script ends. The desk goes on."""
        return self._ended

    def command(self, line: Union[str, bytes]) -> List[str]:
        """Does one line of a script and answers its reply, line by line, whatever it is: `["ok"]`, `["refused NoCueAfter 3"]`, `["bad"]`,
        a frame, a row, or the show's whole text. A line end behind the line is left out.

        Raises ValueError where there are several lines, and MemoryError where the line was done and memory was wanted for its reply.
        """
        return _text_of(self._reply_to(_bytes_of(line).rstrip(b"\r\n"))).split("\n")[:-1]

    def do(self, line: Union[str, bytes]) -> List[str]:
        """As `command`, but where the line is refused or bad this raises Refused or BadLine. What is shown is answered; of a line that is
        only done nothing is."""
        reply = self.command(line)
        if reply == ["ok"]:
            return []
        if len(reply) == 1 and reply[0].startswith("refused "):
            raise Refused(_text_of(_bytes_of(line)), reply[0][len("refused "):])
        if reply == ["bad"]:
            raise BadLine(_text_of(_bytes_of(line)))
        return reply

    def tick(self, n: int = 1) -> int:
        """Lets n ticks of 2 hundredths of a second go by, and answers how many did: fewer only where the moment comes to its end."""
        if not 0 <= n < 1 << 32:
            raise ValueError(f"{n}: no count of ticks")
        status = _LIBRARY.cuedesk_tick(self._at, n, self._count_at)
        if status and status != _AT_END:
            raise self._fault(status)
        return self._count.value

    def frame(self, universe: int = 1) -> bytes:
        """The 512 slots of a universe, 1 to 32, at the present moment. They are taken, as `changed` understands it."""
        status = _LIBRARY.cuedesk_frame(self._at, _number(universe), self._slots, _SLOTS)
        if status:
            raise self._fault(status, f"universe {universe}")
        return self._slots.raw

    def changed(self, universe: int = 1) -> bool:
        """Whether the slots of a universe are others than `frame` answered last, or were never taken."""
        return self._told(_LIBRARY.cuedesk_changed, self._flag, "universe", universe, _number(universe))

    def level(self, channel: int) -> int:
        """The level of a channel on stage, 0 to 255: that of the playback, before submasters and master."""
        return self._told(_LIBRARY.cuedesk_level, self._byte, "channel", channel, _number(channel))

    def tracked(self, cue: CueNumber, channel: int) -> int:
        """The tracked level of a channel at a cue number, which need not be a cue's."""
        return self._told(_LIBRARY.cuedesk_tracked, self._byte, "channel", channel, _thousandths(cue), _number(channel))

    def fader(self, sub: int) -> int:
        """The fader of a submaster, 1 to 96; the show need not have it."""
        return self._told(_LIBRARY.cuedesk_fader, self._byte, "submaster", sub, _number(sub))

    def state(self) -> State:
        """Where the playback stands."""
        it = _Playback()
        status = _LIBRARY.cuedesk_state(self._at, ctypes.byref(it))
        if status:
            raise self._fault(status)
        return State(it.moment, _cue_text(it.position), _cue_text(it.next) if it.next else None, it.live, it.over_at, it.began, it.ends,
                     it.follow_at if it.follows else None, it.master, it.channels, it.cues)

    def show_text(self) -> bytes:
        """The canonical text of the show as it is now, as the line `save` shows it."""
        return self._reply_to(b"save")

    def cues(self) -> List[Cue]:
        """The show's cues in order, with their labels. It is made from the whole text of the show: ask again after an edit, not at each
        tick."""
        found: List[Cue] = []
        in_cue = False
        for line in self.show_text().split(b"\n"):
            word, _, rest = line.partition(b" ")
            if word in (b"CUE", b"GROUP", b"SUB"):
                in_cue = word == b"CUE"
                if in_cue:
                    found.append(Cue(rest.decode(), ""))
            elif word == b"TEXT" and in_cue:
                found[-1] = found[-1]._replace(label=_text_of(rest))
        return found

    def _told(self, call: Callable[..., int], room: Any, kind: str, number: int, *words: int) -> Any:
        """What a call of the library puts into the room that it is given; where it answers a fault, that of the thing of the number."""
        status = call(self._at, *words, ctypes.byref(room))
        if status:
            raise self._fault(status, f"{kind} {number}")
        return room.value

    def _reply_to(self, line: bytes) -> bytes:
        """The bytes of the reply to a line."""
        status = _LIBRARY.cuedesk_command(self._at, line, ctypes.c_size_t(len(line)), self._room, _ROOM, self._len_at)
        if status == _QUIT:
            self._ended = True
            return b""
        if status == _MORE:
            return self._rest_of(self._len.value)
        if status:
            raise self._fault(status, _text_of(line))
        return ctypes.string_at(self._room, self._len.value)

    def _rest_of(self, length: int) -> bytes:
        """All bytes of a reply, of which the first stand in the room."""
        whole = ctypes.create_string_buffer(length)
        status = _LIBRARY.cuedesk_reply(self._at, ctypes.c_size_t(0), whole, ctypes.c_size_t(length), self._len_at)
        if status:
            raise self._fault(status)
        return whole.raw

    @staticmethod
    def _fault(status: int, what: str = "") -> Exception:
        """What a status is to be raised as."""
        if status == _MEMORY:
            return MemoryError("out of memory")
        said = {_CLOSED: "the desk is closed", _TOO_LONG: "the show's text is too long", _NOT_A_LINE: "not one line",
                _OUT_OF_RANGE: "out of range"}.get(status, f"status {status}")
        return ValueError(f"{what}: {said}" if what else said)

    def __enter__(self) -> Desk:
        return self

    def __exit__(self, kind: Optional[Type[BaseException]], raised: Optional[BaseException], trace: Optional[TracebackType]) -> None:
        self.close()

    def __del__(self) -> None:
        if "_at" in self.__dict__:
            self.close()
