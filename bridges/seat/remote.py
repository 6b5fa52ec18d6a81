"""OSC: a remote's messages become lines of the desk, and those who subscribed are told what runs and what was refused."""
import contextlib
import io
import math
import os
import socket
import time
from typing import Callable, Dict, List, Tuple, Union

from .engine import Fault
from .player import Player
from .words import tokens

try:
    import liblo
except ImportError as error:
    raise Fault("OSC wants python3-liblo: apt-get install --no-install-recommends python3-liblo") from error

Value = Union[int, float, str]

# How many packets are taken between two ticks at most, and how many subscribers are told of what runs.
PACKETS = 32
SUBSCRIBERS = 16
# How a bundle begins, how long that and its time are, and the seconds of OSC's times, which count from 1900, at the beginning of 1970.
BUNDLE, BUNDLE_HEAD, EPOCH = b"#bundle\0", 16, 2_208_988_800
KEYS = {"/cuedesk/go": "go", "/cuedesk/back": "back", "/cuedesk/settle": "settle"}
NUMBERS = "ihfd"


class Refused(Exception):
    """Why a message is refused."""


def is_word(value: Value, kind: str) -> bool:
    """Whether it is a text that stands for one word of a line."""
    return kind == "s" and is_line(str(value)) and len(tokens(str(value))) == 1


def is_line(text: str) -> bool:
    """Whether it is within one line."""
    return "\n" not in text and "\r" not in text


def cue_of(value: Value, kind: str) -> str:
    """A cue number, as a number or as a text."""
    if is_word(value, kind):
        return str(value)
    if kind in NUMBERS and math.isfinite(float(value)):
        return f"{float(value):.3f}".rstrip("0").rstrip(".")
    raise Refused("no cue number")


def sub_of(value: Value, kind: str) -> str:
    """The number of a submaster."""
    if kind in "ih" or kind in "fd" and float(value).is_integer():
        return str(int(value))
    raise Refused("no number of a submaster")


def level_of(value: Value, kind: str) -> str:
    """A level: a number with a fraction is a part of full, from 0 to 1; a whole one is per cent; a text is as in a script."""
    if kind in "fd" and 0 <= float(value) <= 1:
        return f"H{int(255 * float(value) + 0.5):02X}"
    if kind in "ih" and 0 <= int(value) <= 100:
        return str(int(value))
    if is_word(value, kind):
        return str(value)
    raise Refused("no level: a part from 0.0 to 1.0, whole per cent, or a text as in a script")


def text_of(value: Value, kind: str) -> str:
    """A line of a script; the seat alone saves and quits."""
    line = str(value)
    if kind != "s" or not is_line(line) or not tokens(line):
        raise Refused("no line of a script")
    if tokens(line) in (["save"], ["quit"]):
        raise Refused("only at the seat")
    return line


# What stands behind each address, and the line that it makes.
ARGUMENTS: Dict[str, Tuple[str, List[Callable[[Value, str], str]]]] = {
    "/cuedesk/goto": ("goto {}", [cue_of]),
    "/cuedesk/fader": ("fader {} at {}", [sub_of, level_of]),
    "/cuedesk/master": ("master at {}", [level_of]),
    "/cuedesk/line": ("{}", [text_of]),
}


def line_of(path: str, values: List[Value], kinds: str) -> str:
    """The line of a script that a message stands for."""
    if path in KEYS:
        if kinds:
            raise Refused("it has no arguments")
        return KEYS[path]
    if path not in ARGUMENTS:
        raise Refused("no such address")
    form, readers = ARGUMENTS[path]
    if len(values) != len(readers):
        raise Refused(f"it has {len(readers)} argument{'s' * (len(readers) > 1)}")
    return form.format(*(read(value, kind) for read, value, kind in zip(readers, values, kinds)))


def address_of(text: str) -> Tuple[str, int]:
    """`PORT` or `ADDRESS:PORT`."""
    host, _, port = text.rpartition(":")
    if not port.isdigit() or not 1 <= int(port) <= 65535:
        raise ValueError(f"{text} is no port")
    return host or "127.0.0.1", int(port)


class Remote:
    """Takes OSC messages on one UDP port."""

    def __init__(self, player: Player, host: str, port: int) -> None:
        self._player = player
        self._subscribers: List["liblo.Address"] = []
        self._told: Tuple[str, ...] = ()
        self._came: List[Tuple[str, List[Value], str, "liblo.Address"]] = []
        try:
            self._server = liblo.Server()
            with socket.socket(socket.AF_INET, socket.SOCK_DGRAM) as bound:
                bound.bind((host, port))
                # liblo binds to every address of the machine. Its socket is replaced by one that has this address alone.
                os.dup2(bound.fileno(), self._server.fileno(), inheritable=False)
                self._packets = bound.dup()
        except liblo.ServerError as error:
            raise Fault(f"OSC: {error}") from error
        except OSError as error:
            raise Fault(f"OSC on port {port} of {host}: {error.strerror}") from error
        self._server.add_method(None, None, self._keep)
        player.refusal_listeners.append(self._tell_refusal)

    def fileno(self) -> int:
        """For `select`: a message came."""
        return self._server.fileno()

    def take(self) -> None:
        """Does what came, but leaves time for ticks."""
        for _ in range(PACKETS):
            is_later = self._is_for_later()
            # liblo prints a fault of a packet, which is not to stand on the screen.
            with contextlib.redirect_stderr(io.StringIO()):
                is_packet = self._server.recv(0)
            # Without a packet these are of a bundle whose time has come.
            came, self._came = self._came, []
            for message in came:
                self._take(*message)
            if not is_packet:
                return
            if not came and not is_later:
                self._player.refuse("osc", "refused: a packet that is no message")

    def tell(self) -> None:
        """Tells those who subscribed of the cue that runs and of the next one, where these are others than before."""
        now = self._running()
        if now != self._told:
            self._told = now
            for subscriber in list(self._subscribers):
                self._tell_running(subscriber)

    def close(self) -> None:
        """Takes nothing any more."""
        self._packets.close()
        self._server.free()

    def _is_for_later(self) -> bool:
        """Whether the next packet is a bundle whose time is still to come: liblo keeps it until then."""
        try:
            head = self._packets.recv(BUNDLE_HEAD, socket.MSG_PEEK | socket.MSG_DONTWAIT)
        except OSError:
            return False
        return head.startswith(BUNDLE) and int.from_bytes(head[len(BUNDLE):], "big") / (1 << 32) > EPOCH + time.time()

    def _keep(self, path: str, values: List[Value], kinds: str, source: "liblo.Address") -> None:
        """Keeps a message until liblo is left."""
        self._came.append((path, values, kinds, source))

    def _take(self, path: str, values: List[Value], kinds: str, source: "liblo.Address") -> None:
        """One message."""
        try:
            if path in ("/cuedesk/subscribe", "/cuedesk/unsubscribe"):
                self._subscribe(source, values, kinds, path == "/cuedesk/subscribe")
                return
            line = line_of(path, values, kinds)
        except Refused as refused:
            self._player.refuse(" ".join([path[:60], *(str(value)[:60] for value in values[:4])]), f"refused: {refused}")
            return
        reply = self._player.do(line)
        if path == "/cuedesk/line" and not reply.is_refused and reply.lines != ["ok"]:
            self._send(source, "/cuedesk/reply", line, " ".join(reply.lines))

    def _subscribe(self, source: "liblo.Address", values: List[Value], kinds: str, is_wanted: bool) -> None:
        """Whoever sent it is told of what runs, or no longer; at another port of its address where it names one."""
        if kinds not in ("", "i") or kinds and not 1 <= int(values[0]) <= 65535:
            raise Refused("its argument is a port, or there is none")
        subscriber = liblo.Address(source.hostname, int(values[0])) if kinds else source
        others = [each for each in self._subscribers if each.url != subscriber.url]
        self._subscribers = (others + [subscriber])[-SUBSCRIBERS:] if is_wanted else others
        if is_wanted:
            self._tell_running(subscriber)

    def _running(self) -> Tuple[str, str, str, str]:
        """The number and the label of the cue that runs, and those of the next one; empty texts where there is none."""
        state = self._player.state
        cue, following = self._player.cue(state.position), self._player.cue(state.next)
        return "" if state.position == "0" else state.position, cue.label if cue else "", state.next or "", following.label if following else ""

    def _tell_running(self, subscriber: "liblo.Address") -> None:
        """The cue that runs and the next one, each with its label."""
        position, label, following, next_label = self._running()
        self._send(subscriber, "/cuedesk/cue", position, label)
        self._send(subscriber, "/cuedesk/next", following, next_label)

    def _tell_refusal(self, what: str, reason: str) -> None:
        """What was refused, and why."""
        for subscriber in list(self._subscribers):
            self._send(subscriber, "/cuedesk/refused", what, reason)

    def _send(self, target: "liblo.Address", path: str, *texts: str) -> None:
        """One message of texts. Where it can't be sent it is lost, as messages are on a network."""
        try:
            self._server.send(target, path, *(("s", text) for text in texts))
        except OSError:
            pass
