"""Hands frames of DMX universes to olad, OLA's daemon, by OLA's own Python client (Debian's ola-python).

    handover = HandOver(say=print)
    handover.give(1, levels)        # 512 bytes, the newest frame of universe 1
    handover.turn()                 # whenever handover.connection can be read, or handover.due() seconds have gone by
    late = handover.finish(5)       # waits until olad took the newest frame of each universe, for that many seconds at most

An olad is never started here.
"""
import os
import select
import socket
import sys
import time
from array import array
from dataclasses import dataclass
from typing import Callable, Dict, List, Optional, Union

# `ola` is Debian's package, and not ola.py beside this file: so this folder comes last where modules are searched.
_HERE = os.path.dirname(os.path.abspath(__file__))
sys.path[:] = [folder for folder in sys.path if os.path.abspath(folder) != _HERE] + [_HERE]

from google.protobuf.message import DecodeError  # noqa: E402
from ola.OlaClient import OLA_PORT, OLADNotRunningException, OlaClient, RequestStatus  # noqa: E402

# Seconds until olad, or a universe that it refused, is tried again.
TRY_AGAIN = 0.2
# Seconds without an answer after which that is said.
SILENCE = 2.0
# Seconds after which a refusal is said: an olad that has just begun takes calls before all its ports are there.
PATIENCE = 1.0
NO_UNIVERSE = "Universe doesn't exist"


@dataclass
class Lane:
    """One universe: its newest frame, whether that has still to be sent and from when on, and since when a frame is on its way; what olad
    has against it, since when, and whether that was said."""

    frame: bytes = b""
    waits: bool = False
    not_before: float = 0.0
    sent_at: Optional[float] = None
    refused: str = ""
    refused_at: float = 0.0
    is_said: bool = False


class HandOver:
    """Gives olad the newest frame of each universe, and takes its answers.

    Of a universe one frame at a time is on its way, and the next goes when olad has answered; of those that are given meanwhile only the
    newest is kept. So frames come in their order, and no universe waits for another. Where olad is away it is tried again, and gets the
    newest frame of every universe when it is back, since a new olad holds none. A universe that olad refuses is tried again too. What can't
    be done is said in one line, once until it can. No call but `finish` waits.
    """

    def __init__(self, say: Callable[[str], None], port: int = OLA_PORT) -> None:
        """`say` gets each line that there is to tell; olad listens on the port of 127.0.0.1."""
        self._say = say
        self._address = ("127.0.0.1", port)
        self._lanes: Dict[int, Lane] = {}
        self._client: Optional[OlaClient] = None
        self._connect_at = 0.0
        self._is_missed = False
        self._is_silent = False

    @property
    def connection(self) -> Optional[socket.socket]:
        """What can be read when olad has answered, or None while it is away."""
        return self._client.GetSocket() if self._client else None

    def give(self, universe: int, levels: bytes) -> None:
        """The newest frame of a universe, the levels of its 512 slots."""
        lane = self._lanes.setdefault(universe, Lane())
        lane.frame, lane.waits = levels, True
        if self._client is None:
            self._connect()
        else:
            self._send(universe, lane, time.monotonic())

    def turn(self) -> None:
        """Takes the answers that came, looks for olad where it is away, and sends what is due."""
        if self._client is None:
            self._connect()
        elif is_readable(self._client.GetSocket()):
            self._take_answers(self._client)
        now = time.monotonic()
        for universe, lane in self._lanes.items():
            self._send(universe, lane, now)
        if not self._is_silent and any(lane.sent_at is not None and lane.sent_at + SILENCE <= now for lane in self._lanes.values()):
            self._is_silent = True
            self._say(f"olad hasn't answered for {SILENCE:g} seconds")

    def due(self) -> Optional[float]:
        """Seconds after which `turn` has something to do even if no answer comes, or None."""
        now = time.monotonic()
        if self._client is None:
            return max(0.0, self._connect_at - now) if self._lanes else None
        moments = [lane.not_before for lane in self._lanes.values() if lane.waits and lane.sent_at is None]
        if not self._is_silent:
            moments += [lane.sent_at + SILENCE for lane in self._lanes.values() if lane.sent_at is not None]
        return max(0.0, min(moments) - now) if moments else None

    def late(self) -> List[int]:
        """The universes whose newest frame olad hasn't taken."""
        return sorted(universe for universe, lane in self._lanes.items() if lane.waits or lane.sent_at is not None)

    def why(self, universe: int) -> str:
        """Why olad hasn't taken a universe's newest frame."""
        if self._client is None:
            return "no olad"
        return self._lanes[universe].refused or "olad didn't answer"

    def finish(self, seconds: float) -> List[int]:
        """Waits until olad has taken the newest frame of each universe, for at most the seconds given, and answers those that are late."""
        end = time.monotonic() + seconds
        while self.late() and (left := end - time.monotonic()) > 0:
            due = self.due()
            wait = left if due is None else min(left, due)
            select.select([self.connection] if self.connection else [], [], [], wait)
            self.turn()
        return self.late()

    def close(self) -> None:
        """Leaves olad, which goes on holding what it took."""
        if self._client is not None:
            self._client.GetSocket().close()
        self._client = None

    def _connect(self) -> None:
        """Looks for olad, unless it was tried a moment ago. What it held before is unknown, so each newest frame is due again."""
        now = time.monotonic()
        if now < self._connect_at:
            return
        self._connect_at = now + TRY_AGAIN
        try:
            connection = socket.create_connection(self._address, timeout=1.0)
        except OSError:
            self._miss()
            return
        connection.settimeout(None)
        connection.setsockopt(socket.IPPROTO_TCP, socket.TCP_NODELAY, 1)
        self._client = OlaClient(connection)
        for universe, lane in self._lanes.items():
            lane.waits, lane.sent_at, lane.not_before = bool(lane.frame), None, 0.0
            self._send(universe, lane, now)

    def _miss(self) -> None:
        """olad isn't there, or went away."""
        self.close()
        if not self._is_missed:
            self._is_missed = True
            self._say(f"no olad on port {self._address[1]} of {self._address[0]}: it is tried again until there is one")

    def _send(self, universe: int, lane: Lane, now: float) -> None:
        """Sends the newest frame, where it is due and none is on its way."""
        if self._client is None or not lane.waits or lane.sent_at is not None or now < lane.not_before:
            return
        lane.waits, lane.sent_at = False, now
        try:
            self._client.SendDmx(universe, array("B", lane.frame), lambda status: self._answered(universe, lane, status))
        except (OLADNotRunningException, OSError):
            lane.waits, lane.sent_at = True, None
            self._miss()

    def _take_answers(self, client: OlaClient) -> None:
        """Takes the answers that came; `_answered` is called for each."""
        try:
            if not client.GetSocket().recv(1, socket.MSG_PEEK):
                raise ConnectionResetError("olad went away")
            client.SocketReady()
        except (OLADNotRunningException, OSError, DecodeError):
            self._miss()

    def _answered(self, universe: int, lane: Lane, status: RequestStatus) -> None:
        """olad took the frame, or said why not. The next one goes at once, or after a moment."""
        now = time.monotonic()
        lane.sent_at, self._is_silent = None, False
        if self._is_missed:
            self._is_missed = False
            self._say("olad is there")
        if status.Succeeded():
            lane.refused = ""
        else:
            lane.waits, lane.not_before = True, now + TRY_AGAIN
            self._refused(universe, lane, status.message, now)
        self._send(universe, lane, now)

    def _refused(self, universe: int, lane: Lane, message: Union[bytes, str], now: float) -> None:
        """olad has something against a universe: said once, where it lasts."""
        text = (message.decode(errors="replace") if isinstance(message, bytes) else message).strip()
        if text != lane.refused:
            lane.refused, lane.refused_at, lane.is_said = text, now, False
        if not lane.is_said and lane.refused_at + PATIENCE <= now:
            lane.is_said = True
            hint = f"; `ola_patch -u {universe} -d DEVICE -p PORT` gives it one of the ports of `ola_dev_info`" if text == NO_UNIVERSE else ""
            self._say(f"universe {universe}: olad says: {text}{hint}")


def is_readable(connection: socket.socket) -> bool:
    """Whether something came, or the other side went away."""
    return bool(select.select([connection], [], [], 0)[0])
