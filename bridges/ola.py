#!/usr/bin/python3
"""Gives the frames of a live run to olad, OLA's daemon, which puts them on sACN, Art-Net or USB.

    ola.py U [--folder FOLDER] [--port PORT] [--seconds SECONDS]

Stands beside `cuedesk run U`, and is started first. It makes the named pipes universe-1.txt to universe-U.txt where they aren't there,
reads the frame lines that the desk writes into them, and gives each frame to olad. It ends when the desk closes its outlets, once olad has
taken the last frame of each; the pipes that it made are then removed. What it can't do is said in one line each on standard error. An olad
is never started.
"""
import argparse
import fcntl
import os
import select
import signal
import stat
import sys
import time
from typing import TYPE_CHECKING, Any, List, Optional, Set

if TYPE_CHECKING:
    from handover import HandOver

UNIVERSES = 32
SLOTS = 512
PORTS = 65_535
# More than the longest line, so that a line that never ends is no frame.
LINE_BYTES = 8_192
DIGITS = b"0123456789"
LEVELS = {b"%d" % level: level for level in range(256)}


class Frames:
    """Reads the lines of one universe's outlet: `frame`, how many commands led to it, the moment, the universe, and `slot=level` for each
    slot that isn't 0 (docs/FORMATS.md). Which slots these are seldom changes from line to line, so their places are kept."""

    def __init__(self, universe: int) -> None:
        self._universe = universe
        self._slots: List[bytes] = []
        self._places: List[int] = []

    def levels_of(self, line: bytes) -> Optional[bytes]:
        """The levels of the 512 slots, or None where the line is no frame of the universe."""
        if line.translate(None, DIGITS) != b"frame   " + b" =" * line.count(b"="):
            return None
        word, count, moment, universe, *cells = line.replace(b"=", b" ").split(b" ")
        slots = cells[::2]
        try:
            if word != b"frame" or not count or not moment or int(universe) != self._universe:
                return None
            if slots != self._slots:
                self._places = places_of(slots)
                self._slots = slots
            levels = bytes(map(LEVELS.__getitem__, cells[1::2]))
        except (KeyError, ValueError):
            return None
        if len(levels) == SLOTS:
            return levels
        frame = bytearray(SLOTS)
        for place, level in zip(self._places, levels):
            frame[place] = level
        return bytes(frame)


def places_of(slots: List[bytes]) -> List[int]:
    """The places of slots in a frame, from 0. A ValueError tells that they don't rise from 1 to 512."""
    numbers = list(map(int, slots))
    if numbers and (numbers[0] < 1 or numbers[-1] > SLOTS) or any(b <= a for a, b in zip(numbers, numbers[1:])):
        raise ValueError("no slots")
    return [number - 1 for number in numbers]


class Fault(Exception):
    """Why the bridge can't begin."""


class Outlet:
    """The named pipe of one universe, read without waiting."""

    def __init__(self, folder: str, universe: int) -> None:
        """Opens the pipe, which is made where it isn't there."""
        self.universe = universe
        self.frames = Frames(universe)
        self.path = os.path.join(folder, f"universe-{universe}.txt")
        self.is_ours = False
        self.strange = 0
        self._rest = b""
        self._skips = False
        try:
            if not os.path.lexists(self.path):
                os.mkfifo(self.path)
                self.is_ours = True
            if not stat.S_ISFIFO(os.stat(self.path).st_mode):
                raise Fault(f"{self.path} is no named pipe: move it away")
            self._file = os.open(self.path, os.O_RDONLY | os.O_NONBLOCK)
            fcntl.flock(self._file, fcntl.LOCK_EX | fcntl.LOCK_NB)
        except BlockingIOError as error:
            raise Fault(f"{self.path} is read by another ola.py") from error
        except OSError as error:
            raise Fault(f"{self.path}: {error.strerror}") from error

    def fileno(self) -> int:
        """For `select`: there is something to read, or the writer has closed the pipe."""
        return self._file

    def read(self) -> Optional[List[bytes]]:
        """The lines that have come whole since the last call, or None at the end. One that was cut off or doesn't end is told by its
        beginning and dots, which are no frame."""
        try:
            piece = os.read(self._file, 65_536)
        except BlockingIOError:
            return []
        if not piece:
            cut, self._rest = self._rest, b""
            return [cut[:60] + b"..."] if cut else None
        *lines, self._rest = (self._rest + piece).split(b"\n")
        if self._skips and lines:
            lines, self._skips = lines[1:], False
        if self._skips:
            self._rest = b""
        elif len(self._rest) > LINE_BYTES:
            lines, self._rest, self._skips = lines + [self._rest[:60] + b"..."], b"", True
        return lines

    def close(self) -> None:
        """Closes the pipe, and removes it if it was made here and is still in its place."""
        if self.is_ours and os.path.exists(self.path) and os.path.samestat(os.stat(self.path), os.fstat(self._file)):
            os.unlink(self.path)
        os.close(self._file)


class Bridge:
    """The outlets of a live run on one side, olad on the other."""

    def __init__(self, outlets: List[Outlet], handover: "HandOver", seconds: float) -> None:
        """Once an outlet has ended, those that haven't begun have these seconds to."""
        self._open = list(outlets)
        self._begun: Set[Outlet] = set()
        self._handover = handover
        self._seconds = seconds
        self._over_at = float("inf")

    def run(self) -> None:
        """Gives frames until the outlets have ended."""
        while self._open and not (self._begun.isdisjoint(self._open) and time.monotonic() >= self._over_at):
            sources: List[Any] = [*self._open, *filter(None, [self._handover.connection])]
            waits = [self._handover.due(), None if self._over_at == float("inf") else max(0.0, self._over_at - time.monotonic())]
            ready = select.select(sources, [], [], min((wait for wait in waits if wait is not None), default=None))[0]
            self._handover.turn()
            for source in ready:
                if isinstance(source, Outlet):
                    self._take(source)

    def _take(self, outlet: Outlet) -> None:
        """Gives the newest frame of what came; a line that is none is said, or counted."""
        lines = outlet.read()
        if lines is None:
            self._open.remove(outlet)
            self._over_at = time.monotonic() + self._seconds
            return
        self._begun.add(outlet)
        frames = [outlet.frames.levels_of(line) for line in lines]
        for line, frame in zip(lines, frames):
            if frame is None:
                say_strange(outlet, line)
        newest = next((frame for frame in reversed(frames) if frame is not None), None)
        if newest is not None:
            self._handover.give(outlet.universe, newest)


def say(text: str) -> None:
    """One line on standard error. Where nobody takes it any more it is lost, and the frames go on."""
    try:
        print(f"ola.py: {text}", file=sys.stderr, flush=True)
    except OSError:
        pass


def say_strange(outlet: Outlet, line: bytes) -> None:
    """Says the first line of an outlet that is no frame."""
    outlet.strange += 1
    if outlet.strange == 1:
        say(f"universe {outlet.universe}: no frame: {line[:60].decode(errors='replace')!r}")


def said_at_the_end(outlets: List[Outlet], handover: "HandOver", seconds: float) -> int:
    """Waits for olad, says what is missing, and answers the exit status: 1 where anything is."""
    late = handover.finish(seconds)
    for universe in late:
        say(f"universe {universe}: its last frame isn't delivered: {handover.why(universe)}")
    for outlet in outlets:
        if outlet.strange > 1:
            say(f"universe {outlet.universe}: {outlet.strange} lines were no frames")
    return 1 if late or any(outlet.strange for outlet in outlets) else 0


def arguments() -> argparse.Namespace:
    """The words of the command line."""
    parser = argparse.ArgumentParser(description="Gives the frames of `cuedesk run U` to olad.")
    parser.add_argument("universes", metavar="U", type=int, help=f"the universes 1 to U, at most {UNIVERSES}")
    parser.add_argument("--folder", default=".", help="where the desk writes its outlets (default: the current folder)")
    parser.add_argument("--port", type=int, default=9010, help="the port of 127.0.0.1 on which olad takes calls (default: 9010)")
    parser.add_argument("--seconds", type=float, default=5.0, help="how long olad has to take the last frames at the end (default: 5)")
    given = parser.parse_args()
    if not 1 <= given.universes <= UNIVERSES:
        parser.error(f"U is from 1 to {UNIVERSES}")
    if not 1 <= given.port <= PORTS:
        parser.error(f"PORT is from 1 to {PORTS}")
    return given


def main() -> int:
    """The exit status: 0 where all was delivered, 1 where something wasn't, 2 where the bridge can't begin."""
    given = arguments()
    try:
        from handover import HandOver
    except ImportError:
        say("OLA's Python client isn't there: apt-get install --no-install-recommends ola ola-python")
        return 2
    signal.signal(signal.SIGTERM, lambda *_: sys.exit(143))
    if signal.getsignal(signal.SIGHUP) != signal.SIG_IGN:
        signal.signal(signal.SIGHUP, lambda *_: sys.exit(129))
    outlets: List[Outlet] = []
    handover = HandOver(say, given.port)
    try:
        for universe in range(1, given.universes + 1):
            outlets.append(Outlet(given.folder, universe))
        Bridge(outlets, handover, given.seconds).run()
        return said_at_the_end(outlets, handover, given.seconds)
    except Fault as fault:
        say(str(fault))
        return 2
    except KeyboardInterrupt:
        return 130
    finally:
        handover.close()
        for outlet in outlets:
            outlet.close()


if __name__ == "__main__":
    sys.exit(main())
