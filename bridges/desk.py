#!/usr/bin/python3
"""An operator's seat in a terminal: plays a show by keys, and by OSC, onto a rig.

    desk.py SHOW.asc [--universes U] [--states] [--ola] [--osc [ADDRESS:]PORT]

Space goes, b backs, g and a number goes to a cue, s settles, the arrows choose and move a fader or the master, u undoes and r does it
again, : takes any line of a script, q quits. The show plays on whatever is typed, a tick every 20 milliseconds of the machine's steady
clock. What stands behind ENDDATA in the show's file is not played. All that is shown of the desk the hosts' library tells.
"""
import argparse
import curses
import locale
import logging
import os
import select
import signal
import sys
from typing import TYPE_CHECKING, Any, List, Optional

from seat.clock import Clock
from seat.engine import Fault, opened
from seat.keys import Key, Operator
from seat.player import Player
from seat.saving import Saver
from seat.screen import Screen

if TYPE_CHECKING:
    from handover import HandOver
    from seat.remote import Remote

UNIVERSES = 32
PORTS = 65_535
# After how many ticks the screen is drawn again while something moves; after a key it is drawn at the next tick.
DRAW_TICKS = 2
# How long a lone Escape is waited behind for the rest of an arrow key, in milliseconds.
ESCAPE_WAIT = 10
# How long olad has to take the last frames at the end, in seconds.
LAST_FRAMES = 5.0


class Seat:
    """One seat: a player, its clock, its terminal, and a remote and a rig where they are wanted."""

    def __init__(self, player: Player, remote: "Optional[Remote]", handover: "Optional[HandOver]") -> None:
        self.player, self.remote, self.handover = player, remote, handover
        self.saver = Saver(player)
        self.operator = Operator(player, self.saver)
        self._draw_in = 0
        if handover:
            player.frame_listeners.append(handover.give)
            for universe, levels in player.frames.items():
                handover.give(universe, levels)

    def run(self, window: "curses.window", name: str, is_fine: bool) -> None:
        """Plays until the operator leaves."""
        screen = Screen(window, self.player, self.operator, name, is_fine)
        window.nodelay(True)
        window.keypad(True)
        clock = Clock()
        while not self.operator.has_left:
            self._wait(clock.seconds_left())
            self._take_keys(window)
            if self.remote:
                self.remote.take()
            if self.handover:
                self.handover.turn()
            self._tick(clock, screen)
        self.saver.finish()

    def _wait(self, seconds: float) -> None:
        """Waits for a key, a message, an answer of olad, or the next tick."""
        sources: List[Any] = [sys.stdin]
        if self.remote:
            sources.append(self.remote)
        if self.handover and self.handover.connection:
            sources.append(self.handover.connection)
        select.select(sources, [], [], seconds)

    def _take_keys(self, window: "curses.window") -> None:
        """Takes all keys that were pressed. Each acts at once, and the screen shows it at the next tick."""
        while (key := next_key(window)) is not None:
            self._draw_in = 0
            if key != curses.KEY_RESIZE:
                self.operator.take(key)

    def _tick(self, clock: Clock, screen: Screen) -> None:
        """Lets the ticks pass that are due, one by one, and draws where it is time to."""
        pauses = clock.pauses
        ticks = clock.take()
        for _ in range(ticks):
            self.player.tick()
            if self.remote:
                self.remote.tell()
        if clock.pauses != pauses:
            self.player.say("the clock stood still, and goes on from here")
        if not ticks:
            return
        self.saver.take()
        self._draw_in -= ticks
        if self._draw_in <= 0:
            self._draw_in = DRAW_TICKS
            screen.draw(clock)


def next_key(window: "curses.window") -> Optional[Key]:
    """The next key that was pressed, if any."""
    try:
        return window.get_wch()
    except curses.error:
        return None


def ended(seat: Seat) -> int:
    """Gives olad its last frames, and says below the terminal that is as it was what is lost: edits, frames. The exit status."""
    late = []
    if seat.handover:
        late = [f"universe {universe}: its last frame isn't delivered: {seat.handover.why(universe)}" for universe in seat.handover.finish(LAST_FRAMES)]
    for line in late + ["edits weren't saved"] * seat.player.has_edits():
        say(line)
    return 1 if late else 0


def say(line: str) -> None:
    """One line on standard error; it is lost where that was the terminal, and is closed."""
    try:
        print(f"desk.py: {line}", file=sys.stderr)
    except OSError:
        pass


def check_terminal() -> None:
    """There is a terminal, and the machine knows how to draw on it."""
    if not sys.stdin.isatty() or not sys.stdout.isatty():
        raise Fault("a terminal is wanted")
    try:
        curses.setupterm()
    except curses.error as error:
        raise Fault(f"TERM is {os.environ.get('TERM', '')!r}, a terminal that isn't known here: TERM=xterm may do") from error


def arguments() -> argparse.Namespace:
    """The words of the command line."""
    parser = argparse.ArgumentParser(description="An operator's seat in a terminal.")
    parser.add_argument("show", metavar="SHOW.asc", help="the show")
    parser.add_argument("--universes", metavar="U", type=int, default=1, help=f"the universes 1 to U are shown and sent, at most {UNIVERSES} (default: 1)")
    parser.add_argument("--states", action="store_true", help="the levels of cues are whole looks, as with `states`")
    parser.add_argument("--ola", action="store_true", help="gives the frames to olad")
    parser.add_argument("--ola-port", metavar="PORT", type=int, default=9010, help="the port of 127.0.0.1 on which olad takes calls (default: 9010)")
    parser.add_argument("--osc", metavar="[ADDRESS:]PORT", help="takes OSC messages, of this machine alone unless an address is given")
    given = parser.parse_args()
    if not 1 <= given.universes <= UNIVERSES:
        parser.error(f"U is from 1 to {UNIVERSES}")
    if not 1 <= given.ola_port <= PORTS:
        parser.error(f"PORT is from 1 to {PORTS}")
    return given


def seat_of(given: argparse.Namespace) -> Seat:
    """The seat that the words ask for."""
    try:
        with open(given.show, "rb") as file:
            show = file.read()
    except OSError as error:
        raise Fault(f"{given.show}: {error.strerror}") from error
    player = Player(opened(show, given.states), given.universes)
    remote = handover = None
    if given.osc:
        from seat.remote import Remote, address_of
        try:
            remote = Remote(player, *address_of(given.osc))
        except ValueError as error:
            raise Fault(str(error)) from error
    if given.ola:
        try:
            from handover import HandOver
        except ImportError as error:
            raise Fault("OLA's Python client isn't there: apt-get install --no-install-recommends ola ola-python") from error
        handover = HandOver(player.say, given.ola_port)
    return Seat(player, remote, handover)


def played(seat: Seat, name: str, is_fine: bool) -> int:
    """Plays until the operator leaves, or a signal ends the seat: 0, or the status that tells of the signal."""
    leaving: List[int] = []

    def run(window: "curses.window") -> None:
        """Plays in the terminal."""
        try:
            seat.run(window, name, is_fine)
        except KeyboardInterrupt:
            leaving.append(130)
        except SystemExit as signalled:
            leaving.append(int(signalled.code or 0))

    try:
        curses.wrapper(run)
    except curses.error:
        # A terminal that was closed can't be set as it was.
        if not leaving:
            raise
    return leaving[0] if leaving else 0


def main() -> int:
    """The exit status: 0 where all was delivered, 1 where olad lacks a last frame, 2 where the seat can't begin."""
    given = arguments()
    locale.setlocale(locale.LC_ALL, "")
    is_fine = locale.nl_langinfo(locale.CODESET).upper().replace("-", "") == "UTF8"
    try:
        check_terminal()
        seat = seat_of(given)
    except Fault as fault:
        say(str(fault))
        return 2
    signal.signal(signal.SIGTERM, lambda *_: sys.exit(143))
    signal.signal(signal.SIGHUP, lambda *_: sys.exit(129))
    # OLA's client logs what it can't read, which is not to stand on the screen.
    logging.getLogger().addHandler(logging.NullHandler())
    curses.set_escdelay(ESCAPE_WAIT)
    leaving = played(seat, os.path.basename(given.show), is_fine)
    late = ended(seat)
    return leaving if leaving in (129, 143) else late or leaving


if __name__ == "__main__":
    sys.exit(main())
