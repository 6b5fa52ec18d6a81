"""A seat in a terminal, for the tests: in tmux, whose screen is read, or in a bare one, whose keys come at a known moment."""
import fcntl
import os
import pty
import re
import signal
import struct
import subprocess
import sys
import tempfile
import termios
import threading
import time
from typing import Dict, List, NamedTuple, Optional, Tuple

import rig

sys.path += [os.path.join(rig.TOP, ".ci"), os.path.join(rig.TOP, "view")]
import plain_desk  # noqa: E402
from plain_show import Reader, lines_of  # noqa: E402
from test_stage import Terminal, percent_said  # noqa: E402

# Terminals of several runs at the same time don't meet: processes have the same numbers in each name space.
SERVERS = tempfile.TemporaryDirectory(prefix="seats-")
os.environ["TMUX_TMPDIR"] = SERVERS.name
DESK = os.path.join(rig.BRIDGES, "desk.py")
OSC = 7790
FADES = os.path.join(rig.TOP, "examples", "fades.asc")
KEY = {"up": b"\x1bOA", "down": b"\x1bOB"}


def desk_at(show: bytes, played: List[Tuple[int, str]], moment: int) -> plain_desk.UndoDesk:
    """The desk that the rules give at a moment, of a show that was played by lines at moments."""
    reader = Reader()
    reader.read(lines_of(show), "moves")
    script = plain_desk.UndoScript(plain_desk.UndoDesk(reader.show))
    for when, line in [*played, (moment, "")]:
        ticks = (when - script.desk.moment) // 2
        script.answer([b"tick %d" % ticks] * bool(ticks) + [line.encode()])
    return script.desk


def read_bytes(path: str) -> bytes:
    """What a file holds."""
    with open(path, "rb") as file:
        return file.read()


class Shown(NamedTuple):
    """What a screen of bars says."""

    moment: int
    running: str
    marked: str
    slots: Dict[int, str]
    played: List[Tuple[int, str]]

    def up(self) -> Dict[int, str]:
        """The slots that aren't dark."""
        return {slot: text for slot, text in self.slots.items() if text != "0"}


def hundredths(text: str) -> int:
    """A moment as the screen has it."""
    minutes, seconds = text.split(":")
    return int(minutes) * 6_000 + round(float(seconds) * 100)


def read_screen(lines: List[str]) -> Shown:
    """Reads a screen: the moment in its title, the line below, the marked cue, the bars, and which lines were accepted when."""
    title = re.match(r" \S+ +(\d+:\d\d\.\d\d) +last tick", lines[0] if lines else "")
    if not title:
        raise ValueError(f"no seat on the screen: {[line for line in lines if line]}")
    slots, played, marked = {}, [], ""
    for line in lines[2:]:
        said, slot = re.match(r" (\d+:\d\d\.\d\d)  ([a-z].*): ok$", line), re.search(r"(?:^|  ) +(\d+) [█▏▎▍▌▋▊▉ ]+ (\d+ %|FL|0)\s*$", line)
        if said:
            played.append((hundredths(said[1]), said[2]))
        elif slot:
            slots[int(slot[1])] = slot[2]
        if line.startswith("▶"):
            marked = line[1:].split()[0]
    return Shown(hundredths(title[1]), lines[1], marked, slots, played)


def number(thousandths: int) -> str:
    """A cue number."""
    return f"{thousandths / 1000:g}"


def wrong_screen(show: bytes, shown: Shown) -> List[str]:
    """Where a screen isn't what the rules give at the moment that it names, after the lines that it says were played."""
    desk = desk_at(show, shown.played, shown.moment)
    cues, position, above = desk.show.cues, desk.position(), desk.show.above(desk.position())
    wrong = []
    if shown.up() != bars_at(desk):
        wrong.append(f"at {shown.moment}: the bars are {shown.up()}, and should be {bars_at(desk)}")
    if shown.marked != (number(position) if position else ""):
        wrong.append(f"at {shown.moment}: cue {shown.marked} is marked, and {number(position)} runs")
    says = [f" {number(position)} {cues[position].label.decode()}".rstrip()] if position in cues else [" before the first cue"]
    says.append(f"next {number(above)} {cues[above].label.decode()}".rstrip() if above else "no next cue")
    if desk.live and desk.live[-1].end() > desk.moment:
        run = desk.live[-1]
        says.append(f"{(desk.moment - run.start) / 100:.1f} of {(run.end() - run.start) / 100:.1f} s")
    if desk.pending is not None:
        says.append(f"follows in {(desk.pending - desk.moment) / 100:.1f} s")
    return wrong + [f"at {shown.moment}: {text!r} isn't in {shown.running!r}" for text in says if text not in shown.running]


class Seat(Terminal):
    """A seat in a terminal of tmux."""

    def __init__(self, *words: str, columns: int = 100, rows: int = 30, has_jobs: bool = True) -> None:
        """Without `has_jobs` the shell looks on while the seat is stopped."""
        super().__init__(columns, rows)
        self.has_jobs = has_jobs
        self.words = words
        self.process = 0

    def __enter__(self) -> "Seat":
        super().__enter__()
        self.type("echo before" if self.has_jobs else "set +m; echo before")
        self.until("^before$")
        with tempfile.NamedTemporaryFile("r") as file:
            self.type(f"sh -c 'echo $$ > {file.name}; exec {rig.PYTHON} {DESK} {' '.join(self.words)}'; echo status $?")
            self.until("last tick")
            self.process = int(file.read())
        return self

    def shown(self) -> Shown:
        """What stands on the screen."""
        return read_screen(self.screen())

    def keys(self, *keys: str) -> None:
        """Presses keys, by their names in tmux."""
        self.type("", *keys)

    def line(self, text: str) -> None:
        """Types a line of a script."""
        self.keys(":")
        self.type(text)

    def left(self) -> List[str]:
        """Waits until the seat has ended, and answers the screen."""
        return self.until(r"^status \d+$")


class BareSeat:
    """A seat in a terminal that is read by nobody, so that keys come at known moments."""

    def __init__(self, *words: str, columns: int = 120, rows: int = 40) -> None:
        self._terminal, inside = pty.openpty()
        self.resize(rows, columns)
        self.errors = tempfile.TemporaryFile("w+")
        self.process = subprocess.Popen(["setsid", "--ctty", rig.PYTHON, DESK, *words], stdin=inside, stdout=inside, stderr=self.errors,
                                        env={**os.environ, "TERM": "xterm-256color", "LANG": "C.UTF-8"})
        os.close(inside)
        self.written = 0
        self._reader = threading.Thread(target=self._read, daemon=True)
        self._reader.start()
        rig.until(lambda: self.written > 500 or self.process.poll() is not None, "the seat draws")

    def __enter__(self) -> "BareSeat":
        return self

    def __exit__(self, *_: object) -> None:
        if self.process.poll() is None:
            self.process.kill()
            self.process.wait()

    def press(self, keys: bytes) -> float:
        """Presses keys, and answers when."""
        os.write(self._terminal, keys)
        return time.monotonic()

    def resize(self, rows: int, columns: int) -> None:
        """Gives the terminal another size."""
        fcntl.ioctl(self._terminal, termios.TIOCSWINSZ, struct.pack("HHHH", rows, columns, 0, 0))

    def end(self, how: Optional[int] = None) -> Tuple[int, List[str]]:
        """Leaves by q, or by a signal: the status, and what was said on standard error."""
        if how is None:
            self.press(b"q")
        else:
            self.process.send_signal(how)
        self.process.wait(rig.SECONDS)
        self.errors.seek(0)
        return self.process.returncode, self.errors.read().splitlines()

    def _read(self) -> None:
        """Takes what the seat draws, until it ends."""
        try:
            while piece := os.read(self._terminal, 65_536):
                self.written += len(piece)
        except OSError:
            pass


def takes_turns_first() -> bool:
    """Puts this process, and those that it starts, in the real-time class, so that other programs of the machine don't count; whether it may."""
    try:
        os.sched_setscheduler(0, os.SCHED_RR, os.sched_param(1))
    except PermissionError:
        return False
    return True


def takes_turns_again() -> None:
    """One process of many again."""
    os.sched_setscheduler(0, os.SCHED_OTHER, os.sched_param(0))


def bars_at(desk: plain_desk.UndoDesk) -> Dict[int, str]:
    """How the slots of universe 1 that are up are to be said."""
    return {place: percent_said(level) for place, level in enumerate(desk.slots(1), 1) if level}


def stop_for(process: int, seconds: float) -> None:
    """Stops a process, and lets it go on."""
    os.kill(process, signal.SIGSTOP)
    time.sleep(seconds)
    os.kill(process, signal.SIGCONT)
