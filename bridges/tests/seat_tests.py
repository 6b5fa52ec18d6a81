"""Tests of desk.py, the operator's seat. Each function is a test, and answers what went wrong, a line each."""
import os
import pty
import random
import re
import shutil
import signal
import subprocess
import tempfile
import threading
import time
from typing import Callable, Dict, List, Tuple

import ola_tests
import rig
from seating import DESK, FADES, KEY, OSC, BareSeat, Seat, bars_at, desk_at, plain_desk, read_bytes, stop_for, takes_turns_again, takes_turns_first, wrong_screen

WITHIN = 0.060
SHARE = 0.10


def lacking() -> str:
    """What has to be installed or built first, or nothing."""
    packages = ["tmux"] * (not shutil.which("tmux")) + ["liblo-tools"] * (not shutil.which("oscsend"))
    if subprocess.run([rig.PYTHON, "-c", "import liblo"], stderr=subprocess.DEVNULL).returncode:
        packages.append("python3-liblo")
    if packages:
        return f"apt-get install --no-install-recommends {' '.join(packages)}"
    code = f"import sys; sys.path.append({rig.BRIDGES!r}); from seat.engine import library; library()"
    return "make -C host" if subprocess.run([rig.PYTHON, "-c", code], stderr=subprocess.DEVNULL).returncode else ""


def until_right(show: bytes, seat: Seat, holds: Callable[[str], bool]) -> List[str]:
    """Waits until the line of the running cue says something, and answers what is wrong on that screen. A screen may be caught while it is
    being drawn, so a second look counts."""
    rig.until(lambda: holds(seat.shown().running), "the screen says it")
    return wrong_screen(show, seat.shown()) and wrong_screen(show, seat.shown())


def fades_played_by_keys(_program: str) -> List[str]:
    """examples/fades.asc by keys: while cue 1 rises, while cue 2 waits for its follow-on, and when cue 3 came by itself. Its script isn't played."""
    show = read_bytes(FADES)
    with Seat(FADES) as seat:
        time.sleep(0.5)
        wrong = wrong_screen(show, seat.shown()) if seat.shown().slots or "before the first cue" not in seat.shown().running else []
        seat.keys("Space")
        wrong += until_right(show, seat, lambda text: re.match(r" 1 Dawn .* (0\.[7-9]|1\.\d) of 5\.0 s +next 2 Noon$", text) is not None)
        seat.keys("Space")
        wrong += until_right(show, seat, lambda text: re.match(r" 2 Noon .* of 4\.0 s +next 3 Dusk, follows in 0\.[2-7] s$", text) is not None)
        wrong += until_right(show, seat, lambda text: re.match(r" 3 Dusk .* 1\.\d of 5\.0 s +no next cue$", text) is not None)
        keys = [line for _, line in seat.shown().played]
        wrong += [] if keys == ["go", "go"] else [f"played {keys}"]
        seat.keys("q")
        screen = seat.left()
        wrong += [] if "status 0" in screen and "before" in screen else [f"at the end {screen}"]
    return wrong


def every_key(_program: str) -> List[str]:
    """Each key does what it says, or is refused in the words of the desk, and nothing changes by it."""
    show = read_bytes(FADES)
    with Seat(FADES, columns=80, rows=24) as seat:
        for keys, said in ((("b",), "back: refused NoCueBefore 0: no cue is below this one"), (("Space",), "go: ok"), (("g", "3", "Enter"), "goto 3: ok"),
                           (("b",), "back: ok"), (("s",), "settle: ok"), (("g", "7", "x", ".", "5", "Enter"), "goto 7.5: refused AbsentCue 7.5: there is no such cue"),
                           (("u",), "undo: refused NothingToUndo: no show is kept to go back to"), (("Down",), "master at 95: ok"), (("Down",), "master at 90: ok"),
                           (("Up",), "master at 95: ok"), (("x",), "")):
            for key in keys:
                seat.keys(key)
            if said:
                seat.until(re.escape(said) + "$", limit=5)
        seat.line("set 2 chan 1 at 80")
        seat.until("set 2 chan 1 at 80: ok$")
        seat.line("set 9 chan 1 at 80")
        seat.until("set 9 chan 1 at 80: refused AbsentCue 9: there is no such cue$")
        seat.line("label 2 High noon")
        seat.until("^▶ +2 .* High noon")
        seat.keys("u")
        seat.until("^▶ +2 .* Noon")
        seat.line("sheet 2")
        seat.until("sheet 2: row 2 1=204 2=255 3=255$")
        seat.line("nonsense")
        seat.until("nonsense: bad: no line of a script")
        seat.keys(":", "t", "y", "p", "Escape")
        seat.until("space go")
        shown = seat.shown()
        desk = desk_at(show, [(0, "go"), (0, "goto 3"), (0, "back"), (0, "settle"), (0, "set 2 chan 1 at 80"), (0, "master at 95")], shown.moment)
        return [] if shown.up() == bars_at(desk) else [f"the bars are {shown.up()}, and should be {bars_at(desk)}"]


def faders_by_arrows(_program: str) -> List[str]:
    """The arrows choose a submaster and move it, in steps of 5 per cent and no further than full and none."""
    path = os.path.join(rig.TOP, "examples", "submasters.asc")
    with Seat(path) as seat:
        for key in ("Right", "Up", "Up", "Down", "Down", "Down", "Up", "Up"):
            seat.keys(key)
        # Only the last lines have room on the screen. The fader is at 10 twice, so all three are waited for.
        levels = ["fader 1 at 0", "fader 1 at 5", "fader 1 at 10"]
        rig.until(lambda: [line for _, line in seat.shown().played] == levels, f"the screen says {levels}")
        seat.keys("q")
        seat.left()
    return []


def saved_and_left(_program: str) -> List[str]:
    """`save` asks for a file, which then has the show as the rules write it; q asks where edits aren't saved."""
    wrong = []
    with tempfile.TemporaryDirectory() as folder:
        path = os.path.join(folder, "saved.asc")
        with Seat(FADES) as seat:
            seat.line("set 1 chan 3 at 40")
            seat.keys("q")
            seat.until("edits aren't saved: leave without them")
            seat.keys("n")
            seat.line("save")
            seat.until("save into:$")
            seat.type(os.path.join(folder, "nowhere", "saved.asc"))
            seat.until("saved.asc can't be written: No such file or directory")
            os.mkfifo(os.path.join(folder, "pipe"))
            seat.line("save")
            seat.type(os.path.join(folder, "pipe"))
            seat.until("is there already: replace it")
            seat.keys("y")
            seat.until("pipe can't be written: it is no plain file")
            os.unlink(os.path.join(folder, "pipe"))
            seat.line("save")
            seat.type(path)
            seat.until("save: .*saved.asc has the show")
            seat.line("label 1 First light")
            seat.line("save")
            seat.type(path)
            seat.until("is there already: replace it")
            seat.keys("n")
            wanted = desk_at(read_bytes(FADES), [(0, "set 1 chan 3 at 40")], 0)
            text = plain_desk.UndoScript(wanted).answer([b"save"])
            wrong += [] if read_bytes(path) == text else [f"saved {read_bytes(path)!r}, and not {text!r}"]
            seat.line("undo")
            seat.keys("q")
            screen = seat.left()
            wrong += [] if "status 0" in screen and not any("weren't saved" in line for line in screen) else [f"at the end {screen}"]
        wrong += [] if os.listdir(folder) == ["saved.asc"] else [f"left {os.listdir(folder)}"]
    return wrong


# Saves two texts into one file, of which the first takes long to be whole on the disk: what the file has at the end, and what is said.
TWO_SAVES = """
import sys, time
sys.path.append(%r)
from seat import saving
slow = iter([0.5])
saving.os.fsync = lambda _: time.sleep(next(slow, 0))
class Player:
    saved = say = staticmethod(lambda text: print(text))
saver = saving.Saver(Player)
saver.begin(sys.argv[1], b"first")
saver.begin(sys.argv[1], b"second")
saver.finish()
print(open(sys.argv[1], "rb").read())
"""


def the_last_save_stays(_program: str) -> List[str]:
    """Of two saves into one file the later one stays, however long the first one took."""
    with tempfile.TemporaryDirectory() as folder:
        path = os.path.join(folder, "saved.asc")
        said = subprocess.run([rig.PYTHON, "-c", TWO_SAVES % rig.BRIDGES, path], stdout=subprocess.PIPE, text=True, check=True, timeout=rig.SECONDS).stdout.splitlines()
        wanted = ["b'first'", f"save: {path} has the show, 5 bytes", "b'second'", f"save: {path} has the show, 6 bytes", "b'second'"]
        return [] if said == wanted else [f"{said}, and not {wanted}"]


def levels_as_looks(_program: str) -> List[str]:
    """With `--states` what a cue doesn't name is dark in it; without it tracks."""
    wrong = []
    with rig.written("two.asc", "IDENT 3:0\nCUE 1\nCHAN 1@FL\nCUE 2\nCHAN 2@50\nENDDATA\n") as path:
        for words, row in (([], "row 2 1=255 2=128"), (["--states"], "row 2 2=128")):
            with Seat(path, *words) as seat:
                seat.line("sheet 2")
                screen = seat.until("sheet 2: row")
                wrong += [] if any(line.endswith(f"sheet 2: {row}") for line in screen) else [f"{words}: {screen}"]
                seat.keys("q")
                seat.left()
    return wrong


def the_terminal_is_as_it_was(_program: str) -> List[str]:
    """After q, Ctrl-C, SIGTERM and a show that is refused: the same settings, what stood there before, and a status that tells."""
    wrong = []
    for how, status in (("q", 0), ("C-c", 130), ("kill", 143)):
        with Seat(FADES) as seat:
            seat.keys("Space")
            seat.until("go: ok")
            if how == "kill":
                os.kill(seat.process, signal.SIGTERM)
            else:
                seat.keys(how)
            screen = seat.left()
            wrong += [] if f"status {status}" in screen and "before" in screen else [f"{how}: {screen}"]
            seat.type("stty -a")
            settings = " ".join(seat.until("isig"))
            wrong += [f"{how}: {name} is off" for name in ("icanon", "echo", "icrnl", "onlcr") if f" {name} " not in settings.replace(";", " ") + " "]
    return wrong


def its_terminal_is_closed(_program: str) -> List[str]:
    """The status tells of it, though nobody is left to read that edits are lost."""
    terminal, inside = pty.openpty()
    process = subprocess.Popen(["setsid", "--ctty", rig.PYTHON, DESK, FADES], stdin=inside, stdout=inside, stderr=inside,
                               env={**os.environ, "TERM": "xterm-256color", "LANG": "C.UTF-8"})
    os.close(inside)
    drawn = b""
    while b"last tick" not in drawn:
        drawn += os.read(terminal, 65_536)
    os.write(terminal, b":label 1 x\n")
    time.sleep(0.5)
    os.close(terminal)
    status = process.wait(rig.SECONDS)
    return [] if status == 129 else [f"status {status}"]


def a_terminal_that_is_not_known(_program: str) -> List[str]:
    """A terminal of which this machine has no description: one line says so, and the status is 2."""
    wrong = []
    for name in ("no-such-terminal", ""):
        terminal, inside = pty.openpty()
        run = subprocess.run(["setsid", "--ctty", rig.PYTHON, DESK, FADES], stdin=inside, stdout=inside, stderr=subprocess.PIPE, text=True,
                             env={**os.environ, "TERM": name}, timeout=rig.SECONDS)
        os.close(inside)
        os.close(terminal)
        if run.returncode != 2 or run.stderr.count("\n") != 1 or "TERM" not in run.stderr:
            wrong.append(f"{name!r}: status {run.returncode}, {run.stderr!r}")
    return wrong


def what_keeps_the_seat_from_beginning(_program: str) -> List[str]:
    """A show that is refused, a file that isn't there, a port that is taken, words that name nothing: one line each, and status 2."""
    wrong = []
    with rig.written("bad.asc", "IDENT 3:0\nCUE 1\nUP x\nENDDATA\n") as bad:
        for words, part in (([bad], "show BadNumber 3"), (["/nowhere.asc"], "No such file"), ([FADES, "--osc", "192.0.2.77:7770"], "Cannot assign"),
                            ([FADES, "--osc", "x"], "no port"), ([FADES, "--universes", "33"], "from 1 to 32"), ([FADES, "--ola", "--ola-port", "65536"], "from 1 to 65535"), ([], "required")):
            with BareSeat(*words) as seat:
                seat.process.wait(rig.SECONDS)
                status, said = seat.end(signal.SIGCONT)
                if status != 2 or part not in said[-1] or "Traceback" in "".join(said):
                    wrong.append(f"{words}: status {status}, {said}")
    return wrong


def wide_letters(_program: str) -> List[str]:
    """What is being typed is seen to its end, with the cursor behind it, also where letters take two columns."""
    with Seat(FADES, columns=60) as seat:
        seat.keys(":")
        seat.tmux("send-keys", "-t", "a", "-l", "label 1 " + "舞台" * 20 + "z")
        seat.until("舞台z$")
        line, cursor = seat.screen()[-1], seat.tmux("display-message", "-p", "-t", "a", "#{cursor_x}").strip()
        columns = sum(1 if letter.isascii() else 2 for letter in line.rstrip())
        seat.keys("Enter")
        seat.until("[台z]: ok$")
        return [] if int(cursor) == columns else [f"the cursor is at {cursor} behind {columns} columns"]


def a_terminal_of_any_size(_program: str) -> List[str]:
    """The seat goes on where its terminal becomes as small as it can be, also while a line is being typed."""
    wrong = []
    with BareSeat(FADES) as seat:
        for rows, columns in ((1, 1), (40, 1), (1, 80), (2, 2), (40, 120)):
            seat.press(b":abc")
            seat.resize(rows, columns)
            time.sleep(0.2)
            seat.press(b"\x1b")
            time.sleep(0.1)
            if seat.process.poll() is not None:
                return [f"it ended at {rows} rows of {columns}"]
        status, said = seat.end()
        wrong += [] if (status, said) == (0, []) else [f"status {status}, said {said}"]
    return wrong


# ---------------------------------------------------------------------------------------------------------------------
# OSC.


def osc(path: str, *words: str) -> None:
    """A message, by liblo's own program."""
    subprocess.run(["oscsend", "127.0.0.1", str(OSC), path, *words], check=True)


class Subscriber:
    """A remote that subscribed, in a process of its own: a line for each message."""

    def __init__(self) -> None:
        code = ("import liblo\nserver = liblo.Server()\n"
                "server.add_method(None, None, lambda path, values, *_: print(path, *values, sep='|', flush=True))\n"
                f"server.send(liblo.Address('127.0.0.1', {OSC}), '/cuedesk/subscribe')\n"
                "while True: server.recv()\n")
        self.process = subprocess.Popen([rig.PYTHON, "-c", code], stdout=subprocess.PIPE, text=True)
        self._lines: List[str] = []
        threading.Thread(target=self._read, daemon=True).start()

    def lines(self, count: int) -> List[str]:
        """All messages, once there are as many as given."""
        rig.until(lambda: len(self._lines) >= count, f"{count} messages; there are {self._lines}", 5)
        return list(self._lines)

    def stop(self) -> None:
        """Ends it."""
        self.process.kill()
        self.process.wait()

    def _read(self) -> None:
        """Takes each line as it comes."""
        assert self.process.stdout
        for line in self.process.stdout:
            self._lines.append(line.rstrip("\n"))


def a_cue_by_osc(_program: str) -> List[str]:
    """`oscsend` plays a cue; a follow-on comes; who subscribed is told of the cues and of each refusal, and the screen is as by keys."""
    show, wrong = read_bytes(FADES), []
    with Seat(FADES, "--osc", str(OSC)) as seat:
        remote = Subscriber()
        remote.lines(2)
        osc("/cuedesk/go")
        remote.lines(4)
        osc("/cuedesk/back")
        remote.lines(5)
        wrong += until_right(show, seat, lambda text: text.startswith(" 1 Dawn ") and "of 5.0 s" in text)
        osc("/cuedesk/goto", "f", "2.0")
        remote.lines(9)
        wrong += until_right(show, seat, lambda text: text.startswith(" 3 Dusk ") and "of 5.0 s" in text)
        osc("/cuedesk/settle")
        osc("/cuedesk/line", "s", "set 1 chan 999 at 5")
        told = remote.lines(10)
        wanted = ["/cuedesk/cue||", "/cuedesk/next|1|Dawn", "/cuedesk/cue|1|Dawn", "/cuedesk/next|2|Noon",
                  "/cuedesk/refused|back|refused NoCueBefore 1: no cue is below this one", "/cuedesk/cue|2|Noon", "/cuedesk/next|3|Dusk",
                  "/cuedesk/cue|3|Dusk", "/cuedesk/next||", "/cuedesk/refused|set 1 chan 999 at 5|refused AbsentChannel 999: the show has no such channel"]
        wrong += [] if told == wanted else [f"told {told}, and not {wanted}"]
        remote.stop()
        seat.keys("q")
        seat.left()
    return wrong


# Messages, and the line of a script that each is to be, or nothing where it is to be refused.
MESSAGES: List[Tuple[List[str], str]] = [
    (["/cuedesk/fader", "if", "1", "0.5"], "fader 1 at H80"), (["/cuedesk/fader", "ii", "2", "100"], "fader 2 at 100"), (["/cuedesk/fader", "is", "1", "FL"], "fader 1 at FL"),
    (["/cuedesk/master", "f", "1.0"], "master at HFF"), (["/cuedesk/master", "i", "1"], "master at 1"), (["/cuedesk/master", "s", "H80"], "master at H80"),
    (["/cuedesk/line", "s", "label 1 By OSC"], "label 1 By OSC"),
    (["/cuedesk/master", "f", "1.01"], ""), (["/cuedesk/master", "i", "101"], ""), (["/cuedesk/master", "f", "nan"], ""), (["/cuedesk/master"], ""), (["/cuedesk/master", "s", "50 x"], ""),
    (["/cuedesk/master", "T"], ""), (["/cuedesk/fader", "i", "1"], ""), (["/cuedesk/fader", "ff", "1.5", "0.5"], ""), (["/cuedesk/go", "f", "1.0"], ""), (["/cuedesk/goto", "f", "inf"], ""),
    (["/cuedesk/goto", "s", "1 2"], ""), (["/cuedesk/goto", "s", "1\n2"], ""), (["/cuedesk/goto", "s", "1\r"], ""), (["/cuedesk/master", "s", "5\n6"], ""),
    (["/cuedesk/fader", "is", "1", "5\r6"], ""), (["/cuedesk/line", "i", "5"], ""), (["/cuedesk/line", "s", "save"], ""), (["/cuedesk/line", "s", "QUIT"], ""), (["/cuedesk/line", "s", "go\ngo"], ""),
    (["/cuedesk/subscribe", "s", "x"], ""), (["/cuedesk"], ""), (["/"], ""), (["/cuedesk/go/"], ""), (["/CUEDESK/GO"], ""), (["/other", "iiii", "1", "2", "3", "4"], ""),
    (["/cuedesk/goto", "i", "1"], "goto 1"), (["/cuedesk/goto", "s", "1.0"], "goto 1.0"), (["/cuedesk/goto", "d", "1.0"], "goto 1")]


def messages(_program: str) -> List[str]:
    """Each message is the line that it should be, or is refused with one line and changes nothing."""
    wrong = []
    with Seat(os.path.join(rig.TOP, "examples", "submasters.asc"), "--osc", str(OSC), columns=120) as seat:
        def last_said() -> str:
            """The last line that was said, without its moment."""
            said = [line for line in seat.screen() if re.match(r" \d+:\d\d\.\d\d  ", line)]
            return said[-1][10:].strip() if said else ""

        for count, (words, line) in enumerate(MESSAGES):
            seat.line(f"label 1 {count}")
            rig.until(lambda: last_said() == f"label 1 {count}: ok", f"label {count}")
            before = seat.shown()
            osc(*words)
            rig.until(lambda: not last_said().startswith("label 1 ") or line == last_said()[:-4], f"an answer to {words}", 5)
            if not (last_said() == f"{line}: ok" if line else ": refused: " in last_said()):
                wrong.append(f"{words}: {last_said()}")
            if not line and (seat.shown().slots, seat.shown().running) != (before.slots, before.running):
                wrong.append(f"{words} changed something")
        seat.keys("q", "y")
        seat.left()
    return wrong


def bundles(_program: str) -> List[str]:
    """Messages of a bundle are done in their order, at its time, and none of this is refused; a bundle of nothing is."""
    import liblo
    target, wrong = ("127.0.0.1", OSC), []
    with Seat(FADES, "--osc", str(OSC)) as seat:
        liblo.send(target, liblo.Bundle(liblo.Message("/cuedesk/go"), liblo.Message("/cuedesk/settle")))
        seat.until("settle: ok")
        liblo.send(target, liblo.Bundle(liblo.time() + 0.6, liblo.Message("/cuedesk/goto", "3"), liblo.Message("/cuedesk/settle")))
        time.sleep(0.2)
        early = [line for line in seat.screen() if "goto" in line.split("space go")[0] or "refused" in line]
        seat.until("goto 3: ok")
        seat.until("settle: ok")
        wrong += [f"before its time: {early}"] * bool(early) + [line for line in seat.screen() if "refused" in line]
        liblo.send(target, liblo.Bundle())
        seat.until("osc: refused: a packet that is no message")
        seat.keys("q")
        seat.left()
    return wrong


def osc_is_of_this_machine_alone(_program: str) -> List[str]:
    """The port is bound to 127.0.0.1, or to the address that was given."""
    wrong = []
    for words, address in ((str(OSC), "0100007F"), (f"{rig.OTHER_ADDRESS}:{OSC}", "010200C0")):
        with Seat(FADES, "--osc", words) as seat:
            with open("/proc/net/udp") as table:
                bound = [line.split()[1] for line in list(table)[1:]]
            wrong += [] if bound == [f"{address}:{OSC:04X}"] else [f"{words}: bound to {bound}"]
            seat.keys("q")
            seat.left()
    return wrong


# Packets that are no messages: no address, no end, a text that isn't UTF-8, an address that isn't, a type that there isn't.
PACKETS = [b"", b"x", b"no message", b"/cuedesk/go", b"/cuedesk/line\0\0\0,s\0\0g\xffo\0", b"/\xff\0\0,\0\0\0", b"/cuedesk/go\0,q\0\0\0\0\0\1", b"#bundle\0" + bytes(7)]


def packets_that_are_no_messages(_program: str) -> List[str]:
    """They are refused with a line and leave the screen as it is, and a flood of them holds up no tick."""
    wrong = []
    with Seat(FADES, "--osc", str(OSC)) as seat, rig.socket.socket(rig.socket.AF_INET, rig.socket.SOCK_DGRAM) as sender:
        for packet in PACKETS:
            sender.sendto(packet, ("127.0.0.1", OSC))
        seat.until("osc: refused: a packet that is no message")
        begun, moment = time.monotonic(), seat.shown().moment
        while time.monotonic() < begun + 1:
            sender.sendto(PACKETS[2], ("127.0.0.1", OSC))
        time.sleep(0.5)
        gone, took = seat.shown().moment - moment, time.monotonic() - begun
        wrong += [] if abs(gone / 100 - took) < 0.3 else [f"in {took:.2f} s {gone / 100:.2f} s of show went by"]
        lines = [line for line in seat.screen() if line]
        wrong += [] if len(lines) == 12 and not any("Error" in line for line in lines) else [f"the screen is {lines}"]
        wrong += wrong_screen(read_bytes(FADES), seat.shown())
        seat.keys("q")
        seat.left()
    return wrong


# ---------------------------------------------------------------------------------------------------------------------
# Time.


def wide_show(folder: str) -> str:
    """512 channels on the dimmers of universe 1; cue 1 brings all but the last two up in ten seconds, and channel 511 at once; cue 2 channel 512 at once."""
    path = os.path.join(folder, "wide.asc")
    with open(path, "w") as file:
        file.write("IDENT 3:0\n" + "".join(f"PATCH 1 {c}<{c}@FL\n" for c in range(1, 513)) + "CUE 1\nUP 10\n"
                   + "".join(f"CHAN {c}@H{128 + c % 128:02X}\n" for c in range(1, 511)) + "PART 2\nUP 0\nCHAN 511@FL\nCUE 2\nUP 0\nCHAN 512@FL\nENDDATA\n")
    return path


def first_with(frames: List[Tuple[float, bytes]], slot: int, level: int, after: float) -> float:
    """When a frame first had a slot at a level, behind a moment."""
    return next((when for when, levels in frames if when >= after and levels[slot - 1] == level), float("inf"))


def a_key_acts_within_60_ms(_program: str) -> List[str]:
    """In a fade of ten seconds over 510 channels: from a key in the terminal to the frame that a client of olad gets. Keys come at any place of a tick."""
    draw = random.Random(7)
    is_first = takes_turns_first()
    try:
        with tempfile.TemporaryDirectory() as folder, rig.Olad(ola_tests.PORTS), BareSeat(wide_show(folder), "--ola") as seat:
            observer = rig.Observer([1])
            began = seat.press(b" ")
            pressed: Dict[int, float] = {}
            for step in range(1, 16):
                time.sleep(0.4 + 0.02 * draw.random())
                # Each step down leaves the master 5 per cent lower, and slot 511 is at the master's level.
                pressed[int(255 * (100 - 5 * step) / 100 + 0.5)] = seat.press(KEY["down"])
            time.sleep(0.4)
            last = seat.press(b" ")
            time.sleep(0.3)
            frames = observer.stop()[1]
            took = [first_with(frames, 511, 255, began) - began] + [first_with(frames, 511, level, when) - when for level, when in pressed.items()]
            took.append(first_with(frames, 512, min(pressed), last) - last)
            status, said = seat.end()
    finally:
        if is_first:
            takes_turns_again()
    wrong = [] if max(took) <= WITHIN and last - began < 9.5 else [f"a key took {max(took) * 1000:.0f} ms; all: {[round(each * 1000) for each in took]}"]
    return wrong + ([] if (status, said) == (0, []) else [f"status {status}, {said}"])


def processor_time_of_a_fade(_program: str) -> List[str]:
    """In a fade of 512 channels, all of them on show: below 10 per cent of a processor."""
    is_first = takes_turns_first()
    try:
        with tempfile.TemporaryDirectory() as folder, BareSeat(wide_show(folder), "--osc", str(OSC), columns=120, rows=40) as seat:
            seat.press(b" ")
            time.sleep(1)
            used, begun, written = rig.processor_seconds(seat.process.pid), time.monotonic(), seat.written
            time.sleep(8)
            share = (rig.processor_seconds(seat.process.pid) - used) / (time.monotonic() - begun)
            drawn = seat.written - written
            seat.end()
    finally:
        if is_first:
            takes_turns_again()
    return ([] if share < SHARE else [f"{100 * share:.1f} per cent of a processor"]) + ([] if drawn > 10_000 else [f"only {drawn} bytes were drawn"])


class Asked:
    """Asks a seat by OSC for its moment."""

    def __init__(self) -> None:
        import liblo
        self._server, self._seat, self._moments = liblo.Server(), liblo.Address("127.0.0.1", OSC), []
        self._server.add_method("/cuedesk/reply", "ss", lambda _, texts: self._moments.append(int(texts[1].split()[1])))

    def offset(self) -> float:
        """How far the steady clock is before the show's moment, in seconds: the least of ten answers, since an answer may be late and is never early."""
        found = []
        for _ in range(10):
            self._server.send(self._seat, "/cuedesk/line", "frame")
            if self._server.recv(2_000):
                found.append(time.monotonic() - self._moments[-1] / 100)
            time.sleep(0.013)
        return min(found)


def ticks_do_not_drift(_program: str) -> List[str]:
    """The show's moment is the steady clock's after ten seconds, in which the seat was stopped for half a second; after a stop of two seconds it goes on
    from where it was."""
    wrong = []
    with Seat(FADES, "--osc", str(OSC), has_jobs=False) as seat:
        asked = Asked()
        begun = asked.offset()
        stop_for(seat.process, 0.5)
        time.sleep(9.5)
        drift = asked.offset() - begun
        wrong += [] if abs(drift) < 0.03 else [f"{drift:.3f} s off after ten seconds"]
        stop_for(seat.process, 2)
        seat.until("the clock stood still")
        leap = asked.offset() - begun
        wrong += [] if 1.9 < leap < 2.2 else [f"{leap:.2f} s off after a stop of two seconds"]
        seat.keys("q")
        seat.left()
    return wrong


def the_rig_holds_the_last_frame(_program: str) -> List[str]:
    """`--ola`: what olad holds of two universes at the end is what the rules give at the seat's last moment; no olad is said, and nothing waits for it."""
    path, wrong = os.path.join(rig.TOP, "examples", "live.asc"), []
    with Seat(path, "--universes", "2", "--ola", columns=110) as seat:
        seat.until("no olad on port 9010")
        with rig.Olad(ola_tests.PORTS):
            seat.until("olad is there")
            seat.keys("Space")
            seat.until(r" 1 .* 1\.\d of 5\.0 s")
            seat.keys("s")
            seat.until("settle: ok")
            rig.until(lambda: bytes(desk_at(read_bytes(path), [(0, "go"), (0, "settle")], 0).slots(1)) == rig.held(1), "olad holds universe 1", 3)
            seat.keys("q")
            screen = seat.left()
            wrong += [] if "status 0" in screen else [f"at the end {screen}"]
            for universe in (1, 2):
                wanted = bytes(desk_at(read_bytes(path), [(0, "go"), (0, "settle")], 0).slots(universe))
                wrong += [] if rig.held(universe) == wanted else [f"universe {universe}: olad doesn't hold the last frame"]
    return wrong


def another_server_on_the_port(_program: str) -> List[str]:
    """What answers there isn't olad: nothing of that is written across the screen, and at the end it is said."""
    with rig.socket.create_server(("127.0.0.1", rig.PORT)) as server, BareSeat(FADES, "--ola") as seat:
        with server.accept()[0] as connection:
            connection.sendall(b"HTTP/1.1 400 Bad Request\r\n\r\n")
            time.sleep(0.5)
            status, said = seat.end()
        return [] if (status, said) == (1, ["desk.py: universe 1: its last frame isn't delivered: olad didn't answer"]) else [f"status {status}, said {said}"]


TESTS: List[Callable[[str], List[str]]] = [
    fades_played_by_keys, every_key, faders_by_arrows, saved_and_left, the_last_save_stays, levels_as_looks, the_terminal_is_as_it_was, its_terminal_is_closed, a_terminal_that_is_not_known, wide_letters,
    what_keeps_the_seat_from_beginning, a_terminal_of_any_size,
    a_cue_by_osc, messages, bundles,
    osc_is_of_this_machine_alone, packets_that_are_no_messages, a_key_acts_within_60_ms, processor_time_of_a_fade, ticks_do_not_drift, the_rig_holds_the_last_frame,
    another_server_on_the_port]
