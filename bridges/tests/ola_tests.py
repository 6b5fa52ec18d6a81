"""Tests of ola.py on a real olad. Each function is a test, and answers what went wrong, a line each."""
import os
import signal
import subprocess
import sys
import tempfile
import time
from typing import Callable, List, Tuple

import rig

sys.path.append(os.path.join(rig.TOP, ".ci"))
import plain_desk  # noqa: E402

# Universe 1 on the Dummy port, 2 on Art-Net's first port, 3 on E1.31's.
PORTS = [(rig.DUMMY, 0, 1), (rig.ART_NET, 0, 2), (rig.E131, 0, 3)]


def show(cues: List[str]) -> str:
    """512 channels on the dimmers of three universes; each cue brings every channel to a level of its own."""
    patch = "".join(f"PATCH 1 {channel}<{channel}@FL {channel}<{512 + channel}@FL {channel}<{1024 + channel}@80\n" for channel in range(1, 513))
    looks = "".join(f"CUE {n}\n{times}\n" + "".join(f"CHAN {c}@H{(37 * c + 91 * n) % 256:02X}\n" for c in range(1, 513)) for n, times in enumerate(cues, 1))
    return "IDENT 3:0\n" + patch + looks + "ENDDATA\n"


def played(seconds: int) -> bytes:
    """A show that fades for a number of seconds, cue after cue, and the script that plays it."""
    return (show(["UP 1\nDOWN 1"] * seconds) + "go\ntick 50\n" * seconds).encode()


def full_line(count: int, universe: int) -> bytes:
    """A line of an outlet whose first two slots tell its number."""
    levels = [1 + count % 250, 1 + count // 250] + [1 + (count * slot) % 255 for slot in range(3, 513)]
    return b"frame %d %d %d " % (count, 2 * count, universe) + b" ".join(b"%d=%d" % cell for cell in enumerate(levels, 1))


def levels_of(line: bytes) -> bytes:
    """The 512 levels that a line of an outlet tells."""
    levels = bytearray(512)
    for cell in line.split()[4:]:
        slot, level = cell.split(b"=")
        levels[int(slot) - 1] = int(level)
    return bytes(levels)


def out_of_order(seen: List[bytes], lines: List[bytes]) -> int:
    """How many of the frames that were seen are none of the lines behind the one before; one may be seen twice."""
    wanted = [levels_of(line) for line in lines]
    at, wrong = 0, 0
    for levels in seen:
        try:
            at = wanted.index(levels, at)
        except ValueError:
            wrong += 1
    return wrong


def is_dark(levels: bytes) -> bool:
    """A universe of which olad has got nothing yet."""
    return not any(levels)


class Run:
    """A live run of the program through a bridge, whose outlets are watched on their way."""

    def __init__(self, folder: str, program: str, script: bytes, universes: int = 3) -> None:
        self.folders = [os.path.join(folder, name) for name in ("desk", "bridge")]
        for each in self.folders:
            os.mkdir(each)
        self.universes = list(range(1, universes + 1))
        pipes = [[os.path.join(each, f"universe-{u}.txt") for u in self.universes] for each in self.folders]
        for pipe in pipes[0]:
            os.mkfifo(pipe)
        self.bridge = rig.Bridge(self.folders[1], universes)
        self.tees = [rig.Tee(*pair) for pair in zip(*pipes)]
        self.script = script
        with open(os.path.join(folder, "script"), "wb+") as source:
            source.write(script)
            source.seek(0)
            self.desk = subprocess.Popen([program, "run", str(universes)], cwd=self.folders[0], stdin=source, stdout=subprocess.DEVNULL)

    def lines(self) -> List[List[bytes]]:
        """What the desk wrote into each outlet."""
        return [[line for _, line in tee.lines] for tee in self.tees]

    def end(self) -> List[str]:
        """Waits for all, and says what is wrong with how they ended, and with what olad holds."""
        status = self.desk.wait(rig.SECONDS)
        for tee in self.tees:
            tee.thread.join(rig.SECONDS)
        bridge, self.said = self.bridge.end()
        wrong = [f"status of the desk {status}, of the bridge {bridge}: {self.said}"] if status or bridge else []
        for universe, lines in zip(self.universes, self.lines()):
            last = plain_desk.versions(self.script, universe)[-1].rstrip(b"\n")
            if lines[-1] != last:
                wrong.append(f"universe {universe}: the desk's last line is {lines[-1][:40]!r}, not {last[:40]!r}")
            if rig.held(universe) != levels_of(lines[-1]):
                wrong.append(f"universe {universe}: olad doesn't hold the last line")
        return wrong + ([f"left in the folder: {os.listdir(self.folders[1])}"] if os.listdir(self.folders[1]) else [])


def wrong_in_seen(seen: dict, lines: List[List[bytes]], share: float) -> List[str]:
    """Whether what a client of olad saw are lines of the outlets in their order, and enough of them."""
    wrong = []
    for universe, wanted in enumerate(lines, 1):
        frames = [levels for _, levels in seen.get(universe, ()) if not is_dark(levels)]
        strange = out_of_order(frames, wanted)
        if strange or len(frames) < share * len(wanted):
            wrong.append(f"universe {universe}: {len(wanted)} lines, {len(frames)} frames seen, {strange} of them no line in its order")
    return wrong


def live_run(program: str) -> List[str]:
    """Three universes on Dummy, Art-Net and E1.31: what olad holds, what its client saw, what went out on the two networks."""
    with tempfile.TemporaryDirectory() as folder, rig.Olad(PORTS):
        observer, wire = rig.Observer([1, 2, 3]), rig.Wire()
        run = Run(folder, program, played(4))
        wrong = run.end() + ([f"said {run.said}"] if run.said else [])
        wrong += wrong_in_seen(observer.stop(), run.lines(), 0.25)
        packets = wire.stop()
        for universe, name in ((2, ("artnet", 2)), (3, ("e131", 3))):
            sent = [levels for levels in packets.get(name, ()) if not is_dark(levels)]
            lines = run.lines()[universe - 1]
            if not sent or sent[-1] != levels_of(lines[-1]) or out_of_order(sent, lines) or len(sent) < len(lines) / 4:
                wrong.append(f"{name}: {len(sent)} packets of {len(lines)} lines, {out_of_order(sent, lines)} of them no line in its order")
    return wrong


def first_show_of_the_readme(program: str) -> List[str]:
    """An olad as loopback.sh starts it by itself, and a show of two universes."""
    with open(os.path.join(rig.TOP, "examples", "live.asc"), "rb") as source:
        script = source.read()
    with tempfile.TemporaryDirectory() as folder:
        os.chmod(folder, 0o755)
        olad = subprocess.Popen([os.path.join(rig.BRIDGES, "loopback.sh")], env={**os.environ, "TMPDIR": folder}, stdin=subprocess.DEVNULL)
        try:
            rig.until(rig.takes_calls, "olad takes calls")
            return Run(folder, program, script, 2).end()
        finally:
            olad.kill()
            olad.wait()


def olad_killed_midway(program: str) -> List[str]:
    """olad is killed while a show of five seconds plays, and started again some forty lines later: the end is the same as without."""
    with tempfile.TemporaryDirectory() as folder, rig.Olad(PORTS) as olad:
        observer = rig.Observer([1, 2, 3])
        run = Run(folder, program, played(5))
        rig.until(lambda: all(len(lines) > 40 for lines in run.lines()), "the desk plays")
        olad.stop()
        before, written = observer.stop(), len(run.lines()[0])
        rig.until(lambda: len(run.lines()[0]) > written + 40, "the desk plays on without olad")
        olad.start()
        observer = rig.Observer([1, 2, 3])
        wrong = run.end()
        wrong += wrong_in_seen(before, run.lines(), 0.05) + wrong_in_seen(observer.stop(), run.lines(), 0.05)
        if len(run.said) != 2 or "no olad" not in run.said[0] or "olad is there" not in run.said[1]:
            wrong.append(f"said {run.said}")
    return wrong


# ---------------------------------------------------------------------------------------------------------------------
# Lines that the tests write into the pipes themselves.


class Fed:
    """A bridge whose pipes a test writes into."""

    def __init__(self, universes: int, *words: str) -> None:
        self.folder = tempfile.mkdtemp(prefix="fed-")
        self.bridge = rig.Bridge(self.folder, universes, *words)
        self.pipes = [open(os.path.join(self.folder, f"universe-{u}.txt"), "wb", 0) for u in range(1, universes + 1)]

    def write(self, universe: int, *lines: bytes) -> None:
        """Lines into one outlet, by one write."""
        self.pipes[universe - 1].write(b"".join(line + b"\n" for line in lines))

    def close(self) -> None:
        """As where the desk ends."""
        for pipe in self.pipes:
            pipe.close()

    def end(self, is_slow: bool = False) -> Tuple[int, List[str]]:
        """The bridge's status, and what it said."""
        self.close()
        ended = self.bridge.end(is_slow=is_slow)
        os.rmdir(self.folder)
        return ended


def holds(universe: int, line: bytes) -> bool:
    """Whether olad holds what a line tells."""
    return rig.held(universe) == levels_of(line)


def wrong_end(fed: Fed, status: int, *said: str) -> List[str]:
    """What is wrong with the bridge's status and with what it said, a part of each line."""
    ended, lines = fed.end(any("olad hasn't answered" in part for part in said))
    if ended == status and len(lines) == len(said) and all(part in line for part, line in zip(said, lines)):
        return []
    return [f"status {ended}, not {status}; said {lines}, not {list(said)}"]


def last_frame_of_many_short_runs(_program: str) -> List[str]:
    """Each desk writes two lines and ends at once; olad holds the second each time."""
    lost = []
    with rig.Olad(PORTS):
        for n in range(1, 41):
            fed = Fed(1)
            fed.write(1, full_line(n, 1))
            fed.write(1, full_line(n + 1_000, 1))
            lost += [f"run {n}"] * (not (fed.end() == (0, []) and holds(1, full_line(n + 1_000, 1))))
    return lost


def a_resting_universe_comes_back_with_olad(_program: str) -> List[str]:
    """A universe of which no line comes any more is given to an olad that was started again."""
    with rig.Olad(PORTS) as olad:
        fed = Fed(2)
        fed.write(1, full_line(7, 1))
        fed.write(2, full_line(8, 2))
        rig.until(lambda: holds(1, full_line(7, 1)) and holds(2, full_line(8, 2)), "olad holds both")
        olad.stop(signal.SIGTERM)
        olad.start()
        rig.until(lambda: holds(1, full_line(7, 1)) and holds(2, full_line(8, 2)), "a new olad holds both")
        return wrong_end(fed, 0, "no olad", "olad is there")


def no_olad(_program: str) -> List[str]:
    """Nothing listens: that is said once, and at the end of each universe that its last frame isn't delivered. None was started."""
    fed = Fed(2, "--seconds", "0.5")
    for n in range(1, 11):
        fed.write(1, full_line(n, 1))
        fed.write(2, full_line(n, 2))
        time.sleep(0.02)
    wrong = wrong_end(fed, 1, "no olad", "universe 1: its last frame isn't delivered: no olad", "universe 2: its last frame isn't delivered: no olad")
    if subprocess.run(["pgrep", "-x", "olad"], stdout=subprocess.DEVNULL).returncode == 0:
        wrong.append("an olad runs")
    return wrong


def olad_comes_after_the_desk_has_ended(_program: str) -> List[str]:
    """olad is started once the outlets are closed, within the bridge's time: it gets the last frames."""
    fed = Fed(1)
    fed.write(1, full_line(3, 1), full_line(4, 1))
    fed.close()
    time.sleep(0.5)
    with rig.Olad(PORTS):
        wrong = wrong_end(fed, 0, "no olad", "olad is there")
        return wrong + ([] if holds(1, full_line(4, 1)) else ["olad doesn't hold the last line"])


def a_universe_without_a_port(_program: str) -> List[str]:
    """olad refuses universe 2: said once, and universe 1 goes on as if it weren't there."""
    with rig.Olad(PORTS[:1]):
        observer = rig.Observer([1])
        fed = Fed(2, "--seconds", "0.5")
        lines = [full_line(n, 1) for n in range(1, 51)]
        for n, line in enumerate(lines, 1):
            fed.write(2, full_line(n, 2))
            fed.write(1, line)
            time.sleep(0.02)
        wrong = wrong_end(fed, 1, "universe 2: olad says: Universe doesn't exist", "universe 2: its last frame isn't delivered: Universe doesn't exist")
        wrong += wrong_in_seen(observer.stop(), [lines], 0.25)
        return wrong + ([] if holds(1, lines[-1]) else ["olad doesn't hold universe 1's last line"])


def a_port_is_patched_meanwhile(_program: str) -> List[str]:
    """ola_patch gives universe 2 a port while the bridge runs: olad gets the line that came before."""
    with rig.Olad(PORTS[:1]):
        fed = Fed(2)
        fed.write(1, full_line(5, 1))
        fed.write(2, full_line(6, 2))
        time.sleep(1.5)
        patch = ["ola_patch", "--device", "2", "--port", "0", "--universe", "2"]
        if subprocess.run(patch).returncode:
            return ["ola_patch failed"]
        rig.until(lambda: holds(2, full_line(6, 2)), "olad holds universe 2")
        return wrong_end(fed, 0, "universe 2: olad says: Universe doesn't exist")


def a_slow_olad_gets_the_newest(_program: str) -> List[str]:
    """olad stands still while 50 lines come: then it gets the one that was on its way, and the last; that it didn't answer is said."""
    with rig.Olad(PORTS) as olad:
        observer = rig.Observer([1])
        fed = Fed(1)
        lines = [full_line(n, 1) for n in range(1, 52)]
        fed.write(1, lines[0])
        rig.until(lambda: holds(1, lines[0]), "olad holds the first line")
        olad.signal(signal.SIGSTOP)
        for line in lines[1:]:
            fed.write(1, line)
            time.sleep(0.02)
        time.sleep(1.5)
        olad.signal(signal.SIGCONT)
        wrong = wrong_end(fed, 0, "olad hasn't answered for 2 seconds")
        seen = [levels for _, levels in observer.stop().get(1, ()) if not is_dark(levels)]
        wanted = [levels_of(line) for line in (lines[0], lines[1], lines[-1])]
        return wrong + ([] if seen == wanted else [f"{len(seen)} frames seen, not the first, the second and the last"])


STRANGE = [b"", b"ok", b"frame", b"frame 1 2", b"frame 1 2 2", b"frame 1 2 1 513=1", b"frame 1 2 1 0=1", b"frame 1 2 1 1=256", b"frame 1 2 1 1=",
           b"frame 1 2 1 =1", b"frame 1 2 1 1", b"frame 1 2 1 1=1 ", b"frame 1 2 1  1=1", b"frame  2 1 1=1", b"frame 1 2 1 2=1 1=1", b"frame 1 2 1 1=1 1=2",
           b"frame 1 2 1 1=-1", b"frame 1 2 1 1=1.5", b"frame 1 2 1 1 5=2=6", b"fr1ame 1 2 1 1=1", b"frame 1 2 1 1=1\r", b"\xff\xfe 1=1", b"x" * 200_000 + b" frame 1 2 1 1=1"]


def lines_that_are_no_frames(_program: str) -> List[str]:
    """Each stands between two good lines, the last is cut off: the first is said, and how many there were; good ones are delivered."""
    with rig.Olad(PORTS):
        fed = Fed(1)
        for n, line in enumerate(STRANGE, 1):
            fed.write(1, full_line(n, 1))
            fed.write(1, line)
            time.sleep(0.01)
        fed.write(1, full_line(999, 1))
        rig.until(lambda: holds(1, full_line(999, 1)), "olad holds the last good line")
        fed.pipes[0].write(b"frame 1 2 1 1=2")
        wrong = wrong_end(fed, 1, "universe 1: no frame: ''", f"universe 1: {len(STRANGE) + 1} lines were no frames")
        return wrong + ([] if holds(1, full_line(999, 1)) else ["olad holds another frame"])


def the_longest_and_the_shortest_line(_program: str) -> List[str]:
    """512 slots at 255 and none; one slot, the first and the last."""
    with rig.Olad(PORTS):
        fed = Fed(1)
        for cells in ([(slot, 255) for slot in range(1, 513)], [], [(1, 1)], [(512, 254)], [(slot, 100) for slot in range(2, 512)]):
            line = b" ".join([b"frame 18446744073709551615 200000000 1", *(b"%d=%d" % cell for cell in cells)])
            fed.write(1, line)
            rig.until(lambda: holds(1, line), f"olad holds a line of {len(cells)} slots")
        return wrong_end(fed, 0)


# ---------------------------------------------------------------------------------------------------------------------
# How the bridge begins and ends.


def pipes_are_left_as_they_were(_program: str) -> List[str]:
    """A pipe that was there is used and stays; one that was made is removed."""
    with tempfile.TemporaryDirectory() as folder, rig.Olad(PORTS):
        ours = os.path.join(folder, "universe-1.txt")
        os.mkfifo(ours)
        bridge = rig.Bridge(folder, 2)
        for universe in (1, 2):
            with open(os.path.join(folder, f"universe-{universe}.txt"), "wb", 0) as pipe:
                pipe.write(full_line(universe, universe) + b"\n")
        status, said = bridge.end()
        wrong = [] if (status, said) == (0, []) else [f"status {status}, said {said}"]
        wrong += [] if os.listdir(folder) == ["universe-1.txt"] else [f"left: {os.listdir(folder)}"]
        return wrong + [f"universe {u}: another frame" for u in (1, 2) if not holds(u, full_line(u, u))]


def what_keeps_the_bridge_from_beginning(_program: str) -> List[str]:
    """A file where a pipe is to be, a folder that isn't there, words that name no universes."""
    wrong = []
    with rig.written("universe-2.txt", "frame 0 0 2\n") as path:
        folder = os.path.dirname(path)
        for line, part in (("2", "no named pipe"), ("1 --folder /nowhere", "No such file"), ("0", "from 1 to 32"), ("33", "from 1 to 32"), ("x", "invalid int"), ("1 --port 0", "from 1 to 65535"), ("1 --port 65536", "from 1 to 65535")):
            words = [rig.PYTHON, os.path.join(rig.BRIDGES, "ola.py"), *line.split()]
            run = subprocess.run(words, cwd=folder, capture_output=True, text=True, timeout=rig.SECONDS)
            if run.returncode != 2 or part not in run.stderr.splitlines()[-1] or "Traceback" in run.stderr:
                wrong.append(f"{line}: status {run.returncode}, {run.stderr}")
        wrong += [] if os.listdir(folder) == ["universe-2.txt"] else [f"left: {os.listdir(folder)}"]
    return wrong


def two_bridges_in_one_folder(_program: str) -> List[str]:
    """The second doesn't begin, since each would get a part of the lines; the first goes on."""
    with tempfile.TemporaryDirectory() as folder, rig.Olad(PORTS):
        first = rig.Bridge(folder, 1)
        with open(os.path.join(folder, "universe-1.txt"), "wb", 0) as pipe:
            status, said = rig.Bridge(folder, 2).end()
            pipe.write(full_line(7, 1) + b"\n")
        wrong = [] if status == 2 and len(said) == 1 and "read by another" in said[0] else [f"the second: status {status}, said {said}"]
        ended = first.end()
        return wrong + ([] if ended == (0, []) and holds(1, full_line(7, 1)) else [f"the first: {ended}"]) + os.listdir(folder)


def ended_by_a_signal(_program: str) -> List[str]:
    """Ctrl-C, SIGTERM and a terminal that is closed end it without a word, and its pipes are gone."""
    wrong = []
    for how, status in ((signal.SIGINT, 130), (signal.SIGTERM, 143), (signal.SIGHUP, 129)):
        with tempfile.TemporaryDirectory() as folder:
            bridge = rig.Bridge(folder, 2)
            time.sleep(0.3)
            bridge.process.send_signal(how)
            ended = bridge.end()
            if ended != (status, []) or os.listdir(folder):
                wrong.append(f"{how.name}: {ended}, left {os.listdir(folder)}")
    return wrong


def started_by_nohup(_program: str) -> List[str]:
    """A bridge that is to outlive its terminal does."""
    with tempfile.TemporaryDirectory() as folder:
        is_ended = signal.signal(signal.SIGHUP, signal.SIG_IGN)
        try:
            bridge = rig.Bridge(folder, 1)
        finally:
            signal.signal(signal.SIGHUP, is_ended)
        time.sleep(0.3)
        bridge.process.send_signal(signal.SIGHUP)
        time.sleep(0.3)
        wrong = [] if bridge.process.poll() is None else ["it ended"]
        bridge.process.terminate()
        ended = bridge.end()
        return wrong + ([] if wrong or ended == (143, []) else [str(ended)])


def pipes_that_are_removed_meanwhile(_program: str) -> List[str]:
    """A pipe that is gone at the end, and one whose place a file has taken: the file stays, and the other pipes are removed."""
    with tempfile.TemporaryDirectory() as folder:
        bridge = rig.Bridge(folder, 3)
        time.sleep(0.3)
        for universe in (1, 2):
            os.unlink(os.path.join(folder, f"universe-{universe}.txt"))
        with open(os.path.join(folder, "universe-2.txt"), "w") as file:
            file.write("kept\n")
        bridge.process.terminate()
        ended, left = bridge.end(), os.listdir(folder)
        return [] if (ended, left) == ((143, []), ["universe-2.txt"]) else [f"{ended}, left {left}"]


def nobody_reads_what_it_says(_program: str) -> List[str]:
    """Where standard error is closed at its other end, the frames go on."""
    with tempfile.TemporaryDirectory() as folder:
        bridge = rig.Bridge(folder, 1)
        assert bridge.process.stdout and bridge.process.stderr
        bridge.process.stderr.close()
        with open(os.path.join(folder, "universe-1.txt"), "wb", 0) as pipe:
            pipe.write(full_line(1, 1) + b"\n")
            time.sleep(0.5)
            with rig.Olad(PORTS):
                pipe.write(full_line(2, 1) + b"\n")
                pipe.close()
                status = bridge.process.wait(rig.SECONDS)
                wrong = [] if status == 0 and holds(1, full_line(2, 1)) else [f"status {status}"]
        bridge.process.stdout.close()
        return wrong


def another_server_on_the_port(_program: str) -> List[str]:
    """What answers there isn't olad: its bytes are no message of olad, or none that can be read. That is said, and nothing breaks."""
    wrong = []
    for answer in (b"HTTP/1.1 400 Bad Request\r\n\r\n", b"\7\0\0\x10" + b"\xff" * 7):
        with tempfile.TemporaryDirectory() as folder, rig.socket.create_server(("127.0.0.1", rig.PORT)) as server:
            bridge = rig.Bridge(folder, 1, "--seconds", "0.5")
            with open(os.path.join(folder, "universe-1.txt"), "wb", 0) as pipe:
                pipe.write(full_line(1, 1) + b"\n")
                with server.accept()[0] as connection:
                    connection.sendall(answer)
                    time.sleep(0.3)
            status, said = bridge.end()
            if status != 1 or not any("its last frame isn't delivered" in line for line in said) or any("Traceback" in line for line in said):
                wrong.append(f"{answer!r}: status {status}, said {said}")
    return wrong


def an_outlet_that_never_begins(_program: str) -> List[str]:
    """A desk that ended before it wrote to its second outlet doesn't keep the bridge for ever."""
    with tempfile.TemporaryDirectory() as folder, rig.Olad(PORTS):
        bridge = rig.Bridge(folder, 2, "--seconds", "0.5")
        with open(os.path.join(folder, "universe-1.txt"), "wb", 0) as pipe:
            pipe.write(full_line(9, 1) + b"\n")
        ended = bridge.end(5)
        return [] if ended == (0, []) and holds(1, full_line(9, 1)) else [str(ended)]


TESTS: List[Callable[[str], List[str]]] = [
    live_run, first_show_of_the_readme, olad_killed_midway, last_frame_of_many_short_runs, a_resting_universe_comes_back_with_olad, no_olad, olad_comes_after_the_desk_has_ended,
    a_universe_without_a_port, a_port_is_patched_meanwhile, a_slow_olad_gets_the_newest, lines_that_are_no_frames, the_longest_and_the_shortest_line,
    pipes_are_left_as_they_were, what_keeps_the_bridge_from_beginning, two_bridges_in_one_folder, ended_by_a_signal, started_by_nohup, pipes_that_are_removed_meanwhile,
    nobody_reads_what_it_says, another_server_on_the_port, an_outlet_that_never_begins]
