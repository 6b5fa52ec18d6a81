"""A real olad in a network name space of its own, clients of it, and outlets that are watched on their way to a bridge.

Everything here runs inside the name space that test.sh makes, which has no interface but loopback and one that leads nowhere.
"""
import contextlib
import os
import select
import signal
import socket
import subprocess
import sys
import tempfile
import threading
import time
from typing import Dict, Iterator, List, Optional, Tuple

BRIDGES = os.path.dirname(os.path.dirname(os.path.abspath(__file__)))
TOP = os.path.dirname(BRIDGES)
PYTHON = "/usr/bin/python3"
PORT = 9010
SECONDS = 20
# E1.31 wants an interface that isn't loopback. This one leads nowhere, and has an address that no network has.
OTHER_ADDRESS = "192.0.2.1"
# The plugins that run, as olad's file of ports numbers them.
DUMMY, ART_NET, E131 = 1, 2, 11

sys.path[:] = [folder for folder in sys.path if os.path.abspath(folder) != BRIDGES]
from ola.OlaClient import OlaClient  # noqa: E402


@contextlib.contextmanager
def written(name: str, text: str) -> Iterator[str]:
    """A file of this text in a folder of its own, for as long as it is needed: its path."""
    with tempfile.TemporaryDirectory() as folder:
        path = os.path.join(folder, name)
        with open(path, "w") as file:
            file.write(text)
        yield path



def made_space() -> None:
    """Sets loopback up, and an interface that leads nowhere."""
    def run(*words: str) -> bool:
        return subprocess.run(["ip", *words], stderr=subprocess.DEVNULL).returncode == 0

    run("link", "set", "lo", "up")
    if not any(run("link", "add", "nowhere", "type", kind) for kind in ("dummy", "ifb", "veth")):
        raise SystemExit("no interface of the types dummy, ifb and veth can be made")
    run("addr", "add", OTHER_ADDRESS + "/24", "dev", "nowhere")
    run("link", "set", "nowhere", "up")
    run("link", "set", "veth0", "up")       # the other end, where it is of the type veth


class Olad:
    """olad as loopback.sh starts it, as its package's own user, but with Dummy and E1.31 beside Art-Net."""

    def __init__(self, ports: List[Tuple[int, int, int]], universes: int = 4) -> None:
        """Output ports as (plugin, port, universe); E1.31 and Art-Net have `universes` of them."""
        self.folder = tempfile.mkdtemp(prefix="olad-")
        os.chmod(self.folder, 0o755)
        self.process: Optional[subprocess.Popen] = None
        said = {"dummy": "enabled = true\n",
                "artnet": f"enabled = true\nip = 127.0.0.1\nuse_loopback = true\nalways_broadcast = true\noutput_ports = {universes}\n",
                "e131": f"enabled = true\nip = {OTHER_ADDRESS}\noutput_ports = {universes}\ninput_ports = 0\n",
                "port": "".join(f"{plugin}-1-O-{port} = {universe}\n" for plugin, port, universe in ports)}
        for name, text in said.items():
            with open(os.path.join(self.folder, f"ola-{name}.conf"), "w") as out:
                out.write(text)

    def __enter__(self) -> "Olad":
        self.start()
        return self

    def __exit__(self, *_: object) -> None:
        self.stop()
        subprocess.run(["rm", "-rf", self.folder])

    def start(self) -> None:
        """Starts it, and waits until it takes calls."""
        with open(os.path.join(self.folder, "log"), "a") as log:
            words = [os.path.join(BRIDGES, "loopback.sh"), self.folder]
            self.process = subprocess.Popen(words, stdin=subprocess.DEVNULL, stdout=log, stderr=log)
        until(lambda: takes_calls(), "olad takes calls")

    def stop(self, how: int = signal.SIGKILL) -> None:
        """Ends it."""
        if self.process:
            self.signal(signal.SIGCONT)
            self.signal(how)
            self.process.wait(SECONDS)
            self.process = None

    def signal(self, how: int) -> None:
        """Sends a signal to it."""
        assert self.process
        self.process.send_signal(how)

    def processor_seconds(self) -> float:
        """What it has used so far."""
        assert self.process
        return processor_seconds(self.process.pid)


def until(holds, what: str, seconds: float = SECONDS) -> None:
    """Waits until something holds."""
    end = time.monotonic() + seconds
    while not holds():
        if time.monotonic() > end:
            raise TimeoutError(f"not within {seconds:g} seconds: {what}")
        time.sleep(0.01)


def takes_calls() -> bool:
    """Whether something listens on olad's port."""
    with socket.socket() as asked:
        return asked.connect_ex(("127.0.0.1", PORT)) == 0


def processor_seconds(process: int) -> float:
    """What a process has used so far."""
    with open(f"/proc/{process}/stat") as file:
        fields = file.read().rsplit(")", 1)[1].split()
    return (int(fields[11]) + int(fields[12])) / os.sysconf("SC_CLK_TCK")


def held(universe: int) -> Optional[bytes]:
    """The 512 levels that olad holds of a universe, or None where it has none."""
    answers: list = []
    client = OlaClient(socket.create_connection(("127.0.0.1", PORT), timeout=SECONDS))
    client.FetchDmx(universe, lambda status, _, data: answers.append(data if status.Succeeded() else None))
    while not answers:
        client.SocketReady()
    return None if answers[0] is None else bytes(answers[0]).ljust(512, b"\0")


class Observer:
    """A client of olad that notes each frame of some universes, in a process of its own."""

    def __init__(self, universes: List[int]) -> None:
        self.seen = tempfile.NamedTemporaryFile("r", prefix="seen-")
        words = [PYTHON, os.path.join(BRIDGES, "tests", "observe.py"), self.seen.name, *map(str, universes)]
        self.process = subprocess.Popen(words, stdout=subprocess.PIPE)
        assert self.process.stdout
        if self.process.stdout.readline() != b"ready\n":
            raise RuntimeError("the observer didn't begin")

    def stop(self) -> Dict[int, List[Tuple[float, bytes]]]:
        """When which levels came, by universe."""
        time.sleep(0.1)
        self.process.terminate()
        self.process.communicate(timeout=SECONDS)
        frames: Dict[int, List[Tuple[float, bytes]]] = {}
        for line in self.seen:
            when, universe, levels = line.split()
            frames.setdefault(int(universe), []).append((float(when), bytes.fromhex(levels).ljust(512, b"\0")))
        return frames


def takes_ctrl_c() -> None:
    """What a shell starts in the background ignores Ctrl-C, and so would the bridge."""
    signal.signal(signal.SIGINT, signal.SIG_DFL)


class Bridge:
    """A running `bridges/ola.py` in a folder."""

    def __init__(self, folder: str, universes: int, *words: str) -> None:
        self.folder = folder
        self.process = subprocess.Popen([PYTHON, os.path.join(BRIDGES, "ola.py"), str(universes), *words], cwd=folder, stdin=subprocess.DEVNULL,
                                        stdout=subprocess.PIPE, stderr=subprocess.PIPE, preexec_fn=takes_ctrl_c)
        pipes = [os.path.join(folder, f"universe-{u}.txt") for u in range(1, universes + 1)]
        until(lambda: self.process.poll() is not None or all(map(os.path.exists, pipes)), "the bridge makes its pipes")

    def end(self, seconds: float = SECONDS, is_slow: bool = False) -> Tuple[int, List[str]]:
        """Its status, and the lines that it said; but for the one that olad is slow, which a busy machine brings, unless it is asked for."""
        said, errors = self.process.communicate(timeout=seconds)
        lines = (said + errors).decode().splitlines()
        return self.process.returncode, [line for line in lines if is_slow or "olad hasn't answered" not in line]


class Tee:
    """Passes the lines of a desk's outlet on to a bridge's pipe, and keeps them with the moments at which they were handed on."""

    def __init__(self, source: str, target: str) -> None:
        self.lines: List[Tuple[float, bytes]] = []
        self.thread = threading.Thread(target=self._pass_on, args=(source, target), daemon=True)
        self.thread.start()

    def _pass_on(self, source: str, target: str) -> None:
        with open(source, "rb", 0) as lines, open(target, "wb", 0) as out:
            for line in lines:
                self.lines.append((time.monotonic(), line.rstrip(b"\n")))
                out.write(line)


class Wire:
    """The packets that olad puts on loopback and on the other interface: Art-Net and E1.31, by their universes."""

    def __init__(self) -> None:
        self.levels: Dict[Tuple[str, int], List[bytes]] = {}
        self._socket = socket.socket(socket.AF_PACKET, socket.SOCK_DGRAM, socket.htons(3))
        self._is_over = False
        self._thread = threading.Thread(target=self._listen, daemon=True)
        self._thread.start()

    def stop(self) -> Dict[Tuple[str, int], List[bytes]]:
        """The levels of each packet."""
        time.sleep(0.1)
        self._is_over = True
        self._thread.join()
        self._socket.close()
        return self.levels

    def _listen(self) -> None:
        while not self._is_over:
            if select.select([self._socket], [], [], 0.05)[0]:
                packet, address = self._socket.recvfrom(2_048)
                if address[2] == socket.PACKET_OUTGOING and packet[9] == socket.IPPROTO_UDP:
                    self._note(packet[(packet[0] & 15) * 4:])

    def _note(self, datagram: bytes) -> None:
        """ArtDmx has its universe in bytes 14 and 15 and its slots from byte 18; E1.31 in 113 and 114, and from 126."""
        port, data = int.from_bytes(datagram[2:4], "big"), datagram[8:]
        if port == 6454 and data[:10] == b"Art-Net\0\0\x50":
            self.levels.setdefault(("artnet", int.from_bytes(data[14:16], "little")), []).append(data[18:].ljust(512, b"\0"))
        elif port == 5568 and data[4:13] == b"ASC-E1.17" and data[40:44] == b"\0\0\0\2" and data[125] == 0:
            self.levels.setdefault(("e131", int.from_bytes(data[113:115], "big")), []).append(data[126:].ljust(512, b"\0"))
