"""The stage, looked at in a terminal of tmux while a live run goes on, and its lines where there is no terminal."""
import itertools
import os
import pty
import re
import subprocess
import sys
import time

from asking import TOP, Asked

STAGE = os.path.join(TOP, "view/stage.py")
LIVE = os.path.join(TOP, "examples/live.asc")


def percent_said(level: int) -> str:
    """How a level is to be shown."""
    return "FL" if level == 255 else f"{min(99, max(1, int(level / 2.55 + 0.5)))} %" if level else "0"


class Terminal:
    """A terminal of its own, with a shell."""
    numbers = itertools.count()

    def __init__(self, columns: int, rows: int) -> None:
        self.server = f"view-{os.getpid()}-{next(Terminal.numbers)}"
        self.tmux("-f", "/dev/null", "new-session", "-d", "-s", "a", "-x", str(columns), "-y", str(rows), "env LANG=C.UTF-8 PS1='$ ' sh")

    def __enter__(self) -> "Terminal":
        self.until(r"^\$")
        return self

    def __exit__(self, *_: object) -> None:
        self.tmux("kill-server")

    def tmux(self, *words: str) -> str:
        """One order, and its answer."""
        return subprocess.run(["tmux", "-L", self.server, *words], stdout=subprocess.PIPE, stderr=subprocess.DEVNULL, check=False).stdout.decode()

    def type(self, text: str, *keys: str) -> None:
        """Types a text, and then keys."""
        if text:
            self.tmux("send-keys", "-t", "a", "-l", text)
        self.tmux("send-keys", "-t", "a", *(keys or ("Enter",)))

    def screen(self) -> list[str]:
        """What stands on the screen."""
        return self.tmux("capture-pane", "-t", "a", "-p").splitlines()

    def until(self, *texts: str, limit: float = 20) -> list[str]:
        """Waits until each of some texts stands on the screen, all at once."""
        end = time.monotonic() + limit
        while True:
            screen = self.screen()
            missing = [text for text in texts if not any(re.search(text, line) for line in screen)]
            if not missing:
                return screen
            if time.monotonic() > end:
                raise TimeoutError(f"{missing} doesn't come; the screen is {[line for line in screen if line]}")
            time.sleep(0.05)

    def shape(self, columns: int, rows: int) -> None:
        """Another size."""
        self.tmux("resize-window", "-t", "a", "-x", str(columns), "-y", str(rows))


def outlets(folder: str, name: str, count: int) -> str:
    """A folder with named pipes."""
    place = os.path.join(folder, name)
    os.mkdir(place)
    for universe in range(1, count + 1):
        os.mkfifo(os.path.join(place, f"universe-{universe}.txt"))
    return place


def start(terminal: Terminal, program: str, place: str, show: str, count: int) -> None:
    """Starts a live run and the stage over it, as a reader of the guide would."""
    terminal.type(f"cd {place}; {program} run {count} < {show} > replies & {sys.executable} {STAGE} {count}")


def frames_of(screen: list[str]) -> dict[int, tuple[int, dict[int, str]]]:
    """Of each universe on a screen of bars the moment, and what is said of each slot."""
    found: dict[int, tuple[int, dict[int, str]]] = {}
    universe = 0
    for line in screen:
        head, slot = re.match(r"universe (\d+)  ([\d.]+) s  after", line), re.match(r" +(\d+) [█▏▎▍▌▋▊▉ ]* (\d+ %|FL|0) *$", line)
        if head:
            universe = int(head[1])
            found[universe] = round(float(head[2]) * 100), {}
        elif slot and universe:
            found[universe][1][int(slot[1])] = slot[2]
    return found


def wrong_bars(program: str, screen: list[str]) -> list[str]:
    """Where a screen of bars isn't what `render` writes at the moments that it names; an edit at the same moment may stand before or after."""
    found, wrong, asked = frames_of(screen), [], Asked(program, LIVE)
    for universe, (moment, slots) in found.items():
        wanted = []
        for end in range(len(asked.script) + 1):
            lines = asked.script[:end]
            replies = asked.ask(lines + [f"frame {universe}"])[-1].split()
            if int(replies[1]) >= moment and lines:
                lines = asked.until(asked.first + end, moment) if lines[-1].startswith("tick") else lines
                replies = asked.ask(lines + [f"frame {universe}"])[-1].split()
            if int(replies[1]) == moment:
                wanted.append({int(slot): percent_said(int(level)) for slot, level in (cell.split("=") for cell in replies[3:])})
        shown = {slot: text for slot, text in slots.items() if text != "0"}
        if shown not in wanted:
            wrong.append(f"universe {universe} at {moment}: {shown} for one of {wanted}")
    return wrong + ([] if found else [f"no universe on the screen: {[line for line in screen if line]}"])


def wrong_look(program: str, terminal: Terminal) -> list[str]:
    """Where the bars on the screen are wrong. A screen may be caught while it is being drawn, so a second look counts."""
    return wrong_bars(program, terminal.screen()) and wrong_bars(program, terminal.screen())


def bars(program: str, folder: str) -> list[str]:
    """Bars that are right while they move, at ten moments; after the end the terminal is as it was, with the last stage below."""
    wrong, seen = [], set()
    last = r"^universe 1  8\.00 s .*closed"
    with Terminal(90, 24) as terminal:
        terminal.type("echo before")
        start(terminal, program, outlets(folder, "bars", 2), LIVE, 2)
        terminal.until("^universe 1", "^universe 2")
        for _ in range(10):
            look, screen = wrong_look(program, terminal), terminal.screen()
            if "before" in screen:
                break  # The run ended while it was looked at.
            wrong += look
            seen.add(tuple(screen))
            time.sleep(0.3)
        # What was there comes back a moment before the last stage stands below it, and then the shell's prompt.
        screen = terminal.until("^before$", last, r"^\$ ?$", limit=40)
        wrong += wrong_bars(program, screen)
    text = "\n".join(screen)
    wrong += ["the last stage isn't below what was there"] * ("before" not in text.split("universe 1")[0]) + ["nothing moved"] * (len(seen) < 4)
    return wrong + ([] if re.search(r"  1 █+[▏▎▍▌▋▊▉]? +20 %", text) and re.search(r"  2 █{40,} +FL", text) else ["the last bars aren't 20 % and full"])


def interrupt(program: str, folder: str) -> list[str]:
    """Ctrl-C leaves the terminal as it was, with a status that says so; the size is followed before."""
    wrong = []
    with Terminal(90, 24) as terminal:
        terminal.type("echo before")
        start(terminal, program, outlets(folder, "interrupt", 2), LIVE, 2)
        terminal.until(r" 1 █{20,}")
        terminal.shape(50, 12)
        time.sleep(0.4)
        wrong += wrong_look(program, terminal) + [f"{line!r} is too long" for line in terminal.screen() if len(line) > 50]
        terminal.type("", "C-c")
        terminal.type("echo status $?")
        screen = terminal.until(r"status \d+$")
        wrong += [] if any("status 130" in line for line in screen) else ["the status isn't 130"]
        wrong += [] if any("before" in line for line in screen) or len(screen) >= 12 else ["what was there is gone"]
        terminal.type("stty -a")
        wrong += [] if any(" echo " in f" {line} " for line in terminal.until("icanon")) else ["the terminal doesn't echo"]
    return wrong


def full_show(folder: str) -> str:
    """A show of two full universes."""
    path = os.path.join(folder, "full.asc")
    with open(path, "w", encoding="utf-8") as file:
        file.write("IDENT 3:0\nSET CHANNELS 1024\n" + "".join(f"PATCH 1 {c}<{c}@FL\n" for c in range(1, 1025)) + "CUE 1\nUP 0\n"
                   + "".join(f"CHAN {c}@H{c % 256:02X}\n" for c in range(1, 1025)) + "ENDDATA\ngo\ntick 150\n")
    return path


def wrong_rows(screen: list[str], wide: int) -> list[str]:
    """Where a screen isn't the first grid of the full show, in cells of this width."""
    wrong = []
    for row, line in enumerate(screen[1:17]):
        cells = line[6:].ljust(32 * wide)
        got = [cells[i * wide:i * wide + 2].strip() for i in range(32)]
        levels = [(32 * row + i + 1) % 256 for i in range(32)]
        wanted = [percent_said(level).removesuffix(" %") if level else "·" for level in levels]
        wrong += [f"row {row}: {got} for {wanted}"] * (got != wanted)
    return wrong


def grid(program: str, folder: str) -> list[str]:
    """Two full universes: a grid of 512 in 80 columns, the other one by the arrow keys, right in each slot; wider cells where there is room."""
    wrong, show = [], full_show(folder)
    for columns, wide in ((80, 2), (120, 3)):
        with Terminal(columns, 24) as terminal:
            start(terminal, program, outlets(folder, f"grid-{columns}", 2), show, 2)
            # The first line may stand there before the others do; no slot changes after it.
            end = time.monotonic() + 20
            while (rows := wrong_rows(terminal.until("universe 1 .* 510 slots up"), wide)) and time.monotonic() < end:
                time.sleep(0.05)
            wrong += rows
            terminal.type("", "End")
            terminal.until(r"^ 481  ", limit=5)
            terminal.type("", "q")
            terminal.until(r"\$ ?$")
    return wrong


def script(program: str, folder: str) -> list[str]:
    """examples/live.sh draws by the stage."""
    with Terminal(80, 24) as terminal:
        terminal.type(f"CUEDESK={program} {TOP}/examples/live.sh; echo ended $?")
        terminal.until(r" 1 █{10,}")
        wrong = wrong_look(program, terminal)
        terminal.type("", "q")
        screen = terminal.until(r"ended \d+$")
        return wrong + ([] if any("ended 0" in line for line in screen) else [f"it ended so: {screen[-3:]}"])


def unknown_terminal(_: str, folder: str) -> list[str]:
    """On a terminal of which the machine has no description: lines."""
    place = os.path.join(folder, "unknown")
    os.mkdir(place)
    with open(os.path.join(place, "universe-1.txt"), "w", encoding="utf-8") as file:
        file.write("frame 1 2 1 5=128\n")
    terminal, inside = pty.openpty()
    run = subprocess.run([sys.executable, STAGE, "1", "--folder", place], stdin=inside, stdout=inside, stderr=subprocess.PIPE, env={**os.environ, "TERM": "no-such-terminal"}, timeout=20, check=False)
    said = os.read(terminal, 65_536).decode() if run.returncode == 0 else ""
    os.close(inside)
    os.close(terminal)
    return [] if "universe 1  0.02 s" in said and not run.stderr else [f"status {run.returncode}, {said!r}, {run.stderr[-200:]!r}"]


def script_to_its_end(program: str, folder: str) -> list[str]:
    """examples/live.sh that plays to its end: status 0, and nothing is left."""
    place = os.path.join(folder, "script")
    os.mkdir(place)
    run = subprocess.run([os.path.join(TOP, "examples/live.sh")], stdin=subprocess.DEVNULL, stdout=subprocess.PIPE, stderr=subprocess.PIPE, env={**os.environ, "CUEDESK": program, "TMPDIR": place}, timeout=60, check=False)
    wrong = [] if b"universe 2  8.00 s" in run.stdout else [f"it says {run.stdout[-200:]!r}"]
    return wrong + ([] if (run.returncode, run.stderr, os.listdir(place)) == (0, b"", []) else [f"status {run.returncode}, {run.stderr!r}, left {os.listdir(place)}"])


def lines(program: str, folder: str) -> list[str]:
    """Without a terminal: lines, at most 25 a second for a universe, and the last of each is the last frame."""
    place = outlets(folder, "lines", 2)
    began = time.monotonic()
    with subprocess.Popen([sys.executable, STAGE, "2"], cwd=place, stdout=subprocess.PIPE) as stage:
        with open(LIVE, "rb") as show:
            subprocess.run([program, "run", "2"], stdin=show, cwd=place, stdout=subprocess.DEVNULL, check=False)
        said = stage.communicate()[0].decode().splitlines()
    took = time.monotonic() - began
    last = [[line for line in said if line.startswith(f"universe {u} ")][-1] for u in (1, 2)]
    wanted = ["universe 1  8.00 s  after 403 commands, 2 slots up, closed: 1=20% 2=FL", "universe 2  8.00 s  after 403 commands, 1 slot up, closed: 2=50%"]
    return [f"{line!r} for {want!r}" for line, want in zip(last, wanted) if line != want] + [f"{len(said)} lines in {took:.1f} s"] * (not 40 < len(said) <= 2 * 25 * took + 4)


def bad_input(_: str, folder: str) -> list[str]:
    """Outlets that aren't there, a number that is none, a line that is no frame."""
    wrong = []
    for words, status, said in ((["2", "--folder", folder], 1, b"there is no outlet"), (["0"], 2, b"isn't a number from 1 to 32"), (["33"], 2, b"isn't a number"), (["x"], 2, b"isn't a number")):
        run = subprocess.run([sys.executable, STAGE, *words], capture_output=True, check=False)
        wrong += [f"{words}: status {run.returncode}, {run.stderr!r}"] * (run.returncode != status or said not in run.stderr)
    # A frame of another universe, and one that was cut off.
    for second in ("frame 2 4 2 5=99\n", "frame 2 4 1 5=9"):
        with open(os.path.join(folder, "universe-1.txt"), "w", encoding="utf-8") as file:
            file.write("frame 1 2 1 5=128\n" + second)
        run = subprocess.run([sys.executable, STAGE, "1", "--folder", folder], capture_output=True, check=False)
        wanted = "universe 1  0.02 s  after 1 command, 1 slot up, closed  (line 2 of universe-1.txt is no frame of this universe): 5=50%"
        wrong += [] if run.stdout.decode().splitlines()[-1] == wanted else [f"{run.stdout!r}"]
    return wrong


def plain_letters(_: str, folder: str) -> list[str]:
    """In a locale without blocks the bars are of ASCII, and so are the dots of a grid."""
    wrong = []
    for name, cells, wanted in (("few", "1=255", r"^    1 #{60,} +FL$"), ("many", " ".join(f"{slot}=255" for slot in range(2, 512, 2)), r"^   1   \.FL \.FL")):
        place = outlets(folder, name, 1)
        with Terminal(80, 24) as terminal:
            terminal.type(f"LC_ALL=C {sys.executable} {STAGE} 1 --folder {place}")
            with open(os.path.join(place, "universe-1.txt"), "w", encoding="ascii") as outlet:
                outlet.write(f"frame 1 2 1 {cells}\n")
                outlet.flush()
                try:
                    terminal.until(wanted, limit=5)
                except TimeoutError as error:
                    wrong.append(str(error))
    return wrong


def plain_cases() -> list[tuple[str, object]]:
    """What needs no terminal."""
    return [("stage: lines", lines), ("stage: live.sh to its end", script_to_its_end), ("stage: unknown terminal", unknown_terminal), ("stage: bad input", bad_input)]


def cases() -> list[tuple[str, object]]:
    """What needs tmux."""
    return [("stage: bars", bars), ("stage: Ctrl-C and size", interrupt), ("stage: grid", grid), ("stage: ASCII", plain_letters), ("stage: live.sh", script)]
