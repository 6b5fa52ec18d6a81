"""Runs of `run`: a script that is played live, and beside it a file or a named pipe for each universe.

Which versions an outlet gets on the way isn't said, so each of its lines is held against the one version that its count names, and the
last against that of all commands. `program.py` calls each of `LIVE_RUNS` with the program; they answer what went wrong.
"""
import contextlib
import os
import select
import subprocess
import tempfile
import time

import plain_desk
from limits import Started

TIME_LIMIT = 60
INPUT_BYTES = 67_108_864
# The seconds of a tick.
TICK = 0.02
SHOW = b"IDENT 3:0\nPATCH 1 1<1@FL\nCUE 1\nUP 0\nDOWN 0\nCHAN 1@H80\nENDDATA\n"
THREE = ("IDENT 3:0\nPATCH 1 1<1@FL 2<513@FL 3<1025@FL\nCUE 1\nUP 0.2\nCHAN 1@FL 2@H80\nCUE 2\nDOWN 0.1\nCHAN 1@0 3@50\nENDDATA\n"
         "go\ntick 8\nset 1 chan 1 at H40\nfly\ngo\nset 9 chan 1 at 0\ntick 6\nframe 2\nmaster at 50\n").encode()
# Two universes whose first and last slots change with each of 10,000 commands.
MANY = ("IDENT 3:0\nPATCH 1 1<1@FL 2<512@FL 2<513@FL 1<1024@FL\nCUE 1\nUP 0\nCHAN 1@FL 2@HFE\nENDDATA\ngo\n"
        + "".join(f"master at H{255 - n % 251:02X}\n" for n in range(1, 10_000))).encode()
# Each universe has a channel of its own on one of its dimmers, at a level of its own.
ALL = ("IDENT 3:0\nPATCH 1 " + " ".join(f"{u}<{512 * (u - 1) + 16 * u}@FL" for u in range(1, 33)) + "\nCUE 1\nUP 0.1\nCHAN "
       + " ".join(f"{u}@H{3 * u + 100:02X}" for u in range(1, 33)) + "\nENDDATA\ngo\ntick 6\nmaster at 50\nset 1 chan 32 at FL\nframe 32\n").encode()
# All slots of a universe have numbers of three digits, so that its lines are nearly as long as a line can be.
FULL = ("IDENT 3:0\nPATCH 1 " + " ".join(f"1<{d}@FL" for d in range(1, 257)) + "\nPATCH 1 " + " ".join(f"1<{d}@FL" for d in range(257, 513))
        + "\nCUE 1\nUP 1\nCHAN 1@FL\nENDDATA\ngo\ntick 50\nmaster at HC8\n").encode()

# The same in two universes, of which the second has one slot, at the master.
FULL_TWO = FULL.split(b"CUE 1")[0] + b"PATCH 1 2<513@FL\nCUE 1\nUP 0\nCHAN 1@FL 2@FL\nENDDATA\ngo\n"


def file_of(folder, universe):
    return os.path.join(folder, f"universe-{universe}.txt")


# ---------------------------------------------------------------------------------------------------------------------
# Runs over files.


def count_of(line):
    """How many commands led to a line; -1 where it doesn't say so."""
    words = line.split()
    return int(words[1]) if len(words) > 1 and words[1].isdigit() else -1


def wrong_counts(lines, last, whole=True):
    """What is wrong in the counts of an outlet's lines: they rise, and the last is that of all commands."""
    counts = [count_of(line) for line in lines]
    if counts != sorted(set(counts)) or (whole and counts[-1:] != [last]):
        return [f"{len(counts)} counts {counts[:10]}..{counts[-3:]}, the last to be {last}"]
    return []


def wrong_lines(lines, universe, script, whole=True):
    """What is wrong in an outlet's lines: each is a version's, the counts rise, and the last is that of all commands."""
    versions = plain_desk.versions(script, universe)
    counts = [count_of(line) for line in lines]
    wrong = [f"line {line[:200]!r}" for n, line in zip(counts, lines) if versions[n:n + 1] != [line]]
    return [f"universe {universe}: {said}" for said in wrong + wrong_counts(lines, len(versions) - 1, whole)]


def lines_in(path):
    with open(path, "rb") as file:
        return file.read().splitlines(keepends=True)


def played(program, universes, script, full=None):
    """Status, output, standard error and the outlets' lines of a live run, of which one outlet may be a full device."""
    with tempfile.TemporaryDirectory() as folder:
        if full:
            os.symlink("/dev/full", file_of(folder, full))
        run = subprocess.run([program, "run", str(universes)], input=script, stdout=subprocess.PIPE, stderr=subprocess.PIPE, cwd=folder,
                             timeout=TIME_LIMIT)
        outlets = {name: [] if full and name == f"universe-{full}.txt" else lines_in(os.path.join(folder, name)) for name in os.listdir(folder)}
    return run.returncode, run.stdout, run.stderr, outlets


def wrong_in_play(program, universes, script, status=0, full=None):
    """What went wrong in a live run: each universe has a file, and no other file is there."""
    ended, output, error, outlets = played(program, universes, script, full)
    wrong = [said for u in range(1, universes + 1) if u != full
             for said in wrong_lines(outlets.get(f"universe-{u}.txt", []), u, script)]
    if (ended, output, error) != (status, plain_desk.output(("run",), script)[1], b""):
        wrong.append(f"status {ended}, not {status}, output {output[:200]!r}, standard error {error[:200]!r}")
    if sorted(outlets) != sorted(f"universe-{u}.txt" for u in range(1, universes + 1)):
        wrong.append(f"files {sorted(outlets)}")
    return wrong[:5]


def three_universes(program):
    """Each file has lines of versions alone, and ends with that of all commands."""
    return wrong_in_play(program, 3, THREE)


def full_device(program):
    """An outlet that can't be written ends alone, and the status is 4."""
    return wrong_in_play(program, 3, THREE, status=4, full=2)


def all_universes(program):
    """Each of 32 universes has a file of its own, with frames of its own."""
    return wrong_in_play(program, 32, ALL)


def many_commits(program):
    """Two taps take beside an engine that publishes 10,000 commits."""
    return wrong_in_play(program, 2, MANY)


def very_many_commands(program):
    """66,000 commands, which is more than 16 bits count. Each line has the level that the master had after as many of them as its count says."""
    masters = [255 - n * 7 % 251 for n in range(1, 66_000)]
    cells = ["", " 1=255", *(f" 1={level}" for level in masters)]
    script = b"".join([SHOW.replace(b"H80", b"FL"), b"go\n", *(b"master at H%02X\n" % level for level in masters)])
    ended, output, error, outlets = played(program, 1, script)
    lines = outlets.get("universe-1.txt", [])
    wrong = [f"line {line!r}" for line in lines if line != f"frame {(n := count_of(line))} 0 1{''.join(cells[n:n + 1])}\n".encode()]
    if (ended, output, error) != (0, b"ok\n" * 66_000, b""):
        wrong.append(f"status {ended}, output of {len(output)} bytes, standard error {error[:200]!r}")
    return (wrong_counts(lines, 66_000) + wrong)[:5]


def refused_show(program):
    """No file is made."""
    run = played(program, 2, b"CUE 1\n")
    return [] if run == (1, b"show NoIdent 1\n", b"", {}) else [f"{run}"]


def session_before_outlet(program):
    """The session's fault decides the status where an outlet has one too."""
    script = SHOW + b"go\n" + b"!" * INPUT_BYTES
    runs = [(full, played(program, 2, script, full)) for full in (None, 1)]
    return [f"with the full device {full}: status {ended}, output {output!r}, standard error {error!r}"
            for full, (ended, output, error, _) in runs if (ended, output, error) != (6, b"ok\n", b"")]


# ---------------------------------------------------------------------------------------------------------------------
# Runs that are looked at while they go on.


@contextlib.contextmanager
def over_a_pipe(program, show):
    """A live run of one universe whose outlet is a named pipe, and the end of the pipe that is read. Its first text, with the show, is sent."""
    with tempfile.TemporaryDirectory() as folder:
        os.mkfifo(file_of(folder, 1))
        with Started([program, "run", "1"], stdin=subprocess.PIPE, stdout=subprocess.PIPE, cwd=folder) as run:
            run.stdin.write(show)
            run.stdin.flush()
            outlet = os.open(file_of(folder, 1), os.O_RDONLY)
            try:
                yield run, outlet
            finally:
                os.close(outlet)


def pieces_of(outlet):
    """What each read of the outlet gives, up to its end."""
    return list(iter(lambda: os.read(outlet, 1 << 20), b""))


def whole_lines(program):
    """Who reads a named pipe never sees half a line, also where lines are as long as they can be."""
    with over_a_pipe(program, FULL) as (run, outlet):
        run.stdin.close()
        pieces = pieces_of(outlet)
        status = run.wait(TIME_LIMIT)
    wrong = [f"a read ends with {piece[-40:]!r}" for piece in pieces if not piece.endswith(b"\n")]
    if status or len(pieces) < 10:
        wrong.append(f"status {status}, {len(pieces)} reads")
    return (wrong or wrong_lines(b"".join(pieces).splitlines(keepends=True), 1, FULL))[:5]


def published_at_once(program):
    """A frame with each command is in the pipe before the next command is sent."""
    steps = [(b"go\n", b"frame 1 0 1 1=128\n"), (b"master at 50\n", b"frame 2 0 1 1=64\n"), (b"fly\ntick\n", b"frame 3 2 1 1=64\n"),
             (b"set 1 chan 1 at FL\n", b"frame 4 2 1 1=128\n")]
    with over_a_pipe(program, SHOW) as (run, outlet):
        for line, frame in steps:
            run.stdin.write(line)
            run.stdin.flush()
            got = b""
            while not got.endswith(frame):
                piece = os.read(outlet, 1 << 16)
                if not piece:
                    return [f"after {line[-20:]!r} the outlet ends with {got!r}"]
                got += piece
        run.stdin.close()
        rest, status = pieces_of(outlet), run.wait(TIME_LIMIT)
    return [] if (rest, status) == ([], 0) else [f"status {status} and {rest!r} at the end"]


def keeps_its_pace(program):
    """60 ticks take 60 times 20 milliseconds, and on a busy machine a little more: as a line each, and 60 more as one line."""
    past = []
    with tempfile.TemporaryDirectory() as folder, Started([program, "run", "1"], stdin=subprocess.PIPE, stdout=subprocess.PIPE, cwd=folder) as run:
        run.stdin.write(SHOW + b"frame\n")
        run.stdin.flush()
        got, begin = [run.stdout.readline()], time.monotonic()
        for lines in (b"tick\n" * 60, b"tick 60\n"):
            run.stdin.write(lines)
            run.stdin.flush()
            got += [run.stdout.readline() for _ in lines.splitlines()]
            past.append(time.monotonic() - begin)
        run.stdin.close()
        status = run.wait(TIME_LIMIT)
    wrong = [f"{ticks} ticks took {seconds:.3f} seconds" for ticks, seconds in zip((60, 120), past)
             if not TICK * ticks - 0.01 <= seconds <= 2 * TICK * ticks + 1]
    return wrong + ([] if (got, status) == ([b"frame 0 1\n"] + [b"ok\n"] * 61, 0) else [f"status {status}, {got[:3]}"])


def over_pipes(folder, program, universes, show):
    """A live run whose outlets are named pipes, and the ends that are read. Its first text, with the show, is sent."""
    for universe in range(1, universes + 1):
        os.mkfifo(file_of(folder, universe))
    outlets = [os.open(file_of(folder, universe), os.O_RDONLY | os.O_NONBLOCK) for universe in range(1, universes + 1)]
    run = Started([program, "run", str(universes)], stdin=subprocess.PIPE, stdout=subprocess.PIPE, cwd=folder)
    run.stdin.write(show)
    run.stdin.flush()
    return run, outlets


def read_until(outlet, ends, seconds=10):
    """What is read of an outlet until it ends so, or the time is up."""
    got, end = b"", time.monotonic() + seconds
    while not any(got.endswith(each) for each in ends) and time.monotonic() < end:
        if select.select([outlet], [], [], 0.1)[0]:
            got += os.read(outlet, 1 << 20)
    return got


def a_reader_stops(program):
    """A reader that stops reading holds up its own outlet alone. The outlet beside it gets each version at once; the first one's lines come later."""
    levels = [100 - n % 2 for n in range(40)]
    with tempfile.TemporaryDirectory() as folder:
        run, outlets = over_pipes(folder, program, 2, FULL_TWO)
        with run:
            wrong = []
            for n, level in enumerate(levels):
                run.stdin.write(b"master at %d\n" % level)
                run.stdin.flush()
                line = b" 1=%d\n" % (255 * level // 100 if level < 100 else 255)
                got = read_until(outlets[1], [line])
                if not got.endswith(line):
                    wrong.append(f"after command {n} the second outlet ends with {got[-60:]!r}")
                    break
            run.stdin.close()
            os.set_blocking(outlets[0], True)
            rest = b"".join(pieces_of(outlets[0]))
            status = run.wait(TIME_LIMIT)
        for outlet in outlets:
            os.close(outlet)
    last = count_of(rest.splitlines()[-1]) if rest.splitlines() else -1
    return (wrong + ([] if (status, last) == (0, len(levels) + 1) else [f"status {status}, the first outlet ends with command {last}"]))[:5]


def ends_at_once(program):
    """A run ends as soon as its script does, while all workers rest: not for each of them a while later."""
    wrong = []
    with tempfile.TemporaryDirectory() as folder, Started([program, "run", "32"], stdin=subprocess.PIPE, stdout=subprocess.PIPE, cwd=folder) as run:
        run.stdin.write(ALL)
        run.stdin.flush()
        while run.stdout.readline().startswith(b"ok"):
            pass
        time.sleep(0.2)
        begin = time.monotonic()
        run.stdin.close()
        status = run.wait(TIME_LIMIT)
        if (took := time.monotonic() - begin) > 2 or status:
            wrong = [f"status {status}, {took:.3f} seconds after the script's end"]
    return wrong


LIVE_RUNS = [three_universes, full_device, all_universes, many_commits, very_many_commands, refused_show, session_before_outlet,
             whole_lines, published_at_once, a_reader_stops, ends_at_once,
             keeps_its_pace]
