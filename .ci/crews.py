"""Runs of `crew`: the scripts of several operators at once, each from a file of its own in the folder where the program runs.

Which merge of the scripts comes isn't said, so the order is taken from the `op` lines, and the rest is held against a plain desk that
answers the lines in that order. `program.py` calls each of `CREWS` with the program; they answer what went wrong.
"""
import contextlib
import os
import subprocess
import tempfile
import time

import plain_desk
from limits import Started

TIME_LIMIT = 60
INPUT_BYTES = 67_108_864
SHOW = b"IDENT 3:0\nPATCH 1 1<1@FL\nCUE 1\nUP 0\nDOWN 0\nCHAN 1@H80\nENDDATA\n"


def file_of(folder, operator):
    return os.path.join(folder, f"operator-{operator}.txt")


def write_scripts(folder, scripts):
    """The operators' files; where a script is None, there is none."""
    for operator, script in enumerate(scripts, 1):
        if script is not None:
            with open(file_of(folder, operator), "wb") as file:
                file.write(script)


def crew(program, scripts, show=SHOW, words=(), stdout=subprocess.PIPE):
    """Status, output and standard error of a crew."""
    with tempfile.TemporaryDirectory() as folder:
        write_scripts(folder, scripts)
        run = subprocess.run([program, "crew", str(len(scripts)), *words], input=show, stdout=stdout, stderr=subprocess.PIPE,
                             cwd=folder, timeout=TIME_LIMIT)
    return run.returncode, run.stdout, run.stderr


def taken_of(script):
    """The lines of a script up to `quit` or the end."""
    lines = script.splitlines()
    return lines[:lines.index(b"quit") + 1] if b"quit" in lines else lines


def wrong_text(output, scripts, show=SHOW):
    """What is wrong in a whole transcript: each line of each operator, once and in its order, and the plain desk's replies."""
    named = [tuple(map(int, line.split()[1:])) for line in output.splitlines() if line.startswith(b"op ")]
    lines = [taken_of(script) for script in scripts]
    for operator, own in enumerate(lines, 1):
        numbers = [n for k, n in named if k == operator]
        if numbers != list(range(1, len(own) + 1)):
            return [f"operator {operator} has {len(numbers)} of {len(own)} lines: {numbers[:10]}"]
    if len(named) != sum(map(len, lines)):
        return ["lines of other operators"]
    wanted = plain_desk.crew_text(show, [(k, n, lines[k - 1][n - 1]) for k, n in named])
    if output != wanted:
        at = next((i for i, (a, b) in enumerate(zip(output, wanted)) if a != b), min(len(output), len(wanted)))
        return [f"at byte {at}: {output[at:at + 60]!r}, not {wanted[at:at + 60]!r}"]
    return []


def ends_with(run, status, output):
    """What is wrong in a run that has one text."""
    return [] if run == (status, output, b"") else [f"{run}, not {(status, output)}"]


def one_operator(program):
    """Row by row the same as `render`, each line named; `quit` has no reply."""
    return ends_with(crew(program, [b"go\nframe\nquit\ngo\n"]), 0, b"op 1 1\nok\nop 1 2\nframe 0 1 1=128\nop 1 3\n")


def looks(program):
    """Cues that are read as whole looks."""
    show = b"IDENT 3:0\nCUE 1\nCHAN 1@FL\nCUE 2\nCHAN 2@FL\nENDDATA\n"
    return (ends_with(crew(program, [b"sheet 2\n"], show, ["states"]), 0, b"op 1 1\nrow 2 2=255\n")
            + ends_with(crew(program, [b"sheet 2\n"], show), 0, b"op 1 1\nrow 2 1=255 2=255\n"))


def two_operators(program):
    """One of the three merges: the row is empty only where operator 1's line stands between those of operator 2."""
    first, second, third = b"op 1 1\nok\n", b"op 2 1\nok\n", b"op 2 2\nrow 1"
    merges = [first + second + third + b" 1=255\n", second + first + third + b"\n", second + third + b" 1=255\n" + first]
    for _ in range(20):
        status, output, error = crew(program, [b"set 1 chan 1 at 0\n", b"set 1 chan 1 at FL\nsheet 1\n"])
        if status or error or output not in merges:
            return [f"status {status}, output {output!r}, standard error {error!r}"]
    return []


def missing_file(program):
    """The other operator is served whole, and the status is 3."""
    return (ends_with(crew(program, [b"set 1 chan 1 at 0\n", None]), 3, b"op 1 1\nok\n")
            + ends_with(crew(program, [None, b"go\nquit\n"]), 3, b"op 2 1\nok\nop 2 2\n"))


def folder_as_a_file(program):
    with tempfile.TemporaryDirectory() as folder:
        os.mkdir(file_of(folder, 1))
        run = subprocess.run([program, "crew", "1"], input=SHOW, stdout=subprocess.PIPE, cwd=folder, timeout=TIME_LIMIT)
    return [] if (run.returncode, run.stdout) == (3, b"") else [f"status {run.returncode}, output {run.stdout!r}"]


def script_that_is_too_long(program):
    """Its lines within the limit are answered, and so are the other operator's; the lowest operator with a fault decides the status."""
    script = b"go\n" + b"!" * INPUT_BYTES
    return (ends_with(crew(program, [script]), 6, b"op 1 1\nok\n")
            + [f"status {status}, not {wanted}" for scripts, wanted in (([script, None], 6), ([None, script], 3))
               if (status := crew(program, scripts)[0]) != wanted])


def full_device(program):
    """The output's fault decides, also where an operator has one."""
    with open("/dev/full", "wb") as full:
        runs = [crew(program, scripts, stdout=full) for scripts in ([b"go\n"], [None, b"go\n"], [b"go\n" * 100_000] * 4)]
    return [f"status {status}, standard error {error!r}" for status, _, error in runs if (status, error) != (4, b"")]


def operators_past_the_last(program):
    """A file of an operator that isn't in use is never opened: nobody writes the pipe."""
    with tempfile.TemporaryDirectory() as folder:
        write_scripts(folder, [b"go\n"])
        os.mkfifo(file_of(folder, 2))
        run = subprocess.run([program, "crew", "1"], input=SHOW, stdout=subprocess.PIPE, cwd=folder, timeout=TIME_LIMIT)
    return [] if (run.returncode, run.stdout) == (0, b"op 1 1\nok\n") else [f"status {run.returncode}, output {run.stdout!r}"]


def refused_show(program):
    """No operator's file is opened."""
    with tempfile.TemporaryDirectory() as folder:
        os.mkfifo(file_of(folder, 1))
        run = subprocess.run([program, "crew", "1"], input=b"CUE 1\n", stdout=subprocess.PIPE, cwd=folder, timeout=TIME_LIMIT)
    return [] if (run.returncode, run.stdout) == (1, b"show NoIdent 1\n") else [f"status {run.returncode}, output {run.stdout!r}"]


@contextlib.contextmanager
def over_pipes(program, operators):
    """A crew whose operators' files are named pipes, and their open ends. Standard input stays open behind the show."""
    with tempfile.TemporaryDirectory() as folder:
        for operator in range(1, operators + 1):
            os.mkfifo(file_of(folder, operator))
        with Started([program, "crew", str(operators)], stdin=subprocess.PIPE, stdout=subprocess.PIPE, cwd=folder) as run:
            try:
                run.stdin.write(SHOW)
                run.stdin.flush()
                yield run, [open(file_of(folder, operator), "wb", buffering=0) for operator in range(1, operators + 1)]
            finally:
                run.kill()


def named_pipes(program):
    """Each reply is there before the next line is sent, and `quit` ends an operator while its pipe is open."""
    steps = [(1, b"go\n", [b"op 1 1\n", b"ok\n"]), (2, b"frame\n", [b"op 2 1\n", b"frame 0 1 1=128\n"]),
             (1, b"fly\n", [b"op 1 2\n", b"bad\n"]), (2, b"set 1 chan 1 at FL\n", [b"op 2 2\n", b"ok\n"]),
             (1, b"quit\n", [b"op 1 3\n"]), (2, b"frame", []), (2, b"\n", [b"op 2 3\n", b"frame 0 1 1=255\n"])]
    with over_pipes(program, 2) as (run, pipes):
        for operator, line, replies in steps:
            pipes[operator - 1].write(line)
            got = [run.stdout.readline() for _ in replies]
            if got != replies:
                return [f"{line!r} of operator {operator} was answered {got}, not {replies}"]
        pipes[1].close()
        rest, status = run.stdout.read(), run.wait(TIME_LIMIT)
        pipes[0].close()
    return [] if (rest, status) == (b"", 0) else [f"status {status} and {rest!r} at the end"]


def processor_time(run):
    """How long the program has worked so far, in ticks of the system."""
    with open(f"/proc/{run.pid}/stat") as stat:
        fields = stat.read().rpartition(")")[2].split()
    return int(fields[11]) + int(fields[12])


def idle_engine(program):
    """While no operator sends anything, the program takes no processor time."""
    with over_pipes(program, 4) as (run, pipes):
        pipes[3].write(b"go\n")
        got = [run.stdout.readline() for _ in range(2)]
        time.sleep(0.2)
        before = processor_time(run)
        time.sleep(1)
        took = processor_time(run) - before
        for pipe in pipes:
            pipe.close()
        status = run.wait(TIME_LIMIT)
    return [] if (got, took, status) == ([b"op 4 1\n", b"ok\n"], 0, 0) else [f"{got}, {took} ticks within a second, status {status}"]


def script_of(operator, lines):
    """Lines that differ from operator to operator, among them blank and bad ones."""
    kinds = [f"master at H{operator * 40 + 15:02X}", "tick", "", "fly", f"set 1 chan {operator} at H{operator:02X}", f"goto {operator}"]
    return "".join(("frame" if n % 997 == 0 else kinds[(n * operator) % len(kinds)]) + "\n" for n in range(1, lines + 1)).encode()


def four_operators(program):
    """Four scripts of 10,000 lines, one of them ended by `quit`, one without an LF at its end."""
    scripts = [script_of(operator, 10_000) for operator in range(1, 5)]
    scripts[1] = scripts[1] + b"quit\n" + script_of(2, 100)
    scripts[2] = scripts[2] + b"go"
    status, output, error = crew(program, scripts)
    return wrong_text(output, scripts) + ([f"status {status}, standard error {error!r}"] if status or error else [])


def full_queue(program):
    """Nobody reads the output for a while, so that the engine waits in a write and the operators at a full queue. No line is lost."""
    scripts = [b"frame\n" * 5_000 + b"quit\n"] * 2
    with tempfile.TemporaryDirectory() as folder:
        write_scripts(folder, scripts)
        with Started([program, "crew", "2"], stdin=subprocess.PIPE, stdout=subprocess.PIPE, cwd=folder) as run:
            run.stdin.write(SHOW)
            run.stdin.close()
            time.sleep(0.5)
            output, status = run.stdout.read(), run.wait(TIME_LIMIT)
    return wrong_text(output, scripts) + ([f"status {status}"] if status else [])


CREWS = [one_operator, looks, two_operators, missing_file, folder_as_a_file, script_that_is_too_long, full_device, operators_past_the_last,
         refused_show, named_pipes, idle_engine, four_operators, full_queue]
