#!/usr/bin/env python3
"""Tries the library: host/test.py [--program PATH] [--walks N].

Builds it (`make` here, over what `rt lib` proves and compiles), and tries it from C, C++ and Python. There is misuse, call by call, and
each call for memory refused in turn, both also with the C side under -fsanitize=address,undefined. Then come the examples, every show of
examples/ beside the program, byte for byte, and random shows and scripts beside the plain desk of .ci/plain_desk.py. Prints what went
wrong, and last 'N passed, M failed'.
"""
import argparse
import concurrent.futures
import contextlib
import glob
import io
import os
import shutil
import subprocess
import sys
import tempfile
import traceback

HERE = os.path.dirname(os.path.abspath(__file__))
TOP = os.path.dirname(HERE)
EXAMPLES = os.path.join(HERE, "examples")
SECONDS = 300
SANITIZED = ["-fsanitize=address,undefined", "-fno-sanitize-recover=all", "-g", "-O1"]
# The jobs that a desk of the library does, and how it is opened for them.
OPENED_FOR = {("render",): {}, ("render", "states"): {"states": True}, ("undo",): {"undo": 16}, ("undo", "states"): {"undo": 16, "states": True}}

sys.path[:0] = [os.path.join(TOP, ".ci"), os.path.join(HERE, "python"), EXAMPLES]


def run(words, **special):
    """What a command writes; it must end with status 0."""
    ended = subprocess.run(words, stdout=subprocess.PIPE, stderr=subprocess.PIPE, timeout=SECONDS, **special)
    if ended.returncode:
        raise AssertionError(f"{' '.join(words)}: status {ended.returncode}\n{ended.stderr.decode(errors='replace')}")
    return ended.stdout


def is_same(ours, wanted, what):
    if ours != wanted:
        at = next((k for k, (a, b) in enumerate(zip(ours, wanted)) if a != b), min(len(ours), len(wanted)))
        raise AssertionError(f"{what}: from {at}: {ours[at:at + 80]!r}, not {wanted[at:at + 80]!r}")


# ---------------------------------------------------------------------------------------------------------------------
# From C and C++.


def built(name, sources, more=(), compiler="cc"):
    """A program of the sources, over the engine and a heap that counts."""
    program = os.path.join(BUILD, name)
    engine = os.path.join(TOP, "crates", "lx_host", "out", "liblx_host.a")
    heap = os.path.join(BUILD, f"{name}-heap.o")
    run(["cc", "-std=c99", "-Wall", "-Wextra", "-Werror", "-pedantic", *more, "-I", HERE, "-c", os.path.join(HERE, "tests", "heap.c"), "-o", heap])
    standard = "-std=c++11" if compiler == "c++" else "-std=c99"
    run([compiler, standard, "-Wall", "-Wextra", "-Werror", "-pedantic", *more, "-I", HERE, "-o", program, *sources, heap, engine])
    return program


def c_test(name, *words, more=()):
    program = built(name + ("-sanitized" if more else ""), [os.path.join(HERE, "tests", f"{name}.c")], more)
    print(run([program, *words]).decode().strip())


def misuse():
    c_test("misuse")


def misuse_sanitized():
    c_test("misuse", more=SANITIZED)


def wants():
    c_test("wants", os.path.join(TOP, "examples", "first.asc"))


def wants_sanitized():
    c_test("wants", os.path.join(TOP, "examples", "submasters.asc"), more=SANITIZED)


def header_in_cpp():
    print(run([built("header", [os.path.join(HERE, "tests", "header.cpp")], compiler="c++")]).decode().strip())


def installed():
    """What `make install` puts below a prefix serves a C program, by the shared library, and Python."""
    prefix = os.path.join(BUILD, "prefix")
    run(["make", "-s", "-C", HERE, "install", f"BUILD={BUILD}", f"PREFIX={prefix}"])
    settings = open(os.path.join(prefix, "lib", "pkgconfig", "cuedesk.pc")).read()
    assert f"prefix={prefix}\n" in settings and "-lcuedesk" in settings, settings
    program = os.path.join(BUILD, "bars-shared")
    run(["cc", "-std=c99", "-I", os.path.join(prefix, "include"), "-o", program, os.path.join(EXAMPLES, "bars.c"), "-L", os.path.join(prefix, "lib"), "-lcuedesk"])
    found = dict(os.environ, LD_LIBRARY_PATH=os.path.join(prefix, "lib"), PYTHONPATH=os.path.join(prefix, "share", "cuedesk", "python"))
    found.pop("CUEDESK_LIBRARY", None)
    lines = run([program, os.path.join(TOP, "examples", "fades.asc"), "0"], env=found)
    is_same(lines, run([os.path.join(BUILD, "bars"), os.path.join(TOP, "examples", "fades.asc"), "0"]), "bars")
    said = run([sys.executable, "-c", "import cuedesk; print(cuedesk.__file__, cuedesk.Desk(b'IDENT 3:0\\nENDDATA\\n').command('go'))"], env=found, cwd=BUILD)
    is_same(said, f"{prefix}/share/cuedesk/python/cuedesk.py ['refused NoCueAfter 0']\n".encode(), "the module")


def in_a_checkout():
    """Without an installation the module takes the library that was built, or else the released one."""
    top = os.path.join(BUILD, "checkout")
    shutil.rmtree(top, ignore_errors=True)
    for name in ("cuedesk.h", os.path.join("python", "cuedesk.py")):
        os.makedirs(os.path.dirname(os.path.join(top, "host", name)), exist_ok=True)
        shutil.copy(os.path.join(HERE, name), os.path.join(top, "host", name))
    found = dict(os.environ, PYTHONPATH=os.path.join(top, "host", "python"))
    found.pop("CUEDESK_LIBRARY", None)
    for folder in (os.path.join(top, "release", "lib"), os.path.join(top, "host", "build")):
        os.makedirs(folder)
        shutil.copy(os.path.join(BUILD, "libcuedesk.so.1"), folder)
        taken = run([sys.executable, "-c", "import cuedesk; print(cuedesk._LIBRARY._name)"], env=found, cwd=BUILD)
        is_same(taken, f"{folder}/libcuedesk.so.1\n".encode(), "the library")


def names():
    """The libraries show the calls of the header, and nothing else."""
    with open(os.path.join(HERE, "cuedesk.h")) as header:
        declared = sorted({word.split("(")[0] for word in header.read().split() if word.startswith("cuedesk_") and "(" in word})
    for words in (["nm", "-g", "--defined-only", os.path.join(BUILD, "libcuedesk.a")], ["nm", "-D", "--defined-only", os.path.join(BUILD, "libcuedesk.so.1")]):
        shown = sorted(line.split()[-1] for line in run(words).decode().splitlines() if " T " in line)
        is_same(shown, declared, words[-1])


def bars():
    """The bars of the last frame are those of the program's own frame: 8 steps of 255 levels."""
    file = os.path.join(TOP, "examples", "fades.asc")
    last = run([os.path.join(BUILD, "bars"), file, "0"]).decode().splitlines()[-1]
    frame = run([PROGRAM, "render"], stdin=open(file)).decode().splitlines()[-1].split()
    slots = dict(map(int, cell.split("=")) for cell in frame[3:])
    wanted = "".join(" ▁▂▃▄▅▆▇█"[(slots.get(slot, 0) * 8 + 127) // 255] for slot in range(1, 17))
    is_same(last.split("|")[1], wanted, last)


def bars_of_any_lines():
    """The script is played whatever its line ends are, and whatever stands before, behind and in it; what can't be done is told, once."""
    with open(os.path.join(TOP, "examples", "fades.asc"), "rb") as opened:
        text = opened.read()
    wanted = run([os.path.join(BUILD, "bars"), os.path.join(TOP, "examples", "fades.asc"), "0"]).splitlines()[-1]
    shown = []
    for name, more in (("crlf", text.replace(b"\n", b"\r\n")), ("open", text.rstrip(b"\n")), ("word", text.replace(b"\nENDDATA\n", b"\n \tEndData; 1 ! the end\n"))):
        path = os.path.join(BUILD, f"{name}.asc")
        with open(path, "wb") as file:
            file.write(more)
        shown.append(run([os.path.join(BUILD, "bars"), path, "0"]).splitlines()[-1:])
    is_same(shown, [[wanted]] * 3, "the last bars")
    with open(path, "wb") as file:
        file.write(b"IDENT 3:0\nCUE 1\nENDDATA\ngoto 7\n\n! a comment\ntickle\ntick 0\ngoto 8")
    said = [line for line in run([os.path.join(BUILD, "bars"), path, "0"]).decode().splitlines() if "|" not in line]
    is_same(said, ["goto 7: refused AbsentCue 7", "tickle: bad", "tick 0: bad", "goto 8: refused AbsentCue 8"], "what is told")
    with open(path, "wb") as file:
        file.write(b"IDENT 3:0\nCUE 1\nUP x\nENDDATA\n")
    ended = subprocess.run([os.path.join(BUILD, "bars"), path], stderr=subprocess.PIPE, timeout=SECONDS)
    is_same((ended.returncode, ended.stderr), (1, b"bars: the show was refused: BadNumber in line 3\n"), "a refused show")


# ---------------------------------------------------------------------------------------------------------------------
# From Python.


def replies(words, data):
    """What the library answers to a show and its script, as the program would write it."""
    import cuedesk
    from rehearsal import script_of
    try:
        with cuedesk.Desk(data, **OPENED_FOR[words]) as desk:
            written = []
            for line in script_of(data):
                written += desk.command(line)
                if desk.ended:
                    break
            return "".join(f"{line}\n" for line in written).encode("utf-8", "surrogateescape")
    except cuedesk.ShowRefused as fault:
        return f"show {fault.cause} {fault.line}\n".encode()


def examples():
    """Every show of examples/ beside the program."""
    files = sorted(glob.glob(os.path.join(TOP, "examples", "*.asc")))
    assert len(files) > 10, files
    for file in files:
        with open(file, "rb") as opened:
            data = opened.read()
        for words in OPENED_FOR:
            ended = subprocess.run([PROGRAM, *words], input=data, stdout=subprocess.PIPE, timeout=SECONDS)
            is_same(replies(words, data), ended.stdout, f"{' '.join(words)} < {file}")


def random_walks():
    """Random shows and scripts beside the plain desk, several at once in threads."""
    import plain_desk
    import walks
    found = (it for it in walks.walk_inputs(100 * WALKS, 3) if it[0] in OPENED_FOR)
    inputs = [it for it, _ in zip(found, range(WALKS))]
    assert len(inputs) == WALKS
    with concurrent.futures.ThreadPoolExecutor(8) as pool:
        answers = list(pool.map(lambda it: replies(*it), inputs))
    with concurrent.futures.ProcessPoolExecutor() as pool:
        wanted = list(pool.map(plain_desk.output, *zip(*inputs), chunksize=20))
    for (words, data), ours, (_, theirs) in zip(inputs, answers, wanted):
        if ours != theirs:
            with tempfile.NamedTemporaryFile(prefix="host-", suffix=".asc", delete=False) as kept:
                kept.write(data)
            is_same(ours, theirs, f"{' '.join(words)} < {kept.name}")


SHOW = "IDENT 3:0\nSET CHANNELS 4\nPATCH 1 1<1@FL 2<513@FL\nCUE 1\nTEXT Dämmerung\nUP 1\nDOWN 1\nFOLLOWON 3\nCHAN 1@FL\nCUE 2.5\nUP 0\nDOWN 0\nCHAN 1@H80\nSUB 3\nTEXT Haze\nCHAN 2@FL\nENDDATA\n"


def raises(kind, call, *words, **more):
    try:
        call(*words, **more)
    except kind as fault:
        return fault
    raise AssertionError(f"{words}: no {kind.__name__}")


def module():
    """The module, as a Python program uses it."""
    import cuedesk
    with cuedesk.Desk(SHOW) as desk:
        assert desk.command("go") == ["ok"] and desk.command(b"frame\n") == ["frame 0 1"]
        assert desk.do("settle") == [] and desk.do("sheet 1") == ["row 1 1=255"]
        fault = raises(cuedesk.Refused, desk.do, "goto 7\n")
        assert fault.reason == "AbsentCue 7" and str(fault) == "goto 7: refused AbsentCue 7"
        assert str(raises(cuedesk.BadLine, desk.do, "undo")) == "undo: bad"
        assert "not one line" in str(raises(ValueError, desk.command, "go\ngo"))
        assert [(cue.number, cue.label) for cue in desk.cues()] == [("1", "Dämmerung"), ("2.5", "")]
        assert desk.command("label 1 ") == ["ok"] and desk.cues()[0].label == ""
        assert desk.tracked("2.5", 1) == 128 and desk.tracked(2, 1) == 255 and desk.tracked(2.5, 1) == 128 and desk.tracked(0, 1) == 0
        assert desk.fader(3) == 0 and desk.do("fader 3 at FL") == [] and desk.fader(3) == 255
        assert desk.frame(2)[0] == 255 and not desk.changed(2) and desk.changed(1) and len(desk.frame()) == 512 and not desk.changed()
        for call, wrong in ((desk.frame, 33), (desk.frame, -1), (desk.frame, (1 << 32) + 1), (desk.changed, 0), (desk.level, 5), (desk.fader, 97)):
            assert "out of range" in str(raises(ValueError, call, wrong))
        for wrong in (-1, 1 << 32):
            raises(ValueError, desk.tick, wrong)
        for wrong in ("1.2345", -1, "10000", "x", "", "nan", float("inf")):
            raises(ValueError, desk.tracked, wrong, 1)
        assert desk.command("quit") == [] and desk.ended and not desk.closed
    assert desk.closed and "closed" in str(raises(ValueError, desk.tick)) and "closed" in str(raises(ValueError, desk.command, "go"))
    desk.close()
    fault = raises(cuedesk.ShowRefused, cuedesk.Desk, "IDENT 3:0\nCUE 1\nUP x\nENDDATA\n")
    assert (fault.cause, fault.line, str(fault)) == ("BadNumber", 3, "show BadNumber 3")
    raises(ValueError, cuedesk.Desk, SHOW, undo=-1)


def long_replies():
    """A reply that is longer than the module's room comes whole, and bytes that are no UTF-8 come back as they were."""
    import cuedesk
    show = b"IDENT 3:0\n" + b"".join(b"CUE %d\nTEXT \xff%s\nCHAN 1@50\n" % (k, b"x" * 200) for k in range(1, 1001)) + b"ENDDATA\n"
    with cuedesk.Desk(show) as desk:
        text = desk.show_text()
        assert len(text) > 1 << 16 and text.count(b"\nCUE ") == 1000 and text.endswith(b"\nENDDATA\n"), len(text)
        assert "\n".join(desk.command("save")).encode("utf-8", "surrogateescape") + b"\n" == text
        label = desk.cues()[999].label
        assert label.encode("utf-8", "surrogateescape") == b"\xff" + b"x" * 200
        assert desk.do(f"label 1 {label}") == [] and desk.cues()[0].label == label


def states():
    """Where the playback stands, of a fade of a second with a follow-on."""
    import cuedesk
    with cuedesk.Desk(SHOW, undo=1) as desk:
        it = desk.state()
        assert (it.moment, it.position, it.next, it.live, it.over_at, it.began, it.ends, it.follow_at, it.master, it.channels, it.cues) \
            == (0, "0", "1", 0, 0, 0, 0, None, 255, 4, 2), it
        assert desk.tick(10) == 10 and desk.do("go") == [] and desk.tick(25) == 25
        it = desk.state()
        assert (it.moment, it.position, it.next, it.live, it.over_at, it.began, it.ends, it.follow_at) == (70, "1", "2.5", 1, 120, 20, 120, 320), it
        assert it.fades and it.waits and not it.rests and desk.level(1) == 127 and desk.level(4) == 0
        assert desk.do("record 2") == [] and desk.tracked(2, 1) == 127 and desk.do("undo") == [] and desk.state().cues == 2
        assert desk.tick(126) == 126 and desk.state().position == "2.5" and desk.state().next is None and desk.state().rests


def rehearsal():
    """The frames that changed, beside the program's own after each tick."""
    from rehearsal import script_of, ticks_in
    file = os.path.join(TOP, "examples", "fades.asc")
    with open(file, "rb") as opened:
        data = opened.read()
    show = data[:data.index(b"ENDDATA\n") + 8]
    script = [line for line in script_of(data) if not line.startswith(b"frame")]
    asked = b"".join(b"tick\nframe\n" * ticks_in(line) or line + b"\nframe\n" for line in script)
    shown = [line for line in run([PROGRAM, "render"], input=show + asked).splitlines() if line.startswith(b"frame")]
    slots = [line.split(b" ", 2)[2] for line in shown]
    wanted = [line for k, line in enumerate(shown) if k == 0 or slots[k] != slots[k - 1]]
    is_same(run([sys.executable, os.path.join(EXAMPLES, "rehearsal.py"), file]).splitlines(), wanted, "rehearsal.py")


def rehearsal_of_any_lines():
    """What `tick` means, where a script begins, the last moment, and what can't be played."""
    import cuedesk
    import rehearsal as played
    counts = [(b"tick", 1), (b"TICK; 25 ! a comment", 25), (b"tick 0", 0), (b"tick 100000000", 100_000_000), (b"tick 100000001", 0), (b"tickle", 0), (b"tick 1 2", 0),
              (b"tick x", 0), (b"", 0), (b"tick " + b"1" * 5_000, 0)]
    is_same([(line, played.ticks_in(line)) for line, _ in counts], counts, "ticks")
    is_same(played.script_of(b"IDENT 3:0\r\n  enddata; 1 ! the end\r\ngo\r\ntick"), [b"go", b"tick"], "the script")
    with cuedesk.Desk(SHOW) as desk, contextlib.redirect_stdout(io.StringIO()), contextlib.redirect_stderr(io.StringIO()) as said:
        desk.tick(99_999_990)
        played.play(desk, [b"go", b"tick 50", b"goto 9"], 1)
        is_same((desk.state().moment, said.getvalue().splitlines()), (200_000_000, ["tick 50: refused TickLimit 200000000", "goto 9: refused AbsentCue 9"]), "the last moment")
    for name in ("rehearsal.py", "to_olad.py"):
        for words, status, part in ((["/nowhere.asc"], 1, b"/nowhere.asc: No such file"), ([os.path.join(TOP, "examples", "first.asc"), "--universes", "33"], 2, b"from 1 to 32")):
            ended = subprocess.run([sys.executable, os.path.join(EXAMPLES, name), *words], stderr=subprocess.PIPE, timeout=SECONDS)
            if ended.returncode != status or part not in ended.stderr or b"Traceback" in ended.stderr:
                raise AssertionError(f"{name} {words}: status {ended.returncode}, {ended.stderr!r}")


def olad():
    """Frames go to an olad, or one line says why not."""
    said = run([shutil.which("python3", path="/usr/bin") or sys.executable, os.path.join(EXAMPLES, "to_olad.py"), os.path.join(TOP, "examples", "first.asc")])
    assert said.count(b"\n") <= 1, said
    print(said.decode().strip() or "to_olad: played")


TESTS = [names, misuse, misuse_sanitized, wants, wants_sanitized, header_in_cpp, bars, bars_of_any_lines, installed, in_a_checkout, module, states, long_replies, rehearsal,
         rehearsal_of_any_lines, olad, examples, random_walks]


def main():
    global BUILD, PROGRAM, WALKS
    parser = argparse.ArgumentParser()
    parser.add_argument("--program", default=os.path.join(TOP, "crates", "cuedesk", "out", "cuedesk"))
    parser.add_argument("--walks", type=int, default=2000)
    parser.add_argument("--only", default="")
    given = parser.parse_args()
    missing = [word for word in ("cc", "c++", "make", "ld", "objcopy", "nm") if not shutil.which(word)]
    if missing:
        print(f"host: {', '.join(missing)} isn't there\n0 passed, 1 failed")
        return 1
    PROGRAM, WALKS = os.path.abspath(given.program), given.walks
    passed = failed = 0
    with tempfile.TemporaryDirectory() as BUILD:
        run(["make", "-s", "-C", HERE, "all", "examples", f"BUILD={BUILD}"])
        os.environ["CUEDESK_LIBRARY"] = os.path.join(BUILD, "libcuedesk.so.1")
        for test in TESTS:
            if given.only not in test.__name__:
                continue
            try:
                test()
                passed += 1
            except Exception:
                failed += 1
                print(f"host: {test.__name__}: {traceback.format_exc(limit=-1)}")
    print(f"host: {passed} passed, {failed} failed")
    return 1 if failed or not passed else 0


if __name__ == "__main__":
    sys.exit(main())
