#!/usr/bin/env python3
"""Runs the built program while one call of the C library fails: each allocation in turn, each read of the standard input and each write.
Some runs are refused each allocation from one on.

    refusals.py PROGRAM

The call is refused by a library of a few lines of C that is loaded before the C library (`LD_PRELOAD`), so that the program is the very
one that was proved. `program.py` calls it. Prints what went wrong, and last 'N runs, M wrong'.
"""
import os
import re
import subprocess
import sys
import tempfile
import time

import crews
import plain_desk
from limits import Started

TIME_LIMIT = 20
# Counts the calls of one kind, answers the one of a number with an error, and says at the end how many there were.
SHIM = r"""
#define _GNU_SOURCE
#include <dlfcn.h>
#include <errno.h>
#include <fcntl.h>
#include <stdlib.h>
#include <string.h>
#include <sys/mman.h>
#include <unistd.h>

static long unseen[3], *calls = unseen;

/* The count stands in a file, since the program may end without a word to its libraries. Behind it stands how many writes of outlets
   have ended, and whether the allocations are counted from now on of which all are refused but the first ones. */
enum { COUNT, OUTLETS, BEGUN, WORDS };

__attribute__((constructor)) static void begin(void)
{
    const char *path = getenv("REFUSED_TOLD");
    int file = path ? open(path, O_RDWR) : -1;
    if (file < 0) return;
    void *shared = mmap(NULL, WORDS * sizeof *calls, PROT_READ | PROT_WRITE, MAP_SHARED, file, 0);
    if (shared != MAP_FAILED) calls = shared;
    close(file);
}

static int refuses(const char *kind)
{
    const char *wanted = getenv("REFUSED"), *at = getenv("REFUSED_AT");
    return wanted && at && !strcmp(wanted, kind) && __sync_add_and_fetch(&calls[COUNT], 1) == atol(at);
}

static int refuses_allocation(void)
{
    const char *wanted = getenv("REFUSED"), *at = getenv("REFUSED_AT");
    if (wanted && at && !strcmp(wanted, "later allocations"))
        return __sync_fetch_and_add(&calls[BEGUN], 0) && __sync_add_and_fetch(&calls[COUNT], 1) >= atol(at);
    return refuses("allocation");
}

#define NEXT(name) ((__typeof__(&name))dlsym(RTLD_NEXT, #name))

void *malloc(size_t size)
{
    static __typeof__(&malloc) next;
    if (!next) next = NEXT(malloc);
    if (refuses_allocation()) { errno = ENOMEM; return NULL; }
    return next(size);
}

void *realloc(void *old, size_t size)
{
    static __typeof__(&realloc) next;
    if (!next) next = NEXT(realloc);
    if (refuses_allocation()) { errno = ENOMEM; return NULL; }
    return next(old, size);
}

ssize_t read(int file, void *to, size_t most)
{
    static __typeof__(&read) next;
    if (!next) next = NEXT(read);
    if (file == 0 && refuses("read")) { errno = EIO; return -1; }
    return next(file, to, most);
}

ssize_t write(int file, const void *from, size_t count)
{
    static __typeof__(&write) next;
    if (!next) next = NEXT(write);
    if (file != 2 && refuses("write")) { errno = EIO; return -1; }
    ssize_t written = next(file, from, count);
    if (file > 2) __sync_add_and_fetch(&calls[OUTLETS], 1);
    return written;
}

ssize_t __read(int file, void *to, size_t most) { return read(file, to, most); }
ssize_t __write(int file, const void *from, size_t count) { return write(file, from, count); }
"""
SHOW = ("IDENT 3:0\nSET CHANNELS 24\nPATCH 1 1<1@FL 2<2@50 3<513@FL\nGROUP 4\nCHAN 1@50 2@FL\nSUB 2\nCHAN 2@FL\nCUE 1\nTEXT Preset\nUP 2\nCHAN 1@FL\nPART 2\n"
        "UP 1\nCHAN 2@H64\nCUE 2\nUP 0\nDOWN 0\nCHAN 1@0\nENDDATA\n")
SCRIPT = ["go", "tick 4", "frame", "set 1 chan 2 at H32", "cue 3", "set 3 chan 1 thru 20 at FL", "label 3 the third", "sheet 3", "fly", "set 9 chan 1 at 5",
          "patch 700 chan 3 at 50", "part 3 2", "time 3 up 1", "block 3", "group 7 chan 1 at FL", "sub 2 chan 3 at 50", "sub 2 at FL", "delete 2 only", "sheet 1",
          "save", "go", "tick", "frame", "frame 2", "quit"]
WHOLE = (SHOW + "\n".join(SCRIPT) + "\n").encode()
UNDONE = (SHOW + "\n".join(["go", "tick 4", "set 1 chan 2 at H32", "undo", "frame", "redo", "record 1.5", "cue 3", "label 3 the third",
                            "undo", "undo", "sheet 1.5", "redo", "sheet 1.5", "record 3 only", "redo", "undo 1", "set 9 chan 1 at 5",
                            "undo", "save", "frame", "quit"]) + "\n").encode()
LISTS = (SHOW.replace("ENDDATA", "CUE 5000\nUP 0\nCHAN 1@H40 3@FL\nENDDATA") + "\n".join(
    ["go", "2 go", "tick 4", "frame", "2 set 5000 chan 2 at H32", "2 cue 6000", "cue 3", "2 label 6000 the last", "2 sheet 6000", "2 frame",
     "patch 700 chan 3 at 50", "sub 2 chan 3 at 50", "sub 2 chan 1 at FL", "fader 2 at 50", "frame 2", "2 delete 5000 only",
     "2 sub 2 chan 3 at 5", "2 save", "save", "2 go", "tick", "frame", "quit"]) + "\n").encode()
LOOKS = SHOW.encode() + b"sheet 1\nsheet 2\n"
MADE = b"cues 1\nmoment 174\nok 3\nrefused 0\nsum 127\n"
JOBS = [(("render",), WHOLE), (("render", "states"), LOOKS), (("check",), WHOLE), (("check", "states"), WHOLE), (("sheet",), WHOLE),
        (("sheet", "states"), WHOLE), (("make", "1"), b""), (("run", "2"), WHOLE), (("run", "2", "states"), LOOKS),
        (("undo",), UNDONE), (("undo", "states"), LOOKS + b"cue 3\nundo\nundo\n"),
        (("two",), LISTS), (("two", "states"), LOOKS + b"2 cue 3\n2 sheet 3\n"), (("crew", "2"), SHOW.encode())]
# The operators' scripts of a crew.
SCRIPTS = [("\n".join(SCRIPT) + "\n").encode(), b"cue 7\nset 7 chan 4 at FL\nsheet 7\nframe\nlabel 7 another\nset 9 chan 1 at 0\ntick 3\nsheet 3\nframe\n"]
# The statuses that a run may have, by what is refused.
STATUSES = {"allocation": (0, 5), "read": (0, 3), "write": (0, 4)}
KEYS = {b"go", b"tick", b"frame", b"sheet", b"save", b"quit", b"fly"}


class Refuser:
    """The program beside the library that refuses."""

    def __init__(self, program, folder):
        self.program, self.folder, self.library, self.told = program, folder, os.path.join(folder, "refuse.so"), os.path.join(folder, "told")
        source = os.path.join(folder, "refuse.c")
        with open(source, "w") as file:
            file.write(SHIM)
        subprocess.run(["cc", "-shared", "-fPIC", "-O1", "-o", self.library, source, "-ldl"], check=True)

    def env(self, kind, at):
        """The environment of a run, before which nothing was told."""
        with open(self.told, "wb") as file:
            file.write(bytes(24))
        return dict(os.environ, LD_PRELOAD=self.library, REFUSED=kind, REFUSED_AT=str(at), REFUSED_TOLD=self.told)

    def word(self, place):
        """What the library told: 0 how many such calls there were, 1 how many writes of outlets have ended."""
        with open(self.told, "rb") as file:
            return int.from_bytes(file.read()[8 * place:][:8], sys.byteorder)

    def begin(self):
        """From now on the later allocations are counted."""
        with open(self.told, "r+b") as file:
            file.seek(16)
            file.write((1).to_bytes(8, sys.byteorder))

    def run(self, words, data, kind, at):
        """Status, output, standard error, the outlets' files, and how many such calls there were."""
        with tempfile.TemporaryDirectory(dir=self.folder) as place:
            crews.write_scripts(place, SCRIPTS if words[0] == "crew" else [])
            run = subprocess.run([self.program, *words], input=data, stdout=subprocess.PIPE, stderr=subprocess.PIPE, env=self.env(kind, at), cwd=place,
                                 timeout=TIME_LIMIT)
            files = {}
            for name in os.listdir(place):
                if name.startswith("universe"):
                    with open(os.path.join(place, name), "rb") as file:
                        files[name] = file.read()
        return run.returncode, run.stdout, run.stderr, files, self.word(0)


def without_refused(words, data, output):
    """What the rules give where the edits that ran out of memory were never asked for, with their answers in place."""
    if words[0] == "make":
        # (an edit that ran out of memory is counted, and nothing more is told of it)
        return MADE if b"refused 0" in output or not output.endswith(b"\n") else output
    if words[0] not in ("render", "run", "undo", "two") or b"refused Memory\n" not in output:
        return plain_desk.output(words, data)[1]
    replies = output.split(b"\n")
    lines = data[data.index(b"ENDDATA\n") + 8:].split(b"\n")
    show, kept, refused, at = data[:data.index(b"ENDDATA\n") + 8], [], [], 0
    for line in lines:
        wanted = plain_desk.output(words, show + b"\n".join(kept + [line]) + b"\n")[1]
        before = plain_desk.output(words, show + b"\n".join(kept) + b"\n")[1]
        if replies[at:at + 1] == [b"refused Memory"]:
            refused.append(at)
            at += 1
        else:
            kept.append(line)
            at += wanted.count(b"\n") - before.count(b"\n")
    rest = plain_desk.output(words, show + b"\n".join(kept) + b"\n")[1].split(b"\n")
    for place in refused:
        rest.insert(place, b"refused Memory")
    return b"\n".join(rest)


def entries_of(text):
    """The entries of a crew's transcript: operator, number, and all that stands there."""
    pieces = re.split(rb"(?m)^(?=op )", text)[1:]
    return [(*map(int, piece.split(b"\n")[0].split()[1:]), piece) for piece in pieces]


def wrong_transcript(show, status, output):
    """What is wrong in a crew's transcript, of which some edits may have been out of memory. With status 0 each operator has all its lines, with 3
    each but one, or there is nothing, as with 5."""
    lines, entries = [crews.taken_of(script) for script in SCRIPTS], entries_of(output)
    named = [[n for k, n, _ in entries if k == operator] for operator in range(1, len(lines) + 1)]
    short = sum(len(numbers) != len(own) for numbers, own in zip(named, lines))
    if any(numbers != list(range(1, len(numbers) + 1)) or len(numbers) > len(own) for numbers, own in zip(named, lines)):
        return ["lines in another order"]
    refused = [piece.endswith(b"\nrefused Memory\n") for _, _, piece in entries]
    said = [lines[k - 1][n - 1] for k, n, _ in entries]
    wanted = plain_desk.crew_text(show, [(k, n, b"fly" if out else line) for (k, n, _), line, out in zip(entries, said, refused)])
    replaced = [piece.replace(b"\nbad\n", b"\nrefused Memory\n") if out else piece for (_, _, piece), out in zip(entries_of(wanted), refused)]
    wrong = [f"{line!r} is refused" for line, out in zip(said, refused) if out and line.split()[0] in KEYS]
    if b"".join(replaced) != output or (output and short > {0: 0, 3: 1, 5: -1}.get(status, len(lines))) or (status == 0 and not output):
        wrong.append(f"status {status}, output {output[-100:]!r}, {short} operators without all their lines")
    return wrong


def wrong_text(words, data, status, output):
    """What is wrong in what a run wrote."""
    if words[0] == "crew":
        return wrong_transcript(data, status, output)
    whole = without_refused(words, data, output)
    if not whole.startswith(output) or (status == 0 and output != whole):
        return [f"status {status}, output {output[-100:]!r}"]
    return []


def wrong_with(refuser, words, data, kind, at, statuses):
    """How many such calls a run had, and what went wrong in it."""
    label = f"{' '.join(words)}, {kind} {at}"
    try:
        status, output, error, files, calls = refuser.run(words, data, kind, at)
    except subprocess.TimeoutExpired:
        return at, [f"{label}: no end within {TIME_LIMIT} seconds"]
    wrong = [f"{label}: {said}" for said in wrong_text(words, data, status, output)]
    if status not in statuses or (at > calls and status != 0):
        wrong.append(f"{label}: status {status}")
    if error:
        wrong.append(f"{label}: standard error {error[:100]!r}")
    for name, text in files.items():
        universe = int(name.removeprefix("universe-").removesuffix(".txt"))
        if status == 0 and b"refused Memory" not in output:
            versions = plain_desk.versions(data, universe) if len(words) < 3 else None
            lines = text.splitlines(keepends=True)
            if versions is not None and (not set(lines) <= set(versions) or lines[-1:] != versions[-1:]):
                wrong.append(f"{label}: {name} {text[-100:]!r}")
    return calls, wrong


def refusals(program):
    """How many runs there were, and what went wrong in them."""
    runs, wrong = 0, []
    with tempfile.TemporaryDirectory() as folder:
        refuser = Refuser(program, folder)
        for words, data in JOBS:
            for kind, statuses in STATUSES.items():
                at, calls = 0, 0
                while at <= calls:
                    at += 1
                    calls, said = wrong_with(refuser, words, data, kind, at, statuses)
                    runs, wrong = runs + 1, wrong + said
    return runs, wrong


def ends_without_memory(refuser, at, full):
    """Status and output of a live run in which, once its outlet was written, each allocation from one on is refused. The outlet is a file, or a
    full device, which can't be written."""
    with tempfile.TemporaryDirectory(dir=refuser.folder) as place:
        if full:
            os.symlink("/dev/full", os.path.join(place, "universe-1.txt"))
        with Started([refuser.program, "run", "1"], stdin=subprocess.PIPE, stdout=subprocess.PIPE, env=refuser.env("later allocations", at), cwd=place) as run:
            run.stdin.write(SHOW.encode())
            run.stdin.flush()
            while refuser.word(1) == 0:
                time.sleep(0.001)
            refuser.begin()
            run.stdin.write(b"go\n")
            run.stdin.close()
            output = run.stdout.read()
            return run.wait(TIME_LIMIT), output


def outlet_before_memory(program):
    """What goes wrong where an outlet's write failed and there is no memory to publish commands: the write decides the status."""
    with tempfile.TemporaryDirectory() as folder:
        refuser = Refuser(program, folder)
        ends = [(ends_without_memory(refuser, at, False), ends_without_memory(refuser, at, True)) for at in range(1, 9)]
    if (5, b"ok\n") not in [end for end, _ in ends]:
        return [f"no command stays unpublished: {ends}"]
    return [f"{file} with a file, {full} with a full device" for file, full in ends if file[0] not in (0, 5) or full != (4, file[1])]


def main():
    runs, wrong = refusals(os.path.abspath(sys.argv[1]))
    print(*wrong, f"{runs} runs, {len(wrong)} wrong", sep="\n")
    return 1 if wrong else 0


if __name__ == "__main__":
    sys.exit(main())
