#!/usr/bin/env python3
"""Tries the tests whose proofs would be dear: they are compiled with checks and run, and nothing of them is proved.

    tests.py [CRATE..] [--jobs N]

Each folder of `.ci/tests` is a crate's. A crate of tests stands on a copy of the crates; each file NAME.rattle is a module of it, and
`rt try --test` runs them all, so that most of the code is compiled once. What a file names of its own crate, as `crate::Show`, is
public there. A folder CRATE.memory is run beside the crate's own, with one allocation of each test refused. Prints what was said where a
test failed, a line for each run, and last 'N passed, M failed'; fails where a test failed, or where those of a folder didn't run.
"""
import argparse
import concurrent.futures
import os
import re
import shutil
import subprocess
import sys
import tempfile
import time

TOP = os.path.dirname(os.path.dirname(os.path.abspath(__file__)))
TESTS = os.path.join(TOP, ".ci", "tests")
SECONDS = 300
# What tests need beyond what their crate stands on.
ALSO = {"lx_workers": ["lx_show"], "lx_groups": ["lx_io"], "lx_sheet": ["lx_io"], "lx_subs": ["lx_io"]}
# The crate that the tests stand in.
TRIED = "lx_tried"
# The test of a folder CRATE.memory that says how many allocations are left after its preparation, where the one of the number LATE is
# refused; and how many come between the preparation and the one that is refused then (`PADS` of those tests).
PROBE, LATE, PADS = "preparation_is_over", 50_000, 20


def modules(text):
    """The names of the modules of a root file."""
    return re.findall(r"^mod (\w+);$", text, re.MULTILINE)


def copied(copy, folders):
    """The crates' sources and definitions, and a crate of the folders' tests, whose folder is answered."""
    shutil.copy(os.path.join(TOP, "HANDLES"), copy)
    stands_on = {}
    with open(os.path.join(TOP, "crates.txt")) as listed:
        for line in listed:
            name, _, below = line.partition(":")
            # On a static library no crate can stand, a crate of tests neither.
            if not line.startswith("#") and "staticlib" not in name.split():
                stands_on[name] = [name, *below.split()]
    tested = dict.fromkeys(folder.split(".")[0] for folder in folders)
    needed = dict.fromkeys(it for crate in tested for it in [*stands_on[crate], *ALSO.get(crate, [])])
    with open(os.path.join(copy, "crates.txt"), "w") as out:
        for name, below in stands_on.items():
            out.write(f"{name}: {' '.join(below[1:])}\n")
        out.write(f"{TRIED}: {' '.join(needed)}\n")
    for each in stands_on:
        for part in ("src", "specs"):
            if os.path.isdir(os.path.join(TOP, "crates", each, part)):
                shutil.copytree(os.path.join(TOP, "crates", each, part), os.path.join(copy, "crates", each, part))
    source = os.path.join(copy, "crates", TRIED, "src")
    os.makedirs(source)
    with open(os.path.join(source, "lib.rt"), "w") as root:
        root.write("//! The tests.\n\n#![tactic(auto)]\n\n")
        for crate in tested:
            root.write(f"#[cfg(test)]\nmod of_{crate};\n")
    for crate in tested:
        placed(source, crate, [folder for folder in (crate, *folders) if folder.split(".")[0] == crate])
    return os.path.dirname(source)


def placed(source, crate, folders):
    """Each file of the crate's tests stands as a module of one module; what it names of its own crate is named from outside."""
    files = {name.removesuffix(".rattle"): os.path.join(TESTS, folder, name) for folder in folders for name in sorted(os.listdir(os.path.join(TESTS, folder)))}
    os.makedirs(os.path.join(source, f"of_{crate}"))
    with open(os.path.join(source, f"of_{crate}.rt"), "w") as out:
        out.write(f"//! The tests of {crate}.\n\n" + "".join(f"mod {name};\n" for name in files))
    for name, path in files.items():
        with open(path) as file:
            text = file.read()
        inner = lambda found: f"crate::of_{crate}::{found[1]}" if found[1] in files else f"{crate}::{found[1]}"
        text = re.sub(r"\bcrate::(\w+|\{|\*)", inner, text)
        with open(os.path.join(source, f"of_{crate}", f"{name}.rt"), "w") as out:
            out.write(text)


def run_tests(crate, *words):
    """How each test of the crate ended, and all that was said."""
    run = subprocess.run(["rt", "try", "--test", "--steps", "100000", "--seconds", str(SECONDS), *words], cwd=crate,
                         stdout=subprocess.PIPE, stderr=subprocess.STDOUT, text=True)
    return dict(re.findall(r"^test (\S+) \.\.\. (\w+)$", run.stdout, re.MULTILINE)), run.stdout


def run_in_want(crate):
    """The same for tests of which one allocation is refused, PADS after those of their preparation; the probe fails by its nature."""
    ends, said = run_tests(crate, "--fail-alloc", str(LATE))
    left = re.search(r"left (\d+)", said)
    if not left:
        return {}, said
    ends, said = run_tests(crate, "--fail-alloc", str(LATE - int(left[1]) + PADS - 1))
    return {name: end for name, end in ends.items() if PROBE not in name}, said


def tried(folders):
    """How many of the folders' tests passed and failed."""
    begin = time.monotonic()
    with tempfile.TemporaryDirectory() as copy:
        crate = copied(copy, folders)
        ends, said = run_in_want(crate) if folders[0].endswith(".memory") else run_tests(crate)
    passed = sum(end == "ok" for end in ends.values())
    failed = len(ends) - passed
    silent = [it for it in folders if not any(name.startswith(f"of_{it.split('.')[0]}::") for name in ends)]
    if failed or silent:
        failed = max(failed, 1)
        print(said)
    for it in silent:
        print(f"{it}: its tests didn't run")
    print(f"{' '.join(folders)}: {passed} passed, {failed} failed, {time.monotonic() - begin:.0f} s", flush=True)
    return passed, failed


def runs_of(folders):
    """The folders, by the runs that try them: those of crates that stand on the console, the others, and each that wants for memory."""
    with open(os.path.join(TOP, "crates.txt")) as listed:
        high = {line.split(":")[0] for line in listed if "lx_console" in line or "lx_desk" in line}
    plain = [it for it in folders if not it.endswith(".memory")]
    runs = [[it for it in plain if it in high], [it for it in plain if it not in high]]
    return [run for run in runs if run] + [[it] for it in folders if it.endswith(".memory")]


def main():
    parser = argparse.ArgumentParser()
    parser.add_argument("crates", nargs="*")
    parser.add_argument("--jobs", type=int, default=os.cpu_count() or 1)
    given = parser.parse_args()
    with concurrent.futures.ThreadPoolExecutor(given.jobs) as pool:
        counts = list(pool.map(tried, runs_of(given.crates or sorted(os.listdir(TESTS)))))
    passed, failed = (sum(count) for count in zip(*counts))
    print(f"{passed} passed, {failed} failed")
    return 1 if failed or not passed else 0


if __name__ == "__main__":
    sys.exit(main())
