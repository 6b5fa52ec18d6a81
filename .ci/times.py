#!/usr/bin/env python3
"""Says what the last check of a crate from nothing spent its time on, module by module.

    times.py [CRATE..] [--most N]

A check writes a file for each module into the crate's `out/incremental` as soon as it is done with it. So the time between two files is
what the later one took, where the check had one processor (`rt check --jobs 1`, after `rm -rf out`) and nothing else ran. A module is a
function's part of a proof, as `Lts` (what its body does), `Proof` (the goals that nothing written answers), `Answers` (those that are
written down) or `Tie` (that the body is the code), or a file of lemmas or definitions.
"""
import argparse
import collections
import os
import re
import sys

TOP = os.path.dirname(os.path.dirname(os.path.abspath(__file__)))
PARTS = ("Lts", "Proof", "Answers", "Invariants", "Tie", "Kinds", "Layout", "Goals", "Statement")
# A pause that no module takes: between two checks.
PAUSE = 300


def modules(crate: str) -> list[tuple[float, str]]:
    """The seconds of each module of the crate, in the order in which they were done."""
    found = []
    for folder, _, names in os.walk(os.path.join(TOP, "crates", crate, "out", "incremental")):
        found += [(os.stat(os.path.join(folder, name)).st_mtime, name) for name in names if name.endswith(".oantt")]
    found.sort()
    pairs = zip(found, found[1:])
    return [(now - before, re.sub(r"^Rattle-|(\.decls)?\.oantt$", "", name)) for (before, _), (now, name) in pairs if now - before < PAUSE]


def part_of(module: str) -> str:
    """What kind of module that is."""
    last = re.sub(r"[-\d]+$", "", module.rpartition(".")[2])
    return last if last in PARTS else "lemmas and the rest" if "-proofs" in module else "definitions and libraries"


def shares(rows: list[tuple[float, str]]) -> str:
    """How many seconds went to each kind, and to all."""
    spent: collections.Counter[str] = collections.Counter()
    for seconds, module in rows:
        spent[part_of(module)] += seconds
    return f"{sum(spent.values()):.0f} s: " + ", ".join(f"{part} {seconds:.0f}" for part, seconds in spent.most_common() if seconds >= 0.5)


def main() -> None:
    """Tells of the crates that are named, or of all that were checked."""
    words = argparse.ArgumentParser(description=__doc__, formatter_class=argparse.RawDescriptionHelpFormatter)
    words.add_argument("crates", nargs="*", metavar="CRATE", help="the crates (all that were checked)")
    words.add_argument("--most", type=int, default=20, metavar="N", help="how many modules are named (20)")
    given = words.parse_args()
    every: list[tuple[float, str]] = []
    for crate in given.crates or sorted(os.listdir(os.path.join(TOP, "crates"))):
        rows = modules(crate)
        if rows:
            print(f"{crate} {shares(rows)}")
        elif given.crates:
            sys.exit(f"times.py: no check of {crate} has left anything; rt check --jobs 1 in crates/{crate} does")
        every += rows
    for seconds, module in sorted(every, reverse=True)[:given.most]:
        print(f"{seconds:6.1f}  {module}")


if __name__ == "__main__":
    main()
