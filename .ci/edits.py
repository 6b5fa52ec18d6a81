#!/usr/bin/env python3
"""Tries the wrong bodies that the gate leaves out for want of time, or looks at all of them without trying any.

    edits.py [CRATE..] [--minutes N]
    edits.py --look

The wrong bodies that tell most stand in `crates/CRATE/must-fail`, and each gate tries them. Those of `.ci/edits/CRATE` were tried when
they were written; they are tried again by this, over a copy of the crates, by `rt must-fail`. Fails where one isn't refused.

With --look only the texts are read: each of them, of both folders, must replace what stands exactly once in its file.
"""
import argparse
import os
import shutil
import subprocess
import sys
import tempfile

TOP = os.path.dirname(os.path.dirname(os.path.abspath(__file__)))
MORE = os.path.join(TOP, ".ci", "edits")


def crates():
    """The names of the crates that have wrong bodies here."""
    return sorted(os.listdir(MORE))


def pairs(path):
    """What an edit replaces: for each of its pairs the file, the old text and the new one."""
    found, file, old = [], None, None
    with open(path) as lines:
        for line in lines:
            word, _, text = line.rstrip("\n").partition(": ")
            if word == "file":
                file = text
            elif word == "old":
                old = text
            elif word == "new":
                found.append((file, old, text))
    return found


def misses(crate, path):
    """What is wrong with the edit's text: an old text that doesn't stand once."""
    texts, wrong = {}, []
    for file, old, new in pairs(path):
        if file not in texts:
            with open(os.path.join(TOP, "crates", crate, file)) as source:
                texts[file] = source.read()
        if texts[file].count(old) != 1:
            wrong.append(f"{path}: stands {texts[file].count(old)} times in {file}: {old.strip()}")
        texts[file] = texts[file].replace(old, new, 1)
    return wrong if texts else [f"{path}: replaces nothing"]


def look():
    """Reads each edit of both folders; answers whether all of them are right."""
    count, wrong = 0, []
    for crate in sorted(os.listdir(os.path.join(TOP, "crates"))):
        for folder in (os.path.join(TOP, "crates", crate, "must-fail"), os.path.join(MORE, crate)):
            for name in sorted(os.listdir(folder)) if os.path.isdir(folder) else []:
                count += 1
                wrong += misses(crate, os.path.join(folder, name))
    print(*wrong, f"{count} edits, {len(wrong)} that don't fit", sep="\n")
    return not wrong


def tried(names, minutes):
    """Tries the edits of these crates over a copy of all crates; answers whether each was refused."""
    with tempfile.TemporaryDirectory(prefix="edits-") as copy:
        for name in ("HANDLES", "crates.txt"):
            shutil.copy(os.path.join(TOP, name), copy)
        shutil.copytree(os.path.join(TOP, "crates"), os.path.join(copy, "crates"), symlinks=True,
                        ignore=shutil.ignore_patterns("out", "must-fail"))
        for name in names:
            shutil.copytree(os.path.join(MORE, name), os.path.join(copy, "crates", name, "must-fail"))
        try:
            return subprocess.run(["rt", "must-fail", *names], cwd=copy, timeout=60 * minutes).returncode == 0
        except subprocess.TimeoutExpired:
            print(f"edits.py: not done in {minutes} minutes")
            return False


def main():
    """Looks at the edits, or tries those of the crates that are named, or of all."""
    words = argparse.ArgumentParser(description=__doc__, formatter_class=argparse.RawDescriptionHelpFormatter)
    words.add_argument("crates", nargs="*", metavar="CRATE", help="the crates whose edits are tried (all)")
    words.add_argument("--look", action="store_true", help="only see that each old text stands once")
    words.add_argument("--minutes", type=int, default=240, metavar="N", help="how long they may take (240)")
    given = words.parse_args()
    strange = set(given.crates) - set(crates())
    if strange:
        words.error(f"no edits of {', '.join(sorted(strange))} in .ci/edits")
    sys.exit(0 if (look() if given.look else tried(given.crates or crates(), given.minutes)) else 1)


if __name__ == "__main__":
    main()
