#!/usr/bin/env python3
"""Tries the launcher and the scripts of this folder, in small trees of their own with stand-ins for the toolchain and the program.

    release/test.py [--only TEXT]

A stand-in of the program writes its words, what it reads and where it stands, and ends with status 2 where it has no words. A line in it
tells of which build it is, and another is what stripping takes out. Prints a line for each thing that is wrong, and last
'N passed, M failed'.
"""
import argparse
import concurrent.futures
import contextlib
import hashlib
import os
import shutil
import subprocess
import sys
import tempfile
import time

TOP = os.path.dirname(os.path.dirname(os.path.abspath(__file__)))
SECONDS = 60
# The system's commands that the scripts may use.
COMMANDS = "bash cat chmod cmp cp cut dirname env find grep mkdir mktemp mv nproc readlink rm sed sh sha256sum sort stat tail uname xargs".split()

PROGRAM = """#!/bin/sh
# build 1
# debug
[ $# -gt 0 ] || { echo usage >&2; exit 2; }
echo "$0: $*"
cat
exit 7
"""
RT = """#!/bin/sh
kit=$(dirname "$(readlink -f "$0")")
case $1 in
    version) cat "$kit/line" ;;
    doc) echo "$kit/START-HERE.md" ;;
    lib) echo "proved ${PWD##*/}" >> "$kit/log" ;;
    run) mkdir -p out && [ -f "$kit/program" ] && cp "$kit/program" out/cuedesk && chmod 755 out/cuedesk && echo built >> "$kit/log" ;;
esac
"""
STRIP = """#!/bin/sh
[ "$2" = -o ] && sed '/^# debug$/d' "$4" > "$3"
"""
COUNTED = """#!/bin/sh
echo once >> "{log}"
exec {command} "$@"
"""
SOURCES = {
    "crates.txt": "# Each crate.\ncuedesk: middle low\nhost staticlib: low\nmiddle: low kit\nlow:\n",
    "HANDLES": "Handles allowed: none.\n",
    "crates/low/src/lib.rt": "//! Low.\n",
    "crates/low/specs/Lib.antt": "pub mod Lows\n",
    "crates/low/specs/Lows.antt": "-- lows\n",
    "crates/low/proofs/deep/er/Answers.antt": "-- answers\n",
    "crates/middle/src/lib.rt": "//! Middle.\n",
    "crates/cuedesk/src/main.rt": "//! The program.\n",
}
OTHERS = {
    "crates/low/README.md": "# low\n",
    "crates/low/must-fail/wrong.edit": "file: src/lib.rt\n",
    "crates/cuedesk/stdin": "",
}


def written(path, text, mode=0o644):
    os.makedirs(os.path.dirname(path), exist_ok=True)
    with open(path, "w") as file:
        file.write(text)
    os.chmod(path, mode)


def text_of(path):
    with open(path) as file:
        return file.read()


VERSION = text_of(os.path.join(TOP, "VERSION")).strip()


class Tree:
    """A small repository with its toolchain beside it."""

    def __init__(self, folder):
        self.top, self.kit = os.path.join(folder, "tree"), os.path.join(folder, "kit")
        # The PATH has no other command, so no toolchain but this.
        self.path = [self.kit, os.path.join(folder, "system")]
        os.mkdir(self.path[1])
        for name in COMMANDS:
            os.symlink(shutil.which(name), os.path.join(self.path[1], name))
        for name, text in {**SOURCES, **OTHERS}.items():
            written(self.at(name), text)
        shutil.copytree(os.path.join(TOP, "release"), self.at("release"), ignore=shutil.ignore_patterns("out", "bin", "lib", "include", "MANIFEST", "*.deb", "made.*"))
        for name in ("cuedesk", "VERSION", "CHANGELOG.md"):
            shutil.copy2(os.path.join(TOP, name), self.at(name))
        written(os.path.join(self.kit, "rt"), RT, 0o755)
        written(os.path.join(self.kit, "line"), "kit 1\n")
        written(os.path.join(self.kit, "program"), PROGRAM)
        written(os.path.join(self.kit, "toolchain/bin/clang"), STRIP, 0o755)

    def at(self, name):
        return os.path.join(self.top, name)

    def run(self, *words, **special):
        """Status, output and standard error of a command of the tree."""
        env = {**os.environ, "PATH": ":".join(self.path), **special.pop("env", {})}
        special.setdefault("input", "")
        ended = subprocess.run([self.at(words[0]), *words[1:]], stdout=subprocess.PIPE, stderr=subprocess.PIPE, text=True, env=env, timeout=SECONDS, check=False,
                               **special)
        return ended.returncode, ended.stdout, ended.stderr

    def without_rt(self):
        """The system's commands alone."""
        self.path.remove(self.kit)

    def build(self):
        """The build that the gate makes."""
        subprocess.run(["sh", self.at("../kit/rt"), "run"], cwd=self.at("crates/cuedesk"), check=True)

    def release(self):
        """A release of what a gate has passed."""
        self.run("release/gate", "begin")
        self.build()
        for words in (["release/gate", "passed"], ["release/make"]):
            status, output, error = self.run(*words)
            if status:
                raise AssertionError(f"{words}: status {status}, {output!r}, {error!r}")
        self.forget()

    def forget(self):
        """Takes what was built away, as in a clone."""
        shutil.rmtree(self.at("crates/cuedesk/out"))
        shutil.rmtree(self.at("release/out"), ignore_errors=True)
        self.log(clear=True)

    def log(self, clear=False):
        """How often the program was built."""
        log = os.path.join(self.kit, "log")
        times = text_of(log).split().count("built") if os.path.exists(log) else 0
        if clear and os.path.exists(log):
            os.remove(log)
        return times

    def stand_in(self, name, text):
        """A command that is found before the system's."""
        folder = os.path.join(self.kit, "before")
        written(os.path.join(folder, name), text, 0o755)
        if folder not in self.path:
            self.path.insert(0, folder)

    def append(self, name, text):
        with open(self.at(name), "a") as file:
            file.write(text)


def looked(tree, place, error="", words=("render",), **special):
    """What is wrong in a run that the program of the place, `release/bin` or `crates/cuedesk/out`, must answer; `error` is what
    standard error must have in it, or else it must be empty."""
    status, output, said = tree.run("cuedesk", *words, input="show\n", **special)
    wanted = (7, f"{tree.at(place)}/cuedesk: {' '.join(words)}\nshow\n")
    wrong = [] if (status, output) == wanted else [f"{(status, output)}, not {wanted}; {said!r}"]
    return wrong + ([] if said == error or (error and error in said.splitlines()[0]) else [f"standard error {said!r} has no {error!r}"])


RELEASED, BUILT = "release/bin", "crates/cuedesk/out"


def older(path, seconds=3600):
    then = time.time() - seconds
    os.utime(path, (then, then))


# ---------------------------------------------------------------------------------------------------------------------
# The launcher.


def a_release_runs_at_once(tree):
    tree.release()
    tree.without_rt()
    return [wrong for _ in range(3) for wrong in looked(tree, RELEASED)]


def no_release_builds(tree):
    wrong = looked(tree, BUILT, "building, since there is no release")
    # Each library is proved once, lowest first, and then the program is built.
    done = text_of(os.path.join(tree.kit, "log")).splitlines()
    wrong += [] if done == ["proved low", "proved middle", "built"] else [f"done in turn: {done}"]
    wrong += looked(tree, BUILT) + ([] if tree.log() == 1 else [f"{tree.log()} builds"])
    said = tree.run("cuedesk", "render", env={"CUEDESK_BUILD": "1"})[2].splitlines()[1:]
    return wrong + ([] if said == [f"cuedesk: {it}" for it in ("1 of 3: low", "2 of 3: middle", "3 of 3: cuedesk", "built")] else [f"said {said}"])


def no_release_and_no_toolchain(tree):
    tree.without_rt()
    status, output, error = tree.run("cuedesk", "render")
    return [] if (status, output, error.count("\n")) == (127, "", 1) and "there is no release" in error and "rt" in error else [f"{status}, {output!r}, {error!r}"]


def a_planted_line_builds(tree):
    wrong = []
    for name in SOURCES:
        tree.release()
        wrong += looked(tree, RELEASED)
        tree.append(name, "-- planted\n")
        wrong += [f"{name}: {it}" for it in looked(tree, BUILT, "since the sources aren't those of the release") + looked(tree, BUILT)]
        written(tree.at(name), SOURCES[name])
        wrong += [f"{name} again: {it}" for it in looked(tree, RELEASED)]
        shutil.rmtree(tree.at("release/bin"))
    return wrong


def a_planted_line_without_a_toolchain(tree):
    tree.release()
    tree.without_rt()
    wrong = looked(tree, RELEASED)
    tree.append("crates/low/src/lib.rt", "// planted\n")
    status, output, error = tree.run("cuedesk", "render")
    return wrong + ([] if (status, output, error.count("\n")) == (127, "", 1) and "the sources aren't" in error else [f"{status}, {output!r}, {error!r}"])


def added_and_removed_sources_build(tree):
    tree.release()
    wrong = looked(tree, RELEASED)
    added = ("crates/low/src/more.rt", "crates/low/proofs/deep/More.antt", "crates/new/src/lib.rt", "crates/cuedesk/specs/Lib.antt")
    for name in added:
        written(tree.at(name), "")
        wrong += [f"{name}: {it}" for it in looked(tree, BUILT, "the sources aren't those")]
        os.remove(tree.at(name))
        wrong += [f"{name} gone: {it}" for it in looked(tree, RELEASED)]
    for name in SOURCES:
        os.rename(tree.at(name), tree.at("kept"))
        wrong += [f"no {name}: {it}" for it in looked(tree, BUILT, "the sources aren't those")]
        os.rename(tree.at("kept"), tree.at(name))
        wrong += [f"{name} back: {it}" for it in looked(tree, RELEASED)]
    return wrong


def what_is_no_source_may_change(tree):
    tree.release()
    tree.without_rt()
    wrong = looked(tree, RELEASED)
    for name in OTHERS:
        tree.append(name, "more\n")
    written(tree.at("crates/low/out/made.rt"), "")
    written(tree.at("docs/x.rt"), "")
    return wrong + looked(tree, RELEASED)


def a_stamp_is_stale_though_times_are_old(tree):
    """A change that keeps a source's size and time, and an older file in the place of another, behind a stamp that was written."""
    wrong, name = [], "crates/low/src/lib.rt"
    for kind in ("written", "moved"):
        written(tree.at(name), SOURCES[name])
        older(tree.at(name))
        tree.release()
        time.sleep(2.1)
        wrong += looked(tree, RELEASED) + looked(tree, RELEASED)
        if not os.path.exists(tree.at("release/out/launcher-stamp")):
            wrong.append("no stamp")
        before = os.stat(tree.at(name))
        place = tree.at(name if kind == "written" else "beside")
        written(place, SOURCES[name].replace("Low", "Wol"))
        os.utime(place, ns=(before.st_atime_ns, before.st_mtime_ns))
        os.replace(place, tree.at(name))
        wrong += [f"{kind}: {it}" for it in looked(tree, BUILT, "the sources aren't those")]
        shutil.rmtree(tree.at("crates/cuedesk/out"))
    return wrong


def a_stamp_saves_the_checksums(tree):
    """Also where the sources aren't those of the release, and the built program is run."""
    wrong = []
    for place in (RELEASED, BUILT):
        tree.release()
        if place == BUILT:
            tree.append("crates/low/src/lib.rt", "// planted\n")
            looked(tree, BUILT)
        time.sleep(2.1)
        log = os.path.join(tree.kit, "sums")
        tree.stand_in("sha256sum", COUNTED.format(log=log, command=shutil.which("sha256sum")))
        for summed in (True, False, False):
            wrong += looked(tree, place)
            if os.path.exists(log) != summed:
                wrong.append(f"{place}: checksums were {'' if os.path.exists(log) else 'not '}made")
            with contextlib.suppress(FileNotFoundError):
                os.remove(log)
    return wrong


def a_young_source_is_not_stamped(tree):
    """On a busy machine a source may be two seconds old before it is looked at, so there are some tries."""
    tree.release()
    for _ in range(5):
        shutil.rmtree(tree.at("release/out"), ignore_errors=True)
        os.utime(tree.at("HANDLES"))
        wrong = looked(tree, RELEASED)
        if wrong or not os.path.exists(tree.at("release/out/launcher-stamp")):
            return wrong
    return ["there is a stamp"]


def a_planted_byte_is_not_run(tree):
    wrong = []
    for stamped in (False, True):
        tree.release()
        if stamped:
            time.sleep(2.1)
            wrong += looked(tree, RELEASED)
        tree.append("release/bin/cuedesk", "#")
        wrong += looked(tree, BUILT, "the released program isn't the one of its manifest")
        shutil.rmtree(tree.at("release/bin"))
        tree.forget()
        wrong += looked(tree, BUILT, "the released program isn't the one of its manifest")
    return wrong


def a_manifest_without_its_lines(tree):
    wrong = []
    for text in ("", "sources \n", f"version {VERSION}\n"):
        tree.release()
        written(tree.at("release/MANIFEST"), text)
        wrong += looked(tree, BUILT, "the sources aren't those of the release")
    tree.release()
    os.remove(tree.at("HANDLES"))
    written(tree.at("release/MANIFEST"), f"version {VERSION}\n")
    return wrong + looked(tree, BUILT, "the sources aren't those of the release")


def another_machine_builds(tree):
    tree.release()
    wrong = looked(tree, RELEASED)
    for name in ("Linux aarch64", "Darwin x86_64"):
        tree.stand_in("uname", f"#!/bin/sh\necho {name}\n")
        wrong += looked(tree, BUILT, "since the release is for x86-64 Linux") + looked(tree, BUILT)
        shutil.rmtree(tree.at("crates/cuedesk/out"))
    os.remove(os.path.join(tree.kit, "before/uname"))
    return wrong + looked(tree, RELEASED)


def a_program_that_does_not_start(tree):
    """As where the machine's C library is too old: the program is that of the manifest, and ends otherwise."""
    written(os.path.join(tree.kit, "program"), "#!/bin/sh\nexit 1\n")
    tree.release()
    written(os.path.join(tree.kit, "program"), PROGRAM)
    wrong = looked(tree, BUILT, "the released program doesn't start here")
    tree.forget()
    tree.release()
    os.chmod(tree.at("release/bin/cuedesk"), 0o644)
    return wrong + looked(tree, BUILT, "the released program doesn't start here")


def cuedesk_build_builds_always(tree):
    tree.release()
    wrong = [it for _ in range(2) for it in looked(tree, BUILT, "building, since CUEDESK_BUILD is 1", env={"CUEDESK_BUILD": "1"})]
    wrong += [] if tree.log() == 2 else [f"{tree.log()} builds, not 2"]
    wrong += looked(tree, RELEASED) + looked(tree, RELEASED, env={"CUEDESK_BUILD": ""})
    tree.without_rt()
    status, output, error = tree.run("cuedesk", "render", env={"CUEDESK_BUILD": "1"})
    return wrong + ([] if (status, output) == (127, "") and "CUEDESK_BUILD is 1" in error else [f"{status}, {output!r}, {error!r}"])


def a_built_program_is_built_again_for_a_change(tree):
    """Also one behind which a source is taken away, and one that changes while the program is built."""
    wrong = looked(tree, BUILT, "there is no release")
    os.remove(tree.at("crates/low/specs/Lows.antt"))
    wrong += looked(tree, BUILT, "there is no release") + looked(tree, BUILT)
    tree.append("crates/cuedesk/src/main.rt", "// more\n")
    written(os.path.join(tree.kit, "rt"), RT.replace("run) ", "run) echo '// planted' >> src/main.rt; "), 0o755)
    wrong += looked(tree, BUILT, "there is no release")
    written(os.path.join(tree.kit, "rt"), RT, 0o755)
    return wrong + looked(tree, BUILT, "there is no release") + looked(tree, BUILT)


def a_failed_build_says_so(tree):
    tree.release()
    os.remove(os.path.join(tree.kit, "program"))
    tree.append("crates.txt", "# planted\n")
    status, output, error = tree.run("cuedesk", "render")
    return [] if (status, output) == (70, "") and "the build failed" in error else [f"{status}, {output!r}, {error!r}"]


def a_stamp_that_cannot_be_written(tree):
    tree.release()
    tree.without_rt()
    time.sleep(2.1)
    written(tree.at("release/out"), "")
    return looked(tree, RELEASED) + looked(tree, RELEASED)


def from_anywhere_by_any_name(tree):
    """By a link from another folder, with words that have blanks and none."""
    tree.release()
    tree.without_rt()
    link = os.path.join(os.path.dirname(tree.top), "a link")
    os.symlink(tree.at("cuedesk"), link)
    ended = subprocess.run([link, "two words", ""], input="x", stdout=subprocess.PIPE, text=True, cwd="/", env={**os.environ, "PATH": ":".join(tree.path)}, check=False)
    wrong = [] if (ended.returncode, ended.stdout) == (7, f"{tree.at(RELEASED)}/cuedesk: two words \nx") else [f"{ended}"]
    status, _, error = tree.run("cuedesk")
    return wrong + ([] if (status, error) == (2, "usage\n") else [f"without words {status}, {error!r}"])


# ---------------------------------------------------------------------------------------------------------------------
# What .ci/run compares.


def compared(tree, status, text):
    """What is wrong in a comparison; it says one line."""
    ended = tree.run("release/check")
    return [] if ended[0] == status and text in ended[1] and ended[1].count("\n") == 1 and not ended[2] else [f"{ended}, not {status} and {text!r}"]


def the_same_bytes_pass(tree):
    wrong = compared(tree, 0, "there is none")
    tree.release()
    tree.build()
    return wrong + compared(tree, 0, "to the byte: bin/cuedesk")


def other_bytes_fail(tree):
    tree.release()
    wrong = compared(tree, 1, "isn't built")
    tree.build()
    tree.append("crates/cuedesk/out/cuedesk", "# debug\n")
    wrong += compared(tree, 0, "to the byte")
    tree.append("crates/cuedesk/out/cuedesk", "#")
    return wrong + compared(tree, 1, "isn't the released bin/cuedesk")


def a_planted_byte_fails(tree):
    tree.release()
    tree.build()
    tree.append("release/bin/cuedesk", "#")
    wrong = compared(tree, 1, "isn't the one of which release/MANIFEST has the checksum")
    lines = [line for line in text_of(tree.at("release/MANIFEST")).splitlines() if not line.endswith("bin/cuedesk")]
    with open(tree.at("release/bin/cuedesk"), "rb") as file:
        lines.append(f"{hashlib.sha256(file.read()).hexdigest()}  bin/cuedesk")
    written(tree.at("release/MANIFEST"), "\n".join(lines) + "\n")
    wrong += compared(tree, 1, "isn't the released bin/cuedesk")
    os.remove(tree.at("release/bin/cuedesk"))
    return wrong + compared(tree, 1, "isn't the one of which release/MANIFEST has the checksum")


def sources_that_moved_on(tree):
    tree.release()
    tree.build()
    wrong = []
    for name in SOURCES:
        tree.append(name, "-- planted\n")
        wrong += compared(tree, 0, f"the sources have moved on since {VERSION}")
        written(tree.at(name), SOURCES[name])
        wrong += compared(tree, 0, "to the byte")
    return wrong


def another_toolchain(tree):
    tree.release()
    tree.build()
    tree.append("crates/cuedesk/out/cuedesk", "#")
    written(os.path.join(tree.kit, "line"), "kit 2\n")
    wrong = compared(tree, 0, f"{VERSION} was made by 'kit 1', which isn't this toolchain")
    tree.without_rt()
    ended = tree.run("release/check")
    return wrong + ([] if ended[0] == 1 and "rt can't be asked" in ended[1] else [f"without rt {ended}"])


# ---------------------------------------------------------------------------------------------------------------------
# How a release is made.


def with_a_library(tree):
    """Gives the tree a library that its gate builds."""
    for name in ("host/Makefile", "host/cuedesk.map", "host/cuedesk.h"):
        written(tree.at(name), name)
    for name in ("libcuedesk.a", "libcuedesk.so.1"):
        written(tree.at(f"host/build/{name}"), f"{name}\n# debug\n")
    for name in ("ld", "cc"):
        tree.stand_in(name, f"#!/bin/sh\necho {name} 1\n")


def the_manifest_says_what_is_there(tree):
    """The checksum of the sources, worked out here by its rule, and each file's."""
    tree.release()
    paths = sorted(SOURCES, key=os.fsencode)
    listed = "".join(f"{hashlib.sha256(SOURCES[path].encode()).hexdigest()}  {path}\n" for path in paths)
    stripped = PROGRAM.replace("# debug\n", "")
    lines = [f"version {VERSION}", "toolchain kit 1", "sources " + hashlib.sha256(listed.encode()).hexdigest(),
             hashlib.sha256(stripped.encode()).hexdigest() + "  bin/cuedesk"]
    wrong = [] if text_of(tree.at("release/MANIFEST")).splitlines()[1:] == lines else [f"{text_of(tree.at('release/MANIFEST'))}, not {lines}"]
    return wrong + ([] if text_of(tree.at("release/bin/cuedesk")) == stripped else ["the program isn't stripped"])


def only_what_the_gate_passed_is_released(tree):
    """Each refusal leaves what is released as it was."""
    wrong = []

    def refused(text):
        before = {name: text_of(tree.at(name)) for name in ("release/MANIFEST", "release/bin/cuedesk") if os.path.exists(tree.at(name))}
        ended = tree.run("release/make")
        after = {name: text_of(tree.at(name)) for name in before}
        said = ended[0] == 1 and text in ended[2] and ended[2].count("\n") == 1 and not ended[1]
        return ([] if said else [f"{ended}, not {text!r}"]) + ([] if before == after else ["a refusal changed the release"])

    tree.build()
    wrong += refused("no .ci/run has passed here")
    tree.release()
    for name, change in (("crates/cuedesk/out/cuedesk", "#"), ("crates/low/src/lib.rt", "// planted\n"), ("../kit/line", "kit 3\n")):
        tree.run("release/gate", "begin")
        tree.build()
        tree.run("release/gate", "passed")
        before = text_of(tree.at(name))
        tree.append(name, change)
        wrong += [f"{name}: {it}" for it in refused("aren't those that .ci/run has passed")]
        with open(tree.at(name), "w") as file:
            file.write(before)
    tree.run("release/gate", "begin")
    wrong += refused("no .ci/run has passed here")
    tree.append("crates/low/src/lib.rt", "// planted\n")
    ended = tree.run("release/gate", "passed")
    wrong += [] if ended[0] == 1 and "changed since the gate began" in ended[2] else [f"{ended}"]
    written(tree.at("host/python/cuedesk.py"), '__version__ = "1.0.98"\n')
    wrong += refused("host/python/cuedesk.py has another version than VERSION")
    written(tree.at("VERSION"), "1.0.99\n")
    return wrong + refused("CHANGELOG.md has no part '## 1.0.99'")


def a_library_is_released_and_compared(tree):
    """A library that was built before the gate began isn't taken."""
    with_a_library(tree)
    older(tree.at("host/build/libcuedesk.a"))
    tree.release()
    wrong = ["an old library is released"] if os.path.exists(tree.at("release/lib")) else []
    tree.run("release/gate", "begin")
    time.sleep(0.05)
    with_a_library(tree)
    tree.build()
    for words in (["release/gate", "passed"], ["release/make"]):
        ended = tree.run(*words)
        wrong += [f"{words}: {ended}"] if ended[0] else []
    names = [line.partition("  ")[2] for line in text_of(tree.at("release/MANIFEST")).splitlines() if "  " in line]
    wrong += [] if names == ["bin/cuedesk", "include/cuedesk.h", "lib/libcuedesk.a", "lib/libcuedesk.so.1"] else [f"{names}"]
    wrong += [] if text_of(tree.at("release/lib/libcuedesk.a")) == "libcuedesk.a\n" else ["the library isn't stripped"]
    wrong += compared(tree, 0, "to the byte: bin/cuedesk lib/libcuedesk.a lib/libcuedesk.so.1 include/cuedesk.h")
    tree.append("host/build/libcuedesk.so.1", "#")
    wrong += compared(tree, 1, "isn't the released lib/libcuedesk.so.1")
    tree.stand_in("ld", "#!/bin/sh\necho ld 2\n")
    ended = tree.run("release/check")
    return wrong + ([] if ended[0] == 0 and "lib/libcuedesk.so.1 isn't compared" in ended[1] else [f"{ended}"])


TESTS = [a_release_runs_at_once, no_release_builds, no_release_and_no_toolchain, a_planted_line_builds, a_planted_line_without_a_toolchain,
         added_and_removed_sources_build, what_is_no_source_may_change, a_stamp_is_stale_though_times_are_old, a_stamp_saves_the_checksums,
         a_young_source_is_not_stamped, a_planted_byte_is_not_run, a_manifest_without_its_lines, another_machine_builds,
         a_program_that_does_not_start, cuedesk_build_builds_always, a_built_program_is_built_again_for_a_change, a_failed_build_says_so,
         a_stamp_that_cannot_be_written, from_anywhere_by_any_name, the_same_bytes_pass, other_bytes_fail, a_planted_byte_fails,
         sources_that_moved_on, another_toolchain, the_manifest_says_what_is_there, only_what_the_gate_passed_is_released,
         a_library_is_released_and_compared]


def wrong_in(test):
    """What is wrong in a test; one that breaks off is wrong too."""
    with tempfile.TemporaryDirectory(prefix="cuedesk-release-") as folder:
        try:
            return test(Tree(os.path.realpath(folder)))
        except Exception as error:  # pylint: disable=broad-except
            return [f"it broke off: {type(error).__name__}: {error}"]


def main():
    parser = argparse.ArgumentParser()
    parser.add_argument("--only", default="")
    given = parser.parse_args()
    names = {test.__name__.replace("_", " "): test for test in TESTS if given.only in test.__name__.replace("_", " ")}
    passed = failed = 0
    with concurrent.futures.ThreadPoolExecutor(8) as pool:
        for name, wrong in zip(names, pool.map(wrong_in, names.values())):
            passed, failed = passed + (not wrong), failed + bool(wrong)
            if wrong:
                print(f"FAILED {name}: {'; '.join(wrong[:4])}", flush=True)
    print(f"{passed} passed, {failed} failed")
    return 1 if failed or not passed else 0


if __name__ == "__main__":
    sys.exit(main())
