#!/usr/bin/env python3
"""Does each command of README, GUIDE, FORMATS and HOSTS as it stands there, and compares what comes back with what the page says.

    pages.py [--program PATH] [--only TEXT] [--list]

What is done, by the form that it has on the page:

- a block of `console`: each command behind `$ `, with what comes back below it;
- an indented block of commands: what comes back stands beside them, in a column of its own;
- an indented block of script lines before a paragraph that begins with `answers`: the replies are the code in that sentence;
- two texts of FORMATS by the words before them (`TEXTS`);
- a command in a sentence or a table, which must end with status 0;
- the lines of C and of Python in HOSTS, over the hosts' library, where `crates/lx_host/out` has it.

The commands of a page are done in its order, in one folder that looks like the repository's top. What can't be done here is named, with
the reason (`LEFT_OUT`). Prints a line for each command that went wrong, and last 'N passed, M failed'.
"""
import argparse
import os
import re
import shutil
import subprocess
import sys
import tempfile
from dataclasses import dataclass
from typing import Iterator, Optional

import crews

TOP = os.path.dirname(os.path.dirname(os.path.abspath(__file__)))
PAGES = ("README.md", "docs/GUIDE.md", "docs/FORMATS.md", "docs/HOSTS.md")
TIME_LIMIT = 120

# What isn't done, and why.
LEFT_OUT = [(re.compile(pattern), why) for pattern, why in [
    (r"^\.ci/run", "the gate, of which this is a part"),
    (r"install|^cc show\.c", "installs"),
    (r"^make -C host", "builds the library, as host/test.py does"),
    (r"^bridges/", "plays live, to a rig or in a terminal"),
    (r"^examples/live\.sh", "plays live, in a terminal"),
    (r"^view/(test|pictures)\.py", "a test of its own"),
]]
# A command with a word in capitals isn't one yet: somebody's own words take their place.
FORM = re.compile(r"(?<!-)\b[A-Z]+\b")

# A show of three cues, of which the first moves channel 1 to full: that of the replies in FORMATS.
THREE_CUES = "IDENT 3:0\nCUE 1\nCHAN 1@FL\nCUE 2\nCUE 3\nENDDATA\n"
# A show for the lines of HOSTS, which end at `show.asc`.
SHORT_SHOW = "IDENT 3:0\nPATCH 1 1<1@FL\nCUE 1\nUP 0.1\nCHAN 1@H80\nENDDATA\n"
# Texts of FORMATS: the words before each, what is asked of the program with it, and what comes back.
TEXTS = [("A small one:", "{text}", "check", "show cues 2 channels 24 skipped 0 first 0\n"),
         ("cue 2 is written as", "{assert.asc}assert 2\nsave\n", "render", "{text}")]
ANSWERS = re.compile(r"answers ((?:`[^`]*`(?:, | and )?)+)")

C_BEFORE = """#include <stdio.h>
#include <stdlib.h>
#include <string.h>
static const uint8_t text[] = "%s";
static const size_t text_length = sizeof text - 1;
static int fault(uint32_t fault, uint32_t line) { printf("fault %%u in line %%u\\n", (unsigned)fault, (unsigned)line); return 1; }
static void send_and_wait_20_ms(const uint8_t *slots) { static int sent; if (++sent == 5) { printf("%%d\\n", slots[0]); exit(0); } }
int main(void) {
"""
PYTHON_BEFORE = "def send(universe, slots):\n    assert universe == 1 and len(slots) == 512\n"
# What the lines of HOSTS write: the slot when the fade is over, and the row.
WRITTEN = {"c": "128\n", "python": "['row 1 1=128']\n"}


@dataclass
class Command:
    """What is typed, or given to the program or a compiler; and what must come back, or None where only the status is known."""
    page: str
    line: int
    kind: str
    text: str
    back: Optional[str]

    def name(self) -> str:
        """How it is called in what is printed."""
        return f"{self.page}:{self.line}: {self.text.splitlines()[0] if self.text else self.kind}"


# ---------------------------------------------------------------------------------------------------------------------
# The commands of a page.


def console(page: str, line: int, block: list[str]) -> Iterator[Command]:
    """Commands behind `$ `, with the lines that they are given up to END, and what comes back."""
    command, given = None, False
    for number, text in enumerate(block, line):
        if given and command:
            command.text += text + "\n"
            given = text != "END"
        elif text.startswith("$ "):
            if command:
                yield command
            command = Command(page, number, "typed", text[2:] + "\n", "")
            given = text.endswith("<< 'END'")
        elif command:
            command.back = (command.back or "") + text + "\n"
    if command:
        yield command


def beside(page: str, line: int, block: list[str]) -> Iterator[Command]:
    """Commands with what comes back in a column beside them."""
    command = None
    for number, text in enumerate(block, line):
        written = re.match(r"(\S.*?)(?: {2,}(.*))?$", text)
        if written:
            if command:
                yield command
            back = written.group(2)
            command = Command(page, number, "typed", written.group(1) + "\n", "" if back is None else back + "\n")
        elif command:
            command.back = (command.back or "") + text.strip() + "\n"
    if command:
        yield command


def script(page: str, line: int, block: list[str], before: str, behind: str) -> Iterator[Command]:
    """Script lines whose replies stand in the sentence behind them, and the texts that are known by the words before them."""
    text = "\n".join(block) + "\n"
    answers = ANSWERS.match(behind)
    if answers:
        yield Command(page, line, "render", THREE_CUES + text, "".join(reply + "\n" for reply in re.findall("`([^`]*)`", answers.group(1))))
    for words, given, job, back in TEXTS:
        if before.endswith(words):
            yield Command(page, line, job, given.replace("{text}", text), back.replace("{text}", text))


def is_command(text: str) -> bool:
    """Whether this is typed in a shell."""
    first = text.split()[0] if text.split() else ""
    path = os.path.join(TOP, first)
    return first in ("make", "cc", "printf", "tail", "./cuedesk") or "/" in first and os.path.isfile(path) and os.access(path, os.X_OK)


def indented(page: str, line: int, block: list[str], before: str, behind: str) -> Iterator[Command]:
    """The commands of an indented block, if it has any."""
    if is_command(block[0]):
        yield from beside(page, line, block)
    else:
        yield from script(page, line, block, before, behind)


def in_a_sentence(page: str, number: int, line: str) -> Iterator[Command]:
    """Commands in the code of a sentence or a cell."""
    for code in re.findall(r"`([^`]+)`", line):
        if " " in code and is_command(code) or code in (".ci/run", "examples/live.sh"):
            yield Command(page, number, "typed", code + "\n", None)


def commands(page: str, text: str) -> list[Command]:
    """All commands of a page, in its order."""
    found: list[Command] = []
    lines, at = text.splitlines() + [""], 0
    before = ""
    while at < len(lines):
        fence = re.match(r"```(\w*)$", lines[at])
        if fence:
            end = lines.index("```", at + 1)
            block = lines[at + 1:end]
            if fence.group(1) == "console":
                found += console(page, at + 2, block)
            elif fence.group(1) in WRITTEN:
                found.append(Command(page, at + 2, fence.group(1), "\n".join(block) + "\n", WRITTEN[fence.group(1)]))
            at = end + 1
        elif lines[at].startswith("    "):
            end = next(k for k in range(at, len(lines)) if not lines[k].startswith("    "))
            behind = next((line for line in lines[end:] if line), "")
            found += indented(page, at + 1, [line[4:] for line in lines[at:end]], before, behind)
            at = end
        else:
            found += in_a_sentence(page, at + 1, lines[at])
            before = lines[at] or before
            at += 1
    return found


# ---------------------------------------------------------------------------------------------------------------------
# What comes back.


class Place:
    """A folder that looks like the repository's top, with the program in it; and the hosts' library, where there is one."""

    def __init__(self, program: str, folder: str, library: Optional[str]) -> None:
        self.program, self.folder, self.library = program, folder, library
        os.makedirs(os.path.join(folder, "crates/cuedesk/out"))
        os.symlink(os.path.join(TOP, "examples"), os.path.join(folder, "examples"))
        # The views look for the program beside the folder in which they really are.
        shutil.copytree(os.path.join(TOP, "view"), os.path.join(folder, "view"), ignore=shutil.ignore_patterns("__pycache__"))
        for name in ("cuedesk", "crates/cuedesk/out/cuedesk"):
            os.symlink(program, os.path.join(folder, name))
        self.write("show.asc", SHORT_SHOW)

    def write(self, name: str, text: str) -> None:
        """A file of the folder."""
        with open(os.path.join(self.folder, name), "w", encoding="utf-8") as file:
            file.write(text)

    def read(self, name: str) -> bytes:
        """What is in a file of the folder."""
        with open(os.path.join(self.folder, name), "rb") as file:
            return file.read()

    def run(self, words: list[str], given: str = "", **settings: str) -> tuple[int, str]:
        """The status, and all that is written."""
        ended = subprocess.run(words, cwd=self.folder, input=given.encode(), stdout=subprocess.PIPE, stderr=subprocess.STDOUT, timeout=TIME_LIMIT,
                               env=dict(os.environ, **settings), check=False)
        return ended.returncode, ended.stdout.decode()

    def show_of(self, name: str) -> str:
        """The show of a file, without its script."""
        return self.read(name).decode().partition("ENDDATA\n")[0] + "ENDDATA\n"


def differs(command: Command, status: int, came: str) -> list[str]:
    """What came back beside what the page says."""
    if command.back is None:
        return [f"it ends with status {status}: {came[-200:]!r}"] if status else []
    return [f"it gives {came!r} for {command.back!r}"] if came != command.back else []


def typed(place: Place, command: Command) -> list[str]:
    """What is wrong with a command that is typed. Of two operators the order is free: the page's is one, and the program's may be another."""
    status, came = place.run(["bash", "-c", command.text])
    crew = re.match(r"\./cuedesk crew ([2-4]) < (\S+)$", command.text.strip())
    if not crew:
        return differs(command, status, came)
    scripts = [place.read(f"operator-{k}.txt") for k in range(1, int(crew.group(1)) + 1)]
    return [f"{who}: {what}" for who, text in (("the page", command.back or ""), ("the program", came))
            for what in crews.wrong_text(text.encode(), scripts, place.read(crew.group(2)))]


def asked(place: Place, command: Command) -> list[str]:
    """What is wrong with the answer to a show and its script. A text that is part of a saved show must stand there."""
    name = re.match(r"\{([\w.]+)\}", command.text)
    given = place.show_of(name.group(1)) + command.text[name.end():] if name else command.text
    status, came = place.run([place.program, command.kind], given)
    if command.text.endswith("save\n"):
        return [] if command.back and command.back in came else [f"it gives {came!r}, without {command.back!r}"]
    return differs(command, status, came)


def in_c(place: Place, command: Command) -> list[str]:
    """What is wrong with the lines of C."""
    lines = command.text.splitlines(keepends=True)
    first = "".join(line for line in lines if line.startswith("#include"))
    rest = "".join(line for line in lines if not line.startswith("#include"))
    show = SHORT_SHOW.replace("\n", "\\n")
    place.write("lines.c", first + C_BEFORE % show + rest + "return 0;\n}\n")
    build = os.path.dirname(str(place.library))
    status, came = place.run(["cc", "-std=c99", "-Wall", "-I", os.path.join(TOP, "host"), "-o", "lines", "lines.c", os.path.join(build, "libcuedesk.a")])
    return [came] if status else differs(command, *place.run(["./lines"]))


def in_python(place: Place, command: Command) -> list[str]:
    """What is wrong with the lines of Python."""
    place.write("lines.py", PYTHON_BEFORE + command.text)
    return differs(command, *place.run([sys.executable, "lines.py"], PYTHONPATH=os.path.join(TOP, "host/python"), CUEDESK_LIBRARY=str(place.library)))


def wrong(place: Place, command: Command) -> list[str]:
    """What is wrong with a command; one that breaks off is wrong too."""
    done = {"typed": typed, "c": in_c, "python": in_python}.get(command.kind, asked)
    try:
        return done(place, command)
    except (OSError, subprocess.SubprocessError, UnicodeDecodeError) as error:
        return [f"it broke off: {error}"]


def why_left_out(command: Command, library: Optional[str]) -> Optional[str]:
    """Why a command isn't done, if it isn't."""
    if command.kind in WRITTEN:
        return None if library else "needs crates/lx_host/out/liblx_host.a, which `make -C host` makes"
    if command.kind != "typed" or command.back:
        return None
    why = next((why for pattern, why in LEFT_OUT if pattern.search(command.text)), None)
    return why or ("a form, with words to be put in" if command.back is None and FORM.search(command.text) else None)


def library_in(folder: str) -> Optional[str]:
    """The hosts' library, made here of what is compiled already."""
    if not os.path.exists(os.path.join(TOP, "crates/lx_host/out/liblx_host.a")):
        return None
    subprocess.run(["make", "-s", "-C", os.path.join(TOP, "host"), "all", f"BUILD={folder}"], check=True)
    return os.path.join(folder, "libcuedesk.so.1")


def done(program: str, only: str) -> tuple[int, int]:
    """How many commands of all pages passed, and how many failed."""
    passed = failed = 0
    with tempfile.TemporaryDirectory(prefix="pages-library-") as build:
        library = library_in(build)
        for page in PAGES:
            with open(os.path.join(TOP, page), encoding="utf-8") as file, tempfile.TemporaryDirectory(prefix="pages-") as folder:
                place = Place(program, folder, library)
                for command in commands(page, file.read()):
                    if only not in command.name():
                        continue
                    why = why_left_out(command, library)
                    if why:
                        print(f"left out: {command.name()}: {why}")
                        continue
                    found = wrong(place, command)
                    passed, failed = passed + (not found), failed + bool(found)
                    for what in found:
                        print(f"FAILED {command.name()}: {what}", flush=True)
    return passed, failed


def main() -> int:
    """Does the commands of all pages; 1 where one fails."""
    parser = argparse.ArgumentParser(description=(__doc__ or "").splitlines()[0])
    parser.add_argument("--program", default=os.path.join(TOP, "crates/cuedesk/out/cuedesk"))
    parser.add_argument("--only", default="", metavar="TEXT", help="those in whose page, line and command this text stands")
    parser.add_argument("--list", action="store_true", help="says what would be done, and what should come back")
    given = parser.parse_args()
    if given.list:
        for page in PAGES:
            with open(os.path.join(TOP, page), encoding="utf-8") as file:
                for command in commands(page, file.read()):
                    print(f"{command.name()}\n    {command.kind}: {command.back!r}")
        return 0
    passed, failed = done(os.path.abspath(given.program), given.only)
    print(f"{passed} passed, {failed} failed")
    return 1 if failed or not passed else 0


if __name__ == "__main__":
    sys.exit(main())
