#!/usr/bin/env python3
"""Plays a show with its script, and writes each frame that changed.

    rehearsal.py FILE [--universes N]

The script is what stands in the file behind the line ENDDATA (docs/FORMATS.md). A line `tick k` goes by tick by tick. After each tick and
each other line a universe whose slots changed is written as a line `frame MOMENT UNIVERSE slot=value ..`, of the slots that aren't 0. A
line that is refused or bad is told on standard error, and the play goes on.
"""
import argparse
import os
import re
import sys

sys.path.insert(0, os.path.join(os.path.dirname(os.path.abspath(__file__)), "..", "python"))
import cuedesk  # noqa: E402


# What stands between words; how long a line may be, and how many ticks it may ask for.
SEPARATORS = re.compile(rb"[ \t,;/<=>@]+")
LONGEST_LINE = 4_096
MOST_TICKS = 100_000_000


def words_of(line: bytes) -> list[bytes]:
    """The words of a line up to its comment, in lower case."""
    return [word for word in SEPARATORS.split(line.split(b"!")[0].lower()) if word]


def script_of(text: bytes) -> list[bytes]:
    """The lines behind the line ENDDATA, which ends the show."""
    lines = text.replace(b"\r", b"").split(b"\n")
    ends = (at for at, line in enumerate(lines) if words_of(line)[:1] == [b"enddata"])
    return lines[next(ends, len(lines)) + 1:]


def ticks_in(line: bytes) -> int:
    """How many ticks the line asks for, or 0 where it is another line."""
    words = words_of(line) if len(line) <= LONGEST_LINE else []
    if words == [b"tick"]:
        return 1
    ticks = int(words[1]) if len(words) == 2 and words[0] == b"tick" and words[1].isdigit() else 0
    return ticks if ticks <= MOST_TICKS else 0


def write_changes(desk: cuedesk.Desk, universes: int) -> None:
    """A line for each universe whose slots are others than before."""
    for universe in range(1, universes + 1):
        if desk.changed(universe):
            slots = desk.frame(universe)
            lit = " ".join(f"{slot}={level}" for slot, level in enumerate(slots, 1) if level)
            print(f"frame {desk.state().moment} {universe} {lit}".rstrip())


def do(desk: cuedesk.Desk, line: bytes) -> None:
    """One line; where it is refused or bad, that is told."""
    try:
        desk.do(line)
    except (cuedesk.Refused, cuedesk.BadLine) as fault:
        print(fault, file=sys.stderr)


def play(desk: cuedesk.Desk, script: list[bytes], universes: int) -> None:
    """The lines of a script, up to `quit`. At the last moment the tick that no longer goes by is told as the desk refuses it."""
    for line in script:
        ticks = ticks_in(line)
        if not ticks:
            do(desk, line)
            write_changes(desk, universes)
        for _ in range(ticks):
            if not desk.tick():
                do(desk, line)
                break
            write_changes(desk, universes)
        if desk.ended:
            return


def main() -> None:
    """Plays the file; status 1 where it can't be read, or the show is refused."""
    parser = argparse.ArgumentParser()
    parser.add_argument("file")
    parser.add_argument("--universes", type=int, default=1)
    given = parser.parse_args()
    if not 1 <= given.universes <= cuedesk.UNIVERSES:
        parser.error(f"N is from 1 to {cuedesk.UNIVERSES}")
    try:
        with open(given.file, "rb") as file:
            text = file.read()
    except OSError as fault:
        sys.exit(f"{given.file}: {fault.strerror}")
    try:
        with cuedesk.Desk(text, undo=16) as desk:
            play(desk, script_of(text), given.universes)
    except cuedesk.ShowRefused as fault:
        sys.exit(str(fault))


if __name__ == "__main__":
    main()
