"""What the program says of a show: whether it reads it, its cue list, its tracked levels. Nothing is worked out here.

Texts are held as Latin-1, so that each byte of a show is one character and goes back to the program as it was.
"""
import os
import re
import subprocess
import sys
from dataclasses import dataclass, field

TOP = os.path.dirname(os.path.dirname(os.path.abspath(__file__)))
LAUNCHER = os.path.join(TOP, "cuedesk")
SEPARATORS = re.compile("[ \t,;/<=>@]+")
LONGEST_LINE = 4096

# What each cause means, in the words of docs/FORMATS.md.
MEANINGS = {
    "LineTooLong": "the line has more than 4,096 bytes",
    "NoIdent": "a word of a show stands before IDENT, or IDENT isn't 3:0",
    "NotInRecord": "a word of a cue, group or submaster stands in none",
    "ShortList": "a token is missing, or a list has one token too few",
    "BadNumber": "a number is malformed",
    "OutOfRange": "a number is outside its range, or there is one cue too many",
    "NoEndData": "the show ends before ENDDATA",
    "NoCueAfter": "no cue is above this one",
    "NoCueBefore": "no cue is below this one",
    "PlaybackFull": "512 runs are live",
    "AbsentCue": "there is no such cue",
    "AbsentPart": "the cue has no such part",
    "AbsentChannel": "the show has no such channel",
    "AbsentMove": "the cue doesn't move this channel",
    "AbsentGroup": "there is no such group",
    "AbsentSub": "there is no such submaster",
    "AbsentDimmer": "the dimmer isn't patched",
    "BasePart": "part 1 can't be taken away",
    "CueLimit": "there are 4,000 cues",
    "TickLimit": "the last moment is reached",
    "NothingToUndo": "no show is kept to go back to",
    "NothingToRedo": "nothing was undone",
    "Memory": "out of memory",
}


class ViewError(Exception):
    """Something that no page can be made of: a file that can't be read, a program that isn't there."""


@dataclass
class Program:
    """The built program."""
    path: str

    def ask(self, words: list[str], text: str) -> tuple[int, str]:
        """The exit status and the output of one run over the text."""
        try:
            run = subprocess.run([self.path, *words], input=text.encode("latin-1"), stdout=subprocess.PIPE, stderr=subprocess.PIPE, check=False)
        except OSError as error:
            raise ViewError(f"the program {self.path} can't be run: {error.strerror}") from error
        return run.returncode, run.stdout.decode("latin-1")


def default_program() -> str:
    """The launcher, which is asked of an empty show; it builds the program first where that is needed."""
    try:
        asked = subprocess.run([LAUNCHER, "check"], stdin=subprocess.DEVNULL, stdout=subprocess.PIPE, check=False)
    except OSError as error:
        raise ViewError(f"./cuedesk can't be run: {error.strerror}") from error
    if asked.stdout != b"show NoEndData 1\n":
        raise ViewError("the program isn't built, and ./cuedesk couldn't build it")
    return LAUNCHER


@dataclass
class Line:
    """A line of a script: its number in its file, what it says, the program's replies to it."""
    number: int
    text: str
    replies: list[str] = field(default_factory=list)

    @property
    def words(self) -> list[str]:
        """Its tokens; words may be in either case."""
        return tokens(self.text)

    def accepted(self) -> bool:
        """Whether the program did what it says."""
        return self.replies[:1] == ["ok"]

    def wrong(self) -> bool:
        """Whether it was bad or refused."""
        return bool(self.replies) and self.replies[0].split(" ")[0] in ("bad", "refused")


@dataclass
class Sources:
    """A show text up to ENDDATA, and a script: that behind it, or one of another file."""
    name: str
    show: str
    script_name: str
    lines: list[Line]
    given: bool


@dataclass
class Cue:
    """A cue as `save` writes it. `moves` has the part in which each channel is moved, or 0, from channel 1 on."""
    number: str
    label: str = ""
    block: bool = False
    asserted: bool = False
    follow: str = ""
    link: str = ""
    parts: list[list[str]] = field(default_factory=list)
    moves: bytes = b""
    row: bytes = b""


def tokens(line: str) -> list[str]:
    """The tokens of a line, in lower case, up to the first `!`."""
    return [token for token in SEPARATORS.split(line.replace("\r", "").partition("!")[0].lower()) if token]


def shown(text: str) -> str:
    """A text to look at: as UTF-8 where it is that."""
    return text.encode("latin-1").decode("utf-8", "replace")


def name_of(path: str) -> str:
    """A file's name, as texts are held here."""
    return os.path.basename(path).encode("utf-8", "surrogateescape").decode("latin-1")


def percent(level: int) -> str:
    """A level as desks show it: per cent, FL for full, and nothing below 1 % but 0."""
    return "FL" if level == 255 else f"{min(99, max(1, (level * 200 + 255) // 510))} %" if level else "0"


def read_file(path: str) -> str:
    """The bytes of a file, or of standard input for `-`."""
    try:
        with open(0 if path == "-" else path, "rb") as file:
            return file.read().decode("latin-1")
    except OSError as error:
        raise ViewError(f"{path} can't be read: {error.strerror}") from error


def write_out(text: str) -> None:
    """Puts a text on standard output, as UTF-8 in any locale."""
    try:
        sys.stdout.buffer.write(text.encode("utf-8", "replace"))
        sys.stdout.buffer.flush()
    except OSError as error:
        # What is left of it isn't tried again at the end.
        os.dup2(os.open(os.devnull, os.O_WRONLY), sys.stdout.fileno())
        raise ViewError(f"the output can't be written: {error.strerror}") from error


def lines_of(text: str) -> list[str]:
    """The lines of a text; what follows the last LF is one where there is any."""
    lines = text.split("\n")
    return lines if lines[-1] else lines[:-1]


def ends_show(line: str) -> bool:
    """Whether a line is ENDDATA."""
    return "enddata" in line.replace("\r", "").lower() and tokens(line)[:1] == ["enddata"]


def sources(show_path: str, script_path: str | None) -> Sources:
    """The show and the script of the files named; a script of its own takes the place of the one behind ENDDATA."""
    lines = lines_of(read_file(show_path))
    end = next((i + 1 for i, line in enumerate(lines) if ends_show(line)), len(lines))
    behind = lines[end:] if script_path is None else lines_of(read_file(script_path))
    first = end + 1 if script_path is None else 1
    return Sources(name_of(show_path), "".join(line + "\n" for line in lines[:end]), name_of(script_path or show_path),
                   [Line(first + i, line) for i, line in enumerate(behind)], any(tokens(line) for line in behind))


def check(program: Program, source: Sources, states: list[str]) -> tuple[int, list[str]]:
    """The exit status of `check` and the words of its line."""
    status, text = program.ask(["check", *states], source.show)
    return status, text.split()


def cue_text(text: str) -> str:
    """The part of a canonical text that has the cues."""
    text = text.partition("\nENDDATA\n")[0] + "\n"
    place = text.find("\nCUE ")
    return text[place + 1:] if place >= 0 else ""


def cues_of(text: str, channels: int) -> list[Cue]:
    """The cues of a canonical text, up to its ENDDATA."""
    blocks = ("\n" + text.partition("\nENDDATA")[0]).split("\nCUE ")[1:]
    return [cue_of(block, channels) for block in blocks]


def cue_of(block: str, channels: int) -> Cue:
    """One cue of a canonical text: its number and words, and then its parts."""
    head, *parts = block.split("\nPART ")
    number, *lines = head.split("\n")
    said = dict(line.partition(" ")[::2] for line in lines)
    cue = Cue(number, said.get("TEXT", ""), "$$BLOCK" in said, "$$ASSERT" in said, said.get("FOLLOWON", ""), said.get("LINK", ""))
    moves = bytearray(channels)
    for part in parts:
        name, up, down, *rest = part.split("\n", 3)
        cue.parts.append([name, *up.split()[1:], *down.split()[1:]])
        for channel in "".join(rest).replace("CHAN ", "").replace("@H", " ").split()[0::2]:
            moves[int(channel) - 1] = int(name)
    cue.moves = bytes(moves)
    return cue


def cells_of(text: str, length: int) -> bytes:
    """The levels of `1=20 3=255`, from the first channel or slot on; those past the length are left out."""
    numbers = list(map(int, text.replace("=", " ").split()))
    places, values = numbers[0::2], numbers[1::2]
    if places and places[-1] == len(places) <= length:
        return bytes(values).ljust(length, b"\0")
    row = bytearray(length)
    for place, value in zip(places, values):
        if place <= length:
            row[place - 1] = value
    return bytes(row)


def with_rows(text: str, channels: int) -> list[Cue]:
    """The cues of a canonical text, with the tracked levels of the `row` lines that stand behind it."""
    cues = cues_of(text, channels)
    rows = [line.split(" ", 2) for line in text.partition("\nENDDATA\n")[2].split("\n") if line.startswith("row ")]
    for cue, (_, number, *cells) in zip(cues, rows, strict=True):
        if number != cue.number:
            raise ViewError(f"the program wrote the row of cue {number} where that of {cue.number} was asked for")
        cue.row = cells_of(cells[0] if cells else "", channels)
    return cues


def members_of(text: str) -> list[tuple[str, str, list[int]]]:
    """The groups and submasters of a canonical text: kind and number, label, channels."""
    sets: list[tuple[str, str, list[int]]] = []
    for line in text.partition("\nENDDATA\n")[0].partition("\nCUE ")[0].split("\n"):
        word, _, rest = line.partition(" ")
        if word in ("GROUP", "SUB"):
            sets.append(({"GROUP": "group ", "SUB": "submaster "}[word] + rest, "", []))
        elif word == "TEXT":
            sets[-1] = (sets[-1][0], rest, sets[-1][2])
        elif word == "CHAN":
            sets[-1][2].extend(int(pair.split("@")[0]) for pair in rest.split())
    return sets
