"""What a rehearsal gave: the replies to each line of a script, the cue list as it was at each moment, and each channel's output over time.

All levels are the program's: outputs from `frame` lines of `render`, tracked levels from `sheet`, moves and times from `save`.
"""
import re
from dataclasses import dataclass, field

from playback import Playback, Structure, structure_of
from shows import LONGEST_LINE, Cue, Line, Program, Sources, ViewError, cells_of, check, cue_text, members_of, shown, sources, with_rows

KEYS = ("go", "back", "goto", "settle")
NOT_EDITS = (*KEYS, "fader", "master", "tick", "frame", "sheet", "save")
# What is kept at most: cue lists, the levels in them, outputs, moments.
CUE_LISTS, CELLS, OUTPUTS, MOMENTS = 400, 16_000_000, 8_000_000, 40_000
SLOTS = 512
# A dimmer that no frame asked for here shows, while every channel has a dimmer of its own number.
HIDDEN_PATCH = "patch 16384 chan 1 at FL"


@dataclass
class Step:
    """What is played between two frames: a command, or ticks where it is empty; the moment after it, the line, the show, and the cues that run."""
    command: str
    line: int
    time: int
    show: int
    running: tuple[int, ...]
    follow: bool = False
    last: bool = True

    def plain(self) -> bool:
        """Whether it is a tick like any other, which may be left out."""
        return not self.command and not self.follow and not self.last


@dataclass
class Rehearsal:
    """All that a view shows. `shows` has the cue lists, of which each step names one; `frames` has the outputs after each step."""
    source: Sources
    words: list[str]
    fault: tuple[str, int] | None = None
    skipped: tuple[int, int] = (0, 0)
    channels: int = 0
    shows: list[list[Cue]] = field(default_factory=list)
    members: list[tuple[str, str, list[int]]] = field(default_factory=list)
    steps: list[Step] = field(default_factory=list)
    frames: list[bytes] = field(default_factory=list)
    notes: list[str] = field(default_factory=list)

    @property
    def job(self) -> str:
        """`render`, `undo` or `two`."""
        return self.words[0]


def rehearse(program: Program, show_path: str, script_path: str | None, job: str = "render", states: bool = False) -> Rehearsal:
    """Plays a show with its script, or tells its fault."""
    source, words = sources(show_path, script_path), ["states"] if states else []
    status, said = check(program, source, words)
    rehearsal = Rehearsal(source, [job, *words])
    if status == 1:
        rehearsal.fault = said[1], int(said[2])
        return rehearsal
    if status:
        raise ViewError(f"the program ended with status {status} on {shown(source.name)}")
    rehearsal.channels, rehearsal.skipped = int(said[4]), (int(said[6]), int(said[8]))
    answer(program, rehearsal)
    shows = structures(program, rehearsal)
    walk(rehearsal, shows, keep_shows(program, rehearsal, shows))
    keep_frames(program, rehearsal)
    return rehearsal


def answer(program: Program, rehearsal: Rehearsal) -> None:
    """Puts the program's replies beside the lines of the script; what stands behind `quit` is cut off."""
    source = rehearsal.source
    status, text = program.ask(rehearsal.words, source.show + "".join(line.text + "\n" for line in source.lines))
    if status:
        raise ViewError(f"the program ended with status {status} on the script {shown(source.script_name)}")
    replies = iter(text.split("\n"))
    for i, line in enumerate(source.lines):
        long = len(line.text.replace("\r", "")) > LONGEST_LINE
        if line.words == ["quit"] and not long:
            del source.lines[i:]
            return
        if line.words or long:
            line.replies = [next(replies)]
        if line.replies[:1] == ["IDENT 3:0"]:
            line.replies += iter(replies.__next__, "ENDDATA")


def split_list(words: list[str], job: str) -> tuple[int, list[str]]:
    """Which cue list a line is for, 0 or 1, and its words there."""
    return (1, words[1:]) if job == "two" and words[:1] == ["2"] else (0, words)


def is_edit(line: Line, job: str) -> bool:
    """Whether the line changed the show."""
    words = split_list(line.words, job)[1]
    return line.accepted() and words[0] not in NOT_EDITS


def saved(program: Program, rehearsal: Rehearsal, show: str, questions: list[str], plain: bool = False) -> list[str]:
    """What `save` writes, and what comes behind it, at the opening and after each edit, where the questions say so. With `plain` no cue has moves."""
    edits, script = 0, [questions[0]]
    for line in rehearsal.source.lines:
        if line.accepted():
            words = line.words
            # A move that isn't there can't be released; what counts for `undo` is that there was an edit.
            script.append(f"cue {words[1]}\n" if plain and rehearsal.job == "undo" and words[0] == "release" else line.text + "\n")
            if is_edit(line, rehearsal.job):
                edits += 1
                script.append(questions[edits])
    return program.ask(rehearsal.words, show + "".join(script))[1].split("IDENT 3:0\n")[1:]


def edits_of(rehearsal: Rehearsal) -> int:
    """How many lines changed the show."""
    return sum(is_edit(line, rehearsal.job) for line in rehearsal.source.lines)


def structures(program: Program, rehearsal: Rehearsal) -> list[list[Structure]]:
    """The cues' numbers and times of each list, at the opening and after each edit."""
    text = program.ask(["render", *rehearsal.words[1:]], rehearsal.source.show + "save\n")[1]
    bare = re.sub("(?m)^CHAN .*\n", "", text)
    question = "save\n2 save\n" if rehearsal.job == "two" else "save\n"
    texts = saved(program, rehearsal, bare, [question] * (edits_of(rehearsal) + 1), plain=True)
    known = {text: structure_of(text) for text in set(texts)}
    lists = question.count("save")
    return [[known[text] for text in texts[i:i + lists]] for i in range(0, len(texts), lists)]


def question_of(shows: list[Structure]) -> str:
    """The lines that ask for a show and the row of each cue in it."""
    return "".join(f"{mark}save\n" + "".join(f"{mark}sheet {show.cues[key][0]}\n" for key in show.keys) for mark, show in zip(("", "2 "), shows))


def keep_shows(program: Program, rehearsal: Rehearsal, shows: list[list[Structure]]) -> list[int]:
    """Keeps the cue list as it is at the opening and after each edit, or, where that is too much, as the script leaves it. The place of each."""
    edits = len(shows) - 1
    cells = sum(len(each.keys) for lists in shows for each in lists) * rehearsal.channels
    each = not edits or (edits < CUE_LISTS and cells <= CELLS)
    if not each:
        rehearsal.notes.append(f"The cue list is shown as the script leaves it: it is too great to be kept after each of {edits:,} edits.")
    questions = [question_of(lists) if each or i == edits else "" for i, lists in enumerate(shows)]
    texts = saved(program, rehearsal, rehearsal.source.show, questions)
    lists = len(shows[0])
    rehearsal.members = members_of(texts[-lists])
    known: dict[str, int] = {}
    places = []
    for i in range(0, len(texts), lists):
        name = "".join(map(cue_text, texts[i:i + lists]))
        if name not in known:
            rehearsal.shows.append([cue for text in texts[i:i + lists] for cue in with_rows(text, rehearsal.channels)])
        places.append(known.setdefault(name, len(known)))
    return places if each else places * (edits + 1)


@dataclass
class Walk:
    """The moment and the lists' playbacks while a script is walked along."""
    rehearsal: Rehearsal
    shows: list[list[Structure]]
    places: list[int]
    now: int = 0
    edits: int = 0
    lists: list[Playback] = field(default_factory=list)

    def note(self, command: str, line: int, follow: bool = False, last: bool = True) -> None:
        """A step to here."""
        running = tuple(each.position() for each in self.lists)
        self.rehearsal.steps.append(Step(command, line, self.now, self.places[self.edits], running, follow, last))

    def do(self, index: int, line: Line) -> None:
        """A line that the program accepted."""
        which, words = split_list(line.words, self.rehearsal.job)
        if words[0] == "tick":
            self.ticks(index, int(words[1]) if len(words) > 1 else 1)
            return
        if words[0] in KEYS:
            self.lists[which].press(words, self.now, self.shows[self.edits][which])
        elif words[0] not in NOT_EDITS:
            self.edits += 1
        self.note(HIDDEN_PATCH if words[0] in ("patch", "unpatch") else line.text, index)

    def ticks(self, index: int, left: int) -> None:
        """Ticks, of which those at which nothing can change are one step."""
        while left:
            step = self.quiet(left)
            self.now, left = self.now + 2 * step, left - step
            fired = [each.tick(self.now, shows) for each, shows in zip(self.lists, self.shows[self.edits])]
            self.note("", index, any(fired), not left or step > 1)

    def quiet(self, left: int) -> int:
        """How many ticks go by up to the next at which something can change."""
        if any(each.busy(self.now) for each in self.lists):
            return 1
        due = [each.due for each in self.lists if each.due is not None]
        return max(1, min([left] + [-(-(moment - self.now) // 2) for moment in due]))


def walk(rehearsal: Rehearsal, shows: list[list[Structure]], places: list[int]) -> None:
    """Lays out the steps of the script."""
    along = Walk(rehearsal, shows, places, lists=[Playback() for _ in shows[0]])
    along.note("", -1)
    for index, line in enumerate(rehearsal.source.lines):
        if line.accepted():
            along.do(index, line)
        elif line.replies[:1] and line.replies[0].startswith("refused TickLimit"):
            along.ticks(index, (200_000_000 - along.now) // 2)
    thin(rehearsal)


def thin(rehearsal: Rehearsal) -> None:
    """Leaves ticks out where there are too many moments, evenly."""
    steps = rehearsal.steps
    room = min(MOMENTS, OUTPUTS // max(1, len(used_channels(rehearsal))))
    plain = [i for i, step in enumerate(steps) if step.plain()]
    if len(steps) <= room:
        return
    stride = -(-len(plain) // max(1, room - (len(steps) - len(plain))))
    out = set(plain) - set(plain[::stride])
    rehearsal.notes.append(f"Of {len(steps):,} moments {len(steps) - len(out):,} are kept: one in {stride} of those at which a fade only goes on.")
    rehearsal.steps = [step for i, step in enumerate(steps) if i not in out]


def keep_frames(program: Program, rehearsal: Rehearsal) -> None:
    """Each channel's output after each step: the frames of the show with channel c alone on dimmer c, in full."""
    universes = range(1, -(-rehearsal.channels // SLOTS) + 1)
    show = rehearsal.source.show.rstrip("\n").rpartition("\n")[0] + "\n"
    show += "".join(f"PATCH 1 {c}<{c}@FL\n" for c in range(1, rehearsal.channels + 1)) + "ENDDATA\n"
    ask, script, before = "".join(f"frame {u}\n" for u in universes), [], 0
    for step in rehearsal.steps:
        script.append(step.command + "\n" if step.command else f"tick {(step.time - before) // 2}\n" if step.time > before else "")
        script.append(ask)
        before = step.time
    replies = [line for line in program.ask(rehearsal.words, show + "".join(script))[1].split("\n") if line.startswith("frame ")]
    known: dict[str, bytes] = {}
    for i, step in enumerate(rehearsal.steps):
        parts = [slots_of(line, step.time, known) for line in replies[i * len(universes):(i + 1) * len(universes)]]
        rehearsal.frames.append(b"".join(parts)[:rehearsal.channels])


def slots_of(line: str, time: int, known: dict[str, bytes]) -> bytes:
    """The slots of a frame line, which is of the moment that the step says."""
    _, moment, _, *cells = line.split(" ", 3)
    if int(moment) != time:
        raise ViewError(f"the program's moment is {moment} where {time} was expected")
    text = cells[0] if cells else ""
    if text not in known:
        known.clear() if len(known) > 64 else None
        known[text] = cells_of(text, SLOTS)
    return known[text]


def used_channels(rehearsal: Rehearsal) -> list[int]:
    """The channels that were ever up, that a cue moves, or that stand in a group or submaster."""
    length, seen = rehearsal.channels, 0
    rows = [row for cues in rehearsal.shows for cue in cues for row in (cue.row, cue.moves)]
    for row in rows + rehearsal.frames:
        seen |= int.from_bytes(row, "little")
    named = {channel for _, _, channels in rehearsal.members for channel in channels}
    return [i + 1 for i, value in enumerate(seen.to_bytes(length, "little")) if value or i + 1 in named]
