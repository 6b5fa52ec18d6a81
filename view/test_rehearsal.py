"""Random shows and scripts: at moments of each, the cue that runs, the outputs and the tracked levels are those that the program says."""
import os
import random

from asking import Asked
from page import cue_name
from rehearsal import Rehearsal, rehearse
from shows import Program

SHOWS = 40
LINES = ["go", "go", "back", "goto {k}", "settle", "tick {t}", "tick {t}", "tick {t}", "set {k} chan {c} at {l}", "set {k} chan {c} at {l} only", "delete {k}", "cue {k}.5",
         "follow {k} {f}", "follow {k} off", "time {k} up {f}", "block {k}", "assert {k}", "release {k} chan {c}", "unpart {k} 2", "fader 1 at 50", "master at 50", "frame",
         "patch 1 chan 2 at FL", "unpatch 1", "sheet {k}", "save", "nothing", ""]


def show_text(draw: random.Random, cues: int) -> list[str]:
    """A small show with delays, parts, follow-ons, block and asserted cues."""
    out = ["IDENT 3:0", "SET CHANNELS 6", "SUB 1", "CHAN 1@50"]
    for k in range(1, cues + 1):
        out += [f"CUE {k}", f"UP {draw.choice([0, .5, 1, 3])} {draw.choice([0, 0, .3, 1])}", f"DOWN {draw.choice([0, .4, 2])}"]
        out += [f"FOLLOWON {draw.choice([0, .1, .5, 2, 7])}"] * (draw.random() < 0.4) + ["$$BLOCK"] * (draw.random() < 0.2) + ["$$ASSERT"] * (draw.random() < 0.2)
        out += [f"CHAN {draw.randrange(1, 7)}@{draw.choice(['FL', '0', '50'])}" for _ in range(draw.randrange(3))]
        out += ["PART 2", f"UP {draw.choice([0, 2])}", "CHAN 2@70"] * (draw.random() < 0.3)
    return out + ["ENDDATA"]


def script_text(draw: random.Random, cues: int) -> list[str]:
    """A script of keys, ticks, edits and lines that can't be done."""
    return [draw.choice(LINES).format(k=draw.randrange(1, cues + 2), t=draw.randrange(1, 400), c=draw.randrange(1, 7), l=draw.choice(["FL", "0", "30"]), f=draw.choice([0, .2, 1, 3]))
            for _ in range(draw.randrange(3, 25))]


def lit(row: bytes) -> dict[int, int]:
    """The channels of a row that are up."""
    return {channel: level for channel, level in enumerate(row, 1) if level}


def wrong_at(rehearsal: Rehearsal, asked: Asked, place: int) -> list[str]:
    """What is wrong at a step, and in what is taken to stand still before it."""
    step, lines, wrong = rehearsal.steps[place], rehearsal.source.lines, []
    at = lines[step.line].number if step.line >= 0 else asked.first, step.time
    if asked.position(*at) != cue_name(step.running[0]):
        wrong.append(f"cue {asked.position(*at)} runs")
    if asked.outputs(*at) != lit(rehearsal.frames[place]):
        wrong.append(f"outputs {asked.outputs(*at)}")
    cues = rehearsal.shows[step.show]
    if cues and asked.rows(*at, [cue.number for cue in cues]) != {cue.number: lit(cue.row) for cue in cues}:
        wrong.append("tracked levels")
    if place and not step.command and step.time - rehearsal.steps[place - 1].time > 2 and asked.outputs(at[0], step.time - 2) != lit(rehearsal.frames[place - 1]):
        wrong.append("it doesn't stand still before")
    return wrong


def random_shows(program: str, folder: str) -> list[str]:
    """Some moments of each of many shows."""
    wrong, path = [], os.path.join(folder, "random.asc")
    for seed in range(SHOWS):
        draw = random.Random(seed)
        cues = draw.randrange(1, 8)
        with open(path, "w", encoding="utf-8") as file:
            file.write("\n".join(show_text(draw, cues) + script_text(draw, cues)) + "\n")
        rehearsal, asked = rehearse(Program(program), path, None), Asked(program, path)
        jumps = [i for i in range(1, len(rehearsal.steps)) if not rehearsal.steps[i].command and rehearsal.steps[i].time - rehearsal.steps[i - 1].time > 2]
        for place in {len(rehearsal.steps) - 1, *jumps[:3], *(draw.randrange(len(rehearsal.steps)) for _ in range(4))}:
            wrong += [f"show {seed} at step {place}: {each}" for each in wrong_at(rehearsal, asked, place)]
    return wrong


def cases() -> list[tuple[str, object]]:
    """What is tested, by name."""
    return [("rehearsal: random shows", random_shows)]
