#!/usr/bin/env python3
"""Makes a page of a rehearsal: the cue list with its tracked levels, and the time line of a script, to step through and to play.

    view/page.py SHOW.asc [SCRIPT] > rehearsal.html

The script is what stands behind ENDDATA, or the file SCRIPT (`-` is standard input). The page needs no network. A show with a fault
gets a page that names it, and the status is 1.
"""
import argparse
import base64
import gzip
import html
import json
import os
import sys
from operator import itemgetter
from typing import Iterable

from rehearsal import Rehearsal, Step, rehearse, split_list, used_channels
from shows import LONGEST_LINE, MEANINGS, Cue, Line, Program, ViewError, default_program, lines_of, shown, write_out

HERE = os.path.dirname(os.path.abspath(__file__))
# How many bytes of a reply are kept beside its line.
REPLY = 300


def packed(rows: Iterable[bytes]) -> str:
    """Rows of one length, each as its difference from the one before, compressed, in base 64."""
    out, before = [], 0
    for row in rows:
        number = int.from_bytes(row, "little")
        out.append((number ^ before).to_bytes(len(row), "little"))
        before = number
    return base64.b64encode(gzip.compress(b"".join(out), 6, mtime=0)).decode()


def cue_fields(cue: Cue) -> list[object]:
    """A cue for the page: number, label, block, assert, follow-on, link, parts."""
    return [cue.number, shown(cue.label), int(cue.block), int(cue.asserted), cue.follow, cue.link, cue.parts]


def cue_lists(rehearsal: Rehearsal, pick: "itemgetter | None") -> dict[str, object]:
    """The cue lists over pools of distinct cues and rows."""
    cues: dict[str, int] = {}
    rows: dict[tuple[bytes, bytes], int] = {}
    lists = []
    for show in rehearsal.shows:
        lists.append([[cues.setdefault(json.dumps(cue_fields(cue)), len(cues)), rows.setdefault((cue.row, cue.moves), len(rows))] for cue in show])
    return {"cues": [json.loads(cue) for cue in cues], "shows": lists,
            "rows": packed(taken(row, pick) for row, _ in rows), "moves": packed(taken(moves, pick) for _, moves in rows)}


def taken(row: bytes, pick: "itemgetter | None") -> bytes:
    """A row's values at the channels that are shown."""
    return row if pick is None else bytes(pick(row))


def picker(channels: list[int], length: int) -> "itemgetter | None":
    """What takes the channels that are shown out of a row of all; none where these are all."""
    if len(channels) == length:
        return None
    return itemgetter(*(c - 1 for c in channels)) if len(channels) > 1 else itemgetter(slice(channels[0] - 1, channels[0]) if channels else slice(0, 0))


def kind_of(line: Line, job: str) -> str:
    """What a line is: a key, a fader, an edit, a question, ticks, wrong, or nothing."""
    words = split_list(line.words, job)[1]
    if line.wrong():
        return "wrong"
    if not line.replies:
        return ""
    kinds = {"fader": "fader", "master": "fader", "tick": "tick", "frame": "shown", "sheet": "shown", "save": "shown"}
    return "key" if words[0] in ("go", "back", "goto", "settle") else kinds.get(words[0], "edit")


def cue_name(key: int) -> str:
    """A cue number as it is written."""
    return f"{key / 1000:.3f}".rstrip("0").rstrip(".")


def mark_of(line: Line, step: Step, job: str) -> str:
    """The name of a line in the time line; a key is followed by its cue."""
    which, words = split_list(line.words, job)
    name = shown(line.text).split("!")[0].strip() if words[:1] != ["label"] else shown(line.text).strip()
    return f"{name} → {cue_name(step.running[which])}" if line.accepted() and words[0] in ("go", "back") else name


def marks(rehearsal: Rehearsal) -> list[list[object]]:
    """What the time line names: the moment's index, the kind and the text of each key, fader, edit, follow-on and wrong line."""
    found, reached = [], places(rehearsal)
    for i, line in enumerate(rehearsal.source.lines):
        kind = kind_of(line, rehearsal.job)
        if kind in ("key", "fader", "edit", "wrong"):
            found.append([reached[i], kind, mark_of(line, rehearsal.steps[reached[i]], rehearsal.job)])
    for i, step in enumerate(rehearsal.steps):
        if step.follow:
            which = next(k for k, cue in enumerate(step.running) if cue != rehearsal.steps[i - 1].running[k])
            found.append([i, "follow", f"follow → {cue_name(step.running[which])}"])
    return sorted(found, key=lambda mark: mark[0])


def places(rehearsal: Rehearsal) -> list[int]:
    """The index of the moment that is reached after each line."""
    last: dict[int, int] = {step.line: i for i, step in enumerate(rehearsal.steps)}
    found, at = [], 0
    for i in range(len(rehearsal.source.lines)):
        at = last.get(i, at)
        found.append(at)
    return found


def script_lines(rehearsal: Rehearsal) -> list[list[object]]:
    """Each line: number, text, reply, kind, moment; a wrong one with what its cause means."""
    rows = []
    for line, place in zip(rehearsal.source.lines, places(rehearsal)):
        reply = "\n".join(line.replies)
        words = reply.split(" ")
        meaning = MEANINGS.get(words[1], "") if words[0] == "refused" else why_bad(line) if reply == "bad" else ""
        rows.append([line.number, shown(line.text)[:REPLY], reply[:REPLY] + (" …" if len(reply) > REPLY else ""), kind_of(line, rehearsal.job), place, meaning])
    return rows


def why_bad(line: Line) -> str:
    """What can be said of a bad line."""
    return "the line is longer than 4,096 bytes" if len(line.text) > LONGEST_LINE else "the line isn't one that the program knows: an unknown word, or a token too many, too few or malformed"


def channel_sets(rehearsal: Rehearsal, channels: list[int]) -> list[list[object]]:
    """The sets of channels to choose from: the show's groups and submasters, and hundreds where there are many."""
    place = {channel: i for i, channel in enumerate(channels)}
    sets = [[f"{name} {shown(label)}".strip(), [place[c] for c in members]] for name, label, members in rehearsal.members if members]
    if len(channels) > 100:
        hundreds = sorted({(c - 1) // 100 for c in channels})
        sets += [[f"channels {h * 100 + 1} to {h * 100 + 100}", [place[c] for c in channels if (c - 1) // 100 == h]] for h in hundreds]
    return sets


def notes(rehearsal: Rehearsal, channels: list[int]) -> list[str]:
    """What the page left out, and what is worth knowing."""
    source, out = rehearsal.source, []
    if not source.given:
        out.append("There is no script: nothing is played, and the cue list stands as it is at the opening.")
    if not rehearsal.shows[0]:
        out.append("The show has no cue.")
    if not channels:
        out.append("No channel is ever up, moved by a cue or in a group.")
    elif len(channels) < rehearsal.channels:
        out.append(f"{rehearsal.channels - len(channels):,} of {rehearsal.channels:,} channels are left out: they are never up, no cue moves them, and they stand in no group or submaster.")
    if rehearsal.skipped[0]:
        count, first = rehearsal.skipped
        text = shown(lines_of(source.show)[first - 1]).strip()
        out.append(f"{count:,} {'line' if count == 1 else 'lines'} of the show {'was' if count == 1 else 'were'} skipped, the first of them line {first}: {text[:80]}")
    return out + rehearsal.notes


def page_data(rehearsal: Rehearsal) -> dict[str, object]:
    """All that the page draws."""
    channels = used_channels(rehearsal)
    pick = picker(channels, rehearsal.channels)
    steps, source = rehearsal.steps, rehearsal.source
    names: dict[str, int] = {}
    running = [names.setdefault(" ".join(cue_name(key) for key in step.running), len(names)) for step in steps]
    return {"title": shown(source.name), "script": shown(source.script_name), "job": rehearsal.job, "given": source.given, "channels": channels, "sets": channel_sets(rehearsal, channels),
            "notes": notes(rehearsal, channels), "times": [step.time for step in steps], "show": [step.show for step in steps],
            "running": running, "names": [name.split(" ") for name in names], "lineOf": [step.line for step in steps], "lines": script_lines(rehearsal), "marks": marks(rehearsal),
            "frames": packed(taken(frame, pick) for frame in rehearsal.frames), **cue_lists(rehearsal, pick)}


def file_text(name: str) -> str:
    """A part of the page that stands beside this program."""
    with open(os.path.join(HERE, name), encoding="utf-8") as file:
        return file.read()


def whole_page(title: str, body: str, script: str = "") -> str:
    """A page with its styles in it."""
    return (f'<!doctype html>\n<html lang="en"><head><meta charset="utf-8"><meta name="viewport" content="width=device-width">\n'
            f'<title>{html.escape(title)}</title>\n<style>\n{file_text("page.css")}</style></head>\n<body>\n{body}{script}</body></html>\n')


def rehearsal_page(rehearsal: Rehearsal) -> str:
    """The page of a rehearsal."""
    data = json.dumps(page_data(rehearsal), separators=(",", ":"), ensure_ascii=False).replace("<", "\\u003c")
    script = f'<script type="application/json" id="data">{data}</script>\n<script>\n{file_text("page.js")}</script>\n'
    return whole_page(f"{shown(rehearsal.source.name)}: a rehearsal", file_text("page.html"), script)


def fault_page(rehearsal: Rehearsal) -> str:
    """The page of a show that is refused: the fault, what it means, and the line among its neighbours."""
    cause, number = rehearsal.fault
    lines = lines_of(rehearsal.source.show)
    near = "".join(f'<li value="{n}"{" class=wrong aria-current=true" if n == number else ""}><code>{html.escape(shown(lines[n - 1])[:200])}</code></li>'
                   for n in range(max(1, number - 3), min(len(lines), number + 3) + 1))
    behind = "" if number <= len(lines) else "<p>The line is the one behind the last.</p>"
    name = html.escape(shown(rehearsal.source.name))
    return whole_page(f"{shown(rehearsal.source.name)}: refused", f'<main class="fault"><h1>{name}</h1>\n<p role="alert" id="fault"><b>✗ This show is refused: {cause}, line {number}</b>'
                      f': {MEANINGS.get(cause, "")}.</p>\n{behind}<ol>{near}</ol>\n<p>Nothing of it is played. docs/FORMATS.md says what a show may hold.</p></main>\n')


def options() -> argparse.Namespace:
    """The words of the command line."""
    parser = argparse.ArgumentParser(description="Makes a page of a rehearsal on standard output.")
    parser.add_argument("show", help="the show, with a script behind ENDDATA")
    parser.add_argument("script", nargs="?", help="a script in place of the one behind ENDDATA; - is standard input")
    parser.add_argument("--job", choices=("render", "undo", "two"), default="render", help="how the script is answered (render)")
    parser.add_argument("--states", action="store_true", help="the levels of each cue are its whole look")
    parser.add_argument("--program", help="the program, where it isn't this repository's")
    return parser.parse_intermixed_args()


def main() -> int:
    """Writes the page; 1 where the show is refused, 2 where there is none."""
    given = options()
    try:
        rehearsal = rehearse(Program(given.program or default_program()), given.show, given.script, given.job, given.states)
        write_out((fault_page if rehearsal.fault else rehearsal_page)(rehearsal))
    except ViewError as error:
        print(f"page.py: {error}", file=sys.stderr)
        return 2
    return 1 if rehearsal.fault else 0


if __name__ == "__main__":
    sys.exit(main())
