#!/usr/bin/env python3
"""Draws fades: each channel's output over time, with keys and follow-ons as lines, delays and interrupted fades marked.

    view/plot.py SHOW.asc [SCRIPT] --channels 1,2,5 > fades.svg

The outputs are those that the program writes, the greatest of cues and submasters under the master. A show with a fault gets a picture
that names it, and the status is 1.
"""
import argparse
import html
import re
import sys
from dataclasses import dataclass

from playback import hundredths, key_of
from rehearsal import Rehearsal, rehearse, split_list, used_channels
from page import marks
from shows import MEANINGS, Cue, Program, ViewError, default_program, percent, shown, write_out

LEFT, TOP, WIDE, GAP, FOOT = 72, 74, 900, 12, 40
# A rest of more than ten seconds takes two along the axis.
REST, SHORT = 1000, 200
# How many channels are drawn where none are named.
FIRST = 12
# What may not stand in XML, escaped or not.
NO_XML = re.compile("[^\t\n\r -\ud7ff\ue000-\ufffd\U00010000-\U0010ffff]")
INKS = ("#0072b2", "#b05c00", "#007a5a", "#a3447a", "#5b5bd6", "#8a6d00")
DARK_INKS = ("#56b4e9", "#f0b040", "#35b58a", "#e08fbe", "#a5a5ff", "#d8c040")
STYLE = """
text { font: 12px system-ui, "DejaVu Sans", sans-serif; fill: #1b1e23 } .paper { fill: #fff } .grid { stroke: #e2e5e9 } .dim { fill: #555d68; font-size: 11px }
.key { stroke: #1b1e23 } .follow { stroke: #0072b2; stroke-dasharray: 5 3 } .edit, .fader { stroke: #b05c00; stroke-dasharray: 1 3 } .wrong { stroke: #a33600; stroke-dasharray: 2 5 }
.delay { fill: url(#hatch) } .ring { fill: #fff; stroke: #a33600; stroke-width: 2 } .cut { fill: #a33600; font-weight: bold } .over { font-size: 11px; stroke: #fff; stroke-width: 3px; stroke-opacity: .85; paint-order: stroke }
path.level { fill: none; stroke-width: 2; stroke-linejoin: round } path.area { fill-opacity: .15 }
"""
DARK_STYLE = """
text { fill: #dfe2e7 } .paper { fill: #14161a } .grid { stroke: #363b44 } .dim { fill: #a0a8b3 } .key { stroke: #dfe2e7 } .follow { stroke: #7cc4f0 }
.edit, .fader { stroke: #ffc04d } .wrong { stroke: #ff9d6b } .ring { fill: #14161a; stroke: #ff9d6b } .cut { fill: #ff9d6b } .over { stroke: #14161a } #hatch path { stroke: #a0a8b3 }
"""


def escaped(text: str) -> str:
    """A text as XML may have it."""
    return html.escape(NO_XML.sub("\ufffd", text))


@dataclass
class Plot:
    """A rehearsal, the channels that are drawn, and where each step stands along the axis."""
    rehearsal: Rehearsal
    channels: list[int]
    axis: list[int]
    lane: int

    def x(self, step: int, more: int = 0) -> float:
        """The place of a step, or of some hundredths after it."""
        return LEFT + (self.axis[step] + more) / (self.axis[-1] or 1) * WIDE

    def y(self, lane: int, level: int) -> float:
        """The place of a level in a channel's lane."""
        return TOP + lane * (self.lane + GAP) + self.lane * (1 - level / 255)

    def level(self, step: int, channel: int) -> int:
        """A channel's output after a step."""
        return self.rehearsal.frames[step][channel - 1]

    def bottom(self) -> int:
        """Where the lanes end."""
        return TOP + len(self.channels) * (self.lane + GAP)


def axis_of(rehearsal: Rehearsal) -> list[int]:
    """Hundredths along the axis: as time goes, but a long rest is cut short."""
    axis, before = [0], 0
    for step in rehearsal.steps[1:]:
        gap = step.time - before
        axis.append(axis[-1] + (SHORT if gap > REST else gap))
        before = step.time
    return axis


def lines_over(plot: Plot) -> list[str]:
    """Each key, follow-on, edit and wrong line, named in the first of three rows that has room."""
    out, free = [], [0.0, 0.0, 0.0]
    for moment, kind, text in marks(plot.rehearsal):
        x = plot.x(moment)
        name = ("✗ " if kind == "wrong" else "") + (text if len(text) <= 34 else text[:33] + "…")
        row = next((i for i, end in enumerate(free) if end <= x), None)
        top = TOP - 8 if row is None else 22 + row * 15
        out.append(f'<path class="{kind}" d="M{x:.1f} {top}V{plot.bottom()}"><title>{escaped(text)}</title></path>')
        if row is not None:
            long = len(name) * 7 + 12
            back = x + long > LEFT + WIDE + 40 and x - long > free[row]
            free[row] = x + (4 if back else long)
            out.append(f'<text x="{x - 4 if back else x + 4:.1f}" y="{top + 9}"{" text-anchor=" + chr(34) + "end" + chr(34) if back else ""}>{escaped(name)}</text>')
    return out


def lane_of(plot: Plot, lane: int, channel: int) -> list[str]:
    """One channel: its lane, the area under its level and the level itself."""
    points, before = [], None
    steps = range(len(plot.axis))
    for i in steps:
        level = plot.level(i, channel)
        after = plot.level(i + 1, channel) if i + 1 < len(steps) else None
        if not before == level == after:
            points.append(f"{plot.x(i):.1f} {plot.y(lane, level):.2f}")
        before = level
    low, high = plot.y(lane, 0), plot.y(lane, 255)
    line, ink = "L".join(points), lane % len(INKS)
    return [f'<path class="grid" d="M{LEFT} {low}H{LEFT + WIDE}M{LEFT} {high}H{LEFT + WIDE}" fill="none"/>',
            f'<path class="area f{ink}" d="M{LEFT} {low}L{line}L{plot.x(steps[-1]):.1f} {low}Z"/>',
            f'<path class="level s{ink}" data-channel="{channel}" d="M{line}"><title>channel {channel}</title></path>',
            f'<text class="f{ink}" x="{LEFT - 34}" y="{(low + high) / 2 + 5:.1f}" text-anchor="end" font-weight="bold">{channel}</text>'] + (
                [f'<text class="dim" x="{LEFT - 6}" y="{high + 9:.1f}" text-anchor="end">FL</text><text class="dim" x="{LEFT - 6}" y="{low:.1f}" text-anchor="end">0</text>']
                if plot.lane >= 30 else [])


def cue_at(rehearsal: Rehearsal, step: int, which: int) -> Cue | None:
    """The cue of a list that runs after a step."""
    said = rehearsal.steps[step]
    return next((cue for cue in rehearsal.shows[said.show] if key_of(cue.number) == said.running[which]), None)


def runs_of(rehearsal: Rehearsal) -> list[tuple[int, int, str]]:
    """Each run of a cue: its step, its list, and the key, or `follow`."""
    runs = []
    for i, step in enumerate(rehearsal.steps):
        if step.follow:
            runs += [(i, which, "follow") for which, cue in enumerate(step.running) if cue != rehearsal.steps[i - 1].running[which]]
        elif step.command:
            which, words = split_list(rehearsal.source.lines[step.line].words, rehearsal.job)
            if words[0] in ("go", "back", "goto", "settle"):
                runs.append((i, which, words[0]))
    return runs


def delays(plot: Plot) -> list[str]:
    """Where a part's delay is waited for: from the run to the end of the delay, if the level stands till then and moves after it."""
    out, runs = [], runs_of(plot.rehearsal)
    for place, (step, which, key) in enumerate(runs):
        cue, end = cue_at(plot.rehearsal, step, which), runs[place + 1][0] if place + 1 < len(runs) else len(plot.axis) - 1
        for lane, channel in enumerate(plot.channels):
            wait = 0 if cue is None or key == "back" else waited(plot, cue, channel, step, end)
            if wait:
                x = plot.x(step)
                out.append(f'<rect class="delay" x="{x:.1f}" y="{plot.y(lane, 255):.1f}" width="{plot.x(step, wait) - x:.1f}" height="{plot.lane}"><title>channel {channel} waits for {wait / 100:g} s</title></rect>')
                if plot.lane >= 30:
                    out.append(f'<text class="dim over" x="{x + 4:.1f}" y="{plot.y(lane, 255) + 12:.1f}">delay {wait / 100:g} s</text>')
    return out


def waited(plot: Plot, cue: Cue, channel: int, step: int, end: int) -> int:
    """The delay that a channel waited for in a run, in hundredths, or 0."""
    part, level = cue.moves[channel - 1], plot.level(step, channel)
    change = next((i for i in range(step + 1, end + 1) if plot.level(i, channel) != level), None)
    if not part or change is None:
        return 0
    _, _, up_delay, _, down_delay = next(each for each in cue.parts if each[0] == str(part))
    wait = hundredths(up_delay if plot.level(change, channel) > level else down_delay)
    return wait if plot.rehearsal.steps[change].time - plot.rehearsal.steps[step].time >= wait else 0


def interrupted(plot: Plot) -> list[str]:
    """Rings where a run takes a channel that hasn't reached the level of the cue before; none once a fader or the master was moved."""
    rehearsal, out, runs = plot.rehearsal, [], runs_of(plot.rehearsal)
    mixed = next((i for i, step in enumerate(rehearsal.steps) if step.command and rehearsal.source.lines[step.line].words[0] in ("fader", "master")), len(plot.axis))
    for (before, which, _), (step, other, key) in zip(runs, runs[1:]):
        old, new = cue_at(rehearsal, step - 1, which), cue_at(rehearsal, step, which)
        if which != other or old is None or new is None or step >= mixed:
            continue
        for lane, channel in enumerate(plot.channels):
            level = plot.level(step if key == "follow" else step - 1, channel)
            taken = new.moves[channel - 1] or new.row[channel - 1] != old.row[channel - 1] or new.asserted or key in ("back", "goto", "settle")
            if taken and level != old.row[channel - 1] and level != new.row[channel - 1] and moves_between(plot, channel, before, step):
                x, y = plot.x(step), plot.y(lane, level)
                out.append(f'<circle class="ring" cx="{x:.1f}" cy="{y:.1f}" r="5"><title>channel {channel} is interrupted at {level} of 255</title></circle>')
                out.append(f'<text class="cut over" x="{x + 9:.1f}" y="{y - 5 if y > plot.y(lane, 255) + 12 else y + 14:.1f}">interrupted at {percent(level)}</text>')
    return out


def moves_between(plot: Plot, channel: int, first: int, last: int) -> bool:
    """Whether a channel's output changed between two steps."""
    return any(plot.level(i, channel) != plot.level(first, channel) for i in range(first, last))


def seconds_under(plot: Plot) -> list[str]:
    """The seconds along the axis, and the rests that are cut short."""
    steps, out = plot.rehearsal.steps, []
    unit = next((s for s in (50, 100, 200, 500, 1000, 3000, 6000, 30000) if plot.axis[-1] / s <= 14), 360000)
    for i, step in enumerate(steps):
        gap = step.time - steps[i - 1].time if i else 0
        if gap > REST:
            out.append(f'<text class="dim" x="{plot.x(i, -SHORT // 2):.1f}" y="{plot.bottom() + 18}" text-anchor="middle">// {gap / 100:g} s</text>')
        elif not i or step.time // unit > steps[i - 1].time // unit:
            place = plot.x(i, step.time // unit * unit - step.time)
            out.append(f'<path class="grid" d="M{place:.1f} {TOP}V{plot.bottom()}"/><text class="dim" x="{place:.1f}" y="{plot.bottom() + 18}" text-anchor="middle">{step.time // unit * unit / 100:g} s</text>')
    return out


def inks(dark: bool) -> str:
    """The colours of the lanes."""
    return "".join(f".f{i} {{ fill: {ink} }} .s{i} {{ stroke: {ink} }} " for i, ink in enumerate(DARK_INKS if dark else INKS))


def picture(title: str, height: int, parts: list[str]) -> str:
    """An SVG with its styles in it, light or dark as its reader's."""
    head = (f'<svg xmlns="http://www.w3.org/2000/svg" width="{LEFT + WIDE + 40}" height="{height}" viewBox="0 0 {LEFT + WIDE + 40} {height}" role="img" aria-labelledby="name">'
            f'<title id="name">{escaped(title)}</title>\n<style>{STYLE}{inks(False)}\n@media (prefers-color-scheme: dark) {{{DARK_STYLE}{inks(True)}}}</style>\n'
            '<defs><pattern id="hatch" width="6" height="6" patternUnits="userSpaceOnUse" patternTransform="rotate(45)"><path d="M0 0V6" stroke="#8a929c" stroke-width="1.5"/></pattern></defs>\n'
            '<rect class="paper" width="100%" height="100%"/>\n')
    return head + "\n".join(parts) + "\n</svg>\n"


def drawn(rehearsal: Rehearsal, channels: list[int], left_out: int) -> str:
    """The picture of a rehearsal."""
    plot = Plot(rehearsal, channels, axis_of(rehearsal), 66 if len(channels) <= 8 else 24)
    name, notes = shown(rehearsal.source.name), list(rehearsal.notes)
    wrong = sum(line.wrong() for line in rehearsal.source.lines)
    if not rehearsal.source.given:
        notes.append("There is no script: nothing is played.")
    if wrong:
        notes.append(f"{wrong} {'line' if wrong == 1 else 'lines'} of the script (✗) {'was' if wrong == 1 else 'were'} refused or bad, and changed nothing.")
    if left_out:
        notes.append(f"{left_out} further channels are in use; --channels names others.")
    parts = [f'<text x="{LEFT}" y="15" font-weight="bold">{escaped(name)}</text>', *seconds_under(plot), *delays(plot)]
    for lane, channel in enumerate(channels):
        parts += lane_of(plot, lane, channel)
    parts += lines_over(plot) + interrupted(plot)
    parts += [f'<text class="dim" x="{LEFT}" y="{plot.bottom() + 36 + 15 * i}">{escaped(note)}</text>' for i, note in enumerate(notes)]
    return picture(f"Outputs of channels {', '.join(map(str, channels))} in {name}", plot.bottom() + FOOT + 15 * len(notes), parts)


def fault(rehearsal: Rehearsal) -> str:
    """The picture of a show that is refused."""
    cause, line = rehearsal.fault
    text = f"{shown(rehearsal.source.name)}: ✗ this show is refused: {cause}, line {line}: {MEANINGS.get(cause, '')}."
    return picture(text, 60, [f'<text class="cut" x="20" y="34">{escaped(text)}</text>'])


def channel_list(text: str) -> list[int]:
    """Channels as they are named: `1,2,5` and ranges as `1-4`."""
    channels = []
    for part in text.replace(" ", "").split(","):
        first, _, last = part.partition("-")
        channels += range(int(first), int(last or first) + 1)
    if not channels or min(channels) < 1 or max(channels) > 4096:
        raise ValueError(text)
    return list(dict.fromkeys(channels))


def options() -> argparse.Namespace:
    """The words of the command line."""
    parser = argparse.ArgumentParser(description="Draws outputs over time, as SVG on standard output.")
    parser.add_argument("show", help="the show, with a script behind ENDDATA")
    parser.add_argument("script", nargs="?", help="a script in place of the one behind ENDDATA; - is standard input")
    parser.add_argument("--channels", type=channel_list, help=f"as 1,2,5 or 1-4 (the first {FIRST} in use)")
    parser.add_argument("--job", choices=("render", "undo", "two"), default="render", help="how the script is answered (render)")
    parser.add_argument("--states", action="store_true", help="the levels of each cue are its whole look")
    parser.add_argument("--program", help="the program, where it isn't this repository's")
    return parser.parse_intermixed_args()


def main() -> int:
    """Writes the picture; 1 where the show is refused, 2 where there is none."""
    given = options()
    try:
        rehearsal = rehearse(Program(given.program or default_program()), given.show, given.script, given.job, given.states)
        if rehearsal.fault:
            write_out(fault(rehearsal))
            return 1
        used = used_channels(rehearsal)
        channels = given.channels or used[:FIRST]
        if max(channels, default=0) > rehearsal.channels:
            raise ViewError(f"the show has no channel {max(channels)}; it has {rehearsal.channels}")
        write_out(drawn(rehearsal, channels, 0 if given.channels else len(used) - len(channels)))
        return 0
    except ViewError as error:
        print(f"plot.py: {error}", file=sys.stderr)
        return 2


if __name__ == "__main__":
    sys.exit(main())
