"""A second desk, as plain as can be: it keeps the whole show and every run since the opening, and works each level out from
scratch when somebody looks. `program.py` compares the built program with it; docs/FORMATS.md and docs/DEFINITIONS.md say the
rules. It is slow, and reads no clock, file or stream.

    output(words, data) -> (status, bytes)      what the program must answer for `render`, `undo`, `two`, `check` or `sheet`, each also
                                                with `states`, and on standard output for `run`
    versions(data, universe) -> [bytes]         the lines that an outlet of a live run may have
"""
import copy

from plain_show import (CHANNELS, CUES, DIMMERS, GROUPS, LINE_BYTES, PARTS, RUNS, SUBS, TICK_END, TICKS, UNIVERSES, Cue, Fault, Reader, Refused,
                        cells, cue_number, cue_text, label_of, level, lines_of, rest_after, row_text, sheet_text, show_text, time, tokens_of,
                        whole)


# ---------------------------------------------------------------------------------------------------------------------
# The desk: the show, every run since the opening, the faders.


class Run:
    def __init__(self, start, cue, parts, all_channels):
        self.start, self.cue, self.parts, self.all_channels = start, cue, parts, all_channels

    def end(self):
        return self.start + max(max(up_delay + up, down_delay + down) for up, up_delay, down, down_delay in self.parts.values())


class Desk:
    def __init__(self, show):
        self.show, self.runs, self.live, self.base = show, [], [], 0
        self.moment, self.pending, self.faders, self.master = 0, None, {}, 255

    def position(self):
        return self.live[-1].cue if self.live else self.base

    # Levels, from scratch.

    def level(self, channel):
        """The level now, over all runs since the opening: each run is a function over the levels that the older ones give."""
        show, older, before = self.show, lambda m: show.tracked(0, channel), 0
        for run in self.runs:
            cue = show.cues.get(run.cue)
            move = cue.moves.get(channel) if cue else None
            target = show.tracked(run.cue, channel)
            if run.all_channels or cue and cue.asserted or move or show.tracked(before, channel) != target:
                times = run.parts.get(move[0]) if move else None
                older = self.fade(older, run, times or run.parts[min(run.parts)], target)
            before = run.cue
        return older(self.moment)

    @staticmethod
    def fade(older, run, times, target):
        known = {}

        def at(moment):
            if moment not in known:
                known[moment] = older(moment)
            return known[moment]

        up, up_delay, down, down_delay = times
        duration, delay = (up, up_delay) if target >= at(run.start) else (down, down_delay)
        start = run.start + delay

        def value(moment):
            if moment < start:
                return at(moment)
            gone, source = moment - start, at(start)
            if gone >= duration:
                return target
            if target >= source:
                return source + (target - source) * gone // duration
            return source - (source - target) * gone // duration

        return value

    def on_stage(self, channel):
        """What plays on a channel, before submasters and master."""
        return self.level(channel)

    def slots(self, universe):
        outs = {}

        def out(channel):
            if channel not in outs:
                given = [members.get(channel, 0) * self.faders.get(s, 0) // 255 for s, (_, members) in self.show.subs.items()]
                outs[channel] = max([self.on_stage(channel)] + given) * self.master // 255
            return outs[channel]

        slots = [0] * 512
        for e, (channel, value) in self.show.patch.items():
            if (e - 1) // 512 == universe - 1:
                slots[(e - 1) % 512] = out(channel) * value // 255
        return slots

    # Keys and ticks.

    def start(self, run, follow):
        self.live.append(run)
        self.runs.append(run)
        self.pending = follow

    def run_of(self, number, all_channels):
        cue = self.show.cues[number]
        follow = None if cue.follow is None else self.moment + cue.follow
        return Run(self.moment, number, copy.deepcopy(cue.parts), all_channels), follow

    def press(self, key, number=None):
        position = self.position()
        if key == "settle":
            self.base, self.live, self.pending = position, [], None
            self.runs.append(Run(self.moment, position, {1: [0, 0, 0, 0]}, True))
            return
        if key == "go" and (number := self.show.above(position)) is None:
            raise Refused(f"NoCueAfter {cue_text(position)}")
        if key == "back" and (number := self.show.below(position)) is None:
            raise Refused(f"NoCueBefore {cue_text(position)}")
        if number not in self.show.cues:
            raise Refused(f"AbsentCue {cue_text(number)}")
        if len(self.live) == RUNS:
            raise Refused("PlaybackFull")
        if key == "back":
            self.start(Run(self.moment, number, {1: [500, 0, 500, 0]}, True), None)
        else:
            self.start(*self.run_of(number, key == "goto"))

    def tick(self):
        if self.moment == TICK_END:
            raise Refused(f"TickLimit {TICK_END}")
        self.moment += 2
        if self.pending is not None and self.pending <= self.moment:
            self.pending, above = None, self.show.above(self.position())
            if above is not None and len(self.live) < RUNS:
                self.start(*self.run_of(above, False))
        if self.live and self.pending is None and all(run.end() <= self.moment for run in self.live):
            self.base, self.live = self.position(), []

    # Edits. Each is done on a copy, so that a refusal changes nothing.

    def the_cue(self, show, n):
        if n not in show.cues:
            raise Refused(f"AbsentCue {cue_text(n)}")
        return show.cues[n]

    @staticmethod
    def the_part(cue, n, part):
        if part not in cue.parts:
            raise Refused(f"AbsentPart {cue_text(n)} {part}")
        return cue.parts[part]

    @staticmethod
    def the_channels(show, first, last):
        if last > show.channels:
            raise Refused(f"AbsentChannel {max(first, show.channels + 1)}")
        return range(first, last + 1)

    def edit(self, change, number=None, only=False):
        after = copy.deepcopy(self.show)
        change(after)
        above = after.above(number) if only else None
        if above is not None:
            for c in range(1, self.show.channels + 1):
                kept = self.show.tracked(above, c)
                if kept != after.tracked(above, c):
                    after.cues[above].moves[c] = (1, kept)
        self.show = after


class UndoDesk(Desk):
    """A desk that keeps the shows which its edits and records replaced: the last 16 of them, and those that were taken back."""
    DEPTH = 16

    def __init__(self, show):
        super().__init__(show)
        self.back, self.forth = [], []

    def edit(self, change, number=None, only=False):
        before = self.show
        super().edit(change, number, only)
        self.back, self.forth = (self.back + [before])[-self.DEPTH:], []

    def record(self, n, only):
        """The cue takes the levels on stage, where tracking gives others."""
        if n not in self.show.cues and len(self.show.cues) == CUES:
            raise Refused("CueLimit")
        levels = {c: self.on_stage(c) for c in range(1, self.show.channels + 1)}

        def change(show):
            cue = show.cues.setdefault(n, Cue())
            for c, to in {c: to for c, to in levels.items() if show.tracked(n, c) != to}.items():
                cue.moves[c] = (cue.moves.get(c, (1, 0))[0], to)

        self.edit(change, n, only)

    def undo(self):
        if not self.back:
            raise Refused("NothingToUndo")
        self.forth.insert(0, self.show)
        self.show = self.back.pop()

    def redo(self):
        if not self.forth:
            raise Refused("NothingToRedo")
        self.back.append(self.show)
        self.show = self.forth.pop(0)


class FirstList(Desk):
    """The first of two cue lists: what the second plays counts beside it, and a tick is of both."""

    def __init__(self, show, second):
        super().__init__(show)
        self.second = second

    def on_stage(self, channel):
        return max(self.level(channel), self.second.level(channel))

    def tick(self):
        super().tick()
        self.second.tick()


# ---------------------------------------------------------------------------------------------------------------------
# The script.


class Bad(Exception):
    """A script line that says nothing."""


class Words:
    """The tokens of a line, taken from the front."""

    def __init__(self, tokens):
        self.tokens = tokens

    def next(self, read):
        if not self.tokens:
            raise Bad
        try:
            return read(self.tokens.pop(0))
        except Fault:
            raise Bad

    def has(self, word):
        found = bool(self.tokens) and self.tokens[0].upper() == word
        if found:
            self.tokens.pop(0)
        return found

    def need(self, word):
        if not self.has(word):
            raise Bad

    def end(self):
        if self.tokens:
            raise Bad

    def channel(self):
        return self.next(lambda t: whole(t, 1, CHANNELS))

    def channels(self):
        first = self.channel()
        last = self.channel() if self.has(b"THRU") else first
        if first > last:
            raise Bad
        return first, last

    def at(self):
        self.need(b"AT")
        return self.next(level)

    def part(self):
        return self.next(lambda t: whole(t, 1, PARTS)) if self.has(b"PART") else None

    def only(self):
        found = self.has(b"ONLY")
        self.end()
        return found


class Script:
    """Answers a script on a desk."""

    def __init__(self, desk):
        self.desk = desk

    def answer(self, lines):
        out = b""
        for line in lines:
            tokens = tokens_of(line)
            if len(line) > LINE_BYTES:
                out += b"bad\n"
                continue
            if not tokens:
                continue
            if [t.upper() for t in tokens] == [b"QUIT"]:
                break
            try:
                shown = self.line(tokens[0].lower().decode("latin-1"), Words(tokens[1:]), line)
                out += b"ok\n" if shown is None else shown
            except Bad:
                out += b"bad\n"
            except Refused as refused:
                out += f"refused {refused}\n".encode()
        return out

    def line(self, word, words, line):
        """Does a line. What it shows, if it is one that shows something."""
        if word in ("go", "back", "settle"):
            words.end()
            return self.desk.press(word)
        plain = {"goto": self.goto, "fader": self.fader, "master": self.set_master, "tick": self.ticks, "frame": self.frame,
                 "sheet": self.row, "save": self.save, "cue": self.make, "delete": self.delete, "set": self.set, "release": self.release,
                 "time": self.time, "part": self.add_part, "unpart": self.delete_part, "block": self.block, "unblock": self.unblock,
                 "assert": lambda words: self.set_asserted(words, True), "unassert": lambda words: self.set_asserted(words, False),
                 "follow": self.follow, "group": self.group, "sub": self.sub, "patch": self.patch, "unpatch": self.unpatch}
        if word == "label":
            return self.label(words, line)
        if word not in plain:
            raise Bad
        return plain[word](words)

    def goto(self, words):
        n = words.next(cue_number)
        words.end()
        self.desk.press("goto", n)

    def fader(self, words):
        s, value = words.next(lambda t: whole(t, 1, SUBS)), words.at()
        words.end()
        if s not in self.desk.show.subs:
            raise Refused(f"AbsentSub {s}")
        self.desk.faders[s] = value

    def set_master(self, words):
        value = words.at()
        words.end()
        self.desk.master = value

    def ticks(self, words):
        count = words.next(lambda t: whole(t, 1, TICKS)) if words.tokens else 1
        words.end()
        for _ in range(count):
            self.desk.tick()

    def frame(self, words):
        universe = words.next(lambda t: whole(t, 1, UNIVERSES)) if words.tokens else 1
        words.end()
        return f"frame {self.desk.moment} {universe}{cells(self.desk.slots(universe))}\n".encode()

    def row(self, words):
        n = words.next(cue_number)
        words.end()
        self.desk.the_cue(self.desk.show, n)
        return row_text(self.desk.show, n)

    def save(self, words):
        words.end()
        return show_text(self.desk.show)

    def make(self, words):
        n = words.next(cue_number)
        words.end()
        if n not in self.desk.show.cues and len(self.desk.show.cues) == CUES:
            raise Refused("CueLimit")
        self.desk.edit(lambda show: show.cues.setdefault(n, Cue()))

    def delete(self, words):
        n = words.next(cue_number)
        only = words.only()

        def change(show):
            self.desk.the_cue(show, n)
            del show.cues[n]

        self.desk.edit(change, n, only)

    def set(self, words):
        n = words.next(cue_number)
        if words.has(b"GROUP"):
            group, channels = words.next(lambda t: whole(t, 1, GROUPS)), None
        else:
            words.need(b"CHAN")
            group, channels = None, words.channels()
        value, part, only = words.at(), words.part(), words.only()

        def change(show):
            cue = self.desk.the_cue(show, n)
            if part is not None:
                self.desk.the_part(cue, n, part)
            if channels:
                levels = {c: value for c in self.desk.the_channels(show, *channels)}
            elif group not in show.groups:
                raise Refused(f"AbsentGroup {group}")
            else:
                levels = {c: member * value // 255 for c, member in show.groups[group][1].items()}
            for c, to in levels.items():
                cue.moves[c] = (part or cue.moves.get(c, (1, 0))[0], to)

        self.desk.edit(change, n, only)

    def release(self, words):
        n = words.next(cue_number)
        words.need(b"CHAN")
        channels, only = words.channels(), words.only()

        def change(show):
            cue = self.desk.the_cue(show, n)
            for c in self.desk.the_channels(show, *channels):
                if c not in cue.moves:
                    raise Refused(f"AbsentMove {cue_text(n)} {c}")
                del cue.moves[c]

        self.desk.edit(change, n, only)

    def time(self, words):
        n, part = words.next(cue_number), words.part() or 1
        rising = words.has(b"UP")
        if not rising:
            words.need(b"DOWN")
        times = [words.next(time), words.next(time) if words.tokens else 0]
        words.end()

        def change(show):
            at = 0 if rising else 2
            self.desk.the_part(self.desk.the_cue(show, n), n, part)[at:at + 2] = times

        self.desk.edit(change)

    def add_part(self, words):
        n, part = words.next(cue_number), words.next(lambda t: whole(t, 1, PARTS))
        words.end()
        self.desk.edit(lambda show: self.desk.the_cue(show, n).parts.setdefault(part, [500, 0, 500, 0]))

    def delete_part(self, words):
        n, part = words.next(cue_number), words.next(lambda t: whole(t, 1, PARTS))
        words.end()

        def change(show):
            cue = self.desk.the_cue(show, n)
            self.desk.the_part(cue, n, part)
            if part == 1:
                raise Refused("BasePart")
            del cue.parts[part]
            cue.moves = {c: (1 if p == part else p, value) for c, (p, value) in cue.moves.items()}

        self.desk.edit(change)

    def block(self, words):
        self.set_block(words, True)

    def unblock(self, words):
        self.set_block(words, False)

    def set_block(self, words, block):
        """A block cue takes over what tracks into it; one that is none any more keeps out what would come up."""
        n = words.next(cue_number)
        words.end()

        def change(show):
            cue = self.desk.the_cue(show, n)
            if cue.block != block:
                row = show.row(n if block else n - 1)
                cue.block = block
                cue.moves.update({c: (1, value if block else 0) for c, value in enumerate(row, 1) if value and c not in cue.moves})

        self.desk.edit(change)

    def set_asserted(self, words, asserted):
        n = words.next(cue_number)
        words.end()

        def change(show):
            self.desk.the_cue(show, n).asserted = asserted

        self.desk.edit(change)

    def follow(self, words):
        n = words.next(cue_number)
        after = None if words.has(b"OFF") else words.next(time)
        words.end()

        def change(show):
            self.desk.the_cue(show, n).follow = after

        self.desk.edit(change)

    def label(self, words, line):
        n = words.next(cue_number)

        def change(show):
            self.desk.the_cue(show, n).label = label_of(rest_after(line, 2))

        self.desk.edit(change)

    def members(self, words, most, sets_of):
        n = words.next(lambda t: whole(t, 1, most))
        words.need(b"CHAN")
        channels, value = words.channels(), words.at()
        words.end()

        def change(show):
            given = {c: value for c in self.desk.the_channels(show, *channels)}
            sets_of(show).setdefault(n, [b"", {}])[1].update(given)

        self.desk.edit(change)

    def group(self, words):
        self.members(words, GROUPS, lambda show: show.groups)

    def sub(self, words):
        self.members(words, SUBS, lambda show: show.subs)

    def patch(self, words):
        e = words.next(lambda t: whole(t, 1, DIMMERS))
        words.need(b"CHAN")
        channel, value = words.channel(), words.at()
        words.end()

        def change(show):
            self.desk.the_channels(show, channel, channel)
            show.patch[e] = (channel, value)

        self.desk.edit(change)

    def unpatch(self, words):
        e = words.next(lambda t: whole(t, 1, DIMMERS))
        words.end()

        def change(show):
            if e not in show.patch:
                raise Refused(f"AbsentDimmer {e}")
            del show.patch[e]

        self.desk.edit(change)


class UndoScript(Script):
    """Three lines more are known."""

    def line(self, word, words, line):
        if word in ("undo", "redo"):
            words.end()
            return self.desk.undo() if word == "undo" else self.desk.redo()
        if word == "record":
            n = words.next(cue_number)
            return self.desk.record(n, words.only())
        return super().line(word, words, line)


class TwoScript(Script):
    """A line that begins with `2` is for the second list, which has the cues from 5000 on."""
    SECOND = ("go back settle goto sheet save cue delete set release time part unpart block unblock assert unassert follow label"
              " group").split()

    def __init__(self, show):
        first, second = copy.deepcopy(show), copy.deepcopy(show)
        first.cues = {n: cue for n, cue in first.cues.items() if n < 5_000_000}
        second.cues = {n: cue for n, cue in second.cues.items() if n >= 5_000_000}
        self.second = Script(Desk(second))
        super().__init__(FirstList(first, self.second.desk))

    def line(self, word, words, line):
        if word != "2":
            return super().line(word, words, line)
        rest = rest_after(line, 1)
        tokens = tokens_of(rest)
        word = tokens[0].lower().decode("latin-1") if tokens else ""
        if word not in self.SECOND:
            raise Bad
        return self.second.line(word, Words(tokens[1:]), rest)


def script_for(job, show):
    return UndoScript(UndoDesk(show)) if job == "undo" else TwoScript(show) if job == "two" else Script(Desk(show))


# ---------------------------------------------------------------------------------------------------------------------


def versions(data, universe):
    """The line of each version of a universe in a live run: after no command, after the first that is accepted, and so on."""
    lines, reader = lines_of(data), Reader()
    read = reader.read(lines, "moves")
    script, out = Script(Desk(reader.show)), []

    def version():
        desk = script.desk
        out.append(f"frame {len(out)} {desk.moment} {universe}{cells(desk.slots(universe))}\n".encode())

    version()
    for line in lines[read:]:
        word, *given = tokens_of(line) or [b""]
        single = [b"tick"] * int(given[0]) if word == b"tick" and given else [line]
        for each in single:
            if script.answer([each]) == b"ok\n":
                version()
    return out


def crew_text(data, entries):
    """The transcript of a crew over a show. Each entry is an operator, the number of its line and the line."""
    lines, reader = lines_of(data), Reader()
    reader.read(lines, "moves")
    script = Script(Desk(reader.show))
    return b"".join(f"op {operator} {number}\n".encode() + script.answer([line]) for operator, number, line in entries)


def output(words, data):
    """The status and the output of a job over an input that is within its limit."""
    lines, reader = lines_of(data), Reader()
    try:
        read = reader.read(lines, "states" if "states" in words[1:] else "moves")
    except Fault as fault:
        return 1, f"show {fault}\n".encode()
    if words[0] == "check":
        text = f"show cues {len(reader.show.cues)} channels {reader.show.channels} skipped {reader.skipped} first {reader.first}\n"
        return 0, text.encode()
    if words[0] == "sheet":
        return 0, sheet_text(reader.show)
    return 0, script_for(words[0], reader.show).answer(lines[read:])
