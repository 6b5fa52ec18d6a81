"""Show texts, read and written as plainly as can be: the lower half of the second desk of `plain_desk.py`. docs/FORMATS.md says the
rules.
"""
import re

SEPARATORS = b" \t,;/<=>@"
CHANNELS, DIMMERS, GROUPS, SUBS, PARTS, UNIVERSES = 4096, 16384, 999, 96, 9, 32
CUE_MAX, CUES, RUNS, TIME_MAX, TICK_END, TICKS, LINE_BYTES = 9_999_999, 4000, 512, 599_999, 200_000_000, 100_000_000, 4096
RECORD_WORDS = {b"IDENT", b"MANUFACTURER", b"CONSOLE", b"CLEAR", b"SET", b"PATCH", b"CUE", b"GROUP", b"SUB", b"ENDDATA"}
INNER_WORDS = {b"CHAN", b"PART", b"UP", b"DOWN", b"FOLLOWON", b"LINK", b"TEXT"}


class Fault(Exception):
    """A show text is refused, or a number of it or of a script line is."""


class Refused(Exception):
    """A command is refused."""


# ---------------------------------------------------------------------------------------------------------------------
# Lines, tokens, numbers.


def lines_of(data):
    lines = data.split(b"\n")
    if not lines[-1]:
        lines.pop()
    return [line.replace(b"\r", b"") for line in lines]


def tokens_of(line):
    return [token for token in re.split(b"[ \t,;/<=>@]", line.split(b"!")[0]) if token]


def rest_after(line, count):
    """What follows the first `count` tokens, the comment included."""
    if len(tokens_of(line)) < count:
        return b""
    at = 0
    for _ in range(count):
        while at < len(line) and line[at] in SEPARATORS:
            at += 1
        while at < len(line) and line[at] not in SEPARATORS + b"!":
            at += 1
    if at < len(line) and line[at] in SEPARATORS:
        at += 1
    return line[at:].lstrip(b" \t")


def label_of(data):
    return data.replace(b"\r", b"").replace(b"\n", b"").lstrip(b" \t")[:240]


def in_range(value, least, most):
    if not least <= value <= most:
        raise Fault("OutOfRange")
    return value


def whole(token, least, most):
    if not re.fullmatch(rb"[0-9]+", token):
        raise Fault("BadNumber")
    return in_range(int(token), least, most)


def level(token):
    if re.fullmatch(rb"[0-9]+", token):
        return (255 * in_range(int(token), 0, 100) + 50) // 100
    if token.upper() == b"FL":
        return 255
    if re.fullmatch(rb"[Hh][0-9A-Fa-f]{2}", token):
        return int(token[1:], 16)
    raise Fault("BadNumber")


def scaled(text, decimals):
    """Digits with decimals, in the unit of the last decimal; further ones are cut off."""
    before, _, after = text.partition(b".")
    return int((before or b"0") + (after + b"0" * decimals)[:decimals])


def scaled_text(n, decimals):
    unit = 10 ** decimals
    return f"{n // unit}" + (f".{n % unit:0{decimals}}".rstrip("0") if n % unit else "")


def hundredths(text):
    return scaled(text, 2)


def hundredths_text(n):
    return scaled_text(n, 2)


def time(token):
    if re.fullmatch(rb"[0-9]+|[0-9]*\.[0-9]+", token):
        return in_range(hundredths(token), 0, TIME_MAX)
    if re.fullmatch(rb"[0-9]+:[0-9]{1,2}(\.[0-9]+)?", token):
        minutes, seconds = token.split(b":")
        in_range(int(minutes), 0, 99)
        in_range(int(seconds.split(b".")[0]), 0, 59)
        return 6000 * int(minutes) + hundredths(seconds)
    raise Fault("BadNumber")


def cue_number(token):
    if not re.fullmatch(rb"[0-9]+|[0-9]*\.[0-9]{1,3}", token):
        raise Fault("BadNumber")
    return in_range(scaled(token, 3), 1, CUE_MAX)


def cue_text(n):
    return scaled_text(n, 3)


# ---------------------------------------------------------------------------------------------------------------------
# The show.


class Cue:
    def __init__(self):
        self.block, self.asserted, self.follow, self.link, self.label = False, False, None, None, b""
        self.parts = {1: [500, 0, 500, 0]}  # up, its delay, down, its delay
        self.moves = {}  # channel: (part, level)


class Show:
    def __init__(self):
        self.channels, self.cues, self.groups, self.subs, self.patch = 512, {}, {}, {}, {}

    def tracked(self, number, channel):
        """The level of the last cue up to the number that moves the channel or is a block cue."""
        for n in sorted(self.cues, reverse=True):
            if n <= number and (self.cues[n].block or channel in self.cues[n].moves):
                return self.cues[n].moves.get(channel, (0, 0))[1]
        return 0

    def row(self, number):
        return [self.tracked(number, c) for c in range(1, self.channels + 1)]

    def above(self, number):
        return min((n for n in self.cues if n > number), default=None)

    def below(self, number):
        return max((n for n in self.cues if n < number), default=None)


class Reader:
    """Reads a show text line by line."""

    def __init__(self):
        self.show, self.identified, self.section, self.part = Show(), False, None, 1
        self.set_channels, self.named, self.skipped, self.first = None, 0, 0, 0

    def read(self, lines, form):
        """How many lines were read."""
        for number, line in enumerate(lines, 1):
            try:
                done = self.line(line, number)
            except Fault as fault:
                raise Fault(f"{fault} {number}")
            if done:
                self.finish(form)
                return number
        raise Fault(f"NoEndData {len(lines) + 1}")

    def finish(self, form):
        show = self.show
        show.channels = max(self.set_channels or 512, self.named)
        if form == "states":
            before = {}
            for n in sorted(show.cues):
                cue, look = show.cues[n], show.cues[n].moves
                cue.moves = {}
                for c in range(1, show.channels + 1):
                    part, value = look.get(c, (1, 0))
                    if value != (0 if cue.block else before.get(c, (1, 0))[1]):
                        cue.moves[c] = (part, value)
                before = look

    def skip(self, number):
        self.skipped += 1
        self.first = self.first or number

    def line(self, line, number):
        if len(line) > LINE_BYTES:
            raise Fault("LineTooLong")
        tokens = tokens_of(line)
        if not tokens:
            return False
        word = tokens[0].upper()
        flags = word in (b"$$BLOCK", b"$$ASSERT") and isinstance(self.section, Cue)
        if word.startswith(b"$") and not flags:
            self.skip(number)
            if not word.startswith(b"$$"):
                self.section = "skipping"
            return False
        if word not in RECORD_WORDS | INNER_WORDS and not flags:
            self.skip(number)
            return False
        if not self.identified and word not in (b"IDENT", b"MANUFACTURER", b"CONSOLE"):
            raise Fault("NoIdent")
        if self.section == "skipping" and word in INNER_WORDS:
            self.skip(number)
            return False
        if flags:
            setattr(self.section, "block" if word == b"$$BLOCK" else "asserted", True)
        elif word in INNER_WORDS:
            self.inner(word, tokens[1:], line, number)
        else:
            self.record(word, tokens[1:], number)
        return word == b"ENDDATA"

    def record(self, word, given, number):
        self.section, before = None, self.section
        if word == b"IDENT":
            if not given or given[0] != b"3:0":
                self.section = before
                raise Fault("NoIdent")
            self.identified = True
        elif word == b"CLEAR":
            if given and given[0].upper() == b"ALL":
                self.show, self.set_channels, self.named = Show(), None, 0
            else:
                self.skip(number)
        elif word == b"SET":
            if not given or given[0].upper() != b"CHANNELS":
                return self.skip(number)
            if len(given) < 2:
                raise Fault("ShortList")
            self.set_channels = whole(given[1], 1, CHANNELS)
        elif word == b"PATCH":
            self.patch(given, number)
        elif word in (b"CUE", b"GROUP", b"SUB"):
            self.begin(word, given, number)

    def other_page(self, page, number):
        if re.fullmatch(rb"0*1", page):
            return False
        self.skip(number)
        return True

    def patch(self, given, number):
        if not given:
            raise Fault("ShortList")
        if self.other_page(given[0], number):
            return
        if len(given) % 3 != 1:
            raise Fault("ShortList")
        for at in range(1, len(given), 3):
            channel, dimmer = whole(given[at], 1, CHANNELS), whole(given[at + 1], 1, DIMMERS)
            self.show.patch[dimmer] = (channel, level(given[at + 2]))
            self.named = max(self.named, channel)

    def begin(self, word, given, number):
        if not given:
            raise Fault("ShortList")
        if len(given) > 1 and self.other_page(given[1], number):
            self.section = "skipping"
            return
        if word == b"CUE":
            n = cue_number(given[0])
            if n not in self.show.cues and len(self.show.cues) == CUES:
                raise Fault("OutOfRange")
            self.section, self.part = self.show.cues.setdefault(n, Cue()), 1
        else:
            sets, most = (self.show.groups, GROUPS) if word == b"GROUP" else (self.show.subs, SUBS)
            self.section = sets.setdefault(whole(given[0], 1, most), [b"", {}])

    def inner(self, word, given, line, number):
        section = self.section
        if word == b"TEXT":
            label = label_of(rest_after(line, 1))
            if section is None:
                self.skip(number)
            elif isinstance(section, Cue):
                section.label = label
            else:
                section[0] = label
        elif section is None:
            raise Fault("NotInRecord")
        elif word == b"CHAN":
            self.levels(given)
        elif not isinstance(section, Cue):
            self.skip(number)
        elif not given:
            raise Fault("ShortList")
        elif word == b"PART":
            self.part = whole(given[0], 1, PARTS)
            section.parts.setdefault(self.part, [500, 0, 500, 0])
        elif word == b"FOLLOWON":
            section.follow = time(given[0])
        elif word == b"LINK":
            section.link = cue_number(given[0])
        else:
            at = 0 if word == b"UP" else 2
            section.parts[self.part][at:at + 2] = [time(given[0]), time(given[1]) if len(given) > 1 else 0]

    def levels(self, given):
        if len(given) % 2:
            raise Fault("ShortList")
        for at in range(0, len(given), 2):
            channel, value = whole(given[at], 1, CHANNELS), level(given[at + 1])
            if isinstance(self.section, Cue):
                self.section.moves[channel] = (self.part, value)
            else:
                self.section[1][channel] = value
            self.named = max(self.named, channel)


# ---------------------------------------------------------------------------------------------------------------------
# Texts.


def cells(levels):
    return "".join(f" {at}={value}" for at, value in enumerate(levels, 1) if value)


def row_text(show, number):
    return f"row {cue_text(number)}{cells(show.row(number))}\n".encode()


def sheet_text(show):
    out = b""
    for n in sorted(show.cues):
        cue = show.cues[n]
        kind = "block" if cue.block else "track"
        out += f"cue {cue_text(n)} {kind} {len(cue.parts)} {len(cue.moves)}".encode()
        out += (b" " + cue.label if cue.label else b"") + b"\n" + row_text(show, n)
    return out


def show_text(show):
    out = [b"IDENT 3:0", b"SET CHANNELS %d" % show.channels]
    out += [b"PATCH 1 %d<%d@H%02X" % (c, e, value) for e, (c, value) in sorted(show.patch.items())]
    for word, sets in ((b"GROUP", show.groups), (b"SUB", show.subs)):
        for n, (label, members) in sorted(sets.items()):
            out += [b"%s %d" % (word, n)] + ([b"TEXT " + label] if label else [])
            out += [b"CHAN %d@H%02X" % member for member in sorted(members.items())]
    for n, cue in sorted(show.cues.items()):
        out += [b"CUE " + cue_text(n).encode()] + ([b"$$BLOCK"] if cue.block else []) + ([b"$$ASSERT"] if cue.asserted else [])
        out += [b"TEXT " + cue.label] if cue.label else []
        out += [b"FOLLOWON " + hundredths_text(cue.follow).encode()] if cue.follow is not None else []
        out += [b"LINK " + cue_text(cue.link).encode()] if cue.link is not None else []
        for p, (up, up_delay, down, down_delay) in sorted(cue.parts.items()):
            texts = tuple(hundredths_text(t).encode() for t in (up, up_delay, down, down_delay))
            out += [b"PART %d" % p, b"UP %s %s" % texts[:2], b"DOWN %s %s" % texts[2:]]
            out += [b"CHAN %d@H%02X" % (c, value) for c, (part, value) in sorted(cue.moves.items()) if part == p]
    return b"\n".join(out + [b"ENDDATA", b""])
