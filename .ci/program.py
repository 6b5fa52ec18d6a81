#!/usr/bin/env python3
"""Runs the built program on a table of inputs, and compares what it writes and how it ends.

    program.py [--program PATH] [--only TEXT]

Prints a line for each run that went wrong, and last 'N passed, M failed'. What is expected is written down from the
rules (docs/FORMATS.md), never from what the program printed. Without --program it is crates/cuedesk/out/cuedesk, which
`rt ci` leaves there; where it is missing or a source is newer, the launcher builds it first.
"""
import argparse
import errno
import functools
import os
import re
import resource
import subprocess
import sys
import tempfile
import time

import crews
import live_runs
import plain_desk
import refusals
import walks
from limits import Started, within

TOP = os.path.dirname(os.path.dirname(os.path.abspath(__file__)))
USAGE = b"usage: cuedesk check|render|sheet [states] | make N | run U [states]\n"
INPUT_BYTES = 67_108_864
# The seconds of a run, and of one that is talked with.
TIME_LIMIT, TALK_LIMIT = 60, 120
WALKS = 600

# A patch of channel 1 to dimmer 1, and a cue that moves channel 1 at once.
PATCHED = "IDENT 3:0\nPATCH 1 1<1@FL\n"
AT_ONCE = "UP 0\nDOWN 0\n"
ONE_CUE = PATCHED + "CUE 1\n" + AT_ONCE + "CHAN 1@H80\nENDDATA\n"


class Case:
    """One run: words, input, and the status and the output that are wanted."""

    def __init__(self, name, text, output, status=0, words=("render",), error=b"", **special):
        self.name = name
        self.input = text if isinstance(text, bytes) else text.encode()
        self.output = output if isinstance(output, bytes) else output.encode()
        self.status = status
        self.words = list(words)
        self.error = error
        self.special = special


def show(lines):
    return PATCHED + lines + "ENDDATA\n"


def fault(name, lines, cause, line):
    """A show text behind its IDENT line that is refused at the line given."""
    return Case(f"refused: {name}", "IDENT 3:0\n" + lines + "\nENDDATA\n", f"show {cause} {line}\n", status=1)


# ---------------------------------------------------------------------------------------------------------------------
# The edge: how the program ends, and what its words and streams do.


def made(words, output, **special):
    """A run of `make`, which reads nothing: its standard input is a folder, which can't be read."""
    return Case(" ".join(words), b"", output, words=words, folder=True, **special)


def job_cases():
    """Words that name no job, and runs of `make`. What the greater numbers come to was worked out by a desk that was written apart, from the same rules."""
    wrong = [("make",), ("make", "0"), ("make", "4001"), ("make", "01"), ("make", "1", "2"), ("make", "+1"), ("make", "-1"),
             ("make", "1x"), ("make", ""), ("make", "4294967297"), ("make", "1", "states"), ("run",), ("run", "0"), ("run", "33"),
             ("run", "01"), ("run", "1", "moves"), ("run", "states"), ("undo", "moves"), ("undo", "1"), ("Undo",),
             ("undo", "states", "states"), ("crew",), ("crew", "0"), ("crew", "5"), ("crew", "01"), ("crew", "1", "moves"), ("crew", "states"),
             ("Crew", "1"), ("crew", "1", "states", "states"), ("two", "moves"), ("two", "2"), ("TWO",), ("render", "-"), ("check", "--"), ("-h",),
             ("help",), ("--version",)]
    return [made(words, "", status=2, error=USAGE) for words in wrong] + [
        made(("make", "1"), "cues 1\nmoment 174\nok 3\nrefused 0\nsum 127\n"),
        made(("make", "30"), "cues 30\nmoment 3308\nok 90\nrefused 0\nsum 16319\n"),
        made(("make", "30"), "cues 30\nmoment 3308\nok 90\nrefused 0\nsum 16319\n"),
        made(("make", "300"), "cues 300\nmoment 30742\nok 900\nrefused 0\nsum 62920\n"),
        made(("make", "300"), "cues 300\nmoment 30742\nok 900\nrefused 0\nsum 62920\n"),
        made(("make", "2000"), "cues 2000\nmoment 202568\nok 5979\nrefused 21\nsum 63336\n"),
        made(("make", "2001"), "cues 2001\nmoment 201398\nok 5989\nrefused 14\nsum 61172\n"),
        made(("make", "4000"), "cues 4000\nmoment 404072\nok 11958\nrefused 42\nsum 64224\n"),
    ]


def edge_cases():
    return job_cases() + [
        Case("status 0 at the end of the script", ONE_CUE + "go\nframe\n", "ok\nframe 0 1 1=128\n"),
        Case("status 0 at quit", ONE_CUE + "go\nquit\nframe\n", "ok\n"),
        Case("status 1 for a show that is refused", "CUE 1\n", "show NoIdent 1\n", status=1),
        Case("status 3 where the input is a folder", b"", "", status=3, folder=True),
        Case("status 4 where the output is a full device", ONE_CUE + "go\n", "", status=4, full=True),
        Case("status 4 where a refused show's line can't be written", "CUE 1\n", "", status=4, full=True),
        *[Case(f"status 4 of {' '.join(words)} on a full device", ONE_CUE + "go\n", "", status=4, words=words, full=True)
          for words in (("check",), ("check", "states"), ("sheet",), ("sheet", "states"), ("make", "1"), ("render", "states"), ("run", "1"),
                        ("undo",), ("undo", "states"), ("two",), ("two", "states"))],
        *[Case(f"status 3 of {' '.join(words)} on a folder", b"", "", status=3, words=words, folder=True)
          for words in (("check",), ("check", "states"), ("sheet",), ("sheet", "states"), ("render", "states"), ("run", "1"),
                        ("run", "1", "states"), ("undo",), ("undo", "states"), ("two",), ("two", "states"))],
        Case("status 5 where memory runs out", "IDENT 3:0\nSET CHANNELS 4096\nENDDATA\ngo\n", "", status=5, memory=3 << 20),
        Case("status 6 for an input that is too long", b"\n" * INPUT_BYTES + b"X", "", status=6),
        Case("status 6 for a script that is too long", (ONE_CUE + "go\n").encode() + b"!" * INPUT_BYTES, "ok\n", status=6),
        Case("an input of the greatest length is read to its end", b"\n" * INPUT_BYTES, f"show NoEndData {INPUT_BYTES + 1}\n", status=1),
        Case("check", ONE_CUE + "go\n", "show cues 1 channels 512 skipped 0 first 0\n", words=("check",)),
        Case("sheet", ONE_CUE + "go\n", "cue 1 track 1 1\nrow 1 1=128\n", words=("sheet",)),
        Case("check of a show that is refused", "CUE 1\n", "show NoIdent 1\n", status=1, words=("check",)),
        Case("no words", ONE_CUE, "", status=2, words=(), error=USAGE),
        Case("a word in the other case", ONE_CUE, "", status=2, words=("RENDER",), error=USAGE),
        Case("a word that isn't known", ONE_CUE, "", status=2, words=("play",), error=USAGE),
        Case("a second word that isn't known", ONE_CUE, "", status=2, words=("render", "moves"), error=USAGE),
        Case("an empty word", ONE_CUE, "", status=2, words=("",), error=USAGE),
        Case("a word that begins with a dash", ONE_CUE, "", status=2, words=("--help",), error=USAGE),
        Case("a word whose bytes are no text", ONE_CUE, "", status=2, words=(b"render\xff",), error=USAGE),
    ]


# ---------------------------------------------------------------------------------------------------------------------
# Long runs and limits.


def cue_limit():
    """A show of 4,000 cues: one that is there may be made again, a further one not."""
    cues = "".join(f"CUE {n}\n" for n in range(1, 4001))
    return Case("the 4,001st cue", show(cues) + "cue 9999.999\ncue 4000\ncue 0.001\ndelete 7\ncue 9999.999\n",
                "refused CueLimit\nok\nrefused CueLimit\nok\nok\n")


def full_playback():
    text = show("CUE 1\nUP 40:00\nCHAN 1@FL\n") + "goto 1\n" * 513 + "settle\ngoto 1\nframe\n"
    return Case("512 runs live", text, "ok\n" * 512 + "refused PlaybackFull\nok\nok\nframe 0 1 1=255\n")


def bad_lines(ident):
    """Script lines that say nothing: numbers out of range, a word too many, ranges and words in the wrong order, and lines that are too long."""
    lines = ["tick 0", "tick 100000001", "goto 0", "go now", "set 1 chan 5 thru 4 at 0", "set 1 chan 1 at 5 only part 1", "x" * 4097,
             "frame 0", "frame 33", "save all", "quit now", "delete only", "only delete 1", "set 1 sub 1 at 5", "patch 0 chan 1 at 5", "label", "tick -1"]
    return Case("script lines that are bad", ident + "\n".join(lines) + "\nframe\n", "bad\n" * len(lines) + "frame 0 1\n")


def limit_cases():
    ident = "IDENT 3:0\nENDDATA\n"
    longest = "x" * 4096
    return [
        Case("all ticks, and one more", ONE_CUE + "tick 100000000\ntick\nframe\n", "ok\nrefused TickLimit 200000000\nframe 200000000 1\n"),
        Case("ticks past the last moment are refused once", ONE_CUE + "tick 99999999\ntick 2\nframe\n", "ok\nrefused TickLimit 200000000\nframe 200000000 1\n"),
        full_playback(),
        cue_limit(),
        Case("the 4,001st cue of a text", "IDENT 3:0\n" + "".join(f"CUE {n}\n" for n in range(1, 4002)) + "ENDDATA\n", "show OutOfRange 4002\n", status=1),
        Case("a script line of 4,096 bytes and one of 4,097", ident + longest + "\n" + longest + "x\nframe\n", "bad\nbad\nframe 0 1\n"),
        Case("a show line of 4,096 bytes", f"IDENT 3:0\n{longest}\nENDDATA\nframe\n", "frame 0 1\n"),
        fault("a show line of 4,097 bytes", longest + "x", "LineTooLong", 2),
        bad_lines(ident),
        Case("a last line without its line end", ONE_CUE + "go\nframe", "ok\nframe 0 1 1=128\n"),
    ]


# ---------------------------------------------------------------------------------------------------------------------
# Shows at their greatest: every group and submaster, every channel, nine parts.


def labelled_shows():
    """999 groups and 96 submasters with labels; the last of each is used, and the text that is saved is the show's."""
    groups = "".join(f"GROUP {g}\nTEXT group {g}\nCHAN 1@H80\n" for g in range(1, 1000))
    subs = "".join(f"SUB {s}\nTEXT sub {s}\nCHAN 1@H64\n" for s in range(1, 97))
    cue = "CUE 1\n" + AT_ONCE
    script = "set 1 group 999 at FL\ngo\nframe\nmaster at FL\nfader 96 at FL\nframe\nset 1 group 1 at 0\nframe\nsave\n"
    saved = ("IDENT 3:0\nSET CHANNELS 512\nPATCH 1 1<1@HFF\n" + groups + subs
             + "CUE 1\nPART 1\nUP 0 0\nDOWN 0 0\nCHAN 1@H00\nENDDATA\n")
    return Case("every group and submaster, with labels", PATCHED + groups + subs + cue + "ENDDATA\n" + script,
                "ok\nok\nframe 0 1 1=128\nok\nok\nframe 0 1 1=128\nok\nframe 0 1 1=100\n" + saved)


def all_channels():
    """4,096 channels on 4,096 dimmers are edited and played in eight universes."""
    patch = "SET CHANNELS 4096\n" + "".join(f"PATCH 1 {c}<{c}@FL\n" for c in range(1, 4097))
    script = "set 1 chan 1 thru 4096 at H40\ngo\nframe 8\nset 1 chan 4096 at FL\nframe 8\nset 1 chan 4097 at 5\nrelease 1 chan 1 thru 4096\nframe 8\n"
    frame = "frame 0 8" + "".join(f" {s}=64" for s in range(1, 512))
    return Case("4,096 channels", "IDENT 3:0\n" + patch + "CUE 1\n" + AT_ONCE + "ENDDATA\n" + script,
                f"ok\nok\n{frame} 512=64\nok\n{frame} 512=255\nbad\nok\nframe 0 8\n")


def nine_parts():
    parts = "".join(f"PART {p}\nUP {p}\nCHAN {p}@FL\n" for p in range(1, 10))
    patch = "".join(f"PATCH 1 {c}<{c}@FL\n" for c in range(2, 10))
    script = "time 1 part 9 up 4 2\ngo\ntick 200\nframe\nunpart 1 9\nunpart 1 9\npart 1 9\nset 1 chan 9 at 0 part 9\nframe\n"
    # At 400 hundredths: part p gives 255 * 400 / (100 p), and part 9 has gone 200 of its 400.
    levels = " ".join(f"{p}={min(255, 255 * 400 // (100 * p))}" for p in range(1, 9))
    # Without part 9 its move stands in part 1, whose times the run took too; a move at 0 rises from 0 to 0.
    return Case("the last of nine parts", PATCHED + patch + "CUE 1\n" + parts + "ENDDATA\n" + script,
                f"ok\nok\nok\nframe 400 1 {levels} 9=127\nok\nrefused AbsentPart 1 9\nok\nok\nframe 400 1 {levels}\n")


def label_and_follow():
    saved = "IDENT 3:0\nSET CHANNELS 512\nPATCH 1 1<1@HFF\nCUE 1\nPART 1\nUP 5 0\nDOWN 5 0\nENDDATA\n"
    return Case("a label and a follow are taken away", show("CUE 1\nTEXT Preset\nFOLLOWON 2\n") + "label 1\nfollow 1 off\nsave\n", "ok\nok\n" + saved)


def finest_numbers():
    """A cue between cues by a thousandth, the last channel and the last dimmer; cue 2.55 lies below it."""
    text = "IDENT 3:0\nSET CHANNELS 4096\nCUE 2.555\nUP 0\nCHAN 4096@FL\nENDDATA\n"
    return [Case("the last channel and dimmer", text + "patch 16384 chan 4096 at 50\ngo\nframe 32\nsheet 2.555\n",
                 "ok\nok\nframe 0 32 512=128\nrow 2.555 4096=255\n"),
            Case("a cue below by five thousandths", text + "cue 2.55\ngo\ngo\nback\nback\n", "ok\nok\nok\nok\nrefused NoCueBefore 2.55\n")]


def many_looks():
    """4,000 looks: of each a row has what it names and nothing else, and a move is what differs from the look before."""
    looks = [{1 + 7 * n % 24: 1 + n % 255, 1 + (11 * n + 5) % 24: 255 - n % 200} for n in range(1, 4001)]
    levels = [{c: level for c, level in look.items() if level} for look in looks]
    text = "IDENT 3:0\nSET CHANNELS 24\nPATCH 1 " + " ".join(f"{c}<{c}@FL" for c in range(1, 25)) + "\n" + "".join(
        f"CUE {n}\n{AT_ONCE}CHAN " + " ".join(f"{c}@H{level:02X}" for c, level in look.items()) + "\n" for n, look in enumerate(looks, 1)) + "ENDDATA\n"
    cells = ["".join(f" {c}={level}" for c, level in sorted(look.items())) for look in levels]
    moves = [sum(before.get(c, 0) != look.get(c, 0) for c in range(1, 25)) for before, look in zip([{}] + levels, levels)]
    sheet = "".join(f"cue {n} track 1 {count}\nrow {n}{row}\n" for n, (count, row) in enumerate(zip(moves, cells), 1))
    return [Case("a sheet of 4,000 looks", text, sheet, words=("sheet", "states")),
            Case("4,000 looks are played", text + "goto 3999\nframe\ngo\nframe\nback\nsheet 3999\nsettle\nframe\n",
                 f"ok\nframe 0 1{cells[3998]}\nok\nframe 0 1{cells[3999]}\nok\nrow 3999{cells[3998]}\nok\nframe 0 1{cells[3998]}\n",
                 words=("render", "states"))]


def great_record():
    """4,096 channels are recorded half way to full, and each is in the record; with `only` the cue above keeps the level of each."""
    patch = "SET CHANNELS 4096\n" + "".join(f"PATCH 1 {c}<{c}@FL\n" for c in range(1, 4097))
    cues = "CUE 1\nUP 10\n" + "".join(f"CHAN {c}@FL\n" for c in range(1, 4097)) + "CUE 3\n" + AT_ONCE
    half, full = ("".join(f" {c}={level}" for c in range(1, 4097)) for level in (127, 255))
    script = "go|tick 250|record 2|sheet 2|sheet 3|undo|sheet 2|sheet 3|record 2 only|sheet 2|sheet 3|goto 2|tick 250|frame 8|".replace("|", "\n")
    replies = (f"ok\nok\nok\nrow 2{half}\nrow 3{half}\nok\nrefused AbsentCue 2\nrow 3{full}\nok\nrow 2{half}\nrow 3{full}\nok\nok\n"
               "frame 1000 8" + "".join(f" {s}=127" for s in range(1, 513)) + "\n")
    return Case("a record of 4,096 channels", "IDENT 3:0\n" + patch + cues + "ENDDATA\n" + script, replies, words=("undo",))


def great_cases():
    return [labelled_shows(), all_channels(), nine_parts(), label_and_follow(), great_record()] + finest_numbers() + many_looks()


# ---------------------------------------------------------------------------------------------------------------------
# Kept levels: edits under running fades, and many runs for a long time.


def kept_cases():
    delayed = show("CUE 1\nUP 4 1\nCHAN 1@FL\n")
    # 512 runs of a fade of 40 minutes: after 2,000 seconds it has gone 200,000 of 240,000 hundredths.
    long = ("IDENT 3:0\nSET CHANNELS 4096\nPATCH 1 1<1@FL\nCUE 1\nUP 40:00\nCHAN 1@FL\nENDDATA\n" + "goto 1\n" * 512 + "tick 100000\nframe\n")
    return [
        Case("a cue is deleted while its fade is delayed", delayed + "go\ntick 25\ndelete 1\ntick 100\nframe\n", "ok\nok\nok\nok\nframe 250 1\n"),
        Case("a level is set while it fades", delayed + "go\ntick 150\nset 1 chan 1 at H80\nframe\n", "ok\nok\nok\nframe 300 1 1=64\n"),
        Case("a cue behind the position changes nothing", delayed + "go\ntick 150\ncue 0.5\nset 0.5 chan 1 at H64\nframe\n", "ok\nok\nok\nok\nframe 300 1 1=127\n"),
        Case("512 runs of 4,096 channels for 100,000 ticks", long, "ok\n" * 513 + f"frame 200000 1 1={255 * 200000 // 240000}\n"),
        Case("a follow-on fires and rests in one tick", show("CUE 1\n" + AT_ONCE + "FOLLOWON 0\nCUE 2\n" + AT_ONCE + "CHAN 1@FL\n") + "go\ntick\nframe\ngo\n",
             "ok\nok\nframe 2 1 1=255\nrefused NoCueAfter 2\n"),
    ]


def assert_cases():
    """Cue 1 brings channel 1 to full in 10 seconds; cue 2 doesn't name it, and acts on it while it is asserted."""
    def over(cue, script, *frames):
        replies = "".join(f"frame {frame}\n" if frame else "ok\n" for frame in frames)
        return show("CUE 1\nUP 10\nCHAN 1@FL\nCUE 2\n" + cue) + "\n".join(script.split("|")) + "\n", replies

    begun, on = "go|tick 250|go|tick 50|frame|", ["", "", "", "", "600 1 1=153"]
    return [
        Case("a cue is asserted while it runs", *over("UP 2\n", begun + "assert 2|frame|unassert 2|frame|assert 2|assert 2|frame",
                                                      *on, "", "600 1 1=191", "", "600 1 1=153", "", "", "600 1 1=191")),
        Case("an asserted cue is deleted, and made again", *over("$$ASSERT\nUP 2\n", "go|tick 250|go|tick 50|frame|delete 2|frame|cue 2|frame",
                                                                 "", "", "", "", "600 1 1=191", "", "600 1 1=153", "", "600 1 1=153")),
        Case("asserted while its fade waits", *over("UP 2 1\n", begun + "assert 2|frame|tick 50|frame|unassert 2|frame|assert 2|delete 2 only|frame",
                                                    *on, "", "600 1 1=153", "", "700 1 1=204", "", "700 1 1=178", "", "", "700 1 1=178")),
        Case("a cue-only edit below an asserted cue", over("$$ASSERT\nUP 2\n", "set 1 chan 1 at 0 only|save")[0],
             "ok\nIDENT 3:0\nSET CHANNELS 512\nPATCH 1 1<1@HFF\nCUE 1\nPART 1\nUP 10 0\nDOWN 5 0\nCHAN 1@H00\n"
             "CUE 2\n$$ASSERT\nPART 1\nUP 2 0\nDOWN 5 0\nCHAN 1@HFF\nENDDATA\n"),
        Case("an absent cue isn't asserted", PATCHED + "ENDDATA\nassert 9\nunassert 9\nassert\nassert 9 x\nunassert 0\n",
             "refused AbsentCue 9\nrefused AbsentCue 9\nbad\nbad\nbad\n"),
        Case("$$ASSERT is saved behind $$BLOCK, and skipped outside of a cue",
             "$$ASSERT\nIDENT 3:0\nSUB 1\n$$ASSERT\nCUE 1\n$$assert\n$$BLOCK\nTEXT x\nENDDATA\nsave\n",
             "IDENT 3:0\nSET CHANNELS 512\nSUB 1\nCUE 1\n$$BLOCK\n$$ASSERT\nTEXT x\nPART 1\nUP 5 0\nDOWN 5 0\nENDDATA\n"),
    ]


def undo_cases():
    """Cue 1 brings channel 1 to full in 10 seconds, and is half way there after 250 ticks."""
    def over(name, script, replies, cues="", text=None, **special):
        before = show("CUE 1\nUP 10\nCHAN 1@FL\n" + cues) if text is None else text
        return Case(f"undo: {name}", before + script.replace("|", "\n") + "\n", replies.replace("|", "\n") + "\n", words=("undo",),
                    **special)

    wrong = ["undo 1", "redo all", "record", "record 0", "record x", "record 1 2", "record 1 chan 1", "record only", "record 1 only only",
             "undo x" + " " * 4096]
    full = "IDENT 3:0\n" + "".join(f"CUE {n}\n" for n in range(1, 4001)) + "ENDDATA\n"
    first = "IDENT 3:0|SET CHANNELS 512|PATCH 1 1<1@HFF|CUE 1|TEXT 0|PART 1|UP 10 0|DOWN 5 0|CHAN 1@HFF|ENDDATA"
    return [
        over("what was recorded goes back and forth",
             "undo|go|tick 250|record 2|sheet 2|undo|sheet 2|redo|sheet 2|set 1 chan 1 at 0|frame|undo|frame|redo|redo",
             "refused NothingToUndo|ok|ok|ok|row 2 1=127|ok|refused AbsentCue 2|ok|row 2 1=127|ok|frame 500 1|ok|frame 500 1 1=127|ok"
             "|refused NothingToRedo"),
        over("sixteen shows are kept, and no seventeenth", "".join(f"label 1 {n}|" for n in range(17)) + "undo|" * 17 + "save",
             "ok|" * 33 + "refused NothingToUndo|" + first),
        over("a refused edit is none to undo, and an accepted one ends redo", "set 9 chan 1 at 5|undo|label 1 x|undo|cue 1|redo|undo|undo",
             "refused AbsentCue 9|refused NothingToUndo|ok|ok|ok|refused NothingToRedo|ok|refused NothingToUndo"),
        over("keys, ticks and faders are none to undo", "go|tick 250|master at 50|undo|frame",
             "ok|ok|ok|refused NothingToUndo|frame 500 1 1=63"),
        over("the playback goes on while shows come back", "label 1 x|go|tick 100|undo|tick 150|frame", "ok|ok|ok|ok|ok|frame 500 1 1=127"),
        over("a record may leave the next cue's look", "go|tick 250|record 2 only|sheet 2|sheet 3|undo|record 2|sheet 3",
             "ok|ok|ok|row 2 1=127|row 3 1=255|ok|ok|row 3 1=127", cues="CUE 3\n"),
        over("a record of the 4,001st cue", "record 5000|record 4000|undo|undo", "refused CueLimit|ok|ok|refused NothingToUndo", text=full),
        over("lines that are bad", "|".join(wrong), "|".join(["bad"] * len(wrong))),
        over("words in either case", "UNDO|Redo|RECORD 2 ONLY|undo ! once", "refused NothingToUndo|refused NothingToRedo|ok|ok"),
        over("a show that is refused", "undo", "show NotInRecord 2", text="IDENT 3:0\nCHAN 1@50\nENDDATA\n", status=1),
        Case("undo states", "IDENT 3:0\nCUE 1\nCHAN 1@FL\nCUE 2\nCHAN 2@FL\nENDDATA\nsheet 2\nset 2 chan 2 at 0\nsheet 2\nundo\nsheet 2\n",
             "row 2 2=255\nok\nrow 2\nok\nrow 2 2=255\n", words=("undo", "states")),
        Case("undo: status 6 for a script that is too long", (ONE_CUE + "undo\n").encode() + b"!" * INPUT_BYTES, "refused NothingToUndo\n",
             status=6, words=("undo",)),
        Case("by render the lines of undo are bad", ONE_CUE + "cue 2\nundo\nredo\nrecord 1\nsheet 2\n", "ok\nbad\nbad\nbad\nrow 2 1=128\n"),
    ]


def two_cases():
    """Cue 1 of the first list brings channel 1 to 100, and cue 5000 of the second to 200, both at once."""
    lists = "CUE 1\n" + AT_ONCE + "CHAN 1@H64\nCUE 5000\n" + AT_ONCE + "CHAN 1@HC8\n"

    def over(name, script, replies, cues=lists, words=("two",), **special):
        return Case(f"two: {name}", show(cues) + script.replace("|", "\n") + "\n", replies.replace("|", "\n") + "\n", words=words,
                    **special)

    wrong = ["2", "2 ! go", "2 frame", "2 tick", "2 tick 5", "2 fader 1 at 5", "2 master at 5", "2 sub 1 chan 1 at 5",
             "2 patch 1 chan 1 at 5", "2 unpatch 1", "2 quit", "2 2 go", "2 go now", "2 set 5000", "2 undo", "undo", "redo", "record 1", "02 go", "2. go",
             "2 label 5000 " + "x" * 4096]
    saved = "IDENT 3:0|SET CHANNELS 512|PATCH 1 1<1@HFF|CUE {}|{}PART 1|UP 0 0|DOWN 0 0|CHAN 1@H{}|ENDDATA"
    return [
        over("the greater of both governs", "go|frame|2 go|frame|go|2 back|2 frame|2 set 5000 chan 1 at 0|frame|sheet 5000",
             "ok|frame 0 1 1=100|ok|frame 0 1 1=200|refused NoCueAfter 1|refused NoCueBefore 5000|bad|ok|frame 0 1 1=100"
             "|refused AbsentCue 5000"),
        over("lines for the second list that are bad", "|".join(wrong) + "|2 go", "|".join(["bad"] * len(wrong)) + "|ok"),
        over("a tick is for both", "go|2 go|tick 250|frame", "ok|ok|ok|frame 500 1 1=127",
             cues="CUE 1\nUP 10\nCHAN 1@FL\nCUE 5000\nUP 20\nCHAN 1@FL\n"),
        over("the last tick is for both", "tick 100000000|2 go|tick|frame", "ok|ok|refused TickLimit 200000000|frame 200000000 1 1=200"),
        over("the first list's submasters and master govern", "2 go|master at 50|frame|sub 1 chan 1 at FL|fader 1 at FL|frame",
             "ok|ok|frame 0 1 1=100|ok|ok|frame 0 1 1=128"),
        over("the first list's patch governs", "2 go|unpatch 1|frame|patch 513 chan 1 at FL|frame 2", "ok|ok|frame 0 1|ok|frame 0 2 1=200"),
        over("each list saves its own show", "2 label 5000 The house ! open|save|2 save",
             "ok|" + saved.format(1, "", 64) + "|" + saved.format(5000, "TEXT The house ! open|", "C8")),
        over("an edit of one list leaves the other", "cue 6000|2 cue 2|sheet 6000|2 sheet 6000|2 sheet 2|sheet 2|2 sheet 5000",
             "ok|ok|row 6000 1=100|refused AbsentCue 6000|row 2|refused AbsentCue 2|row 5000 1=200"),
        over("the lists meet at 5000", "go|go|2 go|2 back", "ok|refused NoCueAfter 4999.999|ok|refused NoCueBefore 5000",
             cues="CUE 4999.999\nCUE 5000\n"),
        over("a key of one list leaves the other", "2 go|goto 1|2 settle|2 goto 1|2 goto 5000|frame",
             "ok|ok|ok|refused AbsentCue 1|ok|frame 0 1 1=200"),
        over("looks", "sheet 1|2 sheet 5000", "row 1 1=255|row 5000 2=255", cues="CUE 1\nCHAN 1@FL\nCUE 5000\nCHAN 2@FL\n",
             words=("two", "states")),
        over("a show that is refused", "2 go", "show OutOfRange 4", cues="CUE 5000\nCHAN 1@101\n", status=1),
        Case("two: status 6 for a script that is too long", (ONE_CUE + "2 go\n").encode() + b"!" * INPUT_BYTES, "refused NoCueAfter 0\n",
             status=6, words=("two",)),
        Case("by render a line for a second list is bad", ONE_CUE + "2 go\n2 cue 1\n", "bad\nbad\n"),
        Case("by undo a line for a second list is bad", ONE_CUE + "2 go\n2 undo\n", "bad\nbad\n", words=("undo",)),
    ]


# ---------------------------------------------------------------------------------------------------------------------
# Show texts: each word of a record with each of its tokens missing, of the wrong form and out of range.

# The word, a line before it, its tokens, and for each token a text that hasn't the form and one out of range.
WRONG_TOKENS = [
    ("CHAN", "CUE 1\n", ["1", "50"], [("x", "4097"), ("x", "101")]),
    ("PART", "CUE 1\n", ["1"], [("x", "10")]),
    ("UP", "CUE 1\n", ["1", "2"], [("x", "6000"), ("1:", "1:60")]),
    ("DOWN", "CUE 1\n", ["1", "2"], [("1:2:3", "100:00"), (".", "99:60")]),
    ("FOLLOWON", "CUE 1\n", ["1"], [("x", "6000")]),
    ("LINK", "CUE 1\n", ["2"], [("1.2345", "0")]),
    ("CUE", "", ["1"], [("1.2345", "10000")]),
    ("GROUP", "", ["1"], [("1.5", "1000")]),
    ("SUB", "", ["1"], [("x", "97")]),
    ("CHAN", "GROUP 1\n", ["1", "50"], [("1.5", "0"), ("H1", "101")]),
    ("CHAN", "SUB 1\n", ["1", "50"], [("", "0"), ("HGG", "999")]),
    ("SET CHANNELS", "", ["24"], [("x", "4097")]),
    ("PATCH 1", "", ["1", "2", "50"], [("x", "4097"), ("x", "16385"), ("x", "101")]),
]
# Words whose later tokens may be absent: how many are needed.
NEEDED = {"UP": 1, "DOWN": 1}


def wrong_tokens():
    for word, before, tokens, wrong in WRONG_TOKENS:
        line = 2 + before.count("\n") + 0
        for k, (shape, outside) in enumerate(wrong):
            for text, cause in ((shape, "BadNumber"), (outside, "OutOfRange")):
                if text:
                    said = " ".join([word] + tokens[:k] + [text] + tokens[k + 1:])
                    yield fault(f"{before.strip()} {said}", before + said, cause, line)
        for k in range(NEEDED.get(word, len(tokens))):
            if k or word not in ("CHAN", "PATCH 1"):
                said = " ".join([word] + tokens[:k])
                yield fault(f"{before.strip()} {said}", before + said, "ShortList", line)


def reading_cases():
    return list(wrong_tokens()) + [
        fault("a level without its channel", "CUE 1\nCHAN 1@", "ShortList", 3),
        fault("a channel that is no number", "CUE 1\nCHAN x@5", "BadNumber", 3),
        fault("101 percent", "CUE 1\nCHAN 1@101", "OutOfRange", 3),
        fault("the leftmost token decides", "CUE 1\nCHAN 1@101 x@5", "OutOfRange", 3),
        fault("levels outside of a record", "CHAN 1@50", "NotInRecord", 2),
        fault("a part outside of a record", "PART 1", "NotInRecord", 2),
        fault("a time outside of a record", "UP 1", "NotInRecord", 2),
        fault("a patch without its page", "PATCH", "ShortList", 2),
        Case("refused: no IDENT", "ENDDATA\n", "show NoIdent 1\n", status=1),
        Case("refused: another version", "IDENT 2:0\n", "show NoIdent 1\n", status=1),
        Case("refused: no ENDDATA", "IDENT 3:0\nCUE 1\n", "show NoEndData 3\n", status=1),
        Case("words in either case", "ident 3:0\npatch 1 1<1@fl\nCue 1\nup 0\nchan 1@h80\nenddata\nGO\nFrame\n", "ok\nframe 0 1 1=128\n"),
        Case("CR LF", ONE_CUE.replace("\n", "\r\n") + "go\r\nframe\r\n", "ok\nframe 0 1 1=128\n"),
        Case("a cue of another page", PATCHED + "CUE 1 2\nCHAN 1@FL\nCUE 2\n" + AT_ONCE + "CHAN 1@50\nENDDATA\ngo\nframe\n", "ok\nframe 0 1 1=128\n"),
        Case("CLEAR ALL forgets", PATCHED + "CUE 1\nCLEAR ALL\nPATCH 1 2<1@FL\nENDDATA\ngo\nfader 1 at FL\n", "refused NoCueAfter 0\nrefused AbsentSub 1\n"),
    ]


# ---------------------------------------------------------------------------------------------------------------------
# Runs that need more than one look: a talk over pipes, and a reader that goes away.


def talk(program):
    """Each reply is there before the next line is sent."""
    steps = [("go\n", b"ok\n"), ("frame\n", b"frame 0 1 1=128\n"), ("fly\n", b"bad\n"), ("tick 5\n", b"ok\n"), ("frame\n", b"frame 10 1 1=128\n")]
    with Started([program, "render"], stdin=subprocess.PIPE, stdout=subprocess.PIPE) as run:
        run.stdin.write(ONE_CUE.encode())
        run.stdin.flush()
        for line, reply in steps:
            run.stdin.write(line.encode())
            run.stdin.flush()
            got = run.stdout.readline()
            if got != reply:
                run.kill()
                return [f"{line.strip()} was answered {got!r}, not {reply!r}"]
        run.stdin.close()
        rest = run.stdout.read()
        status = run.wait(TIME_LIMIT)
    return [f"status {status} and {rest!r} at the end"] if status or rest else []


def refused_at_once(program):
    """A refused show is told while the input is still open."""
    with Started([program, "render"], stdin=subprocess.PIPE, stdout=subprocess.PIPE) as run:
        run.stdin.write(b"IDENT 3:0\nCHAN 1@50\n")
        run.stdin.flush()
        got = run.stdout.readline()
        run.stdin.close()
        status = run.wait(TIME_LIMIT)
    return [] if (got, status) == (b"show NotInRecord 2\n", 1) else [f"answered {got!r}, status {status}"]


def reader_goes_away(program):
    """A reader that closes its end early makes a failed write, and no message of the language's runtime."""
    text = (ONE_CUE + "go\n" + "frame\n" * 200_000).encode()
    with tempfile.TemporaryFile() as source:
        source.write(text)
        source.seek(0)
        with Started([program, "render"], stdin=source, stdout=subprocess.PIPE, stderr=subprocess.PIPE) as run:
            run.stdout.readline()
            run.stdout.close()
            error = run.stderr.read()
            status = run.wait(TIME_LIMIT)
    return [] if (status, error) == (4, b"") else [f"status {status}, standard error {error[:200]!r}"]


def closed_output(program):
    """Standard output is closed from the start."""
    run = subprocess.run([program, "render"], input=(ONE_CUE + "go\n").encode(), stderr=subprocess.PIPE, timeout=TIME_LIMIT,
                         preexec_fn=lambda: os.close(1))
    return [] if (run.returncode, run.stderr) == (4, b"") else [f"status {run.returncode}, standard error {run.stderr[:200]!r}"]


def waits(run):
    """Whether the program sleeps in a call."""
    with open(f"/proc/{run.pid}/stat") as stat:
        return stat.read().rpartition(")")[2].split()[0] == "S"


def terminal_goes_away(program):
    """A terminal that is closed in the middle of a line, while the program waits for the rest: nothing is said of it. The read fails, or the
    system tells the end of the input where the read came after the closing."""
    master, terminal = os.openpty()
    with Started([program, "render"], stdin=terminal, stdout=terminal, stderr=subprocess.PIPE, start_new_session=True) as run:
        os.close(terminal)
        os.write(master, ONE_CUE.encode() + b"go\n")
        said = b""
        while b"ok\r\n" not in said:
            said += os.read(master, 4096)
        os.write(master, b"fra")
        until = time.monotonic() + TIME_LIMIT
        while not waits(run) and time.monotonic() < until:
            time.sleep(0.01)
        os.close(master)
        error = run.stderr.read()
        status = run.wait(TIME_LIMIT)
    return [] if status in (0, 3, 4) and error == b"" else [f"status {status}, standard error {error[:200]!r}"]


# What a person is told of behind the usage line.
JOBS = ("check", "sheet", "render", "run U", "make N", "undo", "two", "crew N")


def read_to_close(master):
    """What is written to a terminal until its last writer closes it, with the line ends of a file."""
    said = b""
    try:
        while piece := os.read(master, 4096):
            said += piece
    except OSError as error:
        if error.errno != errno.EIO:
            raise
    return said.replace(b"\r\n", b"\n")


def jobs_are_told_at_a_terminal(program):
    """Words that name no job: a person whose standard error is a terminal gets the usage line, and behind it a line for each job and the
    manual's; through a pipe the usage line stands alone, whatever standard input and output are."""
    master, terminal = os.openpty()
    with Started([program, "play"], stdin=subprocess.DEVNULL, stdout=subprocess.PIPE, stderr=terminal, start_new_session=True) as run:
        os.close(terminal)
        said = read_to_close(master)
        output, status = run.stdout.read(), run.wait(TIME_LIMIT)
    os.close(master)
    jobs = said.removeprefix(USAGE).decode()
    wrong = [f"no line on {job}" for job in JOBS if not re.search(rf"^ +{job}  +\w", jobs, re.M)]
    wrong += ["no usage line"] * (not said.startswith(USAGE)) + ["no manual"] * (not re.search(r"man cuedesk.*docs/GUIDE\.md", jobs))
    wrong += [f"status {status}, output {output!r}"] * (status != 2 or output != b"")
    master, terminal = os.openpty()
    run = subprocess.run([program, "play"], stdin=terminal, stdout=terminal, stderr=subprocess.PIPE, timeout=TIME_LIMIT)
    os.close(terminal)
    os.close(master)
    return wrong + [f"through a pipe {run.stderr!r}, status {run.returncode}"] * (run.stderr != USAGE or run.returncode != 2)


# A rig of all channels, and edits that want more and more memory, with keys and frames among them; every line has one line of reply.
GREAT_RIG = "IDENT 3:0\nSET CHANNELS 4096\nPATCH 1 1<1@FL 2<1024@50\nCUE 1\n" + AT_ONCE + "CHAN 1@50 4096@FL\nENDDATA\n"
GROWING = [line for n in range(2, 26) for line in [f"cue {n}", f"set {n} chan 1 thru 4096 at H{n:02X}", f"label {n} the look of cue {n}"]
           + ["go", "tick 3", "frame"] * (n % 6 == 0)]


def under(program, limit):
    """Status, replies and standard error of the edits above with n bytes of memory."""
    run = subprocess.run([program, "render"], input=(GREAT_RIG + "\n".join(GROWING)).encode(), stdout=subprocess.PIPE, stderr=subprocess.PIPE,
                         timeout=TIME_LIMIT, preexec_fn=lambda: resource.setrlimit(resource.RLIMIT_DATA, (limit, limit)))
    return run.returncode, run.stdout.decode("latin-1").splitlines(), run.stderr


def is_refused(reply):
    return reply == "refused Memory"


def least_limit(holds):
    """The least number of pages of memory at which it holds, of a thing that holds with more memory too."""
    few, enough = 16, 1 << 14
    while few + 1 < enough:
        middle = (few + enough) // 2
        few, enough = (few, middle) if holds(middle << 12) else (middle, enough)
    return enough


@functools.cache
def replies_but(refused):
    """The replies where the lines of these numbers are refused. They change nothing: the other replies are those of the script in which a bad
    line stands in the place of each."""
    kept = ["fly" if k in refused else line for k, line in enumerate(GROWING)]
    replies = plain_desk.output(("render",), (GREAT_RIG + "\n".join(kept)).encode())[1].decode("latin-1").splitlines()
    return ["refused Memory" if k in refused else reply for k, reply in enumerate(replies)]


def wrong_under(program, limit):
    """What is wrong with n bytes of memory."""
    status, replies, error = under(program, limit)
    refused = frozenset(k for k, reply in enumerate(replies) if is_refused(reply))
    wanted = replies_but(refused)
    wrong = [f"status {status}, {error[:100]!r}"] * (status != 0 or error != b"") + ["another output"] * (replies != wanted)
    wrong += [f"{GROWING[k]} is refused" for k in refused if GROWING[k].split()[0] not in ("cue", "set", "label")]
    return [f"with {limit} bytes: {said}" for said in wrong]


def memory_runs_out(program):
    """With less and less memory more and more edits are refused, and then the desk isn't opened: page by page, with no other fault."""
    whole = least_limit(lambda limit: not any(map(is_refused, under(program, limit)[1])) and under(program, limit)[0] == 0)
    opened = least_limit(lambda limit: under(program, limit)[0] == 0)
    wrong = [] if opened + 20 < whole else [f"the edits want {whole - opened} pages"]
    for pages in range(opened, whole, max(1, (whole - opened) // 30)):
        wrong += wrong_under(program, pages << 12)
    for pages in range(opened - 200, opened, 10):
        status, replies, error = under(program, pages << 12)
        wrong += [f"with {pages} pages: status {status}, {replies[:1]}, {error[:100]!r}"] * ((status, replies, error) != (5, [], b""))
    return wrong[:5]


def each_call_refused_in_turn(program):
    """Each allocation, each read and each write of each job is refused in turn."""
    runs, wrong = refusals.refusals(program)
    return wrong[:5] + (["hardly any call was refused"] if runs < 500 else [])


def outlet_before_memory(program):
    """A write that failed in an outlet decides the status where commands stayed unpublished too."""
    return refusals.outlet_before_memory(program)


# Each with the seconds that it may take.
TALKS = [(talk, 60), (refused_at_once, 60), (reader_goes_away, 60), (closed_output, 60), (terminal_goes_away, 60),
         (jobs_are_told_at_a_terminal, 60), (memory_runs_out, 600), (each_call_refused_in_turn, 600), (outlet_before_memory, 60)]


# ---------------------------------------------------------------------------------------------------------------------


def limits_for(case):
    memory = case.special.get("memory")

    def limit():
        if memory:
            resource.setrlimit(resource.RLIMIT_DATA, (memory, memory))

    return limit


def wrong_in(program, case):
    """What went wrong in one run, in words."""
    with tempfile.TemporaryDirectory() as folder, tempfile.TemporaryFile() as source:
        source.write(case.input)
        source.seek(0)
        stdin = os.open(folder, os.O_RDONLY) if case.special.get("folder") else source
        stdout = open("/dev/full", "wb") if case.special.get("full") else subprocess.PIPE
        try:
            run = subprocess.run([program] + case.words, stdin=stdin, stdout=stdout, stderr=subprocess.PIPE, cwd=folder,
                                 timeout=TIME_LIMIT, preexec_fn=limits_for(case))
        except subprocess.TimeoutExpired:
            return [f"no end within {TIME_LIMIT} seconds"]
        finally:
            if case.special.get("folder"):
                os.close(stdin)
            if case.special.get("full"):
                stdout.close()
    wrong = []
    if run.returncode != case.status:
        wrong.append(f"status {run.returncode}, not {case.status}")
    if (run.stdout or b"") != case.output:
        wrong.append(f"output {(run.stdout or b'')[:300]!r}, not {case.output[:300]!r}")
    if run.stderr != case.error:
        wrong.append(f"standard error {run.stderr[:200]!r}, not {case.error!r}")
    return wrong


def built_program():
    """The program that `rt ci` left, or else one that the launcher builds."""
    program = os.path.join(TOP, "crates/cuedesk/out/cuedesk")
    sources = [os.path.join(folder, name) for folder, names, files in os.walk(os.path.join(TOP, "crates"))
               if os.sep + "out" not in folder for name in files if name.endswith((".rt", ".antt"))]
    newest = max(os.path.getmtime(name) for name in sources + [os.path.join(TOP, "crates.txt")])
    if not os.path.exists(program) or os.path.getmtime(program) < newest:
        subprocess.run([os.path.join(TOP, "cuedesk")], stdin=subprocess.DEVNULL, stderr=subprocess.DEVNULL, env={**os.environ, "CUEDESK_BUILD": "1"})
    return program


def main():
    parser = argparse.ArgumentParser()
    parser.add_argument("--program")
    parser.add_argument("--only", default="")
    given = parser.parse_args()
    program = os.path.abspath(given.program or built_program())
    cases = edge_cases() + limit_cases() + great_cases() + kept_cases() + assert_cases() + undo_cases() + two_cases() + reading_cases()
    runs = [(case.name, lambda case=case: wrong_in(program, case)) for case in cases]
    runs += [(each.__name__.replace("_", " "), lambda each=each, most=most: within(most, each, program)) for each, most in TALKS]
    runs += [(f"{kind}: {each.__name__.replace('_', ' ')}", lambda each=each: within(TALK_LIMIT, each, program))
             for kind, table in (("live", live_runs.LIVE_RUNS), ("crew", crews.CREWS)) for each in table]
    runs += [(name, lambda inputs=inputs: walks.wrong_in_table(program, inputs)[1]) for name, inputs in walks.tables(WALKS, 1)]
    passed = failed = 0
    for name, run in runs:
        if given.only in name:
            wrong = run()
            passed, failed = passed + (not wrong), failed + bool(wrong)
            if wrong:
                print(f"FAILED {name}: {'; '.join(wrong)}")
    print(f"{passed} passed, {failed} failed")
    return 1 if failed or not passed else 0


if __name__ == "__main__":
    sys.exit(main())
