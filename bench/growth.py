#!/usr/bin/env python3
"""How the time of one line grows: bench/growth.py [PROGRAM]. Run by hand.

Each row is a curve at 1, 10 and 100 per cent of a limit. It is flat where a line does the same whatever stands beside it: a level read, an edit
that adds no cue, a script line, a tick while runs wait, a frame (all 512 slots are looked at, lit or not). A tick takes what fades. A new cue and
its deletion move the cues behind it, some 500 bytes each.
"""
import os
import sys

from line_times import TOP, line_time, spent

CUES, CHANNELS, RUNS, SLOTS = 4000, 4096, 512, 512
HEAD = ['IDENT 3:0', 'SET CHANNELS %d' % CHANNELS]


def levels(first, last, turn):
    """Lines that move these channels, to levels of this turn."""
    cells = ['%d@%d' % (c, (c * 11 + turn * 7) % 101) for c in range(first, last + 1)]
    return ['CHAN ' + ' '.join(cells[at:at + 128]) for at in range(0, len(cells), 128)]


def cues(count):
    """A number of cues, one less at the limit, that each move 256 channels, others than their neighbours."""
    text = HEAD[:]
    for n in range(1, min(count, CUES - 1) + 1):
        first = 1 + n * 256 % (CHANNELS - 256)
        text += ['CUE %d' % n] + levels(first, first + 255, n)
    return text


def reading(program, count):
    """A level of a line of eight in the last cue, with a number of cues before it."""
    lines = 100000
    more = ['CHAN ' + ' '.join('%d@%d' % (1 + (at * 8 + i) % CHANNELS, (at + i) % 101) for i in range(8)) for at in range(lines)]
    before = cues(count)
    whole = '\n'.join(before + more + ['ENDDATA', ''])
    return (spent(program, whole, 'check') - spent(program, '\n'.join(before + ['ENDDATA', '']), 'check')) / lines / 8


def edit(word):
    """An edit of a kind, in a show of a number of cues."""
    def of(program, count):
        lines = 20000
        show = '\n'.join(cues(count) + ['ENDDATA', ''])
        at = [1 + i * 37 % (count - 1) for i in range(lines)]
        kinds = {
            'set': ['set %d chan %d at %d' % (n, 1 + n * 256 % (CHANNELS - 256) + i % 256, i % 101) for i, n in enumerate(at)],
            'time': ['time %d up %d' % (n, i % 50) for i, n in enumerate(at)],
            'cue': [('cue %d.5', 'delete %d.5')[i % 2] % (1 + i // 2 * 37 % (count - 1)) for i in range(lines)],
        }
        return line_time(program, show, kinds[word], ['quit'])
    return of


def fading(program, count):
    """A tick in which a number of the 4,096 channels fade."""
    lines = 20000
    show = HEAD[:]
    for n in (1, 2):
        show += ['CUE %d' % n, 'UP 20', 'DOWN 20'] + levels(1, count, n)
    script = ['goto %d' % (1 + i // 1000 % 2) if i % 1000 == 0 else 'tick' for i in range(lines)]
    return line_time(program, '\n'.join(show + ['ENDDATA', '']), script, ['quit'])


def runs(program, count):
    """A tick with a number of live runs of a cue that moves 100 channels, each waiting for most of an hour."""
    lines = 300000
    show = HEAD + ['CUE 1', 'UP 1 50:00', 'DOWN 1 50:00'] + levels(1, 100, 1) + ['ENDDATA'] + ['goto 1'] * count + ['']
    return line_time(program, '\n'.join(show), ['tick'] * lines, ['quit'])


def frames(program, count):
    """A frame line in which a number of slots are lit, with nothing moving."""
    lines = 50000
    show = HEAD + ['PATCH 1 %d<%d@FL' % (d, d) for d in range(1, count + 1)] + ['CUE 1', 'UP 0'] + levels(1, count, 3) + ['ENDDATA', 'go', '']
    return line_time(program, '\n'.join(show), ['frame'] * lines, ['quit'])


def script(program, count):
    """A refused key, in a script of a number of them."""
    return line_time(program, 'IDENT 3:0\nENDDATA\n', ['go'] * count, ['quit'])


CURVES = (
    ('a level read, cues before', CUES, reading), ('set, cues', CUES, edit('set')), ('time, cues', CUES, edit('time')),
    ('cue and delete, cues', CUES, edit('cue')), ('tick, channels that fade', CHANNELS, fading), ('tick, live runs that wait', RUNS, runs),
    ('frame, slots lit', SLOTS, frames), ('refused key, lines', 1000000, script),
)


def main():
    program = sys.argv[1] if len(sys.argv) > 1 else os.path.join(TOP, 'crates', 'cuedesk', 'out', 'cuedesk')
    print('%-34s %10s %10s %10s   nanoseconds of processor time' % ('a line, at per cent of', '1', '10', '100'))
    for name, limit, curve in CURVES:
        took = [curve(program, limit * part // 100) * 1e9 for part in (1, 10, 100)]
        print('%-34s %10.0f %10.0f %10.0f' % ('%s (%d)' % (name, limit), *took), flush=True)


if __name__ == '__main__':
    main()
