"""What one line of a script takes: the processor time of many lines, without that of as many bad lines.

line_times.py mixing|editing|tracking|lists [LINES [PROGRAM]]

mixing   A line sets the master, which mixes all channels and, since all outputs change, fills all slots up to the last lit dimmer. Without
         a dimmer it only mixes; what the same line takes in a show of one channel is left out. What the dimmers add is the slots.
editing  An edit of each kind in a show of 2,000 cues that each move all of 2,048 channels. The new cue has no moves, and goes with the
         next line. A new channel is one that no cue moved before: so it tracks on up to the next cue that got it, and cue only the cue
         above gets a move of it.
tracking A `set` in the first of 2,000 cues that tracks on through all others, which move other channels: none, eight, 64 or 1,024 of them, in
         one piece above or anywhere. Always of the same channel, or of 500 in turn, whose levels lie in other lines of the cache.
lists    A tick in fades of a minute, over 2,048 channels and 16 universes: by `render`, by `two` where the first list alone fades, and by
         `two` where both do; and a tick at rest. Without a dimmer it is the lists' own ticks and a mix; what the dimmers add is the slots.
"""
import os
import random
import resource
import subprocess
import sys
import tempfile

TOP = os.path.dirname(os.path.dirname(os.path.abspath(__file__)))


def spent(program, text, job='render'):
    """The least processor time of three runs of the job over the text."""
    with tempfile.NamedTemporaryFile('w') as out:
        out.write(text)
        out.flush()
        best = None
        for _ in range(3):
            before = resource.getrusage(resource.RUSAGE_CHILDREN)
            subprocess.run([program, job], stdin=open(out.name), stdout=subprocess.DEVNULL, check=True)
            after = resource.getrusage(resource.RUSAGE_CHILDREN)
            took = after.ru_utime + after.ru_stime - before.ru_utime - before.ru_stime
            best = took if best is None else min(best, took)
        return best


def line_time(program, show, lines, bad, job='render'):
    """Seconds for one of the lines."""
    text = show + '\n'.join(lines) + '\n'
    return (spent(program, text, job) - spent(program, show + '\n'.join(bad) + '\n', job)) / len(lines)


def lit_show(channels, dimmers):
    rows = ['PATCH 1 ' + ' '.join('%d<%d@FL' % (1 + (d - 1) % channels, d) for d in range(at, at + 64)) for at in range(1, dimmers + 1, 64)]
    moves = ['CHAN ' + ' '.join('%d@50' % c for c in range(at, min(at + 64, channels + 1))) for at in range(1, channels + 1, 64)]
    return '\n'.join(['IDENT 3:0', 'SET CHANNELS %d' % channels] + rows + ['CUE 1', 'UP 0'] + moves + ['ENDDATA', 'go']) + '\n'


def mixing(program, count):
    good = ['master at %d' % (i % 101) for i in range(count)]
    bad = ['mister at %d' % (i % 101) for i in range(count)]
    rest = line_time(program, lit_show(1, 0), good, bad) * 1e9
    for channels, dimmers in ((512, 512), (2048, 8192)):
        mix = line_time(program, lit_show(channels, 0), good, bad) * 1e9
        both = line_time(program, lit_show(channels, dimmers), good, bad) * 1e9
        print('%d channels mixed: %.0f ns of processor time; %d slots: %.0f ns' % (channels, mix - rest, dimmers, both - mix))


def full_show(lacking=0):
    """Each cue moves all channels but a number of the first."""
    text = ['IDENT 3:0', 'SET CHANNELS 2048']
    for n in range(1, 2000):
        text.append('CUE %d' % n)
        cells = ['%d@%d' % (c + 1, (n * 7 + c * 11) % 101) for c in range(lacking, 2048)]
        text += ['CHAN ' + ' '.join(cells[at:at + 128]) for at in range(0, len(cells), 128)]
    return '\n'.join(text + ['ENDDATA']) + '\n'


def editing(program, count):
    full, lacking = full_show(), full_show(60)
    cues = [1 + i * 37 % 1999 for i in range(count)]
    sets = ['set %d chan %d at %d' % (n, 1 + i * 13 % 2048, i % 101) for i, n in enumerate(cues)]
    new = ['set %d chan %d at %d' % (n, 1 + i // 1999 % 60, i % 101) for i, n in enumerate(cues)]
    nine = ['set %d chan %d thru %d at %d' % (n, 1 + i * 13 % 2040, 9 + i * 13 % 2040, i % 101) for i, n in enumerate(cues)]
    times = ['time %d up %d' % (n, i % 50) for i, n in enumerate(cues)]
    gone = ['release %d chan %d' % (n, 61 + i // 1999 * 13 % 1980) for i, n in enumerate(cues)]
    pairs = [('cue %d.5', 'delete %d.5')[i % 2] % cues[i // 2] for i in range(count)]
    for name, show, lines in (('set', full, sets), ('set, cue only', full, [line + ' only' for line in sets]),
                              ('set of a new channel, which tracks on', lacking, new),
                              ('set of a new channel, cue only', lacking, [line + ' only' for line in new]),
                              ('set of nine channels', full, nine), ('time', full, times), ('release', full, gone),
                              ('cue and delete', full, pairs)):
        took = line_time(program, show, lines, ['sat 1 chan 1 at 1'] * count)
        print('%s: %.1f microseconds of processor time a line' % (name, took * 1e6))


def tracking_show(moved):
    """The first cue moves channels 1 to 1,023, and each other one the channels of the list that is made for it."""
    text = ['IDENT 3:0', 'SET CHANNELS 2048']
    for n in range(1, 2001):
        cells = ['%d@%d' % (c, (n * 7 + c * 11) % 101) for c in (range(1, 1024) if n == 1 else moved(n))]
        text += ['CUE %d' % n] + ['CHAN ' + ' '.join(cells[at:at + 128]) for at in range(0, len(cells), 128)]
    return '\n'.join(text + ['ENDDATA']) + '\n'


def tracking(program, count):
    def anywhere(many):
        return lambda n: sorted(random.Random(n).sample(range(2, 2049, 2), many))
    for name, moved in (('no moves', lambda n: ()), ('8 moves above', lambda n: range(1025, 1033)), ('8 anywhere', anywhere(8)),
                        ('64 anywhere', anywhere(64)), ('1024 above', lambda n: range(1025, 2049)), ('every second channel', lambda n: range(2, 2049, 2))):
        show = tracking_show(moved)
        for which, chan in (('one channel', lambda i: 513), ('500 channels', lambda i: 1 + 2 * (i * 7 % 500))):
            lines = ['set 1 chan %d at %d' % (chan(i), i % 101) for i in range(count)]
            took = line_time(program, show, lines, ['sat 1 chan 1 at 1'] * count)
            print('%s, %s: %.1f microseconds of processor time a line' % (name, which, took * 1e6), flush=True)


def fading_show(dimmers):
    """Two cues in each list, between which every channel fades for a minute."""
    text = ['IDENT 3:0', 'SET CHANNELS 2048']
    text += ['PATCH 1 ' + ' '.join('%d<%d@FL' % (1 + (d - 1) % 2048, d) for d in range(at, at + 64)) for at in range(1, dimmers + 1, 64)]
    for cue, level in ((1, 100), (2, 0), (5000, 90), (5001, 5)):
        text += ['CUE %d' % cue, 'UP 60', 'DOWN 60']
        text += ['CHAN ' + ' '.join('%d@%d' % (c, abs(level - c % 5)) for c in range(at, at + 64)) for at in range(1, 2049, 64)]
    return '\n'.join(text + ['ENDDATA']) + '\n'


def moved(key, turn):
    """The key, to its cue or to the one after."""
    word, cue = key.rsplit(' ', 1)
    return '%s %d' % (word, int(cue) + turn % 2)


def lists(program, count):
    bad = ['tock'] * count
    for name, job, keys in (('render', 'render', ['goto 1']), ('two, the first list fades', 'two', ['goto 1']),
                            ('two, both lists fade', 'two', ['goto 1', '2 goto 5000']), ('render at rest', 'render', []),
                            ('two at rest', 'two', [])):
        lines = [moved(keys[i % 3000], i // 3000) if i % 3000 < len(keys) else 'tick' for i in range(count)]
        mix, whole = (line_time(program, fading_show(dimmers), lines, bad, job) * 1e9 for dimmers in (0, 8192))
        print('%s: %.0f ns of processor time a tick without dimmers; 8192 slots: %.0f ns' % (name, mix, whole - mix))


def main():
    kind, *rest = sys.argv[1:]
    count = int(rest[0]) if rest else {'mixing': 200000, 'editing': 20000, 'tracking': 8000, 'lists': 30000}[kind]
    program = rest[1] if len(rest) > 1 else os.path.join(TOP, 'crates', 'cuedesk', 'out', 'cuedesk')
    {'mixing': mixing, 'editing': editing, 'tracking': tracking, 'lists': lists}[kind](program, count)


if __name__ == '__main__':
    main()
