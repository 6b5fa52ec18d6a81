#!/usr/bin/env python3
"""What the calls of the library cost, beside the program as a child: bench/hosts.py [PROGRAM]. Run by hand.

Three shows: examples/first.asc, a hall of 300 cues that each move 120 of 512 channels, and one of 2,000 cues that each move 400 of 1,024. A line
for each call: from C the median of fifteen rounds and the least of them, from Python the least of five; of the child process the median and the
least of 2,000 round trips of one line over its pipes. Last the same lines by the library and by `render`, in eight rounds in turn. Behind a figure with
a bound stands the bound, and `OVER` where the least is above it.
"""
import os
import random
import statistics
import subprocess
import sys
import tempfile
import time

from line_times import TOP, line_time

HOST = os.path.join(TOP, 'host')
# The bounds, in nanoseconds, by show and call.
BOUNDS = {('hall', 'tick at rest'): 50, ('hall', 'tick in a fade'): 4_000, ('hall', 'frame'): 50, ('great', 'open'): 60_000_000, ('hall', 'Python: tick'): 3_000}


def show(cues, moves, channels, seed=1):
    """A show whose cues each move a number of channels, all of which are patched."""
    some = random.Random(seed)
    lines = ['IDENT 3:0', 'SET CHANNELS %d' % channels] + ['PATCH 1 %d<%d@FL' % (c, c) for c in range(1, channels + 1)]
    for n in range(1, cues + 1):
        chosen = sorted(some.sample(range(1, channels + 1), moves))
        lines += ['CUE %d' % n, 'UP 30', 'DOWN 30']
        lines += ['CHAN ' + ' '.join('%d@%d' % (c, some.randrange(101)) for c in chosen[at:at + 64]) for at in range(0, moves, 64)]
    return '\n'.join(lines + ['ENDDATA', ''])


def told(show, name, median, least):
    bound = BOUNDS.get((show, name))
    over = '' if bound is None else '   at most %d%s' % (bound, '   OVER' if least > bound else '')
    print('%-6s  %-36s %12.1f %12.1f%s' % (show, name, median, least, over), flush=True)


def from_c(name, program, file):
    for line in subprocess.run([program, file], stdout=subprocess.PIPE, check=True, text=True).stdout.splitlines():
        call, median, least = line.split('\t')
        told(name, call, float(median), float(least))


def from_python(name, text):
    import cuedesk
    with cuedesk.Desk(text) as desk:
        calls = [('tick', desk.tick), ('frame', desk.frame), ('changed', desk.changed), ('state', desk.state),
                 ('line master at 50', lambda: desk.command('master at 50'))]
        for call, do in calls:
            rounds = []
            for _ in range(5):
                begin = time.perf_counter_ns()
                for _ in range(20_000):
                    do()
                rounds.append((time.perf_counter_ns() - begin) / 20_000)
            told(name, 'Python: ' + call, statistics.median(rounds), min(rounds))


def by_child(name, program, text):
    """Round trips of one line through a child's pipes."""
    child = subprocess.Popen([program, 'render'], stdin=subprocess.PIPE, stdout=subprocess.PIPE)
    child.stdin.write(text.encode() + b'frame 1\n')
    child.stdin.flush()
    child.stdout.readline()
    for line in (b'tick 1\n', b'frame 1\n', b'master at 50\n'):
        took = []
        for _ in range(2_000):
            begin = time.perf_counter_ns()
            child.stdin.write(line)
            child.stdin.flush()
            child.stdout.readline()
            took.append(time.perf_counter_ns() - begin)
        told(name, 'child: line ' + line.decode().strip(), statistics.median(took), min(took))
    child.stdin.close()
    child.wait()


def lines_from_c(program, file):
    """The least nanoseconds of each line that the library does."""
    rows = (line.split('\t') for line in subprocess.run([program, file], stdout=subprocess.PIPE, check=True, text=True).stdout.splitlines())
    return {call.removeprefix('line ').split(',')[0]: float(least) for call, _, least in rows if call.startswith('line ')}


def beside_render(name, bench, file, program, text):
    """The same lines by the library and by `render`, in turn and from the same cue at rest: the machine's speed changes by the second."""
    count, before = 200_000, ['goto 1', 'settle', 'master at 50']
    by_library, by_render = {}, {}
    for _ in range(8):
        rows = lines_from_c(bench, file)
        for line in ('tick 1', 'frame 1', 'master at 50'):
            by_library.setdefault(line, []).append(rows[line])
            by_render.setdefault(line, []).append(line_time(program, text, before + [line] * count, before) * 1e9)
    for line in by_library:
        told(name, 'library: line ' + line, statistics.median(by_library[line]), min(by_library[line]))
        told(name, 'render: line ' + line, statistics.median(by_render[line]), min(by_render[line]))


def main():
    program = os.path.abspath(sys.argv[1] if len(sys.argv) > 1 else os.path.join(TOP, 'crates', 'cuedesk', 'out', 'cuedesk'))
    shows = {'first': open(os.path.join(TOP, 'examples', 'first.asc')).read().split('ENDDATA')[0] + 'ENDDATA\n',
             'hall': show(300, 120, 512), 'great': show(2_000, 400, 1_024)}
    with tempfile.TemporaryDirectory() as build:
        subprocess.run(['make', '-s', '-C', HOST, 'BUILD=' + build], check=True)
        os.environ['CUEDESK_LIBRARY'] = os.path.join(build, 'libcuedesk.so.1')
        sys.path.insert(0, os.path.join(HOST, 'python'))
        bench = os.path.join(build, 'hosts')
        subprocess.run(['cc', '-std=c99', '-O2', '-I', HOST, '-o', bench, os.path.join(TOP, 'bench', 'hosts.c'), os.path.join(build, 'libcuedesk.a')], check=True)
        print('%-6s  %-36s %12s %12s' % ('show', 'call', 'median, ns', 'least'))
        for name, text in shows.items():
            file = os.path.join(build, name + '.asc')
            with open(file, 'w') as out:
                out.write(text)
            from_c(name, bench, file)
        from_python('hall', shows['hall'])
        by_child('hall', program, shows['hall'])
        beside_render('hall', bench, os.path.join(build, 'hall.asc'), program, shows['hall'])


if __name__ == '__main__':
    main()
