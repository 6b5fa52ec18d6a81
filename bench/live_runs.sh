#!/usr/bin/env bash
# Many short live runs over three universes, beside as many busy processes as there are processors: each line of an outlet must be the
# frame after some first commands, as `render` gives it, with counts that rise, and the last one after all of them. Run by hand.
set -eu
top=$(cd "$(dirname "$0")/.." && pwd)
python3 - "$top/crates/cuedesk/out/cuedesk" "${1:-200}" <<'PYTHON'
import os, subprocess, sys, tempfile
program, runs = sys.argv[1], int(sys.argv[2])
show = 'IDENT 3:0\nPATCH 1 1<1@FL 2<513@FL 1<1025@50\nCUE 1\nUP 2\nCHAN 1@FL 2@H80\nENDDATA\n'
commands = ['go', 'tick', 'set 1 chan 1 at H64', 'tick', 'tick', 'master at 50', 'tick']
asked = show + ''.join('frame %d\n' % u for u in (1, 2, 3))
asked += ''.join(command + '\n' + ''.join('frame %d\n' % u for u in (1, 2, 3)) for command in commands)
answers = subprocess.run([program, 'render'], input=asked, capture_output=True, text=True, check=True).stdout.splitlines()
frames = [line[len('frame '):] for line in answers if line.startswith('frame ')]
versions = [['frame %d %s' % (count, frames[3 * count + u]) for count in range(len(commands) + 1)] for u in range(3)]
busy = [subprocess.Popen([sys.executable, '-c', 'while True: pass']) for _ in range(os.cpu_count() or 1)]
lines = 0
try:
    for run in range(runs):
        with tempfile.TemporaryDirectory() as folder:
            ended = subprocess.run([program, 'run', '3'], input=show + '\n'.join(commands) + '\n', capture_output=True, text=True, cwd=folder)
            assert ended.returncode == 0, ended
            for u in range(3):
                with open('%s/universe-%d.txt' % (folder, u + 1)) as outlet:
                    got = outlet.read().split('\n')
                assert got.pop() == '', (run, u)
                places = [versions[u].index(line) for line in got]
                assert places == sorted(set(places)) and places[-1] == len(commands), (run, u, got)
                lines += len(got)
finally:
    for process in busy:
        process.kill()
print('%d runs, %d lines: each is a version, counts rise, and the last is that of all commands' % (runs, lines))
PYTHON
