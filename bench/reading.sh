#!/usr/bin/env bash
# Reads a show text of some 60 MB (CHAN lines of eight pairs over 2,000 cues) and prints time and peak memory. Run by hand.
set -eu
top=$(cd "$(dirname "$0")/.." && pwd)
show=$(mktemp)
trap 'rm -f "$show"' EXIT
python3 - > "$show" <<'PYTHON'
import random, sys
random.seed(1)
out = ['IDENT 3:0', 'PATCH 1 1<1@FL']
for cue in range(1, 2001):
    out += ['CUE %d' % cue, 'UP 0', 'DOWN 0']
    for line in range(449):
        out.append('CHAN ' + ' '.join('%d@%d' % (1 + (line * 8 + place) % 2048, random.randrange(101)) for place in range(8)))
out += ['ENDDATA', 'go', 'frame', '']
sys.stdout.write('\n'.join(out))
PYTHON
ls -l "$show" | awk '{print $5 " bytes"}'
"$top/cuedesk" render < "$show" > /dev/null
/usr/bin/time -f '%U s of processor time, %M KB at most' "$top/crates/cuedesk/out/cuedesk" render < "$show" 2>&1 || { time "$top/crates/cuedesk/out/cuedesk" render < "$show"; }
