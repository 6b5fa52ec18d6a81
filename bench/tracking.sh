#!/usr/bin/env bash
# Times a set that tracks on through 2,000 cues. Run by hand: bench/tracking.sh [LINES [PROGRAM]].
exec python3 "$(dirname "$0")/line_times.py" tracking "$@"
