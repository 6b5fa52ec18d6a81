#!/usr/bin/env bash
# Times the mix of channels and the slots of dimmers, each alone. Run by hand: bench/mixing.sh [LINES [PROGRAM]].
exec python3 "$(dirname "$0")/line_times.py" mixing "$@"
