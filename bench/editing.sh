#!/usr/bin/env bash
# Times one edit of each kind in a large show. Run by hand: bench/editing.sh [LINES [PROGRAM]].
exec python3 "$(dirname "$0")/line_times.py" editing "$@"
