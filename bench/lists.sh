#!/usr/bin/env bash
# Times a tick of one list and of two, in the same fades. Run by hand: bench/lists.sh [LINES [PROGRAM]].
exec python3 "$(dirname "$0")/line_times.py" lists "$@"
