#!/usr/bin/env bash
# How long a frame takes from a line's arrival at bridges/ola.py to a client of olad: 16 universes of 512 slots at 50 frames a second, all of
# which go out on E1.31, in a network name space of its own. Run by root, with Debian's ola and ola-python.
#
#     bench/bridge.sh [--universes U] [--seconds S] [--observers N] [--at-once]
#
# bridges/tests/latency.py says what the words mean. Beside other work `chrt -r 1 bench/bridge.sh` measures as if there were none, but for
# the caches and the processors' other halves.
set -eu
top=$(cd "$(dirname "$0")/.." && pwd)
exec unshare --net --pid --fork --kill-child --mount-proc /usr/bin/python3 "$top/bridges/tests/latency.py" "$@"
