#!/usr/bin/env bash
# Plays examples/live.asc live and draws the slots of two universes while the fades run (view/stage.py). The two outlets are named
# pipes, which the stage reads. The program is that of CUEDESK, else the launcher's; where none is built yet, the one on the PATH.
set -eu
top=$(cd "$(dirname "$0")/.." && pwd)
if [ -z "${CUEDESK:-}" ] && [ ! -x "$top/crates/cuedesk/out/cuedesk" ] && [ ! -x "$top/release/bin/cuedesk" ]; then
    CUEDESK=$(command -v cuedesk || true)
fi
folder=$(mktemp -d)
run=
trap 'if [ -n "$run" ]; then kill "$run" 2> /dev/null || true; fi; rm -rf "$folder"' EXIT
mkfifo "$folder/universe-1.txt" "$folder/universe-2.txt"
(cd "$folder" && exec "${CUEDESK:-$top/cuedesk}" run 2 < "$top/examples/live.asc" > /dev/null) &
run=$!
"$top/view/stage.py" 2 --folder "$folder"
