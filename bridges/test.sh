#!/usr/bin/env bash
# Tests the bridges on a real olad, in a name space of its own for the network and the processes: no port is reachable from elsewhere, and
# nothing runs on when it ends. Runs by hand, and at the end of .ci/run.
#
#     bridges/test.sh [--program PATH] [--only TEXT]
#
# The program is crates/cuedesk/out/cuedesk unless another is named. Ends with 'N passed, M failed'. Where something that it needs isn't there
# one line says what was left out and what to install, and the status is 0.
set -eu
here=$(cd "$(dirname "$0")" && pwd)

left_out() {
    echo "bridges: no test was run: $1"
    exit 0
}

missing=
for need in olad:ola ola_patch:ola ip:iproute2 setpriv:util-linux unshare:util-linux pgrep:procps; do
    command -v "${need%%:*}" > /dev/null || missing+=" ${need##*:}"
done
(cd / && /usr/bin/python3 -c 'import ola.ClientWrapper') 2> /dev/null || missing+=" ola-python"
[ -z "$missing" ] || left_out "apt-get install --no-install-recommends$(tr ' ' '\n' <<< "$missing" | sort -u | tr '\n' ' ' | sed 's/ $//')"
space=(unshare --net --pid --fork --kill-child --mount-proc)
"${space[@]}" true 2> /dev/null || left_out "only root may make a network name space"
"${space[@]}" sh -c 'for kind in dummy ifb veth; do ip link add nowhere type $kind && exit; done; exit 1' 2> /dev/null ||
    left_out "this kernel makes no interface of the types dummy, ifb and veth"
exec "${space[@]}" /usr/bin/python3 "$here/tests/all.py" "$@"
