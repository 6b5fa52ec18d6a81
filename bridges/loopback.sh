#!/usr/bin/env bash
# Starts an olad to try things on, which reaches no network: universes 1 to 4 go out by Art-Net to this machine alone, and no other plugin
# runs. It ends by Ctrl-C or `kill`.
#
#     bridges/loopback.sh [FOLDER]
#
# FOLDER holds its settings, which are made where they aren't there (without a word a folder of /tmp). olad refuses to be root: where root
# starts it, it runs as the user `olad` of Debian's package.
set -eu
if [ $# -gt 0 ]; then
    folder=$1
    mkdir -p "$folder"
else
    folder=$(mktemp -d)
    chmod 755 "$folder"
fi

setting() {
    [ -e "$folder/ola-$1.conf" ] || printf '%s\n' "${@:2}" > "$folder/ola-$1.conf"
}
setting artnet 'enabled = true' 'ip = 127.0.0.1' 'use_loopback = true' 'always_broadcast = true' 'output_ports = 4'
# The plugin 2 is Art-Net; its first device's output ports 0 to 3 get the universes 1 to 4.
setting port '2-1-O-0 = 1' '2-1-O-1 = 2' '2-1-O-2 = 3' '2-1-O-3 = 4'
for plugin in dummy e131 espnet ftdidmx gpio karate kinet milinst opendmx openpixelcontrol osc pathport renard sandnet shownet spi stageprofi \
    uartdmx usbdmx usbserial; do
    setting "$plugin" 'enabled = false'
done

# --no-http, since olad's web server listens on every interface, whatever -i says.
olad=(olad -c "$folder" -i 127.0.0.1 -l 2 --no-http --no-register-with-dns-sd)
if [ "$(id -u)" = 0 ]; then
    chown -R olad "$folder"
    exec env HOME="$folder" setpriv --reuid olad --regid nogroup --init-groups "${olad[@]}"
fi
exec "${olad[@]}"
