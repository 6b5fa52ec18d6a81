# shellcheck shell=bash disable=SC2034,SC2154
# What the launcher and the scripts of this folder have in common. They set `top`, the repository's top, and source this file.

manifest=$top/release/MANIFEST
released=$top/release/bin/cuedesk
built=$top/crates/cuedesk/out/cuedesk

# `find` over all that goes into the build, below the repository's top; further words say what is done with each file.
sources() {
    (cd "$top" && shopt -s nullglob && exec find -L crates.txt HANDLES crates/*/src crates/*/specs crates/*/proofs -type f \
        \( -path crates.txt -o -path HANDLES -o -name '*.rt' -o -name '*.antt' \) "$@")
}

# Each source with its size, its place on the disk and the moment of its last change, which nobody can set.
sources_listing() {
    sources -printf '%p %s %i %C@\n' 2>/dev/null
}

# One checksum over the sources: over the lines that `sha256sum` writes of each, by sorted path.
sources_checksum() {
    local sum
    sum=$(set -o pipefail; sources -print0 | LC_ALL=C sort -z | (cd "$top" && xargs -0 sha256sum) | sha256sum) || return 1
    echo "${sum%% *}"
}

# Whether the manifest is of the sources as they stand.
is_of_the_sources() {
    local sum
    sum=$(sources_checksum) && [ "$sum" = "$(said sources)" ]
}

# What the manifest says behind a word: `version`, `toolchain`, `sources` or `library`.
said() {
    sed -n "s/^$1 //p" "$manifest"
}

# Whether the released files whose path the pattern fits, at least one, are those of which the manifest has the checksums.
are_intact() {
    (cd "$top/release" && set -o pipefail && grep -E "^[0-9a-f]{64}  $1\$" MANIFEST | sha256sum --check --status 2>/dev/null)
}

# The libraries that each crate names, by crates.txt, into `below`, which the caller declares.
read_crates() {
    local name libraries
    while IFS=: read -r name libraries; do
        [[ $name != [a-z]* ]] || below[${name%% *}]=$libraries
    done <"$top/crates.txt"
}

# A crate that stands in `below` behind those that it stands on, each once.
in_turn() {
    local it libraries=${below[$1]}
    unset "below[$1]"
    for it in $libraries; do
        [ -z "${below[$it]+listed}" ] || in_turn "$it"
    done
    echo "$1"
}

# The crates that a crate stands on, lowest first, and itself last.
crates_in_turn() {
    local -A below=([$1]='')
    read_crates
    in_turn "$1"
}

# What a release is made of, a line each: where it is built, where it is released, how it is stripped. The first is the program; the others
# are the library for hosts and its header, where the library is built, and not before the gate began that ran last.
parts() {
    echo "crates/cuedesk/out/cuedesk bin/cuedesk --strip-all"
    local library=host/build/libcuedesk
    [ "$top/$library.a" -nt "$top/release/out/began" ] || return 0
    echo "$library.a lib/libcuedesk.a --strip-debug"
    (cd "$top" && for file in "$library".so.[0-9]*; do echo "$file lib/${file##*/} --strip-unneeded"; done)
    echo "host/cuedesk.h include/cuedesk.h as-it-is"
}

# Writes what is released of a built file: `strip_to BUILT RELEASED HOW`. The toolchain's own command strips, so that the same toolchain
# gives the same bytes.
strip_to() {
    if [ "$3" = as-it-is ]; then
        cp "$1" "$2"
    else
        (exec -a llvm-strip "$(dirname "$(rt doc)")/toolchain/bin/clang" "$3" -o "$2" "$1")
    fi
}

# One checksum over what makes the library besides the crates and the toolchain: the system's linker and compiler, and files of host/.
library_checksum() {
    local sum
    sum=$(cd "$top/host" && { ld --version; cc --version; cat Makefile cuedesk.map cuedesk.h; } | sha256sum) || return 1
    echo "${sum%% *}"
}

# What the gate tries: the toolchain, the sources, and the parts as they are built.
tried() {
    rt version && sources_checksum && (cd "$top" && parts | cut -d ' ' -f 1 | xargs sha256sum)
}
