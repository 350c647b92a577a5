#!/bin/sh
# bench/tools/program.sh: prints the path of the program of this tree, for the other scripts. It is the program that the variable
# PQDS names, if it is set; otherwise the one that was built (crates/pqds/out/pqds), if no source is newer; otherwise the one of
# prebuilt/, if it was made from these sources. If there is none, it says so and ends with status 1. It builds nothing, since
# building proves every crate and takes hours.
top=$(CDPATH='' cd -- "$(dirname -- "$0")/../.." && pwd) || exit 1
. "$top/bench/tools/usage.sh"
. "$top/prebuilt/sources.sh"
[ $# -eq 0 ] || usage

if [ -n "$PQDS" ]; then
    found=$(command -v -- "$PQDS") || found=$PQDS
    if [ ! -f "$found" ] || [ ! -x "$found" ]; then
        echo "program.sh: the variable PQDS names '$PQDS', which is no program" >&2
        exit 1
    fi
    realpath -- "$found"
    exit
fi
built=$top/crates/pqds/out/pqds
unpacked=$(place_of_unpacked)
if [ -x "$built" ] && [ -z "$(newer_source "$built")" ]; then
    printf '%s\n' "$built"
elif unpack_fresh_to "$unpacked"; then
    printf '%s\n' "$unpacked"
else
    echo 'program.sh: there is no program of these sources, built or in prebuilt/: ./pqds --prove builds it, PQDS=FILE names one' >&2
    exit 1
fi
