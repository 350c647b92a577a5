#!/bin/sh
# Proves, builds and runs a program over crates of this repository, and prints the lines of its output that match a pattern:
#
#     bench/speed/proved.sh NAME PATTERN [WORD]...
#
# The program is bench/speed/NAME.rt.in, and the words are its arguments. It is made in a temporary folder, which is removed, over
# what the crates have in out/: only a proved program is built, so this takes long if the crates are not proved yet.
top=$(CDPATH='' cd -- "$(dirname -- "$0")/../.." && pwd) || exit 1
. "$top/bench/tools/usage.sh"
. "$top/bench/tools/crates.sh"
no_options "$@"
[ $# -ge 2 ] || usage
needs rt
name=$1
pattern=$2
shift 2
make_room
make_bench "$room" "$name" || exit 1
(cd "$room/crates/${name}_bench" && rt run -- "$@" </dev/null) >"$room/log" 2>&1
grep -E "$pattern" "$room/log" || {
    tail -n 40 "$room/log" >&2
    exit 1
}
