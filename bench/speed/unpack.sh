#!/bin/sh
# bench/speed/unpack.sh: prints how many packed numbers, and how many levels in runs, are read in a second,
# next to a copy of the same bytes. It proves and builds the program bench/speed/unpack.rt.in first
# (bench/speed/proved.sh).
top=$(CDPATH='' cd -- "$(dirname -- "$0")/../.." && pwd) || exit 1
. "$top/bench/tools/usage.sh"
[ $# -eq 0 ] || usage
exec sh "$top/bench/speed/proved.sh" unpack '^(width|levels)'
