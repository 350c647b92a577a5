#!/bin/sh
# bench/speed/split.sh: prints how many rows a second are split by their keys, for 1, 100 and 10,000 keys,
# next to a plain copy of the rows. It proves and builds the program bench/speed/split.rt.in first
# (bench/speed/proved.sh).
top=$(CDPATH='' cd -- "$(dirname -- "$0")/../.." && pwd) || exit 1
. "$top/bench/tools/usage.sh"
[ $# -eq 0 ] || usage
exec sh "$top/bench/speed/proved.sh" split '^(numbers|texts)'
