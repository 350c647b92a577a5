#!/bin/sh
# bench/speed/assemble.sh: prints how many entries of columns in memory are made into rows in a second: row by
# row, all rows kept, and counted only. It proves and builds the program bench/speed/assemble.rt.in first
# (bench/speed/proved.sh).
top=$(CDPATH='' cd -- "$(dirname -- "$0")/../.." && pwd) || exit 1
. "$top/bench/tools/usage.sh"
[ $# -eq 0 ] || usage
exec sh "$top/bench/speed/proved.sh" assemble '^(flat|nested|numbers)'
