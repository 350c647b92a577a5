#!/bin/sh
# bench/speed/shred.sh: prints how many entries of rows are shredded in a second, next to a copy of the same
# rows. It proves and builds the program bench/speed/shred.rt.in first (bench/speed/proved.sh).
top=$(CDPATH='' cd -- "$(dirname -- "$0")/../.." && pwd) || exit 1
. "$top/bench/tools/usage.sh"
[ $# -eq 0 ] || usage
exec sh "$top/bench/speed/proved.sh" shred '^shred '
