#!/bin/sh
# bench/speed/delta.sh: prints how many numbers are read and written as differences and split in a second, and
# how many byte values by their prefixes, next to unpacking and to a copy. It proves and builds the program
# bench/speed/delta.rt.in first (bench/speed/proved.sh).
top=$(CDPATH='' cd -- "$(dirname -- "$0")/../.." && pwd) || exit 1
. "$top/bench/tools/usage.sh"
[ $# -eq 0 ] || usage
exec sh "$top/bench/speed/proved.sh" delta '^(sorted|random|constant|prefixes|split)'
