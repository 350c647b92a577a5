#!/bin/sh
# Measures what a run of many calls over many names takes on a disk in memory: 10 calls for two names (create, append, sync,
# rename, length, remove), then the sync of the folder, a listing and two crashes. Twice as many names and calls should take
# twice the time.
#
#     bench/speed/mem_disk.sh                    1,000 to 16,000 names
#     bench/speed/mem_disk.sh NAMES...           these numbers of names
#
# It proves and builds the program bench/speed/mem_disk.rt.in first (bench/speed/proved.sh).
top=$(CDPATH='' cd -- "$(dirname -- "$0")/../.." && pwd) || exit 1
. "$top/bench/tools/usage.sh"
only_numbers "$@"
[ $# -gt 0 ] || set -- 1000 2000 4000 8000 16000
exec sh "$top/bench/speed/proved.sh" mem_disk ' names, ' "$@"
