#!/bin/sh
# Compares two programs on roots of which some bytes were changed: what `groups --stats`, `count`, `query` and an `append` print, how
# they end, and which root and files an append leaves. Prints each difference, and how often the program ended in which way; the
# status is 1 where there is a difference.
#
#     bench/faults/roots.sh OLD [PROGRAM]     OLD is the other program; PROGRAM is that of bench/tools/program.sh without it
#
# With CHANGES=N there are N changed roots (1000), with SEED=N others. A changed root has one to three bytes with another value, with
# one bit turned, inserted or taken out; half of the roots of another length have the footer's length changed to fit.
top=$(CDPATH='' cd -- "$(dirname -- "$0")/../.." && pwd) || exit 1
. "$top/bench/tools/usage.sh"
no_options "$@"
if [ $# -lt 1 ] || [ $# -gt 2 ]; then usage; fi
only_numbers "${CHANGES:-1000}" "${SEED:-1}"
needs python3
old=$(realpath -- "$1") || exit 1
program=$(PQDS=${2:-$PQDS} "$top/bench/tools/program.sh") || exit 1
program=$(realpath -- "$program") || exit 1
make_room
python3 -B "$top/bench/faults/roots.py" "$room" "$old" "$program" "${CHANGES:-1000}" "${SEED:-1}"
