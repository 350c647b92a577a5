#!/bin/sh
# Each allocation refused in turn:
#
#     bench/faults/allocations.sh [COMMAND]...
#
# First the commands of the program on a real folder (those of bench/faults/crash.py, or those named), with the Nth allocation
# refused, for each N: after `refused 28` and `refused 25` the table is the one before the command, after status 0 the one after
# it, after `refused 26` one of them. Then the command is made once more, and must be done.
#
# Then the two lines `allocations` of the crate stop_cases, over a disk in memory: all calls of the store, with the Nth
# allocation of the run refused, for each N. A call that is refused 28 (or 25, or 26, if memory ran out in a call of the disk
# that cannot say so) leaves the table, and gives the usual answer when it is made once more; after 26 the table opens with that
# commit or without it; a refusal within a cleaning changes no answer; in the end the table is the one of ample memory, and the
# folder has only its files.
#
# Allocations are refused by bench/faults/refuse.c, which replaces the C library's (LD_PRELOAD); it needs gcc and python3. The program
# is that of bench/tools/program.sh. The one of stop_cases is proved and built first, unless the variable STOP_CASES names one that
# is built already. With JOBS=N there are N runs at a time (2). Prints how many allocations were refused, and what came of them; the
# status is 1 if something came that may not.
top=$(CDPATH='' cd -- "$(dirname -- "$0")/../.." && pwd) || exit 1
. "$top/bench/tools/usage.sh"
. "$top/bench/faults/stop_cases.sh"
no_options "$@"
needs gcc python3
program=$("$top/bench/tools/program.sh") || exit 1
make_room
gcc -O2 -shared -fPIC -o "$room/refuse.so" "$top/bench/faults/refuse.c" || exit 1
status=0
python3 -B "$top/bench/faults/crash.py" --jobs "${JOBS:-2}" --refuse "$room/refuse.so" "$program" -- "$@" || status=$?
[ "$status" -ne 2 ] || exit 2
stop_cases 'allocations 1'
python3 -B "$top/bench/faults/allocations.py" --jobs "${JOBS:-2}" "$room/refuse.so" "$STOP_CASES" || status=1
exit "$status"
