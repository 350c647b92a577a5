#!/bin/sh
# A stop and a failure at each call of the disk, with all eighteen lists of words (zeros, ones and sixteen others) for what a
# stop leaves, also of the stops within an opening, for which the gate has four lists:
#
#     bench/faults/stops.sh [LOOP]...
#
# Runs the program of the crate stop_cases, which is proved and built first, unless the variable STOP_CASES names one that is built
# already. Prints each line with what the loop came to; the status is 1 if a line is not as counted by hand (docs/DISK.md). LOOP is
# creations, creation-failures, creation-reopenings, columns, stops, failures or reopenings; without one all are run.
top=$(CDPATH='' cd -- "$(dirname -- "$0")/../.." && pwd) || exit 1
. "$top/bench/tools/usage.sh"
. "$top/bench/faults/stop_cases.sh"
no_options "$@"
make_room
[ $# -gt 0 ] || set -- creations creation-failures creation-reopenings columns failures stops reopenings
for loop; do
    for pick in 0 1 2; do
        case $loop in
        creations) echo "creations $pick = 8 stops, 144 images, not allowed: 0" ;;
        creation-failures) echo "creation-failures $pick = 8 failures, 2 in doubt, not allowed: 0" ;;
        creation-reopenings) echo "creation-reopenings $pick $(seq -s ' ' 0 17) = 144 openings, stops in each, not allowed: 0" ;;
        columns) echo "columns $pick = 7 stops, 126 images, not allowed: 0" ;;
        failures) echo "failures $pick = 85 failures, 10 in doubt, not allowed: 0" ;;
        stops) echo "stops $pick = 85 stops, 1530 images, not allowed: 0" ;;
        reopenings) echo "reopenings $pick $(seq -s ' ' 0 17) = 1530 openings, stops in each, not allowed: 0" ;;
        *)
            echo "stops.sh: no loop $loop" >&2
            exit 2
            ;;
        esac
    done
done >"$room/wanted" || exit 2
sed 's/ = .*//' "$room/wanted" >"$room/lines"
stop_cases 'creations 0'
"$STOP_CASES" <"$room/lines" | tee "$room/found"
cmp -s "$room/wanted" "$room/found" && exit 0
echo 'stops.sh: not as counted:' >&2
diff "$room/wanted" "$room/found" >&2
exit 1
