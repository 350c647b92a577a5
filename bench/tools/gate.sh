#!/bin/sh
# Prints what the gate costs: runs `rt ci` in a copy of what is committed, and asks each second which of its processes there are
# and how much processor time each has used (bench/tools/costs.py). A line each for proofs, must-fail edits, tests, and the building
# and running of programs, with the processor minutes of each crate; then the sum, the minutes that the whole run took, and the most
# memory at a time.
#
#     bench/tools/gate.sh [--anew] [CRATE]...     these crates only, with those below them
#
# What this machine has kept of earlier runs costs nothing and is not reported: --anew proves all of it again, as a machine does
# that has kept nothing. The clock counts what else the machine does; processor minutes rise by a tenth to a half if it is busy. Processes that end within a second are missed.
top=$(CDPATH='' cd -- "$(dirname -- "$0")/../.." && pwd) || exit 1
. "$top/bench/tools/usage.sh"
case $1 in --anew) ;; -*) usage ;; esac
for word; do
    [ "$word" = --anew ] || grep -q "^${word}[ :]" "$top/crates.txt" || {
        echo "gate.sh: crates.txt has no crate $word" >&2
        exit 2
    }
done
needs rt python3 git
make_room
git clone -q "$top" "$room/copy" || exit 1
cd "$room/copy" && python3 -B bench/tools/costs.py rt ci "$@" >"$room/log" 2>&1
status=$?
sed -n '/^proof: /,$p' "$room/log"
grep -E '^[0-9]+ passed, [0-9]+ failed' "$room/log"
exit "$status"
