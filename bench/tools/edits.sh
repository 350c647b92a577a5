#!/bin/sh
# Tries the must-fail edits that the gate leaves out, those of bench/tools/edits: the prover must refuse each.
#
#     bench/tools/edits.sh --text              only whether each edit, also of the gate, still applies to the sources
#     bench/tools/edits.sh --counts            how many edits of each crate were refused, and where, by the results
#     bench/tools/edits.sh [OPTION].. [CRATE]..     tries those of these crates, or of all
#
# What each edit came to is kept in bench/tools/edits/results.tsv, as soon as its crate is done: the crate, the edit, the outcome, the
# day, a digest, and the first goal at which it was refused. The digest is that of the edit, of the crate's sources and of those
# below it. An edit whose line has its digest is not tried again, so all edits can be tried in several sessions.
#
#     --results FILE     another file of results
#     --minutes N        begins no other crate after N minutes
#     --most N           at most N edits of each crate, so that a large crate takes several calls
#     --anew             tries edits that have a result, too
#
# It runs in a copy of what is committed, over the libraries that are built in out/, and leaves nothing there. Edits in the bodies of
# different functions are tried in one check of these functions, up to twelve at a time. An edit that stands elsewhere, or that such
# a check does not refuse in its own function, is tried alone by `rt must-fail`, which begins with a check of the whole crate. The
# last line is `N passed, M failed`.
top=$(CDPATH='' cd -- "$(dirname -- "$0")/../.." && pwd) || exit 1
. "$top/bench/tools/usage.sh"
. "$top/prebuilt/sources.sh"
case $1 in -h | --help) usage ;; esac
needs python3
case $* in --text | --counts*) ;; *) needs rt git ;; esac
make_room
python3 -B "$top/bench/tools/edits.py" "$top" "$room" "$@"
status=$?
[ "$status" -ne 2 ] || usage
exit "$status"
