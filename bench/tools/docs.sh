#!/bin/sh
# Runs the commands of README.md, docs/ and crates/*/README.md as typed, in a copy of the repository, and compares what they
# print with what the documents show (bench/tools/docs.py). Prints a line for each command; the last line is `N passed, M failed`,
# the status 1 if M is not 0.
#
#     bench/tools/docs.sh [--program] [FILE]...      these documents only; with --program only calls of ./pqds
top=$(CDPATH='' cd -- "$(dirname -- "$0")/../.." && pwd) || exit 1
. "$top/bench/tools/usage.sh"
for word; do
    case $word in
    --program) ;;
    -*) usage ;;
    *)
        [ -f "$top/$word" ] || {
            echo "docs.sh: the repository has no document $word" >&2
            exit 2
        }
        ;;
    esac
done
needs python3
program=$("$top/bench/tools/program.sh") || exit 1
make_room
python3 -B "$top/bench/tools/docs.py" "$top" "$room/copy" "$program" "$@"
