#!/bin/sh
# Decodes, inspects (as text and as JSON) and imports files that are made to cost as much as they can (bench/faults/hostile_files.py),
# gives such files as the root of a dataset to count, query, check and create, and lines of JSON to append and encode,
# and prints for each what came of it, the most memory next to its bound, and the processor time next to that of an honest file
# with as many entries. Each call is then made under limits of address space (`ulimit -v`), and must end as before or with
# `refused 28`; as before where the limit is twice its bound. The status is 1 where one does not end as it should, or takes
# more memory or time than its bound; docs/FORMAT.md has the bounds.
#
#     bench/faults/hostile.sh [--program PROGRAM] [--entries N] [--most MIB] [--limits 'MIB ..'] [NAME]...
#
# N is how many entries a page announces where it announces many (1000000; at most 4000000 for all files, as a footer has at
# most 16 MiB). No call gets more than --most of address space (8192), so that a file cannot take all memory of the machine.
# --limits are added to what a small file needs (4 32 256).
# The files are made by python3, in a temporary folder, which is removed. It needs gcc, for peak.c, which starts the program.
top=$(CDPATH='' cd -- "$(dirname -- "$0")/../.." && pwd) || exit 1
. "$top/bench/tools/usage.sh"
program=$PQDS entries=1000000 most=8192 limits='4 32 256' names=''
while [ $# -gt 0 ]; do
    case $1 in
    --program | --entries | --most | --limits) [ $# -ge 2 ] || usage ;;
    -*) usage ;;
    esac
    case $1 in
    --program) program=$2 && shift ;;
    --entries) entries=$2 && shift ;;
    --most) most=$2 && shift ;;
    --limits) limits=$2 && shift ;;
    *) names="$names $1" ;;
    esac
    shift
done
# shellcheck disable=SC2086
only_numbers "$entries" "$most" $limits
needs python3
needs gcc
program=$(PQDS=$program "$top/bench/tools/program.sh") || exit 1
make_room
gcc -O2 -o "$room/peak" "$top/bench/faults/peak.c" || exit 1
python3 -B "$top/bench/faults/hostile.py" "$top" "$room" "$program" "$entries" "$most" "$limits" "$names"
