#!/bin/sh
# Random calls on a table, answered by the plain model in bench/tools/model.py and by the store. Prints the first line that
# differs, or how many were the same; the status is 1 if one differs.
#
#     bench/tools/model.sh [CALLS [SEED]]                by the crate store_cases, on a disk in memory, with `rt try`: unproved
#     bench/tools/model.sh --program [CALLS [SEED]]      by `pqds run`, in a folder, with the program of bench/tools/program.sh
set -e
top=$(CDPATH='' cd -- "$(dirname -- "$0")/../.." && pwd)
. "$top/bench/tools/usage.sh"
by=store_cases
if [ "$1" = --program ]; then
    by=program
    shift
fi
only_numbers "$@"
[ $# -le 2 ] || usage
needs python3
if [ "$by" = program ]; then
    program=$("$top/bench/tools/program.sh")
else
    needs rt
fi
make_room

# The calls by the crate of cases, which repeats each line with its answer.
run_store_cases() {
    sed 's/ = .*//' "$room/wanted" >"$room/calls"
    (cd "$top/crates/store_cases" && rt try <"$room/calls" >"$room/found" 2>"$room/said") || true
}

# The calls by the program: the line that creates the table has its group size, its key and its schema.
run_program() {
    read -r _ size key schema <"$room/wanted"
    printf '%s\n' "${schema% = ok}" >"$room/schema"
    "$program" create "$room/table" "$room/schema" "$key" 2>"$room/said" || return
    sed '1d; s/ = .*//' "$room/wanted" >"$room/calls"
    head -n 1 "$room/wanted" >"$room/found"
    "$program" run --group-rows "$size" "$room/table" "$room/calls" 2>"$room/said" >"$room/answers" || return
    awk 'NR == FNR { call[NR] = $0; next } { print call[FNR] " = " $0 }' "$room/calls" "$room/answers" >>"$room/found"
}

python3 -B "$top/bench/tools/model.py" "$@" >"$room/wanted"
"run_$by" || true
if cmp -s "$room/wanted" "$room/found"; then
    echo "$(wc -l <"$room/wanted") lines are the same"
else
    diff "$room/wanted" "$room/found" | head -4
    tail -3 "$room/said"
    exit 1
fi
