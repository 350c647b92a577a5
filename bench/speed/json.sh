#!/bin/sh
# bench/speed/json.sh: measures how many rows a second are printed as JSON text and read from it, flat ones of 2 and 20 columns and nested
# ones: by a `RowText` and a `Reader` made once (`RowText` prints rows that are kept, as C does; `RowSink` is the same
# `RowText`, which is shown their values one by one; the reader's `read` keeps the rows, as C does, and its `read_to`
# shows them to a sink that keeps nothing), by `row_to` and `row_from`, as JSON values by the kit's `serde_json`, and by
# the hand-written C program bench/speed/json_lines.c. Lines in three other forms are read too: with blanks, with the members in
# another order, and with escapes. Then the rows a second in percent of those of serde_json and of C, which reads the printed form.
#
# Both programs run three times in turn, and the least time of each counts. The program bench/speed/json.rt.in is built by rt in
# a temporary folder, which is removed, over what the crates have in out/: only a proved program is built, so this takes long if
# the crates are not proved yet. It needs gcc.
top=$(CDPATH='' cd -- "$(dirname -- "$0")/../.." && pwd) || exit 1
. "$top/bench/tools/usage.sh"
. "$top/bench/tools/crates.sh"
[ $# -eq 0 ] || usage
needs rt gcc
make_room
make_bench "$room" json || exit 1
gcc -O2 -o "$room/json_lines" "$top/bench/speed/json_lines.c" || exit 1
for _ in 1 2 3; do
    (cd "$room/crates/json_bench" && rt run </dev/null) >"$room/log" 2>&1 || {
        tail -n 40 "$room/log" >&2
        exit 1
    }
    grep ' ns .* bytes$' "$room/log"
    "$room/json_lines"
done >"$room/times"
awk -F': ' '
{
    split($2, took, " ")
    if (!($1 in least)) names[++count] = $1
    if (!($1 in least) || took[1] < least[$1]) least[$1] = took[1]
    bytes[$1] = took[3]
}
END {
    for (i = 1; i <= count; i++) {
        name = names[i]
        printf "%s: %.2f million rows a second, %.0f MB a second", name, 1e5 / least[name] * 1e3, bytes[name] / least[name] * 1e3
        split(name, parts, ", ")
        split(parts[2], words, " ")
        what = words[2]
        if (words[1] != "C" && (parts[1] ", C " what) in least) printf ", %.0f%% of C", least[parts[1] ", C " what] / least[name] * 100
        if (words[1] != "C" && words[1] != "serde_json") printf ", %.0f%% of serde_json", least[parts[1] ", serde_json " what] / least[name] * 100
        print ""
    }
}' "$room/times"
