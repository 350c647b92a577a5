#!/bin/sh
# bench/speed/filter.sh: measures how many rows a second filters test: one comparison of numbers and of byte strings, an OR of three
# ANDs, and `in` with 10,000 numbers and with 10,000 byte strings. Prints a line for each. It proves and builds the program
# bench/speed/filter.rt.in first (bench/speed/proved.sh).
top=$(CDPATH='' cd -- "$(dirname -- "$0")/../.." && pwd) || exit 1
. "$top/bench/tools/usage.sh"
[ $# -eq 0 ] || usage
make_room
sh "$top/bench/speed/proved.sh" filter ' ns, ' >"$room/lines" || exit 1
awk -F': ' '{ split($2, took, " "); printf "%s: %.1f million rows a second, %.1f ns a row\n", $1, 20000 / took[1] * 1e6, took[1] / 2e7 }' "$room/lines"
