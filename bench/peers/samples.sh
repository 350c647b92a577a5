#!/bin/sh
# bench/peers/samples.sh: decodes each file of sample/ and compares what is printed with its lines; then makes the files of orders again, each in
# its style, and compares the bytes. Prints each file that differs; the status is 0 where none does.
top=$(CDPATH='' cd -- "$(dirname -- "$0")/../.." && pwd) || exit 1
. "$top/bench/tools/usage.sh"
[ $# -eq 0 ] || usage
program=$("$top/bench/tools/program.sh") || exit 1
make_room
cd "$top/sample" || exit 1
status=0

differs() {
    echo "$1 differs"
    status=1
}

for file in *.parquet; do
    lines=${file%.parquet}
    lines=${lines%_plain}
    lines=${lines%_dictionary}
    lines=${lines%_delta}
    lines=${lines%_lengths}
    "$program" decode "$file" | cmp - "$lines.jsonl" || differs "$file"
done
for style in plain dictionary delta lengths; do
    version=1
    [ "$style" = delta ] && version=2
    "$program" encode orders.schema.json orders.jsonl "$room/$style" \
        --style "$style" --page-rows 2 --group-rows 4 --page-version "$version"
    cmp "$room/$style" "orders_$style.parquet" || differs "orders_$style.parquet, made again,"
done
[ "$status" = 0 ] && echo 'all samples are the same'
exit "$status"
