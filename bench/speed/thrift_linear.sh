#!/bin/sh
# Shows that reading a struct takes time in proportion to its bytes. For each shape of struct the
# steps of the kit's interpreter are bounded on both sides: SIZE values take more than STEPS steps, and
# eight times as many values at most nine times as many. (The steps include the building of the bytes.)
#
#     bench/speed/thrift_linear.sh                         each shape of the table at the end, some 5 minutes
#     bench/speed/thrift_linear.sh SHAPE SIZE STEPS        says whether SIZE values take at most STEPS
#
# It needs `rt` on the path, writes nothing in the repository, and proves nothing.
set -eu
top=$(CDPATH='' cd -- "$(dirname -- "$0")/../.." && pwd)
. "$top/bench/tools/usage.sh"
. "$top/bench/tools/crates.sh"
no_options "$@"
[ $# -eq 0 ] || [ $# -eq 3 ] || usage
[ $# -eq 0 ] || only_numbers "$2" "$3"
needs rt
make_room
copy_crates "$room" bits thrift_compact
mkdir -p "$room/crates/thrift_cost/src"
echo 'thrift_cost: bits thrift_compact' >>"$room/crates.txt"

# The byte so many times.
repeated() {
    for _ in $(seq "$2"); do printf '%s,' "$1"; done
}

# A size as a varint.
varint() {
    rest=$1
    while [ "$rest" -ge 128 ]; do printf '%d,' $((rest % 128 + 128)); rest=$((rest / 128)); done
    printf '%d,' "$rest"
}

# What stands before the values of the shape, and one value.
bytes_of() {
    head=
    case $1 in
        # Fields: i32, and empty lists whose elements have no known type.
        fields) value=0x05,0x02,0x02 ;;
        untyped) value=0x09,0x02,0x0D ;;
        # 32 structs in one another.
        nested) value=0x0C,0x02,$(repeated 0x1C 31)$(repeated 0x00 32) ;;
        # One list of empty structs.
        list) head=0x19,0xFC,$(varint "$2") value=0x00 ;;
        # Lists in one another, each announced with as many elements as there are bytes.
        announced) head=0x19,$(for _ in $(seq 30); do printf 0xF9,; varint "$2"; done)0xF3,$(varint "$2") value=0x00 ;;
        *) echo "no shape $1" >&2; exit 2 ;;
    esac
}

# Whether a struct of so many values of the shape is built and read in so many steps.
is_within() {
    bytes_of "$1" "$2"
    cat > "$room/crates/thrift_cost/src/main.rt" <<TEXT
#![tactic(auto)]

use bits::R;
use std::alloc::Global;
use std::io;
use thrift_compact::read_struct;

const HEAD: &[u8] = &[$head];
const VALUE: &[u8] = &[$value];

fn used(alloc: Global) -> R<usize> {
    let mut bytes = Vec::from_slice(alloc, HEAD)?;
    for _ in 0..$2 {
        bytes.extend_from_slice(VALUE)?;
    }
    bytes.push(0)?;
    let (_, used) = read_struct(alloc, bytes.as_slice())?;
    Ok(used)
}

fn main(rt: HostRuntime) -> io::Result<()> {
    match used(rt.alloc()) {
        Ok(used) => println!(rt; "{used} bytes")?,
        Err(refusal) => println!(rt; "{refusal:?}")?,
    }
    Ok(())
}
TEXT
    (cd "$room/crates/thrift_cost" && rt try --steps "$3" < /dev/null) > "$room/said" 2>&1 || true
    grep -q '^checked: ended status=0' "$room/said" || { cat "$room/said" >&2; exit 1; }
    read=$(grep -E 'bytes$|^[A-Z][a-z]+$' "$room/said")
    grep -q '^interpreter: ended status=0' "$room/said"
}

if [ $# -eq 3 ]; then
    if is_within "$1" "$2" "$3"; then echo "$1 $2 ($read): at most $3 steps"; else echo "$1 $2 ($read): more than $3 steps"; fi
    exit
fi

# Shape, values, steps.
while read -r shape size steps; do
    if is_within "$shape" "$size" "$steps"; then echo "$shape $size: at most $steps steps, so the bound is too high"; exit 1; fi
    few=$read
    if ! is_within "$shape" $((8 * size)) $((9 * steps)); then echo "$shape $((8 * size)): more than $((9 * steps)) steps"; exit 1; fi
    echo "$shape $size ($few): more than $steps steps; $shape $((8 * size)) ($read): at most $((9 * steps))"
done <<TEXT
fields 1000 1181606
untyped 1000 1244665
nested 50 1542210
list 2000 1189206
announced 2000 1090507
TEXT
