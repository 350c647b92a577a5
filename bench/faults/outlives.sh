#!/bin/sh
# bench/faults/outlives.sh: shows that a page that borrows from a buffer cannot outlive it. Two functions differ only in what they
# return. The one that returns how many bytes a page has is proved, and the compiler rejects the one that returns the page. What
# the crates have in out/ is used; crates that are not proved yet are proved first.
top=$(CDPATH='' cd -- "$(dirname -- "$0")/../.." && pwd) || exit 1
. "$top/bench/tools/usage.sh"
. "$top/bench/tools/crates.sh"
[ $# -eq 0 ] || usage
needs rt
make_room
copy_crates "$room" --built bits pages schema || exit 1
mkdir -p "$room/crates/outlives/src" || exit 1
echo 'outlives: bits pages schema' >>"$room/crates.txt"

# Checks a function that reads a page from a buffer of its own, and returns this type and value.
is_proved() {
    cat >"$room/crates/outlives/src/lib.rt" <<RATTLE
#![tactic(auto)]

use bits::R;
use pages::{PageRef, read_page};
use schema::Leaf;
use std::alloc::Global;

pub fn read<'a>(alloc: Global, leaf: &Leaf) -> R<$1> {
    let buffer: Vec<u8> = Vec::from_slice(alloc, &[1, 2, 3])?;
    let (page, used) = read_page(alloc, buffer.as_slice(), leaf, None, 1)?;
    Ok($2)
}
RATTLE
    (cd "$room/crates/outlives" && rt check </dev/null) >"$room/log" 2>&1
}

status=0
if is_proved 'usize' used; then
    echo 'what a page says is given out: proved'
else
    echo 'what a page says is given out: REFUSED'
    tail -n 20 "$room/log" >&2
    status=1
fi
if is_proved "PageRef<'a>" page; then
    echo 'the page is given out: PROVED'
    status=1
elif grep -q 'error\[' "$room/log"; then
    echo 'the page is given out: refused'
    grep -m 1 'error\[' "$room/log"
else
    echo 'the page is given out: refused for another cause'
    tail -n 20 "$room/log" >&2
    status=1
fi
exit "$status"
