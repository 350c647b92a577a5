# shellcheck shell=sh disable=SC2154
# Read by the scripts that make a crate of their own in a temporary folder; `top` is the top of the repository.
. "$top/prebuilt/sources.sh"

# The crates that a source file uses, in one line: those of its `use` lines, and `anyhow`, which stands in types alone.
uses_of() {
    {
        sed -n 's/^use \([a-z_0-9]*\).*/\1/p' "$1" | grep -vx std
        grep -o '\<anyhow\>' "$1"
    } | LC_ALL=C sort -u | tr '\n' ' '
}

# copy_crates ROOM [--built] CRATE..: copies these crates of the repository and all below them, with --built also what is proved
# of them, and writes ROOM/crates.txt. A crate that has no folder here is the kit's.
copy_crates() {
    into=$1
    shift
    built=
    if [ "$1" = --built ]; then
        built=yes
        shift
    fi
    mkdir -p "$into/crates" || return 1
    for crate in $(crates_below "$@"); do
        mkdir "$into/crates/$crate" || return 1
        for part in "$top/crates/$crate"/*; do
            [ "${part##*/}" = out ] && [ -z "$built" ] || cp -a -- "$part" "$into/crates/$crate/" || return 1
        done
        grep "^${crate}[ :]" "$top/crates.txt"
    done >"$into/crates.txt"
}

# make_bench ROOM NAME: makes the crate NAME_bench of bench/speed/NAME.rt.in in ROOM, over what is proved here of the crates that
# it uses, and of those below.
make_bench() {
    source=$top/bench/speed/$2.rt.in
    [ -f "$source" ] || {
        echo "crates.sh: there is no bench/speed/$2.rt.in" >&2
        return 1
    }
    used=$(uses_of "$source")
    # shellcheck disable=SC2086
    copy_crates "$1" --built $used || return 1
    mkdir -p "$1/crates/$2_bench/src" && cp -- "$source" "$1/crates/$2_bench/src/main.rt" &&
        echo "$2_bench: $used" >>"$1/crates.txt"
}
