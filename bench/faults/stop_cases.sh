# shellcheck shell=sh disable=SC2154
# Read by the scripts of this folder, after bench/tools/usage.sh.

# Makes `STOP_CASES` the program of the crate stop_cases, which is proved and built first, by a run on this line; or leaves it, if
# it names a program that is built already.
stop_cases() {
    if [ -z "$STOP_CASES" ]; then
        needs rt
        echo "${0##*/}: stop_cases is proved and built first, which takes long if nothing is proved yet" >&2
        (cd "$top/crates/stop_cases" && echo "$1" | rt run >/dev/null) || exit 1
        STOP_CASES=$top/crates/stop_cases/out/stop_cases
    fi
    [ -x "$STOP_CASES" ] || {
        echo "${0##*/}: the variable STOP_CASES names '$STOP_CASES', which is no program" >&2
        exit 1
    }
}
