# shellcheck shell=sh
# Read by the scripts of bench/, for what they have in common. `top` is the top of the repository.

# Prints the head of the script, and ends with status 2.
usage() {
    sed -n '2,/^[^#]/s/^# \{0,1\}//p' "$0" >&2
    exit 2
}

# Ends so if one of the words is `--help` or another option.
no_options() {
    for word; do
        case $word in -*) usage ;; esac
    done
}

# Ends so unless each of the words is a number.
only_numbers() {
    for word; do
        case $word in '' | *[!0-9]*) usage ;; esac
    done
}

# Ends with status 1 if one of these commands is not on the path.
needs() {
    for word; do
        command -v "$word" >/dev/null 2>&1 || {
            echo "${0##*/}: $word is not on the path" >&2
            exit 1
        }
    done
}

# Makes `room`, a temporary folder, which is removed when the script ends.
make_room() {
    room=$(mktemp -d) || exit 1
    trap 'rm -rf "$room"' EXIT
    trap 'exit 130' INT TERM HUP
}

# For a script of at most one word, PROGRAM: sets `program` to that one, or to the one of bench/tools/program.sh.
# shellcheck disable=SC2034,SC2154
take_program() {
    no_options "$@"
    [ $# -le 1 ] || usage
    program=$(PQDS=${1:-$PQDS} "$top/bench/tools/program.sh") || exit 1
}
