#!/bin/sh
# bench/faults/killed_at.sh CALL COMMAND..: runs a command and kills it, as `kill -9` does, when it first makes this system call; that
# call is not made. It needs strace. Status 1 if the command ended by itself.
top=$(CDPATH='' cd -- "$(dirname -- "$0")/../.." && pwd) || exit 1
. "$top/bench/tools/usage.sh"
case $1 in -*) usage ;; esac
[ $# -ge 2 ] || usage
needs strace
call=$1
shift
status=0
strace -f -o /dev/null -e "trace=$call" -e "inject=$call:signal=KILL:when=1" "$@" || status=$?
if [ "$status" -ne 137 ]; then
    echo "killed_at.sh: it was not killed, and ended with status $status" >&2
    exit 1
fi
echo "killed at its first call of $call"
