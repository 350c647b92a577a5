#!/bin/sh
# The tests of the Python module and the blocks of docs/PYTHON.md with pandas, pyarrow, fastparquet and Dask, which are in the
# room that bench/peers/peers.sh makes.
#
#     bench/peers/python.sh ROOM [PROGRAM]       PROGRAM is the program; without it that of bench/tools/program.sh
#
# Prints what python/tests prints. With the words `--speed ROWS` after PROGRAM it prints instead what frames of so many rows take,
# next to fastparquet and pyarrow; with `--workers ROWS`, what so many rows take from four workers of Dask; with `--moving`, what each
# line of docs/PYTHON.md on fastparquet gives in both. It is not in the gate.
top=$(CDPATH='' cd -- "$(dirname -- "$0")/../.." && pwd) || exit 1
. "$top/bench/tools/usage.sh"
case $1 in '' | -*) usage ;; esac
case $3 in
'' | --moving) [ $# -le 3 ] || usage ;;
--speed | --workers)
    [ $# -eq 4 ] || usage
    only_numbers "$4"
    ;;
*) usage ;;
esac
program=$(PQDS=${2:-$PQDS} "$top/bench/tools/program.sh") || exit 1
needs unshare chroot
room=$(CDPATH='' cd -- "$1" 2>/dev/null && pwd) || room=/nowhere
if [ ! -x "$room/usr/bin/python3" ]; then
    echo "python.sh: $1 is no such room: bench/peers/peers.sh makes one" >&2
    exit 1
fi
mkdir -p "$room/opt/pqds-module" && cp --remove-destination -- "$program" "$room/opt/pqds-program" && chmod 755 "$room/opt/pqds-program" || exit 1
here=/opt/pqds-module
case $3 in
--speed) set -- "$here/bench/peers/python_speed.py" "$4" ;;
--workers) set -- "$here/bench/peers/python_workers.py" "$4" ;;
--moving) set -- "$here/bench/peers/moving.py" ;;
*) set -- "$here/python/tests" ;;
esac
# The repository itself is there as long as the words run.
# shellcheck disable=SC2016
unshare --mount sh -c '
    mount -t proc proc "$0/proc" && mount -t tmpfs tmpfs "$0/dev/shm" && mount --bind "$1" "$0$2" && mount -o remount,bind,ro "$0$2" &&
        shift 2 && exec chroot "$0" "$@"' "$room" "$top" "$here" \
    env PQDS=/opt/pqds-program PYTHONPATH="$here/python" python3 -B -W ignore "$@"
