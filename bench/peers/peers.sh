#!/bin/sh
# Files and datasets in the hands of pyarrow, DuckDB, fastparquet and Dask, and theirs in ours, so that anyone can repeat what
# README.md and docs/FORMAT.md say of other tools.
#
#     bench/peers/peers.sh ROOM [PROGRAM [PART]...]
#
# ROOM is a folder with Debian's unstable release and these tools in it, in which they run (chroot). Where it is absent it is
# made, by debootstrap: 1.5 GB and some two minutes. This needs root, Linux and a mirror of Debian. PROGRAM is the program; without
# it that of bench/tools/program.sh. The parts are corpus, files, datasets, queries, import, workers, tutorial (the steps of
# docs/TUTORIAL.md) and sentences (of README.md and docs/FORMAT.md), all of them if none is named. For figures there are also:
#
#     side       the same work by each of them (bench/peers/side.py); TIMES=5 has how many runs there are of each
#     forms      of it, lines of JSON in three forms
#     ones       of it, 1,000 appends of one row each
#     growth     what a table of 100 to 40,000 groups takes
#     memory     what appends and imports of one and of four million rows take of it
#     large      a table of 100,000,000 rows, which takes 3 GB of the disk for some minutes; ROWS=100000000 has how many
#     sums       a sum by key of 10,000,000 rows, by workers of Dask
#
# Prints for each part how many were tried, equal and refused, with the cause; the status is 1 if there is a difference without a
# cause. It is not in the gate.
top=$(CDPATH='' cd -- "$(dirname -- "$0")/../.." && pwd) || exit 1
. "$top/bench/tools/usage.sh"
no_options "$@"
[ -n "$1" ] || usage
program=$(PQDS=${2:-$PQDS} "$top/bench/tools/program.sh") || exit 1
needs unshare chroot
mkdir -p -- "$1" || exit 1
room=$(CDPATH='' cd -- "$1" && pwd) || exit 1
[ $# -ge 2 ] && shift
shift

# Runs the words in the room, with /proc there as long as they run.
# shellcheck disable=SC2016
inside() {
    unshare --mount sh -c 'mount -t proc proc "$0/proc" && exec chroot "$0" "$@"' "$room" "$@"
}

make_debian() {
    echo "peers: making $room" >&2
    debootstrap --variant=minbase --include=ca-certificates sid "$room" http://deb.debian.org/debian >"$room.log" 2>&1 || return 1
    # A mirror whose lists are some weeks old is taken too; they are signed all the same.
    inside apt-get -o Acquire::Check-Valid-Until=false update >>"$room.log" 2>&1 || return 1
    inside env DEBIAN_FRONTEND=noninteractive apt-get install -y --no-install-recommends python3-pyarrow python3-fastparquet \
        python3-pandas python3-dask python3-distributed duckdb apache-parquet-testing time >>"$room.log" 2>&1 || return 1
    rm -f "$room.log"
}

if [ ! -x "$room/usr/bin/duckdb" ]; then
    needs debootstrap
    make_debian || {
        tail -n 20 "$room.log" >&2
        echo "peers: the room was not made; what was said is in $room.log" >&2
        exit 1
    }
fi
mkdir -p "$room/opt/pqds" || exit 1
cp --remove-destination -- "$program" "$room/opt/pqds/pqds" && cp --remove-destination -- "$top"/bench/peers/*.py "$top/docs/TUTORIAL.md" "$room/opt/pqds/" &&
    cp -r -- "$top/sample" "$room/opt/pqds/" && chmod 755 "$room/opt/pqds/pqds" || exit 1
inside env TIMES="${TIMES:-5}" ROWS="${ROWS:-100000000}" python3 -W ignore /opt/pqds/peers.py /opt/pqds/pqds /usr/share/apache/parquet-testing "$@"
