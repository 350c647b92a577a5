#!/bin/sh
# Reports whether prebuilt/ has the program of this tree, by the digest of the sources, by the program's own sum, and, if the gate
# has built crates/pqds/out/pqds, by comparing it with that. The status is 1 if they differ.
#
#     bench/tools/prebuilt.sh            reports
#     bench/tools/prebuilt.sh --write    makes both files of prebuilt/ again from crates/pqds/out/pqds, and reports
top=$(CDPATH='' cd -- "$(dirname -- "$0")/../.." && pwd) || exit 1
. "$top/bench/tools/usage.sh"
. "$top/prebuilt/sources.sh"
case $* in '' | --write) ;; *) usage ;; esac
program=$top/crates/pqds/out/pqds

if [ "$1" = --write ]; then
    needs rt
    [ -x "$program" ] || {
        echo 'prebuilt.sh: crates/pqds/out/pqds is not built: run rt ci or ./pqds --prove first' >&2
        exit 1
    }
    gzip -9 -n -c "$program" >"$top/prebuilt/pqds.gz" || exit 1
    {
        echo "sources $(digest_of_sources)"
        sum=$(sha256sum <"$program") && echo "program ${sum%% *}"
        echo "kit $(rt version)"
    } >"$top/prebuilt/SOURCES"
fi

status=0
tell() {
    echo "$1"
    [ "$2" = well ] || status=1
}

if [ "$(said_of sources)" = "$(digest_of_sources)" ]; then
    tell 'the sources are those that prebuilt/SOURCES names' well
else
    tell 'the sources are not those that prebuilt/SOURCES names' not
fi
sum=$(gzip -dc "$top/prebuilt/pqds.gz" 2>/dev/null | sha256sum)
if [ ! -f "$top/prebuilt/pqds.gz" ]; then
    tell 'there is no prebuilt/pqds.gz' not
elif [ "${sum%% *}" = "$(said_of program)" ]; then
    tell 'prebuilt/pqds.gz is the program that prebuilt/SOURCES names' well
else
    tell 'prebuilt/pqds.gz is not the program that prebuilt/SOURCES names' not
fi
if [ ! -x "$program" ]; then
    tell 'crates/pqds/out/pqds is not built, so it is not compared' well
elif gzip -dc "$top/prebuilt/pqds.gz" 2>/dev/null | cmp -s - "$program"; then
    tell 'crates/pqds/out/pqds is that program, byte for byte' well
else
    tell 'crates/pqds/out/pqds is another program' not
fi
exit "$status"
