#!/bin/sh
# bench/speed/decode.sh: decodes files of 50 MB, and prints the seconds and the most memory that this took.
# The files are made by python3, in a temporary folder, which is removed.
top=$(CDPATH='' cd -- "$(dirname -- "$0")/../.." && pwd) || exit 1
. "$top/bench/tools/usage.sh"
[ $# -eq 0 ] || usage
needs python3
program=$("$top/bench/tools/program.sh") || exit 1
make_room
for column in numbers texts; do
    python3 "$top/bench/speed/make_file.py" "$column" "$room/$column.parquet" || exit 1
    python3 - "$program" "$room/$column.parquet" <<'PYTHON'
import os, resource, subprocess, sys, time

program, file = sys.argv[1:]
begun = time.monotonic()
ran = subprocess.run([program, "decode", file], stdout=subprocess.PIPE)
seconds = time.monotonic() - begun
most = resource.getrusage(resource.RUSAGE_CHILDREN).ru_maxrss * 1024
size = os.path.getsize(file)
lines = ran.stdout.count(b"\n")
print(f"{os.path.basename(file)}: status {ran.returncode}, {size} bytes, {lines} rows, {seconds:.1f} s, {most / size:.1f} times the file in memory")
PYTHON
done
