#!/bin/sh
# bench/speed/huge.sh: decodes a file of 2.1 GB, near the greatest that is read, and prints the seconds and the most memory that this took;
# then a file of one byte more than the greatest, which is refused. The rows are counted, and the last one is looked at.
# The files are made by python3, in a temporary folder with some 2.2 GB of room, which is removed.
top=$(CDPATH='' cd -- "$(dirname -- "$0")/../.." && pwd) || exit 1
. "$top/bench/tools/usage.sh"
[ $# -eq 0 ] || usage
needs python3
program=$("$top/bench/tools/program.sh") || exit 1
make_room
python3 "$top/bench/speed/make_file.py" huge "$room/huge.parquet" || exit 1
printf PAR1 >"$room/longer.parquet"
truncate -s 2147483648 "$room/longer.parquet"
python3 - "$program" "$room" <<'PYTHON'
import os, resource, subprocess, sys

program, room = sys.argv[1:]
file = os.path.join(room, "huge.parquet")
child = subprocess.Popen([program, "decode", file], stdout=subprocess.PIPE)
rows, last = 0, b""
while part := child.stdout.read(1 << 20):
    rows += part.count(b"\n")
    last = (last + part)[-64:]
_, status, used = os.wait4(child.pid, 0)
size = os.path.getsize(file)
seconds = used.ru_utime + used.ru_stime
print(f"status {status}, {size} bytes, {rows} rows, the last is {last.split()[-1].decode()}")
print(f"{seconds:.1f} s of processor time, {used.ru_maxrss * 1024 / size:.2f} times the file in memory")
ran = subprocess.run([program, "decode", os.path.join(room, "longer.parquet")], capture_output=True)
print(f"one byte more than the greatest file: status {ran.returncode}, {ran.stderr.decode().strip()}, {len(ran.stdout)} bytes printed")
PYTHON
