#!/bin/sh
# Decodes files with nested, dictionary and delta columns of as many values as a flat one, and prints rows and values per
# second, how these stand to the flat column's of the same type, and the most memory. What is decoded is compared with the
# rows first. The files are made by python3 (bench/speed/make_file.py), in a temporary folder, which is removed.
#
#     bench/speed/nested.sh [RUNS]           the best of so many runs, of all files in turn (5)
top=$(CDPATH='' cd -- "$(dirname -- "$0")/../.." && pwd) || exit 1
. "$top/bench/tools/usage.sh"
only_numbers "$@"
[ $# -le 1 ] || usage
needs python3
program=$("$top/bench/tools/program.sh") || exit 1
make_room
python3 - "$top" "$room" "${1:-5}" "$program" <<'PYTHON'
import os, subprocess, sys, time

top, room, runs = sys.argv[1], sys.argv[2], int(sys.argv[3])
program = sys.argv[4]
KINDS = {"flat": "flat", "optional": "flat", "lists": "flat", "groups": "flat", "delta": "flat",
         "strings": "strings", "dictionary": "strings", "lengths": "strings", "prefixes": "strings"}
VALUES = 1_000_000


def timed(file, out):
    """Processor seconds and the most memory in bytes of one decoding."""
    ran = subprocess.Popen([program, "decode", file], stdout=out)
    _, status, used = os.wait4(ran.pid, 0)
    if status:
        sys.exit(f"{file}: status {status}")
    return used.ru_utime + used.ru_stime, used.ru_maxrss * 1024


rows, best = {}, {}
for kind in KINDS:
    file, lines, printed = (os.path.join(room, kind + end) for end in (".parquet", ".jsonl", ".out"))
    subprocess.run([sys.executable, os.path.join(top, "bench/speed/make_file.py"), kind, file, lines], check=True)
    with open(printed, "wb") as out:
        timed(file, out)
    # This process stays small: the memory of a child is at least what its parent had.
    if subprocess.run(["cmp", printed, lines]).returncode:
        sys.exit(f"{kind}: other rows are decoded")
    with open(lines, "rb") as other:
        rows[kind] = sum(1 for _ in other)
    os.remove(lines)
    os.remove(printed)
for _ in range(runs):
    for kind in KINDS:
        seconds, memory = timed(os.path.join(room, kind + ".parquet"), subprocess.DEVNULL)
        old = best.get(kind, (9e9, 0))
        best[kind] = (min(old[0], seconds), max(old[1], memory))
print(f"{'':12}{'rows':>9}{'seconds':>9}{'M rows/s':>10}{'M values/s':>12}{'of flat':>9}{'memory, MB':>12}{'file, MB':>10}")
for kind, flat in KINDS.items():
    seconds, memory = best[kind]
    size = os.path.getsize(os.path.join(room, kind + ".parquet"))
    print(f"{kind:12}{rows[kind]:9}{seconds:9.3f}{rows[kind] / seconds / 1e6:10.2f}{VALUES / seconds / 1e6:12.2f}{seconds / best[flat][0]:9.2f}{memory / 1e6:12.1f}{size / 1e6:10.1f}")
PYTHON
