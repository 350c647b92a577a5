#!/bin/sh
# Encodes rows of a number and a text in each style, decodes them again, and prints rows and bytes per second next
# to `cat` of the same files in the same run, for 100,000 and for 1,000,000 rows: a cost that is linear has the same rows
# per second in both. The rows are made by python3, in a temporary folder, which is removed. Each time is processor time, the
# best of three; that of a style is also given as a multiple of the time of `plain`.
#
#     bench/speed/encode.sh [ROWS]...        other numbers of rows (at most 1048576 each)
#
# If the variable ENCODER names a program, it is run as well: as ENCODER n:i,t:s ROWS OUT, where i is a number and s a text.
top=$(CDPATH='' cd -- "$(dirname -- "$0")/../.." && pwd) || exit 1
. "$top/bench/tools/usage.sh"
only_numbers "$@"
[ $# -gt 0 ] || set -- 100000 1000000
needs python3
program=$("$top/bench/tools/program.sh") || exit 1
make_room
for rows in "$@"; do
    python3 - "$program" "$room" "$rows" <<'PYTHON' || exit 1
import os, subprocess, sys

program, room, rows = sys.argv[1], sys.argv[2], int(sys.argv[3])
schema, lines, file, printed = (os.path.join(room, name) for name in ("schema.json", "rows.jsonl", "rows.parquet", "printed.jsonl"))
with open(schema, "w") as out:
    out.write('[{"name":"n","rep":"required","type":"int64"},{"name":"t","rep":"required","type":"bytes","note":"utf8"}]\n')
with open(lines, "w") as out:
    for n in range(rows):
        # The numbers are spread over all of 64 bits, the texts have 12 to 19 letters.
        number = (n * 0x9E3779B97F4A7C15) % 2**64 - 2**63
        out.write('{"n":%d,"t":"row %08d%s"}\n' % (number, n, "x" * (n % 8)))


def measured(what, words, read, out=None, times=3, than=None):
    """Runs the words, and prints what they took at best; the bytes are those that are read."""
    seconds = float("inf")
    for _ in range(times):
        if os.path.exists(file) and file in words and file != read:
            os.remove(file)
        with open(out or os.devnull, "wb") as sink:
            child = subprocess.Popen(words, stdout=sink)
            _, status, used = os.wait4(child.pid, 0)
        seconds = min(seconds, max(used.ru_utime + used.ru_stime, 0.001))
        if status:
            sys.exit(f"{what} ended with {status}")
    size = os.path.getsize(read)
    beside = f", {seconds / than:.1f} times as long" if than else ""
    print(f"{what:22} {rows} rows, {size} bytes read, {seconds:.2f} s, {rows / seconds:,.0f} rows/s, {size / seconds / 1e6:,.1f} MB/s, at most {used.ru_maxrss * 1024 / 1e6:,.0f} MB{beside}")
    return seconds


options = ["--group-rows", "1048576", "--page-rows", "1048576"]
other = os.environ.get("ENCODER")
beside = measured("the other program", [other, "n:i,t:s", lines, file], lines) if other else None
measured("cat of the lines", ["cat", lines], lines)
same, plain = True, None
for style in ("plain", "dictionary", "delta", "lengths"):
    took = measured(f"encode {style}", [program, "encode", schema, lines, file, "--style", style] + options, lines, than=plain or beside)
    plain = plain or took
    measured(f"decode {style}", [program, "decode", file], file, printed)
    # This process stays small: the memory of a child is at least what its parent had.
    same = same and not subprocess.run(["cmp", lines, printed]).returncode
measured("cat of the file", ["cat", file], file)
print("the lines are the same again" if same else "the lines DIFFER")
for path in (lines, file, printed):
    os.remove(path)
sys.exit(not same)
PYTHON
done
