#!/bin/sh
# bench/speed/table.sh [PROGRAM]: what calls on a table cost by its root and by its groups, with this program or that of
# bench/tools/program.sh. Prints seconds, processor seconds and the most memory, each the least of five runs (one run for calls that
# make a table):
#
#   of tables with 1,000 and 10,000 groups of 20 columns: `groups` (the root read), `count`, `add-column` (read and written);
#   of tables with one row in each group, under a key of its own: `append` and `import` of all rows, `count`, `append` of one row;
#   of 2,000 such groups: `remove` of half of them, `rewrite --all`;
#   of a group of 131,072 rows and 20 columns: `query` of one column by a filter on another, next to `decode` of its file.
#
# It needs the program `time` for the memory: what the system says of a child counts the memory of Python, which began it.
top=$(CDPATH='' cd -- "$(dirname -- "$0")/../.." && pwd) || exit 1
. "$top/bench/tools/usage.sh"
take_program "$@"
needs python3 time
make_room
python3 - "$program" "$room" <<'PYTHON'
import json, os, resource, shutil, subprocess, sys, time

program, room = os.path.abspath(sys.argv[1]), sys.argv[2]
os.chdir(room)
NAMES = [f"c{n:02}" for n in range(20)]


def call(*words):
    """Runs the program; the megabytes that it took at most."""
    ran = subprocess.run(["time", "-q", "-f", "%M", "-o", "memory", program, *words], stdout=subprocess.PIPE, stderr=subprocess.PIPE)
    if ran.returncode:
        sys.exit(f"{' '.join(words)}: {ran.stderr.decode().strip()}")
    return int(open("memory").read()) / 1024


def used():
    it = resource.getrusage(resource.RUSAGE_CHILDREN)
    return it.ru_utime + it.ru_stime


def least(*words, before=None, times=5):
    """The least seconds, processor seconds and memory of some runs."""
    found = []
    for _ in range(times):
        if before:
            before()
        begun, earlier = time.perf_counter(), used()
        memory = call(*words)
        found.append((time.perf_counter() - begun, used() - earlier, memory))
    seconds, processor, memory = (min(it) for it in zip(*found))
    return f"{seconds:.3f} / {processor:.3f} / {memory:.0f} MB"


def write_rows(path, count, names=NAMES, key=False):
    with open(path, "w") as it:
        for n in range(count):
            row = {**({"k": n} if key else {}), **{name: n * 7 + at for at, name in enumerate(names)}}
            it.write(json.dumps(row, separators=(",", ":")) + "\n")


def write_schema(path, names):
    json.dump([{"name": it, "rep": "required", "type": "int64"} for it in names], open(path, "w"))


def again(table, *words):
    """An empty table."""
    def made():
        shutil.rmtree(table, ignore_errors=True)
        call("create", table, "schema.json", *words)
    return made


def put_back(table):
    """The root of the table, each time before a call."""
    root = open(f"{table}/_metadata", "rb").read()
    return lambda: open(f"{table}/_metadata", "wb").write(root)


print(f"load {os.getloadavg()}; seconds / processor seconds / the most memory\n")
write_schema("schema.json", NAMES)
json.dump([{"name": "later", "rep": "optional", "type": "int64"}], open("later.json", "w"))
print("| groups of 20 columns | root | `groups` | `count` | `add-column` |\n|---|---|---|---|---|")
for groups in (1_000, 10_000):
    table = f"of_{groups}"
    write_rows("rows.jsonl", groups)
    call("create", table, "schema.json")
    call("append", table, "rows.jsonl", "--group-rows", "1")
    size = os.path.getsize(f"{table}/_metadata")
    times = [least("groups", table), least("count", table), least("add-column", table, "later.json", before=put_back(table))]
    print(f"| {groups:,} | {size / 1e6:.1f} MB | " + " | ".join(times) + " |", flush=True)
    shutil.rmtree(table)

print("\n| keys, one row each | root | `append` of all | `import` of all | `count` | `append` of one |\n|---|---|---|---|---|---|")
for groups, columns in ((20_000, 1), (20_000, 5), (5_000, 20)):
    write_schema("schema.json", ["k", *NAMES[:columns]])
    write_rows("rows.jsonl", groups, NAMES[:columns], True)
    write_rows("one.jsonl", 1, NAMES[:columns], True)
    if os.path.exists("rows.parquet"):
        os.remove("rows.parquet")
    call("encode", "schema.json", "rows.jsonl", "rows.parquet")
    made = [least(*words, before=again("keyed", "k"), times=1) for words in (("import", "keyed", "rows.parquet"), ("append", "keyed", "rows.jsonl"))]
    size = os.path.getsize("keyed/_metadata")
    times = [made[1], made[0], least("count", "keyed"), least("append", "keyed", "one.jsonl", before=put_back("keyed"))]
    print(f"| {groups:,}, {columns} columns | {size / 1e6:.1f} MB | " + " | ".join(times) + " |", flush=True)

write_schema("schema.json", ["k", *NAMES[:5]])
write_rows("rows.jsonl", 2_000, NAMES[:5], True)
again("keyed", "k")()
call("append", "keyed", "rows.jsonl")
print("\n| 2,000 keys, one row each, 5 columns | |\n|---|---|")
print(f"| `rewrite --all` | {least('rewrite', 'keyed', '--all', times=1)} |")
some = ["remove", "keyed", "--filter", '[["k","<",1000]]']
print(f"| `remove` of 1,000 of them | {least(*some, times=1)} |", flush=True)

write_schema("schema.json", NAMES)
write_rows("rows.jsonl", 131_072)
call("create", "wide", "schema.json")
call("append", "wide", "rows.jsonl")
part = "wide/" + next(it for it in os.listdir("wide") if it.startswith("part."))
asked = ["query", "wide", "c02", "--filter", '[["c01",">=",458752]]']
print("\n| of 131,072 rows, 20 columns | |\n|---|---|")
print(f"| `query`, one column of half of the rows | {least(*asked)} |")
print(f"| `decode` of the part file | {least('decode', part)} |")
PYTHON
