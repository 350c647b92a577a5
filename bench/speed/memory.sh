#!/bin/sh
# bench/speed/memory.sh [PROGRAM]: prints the most memory that each command takes, in MB, for the table of docs/USAGE.md, with this
# program or that of bench/tools/program.sh: for 600,000 rows of two numbers and a text, as lines, as a Parquet file, and in a dataset
# of 10 keys with one group each.
#
# The program is begun as ./pqds does it, with huge pages. It needs the program `time`: what the system says of a child counts the
# memory of Python, which began it.
top=$(CDPATH='' cd -- "$(dirname -- "$0")/../.." && pwd) || exit 1
. "$top/bench/tools/usage.sh"
take_program "$@"
needs python3 time
make_room
python3 - "$program" "$room" <<'PYTHON'
import json, os, shutil, subprocess, sys

program, room = os.path.abspath(sys.argv[1]), sys.argv[2]
os.chdir(room)
ROWS = 600_000
TUNED = {**os.environ, "GLIBC_TUNABLES": "glibc.malloc.hugetlb=1"}


def call(*words):
    """Runs the program; the megabytes that it took at most."""
    ran = subprocess.run(["time", "-q", "-f", "%M", "-o", "memory", program, *words], stdout=subprocess.DEVNULL, stderr=subprocess.PIPE, env=TUNED)
    if ran.returncode:
        sys.exit(f"{' '.join(words)}: {ran.stderr.decode().strip()}")
    return int(open("memory").read()) / 1024


def say(what, *words):
    print(f"| {what} | {call(*words):.0f} MB |", flush=True)


def made(table, *keys):
    shutil.rmtree(table, ignore_errors=True)
    call("create", table, "schema.json", *keys)


json.dump([{"name": "k", "rep": "required", "type": "int64"}, {"name": "n", "rep": "required", "type": "int64"},
           {"name": "t", "rep": "required", "type": "bytes", "note": "utf8"}], open("schema.json", "w"))
with open("rows.jsonl", "w") as it:
    for n in range(ROWS):
        it.write('{"k":%d,"n":%d,"t":"row %014d"}\n' % (n % 10, n * 7919, n))
made("table", "k")
made("bare")
call("encode", "schema.json", "rows.jsonl", "rows.parquet")
print(f"{os.path.getsize('rows.jsonl') / 1e6:.0f} MB of lines, {os.path.getsize('rows.parquet') / 1e6:.0f} MB as a file\n\n| command | memory |\n|---|---|")
say("`decode`", "decode", "rows.parquet")
say("`inspect FILE`", "inspect", "rows.parquet")
os.remove("rows.parquet")
say("`encode`", "encode", "schema.json", "rows.jsonl", "rows.parquet")
say("`check SCHEMA ROWS`", "check", "schema.json", "rows.jsonl")
say("`append`, 10 keys", "append", "table", "rows.jsonl")
say("`append`, no key", "append", "bare", "rows.jsonl")
made("again", "k")
say("`import`, 10 keys", "import", "again", "rows.parquet")
made("bare")
say("`import`, no key", "import", "bare", "rows.parquet")
made("again", "k")
say("`import` of four such files, 10 keys", "import", "again", *["rows.parquet"] * 4)
say("`check DIR ROWS`", "check", "table", "rows.jsonl")
say("`query`", "query", "table")
say("`query --out FILE` of one key", "query", "table", "--filter", '[["k","==",3]]', "--out", "out.parquet")
os.remove("out.parquet")
say("`query --out FILE` of all rows", "query", "table", "--out", "out.parquet")
say("`count` with a filter", "count", "table", "--filter", '[["n","<",1000]]')
for command in ("count", "groups", "schema", "inspect"):
    say(f"`{command}`", command, "table")
json.dump([{"name": "later", "rep": "optional", "type": "int64"}], open("later.json", "w"))
say("`add-column`", "add-column", "again", "later.json")
say("`check DIR`", "check", "table")
say("`rewrite` of one group", "rewrite", "table", "3")
say("`remove` of some rows of each group", "remove", "table", "--filter", '[["n","<",100000]]')
call("append", "table", "rows.jsonl")
say("`rewrite --min-rows`, two groups of each key into one of 110,000 rows", "rewrite", "table", "--min-rows", "100000")
calls = [{"call": "query", "columns": None, "filter": []}] + [{"call": "fetch", "cursor": 0}] * 11
with open("script.jsonl", "w") as it:
    it.writelines(json.dumps(one) + "\n" for one in calls)
say("`run`, which fetches 1,100,000 rows", "run", "table", "script.jsonl")
PYTHON
