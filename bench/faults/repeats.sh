#!/bin/sh
# A load of many steps that is killed at random and begun again until it is done, in a temporary folder, which is removed: each row
# must be there once. Each step is an `append` (or, every third, an `import` of two files) with `--unless` and a filter for its own
# rows. The status is 1 where a row is missing or there twice.
#
#     bench/faults/repeats.sh [PROGRAM]       with this program, or that of bench/tools/program.sh
#
# With STEPS=N there are N steps (50), with SEED=N other moments.
top=$(CDPATH='' cd -- "$(dirname -- "$0")/../.." && pwd) || exit 1
. "$top/bench/tools/usage.sh"
take_program "$@"
needs python3
make_room
python3 -B - "$program" "$room" <<'PYTHON'
import json, os, random, subprocess, sys, time

program, room = sys.argv[1:]
os.chdir(room)
STEPS = int(os.environ.get("STEPS", "50"))
ROWS = 40
chance = random.Random(int(os.environ.get("SEED", "1")))
SCHEMA = [{"name": "key", "rep": "required", "type": "int64"}, {"name": "step", "rep": "required", "type": "int64"},
          {"name": "row", "rep": "required", "type": "int64"}]


def done(*words):
    return subprocess.run([program, *words], check=True, stdout=subprocess.PIPE).stdout.decode()


def rows_of(step):
    return [{"key": row % 3, "step": step, "row": row} for row in range(ROWS)]


def write(path, rows):
    with open(path, "w") as file:
        file.writelines(json.dumps(row) + "\n" for row in rows)


def words_of(step):
    """The words of a step, whose files are made."""
    rows, unless = rows_of(step), ("--unless", json.dumps([["step", "==", step]]))
    if step % 3:
        write("rows.jsonl", rows)
        return ("append", "t", "rows.jsonl", *unless)
    names = []
    for name, some in ((f"{step}.0.parquet", rows[: ROWS // 2]), (f"{step}.1.parquet", rows[ROWS // 2 :])):
        names.append(name)
        if not os.path.exists(name):
            write("rows.jsonl", some)
            done("encode", "schema.json", "rows.jsonl", name)
    return ("import", "t", *names, *unless)


def try_load(longest):
    """Makes all steps, from the first. Whether none was killed."""
    for step in range(STEPS):
        words = words_of(step)
        call = subprocess.Popen([program, *words], stdout=subprocess.DEVNULL)
        if chance.random() < 0.1:
            time.sleep(chance.random() * longest)
            call.kill()
        if call.wait():
            return False
    return True


with open("schema.json", "w") as file:
    json.dump(SCHEMA, file)
done("create", "t", "schema.json", "key")
began = time.time()
done(*words_of(0))
longest = 1.2 * (time.time() - began)
tries = 1
while not try_load(longest):
    tries += 1
found = sorted((row["step"], row["row"]) for row in map(json.loads, done("query", "t").splitlines()))
wanted = [(step, row) for step in range(STEPS) for row in range(ROWS)]
checked = done("check", "t").startswith("ok")
print(f"{STEPS} steps, begun {tries} times: {len(found)} rows, {'each once' if found == wanted else 'NOT each once'}")
sys.exit(found != wanted or not checked)
PYTHON
