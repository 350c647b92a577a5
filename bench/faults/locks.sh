#!/bin/sh
# Tries commands on one dataset side by side, in a temporary folder, which is removed. Prints a line for each try; the status
# is 1 where one fails.
#
#     bench/faults/locks.sh [PROGRAM]         with this program, or that of bench/tools/program.sh
#
# With ROWS=N datasets have N rows (20000; at least 5000, since a slow query must print more than a pipe holds). With TURNS=N there
# are N commits of each kind next to N queries (200). With OLD set to a program without `_lock`, that one is tried next to this one.
# With pyarrow for python3 it reads the folder, too.
#
# - Two appends that begin at once are both done.
# - A query that reads slowly through an append, a removal, a rewrite, an import and an added column prints exactly the table that it
#   began with. No command waits for it longer than a second, at its end, and all files are there that it needs; the next
#   command removes them, once it has ended.
# - Queries beside commits of each kind: each prints one of the tables, in their order. No file is lost, and none is left at the end.
# - With --no-wait and --wait a command beside another one is refused 25, after a line that says why, and changes nothing.
# - A command that is killed while it has a lock leaves it free. A command says on a terminal what it waits for, and nothing elsewhere.
# - `create`, `check` and `inspect` wait for those that they must wait for. A query waits for a removal, and no longer.
# - Where `_lock` is not there, is a folder or a link, or cannot be read, readers and commands that change the dataset wait for each
#   other. The next such command makes it where it is not there, readable by all who can read the folder.
# - An append that waits while another folder comes in the place of the dataset's waits for that one, and changes it alone.
# - A dataset can be appended to itself through a pipe.
top=$(CDPATH='' cd -- "$(dirname -- "$0")/../.." && pwd) || exit 1
. "$top/bench/tools/usage.sh"
take_program "$@"
needs python3
make_room
python3 -B - "$program" "$room" <<'PYTHON'
import fcntl, json, os, pty, shutil, stat, subprocess, sys, threading, time

program, room = sys.argv[1:]
os.chdir(room)
ROWS = int(os.environ.get("ROWS", "20000"))
TURNS = int(os.environ.get("TURNS", "200"))
if ROWS < 5000:
    sys.exit("locks.sh: ROWS is at least 5000: a slow query must print more than a pipe holds")
LONGEST = 600
failed = 0


def tell(what, well, why=""):
    global failed
    failed += not well
    print(f"well    {what}" if well else f"FAILED  {what}: {why}", flush=True)


def begin(*words, out=subprocess.PIPE, err=subprocess.PIPE, by=program, **more):
    return subprocess.Popen([by, *words], stdin=subprocess.DEVNULL, stdout=out, stderr=err, **more)


def end(call):
    out, err = call.communicate(timeout=LONGEST)
    return call.returncode, out.decode(), err.decode()


def called(*words, **more):
    return end(begin(*words, **more))


def timed(*words):
    begun = time.time()
    ended = called(*words)
    return ended, time.time() - begun


class Slow:
    """A query that has printed something, and waits until more is read."""

    def __init__(self, folder, **more):
        self.call = begin("query", folder, **more)
        self.first = os.read(self.call.stdout.fileno(), 1).decode()

    def end(self):
        status, rest, err = end(self.call)
        return status, self.first + rest, err


class Locked:
    """The lock of a folder or a file, held by this script."""

    def __init__(self, path, how):
        self.handle = os.open(path, os.O_RDONLY)
        fcntl.flock(self.handle, how)

    def __enter__(self):
        return self

    def __exit__(self, *_):
        os.close(self.handle)


def has_rows(folder, count):
    return called("count", folder) == (0, f"{count}\n", "")


def new_dataset(folder, rows):
    made = called("create", folder, "schema.json")
    put = called("append", folder, rows)
    if made[0] or put[0]:
        sys.exit(f"no dataset: {made} {put}")


def parts(folder):
    return {it for it in os.listdir(folder) if it.startswith("part.")}


def named(folder):
    groups = called("groups", folder)[1].splitlines()
    return {f"part.{json.loads(it)['number']}.parquet" for it in groups}


def is_clean(folder):
    return parts(folder) == named(folder) and not os.path.exists(f"{folder}/_metadata.new")


def texts(first, count):
    return [f'{{"text":"the text of the row {n}","x":{n}}}\n' for n in range(first, first + count)]


with open("schema.json", "w") as it:
    it.write('[{"name":"x","rep":"required","type":"int64"},{"name":"text","note":"utf8","rep":"required","type":"bytes"}]\n')
with open("column.json", "w") as it:
    it.write('[{"name":"y","rep":"optional","type":"int64"}]\n')
with open("nothing", "w"):
    pass
for name, first, count in (("many", 0, ROWS), ("more", ROWS, ROWS), ("few", 2 * ROWS, 3)):
    with open(f"{name}.jsonl", "w") as it:
        it.writelines(texts(first, count))
many, more, few = (open(f"{name}.jsonl").read() for name in ("many", "more", "few"))
encoded = called("encode", "schema.json", "few.jsonl", "few.parquet")
if encoded[0]:
    sys.exit(f"no file: {encoded}")
IN_USE = (1, "", "another command is using slow\nrefused 25 Device\n")

# ---- two at once ----

new_dataset("both", "many.jsonl")
calls = [begin("append", "both", "more.jsonl") for _ in range(2)]
ends = [end(it) for it in calls]
tell("two appends at once", ends == [(0, f"done {ROWS}\n", "")] * 2 and has_rows("both", 3 * ROWS), ends)
tell("nothing is left of them", is_clean("both"), (parts("both"), named("both")))

# ---- a slow query through changes of each kind ----

new_dataset("slow", "many.jsonl")
CHANGES = (
    ("an append", ("append", "slow", "few.jsonl"), "done 3\n"),
    ("a removal", ("remove", "slow", "--filter", f'[["x",">=",{2 * ROWS}]]'), "done 3\n"),
    ("an import", ("import", "slow", "few.parquet"), "done 3\n"),
    ("a removal of old rows", ("remove", "slow", "--filter", '[["x","==",0]]'), "done 1\n"),
    ("a rewrite", ("rewrite", "slow", "--min-rows", "1000000"), f"done {ROWS + 2}\n"),
    ("an added column", ("add-column", "slow", "column.json"), "done 0\n"),
)
alone = max(timed("run", "slow", "nothing")[1] for _ in range(3))
query = Slow("slow")
needed = parts("slow")
for what, words, done in CHANGES:
    ended = called(*words)
    tell(f"{what} beside a slow query is done", ended == (0, done, "") and needed <= parts("slow"), (ended, parts("slow")))
begun = timed("run", "slow", "nothing")[1]
tell("a command waits a second for readers, and then leaves files to the next", 0.9 < begun - alone < 2.5, (begun, alone))
begun = timed("run", "slow", "nothing", "--no-wait")[1]
tell("with --no-wait it does not", begun - alone < 0.7, (begun, alone))
checked = called("check", "slow")
left = len(parts("slow") - named("slow"))
note = f"note: files that the table does not name: {left}, bytes "
tell("check notes the files that are left", checked[0] == 0 and checked[1].startswith("ok: ") and note in checked[1] and left > 0, checked)
looked = called("inspect", "slow")
tell("inspect shows them", f"files that the table does not name: {left}\n" in looked[1], looked)
tell("a query is whole beside all of them", query.end() == (0, many, ""))
after = called("run", "slow", "nothing")
tell("the next command removes what the query needed", after == (0, "", "") and is_clean("slow"), (after, parts("slow"), named("slow")))
tell("nothing is noted then", "note" not in called("check", "slow")[1])

# ---- many queries beside many commits ----


def commits(folder, ends):
    """Commits of each kind, one after another."""
    for turn in range(TURNS):
        low = 10 * ROWS + 10 * turn
        with open(f"turn.{turn}", "w") as it:
            it.writelines(texts(low, 4))
        ends.append(called("append", folder, f"turn.{turn}"))
        ends.append(called("remove", folder, "--filter", f'[["x","in",[{low},{low + 1}]]]'))
        ends.append(called("import", folder, "few.parquet"))
        ends.append(called("remove", folder, "--filter", f'[["x",">=",{2 * ROWS}],["x","<",{3 * ROWS}]]'))
        ends.append(called("rewrite", folder, "--min-rows", "1000000"))


def tables_in_order():
    """The rows of each table that the commits make, by hand."""
    rows, found = [], [[]]
    new = texts(2 * ROWS, 3)
    for turn in range(TURNS):
        four = texts(10 * ROWS + 10 * turn, 4)
        found += [rows + four, rows + four[2:], rows + four[2:] + new, rows + four[2:]]
        rows = rows + four[2:]
    return ["".join(it) for it in found]


called("create", "busy", "schema.json")
ends, seen, wrong = [], [], []
writer = threading.Thread(target=commits, args=("busy", ends))
writer.start()
queries = 0
while writer.is_alive() or queries < TURNS:
    found = called("query", "busy")
    queries += 1
    (seen if found[0] == 0 and found[2] == "" else wrong).append(found)
writer.join()
tables, place, misplaced = tables_in_order(), 0, 0
for _, out, _ in seen:
    while place < len(tables) and tables[place] != out:
        place += 1
    misplaced += place == len(tables)
tell(f"{queries} queries beside {len(ends)} commits print tables in their order", not wrong and not misplaced, (wrong[:2], misplaced))
tell("each commit is done", all(it[0] == 0 and it[2] == "" for it in ends), [it for it in ends if it[0]][:2])
tell("the last table is there", called("query", "busy") == (0, tables[-1], ""))
called("run", "busy", "nothing")
tell("no file is lost, and none is left", is_clean("busy") and called("check", "busy")[1].startswith("ok: "), (parts("busy"), named("busy")))

# ---- who waits for whom ----

before = called("query", "slow")[1]
with Locked("slow", fcntl.LOCK_EX):
    begun = time.time()
    ended = called("append", "--no-wait", "slow", "few.jsonl")
    tell("--no-wait is refused at once", ended == IN_USE and time.time() - begun < 5, ended)
    ended, seconds = timed("append", "--wait", "2", "slow", "few.jsonl")
    tell("--wait 2 is refused after two seconds", ended == IN_USE and 1.9 < seconds < 6, (ended, seconds))
    ended = called("append", "--wait", "0", "slow", "few.jsonl")
    tell("--wait 0 is refused at once", ended == IN_USE, ended)
    tell("a query beside a command that changes the dataset is done", called("query", "slow", "--no-wait") == (0, before, ""))
    for word in ("check", "inspect"):
        ended = called(word, "slow", "--no-wait")
        tell(f"{word} waits for a command that changes the dataset", ended == IN_USE, ended)
with Locked("slow/_lock", fcntl.LOCK_EX):
    ended = called("count", "slow", "--no-wait")
    tell("a query waits for a removal", ended == IN_USE, ended)
    waiting = begin("count", "slow")
    time.sleep(0.3)
    waits = waiting.poll() is None
freed = time.time()
ended = end(waiting)
tell("and not longer", waits and ended[0] == 0 and time.time() - freed < 0.7, (waits, ended, time.time() - freed))
with Locked("slow", fcntl.LOCK_SH):
    ended = called("append", "slow", "few.jsonl", "--no-wait")
    tell("a command that changes the dataset waits for check and inspect", ended == IN_USE, ended)
os.mkdir("emptied")
os.close(os.open("emptied/_lock", os.O_CREAT))
with Locked("emptied/_lock", fcntl.LOCK_SH):
    ended = called("create", "emptied", "schema.json", "--no-wait")
    tell("create waits for readers", ended[0] == 1 and ended[2].endswith("refused 25 Device\n"), ended)
tell("create is done then", called("create", "emptied", "schema.json")[0] == 0)

with Locked("slow", fcntl.LOCK_EX):
    terminal, its = pty.openpty()
    waiting = begin("append", "slow", "few.jsonl", err=its)
    time.sleep(2.5)
waiting.wait(timeout=LONGEST)
os.close(its)
said = os.read(terminal, 1000)
tell("a command says on a terminal what it waits for", said == b"waiting for another command on slow\r\n", said)
tell("it is done then", waiting.returncode == 0 and has_rows("slow", ROWS + 5))

query = Slow("slow")
query.call.kill()
query.call.wait()
ended = called("run", "slow", "nothing")
tell("a killed query leaves its lock free", ended == (0, "", "") and is_clean("slow"), (ended, parts("slow")))

# ---- `_lock` that is not as it should be ----


def waits_for_a_reader(folder, **more):
    """Whether an append waits for a slow query, whose rows are all printed, and is done then."""
    count = int(called("count", folder)[1])
    query = Slow(folder, **more)
    waiting = begin("append", folder, "few.jsonl")
    time.sleep(1)
    waits = waiting.poll() is None
    status, out, err = query.end()
    ended = end(waiting)
    return waits, (status, out.count("\n") - count, err), ended


WAITED = (True, (0, 0, ""), (0, "done 3\n", ""))
mode = lambda path: stat.S_IMODE(os.stat(path).st_mode)
for what in ("is not there", "is a folder", "is a link"):
    new_dataset("odd", "many.jsonl")
    os.chmod("odd", 0o755)
    os.remove("odd/_lock")
    if what == "is a folder":
        os.mkdir("odd/_lock")
    elif what == "is a link":
        os.symlink("../schema.json", "odd/_lock")
    found = waits_for_a_reader("odd")
    tell(f"where _lock {what}, a reader and an append wait for each other", found == WAITED and is_clean("odd"), found)
    if what == "is not there":
        tell("it is made again, with the folder's mode", os.path.isfile("odd/_lock") and mode("odd/_lock") == 0o644, os.listdir("odd"))
    shutil.rmtree("odd")
os.mkdir("shared")
os.chmod("shared", 0o775)
ended = called("create", "shared", "schema.json", umask=0o077)
tell("who reads the folder can read _lock, whatever the mask", ended[0] == 0 and mode("shared/_lock") == 0o664, (ended, oct(mode("shared/_lock"))))

new_dataset("shut", "many.jsonl")
os.chmod("shut/_lock", 0)
os.chmod(room, 0o755)
for name in ("shut", *(f"shut/{it}" for it in os.listdir("shut") if it != "_lock")):
    os.chmod(name, 0o755 if os.path.isdir(name) else 0o644)
other = dict(user=65534) if os.getuid() == 0 else {}
if called("count", "shut", **other)[0] == 0:
    found = waits_for_a_reader("shut", **other)
    tell("where _lock cannot be read, a reader and an append wait for each other", found == WAITED, found)
else:
    print("passed  another user cannot run the program or read the folder")

new_dataset("gone", "many.jsonl")
query = Slow("gone")
os.remove("gone/_lock")
ended = called("remove", "gone", "--filter", '[["x",">=",1]]')
status, out, err = query.end()
tell("where _lock is deleted below a query, it prints no wrong row", ended[0] == 0 and (many == out if status == 0 else many.startswith(out)), (ended, status, err))

# ---- another folder in its place ----

new_dataset("place", "many.jsonl")
new_dataset("next", "more.jsonl")
first = Locked("place", fcntl.LOCK_EX)
waiting = begin("append", "place", "more.jsonl")
time.sleep(2.5)
os.rename("place", "before")
os.rename("next", "place")
with Locked("place", fcntl.LOCK_EX):
    os.close(first.handle)
    time.sleep(2.5)
    waits = waiting.poll() is None
ended = end(waiting)
tell("a folder that came in the place is locked", waits and ended == (0, f"done {ROWS}\n", ""), (waits, ended))
tell("only that one is changed", has_rows("place", 2 * ROWS) and has_rows("before", ROWS))

# ---- a pipe, another program, an older one ----

new_dataset("piped", "many.jsonl")
query = begin("query", "piped", err=subprocess.DEVNULL)
append = subprocess.run([program, "append", "piped", "-"], stdin=query.stdout, capture_output=True, timeout=LONGEST)
query.stdout.close()
query.wait(timeout=LONGEST)
tell("a dataset is appended to itself", (append.returncode, append.stdout) == (0, f"done {ROWS}\n".encode()) and called("query", "piped") == (0, many * 2, ""), append)

try:
    import pyarrow.dataset
except ImportError:
    print("passed  there is no pyarrow")
else:
    with Locked("piped/_lock", fcntl.LOCK_SH):
        files = pyarrow.dataset.dataset("piped", format="parquet")
        ended = called("remove", "piped", "--filter", '[["x","==",1]]')
        count = files.count_rows()
        twice = pyarrow.dataset.dataset("piped", format="parquet").count_rows()
    tell("pyarrow reads the folder beside a removal", ended[0] == 0 and count == 2 * ROWS and 2 * ROWS < twice <= 4 * ROWS - 2, (ended, count, twice))
    called("run", "piped", "nothing")
    tell("and no replaced row later", pyarrow.dataset.dataset("piped", format="parquet").count_rows() == 2 * ROWS - 2)

old = os.environ.get("OLD")
if old:
    new_dataset("aged", "many.jsonl")
    query = Slow("aged", by=old)
    waiting = begin("append", "aged", "more.jsonl")
    time.sleep(1.5)
    waits = waiting.poll() is None
    found, ended = query.end(), end(waiting)
    tell("an append waits for a query of an older program", waits and found == (0, many, "") and ended[0] == 0, (waits, ended))
    query = Slow("aged")
    ended = called("append", "aged", "few.jsonl", by=old)
    tell("an append of an older program beside a query", ended[0] == 0 and query.end() == (0, many + more, ""), ended)
    query = Slow("aged")
    ended = called("remove", "aged", "--filter", '[["x",">=",1]]', by=old)
    status, out, err = query.end()
    tell("an older program may take files away from a query, which prints no wrong row", ended[0] == 0 and (many + more + few).startswith(out), (ended, status, err))
    tell("both read the table", called("query", "aged") == called("query", "aged", by=old) and called("count", "aged")[1] == "1\n")
    with Locked("aged", fcntl.LOCK_EX):
        waiting = begin("query", "aged", by=old)
        time.sleep(1.5)
        waits = waiting.poll() is None
    tell("a query of an older program waits for a command that changes the dataset", waits and end(waiting)[0] == 0)
else:
    print("passed  OLD names no older program")
print("all well" if not failed else f"{failed} failed")
sys.exit(failed > 0)
PYTHON
