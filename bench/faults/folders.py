"""Odd names, modes, limits and outputs: see folders.sh, which runs this."""
import contextlib, itertools, json, os, resource, shutil, signal, socket, stat, subprocess, sys

if len(sys.argv) != 3:
    print("folders.py PROGRAM ROOM: bench/faults/folders.sh runs this", file=sys.stderr)
    sys.exit(2)
program, room = sys.argv[1:]
os.chdir(room)
LONGEST = 60
GROUP, NOBODY = 4242, 65534
IS_ROOT = os.geteuid() == 0
failed = 0

SCHEMA = [{"name": "k", "note": "utf8", "rep": "required", "type": "bytes"}, {"name": "x", "rep": "required", "type": "int64"}]
ROWS = [{"k": "a", "x": 1}, {"k": "b", "x": 2}]
TABLE = '{"k":"a","x":1}\n{"k":"b","x":2}\n'
# They leave 4 rows of the table.
CHANGES = (("append", "t", "c.jsonl"), ("import", "t", "rows.parquet"), ("remove", "t", "--filter", '[["x","==",1]]'), ("rewrite", "t", "--min-rows", "100"),
           ("run", "t", "calls"), ("add-column", "t", "column.json"))


def tell(what, well, why=""):
    global failed
    failed += not well
    print(f"well    {what}" if well else f"FAILED  {what}: {why}", flush=True)


def pass_over(what):
    print(f"passed  {what}", flush=True)


def write(path, rows):
    with open(path, "w") as file:
        file.writelines(json.dumps(row, separators=(",", ":")) + "\n" for row in rows)


def called(*words, umask=None, by=(), **more):
    """The status, the output and the error of a call; a status of -1000 where it did not end."""
    more = {"stdin": subprocess.DEVNULL, "stdout": subprocess.PIPE, "stderr": subprocess.PIPE} | more
    before = os.umask(umask) if umask is not None else None
    try:
        ran = subprocess.run([*by, program, *words], timeout=LONGEST, **more)
    except subprocess.TimeoutExpired:
        return -1000, "", "it did not end"
    finally:
        if before is not None:
            os.umask(before)
    return ran.returncode, (ran.stdout or b"").decode(errors="replace"), (ran.stderr or b"").decode(errors="replace")


def new_table(folder="t", schema="schema.json", rows="rows.jsonl", keys=("k",), umask=0o022):
    shutil.rmtree(folder, ignore_errors=True)
    made = called("create", folder, schema, *keys, umask=umask), called("append", folder, rows, umask=umask)
    if any(status for status, _, _ in made):
        sys.exit(f"no dataset: {made}")
    return folder


def refusal(call):
    """The number at the end of a refused call."""
    last = call[2].rstrip("\n").rsplit("\n", 1)[-1].split()
    return int(last[1]) if call[0] == 1 and last[:1] == ["refused"] else None


def names(folder):
    """All paths below a folder, as bytes, and what each is."""
    found = {}
    for where, folders, files in os.walk(os.fsencode(folder)):
        for name in folders + files:
            path = os.path.join(where, name)
            found[path] = stat.S_IFMT(os.lstat(path).st_mode)
    return found


def files_of(folder):
    """The parts and the next root that are files of the folder."""
    return {os.fsdecode(path) for path, kind in names(folder).items() if kind == stat.S_IFREG
            and (path.endswith(b".parquet") or path.endswith(b"/_metadata.new"))}


def named_by_root(folder):
    groups = [json.loads(line) for line in called("groups", folder)[1].splitlines()]
    return {"/".join([folder, *(f"k={key}" for key in it["key"]), f"part.{it['number']}.parquet"]) for it in groups}


# ---- what may stand in the folder ----


def put_link(path):
    os.symlink(os.path.abspath("outside"), path)


def put_dangling(path):
    os.symlink("nowhere", path)


def put_socket(path):
    """A path of a socket is short, so it is bound from its folder."""
    before = os.getcwd()
    where, name = os.path.split(os.fsencode(path))
    os.chdir(where)
    with socket.socket(socket.AF_UNIX) as it:
        it.bind(name)
    os.chdir(before)


def put_device(path):
    os.mknod(path, stat.S_IFCHR | 0o600, os.makedev(1, 3))


def put_file(path):
    with open(path, "wb") as file:
        file.write(b"x")


ODD = {"link": put_link, "dangling link": put_dangling, "pipe": os.mkfifo, "socket": put_socket}
if IS_ROOT:
    ODD["device"] = put_device
else:
    pass_over("devices: only the superuser makes them")


def put_odd_names(folder):
    """Each odd node, files and folders of other names, and each odd node and a file and a folder with names that are no UTF-8."""
    before = set(names(folder))
    for where in (folder, f"{folder}/k=a", f"{folder}/k=b"):
        for kind, put in ODD.items():
            put(f"{where}/{kind}")
            put(os.fsencode(where) + b"/part.\xff" + kind.encode() + b".parquet")
            put(os.fsencode(where) + b"/k=\xff" + kind.encode())
        put_file(os.fsencode(where) + b"/\xff")
        os.mkdir(os.fsencode(where) + b"/\xffk=a")
        put_file(f"{where}/notes.txt")
        os.mkdir(f"{where}/folder")
        put_link(f"{where}/folder/_metadata")
    return set(names(folder)) - before


def is_whole(folder, table=TABLE):
    """Whether all questions are answered, as of a folder that has nothing else in it."""
    count = table.count("\n")
    checked, found = called("check", folder), called("inspect", folder)
    return (checked[0] == 0 and checked[1].startswith("ok: ") and found[0] == 0 and "missing: 0" in found[1] and called("query", folder) == (0, table, "")
            and called("count", folder) == (0, f"{count}\n", "")), (checked, found)


def killed(*words):
    """A command that is killed at its first rename: all files of its commit are there, and no root names them."""
    return subprocess.run(["strace", "-f", "-o", "/dev/null", "-e", "trace=rename", "-e", "inject=rename:signal=KILL:when=1", program, *words],
                          stdin=subprocess.DEVNULL, stdout=subprocess.DEVNULL, stderr=subprocess.DEVNULL).returncode in (-signal.SIGKILL, 137)


write("schema.json", [])
with open("schema.json", "w") as file:
    json.dump(SCHEMA, file)
with open("plain.json", "w") as file:
    json.dump(SCHEMA[1:], file)
with open("column.json", "w") as file:
    json.dump([{"name": "y", "rep": "optional", "type": "int64"}], file)
write("rows.jsonl", ROWS)
write("plain.jsonl", [{"x": 1}])
write("c.jsonl", [{"k": "c", "x": 3}])
write("many.jsonl", [{"k": "abc"[x % 3], "x": x} for x in range(20000)])
with open("calls", "w") as file:
    file.write('{"call":"append","rows":[{"k":"b","x":4}]}\n')
with open("nothing", "w"):
    pass
with open("outside", "w") as file:
    file.write("what a link leads to\n")
called("encode", "schema.json", "rows.jsonl", "rows.parquet")
HAS_STRACE = shutil.which("strace") is not None


def stays():
    with open("outside") as file:
        return file.read() == "what a link leads to\n"


new_table()
odd = put_odd_names("t")
well, why = is_whole("t")
tell(f"{len(odd)} odd names in a folder change no answer", well, why)
if HAS_STRACE:
    well = killed("append", "t", "rows.jsonl")
    left = files_of("t") - named_by_root("t")
    tell("a killed append leaves files beside them, and the table", well and len(left) == 3 and is_whole("t")[0], left)
    ended = called("run", "t", "nothing")
    tell("the next command removes these", ended == (0, "", "") and files_of("t") == named_by_root("t"), (ended, files_of("t")))
else:
    pass_over("kills: strace is not on the path")
for words in CHANGES:
    ended = called(*words)
    tell(f"{words[0]} beside them is done", ended[0] == 0 and files_of("t") == named_by_root("t") and called("check", "t")[0] == 0, ended)
tell("they stay, and what they lead to", odd <= set(names("t")) and stays(), odd - set(names("t")))

# ---- a name that a dataset could have given ----

OTHER_NODE = "25 Device: neither a file nor a folder"

# Its place, whether the table has a key, and whether a commit may come to it.
for name, keyed, is_found in (("_metadata.new", True, True), ("k=c", True, True), ("z=1", True, False), ("part.2.parquet", True, False),
                              ("k=a/part.2.parquet", True, True), ("k=a/part.9.parquet", True, True), ("k=a/_metadata", True, False),
                              ("part.1.parquet", False, True), ("part.7.parquet", False, True)):
    for kind, put in ODD.items():
        folder = new_table() if keyed else new_table(schema="plain.json", rows="plain.jsonl", keys=())
        table = TABLE if keyed else '{"x":1}\n'
        put(f"{folder}/{name}")
        checked, looked = called("check", folder), called("inspect", folder)
        read = called("query", folder)
        ended = called("append", folder, "c.jsonl" if keyed else "plain.jsonl")
        after = called("query", folder)
        more = '{"k":"c","x":3}\n' if keyed else '{"x":1}\n'
        is_done = ended[0] == 0 and after == (0, table + more, "") or refusal(ended) == 25 and after == (0, table, "")
        finding = f"{folder}/{name}: {OTHER_NODE}\nfindings: 1\n"
        is_told = checked == (1, finding, "refused 25 Device\n") if is_found else checked[0] == 0
        tell(f"a {kind} called {name}{'' if keyed else ', without keys'}: {'a finding of check' if is_found else 'no finding'}, an append is {'done' if ended[0] == 0 else 'refused'}",
             is_told and looked[0] == 0 and read == (0, table, "") and is_done and os.path.lexists(f"{folder}/{name}") and stays(),
             (checked, looked, read, ended, after))

for kind, put in ODD.items():
    new_table()
    os.remove("t/_metadata")
    put("t/_metadata")
    ended = [called(*words) for words in (("check", "t"), ("inspect", "t"), ("query", "t"), ("append", "t", "rows.jsonl"), ("create", "t", "schema.json", "k"))]
    tell(f"a {kind} called _metadata: all is refused", all(refusal(it) == 25 for it in ended) and stays(), ended)
    new_table()
    os.rename("t/k=a", "moved")
    put("t/k=a")
    checked, looked, *ended = [called(*words) for words in (("check", "t"), ("inspect", "t"), ("query", "t"), ("append", "t", "rows.jsonl"))]
    tell(f"a {kind} in the place of a key's folder: a finding of check, and inspect, query and append are refused",
         refusal(checked) == 25 and f"t/k=a: {OTHER_NODE}\n" in checked[1] and "t/k=a/part.0.parquet: 25 Device: it cannot be read\n" in checked[1]
         and all(refusal(it) == 25 for it in (looked, *ended)) and stays(), (checked, looked, ended))
    os.remove("t/k=a")
    os.rename("moved", "t/k=a")
    tell("without it the table is whole", is_whole("t")[0])

# ---- a folder that is named by a link ----

new_table()
os.symlink("t", "lk")
called_so = "lk is a link: name it with a slash after it, lk/\nrefused 25 Device\n"
ended = [called(*words) for words in (("check", "lk"), ("inspect", "lk"), ("count", "lk"), ("append", "lk", "rows.jsonl"), ("create", "lk", "schema.json", "k"))]
tell("a link to the folder: each command says what to name", all(it == (1, "", called_so) for it in ended), ended)
ended = called("check", "lk/")
tell("with a slash after it the folder is found", ended[0] == 0, ended)
os.remove("lk")

# ---- folders with the names of files ----

for name, keyed, barred in (("_metadata.new", True, True), ("k=a/part.2.parquet", True, True), ("k=a/part.9.parquet", True, False), ("part.1.parquet", False, True),
                            ("part.9.parquet", False, False)):
    folder = new_table() if keyed else new_table(schema="plain.json", rows="plain.jsonl", keys=())
    rows, table = ("rows.jsonl", TABLE) if keyed else ("plain.jsonl", '{"x":1}\n')
    os.mkdir(f"{folder}/{name}")
    checked, ended = called("check", folder), called("append", folder, rows)
    tell(f"a folder called {name}{'' if keyed else ', without keys'}: a finding of check",
         refusal(checked) == 24 and f"{folder}/{name}: 24 Exists: a folder has the name of a file that a commit makes\n" in checked[1] and "findings: 1\n" in checked[1],
         checked)
    tell(f"an append beside it is {'refused' if barred else 'done'}", (refusal(ended) == 25 and called("query", folder) == (0, table, "")) if barred else ended[0] == 0, ended)
    os.rmdir(f"{folder}/{name}")
    tell("without it an append is done", called("append", folder, rows)[0] == 0 and called("check", folder)[0] == 0)

# ---- modes and groups ----


def access(path):
    it = os.lstat(path)
    return stat.S_IMODE(it.st_mode), it.st_gid


def all_access(folder):
    """The modes and groups of the files, and of the folders below the folder."""
    found = names(folder)
    return ({access(path) for path, kind in found.items() if kind == stat.S_IFREG and not path.endswith(b"/_lock")},
            {access(path) for path, kind in found.items() if kind == stat.S_IFDIR})


def change_all(umask, **more):
    ended = [called(*words, umask=umask, **more) for words in CHANGES]
    return all(status == 0 for status, _, _ in ended), ended


for made, later, mode, folders in ((0o002, 0o077, 0o664, 0o775), (0o077, 0o002, 0o600, 0o700), (0o022, 0o177, 0o644, 0o755)):
    new_table(umask=made)
    well, why = change_all(later)
    tell(f"made with umask {made:03o} and changed with {later:03o}: files keep {mode:o}, folders {folders:o}",
         well and all_access("t") == ({(mode, os.getegid())}, {(folders, os.getegid())}), (why, all_access("t")))
for umask in (0o200, 0o400, 0o777):
    new_table()
    ended = called("append", "t", "c.jsonl", umask=umask)
    tell(f"umask {umask:03o}, which takes rights from the owner: {'done by the superuser' if IS_ROOT else 'refused 25'}",
         ended[0] == 0 and all_access("t")[0] == {(0o644, os.getegid())} if IS_ROOT else refusal(ended) == 25 and is_whole("t")[0], ended)
if IS_ROOT:
    shutil.rmtree("t")
    called("create", "t", "schema.json", "k", umask=0o002)
    os.chmod("t", 0o2775)
    os.chown("t", -1, GROUP)
    for name in ("_metadata", "_lock"):
        os.chown(f"t/{name}", -1, GROUP)
    os.chmod("t", 0o2775)
    called("append", "t", "rows.jsonl", umask=0o077)
    well, why = change_all(0o077)
    tell("the files of a setgid folder of another group have the root's group, its folders the bit, too",
         well and all_access("t") == ({(0o664, GROUP)}, {(0o2775, GROUP)}), (why, all_access("t")))
    # One who is no member of the root's group, in a folder of his own.
    os.chmod(room, 0o755)
    shutil.copy(program, "program")
    new_table(umask=0o022)
    for path in ["t", *map(os.fsdecode, names("t"))]:
        os.chown(path, NOBODY, NOBODY)
    os.chmod("t/_metadata", 0o640)
    os.chown("t/_metadata", -1, GROUP)
    as_nobody = {"user": NOBODY, "group": NOBODY, "extra_groups": []}
    old = set(names("t"))
    well, why = change_all(0o022, **as_nobody)
    files = {access(path) for path in {*names("t")} - old | {b"t/_metadata"} if os.path.isfile(path)}
    tell("a group that cannot be set is no failure, and it is not the own group that may read then", well and files == {(0o600, NOBODY)}, (why, files))
else:
    pass_over("other groups: only the superuser gives files to them")
if HAS_STRACE:
    new_table(umask=0o002)
    called("append", "t", "rows.jsonl", umask=0o077, by=("strace", "-f", "-y", "-o", "trace", "-e", "trace=chmod,fchmodat,fsync,rename"))
    with open("trace") as file:
        made = [line.split(" ", 1)[1].strip() for line in file]
    new = sorted({path for path in files_of("t") if path[-9:-8] in "23"} | {"t/_metadata.new"})
    order = {path: [line[:5] for line in made if f'("{path}", 0664)' in line or line.startswith("fsync") and line.split(">)")[0].endswith(f"/{path}")] for path in new}
    tell("the mode of a new file is set before it is synced", len(order) == 3 and all(it == ["chmod", "fsync"] for it in order.values()), (order, made))
    # The modes differ by the umask, and the group by that of the root.
    for error in ("EPERM", "EIO", "EROFS"):
        new_table(umask=0o002)
        if IS_ROOT:
            os.chown("t/_metadata", -1, GROUP)
        with contextlib.suppress(FileNotFoundError):
            os.remove("trace")
        calls = "chmod,fchmod,fchmodat,chown,fchown,lchown,fchownat"
        well, why = change_all(0o077, by=("strace", "-f", "-A", "-o", "trace", "-e", f"trace={calls}", "-e", f"inject={calls}:error={error}"))
        with open("trace") as file:
            failures = file.read().count("(INJECTED)")
        tell(f"{failures} modes and groups that cannot be set ({error}) are no failure of a commit",
             well and failures > 2 and access("t/_metadata") == (0o600, os.getegid()) and called("check", "t")[0] == 0 and called("count", "t")[1] == "4\n", (why, failures))

# ---- limits of file sizes ----


def limited(kib, is_ignored=False):
    def limit():
        resource.setrlimit(resource.RLIMIT_CORE, (0, 0))
        resource.setrlimit(resource.RLIMIT_FSIZE, (kib << 10, kib << 10))
        signal.signal(signal.SIGXFSZ, signal.SIG_IGN if is_ignored else signal.SIG_DFL)
    return limit


for kib, is_ignored in itertools.product((0, 1, 2, 8, 32), (False, True)):
    new_table()
    ended = called("append", "t", "many.jsonl", preexec_fn=limited(kib, is_ignored))
    wanted = refusal(ended) == 25 if is_ignored else ended[0] == -signal.SIGXFSZ
    tell(f"an append above a limit of {kib} KiB {'is refused 25' if is_ignored else 'ends by SIGXFSZ'}, and the table stays", wanted and is_whole("t")[0], ended)
    tell("without the limit it is done", called("append", "t", "many.jsonl") == (0, "done 20000\n", "") and files_of("t") == named_by_root("t"))
for is_ignored in (False, True):
    new_table()
    with open("log", "wb") as file:
        file.write(bytes(8 << 10))
    with open("log", "ab") as file:
        ended = called("append", "t", "c.jsonl", stdout=file, preexec_fn=limited(8, is_ignored))
    wanted = refusal(ended) == 25 and "the change was committed" in ended[2] if is_ignored else ended[0] == -signal.SIGXFSZ
    tell(f"where standard output may not grow, the change is made first{', and is said to be' if is_ignored else ''}",
         wanted and called("count", "t")[1] == "3\n", ended)
ended = called("encode", "schema.json", "many.jsonl", "limited.parquet", preexec_fn=limited(8))
tell("an encode above the limit makes no OUT", ended[0] == -signal.SIGXFSZ and not os.path.exists("limited.parquet"), ended)

# ---- outputs that are closed or full ----

for closed in ([1], [2], [0, 1, 2], [1, 2]):
    faults = []
    for words in (*CHANGES, ("create", "made", "schema.json", "k"), ("encode", "schema.json", "rows.jsonl", "made"), ("decode", "rows.parquet", "--out", "made"),
                  ("query", "t", "--out", "made")):
        for has_lock in (True, False):
            new_table()
            shutil.rmtree("made", ignore_errors=True)
            with contextlib.suppress(FileNotFoundError):
                os.remove("made")
            if not has_lock:
                os.remove("t/_lock")
            ended = subprocess.run(["sh", "-c", 'exec "$@" ' + " ".join(f"{it}>&-" for it in closed), "sh", program, *words], stdin=subprocess.DEVNULL,
                                   stdout=subprocess.DEVNULL, stderr=subprocess.DEVNULL, timeout=LONGEST)
            well = ended.returncode in (0, 1) and called("check", "t")[0] == 0 and (not os.path.exists("t/_lock") or os.path.getsize("t/_lock") == 0)
            made = [path for path in files_of("t") | {"made"} if os.path.isfile(path)]
            well = well and all(called("inspect", path)[0] == 0 and called("decode", path)[0] == 0 for path in made)
            faults += [] if well else [(words, has_lock, ended)]
    tell(f"with {' and '.join(map(str, closed))} closed each command leaves whole files", not faults, faults)
new_table()
with open("/dev/full", "wb") as full:
    ended = called("append", "t", "c.jsonl", stdout=full)
tell("of a change whose result cannot be printed it is said that it was made", refusal(ended) == 25 and "the change was committed, but the result could not be printed" in ended[2]
     and called("count", "t")[1] == "3\n", ended)
with open("/dev/full", "wb") as full:
    ended = called("append", "t", "c.jsonl", stderr=full), called("append", "nowhere", "c.jsonl", stderr=full)
tell("a full standard error changes no status", [it[0] for it in ended] == [0, 1] and called("count", "t")[1] == "4\n", ended)

# ---- a full disk, and a folder that may not be written to ----


@contextlib.contextmanager
def small_disk(kib):
    os.makedirs("small", exist_ok=True)
    subprocess.run(["mount", "-t", "tmpfs", "-o", f"size={kib}k", "tmpfs", "small"], check=True)
    try:
        yield "small"
    finally:
        subprocess.run(["umount", "small"], check=True)


def can_mount():
    with contextlib.suppress(subprocess.CalledProcessError, FileNotFoundError):
        with small_disk(64):
            return True
    return False


if IS_ROOT and can_mount():
    called("encode", "schema.json", "many.jsonl", "many.parquet")
    for words in (("append", "small/t", "many.jsonl"), ("import", "small/t", "many.parquet"), ("rewrite", "small/t", "--min-rows", "100000"),
                  ("remove", "small/t", "--filter", '[["x",">=",19990]]'), ("add-column", "small/t", "column.json")):
        refused = done = 0
        with small_disk(1024) as disk:
            begin = new_table("begin", rows="many.jsonl")
            called("append", "begin", "rows.jsonl")
            before = sorted(called("query", "begin")[1].splitlines())
            for free in range(0, 260, 12):
                shutil.rmtree("small/t", ignore_errors=True)
                shutil.copytree("begin", "small/t")
                disk_free = os.statvfs("small").f_bavail * os.statvfs("small").f_frsize
                with open("small/filler", "wb") as file:
                    file.write(bytes(max(0, disk_free - (free << 10))))
                ended = called(*words)
                whole = called("check", "small/t")[0] == 0
                now = sorted(called("query", "small/t")[1].splitlines())
                os.remove("small/filler")
                again = called(*words) if ended[0] else ended
                if ended[0] == 0:
                    done += 1
                elif refusal(ended) == 25:
                    refused += 1
                if not whole or ended[0] and (refusal(ended) != 25 or now != before) or again[0] or files_of("small/t") != named_by_root("small/t"):
                    tell(f"{words[0]} with {free} KiB free", False, (ended, whole, now == before, again))
        tell(f"{words[0]} on a small disk: {refused} times refused 25 and made again, {done} times done", refused > 0 and done > 0, (refused, done))
else:
    pass_over("small disks: only the superuser mounts them")

new_table()
who = {}
if IS_ROOT:
    os.chmod(room, 0o755)
    who = as_nobody
else:
    for where, _, _ in os.walk("t"):
        os.chmod(where, 0o555)
    os.chmod("t/_metadata", 0o444)
before = names("t")
asked = [called(*words, **who) for words in (("query", "t"), ("count", "t"), ("check", "t"), ("inspect", "t"), ("groups", "t"), ("schema", "t"))]
ended = [called(*words, **who) for words in (*CHANGES[:3], ("rewrite", "t", "0"), CHANGES[5])]
ran = called(*CHANGES[4], **who)
tell("a folder that may not be written to is read", asked[0] == (0, TABLE, "") and all(it[0] == 0 for it in asked), asked)
tell("and not changed: refused 25", all(refusal(it) == 25 for it in ended) and ran[1] == '{"name":"Device","refused":25}\n' and names("t") == before and is_whole("t")[0],
     (ended, ran))
if not IS_ROOT:
    for where, _, _ in os.walk("t"):
        os.chmod(where, 0o755)

print("all well" if not failed else f"{failed} failed")
sys.exit(failed > 0)
