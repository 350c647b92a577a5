"""crash.py [--jobs N] [--beside] [--syncs | --refuse SHIM] PROGRAM.. [-- COMMAND..]: commands on a real folder that are killed, that
meet errors, and whose power is cut; with --beside, next to a reader; with --syncs, the same records with each sync left out; with
--refuse, commands of which one allocation is refused. `bench/faults/crash.sh` and `bench/faults/allocations.sh` say what is tried,
and run it."""
import argparse, collections, concurrent.futures, contextlib, fcntl, itertools, json, os, re, shutil, subprocess, sys, tempfile, threading

MOST_IMAGES = 256   # of one moment; where there are more, all old, all new, and each thing by itself
ERRORS = "openat read lseek statx getdents64 mkdir write fsync rename unlink rmdir close flock fcntl".split()

# ---- the tables, by hand ----

SCHEMA = ('[{"name":"k","note":"utf8","rep":"required","type":"bytes"},'
          '{"name":"x","rep":"required","type":"int64"}]\n')
FIELD = '[{"name":"y","rep":"optional","type":"int64"}]\n'


class Table(collections.namedtuple("Table", "rows groups")):
    """The rows as `query` prints them, and of each group the key, the number and how many rows it has."""


def lines(*rows, y=False):
    null = ',"y":null' if y else ""
    return tuple('{"k":"%s","x":%d%s}' % (k, x, null) for k, x in rows)


A1, A7, B2, A3, B4, C5, A6 = ("a", 1), ("a", 7), ("b", 2), ("a", 3), ("b", 4), ("c", 5), ("a", 6)
EMPTY = Table((), ())
START = Table(lines(A1, A7, A3, B2), (("a", 0, 2), ("a", 2, 1), ("b", 1, 1)))
NO_TABLE = "no table"


def text_of(*rows):
    return "".join(line + "\n" for line in lines(*rows))


class Command:
    """A command, the folder that it begins with, and the tables that it may leave: `tables[n]` after n of its commits. `gives` is
    the folder in which it makes files, if it makes any."""

    def __init__(self, words, done, tables, begin="start", answers=None, gives=None):
        self.words, self.done, self.tables, self.begin, self.answers, self.gives = words, done, tables, begin, answers, gives
        self.meanwhile = sum(answers.values(), []) if answers else tables


REWRITTEN = Table(START.rows, (("a", 3, 3), ("b", 1, 1)))
APPENDED = Table(lines(A1, A7, A3, B2, B4), (("a", 0, 2), ("a", 2, 1), ("b", 1, 1), ("b", 3, 1)))
BOTH = Table(lines(A7, A3, B2, B4), (("a", 4, 1), ("a", 2, 1), ("b", 1, 1), ("b", 3, 1)))
REMOVED = Table(lines(A7, A3, B2), (("a", 3, 1), ("a", 2, 1), ("b", 1, 1)))
# The same after a refused append, which has used up a number.
REMOVED_LATER = Table(REMOVED.rows, (("a", 4, 1), ("a", 2, 1), ("b", 1, 1)))
COMMANDS = {
    "create": Command("create t schema k", "", [NO_TABLE, EMPTY], "nothing"),
    "create in a folder that is there": Command("create t schema k", "", [NO_TABLE, EMPTY], "folder"),
    "append": Command("append t rows", "done 2\n", [START, Table(
        lines(A1, A7, A3, B2, B4, C5), (("a", 0, 2), ("a", 2, 1), ("b", 1, 1), ("b", 3, 1), ("c", 4, 1)))]),
    "import": Command("import t file", "done 1\n", [START, Table(
        lines(A1, A7, A3, A6, B2), (("a", 0, 2), ("a", 2, 1), ("a", 3, 1), ("b", 1, 1)))]),
    "import of three files": Command("import t file file_b file_c", "done 3\n", [START, Table(
        lines(A1, A7, A3, A6, B2, B4, C5), (("a", 0, 2), ("a", 2, 1), ("a", 3, 1), ("b", 1, 1), ("b", 4, 1), ("c", 5, 1)))]),
    "append unless": Command(["append", "t", "rows", "--unless", '[["x","==",4]]'], "done 2\n", [START, Table(
        lines(A1, A7, A3, B2, B4, C5), (("a", 0, 2), ("a", 2, 1), ("b", 1, 1), ("b", 3, 1), ("c", 4, 1)))]),
    "remove by number": Command("remove t 0", "done 2\n", [START, Table(lines(A3, B2), (("a", 2, 1), ("b", 1, 1)))]),
    "remove by filter": Command(["remove", "t", "--filter", '[["x","==",1]]'], "done 1\n", [START, REMOVED]),
    "rewrite": Command("rewrite t 0 2", "done 3\n", [START, REWRITTEN]),
    "rewrite of small groups": Command("rewrite t --min-rows 100", "done 3\n", [START, REWRITTEN]),
    "add-column": Command("add-column t field", "done 0\n", [START, Table(
        lines(A1, A7, A3, B2, y=True), START.groups)]),
    "run": Command("run t calls", '{"done":1}\n{"done":1}\n{"count":4}\n', [START, APPENDED, BOTH], answers={
        (True, True): [BOTH], (True, False): [APPENDED], (False, True): [REMOVED, REMOVED_LATER], (False, False): [START]}),
    # Openings that have something to clean away, and those to read that leave it: what a killed append, and a killed rewrite, leave.
    "run after a killed append": Command("run t nothing", "", [START], "append"),
    "run after a killed rewrite": Command("run t nothing", "", [REWRITTEN], "rewrite"),
    "query to a folder": Command("query t --out answer", "", [START], "answer", gives="answer"),
    "query after a killed append": Command("query t", "".join(it + "\n" for it in START.rows), [START], "append"),
    "query after a killed rewrite": Command("query t", "".join(it + "\n" for it in START.rows), [REWRITTEN], "rewrite"),
}

FILES = {
    "schema": SCHEMA,
    "field": FIELD,
    "rows": text_of(B4, C5),
    "first": text_of(A1, A7, B2),
    "second": text_of(A3),
    "imported": text_of(A6),
    "imported_b": text_of(B4),
    "imported_c": text_of(C5),
    "nothing": "",
    "calls": '{"call":"append","rows":[{"k":"b","x":4}]}\n{"call":"remove","filter":[["x","==",1]]}\n{"call":"count","filter":[]}\n',
}

# ---- a folder as a power failure may leave it ----


class Folder:
    """The names that it has, and what each may name after a power failure: first what is durable."""

    def __init__(self):
        self.now, self.may = {}, {}

    def bind(self, name, node):
        self.may.setdefault(name, [self.now.get(name)])
        if node not in self.may[name]:
            self.may[name].append(node)
        if node is None:
            self.now.pop(name, None)
        else:
            self.now[name] = node

    def sync(self):
        self.may = {}

    def choices(self, name):
        return self.may.get(name) or [self.now[name]]

    def names(self):
        return sorted(set(self.now) | set(self.may))


class File:
    """Its bytes, those that are durable, and whether a sync of it has failed: then none makes it durable any more."""

    def __init__(self, now=b""):
        self.now, self.durable, self.doubted = now, now, False

    def sync(self):
        if not self.doubted:
            self.durable = self.now

    def choices(self, _name=None):
        """Bytes that are not durable may be there or not, cut, or zeros in part."""
        if self.durable == self.now:
            return [self.now]
        old, new = self.durable, self.now[len(self.durable):]
        half = len(new) // 2
        found = [old, self.now, self.now[:-1], old + new[:half], old + bytes(len(new)), old + new[:half] + bytes(len(new) - half),
                 old + bytes(half) + new[half:]]
        return list(dict.fromkeys(found))


def folder_from(tree):
    """A folder whose names and bytes are all durable."""
    top = Folder()
    for path in sorted(tree):
        where, _, name = path.rpartition("/")
        node = Folder() if tree[path] is None else File(tree[path])
        found = node_at(top, where)
        found.now[name] = node
    return top


def node_at(top, path):
    for name in filter(None, path.split("/")):
        top = top.now[name]
    return top


def points(top):
    """Each choice that a power failure makes: an owner, a name in it, and how many choices there are."""
    found, seen, waiting = [], set(), [top]
    while waiting:
        node = waiting.pop()
        if id(node) in seen:
            continue
        seen.add(id(node))
        if isinstance(node, File):
            if len(node.choices()) > 1:
                found.append((node, None, len(node.choices())))
            continue
        for name in node.names():
            choices = node.choices(name)
            if len(choices) > 1:
                found.append((node, name, len(choices)))
            waiting += [it for it in choices if it is not None]
    return found


def image(node, picks, path=""):
    """The tree that these picks leave."""
    if isinstance(node, File):
        return {path: node.choices()[picks.get((id(node), None), 0)]}
    tree = {path: None} if path else {}
    for name in node.names():
        it = node.choices(name)[picks.get((id(node), name), 0)]
        if it is not None:
            tree.update(image(it, picks, f"{path}/{name}" if path else name))
    return tree


def images(top):
    """What a power failure may leave now."""
    found = points(top)
    keys, sizes = [(id(it[0]), it[1]) for it in found], [it[2] for it in found]
    total = 1
    for size in sizes:
        total *= size
    if total <= MOST_IMAGES:
        every = itertools.product(*map(range, sizes))
    else:
        old, new = [0] * len(sizes), [size - 1 for size in sizes]
        every = [old, new]
        for at, size in enumerate(sizes):
            for pick in range(size):
                every += [ends[:at] + [pick] + ends[at + 1:] for ends in (old, new)]
    return [image(top, dict(zip(keys, picks))) for picks in every]


def tree_of(place):
    tree = {}
    for at, folders, files in os.walk(place):
        below = os.path.relpath(at, place)
        below = "" if below == "." else below + "/"
        for name in folders:
            tree[below + name] = None
        for name in files:
            with open(os.path.join(at, name), "rb") as file:
                tree[below + name] = file.read()
    return tree


def put(tree, place):
    os.makedirs(place, exist_ok=True)
    for path in sorted(tree):
        if tree[path] is None:
            os.makedirs(os.path.join(place, path), exist_ok=True)
        else:
            with open(os.path.join(place, path), "wb") as file:
                file.write(tree[path])


# ---- what strace records ----

CALL = re.compile(r"(\w+)\((.*?)(?:\) += (-?\d+|\?|0x[0-9a-f]+)(.*)|<unfinished.*|)$")
TEXT = re.compile(r'"((?:\\x[0-9a-f]{2})*)"')
PLACE = re.compile(r"<((?:\\x[0-9a-f]{2})+)>")


def plain(text):
    return bytes.fromhex(text.replace("\\x", ""))


class Called(collections.namedtuple("Called", "name texts place result raw")):
    """A call: its texts, the path of its file descriptor, and what it gave; None where it did not end."""


def record_of(path):
    found = []
    with open(path) as file:
        for line in file:
            match = CALL.match(line)
            if not match:
                continue
            name, rest, result, after = match.groups()
            texts = [plain(it) for it in TEXT.findall(rest)]
            place = PLACE.search(rest)
            number = int(result, 0) if result not in (None, "?") else None
            found.append(Called(name, texts, plain(place[1]).decode() if place else None, number, rest + (after or "")))
    return found


class Disk:
    """The room with what is durable of it, and the calls on it, one by one."""

    def __init__(self, top, room):
        self.top, self.room = top, room

    def below(self, path):
        """The path below the room; the room itself is the empty path."""
        path = os.path.relpath(os.path.join(self.room, path), self.room)
        if path.startswith(".."):
            raise ValueError(f"a call outside of the room: {path}")
        return "" if path == "." else path

    def node(self, path):
        return node_at(self.top, self.below(path))

    def make(self, call):
        """Whether the call changed what is there, or what is durable."""
        name, failed = call.name, call.result is None or call.result < 0
        if name == "fsync" and call.place and (call.place + "/").startswith(self.room + "/"):
            return self.synced(self.node(call.place), failed)
        if failed:
            return False
        if name == "openat" and "O_CREAT" in call.raw:
            return self.bound(call.texts[0].decode(), File())
        if name == "mkdir":
            return self.bound(call.texts[0].decode(), Folder())
        if name in ("unlink", "rmdir"):
            return self.bound(call.texts[0].decode(), None)
        if name == "link":
            source, target = (it.decode() for it in call.texts)
            return self.bound(target, self.node(source))
        if name == "rename":
            source, target = (it.decode() for it in call.texts)
            return self.bound(target, self.node(source)) and self.bound(source, None)
        if name == "write" and call.place and call.place.startswith(self.room + "/"):
            self.node(call.place).now += call.texts[0][:call.result]
            return True
        return False

    def synced(self, node, failed):
        if not failed:
            node.sync()
        elif isinstance(node, File):
            node.doubted = True
        return True

    def bound(self, path, node):
        where, _, name = self.below(path).rpartition("/")
        node_at(self.top, where).bind(name, node)
        return True


# ---- the runs ----


class Tries:
    """Runs of one program, and what folders turned out to hold."""

    def __init__(self, program, room, jobs, beside=False):
        self.program, self.room, self.jobs, self.beside = program, room, jobs, beside
        self.lock, self.known, self.numbers = threading.Lock(), {}, itertools.count()
        self.environment = dict(os.environ, LC_ALL="C")
        self.begins = {}

    def place(self):
        with self.lock:
            return os.path.join(self.room, str(next(self.numbers)))

    def run(self, room, words, **more):
        ran = subprocess.run(self.program + words, cwd=room, env=dict(self.environment, **more), stdin=subprocess.DEVNULL, capture_output=True)
        return ran.returncode, ran.stdout.decode(), ran.stderr.decode()

    def trace(self, room, words, inject=None):
        """Runs the words in the room: the status, both outputs, and the record."""
        path = room + ".record"
        how = ["strace", "-o", path, "-y", "-xx", "-s", "1000000"] + (["-e", "inject=" + inject] if inject else [])
        ran = subprocess.run(how + self.program + words, cwd=room, env=self.environment, stdin=subprocess.DEVNULL, capture_output=True)
        found = record_of(path)
        os.remove(path)
        return ran.returncode, ran.stdout.decode(), ran.stderr.decode(), found

    def holds(self, tree):
        """What an opening finds in this room: a table, that there is none, or what is wrong."""
        key = frozenset((path, it) for path, it in tree.items() if path == "t" or path.startswith("t/"))
        with self.lock:
            if key in self.known:
                return self.known[key]
        room = self.place()
        put({path: it for path, it in tree.items() if path == "t" or path.startswith("t/")}, room)
        found = self.read(room, tree)
        if isinstance(found, Table):
            found = self.cleaned(room, tree, found)
        shutil.rmtree(room)
        with self.lock:
            self.known[key] = found
        return found

    def read(self, room, tree):
        """What is read in a room. Nothing there is changed by it."""
        before = tree_of(room)
        status, rows, said = self.run(room, ["query", "t"])
        if status == 1 and said.splitlines()[-1:] == ["refused 23 NoTable"]:
            return NO_TABLE
        if status == 1 and "t" not in tree and said.splitlines()[-1:] == ["refused 25 Device"]:
            return NO_TABLE
        if status != 0:
            return f"query: status {status}, {said.strip()}"
        status, groups, said = self.run(room, ["groups", "t"])
        if status != 0:
            return f"groups: status {status}, {said.strip()}"
        if tree_of(room) != before:
            return f"files after they were read: {shown(tree_of(room))}"
        groups = [json.loads(line) for line in groups.splitlines()]
        return Table(tuple(rows.splitlines()), tuple((it["key"][0], it["number"], it["rows"]) for it in groups))

    def cleaned(self, room, tree, table):
        """The table of a room, which a command that changes the dataset has opened: it has only the files that are needed."""
        status, _, said = self.run(room, ["run", "t", "/dev/null"])
        if status != 0:
            return f"run: status {status}, {said.strip()}"
        wanted = {f"t/k={key}/part.{number}.parquet" for key, number, _ in table.groups} | {"t/_metadata", "t/_lock"}
        wanted |= {path for path in tree if path.endswith("notes.txt")}
        left = {path for path, it in tree_of(room).items() if it is not None}
        if left != wanted:
            return f"files after the opening: {sorted(left)}"
        again = self.read(room, tree)
        return again if again != table else table

    def begin(self, name):
        """The tree that a command begins with."""
        if name not in self.begins:
            self.begins[name] = self.make_begin(name)
        return self.begins[name]

    def make_begin(self, name):
        room = self.place()
        if name in ("nothing", "folder"):
            put({path: it.encode() for path, it in FILES.items()}, room)
            if name == "folder":
                put({"t": None, "t/notes.txt": b"notes\n"}, room)
        elif name == "answer":
            put(self.begin("start"), room)
            put({"answer": None}, room)
        elif name == "start":
            put(self.begin("folder"), room)
            for words in ("create t schema k", "append t first", "append t second", "encode schema imported file",
                          "encode schema imported_b file_b", "encode schema imported_c file_c"):
                status, _, said = self.run(room, words.split())
                if status != 0:
                    sys.exit(f"{words}: status {status}, {said}")
            put({"t/k=a/notes.txt": b"notes\n"}, room)
        else:
            # Killed before its first rename, or before it takes away what it replaced.
            put(self.begin("start"), room)
            self.trace(room, COMMANDS[name].words.split(), "rename:signal=KILL:when=1" if name == "append" else self.first_unlink(name))
        tree = tree_of(room)
        shutil.rmtree(room)
        return tree

    def first_unlink(self, name):
        room = self.place()
        put(self.begin("start"), room)
        found = self.trace(room, COMMANDS[name].words.split())[3]
        shutil.rmtree(room)
        renamed = [it.name for it in found].index("rename")
        before = sum(it.name == "unlink" for it in found[:renamed])
        return f"unlink:signal=KILL:when={before + 1}"


class OfCommand:
    """All tries of one command."""

    def __init__(self, tries, name):
        self.tries, self.name, self.command = tries, name, COMMANDS[name]
        words = self.command.words
        self.words = words.split() if isinstance(words, str) else words
        if tries.beside:
            self.words = [*self.words, "--no-wait"]
        self.tree = tries.begin(self.command.begin)
        self.counts, self.wrong, self.again, self.lock = collections.Counter(), [], set(), threading.Lock()
        self.files = None

    def tell(self, what, why):
        with self.lock:
            self.counts["wrong"] += 1
            self.wrong.append(f"{self.name}: {what}: {why}")
            if len(self.wrong) <= 20:
                print(f"NOT ALLOWED  {self.wrong[-1]}", flush=True)

    def count(self, what, more=1):
        with self.lock:
            self.counts[what] += more

    def given(self):
        """The files that the command makes, by a run without a fault."""
        with self.lock:
            if self.files is None:
                room = self.tries.place()
                put(self.tree, room)
                status, _, said = self.tries.run(room, self.words)
                if status != 0:
                    sys.exit(f"{self.name}: status {status}, {said}")
                self.files = self.files_in(tree_of(room))
                shutil.rmtree(room)
            return self.files

    def files_in(self, tree):
        return {path: it for path, it in tree.items() if path.startswith(f"{self.command.gives}/")}

    def see_given(self, tree, status, what, is_cut=False):
        """Whether the folder has the files that the command makes, after status 0 all, after a refusal none; after a kill or a
        power failure some, and what it wrote under other names."""
        if self.command.gives is None:
            return
        whole, there = self.given(), self.files_in(tree)
        self.count("folders")
        named = {path: it for path, it in there.items() if path in whole}
        others = [path for path in there if path not in whole and not path.startswith(f"{self.command.gives}/pqds.new-")]
        cut = [path for path, it in named.items() if it != whole[path]]
        # Where an unlink fails what it should take away stays.
        ends = status in (0, 1) and not is_cut and " at unlink " not in what
        if others or cut or (ends and len(there) > len(named)) or (status == 0 and named != whole) or (ends and status == 1 and there):
            self.tell(what, f"status {status}, files in the folder: {', '.join(sorted(there)) or 'none'}; cut: {', '.join(cut) or 'none'}")

    def see(self, tree, allowed, what):
        """Whether a room holds one of these tables, counted."""
        found = self.tries.holds(tree)
        if found not in allowed:
            self.tell(what, f"{found} in {shown(tree)}")
            return None
        self.count("after" if found == self.command.tables[-1] else "before")
        return found

    def allowed(self, status, out, said, found):
        """The tables that a run may leave that ended so, or None where it may not end so."""
        command, last = self.command, said.splitlines()[-1:]
        if status == 0:
            if command.answers and out != command.done:
                return self.allowed_by_answers(out)
            return [command.tables[-1]] if out == command.done else None
        if status == -9:
            return [command.tables[-1]] if out == command.done and out else command.tables
        if status != 1:
            return None
        if last == ["refused 26 InDoubt"]:
            return command.tables if is_root_written(found) else None
        if "the change was committed, but" in said:
            return command.tables if command.answers else [command.tables[-1]]
        if last == []:
            # Nothing could be said: the commit may be done.
            return command.tables
        return [command.tables[0]] if last in (["refused 25 Device"], ["refused 28 Memory"]) else None

    def allowed_by_answers(self, out):
        """A script whose calls were refused: each commit answered done, and one in doubt with it or without it."""
        answers = [json.loads(line) for line in out.splitlines()]
        if len(answers) != out.count("\n") or len(answers) != 3:
            return None
        done = [it.get("done") is not None for it in answers[:2]]
        doubt = [it.get("refused") == 26 for it in answers[:2]]
        picks = itertools.product(*[[False, True] if doubted else [well] for well, doubted in zip(done, doubt)])
        return sum((self.command.answers[pick] for pick in picks), [])

    def attempt(self, inject, what, with_images):
        """One run of the command. Its record, and the disk after it."""
        room = self.tries.place()
        put(self.tree, room)
        with self.reader(room):
            status, out, said, found = self.tries.trace(room, self.words, inject)
            self.see_kept(room, what)
        self.count("runs")
        disk = Disk(folder_from(self.tree), room)
        allowed = self.allowed(status, out, said, found)
        if allowed is None:
            self.tell(what, f"status {status}, {out!r}, {said.strip()!r}")
            allowed = self.command.tables
        self.replay(disk, found, what, with_images)
        tree = tree_of(room)
        if newest(disk.top) != tree:
            self.tell(what, "the record does not lead to the folder that is there")
        seen = self.see(tree, allowed, what)
        self.see_given(tree, status, what)
        if with_images:
            self.see_images(disk, allowed, what + ", and the power is cut after it", status)
        if seen is not None and status != 0 and seen == self.command.tables[0] and not self.command.gives:
            self.make_again(disk, room, tree, what)
        shutil.rmtree(room)
        return status, found

    def reader(self, room):
        """With --beside, the lock of a reader that began before the command, and ends after it."""
        path = f"{room}/t/_lock"
        return shared(path) if self.tries.beside and os.path.isfile(path) else contextlib.nullcontext()

    def see_kept(self, room, what):
        """Beside a reader all files stay that it may need, as they were."""
        if not self.tries.beside or "t/_lock" not in self.tree:
            return
        now = tree_of(room)
        lost = [path for path, it in self.tree.items() if path.endswith(".parquet") and now.get(path) != it]
        self.count("kept")
        if lost:
            self.tell(what, f"lost beside a reader: {lost}")

    def replay(self, disk, found, what, with_images):
        for at, call in enumerate(found):
            if disk.make(call) and with_images:
                self.see_images(disk, self.command.meanwhile, f"{what}, and the power is cut after {call.name}, call {at + 1}")

    def see_images(self, disk, allowed, what, status=None):
        found = images(disk.top)
        self.count("images", len(found))
        for tree in found:
            self.see(tree, allowed, what)
            self.see_given(tree, status, what, True)

    def make_again(self, disk, room, tree, what):
        """The same command once more: it is done, and the power is cut after it."""
        key = frozen(tree), frozenset(map(frozen, images(disk.top)))
        with self.lock:
            if key in self.again:
                return
            self.again.add(key)
        status, out, said, found = self.tries.trace(room, self.words)
        self.count("made again")
        what += ", and made again"
        if status != 0 or out != self.command.done:
            return self.tell(what, f"status {status}, {out!r}, {said.strip()!r}")
        for call in found:
            disk.make(call)
        self.see(tree_of(room), self.command.tables[-1:], what)
        self.see_images(disk, self.command.tables[-1:], what + ", and the power is cut after it")

    # -- what is tried --

    def plain_run(self):
        """No fault: how often each call is made, and how often before the command looks at its folder and files."""
        status, found = self.attempt(None, "no fault", True)
        names = {"t", *FILES, "file", "file_b", "file_c"}
        begun = next(at for at, it in enumerate(found) if it.name != "execve"
                     and any(text.decode(errors="replace").split("/")[0] in names for text in it.texts[:1]))
        before = collections.Counter(it.name for it in found[:begun])
        after = collections.Counter(it.name for it in found[begun:])
        self.counts["calls"] = sum(after.values())
        return before, after

    def kills(self, call, first):
        """Killed at the Nth call of this name, for each N from the first, until it ends by itself."""
        for number in itertools.count(first):
            status, _ = self.attempt(f"{call}:signal=KILL:when={number}", f"killed at {call} {number}", False)
            if status != -9:
                break
            self.count("kills")

    def fails(self, call, first, calls, error):
        """An error at the Nth call of this name, once, and at each from there on."""
        for number in range(first, first + calls):
            for more in ("", "+"):
                what = f"{error} at {call} {number}{more}"
                self.attempt(f"{call}:error={error}:when={number}{more}", what, True)
                self.count("errors")

    def faults(self):
        """Each kill and each error, and what a power failure leaves of each."""
        before, after = self.plain_run()
        work = [(self.kills, name, before[name] + 1) for name in after]
        for name in ERRORS:
            for error in ("EIO", "ENOSPC"):
                if after[name]:
                    work.append((self.fails, name, before[name] + 1, after[name], error))
        self.side_by_side(work)
        return (f"{self.counts['calls']} calls, {self.counts['kills']} kills, {self.counts['errors']} errors, {self.counts['made again']} "
                f"made again, {self.counts['images']} images of power failures; {self.seen()}")

    def seen(self):
        return f"{self.counts['before']} tables before, {self.counts['after']} after, not allowed: {self.counts['wrong']}"

    def side_by_side(self, work):
        with concurrent.futures.ThreadPoolExecutor(self.tries.jobs) as pool:
            for done in [pool.submit(*it) for it in work]:
                done.result()

    # -- a record with a sync left out --

    def syncs(self):
        """Which syncs of the plain run are needed: without each, whether a power failure leaves what may not be."""
        room = self.tries.place()
        put(self.tree, room)
        found = self.tries.trace(room, self.words)[3]
        shutil.rmtree(room)
        places = [(at, it.place[len(room) + 1:] or ".") for at, it in enumerate(found)
                  if it.name == "fsync" and it.place and (it.place + "/").startswith(room + "/")]
        missed = [place for at, place in places if not self.is_noticed(room, found, at)]
        self.counts["syncs"], self.counts["needed"] = len(places), len(places) - len(missed)
        return f"{len(places)} syncs, {len(places) - len(missed)} needed; not needed: {', '.join(missed) or 'none'}"

    def is_noticed(self, room, found, left_out):
        disk = Disk(folder_from(self.tree), room)
        for at, call in enumerate(found):
            if at != left_out and disk.make(call) and not self.are_allowed(disk, self.command.meanwhile, False):
                return True
        return not self.are_allowed(disk, self.command.tables[-1:], True)

    def are_allowed(self, disk, allowed, is_done):
        return all(self.tries.holds(tree) in allowed and self.may_be_given(tree, is_done) for tree in images(disk.top))

    def may_be_given(self, tree, is_done):
        """Whether the folder of the answer has no cut file, and once all is done each of its files."""
        if self.command.gives is None:
            return True
        whole, there = self.given(), self.files_in(tree)
        named = {path: it for path, it in there.items() if path in whole}
        return all(it == whole[path] for path, it in named.items()) and (not is_done or named == whole)

    # -- an allocation refused --

    def refusals(self, shim):
        """The command with the Nth allocation refused, for each N."""
        room = self.tries.place()
        put(self.tree, room)
        path = room + ".counted"
        self.tries.run(room, self.words, LD_PRELOAD=shim, COUNTED=path)
        shutil.rmtree(room)
        with open(path) as file:
            self.counts["allocations"] = int(file.read())
        os.remove(path)
        self.side_by_side([(self.refuse, shim, number) for number in range(1, self.counts["allocations"] + 1)])
        told = ", ".join(f"{self.counts[it]} {it}" for it in ("done", "refused 28 Memory", "refused 25 Device", "refused 26 InDoubt"))
        return f"{self.counts['allocations']} allocations refused: {told}; {self.counts['made again']} made again; {self.seen()}"

    def refuse(self, shim, number):
        room = self.tries.place()
        put(self.tree, room)
        status, out, said = self.tries.run(room, self.words, LD_PRELOAD=shim, REFUSED=str(number))
        what = f"allocation {number} refused"
        self.count("done" if status == 0 else (said.splitlines() or ["no word"])[-1])
        allowed = self.allowed(status, out, said, None)
        if allowed is None:
            self.tell(what, f"status {status}, {out!r}, {said.strip()!r}")
        seen = self.see(tree_of(room), allowed or self.command.tables, what)
        self.see_given(tree_of(room), status, what)
        if status != 0 and seen == self.command.tables[0]:
            self.refuse_again(room, what + ", and made again")
        shutil.rmtree(room)

    def refuse_again(self, room, what):
        status, out, said = self.tries.run(room, self.words)
        self.count("made again")
        if status != 0 or out != self.command.done:
            self.tell(what, f"status {status}, {out!r}, {said.strip()!r}")
        self.see(tree_of(room), self.command.tables[-1:], what)


@contextlib.contextmanager
def shared(path):
    with open(path, "rb") as file:
        fcntl.flock(file, fcntl.LOCK_SH)
        yield


def is_root_written(found):
    """Whether the next root and its name were made durable, so that the rename is the next call of the disk. (Without a
    record nothing is known of that.)"""
    if found is None:
        return True
    synced = [it.place for it in found if it.name == "fsync" and it.result == 0]
    at = next((at for at, place in enumerate(synced) if place.endswith("/_metadata.new")), len(synced))
    return any(place.endswith("/t") for place in synced[at:])


def newest(node, path=""):
    if isinstance(node, File):
        return {path: node.now}
    tree = {path: None} if path else {}
    for name, it in node.now.items():
        tree.update(newest(it, f"{path}/{name}" if path else name))
    return tree


def frozen(tree):
    return frozenset(tree.items())


def shown(tree):
    return " ".join(path if it is None else f"{path}({len(it)})" for path, it in sorted(tree.items()) if path.startswith("t"))


def arguments():
    words = argparse.ArgumentParser(description=__doc__, add_help=False)
    words.add_argument("--jobs", type=int, default=2)
    words.add_argument("--beside", action="store_true")
    words.add_argument("--syncs", action="store_true")
    words.add_argument("--refuse")
    words.add_argument("program", nargs=argparse.REMAINDER)
    found = words.parse_args()
    at = found.program.index("--") if "--" in found.program else len(found.program)
    program, names = found.program[:at], found.program[at + 1:] or list(COMMANDS)
    if not program or shutil.which(program[0]) is None:
        words.error(f"there is no program {' '.join(program)}")
    foreign = [it for it in names if it not in COMMANDS]
    if foreign:
        words.error(f"no command {foreign[0]!r}; there are: {'; '.join(COMMANDS)}")
    for tool in [] if found.refuse else ["strace"]:
        if shutil.which(tool) is None:
            words.error(f"{tool} is not on the path")
    return found, program, names


def main():
    found, program, names = arguments()
    room = tempfile.mkdtemp()
    tries, wrong = Tries(program, os.path.realpath(room), found.jobs, found.beside), 0
    total = collections.Counter()
    try:
        for name in names:
            it = OfCommand(tries, name)
            said = it.refusals(os.path.abspath(found.refuse)) if found.refuse else it.syncs() if found.syncs else it.faults()
            print(f"{name}: {said}", flush=True)
            total += it.counts
    finally:
        shutil.rmtree(room)
    print(f"{len(names)} commands: " + ", ".join(f"{number} {what}" for what, number in total.items()) + f"; not allowed: {total['wrong']}")
    return 1 if total["wrong"] else 0


if __name__ == "__main__":
    sys.exit(main())
