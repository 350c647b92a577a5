#!/usr/bin/env python3
"""Prints crates/disk_cases/stdout, each outcome computed by a model of the disk that knows nothing of the product.

    python3 bench/tools/disk_cases.py < crates/disk_cases/stdin > crates/disk_cases/stdout

The model is docs/DISK.md in another language: what each call does, what a call that fails has done, and what a list of words
leaves of what is not durable. It never runs out of memory. A folder of a host is such a disk that also fails at each path with an
empty part, `.` or `..`.
"""
import itertools
import sys

import command_line

ROOT, NEXT = "_metadata", "_metadata.new"


class Fault(Exception):
    """A call of the disk that is not done, by the fault's name."""


class Refused(Exception):
    """A call of the vault that is refused, by the refusal's number and name."""


SCRIPT = "29 Script"


class Name:
    def __init__(self):
        self.now, self.had = None, []


class Node:
    def __init__(self, data=b""):
        self.data, self.synced, self.doubted = data, len(data), False


FOLDER = "folder"


def folder_of(path):
    return path.rpartition("/")[0]


class Disk:
    """Names in the order in which they first came up, and nodes in the order in which they were made."""

    def __init__(self):
        self.names, self.nodes = {}, []
        self.failures = self.reads = 0
        self.plan, self.left, self.pick = None, 0, 0

    # plans
    def fuse(self, passes, pick):
        self.plan, self.left, self.pick = "after", passes, pick % 3

    def fail_once(self, passes, pick):
        self.plan, self.left, self.pick = "once", passes, pick % 3

    def trip(self):
        """None where the call passes, else what it has done: 0 nothing, 1 all, 2 a part."""
        if self.plan is None:
            return None
        if self.left > 0:
            self.left -= 1
            return None
        if self.plan == "once":
            self.plan = None
        return self.pick

    def call(self, check, whole, part=None):
        """A call: the fault that it meets, what it does, and what a part of it does."""
        tripped = self.trip()
        fault = check()
        if tripped is None:
            if fault:
                raise Fault(fault)
            return whole()
        self.failures += 1
        if not fault and tripped == 1:
            whole()
        if not fault and tripped == 2:
            (part or whole)()
        raise Fault("Failed")

    # names
    def bound(self, path):
        if path == "":
            return FOLDER
        return self.names[path].now if path in self.names else None

    def bind(self, path, to):
        name = self.names.setdefault(path, Name())
        name.had.append(name.now)
        name.now = to

    def is_file(self, path):
        return self.bound(path) not in (None, FOLDER)

    def check_new(self, path):
        if self.bound(path) is not None:
            return "Exists"
        return None if self.bound(folder_of(path)) == FOLDER else "Absent"

    # calls
    def create(self, path):
        def whole():
            self.nodes.append(Node())
            self.bind(path, len(self.nodes))
        self.call(lambda: self.check_new(path), whole)

    def folder(self, path):
        def check():
            return None if self.bound(path) == FOLDER else self.check_new(path)

        def whole():
            if self.bound(path) != FOLDER:
                self.bind(path, FOLDER)
        self.call(check, whole)

    def need_file(self, path):
        return None if self.is_file(path) else "Absent"

    def node(self, path):
        return self.nodes[self.bound(path) - 1]

    def append(self, path, data):
        def put(some):
            self.node(path).data += some
        self.call(lambda: self.need_file(path), lambda: put(data), lambda: put(data[:len(data) // 2]))

    def sync(self, path):
        def whole():
            node = self.node(path)
            if not node.doubted:
                node.synced = len(node.data)
        failing = self.failures
        try:
            self.call(lambda: self.need_file(path), whole)
        finally:
            if self.failures > failing and self.is_file(path):
                self.node(path).doubted = True

    def sync_folder(self, folder):
        def whole():
            for path, name in self.names.items():
                if folder_of(path) == folder:
                    name.had = []
        self.call(lambda: None if self.bound(folder) == FOLDER else "Absent", whole)

    def rename(self, source, target):
        def check():
            if self.bound(source) is None:
                return "Absent"
            fits = self.is_file(source) and self.bound(target) != FOLDER
            return None if fits and folder_of(source) == folder_of(target) and source != target else "Exists"

        def part():
            self.bind(target, self.bound(source))

        def whole():
            part()
            self.bind(source, None)
        self.call(check, whole, part)

    def remove(self, path):
        def check():
            if self.bound(path) is None:
                return "Absent"
            return None if self.is_file(path) else "Exists"
        self.call(check, lambda: self.bind(path, None))

    def read(self, path, start, count):
        self.reads += 1
        return self.call(lambda: self.need_file(path), lambda: self.node(path).data[start:start + count])

    def length(self, path):
        return self.call(lambda: self.need_file(path), lambda: len(self.node(path).data))

    def list(self, folder):
        def names():
            inside = [(path, name.now) for path, name in self.names.items() if name.now is not None and folder_of(path) == folder]
            named = [(path.rpartition("/")[2], now == FOLDER) for path, now in inside]
            return [(name, is_folder) for name, is_folder in named if name]
        return self.call(lambda: None if self.bound(folder) == FOLDER else "Absent", names)

    # what a stop leaves
    def crash(self, words):
        words = iter(words)
        disk = Disk()
        for path, name in self.names.items():
            choices = name.had + [name.now]
            disk.names[path] = Name()
            disk.names[path].now = choices[next(words, 0) % len(choices)] if name.had else name.now
        for node in self.nodes:
            disk.nodes.append(Node(torn(node, words)))

        def is_there(path):
            return path == "" or disk.bound(path) == FOLDER and is_there(folder_of(path))
        gone = [path for path in disk.names if not is_there(folder_of(path))]
        for path in gone:
            disk.names[path].now = None
        return disk


def is_inside(path):
    return path == "" or not set(path.split("/")) & {"", ".", ".."}


class Folder(Disk):
    """A folder of a host, with what a crash that loses all that is not durable leaves of a disk."""

    def __init__(self, disk):
        super().__init__()
        left = disk.crash([])
        self.names, self.nodes = left.names, left.nodes


def failing_outside(call):
    def made_inside(self, *words):
        if all(is_inside(word) for word in words if isinstance(word, str)):
            return call(self, *words)
        self.reads += call is Disk.read
        self.failures += 1
        raise Fault("Failed")
    return made_inside


for call in (Disk.create, Disk.folder, Disk.append, Disk.sync, Disk.sync_folder, Disk.rename, Disk.remove, Disk.read, Disk.length,
             Disk.list):
    setattr(Folder, call.__name__, failing_outside(call))


def torn(node, words):
    if node.synced == len(node.data):
        return node.data
    length = node.synced + next(words, 0) % (len(node.data) - node.synced + 1)
    start = node.synced // 512 * 512
    data = node.data[:start]
    for begin in range(start, length, 512):
        word = next(words, 0)
        end = min(begin + 512, length)
        written = node.data[begin:end]
        synced = node.data[begin:max(begin, min(end, node.synced))]
        if word % 4 == 0:
            data += synced.ljust(end - begin, b"\0")
        elif word % 4 == 1:
            data += written
        elif word % 4 == 2:
            data += bytes(end - begin)
        else:
            data += bytes((word // 4 ^ at) % 256 for at in range(begin, end))
    return data


# The vault.


def refusing(fault, absent="25 Device"):
    return Refused(absent if str(fault) == "Absent" else "25 Device")


def clear(disk, path):
    try:
        disk.remove(path)
    except Fault as fault:
        if str(fault) != "Absent":
            raise


def place(disk, path, data):
    clear(disk, path)
    parts = path.split("/")
    for depth in range(1, len(parts)):
        disk.folder("/".join(parts[:depth]))
    disk.create(path)
    disk.append(path, data)
    disk.sync(path)
    for depth in range(len(parts) - 1, -1, -1):
        disk.sync_folder("/".join(parts[:depth]))


def put(disk, path, data):
    try:
        place(disk, path, data)
    except Fault as fault:
        raise refusing(fault)


def swap(disk, data):
    put(disk, NEXT, data)
    try:
        disk.rename(NEXT, ROOT)
        disk.sync_folder("")
    except Fault:
        raise Refused("26 InDoubt")


def forget(disk, path):
    try:
        clear(disk, path)
    except Fault as fault:
        raise refusing(fault)


def commit(disk, root, files, gone):
    for path, data in files:
        put(disk, path, data)
    swap(disk, root)
    for path in gone:
        try:
            forget(disk, path)
        except Refused:
            pass


# Words and what is printed.


def path_of(word):
    return "" if word == '""' else word


def data_of(word):
    if word.startswith("'"):
        return word[1:].encode()
    if word == "-":
        return b""
    data = b""
    for piece in word.split("."):
        digits, _, times = piece.partition("*")
        if len(digits) % 2:
            raise Refused(SCRIPT)
        data += bytes.fromhex(digits) * int(times or 1)
    return data


def number_of(word):
    if not word.isdigit():
        raise Refused(SCRIPT)
    return int(word)


def choices_of(word):
    found = []
    for part in word.split(","):
        ends, _, step = part.partition("/")
        low, dots, high = ends.partition("..")
        found += range(number_of(low), number_of(high), number_of(step or "1")) if dots else [number_of(ends)]
    return found


def hexed(data):
    """In hexadecimal; sixteen or more equal bytes by a rule."""
    pieces, last = [], None
    for byte, run in itertools.groupby(data):
        count = len(list(run))
        if count >= 16:
            pieces.append(f"{byte:02x}*{count}")
        elif pieces and last == "plain":
            pieces[-1] += f"{byte:02x}" * count
        else:
            pieces.append(f"{byte:02x}" * count)
        last = "rule" if count >= 16 else "plain"
    return ".".join(pieces) or "-"


def shown_sector(data):
    digits = hexed(data)
    return digits if len(digits) <= 256 else digits[:8] + ".."


def shown(data):
    text = data.decode("latin-1")
    if 0 < len(data) < 512 and all(c.isascii() and (c.isalnum() or c == "-") for c in text):
        return "'" + text
    return ".".join(shown_sector(data[at:at + 512]) for at in range(0, len(data), 512)) or "-"


def shown_names(names):
    return ",".join(sorted(name + ("/" if is_folder else "") for name, is_folder in names)) or "nothing"


def image(disk):
    found, folders = [], [""]
    for _ in range(4):
        deeper = []
        for folder in folders:
            for name, is_folder in disk.list(folder):
                path = folder + "/" + name if folder else name
                found.append(path + "/" if is_folder else path + "=" + shown(disk.read(path, 0, 2**64)))
                deeper += [path] if is_folder else []
        folders = deeper
    return ",".join(sorted(found)) or "nothing"


def listed(items):
    text = ""
    for item, run in itertools.groupby(items):
        count = len(list(run))
        text += f" {count}*{item}" if count >= 4 else f" {item}" * count
    return text.lstrip()


def lists_of(words):
    return list(itertools.product(*[choices_of(word) for word in words]))


# Lines.


class Cases:
    """The disk in memory, and the host while it holds what that disk holds."""

    def __init__(self, disk=None):
        self.disk, self.host = disk or Disk(), None


def need(words, count):
    if len(words) < count + 1:
        raise Refused(SCRIPT)


def beside_root(path):
    if path in (ROOT, NEXT):
        raise Refused(SCRIPT)
    return path


def commit_words(words):
    files = [(path_of(words[at + 1]), data_of(words[at + 2])) for at, word in enumerate(words) if word == "+"]
    gone = [path_of(words[at + 1]) for at, word in enumerate(words) if word == "!"]
    for path in [path for path, _ in files] + gone:
        beside_root(path)
    return files, gone


def read_vault(call, absent):
    try:
        return call()
    except Fault as fault:
        raise refusing(fault, absent)


def root_of(disk):
    try:
        return shown(disk.read(ROOT, 0, 2**64))
    except Fault as fault:
        if str(fault) == "Absent":
            return "none"
        raise refusing(fault)


ARGUMENTS = {
    "create": 1, "folder": 1, "append": 2, "sync": 1, "sync-folder": 1, "rename": 2, "remove": 1, "read": 3, "length": 1,
    "list": 1, "count": 1, "fuse": 2, "fail-once": 2, "folder-of": 1, "path-in": 2, "put": 2, "forget": 1, "swap": 1, "get": 3,
    "names": 1, "commit": 1,
}


def of_disk(disk, words):
    call, one = words[0], path_of(words[1])
    if call in ("create", "folder", "sync", "sync-folder", "remove"):
        getattr(disk, call.replace("-", "_"))(one)
        return "ok"
    if call == "append":
        disk.append(one, data_of(words[2]))
        return "ok"
    if call == "rename":
        disk.rename(one, path_of(words[2]))
        return "ok"
    if call == "read":
        return shown(disk.read(one, number_of(words[2]), number_of(words[3])))
    if call == "length":
        return str(disk.length(one))
    names = disk.list(one)
    return shown_names(names) if call == "list" else str(len(names))


def of_vault(disk, words):
    call = words[0]
    if call == "put":
        data = data_of(words[2])
        put(disk, beside_root(path_of(words[1])), data)
    elif call == "forget":
        forget(disk, beside_root(path_of(words[1])))
    elif call == "swap":
        swap(disk, data_of(words[1]))
    elif call == "commit":
        commit(disk, data_of(words[1]), *commit_words(words))
    elif call == "settle":
        read_vault(lambda: disk.sync_folder(""), "25 Device")
    elif call == "forget-next":
        forget(disk, NEXT)
    elif call == "root":
        return root_of(disk)
    elif call == "get":
        start, count = number_of(words[2]), number_of(words[3])
        return shown(read_vault(lambda: disk.read(path_of(words[1]), start, count), "1 Truncated"))
    elif call == "names":
        return shown_names(read_vault(lambda: disk.list(path_of(words[1])), "1 Truncated"))
    else:
        raise Refused(SCRIPT)
    return "ok"


def given(cases, words):
    """What a line gives, by its words."""
    disk, call = cases.disk, words[0]
    need(words, ARGUMENTS.get(call, 0))
    if call == "new":
        cases.disk = Disk()
    elif call == "crash":
        cases.disk = disk.crash([number for word in words[1:] for number in choices_of(word)])
    elif call in ("fuse", "fail-once"):
        getattr(disk, call.replace("-", "_"))(number_of(words[1]), number_of(words[2]))
    elif call in ("failures", "reads"):
        return str(getattr(disk, call))
    elif call == "shortages":
        return "0"
    elif call == "files":
        return read_vault(lambda: image(disk), "25 Device")
    elif call == "images":
        return listed([image(disk.crash(words)) for words in lists_of(words[1:])])
    elif call == "folder-of":
        return folder_of(words[1]) or '""'
    elif call == "path-in":
        return (path_of(words[1]) + "/" + words[2]).lstrip("/")
    elif call in ("create", "folder", "append", "sync", "sync-folder", "rename", "remove", "read", "length", "list", "count"):
        return of_disk(disk, words)
    else:
        return of_vault(disk, words)
    return "ok"


def made(cases, line):
    """What a line gives, and whether it is done."""
    try:
        return given(cases, line.split()), True
    except Fault as fault:
        return str(fault), False
    except Refused as refused:
        return f"refused {refused}", False


ON_MEMORY_ALONE = ("new", "crash", "fuse", "fail-once", "shortages", "folder-of", "path-in")


def printed(cases, shown_line, line):
    """The line with what both disks give after `==`, or with what the disk in memory gives after `=`."""
    text, is_done = made(cases, line)
    call = line.split()[0]
    if is_done and call in ("new", "crash"):
        cases.host = Folder(cases.disk)
    if is_done and call in ("fuse", "fail-once"):
        cases.host = None
    if cases.host is None or call in ON_MEMORY_ALONE:
        return f"{shown_line} = {text}"
    on_host, _ = made(Cases(cases.host), line)
    return f"{shown_line} == {text}" if on_host == text else f"{shown_line} = {text}, on the host {on_host}"


def view(disk, looks):
    if not looks:
        return image(disk)
    cases = Cases(disk)
    return ", ".join(made(cases, look)[0] for look in looks)


def row(disk, pick, passes, calls, looks, lists):
    cases = Cases(disk.crash([]))
    cases.disk.fuse(passes, pick)
    text = "ok"
    for call in calls:
        text, is_done = made(cases, call)
        if not is_done:
            break
    views = sorted({view(cases.disk.crash(words), looks) for words in lists})
    return f"{pick} {passes} = {text}: {' | '.join(views)}", cases.disk.failures > 0


def stops(disk, head, lines):
    words = head.split()
    at = lines.index("left") if "left" in lines else len(lines)
    calls, looks, lists = lines[:at], lines[at + 1:], lists_of(words[2:])
    rows = []
    for pick in choices_of(words[1]):
        for passes in range(100):
            line, has_failed = row(disk, pick, passes, calls, looks, lists)
            rows.append(line)
            if not has_failed:
                break
    return rows


def is_remark(line):
    return line == "" or line.startswith("#")


def read_lines(cases, given_lines, number=None):
    """What is printed of lines; a number stands in the place of each `$`."""
    lines, block = [], None
    for shown_line in given_lines:
        line = shown_line if number is None else shown_line.replace("$", str(number))
        if block is not None and line == "end":
            try:
                lines += [shown_line] + stops(cases.disk, block[0], block[1:])
            except Refused as refused:
                lines.append(f"{shown_line} = refused {refused}")
            block = None
        elif block is not None:
            block += [] if is_remark(line) else [line]
            lines.append(shown_line)
        elif line.startswith("stops "):
            block = [line]
            lines.append(shown_line)
        elif is_remark(line):
            lines.append(shown_line)
        else:
            lines.append(printed(cases, shown_line, line))
    return lines


def times(cases, head, lines):
    try:
        numbers = [number_of(word) for word in head.split()[1:]]
    except Refused:
        numbers = [0]
    turns, first, step = (numbers + [0, 0, 1][len(numbers):])[:3]
    if turns == 0:
        return [head, f"end = refused {SCRIPT}"]
    printed = [read_lines(cases, lines, first + step * turn) for turn in range(turns)]
    assert all(one == printed[0] for one in printed), head
    return [head] + printed[0] + [f"end = {turns} times"]


def main():
    command_line.only(__doc__)
    cases, lines = Cases(), sys.stdin.read().splitlines()
    at = 0
    while at < len(lines):
        if lines[at].startswith("times "):
            end, in_stops = at + 1, False
            while lines[end] != "end" or in_stops:
                in_stops = lines[end].startswith("stops ") or in_stops and lines[end] != "end"
                end += 1
            print("\n".join(times(cases, lines[at], lines[at + 1:end])))
            at = end + 1
            continue
        end = at + 1
        while end < len(lines) and not lines[end].startswith("times "):
            end += 1
        print("\n".join(read_lines(cases, lines[at:end])))
        at = end


if __name__ == "__main__":
    main()
