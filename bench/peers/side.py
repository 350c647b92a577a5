"""Side by side, for bench/peers/peers.py: the same work by pqds, DuckDB, pyarrow and fastparquet, each with one thread.

Each time is the least of some runs in turn, of whose results the counts (or the bytes) are compared. pqds and DuckDB are
programs, so the start of the process is in their times; pyarrow and fastparquet are measured within a process that has
imported them. A cell has seconds, processor seconds and the most memory in MB (of pyarrow and fastparquet what the call adds to the
imports), and in brackets what pqds takes of the first two in times of these. Of what writes a dataset, `synced` is
the time of all files and folders written and synced: pqds never does it otherwise, the others leave it to the caller.
The variable TIMES has how many runs there are of each (5)."""
import glob, json, os, resource, shutil, subprocess, sys, tempfile, time

try:
    import numpy as np
    import pyarrow as pa
    import pyarrow.compute as pc
    import pyarrow.dataset as ds
    import pyarrow.json
    import pyarrow.parquet as pq
except ModuleNotFoundError as missing:
    sys.exit(f"{missing}: bench/peers/peers.sh makes a room that has it")

import fast
from outside import isolated

TIMES = int(os.environ.get("TIMES", "5"))
MILLION = 1_000_000
WHO = ("pqds", "DuckDB", "pyarrow", "fastparquet")
KEYED = pa.schema([pa.field("k", pa.string(), False), pa.field("n", pa.int64(), False), pa.field("t", pa.string(), False)])
BARE = pa.schema(list(KEYED)[1:])
HIVE = ds.partitioning(pa.schema([KEYED.field("k")]), flavor="hive")
UNPACKED = "FORMAT parquet, COMPRESSION uncompressed"
pd = fast.pd


# ---- measuring ----

class Side:
    """The program, a folder to work in, and the function that tells of a difference."""

    def __init__(self, path, room, tell):
        self.path, self.room, self.tell = path, room, tell
        os.makedirs(room)
        pa.set_cpu_count(1)
        pa.set_io_thread_count(1)

    def file(self, name):
        return f"{self.room}/{name}"

    def pqds(self, *words, out=None):
        """Runs the program as ./pqds does; seconds and processor seconds."""
        tunables = {**os.environ, "GLIBC_TUNABLES": "glibc.malloc.hugetlb=1"}
        return ran([self.path, *words], out, tunables)

    def duckdb(self, text, out=None):
        return ran(["duckdb", "-bail", "-csv", "-noheader", "-c", f"SET threads=1; {text}"], out, None)

    def schema(self, name, schema):
        """A schema as a file of JSON for pqds."""
        kinds = {pa.int64(): {"type": "int64"}, pa.string(): {"type": "bytes", "note": "utf8"}}
        json.dump([{"name": it.name, "rep": "required", **kinds[it.type]} for it in schema], open(self.file(name), "w"))
        return self.file(name)


def ran(words, out, environment):
    """Seconds, processor seconds and the memory of a process. The system counts as a child's the memory of what began it; so the
    program `time`, which is small, begins it."""
    with open(out or os.devnull, "wb") as sink, tempfile.NamedTemporaryFile() as noted:
        begun = time.perf_counter()
        timed = ["time", "-q", "-o", noted.name, "-f", "%M", *words]
        child = subprocess.Popen(timed, stdout=sink, stderr=subprocess.PIPE, env=environment)
        said = child.stderr.read().decode().strip()
        _, status, used = os.wait4(child.pid, 0)
        seconds = time.perf_counter() - begun
        memory = noted.read().decode()
    child.returncode = os.waitstatus_to_exitcode(status)
    if status:
        raise RuntimeError(f"{' '.join(words)[:200]}: {said}")
    return seconds, used.ru_utime + used.ru_stime, int(memory) >> 10


def most_memory():
    return resource.getrusage(resource.RUSAGE_SELF).ru_maxrss >> 10


def within(work, *given):
    """Seconds, processor seconds and added memory of a call, in a process of its own that has imported all."""
    def measured():
        begun, used, before = time.perf_counter(), time.process_time(), most_memory()
        work(*given)
        return time.perf_counter() - begun, time.process_time() - used, most_memory() - before
    found, error = isolated(measured)
    if error:
        raise RuntimeError(error)
    return tuple(found)


def sync_new(folder, since):
    """Syncs the files and folders in a folder, itself among them, that have changed since then; returns the seconds and the
    processor seconds."""
    names = [folder, *glob.glob(f"{folder}/**", recursive=True)]
    changed = [name for name in names if os.stat(name).st_mtime_ns >= since]
    begun, used = time.perf_counter(), time.process_time()
    for name in changed:
        it = os.open(name, os.O_RDONLY)
        os.fsync(it)
        os.close(it)
    return time.perf_counter() - begun, time.process_time() - used, 0


def remove_all(files):
    """Removes files; returns the seconds and the processor seconds."""
    begun, used = time.perf_counter(), time.process_time()
    for file in files:
        os.remove(file)
    return time.perf_counter() - begun, time.process_time() - used, 0


def summed(times, more):
    return times[0] + more[0], times[1] + more[1], max(times[2], more[2])


def least(works, before=lambda who: None, after=lambda who: None):
    """Runs each of the works in turn, some times; the least seconds and processor seconds of each."""
    found = {}
    for _ in range(TIMES):
        for who, work in works.items():
            before(who)
            os.sync()
            times = work()
            after(who)
            found[who] = [min(pair) for pair in zip(times, found.get(who, times))]
    return found


def row(what, found):
    """Prints a line of a table: of each the seconds and the processor seconds, and pqds in times of them."""
    cells = []
    for who in WHO:
        if who not in found:
            cells.append("")
            continue
        times, memory = found[who][:2], found[who][2]
        ratio = "" if who == "pqds" else " (" + ", ".join(f"{ours / theirs:.2g}" for ours, theirs in zip(found["pqds"], times)) + ")"
        cells.append(" / ".join(f"{it:.3g}" for it in times) + f" / {memory} MB" + ratio)
    print(f"| {what} | " + " | ".join(cells) + " |", flush=True)


def head(title):
    print(f"\n| {title} | " + " | ".join(WHO) + " |\n|" + "---|" * (1 + len(WHO)))


# ---- decode and encode ----

def spread(i):
    """Numbers spread over all of 64 bits."""
    return (i * 0x9E3779B97F4A7C15) % 2**64 - 2**63


def text_of(i):
    return f"row {i:08}" + "x" * (i % 8)


FLAT = {
    "two numbers": {"a": lambda i: spread(i), "n": lambda i: i},
    "two texts": {"s": lambda i: f"text {i % 1000}", "t": text_of},
    "a number and a text": {"n": lambda i: spread(i), "t": text_of},
    "20 numbers": {f"c{at:02}": lambda i, at=at: i * 7 + at for at in range(20)},
}


PRINTED = (",", ":")
BLANKS = (", ", ": ")

# Lines as this program prints them, as Python's json.dumps does, and so with the last column first.
FORMS = {"printed": (PRINTED, list), "with blanks": (BLANKS, list), "with blanks, in another order": (BLANKS, reversed)}


def write_lines(path, columns, places, separators=PRINTED, order=list):
    with open(path, "w") as it:
        for i in places:
            it.write(json.dumps({name: columns[name](i) for name in order(list(columns))}, separators=separators) + "\n")
    return path


def same_bytes(it, what, files):
    if subprocess.run(["cmp", *files]).returncode:
        it.tell(f"side, {what}: the bytes differ")


def is_removed(file):
    if os.path.exists(file):
        os.remove(file)


def encoded(it, what, columns, lines, file):
    """Lines of JSON to a file, by us and by DuckDB."""
    other = it.file("theirs.parquet")
    names = {name: "BIGINT" if isinstance(make(0), int) else "VARCHAR" for name, make in columns.items()}
    schema = it.schema("schema.json", pa.schema([pa.field(name, pa.int64() if kind == "BIGINT" else pa.string()) for name, kind in names.items()]))
    typed = "{" + ", ".join(f"'{name}': '{kind}'" for name, kind in names.items()) + "}"
    made = {"pqds": lambda: it.pqds("encode", schema, lines, file),
            "DuckDB": lambda: it.duckdb(f"COPY (FROM read_json('{lines}', format='newline_delimited', columns={typed})) TO '{other}' ({UNPACKED})")}
    row(f"encode {what}", least(made, lambda who: is_removed(file if who == "pqds" else other)))


def other_forms(it):
    """Lines of JSON in three forms to files; each form gives the same file."""
    head(f"{MILLION:,} rows, lines in three forms")
    for what in ("a number and a text", "20 numbers"):
        files = []
        for form, (separators, order) in FORMS.items():
            lines, file = write_lines(it.file("rows.jsonl"), FLAT[what], range(MILLION), separators, order), it.file(f"ours.{len(files)}.parquet")
            encoded(it, f"{what}, {form}", FLAT[what], lines, file)
            files.append(file)
        for file in files[1:]:
            same_bytes(it, what, [files[0], file])


def both_ways(it):
    """Files of a million rows to lines of JSON, and lines of JSON to files."""
    head(f"{MILLION:,} rows")
    for what, columns in FLAT.items():
        lines, file = write_lines(it.file("rows.jsonl"), columns, range(MILLION)), it.file("ours.parquet")
        encoded(it, what, columns, lines, file)
        ours, theirs = it.file("ours.jsonl"), it.file("theirs.jsonl")
        read = {"pqds": lambda: it.pqds("decode", file, out=ours), "DuckDB": lambda: it.duckdb(f"COPY (FROM read_parquet('{file}')) TO '{theirs}' (FORMAT json)")}
        row(f"decode {what}", least(read))
        same_bytes(it, what, [lines, ours])
        same_bytes(it, what, [lines, theirs])


# ---- datasets of each ----

COLUMNS = {"n": lambda i: i, "t": text_of}


class Tables:
    """A dataset of each of the four, with so many values of a key, or without a key."""

    def __init__(self, it, keys):
        self.it, self.keyed, self.made = it, keys > 0, 0
        self.columns = {"k": lambda i: f"key {i % keys:02}", **COLUMNS} if keys else COLUMNS
        self.words = f"{keys} keys" if keys else "no key"
        self.schema = KEYED if keys else BARE
        self.json = it.schema("table.json", self.schema)
        self.typed = "{" + ", ".join(f"'{one.name}': '{'BIGINT' if one.type == pa.int64() else 'VARCHAR'}'" for one in self.schema) + "}"

    def folder(self, who):
        return self.it.file(f"table_of_{who}")

    def clear(self, who):
        """An empty dataset; only pqds must make it first."""
        shutil.rmtree(self.folder(who), ignore_errors=True)
        if who == "pqds":
            self.it.pqds("create", self.folder(who), self.json, *(["k"] if self.keyed else []))

    def works(self, lines):
        return {"pqds": lambda: self.it.pqds("append", self.folder("pqds"), lines), "DuckDB": lambda: self.by_duckdb(lines),
                "pyarrow": lambda: within(self.by_pyarrow, lines), "fastparquet": lambda: within(self.by_fastparquet, lines)}

    def by_duckdb(self, lines):
        folder, self.made = self.folder("DuckDB"), self.made + 1
        os.makedirs(folder, exist_ok=True)
        target, parts = (folder, ", PARTITION_BY (k), APPEND") if self.keyed else (f"{folder}/part.{self.made}.parquet", "")
        return self.it.duckdb(f"COPY (FROM read_json('{lines}', format='newline_delimited', columns={self.typed})) TO '{target}' ({UNPACKED}{parts})")

    def by_pyarrow(self, lines):
        self.write(pyarrow.json.read_json(lines, pyarrow.json.ReadOptions(use_threads=False), pyarrow.json.ParseOptions(explicit_schema=self.schema)))

    def write(self, table):
        options = ds.ParquetFileFormat().make_write_options(compression="NONE")
        ds.write_dataset(table, self.folder("pyarrow"), format="parquet", partitioning=HIVE if self.keyed else None, file_options=options, use_threads=False,
                         basename_template=f"part-{time.time_ns()}-{{i}}.parquet", existing_data_behavior="overwrite_or_ignore")

    def by_fastparquet(self, lines):
        frame, folder = pd.read_json(lines, lines=True), self.folder("fastparquet")
        fast.fastparquet.write(folder, frame, compression=None, file_scheme="hive", partition_on=["k"] if self.keyed else [], write_index=False,
                               append=os.path.exists(folder), has_nulls=False, object_encoding="utf8")

    def rows(self, who):
        found = glob.glob(f"{self.folder(who)}/**/*.parquet", recursive=True)
        return sum(pq.read_metadata(file).num_rows for file in found), len(found)


def appended(it, tables, rows, onto, form="printed"):
    """Appends rows to datasets with so many rows; prints what it took, and what it took with all files synced."""
    lines = write_lines(it.file("more.jsonl"), tables.columns, range(onto, onto + rows), *FORMS[form])
    base = write_lines(it.file("base.jsonl"), tables.columns, range(onto)) if onto else None
    works, synced, parts = tables.works(lines), {}, {}

    def before(who):
        tables.clear(who)
        if base:
            tables.works(base)[who]()

    def timed(who):
        def work():
            begun = time.time_ns() - 10**7      # the clock of files has steps of some milliseconds
            times = works[who]()
            whole = times if who == "pqds" else summed(times, sync_new(tables.folder(who), begun))
            synced[who] = [min(pair) for pair in zip(whole, synced.get(who, whole))]
            return times
        return work

    def after(who):
        found, parts[who] = tables.rows(who)
        if found != onto + rows:
            it.tell(f"side, append of {rows} by {who}: {found} rows")

    what = f"{rows:,} rows, {tables.words}, onto {onto:,}{'' if form == 'printed' else ', ' + form}"
    row(what, least({who: timed(who) for who in works}, before, after))
    row(f"{what}, synced", synced)
    print("| files then | " + " | ".join(str(parts[who]) for who in WHO) + " |")


def appends(it):
    head("append of lines of JSON, and import")
    for keys in (0, 10, 100):
        tables = Tables(it, keys)
        appended(it, tables, 1000, 100_000)
        for form in FORMS:
            appended(it, tables, MILLION, 0, form)
        imported(it, tables)


def imported(it, tables):
    """A file of a million rows into an empty dataset of each."""
    file, keyed = it.file("import.parquet"), tables.keyed
    made = {name: [make(i) for i in range(MILLION)] for name, make in tables.columns.items()}
    pq.write_table(pa.table(made, schema=tables.schema), file, compression="NONE", use_dictionary=False)

    def by_duckdb():
        folder = tables.folder("DuckDB")
        os.makedirs(folder, exist_ok=True)
        target, parts = (folder, ", PARTITION_BY (k), APPEND") if keyed else (f"{folder}/part.parquet", "")
        return it.duckdb(f"COPY (FROM read_parquet('{file}')) TO '{target}' ({UNPACKED}{parts})")

    def by_fastparquet():
        frame = fast.fastparquet.ParquetFile(file).to_pandas()
        fast.fastparquet.write(tables.folder("fastparquet"), frame, compression=None, file_scheme="hive", partition_on=["k"] if keyed else [],
                               write_index=False, has_nulls=False, object_encoding="utf8")

    works = {"pqds": lambda: it.pqds("import", tables.folder("pqds"), file), "DuckDB": by_duckdb,
             "pyarrow": lambda: within(lambda: tables.write(pq.read_table(file, use_threads=False))), "fastparquet": lambda: within(by_fastparquet)}

    def after(who):
        if tables.rows(who)[0] != MILLION:
            it.tell(f"side, import by {who}: {tables.rows(who)}")
    row(f"import of 1,000,000 rows, {tables.words}", least(works, tables.clear, after))


def one_by_one(it, count=1000):
    """Appends of one row each, once, to a dataset without a key that is empty at first; prints what the first, some in between
    and the last of them took, of each the mean, and all of them together."""
    head("appends of one row each")
    tables, found = Tables(it, 0), {}
    for who, work in tables.works(write_lines(it.file("one.jsonl"), tables.columns, range(1))).items():
        tables.clear(who)
        found[who] = [work() for _ in range(count)]
        if tables.rows(who)[0] != count:
            it.tell(f"side, appends of one row by {who}: {tables.rows(who)}")
    for first in (0, count // 10 - 10, count // 2 - 10, count - 10):
        row(f"append {first + 1:,} to {first + 10:,}, each", {who: mean(times[first:first + 10]) for who, times in found.items()})
    row(f"all {count:,}", {who: [it * count for it in mean(times)[:2]] + [mean(times)[2]] for who, times in found.items()})


def mean(times):
    """The mean seconds and processor seconds of calls, and the most memory."""
    return [sum(it[0] for it in times) / len(times), sum(it[1] for it in times) / len(times), max(it[2] for it in times)]


def rows_of(keys, first, count):
    """The same rows as those of a table with so many keys, made at once."""
    places = np.arange(first, first + count)
    texts = pc.utf8_lpad(pc.cast(pa.array(places), pa.string()), 8, "0")
    more = pa.DictionaryArray.from_arrays(pa.array(places % 8), ["x" * it for it in range(8)]).cast(pa.string())
    columns = [pa.array(places), pc.binary_join_element_wise("row ", texts, more, "")]
    if keys:
        named = pa.array([f"key {key:02}" for key in range(keys)])
        columns.insert(0, pa.DictionaryArray.from_arrays(pa.array(places % keys), named).cast(pa.string()))
    return pa.table(columns, schema=KEYED if keys else BARE)


def peaks(it):
    """What appends and imports of one and of four million rows take, each once; fastparquet, which would take gigabytes, is left
    out. The lines are those that pqds prints of the file."""
    head("one and four million rows")
    for keys in (0, 100):
        tables = Tables(it, keys)
        for millions in (1, 4):
            file, lines, rows = it.file("import.parquet"), it.file("more.jsonl"), millions * MILLION
            pq.write_table(rows_of(keys, 0, rows), file, compression="NONE", use_dictionary=False)
            it.pqds("decode", file, out=lines)
            found = {}
            for who, work in tables.works(lines).items():
                if who == "fastparquet":
                    continue
                tables.clear(who)
                found[who] = work()
                if tables.rows(who)[0] != rows:
                    it.tell(f"side, append of {rows} rows by {who}: {tables.rows(who)}")
            row(f"`append` of {rows:,} lines, {os.path.getsize(lines) / MILLION:.0f} MB, {tables.words}", found)
            tables.clear("pqds")
            row(f"`import` of the file, {os.path.getsize(file) / MILLION:.0f} MB", {"pqds": it.pqds("import", tables.folder("pqds"), file)})
            os.remove(lines)
        parts = [it.file(f"part{part}.parquet") for part in range(4)]
        for part, name in enumerate(parts):
            pq.write_table(rows_of(keys, part * MILLION, MILLION), name, compression="NONE", use_dictionary=False)
        tables.clear("pqds")
        row("`import` of four files of 1,000,000 rows, in one commit", {"pqds": it.pqds("import", tables.folder("pqds"), *parts)})


# ---- questions ----

def queried(it, tables, what, wanted, key="", text="", columns=()):
    """Rows of the dataset of a million rows that pqds made, all, those of one key of a hundred or the one with a text, which no
    statistics rule out, in all columns or some: as lines of JSON by the two programs, as a table in memory by the other two."""
    folder, ours, theirs = tables.folder("pqds"), it.file("ours.jsonl"), it.file("theirs.jsonl")
    words, columns = list(columns), list(columns or tables.columns)
    column, value = ("k", key) if key else ("t", text)
    asked = ["--filter", json.dumps([[column, "==", value]])] if value else []
    where = f"WHERE {column} = '{value}'" if value else ""
    hive = ", hive_partitioning=true, hive_types={'k': 'VARCHAR'}" if tables.keyed else ""
    named = f"read_parquet('{folder}/**/*.parquet'{hive})"

    def by_pyarrow():
        wanted_rows = ds.field(column) == value if value else None
        found = ds.parquet_dataset(f"{folder}/_metadata", partitioning=HIVE).to_table(columns=list(columns), filter=wanted_rows, use_threads=False)
        assert found.num_rows == wanted

    def by_fastparquet():
        filters = [[(column, "==", value.replace(" ", "%20") if key else value)]] if value else []
        found = fast.fastparquet.ParquetFile(folder).to_pandas(columns=list(columns), filters=filters, row_filter=bool(text))
        assert len(found) == wanted

    works = {"pqds": lambda: it.pqds("query", folder, *words, *asked, out=ours),
             "DuckDB": lambda: it.duckdb(f"COPY (SELECT {', '.join(columns)} FROM {named} {where}) TO '{theirs}' (FORMAT json)"),
             "pyarrow": lambda: within(by_pyarrow), "fastparquet": lambda: within(by_fastparquet)}
    row(what, least(works))
    same_bytes(it, what, [ours, theirs])


def counted(it, tables, text):
    """A count of the one row of a million with a text, which no statistics rule out."""
    folder, out = tables.folder("pqds"), it.file("count")

    def by_pyarrow():
        assert ds.parquet_dataset(f"{folder}/_metadata", partitioning=HIVE if tables.keyed else None).count_rows(filter=ds.field("t") == text, use_threads=False) == 1

    def by_fastparquet():
        assert len(fast.fastparquet.ParquetFile(folder).to_pandas(columns=["t"], filters=[[("t", "==", text)]], row_filter=True)) == 1

    def after(who):
        if who in ("pqds", "DuckDB") and open(out).read().strip() != "1":
            it.tell(f"side, count by {who}: {open(out).read()}")

    works = {"pqds": lambda: it.pqds("count", folder, "--filter", json.dumps([["t", "==", text]]), out=out),
             "DuckDB": lambda: it.duckdb(f"SELECT count(*) FROM read_parquet('{folder}/**/*.parquet') WHERE t = '{text}'", out=out),
             "pyarrow": lambda: within(by_pyarrow), "fastparquet": lambda: within(by_fastparquet)}
    row(f"`count` by a text that no statistics rule out, of {MILLION:,} rows, {tables.words}", least(works, after=after))


def pruned(it):
    """Counts by a filter that all groups but one are ruled out by, of ten million rows without a key."""
    folder, file = it.file("ten_million"), it.file("part.parquet")
    it.pqds("create", folder, it.schema("table.json", BARE))
    for part in range(10):
        places = range(part * MILLION, (part + 1) * MILLION)
        pq.write_table(pa.table([list(places), [text_of(i) for i in places]], schema=BARE), file, compression="NONE")
        it.pqds("import", folder, file)
    low, high, out = 5_000_000, 5_001_000, it.file("count")

    def by_pyarrow():
        asked = (ds.field("n") >= low) & (ds.field("n") < high)
        assert ds.parquet_dataset(f"{folder}/_metadata").count_rows(filter=asked, use_threads=False) == high - low

    def by_fastparquet():
        found = fast.fastparquet.ParquetFile(folder).to_pandas(columns=["n"], filters=[[("n", ">=", low), ("n", "<", high)]], row_filter=True)
        assert len(found) == high - low

    works = {"pqds": lambda: it.pqds("count", folder, "--filter", f'[["n",">=",{low}],["n","<",{high}]]', out=out),
             "DuckDB": lambda: it.duckdb(f"SELECT count(*) FROM read_parquet('{folder}/*.parquet') WHERE n >= {low} AND n < {high}", out=out),
             "pyarrow": lambda: within(by_pyarrow), "fastparquet": lambda: within(by_fastparquet)}

    def after(who):
        if who in ("pqds", "DuckDB") and int(open(out).read()) != high - low:
            it.tell(f"side, count by {who}: {open(out).read()}")
    groups = len(glob.glob(f"{folder}/*.parquet"))
    row(f"count of {high - low:,} of 10,000,000 rows in {groups} groups", least(works, after=after))
    ours, theirs = it.file("ours.jsonl"), it.file("theirs.jsonl")

    def table_by_pyarrow():
        asked = (ds.field("n") >= low) & (ds.field("n") < high)
        assert ds.parquet_dataset(f"{folder}/_metadata").to_table(filter=asked, use_threads=False).num_rows == high - low

    def frame_by_fastparquet():
        found = fast.fastparquet.ParquetFile(folder).to_pandas(filters=[[("n", ">=", low), ("n", "<", high)]], row_filter=True)
        assert len(found) == high - low

    chosen = f"SELECT * FROM read_parquet('{folder}/*.parquet') WHERE n >= {low} AND n < {high}"
    works = {"pqds": lambda: it.pqds("query", folder, "--filter", f'[["n",">=",{low}],["n","<",{high}]]', out=ours),
             "DuckDB": lambda: it.duckdb(f"COPY ({chosen}) TO '{theirs}' (FORMAT json)"),
             "pyarrow": lambda: within(table_by_pyarrow), "fastparquet": lambda: within(frame_by_fastparquet)}
    row(f"query of {high - low:,} of 10,000,000 rows in {groups} groups", least(works))
    same_bytes(it, "a query by pruning", [ours, theirs])
    shutil.rmtree(folder)


def large_root(it):
    """A count of all rows of a table of 1,000 groups of 20 columns, by those who read `_metadata`."""
    folder, columns = it.file("large_root"), FLAT["20 numbers"]
    it.pqds("create", folder, it.schema("table.json", pa.schema([pa.field(name, pa.int64(), False) for name in columns])))
    it.pqds("append", folder, write_lines(it.file("rows.jsonl"), columns, range(1000)), "--group-rows", "1")

    def by_pyarrow():
        assert ds.parquet_dataset(f"{folder}/_metadata").count_rows(use_threads=False) == 1000

    def by_fastparquet():
        assert fast.fastparquet.ParquetFile(folder).count() == 1000

    row("count of 1,000 groups of 20 columns", least({"pqds": lambda: it.pqds("count", folder), "pyarrow": lambda: within(by_pyarrow), "fastparquet": lambda: within(by_fastparquet)}))
    shutil.rmtree(folder)


def grown(it, groups):
    """What a table of so many groups of 5 columns takes: a count of its rows, its root alone, and an append of one row."""
    folder, columns = it.file("grown"), {f"c{at}": lambda i, at=at: i * 7 + at for at in range(5)}
    it.pqds("create", folder, it.schema("table.json", pa.schema([pa.field(name, pa.int64(), False) for name in columns])))
    it.pqds("append", folder, write_lines(it.file("rows.jsonl"), columns, range(groups)), "--group-rows", "1")
    out, one = it.file("count"), write_lines(it.file("one.jsonl"), columns, range(1))

    def by_pyarrow():
        assert ds.parquet_dataset(f"{folder}/_metadata").count_rows(use_threads=False) == groups

    def by_fastparquet():
        assert fast.fastparquet.ParquetFile(folder).count() == groups

    def after(who):
        if who in ("pqds", "DuckDB") and int(open(out).read()) != groups:
            it.tell(f"side, count of {groups} groups by {who}: {open(out).read()}")

    works = {"pqds": lambda: it.pqds("count", folder, out=out), "DuckDB": lambda: it.duckdb(f"SELECT count(*) FROM read_parquet('{folder}/*.parquet')", out=out),
             "pyarrow": lambda: within(by_pyarrow), "fastparquet": lambda: within(by_fastparquet)}
    row(f"`count`, {groups:,} groups of 5 columns", least(works, after=after))
    row(f"the root alone, {os.path.getsize(folder + '/_metadata'):,} bytes", least({"pqds": lambda: it.pqds("groups", folder), "pyarrow": lambda: within(pq.read_metadata, f"{folder}/_metadata")}))
    row("append of one row", least({"pqds": lambda: it.pqds("append", folder, one)}))
    shutil.rmtree(folder)


# ---- rewriting ----

def rewritten(it):
    """500 files of 200 rows into one: by pqds in one commit, by the others read and written, and the old files removed."""
    first, lines = it.file("small"), write_lines(it.file("rows.jsonl"), {"n": COLUMNS["n"], "t": text_of}, range(100_000))
    it.pqds("create", first, it.schema("table.json", BARE))
    it.pqds("append", first, lines, "--group-rows", "200")
    folder, after = it.file("again"), it.file("again/all.parquet")

    def before(who):
        shutil.rmtree(folder, ignore_errors=True)
        shutil.copytree(first, folder)

    def without_old(write):
        old = glob.glob(f"{folder}/part.*.parquet")
        write()
        remove_all(old)

    def by_pyarrow():
        pq.write_table(ds.dataset(glob.glob(f"{folder}/part.*.parquet"), format="parquet").to_table(use_threads=False), after, compression="NONE")

    def by_fastparquet():
        frame = fast.fastparquet.ParquetFile(folder).to_pandas()
        fast.fastparquet.write(after, frame, compression=None, write_index=False, has_nulls=False, object_encoding="utf8")

    def by_duckdb():
        old = glob.glob(f"{folder}/part.*.parquet")
        return summed(it.duckdb(f"COPY (FROM read_parquet('{folder}/part.*.parquet')) TO '{after}' ({UNPACKED})"), remove_all(old))

    def check(who):
        found = glob.glob(f"{folder}/*.parquet")
        if len(found) != 1 or pq.read_metadata(found[0]).num_rows != 100_000:
            it.tell(f"side, rewrite by {who}: {len(found)} files")

    works = {"pqds": lambda: it.pqds("rewrite", folder, "--min-rows", "131072"), "DuckDB": by_duckdb,
             "pyarrow": lambda: within(without_old, by_pyarrow), "fastparquet": lambda: within(without_old, by_fastparquet)}
    row("500 files of 200 rows into one", least(works, before, check))


def removed(it, tables):
    """Half of the rows of one key of a hundred: by pqds in one commit, by the others the file of the key is written anew."""
    first, folder = tables.folder("pqds"), it.file("less")
    place = f"{folder}/k=key%2042"

    def before(who):
        shutil.rmtree(folder, ignore_errors=True)
        shutil.copytree(first, folder)

    def instead(write):
        old = glob.glob(f"{place}/part.*.parquet")
        write(old)
        remove_all(old)

    def by_pyarrow(old):
        pq.write_table(ds.dataset(old, format="parquet").to_table(filter=ds.field("n") >= MILLION // 2, use_threads=False), f"{place}/new.parquet", compression="NONE")

    def by_fastparquet(old):
        frame = fast.fastparquet.ParquetFile(old).to_pandas()
        fast.fastparquet.write(f"{place}/new.parquet", frame[frame["n"] >= MILLION // 2], compression=None, write_index=False, has_nulls=False, object_encoding="utf8")

    def by_duckdb():
        old = glob.glob(f"{place}/part.*.parquet")
        return summed(it.duckdb(f"COPY (SELECT * FROM read_parquet('{place}/part.*.parquet', hive_partitioning=false) WHERE n >= {MILLION // 2}) "
                                f"TO '{place}/new.parquet' ({UNPACKED})"), remove_all(old))

    def check(who):
        found = sum(pq.read_metadata(file).num_rows for file in glob.glob(f"{place}/*.parquet"))
        if found != MILLION // 200:
            it.tell(f"side, remove by {who}: {found} rows")

    asked = json.dumps([["k", "==", "key 42"], ["n", "<", MILLION // 2]])
    works = {"pqds": lambda: it.pqds("remove", folder, "--filter", asked), "DuckDB": by_duckdb,
             "pyarrow": lambda: within(instead, by_pyarrow), "fastparquet": lambda: within(instead, by_fastparquet)}
    row(f"remove of {MILLION // 200:,} of {MILLION:,} rows, of one key", least(works, before, check))


def starts(it):
    """What a process that does nothing takes."""
    sample = os.path.join(os.path.dirname(os.path.abspath(__file__)), "sample/two_rows.parquet")
    row("start of the process", least({"pqds": lambda: it.pqds("schema", sample), "DuckDB": lambda: it.duckdb("SELECT 1")}))


def forms(path, room, tell):
    other_forms(Side(path, room, tell))


def growth(path, room, tell):
    it = Side(path, room, tell)
    head("as a table grows")
    for groups in (100, 1_000, 10_000, 40_000):
        grown(it, groups)


def memory(path, room, tell):
    peaks(Side(path, room, tell))


def ones(path, room, tell):
    one_by_one(Side(path, room, tell))


def questions(it):
    head("questions, rewriting, start")
    for keys in (0, 100):
        tables = Tables(it, keys)
        tables.clear("pqds")
        it.pqds("append", tables.folder("pqds"), write_lines(it.file("rows.jsonl"), tables.columns, range(MILLION)))
        queried(it, tables, f"all {MILLION:,} rows, {tables.words}", MILLION)
    counted(it, tables, text_of(MILLION - 223))
    queried(it, tables, f"{MILLION // 100:,} rows of one key of 100", MILLION // 100, key="key 42")
    queried(it, tables, f"one column of {MILLION:,} rows of 100 keys", MILLION, columns=["n"])
    queried(it, tables, f"one row of {MILLION:,} by a text that no statistics rule out", 1, text=text_of(MILLION - 223))
    pruned(it)
    large_root(it)
    removed(it, tables)
    rewritten(it)
    starts(it)


def run(path, room, tell):
    it = Side(path, room, tell)
    both_ways(it)
    other_forms(it)
    appends(it)
    questions(it)
    one_by_one(it)
