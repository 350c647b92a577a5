"""For bench/peers/peers.py: what README.md and docs/FORMAT.md say of other tools and no random file
or table shows, tried by hand. Prints a line for each, with what the tool did; another outcome than
the page's is a difference."""

import json
import os
import shutil
import subprocess
import sys

try:
    import pyarrow as pa
    import pyarrow.dataset as ds
    import pyarrow.parquet as pq
except ModuleNotFoundError as missing:
    sys.exit(f"{missing}: bench/peers/peers.sh makes a room that has it")

import fast
import tables
from outside import isolated

KEY = {"name": "k", "rep": "required", "type": "bytes", "note": "utf8"}
NUMBER = {"name": "n", "rep": "optional", "type": "int64"}
TEXT = {"name": "s", "rep": "optional", "type": "bytes", "note": "utf8"}
ADDED = {
    "text": ({"type": "bytes", "note": "utf8"}, [None, None]),
    "date": ({"type": "int32", "note": "date"}, [None, None]),
    "decimal": ({"type": "int64", "note": "decimal", "precision": 9, "scale": 2}, [None, None]),
    "integer": ({"type": "int64"}, "list index out of range"),
    "boolean": ({"type": "boolean"}, "list index out of range"),
}


def table(it, name, fields, rows, *keys):
    folder = it.file(name)
    json.dump(fields, open(it.file("schema.json"), "w"))
    it.must("create", folder, f"{it.room}/schema.json", *keys)
    it.must("append", folder, it.lines("rows.jsonl", rows))
    return folder


def plain(values):
    """The values of a column of pandas, with one kind of null."""
    return [None if fast.pd.isna(value) else value for value in values]


def by_fastparquet(folder, column, **options):
    return plain(fast.fastparquet.ParquetFile(folder).to_pandas(**options)[column])


def by_dask(folder, column):
    import dask.dataframe as dd

    return plain(dd.read_parquet(folder, engine="pyarrow").compute(scheduler="synchronous")[column])


def by_root(folder, column):
    return ds.parquet_dataset(f"{folder}/_metadata").to_table()[column].to_pylist()


def by_schema(folder, column):
    return (
        ds.dataset(folder, format="parquet", schema=pq.read_schema(f"{folder}/_metadata"))
        .to_table()[column]
        .to_pylist()
    )


def length_of(folder, filters):
    return len(fast.fastparquet.ParquetFile(folder).to_pandas(filters=filters, row_filter=True))


def by_folder(folder, column):
    """The values in all part files that a folder has."""
    return ds.dataset(folder, format="parquet").to_table()[column].to_pylist()


def by_hive(folder, kinds=None):
    """The keys that pyarrow shows, by its guesses, or of the kinds that are declared."""
    flavor = ds.partitioning(pa.schema(kinds), flavor="hive") if kinds else "hive"
    return ds.dataset(folder, format="parquet", partitioning=flavor).to_table()["k"].to_pylist()


def by_duckdb(text):
    """The rows of a query of DuckDB, or its refusal."""
    ran = subprocess.run(["duckdb", "-bail", "-json", "-c", text], capture_output=True)
    if ran.returncode:
        raise RuntimeError(ran.stderr.decode().strip())
    return [list(row.values()) for row in json.loads(ran.stdout or b"[]")]


def keys_by_duckdb(folder, types=""):
    parts = f"read_parquet('{folder}/**/*.parquet', hive_partitioning=true{types})"
    found = by_duckdb(f"SELECT k FROM {parts} ORDER BY filename")
    return [key for (key,) in found]


def codec_of(file):
    """The compression of the first chunk of a file."""
    return pq.ParquetFile(file).metadata.row_group(0).column(0).compression


def optional_in(file):
    """Which columns of a file are OPTIONAL."""
    schema = pq.ParquetFile(file).schema
    return [
        schema.column(at).name
        for at in range(len(schema))
        if schema.column(at).max_definition_level
    ]


KEYED = {"k": ["a", "b"], "n": [1, 2]}
BOTH = pa.schema([pa.field("k", pa.string(), False), pa.field("n", pa.int64())])


def write_by_pandas(file, **options):
    fast.pd.DataFrame(KEYED).to_parquet(file, engine="pyarrow", index=False, **options)


def write_by_pyarrow(file, schema=None, **options):
    pq.write_table(pa.table(KEYED, schema=schema), file, **options)


VALUES = "(VALUES ('a', 1), ('b', 2::BIGINT)) v(k, n)"
MADE = "CREATE TABLE t(k VARCHAR NOT NULL, n BIGINT); INSERT INTO t VALUES ('a', 1), ('b', 2); "


def write_by_duckdb(file, rows=f"FROM {VALUES}", options=", COMPRESSION uncompressed"):
    ran = subprocess.run(
        ["duckdb", "-bail", "-c", f"{MADE}COPY ({rows}) TO '{file}' (FORMAT parquet{options})"],
        capture_output=True,
    )
    if ran.returncode:
        raise RuntimeError(ran.stderr.decode())


def write_by_fastparquet(file, **options):
    fast.fastparquet.write(
        file, fast.pd.DataFrame(KEYED), write_index=False, object_encoding={"k": "utf8"}, **options
    )


class Sentences:
    def __init__(self, it, tell):
        self.it, self.tell, self.tried, self.wrong = it, tell, 0, 0

    def expect(self, what, wanted, call, *given):
        """A call gives this, or fails with an error that has this text, or one of several."""
        found, error = isolated(call, *given)
        ways = wanted if isinstance(wanted, tuple) else (wanted,)
        well = any(
            one in error if isinstance(one, str) and error else not error and found == one
            for one in ways
        )
        self.tried, self.wrong = self.tried + 1, self.wrong + (not well)
        said = error or json.dumps(found)
        print(f"    {what}: {said[:110]}")
        if not well:
            self.tell(f"sentences, {what}: {said[:300]}, where {wanted} is wanted")

    def added_columns(self):
        for kind, (field, wanted) in ADDED.items():
            folder = table(self.it, "added", [NUMBER], [{"n": 1}, {"n": 2}])
            json.dump(
                [{"name": "more", "rep": "optional", **field}],
                open(self.it.file("column.json"), "w"),
            )
            self.it.must("add-column", folder, f"{self.it.room}/column.json")
            self.expect(
                f"an added column, {kind}, by fastparquet", wanted, by_fastparquet, folder, "more"
            )
            self.expect(
                f"an added column, {kind}, by Dask", "not in index", by_dask, folder, "more"
            )
            self.expect(
                f"an added column, {kind}, by pyarrow and the root",
                "The file only has 1 columns",
                by_root,
                folder,
                "more",
            )
            self.expect(
                f"an added column, {kind}, by pyarrow and a schema",
                [None, None],
                by_schema,
                folder,
                "more",
            )
            self.it.must("rewrite", folder, "--all")
            for who, read in {
                "fastparquet": by_fastparquet,
                "Dask": by_dask,
                "pyarrow and the root": by_root,
            }.items():
                self.expect(
                    f"the same after rewrite --all, by {who}", [None, None], read, folder, "more"
                )

    def filters(self):
        rows = [{"n": i if i % 3 else None, "s": f"x{i}" if i % 4 else None} for i in range(100)]
        folder = table(self.it, "filtered", [NUMBER, TEXT], rows)
        self.expect(
            "row_filter=True on a number with nulls",
            "'bool'-dtype",
            length_of,
            folder,
            [[("n", "==", 1)]],
        )
        self.expect(
            "row_filter=True, in, on a number with nulls",
            2,
            length_of,
            folder,
            [[("n", "in", [1, 2])]],
        )
        self.expect(
            "row_filter=True on a text with nulls", 1, length_of, folder, [[("s", "==", "x5")]]
        )

    def values_and_keys(self):
        fixed = {"name": "f", "rep": "required", "type": "fixed", "length": 3}
        folder = table(self.it, "fixed", [fixed], [{"f": "616200"}, {"f": "616263"}])
        self.expect(
            "bytes of a fixed length that end in zero, by fastparquet",
            ["6162", "616263"],
            lambda: [one.hex() for one in by_fastparquet(folder, "f")],
        )
        keyed = table(
            self.it,
            "keyed",
            [KEY, NUMBER],
            [{"k": key, "n": 1} for key in ("007", "a/b", "x")],
            "k",
        )
        shown = [["007", "a%2Fb", "x"], [7, "a%2Fb", "x"]]
        self.expect(
            "keys 007, a/b and x, by fastparquet",
            (*shown, "not in list"),
            lambda: [
                one if isinstance(one, str) else int(one) for one in by_fastparquet(keyed, "k")
            ],
        )
        self.expect(
            "the same, by pyarrow",
            ["007", "a/b", "x"],
            lambda: (
                ds.dataset(keyed, format="parquet", partitioning="hive").to_table()["k"].to_pylist()
            ),
        )

    def made(self, write, *given, **options):
        """A file that was written anew."""
        file = self.it.file("given.parquet")
        error = isolated(lambda: write(file, *given, **options) and None)[1]
        if error:
            raise RuntimeError(error)
        return file

    def files_for_import(self):
        """What each writes by itself, and what comes in."""
        usual = {
            "pandas": (write_by_pandas, {}),
            "pyarrow": (write_by_pyarrow, {}),
            "DuckDB": (write_by_duckdb, {"options": ""}),
        }
        for who, (write, options) in usual.items():
            file = self.made(write, **options)
            self.expect(
                f"a file of {who} with no options, its compression",
                ("SNAPPY",),
                lambda file=file: codec_of(file),
            )
            self.expect("the same, decoded", "refused 5 Codec", self.refusal, "decode", file)
        bare = {
            "pandas": (write_by_pandas, {"compression": None}),
            "pyarrow": (write_by_pyarrow, {"compression": "none"}),
            "DuckDB": (write_by_duckdb, {}),
        }
        folder = table(self.it, "into", [KEY, NUMBER], [{"k": "a", "n": 1}], "k")
        for who, (write, options) in bare.items():
            file = self.made(write, **options)
            self.expect(
                f"a file of {who} without compression, decoded",
                [{"k": "a", "n": 1}, {"k": "b", "n": 2}],
                self.decoded,
                file,
            )
            self.expect("the same, its OPTIONAL columns", ["k", "n"], optional_in, file)
            self.expect(
                "the same, imported where k is a key",
                "refused 4 Schema",
                self.refusal,
                "import",
                folder,
                file,
            )
        required = {
            "pandas": (write_by_pandas, {"compression": None, "schema": BOTH}),
            "pyarrow": (write_by_pyarrow, {"schema": BOTH, "compression": "none"}),
            "fastparquet": (write_by_fastparquet, {"compression": None, "has_nulls": ["n"]}),
        }
        for who, (write, options) in required.items():
            file = self.made(write, **options)
            self.expect(
                f"a file of {who} with a REQUIRED k, its OPTIONAL columns", ["n"], optional_in, file
            )
            self.expect(
                "the same, imported where k is a key",
                "done 2\n",
                self.it.must,
                "import",
                folder,
                file,
            )
        noted = table(
            self.it, "noted", [KEY, {**NUMBER, "note": "int_64"}], [{"k": "a", "n": 1}], "k"
        )
        file = self.made(write_by_duckdb, "FROM t")
        self.expect(
            "a table of DuckDB without a null, k NOT NULL and n not, its OPTIONAL columns",
            [],
            optional_in,
            file,
        )
        self.expect(
            "the same, imported where n is OPTIONAL",
            "refused 4 Schema",
            self.refusal,
            "import",
            noted,
            file,
        )
        file = self.made(write_by_duckdb, "SELECT k, try(n) AS n FROM t")
        self.expect("its columns k and try(n), the OPTIONAL ones", ["n"], optional_in, file)
        self.expect(
            "the same, imported where n has no note",
            "refused 4 Schema",
            self.refusal,
            "import",
            folder,
            file,
        )
        self.expect(
            "the same, imported where n has the note int_64",
            "done 2\n",
            self.it.must,
            "import",
            noted,
            file,
        )

    def refusal(self, *words):
        """Fails with the refusal of a command, its last line."""
        status, out, err = self.it.call(*words)
        if status:
            raise RuntimeError(err.split("\n")[-1])
        return out

    def decoded(self, file):
        return [json.loads(line) for line in self.it.must("decode", file).splitlines()]

    def rows_of_nested_files(self):
        """A nested file with pages of one value."""
        file, made = self.it.file("nested.parquet"), tables.random_table(19)
        pq.write_table(
            made,
            file,
            compression="NONE",
            data_page_size=1,
            write_batch_size=1,
            data_page_version="1.0",
            use_dictionary=True,
        )
        self.expect(
            "a nested file of one row, by pyarrow, which wrote it",
            0,
            lambda: pq.ParquetFile(file).read().num_rows,
        )
        self.expect("the same, decoded", 1, lambda: len(self.it.must("decode", file).splitlines()))

    def added_columns_by_duckdb(self):
        folder = table(self.it, "later", [NUMBER], [{"n": 1}])
        json.dump([TEXT], open(self.it.file("column.json"), "w"))
        self.it.must("add-column", folder, f"{self.it.room}/column.json")
        asked = (
            f"SELECT n, s FROM read_parquet('{folder}/*.parquet', union_by_name = true) ORDER BY n"
        )
        self.expect(
            "an added column that no file has, by DuckDB", 'column "s" not found', by_duckdb, asked
        )
        self.it.must("append", folder, self.it.lines("rows.jsonl", [{"n": 2, "s": "x"}]))
        self.expect("the same once a file has it", [[1, None], [2, "x"]], by_duckdb, asked)

    def guesses(self):
        """Keys that look like numbers, the text of no value, and booleans."""
        texts = ", hive_types={'k': 'VARCHAR'}"
        alike = table(
            self.it, "alike", [KEY, NUMBER], [{"k": key, "n": 1} for key in ("007", "12")], "k"
        )
        self.expect("keys 007 and 12, by pyarrow", [7, 12], by_hive, alike)
        self.expect(
            "the same, declared as texts", ["007", "12"], by_hive, alike, [("k", pa.string())]
        )
        self.expect("the same, by DuckDB", ["007", "12"], keys_by_duckdb, alike)
        plain_numbers = table(
            self.it, "numbers", [KEY, NUMBER], [{"k": key, "n": 1} for key in ("1", "2")], "k"
        )
        self.expect("keys 1 and 2, by DuckDB", [1, 2], keys_by_duckdb, plain_numbers)
        self.expect("the same, by pyarrow", [1, 2], by_hive, plain_numbers)
        self.expect(
            "the same, by DuckDB, declared as texts",
            ["1", "2"],
            keys_by_duckdb,
            plain_numbers,
            texts,
        )
        none = table(
            self.it,
            "none",
            [KEY, NUMBER],
            [{"k": key, "n": 1} for key in ("__HIVE_DEFAULT_PARTITION__", "x")],
            "k",
        )
        self.expect(
            "the key __HIVE_DEFAULT_PARTITION__, by pyarrow",
            [None, "x"],
            by_hive,
            none,
            [("k", pa.string())],
        )
        self.expect("the same, by DuckDB", [None, "x"], keys_by_duckdb, none, texts)
        self.expect(
            "the same, by fastparquet",
            ["__HIVE_DEFAULT_PARTITION__", "x"],
            by_fastparquet,
            none,
            "k",
        )
        self.expect(
            "the same, by the query",
            ["__HIVE_DEFAULT_PARTITION__", "x"],
            lambda: [row["k"] for row in self.it.query(none)],
        )
        flag = {"name": "k", "rep": "required", "type": "boolean"}
        flags = table(
            self.it, "flags", [flag, NUMBER], [{"k": key, "n": 1} for key in (False, True)], "k"
        )
        self.expect(
            "keys false and true, by fastparquet", ["false", "true"], by_fastparquet, flags, "k"
        )

    def files_not_named(self):
        """A part file that the root does not name, as one that a query still needs."""
        folder = table(self.it, "left", [NUMBER], [{"n": 1}])
        shutil.copy(f"{folder}/part.0.parquet", f"{folder}/part.7.parquet")
        self.expect(
            "a part file that the root does not name, by pyarrow and the folder",
            [1, 1],
            by_folder,
            folder,
            "n",
        )
        self.expect(
            "the same, by DuckDB and the folder",
            [[1], [1]],
            by_duckdb,
            f"SELECT n FROM read_parquet('{folder}/*.parquet')",
        )
        self.expect("the same, by pyarrow and the root", [1], by_root, folder, "n")
        self.expect("the same, by fastparquet", [1], by_fastparquet, folder, "n")
        self.expect("the same, by Dask", [1], by_dask, folder, "n")
        self.expect("the same, by the query", [{"n": 1}], self.it.query, folder)
        self.it.must("append", folder, self.it.lines("rows.jsonl", [{"n": 2}]))
        self.expect(
            "the files after the next change",
            ["part.0.parquet", "part.1.parquet"],
            lambda: sorted(name for name in os.listdir(folder) if name.startswith("part")),
        )

    def run(self):
        self.files_for_import()
        self.rows_of_nested_files()
        self.added_columns()
        self.added_columns_by_duckdb()
        self.filters()
        self.values_and_keys()
        self.guesses()
        self.files_not_named()
        print(
            f"sentences: {self.tried} tried, {self.tried - self.wrong} as the pages say", flush=True
        )
