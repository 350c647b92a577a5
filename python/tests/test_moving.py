"""The table of docs/PYTHON.md on fastparquet, line by line: what is the same, what differs, what is not there."""

from __future__ import annotations

import datetime as dt
import importlib.util
import inspect
import unittest
from typing import Any, Callable, Dict, List

from support import TOP, RoomCase, load_fastparquet

import pqds

HAS_ALL = all(importlib.util.find_spec(it) is not None for it in ("pandas", "pyarrow", "fastparquet"))
PAGE = TOP / "docs/PYTHON.md"

if HAS_ALL:
    import pandas as pd

    fastparquet = load_fastparquet()


def lines_of(text: str) -> List[str]:
    """What stands in the first column of the table under its heading."""
    section = text.partition("\n## From fastparquet\n")[2].partition("\n## ")[0]
    rows = [line for line in section.splitlines() if line.startswith("|")]
    return [row.partition(" | ")[0][2:] for row in rows[2:]]


@unittest.skipUnless(HAS_ALL and PAGE.exists(), "pandas, pyarrow or fastparquet is not there")
class Moving(RoomCase):
    def setUp(self) -> None:
        super().setUp()
        self.frame = pd.DataFrame({"k": ["a", "b", "a", "b"], "n": [1, 2, 3, 4], "s": ["x", None, "y", "z"]})
        self.made = 0

    def test_each_line_of_the_table(self) -> None:
        tried: Dict[str, Callable[[], None]] = {
            "`write(path, df, partition_on=[..])`": self.write,
            "`write(.., append=True)`": self.write_more,
            "`write(..)` on an existing table": self.write_again,
            "`write(.., compression=..)`": lambda: self.takes_no_option("compression"),
            "`write(.., row_group_offsets=N)`": self.group_rows,
            "`write(.., write_index=True or False)`": self.write_index,
            "`write(.., has_nulls, times, object_encoding, fixed_text, stats, custom_metadata)`": self.other_options,
            "floats": self.floats,
            "categories": self.categories,
            "`ParquetFile(path)`": self.parquet_file,
            "`.columns`, `.info`, `.count()`": self.words,
            "`.dtypes`": self.dtypes,
            "`.to_pandas(columns, filters)`": self.to_pandas,
            "filters": self.filters,
            "`.to_pandas(index=.., categories=.., dtypes=..)`": self.to_pandas_options,
            "`.head(n)`": self.head,
            "`.iter_row_groups(filters)`": self.iter_row_groups,
            "`.row_groups`": self.row_groups,
            "`.statistics`": self.statistics,
            "`.remove_row_groups(groups)`": self.remove_row_groups,
            "`.write_row_groups(df)`": self.write_row_groups,
            "`.cats`, `.schema`, `.fmd`, `.key_value_metadata`, `.pandas_metadata`, `merge`, "
            "`update_file_custom_metadata`": self.not_there,
            "file systems (`open_with`, `fsspec`)": self.file_systems,
        }
        self.assertEqual(list(tried), lines_of(PAGE.read_text()))
        for line, attempt in tried.items():
            with self.subTest(line=line):
                attempt()

    # ---- writing ----

    def both(self, **options: Any) -> Any:
        """The same frame, written and opened by both."""
        self.made += 1
        ours, theirs = f"ours{self.made}", f"theirs{self.made}"
        more = {"row_group_offsets": options.pop("group_rows")} if "group_rows" in options else {}
        if more:
            pqds.write(ours, self.frame, ["k"], group_rows=more["row_group_offsets"])
        else:
            pqds.write(ours, self.frame, ["k"], **options)
        fastparquet.write(theirs, self.frame, partition_on=["k"], file_scheme="hive", **options, **more)
        return pqds.ParquetFile(ours), fastparquet.ParquetFile(theirs)

    def rows(self, file: Any, **options: Any) -> Any:
        frame = file.to_pandas(**options)
        frame = frame[sorted(frame.columns)].astype({it: str for it in ("k",) if it in frame.columns})
        return [[None if pd.isna(it) else it for it in row] for row in frame.itertuples(index=False, name=None)]

    def write(self) -> None:
        ours, theirs = self.both()
        self.assertEqual(self.rows(ours), self.rows(theirs))
        self.assertEqual(self.rows(fastparquet.ParquetFile(ours.dataset.path)), self.rows(theirs))
        with self.assertRaises(pqds.Key):
            pqds.write("keys", pd.DataFrame({"k": ["a", ""], "n": [1, 2]}), ["k"])
        self.assertEqual(pqds.open("keys").count(), 0)

    def write_more(self) -> None:
        ours, theirs = self.both()
        self.assertEqual(pqds.write(ours.dataset.path, self.frame, append=True), 4)
        path = theirs.basepath
        fastparquet.write(path, self.frame, partition_on=["k"], file_scheme="hive", append=True)
        # Both have the new rows; ours has the rows of one key together.
        self.assertEqual(ours.count(), 8)
        mine, other = (sorted(self.rows(it), key=lambda row: row[:2]) for it in (ours, fastparquet.ParquetFile(path)))
        self.assertEqual(mine, other)
        with self.assertRaises(pqds.Refused):
            pqds.write("nowhere", self.frame, append=True)
        again: Any = "overwrite"
        with self.assertRaises(ValueError):
            pqds.write(ours.dataset.path, self.frame, append=again)
        self.assertEqual(ours.count(), 8)

    def write_again(self) -> None:
        ours, theirs = self.both()
        with self.assertRaises(pqds.Exists):
            pqds.write(ours.dataset.path, self.frame)
        fastparquet.write(theirs.basepath, self.frame[:1], partition_on=["k"], file_scheme="hive")
        self.assertEqual((ours.count(), fastparquet.ParquetFile(theirs.basepath).count()), (4, 1))

    def takes_no_option(self, name: str) -> None:
        self.assertIn(name, inspect.signature(fastparquet.write).parameters)
        options: Dict[str, Any] = {name: None}
        with self.assertRaises(TypeError):
            pqds.write("never", self.frame, **options)

    def other_options(self) -> None:
        for name in ("has_nulls", "times", "object_encoding", "fixed_text", "stats", "custom_metadata"):
            self.takes_no_option(name)

    def group_rows(self) -> None:
        ours, theirs = self.both(group_rows=1)
        self.assertEqual((len(ours.row_groups), len(theirs.row_groups)), (4, 4))

    def write_index(self) -> None:
        self.frame.index = pd.Index([5, 6, 7, 8], name="i")
        with self.assertRaises(pqds.Schema):
            pqds.write("never", self.frame, ["k"])
        fastparquet.write("kept", self.frame, file_scheme="hive")
        self.assertEqual(fastparquet.ParquetFile("kept").to_pandas().index.name, "i")
        for write_index, columns in ((True, {"i", "n", "s"}), (False, {"n", "s"})):
            ours, theirs = self.both(write_index=write_index)
            self.assertEqual((set(ours.columns), set(theirs.columns)), (columns, columns))
        self.frame = self.frame.reset_index(drop=True)

    def floats(self) -> None:
        frame = pd.DataFrame({"price": [0.5, None]})
        with self.assertRaises(pqds.Float):
            pqds.write("floats", frame)
        self.assertEqual(pqds.write("floats", frame, floats={"price": 2}), 2)

    def categories(self) -> None:
        ours, theirs = self.both()
        with self.assertRaises(pqds.Schema):
            pqds.write("never", self.frame.astype({"k": "category"}))
        self.assertEqual(str(theirs.to_pandas()["k"].dtype), "category")
        self.assertEqual(ours.to_pandas()["k"].dtype, self.frame["k"].dtype)

    # ---- reading ----

    def parquet_file(self) -> None:
        self.both()
        pqds.encode([{"name": "n", "rep": "required", "type": "int64"}], [{"n": 1}], "single.parquet")
        self.assertEqual(fastparquet.ParquetFile("single.parquet").count(), 1)
        with self.assertRaises(pqds.Refused):
            pqds.ParquetFile("single.parquet").count()

    def words(self) -> None:
        ours, theirs = self.both()
        self.assertEqual(ours.columns, theirs.columns)
        self.assertEqual(ours.count(), theirs.count())
        mine, other = ours.info, theirs.info
        self.assertEqual(mine.pop("name"), ours.dataset.path)
        self.assertEqual(mine, {it: value for it, value in other.items() if it != "name"})

    def dtypes(self) -> None:
        self.frame = self.frame.assign(t=pd.to_datetime(["2024-01-01"] * 4))
        ours, theirs = self.both()
        self.assertEqual(set(ours.dtypes), set(theirs.dtypes))
        self.assertEqual(
            {it: str(kind) for it, kind in ours.dtypes.items() if it in "nt"},
            {"n": "Int64", "t": "datetime64[us, UTC]"},
        )
        self.assertEqual(str(theirs.dtypes["n"]), "int64")
        self.frame = self.frame.drop(columns="t")

    def to_pandas(self) -> None:
        ours, theirs = self.both()
        self.assertEqual(list(ours.to_pandas().columns), ["k", "n", "s"])
        self.assertEqual(list(theirs.to_pandas().columns), ["n", "s", "k"])
        some: Dict[str, Any] = {"columns": ["n"], "filters": [("n", ">", 3), ("n", "<", 9)]}
        self.assertEqual(self.rows(ours, **some), [[4]])
        self.assertEqual(self.rows(theirs, **some), [[2], [4]])
        # With one list of terms and row_filter=True it keeps the rows for which one of them holds.
        self.assertEqual(self.rows(theirs, **some, row_filter=True), [[2], [4]])
        self.assertEqual(self.rows(theirs, columns=["n"], filters=[[*some["filters"]]], row_filter=True), [[4]])

    def filters(self) -> None:
        ours, theirs = self.both()
        for filters in ([("k", "==", "a")], [[("k", "==", "a")]], [[("k", "==", "a")], [("k", "in", ["b"])]]):
            self.assertEqual(self.rows(ours, filters=filters), self.rows(theirs, filters=filters))
        days = pqds.create("days", [{"name": "d", "rep": "optional", "type": "int32", "note": "date"}])
        days.append([{"d": dt.date(2024, 1, 1)}])
        self.assertEqual(days.count([("d", "==", dt.date(2024, 1, 1))]), 1)

    def to_pandas_options(self) -> None:
        ours, theirs = self.both()
        for name in ("index", "categories", "dtypes"):
            self.assertIn(name, inspect.signature(theirs.to_pandas).parameters)
            options: Dict[str, Any] = {name: None}
            with self.assertRaises(TypeError):
                ours.to_pandas(**options)

    def head(self) -> None:
        ours, theirs = self.both()
        self.assertEqual(ours.head(2)["n"].tolist(), theirs.head(2)["n"].tolist())

    def iter_row_groups(self) -> None:
        ours, theirs = self.both()
        self.assertEqual(*([it["n"].tolist() for it in file.iter_row_groups()] for file in (ours, theirs)))
        self.assertEqual([it["n"].tolist() for it in ours.iter_row_groups(filters=[("n", ">", 1)])], [[3], [2, 4]])
        found = theirs.iter_row_groups(filters=[("n", ">", 1)])
        self.assertEqual([it["n"].tolist() for it in found], [[1, 3], [2, 4]])

    def row_groups(self) -> None:
        ours, theirs = self.both()
        self.assertEqual([(it.rows, it.key) for it in ours.row_groups], [(2, {"k": "a"}), (2, {"k": "b"})])
        self.assertEqual([it.num_rows for it in theirs.row_groups], [2, 2])

    def statistics(self) -> None:
        ours, theirs = self.both()
        self.assertEqual(list(ours.statistics), list(theirs.statistics))
        for word in ("min", "max", "null_count"):
            self.assertEqual(ours.statistics[word]["n"], list(theirs.statistics[word]["n"]))
        self.assertEqual(ours.statistics["max"]["s"], ["y", "z"])

    def remove_row_groups(self) -> None:
        ours, theirs = self.both()
        self.assertEqual(ours.remove_row_groups(ours.row_groups[:1]), 2)
        theirs.remove_row_groups(theirs.row_groups[:1])
        self.assertEqual(self.rows(ours), self.rows(theirs))
        self.assertEqual(ours.remove_row_groups([ours.row_groups[0].number]), 2)

    def write_row_groups(self) -> None:
        ours, _ = self.both()
        self.assertEqual(ours.write_row_groups(self.frame), 4)
        self.assertEqual(ours.count(), 8)

    def not_there(self) -> None:
        ours, theirs = self.both()
        for name in ("cats", "schema", "fmd", "key_value_metadata", "pandas_metadata"):
            self.assertEqual((hasattr(ours, name), hasattr(theirs, name)), (False, True), name)
        for name in ("merge", "update_file_custom_metadata"):
            owner = fastparquet.writer
            self.assertEqual((hasattr(pqds, name), hasattr(owner, name)), (False, True), name)
        self.assertEqual((len(ours.dataset.schema()), ours.dataset.keys()), (3, ("k",)))

    def file_systems(self) -> None:
        self.takes_no_option("open_with")
        options: Dict[str, Any] = {"fs": None}
        with self.assertRaises(TypeError):
            pqds.ParquetFile("t", **options)


if __name__ == "__main__":
    unittest.main()
