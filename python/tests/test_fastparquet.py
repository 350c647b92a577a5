"""The words of fastparquet; and where fastparquet is there, the same frames written and read by both."""

from __future__ import annotations

import datetime as dt
import importlib.util
import unittest
from decimal import Decimal
from pathlib import Path
from typing import Any, List, Tuple
from unittest import mock

from support import ORDERS, RoomCase, load_fastparquet

import pqds

HAS_PANDAS = importlib.util.find_spec("pandas") is not None
HAS_ARROW = importlib.util.find_spec("pyarrow") is not None

if HAS_PANDAS:
    import pandas as pd


FASTPARQUET = load_fastparquet()


class Words(RoomCase):
    def setUp(self) -> None:
        super().setUp()
        rows = [{"region": "a", "order": 1, "cents": 5}, {"region": "b", "order": 2}, {"region": "a", "order": 3}]
        pqds.create("t", ORDERS, ["region"]).append(rows)
        self.file = pqds.ParquetFile("t")

    def test_what_the_table_is(self) -> None:
        self.assertEqual(self.file.columns, ["order", "cents"])
        self.assertEqual(
            self.file.info,
            {"name": "t", "columns": ["order", "cents"], "partitions": ["region"], "rows": 3, "row_groups": 2},
        )
        self.assertEqual([it.rows for it in self.file.row_groups], [2, 1])
        self.assertEqual(self.file.count(), 3)
        self.assertEqual(self.file.count([("order", ">", 1)]), 2)
        self.assertEqual(repr(self.file), "pqds.ParquetFile('t')")

    def test_statistics(self) -> None:
        self.assertEqual(
            self.file.statistics,
            {
                "min": {"order": [1, 2], "cents": [5, None]},
                "max": {"order": [3, 2], "cents": [5, None]},
                "null_count": {"order": [0, 0], "cents": [1, 1]},
                "distinct_count": {"order": [None, None], "cents": [None, None]},
            },
        )

    def test_statistics_of_dates_and_of_lists(self) -> None:
        fields = [
            {"name": "d", "rep": "optional", "type": "int32", "note": "date"},
            {"name": "l", "rep": "repeated", "type": "int64", "note": "decimal", "precision": 9, "scale": 1},
        ]
        pqds.create("u", fields).append([{"d": dt.date(2024, 1, 2), "l": [Decimal("0.5"), Decimal(2)]}])
        found = pqds.ParquetFile("u").statistics
        self.assertEqual(found["min"], {"d": [dt.date(2024, 1, 2)], "l": [Decimal("0.5")]})
        self.assertEqual(found["max"], {"d": [dt.date(2024, 1, 2)], "l": [Decimal("2.0")]})

    def test_remove_row_groups(self) -> None:
        self.assertEqual(self.file.remove_row_groups(self.file.row_groups[0]), 2)
        self.assertEqual(self.file.remove_row_groups([1]), 1)
        self.assertEqual(self.file.count(), 0)

    def test_append_is_true_or_false(self) -> None:
        more: Any
        for more in ("overwrite", 1, 0, "", None):
            with self.subTest(append=more), self.assertRaises(ValueError) as caught:
                pqds.write("t", [{"region": "a", "order": 9}], append=more)
            self.assertEqual(str(caught.exception), f"append: expected True or False, found {more!r}")
            with self.assertRaises(ValueError):
                pqds.write("u", ORDERS, append=more)
        self.assertEqual(self.file.count(), 3)
        self.assertFalse(Path("u").exists())
        self.assertEqual(pqds.write("t", [{"region": "a", "order": 9}], append=True), 1)

    def test_there_is_no_table(self) -> None:
        with self.assertRaises(pqds.Refused):
            pqds.ParquetFile("nowhere")


@unittest.skipUnless(HAS_PANDAS, "pandas is not there")
class Frames(RoomCase):
    def frame(self) -> Any:
        return pd.DataFrame({"k": ["a", "b", "a"], "n": [1, 2, 3], "s": ["x", None, "y"]})

    def test_write_and_read(self) -> None:
        self.assertEqual(pqds.write("t", self.frame(), partition_on=["k"], required=["n"]), 3)
        file = pqds.ParquetFile("t")
        self.assertEqual(file.to_pandas(columns=["n"])["n"].tolist(), [1, 3, 2])
        self.assertEqual(file.to_pandas(filters=[("n", ">", 1)])["n"].tolist(), [3, 2])
        self.assertEqual(file.head(1)["n"].tolist(), [1])
        self.assertEqual([it["n"].tolist() for it in file.iter_row_groups()], [[1, 3], [2]])
        self.assertEqual([it["n"].tolist() for it in file.iter_row_groups([("n", "<", 2)], ["n"])], [[1]])
        self.assertEqual([it.shape for it in file.iter_row_groups(columns=[])], [(2, 0), (1, 0)])
        self.assertEqual(file.to_pandas(columns=[]).shape, (3, 0))
        self.assertEqual(file.head(2, columns=[]).shape, (2, 0))
        self.assertEqual(file.write_row_groups(self.frame()), 3)
        self.assertEqual(list(file.dtypes), ["k", "n", "s"])
        self.assertEqual(str(file.dtypes["n"]), "int64")

    def test_append_and_exists(self) -> None:
        with self.assertRaises(pqds.Refused):
            pqds.write("t", self.frame(), append=True)
        pqds.write("t", self.frame())
        with self.assertRaises(pqds.Exists):
            pqds.write("t", self.frame())
        self.assertEqual(pqds.write("t", self.frame(), append=True), 3)
        self.assertEqual(pqds.ParquetFile("t").count(), 6)

    def test_rows_are_looked_at_before_the_table_is_made(self) -> None:
        wrong = pd.DataFrame({"k": ["a", None], "n": [1, 2]})
        for there in (True, False):
            with mock.patch("pqds._arrow.is_there", return_value=there and HAS_ARROW):
                with self.assertRaises(pqds.RowShape):
                    pqds.write("t", wrong, partition_on="k")
                self.assertFalse(Path("t").exists())
                self.assertEqual(pqds.write(f"t{there}", wrong[:1], partition_on="k"), 1)
        with self.assertRaises(pqds.Key):
            pqds.write("t", pd.DataFrame({"k": [""], "n": [1]}), partition_on="k")
        self.assertEqual(pqds.write("t", wrong[:1], append=True), 1)

    @unittest.skipUnless(HAS_ARROW, "pyarrow is not there")
    def test_a_frame_goes_in_by_a_file(self) -> None:
        with mock.patch("pqds._tables.rows_of", side_effect=AssertionError("by lines")):
            self.assertEqual(pqds.write("t", self.frame(), ["k"]), 3)

    def test_the_index(self) -> None:
        frame = self.frame().set_index("n")
        with self.assertRaises(pqds.Schema):
            pqds.write("t", frame)
        pqds.write("t", frame, write_index=True)
        self.assertEqual(pqds.ParquetFile("t").columns, ["n", "k", "s"])
        pqds.write("u", frame, write_index=False)
        self.assertEqual(pqds.ParquetFile("u").columns, ["k", "s"])

    def test_floats(self) -> None:
        frame = pd.DataFrame({"price": [1.25, None]})
        with self.assertRaises(pqds.Float):
            pqds.write("t", frame)
        pqds.write("t", frame, floats={"price": 2})
        self.assertEqual(pqds.ParquetFile("t").to_pandas()["price"].tolist(), [Decimal("1.25"), None])


@unittest.skipUnless(HAS_PANDAS and FASTPARQUET, "fastparquet is not there")
class Both(RoomCase):
    def setUp(self) -> None:
        super().setUp()
        self.frame = pd.DataFrame(
            {
                "k": ["a", "b", "a", "c"],
                "n": [1, 2, 3, 4],
                "o": pd.array([1, None, 2, 5], dtype="Int64"),
                "s": ["x", None, "y", ""],
                "b": [True, False, True, True],
                "t": pd.to_datetime(
                    ["2024-01-01", "2024-01-02 03:04:05", "1969-12-31", "2000-01-01"], format="ISO8601"
                ),
                "y": [b"\x00", b"", b"z", b"zz"],
            }
        )
        pqds.write("ours", self.frame, partition_on=["k"])
        FASTPARQUET.write("theirs", self.frame, partition_on=["k"], file_scheme="hive", has_nulls=True)

    def rows(self, frame: Any) -> Any:
        """The rows as text, with the times in one zone and one kind of null."""
        frame = frame[sorted(frame.columns)].copy()
        frame["k"] = frame["k"].astype(str)
        frame["t"] = pd.to_datetime(frame["t"], utc=True).astype("datetime64[us, UTC]")
        return [[None if pd.isna(it) else it for it in row] for row in frame.itertuples(index=False, name=None)]

    def test_the_same_rows_by_both_readers(self) -> None:
        wanted = self.rows(self.frame.sort_values("k", kind="stable"))
        self.assertEqual(self.rows(pqds.ParquetFile("ours").to_pandas()), wanted)
        self.assertEqual(self.rows(FASTPARQUET.ParquetFile("ours").to_pandas()), wanted)
        self.assertEqual(self.rows(FASTPARQUET.ParquetFile("theirs").to_pandas()), wanted)

    def test_the_same_words(self) -> None:
        ours, theirs = pqds.ParquetFile("ours"), FASTPARQUET.ParquetFile("theirs")
        self.assertEqual(ours.columns, theirs.columns)
        self.assertEqual(ours.count(), theirs.count())
        self.assertEqual(ours.count([("n", ">", 2)]), theirs.count([("n", ">", 2)], row_filter=True))
        mine, yours = ours.info, theirs.info
        for word in ("columns", "partitions", "rows", "row_groups"):
            self.assertEqual(mine[word], yours[word])
        self.assertEqual(ours.head(2)["n"].tolist(), theirs.head(2)["n"].tolist())
        self.assertEqual(
            [it["n"].tolist() for it in ours.iter_row_groups()], [it["n"].tolist() for it in theirs.iter_row_groups()]
        )
        for word in ("min", "max", "null_count"):
            self.assertEqual(ours.statistics[word]["n"], list(theirs.statistics[word]["n"]))

    def test_filters_hold_for_rows(self) -> None:
        # fastparquet keeps whole groups, or with row_filter=True the rows for which one term of a single list holds. So
        # the measure is pandas, and fastparquet where it has a list of lists.
        ours, theirs = pqds.ParquetFile("ours"), FASTPARQUET.ParquetFile("theirs")
        n, s, k = (self.frame[it] for it in "nsk")
        cases: List[Tuple[Any, Any]] = [
            ([[("n", ">", 1), ("n", "<=", 3)]], (n > 1) & (n <= 3)),
            ([[("n", "==", 1)], [("s", "==", "y")]], (n == 1) | (s == "y")),
            ([[("n", "in", [1, 4])]], n.isin([1, 4])),
            ([[("s", "!=", "x")]], s.notna() & (s != "x")),
            ([("n", ">", 1), ("n", "<=", 3)], (n > 1) & (n <= 3)),
            ([("n", "not in", [1, 4])], ~n.isin([1, 4])),
            ([("k", "==", "a")], k == "a"),
        ]
        for filters, mask in cases:
            with self.subTest(filters=filters):
                wanted = self.frame[mask].sort_values("k", kind="stable")["n"].tolist()
                self.assertEqual(ours.to_pandas(columns=["n"], filters=filters)["n"].tolist(), wanted)
                if isinstance(filters[0], list):
                    found = theirs.to_pandas(columns=["n", "s"], filters=filters, row_filter=True)
                    self.assertEqual(found["n"].tolist(), wanted)


if __name__ == "__main__":
    unittest.main()
