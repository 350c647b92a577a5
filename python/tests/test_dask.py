"""A table as a frame of Dask. Where Dask is not there, the tests are skipped."""

from __future__ import annotations

import datetime as dt
import importlib
import importlib.util
import unittest
from decimal import Decimal
from pathlib import Path
from typing import Any, List

from support import RoomCase

import pqds

HAS_DASK = all(importlib.util.find_spec(it) is not None for it in ("dask", "pandas", "pyarrow"))

FIELDS: List[Any] = [
    {"name": "k", "rep": "required", "type": "bytes", "note": "utf8"},
    {"name": "y", "rep": "required", "type": "int32"},
    {"name": "n", "rep": "optional", "type": "int64"},
    {"name": "d", "rep": "optional", "type": "int32", "note": "date"},
    {"name": "t", "rep": "optional", "type": "int64", "note": "timestamp_micros"},
    {"name": "p", "rep": "optional", "type": "int64", "note": "decimal", "precision": 9, "scale": 2},
]


@unittest.skipUnless(HAS_DASK, "Dask is not there")
class Dask(RoomCase):
    def setUp(self) -> None:
        super().setUp()
        self.dask = importlib.import_module("dask")
        self.table = pqds.create("t=1", FIELDS, ["k", "y"])
        self.table.append(
            [
                {"k": "a b/ü=%", "y": 1, "n": 1, "d": dt.date(2024, 1, 1), "p": Decimal("0.5")},
                {"k": "1", "y": 2, "t": dt.datetime(2024, 1, 1)},
                {"k": "1", "y": -1, "n": 3},
            ]
        )
        self.table.add_column({"name": "s", "type": "bytes", "note": "utf8"})
        self.table.append([{"k": "1", "y": 2, "n": 7, "s": "x", "t": dt.datetime(2024, 1, 2)}])

    def rows(self, frame: Any) -> Any:
        with self.dask.config.set(scheduler="synchronous"):
            found = frame.compute()
        return self.sorted(found.itertuples(index=False, name=None))

    def wanted(self, filters: Any = None, columns: Any = None) -> Any:
        return self.sorted(it.values() for it in self.table.rows(filters, columns))

    def sorted(self, rows: Any) -> Any:
        """Rows with one kind of null, in one order."""
        pd = importlib.import_module("pandas")
        kinds = {pd.Timestamp: "to_pydatetime"}
        plain = [
            [None if pd.isna(it) else getattr(it, kinds.get(type(it), "item"), lambda it=it: it)() for it in row]
            for row in rows
        ]
        return sorted(plain, key=lambda row: [str(it) for it in row])

    def test_the_same_rows_and_types(self) -> None:
        with pqds.dask.reading("t=1") as frame:
            self.assertEqual(list(frame.columns), [it["name"] for it in self.table.schema()])
            self.assertEqual(frame.npartitions, 4)
            self.assertEqual(self.rows(frame), self.wanted())
            found = frame.compute().reset_index(drop=True)
        pandas = importlib.import_module("pandas")
        pandas.testing.assert_frame_equal(found, self.table.to_pandas())

    def test_the_same_filters(self) -> None:
        cases: List[Any] = [
            [("k", "==", "1")],
            [("y", ">", 0), ("n", "<", 5)],
            [[("n", "=", 3)], [("y", "==", 2), ("s", "==", "x")]],
            [("n", "in", [1, 7])],
            [("n", "not in", [1])],
            [("n", "!=", 1)],
            [("d", "<=", dt.date(2024, 1, 1))],
            [("t", ">", dt.datetime(2024, 1, 1))],
            [("p", "==", Decimal("0.5"))],
            [],
        ]
        for filters in cases:
            with self.subTest(filters=filters), pqds.dask.reading("t=1", filters, ["n", "k"]) as frame:
                self.assertEqual(self.rows(frame), self.wanted(filters, ["n", "k"]))

    def test_rows_without_columns(self) -> None:
        for filters, count in ((None, 4), ([("n", "==", 3)], self.table.count([("n", "==", 3)])), ([("n", "<", 0)], 0)):
            with self.subTest(filters=filters), pqds.dask.reading("t=1", filters, []) as frame:
                self.assertEqual(frame.compute().shape, (count, 0))

    def test_changes_are_not_seen(self) -> None:
        with pqds.dask.reading("t=1") as frame:
            wanted = self.wanted()
            self.assertEqual(self.table.remove([("n", ">", 0)]), 3)
            self.table.add_column({"name": "more", "type": "boolean"})
            self.assertEqual(self.rows(frame), wanted)
        self.assertEqual(self.table.count(), 1)
        with pqds.dask.reading("t=1") as frame:
            self.assertEqual(self.rows(frame), self.wanted())

    def test_changes_wait_where_the_folder_has_no_lock(self) -> None:
        Path("t=1/_lock").unlink()
        with pqds.dask.reading("t=1") as frame:
            with self.assertRaises(pqds.Device):
                pqds.open("t=1", wait=False).remove([])
            self.assertEqual(len(frame), 4)
            self.assertEqual(pqds.open("t=1", wait=False).count(), 4)
        self.assertEqual(self.table.remove([]), 4)

    def test_a_table_without_rows(self) -> None:
        self.table.remove([])
        with pqds.dask.reading("t=1", columns=["n"]) as frame:
            self.assertEqual((len(frame), list(frame.columns)), (0, ["n"]))

    def test_refusals(self) -> None:
        with self.assertRaises(pqds.NoColumn), pqds.dask.reading("t=1", [("x", "==", 1)]):
            pass
        with self.assertRaises(pqds.Refused), pqds.dask.reading("nowhere"):
            pass


if __name__ == "__main__":
    unittest.main()
