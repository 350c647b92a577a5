"""Single files: made, read, looked into, and brought into a table."""

from __future__ import annotations

import unittest
from pathlib import Path

from support import ORDERS, TOP, RoomCase

import pqds

ROWS = [{"region": "north", "order": 1, "cents": None}, {"region": "", "order": 2, "cents": 5}]


class Files(RoomCase):
    def test_encode_and_decode(self) -> None:
        pqds.encode(ORDERS, ROWS, "f.parquet", style="delta", page_version=2)
        self.assertEqual(list(pqds.decode("f.parquet")), ROWS)
        self.assertEqual(pqds.file_schema(Path("f.parquet")), ORDERS)
        self.assertEqual(pqds.inspect("f.parquet")["rows"], 2)
        self.assertEqual(sorted(next(pqds.decode("f.parquet", raw=True))), ["cents", "order", "region"])

    def test_the_first_rows_of_a_file(self) -> None:
        pqds.encode(ORDERS, ROWS, "f.parquet")
        self.assertEqual(list(pqds.decode("f.parquet", limit=1)), ROWS[:1])
        self.assertEqual(list(pqds.decode("f.parquet", limit=0)), [])
        words = self.words_of("decode", lambda: list(pqds.decode("f.parquet", limit=5)))
        self.assertEqual(words[words.index("--limit") + 1], "5")

    def test_encode_replaces_no_file(self) -> None:
        Path("f.parquet").write_text("mine")
        with self.assertRaises(pqds.Exists):
            pqds.encode(ORDERS, ROWS, "f.parquet")
        self.assertEqual(Path("f.parquet").read_text(), "mine")

    def test_encode_makes_nothing_of_wrong_rows(self) -> None:
        with self.assertRaises(pqds.RowShape):
            pqds.encode(ORDERS, [*ROWS, {"region": "x"}], "f.parquet")
        self.assertFalse(Path("f.parquet").exists())

    def test_decode_refuses(self) -> None:
        Path("f.parquet").write_text("no Parquet file at all")
        with self.assertRaises(pqds.Magic):
            list(pqds.decode("f.parquet"))
        with self.assertRaises(pqds.Device):
            pqds.inspect("nowhere")

    def test_files_of_other_tools(self) -> None:
        rows = list(pqds.decode(TOP / "sample/pyarrow.parquet"))
        self.assertEqual(rows[0], {"id": 1, "note": "axle", "tags": ["a", None]})
        rows = list(pqds.decode(TOP / "sample/nested.parquet"))
        self.assertEqual((rows[0]["l"], rows[0]["m"]), ([5, None], [("a", 1), ("b", None)]))

    def test_import_files(self) -> None:
        table = pqds.create("t", ORDERS)
        pqds.encode(ORDERS, ROWS, "one")
        pqds.encode(ORDERS, ROWS[:1], "two")
        self.assertEqual(table.import_files("one"), 2)
        self.assertEqual(table.import_files(Path("two")), 1)
        self.assertEqual(table.import_files(["one", "two"]), 3)
        self.assertEqual(table.import_files([]), 0)
        self.assertEqual(table.count(), 6)

    def test_import_unless_a_row_satisfies(self) -> None:
        table = pqds.create("t", ORDERS)
        pqds.encode(ORDERS, ROWS, "one")
        for done in (2, 0):
            self.assertEqual(table.import_files("one", unless=[("order", "==", 2)]), done)
        self.assertEqual(table.import_files(["one"], [("order", "==", 3)]), 2)
        with self.assertRaises(pqds.NoColumn):
            table.import_files("one", [("colour", "==", "red")])
        pqds.encode(ORDERS, [{"region": "east", "order": 9}], "more")
        for done in (3, 0):
            self.assertEqual(table.import_files(["one", "more"], [("order", "==", 9)]), done)
        self.assertEqual(table.import_files([], [("order", "==", 3)]), 0)
        self.assertEqual(table.count(), 7)

    def test_several_files_are_one_commit(self) -> None:
        table = pqds.create("t", ORDERS)
        for number in range(3):
            pqds.encode(ORDERS, [{"region": "x", "order": 2 - number}], f"f{number}")
        words = self.words_of("import", lambda: table.import_files(["f2", Path("f0"), "f1"]), "echo done 3")
        self.assertEqual(words[-3:], ["f2", "f0", "f1"])
        self.assertEqual(words.count("import"), 1)
        self.assertEqual(table.import_files(it for it in ("f2", "f0", "f1")), 3)
        self.assertEqual([it["order"] for it in table.rows()], [0, 2, 1])

    def test_where_one_file_is_refused_none_comes_in(self) -> None:
        table = pqds.create("t", ORDERS)
        pqds.encode(ORDERS, ROWS, "one")
        pqds.encode(ORDERS[1:], [{"order": 1}], "other")
        with self.assertRaises(pqds.Schema) as caught:
            table.import_files(["one", "other", "one"])
        self.assertIn("other: the file has", caught.exception.reason)
        self.assertEqual(table.count(), 0)
        for files in ("nowhere", ["one", "nowhere"]):
            with self.assertRaises(pqds.Device) as absent:
                table.import_files(files)
            self.assertIn("nowhere", absent.exception.reason)
        self.assertEqual(table.count(), 0)

    def test_more_files_than_one_call_can_name(self) -> None:
        table = pqds.create("t", ORDERS)
        with self.assertRaises(pqds.Limit):
            table.import_files(["x" * 200] * 10_000)
        pqds.encode(ORDERS, ROWS[:1], "one")
        self.assertEqual(table.import_files(["one"] * 5000), 5000)
        self.assertEqual(len(table.groups()), 1)


if __name__ == "__main__":
    unittest.main()
