"""Frames of pandas and tables of pyarrow, both ways. Where one of the two is not there, its tests are skipped."""

from __future__ import annotations

import datetime as dt
import importlib.util
import os
import subprocess
import sys
import unittest
from decimal import Decimal
from pathlib import Path
from typing import Any, Dict, List
from unittest import mock

from support import TOP, RoomCase

import pqds

HAS_PANDAS = importlib.util.find_spec("pandas") is not None
HAS_ARROW = importlib.util.find_spec("pyarrow") is not None

if HAS_PANDAS:
    import numpy as np
    import pandas as pd
if HAS_ARROW:
    import pyarrow as pa
    import pyarrow.parquet as pq

UTC = dt.timezone.utc
CENTS = {"type": "int64", "note": "decimal", "precision": 18, "scale": 2}
SCHEMA: List[Dict[str, Any]] = [
    {"name": "n", "rep": "required", "type": "int64"},
    {"name": "d", "rep": "optional", "type": "int32", "note": "date"},
    {"name": "s", "rep": "optional", "type": "bytes", "note": "utf8"},
    {"name": "t", "rep": "optional", "type": "int64", "note": "timestamp_micros"},
    {"name": "p", "rep": "optional", **CENTS},
    {"name": "o", "rep": "optional", "type": "int32"},
]


def make_frame() -> Any:
    return pd.DataFrame(
        {
            "k": ["a", "b", "a"],
            "n": [1, 2, 3],
            "i8": np.array([1, 2, -3], dtype="int8"),
            "u64": np.array([1, 2, 2**64 - 1], dtype="uint64"),
            "o": pd.array([1, None, 2], dtype="Int64"),
            "b": pd.array([True, None, False], dtype="boolean"),
            "t": pd.to_datetime(["2024-01-01 10:00:00.000001", None, "1969-01-01"], format="ISO8601"),
            "z": pd.to_datetime(["2024-01-01", None, "1969-01-01"]).tz_localize("Europe/Berlin"),
            "s": ["x", None, ""],
            "x": [b"x", b"", None],
            "d": [dt.date(2024, 1, 1), None, dt.date(1, 1, 1)],
            "m": [dt.time(1, 2, 3, 4), None, None],
            "p": [1.25, None, -3.5],
        }
    )


ROWS: List[Dict[str, Any]] = [
    {"k": "a", "n": 1, "i8": 1, "u64": 1, "o": 1, "b": True, "t": dt.datetime(2024, 1, 1, 10, 0, 0, 1, UTC),
     "z": dt.datetime(2023, 12, 31, 23, tzinfo=UTC), "s": "x", "x": b"x", "d": dt.date(2024, 1, 1),
     "m": dt.time(1, 2, 3, 4), "p": Decimal("1.25")},
    {"k": "a", "n": 3, "i8": -3, "u64": 2**64 - 1, "o": 2, "b": False, "t": dt.datetime(1969, 1, 1, tzinfo=UTC),
     "z": dt.datetime(1968, 12, 31, 23, tzinfo=UTC), "s": "", "x": None, "d": dt.date(1, 1, 1), "m": None,
     "p": Decimal("-3.50")},
    {"k": "b", "n": 2, "i8": 2, "u64": 2, "o": None, "b": None, "t": None, "z": None, "s": None, "x": b"", "d": None,
     "m": None, "p": None},
]  # fmt: skip


def without_arrow() -> Any:
    """As if pyarrow were not there."""
    return mock.patch("pqds._arrow.is_there", return_value=False)


@unittest.skipUnless(HAS_PANDAS, "pandas is not there")
class Frames(RoomCase):
    def test_a_frame_goes_in_by_lines(self) -> None:
        with without_arrow():
            table = pqds.create("t", make_frame(), ["k"], floats={"p": 2})
            self.assertEqual(table.append(make_frame(), floats={"p": 2}), 3)
        self.assertEqual(list(table.rows()), ROWS)

    @unittest.skipUnless(HAS_ARROW, "pyarrow is not there")
    def test_a_frame_goes_in_by_a_file(self) -> None:
        table = pqds.create("t", make_frame(), ["k"], floats={"p": 2})
        with mock.patch("pqds._tables.rows_of", side_effect=AssertionError("by lines")):
            self.assertEqual(table.append(make_frame(), floats={"p": 2}), 3)
        self.assertEqual(list(table.rows()), ROWS)

    def test_what_comes_out_goes_in(self) -> None:
        table = pqds.create("t", make_frame(), ["k"], floats={"p": 2})
        table.append(make_frame(), floats={"p": 2})
        frame = table.to_pandas()
        self.assertEqual(table.append(frame), 3)
        pd.testing.assert_frame_equal(table.to_pandas([("n", ">", 0)], limit=2), frame[:2])
        with without_arrow():
            self.assertEqual(table.append(frame), 3)
        rows = list(table.rows())
        self.assertEqual(sorted(map(str, rows)), sorted(map(str, ROWS * 3)))

    def test_types_are_those_of_the_columns(self) -> None:
        table = pqds.create("t", make_frame(), ["k"], required=["n"], floats={"p": 2})
        for frame in (table.to_pandas(), make_then_read(table)):
            kinds = {name: str(kind) for name, kind in frame.dtypes.items()}
            text = str(pd.Series(["a"]).dtype)
            self.assertEqual(kinds, {
                "k": text, "n": "int64", "i8": "Int8", "u64": "UInt64", "o": "Int64", "b": "boolean",
                "t": "datetime64[us, UTC]", "z": "datetime64[us, UTC]", "s": text, "x": "object", "d": "object",
                "m": "object", "p": "object",
            })  # fmt: skip

    def test_many_rows_come_in_parts(self) -> None:
        table = pqds.create("t", [SCHEMA[0], SCHEMA[2]])
        table.append(pd.DataFrame({"n": range(100_000), "s": ["text"] * 100_000}))
        frame = table.to_pandas()
        self.assertEqual((len(frame), int(frame["n"].sum()), frame.index[-1]), (100_000, 4_999_950_000, 99_999))
        self.assertEqual(len(table.to_pandas(limit=70_000)), 70_000)

    def test_no_columns_of_many_rows(self) -> None:
        for there in (True, False):
            table = pqds.create(f"t{there}", SCHEMA[1:3])
            with mock.patch("pqds._arrow.is_there", return_value=there and HAS_ARROW):
                self.assertEqual(table.to_pandas(columns=[]).shape, (0, 0))
                table.append(pd.DataFrame({"s": [f"text {it}" for it in range(70_000)]}))
                frame = table.to_pandas(columns=[])
                pd.testing.assert_index_equal(frame.index, pd.RangeIndex(70_000))
                self.assertEqual(list(frame.columns), [])
                self.assertEqual(table.to_pandas([("s", "<", "text 2")], [], 3).shape, (3, 0))
                self.assertEqual(table.append(frame[:2]), 2)
                self.assertEqual(list(table.rows())[-2:], [{"d": None, "s": None}] * 2)
                self.assertEqual(table.append(frame[:0]), 0)

    def test_integers_with_nulls_are_floats_in_pandas(self) -> None:
        table = pqds.create("t", SCHEMA)
        frame = pd.DataFrame({"n": [1.0, 2.0], "o": [None, 5.0]})
        for context in (mock.patch.dict({}), without_arrow()):
            with context:
                self.assertEqual(table.append(frame), 2)
        self.assertEqual([it["o"] for it in table.rows()], [None, 5, None, 5])

    def test_values_that_a_column_cannot_hold(self) -> None:
        table = pqds.create("t", SCHEMA)
        for columns, kind, why in (
            ({"n": [1, None]}, pqds.RowShape, "REQUIRED"),
            ({"n": [1.5]}, pqds.RowShape, "integer"),
            ({"n": [True]}, pqds.RowShape, "integer"),
            ({"n": ["1"]}, pqds.RowShape, "integer"),
            ({"n": [1], "x": [1]}, pqds.RowShape, "'x'"),
            ({"s": ["x"]}, pqds.RowShape, "REQUIRED"),
            ({"n": [1], "o": [1 << 31]}, pqds.RowShape, "o: "),
            ({"n": [1], "d": pd.to_datetime(["2024-01-01"])}, pqds.RowShape, "date"),
            ({"n": [1], "t": pd.to_datetime(["2024-01-01 00:00:00.000000001"])}, pqds.RowShape, "t: "),
            ({"n": [1], "t": [dt.date(2024, 1, 1)]}, pqds.RowShape, "datetime"),
            ({"n": [1], "s": [5]}, pqds.RowShape, "text"),
            ({"n": [1, 2], "s": ["a", b"b"]}, pqds.RowShape, "row 2: s: expected text"),
            ({"n": [1, 2], "s": ["a", "\ud800"]}, pqds.RowShape, "row 2: s: expected text"),
            ({"n": [1.0, float("inf")]}, pqds.RowShape, "row 2: n: expected an integer"),
            ({"n": [1, 2], "o": [None, 3e9]}, pqds.RowShape, "row 2: o: expected an integer from"),
            ({"n": [1], "p": [1.5]}, pqds.Float, "floats={'p': 2}"),
            ({"n": [1], "s": pd.Categorical(["a"])}, pqds.RowShape, "categories"),
        ):
            for context in (mock.patch.dict({}), without_arrow()):
                with self.subTest(columns=columns, context=context), context:
                    with self.assertRaises(kind) as caught:
                        table.append(pd.DataFrame(columns))
                    self.assertIn(why, caught.exception.reason)
        self.assertEqual(table.count(), 0)

    def test_floats_that_would_lose_digits(self) -> None:
        table = pqds.create("t", SCHEMA)
        for context in (mock.patch.dict({}), without_arrow()):
            for value in (1.555, 0.1 + 0.2, float("inf"), 1e17):
                with self.subTest(value=value, context=context), context, self.assertRaises(pqds.RowShape):
                    table.append(pd.DataFrame({"n": [1], "p": [value]}), floats={"p": 2})
            with context:
                single = pd.DataFrame({"n": [1], "p": np.array([1.1], dtype="float32")})
                self.assertEqual(table.append(single, floats={"p": 2}), 1)
        self.assertEqual({it["p"] for it in table.rows()}, {Decimal("1.10")})

    def test_columns_that_no_table_has(self) -> None:
        for columns, kind, why in (
            ({"x": [1.5]}, pqds.Float, "floats={'x': 2}"),
            ({"x": pd.Categorical(["a"])}, pqds.Schema, "astype"),
            ({"x": [None]}, pqds.Schema, "only nulls"),
            ({"x": [1, "a"]}, pqds.Schema, "int and str"),
            ({"x": [[1]]}, pqds.Schema, "list"),
            ({"x": pd.to_timedelta([1])}, pqds.Schema, "timedelta64"),
            ({5: [1]}, pqds.Schema, "names of columns"),
        ):
            with self.subTest(columns=columns), self.assertRaises(kind) as caught:
                pqds.create("t", pd.DataFrame(columns))
            self.assertIn(why, caught.exception.reason)

    def test_an_index_is_no_column(self) -> None:
        frame = pd.DataFrame({"n": [1, 2]})
        for indexed in (frame[frame["n"] > 1].set_index("n"), pd.DataFrame({"n": [1]}, index=["a"])):
            with self.assertRaises(pqds.Schema) as caught:
                pqds.create("t", indexed)
            self.assertIn("reset_index()", caught.exception.reason)


def make_then_read(table: pqds.Dataset) -> Any:
    table.append(make_frame(), floats={"p": 2})
    return table.to_pandas()


@unittest.skipUnless(HAS_ARROW, "pyarrow is not there")
class Arrow(RoomCase):
    def nested(self) -> Any:
        return pa.table(
            {
                "id": pa.array([1, 2, 3]),
                "l": pa.array([[1, None], [], None], pa.list_(pa.int32())),
                "m": pa.array([[("a", 1)], [], None], pa.map_(pa.string(), pa.int64())),
                "g": pa.array(
                    [{"x": dt.date(2024, 1, 1), "y": "q"}, None, {"x": None, "y": None}],
                    pa.struct([("x", pa.date32()), ("y", pa.string())]),
                ),
                "t": pa.array([dt.datetime(2024, 1, 1), None, None], pa.timestamp("us", "UTC")),
                "d": pa.array([Decimal("1.50"), None, Decimal("-2.25")], pa.decimal128(5, 2)),
                "w": pa.array([Decimal("1.50"), None, Decimal("-2.25")], pa.decimal128(30, 2)),
                "e": pa.array([[dt.datetime(2024, 1, 1)], None, [None]], pa.list_(pa.timestamp("ms", "UTC"))),
                "f": pa.array([b"abc", None, b"def"], pa.binary(3)),
                "m2": pa.array([dt.time(1), None, dt.time(2, 0, 0, 5000)], pa.time32("ms")),
            }
        )

    def test_a_table_comes_back(self) -> None:
        wanted = self.nested()
        table = pqds.create("t", wanted)
        with mock.patch("pqds._tables.rows_of", side_effect=AssertionError("by lines")):
            self.assertEqual(table.append(wanted), 3)
        self.assertTrue(table.to_arrow().equals(wanted))
        self.assertTrue(table.to_arrow([("id", ">", 1)], ["l", "id"]).equals(wanted.slice(1).select(["l", "id"])))

    def test_a_table_goes_in_by_lines(self) -> None:
        wanted = self.nested()
        table = pqds.create("t", wanted)
        with mock.patch("pqds._arrow.can_hold", return_value=False):
            self.assertEqual(table.append(wanted), 3)
        self.assertTrue(table.to_arrow().equals(wanted))

    def test_batches_and_readers(self) -> None:
        wanted = self.nested()
        table = pqds.create("t", wanted.schema)
        self.assertEqual(table.append(wanted.to_batches()), 3)
        self.assertEqual(table.append(wanted.to_batches()[0]), 3)
        self.assertEqual(table.append(wanted.to_reader()), 3)
        with mock.patch("pqds._arrow.can_hold", return_value=False):
            self.assertEqual(table.append(wanted.to_reader()), 3)
        self.assertEqual(table.count([("id", "==", 3)]), 4)

    def test_write_takes_what_can_be_read_once(self) -> None:
        wanted = self.nested()
        self.assertEqual(pqds.write("t", wanted.to_reader()), 3)
        self.assertEqual(pqds.write("u", wanted.to_batches()), 3)
        self.assertTrue(pqds.open("t").to_arrow().equals(wanted))

        class Stream:
            """Another library's table: it has no more than Arrow's protocol."""

            def __arrow_c_stream__(self, requested_schema: Any = None) -> Any:
                return wanted.__arrow_c_stream__(requested_schema)

        self.assertEqual(pqds.write("v", Stream()), 3)
        self.assertTrue(pqds.open("v").to_arrow().equals(wanted))

    def test_no_columns_of_many_rows(self) -> None:
        table = pqds.create("t", SCHEMA[1:3])
        self.assertEqual(table.to_arrow(columns=[]).shape, (0, 0))
        table.append([{"s": f"text {it}"} for it in range(70_000)])
        found = table.to_arrow(columns=[])
        self.assertEqual((found.shape, found.column_names), ((70_000, 0), []))
        self.assertEqual(table.to_arrow([("s", "<", "text 2")], [], 3).shape, (3, 0))
        self.assertEqual(table.append(found[:2]), 2)
        self.assertEqual(list(table.rows())[-2:], [{"d": None, "s": None}] * 2)

    def test_null_columns_of_a_schema(self) -> None:
        schema = pa.schema([pa.field("k", pa.string()), pa.field("n", pa.int32(), nullable=False), ("o", pa.int64())])
        table = pqds.create("t", schema, ["k"])
        self.assertEqual([it["rep"] for it in table.schema()], ["required", "required", "optional"])
        self.assertEqual(pqds.create("u", schema.empty_table()).schema()[1]["rep"], "optional")
        table.add_column(pa.field("more", pa.date32()))
        self.assertEqual(table.schema()[3]["note"], "date")
        self.assertEqual(
            table.append(pa.table({"n": [1], "k": ["a"]}).cast(pa.schema({"n": pa.int32(), "k": "string"}))), 1
        )
        self.assertEqual(table.to_arrow().to_pylist(), [{"k": "a", "n": 1, "o": None, "more": None}])

    def test_other_types_of_the_same_values(self) -> None:
        table = pqds.create("t", SCHEMA)
        berlin = pa.array([dt.datetime(2024, 1, 1)], pa.timestamp("ns", "Europe/Berlin"))
        given = pa.table({"n": pa.array([1], pa.int8()), "s": pa.array(["x"], pa.large_string()), "t": berlin,
                          "p": pa.array([5]), "d": pa.nulls(1)})  # fmt: skip
        self.assertEqual(table.append(given), 1)
        row = next(table.rows())
        self.assertEqual((row["p"], row["t"]), (Decimal("5.00"), dt.datetime(2024, 1, 1, tzinfo=UTC)))

    def test_values_that_a_column_cannot_hold(self) -> None:
        table = pqds.create("t", SCHEMA)
        for columns, kind, why in (
            ({"n": ["1"]}, pqds.RowShape, "integer"),
            ({"n": [1.0]}, pqds.RowShape, "integer"),
            ({"n": [1, None]}, pqds.RowShape, "REQUIRED"),
            ({"n": pa.array([2**63], pa.uint64())}, pqds.RowShape, "n: "),
            ({"n": [1], "d": [dt.datetime(2024, 1, 1, 5)]}, pqds.RowShape, "date"),
            ({"n": [1], "s": pa.array(["a"]).dictionary_encode()}, pqds.RowShape, "categories"),
            ({"n": [1], "s": [["a"]]}, pqds.RowShape, "text"),
            ({"n": [1], "p": [1.25]}, pqds.Float, "floats={'p': 2}"),
        ):
            with self.subTest(columns=columns), self.assertRaises(kind) as caught:
                table.append(pa.table(columns))
            self.assertIn(why, caught.exception.reason)
        self.assertEqual(table.append(pa.table({"n": [1], "p": [1.25]}), floats={"p": 2}), 1)

    def test_nulls_and_texts_in_nested_columns(self) -> None:
        inner = pa.field("element", pa.int32(), nullable=False)
        table = pqds.create("t", pa.schema([("l", pa.list_(inner))]))
        self.assertEqual(table.append(pa.table({"l": pa.array([[1, 2], None], pa.list_(pa.int32()))})), 2)
        with self.assertRaises(pqds.RowShape):
            table.append(pa.table({"l": pa.array([[1, None]], pa.list_(pa.int32()))}))
        with self.assertRaises(pqds.RowShape):
            table.append(pa.table({"l": [["1"]]}))
        self.assertEqual(table.count(), 2)

    def test_notes_that_pyarrow_does_not_have(self) -> None:
        fields = [
            {"name": "e", "rep": "required", "type": "bytes", "note": "enum"},
            {"name": "n", "rep": "required", "type": "int32", "note": "int_32"},
        ]
        table = pqds.create("t", fields)
        self.assertEqual(table.append(pa.table({"n": pa.array([1], pa.int32()), "e": ["A"]})), 1)
        self.assertEqual(list(table.rows()), [{"e": "A", "n": 1}])

    def test_columns_that_no_table_has(self) -> None:
        for kind, error, why in (
            (pa.float64(), pqds.Float, "floats={'x': 2}"),
            (pa.list_(pa.float32()), pqds.Float, "cast"),
            (pa.duration("us"), pqds.Schema, "duration"),
            (pa.dictionary(pa.int8(), pa.string()), pqds.Schema, "categories"),
            (pa.null(), pqds.Schema, "null"),
        ):
            with self.subTest(kind=kind), self.assertRaises(error) as caught:
                pqds.create("t", pa.schema([("x", kind)]))
            self.assertIn(why, caught.exception.reason)

    def test_rows_come_out_by_a_file(self) -> None:
        wanted = self.nested()
        table = pqds.create("t", wanted.schema, required=["id"])
        table.append(wanted)
        with mock.patch("pqds.Dataset._batches", side_effect=AssertionError("by lines")):
            self.assertEqual(table.to_arrow().to_pylist(), wanted.to_pylist())
            self.assertEqual(table.to_arrow([("id", "==", 2)], ["f", "id"]).to_pylist(), [{"f": None, "id": 2}])
            self.assertEqual(table.to_arrow([("id", ">", 9)]).schema, table.to_arrow().schema)
            if HAS_PANDAS:
                self.assertEqual(table.to_pandas(columns=["id", "l"])["l"].tolist(), [[1, None], [], None])
        self.assertEqual(table.to_arrow([("id", ">", 1)], ["f", "id"], 1).to_pylist(), [{"f": None, "id": 2}])
        self.assertEqual(table.to_arrow(limit=0).num_rows, 0)
        with without_arrow():
            self.assertEqual(table.to_arrow().to_pylist(), wanted.to_pylist())

    @unittest.skipUnless(HAS_PANDAS, "pandas is not there")
    def test_frames_are_the_same_by_a_file_and_by_lines(self) -> None:
        table = pqds.create("t", make_frame(), ["k"], required=["n", "i8"], floats={"p": 2})
        table.append(make_frame(), floats={"p": 2})
        table.add_column(pa.field("more", pa.bool_()))
        for filters in (None, [("n", ">", 1)], [("n", "<", 0)]):
            with without_arrow():
                lines = table.to_pandas(filters)
            with mock.patch("pqds.Dataset._batches", side_effect=AssertionError("by lines")):
                pd.testing.assert_frame_equal(table.to_pandas(filters), lines)

    def test_rows_of_several_files_have_the_order_of_their_numbers(self) -> None:
        table = pqds.create("t", SCHEMA[:1])
        table.append([{"n": it} for it in range(3)])
        for number in (0, 1, 2, 10):
            pqds.encode(SCHEMA[:1], [{"n": 10 * number + it} for it in range(2)], f"part.{number}.parquet")
        found: List[Any] = []
        copy = f'while [ "$1" != --out ]; do shift; done; exec cp {Path.cwd()}/part.*.parquet "$2"'
        with mock.patch("pqds.Dataset._batches", side_effect=AssertionError("by lines")):
            words = self.words_of("query", lambda: found.append(table.to_arrow()), copy)
            self.assertEqual(table.to_arrow()["n"].to_pylist(), [0, 1, 2])
        self.assertEqual(found[0]["n"].to_pylist(), [0, 1, 10, 11, 20, 21, 100, 101])
        self.assertEqual(words.count("query"), 1)
        self.assertFalse(Path(words[words.index("--out") + 1]).exists())

    def test_numbers_outside_of_their_range_come_as_lines(self) -> None:
        notes = {"i": "int_8", "u": "uint_16", "d": "date", "m": "time_millis"}
        table = pqds.create("t", [{"name": it, "rep": "optional", "type": "int32", "note": notes[it]} for it in notes])
        table.append([{"i": 300}, {"u": 70_000}, {"d": 1 << 30}, {"m": 86_400_000}], raw=True)
        for name in "iu":
            with self.assertRaises((pa.ArrowInvalid, OverflowError)):
                table.to_arrow(columns=[name])
        self.assertEqual(table.to_arrow(columns=["m"])["m"].cast(pa.int32()).to_pylist(), [None] * 3 + [86_400_000])
        if HAS_PANDAS:
            for name in "dm":
                with self.assertRaises(ValueError) as caught:
                    table.to_pandas(columns=[name])
                self.assertIn("raw=True", str(caught.exception))
        table.append([{"i": -128, "u": 65535, "d": 0, "m": 86_399_999}], raw=True)
        with mock.patch("pqds.Dataset._batches", side_effect=AssertionError("by lines")):
            self.assertEqual(table.to_arrow([("i", "<", 0)], ["u"]).to_pylist(), [{"u": 65535}])

    def test_refusals_and_rows_that_are_too_much_for_a_file(self) -> None:
        table = pqds.create("t", SCHEMA[:1])
        table.append([{"n": 7}])
        with self.assertRaises(pqds.Truncated):
            self.words_of("query", table.to_arrow, "echo refused 1 Truncated >&2; exit 1")
        found: List[Any] = []
        limit = 'case "$*" in *--out*) echo refused 13 Limit >&2; exit 1;; *) echo \'{"n":7}\';; esac'
        self.words_of("query", lambda: found.append(table.to_arrow()), limit)
        self.assertEqual(found[0]["n"].to_pylist(), [7])

    def test_other_tools_read_the_table(self) -> None:
        pqds.create("t", self.nested()).append(self.nested())
        part = pq.read_table("t/part.0.parquet")
        self.assertEqual(part.drop_columns(["m2"]).to_pylist(), self.nested().drop_columns(["m2"]).to_pylist())


class Without(RoomCase):
    def test_the_module_needs_neither(self) -> None:
        hide = "import sys; sys.modules.update(pandas=None, pyarrow=None, numpy=None)"
        script = f"{hide}; import pqds; print(pqds.__version__)"
        words = [sys.executable, "-B", "-c", script]
        environment = {**os.environ, "PYTHONPATH": str(TOP / "python")}
        done = subprocess.run(words, env=environment, capture_output=True, text=True, check=True)
        self.assertEqual(done.stdout.strip(), pqds.__version__)


if __name__ == "__main__":
    unittest.main()
