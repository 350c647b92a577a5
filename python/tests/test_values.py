"""Values of each type of column, to the program and back, and those that a column cannot hold."""

from __future__ import annotations

import datetime as dt
import unittest
from decimal import Decimal
from typing import Any, Dict, List, Tuple

from support import RoomCase

import pqds

UTC = dt.timezone.utc
INT32, INT64, BYTES = {"type": "int32"}, {"type": "int64"}, {"type": "bytes"}
CENTS = {"type": "int64", "note": "decimal", "precision": 18, "scale": 2}

# A type, a value of it, and what comes back where that is another.
KEPT: List[Tuple[Dict[str, Any], Any, Any]] = [
    ({"type": "boolean"}, True, True),
    (INT32, -(1 << 31), -(1 << 31)),
    (INT64, (1 << 63) - 1, (1 << 63) - 1),
    ({"type": "int32", "note": "int_8"}, -128, -128),
    ({"type": "int32", "note": "uint_32"}, (1 << 32) - 1, (1 << 32) - 1),
    ({"type": "int64", "note": "uint_64"}, (1 << 64) - 1, (1 << 64) - 1),
    ({"type": "int32", "note": "date"}, dt.date(1, 1, 1), dt.date(1, 1, 1)),
    ({"type": "int32", "note": "date"}, dt.date(9999, 12, 31), dt.date(9999, 12, 31)),
    ({"type": "int32", "note": "time_millis"}, dt.time(23, 59, 59, 999000), dt.time(23, 59, 59, 999000)),
    ({"type": "int64", "note": "time_micros"}, dt.time(0, 0, 0, 1), dt.time(0, 0, 0, 1)),
    ({"type": "int64", "note": "timestamp_millis"}, dt.datetime(1969, 1, 1), dt.datetime(1969, 1, 1, tzinfo=UTC)),
    (
        {"type": "int64", "note": "timestamp_micros"},
        dt.datetime(9999, 12, 31, 23, 59, 59, 999999, UTC),
        dt.datetime(9999, 12, 31, 23, 59, 59, 999999, UTC),
    ),
    (
        {"type": "int64", "note": "timestamp_micros"},
        dt.datetime(2024, 5, 1, 12, tzinfo=dt.timezone(dt.timedelta(hours=2))),
        dt.datetime(2024, 5, 1, 10, tzinfo=UTC),
    ),
    (CENTS, Decimal("-12.30"), Decimal("-12.30")),
    (CENTS, 7, Decimal("7.00")),
    ({"type": "int32", "note": "decimal", "precision": 9, "scale": 9}, Decimal("0.123456789"), Decimal("0.123456789")),
    ({"type": "bytes", "note": "decimal", "precision": 40, "scale": 0}, Decimal(10**39), Decimal(10**39)),
    ({"type": "bytes", "note": "decimal", "precision": 5, "scale": 1}, Decimal("-12.8"), Decimal("-12.8")),
    ({"type": "bytes", "note": "decimal", "precision": 5, "scale": 0}, Decimal(-128), Decimal(-128)),
    ({"type": "fixed", "length": 4, "note": "decimal", "precision": 9, "scale": 2}, Decimal("-0.01"), Decimal("-0.01")),
    ({"type": "bytes", "note": "utf8"}, "kø\n\U0001f600", "kø\n\U0001f600"),
    ({"type": "bytes", "note": "json"}, '{"a":1}', '{"a":1}'),
    (BYTES, b"\x00\xff", b"\x00\xff"),
    (BYTES, bytearray(b"x"), b"x"),
    ({"type": "fixed", "length": 3}, b"abc", b"abc"),
    ({"type": "fixed", "length": 12, "note": "interval"}, bytes(12), bytes(12)),
]

WRONG: List[Tuple[Dict[str, Any], Any, str]] = [
    ({"type": "boolean"}, 1, "True or False"),
    ({"type": "int32", "note": "int_8"}, 128, "from -128 to 127"),
    ({"type": "int64", "note": "uint_64"}, -1, "from 0 to"),
    ({"type": "int32", "note": "date"}, dt.datetime(2024, 1, 1), "a date"),
    ({"type": "int32", "note": "date"}, 19000, "a date"),
    ({"type": "int32", "note": "time_millis"}, dt.time(0, 0, 0, 1), "whole milliseconds"),
    ({"type": "int64", "note": "time_micros"}, dt.time(0, tzinfo=UTC), "without a time zone"),
    ({"type": "int64", "note": "timestamp_micros"}, dt.date(2024, 1, 1), "a datetime"),
    ({"type": "int64", "note": "timestamp_millis"}, dt.datetime(2024, 1, 1, 0, 0, 0, 1), "whole milliseconds"),
    (CENTS, Decimal("0.001"), "at most 2 places"),
    (CENTS, Decimal(10**16), "at most 18 digits"),
    (CENTS, Decimal("NaN"), "finite"),
    (CENTS, 1.5, "in floats"),
    (CENTS, True, "a Decimal"),
    ({"type": "fixed", "length": 1, "note": "decimal", "precision": 9, "scale": 0}, Decimal(128), "1 bytes"),
    ({"type": "bytes", "note": "utf8"}, b"x", "text"),
    (BYTES, "x", "bytes"),
    ({"type": "fixed", "length": 3}, b"ab", "3 bytes"),
]


def list_of(rep: str, item: Dict[str, Any]) -> Dict[str, Any]:
    """A list of this repetition whose repeated field is this one."""
    return {"rep": rep, "note": "list", "fields": [{"rep": "repeated", **item}]}


def integer(name: str, rep: str) -> Dict[str, Any]:
    return {"name": name, "rep": rep, "type": "int32"}


LISTS: List[Tuple[Dict[str, Any], Any]] = [
    ({"rep": "repeated", "type": "int32", "note": "date"}, [dt.date(2024, 1, 1)]),
    ({"rep": "optional", "fields": [integer("a", "required")]}, {"a": 1}),
    (
        list_of("optional", {"name": "list", "fields": [{"name": "element", "rep": "optional", **CENTS}]}),
        [Decimal("1.25"), None],
    ),
    (list_of("required", {"name": "array", "type": "bytes"}), [b"a", b""]),
    (list_of("required", {"name": "array", "fields": [integer("x", "optional")]}), [{"x": 1}, {"x": None}]),
    (list_of("required", {"name": "v_tuple", "fields": [integer("x", "required")]}), [{"x": 1}]),
    (
        list_of("optional", {"name": "list", "fields": [integer("a", "required"), integer("b", "repeated")]}),
        [{"a": 1, "b": [2, 3]}, {"a": 4, "b": []}],
    ),
    (
        {
            "rep": "optional",
            "note": "map",
            "fields": [
                {
                    "name": "key_value",
                    "rep": "repeated",
                    "fields": [
                        {"name": "key", "rep": "required", "type": "bytes", "note": "utf8"},
                        {"name": "value", "rep": "optional", "type": "int32", "note": "date"},
                    ],
                }
            ],
        },
        [("a", dt.date(2024, 1, 1)), ("a", None)],
    ),
    (
        list_of(
            "optional",
            {
                "name": "list",
                "fields": [
                    {
                        "name": "element",
                        **list_of("optional", {"name": "list", "fields": [integer("element", "required")]}),
                    }
                ],
            },
        ),
        [[1, 2], None, []],
    ),
]


class Values(RoomCase):
    def test_each_type_comes_back(self) -> None:
        for number, (kind, value, back) in enumerate(KEPT):
            with self.subTest(kind=kind, value=value):
                table = pqds.create(f"t{number}", [{"name": "v", "rep": "optional", **kind}])
                table.append([{"v": value}, {"v": None}])
                rows = list(table.rows())
                self.assertEqual(rows, [{"v": back}, {"v": None}])
                self.assertIs(type(rows[0]["v"]), type(back))
                if isinstance(back, Decimal):
                    self.assertEqual(str(rows[0]["v"]), str(back))

    def test_wrong_values_are_refused(self) -> None:
        for number, (kind, value, why) in enumerate(WRONG):
            with self.subTest(kind=kind, value=value):
                table = pqds.create(f"t{number}", [{"name": "v", "rep": "required", **kind}])
                with self.assertRaises(pqds.RowShape) as caught:
                    table.append([{"v": value}])
                self.assertIn("row 1: v: expected ", caught.exception.reason)
                self.assertIn(why, caught.exception.reason)
                self.assertEqual(table.count(), 0)

    def test_lists_maps_and_groups_come_back(self) -> None:
        for number, (kind, value) in enumerate(LISTS):
            with self.subTest(kind=kind):
                table = pqds.create(f"t{number}", [{"name": "v", **kind}])
                table.append([{"v": value}])
                self.assertEqual(list(table.rows()), [{"v": value}])

    def test_a_dict_is_a_map(self) -> None:
        table = pqds.create("t", [{"name": "v", **LISTS[7][0]}])
        table.append([{"v": {"a": dt.date(2024, 1, 1)}}, {"v": {}}, {"v": None}])
        self.assertEqual([it["v"] for it in table.rows()], [[("a", dt.date(2024, 1, 1))], [], None])

    def test_a_wrong_value_in_a_list_has_its_place(self) -> None:
        for kind, value, why in (
            (LISTS[2][0], [Decimal(1), "x"], "row 1: v[1]: expected a Decimal"),
            (LISTS[6][0], [{"a": 1, "b": [1, None]}], "row 1: v[0].b[1]: expected an integer"),
            (LISTS[6][0], [{"b": []}], "row 1: v[0].a: the field is REQUIRED"),
            (LISTS[1][0], {"a": 1, "z": 1}, "row 1: v.z: no field has this name"),
            (LISTS[7][0], [("a",)], "row 1: v: expected a dict or a list of pairs"),
            (LISTS[2][0], "text", "row 1: v: expected a list"),
        ):
            with self.subTest(why=why):
                with self.assertRaises(pqds.RowShape) as caught:
                    pqds.create(f"t-{why.encode().hex()}", [{"name": "v", **kind}]).append([{"v": value}])
                self.assertTrue(caught.exception.reason.startswith(why), caught.exception.reason)

    def test_floats_as_decimals(self) -> None:
        table = pqds.create("t", [{"name": "v", "rep": "optional", **CENTS}])
        self.assertEqual(table.append([{"v": 0.1}, {"v": -12.25}, {"v": 1e15}, {"v": None}], floats={"v": 2}), 4)
        self.assertEqual([it["v"] for it in table.rows()], [Decimal("0.10"), Decimal("-12.25"), Decimal(10**15), None])
        for value in (0.1 + 0.2, 1.005, float("nan"), float("inf"), 1e17):
            with self.subTest(value=value), self.assertRaises(pqds.RowShape):
                table.append([{"v": value}], floats={"v": 2})
        with self.assertRaises(pqds.Schema):
            table.append([{"v": 0.125}], floats={"v": 3})
        with self.assertRaises(pqds.NoColumn):
            table.append([], floats={"w": 2})

    def test_numbers_that_python_has_no_date_for(self) -> None:
        table = pqds.create(
            "t",
            [
                {"name": "d", "rep": "optional", "type": "int32", "note": "date"},
                {"name": "t", "rep": "optional", "type": "int64", "note": "timestamp_micros"},
                {"name": "m", "rep": "optional", "type": "int64", "note": "time_micros"},
            ],
        )
        for row in ({"d": 1 << 30}, {"t": 1 << 62}, {"m": -1}):
            table.append([row], raw=True)
            with self.assertRaises(ValueError) as caught:
                list(table.rows())
            self.assertIn("raw=True", str(caught.exception))
            self.assertEqual(list(table.rows(raw=True, columns=list(row))), [row])
            table.remove([])


if __name__ == "__main__":
    unittest.main()
