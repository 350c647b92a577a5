"""Filters as fastparquet takes them, on a table with a column of each type that has an order."""

from __future__ import annotations

import datetime as dt
import unittest
from decimal import Decimal
from typing import Any, Callable, Dict, List, Tuple, Type

from support import RoomCase

import pqds

SCHEMA: List[Dict[str, Any]] = [
    {"name": "n", "rep": "required", "type": "int64"},
    {"name": "s", "rep": "optional", "type": "bytes", "note": "utf8"},
    {"name": "b", "rep": "optional", "type": "bytes"},
    {"name": "day", "rep": "optional", "type": "int32", "note": "date"},
    {"name": "at", "rep": "optional", "type": "int64", "note": "timestamp_micros"},
    {"name": "time", "rep": "optional", "type": "int32", "note": "time_millis"},
    {"name": "price", "rep": "optional", "type": "int64", "note": "decimal", "precision": 9, "scale": 2},
    {"name": "ok", "rep": "optional", "type": "boolean"},
    {"name": "in", "rep": "optional", "fields": [{"name": "x", "rep": "optional", "type": "int32"}]},
    {"name": "l", "rep": "repeated", "type": "int32"},
]


def row(number: int) -> Dict[str, Any]:
    return {
        "n": number,
        "s": f"t{number}",
        "b": bytes([number]),
        "day": dt.date(2024, 1, number),
        "at": dt.datetime(2024, 1, number, 12),
        "time": dt.time(number),
        "price": Decimal(number) / 4,
        "ok": number % 2 == 0,
        "in": {"x": number},
        "l": [number],
    }


class Filters(RoomCase):
    def setUp(self) -> None:
        super().setUp()
        self.table = pqds.create("t", SCHEMA)
        self.table.append([row(it) for it in range(1, 6)])
        self.table.append([{"n": 6}])

    def found(self, filters: Any) -> List[int]:
        rows = [it["n"] for it in self.table.rows(filters, ["n"])]
        self.assertEqual(self.table.count(filters), len(rows))
        return rows

    def test_a_list_of_terms_holds_where_all_do(self) -> None:
        self.assertEqual(self.found([("n", ">", 1), ("n", "<=", 3)]), [2, 3])
        self.assertEqual(self.found([["n", ">", 1], ("n", "!=", 3)]), [2, 4, 5, 6])
        self.assertEqual(self.found((("n", "=", 4),)), [4])

    def test_a_list_of_lists_holds_where_one_does(self) -> None:
        self.assertEqual(self.found([[("n", "==", 1)], [("n", ">", 3), ("ok", "==", True)]]), [1, 4])
        three = [[("n", "<", 9), ("s", "==", "t2"), ("ok", "==", True)]]
        self.assertEqual(self.found(three), [2])

    def test_empty_filters_hold_for_every_row(self) -> None:
        cases: List[Any] = [None, [], ()]
        for filters in cases:
            self.assertEqual(self.found(filters), [1, 2, 3, 4, 5, 6])

    def test_values_are_those_of_python(self) -> None:
        cases: List[Tuple[Any, List[int]]] = [
            ([("s", ">=", "t4")], [4, 5]),
            ([("b", "==", b"\x02")], [2]),
            ([("day", "<", dt.date(2024, 1, 3))], [1, 2]),
            ([("at", ">", dt.datetime(2024, 1, 4, 11))], [4, 5]),
            ([("at", "==", dt.datetime(2024, 1, 4, 13, tzinfo=dt.timezone(dt.timedelta(hours=1))))], [4]),
            ([("time", "==", dt.time(3))], [3]),
            ([("price", "==", Decimal("0.5"))], [2]),
            ([("price", ">=", 1)], [4, 5]),
            ([("ok", "==", False)], [1, 3, 5]),
            ([("n", "in", {1, 5, 9})], [1, 5]),
            ([("day", "in", [dt.date(2024, 1, 3)])], [3]),
            ([("day", "not in", (dt.date(2024, 1, 3), dt.date(2024, 1, 4)))], [1, 2, 5]),
            ([("n", "in", [])], []),
            ([(("in", "x"), "==", 3)], [3]),
            ([[["in", "x"], "<", 3]], [1, 2]),
        ]
        for filters, wanted in cases:
            with self.subTest(filters=filters):
                self.assertEqual(self.found(filters), wanted)

    def test_wrong_filters(self) -> None:
        cases: List[Tuple[Any, Type[pqds.Refused], str]] = [
            ([("m", "==", 1)], pqds.NoColumn, "'m'"),
            ([(("in", "y"), "==", 1)], pqds.NoColumn, "'y'"),
            ([("in", "==", 1)], pqds.NoColumn, "'in'"),
            ([("l", "==", 1)], pqds.NoColumn, "repeated"),
            ([("n", "==", "1")], pqds.RowShape, "expected an integer"),
            ([("n", "==", 1.0)], pqds.RowShape, "expected an integer"),
            ([("n", "==", None)], pqds.RowShape, "null"),
            ([("s", "==", "\ud800")], pqds.RowShape, "surrogate"),
            ([("n", "in", 1)], pqds.RowShape, "list of values"),
            ([("s", "in", "abc")], pqds.RowShape, "list of values"),
            ([("day", "==", "2024-01-01")], pqds.RowShape, "expected a date"),
            ([("price", "==", Decimal("0.001"))], pqds.RowShape, "at most 2 places"),
            ([("n", "like", 1)], pqds.Script, "the operators are"),
            ([("n", "==")], pqds.Script, "a term is"),
            (("n", "==", 1), pqds.Script, "an AND is"),
            ("n == 1", pqds.Script, "filters are"),
        ]
        calls: List[Callable[[Any], Any]] = [self.table.count, self.table.rows, self.table.remove]
        for filters, kind, why in cases:
            with self.subTest(filters=filters):
                for call in calls:
                    with self.assertRaises(kind) as caught:
                        list(call(filters))
                    self.assertIn(why, caught.exception.reason)
        self.assertEqual(self.table.count(), 6)

    def test_columns_without_an_order(self) -> None:
        decimal = {"rep": "required", "note": "decimal", "precision": 4, "scale": 0}
        fixed = {"name": "f", "type": "fixed", "length": 2, **decimal}
        table = pqds.create("u", [{"name": "b", "type": "bytes", **decimal}, fixed])
        # One is 01 and 0001 here, in bytes of any length.
        table.append([{"b": "0001", "f": "0001"}], raw=True)
        self.assertEqual(table.count([("f", "==", Decimal(1))]), 1)
        for filters in (
            [("f", "<", Decimal(1))],
            [("b", "<", Decimal(1))],
            [("b", "==", Decimal(1))],
            [("b", "!=", Decimal(1))],
            [("b", "in", [Decimal(1)])],
            [("f", "in", [Decimal(it) for it in range(9999)] * 3), ("f", ">", Decimal(1))],
        ):
            for call in (table.count, table.remove, lambda it: list(table.rows(it))):
                with self.subTest(filters=str(filters)[:50]), self.assertRaises(pqds.Unordered):
                    call(filters)


if __name__ == "__main__":
    unittest.main()
