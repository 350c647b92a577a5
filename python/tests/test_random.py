"""Random schemas and rows, nested two deep: what goes in comes out, by rows, files, Arrow tables and frames."""

from __future__ import annotations

import datetime as dt
import importlib.util
import random
import unittest
from decimal import Context, Decimal
from typing import Any, Callable, Dict, List, Tuple
from unittest import mock

from support import RoomCase

import pqds

ROUNDS = 12
HAS_PANDAS = importlib.util.find_spec("pandas") is not None
HAS_ARROW = importlib.util.find_spec("pyarrow") is not None
EPOCH = dt.datetime(1700, 1, 1, tzinfo=dt.timezone.utc)

Made = Tuple[Dict[str, Any], Callable[[], Any]]


class Maker:
    """Makes columns, each with what makes its values."""

    def __init__(self, seed: int) -> None:
        self.random = random.Random(seed)

    def whole(self, bits: int, signed: bool = True) -> int:
        least = -(1 << (bits - 1)) if signed else 0
        greatest = least + (1 << bits) - 1
        return self.random.choice([least, greatest, 0, self.random.randint(least, greatest)])

    def decimal(self, digits: int, scale: int) -> Decimal:
        number = self.random.randint(1 - 10**digits, 10**digits - 1)
        return Context(prec=60).scaleb(Decimal(number), -scale)

    def time(self, step: int) -> dt.time:
        micros = self.random.randrange(0, 86_400_000_000, step)
        return (EPOCH + dt.timedelta(microseconds=micros)).time()

    def instant(self, step: int) -> dt.datetime:
        return EPOCH + dt.timedelta(microseconds=self.random.randrange(0, 16 * 10**15, step))

    def leaf(self) -> Made:
        pick = self.random
        notes: List[Made] = [
            ({"type": "boolean"}, lambda: pick.random() < 0.5),
            ({"type": "int32"}, lambda: self.whole(32)),
            ({"type": "int64"}, lambda: self.whole(64)),
            *[({"type": "int32", "note": f"int_{it}"}, lambda it=it: self.whole(it)) for it in (8, 16, 32)],
            *[({"type": "int32", "note": f"uint_{it}"}, lambda it=it: self.whole(it, False)) for it in (8, 16, 32)],
            ({"type": "int64", "note": "int_64"}, lambda: self.whole(64)),
            ({"type": "int64", "note": "uint_64"}, lambda: self.whole(64, False)),
            ({"type": "int32", "note": "date"}, lambda: dt.date.fromordinal(pick.randint(1, 3_652_059))),
            ({"type": "int32", "note": "time_millis"}, lambda: self.time(1000)),
            ({"type": "int64", "note": "time_micros"}, lambda: self.time(1)),
            ({"type": "int64", "note": "timestamp_millis"}, lambda: self.instant(1000)),
            ({"type": "int64", "note": "timestamp_micros"}, lambda: self.instant(1)),
            ({"type": "int32", "note": "decimal", "precision": 9, "scale": 3}, lambda: self.decimal(9, 3)),
            ({"type": "int64", "note": "decimal", "precision": 18, "scale": 0}, lambda: self.decimal(18, 0)),
            (
                {"type": "fixed", "length": 9, "note": "decimal", "precision": 20, "scale": 2},
                lambda: self.decimal(20, 2),
            ),
            ({"type": "bytes", "note": "decimal", "precision": 30, "scale": 5}, lambda: self.decimal(30, 5)),
            (
                {"type": "bytes", "note": "utf8"},
                lambda: "".join(pick.choices('aä\n"\\\U0001f600\0 ', k=pick.randint(0, 6))),
            ),
            ({"type": "bytes", "note": "enum"}, lambda: pick.choice(["A", "B"])),
            ({"type": "bytes"}, lambda: self.bytes(pick.randint(0, 5))),
            ({"type": "bytes", "note": "bson"}, lambda: self.bytes(pick.randint(0, 5))),
            ({"type": "fixed", "length": 3}, lambda: self.bytes(3)),
            ({"type": "fixed", "length": 12, "note": "interval"}, lambda: self.bytes(12)),
        ]
        return pick.choice(notes)

    def bytes(self, size: int) -> bytes:
        return bytes(self.random.randrange(256) for _ in range(size))

    def column(self, name: str, depth: int, rep: str = "") -> Made:
        """A column of at most so many levels, and what makes its values."""
        pick = self.random
        rep = rep or pick.choice(["required", "optional", "optional"])
        kind = "leaf" if depth == 0 else pick.choice(["leaf"] * 5 + ["repeated", "list", "map", "group"])
        said, make = getattr(self, f"of_{kind}")(depth - 1)
        said = {"name": name, "rep": "repeated" if kind == "repeated" else rep, **said}
        if said["rep"] != "optional":
            return said, make
        return said, lambda: None if pick.random() < 0.3 else make()

    def of_leaf(self, _: int) -> Made:
        return self.leaf()

    def of_repeated(self, _: int) -> Made:
        said, make = self.leaf()
        return said, lambda: [make() for _ in range(self.random.randint(0, 3))]

    def of_list(self, depth: int) -> Made:
        said, make = self.column("element", depth)
        if said["rep"] == "repeated":
            said, make = self.column("element", 0)
        middle = {"name": "list", "rep": "repeated", "fields": [said]}
        return {"note": "list", "fields": [middle]}, lambda: [make() for _ in range(self.random.randint(0, 3))]

    def of_map(self, depth: int) -> Made:
        (key, make_key), (value, make) = self.column("key", 0, "required"), self.column("value", depth)
        middle = {"name": "key_value", "rep": "repeated", "fields": [key, value]}
        said = {"note": "map", "fields": [middle]}
        return said, lambda: [(make_key(), make()) for _ in range(self.random.randint(0, 3))]

    def of_group(self, depth: int) -> Made:
        made = [self.column(f"f{it}", depth) for it in range(self.random.randint(1, 3))]
        return {"fields": [it for it, _ in made]}, lambda: {it["name"]: make() for it, make in made}


class Random(RoomCase):
    def test_what_goes_in_comes_out(self) -> None:
        for seed in range(ROUNDS):
            maker = Maker(seed)
            made = [maker.column(f"c{it}", 2) for it in range(maker.random.randint(1, 5))]
            schema = [it for it, _ in made]
            rows = [{it["name"]: make() for it, make in made} for _ in range(maker.random.randint(1, 20))]
            with self.subTest(seed=seed, schema=schema):
                table = pqds.create(f"rows{seed}", schema)
                self.assertEqual(table.append(rows), len(rows))
                self.assertEqual(list(table.rows()), rows)
                pqds.encode(schema, rows, f"file{seed}")
                self.assertEqual(list(pqds.decode(f"file{seed}")), rows)
                self.filters(table, made, rows)
                if HAS_ARROW:
                    self.again(f"arrow{seed}", schema, table.to_arrow(), rows)
                if HAS_PANDAS:
                    self.again(f"frame{seed}", schema, table.to_pandas(), rows)
                    with mock.patch("pqds._arrow.is_there", return_value=False):
                        self.again(f"lines{seed}", schema, table.to_pandas(), rows)

    def again(self, name: str, schema: List[Dict[str, Any]], data: Any, rows: List[Dict[str, Any]]) -> None:
        table = pqds.create(name, schema)
        self.assertEqual(table.append(data), len(rows))
        self.assertEqual(list(table.rows()), rows)

    def filters(self, table: pqds.Dataset, made: List[Made], rows: List[Dict[str, Any]]) -> None:
        """Each operator by a value of each column that has an order, against Python's own comparison."""
        for said, _ in made:
            name = said["name"]
            held = [it[name] for it in rows if it[name] is not None]
            is_unordered = said.get("note") in ("decimal", "interval") and said["type"] in ("bytes", "fixed")
            if not held or said["rep"] == "repeated" or "fields" in said or is_unordered:
                continue
            value = held[0]
            order: Callable[[Any], Any] = (lambda it: it.encode()) if isinstance(value, str) else (lambda it: it)
            comparisons: List[Tuple[str, Callable[[Any, Any], bool]]] = [
                ("==", lambda one, other: one == other),
                ("<=", lambda one, other: one <= other),
                (">", lambda one, other: one > other),
                ("!=", lambda one, other: one != other),
            ]
            for operator, holds in comparisons:
                wanted = [it for it in rows if it[name] is not None and holds(order(it[name]), order(value))]
                self.assertEqual(list(table.rows([(name, operator, value)])), wanted)


if __name__ == "__main__":
    unittest.main()
