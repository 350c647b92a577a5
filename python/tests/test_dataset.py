"""A table, from its making to its rewriting: each method once at its work, and at what it refuses."""

from __future__ import annotations

import fcntl
import functools
import os
import pickle
import unittest
from pathlib import Path
from typing import Any, Dict, Iterator, List
from unittest import mock

from support import ORDERS, RoomCase

import pqds

ROWS: List[Dict[str, Any]] = [
    {"region": "north", "order": 1, "cents": 1250},
    {"region": "south", "order": 2, "cents": 900},
    {"region": "north", "order": 3, "cents": None},
]
# In the order of the keys, and within a key as they were appended.
SORTED = [ROWS[0], ROWS[2], ROWS[1]]


class Tables(RoomCase):
    def setUp(self) -> None:
        super().setUp()
        self.table = pqds.create("orders", ORDERS, ["region"])

    def filled(self) -> pqds.Dataset:
        self.assertEqual(self.table.append(ROWS), 3)
        return self.table

    def test_a_new_table_has_no_rows(self) -> None:
        self.assertEqual(list(self.table.rows()), [])
        self.assertEqual(self.table.count(), 0)
        self.assertEqual(self.table.groups(), [])
        self.assertEqual(self.table.check(), pqds.Whole(0, 0, 0))

    def test_schema_and_keys_are_those_given(self) -> None:
        self.assertEqual(self.table.schema(), ORDERS)
        self.assertEqual(self.table.keys(), ("region",))
        self.assertEqual(pqds.create("plain", ORDERS).keys(), ())
        self.assertEqual(pqds.create("second", self.table.schema(), "region").keys(), ("region",))

    def test_required_makes_columns_required(self) -> None:
        table = pqds.create("more", [{**it, "rep": "optional"} for it in ORDERS], ["region"], required=["cents"])
        self.assertEqual([it["rep"] for it in table.schema()], ["required", "optional", "required"])
        with self.assertRaises(pqds.NoColumn):
            pqds.create("none", ORDERS, required=["nothing"])

    def test_rows_come_back_in_the_order_of_the_keys(self) -> None:
        self.assertEqual(list(self.filled().rows()), SORTED)

    def test_absent_optional_columns_are_null(self) -> None:
        self.table.append([{"region": "east", "order": 1}])
        self.assertEqual(list(self.table.rows()), [{"region": "east", "order": 1, "cents": None}])

    def test_columns_filters_and_limit(self) -> None:
        table = self.filled()
        self.assertEqual(list(table.rows([("cents", ">=", 1000)], ["order"])), [{"order": 1}])
        self.assertEqual(
            list(table.rows(columns=["cents", "order"], limit=2)),
            [{"cents": 1250, "order": 1}, {"cents": None, "order": 3}],
        )
        self.assertEqual(list(table.rows(limit=0)), [])
        self.assertEqual(list(table.rows([("order", "==", 1)], columns=[])), [{}])
        self.assertEqual(list(table.rows([("order", "==", 7)], columns=[])), [])
        with mock.patch("pqds._dataset._MOST_EMPTY", 2):
            for limit, count in ((None, 3), (3, 3), (2, 2), (1, 1), (0, 0)):
                self.assertEqual(list(table.rows(columns=[], limit=limit)), [{}] * count)

    def test_the_limit_goes_to_the_program(self) -> None:
        table = self.filled()
        words = self.words_of("query", lambda: list(table.rows([("order", ">", 0)], limit=2)))
        self.assertEqual(words[words.index("--limit") + 1], "2")
        self.assertNotIn("--limit", self.words_of("query", lambda: list(table.rows())))
        self.assertEqual(list(table.rows([("order", ">", 1)], ["order"], limit=1)), [{"order": 3}])
        self.assertEqual(len(list(table.rows(limit=1 << 63))), 3)
        self.assertEqual(list(table.rows(columns=[], limit=2)), [{}, {}])
        with self.assertRaises(pqds.WrongCall):
            list(table.rows(limit=-1))
        # The second group is not read.
        Path("orders/region=south/part.1.parquet").unlink()
        self.assertEqual(list(table.rows(limit=2)), SORTED[:2])

    def test_rows_can_be_left_before_their_end(self) -> None:
        table = self.filled()
        rows = table.rows()
        self.assertEqual(next(rows), SORTED[0])
        rows.close()  # type: ignore[attr-defined]
        self.assertEqual(table.remove([]), 3)

    def test_count(self) -> None:
        table = self.filled()
        self.assertEqual(table.count(), 3)
        self.assertEqual(table.count([("region", "==", "north")]), 2)

    def test_groups_have_their_keys(self) -> None:
        first, second = self.filled().groups()
        self.assertEqual((first.number, first.rows, first.key), (0, 2, {"region": "north"}))
        self.assertEqual((second.number, second.rows, second.key), (1, 1, {"region": "south"}))
        self.assertGreater(first.bytes, 0)

    def test_append_takes_any_iterable(self) -> None:
        self.assertEqual(self.table.append(it for it in ROWS), 3)
        self.assertEqual(self.table.append([]), 0)
        self.assertEqual(self.table.count(), 3)

    def test_append_unless_a_row_satisfies(self) -> None:
        table = self.filled()
        self.assertEqual(table.append(ROWS, [("order", "==", 2)]), 0)
        self.assertEqual(table.append(ROWS[:1], unless=[("region", "==", "west")]), 1)
        self.assertEqual(table.append(ROWS, [("order", "==", 2)], raw=True), 0)
        self.assertEqual(table.append(ROWS, [[("order", "==", 9)], [("cents", "<", 1000)]]), 0)
        self.assertEqual(table.append(ROWS, []), 0)
        self.assertEqual(table.count(), 4)
        self.assertEqual(pqds.create("empty", ORDERS).append(ROWS, unless=[]), 3)
        with self.assertRaises(pqds.NoColumn):
            table.append(ROWS, [("colour", "==", "red")])
        with self.assertRaises(pqds.RowShape):
            table.append([{"order": 5}], [("order", "==", 5)])
        self.assertEqual(table.count(), 4)

    def test_append_unless_a_row_satisfies_a_long_filter(self) -> None:
        table = self.filled()
        long = [("order", "in", list(range(3, 30_000)))]
        self.assertEqual(table.append(ROWS, long), 0)
        self.assertEqual(table.append(ROWS, [*long, ("order", ">", 3)]), 3)

    def test_unless_goes_to_the_program(self) -> None:
        words = self.words_of("append", lambda: self.table.append(ROWS, [("order", "==", 2)]), "echo done 0")
        self.assertEqual(words[words.index("--unless") + 1], '[["order","==",2]]')
        words = self.words_of("append", lambda: self.table.append(ROWS, []), "echo done 0")
        self.assertEqual(words[words.index("--unless") + 1], "[]")
        self.assertNotIn("--unless", self.words_of("append", lambda: self.table.append(ROWS), "echo done 3"))
        words = self.words_of("import", lambda: self.table.import_files("f", [("order", "==", 2)]), "echo done 0")
        self.assertEqual(words[words.index("--unless") + 1], '[["order","==",2]]')

    def test_raw_rows_are_the_programs(self) -> None:
        self.assertEqual(self.table.append(ROWS, raw=True), 3)
        self.assertEqual(sorted(next(self.table.rows(raw=True))), ["cents", "order", "region"])

    def test_rows_that_raise_append_nothing(self) -> None:
        def rows() -> Iterator[Dict[str, Any]]:
            for number in range(50_000):
                yield {"region": "x", "order": number}
            raise KeyError("mine")

        with self.assertRaises(KeyError):
            self.table.append(rows())
        self.assertEqual(self.table.count(), 0)

    def test_a_wrong_row_appends_nothing_and_says_which(self) -> None:
        wrong: List[Any] = [
            ({"region": "x"}, "order: the column is REQUIRED"),
            ({"region": "x", "order": None}, "order: the column is REQUIRED"),
            ({"region": "x", "order": 1.0}, "order: expected an integer"),
            ({"region": "x", "order": True}, "order: expected an integer"),
            ({"region": "x", "order": 1 << 63}, "order: expected an integer from"),
            ({"region": 5, "order": 1}, "region: expected text"),
            ({"region": "\ud800", "order": 1}, "surrogate"),
            ({"region": "x", "order": 1, "other": 1}, "'other'"),
            (5, "expected a dict"),
        ]
        for row, why in wrong:
            with self.subTest(row=row), self.assertRaises(pqds.RowShape) as caught:
                self.table.append([ROWS[0], row])
            self.assertIn("row 2", caught.exception.reason)
            self.assertIn(why, caught.exception.reason)
        with self.assertRaises(TypeError):
            self.table.append("rows")
        self.assertEqual(self.table.count(), 0)

    def test_a_key_that_names_no_folder(self) -> None:
        with self.assertRaises(pqds.Key) as caught:
            self.table.append([{"region": "", "order": 1}])
        self.assertIn("empty", caught.exception.reason)
        with self.assertRaises(pqds.Key):
            pqds.create("dates", [ORDERS[1], {"name": "d", "rep": "required", "type": "int32", "note": "date"}], "d")

    def test_remove_by_filter(self) -> None:
        table = self.filled()
        self.assertEqual(table.remove([("cents", "<", 1000)]), 1)
        self.assertEqual([it["order"] for it in table.rows()], [1, 3])
        with self.assertRaises(pqds.Script):
            table.remove("")  # type: ignore[arg-type]
        self.assertEqual(table.remove([]), 2)
        self.assertEqual(table.count(), 0)

    def test_remove_groups(self) -> None:
        table = self.filled()
        with self.assertRaises(pqds.NoGroup):
            table.remove(groups=[99])
        self.assertEqual(table.remove(groups=[table.groups()[0], 1]), 3)
        self.assertEqual(table.remove(groups=[]), 0)
        with self.assertRaises(pqds.NoGroup):
            table.remove(groups=range(60_000))
        with self.assertRaises(pqds.Limit):
            table.rewrite(groups=range(60_000))

    def test_remove_and_rewrite_take_one_of_their_words(self) -> None:
        for call in (self.table.remove, self.table.rewrite):
            with self.assertRaises(TypeError):
                call()
        with self.assertRaises(TypeError):
            self.table.remove([], groups=[1])
        with self.assertRaises(TypeError):
            self.table.rewrite(min_rows=1, groups=[1])
        with self.assertRaises(TypeError):
            self.table.rewrite(min_rows=1, all=True)

    def test_rewrite(self) -> None:
        table = self.filled()
        table.append(ROWS)
        self.assertEqual(table.rewrite(min_rows=100), 6)
        self.assertEqual(len(table.groups()), 2)
        self.assertEqual(table.rewrite(min_rows=100), 0)
        self.assertEqual(table.rewrite(groups=table.groups()), 6)
        self.assertEqual(table.count(), 6)
        with self.assertRaises(pqds.NoGroup):
            table.rewrite(groups=[99])

    def test_rewrite_all(self) -> None:
        table = self.filled()
        self.assertEqual(pqds.create("empty", ORDERS).rewrite(all=True), 0)
        table.append(ROWS)
        table.add_column({"name": "note", "type": "bytes", "note": "utf8"})
        before = list(table.rows())
        words = self.words_of("rewrite", lambda: table.rewrite(all=True), "echo done 6")
        self.assertIn("--all", words)
        self.assertEqual(pqds.open("orders", style="dictionary").rewrite(all=True), 6)
        self.assertEqual([it.rows for it in table.groups()], [4, 2])
        self.assertEqual(list(table.rows()), before)
        for part in Path("orders").glob("*/*.parquet"):
            self.assertEqual([it["name"] for it in pqds.file_schema(part)], ["order", "cents", "note"])

    def test_add_column(self) -> None:
        table = self.filled()
        table.add_column({"name": "note", "type": "bytes", "note": "utf8"})
        self.assertEqual(table.schema()[3]["rep"], "optional")
        self.assertEqual({it["note"] for it in table.rows()}, {None})
        with self.assertRaises(pqds.Schema):
            table.add_column({"name": "note", "type": "int32"})
        with self.assertRaises(pqds.Schema):
            table.add_column({"name": "must", "rep": "required", "type": "int32"})

    def test_a_script(self) -> None:
        answers = self.table.run(
            [
                {"call": "append", "rows": ROWS},
                {"call": "remove_groups", "numbers": [9]},
                {"call": "count", "filter": [("region", "==", "north")]},
                {"call": "add_column", "field": {"name": "day", "type": "int32", "note": "date"}},
                {"call": "query", "columns": None, "filter": []},
                {"call": "fetch", "cursor": 0},
            ],
            stop=False,
        )
        self.assertEqual(answers[:4], [{"done": 3}, {"name": "NoGroup", "refused": 18}, {"count": 2}, {"done": 0}])
        self.assertEqual(answers[5]["batch"], [{**it, "day": None} for it in SORTED[:2]])

    def test_a_script_ends_at_the_first_call_that_is_refused(self) -> None:
        calls: List[Dict[str, Any]] = [
            {"call": "append", "rows": ROWS},
            {"call": "count", "filter": [("region", "==", "north")]},
            {"call": "remove_groups", "numbers": [9]},
            {"call": "remove", "filter": []},
        ]
        with self.assertRaises(pqds.NoGroup) as caught:
            self.table.run(calls)
        self.assertEqual(caught.exception.answers, [{"done": 3}, {"count": 2}])
        self.assertEqual(caught.exception.reason, "2 of 4 calls were made")
        self.assertEqual(self.table.count(), 3)
        self.assertEqual(self.table.run(calls[:2]), [{"done": 3}, {"count": 4}])
        self.assertEqual(self.table.run([]), [])

    def test_the_refusal_of_a_call_is_raised_with_the_answers_before_it(self) -> None:
        answers = """echo '{"done":3}'; echo '{"name":"InDoubt","refused":26}'"""
        script = f"{answers}; echo '1 of 4 calls were made' >&2; echo 'refused 26 InDoubt' >&2; exit 1"
        with self.assertRaises(pqds.InDoubt) as caught:
            self.words_of("run", lambda: self.table.run([{"call": "groups"}]), script)
        self.assertEqual(caught.exception.answers, [{"done": 3}])
        self.assertIn("1 of 4 calls were made", caught.exception.reason)
        self.assertEqual(pickle.loads(pickle.dumps(caught.exception)).answers, [{"done": 3}])
        self.assertIn("--stop", Path("words").read_text())
        self.assertNotIn("--stop", self.words_of("run", lambda: self.table.run([{"call": "groups"}], stop=False)))

    def test_a_script_with_a_wrong_call_makes_none(self) -> None:
        with self.assertRaises(pqds.RowShape):
            self.table.run([{"call": "append", "rows": ROWS}, {"call": "append", "rows": [{"order": 1}]}])
        with self.assertRaises(pqds.Script):
            self.table.run([{"call": "append", "rows": ROWS}, {"call": "nothing"}])
        self.assertEqual(self.table.count(), 0)

    def test_check_raises_what_is_wrong(self) -> None:
        table = self.filled()
        self.assertEqual(table.check().rows, 3)
        Path("orders/region=north/part.0.parquet").unlink()
        with self.assertRaises(pqds.Truncated) as caught:
            table.check()
        self.assertIn("part.0.parquet", caught.exception.reason)
        rows = table.rows(columns=["order"])
        with self.assertRaises(pqds.Truncated):
            list(rows)

    def test_files_that_are_not_named_are_no_fault(self) -> None:
        table = self.filled()
        found: List[pqds.Whole] = []
        note = "note: files that the table does not name: 1, bytes 89\n  part.7.parquet\n"
        said = f"printf 'ok: rows 3, groups 2, bytes 1,024\n{note}'"
        self.words_of("check", lambda: found.append(table.check()), said)
        self.assertEqual(found, [pqds.Whole(3, 2, 1024)])

    def test_inspect_is_a_text(self) -> None:
        self.assertIn("rows: 3, in groups: 2", self.filled().inspect(min_rows=5))

    def test_open_and_create_refuse(self) -> None:
        with self.assertRaises(pqds.Exists):
            pqds.create("orders", ORDERS)
        with self.assertRaises(pqds.Device):
            pqds.open("nowhere")
        Path("empty").mkdir()
        with self.assertRaises(pqds.NoTable):
            pqds.open("empty")
        with self.assertRaises(pqds.Schema):
            pqds.create("new", 5)
        self.assertEqual(repr(pqds.open("orders")), "pqds.open('orders')")

    def test_paths_and_names_that_look_like_options(self) -> None:
        table = pqds.create("-", [{"name": "--limit", "rep": "required", "type": "int32"}])
        table.append([{"--limit": 1}])
        self.assertEqual(list(table.rows(columns=["--limit"])), [{"--limit": 1}])
        other = pqds.create("--help", [{"name": "x", "rep": "required", "type": "int32"}])
        self.assertEqual((other.append([{"x": 1}]), other.count(), other.keys()), (1, 1, ()))

    def test_options_of_files(self) -> None:
        table = pqds.open("orders", style="dictionary", group_rows=1, page_rows=1, page_version=2)
        table.append(ROWS)
        self.assertEqual([it.rows for it in table.groups()], [1, 1, 1])
        with self.assertRaises(pqds.Limit):
            pqds.open("orders", group_rows=0).append(ROWS)
        with self.assertRaises(pqds.WrongCall):
            pqds.open("orders", style="none").append(ROWS)

    def test_a_filter_longer_than_a_word(self) -> None:
        table = self.filled()
        long = [("order", "in", list(range(2, 100_000)))]
        self.assertEqual(table.count(long), 2)
        self.assertEqual(table.count([*long, ("cents", "<", 1000)]), 1)
        self.assertEqual([it["order"] for it in table.rows(long)], [3, 2])
        self.assertEqual([it["order"] for it in table.rows(long, limit=1)], [3])
        with self.assertRaises(pqds.NoColumn):
            table.count([*long, ("nothing", "==", 1)])
        self.assertEqual(table.remove(long), 2)
        self.assertEqual([it["order"] for it in table.rows()], [1])

    def test_a_long_filter_is_in_a_file(self) -> None:
        table = self.filled()
        values = ",".join(map(str, range(50_000)))
        long = [("order", "in", list(range(50_000)))]
        for command, call, answer in (
            ("count", lambda: table.count(long), "echo 0"),
            ("query", lambda: list(table.rows(long)), "true"),
            ("remove", lambda: table.remove(long), "echo done 0"),
        ):
            self.assertIn(f'@[["order","in",[{values}]]]', self.words_of(command, call, answer))

    def test_no_wait(self) -> None:
        table = pqds.open("orders", wait=False)
        folder = os.open("orders", os.O_RDONLY)
        self.addCleanup(os.close, folder)
        fcntl.flock(folder, fcntl.LOCK_EX)
        with self.assertRaises(pqds.Device):
            table.remove([("order", "==", 0)])
        self.assertEqual(table.count(), 0)
        fcntl.flock(folder, fcntl.LOCK_UN)
        self.assertEqual(table.remove([("order", "==", 0)]), 0)

    def test_seconds_to_wait(self) -> None:
        folder = os.open("orders", os.O_RDONLY)
        self.addCleanup(os.close, folder)
        fcntl.flock(folder, fcntl.LOCK_EX)
        for seconds in (0, 1):
            table = pqds.open("orders", wait=seconds)
            with self.assertRaises(pqds.Device):
                table.remove([])
            words = self.words_of("remove", functools.partial(table.remove, []), "echo done 0")
            self.assertEqual(words[words.index("--wait") + 1], str(seconds))
        fcntl.flock(folder, fcntl.LOCK_UN)
        self.assertEqual(pqds.open("orders", wait=1).remove([]), 0)
        with self.assertRaises(pqds.WrongCall):
            pqds.open("orders", wait=-1)


if __name__ == "__main__":
    unittest.main()
