"""The program as a process: where it is found, how it ends, and what is known then."""

from __future__ import annotations

import os
import pickle
import signal
import subprocess
import sys
import time
import unittest
from concurrent.futures import ThreadPoolExecutor
from pathlib import Path
from typing import Any, Callable, Dict, Iterator, List

from support import ORDERS, TOP, RoomCase

import pqds

NAMES = """
Truncated Magic Thrift Schema Codec Float Int96 Encoding Page Levels Value Utf8 Limit RowShape NoColumn Unordered Key
NoGroup Stale NoJob NoCursor Full NoTable Exists Device InDoubt Closed Memory Script
""".split()  # noqa: SIM905


class Refusals(RoomCase):
    def test_each_name_has_a_class_and_its_number(self) -> None:
        self.assertEqual(sorted(pqds.REFUSALS), sorted(NAMES))
        for number, name in enumerate(NAMES, 1):
            kind = getattr(pqds, name)
            self.assertIs(kind, pqds.REFUSALS[name])
            self.assertTrue(issubclass(kind, pqds.Refused))
            self.assertEqual((kind.number, kind("why").name), (number, name))

    def test_the_names_are_those_of_the_program(self) -> None:
        source = TOP / "crates/bits/src/refusal.rt"
        if not source.exists():
            self.skipTest("the sources of the program are not here")
        said = [it.split('"')[1].split() for it in source.read_text().splitlines() if "#[error(" in it]
        self.assertEqual([it[:2] for it in said], [[str(number), name] for number, name in enumerate(NAMES, 1)])

    def test_each_class_is_raised_for_its_line(self) -> None:
        for number, name in enumerate(NAMES, 1):
            self.fake(f"echo 'the reason' >&2; echo 'refused {number} {name}' >&2; exit 1")
            with self.assertRaises(pqds.REFUSALS[name]) as caught:
                pqds.open("t")
            self.assertIn("the reason", caught.exception.reason)
            self.assertIn(f"refused {number} {name}", str(caught.exception))

    def test_a_column_follows_the_name(self) -> None:
        self.fake("echo 'refused 6 Float a.b c' >&2; exit 1")
        with self.assertRaises(pqds.Float) as caught:
            pqds.open("t")
        self.assertEqual((caught.exception.column, caught.exception.reason), ("a.b c", ""))
        self.assertEqual(str(caught.exception), "refused 6 Float a.b c")

    def test_a_name_of_a_later_program(self) -> None:
        self.fake("echo 'refused 30 Newer' >&2; exit 1")
        with self.assertRaises(pqds.Refused) as caught:
            pqds.open("t")
        self.assertEqual((caught.exception.number, caught.exception.name), (30, "Newer"))

    def test_exceptions_can_be_sent_to_other_processes(self) -> None:
        error = pickle.loads(pickle.dumps(pqds.Float("why", "a.b")))
        self.assertEqual((error.reason, error.column, str(error)), ("why", "a.b", "refused 6 Float a.b: why"))
        self.assertEqual(pickle.loads(pickle.dumps(pqds.Dataset("t"))).path, "t")


class Ends(RoomCase):
    def setUp(self) -> None:
        super().setUp()
        self._real = os.environ["PQDS"]

    def fake_change(self, script: str) -> None:
        """A program that does this, but tells the schema as the real one does."""
        self.fake(f'[ "$1" = schema ] && exec "$REAL" "$@"; {script}')
        os.environ["REAL"] = self._real

    def test_a_wrong_call(self) -> None:
        self.fake("echo 'error: unexpected' >&2; exit 2")
        with self.assertRaises(pqds.WrongCall) as caught:
            pqds.open("t")
        self.assertIn("error: unexpected", str(caught.exception))

    def test_in_doubt_says_how_to_find_out(self) -> None:
        table = pqds.create("t", ORDERS)
        self.fake_change('cat >/dev/null; echo "refused 26 InDoubt" >&2; exit 1')
        with self.assertRaises(pqds.InDoubt) as caught:
            table.append([{"region": "x", "order": 1}])
        self.assertIn("compare count()", caught.exception.reason)

    def test_a_killed_change_is_in_doubt_and_a_killed_question_is_not(self) -> None:
        self.fake("kill -9 $$")
        table = pqds.Dataset("t")
        calls: List[Callable[[], int]] = [
            lambda: table.remove(groups=[1]),
            lambda: table.rewrite(min_rows=1),
            lambda: table.import_files("f"),
        ]
        for call in calls:
            with self.assertRaises(pqds.InDoubt) as caught:
                call()
            self.assertIn("signal 9", caught.exception.reason)
        with self.assertRaises(pqds.WrongCall) as ended:
            table.schema()
        self.assertIn("it has changed nothing", str(ended.exception))

    def test_a_change_that_is_killed_before_its_input_ends_changes_nothing(self) -> None:
        table = pqds.create("t", ORDERS)
        self.fake_change("kill -9 $$")
        with self.assertRaises(pqds.WrongCall) as caught:
            table.append({"region": "x" * 1000, "order": it} for it in range(10_000))
        self.assertIn("it has changed nothing", str(caught.exception))
        with self.assertRaises(pqds.InDoubt):
            table.append([])

    def test_ctrl_c_after_the_input(self) -> None:
        pqds.create("t", ORDERS)
        self.fake_change("cat >/dev/null; echo begun >&2; kill -INT $PPID; exec sleep 60")
        script = (
            "import pqds\n"
            "try:\n"
            "    pqds.open('t').append([{'region': 'x', 'order': 1}])\n"
            "except KeyboardInterrupt as error:\n"
            "    print(error)\n"
        )
        environment = {**os.environ, "PYTHONPATH": str(TOP / "python")}
        words = [sys.executable, "-B", "-c", script]
        done = subprocess.run(words, capture_output=True, env=environment, text=True, check=True)
        self.assertIn("append was stopped; all rows are there or none", done.stdout)

    def test_a_program_that_does_not_read_its_input(self) -> None:
        table = pqds.create("t", ORDERS)
        self.fake_change('echo "why" >&2; echo "refused 23 NoTable" >&2; exit 1')
        with self.assertRaises(pqds.NoTable):
            table.append({"region": "x" * 1000, "order": it} for it in range(10_000))

    def test_what_is_no_answer(self) -> None:
        self.fake("echo nonsense")
        with self.assertRaises(pqds.WrongCall):
            pqds.Dataset("t").check()
        with self.assertRaises(pqds.WrongCall):
            pqds.Dataset("t").remove(groups=[1])

    def test_ctrl_c(self) -> None:
        pqds.create("t", ORDERS)
        script = (
            "import pqds, sys, time\n"
            "def rows():\n"
            "    for number in range(100):\n"
            "        yield {'region': 'x', 'order': number}\n"
            "    print('begun', flush=True)\n"
            "    time.sleep(60)\n"
            "try:\n"
            "    pqds.open('t').append(rows())\n"
            "except KeyboardInterrupt as error:\n"
            "    print(type(error).__name__, error)\n"
        )
        words = [sys.executable, "-B", "-c", script]
        environment = {**os.environ, "PYTHONPATH": str(TOP / "python")}
        with subprocess.Popen(words, stdout=subprocess.PIPE, env=environment, text=True) as process:
            assert process.stdout is not None
            self.assertEqual(process.stdout.readline(), "begun\n")
            time.sleep(0.1)
            process.send_signal(signal.SIGINT)
            said = process.stdout.read()
        self.assertEqual(said, "Interrupted append was stopped; it has changed nothing\n")
        self.assertEqual(pqds.open("t").count(), 0)


class Finding(RoomCase):
    def setUp(self) -> None:
        super().setUp()
        before = dict(os.environ)
        self.addCleanup(os.environ.update, before)

    def test_the_variable_comes_first_and_then_the_path(self) -> None:
        real = os.environ["PQDS"]
        self.assertEqual(pqds.program(), real)
        Path("bin").mkdir()
        Path("bin/pqds").symlink_to(real)
        os.environ["PATH"] = f"{Path('bin').resolve()}:{os.environ['PATH']}"
        self.assertEqual(pqds.program(), real)
        del os.environ["PQDS"]
        self.assertEqual(pqds.program(), str(Path("bin").resolve() / "pqds"))

    def test_there_is_none(self) -> None:
        os.environ["PQDS"] = "/nowhere/pqds"
        with self.assertRaises(pqds.NoProgram) as caught:
            pqds.open("t")
        self.assertIn("/nowhere/pqds", str(caught.exception))
        del os.environ["PQDS"]
        os.environ["PATH"] = "/nowhere"
        with self.assertRaises(pqds.NoProgram):
            pqds.create("t", ORDERS)


class Side(RoomCase):
    """Calls beside one another."""

    def test_a_change_in_a_loop_over_the_same_table(self) -> None:
        table = pqds.create("t", ORDERS)
        table.append({"region": "x" * 50, "order": it} for it in range(50_000))
        orders = []
        for row in table.rows():
            if row["order"] == 0:
                self.assertEqual(table.append([{"region": "y", "order": -1}]), 1)
                self.assertEqual(table.remove([("order", "<", 40_000)]), 40_001)
                self.assertEqual(table.count(), 10_000)
            orders.append(row["order"])
        self.assertEqual(orders, list(range(50_000)))
        self.assertEqual(table.check().rows, 10_000)

    def test_a_change_in_a_loop_where_the_folder_has_no_lock(self) -> None:
        table = pqds.create("t", ORDERS)
        table.append({"region": "x" * 50, "order": it} for it in range(50_000))
        Path("t/_lock").unlink()
        rows = table.rows()
        self.assertEqual(next(rows)["order"], 0)
        same = pqds.open("../" + Path.cwd().name + "/t")
        changes: List[Callable[[], int]] = [lambda: table.remove([]), lambda: same.append([])]
        for change in changes:
            with self.assertRaises(pqds.WrongCall) as caught:
                change()
            self.assertIn("close the iterator", str(caught.exception))
        other = pqds.create("u", ORDERS)
        self.assertEqual(other.append([{"region": "x", "order": 1}]), 1)
        self.assertEqual(table.count(), 50_000)
        rows.close()  # type: ignore[attr-defined]
        self.assertEqual(table.remove([]), 50_000)

    def test_a_change_after_few_rows_that_were_not_read(self) -> None:
        table = pqds.create("t", ORDERS)
        table.append({"region": "x", "order": it} for it in range(100))
        rows = table.rows()
        next(rows)
        self.assertEqual(table.remove([]), 100)
        self.assertEqual(len(list(rows)), 99)

    def test_threads_append_one_after_another(self) -> None:
        table = pqds.create("t", ORDERS)

        def append(number: int) -> int:
            return table.append([{"region": "x", "order": number}])

        with ThreadPoolExecutor(4) as threads:
            self.assertEqual(sum(threads.map(append, range(12))), 12)
        self.assertEqual(sorted(it["order"] for it in table.rows()), list(range(12)))


class Memory(RoomCase):
    def test_rows_stream_both_ways(self) -> None:
        table = pqds.create("t", ORDERS)
        size = 200_000

        def rows() -> Iterator[Dict[str, Any]]:
            for number in range(size):
                yield {"region": "x", "order": number}

        self.assertEqual(table.append(rows()), size)
        self.assertEqual(table.check()[:2], (size, 2))
        orders = (it["order"] for it in table.rows(columns=["order"]))
        self.assertEqual(sum(orders), size * (size - 1) // 2)


if __name__ == "__main__":
    unittest.main()
