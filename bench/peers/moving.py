"""What stands in the way of a user of fastparquet who moves over, for bench/peers/python.sh: each
line of the table of docs/PYTHON.md on fastparquet is tried, call by call, with fastparquet and with
the module.

Prints each line of the table, and below it each call with what both gave. The last line counts the
lines and the calls that did what the page says. The status is 1 if one of them did not, or if the
table has a line that is not tried here."""

from __future__ import annotations

import datetime as dt
import os
import sys
import tempfile
import types
import warnings
from pathlib import Path
from typing import Any, Callable, Dict, List, Tuple

try:
    import cramjam

    # Debian's build has no gzip, and fastparquet asks for its names when it is imported.
    if not hasattr(cramjam, "gzip"):
        cramjam.gzip = types.SimpleNamespace(compress=None, decompress=None, decompress_into=None)
    import fastparquet
    import fastparquet.writer
    import fsspec
    import pandas as pd
    import pqds
except ModuleNotFoundError as missing:
    sys.exit(f"{missing}: bench/peers/peers.sh makes a room that has it")

PAGE = Path(__file__).resolve().parents[2] / "docs/PYTHON.md"
SECTION = "\n## From fastparquet\n"
LONGEST = 110

Call = Callable[[], Any]


def table_of(page: str) -> List[Tuple[str, str]]:
    """The lines of the table: the call of fastparquet, and what the page says of it."""
    section = page.partition(SECTION)[2].partition("\n## ")[0]
    rows = [line for line in section.splitlines() if line.startswith("|")]
    return [
        (row[2:].partition(" | ")[0], row[2:].partition(" | ")[2].removesuffix(" |"))
        for row in rows[2:]
    ]


def outcome(call: Call) -> Any:
    """What a call gives, or `raises` and the exception."""
    try:
        return call()
    except Exception as error:  # noqa: BLE001
        text = str(error).splitlines()[0] if str(error) else ""
        return f"raises {type(error).__name__}: {text}"


def frame() -> pd.DataFrame:
    return pd.DataFrame({"k": ["a", "b", "a", "b"], "n": [1, 2, 3, 4], "s": ["x", None, "y", "z"]})


def rows(found: pd.DataFrame, *columns: str) -> List[List[Any]]:
    """The rows of a frame, with one kind of null and keys as texts."""
    found = found[list(columns or ("k", "n", "s"))]
    return [
        [None if pd.isna(it) else it for it in row] for row in found.astype(object).values.tolist()
    ]


ALL = [["a", 1, "x"], ["a", 3, "y"], ["b", 2, None], ["b", 4, "z"]]


class Moving:
    def __init__(self) -> None:
        self.made = self.calls = self.wrong = 0

    def say(self, call: str, theirs: Call, ours: Call, wanted: Any, wanted_here: Any = ...) -> None:
        """Makes a call in both, and compares what they gave with what is wanted of fastparquet, and
        of the module if that is something else. A text is the beginning of what is wanted."""
        self.calls += 1
        pairs = (
            (outcome(theirs), wanted),
            (outcome(ours), wanted if wanted_here is ... else wanted_here),
        )
        well = [
            given == one or (isinstance(one, str) and str(given).startswith(one))
            for given, one in pairs
        ]
        self.wrong += not all(well)
        shown = [
            str(given) if len(str(given)) <= LONGEST else f"{str(given)[:LONGEST]}.."
            for given, _ in pairs
        ]
        print(f"    {call}\n        fastparquet: {shown[0]}\n        pqds:        {shown[1]}")
        for (_, one), right in zip(pairs, well, strict=True):
            if not right:
                print(f"        DIFFERS: {one} is wanted")

    def both(
        self, data: Any = None, keys: Tuple[str, ...] = ("k",), theirs: Any = None, ours: Any = None
    ) -> Tuple[Any, Any]:
        """A frame written and opened by both."""
        self.made += 1
        data = frame() if data is None else data
        fastparquet.write(
            f"theirs{self.made}",
            data,
            partition_on=list(keys),
            file_scheme="hive",
            **(theirs or {}),
        )
        pqds.write(f"ours{self.made}", data, list(keys), **(ours or {}))
        return self.opened()

    def opened(self) -> Tuple[Any, Any]:
        return fastparquet.ParquetFile(f"theirs{self.made}"), pqds.ParquetFile(f"ours{self.made}")

    def absent(self, call: str, option: str, theirs: Call, wanted: Any) -> None:
        """An option that only fastparquet has."""
        here: Dict[str, Any] = {option: None}
        self.say(
            call, theirs, lambda: pqds.write("never", frame(), **here), wanted, "raises TypeError"
        )

    # ---- writing ----

    def write(self) -> None:
        theirs, ours = self.both()
        self.say(
            "write(path, df, partition_on=['k']), read again",
            lambda: rows(theirs.to_pandas()),
            lambda: rows(ours.to_pandas()),
            ALL,
        )
        self.say(
            "the folder that pqds wrote, by both",
            lambda: rows(fastparquet.ParquetFile(ours.dataset.path).to_pandas()),
            lambda: rows(ours.to_pandas()),
            ALL,
        )
        empty = pd.DataFrame({"k": ["a", ""], "n": [1, 2]})
        options: Dict[str, Any] = {"partition_on": ["k"], "file_scheme": "hive"}
        self.say(
            "a key that is an empty text",
            lambda: fastparquet.write("empty", empty, **options),
            lambda: pqds.write("empties", empty, ["k"]),
            None,
            "raises Key",
        )
        self.say(
            "the rows then",
            lambda: len(fastparquet.ParquetFile("empty").to_pandas()),
            lambda: pqds.open("empties").count(),
            2,
            0,
        )
        self.absent(
            "with file_scheme='hive'",
            "file_scheme",
            lambda: fastparquet.write("hive", frame(), file_scheme="hive"),
            None,
        )
        gaps = pd.DataFrame({"k": ["a", None], "n": [1, 2]})
        self.say(
            "a null in a key",
            lambda: fastparquet.write("gaps", gaps, **options),
            lambda: pqds.write("never", gaps, ["k"]),
            None,
            "raises RowShape",
        )
        self.say(
            "the rows then",
            lambda: len(fastparquet.ParquetFile("gaps").to_pandas()),
            lambda: os.path.exists("never"),
            1,
            False,
        )

    def write_more(self) -> None:
        self.both()
        options: Dict[str, Any] = {"partition_on": ["k"], "file_scheme": "hive", "append": True}
        fastparquet.write(f"theirs{self.made}", frame(), **options)
        pqds.write(f"ours{self.made}", frame(), append=True)
        theirs, ours = self.opened()
        self.say(
            "write(.., append=True), the rows of n then",
            lambda: sorted(rows(theirs.to_pandas(), "n")),
            lambda: sorted(rows(ours.to_pandas(), "n")),
            sorted([[n] for n in (1, 2, 3, 4)] * 2),
        )
        self.say(
            "the same without a table",
            lambda: fastparquet.write("nowhere", frame(), **options),
            lambda: pqds.write("nowhere2", frame(), append=True),
            "raises FileNotFoundError",
            "raises Device",
        )
        self.both()
        options["append"] = again = "overwrite"
        more: Any = {"append": again}
        self.say(
            "append='overwrite' of a row of key a",
            lambda: fastparquet.write(f"theirs{self.made}", frame()[:1], **options),
            lambda: pqds.write(f"ours{self.made}", frame()[:1], **more),
            None,
            "raises ValueError: append: expected True or False, found 'overwrite'",
        )
        self.say(
            "the rows of n then",
            lambda: sorted(rows(self.opened()[0].to_pandas(), "n")),
            lambda: sorted(rows(self.opened()[1].to_pandas(), "n")),
            [[1], [2], [4]],
            [[1], [2], [3], [4]],
        )

    def write_again(self) -> None:
        self.both()
        options: Dict[str, Any] = {"partition_on": ["k"], "file_scheme": "hive"}
        self.say(
            "write(..) on an existing table",
            lambda: fastparquet.write(f"theirs{self.made}", frame()[:1], **options),
            lambda: pqds.write(f"ours{self.made}", frame()[:1]),
            None,
            "raises Exists",
        )
        theirs, ours = self.opened()
        self.say("its rows then", theirs.count, ours.count, 1, 4)

    def compression(self) -> None:
        self.absent(
            "write(.., compression='GZIP')",
            "compression",
            lambda: fastparquet.write("zipped", frame(), compression=None),
            None,
        )

    def group_rows(self) -> None:
        theirs, ours = self.both(theirs={"row_group_offsets": 1}, ours={"group_rows": 1})
        self.say(
            "row_group_offsets=1, group_rows=1: groups",
            lambda: len(theirs.row_groups),
            lambda: len(ours.row_groups),
            4,
        )

    def write_index(self) -> None:
        indexed = frame()
        indexed.index = pd.Index([5, 6, 7, 8], name="i")
        self.say(
            "a frame with an index",
            lambda: fastparquet.write("kept", indexed, file_scheme="hive"),
            lambda: pqds.write("never", indexed),
            None,
            "raises Schema",
        )
        for kept, columns in ((True, ["i", "n", "s"]), (False, ["n", "s"])):
            theirs, ours = self.both(
                indexed, theirs={"write_index": kept}, ours={"write_index": kept}
            )
            self.say(
                f"write_index={kept}: columns",
                lambda theirs=theirs: sorted(theirs.columns),
                lambda ours=ours: sorted(ours.columns),
                columns,
            )

    def other_options(self) -> None:
        given: Dict[str, Any] = {
            "has_nulls": True,
            "times": "int64",
            "object_encoding": "utf8",
            "fixed_text": {"s": 1},
            "stats": True,
            "custom_metadata": {"a": "b"},
        }
        for name, value in given.items():
            data = frame().fillna("") if name == "fixed_text" else frame()
            self.absent(
                f"write(.., {name}={value!r})",
                name,
                lambda name=name, value=value, data=data: fastparquet.write(
                    "options", data, **{name: value}
                ),
                None,
            )

    def floats(self) -> None:
        prices = pd.DataFrame({"price": [0.5, None]})
        self.say(
            "a column of floats",
            lambda: fastparquet.write("floats", prices),
            lambda: pqds.write("never", prices),
            None,
            "raises Float",
        )
        pqds.write("decimals", prices, floats={"price": 2})
        self.say(
            "floats={'price': 2}: the values",
            lambda: rows(fastparquet.ParquetFile("floats").to_pandas(), "price"),
            lambda: [
                [it and float(it)] for (it,) in rows(pqds.open("decimals").to_pandas(), "price")
            ],
            [[0.5], [None]],
        )

    def categories(self) -> None:
        some = frame().astype({"s": "category"})
        self.say(
            "a column of categories",
            lambda: fastparquet.write("categories", some),
            lambda: pqds.write("never", some),
            None,
            "raises Schema",
        )
        theirs, ours = self.both()
        self.say(
            "the type of a key in a frame",
            lambda: str(theirs.to_pandas()["k"].dtype),
            lambda: str(ours.to_pandas()["k"].dtype),
            "category",
            str(frame()["k"].dtype),
        )

    # ---- reading ----

    def parquet_file(self) -> None:
        self.both()
        self.say(
            "ParquetFile(path).count()",
            lambda: self.opened()[0].count(),
            lambda: self.opened()[1].count(),
            4,
        )
        pqds.encode(
            [{"name": "n", "rep": "required", "type": "int64"}], [{"n": 1}], "single.parquet"
        )
        self.say(
            "of a single file",
            lambda: fastparquet.ParquetFile("single.parquet").count(),
            lambda: pqds.ParquetFile("single.parquet").count(),
            1,
            "raises",
        )
        self.say(
            "len(file)",
            lambda: len(self.opened()[0]),
            lambda: len(self.opened()[1]),
            2,
            "raises TypeError",
        )
        self.say(
            "file[0].count()",
            lambda: self.opened()[0][0].count(),
            lambda: self.opened()[1][0].count(),
            2,
            "raises TypeError",
        )

    def words(self) -> None:
        theirs, ours = self.both()
        self.say(".columns", lambda: theirs.columns, lambda: ours.columns, ["n", "s"])
        self.say(".count()", theirs.count, ours.count, 4)
        self.say(
            ".count(filters=[n > 3])",
            lambda: theirs.count(filters=[("n", ">", 3)]),
            lambda: ours.count(filters=[("n", ">", 3)]),
            2,
            1,
        )
        rest = {"columns": ["n", "s"], "partitions": ["k"], "rows": 4, "row_groups": 2}
        self.say(
            ".info without the name",
            lambda: {it: theirs.info[it] for it in rest},
            lambda: {it: ours.info[it] for it in rest},
            rest,
        )
        self.say(
            ".info['name']",
            lambda: theirs.info["name"],
            lambda: ours.info["name"],
            f"theirs{self.made}/_metadata",
            f"ours{self.made}",
        )

    def dtypes(self) -> None:
        theirs, ours = self.both(frame().assign(t=pd.to_datetime(["2024-01-01"] * 4)))
        self.say(
            ".dtypes of n and t",
            lambda: [str(theirs.dtypes[it]) for it in "nt"],
            lambda: [str(ours.dtypes[it]) for it in "nt"],
            ["int64", "datetime64[ns]"],
            ["Int64", "datetime64[us, UTC]"],
        )

    def to_pandas(self) -> None:
        theirs, ours = self.both()
        some: Dict[str, Any] = {"columns": ["n"], "filters": [("n", ">", 3), ("n", "<", 9)]}
        self.say(
            ".to_pandas(): the order of the columns",
            lambda: list(theirs.to_pandas().columns),
            lambda: list(ours.to_pandas().columns),
            ["n", "s", "k"],
            ["k", "n", "s"],
        )
        self.say(
            ".to_pandas(columns=['n'], filters=[n > 3, n < 9])",
            lambda: rows(theirs.to_pandas(**some), "n"),
            lambda: rows(ours.to_pandas(**some), "n"),
            [[2], [4]],
            [[4]],
        )
        self.say(
            "the same with row_filter=True",
            lambda: rows(theirs.to_pandas(**some, row_filter=True), "n"),
            lambda: ours.to_pandas(**some, row_filter=True),
            [[2], [4]],
            "raises TypeError",
        )

    def filters(self) -> None:
        theirs, ours = self.both()
        for given in (
            [("k", "==", "a")],
            [[("k", "==", "a")]],
            [[("k", "==", "a")], [("k", "in", ["b"])]],
        ):
            wanted = ALL if len(given) == 2 else ALL[:2]
            self.say(
                f"filters={given}",
                lambda given=given: rows(theirs.to_pandas(filters=given)),
                lambda given=given: rows(ours.to_pandas(filters=given)),
                wanted,
            )
        days = pqds.create(
            "days", [{"name": "d", "rep": "optional", "type": "int32", "note": "date"}]
        )
        days.append([{"d": dt.date(2024, 1, 1)}])
        self.say(
            "a date in a filter",
            lambda: len(
                fastparquet.ParquetFile("days").to_pandas(
                    filters=[("d", "==", dt.date(2024, 1, 1))]
                )
            ),
            lambda: days.count([("d", "==", dt.date(2024, 1, 1))]),
            "raises",
            1,
        )

    def to_pandas_options(self) -> None:
        _, ours = self.both()
        fastparquet.write("stored", frame().astype({"s": "category"}), file_scheme="hive")
        for name, value in (
            ("index", "n"),
            ("categories", ["s"]),
            ("dtypes", {"n": "float64", "s": "category", "k": "object"}),
        ):
            options: Dict[str, Any] = {name: value}
            self.say(
                f".to_pandas({name}={value!r})",
                lambda options=options: len(fastparquet.ParquetFile("stored").to_pandas(**options)),
                lambda options=options: ours.to_pandas(**options),
                4,
                "raises TypeError",
            )

    def head(self) -> None:
        theirs, ours = self.both()
        self.say(".head(2)", lambda: rows(theirs.head(2)), lambda: rows(ours.head(2)), ALL[:2])

    def iter_row_groups(self) -> None:
        theirs, ours = self.both()
        self.say(
            ".iter_row_groups()",
            lambda: [rows(it, "n") for it in theirs.iter_row_groups()],
            lambda: [rows(it, "n") for it in ours.iter_row_groups()],
            [[[1], [3]], [[2], [4]]],
        )
        some: Any = [("n", ">", 1)]
        self.say(
            ".iter_row_groups(filters=[n > 1])",
            lambda: [rows(it, "n") for it in theirs.iter_row_groups(filters=some)],
            lambda: [rows(it, "n") for it in ours.iter_row_groups(filters=some)],
            [[[1], [3]], [[2], [4]]],
            [[[3]], [[2], [4]]],
        )

    def row_groups(self) -> None:
        theirs, ours = self.both()
        self.say(
            ".row_groups: their types",
            lambda: [type(it).__name__ for it in theirs.row_groups],
            lambda: [type(it).__name__ for it in ours.row_groups],
            ["ThriftObject"] * 2,
            ["Group"] * 2,
        )
        self.say(
            ".num_rows of each; .rows and .key",
            lambda: [it.num_rows for it in theirs.row_groups],
            lambda: [(it.rows, it.key) for it in ours.row_groups],
            [2, 2],
            [(2, {"k": "a"}), (2, {"k": "b"})],
        )

    def statistics(self) -> None:
        theirs, ours = self.both()
        for word, wanted in (("min", [1, 2]), ("max", [3, 4]), ("null_count", [0, 0])):
            self.say(
                f".statistics[{word!r}]['n']",
                lambda word=word: list(theirs.statistics[word]["n"]),
                lambda word=word: list(ours.statistics[word]["n"]),
                wanted,
            )

    def remove_row_groups(self) -> None:
        theirs, ours = self.both()
        self.say(
            ".remove_row_groups(.row_groups[:1])",
            lambda: theirs.remove_row_groups(theirs.row_groups[:1]),
            lambda: ours.remove_row_groups(ours.row_groups[:1]),
            None,
            2,
        )
        self.say(
            "the rows then",
            lambda: rows(theirs.to_pandas()),
            lambda: rows(ours.to_pandas()),
            ALL[2:],
        )
        self.say(
            "by a number",
            lambda: theirs.remove_row_groups([0]),
            lambda: ours.remove_row_groups([ours.row_groups[0].number]),
            "raises",
            2,
        )

    def write_row_groups(self) -> None:
        theirs, ours = self.both()
        self.say(
            ".write_row_groups(df)",
            lambda: theirs.write_row_groups(frame()),
            lambda: ours.write_row_groups(frame()),
            None,
            4,
        )
        theirs, ours = self.opened()
        self.say("the rows then", theirs.count, ours.count, 8)

    def not_there(self) -> None:
        theirs, ours = self.both()
        for name in ("cats", "schema", "fmd", "key_value_metadata", "pandas_metadata"):
            self.say(
                f".{name}",
                lambda name=name: hasattr(theirs, name),
                lambda name=name: getattr(ours, name),
                True,
                "raises AttributeError",
            )
        for name in ("merge", "update_file_custom_metadata"):
            self.say(
                name,
                lambda name=name: hasattr(fastparquet.writer, name),
                lambda name=name: getattr(pqds, name),
                True,
                "raises AttributeError",
            )
        self.say(
            "pqds.open(path).schema() and .keys()",
            lambda: True,
            lambda: (len(ours.dataset.schema()), ours.dataset.keys()),
            True,
            (3, ("k",)),
        )

    def file_systems(self) -> None:
        self.both()
        some: Dict[str, Any] = {"open_with": open}
        other: Dict[str, Any] = {"fs": fsspec.filesystem("file")}
        self.say(
            "ParquetFile(path, open_with=open).count()",
            lambda: fastparquet.ParquetFile(f"theirs{self.made}", **some).count(),
            lambda: pqds.ParquetFile(f"ours{self.made}", **some),
            4,
            "raises TypeError",
        )
        self.say(
            "ParquetFile(path, fs=..).count()",
            lambda: fastparquet.ParquetFile(f"theirs{self.made}", **other).count(),
            lambda: pqds.ParquetFile(f"ours{self.made}", **other),
            4,
            "raises TypeError",
        )

    def refused(self) -> None:
        """The columns that the paragraph below the table names."""
        print("columns that are refused")
        spans = frame().assign(t=pd.to_timedelta([1, 2, 3, 4], unit="s"))
        days = frame().assign(k=pd.date_range("2024-01-01", periods=4))
        for what, data, wanted in (
            ("timedeltas", spans, "Schema"),
            ("dicts", frame().assign(j=[{"a": 1}] * 4), "Schema"),
            ("lists", frame().assign(j=[[1]] * 4), "Schema"),
            ("a key of times", days, "Key"),
        ):
            self.say(
                f"a column of {what}" if wanted == "Schema" else what,
                lambda data=data: fastparquet.write(
                    "wide", data, partition_on=["k"], file_scheme="hive"
                ),
                lambda data=data: pqds.write("never", data, ["k"]),
                None,
                f"raises {wanted}",
            )

    def lines(self) -> Dict[str, Call]:
        return {
            "`write(path, df, partition_on=[..])`": self.write,
            "`write(.., append=True)`": self.write_more,
            "`write(..)` on an existing table": self.write_again,
            "`write(.., compression=..)`": self.compression,
            "`write(.., row_group_offsets=N)`": self.group_rows,
            "`write(.., write_index=True or False)`": self.write_index,
            "`write(.., has_nulls, times, object_encoding, fixed_text, stats, custom_metadata)`": (
                self.other_options
            ),
            "floats": self.floats,
            "categories": self.categories,
            "`ParquetFile(path)`": self.parquet_file,
            "`.columns`, `.info`, `.count()`": self.words,
            "`.dtypes`": self.dtypes,
            "`.to_pandas(columns, filters)`": self.to_pandas,
            "filters": self.filters,
            "`.to_pandas(index=.., categories=.., dtypes=..)`": self.to_pandas_options,
            "`.head(n)`": self.head,
            "`.iter_row_groups(filters)`": self.iter_row_groups,
            "`.row_groups`": self.row_groups,
            "`.statistics`": self.statistics,
            "`.remove_row_groups(groups)`": self.remove_row_groups,
            "`.write_row_groups(df)`": self.write_row_groups,
            "`.cats`, `.schema`, `.fmd`, `.key_value_metadata`, `.pandas_metadata`, `merge`, "
            "`update_file_custom_metadata`": self.not_there,
            "file systems (`open_with`, `fsspec`)": self.file_systems,
        }


def main() -> int:
    if len(sys.argv) != 1:
        print(f"{os.path.basename(__file__)}: bench/peers/python.sh runs this", file=sys.stderr)
        return 2
    warnings.simplefilter("ignore")
    moving, table = Moving(), table_of(PAGE.read_text())
    lines = moving.lines()
    with tempfile.TemporaryDirectory() as room:
        os.chdir(room)
        for line, said in table:
            print(f"{line}: {said}")
            if line not in lines:
                print("    DIFFERS: the line is not tried")
                moving.wrong += 1
                continue
            lines[line]()
        moving.refused()
        os.chdir("/")
    extra = [line for line in lines if line not in dict(table)]
    for line in extra:
        print(f"DIFFERS: the table has no line {line}")
    wrong = moving.wrong + len(extra)
    right = moving.calls - moving.wrong
    print(
        f"moving: {len(table)} lines of the table, {moving.calls} calls, {right} as the page says"
    )
    return 1 if wrong else 0


if __name__ == "__main__":
    sys.exit(main())
