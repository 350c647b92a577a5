"""A table of 100,000,000 rows in 1,000 groups under 10 keys, for bench/peers/peers.py: what each
command takes on it, and on the table when it had 1,000,000 and 10,000,000 rows, and its sums by key
by workers of Dask.

It grows by imports of files of 1,000,000 rows. A cell has seconds, processor seconds and the most
memory in MB. A command that takes less than five seconds is run twice, and the lesser figures are
printed. The counts of rows are compared with those that went in. The variable ROWS has how many rows
there are at the end (100,000,000, which take 2.9 GB)."""

from __future__ import annotations

import glob
import json
import os
import resource
import shutil
import subprocess
import sys
import time
from pathlib import Path
from typing import Any, Callable, Dict, List, Optional

try:
    import numpy as np
    import pyarrow as pa
    import pyarrow.compute as pc
    import pyarrow.parquet as pq
except ModuleNotFoundError as missing:
    sys.exit(f"{missing}: bench/peers/peers.sh makes a room that has it")

import side

ROWS = int(os.environ.get("ROWS", "100000000"))
PART = 1_000_000
KEYS = 10
VALUES = 1000  # v has so many values in turn, and no group can be ruled out by it
GROUPS = ["--group-rows", str(PART // KEYS)]
SCHEMA = [
    {"name": "k", "rep": "required", "type": "bytes", "note": "utf8"},
    {"name": "n", "rep": "required", "type": "int64"},
    {"name": "v", "rep": "required", "type": "int32"},
    {"name": "t", "rep": "required", "type": "bytes", "note": "utf8"},
]
ARROW = pa.schema(
    [
        pa.field("k", pa.string(), False),
        pa.field("n", pa.int64(), False),
        pa.field("v", pa.int32(), False),
        pa.field("t", pa.string(), False),
    ]
)


def rows_from(first: int, count: int) -> pa.Table:
    """So many rows; row n has the key n modulo 10."""
    places = np.arange(first, first + count)
    names = pa.array([f"key {key}" for key in range(KEYS)])
    keys = pa.DictionaryArray.from_arrays(pa.array(places % KEYS, pa.int32()), names).cast(
        pa.string()
    )
    texts = pc.binary_join_element_wise(
        "row", pc.utf8_lpad(pc.cast(pa.array(places), pa.string()), 9, "0"), " "
    )
    return pa.table(
        [keys, pa.array(places), pa.array(places % VALUES, pa.int32()), texts], schema=ARROW
    )


class Large:
    """The table, and what each command took on it at each size."""

    def __init__(self, it: side.Side) -> None:
        self.it, self.folder, self.parts = it, it.file("large"), 0
        self.found: Dict[str, Dict[int, List[float]]] = {}
        self.sizes: List[int] = []
        Path(it.file("large.json")).write_text(json.dumps(SCHEMA))
        it.pqds("create", self.folder, it.file("large.json"), "k")

    def rows(self) -> int:
        return self.parts * PART

    def asked(self, *words: str) -> str:
        """What the program prints for these words, without a measure."""
        return subprocess.run(
            [self.it.path, *words], capture_output=True, check=True
        ).stdout.decode()

    def write_part(self, part: int) -> str:
        file = self.it.file("part.parquet")
        pq.write_table(rows_from(part * PART, PART), file, compression="NONE", use_dictionary=False)
        return file

    def noted(self, what: str, times: Any) -> None:
        """Keeps what a command took; of two runs the lesser."""
        before = self.found.setdefault(what, {}).get(self.rows(), times)
        self.found[what][self.rows()] = [min(pair) for pair in zip(times, before, strict=True)]

    def measure(
        self, what: str, *words: str, wanted: Optional[str] = None, once: bool = False
    ) -> None:
        """Runs a command once or twice; wanted is what it prints."""
        out = self.it.file("out") if wanted is not None else None
        for _ in range(2):
            times = self.it.pqds(*words, out=out)
            self.noted(what, times)
            printed = Path(out).read_text().strip() if out else wanted
            if printed != wanted:
                at = f"large, {what} at {self.rows()} rows"
                self.it.tell(f"{at}: {str(printed)[:100]}, where {wanted} is wanted")
            if once or times[0] > 5:
                break

    def grow_to(self, parts: int) -> None:
        """Imports files until there are so many; the last import is measured."""
        while self.parts < parts:
            file = self.write_part(self.parts)
            self.parts += 1
            times = self.it.pqds("import", self.folder, file, *GROUPS)
        self.noted("`import` of 1,000,000 rows", times)
        self.sizes.append(self.rows())

    def look(self) -> None:
        """The commands that change nothing."""
        low = self.rows() - PART // 2
        some = json.dumps([["n", ">=", low], ["n", "<", low + 1000]])
        value, key = json.dumps([["v", "==", VALUES // 2]]), json.dumps([["k", "==", "key 3"]])
        self.measure("`count`", "count", self.folder, wanted=str(self.rows()))
        self.measure(
            "`count` of 1,000 rows, which 10 groups may have",
            "count",
            self.folder,
            "--filter",
            some,
            wanted="1000",
        )
        self.measure(
            "`count` by a filter that rules out no group",
            "count",
            self.folder,
            "--filter",
            value,
            wanted=str(self.rows() // VALUES),
        )
        self.measure("`groups`", "groups", self.folder)
        self.measure("`groups --stats`", "groups", self.folder, "--stats")
        self.measure("`inspect`", "inspect", self.folder)
        self.measure("`check`", "check", self.folder)
        self.measure(
            "`query` of 10 of 1,000 rows, by `--limit 10`",
            "query",
            self.folder,
            "--filter",
            some,
            "--limit",
            "10",
        )
        self.measure(
            "`query` of 1,000 rows, which 10 groups may have",
            "query",
            self.folder,
            "--filter",
            some,
        )
        self.measure("`query` of one key of 10", "query", self.folder, "--filter", key)
        self.measure("`query` of one column", "query", self.folder, "n")
        self.measure("`query` of all rows", "query", self.folder)
        files = self.it.file("files")
        os.makedirs(files)
        self.measure(
            "`query --out FOLDER` of one key of 10",
            "query",
            self.folder,
            "--filter",
            key,
            "--out",
            files,
            once=True,
        )
        found = sum(pq.read_metadata(file).num_rows for file in glob.glob(f"{files}/*"))
        if found != self.rows() // KEYS:
            self.it.tell(f"large, query --out: {found} rows")
        shutil.rmtree(files)

    def newest(self, count: int) -> List[str]:
        """The numbers of the newest groups."""
        numbers = sorted(
            json.loads(line)["number"] for line in self.asked("groups", self.folder).splitlines()
        )
        return [str(number) for number in numbers[-count:]]

    def change(self) -> None:
        """The commands that change it. At the end it has the rows and groups that it had; the last
        part was imported anew."""
        line = Path(self.it.file("one.jsonl"))
        one = {"k": "key 3", "n": self.rows(), "v": 0, "t": "one more"}
        line.write_text(json.dumps(one) + "\n")
        self.measure(
            "`append` of one row", "append", self.folder, str(line), wanted="done 1", once=True
        )
        self.measure(
            "`remove` of one group",
            "remove",
            self.folder,
            *self.newest(1),
            wanted="done 1",
            once=True,
        )
        self.measure(
            "`rewrite` of 10 groups, 1,000,000 rows",
            "rewrite",
            self.folder,
            *self.newest(KEYS),
            *GROUPS,
            wanted=f"done {PART}",
            once=True,
        )
        low = self.rows() - PART // 2
        some = json.dumps([["n", ">=", low], ["n", "<", low + 1000]])
        self.measure(
            "`remove` of 1,000 rows of 10 groups",
            "remove",
            self.folder,
            "--filter",
            some,
            *GROUPS,
            wanted="done 1000",
            once=True,
        )
        self.measure(
            "`remove` of 10 groups",
            "remove",
            self.folder,
            *self.newest(KEYS),
            wanted=f"done {PART - 1000}",
            once=True,
        )
        self.it.pqds("import", self.folder, self.it.file("part.parquet"), *GROUPS)
        self.measure("`count`", "count", self.folder, wanted=str(self.rows()), once=True)

    def table(self) -> None:
        """Prints what was measured."""
        heads = [f"{rows:,} rows, {rows // PART * KEYS:,} groups" for rows in self.sizes]
        print("\n| | " + " | ".join(heads) + " |\n|" + "---|" * (1 + len(heads)))
        for what, at in self.found.items():
            cells = [
                "{:.3g} / {:.3g} / {} MB".format(*at[rows]) if rows in at else ""
                for rows in self.sizes
            ]
            print(f"| {what} | " + " | ".join(cells) + " |", flush=True)
        files = glob.glob(f"{self.folder}/**/*.parquet", recursive=True)
        size, root = sum(map(os.path.getsize, files)), os.path.getsize(f"{self.folder}/_metadata")
        parts = f"{len(files)} part files of {size:,} bytes"
        print(f"root {root:,} bytes, {parts}, load {os.getloadavg()}", flush=True)


def of_processor() -> List[float]:
    """The processor seconds and the most memory of this process."""
    used = resource.getrusage(resource.RUSAGE_SELF)
    return [used.ru_utime + used.ru_stime, used.ru_maxrss >> 10]


def summed(table: Large, cluster: Callable[[int], Any]) -> None:
    """The sum by key by one, two and four workers of Dask: seconds, the processor seconds of all
    workers, the most memory of one."""
    import dask.dataframe as dd  # noqa: PLC0415

    rows = table.rows()
    wanted = {f"key {key}": sum(range(key, rows, KEYS)) for key in range(KEYS)}
    head = ("workers", "seconds", "processor seconds of all workers", "memory of a worker")
    print("\n| " + " | ".join(head) + " |\n|" + "---|" * len(head))
    for count in (1, 2, 4):
        with cluster(count) as client:
            before = client.run(of_processor)
            begun = time.perf_counter()
            frame = dd.read_parquet(
                table.folder, engine="pyarrow", dtype_backend="pyarrow", columns=["k", "n"]
            )
            seen = frame.groupby("k", observed=True)["n"].sum().compute()
            seconds = time.perf_counter() - begun
            after = client.run(of_processor)
            client.cluster.close()
        if {str(key): int(value) for key, value in seen.items()} != wanted:
            table.it.tell(f"large: {count} workers give other sums")
        used = sum(after[who][0] - before[who][0] for who in after)
        most = max(it[1] for it in after.values())
        print(f"| {count} | {seconds:.1f} | {used:.1f} | {most:.0f} MB |", flush=True)


def run(path: str, room: str, tell: Any, cluster: Callable[[int], Any]) -> None:
    table = Large(side.Side(path, room, tell))
    for parts in sorted({ROWS // PART // 100, ROWS // PART // 10, ROWS // PART} - {0}):
        table.grow_to(parts)
        print(f"{table.rows():,} rows, load {os.getloadavg()}", flush=True)
        table.look()
        table.change()
        table.table()
    summed(table, cluster)
