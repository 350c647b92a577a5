"""For bench/peers/python.sh: what a frame of so many rows takes by the Python module, by fastparquet and by pyarrow. Each measure is a
process of its own, which has the frame or the files before it begins; three of each, in turn, and the least is printed: seconds on the
clock, seconds of the processor in Python and in the program, how much more memory Python took at most, and the most memory of the
program."""

import importlib
import json
import os
import resource
import sys
import tempfile
import time
import types
from unittest import mock

try:
    import numpy as np
    import pandas as pd
    import pqds
    import pyarrow as pa
    import pyarrow.parquet as pq
except ModuleNotFoundError as missing:
    sys.exit(f"{missing}: bench/peers/peers.sh makes a room that has it")

cramjam = importlib.import_module("cramjam")
if not hasattr(cramjam, "gzip"):  # Debian's build has none, and fastparquet asks for its names when it is imported
    cramjam.gzip = types.SimpleNamespace(compress=None, decompress=None, decompress_into=None)
fastparquet = importlib.import_module("fastparquet")

TURNS = 3


def make_frame(rows):
    rng = np.random.default_rng(1)
    return pd.DataFrame(
        {
            "k": rng.choice(["north", "south", "east", "west"], rows),
            "n": np.arange(rows),
            "t": pd.to_datetime(rng.integers(0, 10**15, rows), unit="us"),
            "s": rng.choice(["axle", "bolt", "cog"], rows),
            "o": pd.array(rng.integers(0, 1000, rows), dtype="Int64"),
            "b": rng.integers(0, 2, rows).astype(bool),
        }
    )


def fresh(name):
    """The name of a folder that is not there."""
    place = tempfile.mkdtemp(dir=".")
    return f"{place}/{name}"


def without_arrow(call):
    def instead(given):
        with mock.patch("pqds._arrow.is_there", return_value=False):
            call(given)

    return instead


def write_by_pyarrow(frame):
    pq.write_to_dataset(pa.Table.from_pandas(frame, preserve_index=False), fresh("t"), partition_cols=["k"], compression="none")


def write_by_fastparquet(frame):
    fastparquet.write(fresh("t"), frame, partition_on=["k"], file_scheme="hive", compression=None)


WRITES = {
    "`pqds.write`": lambda frame: pqds.write(fresh("t"), frame, ["k"]),
    "`pqds.write` without pyarrow": without_arrow(lambda frame: pqds.write(fresh("t"), frame, ["k"])),
    "fastparquet's `write`": write_by_fastparquet,
    "pyarrow's `write_to_dataset`": write_by_pyarrow,
}
READS = {
    "`to_pandas`": lambda _: pqds.open("ours").to_pandas(),
    "`to_pandas` without pyarrow": without_arrow(lambda _: pqds.open("ours").to_pandas()),
    "`to_pandas` of one row in 1000, by a filter": lambda _: pqds.open("ours").to_pandas([("o", "==", 5)]),
    "`to_arrow`": lambda _: pqds.open("ours").to_arrow(),
    "`rows`, one by one": lambda _: sum(1 for _ in pqds.open("ours").rows()),
    "fastparquet's `to_pandas`": lambda _: fastparquet.ParquetFile("theirs").to_pandas(),
    "pyarrow's `read_table` and `to_pandas`": lambda _: pq.read_table("ours").to_pandas(),
}


def used(who):
    found = resource.getrusage(who)
    return found.ru_utime + found.ru_stime


def memory_of_programs():
    """The most memory of a process of the program so far, in MB."""
    if not os.path.exists("memory"):
        return 0
    with open("memory") as lines:
        return max(int(it) for it in lines) >> 10


def watch_program():
    """Puts a script in the place of the program that notes how much memory it took. What the system says of a child counts the
    memory of Python, from which it was forked."""
    with open("watched", "w") as script:
        script.write(f'#!/bin/sh\nexec time -q -a -o {os.getcwd()}/memory -f %M {os.environ["PQDS"]} "$@"\n')
    os.chmod("watched", 0o755)
    os.environ["PQDS"] = f"{os.getcwd()}/watched"


def measure(prepare, call):
    """What a call takes, in a process that was forked for it."""
    given, taken = os.pipe()
    if os.path.exists("memory"):
        os.remove("memory")
    if os.fork() == 0:
        ready = prepare()
        whole = resource.getrusage(resource.RUSAGE_SELF).ru_maxrss >> 10
        before, begun = used(resource.RUSAGE_SELF), time.perf_counter()
        call(ready)
        seconds, own, program = time.perf_counter() - begun, used(resource.RUSAGE_SELF) - before, used(resource.RUSAGE_CHILDREN)
        more = (resource.getrusage(resource.RUSAGE_SELF).ru_maxrss >> 10) - whole
        os.write(taken, json.dumps([seconds, own, program, more, memory_of_programs()]).encode())
        os._exit(0)
    os.close(taken)
    with open(given, "rb") as said:
        found = said.read()
    if os.wait()[1] != 0:
        sys.exit("python_speed: a measure failed")
    return json.loads(found)


def make_tables(rows):
    if os.fork() == 0:
        frame = make_frame(rows)
        pqds.write("ours", frame, ["k"])
        fastparquet.write("theirs", frame, partition_on=["k"], file_scheme="hive", compression=None)
        os._exit(0)
    os.wait()


def main():
    if len(sys.argv) != 2 or not sys.argv[1].isdigit():
        print(f"{os.path.basename(__file__)} ROWS: bench/peers/python.sh runs this", file=sys.stderr)
        sys.exit(2)
    rows = int(sys.argv[1])
    with tempfile.TemporaryDirectory() as room:
        os.chdir(room)
        watch_program()
        make_tables(rows)
        calls = {**{what: (lambda: make_frame(rows), it) for what, it in WRITES.items()}, **{what: (lambda: None, it) for what, it in READS.items()}}
        found = {what: [] for what in calls}
        for _ in range(TURNS):
            for what, (prepare, call) in calls.items():
                found[what].append(measure(prepare, call))
        print(f"{rows} rows, pandas {pd.__version__}, pyarrow {pa.__version__}, fastparquet {fastparquet.__version__}, load {os.getloadavg()}")
        print("| call | seconds | processor in Python | in the program | memory more in Python, MB | of the program |\n|---|---|---|---|---|---|")
        for what, some in found.items():
            seconds, own, program, memory, most = (min(it) for it in zip(*some))
            print(f"| {what} | {seconds:.2f} | {own:.2f} | {program:.2f} | {memory} | {most} |", flush=True)


main()
