"""For bench/peers/python.sh: rows that come in from four workers of Dask and are read by them. Each worker is a process that makes its
rows and writes its files; `import_files` then appends all files in one commit. Prints seconds on the clock and the most memory of a
process, and ends with status 1 if a row is missing or wrong."""

import contextlib
import os
import resource
import sys
import tempfile
import time

try:
    import dask
    import dask.dataframe as dd
    import numpy as np
    import pandas as pd
    import pqds
    from dask.distributed import Client, LocalCluster
except ModuleNotFoundError as missing:
    sys.exit(f"{missing}: bench/peers/peers.sh makes a room that has it")

PARTS = 16
KEYS = 10


def part_of(number, rows):
    """A part of the rows, in the types of the table."""
    places = np.arange(number * rows // PARTS, (number + 1) * rows // PARTS)
    return pd.DataFrame(
        {
            "k": pd.Series(places % KEYS).map("key {}".format),
            "n": pd.array(places, dtype="Int64"),
            "t": pd.to_datetime(places, unit="s", utc=True).as_unit("us"),
            "o": pd.array(np.where(places % 5 == 0, 0, places % 1000), dtype="Int64"),
        }
    )


SCHEMA = [
    {"name": "k", "rep": "required", "type": "bytes", "note": "utf8"},
    {"name": "n", "rep": "optional", "type": "int64"},
    {"name": "t", "rep": "optional", "type": "int64", "note": "timestamp_micros"},
    {"name": "o", "rep": "optional", "type": "int64"},
]


def memory_of(who):
    return resource.getrusage(who).ru_maxrss // 1024


def of_programs():
    """The processor seconds of the processes that have ended."""
    used = resource.getrusage(resource.RUSAGE_CHILDREN)
    return used.ru_utime + used.ru_stime


def timed(what, call):
    begun, before = time.perf_counter(), of_programs()
    found = call()
    seconds = time.perf_counter() - begun
    used = of_programs() - before
    print(f"{what:40} {seconds:7.2f} s" + (f", {used:.2f} s of the processor in the program" if used else ""), flush=True)
    return found


def main():
    if len(sys.argv) != 2 or not sys.argv[1].isdigit():
        print(f"{os.path.basename(__file__)} ROWS: bench/peers/python.sh runs this", file=sys.stderr)
        sys.exit(2)
    rows, count = int(sys.argv[1]), 4
    dask.config.set({"distributed.worker.daemon": True, "dataframe.convert-string": False})
    with tempfile.TemporaryDirectory() as room:
        os.chdir(room)
        table = pqds.create("table", SCHEMA, ["k"])
        with (
            contextlib.suppress(TimeoutError),  # of workers that do not end in time on a busy machine
            LocalCluster(count, threads_per_worker=1, processes=True, dashboard_address=None) as cluster,
            Client(cluster) as client,
        ):
            frame = dd.from_map(part_of, range(PARTS), rows=rows, meta=part_of(0, 0))
            schema = table.to_arrow(limit=0).schema
            options = {"compression": None, "write_index": False, "schema": schema}
            timed(f"{count} workers write {rows} rows", lambda: frame.to_parquet("files", **options))
            files = sorted((f"files/{it}" for it in os.listdir("files")), key=lambda it: int(it.split(".")[1]))
            size = sum(os.path.getsize(it) for it in files) >> 20
            done = timed(f"import_files of {len(files)} files, {size} MB", lambda: table.import_files(files))
            print(f"the most memory of the program so far: {memory_of(resource.RUSAGE_CHILDREN)} MB", flush=True)
            with pqds.dask.reading("table") as found:
                sums = timed(f"a sum by key by {count} workers", found.groupby("k")["n"].sum().compute)
            most = max(client.run(lambda: __import__("resource").getrusage(0).ru_maxrss // 1024).values())
            print(f"the most memory of a worker: {most} MB", flush=True)
        wanted = {f"key {key}": sum(range(key, rows, KEYS)) for key in range(KEYS)}
        whole = table.check()
        print(f"{done} rows came in; the table has {whole.rows} rows in {whole.groups} groups", flush=True)
        sys.exit(done != rows or whole.rows != rows or {str(key): int(it) for key, it in sums.items()} != wanted)


if __name__ == "__main__":
    main()
