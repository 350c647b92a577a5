"""Measures what hostile files cost: see hostile.sh, which runs this."""

import json
import os
import shutil
import subprocess
import sys
import time

# The calls of a file, of a root in a folder, and of lines of JSON.
CALLS = {
    "file": ("decode", "inspect", "inspect --json", "import"),
    "root": ("count", "query", "check", "create"),
    "rows": ("append", "encode"),
}
# A file of two rows.
SMALL = "rows_of_the_file_announced"
KINDS = ("numbers", "nulls", "lists", "booleans", "texts", "long", "structs", "keys", "lines")

# The bound of memory: what the program takes for a file of two rows, SLACK, and so many bytes for each of these (see
# `File` of hostile_files.py): bytes of the file, bytes of the footer, bytes of the largest page header, entries of the
# pages that are held side by side, bytes of the longest row, pages that are listed, values of all rows, bytes of all rows, new
# groups of the table, and columns of all of these.
BOUNDS = {
    "decode": {"bytes": 1, "structs": 160, "header": 160, "held": 48, "row": 2},
    "inspect": {"bytes": 1, "structs": 200, "header": 160, "listed": 400},
    "import": {"bytes": 1, "structs": 320, "header": 160, "held": 48, "values": 256, "written": 4, "groups": 1024, "cells": 200},
    "count": {"bytes": 1, "structs": 400},
    "append": {"bytes": 8, "values": 160, "groups": 1024, "cells": 200},
    "encode": {"bytes": 80, "fields": 2048},
}
for call in ("query", "check", "create"):
    BOUNDS[call] = BOUNDS["count"]
BOUNDS["inspect --json"] = BOUNDS["inspect"]
SLACK = 4 << 20
# The bound of address space: so many times what memory may rise above that of a small file. A list that grows has room
# for up to twice its items, of which only what is used is memory.
ROOM = 2
# The bound of time: so many times that of honest files with as many entries (or as much text) and with as many bytes of
# Thrift structs, each chunk by itself, and a second for what neither counts.
TIMES, SECONDS = 10, 1.0


class Ran:
    """How a call ended."""

    def __init__(self, status, seconds, peak, lines, told):
        self.status, self.seconds, self.peak, self.lines, self.told = status, seconds, peak, lines, told

    def refusal(self):
        """The number of the refusal; none where there is none, and text where the program ended in another way."""
        if self.status == 0:
            return None
        words = self.told.split()
        if self.status == 1 and len(words) >= 3 and words[0] == "refused" and words[1].isdigit():
            return int(words[1])
        return f"ended with {self.status}: {self.told[-200:]}"


class Bench:
    def __init__(self, top, room, program, entries, most):
        self.top, self.room, self.program, self.entries, self.most = top, room, program, entries, most
        self.base, self.rate, self.greatest = {}, {}, {}
        self.least = self.broken = 0

    def make(self, name):
        """Makes a file, in a process of its own."""
        subprocess.run([sys.executable, "-B", f"{self.top}/bench/faults/hostile_files.py", name, self.room, str(self.entries)], check=True)
        with open(f"{self.room}/{name}.facts") as file:
            return json.load(file)

    def run(self, words, limit):
        """Runs the program under a limit of its address space, in KiB, and counts the lines that it prints. The program is
        started by peak.c, a small process: a child of this one would be counted with the memory of this one."""
        measured = [f"{self.room}/peak", f"{self.room}/used", str(limit), self.program, *words]
        with open(f"{self.room}/told", "w+b") as err:
            ran = subprocess.Popen(measured, stdout=subprocess.PIPE, stderr=err)
            count = subprocess.Popen(["wc", "-l"], stdin=ran.stdout, stdout=subprocess.PIPE)
            ran.stdout.close()
            lines = int(count.communicate()[0])
            if ran.wait():
                sys.exit(f"peak.c could not run {self.program}")
            err.seek(max(0, err.seek(0, 2) - (3 << 20)))
            told = err.read().decode(errors="replace").rstrip("\n").rsplit("\n", 1)[-1]
        with open(f"{self.room}/used") as file:
            status, microseconds, peak = map(int, file.read().split())
        return Ran(status, microseconds / 1e6, peak << 10, lines, told)

    def call(self, call, name, limit=None):
        """Makes one call of the file: `import` and `append` into a new dataset, `encode` into a new file, and of a root in a
        folder of its own."""
        file, limit = f"{self.room}/{name}.parquet", limit or self.most
        if call in CALLS["root"]:
            return self.run([call, self.folder_of_root(file), *([f"{self.room}/{name}.schema.json"] if call == "create" else [])], limit)
        if call == "encode":
            out = f"{self.room}/out.parquet"
            if os.path.exists(out):
                os.remove(out)
            return self.run(["encode", f"{self.room}/{name}.schema.json", file, out], limit)
        if call not in ("import", "append"):
            return self.run([*call.split(), file], limit)
        return self.run([call, self.new_table(name), file], limit)

    def folder_of_root(self, file):
        """A folder with this file as its root."""
        folder = f"{self.room}/root"
        os.makedirs(folder, exist_ok=True)
        shutil.copyfile(file, f"{folder}/_metadata")
        return folder

    def new_table(self, name):
        """A table without rows, of the file's columns and keys."""
        table = f"{self.room}/table"
        shutil.rmtree(table, ignore_errors=True)
        with open(f"{self.room}/{name}.facts") as file:
            keys = json.load(file)["keys"]
        made = self.run(["create", table, f"{self.room}/{name}.schema.json", *keys], self.most)
        if made.status:
            sys.exit(f"{name}: its table is not made: {made.told[:300]}")
        return table

    def least_limit(self):
        """The least limit in KiB, in steps of 4 MiB, under which each call of a small file ends as without one."""
        for mib in range(4, 1024, 4):
            if all(self.call(call, SMALL, mib << 10).status == 0 for call in CALLS["file"]):
                return mib << 10
        sys.exit("no call ends under a limit of 1 GiB")

    def measure_honest(self):
        """The memory of a small file, and how long an entry of each kind of honest file takes, and a byte of long texts."""
        for call in CALLS["file"]:
            self.base[call] = self.call(call, SMALL).peak
        for call in (*CALLS["root"], *CALLS["rows"]):
            self.base[call] = self.base["import"]
        for kind in KINDS:
            facts = self.make("honest_" + kind)
            for call in CALLS[facts["kind"]]:
                ran = self.call(call, "honest_" + kind)
                if ran.status:
                    sys.exit(f"honest_{kind}: {call}: {ran.told}")
                self.rate[kind, call] = ran.seconds / measure(facts, kind)
            os.remove(f"{self.room}/honest_{kind}.parquet")


def measure(facts, kind):
    """What the time is set beside: how many entries, or how many bytes of long texts or of structs."""
    if kind == "long":
        return facts["written"]
    if kind == "keys":
        return facts["groups"]
    if kind == "lines":
        return facts["bytes"] + facts["values"]
    return facts["structs"] + facts["headers"] if kind == "structs" else facts["entries"]


def wanted(facts, call):
    """The number of the refusal that is to come, or none."""
    return facts["inspected"] if call.startswith("inspect") else facts["refused"]


def outcome(facts, call, ran):
    """What came, and whether it is what was to come."""
    refused, expected = ran.refusal(), wanted(facts, call)
    if facts["kind"] == "root":
        # Which fault of a root is named is not looked at here, and one of an empty table has none.
        return f"refused {refused}" if refused else "rows", refused is None or isinstance(refused, int)
    if refused != expected:
        return f"{refused or 'rows'}, and not {expected or 'rows'}", False
    if refused is not None:
        return f"refused {refused}", facts["path"] in ran.told
    if call == "decode" and ran.lines != facts["rows"]:
        return f"{ran.lines} rows, and not {facts['rows']}", False
    return "said" if call.startswith("inspect") else "rows", True


def rise(facts, call):
    """How much more memory a call may take than for a file of two rows."""
    return SLACK + sum(facts[fact] * weight for fact, weight in BOUNDS[call].items())


def honest_time(bench, facts, call):
    """The time of honest files with as many entries, or as much text, and with as many bytes of structs."""
    if facts["kind"] == "root":
        # A root is read as the footer of a file is.
        call = "inspect"
    return sum(measure(facts, kind) * bench.rate[kind, call] for kind in {facts["like"], "structs"} if (kind, call) in bench.rate)


def under_limits(bench, facts, call, name, limits):
    """What is neither what comes without a limit nor a refusal for memory; and under how many limits memory was refused.
    Under a limit that leaves room for the bound it may not be: so room that is asked for and not used is seen too."""
    own = bench.least + (ROOM * rise(facts, call) >> 10)
    short = 0
    for limit in sorted(limits + [own]):
        ran = bench.call(call, name, limit)
        if ran.refusal() == 28 and limit < own:
            short += 1
        elif not outcome(facts, call, ran)[1]:
            return f"under {limit} KiB: {outcome(facts, call, ran)[0]}"
    return f"28 under {short} of {len(limits)}"


def row_of(bench, facts, call, name, limits):
    ran = bench.call(call, name)
    said, well = outcome(facts, call, ran)
    most, honest = bench.base[call] + rise(facts, call), honest_time(bench, facts, call)
    faults = [] if well else ["OUTCOME"]
    if ran.peak > most:
        faults.append("MEMORY")
    if ran.seconds > TIMES * honest + SECONDS:
        faults.append("TIME")
    limited = under_limits(bench, facts, call, name, limits) if limits else ""
    if limited.startswith("under"):
        faults.append("LIMIT")
    bench.broken += bool(faults)
    share = ran.peak / most
    if share > bench.greatest.get(call, (0, ""))[0]:
        bench.greatest[call] = (share, name)
    measured = f"{ran.peak / 1e6:9.1f}{most / 1e6:9.1f}{ran.seconds:8.2f}{honest:8.2f}"
    print(f"{name:38}{facts['bytes']:9} {call:15}{said:12}{measured}  {limited:18}{' '.join(faults)}", flush=True)


def names_in(top, only):
    listed = subprocess.run([sys.executable, "-B", f"{top}/bench/faults/hostile_files.py"], stdout=subprocess.PIPE, check=True, text=True).stdout.split()
    for name in only:
        if name not in listed:
            print(f"hostile.sh: no file {name}; there are: {' '.join(listed)}", file=sys.stderr)
            sys.exit(2)
    return only or listed


def main(top, room, program, entries, most, more, only):
    names = names_in(top, only.split())
    bench = Bench(top, room, program, int(entries), int(most) << 10)
    bench.make(SMALL)
    bench.least = bench.least_limit() if more else 0
    limits = [bench.least + (int(mib) << 10) for mib in more.split()]
    bench.measure_honest()
    under = f"under limits of {', '.join(str(limit >> 10) for limit in limits)} MiB" if limits else ""
    print(f"{'file':38}{'bytes':>9} {'call':15}{'outcome':12}{'peak, MB':>9}{'bound':>9}{'s':>8}{'honest':>8}  {under}")
    for name in names:
        facts = bench.make(name)
        for call in CALLS[facts["kind"]]:
            row_of(bench, facts, call, name, limits)
        os.remove(f"{room}/{name}.parquet")
    for call, (share, name) in bench.greatest.items():
        print(f"{call}: at most {share:.2f} of its bound, at {name}")
    print("each rule holds" if not bench.broken else f"{bench.broken} calls break a rule")
    sys.exit(bench.broken > 0)


if __name__ == "__main__":
    if len(sys.argv) != 8:
        print("hostile.py: bench/faults/hostile.sh runs this", file=sys.stderr)
        sys.exit(2)
    main(*sys.argv[1:])
