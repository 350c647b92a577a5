"""Runs a command of `rt`, and reports what the crates cost.

    costs.py [--into FILE] COMMAND..
    costs.py --table FILE

Each second it asks which processes the command has, how much processor time each has used, and how
much memory all of them have. The command's own output and status are passed on. The costs go to
standard output, or to FILE: a line each for proofs, must-fail edits, tests, and the building and
running of programs, with the processor minutes of each crate; then the sum, the minutes by the
clock, and the most memory at a time. Processes that end within a second are missed.

With --table such lines, in a file that may have others too, are printed as the table of
docs/GATE.md.
"""

from __future__ import annotations

import collections
import contextlib
import os
import re
import shutil
import subprocess
import sys
import time
from pathlib import Path

TICKS = os.sysconf("SC_CLK_TCK")
PAGE = os.sysconf("SC_PAGE_SIZE")
KINDS = ("proof", "edits", "tests", "builds")
ITSELF = "(rt itself)"
# What is left out of a line, in minutes.
LEAST = 0.05


def text_of(path: str) -> str:
    return Path(path).read_bytes().decode(errors="replace")


def kind_of(folder: str, call: str) -> str:
    """What a process is for."""
    if "/rt-edit-" in folder or "/rt-edit-" in call:
        return "edits"
    if " --test " in call or "_tests" in call:
        return "tests"
    return "proof" if re.search(r"rattle (build|check) ", call) else "builds"


def below(top: str, parents: dict[str, str]) -> list[str]:
    """The process of this number and those that it began, those that they began, and so on."""
    children = collections.defaultdict(list)
    for number, parent in parents.items():
        children[parent].append(number)
    found, waiting = [], [top] if top in parents else []
    while waiting:
        number = waiting.pop()
        found.append(number)
        waiting += children[number]
    return found


class Costs:
    """The processor minutes of each process that was seen, and the most memory."""

    def __init__(self, parent: int) -> None:
        self.parent = parent
        self.seen: dict[tuple[str, str], tuple[str, str, float]] = {}
        self.most_bytes = 0

    def sample(self) -> None:
        """Notes what the processes of the command have used so far."""
        fields_of = {}
        for number in filter(str.isdigit, os.listdir("/proc")):
            with contextlib.suppress(OSError):
                fields_of[number] = text_of(f"/proc/{number}/stat").rpartition(")")[2].split()
        held = 0
        for number in below(str(self.parent), {it: fields[1] for it, fields in fields_of.items()}):
            with contextlib.suppress(OSError):
                self.note(number, fields_of[number])
            held += int(fields_of[number][21]) * PAGE
        self.most_bytes = max(self.most_bytes, held)

    def note(self, number: str, fields: list[str]) -> None:
        """Notes what one process has used so far."""
        minutes = (int(fields[11]) + int(fields[12])) / TICKS / 60
        process = number, fields[19]
        call = text_of(f"/proc/{number}/cmdline").replace("\0", " ")
        if not call and process in self.seen:
            # It is ending, and has given up its memory, where its words were.
            name, kind, _ = self.seen[process]
            self.seen[process] = name, kind, minutes
            return
        folder = os.readlink(f"/proc/{number}/cwd")
        crate = re.search(r"--crate-name (\w+)", call) or re.search(
            r"crates/(\w+)", f"{folder} {call}"
        )
        self.seen[process] = crate[1] if crate else ITSELF, kind_of(folder, call), minutes

    def lines(self, order: list[str]) -> list[str]:
        """A line for each kind of work, with its sum, and the crates in this order that have any."""
        costs: dict[str, dict[str, float]] = {it: collections.defaultdict(float) for it in KINDS}
        for name, kind, minutes in self.seen.values():
            costs[kind][name] += minutes
        lines = []
        for kind in KINDS:
            there = [it for it in [*order, ITSELF] if costs[kind][it] >= LEAST]
            parts = ", ".join(f"{it} {costs[kind][it]:.1f}" for it in there)
            total = sum(costs[kind].values())
            lines.append(f"{kind}: {total:.1f} processor minutes: {parts or 'none'}")
        return lines

    def total(self) -> float:
        return sum(minutes for _, _, minutes in self.seen.values())


def crates_in_order() -> list[str]:
    lines = text_of("crates.txt").splitlines() if os.path.exists("crates.txt") else []
    return [it.split(":")[0].strip() for it in lines if it.strip() and not it.startswith("#")]


def table(lines: list[str], order: list[str]) -> list[str]:
    """The table of the crates and kinds of work in these lines."""
    found: dict[str, dict[str, str]] = collections.defaultdict(dict)
    sums = {}
    for line in lines:
        told = re.match(r"(\w+): ([\d.]+) processor minutes: (.*)", line)
        if told and told[1] in KINDS:
            sums[told[1]] = told[2]
            for name, minutes in re.findall(r"(\w+|\(rt itself\)) ([\d.]+)", told[3]):
                found[name][told[1]] = minutes
    rows = [(f"`{it}`", found[it]) for it in order if it in found]
    rows += [("`rt` itself", found[ITSELF])] if ITSELF in found else []
    out = [f"| crate | {' | '.join(KINDS)} |", "|---" * (len(KINDS) + 1) + "|"]
    for name, minutes in [*rows, ("all", sums)]:
        out.append(f"| {name} | {' | '.join(minutes.get(it, '') for it in KINDS)} |")
    return out


def main(words: list[str]) -> int:
    into = None
    if len(words) == 2 and words[0] == "--table" and os.path.isfile(words[1]):
        print("\n".join(table(text_of(words[1]).splitlines(), crates_in_order())))
        return 0
    if words[:1] == ["--into"]:
        into, words = words[1], words[2:]
    if not words or shutil.which(words[0]) is None:
        print((__doc__ or "").strip(), file=sys.stderr)
        return 2
    started = time.time()
    with subprocess.Popen(words) as run:
        costs = Costs(run.pid)
        while run.poll() is None:
            costs.sample()
            time.sleep(1)
    lines = costs.lines(crates_in_order())
    minutes = (time.time() - started) / 60
    gigabytes = costs.most_bytes / 1e9
    sums = f"{costs.total():.1f} processor minutes in {minutes:.1f} by the clock"
    lines.append(f"all: {sums}, {gigabytes:.1f} GB at most")
    text = "".join(f"{line}\n" for line in lines)
    if into is None:
        sys.stdout.write(text)
    else:
        Path(into).write_text(text, encoding="utf-8")
    return run.returncode


if __name__ == "__main__":
    sys.exit(main(sys.argv[1:]))
