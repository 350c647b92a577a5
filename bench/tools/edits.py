"""Tries must-fail edits and keeps what they came to, for bench/tools/edits.sh, which says how.

    edits.py TOP ROOM --text
    edits.py TOP ROOM --counts [--results FILE]
    edits.py TOP ROOM [--results FILE] [--minutes N] [--most N] [--anew] [CRATE]...
"""

from __future__ import annotations

import argparse
import collections
import datetime
import hashlib
import re
import shutil
import subprocess
import sys
import time
from pathlib import Path
from typing import Iterator, NamedTuple

import together

TOLD = re.compile(r"rt: must-fail (\w+)/(\S+\.edit): (.*)")
# What `rt must-fail` says of an edit, and the outcome that this is; the first that fits.
OUTCOMES = (
    ("refused, as it must be (only by a limit", "limit"),
    ("refused, as it must be (only because", "names"),
    ("refused, as it must be", "refused"),
    ("NOT REFUSED", "proved"),
    ("BAD EDIT", "bad"),
    ("NOT TRIED", "unknown"),
)
# A refusal by a limit of the prover is one. An edit that only takes a name away from a proof file
# says nothing of the contract.
PASSED = ("refused", "limit")
# Where an edit was refused, by what its goal says; the first that fits. Otherwise it is an overflow,
# or what the called function requires.
LOOP = re.compile(r"`(\w+-)?loop-|`[\w-]+-(preserved|init)\b")
PLACES = (("clause", together.RETURNS), ("loop", LOOP))
# So many edits are tried in one check, which holds what it says of each in memory.
MOST_TOGETHER = 12


class Edit(NamedTuple):
    crate: str
    path: Path

    @property
    def name(self) -> str:
        return self.path.stem


class Result(NamedTuple):
    crate: str
    name: str
    outcome: str
    day: str
    digest: str
    goal: str


class Tree:
    """The crates of a repository, and the edits that it has."""

    def __init__(self, top: Path) -> None:
        self.top = top
        self.uses: dict[str, list[str]] = {}
        self.lines: dict[str, str] = {}
        for line in (top / "crates.txt").read_text(encoding="utf-8").splitlines():
            name, colon, uses = line.split("#")[0].partition(":")
            if colon:
                crate = name.split()[0]
                self.uses[crate], self.lines[crate] = uses.split(), line
        self.sums: dict[str, str] = {}

    def edits(self) -> list[Edit]:
        """The edits that the gate leaves out."""
        folders = [self.top / "bench/tools/edits" / it for it in self.uses]
        return [Edit(it.name, edit) for it in folders for edit in sorted(it.glob("*.edit"))]

    def edits_of_gate(self) -> list[Edit]:
        return [
            Edit(it, edit)
            for it in self.uses
            for edit in sorted((self.top / "crates" / it / "must-fail").glob("*.edit"))
        ]

    def sum_of(self, crate: str) -> str:
        """The digest of a crate's sources and of those below it."""
        if crate not in self.sums:
            found = hashlib.sha256(self.lines[crate].encode())
            for part in ("src", "specs", "proofs"):
                for file in sorted((self.top / "crates" / crate / part).rglob("*")):
                    if file.is_file():
                        found.update(f"{file.relative_to(self.top)}\0".encode())
                        found.update(file.read_bytes())
            for it in self.uses[crate]:
                if it in self.uses:
                    found.update(self.sum_of(it).encode())
            self.sums[crate] = found.hexdigest()
        return self.sums[crate]

    def digest(self, edit: Edit) -> str:
        text = self.sum_of(edit.crate).encode() + edit.path.read_bytes()
        return hashlib.sha256(text).hexdigest()[:16]

    def below(self, crate: str) -> list[str]:
        """The crate and all below it."""
        found, waiting = [], [crate]
        while waiting:
            it = waiting.pop()
            if it in self.uses and it not in found:
                found.append(it)
                waiting += self.uses[it]
        return found


def check_texts(tree: Tree) -> int:
    """Whether each text that an edit replaces stands once in its file."""
    edits, wrong = tree.edits() + tree.edits_of_gate(), 0
    for edit in edits:
        path, faults = tree.top, []
        for line in edit.path.read_text(encoding="utf-8").split("\n"):
            if line.startswith("file: "):
                path = tree.top / "crates" / edit.crate / line[6:].strip()
            elif line.startswith("old: "):
                text = path.read_text(encoding="utf-8") if path.is_file() else ""
                if text.count(line[5:]) != 1:
                    faults.append(f"{text.count(line[5:])} times in {path.relative_to(tree.top)}")
        wrong += bool(faults)
        for fault in faults:
            print(f"{edit.path.relative_to(tree.top)}: a text stands {fault}")
    print(f"{len(edits) - wrong} passed, {wrong} failed")
    return int(wrong > 0)


def read_results(file: Path) -> dict[tuple[str, str], Result]:
    if not file.is_file():
        return {}
    lines = file.read_text(encoding="utf-8").splitlines()
    found = [Result(*line.split("\t", 5)) for line in lines if line and not line.startswith("#")]
    return {(it.crate, it.name): it for it in found}


def write_results(file: Path, results: dict[tuple[str, str], Result]) -> None:
    lines = ["# crate, edit, outcome, day, digest, goal: bench/tools/edits.sh"]
    lines += ["\t".join(results[it]) for it in sorted(results)]
    new = file.with_name(f"{file.name}.new")
    new.write_text("".join(f"{line}\n" for line in lines), encoding="utf-8")
    new.replace(file)


def place_of(result: Result) -> str:
    """Where an edit was refused: at a clause, at the invariant of a loop, or at a call."""
    return next((what for what, goal in PLACES if goal.search(result.goal)), "call")


def print_counts(tree: Tree, results: dict[tuple[str, str], Result]) -> int:
    """Prints for each crate how many edits it has, and how many were refused at which place."""
    rows: dict[str, collections.Counter[str]] = {}
    for edit in tree.edits():
        row = rows.setdefault(edit.crate, collections.Counter())
        row["edits"] += 1
        found = results.get((edit.crate, edit.name))
        if found and found.digest == tree.digest(edit) and found.outcome in PASSED:
            row.update(["refused", place_of(found)])
    columns = ("edits", "refused", "clause", "loop", "call")
    print("".join(f"{it:>9}" for it in columns), " crate")
    rows["all"] = sum(rows.values(), collections.Counter())
    for crate, row in rows.items():
        print("".join(f"{row[it]:9}" for it in columns), f" {crate}")
    return int(rows["all"]["refused"] < rows["all"]["edits"])


def result_of(tree: Tree, edit: Edit, said: str) -> Result:
    """What `rt` said of an edit."""
    outcome = next((what for words, what in OUTCOMES if said.startswith(words)), "unknown")
    goal = re.sub(r"\s+", " ", said.partition(": ")[2] or said)
    day = datetime.datetime.now(datetime.timezone.utc).date().isoformat()
    return Result(edit.crate, edit.name, outcome, day, tree.digest(edit), goal)


class Trial:
    """Tries edits in a copy of the repository."""

    def __init__(self, top: Path, room: Path) -> None:
        self.top, self.room = top, room
        with subprocess.Popen(
            ["git", "-C", str(top), "archive", "HEAD"], stdout=subprocess.PIPE
        ) as archive:
            subprocess.run(["tar", "-x", "-C", str(room)], stdin=archive.stdout, check=True)
        for folder in (room / "crates").glob("*/must-fail"):
            shutil.rmtree(folder)
        self.tree = Tree(room)
        self.copied: set[str] = set()

    def copy_built(self, crate: str) -> None:
        """Copies what is proved of the crate and of those below it."""
        for it in set(self.tree.below(crate)) - self.copied:
            built = self.top / "crates" / it / "out"
            if built.is_dir():
                subprocess.run(["cp", "-a", built, self.room / "crates" / it], check=True)
            self.copied.add(it)

    def run(self, crate: str, edits: list[Edit]) -> Iterator[Result]:
        """Tries these edits of a crate: together what one check can try, and the others alone."""
        self.copy_built(crate)
        folder = self.room / "crates" / crate
        changes = [it for edit in edits if (it := together.change_of(folder, edit.path))]
        only = " (only because a proof file names what the edit took away)"
        done = set()
        for chosen in together.rounds_of(changes, MOST_TOGETHER):
            for name, told in self.run_together(crate, chosen):
                edit = next(it for it in edits if it.name == name)
                done.add(edit)
                said = f"refused, as it must be{only if told.lacks else ''}: {told.goal}"
                yield result_of(self.tree, edit, said)
        others = [it for it in edits if it not in done]
        if others:
            yield from self.run_alone(crate, others)

    def run_together(
        self, crate: str, chosen: list[together.Change]
    ) -> Iterator[tuple[str, together.Told]]:
        """Tries these changes in one check, and gives those that it refused."""
        folder = self.room / "crates" / crate
        were = together.write_changes(folder, chosen)
        paths = sorted({it.path for change in chosen for it in change.functions})
        try:
            words = [word for it in paths for word in ("--only", it)]
            lines = self.told(["rt", "check", *words], folder)
        finally:
            for file, text in were.items():
                file.write_text(text, encoding="utf-8")
        undecided = []
        for change in chosen:
            told = together.told_of(change, lines)
            if told:
                yield change.name, told
            else:
                undecided.append(change)
        # A function that calls one of another change has no verdict of its own.
        if 0 < len(undecided) < len(chosen):
            yield from self.run_together(crate, undecided)
        elif len(undecided) > 1:
            half = len(undecided) // 2
            yield from self.run_together(crate, undecided[:half])
            yield from self.run_together(crate, undecided[half:])

    def run_alone(self, crate: str, edits: list[Edit]) -> Iterator[Result]:
        """Tries each of these edits in a check of its own."""
        folder = self.room / "crates" / crate / "must-fail"
        folder.mkdir()
        for edit in edits:
            shutil.copy(edit.path, folder)
        lines = self.told(["rt", "must-fail", crate], self.room)
        shutil.rmtree(folder)
        said = {(it[1], it[2]): it[3] for it in map(TOLD.match, lines) if it}
        for edit in edits:
            what = said.get((crate, edit.path.name), f"NOT TRIED: {lines[-1]}")
            yield result_of(self.tree, edit, what)

    def told(self, words: list[str], folder: Path) -> list[str]:
        """What a command prints, in a folder of the copy."""
        ran = subprocess.run(
            words,
            cwd=folder,
            stdout=subprocess.PIPE,
            stderr=subprocess.STDOUT,
            stdin=subprocess.DEVNULL,
            text=True,
            errors="replace",
            check=False,
        )
        return ran.stdout.strip().split("\n")


def words_of(words: list[str]) -> argparse.Namespace:
    parser = argparse.ArgumentParser(description=__doc__, add_help=False)
    parser.add_argument("--text", action="store_true")
    parser.add_argument("--counts", action="store_true")
    parser.add_argument("--results", type=Path)
    parser.add_argument("--minutes", type=float, default=float("inf"))
    parser.add_argument("--most", type=int, default=sys.maxsize)
    parser.add_argument("--anew", action="store_true")
    parser.add_argument("crates", nargs="*", metavar="CRATE")
    return parser.parse_args(words)


def main(words: list[str]) -> int:
    if len(words) < 2:
        print(__doc__, file=sys.stderr)
        return 2
    top, room, given = Path(words[0]), Path(words[1]), words_of(words[2:])
    tree = Tree(top)
    if given.text:
        return check_texts(tree)
    file = given.results or top / "bench/tools/edits/results.tsv"
    results = read_results(file)
    if given.counts:
        return print_counts(tree, results)
    having = {it.crate for it in tree.edits()}
    for crate in given.crates:
        if crate not in having:
            print(f"edits.sh: bench/tools/edits has none of {crate}", file=sys.stderr)
            return 1
    trial, begun = Trial(top, room), time.monotonic()
    outcomes: collections.Counter[str] = collections.Counter()
    for crate in given.crates or sorted(having):
        edits = [it for it in trial.tree.edits() if it.crate == crate]
        waiting = []
        for it in edits:
            found = results.get((crate, it.name))
            if given.anew or found is None or found.digest != trial.tree.digest(it):
                waiting.append(it)
            else:
                outcomes[found.outcome] += 1
        if time.monotonic() - begun > 60 * given.minutes:
            outcomes["left"] += len(waiting)
            continue
        chosen = waiting[: given.most]
        outcomes["left"] += len(waiting) - len(chosen)
        for result in trial.run(crate, chosen) if chosen else []:
            results[crate, result.name] = result
            outcomes[result.outcome] += 1
            print(f"{result.outcome:8} {crate}/{result.name}: {result.goal}", flush=True)
            write_results(file, results)
    left = outcomes.pop("left")
    print(", ".join(f"{number} {what}" for what, number in outcomes.items()) or "none was tried")
    print(f"{left} are left for another call")
    passed = sum(outcomes[it] for it in PASSED)
    print(f"{passed} passed, {outcomes.total() - passed} failed")
    return int(outcomes.total() > passed)


if __name__ == "__main__":
    sys.exit(main(sys.argv[1:]))
