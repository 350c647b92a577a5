#!/usr/bin/env python3
"""headline.py [--names]: the definitions that the headline is made of.

They are those of the specs/ of all crates that can be reached, by their names, from the contracts
that docs/HEADLINE.md names. Prints how many each crate has, how many lines they take, and how many
types of the code they look at. With --names also each definition with its file and line, and how
many steps it is away.

A name is taken for a definition if the file declares or imports it, also if a variable has the same
name there. So some may be listed that nothing uses; none is left out. Status 1 if docs/HEADLINE.md
explains a name that is not reached, or does not exist.
"""

from __future__ import annotations

import collections
import os
import re
import sys
from collections.abc import Iterable
from typing import NamedTuple, Optional

import command_line

TOP = os.path.dirname(os.path.dirname(os.path.dirname(os.path.abspath(__file__))))
# What the contracts say: file of the function, and the names that its clauses cite.
CONTRACTS = {
    "Store::run": ("store", "Running", ["Runs", "HaveCauses", "ListingsAreOfTheRoot"]),
    "a_crash_leaves_a_prefix_of_the_commits": (
        "store",
        "Prefixes",
        ["RunsLeaveThePrefix", "RunsHappen"],
    ),
    "a_table_can_be_opened_again": (
        "store",
        "Restarting",
        ["StoresCanBeOpened", "ImagesCanBeOpened"],
    ),
    "an_opening_finds_what_a_crash_left": (
        "store",
        "Restarting",
        ["CrashesAreReopened", "StoresAreReopened"],
    ),
    "open": ("table_openings", "Opening", ["IsOpened", "LeavesTables"]),
}
HEAD = re.compile(r"^ *(?:abbrev pub|pub record|pub data|abbrev|record|data) ([\w\-]+)")
USE = re.compile(r"^(?:unfoldable )?(?:pub )?use Rattle\.(\w+)\.specs\.([\w.]+)\.\{([^}]*)\}", re.M)
WORD = re.compile(r"(?<![\w.\-])[A-Za-z_][\w\-]*")

# The crate, the module, and a name in it.
Place = tuple[str, str, str]


class Definition(NamedTuple):
    crate: str
    module: str
    name: str
    line: int
    text: str


def read(path: str) -> str:
    with open(path, encoding="utf-8") as file:
        return file.read()


class Module:
    """A file of specs/: what it defines, and where the names that it imports are defined."""

    def __init__(self, crate: str, module: str, path: str) -> None:
        text = re.sub(r"--[^\n]*", "", read(path))
        self.defined: dict[str, Definition] = {}
        self.imported: dict[str, Place] = {}
        for owner, other, names in USE.findall(text):
            for name in names.split(","):
                was, _, now = name.strip().partition(" as ")
                self.imported[now or was] = (owner, other, was)
        lines = text.split("\n")
        heads = [(at, HEAD.match(line)) for at, line in enumerate(lines)]
        begins = [(at, found[1]) for at, found in heads if found]
        for (at, name), (end, _) in zip(begins, begins[1:] + [(len(lines), "")]):
            body = "\n".join(lines[at:end])
            self.defined[name] = Definition(crate, module, name, at + 1, body)
            # The constructors of data stand for it.
            if re.match(r" *(?:pub )?data ", body):
                for case in re.findall(r"^ +([\w\-]+) :", body, re.M):
                    self.imported.setdefault(case, (crate, module, name))


def all_modules() -> dict[tuple[str, str], Module]:
    found = {}
    crates = os.path.join(TOP, "crates")
    for crate in sorted(os.listdir(crates)):
        specs = os.path.join(crates, crate, "specs")
        for folder, _, names in os.walk(specs):
            for name in sorted(names):
                path = os.path.join(folder, name)
                if name.endswith(".antt"):
                    module = os.path.relpath(path, specs)[:-5].replace(os.sep, ".")
                    found[crate, module] = Module(crate, module, path)
    return found


class Reach:
    """What is reached, step by step."""

    def __init__(self, modules: dict[tuple[str, str], Module]) -> None:
        self.modules = modules
        self.steps: dict[Definition, int] = {}
        self.types: set[str] = set()

    def resolved(
        self, crate: str, module: str, name: str, seen: tuple[Place, ...] = ()
    ) -> Optional[Definition]:
        """The definition of a name as this file sees it; None if it is one of std or a variable."""
        if ".declared." in f".{module}.":
            self.types.add(f"{crate}::{module.split('.')[-1]}")
            return None
        place = self.modules.get((crate, module))
        if place is None or (crate, module, name) in seen:
            return None
        if name in place.defined:
            return place.defined[name]
        if name in place.imported:
            return self.resolved(*place.imported[name], (*seen, (crate, module, name)))
        return None

    def add(self, names: Iterable[Definition]) -> None:
        waiting = collections.deque((it, 0) for it in names)
        while waiting:
            found, steps = waiting.popleft()
            if found in self.steps:
                continue
            self.steps[found] = steps
            for word in dict.fromkeys(WORD.findall(found.text)):
                other = self.resolved(found.crate, found.module, word)
                if other is not None and other not in self.steps:
                    waiting.append((other, steps + 1))


def explained() -> list[str]:
    """The names in the table of docs/HEADLINE.md."""
    path = os.path.join(TOP, "docs", "HEADLINE.md")
    return re.findall(r"^\| `(\w+)`", read(path), re.M) if os.path.isfile(path) else []


def lines_of(found: Definition) -> int:
    return sum(bool(it.strip()) for it in found.text.split("\n"))


def reached() -> Reach:
    """What can be reached from the contracts."""
    modules = all_modules()
    reach = Reach(modules)
    for crate, module, names in CONTRACTS.values():
        if set(names) - set(modules[crate, module].defined):
            sys.exit("headline.py: a contract's definition is not where CONTRACTS says")
    reach.add(
        modules[crate, module].defined[name]
        for crate, module, names in CONTRACTS.values()
        for name in names
    )
    return reach


def foreign_names(reach: Reach) -> list[str]:
    """The names that docs/HEADLINE.md explains and that are not reached."""
    names = {it.name for it in reach.steps} | {it.split("::")[1] for it in reach.types}
    return [it for it in explained() if it not in names]


def main() -> int:
    command_line.only(__doc__, "--names")
    reach = reached()
    order = sorted(reach.steps, key=lambda it: (reach.steps[it], it.crate, it.module, it.line))
    if "--names" in sys.argv:
        for it in order:
            path = f"crates/{it.crate}/specs/{it.module.replace('.', '/')}.antt"
            print(f"{reach.steps[it]:3}  {it.name:32} {path}:{it.line}")
    count: collections.Counter[str] = collections.Counter()
    size: collections.Counter[str] = collections.Counter()
    for it in order:
        count[it.crate] += 1
        size[it.crate] += lines_of(it)
    for crate, number in count.most_common():
        print(f"{crate:16} {number:4} definitions {size[crate]:5} lines")
    definitions = f"{sum(count.values()):4} definitions {sum(size.values()):5} lines"
    print(f"{'all':16} {definitions}, and {len(reach.types)} types of the code")
    wrong = foreign_names(reach)
    for name in wrong:
        print(f"docs/HEADLINE.md explains {name}, which is not reached")
    return 1 if wrong else 0


if __name__ == "__main__":
    sys.exit(main())
