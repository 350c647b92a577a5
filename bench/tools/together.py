"""Edits of a crate that one check can try, for edits.py: those in bodies of different functions.

A check of several functions reads the crate and the libraries below it once, which takes most of
the time of a single edit. What comes of one edit is told by its function alone, since an edit in a
body leaves the contract that its callers read. An edit of a constant is told by the functions that
name it.
"""

from __future__ import annotations

import re
from pathlib import Path
from typing import NamedTuple

HEAD = re.compile(r"( *)(?:pub(?:\(\w+\))? )?(?:const )?fn (\w+)")
IMPL = re.compile(r"impl(?:<.*?>)? (.+) \{$")
CONSTANT = re.compile(r" *(?:pub(?:\(\w+\))? )?const (\w+):")
VERDICT = re.compile(r"fn (\S+): (.+)")
TOLD = re.compile(r"(?:note: )?(?:\./)?((?:src|specs|proofs)/\S+?):(\d+):\d+: ")
# A proof file that names what the edit took away, and one that stands on such a file.
LACKS = re.compile(
    r"(note: )?(\./)?proofs/.*(has no field|is not in scope|has no `|record `[^`]+` \(nearest: )"
)
STANDS_ON = re.compile(r"(note: )?(\./)?proofs/.*was not admitted")
# The goal that a clause of the contract holds when the function returns, as it is named alone or in
# a cycle of calls.
RETURNS = re.compile(r"`(\w+-)?returns")


class Function(NamedTuple):
    """A function of a crate, with its lines, and the path that `rt check --only` takes."""

    file: str
    first: int
    last: int
    name: str
    path: str

    def is_of(self, told: str) -> bool:
        """Whether a line of a check is of this function: of its body, or of its proof."""
        found = TOLD.match(told)
        if not found:
            return False
        if found[1] == self.file:
            return self.first <= int(found[2]) <= self.last
        folders = found[1].split("/")[:-1]
        # Functions that call one another have one proof, whose goals begin with their names.
        if folders[-1].startswith("+"):
            return f"`{self.name}-" in told
        return folders[0] == "proofs" and folders[-1] == self.name and self.owners() <= set(folders)

    def owners(self) -> set[str]:
        """The modules and the type that a function stands in, as `--only` takes them."""
        return set(self.path.split("::")) - {self.name}

    def has_verdict(self, told: str) -> bool:
        """Whether `fn TOLD: ..` is of this function, or of one of its name in the file."""
        parts = told.split("::")
        return parts[-1] == self.name and self.owners() <= set(parts)


class Span(NamedTuple):
    """A text of a file that an edit replaces."""

    file: str
    first: int
    last: int
    text: str


class Change(NamedTuple):
    """An edit of bodies: the texts that it replaces, and the functions that they stand in."""

    name: str
    spans: list[Span]
    functions: set[Function]


def functions_of(file: str, text: str) -> list[Function]:
    """The functions with a body of a source file that `rt fmt` laid out."""
    module = file.removeprefix("src/").removesuffix(".rt").replace("/", "::")
    outer = [] if module in ("lib", "main") else [module]
    found, owner, head, first = [], "", None, 0
    for number, line in enumerate(text.split("\n"), 1):
        block, opening = IMPL.match(line), HEAD.match(line)
        if block:
            owner = block[1]
        if opening:
            head, first = opening, 0
        if head is None:
            continue
        if not first and (line == f"{head[1]}{{" or (opening and line.endswith("{"))):
            first = number
        elif first and line == f"{head[1]}}}":
            of_type = re.match(r"\w+", owner) if head[1] else None
            is_named = not head[1] or (of_type and " for " not in owner)
            # A method is told under the module of its type, which may be another one.
            named = [of_type[0], head[2]] if of_type else [*outer, head[2]]
            path = named if is_named else outer
            found.append(Function(file, first, number, head[2], "::".join(path)))
            head = None
    return found


def spans_of(crate: Path, edit: Path) -> list[Span]:
    """The texts that an edit replaces; none where an edit builds upon what it changed itself."""
    file, old, spans = "", "", []
    for line in edit.read_text(encoding="utf-8").split("\n"):
        if line.startswith("file: "):
            file = line[6:].strip()
        elif line.startswith("old: "):
            old = line[5:]
        elif line.startswith("new:"):
            text = (crate / file).read_text(encoding="utf-8") if (crate / file).is_file() else ""
            if text.count(old) != 1:
                return []
            first = text.index(old)
            spans.append(Span(file, first, first + len(old), line[5:]))
    spans.sort()
    for one, next_one in zip(spans, spans[1:]):
        if one.file == next_one.file and one.last > next_one.first:
            return []
    return spans


def constant_at(lines: list[str], number: int) -> str:
    """The name of the constant whose definition has this line; empty where there is none."""
    for line in reversed(lines[:number]):
        found = CONSTANT.match(line)
        if found:
            return found[1]
        if not line.strip() or line.startswith("}"):
            break
    return ""


def users_of(crate: Path, name: str) -> set[Function]:
    """The functions of a crate that name a constant in their bodies."""
    users = set()
    for path in sorted((crate / "src").rglob("*.rt")):
        text = path.read_text(encoding="utf-8")
        lines = text.split("\n")
        for it in functions_of(str(path.relative_to(crate)), text):
            body = "\n".join(lines[it.first - 1 : it.last])
            if it.path and re.search(rf"\b{name}\b", body):
                users.add(it)
    return users


def functions_at(crate: Path, span: Span) -> set[Function]:
    """The functions that tell what comes of a text that is replaced; none where none does."""
    text = (crate / span.file).read_text(encoding="utf-8")
    number = text.count("\n", 0, span.first) + 1
    around = {it for it in functions_of(span.file, text) if it.first < number < it.last and it.path}
    if around:
        return around if len(around) == 1 else set()
    name = constant_at(text.split("\n"), number)
    return users_of(crate, name) if name else set()


def change_of(crate: Path, edit: Path) -> Change | None:
    """The change of an edit that a check of some functions can try. It may also add a function."""
    functions: set[Function] = set()
    spans = spans_of(crate, edit)
    for span in spans:
        text = (crate / span.file).read_text(encoding="utf-8")
        if text[span.first : span.last].startswith("/// ") and span.text.startswith("fn "):
            continue
        here = functions_at(crate, span)
        if not here:
            return None
        functions |= here
    return Change(edit.stem, spans, functions) if functions else None


def rounds_of(changes: list[Change], most: int) -> list[list[Change]]:
    """Rounds of at most so many changes each, none of which has two changes of one function."""
    rounds: list[list[Change]] = []
    for change in changes:
        for chosen in rounds:
            taken = {it for other in chosen for it in other.functions}
            if len(chosen) < most and not taken & change.functions:
                chosen.append(change)
                break
        else:
            rounds.append([change])
    return rounds


def write_changes(crate: Path, changes: list[Change]) -> dict[Path, str]:
    """Makes the changes, and gives the files as they were."""
    spans = sorted((it for change in changes for it in change.spans), reverse=True)
    were: dict[Path, str] = {}
    for span in spans:
        file = crate / span.file
        text = file.read_text(encoding="utf-8")
        were.setdefault(file, text)
        file.write_text(text[: span.first] + span.text + text[span.last :], encoding="utf-8")
    return were


class Told(NamedTuple):
    """At which goal a check refused a change; whether only because a proof names what is gone."""

    goal: str
    lacks: bool


def told_of(change: Change, lines: list[str]) -> Told | None:
    """What a check told of a change; nothing where it told none of its functions' own."""
    verdicts = [it for it in map(VERDICT.fullmatch, lines) if it]
    ours = [it[2] for it in verdicts for one in change.functions if one.has_verdict(it[1])]
    if not any(it.startswith(("not proved", "no proof")) for it in ours):
        return None
    told = [it for it in lines if any(one.is_of(it) for one in change.functions)]
    errors = [it for it in told if ": error" in it or it.startswith("note: ")]
    goals = [it for it in errors if not STANDS_ON.match(it)]
    real = [it for it in goals if not LACKS.match(it)]
    if real:
        return Told(next(filter(RETURNS.search, real), real[0]), lacks=False)
    if goals:
        return Told(goals[0], lacks=True)
    # Where a function had no proof of its own, its verdict alone names the goals.
    unproved = next((it for it in ours if "did not prove" in it), "")
    return Told(unproved, lacks=False) if unproved else None
