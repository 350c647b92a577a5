#!/usr/bin/env python3
"""check_docs.py [--write]: compares what the documents name with what the sources have.

It also counts how often the sources repeat themselves. Prints a line for each fault. The last line
is `N passed, M failed`, the status 1 if M is not 0.

With --write the picture of the layers and the table of proof files in docs/ARCHITECTURE.md are made
again from crates.txt and the sources. The numbers in MOST may only become smaller: lower them when
they do.
"""

from __future__ import annotations

import collections
import functools
import os
import re
import sys
from collections.abc import Callable, Iterator
from pathlib import Path
from typing import Optional

import command_line
import headline

TOP = Path(__file__).resolve().parents[2]
CRATES = TOP / "crates"
ARCHITECTURE = "docs/ARCHITECTURE.md"
PARTS = (("src", ".rt"), ("specs", ".antt"), ("proofs", ".antt"))
COLUMNS = 165
MOST = {
    "lines of more than 165 columns": 447,
    "definitions of one name in two crates": 300,
    "statements that stand twice": 123,
    "bodies that stand twice": 32,
}
CITES = (
    re.compile(r"Rattle\.(\w+)\.proofs\.(\w+)"),
    re.compile(r"(?<!crate::)\b(\w+)::proofs::(\w+)"),
)
TABLE_OF_PROOFS = "| crate | files of `proofs/` that crates above cite"
FUNCTION = re.compile(r"^(\s*)(?:pub(?:\([a-z ]+\))? )?(?:const )?fn (\w+)")
STATEMENT = re.compile(r"^(?:pub )?[\w\-]+ : (.{60,})$", re.M)
BINDER = re.compile(r"[({λ]\s*([\w ]+?)\s*(?: : |\.)")
DEFINITION = re.compile(r"^(?:abbrev pub |pub record |pub data |abbrev )([\w\-]+)", re.M)
PUBLIC = re.compile(r"(abbrev pub|pub data|pub record|pub)\s+(?!mod\b|use\b)\S")


def read(path: str) -> str:
    return (TOP / path).read_text(encoding="utf-8")


def files(part: str, ending: str) -> Iterator[tuple[str, str, str]]:
    """The files of a part of all crates: crate, path, text."""
    for folder, folders, names in os.walk(CRATES):
        folders[:] = sorted(it for it in folders if it not in ("out", "must-fail", "data"))
        if f"{os.sep}{part}" in folder:
            for name in sorted(names):
                if name.endswith(ending):
                    path = Path(folder, name)
                    within = path.relative_to(CRATES)
                    yield within.parts[0], str(within), path.read_text(encoding="utf-8")


def crates() -> dict[str, list[str]]:
    """Each crate of crates.txt with what it lists."""
    listed = {}
    for line in read("crates.txt").split("\n"):
        name, colon, rest = line.split("#")[0].partition(":")
        if colon:
            listed[name.split()[0]] = rest.split()
    return listed


def crates_of_tests() -> set[str]:
    """Those of the section of crates.txt that begins with `# Tests`."""
    lines = read("crates.txt").split("\n# Tests")[1].split("\n")[1:]
    return {line.split(":")[0].split()[0] for line in lines if ":" in line}


@functools.lru_cache(None)
def sources() -> dict[str, str]:
    """All text of each crate."""
    found: dict[str, str] = collections.defaultdict(str)
    for part, ending in PARTS:
        for crate, _, text in files(part, ending):
            found[crate] += text + "\n"
    return found


# ---- docs/ARCHITECTURE.md ----


def picture(listed: dict[str, list[str]]) -> str:
    """The product's crates by the longest chain below them, the highest first."""

    @functools.lru_cache(None)
    def height(name: str) -> int:
        return 1 + max((height(it) for it in listed[name] if it in listed), default=-1)

    rows = collections.defaultdict(list)
    for name in sorted(set(listed) - crates_of_tests()):
        rows[height(name)].append(name)
    lines = ("".join(f"{it:<14}  " for it in rows[at]) for at in sorted(rows, reverse=True))
    return "\n".join(f"    {line}".rstrip() for line in lines)


@functools.lru_cache(None)
def cited_proofs() -> dict[str, set[str]]:
    """The files of proofs/ that other crates cite, by crate."""
    cited: dict[str, set[str]] = collections.defaultdict(set)
    for crate, text in sources().items():
        for owner, module in (it for cites in CITES for it in cites.findall(text)):
            if owner != crate and (CRATES / owner / "proofs" / f"{module}.antt").is_file():
                cited[owner].add(module)
    return cited


def rows_of_proofs(text: str) -> Iterator[tuple[str, list[str], str]]:
    """The rows of the table of proof files: the crate, the files, and what they are about."""
    crate = ""
    for line in text[text.index(TABLE_OF_PROOFS) :].split("\n")[2:]:
        cells = [it.strip() for it in line.strip("|").split("|")]
        if not line.startswith("|") or len(cells) < 3:
            return
        crate = cells[0].strip("`") or crate
        yield crate, re.findall(r"`(\w+)`", cells[1]), cells[2]


def renewed_table(text: str) -> str:
    """The table of proof files without what no other crate cites, and with what is missing."""
    rows = collections.defaultdict(list)
    for crate, names, about in rows_of_proofs(text):
        rows[crate].append((names, about))
    begin = text.index(TABLE_OF_PROOFS)
    end = begin + len(text[begin:].split("\n\n")[0])
    out, cited = text[begin:end].split("\n")[:2], cited_proofs()
    for crate in (it for it in crates() if it in cited):
        said = {name for names, _ in rows[crate] for name in names}
        rows[crate].append((sorted(cited[crate] - said), "other lemmas on its definitions"))
        label = f"`{crate}`"
        for names, about in rows[crate]:
            shown = ", ".join(f"`{it}`" for it in names if it in cited[crate])
            if shown:
                out.append(f"| {label} | {shown} | {about} |")
                label = ""
    return text[:begin] + "\n".join(out) + text[end:]


def write(listed: dict[str, list[str]]) -> None:
    text = renewed_table(read(ARCHITECTURE))
    layers = re.compile(r"(## The layers\n\n(?:[^\n]+\n\n)?)((?:    .*\n|\n)+)")
    text = layers.sub(lambda it: it[1] + picture(listed) + "\n\n", text, count=1)
    (TOP / ARCHITECTURE).write_text(text, encoding="utf-8")


def faults_of_proofs(text: str) -> dict[str, str]:
    """What the table of proof files has too much or too little, by crate."""
    said: dict[str, set[str]] = collections.defaultdict(set)
    for crate, names, _ in rows_of_proofs(text):
        said[crate] |= set(names)
    cited, found = cited_proofs(), {}
    for crate in sorted({*cited, *said}):
        missing = [f"{it} is missing" for it in sorted(cited.get(crate, set()) - said[crate])]
        idle = [f"{it} is cited by none" for it in sorted(said[crate] - cited.get(crate, set()))]
        found[crate] = ", ".join(missing + idle)
    return found


# ---- what stands twice ----


def squeezed(text: str) -> str:
    return re.sub(r"\s+", " ", re.sub(r"(--|//)[^\n]*", "", text)).strip()


def body_at(lines: list[str], at: int) -> str:
    """The body of the function that begins in this line, without comments; empty if none does."""
    found = FUNCTION.match(lines[at])
    if not found:
        return ""
    close, open_ = found[1] + "}", found[1] + "{"
    end = next((it for it in range(at + 1, min(len(lines), at + 400)) if lines[it] == close), None)
    if end is None:
        return ""
    for begin in range(at, end):
        if lines[begin] == open_ or (begin == at and lines[begin].rstrip().endswith("{")):
            return squeezed("\n".join(lines[begin + 1 : end]))
    return ""


def bodies() -> int:
    """How many functions have the body of another one in another file."""
    seen = collections.defaultdict(set)
    for _, path, text in files("src", ".rt"):
        lines = text.split("\n")
        for at in range(len(lines)):
            body = body_at(lines, at)
            if len(body) > 60:
                seen[body].add(path)
    return sum(len(it) - 1 for it in seen.values())


def statements() -> int:
    """How many lemmas say what one of another file says, up to the names of bound variables."""
    seen = collections.defaultdict(set)
    for _, path, text in files("proofs", ".antt"):
        if path.count("/") == 2:
            for said in STATEMENT.findall(text):
                bound = dict.fromkeys(word for it in BINDER.findall(said) for word in it.split())
                for number, name in enumerate(bound):
                    pattern = r"(?<![\w.\-])" + re.escape(name) + r"(?![\w\-])"
                    said = re.sub(pattern, f"v{number}", said)
                seen[said].add(path)
    return sum(len(it) - 1 for it in seen.values())


def definitions() -> int:
    """How many names are defined in the specs/ of several crates."""
    seen = collections.defaultdict(set)
    for crate, _, text in files("specs", ".antt"):
        for name in DEFINITION.findall(text):
            seen[name].add(crate)
    return sum(len(it) > 1 for it in seen.values())


def long_lines() -> int:
    texts = [text for part, ending in PARTS[:2] for _, _, text in files(part, ending)]
    return sum(len(line) > COLUMNS for text in texts for line in text.split("\n"))


COUNTS: dict[str, Callable[[], int]] = dict(
    zip(MOST, (long_lines, definitions, statements, bodies))
)


# ---- the other checks ----


def undescribed() -> list[str]:
    """Public definitions at the top level of specs/ with no comment above them."""
    found = []
    for _, file, text in files("specs", ".antt"):
        lines = text.split("\n")
        for above, line in zip(["", *lines], lines):
            if PUBLIC.match(line) and not above.lstrip().startswith("--"):
                found.append(f"{file}: {line[:40]}")
    return found


def versions() -> dict[str, str]:
    """The version as the program, the Python module and the changelog have it."""

    def found(pattern: str, path: str) -> str:
        match = re.search(pattern, read(path), re.M)
        return match[1] if match else "none"

    return {
        "the program": found(r'VERSION: &str = "(.*)"', "crates/program/src/help.rt"),
        "the module": found(r'^__version__ = "(.*)"$', "python/pqds/__init__.py"),
        "the changelog": found(r"^## ([\d.]+)", "CHANGELOG.md"),
    }


def pages_of_bench() -> Iterator[str]:
    """What the pages of bench/ lack of its files, and what they name that does not exist."""
    for folder in sorted((TOP / "bench").iterdir()):
        page = read(f"bench/{folder.name}/README.md")
        rows = [line.split("|")[1] for line in page.split("\n") if line.startswith("| `")]
        named = {it for row in rows for it in re.findall(r"`([\w.]+)/?`", row)}
        cited = set(re.findall(r"`([\w.]+)`", page))
        there = {it.name for it in folder.iterdir()} - {"README.md", "__pycache__"}
        # The page names `NAME.rt.in` together with NAME.sh.
        programs = {it for it in there if it.replace(".rt.in", ".sh") in there - {it}}
        for name in sorted(there - named - cited - programs):
            yield f"bench/{folder.name}/{name} is not named"
        for name in sorted(named - there):
            yield f"bench/{folder.name}/{name} does not exist"


def results_of_edits() -> Iterator[str]:
    """Lines of the results of edits whose edit does not exist."""
    results = TOP / "bench/tools/edits/results.tsv"
    for line in results.read_text(encoding="utf-8").split("\n") if results.is_file() else []:
        crate, _, rest = line.partition("\t")
        name = rest.partition("\t")[0]
        if name and not (results.parent / crate / f"{name}.edit").is_file():
            yield f"{crate}/{name} does not exist"


class Checks:
    """How many checks passed, and the faults of the others."""

    def __init__(self) -> None:
        self.passed, self.faults = 0, list[str]()

    def check(self, what: str, wrong: Optional[str]) -> None:
        if wrong:
            self.faults.append(f"{what}: {wrong}")
        else:
            self.passed += 1

    def check_crates(self, listed: dict[str, list[str]]) -> None:
        for crate, names in listed.items():
            text = sources()[crate]
            idle = [it for it in names if not re.search(rf"(?<!\w){it}(\.|::|\b)", text)]
            self.check(f"crates.txt, {crate}", ", ".join(f"{it} is cited nowhere" for it in idle))
            page = CRATES / crate / "README.md"
            self.check(f"{crate} has a README.md", "" if page.is_file() else "no")
        foreign = sorted(set(os.listdir(CRATES)) - set(listed))
        self.check("crates that are no crate of crates.txt", ", ".join(foreign))

    def check_names(self, listed: dict[str, list[str]]) -> None:
        texts = [*sources().values(), read("docs/USAGE.md"), read("crates.txt")]
        known = {word for text in texts for word in re.findall(r"[\w\-]+", text)} | set(listed)
        for document in ("README.md", "docs/PROMISES.md"):
            names = set(re.findall(r"`([a-zA-Z]\w+)`", read(document)))
            self.check(f"names in {document} that no source has", ", ".join(sorted(names - known)))

    def run(self, listed: dict[str, list[str]]) -> None:
        text = read(ARCHITECTURE)
        self.check(
            f"the layers in {ARCHITECTURE} are not those of crates.txt",
            "" if picture(listed) in text else "run check_docs.py --write",
        )
        for crate, wrong in faults_of_proofs(text).items():
            self.check(f"proof files of {crate} that others cite, in {ARCHITECTURE}", wrong)
        self.check_crates(listed)
        self.check_names(listed)
        self.check(
            "names that docs/HEADLINE.md explains and its contracts do not reach",
            ", ".join(headline.foreign_names(headline.reached())),
        )
        self.check("public definitions without a comment", "; ".join(undescribed()))
        self.check("pages of bench/", "; ".join(pages_of_bench()))
        self.check("results of edits", "; ".join(results_of_edits()))
        named = versions()
        is_one = len(set(named.values())) == 1
        differ = ", ".join(f"{who} has {it}" for who, it in named.items())
        self.check("one version", "" if is_one else differ)
        for what, counted in COUNTS.items():
            now, most = counted(), MOST[what]
            self.check(what, f"{now}, and {most} before" if now > most else "")


def main() -> int:
    command_line.only(__doc__, "--write")
    listed, checks = crates(), Checks()
    if "--write" in sys.argv:
        write(listed)
    checks.run(listed)
    for fault in checks.faults:
        print(fault)
    print(f"{checks.passed} passed, {len(checks.faults)} failed")
    return int(bool(checks.faults))


if __name__ == "__main__":
    sys.exit(main())
