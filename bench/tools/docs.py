"""Runs the commands that the documents show, and compares what they print, for bench/tools/docs.sh.

    docs.py TOP COPY PROGRAM [--program] [FILE]...

A command is a line of a block marked sh, a text in backquotes that is a call of ./pqds, rt or a
script, or an example in a help text. What the commands of a block print, one after another, is the
block marked text, the text in backquotes after "prints", or, in a help text, the lines after
"prints". The help texts of docs/USAGE.md are compared with the program's. What commands made is
removed at the next heading, except in the tutorial and docs/PYTHON.md, which continue from one
heading to the next. Commands that take the whole gate, or many minutes, are named and left out.

A block marked python runs in one Python for the whole document, with the module and the program
that the commands before it installed: `pip` is that of a new virtual environment. If a document
installs, `~` is a new folder. If a package is missing, the rest under that heading is named and
left out.
"""

from __future__ import annotations

import glob
import json
import os
import re
import shutil
import subprocess
import sys
from typing import Optional

# The number of a line, the mark of a block or None outside of one, and the text.
Step = tuple[int, Optional[str], list[str]]

LONG = {
    "rt ci",
    ".ci/run",
    "./test",
    "./test --quick",
    "./pqds --prove",
    "bench/faults/allocations.sh",
    "bench/faults/crash.sh",
    "bench/faults/crash.sh --syncs",
    "bench/faults/locks.sh",
    "bench/faults/stops.sh",
    "bench/peers/peers.sh ROOM",
    "bench/speed/memory.sh",
    "bench/speed/table.sh",
    "bench/tools/docs.sh",
    "bench/tools/docs.sh docs/PYTHON.md",
    "bench/tools/edits.sh",
    "bench/tools/gate.sh",
    "bench/tools/prebuilt.sh",
}
# What begins a call of the program, or of what needs no proof either.
PROGRAM = (
    "./pqds",
    "pqds ",
    "./install",
    "pip ",
    "n=$(./pqds",
    "rt version",
    "find ",
    "echo ",
    "mkdir ",
    "rm -r tutorial",
    "bench/faults/killed_at.sh ",
)
CALL = re.compile(
    r"`((?:\./pqds|rt|bench/\w+/\w+\.sh|\.ci/run|\(cd crates/\w+ && rt)(?: [^`]*|\w[^`]*)?)`"
    r"(?: prints `([^`]*)`)?"
)
HELP = re.compile(r"## `pqds ?([\w-]*)`$")
RUNNER = """
import contextlib, io, json, sys, traceback, types, warnings
warnings.simplefilter("ignore")
with contextlib.suppress(ImportError):
    # fastparquet asks Debian's cramjam for a name that it lacks.
    import cramjam
    if not hasattr(cramjam, "gzip"):
        cramjam.gzip = types.SimpleNamespace(compress=None, decompress=None, decompress_into=None)
names = {}
for line in sys.stdin:
    printed, why = io.StringIO(), ""
    try:
        with contextlib.redirect_stdout(printed):
            exec(compile(json.loads(line), "block", "exec"), names)
    except ModuleNotFoundError as missing:
        why = f"there is no {missing.name}"
    except Exception:
        why = traceback.format_exc()
    print(json.dumps([printed.getvalue(), why]), flush=True)
"""


def called(command: str) -> tuple[int, str, str]:
    """Runs a command: its status, and what it prints on both streams."""
    ran = subprocess.run(
        ["sh", "-c", command], stdin=subprocess.DEVNULL, capture_output=True, check=False
    )
    out, err = (it.decode(errors="replace").rstrip() for it in (ran.stdout, ran.stderr))
    return ran.returncode, out, err


def logic_of(version: str) -> str:
    """The logic of the kit that `rt version` names; other kits with this logic prove the same."""
    return version.rstrip().rpartition(" logic ")[2]


def is_shown(command: str, out: str, shown: Optional[str]) -> bool:
    """Whether this output is what the document shows, if it shows any."""
    if shown is None:
        return True
    if command == "rt version":
        return logic_of(out) == logic_of(shown)
    return out == shown.rstrip()


def steps_of(document: str) -> list[Step]:
    """The lines outside of fenced blocks, and the blocks with their marks, in order."""
    steps: list[Step] = []
    block: Optional[Step] = None
    with open(document, encoding="utf-8") as file:
        lines = file.read().split("\n")
    for number, line in enumerate(lines, 1):
        if not line.startswith("```"):
            if block is None:
                steps.append((number, None, [line]))
            else:
                block[2].append(line)
        elif block is None:
            block = (number, line[3:].strip(), [])
        else:
            steps.append(block)
            block = None
    return steps


def indented(text: list[str]) -> list[tuple[str, list[str]]]:
    """The groups of indented lines of a help text, with their empty lines and the line before."""
    groups: list[tuple[str, list[str]]] = []
    before: Optional[str] = ""
    blank = 0
    for line in text:
        if line.startswith("    "):
            if before is not None:
                groups.append((before, []))
                before, blank = None, 0
            groups[-1][1].extend([""] * blank + [line[4:]])
            blank = 0
        elif line:
            before = line
        else:
            blank += 1
    return groups


def shown_after(steps: list[Step]) -> Optional[str]:
    """What the next block shows, if it is marked text, and no heading or other block is before."""
    for _, mark, text in steps:
        if mark is None and not text[0].startswith("#"):
            continue
        return "\n".join(text) if mark == "text" else None
    return None


def remove_made(there: set[str]) -> None:
    for made in set(os.listdir(".")) - there:
        subprocess.run(["rm", "-rf", made], check=True)


class Python:
    """One Python for the blocks of a document.

    It begins at the first block, so it has what the commands before that installed.
    """

    def __init__(self) -> None:
        self.process: Optional[subprocess.Popen[str]] = None

    def run(self, text: list[str]) -> tuple[str, str]:
        """What a block prints, and why it failed, if it did."""
        if self.process is None:
            self.process = subprocess.Popen(
                [shutil.which("python3") or sys.executable, "-c", RUNNER],
                stdin=subprocess.PIPE,
                stdout=subprocess.PIPE,
                text=True,
            )
        assert self.process.stdin is not None and self.process.stdout is not None
        self.process.stdin.write(json.dumps("\n".join(text)) + "\n")
        self.process.stdin.flush()
        printed, why = json.loads(self.process.stdout.readline() or '["", "Python ended"]')
        return printed, why

    def end(self) -> None:
        if self.process is not None:
            self.process.communicate()


class Documents:
    """The copy of the repository where commands run, and how many did as the documents say."""

    def __init__(self, top: str, copy: str, program: str, only_program: bool) -> None:
        self.top, self.copy, self.only_program = top, copy, only_program
        self.passed = self.failed = 0
        self.done: set[str] = set()
        shutil.copytree(
            top, copy, symlinks=True, ignore=lambda _, names: {".git", "out"} & set(names)
        )
        os.makedirs(f"{copy}/crates/pqds/out")
        shutil.copy2(program, f"{copy}/crates/pqds/out/pqds")
        # (newer than each source of the copy)
        os.utime(f"{copy}/crates/pqds/out/pqds")
        os.chdir(copy)

    def copy_built(self) -> None:
        """Copies what is proved already, for the commands that prove."""
        for out in glob.glob(f"{self.top}/crates/*/out"):
            subprocess.run(["cp", "-a", out, f"crates/{out.split('/')[-2]}/"], check=True)

    def tell(self, what: str, well: bool, why: str) -> None:
        self.passed += well
        self.failed += not well
        print(f"ran     {what}" if well else f"FAILED  {what}\n{why}", flush=True)

    def is_left(self, command: str) -> bool:
        """Whether a command is left out: it takes too long, or what it needs is not there."""
        if command.startswith("pip "):
            return not os.path.exists(f"{self.copy}.home/env/bin/pip")
        if command == "rt version":
            return shutil.which("rt") is None
        if self.only_program and not command.startswith(PROGRAM):
            return True
        is_long = command in LONG or command.startswith("rt all ")
        return is_long or " ROOM PROGRAM" in command

    def run(self, place: str, command: str, before: str, shown: Optional[str]) -> str:
        """Runs a command as typed, and compares what the document shows, if it shows anything.

        Returns what was printed before, and what the command prints."""
        if self.is_left(command):
            print(f"left    {place}: {command}", flush=True)
            return before
        if not command.startswith(PROGRAM) and not os.path.exists("crates/bits/out"):
            self.copy_built()
        status, out, err = called(command)
        wanted = 2 if command.endswith(("--help", "--version")) else 0
        out = "\n".join(it for it in (before, out) if it)
        well = status == wanted and is_shown(command, out, shown)
        why = f"status {status}, and printed\n{out[-2000:]}\n{err[-2000:]}"
        self.tell(f"{place}: {command}", well, why)
        return out

    def run_each(self, place: str, commands: list[str], shown: Optional[str]) -> None:
        """Runs commands in order; what is shown is all that they print."""
        printed = ""
        for number, command in enumerate(commands, 1):
            self.done.add(command)
            printed = self.run(
                place, command, printed, shown if number == len(commands) else None
            )

    def check_help(self, place: str, word: str, text: list[str]) -> None:
        """Compares a help text with the program's, and runs its examples."""
        command = " ".join(["./pqds", word, "--help"] if word else ["./pqds", "--help"])
        status, out, err = called(command)
        well = (status, out, err) == (2, "", "\n".join(text).rstrip())
        self.tell(f"{place}: {command}", well, f"printed\n{out}\n{err}")
        groups: list[tuple[str, list[str]]] = [*indented(text), ("", [])]
        for (_, commands), (before, shown) in zip(groups, groups[1:]):
            if commands[0].startswith("./pqds "):
                is_printed = re.search(r"\bprints\b", before)
                self.run_each(place, commands, "\n".join(shown) if is_printed else None)

    def begin_home(self, has_python: bool) -> None:
        """A home for what the document installs, with a virtual environment if it has Python."""
        home = f"{self.copy}.home"
        path = f"{home}/env/bin:{home}/.local/bin:{os.environ['PATH']}"
        os.environ.update(HOME=home, PATH=path)
        os.environ.pop("PQDS", None)
        if has_python:
            # If Python lacks what this needs, the lines of pip are left out.
            subprocess.run(
                [sys.executable, "-m", "venv", "--system-site-packages", f"{home}/env"],
                capture_output=True,
                check=False,
            )

    def run_block(self, place: str, python: Python, text: list[str], shown: Optional[str]) -> bool:
        """Runs a block of Python; whether what it needs is there."""
        printed, why = python.run(text)
        if why.startswith("there is no "):
            print(f"left    {place}: {why}", flush=True)
            return False
        well = not why and printed.rstrip() == (shown or "").rstrip()
        self.tell(f"{place}: {len(text)} lines of Python", well, f"printed\n{printed}\n{why}")
        return True

    def check(self, document: str) -> None:
        """Runs what a document shows."""
        steps, before, there = steps_of(document), dict(os.environ), set(os.listdir("."))
        has_python = any(mark == "python" for _, mark, _ in steps)
        if any(mark == "sh" and text[0].startswith("./install") for _, mark, text in steps):
            self.begin_home(has_python)
        goes_on = has_python or os.path.basename(document) == "TUTORIAL.md"
        self.check_steps(document, steps, goes_on)
        os.environ.clear()
        os.environ.update(before)
        remove_made(there)

    def check_steps(self, document: str, steps: list[Step], goes_on: bool) -> None:
        there, heading, missing, python = set(os.listdir(".")), "", "", Python()
        for at, (number, mark, text) in enumerate(steps):
            place = f"{document}:{number}"
            if mark is None and text[0].startswith("#"):
                heading = text[0]
                if not goes_on:
                    remove_made(there)
            found = HELP.match(heading)
            if mark is None:
                self.run_calls(place, text[0])
            elif mark == "sh":
                self.run_each(place, text, shown_after(steps[at + 1 :]))
            elif mark == "python" and not self.only_program and heading != missing:
                is_there = self.run_block(place, python, text, shown_after(steps[at + 1 :]))
                missing = "" if is_there else heading
            elif found:
                self.check_help(place, found[1], text)
        python.end()

    def run_calls(self, place: str, line: str) -> None:
        """Runs the calls in backquotes of a line that have not been run yet."""
        for command, shown in CALL.findall(line):
            if command not in self.done | {"rt", "./pqds"}:
                self.run_each(place, [command], shown or None)


def main(words: list[str]) -> int:
    if len(words) < 3:
        print(__doc__, file=sys.stderr)
        return 2
    top, copy, program = words[:3]
    named = [it for it in words[3:] if it != "--program"]
    documents = Documents(top, copy, program, "--program" in words)
    for document in named or [
        "README.md",
        *sorted(glob.glob("docs/*.md")),
        *sorted(glob.glob("crates/*/README.md")),
    ]:
        documents.check(document)
    print(f"{documents.passed} passed, {documents.failed} failed")
    return int(documents.failed > 0)


if __name__ == "__main__":
    sys.exit(main(sys.argv[1:]))
