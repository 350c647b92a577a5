"""For bench/faults/roots.sh, which says what it does: roots.py ROOM OLD PROGRAM CHANGES SEED."""

from __future__ import annotations

import collections
import json
import os
import random
import shutil
import subprocess
import sys
from pathlib import Path

SCHEMA = [
    {"name": "region", "note": "utf8", "rep": "required", "type": "bytes"},
    {"name": "order", "rep": "required", "type": "int64"},
    {"name": "cents", "rep": "optional", "type": "int64"},
    {"name": "note", "note": "utf8", "rep": "optional", "type": "bytes"},
]
QUESTIONS = (
    ("groups", "t", "--stats"),
    ("count", "t", "--filter", '[["cents",">",20],["note","!=","n1"]]'),
    ("query", "t"),
)
# Every so many roots are also appended to.
APPENDS = 10

Ended = tuple[int, bytes, bytes]


def run(program: str, *words: str) -> Ended:
    ran = subprocess.run(
        [program, *words], stdin=subprocess.DEVNULL, capture_output=True, timeout=100, check=False
    )
    return ran.returncode, ran.stdout, ran.stderr


def rows_of(commit: int) -> str:
    """Six rows of one commit, under three keys, some with nulls."""
    rows = (
        {
            "region": "ab/c"[at % 4],
            "order": commit * 10 + at,
            "cents": None if at % 3 == 0 else at * 7,
            "note": f"n{at}" if at % 2 else None,
        }
        for at in range(6)
    )
    return "".join(json.dumps(row) + "\n" for row in rows)


def make_table(program: str) -> bytes:
    """Makes the table `t`, and gives its root."""
    Path("schema.json").write_text(json.dumps(SCHEMA), encoding="utf-8")
    calls = [("create", "t", "schema.json", "region")] + [("append", "t", "rows")] * 4
    for number, words in enumerate(calls):
        Path("rows").write_text(rows_of(number), encoding="utf-8")
        ended = run(program, *words)
        if ended[0] != 0:
            sys.exit(f"roots.py: {' '.join(words)}: {ended[2].decode(errors='replace')}")
    return Path("t/_metadata").read_bytes()


def changed(good: bytes, chance: random.Random) -> bytes:
    """A root of which one to three bytes are changed."""
    root = bytearray(good)
    kind = chance.randrange(6)
    for _ in range(1 if kind < 3 else chance.randrange(1, 4)):
        at = chance.randrange(len(root))
        way = chance.randrange(4)
        if way < 2:
            root[at] = chance.randrange(256)
        elif way == 2:
            root[at] ^= 1 << chance.randrange(8)
        elif kind == 4:
            del root[at]
        elif kind == 5:
            root.insert(at, chance.randrange(256))
    if kind >= 4 and chance.randrange(2):
        root[-8:-4] = (len(root) - 12).to_bytes(4, "little")
    return bytes(root)


def after_append(program: str) -> tuple[Ended, bytes, list[str]]:
    """How an append to a copy of the table ends, the root that it leaves, and the names of the files."""
    shutil.rmtree("u", ignore_errors=True)
    shutil.copytree("t", "u")
    ended = run(program, "append", "u", "rows")
    names = sorted(os.path.join(at, name) for at, _, names in os.walk("u") for name in names)
    return ended, Path("u/_metadata").read_bytes(), names


def last_line(ended: Ended) -> str:
    lines = ended[2].decode(errors="replace").splitlines()
    return lines[-1] if lines else "done"


def main(room: str, old: str, program: str, changes: int, seed: int) -> int:
    os.chdir(room)
    chance = random.Random(seed)
    good = make_table(program)
    ends: collections.Counter[str] = collections.Counter()
    differ = 0
    for number in range(changes):
        root = changed(good, chance)
        Path("t/_metadata").write_bytes(root)
        words = QUESTIONS[number % len(QUESTIONS)]
        before, now = run(old, *words), run(program, *words)
        same = before == now
        if number % APPENDS == 0:
            same = same and after_append(old) == after_append(program)
        ends[last_line(now)] += 1
        if not same:
            differ += 1
            print(f"differs: {' '.join(words)}, root {root.hex()}", flush=True)
    for line, count in ends.most_common():
        print(f"{count:7} {line}")
    print(f"{changes} changed roots, {differ} differ")
    return differ > 0


if __name__ == "__main__":
    room, old, program, changes, seed = sys.argv[1:]
    sys.exit(main(room, old, program, int(changes), int(seed)))
