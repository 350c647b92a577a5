#!/usr/bin/env python3
"""Random lines of JSON, rows of random schemas and lines that are none, read by two programs: both make the same file of the rows
that are read, and refuse the other lines by the same line number, cause and refusal.

    bench/tools/lines.py OLD NEW SEED LINES

OLD and NEW are programs of this repository, from before and after a change of what reads a line. Half of the schemas are read
with --text. The last line says how many lines were rows, how many were refused, and how many differ; the status is 0 if none does.
"""
from __future__ import annotations

import json
import os
import random
import re
import shutil
import subprocess
import sys
import tempfile
from pathlib import Path
from typing import Any, Optional

from command_line import usage

Field = dict[str, Any]

TEXTS = ["", "a", "plain text", "Grüße", "\"quoted\" \\ back/slash", "tab\there", "line\nfeed", "€ 𝄞 \u0001", "0", "null", "x" * 60]
NOTES: dict[str, list[Optional[str]]] = {
    "int32": [None, None, "date", "time_millis", "int_8", "uint_8", "int_16", "uint_16", "uint_32", "decimal"],
    "int64": [None, None, "time_micros", "timestamp_millis", "timestamp_micros", "uint_64", "decimal"],
    "bytes": [None, "utf8", "utf8", "enum", "json", "decimal"],
    "fixed": [None, None, "decimal"],
    "boolean": [None],
}
WINDOW = 2000


def random_field(rng: random.Random, name: str, depth: int) -> Field:
    """A field of a schema, whose groups are nested at most this deep."""
    field: Field = {"name": name, "rep": rng.choice(["required", "optional", "optional", "repeated"])}
    if depth and rng.random() < 0.25:
        field["fields"] = [random_field(rng, each, depth - 1) for each in random_names(rng, rng.randint(1, 3))]
        return field
    kind = rng.choice(list(NOTES))
    field["type"] = kind
    if kind == "fixed":
        field["length"] = rng.choice([1, 4, 16])
    note = rng.choice(NOTES[kind])
    if note:
        field["note"] = note
    if note == "decimal":
        field["scale"] = rng.choice([0, 2, 5])
        field["precision"] = 9
    return field


def random_names(rng: random.Random, count: int) -> list[str]:
    """Different names of fields; some need escapes."""
    names = ["a", "b", "id", "name", "total amount", "größe", "q\"uote", "back\\slash", "", "list", "x1", "x2", "zz"]
    return rng.sample(names, count)


def random_leaf(rng: random.Random, field: Field, with_texts: bool) -> Any:
    """A value of a leaf, nearly always one that it can hold."""
    kind, note = field["type"], field.get("note")
    if kind == "boolean":
        return rng.random() < 0.5
    if with_texts and rng.random() < 0.6:
        text = random_text_form(rng, field)
        if text is not None:
            return text
    if kind in ("int32", "int64"):
        bits = rng.choice([3, 7, 15, 31, 31 if kind == "int32" else 63])
        if note and note.startswith("uint"):
            return rng.randrange(2**bits)
        return rng.randrange(-(2**bits), 2**bits)
    if note in ("utf8", "enum", "json"):
        return rng.choice(TEXTS) if rng.random() < 0.7 else f"value {rng.randrange(10**6)}"
    size = field["length"] if kind == "fixed" else rng.randrange(0, 18)
    digits = bytes(rng.randrange(256) for _ in range(size)).hex()
    if with_texts and note == "decimal":
        return {"hex": digits}
    return digits


def random_text_form(rng: random.Random, field: Field) -> str | None:
    """A text of a date, a time, a timestamp or a decimal, where the leaf has one."""
    note = field.get("note")
    day = f"{rng.randint(1, 9999):04}-{rng.randint(1, 12):02}-{rng.randint(1, 28):02}"
    clock = f"{rng.randrange(24):02}:{rng.randrange(60):02}:{rng.randrange(60):02}"
    if note in ("time_millis", "timestamp_millis"):
        clock += rng.choice(["", ".5", ".25", ".125", ".120"])
    elif note in ("time_micros", "timestamp_micros"):
        clock += rng.choice(["", ".5", ".125001", ".000001"])
    if note == "date":
        return day
    if note in ("time_millis", "time_micros"):
        return clock
    if note in ("timestamp_millis", "timestamp_micros"):
        return day + rng.choice("T ") + clock + rng.choice(["", "Z", "+05:30", "-02"])
    if note == "decimal":
        scale = field["scale"]
        digits = str(rng.randrange(10 ** rng.randint(1, 4)))
        places = "." + "".join(rng.choice("0123456789") for _ in range(rng.randint(1, scale))) if scale else ""
        return rng.choice(["", "-"]) + digits + places
    return None


def random_value(rng: random.Random, field: Field, with_texts: bool) -> Any:
    """A value of a field, as Python's json has it."""
    if field["rep"] == "repeated":
        return [random_single(rng, field, with_texts) for _ in range(rng.choice([0, 0, 1, 2, 5]))]
    if field["rep"] == "optional" and rng.random() < 0.2:
        return None
    return random_single(rng, field, with_texts)


def random_single(rng: random.Random, field: Field, with_texts: bool) -> Any:
    if "fields" in field:
        return random_object(rng, field["fields"], with_texts)
    return random_leaf(rng, field, with_texts)


def random_object(rng: random.Random, fields: list[Field], with_texts: bool) -> dict[str, Any]:
    """An object of the fields, in the order of their names or another, some of those that may be absent left out."""
    there = [each for each in fields if each["rep"] == "required" or rng.random() > 0.1]
    there.sort(key=lambda each: str(each["name"]).encode())
    if rng.random() < 0.3:
        rng.shuffle(there)
    return {each["name"]: random_value(rng, each, with_texts) for each in there}


def random_line(rng: random.Random, fields: list[Field], with_texts: bool) -> str:
    """The text of a row: compact or with blanks, with escapes or without; some changed by a byte, a member or a value."""
    row = random_object(rng, fields, with_texts)
    if rng.random() < 0.02:
        row = damaged_row(rng, row)
    blanks = rng.choice([(",", ":"), (",", ":"), (", ", ": "), (" ,", " : "), (",\t", ":\r ")])
    text = json.dumps(row, separators=blanks, ensure_ascii=rng.random() < 0.4)
    if rng.random() < 0.05:
        text = rng.choice([" ", "\t", ""]) + text + rng.choice([" ", "  ", "\r"])
    if rng.random() < 0.03:
        text = text.replace("/", "\\/").replace("a", "\\u0061", 1)
    if rng.random() < 0.02:
        text = damaged_text(rng, text)
    return text.replace("\n", " ")


def damaged_row(rng: random.Random, row: dict[str, Any]) -> dict[str, Any]:
    """The row with a member more, one fewer, or a value of another type."""
    row = dict(row)
    if not row or rng.random() < 0.3:
        row["no such column"] = 1
    elif rng.random() < 0.5:
        del row[rng.choice(list(row))]
    else:
        values: list[Any] = [None, True, 1, 2**70, -1, 1.5, "text", "0g", [], [[]], {}, {"hex": "00"}, [None]]
        row[rng.choice(list(row))] = rng.choice(values)
    return row


def damaged_text(rng: random.Random, text: str) -> str:
    """The text with a character changed, left out, doubled, or cut there; or a member that stands twice."""
    at = rng.randrange(len(text)) if text else 0
    pick = rng.randrange(6)
    if pick == 0:
        return text[:at]
    if pick == 1:
        return text[:at] + text[at + 1 :]
    if pick == 2:
        return text[:at] + rng.choice("{}[]\",:0-e.tn\\ ") + text[at:]
    if pick == 3:
        return text[:at] + rng.choice("{}[]\",:0-e.tn\\ \x01\x7f") + text[at + 1 :]
    if pick == 4:
        return rng.choice(["", "[]", "null", "1", "{}{}", "{", text + text, text + ","])
    return text[:-1] + ("," if len(text) > 2 else "") + text[1:]


class Programs:
    """Two programs, and a folder in which they work."""

    def __init__(self, old: str, new: str, room: Path) -> None:
        self.paths = [os.path.realpath(old), os.path.realpath(new)]
        self.room = room
        self.rows = self.refused = self.different = 0

    def both(self, *words: str) -> list[tuple[int, str, str]]:
        """What each of both answers: status, standard output, standard error."""
        made = []
        for path in self.paths:
            ran = subprocess.run([path, *words], cwd=self.room, capture_output=True, text=True, errors="replace", check=False)
            made.append((ran.returncode, ran.stdout, ran.stderr))
        return made

    def differ(self, what: str, schema: str, line: str, made: object) -> None:
        self.different += 1
        print(f"differ: {what}: schema {schema}: line {line!r}: {made}", flush=True)

    def try_lines(self, schema: str, lines: list[str], flags: list[str]) -> None:
        """Both read the lines; what is refused is left out, and the rest goes on."""
        (self.room / "schema").write_text(schema, encoding="utf-8")
        good: list[str] = []
        rest = lines
        while rest:
            (self.room / "rows").write_bytes("".join(each + "\n" for each in rest).encode("utf-8", "surrogatepass"))
            old, new = self.both("check", *flags, "schema", "rows")
            found = re.match(r"rows:(\d+):", old[2])
            if old != new:
                self.differ("check", schema, rest[int(found[1]) - 1] if found else "", (old, new))
                return
            if old[0] == 0:
                good += rest
                break
            if not found:
                self.differ("a refusal without a line", schema, rest[0], old)
                return
            at = int(found[1])
            self.refused += 1
            good += rest[: at - 1]
            rest = rest[at:]
        self.rows += len(good)
        self.make_files(schema, good, flags)

    def make_files(self, schema: str, lines: list[str], flags: list[str]) -> None:
        """Both make a file of the lines, which are rows."""
        (self.room / "rows").write_bytes("".join(each + "\n" for each in lines).encode("utf-8", "surrogatepass"))
        files = []
        for path in self.paths:
            subprocess.run([path, "encode", *flags, "schema", "rows", "made"], cwd=self.room, capture_output=True, check=True)
            files.append((self.room / "made").read_bytes())
            (self.room / "made").unlink()
        if files[0] != files[1]:
            self.differ("the files", schema, f"{len(lines)} lines", "")


def main(words: list[str]) -> int:
    old, new, seed, count = words[0], words[1], int(words[2]), int(words[3])
    with tempfile.TemporaryDirectory() as room:
        programs = Programs(old, new, Path(room))
        number = seed
        while programs.rows + programs.refused < count:
            rng = random.Random(number)
            number += 1
            fields = [random_field(rng, each, 2) for each in random_names(rng, rng.randint(1, 6))]
            with_texts = rng.random() < 0.5
            lines = [random_line(rng, fields, with_texts) for _ in range(WINDOW)]
            programs.try_lines(json.dumps(fields), lines, ["--text"] if with_texts else [])
        print(f"{programs.rows} rows, {programs.refused} refused, {programs.different} differ")
        return 1 if programs.different else 0


if __name__ == "__main__":
    if len(sys.argv) != 5 or not (sys.argv[3] + sys.argv[4]).isdigit():
        usage(__doc__)
    for program in sys.argv[1:3]:
        if shutil.which(program) is None:
            sys.exit(f"lines.py: there is no program {program}")
    sys.exit(main(sys.argv[1:]))
