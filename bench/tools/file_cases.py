#!/usr/bin/env python3
"""Prints the definitions of crates/file_cases/stdout that are made by a rule: whole files, put together from pages and the
records of a footer. It knows Thrift's compact protocol and the records of parquet.thrift, and nothing of the product.

With `--stdin` it prints what `crates/file_cases/stdin` must be for the `stdout` that stands: each line without its outcome.
"""
import os
import sys

import command_line
from compact import uleb, zigzag

TOP = os.path.join(os.path.dirname(os.path.abspath(__file__)), "..", "..", "crates", "file_cases")


def struct(*fields):
    """Fields as (id, type, bytes), in the order of their ids."""
    out, last = b"", 0
    for number, kind, value in fields:
        if value is None:
            continue
        out += bytes([(number - last) * 16 + kind]) + value
        last = number
    return out + b"\0"


def i32(number, value):
    return (number, 5, None if value is None else uleb(zigzag(value)))


def i64(number, value):
    return (number, 6, None if value is None else uleb(zigzag(value)))


def text(number, value):
    return (number, 8, uleb(len(value)) + value)


def items(number, kind, values):
    size = len(values)
    head = bytes([size * 16 + kind]) if size < 15 else bytes([0xF0 + kind]) + uleb(size)
    return (number, 9, head + b"".join(values))


def element(name, kind=None, repetition=0, children=None, converted=None):
    return struct(
        i32(1, kind), i32(3, repetition), text(4, name.encode()), i32(5, children), i32(6, converted)
    )


def chunk(path, kind, entries, start, dictionary):
    names = [uleb(len(name)) + name.encode() for name in path.split(".")]
    meta = struct(
        i32(1, kind), items(3, 8, names), i32(4, 0), i64(5, entries), i64(9, start + dictionary),
        i64(11, start if dictionary else None),
    )
    return struct((3, 12, meta))


def group(chunks, start, rows):
    columns = []
    for path, kind, entries, dictionary, pages in chunks:
        columns.append(chunk(path, kind, entries, start, dictionary))
        start += len(pages)
    return struct(items(1, 12, columns), i64(3, rows)), start


def file(elements, groups, rows, times=1):
    """A file of groups of so many rows; the footer names them so often, and they share their bytes."""
    front = b"PAR1" + b"".join(pages for chunks in groups for _, _, _, _, pages in chunks)
    records = []
    for _ in range(times):
        start = 4
        for chunks in groups:
            one, start = group(chunks, start, rows)
            records.append(one)
    footer = struct(i32(1, 1), items(2, 12, elements), items(4, 12, records))
    return front + footer + len(footer).to_bytes(4, "little") + b"PAR1"


# A boolean, a list and a map in their three-level form, an optional number, a required and an optional text.
KINDS = [
    element("schema", children=6), element("b", 0), element("l", repetition=1, children=1, converted=3),
    element("list", repetition=2, children=1), element("element", 1, 1), element("m", repetition=1, children=1, converted=1),
    element("key_value", repetition=2, children=2), element("key", 6, converted=0), element("value", 1, 1),
    element("n", 2, 1), element("p", 6, converted=0), element("t", 6, 1, converted=0),
]

# true, false and true by RLE: four bytes of length, and one group of eight bits.
BOOLEANS = "1500150c150c2c15061506150615060000020000000305"
# [5, null], [] and null: repetition levels 0 1 0 0, definition levels 3 2 1 0, and the one value.
ELEMENTS = "1500152215222c150815001506150600000200000003020300000003" "1b0005000000"
# The keys of {a: 1, b: null}, {} and null: definition levels 2 2 1 0; and their values: definition levels 3 2 1 0, and 1.
KEYS = "1500152e152e2c1508150015061506000002000000030203000000031a0001000000610100000062"
VALUES = "1500152215222c1508150015061506000002000000030203000000031b0001000000"
# 1, null and 300 in a page of version 2: two bytes of definition levels, and DELTA_BINARY_PACKED.
NUMBERS = "1506151a151a5c150615021506150a1504150012000003058001040202d60400000000"
# axis, axle and babble in DELTA_BYTE_ARRAY: shared prefixes 0, 2 and 0, suffixes of 4, 2 and 6 bytes.
PREFIXED = (
    "1500157015702c1506150e15061506000080010403000303000000040000000000000000000000" "80010403080303000000300000000000000000000000"
    "617869736c65626162626c65"
)
# A dictionary of a and b; b and a as indexes; an index page, which is skipped; and c in PLAIN, as a writer goes on whose
# dictionary has grown too large.
TEXTS = (
    "1504151415144c150415000000010000006101000000" "62" "1500151215122c1504151015061506000002000000040101" "0301"
    "15021504150400" "0707" "1500151615162c150215001506150600000200000002010100000063"
)


def kinds(times):
    chunks = [
        ("b", 0, 3, 0, BOOLEANS), ("l.list.element", 1, 4, 0, ELEMENTS), ("m.key_value.key", 6, 4, 0, KEYS),
        ("m.key_value.value", 1, 4, 0, VALUES), ("n", 2, 3, 0, NUMBERS), ("p", 6, 3, 0, PREFIXED), ("t", 6, 3, 23, TEXTS),
    ]
    chunks = [(path, kind, entries, size, bytes.fromhex(pages)) for path, kind, entries, size, pages in chunks]
    return file(KINDS, [chunks], 3, times)


def two_dictionaries():
    """Two groups of a chunk each: three texts with a dictionary of their own, as PLAIN_DICTIONARY."""
    groups = []
    for one, other in ["ab", "cd"]:
        page = b"\x15\x04\x15\x14\x15\x14\x4c\x15\x04\x15\x04\0\0\x01\0\0\0" + one.encode() + b"\x01\0\0\0" + other.encode()
        page += bytes.fromhex("1500150615062c1506150415061506000001" "0305")
        groups.append([("p", 6, 3, 23, page)])
    return file([element("schema", children=1), element("p", 6, converted=0)], groups, 3)


def page(count, body):
    size = uleb(zigzag(len(body)))
    return b"\x15\0\x15" + size + b"\x15" + size + b"\x2c\x15" + uleb(zigzag(count)) + b"\x15\0\x15\x06\x15\x06\0\0" + body


def a_double_in_a_group():
    return file([element("schema", children=1), element("a", children=1), element("b", 5)], [], 0)


def lists_of_two_lengths():
    """One row of a repeated group of two INT32: the first column has two of it, the second three."""
    two = page(2, b"\x02\0\0\0\x03\x02" b"\x02\0\0\0\x04\x01" b"\x05\0\0\0\x06\0\0\0")
    three = page(3, b"\x02\0\0\0\x03\x06" b"\x02\0\0\0\x06\x01" b"\x05\0\0\0\x06\0\0\0\x07\0\0\0")
    elements = [element("schema", children=1), element("g", repetition=2, children=2), element("x", 1), element("y", 1)]
    return [
        file(elements, [[("g.x", 1, len(one), 0, a), ("g.y", 1, len(other), 0, b)]], 1)
        for one, a, other, b in [("12", two, "12", two), ("12", two, "123", three)]
    ]


def main():
    command_line.only(__doc__, "--stdin")
    if "--stdin" in sys.argv:
        for line in open(os.path.join(TOP, "stdout"), encoding="utf-8"):
            line = line.rstrip("\n")
            if line and line.split(" ")[0] not in ["#", "text", "words", "list"]:
                line = line[: line.rindex(" = ")]
            print(line)
        return
    alike, unlike = lists_of_two_lengths()
    for name, made in [
        ("kinds", kinds(1)), ("kinds40", kinds(40)), ("kinds0", kinds(0)), ("dictionaries", two_dictionaries()),
        ("double", a_double_in_a_group()), ("alike", alike), ("unlike", unlike),
    ]:
        print(f"text {name} {made.hex()}")


if __name__ == "__main__":
    main()
