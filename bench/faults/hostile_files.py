"""Files that are made to cost a reader as much as they can: hostile_files.py NAME FOLDER [ENTRIES].

Makes FOLDER/NAME.parquet, byte by byte, FOLDER/NAME.schema.json, and FOLDER/NAME.facts: what the file is and what is to
come of it, as JSON. ENTRIES is how many entries a page announces where it announces many (1,000,000). Without words the names
are printed. (parquet-format, README.md, Encodings.md and parquet.thrift; Thrift's compact protocol.)"""

import json
import os
import struct
import sys

sys.path.insert(0, os.path.join(os.path.dirname(os.path.abspath(__file__)), "..", "speed"))
from make_file import BYTE_ARRAY, INT64, OPTIONAL, REPEATED, REQUIRED, UTF8, data_page, dictionary_page, group, i, leaf, packed, plain, root, text, varint

BOOLEAN, FIXED = 0, 7
PLAIN, RLE, DELTA_BINARY_PACKED, DELTA_LENGTH_BYTE_ARRAY, DELTA_BYTE_ARRAY, RLE_DICTIONARY, BYTE_STREAM_SPLIT = 0, 3, 5, 6, 7, 8, 9
MIB = 1 << 20
MOST = 2**31 - 1
MOST_ENTRIES = 16_777_216
MOST_LISTED = 100_000
ONE = struct.pack("<q", 1)
ENTRIES = 1_000_000

TRUNCATED, THRIFT, SCHEMA, FLOAT, ENCODING, PAGE, LEVELS, VALUE, LIMIT = 1, 3, 4, 6, 8, 9, 10, 11, 13


# ---- parts of files


def listed(items, kind=12):
    """A list of the compact protocol, of elements of this type."""
    head = bytes([len(items) << 4 | kind]) if len(items) < 15 else bytes([0xF0 | kind]) + varint(len(items))
    return head + b"".join(items)


def run(count, value, width):
    """A run of one number, announced as often as wanted."""
    return varint(count * 2) + value.to_bytes((width + 7) // 8, "little")


def sized(section):
    return struct.pack("<I", len(section)) + section


def deltas(first, steps, count, miniblock=MOST_ENTRIES):
    """DELTA_BINARY_PACKED: these steps, and from then on the last of them, which is announced in a block without bytes."""
    out = varint(miniblock) + varint(1) + varint(count) + i(first)
    for step in steps:
        out += i(step) + b"\x00"
    return out


def page_of_size(size, count, encoding, body):
    """A data page of version 1 that announces this many bytes of body."""
    said = i(size)
    return b"\x15\x00\x15" + said + b"\x15" + said + b"\x2c\x15" + i(count) + b"\x15" + i(encoding) + b"\x15\x06\x15\x06\x00\x00" + body


def page_of_version_2(count, encoding, repetitions, definitions, values):
    size = i(len(repetitions) + len(definitions) + len(values))
    head = b"\x15\x06\x15" + size + b"\x15" + size + b"\x5c\x15" + i(count) + b"\x15\x00\x15" + i(count) + b"\x15" + i(encoding)
    return head + b"\x15" + i(len(definitions)) + b"\x15" + i(len(repetitions)) + b"\x12\x00\x00" + repetitions + definitions + values


def chunk(kind, path, entries, start, dictionary=0, statistics=b"", size=0):
    """The record of a chunk, as `make_file` makes it, with statistics too. `dictionary` is the size of the dictionary's page."""
    meta = b"\x15" + i(kind) + b"\x19\x25\x00\x06\x19" + listed([text(name) for name in path], 8) + b"\x15\x00\x16" + i(entries)
    meta += b"\x16" + i(size) + b"\x16" + i(size) + b"\x26" + i(start + dictionary)
    if dictionary:
        meta += b"\x26" + i(start)
    if statistics:
        meta += (b"\x1c" if dictionary else b"\x3c") + statistics
    return b"\x26\x00\x1c" + meta + b"\x00\x00"


def row_group(chunks, rows):
    return b"\x19" + listed(chunks) + b"\x26" + i(rows) + b"\x00"


def footer(elements, groups, rows, more=b""):
    """FileMetaData, with fields after the row groups."""
    return b"\x15\x02\x19" + listed(elements) + b"\x16" + i(rows) + b"\x19" + listed(groups) + more + b"\x00"


def framed(front, footer, length=None):
    return b"PAR1" + front + footer + struct.pack("<I", len(footer) if length is None else length) + b"PAR1"


class File:
    """A file and what is to come of it: a number of rows, or the number of a refusal.

    `held` is how many entries the largest page of a column and its dictionary have, summed over the columns of a group,
    whose pages are read side by side. `row` is how many bytes the text of the largest row has, `written` how many the
    text of all rows has, `values` how many values the rows have, groups and lists among them. `entries` is how many
    entries all chunks have as they are read, and `like` which honest file has such entries. `structs` is how many bytes
    the footer has, `header` how many the largest page header has, and `headers` how many all page headers have as they
    are read, those of each chunk by itself. `listed` is how many pages `inspect` lists. `keys` are the key columns of the
    table that it is imported into, `groups` how many groups the table then has, and `cells` how many columns these have.
    `kind` is what it is given as: a Parquet `file`, the `root` of a dataset, or `rows` as lines of JSON."""

    def __init__(self, bytes, structs, fields, **facts):
        self.bytes = bytes
        self.fields = fields
        self.facts = {"rows": None, "refused": None, "path": "", "inspected": None, "structs": structs, "header": 64, "headers": 64, "listed": 2}
        self.facts |= {"kind": "file", "keys": [], "groups": 0, "cells": 0, "fields": len(fields)}
        self.facts |= {"held": 0, "row": 0, "entries": facts.get("rows") or 0, "like": "numbers", "written": 0} | facts
        self.facts.setdefault("values", self.facts["entries"])


def field(name, rep, type, **more):
    return {"name": name, "rep": rep, "type": type} | more


def one_column(pages, kind, rep, chunk_entries, group_rows, fields, dictionary=0, annotation=None, length=None, **facts):
    """A file of one column `x` in one group."""
    element = leaf(b"x", kind, rep, annotation)
    if length is not None:
        element = element[:2] + b"\x15" + i(length) + b"\x15" + element[3:]
    ends = footer([root(1), element], [row_group([chunk(kind, [b"x"], chunk_entries, 4, dictionary, size=len(pages))], group_rows)], group_rows)
    return File(framed(pages, ends), len(ends), fields, **facts)


def names_of(columns):
    return [b"c%d" % number for number in range(columns)]


def texts_of(names):
    """Columns of texts, as the schema of a dataset has them."""
    return [field(name.decode(), "required", "bytes", note="utf8") for name in names]


X_INT64 = [field("x", "required", "int64")]
X_OPTIONAL = [field("x", "optional", "int64")]
X_BOOLEAN = [field("x", "required", "boolean")]
X_TEXT = [field("x", "required", "bytes", note="utf8")]
X_TEXTS = [field("x", "repeated", "bytes", note="utf8")]
X_BOOLEANS = [field("x", "repeated", "boolean")]
X_NUMBERS = [field("x", "repeated", "int64")]
NULL_ROW = len('{"x":null}\n')


def nulls(count):
    """The body of a page of this many nulls."""
    return sized(run(count, 0, 1))


# ---- bytes that many chunks share


def shared_by_columns():
    """1024 columns over one chunk of nulls: each column has a page of its own in memory."""
    columns, rows = 1024, max(1, ENTRIES // 128)
    names = names_of(columns)
    page = data_page(rows, PLAIN, nulls(rows))
    group_of_all = row_group([chunk(INT64, [name], rows, 4) for name in names], rows)
    ends = footer([root(columns)] + [leaf(name, INT64, OPTIONAL) for name in names], [group_of_all], rows)
    row = sum(len(name) + 8 for name in names) + 2
    return File(framed(page, ends), len(ends), [field(name.decode(), "optional", "int64") for name in names], rows=rows,
                held=rows * columns, listed=columns, row=row, entries=rows * columns, like="nulls", written=rows * row)


def shared_by_groups():
    """1000 groups over one chunk of nulls."""
    groups, count = 1000, max(1, ENTRIES // 1000)
    page = data_page(count, PLAIN, nulls(count))
    record = row_group([chunk(INT64, [b"x"], count, 4)], count)
    ends = footer([root(1), leaf(b"x", INT64, OPTIONAL)], [record] * groups, count * groups)
    return File(framed(page, ends), len(ends), X_OPTIONAL, rows=count * groups, held=count, headers=groups * 32,
                listed=groups, row=NULL_ROW, like="nulls", written=count * groups * NULL_ROW)


def each_a_page_less():
    """Chunks that begin at each page of one row of pages, and go on to its end."""
    pages = int((2 * ENTRIES) ** 0.5)
    page = data_page(1, PLAIN, ONE)
    records = [row_group([chunk(INT64, [b"x"], pages - first, 4 + first * len(page))], pages - first) for first in range(pages)]
    rows = pages * (pages + 1) // 2
    ends = footer([root(1), leaf(b"x", INT64, REQUIRED)], records, rows)
    return File(framed(page * pages, ends), len(ends), X_INT64, rows=rows, held=1, headers=rows * (len(page) - len(ONE)), listed=min(rows, MOST_LISTED),
                row=8, written=rows * 8)


def texts_of_nothing(count):
    return dictionary_page(count, bytes(4 * count))


def dictionary_shared_by_columns():
    """Columns that share the page of a large dictionary: each has its list of the values."""
    columns, size = 1024, max(1, ENTRIES // 128)
    names = names_of(columns)
    before = texts_of_nothing(size)
    page = before + data_page(1, RLE_DICTIONARY, b"\x00")
    group_of_all = row_group([chunk(BYTE_ARRAY, [name], 1, 4, len(before)) for name in names], 1)
    ends = footer([root(columns)] + [leaf(name, BYTE_ARRAY, REQUIRED, UTF8) for name in names], [group_of_all], 1)
    row = sum(len(name) + 6 for name in names) + 2
    return File(framed(page, ends), len(ends), texts_of(names), rows=1, held=size * columns + columns,
                listed=2 * columns, row=row, entries=size * columns, values=columns, like="texts", written=row)


def dictionary_shared_by_groups():
    """1000 groups of one row that share the page of a large dictionary."""
    groups, size = 1000, ENTRIES // 100
    before = texts_of_nothing(size)
    page = before + data_page(1, RLE_DICTIONARY, b"\x00")
    record = row_group([chunk(BYTE_ARRAY, [b"x"], 1, 4, len(before))], 1)
    ends = footer([root(1), leaf(b"x", BYTE_ARRAY, REQUIRED, UTF8)], [record] * groups, groups)
    return File(framed(page, ends), len(ends), X_TEXT, rows=groups, held=size + 1, headers=groups * 64, listed=2 * groups, row=9,
                entries=groups * size, values=groups, like="texts", written=9 * groups)


# ---- pages that announce many entries in a few bytes


def run_of_nulls():
    """Nulls in one run of levels."""
    page = data_page(ENTRIES, PLAIN, nulls(ENTRIES))
    return one_column(page, INT64, OPTIONAL, ENTRIES, ENTRIES, X_OPTIONAL, rows=ENTRIES, held=ENTRIES, row=NULL_ROW, like="nulls", written=ENTRIES * NULL_ROW)


def run_of_nulls_in_version_2():
    page = page_of_version_2(ENTRIES, PLAIN, b"", run(ENTRIES, 0, 1), b"")
    return one_column(page, INT64, OPTIONAL, ENTRIES, ENTRIES, X_OPTIONAL, rows=ENTRIES, held=ENTRIES, row=NULL_ROW, like="nulls", written=ENTRIES * NULL_ROW)


def one_row_of_a_run():
    """One row: a list of booleans, in three runs."""
    body = sized(run(1, 0, 1) + run(ENTRIES - 1, 1, 1)) + sized(run(ENTRIES, 1, 1)) + sized(run(ENTRIES, 1, 1))
    page = data_page(ENTRIES, RLE, body)
    row = ENTRIES * 5 + len('{"x":[]}')
    return one_column(page, BOOLEAN, REPEATED, ENTRIES, 1, X_BOOLEANS, rows=1, held=ENTRIES, row=row, entries=ENTRIES, like="lists", written=row)


def run_of_empty_lists():
    body = sized(run(ENTRIES, 0, 1)) + sized(run(ENTRIES, 0, 1))
    return one_column(data_page(ENTRIES, PLAIN, body), INT64, REPEATED, ENTRIES, ENTRIES, X_NUMBERS, rows=ENTRIES, held=ENTRIES, row=9, like="lists", written=ENTRIES * 9)


def indexes_of_no_bits():
    """A dictionary of one number, and indexes of width 0."""
    before = dictionary_page(1, ONE)
    page = before + data_page(ENTRIES, RLE_DICTIONARY, b"\x00")
    return one_column(page, INT64, REQUIRED, ENTRIES, ENTRIES, X_INT64, len(before), rows=ENTRIES, held=ENTRIES, row=8, written=ENTRIES * 8)


def run_of_indexes():
    before = dictionary_page(1, ONE)
    page = before + data_page(ENTRIES, RLE_DICTIONARY, b"\x01" + run(2**62, 0, 1))
    return one_column(page, INT64, REQUIRED, ENTRIES, ENTRIES, X_INT64, len(before), rows=ENTRIES, held=ENTRIES, row=8, written=ENTRIES * 8)


def indexes_below_lists():
    """The same below a list: an entry has two levels, an index and a value."""
    before = dictionary_page(1, ONE)
    body = sized(run(ENTRIES, 0, 1)) + sized(run(ENTRIES, 1, 1)) + b"\x00"
    row = len('{"x":[1]}') + 1
    return one_column(before + data_page(ENTRIES, RLE_DICTIONARY, body), INT64, REPEATED, ENTRIES, ENTRIES, X_NUMBERS, len(before), rows=ENTRIES,
                      held=ENTRIES + 1, row=row, entries=ENTRIES, values=2 * ENTRIES, like="lists", written=ENTRIES * row)


def run_of_booleans():
    page = data_page(ENTRIES, RLE, sized(run(2**62, 1, 1)))
    return one_column(page, BOOLEAN, REQUIRED, ENTRIES, ENTRIES, X_BOOLEAN, rows=ENTRIES, held=ENTRIES, row=11, like="booleans", written=ENTRIES * 11)


def differences_of_no_bits():
    page = data_page(ENTRIES, DELTA_BINARY_PACKED, deltas(0, [1], ENTRIES))
    return one_column(page, INT64, REQUIRED, ENTRIES, ENTRIES, X_INT64, rows=ENTRIES, held=ENTRIES, row=14, written=ENTRIES * 13)


def lengths_of_no_bits():
    """Empty texts, whose lengths are announced at once."""
    page = data_page(ENTRIES, DELTA_LENGTH_BYTE_ARRAY, deltas(0, [0], ENTRIES))
    return one_column(page, BYTE_ARRAY, REQUIRED, ENTRIES, ENTRIES, X_TEXT, annotation=UTF8, rows=ENTRIES, held=ENTRIES, row=9, like="texts", written=ENTRIES * 9)


def prefixes_of_no_bits():
    """Empty texts that share nothing with one another."""
    page = data_page(ENTRIES, DELTA_BYTE_ARRAY, deltas(0, [0], ENTRIES) + deltas(0, [0], ENTRIES))
    return one_column(page, BYTE_ARRAY, REQUIRED, ENTRIES, ENTRIES, X_TEXT, annotation=UTF8, rows=ENTRIES, held=ENTRIES, row=9, like="texts", written=ENTRIES * 9)


def runs_of_nothing():
    """A section of levels that begins with many runs of no numbers."""
    body = sized(bytes(2 * ENTRIES) + run(1, 1, 1)) + ONE
    return one_column(data_page(1, PLAIN, body), INT64, OPTIONAL, 1, 1, X_OPTIONAL, rows=1, held=1, row=8, entries=ENTRIES, values=1, like="nulls", written=8)


def rows_that_wait():
    """Rows of one short text, one fewer than a group of a table has."""
    count = min(ENTRIES, 131_071)
    before = dictionary_page(1, plain(BYTE_ARRAY, [b"a"]))
    row = len('{"x":"a"}') + 1
    return one_column(before + data_page(count, RLE_DICTIONARY, b"\x00"), BYTE_ARRAY, REQUIRED, count, count, X_TEXT, len(before), UTF8, rows=count,
                      held=count + 1, row=row, like="texts", written=count * row)


def of_keys(numbers, encoding, count):
    """Rows of a key and a boolean, each with a key of its own: a table has a group for each."""
    pages = data_page(count, encoding, numbers) + data_page(count, RLE, sized(run(count, 1, 1)))
    second = 4 + len(data_page(count, encoding, numbers))
    group_of_both = row_group([chunk(INT64, [b"x"], count, 4), chunk(BOOLEAN, [b"y"], count, second)], count)
    ends = footer([root(2), leaf(b"x", INT64, REQUIRED), leaf(b"y", BOOLEAN, REQUIRED)], [group_of_both], count)
    row = len('{"x":1234,"y":true}') + 1
    return File(framed(pages, ends), len(ends), X_INT64 + [field("y", "required", "boolean")], rows=count, held=2 * count, row=row, entries=2 * count,
                written=count * row, keys=["x"], groups=count, cells=2 * count, like="keys")


def key_in_each_row():
    """Keys by differences without bits: some 200 bytes in all."""
    count = max(1, ENTRIES // 250)
    return of_keys(deltas(0, [1], count), DELTA_BINARY_PACKED, count)


# ---- what is read before something is refused


def nulls_before_a_damaged_group():
    """10 groups over one page of nulls, and then one that has a row less than it announces."""
    count = max(1, ENTRIES // 10)
    page = data_page(count, PLAIN, nulls(count))
    record = row_group([chunk(INT64, [b"x"], count, 4)], count)
    damaged = row_group([chunk(INT64, [b"x"], count, 4)], count + 1)
    ends = footer([root(1), leaf(b"x", INT64, OPTIONAL)], [record] * 10 + [damaged], 11 * count + 1)
    return File(framed(page, ends), len(ends), X_OPTIONAL, refused=LEVELS, held=count, headers=11 * 32, listed=11, row=NULL_ROW, entries=11 * count,
                values=10 * count, like="nulls", written=10 * count * NULL_ROW)


def skipped_pages_shared_by_groups():
    """Groups that share a row of pages that are skipped, and then one of one entry."""
    groups = max(1, ENTRIES // 10_000)
    page = b"\x15\x02\x15\x00\x15\x00\x00" * (ENTRIES * 7 // 1000) + data_page(1, PLAIN, ONE)
    record = row_group([chunk(INT64, [b"x"], 1, 4)], 1)
    ends = footer([root(1), leaf(b"x", INT64, REQUIRED)], [record] * groups, groups)
    return File(framed(page, ends), len(ends), X_INT64, headers=groups * len(page), listed=min(groups * (ENTRIES * 7 // 1000 + 1), MOST_LISTED), rows=groups, held=1,
                row=8, like="structs", written=groups * 8)


# ---- long values that few bytes stand for


def long_text_in_many_rows():
    """One text of 1 MB in the dictionary, and indexes of width 0 to it, in rows of their own."""
    count, size = max(2, ENTRIES // 4000), ENTRIES
    before = dictionary_page(1, plain(BYTE_ARRAY, [b"a" * size]))
    page = before + data_page(count, RLE_DICTIONARY, b"\x00")
    return one_column(page, BYTE_ARRAY, REQUIRED, count, count, X_TEXT, len(before), UTF8, rows=count, held=count, row=size + 9, like="long", written=count * (size + 9))


def long_text_in_one_row():
    """The same in one row."""
    count, size = max(2, ENTRIES // 16_000), ENTRIES
    before = dictionary_page(1, plain(BYTE_ARRAY, [b"a" * size]))
    body = sized(run(1, 0, 1) + run(count - 1, 1, 1)) + sized(run(count, 1, 1)) + b"\x00"
    row = count * (size + 3) + 8
    return one_column(before + data_page(count, RLE_DICTIONARY, body), BYTE_ARRAY, REPEATED, count, 1, X_TEXTS, len(before), UTF8, rows=1, held=count,
                      row=row, entries=count, like="long", written=row)


def long_text_in_each_column():
    """64 columns over one chunk, whose one row has the text."""
    columns, size = 64, ENTRIES
    names = names_of(columns)
    before = dictionary_page(1, plain(BYTE_ARRAY, [b"a" * size]))
    group_of_all = row_group([chunk(BYTE_ARRAY, [name], 1, 4, len(before)) for name in names], 1)
    ends = footer([root(columns)] + [leaf(name, BYTE_ARRAY, REQUIRED, UTF8) for name in names], [group_of_all], 1)
    row = sum(len(name) + 6 + size for name in names) + 2
    return File(framed(before + data_page(1, RLE_DICTIONARY, b"\x00"), ends), len(ends), texts_of(names), rows=1,
                held=2 * columns, listed=2 * columns, row=row, entries=columns, like="long", written=row)


def same_prefix():
    """DELTA_BYTE_ARRAY: one long text, and then prefixes that are all of it."""
    count, size = max(200, ENTRIES // 250), ENTRIES // 16
    width = size.bit_length()
    # Only the first difference is not 0. It stands in a block of 128, in four miniblocks; no bits are announced in the others.
    blocks = (i(0) + bytes(4)) * ((count - 2) // 128)
    before = varint(128) + varint(4) + varint(count)
    prefixes = before + i(0) + i(0) + bytes([width, 0, 0, 0]) + packed([size] + [0] * 31, width) + blocks
    suffixes = before + i(size) + i(-size) + bytes([width] * 4) + packed([0] + [size] * 127, width) + blocks
    return one_column(data_page(count, DELTA_BYTE_ARRAY, prefixes + suffixes + b"a" * size), BYTE_ARRAY, REQUIRED, count, count, X_TEXT, annotation=UTF8,
                      rows=count, held=count, row=size + 9, like="long", written=count * (size + 9))


def growing_prefixes():
    """DELTA_BYTE_ARRAY: each text is the one before it and one byte more."""
    count = max(2, ENTRIES // 50)
    body = deltas(0, [1], count) + deltas(1, [0], count) + b"a" * count
    written = count * 9 + count * (count + 1) // 2
    return one_column(data_page(count, DELTA_BYTE_ARRAY, body), BYTE_ARRAY, REQUIRED, count, count, X_TEXT, annotation=UTF8, rows=count, held=count,
                      row=count + 9, like="long", written=written)


def dictionary_of_bits():
    """A dictionary of booleans, eight to a byte, of which one is used."""
    before = dictionary_page(ENTRIES, bytes((ENTRIES + 7) // 8))
    page = before + data_page(1, RLE_DICTIONARY, b"\x00")
    return one_column(page, BOOLEAN, REQUIRED, 1, 1, X_BOOLEAN, len(before), rows=1, held=ENTRIES + 1, row=12, entries=ENTRIES, values=1,
                      like="booleans", written=12)


def large_dictionary_and_small_pages():
    """A dictionary of booleans, and pages of one entry."""
    pages = max(1, ENTRIES // 100)
    before = dictionary_page(ENTRIES, bytes((ENTRIES + 7) // 8))
    page = before + data_page(1, RLE_DICTIONARY, b"\x00") * pages
    return one_column(page, BOOLEAN, REQUIRED, pages, pages, X_BOOLEAN, len(before), rows=pages, held=ENTRIES + 1, headers=32 * pages, listed=pages + 1,
                      row=12, entries=ENTRIES + pages, values=pages, like="booleans", written=12 * pages)


def large_split_value():
    """BYTE_STREAM_SPLIT of one value, of 4 MB."""
    size = 4 * ENTRIES
    return one_column(data_page(1, BYTE_STREAM_SPLIT, b"\x61" * size), FIXED, REQUIRED, 1, 1, [field("x", "required", "fixed", length=size)], length=size,
                      rows=1, held=1, row=2 * size + 9, entries=size // 50, values=1, like="texts", written=2 * size + 9)


# ---- numbers that nothing stands behind


def of_two_rows(page=None, entries=2, rows=2, file_rows=2, refused=None, start=4, dictionary=0):
    """One REQUIRED INT64 column whose page has the numbers 1 and 1, with something changed."""
    page = data_page(2, PLAIN, ONE * 2) if page is None else page
    ends = footer([root(1), leaf(b"x", INT64, REQUIRED)], [row_group([chunk(INT64, [b"x"], entries, start, dictionary)], rows)], file_rows)
    rows = None if refused else 2
    return File(framed(page, ends), len(ends), X_INT64, rows=rows, refused=refused, held=2, row=8, entries=2, written=16)


def rows_of_the_file_announced():
    return of_two_rows(file_rows=2**63 - 1)


def rows_of_the_group_announced():
    return of_two_rows(rows=MOST_ENTRIES, refused=LEVELS)


def rows_of_the_group_above_the_limit():
    return of_two_rows(rows=2**63 - 1, refused=LIMIT)


def rows_of_the_group_negative():
    return of_two_rows(rows=-1, refused=PAGE)


def entries_of_the_chunk_announced():
    return of_two_rows(entries=MOST_ENTRIES, refused=PAGE)


def entries_of_the_chunk_above_the_limit():
    return of_two_rows(entries=2**63 - 1, refused=LIMIT)


def entries_of_the_page_announced():
    return of_two_rows(data_page(MOST, PLAIN, ONE * 2), refused=PAGE)


def entries_of_both_announced():
    return of_two_rows(data_page(MOST_ENTRIES, PLAIN, ONE * 2), entries=MOST_ENTRIES, rows=MOST_ENTRIES, refused=TRUNCATED)


def of_most_entries(kind, rep, encoding, body, fields, before=b"", annotation=None):
    """One column that announces the most entries that a chunk may have, and bytes for two of them or fewer."""
    page = before + data_page(MOST_ENTRIES, encoding, body)
    return one_column(page, kind, rep, MOST_ENTRIES, MOST_ENTRIES, fields, len(before), annotation, refused=TRUNCATED, held=2, entries=2)


def levels_for_all_announced():
    return of_most_entries(INT64, OPTIONAL, PLAIN, sized(run(2, 1, 1)) + ONE * 2, X_OPTIONAL)


def indexes_for_all_announced():
    return of_most_entries(INT64, REQUIRED, RLE_DICTIONARY, b"\x01" + run(2, 0, 1), X_INT64, dictionary_page(1, ONE))


def booleans_for_all_announced():
    return of_most_entries(BOOLEAN, REQUIRED, PLAIN, b"\x03", X_BOOLEAN)


def texts_for_all_announced():
    return of_most_entries(BYTE_ARRAY, REQUIRED, PLAIN, plain(BYTE_ARRAY, [b"a", b"b"]), X_TEXT, annotation=UTF8)


def differences_for_all_announced():
    return of_most_entries(INT64, REQUIRED, DELTA_BINARY_PACKED, varint(128) + varint(4) + varint(MOST_ENTRIES) + i(0), X_INT64)


def lengths_for_all_announced():
    body = varint(128) + varint(4) + varint(MOST_ENTRIES) + i(1)
    return of_most_entries(BYTE_ARRAY, REQUIRED, DELTA_LENGTH_BYTE_ARRAY, body + b"ab", X_TEXT, annotation=UTF8)


def prefixes_for_all_announced():
    body = varint(128) + varint(4) + varint(MOST_ENTRIES) + i(0)
    return of_most_entries(BYTE_ARRAY, REQUIRED, DELTA_BYTE_ARRAY, body + b"ab", X_TEXT, annotation=UTF8)


def entries_of_the_page_negative():
    return of_two_rows(data_page(-1, PLAIN, ONE * 2), refused=PAGE)


def size_of_the_page_announced():
    return of_two_rows(page_of_size(MOST, 2, PLAIN, ONE * 2), refused=PAGE)


def size_of_the_page_negative():
    return of_two_rows(page_of_size(-(2**31), 2, PLAIN, ONE * 2), refused=PAGE)


def offset_of_the_chunk_announced():
    return of_two_rows(start=2**63 - 1, refused=PAGE)


def offset_of_the_chunk_negative():
    return of_two_rows(start=-1, refused=PAGE)


def offset_of_the_dictionary_negative():
    """The dictionary's page at -4, and the data pages from 4."""
    return of_two_rows(start=-4, dictionary=8, refused=PAGE)


def dictionary_announced():
    before = dictionary_page(MOST, ONE)
    page = before + data_page(2, RLE_DICTIONARY, b"\x00")
    return one_column(page, INT64, REQUIRED, 2, 2, X_INT64, len(before), refused=TRUNCATED, held=2)


def texts_announced():
    """Texts by their lengths, of 16 MiB each, and none of their bytes."""
    page = data_page(ENTRIES, DELTA_LENGTH_BYTE_ARRAY, deltas(16 * MIB, [0], ENTRIES))
    return one_column(page, BYTE_ARRAY, REQUIRED, ENTRIES, ENTRIES, X_TEXT, annotation=UTF8, refused=TRUNCATED, held=ENTRIES, entries=ENTRIES, like="texts")


def text_above_the_limit():
    page = data_page(1, PLAIN, struct.pack("<I", 2**32 - 1))
    return one_column(page, BYTE_ARRAY, REQUIRED, 1, 1, X_TEXT, annotation=UTF8, refused=LIMIT, held=1)


def blocks_announced():
    """Blocks of 2^62 numbers in 2^57 miniblocks."""
    body = varint(2**62) + varint(2**57) + varint(2) + i(1) + i(0) + bytes(8)
    return one_column(data_page(2, DELTA_BINARY_PACKED, body), INT64, REQUIRED, 2, 2, X_INT64, refused=TRUNCATED, held=2)


def levels_announced():
    """A section of levels that announces 4 GiB of its own."""
    page = data_page(2, PLAIN, struct.pack("<I", 2**32 - 1) + run(2, 1, 1) + ONE * 2)
    return one_column(page, INT64, OPTIONAL, 2, 2, X_OPTIONAL, refused=TRUNCATED, held=2)


def levels_of_version_2_announced():
    """A length of levels of 2^31 - 1 in the header."""
    page = page_of_version_2(2, PLAIN, b"", run(2, 1, 1), ONE * 2).replace(b"\x15\x04\x15\x00\x12", b"\x15" + i(MOST) + b"\x15\x00\x12")
    return one_column(page, INT64, OPTIONAL, 2, 2, X_OPTIONAL, refused=TRUNCATED, held=2)


def fixed_length_announced():
    """Values of a fixed length of 2^31 - 1 bytes."""
    page = data_page(1, PLAIN, ONE)
    return one_column(page, FIXED, REQUIRED, 1, 1, [field("x", "required", "fixed", length=8)], length=MOST, refused=LIMIT, held=1)


def of_footer(ends, refused, **facts):
    return File(framed(b"", ends), len(ends), X_INT64, refused=refused, inspected=refused, **facts)


def elements_announced():
    return of_footer(b"\x15\x02\x19\xfc" + varint(MOST) + root(1) + leaf(b"x", INT64, REQUIRED), TRUNCATED)


def lists_in_lists_announced():
    """Thirty lists in one another, each announced with as many elements as there are bytes left."""
    zeros = ENTRIES // 4
    head = (b"\xf9" + varint(zeros)) * 30
    return of_footer(b"\x09\xc8\x01" + head + b"\xf3" + varint(zeros) + bytes(zeros), TRUNCATED)


def key_values_announced():
    """A list of 2^64 - 1 key-values."""
    ends = footer([root(1), leaf(b"x", INT64, REQUIRED)], [], 0, b"\x19\xfc" + varint(2**64 - 1) + b"\x18\x00")
    return of_footer(ends, TRUNCATED)


def key_value_announced():
    ends = footer([root(1), leaf(b"x", INT64, REQUIRED)], [], 0, b"\x19\x1c\x18" + varint(MOST) + b"k")
    return of_footer(ends, TRUNCATED)


def footer_announced():
    ends = footer([root(1), leaf(b"x", INT64, REQUIRED)], [], 0)
    return File(framed(b"", ends, 2**32 - 1), len(ends), X_INT64, refused=LIMIT, inspected=LIMIT)


def children_announced():
    ends = footer([root(MOST), leaf(b"x", INT64, REQUIRED)], [], 0)
    return File(framed(b"", ends), len(ends), X_INT64, refused=SCHEMA)


# ---- structs, footers and names


def no_rows(more=b"", elements=None, fields=X_INT64, groups=(), **facts):
    """A file without rows."""
    ends = footer(elements or [root(1), leaf(b"x", INT64, REQUIRED)], list(groups), 0, more)
    return File(framed(b"", ends), len(ends), fields, **({"rows": 0} | facts))


# The header of a page of one entry in PLAIN, of 8 bytes, up to the end of its DataPageHeader.
HEADER_OF_ONE = b"\x15\x00\x15\x10\x15\x10\x2c\x15\x02\x15\x00\x15\x06\x15\x06"


def structs_of_one_field():
    """A field that no reader knows: a list of structs of one boolean each, two bytes a struct."""
    count = ENTRIES // 2
    return no_rows(b"\x09\xc8\x01" + listed([b"\x11\x00"] * count), like="structs")


def structs_in_structs():
    """The same, 28 structs in one another."""
    count = ENTRIES // 64
    return no_rows(b"\x09\xc8\x01" + listed([b"\x1c" * 28 + b"\x00" * 29] * count), like="structs")


def structs_too_deep():
    return of_footer(footer([root(1), leaf(b"x", INT64, REQUIRED)], [], 0, b"\x0c\xc8\x01" + b"\x1c" * 40 + b"\x00" * 41), THRIFT)


def header_of_structs():
    """A page header with as many structs."""
    count = ENTRIES // 2
    page = HEADER_OF_ONE + b"\x00\x09\xc8\x01" + listed([b"\x11\x00"] * count) + b"\x00" + ONE
    return one_column(page, INT64, REQUIRED, 1, 1, X_INT64, header=len(page), headers=len(page), rows=1, held=1, row=8, like="structs", written=8)


def statistics_of_a_page():
    """A page header with a bound of 4 MB."""
    bound = b"\x18" + text(b"\x01" * (4 * ENTRIES))
    page = HEADER_OF_ONE + b"\x1c" + bound + b"\x00\x00\x00" + ONE
    return one_column(page, INT64, REQUIRED, 1, 1, X_INT64, header=len(page), headers=len(page), rows=1, held=1, row=8, entries=1, written=8)


def statistics_of_a_chunk():
    """Bounds of 2 MB of control characters each."""
    bound = text(b"\x01" * (2 * ENTRIES))
    page = data_page(1, PLAIN, plain(BYTE_ARRAY, [b"a"]))
    record = chunk(BYTE_ARRAY, [b"x"], 1, 4, 0, b"\x58" + bound + b"\x18" + bound + b"\x00")
    ends = footer([root(1), leaf(b"x", BYTE_ARRAY, REQUIRED, UTF8)], [row_group([record], 1)], 1)
    return File(framed(page, ends), len(ends), X_TEXT, rows=1, held=1, row=10, written=10)


def key_values():
    """Key-values of three bytes each."""
    count = ENTRIES // 3
    return no_rows(b"\x19" + listed([b"\x18\x00\x00"] * count), like="structs")


def elements_of_three_bytes():
    """A schema of elements that have an empty name and nothing else: no tree."""
    count = ENTRIES // 3
    return no_rows(elements=[b"\x48\x00\x00"] * count, rows=None, refused=SCHEMA, like="structs")


def encodings_of_a_chunk():
    """A chunk that lists as many encodings as its record has bytes; their names are long."""
    count = ENTRIES // 2
    page = data_page(1, PLAIN, ONE)
    record = b"\x26\x00\x1c\x15\x04\x19" + listed([b"\x0c"] * count, 5) + b"\x19\x18\x01x\x15\x00\x16\x02\x46\x08\x00\x00"
    ends = footer([root(1), leaf(b"x", INT64, REQUIRED)], [row_group([record], 1)], 1)
    return File(framed(page, ends), len(ends), X_INT64, rows=1, held=1, row=8, like="structs", written=8)


def groups_without_rows():
    count = ENTRIES // 20
    return no_rows(groups=[row_group([chunk(INT64, [b"x"], 0, 4)], 0)] * count, like="structs")


def pages_without_entries():
    """Pages of no entries, and then one of one."""
    count = ENTRIES // 10
    page = data_page(0, PLAIN, b"") * count + data_page(1, PLAIN, ONE)
    return one_column(page, INT64, REQUIRED, 1, 1, X_INT64, headers=len(page), listed=count + 1, rows=1, held=1, row=8, like="structs", written=8)


def pages_of_an_index():
    """Pages that are skipped, and then one of one entry."""
    count = ENTRIES // 10
    page = b"\x15\x02\x15\x00\x15\x00\x00" * count + data_page(1, PLAIN, ONE)
    return one_column(page, INT64, REQUIRED, 1, 1, X_INT64, headers=len(page), listed=count + 1, rows=1, held=1, row=8, like="structs", written=8)


def groups_in_groups():
    """Elements of a group in a group and so on, more than a path has."""
    count = ENTRIES // 20
    elements = [root(1)] + [group(b"", REQUIRED, 1)] * count + [leaf(b"x", INT64, REQUIRED)]
    return no_rows(elements=elements, rows=None, refused=LIMIT, like="structs")


def columns_repeated_in_groups():
    """1024 columns, each below 31 repeated groups, and one row of empty lists."""
    columns, inner = 1024, b"g"
    names = names_of(columns)
    elements, records = [root(columns)], []
    page = data_page(1, PLAIN, sized(run(1, 0, 6)) + sized(run(1, 0, 6)))
    for name in names:
        elements += [group(name, REPEATED, 1)] + [group(inner, REPEATED, 1)] * 30 + [leaf(inner, INT64, REPEATED)]
        records.append(chunk(INT64, [name] + [inner] * 31, 1, 4))
    fields = []
    for name in names:
        below = field("g", "repeated", "int64")
        for _ in range(30):
            below = {"name": "g", "rep": "repeated", "fields": [below]}
        fields.append({"name": name.decode(), "rep": "repeated", "fields": [below]})
    ends = footer(elements, [row_group(records, 1)], 1)
    row = sum(len(name) + 6 for name in names) + 2
    return File(framed(page, ends), len(ends), fields, rows=1, held=columns, listed=columns, row=row, entries=columns * 32,
                values=columns, like="lists", written=row)


def values_below(element, repetition, body, text, json, values):
    """Rows of one boolean below 31 fields of this repetition, each of one field more: so many values in each row."""
    count, name = max(1, ENTRIES // 64), b"g"
    elements = [root(1)] + [element] * 31 + [leaf(name, BOOLEAN, repetition)]
    ends = footer(elements, [row_group([chunk(BOOLEAN, [name] * 32, count, 4)], count)], count)
    below = field("g", json, "boolean")
    for _ in range(31):
        below = {"name": "g", "rep": json, "fields": [below]}
    row = len(text) + 1
    return File(framed(data_page(count, RLE, body(count)), ends), len(ends), [below], rows=count, held=count, row=row, values=count * values, like="lists",
                written=count * row)


def values_below_groups():
    """Rows of one boolean below 31 required groups: each group is a value that `import` holds."""
    text = '{"g":' * 32 + "true" + "}" * 32
    return values_below(group(b"g", REQUIRED, 1), REQUIRED, lambda count: sized(run(count, 1, 1)), text, "required", 32)


def values_below_lists():
    """Rows of one boolean below 31 repeated groups: a list of one item in each group."""
    text = '{"g":[' * 32 + "true" + "]}" * 32
    return values_below(group(b"g", REPEATED, 1), REPEATED, lambda count: sized(run(count, 0, 6)) + sized(run(count, 32, 6)) + sized(run(count, 1, 1)), text,
                        "repeated", 64)


def long_name_in_each_item():
    """A repeated group whose one leaf has a long name: it stands in the text of each item."""
    count, size = max(2, ENTRIES // 1000), ENTRIES // 16
    name = b"n" * size
    body = sized(run(1, 0, 1) + run(count - 1, 1, 1)) + sized(run(count, 1, 1)) + sized(run(count, 1, 1))
    ends = footer([root(1), group(b"g", REPEATED, 1), leaf(name, BOOLEAN, REQUIRED)], [row_group([chunk(BOOLEAN, [b"g", name], count, 4)], 1)], 1)
    fields = [{"name": "g", "rep": "repeated", "fields": [field(name.decode(), "required", "boolean")]}]
    row = count * (size + 10) + 8
    return File(framed(data_page(count, RLE, body), ends), len(ends), fields, rows=1, held=count, row=row, entries=count, like="long", written=row)


def name_in_each_problem():
    """A column whose name has 1 MB, with pages in an encoding that does not exist: `inspect` names it for each."""
    name, pages = b"\x01" * ENTRIES, 200
    page = data_page(1, 77, ONE) * pages
    ends = footer([root(1), leaf(name, INT64, REQUIRED)], [row_group([chunk(INT64, [name], pages, 4)], pages)], pages)
    return File(framed(page, ends), len(ends), X_INT64, refused=ENCODING, held=1, headers=32 * pages, listed=pages, entries=pages)


def float_below_long_names():
    """A FLOAT column below 31 groups with long names: its path is said."""
    name = b"n" * (ENTRIES // 16)
    elements = [root(1)] + [group(name, REQUIRED, 1)] * 31 + [leaf(b"x", 4, REQUIRED)]
    ends = footer(elements, [], 0)
    return File(framed(b"", ends), len(ends), X_INT64, refused=FLOAT, path=".".join([name.decode()] * 31 + ["x"]), row=len(ends))


# ---- roots of datasets


def as_root(make):
    """The same file as the `_metadata` of a dataset: it describes no table."""
    def root_of():
        made = make()
        return File(made.bytes, made.facts["structs"], X_INT64, kind="root", like="structs", header=made.facts["header"])

    root_of.__name__ = "root_of_" + make.__name__
    return root_of


def pair(key, value):
    return b"\x18" + text(key) + b"\x18" + text(value) + b"\x00"


def root_of_deep_columns():
    """An empty table of 1024 columns, each below 31 repeated groups."""
    columns, inner = 1024, b"g"
    elements = [root(columns)]
    for name in names_of(columns):
        elements += [group(name, REPEATED, 1)] + [group(inner, REPEATED, 1)] * 30 + [leaf(inner, INT64, REPEATED)]
    pairs = b"\x19" + listed([pair(b"pqds.keys", b"[]"), pair(b"pqds.next", b"0")])
    orders = b"\x29" + listed([b"\x1c\x00\x00"] * columns)
    ends = footer(elements, [], 0, pairs + orders)
    return File(framed(b"", ends), len(ends), X_INT64, kind="root", like="structs")


ROOTS = [root_of_deep_columns] + [as_root(it) for it in (elements_of_three_bytes, structs_of_one_field, structs_in_structs, key_values, encodings_of_a_chunk, groups_without_rows,
                                columns_repeated_in_groups, statistics_of_a_chunk, groups_in_groups)]


# ---- lines of JSON


def of_lines(line, count, fields, values):
    """Rows of this line."""
    return File((line + "\n").encode() * count, 0, fields, kind="rows", rows=count, like="lines", entries=count * values, values=count * values)


def lines_of_nothing():
    """`{}` over 1,024 OPTIONAL columns: each line is as many nulls."""
    fields = [field(f"c{number}", "optional", "int64") for number in range(1024)]
    return of_lines("{}", max(1, ENTRIES // 1000), fields, 1024)


def list_in_one_line():
    """A list of numbers of one digit: two bytes each."""
    count = max(1, ENTRIES // 4)
    return of_lines('{"x":[' + ",".join("1" * count) + "]}", 1, X_NUMBERS, count)


def lists_of_nothing():
    """Empty lists below a group, in a line each."""
    fields = [{"name": "g", "rep": "repeated", "fields": X_NUMBERS}]
    return of_lines('{"g":[' + ",".join(['{"x":[]}'] * 100) + "]}", max(1, ENTRIES // 1000), fields, 200)


def lines_of_keys(columns):
    """Rows of a key and so many numbers, each with a key of its own: the table gets a group for each."""
    names = names_of(columns)
    count = max(1, 8 * ENTRIES // 1000 // (columns + 1))
    lines = b"".join(b'{"x":%d,%s}\n' % (number, b",".join(b'"%s":1' % name for name in names)) for number in range(count))
    values = count * (columns + 1)
    return File(lines, 0, X_INT64 + [field(name.decode(), "required", "int64") for name in names], kind="rows", rows=count, like="lines", entries=values,
                values=values, keys=["x"], groups=count, cells=values)


def key_in_each_line():
    return lines_of_keys(1)


def key_in_each_wide_line():
    return lines_of_keys(20)


ROWS = [lines_of_nothing, list_in_one_line, lists_of_nothing, key_in_each_line, key_in_each_wide_line]


# ---- honest files, whose time is set beside that of the others


def pages_of(count, encoding, body_of):
    """Pages of 20,000 entries: `body_of` makes the body of one, of its first entry and of that after its last."""
    ends = [min(at + 20_000, count) for at in range(0, count, 20_000)]
    return b"".join(data_page(end - at, encoding, body_of(at, end)) for at, end in zip([0] + ends, ends))


def numbers_of(at, end):
    return struct.pack(f"<{end - at}q", *range(at, end))


def honest_numbers():
    return one_column(pages_of(ENTRIES, PLAIN, numbers_of), INT64, REQUIRED, ENTRIES, ENTRIES, X_INT64, rows=ENTRIES)


def honest_nulls():
    """Each second entry is null."""
    def body(at, end):
        return sized(varint((end - at + 7) // 8 * 2 + 1) + b"\xaa" * ((end - at + 7) // 8)) + numbers_of(0, (end - at) // 2)

    return one_column(pages_of(ENTRIES, PLAIN, body), INT64, OPTIONAL, ENTRIES, ENTRIES, X_OPTIONAL, rows=ENTRIES)


def honest_lists():
    """Lists of four numbers."""
    def body(at, end):
        repetitions = varint((end - at + 7) // 8 * 2 + 1) + b"\xee" * ((end - at + 7) // 8)
        return sized(repetitions) + sized(run(end - at, 1, 1)) + numbers_of(at, end)

    rows = ENTRIES // 4
    return one_column(pages_of(ENTRIES, PLAIN, body), INT64, REPEATED, ENTRIES, rows, X_NUMBERS, rows=rows, entries=ENTRIES)


def honest_booleans():
    pages = pages_of(ENTRIES, PLAIN, lambda at, end: b"\xa5" * ((end - at + 7) // 8))
    return one_column(pages, BOOLEAN, REQUIRED, ENTRIES, ENTRIES, X_BOOLEAN, rows=ENTRIES)


def honest_texts():
    def body(at, end):
        return b"".join(b"\x0c\x00\x00\x00name-%07d" % number for number in range(at, end))

    return one_column(pages_of(ENTRIES, PLAIN, body), BYTE_ARRAY, REQUIRED, ENTRIES, ENTRIES, X_TEXT, annotation=UTF8, rows=ENTRIES)


def honest_long():
    """Texts of 64 KiB."""
    count = max(1, ENTRIES // 4000)
    value = plain(BYTE_ARRAY, [b"a" * (1 << 16)])
    return one_column(pages_of(count, PLAIN, lambda at, end: value * (end - at)), BYTE_ARRAY, REQUIRED, count, count, X_TEXT, annotation=UTF8, rows=count,
                      written=count * ((1 << 16) + 9))


def honest_structs():
    """Groups of one row, each with a page of its own: the structs of the footer and of the page headers are most of the file."""
    count = max(1, ENTRIES // 100)
    page = data_page(1, PLAIN, ONE)
    records = [row_group([chunk(INT64, [b"x"], 1, 4 + place * len(page))], 1) for place in range(count)]
    ends = footer([root(1), leaf(b"x", INT64, REQUIRED)], records, count)
    return File(framed(page * count, ends), len(ends), X_INT64, rows=count, headers=count * (len(page) - 8))


def honest_keys():
    """Each row has a key of its own, in 8 bytes."""
    count = max(1, ENTRIES // 2000)
    return of_keys(numbers_of(0, count), PLAIN, count)


def honest_lines():
    """Rows of four numbers, as lines of JSON."""
    count = max(1, ENTRIES // 4)
    line = '{"a":1000001,"b":1000002,"c":1000003,"d":1000004}'
    return of_lines(line, count, [field(it, "required", "int64") for it in "abcd"], 4)


HONEST = [honest_numbers, honest_nulls, honest_lists, honest_booleans, honest_texts, honest_long, honest_structs, honest_keys, honest_lines]

NAMES = [
    shared_by_columns, shared_by_groups, each_a_page_less, dictionary_shared_by_columns, dictionary_shared_by_groups, run_of_nulls,
    run_of_nulls_in_version_2, one_row_of_a_run, run_of_empty_lists, indexes_of_no_bits, run_of_indexes, indexes_below_lists, run_of_booleans,
    differences_of_no_bits, lengths_of_no_bits, prefixes_of_no_bits, runs_of_nothing, rows_that_wait, long_text_in_many_rows, long_text_in_one_row,
    long_text_in_each_column, same_prefix, growing_prefixes, dictionary_of_bits, large_dictionary_and_small_pages, large_split_value,
    rows_of_the_file_announced, rows_of_the_group_announced, rows_of_the_group_above_the_limit, rows_of_the_group_negative,
    entries_of_the_chunk_announced, entries_of_the_chunk_above_the_limit, entries_of_the_page_announced, entries_of_both_announced,
    levels_for_all_announced, indexes_for_all_announced, booleans_for_all_announced, texts_for_all_announced, differences_for_all_announced,
    lengths_for_all_announced, prefixes_for_all_announced, entries_of_the_page_negative, size_of_the_page_announced, size_of_the_page_negative, offset_of_the_chunk_announced, offset_of_the_chunk_negative,
    offset_of_the_dictionary_negative, dictionary_announced, texts_announced, text_above_the_limit, blocks_announced, levels_announced,
    levels_of_version_2_announced, fixed_length_announced, elements_announced, lists_in_lists_announced, key_values_announced, key_value_announced,
    footer_announced, children_announced, structs_of_one_field, structs_in_structs, structs_too_deep, header_of_structs, statistics_of_a_page,
    statistics_of_a_chunk, key_values, elements_of_three_bytes, encodings_of_a_chunk, groups_without_rows, pages_without_entries, pages_of_an_index,
    groups_in_groups, columns_repeated_in_groups, values_below_groups, values_below_lists, long_name_in_each_item, name_in_each_problem,
    float_below_long_names, key_in_each_row, nulls_before_a_damaged_group, skipped_pages_shared_by_groups, *ROOTS, *ROWS,
]


def main(name=None, folder=None, entries=ENTRIES):
    global ENTRIES
    made = {make.__name__: make for make in NAMES + HONEST}
    if name is None:
        print("\n".join(make.__name__ for make in NAMES))
        return
    if name not in made or folder is None or not os.path.isdir(folder) or not str(entries).isdigit():
        print(__doc__, file=sys.stderr)
        sys.exit(2)
    ENTRIES = int(entries)
    file_of = made[name]()
    with open(f"{folder}/{name}.parquet", "wb") as file:
        file.write(file_of.bytes)
    with open(f"{folder}/{name}.schema.json", "w") as file:
        json.dump(file_of.fields, file)
    with open(f"{folder}/{name}.facts", "w") as file:
        json.dump(file_of.facts | {"bytes": len(file_of.bytes)}, file)


if __name__ == "__main__":
    main(*sys.argv[1:4])
