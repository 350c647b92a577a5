"""Makes a Parquet file of one kind: make_file.py KIND FILE [LINES].

`numbers` and `texts` have some 50 MB in one REQUIRED column and one PLAIN page. `huge` has 2.1 GB of numbers in one
REQUIRED column, in 127 groups of one page each: one more would be beyond the greatest file. The others have 1,000,000 values in
pages of 20,000 entries: `flat` and `strings` are REQUIRED columns in PLAIN; `optional` has a null in each eighth row;
`lists` has lists of four numbers in their three-level form, `groups` two groups of two numbers in each row; `delta` has
DELTA_BINARY_PACKED; and `dictionary`, `lengths` and `prefixes` have the texts of `strings` by a dictionary, in
DELTA_LENGTH_BYTE_ARRAY and in DELTA_BYTE_ARRAY. LINES gets the rows as JSON, as they should be decoded.
(parquet-format, Encodings.md and "Nested Encoding".)"""

import array
import struct
import sys

VALUES = 1_000_000
PAGE = 20_000
INT64, BYTE_ARRAY = 2, 6
PLAIN, DELTA_BINARY_PACKED, DELTA_LENGTH_BYTE_ARRAY, DELTA_BYTE_ARRAY, RLE_DICTIONARY = 0, 5, 6, 7, 8
REQUIRED, OPTIONAL, REPEATED = 0, 1, 2
UTF8, LIST = 0, 3


def varint(number):
    out = b""
    while number > 127:
        out += bytes([number & 127 | 128])
        number >>= 7
    return out + bytes([number])


def i(number):
    """A number of the compact protocol."""
    return varint(number * 2 if number >= 0 else -number * 2 - 1)


def text(bytes):
    return varint(len(bytes)) + bytes


# ---- values and levels


def packed(numbers, width):
    """Numbers of this many bits, lowest first, filled up to eight of them."""
    out = bytearray()
    for at in range(0, len(numbers), 8):
        word = 0
        for place, number in enumerate(numbers[at : at + 8]):
            word |= number << place * width
        out += word.to_bytes(width, "little")
    return bytes(out)


def hybrid(numbers, width):
    """One run of one number where all are the same, and else one packed run."""
    if width == 0 or not numbers:
        return b""
    if min(numbers) == max(numbers):
        return varint(len(numbers) * 2) + numbers[0].to_bytes((width + 7) // 8, "little")
    return varint((len(numbers) + 7) // 8 * 2 + 1) + packed(numbers, width)


def section(levels, greatest):
    """The levels of a page of version 1: none where 0 is the greatest."""
    if greatest == 0:
        return b""
    bytes = hybrid(levels, greatest.bit_length())
    return struct.pack("<I", len(bytes)) + bytes


def deltas(numbers):
    out = varint(128) + varint(4) + varint(len(numbers)) + i(numbers[0] if numbers else 0)
    steps = [after - before for before, after in zip(numbers, numbers[1:])]
    for at in range(0, len(steps), 128):
        block = steps[at : at + 128]
        least = min(block)
        parts = [[step - least for step in block[part : part + 32]] for part in range(0, 128, 32)]
        widths = [max(part, default=0).bit_length() for part in parts]
        out += i(least) + bytes(widths)
        for part, width in zip(parts, widths):
            if part:
                out += packed(part + [0] * (32 - len(part)), width)
    return out


def shared(one, other):
    count = 0
    while count < len(one) and count < len(other) and one[count] == other[count]:
        count += 1
    return count


def by_prefixes(texts):
    prefixes = [shared(before, after) for before, after in zip([b""] + texts, texts)]
    suffixes = [after[count:] for count, after in zip(prefixes, texts)]
    return deltas(prefixes) + by_lengths(suffixes)


def by_lengths(texts):
    return deltas([len(it) for it in texts]) + b"".join(texts)


def plain(kind, values):
    if kind == INT64:
        return struct.pack(f"<{len(values)}q", *values)
    return b"".join(struct.pack("<I", len(it)) + it for it in values)


# ---- records


def data_page(count, encoding, body):
    size = i(len(body))
    return b"\x15\x00\x15" + size + b"\x15" + size + b"\x2c\x15" + i(count) + b"\x15" + i(encoding) + b"\x15\x06\x15\x06\x00\x00" + body


def dictionary_page(count, body):
    size = i(len(body))
    return b"\x15\x04\x15" + size + b"\x15" + size + b"\x4c\x15" + i(count) + b"\x15\x00\x00\x00" + body


def root(children):
    return b"\x48\x06schema\x15" + i(children) + b"\x00"


def leaf(name, kind, repetition, annotation=None):
    noted = b"" if annotation is None else b"\x25" + i(annotation)
    return b"\x15" + i(kind) + b"\x25" + i(repetition) + b"\x18" + text(name) + noted + b"\x00"


def group(name, repetition, children, annotation=None):
    noted = b"" if annotation is None else b"\x15" + i(annotation)
    return b"\x35" + i(repetition) + b"\x18" + text(name) + b"\x15" + i(children) + noted + b"\x00"


def chunk_record(kind, path, entries, start, dictionary, size):
    names = bytes([len(path) << 4 | 8]) + b"".join(text(name) for name in path)
    meta = b"\x15" + i(kind) + b"\x19\x25\x00\x06\x19" + names + b"\x15\x00\x16" + i(entries)
    meta += b"\x16" + i(size) + b"\x16" + i(size) + b"\x26" + i(start + dictionary)
    if dictionary:
        meta += b"\x26" + i(start)
    return b"\x26\x00\x1c" + meta + b"\x00\x00"


def write(path, elements, chunks, rows):
    """A file of one group. A chunk is its leaf's type and path, its entries, the size of its dictionary's page, its pages."""
    records, at = b"", 4
    with open(path, "wb") as file:
        file.write(b"PAR1")
        for kind, names, entries, dictionary, pages in chunks:
            records += chunk_record(kind, names, entries, at, dictionary, len(pages))
            file.write(pages)
            at += len(pages)
        listed = bytes([len(elements) << 4 | 12]) + b"".join(elements)
        group = b"\x19" + bytes([len(chunks) << 4 | 12]) + records + b"\x16" + i(at - 4) + b"\x16" + i(rows) + b"\x00"
        footer = b"\x15\x02\x19" + listed + b"\x16" + i(rows) + b"\x19\x1c" + group + b"\x28\x04pqds\x00"
        file.write(footer + struct.pack("<I", len(footer)) + b"PAR1")


def pages(entries, encoding, repetitions, definitions, spelled):
    """Pages of 20,000 entries. An entry is its levels and its value; the greatest levels are given."""
    out = bytearray()
    for at in range(0, len(entries), PAGE):
        part = entries[at : at + PAGE]
        body = section([entry[0] for entry in part], repetitions) + section([entry[1] for entry in part], definitions)
        body += spelled([entry[2] for entry in part if entry[1] == definitions])
        out += data_page(len(part), encoding, body)
    return bytes(out)


# ---- kinds of files


def number(place):
    return place * 2654435761 % 2**40 - 2**39 if place % 3 else place


def word(place):
    return b"name-%07d" % (place * 7919 % 1009)


def one_page(what, path):
    """Some 50 MB in one page."""
    if what == "numbers":
        rows, kind, annotation = 6_250_000, INT64, None
        body = struct.pack(f"<{rows}q", *range(rows))
    else:
        rows, kind, annotation = 1_000_000, BYTE_ARRAY, UTF8
        body = b"".join(struct.pack("<I", 46) + b"%046d" % n for n in range(rows))
    write(path, [root(1), leaf(b"x", kind, REQUIRED, annotation)], [(kind, [b"x"], rows, 0, data_page(rows, PLAIN, body))], rows)


def huge(path):
    """127 groups of 2,097,152 numbers: the rows 0, 1, 2 and so on."""
    rows, count = 2_097_152, 127
    groups, at = b"", 4
    with open(path, "wb") as file:
        file.write(b"PAR1")
        for nth in range(count):
            page = data_page(rows, PLAIN, array.array("q", range(nth * rows, (nth + 1) * rows)).tobytes())
            file.write(page)
            record = chunk_record(INT64, [b"x"], rows, at, 0, len(page))
            groups += b"\x19\x1c" + record + b"\x16" + i(len(page)) + b"\x16" + i(rows) + b"\x00"
            at += len(page)
        elements = b"\x2c" + root(1) + leaf(b"x", INT64, REQUIRED)
        footer = b"\x15\x02\x19" + elements + b"\x16" + i(rows * count) + b"\x19\xfc" + varint(count) + groups + b"\x28\x04pqds\x00"
        file.write(footer + struct.pack("<I", len(footer)) + b"PAR1")


def of_numbers(encoding, spelled, values):
    made = pages([(0, 0, value) for value in values], encoding, 0, 0, spelled)
    return [root(1), leaf(b"x", INT64, REQUIRED)], [(INT64, [b"x"], len(values), 0, made)], ['{"x":%d}' % value for value in values]


def of_words(encoding, spelled, before=b""):
    words = [word(place) for place in range(VALUES)]
    made = before + pages([(0, 0, value) for value in words], encoding, 0, 0, spelled)
    return [root(1), leaf(b"t", BYTE_ARRAY, REQUIRED, UTF8)], [(BYTE_ARRAY, [b"t"], VALUES, len(before), made)], ['{"t":"%s"}' % it.decode() for it in words]


def plain_numbers(values):
    return plain(INT64, values)


def plain_words(values):
    return plain(BYTE_ARRAY, values)


def flat():
    return of_numbers(PLAIN, plain_numbers, [number(place) for place in range(VALUES)])


def delta():
    return of_numbers(DELTA_BINARY_PACKED, deltas, [place * 1000 + number(place) % 977 for place in range(VALUES)])


def optional():
    entries = [(0, 1, number(place)) if place % 8 else (0, 0, None) for place in range(VALUES)]
    made = pages(entries, PLAIN, 0, 1, plain_numbers)
    lines = ['{"x":%s}' % ("null" if value is None else value) for _, _, value in entries]
    return [root(1), leaf(b"x", INT64, OPTIONAL)], [(INT64, [b"x"], VALUES, 0, made)], lines


def lists():
    entries = [(1 if place % 4 else 0, 3, number(place)) for place in range(VALUES)]
    elements = [root(1), group(b"l", OPTIONAL, 1, LIST), group(b"list", REPEATED, 1), leaf(b"element", INT64, OPTIONAL)]
    made = pages(entries, PLAIN, 1, 3, plain_numbers)
    lines = []
    for at in range(0, VALUES, 4):
        items = ",".join('{"element":%d}' % value for _, _, value in entries[at : at + 4])
        lines.append('{"l":{"list":[%s]}}' % items)
    return elements, [(INT64, [b"l", b"list", b"element"], VALUES, 0, made)], lines


def groups():
    half = VALUES // 2
    columns = [[(place % 2, 1, number(place * 2 + side)) for place in range(half)] for side in (0, 1)]
    elements = [root(1), group(b"g", REPEATED, 2), leaf(b"a", INT64, REQUIRED), leaf(b"b", INT64, REQUIRED)]
    chunks = [(INT64, [b"g", name], half, 0, pages(column, PLAIN, 1, 1, plain_numbers)) for name, column in zip((b"a", b"b"), columns)]
    both = ['{"a":%d,"b":%d}' % (one[2], other[2]) for one, other in zip(*columns)]
    return elements, chunks, ['{"g":[%s,%s]}' % pair for pair in zip(both[::2], both[1::2])]


def strings():
    return of_words(PLAIN, plain_words)


def dictionary():
    listed = [word(place) for place in range(1009)]
    places = {it: place for place, it in enumerate(listed)}
    before = dictionary_page(len(listed), plain_words(listed))
    return of_words(RLE_DICTIONARY, lambda words: b"\x0a" + hybrid([places[it] for it in words], 10), before)


def lengths():
    return of_words(DELTA_LENGTH_BYTE_ARRAY, by_lengths)


def prefixes():
    return of_words(DELTA_BYTE_ARRAY, by_prefixes)


KINDS = {make.__name__: make for make in (flat, optional, lists, groups, delta, strings, dictionary, lengths, prefixes)}


def main(words):
    if len(words) not in (2, 3) or words[0] not in (*KINDS, "huge", "numbers", "texts"):
        print(__doc__, file=sys.stderr)
        return 2
    what, path = words[:2]
    if what == "huge":
        huge(path)
    elif what not in KINDS:
        one_page(what, path)
    else:
        elements, chunks, rows = KINDS[what]()
        write(path, elements, chunks, len(rows))
        if len(words) == 3:
            with open(words[2], "w") as file:
                file.writelines(row + "\n" for row in rows)
    return 0


if __name__ == "__main__":
    try:
        sys.exit(main(sys.argv[1:]))
    except OSError as error:
        sys.exit(f"make_file.py: {error}")
