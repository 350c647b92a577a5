#!/usr/bin/env python3
"""A plain reader of Parquet files, written from docs/FORMAT.md, that knows nothing of the code: whether bytes are a file that is
read, or by which number they are refused. It reads what the files of two rows and of none can become by one changed byte.

    python3 bench/tools/file_model.py

prints the lines `changes` of crates/file_cases/stdout.
"""
import os

import command_line

CASES = os.path.join(os.path.dirname(os.path.abspath(__file__)), "..", "..", "crates", "file_cases", "stdout")


class Bad(Exception):
    """Bytes that are refused, by the number of the refusal."""


def varint(b, at):
    """An unsigned varint, and where it ends."""
    n = 0
    for k in range(10):
        if at >= len(b):
            raise Bad('1')
        c = b[at]
        at += 1
        if k == 9 and c > 1:
            raise Bad('3')
        n |= (c & 127) << 7 * k
        if c < 128:
            return (n, at)
    raise Bad('3')


def unzig(n):
    """The number of an index in 0, -1, 1, -2 .."""
    return n // 2 if n % 2 == 0 else -(n + 1) // 2


def number(b, at, bits):
    """A zigzag varint of so many bits."""
    n, at = varint(b, at)
    n = unzig(n)
    if not -2 ** (bits - 1) <= n < 2 ** (bits - 1):
        raise Bad('3')
    return (n, at)


def value(b, at, kind, depth, element=False):
    """A value of a Thrift type, and where it ends; a value in the struct that is read has depth 1."""
    if kind in (1, 2):
        if element:
            if at >= len(b):
                raise Bad('1')
            return (('bool', b[at]), at + 1)
        return (('bool', kind == 1), at)
    if kind == 3:
        if at >= len(b):
            raise Bad('1')
        return (('i8', b[at]), at + 1)
    if kind in (4, 5, 6):
        n, at = number(b, at, {4: 16, 5: 32, 6: 64}[kind])
        return (({4: 'i16', 5: 'i32', 6: 'i64'}[kind], n), at)
    if kind == 7:
        if at + 8 > len(b):
            raise Bad('1')
        return (('double', b[at:at + 8]), at + 8)
    if kind == 8:
        n, at = varint(b, at)
        if n > len(b) - at:
            raise Bad('1')
        return (('binary', b[at:at + n]), at + n)
    if kind in (9, 10):
        if depth > 32:
            raise Bad('3')
        if at >= len(b):
            raise Bad('1')
        head = b[at]
        at += 1
        n, k = (head >> 4, head & 15)
        if n == 15:
            n, at = varint(b, at)
        if n > len(b) - at:
            raise Bad('1')
        if n and (not 1 <= k <= 12):
            raise Bad('3')
        out = []
        for _ in range(n):
            v, at = value(b, at, k, depth + 1, True)
            out.append(v)
        return (('list' if kind == 9 else 'set', k, out), at)
    if kind == 11:
        if depth > 32:
            raise Bad('3')
        n, at = varint(b, at)
        if n == 0:
            return (('map', []), at)
        # The byte of the types, and at least one for each entry.
        if n + 1 > len(b) - at:
            raise Bad('1')
        if at >= len(b):
            raise Bad('1')
        kk, kv = (b[at] >> 4, b[at] & 15)
        at += 1
        if not (1 <= kk <= 12 and 1 <= kv <= 12):
            raise Bad('3')
        for _ in range(n):
            _, at = value(b, at, kk, depth + 1, True)
            _, at = value(b, at, kv, depth + 1, True)
        return (('map', n), at)
    if kind == 12:
        if depth > 32:
            raise Bad('3')
        f, at = fields(b, at, depth)
        return (('struct', f), at)
    raise Bad('3')


def fields(b, at, depth=0):
    """The fields of a struct as (id, value), and where it ends."""
    out, last = ([], 0)
    while True:
        if at >= len(b):
            raise Bad('1')
        head = b[at]
        at += 1
        if head == 0:
            return (out, at)
        kind = head & 15
        if head >> 4:
            number_of = last + (head >> 4)
        else:
            number_of, at = number(b, at, 16)
        if not -32768 <= number_of < 32768:
            raise Bad('3')
        last = number_of
        v, at = value(b, at, kind, depth + 1)
        out.append((last, v))


def known(f, number_of, kind, needed=False, of=None):
    """What a known field says: the last one counts, each has its type, and a needed one is there."""
    found = None
    for n, v in f:
        if n != number_of:
            continue
        if v[0] != kind:
            raise Bad('3')
        if of is not None and v[0] == 'list' and v[2] and any((x[0] != of for x in v[2])):
            raise Bad('3')
        found = v
    if found is None:
        if needed:
            raise Bad('3')
        return None
    return found[2] if found[0] == 'list' else found[1]


def element(f):
    """A schema element."""
    e = {n: known(f, i, 'i32') for i, n in [(1, 'type'), (2, 'length'), (3, 'rep'), (5, 'children'), (6, 'conv'), (7, 'scale'), (8, 'prec'), (9, 'id')]}
    e['name'] = known(f, 4, 'binary', True)
    e['logical'] = known(f, 10, 'struct')
    return e


def column(f):
    """The record of a chunk."""
    c = {'type': known(f, 1, 'i32', True), 'enc': known(f, 2, 'list', of='i32'), 'path': known(f, 3, 'list', True, of='binary'), 'codec': known(f, 4, 'i32', True), 'n': known(f, 5, 'i64', True), 'off': known(f, 9, 'i64', True), 'dict': known(f, 11, 'i64')}
    known(f, 6, 'i64')
    known(f, 7, 'i64')
    s = known(f, 12, 'struct')
    if s is not None:
        for i, k in [(1, 'binary'), (2, 'binary'), (3, 'i64'), (4, 'i64'), (5, 'binary'), (6, 'binary'), (7, 'bool'), (8, 'bool')]:
            known(s, i, k)
    return c


def structs(vs):
    """The fields of structs."""
    return [v[1] for v in vs]


def record(f):
    """The schema elements and the groups of a footer."""
    known(f, 1, 'i32')
    known(f, 3, 'i64')
    known(f, 6, 'binary')
    schema = [element(x) for x in structs(known(f, 2, 'list', True, of='struct'))]
    groups = []
    for g in structs(known(f, 4, 'list', True, of='struct')):
        cols = []
        for c in structs(known(g, 1, 'list', True, of='struct')):
            path = known(c, 1, 'binary')
            known(c, 2, 'i64')
            cols.append((path, column(known(c, 3, 'struct', True))))
        known(g, 2, 'i64')
        groups.append((cols, known(g, 3, 'i64', True)))
    kv = known(f, 5, 'list', of='struct')
    for k in structs(kv or []):
        known(k, 1, 'binary', True)
        known(k, 2, 'binary')
    orders = known(f, 7, 'list', of='struct')
    for o in structs(orders or []):
        known(o, 1, 'struct')
    return (schema, groups)


def tree(es):
    """Leaves as (path, element, repetition, definition)."""
    if not es:
        raise Bad('4')
    leaves = []
    at = 1

    def one(path, rep, dfn, depth):
        nonlocal at
        if at >= len(es):
            raise Bad('4')
        e = es[at]
        at += 1
        if e['rep'] not in (0, 1, 2):
            raise Bad('4')
        try:
            e['name'].decode()
        except UnicodeDecodeError:
            raise Bad('4')
        if depth > 32:
            raise Bad('13')
        rep += e['rep'] == 2
        dfn += e['rep'] in (1, 2)
        if e['type'] is None:
            if not e['children'] or e['children'] < 1:
                raise Bad('4')
            children(e['children'], path + [e['name']], rep, dfn, depth + 1)
        else:
            if e['children'] not in (None, 0):
                raise Bad('4')
            t = e['type']
            if t == 3:
                raise Bad('7')
            if t in (4, 5):
                raise Bad('6')
            if t not in (0, 1, 2, 6, 7):
                raise Bad('4')
            if t == 7 and (e['length'] is None or e['length'] < 1):
                raise Bad('4')
            if e['conv'] is None and e['logical'] is not None and any((n == 15 for n, _ in e['logical'])):
                raise Bad('6')
            leaves.append((path + [e['name']], e, rep, dfn))

    def children(n, path, rep, dfn, depth):
        names = []
        for _ in range(n):
            if at >= len(es):
                raise Bad('4')
            names.append(es[at]['name'])
            one(path, rep, dfn, depth)
        if len(set(names)) != len(names):
            raise Bad('4')
    root = es[0]
    if root['type'] is not None or not root['children'] or root['children'] < 1:
        raise Bad('4')
    children(root['children'], [], 0, 0, 1)
    if at != len(es):
        raise Bad('4')
    return leaves


def hybrid(b, width, count):
    """So many numbers of so many bits in runs."""
    out, at = ([], 0)
    while len(out) < count:
        h, at = varint(b, at)
        if h % 2 == 0:
            size = (width + 7) // 8
            if at + size > len(b):
                raise Bad('1')
            v = int.from_bytes(b[at:at + size], 'little')
            at += size
            if v >= 2 ** width:
                raise Bad('11')
            out += [v] * min(h // 2, count - len(out))
        else:
            g = h // 2
            part = b[at:at + g * width]
            at += len(part)
            have = len(part) * 8 // width if width else 8 * g
            n = min(8 * g, have, count - len(out))
            bits = int.from_bytes(part, 'little')
            out += [bits >> width * k & 2 ** width - 1 for k in range(n)]
            if n < min(8 * g, count - (len(out) - n)):
                raise Bad('1')
    return out


def levels(b, greatest, count):
    """Levels up to a greatest one."""
    out = hybrid(b, greatest.bit_length(), count)
    if any((x > greatest for x in out)):
        raise Bad('10')
    return out


def prefixed(b):
    """The bytes after a length of four bytes, and what follows."""
    if len(b) < 4:
        raise Bad('1')
    n = int.from_bytes(b[:4], 'little')
    if n > len(b) - 4:
        raise Bad('1')
    return (b[4:4 + n], b[4 + n:])


def taken(b, at, n):
    """So many bytes from a place on, as a value."""
    if n > 16777216:
        raise Bad('13')
    if at + n > len(b):
        raise Bad('1')
    return b[at:at + n]


def plain(b, e, count):
    """So many values in PLAIN."""
    t, out, at = (e['type'], [], 0)
    if t == 0:
        if (count + 7) // 8 > len(b):
            raise Bad('1')
        return [bool(b[k // 8] >> k % 8 & 1) for k in range(count)]
    for _ in range(count):
        if t in (1, 2):
            n = 4 * t
            if at + n > len(b):
                raise Bad('1')
            out.append(int.from_bytes(b[at:at + n], 'little', signed=True))
            at += n
        elif t == 6:
            if at + 4 > len(b):
                raise Bad('1')
            n = int.from_bytes(b[at:at + 4], 'little')
            at += 4
            out.append(taken(b, at, n))
            at += n
        else:
            n = e['length']
            out.append(taken(b, at, n))
            at += n
    return out


def is_text(e):
    """Whether the bytes of a leaf are text."""
    if e['type'] != 6:
        return False
    if e['conv'] is not None:
        return e['conv'] in (0, 4, 19)
    return e['logical'] is not None and [n for n, _ in e['logical']] == [1] and (e['logical'][0][1][0] == 'struct')


def values(b, enc, e, count):
    """So many values in an encoding."""
    t = e['type']
    if enc == 0:
        return plain(b, e, count)
    if enc == 3 and t == 0:
        return [x == 1 for x in hybrid(prefixed(b)[0], 1, count)]
    if enc == 9 and t in (1, 2, 7):
        n = 4 * t if t < 7 else e['length']
        if n * count > len(b):
            raise Bad('1')
        return [bytes((b[i * count + j] for i in range(n))) if t == 7 else int.from_bytes(bytes((b[i * count + j] for i in range(n))), 'little', signed=True) for j in range(count)]
    if enc == 5 and t in (1, 2) or (enc == 6 and t == 6) or (enc == 7 and t in (6, 7)):
        return delta(b, enc, e, count)
    raise Bad('8')


def delta(b, enc, e, count):
    """Differences: bytes that are none; the files here have no others."""
    n, at = varint(b, 0)
    if n == 0 or n % 128:
        raise Bad('11')
    raise NotImplementedError


def page(b, leaf, left):
    """A page in a chunk that lacks so many entries, and where it ends; none for one that is skipped."""
    path, e, rep, dfn = leaf
    try:
        f, at = fields(b, 0)
    except Bad as bad:
        # A header that goes beyond the bytes of its chunk.
        raise Bad('9' if bad.args[0] == '1' else bad.args[0])
    kind = known(f, 1, 'i32', True)
    known(f, 2, 'i32')
    size = known(f, 3, 'i32', True)
    known(f, 4, 'i32')
    h1 = known(f, 5, 'struct')
    hd = known(f, 7, 'struct')
    h2 = known(f, 8, 'struct')
    heads = {}
    if h1 is not None:
        heads[0] = {n: known(h1, i, 'i32', i < 3) for i, n in [(1, 'n'), (2, 'enc'), (3, 'def'), (4, 'rep')]}
        known(h1, 5, 'struct')
    if hd is not None:
        heads[2] = {n: known(hd, i, 'i32', True) for i, n in [(1, 'n'), (2, 'enc')]}
        known(hd, 3, 'bool')
    if h2 is not None:
        heads[3] = {n: known(h2, i, 'i32', i not in (2, 3)) for i, n in [(1, 'n'), (2, 'nulls'), (3, 'rows'), (4, 'enc'), (5, 'dl'), (6, 'rl')]}
        known(h2, 7, 'bool')
        known(h2, 8, 'struct')
    if kind in (0, 2, 3) and kind not in heads:
        raise Bad('3')
    if size < 0 or size > len(b) - at:
        raise Bad('9')
    body, used = (b[at:at + size], at + size)
    if kind not in (0, 2, 3):
        return (None, used)
    h = heads[kind]
    if h['n'] < 0:
        raise Bad('9')
    if kind == 2:
        if h['enc'] not in (0, 2):
            raise Bad('8')
        return (('dictionary', plain(body, e, h['n'])), used)
    if h['n'] > left:
        raise Bad('9')
    n = h['n']
    reps = defs = [0] * n
    if kind == 0:
        if rep:
            if h['rep'] != 3:
                raise Bad('8')
            s, body = prefixed(body)
            reps = levels(s, rep, n)
        if dfn:
            if h['def'] != 3:
                raise Bad('8')
            s, body = prefixed(body)
            defs = levels(s, dfn, n)
    else:
        if h['rl'] < 0 or h['dl'] < 0:
            raise Bad('9')
        if h['rl'] + h['dl'] > len(body):
            raise Bad('1')
        s, d, body = (body[:h['rl']], body[h['rl']:h['rl'] + h['dl']], body[h['rl'] + h['dl']:])
        if rep:
            reps = levels(s, rep, n)
        if dfn:
            defs = levels(d, dfn, n)
    full = sum((1 for x in defs if x == dfn))
    vs = values(body, h['enc'], e, full) if full else []
    if is_text(e):
        for v in vs:
            try:
                v.decode()
            except UnicodeDecodeError:
                raise Bad('12')
    it = iter(vs)
    return (('data', [(r, d, next(it) if d == dfn else None) for r, d in zip(reps, defs)]), used)


def chunk(front, c, leaf, rows):
    """The entries of a chunk, with as many rows as its group has."""
    path, e, rep, dfn = leaf
    file_path, c = c
    if file_path is not None:
        raise Bad('9')
    if c['type'] != e['type'] or [x[1] for x in c['path']] != path:
        raise Bad('4')
    if c['codec'] != 0:
        raise Bad('5')
    if c['n'] < 0:
        raise Bad('9')
    if c['n'] > 16777216:
        raise Bad('13')
    if c['off'] < 0 or (c['dict'] is not None and c['dict'] < 0):
        raise Bad('9')
    start = c['dict'] if c['dict'] and 0 < c['dict'] < c['off'] else c['off']
    if start > len(front):
        raise Bad('9')
    entries, at, first = ([], start, True)
    while len(entries) < c['n']:
        p, used = page(front[at:], leaf, c['n'] - len(entries))
        at += used
        if p is None:
            continue
        if p[0] == 'dictionary':
            if not first:
                raise Bad('9')
        else:
            entries += p[1]
        first = False
    if sum((1 for r, _, _ in entries if r == 0)) != rows or (entries and entries[0][0] != 0):
        raise Bad('10')
    return entries


def read(b):
    """Reads a file."""
    if len(b) < 12:
        raise Bad('1')
    if b[:4] != b'PAR1' or b[-4:] != b'PAR1':
        raise Bad('2')
    n = int.from_bytes(b[-8:-4], 'little')
    if n > 16777216:
        raise Bad('13')
    if n > len(b) - 12:
        raise Bad('1')
    front, foot = (b[:len(b) - 8 - n], b[len(b) - 8 - n:len(b) - 8])
    f, _ = fields(foot, 0)
    schema, groups = record(f)
    leaves = tree(schema)
    for cols, rows in groups:
        if rows < 0:
            raise Bad('9')
        if rows > 16777216:
            raise Bad('13')
        if len(cols) != len(leaves):
            raise Bad('4')
        for c, leaf in zip(cols, leaves):
            chunk(front, c, leaf, rows)


def tally(b):
    """What comes of each list of bytes with one byte changed."""
    counts = {}
    for at in range(len(b)):
        for v in range(256):
            c = b[:at] + bytes([v]) + b[at + 1:]
            try:
                read(c)
                k = 'read'
            except Bad as e:
                k = e.args[0]
            counts[k] = counts.get(k, 0) + 1
    return counts


def main():
    """Prints the line of each of the files that have these names in the cases."""
    command_line.only(__doc__)
    named = {}
    for line in open(CASES, encoding='utf-8'):
        parts = line.split()
        if len(parts) == 3 and parts[0] == 'text':
            named[parts[1]] = parts[2]
    for name in ['file', 'norows', 'plain']:
        counts = tally(bytes.fromhex(named[name]))
        said = [f"{counts.pop('read', 0)} read"] + [f'{counts[k]} refused {k}' for k in sorted(counts, key=int)]
        print(f"changes ${{{name}}} = {', '.join(said)}")


if __name__ == "__main__":
    main()
