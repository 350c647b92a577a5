#!/usr/bin/env python3
"""outside.py PQDS [FOLDER]: files of other programs, and ours in their hands.

Files that pyarrow and DuckDB write without compression are decoded by PQDS, and the lines are compared with the rows
that pyarrow reads of the same files; files that PQDS encodes are read by pyarrow and DuckDB, and compared with the
lines. With FOLDER (such as the data of parquet-testing), each file below it is decoded: PQDS must print what pyarrow
reads, or refuse it with a cause that pyarrow sees too. It needs Python with pyarrow, and DuckDB as `duckdb`, where that
is there. Prints a line for each difference, and counts; status 1 where there is a difference. bench/peers/peers.py uses it."""
import datetime, decimal, glob, json, os, random, shutil, subprocess, sys, tempfile

try:
    import pyarrow as pa
    import pyarrow.parquet as pq
except ModuleNotFoundError as missing:
    sys.exit(f"{missing}: bench/peers/peers.sh makes a room that has it")

EPOCH = datetime.date(1970, 1, 1)
differences = 0


def tell(text):
    global differences
    differences += 1
    print(text[:600], flush=True)


# ---- rows as pyarrow reads them, in the form that PQDS prints ----

def names_below(paths, depth):
    """The names of the children at this depth, in their order."""
    found = []
    for path in paths:
        if path[0][depth] not in found:
            found.append(path[0][depth])
    return found


def leaf(scalar, column):
    """A value of a leaf as JSON: numbers, booleans, text, and else hexadecimal digits."""
    kind, physical = scalar.type, column.physical_type
    if isinstance(kind, pa.BaseExtensionType):
        return leaf(scalar.value, column)
    if pa.types.is_boolean(kind) or pa.types.is_integer(kind):
        return scalar.as_py()
    if pa.types.is_date(kind):
        return (scalar.as_py() - EPOCH).days
    if pa.types.is_timestamp(kind) or pa.types.is_time(kind) or pa.types.is_duration(kind):
        return scalar.value
    if pa.types.is_decimal(kind):
        whole = int(scalar.as_py().scaleb(kind.scale, decimal.Context(prec=80)))
        if physical in ("INT32", "INT64"):
            return whole
        size = column.length if physical == "FIXED_LEN_BYTE_ARRAY" else max(1, (whole.bit_length() + 8) // 8)
        return whole.to_bytes(size, "big", signed=True).hex()
    if pa.types.is_string(kind) or pa.types.is_large_string(kind) or pa.types.is_string_view(kind):
        return scalar.as_py()
    if column.logical_type.type == "ENUM":                # a text, which pyarrow gives as bytes
        return scalar.as_py().decode()
    if pa.types.is_binary(kind) or pa.types.is_large_binary(kind) or pa.types.is_fixed_size_binary(kind) or pa.types.is_binary_view(kind):
        return scalar.as_py().hex()
    raise TypeError(str(kind))


def shown(scalar, paths, depth):
    """A value whose leaves have these paths, from this depth on, as PQDS shows it."""
    if not scalar.is_valid:
        return None
    kind = scalar.type
    if pa.types.is_list(kind) or pa.types.is_large_list(kind) or pa.types.is_fixed_size_list(kind):
        if len(paths[0][0]) == depth:                     # a REPEATED leaf
            return [shown(it, paths, depth) for it in scalar.values]
        middle = paths[0][0][depth]
        below = names_below([p for p in paths if len(p[0]) > depth + 1], depth + 1)
        members = [f.name for f in kind.value_type] if pa.types.is_struct(kind.value_type) else None
        if members == names_below(paths, depth):          # a REPEATED group without an annotation
            return [shown(it, paths, depth) for it in scalar.values]
        if members == below or not below:                 # the repeated field is the element
            return {middle: [shown(it, paths, depth + 1) for it in scalar.values]}
        return {middle: [{below[0]: shown(it, paths, depth + 2)} for it in scalar.values]}
    if pa.types.is_map(kind):
        middle = paths[0][0][depth]
        key, value = names_below(paths, depth + 1)
        keys, values = paths[:1], paths[1:]
        return {middle: [{key: shown(it[0], keys, depth + 2), value: shown(it[1], values, depth + 2)} for it in scalar.values]}
    if pa.types.is_struct(kind):
        return {name: shown(scalar[name], [p for p in paths if p[0][depth] == name], depth + 1) for name in names_below(paths, depth)}
    return leaf(scalar, paths[0][1])


def rows_of(file):
    """The rows that pyarrow reads."""
    whole = pq.ParquetFile(file)
    schema = whole.schema
    paths = [(schema.column(i).path.split("."), schema.column(i)) for i in range(len(schema))]
    table = whole.read()
    rows = [{} for _ in range(table.num_rows)]
    for name, column in zip(table.column_names, table.columns):
        below = [p for p in paths if p[0][0] == name]
        at = 0
        for chunk in column.chunks:
            if pa.types.is_dictionary(chunk.type):
                chunk = chunk.dictionary_decode()
            for scalar in chunk:
                rows[at][name] = shown(scalar, below, 1)
                at += 1
    return rows


def decoded(program, file):
    """The rows that PQDS prints, or its refusal: the last line of standard error, after the line that says why."""
    ran = subprocess.run([program, "decode", file], capture_output=True)
    if ran.returncode:
        return None, ran.stderr.decode().strip().split("\n")[-1]
    return [json.loads(line) for line in ran.stdout.decode().split("\n")[:-1]], ""


def isolated(work, *given):
    """What work returns, as JSON, or the text of its exception: in a process of its own, since readers end on some files."""
    out, into = os.pipe()
    child = os.fork()
    if not child:
        os.close(out)
        try:
            text = json.dumps({"it": work(*given)})
        except BaseException as error:
            text = json.dumps({"error": f"{type(error).__name__}: {error}".split("\n")[0]})
        with os.fdopen(into, "w") as it:
            it.write(text)
        os._exit(0)
    os.close(into)
    with os.fdopen(out) as it:
        text = it.read()
    status = os.waitpid(child, 0)[1]
    answer = json.loads(text) if text else {"error": f"ended by signal {status & 127}"}
    return answer.get("it"), answer.get("error")


def compare(program, file, what, may_refuse=False):
    """Whether PQDS prints of the file what pyarrow reads."""
    wanted, error = isolated(rows_of, file)
    if error:
        wanted = f"pyarrow: {error}"
    rows, refusal = decoded(program, file)
    if rows is None:
        if not may_refuse:
            tell(f"{what}: {refusal}")
        return refusal
    if isinstance(wanted, str):
        tell(f"{what}: printed {len(rows)} rows, {wanted[:120]}")
        return f"printed {len(rows)} rows, {wanted[:120]}"
    if rows != wanted:
        at = next((i for i, (a, b) in enumerate(zip(rows, wanted)) if a != b), min(len(rows), len(wanted)))
        tell(f"{what}: {len(rows)} rows for {len(wanted)}, row {at}: {json.dumps(rows[at:at + 1])[:200]} for {json.dumps(wanted[at:at + 1])[:200]}")
    return "same"


READ = {"PLAIN", "PLAIN_DICTIONARY", "RLE_DICTIONARY", "RLE", "DELTA_BINARY_PACKED", "DELTA_LENGTH_BYTE_ARRAY", "DELTA_BYTE_ARRAY", "BYTE_STREAM_SPLIT"}


def chunks_of(meta):
    return [meta.row_group(group).column(place) for group in range(meta.num_row_groups) for place in range(meta.num_columns)]


def cause(file, refusal):
    """Where pyarrow sees the cause of a refusal too, what it sees; else nothing."""
    number, named = int(refusal.split()[1]), refusal.split(" ", 3)[3:]
    with open(file, "rb") as it:
        if number == 2 and it.read(4) == b"PARE":
            return "an encrypted footer"
    found, error = isolated(profile, file, number, named) if number in (5, 6, 7, 8) else isolated(rows_of, file)
    return f"pyarrow cannot read it: {error}" if error else found if number in (5, 6, 7, 8) else None


def profile(file, number, named):
    """What pyarrow's metadata shows of a file that is refused 5 to 8."""
    meta = pq.read_metadata(file)
    if number in (5, 8):
        chunks = chunks_of(meta)
        compressed, unknown = any(it.compression != "UNCOMPRESSED" for it in chunks), any(set(it.encodings) - READ for it in chunks)
        return "a compressed column" if number == 5 and compressed else "an encoding that is not read" if number == 8 and unknown else None
    leaf = next(meta.schema.column(i) for i in range(len(meta.schema)) if meta.schema.column(i).path == named[0])
    if number == 7:
        return "an INT96 column" if leaf.physical_type == "INT96" else None
    is_float = leaf.physical_type in ("FLOAT", "DOUBLE") or leaf.logical_type.type == "FLOAT16"
    return "a column of floating-point numbers" if is_float else None


# ---- tables ----

def column_of(kind, count, chance):
    """Values of a type, a third of them null where it may be."""
    def one(i):
        n = (i * 2654435761) % 2**31
        if pa.types.is_boolean(kind):
            return n % 3 == 0
        if pa.types.is_integer(kind):
            bits = kind.bit_width
            whole = (n * 2654435761 + i) % 2**bits
            return whole if pa.types.is_unsigned_integer(kind) else whole - 2**(bits - 1)
        if pa.types.is_date(kind):
            return EPOCH + datetime.timedelta(days=n % 40000 - 9000)
        if pa.types.is_timestamp(kind) or pa.types.is_time(kind):
            return n % 86400
        if pa.types.is_decimal(kind):
            return decimal.Decimal(n % 10**min(8, kind.precision) - 10**7 * (n % 2)).scaleb(-kind.scale)
        if pa.types.is_string(kind):
            return ["", "plain", f"value {n % 97}", 'Grüße "%d"' % n, "\n\t\\\u0001 €𝄞"][n % 5]
        if pa.types.is_fixed_size_binary(kind):
            return n.to_bytes(8, "big")[-kind.byte_width:].rjust(kind.byte_width, b"x")
        if pa.types.is_binary(kind):
            return n.to_bytes(4, "little") * (n % 4)
        if pa.types.is_list(kind):
            return [column_of(kind.value_type, 1, chance + i + k)[0] for k in range(n % 4)]
        if pa.types.is_map(kind):
            return [(f"k{k}", column_of(kind.item_type, 1, chance + i + k)[0]) for k in range(n % 3)]
        if pa.types.is_struct(kind):
            return {f.name: column_of(f.type, 1, chance + i + k)[0] for k, f in enumerate(kind)}
        raise TypeError(str(kind))
    return [None if (i + chance) % 3 == 1 else one(i * 7 + chance) for i in range(count)]


KINDS = {
    "bool": pa.bool_(), "i8": pa.int8(), "i16": pa.int16(), "i32": pa.int32(), "i64": pa.int64(), "u8": pa.uint8(), "u16": pa.uint16(),
    "u32": pa.uint32(), "u64": pa.uint64(), "day": pa.date32(), "at_ms": pa.timestamp("ms"), "at_us": pa.timestamp("us"),
    "at_ns": pa.timestamp("ns"), "t_ms": pa.time32("ms"), "t_us": pa.time64("us"), "dec9": pa.decimal128(9, 2), "dec30": pa.decimal128(30, 4),
    "text": pa.string(), "bin": pa.binary(), "fix": pa.binary(5), "ints": pa.list_(pa.int32()), "texts": pa.list_(pa.string()),
    "lists": pa.list_(pa.list_(pa.int64())), "map": pa.map_(pa.string(), pa.int32()), "pair": pa.struct([("a", pa.int32()), ("b", pa.string())]),
    "pairs": pa.list_(pa.struct([("a", pa.int64()), ("xs", pa.list_(pa.bool_()))])),
}


def table_of(count, names=None, nullable=True):
    arrays, fields = [], []
    for place, (name, kind) in enumerate(KINDS.items()):
        if names and name not in names:
            continue
        values = column_of(kind, count, place)
        required = not nullable and not pa.types.is_nested(kind)
        if required:
            filler = next(v for v in column_of(kind, 9, place + 2) if v is not None)
            values = [filler if v is None else v for v in values]
        arrays.append(pa.array(values, kind))
        fields.append(pa.field(name, kind, nullable=not required))
    return pa.table(arrays, schema=pa.schema(fields))


SPLIT = {name: "BYTE_STREAM_SPLIT" for name in ("i8", "i32", "i64", "u32", "u64", "day", "at_us", "dec9", "dec30", "fix")}
DELTA = {"i32": "DELTA_BINARY_PACKED", "i64": "DELTA_BINARY_PACKED", "u32": "DELTA_BINARY_PACKED", "text": "DELTA_BYTE_ARRAY", "bin": "DELTA_LENGTH_BYTE_ARRAY", "fix": "DELTA_BYTE_ARRAY", "bool": "RLE"}

OPTIONS = [
    {}, {"use_dictionary": False}, {"data_page_version": "2.0"}, {"data_page_version": "2.0", "use_dictionary": False},
    {"dictionary_pagesize_limit": 64}, {"data_page_size": 128, "write_batch_size": 16}, {"row_group_size": 100}, {"write_page_index": True, "write_page_checksum": True},
    {"version": "1.0", "coerce_timestamps": "us", "allow_truncated_timestamps": True}, {"version": "2.4", "coerce_timestamps": "us", "allow_truncated_timestamps": True}, {"store_schema": False, "use_compliant_nested_type": False}, {"store_decimal_as_integer": True},
    {"data_page_version": "2.0", "data_page_size": 200, "write_batch_size": 8, "row_group_size": 333, "dictionary_pagesize_limit": 100},
    {"use_dictionary": False, "column_encoding": DELTA, "names": list(DELTA)},
    {"use_dictionary": False, "column_encoding": DELTA, "names": list(DELTA), "data_page_version": "2.0", "data_page_size": 300, "write_batch_size": 10},
    {"use_dictionary": False, "column_encoding": SPLIT, "names": list(SPLIT)},
    {"use_dictionary": False, "column_encoding": SPLIT, "names": list(SPLIT), "store_decimal_as_integer": True},
    {"use_dictionary": False, "column_encoding": SPLIT, "names": list(SPLIT), "data_page_version": "2.0", "data_page_size": 300, "write_batch_size": 10},
    {"write_statistics": False}, {"use_byte_stream_split": ["i32"], "use_dictionary": False, "names": ["i32"]},
]


def read_theirs(program, room):
    """Files of pyarrow; returns how many were compared."""
    count = 0
    for given in OPTIONS:
        options = {name: value for name, value in given.items() if name != "names"}
        for nullable in (True, False):
            for rows in (0, 1, 1000):
                table, file = table_of(rows, given.get("names"), nullable), f"{room}/theirs.parquet"
                try:
                    pq.write_table(table, file, compression="NONE", **options)
                except (TypeError, ValueError, pa.ArrowException) as error:
                    print(f"not written by this pyarrow: {options}: {error}")
                    break
                compare(program, file, f"pyarrow {options} nullable {nullable} rows {rows}")
                count += 1
    print(f"files of pyarrow {pa.__version__}: {count} compared")
    return count


def read_duckdb(program, room):
    """Files of DuckDB."""
    if not shutil.which("duckdb"):
        print("no duckdb")
        return 0
    select = ("SELECT i::INTEGER AS i, (i * 7919 % 1009)::BIGINT AS big, i % 3 = 0 AS flag, CASE WHEN i % 4 = 0 THEN NULL ELSE 'text ' || (i % 13) END AS t, "
              "(i % 250)::UTINYINT AS u8, (i * 65537)::UINTEGER AS u32, DATE '2020-01-01' + (i % 900)::INTEGER AS d, TIMESTAMP '2020-01-01' + to_seconds(i) AS ts, "
              "[i, NULL, i + 1]::INTEGER[] AS xs, {{'a': i::INTEGER, 'b': 's' || i}} AS pair, MAP {{'k' || (i % 3): i::INTEGER}} AS m, "
              "(i / 4)::DECIMAL(9,2) AS dec, ('b' || i)::BLOB AS bin FROM range({rows}) r(i)")
    count = 0
    for rows in (1, 1000, 5000):
        for options in ("", ", PARQUET_VERSION V2", ", ROW_GROUP_SIZE 2048", ", DICTIONARY_SIZE_LIMIT 4, ROW_GROUP_SIZE 2048", ", PARQUET_VERSION V2, DICTIONARY_SIZE_LIMIT 1"):
            file = f"{room}/duck.parquet"
            text = f"COPY ({select.format(rows=rows)}) TO '{file}' (FORMAT parquet, COMPRESSION uncompressed{options})"
            ran = subprocess.run(["duckdb", "-c", text], capture_output=True)
            if ran.returncode:
                print(f"not written by this DuckDB: {options}: {ran.stderr.decode()[:200]}")
                continue
            compare(program, file, f"DuckDB{options} rows {rows}")
            count += 1
    print(f"files of DuckDB: {count} compared")
    return count


# ---- ours ----

SCHEMA = [
    {"name": "b", "rep": "optional", "type": "boolean"}, {"name": "n", "rep": "required", "type": "int32"},
    {"name": "u", "rep": "optional", "type": "int32", "note": "uint_32"}, {"name": "l", "rep": "optional", "type": "int64"},
    {"name": "day", "rep": "required", "type": "int32", "note": "date"}, {"name": "t", "rep": "optional", "type": "bytes", "note": "utf8"},
    {"name": "raw", "rep": "required", "type": "bytes"}, {"name": "f", "rep": "optional", "type": "fixed", "length": 3},
    {"name": "xs", "rep": "optional", "note": "list", "fields": [{"name": "list", "rep": "repeated", "fields": [{"name": "element", "rep": "optional", "type": "int64"}]}]},
    {"name": "g", "rep": "optional", "fields": [{"name": "a", "rep": "required", "type": "int32"}, {"name": "s", "rep": "optional", "type": "bytes", "note": "utf8"}]},
]


STYLES = ("plain", "dictionary", "delta", "lengths", "split")


def our_row(i, rng):
    some = lambda value: None if rng.random() < 0.25 else value
    return {"b": some(i % 2 == 0), "n": i - 50, "u": some((i * 2654435761) % 2**32), "l": some((i * 7919) ** 3 % 2**62 - 2**40), "day": i % 20000,
            "t": some(["", "axle", "Grüße \"x\"", f"value {i % 7}"][i % 4]), "raw": bytes(rng.randrange(256) for _ in range(i % 6)).hex(),
            "f": some(f"{i % 2**24:06x}"), "xs": some({"list": [{"element": some(i + k)} for k in range(i % 4)]}), "g": some({"a": i, "s": some("s" * (i % 5))})}


def give_ours(program, room):
    """Files of PQDS, read by pyarrow and DuckDB."""
    rng, count = random.Random(7), 0
    for rows in (0, 1, 1000):
        wanted = [our_row(i, rng) for i in range(rows)]
        with open(f"{room}/schema.json", "w") as it:
            json.dump(SCHEMA, it)
        with open(f"{room}/rows.jsonl", "w") as it:
            it.writelines(json.dumps(row, ensure_ascii=False) + "\n" for row in wanted)
        for style in STYLES:
            for version in ("1", "2"):
                for sizes in ([], ["--group-rows", "300", "--page-rows", "70"]):
                    file = f"{room}/ours.parquet"
                    if os.path.exists(file):
                        os.remove(file)
                    what = f"ours {style} {version} {sizes} rows {rows}"
                    ran = subprocess.run([program, "encode", f"{room}/schema.json", f"{room}/rows.jsonl", file, "--style", style, "--page-version", version, *sizes], capture_output=True)
                    if ran.returncode:
                        tell(f"{what}: {ran.stderr.decode()}")
                        continue
                    count += 1
                    if rows_of(file) != wanted:
                        tell(f"{what}: pyarrow reads other rows")
                    check_statistics(file, wanted, what)
                    if shutil.which("duckdb"):
                        # DuckDB does not read bytes of a fixed length in this encoding.
                        check_by_duckdb(file, wanted, what, "n" if style == "split" else "f")
    print(f"files of ours: {count} read by pyarrow" + (" and DuckDB" if shutil.which("duckdb") else ""))
    return count


def check_statistics(file, wanted, what):
    """The bounds of flat columns, as pyarrow reads them, against the rows of each group."""
    meta, at = pq.ParquetFile(file).metadata, 0
    for group in range(meta.num_row_groups):
        part = wanted[at:at + meta.row_group(group).num_rows]
        at += len(part)
        for column in range(meta.num_columns):
            chunk = meta.row_group(group).column(column)
            name = chunk.path_in_schema
            if name not in ("n", "u", "l", "t"):
                continue
            values = [row[name] for row in part if row[name] is not None]
            found = chunk.statistics
            if values and (found is None or (found.min, found.max) != ((min(values, key=lambda v: v.encode() if isinstance(v, str) else v)), max(values, key=lambda v: v.encode() if isinstance(v, str) else v))):
                tell(f"{what}: statistics of {name}: {found and (found.min, found.max)}")
            if found is not None and found.null_count != len(part) - len(values):
                tell(f"{what}: nulls of {name}: {found.null_count}")


def check_by_duckdb(file, wanted, what, fixed):
    """What DuckDB counts and sums in the file; fixed is a column that it counts."""
    text = f"SELECT count(*), sum(n), count(l), sum(l)::VARCHAR, count(t), min(t), sum(octet_length(raw)), count({fixed}), sum(len(xs)), count(g) FROM read_parquet('{file}')"
    ran = subprocess.run(["duckdb", "-json", "-c", text], capture_output=True)
    if ran.returncode:
        return tell(f"{what}: DuckDB: {ran.stderr.decode()[:300]}")
    seen = list(json.loads(ran.stdout)[0].values())
    there = lambda name: [row[name] for row in wanted if row[name] is not None]
    texts = there("t")
    total = lambda values: sum(values) if values else None
    numbers = [len(wanted), total(there("n")), len(there("l")), str(sum(there("l"))) if there("l") else None, len(texts),
               min(texts, key=lambda v: v.encode()) if texts else None, total([len(row["raw"]) // 2 for row in wanted]), len(there(fixed)),
               total([len(v["list"]) for v in there("xs")]), len(there("g"))]
    if [str(v) for v in seen] != [str(v) for v in numbers]:
        tell(f"{what}: DuckDB finds {seen} for {numbers}")


def read_folder(program, folder):
    """Each file below a folder: PQDS prints what pyarrow reads, or refuses it for a cause that pyarrow sees; what lies in a
    folder bad_data is refused. Returns how many were tried, equal and refused."""
    said = {}
    for file in sorted(glob.glob(f"{folder}/**/*.parquet", recursive=True) + glob.glob(f"{folder}/**/*.parquet.encrypted", recursive=True)):
        name = os.path.relpath(file, folder)
        found = compare(program, file, name, True)
        why = cause(file, found) if found.startswith("refused") else ""
        print(f"    {name}: {found[:150]}" + (f" ({why[:120]})" if why else ""), flush=True)
        if why is None:
            tell(f"{name}: {found}, and pyarrow reads it")
        if "bad_data" in name and found == "same":
            tell(f"{name}: read, and it is bad")
        found = " ".join(found.split(" ")[:3]) if found.startswith("refused") else found.split(" ")[0]
        said[found] = said.get(found, 0) + 1
    print(f"files below {folder}: " + ", ".join(f"{n} {what}" for what, n in sorted(said.items())))
    return sum(said.values()), said.get("same", 0), sum(n for what, n in said.items() if what.startswith("refused"))


def main():
    if len(sys.argv) not in (2, 3) or sys.argv[1].startswith("-"):
        print(__doc__, file=sys.stderr)
        sys.exit(2)
    if shutil.which(sys.argv[1]) is None:
        sys.exit(f"outside.py: there is no program {sys.argv[1]}")
    program = os.path.abspath(sys.argv[1])
    with tempfile.TemporaryDirectory() as room:
        read_theirs(program, room)
        read_duckdb(program, room)
        give_ours(program, room)
    if len(sys.argv) == 3:
        read_folder(program, sys.argv[2])
    print(f"{differences} differences")
    sys.exit(1 if differences else 0)


if __name__ == "__main__":
    main()
