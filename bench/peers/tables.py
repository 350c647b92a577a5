"""Random tables for bench/peers/peers.py: of pyarrow, with every type that is read, nested three deep; and schemas with rows as
`pqds encode` takes them. The same number gives the same table."""
import datetime, decimal, random, sys

try:
    import pyarrow as pa
except ModuleNotFoundError as missing:
    sys.exit(f"{missing}: bench/peers/peers.sh makes a room that has it")

EPOCH = datetime.date(1970, 1, 1)
TEXTS = ["", "plain", "Grüße \"x\"", "\n\t\\\u0001 €𝄞", "a=b/c%", "__HIVE_DEFAULT_PARTITION__", "0", "value"]

FLAT = [
    pa.bool_(), pa.int8(), pa.int16(), pa.int32(), pa.int64(), pa.uint8(), pa.uint16(), pa.uint32(), pa.uint64(), pa.date32(),
    pa.timestamp("ms"), pa.timestamp("us"), pa.timestamp("ns"), pa.timestamp("us", "UTC"), pa.time32("ms"), pa.time64("us"), pa.time64("ns"),
    pa.decimal128(7, 2), pa.decimal128(15, 0), pa.decimal128(30, 4), pa.string(), pa.large_string(), pa.binary(), pa.binary(1), pa.binary(7),
]


# ---- tables of pyarrow ----

def random_kind(rng, depth):
    """A type whose lists, maps and structs are nested at most this deep."""
    pick = rng.randrange(6) if depth else 0
    if pick < 3:
        return rng.choice(FLAT)
    if pick == 3:
        return pa.list_(pa.field("element", random_kind(rng, depth - 1), nullable=rng.random() < 0.8))
    if pick == 4:
        return pa.map_(rng.choice([pa.string(), pa.int32()]), random_kind(rng, depth - 1))
    return pa.struct([pa.field(f"f{i}", random_kind(rng, depth - 1), nullable=rng.random() < 0.8) for i in range(rng.randint(1, 3))])


def random_leaf(rng, kind):
    if pa.types.is_boolean(kind):
        return rng.random() < 0.5
    if pa.types.is_integer(kind):
        bits = rng.choice([1, kind.bit_width])
        return rng.randrange(2**bits) if pa.types.is_unsigned_integer(kind) else rng.randrange(2**bits) - 2**(bits - 1)
    if pa.types.is_date(kind):
        return EPOCH + datetime.timedelta(days=rng.randrange(-9000, 40000))
    if pa.types.is_timestamp(kind):
        return rng.randrange(-10**12, 10**12)
    if pa.types.is_time(kind):
        return rng.randrange(86_400_000)
    if pa.types.is_decimal(kind):
        return decimal.Decimal(rng.randrange(-10**kind.precision + 1, 10**kind.precision)).scaleb(-kind.scale, decimal.Context(prec=60))
    if pa.types.is_string(kind) or pa.types.is_large_string(kind):
        return rng.choice(TEXTS) if rng.random() < 0.7 else f"value {rng.randrange(10**6)}"
    size = kind.byte_width if pa.types.is_fixed_size_binary(kind) else rng.randrange(9)
    return bytes(rng.randrange(256) for _ in range(size))


def random_value(rng, kind, nullable, nulls):
    if nullable and rng.random() < nulls:
        return None
    if pa.types.is_list(kind):
        return [random_value(rng, kind.value_type, kind.value_field.nullable, nulls) for _ in range(rng.choice([0, 0, 1, 2, 5]))]
    if pa.types.is_map(kind):
        keys = [f"k{i}" for i in range(rng.randrange(4))] if kind.key_type == pa.string() else list(range(rng.randrange(4)))
        return [(key, random_value(rng, kind.item_type, True, nulls)) for key in keys]
    if pa.types.is_struct(kind):
        return {field.name: random_value(rng, field.type, field.nullable, nulls) for field in kind}
    return random_leaf(rng, kind)


def random_table(number):
    """A table of one to five columns and up to 400 rows."""
    rng = random.Random(number)
    fields = [pa.field(f"c{i}", random_kind(rng, 3), nullable=rng.random() < 0.7) for i in range(rng.randint(1, 5))]
    rows, nulls = rng.choice([0, 1, 7, 60, 400]), rng.choice([0.0, 0.05, 0.4, 1.0])
    arrays = [pa.array([random_value(rng, field.type, field.nullable, nulls) for _ in range(rows)], field.type) for field in fields]
    return pa.table(arrays, schema=pa.schema(fields))


ENCODINGS = {
    "BOOLEAN": ["PLAIN", "RLE"], "INT32": ["PLAIN", "DELTA_BINARY_PACKED", "BYTE_STREAM_SPLIT"],
    "INT64": ["PLAIN", "DELTA_BINARY_PACKED", "BYTE_STREAM_SPLIT"], "BYTE_ARRAY": ["PLAIN", "DELTA_LENGTH_BYTE_ARRAY", "DELTA_BYTE_ARRAY"],
    "FIXED_LEN_BYTE_ARRAY": ["PLAIN", "DELTA_BYTE_ARRAY", "BYTE_STREAM_SPLIT"],
}


def random_options(number, leaves):
    """Options of pyarrow's writer; leaves is a list of paths with their physical types."""
    rng = random.Random(-1 - number)
    options = {
        "data_page_version": rng.choice(["1.0", "2.0"]), "write_statistics": rng.random() < 0.7, "write_page_index": rng.random() < 0.5,
        "write_page_checksum": rng.random() < 0.5, "row_group_size": rng.choice([3, 50, 1000]), "data_page_size": rng.choice([64, 1000, 2**20]),
        "write_batch_size": rng.choice([1, 16, 1024]), "store_decimal_as_integer": rng.random() < 0.5, "store_schema": rng.random() < 0.5,
        "version": rng.choice(["1.0", "2.4", "2.6"]), "use_compliant_nested_type": rng.random() < 0.8, "use_dictionary": rng.random() < 0.5,
        "dictionary_pagesize_limit": rng.choice([32, 2**20]),
    }
    if options["version"] != "2.6":
        options.update(coerce_timestamps="us", allow_truncated_timestamps=True)
    if not options["use_dictionary"] and rng.random() < 0.8:
        options["column_encoding"] = {path: rng.choice(ENCODINGS[kind]) for path, kind in leaves}
    return options


# ---- schemas and rows of PQDS ----

NOTES = {
    "int32": [None, "int_8", "int_16", "int_32", "uint_8", "uint_16", "uint_32", "date", "time_millis", "decimal"],
    "int64": [None, "int_64", "uint_64", "time_micros", "timestamp_millis", "timestamp_micros", "decimal"],
    "bytes": [None, "utf8", "utf8", "enum", "json"], "fixed": [None, "decimal"], "boolean": [None],
}
RANGES = {"int_8": (-128, 128), "int_16": (-2**15, 2**15), "uint_8": (0, 256), "uint_16": (0, 2**16), "uint_32": (0, 2**32), "uint_64": (0, 2**64),
          "date": (-9000, 40000), "time_millis": (0, 86_400_000), "time_micros": (0, 86_400_000_000), "timestamp_millis": (-10**12, 10**12),
          "timestamp_micros": (-10**15, 10**15)}


def random_field(rng, name, depth, millis):
    """A field as the schema's JSON has it; without millis no times in milliseconds."""
    rep = rng.choice(["required", "optional", "optional", "optional", "repeated"] if depth == 3 else ["required", "optional", "optional"])
    pick = rng.randrange(6) if depth else 0
    if pick == 3:
        element = random_field(rng, "element", depth - 1, millis)
        return {"name": name, "rep": "optional", "note": "list", "fields": [{"name": "list", "rep": "repeated", "fields": [element]}]}
    if pick == 4:
        key = {"name": "key", "rep": "required", "type": "bytes", "note": "utf8"}
        pair = [key, random_field(rng, "value", depth - 1, millis)]
        return {"name": name, "rep": "optional", "note": "map", "fields": [{"name": "key_value", "rep": "repeated", "fields": pair}]}
    if pick == 5:
        return {"name": name, "rep": rep, "fields": [random_field(rng, f"f{i}", depth - 1, millis) for i in range(rng.randint(1, 3))]}
    kind = rng.choice(list(NOTES))
    note = rng.choice([it for it in NOTES[kind] if millis or not it or "millis" not in it])
    field = {"name": name, "rep": rep, "type": kind}
    if kind == "fixed":
        field["length"] = 16 if note == "decimal" else rng.choice([1, 5, 16])
    if note:
        field["note"] = note
    if note == "decimal":
        field.update(precision={"int32": 9, "int64": 18, "fixed": 38}[kind], scale=2)
    return field


def random_item(rng, field):
    """A value of a field that is there."""
    if "fields" in field:
        return {it["name"]: row_value(rng, it, 0.2) for it in field["fields"]}
    kind, note = field["type"], field.get("note")
    if kind == "boolean":
        return rng.random() < 0.5
    if note == "decimal":
        whole = rng.randrange(-10**field["precision"] + 1, 10**field["precision"])
        return whole if kind != "fixed" else whole.to_bytes(16, "big", signed=True).hex()
    if kind in ("int32", "int64"):
        return rng.randrange(*RANGES.get(note, (-2**31, 2**31) if kind == "int32" else (-2**63, 2**63)))
    if note == "json":
        return rng.choice(["{}", "[1,2]", "\"x\""])
    if note:
        return rng.choice(TEXTS)
    return bytes(rng.randrange(256) for _ in range(field.get("length", rng.randrange(6)))).hex()


def row_value(rng, field, nulls):
    if field["rep"] == "repeated":
        items = [random_item(rng, field) for _ in range(rng.choice([0, 1, 2, 4]))]
        if field["name"] == "key_value":
            items = [dict(item, key=f"k{place}") for place, item in enumerate(items)]
        return items
    return None if field["rep"] == "optional" and rng.random() < nulls else random_item(rng, field)


def random_rows(number, millis=True):
    """A schema of one to five columns, and up to 300 rows of it."""
    rng = random.Random(number)
    schema = [random_field(rng, f"c{i}", 3, millis) for i in range(rng.randint(1, 5))]
    nulls = rng.choice([0.0, 0.1, 0.5, 1.0])
    return schema, [{field["name"]: row_value(rng, field, nulls) for field in schema} for _ in range(rng.choice([0, 1, 9, 300]))]
