"""Arrow tables: their columns as those of a table, and both ways between them."""

from __future__ import annotations

import importlib
import importlib.util
import inspect
import os
import tempfile
from contextlib import contextmanager
from typing import Any, Dict, Iterator, List, Mapping, Optional, Sequence

from ._errors import Float, RowShape, Schema
from ._schema import Field, JsonField, is_bare_list, leaves_of
from ._values import RANGES, TICK_RANGES, TICKS, Misfit, decimal_of_float, reader


def _pa() -> Any:
    return importlib.import_module("pyarrow")


def is_there() -> bool:
    """Whether pyarrow can be imported."""
    return importlib.util.find_spec("pyarrow") is not None


# ---- types ----

_NUMBERS = {
    "int8": ("int32", "int_8"),
    "int16": ("int32", "int_16"),
    "int32": ("int32", None),
    "int64": ("int64", None),
    "uint8": ("int32", "uint_8"),
    "uint16": ("int32", "uint_16"),
    "uint32": ("int32", "uint_32"),
    "uint64": ("int64", "uint_64"),
    "bool": ("boolean", None),
    "date32[day]": ("int32", "date"),
    "date64[ms]": ("int32", "date"),
    "time32[s]": ("int32", "time_millis"),
    "time32[ms]": ("int32", "time_millis"),
    "time64[us]": ("int64", "time_micros"),
    "time64[ns]": ("int64", "time_micros"),
}
_TEXTS = ("string", "large_string", "string_view")
_BYTES = ("binary", "large_binary", "binary_view")


def _noted(kind: str, note: Optional[str]) -> Dict[str, Any]:
    return {"type": kind} if note is None else {"type": kind, "note": note}


def decimal_json(precision: int, scale: int) -> Dict[str, Any]:
    """The type of decimals: integers where they have at most 18 digits, since those have an order."""
    said: Dict[str, Any] = {"note": "decimal", "precision": precision, "scale": scale}
    if precision <= 18:
        return {"type": "int32" if precision <= 9 else "int64", **said}
    return {"type": "fixed", "length": (10**precision - 1).bit_length() // 8 + 1, **said}


def field_json(field: Any, floats: Optional[Mapping[str, int]], path: str = "") -> JsonField:
    """A `pyarrow.Field` as a JSON field. Raises `Float` or `Schema` for a type that no column has."""
    path = f"{path}.{field.name}" if path else field.name
    rep = "optional" if field.nullable else "required"
    return {"name": field.name, "rep": rep, **_type_json(field.type, path, floats)}


def _type_json(kind: Any, path: str, floats: Optional[Mapping[str, int]]) -> Dict[str, Any]:
    name = str(kind)
    types = _pa().types
    if name in _NUMBERS:
        return _noted(*_NUMBERS[name])
    if name in _TEXTS:
        return _noted("bytes", "utf8")
    if name in _BYTES:
        return _noted("bytes", None)
    if types.is_fixed_size_binary(kind):
        return {"type": "fixed", "length": kind.byte_width}
    if types.is_timestamp(kind):
        return _noted("int64", "timestamp_millis" if kind.unit in ("s", "ms") else "timestamp_micros")
    if types.is_decimal(kind):
        return decimal_json(kind.precision, kind.scale)
    if types.is_floating(kind):
        return float_json(path, floats)
    return _nested_json(kind, path)


def float_json(path: str, floats: Optional[Mapping[str, int]]) -> Dict[str, Any]:
    """The decimals that a column of floats becomes. Raises `Float`. In nested columns there are no `floats`."""
    if floats is None:
        raise Float("no column has floats in it: cast them to integers or decimals", path)
    if path not in floats:
        raise Float(f"no column has floats: floats={{{path!r}: 2}} makes them decimals with 2 places", path)
    return decimal_json(18, floats[path])


def not_in_floats(name: str) -> Float:
    """The refusal of floats for a decimal column that `floats` does not name."""
    return Float(f"the column has decimals: floats={{{name!r}: 2}} takes floats that have at most 2 places", name)


def _nested_json(kind: Any, path: str) -> Dict[str, Any]:
    types = _pa().types
    if types.is_list(kind) or types.is_large_list(kind) or types.is_fixed_size_list(kind):
        element = {**field_json(kind.value_field, None, path), "name": "element"}
        return {"note": "list", "fields": [{"name": "list", "rep": "repeated", "fields": [element]}]}
    if types.is_map(kind):
        key = {**field_json(kind.key_field, None, path), "name": "key", "rep": "required"}
        value = {**field_json(kind.item_field, None, path), "name": "value"}
        return {"note": "map", "fields": [{"name": "key_value", "rep": "repeated", "fields": [key, value]}]}
    if types.is_struct(kind):
        return {"fields": [field_json(kind.field(at), None, path) for at in range(kind.num_fields)]}
    if types.is_dictionary(kind):
        raise Schema(f"{path}: categories are no column: cast it to {kind.value_type}")
    raise Schema(f"{path}: no column has the type {kind}: cast it to another")


def schema_json(schema: Any, floats: Mapping[str, int]) -> List[JsonField]:
    """A `pyarrow.Schema` as JSON fields."""
    if len(set(schema.names)) != len(schema.names):
        raise Schema(f"two columns have one name: {', '.join(schema.names)}")
    for name in floats:
        if name not in schema.names:
            raise Schema(f"floats: no column is named {name!r}")
        if not _pa().types.is_floating(schema.field(name).type):
            raise Schema(f"floats: the column {name} has the type {schema.field(name).type}")
    return [field_json(it, floats) for it in schema]


def type_of(field: Field) -> Any:
    """The Arrow type of the values of a field, lists of a repeated one among them."""
    pa = _pa()
    one = _one_type(field)
    return pa.list_(pa.field("element", one, nullable=False)) if field.is_repeated else one


def _one_type(field: Field) -> Any:
    pa = _pa()
    if field.meaning == "list":
        middle = field.fields[0]
        if is_bare_list(field):
            return type_of(middle)
        return pa.list_(pa.field("element", type_of(middle.fields[0]), nullable=middle.fields[0].is_optional))
    if field.meaning == "map":
        key, value = field.fields[0].fields
        return pa.map_(type_of(key), pa.field("value", type_of(value), nullable=value.is_optional))
    if field.meaning == "group":
        return pa.struct([_arrow_field(it) for it in field.fields])
    return _leaf_type(field)


def _leaf_type(field: Field) -> Any:
    pa = _pa()
    meaning = field.meaning
    if meaning == "decimal":
        precision = max(field.precision, 1)
        return pa.decimal128(precision, field.scale) if precision <= 38 else pa.decimal256(precision, field.scale)
    if meaning == "fixed":
        return pa.binary(field.length)
    kinds = {
        "boolean": pa.bool_(),
        "text": pa.string(),
        "bytes": pa.binary(),
        "date": pa.date32(),
        "time_millis": pa.time32("ms"),
        "time_micros": pa.time64("us"),
        "timestamp_millis": pa.timestamp("ms", "UTC"),
        "timestamp_micros": pa.timestamp("us", "UTC"),
    }
    return kinds[meaning] if meaning in kinds else getattr(pa, meaning.replace("_", ""))()


def _arrow_field(field: Field) -> Any:
    return _pa().field(field.name, type_of(field), nullable=field.is_optional)


# ---- from the program ----


def column_of(field: Field, values: List[Any]) -> Any:
    """An Arrow array of the values that the program prints of a column."""
    pa = _pa()
    kind = type_of(field)
    if field.meaning in TICKS and not field.is_repeated:
        return pa.array(values, pa.int32() if field.type == "int32" else pa.int64()).view(kind)
    convert = reader(field)
    return pa.array(values if convert is None else [convert(it) for it in values], kind)


def table_of_no_columns(count: int) -> Any:
    """A `pyarrow.Table` with so many rows and no column."""
    pa = _pa()
    return pa.Table.from_arrays([pa.nulls(count)], ["none"]).remove_column(0)


def table_of_rows(fields: Sequence[Field], batches: Iterator[List[Dict[str, Any]]]) -> Any:
    """A `pyarrow.Table` of rows as the program prints them."""
    if not fields:
        return table_of_no_columns(sum(len(it) for it in batches))
    pa = _pa()
    schema = pa.schema([_arrow_field(it) for it in fields])
    made = []
    for rows in batches:
        columns = [column_of(it, [row[it.name] for row in rows]) for it in fields]
        made.append(pa.RecordBatch.from_arrays(columns, schema=schema))
    return pa.Table.from_batches(made, schema)


# Numbers of these columns may be outside of their range, since the program does not look at it. pyarrow would cut them,
# or make other times of them.
_BOUNDS = {**{it: RANGES[it] for it in ("int_8", "int_16", "uint_8", "uint_16")}, **TICK_RANGES}


def table_of_files(fields: Sequence[Field], paths: Sequence[str]) -> Any:
    """A `pyarrow.Table` of Parquet files with these columns, one after another.

    None if pyarrow does not read the values of a column as the program means them: then they are taken as lines.
    """
    pa = _pa()
    schema = pa.schema([_arrow_field(it) for it in fields])
    tables = [schema.empty_table()]
    for path in paths:
        table = _table_of_file(fields, schema, path)
        if table is None:
            return None
        tables.append(table)
    return pa.concat_tables(tables)


def _table_of_file(fields: Sequence[Field], schema: Any, path: str) -> Any:
    pa, parquet = _pa(), importlib.import_module("pyarrow.parquet")
    try:
        file = parquet.ParquetFile(path)
        if not _are_bounded(file.metadata, fields):
            return None
        read = file.read()
        columns = [_as_type(read[it.name], kind) for it, kind in zip(fields, schema.types)]
        return pa.Table.from_arrays(columns, schema=schema)
    except (pa.ArrowException, OSError):
        return None


def _as_type(column: Any, kind: Any) -> Any:
    return column if column.type == kind else column.cast(kind)


def _are_bounded(metadata: Any, fields: Sequence[Field]) -> bool:
    """Whether all numbers of a file are in the range of their column, by its statistics."""
    bounds = {".".join(path): _BOUNDS.get(it.meaning) for path, it in leaves_of(fields)}
    for group in range(metadata.num_row_groups):
        for at in range(metadata.num_columns):
            chunk = metadata.row_group(group).column(at)
            found = bounds.get(chunk.path_in_schema)
            if found is not None and not _is_bounded(chunk, *found):
                return False
    return True


def _is_bounded(chunk: Any, least: int, greatest: int) -> bool:
    known = chunk.statistics
    if known is None or not known.has_min_max:
        return known is not None and known.null_count == chunk.num_values
    return bool(least <= known.min_raw and known.max_raw <= greatest)


# ---- to the program ----

# Which types of a table's columns a column takes, by what its values mean.
_FAMILIES = {
    "boolean": "boolean",
    "text": "text",
    "bytes": "bytes",
    "fixed": "bytes",
    "date": "date",
    "time_millis": "time",
    "time_micros": "time",
    "timestamp_millis": "timestamp",
    "timestamp_micros": "timestamp",
    "decimal": "decimal",
}


def _family(kind: Any) -> str:
    types = _pa().types
    tests = (
        (types.is_boolean, "boolean"),
        (types.is_integer, "integer"),
        (types.is_floating, "float"),
        (types.is_decimal, "decimal"),
        (types.is_date, "date"),
        (types.is_time, "time"),
        (types.is_timestamp, "timestamp"),
        (types.is_null, "null"),
        (types.is_fixed_size_binary, "bytes"),
    )
    for test, family in tests:
        if test(kind):
            return family
    return "text" if str(kind) in _TEXTS else "bytes" if str(kind) in _BYTES else "nested"


def table_of(data: Any) -> Any:
    """A `pyarrow.Table` of what has the rows in Arrow's form."""
    pa = _pa()
    if isinstance(data, list):
        return pa.Table.from_batches(data)
    if isinstance(data, pa.RecordBatch):
        return pa.Table.from_batches([data])
    if isinstance(data, pa.RecordBatchReader):
        return data.read_all()
    return data if isinstance(data, pa.Table) else pa.table(data)


def check_names(names: Sequence[str], fields: Sequence[Field]) -> None:
    """Raises `RowShape` for a name that is no column, and for a REQUIRED column that is absent."""
    wanted = {it.name for it in fields}
    for name in names:
        if name not in wanted:
            raise RowShape(f"no column is named {name!r}: the columns are {', '.join(it.name for it in fields)}")
    if len(set(names)) != len(names):
        raise RowShape(f"two columns have one name: {', '.join(names)}")
    for field in fields:
        if field.rep == "required" and field.name not in names:
            raise RowShape(f"{field.name}: the column is REQUIRED, and is absent")


def can_hold(fields: Sequence[Field]) -> bool:
    """Whether pyarrow is there and can write a file of these columns.

    Early versions do not write decimals as integers. REQUIRED fields inside other fields go by lines, where each value
    is looked at.
    """
    if not is_there() or any(_has_required(it) for it in fields):
        return False
    writer = inspect.signature(importlib.import_module("pyarrow.parquet").ParquetWriter)
    has_integers = "store_decimal_as_integer" in writer.parameters
    return has_integers or not any(it.meaning == "decimal" for it in fields)


def _has_required(field: Field) -> bool:
    """Whether a field in it, other than the key of a map, is REQUIRED."""
    if field.meaning == "map":
        return any(_has_required(it) for it in field.fields[0].fields) or field.fields[0].fields[1].rep == "required"
    return any(it.rep == "required" or _has_required(it) for it in field.fields)


def cast(table: Any, fields: Sequence[Field], floats: Mapping[str, int]) -> Any:
    """The columns of a table in the types and the order of a table's. Raises `RowShape` or `Float`."""
    pa = _pa()
    check_names(table.column_names, fields)
    columns = []
    for field in fields:
        if field.name in table.column_names:
            columns.append(cast_column(table[field.name], field, floats))
        else:
            columns.append(pa.chunked_array([pa.nulls(table.num_rows, type_of(field))]))
    return pa.Table.from_arrays(columns, schema=pa.schema([_arrow_field(it) for it in fields]))


def cast_column(column: Any, field: Field, floats: Mapping[str, int]) -> Any:
    """A column in the type of a table's column. No value changes. Raises `RowShape` or `Float`."""
    pa = _pa()
    family = _family(column.type)
    is_nested = bool(field.fields) or field.is_repeated
    wanted = "nested" if is_nested else _FAMILIES.get(field.meaning, "integer")
    if field.rep == "required" and column.null_count:
        raise RowShape(f"{field.name}: the column is REQUIRED, found {column.null_count} nulls")
    if _pa().types.is_dictionary(column.type):
        raise RowShape(f"{field.name}: categories are no values: cast it to {column.type.value_type}")
    if family == "float" and wanted == "decimal" and field.name in floats:
        column, family = _decimals(column, field, floats[field.name]), "decimal"
    if family == "float" and wanted == "decimal":
        raise not_in_floats(field.name)
    is_castable = family in (wanted, "null") or (family, wanted) == ("integer", "decimal")
    if not is_castable or (is_nested and not _has_shape(column.type, type_of(field))):
        raise RowShape(f"{field.name}: expected {wanted} ({type_of(field)}), found the type {column.type}")
    try:
        if family == "integer" and wanted == "decimal":
            column = column.cast(pa.decimal128(min(20 + field.scale, 38), field.scale))
        return column.cast(type_of(field))
    except (pa.ArrowInvalid, pa.ArrowNotImplementedError) as error:
        raise RowShape(f"{field.name}: {error}") from None


def _has_shape(kind: Any, wanted: Any) -> bool:
    """Whether values of a nested type are of another one, leaf by leaf."""
    types = _pa().types
    if _family(kind) == "null":
        return True
    if types.is_struct(kind) and types.is_struct(wanted):
        ones, others = ([it.field(at) for at in range(it.num_fields)] for it in (kind, wanted))
        names = [it.name for it in ones] == [it.name for it in others]
        return names and all(_has_shape(one.type, other.type) for one, other in zip(ones, others))
    if types.is_map(kind) and types.is_map(wanted):
        return _has_shape(kind.key_type, wanted.key_type) and _has_shape(kind.item_type, wanted.item_type)
    if hasattr(kind, "value_type") and hasattr(wanted, "value_type"):
        return _has_shape(kind.value_type, wanted.value_type)
    return _family(kind) == _family(wanted) != "nested"


def _decimals(column: Any, field: Field, places: int) -> Any:
    """Floats as decimals. A float of 32 bits has the digits that such a float is printed with."""
    pa = _pa()
    numpy = importlib.import_module("numpy") if pa.types.is_float32(column.type) else None
    values = []
    for number, value in enumerate(column.to_pylist(), 1):
        try:
            one = numpy.float32(value) if numpy is not None and value is not None else value
            values.append(None if value is None else decimal_of_float(one, places))
        except Misfit as misfit:
            raise RowShape(f"row {number}: {field.name}: {misfit}") from None
    try:
        return pa.chunked_array([pa.array(values, type_of(field))])
    except (pa.ArrowInvalid, pa.ArrowTypeError) as error:
        raise RowShape(f"{field.name}: {error}") from None


@contextmanager
def file_of(table: Any) -> Iterator[str]:
    """An uncompressed Parquet file with the rows of a table, while it is used."""
    parquet = importlib.import_module("pyarrow.parquet")
    options: Dict[str, Any] = {"compression": "none", "use_dictionary": False, "write_statistics": False}
    known = inspect.signature(parquet.ParquetWriter).parameters
    options.update({it: True for it in ("store_decimal_as_integer", "write_time_adjusted_to_utc") if it in known})
    with tempfile.TemporaryDirectory(prefix="pqds-") as folder:
        file = os.path.join(folder, "rows.parquet")
        parquet.write_table(table, file, store_schema=False, **options)
        yield file


def rows_of(table: Any, fields: Sequence[Field], floats: Mapping[str, int]) -> Iterator[Dict[str, Any]]:
    """The rows of a table as dicts, in the types of a table's columns."""
    for batch in cast(table, fields, floats).to_batches(max_chunksize=1 << 14):
        yield from batch.to_pylist()
