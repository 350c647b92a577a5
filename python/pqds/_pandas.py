"""Frames of pandas: their columns as those of a table, and both ways between them."""

from __future__ import annotations

import datetime
import importlib
import re
from contextlib import suppress
from itertools import repeat
from typing import Any, Dict, Iterator, List, Mapping, Sequence

from . import _arrow
from ._errors import RowShape, Schema
from ._schema import Field, JsonField
from ._values import Misfit, decimal_of_float, joined, reader, value_writer

_INTEGERS = re.compile(r"(u?)int(8|16|32|64)", re.IGNORECASE)


def _pd() -> Any:
    return importlib.import_module("pandas")


# ---- types ----


def check_index(frame: Any) -> None:
    """Raises `Schema` where a frame has an index of its own, which a table has no place for."""
    if not isinstance(frame.index, _pd().RangeIndex) or frame.index.name is not None:
        raise Schema("an index is no column: reset_index() makes it one, reset_index(drop=True) drops it")
    for name in frame.columns:
        if not isinstance(name, str):
            raise Schema(f"the names of columns are text, found {name!r}")


def schema_json(frame: Any, floats: Mapping[str, int]) -> List[JsonField]:
    """The columns of a frame as JSON fields, all OPTIONAL. Raises `Float` or `Schema` for what no column holds."""
    check_index(frame)
    if len(set(frame.columns)) != len(frame.columns):
        raise Schema(f"two columns have one name: {', '.join(frame.columns)}")
    for name in floats:
        if name not in frame.columns:
            raise Schema(f"floats: no column is named {name!r}")
        if str(frame[name].dtype).lower() not in ("float32", "float64"):
            raise Schema(f"floats: the column {name} has the type {frame[name].dtype}")
    return [{"name": it, "rep": "optional", **_column_json(frame[it], it, floats)} for it in frame.columns]


def _column_json(column: Any, name: str, floats: Mapping[str, int]) -> Dict[str, Any]:
    kind = str(column.dtype)
    integers = _INTEGERS.fullmatch(kind)
    if integers is not None:
        unsigned, bits = integers[1], integers[2]
        base = "int64" if bits == "64" else "int32"
        return {"type": base, "note": f"{unsigned}int_{bits}".lower()} if unsigned or int(bits) < 32 else {"type": base}
    if kind in ("bool", "boolean"):
        return {"type": "boolean"}
    if kind.startswith("datetime64"):
        return {"type": "int64", "note": "timestamp_micros"}
    if kind.lower() in ("float16", "float32", "float64"):
        return _arrow.float_json(name, floats)
    if kind.startswith("string") or kind == "str":
        return {"type": "bytes", "note": "utf8"}
    if kind == "category":
        raise Schema(f"{name}: categories are no column: frame[{name!r}].astype(frame[{name!r}].cat.categories.dtype)")
    if kind == "object":
        return _object_json(column, name)
    raise Schema(f"{name}: no column has the type {kind}: cast it to another")


def _are_texts(column: Any) -> bool:
    """Whether a column has texts and nulls, and nothing else."""
    return bool(_pd().api.types.infer_dtype(column, skipna=True) == "string")


def _object_json(column: Any, name: str) -> Dict[str, Any]:
    """The type of a column of Python's objects, if they are all of one."""
    if _are_texts(column):
        return {"type": "bytes", "note": "utf8"}
    kinds = {type(it) for it in column[column.notna()]}
    if len(kinds) == 1:
        kind = kinds.pop()
        if issubclass(kind, str):
            return {"type": "bytes", "note": "utf8"}
        if issubclass(kind, bytes):
            return {"type": "bytes"}
        if issubclass(kind, datetime.datetime):
            return {"type": "int64", "note": "timestamp_micros"}
        if issubclass(kind, datetime.date):
            return {"type": "int32", "note": "date"}
        if issubclass(kind, datetime.time):
            return {"type": "int64", "note": "time_micros"}
        if issubclass(kind, bool):
            return {"type": "boolean"}
        found = kind.__name__
    else:
        found = " and ".join(sorted(it.__name__ for it in kinds)) or "only nulls"
    raise Schema(f"{name}: the type of its column is not known by its values ({found}): give create the schema")


# ---- to the program ----


def check_frame(frame: Any, fields: Sequence[Field], floats: Mapping[str, int]) -> None:
    """Raises `Schema`, `RowShape` or `Float` where a frame's columns cannot be those of a table."""
    check_index(frame)
    _arrow.check_names(list(frame.columns), fields)
    for field in fields:
        if field.name not in frame.columns:
            continue
        kind = str(frame[field.name].dtype)
        if kind == "category":
            raise RowShape(f"{field.name}: categories are no values: cast it to the type of its categories")
        if kind.lower().startswith("float") and field.meaning == "decimal" and field.name not in floats:
            raise _arrow.not_in_floats(field.name)


def _is_whole(field: Field) -> bool:
    """Whether a column has integers."""
    return field.meaning in ("int32", "int64") or field.meaning.startswith(("int_", "uint_"))


def _values(column: Any, field: Field) -> List[Any]:
    """The values of a frame's column, null where pandas has none of its kinds of null."""
    values = list(column.to_numpy()) if str(column.dtype) == "float32" else column.tolist()
    absent = column.isna().tolist()
    if _is_whole(field) and str(column.dtype) == "float64":
        # pandas has integers with nulls as floats; those that are whole are the same numbers.
        values = [int(it) if not gone and it.is_integer() else it for it, gone in zip(values, absent)]
    return [None if gone else it for it, gone in zip(values, absent)]


def rows_of(frame: Any, fields: Sequence[Field]) -> Iterator[Dict[str, Any]]:
    """The rows of a frame as dicts."""
    chosen = [it for it in fields if it.name in frame.columns]
    names = [it.name for it in chosen]
    step = 1 << 14
    for begin in range(0, len(frame), step):
        part = frame.iloc[begin : begin + step]
        columns = [_values(part[it.name], it) for it in chosen]
        for values in zip(*columns) if columns else repeat((), len(part)):
            yield dict(zip(names, values))


def arrow_table(frame: Any, fields: Sequence[Field], floats: Mapping[str, int]) -> Any:
    """A `pyarrow.Table` of a frame, in the types and the order of a table's columns."""
    pa = importlib.import_module("pyarrow")
    columns, names = [], []
    for field in fields:
        if field.name in frame.columns:
            columns.append(_arrow_column(pa, frame[field.name], field, floats))
            names.append(field.name)
    table = pa.Table.from_arrays(columns, names) if columns else _arrow.table_of_no_columns(len(frame))
    return _arrow.cast(table, fields, floats)


def _arrow_column(pa: Any, column: Any, field: Field, floats: Mapping[str, int]) -> Any:
    """An Arrow array of a frame's column. Objects are looked at one by one, since pyarrow casts some of them."""
    kind = str(column.dtype)
    if kind != "object" and not kind.startswith("float"):
        return pa.array(column, from_pandas=True)
    # All at once, where pyarrow says no less than a look at each. If it refuses one, the look at each says which.
    with suppress(UnicodeError, pa.ArrowException):
        if field.meaning == "text" and _are_texts(column):
            return pa.array(column, pa.string(), from_pandas=True)
        if kind == "float64" and _is_whole(field):
            return pa.array(column, from_pandas=True).cast(_arrow.type_of(field))
    convert = value_writer(field)
    places = floats.get(field.name)
    printed = []
    for number, value in enumerate(_values(column, field), 1):
        try:
            one = value if places is None or value is None else decimal_of_float(value, places)
            printed.append(None if one is None else convert(one))
        except Misfit as misfit:
            raise RowShape(f"row {number}: {joined(field.name, misfit)}") from None
    return _arrow.column_of(field, printed)


# ---- from the program ----


def _frame_of_no_columns(count: int) -> Any:
    """A frame with so many rows and no column."""
    pandas = _pd()
    return pandas.DataFrame(index=pandas.RangeIndex(count))


def frame_of_rows(fields: Sequence[Field], batches: Iterator[List[Dict[str, Any]]]) -> Any:
    """A frame of rows as the program prints them."""
    if not fields:
        return _frame_of_no_columns(sum(len(it) for it in batches))
    pandas = _pd()
    parts: List[List[Any]] = [[] for _ in fields]
    for rows in batches:
        for part, field in zip(parts, fields):
            part.append(_array(field, [row[field.name] for row in rows]))
    columns = {
        field.name: part[0] if len(part) == 1 else pandas.concat(part or [_array(field, [])], ignore_index=True)
        for field, part in zip(fields, parts)
    }
    return pandas.DataFrame(columns)


def frame_of_arrow(fields: Sequence[Field], table: Any) -> Any:
    """A frame of a `pyarrow.Table` with these columns, in the types of `frame_of_rows`."""
    if not fields:
        return _frame_of_no_columns(table.num_rows)
    return _pd().DataFrame({it.name: _series_of_arrow(it, table[it.name]) for it in fields})


def _series_of_arrow(field: Field, column: Any) -> Any:
    pandas = _pd()
    if field.is_repeated or field.fields:
        return pandas.Series(column.to_pylist(), dtype=object)
    if field.meaning.startswith("timestamp_"):
        unit = "ms" if field.meaning == "timestamp_millis" else "us"
        return column.to_pandas().astype(f"datetime64[{unit}, UTC]")
    if field.meaning == "text":
        return column.to_pandas().astype(_text_type())
    if field.meaning == "boolean" or "int" in field.meaning:
        kind = pandas.api.types.pandas_dtype(_number_type(field))
        return pandas.Series(kind.__from_arrow__(column)) if field.is_optional else column.to_pandas().astype(kind)
    return column.to_pandas(date_as_object=True)


def _array(field: Field, values: List[Any]) -> Any:
    """A series of the values that the program prints of a column."""
    pandas = _pd()
    if field.is_repeated or field.fields:
        convert = reader(field)
        return pandas.Series([convert(it) if convert else it for it in values], dtype=object)
    if field.meaning.startswith("timestamp_"):
        return _timestamps(values, "ms" if field.meaning == "timestamp_millis" else "us")
    if field.meaning == "text":
        return pandas.Series(values, dtype=_text_type())
    if field.meaning == "boolean" or "int" in field.meaning:
        return pandas.Series(values, dtype=_number_type(field))
    convert = reader(field)
    return pandas.Series([convert(it) if convert else it for it in values], dtype=object)


def _text_type() -> Any:
    """The type that pandas has for text by itself: object, or str from version 3 on."""
    return _pd().Series(["a"]).dtype


def _number_type(field: Field) -> str:
    if field.meaning == "boolean":
        return "boolean" if field.is_optional else "bool"
    name = field.meaning.replace("_", "")
    if field.is_optional:
        return name.replace("uint", "UInt") if name.startswith("u") else name.replace("int", "Int")
    return name


def _timestamps(values: List[Any], unit: str) -> Any:
    numpy, pandas = importlib.import_module("numpy"), _pd()
    absent = numpy.iinfo("int64").min
    counts = numpy.array([absent if it is None else it for it in values], dtype="int64")
    return pandas.Series(counts.view(f"datetime64[{unit}]")).dt.tz_localize("UTC")
