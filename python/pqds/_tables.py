"""What rows, frames and Arrow tables have in common: which of them data is, and what is made of it.

pandas and pyarrow are imported only where data is of them, or is wanted as such.
"""

from __future__ import annotations

import sys
from typing import Any, ContextManager, Dict, Iterable, Iterator, List, Mapping, Optional, Sequence

from . import _arrow, _pandas
from ._errors import Schema
from ._schema import Field, JsonField


def _is_frame(data: Any) -> bool:
    pandas = sys.modules.get("pandas")
    return pandas is not None and isinstance(data, pandas.DataFrame)


def _is_of(data: Any, *names: str) -> bool:
    """Whether data is of these classes of pyarrow, whose early versions lack the protocol of Arrow's data."""
    pyarrow = sys.modules.get("pyarrow")
    return pyarrow is not None and isinstance(data, tuple(getattr(pyarrow, it) for it in names))


def _is_arrow(data: Any) -> bool:
    if _is_of(data, "Table", "RecordBatch", "RecordBatchReader"):
        return True
    if hasattr(data, "__arrow_c_stream__") or hasattr(data, "__arrow_c_array__"):
        return _arrow.is_there()
    return isinstance(data, list) and bool(data) and _is_of(data[0], "RecordBatch")


def schema_json(given: Any, floats: Mapping[str, int]) -> List[JsonField]:
    """The columns of a schema, a frame or an Arrow table as JSON fields."""
    if _is_frame(given):
        return _pandas.schema_json(given, floats)
    if _is_of(given, "Schema"):
        return _arrow.schema_json(given, floats)
    if _is_arrow(given):
        # A reader's rows are left for the append.
        schema = given.schema if _is_of(given, "RecordBatchReader") else _arrow.table_of(given).schema
        return [{**it, "rep": "optional"} for it in _arrow.schema_json(schema, floats)]
    if isinstance(given, (list, tuple)) and all(isinstance(it, Mapping) for it in given):
        if floats:
            raise Schema("floats: JSON fields have no floats; give a column the type and note of a decimal")
        return list(given)
    raise Schema(f"expected a list of JSON fields, a pyarrow.Schema, a DataFrame or a Table, found {given!r}")


def field_json(given: Any) -> JsonField:
    """A `pyarrow.Field` as a JSON field."""
    if not _is_of(given, "Field"):
        raise Schema(f"expected a JSON field or a pyarrow.Field, found {given!r}")
    return _arrow.field_json(given, {})


def settled(data: Any) -> Any:
    """What has its rows in Arrow's form as a `pyarrow.Table`, since some of it can be read only once."""
    return _arrow.table_of(data) if not _is_frame(data) and _is_arrow(data) else data


def importable(data: Any, fields: Sequence[Field], floats: Mapping[str, int]) -> Optional[ContextManager[str]]:
    """A Parquet file with the rows, while it is used; None where rows have to be given as lines."""
    if _is_frame(data):
        _pandas.check_frame(data, fields, floats)
        if not _arrow.can_hold(fields):
            return None
        return _arrow.file_of(_pandas.arrow_table(data, fields, floats))
    if _is_arrow(data) and _arrow.can_hold(fields):
        return _arrow.file_of(_arrow.cast(data, fields, floats))
    return None


def rows_of(data: Any, fields: Sequence[Field], floats: Mapping[str, int]) -> Iterable[Mapping[str, Any]]:
    """The rows of what data is, as dicts."""
    if _is_frame(data):
        return _pandas.rows_of(data, fields)
    if _is_arrow(data):
        return _arrow.rows_of(data, fields, floats)
    if isinstance(data, (str, bytes, Mapping)):
        raise TypeError(f"expected rows, a DataFrame or a Table, found {type(data).__name__}")
    rows: Iterator[Mapping[str, Any]] = iter(data)
    return rows


def arrow_table(fields: Sequence[Field], batches: Iterator[List[Dict[str, Any]]]) -> Any:
    """A `pyarrow.Table` of rows as the program prints them."""
    return _arrow.table_of_rows(fields, batches)


def has_arrow() -> bool:
    """Whether pyarrow can be imported."""
    return _arrow.is_there()


def table_of_files(fields: Sequence[Field], paths: Sequence[str]) -> Any:
    """A `pyarrow.Table` of Parquet files, one after another, or None if pyarrow would read them as other values."""
    return _arrow.table_of_files(fields, paths)


def frame_of_arrow(fields: Sequence[Field], table: Any) -> Any:
    """A `pandas.DataFrame` of a `pyarrow.Table` with these columns."""
    return _pandas.frame_of_arrow(fields, table)


def frame(fields: Sequence[Field], batches: Iterator[List[Dict[str, Any]]]) -> Any:
    """A `pandas.DataFrame` of rows as the program prints them."""
    return _pandas.frame_of_rows(fields, batches)
