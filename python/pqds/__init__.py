"""Tables of nested rows in folders of Parquet files, by the program `pqds`.

    table = pqds.create("orders", [{"name": "n", "rep": "required", "type": "int64"}])
    table.append([{"n": 1}, {"n": 2}])
    list(table.rows([("n", ">", 1)]))

The program does all of it, in a process for each call. It is the one that the variable PQDS names, else `pqds` on the
PATH. This module needs nothing else than Python 3.9; pandas and pyarrow are used where data is of them.

A call that is refused raises `Refused`, by one of its classes: `NoTable`, `RowShape`, and so on. `write` and
`ParquetFile` are in the words of fastparquet.
"""

from . import dask
from ._dataset import Dataset, Group, Whole, create, file_schema, open
from ._errors import (
    REFUSALS,
    Closed,
    Codec,
    Device,
    Encoding,
    Exists,
    Float,
    Full,
    InDoubt,
    Int96,
    Interrupted,
    Key,
    Levels,
    Limit,
    Magic,
    Memory,
    NoColumn,
    NoCursor,
    NoGroup,
    NoJob,
    NoProgram,
    NoTable,
    Page,
    PqdsError,
    Refused,
    RowShape,
    Schema,
    Script,
    Stale,
    Thrift,
    Truncated,
    Unordered,
    Utf8,
    Value,
    WrongCall,
)
from ._fastparquet import ParquetFile, write
from ._files import decode, encode, inspect
from ._filters import Filters
from ._program import program
from ._schema import JsonField

__version__ = "0.2.0"

__all__ = [
    "REFUSALS",
    "Closed",
    "Codec",
    "Dataset",
    "Device",
    "Encoding",
    "Exists",
    "Filters",
    "Float",
    "Full",
    "Group",
    "InDoubt",
    "Int96",
    "Interrupted",
    "JsonField",
    "Key",
    "Levels",
    "Limit",
    "Magic",
    "Memory",
    "NoColumn",
    "NoCursor",
    "NoGroup",
    "NoJob",
    "NoProgram",
    "NoTable",
    "Page",
    "ParquetFile",
    "PqdsError",
    "Refused",
    "RowShape",
    "Schema",
    "Script",
    "Stale",
    "Thrift",
    "Truncated",
    "Unordered",
    "Utf8",
    "Value",
    "Whole",
    "WrongCall",
    "create",
    "dask",
    "decode",
    "encode",
    "file_schema",
    "inspect",
    "open",
    "program",
    "write",
]
