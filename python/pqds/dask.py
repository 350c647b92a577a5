"""A table as a frame of Dask, whose workers read the files of the table while no call removes one."""

from __future__ import annotations

import datetime
import fcntl
import functools
import importlib
import operator
import os
from contextlib import contextmanager
from dataclasses import dataclass
from typing import Any, Iterator, List, Optional, Sequence, Tuple

from . import _arrow, _pandas
from ._dataset import Dataset
from ._files import inspect
from ._filters import Filters, filter_json, is_term
from ._program import PathLike, readers_lock
from ._schema import Field, fields_of, leaf_at


@contextmanager
def reading(
    path: PathLike,
    filters: Optional[Filters] = None,
    columns: Optional[Sequence[str]] = None,
) -> Iterator[Any]:
    """A `dask.dataframe` of the rows that satisfy the filters, with the types that `pqds.Dataset.to_pandas` gives.

    Compute it inside the `with` block: until the block ends, a reader's lock keeps the files of the table, also those
    that a change replaces. Changes made meanwhile are not seen. The lock guards one machine, not workers on others. A
    partition is a file of the table, which a worker reads by pyarrow; partitions are in the order of the table.

    Needs Dask and pyarrow. Raises `NoTable`, and `NoColumn`, `RowShape`, `Unordered` or `Script` for the filters.
    """
    table = Dataset(path)
    while True:
        # These calls are made without the lock, which a command that changes the table may have.
        fields, keys = fields_of(table.schema()), table.keys()
        filter_json(fields, filters)
        with _reader_lock(table.path):
            root = inspect(f"{table.path}/_metadata")
            names = [it["name"] for it in root["schema"] if it["depth"] == 0]
            # Otherwise a column was added between the two.
            if names == [it.name for it in fields if it.name not in keys]:
                yield _frame(table, fields, [it["chunks"][0]["file"] for it in root["groups"]], filters, columns)
                return


@contextmanager
def _reader_lock(folder: str) -> Iterator[None]:
    """The lock by which commands that read keep the files that they read."""
    while True:
        path = readers_lock(folder) or folder
        handle = os.open(path, os.O_RDONLY)
        try:
            fcntl.flock(handle, fcntl.LOCK_SH)
            if os.path.samestat(os.fstat(handle), os.stat(path)):
                yield
                return
        finally:
            os.close(handle)


def _frame(table: Dataset, fields: Sequence[Field], files: List[str], filters: Any, columns: Any) -> Any:
    """A frame of Dask with a partition for each file.

    Dask's own `read_parquet` of the same files does not give the table: it leaves out a column that the first file
    lacks, and ends the process with a filter on it; makes floats of integers with nulls; fails with `!=` and `not in`
    on a file of nulls; and puts the files in the order of their names.
    """
    frames = importlib.import_module("dask.dataframe")
    chosen = tuple(fields) if columns is None else tuple(leaf_at(fields, it) for it in columns)
    none = _pandas.frame_of_rows(chosen, iter(()))
    names = table.keys()
    keys = tuple(it for it in fields if it.name in names)
    part = Part(os.path.realpath(table.path), tuple(fields), keys, chosen, _ands(filters))
    # Otherwise Dask makes texts of all objects, dates and decimals too.
    with importlib.import_module("dask").config.set({"dataframe.convert-string": False}):
        return frames.from_map(part.read, files, meta=none) if files else frames.from_pandas(none, npartitions=1)


@dataclass(frozen=True)
class Part:
    """How a worker reads a file of a table."""

    folder: str
    fields: Tuple[Field, ...]
    keys: Tuple[Field, ...]
    chosen: Tuple[Field, ...]
    ands: Any

    def read(self, file: str) -> Any:
        """The rows of a file that satisfy the filters, as a frame of pandas."""
        pa, sets = importlib.import_module("pyarrow"), importlib.import_module("pyarrow.dataset")
        rows = sets.dataset(
            [os.path.join(self.folder, file)],
            schema=pa.schema([(it.name, _arrow.type_of(it)) for it in self.fields]),
            format="parquet",
            partitioning=sets.partitioning(
                pa.schema([(it.name, _arrow.type_of(it)) for it in self.keys]), flavor="hive"
            ),
            partition_base_dir=self.folder,
        )
        found = rows.to_table([it.name for it in self.chosen], filter=self.expression())
        return _pandas.frame_of_arrow(self.chosen, found)

    def expression(self) -> Any:
        """The filters as pyarrow takes them, or None for every row."""
        if not self.ands:
            return None
        return functools.reduce(operator.or_, [self._all(terms) for terms in self.ands])

    def _all(self, terms: Any) -> Any:
        compute = importlib.import_module("pyarrow.compute")
        return functools.reduce(operator.and_, [self._term(*it) for it in terms], compute.scalar(True))

    def _term(self, column: Any, word: str, value: Any) -> Any:
        """A term that does not hold for a null."""
        pa, compute = importlib.import_module("pyarrow"), importlib.import_module("pyarrow.compute")
        kind = _arrow.type_of(leaf_at(self.fields, column))
        field = compute.field(column) if isinstance(column, str) else compute.field(*column)
        if word in ("in", "not in"):
            found = field.isin(pa.array([_scalar_value(it) for it in value], kind))
            return found & field.is_valid() if word == "in" else ~found & field.is_valid()
        return _COMPARE[word](field, pa.scalar(_scalar_value(value), kind))


_COMPARE = {
    "==": operator.eq,
    "=": operator.eq,
    "!=": operator.ne,
    "<": operator.lt,
    "<=": operator.le,
    ">": operator.gt,
    ">=": operator.ge,
}


def _ands(filters: Optional[Filters]) -> Any:
    """The filters as a list of lists of terms."""
    if not filters:
        return ()
    return [filters] if all(is_term(it) for it in filters) else filters


def _scalar_value(value: Any) -> Any:
    """A value as pyarrow takes it: a datetime without a time zone is one in UTC."""
    if isinstance(value, datetime.datetime) and value.tzinfo is None:
        return value.replace(tzinfo=datetime.timezone.utc)
    return value
