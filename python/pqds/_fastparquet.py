"""The calls of fastparquet, for programs that move from it. docs/PYTHON.md says what is the same, and what differs."""

from __future__ import annotations

from typing import TYPE_CHECKING, Any, Dict, Iterable, Iterator, List, Mapping, Optional, Sequence, Tuple, Union

from . import _pandas, _tables
from ._dataset import Dataset, Group, create, names_of, prepared
from ._files import inspect
from ._filters import Filters
from ._options import FileOptions
from ._program import PathLike
from ._schema import fields_of, leaves_of, with_reps
from ._values import bound_reader

if TYPE_CHECKING:
    from typing_extensions import Unpack


def write(
    path: PathLike,
    data: Any,
    partition_on: Union[str, Sequence[str]] = (),
    append: bool = False,
    *,
    write_index: Optional[bool] = None,
    required: Sequence[str] = (),
    floats: Optional[Mapping[str, int]] = None,
    **files: Unpack[FileOptions],
) -> int:
    """Writes a frame, or a `pyarrow.Table`, as a table in a folder, and returns how many rows.

    `partition_on` are the key columns. With `append` the rows come to the table that is there; without it a new table
    is made first, and `Exists` is raised if there is one. `write_index=True` makes the index of a frame a column,
    `False` leaves it out; without a word an index of its own is an error. `required` and `floats` are those of
    `pqds.create`, the other options those of `pqds.open`.

    Raises what `create` and `append` raise, and `ValueError` if `append` is neither True nor False. The rows are looked
    at before the table is made. If the program refuses one all the same, as for a key that cannot name a folder, the
    new table stays, without rows.
    """
    if not isinstance(append, bool):
        raise ValueError(f"append: expected True or False, found {append!r}")
    if write_index is not None:
        data = data.reset_index(drop=not write_index)
    if append:
        return Dataset(path, **files).append(data, floats=floats)
    keys = names_of(partition_on)
    said = with_reps(_tables.schema_json(data, floats or {}), keys, required)
    with prepared(data, said, floats or {}, is_whole=True) as rows:
        return create(path, said, keys, **files)._put(rows)


# The words of fastparquet for what is known of a chunk, and the program's.
_STATISTICS = {"min": "min", "max": "max", "null_count": "nulls", "distinct_count": "distinct"}


class ParquetFile:
    """A table, in the words of fastparquet's `ParquetFile`. `dataset` is the same table in the words of `pqds`."""

    def __init__(self, path: PathLike) -> None:
        self.dataset = Dataset(path)
        self._fields = fields_of(self.dataset.schema())

    def __repr__(self) -> str:
        return f"pqds.ParquetFile({self.dataset.path!r})"

    @property
    def columns(self) -> List[str]:
        """The names of the columns that are no keys."""
        keys = self.dataset.keys()
        return [it.name for it in self._fields if it.name not in keys]

    @property
    def dtypes(self) -> Dict[str, Any]:
        """The type of each column in a frame, keys among them."""
        return dict(_tables.frame(self._fields, iter(())).dtypes)

    @property
    def info(self) -> Dict[str, Any]:
        """The name, the columns, the keys, and how many rows and groups there are."""
        groups = self.dataset.groups()
        return {
            "name": self.dataset.path,
            "columns": self.columns,
            "partitions": list(self.dataset.keys()),
            "rows": sum(it.rows for it in groups),
            "row_groups": len(groups),
        }

    @property
    def row_groups(self) -> List[Group]:
        """The groups of rows, in the order of the rows."""
        return self.dataset.groups()

    @property
    def statistics(self) -> Dict[str, Dict[str, List[Any]]]:
        """`min`, `max`, `null_count` and `distinct_count` of each column that is no key.

        Each is a list with a value for each group; what is not known is None. A nested column is named by the names on
        its path, with dots between them.
        """
        groups = inspect(f"{self.dataset.path}/_metadata")["groups"]
        keys = self.dataset.keys()
        found: Dict[str, Dict[str, List[Any]]] = {it: {} for it in _STATISTICS}
        for path, field in leaves_of([it for it in self._fields if it.name not in keys]):
            name = ".".join(path)
            convert = bound_reader(field)
            chunks = [
                {it["column"]: it["statistics"] or {} for it in group["chunks"]}.get(name, {}) for group in groups
            ]
            for word, printed in _STATISTICS.items():
                values = [it.get(printed) for it in chunks]
                is_bound = word in ("min", "max")
                found[word][name] = [convert(it) if is_bound and it is not None else it for it in values]
        return found

    def to_pandas(self, columns: Optional[Sequence[str]] = None, filters: Optional[Filters] = None) -> Any:
        """The rows that satisfy the filters as a frame. The filters hold for rows, not for whole groups."""
        return self.dataset.to_pandas(filters, columns)

    def head(self, nrows: int, columns: Optional[Sequence[str]] = None) -> Any:
        """The first rows as a frame."""
        return self.dataset.to_pandas(columns=columns, limit=nrows)

    def count(self, filters: Optional[Filters] = None) -> int:
        """How many rows satisfy the filters, or how many there are."""
        return self.dataset.count(filters)

    def iter_row_groups(
        self, filters: Optional[Filters] = None, columns: Optional[Sequence[str]] = None
    ) -> Iterator[Any]:
        """A frame for each group, of its rows that satisfy the filters; a group without such rows is left out.

        The rows of all groups are in the program's memory at once.
        """
        wanted = self.dataset._selection(filters, columns)
        for rows in self.dataset._by_groups(wanted):
            yield _pandas.frame_of_rows(wanted.fields, iter([rows]))

    def remove_row_groups(self, rgs: Union[int, Group, Iterable[Union[int, Group]]]) -> int:
        """Removes groups, or the groups of these numbers, in one commit, and returns how many rows."""
        return self.dataset.remove(groups=[rgs] if isinstance(rgs, (int, Group)) else rgs)

    def write_row_groups(self, data: Any, *, floats: Optional[Mapping[str, int]] = None) -> int:
        """Appends rows in one commit, and returns how many."""
        return self.dataset.append(data, floats=floats)


__all__: Tuple[str, ...] = ("ParquetFile", "write")
