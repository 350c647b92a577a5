"""A table in a folder: the commands of the program as methods."""

from __future__ import annotations

import json
import os
import re
import sys
import tempfile
from contextlib import contextmanager
from dataclasses import dataclass
from typing import (
    TYPE_CHECKING,
    Any,
    Dict,
    Iterable,
    Iterator,
    List,
    Mapping,
    NamedTuple,
    Optional,
    Sequence,
    Tuple,
    Union,
)

from . import _tables
from ._errors import Exists, Limit, NoTable, PqdsError, Refused, Schema, WrongCall
from ._filters import Filters, filter_json, filter_text
from ._options import FileOptions, file_words, limit_words
from ._program import FIND_OUT, PathLike, call, lines, path_word
from ._schema import Field, JsonField, fields_of, leaf_at, schema_text, with_reps
from ._values import RowReader, RowWriter, raise_refused, raw_parts

if TYPE_CHECKING:
    from typing_extensions import Unpack

# A word of a call has at most 131,071 bytes on Linux; a longer filter goes by a file.
_LONGEST_WORD = 100_000
# All words of a call and the environment have at most 2 MiB; so many numbers of groups fit, and names of so many bytes.
_MOST_WORDS = 50_000
_MOST_BYTES = 1_500_000
# So many rows without columns are given at a time.
_MOST_EMPTY = 1 << 16


class Whole(NamedTuple):
    """How much an undamaged table has: rows, groups, and bytes in the columns."""

    rows: int
    groups: int
    bytes: int


@dataclass(frozen=True)
class Group:
    """A group of rows, which is one part file.

    `number` is in the name of the file and is never given to another group. `bytes` is the size of its columns. `key`
    has the value of each key column.
    """

    number: int
    rows: int
    bytes: int
    key: Dict[str, Any]


class Dataset:
    """A table in a folder. `pqds.open` and `pqds.create` make one.

    Each method that changes the table, except `run`, is one commit: all of it is made, or nothing. A refusal is an
    exception of `pqds.Refused`, and leaves the table as it was. After `pqds.InDoubt` the change is made as a whole or
    not at all.

    Nothing is kept open between the calls, so an object can be used by several threads and be sent to other processes.
    """

    def __init__(self, path: PathLike, *, wait: Union[bool, int] = True, **files: Unpack[FileOptions]) -> None:
        self.path = path_word(path)
        self._patience = _wait_words(wait)
        self._file_words = file_words(files)
        self._key_names: Optional[Tuple[str, ...]] = None

    def __repr__(self) -> str:
        return f"pqds.open({self.path!r})"

    # ---- what the table is ----

    def schema(self) -> List[JsonField]:
        """The columns, keys among them, as the JSON fields that `pqds.create` takes."""
        return list(json.loads(self._call("schema")))

    def keys(self) -> Tuple[str, ...]:
        """The names of the key columns, in the order of the folders."""
        if self._key_names is None:
            said = json.loads(call("inspect", ["--json", "--", f"{self.path}/_metadata"]))
            pairs = [it["value"] for it in said["key_values"] if it["key"] == "pqds.keys"]
            if not pairs:
                raise NoTable(f"{self.path}/_metadata names no keys")
            self._key_names = tuple(it["name"] for it in json.loads(pairs[0]))
        return self._key_names

    def count(self, filters: Optional[Filters] = None) -> int:
        """How many rows there are, or how many satisfy the filters.

        Without filters no part file is read. Raises `NoColumn`, `RowShape`, `Unordered` or `Script` for the filters.
        """
        with _filter_words(self._filter(filters) or None) as words:
            return int(self._call("count", words))

    def groups(self) -> List[Group]:
        """The groups of rows, in the order of the rows. No part file is read."""
        keys = self.keys()
        printed = [json.loads(it) for some in lines("groups", self._words()) for it in some]
        return [Group(it["number"], it["rows"], it["bytes"], dict(zip(keys, it["key"]))) for it in printed]

    def check(self) -> Whole:
        """Reads every part file, and returns how much there is if all of it is as the table says.

        Files that the table does not name are no fault: rows that are being read may still need them. `inspect` names
        them. Raises `Refused`, of the first damaged file; its `reason` has a line for each finding.
        """
        said = self._call("check").decode()
        found = re.match(r"ok: rows ([\d,]+), groups ([\d,]+), bytes ([\d,]+)\n", said)
        if found is None:
            raise WrongCall(f"pqds check printed {said!r}")
        return Whole(*(int(it.replace(",", "")) for it in found.groups()))

    def inspect(self, min_rows: Optional[int] = None) -> str:
        """A text that says what the table has: columns, keys, sizes, and files that it does not name.

        `min_rows` is for its line on small groups.
        """
        options = [] if min_rows is None else ["--min-rows", str(min_rows)]
        return self._call("inspect", options).decode()

    # ---- rows out ----

    def rows(
        self,
        filters: Optional[Filters] = None,
        columns: Optional[Sequence[str]] = None,
        limit: Optional[int] = None,
        *,
        raw: bool = False,
    ) -> Iterator[Dict[str, Any]]:
        """The rows that satisfy the filters, one after another, as dicts.

        They come in the order of their keys, and within a key as they were appended, and are read as they are used.
        They are those of the table when the first of them is asked for: changes made meanwhile, also by the loop over
        the rows, are not seen.

        `columns` are the names of the columns wanted, all without it. `limit` is the greatest number of rows; groups
        after these rows are not read. With `raw` the values are as the program prints them: dates and times as
        numbers, bytes as hexadecimal digits.

        Raises as `count` does, and `Refused` for a damaged part file, after the rows before it.
        """
        wanted = self._selection(filters, columns)
        if raw:
            return (row for some in self._batches(wanted, limit) for row in some)
        of_row = RowReader(wanted.fields).row
        return (of_row(row) for some in self._batches(wanted, limit) for row in some)

    def to_arrow(
        self,
        filters: Optional[Filters] = None,
        columns: Optional[Sequence[str]] = None,
        limit: Optional[int] = None,
    ) -> Any:
        """The rows as a `pyarrow.Table`, with the types of the columns. Takes and raises what `rows` does.

        The program writes the rows as Parquet files in a temporary folder, which pyarrow reads. With `columns=[]` the
        table has the rows, and no column.
        """
        wanted = self._selection(filters, columns)
        table = self._by_files(wanted, limit)
        return _tables.arrow_table(wanted.fields, self._batches(wanted, limit)) if table is None else table

    def to_pandas(
        self,
        filters: Optional[Filters] = None,
        columns: Optional[Sequence[str]] = None,
        limit: Optional[int] = None,
    ) -> Any:
        """The rows as a `pandas.DataFrame`. Takes and raises what `rows` does.

        OPTIONAL integers and booleans have pandas' nullable types, timestamps are in UTC, and dates, times, decimals,
        bytes, lists, maps and groups are Python's objects. With pyarrow the rows come as they do for `to_arrow`. With
        `columns=[]` the frame has an index of the rows, and no column.
        """
        wanted = self._selection(filters, columns)
        table = self._by_files(wanted, limit)
        if table is None:
            return _tables.frame(wanted.fields, self._batches(wanted, limit))
        return _tables.frame_of_arrow(wanted.fields, table)

    # ---- changes ----

    def append(
        self,
        data: Any,
        unless: Optional[Filters] = None,
        *,
        floats: Optional[Mapping[str, int]] = None,
        raw: bool = False,
    ) -> int:
        """Appends rows in one commit, and returns how many.

        With `unless`, a filter, nothing is appended if a row of the table satisfies it; then 0 is returned. No other
        change comes between the two. So a load can be made again if only its own rows satisfy the filter.

        `data` is a DataFrame, a `pyarrow.Table`, record batches, or dicts: a list or any iterable, which is read as the
        program takes it. Columns are taken by their names; an absent OPTIONAL one is null. `floats` names columns whose
        floats are taken as decimals, with so many places. With `raw` the dicts are as the program prints rows.

        Raises `RowShape` for a row that is none of the table, `Float` for a column of a DataFrame or Table with floats
        that is not in `floats`, `NoColumn` or `Schema` for a name in `floats` that is no decimal column, and `Key`; as
        `count` does for `unless`. If `data` raises an exception, nothing is appended.
        """
        if raw:
            return self._put(Prepared("append", ["-"], raw_parts(data)), self._filter(unless))
        said = self.schema()
        wanted = _filter_of(said, unless)
        with prepared(data, said, floats or {}) as rows:
            return self._put(rows, wanted)

    def import_files(self, files: Union[PathLike, Iterable[PathLike]], unless: Optional[Filters] = None) -> int:
        """Appends the rows of Parquet files, and returns how many.

        All of them come in, in the order of the files and in one commit, or none. The columns of a file are those of
        the table, with the keys, in their order. `unless` is that of `append`.

        Raises `Schema` for other columns, `Codec` for compressed files, `Float` and `Int96` for such columns; of
        several files the `reason` names the one. Raises `Limit` for more files than one call can name.
        """
        paths = [files] if isinstance(files, (str, os.PathLike)) else files
        names = [path_word(it) for it in paths]
        wanted = self._filter(unless)
        if not names:
            return 0
        if sum(len(os.fsencode(it)) + 9 for it in names) > _MOST_BYTES:
            raise Limit(f"the names of {len(names)} files are too long for one call: import them in several calls")
        return self._put(Prepared("import", names, None), wanted)

    def remove(self, filters: Optional[Filters] = None, *, groups: Optional[Iterable[Union[int, Group]]] = None) -> int:
        """Removes the rows that satisfy the filters, or whole groups, and returns how many rows.

        `filters=[]` removes every row. Raises as `count` does, and `NoGroup`.
        """
        if (filters is None) == (groups is None):
            raise TypeError("remove takes filters or groups")
        if groups is not None:
            numbers = _numbers(groups)
            if len(numbers) > _MOST_WORDS:
                return self._remove_by_script([*map(int, numbers)])
            return self._done("remove", self._file_words, numbers) if numbers else 0
        with _filter_words(self._filter(filters)) as words:
            return self._done("remove", [*self._file_words, *words])

    def rewrite(
        self,
        *,
        min_rows: Optional[int] = None,
        groups: Optional[Iterable[Union[int, Group]]] = None,
        all: bool = False,  # noqa: A002
    ) -> int:
        """Writes groups anew, joins those of one key that are next to each other, and returns how many rows.

        `min_rows` takes the groups with fewer rows that have such a neighbour. `all` takes every group: then each file
        has all columns, also those added later, and the options of this object. The rows and their order stay the same.
        Raises `NoGroup`, and `Limit` for more than 50,000 groups by their numbers.
        """
        if [min_rows is not None, groups is not None, all].count(True) != 1:
            raise TypeError("rewrite takes min_rows, groups or all=True")
        if groups is not None:
            numbers = _numbers(groups)
            if len(numbers) > _MOST_WORDS:
                raise Limit(f"{len(numbers)} groups are more than the {_MOST_WORDS} of one call: use min_rows or all")
            return self._done("rewrite", self._file_words, numbers) if numbers else 0
        if all:
            return self._done("rewrite", [*self._file_words, "--all"])
        return self._done("rewrite", [*self._file_words, "--min-rows", str(min_rows)])

    def add_column(self, column: Any) -> None:
        """Puts an OPTIONAL column at the end. Rows that are there are null in it; their files stay as they are.

        `column` is a JSON field, such as `{"name": "note", "type": "bytes", "note": "utf8"}`, or a `pyarrow.Field`.
        Raises `Schema` for a name that is taken, or a column that is not OPTIONAL.
        """
        said = column if isinstance(column, Mapping) else _tables.field_json(column)
        self._done("add-column", [], ["-"], [schema_text([{"rep": "optional", **said}])])

    def run(self, calls: Iterable[Mapping[str, Any]], stop: bool = True) -> List[Dict[str, Any]]:
        """Makes the calls of a script on one opening of the table, and returns the answer of each.

        A call is a dict, such as `{"call": "count", "filter": [("n", ">", 1)]}`; `pqds run --help` has all of them.
        Values of rows and filters are those of Python, and so are the rows of a batch. No other command changes the
        table between the calls.

        The first call that is refused ends the script, and raises its refusal. The calls before it are made, each is a
        commit of its own; `answers` of the exception has their answers. With `stop=False` the calls after it are made
        too, and its answer has `refused`, the number, and `name`.

        Raises `RowShape`, `NoColumn`, `Unordered`, `Schema` or `Script` if a call is none; then no call is made.
        """
        fields = list(fields_of(self.schema()))
        made = [_call_json(fields, it) for it in calls]
        answers: List[Dict[str, Any]] = []
        try:
            for line in self._script_lines(made, ["--stop"] if stop else []):
                answers.append(_answer(fields, json.loads(line)))
        except Refused as refused:
            refused.answers = [it for it in answers if "refused" not in it]
            raise
        return answers

    # ---- the program ----

    def _words(self, options: Sequence[str] = (), more: Sequence[str] = ()) -> List[str]:
        return [*self._patience, *options, "--", self.path, *more]

    def _call(self, command: str, options: Sequence[str] = (), more: Sequence[str] = ()) -> bytes:
        return call(command, self._words(options, more))

    def _done(
        self,
        command: str,
        options: Sequence[str],
        more: Sequence[str] = (),
        given: Optional[Iterable[bytes]] = None,
    ) -> int:
        """Makes a change, and returns the number that the program printed."""
        said = call(command, self._words(options, more), given).decode()
        if not said.startswith("done "):
            raise WrongCall(f"pqds {command} printed {said!r}")
        return int(said[5:])

    def _remove_by_script(self, numbers: Sequence[int]) -> int:
        """Removes groups, more than the words of a call can name."""
        printed = list(self._script_lines([{"call": "remove_groups", "numbers": numbers}]))
        answer = json.loads(printed[0])
        raise_refused(answer, FIND_OUT["remove"])
        return int(answer["done"])

    def _put(self, rows: Prepared, unless: Optional[List[Any]] = None) -> int:
        with _filter_words(unless, "--unless") as words:
            return self._done(rows.command, [*self._file_words, *words], rows.files, rows.parts)

    def _script_lines(self, calls: Sequence[Mapping[str, Any]], options: Sequence[str] = ()) -> Iterator[bytes]:
        text = "\n".join(json.dumps(it, ensure_ascii=False, separators=(",", ":")) for it in calls)
        for some in lines("run", self._words([*self._file_words, *options], ["-"]), text.encode()):
            yield from some

    def _filter(self, filters: Optional[Filters]) -> Optional[List[Any]]:
        return None if filters is None else _filter_of(self.schema(), filters)

    def _selection(self, filters: Optional[Filters], columns: Optional[Sequence[str]]) -> Selection:
        fields = fields_of(self.schema())
        if columns is not None:
            if isinstance(columns, str):
                raise TypeError("columns is a list of names")
            fields_by_name = {it.name: it for it in fields}
            chosen = tuple(fields_by_name.get(it) or leaf_at(fields, it) for it in columns)
        else:
            chosen = fields
        return Selection(chosen, filter_json(fields, filters))

    def _batches(self, wanted: Selection, limit: Optional[int] = None) -> Iterator[List[Any]]:
        """The rows that the program prints, some at a time."""
        names = [it.name for it in wanted.fields]
        with _filter_words(wanted.filter) as words:
            if not names:
                # Without names the program would print all columns.
                left = min(int(self._call("count", words)), sys.maxsize if limit is None else limit)
                while left > 0:
                    yield [{}] * min(left, _MOST_EMPTY)
                    left -= _MOST_EMPTY
                return
            for some in lines("query", self._words([*words, *limit_words(limit)], names)):
                yield json.loads(b"[%b]" % b",".join(some))

    def _by_files(self, wanted: Selection, limit: Optional[int]) -> Any:
        """The rows as a `pyarrow.Table`, by files that the program writes; None if they have to come as lines."""
        names = [it.name for it in wanted.fields]
        if not names or not _tables.has_arrow():
            return None
        with tempfile.TemporaryDirectory(prefix="pqds-") as folder, _filter_words(wanted.filter) as words:
            try:
                files = self._answer_files([*words, *limit_words(limit)], names, folder)
            except (Limit, WrongCall):
                # An earlier program writes one file of at most 2 GiB, and takes no limit with it.
                return None
            return _tables.table_of_files(wanted.fields, files)

    def _answer_files(self, words: Sequence[str], names: Sequence[str], folder: str) -> List[str]:
        """Writes the answer of a query as files into an empty folder, and names them in the order of their rows."""
        try:
            self._call("query", [*words, "--out", folder], names)
        except Exists:
            # An earlier program writes one file.
            file = os.path.join(folder, "part.0.parquet")
            self._call("query", [*words, "--out", file], names)
        by_number = sorted(os.listdir(folder), key=lambda it: int(it.split(".")[1]))
        return [os.path.join(folder, it) for it in by_number]

    def _by_groups(self, wanted: Selection) -> Iterator[List[Any]]:
        """The rows of each group that has some, by a script, whose answers the program has in memory all at once."""
        names = [it.name for it in wanted.fields]
        fetches = len(self.groups()) + 1
        while True:
            query = {"call": "query", "columns": names, "filter": wanted.filter or []}
            printed = self._script_lines([query, *[{"call": "fetch", "cursor": 0}] * fetches])
            raise_refused(json.loads(next(printed)))
            batches, ended = [], False
            for line in printed:
                answer = json.loads(line)
                raise_refused(answer)
                ended = "end" in answer
                if not ended:
                    batches.append(answer["batch"])
            if ended:
                yield from batches
                return
            # Groups came between the two calls.
            fetches = 2 * fetches


class Selection(NamedTuple):
    """What is asked of a table: columns, and a filter in JSON, None for every row."""

    fields: Tuple[Field, ...]
    filter: Optional[List[Any]]


class Prepared(NamedTuple):
    """How rows go to a table: the command, its files, and the parts of its standard input where the file is `-`."""

    command: str
    files: Sequence[str]
    parts: Optional[Iterable[bytes]]


@contextmanager
def prepared(
    data: Any, said: List[JsonField], floats: Mapping[str, int], *, is_whole: bool = False
) -> Iterator[Prepared]:
    """Rows for a table with these columns, while they are used.

    With `is_whole` every row is looked at first; otherwise rows that go by lines are looked at as the program takes
    them. Raises what `Dataset.append` raises for rows.
    """
    fields = fields_of(said)
    checked_floats(fields, floats)
    data = _tables.settled(data)
    table = _tables.importable(data, fields, floats)
    if table is not None:
        with table as file:
            # Notes that no type of pyarrow has, such as enum, are not in the file; then the rows go by lines.
            if file_schema(file) == said:
                yield Prepared("import", [file], None)
                return
    parts = RowWriter(fields, floats).parts(_tables.rows_of(data, fields, floats))
    if not is_whole:
        yield Prepared("append", ["-"], parts)
        return
    with tempfile.NamedTemporaryFile(prefix="pqds-") as lines_file:
        lines_file.writelines(parts)
        lines_file.flush()
        yield Prepared("append", [lines_file.name], None)


def open(path: PathLike, *, wait: Union[bool, int] = True, **files: Unpack[FileOptions]) -> Dataset:  # noqa: A001
    """The table in a folder.

    A call waits for another command on the table as long as it takes. With a number of seconds as `wait` it waits no
    longer for each lock, with `wait=False` not at all, and raises `Device` then. The other options are for the files
    that its changes write: `style` is plain, dictionary, delta, lengths or split, for `remove` and `rewrite` also keep;
    `group_rows` the greatest number of rows of a group, `page_rows` of a page, and `page_version` 1 or 2.

    Raises `NoTable` if the folder has no table, and `Device` if there is no folder.
    """
    table = Dataset(path, wait=wait, **files)
    table.schema()
    return table


def create(
    path: PathLike,
    schema: Any,
    keys: Sequence[str] = (),
    *,
    required: Sequence[str] = (),
    floats: Optional[Mapping[str, int]] = None,
    wait: Union[bool, int] = True,
    **files: Unpack[FileOptions],
) -> Dataset:
    """Makes a table without rows, and returns it. The folder above `path` must be there.

    `schema` is a list of JSON fields, a `pyarrow.Schema`, or a DataFrame or `pyarrow.Table` whose columns are taken. Of
    these last two each column is OPTIONAL, except the keys and those in `required`. `keys` are the columns by whose
    values the rows are put into folders. `floats` names columns of floats that become decimals with so many places.
    The other options are those of `open`.

    Raises `Exists` if there is a table, `NoColumn` for a name in `keys` or `required` that no column has, `Key` for
    keys that cannot be, `Schema` and `Float` for columns that cannot be, and `Script` for JSON fields of another form.
    """
    keys = names_of(keys)
    said = with_reps(_tables.schema_json(schema, floats or {}), keys, required)
    table = Dataset(path, wait=wait, **files)
    call("create", [*table._patience, "--", table.path, "-", *keys], [schema_text(said)])
    return table


def names_of(keys: Union[str, Sequence[str]]) -> List[str]:
    """The names of key columns; one name may stand by itself."""
    return [keys] if isinstance(keys, str) else list(keys)


def file_schema(file: PathLike) -> List[JsonField]:
    """The columns of a Parquet file, as the JSON fields that `create` takes.

    Raises `Refused` as `decode` does for the footer; the columns of a compressed file are returned.
    """
    return list(json.loads(call("schema", ["--", path_word(file)])))


def checked_floats(fields: Sequence[Field], floats: Mapping[str, int]) -> None:
    """Raises `Schema` if a column in `floats` cannot hold decimals with so many places."""
    for name, places in floats.items():
        field = leaf_at(fields, name)
        if field.meaning != "decimal" or field.scale < places:
            raise Schema(f"floats: column {name} is no decimal with {places} places")


def _filter_of(said: Sequence[JsonField], filters: Optional[Filters]) -> Optional[List[Any]]:
    """A filter in JSON on these columns, None if there is none. An empty one holds for every row."""
    return None if filters is None else filter_json(fields_of(said), filters) or []


@contextmanager
def _filter_words(wanted: Optional[List[Any]], option: str = "--filter") -> Iterator[List[str]]:
    """A filter as words of a call, while they are used: a long one is in a file."""
    if wanted is None:
        yield []
        return
    text = filter_text(wanted)
    if len(text.encode()) <= _LONGEST_WORD:
        yield [option, text]
        return
    with tempfile.NamedTemporaryFile(prefix="pqds-") as file:
        file.write(text.encode())
        file.flush()
        yield [option, f"@{file.name}"]


def _wait_words(wait: Union[bool, int]) -> List[str]:
    if isinstance(wait, bool):
        return [] if wait else ["--no-wait"]
    return ["--wait", str(wait)]


def _numbers(groups: Iterable[Union[int, Group]]) -> List[str]:
    return [str(it.number if isinstance(it, Group) else it) for it in groups]


def _call_json(fields: List[Field], said: Mapping[str, Any]) -> Dict[str, Any]:
    """A call of a script in JSON. A column that it adds is one of those after it."""
    made = dict(said)
    if "rows" in made:
        writer = RowWriter(fields, {})
        made["rows"] = [writer.members(row, number) for number, row in enumerate(made["rows"], 1)]
    if "filter" in made:
        made["filter"] = filter_json(fields, made["filter"]) or []
    if isinstance(made.get("bytes"), bytes):
        made["bytes"] = made["bytes"].hex()
    if "field" in made:
        made["field"] = {"rep": "optional", **made["field"]}
        fields += [it for it in fields_of([made["field"]]) if it.name not in {one.name for one in fields}]
    return made


def _answer(fields: Sequence[Field], answer: Dict[str, Any]) -> Dict[str, Any]:
    """An answer of a script, with the rows of a batch as those of Python."""
    if answer.get("batch"):
        names = answer["batch"][0]
        of_row = RowReader([it for it in fields if it.name in names]).row
        answer["batch"] = [of_row(it) for it in answer["batch"]]
    return answer


__all__ = ["Dataset", "Group", "PqdsError", "Whole", "create", "file_schema", "open"]
