"""Single Parquet files: their rows, and files of rows."""

from __future__ import annotations

import json
import os
import tempfile
from typing import TYPE_CHECKING, Any, Dict, Iterable, Iterator, Mapping, Optional

from . import _tables
from ._dataset import file_schema
from ._options import FileOptions, file_words, limit_words
from ._program import PathLike, call, lines, path_word
from ._schema import fields_of, schema_text
from ._values import RowReader, RowWriter, raw_parts

if TYPE_CHECKING:
    from typing_extensions import Unpack


def decode(file: PathLike, *, limit: Optional[int] = None, raw: bool = False) -> Iterator[Dict[str, Any]]:
    """The rows of a Parquet file, one after another, as dicts. No row comes before all of the file was accepted.

    `limit` is the greatest number of rows; then the row groups after those that have these rows are not checked. With
    `raw` the values are as the program prints them.

    Raises `Refused`: `Codec` for a compressed file, `Float` and `Int96` for such columns, and others for a damaged one.
    """
    of_row = RowReader(fields_of(file_schema(file))).row
    for some in lines("decode", [*limit_words(limit), "--", path_word(file)]):
        for row in json.loads(b"[%b]" % b",".join(some)):
            yield row if raw else of_row(row)


def encode(
    schema: Any,
    rows: Iterable[Any],
    out: PathLike,
    *,
    floats: Optional[Mapping[str, int]] = None,
    raw: bool = False,
    **files: Unpack[FileOptions],
) -> None:
    """Makes a Parquet file of rows, which are dicts.

    `schema` is what `pqds.create` takes, and the other options are those of `create` and `Dataset.append`.

    Raises `Exists` if there is a file of this name, which stays; `RowShape` for a row that is not of the schema.
    """
    said = _tables.schema_json(schema, floats or {})
    parts = raw_parts(rows) if raw else RowWriter(fields_of(said), floats or {}).parts(rows)
    with tempfile.TemporaryDirectory(prefix="pqds-") as folder:
        _put(os.path.join(folder, "schema"), [schema_text(said)])
        _put(os.path.join(folder, "rows"), parts)
        call(
            "encode",
            [*file_words(files), "--", os.path.join(folder, "schema"), os.path.join(folder, "rows"), path_word(out)],
        )


def inspect(file: PathLike) -> Dict[str, Any]:
    """What a Parquet file is, from its footer and page headers: the object that `pqds inspect --json` prints."""
    return dict(json.loads(call("inspect", ["--json", "--", path_word(file)])))


def _put(file: str, parts: Iterable[bytes]) -> None:
    with open(file, "wb") as out:
        for part in parts:
            out.write(part)
