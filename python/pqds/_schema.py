"""The columns of a table, as the program prints them and takes them: an array of fields in JSON."""

from __future__ import annotations

import json
from dataclasses import dataclass
from typing import Any, Dict, Iterable, List, Mapping, Optional, Sequence, Tuple, Union

from ._errors import NoColumn, Schema

JsonField = Dict[str, Any]
"""A column as JSON: `name`, `rep` (required, optional, repeated), `type`, and `note`, `length`, `precision`, `scale`,
or `fields` in place of `type`. `pqds encode --help` has all of it."""

# What the values of a column mean, by its type and its note. Another pair means what the type says.
_MEANINGS = {
    "int32": ("int_8", "int_16", "int_32", "uint_8", "uint_16", "uint_32", "date", "time_millis", "decimal"),
    "int64": ("int_64", "uint_64", "time_micros", "timestamp_millis", "timestamp_micros", "decimal"),
    "bytes": ("utf8", "enum", "json", "bson", "decimal"),
    "fixed": ("decimal",),
}
_TEXTS = ("utf8", "enum", "json")


@dataclass(frozen=True)
class Field:
    """A column, or a field of one.

    `meaning` is what its values are: boolean, int32, int64, bytes, text, date, time_millis, time_micros,
    timestamp_millis, timestamp_micros, decimal, a note of integers, or list, map or group of a column with fields.
    """

    name: str
    rep: str
    meaning: str
    type: str
    length: Optional[int]
    precision: int
    scale: int
    fields: Tuple[Field, ...]

    @property
    def is_repeated(self) -> bool:
        """Whether a value is a list of values of this field."""
        return self.rep == "repeated"

    @property
    def is_optional(self) -> bool:
        """Whether a value may be null."""
        return self.rep == "optional"


def field_of(said: Mapping[str, Any]) -> Field:
    """The field that a JSON object says."""
    try:
        fields = tuple(field_of(it) for it in said.get("fields", ()))
        kind, note = said.get("type", "group"), said.get("note")
        return Field(
            name=said["name"],
            rep=said["rep"],
            meaning=_group_meaning(note, fields) if fields else _leaf_meaning(kind, note),
            type=kind,
            length=said.get("length"),
            precision=said.get("precision") or 0,
            scale=said.get("scale") or 0,
            fields=fields,
        )
    except (KeyError, AttributeError, TypeError):
        raise Schema(f"a column is an object with name, rep, and type or fields; found {said!r}") from None


def fields_of(said: Sequence[Mapping[str, Any]]) -> Tuple[Field, ...]:
    """The fields that a JSON array says."""
    return tuple(field_of(it) for it in said)


def _leaf_meaning(kind: str, note: Optional[str]) -> str:
    if note in _TEXTS and kind == "bytes":
        return "text"
    if note == "bson" and kind == "bytes":
        return "bytes"
    return note if note is not None and note in _MEANINGS.get(kind, ()) else kind


def _group_meaning(note: Optional[str], fields: Sequence[Field]) -> str:
    """A list or a map by the rules of Parquet's LogicalTypes.md; else a group of its fields."""
    if len(fields) != 1 or not fields[0].is_repeated:
        return "group"
    if note == "list":
        return "list"
    inner = fields[0].fields
    if note in ("map", "map_key_value") and len(inner) == 2 and inner[0].rep == "required":
        return "map"
    return "group"


def is_bare_list(outer: Field) -> bool:
    """Whether the repeated field of a list is its element, and not a group around the element."""
    middle = outer.fields[0]
    return (
        len(middle.fields) != 1
        or middle.fields[0].is_repeated
        or middle.meaning in ("list", "map")
        or middle.name in ("array", f"{outer.name}_tuple")
    )


def leaf_at(fields: Sequence[Field], path: Union[str, Sequence[str]]) -> Field:
    """The column of a name, or of the names on its path. Raises `NoColumn`."""
    names = [path] if isinstance(path, str) else list(path)
    found: Optional[Field] = None
    inner = fields
    for name in names:
        found = next((it for it in inner if it.name == name), None)
        if found is None:
            break
        inner = found.fields
    if found is None or found.fields:
        raise NoColumn(f"no column is {path!r}: the columns are {', '.join(it.name for it in fields)}")
    return found


def leaves_of(fields: Iterable[Field], path: Tuple[str, ...] = ()) -> List[Tuple[Tuple[str, ...], Field]]:
    """Each column that has values, with the names on its path."""
    found: List[Tuple[Tuple[str, ...], Field]] = []
    for field in fields:
        at = (*path, field.name)
        found += leaves_of(field.fields, at) if field.fields else [(at, field)]
    return found


def schema_text(said: Sequence[Mapping[str, Any]]) -> bytes:
    """The columns as the program takes them."""
    return json.dumps(list(said), ensure_ascii=False).encode()


def with_reps(said: Sequence[JsonField], keys: Sequence[str], required: Sequence[str]) -> List[JsonField]:
    """The columns, of which the keys and those in `required` are REQUIRED."""
    names = [it.get("name") for it in said]
    for name in (*keys, *required):
        if name not in names:
            raise NoColumn(f"no column is named {name!r}: the columns are {', '.join(map(str, names))}")
    must = {*keys, *required}
    return [{**it, "rep": "required"} if it["name"] in must else it for it in said]
