"""Filters as fastparquet takes them, made JSON for the program."""

from __future__ import annotations

import json
from typing import Any, Iterable, List, Optional, Sequence, Tuple, Union

from ._errors import RowShape, Script, Unordered
from ._schema import Field, leaf_at
from ._values import Misfit, leaf_writer

Column = Union[str, Tuple[str, ...], List[str]]
"""The name of a column, or the names on the path of a nested one."""

Term = Tuple[Column, str, Any]
"""A column, an operator and a value; `in` and `not in` take a list, tuple or set of values."""

Filters = Union[Sequence[Term], Sequence[Sequence[Term]]]
"""A list of terms, of which all hold; or a list of such lists, of which one holds. Empty: every row."""

OPERATORS = ("==", "=", "!=", "<", "<=", ">", ">=", "in", "not in")


def filter_json(fields: Sequence[Field], filters: Optional[Filters]) -> Optional[List[Any]]:
    """The filter as JSON, or None for every row. Raises `NoColumn`, `RowShape`, `Unordered` or `Script`."""
    if filters is None:
        return None
    given = _sequence(filters, "filters are a list of terms, or a list of lists of terms")
    if not given:
        return None
    if all(is_term(it) for it in given):
        return [_term_json(fields, it) for it in given]
    ands = [_sequence(it, "an AND is a list of terms") for it in given]
    return [[_term_json(fields, term) for term in terms] for terms in ands]


def _sequence(given: Any, wanted: str) -> List[Any]:
    if isinstance(given, (list, tuple)):
        return list(given)
    raise Script(f"{wanted}; found {given!r}")


def is_term(it: Any) -> bool:
    """Whether this is a column, an operator and a value, and no list of terms."""
    return isinstance(it, (list, tuple)) and len(it) == 3 and isinstance(it[1], str)


def _term_json(fields: Sequence[Field], term: Any) -> List[Any]:
    if not is_term(term):
        raise Script(f"a term is a column, an operator and a value; found {term!r}")
    column, operator, value = term
    if operator not in OPERATORS:
        raise Script(f"the term {term!r}: the operators are {', '.join(OPERATORS)}")
    field = leaf_at(fields, column)
    if field.meaning == "decimal" and field.type == "bytes":
        raise Unordered(
            f"the term {_shown(term)}: decimals in bytes of any length have no order, and equal ones can differ"
        )
    convert = leaf_writer(field)
    path = column if isinstance(column, str) else list(column)
    try:
        if operator in ("in", "not in"):
            return [path, operator, [_value(convert, it) for it in _values(value)]]
        return [path, operator, _value(convert, value)]
    except Misfit as misfit:
        raise RowShape(f"the term {_shown(term)}: {misfit}") from None


def _value(convert: Any, value: Any) -> Any:
    if value is None:
        raise Misfit("a null satisfies no term, found None")
    return convert(value)


def _values(value: Any) -> Iterable[Any]:
    if isinstance(value, (str, bytes, dict)) or not hasattr(value, "__iter__"):
        raise Misfit(f"expected a list of values, found {value!r}")
    return list(value.tolist() if hasattr(value, "tolist") else value)


def _shown(term: Any) -> str:
    text = repr(tuple(term))
    return text if len(text) <= 120 else f"{text[:117]}..."


def filter_text(wanted: Any) -> str:
    """A filter in JSON as a word of a call."""
    return json.dumps(wanted, ensure_ascii=False, separators=(",", ":"))
