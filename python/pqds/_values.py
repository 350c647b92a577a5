"""Values of Python and of the program's JSON, both ways, by the type of their column.

Integers, texts and booleans are the same on both sides. Dates are `datetime.date`, times `datetime.time`, timestamps
`datetime.datetime` in UTC, decimals `decimal.Decimal`, bytes `bytes`, lists `list`, maps lists of pairs, groups `dict`.
Nothing is rounded: a value that a column cannot hold is an error.
"""

from __future__ import annotations

import datetime
import json
import operator
from decimal import MAX_EMAX, MAX_PREC, MIN_EMIN, Context, Decimal
from typing import Any, Callable, Dict, Iterable, Iterator, List, Mapping, Optional, Sequence, Tuple

from ._errors import RowShape, refused_as
from ._schema import Field, is_bare_list

Convert = Callable[[Any], Any]

_EPOCH_DAY = datetime.date(1970, 1, 1).toordinal()
_EPOCH = datetime.datetime(1970, 1, 1, tzinfo=datetime.timezone.utc)
_MICROSECOND = datetime.timedelta(microseconds=1)
# So many of a unit are a microsecond, or so many microseconds are one.
_MICROSECONDS = {"time_millis": 1000, "time_micros": 1, "timestamp_millis": 1000, "timestamp_micros": 1}
_DAY = 86_400_000_000
# No arithmetic rounds in this context.
_EXACT = Context(prec=MAX_PREC, Emin=MIN_EMIN, Emax=MAX_EMAX)

TICKS = ("date", "time_millis", "time_micros", "timestamp_millis", "timestamp_micros")
"""The meanings whose values are counted in days, milliseconds or microseconds."""

_FIRST = (1 - _EPOCH_DAY) * _DAY
_LAST = (datetime.date.max.toordinal() - _EPOCH_DAY + 1) * _DAY - 1
TICK_RANGES = {
    "date": (_FIRST // _DAY, _LAST // _DAY),
    "time_millis": (0, _DAY // 1000 - 1),
    "time_micros": (0, _DAY - 1),
    "timestamp_millis": (_FIRST // 1000, _LAST // 1000),
    "timestamp_micros": (_FIRST, _LAST),
}
"""The least and greatest counts for which Python has a date or time."""


# ---- from the program ----


def _date(days: int) -> datetime.date:
    try:
        return datetime.date.fromordinal(_EPOCH_DAY + days)
    except (ValueError, OverflowError):
        raise ValueError(f"Python has no date {days} days after 1970-01-01; raw=True gives the number") from None


def _time(unit: int) -> Convert:
    def convert(count: int) -> datetime.time:
        micros = count * unit
        if not 0 <= micros < _DAY:
            raise ValueError(f"{micros} microseconds are no time of a day; raw=True gives the number")
        seconds, micros = divmod(micros, 1_000_000)
        return datetime.time(seconds // 3600, seconds // 60 % 60, seconds % 60, micros)

    return convert


def _timestamp(unit: int) -> Convert:
    def convert(count: int) -> datetime.datetime:
        try:
            return _EPOCH + datetime.timedelta(microseconds=count * unit)
        except OverflowError:
            micros = count * unit
            raise ValueError(
                f"Python has no time {micros} microseconds after 1970; raw=True gives the number"
            ) from None

    return convert


def _decimal(scale: int, is_bytes: bool) -> Convert:
    def convert(value: Any) -> Decimal:
        whole = int.from_bytes(bytes.fromhex(value), "big", signed=True) if is_bytes else value
        return _EXACT.scaleb(Decimal(whole), -scale)

    return convert


def reader(field: Field, keep_ticks: bool = False) -> Optional[Convert]:
    """What makes a Python value from JSON, or None if it is the same. With `keep_ticks` times stay numbers."""
    one = _one_reader(field, keep_ticks)
    if field.is_repeated:
        return (lambda values: [one(it) for it in values]) if one else None
    if one and field.is_optional:
        return lambda value: None if value is None else one(value)
    return one


def _one_reader(field: Field, keep_ticks: bool) -> Optional[Convert]:
    """The same for one value that is not null."""
    if field.meaning == "list":
        return _list_reader(field, keep_ticks)
    if field.meaning == "map":
        return _map_reader(field, keep_ticks)
    if field.meaning == "group":
        plan = [(it.name, reader(it, keep_ticks)) for it in field.fields]
        return lambda value: {name: value[name] if convert is None else convert(value[name]) for name, convert in plan}
    return _leaf_reader(field, keep_ticks)


def _leaf_reader(field: Field, keep_ticks: bool) -> Optional[Convert]:
    meaning = field.meaning
    if meaning in TICKS and keep_ticks:
        return None
    if meaning == "date":
        return _date
    if meaning in ("time_millis", "time_micros"):
        return _time(_MICROSECONDS[meaning])
    if meaning in ("timestamp_millis", "timestamp_micros"):
        return _timestamp(_MICROSECONDS[meaning])
    if meaning == "decimal":
        return _decimal(field.scale, field.type in ("bytes", "fixed"))
    return bytes.fromhex if meaning in ("bytes", "fixed") else None


def bound_reader(field: Field) -> Convert:
    """What makes a Python value from a bound of a column: one of its values, or of their items."""
    return _one_reader(field, False) or _same


def _list_reader(field: Field, keep_ticks: bool) -> Convert:
    middle = field.fields[0]
    if is_bare_list(field):
        items = reader(middle, keep_ticks)
        return lambda value: value[middle.name] if items is None else items(value[middle.name])
    inner = middle.fields[0]
    one = reader(inner, keep_ticks)
    if one is None:
        return lambda value: [it[inner.name] for it in value[middle.name]]
    return lambda value: [one(it[inner.name]) for it in value[middle.name]]


def _map_reader(field: Field, keep_ticks: bool) -> Convert:
    middle = field.fields[0]
    key, item = (reader(it, keep_ticks) or _same for it in middle.fields)
    first, second = (it.name for it in middle.fields)
    return lambda value: [(key(it[first]), item(it[second])) for it in value[middle.name]]


def _same(value: Any) -> Any:
    return value


class RowReader:
    """Makes rows of Python from the lines that the program prints, in the order of the columns."""

    def __init__(self, fields: Sequence[Field]) -> None:
        self._plan = [(it.name, reader(it)) for it in fields]

    def row(self, printed: Mapping[str, Any]) -> Dict[str, Any]:
        """The row that a line says."""
        row = {}
        for name, convert in self._plan:
            value = printed[name]
            if convert is not None:
                try:
                    value = convert(value)
                except ValueError as error:
                    raise ValueError(f"{name}: {error}") from None
            row[name] = value
        return row


# ---- to the program ----


class Misfit(Exception):
    """Why a value is none of its column: the text says it."""


def _found(value: Any) -> str:
    text = repr(value)
    text = text if len(text) <= 60 else f"{text[:57]}..."
    return f"found {text} ({type(value).__name__})"


def _boolean(value: Any) -> bool:
    if value is True or value is False:
        return bool(value)
    if type(value).__name__ in ("bool", "bool_") and type(value).__module__ == "numpy":
        return bool(value)
    raise Misfit(f"expected True or False, {_found(value)}")


def _integer(value: Any) -> int:
    if type(value) is int:
        return value
    if not isinstance(value, bool):
        try:
            return operator.index(value)
        except TypeError:
            pass
    raise Misfit(f"expected an integer, {_found(value)}")


RANGES = {
    **{f"int_{bits}": (-(1 << (bits - 1)), (1 << (bits - 1)) - 1) for bits in (8, 16, 32, 64)},
    **{f"uint_{bits}": (0, (1 << bits) - 1) for bits in (8, 16, 32, 64)},
    "int32": (-(1 << 31), (1 << 31) - 1),
    "int64": (-(1 << 63), (1 << 63) - 1),
}
"""The least and greatest values of the meanings of integers."""


def _ranged(least: int, greatest: int) -> Convert:
    def convert(value: Any) -> int:
        number = _integer(value)
        if not least <= number <= greatest:
            raise Misfit(f"expected an integer from {least} to {greatest}, found {number}")
        return number

    return convert


def _text(value: Any) -> str:
    if not isinstance(value, str):
        raise Misfit(f"expected text, {_found(value)}")
    try:
        if not value.isascii():
            value.encode()
    except UnicodeEncodeError:
        raise Misfit(f"expected text of UTF-8, which has no half of a surrogate pair, {_found(value)}") from None
    return value


def _bytes(length: Optional[int]) -> Convert:
    def convert(value: Any) -> str:
        if not isinstance(value, (bytes, bytearray, memoryview)):
            raise Misfit(f"expected bytes, {_found(value)}")
        whole = bytes(value)
        if length is not None and len(whole) != length:
            raise Misfit(f"expected {length} bytes, found {len(whole)}")
        return whole.hex()

    return convert


def _days(value: Any) -> int:
    if isinstance(value, datetime.date) and not isinstance(value, datetime.datetime):
        return value.toordinal() - _EPOCH_DAY
    raise Misfit(f"expected a date, {_found(value)}")


def _whole(micros: int, unit: int, value: Any) -> int:
    count, rest = divmod(micros, unit)
    if rest:
        raise Misfit(f"expected whole milliseconds, {_found(value)}")
    return count


def _time_of_day(unit: int) -> Convert:
    def convert(value: Any) -> int:
        if not isinstance(value, datetime.time):
            raise Misfit(f"expected a time, {_found(value)}")
        if value.tzinfo is not None:
            raise Misfit(f"expected a time without a time zone, {_found(value)}")
        seconds = (value.hour * 60 + value.minute) * 60 + value.second
        return _whole(seconds * 1_000_000 + value.microsecond, unit, value)

    return convert


def _instant(unit: int) -> Convert:
    def convert(value: Any) -> int:
        if not isinstance(value, datetime.datetime):
            raise Misfit(f"expected a datetime, {_found(value)}")
        if getattr(value, "nanosecond", 0):
            raise Misfit(f"expected whole microseconds, {_found(value)}")
        plain = value.to_pydatetime() if hasattr(value, "to_pydatetime") else value
        aware = plain if plain.tzinfo is not None else plain.replace(tzinfo=datetime.timezone.utc)
        return _whole((aware - _EPOCH) // _MICROSECOND, unit, value)

    return convert


def unscaled(value: Any, precision: int, scale: int) -> int:
    """The integer that a decimal with so many places is stored as. Raises `Misfit` where a digit would be lost."""
    if isinstance(value, float):
        raise Misfit(f"expected a Decimal, {_found(value)}; name the column in floats")
    if isinstance(value, Decimal):
        number = value
    elif isinstance(value, bool) or not hasattr(value, "__index__"):
        raise Misfit(f"expected a Decimal, {_found(value)}")
    else:
        number = Decimal(operator.index(value))
    if not number.is_finite():
        raise Misfit(f"expected a finite Decimal, {_found(value)}")
    moved = _EXACT.scaleb(number, scale)
    whole = int(moved)
    if whole != moved:
        raise Misfit(f"expected at most {scale} places, {_found(value)}")
    if precision and abs(whole) >= 10**precision:
        raise Misfit(f"expected at most {precision} digits, {_found(value)}")
    return whole


def _decimal_writer(field: Field) -> Convert:
    def number(value: Any) -> int:
        return unscaled(value, field.precision, field.scale)

    def digits(value: Any) -> str:
        whole = number(value)
        length = field.length or ((whole if whole >= 0 else ~whole).bit_length() // 8 + 1)
        try:
            return whole.to_bytes(length, "big", signed=True).hex()
        except OverflowError:
            raise Misfit(f"expected a Decimal of at most {length} bytes, {_found(value)}") from None

    return digits if field.type in ("bytes", "fixed") else number


def leaf_writer(field: Field) -> Convert:
    """What makes JSON from a value that is not null. It raises `Misfit` for a value that is none of the column."""
    meaning = field.meaning
    if meaning in RANGES:
        return _ranged(*RANGES[meaning])
    if meaning in ("time_millis", "time_micros"):
        return _time_of_day(_MICROSECONDS[meaning])
    if meaning in ("timestamp_millis", "timestamp_micros"):
        return _instant(_MICROSECONDS[meaning])
    if meaning == "decimal":
        return _decimal_writer(field)
    if meaning in ("bytes", "fixed"):
        return _bytes(field.length)
    return {"boolean": _boolean, "date": _days, "text": _text}[meaning]


def writer(field: Field) -> Convert:
    """What makes JSON from a value of Python, null and lists among them."""
    one = _one_writer(field)
    if field.is_repeated:
        return lambda value: [_put_at(f"[{at}]", one, it) for at, it in enumerate(_items(value))]
    if field.is_optional:
        return lambda value: None if value is None else one(value)

    def required(value: Any) -> Any:
        if value is None:
            raise Misfit("the column is REQUIRED, found None")
        return one(value)

    return required


def value_writer(field: Field) -> Convert:
    """What makes JSON from a value that is not null."""
    return writer(field) if field.is_repeated else _one_writer(field)


def joined(place: str, misfit: Misfit) -> str:
    """A place, and why the value there is none of its column."""
    return f"{place}{'' if str(misfit).startswith(('.', '[')) else ': '}{misfit}"


def _one_writer(field: Field) -> Convert:
    if field.meaning == "list":
        return _list_writer(field)
    if field.meaning == "map":
        return _map_writer(field)
    if field.meaning == "group":
        plan = [(it, writer(it)) for it in field.fields]
        return lambda value: _put_members(plan, value)
    return leaf_writer(field)


def _put_at(place: str, convert: Convert, value: Any) -> Any:
    try:
        return convert(value)
    except Misfit as misfit:
        raise Misfit(joined(place, misfit)) from None


def _items(value: Any) -> Iterable[Any]:
    """The items of a list; arrays have `tolist`."""
    if isinstance(value, (list, tuple)):
        return value
    if hasattr(value, "tolist") and hasattr(value, "__len__"):
        return list(value.tolist())
    raise Misfit(f"expected a list, {_found(value)}")


def _put_members(plan: Sequence[Tuple[Field, Convert]], value: Any) -> Dict[str, Any]:
    if not isinstance(value, Mapping):
        raise Misfit(f"expected a dict, {_found(value)}")
    put: Dict[str, Any] = {}
    for field, convert in plan:
        name = field.name
        if name in value:
            put[name] = _put_at(f".{name}", convert, value[name])
        elif field.rep == "required":
            raise Misfit(f".{name}: the field is REQUIRED, and is absent")
    if len(put) != len(value):
        unknown = next(it for it in value if it not in put)
        raise Misfit(f".{unknown}: no field has this name")
    return put


def _list_writer(field: Field) -> Convert:
    middle = field.fields[0]
    if is_bare_list(field):
        items = writer(middle)
        return lambda value: {middle.name: items(value)}
    inner = middle.fields[0]
    one = writer(inner)
    return lambda value: {
        middle.name: [{inner.name: _put_at(f"[{at}]", one, it)} for at, it in enumerate(_items(value))]
    }


def _map_writer(field: Field) -> Convert:
    middle = field.fields[0]
    key, item = (writer(it) for it in middle.fields)
    first, second = (it.name for it in middle.fields)

    def convert(value: Any) -> Dict[str, Any]:
        pairs = list(value.items()) if isinstance(value, Mapping) else list(_items(value))
        if any(not isinstance(it, (tuple, list)) or len(it) != 2 for it in pairs):
            raise Misfit(f"expected a dict or a list of pairs, {_found(value)}")
        return {
            middle.name: [
                {first: _put_at(f"[{at}]", key, one), second: _put_at(f"[{at}]", item, other)}
                for at, (one, other) in enumerate(pairs)
            ]
        }

    return convert


def decimal_of_float(value: Any, places: int) -> Any:
    """A float as the decimal that it is printed as. Raises `Misfit` where that has more places."""
    if not isinstance(value, float) and type(value).__name__ != "float32":
        return value
    number = Decimal(str(value))
    if not number.is_finite():
        raise Misfit(f"expected a finite number, {_found(value)}")
    if int(_EXACT.normalize(number).as_tuple().exponent) < -places:
        raise Misfit(f"expected at most {places} places, {_found(value)}")
    return number


def _with_floats(convert: Convert, places: int) -> Convert:
    return lambda value: convert(decimal_of_float(value, places))


_encode = json.JSONEncoder(ensure_ascii=False, allow_nan=False, check_circular=False, separators=(",", ":")).encode
# So many bytes, about, are given to the program at a time.
_PART = 1 << 16


class RowWriter:
    """Makes the program's lines from rows of Python."""

    def __init__(self, fields: Sequence[Field], floats: Mapping[str, int]) -> None:
        self._plan: List[Tuple[str, Convert, bool]] = []
        for field in fields:
            convert = writer(field)
            if field.name in floats:
                convert = _with_floats(convert, floats[field.name])
            self._plan.append((field.name, convert, field.rep == "required"))

    def members(self, row: Any, number: int) -> Dict[str, Any]:
        """A row as a JSON object. Raises `RowShape`, with the number of the row."""
        if not isinstance(row, Mapping):
            raise RowShape(f"row {number}: expected a dict, {_found(row)}")
        put: Dict[str, Any] = {}
        for name, convert, is_required in self._plan:
            if name in row:
                try:
                    put[name] = convert(row[name])
                except Misfit as misfit:
                    raise RowShape(f"row {number}: {joined(name, misfit)}") from None
            elif is_required:
                raise RowShape(f"row {number}: {name}: the column is REQUIRED, and is absent")
        if len(put) != len(row):
            unknown = next(it for it in row if it not in put)
            raise RowShape(f"row {number}: no column is named {unknown!r}")
        return put

    def parts(self, rows: Iterable[Any]) -> Iterator[bytes]:
        """The lines of rows, some at a time. Rows are counted from 1."""
        some: List[bytes] = []
        size = 0
        for number, row in enumerate(rows, 1):
            line = _encode(self.members(row, number)).encode()
            some.append(line)
            size += len(line)
            if size >= _PART:
                yield b"\n".join((*some, b""))
                some, size = [], 0
        if some:
            yield b"\n".join((*some, b""))


def raw_parts(rows: Iterable[Any]) -> Iterator[bytes]:
    """The lines of rows that are as the program prints them."""
    for row in rows:
        yield _encode(row).encode() + b"\n"


def raise_refused(answer: Mapping[str, Any], in_doubt: str = "") -> None:
    """Raises the refusal that an answer of a script is, if it is one. `in_doubt` is the reason of an `InDoubt`."""
    if "refused" in answer:
        name = str(answer["name"])
        raise refused_as(name, int(answer["refused"]), in_doubt if name == "InDoubt" else "")
