"""The exceptions of this module.

When the program refuses a call, it prints a number and a name, such as `refused 14 RowShape`. Each name is a class
derived from `Refused`. A refused call leaves the table as it was, except after `InDoubt`, after the calls of a script
before the refused one, and where `reason` has `the change was committed`. A refused `write` may leave a new table.
"""

from __future__ import annotations

import re
from typing import Any, ClassVar, Dict, Optional, Sequence, Type


class PqdsError(Exception):
    """The base of every exception of this module except `Interrupted`, which is a `KeyboardInterrupt`."""


class NoProgram(PqdsError):
    """The program `pqds` was not found: neither by the variable PQDS nor on the PATH."""


class WrongCall(PqdsError):
    """The program rejected the words of the call (status 2), or ended without saying why."""


class Interrupted(KeyboardInterrupt):
    """Ctrl-C during a call. The program was ended; the text says what is known of the table."""


class Refused(PqdsError):
    """A call that the program refused, or that this module refused before it started the program.

    `number` and `name` are the program's. `reason` says what was wrong, in one line or more; it can be empty. `column`
    is the path of the column, for `Float` and `Int96`. `answers` has the answers of the calls that a script made before
    the one that was refused.
    """

    number: ClassVar[int] = 0
    answers: Sequence[Dict[str, Any]] = ()

    def __init__(self, reason: str = "", column: str = "") -> None:
        super().__init__(reason, column)
        self.reason = reason
        self.column = column

    @property
    def name(self) -> str:
        """The program's name for this refusal."""
        return type(self).__name__

    def __str__(self) -> str:
        head = f"refused {self.number} {self.name}"
        head = f"{head} {self.column}" if self.column else head
        return f"{head}: {self.reason}" if self.reason else head


class Truncated(Refused):
    """A file ends before it should, or is absent."""

    number = 1


class Magic(Refused):
    """A file is no Parquet file, or its footer is encrypted."""

    number = 2


class Thrift(Refused):
    """A footer or a page header is damaged."""

    number = 3


class Schema(Refused):
    """Columns that a table cannot have, or a file whose columns are not those of the table."""

    number = 4


class Codec(Refused):
    """A file is compressed: write it with `compression="none"`."""

    number = 5


class Float(Refused):
    """A column of floats. Name it in `floats`, or cast it to integers or decimals."""

    number = 6


class Int96(Refused):
    """A column of INT96 timestamps: cast it to timestamps of microseconds."""

    number = 7


class Encoding(Refused):
    """A file has an encoding that is unknown, or wrong for its type."""

    number = 8


class Page(Refused):
    """A page or chunk of a file has impossible sizes, offsets or counts."""

    number = 9


class Levels(Refused):
    """The levels of a file's columns belong to no rows."""

    number = 10


class Value(Refused):
    """Bytes of a file are not a value in their encoding."""

    number = 11


class Utf8(Refused):
    """Text of a file that is not UTF-8."""

    number = 12


class Limit(Refused):
    """Something is beyond a limit: a value over 16 MiB, a file of 2 GiB, an option out of its range."""

    number = 13


class RowShape(Refused):
    """A row that does not fit the columns, or a filter value that does not fit its column."""

    number = 14


class NoColumn(Refused):
    """The table has no column of this name."""

    number = 15


class Unordered(Refused):
    """A filter on a column whose values have no order."""

    number = 16


class Key(Refused):
    """A key column of a wrong type, or a row whose key cannot name a folder."""

    number = 17


class NoGroup(Refused):
    """The table has no group of this number."""

    number = 18


class Stale(Refused):
    """A rewrite whose source was removed meanwhile."""

    number = 19


class NoJob(Refused):
    """A job that is not open, in a script."""

    number = 20


class NoCursor(Refused):
    """A cursor that is not open, in a script."""

    number = 21


class Full(Refused):
    """Too many jobs or cursors are open, or there are no more numbers."""

    number = 22


class NoTable(Refused):
    """The folder holds no table."""

    number = 23


class Exists(Refused):
    """The table, or the file, is already there, and stays as it is."""

    number = 24


class Device(Refused):
    """A file or folder cannot be read or written; or another command uses the table for longer than `wait`."""

    number = 25


class InDoubt(Refused):
    """A change was made as a whole or not at all, and it is not known which. `reason` says how to find out."""

    number = 26


class Closed(Refused):
    """A call after a commit in doubt, in the same script."""

    number = 27


class Memory(Refused):
    """Out of memory."""

    number = 28


class Script(Refused):
    """A filter, a schema or a script does not have the right form."""

    number = 29


REFUSALS: Dict[str, Type[Refused]] = {kind.__name__: kind for kind in Refused.__subclasses__()}
_LAST_LINE = re.compile(r"refused (\d+) (\w+)(?: (.*))?", re.DOTALL)


def refused_as(name: str, number: int, reason: str = "", column: str = "") -> Refused:
    """The exception of a refusal. A name that this module does not know, of a later program, gets a class too."""
    kind = REFUSALS.get(name)
    if kind is None:
        kind = type(name, (Refused,), {"number": number})
    return kind(reason, column)


def refused_by(said: str) -> Optional[Refused]:
    """The refusal that the program ended its standard error with, if it did."""
    before, _, last = said.rstrip("\n").rpartition("\n")
    found = _LAST_LINE.fullmatch(last)
    if found is None:
        return None
    return refused_as(found[2], int(found[1]), before, found[3] or "")
