"""Running the program: one process for each call, with its words, its standard input and what it says.

Nothing here knows what a table is. This is the one place that starts processes.
"""

from __future__ import annotations

import os
import shutil
import subprocess
import tempfile
import threading
from contextlib import contextmanager, suppress
from typing import IO, Any, Dict, Iterable, Iterator, List, Optional, Sequence, Tuple, Union

from ._errors import InDoubt, Interrupted, NoProgram, PqdsError, WrongCall, refused_by

PathLike = Union[str, "os.PathLike[str]"]

# What is known of a change that was made as a whole or not at all, and how to find out which.
FIND_OUT = {
    "append": "all rows are there or none: compare count() with the count before",
    "import": "all rows are there or none: compare count() with the count before",
    "remove": "all of these rows are gone or none: count(filters) or groups() shows which",
    "rewrite": "the groups are written anew or as before, and the rows are the same: groups() shows which",
    "add-column": "the column is there or not: schema() shows which",
    "create": "the table is there or not: open() shows which",
    "run": "the calls of the script were made up to one of them, each as a whole: count() and groups() show which",
    "encode": "the file is there as a whole or not at all: look for it",
}

# Commands that change a table, or take it for themselves.
_ALONE = ("append", "import", "remove", "rewrite", "add-column", "run")

# So many bytes are read at a time of what the program prints.
_PIECE = 1 << 20
# So many seconds such a change waits for rows that its own thread has not read to their end.
_PATIENCE = 2

# The programs whose lines are being read, by the thread that reads and the folder.
_reading: Dict[Tuple[int, str], List[subprocess.Popen[bytes]]] = {}


def program() -> str:
    """The path of the program: the variable PQDS if it is set, else `pqds` on the PATH.

    Raises `NoProgram` if there is none.
    """
    named = os.environ.get("PQDS")
    found = shutil.which(named or "pqds")
    if found is None:
        where = f"PQDS names {named!r}, which is no program" if named else "there is no pqds on the PATH"
        raise NoProgram(f"{where}: set PQDS to the program, or install it with ./install")
    return found


def path_word(path: PathLike) -> str:
    """A path as a word of a call. The word `-` would be the standard input."""
    word = os.fspath(path)
    if not isinstance(word, str):
        raise TypeError(f"expected a path as text, found {word!r}")
    return "./-" if word == "-" else word


def _text_of(said: IO[bytes]) -> str:
    said.seek(0)
    return said.read().decode("utf-8", "replace")


def _ended(command: str, process: subprocess.Popen[bytes], said: str) -> PqdsError:
    """The exception for a call that ended with a status other than 0."""
    status = process.returncode
    refused = refused_by(said)
    if isinstance(refused, InDoubt):
        return InDoubt("; ".join(it for it in (refused.reason, FIND_OUT.get(command, "")) if it))
    if refused is not None:
        return refused
    said = said.strip()
    if status < 0:
        return _killed(command, process)
    return WrongCall(f"pqds {command} ended with status {status}{': ' if said else ''}{said}")


def _is_cut(process: subprocess.Popen[bytes]) -> bool:
    """Whether the program did not get all of its input. It reads the input to its end before it changes anything."""
    return process.stdin is not None and not process.stdin.closed


def _killed(command: str, process: subprocess.Popen[bytes]) -> PqdsError:
    signal = -process.returncode
    if command in FIND_OUT and not _is_cut(process):
        return InDoubt(f"the program was ended by signal {signal}; {FIND_OUT[command]}")
    return WrongCall(f"pqds {command} was ended by signal {signal}; it has changed nothing")


def _stop(process: subprocess.Popen[bytes]) -> None:
    process.kill()
    process.wait()


@contextmanager
def _running(command: str, words: Sequence[str], has_input: bool) -> Iterator[Any]:
    """A process, and the file of its standard error. An exception in the block ends the process."""
    if command in _ALONE:
        _wait_for_own_lines(command, words)
    with tempfile.TemporaryFile() as said:
        process = subprocess.Popen(
            [program(), command, *words],
            stdin=subprocess.PIPE if has_input else subprocess.DEVNULL,
            stdout=subprocess.PIPE,
            stderr=said,
        )
        try:
            yield process, said
        except KeyboardInterrupt:
            _stop(process)
            raise Interrupted(_known(command, process)) from None
        except BaseException:
            _stop(process)
            raise
        finally:
            # The program is ended before its input is closed: an end of the input would be an end of the rows.
            _close(process)


def _known(command: str, process: subprocess.Popen[bytes]) -> str:
    """What is known after Ctrl-C."""
    if command not in FIND_OUT or _is_cut(process):
        return f"{command} was stopped; it has changed nothing"
    if process.returncode == 0:
        return f"{command} was made as a whole before it could be stopped"
    return f"{command} was stopped; {FIND_OUT[command]}"


def _place(words: Sequence[str]) -> Tuple[int, str]:
    """The thread that makes a call, and the folder that the call is on."""
    return threading.get_ident(), os.path.realpath(words[words.index("--") + 1])


def readers_lock(folder: str) -> Optional[str]:
    """The file of a table that its readers lock, or None: then they lock the folder, and changes wait for them."""
    path = os.path.join(folder, "_lock")
    return path if os.path.isfile(path) and not os.path.islink(path) and os.access(path, os.R_OK) else None


def _wait_for_own_lines(command: str, words: Sequence[str]) -> None:
    """Raises `WrongCall` for a change inside a loop over the rows of the same table, if it would wait for itself.

    That is so only in a folder without the file that readers lock, which every change makes.
    """
    if readers_lock(words[words.index("--") + 1]):
        return
    for process in _reading.get(_place(words), ()):
        try:
            process.wait(_PATIENCE)
        except subprocess.TimeoutExpired:
            why = f"{command} would wait for ever: this thread has not read all rows that it asked for"
            raise WrongCall(f"{why}; use list(..) in the loop, or close the iterator first") from None


@contextmanager
def _noted(words: Sequence[str], process: subprocess.Popen[bytes]) -> Iterator[None]:
    """Notes that this thread reads what a program prints."""
    place = _place(words)
    _reading.setdefault(place, []).append(process)
    try:
        yield
    finally:
        _reading[place].remove(process)
        if not _reading[place]:
            del _reading[place]


def _close(process: subprocess.Popen[bytes]) -> None:
    for pipe in (process.stdin, process.stdout):
        if pipe is not None:
            with suppress(BrokenPipeError):
                pipe.close()


def _feed(pipe: IO[bytes], given: Iterable[bytes]) -> None:
    """Writes all that is given. If the program stops reading, its status says why."""
    for part in given:
        try:
            pipe.write(part)
        except BrokenPipeError:
            return
    with suppress(BrokenPipeError):
        pipe.close()


def call(command: str, words: Sequence[str], given: Optional[Iterable[bytes]] = None) -> bytes:
    """Runs a command, and returns what it printed.

    `given` is its standard input, in parts. If making a part raises an exception, the program is ended before its input
    ends, so nothing is changed. Raises `Refused` and its classes, and `InDoubt` also if the program was killed while it
    changed something.
    """
    with _running(command, words, given is not None) as (process, said):
        if given is not None:
            _feed(process.stdin, given)
        out: bytes = process.stdout.read()
        if process.wait() != 0:
            error = _ended(command, process, _text_of(said))
            if out and not error.args[0]:
                error = type(error)(out.decode("utf-8", "replace").rstrip("\n"), *error.args[1:])
            raise error
        return out


def lines(command: str, words: Sequence[str], given: Optional[bytes] = None) -> Iterator[List[bytes]]:
    """Runs a command, and yields the lines that it prints, some at a time.

    The program is ended when the iterator is closed. A refusal is raised after the lines that came before it.
    """
    with _running(command, words, given is not None) as (process, said):
        if given is not None:
            _feed(process.stdin, [given])
        with _noted(words, process):
            while True:
                some = process.stdout.readlines(_PIECE)
                if not some:
                    break
                yield some
        if process.wait() != 0:
            raise _ended(command, process, _text_of(said))
