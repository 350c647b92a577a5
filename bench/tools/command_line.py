"""What the Python scripts of this folder have in common: their usage, and the program of this tree."""

from __future__ import annotations

import os
import subprocess
import sys
from pathlib import Path
from typing import NoReturn, Optional


def usage(text: Optional[str]) -> NoReturn:
    """Prints the text, and ends with status 2."""
    print((text or "").strip(), file=sys.stderr)
    sys.exit(2)


def only(text: Optional[str], *words: str) -> None:
    """Ends so if the command line has a word that is none of these."""
    if set(sys.argv[1:]) - set(words):
        usage(text)


def numbers(text: Optional[str], *defaults: int) -> list[int]:
    """The numbers on the command line, or these if some are not given."""
    given = sys.argv[1:]
    if len(given) > len(defaults) or not all(it.isdigit() for it in given):
        usage(text)
    return [*map(int, given), *defaults[len(given) :]]


def program() -> str:
    """The program that bench/tools/program.sh prints, which says so if there is none."""
    script = Path(__file__).with_name("program.sh")
    ran = subprocess.run(["sh", script], stdout=subprocess.PIPE, text=True, check=False)
    if ran.returncode:
        sys.exit(ran.returncode)
    return os.path.abspath(ran.stdout.strip())
