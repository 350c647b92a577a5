"""What the tests share: the module of this folder, the program, and a room for each test."""

from __future__ import annotations

import importlib.util
import os
import shlex
import subprocess
import sys
import tempfile
import types
import unittest
from pathlib import Path
from typing import Any, Callable, Dict, List

TOP = Path(__file__).resolve().parents[2]
sys.path.insert(0, str(TOP / "python"))


def _program() -> str:
    """The program of this tree; the script says so if there is none, and builds nothing."""
    script = TOP / "bench/tools/program.sh"
    ran = subprocess.run(["sh", str(script)], stdout=subprocess.PIPE, text=True, check=False)
    if ran.returncode:
        sys.exit(ran.returncode)
    return ran.stdout.strip()


if "PQDS" not in os.environ:
    os.environ["PQDS"] = _program()

ORDERS: List[Dict[str, Any]] = [
    {"name": "region", "rep": "required", "type": "bytes", "note": "utf8"},
    {"name": "order", "rep": "required", "type": "int64"},
    {"name": "cents", "rep": "optional", "type": "int64"},
]


def mend_cramjam() -> None:
    """Gives Debian's cramjam a name that it lacks, and that fastparquet asks for when it is imported."""
    if importlib.util.find_spec("cramjam") is not None:
        cramjam: Any = importlib.import_module("cramjam")
        if not hasattr(cramjam, "gzip"):
            cramjam.gzip = types.SimpleNamespace(compress=None, decompress=None, decompress_into=None)


def load_fastparquet() -> Any:
    """fastparquet, or None if it is not there."""
    if importlib.util.find_spec("fastparquet") is None:
        return None
    mend_cramjam()
    return importlib.import_module("fastparquet")


class RoomCase(unittest.TestCase):
    """A test that runs in an empty folder of its own."""

    def setUp(self) -> None:
        room = tempfile.TemporaryDirectory()
        self.addCleanup(room.cleanup)
        before = Path.cwd()
        self.addCleanup(os.chdir, before)
        os.chdir(room.name)

    def fake(self, script: str) -> None:
        """Puts a shell script in the program's place."""
        file = Path("fake")
        file.write_text(f"#!/bin/sh\n{script}\n")
        file.chmod(0o755)
        before = os.environ["PQDS"]
        self.addCleanup(os.environ.__setitem__, "PQDS", before)
        os.environ["PQDS"] = str(file.resolve())

    def words_of(self, command: str, call: Callable[[], object], answer: str = "true") -> List[str]:
        """The words that a call gives to this command, which is not run: this script does its work."""
        real = os.environ["PQDS"]
        self.fake(
            f'[ "$1" = {command} ] || exec {shlex.quote(real)} "$@"\n'
            'for it; do case "$it" in @*) it=@$(cat "${it#@}") ;; esac; printf "%s\\n" "$it" >>words; done\n'
            f"{answer}"
        )
        Path("words").write_text("")
        try:
            call()
        finally:
            os.environ["PQDS"] = real
        return Path("words").read_text().splitlines()
