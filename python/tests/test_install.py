"""`./install` into an empty folder: the command, the module, the manual page and the completions."""

from __future__ import annotations

import hashlib
import os
import shutil
import subprocess
import sys
import tempfile
import unittest
from pathlib import Path

from support import TOP, RoomCase

COMMANDS = (
    "decode encode inspect check create append import query count groups schema remove rewrite add-column run".split()  # noqa: SIM905
)


def binary() -> Path:
    """The program itself; ./pqds, which finds it, cannot be installed."""
    named = Path(os.environ["PQDS"])
    return TOP / "prebuilt/.pqds" if named == TOP / "pqds" else named


@unittest.skipUnless((TOP / "install").exists() and (TOP / "crates").exists(), "the repository is not here")
@unittest.skipUnless(binary().exists(), "the program is not built")
class Install(RoomCase):
    place: Path
    said: str

    @classmethod
    def setUpClass(cls) -> None:
        room = tempfile.TemporaryDirectory()
        cls.addClassCleanup(room.cleanup)
        cls.place = Path(room.name).resolve() / "a place's"
        cls.said = cls.install()

    @classmethod
    def install(cls) -> str:
        words = [str(TOP / "install"), "--prefix", str(cls.place), "--program", str(binary())]
        return subprocess.run(words, capture_output=True, text=True, check=True).stdout

    def test_all_of_it_is_in_place(self) -> None:
        prefix = self.place
        for name in self.said.splitlines():
            self.assertTrue(Path(name).exists(), name)
        done = subprocess.run([prefix / "bin/pqds", "count", "nowhere"], capture_output=True, text=True, check=False)
        self.assertEqual((done.returncode, done.stderr.splitlines()[-1]), (1, "refused 25 Device"))
        sources = dict(it.split(" ", 1) for it in (prefix / "share/pqds/SOURCES").read_text().splitlines())
        self.assertEqual(sources["program"], hashlib.sha256(binary().read_bytes()).hexdigest())
        self.assertRegex(sources["sources"], "^[0-9a-f]{64}$")

    def test_the_module_runs_the_installed_program(self) -> None:
        module = Path(self.said.splitlines()[-1])
        environment = {it: value for it, value in os.environ.items() if it != "PQDS"}
        environment.update(PYTHONPATH=str(module.parent), PATH=f"{self.place}/bin:{os.environ['PATH']}")
        script = "import pqds; print(pqds.__file__); print(pqds.program())"
        words = [sys.executable, "-B", "-c", script]
        done = subprocess.run(words, capture_output=True, text=True, check=True, env=environment)
        self.assertEqual(done.stdout.splitlines(), [str(module / "__init__.py"), f"{self.place}/bin/pqds"])

    def test_again_replaces_it(self) -> None:
        self.assertEqual(self.install(), self.said)
        self.assertEqual(len(list(self.place.rglob("*.dist-info"))), 1)
        self.assertEqual(list(self.place.rglob("*.new")), [])

    def test_the_manual_has_each_command(self) -> None:
        manual = (self.place / "share/man/man1/pqds.1").read_text()
        for name in COMMANDS:
            self.assertIn(f'.SH "{name.upper()}"', manual)

    def test_completions_know_each_command(self) -> None:
        text = (self.place / "share/zsh/site-functions/_pqds").read_text()
        for name in COMMANDS:
            self.assertIn(f"    '{name}:", text)
            self.assertIn(f"    {name})\n        _arguments", text)
        if shutil.which("bash") is None:
            self.skipTest("bash is not there")
        for typed, wanted in (
            (["que"], ["query"]),
            (["query", "t", "--fi"], ["--filter"]),
            (["append", "--style", "d"], ["dictionary", "delta"]),
            (["append", "--group-rows", ""], []),
            (["remove", "fi"], []),
        ):
            script = 'source "$0"; COMP_WORDS=(pqds "$@"); COMP_CWORD=$#; _pqds; printf "%s\\n" "${COMPREPLY[@]}"'
            words = ["bash", "-c", script, str(self.place / "share/bash-completion/completions/pqds"), *typed]
            done = subprocess.run(words, capture_output=True, text=True, check=True)
            self.assertEqual(sorted(done.stdout.split()), sorted(wanted), typed)

    def test_wrong_words(self) -> None:
        for words in (["--prefix"], ["--other"], ["--prefix", ""]):
            done = subprocess.run([str(TOP / "install"), *words], capture_output=True, text=True, check=False)
            self.assertEqual(done.returncode, 2)
            self.assertIn("./install [--prefix DIR]", done.stderr)
        done = subprocess.run(
            [str(TOP / "install"), "--prefix", "place", "--program", "/bin/true"],
            capture_output=True,
            text=True,
            check=False,
        )
        self.assertEqual(done.returncode, 1)


if __name__ == "__main__":
    unittest.main()
