"""The module as a package: its wheel, and that its names are all there."""

from __future__ import annotations

import importlib.util
import os
import subprocess
import sys
import tarfile
import unittest
import zipfile
from pathlib import Path
from typing import Any

from support import TOP, RoomCase

import pqds


def load_backend() -> Any:
    place = importlib.util.spec_from_file_location("backend", TOP / "python/backend.py")
    assert place is not None and place.loader is not None
    backend = importlib.util.module_from_spec(place)
    place.loader.exec_module(backend)
    return backend


class Package(RoomCase):
    def test_the_wheel_has_the_module(self) -> None:
        name = load_backend().build_wheel(".")
        self.assertEqual(name, f"pqds-{pqds.__version__}-py3-none-any.whl")
        with zipfile.ZipFile(name) as wheel:
            self.assertIsNone(wheel.testzip())
            names = wheel.namelist()
            record = wheel.read(f"pqds-{pqds.__version__}.dist-info/RECORD").decode()
        self.assertEqual(sorted(it.split(",")[0] for it in record.splitlines()), sorted(names))
        modules = sorted(f"pqds/{it.name}" for it in (TOP / "python/pqds").iterdir() if it.is_file())
        self.assertEqual(sorted(it for it in names if it.startswith("pqds/")), modules)
        words = [sys.executable, "-B", "-c", "import pqds; print(pqds.__file__)"]
        done = subprocess.run(words, env={**os.environ, "PYTHONPATH": name}, capture_output=True, text=True, check=True)
        self.assertIn(".whl", done.stdout)

    def test_the_sources_can_be_packed_again(self) -> None:
        name = load_backend().build_sdist(".")
        with tarfile.open(name) as archive:
            names = [it.split("/", 1)[1] for it in archive.getnames()]
        self.assertIn("backend.py", names)
        self.assertIn("pqds/py.typed", names)

    def test_each_public_name_is_there_and_is_explained(self) -> None:
        for name in pqds.__all__:
            value = getattr(pqds, name)
            if callable(value) and getattr(value, "__module__", "").startswith("pqds"):
                self.assertTrue(value.__doc__, name)
        for kind in (pqds.Dataset, pqds.ParquetFile):
            for name, value in vars(kind).items():
                if not name.startswith("_"):
                    self.assertTrue(value.__doc__, f"{kind.__name__}.{name}")

    def test_no_file_of_the_module_is_left_out(self) -> None:
        self.assertTrue(Path(pqds.__file__).with_name("py.typed").exists())


if __name__ == "__main__":
    unittest.main()
