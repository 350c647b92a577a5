"""The build backend of `pip install ./python`: it packs the module into a wheel, with the standard library alone."""

from __future__ import annotations

import base64
import hashlib
import io
import re
import tarfile
import zipfile
from pathlib import Path
from typing import Any, Dict

HERE = Path(__file__).resolve().parent


def _metadata() -> str:
    said = dict(re.findall(r'^([a-z-]+) = "(.*)"$', (HERE / "pyproject.toml").read_text(), re.M))
    found = re.search(r'^__version__ = "(.*)"$', (HERE / "pqds/__init__.py").read_text(), re.M)
    said["version"] = found[1] if found else "0"
    names = {"Name": "name", "Version": "version", "Summary": "description", "Requires-Python": "requires-python"}
    return "Metadata-Version: 2.1\n" + "".join(f"{it}: {said[word]}\n" for it, word in names.items())


def _stem() -> str:
    return f"pqds-{re.findall(r'^Version: (.*)$', _metadata(), re.M)[0]}"


def _sources() -> Dict[str, bytes]:
    return {
        f"pqds/{it.name}": it.read_bytes() for it in sorted((HERE / "pqds").iterdir()) if it.suffix in (".py", ".typed")
    }


def build_wheel(wheel_directory: str, config_settings: Any = None, metadata_directory: Any = None) -> str:  # noqa: ARG001
    """Makes the wheel, and returns its name."""
    info, name = f"{_stem()}.dist-info", f"{_stem()}-py3-none-any.whl"
    files = _sources()
    files[f"{info}/METADATA"] = _metadata().encode()
    files[f"{info}/WHEEL"] = b"Wheel-Version: 1.0\nGenerator: pqds\nRoot-Is-Purelib: true\nTag: py3-none-any\n"
    record = ""
    with zipfile.ZipFile(Path(wheel_directory) / name, "w", zipfile.ZIP_DEFLATED) as wheel:
        for path, text in files.items():
            wheel.writestr(zipfile.ZipInfo(path), text, zipfile.ZIP_DEFLATED)
            digest = base64.urlsafe_b64encode(hashlib.sha256(text).digest()).rstrip(b"=").decode()
            record += f"{path},sha256={digest},{len(text)}\n"
        wheel.writestr(zipfile.ZipInfo(f"{info}/RECORD"), f"{record}{info}/RECORD,,\n")
    return name


def build_sdist(sdist_directory: str, config_settings: Any = None) -> str:  # noqa: ARG001
    """Makes the archive of the sources, and returns its name."""
    files = {it: (HERE / it).read_bytes() for it in ("pyproject.toml", "backend.py")}
    files.update(_sources())
    files["PKG-INFO"] = _metadata().encode()
    with tarfile.open(Path(sdist_directory) / f"{_stem()}.tar.gz", "w:gz", format=tarfile.PAX_FORMAT) as archive:
        for path, text in files.items():
            entry = tarfile.TarInfo(f"{_stem()}/{path}")
            entry.size = len(text)
            archive.addfile(entry, io.BytesIO(text))
    return f"{_stem()}.tar.gz"
