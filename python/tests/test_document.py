"""docs/PYTHON.md, as it stands: its blocks are run in order, and print what it shows."""

from __future__ import annotations

import contextlib
import io
import unittest
import warnings
from typing import Any, Dict, List, Tuple

from support import TOP, RoomCase, mend_cramjam

PAGE = TOP / "docs/PYTHON.md"


def blocks(text: str) -> List[Tuple[str, str, str]]:
    """The blocks of a page: the heading above each, its mark and its lines."""
    found: List[Tuple[str, str, str]] = []
    heading, mark = "", ""
    lines: List[str] = []
    for line in text.splitlines():
        if line.startswith("```"):
            if mark:
                found.append((heading, mark, "\n".join(lines)))
            mark, lines = ("" if mark else line[3:]), []
        elif mark:
            lines.append(line)
        elif line.startswith("## "):
            heading = line[3:]
    return found


@unittest.skipUnless(PAGE.exists(), "docs/PYTHON.md is not here")
class Document(RoomCase):
    def test_each_block_prints_what_the_page_shows(self) -> None:
        mend_cramjam()
        names: Dict[str, Any] = {}
        left = set()
        steps = blocks(PAGE.read_text())
        for (heading, mark, text), (_, after, shown) in zip(steps, [*steps[1:], ("", "", "")]):
            if mark != "python" or heading in left:
                continue
            printed = io.StringIO()
            try:
                with contextlib.redirect_stdout(printed), warnings.catch_warnings():
                    warnings.simplefilter("ignore")
                    exec(compile(text, f"{PAGE.name}: {heading}", "exec"), names)
            except ModuleNotFoundError:
                left.add(heading)
                continue
            with self.subTest(heading=heading):
                self.assertEqual(printed.getvalue().rstrip(), shown if after == "text" else "")
        self.assertLessEqual(left, {"Frames", "Arrow", "Dask", "Other tools"})


if __name__ == "__main__":
    unittest.main()
