"""The options of calls: those of the files that a call writes, and the greatest number of rows that it prints."""

from __future__ import annotations

from typing import Any, List, Mapping, Optional, TypedDict


class FileOptions(TypedDict, total=False):
    """How files are written. What is not given, or None, is as the program has it.

    `style` is plain, dictionary, delta, lengths or split, and for `remove` and `rewrite` also keep: that of the first
    group that is written anew.
    `group_rows` is the greatest number of rows of a group, `page_rows` of a page; `page_version` is 1 or 2.
    """

    style: Optional[str]
    group_rows: Optional[int]
    page_rows: Optional[int]
    page_version: Optional[int]


_WORDS = {
    "style": "--style",
    "group_rows": "--group-rows",
    "page_rows": "--page-rows",
    "page_version": "--page-version",
}


def file_words(files: Mapping[str, Any]) -> List[str]:
    """The options as words of a call. Raises `TypeError` for a name that is no option."""
    words: List[str] = []
    for name, value in files.items():
        if name not in _WORDS:
            raise TypeError(f"{name!r} is no option of files: they are {', '.join(_WORDS)}")
        if value is not None:
            words += [_WORDS[name], str(value)]
    return words


def limit_words(limit: Optional[int]) -> List[str]:
    """The greatest number of rows as words of a call; none for all."""
    return [] if limit is None else ["--limit", str(limit)]
