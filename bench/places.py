"""What scripts of this folder ask at: places in texts of Python modules, found without reading them as Python."""

from __future__ import annotations

import re
from typing import Iterator, NamedTuple

CALL = re.compile(r"(?<!\w)(?<!def )(?<!class )([A-Za-z_]\w*)\(")
DEFINITION = re.compile(r"^\s*def ([A-Za-z_]\w*)")
# What may stand before a bracket and is no name, and names that a project doesn't define.
PASSED_OVER = {"and", "elif", "if", "in", "is", "not", "or", "return", "while", "range", "str", "len", "print"}


class Place(NamedTuple):
    """Line and column from 0, the column in bytes."""

    line: int
    column: int


def places(text: str, form: re.Pattern[str]) -> Iterator[Place]:
    for number, line in enumerate(text.split("\n")):
        if line.lstrip().startswith("#"):
            continue
        for found in form.finditer(line):
            if found[1] not in PASSED_OVER:
                yield Place(number, len(line[: found.start(1)].encode()))


def calls(text: str) -> list[Place]:
    """Where the names stand that are called."""
    return list(places(text, CALL))


def definitions(text: str) -> list[Place]:
    """Where the names of functions and methods stand that are defined."""
    return list(places(text, DEFINITION))
