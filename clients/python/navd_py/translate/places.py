"""Where names stand in a text that `ast` gives no place for."""

from __future__ import annotations

import ast
import re
from typing import List, Optional, Tuple

# A line and the columns of its start and end: lines from 0, columns in UTF-8 bytes from 0.
Place = Tuple[int, int, int]

WORD = re.compile(r"\w+")
SKIPPED = re.compile(r"(?:[^\S\n]|\\\n|\n|#[^\n]*)+")


class Lines:
    """The lines of a text as `ast` counts them, as bytes."""

    def __init__(self, text: str) -> None:
        # `ast` ends lines at newlines alone, once carriage returns are newlines.
        self.lines: List[bytes] = text.replace("\r\n", "\n").replace("\r", "\n").encode("utf-8", "replace").split(b"\n")

    def word(self, line: int, start: int, name: str) -> Optional[Place]:
        """The first place from (line, start) on at which the name stands as a word, in this line or the next 20."""
        pattern = re.compile(r"(?<!\w)" + re.escape(name) + r"(?!\w)")
        for number in range(line, min(line + 20, len(self.lines))):
            text = self.lines[number].decode("utf-8", "replace")
            if number == line:
                before = len(self.lines[number][:start].decode("utf-8", "replace"))
            else:
                before = 0
            found = pattern.search(text, before)
            if found:
                column = len(text[: found.start()].encode("utf-8", "replace"))
                return number, column, column + len(name.encode("utf-8", "replace"))
        return None

    def ending(self, line: int, end: int, name: str) -> Optional[Place]:
        """The place of the name that ends at (line, end), or None where another text stands there."""
        data = name.encode("utf-8", "replace")
        if line >= len(self.lines):
            return None
        start = end - len(data)
        if start >= 0 and self.lines[line][start:end] == data:
            return line, start, end
        # A name past ASCII may be written in another normal form than `ast` gives it in.
        before = self.lines[line][:end].decode("utf-8", "replace")
        found = re.search(r"\w+$", before)
        if found is None or found.group().isascii():
            return None
        column = len(before[: found.start()].encode("utf-8", "replace"))
        return line, column, end

    def slice(self, line: int, start: int, end: int) -> bytes:
        return self.lines[line][start:end] if line < len(self.lines) else b""


def words_between(lines: Lines, node: ast.stmt) -> List[Tuple[str, int, int, int]]:
    """The words of a statement without strings, each with its place, comments left out: of an import."""
    found: List[Tuple[str, int, int, int]] = []
    last = (node.end_lineno or node.lineno) - 1
    for number in range(node.lineno - 1, min(last + 1, len(lines.lines))):
        data = lines.lines[number]
        if number == last:
            data = data[: node.end_col_offset]
        text = data.decode("utf-8", "replace")
        begin = 0
        if number == node.lineno - 1:
            begin = len(data[: node.col_offset].decode("utf-8", "replace"))
        comment = text.find("#", begin)
        for match in WORD.finditer(text, begin, comment if comment >= 0 else len(text)):
            column = match.start() if text.isascii() else len(text[: match.start()].encode("utf-8", "replace"))
            word = match.group()
            found.append((word, number, column, column + len(word.encode("utf-8", "replace"))))
    return found
