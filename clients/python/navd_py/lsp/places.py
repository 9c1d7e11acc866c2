"""Places in texts: an editor's characters and navd's bytes.

An editor counts the characters of a line in units of UTF-16, or as it was agreed, navd counts bytes of UTF-8. Lines
count from 0 for both.
"""

from __future__ import annotations

from typing import Any, Dict, Sequence

# The ways to count characters that an editor may offer.
UTF8, UTF16, UTF32 = "utf-8", "utf-16", "utf-32"
ENCODINGS = (UTF8, UTF16, UTF32)


def units(text: str, encoding: str) -> int:
    """How many units a text has."""
    if text.isascii() or encoding == UTF32:
        return len(text)
    if encoding == UTF8:
        return len(text.encode("utf-8", "surrogatepass"))
    return len(text) + sum(character > "\uffff" for character in text)


def index_of(line: str, character: int, encoding: str) -> int:
    """The index in a line of the place that has so many units before it.

    A place behind the end is the end, and one within a character is in front of it."""
    if line.isascii() or encoding == UTF32:
        return min(max(character, 0), len(line))
    place = 0
    for index, letter in enumerate(line):
        place += units(letter, encoding)
        if place > character:
            return index
    return len(line)


def column_of(line: str, character: int, encoding: str) -> int:
    """The column in bytes of an editor's character."""
    return units(line[: index_of(line, character, encoding)], UTF8)


def character_of(line: str, column: int, encoding: str) -> int:
    """The editor's character of a column in bytes; of one within a letter the letter's, behind the end the end's."""
    return units(line[: index_of(line, column, UTF8)], encoding)


def word_at(line: str, index: int) -> "tuple[int, int]":
    """The start and the end of the name around an index, or right before it; an empty one where there is none."""
    start = end = min(index, len(line))
    while start > 0 and _is_of_name(line[start - 1]):
        start -= 1
    while end < len(line) and _is_of_name(line[end]):
        end += 1
    return start, end


def _is_of_name(letter: str) -> bool:
    return letter == "_" or ("a" + letter).isidentifier()


def range_of(lines: Sequence[str], span: Sequence[int], encoding: str) -> Dict[str, Any]:
    """The range of the protocol for a span of navd in a text with these lines."""

    def place(line: int, column: int) -> Dict[str, int]:
        text = lines[line] if 0 <= line < len(lines) else ""
        return {"line": line, "character": character_of(text, column, encoding) if text else column}

    return {"start": place(span[0], span[1]), "end": place(span[2], span[3])}
