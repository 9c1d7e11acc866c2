"""The documents that are open in an editor, as they stand there."""

from __future__ import annotations

from dataclasses import dataclass, field
from typing import Any, List, Optional

from ..stale import lines_of
from .places import index_of
from .protocol import InvalidParams, member


@dataclass
class Document:
    """An open document: its text, and the number that the editor gives to this state of it."""

    uri: str
    text: str
    version: Optional[int] = None
    _lines: Optional[List[str]] = field(default=None, repr=False)

    @property
    def lines(self) -> List[str]:
        """The lines of the text without their ends."""
        if self._lines is None:
            self._lines = lines_of(self.text)
        return self._lines

    def replace(self, text: str) -> None:
        """Takes a whole text."""
        self.text, self._lines = text, None

    def change(self, changes: Any, encoding: str) -> None:
        """Carries out the changes of a `textDocument/didChange`, in their order. Raises InvalidParams."""
        if not isinstance(changes, list):
            raise InvalidParams("contentChanges")
        for change in changes:
            text = member(change, "text", str)
            if member(change, "range", dict, None) is None:
                self.replace(text)
            else:
                start = self._offset(member(change, "range.start", dict), encoding)
                end = self._offset(member(change, "range.end", dict), encoding)
                self.replace(self.text[:start] + text + self.text[max(start, end) :])

    def _offset(self, position: Any, encoding: str) -> int:
        """Where a position stands in the text; one behind the end of its line is that end, as the protocol has it."""
        line, character = member(position, "line", int), member(position, "character", int)
        if line < 0 or character < 0:
            raise InvalidParams("position")
        offset = 0
        for number, text in enumerate(self.lines):
            if number == line:
                return offset + index_of(text, character, encoding)
            offset += len(text)
            offset += 2 if self.text[offset : offset + 2] == "\r\n" else 1
        return len(self.text)
