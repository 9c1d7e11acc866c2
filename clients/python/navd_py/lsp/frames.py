"""Messages of the Language Server Protocol on a stream: a header with the length of the body, and the body.

Language Server Protocol 3.17, "Base Protocol".
"""

from __future__ import annotations

import json
import re
from dataclasses import dataclass
from typing import Any, Callable, Generator, Iterator, Optional, Union

# So many bytes the body of a message may have; a longer one is passed over.
LONGEST_BODY = 256 * 1024 * 1024
# So many bytes a line of a header may have.
LONGEST_HEADER = 4096

_LENGTH = re.compile(rb"content-length[ \t]*:[ \t]*([0-9]{1,18})[ \t]*\Z", re.IGNORECASE)
_FIELD = re.compile(rb"[!-9;-~]+[ \t]*:")


@dataclass(frozen=True)
class BadFrame:
    """Something on the stream that is no message. What stands behind it is read on."""

    reason: str


@dataclass(frozen=True)
class Message:
    """The value of a body; whether it is a message of JSON-RPC isn't looked at."""

    value: Any


def frame(value: Any) -> bytes:
    """The bytes of a message with this value."""
    try:
        body = json.dumps(value, ensure_ascii=False, separators=(",", ":")).encode("utf-8")
    except UnicodeEncodeError:  # half of a pair of UTF-16
        body = json.dumps(value, separators=(",", ":")).encode("ascii")
    return b"Content-Length: %d\r\n\r\n" % len(body) + body


class _Stream:
    """Bytes that are read in pieces."""

    def __init__(self, read: Callable[[int], bytes]) -> None:
        self._read = read
        self._held = bytearray()
        self.ended = False

    def _more(self) -> bool:
        piece = b"" if self.ended else self._read(65_536)
        self.ended = self.ended or not piece
        self._held += piece
        return bool(piece)

    def line(self) -> bytes:
        """A line with its end, or what is there where it is too long or the stream ends."""
        start = 0
        while True:
            end = self._held.find(b"\n", start)
            if end >= 0 or len(self._held) > LONGEST_HEADER:
                return self._take(end + 1 if end >= 0 else LONGEST_HEADER)
            start = len(self._held)
            if not self._more():
                return self._take(len(self._held))

    def exactly(self, number: int) -> bytes:
        """So many bytes, or fewer where the stream ends."""
        while len(self._held) < number and self._more():
            pass
        return self._take(number)

    def pass_over(self, number: int) -> None:
        while number > 0 and (self._held or self._more()):
            number -= len(self._take(number))

    def _take(self, number: int) -> bytes:
        taken = bytes(self._held[:number])
        del self._held[:number]
        return taken


def read_messages(read: Callable[[int], bytes]) -> Iterator[Union[Message, BadFrame]]:
    """The messages of a stream up to its end. `read` gives at most so many bytes, and none at the end.

    Lines that belong to no header are passed over up to the next header, and told once.
    """
    stream = _Stream(read)
    while True:
        length = yield from _header(stream)
        if length is None:
            return
        if length > LONGEST_BODY:
            stream.pass_over(length)
            yield BadFrame(f"a message of {length} bytes is too long")
            continue
        body = stream.exactly(length)
        if len(body) < length:
            yield BadFrame("the input ends within a message")
            return
        yield _value(body)


def _header(stream: _Stream) -> Generator[BadFrame, None, Optional[int]]:
    """Reads a header; returns the length of the body, or None at the end of the stream."""
    length = None
    is_bad = False
    while True:
        line = stream.line()
        if not line:
            if length is not None:
                yield BadFrame("the input ends within a header")
            return None
        field = line.rstrip(b"\r\n")
        found = _LENGTH.match(field)
        if found:
            length = int(found.group(1))
        elif not field:
            if length is not None:
                return length
        elif not _FIELD.match(field) or not line.endswith(b"\n"):
            length = None
            if not is_bad:
                is_bad = True
                yield BadFrame("a line is no field of a header")


def _value(body: bytes) -> Union[Message, BadFrame]:
    try:
        return Message(json.loads(body))
    except (ValueError, RecursionError):
        return BadFrame("the body of a message isn't JSON in UTF-8")
