"""Requests, notifications and errors of the Language Server Protocol 3.17, over JSON-RPC 2.0."""

from __future__ import annotations

import itertools
import threading
from typing import Any, Callable, Dict, Optional, Union

from .frames import frame

Identifier = Union[int, str]

PARSE_ERROR = -32700
INVALID_REQUEST = -32600
METHOD_NOT_FOUND = -32601
INVALID_PARAMS = -32602
INTERNAL_ERROR = -32603
NOT_INITIALIZED = -32002
REQUEST_CANCELLED = -32800
REQUEST_FAILED = -32803

# The kinds of `window/showMessage` and `window/logMessage`.
ERROR, WARNING, INFO, LOG = 1, 2, 3, 4


class EditorGone(BaseException):
    """Nobody takes what is written. It isn't an Exception: no handler of faults of a request is to catch it."""


class ResponseError(Exception):
    """An error with which a request is answered."""

    def __init__(self, code: int, message: str) -> None:
        super().__init__(message)
        self.code = code
        self.message = message


class InvalidParams(ResponseError):
    """Parameters that aren't those of the method."""

    def __init__(self, name: str) -> None:
        super().__init__(INVALID_PARAMS, f"invalid params: {name}")


class Cancelled(ResponseError):
    """The editor wants no answer any more."""

    def __init__(self) -> None:
        super().__init__(REQUEST_CANCELLED, "the request was cancelled")


_NEEDED: Any = object()


def member(value: Any, path: str, kind: Any, default: Any = _NEEDED) -> Any:
    """The member of nested objects at a path of names between dots, of this type.

    Where one is missing or null it is the default; without a default, or with another type, InvalidParams."""
    for name in path.split("."):
        value = value.get(name) if isinstance(value, dict) else None
    if value is None and default is not _NEEDED:
        return default
    if not isinstance(value, kind) or (kind is int and isinstance(value, bool)):
        raise InvalidParams(path)
    return value


def asked(value: Any, path: str) -> bool:
    """Whether nested objects have `true` at a path of names between dots."""
    for name in path.split("."):
        value = value.get(name) if isinstance(value, dict) else None
    return value is True


class Client:
    """The editor's side, to which messages are written, by several threads. Writing raises EditorGone."""

    def __init__(self, write: Callable[[bytes], None]) -> None:
        self._write = write
        self._lock = threading.Lock()
        self._numbers = itertools.count(1)
        self._waiting: Dict[Identifier, Callable[[Any, Optional[Any]], None]] = {}

    def _send(self, message: Dict[str, Any]) -> None:
        data = frame({"jsonrpc": "2.0", **message})
        with self._lock:
            try:
                self._write(data)
            except (OSError, ValueError) as error:
                raise EditorGone(str(error)) from None

    def answer(self, identifier: Optional[Identifier], result: Any) -> None:
        """Answers a request."""
        self._send({"id": identifier, "result": result})

    def refuse(self, identifier: Optional[Identifier], error: ResponseError) -> None:
        """Answers a request with an error; None is the identifier of what was no message."""
        self._send({"id": identifier, "error": {"code": error.code, "message": error.message}})

    def notify(self, method: str, params: Any) -> None:
        """Tells the editor something."""
        self._send({"method": method, "params": params})

    def request(self, method: str, params: Any, then: Optional[Callable[[Any, Optional[Any]], None]] = None) -> None:
        """Asks the editor; `then` gets the result and the error when the answer comes."""
        identifier = f"navd-{next(self._numbers)}"
        if then is not None:
            self._waiting[identifier] = then
        self._send({"id": identifier, "method": method, "params": params})

    def answered(self, identifier: Any, result: Any, error: Optional[Any]) -> None:
        """Takes in an answer of the editor; one to no question is passed over."""
        then = self._waiting.pop(identifier, None) if isinstance(identifier, (int, str)) else None
        if then is not None:
            then(result, error)

    def show(self, kind: int, message: str) -> None:
        """Shows a message to the user."""
        self.notify("window/showMessage", {"type": kind, "message": message})

    def log(self, kind: int, message: str) -> None:
        """Puts a message into the editor's log."""
        self.notify("window/logMessage", {"type": kind, "message": message})
