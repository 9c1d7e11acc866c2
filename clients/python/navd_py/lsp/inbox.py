"""The messages of an editor that wait to be answered.

They are read by a thread of their own, so that a request can be cancelled while another one is answered.
"""

from __future__ import annotations

import queue
import threading
from typing import Any, Callable, Optional, Set

from . import protocol
from .frames import BadFrame, Message, read_messages
from .protocol import Client, EditorGone, Identifier, ResponseError


class End:
    """The end of the input."""


class Inbox:
    """The messages that wait, filled by a thread that reads."""

    def __init__(self, read: Callable[[int], bytes], client: Client) -> None:
        self._read = read
        self._client = client
        self._queue: "queue.Queue[Any]" = queue.Queue()
        self._lock = threading.Lock()
        self._unanswered: Set[Identifier] = set()
        self._cancelled: Set[Identifier] = set()
        threading.Thread(target=self._fill, daemon=True).start()

    def next(self, seconds: Optional[float]) -> Any:
        """The next message, or an End, or None where none comes within so many seconds."""
        try:
            return self._queue.get(timeout=seconds) if seconds is None or seconds > 0 else self._queue.get_nowait()
        except queue.Empty:
            return None

    def end(self) -> None:
        """Puts the end behind the messages that wait."""
        self._queue.put(End())

    def is_cancelled(self, identifier: Identifier) -> bool:
        """Whether a request is wanted no more."""
        with self._lock:
            return identifier in self._cancelled

    def answered(self, identifier: Identifier) -> None:
        """A request has its answer."""
        with self._lock:
            self._unanswered.discard(identifier)
            self._cancelled.discard(identifier)

    def _fill(self) -> None:
        try:
            for item in read_messages(self._read):
                if isinstance(item, BadFrame):
                    self._client.refuse(None, ResponseError(protocol.PARSE_ERROR, f"parse error: {item.reason}"))
                else:
                    self._sort(item)
        except (OSError, EditorGone):
            pass  # that is the end, too
        finally:
            self.end()

    def _sort(self, item: Message) -> None:
        message = item.value
        identifier = message.get("id") if isinstance(message, dict) else None
        is_known = isinstance(identifier, (int, str)) and not isinstance(identifier, bool)
        if not isinstance(message, dict) or ("id" in message and not is_known and identifier is not None):
            self._client.refuse(None, ResponseError(protocol.INVALID_REQUEST, "invalid request"))
        elif "method" not in message:
            if "result" in message or "error" in message:
                self._queue.put(message)
            else:
                self._client.refuse(None, ResponseError(protocol.INVALID_REQUEST, "invalid request"))
        elif not isinstance(message["method"], str):
            self._client.refuse(identifier, ResponseError(protocol.INVALID_REQUEST, "invalid request"))
        elif message["method"] == "$/cancelRequest":
            self._cancel(message.get("params"))
        else:
            with self._lock:
                if identifier is not None:
                    self._unanswered.add(identifier)
            self._queue.put(message)

    def _cancel(self, params: Any) -> None:
        identifier = params.get("id") if isinstance(params, dict) else None
        with self._lock:
            if isinstance(identifier, (int, str)) and identifier in self._unanswered:
                self._cancelled.add(identifier)
