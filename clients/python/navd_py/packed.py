"""Many texts, of which few are needed at a time."""

from __future__ import annotations

import zlib
from typing import Dict, Iterable, Optional

# So many texts are kept as they are, those that were set last.
MOST_PLAIN = 4


class PackedTexts:
    """Texts in bytes by their paths; all but the last few are kept packed."""

    def __init__(self) -> None:
        self._plain: Dict[str, bytes] = {}  # in the order in which they were set
        self._packed: Dict[str, bytes] = {}

    def __contains__(self, path: object) -> bool:
        return path in self._plain or path in self._packed

    def __len__(self) -> int:
        return len(self._plain) + len(self._packed)

    @property
    def paths(self) -> Iterable[str]:
        """The paths of all texts."""
        return [*self._packed, *self._plain]

    def get(self, path: str) -> Optional[bytes]:
        """The text at a path, or None."""
        if path in self._plain:
            return self._plain[path]
        packed = self._packed.get(path)
        return None if packed is None else zlib.decompress(packed)

    def set(self, path: str, text: bytes) -> None:
        """Keeps a text in place of the one before."""
        self.discard(path)
        self._plain[path] = text
        if len(self._plain) > MOST_PLAIN:
            first = next(iter(self._plain))
            self._packed[first] = zlib.compress(self._plain.pop(first), 1)

    def discard(self, path: str) -> None:
        """Forgets a text, where there is one."""
        self._plain.pop(path, None)
        self._packed.pop(path, None)
