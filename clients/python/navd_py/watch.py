"""Which files of a folder have changed on the disk, found by looking at their times."""

from __future__ import annotations

import os
from typing import Callable, Dict, Iterable, List, Optional, Tuple

# The time of the last change in nanoseconds, the size in bytes, and the number of the file.
_Mark = Tuple[int, int, int]


class FolderWatch:
    """Looks at the files of a folder again and again. `scan` lists them, relative to the folder, with slashes."""

    def __init__(self, folder: str, scan: Callable[[], Iterable[str]]) -> None:
        self._folder = folder
        self._scan = scan
        self._marks = self._look()

    def changes(self) -> List[Tuple[str, bool]]:
        """The files that came, changed or went since the last look, sorted, and whether each is there now."""
        before, self._marks = self._marks, self._look()
        paths = sorted(path for path in before.keys() | self._marks.keys() if before.get(path) != self._marks.get(path))
        return [(path, path in self._marks) for path in paths]

    def _look(self) -> Dict[str, _Mark]:
        marks = ((path, self._mark(path)) for path in self._scan())
        return {path: mark for path, mark in marks if mark is not None}

    def _mark(self, path: str) -> Optional[_Mark]:
        try:
            found = os.stat(os.path.join(self._folder, path))
        except (OSError, ValueError):
            return None
        return found.st_mtime_ns, found.st_size, found.st_ino
