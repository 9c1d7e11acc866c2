"""What the language server does between questions: it reads folders, and follows what changes on the disk."""

from __future__ import annotations

import time
from typing import Any, Callable, Iterator, Optional, Tuple

from ..keeper import Keeper, Refused
from ..session import NoConnection, NoProgram
from ..watch import FolderWatch
from .folder import Folder
from .protocol import Client

# So many seconds the background may take before a question is looked for.
SLICE = 0.05
# So many seconds may go by, while a folder is read, before what was read is committed.
BETWEEN_COMMITS = 1.0
# Looking at the times of all files may take one part in so many of the time.
SHARE_OF_LOOKS = 50
SHORTEST_PAUSE = 2.0


def commit_or_tell(keeper: Keeper, tell: Callable[[str], None]) -> bool:
    """Commits what changed; where navd can't be had the reason is told. Whether it was committed."""
    try:
        keeper.commit()
        return True
    except (Refused, NoProgram, NoConnection) as failure:
        tell(str(failure))
        return False


class Progress:
    """A bar of progress in the editor, where it has them: Language Server Protocol 3.17, "Work Done Progress"."""

    def __init__(self, client: Client, token: str, title: str, is_supported: bool) -> None:
        self._client = client
        self._token = token
        self._title = title
        self._is_created = False
        self._is_begun = False
        self._is_ended = False
        self._shown = -1
        if is_supported:
            client.request("window/workDoneProgress/create", {"token": token}, self._created)

    def _created(self, _: Any, error: Optional[Any]) -> None:
        self._is_created = error is None

    def report(self, done: int, whole: int) -> None:
        """So many of so many are done."""
        percentage = 100 * done // whole if whole else 100
        if self._is_ended or not self._is_created or percentage == self._shown:
            return
        self._shown = percentage
        value = {"kind": "report", "message": f"{done}/{whole} files", "percentage": percentage}
        if not self._is_begun:
            self._is_begun = True
            value.update(kind="begin", title=self._title, cancellable=False)
        self._client.notify("$/progress", {"token": self._token, "value": value})

    def end(self, message: str) -> None:
        """All is done."""
        self._is_ended = True
        if self._is_begun:
            self._client.notify("$/progress", {"token": self._token, "value": {"kind": "end", "message": message}})


class Loading:
    """The first reading of a folder, a slice at a time."""

    def __init__(self, folder: Folder, keeper: Keeper, progress: Progress, tell: Callable[[str], None]) -> None:
        self.folder = folder
        self._keeper = keeper
        self._progress = progress
        self._tell = tell
        self._steps: Iterator[Tuple[int, int]] = folder.load()
        self._committed = time.monotonic()
        self._whole = 0

    def step(self) -> bool:
        """Reads for a slice of time. Whether there is more to read."""
        until = time.monotonic() + SLICE
        while time.monotonic() < until:
            try:
                done, self._whole = next(self._steps)
            except StopIteration:
                commit_or_tell(self._keeper, self._tell)
                self.stop()
                return False
            self._progress.report(done, self._whole)
        if time.monotonic() - self._committed > BETWEEN_COMMITS:
            commit_or_tell(self._keeper, self._tell)
            self._committed = time.monotonic()
        return True

    def stop(self) -> None:
        """Reads no more."""
        self._progress.end(f"{self._whole} files")


class DiskWatch:
    """Follows a folder on the disk where the editor doesn't tell of changes."""

    def __init__(self, folder: Folder) -> None:
        self._folder = folder
        self._watch = FolderWatch(folder.root, folder.project.scan)
        self._due = time.monotonic() + SHORTEST_PAUSE

    def seconds_to_wait(self) -> float:
        """So long it is up to the next look."""
        return max(self._due - time.monotonic(), 0.0)

    def look(self) -> None:
        """Looks, where it is time to, and takes in what changed."""
        start = time.monotonic()
        if start < self._due:
            return
        for path, exists in self._watch.changes():
            self._folder.reread(path, exists)
        now = time.monotonic()
        self._due = now + max(SHORTEST_PAUSE, (now - start) * SHARE_OF_LOOKS)
