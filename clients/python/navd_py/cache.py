"""Graphs that were made before, kept in the user's cache folder by what they were made from."""

from __future__ import annotations

import hashlib
import json
import os
import sys
import tempfile
import time
from dataclasses import dataclass
from typing import Dict, List, Optional, Tuple

from .translate import VERSION, Question
from .translate.state import Defined

# How long an entry that nobody asked for is kept, and how often that is looked after, in seconds.
KEPT = 60 * 24 * 3600
SWEPT = 24 * 3600


@dataclass(frozen=True)
class Entry:
    """What a translation gave, and what it asked of the project with the answers for which it is right."""

    source: Optional[bytes]
    fault: Optional[Tuple[int, int, str]]
    defined: List[Defined]
    asked: Dict[Question, str]


def cache_folder() -> str:
    """The folder for this package's graphs, by the XDG base directory specification."""
    base = os.environ.get("XDG_CACHE_HOME", "")
    if not os.path.isabs(base):
        base = os.path.join(os.path.expanduser("~"), ".cache")
    return os.path.join(base, "navd-py")


def key_of(module: str, package: bool, text: str) -> str:
    """The name of the entry for a text as that module, by this translator under this Python."""
    head = f"{VERSION} {sys.version_info[0]}.{sys.version_info[1]} {int(package)} {module}\n"
    return hashlib.sha256((head + text).encode("utf-8", "surrogatepass")).hexdigest()


class Cache:
    """Entries in a folder. What can't be read or written there is as if it weren't kept."""

    def __init__(self, folder: Optional[str] = None) -> None:
        self.folder = folder if folder is not None else cache_folder()

    def path(self, key: str) -> str:
        return os.path.join(self.folder, key[:2], key[2:])

    def find(self, key: str) -> Optional[Entry]:
        path = self.path(key)
        try:
            with open(path, "rb") as file:
                data = file.read()
            if time.time() - os.stat(path).st_mtime > SWEPT:
                os.utime(path)
        except OSError:
            return None
        return entry_of(data)

    def keep(self, key: str, entry: Entry) -> None:
        path = self.path(key)
        try:
            os.makedirs(os.path.dirname(path), mode=0o700, exist_ok=True)
            handle, draft = tempfile.mkstemp(dir=os.path.dirname(path))
            try:
                with os.fdopen(handle, "wb") as file:
                    file.write(data_of(entry))
                os.replace(draft, path)
            except OSError:
                os.unlink(draft)
        except OSError:
            return

    def sweep(self) -> None:
        """Removes what nobody asked for in a long time; looks for it once a day."""
        mark = os.path.join(self.folder, "swept")
        now = time.time()
        try:
            if os.path.exists(mark) and now - os.stat(mark).st_mtime < SWEPT:
                return
            os.makedirs(self.folder, mode=0o700, exist_ok=True)
            with open(mark, "w", encoding="utf-8"):
                pass
            for part in os.scandir(self.folder):
                if part.is_dir(follow_symlinks=False) and len(part.name) == 2:
                    for entry in os.scandir(part.path):
                        if now - entry.stat().st_mtime > KEPT:
                            os.unlink(entry.path)
        except OSError:
            return


def data_of(entry: Entry) -> bytes:
    head = {
        "fault": entry.fault,
        "defined": entry.defined,
        "asked": [[kind, name, answer] for (kind, name), answer in entry.asked.items()],
        "source": None if entry.source is None else len(entry.source),
    }
    return json.dumps(head, ensure_ascii=False).encode("utf-8", "surrogatepass") + b"\n" + (entry.source or b"")


def entry_of(data: bytes) -> Optional[Entry]:
    """The entry that these bytes keep, or None where they aren't whole."""
    line, _, source = data.partition(b"\n")
    try:
        head = json.loads(line.decode("utf-8", "surrogatepass"))
        if head["source"] is not None and head["source"] != len(source):
            return None
        fault = head["fault"]
        return Entry(
            None if head["source"] is None else source,
            None if fault is None else (int(fault[0]), int(fault[1]), str(fault[2])),
            [(name, kind, (at[0], at[1], at[2], at[3]), inside) for name, kind, at, inside in head["defined"]],
            {(kind, name): answer for kind, name, answer in head["asked"]},
        )
    except (ValueError, KeyError, TypeError, IndexError):
        return None
