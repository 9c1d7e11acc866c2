"""A folder of the workspace: its files, and what each of them answers with."""

from __future__ import annotations

import os
from dataclasses import dataclass
from typing import Dict, Iterable, Iterator, List, Optional, Sequence, Set, Tuple

from ..keeper import OPERATOR, Keeper
from ..project import Definition, Fault, Project, Translated, graph_path, source_path
from ..session import Reply, Request
from ..stale import LastGraphs, lines_of
from .uris import uri_below

# Definitions of these kinds are kept of every file; the others, such as parameters, of open ones alone.
KEPT_KINDS = frozenset(("module", "class", "function", "method", "variable", "attribute"))
# The lines of so many files that aren't open are kept.
MOST_LINES_KEPT = 64


@dataclass(frozen=True)
class State:
    """What a text became: its definitions, why it has no graph of its own, and whether the one of before goes on."""

    definitions: Tuple[Definition, ...]
    fault: Optional[Fault]
    is_stale: bool


class Folder:
    """A folder of the workspace. Its files are committed below `key`, and asked for as a user who sees these alone."""

    def __init__(self, key: str, uri: str, root: str, project: Project, keeper: Keeper) -> None:
        self.key = key
        self.uri = uri
        self.root = root
        self.project = project
        self.keeper = keeper
        self.user = OPERATOR
        self.is_loose = False  # its open documents are all that counts
        self.known: Set[str] = set()  # the files that it has: those on the disk and the open ones
        self._scanned: Set[str] = set()  # those that the disk had
        self.open: Dict[str, str] = {}  # the URIs of the open documents
        self.states: Dict[str, State] = {}
        self.changes = 0  # counts what becomes of files
        self._last = LastGraphs()
        self._urgent: Dict[str, None] = {}  # files that have to be translated, in the order of the changes
        self._waiting: Dict[str, None] = {}  # and those that may wait, since no editor has them open
        self._touched: Set[str] = set()  # files that changed since the loading began
        self._lines: Dict[str, List[str]] = {}

    # Paths

    def relative(self, path: str) -> Optional[str]:
        """The path of a file relative to the folder, with slashes, or None where it isn't below it."""
        below = self.root if self.root.endswith(os.sep) else self.root + os.sep
        return path[len(below) :].replace(os.sep, "/") if path.startswith(below) else None

    def has_below(self, path: str) -> bool:
        """Whether it knows files in a folder."""
        return any(one.startswith(path + "/") for one in self.known)

    def uri_of(self, path: str) -> str:
        """The URI of one of its files: as the editor wrote it, where it is open."""
        return self.open.get(path) or uri_below(self.uri, path)

    def place_in_navd(self, path: str) -> str:
        """The path under which navd has the file's graph."""
        return f"{self.key}/{graph_path(path)}"

    def path_of_row(self, place: str) -> str:
        """The file whose graph navd has at a path."""
        return source_path(place[len(self.key) + 1 :])

    # Texts

    def set_open(self, path: str, uri: str, text: str) -> None:
        """An editor has the file open, with this text."""
        self.open[path] = uri
        self.known.add(path)
        self._changed(path, self.project.set_text(path, text), self._urgent)

    def set_closed(self, path: str) -> None:
        """The editor has closed the file: what the disk has counts; of a file that isn't the project's nothing."""
        self.open.pop(path, None)
        affected = self.project.reread(path)
        if self.is_loose or path not in self.project.scan():
            self.known.discard(path)
            affected += self.project.set_text(path, None) if self._is_there(path) else []
        self._changed(path, affected, self._urgent)

    def _is_there(self, path: str) -> bool:
        return os.path.exists(os.path.join(self.root, path))

    def reread(self, path: str, exists: bool) -> None:
        """The file on the disk has changed, or come or gone. Of an open file the editor's text goes on."""
        if path in self.open:
            return
        if exists:
            self.known.add(path)
            self._scanned.add(path)
        else:
            self.known.discard(path)
            self._scanned.discard(path)
        self._changed(path, self.project.reread(path), self._waiting)

    def rescan(self) -> None:
        """Finds files that came or went on the disk."""
        there = set(self.project.scan())
        for path in sorted(there ^ self._scanned):
            self.reread(path, path in there)
        self._scanned = there

    def _changed(self, path: str, affected: Iterable[str], into: Dict[str, None]) -> None:
        for one in [path, *affected]:
            if one not in self._urgent:
                into[one] = None
            if into is self._urgent:
                self._waiting.pop(one, None)
            self._touched.add(one)
            self._lines.pop(one, None)

    def lines(self, path: str) -> Sequence[str]:
        """The lines of a file as it was translated; none where it can't be read."""
        lines = self._lines.pop(path, None)
        if lines is None:
            lines = lines_of(self.project.text(path) or "")
        self._lines[path] = lines  # the one used last stands last
        while len(self._lines) > MOST_LINES_KEPT:
            del self._lines[next(iter(self._lines))]
        return lines

    # Translating

    @property
    def has_waiting(self) -> bool:
        """Whether files that changed on the disk still have to be translated."""
        return bool(self._waiting)

    def load(self) -> Iterator[Tuple[int, int]]:
        """Reads the folder. After each file it tells how many were translated, of how many."""
        self._touched.clear()
        paths = self.project.scan()
        self._scanned = set(paths)
        self.known = self._scanned.union(self.open)
        yield 0, len(paths)
        for number, translated in enumerate(self.project.translate_all(paths), 1):
            if translated.path not in self._touched:
                self._take(translated)
            yield number, len(paths)

    def refresh(self) -> None:
        """Translates what an editor changed."""
        while self._urgent:
            self._translate(self._urgent)

    def refresh_one(self) -> bool:
        """Translates one file that changed on the disk. Whether there was one."""
        if self._waiting:
            self._translate(self._waiting)
            return True
        return False

    def _translate(self, due: Dict[str, None]) -> None:
        path = next(iter(due))
        del due[path]
        if path in self.known:
            self._take(self.project.translated(path))
        else:
            self.states.pop(path, None)
            self._last.forget(path)
            self.keeper.put(self.place_in_navd(path), None)
            self.changes += 1

    def _take(self, translated: Translated) -> None:
        path = translated.path
        current = self._last.current(translated, self.project.text(path))
        definitions = current.definitions
        if path not in self.open:
            definitions = tuple(definition for definition in definitions if definition.kind in KEPT_KINDS)
        self.states[path] = State(definitions, current.fault, current.is_stale)
        self.keeper.put(self.place_in_navd(path), current.source)
        self.changes += 1

    # Questions

    def ask(self, requests: Sequence[Request]) -> List[Reply]:
        """The replies to questions about its files, over all of them as they stand."""
        return self.keeper.ask(requests, self.user)

    def refusal(self, path: str) -> Optional[str]:
        """Why navd doesn't take the file's graph, or None."""
        return self.keeper.refused.get(self.place_in_navd(path))

    def definitions_at(self, path: str, line: int, column: int) -> List[Definition]:
        """The definitions of the file whose name stands at a place, in bytes."""
        state = self.states.get(path)
        found = state.definitions if state else ()
        return [one for one in found if one.span[:2] <= (line, column) <= one.span[2:] and one.kind != "module"]

    def remove(self) -> None:
        """Takes all its files out of navd."""
        for path in list(self.states):
            self.keeper.put(self.place_in_navd(path), None)
        self.states.clear()
