"""The folders of an editor's workspace, and the documents that are open in it."""

from __future__ import annotations

import os
from typing import Any, Callable, Dict, Iterator, List, NamedTuple, Optional, Sequence

from ..keeper import OPERATOR, Keeper
from ..project import Project
from .documents import Document
from .folder import Folder
from .places import UTF8, index_of, range_of, units, word_at
from .uris import path_of, uri_of


class Name(NamedTuple):
    """A name in a file at which an editor asks: its line, the bytes before it and behind it, and what it is."""

    folder: Folder
    path: str
    line: int
    start: int
    end: int
    text: str


class Workspace:
    """The folders and the open documents."""

    def __init__(self, keeper: Keeper, project_of: Callable[[str], Project], encoding: str) -> None:
        self.keeper = keeper
        self.encoding = encoding
        self.folders: List[Folder] = []
        self.documents: Dict[str, Document] = {}
        self._project_of = project_of
        self._count = 0

    # Folders

    def add(self, uri: str) -> Optional[Folder]:
        """Takes a folder in by its URI; None where it has it or the URI isn't that of a folder."""
        root = path_of(uri)
        if root is None or not os.path.isdir(root) or any(folder.root == root for folder in self.folders):
            return None
        folder = Folder(str(self._count), uri, root, self._project_of(root), self.keeper)
        self._count += 1
        self.folders.append(folder)
        if len(self.folders) > 1:
            self._part()
        for document in self.documents.values():
            self._set_text(document)
        return folder

    def _part(self) -> None:
        """Lets each folder see its own files alone: names of modules mean what they mean in their folder."""
        for folder in self.folders:
            if folder.user == OPERATOR:
                folder.user = f"folder {folder.key}"
                self.keeper.view(folder.user, folder.key)

    def remove(self, uri: str) -> Optional[Folder]:
        """Takes a folder out; None where it isn't there."""
        root = path_of(uri)
        for folder in self.folders:
            if folder.root == root:
                self.folders.remove(folder)
                folder.remove()
                return folder
        return None

    # Files

    def locate(self, uri: str) -> Optional["tuple[Folder, str]"]:
        """The innermost folder that has the file, and the path there; also where a link leads into a folder."""
        path = path_of(uri)
        if path is None:
            return None
        return self._below(path) or self._below(os.path.realpath(path))

    def _below(self, path: str) -> Optional["tuple[Folder, str]"]:
        for folder in sorted(self.folders, key=lambda folder: -len(folder.root)):
            relative = folder.relative(path)
            if relative:
                return folder, relative
        return None

    def open(self, document: Document) -> None:
        """Takes a document in that the editor has opened."""
        self.documents[document.uri] = document
        if not self.folders:
            self._add_loose(document.uri)
        self._set_text(document)

    def _add_loose(self, uri: str) -> None:
        """Where the editor names no folder, that of the first document counts; it isn't read."""
        path = path_of(uri)
        folder = self.add(uri_of(os.path.dirname(path))) if path is not None else None
        if folder is not None:
            folder.is_loose = True

    def change(self, uri: str, version: Optional[int], changes: Any) -> None:
        """Carries out changes of a document; one that isn't open is passed over. Raises InvalidParams."""
        document = self.documents.get(uri)
        if document is not None:
            try:
                document.change(changes, self.encoding)
            finally:
                document.version = version
                self._set_text(document)

    def close(self, uri: str) -> None:
        """The editor has closed a document."""
        place = self.locate(uri) if self.documents.pop(uri, None) else None
        if place is not None and place[1] in place[0].open:
            folder, path = place
            folder.set_closed(path)

    def _set_text(self, document: Document) -> None:
        place = self.locate(document.uri)
        if place is not None and place[1].endswith(".py"):
            folder, path = place
            folder.set_open(path, document.uri, document.text)

    def refresh(self) -> None:
        """Translates what the editor changed."""
        for folder in self.folders:
            folder.refresh()
        self.keeper.prefer(folder.place_in_navd(path) for folder in self.folders for path in folder.open)

    # Places

    def name_at(self, uri: str, line: int, character: int) -> Optional[Name]:
        """The name at a place, or right before it; None where there is none."""
        place = self.locate(uri)
        if place is None:
            return None
        folder, path = place
        lines = self.lines(folder, path)
        if not 0 <= line < len(lines):
            return None
        text = lines[line]
        start, end = word_at(text, index_of(text, character, self.encoding))
        if start == end:
            return None
        return Name(folder, path, line, units(text[:start], UTF8), units(text[:end], UTF8), text[start:end])

    def lines(self, folder: Folder, path: str) -> Sequence[str]:
        """The lines of a file, as the editor has it where it is open."""
        uri = folder.open.get(path)
        document = self.documents.get(uri) if uri else None
        return document.lines if document else folder.lines(path)

    def location(self, folder: Folder, path: str, span: Sequence[int]) -> Dict[str, Any]:
        """A `Location` of the protocol."""
        return {"uri": folder.uri_of(path), "range": range_of(self.lines(folder, path), span, self.encoding)}

    def files(self) -> Iterator["tuple[Folder, str]"]:
        """All files of all folders."""
        for folder in self.folders:
            for path in list(folder.states):
                yield folder, path
