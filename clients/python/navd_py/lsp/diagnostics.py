"""What an editor is told of files that don't parse, or that navd doesn't take."""

from __future__ import annotations

from typing import Any, Dict, List, Optional, Tuple

from ..keeper import NO_ROOM
from ..project import Fault
from .folder import Folder
from .places import UTF8, index_of, range_of, units
from .protocol import Client
from .workspace import Workspace

ERROR, WARNING = 1, 2
SOURCE = "navd"
# Of so many files that aren't open it is told at most.
MOST_CLOSED = 500


class Diagnostics:
    """Tells the editor what changed since it was told last."""

    def __init__(self, workspace: Workspace, client: Client) -> None:
        self.workspace = workspace
        self.client = client
        self._told: Dict[str, List[Dict[str, Any]]] = {}
        self._seen: Optional[Tuple[Any, ...]] = None

    def publish(self) -> None:
        """Tells of each file of which something else is to be told than was."""
        folders = self.workspace.folders
        seen = tuple((folder.key, folder.changes, len(self.workspace.keeper.refused)) for folder in folders)
        if seen == self._seen:
            return
        self._seen = seen
        wanted = self._wanted()
        for uri in [uri for uri in self._told if uri not in wanted]:
            del self._told[uri]
            self._send(uri, [])
        for uri, listed in wanted.items():
            if self._told.get(uri) != listed:
                self._told[uri] = listed
                self._send(uri, listed)

    def left_out(self) -> Optional[str]:
        """What is to be said of the files for which navd has no room, or None where there is none."""
        number = sum(reason == NO_ROOM for reason in self.workspace.keeper.refused.values())
        return f"{number:,} files of the workspace are left out: {NO_ROOM}" if number else None

    def _send(self, uri: str, listed: List[Dict[str, Any]]) -> None:
        params: Dict[str, Any] = {"uri": uri, "diagnostics": listed}
        document = self.workspace.documents.get(uri)
        if document is not None and document.version is not None:
            params["version"] = document.version
        self.client.notify("textDocument/publishDiagnostics", params)

    def _wanted(self) -> Dict[str, List[Dict[str, Any]]]:
        wanted: Dict[str, List[Dict[str, Any]]] = {}
        closed = 0
        for folder, path in self.workspace.files():
            listed = self._of(folder, path)
            if listed and path not in folder.open:
                closed += 1
            if listed and (path in folder.open or closed <= MOST_CLOSED):
                wanted[folder.uri_of(path)] = listed
        return wanted

    def _of(self, folder: Folder, path: str) -> List[Dict[str, Any]]:
        fault = folder.states[path].fault
        if fault is not None:
            return [self._at(folder, path, fault, ERROR)]
        refusal = folder.refusal(path)
        if refusal is not None and (refusal != NO_ROOM or path in folder.open):
            return [self._at(folder, path, Fault(0, 0, f"left out: {refusal}"), WARNING)]
        return []

    def _at(self, folder: Folder, path: str, fault: Fault, severity: int) -> Dict[str, Any]:
        """A diagnostic from the place of a fault to the end of its line."""
        lines = self.workspace.lines(folder, path)
        line = min(max(fault.line, 0), max(len(lines) - 1, 0))
        text = lines[line] if lines else ""
        column, end = max(fault.column, 0), units(text, UTF8)
        if column >= end:  # behind the end: the last letter shows it
            column = units(text[: max(index_of(text, end, UTF8) - 1, 0)], UTF8)
        span = (line, column, line, end)
        return {
            "range": range_of(lines, span, self.workspace.encoding),
            "severity": severity,
            "source": SOURCE,
            "message": fault.message,
        }
