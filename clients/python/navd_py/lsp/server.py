"""The language server: it takes messages from an editor, and answers them one after the other.

Between messages it reads the folders of the workspace, and follows what changes in them.
"""

from __future__ import annotations

import sys
import time
import traceback
from dataclasses import dataclass
from typing import Any, Callable, Dict, List, Optional, Sequence, Set, Tuple

from .. import __version__
from ..keeper import Keeper
from ..project import Project
from ..session import Session
from . import protocol
from .background import DiskWatch, Loading, Progress, commit_or_tell
from .diagnostics import Diagnostics
from .documents import Document
from .folder import Folder
from .inbox import End, Inbox
from .places import ENCODINGS, UTF16
from .protocol import Cancelled, Client, EditorGone, Identifier, ResponseError, asked, member
from .queries import Queries
from .symbols import WorkspaceSymbols, document_symbols, flat_symbols
from .uris import uri_of
from .workspace import Name, Workspace

# So many seconds after a change of a text it is translated, where no question comes before.
SECONDS_OF_TYPING = 0.2


@dataclass(frozen=True)
class Options:
    """What the words of the command say; the editor's `initializationOptions` come before them."""

    program: Optional[str] = None
    roots: Tuple[str, ...] = ()
    excludes: Tuple[str, ...] = ()
    cache: bool = True


class Server:
    """Serves one editor."""

    def __init__(self, options: Options, read: Callable[[int], bytes], write: Callable[[bytes], None]) -> None:
        self.options = options
        self.client = Client(write)
        self.inbox = Inbox(read, self.client)
        self.keeper = Keeper(self._open_session, say=self._tell_of_navd)
        self.workspace = Workspace(self.keeper, self._project_of, UTF16)
        self.queries = Queries(
            self.workspace,
            lambda message: self.client.show(protocol.WARNING, message),
            lambda message: self.client.log(protocol.INFO, message),
        )
        self.symbols = WorkspaceSymbols(self.workspace)
        self.diagnostics = Diagnostics(self.workspace, self.client)
        self.capabilities: Dict[str, Any] = {}
        self.initialization: Dict[str, Any] = {}
        self.is_initialized = False
        self.is_shut_down = False
        self.loadings: List[Loading] = []
        self.watches: Dict[str, DiskWatch] = {}
        self._started: List[Folder] = []
        self._to_load: List[str] = []
        self._waiting: List[Tuple[Identifier, str, Any]] = []  # requests for which the folders have to be read
        self._rescans: List[Folder] = []
        self._is_begun = False  # the editor has said that it is ready, or has opened a document
        self._is_typed_at: Optional[float] = None
        self._shown: Set[str] = set()

    # The loop

    def serve(self) -> int:
        """Answers up to the end. The status: 0 where the editor took its leave, 1 where it didn't."""
        try:
            while True:
                message = self.inbox.next(self._seconds_to_wait())
                if isinstance(message, End):
                    return 0 if self.is_shut_down else 1
                if message is None:
                    self._between()
                elif message.get("method") == "exit" and "id" not in message:
                    return 0 if self.is_shut_down else 1
                else:
                    self._take(message)
        except EditorGone:
            return 1
        finally:
            self.keeper.close()

    def _seconds_to_wait(self) -> Optional[float]:
        """How long to wait for a message before something else is to be done."""
        if self.loadings or self._rescans or any(folder.has_waiting for folder in self.workspace.folders):
            return 0.0
        if self._to_load and self._is_begun:
            return 0.0
        waits = [watch.seconds_to_wait() for watch in self.watches.values()]
        if self._is_typed_at is not None:
            waits.append(max(self._is_typed_at + SECONDS_OF_TYPING - time.monotonic(), 0.0))
        return min(waits) if waits else None

    def _between(self) -> None:
        """Does a slice of what has to be done between messages."""
        try:
            self._between_messages()
        except Exception as failure:  # a fault of this program; the editor isn't left without a server for it
            self._tell_of_fault("between messages", failure)
            self.loadings.clear()
            self._rescans.clear()
        self._answer_waiting()

    def _between_messages(self) -> None:
        if self._is_typed_at is not None and time.monotonic() >= self._is_typed_at + SECONDS_OF_TYPING:
            self._settle()
        elif self._to_load and self._is_begun:
            self._start_loading(self._to_load.pop(0))
        elif self.loadings:
            if not self.loadings[0].step():
                self.loadings.pop(0)
                self.diagnostics.publish()
                self._tell_left_out()
        elif self._rescans:
            self._rescans.pop().rescan()
        elif any(folder.has_waiting for folder in self.workspace.folders):
            self._catch_up()
        else:
            for watch in list(self.watches.values()):
                watch.look()

    def _settle(self) -> None:
        """Translates and commits what the editor changed, and tells what is wrong with it."""
        self._is_typed_at = None
        self.workspace.refresh()
        commit_or_tell(self.keeper, self._show_once)
        self.diagnostics.publish()

    def _catch_up(self) -> None:
        """Translates for a slice of time what changed on the disk."""
        until = time.monotonic() + 0.05
        for folder in self.workspace.folders:
            while time.monotonic() < until and folder.refresh_one():
                pass
        if not any(folder.has_waiting for folder in self.workspace.folders):
            self._settle()

    # Messages

    def _take(self, message: Dict[str, Any]) -> None:
        if "method" not in message:
            self.client.answered(message.get("id"), message.get("result"), message.get("error"))
        elif message.get("id") is None:
            self._take_notification(message["method"], message.get("params"))
        else:
            self._take_request(message["id"], message["method"], message.get("params"))

    def _take_notification(self, method: str, params: Any) -> None:
        handler = self._NOTIFICATIONS.get(method)
        if handler is None or not self.is_initialized or self.is_shut_down:
            return
        try:
            handler(self, params)
        except ResponseError as error:
            self.client.log(protocol.WARNING, f"{method} is passed over: {error.message}")
        except Exception as failure:
            self._tell_of_fault(method, failure)

    def _take_request(self, identifier: Identifier, method: str, params: Any) -> None:
        try:
            if self.inbox.is_cancelled(identifier):
                raise Cancelled()
            result = self._result(identifier, method, params)
        except ResponseError as error:
            self.client.refuse(identifier, error)
        except Exception as failure:
            self._tell_of_fault(method, failure)
            reason = f"internal error: {type(failure).__name__}: {failure}"
            self.client.refuse(identifier, ResponseError(protocol.INTERNAL_ERROR, reason))
        else:
            if result is _LATER:
                self._waiting.append((identifier, method, params))
                return
            self.client.answer(identifier, result)
        self.inbox.answered(identifier)

    def _result(self, identifier: Identifier, method: str, params: Any) -> Any:
        if self.is_shut_down:
            raise ResponseError(protocol.INVALID_REQUEST, "invalid request: the server is shut down")
        if method == "initialize":
            return self._initialize(params)
        if not self.is_initialized:
            raise ResponseError(protocol.NOT_INITIALIZED, "not initialized")
        if method == "shutdown":
            return self._shut_down()
        handler = self._REQUESTS.get(method)
        if handler is None:
            raise ResponseError(protocol.METHOD_NOT_FOUND, f"method not found: {method}")

        def check() -> None:
            if self.inbox.is_cancelled(identifier):
                raise Cancelled()

        return handler(self, params, check)

    def _answer_waiting(self) -> None:
        """Answers the requests that waited for the folders, once these are read, and those that were cancelled."""
        is_read = not self._is_reading()
        waiting, self._waiting = self._waiting, []
        for identifier, method, params in waiting:
            if is_read or self.inbox.is_cancelled(identifier):
                self._take_request(identifier, method, params)
            else:
                self._waiting.append((identifier, method, params))

    def _is_reading(self) -> bool:
        return bool(self.loadings or self._to_load)

    # Beginning and end

    def _initialize(self, params: Any) -> Dict[str, Any]:
        if self.is_initialized:
            raise ResponseError(protocol.INVALID_REQUEST, "invalid request: a second initialize")
        self.capabilities = member(params, "capabilities", dict, {})
        self.initialization = member(params, "initializationOptions", dict, {})
        offered = member(self.capabilities, "general.positionEncodings", list, [])
        self.workspace.encoding = next((one for one in offered if one in ENCODINGS), UTF16)
        folders = member(params, "workspaceFolders", list, None)
        if folders is not None:
            self._to_load = [member(folder, "uri", str) for folder in folders]
        elif member(params, "rootUri", str, None) is not None:
            self._to_load = [params["rootUri"]]
        elif member(params, "rootPath", str, None) is not None:
            self._to_load = [uri_of(params["rootPath"])]
        for uri in self._to_load:
            self._start_folder(uri)
        self.is_initialized = True
        return {"capabilities": self._own_capabilities(), "serverInfo": {"name": "navd-py", "version": __version__}}

    def _own_capabilities(self) -> Dict[str, Any]:
        return {
            "positionEncoding": self.workspace.encoding,
            "textDocumentSync": {"openClose": True, "change": 2, "save": {"includeText": False}},
            "definitionProvider": True,
            "referencesProvider": True,
            "documentHighlightProvider": True,
            "documentSymbolProvider": True,
            "workspaceSymbolProvider": True,
            "workspace": {"workspaceFolders": {"supported": True, "changeNotifications": True}},
        }

    def _initialized(self, _: Any) -> None:
        self._is_begun = True
        if asked(self.capabilities, "workspace.didChangeWatchedFiles.dynamicRegistration"):
            watchers = [{"globPattern": "**/*.py"}, {"globPattern": "**/*", "kind": 4}]  # 4: also folders that go
            method = "workspace/didChangeWatchedFiles"
            watched = {"id": "navd-files", "method": method, "registerOptions": {"watchers": watchers}}
            self.client.request("client/registerCapability", {"registrations": [watched]})

    def _shut_down(self) -> None:
        for identifier, _, _ in self._waiting:
            self.client.refuse(identifier, Cancelled())
        self._waiting.clear()
        self.loadings.clear()
        self.watches.clear()
        self._to_load.clear()
        self.is_shut_down = True

    # Folders

    def _open_session(self) -> Session:
        return Session(member(self.initialization, "navd", str, None) or self.options.program)

    def _project_of(self, root: str) -> Project:
        def texts(name: str, given: Sequence[str]) -> List[str]:
            named = member(self.initialization, name, list, None)
            return [str(one) for one in named] if named is not None else list(given)

        roots, excludes = texts("roots", self.options.roots), texts("excludes", self.options.excludes)
        cache = bool(member(self.initialization, "cache", bool, self.options.cache))
        return Project(root, roots=roots, excludes=excludes, cache=cache)

    def _start_folder(self, uri: str) -> None:
        """Takes a folder in; its files are read later, those that are opened before that at once."""
        folder = self.workspace.add(uri)
        if folder is None:
            self._show_once(f"{uri} is no folder that can be read")
        else:
            self._started.append(folder)

    def _start_loading(self, uri: str) -> None:
        folder = next((one for one in self._started if one.uri == uri), None)
        if folder is None or folder not in self.workspace.folders:
            return
        if not asked(self.capabilities, "workspace.didChangeWatchedFiles.dynamicRegistration"):
            self.watches[uri] = DiskWatch(folder)
        with_bar = asked(self.capabilities, "window.workDoneProgress")
        progress = Progress(self.client, f"navd-reading-{folder.key}", f"navd reads {folder.root}", with_bar)
        self.loadings.append(Loading(folder, self.keeper, progress, self._show_once))

    def _change_folders(self, params: Any) -> None:
        for removed in member(params, "event.removed", list, []):
            uri = member(removed, "uri", str)
            folder = self.workspace.remove(uri)
            self.watches.pop(uri, None)
            for loading in [one for one in self.loadings if one.folder is folder]:
                loading.stop()
                self.loadings.remove(loading)
        for added in member(params, "event.added", list, []):
            uri = member(added, "uri", str)
            self._start_folder(uri)
            self._to_load.append(uri)
        self._is_typed_at = time.monotonic()

    # Documents

    def _open(self, params: Any) -> None:
        uri = member(params, "textDocument.uri", str)
        text = member(params, "textDocument.text", str)
        self.workspace.open(Document(uri, text, member(params, "textDocument.version", int, None)))
        self._is_begun = True
        self._is_typed_at = 0.0

    def _change(self, params: Any) -> None:
        uri = member(params, "textDocument.uri", str)
        version = member(params, "textDocument.version", int, None)
        self._is_typed_at = time.monotonic()
        self.workspace.change(uri, version, member(params, "contentChanges", list))

    def _save(self, params: Any) -> None:
        member(params, "textDocument.uri", str)
        self._is_typed_at = 0.0

    def _close(self, params: Any) -> None:
        self.workspace.close(member(params, "textDocument.uri", str))
        self._is_typed_at = 0.0

    def _files_changed(self, params: Any) -> None:
        for change in member(params, "changes", list):
            place = self.workspace.locate(member(change, "uri", str))
            exists = member(change, "type", int) != 3
            if place is None or place[0].is_loose:
                continue
            folder, path = place
            if path in folder.known:
                folder.reread(path, exists)
            elif folder not in self._rescans and (path.endswith(".py") if exists else folder.has_below(path)):
                self._rescans.append(folder)  # which files are the project's is seen by looking

    # Questions

    def _name(self, params: Any) -> Optional[Name]:
        """The name at which a request asks, once all that was changed is known."""
        uri = member(params, "textDocument.uri", str)
        line, character = member(params, "position.line", int), member(params, "position.character", int)
        self.workspace.refresh()
        return self.workspace.name_at(uri, line, character)

    def _definition(self, params: Any, check: Callable[[], None]) -> Any:
        name = self._name(params)
        if name is None:
            return []
        is_read = not self._is_reading()
        found = self.queries.definition(name, is_read)
        check()
        return found if found or is_read else _LATER

    def _references(self, params: Any, check: Callable[[], None]) -> Any:
        name = self._name(params)
        if name is not None and self._is_reading():
            return _LATER
        return [] if name is None else self.queries.references(name, asked(params, "context.includeDeclaration"), check)

    def _highlight(self, params: Any, check: Callable[[], None]) -> Any:
        name = self._name(params)
        return [] if name is None else self.queries.highlights(name, check)

    def _document_symbol(self, params: Any, _: Callable[[], None]) -> Any:
        place = self.workspace.locate(member(params, "textDocument.uri", str))
        self.workspace.refresh()
        if place is None:
            return []
        nested = asked(self.capabilities, "textDocument.documentSymbol.hierarchicalDocumentSymbolSupport")
        return (document_symbols if nested else flat_symbols)(self.workspace, *place)

    def _workspace_symbol(self, params: Any, _: Callable[[], None]) -> Any:
        query = member(params, "query", str)
        self.workspace.refresh()
        return _LATER if self._is_reading() else self.symbols.find(query)

    # What the user is told

    def _tell_of_navd(self, message: str) -> None:
        self.client.log(protocol.WARNING, message)

    def _show_once(self, message: str) -> None:
        if message not in self._shown:
            self._shown.add(message)
            self.client.show(protocol.ERROR, message)

    def _tell_left_out(self) -> None:
        message = self.diagnostics.left_out()
        if message is not None:
            self.client.show(protocol.WARNING, message)

    def _tell_of_fault(self, where: str, failure: Exception) -> None:
        traceback.print_exception(type(failure), failure, failure.__traceback__, file=sys.stderr)
        self.client.log(protocol.ERROR, f"{where}: {type(failure).__name__}: {failure}")

    _REQUESTS: Dict[str, Callable[["Server", Any, Callable[[], None]], Any]] = {
        "textDocument/definition": _definition,
        "textDocument/references": _references,
        "textDocument/documentHighlight": _highlight,
        "textDocument/documentSymbol": _document_symbol,
        "workspace/symbol": _workspace_symbol,
    }
    _NOTIFICATIONS: Dict[str, Callable[["Server", Any], None]] = {
        "initialized": _initialized,
        "textDocument/didOpen": _open,
        "textDocument/didChange": _change,
        "textDocument/didSave": _save,
        "textDocument/didClose": _close,
        "workspace/didChangeWatchedFiles": _files_changed,
        "workspace/didChangeWorkspaceFolders": _change_folders,
    }


_LATER: Any = object()
