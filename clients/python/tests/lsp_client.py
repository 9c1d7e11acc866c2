"""A small editor for the tests of the language server: it speaks the protocol over pipes."""

from __future__ import annotations

import contextlib
import itertools
import os
import queue
import subprocess
import sys
import threading
import time
from typing import Any, Callable, Dict, List, Optional, Sequence, Union

from navd_py.lsp.frames import Message, frame, read_messages
from navd_py.lsp.server import Options, Server
from navd_py.lsp.uris import uri_of

from servers import SECONDS

CLIENTS = os.path.dirname(os.path.dirname(os.path.abspath(__file__)))


class ServerThread:
    """A server in a thread of the tests' own process, over two pipes."""

    def __init__(self, options: Options) -> None:
        server_in, self.sink = os.pipe()
        self.source, server_out = os.pipe()
        self.status: Optional[int] = None
        self.server = Server(options, lambda size: os.read(server_in, size), lambda data: _write_all(server_out, data))

        def serve() -> None:
            self.status = self.server.serve()
            os.close(server_out)  # the editor's side reads the end

        self.thread = threading.Thread(target=serve, daemon=True)
        self.thread.start()

    def read(self, size: int) -> bytes:
        return os.read(self.source, size)

    def write(self, data: bytes) -> None:
        _write_all(self.sink, data)

    def end_input(self) -> None:
        if self.sink >= 0:
            os.close(self.sink)
            self.sink = -1

    def wait(self) -> Optional[int]:
        """The server's status, once it has ended. Fails where it doesn't."""
        self.thread.join(SECONDS)
        if self.thread.is_alive():
            raise AssertionError(f"the server goes on {SECONDS:.0f} s after it was to end")
        return self.status

    def close(self) -> None:
        """Lets the server end where it hasn't."""
        self.end_input()
        self.wait()


class ServerProcess:
    """A server as an editor starts it."""

    def __init__(self, words: Sequence[str]) -> None:
        environment = {**os.environ, "PYTHONPATH": CLIENTS}
        command = [sys.executable, "-m", "navd_py", "lsp", *words]
        pipe = subprocess.PIPE
        self.process = subprocess.Popen(command, stdin=pipe, stdout=pipe, stderr=pipe, env=environment, bufsize=0)
        self.errors = b""
        self.drain = threading.Thread(target=self._drain, daemon=True)
        self.drain.start()

    def _drain(self) -> None:
        assert self.process.stderr
        self.errors = self.process.stderr.read()
        self.process.stderr.close()

    def read(self, size: int) -> bytes:
        assert self.process.stdout
        try:
            return self.process.stdout.read(size) or b""
        except ValueError:  # it was closed
            return b""

    def write(self, data: bytes) -> None:
        assert self.process.stdin
        _write_all(self.process.stdin.fileno(), data)

    def end_input(self) -> None:
        assert self.process.stdin
        self.process.stdin.close()

    def wait(self) -> Optional[int]:
        """The server's status, once it has ended, and all that it said is in `errors`. Fails where it doesn't."""
        try:
            status = self.process.wait(SECONDS)
        except subprocess.TimeoutExpired:
            raise AssertionError(f"the server goes on {SECONDS:.0f} s after it was to end") from None
        self.drain.join(SECONDS)
        return status

    def close(self) -> None:
        """Ends the server where it hasn't ended."""
        self.process.kill()
        self.process.wait()
        assert self.process.stdin and self.process.stdout
        with contextlib.suppress(OSError):
            self.process.stdin.close()
        self.drain.join(SECONDS)
        self.process.stdout.close()


def _write_all(sink: int, data: bytes) -> None:
    view = memoryview(data)
    while view:
        view = view[os.write(sink, view) :]


class Editor:
    """The editor's side: it asks, and keeps what the server says by itself."""

    def __init__(self, server: Union[ServerThread, ServerProcess]) -> None:
        self.server = server
        self.numbers = itertools.count(1)
        self.notifications: List[Dict[str, Any]] = []
        self.requests: List[Dict[str, Any]] = []
        self.refused_methods: List[str] = []
        self.answers: Dict[Any, Dict[str, Any]] = {}
        self.orphans: List[Dict[str, Any]] = []  # errors without an identifier
        self.news: "queue.Queue[None]" = queue.Queue()
        self.is_ended = False
        self.writing = threading.Lock()  # the thread that reads answers requests of the server
        self.reader = threading.Thread(target=self._read, daemon=True)
        self.reader.start()

    def _read(self) -> None:
        try:
            for item in read_messages(self.server.read):
                assert isinstance(item, Message), item
                self._sort(item.value)
                self.news.put(None)
        finally:
            self.is_ended = True
            self.news.put(None)

    def _sort(self, message: Dict[str, Any]) -> None:
        if "method" in message and "id" in message:
            if message["method"] in self.refused_methods:
                self.send({"id": message["id"], "error": {"code": -32601, "message": "not here"}})
            else:
                self.send({"id": message["id"], "result": None})
            self.requests.append(message)  # who sees it there knows that the answer is on its way before what they send
        elif "method" in message:
            self.notifications.append(message)
        elif message.get("id") is None:
            self.orphans.append(message)
        else:
            self.answers[message["id"]] = message

    def wait_for(self, name: str, what: Callable[[], Any]) -> Any:
        """What is found once something is; a failure that tells its name where nothing is in time."""
        until = time.monotonic() + SECONDS
        while True:
            was_ended = self.is_ended
            found = what()
            if found:
                return found
            if was_ended or time.monotonic() > until:
                why = "the server has ended without it" if was_ended else f"it doesn't come in {SECONDS:.0f} s"
                raise AssertionError(f"{name}: {why}; told were {self.notifications} {self.orphans}")
            try:
                self.news.get(timeout=0.05)
            except queue.Empty:
                pass

    def send(self, message: Dict[str, Any]) -> None:
        with self.writing:
            self.server.write(frame({"jsonrpc": "2.0", **message}))

    def notify(self, method: str, params: Any) -> None:
        self.send({"method": method, "params": params})

    def begin(self, method: str, params: Any) -> int:
        """Sends a request; its number."""
        number = next(self.numbers)
        self.send({"id": number, "method": method, "params": params})
        return number

    def answer(self, number: int) -> Dict[str, Any]:
        """The answer to a request that was sent."""
        return self.wait_for(f"the answer to request {number}", lambda: self.answers.get(number))

    def wait_for_message(self, part: str, method: str = "window/showMessage") -> str:
        """The first message with this part, once it is there."""

        def found() -> Optional[str]:
            return next((message for message in self.messages(method) if part in message), None)

        return str(self.wait_for(f"a {method} with {part!r}", found))

    def wait_for_request(self, method: str) -> None:
        """Waits up to where the server has asked for something, and has been answered."""
        self.wait_for(f"the request {method}", lambda: any(one["method"] == method for one in self.requests))

    def wait_for_definition(self, uri: str, line: int, character: int, places: List[str]) -> None:
        """Asks again and again, up to where the definitions are these."""

        def found() -> bool:
            time.sleep(0.01)  # what the server does between messages it does where none waits
            return self.definition(uri, line, character) == places

        self.wait_for(f"the definition of {uri}:{line}:{character} at {places}", found)

    def wait_for_diagnostics(self, uri: str) -> List[Dict[str, Any]]:
        """The last diagnostics of a document, once there are some."""
        found = self.wait_for(f"diagnostics of {uri}", lambda: self.diagnostics(uri))
        assert isinstance(found, list)
        return found

    def ask(self, method: str, params: Any) -> Any:
        """The result of a request."""
        answer = self.answer(self.begin(method, params))
        if "error" in answer:
            raise AssertionError(answer["error"])
        return answer["result"]

    def error(self, method: str, params: Any) -> Dict[str, Any]:
        """The error with which a request is answered."""
        answer = self.answer(self.begin(method, params))
        return answer["error"]

    def initialize(self, folders: Sequence[str], capabilities: Optional[Dict[str, Any]] = None, **more: Any) -> Any:
        params = {"processId": None, "capabilities": capabilities or {}, **more}
        if folders:
            params["workspaceFolders"] = [{"uri": uri_of(folder), "name": "x"} for folder in folders]
        result = self.ask("initialize", params)
        self.notify("initialized", {})
        return result

    def open(self, path: str, text: Optional[str] = None, version: int = 1) -> str:
        if text is None:
            with open(path, encoding="utf-8", newline="") as file:
                text = file.read()
        document = {"uri": uri_of(path), "languageId": "python", "version": version, "text": text}
        self.notify("textDocument/didOpen", {"textDocument": document})
        return uri_of(path)

    def change(self, uri: str, text: str, version: int = 2) -> None:
        document = {"uri": uri, "version": version}
        self.notify("textDocument/didChange", {"textDocument": document, "contentChanges": [{"text": text}]})

    def at(self, what: str, uri: str, line: int, character: int, **more: Any) -> Any:
        place = {"textDocument": {"uri": uri}, "position": {"line": line, "character": character}}
        return self.ask(f"textDocument/{what}", {**place, **more})

    def definition(self, uri: str, line: int, character: int) -> List[str]:
        return shown(self.at("definition", uri, line, character))

    def references(self, uri: str, line: int, character: int, declaration: bool = False) -> List[str]:
        return shown(self.at("references", uri, line, character, context={"includeDeclaration": declaration}))

    def diagnostics(self, uri: str) -> Optional[List[Dict[str, Any]]]:
        """The last diagnostics of a document, or None where there were none."""
        told = [one["params"] for one in self.notifications if one["method"] == "textDocument/publishDiagnostics"]
        return next((one["diagnostics"] for one in reversed(told) if one["uri"] == uri), None)

    def messages(self, method: str = "window/showMessage") -> List[str]:
        return [one["params"]["message"] for one in self.notifications if one["method"] == method]

    def leave(self) -> Optional[int]:
        """Takes leave as an editor should; the server's status."""
        self.ask("shutdown", None)
        self.notify("exit", None)
        return self.server.wait()


def shown(locations: Optional[List[Dict[str, Any]]]) -> List[str]:
    """Locations as the last part of the path, the line and the character."""
    places = []
    for one in locations or []:
        start = one["range"]["start"]
        places.append(f"{one['uri'].rsplit('/', 1)[1]}:{start['line']}:{start['character']}")
    return places
