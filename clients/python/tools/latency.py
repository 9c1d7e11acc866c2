#!/usr/bin/env python3
"""Times an editor's session of `navd-py lsp` over a folder.

usage: clients/python/tools/latency.py FOLDER MODULE [NAVD]   (else the environment variable NAVD, else the one in PATH)

MODULE is a file of the folder, relative to it. The server is started twice: the first time may fill the cache of
graphs, the second is told of. Then, each several times: a change of the module that no cache knows and a definition
asked behind it, the same with a text that doesn't parse, a definition alone, references, highlights, and the symbols of
the workspace. Each row has the least, the middle and the greatest time that the editor waits, and the processor time
that the server and navd took for one of them together (on Linux; beside the elapsed times of the start it stands, too),
all in milliseconds. It needs Python's standard library alone.
"""

from __future__ import annotations

import itertools
import os
import queue
import random
import re
import shutil
import subprocess
import sys
import threading
import time
from typing import Any, Callable, Dict, List, Optional, Tuple

CLIENT = os.path.dirname(os.path.dirname(os.path.abspath(__file__)))
sys.path.insert(0, CLIENT)

from navd_py.lsp.frames import Message, frame, read_messages  # noqa: E402
from navd_py.lsp.uris import uri_of  # noqa: E402

ROUNDS = 9
SECONDS = 600
TICKS = os.sysconf("SC_CLK_TCK") if hasattr(os, "sysconf") else 100


class Editor:
    """An editor that asks, and waits for each answer."""

    def __init__(self, navd: str, folder: str) -> None:
        words = [sys.executable, "-m", "navd_py", "lsp", "--navd", navd]
        environment = {**os.environ, "PYTHONPATH": CLIENT}
        self.process = subprocess.Popen(
            words, stdin=subprocess.PIPE, stdout=subprocess.PIPE, env=environment, bufsize=0
        )
        self.numbers = itertools.count(1)
        self.answers: "queue.Queue[Dict[str, Any]]" = queue.Queue()
        threading.Thread(target=self._read, daemon=True).start()
        self.ask("initialize", {"capabilities": {}, "workspaceFolders": [{"uri": uri_of(folder), "name": "folder"}]})
        self.send({"method": "initialized", "params": {}})

    def _read(self) -> None:
        assert self.process.stdout
        for item in read_messages(self.process.stdout.read):  # type: ignore[arg-type]
            if isinstance(item, Message) and "method" not in item.value:
                self.answers.put(item.value)

    def send(self, message: Dict[str, Any]) -> None:
        assert self.process.stdin
        data = memoryview(frame({"jsonrpc": "2.0", **message}))
        while data:
            data = data[self.process.stdin.write(data) or 0 :]

    def ask(self, method: str, params: Any) -> Any:
        number = next(self.numbers)
        self.send({"id": number, "method": method, "params": params})
        answer = self.answers.get(timeout=SECONDS)
        if answer["id"] != number or "error" in answer:
            sys.exit(f"{method}: {answer}")
        return answer["result"]

    def leave(self) -> None:
        self.ask("shutdown", None)
        self.send({"method": "exit"})
        self.process.wait()

    def processor_time(self) -> Optional[float]:
        """The seconds that the server and the programs it started have taken; None where they can't be had."""
        try:
            times = {int(name): _times(name) for name in os.listdir("/proc") if name.isdigit()}
        except OSError:
            return None
        family = {self.process.pid}
        family.update(one for one, found in times.items() if found and found[0] == self.process.pid)
        return sum(found[1] for one, found in times.items() if one in family and found)


def _times(process: str) -> Optional[Tuple[int, float]]:
    """The parent of a process, and the seconds that it took."""
    try:
        with open(f"/proc/{process}/stat", encoding="utf-8", errors="replace") as file:
            fields = file.read().rsplit(")", 1)[1].split()
    except OSError:
        return None
    return int(fields[1]), (int(fields[11]) + int(fields[12])) / TICKS


def place_to_ask(lines: List[str]) -> Tuple[int, int]:
    """The last method that is called on self: the line, and the character of its name."""
    for number in range(len(lines) - 1, -1, -1):
        found = re.search(r"\bself\.(\w+)\(", lines[number])
        if found and lines[number].isascii():
            return number, found.start(1)
    sys.exit("the module calls no method on self")


def took(editor: Editor, start: float) -> str:
    """The time since a start, and the processor time of the server and navd, as a user reads it."""
    processor = editor.processor_time()
    told = "" if processor is None else f" ({processor:.2f} s of processors)"
    return f"{time.perf_counter() - start:.2f} s{told}"


def row(editor: Editor, what: str, action: Callable[[], Any]) -> None:
    waited: List[float] = []
    before = editor.processor_time()
    for _ in range(ROUNDS):
        start = time.perf_counter()
        action()
        waited.append(1000 * (time.perf_counter() - start))
    after = editor.processor_time()
    taken = f"{1000 * (after - before) / ROUNDS:9.0f}" if after is not None and before is not None else "        -"
    waited.sort()
    print(f"{what:44} {waited[0]:9.1f} {waited[len(waited) // 2]:9.1f} {waited[-1]:9.1f} {taken}")


class Session:
    """What is done in the editor."""

    def __init__(self, editor: Editor, path: str) -> None:
        self.editor = editor
        self.uri = uri_of(path)
        with open(path, encoding="utf-8") as file:
            self.text = file.read()
        self.line, self.character = place_to_ask(self.text.split("\n"))
        self.version = 1
        document = {"uri": self.uri, "languageId": "python", "version": 1, "text": self.text}
        editor.send({"method": "textDocument/didOpen", "params": {"textDocument": document}})

    def change(self, text: str) -> None:
        self.version += 1
        document = {"uri": self.uri, "version": self.version}
        self.editor.send(
            {
                "method": "textDocument/didChange",
                "params": {"textDocument": document, "contentChanges": [{"text": text}]},
            }
        )

    def ask(self, what: str, below: int = 0) -> Any:
        place = {"line": self.line + below, "character": self.character}
        params = {"textDocument": {"uri": self.uri}, "position": place, "context": {"includeDeclaration": False}}
        return self.editor.ask(f"textDocument/{what}", params)

    def definition(self, below: int = 0) -> None:
        if not self.ask("definition", below):
            sys.exit("the definition isn't found")

    def change_and_ask(self, first: str) -> None:
        """Puts a line that was never there in front of the text, and asks for a definition."""
        self.change(f"{first}# {random.getrandbits(64)}\n{self.text}")
        self.definition(1)


def main() -> int:
    if len(sys.argv) not in (3, 4):
        sys.exit(__doc__)
    folder, path = os.path.abspath(sys.argv[1]), os.path.join(os.path.abspath(sys.argv[1]), sys.argv[2])
    navd = shutil.which((sys.argv[3:] + [os.environ.get("NAVD") or "navd"])[0])
    if navd is None:
        sys.exit("there is no navd: name it, or set the environment variable NAVD")
    editor = Editor(navd, folder)
    editor.ask("workspace/symbol", {"query": ""})
    editor.leave()
    start = time.perf_counter()
    editor = Editor(navd, folder)
    session = Session(editor, path)
    session.definition()
    first = took(editor, start)
    editor.ask("workspace/symbol", {"query": ""})
    print(f"{sys.argv[2]}: {len(session.text.splitlines())} lines")
    print(f"from the start to the first definition {first}, to the end of the reading {took(editor, start)}")
    print(f"{'ms':44} {'least':>9} {'middle':>9} {'greatest':>9} {'processor':>9}")
    row(editor, "a change, and a definition behind it", lambda: session.change_and_ask(""))
    row(editor, "the same in a text that doesn't parse", lambda: session.change_and_ask("( "))
    session.change(session.text)
    row(editor, "a definition", session.definition)
    row(editor, "references", lambda: session.ask("references"))
    row(editor, "highlights", lambda: session.ask("documentHighlight"))
    row(editor, "symbols of the workspace", lambda: editor.ask("workspace/symbol", {"query": "get"}))
    editor.leave()
    return 0


if __name__ == "__main__":
    sys.exit(main())
