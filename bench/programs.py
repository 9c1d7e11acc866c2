"""Running programs that speak the protocols of `navd run` and `navd lsp`, with the time and the memory that they take."""

from __future__ import annotations

import json
import os
import subprocess
import threading
import time
from pathlib import Path

ROOT = "file:///project/"
# How many bytes of texts one commit puts: less than half of what a line may have.
BATCH = 3_000_000
TICK = 1 / os.sysconf("SC_CLK_TCK")


def line_of(**request: object) -> bytes:
    return json.dumps(request, separators=(",", ":")).encode() + b"\n"


def commits_of(texts: dict[str, str]) -> list[bytes]:
    """The lines that put these texts, few bytes enough in each."""
    lines, edits, size = [], [], 0
    for path, text in texts.items():
        if edits and size + len(text) > BATCH:
            lines.append(line_of(do="commit", edits=edits))
            edits, size = [], 0
        edits.append({"put": path, "text": text})
        size += len(text)
    return [*lines, line_of(do="commit", edits=edits)]


class Program:
    """A running program, started by a command of its words."""

    def __init__(self, *words: str | Path) -> None:
        self.process = subprocess.Popen(words, stdin=subprocess.PIPE, stdout=subprocess.PIPE)

    def __enter__(self) -> "Program":
        return self

    def __exit__(self, *_: object) -> None:
        self.process.kill()
        self.process.communicate()

    def status(self, name: str) -> float:
        """A number of kilobytes that the system tells of it, in megabytes."""
        for line in Path(f"/proc/{self.process.pid}/status").read_text().splitlines():
            if line.startswith(name + ":"):
                return int(line.split()[1]) / 1e3
        raise SystemExit(f"the system doesn't tell the {name} of a process")

    def memory(self) -> float:
        """The memory that it holds now, in megabytes."""
        return self.status("VmRSS")

    def most_memory(self) -> float:
        """The most memory that it held, in megabytes."""
        return self.status("VmHWM")

    def worked(self) -> float:
        """The seconds of processors that it took so far, without system calls, to a hundredth."""
        fields = Path(f"/proc/{self.process.pid}/stat").read_text().rpartition(")")[2].split()
        return int(fields[11]) * TICK

    def read(self) -> bytes:
        raise NotImplementedError

    def replies(self, sent: bytes, count: int) -> tuple[list[bytes], float]:
        """Sends all of this while it reads so many replies; the replies, and the seconds until the last is there."""
        start = time.perf_counter()
        sender = threading.Thread(target=self.send, args=(sent,))
        sender.start()
        told = [self.read() for _ in range(count)]
        took = time.perf_counter() - start
        sender.join()
        return told, took

    def send(self, data: bytes) -> None:
        try:
            self.process.stdin.write(data)
            self.process.stdin.flush()
        except BrokenPipeError:
            # What it left unread is told where its replies are read.
            pass


class Lines(Program):
    """A session of requests in lines, with its operator named."""

    def __init__(self, program: Path) -> None:
        super().__init__(program, "run")
        self.ask([line_of(do="hello", user="operator")])

    def read(self) -> bytes:
        line = self.process.stdout.readline()
        if not line:
            raise SystemExit(f"{self.process.args[0]} ended with status {self.process.wait()}")
        return line

    def ask(self, lines: list[bytes]) -> tuple[list[bytes], float]:
        return self.replies(b"".join(lines), len(lines))


class Editor(Program):
    """A session of an editor that has begun."""

    def __init__(self, program: Path) -> None:
        super().__init__(program, "lsp")
        self.asked = 0
        self.answer([self.request("initialize", rootUri=ROOT)])

    def read(self) -> bytes:
        header = self.process.stdout.readline()
        if not header:
            raise SystemExit(f"{self.process.args[0]} ended with status {self.process.wait()}")
        self.process.stdout.readline()
        return self.process.stdout.read(int(header.split(b":")[1]))

    def request(self, method: str, **params: object) -> dict:
        self.asked += 1
        return {"jsonrpc": "2.0", "id": self.asked, "method": method, "params": params}

    def question(self, what: str, path: str, line: int, column: int) -> dict:
        """A request for the `definition` or the `references` of what stands at a place."""
        return self.request(f"textDocument/{what}", textDocument={"uri": ROOT + path},
                            position={"line": line, "character": column}, context={"includeDeclaration": False})

    def answer(self, messages: list[dict]) -> tuple[object, float]:
        """The result of the last message, which alone is a request, and the seconds until it is there."""
        told, took = self.replies(b"".join(map(frame, messages)), 1)
        reply = json.loads(told[0])
        if reply.get("id") != messages[-1]["id"] or "error" in reply:
            raise SystemExit(f"{self.process.args[0]} replied {told[0]!r}")
        return reply["result"], took


def frame(message: dict) -> bytes:
    body = json.dumps(message, separators=(",", ":")).encode()
    return b"Content-Length: %d\r\n\r\n%s" % (len(body), body)


def opened(path: str, text: str) -> dict:
    document = {"uri": ROOT + path, "languageId": "python", "version": 0, "text": text}
    return {"jsonrpc": "2.0", "method": "textDocument/didOpen", "params": {"textDocument": document}}


def closed(path: str) -> dict:
    return {"jsonrpc": "2.0", "method": "textDocument/didClose", "params": {"textDocument": {"uri": ROOT + path}}}


def changed(path: str, text: str) -> dict:
    params = {"textDocument": {"uri": ROOT + path, "version": 1}, "contentChanges": [{"text": text}]}
    return {"jsonrpc": "2.0", "method": "textDocument/didChange", "params": params}
