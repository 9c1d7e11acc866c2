"""`navd-py lsp`: a server for editors, over all Python files of a workspace."""

from __future__ import annotations

import argparse
import os
import signal
import socket
import sys
import threading
from typing import Optional, Sequence

from ..words import add_common_words
from .server import Options, Server


def main(arguments: Optional[Sequence[str]] = None) -> int:
    """Serves the editor at standard input and output. The status: 0 where it took its leave, 1 where it didn't."""
    parser = argparse.ArgumentParser(
        prog="navd-py lsp",
        description="A server of the Language Server Protocol over standard input and output, which reads the Python "
        "files of the editor's workspace and asks a `navd run` that it starts.",
    )
    add_common_words(parser)
    parser.add_argument("--stdio", action="store_true", help="as always; some editors say it")
    given = parser.parse_args(arguments)
    options = Options(given.navd, tuple(given.root), tuple(given.exclude), not given.no_cache)
    # The messages have the output for themselves: what anything prints goes to standard error.
    source, sink = sys.stdin.fileno(), os.dup(sys.stdout.fileno())
    os.dup2(sys.stderr.fileno(), sys.stdout.fileno())

    def write(data: bytes) -> None:
        view = memoryview(data)
        while view:
            view = view[os.write(sink, view) :]

    signal.signal(signal.SIGTERM, lambda *_: sys.exit(1))  # what it started ends with it
    try:
        server = Server(options, lambda size: os.read(source, size), write)
        _wake_by_signals(server)
        return server.serve()
    except KeyboardInterrupt:
        return 1


def _wake_by_signals(server: Server) -> None:
    """Lets a signal end the wait for a message.

    What Python does at a signal it does on the main thread, once that comes to its next step. A signal that reaches
    another thread, or the main one just before it begins to wait, would change nothing until the editor says something.
    """
    woken, waker = socket.socketpair()
    waker.setblocking(False)
    signal.set_wakeup_fd(waker.fileno())

    def wait(_open: socket.socket) -> None:
        while woken.recv(1):
            server.inbox.end()

    threading.Thread(target=wait, args=(waker,), daemon=True).start()
