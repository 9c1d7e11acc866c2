"""A session with navd: a `navd run` that is started here, or a connection to a `navd serve`.

A request is one JSON object on one line, and its reply is one JSON object on one line. A session says nothing by
itself: whoever opens one begins with a `hello`.
"""

from __future__ import annotations

import contextlib
import io
import json
import os
import queue
import shutil
import socket
import subprocess
import threading
from typing import IO, Any, Callable, Dict, Iterable, Iterator, List, Optional, Tuple, Union, cast

Request = Dict[str, Any]
Reply = Dict[str, Any]

# The most bytes that a line of a request may have; navd ends at a longer one.
LONGEST_LINE = 8_388_608
# So many lines navd answers in one session.
MOST_LINES = 1_000_000
# Lines are handed to navd in pieces of about so many bytes.
PIECE = 65_536
# So many bytes of what navd says on standard error are kept, the last ones.
KEPT_OF_ERRORS = 16_384
# So many seconds a program may take to end, once its input has ended; it may be far from reading that.
SECONDS_TO_END = 5.0
# So many it may take where it has closed its output by itself: it is about to end, and its status tells why.
SECONDS_FOR_STATUS = 60.0

# What the statuses of `navd run` mean.
STATUSES = {
    0: "it read the end of its input",
    2: "its words were no command",
    3: "reading its input failed",
    4: "writing its output failed",
    5: "memory was refused",
    6: "a line was too long",
    7: "there were too many lines",
}


class NoProgram(Exception):
    """There is no navd where it was looked for; the message says where."""


class NoConnection(Exception):
    """Nobody answers at the port; the message says which and why."""


class TooLong(Exception):
    """A request doesn't fit on a line; it wasn't sent, and the session goes on."""


class SessionEnded(Exception):
    """navd, or the connection to it, has ended: nothing more is answered in this session.

    `status` is that of the program, None for a connection; `errors` is what stood on its standard error, at most the
    last 16,384 bytes.
    """

    def __init__(self, reason: str, status: Optional[int] = None, errors: str = "") -> None:
        super().__init__(f"{reason}: {errors}" if errors else reason)
        self.status = status
        self.errors = errors


def find_program(program: Optional[str] = None) -> str:
    """The path of navd: the one that is given, else that of the environment variable NAVD, else the one of PATH.

    A name without a slash is looked for in PATH. Raises NoProgram where there is none that can be run.
    """
    named = ((program, "as it was given"), (os.environ.get("NAVD"), "as the environment variable NAVD says"))
    for name, source in named:
        if name:
            found = shutil.which(name)
            if found is None:
                raise NoProgram(f"there is no program {name}, {source}, or it can't be run")
            return os.path.abspath(found)
    found = shutil.which("navd")
    if found is None:
        raise NoProgram("there is no navd: name one by --navd or by the environment variable NAVD, or put it into PATH")
    return os.path.abspath(found)


def line_of(request: Request) -> bytes:
    """The line of a request, with its end. Raises TooLong where navd wouldn't take it."""
    text = json.dumps(request, ensure_ascii=False, separators=(",", ":"))
    try:
        line = text.encode("utf-8")
    except UnicodeEncodeError:  # half of a pair of UTF-16: it goes as an escape, and navd refuses it
        line = json.dumps(request, separators=(",", ":")).encode("ascii")
    if len(line) > LONGEST_LINE:
        raise TooLong(f"a request of {len(line)} bytes doesn't fit on a line, which may have {LONGEST_LINE}")
    return line + b"\n"


class _Program:
    """A started `navd run`."""

    def __init__(self, program: str) -> None:
        try:
            self.process = subprocess.Popen(
                [program, "run"],
                stdin=subprocess.PIPE,
                stdout=subprocess.PIPE,
                stderr=subprocess.PIPE,
                bufsize=0,
                start_new_session=os.name == "posix",  # an interrupt at the terminal is for the client alone
            )
        except OSError as error:
            raise NoProgram(f"{program} can't be started: {error}") from None
        assert self.process.stdin and self.process.stdout and self.process.stderr
        self.sink = self.process.stdin
        self.source = io.BufferedReader(cast(io.RawIOBase, self.process.stdout), PIECE)
        self.program = program
        self.errors = b""
        self.drain = threading.Thread(target=self._keep_errors, args=(self.process.stderr,), daemon=True)
        self.drain.start()

    def _keep_errors(self, errors: IO[bytes]) -> None:
        with errors:
            for piece in iter(lambda: errors.read(4096), b""):
                self.errors = (self.errors + piece)[-KEPT_OF_ERRORS:]

    def send(self, data: bytes) -> None:
        view = memoryview(data)
        while view:
            view = view[self.sink.write(view) or 0 :]

    def end(self, seconds: float) -> int:
        """Ends the program: its input ends first, and it is killed where it goes on. Returns its status."""
        try:
            self.sink.close()
        except OSError:
            pass
        try:
            status = self.process.wait(seconds)
        except subprocess.TimeoutExpired:
            self.process.kill()
            status = self.process.wait()
        self.drain.join(seconds)
        self.source.close()
        return status

    def ended(self, what: str, seconds: float) -> SessionEnded:
        status = self.end(seconds)
        why = f"signal {-status}" if status < 0 else f"status {status}"
        meaning = f", {STATUSES[status]}" if status in STATUSES else ""
        errors = self.errors.decode("utf-8", "replace").strip()
        return SessionEnded(f"{what}: {self.program} ended with {why}{meaning}", status, errors)

    def close(self) -> None:
        try:
            self.send(line_of({"do": "quit"}))  # it then ends even where another process holds its input open
        except (OSError, ValueError):
            pass
        self.end(SECONDS_TO_END)

    def stop(self) -> None:
        self.process.kill()


class _Connection:
    """A connection to a `navd serve`."""

    def __init__(self, host: str, port: int, seconds: float) -> None:
        try:
            self.socket = socket.create_connection((host, port), seconds)
        except (OSError, OverflowError) as error:
            raise NoConnection(f"nobody answers at port {port} of {host}: {error}") from None
        self.socket.settimeout(None)
        self.socket.setsockopt(socket.IPPROTO_TCP, socket.TCP_NODELAY, 1)
        self.place = f"port {port} of {host}"
        self.source = self.socket.makefile("rb", PIECE)

    def send(self, data: bytes) -> None:
        self.socket.sendall(data)

    def ended(self, what: str, _: float) -> SessionEnded:
        self.close()
        return SessionEnded(f"{what}: the connection to {self.place} ended")

    def close(self) -> None:
        self.stop()
        self.source.close()
        self.socket.close()

    def stop(self) -> None:
        try:
            self.socket.shutdown(socket.SHUT_RDWR)
        except OSError:
            pass


class Session:
    """One session with navd. Calls of several threads are carried out one after the other.

    `Session(program)` starts `navd run`, found as `find_program` says; `Session.connect(port)` connects to a
    `navd serve`. Both are also context managers, which close the session at their end.
    """

    def __init__(self, program: Optional[str] = None) -> None:
        """Starts `navd run`. Raises NoProgram."""
        self._begin(_Program(find_program(program)))

    @classmethod
    def connect(cls, port: int, host: str = "127.0.0.1", seconds: float = 10.0) -> "Session":
        """Connects to a `navd serve`, for which it waits so many seconds at most. Raises NoConnection."""
        session = cls.__new__(cls)
        session._begin(_Connection(host, port, seconds))
        return session

    def _begin(self, other: Union[_Program, _Connection]) -> None:
        self._other = other
        self._lock = threading.Lock()
        self._user: Optional[int] = None  # the thread whose call is under way
        self._end: Optional[SessionEnded] = None
        self.lines = 0  # so many requests were sent; navd answers MOST_LINES

    def __enter__(self) -> "Session":
        return self

    def __exit__(self, *_: object) -> None:
        self.close()

    @property
    def process(self) -> Optional[int]:
        """The number of the process of a `navd run` that is started here; None of a connection."""
        return self._other.process.pid if isinstance(self._other, _Program) else None

    @property
    def alive(self) -> bool:
        """Whether the session has neither been closed nor been found to have ended."""
        return self._end is None

    def request(self, request: Request) -> Reply:
        """The reply to one request. Raises TooLong, and SessionEnded."""
        line = line_of(request)
        with self._alone():
            self._check()
            self.lines += 1
            try:
                self._other.send(line)
            except (OSError, ValueError):
                pass  # why it ended is told where its reply is missing
            return self._reply()

    def callers(self, path: str, at: Union[int, Tuple[int, int]]) -> Reply:
        """Who refers to the definition at a node of a file, or at a line and a column, all from 0.

        The reply has `rows`, or `error`: `crowded` only where what leads to the definition is crowded, while
        `references` is so for any crowded name of the files. A navd that doesn't know the request answers
        `bad_request` with the field `do`. Raises TooLong, and SessionEnded.
        """
        place = {"node": at} if isinstance(at, int) else {"line": at[0], "column": at[1]}
        return self.request({"do": "callers", "path": path, **place})

    def pipeline(self, requests: Iterable[Request]) -> Iterator[Reply]:
        """The replies to many requests, in their order, each as soon as it is there.

        The requests are sent by a thread of their own while the replies are read, so neither side waits for the other
        with full pipes. They are taken from the iterable ahead of the replies: it must not wait for one. Where the
        replies aren't all taken, no further requests are sent, and the replies to those that were are passed over. An
        exception of the iterable comes behind the replies to what stood before it, and so does TooLong. Raises
        SessionEnded. Up to its end other threads wait for the session.
        """
        with self._alone():
            self._check()
            sender = _Sender(self._other.send, requests)
            due = sender.due()
            try:
                for _ in due:
                    yield self._reply()
            finally:
                sender.stopped = True
                for _ in due:
                    self._pass_over()
                self.lines += sender.count
            if sender.failure is not None:
                raise sender.failure

    @contextlib.contextmanager
    def _alone(self) -> Iterator[None]:
        """Waits for the other threads' calls, and keeps them waiting."""
        here = threading.get_ident()
        if self._user == here:
            raise RuntimeError("the replies of a pipeline of this session aren't all taken yet")
        with self._lock:
            self._user = here
            try:
                yield
            finally:
                self._user = None

    def _pass_over(self) -> None:
        if self._end is None:
            try:
                self._reply()
            except SessionEnded:
                pass  # whoever asks next is told

    def _reply(self) -> Reply:
        try:
            line = self._other.source.readline()
        except (OSError, ValueError):
            line = b""
        if not line.endswith(b"\n"):
            raise self._ended("there is no reply", SECONDS_FOR_STATUS)
        try:
            reply = json.loads(line)
        except ValueError:
            reply = None
        if not isinstance(reply, dict):
            raise self._ended("what was answered is no reply", SECONDS_TO_END)
        return reply

    def _check(self) -> None:
        if self._end is not None:
            raise SessionEnded(f"nothing more is answered: {self._end}", self._end.status)

    def _ended(self, what: str, seconds: float) -> SessionEnded:
        self._end = self._other.ended(what, seconds)
        return self._end

    def close(self) -> None:
        """Ends the session; a second time it does nothing."""
        with self._alone():
            if self._end is None:
                self._end = SessionEnded("the session was closed")
                self._other.close()

    def stop(self) -> None:
        """Ends navd at once, from any thread, whatever it is at: who waits for a reply is told SessionEnded."""
        self._other.stop()


class _Sender:
    """Sends requests from a thread of its own, ahead of their replies."""

    def __init__(self, send: Callable[[bytes], None], requests: Iterable[Request]) -> None:
        self.send = send
        self.requests = requests
        self.count = 0  # so many requests were handed over
        self.stopped = False  # set from outside: no further request is to be sent
        self.failure: Optional[BaseException] = None
        self.handed_over: "queue.Queue[int]" = queue.Queue()
        threading.Thread(target=self._send_all, daemon=True).start()

    def due(self) -> Iterator[None]:
        """One for each request that is handed over, whose reply is then due; it ends when no more are."""
        for number in iter(self.handed_over.get, 0):
            for _ in range(number):
                yield None

    def _send_all(self) -> None:
        for lines in self._pieces():
            self.count += len(lines)
            self.handed_over.put(len(lines))
            try:
                self.send(b"".join(lines))
            except (OSError, ValueError):
                break  # navd has ended, as the missing replies tell
        self.handed_over.put(0)

    def _pieces(self) -> Iterator[List[bytes]]:
        """The requests' lines in pieces of about PIECE bytes."""
        lines: List[bytes] = []
        size = 0
        for line in self._lines():
            lines.append(line)
            size += len(line)
            if size >= PIECE:
                yield lines
                lines, size = [], 0
        if lines:
            yield lines

    def _lines(self) -> Iterator[bytes]:
        try:
            for request in self.requests:
                if self.stopped:
                    return
                yield line_of(request)
        except BaseException as failure:  # the iterable's, or TooLong: for the thread that reads
            self.failure = failure


__all__ = [
    "LONGEST_LINE",
    "MOST_LINES",
    "NoConnection",
    "NoProgram",
    "Session",
    "SessionEnded",
    "TooLong",
    "find_program",
]
