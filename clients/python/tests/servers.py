"""Processes that tests start, each waited for by what it says: no test asks a server that may not listen yet."""

from __future__ import annotations

import contextlib
import math
import os
import random
import socket
import subprocess
import threading
import unittest
from typing import IO, Dict, Iterator, List, Optional, Sequence
from unittest import mock

# So many seconds tests wait for what has to come, and then fail. A machine may be slow, and nothing else depends on it.
SECONDS = 300.0
# By this status navd says that it can't listen at its port.
NO_PORT = 8
# Ports that the system may give to any connection begin here, where it doesn't say otherwise (RFC 6335, section 6).
FIRST_DYNAMIC = 49_152


def patient(test: unittest.TestCase) -> None:
    """In this test nothing is cut, however long it takes."""
    unbounded = mock.patch("navd_py.by_name.MOST_SECONDS", math.inf)
    unbounded.start()
    test.addCleanup(unbounded.stop)


def first_dynamic() -> int:
    try:
        with open("/proc/sys/net/ipv4/ip_local_port_range", encoding="ascii") as file:
            return int(file.read().split()[0])
    except (OSError, ValueError, IndexError):
        return FIRST_DYNAMIC


def ports() -> Iterator[int]:
    """Ports at which nobody listens now, and which no connection is given by chance. Somebody may take one yet: whoever
    starts a server there goes on to the next one where it can't listen."""
    while True:
        port = random.randrange(10_000, max(first_dynamic(), 12_000))
        try:
            with socket.socket() as taken:
                taken.bind(("127.0.0.1", port))
        except OSError:
            continue
        yield port


@contextlib.contextmanager
def dead_port() -> Iterator[int]:
    """A port at which nobody listens, and nobody can as long as it is held."""
    with socket.socket() as held:
        held.bind(("127.0.0.1", 0))
        yield int(held.getsockname()[1])


class Lines:
    """The lines that a process writes, read as they come."""

    def __init__(self, source: IO[bytes]) -> None:
        self.seen: List[str] = []
        self._news = threading.Condition()
        self._is_ended = False
        self._thread = threading.Thread(target=self._read, args=(source,), daemon=True)
        self._thread.start()

    def _read(self, source: IO[bytes]) -> None:
        with source:
            for line in source:
                with self._news:
                    self.seen.append(line.decode("utf-8", "replace").rstrip("\n"))
                    self._news.notify_all()
        with self._news:
            self._is_ended = True
            self._news.notify_all()

    def find(self, part: str, start: int = 0) -> Optional[int]:
        """The number of the first line from `start` on that has this part, once it is there; None where the process
        ends without it. Fails where neither comes."""
        with self._news:
            if not self._news.wait_for(lambda: self._is_ended or self._place(part, start) is not None, SECONDS):
                raise AssertionError(f"in {SECONDS:.0f} s it neither says {part!r} nor ends; it said {self.seen}")
            return self._place(part, start)

    def _place(self, part: str, start: int) -> Optional[int]:
        return next((number for number in range(start, len(self.seen)) if part in self.seen[number]), None)

    def wait_for(self, part: str, start: int = 0) -> int:
        """As `find`, but a failure where the process ends without saying it."""
        found = self.find(part, start)
        if found is None:
            raise AssertionError(f"it ended without saying {part!r}; it said {self.seen}")
        return found


class Process:
    """A process whose standard error is read, ended by `end`."""

    def __init__(self, words: Sequence[str], environment: Optional[Dict[str, str]] = None) -> None:
        self.words = words
        self.process = subprocess.Popen(
            words, stdin=subprocess.DEVNULL, stderr=subprocess.PIPE, env={**os.environ, **(environment or {})}
        )
        assert self.process.stderr
        self.errors = Lines(self.process.stderr)

    def status(self) -> int:
        """Its status, once it has ended. Fails where it doesn't."""
        try:
            return self.process.wait(SECONDS)
        except subprocess.TimeoutExpired:
            said = self.errors.seen
            raise AssertionError(f"{' '.join(self.words)} doesn't end in {SECONDS:.0f} s; it said {said}") from None

    def end(self) -> None:
        """Lets it end, with what it has started; kills it where it doesn't."""
        if self.process.poll() is None:
            self.process.terminate()
            try:
                self.process.wait(SECONDS)
            except subprocess.TimeoutExpired:
                self.process.kill()
                self.process.wait()


class NavdServe(Process):
    """A `navd serve` that listens, at a port that it has got."""

    def __init__(self, program: str, doors: int = 4, connections: int = 100) -> None:
        for port in ports():
            self.port = port
            super().__init__([program, "serve", str(port), str(doors), str(connections)])
            if self.errors.find("navd: listening at ") is not None:
                return
            if self.status() != NO_PORT:
                raise AssertionError(f"{' '.join(self.words)} ended with {self.status()}; it said {self.errors.seen}")
