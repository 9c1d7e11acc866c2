#!/usr/bin/env python3
"""Tells what memory long sessions of `navd` hold, in one table; every figure is of this one run.

usage: bench/memory.py [PROGRAM [WHAT ..]]     (crates/navd/out/navd, as `make build` leaves it; all of these)

  changes  an editor's session in which one module of 2.9 kB is changed 4,000 times, and a definition asked after each ten
  closed   an editor's session in which 512 modules are opened and closed again
  doors    20,000 commits of one module at four doors of `serve`, a quarter at each
  lines    100 lines of 8 MB of small objects in a session of `run`, and 25 at each of four doors, with one module that is
           committed, and at the doors with 64 too
  objects  the same of lines that are objects, of which a value is made

Memory is what the program holds (resident), in megabytes: at the start of what is measured, at the end, and the most.
"""

from __future__ import annotations

import json
import socket
import sys
import time
from collections.abc import Iterator
from contextlib import contextmanager
from pathlib import Path

import places
import projects
from programs import Editor, Lines, Program, changed, closed, commits_of, line_of, opened

PROGRAM = Path(__file__).parent.parent / "crates/navd/out/navd"
CHANGES, CLOSED, COMMITS, DOORS, LARGE_LINES, PROJECT = 4_000, 512, 20_000, 4, 100, 64
LINE_MAX = 8_388_608
# Seconds after a reply until what was given back is the system's.
SETTLED = 1.5
SECONDS = 30


def module() -> tuple[str, str]:
    """A module of usual size, with its path."""
    return list(projects.project(8).items())[4]


def turned(text: str, turn: int) -> str:
    return f"{text}turn = {turn}\n"


def large_line(begin: bytes, end: bytes) -> bytes:
    """A line of almost the greatest length, of small objects: no request."""
    one = b'{"a":1},'
    return begin + b"[" + one * ((LINE_MAX - 32) // len(one)) + b"0]" + end + b"\n"


class Door:
    """A connection to a door of a running `serve`, with its operator named."""

    def __init__(self, port: int) -> None:
        self.socket = connected(port)
        self.lines = self.socket.makefile("rb")
        self.ask(line_of(do="hello", user="operator"))

    def ask(self, line: bytes) -> bytes:
        self.socket.sendall(line)
        reply = self.lines.readline()
        if not reply:
            raise SystemExit("a door has closed its connection")
        return reply


def connected(port: int) -> socket.socket:
    """A connection to that port, once somebody listens there."""
    until = time.monotonic() + SECONDS
    while True:
        try:
            return socket.create_connection(("127.0.0.1", port))
        except ConnectionRefusedError:
            if time.monotonic() > until:
                raise SystemExit(f"nobody listens at port {port}") from None
            time.sleep(0.05)


def free_port() -> int:
    with socket.socket() as found:
        found.bind(("127.0.0.1", 0))
        return found.getsockname()[1]


def told(name: str, program: Program, start: float) -> None:
    print(f"{name:48}{start:10.1f}{program.memory():10.1f}{program.most_memory():10.1f}", flush=True)


def changes(program: Path) -> None:
    path, text = module()
    place = places.calls(text)[0]
    with Editor(program) as session:
        session.answer([opened(path, text), session.question("definition", path, *place)])
        start = session.memory()
        for turn in range(0, CHANGES, 10):
            some = [changed(path, turned(text, turn + one)) for one in range(10)]
            session.answer([*some, session.question("definition", path, *place)])
        told(f"{CHANGES:,} changes of a module in an editor", session, start)


def closed_again(program: Path) -> None:
    texts = projects.project(CLOSED)
    path, text = module()
    place = places.calls(text)[0]
    with Editor(program) as session:
        question = session.question("definition", path, *place)
        session.answer([opened(path, text), question])
        start = session.memory()
        others = [other for other in texts if other != path]
        session.answer([*(opened(other, texts[other]) for other in others), *map(closed, others),
                        session.question("definition", path, *place)])
        told(f"{CLOSED} modules opened in an editor and closed again", session, start)


@contextmanager
def served(program: Path) -> Iterator[tuple[Program, list[Door]]]:
    """A running `serve` with a client at each door."""
    port = free_port()
    with Program(program, "serve", str(port), str(DOORS), "1") as serving:
        yield serving, [Door(port) for _ in range(DOORS)]


def commits(program: Path) -> None:
    path, text = module()
    with served(program) as (serving, doors):
        start = serving.memory()
        for turn in range(COMMITS):
            reply = doors[turn % DOORS].ask(line_of(do="commit", edits=[{"put": path, "text": turned(text, turn)}]))
            if not reply.startswith(b'{"version"'):
                raise SystemExit(f"a commit is refused: {reply!r}")
        told(f"{COMMITS:,} commits at {DOORS} doors", serving, start)


def lines(program: Path) -> None:
    large_lines(program, large_line(b"", b""), "large lines")


def objects(program: Path) -> None:
    large_lines(program, large_line(b'{"do":', b"}"), "large objects")


def large_lines(program: Path, line: bytes, what: str) -> None:
    path, text = module()
    put = line_of(do="commit", edits=[{"put": path, "text": text}])
    with Lines(program) as session:
        session.ask([put])
        start = session.memory()
        for _ in range(LARGE_LINES):
            refused(session.ask([line])[0][0])
        time.sleep(SETTLED)
        told(f"{LARGE_LINES} {what} in a session", session, start)
    large_lines_at_doors(program, line, [put], f"{LARGE_LINES} {what} at {DOORS} doors")
    project = commits_of(projects.project(PROJECT))
    large_lines_at_doors(program, line, [*project, put], f"{LARGE_LINES} {what} at {DOORS} doors, {PROJECT} modules")


def large_lines_at_doors(program: Path, line: bytes, puts: list[bytes], what: str) -> None:
    """All doors at once, behind these commits, the last of which each door makes."""
    with served(program) as (serving, doors):
        for put in puts[:-1]:
            doors[0].ask(put)
        for door in doors:
            door.ask(puts[-1])
        start = serving.memory()
        for _ in range(LARGE_LINES // DOORS):
            for door in doors:
                door.socket.sendall(line)
            for door in doors:
                refused(door.lines.readline())
        time.sleep(SETTLED)
        told(what, serving, start)


def refused(reply: bytes) -> None:
    if json.loads(reply).get("error") != "bad_request":
        raise SystemExit(f"a large line is answered {reply!r}")


ALL = {"changes": changes, "closed": closed_again, "doors": commits, "lines": lines, "objects": objects}


def main() -> int:
    words = sys.argv[1:]
    program = Path(words[0]) if words else PROGRAM
    wanted = words[1:] or list(ALL)
    if not program.exists() or not all(word in ALL for word in wanted):
        print("usage: bench/memory.py [PROGRAM [changes] [closed] [doors] [lines]]", file=sys.stderr)
        return 2
    print(f"{'megabytes':48}{'at first':>10}{'at last':>10}{'the most':>10}")
    for word in wanted:
        ALL[word](program)
    return 0


if __name__ == "__main__":
    sys.exit(main())
