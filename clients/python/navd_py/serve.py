"""`navd-py serve`: keeps a running `navd serve` at the graphs of a folder, so that others ask about it there."""

from __future__ import annotations

import argparse
import contextlib
import os
import select
import signal
import socket
import sys
import time
from typing import Callable, Dict, Iterator, List, Optional, Sequence, Set

from .keeper import NO_ROOM, Keeper, Refused
from .own_server import OwnServer
from .project import Fault, Project, Translated, graph_path
from .session import NoConnection, NoProgram, Session
from .stale import LastGraphs
from .watch import FolderWatch
from .words import add_common_words

Say = Callable[[str], None]

# So many seconds go by between attempts to connect anew: from, and up to.
SHORTEST_PAUSE, LONGEST_PAUSE = 0.5, 30.0
# While a folder is read, what was read is committed after so many seconds.
BETWEEN_COMMITS = 2.0


class Mirror:
    """Keeps navd at the graphs of a project's files, below a prefix of its paths."""

    def __init__(self, project: Project, folder: str, keeper: Keeper, prefix: str, say: Say) -> None:
        self._project = project
        self._keeper = keeper
        self._prefix = prefix
        self._say = say
        self._last = LastGraphs()
        self._known: Set[str] = set()
        self._told: Dict[str, str] = {}  # why files are left out, as it was told last
        self._faults: Dict[str, Fault] = {}
        self._watch = FolderWatch(folder, project.scan)

    def load(self) -> None:
        """Reads the whole folder, and commits it in parts. Raises Refused, NoProgram and NoConnection."""
        paths = self._project.scan()
        self._known = set(paths)
        began = committed = time.monotonic()
        for number, translated in enumerate(self._project.translate_all(paths), 1):
            self._take(translated)
            if time.monotonic() - committed > BETWEEN_COMMITS:
                self._say(f"read {number} of {len(paths)} files")
                self._keeper.commit()
                committed = time.monotonic()
        self._commit(f"read {len(paths)} files in {time.monotonic() - began:.1f} s")

    def follow(self) -> None:
        """Takes in what has changed in the folder since the last time, and sees that navd has all. Raises as `load`."""
        affected: Dict[str, None] = {}
        for path, exists in self._watch.changes():
            (self._known.add if exists else self._known.discard)(path)
            affected.update(dict.fromkeys([path, *self._project.reread(path)]))
        for path in affected:
            if path in self._known:
                self._take(self._project.translated(path))
            else:
                self._last.forget(path)
                self._faults.pop(path, None)
                self._keeper.put(self._place(path), None)
        self._commit(f"{len(affected)} files changed" if affected else "")
        self._keeper.ask([{"do": "pin"}])  # so that a server that went is found where nothing changes, too

    def _take(self, translated: Translated) -> None:
        path = translated.path
        current = self._last.current(translated, self._project.text(path))
        if current.fault is None:
            self._faults.pop(path, None)
        else:
            self._faults[path] = current.fault
        self._keeper.put(self._place(path), current.source)

    def _place(self, path: str) -> str:
        return f"{self._prefix}/{graph_path(path)}" if self._prefix else graph_path(path)

    def _commit(self, what: str) -> None:
        number = self._keeper.commit()
        if what or number:
            self._say(f"{what or 'committed again'}; {number} graphs committed, version {self._keeper.version}")
        self._tell_left_out()

    def _tell_left_out(self) -> None:
        """Tells of each file that is left out, or is taken again, where that is news."""
        left_out = {path: f"line {fault.line + 1}: {fault.message}" for path, fault in self._faults.items()}
        left_out.update(self._project.walker.unread)
        for path in self._known:
            reason = self._keeper.refused.get(self._place(path))
            if reason is not None:
                left_out[path] = reason
        news = [path for path in left_out.keys() | self._told.keys() if left_out.get(path) != self._told.get(path)]
        without_room = [path for path in news if left_out.get(path) == NO_ROOM]
        if without_room:
            self._say(f"left out {len(without_room)} files: {NO_ROOM}")
        for path in sorted(set(news).difference(without_room)):
            if path not in left_out:
                self._say(f"{path}: taken again" if path in self._known else f"{path}: gone")
            elif path in self._faults and self._place(path) in self._keeper.paths:
                self._say(f"{path}: its last graph goes on: {left_out[path]}")
            else:
                self._say(f"left out {path}: {left_out[path]}")
        self._told = left_out


def keep_up(action: Callable[[], None], say: Say, sleep: Callable[[float], None]) -> None:
    """Carries an action out, and again where navd can't be had, with longer and longer pauses between."""
    pause = SHORTEST_PAUSE
    while True:
        try:
            return action()
        except (Refused, NoConnection, NoProgram) as failure:
            say(f"{failure}; again in {pause:g} s")
            sleep(pause)
            pause = min(2 * pause, LONGEST_PAUSE)


def arguments_of(words: Optional[Sequence[str]]) -> argparse.Namespace:
    """The words of the command; a usage line and status 2 where they are wrong."""

    def port(text: str) -> int:
        number = int(text)
        if not 1 <= number <= 65_535:
            raise ValueError
        return number

    def seconds(text: str) -> float:
        number = float(text)
        if not 0.01 <= number <= 86_400:
            raise ValueError
        return number

    parser = argparse.ArgumentParser(
        prog="navd-py serve",
        description="Commits the graphs of a folder's Python files to a `navd serve`, and follows the folder from then "
        "on. The graph of pkg/tools.py is at pkg/tools.py.sg.json there. It holds one of the server's doors.",
    )
    parser.add_argument("folder", help="the folder of the project")
    parser.add_argument("--port", type=port, required=True, help="where navd serve listens, on this machine")
    parser.add_argument("--start", action="store_true", help="start a navd serve there, which ends with this command")
    parser.add_argument("--doors", type=int, default=8, metavar="NUMBER", help="of the server to start (8)")
    parser.add_argument("--connections", type=int, default=1000, metavar="NUMBER", help="of each of its doors (1000)")
    parser.add_argument("--prefix", default="", metavar="PATH", help="put the graphs at this path there")
    add = parser.add_argument
    add("--every", type=seconds, default=2.0, metavar="SECONDS", help="how often the folder is looked at (2)")
    add("--once", action="store_true", help="end when the folder is committed")
    add_common_words(parser)
    return parser.parse_args(words)


@contextlib.contextmanager
def sleeper() -> Iterator[Callable[[float], None]]:
    """Sleeps for so many seconds, and less where a signal comes.

    What Python does at a signal it does between its steps: one that comes just before a wait of the system begins would
    change nothing up to its end. Here the signal itself ends the wait."""
    woken, waker = socket.socketpair()
    with woken, waker:
        woken.setblocking(False)
        waker.setblocking(False)
        before = signal.set_wakeup_fd(waker.fileno(), warn_on_full_buffer=False)
        try:
            yield lambda seconds: _sleep(woken, seconds)
        finally:
            signal.set_wakeup_fd(before)


def _sleep(woken: socket.socket, seconds: float) -> None:
    select.select([woken], [], [], seconds)
    with contextlib.suppress(BlockingIOError):
        woken.recv(4096)


def main(words: Optional[Sequence[str]] = None) -> int:
    """Keeps navd at the folder up to an interrupt. The status: 0 then, 1 where navd can't be had at the start."""
    given = arguments_of(words)

    def say(message: str) -> None:
        print(f"navd-py: {message}", file=sys.stderr, flush=True)

    if not os.path.isdir(given.folder):
        say(f"{given.folder} is no folder")
        return 1
    signal.signal(signal.SIGTERM, lambda *_: sys.exit(0))
    server: Optional[OwnServer] = None
    try:
        if given.start:
            server = OwnServer(given.navd, given.port, given.doors, given.connections, say)
        return _keep(given, server, say)
    except (Refused, NoConnection, NoProgram) as failure:
        say(str(failure))
        return 1
    except KeyboardInterrupt:
        return 0
    finally:
        if server is not None:
            server.end()


def _keep(given: argparse.Namespace, server: Optional[OwnServer], say: Say) -> int:
    def open_session() -> Session:
        if server is not None:
            server.ensure()
        return Session.connect(given.port)

    keeper = Keeper(open_session, is_shared=True, say=say)
    keeper.commit()  # whether navd can be had is known before the folder is read
    project = Project(given.folder, roots=given.root, excludes=given.exclude, cache=not given.no_cache)
    mirror = Mirror(project, given.folder, keeper, given.prefix.strip("/"), say)
    try:
        with sleeper() as sleep:
            keep_up(mirror.load, say, sleep)
            while not given.once:
                sleep(given.every)
                keep_up(mirror.follow, say, sleep)
    finally:
        keeper.close()
    return 0


__all__: List[str] = ["main"]
