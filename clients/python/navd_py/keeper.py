"""What navd is to have, and a session in which it has that.

A keeper remembers the graph of each file, commits what differs from what navd has, and does so again with a new
session where one has ended.
"""

from __future__ import annotations

import time
from typing import Callable, Dict, Iterable, Iterator, List, Optional, Sequence, Set, TypeVar

from .packed import PackedTexts
from .session import Reply, Request, Session, SessionEnded

# So many bytes of graphs, as they stand escaped on a line, go into one commit.
BATCH = 4_000_000
# So many bytes a path may have in navd, and a graph.
LONGEST_PATH = 512
MOST_BYTES = 1_048_576
# navd takes so many files.
MOST_FILES = 2_048
# So often in so many seconds a session may end before no new one is opened for a while.
MOST_ENDS = 3
SECONDS_OF_ENDS = 60.0

OPERATOR = "operator"
# No graph has a node of this number: whether it is asked about shows whether there is a file.
NO_NODE = 4_294_967_295

NO_ROOM = f"navd takes {MOST_FILES:,} files, and it has so many"
NO_WEIGHT = "the paths through all graphs together are too many for navd"
_FAULTS = {
    "large": "its graph has {bytes} bytes, and 1,048,576 are taken",
    "too_many_nodes": "its graph has {nodes} nodes, and 16,384 are taken",
    "too_many_edges": "its graph has {edges} edges, and 65,536 are taken",
    "heavy": "too many paths lead through its graph",
}


_Answer = TypeVar("_Answer")


class Refused(Exception):
    """navd refuses what no commit should be refused for, or ends again and again; the message says what."""


def reason_of(reply: Reply) -> str:
    """Why a document was refused, as a user reads it."""
    fault = str(reply.get("fault", reply.get("error", "it was refused")))
    if fault in _FAULTS:
        try:
            numbers = {name: f"{value:,}" for name, value in reply.items() if isinstance(value, int)}
            return _FAULTS[fault].format(**numbers)
        except KeyError:
            return fault
    places = [f"{name} {reply[name]}" for name in ("line", "node", "edge") if name in reply]
    return f"its graph is refused: {fault}" + (f" ({', '.join(places)})" if places else "")


class Keeper:
    """The graphs that navd is to have, by the paths under which it has them.

    `open_session` opens a session in which nothing was said yet. `is_shared` tells that other sessions have the same
    files, as with a `navd serve`: then files may be there, or not, whatever this keeper did. `say` is told what a
    user may want to know: of sessions that ended and of what a new one was told.
    """

    def __init__(
        self,
        open_session: Callable[[], Session],
        *,
        is_shared: bool = False,
        say: Callable[[str], None] = lambda _: None,
    ) -> None:
        self.refused: Dict[str, str] = {}  # why files were refused, by their paths
        self.version = 0
        self._open = open_session
        self._is_shared = is_shared
        self._say = say
        self._session: Optional[Session] = None
        self._user = OPERATOR
        self._wanted = PackedTexts()
        self._there: Set[str] = set()
        self._changed: Dict[str, None] = {}  # in the order of the changes
        self._preferred: Set[str] = set()
        self._views: Dict[str, str] = {}
        self._granted: Set[str] = set()
        self._ends: List[float] = []

    def put(self, path: str, source: Optional[bytes]) -> None:
        """The file's graph is this one from now on, or it has none. Nothing is committed before `commit`."""
        fault = None if source is None else _fault_of(path, source)
        wanted = None if fault is not None else source
        is_known = path not in self._changed and (fault is None or path in self.refused)
        if is_known and wanted == self._wanted.get(path):
            return
        if wanted is None:
            self._wanted.discard(path)
        else:
            self._wanted.set(path, wanted)
        self.refused.pop(path, None)
        if fault is not None:
            self.refused[path] = fault
        self._changed.pop(path, None)
        self._changed[path] = None

    def prefer(self, paths: Iterable[str]) -> None:
        """Of these files none is left out for want of room while another one could be in its place."""
        self._preferred = set(paths)
        for path in self._preferred:
            if self.refused.get(path) in (NO_ROOM, NO_WEIGHT):
                del self.refused[path]
                self._changed.setdefault(path)

    def view(self, user: str, prefix: str) -> None:
        """Lets a user see the files at a prefix, in this session and those after it."""
        self._views[user] = prefix

    def source(self, path: str) -> Optional[bytes]:
        """The graph that navd is to have at a path, or None."""
        return self._wanted.get(path)

    @property
    def paths(self) -> Iterable[str]:
        """The paths of the graphs that navd is to have."""
        return self._wanted.paths

    def is_up_to_date(self) -> bool:
        """Whether all is committed."""
        return not self._changed and self._session is not None and self._session.alive

    def commit(self) -> int:
        """Commits what navd hasn't as it is to be. How many files were put or removed.

        What navd refuses is in `refused` with the reason, and navd hasn't it. Raises Refused, NoProgram and
        NoConnection."""
        return self._lasting(self._commit)

    def ask(self, requests: Sequence[Request], user: str = OPERATOR) -> List[Reply]:
        """The replies to questions of a user over all that was put, which is committed first. Raises as `commit`."""

        def asked() -> List[Reply]:
            self._commit()
            self._as(user)
            assert self._session is not None
            if len(requests) == 1:
                return [self._session.request(requests[0])]
            return list(self._session.pipeline(requests))

        return self._lasting(asked) if requests else []

    def close(self) -> None:
        """Ends the session. What was put isn't forgotten, and the next `commit` opens another one."""
        if self._session is not None:
            self._session.close()
            self._session = None

    def _lasting(self, action: Callable[[], _Answer]) -> _Answer:
        """What an action answers, with another session where one ends; an action that ends two is given up."""
        for is_last in (False, True):
            try:
                self._connect()
                return action()
            except SessionEnded as end:
                self.close()
                self._ends.append(time.monotonic())
                if is_last:
                    raise Refused(f"another session, too: {end}") from None
                self._say(str(end))
        raise AssertionError("not reached")

    def _connect(self) -> None:
        """Opens a session where there is none, and notes what has to be committed in it."""
        if self._session is not None and self._session.alive:
            return
        now = time.monotonic()
        self._ends = [end for end in self._ends if now - end < SECONDS_OF_ENDS]
        if len(self._ends) >= MOST_ENDS:
            raise Refused(f"navd ended {len(self._ends)} times within a minute, and isn't started for a while")
        is_first = self._session is None and not self._there and not self._ends
        self._session = self._open()
        self._user = ""
        before = self.version
        self._as(OPERATOR)
        self._granted = set()
        self._look_around(before)
        if not is_first and self._changed:
            self._say(f"a new session has to be told {len(self._changed)} files")

    def _look_around(self, before: int) -> None:
        """Finds out which files navd has, and so what it has to be told. `before` is the version that was known."""
        assert self._session is not None
        if not self._is_shared:
            self._there = set()
        else:
            paths = sorted(self._there.union(self._wanted.paths, self._changed))
            replies = self._session.pipeline(_probes(paths))
            there = {path for path, reply in zip(paths, replies) if reply.get("error") != "no_file"}
            if self.version == before and there == self._there:
                return  # nobody has committed anything meanwhile
            self._there = there
        for path in self._there.union(self._wanted.paths):
            self._changed.setdefault(path)
            self.refused.pop(path, None)  # another session may take it

    def _as(self, user: str) -> None:
        """Goes on as a user, at the last version."""
        assert self._session is not None
        if user in self._views and user not in self._granted:
            self._as(OPERATOR)
            grant = {"do": "grant", "user": user, "prefix": self._views[user]}
            self.version = self._accepted(self._session.request(grant))
            self._granted.add(user)
        if self._user != user:
            self.version = self._accepted(self._session.request({"do": "hello", "user": user}))
            self._user = user

    @staticmethod
    def _accepted(reply: Reply) -> int:
        """The version that a reply tells. Raises Refused."""
        version = reply.get("version")
        if not isinstance(version, int):
            raise Refused(f"navd refuses: {reply}")
        return version

    def _commit(self) -> int:
        if not self._changed:
            return 0
        self._as(OPERATOR)
        self._make_room()
        done = 0
        for batch in self._batches():
            done += self._commit_batch(batch)
        return done

    def _make_room(self) -> None:
        """Where a file goes, those that were refused for want of room are tried again."""
        if any(path in self._there and path not in self._wanted for path in self._changed):
            for path in [path for path, reason in self.refused.items() if reason in (NO_ROOM, NO_WEIGHT)]:
                del self.refused[path]
                self._changed.setdefault(path)

    def _batches(self) -> Iterator[List[Request]]:
        """The edits that are due: what is removed first, then what is put, in lines that aren't too long."""
        gone = [path for path in self._changed if path not in self._wanted and path in self._there]
        removes: List[Request] = [{"remove": path} for path in gone]
        for path in [path for path in self._changed if path not in self._wanted and path not in self._there]:
            del self._changed[path]
        for start in range(0, len(removes), MOST_FILES):
            yield removes[start : start + MOST_FILES]
        batch: List[Request] = []
        size = 0
        for path in [path for path in self._changed if path in self._wanted]:
            source = self._wanted.get(path) or b""
            escaped = len(source) + source.count(b'"') + source.count(b"\\") + 2 * len(path) + 64
            if batch and size + escaped > BATCH:
                yield batch
                batch, size = [], 0
            batch.append({"put": path, "text": source.decode("utf-8")})
            size += escaped
        if batch:
            yield batch

    def _commit_batch(self, batch: List[Request]) -> int:
        """Commits edits, without those that are refused for a reason of their own. How many were accepted."""
        done = 0
        waiting = [batch]
        while waiting:
            edits = waiting.pop()
            if not edits:
                continue
            assert self._session is not None
            reply = self._session.request({"do": "commit", "edits": edits})
            if "version" in reply:
                self.version = self._accepted(reply)
                self._note(edits)
                done += len(edits)
            else:
                waiting.extend(self._without_refused(edits, reply))
        return done

    def _note(self, edits: List[Request]) -> None:
        for edit in edits:
            if "put" in edit:
                self._there.add(edit["put"])
                self._changed.pop(edit["put"], None)
            else:
                self._there.discard(edit["remove"])
                if edit["remove"] not in self._wanted:
                    self._changed.pop(edit["remove"], None)

    def _without_refused(self, edits: List[Request], reply: Reply) -> List[List[Request]]:
        """The edits, or parts of them, that are to be tried in place of a commit that was refused so."""
        error, path = reply.get("error"), reply.get("path")
        if error == "bad_file" and path is not None:
            return [self._refuse(edits, {path}, reason_of(reply))]
        if error == "absent" and path is not None:
            self._there.discard(path)
            self._changed.pop(path, None)
            return [[edit for edit in edits if edit.get("remove") != path]]
        if error == "too_many_files":
            return [self._within_room(edits, max(int(reply.get("files", 0)) - MOST_FILES, 1))]
        if error == "too_heavy" and len(edits) == 1 and "put" in edits[0]:
            return [self._refuse(edits, {edits[0]["put"]}, NO_WEIGHT)]
        if error == "too_heavy" and len(edits) > 1:
            half = len(edits) // 2
            return [edits[half:], edits[:half]]
        raise Refused(f"navd refuses a commit: {reply}")

    def _within_room(self, edits: List[Request], over: int) -> List[Request]:
        """The edits with so many files fewer: the last not preferred ones, else in place of others that are there."""
        puts = [edit["put"] for edit in edits if "put" in edit]
        fresh = [path for path in puts if path not in self._there]
        others = [path for path in fresh if path not in self._preferred]
        if others:
            return self._refuse(edits, set(others[max(len(others) - over, 0) :]), NO_ROOM)
        victims = sorted(self._there.difference(self._preferred, puts))[-over:]
        if not victims:
            return self._refuse(edits, set(fresh), NO_ROOM)
        return self._refuse(edits, set(victims), NO_ROOM)

    def _refuse(self, edits: List[Request], paths: Set[str], reason: str) -> List[Request]:
        """The edits without those that put one of the files; what navd had of them before is removed."""
        for path in sorted(paths):
            self.refused[path] = reason
            self._changed.pop(path, None)
        rest = [edit for edit in edits if edit.get("put") not in paths]
        return rest + [{"remove": path} for path in sorted(paths & self._there)]


def _fault_of(path: str, source: bytes) -> Optional[str]:
    """Why navd can't be told of a graph at all, or None; what it refuses by itself isn't looked at."""
    try:
        data = path.encode("utf-8")
    except UnicodeEncodeError:
        return "its path isn't UTF-8"
    if len(data) > LONGEST_PATH:
        return f"its path is too long: {len(data)} bytes in navd, which takes {LONGEST_PATH}"
    if any(byte < 32 for byte in data) or any(part in ("", ".", "..") for part in path.split("/")):
        return "navd takes no such path"
    if len(source) > MOST_BYTES:
        return _FAULTS["large"].format(bytes=f"{len(source):,}")
    return None


def _probes(paths: Iterable[str]) -> Iterator[Request]:
    return ({"do": "define", "path": path, "node": NO_NODE} for path in paths)
