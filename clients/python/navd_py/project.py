"""A folder of Python files, and the graph file of each.

A graph is committed to navd under the file's path with `.sg.json` behind it, since navd tells the kind of a document
by the end of its path: see `graph_path` and `source_path`.
"""

from __future__ import annotations

import io
import multiprocessing
import multiprocessing.pool
import os
import signal
import threading
import tokenize
from dataclasses import dataclass
from typing import Callable, Dict, Generator, Iterable, Iterator, List, Optional, Sequence, Tuple

from .cache import Cache, Entry, key_of
from .folders import Walker
from .translate import Asking, Modules, TooLarge, translate

# The line and the column of the start and of the end; lines count from 0, columns are UTF-8 bytes from 0.
Span = Tuple[int, int, int, int]

GRAPH_ENDING = ".sg.json"
# A path of navd has at most so many bytes, the ending included.
MOST_PATH = 512
# Files with more bytes than these aren't read.
MOST_TEXT = 16_777_216
# From so many bytes of texts on that the cache doesn't have, several processes translate them.
SHARED_WORK = 1_000_000


def graph_path(path: str) -> str:
    """The path under which the graph of the file at `path` is committed to navd."""
    return path + GRAPH_ENDING


def source_path(path: str) -> str:
    """The path of the Python file whose graph navd has at `path`; any other path as it is."""
    return path[: -len(GRAPH_ENDING)] if path.endswith(GRAPH_ENDING) else path


@dataclass(frozen=True)
class Fault:
    """Why a file has no graph. The line counts from 0, the column is UTF-8 bytes from 0."""

    line: int
    column: int
    message: str


@dataclass(frozen=True)
class Definition:
    """A name that a file defines.

    `kind` is one of module, class, function, method, variable, attribute, parameter, import. `container` is the dotted
    name of the class or function within the file in which it stands, or empty.
    """

    name: str
    kind: str
    span: Span
    container: str


@dataclass(frozen=True)
class Translated:
    """What became of a file: its graph file, or the fault for which it has none.

    `source` is the bytes of a graph file in format 1, which are UTF-8. Exactly one of `source` and `fault` is None.
    """

    path: str
    source: Optional[bytes]
    fault: Optional[Fault]
    definitions: Tuple[Definition, ...]


class Project:
    """The Python files below a folder. One thread at a time may use it."""

    def __init__(
        self, folder: str, *, roots: Sequence[str] = (), excludes: Sequence[str] = (), cache: bool = True
    ) -> None:
        """`roots` are folders, relative to `folder`, from which modules are named; where there is none they are found:
        the folder itself, and `src` below it where that exists. `excludes` are patterns as of a `.gitignore`. With
        `cache` graphs are kept in the user's cache folder."""
        self.folder = os.path.abspath(folder)
        self.roots = tuple(root.replace(os.sep, "/").strip("/") for root in roots if root not in ("", ".")) or (
            ("src",) if self._is_layout("src") else ()
        )
        self.walker = Walker(self.folder, excludes)
        self.cache: Optional[Cache] = Cache() if cache else None
        self._set: Dict[str, Optional[str]] = {}
        self._known: Dict[str, Tuple[str, Entry, Translated]] = {}
        self.package = package_of(self.folder)
        self.modules = Modules((), self.roots, self.text, self.package)
        self._paths: Dict[str, None] = {}

    def _is_layout(self, name: str) -> bool:
        """Whether there is a folder of packages of that name, which is no package itself."""
        place = os.path.join(self.folder, name)
        return os.path.isdir(place) and not os.path.exists(os.path.join(place, "__init__.py"))

    def scan(self) -> List[str]:
        """The project's Python files as paths relative to the folder, with slashes, sorted. Reads the folder anew."""
        found = {path: None for path in self.walker.files() if self._set.get(path, "") is not None}
        for path, text in self._set.items():
            if text is not None:
                found[path] = None
        if found.keys() != self._paths.keys():
            self._paths = found
            self.modules = Modules(sorted(found), self.roots, self.text, self.package)
        return sorted(found)

    def set_text(self, path: str, text: Optional[str]) -> List[str]:
        """Takes `text` as what the file holds from now on, in place of what the disk has; None removes the file.

        Answers the paths whose graphs have to be asked anew, `path` first, each once. A removed file is among them;
        `translated` of it then has a fault."""
        self._set[path] = text
        return self._taken(path, text is not None)

    def reread(self, path: str) -> List[str]:
        """Forgets what was set for `path` and takes what the disk has, or its absence. Answers as `set_text` does."""
        self._set.pop(path, None)
        return self._taken(path, os.path.isfile(self._place(path)))

    def _taken(self, path: str, there: bool) -> List[str]:
        if there and path not in self._paths:
            self._paths[path] = None
            self.modules.add(path)
        elif not there and path in self._paths:
            del self._paths[path]
            self.modules.remove(path)
        else:
            self.modules.changed(path)
        found = [path]
        for other, (_, entry, _) in self._known.items():
            if other != path and other in self._paths and not self._holds(entry):
                found.append(other)
        return found

    def _holds(self, entry: Entry) -> bool:
        answer = self.modules.answer
        return all(answer(question) == known for question, known in entry.asked.items())

    def _place(self, path: str) -> str:
        return os.path.join(self.folder, *path.split("/"))

    def text(self, path: str) -> Optional[str]:
        """The file's text as it is translated, or None where it can't be read or decoded."""
        if path in self._set:
            return self._set[path]
        text, _ = read_text(self._place(path))
        return text

    def translated(self, path: str) -> Translated:
        """The file's graph or its fault. Never raises for anything that a file holds."""
        text, fault = self._read(path)
        if text is None:
            self._known.pop(path, None)
            return Translated(path, None, fault, ())
        key = self._key(path, text)
        found = self._found(path, key)
        if found is not None:
            return found
        path, key, entry, told = self.entry(path)
        if entry is None:
            return Translated(path, None, Fault(*told), ())
        return self._noted(path, key, entry)

    def take_over(self, paths: Sequence[str], roots: Sequence[str], texts: Dict[str, Optional[str]]) -> None:
        """Takes another process's paths, roots and texts in place of what the disk has."""
        self.roots = tuple(roots)
        self._set = dict(texts)
        self._paths = {path: None for path in paths}
        self.modules = Modules(sorted(paths), self.roots, self.text, self.package)

    def entry(self, path: str) -> Tuple[str, str, Optional[Entry], Fields]:
        """The path, the cache's key and the entry of a file that was not translated before, or in place of the entry
        the fault for which it has no text."""
        text, fault = self._read(path)
        if text is None:
            told = fault or Fault(0, 0, "there is no text")
            return path, "", None, (told.line, told.column, told.message)
        key = self._key(path, text)
        entry = entry_for(text, Asking(self.modules, path))
        # What an editor has open changes with each key, and isn't kept.
        if self.cache is not None and path not in self._set:
            self.cache.keep(key, entry)
        return path, key, entry, (0, 0, "")

    def _read(self, path: str) -> Tuple[Optional[str], Optional[Fault]]:
        fault = path_fault(path)
        if fault is not None:
            return None, fault
        if path in self._set:
            text = self._set[path]
            return text, (Fault(0, 0, "the file is removed") if text is None else None)
        return read_text(self._place(path))

    def _key(self, path: str, text: str) -> str:
        module, package = self.modules.name(path)
        return key_of(module, package, text)

    def _found(self, path: str, key: str) -> Optional[Translated]:
        known = self._known.get(path)
        if known is not None and known[0] == key and self._holds(known[1]):
            return known[2]
        if self.cache is not None:
            entry = self.cache.find(key)
            if entry is not None and self._holds(entry):
                return self._noted(path, key, entry)
        return None

    def _noted(self, path: str, key: str, entry: Entry) -> Translated:
        definitions = tuple(Definition(name, kind, span, inside) for name, kind, span, inside in entry.defined)
        fault = Fault(*entry.fault) if entry.fault is not None else None
        result = Translated(path, entry.source, fault, definitions)
        self._known[path] = (key, entry, result)
        return result

    def translate_all(
        self, paths: Iterable[str], progress: Optional[Callable[[int, int], None]] = None
    ) -> Iterator[Translated]:
        """`translated` of each path in order, on several processes where there are many that the cache doesn't have.

        `progress` is told how many are done, of how many."""
        wanted = list(paths)
        found: Dict[str, Translated] = {}
        missing: List[str] = []
        size = 0
        for path in wanted:
            text, fault = self._read(path)
            if text is None:
                self._known.pop(path, None)
                found[path] = Translated(path, None, fault, ())
                continue
            known = self._found(path, self._key(path, text))
            if known is not None:
                found[path] = known
            else:
                missing.append(path)
                size += len(text)
        made = self._made(missing, size)
        for done, path in enumerate(wanted, 1):
            result = found.pop(path, None) or next(made)
            if progress is not None:
                progress(done, len(wanted))
            yield result
        made.close()
        if self.cache is not None and missing:
            self.cache.sweep()

    def _made(self, paths: Sequence[str], size: int) -> Generator[Translated, None, None]:
        """The translations of these paths in order, of which the texts have `size` characters."""
        count = min(processors(), len(paths))
        pool = self._pool(count) if count > 1 and size > SHARED_WORK else None
        if pool is None:
            for path in paths:
                yield self.translated(path)
            return
        with pool:
            for path, key, entry, fault in pool.imap(translate_in_worker, paths, 4):
                if entry is None:
                    yield Translated(path, None, Fault(*fault), ())
                else:
                    yield self._noted(path, key, entry)

    def _pool(self, count: int) -> Optional[multiprocessing.pool.Pool]:
        """Processes that translate files of this project, or None where none can be started."""
        forks = "fork" in multiprocessing.get_all_start_methods() and threading.active_count() == 1
        context = multiprocessing.get_context("fork" if forks else "spawn")
        given = (self.folder, tuple(self._paths), self.roots, self._set, self.cache is not None)
        try:
            return context.Pool(count, begin_worker, given)
        except (OSError, ValueError, AssertionError):
            return None


def package_of(folder: str) -> str:
    """The dotted name of the package that a folder is, with the packages around it; empty where it is none."""
    parts: List[str] = []
    while os.path.isfile(os.path.join(folder, "__init__.py")):
        folder, name = os.path.split(folder)
        if not name:
            break
        parts.insert(0, name)
    return ".".join(parts)


def processors() -> int:
    """How many processors this process may use."""
    try:
        return len(os.sched_getaffinity(0))
    except AttributeError:
        return os.cpu_count() or 1


def path_fault(path: str) -> Optional[Fault]:
    """Why navd has no document at a path, if so."""
    try:
        data = graph_path(path).encode()
    except UnicodeEncodeError:
        return Fault(0, 0, "the path isn't UTF-8")
    if len(data) > MOST_PATH:
        return Fault(0, 0, f"the path has more than {MOST_PATH - len(GRAPH_ENDING)} bytes")
    if any(byte < 32 for byte in data) or any(part in ("", ".", "..") for part in path.split("/")):
        return Fault(0, 0, "navd takes no such path")
    return None


def read_text(place: str) -> Tuple[Optional[str], Optional[Fault]]:
    """The text of a file by the encoding that it states (PEP 263), or why there is none."""
    try:
        if not os.path.isfile(place):
            return None, Fault(0, 0, "there is no such file")
        with open(place, "rb") as file:
            data = file.read(MOST_TEXT + 1)
    except (OSError, ValueError) as error:
        return None, Fault(0, 0, f"the file can't be read: {getattr(error, 'strerror', None) or error}")
    if len(data) > MOST_TEXT:
        return None, Fault(0, 0, f"the file has more than {MOST_TEXT} bytes")
    return decoded(data)


def decoded(data: bytes) -> Tuple[Optional[str], Optional[Fault]]:
    """The text that these bytes are, by the encoding that they state, or where they are none."""
    try:
        encoding, _ = tokenize.detect_encoding(io.BytesIO(data).readline)
    except (SyntaxError, LookupError) as error:
        encoding = "utf-8"
        unknown: Optional[Fault] = Fault(0, 0, f"its encoding isn't known: {error}")
    else:
        unknown = None
    try:
        text = data.decode(encoding)
    except UnicodeDecodeError as error:
        line = data.count(b"\n", 0, error.start)
        column = error.start - (data.rfind(b"\n", 0, error.start) + 1)
        return None, Fault(line, column, f"not {error.encoding}")
    except LookupError as error:
        return None, Fault(0, 0, f"its encoding isn't known: {error}")
    return (None, unknown) if unknown is not None else (text, None)


def entry_for(text: str, asking: Asking) -> Entry:
    """What the translation of a text gives; any fault of the text is told in the entry."""
    try:
        source, defined = translate(text, asking)
        return Entry(source, None, defined, asking.asked)
    except SyntaxError as error:
        fault = syntax_fault(error, text)
    except TooLarge as error:
        fault = (0, 0, str(error))
    except (RecursionError, MemoryError):
        fault = (0, 0, "it nests too deep")
    except ValueError as error:
        fault = (0, 0, f"not parsed: {error}")
    return Entry(None, fault, [], asking.asked)


def syntax_fault(error: SyntaxError, text: str) -> Tuple[int, int, str]:
    """Where Python's parser refuses a text, and why."""
    line = max((error.lineno or 1) - 1, 0)
    column = max((error.offset or 1) - 1, 0)
    lines = text.splitlines()
    written = lines[line] if line < len(lines) else ""
    return line, len(written[:column].encode("utf-8", "replace")), error.msg or "not Python"


Fields = Tuple[int, int, str]
_WORKER: List[Project] = []


def begin_worker(
    folder: str, paths: Sequence[str], roots: Sequence[str], texts: Dict[str, Optional[str]], cached: bool
) -> None:
    """Makes the project of a process that translates files for another one."""
    signal.signal(signal.SIGINT, signal.SIG_IGN)
    project = Project(folder, cache=cached)
    project.take_over(paths, roots, texts)
    _WORKER[:] = [project]


def translate_in_worker(path: str) -> Tuple[str, str, Optional[Entry], Fields]:
    """The path, the cache's key, and the entry, or in its place the fault."""
    return _WORKER[0].entry(path)
