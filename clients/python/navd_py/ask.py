"""`navd-py ask`: where names of a folder's Python files are defined, and who refers to them.

Lines and columns of users count from 1, columns in characters; those of navd count from 0, columns in bytes.
"""

from __future__ import annotations

import argparse
import json
import os
import sys
import time
from dataclasses import dataclass
from typing import Any, Callable, Dict, List, Optional, Sequence, Set, TextIO, Tuple

from . import by_name
from .keeper import Keeper, Refused
from .project import Project, Translated, graph_path, source_path
from .session import NoProgram, Reply, Request, Session
from .translate.graph import graph_nodes, span_of

# The statuses: something was found, nothing was, the question can't be asked.
FOUND, NOTHING, WRONG = 0, 1, 2
# So many files that are left out are told one by one, but by `check`, which tells all.
MOST_TOLD = 10
# Progress is told from so many seconds on, and then so often.
QUIET_SECONDS, EVERY_SECONDS = 1.0, 0.2

DESCRIPTION = """Asks navd about the Python files below FOLDER.

  define PATH:LINE:COLUMN      where the name at this place is defined
  references PATH:LINE:COLUMN  who refers to the definition at this place, or to what the name there means
  uses PATH                    each name that the file uses, with its definitions
  check [PREFIX]               asks each name of the folder, or of the files whose paths begin so, and lists those for
                               which navd can't list all paths

PATH is relative to FOLDER, LINE and COLUMN count from 1. Places are written as PATH:LINE:COLUMN: TEXT OF THE LINE.
The status is 0 where something was found (by `check`: where nothing is wrong), 1 where nothing was, 2 where the
question can't be asked."""


class Unanswerable(Exception):
    """A question that can't be asked; the message says why."""


@dataclass(frozen=True)
class Point:
    """A place as users write it: line and column from 1, the column in characters."""

    path: str
    line: int
    column: int


class Progress:
    """Tells how far something is, on standard error, once it takes longer than a second."""

    def __init__(
        self, what: str, stream: Optional[TextIO] = None, clock: Callable[[], float] = time.monotonic
    ) -> None:
        self.what = what
        self.stream = stream if stream is not None else sys.stderr
        self.clock = clock
        self.started = clock()
        self.told = self.started - EVERY_SECONDS * 10
        self.width = 0

    def __call__(self, done: int, total: int) -> None:
        now = self.clock()
        every = EVERY_SECONDS if self.stream.isatty() else 10 * EVERY_SECONDS
        if now - self.started < QUIET_SECONDS or now - self.told < every:
            return
        self.told = now
        line = f"{self.what}: {done} of {total}"
        if self.stream.isatty():
            self.stream.write("\r" + line.ljust(self.width))
            self.width = len(line)
        else:
            self.stream.write(line + "\n")
        self.stream.flush()

    def end(self) -> None:
        if self.width:
            self.stream.write("\r" + " " * self.width + "\r")
            self.stream.flush()
            self.width = 0


class Folder:
    """A folder's files in a navd that is started for it."""

    def __init__(self, project: Project, program: Optional[str]) -> None:
        self.project = project
        self.keeper = Keeper(lambda: Session(program), say=lambda text: print(f"navd-py: {text}", file=sys.stderr))
        self.results: Dict[str, Translated] = {}
        self.left_out: List[Tuple[str, str]] = []
        self._lines: Dict[str, List[str]] = {}

    def load(self) -> None:
        """Translates the files and commits their graphs."""
        paths = self.project.scan()
        unread = self.project.walker.unread
        if not paths:
            reason = unread.get(".", "it has no Python files, or none that isn't left out")
            raise Unanswerable(f"nothing can be asked of {self.project.folder}: {reason}")
        self.left_out.extend(unread.items())
        progress = Progress("translated")
        for result in self.project.translate_all(paths, progress):
            self.results[result.path] = result
            if result.source is not None:
                self.keeper.put(graph_path(result.path), result.source)
            elif result.fault is not None:
                place = f"{result.path}:{result.fault.line + 1}:{result.fault.column + 1}"
                self.left_out.append((place, result.fault.message))
        progress.end()
        self.keeper.commit()
        for path, reason in self.keeper.refused.items():
            self.left_out.append((source_path(path), reason))

    def tell_left_out(self, most: int) -> None:
        for place, reason in self.left_out[:most]:
            print(f"navd-py: left out {place}: {reason}", file=sys.stderr)
        if len(self.left_out) > most:
            print(f"navd-py: left out {len(self.left_out) - most} more; `check` lists them", file=sys.stderr)

    def path_of(self, given: str) -> str:
        """The path of a file as the project has it. Raises Unanswerable where it has none there."""
        path = os.path.normpath(given).replace(os.sep, "/")
        if path in self.results:
            return path
        inner = os.path.relpath(os.path.abspath(given), self.project.folder).replace(os.sep, "/")
        if inner in self.results:
            return inner
        raise Unanswerable(f"there is no Python file {given} in {self.project.folder}")

    def lines(self, path: str) -> List[str]:
        """The lines of a file as Python counts them."""
        if path not in self._lines:
            text = self.project.text(path) or ""
            self._lines[path] = text.replace("\r\n", "\n").replace("\r", "\n").split("\n")
        return self._lines[path]

    def line(self, path: str, line: int) -> str:
        lines = self.lines(path)
        return lines[line] if 0 <= line < len(lines) else ""

    def request(self, do: str, point: Point) -> Request:
        """The request that asks at a point. Raises Unanswerable where the text has no such place."""
        lines = self.lines(point.path)
        if not 1 <= point.line <= len(lines):
            raise Unanswerable(f"{point.path} has {len(lines)} lines, none of number {point.line}")
        text = lines[point.line - 1]
        if not 1 <= point.column <= len(text) + 1:
            where = f"line {point.line} of {point.path}"
            raise Unanswerable(f"{where} has {len(text)} characters, none of number {point.column}")
        column = len(text[: point.column - 1].encode("utf-8", "replace"))
        return {"do": do, "path": graph_path(point.path), "line": point.line - 1, "column": column}

    def place(self, row: Dict[str, Any]) -> Dict[str, Any]:
        """A row of an answer as users read it."""
        path = source_path(row["path"])
        span = row["span"] or [0, 0, 0, 0]
        return self.shown(path, span[0], span[1])

    def shown(self, path: str, line: int, column: int) -> Dict[str, Any]:
        text = self.line(path, line)
        before = text.encode("utf-8", "replace")[:column].decode("utf-8", "replace")
        return {"path": path, "line": line + 1, "column": len(before) + 1, "text": text.strip()}

    def own(self, point: Point) -> List[Dict[str, Any]]:
        """The definitions that stand at a point."""
        at = self.request("define", point)
        line, column = at["line"], at["column"]
        found = []
        for definition in self.results[point.path].definitions:
            span = definition.span
            if definition.kind != "module" and span[0] == line and span[1] <= column <= span[3]:
                found.append(self.shown(point.path, line, span[1]))
        return found[:1]

    def files(self) -> by_name.Files:
        """The graphs of the files, to look for names in them."""
        paths = [graph_path(path) for path in self.results]
        return by_name.Files(paths, self.keeper.source, self.keeper.ask)

    def definition_at(self, point: Point) -> Optional[by_name.Node]:
        """The definition that navd means at a point, where there is one."""
        at = self.request("define", point)
        return self.files().definition_at(at["path"], at["line"], at["column"])

    def by_name(self, wanted: Set[by_name.Node]) -> by_name.Found:
        """Who refers to these definitions, of which navd doesn't tell it by itself."""
        progress = Progress("places asked")
        found = by_name.references(self.files(), wanted, progress)
        progress.end()
        return found

    def is_able(self, do: str) -> bool:
        """Whether this navd answers such requests."""
        reply = self.keeper.ask([{"do": do, "path": graph_path("none"), "node": 0}])[0]
        return reply.get("error") != "bad_request"


def text_of(place: Dict[str, Any]) -> str:
    return f"{place['path']}:{place['line']}:{place['column']}: {place['text']}"


def told(places: Sequence[Dict[str, Any]], limited: bool, as_json: bool, note: str = "") -> int:
    """Writes places, whether there may be more, and how they were found where that isn't plain."""
    if note:
        print(f"navd-py: {note}", file=sys.stderr)
    if as_json:
        whole: Dict[str, Any] = {"limit": limited, "places": list(places)}
        print(json.dumps({**whole, "note": note} if note else whole, ensure_ascii=False))
    else:
        for place in places:
            print(text_of(place))
    if limited and not note:
        print("navd-py: there may be more: some paths are longer than navd follows", file=sys.stderr)
    if not places and not as_json:
        print("navd-py: none found in the folder", file=sys.stderr)
    return FOUND if places else NOTHING


def define(folder: Folder, point: Point, as_json: bool) -> int:
    reply = folder.keeper.ask([folder.request("define", point)])[0]
    if reply.get("error") == "no_reference":
        return told(folder.own(point), False, as_json)
    refuse_errors(folder, point.path, reply)
    return told([folder.place(row) for row in reply["rows"]], bool(reply["limit"]), as_json)


def references(folder: Folder, point: Point, as_json: bool) -> int:
    """Who refers to the definition at a point, or to the definitions of the name there."""
    do = "callers" if folder.is_able("callers") else "references"
    first = folder.keeper.ask([folder.request(do, point)])[0]
    asked: List[Tuple[Optional[by_name.Node], Reply]] = [(None, first)]
    if first.get("error") == "crowded":
        asked = [(folder.definition_at(point), first)]
    if first.get("error") == "no_definition":
        meant = folder.keeper.ask([folder.request("define", point)])[0]
        if meant.get("error") == "no_reference":
            return told([], False, as_json)
        refuse_errors(folder, point.path, meant)
        nodes = [(row["path"], row["node"]) for row in meant["rows"]]
        asked = list(zip(nodes, folder.keeper.ask([{"do": do, "path": path, "node": node} for path, node in nodes])))
    rows: Dict[by_name.Node, Dict[str, Any]] = {}
    crowded = {node for node, reply in asked if reply.get("error") == "crowded" and node is not None}
    for node, reply in asked:
        if node not in crowded:
            refuse_errors(folder, point.path, reply)
            rows.update(((row["path"], row["node"]), row) for row in reply["rows"])
    limited, note = any(reply.get("limit") for _, reply in asked), ""
    if crowded:
        found = folder.by_name(crowded)
        rows.update(((row["path"], row["node"]), row) for row in found.rows)
        limited, note = limited or not found.is_whole, found.told()
    places = [folder.place(row) for row in rows.values()]
    return told(sorted(places, key=lambda one: (one["path"], one["line"], one["column"])), limited, as_json, note)


def refuse_errors(folder: Folder, path: str, reply: Reply) -> None:
    """Raises Unanswerable for a reply without rows, with what is known of why."""
    error = reply.get("error")
    if error is None:
        return
    if error == "no_file":
        reasons = [reason for place, reason in folder.left_out if place == path or place.startswith(path + ":")]
        raise Unanswerable(f"{path} is left out: {reasons[0] if reasons else 'navd has no such file'}")
    if error == "crowded":
        raise Unanswerable("too many paths lead from this name to definitions, so navd lists none of them")
    raise Unanswerable(f"navd refuses the question: {error}")


def references_in(result: Translated) -> List[Tuple[int, str, Tuple[int, int, int, int]]]:
    """The references of a file's graph in the order of the text: the node, the name and the span."""
    if result.source is None:
        return []
    found = []
    for number, node in enumerate(graph_nodes(result.source)):
        span = span_of(node)
        if node.get("reference") and span is not None:
            found.append((number, str(node["symbol"]), span))
    return sorted(found, key=lambda one: one[2])


def uses(folder: Folder, path: str, as_json: bool) -> int:
    """Lists each name that a file uses with its definitions."""
    result = folder.results[path]
    reason = result.fault.message if result.fault is not None else folder.keeper.refused.get(graph_path(path))
    if reason is not None:
        raise Unanswerable(f"{path} is left out: {reason}")
    names = references_in(result)
    replies = folder.keeper.ask([{"do": "define", "path": graph_path(path), "node": node} for node, _, _ in names])
    listed: List[Dict[str, Any]] = []
    for (_, name, span), reply in zip(names, replies):
        place = folder.shown(path, span[0], span[1])
        places = [folder.place(row) for row in reply.get("rows", ())]
        listed.append({"name": name, "at": place, "error": reply.get("error"), "places": places})
    if as_json:
        print(json.dumps({"uses": listed}, ensure_ascii=False))
    else:
        for one in listed:
            at = one["at"]
            where = ", ".join(f"{place['path']}:{place['line']}:{place['column']}" for place in one["places"])
            print(f"{at['path']}:{at['line']}:{at['column']}: {one['name']}: {where or one['error'] or 'none'}")
    return FOUND if listed else NOTHING


def check(folder: Folder, prefix: str, as_json: bool) -> int:
    """Asks every name and lists those of which navd can't list all paths, by module."""
    counts = {"names": 0, "found": 0, "none": 0, "crowded": 0, "limited": 0}
    faults: List[Dict[str, Any]] = []
    progress = Progress("checked")
    chosen = [result for path, result in folder.results.items() if path.startswith(prefix)]
    for done, result in enumerate(chosen, 1):
        faults.extend(check_file(folder, result, counts))
        progress(done, len(chosen))
    progress.end()
    if as_json:
        left_out = [{"at": place, "reason": reason} for place, reason in folder.left_out]
        print(json.dumps({"counts": counts, "faults": faults, "left_out": left_out}, ensure_ascii=False))
    else:
        for fault in faults:
            at = fault["at"]
            print(f"{at['path']}:{at['line']}:{at['column']}: {fault['name']}: {fault['fault']}")
        modules = len({fault["at"]["path"] for fault in faults})
        print(
            f"{counts['names']} names in {len(chosen)} files: {counts['found']} with definitions,"
            f" {counts['none']} without, {counts['crowded']} crowded and {counts['limited']} limited"
            f" in {modules} modules;"
            f" {len(folder.left_out)} files left out"
        )
    return NOTHING if faults else FOUND


def check_file(folder: Folder, result: Translated, counts: Dict[str, int]) -> List[Dict[str, Any]]:
    """Counts what navd answers of a file's names, and lists those that are crowded or limited."""
    path = graph_path(result.path)
    if path in folder.keeper.refused:
        return []
    names = references_in(result)
    faults = []
    for (_, name, span), reply in zip(
        names, folder.keeper.ask([{"do": "define", "path": path, "node": node} for node, _, _ in names])
    ):
        counts["names"] += 1
        is_crowded, is_limited = reply.get("error") == "crowded", bool(reply.get("limit"))
        counts["crowded"] += is_crowded
        counts["limited"] += is_limited
        counts["found" if reply.get("rows") else "none"] += 1
        if is_crowded or is_limited:
            fault = "crowded" if is_crowded else "limited"
            faults.append({"at": folder.shown(result.path, span[0], span[1]), "name": name, "fault": fault})
    return faults


def point_of(folder: Folder, text: str) -> Point:
    """The place that PATH:LINE:COLUMN means. Raises Unanswerable."""
    parts = text.rstrip(":").rsplit(":", 2)
    if len(parts) != 3 or not all(part.isascii() and part.isdigit() and len(part) < 10 for part in parts[1:]):
        raise Unanswerable(f"{text} isn't PATH:LINE:COLUMN")
    return Point(folder.path_of(parts[0]), int(parts[1]), int(parts[2]))


def parser() -> argparse.ArgumentParser:
    words = argparse.ArgumentParser(
        prog="navd-py ask", description=DESCRIPTION, formatter_class=argparse.RawDescriptionHelpFormatter
    )
    words.add_argument("folder", metavar="FOLDER")
    words.add_argument("question", choices=("define", "references", "uses", "check"))
    words.add_argument("place", nargs="?", help="PATH:LINE:COLUMN, of `uses` PATH, of `check` a prefix of paths")
    words.add_argument("--json", action="store_true", help="write one JSON object")
    several: Dict[str, Any] = {"action": "append", "default": []}
    words.add_argument("--navd", metavar="PROGRAM", help="else the environment variable NAVD says, or PATH")
    words.add_argument("--root", metavar="PATH", help="a folder from which modules are named", **several)
    words.add_argument("--exclude", metavar="PATTERN", help="leave out, as of a .gitignore", **several)
    words.add_argument("--no-cache", action="store_true", help="don't keep graphs in the user's cache folder")
    return words


def answer(given: argparse.Namespace) -> int:
    """Answers the question; raises Unanswerable, Refused and NoProgram."""
    if not os.path.isdir(given.folder):
        what = "is no folder" if os.path.exists(given.folder) else "isn't there"
        raise Unanswerable(f"{given.folder} {what}")
    if given.place is None and given.question != "check":
        form = "PATH" if given.question == "uses" else "PATH:LINE:COLUMN"
        raise Unanswerable(f"`{given.question}` needs a place: {form}")
    project = Project(given.folder, roots=given.root, excludes=given.exclude, cache=not given.no_cache)
    folder = Folder(project, given.navd)
    try:
        folder.load()
        folder.tell_left_out(len(folder.left_out) if given.question == "check" else MOST_TOLD)
        if given.question == "check":
            return check(folder, given.place or "", given.json)
        if given.question == "uses":
            return uses(folder, folder.path_of(given.place), given.json)
        point = point_of(folder, given.place)
        return (define if given.question == "define" else references)(folder, point, given.json)
    finally:
        folder.keeper.close()


def main(words: Optional[Sequence[str]] = None) -> int:
    """Carries out `ask` and answers its status."""
    given = parser().parse_args(words)
    for stream in (sys.stdout, sys.stderr):
        if hasattr(stream, "reconfigure"):
            stream.reconfigure(errors="backslashreplace")
    try:
        status = answer(given)
        sys.stdout.flush()
        return status
    except (Unanswerable, Refused, NoProgram) as error:
        if given.json:
            print(json.dumps({"error": str(error)}, ensure_ascii=False))
        print(f"navd-py: {error}", file=sys.stderr)
        return WRONG
    except KeyboardInterrupt:
        return 130
    except BrokenPipeError:
        # Whoever read the answer has enough; what is still to be written goes nowhere.
        os.dup2(os.open(os.devnull, os.O_WRONLY), sys.stdout.fileno())
        return FOUND
