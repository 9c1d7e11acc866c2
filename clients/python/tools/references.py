#!/usr/bin/env python3
"""Counts how who refers to a definition is found, for definitions of a folder drawn by a seed.

    python3 tools/references.py FOLDER [--crowd] [--count N] [--jedi N] [--seed S] [--only PREFIX] [--navd PROGRAM]

FOLDER is a folder of packages, such as a copy of some of `site-packages`. Of each drawn class, function, method or
attribute navd is asked for its `callers`; then it is looked for by name, as the client does where that is crowded, also
where it isn't, and both are compared. No search by name is cut for its time here. With --crowd a graph is committed
besides in which a name has more than 8,192 paths, so that `callers` is refused of each definition to which as many ways
lead. Of the first so many definitions (--jedi) jedi is asked, too, and its places are compared with those that the client
gives; columns of jedi are taken as they are, so a line with text past ASCII may differ.

Each time is the middle one and the longest, in milliseconds of the processors' time of this program and of navd together,
which Linux tells in steps of ten for navd. jedi has to be installed where it is asked; it is no part of this package.
"""

from __future__ import annotations

import argparse
import collections
import json
import math
import os
import statistics
import sys
import time
from typing import Any, Callable, Counter, Dict, List, Optional, Set, Tuple

sys.path.insert(0, os.path.dirname(os.path.abspath(__file__)))
from measure import Answers, Where, drawn_definitions, jedi_references, rows_of, shown  # noqa: E402

from navd_py import by_name  # noqa: E402
from navd_py.project import Definition, graph_path  # noqa: E402


def crowd() -> bytes:
    """A graph file with a reference that leads to 91 others, and each of them to 91 definitions."""
    nodes: List[Dict[str, Any]] = [{"kind": "push", "symbol": "crowd 1", "reference": True}]
    edges: List[List[Any]] = [[0, "root", 0]]
    for number in range(1, 182, 2):
        nodes += [{"kind": "pop", "symbol": "crowd 1"}, {"kind": "push", "symbol": "crowd 2"}]
        edges += [["root", number, 0], [number, number + 1, 0], [number + 1, "root", 0]]
    for number in range(183, 274):
        nodes.append({"kind": "pop", "symbol": "crowd 2", "definition": True})
        edges.append(["root", number, 0])
    return json.dumps({"nodes": nodes, "edges": edges}).encode()


class Times:
    """How much processor time things took, by their names. `process` is the number of navd's process."""

    def __init__(self, process: int) -> None:
        self.seconds: Dict[str, List[float]] = collections.defaultdict(list)
        self.process = process

    def now(self) -> float:
        with open(f"/proc/{self.process}/stat", encoding="ascii") as file:
            fields = file.read().rpartition(")")[2].split()
        return time.process_time() + (int(fields[11]) + int(fields[12])) / os.sysconf("SC_CLK_TCK")

    def of(self, name: str, work: Callable[[], Any]) -> Any:
        start = self.now()
        try:
            return work()
        finally:
            self.seconds[name].append(self.now() - start)

    def tell(self) -> None:
        for name, all_of_them in self.seconds.items():
            middle, longest = statistics.median(all_of_them) * 1000, max(all_of_them) * 1000
            print(f"{name:30} {len(all_of_them):4} times, {middle:10.1f} ms the middle, {longest:10.1f} the longest")


class Compared:
    """What is counted, of definition after definition."""

    def __init__(self, answers: Answers, show: bool) -> None:
        self.answers = answers
        self.show = show
        self.times = Times(answers.processes[-1])
        self.counts: Counter[str] = collections.Counter()
        paths = [graph_path(path) for path in answers.project.scan()]
        self.files = by_name.Files(paths, answers.keeper.source, answers.keeper.ask)

    def places(self, path: str, definition: Definition) -> Optional[Set[Where]]:
        """Where the client says that the definition is referred to; None where it can't tell."""
        line, column = definition.span[:2]
        at = {"path": graph_path(path), "line": line, "column": column}
        node = self.files.definition_at(at["path"], line, column)
        reply = self.times.of("callers", lambda: self.answers.keeper.ask([{"do": "callers", **at}])[0])
        if node is None or reply.get("error") not in (None, "crowded"):
            self.counts["no definition of the graph"] += 1
            return None
        is_crowded = "rows" not in reply
        name = "by name, where crowded" if is_crowded else "by name, where not"
        found = self.times.of(name, lambda: by_name.references(self.files, {node}))
        places = set(rows_of({"rows": found.rows}))
        self.counts[f"callers: {'crowded' if is_crowded else 'answered'}"] += 1
        self.counts["places asked"] += found.asked
        if self.show:
            what = "crowded" if is_crowded else "answered"
            print(f"{what}: {path}:{line + 1}:{column + 1} {definition.name}: {found.told()}", flush=True)
        if is_crowded:
            self.counts["by name, where crowded: " + ("whole" if found.is_whole else "cut or undecided")] += 1
            return places
        told = set(rows_of(reply))
        self.counts["by name, where not: " + ("the same" if places == told else "others")] += 1
        if places != told:
            print(f"{path}:{line + 1}:{column + 1} {definition.name}: {found.told()}")
            print(f"    {len(told - places)} places by `callers` alone, {len(places - told)} by name alone")
        return told

    def beside_jedi(self, folder: str, path: str, definition: Definition, own: Set[Where]) -> None:
        line, column = definition.span[:2]
        text = (self.answers.project.text(path) or "").split("\n")[line]
        character = len(text.encode()[:column].decode("utf-8", "replace"))
        told = self.times.of("jedi", lambda: jedi_references(folder, path, line, character))
        if told is None:
            self.counts["jedi fails"] += 1
            return
        self.counts["jedi: definitions"] += 1
        self.counts["places of both"] += len(own & told)
        self.counts["places of jedi alone"] += len(told - own)
        self.counts["places of navd alone"] += len(own - told)
        for who, places in (("jedi", told - own), ("navd", own - told)):
            for place in sorted(places) if self.show else ():
                print(f"{who} alone: {shown(place)} refers to {path}:{line + 1}:{column + 1} {definition.name}")


def main() -> None:
    parser = argparse.ArgumentParser(description=__doc__, formatter_class=argparse.RawDescriptionHelpFormatter)
    parser.add_argument("folder")
    parser.add_argument("--count", type=int, default=100, help="so many definitions (100)")
    parser.add_argument("--jedi", type=int, default=0, help="ask jedi of so many of them (0)")
    parser.add_argument("--crowd", action="store_true", help="let a name be crowded")
    parser.add_argument("--seed", type=int, default=1)
    parser.add_argument("--only", default="", help="of files whose paths begin so")
    parser.add_argument("--show", action="store_true", help="show each definition, and places of one side alone")
    parser.add_argument("--navd", help="the program; else the environment variable NAVD, else from PATH")
    given = parser.parse_args()
    by_name.MOST_SECONDS = math.inf
    folder = os.path.realpath(given.folder)
    answers = Answers(folder, given.navd)
    print(f"{len(answers.project.scan())} files, {answers.size} bytes of graphs, {len(answers.refused)} left out")
    if given.crowd:
        answers.keeper.put("crowd.sg.json", crowd())
    compared = Compared(answers, given.show)
    drawn: List[Tuple[str, Definition]] = drawn_definitions(answers, given.only, given.count, given.seed)
    for number, (path, definition) in enumerate(drawn):
        own = compared.places(path, definition)
        if own is not None and number < given.jedi:
            compared.beside_jedi(folder, path, definition, own)
    for name, count in sorted(compared.counts.items()):
        print(f"{name:45} {count:6}")
    compared.times.tell()
    answers.keeper.close()


if __name__ == "__main__":
    main()
