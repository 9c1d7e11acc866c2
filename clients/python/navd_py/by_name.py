"""Who refers to definitions, found by asking at each place where their names stand.

navd tells by itself who refers to a definition, but for `crowded`, where too many ways lead there. Where a single name
leads it tells nearly always. So the places at which a definition's name stands as a reference are asked for their
definitions, and those that have the wanted one are who refers to it: what is found is exact. An import may give the
name another one, `from a import f as g`: then the places of that are asked, too.
"""

from __future__ import annotations

import json
import time
from dataclasses import dataclass, field
from typing import Any, Callable, Dict, Iterator, List, Optional, Sequence, Set, Tuple

from .session import Reply, Request
from .translate.graph import graph_nodes, span_of
from .translate.state import BODY, MEMBER, OWN

# Where the definition of a module stands.
MODULE = (0, 0, 0, 0)

# The precedences by which names that are bound are members; those of their values are others.
DEFINED = frozenset((MEMBER, BODY, OWN))

# A node: the path under which navd has its file's graph, and its number.
Node = Tuple[str, int]
Row = Dict[str, Any]

# At most so many places are asked, for so many seconds.
MOST_PLACES = 20_000
MOST_SECONDS = 20.0
# So many other names are looked for, and names that imports give to those that imports gave, and so on.
MOST_NAMES = 64
MOST_STEPS = 4
# So many places are asked at once: fewer at first, and fewer again where that takes longer than so many seconds.
FEWEST_AT_ONCE, MOST_AT_ONCE = 32, 1_024
SECONDS_AT_ONCE = 0.1


class Files:
    """The graphs among which is looked, and what answers questions about them. `check` raises where nobody waits any
    more."""

    def __init__(
        self,
        paths: Sequence[str],
        source: Callable[[str], Optional[bytes]],
        ask: Callable[[Sequence[Request]], List[Reply]],
        check: Callable[[], None] = lambda: None,
    ) -> None:
        self.paths = paths
        self.source = source
        self.ask = ask
        self.check = check

    def definition_at(self, path: str, line: int, column: int) -> Optional[Node]:
        """The definition that navd means at a place: of a file's first one whose span has it."""
        for number, node in enumerate(graph_nodes(self.source(path) or b'{"nodes":[]}')):
            span = span_of(node)
            if node.get("definition") and span is not None and span[:2] <= (line, column) <= span[2:]:
                return path, number
        return None


@dataclass
class Found:
    """Who refers to the wanted definitions: rows as those of navd, in the order of files and nodes."""

    rows: List[Row] = field(default_factory=list)
    names: List[str] = field(default_factory=list)  # those of the definitions, then those that imports give
    places: int = 0  # so many were found,
    asked: int = 0  # and so many of them asked
    undecided: int = 0  # so many lead to too many definitions themselves, or by paths that are too long
    is_cut: bool = False

    @property
    def is_whole(self) -> bool:
        """Whether each place was asked and has told all its definitions."""
        return not self.is_cut and not self.undecided

    def told(self) -> str:
        """How it was found, as users read it."""
        names = ", ".join(self.names)
        told = f"too many ways lead there, so each place where {names} stands was asked: {self.asked:,} places"
        if self.is_cut:
            told += f" of {self.places:,} or more; there may be more references"
        if self.undecided:
            told += f"; of {self.undecided:,} of them navd doesn't know all definitions"
        return told


def references(
    files: Files, wanted: Set[Node], told: Callable[[int, int], None] = lambda done, whole: None
) -> Found:
    """Who refers to one of these definitions. `told` is told how many places are asked, of how many.

    References by a name that no import gives them aren't found."""
    until = time.monotonic() + MOST_SECONDS
    found = Found()
    places = _places(files, wanted, found, until)
    size = FEWEST_AT_ONCE
    while found.asked < len(places) and not found.is_cut:
        files.check()
        start = time.monotonic()
        piece = places[found.asked : found.asked + size]
        _ask(files, piece, wanted, found)
        told(found.asked, len(places))
        now = time.monotonic()
        size = min(2 * size, MOST_AT_ONCE) if now - start < SECONDS_AT_ONCE else max(size // 2, FEWEST_AT_ONCE)
        found.is_cut = now > until and found.asked < len(places)
    found.is_cut = found.is_cut or found.places > len(places)
    order = {path: number for number, path in enumerate(files.paths)}
    found.rows.sort(key=lambda row: (order.get(row["path"], -1), row["node"]))
    return found


def _ask(files: Files, piece: Sequence[Tuple[Node, Any]], wanted: Set[Node], found: Found) -> None:
    """Asks places for their definitions, and notes those that have a wanted one."""
    questions = [{"do": "define", "path": path, "node": number} for (path, number), _ in piece]
    for ((path, number), span), reply in zip(piece, files.ask(questions)):
        if any((row["path"], row["node"]) in wanted for row in reply.get("rows", ())):
            found.rows.append({"path": path, "node": number, "span": span})
        elif reply.get("error") == "crowded" or reply.get("limit"):
            found.undecided += 1
    found.asked += len(piece)


def _places(files: Files, wanted: Set[Node], found: Found, until: float) -> List[Tuple[Node, Any]]:
    """The places to ask, at most `MOST_PLACES`: those of the definitions' own names first, of these the ones in their
    own files."""
    places: List[Tuple[Node, Any]] = []
    modules, plain = _symbols(files, wanted)
    names = sorted(plain.union(module.rpartition(".")[2] for module in modules))
    own = [path for path, _ in sorted(wanted)]
    paths = list(dict.fromkeys([*own, *files.paths]))
    for _ in range(MOST_STEPS):
        found.names += names
        others: Dict[str, None] = {}
        for path, graph in _graphs_with(files, paths, modules.union(names)):
            files.check()
            if time.monotonic() > until:
                found.is_cut = True
                return places
            here = _references_to(graph["nodes"], set(names))
            found.places += len(here)
            places += [((path, number), span) for number, span in here.items()][: MOST_PLACES - len(places)]
            others.update(dict.fromkeys(_other_names(graph, here, modules)))
        names = [name for name in others if name not in found.names]
        modules = set()
        if not names:
            return places
        if len(found.names) + len(names) > MOST_NAMES:
            break
    found.is_cut = True  # there are names that weren't looked for
    return places


def _symbols(files: Files, wanted: Set[Node]) -> Tuple[Set[str], Set[str]]:
    """The symbols of these definitions: those of modules, which are dotted names, and the others, plain ones."""
    modules: Set[str] = set()
    plain: Set[str] = set()
    for path, number in wanted:
        nodes = graph_nodes(files.source(path) or b'{"nodes":[]}')
        if number < len(nodes):
            is_module = span_of(nodes[number]) == MODULE
            (modules if is_module else plain).add(str(nodes[number]["symbol"]))
    return modules, plain


def _graphs_with(files: Files, paths: Sequence[str], names: Set[str]) -> Iterator[Tuple[str, Dict[str, Any]]]:
    """The graphs in which one of these symbols stands."""
    texts = {text for name in names for text in (f'"{name}"'.encode(), json.dumps(name).encode())}
    for path in paths:
        source = files.source(path)
        if source is not None and any(text in source for text in texts):
            yield path, json.loads(source)


def _references_to(nodes: Sequence[Dict[str, Any]], names: Set[str]) -> Dict[int, Any]:
    """The references by one of these names, with their spans."""
    found = ((number, node) for number, node in enumerate(nodes) if node.get("reference") and node["symbol"] in names)
    return {number: node.get("span") for number, node in found}


def _other_names(graph: Dict[str, Any], references: Dict[int, Any], modules: Set[str]) -> Iterator[str]:
    """The names that imports give to what is imported at one of these references, or to one of these modules.

    Such a name is popped by a node that is no definition and leads straight there, as one of what an assignment has as
    its value is, too. But that is entered from no reference, and as a member by a value's precedence alone."""
    nodes = graph["nodes"]
    given: Set[int] = set()
    for source, sink, _ in graph["edges"]:
        if isinstance(source, int) and nodes[source]["kind"] == "pop" and not nodes[source].get("definition"):
            if sink in references or _pushes(nodes, sink, modules):
                given.add(source)
    for source, sink, precedence in graph["edges"] if given else ():
        if sink in given and nodes[sink]["symbol"].isidentifier():
            if precedence in DEFINED or isinstance(source, int) and nodes[source].get("reference"):
                yield nodes[sink]["symbol"]


def _pushes(nodes: Sequence[Dict[str, Any]], number: Any, symbols: Set[str]) -> bool:
    if not symbols or not isinstance(number, int):
        return False
    return nodes[number]["kind"] == "push" and not nodes[number].get("reference") and nodes[number]["symbol"] in symbols
