"""A graph file while it is made: its nodes and edges, what is shared, and how it is written.

A value is a tuple of nodes, at most `MOST_VALUES`, from each of which what stands on the symbol stack is looked up.
"""

from __future__ import annotations

import json
from typing import Dict, Iterable, List, Optional, Sequence, Set, Tuple

from .cycles import nodes_in_cycles

# The place where the files of a version meet.
ROOT = -1
MOST_VALUES = 4
# What the formats allow a graph file.
MOST_NODES = 16_384
MOST_EDGES = 65_536
MOST_BYTES = 1_048_576

# How far values are followed to find those that lead back to themselves: steps, and symbols that are open.
MOST_STEPS = 200
MOST_SYMBOLS = 8

Values = Tuple[int, ...]
Symbols = Tuple[str, ...]
NOTHING: Values = ()


class TooLarge(Exception):
    """The graph is larger than a graph file may be; the message says of what there is too much."""


def joined(first: Values, second: Values) -> Values:
    """Both values, each node once, the first `MOST_VALUES`."""
    if not second or first == second:
        return first
    if not first:
        return second
    return tuple(dict.fromkeys(first + second))[:MOST_VALUES]


def written_symbol(symbol: str) -> str:
    """A symbol as JSON has it. Names and the symbols of structure stand as they are."""
    return f'"{symbol}"' if symbol.isidentifier() else json.dumps(symbol, ensure_ascii=False)


class Graph:
    """Nodes with their edges. A node's number is its place here; `written` numbers them anew."""

    def __init__(self) -> None:
        self.texts: List[str] = []
        self.out: List[Sequence[int]] = []
        self.ranked: Dict[int, List[Tuple[int, int]]] = {}
        self.definitions: Dict[int, Tuple[int, int]] = {}
        self.references: List[int] = []
        # The nodes whose edges say what a name, an attribute or a call has as its value.
        self.slots: Set[int] = set()
        # The symbols that nodes push and pop, and what scopes of members have by symbol: for finding cycles.
        self.pushes: Dict[int, str] = {}
        self.pops: Dict[int, str] = {}
        self.members: Dict[int, Dict[str, List[int]]] = {}
        self.shared: Dict[Tuple[str, Values], int] = {}

    def node(self, text: str, sinks: Iterable[int] = ()) -> int:
        number = len(self.texts)
        self.texts.append(text)
        self.out.append(list(sinks))
        return number

    def scope(self, sinks: Iterable[int] = ()) -> int:
        return self.node('{"kind":"scope"}', sinks)

    def cut_scope(self, sinks: Iterable[int] = ()) -> int:
        """A scope at which paths are cut, for what has many ways in and out."""
        return self.node('{"exported":true,"kind":"scope"}', sinks)

    def pop(self, symbol: str, sinks: Iterable[int] = ()) -> int:
        number = self.node('{"kind":"pop","symbol":%s}' % written_symbol(symbol), sinks)
        self.pops[number] = symbol
        return number

    def push(self, symbol: str, sinks: Iterable[int] = ()) -> int:
        number = self.node('{"kind":"push","symbol":%s}' % written_symbol(symbol), sinks)
        self.pushes[number] = symbol
        return number

    def pushed(self, symbol: str, values: Values) -> int:
        """The one node that pushes the symbol onto what these values are asked."""
        key = (symbol, values)
        number = self.shared.get(key)
        if number is None:
            number = self.shared[key] = self.push(symbol, values)
        return number

    def reference(self, name: str, line: int, start: int, end: int, sinks: Sequence[int]) -> int:
        """A reference; its edges are these sinks from now on, without a copy."""
        number = len(self.texts)
        self.texts.append(f'{{"kind":"push","reference":true,"span":[{line},{start},{line},{end}],"symbol":"{name}"}}')
        self.out.append(sinks)
        self.references.append(number)
        return number

    def definition(self, name: str, line: int, start: int, end: int, sinks: Iterable[int] = ()) -> int:
        number = self.node(
            f'{{"definition":true,"kind":"pop","span":[{line},{start},{line},{end}],"symbol":"{name}"}}', sinks
        )
        self.definitions[number] = (line, start)
        self.pops[number] = name
        return number

    def module(self, symbol: str, sinks: Iterable[int]) -> int:
        """The definition of a module, at the beginning of its text."""
        number = self.node(
            '{"definition":true,"kind":"pop","span":[0,0,0,0],"symbol":%s}' % written_symbol(symbol),
            sinks,
        )
        self.definitions[number] = (-1, 0)
        return number

    def edge(self, source: int, sink: int, precedence: int = 0) -> None:
        if precedence or source == ROOT:
            self.ranked.setdefault(source, []).append((sink, precedence))
        else:
            self.sinks(source).append(sink)

    def sinks(self, node: int) -> List[int]:
        """The sinks of a node that is no reference, to which more may be added."""
        sinks = self.out[node]
        assert isinstance(sinks, list)
        return sinks

    # -- writing ----------------------------------------------------------------------------------

    def written(self) -> bytes:
        """The graph file, in format 1: without what leads nowhere or is never met, definitions first by their places.

        Raises TooLarge where it would be larger than a graph file may be."""
        self._cut_cycles()
        useful = self._useful()
        met = self._met(useful)
        order = self._order(met)
        number = {node: place for place, node in enumerate(order)}
        edges = self._written_edges(order, number, useful, met)
        if len(order) > MOST_NODES:
            raise TooLarge(f"its graph would have {len(order)} nodes, more than {MOST_NODES}")
        if len(edges) > MOST_EDGES:
            raise TooLarge(f"its graph would have {len(edges)} edges, more than {MOST_EDGES}")
        texts = self.texts
        data = ('{"edges":[%s],"nodes":[%s]}' % (",".join(edges), ",".join([texts[node] for node in order]))).encode()
        if len(data) > MOST_BYTES:
            raise TooLarge(f"its graph file would have {len(data)} bytes, more than {MOST_BYTES}")
        return data

    def _cut_cycles(self) -> None:
        """Takes away the values of slots that lead back to their slot: following them only makes stacks grow."""
        leads: Dict[int, List[Tuple[int, Set[int]]]] = {}
        for slot in self.slots:
            if self.out[slot]:
                leads[slot] = [(sink, self._slots_from(sink)) for sink in self.out[slot]]

        def following(slot: int) -> Iterable[int]:
            return [other for _, others in leads.get(slot, ()) for other in others]

        part = nodes_in_cycles(leads, following)
        for slot, group in part.items():
            self.out[slot] = [
                sink for sink, others in leads[slot] if not any(part.get(other) == group for other in others)
            ]

    def _slots_from(self, start: int) -> Set[int]:
        """The slots that a value asks by what it pushes itself, as far as this file tells."""
        found: Set[int] = set()
        begin: Tuple[int, Symbols] = (start, ())
        seen = {begin}
        waiting = [begin]
        while waiting and len(seen) < MOST_STEPS:
            node, symbols = waiting.pop()
            if node == ROOT:
                continue
            popped = self.pops.get(node)
            if popped is not None:
                if not symbols or symbols[0] != popped:
                    continue
                symbols = symbols[1:]
                if node in self.slots:
                    found.add(node)
            elif node in self.pushes:
                symbols = (self.pushes[node],) + symbols
                if len(symbols) > MOST_SYMBOLS:
                    continue
            elif node in self.slots:
                found.add(node)
            if node in self.members:
                sinks: Iterable[int] = self._found(node, symbols[0], 0) if symbols else ()
            else:
                sinks = self.out[node]
            for sink in sinks:
                step = (sink, symbols)
                if step not in seen:
                    seen.add(step)
                    waiting.append(step)
        return found

    def _found(self, scope: int, symbol: str, depth: int) -> List[int]:
        """What a scope of members has under a symbol: its own, else what it inherits, in this file or by way of it."""
        found = self.members[scope].get(symbol)
        if found:
            return found
        inherited: List[int] = []
        if depth < 8:
            for sink, _ in self.ranked.get(scope, ()):
                if sink in self.members:
                    inherited.extend(self._found(sink, symbol, depth + 1))
                elif sink in self.pushes:
                    inherited.append(sink)
        return inherited

    def _written_edges(
        self, order: List[int], number: Dict[int, int], useful: List[bool], met: List[bool]
    ) -> List[str]:
        edges: List[str] = []
        append = edges.append
        out, ranked = self.out, self.ranked
        for place, node in enumerate(order):
            if not met[node]:
                continue
            sinks = out[node]
            for sink in sinks if len(sinks) < 2 else dict.fromkeys(sinks):
                if sink == ROOT:
                    append(f'[{place},"root",0]')
                elif useful[sink]:
                    append(f"[{place},{number[sink]},0]")
            if node in ranked:
                for sink, precedence in ranked[node]:
                    if useful[sink]:
                        append(f"[{place},{number[sink]},{precedence}]")
        for sink, precedence in ranked.get(ROOT, ()):
            if useful[sink]:
                append(f'["root",{number[sink]},{precedence}]')
        return edges

    def _useful(self) -> List[bool]:
        """Of each node whether a definition or the root can be reached from it; the root stands last."""
        count = len(self.texts)
        sources: List[List[int]] = [[] for _ in range(count + 1)]
        for node, sinks in enumerate(self.out):
            for sink in sinks:
                sources[sink].append(node)
        for node, ranked in self.ranked.items():
            if node != ROOT:
                for sink, _ in ranked:
                    sources[sink].append(node)
        useful = [False] * (count + 1)
        waiting = [*self.definitions, ROOT]
        for node in waiting:
            useful[node] = True
        while waiting:
            for source in sources[waiting.pop()]:
                if not useful[source]:
                    useful[source] = True
                    waiting.append(source)
        return useful

    def _met(self, useful: List[bool]) -> List[bool]:
        """Of each node whether it is useful and a path from a reference or from the root may meet it."""
        met = [False] * len(useful)
        met[ROOT] = True
        waiting = [node for node in self.references if useful[node]]
        waiting.extend(sink for sink, _ in self.ranked.get(ROOT, ()) if useful[sink])
        for node in waiting:
            met[node] = True
        out, ranked = self.out, self.ranked
        while waiting:
            node = waiting.pop()
            for sink in out[node]:
                if not met[sink] and useful[sink]:
                    met[sink] = True
                    waiting.append(sink)
            if node in ranked:
                for sink, _ in ranked[node]:
                    if not met[sink] and useful[sink]:
                        met[sink] = True
                        waiting.append(sink)
        return met

    def _order(self, met: List[bool]) -> List[int]:
        """Definitions by their places; what has several ways in and out, so that paths are cut there; the others the
        newest first, since what is newer mostly leads to what is older."""
        entered = [0] * len(met)
        for node, sinks in enumerate(self.out):
            if met[node]:
                for sink in sinks:
                    entered[sink] += 1
        definitions = self.definitions
        first = sorted(definitions, key=definitions.__getitem__)
        busy: List[int] = []
        others: List[int] = []
        for node in range(len(self.texts) - 1, -1, -1):
            if met[node] and node not in definitions:
                (busy if entered[node] > 1 and len(self.out[node]) > 1 else others).append(node)
        return first + busy + others


def graph_nodes(source: bytes) -> List[Dict[str, object]]:
    """The nodes of a graph file that `written` made, by their numbers."""
    nodes = json.loads(source)["nodes"]
    assert isinstance(nodes, list)
    return nodes


def span_of(node: Dict[str, object]) -> Optional[Tuple[int, int, int, int]]:
    span = node.get("span")
    return tuple(span) if isinstance(span, list) else None  # type: ignore[return-value]
