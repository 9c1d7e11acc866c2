"""The strongly connected parts of a graph."""

from __future__ import annotations

from typing import Callable, Dict, Iterable, Iterator, List, Tuple


def nodes_in_cycles(starts: Iterable[int], following: Callable[[int], Iterable[int]]) -> Dict[int, int]:
    """Of all nodes that can be reached from the starts, those that lie on a cycle, each with a number that tells which
    of them lie on cycles together. Takes time in proportion to the nodes and edges that it reaches."""
    index: Dict[int, int] = {}
    low: Dict[int, int] = {}
    open_nodes: List[int] = []
    is_open: Dict[int, bool] = {}
    found: Dict[int, int] = {}

    def close(node: int) -> None:
        part: List[int] = []
        while True:
            member = open_nodes.pop()
            is_open[member] = False
            part.append(member)
            if member == node:
                break
        if len(part) > 1 or node in following(node):
            for member in part:
                found[member] = node

    for start in starts:
        if start in index:
            continue
        work: List[Tuple[int, Iterator[int]]] = []
        index[start] = low[start] = len(index)
        open_nodes.append(start)
        is_open[start] = True
        work.append((start, iter(following(start))))
        while work:
            node, sinks = work[-1]
            for sink in sinks:
                if sink not in index:
                    index[sink] = low[sink] = len(index)
                    open_nodes.append(sink)
                    is_open[sink] = True
                    work.append((sink, iter(following(sink))))
                    break
                if is_open.get(sink):
                    low[node] = min(low[node], index[sink])
            else:
                work.pop()
                if work:
                    above = work[-1][0]
                    low[above] = min(low[above], low[node])
                if low[node] == index[node]:
                    close(node)
    return found
