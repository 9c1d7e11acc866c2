#!/usr/bin/env python3
"""Times `navd once` on graphs made here, and prints one table; every figure is of this one run.
The last rows are the least memory in which it answers graphs whose runs push one symbol, long or short, beside that of
the first: it is to follow the number of runs, and not the length of the symbol but for the text itself.

usage: bench/once.py [PROGRAM]     (crates/navd/out/navd, as `make build` leaves it)

The first row compares bytes a second with a plain JSON parser, Python's, on the same bytes. The others
are seconds, beside those of the smallest graph, which is what starting the program costs. One row compares a chain that
is answered with the same text that is read and not searched.
"""

import json
import subprocess
import sys
import time

from measure import least_memory

PROGRAM = sys.argv[1] if len(sys.argv) > 1 else "crates/navd/out/navd"
REFERENCE = {"kind": "push", "symbol": "x", "reference": True}
DEFINITION = {"kind": "pop", "symbol": "x", "definition": True}
OTHER = {"kind": "pop", "symbol": "y", "definition": True}
SCOPE = {"kind": "scope"}


def text(nodes, edges):
    return json.dumps({"nodes": nodes, "edges": edges}, separators=(",", ":")).encode()


def seconds(command, data):
    """The least of three runs."""
    best = None
    for _ in range(3):
        start = time.perf_counter()
        subprocess.run(command, input=data, stdout=subprocess.DEVNULL, check=True)
        took = time.perf_counter() - start
        best = took if best is None else min(best, took)
    return best


def fan(symbol, edges):
    """So many edges from a reference of the symbol to an exported scope, and one on to another symbol's definition."""
    reference = {"kind": "push", "symbol": symbol, "reference": True}
    exported = {"kind": "scope", "exported": True}
    return text([reference, exported, OTHER], [[0, 1, 0]] * edges + [[1, 2, 0]])


def chain(length, last):
    nodes = [REFERENCE] + [SCOPE] * length + [last]
    return text(nodes, [[n, n + 1, 0] for n in range(length + 1)])


def ladder(rungs, last):
    """Two edges between each node and the next."""
    nodes = [REFERENCE] + [SCOPE] * rungs + [last]
    edges = [[0, 1, 0], [rungs, rungs + 1, 0]]
    edges += [[n, n + 1, 0] for n in range(1, rungs) for _ in range(2)]
    return text(nodes, edges)


def dead_ends(rungs):
    """A ladder from which nothing can be reached, beside a definition."""
    nodes = [REFERENCE] + [SCOPE] * rungs + [DEFINITION]
    edges = [[0, 1, 0], [0, rungs + 1, 0]]
    edges += [[n, n + 1, 0] for n in range(1, rungs) for _ in range(2)]
    return text(nodes, edges)


def pushes(rungs):
    """A ladder to a node that refuses, of whose rungs each pushes one symbol or another."""
    nodes = [REFERENCE, SCOPE]
    edges = [[0, 1, 0]]
    for rung in range(rungs):
        at = 1 + 3 * rung
        nodes += [{"kind": "push", "symbol": "a"}, {"kind": "push", "symbol": "b"}, SCOPE]
        edges += [[at, at + 1, 0], [at, at + 2, 0], [at + 1, at + 3, 0], [at + 2, at + 3, 0]]
    return text(nodes + [OTHER], edges + [[1 + 3 * rungs, 2 + 3 * rungs, 0]])


def large():
    """16,384 nodes and 65,536 edges in less than 1,048,576 bytes; from the reference a definition is one edge away."""
    nodes = [REFERENCE, DEFINITION] + [SCOPE] * 16_382
    edges = [[0, 1, 0]] + [[2 + n % 90, 99, 0] for n in range(65_535)]
    return text(nodes, edges)


def main():
    asked = b'\n{"node":0}\n'
    smallest = seconds([PROGRAM, "once"], text([REFERENCE, DEFINITION], [[0, 1, 0]]) + asked)
    graph = large()
    navd = seconds([PROGRAM, "once"], graph + asked)
    plain = seconds([sys.executable, "-c", "import json,sys; json.load(sys.stdin)"], graph)
    print(f"{len(graph)} bytes, 16,384 nodes, 65,536 edges: navd once {len(graph) / navd / 1e6:.1f} MB/s, "
          f"Python's json {len(graph) / plain / 1e6:.1f} MB/s, ratio {plain / navd:.2f}")
    rows = [
        ("two nodes", None),
        ("8,192 runs", ladder(14, DEFINITION)),
        ("a chain of 128 scopes", chain(128, DEFINITION)),
        ("a chain of 16,000 scopes", chain(16_000, DEFINITION)),
        ("65,536 edges from one node", text([REFERENCE, OTHER], [[0, 1, 0]] * 65_536)),
        ("a ladder of dead ends, 40 rungs", dead_ends(40)),
        ("a ladder of 40 rungs to a node that refuses", ladder(40, OTHER)),
        ("a ladder of 120 rungs to a node that refuses", ladder(120, OTHER)),
        ("a ladder of 14 rungs that push two symbols", pushes(14)),
        ("a ladder of 16 rungs that push two symbols", pushes(16)),
    ]
    for name, data in rows:
        took = smallest if data is None else seconds([PROGRAM, "once"], data + asked)
        print(f"{name:46} {took:8.3f} s   {took / smallest:8.1f} times the smallest")
    graph = chain(16_381, DEFINITION)
    answered, read = seconds([PROGRAM, "once"], graph + asked), seconds([PROGRAM, "once"], graph + b'\n{"node":1}\n')
    print(f"a chain of 16,383 nodes: {(answered - smallest) / (read - smallest):.2f} times as long as the same text takes that is read alone, "
          f"where a node is asked that is no reference")
    first = None
    for runs, length in [(4_000, 8), (4_000, 800_000), (8_000, 8)]:
        graph = fan("x" * length, runs)
        held = least_memory([PROGRAM, "once"], graph + asked)
        first = held if first is None else first
        name = f"{runs:,} runs, a symbol of {length:,} bytes"
        print(f"{name:46} {held:8.1f} MB   {held / first:8.1f} times the first, for {len(graph):,} bytes")


if __name__ == "__main__":
    main()
