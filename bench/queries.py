#!/usr/bin/env python3
"""Times how a reference is answered by joining stored paths, beside following the edges of the whole graph, and prints
one table; every figure is of this one run.

usage: bench/queries.py [PROGRAM]     (out/timing, as bench/queries.sh leaves it)

The files' paths are found once before the reference is asked so many times: what a run of the program without a
question takes is taken off.
"""

import json
import subprocess
import sys
import time

PROGRAM = sys.argv[1] if len(sys.argv) > 1 else "out/timing"


def file(nodes, edges):
    return json.dumps({"nodes": nodes, "edges": edges})


def push(symbol, reference=False):
    return {"kind": "push", "symbol": symbol, "reference": reference}


def pop(symbol, definition=False):
    return {"kind": "pop", "symbol": symbol, "definition": definition}


def ladder(rungs, scope):
    """A reference, scopes of which each next one is reached by two edges, and the definition behind the last two."""
    nodes = [push("x", True)] + [scope] * rungs + [pop("x", True)]
    edges = [[0, 1, 0]] + [[n, n + 1, 0] for n in range(1, rungs + 1) for _ in range(2)]
    return file(nodes, edges)


def chain(files):
    """A reference, and files of which each passes the name on to the next one; the last one defines it."""
    texts = [file([push("x", True), push("m0")], [[0, 1, 0], [1, "root", 0]])]
    for n in range(files - 2):
        texts.append(file([pop(f"m{n}"), push(f"m{n + 1}")], [["root", 0, 0], [0, 1, 0], [1, "root", 0]]))
    texts.append(file([pop(f"m{files - 2}"), pop("x", True)], [["root", 0, 0], [0, 1, 0]]))
    return "\n".join(texts)


def package(files):
    """A reference to one of many names that as many files define behind the same three symbols."""
    texts = [file([push("x", True), push("m0"), push("c"), push("b"), push("a")], [[0, 1, 0], [1, 2, 0], [2, 3, 0], [3, 4, 0], [4, "root", 0]])]
    for n in range(files - 1):
        nodes = [pop("a"), pop("b"), pop("c"), pop(f"m{n}"), pop("x", True)]
        texts.append(file(nodes, [["root", 0, 0], [0, 1, 0], [1, 2, 0], [2, 3, 0], [3, 4, 0]]))
    return "\n".join(texts)


def run(case, times, text):
    """What the program says, and the least time of three runs."""
    said, took = "", []
    for _ in range(3):
        start = time.perf_counter()
        done = subprocess.run([PROGRAM], input=f"{case} {times}\n{text}".encode(), stdout=subprocess.PIPE, check=True)
        took.append(time.perf_counter() - start)
        said = done.stdout.decode().strip()
    return said, min(took)


def each(case, times, text):
    """What is said, and how long one question takes."""
    _, none = run(case, 0, text)
    said, all_of_them = run(case, times, text)
    return said, max(all_of_them - none, 1e-9) / times


def main():
    scope = {"kind": "scope"}
    exported = {"kind": "scope", "exported": True}
    cases = [
        ("8,192 runs of one file", ladder(13, scope), 8192, 5),
        ("8,190 runs, cut at each of 12 scopes", ladder(12, exported), 8190, 5),
        ("a chain over 64 files", chain(64), 1, 200),
        ("one of 1,000 names in one package", package(1001), 1, 200),
    ]
    for name, text, runs, times in cases:
        said, stitched = each("stitch", times, text)
        _, searched = each("search", times, text)
        print(f"{name:38} {said:12} {runs / stitched:12,.0f} runs/s joined, {searched / stitched:6.2f} times as fast as by the edges")


if __name__ == "__main__":
    main()
