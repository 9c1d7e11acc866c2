#!/usr/bin/env python3
"""Times definitions and references over what a user sees, on several processors and on one, and prints one table; every
figure is of this one run.

usage: bench/views.py [PROGRAM]     (out/timing, as bench/views.sh leaves it)

Each file of a tree has a reference to a name of another file and one name of its own. In a flat tree each name is
reached by a symbol of its own; in a deep package three symbols that all names share stand before it. The version and its
index are made once before the questions are asked: what a run of the program without a question takes is taken off. A
call of `references` makes its view first and asks all references of the tree.
"""

import json
import os
import subprocess
import sys
import time

PROGRAM = sys.argv[1] if len(sys.argv) > 1 else "out/timing"
SIZES = [64, 512, 2048]


def push(symbol, reference=False):
    return {"kind": "push", "symbol": symbol, "reference": reference}


def pop(symbol, definition=False):
    return {"kind": "pop", "symbol": symbol, "definition": definition}


def file(own, other, package):
    """A file that defines x in the module `own` of the package and refers to that of `other`."""
    nodes = [push("x", True), pop("x", True)]
    edges = []
    last = 0
    for symbol in [f"m{other}"] + package[::-1]:
        edges.append([last, len(nodes), 0])
        last = len(nodes)
        nodes.append(push(symbol))
    edges.append([last, "root", 0])
    last = "root"
    for symbol in package + [f"m{own}"]:
        edges.append([last, len(nodes), 0])
        last = len(nodes)
        nodes.append(pop(symbol))
    edges.append([last, 1, 0])
    return json.dumps({"nodes": nodes, "edges": edges})


def tree(files, package):
    return "\n".join(file(n, (n * 7 + 1) % files, package) for n in range(files))


def run(case, times, text, alone):
    """What the program says, and the least time of three runs; alone on one processor where that is asked for."""

    def one_processor():
        os.sched_setaffinity(0, sorted(os.sched_getaffinity(0))[:1])

    said, took = "", []
    for _ in range(3):
        start = time.perf_counter()
        done = subprocess.run(
            [PROGRAM],
            input=f"{case} {times}\n{text}".encode(),
            stdout=subprocess.PIPE,
            check=True,
            preexec_fn=one_processor if alone else None,
        )
        took.append(time.perf_counter() - start)
        said = done.stdout.decode().strip()
    return said, min(took)


def each(case, times, text, alone=False):
    """What is said, and how long one question takes."""
    _, none = run(case, 0, text, alone)
    said, all_of_them = run(case, times, text, alone)
    return said, max(all_of_them - none, 1e-9) / times


def main():
    processors = len(os.sched_getaffinity(0))
    print(f"{processors} processors, of which at most 8 are used")
    for name, package in [("flat tree", []), ("deep package", ["a", "b", "c"])]:
        least = None
        for files in SIZES:
            text = tree(files, package)
            said, defined = each("define", 20_000, text)
            least = least or defined
            told, several = each("references", max(20_000 // files, 4), text)
            _, one = each("references", max(20_000 // files, 4), text, alone=True)
            assert said == told == "rows: 1", (said, told)
            print(
                f"{name:13} {files:5} files: {1 / defined:10,.0f} definitions/s, {defined / least:5.2f} times the time of 64 files;"
                f" {files / several:10,.0f} references/s, {one / several:5.2f} times those of one processor"
            )


if __name__ == "__main__":
    main()
