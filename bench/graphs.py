#!/usr/bin/env python3
"""Times the finding of a file's paths and the indexing of documents, and prints one table; every figure is of this one run.
One row splits what one module costs on one processor into its reading, the making of its graph, the finding of its paths
and what else it takes to have it indexed, beside the time in which CPython's `compile` takes the same text, the middle ones
of several rounds. The last rows are the least memory in which one module is indexed whose one reference has a long or a
short name.

usage: bench/graphs.py [PROGRAM]     (out/timing, as bench/graphs.sh leaves it)

Walks are timed without the reading of the graph: the time of `read` is taken off that of `walk`. Documents
are timed through the call that indexes them, over a store that keeps none of them and over one that keeps all. Documents a
second are timed up to the line that tells how many there are, the middle ones of several rounds, on one processor and on all
by turns: a server keeps what was indexed, so that the freeing of it isn't waited for. Beside them stands how many times as much
plain counting all processors do as one, in the same rounds. What one module costs is timed up to
that line too. Its reading, graph and paths are each made and freed again so many times, so their freeing counts; what stands
beside them is all that indexing takes besides, less the freeing of the graph and the paths, which it keeps.
Memory is to follow the number of paths, and not the length of the name but for the text itself.
"""

import json
import os
import subprocess
import sys
import time
import timeit

from measure import at_once, least_memory

PROGRAM = sys.argv[1] if len(sys.argv) > 1 else "out/timing"
DOCUMENTS = 1_000
# How many modules one round of the split takes, and how many rounds there are, of the split and of documents a second.
SPLIT, ROUNDS = 300, 9
PART = """\
import os.path as path
from package.module import first, second as other

class Shape%d(first.Shape):
    def area(self, width, height):
        if width > height and not self.closed:
            return width * height + self.scale(width, "width", 12) - 1
        for item in self.items:
            total = other(item.value(1, 2, 3)) // 2
        self.size = [width, height, path]
        return total

"""
MODULE = "".join(PART.replace("%d", str(n)) for n in range(7))


def ladder(scopes):
    """A reference before scopes, each next one reached by two edges: its text, and how many walks it has."""
    nodes = [{"kind": "push", "symbol": "x", "reference": True}] + [{"kind": "scope"}] * scopes
    edges = [[0, 1, 0]] + [[n, n + 1, 0] for n in range(1, scopes) for _ in range(2)]
    return json.dumps({"nodes": nodes, "edges": edges}), 2**scopes - 1


def groups(count):
    """Groups of five nodes behind the root, one after the other; each node ends one walk."""
    nodes, edges = [], []
    for group in range(count):
        first = 5 * group
        nodes += [
            {"kind": "pop", "symbol": f"m{group}", "definition": True},
            {"kind": "scope"},
            {"kind": "push", "symbol": "p"},
            {"kind": "pop", "symbol": "p"},
            {"kind": "pop", "symbol": f"z{group}", "definition": True},
        ]
        edges += [["root", first, 0]] + [[first + n, first + n + 1, 0] for n in range(4)]
    return json.dumps({"nodes": nodes, "edges": edges}), 5 * count


def imports(name, lines):
    """A module that asks each of its imports for one name: a path of it holds the name for each of them."""
    return name + "\n" + "from m import *\n" * lines


def answer(case, times, text, alone=False):
    """What the program writes, on one processor where it is to run alone there."""
    limit = (lambda: os.sched_setaffinity(0, {min(os.sched_getaffinity(0))})) if alone else None
    done = subprocess.run([PROGRAM], input=f"{case} {times}\n{text}".encode(), stdout=subprocess.PIPE, preexec_fn=limit, check=True)
    return done.stdout.decode().strip()


def seconds(case, times, text):
    """The least of three runs."""
    took = []
    for _ in range(3):
        start = time.perf_counter()
        answer(case, times, text)
        took.append(time.perf_counter() - start)
    return min(took)


def told_after(case, times, text, alone):
    """The seconds up to the program's first line."""
    limit = (lambda: os.sched_setaffinity(0, {min(os.sched_getaffinity(0))})) if alone else None
    start = time.perf_counter()
    with subprocess.Popen([PROGRAM], stdin=subprocess.PIPE, stdout=subprocess.PIPE, preexec_fn=limit) as process:
        process.stdin.write(f"{case} {times}\n{text}".encode())
        process.stdin.close()
        process.stdout.readline()
        took = time.perf_counter() - start
    return took


def documents_a_second(case, text, alone):
    """How many documents of this text are indexed a second."""
    return DOCUMENTS / (told_after(case, DOCUMENTS, text, alone) - told_after(case, 0, text, alone))


def split_once():
    """The seconds that one module's reading, graph, paths and keeping take on one processor, and CPython's `compile`."""
    took = [(told_after(case, 1 + SPLIT, MODULE, True) - told_after(case, 1, MODULE, True)) / SPLIT for case in ("parse", "translate", "found", "modules")]
    compiled = min(timeit.repeat(lambda: compile(MODULE, "module.py", "exec"), number=50, repeat=3)) / 50
    return [took[0]] + [later - earlier for earlier, later in zip(took, took[1:])] + [took[-1], took[-1] / compiled]


def split():
    """Prints the middle ones of several rounds, since a machine that others use is now faster and now slower."""
    columns = zip(*(split_once() for _ in range(ROUNDS)))
    *parts, whole, times = (sorted(column)[ROUNDS // 2] for column in columns)
    told = ", ".join(f"{name} {part * 1e6:4.0f}" for name, part in zip(("read", "graph", "paths", "kept"), parts))
    print(f"one module of {len(MODULE):,} bytes, microseconds: {told}, all {whole * 1e6:4.0f}: {times:.2f} times CPython's compile")


def main():
    for name, (text, walks), times in [("a ladder of 16 scopes", ladder(16), 5), ("500 nodes in groups of five", groups(100), 500)]:
        said = answer("walk", 1, text)
        read = seconds("read", times, text) / times
        found = seconds("walk", times, text) / times
        line = f"{name:30} {said:34} {walks / (found - read) / 1e6:6.2f} million walks/s"
        print(f"{line}, {(found - read) / read:8.2f} times the reading of the file")
    text, _ = groups(100)
    for name, case, document in [("such files", "index", text), ("Python modules", "modules", MODULE)]:
        rounds = [[documents_a_second(case, document, alone) for alone in (True, False)] + [at_once()] for _ in range(ROUNDS)]
        one, many, times, counting = (sorted(column)[ROUNDS // 2] for column in zip(*((one, many, many / one, c) for one, many, c in rounds)))
        name = f"{DOCUMENTS:,} {name} of {len(document):,} bytes"
        processors = len(os.sched_getaffinity(0))
        print(f"{name:40} {one:8,.0f} documents/s on one processor, {many:8,.0f} on {processors}, {times:.1f} times as many; plain counting {counting:.1f} times")
    split()
    none = seconds("index", 0, text)
    first = seconds("index", DOCUMENTS, text) - none
    again = (seconds("again", DOCUMENTS, text) - first - none) / 10
    name = f"{DOCUMENTS:,} such files of {len(text):,} bytes"
    print(f"{name:30} {DOCUMENTS / first:10,.0f} documents/s, {DOCUMENTS / again:10,.0f} documents/s where they are kept, {first / again:.0f} times as many")
    first = None
    for lines, length in [(4_000, 8), (4_000, 68_000), (8_000, 8)]:
        text = imports("x" * length, lines)
        case = f"modules 1\n{text}"
        if answer("modules", 1, text) != "files: 1":
            raise SystemExit("the module was not indexed")
        held = least_memory([PROGRAM], case.encode())
        first = held if first is None else first
        name = f"a module of {lines:,} imports that are asked for a name of {length:,} bytes"
        print(f"{name:70} {held:8.1f} MB, {held / first:5.1f} times the first, for {len(text):,} bytes")


if __name__ == "__main__":
    main()
