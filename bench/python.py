#!/usr/bin/env python3
"""Times the reading of Python modules, and the making of their graphs, beside CPython's `ast.parse`, and prints one table; every figure is of this one run.

usage: bench/python.py [PROGRAM]     (out/timing, as bench/python.sh leaves it)

Seconds are those of one reading: the program reads the text once and then ten times, and the difference
is divided. The stack is the least of those tried, in kilobytes, under which the program answers.
"""

import ast
import os
import resource
import subprocess
import sys
import time

PROGRAM = sys.argv[1] if len(sys.argv) > 1 else "out/timing"
MEGABYTE = 1_048_576
STACKS = [32, 48, 64, 96, 128, 192, 256, 512, 1024, 2048, 4096, 8192]
PART = """\
import os.path as path, sys
from package.module import first, second as other

class Shape(base.Shape):
    def area_%d(self, width, height=0):
        if width > height and not self.closed:
            return width * height + self.scale(width, "width", 12) - 1
        elif width is not None:
            self.size = [width, height, (width + 1) % 7]
        else:
            pass
        for item in self.items:
            total = total + item.value(1, 2, 3) // 2
        while total < 100:
            total = total << 1  # twice
        return total

"""


def grown(part):
    """The part as often as it fits into a megabyte."""
    parts, size = [], 0
    while True:
        text = part.replace("%d", str(len(parts))).replace(", height=0", ", height")
        if size + len(text) > MEGABYTE:
            return "".join(parts)
        parts.append(text)
        size += len(text)


def chain(terms):
    return "x = " + " + ".join(["a"] * terms) + "\n"


def brackets(depth, terms):
    before = "a + " * terms
    return "x = " + (before + "(") * depth + "1" + (" * b" * terms + ")") * depth + "\n"


def blocks(depth):
    return "".join(" " * n + "if a:\n" for n in range(depth)) + " " * depth + "pass\n"


def texts(lines):
    """A megabyte of statements whose graph has as many nodes as a file may have."""
    size = MEGABYTE // lines - len("x = ''\n")
    return ("x = '" + "a" * size + "'\n") * lines


def answer(text, times, kilobytes=None, case="parse"):
    def limit():
        if kilobytes is not None:
            resource.setrlimit(resource.RLIMIT_STACK, (kilobytes * 1024, kilobytes * 1024))

    done = subprocess.run([PROGRAM], input=f"{case} {times}\n{text}".encode(), stdout=subprocess.PIPE, preexec_fn=limit)
    return done.stdout.decode().strip() if done.returncode == 0 else None


def seconds(text, case="parse"):
    """Of one reading, the least of three runs."""
    best = []
    for times in (1, 11):
        took = []
        for _ in range(3):
            start = time.perf_counter()
            answer(text, times, case=case)
            took.append(time.perf_counter() - start)
        best.append(min(took))
    return (best[1] - best[0]) / 10


def python_seconds(text):
    took = []
    for _ in range(3):
        start = time.perf_counter()
        ast.parse(text)
        took.append(time.perf_counter() - start)
    return min(took)


def stack(text):
    wanted = answer(text, 1)
    for kilobytes in STACKS:
        if answer(text, 1, kilobytes) == wanted:
            return kilobytes
    return None


def main():
    os.environ["LC_ALL"] = "C"
    rows = [
        ("classes and functions", grown(PART)),
        ("names alone", grown("name\n")),
        ("one chain of operators", chain(262_000)),
        ("64 brackets, 1,000 operators in each", brackets(64, 1_000)),
        ("64 blocks in one another", blocks(64)),
    ]
    for name, text in rows:
        said = answer(text, 1)
        ours = seconds(text)
        line = f"{name:38} {len(text):9} bytes  {said:20} {len(text) / ours / 1e6:7.1f} MB/s"
        try:
            python = python_seconds(text)
            line += f", ast.parse {len(text) / python / 1e6:6.1f} MB/s, ratio {python / ours:5.2f}"
        except (RecursionError, MemoryError, SyntaxError):
            line += ", ast.parse refuses it"
        print(f"{line}; stack {stack(text)} kB")
    for name, text in [("16,381 statements, with the graph", texts(16_381)), ("64 blocks in one another, with the graph", blocks(64))]:
        said = answer(text, 1, case="translate")
        ours = seconds(text, case="translate")
        print(f"{name:38} {len(text):9} bytes  {said:20} {len(text) / ours / 1e6:7.1f} MB/s")


if __name__ == "__main__":
    main()
