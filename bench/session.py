#!/usr/bin/env python3
"""Times sessions of `navd run` over made trees of graph files, and prints one table; every figure is of this one run.

usage: bench/session.py [PROGRAM]     (crates/navd/out/navd, as `make build` leaves it)

File k of a tree defines `dK` and leads from `aK` to one other file's definition, and has a reference through another
file's `a`, both drawn from the number of files; so each definition is found through the root and three files. The
columns are: the commits of all files, 64 in each; the commit of one file that changes, and beside it how often it costs
the one of the smallest tree; definitions asked at one version with all lines sent at once, a second, of one file after
the other and then of one file alone, and beside these how often one costs what it costs in the smallest tree; who refers
to a definition, asked first behind a pin and again behind that; and the program's memory at the end. Below stand the
documents a second of a project's first commits, the middle ones of several rounds, and how many times as much plain
counting all processors do as one, in the same rounds.
"""

import json
import os
import subprocess
import sys
import threading
import time

from graphs import MODULE
from measure import at_once

PROGRAM = sys.argv[1] if len(sys.argv) > 1 else "crates/navd/out/navd"
FILES = (64, 512, 2_048)
BATCH = 64
# A project of so many modules, and how many of them are put by one commit: about a megabyte, as `examples/ask.py` puts them.
MODULES, AT_ONCE = 1_024, 342
# How often they are committed on one processor and on all, by turns.
ROUNDS = 7
# How many commits of one file, definitions and who-refers questions are timed.
COMMITS, DEFINES, REFERENCES = 40, 100_000, 8


def drawn(files):
    """Numbers below the number of files, from a linear congruential generator."""
    state = 0
    while True:
        state = (state * 1_103_515_245 + 12_345) % 2**31
        yield state // 65_536 % files


def path_of(k):
    return f"f{k:04}.sg.json"


def graph(k, j, t):
    """The text of file k, whose reference goes through file j's `a`, and whose `a` leads to the definition of file t."""
    nodes = [
        {"kind": "pop", "symbol": f"d{k}", "definition": True},
        {"kind": "push", "symbol": f"a{j}", "reference": True},
        {"kind": "pop", "symbol": f"a{k}"},
        {"kind": "push", "symbol": f"d{t}"},
    ]
    edges = [["root", 0, 0], [1, "root", 0], ["root", 2, 0], [2, 3, 0], [3, "root", 0]]
    return json.dumps({"nodes": nodes, "edges": edges}, separators=(",", ":"))


def line_of(**request):
    return json.dumps(request, separators=(",", ":")).encode() + b"\n"


class Session:
    """A running `navd run` with its operator named."""

    def __init__(self, alone=False):
        limit = (lambda: os.sched_setaffinity(0, {min(os.sched_getaffinity(0))})) if alone else None
        self.process = subprocess.Popen([PROGRAM, "run"], stdin=subprocess.PIPE, stdout=subprocess.PIPE, preexec_fn=limit)
        self.replies([line_of(do="hello", user="operator")])

    def replies(self, lines):
        """Sends the lines while it reads their replies; the replies, none of which may be an error, and the seconds."""
        start = time.perf_counter()
        sender = threading.Thread(target=self.send, args=(lines,))
        sender.start()
        told = [self.process.stdout.readline() for _ in lines]
        took = time.perf_counter() - start
        sender.join()
        for reply in told:
            if not reply.startswith((b'{"version"', b'{"limit"')):
                raise SystemExit(f"navd replied {reply!r}")
        return told, took

    def send(self, lines):
        self.process.stdin.write(b"".join(lines))
        self.process.stdin.flush()

    def memory(self):
        """The most memory that it held, in megabytes."""
        with open(f"/proc/{self.process.pid}/status", encoding="ascii") as status:
            for line in status:
                if line.startswith("VmHWM:"):
                    return int(line.split()[1]) / 1e3
        raise SystemExit("the system doesn't tell the memory of a process")

    def end(self):
        self.process.communicate(line_of(do="quit"))
        if self.process.returncode != 0:
            raise SystemExit(f"navd ended with status {self.process.returncode}")


def measured(files):
    """The seconds of all commits, of one commit, of one definition of file after file and of one file alone, of who refers
    first and again, and the memory."""
    draw = drawn(files)
    aims = [(next(draw), next(draw)) for _ in range(files)]
    session = Session()
    puts = [{"put": path_of(k), "text": graph(k, j, t)} for k, (j, t) in enumerate(aims)]
    commits = [line_of(do="commit", edits=puts[n:n + BATCH]) for n in range(0, files, BATCH)]
    _, all_files = session.replies(commits)

    took = []
    for n in range(COMMITS):
        k = n * 31 % files
        text = graph(k, (aims[k][0] + 1 + n) % files, aims[k][1])
        took.append(session.replies([line_of(do="commit", edits=[{"put": path_of(k), "text": text}])])[1])
    one_file = sorted(took)[COMMITS // 2]

    spread = [line_of(do="define", path=path_of(n % files), node=1) for n in range(DEFINES)]
    alone = [line_of(do="define", path=path_of(files // 2), node=1)] * DEFINES
    defining = [session.replies(lines)[1] / DEFINES for lines in (spread, alone)]

    first, again = [], []
    for n in range(REFERENCES):
        line = line_of(do="references", path=path_of(aims[n][1]), node=0)
        # What was found is kept until the session pins once more.
        session.replies([line_of(do="pin")])
        first.append(session.replies([line])[1])
        again.append(session.replies([line])[1])
    memory = session.memory()
    session.end()
    return all_files, one_file, defining, sorted(first)[REFERENCES // 2], sorted(again)[REFERENCES // 2], memory


def modules_a_second(alone):
    """Documents a second of a project's first commits, each module with a name of its own in it."""
    puts = [{"put": f"m{n:03}.py", "text": MODULE + f"own_{n} = 1\n"} for n in range(MODULES)]
    commits = [line_of(do="commit", edits=puts[n:n + AT_ONCE]) for n in range(0, MODULES, AT_ONCE)]
    session = Session(alone)
    _, took = session.replies(commits)
    session.end()
    return MODULES / took


def main():
    print("files   commit all   commit one   ratio   define/s   ratio   of one file   ratio   references   again      memory")
    least = None
    for files in FILES:
        all_files, one_file, (spread, alone), first, again, memory = measured(files)
        least = least or (one_file, spread, alone)
        print(f"{files:5}   {all_files:8.3f} s   {one_file * 1e3:7.2f} ms   {one_file / least[0]:5.2f}   {1 / spread:8,.0f}   {spread / least[1]:5.2f}   "
              f"{1 / alone:9,.0f}     {alone / least[2]:5.2f}   {first * 1e3:7.2f} ms   {again * 1e3:7.2f} ms   {memory:6.1f} MB")
    rounds = [(modules_a_second(True), modules_a_second(False), at_once()) for _ in range(ROUNDS)]
    one, many, times, counting = (sorted(column)[ROUNDS // 2] for column in zip(*((one, many, many / one, c) for one, many, c in rounds)))
    processors = len(os.sched_getaffinity(0))
    print(f"{MODULES} modules of {len(MODULE):,} bytes: {one:,.0f} documents/s on one processor, {many:,.0f} on {processors}, {times:.1f} times as many; plain counting {counting:.1f} times")


if __name__ == "__main__":
    main()
