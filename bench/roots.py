#!/usr/bin/env python3
"""Times what a commit of one file costs in versions of 64, 512 and 2,048 files, and how many look-ups a second their
indexes of paths from the root answer, and prints one table; every figure is of this one run.

usage: bench/roots.py [PROGRAM]     (out/timing, as bench/roots.sh leaves it)

Times are of the processor, so that other work on the machine changes them little. The files' paths are found, and the
first version and its index made, before the commits or the look-ups: what a run of the program with none of them takes
is taken off.
"""

import json
import resource
import subprocess
import sys

PROGRAM = sys.argv[1] if len(sys.argv) > 1 else "out/timing"
COUNTS = (64, 512, 2048)
NAMES = ("run", "stop", "name", "size")


def pop(symbol, definition=False):
    return {"kind": "pop", "symbol": symbol, "definition": definition}


def module(symbols):
    """A file that defines four names behind these symbols, one after the other from the root on."""
    nodes = [pop(s) for s in symbols] + [pop(s, True) for s in NAMES]
    edges = [["root", 0, 0]] + [[n, n + 1, 0] for n in range(len(symbols) - 1)]
    edges += [[len(symbols) - 1, len(symbols) + n, 0] for n in range(len(NAMES))]
    return json.dumps({"nodes": nodes, "edges": edges})


def project(count, package):
    """So many modules in the package, and for each of 64 of them the stack of symbols of one of its names."""
    modules = [package + [f"m{n}"] for n in range(count)]
    stacks = [".".join(modules[n * count // 64] + [NAMES[n % 4]]) for n in range(64)]
    return " ".join(stacks) + "\n" + "\n".join(module(m) for m in modules)


def shared(count):
    """So many modules that all define the same names, and a stack for one of these."""
    return "m.run\n" + "\n".join(module(["m"]) for _ in range(count))


def processor_time():
    """What all programs that were run have taken of the processor by now."""
    usage = resource.getrusage(resource.RUSAGE_CHILDREN)
    return usage.ru_utime + usage.ru_stime


def run(case, times, text):
    """What the program says, and the least processor time of three runs."""
    said, took = "", []
    for _ in range(3):
        start = processor_time()
        done = subprocess.run([PROGRAM], input=f"{case} {times}\n{text}".encode(), stdout=subprocess.PIPE, check=True)
        took.append(processor_time() - start)
        said = done.stdout.decode().strip()
    return said, min(took)


def each(case, times, text):
    """What is said, and how long one of so many takes."""
    _, none = run(case, 0, text)
    said, all_of_them = run(case, times, text)
    return said, max(all_of_them - none, 1e-9) / times


def commits(name, make):
    """The cost of a commit at each number of files, with the index and without, and how it stands to that at the least."""
    first = {}
    for count in COUNTS:
        text = make(count)
        for case in ("commit", "amend"):
            said, took = each(case, 20_000, text)
            ratio = took / first.setdefault(case, took)
            print(f"{name:14} {count:6} files  {case:7} {took * 1e6:9.2f} us  {ratio:5.2f} times the first  {said}")


def look_ups(name, make, asked):
    """How many look-ups a second an index answers, and how many paths it offers a second."""
    for count in COUNTS:
        text = make(count)
        times = max(1, 200_000 // (asked if asked > 1 else count))
        said, took = each("offers", times, text)
        paths = int(said.split()[-1])
        print(f"{name:14} {count:6} files  offers  {asked / took:12,.0f} a second  {paths / took:12,.0f} paths a second  {said}")


def main():
    projects = (("flat", lambda count: project(count, [])), ("deep package", lambda count: project(count, ["a", "b", "c"])))
    for name, make in projects:
        commits(name, make)
    for name, make in projects:
        look_ups(name, make, 64)
    look_ups("one name", shared, 1)


if __name__ == "__main__":
    main()
