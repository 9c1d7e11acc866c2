"""What the scripts of this folder measure alike."""

import os
import resource
import subprocess
import sys
import time

STEP = 16_384
COUNTING = "for _ in range(4_000_000): pass"


def answer_within(command, data, steps=None):
    """What the command writes on this input in so many steps of memory; nothing where it doesn't end with status 0."""

    def limit():
        if steps is not None:
            resource.setrlimit(resource.RLIMIT_AS, (steps * STEP, steps * STEP))

    done = subprocess.run(command, input=data, stdout=subprocess.PIPE, stderr=subprocess.DEVNULL, preexec_fn=limit)
    return done.stdout if done.returncode == 0 else None


def least_memory(command, data):
    """The least memory in which the command answers this input as it does with any amount, in megabytes and to two parts
    in a hundred: all that it maps, the C library among it. The peak that the system tells of a child isn't used, since
    it is no less than what this script itself holds when the child is made."""
    wanted = answer_within(command, data)
    if wanted is None:
        raise SystemExit(f"{' '.join(command)} doesn't answer")
    within = 64
    while answer_within(command, data, within) != wanted:
        within *= 2
    without = within // 2
    while (within - without) * 50 > within:
        middle = (without + within) // 2
        if answer_within(command, data, middle) == wanted:
            within = middle
        else:
            without = middle
    return within * STEP / 1e6


def counted(processes):
    """The seconds that so many processes take that only count, at once."""
    start = time.perf_counter()
    for process in [subprocess.Popen([sys.executable, "-c", COUNTING]) for _ in range(processes)]:
        process.wait()
    return time.perf_counter() - start


def at_once():
    """How many times as much all processors do as one does, of work that shares nothing: less than their number where others
    use the machine too."""
    processors = len(os.sched_getaffinity(0))
    return processors * counted(1) / counted(processors)
