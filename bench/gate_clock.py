#!/usr/bin/env python3
"""Runs the gate, and tells by crate where the prover's time went.

usage: bench/gate_clock.py [--last FILE] COMMAND ..

The command's standard output passes through line by line, but for its last line. Then comes a table of processor
minutes, and then that last line; with --last it is written to FILE instead. Ends with the command's status: 128 and a
signal's number where one ended it, 127 where it can't be started. The clock only looks on: where it can't, it says so in
place of the table.

Once a second the processes below the command that are named `rattle` are looked at in /proc. Their words and their folder
tell the crate and what is done: tests, wrong bodies (in a temporary folder rt-edit-*) or else proofs. A process counts by
its last look, with all that it has started, so up to a second of each is missed; that stands in the line for the rest,
as does what isn't the prover's: compiling, linking, and running programs and tests.
"""

from __future__ import annotations

import argparse
import os
import resource
import signal
import subprocess
import sys
import threading
import time
from collections import defaultdict
from pathlib import Path
from typing import BinaryIO, Iterator, NamedTuple

PROC = Path("/proc")
PROVER = "rattle"
KINDS = ("proofs", "tests", "wrong bodies")
SECONDS = 1.0


class Process(NamedTuple):
    """A process at one moment."""

    number: int
    name: str
    parent: int
    # when it began, in ticks: with the number this names it for good
    began: int
    # the processor time of itself and of those below it that have ended, in ticks
    ticks: int


class Job(NamedTuple):
    """What a process of the prover does."""

    crate: str
    kind: str


def process_of(stat: str) -> Process:
    """The process whose file `stat` has this text. Its name stands between brackets, and may hold any characters."""
    front, _, back = stat.rpartition(")")
    number, _, name = front.partition(" (")
    fields = back.split()
    return Process(int(number), name, int(fields[1]), int(fields[19]), sum(map(int, fields[11:15])))


def processes(proc: Path) -> list[Process]:
    """All that are there now. OSError where none can be read."""
    found = []
    for folder in proc.iterdir():
        if not folder.name.isdigit():
            continue
        try:
            found.append(process_of((folder / "stat").read_text(errors="replace")))
        except OSError:
            # It has ended since.
            continue
    if not found:
        raise OSError(f"no process is told in {proc}")
    return found


def job_of(number: int, proc: Path) -> Job:
    """What this process of the prover does. OSError where it has ended."""
    words = (proc / str(number) / "cmdline").read_text(errors="replace").split("\0")
    folder = Path(os.readlink(proc / str(number) / "cwd"))
    crate = words[words.index("--crate-name") + 1] if "--crate-name" in words else "no crate"
    if "--test" in words:
        return Job(crate, "tests")
    in_copy = any(part.startswith("rt-edit-") for part in folder.parts)
    return Job(crate, "wrong bodies" if in_copy else "proofs")


def provers_below(top: int, below: dict[int, list[Process]]) -> Iterator[Process]:
    """The prover's processes below this one, but for those that another of them started."""
    for process in below[top]:
        if process.name == PROVER:
            yield process
        else:
            yield from provers_below(process.number, below)


def ticks_of(process: Process, below: dict[int, list[Process]]) -> int:
    """The processor time of the process and all that it started. A process that ended counts with the one that waited for it."""
    return process.ticks + sum(ticks_of(child, below) for child in below[process.number])


class Clock(threading.Thread):
    """Looks at the prover's processes below a process until it is told to end."""

    def __init__(self, top: int, proc: Path = PROC) -> None:
        super().__init__(daemon=True)
        self.top = top
        self.proc = proc
        self.ended = threading.Event()
        self.jobs: dict[tuple[int, int], Job] = {}
        self.ticks: dict[tuple[int, int], int] = {}
        self.fault: Exception | None = None

    def run(self) -> None:
        try:
            while not self.ended.wait(SECONDS):
                self.look()
        except Exception as fault:  # whatever it is, the gate goes on
            self.fault = fault

    def look(self) -> None:
        """Notes what each of the prover's processes does and its time so far."""
        below: dict[int, list[Process]] = defaultdict(list)
        for process in processes(self.proc):
            below[process.parent].append(process)
        for process in provers_below(self.top, below):
            name = (process.number, process.began)
            if name not in self.jobs:
                try:
                    self.jobs[name] = job_of(process.number, self.proc)
                except OSError:
                    continue
            self.ticks[name] = max(self.ticks.get(name, 0), ticks_of(process, below))

    def end(self) -> None:
        self.ended.set()
        self.join()

    def minutes(self) -> dict[str, dict[str, float]]:
        """The processor minutes of each crate, by kind."""
        minute = 60 * os.sysconf("SC_CLK_TCK")
        found: dict[str, dict[str, float]] = defaultdict(lambda: dict.fromkeys(KINDS, 0.0))
        for name, job in self.jobs.items():
            found[job.crate][job.kind] += self.ticks.get(name, 0) / minute
        return found


def row(name: str, minutes: dict[str, float]) -> str:
    cells = "".join(f"{minutes[kind]:>14.1f}" for kind in KINDS)
    return f"{name:20}{cells}{sum(minutes.values()):>10.1f}"


def table(crates: dict[str, dict[str, float]], processors: float, wall: float) -> list[str]:
    """The lines of the table: the crates, dearest first, and the minutes of all processors and by the clock on the wall."""
    dearest = sorted(crates, key=lambda crate: -sum(crates[crate].values()))
    whole = {kind: sum(crates[crate][kind] for crate in crates) for kind in KINDS}
    heads = "".join(f"{kind:>14}" for kind in KINDS)
    return [
        f"{'processor minutes':20}{heads}{'all':>10}",
        *(row(crate, crates[crate]) for crate in dearest),
        row("all crates", whole),
        f"{'the rest':20}{max(processors - sum(whole.values()), 0.0):>{14 * len(KINDS) + 10}.1f}",
        f"{'wall minutes':20}{wall:>{14 * len(KINDS) + 10}.1f}",
    ]


def pass_on(source: BinaryIO, sink: BinaryIO) -> bytes:
    """Writes each line as it comes, but for the last, which is the answer."""
    held = b""
    for line in source:
        sink.write(held)
        sink.flush()
        held = line
    return held


def status_of(code: int) -> int:
    """The status by which a shell tells of an end: a signal is told by a number below 0."""
    return code if code >= 0 else 128 - code


def timed(command: list[str], last: BinaryIO) -> int:
    """Runs the command, writes its last line to `last`, and gives its status."""
    began = time.monotonic()
    try:
        ran = subprocess.Popen(command, stdout=subprocess.PIPE)
    except OSError as fault:
        print(f"gate_clock: {command[0]} can't be started: {fault.strerror}", file=sys.stderr)
        return 127
    # Who stops this stops the command, whose end then is this one's.
    signal.signal(signal.SIGINT, signal.SIG_IGN)
    signal.signal(signal.SIGTERM, lambda *_: ran.terminate())
    clock = Clock(ran.pid)
    clock.start()
    held = pass_on(ran.stdout, sys.stdout.buffer)
    status = status_of(ran.wait())
    clock.end()
    used = resource.getrusage(resource.RUSAGE_CHILDREN)
    if clock.fault:
        lines = [f"gate_clock: no table of times, since {PROC} can't be read: {clock.fault}"]
    else:
        lines = table(clock.minutes(), (used.ru_utime + used.ru_stime) / 60, (time.monotonic() - began) / 60)
    print(*lines, sep="\n", flush=True)
    last.write(held)
    last.flush()
    return status


def main() -> int:
    parser = argparse.ArgumentParser(usage="bench/gate_clock.py [--last FILE] COMMAND ..")
    parser.add_argument("--last", metavar="FILE", help="where the command's last line goes, in place of standard output")
    parser.add_argument("command", nargs=argparse.REMAINDER, metavar="COMMAND")
    words = parser.parse_args()
    if not words.command:
        parser.error("no command is given")
    try:
        last = open(words.last, "wb") if words.last else sys.stdout.buffer
    except OSError as fault:
        parser.error(f"{words.last} can't be written: {fault.strerror}")
    try:
        return timed(words.command, last)
    except BrokenPipeError:
        # Nobody reads what is written here, and the command ends where it writes next.
        os.dup2(os.open(os.devnull, os.O_WRONLY), sys.stdout.fileno())
        return status_of(-signal.SIGPIPE)


if __name__ == "__main__":
    sys.exit(main())
