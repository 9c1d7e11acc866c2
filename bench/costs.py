#!/usr/bin/env python3
"""Counts the instructions of fixed sessions of the built `navd`, and fails where they have become dearer.

usage: bench/costs.py [--write] [PROGRAM]     (crates/navd/out/navd, as the gate and `make build` leave it)

Each session is run by `valgrind --tool=callgrind` on one processor, where the count is the same from run to run, on
projects of two sizes that `bench/projects.py` makes. What a step costs is the count of a session with it less that of the
same session without it. It fails where a count is more than 15 of 100 above the one that `bench/costs.json` keeps, or
where a step costs more on the larger project, as a multiple of the smaller one, than the table below allows. A session of
one processor starts no thread, so on two processors the threads are counted that sessions start, by their calls of the
system; as many as are kept have to be there. With --write the figures of this run are kept in place of the old ones.

Where there is no valgrind it says so and ends with 0, and passes over the threads where there aren't two processors.
"""

from __future__ import annotations

import argparse
import json
import os
import re
import shutil
import subprocess
import sys
import tempfile
from concurrent.futures import ThreadPoolExecutor
from functools import cache
from pathlib import Path
from typing import Callable, Iterable, NamedTuple

import places
import projects
from programs import ROOT, frame, line_of, opened
from programs import changed as changed_to

KEPT = Path(__file__).with_name("costs.json")
PROGRAM = Path(__file__).parent.parent / "crates/navd/out/navd"
# How far above the kept count is too far.
ABOVE = 1.15
SECONDS = 1_800
# How often each step is done.
CHANGES, DEFINES, AGAIN, CALLED, EDITS = 32, 512, 4, 22, 32

Session = list[dict]


class Project(NamedTuple):
    """The modules of a made project that have something to ask at."""

    texts: dict[str, str]
    paths: list[str]

    def path(self, number: int) -> str:
        return self.paths[number % len(self.paths)]

    def call(self, number: int) -> dict:
        """A place where a name is called, in file after file, now near its beginning and now near its end."""
        found = places.calls(self.texts[self.path(number)])
        return self.asked(number, found[number * 7 % len(found)])

    def definition(self, number: int) -> dict:
        return self.asked(number, places.definitions(self.texts[self.path(number)])[-1])

    def function(self, number: int) -> dict:
        """A function of a module's own level, of module after module from the last one back, which fewer others use: so not
        many ways lead to most of them."""
        found = places.definitions(self.texts[self.path(-1 - number)])
        own = [place for place in found if place.column == len("def ")]
        return self.asked(-1 - number, (own or found)[-1])

    def asked(self, number: int, place: places.Place) -> dict:
        return {"path": self.path(number), "line": place.line, "column": place.column}

    def changed(self, turn: int) -> tuple[str, str]:
        """A module and its text of this turn, in which one line more stands at the end."""
        path = self.path(turn * 31)
        return path, f"{self.texts[path]}TURN = {turn}\n"


@cache
def project_of(files: int) -> Project:
    texts = projects.project(files)
    return Project(texts, [path for path in texts if places.calls(texts[path]) and places.definitions(texts[path])])


# -- sessions of `navd run`


def committed(project: Project) -> Session:
    edits = [{"put": path, "text": text} for path, text in project.texts.items()]
    return [{"do": "hello", "user": "operator"}, {"do": "commit", "edits": edits}]


def changed(project: Project) -> Session:
    texts = [project.changed(turn) for turn in range(CHANGES)]
    return committed(project) + [{"do": "commit", "edits": [{"put": path, "text": text}]} for path, text in texts]


def defined(project: Project) -> Session:
    return committed(project) + [{"do": "define", **project.call(number)} for number in range(DEFINES)]


def referred(project: Project) -> Session:
    return committed(project) + [{"do": "references", **project.definition(0)}]


def referred_again(project: Project) -> Session:
    return referred(project) + [{"do": "references", **project.definition(number + 1)} for number in range(AGAIN)]


def called(project: Project) -> Session:
    return committed(project) + [{"do": "callers", **project.function(0)}]


def called_again(project: Project) -> Session:
    return called(project) + [{"do": "callers", **project.function(number + 1)} for number in range(CALLED)]


# -- sessions of `navd lsp`


def question(what: str, number: int, asked: dict, **more: object) -> dict:
    place = {"line": asked["line"], "character": asked["column"]}
    params = {"textDocument": {"uri": ROOT + asked["path"]}, "position": place, **more}
    return {"jsonrpc": "2.0", "id": number, "method": f"textDocument/{what}", "params": params}


def open_documents(project: Project) -> Session:
    begun = {"jsonrpc": "2.0", "id": 0, "method": "initialize", "params": {"rootUri": ROOT}}
    documents = [opened(path, text) for path, text in project.texts.items()]
    return [begun, *documents, question("definition", 1, project.call(0))]


def edited(project: Project) -> Session:
    session = open_documents(project)
    for turn in range(EDITS):
        session += [changed_to(*project.changed(turn)), question("definition", turn + 2, project.call(turn * 31))]
    return session


def edited_and_referred(project: Project) -> Session:
    asked = question("references", EDITS + 2, project.definition(0), context={"includeDeclaration": False})
    return edited(project) + [asked]


# -- what is counted


class Run(NamedTuple):
    """A session of a command on a project of so many files."""

    command: str
    session: Callable[[Project], Session]
    files: int


class Step(NamedTuple):
    """A step of a command: the session with it, the one without it, and how often it is done at so many files."""

    name: str
    command: str
    session: Callable[[Project], Session]
    without: Callable[[Project], Session] | None
    times: Callable[[int], int]
    files: tuple[int, int]
    # how many times as much it may cost on the larger project
    growth: float


STEPS = [
    Step("first commit, a file", "run", committed, None, lambda files: files, (64, 512), 1.3),
    Step("commit of one file", "run", changed, committed, lambda _: CHANGES, (64, 512), 1.5),
    Step("define", "run", defined, committed, lambda _: DEFINES, (64, 512), 1.5),
    Step("references, a file", "run", referred, committed, lambda files: files, (32, 128), 1.5),
    Step("references again", "run", referred_again, referred, lambda _: AGAIN, (32, 128), 3.0),
    Step("callers, a file", "run", called, committed, lambda files: files, (64, 512), 1.5),
    Step("callers again", "run", called_again, called, lambda _: CALLED, (64, 512), 3.0),
    Step("opened in an editor, a file", "lsp", open_documents, None, lambda files: files, (64, 512), 1.3),
    Step("changed there and asked", "lsp", edited, open_documents, lambda _: EDITS, (64, 512), 1.5),
    Step("references there, a file", "lsp", edited_and_referred, edited, lambda files: files, (32, 128), 1.5),
]
# The sessions whose threads are counted.
THREADED = {
    "a commit": Run("run", committed, 64),
    "a commit and references": Run("run", referred, 64),
    "an editor's references": Run("lsp", edited_and_referred, 64),
}


def input_of(command: str, session: Session) -> bytes:
    return b"".join(line_of(**request) if command == "run" else frame(request) for request in session)


def fault_in(command: str, session: Session, told: bytes) -> str | None:
    """What is wrong with the replies, if anything is: each has to be there, and none may be an error."""
    wanted = len(session) if command == "run" else sum("id" in request for request in session)
    replies = told.count(b"\n") if command == "run" else told.count(b"Content-Length")
    at = told.find(b'"error"')
    if at >= 0:
        return f"an error was replied: {told[max(at - 40, 0):at + 80]!r}"
    return None if replies == wanted else f"{replies} replies in place of {wanted}"


def each(work: Callable[[Run], int], runs: Iterable[Run], sets: list[set[int]]) -> dict[Run, int]:
    """What the work tells of each run; as many at once as there are sets of processors, each on those of one set."""
    left = list(sets)
    pool = ThreadPoolExecutor(len(sets), initializer=lambda: os.sched_setaffinity(0, left.pop()))
    try:
        return dict(zip(runs, pool.map(work, runs)))
    finally:
        pool.shutdown(cancel_futures=True)


def run_under(program: Path, tool: list[str], run: Run) -> str:
    """What valgrind says of a run. All that it reads is there at the start, so that no read is cut short, and its
    environment is empty, so that the same instructions are carried out each time."""
    command, session = run.command, run.session(project_of(run.files))
    with tempfile.TemporaryDirectory() as name:
        folder = Path(name)
        (folder / "in").write_bytes(input_of(command, session))
        words = ["valgrind", f"--log-file={folder}/said", *tool, str(program.resolve()), command]
        with open(folder / "in", "rb") as source, open(folder / "out", "wb") as sink:
            ran = subprocess.run(words, stdin=source, stdout=sink, stderr=subprocess.DEVNULL, timeout=SECONDS, cwd=folder,
                                 env={"PATH": os.environ.get("PATH", "")})
        fault = fault_in(command, session, (folder / "out").read_bytes())
        # An editor's session ends without its `exit`, which is status 1.
        if fault is None and ran.returncode not in (0, 1):
            fault = f"it ended with status {ran.returncode}"
        if fault:
            raise SystemExit(f"costs: a session of `navd {command}` went wrong: {fault}")
        return (folder / "said").read_text(errors="replace")


def instructions(program: Path, run: Run) -> int:
    said = run_under(program, ["--tool=callgrind", "--callgrind-out-file=/dev/null"], run)
    found = re.search(r"Collected : (\d+)", said)
    if not found:
        raise SystemExit(f"costs: valgrind tells no count of instructions:\n{said}")
    return int(found[1])


def threads(program: Path, run: Run) -> int:
    """How many threads the run starts."""
    said = run_under(program, ["--tool=none", "--trace-syscalls=yes"], run)
    return len(re.findall(r"\) sys_clone3? \([^\n]*Success", said))


def counted(program: Path) -> dict[str, list[int]]:
    """The instructions of each step, on the smaller and on the larger project, for each time that it is done."""
    wanted = {Run(step.command, session, files) for step in STEPS for session in (step.session, step.without) if session
              for files in step.files}
    # The longest first, so that no processor is left to do them at the end.
    runs = sorted(wanted, key=lambda run: (-run.files, run.session.__name__))
    for run in runs:
        project_of(run.files)
    found = each(lambda run: instructions(program, run), runs, [{one} for one in sorted(os.sched_getaffinity(0))])

    def cost(step: Step, files: int) -> int:
        without = found[Run(step.command, step.without, files)] if step.without else 0
        return (found[Run(step.command, step.session, files)] - without) // step.times(files)

    return {step.name: [cost(step, files) for files in step.files] for step in STEPS}


def share_of_processors() -> float:
    """How many processors' time this group of processes may take, where a limit of it is told."""
    try:
        most, period = Path("/sys/fs/cgroup/cpu.max").read_text().split()
        return float(most) / float(period)
    except (OSError, ValueError):
        return float("inf")


def threads_started(program: Path) -> dict[str, int]:
    """The threads that each of those sessions starts on two processors; nothing where there aren't two."""
    two = set(sorted(os.sched_getaffinity(0))[:2])
    if len(two) < 2 or share_of_processors() < 2:
        return {}
    found = each(lambda run: threads(program, run), THREADED.values(), [two])
    return {name: found[run] for name, run in THREADED.items()}


# -- what is said of it


def dearer(now: int, kept: int | None) -> bool:
    return kept is None or now > kept * ABOVE


def said_of(now: int, kept: int | None) -> str:
    if kept is None:
        return f"{now:>13,}      (none kept)"
    return f"{now:>13,} {100 * (now - kept) / kept:>+7.1f} of 100{' DEARER' if dearer(now, kept) else ''}"


def judged(found: dict[str, list[int]], started: dict[str, int], kept: dict) -> bool:
    """Prints the table; whether nothing has become dearer."""
    print("instructions, each time: on the smaller project and on the larger one, and how far from what is kept")
    fine = True
    for step in STEPS:
        small, large = found[step.name]
        before = kept.get("instructions", {}).get(step.name, [None, None])
        growth = large / max(small, 1)
        grown = growth > step.growth
        fine = fine and not (grown or dearer(small, before[0]) or dearer(large, before[1]))
        print(f"{step.name:28}{said_of(small, before[0])}{said_of(large, before[1])}"
              f"  {growth:6.2f} times, at most {step.growth}{' GROWN' if grown else ''}")
    if not started:
        print("threads: passed over, since there aren't two processors here")
    for name, count in started.items():
        before = kept.get("threads", {}).get(name)
        fine = fine and count == before
        print(f"threads of {name:24} {count} started on two processors{'' if count == before else f', NOT {before}'}")
    return fine


def keep(found: dict[str, list[int]], started: dict[str, int]) -> int:
    """Keeps these figures, if threads could be counted; the status."""
    if not started:
        print("costs: nothing is kept, since threads are counted on two processors")
        return 1
    KEPT.write_text(json.dumps({"instructions": found, "threads": started}, indent=1) + "\n")
    print(f"costs: kept in {KEPT.name}")
    return 0


def main() -> int:
    parser = argparse.ArgumentParser(usage="bench/costs.py [--write] [PROGRAM]")
    parser.add_argument("--write", action="store_true", help="keep the figures of this run")
    parser.add_argument("program", nargs="?", type=Path, default=PROGRAM)
    words = parser.parse_args()
    if not shutil.which("valgrind"):
        print("costs: passed over, since there is no valgrind here")
        return 0
    if not words.program.exists():
        parser.error(f"there is no program {words.program}")
    found, started = counted(words.program), threads_started(words.program)
    fine = judged(found, started, json.loads(KEPT.read_text()) if KEPT.exists() else {})
    if words.write:
        return keep(found, started)
    dear = "DEARER than what is kept; where that is wanted, --write keeps the new figures"
    print(f"costs: {'no dearer than what is kept' if fine else dear}")
    return 0 if fine else 1


if __name__ == "__main__":
    sys.exit(main())
