#!/usr/bin/env python3
"""Times `navd` over projects of Python modules of usual size, and prints one table; every figure is of this one run.

usage: bench/modules.py [--program PROGRAM] [--beside PROGRAM] [--rounds N] [FILES or FOLDER ..]

The projects are made by `bench/projects.py`, of so many files (64, 512 and 2,048 where nothing is said), or are the `.py`
files of a folder. The columns are, each the middle one of the rounds (five):

  first commit    the commits of all files, in seconds
  memory          what the program holds behind them, in megabytes
  define          a definition asked with all lines sent at once, of file after file: processor time without system calls,
                  in microseconds, and how often it costs what it costs in the first project
  references      of a definition, the first that is asked at a pin, in milliseconds
  again           of other definitions at that pin, the middle one
  change          an editor's change of one module and the definition asked behind it, in milliseconds
  an editor's     its references behind these changes

With --beside another program of the same protocol does the same in each round, by turns. Its figures stand in the line
below, and under these how many times as much the first one took; it has to answer alike. The program is
crates/navd/out/navd, as `make build` leaves it.
"""

from __future__ import annotations

import argparse
import json
import statistics
import sys
from pathlib import Path
from typing import NamedTuple

import places
import projects
from programs import Editor, Lines, changed, commits_of, line_of, opened

PROGRAM = Path(__file__).parent.parent / "crates/navd/out/navd"
SIZES = ["64", "512", "2048"]
DEFINES, AGAIN, CHANGES = 100_000, 5, 25
# How many calls are looked at for places to ask at.
LOOKED_AT = 4_096
COLUMNS = ("first commit s", "memory MB", "define us", "references ms", "again ms", "change ms", "an editor's ms")


class Asked(NamedTuple):
    path: str
    line: int
    column: int


class Project(NamedTuple):
    texts: dict[str, str]
    # calls whose name has a definition, of file after file
    calls: list[Asked]
    # definitions that are called, of different files
    definitions: list[Asked]


def texts_of(word: str) -> dict[str, str]:
    """The texts of a made project of so many files, or of a folder."""
    if word.isdigit() and int(word) > 0:
        return projects.project(int(word))
    folder = Path(word)
    texts = {path.relative_to(folder).as_posix(): path.read_bytes().decode() for path in sorted(folder.rglob("*.py"))}
    if not texts:
        raise SystemExit(f"{word} is neither a number of files nor a folder with modules")
    return texts


def all_calls(texts: dict[str, str]) -> list[Asked]:
    """Calls of file after file: the first of each, then the second of each."""
    found = {path: places.calls(text) for path, text in texts.items()}
    turns = max(map(len, found.values()), default=0)
    return [Asked(path, *found[path][turn]) for turn in range(turns) for path in found if turn < len(found[path])]


def asked_of(do: str, place: Asked) -> bytes:
    return line_of(do=do, **place._asdict())


def surveyed(program: Path, texts: dict[str, str]) -> Project:
    """The project with places to ask at, which an untimed session finds."""
    looked = all_calls(texts)[:LOOKED_AT]
    with Lines(program) as session:
        committed(session, texts)
        told, _ = session.ask([asked_of("define", place) for place in looked])
    calls, definitions = [], {}
    for place, reply in zip(looked, told):
        rows = json.loads(reply).get("rows", [])
        if rows:
            calls.append(place)
        for row in rows:
            # At the very start of a file stands the module's own definition, and nothing is asked there.
            if row["span"] and row["span"][:2] != row["span"][2:] and row["path"] != place.path:
                definitions.setdefault(row["path"], Asked(row["path"], *row["span"][:2]))
    if len(definitions) <= AGAIN:
        raise SystemExit(f"fewer than {AGAIN + 1} files have definitions that others call")
    return Project(texts, calls, list(definitions.values()))


def committed(session: Lines, texts: dict[str, str]) -> float:
    told, took = session.ask(commits_of(texts))
    for reply in told:
        if not reply.startswith(b'{"version"'):
            raise SystemExit(f"the files aren't taken in: {reply!r}")
    return took


def by_lines(program: Path, project: Project) -> tuple[list[float], list[bytes]]:
    """The figures of one session, and what it told of definitions and references."""
    with Lines(program) as session:
        commit = committed(session, project.texts)
        memory = session.memory()
        first = asked_of("references", project.definitions[0])
        told, references = session.ask([first])
        again = []
        step = max((len(project.definitions) - 1) // AGAIN, 1)
        for place in project.definitions[1::step][:AGAIN]:
            more, took = session.ask([asked_of("references", place)])
            told += more
            again.append(took)
        lines = [asked_of("define", project.calls[number % len(project.calls)]) for number in range(DEFINES)]
        began = session.worked()
        more, _ = session.ask(lines)
        define = (session.worked() - began) / DEFINES
        told += more[:len(project.calls)]
    return [commit, memory, define * 1e6, references * 1e3, statistics.median(again) * 1e3], told


def by_an_editor(program: Path, project: Project) -> list[float]:
    with Editor(program) as session:
        session.answer([*(opened(path, text) for path, text in project.texts.items()),
                        session.question("definition", *project.calls[0])])
        changes = []
        for turn in range(CHANGES):
            place = project.calls[turn * 31 % len(project.calls)]
            text = f"{project.texts[place.path]}turn = {turn}\n"
            messages = [changed(place.path, text), session.question("definition", *place)]
            result, took = session.answer(messages)
            if not result:
                raise SystemExit(f"no definition is told of {place}")
            changes.append(took)
        _, references = session.answer([session.question("references", *project.definitions[0])])
    return [statistics.median(changes) * 1e3, references * 1e3]


def rows_told(told: list[bytes]) -> list[object]:
    """Replies without the numbers of nodes, which are a program's own."""
    replies = [json.loads(reply) for reply in told]
    return [sorted((row["path"], row["span"]) for row in reply["rows"]) if "rows" in reply else reply for reply in replies]


def measured(programs: list[Path], project: Project, rounds: int) -> list[list[float]]:
    """The middle ones of each program's figures."""
    figures: list[list[list[float]]] = [[] for _ in programs]
    for _ in range(rounds):
        answers = []
        for program, found in zip(programs, figures):
            told, replies = by_lines(program, project)
            found.append(told + by_an_editor(program, project))
            answers.append(rows_told(replies))
        for other in answers[1:]:
            differing = sum(one != two for one, two in zip(answers[0], other))
            if differing:
                print(f"{differing} of {len(other)} answers of the other program differ", file=sys.stderr)
    return [[statistics.median(column) for column in zip(*found)] for found in figures]


def row(name: str, figures: list[float], form: str = "{:>16.3f}") -> str:
    return f"{name:28}" + "".join(form.format(figure) for figure in figures)


def main() -> int:
    usage = "bench/modules.py [--program PROGRAM] [--beside PROGRAM] [--rounds N] [FILES or FOLDER ..]"
    parser = argparse.ArgumentParser(usage=usage)
    parser.add_argument("--program", type=Path, default=PROGRAM)
    parser.add_argument("--beside", type=Path)
    parser.add_argument("--rounds", type=int, default=5)
    parser.add_argument("projects", nargs="*", default=SIZES)
    words = parser.parse_args()
    programs = [words.program] + ([words.beside] if words.beside else [])
    for program in programs:
        if not program.exists():
            parser.error(f"there is no program {program}")
    print(row("", [], "") + "".join(f"{column:>16}" for column in COLUMNS))
    first = None
    for word in words.projects:
        project = surveyed(programs[0], texts_of(word))
        middles = measured(programs, project, words.rounds)
        first = first or middles[0]
        print(row(f"{len(project.texts)} files", middles[0]), flush=True)
        if len(middles) > 1:
            print(row("  beside it", middles[1]))
            print(row("  times as much", [one / max(two, 1e-9) for one, two in zip(*middles)], "{:>16.2f}"))
        grown = middles[0][2] / max(first[2], 1e-9)
        print(f"  a definition costs {grown:.2f} times what it costs in the first project", flush=True)
    return 0


if __name__ == "__main__":
    sys.exit(main())
