#!/usr/bin/env python3
"""Times `callers` of a name that is used 10,000 times and of one that is used ten times; every figure is of this one run.

usage: bench/callers.py [--program PROGRAM] [--beside PROGRAM] [--rounds N] [FILES or FOLDER]

The project is one of `bench/projects.py`, of so many files (2,048 with what is added, where nothing is said), or the `.py`
files of a folder. To it come a module `hub.py` with two functions and 1,001 modules that use them: the one is called ten
times in each of 1,000 modules, the other ten times in one. Each figure is the middle one of the rounds (five), in
milliseconds:

  first       the first `callers` that is asked at a pin, of the name that is used ten times
  ten         the same again
  many        of the name that is used 10,000 times
  a change    of the name that is used ten times, behind a commit of one module: the first at its pin
  references  `references` of the name that is used ten times, the first at a pin
  taken       `callers` of the other name behind it, which is taken from what `references` found

With --beside another program of the same protocol does the same in each round, by turns, and has to answer alike.
"""

from __future__ import annotations

import argparse
import json
import statistics
import sys
from pathlib import Path

import modules
import projects
from programs import Lines, line_of

PROGRAM = Path(__file__).parent.parent / "crates/navd/out/navd"
FILES, USERS, USES = 2_048, 1_000, 10
HUB = "hub.py"
COLUMNS = ("first", "ten", "many", "a change", "references", "taken")


def using(name: str) -> str:
    """A module that calls the function so often."""
    calls = "".join(f"    step{turn} = {name}(start)\n" for turn in range(USES))
    return f"from hub import {name}\n\n\ndef run(start):\n{calls}    return step{USES - 1}\n"


def texts_of(word: str) -> dict[str, str]:
    texts = projects.project(int(word) - USERS - 2) if word.isdigit() else modules.texts_of(word)
    texts[HUB] = "def often(x):\n    return x\n\n\ndef seldom(x):\n    return x\n"
    for user in range(USERS):
        texts[f"use/user{user}.py"] = using("often")
    texts["use/one.py"] = using("seldom")
    return texts


def asked(do: str, line: int) -> bytes:
    return line_of(do=do, path=HUB, line=line, column=4)


OFTEN, SELDOM = 0, 4


def by_lines(program: Path, texts: dict[str, str]) -> tuple[list[float], list[bytes]]:
    """The figures of one session, and what it told."""
    replies, figures = [], []

    def took(line: bytes) -> None:
        told, seconds = session.ask([line])
        replies.extend(told)
        figures.append(seconds * 1e3)

    with Lines(program) as session:
        modules.committed(session, texts)
        took(asked("callers", SELDOM))
        took(asked("callers", SELDOM))
        took(asked("callers", OFTEN))
        modules.committed(session, {"use/one.py": texts["use/one.py"] + "turn = 1\n"})
        took(asked("callers", SELDOM))
        took(asked("references", SELDOM))
        took(asked("callers", OFTEN))
    return figures, replies


def rows_of(replies: list[bytes]) -> list[int]:
    return [len(json.loads(reply).get("rows", [])) for reply in replies]


def main() -> int:
    parser = argparse.ArgumentParser(usage="bench/callers.py [--program PROGRAM] [--beside PROGRAM] [--rounds N] [FILES or FOLDER]")
    parser.add_argument("--program", type=Path, default=PROGRAM)
    parser.add_argument("--beside", type=Path)
    parser.add_argument("--rounds", type=int, default=5)
    parser.add_argument("project", nargs="?", default=str(FILES))
    words = parser.parse_args()
    programs = [words.program] + ([words.beside] if words.beside else [])
    for program in programs:
        if not program.exists():
            parser.error(f"there is no program {program}")
    texts = texts_of(words.project)
    found: list[list[list[float]]] = [[] for _ in programs]
    for _ in range(words.rounds):
        answers = []
        for program, figures in zip(programs, found):
            took, replies = by_lines(program, texts)
            figures.append(took)
            answers.append(replies)
        told = [modules.rows_told(replies) for replies in answers]
        if any(other != told[0] for other in told[1:]):
            print("the other program answers otherwise", file=sys.stderr)
        # The name that a module imports refers to the function too.
        ten, many = USES + 1, USERS * (USES + 1)
        if rows_of(answers[0]) != [ten, ten, many, ten, ten, many]:
            print(f"the rows aren't as many as they should be: {rows_of(answers[0])}", file=sys.stderr)
            return 1
    middles = [[statistics.median(column) for column in zip(*figures)] for figures in found]
    print(modules.row("", [], "") + "".join(f"{column:>16}" for column in COLUMNS))
    for name, figures in zip((f"{len(texts)} files", "  beside it"), middles):
        print(modules.row(name, figures))
    if len(middles) > 1:
        print(modules.row("  times as much", [one / max(two, 1e-9) for one, two in zip(*middles)], "{:>16.2f}"))
    return 0


if __name__ == "__main__":
    sys.exit(main())
