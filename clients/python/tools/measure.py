#!/usr/bin/env python3
"""Compares what navd answers over the graphs of this package with jedi's answers, for names drawn by a seed.

    python3 tools/measure.py FOLDER [--names N] [--seed S] [--only PREFIX] [--show K] [--all] [--references N]

FOLDER is a folder of packages, such as a copy of some of `site-packages`. A name is asked of jedi by `goto`, following
imports; it counts where jedi gives exactly one place and this lies inside the folder. `exact` are those for which navd
has exactly that row, `contains` those where it has it among others, `wrong` those with other rows alone.

With --references who refers to so many definitions is compared likewise, place by place; columns of jedi are taken as
they are, so a line with text past ASCII may differ. With --all every use in the folder is asked of navd besides, and
how many are crowded or limited is told.
jedi has to be installed; it is no part of this package.
"""

from __future__ import annotations

import argparse
import ast
import collections
import json
import os
import random
import sys
import time
from typing import Counter, Dict, Iterator, List, NamedTuple, Optional, Set, Tuple

sys.path.insert(0, os.path.join(os.path.dirname(os.path.abspath(__file__)), ".."))

from navd_py.keeper import Keeper  # noqa: E402
from navd_py.project import Definition, Project, graph_path, source_path  # noqa: E402
from navd_py.session import Session  # noqa: E402

Where = Tuple[str, int, int]


class Name(NamedTuple):
    """A use of a name: the line from 0, the column in bytes and in characters from 0, and how it is used."""

    path: str
    line: int
    column: int
    character: int
    kind: str
    text: str


def uses_in(path: str, text: str) -> Iterator[Name]:
    """The uses of names in a text: plain names, members, and names in import statements."""
    try:
        tree = ast.parse(text)
    except (SyntaxError, ValueError):
        return
    lines = text.split("\n")
    bound = bound_kinds(tree)
    for node in ast.walk(tree):
        if isinstance(node, ast.Name) and isinstance(node.ctx, ast.Load):
            yield use_at(path, lines, node.lineno - 1, node.col_offset, kind_of_name(node, bound), node.id)
        elif isinstance(node, ast.Attribute) and node.end_lineno and node.end_col_offset:
            if isinstance(node.ctx, ast.Load):
                start = node.end_col_offset - len(node.attr.encode())
                yield use_at(path, lines, node.end_lineno - 1, start, kind_of_member(node), node.attr)
        elif isinstance(node, ast.ImportFrom):
            for alias in node.names:
                if alias.name != "*" and hasattr(alias, "lineno"):
                    yield use_at(path, lines, alias.lineno - 1, alias.col_offset, "import statement", alias.name)


def use_at(path: str, lines: List[str], line: int, column: int, kind: str, text: str) -> Name:
    written = lines[line].encode()[:column].decode("utf-8", "replace")
    return Name(path, line, column, len(written), kind, text)


def bound_kinds(tree: ast.Module) -> Dict[int, str]:
    """For each name the kind of what binds it, as far as the functions around it tell."""
    kinds: Dict[int, str] = {}

    def visit(node: ast.AST, scopes: List[Dict[str, str]]) -> None:
        for child in ast.iter_child_nodes(node):
            if isinstance(child, ast.Name):
                for scope in reversed(scopes):
                    if child.id in scope:
                        kinds[id(child)] = scope[child.id]
                        break
            if isinstance(child, (ast.FunctionDef, ast.AsyncFunctionDef, ast.Lambda)):
                visit(child, scopes + [names_of(child)])
            else:
                visit(child, scopes)

    visit(tree, [names_of(tree)])
    return kinds


def names_of(node: ast.AST) -> Dict[str, str]:
    """The names that a scope binds, with kinds."""
    found: Dict[str, str] = {}
    arguments = getattr(node, "args", None)
    if isinstance(arguments, ast.arguments):
        for argument in ast.walk(arguments):
            if isinstance(argument, ast.arg):
                found[argument.arg] = "parameter"
    local = "module member" if isinstance(node, ast.Module) else "local"
    waiting = list(ast.iter_child_nodes(node))
    while waiting:
        inner = waiting.pop()
        if isinstance(inner, (ast.Import, ast.ImportFrom)):
            for alias in inner.names:
                found[(alias.asname or alias.name).split(".")[0]] = "import"
        elif isinstance(inner, (ast.FunctionDef, ast.AsyncFunctionDef, ast.ClassDef)):
            found.setdefault(inner.name, local)
            continue
        elif isinstance(inner, ast.Name) and not isinstance(inner.ctx, ast.Load):
            found.setdefault(inner.id, local)
        elif isinstance(inner, ast.ExceptHandler) and inner.name:
            found.setdefault(inner.name, local)
        waiting.extend(ast.iter_child_nodes(inner))
    return found


def kind_of_name(node: ast.Name, bound: Dict[int, str]) -> str:
    return bound.get(id(node), "builtin or unknown")


def kind_of_member(node: ast.Attribute) -> str:
    owner = node.value
    if isinstance(owner, ast.Name):
        return "member of self" if owner.id == "self" else "member of a name"
    if isinstance(owner, ast.Call) and isinstance(owner.func, ast.Name) and owner.func.id == "super":
        return "member of super"
    return "member of an expression"


def jedi_places(folder: str, names: List[Name]) -> Dict[Name, Optional[List[Where]]]:
    """The places that jedi gives for each name; those outside the folder have an empty path. None where it fails."""
    import jedi  # type: ignore[import-untyped]

    project = jedi.Project(folder)
    found: Dict[Name, Optional[List[Where]]] = {}
    scripts: Dict[str, jedi.Script] = {}
    for name in names:
        if name.path not in scripts:
            scripts = {name.path: jedi.Script(path=os.path.join(folder, name.path), project=project)}
        try:
            told = scripts[name.path].goto(name.line + 1, name.character, follow_imports=True)
        except Exception:
            found[name] = None
            continue
        places: List[Where] = []
        for one in told:
            path = str(one.module_path) if one.module_path else ""
            if path.startswith(folder + os.sep) and path.endswith(".py") and one.line is not None:
                places.append((os.path.relpath(path, folder).replace(os.sep, "/"), one.line - 1, one.column))
            else:
                places.append(("", 0, 0))
        found[name] = places
    return found


class Answers:
    """navd over the graphs of a folder."""

    def __init__(self, folder: str, program: Optional[str]) -> None:
        started = time.monotonic()
        self.project = Project(folder)
        self.processes: List[int] = []  # the numbers of navd's processes, the last one goes on
        self.keeper = Keeper(lambda: self.opened(program))
        paths = self.project.scan()
        self.size = 0
        self.refused: List[Tuple[str, str]] = []
        for result in self.project.translate_all(paths):
            if result.source is None:
                self.refused.append((result.path, result.fault.message if result.fault else ""))
            else:
                self.size += len(result.source)
                self.keeper.put(graph_path(result.path), result.source)
        self.translating = time.monotonic() - started
        started = time.monotonic()
        self.keeper.commit()
        self.committing = time.monotonic() - started
        self.refused.extend((source_path(path), reason) for path, reason in self.keeper.refused.items())

    def opened(self, program: Optional[str]) -> Session:
        session = Session(program)
        self.processes.append(session.process or 0)
        return session

    def define(self, names: List[Name]) -> List[Dict[str, object]]:
        return self.keeper.ask([self.request(name) for name in names])

    def request(self, name: Name) -> Dict[str, object]:
        return {"do": "define", "path": graph_path(name.path), "line": name.line, "column": name.column}


def drawn_definitions(answers: Answers, only: str, count: int, seed: int) -> List[Tuple[str, Definition]]:
    """Definitions that other files may refer to, drawn by a seed."""
    found = []
    for path in answers.project.scan():
        if path.startswith(only):
            for definition in answers.project.translated(path).definitions:
                if definition.kind in ("class", "function", "method", "attribute"):
                    found.append((path, definition))
    return random.Random(seed).sample(found, min(count, len(found)))


def jedi_references(folder: str, path: str, line: int, character: int) -> Optional[Set[Where]]:
    """The uses inside the folder that jedi gives of a definition, or None where it fails."""
    import jedi

    try:
        script = jedi.Script(path=os.path.join(folder, path), project=jedi.Project(folder))
        told = script.get_references(line + 1, character, include_builtins=False)
    except Exception:
        return None
    places = set()
    for one in told:
        place = str(one.module_path) if one.module_path else ""
        if place.startswith(folder + os.sep) and not one.is_definition():
            places.add((os.path.relpath(place, folder).replace(os.sep, "/"), one.line - 1, one.column))
    return places


def compare_references(answers: Answers, folder: str, only: str, count: int, seed: int, show: int) -> None:
    """Compares who refers to definitions, place by place."""
    totals: Counter[str] = collections.Counter()
    for path, definition in drawn_definitions(answers, only, count, seed):
        line, column = definition.span[:2]
        text = (answers.project.text(path) or "").split("\n")[line]
        told = jedi_references(folder, path, line, len(text.encode()[:column].decode("utf-8", "replace")))
        request = {"do": "references", "path": graph_path(path), "line": line, "column": column}
        reply = answers.keeper.ask([request])[0]
        if told is None or "rows" not in reply:
            totals["jedi fails" if told is None else str(reply.get("error"))] += 1
            continue
        own = set(rows_of(reply))
        totals["definitions"] += 1
        totals["both"] += len(own & told)
        totals["jedi alone"] += len(told - own)
        totals["navd alone"] += len(own - told)
        for who, places in (("jedi", told - own), ("navd", own - told)):
            for place in sorted(places)[:show]:
                print(f"{who} alone: {shown(place)} refers to {path}:{line + 1}:{column + 1} {definition.name}")
    print(f"references: {dict(totals)}")


def rows_of(reply: Dict[str, object]) -> List[Where]:
    rows = reply.get("rows")
    places: List[Where] = []
    for row in rows if isinstance(rows, list) else []:
        span = row["span"] or [0, 0, 0, 0]
        places.append((source_path(row["path"]), span[0], span[1]))
    return places


def verdict(reply: Dict[str, object], wanted: Where) -> str:
    if reply.get("error") == "crowded":
        return "crowded"
    rows = rows_of(reply)
    if not rows:
        return "empty"
    if rows == [wanted]:
        return "exact"
    return "contains" if wanted in rows else "wrong"


def main() -> None:
    parser = argparse.ArgumentParser(description=__doc__, formatter_class=argparse.RawDescriptionHelpFormatter)
    parser.add_argument("folder")
    parser.add_argument("--names", type=int, default=1500)
    parser.add_argument("--seed", type=int, default=1)
    parser.add_argument("--only", default="", help="of files whose paths begin so")
    parser.add_argument("--show", type=int, default=0, help="show so many of those that aren't exact")
    parser.add_argument("--all", action="store_true", help="ask every use of the folder of navd")
    parser.add_argument("--references", type=int, default=0, help="ask who refers to so many definitions besides")
    parser.add_argument("--kept", help="a file that keeps what jedi gives, for a folder that doesn't change")
    parser.add_argument("--navd", help="the program; else the environment variable NAVD, else from PATH")
    given = parser.parse_args()
    folder = os.path.realpath(given.folder)
    answers = Answers(folder, given.navd)
    texts = {path: answers.project.text(path) for path in answers.project.scan() if path.startswith(given.only)}
    names = [name for path, text in texts.items() if text is not None for name in uses_in(path, text)]
    print(f"{len(texts)} files, {len(names)} uses, {answers.size} bytes of graphs, {len(answers.refused)} left out")
    print(f"translated in {answers.translating:.1f} s, committed in {answers.committing:.1f} s")
    for path, reason in answers.refused[:10]:
        print(f"  left out {path}: {reason}")
    if given.all:
        ask_all(answers, names)
    chosen = sorted(random.Random(given.seed).sample(names, min(given.names, len(names))))
    compare(answers, folder, chosen, given.show, given.kept)
    if given.references:
        compare_references(answers, folder, given.only, given.references, given.seed, given.show)
    answers.keeper.close()


def ask_all(answers: Answers, names: List[Name]) -> None:
    counts: Counter[str] = collections.Counter()
    modules: Counter[str] = collections.Counter()
    started = time.monotonic()
    for name, reply in zip(names, answers.define(names)):
        state = str(reply.get("error", "rows" if reply.get("rows") else "none"))
        counts[state] += 1
        if reply.get("limit"):
            counts["limited"] += 1
        if reply.get("limit") or state == "crowded":
            modules[name.path] += 1
    print(f"all uses: {dict(counts)} in {time.monotonic() - started:.1f} s")
    print(f"limited or crowded in {modules.most_common(8)}")


def kept_places(folder: str, names: List[Name], kept: Optional[str]) -> Dict[Name, Optional[List[Where]]]:
    """What jedi gives, from a file where it was kept there before."""
    if kept is None:
        return jedi_places(folder, names)
    known: Dict[str, Optional[List[Where]]] = {}
    if os.path.exists(kept):
        with open(kept, encoding="utf-8") as file:
            known = json.load(file)
    missing = [name for name in names if str(tuple(name)) not in known]
    for start in range(0, len(missing), 25):
        for name, places in jedi_places(folder, missing[start : start + 25]).items():
            known[str(tuple(name))] = places
        with open(kept, "w", encoding="utf-8") as file:
            json.dump(known, file)
    told: Dict[Name, Optional[List[Where]]] = {}
    for name in names:
        places = known[str(tuple(name))]
        told[name] = None if places is None else [(path, line, column) for path, line, column in places]
    return told


def compare(answers: Answers, folder: str, chosen: List[Name], show: int, kept: Optional[str]) -> None:
    told = kept_places(folder, chosen, kept)
    replies = answers.define(chosen)
    table: Dict[str, Counter[str]] = collections.defaultdict(collections.Counter)
    others: Counter[str] = collections.Counter()
    for name, reply in zip(chosen, replies):
        places = told[name]
        if places is None or len(set(places)) != 1 or not places[0][0]:
            group = group_of(places)
            rows = "rows" if rows_of(reply) else str(reply.get("error", "none"))
            others[f"{group}: {'none' if rows == 'no_reference' else rows}"] += 1
            continue
        outcome = verdict(reply, places[0])
        table[name.kind][outcome] += 1
        table["ALL"][outcome] += 1
        if outcome != "exact" and show > 0:
            show -= 1
            print(f"{outcome}: {name.path}:{name.line + 1}:{name.character + 1} {name.text} ({name.kind})")
            print(f"    jedi {shown(places[0])}, navd {' '.join(map(shown, rows_of(reply))) or reply}")
    heads = ["exact", "contains", "wrong", "empty", "crowded"]
    print(f"{'kind':26}{'n':>6}" + "".join(f"{head:>10}" for head in heads))
    for kind in sorted(table):
        counts = table[kind]
        print(f"{kind:26}{sum(counts.values()):6}" + "".join(f"{counts[head]:10}" for head in heads))
    print(f"jedi gives not exactly one place inside: {dict(others)}")


def group_of(places: Optional[List[Where]]) -> str:
    """Why what jedi gives doesn't count."""
    if places is None:
        return "jedi fails"
    if not places:
        return "none"
    return "several" if places[0][0] else "outside"


def shown(place: Where) -> str:
    return f"{place[0]}:{place[1] + 1}:{place[2] + 1}"


if __name__ == "__main__":
    main()
