"""Texts in which definitions and uses are marked, and what navd answers of them.

`<a|name>` is a definition that the test calls a; `<?a|name>` is a use of the name that has exactly the definition a as
its rows, `<?a,b|name>` one that has a and b in this order, `<?|name>` one without rows. The marks are taken out.
"""

from __future__ import annotations

import os
import re
import shutil
import tempfile
import unittest
from typing import Dict, List, Tuple

from navd_py.keeper import Keeper
from navd_py.project import Project, Translated, graph_path, source_path
from navd_py.session import NoProgram, Session, find_program
from navd_py.translate.graph import graph_nodes, span_of

MARK = re.compile(r"<(\??)([\w,]*)\|([^>\n]*)>")
Where = Tuple[str, int, int]


def program() -> str:
    """The navd to ask. Raises SkipTest where there is none."""
    try:
        return find_program()
    except NoProgram as error:
        raise unittest.SkipTest(str(error)) from None


def unmarked(path: str, text: str, definitions: Dict[str, Where], uses: List[Tuple[Where, str, List[str]]]) -> str:
    """The text without its marks; notes what they mark."""
    lines: List[str] = []
    for number, line in enumerate(text.split("\n")):
        plain = ""
        end = 0
        for mark in MARK.finditer(line):
            plain += line[end : mark.start()]
            where = (path, number, len(plain.encode()))
            labels = [label for label in mark.group(2).split(",") if label]
            if mark.group(1):
                uses.append((where, mark.group(3), labels))
            else:
                assert len(labels) == 1 and labels[0] not in definitions, f"{path}: {mark.group()}"
                definitions[labels[0]] = where
            plain += mark.group(3)
            end = mark.end()
        lines.append(plain + line[end:])
    return "\n".join(lines)


class Marked(unittest.TestCase):
    """A test whose folder of files is asked of navd."""

    def setUp(self) -> None:
        self.folder = tempfile.mkdtemp()
        self.addCleanup(shutil.rmtree, self.folder, True)

    def write(self, path: str, data: bytes) -> None:
        place = os.path.join(self.folder, *path.split("/"))
        os.makedirs(os.path.dirname(place), exist_ok=True)
        with open(place, "wb") as file:
            file.write(data)

    def results(self, project: Project) -> Dict[str, Translated]:
        return {result.path: result for result in project.translate_all(project.scan())}

    def check_spans(self, result: Translated) -> None:
        """Every span's text is the name of its node."""
        if result.source is None:
            return
        with open(os.path.join(self.folder, *result.path.split("/")), "rb") as file:
            lines = file.read().split(b"\n")
        for node in graph_nodes(result.source):
            span = span_of(node)
            if span is not None and span != (0, 0, 0, 0):
                self.assertEqual(lines[span[0]][span[1] : span[3]].decode(), node["symbol"], f"{result.path} {span}")

    def ask(self, files: Dict[str, str], **options: object) -> None:
        """Asks navd every marked use of these files."""
        definitions: Dict[str, Where] = {}
        uses: List[Tuple[Where, str, List[str]]] = []
        for path, text in files.items():
            self.write(path, unmarked(path, text, definitions, uses).encode())
        project = Project(self.folder, cache=False, **options)  # type: ignore[arg-type]
        name = program()
        keeper = Keeper(lambda: Session(name))
        self.addCleanup(keeper.close)
        for result in self.results(project).values():
            self.assertIsNone(result.fault, result)
            self.check_spans(result)
            keeper.put(graph_path(result.path), result.source)
        keeper.commit()
        self.assertEqual(keeper.refused, {})
        for (path, line, column), text, labels in uses:
            request = {"do": "define", "path": graph_path(path), "line": line, "column": column}
            reply = keeper.ask([request])[0]
            rows = [(source_path(row["path"]), row["span"][0], row["span"][1]) for row in reply.get("rows", ())]
            with self.subTest(name=text, at=f"{path}:{line + 1}:{column + 1}"):
                self.assertEqual(rows, [definitions[label] for label in labels], reply)
                self.assertFalse(reply.get("limit", False))
