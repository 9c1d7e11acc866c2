"""A stand-in for the translator in tests of what stands around it.

Its Python has names of modules alone: what a module assigns, and its functions and classes, are defined for all files,
and each other name refers to them. It has faults at will.
"""

from __future__ import annotations

import ast
import json
import os
from typing import Any, Callable, Dict, Iterable, Iterator, List, Optional, Sequence, Tuple

from navd_py.folders import Walker
from navd_py.project import Definition, Fault, Translated


class StandIn:
    """As `navd_py.project.Project`."""

    def __init__(
        self, folder: str, *, roots: Sequence[str] = (), excludes: Sequence[str] = (), cache: bool = True
    ) -> None:
        self.folder = folder
        self.walker = Walker(folder, excludes)
        self.texts: Dict[str, Optional[str]] = {}

    def scan(self) -> List[str]:
        found: List[str] = []
        for place, folders, names in os.walk(self.folder):
            folders[:] = [name for name in folders if not name.startswith(".")]
            found += [os.path.join(place, name) for name in names if name.endswith(".py")]
        return sorted(os.path.relpath(path, self.folder).replace(os.sep, "/") for path in found)

    def set_text(self, path: str, text: Optional[str]) -> List[str]:
        self.texts[path] = text
        return [path]

    def reread(self, path: str) -> List[str]:
        self.texts.pop(path, None)
        return [path]

    def text(self, path: str) -> Optional[str]:
        if path in self.texts:
            return self.texts[path]
        try:
            with open(os.path.join(self.folder, path), encoding="utf-8") as file:
                return file.read()
        except (OSError, UnicodeDecodeError):
            return None

    def translated(self, path: str) -> Translated:
        text = self.text(path)
        if text is None:
            return Translated(path, None, Fault(0, 0, "it can't be read"), ())
        if "refuse me" in text:
            return Translated(path, b'{"nodes":[],"edges":[[0,1,0]]}', None, ())
        try:
            tree = ast.parse(text)
        except (SyntaxError, ValueError) as error:
            line, column = getattr(error, "lineno", 1) or 1, getattr(error, "offset", 1) or 1
            return Translated(path, None, Fault(line - 1, max(column - 1, 0), str(error)), ())
        return self._graph(path, tree)

    @staticmethod
    def _graph(path: str, tree: ast.Module) -> Translated:
        nodes: List[Dict[str, Any]] = []
        edges: List[List[Any]] = []
        definitions: List[Definition] = []
        for node in ast.walk(tree):
            name, kind, column = _defined(node)
            if name:
                span = (node.lineno - 1, column, node.lineno - 1, column + len(name.encode()))
                edges.append(["root", len(nodes), 0])
                nodes.append({"kind": "pop", "symbol": name, "definition": True, "span": span})
                definitions.append(Definition(name, kind, span, ""))
            elif isinstance(node, ast.Name) and node.id != "crowded":
                span = (node.lineno - 1, node.col_offset, node.lineno - 1, node.end_col_offset or 0)
                edges.append([len(nodes), "root", 0])
                nodes.append({"kind": "push", "symbol": node.id, "reference": True, "span": span})
        for line, text in enumerate(ast.unparse(tree).splitlines()):
            if text == "crowded":
                _crowd(nodes, edges, line)
        source = json.dumps({"nodes": nodes, "edges": edges}).encode()
        return Translated(path, source, None, tuple(sorted(definitions, key=lambda one: one.span)))

    def translate_all(
        self, paths: Iterable[str], progress: Optional[Callable[[int, int], None]] = None
    ) -> Iterator[Translated]:
        for path in paths:
            yield self.translated(path)


def _crowd(nodes: List[Dict[str, Any]], edges: List[List[Any]], line: int) -> None:
    """A reference with 10,000 paths: in a hundred ways to another name, which has a hundred definitions."""
    edges.append([len(nodes), "root", 0])
    nodes.append({"kind": "push", "symbol": "crowded", "reference": True, "span": [line, 0, line, 7]})
    for _ in range(100):
        here = len(nodes)
        nodes.append({"kind": "pop", "symbol": "crowded"})
        nodes.append({"kind": "push", "symbol": "crowd"})
        nodes.append({"kind": "pop", "symbol": "crowd", "definition": True})
        edges.extend([["root", here, 0], [here, here + 1, 0], [here + 1, "root", 0], ["root", here + 2, 0]])


def _defined(node: ast.AST) -> Tuple[str, str, int]:
    if isinstance(node, (ast.FunctionDef, ast.ClassDef)):
        is_class = isinstance(node, ast.ClassDef)
        return node.name, "class" if is_class else "function", node.col_offset + (6 if is_class else 4)
    if isinstance(node, ast.Name) and isinstance(node.ctx, ast.Store):
        return node.id, "variable", node.col_offset
    return "", "", 0
