"""From the text of a Python file to a graph file of navd."""

from __future__ import annotations

import ast
import gc
import re
import sys
import warnings
from typing import List, Tuple

from .bindings import VARIABLE, Bound, merged
from .graph import ROOT, TooLarge
from .modules import Asking, Modules, Question
from .state import DOT, MEMBER, MEMBER_VALUE, Defined
from .statements import Statements

# Raised with each change of what a text's graph is, so that graphs kept by earlier ones are not taken.
VERSION = 6
# How deep expressions may nest here: a call for each level, and some more.
RECURSION = 3_000
GLOBAL = re.compile(r"^\s+global\s", re.MULTILINE)


class Translation(Statements):
    """The translation of one file."""

    def __init__(self, text: str, asking: Asking) -> None:
        super().__init__(text, asking, sys.version_info >= (3, 12))
        self.add_evaluators()
        self.add_executors()

    def whole(self, tree: ast.Module) -> bytes:
        """The graph file of the module."""
        graph = self.graph
        members = graph.cut_scope()
        name = self.asking.name
        entry = graph.module(name, (graph.pop(DOT, (members,)),))
        graph.edge(ROOT, entry, MEMBER)
        package, _, last = name.rpartition(".")
        if package:
            own = graph.pop(last, (graph.push(name, (entry,)),))
            graph.edge(ROOT, graph.pop(package, (graph.pop(DOT, (own,)),)), MEMBER_VALUE)
        self.defined.append((last, "module", (0, 0, 0, 0), package))
        if GLOBAL.search(self.text):
            self.share_globals(tree)
        self.block(tree.body)
        self.add_shared()
        self.go_on(self.module)
        self.members_of(members, self.module.names, MEMBER, MEMBER_VALUE)
        return graph.written()

    def share_globals(self, tree: ast.Module) -> None:
        for node in ast.walk(tree):
            if isinstance(node, ast.Global):
                for name in node.names:
                    if name not in self.shared:
                        self.shared[name] = (self.graph.scope(), self.graph.scope())

    def add_shared(self) -> None:
        """Makes what functions bind by `global` names of the module."""
        for name, (definitions, values) in self.shared.items():
            self.graph.slots.add(values)
            bound = Bound(self.order, VARIABLE, (definitions,), (values,))
            before = self.names.get(name)
            self.names[name] = bound if before is None else merged(before, bound)


def translate(text: str, asking: Asking) -> Tuple[bytes, List[Defined]]:
    """The graph file of a module and the names that it defines.

    Raises what `ast.parse` raises, and TooLarge where the graph is larger than a graph file may be."""
    if sys.getrecursionlimit() < RECURSION:
        sys.setrecursionlimit(RECURSION)
    # A tree has so many objects that looking for unreachable ones again and again takes longer than parsing.
    collects = gc.isenabled()
    gc.disable()
    try:
        with warnings.catch_warnings():
            warnings.simplefilter("ignore")
            tree = ast.parse(text)
        translation = Translation(text, asking)
        return translation.whole(tree), translation.defined
    finally:
        if collects:
            gc.enable()


__all__ = ["Asking", "Modules", "Question", "TooLarge", "VERSION", "translate"]
