"""Imports: references to modules and their members, and the names that they bind."""

from __future__ import annotations

import ast
from typing import List, Optional, Sequence, Tuple

from .bindings import IMPORTED, Bound
from .expressions import Expressions
from .graph import NOTHING, ROOT, Values
from .places import Place, words_between
from .state import DOT

Words = List[Tuple[str, int, int, int]]


class Imports(Expressions):
    """Going through import statements."""

    def imported(self, node: ast.Import) -> None:
        words = words_between(self.lines, node)
        at = 1
        for alias in node.names:
            parts = alias.name.split(".")
            places = self.taken(words, at, parts)
            at += len(parts)
            meant = self.asking.meant(0, alias.name)
            prefix = meant[: len(meant) - len(alias.name)] if meant is not None else ""
            if meant is not None:
                self.module_references(prefix, parts, places)
            if alias.asname is None:
                self.bind_top(parts[0], prefix + parts[0] if meant is not None else None, places[0] if places else None)
            else:
                at += 2
                place = self.taken(words, at - 1, [alias.asname])
                values = self.module_value(meant) if meant is not None else NOTHING
                self.bind_import(alias.asname, place[0] if place else None, values, None)

    def bind_top(self, name: str, module: Optional[str], place: Optional[Place]) -> None:
        """Binds the first part of a dotted name, as `import a.b` does."""
        if module is None:
            self.bind_import(name, place, NOTHING, None)
        elif module == name:
            self.bind_import(name, place, self.module_value(module), (ROOT,))
        else:
            self.bind_import(name, place, self.module_value(module), None)

    def taken(self, words: Words, at: int, parts: Sequence[str]) -> List[Place]:
        """The places of the words from `at` on, where they are these; none where they aren't."""
        found = words[at : at + len(parts)]
        if [word[0] for word in found] != list(parts):
            return []
        return [(line, start, end) for _, line, start, end in found]

    def module_references(self, prefix: str, parts: Sequence[str], places: Sequence[Place]) -> None:
        """The references of the parts of a dotted name, each the member of the package before it."""
        for index, (part, place) in enumerate(zip(parts, places)):
            above = prefix + ".".join(parts[:index])
            self.module_reference(part, above.rstrip("."), place)

    def module_reference(self, part: str, package: str, place: Place) -> None:
        line, start, end = place
        if package:
            sinks: Sequence[int] = (self.graph.pushed(DOT, self.module_value(package)),)
        else:
            sinks = (ROOT,)
        self.graph.reference(part, line, start, end, sinks)

    def bind_import(self, name: str, place: Optional[Place], values: Values, targets: Optional[Sequence[int]]) -> None:
        """Binds an imported name. `targets` are where its references lead, or None where they lead to its value."""
        if place is not None and self.inner == 0:
            self.told(name, "import", place)
        if targets is None:
            targets = (self.graph.pop(name, values),) if values else ()
        self.order += 1
        self.put(name, Bound(self.order, IMPORTED, targets, values))

    def imported_from(self, node: ast.ImportFrom) -> None:
        words = words_between(self.lines, node)
        dotted = node.module or ""
        parts = dotted.split(".") if dotted else []
        meant = self.asking.meant(node.level, dotted)
        places = self.taken(words, 1, parts)
        at = 2 + len(parts)
        if meant is not None and parts and places:
            prefix = meant[: len(meant) - len(dotted)]
            self.module_references(prefix, parts, places)
        for alias in node.names:
            if alias.name == "*":
                if meant is not None:
                    self.star(meant)
                return
            at = self.imported_name(alias, meant, words, at)

    def imported_name(self, alias: ast.alias, module: Optional[str], words: Words, at: int) -> int:
        """Binds a name that is imported from a module; answers where the words of the next one begin."""
        found = self.taken(words, at, [alias.name])
        at += 1
        bound_at = found
        if alias.asname is not None:
            bound_at = self.taken(words, at + 1, [alias.asname])
            at += 2
        name = alias.asname or alias.name
        place = bound_at[0] if bound_at else None
        if module is None:
            self.bind_import(name, place, NOTHING, None)
            return at
        if module == self.asking.name and self.asking.package and self.asking.has(f"{module}.{alias.name}"):
            source: Values = self.module_value(f"{module}.{alias.name}")
            if found:
                line, start, end = found[0]
                self.graph.reference(alias.name, line, start, end, (self.graph.pop(alias.name, source),))
            self.bind_import(name, place, source, None)
            return at
        dot = self.graph.pushed(DOT, self.module_value(module))
        if found:
            line, start, end = found[0]
            reference = self.graph.reference(alias.name, line, start, end, (dot,))
        else:
            reference = self.graph.pushed(alias.name, (dot,))
        self.bind_import(name, place, (reference,), (dot,) if name == alias.name else None)
        return at

    def star(self, module: str) -> None:
        """Binds the public names of a module, one by one."""
        if not self.asking.has(module):
            return
        dot = self.graph.pushed(DOT, self.module_value(module))
        for name in self.asking.public(module):
            self.order += 1
            self.put(name, Bound(self.order, IMPORTED, (dot,), (self.graph.pushed(name, (dot,)),)))
