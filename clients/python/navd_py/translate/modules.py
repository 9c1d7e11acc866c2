"""The names of a project's modules, and which module an import means.

A module is one symbol, its dotted name. What a translation asks of the other files goes through `Modules`, which writes
the questions down: a graph stays right as long as their answers stay the same.
"""

from __future__ import annotations

import ast
import warnings
from typing import Callable, Dict, FrozenSet, Iterable, List, Optional, Sequence, Set, Tuple

# A question of a translation about the project: what it asks for, and the name.
Question = Tuple[str, str]

STAR_DEPTH = 16


def module_name(path: str, roots: Sequence[str], package: str = "") -> Tuple[str, bool]:
    """The dotted name of the module at `path`, and whether it is a package's own.

    `roots` are folders with slashes; the longest that has the path counts, else the project's folder, which may be a
    package itself: `package` is its dotted name, or empty."""
    best = ""
    for root in roots:
        if len(root) > len(best) and path.startswith(root + "/"):
            best = root
    inner = path[len(best) + 1 :] if best else path
    parts = inner.rsplit(".", 1)[0].split("/")
    if package and not best:
        parts = package.split(".") + parts
    if parts[-1] == "__init__" and len(parts) > 1:
        return ".".join(parts[:-1]), True
    return ".".join(parts), False


class Modules:
    """The modules of a project by name. `text_of` gives the text of the file at a path."""

    def __init__(
        self, paths: Iterable[str], roots: Sequence[str], text_of: Callable[[str], Optional[str]], package: str = ""
    ) -> None:
        self.roots = tuple(roots)
        self.package = package
        self.text_of = text_of
        self.paths: Dict[str, str] = {}
        self._stars: Dict[str, Tuple[str, ...]] = {}
        self._summaries: Dict[str, Optional[_ModuleNames]] = {}
        self._counted: Dict[str, int] = {}
        for path in paths:
            self.add(path)

    def name(self, path: str) -> Tuple[str, bool]:
        return module_name(path, self.roots, self.package)

    def add(self, path: str) -> None:
        """Takes in a file; of two with one name the package counts, then the first by its path."""
        name, package = self.name(path)
        other = self.paths.get(name)
        if other == path:
            return
        if other is None:
            for folder in folders_of(name):
                self._counted[folder] = self._counted.get(folder, 0) + 1
        if other is None or package or (path < other and not self.name(other)[1]):
            self.paths[name] = path
        self.changed(path)

    def remove(self, path: str) -> None:
        name, _ = self.name(path)
        if self.paths.get(name) == path:
            del self.paths[name]
            for folder in folders_of(name):
                self._counted[folder] -= 1
        self.changed(path)

    def changed(self, path: str) -> None:
        """Forgets what is known of the text of a module."""
        name, _ = self.name(path)
        self._stars.clear()
        if name in self._summaries and self._summaries[name] is not None:
            fresh = self._summary_of(name)
            # While a text doesn't parse, what it bound before counts.
            if fresh is not None or name not in self.paths:
                self._summaries[name] = fresh
        else:
            self._summaries.pop(name, None)

    def has(self, name: str) -> bool:
        """Whether there is a module of that name, or one below it."""
        return self._counted.get(name, 0) > 0

    def answer(self, question: Question) -> str:
        """The answer to a question, as a text that is compared with earlier ones."""
        kind, name = question
        if kind == "has":
            return "yes" if self.has(name) else ""
        if kind == "is":
            return "yes" if name in self.paths else ""
        if kind == "star":
            module, _, asker = name.partition("\n")
            return ",".join(self.taken_by_star(module, asker))
        raise ValueError(f"no such question: {kind}")

    def public(self, name: str) -> Tuple[str, ...]:
        """The names that `from NAME import *` binds, sorted."""
        known = self._stars.get(name)
        if known is None:
            known = self._stars[name] = tuple(sorted(self._public(name, 0, set())))
        return known

    def taken_by_star(self, name: str, asker: str) -> Tuple[str, ...]:
        """The names that `from NAME import *` binds in the module `asker`, without those that NAME has from there."""
        names = self.public(name)
        summary = self._summaries.get(name)
        aliases = summary.aliases if summary is not None else {}
        return tuple(word for word in names if aliases.get(word) != f"{asker}.{word}")

    def _public(self, name: str, depth: int, above: Set[str]) -> FrozenSet[str]:
        if depth > STAR_DEPTH or name in above:
            return frozenset()
        if name not in self._summaries:
            self._summaries[name] = self._summary_of(name)
        names = self._summaries[name]
        if names is None:
            return frozenset()
        found = set(names.bound)
        for star in names.stars:
            found |= self._public(star, depth + 1, above | {name})
        if names.listed is None:
            return frozenset(word for word in found if not word.startswith("_"))
        listed = set(names.listed)
        for star in names.listed_of:
            listed |= self._public(star, depth + 1, above | {name})
        return frozenset(listed)

    def _summary_of(self, name: str) -> Optional[_ModuleNames]:
        path = self.paths.get(name)
        text = self.text_of(path) if path is not None else None
        if path is None or text is None:
            return None
        try:
            with warnings.catch_warnings():
                warnings.simplefilter("ignore")
                tree = ast.parse(text)
        except (SyntaxError, ValueError, RecursionError, MemoryError):
            return None
        names = _ModuleNames(name, self.name(path)[1])
        names.statements(tree.body)
        return names


def folders_of(name: str) -> List[str]:
    """The module and the packages above it."""
    parts = name.split(".")
    return [".".join(parts[: count + 1]) for count in range(len(parts))]


class Asking:
    """What one translation asks of the project, written down with the answers."""

    def __init__(self, modules: Modules, path: str) -> None:
        self.modules = modules
        self.name, self.package = modules.name(path)
        self.asked: Dict[Question, str] = {}

    def has(self, name: str) -> bool:
        """Whether the project has a module of that name, or one below it."""
        return self.yes("has", name)

    def is_module(self, name: str) -> bool:
        """Whether the project has a file for the module itself."""
        return self.yes("is", name)

    def yes(self, kind: str, name: str) -> bool:
        question = (kind, name)
        answer = self.asked.get(question)
        if answer is None:
            answer = self.asked[question] = self.modules.answer(question)
        return bool(answer)

    def public(self, name: str) -> Tuple[str, ...]:
        """The names that a star import of that module binds here."""
        names = self.modules.taken_by_star(name, self.name)
        self.asked[("star", f"{name}\n{self.name}")] = ",".join(names)
        return names

    def meant(self, level: int, dotted: str) -> Optional[str]:
        """The module that `from ..dotted` or `import dotted` means here, or None where the project has none."""
        if level:
            return relative(self.name, self.package, level, dotted)
        top = dotted.split(".", 1)[0]
        if self.has(top):
            return dotted
        # A script that is in no package imports from its own folder.
        folder = "" if self.package else self.name.rpartition(".")[0]
        if folder and self.has(f"{folder}.{top}") and not self.is_module(folder):
            return f"{folder}.{dotted}"
        return None


def relative(name: str, package: bool, level: int, dotted: str) -> Optional[str]:
    """The module that a relative import means in the module `name`."""
    parts = name.split(".")
    up = level - 1 if package else level
    if up > len(parts):
        return None
    base = parts[: len(parts) - up] if up else parts
    whole = ".".join(base + ([dotted] if dotted else []))
    return whole or None


class _ModuleNames:
    """The names that a module's own statements bind, without going into functions and classes."""

    def __init__(self, name: str, package: bool) -> None:
        self.name = name
        self.package = package
        self.bound: Set[str] = set()
        self.stars: List[str] = []
        self.listed: Optional[List[str]] = None
        self.listed_of: List[str] = []
        self.aliases: Dict[str, str] = {}

    def statements(self, body: Sequence[ast.stmt]) -> None:
        for statement in body:
            self.statement(statement)

    def statement(self, node: ast.stmt) -> None:
        if isinstance(node, (ast.FunctionDef, ast.AsyncFunctionDef, ast.ClassDef)):
            self.bound.add(node.name)
        elif isinstance(node, ast.Assign):
            for target in node.targets:
                self.target(target)
                self.names_listed(target, node.value, False)
        elif isinstance(node, (ast.AnnAssign, ast.AugAssign)):
            self.target(node.target)
            self.names_listed(node.target, node.value, isinstance(node, ast.AugAssign))
        elif isinstance(node, ast.Import):
            for alias in node.names:
                self.bound.add(alias.asname or alias.name.split(".")[0])
        elif isinstance(node, ast.ImportFrom):
            self.imported(node)
        elif isinstance(node, ast.Expr):
            self.extended(node.value)
        else:
            self.compound(node)

    def compound(self, node: ast.stmt) -> None:
        if isinstance(node, (ast.For, ast.AsyncFor)):
            self.target(node.target)
        if isinstance(node, (ast.With, ast.AsyncWith)):
            for item in node.items:
                if item.optional_vars is not None:
                    self.target(item.optional_vars)
        for field in ("body", "orelse", "finalbody"):
            self.statements(getattr(node, field, []))
        for handler in getattr(node, "handlers", []):
            self.statements(handler.body)
        for case in getattr(node, "cases", []):
            self.statements(case.body)

    def target(self, node: ast.expr) -> None:
        for inner in ast.walk(node):
            if isinstance(inner, ast.Name) and isinstance(inner.ctx, ast.Store):
                self.bound.add(inner.id)

    def imported(self, node: ast.ImportFrom) -> None:
        base = relative(self.name, self.package, node.level, node.module or "") if node.level else node.module
        for alias in node.names:
            if alias.name == "*":
                if base:
                    self.stars.append(base)
            else:
                self.bound.add(alias.asname or alias.name)
                if base:
                    self.aliases[alias.asname or alias.name] = f"{base}.{alias.name}"

    def names_listed(self, target: ast.expr, value: Optional[ast.expr], more: bool) -> None:
        if not (isinstance(target, ast.Name) and target.id == "__all__") or value is None:
            return
        if self.listed is None or not more:
            self.listed = []
        self.add_listed(value)

    def add_listed(self, value: ast.expr) -> None:
        assert self.listed is not None
        if isinstance(value, (ast.List, ast.Tuple)):
            for item in value.elts:
                if isinstance(item, ast.Constant) and isinstance(item.value, str):
                    self.listed.append(item.value)
                elif isinstance(item, ast.Starred):
                    self.add_listed(item.value)
        elif isinstance(value, ast.BinOp):
            self.add_listed(value.left)
            self.add_listed(value.right)
        elif isinstance(value, ast.Attribute) and value.attr == "__all__" and isinstance(value.value, ast.Name):
            self.listed_of.append(self.aliases.get(value.value.id, value.value.id))
        elif isinstance(value, ast.Call) and value.args:
            self.add_listed(value.args[0])

    def extended(self, value: ast.expr) -> None:
        """`__all__.extend(..)` and `__all__.append(..)`."""
        if not (isinstance(value, ast.Call) and isinstance(value.func, ast.Attribute) and value.args):
            return
        owner = value.func.value
        if isinstance(owner, ast.Name) and owner.id == "__all__" and self.listed is not None:
            if value.func.attr == "extend":
                self.add_listed(value.args[0])
            elif value.func.attr == "append":
                self.add_listed(ast.List(elts=[value.args[0]]))
