"""The definitions of a document and of the workspace, as an editor lists them."""

from __future__ import annotations

import ast
from typing import Any, Dict, Iterable, List, Optional, Sequence, Set, Tuple

from ..project import Definition
from .folder import Folder
from .places import range_of
from .workspace import Workspace

# The kinds of symbols of the protocol.
KINDS = {"module": 2, "class": 5, "function": 12, "method": 6, "variable": 13, "attribute": 8}
# So many symbols of the workspace are listed for one question.
MOST_SYMBOLS = 500

# The first and the last line of a definition, from 0.
Extent = Tuple[int, int]


def listed(definitions: Iterable[Definition]) -> List[Definition]:
    """The definitions that are listed, in the order of the text: no parameters, imports or names within functions."""
    definitions = list(definitions)
    functions = {_dotted(one) for one in definitions if one.kind in ("function", "method")}
    first: Dict[Tuple[str, str, str], Definition] = {}
    for one in sorted(definitions, key=lambda one: one.span):
        if one.kind not in KINDS or (one.kind == "variable" and one.container in functions):
            continue
        if one.kind in ("variable", "attribute"):  # assigned to again and again: the first counts
            first.setdefault((one.kind, _owner(one.container, functions), one.name), one)
        elif one.kind != "module":
            first[("", "", str(one.span))] = one
    return sorted(first.values(), key=lambda one: one.span)


def _dotted(definition: Definition) -> str:
    return f"{definition.container}.{definition.name}" if definition.container else definition.name


def _owner(container: str, functions: Set[str]) -> str:
    """The class in which an attribute stands, whose methods assign to it."""
    while container in functions:
        container = container.rpartition(".")[0]
    return container


def document_symbols(workspace: Workspace, folder: Folder, path: str) -> List[Dict[str, Any]]:
    """The definitions of a file, those within others below them: `DocumentSymbol`s."""
    state = folder.states.get(path)
    definitions = listed(state.definitions if state else ())
    functions = {_dotted(one) for one in definitions if one.kind in ("function", "method")}
    lines = workspace.lines(folder, path)
    extents = _extents("\n".join(lines)) if definitions else {}
    top: List[Dict[str, Any]] = []
    open_ones: Dict[str, Dict[str, Any]] = {}  # by dotted names, the last of each
    for one in definitions:
        symbol: Dict[str, Any] = {
            "name": one.name,
            "kind": KINDS[one.kind],
            "range": _whole_range(lines, one, extents.get((one.span[0], one.name)), workspace.encoding),
            "selectionRange": range_of(lines, one.span, workspace.encoding),
        }
        container = _owner(one.container, functions) if one.kind == "attribute" else one.container
        owner = open_ones.get(container)
        if owner is None or not _within(symbol["range"], owner["range"]):
            top.append(symbol)
        else:
            owner.setdefault("children", []).append(symbol)
        if one.kind in ("class", "function", "method"):
            open_ones[_dotted(one)] = symbol
    return top


def flat_symbols(workspace: Workspace, folder: Folder, path: str) -> List[Dict[str, Any]]:
    """The definitions of a file as `SymbolInformation`s, for editors that know no others."""
    state = folder.states.get(path)
    return [_information(workspace, folder, path, one) for one in listed(state.definitions if state else ())]


def _information(workspace: Workspace, folder: Folder, path: str, definition: Definition) -> Dict[str, Any]:
    container = definition.container or path
    location = workspace.location(folder, path, definition.span)
    return {"name": definition.name, "kind": KINDS[definition.kind], "location": location, "containerName": container}


def _extents(text: str) -> Dict[Tuple[int, str], Extent]:
    """The lines of each class and function of a text, by the line of its name; none where it doesn't parse."""
    try:
        tree = ast.parse(text)
    except (SyntaxError, ValueError, RecursionError, MemoryError):
        return {}
    found: Dict[Tuple[int, str], Extent] = {}
    for node in ast.walk(tree):
        if isinstance(node, (ast.ClassDef, ast.FunctionDef, ast.AsyncFunctionDef)):
            first = min([node.lineno, *(decorator.lineno for decorator in node.decorator_list)])
            found[(node.lineno - 1, node.name)] = (first - 1, (node.end_lineno or node.lineno) - 1)
    return found


def _whole_range(
    lines: Sequence[str], definition: Definition, extent: Optional[Extent], encoding: str
) -> Dict[str, Any]:
    """The range of all lines of a definition, or of its name's where they aren't known."""
    if extent is None:
        return range_of(lines, definition.span, encoding)
    first, last = extent
    end = len(lines[last].encode("utf-8", "surrogatepass")) if last < len(lines) else 0
    return range_of(lines, (first, 0, last, end), encoding)


def _within(inner: Dict[str, Any], outer: Dict[str, Any]) -> bool:
    def key(place: Dict[str, int]) -> Tuple[int, int]:
        return place["line"], place["character"]

    return key(outer["start"]) <= key(inner["start"]) and key(inner["end"]) <= key(outer["end"])


class WorkspaceSymbols:
    """The definitions of all files, to be found by parts of their names."""

    def __init__(self, workspace: Workspace) -> None:
        self.workspace = workspace
        self._listed: Dict[Tuple[str, str], Tuple[object, List[Definition]]] = {}

    def find(self, query: str) -> List[Dict[str, Any]]:
        """The classes, functions, methods and variables of modules whose names have the letters of the query in this
        order, in either case; those that have them together first, the best 500."""
        query = query.lower()
        found: List[Tuple[int, int, str, str, Tuple[int, ...], Folder, Definition]] = []
        for folder, path in self.workspace.files():
            for one in self._of(folder, path):
                rank = _rank(query, one.name.lower())
                if rank is not None:
                    found.append((rank, len(one.name), one.name, path, one.span, folder, one))
        found.sort(key=lambda entry: entry[:5])
        best = found[:MOST_SYMBOLS]
        return [_information(self.workspace, folder, path, one) for _, _, _, path, _, folder, one in best]

    def _of(self, folder: Folder, path: str) -> List[Definition]:
        state = folder.states[path]
        kept = self._listed.get((folder.key, path))
        if kept is None or kept[0] is not state:
            kept = (state, [one for one in listed(state.definitions) if one.kind != "attribute"])
            self._listed[(folder.key, path)] = kept
        return kept[1]


def _rank(query: str, name: str) -> Optional[int]:
    """How well a name answers a query, 0 best; None where it doesn't."""
    if name == query:
        return 0
    place = name.find(query)
    if place >= 0:
        return 1 if place == 0 else 2
    letters = iter(name)
    return 3 if all(letter in letters for letter in query) else None
