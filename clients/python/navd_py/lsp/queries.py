"""The questions of an editor: where a name is defined, who refers to it, and which names there are."""

from __future__ import annotations

import re
import unicodedata
from typing import Any, Callable, Dict, List, Optional, Sequence, Set, Tuple

from .. import by_name
from ..keeper import Refused
from ..project import Definition
from ..session import NoConnection, NoProgram, Reply
from .folder import Folder
from .places import UTF8, units
from .protocol import REQUEST_FAILED, ResponseError
from .workspace import Name, Workspace

# A place: the file, and the span in bytes.
Place = Tuple[str, Tuple[int, int, int, int]]
# So many places with the same name are looked at in a document to highlight them.
MOST_HIGHLIGHTS = 2_000

CROWDED_DEFINITION = "too many paths lead from this name to definitions (more than 8,192), so navd lists none of them"

# The kinds of `DocumentHighlight`.
READ, WRITE = 2, 3


class Queries:
    """Answers questions over a workspace. `check` is called between steps, and raises where no answer is wanted."""

    def __init__(self, workspace: Workspace, warn: Callable[[str], None], log: Callable[[str], None]) -> None:
        self.workspace = workspace
        self.warn = warn
        self.log = log
        self._has_callers: Optional[bool] = None

    def definition(self, name: Name, is_read: bool = True) -> List[Dict[str, Any]]:
        """The locations at which a name is defined; of a name that is a definition alone, its own. Where not all files
        are read yet an import isn't its own definition: what it means may still come. Raises ResponseError."""
        reply = self._ask(name.folder, [_at("define", name)])[0]
        places = _places(name.folder, reply)
        if reply.get("error") == "crowded":
            raise ResponseError(REQUEST_FAILED, CROWDED_DEFINITION)
        own = [place for place, one in self._own(name) if is_read or one.kind != "import"]
        places = places or own
        return [self.workspace.location(name.folder, *place) for place in places]

    def references(self, name: Name, with_declarations: bool, check: Callable[[], None]) -> List[Dict[str, Any]]:
        """The locations of the names that refer to what a name means, or to the definition that it is; each once, in
        the order of files. Raises ResponseError."""
        folder = name.folder
        asked = "callers" if self.has_callers() else "references"
        meant = self._ask(folder, [_at("define", name)])[0]
        nodes = [(row["path"], row["node"]) for row in meant.get("rows", ())]
        questions = [{"do": asked, "path": path, "node": node} for path, node in nodes]
        questions.append({**_at(asked, name), "column": name.end})  # at the start of a file stands its module, too
        found: Set[Place] = set()
        crowded: Set[by_name.Node] = set()
        for number, question in enumerate(questions):
            check()
            reply = self._ask(folder, [question])[0]
            found.update(_places(folder, reply))
            if reply.get("error") == "crowded":
                crowded.add(nodes[number] if number < len(nodes) else self._node_at(name, check))
        if crowded:
            found.update(self._by_name(folder, crowded, check))
        if with_declarations:
            found.update(_places(folder, meant))
            found.update(place for place, _ in self._own(name))
        check()
        return [self.workspace.location(folder, *place) for place in sorted(found)]

    def _node_at(self, name: Name, check: Callable[[], None]) -> by_name.Node:
        """The definition that navd means at a name."""
        place = name.folder.place_in_navd(name.path)
        found = self._files(name.folder, check).definition_at(place, name.line, name.end)
        if found is None:
            raise ResponseError(REQUEST_FAILED, CROWDED_DEFINITION)
        return found

    def _by_name(self, folder: Folder, wanted: Set[by_name.Node], check: Callable[[], None]) -> List[Place]:
        """Who refers to these definitions, of which navd doesn't tell it by itself. How it is found is logged, and
        where some may be missing it is shown."""
        found = by_name.references(self._files(folder, check), wanted)
        self.log(found.told())
        if not found.is_whole:
            self.warn(f"some references may be missing: {found.told()}")
        return _places(folder, {"rows": found.rows})

    def _files(self, folder: Folder, check: Callable[[], None]) -> by_name.Files:
        paths = [folder.place_in_navd(path) for path in sorted(folder.states)]
        return by_name.Files(paths, folder.keeper.source, lambda questions: self._ask(folder, questions), check)

    def highlights(self, name: Name, check: Callable[[], None]) -> List[Dict[str, Any]]:
        """The places of a document at which its name means what it means at one place: `DocumentHighlight`s."""
        candidates = self._same_names(name)
        replies = self._ask(name.folder, [_at("define", candidate) for candidate in candidates])
        check()
        meanings = [set(_places(name.folder, reply)) for reply in replies]
        own = {candidate: {place for place, _ in self._own(candidate)} for candidate in candidates}
        wanted: Set[Place] = set(own.get(name, ()))
        for candidate, meaning in zip(candidates, meanings):
            if candidate == name:
                wanted |= meaning
        found: Dict[Tuple[int, ...], Dict[str, Any]] = {}
        for candidate, meaning in zip(candidates, meanings):
            if (meaning | own[candidate]) & wanted:
                span = (candidate.line, candidate.start, candidate.line, candidate.end)
                location = self.workspace.location(name.folder, name.path, span)
                kind = WRITE if own[candidate] & wanted else READ
                found[span] = {"range": location["range"], "kind": kind}
        return [found[span] for span in sorted(found)]

    def has_callers(self) -> bool:
        """Whether navd answers `callers`."""
        if self._has_callers is None and self.workspace.folders:
            probe = {"do": "callers", "path": "none", "node": 0}
            self._has_callers = self._ask(self.workspace.folders[0], [probe])[0].get("error") != "bad_request"
        return bool(self._has_callers)

    def _ask(self, folder: Folder, questions: Sequence[Dict[str, Any]]) -> List[Reply]:
        try:
            return folder.ask(questions)
        except (Refused, NoProgram, NoConnection) as failure:
            raise ResponseError(REQUEST_FAILED, str(failure)) from None

    @staticmethod
    def _own(name: Name) -> List[Tuple[Place, Definition]]:
        """The definitions that a name is."""
        definitions = name.folder.definitions_at(name.path, name.line, name.start)
        text = unicodedata.normalize("NFKC", name.text)  # as Python reads names
        return [((name.path, one.span), one) for one in definitions if one.name in (name.text, text)]

    def _same_names(self, name: Name) -> List[Name]:
        """The places in the document at which the same name stands; the place itself is among them."""
        pattern = re.compile(rf"(?<!\w){re.escape(name.text)}(?!\w)")
        names: List[Name] = []
        for number, line in enumerate(self.workspace.lines(name.folder, name.path)):
            for found in pattern.finditer(line):
                start, end = units(line[: found.start()], UTF8), units(line[: found.end()], UTF8)
                names.append(Name(name.folder, name.path, number, start, end, name.text))
        names.sort(key=lambda one: abs(one.line - name.line))
        return sorted(names[:MOST_HIGHLIGHTS], key=lambda one: (one.line, one.start))


def _at(what: str, name: Name) -> Dict[str, Any]:
    place = name.folder.place_in_navd(name.path)
    return {"do": what, "path": place, "line": name.line, "column": name.start}


def _places(folder: Folder, reply: Reply) -> List[Place]:
    """The places of the rows of a reply; a row whose place is gone has none."""
    places: List[Place] = []
    for row in reply.get("rows", ()):
        if row["span"] is not None:
            line, start, last, end = row["span"]
            places.append((folder.path_of_row(row["path"]), (line, start, last, end)))
    return places
