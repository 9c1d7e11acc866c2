"""The last graph of a file whose text doesn't parse, moved to where its lines stand now.

While somebody types, a text is often broken for a moment. Its last graph then goes on: what stands in lines that are
still there is moved with them, and what stood in lines that were changed has no answer rather than a wrong one.
"""

from __future__ import annotations

import json
import re
from bisect import bisect_left
from collections import Counter
from dataclasses import dataclass, replace
from difflib import SequenceMatcher
from typing import Any, Dict, Iterable, Iterator, List, Optional, Sequence, Tuple

from .packed import PackedTexts
from .project import Definition, Fault, Span, Translated

# So many lines, from this line of the old text and from this one of the new, are the same.
Block = Tuple[int, int, int]
# Lines of the old text, from and up to, and of the new one.
_Region = Tuple[int, int, int, int]

# So many pairs of equal lines are looked at where no line occurs once.
MOST_PAIRS = 4_000

_LINE_ENDS = re.compile(r"\r\n|\r|\n")


def lines_of(text: str) -> List[str]:
    """The lines of a text without their ends: at least one, and one more than there are ends.

    A line ends as Python and editors have it, with a newline, a carriage return or both.
    """
    return _LINE_ENDS.split(text) if "\r" in text else text.split("\n")


def same_lines(old: Sequence[str], new: Sequence[str]) -> List[Block]:
    """Blocks of lines that both texts have in the same order, rising, none of them empty.

    The equal lines at both ends of a region belong together; between them, so do the lines that occur once in each,
    in the longest row of them that rises in both; and so on between these. Where no line occurs once the longest
    blocks are looked for, unless too many lines are alike: then none is found. So it costs little more than the lines
    there are.
    """
    blocks: List[Block] = []
    regions: List[_Region] = [(0, len(old), 0, len(new))]
    while regions:
        first, last, into, until = regions.pop()
        size = _equal_at_start(old, new, (first, last, into, until))
        blocks.append((first, into, size))
        first, into = first + size, into + size
        size = _equal_at_end(old, new, (first, last, into, until))
        blocks.append((last - size, until - size, size))
        last, until = last - size, until - size
        if first < last and into < until:
            region = (first, last, into, until)
            anchors = _anchors(old, new, region)
            regions.extend(_between(anchors, region))
            if not anchors:
                blocks.extend(_longest(old, new, region))
    return _joined(sorted(block for block in blocks if block[2] > 0))


def _joined(blocks: Iterable[Block]) -> List[Block]:
    """The same lines in fewer blocks: those that go on with the one before are one with it."""
    joined: List[Block] = []
    for place, new_place, size in blocks:
        if joined and (joined[-1][0] + joined[-1][2], joined[-1][1] + joined[-1][2]) == (place, new_place):
            place, new_place, size = joined[-1][0], joined[-1][1], joined[-1][2] + size
            joined.pop()
        joined.append((place, new_place, size))
    return joined


def _longest(old: Sequence[str], new: Sequence[str], region: _Region) -> Iterator[Block]:
    """The longest blocks of a region, or none where it has more than MOST_PAIRS pairs of equal lines."""
    first, last, into, until = region
    before, after = Counter(old[first:last]), Counter(new[into:until])
    if sum(number * after[line] for line, number in before.items()) > MOST_PAIRS:
        return
    for place, new_place, size in SequenceMatcher(None, old[first:last], new[into:until], False).get_matching_blocks():
        yield first + place, into + new_place, size


def _equal_at_start(old: Sequence[str], new: Sequence[str], region: _Region) -> int:
    first, last, into, until = region
    most = min(last - first, until - into)
    size = 0
    while size < most and old[first + size] == new[into + size]:
        size += 1
    return size


def _equal_at_end(old: Sequence[str], new: Sequence[str], region: _Region) -> int:
    first, last, into, until = region
    most = min(last - first, until - into)
    size = 0
    while size < most and old[last - 1 - size] == new[until - 1 - size]:
        size += 1
    return size


def _once(lines: Sequence[str], first: int, last: int) -> Dict[str, int]:
    """The lines of a region that occur once in it, with their places."""
    places: Dict[str, int] = {}
    for place in range(first, last):
        places[lines[place]] = place if lines[place] not in places else -1
    return {line: place for line, place in places.items() if place >= 0}


def _anchors(old: Sequence[str], new: Sequence[str], region: _Region) -> List[Tuple[int, int]]:
    """The longest row of lines that occur once on each side and rise on both, as pairs of places."""
    first, last, into, until = region
    after = _once(new, into, until)
    pairs = [(place, after[line]) for line, place in _once(old, first, last).items() if line in after]
    ends: List[int] = []  # of the rows of each length the least end, in the new text
    best: List[int] = []  # and the pair with which it ends
    before: List[int] = []  # of each pair the one before it in its row, or -1
    for number, (_, place) in enumerate(pairs):
        length = bisect_left(ends, place)
        before.append(best[length - 1] if length else -1)
        ends[length : length + 1] = [place]
        best[length : length + 1] = [number]
    row: List[Tuple[int, int]] = []
    number = best[-1] if best else -1
    while number >= 0:
        row.append(pairs[number])
        number = before[number]
    return row[::-1]


def _between(anchors: List[Tuple[int, int]], region: _Region) -> Iterator[_Region]:
    """The regions into which a region falls, each but the first beginning at an anchor; none where there is none."""
    first, last, into, until = region
    if not anchors:
        return
    starts = [(first, into)] + anchors
    for (here, there), (here_end, there_end) in zip(starts, anchors + [(last, until)]):
        yield here, here_end, there, there_end


class LineMap:
    """Where the lines of an old text stand in a new one."""

    def __init__(self, blocks: Iterable[Block]) -> None:
        self.blocks = list(blocks)
        self._places: List[Optional[int]] = []  # of each old line the new one
        for start, new_start, size in self.blocks:
            self._places.extend([None] * (start - len(self._places)))
            self._places.extend(range(new_start, new_start + size))

    @classmethod
    def between(cls, old: str, new: str) -> "LineMap":
        """The map from one text to another."""
        return cls(same_lines(lines_of(old), lines_of(new)))

    def line(self, line: int) -> Optional[int]:
        """The line of the new text that was this one of the old, or None where it was changed or taken out."""
        return self._places[line] if line < len(self._places) else None

    def span(self, span: Sequence[int]) -> Optional[Span]:
        """The span in the new text, or None where one of its lines is no longer there as it was."""
        first, column, last, end = span
        start = self.line(first)
        if start is None:
            return None
        if first != last and any(self.line(line) != start + line - first for line in range(first, last + 1)):
            return None
        return start, column, start + last - first, end


def moved_graph(source: bytes, lines: LineMap) -> bytes:
    """The graph file with its spans moved. A node whose place is gone has no span, and neither asks nor answers."""
    return _moved(json.loads(source), lines)


def _moved(graph: Dict[str, Any], lines: LineMap) -> bytes:
    """The bytes of a graph with its spans moved; the graph itself stays as it is."""
    nodes = [_moved_node(node, lines) if "span" in node else node for node in graph["nodes"]]
    return json.dumps({**graph, "nodes": nodes}, ensure_ascii=False, separators=(",", ":")).encode("utf-8")


def _moved_node(node: Dict[str, Any], lines: LineMap) -> Dict[str, Any]:
    span = lines.span(node["span"])
    if span is not None:
        return {**node, "span": span}
    return {member: value for member, value in node.items() if member not in ("span", "reference", "definition")}


def moved_definitions(definitions: Iterable[Definition], lines: LineMap) -> Tuple[Definition, ...]:
    """The definitions whose places are still there, moved."""
    moved = ((one, lines.span(one.span)) for one in definitions)
    return tuple(Definition(one.name, one.kind, span, one.container) for one, span in moved if span is not None)


@dataclass(frozen=True)
class Current:
    """What a file answers with: a graph file or none, and why the text as it stands has none of its own.

    With both a graph and a fault the graph is the one of an earlier text, moved.
    """

    path: str
    source: Optional[bytes]
    fault: Optional[Fault]
    definitions: Tuple[Definition, ...]

    @property
    def is_stale(self) -> bool:
        """Whether the graph is that of an earlier text."""
        return self.source is not None and self.fault is not None


class LastGraphs:
    """The last graph of each file, for texts that have none."""

    def __init__(self) -> None:
        self._texts = PackedTexts()
        self._sources = PackedTexts()
        self._definitions: Dict[str, Tuple[Definition, ...]] = {}
        self._moved: Dict[str, _Moved] = {}

    def current(self, translated: Translated, text: Optional[str]) -> Current:
        """What the file answers with, now that its text is this one and was translated so; None: there is no text."""
        path = translated.path
        if translated.source is not None:
            self._keep(translated, text)
            return Current(path, translated.source, None, translated.definitions)
        old, source = self._texts.get(path), self._sources.get(path)
        if old is None or source is None or text is None:
            self.forget(path)
            return Current(path, None, translated.fault, translated.definitions)
        if path not in self._moved:
            self._moved[path] = _Moved(path, _text_of(old), json.loads(source), self._definitions[path])
        return self._moved[path].to(text, translated.fault)

    def forget(self, path: str) -> None:
        """Forgets the last graph of the file."""
        self._texts.discard(path)
        self._sources.discard(path)
        self._definitions.pop(path, None)
        self._moved.pop(path, None)

    def _keep(self, translated: Translated, text: Optional[str]) -> None:
        path = translated.path
        if text is None or translated.source is None:
            self.forget(path)
            return
        self._moved.pop(path, None)
        self._texts.set(path, text.encode("utf-8", "surrogatepass"))
        self._sources.set(path, translated.source)
        self._definitions[path] = translated.definitions


def _text_of(data: bytes) -> str:
    return data.decode("utf-8", "surrogatepass")


class _Moved:
    """The last graph of a file whose text doesn't parse, read, and where it was moved last."""

    def __init__(self, path: str, text: str, graph: Dict[str, Any], definitions: Tuple[Definition, ...]) -> None:
        self._path = path
        self._lines = lines_of(text)
        self._graph = graph
        self._definitions = definitions
        self._last: Optional[Tuple[List[Block], Current]] = None

    def to(self, text: str, fault: Optional[Fault]) -> Current:
        """What the file answers with now that its text is this one."""
        lines = LineMap(same_lines(self._lines, lines_of(text)))
        if self._last is not None and self._last[0] == lines.blocks:
            moved = replace(self._last[1], fault=fault)
        else:
            moved = Current(self._path, _moved(self._graph, lines), fault, moved_definitions(self._definitions, lines))
        self._last = (lines.blocks, moved)
        return moved
