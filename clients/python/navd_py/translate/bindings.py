"""What names are bound to, as a text is gone through in its order, and the frames in which names stand."""

from __future__ import annotations

from typing import Callable, Dict, List, Optional, Sequence, Set, Tuple

from .graph import NOTHING, Values, joined


# How a binding stands among the members of a module or a class.
VARIABLE = 0  # its definition ends paths, and its value has a way of its own
DEFINED = 1  # a class or a function: its definition leads on to its value
IMPORTED = 2  # no definition: the name is looked up elsewhere


class Bound:
    """What a name is bound to at some place: the nodes to which a reference of that name leads, and its value.

    `parts` are the single bindings of which branches made one, in the order of the text."""

    __slots__ = ("order", "kind", "targets", "values", "parts")

    def __init__(self, order: int, kind: int, targets: Sequence[int], values: Values = NOTHING) -> None:
        self.order = order
        self.kind = kind
        self.targets = targets
        self.values = values
        self.parts: Tuple[Bound, ...] = (self,)

    def with_values(self, values: Values) -> Bound:
        """The same binding where its value is known to be another one."""
        other = Bound(self.order, self.kind, self.targets, values)
        if len(self.parts) > 1:
            other.parts = self.parts
        return other


def merged(first: Bound, second: Bound) -> Bound:
    """What a name is bound to where two ways of a text meet."""
    return first if first is second else merged_all((first, second))


def merged_all(bounds: Sequence[Bound]) -> Bound:
    """What a name is bound to where several ways of a text meet, at least one; costs by their parts and targets."""
    parts: Dict[Bound, None] = {}
    values: Values = NOTHING
    for bound in bounds:
        parts.update(dict.fromkeys(bound.parts))
        values = joined(values, bound.values)
    ordered = sorted(parts, key=lambda part: part.order)
    targets: Dict[int, None] = {}
    for part in ordered:
        targets.update(dict.fromkeys(part.targets))
    together = Bound(ordered[0].order, ordered[0].kind, list(targets), values)
    together.parts = tuple(ordered)
    return together


Names = Dict[str, Bound]


def meeting(first: Names, second: Names) -> Names:
    """The bindings where two ways of a text meet."""
    if first is second:
        return first
    if len(first) < len(second):
        first, second = second, first
    both = dict(first)
    for name, bound in second.items():
        other = both.get(name)
        if other is None:
            both[name] = bound
        elif other is not bound:
            both[name] = merged(other, bound)
    return both


class ClassParts:
    """The nodes of a class: `value` is asked as a class, `instance` as one of its instances, `scope` has its members,
    and `bases` what it inherits."""

    __slots__ = ("name", "value", "instance", "scope", "bases", "attributes")

    def __init__(self, name: str, value: int, instance: int, scope: int, bases: int) -> None:
        self.name = name
        self.value = value
        self.instance = instance
        self.scope = scope
        self.bases = bases
        self.attributes: Dict[str, Attribute] = {}


class Attribute:
    """An attribute that methods assign: the node whose edges are its values, and whether an annotation tells them."""

    __slots__ = ("slot", "declared")

    def __init__(self, slot: int) -> None:
        self.slot = slot
        self.declared = False


class Frame:
    """A module, a class or a function while it is gone through."""

    __slots__ = (
        "kind",
        "container",
        "parent",
        "names",
        "every",
        "pending",
        "later",
        "exits",
        "owner",
        "self_name",
        "declared_global",
        "declared_outer",
        "result",
        "yields",
        "annotated",
        "declared",
        "loops",
    )

    def __init__(self, kind: str, container: str, parent: Optional[Frame]) -> None:
        self.kind = kind
        self.container = container
        # The frame in which names that aren't bound here are looked up.
        self.parent = parent
        self.names: Names = {}
        # The bindings of each name, in the order of the text; those before a look at all of them are one.
        self.every: Dict[str, List[Bound]] = {}
        # Names that nothing had bound where they stand: the name, its line, start and end.
        self.pending: List[Tuple[str, int, int, int]] = []
        # What is gone through when the frame's own text is: bodies of functions.
        self.later: List[Callable[[], None]] = []
        self.exits: List[Names] = []
        self.owner: Optional[ClassParts] = None
        self.self_name: Optional[str] = None
        self.declared_global: Set[str] = set()
        self.declared_outer: Set[str] = set()
        # The node whose edges are what a call gives, and the one whose edges are what iterating over that gives.
        self.result: Optional[int] = None
        self.yields: Optional[int] = None
        self.annotated = False
        # The values of names that an annotation tells.
        self.declared: Dict[str, Values] = {}
        self.loops: List[Loop] = []

    def bound_anywhere(self, name: str) -> Optional[Bound]:
        """All bindings of a name together, or None where there is none."""
        found = self.every.get(name)
        if found is None:
            return None
        if len(found) > 1:
            found[:] = [merged_all(found)]
        return found[0]


class Loop:
    """The bindings with which a loop is left or begun anew."""

    __slots__ = ("breaks", "continues")

    def __init__(self) -> None:
        self.breaks: List[Names] = []
        self.continues: List[Names] = []
