"""The values that annotations tell: `x: T` makes x an instance of T."""

from __future__ import annotations

import ast
from typing import Dict, List, Optional, Sequence, Tuple

from .bindings import Bound
from .graph import NOTHING, Values, joined
from .modules import Asking
from .state import CALL, DOT, State

# Forms of `typing` and of the builtins, by what an instance of them is.
ONE_OF = frozenset(
    "Optional Union Final ClassVar Annotated Required NotRequired ReadOnly InitVar Awaitable TypeGuard".split()
)
LAST_OF = frozenset(["Coroutine"])
CLASS_OF = frozenset(["Type", "type"])
LISTS = frozenset(
    "List list Set set FrozenSet frozenset Sequence MutableSequence Iterable Iterator Collection Container Deque"
    " deque Generator AsyncIterator AsyncIterable AsyncGenerator AbstractSet MutableSet KeysView ValuesView"
    " Reversible".split()
)
MAPPINGS = frozenset(
    "Dict dict Mapping MutableMapping DefaultDict defaultdict OrderedDict ChainMap WeakValueDictionary".split()
)
TUPLES = frozenset(["Tuple", "tuple"])
MANAGERS = frozenset("ContextManager AbstractContextManager AsyncContextManager AbstractAsyncContextManager".split())
OTHERS = frozenset(["Callable", "Literal", "Generic", "Protocol", "Concatenate", "Unpack"])
FORMS = ONE_OF | LAST_OF | CLASS_OF | LISTS | MAPPINGS | TUPLES | MANAGERS | OTHERS


class Annotations(State):
    """Going through annotations."""

    def __init__(self, text: str, asking: Asking, places_in_strings: bool) -> None:
        super().__init__(text, asking)
        # Whether the places of expressions within f-strings are those of the file.
        self.places_in_strings = places_in_strings
        self.walruses: Dict[str, Bound] = {}

    # -- with references --------------------------------------------------------------------------

    def instance_of(self, node: ast.expr) -> Values:
        """Goes through an annotation and answers the value of what has it."""
        kind = node.__class__
        if kind is ast.Name or kind is ast.Attribute:
            return self.named_instance(node)
        if isinstance(node, ast.Constant):
            if isinstance(node.value, str):
                quoted = self.quoted(node)
                if quoted is not None:
                    return self.instance_of(quoted)
            return NOTHING
        if isinstance(node, ast.BinOp):
            return joined(self.instance_of(node.left), self.instance_of(node.right))
        if isinstance(node, ast.Subscript):
            return self.form_instance(node)
        if isinstance(node, (ast.List, ast.Tuple)):
            for item in node.elts:
                self.instance_of(item)
            return NOTHING
        if isinstance(node, ast.Starred):
            return self.instance_of(node.value)
        self.value(node)
        return NOTHING

    def named_instance(self, node: ast.expr) -> Values:
        values = self.value(node)
        if values:
            return self.call(values)
        if last_name(node) == "Self":
            return self.own_instance()
        return NOTHING

    def own_instance(self) -> Values:
        frame = self.frame
        while frame is not None:
            if frame.owner is not None:
                return (frame.owner.instance,)
            if frame.parent is None:
                break
            frame = frame.parent
        return NOTHING

    def is_form(self, node: ast.expr) -> bool:
        return last_name(node) in FORMS

    def form_instance(self, node: ast.Subscript) -> Values:
        own = self.value(node.value)
        name = last_name(node.value)
        inner = parts_of(node.slice)
        if name == "Literal":
            return NOTHING
        if own or name not in FORMS:
            for part in inner:
                self.instance_of(part)
            return self.call(own)
        if name == "Annotated":
            values = self.instance_of(inner[0]) if inner else NOTHING
            for part in inner[1:]:
                self.value(part)
            return values
        if name in CLASS_OF:
            return self.class_told(inner)
        if name in TUPLES and not (len(inner) == 2 and is_ellipsis(inner[1])):
            return self.tuple_told([self.instance_of(part) for part in inner])
        return self.form_of(name, [self.instance_of(part) for part in inner])

    def class_told(self, inner: Sequence[ast.expr]) -> Values:
        values: Values = NOTHING
        for part in inner:
            if isinstance(part, ast.Constant) and isinstance(part.value, str):
                quoted = self.quoted(part)
                if quoted is not None:
                    part = quoted
            if isinstance(part, (ast.Name, ast.Attribute)):
                values = joined(values, self.value(part))
            else:
                self.instance_of(part)
        return values

    def form_of(self, name: str, told: Sequence[Values]) -> Values:
        """The value of an instance of a form, by those of its parts."""
        if not told:
            return NOTHING
        if name in ONE_OF:
            values: Values = NOTHING
            for part in told:
                values = joined(values, part)
            return values
        if name in LAST_OF:
            return told[-1]
        if name in LISTS or name in TUPLES:
            return self.container(told[0], told[0])
        if name in MAPPINGS:
            return self.container(told[0], told[1] if len(told) > 1 else NOTHING)
        if name == "Callable" and told[-1]:
            return (self.graph.pop(CALL, told[-1]),)
        if name in MANAGERS and told[0]:
            return self.manager(told[0])
        return NOTHING

    def manager(self, values: Values) -> Values:
        """A context manager that gives these values."""
        graph = self.graph
        made = graph.pop(CALL, values)
        ways = [graph.pop("__enter__", (made,)), graph.pop("__aenter__", (made,))]
        return (graph.pop(DOT, ways),)

    def tuple_told(self, told: Sequence[Values]) -> Values:
        graph = self.graph
        ways = [graph.pop(f"#{place}", values) for place, values in enumerate(told) if values]
        return (graph.scope(ways),) if ways else NOTHING

    def form_value(self, node: ast.Subscript) -> Values:
        """The value of a form that stands where an expression may: what is asked as a class."""
        values = self.form_instance(node)
        return (self.graph.pop(CALL, values),) if values else NOTHING

    def quoted(self, node: ast.Constant) -> Optional[ast.expr]:
        """The expression that a string is, with its places in the file, or None where it is none."""
        text = node.value
        if not isinstance(text, str) or node.lineno != node.end_lineno or len(text) > 1_000:
            return None
        raw = self.lines.slice(node.lineno - 1, node.col_offset, node.end_col_offset or 0)
        begin = raw.find(text.encode("utf-8", "replace"))
        if begin < 1 or len(raw) - len(text.encode("utf-8", "replace")) - begin not in (1, 3):
            return None
        blanks = len(text) - len(text.lstrip())
        try:
            tree = ast.parse(text.strip(), mode="eval")
        except (SyntaxError, ValueError, RecursionError, MemoryError):
            return None
        offset = node.col_offset + begin + blanks
        for inner in ast.walk(tree):
            if isinstance(inner, (ast.expr, ast.keyword)) and hasattr(inner, "lineno"):
                if inner.lineno != 1 or inner.end_lineno != 1:
                    return None
                inner.lineno = inner.end_lineno = node.lineno
                inner.col_offset += offset
                inner.end_col_offset = (inner.end_col_offset or 0) + offset
        return tree.body

    # -- without references -----------------------------------------------------------------------

    def quiet(self, node: ast.expr) -> Values:
        """The value of a name or member whose references were made where it was gone through."""
        if isinstance(node, ast.Name):
            bound = self.looked_up(node.id)
            return bound.values if bound is not None else NOTHING
        if isinstance(node, ast.Attribute):
            return self.member_value(self.quiet(node.value), node.attr)
        return NOTHING

    def quietly_instance(self, node: ast.expr) -> Values:
        """An instance of a class, or of one of those in a tuple, as `isinstance` takes them."""
        if isinstance(node, ast.Tuple):
            values: Values = NOTHING
            for part in node.elts:
                values = joined(values, self.quietly_instance(part))
            return values
        if isinstance(node, ast.BinOp):
            return joined(self.quietly_instance(node.left), self.quietly_instance(node.right))
        values = self.quiet(node)
        return self.call(values) if values else NOTHING


def last_name(node: ast.expr) -> str:
    """The name itself, or the last one of a member."""
    if isinstance(node, ast.Name):
        return node.id
    return node.attr if isinstance(node, ast.Attribute) else ""


def parts_of(index: ast.AST) -> List[ast.expr]:
    """The expressions between the brackets of a subscript."""
    if isinstance(index, ast.Tuple):
        return list(index.elts)
    return [index] if isinstance(index, ast.expr) else []


def is_ellipsis(node: ast.expr) -> bool:
    return isinstance(node, ast.Constant) and node.value is Ellipsis
