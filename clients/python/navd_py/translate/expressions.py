"""The values of expressions, and the references within them."""

from __future__ import annotations

import ast
from typing import Callable, Dict, List, Optional, Sequence

from .annotations import last_name
from .bindings import Frame
from .graph import NOTHING, Values, joined
from .inner import Inner, Narrowed
from .state import EACH, PARAMETER

# Calls of builtins that pass on what they are given, of which the items are the same.
PASSING = frozenset(["list", "sorted", "set", "frozenset", "tuple", "iter", "reversed", "deque", "copy", "deepcopy"])
# Methods of mappings that give one of their values, and methods that give the whole again.
GIVING = frozenset(["get", "pop", "setdefault", "popleft"])
SAME = frozenset(["copy"])


class Expressions(Inner):
    """Going through expressions. A method for each kind of node answers the node's value."""

    def add_evaluators(self) -> None:
        table: Dict[type, Callable[..., Values]] = {
            ast.Name: self.name,
            ast.Attribute: self.attribute,
            ast.Call: self.called,
            ast.Constant: self.constant,
            ast.Subscript: self.subscript,
            ast.BinOp: self.operation,
            ast.BoolOp: self.either,
            ast.IfExp: self.choice,
            ast.Lambda: self.lambda_function,
            ast.ListComp: self.list_made,
            ast.SetComp: self.list_made,
            ast.GeneratorExp: self.list_made,
            ast.DictComp: self.dict_made,
            ast.NamedExpr: self.walrus,
            ast.Await: self.awaited,
            ast.Yield: self.yielded,
            ast.YieldFrom: self.yielded_from,
            ast.Starred: self.starred,
            ast.Tuple: self.tuple_display,
            ast.List: self.list_display,
            ast.Set: self.list_display,
            ast.Dict: self.dict_display,
            ast.Compare: self.compared,
            ast.UnaryOp: self.one_operand,
            ast.JoinedStr: self.formatted,
            ast.FormattedValue: self.formatted_value,
            ast.Slice: self.parts,
        }
        for kind in ast.expr.__subclasses__():
            self.evaluators[kind] = table.get(kind, self.parts)
        self.evaluators.update(table)

    # -- names and members ------------------------------------------------------------------------

    def constant(self, node: ast.Constant) -> Values:
        return NOTHING

    def name(self, node: ast.Name) -> Values:
        name = node.id
        bound = self.names.get(name)
        if bound is None:
            line, start, end = self.place_of(node)
            return self.use(name, line, start, end)
        if bound.targets:
            start = node.col_offset
            self.graph.reference(name, node.lineno - 1, start, node.end_col_offset or start, bound.targets)
        return bound.values

    def attribute(self, node: ast.Attribute) -> Values:
        values = self.value(node.value)
        if not values:
            return NOTHING
        place = self.attribute_place(node)
        if place is None:
            return NOTHING
        return self.member(values, node.attr, place)

    # -- calls ------------------------------------------------------------------------------------

    def called(self, node: ast.Call) -> Values:
        function = node.func
        if isinstance(function, ast.Name):
            special = self.called_name(function.id, node)
            if special is not None:
                return special
        elif isinstance(function, ast.Attribute):
            return self.called_method(function, node)
        values = self.value(function)
        self.arguments(node, values)
        return self.call(values)

    def arguments(self, node: ast.Call, function: Values = NOTHING) -> List[Values]:
        """Goes through the arguments of a call of these values, and answers those without a name."""
        given = [self.value(argument) for argument in node.args]
        for keyword in node.keywords:
            if function and keyword.arg is not None:
                self.named_argument(keyword, keyword.arg, function)
            self.value(keyword.value)
        return given

    def named_argument(self, keyword: ast.keyword, name: str, function: Values) -> None:
        """The name of an argument is a reference of the parameter."""
        line, start = keyword.lineno - 1, keyword.col_offset
        end = start + len(name.encode("utf-8", "replace"))
        if self.lines.slice(line, start, end) == name.encode("utf-8", "replace"):
            sources = tuple(self.by_name.get(value, value) for value in function)
            self.graph.reference(name, line, start, end, (self.graph.pushed(PARAMETER, sources),))

    def called_name(self, name: str, node: ast.Call) -> Optional[Values]:
        """What a call of a builtin gives, or of a name that tells what it does; None where the name says nothing."""
        if name == "super" and self.looked_up(name) is None:
            self.arguments(node)
            return self.super_value()
        if name == "cast" and len(node.args) == 2:
            self.value(node.func)
            result = self.instance_of(node.args[0])
            self.value(node.args[1])
            return result
        if name in PASSING or name == "next":
            if self.looked_up(name) is None:
                given = self.arguments(node)
                if not given:
                    return NOTHING
                return self.each(given[0]) if name == "next" else given[0]
        return None

    def called_method(self, function: ast.Attribute, node: ast.Call) -> Values:
        owner = self.value(function.value)
        if function.attr == "cast" and len(node.args) == 2:
            result = self.instance_of(node.args[0])
            self.value(node.args[1])
            return result
        place = self.attribute_place(function) if owner else None
        values = self.member(owner, function.attr, place) if place is not None else NOTHING
        self.arguments(node, values)
        result = self.call(values)
        if owner:
            if function.attr in GIVING:
                result = joined(result, self.item(owner))
            elif function.attr == "values" and not node.args:
                result = joined(result, self.container(self.item(owner), NOTHING))
            elif function.attr in SAME and not node.args:
                result = joined(result, owner)
        return result

    def super_value(self) -> Values:
        frame: Optional[Frame] = self.frame
        while frame is not None:
            if frame.owner is not None:
                return (frame.owner.bases,)
            frame = frame.parent
        return NOTHING

    # -- operators and displays -------------------------------------------------------------------

    def parts(self, node: ast.AST) -> Values:
        for child in ast.iter_child_nodes(node):
            if isinstance(child, ast.expr):
                self.value(child)
        return NOTHING

    def operation(self, node: ast.BinOp) -> Values:
        # Long sums are deep on the left.
        rights: List[ast.expr] = []
        left: ast.expr = node
        while isinstance(left, ast.BinOp):
            rights.append(left.right)
            left = left.left
        values = self.value(left)
        for right in reversed(rights):
            other = self.value(right)
            values = values or other
        return values

    def either(self, node: ast.BoolOp) -> Values:
        if isinstance(node.op, ast.Or):
            values = NOTHING
            for operand in node.values:
                values = joined(values, self.value(operand))
            return values
        values = NOTHING
        told: List[Narrowed] = []
        for operand in node.values:
            values = self.value(operand)
            if operand.__class__ is ast.Call:
                told.append(self.narrowing(operand))
        for narrowed in reversed(told):
            self.widen(narrowed)
        return values

    def choice(self, node: ast.IfExp) -> Values:
        self.value(node.test)
        narrowed = self.narrowing(node.test)
        first = self.value(node.body)
        self.widen(narrowed)
        return joined(first, self.value(node.orelse))

    def compared(self, node: ast.Compare) -> Values:
        self.value(node.left)
        for operand in node.comparators:
            self.value(operand)
        return NOTHING

    def one_operand(self, node: ast.UnaryOp) -> Values:
        self.value(node.operand)
        return NOTHING

    def formatted(self, node: ast.JoinedStr) -> Values:
        for part in node.values:
            if part.__class__ is ast.FormattedValue:
                self.formatted_value(part)  # type: ignore[arg-type]
        return NOTHING

    def formatted_value(self, node: ast.FormattedValue) -> Values:
        if self.places_in_strings or self.is_written(node.value):
            self.value(node.value)
        if node.format_spec is not None:
            self.value(node.format_spec)
        return NOTHING

    def is_written(self, node: ast.expr) -> bool:
        """Whether the names of an expression stand where it says. Before Python 3.12 `ast` gives expressions within
        f-strings wrong places where the string goes over several lines."""
        for inner in ast.walk(node):
            if isinstance(inner, ast.Name):
                line, start, end = self.place_of(inner)
                if self.lines.slice(line, start, end) != inner.id.encode("utf-8", "replace"):
                    return False
            elif isinstance(inner, ast.Attribute) and inner.end_lineno is not None:
                if self.lines.ending(inner.end_lineno - 1, inner.end_col_offset or 0, inner.attr) is None:
                    return False
        return True

    def starred(self, node: ast.Starred) -> Values:
        return self.value(node.value)

    def awaited(self, node: ast.Await) -> Values:
        return self.value(node.value)

    def tuple_display(self, node: ast.Tuple) -> Values:
        return self.tuple_of([self.value(item) for item in node.elts])

    def tuple_of(self, items: Sequence[Values]) -> Values:
        """A tuple of these values."""
        graph = self.graph
        ways = [graph.pop(f"#{place}", values) for place, values in enumerate(items) if values]
        if not ways:
            return NOTHING
        every: Values = NOTHING
        for values in items:
            every = joined(every, values)
        ways.append(graph.pop(EACH, every))
        return (graph.scope(ways),)

    def list_display(self, node: ast.expr) -> Values:
        every: Values = NOTHING
        for item in getattr(node, "elts"):
            value = self.value(item)
            every = joined(every, self.each(value) if item.__class__ is ast.Starred else value)
        return self.container(every, every)

    def dict_display(self, node: ast.Dict) -> Values:
        keys: Values = NOTHING
        every: Values = NOTHING
        for key, item in zip(node.keys, node.values):
            if key is not None:
                keys = joined(keys, self.value(key))
                every = joined(every, self.value(item))
            else:
                every = joined(every, self.item(self.value(item)))
        return self.container(keys, every)

    def subscript(self, node: ast.Subscript) -> Values:
        if self.is_form(node.value):
            return self.form_value(node)
        values = self.value(node.value)
        index = node.slice
        if index.__class__ is ast.Constant:
            number = getattr(index, "value")
            if isinstance(number, int) and 0 <= number < 16 and values:
                return joined(self.item(values), self.item(values, f"#{int(number)}"))
            return self.item(values)
        self.value(index)
        if index.__class__ is ast.Slice:
            return values
        if self.class_of_values(values) is not None:
            return values
        # A capital letter is all that tells a generic class of another module from a container.
        name = last_name(node.value)
        if name[:1].isupper() and not name.isupper():
            return joined(values, self.item(values))
        return self.item(values)
