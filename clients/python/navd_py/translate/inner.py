"""What has names of its own, and what tells values: comprehensions, lambdas, generators, iterating, `isinstance`."""

from __future__ import annotations

import ast
from typing import Dict, List, Optional, Sequence, Tuple

from .annotations import Annotations
from .bindings import Bound, Names
from .graph import MOST_VALUES, NOTHING, Values, joined
from .places import Place
from .state import CALL, EACH

Comprehension = Sequence[ast.comprehension]
# What a test told of a name: the name, what it was bound to in this frame before, and what it is bound to now.
Narrowed = List[Tuple[str, Optional[Bound], Bound]]


class Inner(Annotations):
    """Going through expressions that bind names, and binding what is iterated over."""

    # -- names of their own -----------------------------------------------------------------------

    def lambda_function(self, node: ast.Lambda) -> Values:
        for default in node.args.defaults + [given for given in node.args.kw_defaults if given is not None]:
            self.value(default)
        before = self.names
        self.names = dict(before)
        self.inner += 1
        for argument in all_arguments(node.args):
            self.bind(argument.arg, self.argument_place(argument), NOTHING, "parameter")
        values = self.value(node.body)
        self.inner -= 1
        self.names = before
        return (self.graph.pop(CALL, values),) if values else NOTHING

    def argument_place(self, argument: ast.arg) -> Optional[Place]:
        line, start = argument.lineno - 1, argument.col_offset
        return self.word_at(line, start, argument.arg)

    def word_at(self, line: int, start: int, name: str) -> Optional[Place]:
        """The place of a name that begins there, also where it is written in another normal form."""
        if name.isascii():
            return line, start, start + len(name)
        data = name.encode("utf-8", "replace")
        if self.lines.slice(line, start, start + len(data)) == data:
            return line, start, start + len(data)
        return None

    def generators(self, generators: Comprehension) -> None:
        for generator in generators:
            self.iterate(generator.target, generator.iter)
            for condition in generator.ifs:
                self.value(condition)
                self.narrow(condition)

    def list_made(self, node: ast.expr) -> Values:
        before, walruses = self.enter_inner()
        self.generators(getattr(node, "generators"))
        values = self.value(getattr(node, "elt"))
        self.leave_inner(before, walruses)
        return self.container(values, values)

    def dict_made(self, node: ast.DictComp) -> Values:
        before, walruses = self.enter_inner()
        self.generators(node.generators)
        key = self.value(node.key)
        values = self.value(node.value)
        self.leave_inner(before, walruses)
        return self.container(key, values)

    def enter_inner(self) -> Tuple[Names, Dict[str, Bound]]:
        before = self.names
        self.names = dict(before)
        self.inner += 1
        walruses, self.walruses = self.walruses, {}
        return before, walruses

    def leave_inner(self, before: Names, walruses: Dict[str, Bound]) -> None:
        self.inner -= 1
        found, self.walruses = self.walruses, walruses
        self.names = before
        for name, bound in found.items():
            self.put(name, bound)
            if self.inner:
                self.walruses[name] = bound

    def walrus(self, node: ast.NamedExpr) -> Values:
        values = self.value(node.value)
        target = node.target
        if isinstance(target, ast.Name):
            bound = self.bind(target.id, self.place_of(target), values)
            if bound is not None and self.inner:
                self.walruses[target.id] = bound
        return values

    def yielded(self, node: ast.Yield) -> Values:
        if node.value is not None:
            self.add_yield(self.value(node.value))
        return NOTHING

    def yielded_from(self, node: ast.YieldFrom) -> Values:
        values = self.value(node.value)
        self.add_yield(self.each(values))
        return NOTHING

    def add_yield(self, values: Values) -> None:
        """What a generator gives, besides what it gave so far."""
        frame = self.frame
        if frame.annotated or frame.result is None or not values:
            return
        if frame.yields is None:
            frame.yields = self.graph.pop(EACH)
            self.graph.slots.add(frame.yields)
            self.graph.edge(frame.result, frame.yields)
        self.add_to(frame.yields, values)

    def add_to(self, slot: int, values: Values) -> None:
        """More values of a slot, up to the most that one may have."""
        sinks = self.graph.sinks(slot)
        for value in values:
            if value not in sinks and len(sinks) < MOST_VALUES:
                sinks.append(value)

    # -- iterating --------------------------------------------------------------------------------

    def iterate(self, target: ast.expr, iterable: ast.expr) -> None:
        """Binds a target to what iterating over an expression gives."""
        if isinstance(target, (ast.Tuple, ast.List)) and isinstance(iterable, ast.Call):
            parts = self.item_parts(iterable, len(target.elts))
            if parts is not None:
                for part, values in zip(target.elts, parts):
                    self.assign(part, values)
                return
        self.assign(target, self.each(self.value(iterable)))

    def item_parts(self, node: ast.Call, count: int) -> Optional[List[Values]]:
        """The parts of the items of `enumerate`, `zip` and `.items()`, or None where it is another call."""
        function = node.func
        if isinstance(function, ast.Name) and self.looked_up(function.id) is None:
            if function.id == "enumerate" and count == 2 and node.args:
                given = self.arguments(node)
                return [NOTHING, self.each(given[0])]
            if function.id == "zip" and len(node.args) == count:
                return [self.each(given) for given in self.arguments(node)]
        if isinstance(function, ast.Attribute) and function.attr == "items" and not node.args and count == 2:
            owner = self.value(function.value)
            place = self.attribute_place(function) if owner else None
            if place is None:
                return [NOTHING, NOTHING]
            own = self.each(self.call(self.member(owner, "items", place)))
            return [
                joined(self.each(owner), self.item(own, "#0")),
                joined(self.item(owner), self.item(own, "#1")),
            ]
        return None

    # -- narrowing --------------------------------------------------------------------------------

    def narrow(self, test: ast.expr) -> None:
        """Takes up what a test that holds tells of names, by `isinstance`."""
        self.narrowing(test)

    def narrowing(self, test: ast.expr) -> Narrowed:
        """Takes up what a test that holds tells, and answers what it changed."""
        if isinstance(test, ast.BoolOp) and isinstance(test.op, ast.And):
            return [change for operand in test.values for change in self.narrowing(operand)]
        if not (isinstance(test, ast.Call) and isinstance(test.func, ast.Name) and test.func.id == "isinstance"):
            return []
        if len(test.args) != 2 or not isinstance(test.args[0], ast.Name):
            return []
        name = test.args[0].id
        bound = self.looked_up(name)
        values = self.quietly_instance(test.args[1])
        if bound is None or not values:
            return []
        before, after = self.names.get(name), bound.with_values(values)
        self.names[name] = after
        self.log.append(name)
        return [(name, before, after)]

    def widen(self, narrowed: Narrowed) -> None:
        """Takes back what a test told, where the names were not bound anew."""
        for name, before, after in reversed(narrowed):
            if self.names.get(name) is after:
                self.log.append(name)
                if before is None:
                    del self.names[name]
                else:
                    self.names[name] = before


def all_arguments(arguments: ast.arguments) -> List[ast.arg]:
    """The parameters in the order of the text."""
    found = list(getattr(arguments, "posonlyargs", [])) + list(arguments.args)
    if arguments.vararg is not None:
        found.append(arguments.vararg)
    found.extend(arguments.kwonlyargs)
    if arguments.kwarg is not None:
        found.append(arguments.kwarg)
    return found
