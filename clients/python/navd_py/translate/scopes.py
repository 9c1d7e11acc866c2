"""Classes and functions: their nodes, and their texts, which are gone through once the text around them is."""

from __future__ import annotations

import ast
from typing import Callable, List, Optional, Sequence, Tuple, TypeVar, Union

from .annotations import last_name, parts_of
from .bindings import DEFINED, VARIABLE, Attribute, Bound, ClassParts, Frame, meeting
from .graph import NOTHING, Values
from .imports import Imports
from .inner import all_arguments
from .places import Place
from .state import BODY, BODY_VALUE, CALL, DOT, EACH, INHERITED, ITEM, OWN, OWN_VALUE, PARAMETER

Function = Union[ast.FunctionDef, ast.AsyncFunctionDef]
Result = TypeVar("Result")

# Decorators by the last part of their names.
PROPERTIES = frozenset(["property", "cached_property", "abstractproperty", "locked_cached_property"])
MANAGERS = frozenset(["contextmanager", "asynccontextmanager"])
ACCESSORS = frozenset(["setter", "getter", "deleter"])
# Methods of which the first parameter is the class.
OF_CLASS = frozenset(["__new__", "__init_subclass__", "__class_getitem__"])
# Methods of which the language calls instances.
SPECIAL = frozenset(["__call__", "__getitem__", "__iter__", "__next__", "__aiter__", "__anext__"])


class Scopes(Imports):
    """Going through classes and functions."""

    # -- frames -----------------------------------------------------------------------------------

    def finishing(self, frame: Frame) -> Frame:
        """The frame at whose end the text is gone on with that this frame puts off."""
        while frame.kind == "class" and frame.parent is not None:
            frame = frame.parent
        return frame

    def within(self, frame: Frame, action: Callable[[], Result]) -> Result:
        """Carries out an action as of the end of a frame."""
        saved = self.frame, self.names, self.dead, self.inner
        self.frame, self.names, self.dead, self.inner = frame, dict(frame.names), False, 0
        try:
            return action()
        finally:
            self.frame, self.names, self.dead, self.inner = saved

    def go_on(self, frame: Frame) -> None:
        """Ends a module or a function: its names are settled, and what it put off is gone through."""
        names = self.names
        if frame.later:
            for other in frame.exits:
                names = meeting(other, names)
        frame.names = names
        self.settle(frame)
        position = 0
        while position < len(frame.later):
            frame.later[position]()
            position += 1
        frame.later = []

    def inner_name(self, home: Frame, name: str) -> str:
        return f"{home.container}.{name}" if home.container else name

    def definition_place(self, node: ast.stmt, name: str, word: str) -> Optional[Place]:
        """The place of the name behind `def` or `class`."""
        line, start = node.lineno - 1, node.col_offset
        if name.isascii():
            begin = start + len(word)
            if self.lines.slice(line, begin, begin + len(name)) == name.encode():
                return line, begin, begin + len(name)
        return self.lines.word(line, start, name)

    # -- classes ----------------------------------------------------------------------------------

    def class_definition(self, node: ast.ClassDef) -> None:
        for decorator in node.decorator_list:
            self.value(decorator)
        bases = [self.base_value(base) for base in node.bases]
        for keyword in node.keywords:
            self.value(keyword.value)
        place = self.definition_place(node, node.name, "class ")
        parts = self.class_parts(node, bases)
        home = self.frame
        home.names = self.names
        frame = Frame("class", self.inner_name(home, node.name), self.finishing(home))
        frame.owner = parts
        self.frame, self.names = frame, {}
        dead, self.dead = self.dead, False
        self.block(node.body)
        frame.names = self.names
        self.settle(frame)
        self.members_of(parts.scope, frame.names, BODY, BODY_VALUE)
        self.frame, self.names, self.dead = home, home.names, dead
        self.specials(parts, frame)
        if place is None:
            return
        line, start, end = place
        definition = self.graph.definition(node.name, line, start, end, (parts.value,))
        self.told(node.name, "class", place)
        self.order += 1
        self.put(node.name, Bound(self.order, DEFINED, (definition,), (parts.value,)))

    def base_value(self, node: ast.expr) -> Values:
        """The class that a base is: of a generic one with its parts, the generic one."""
        if not isinstance(node, ast.Subscript):
            return self.value(node)
        values = self.value(node.value)
        for part in parts_of(node.slice):
            self.instance_of(part)
        return values

    def class_parts(self, node: ast.ClassDef, bases: Sequence[Values]) -> ClassParts:
        graph = self.graph
        scope = graph.cut_scope()
        dot = graph.pop(DOT, (scope,))
        special = any(
            isinstance(part, (ast.FunctionDef, ast.AsyncFunctionDef)) and part.name in SPECIAL for part in node.body
        )
        instance = graph.scope((dot,)) if special else dot
        value = graph.scope((dot, graph.pop(CALL, (instance,)), self.fields(node, scope)))
        inherited = graph.cut_scope()
        graph.members[scope] = {}
        graph.members[inherited] = {}
        graph.edge(scope, inherited, INHERITED)
        rank = len(bases)
        for values in bases:
            rank -= 1
            for source in self.sources(values) if values else ():
                self.rank_edge(inherited, source, rank)
        parts = ClassParts(self.inner_name(self.frame, node.name), value, instance, scope, inherited)
        self.classes[value] = parts
        self.scopes[value] = scope
        self.scopes[instance] = scope
        self.scopes[inherited] = inherited
        return parts

    def fields(self, node: ast.ClassDef, scope: int) -> int:
        """From where the names of arguments are looked up with which a class is called: among the parameters of its
        `__init__`, or where it has none of its own and annotates names, as a data class does, among these too."""
        graph = self.graph
        ways = [graph.pushed(PARAMETER, (graph.pushed("__init__", (scope,)),))]
        own = any(isinstance(part, ast.FunctionDef) and part.name == "__init__" for part in node.body)
        if not own and any(isinstance(part, ast.AnnAssign) for part in node.body):
            ways.append(scope)
        return graph.pop(PARAMETER, ways)

    def rank_edge(self, source: int, sink: int, precedence: int) -> None:
        """An edge that is also followed where cycles are looked for."""
        self.graph.ranked.setdefault(source, []).append((sink, precedence))

    def specials(self, parts: ClassParts, frame: Frame) -> None:
        """What an instance gives where it is called, subscripted and iterated over, by the class's own methods."""
        graph = self.graph
        if parts.instance in self.graph.out[parts.value]:
            return

        def own(name: str) -> Values:
            bound = frame.names.get(name)
            return bound.values if bound is not None and bound.kind == DEFINED else NOTHING

        ways = graph.sinks(parts.instance)
        ways.extend(own("__call__"))
        item = own("__getitem__")
        if item:
            ways.append(graph.pop(ITEM, self.call(item)))
        following = own("__next__") or own("__anext__")
        iterated = own("__iter__") or own("__aiter__")
        if following:
            ways.append(graph.pop(EACH, self.call(following)))
        elif iterated:
            ways.append(graph.pop(EACH, self.each(self.call(iterated))))
        elif item:
            ways.append(graph.pop(EACH, self.call(item)))

    def owner_of(self, node: ast.expr) -> Optional[ClassParts]:
        """The class whose attribute is assigned where a member of this expression is: in a method, of `self`."""
        if not isinstance(node, ast.Name):
            return None
        frame: Optional[Frame] = self.frame
        while frame is not None:
            if frame.self_name == node.id:
                bound = self.looked_up(node.id)
                own = frame.bound_anywhere(node.id)
                if bound is None or own is None or bound.targets != own.parts[0].targets:
                    return None
                return frame.owner
            frame = frame.parent
        return None

    def own_attribute(self, owner: ClassParts, name: str, place: Place, values: Values, declared: bool) -> None:
        graph = self.graph
        line, start, end = place
        definition = graph.definition(name, line, start, end)
        self.defined.append((name, "attribute", (line, start, line, end), owner.name))
        graph.edge(owner.scope, definition, OWN)
        attribute = owner.attributes.get(name)
        if attribute is None:
            attribute = owner.attributes[name] = Attribute(graph.pop(name))
            graph.slots.add(attribute.slot)
            graph.edge(owner.scope, attribute.slot, OWN_VALUE)
            graph.members[owner.scope].setdefault(name, []).append(attribute.slot)
        if declared and not attribute.declared:
            attribute.declared = True
            graph.out[attribute.slot] = []
        if declared or not attribute.declared:
            self.add_to(attribute.slot, values)

    # -- functions --------------------------------------------------------------------------------

    def function(self, node: Function) -> None:
        decorators = [self.decorator(decorator) for decorator in node.decorator_list]
        defaults = self.defaults(node.args)
        word = "async def " if isinstance(node, ast.AsyncFunctionDef) else "def "
        place = self.definition_place(node, node.name, word)
        home = self.frame
        graph = self.graph
        call = graph.pop(CALL)
        graph.slots.add(call)
        names = self.by_name[call] = graph.pop(PARAMETER)
        home_is_class = home.kind == "class"
        if place is not None:
            line, start, end = place
            self.told(node.name, "method" if home_is_class else "function", place)
            self.order += 1
            if any(word in PROPERTIES for word in decorators):
                definition = graph.definition(node.name, line, start, end)
                self.put(node.name, Bound(self.order, VARIABLE, (definition,), self.call((call,))))
            elif any(word in ACCESSORS for word in decorators) and node.name in self.names:
                definition = graph.definition(node.name, line, start, end)
                self.put(node.name, Bound(self.order, VARIABLE, (definition,), self.names[node.name].values))
            else:
                definition = graph.definition(node.name, line, start, end, (call, names))
                self.put(node.name, Bound(self.order, DEFINED, (definition,), (call,)))
        self.finishing(home).later.append(lambda: self.body(node, call, home, decorators, defaults))

    def decorator(self, node: ast.expr) -> str:
        self.value(node)
        return last_name(node.func if isinstance(node, ast.Call) else node)

    def defaults(self, arguments: ast.arguments) -> List[Tuple[ast.arg, Values]]:
        """The parameters with defaults, and the values of these."""
        found: List[Tuple[ast.arg, Values]] = []
        plain = list(getattr(arguments, "posonlyargs", [])) + list(arguments.args)
        if arguments.defaults:
            for argument, default in zip(plain[-len(arguments.defaults) :], arguments.defaults):
                found.append((argument, self.value(default)))
        for argument, given in zip(arguments.kwonlyargs, arguments.kw_defaults):
            if given is not None:
                found.append((argument, self.value(given)))
        return found

    def body(
        self,
        node: Function,
        call: int,
        home: Frame,
        decorators: Sequence[str],
        defaults: Sequence[Tuple[ast.arg, Values]],
    ) -> None:
        """Goes through the text of a function, once the text around it is."""
        told = self.within(home, lambda: self.signature(node, decorators, defaults))
        frame = Frame("function", self.inner_name(home, node.name), self.finishing(home))
        if home.kind == "class":
            frame.owner = home.owner
        frame.annotated = node.returns is not None
        managed = any(name in MANAGERS for name in decorators)
        result = told[0]
        if managed:
            self.managed(frame, call, result)
        else:
            frame.result = call
            self.add_to(call, result)
        saved = self.frame, self.names, self.dead
        self.frame, self.names, self.dead = frame, {}, False
        self.parameters(node, home, decorators, told[1], self.by_name[call])
        self.block(node.body)
        self.go_on(frame)
        self.frame, self.names, self.dead = saved

    def managed(self, frame: Frame, call: int, result: Values) -> None:
        """A function that `contextmanager` makes a context manager: entering it gives what it yields."""
        graph = self.graph
        entered = graph.pop(CALL, self.each(result))
        graph.slots.add(entered)
        ways = [graph.pop("__enter__", (entered,)), graph.pop("__aenter__", (entered,))]
        graph.edge(call, graph.pop(DOT, ways))
        frame.result = call
        frame.yields = entered

    def signature(
        self, node: Function, decorators: Sequence[str], defaults: Sequence[Tuple[ast.arg, Values]]
    ) -> Tuple[Values, List[Tuple[ast.arg, Values]]]:
        """The values that the annotations of a function tell: of its result and of its parameters."""
        given = {id(argument): values for argument, values in defaults}
        arguments = node.args
        told: List[Tuple[ast.arg, Values]] = []
        for argument in all_arguments(arguments):
            values = NOTHING
            if argument.annotation is not None:
                values = self.instance_of(argument.annotation)
                if argument is arguments.vararg:
                    values = self.container(values, values)
                elif argument is arguments.kwarg:
                    values = self.container(NOTHING, values)
            if not values:
                values = given.get(id(argument), NOTHING)
            told.append((argument, values))
        result = self.instance_of(node.returns) if node.returns is not None else NOTHING
        return result, told

    def parameters(
        self, node: Function, home: Frame, decorators: Sequence[str], told: Sequence[Tuple[ast.arg, Values]], names: int
    ) -> None:
        """Binds the parameters of a function; those that calls may name are found from `names`."""
        first = home.kind == "class" and "staticmethod" not in decorators
        unnamed = list(getattr(node.args, "posonlyargs", []))
        has_self = bool(unnamed or node.args.args)
        for argument, values in told:
            is_self = first and has_self and home.owner is not None
            if is_self and home.owner is not None:
                of_class = "classmethod" in decorators or node.name in OF_CLASS
                values = values or ((home.owner.value,) if of_class else (home.owner.instance,))
                self.frame.self_name = argument.arg
            first = False
            bound = self.bind(argument.arg, self.argument_place(argument), values, "parameter")
            if bound is None or is_self or argument in unnamed:
                continue
            if argument is not node.args.vararg and argument is not node.args.kwarg:
                self.graph.edge(names, bound.targets[0])
