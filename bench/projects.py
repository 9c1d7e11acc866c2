#!/usr/bin/env python3
"""Makes projects of Python modules of usual size, of the part of Python that the server reads.

usage: bench/projects.py FOLDER FILES [SEED]     (writes the modules below the folder, which it makes)

The same numbers give the same texts on each machine and with each Python. A module has about 2.9 kB and 170 references:
it imports from some others with and without `as`, and has constants, classes whose bases may stand in other files,
methods, functions, loops and branches. What it uses is there: modules are made one after the other and use earlier ones,
most of them of their own package. Nothing is assigned to itself by way of a member, which would double the paths at each
step.
"""

from __future__ import annotations

import sys
from dataclasses import dataclass, field
from pathlib import Path
from typing import Iterator

# A package has so many files, its `__init__.py` among them, and an area so many packages.
PACKAGE, AREA = 32, 8
# As many classes as this stand at most above a class.
DEPTH = 3

NOUNS = (
    "account anchor badge barrel basin beacon bridge bundle cabin cargo carrier cellar circuit clerk coupon courier crate "
    "depot dial draft engine errand farm ferry field garden gauge harbor hopper invoice journal kiln label lantern lever "
    "locker magnet market meadow mill needle notice orchard oven parcel pier pillar plank pulley quarry rail ramp receipt "
    "reel river roof saddle scale shelf signal silo spool stall statement tariff ticket timber tower track trolley tunnel "
    "valve vault vessel voucher wagon warrant well wharf wheel winch window"
).split()
VERBS = (
    "adjust admit append assign balance borrow carry charge check clear collect count deliver divide empty enter expect "
    "fasten fetch finish gather grant hand hold issue join launch lend lift list match measure mend move open order pack "
    "pay place plan post pull quote reach rent repair reserve return_to save seal search send settle ship sort split start "
    "stop store supply take test trade trim turn unload verify wait_for weigh"
).split()
LOCALS = "amount batch current found given held kept latest noted part rest share shown stock sum_of taken used".split()


class Draw:
    """Numbers that look drawn: a congruential generator, of whose state the upper half is used."""

    def __init__(self, seed: int) -> None:
        self.state = seed % 2**64

    def below(self, count: int) -> int:
        self.state = (self.state * 6_364_136_223_846_793_005 + 1_442_695_040_888_963_407) % 2**64
        return (self.state >> 32) % count

    def one(self, items: list | tuple):
        return items[self.below(len(items))]

    def some(self, items: list[str], count: int) -> list[str]:
        """So many different ones of the items, in their order; all where there are fewer."""
        left = list(range(len(items)))
        picked = [left.pop(self.below(len(left))) for _ in range(min(count, len(items)))]
        return [items[place] for place in sorted(picked)]


@dataclass
class Class:
    name: str
    # of itself and of its bases
    methods: list[str] = field(default_factory=list)
    attributes: list[str] = field(default_factory=list)
    # how many bases stand above it, one above the other
    depth: int = 0


@dataclass
class Function:
    name: str
    # the class of what it returns, where it returns an instance
    makes: Class | None = None


@dataclass
class Module:
    dotted: str
    constants: list[str] = field(default_factory=list)
    classes: list[Class] = field(default_factory=list)
    functions: list[Function] = field(default_factory=list)


@dataclass
class Names:
    """What a place of a module can use, each as it is written there."""

    values: list[str] = field(default_factory=list)
    classes: list[tuple[str, Class]] = field(default_factory=list)
    functions: list[tuple[str, Function]] = field(default_factory=list)


def title(*words: str) -> str:
    return "".join(word.capitalize() for word in words)


def indented(lines: list[str]) -> list[str]:
    return ["    " + line for line in lines]


class Writer:
    """Writes one module, of which `names` holds what can be used so far."""

    def __init__(self, draw: Draw, dotted: str, earlier: list[Module]) -> None:
        self.draw = draw
        self.module = Module(dotted)
        self.earlier = earlier
        self.names = Names()

    # -- imports

    def imports(self) -> list[str]:
        package = self.module.dotted.rpartition(".")[0]
        near = [module for module in self.earlier if module.dotted.rpartition(".")[0] == package]
        lines = []
        seen = set()
        for turn in range(6):
            module = self.draw.one(near if near and turn % 3 else self.earlier) if self.earlier else None
            if module and module.dotted not in seen:
                seen.add(module.dotted)
                lines.append(self.imported(module, turn))
        return lines

    def imported(self, module: Module, turn: int) -> str:
        package, _, last = module.dotted.rpartition(".")
        if turn % 3 == 0:
            self.takes_all(module, f"{last}_m")
            return f"import {module.dotted} as {last}_m"
        if turn == 1:
            self.takes_all(module, last)
            return f"from {package} import {last}"
        made, function = self.draw.one(module.classes), self.draw.one(module.functions)
        value = self.draw.one(module.constants)
        self.names.classes.append((made.name, made))
        alias = f"{function.name.partition('_')[0]}_{last}"
        self.names.functions.append((alias, function))
        self.names.values.append(value)
        return f"from {module.dotted} import {made.name}, {function.name} as {alias}, {value}"

    def takes_all(self, module: Module, name: str) -> None:
        self.names.values += [f"{name}.{value}" for value in module.constants]
        self.names.classes += [(f"{name}.{made.name}", made) for made in module.classes]
        self.names.functions += [(f"{name}.{function.name}", function) for function in module.functions]

    # -- expressions

    def value(self, own: list[str]) -> str:
        """A plain value: a name of the function, a name from outside it, a number or a text."""
        turn = self.draw.below(8)
        if own and turn < 4:
            return self.draw.one(own)
        if self.names.values and turn < 6:
            return self.draw.one(self.names.values)
        return str(self.draw.below(100)) if turn < 7 else f'"{self.draw.one(NOUNS)}"'

    def values(self, own: list[str]) -> str:
        return ", ".join(self.value(own) for _ in range(1 + self.draw.below(3)))

    def instance(self, own: list[str]) -> tuple[str, Class]:
        """An expression whose value is of a class, made there or by a function."""
        makers = [pair for pair in self.names.functions if pair[1].makes]
        if makers and self.draw.below(2):
            name, function = self.draw.one(makers)
            return f"{name}({self.values(own)})", function.makes
        name, made = self.draw.one(self.names.classes)
        return f"{name}({self.values(own)})", made

    def call(self, own: list[str]) -> str:
        if self.names.functions and self.draw.below(2):
            return f"{self.draw.one(self.names.functions)[0]}({self.values(own)})"
        if not self.names.classes:
            return self.value(own)
        text, made = self.instance(own)
        return f"{text}.{self.draw.one(made.methods)}({self.values(own)})"

    # -- statements

    def statements(self, own: list[str]) -> list[str]:
        """One step of a function; the names that it binds are added to its own."""
        name = self.draw.one([local for local in LOCALS if local not in own] or LOCALS)
        turn = self.draw.below(7)
        if turn == 0 and self.names.classes:
            text, made = self.instance(own)
            lines = [f"{name} = {text}", f"{name}.{self.draw.one(made.methods)}({self.values(own)})"]
        elif turn == 1:
            lines = [f"{name} = 0", f"for step in range({self.draw.below(100)}):", f"    {name} = {name} + step"]
        elif turn == 2:
            lines = [f"{name} = {self.draw.below(9)}", f"while {name} < {self.value(own)}:", f"    {name} = {name} + 1"]
        elif turn == 3:
            test = f"if {self.value(own)} > {self.value(own)}:"
            lines = [test, f"    {self.call(own)}", "else:", f"    {self.call(own)}"]
            return lines
        elif turn == 4:
            lines = [f"{name} = [{self.value(own)}, {self.value(own)}]"]
        else:
            lines = [f"{name} = {self.call(own)}"]
        own.append(name)
        return lines

    def block(self, own: list[str], steps: int) -> list[str]:
        return [line for _ in range(steps) for line in self.statements(own)]

    # -- what a module has

    def constants(self) -> list[str]:
        lines = []
        for noun in self.draw.some(NOUNS, 3):
            name = f"{noun}_{self.draw.one(NOUNS)}".upper()
            lines.append(f"{name} = {self.draw.below(1_000)}")
            self.module.constants.append(name)
        self.names.values += self.module.constants
        return lines

    def class_lines(self) -> list[str]:
        made = Class(title(self.draw.one(NOUNS), self.draw.one(NOUNS), str(len(self.module.classes) + 1)))
        bases = [pair for pair in self.names.classes if pair[1].depth < DEPTH]
        base = self.draw.one(bases) if bases and self.draw.below(3) else None
        if base:
            made.depth = base[1].depth + 1
        parameters = self.draw.some(NOUNS, 2)
        begun = [f"class {made.name}({base[0]}):" if base else f"class {made.name}:",
                 f"    def __init__(self, {', '.join(parameters)}):"]
        if base:
            begun.append(f"        {base[0]}.__init__(self, {self.values(parameters)})")
        # What each attribute is an instance of; a base's attributes are named, and not called.
        held: list[tuple[str, Class]] = []
        for attribute in self.draw.some(NOUNS, 2):
            text, of = self.instance(parameters) if self.names.classes else (self.draw.one(parameters), None)
            begun.append(f"        self.{attribute} = {text}")
            made.attributes.append(attribute)
            if of:
                held.append((attribute, of))
        own_methods = self.draw.some(VERBS, 2 + self.draw.below(2))
        made.methods = own_methods + (base[1].methods[:4] if base else [])
        for method in own_methods:
            begun += ["", *indented(self.method_lines(made, method, held))]
        self.module.classes.append(made)
        self.names.classes.append((made.name, made))
        return begun

    def method_lines(self, made: Class, method: str, held: list[tuple[str, Class]]) -> list[str]:
        own = self.draw.some(NOUNS, 1 + self.draw.below(2))
        lines = self.block(own, 1)
        if held:
            attribute, of = self.draw.one(held)
            lines.append(f"self.{attribute}.{self.draw.one(of.methods)}({self.values(own)})")
        if self.draw.below(2):
            lines.append(f"self.{self.draw.one(made.methods)}({self.values(own)})")
        lines.append(f"return self.{self.draw.one(made.attributes)}")
        return [f"def {method}(self, {', '.join(self.parameters_of(own))}):", *indented(lines)]

    def parameters_of(self, own: list[str]) -> list[str]:
        return [name for name in own if name in NOUNS]

    def function_lines(self, number: int) -> list[str]:
        function = Function(f"{self.draw.one(VERBS)}_{self.draw.one(NOUNS)}{number}")
        own = self.draw.some(NOUNS, 1 + self.draw.below(2))
        lines = self.block(own, 2 + self.draw.below(2))
        if self.module.classes and self.draw.below(2):
            function.makes = self.draw.one(self.module.classes)
            lines.append(f"return {function.makes.name}({self.values(own)})")
        else:
            lines.append(f"return {self.value(own)}")
        self.module.functions.append(function)
        self.names.functions.append((function.name, function))
        return [f"def {function.name}({', '.join(self.parameters_of(own))}):", *indented(lines)]

    def text(self) -> str:
        parts = [[f"# {self.module.dotted}"], self.imports(), self.constants()]
        parts += [self.class_lines() for _ in range(2)]
        parts += [self.function_lines(number) for number in range(4)]
        return "\n\n".join("\n".join(part) for part in parts if part) + "\n"


def names_of(files: int) -> Iterator[str]:
    """The dotted names of so many files, a package's own before its modules."""
    for number in range(files):
        package, place = divmod(number, PACKAGE)
        area, inner = divmod(package, AREA)
        folder = f"{NOUNS[area % len(NOUNS)]}{area}.{NOUNS[(7 * inner + 3) % len(NOUNS)]}{inner}"
        yield f"{folder}.{NOUNS[(place - 1) * 5 % len(NOUNS)]}{place}" if place else folder


def package_text(dotted: str, module: Module | None) -> str:
    """The text of a package's own file, which names what its first module is to be known by."""
    if module is None:
        return f"# {dotted}\n"
    names = ", ".join([*(made.name for made in module.classes), module.functions[0].name])
    return f"# {dotted}\nfrom {module.dotted} import {names}\n"


def project(files: int, seed: int = 1) -> dict[str, str]:
    """The texts of a project of so many files, by their paths."""
    draw = Draw(seed)
    texts: dict[str, str] = {}
    made: list[Module] = []
    for dotted in names_of(files):
        if dotted.count(".") == 1:
            texts[dotted.replace(".", "/") + "/__init__.py"] = package_text(dotted, None)
            continue
        writer = Writer(draw, dotted, made)
        texts[dotted.replace(".", "/") + ".py"] = writer.text()
        made.append(writer.module)
        package = dotted.rpartition(".")[0]
        if len(made) == 1 or made[-2].dotted.rpartition(".")[0] != package:
            texts[package.replace(".", "/") + "/__init__.py"] = package_text(package, writer.module)
    return texts


def write(texts: dict[str, str], folder: Path) -> None:
    for path, text in texts.items():
        (folder / path).parent.mkdir(parents=True, exist_ok=True)
        (folder / path).write_text(text, encoding="ascii")


def main() -> int:
    words = sys.argv[1:]
    if len(words) not in (2, 3) or not all(word.isdigit() for word in words[1:]) or int(words[1]) < 1:
        print("usage: bench/projects.py FOLDER FILES [SEED]", file=sys.stderr)
        return 2
    texts = project(*map(int, words[1:]))
    write(texts, Path(words[0]))
    print(f"{len(texts)} files, {sum(map(len, texts.values())):,} bytes")
    return 0


if __name__ == "__main__":
    sys.exit(main())
