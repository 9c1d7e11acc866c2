"""What navd answers over the graphs of small modules, a construct of Python each."""

from __future__ import annotations

import os
import sys
import unittest

from marked import Marked


class Names(Marked):
    def test_last_binding_in_the_order_of_the_text(self) -> None:
        self.ask({"m.py": "<a|x> = 1\n<?a|x>\n<b|x> = 2\n<?b|x>\n<?|print>(<?b|x>)\n"})

    def test_branches_join(self) -> None:
        self.ask({"m.py": "if c:\n    <a|x> = 1\nelse:\n    <b|x> = 2\n<?a,b|x>\n"})

    def test_branch_that_returns_does_not_join(self) -> None:
        self.ask(
            {
                "m.py": (
                    "def f(<c|c>):\n    <a|x> = 1\n    if <?c|c>:\n        <b|x> = 2\n        return <?b|x>\n"
                    "    return <?a|x>\n"
                )
            }
        )

    def test_loop(self) -> None:
        self.ask({"m.py": "<a|x> = 1\nfor <i|i> in y:\n    <?a|x>\n    <b|x> = <?i|i>\n<?a,b|x>\n<?i|i>\n"})

    def test_name_bound_further_below_in_a_loop(self) -> None:
        self.ask({"m.py": "def f():\n    while True:\n        if c:\n            <?a|x>\n        <a|x> = 1\n"})

    def test_endless_loop_is_left_by_break(self) -> None:
        self.ask({"m.py": "<a|x> = 1\nwhile True:\n    <b|x> = 2\n    if c:\n        break\n<?b|x>\n"})

    def test_try(self) -> None:
        text = (
            "try:\n    <a|x> = 1\nexcept E as <e|e>:\n    <?e|e>\n    <b|x> = 2\nelse:\n    <?a|x>\nfinally:\n"
            "    pass\n<?a,b|x>\n"
        )
        self.ask({"m.py": text})

    def test_delete(self) -> None:
        self.ask({"m.py": "<a|x> = 1\ndef f():\n    <b|x> = 2\n    del <?b|x>\n    <?a|x>\n"})

    def test_function_sees_the_end_of_its_module(self) -> None:
        self.ask({"m.py": "def f():\n    return <?g|g>(), <?b|x>\n<a|x> = 1\n<b|x> = 2\ndef <g|g>(): pass\n"})

    def test_closures(self) -> None:
        self.ask(
            {
                "m.py": (
                    "def f(<p|p>):\n    def <g|g>():\n        return <?p|p>, <?x|x>\n"
                    "    <x|x> = 1\n    return <?g|g>\n"
                )
            }
        )

    def test_class_body_is_not_seen_by_methods(self) -> None:
        self.ask(
            {"m.py": "<a|x> = 1\nclass C:\n    <b|x> = 2\n    y = <?b|x>\n    def f(self):\n        return <?a|x>\n"}
        )

    def test_comprehensions_have_names_of_their_own(self) -> None:
        text = "<a|x> = 1\n[<?b|x> for <b|x> in y if <?b|x>]\n{<?k|k>: <?v|v> for <k|k>, <v|v> in y}\n<?a|x>\n"
        self.ask({"m.py": text})

    def test_walrus(self) -> None:
        self.ask({"m.py": "if (<a|n> := f()) and <?a|n>:\n    <?a|n>\n[<b|z> := 1 for q in y]\n<?b|z>\n"})

    def test_lambda(self) -> None:
        self.ask({"m.py": "<a|x> = 1\n<f|f> = lambda <b|x>, *<c|y>: (<?b|x>, <?c|y>)\n<?f|f>(<?a|x>)\n"})

    def test_global(self) -> None:
        text = "<a|x> = 1\ndef f():\n    global <?a,b|x>\n    <b|x> = 2\n    <?b|x>\ndef g():\n    return <?a,b|x>\n"
        self.ask({"m.py": text, "n.py": "from m import <?a,b|x>\n"})

    def test_nonlocal(self) -> None:
        self.ask(
            {
                "m.py": (
                    "def f():\n    <a|x> = 1\n    def g():\n        nonlocal <?a|x>\n        <?a|x>\n"
                    "        <b|x> = 2\n        <?b|x>\n"
                )
            }
        )

    def test_unpacking(self) -> None:
        text = (
            "class A:\n    def <m|m>(self): pass\n<x|x>, (<y|y>, *<z|z>) = A(), (1, 2)\n<?x|x>.<?m|m>\n"
            "<?y|y>, <?z|z>\n"
        )
        self.ask({"m.py": text})

    def test_augmented_assignment_is_a_use_and_a_definition(self) -> None:
        self.ask({"m.py": "<a|x> = 1\n<?a|x> += 1\n"})

    def test_f_strings(self) -> None:
        self.ask({"m.py": "<a|x> = 1\nf'{<?a|x>} {<?a|x>:>{<?a|x>}}'\n"})

    def test_names_past_ascii(self) -> None:
        self.ask(
            {
                "m.py": "é = '€'; <a|größe> = 1; ü = <?a|größe>\nclass <c|Ä>:\n    def <m|ö>(self): pass\n<?c|Ä>().<?m|ö>\n"
            }
        )

    def test_decorators_and_defaults_are_of_the_text_around(self) -> None:
        text = (
            "def <d|d>(<f|f>): return <?f|f>\n<a|x> = 1\n@<?d|d>\n"
            "def g(<b|x>=<?a|x>, *, <k|k>: <?d|d> = <?a|x>):\n    return <?b|x>, <?k|k>\n"
        )
        self.ask({"m.py": text})

    @unittest.skipIf(sys.version_info < (3, 10), "match is read from Python 3.10 on")
    def test_match(self) -> None:
        text = (
            "class P:\n    def __init__(self):\n        self.<x|x> = 1\n    def <m|m>(self): pass\n"
            "match v:\n    case [<a|a>, *<b|b>]:\n        <?a|a>, <?b|b>\n    case {'k': <c|c>, **<d|d>}:\n"
            "        <?c|c>, <?d|d>\n"
            "    case P() as <e|e>:\n        <?e|e>.<?m|m>()\n    case _:\n        pass\n"
        )
        self.ask({"m.py": text})


class Members(Marked):
    def test_instances_and_classes(self) -> None:
        text = (
            "class <C|C>:\n    <a|a> = 1\n    def __init__(self):\n        self.<b|b> = 2\n"
            "    def <m|m>(<s|self>):\n        return <?s|self>.<?a|a>, self.<?b|b>, self.<?m|m>, self.<?|z>\n"
            "<?C|C>.<?a|a>\n<?C|C>().<?b|b>\n<?C|C>().<?m|m>\n"
        )
        self.ask({"m.py": text})

    def test_own_attributes_before_the_class_body_before_bases(self) -> None:
        text = (
            "class A:\n    <a1|x> = 1\n    <y|y> = 1\n    def <f|f>(self): pass\nclass B:\n    <f2|f> = 1\n"
            "    <z|z> = 1\n"
            "class C(A, B):\n    <c1|x> = 2\n    def __init__(self):\n        self.<c2|x> = 3\n"
            "    def g(self):\n        self.<?c2|x>, self.<?y|y>, self.<?f|f>, self.<?z|z>, super().<?a1|x>\n"
        )
        self.ask({"m.py": text})

    def test_an_attribute_is_its_assignment_and_not_its_value(self) -> None:
        text = (
            "from lib import thing\nclass C:\n    def __init__(self, v):\n        self.<t|t> = thing\n"
            "    def f(self):\n        return self.<?t|t>.<?m|m>\n"
        )
        self.ask({"m.py": text, "lib.py": "class T:\n    def <m|m>(self): pass\nthing = T()\n"})

    def test_results_of_calls(self) -> None:
        text = (
            "class A:\n    def <m|m>(self):\n        return self\n"
            "def f():\n    return A()\ndef g(c):\n    if c:\n        return f()\n    return None\n"
            "f().<?m|m>()\ng(1).<?m|m>().<?m|m>()\n"
        )
        self.ask({"m.py": text})

    def test_properties(self) -> None:
        text = (
            "class A:\n    def <m|m>(self): pass\nclass B:\n    @property\n    def <a|a>(self):\n        return A()\n"
            "    def f(self):\n        self.<?a|a>.<?m|m>\nB().<?a|a>.<?m|m>\n"
        )
        self.ask({"m.py": text})

    def test_class_methods(self) -> None:
        text = (
            "class A:\n    @classmethod\n    def make(cls):\n        return cls()\n    @staticmethod\n"
            "    def s(x): return A()\n    def <m|m>(self): pass\nA.make().<?m|m>\nA.s(1).<?m|m>\n"
        )
        self.ask({"m.py": text})

    def test_special_methods(self) -> None:
        text = (
            "class A:\n    def <m|m>(self): pass\nclass B:\n    def __getitem__(self, i): return A()\n"
            "    def __call__(self): return A()\n"
            "    def __iter__(self):\n        yield A()\n    def __enter__(self): return A()\n"
            "b = B()\nb[0].<?m|m>\nb().<?m|m>\nfor x in b:\n    x.<?m|m>\nwith b as y:\n    y.<?m|m>\n"
        )
        self.ask({"m.py": text})

    def test_containers(self) -> None:
        text = (
            "class A:\n    def <m|m>(self): pass\nl = [A()]\nd = {'k': A()}\n"
            "l[0].<?m|m>\nd['k'].<?m|m>\nd.get('k').<?m|m>\nfor x in l:\n    x.<?m|m>\nfor k, v in d.items():\n"
            "    v.<?m|m>\n"
            "for i, e in enumerate(l):\n    e.<?m|m>\nfor p, q in zip(l, l):\n    q.<?m|m>\n"
            "[z.<?m|m> for z in sorted(l)]\n"
            "[w for w in l][0].<?m|m>\nfor u in d.values():\n    u.<?m|m>\n"
        )
        self.ask({"m.py": text})

    def test_generators_and_managers(self) -> None:
        text = (
            "from contextlib import contextmanager\nclass A:\n    def <m|m>(self): pass\n"
            "def g():\n    yield A()\n@contextmanager\ndef c():\n    yield A()\n"
            "for x in g():\n    x.<?m|m>\nwith c() as y:\n    y.<?m|m>\n"
            "async def h():\n    return A()\nasync def k():\n    (await h()).<?m|m>\n    async with c() as z:\n"
            "        z.<?m|m>\n"
        )
        self.ask({"m.py": text})

    def test_names_of_arguments(self) -> None:
        text = (
            "from lib import g, D\ndef f(<x|x>, *<y|y>, <z|z>=1, **<w|w>): pass\nclass C:\n"
            "    def __init__(self, <a|a>): pass\n"
            "    def m(self, <b|b>): pass\n    @classmethod\n    def k(cls, <c|c>): pass\nclass B(C): pass\n"
            "f(<?x|x>=1, <?z|z>=2, <?|w>=3, <?|y>=4)\nC(<?a|a>=1).m(<?b|b>=1)\nC.k(<?c|c>=1)\nB(<?a|a>=2)\n"
            "g(<?p|p>=1, <?|q>=2)\nD(<?n|n>=1)\nprint(<?|end>='')\n"
        )
        lib = "from dataclasses import dataclass\ndef g(<p|p>): return <?p|p>\n@dataclass\nclass D:\n    <n|n>: int\n"
        self.ask({"m.py": text, "lib.py": lib})

    def test_cycles_of_values_are_no_paths(self) -> None:
        text = (
            (
                "class A:\n    def __init__(self, o):\n        self.<a|a> = o\n        self.<b|b> = self.<?a|a>.<?|x>\n"
                "    def f(self):\n        self.<a2|a> = self.<?b|b>.<?|y>\n    def g(self):\n"
                "        return self.<?g|g>().<?|z>\n"
            )
            .replace("def g(", "def <g|g>(")
            .replace("<?a|a>", "<?a,a2|a>")
        )
        self.ask({"m.py": text})


class Annotations(Marked):
    HEAD = "from __future__ import annotations\nfrom typing import *\nclass A:\n    def <m|m>(self) -> A: ...\n"

    def test_parameters_and_results(self) -> None:
        text = "def f(a: A, b: Optional[A], c: A | None, d: 'A', e: Union[None, A] = None) -> A:\n"
        text += "".join(f"    {name}.<?m|m>().<?m|m>\n" for name in "abcde") + "f().<?m|m>\n"
        self.ask({"m.py": self.HEAD + text})

    def test_containers(self) -> None:
        text = (
            "def f(a: list[A], b: Dict[str, A], c: Tuple[int, A], d: Iterator[A], e: Callable[[int], A],\n"
            "      g: Type[A], *h: A):\n"
            "    a[0].<?m|m>\n    b['k'].<?m|m>\n    x, y = c\n    y.<?m|m>\n    c[1].<?m|m>\n    for z in d:\n"
            "        z.<?m|m>\n"
            "    e(1).<?m|m>\n    g().<?m|m>\n    for w in h:\n        w.<?m|m>\n    for k, v in b.items():\n"
            "        v.<?m|m>\n"
        )
        self.ask({"m.py": self.HEAD + text})

    def test_variables_and_attributes(self) -> None:
        text = (
            "x: A = make()\nx.<?m|m>\nclass B:\n    <a|a>: A\n    def __init__(self):\n"
            "        self.b: A = other()\n    def f(self):\n        self.<?a|a>.<?m|m>\n        self.b.<?m|m>\n"
        )
        self.ask({"m.py": self.HEAD + text})

    def test_narrowing(self) -> None:
        text = (
            "def f(x, y):\n    if isinstance(x, A):\n        x.<?m|m>\n    x.<?|m>\n    assert isinstance(y, A)\n"
            "    y.<?m|m>\n    cast(A, x).<?m|m>\n    if not isinstance(x, A):\n        return\n    x.<?m|m>\n"
        )
        self.ask({"m.py": self.HEAD + text})

    def test_managers(self) -> None:
        text = (
            "from contextlib import contextmanager\n@contextmanager\ndef c() -> Iterator[A]: ...\n"
            "with c() as x:\n    x.<?m|m>\n"
        )
        self.ask({"m.py": self.HEAD + text})

    def test_self_and_type_variables(self) -> None:
        text = (
            "class B(A):\n    def make(self) -> Self: ...\n    def <n|n>(self): ...\nB().make().<?n|n>\n"
            "B().make().<?m|m>\n"
        )
        self.ask({"m.py": self.HEAD + text})

    def test_quoted_names_are_uses(self) -> None:
        self.ask({"m.py": "class <A|A>: pass\ndef f(x: '<?A|A>', y: \"list[<?A|A>]\"): pass\n"})


class Modules(Marked):
    def test_imports(self) -> None:
        self.ask(
            {
                "pkg/__init__.py": "from .a import <?f|f> as <?|g>\nfrom . import <?ma|a>\n".replace(
                    "<?|g>", "g"
                ).replace("<?ma|a>", "a"),
                "pkg/a.py": "def <f|f>(): pass\nclass <C|C>:\n    def <m|m>(self): pass\n",
                "pkg/sub/__init__.py": "",
                "pkg/sub/b.py": "from ..a import <?C|C>\nfrom .. import a as z\nz.<?f|f>\n<?C|C>().<?m|m>\n",
                "main.py": (
                    "import pkg.a\nimport pkg.sub.b as q\nfrom pkg import <?f|g>, a\npkg.a.<?f|f>\nq.<?C|C>().<?m|m>\n"
                    "a.<?C|C>\nimport os\n<?|os>.<?|path>\n<?f|g>()\n"
                ),
            }
        )

    def test_modules_are_defined_at_their_beginning(self) -> None:
        self.ask(
            {
                "pkg/__init__.py": "<p|>",
                "pkg/a.py": "<a|>x = 1\n",
                "m.py": "import <?p|pkg>.<?a|a>\nfrom <?p|pkg> import <?a|a>\n<?p|pkg>.<?a|a>\n",
            }
        )

    def test_star_imports(self) -> None:
        self.ask(
            {
                "a.py": "from b import *\n__all__ = ['f']\ndef <f|f>(): pass\ndef g(): pass\n",
                "b.py": "<x|x> = 1\n_y = 2\ndef <h|h>(): pass\n",
                "c.py": "from b import *\n<?x|x>, <?|_y>, <?h|h>\n",
                "d.py": "from a import *\n<?f|f>, <?|g>, <?|h>\n",
                "e.py": "import c\nc.<?h|h>\n",
            }
        )

    def test_star_imports_in_a_round(self) -> None:
        self.ask(
            {
                "a.py": "<x|x> = 1\nfrom b import *\n<?x|x>\n",
                "b.py": "from a import <?x|x>\n",
                "c.py": "from a import <?x|x>\n",
            }
        )

    def test_roots(self) -> None:
        self.ask({"src/pkg/__init__.py": "<x|x> = 1\n", "tests/t.py": "from pkg import <?x|x>\n"})

    def test_stated_roots(self) -> None:
        self.ask({"lib/pkg/__init__.py": "<x|x> = 1\n", "t.py": "from pkg import <?x|x>\n"}, roots=["lib"])

    def test_a_folder_that_is_a_package(self) -> None:
        name = os.path.basename(self.folder)
        self.ask(
            {
                "__init__.py": "from .a import <?x|x>\n",
                "a.py": "<x|x> = 1\n",
                "b/__init__.py": "",
                "b/c.py": f"import {name}.a\nfrom {name} import <?x|x>\nfrom ..a import <?x|x>\n{name}.a.<?x|x>\n",
            }
        )

    def test_scripts_beside_each_other(self) -> None:
        self.ask({"tools/a.py": "<x|x> = 1\n", "tools/b.py": "from a import <?x|x>\n"})

    def test_no_module_beside_takes_the_place_of_a_library(self) -> None:
        self.ask(
            {"pkg/__init__.py": "", "pkg/typing.py": "Any = 1\n", "pkg/m.py": "from typing import <?|Any>\n<?|Any>\n"}
        )

    def test_names_of_a_package_before_its_modules(self) -> None:
        self.ask(
            {
                "pkg/__init__.py": "from .run import <?r|run>\n",
                "pkg/run.py": "def <r|run>(): pass\n",
                "m.py": "from pkg import <?r|run>\n<?r|run>()\n",
            }
        )

    def test_import_that_may_fail(self) -> None:
        self.ask(
            {
                "a.py": "<x|x> = 1\n",
                "m.py": "try:\n    from a import <?x|x>\nexcept ImportError:\n    <y|x> = None\n<?x,y|x>\n",
            }
        )

    def test_imports_over_lines(self) -> None:
        self.ask(
            {
                "a.py": "<x|x> = 1\n<y|y> = 2\n",
                "m.py": "from a import (  # x\n    <?x|x>,\n    <?y|y> as z,  # y\n)\n<?x|x>, <?y|z>\n",
            }
        )


if __name__ == "__main__":
    unittest.main()
