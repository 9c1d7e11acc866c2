"""Who refers to definitions, found by their names: with a stand-in for navd, and with navd, where there is one."""

from __future__ import annotations

import math
import unittest
from typing import Any, Dict, List, Sequence, Set, Tuple
from unittest import mock

from marked import Marked, program
from servers import patient

from navd_py import by_name
from navd_py.by_name import Files, Found, Node, references
from navd_py.keeper import Keeper
from navd_py.project import Project, graph_path, source_path
from navd_py.session import Session
from navd_py.translate.graph import graph_nodes, span_of

FILES = {
    "pkg/__init__.py": "from .tools import Box as Case, make\n",
    "pkg/tools.py": "class Box:\n    def size(self):\n        return 1\n\n\ndef make() -> Box:\n    return Box()\n",
    "main.py": "from pkg import Case as C, make\nc = C()\nc.size()\nmake().size()\n",
    "other.py": "import pkg.tools as t\nt.Box().size()\nprint(t.make)\n",
    "more.py": "from pkg import Case as size\nsize\nbox = Box = 1\nBox\n",
}
BOX, SIZE = ("pkg/tools.py", 0, 6), ("pkg/tools.py", 1, 8)


class Translated(Marked):
    """The graphs of some files."""

    def setUp(self) -> None:
        super().setUp()
        patient(self)

    def graphs(self, files: Dict[str, str]) -> Dict[str, bytes]:
        for path, text in files.items():
            self.write(path, text.encode())
        found: Dict[str, bytes] = {}
        for path, result in self.results(Project(self.folder, cache=False)).items():
            assert result.source is not None, result
            found[graph_path(path)] = result.source
        return found

    @staticmethod
    def node_at(graphs: Dict[str, bytes], place: Tuple[str, int, int]) -> Node:
        node = Files([], graphs.get, lambda _: []).definition_at(graph_path(place[0]), *place[1:])
        assert node is not None, place
        return node


class StandInForNavd(Translated):
    """What is asked, of a navd that says that each place means the wanted definition."""

    def setUp(self) -> None:
        super().setUp()
        self.asked: List[Tuple[str, int, int]] = []
        self.sizes: List[int] = []
        self.reply: Dict[str, Any] = {}

    def found(self, files: Dict[str, str], place: Tuple[str, int, int], check: Any = lambda: None) -> Found:
        graphs = self.graphs(files)
        node = self.node_at(graphs, place)
        nodes = {path: graph_nodes(source) for path, source in graphs.items()}

        def ask(questions: Sequence[Dict[str, Any]]) -> List[Dict[str, Any]]:
            self.sizes.append(len(questions))
            for question in questions:
                self.assertEqual(question["do"], "define")
                span = span_of(nodes[question["path"]][question["node"]])
                assert span is not None
                self.asked.append((source_path(question["path"]), span[0], span[1]))
            return [self.reply or {"rows": [{"path": node[0], "node": node[1]}], "limit": False}] * len(questions)

        return references(Files(list(graphs), graphs.get, ask, check), {node})

    def test_a_name_stands_there_as_a_reference(self) -> None:
        found = self.found(FILES, SIZE)
        self.assertEqual((found.names, found.asked, found.is_whole), (["size"], 4, True))
        wanted = [("main.py", 2, 2), ("main.py", 3, 7), ("more.py", 1, 0), ("other.py", 1, 8)]
        self.assertEqual(sorted(self.asked), wanted)
        self.assertEqual([source_path(row["path"]) for row in found.rows][:2], ["main.py", "main.py"])

    def test_names_that_imports_give(self) -> None:
        found = self.found(FILES, BOX)
        self.assertEqual(found.names[0], "Box")
        self.assertEqual(set(found.names), {"Box", "Case", "C", "size"})
        self.assertIn(("main.py", 1, 4), self.asked)
        self.assertIn("Box, Case", found.told())

    def test_names_of_modules(self) -> None:
        found = self.found(FILES, ("pkg/tools.py", 0, 0))
        self.assertEqual(found.names, ["tools", "t"])
        found = self.found({"a.py": "x = 1\n", "b.py": "import a as c\nc.x\n"}, ("a.py", 0, 0))
        self.assertEqual(found.names, ["a", "c"])

    def test_a_value_is_no_other_name(self) -> None:
        found = self.found({"a.py": "def f(): pass\ng = f\nh = g\ng()\n"}, ("a.py", 0, 4))
        self.assertEqual(found.names, ["f"])
        more = "import a\ng = a.f\nclass A:\n    h = a.f\n    def m(self):\n        self.i = a.f\n        return a.f\n"
        more += "def each():\n    yield a.f\n    return [a.f], {1: a.f}, self.f\ndef last(x=a.f): return x.f, x\n"
        found = self.found({"a.py": "def f(): pass\n", "b.py": more}, ("a.py", 0, 4))
        self.assertEqual(found.names, ["f"])

    def test_names_of_imports_anywhere(self) -> None:
        files = {
            "a.py": "def f(): pass\n",
            "b.py": "try:\n    from a import f as g\nexcept ImportError:\n    g = None\n",
            "c.py": "class A:\n    from a import f as h\ndef call():\n    from a import f as i\n    i()\n",
            "d.py": "import a as m\nfrom a import f as j\ndef call(): return j, m.f\n",
        }
        self.assertEqual(sorted(self.found(files, ("a.py", 0, 4)).names), ["f", "g", "h", "i", "j"])

    def test_so_many_places(self) -> None:
        text = "x = 1\n" + "x\n" * 200
        with mock.patch.object(by_name, "MOST_PLACES", 70):
            found = self.found({"a.py": text}, ("a.py", 0, 1))
        self.assertEqual((found.asked, found.places, found.is_cut, found.is_whole), (70, 200, True, False))
        self.assertIn("70 places of 200 or more; there may be more references", found.told())

    def test_so_many_seconds(self) -> None:
        with mock.patch.object(by_name, "MOST_SECONDS", -1.0):
            found = self.found({"a.py": "x = 1\nx\n"}, ("a.py", 0, 1))
        self.assertEqual((found.asked, found.is_cut), (0, True))

    def test_so_many_names(self) -> None:
        files = {"a0.py": "x = 1\n"}
        for number in range(1, 8):
            before = "x" if number == 1 else f"x{number - 1}"
            files[f"a{number}.py"] = f"from a{number - 1} import {before} as x{number}\n"
        found = self.found(files, ("a0.py", 0, 1))
        self.assertEqual(found.names, ["x", "x1", "x2", "x3"])
        self.assertTrue(found.is_cut)

    def test_pieces_by_how_long_they_take(self) -> None:
        text = "x = 1\n" + "x\n" * 500
        with mock.patch.object(by_name, "SECONDS_AT_ONCE", math.inf):
            self.found({"a.py": text}, ("a.py", 0, 1))
        self.assertEqual(self.sizes, [32, 64, 128, 256, 20])
        self.sizes.clear()
        with mock.patch.object(by_name, "SECONDS_AT_ONCE", -1.0):
            self.found({"a.py": text}, ("a.py", 0, 1))
        self.assertEqual(self.sizes, [32] * 15 + [20])

    def test_nobody_waits_any_more(self) -> None:
        class Over(Exception):
            pass

        def check() -> None:
            if len(self.sizes) == 2:
                raise Over

        with self.assertRaises(Over):
            self.found({"a.py": "x = 1\n" + "x\n" * 500}, ("a.py", 0, 1), check)
        self.assertEqual(len(self.sizes), 2)

    def test_places_that_do_not_tell_all(self) -> None:
        for reply in ({"error": "crowded"}, {"rows": [], "limit": True}):
            self.reply = reply
            found = self.found({"a.py": "x = 1\nx\n"}, ("a.py", 0, 1))
            self.assertEqual((found.rows, found.undecided, found.is_whole), ([], 1, False))
            self.assertIn("of 1 of them navd doesn't know all definitions", found.told())
        self.reply = {"rows": [], "limit": False}
        self.assertTrue(self.found({"a.py": "x = 1\nx\n"}, ("a.py", 0, 1)).is_whole)

    def test_names_that_are_not_ascii(self) -> None:
        found = self.found({"a.py": "größe = 1\nprint(größe)\n"}, ("a.py", 0, 2))
        self.assertEqual((found.names, self.asked), (["größe"], [("a.py", 1, 6)]))


class BesideNavd(Translated):
    """What is found is what navd tells by itself, where it does."""

    MORE = {
        "base.py": "class Base:\n    def run(self): return self.step()\n    def step(self): pass\n    kind = 1\n",
        "one.py": "import base\nclass One(base.Base):\n    def step(self): return super().step()\nOne().run().kind\n",
        "two.py": "from base import *\nfrom one import One as Other\nOther.kind\nBase().step()\nx = Base\nx().run()\n",
        "three.py": "import one as first, two\nfirst.One().step()\ntwo.Other().run(), two.Base, two.x\n",
        "four.py": "from three import first as last\nlast.One\ndef f(a, b=1): return a, b\nf(a=1, b=2)\n",
    }

    def test_each_definition(self) -> None:
        name = program()
        keeper = Keeper(lambda: Session(name))
        self.addCleanup(keeper.close)
        graphs = self.graphs({**FILES, **self.MORE})
        for path, source in graphs.items():
            keeper.put(path, source)
        keeper.commit()
        count = 0
        for path, source in graphs.items():
            for number, node in enumerate(graph_nodes(source)):
                if node.get("definition"):
                    reply = keeper.ask([{"do": "references", "path": path, "node": number}])[0]
                    found = references(Files(list(graphs), keeper.source, keeper.ask), {(path, number)})
                    with self.subTest(name=node["symbol"], path=path, span=node["span"]):
                        self.assertEqual(self.places(found.rows), self.places(reply["rows"]), found)
                        self.assertTrue(found.is_whole)
                    count += len(found.rows)
        self.assertGreater(count, 40)

    @staticmethod
    def places(rows: Sequence[Dict[str, Any]]) -> Set[Node]:
        return {(row["path"], row["node"]) for row in rows}


if __name__ == "__main__":
    unittest.main()
