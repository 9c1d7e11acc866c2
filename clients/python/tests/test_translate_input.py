"""Folders with what no translator wants to read: each file has a graph or a fault, and nothing is raised."""

from __future__ import annotations

import os
import unittest

from marked import Marked, program

from navd_py.keeper import Keeper
from navd_py.project import Project, graph_path
from navd_py.session import Session
from navd_py.translate.graph import graph_nodes


class Input(Marked):
    def fault(self, data: bytes) -> str:
        """The fault of a file with these bytes, with its place."""
        self.write("m.py", data)
        result = Project(self.folder, cache=False).translated("m.py")
        self.assertTrue((result.source is None) != (result.fault is None))
        return f"{result.fault.line}:{result.fault.column} {result.fault.message}" if result.fault else ""

    def test_texts_that_are_taken(self) -> None:
        for data in (
            b"",
            b"\n\n",
            b"\xef\xbb\xbfx = 1\n",
            b"# coding: latin-1\nx = '\xe9'\n",
            b"x = 1\r\ny = x\r\n",
            b"x = 1\ry = x\r",
            b"\x0cx = 1\n",
            b"x = " + b"9" * 4000 + b"\n",
            b"x = '" + b"a" * 200_000 + b"'\n",
            b"x = " + b" + ".join([b"y"] * 1500) + b"\n",
            b"x = '\\q'\n",
            b"if 1:\n\tx = 1\n",
        ):
            with self.subTest(data=data[:30]):
                self.assertEqual(self.fault(data), "")

    def test_texts_that_have_a_fault(self) -> None:
        for data, part in (
            (b"x = (\n", "0:"),
            (b"x = 1\n  y = 2\n", "1:"),
            (b"x = '\xe9'\n", "0:5 not utf-8"),
            (b"x = 1\ny = '\xff\xfe'\n", "1:5 not utf-8"),
            (b"# coding: no-such\nx = 1\n", "its encoding isn't known"),
            (b"x = '\x00'\n", "0:"),
            (bytes(range(256)) * 10, "1:117 not utf-8"),
            (b"x = " + b"9" * 5000 + b"\n", "0:"),
            (b"x = " + b"(" * 300 + b")" * 300 + b"\n", "0:"),
            (b"x = " + b"-" * 100_000 + b"1\n", "0:"),
            ("é = )\n".encode(), "0:5 "),
        ):
            with self.subTest(data=data[:30]):
                self.assertIn(part, self.fault(data))

    def test_deep_nesting_has_a_graph_or_a_fault(self) -> None:
        for depth in (50, 150, 500, 3_000):
            for text in (
                "x" + "()" * depth,
                "x" + ".y" * depth,
                "x = " + "-" * depth + "1",
                "x = " + "[" * depth + "]" * depth,
                "".join("\n" + " " * level + "if 1:" for level in range(min(depth, 98))) + " pass",
                "x = " + " and ".join(["y"] * depth),
                "x = " + "lambda: " * depth + "0",
            ):
                with self.subTest(depth=depth, text=text[:20]):
                    self.fault(text.encode() + b"\n")

    def test_a_graph_that_is_too_large_is_a_fault(self) -> None:
        text = "".join(f"def function_{number}(argument): return argument\n" for number in range(9_000))
        self.assertIn("more than", self.fault(text.encode()))

    def test_files_that_are_no_texts(self) -> None:
        os.makedirs(os.path.join(self.folder, "folder.py"))
        os.symlink("nowhere", os.path.join(self.folder, "broken.py"))
        os.symlink(self.folder, os.path.join(self.folder, "circle"))
        os.symlink("round.py", os.path.join(self.folder, "round.py"))
        os.mkfifo(os.path.join(self.folder, "pipe.py"))
        self.write("m.py", b"x = 1\n")
        project = Project(self.folder, cache=False)
        self.assertEqual(project.scan(), ["m.py"])
        for path in ("folder.py", "broken.py", "round.py", "pipe.py", "gone.py", "circle", "../x.py", "", "a//b.py"):
            with self.subTest(path=path):
                self.assertIsNotNone(project.translated(path).fault)

    def test_a_file_that_vanishes_or_may_not_be_read(self) -> None:
        self.write("m.py", b"x = 1\n")
        self.write("n.py", b"x = 1\n")
        project = Project(self.folder, cache=False)
        paths = project.scan()
        os.unlink(os.path.join(self.folder, "m.py"))
        faults = [result.fault is not None for result in project.translate_all(paths)]
        self.assertEqual(faults, [True, False])

    def test_what_is_left_out(self) -> None:
        for path in (
            "a.py",
            "b/c.py",
            ".git/x.py",
            "venv/x.py",
            "own/pyvenv.cfg",
            "own/x.py",
            "__pycache__/x.py",
            "node_modules/x.py",
            "data/x.py",
            "gen/y.py",
            "b/skip.py",
        ):
            self.write(path, b"x = 1\n")
        self.write(".gitignore", b"# data\n/data/\nskip.py\n")
        project = Project(self.folder, excludes=["gen/", "**/nothing"], cache=False)
        self.assertEqual(project.scan(), ["a.py", "b/c.py", "b/skip.py"])
        self.assertEqual(Project(self.folder, excludes=["b/*.py"], cache=False).scan(), ["a.py", "gen/y.py"])

    def test_two_files_of_one_module(self) -> None:
        self.ask({"a.py": "x = 1\n", "a/__init__.py": "<x|x> = 2\n", "m.py": "import a\n"})

    def test_names_of_files_that_are_no_names(self) -> None:
        self.ask(
            {
                "my script.py": "<x|x> = 1\n<?x|x>\n",
                'quo"te.py': "<y|y> = 1\n<?y|y>\n",
                "dotted.name.py": "<z|z> = 1\n<?z|z>\n",
            }
        )

    def test_names_in_other_normal_forms(self) -> None:
        self.write("m.py", "ﬁle = 1\nﬁle.ﬁeld\nclass ﬂow:\n    def ﬁnd(self, ﬁrst): return ﬁrst\n".encode())
        project = Project(self.folder, cache=False)
        result = project.translated("m.py")
        self.assertIsNone(result.fault)
        name = program()
        keeper = Keeper(lambda: Session(name))
        self.addCleanup(keeper.close)
        keeper.put(graph_path("m.py"), result.source)
        keeper.commit()
        self.assertEqual(keeper.refused, {})


class Changes(Marked):
    """Which graphs have to be asked anew where a text changes."""

    def begun(self) -> Project:
        self.write("a.py", b"x = 1\n")
        self.write("b.py", b"from a import *\nx\n")
        self.write("c.py", b"import a\na.x\nimport late\n")
        self.write("d.py", b"from b import *\nx\n")
        project = Project(self.folder, cache=False)
        self.results(project)
        return project

    def test_public_names(self) -> None:
        project = self.begun()
        self.assertEqual(project.set_text("a.py", "x = 2\n"), ["a.py"])
        self.assertEqual(project.set_text("a.py", "x = 2\ny = 1\n"), ["a.py", "b.py", "d.py"])
        for path in ("b.py", "d.py"):
            project.translated(path)
        self.assertEqual(project.set_text("a.py", "x = 2\ny = (\n"), ["a.py"])
        self.assertIsNotNone(project.translated("a.py").fault)
        self.assertEqual(project.reread("a.py"), ["a.py", "b.py", "d.py"])

    def test_modules_that_come_and_go(self) -> None:
        project = self.begun()
        self.assertEqual(project.set_text("late.py", "z = 1\n"), ["late.py", "c.py"])
        self.assertEqual(project.scan(), ["a.py", "b.py", "c.py", "d.py", "late.py"])
        project.translated("c.py")
        self.assertEqual(project.set_text("late.py", None), ["late.py", "c.py"])
        self.assertIsNotNone(project.translated("late.py").fault)

    def test_the_cache_gives_the_same(self) -> None:
        before = os.environ.get("XDG_CACHE_HOME")
        os.environ["XDG_CACHE_HOME"] = os.path.join(self.folder, ".cache")
        self.addCleanup(restore, "XDG_CACHE_HOME", before)
        self.begun()
        first = self.results(Project(self.folder))
        self.assertTrue(os.path.isdir(os.path.join(self.folder, ".cache", "navd-py")))
        again = self.results(Project(self.folder))
        self.assertEqual(first, again)
        for place, _, names in os.walk(os.path.join(self.folder, ".cache")):
            for name in names:
                with open(os.path.join(place, name), "wb") as file:
                    file.write(b"{}\n")
        self.assertEqual(first, self.results(Project(self.folder)))

    def test_kept_graphs_of_other_answers_are_not_taken(self) -> None:
        before = os.environ.get("XDG_CACHE_HOME")
        os.environ["XDG_CACHE_HOME"] = os.path.join(self.folder, ".cache")
        self.addCleanup(restore, "XDG_CACHE_HOME", before)
        self.begun()
        self.results(Project(self.folder))
        self.write("a.py", b"x = 1\nnew_name = 2\n")
        source = self.results(Project(self.folder))["d.py"].source
        assert source is not None
        self.assertIn("new_name", [node.get("symbol") for node in graph_nodes(source)])


def restore(name: str, value: object) -> None:
    if value is None:
        os.environ.pop(name, None)
    else:
        os.environ[name] = str(value)


if __name__ == "__main__":
    unittest.main()
