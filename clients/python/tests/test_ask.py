"""The command `ask` over a small folder, with a navd that it starts."""

from __future__ import annotations

import contextlib
import io
import json
import math
import os
import shutil
import subprocess
import sys
import tempfile
import unittest
from typing import Any, Dict, List, Sequence, Tuple
from unittest import mock

from marked import program
from servers import patient

from navd_py.__main__ import main
from navd_py.ask import Progress
from navd_py.keeper import Keeper

FILES = {
    "pkg/__init__.py": "from .tools import Box as Case\n",
    "pkg/tools.py": "class Box:\n    def size(self):\n        return 1\n\n\né = 'ü'; größe = Box()\n",
    "main.py": "from pkg import Case\nb = Case()\nb.size()\nprint(b)\n",
    "broken.py": "def f(:\n    pass\n",
}


class Asking(unittest.TestCase):
    def setUp(self) -> None:
        program()
        quiet = mock.patch("navd_py.ask.QUIET_SECONDS", math.inf)  # however long it takes, no progress is told
        quiet.start()
        self.addCleanup(quiet.stop)
        patient(self)
        self.folder = tempfile.mkdtemp()
        self.addCleanup(shutil.rmtree, self.folder, True)
        for path, text in FILES.items():
            place = os.path.join(self.folder, path)
            os.makedirs(os.path.dirname(place), exist_ok=True)
            with open(place, "w", encoding="utf-8") as file:
                file.write(text)

    def ask(self, *words: str) -> Tuple[int, List[str], str]:
        """The status, the lines of standard output and the text of standard error."""
        out, errors = io.StringIO(), io.StringIO()
        with contextlib.redirect_stdout(out), contextlib.redirect_stderr(errors):
            try:
                status = main(["ask", self.folder, *words, "--no-cache"])
            except SystemExit as end:
                status = int(end.code or 0)
        return status, out.getvalue().splitlines(), errors.getvalue()

    def json(self, *words: str) -> Dict[str, Any]:
        status, lines, _ = self.ask(*words, "--json")
        self.assertEqual(len(lines), 1, lines)
        value = json.loads(lines[0])
        assert isinstance(value, dict)
        return value

    def test_callers_are_asked_where_navd_has_them(self) -> None:
        """With a navd that answers `callers`, as far as the command sees: they are `references` without a flag."""
        asked: List[str] = []
        ask = Keeper.ask

        def ask_both(keeper: Keeper, requests: Sequence[Any], user: str = "operator") -> List[Any]:
            asked.extend(request["do"] for request in requests)
            plain = [{**one, "do": "references" if one["do"] == "callers" else one["do"]} for one in requests]
            replies = ask(keeper, plain, user)
            return [{"rows": one["rows"]} if "rows" in one and "limit" in one else one for one in replies]

        with mock.patch.object(Keeper, "ask", ask_both):
            status, lines, _ = self.ask("references", "pkg/tools.py:2:9")
        self.assertEqual((status, lines), (0, ["main.py:3:3: b.size()"]))
        self.assertIn("callers", asked)
        self.assertNotIn("references", asked)

    def test_references_where_too_many_ways_lead(self) -> None:
        """With a navd that tells of no definition who refers to it."""
        ask = Keeper.ask

        def ask_crowded(keeper: Keeper, requests: Sequence[Any], user: str = "operator") -> List[Any]:
            replies = ask(keeper, requests, user)
            refused = [request["do"] in ("callers", "references") for request in requests]
            return [{"error": "crowded"} if no and "rows" in one else one for no, one in zip(refused, replies)]

        with mock.patch.object(Keeper, "ask", ask_crowded):
            status, lines, errors = self.ask("references", "pkg/tools.py:2:9")
            self.assertEqual((status, lines), (0, ["main.py:3:3: b.size()"]))
            self.assertIn("each place where size stands was asked: 1 places", errors)
            status, lines, errors = self.ask("references", "pkg/tools.py:1:7")
            self.assertEqual((status, len(lines)), (0, 4))
            self.assertIn("Box, Case", errors)
            with mock.patch("navd_py.by_name.MOST_PLACES", 1):
                found = self.json("references", "main.py:2:6")
        self.assertEqual((len(found["places"]), found["limit"]), (1, True))
        self.assertIn("there may be more references", found["note"])

    def test_uses_of_a_file_that_navd_refuses(self) -> None:
        with mock.patch.object(Keeper, "commit", lambda keeper: keeper.refused.update({"main.py.sg.json": "why"}) or 0):
            status, lines, errors = self.ask("uses", "main.py")
        self.assertEqual((status, lines), (2, []))
        self.assertIn("main.py is left out: why", errors)

    def test_define(self) -> None:
        status, lines, errors = self.ask("define", "main.py:3:3")
        self.assertEqual((status, lines), (0, ["pkg/tools.py:2:9: def size(self):"]))
        self.assertEqual(errors, "navd-py: left out broken.py:1:7: invalid syntax\n")

    def test_define_at_a_definition(self) -> None:
        self.assertEqual(self.ask("define", "pkg/tools.py:1:8")[1], ["pkg/tools.py:1:7: class Box:"])

    def test_define_of_nothing(self) -> None:
        status, lines, errors = self.ask("define", "main.py:4:2")
        self.assertEqual((status, lines), (1, []))
        self.assertIn("none found in the folder", errors)

    def test_columns_are_characters(self) -> None:
        self.assertEqual(self.ask("define", "pkg/tools.py:6:10")[1], ["pkg/tools.py:6:10: é = 'ü'; größe = Box()"])
        self.assertEqual(self.ask("define", "pkg/tools.py:6:18")[1], ["pkg/tools.py:1:7: class Box:"])

    def test_references_of_a_definition(self) -> None:
        expected = [
            "main.py:1:17: from pkg import Case",
            "main.py:2:5: b = Case()",
            "pkg/__init__.py:1:20: from .tools import Box as Case",
            "pkg/tools.py:6:18: é = 'ü'; größe = Box()",
        ]
        self.assertEqual(self.ask("references", "pkg/tools.py:1:7")[:2], (0, expected))

    def test_references_of_what_a_name_means(self) -> None:
        self.assertEqual(self.ask("references", "main.py:3:3")[1], ["main.py:3:3: b.size()"])

    def test_paths_may_be_those_of_the_shell(self) -> None:
        place = os.path.join(self.folder, "main.py")
        self.assertEqual(self.ask("define", f"{place}:3:3")[0], 0)

    def test_uses(self) -> None:
        status, lines, _ = self.ask("uses", "main.py")
        expected = [
            "main.py:1:6: pkg: pkg/__init__.py:1:1",
            "main.py:1:17: Case: pkg/tools.py:1:7",
            "main.py:2:5: Case: pkg/tools.py:1:7",
            "main.py:3:1: b: main.py:2:1",
            "main.py:3:3: size: pkg/tools.py:2:9",
            "main.py:4:7: b: main.py:2:1",
        ]
        self.assertEqual((status, lines), (0, expected))

    def test_check(self) -> None:
        status, lines, _ = self.ask("check")
        self.assertEqual(status, 0)
        self.assertIn("0 crowded and 0 limited", lines[-1])
        self.assertIn("1 files left out", lines[-1])
        counts = self.json("check", "main")["counts"]
        self.assertEqual(counts, {"names": 6, "found": 6, "none": 0, "crowded": 0, "limited": 0})

    def test_json(self) -> None:
        place = {"path": "pkg/tools.py", "line": 2, "column": 9, "text": "def size(self):"}
        self.assertEqual(self.json("define", "main.py:3:3"), {"limit": False, "places": [place]})
        self.assertEqual(len(self.json("uses", "main.py")["uses"]), 6)
        self.assertIn("error", self.json("define", "main.py:99:1"))

    def test_questions_that_can_not_be_asked(self) -> None:
        for words, part in (
            (("define", "main.py"), "isn't PATH:LINE:COLUMN"),
            (("define", "none.py:1:1"), "there is no Python file none.py"),
            (("define", "main.py:9:1"), "has 5 lines"),
            (("define", "main.py:1:99"), "has 20 characters"),
            (("define", "main.py:0:0"), "has 5 lines"),
            (("define",), "needs a place"),
            (("references", "broken.py:1:5"), "broken.py is left out: invalid syntax"),
            (("uses", "broken.py"), "broken.py is left out: invalid syntax"),
            (("uses", "main.py", "--navd", "/no/such"), "there is no program"),
            (("ponder", "main.py"), "invalid choice"),
        ):
            with self.subTest(words=words):
                status, lines, errors = self.ask(*words)
                self.assertEqual((status, lines), (2, []))
                self.assertIn(part, errors)

    def test_a_folder_that_is_none(self) -> None:
        top = self.folder
        self.folder = os.path.join(top, "none")
        status, _, errors = self.ask("check")
        self.assertEqual((status, errors), (2, f"navd-py: {self.folder} isn't there\n"))
        self.folder = os.path.join(top, "main.py")
        status, _, errors = self.ask("check")
        self.assertEqual((status, errors), (2, f"navd-py: {self.folder} is no folder\n"))

    def test_a_folder_without_files(self) -> None:
        self.folder = tempfile.mkdtemp()
        self.addCleanup(shutil.rmtree, self.folder, True)
        status, lines, errors = self.ask("check")
        self.assertEqual((status, lines), (2, []))
        self.assertIn("it has no Python files", errors)

    def test_folders_that_can_not_be_read(self) -> None:
        scan = os.scandir

        def scan_but(place: str) -> Any:
            if place in without_rights:
                raise PermissionError(13, "Permission denied", place)
            return scan(place)

        without_rights = [os.path.join(self.folder, "pkg")]
        with mock.patch.object(os, "scandir", scan_but):
            status, _, errors = self.ask("check")
            self.assertEqual(status, 0)
            self.assertIn("left out pkg: the folder can't be read: Permission denied", errors)
            without_rights.append(self.folder)
            status, _, errors = self.ask("check")
        self.assertEqual(status, 2)
        self.assertIn("the folder can't be read: Permission denied", errors)

    def test_another_program_in_place_of_navd(self) -> None:
        other = os.path.join(self.folder, "other")
        with open(other, "w", encoding="utf-8") as file:
            file.write("#!/bin/sh\necho no navd >&2\n")
        os.chmod(other, 0o700)
        status, lines, errors = self.ask("define", "main.py:3:3", "--navd", other)
        self.assertEqual((status, lines), (2, []))
        self.assertIn(f"another session, too: there is no reply: {other} ended with status 0", errors)
        self.assertIn("no navd", errors)

    def test_as_a_program(self) -> None:
        words = [sys.executable, "-m", "navd_py", "ask", self.folder, "define", "main.py:3:3", "--no-cache"]
        top = os.path.join(os.path.dirname(os.path.abspath(__file__)), "..")
        done = subprocess.run(words, cwd=top, capture_output=True, text=True, check=False)
        self.assertEqual((done.returncode, done.stdout), (0, "pkg/tools.py:2:9: def size(self):\n"))
        closed, writer = os.pipe()
        os.close(closed)
        words[5:7] = ["uses", "main.py"]
        done = subprocess.run(words, cwd=top, stdout=writer, stderr=subprocess.PIPE, text=True, check=False)
        os.close(writer)
        self.assertNotIn("Traceback", done.stderr)
        self.assertNotIn("Exception", done.stderr)
        done = subprocess.run(
            [sys.executable, "-m", "navd_py", "nothing"], cwd=top, capture_output=True, text=True, check=False
        )
        self.assertEqual((done.returncode, done.stdout), (2, ""))


class Progressing(unittest.TestCase):
    def test_nothing_is_told_at_first(self) -> None:
        stream = io.StringIO()
        times = iter([100.0, 100.9, 101.1, 102.9, 103.2])
        progress = Progress("done", stream, lambda: next(times))
        progress(1, 4)
        self.assertEqual(stream.getvalue(), "")
        progress(2, 4)
        progress(3, 4)
        self.assertEqual(stream.getvalue(), "done: 2 of 4\n")
        progress(4, 4)
        self.assertEqual(stream.getvalue(), "done: 2 of 4\ndone: 4 of 4\n")


if __name__ == "__main__":
    unittest.main()
