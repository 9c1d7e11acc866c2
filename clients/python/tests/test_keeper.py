"""Tests of what keeps navd at what it is to have; with navd, where there is one."""

import json
import os
import shutil
import unittest
from typing import List, Optional
from unittest import mock

from navd_py import keeper as keepers
from navd_py.keeper import Keeper, Refused, reason_of
from navd_py.session import Session

NAVD = os.environ.get("NAVD") or shutil.which("navd")


def graph(name: str, uses: str = "") -> bytes:
    """A graph file that defines a name, and refers to another one."""
    nodes = [{"kind": "pop", "symbol": name, "definition": True, "span": [0, 0, 0, len(name)]}]
    edges = [["root", 0, 0]]
    if uses:
        nodes.append({"kind": "push", "symbol": uses, "reference": True, "span": [1, 0, 1, len(uses)]})
        edges.append([1, "root", 0])
    return json.dumps({"nodes": nodes, "edges": edges}).encode()


def question(path: str, line: int = 1) -> dict:
    return {"do": "define", "path": path, "line": line, "column": 0}


class Reasons(unittest.TestCase):
    def test_reasons(self) -> None:
        large = {"error": "bad_file", "fault": "large", "bytes": 1_048_577, "path": "a"}
        self.assertIn("1,048,577 bytes", reason_of(large))
        self.assertIn("node 3", reason_of({"error": "bad_file", "fault": "bad_scope", "node": 3, "path": "a"}))
        self.assertIn("json", reason_of({"error": "bad_file", "fault": "json", "path": "a"}))


@unittest.skipUnless(NAVD, "there is no navd: the environment variable NAVD names one")
class Keeping(unittest.TestCase):
    def setUp(self) -> None:
        self.said: List[str] = []
        self.sessions: List[Session] = []
        self.keeper = Keeper(self.open, say=self.said.append)
        self.addCleanup(self.keeper.close)

    def open(self) -> Session:
        self.sessions.append(Session(NAVD))
        return self.sessions[-1]

    def rows(self, path: str, user: str = "operator") -> Optional[List[str]]:
        reply = self.keeper.ask([question(path)], user)[0]
        return [row["path"] for row in reply["rows"]] if "rows" in reply else reply["error"]

    def test_what_changes_is_committed(self) -> None:
        self.keeper.put("a.py.sg.json", graph("a", "b"))
        self.keeper.put("b.py.sg.json", graph("b"))
        self.assertEqual(self.keeper.commit(), 2)
        self.assertTrue(self.keeper.is_up_to_date())
        self.assertEqual(self.rows("a.py.sg.json"), ["b.py.sg.json"])
        self.keeper.put("a.py.sg.json", graph("a", "b"))
        self.assertEqual(self.keeper.commit(), 0)
        self.keeper.put("b.py.sg.json", None)
        self.keeper.put("never.sg.json", None)
        self.assertEqual(self.keeper.commit(), 1)
        self.assertEqual(self.rows("a.py.sg.json"), [])
        self.assertEqual(self.keeper.version, 2)

    def test_many_in_several_commits(self) -> None:
        with mock.patch.object(keepers, "BATCH", 2_000):
            for number in range(60):
                self.keeper.put(f"m{number}.sg.json", graph(f"m{number}", f"m{(number + 1) % 60}"))
            self.assertEqual(self.keeper.commit(), 60)
        self.assertGreater(self.keeper.version, 3)
        replies = self.keeper.ask([question(f"m{number}.sg.json") for number in range(60)])
        found = [reply["rows"][0]["path"] for reply in replies]
        self.assertEqual(found, [f"m{(number + 1) % 60}.sg.json" for number in range(60)])

    def test_a_refused_file_is_left_out_alone(self) -> None:
        self.keeper.put("good.sg.json", graph("good", "bad"))
        self.keeper.put("bad.sg.json", graph("bad"))
        self.keeper.commit()
        self.assertEqual(self.rows("good.sg.json"), ["bad.sg.json"])
        self.keeper.put("bad.sg.json", b'{"nodes":[],"edges":[[0,1,0]]}')
        self.keeper.put("more.sg.json", graph("more", "good"))
        self.keeper.commit()
        self.assertEqual(list(self.keeper.refused), ["bad.sg.json"])
        self.assertEqual(self.rows("good.sg.json"), [])
        self.assertEqual(self.rows("more.sg.json"), ["good.sg.json"])
        self.assertTrue(self.keeper.is_up_to_date())
        self.keeper.put("bad.sg.json", graph("bad"))
        self.assertEqual(self.rows("good.sg.json"), ["bad.sg.json"])
        self.assertEqual(self.keeper.refused, {})

    def test_what_navd_cannot_be_told(self) -> None:
        long = "x" * 510 + ".py"
        for path in (long, "a//b", "a/../b", "a\nb", "a\udc80"):
            self.keeper.put(path, graph("bad"))
        self.keeper.put("large.sg.json", b" " * 1_048_577)
        self.keeper.put("good.sg.json", graph("good"))
        self.assertEqual(self.keeper.commit(), 1)
        self.assertEqual(len(self.keeper.refused), 6)
        self.assertIn("512", self.keeper.refused[long])
        self.keeper.put("large.sg.json", graph("small"))
        self.assertEqual(self.keeper.commit(), 1)
        self.assertEqual(len(self.keeper.refused), 5)
        self.keeper.put("large.sg.json", b" " * 1_048_577)
        self.assertEqual(self.keeper.commit(), 1)
        self.assertEqual(self.rows("large.sg.json"), "no_file")

    def test_more_files_than_navd_takes(self) -> None:
        for number in range(2_050):
            self.keeper.put(f"m{number:04}.sg.json", graph(f"m{number}"))
        self.keeper.commit()
        self.assertEqual(sorted(self.keeper.refused), ["m2048.sg.json", "m2049.sg.json"])
        self.keeper.put("m0000.sg.json", None)
        self.keeper.commit()
        self.assertEqual(len(self.keeper.refused), 1)
        self.keeper.put("n.sg.json", graph("n"))
        self.keeper.prefer(["n.sg.json", "m2047.sg.json", *self.keeper.refused])
        self.keeper.commit()
        self.assertEqual(sorted(self.keeper.refused), ["m2046.sg.json", "m2048.sg.json"])
        self.assertEqual(self.rows("m2046.sg.json"), "no_file")
        self.assertEqual(self.rows("m2047.sg.json"), "no_reference")
        self.sessions[-1].stop()
        self.assertEqual(self.rows("n.sg.json"), "no_reference")
        self.assertEqual(len(self.keeper.refused), 2)
        self.assertNotIn("n.sg.json", self.keeper.refused)

    def test_navd_ends_and_all_is_there_again(self) -> None:
        self.keeper.put("a.sg.json", graph("a", "b"))
        self.keeper.put("b.sg.json", graph("b"))
        self.assertEqual(self.rows("a.sg.json"), ["b.sg.json"])
        self.sessions[-1].stop()
        self.assertEqual(self.rows("a.sg.json"), ["b.sg.json"])
        self.assertEqual(len(self.sessions), 2)
        self.assertTrue(any("signal 9" in said for said in self.said), self.said)

    def test_navd_ends_again_and_again(self) -> None:
        self.keeper.put("a.sg.json", graph("a"))
        minutes = mock.patch.object(keepers, "SECONDS_OF_ENDS", 86_400.0)  # however long the ends take here
        with minutes, mock.patch.object(Session, "request", autospec=True) as request:
            request.side_effect = lambda session, _: (session.stop(), Session._reply(session))[1]
            for _ in range(3):
                with self.assertRaises(Refused):
                    self.keeper.commit()
        self.assertEqual(len(self.sessions), 3)
        with self.assertRaisesRegex(Refused, "3 times"):
            self.keeper.commit()
        self.keeper._ends.clear()
        self.assertEqual(self.keeper.commit(), 1)

    def test_users_see_their_files_alone(self) -> None:
        self.keeper.view("one", "1")
        self.keeper.put("1/a.sg.json", graph("a", "b"))
        self.keeper.put("1/b.sg.json", graph("b"))
        self.keeper.put("2/b.sg.json", graph("b"))
        self.assertEqual(self.rows("1/a.sg.json"), ["1/b.sg.json", "2/b.sg.json"])
        self.assertEqual(self.rows("1/a.sg.json", "one"), ["1/b.sg.json"])
        self.assertEqual(self.rows("2/b.sg.json", "one"), "no_file")
        self.keeper.view("two", "2")
        self.sessions[-1].stop()
        self.assertEqual(self.rows("1/a.sg.json", "one"), ["1/b.sg.json"])
        self.keeper.put("1/b.sg.json", None)
        self.assertEqual(self.rows("1/a.sg.json", "one"), [])


if __name__ == "__main__":
    unittest.main()
