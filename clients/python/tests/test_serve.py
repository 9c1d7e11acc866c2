"""Tests of what keeps a `navd serve` at a folder, with a stand-in for the translator; with navd, where there is one."""

import contextlib
import io
import os
import shutil
import signal
import socket
import sys
import tempfile
import threading
import time
import unittest
from typing import Any, List
from unittest import mock

from navd_py import serve
from navd_py.keeper import Keeper, Refused
from navd_py.serve import Mirror, OwnServer, keep_up, sleeper
from navd_py.session import NoConnection, NoProgram, Session, SessionEnded
from navd_py.watch import FolderWatch

from servers import SECONDS, NavdServe, Process, dead_port, ports
from stand_in import StandIn

NAVD = os.environ.get("NAVD") or shutil.which("navd")
# What is said where a server that is started can't have its port: another one is to be tried.
TAKEN = ("ended with status 8", "is in use")


class InFolder(unittest.TestCase):
    def setUp(self) -> None:
        folder = tempfile.TemporaryDirectory(prefix="navd-serve-")
        self.addCleanup(folder.cleanup)
        self.folder = folder.name
        self.said: List[str] = []

    def write(self, path: str, text: str) -> None:
        place = os.path.join(self.folder, path)
        os.makedirs(os.path.dirname(place), exist_ok=True)
        with open(place + ".new", "w", encoding="utf-8") as file:
            file.write(text)
        os.replace(place + ".new", place)  # at once: nobody sees a part of it, and another file has another number

    def has_said(self, part: str) -> bool:
        return any(part in said for said in self.said)


class Watching(InFolder):
    def test_files_come_change_and_go(self) -> None:
        self.write("a.py", "a")
        self.write("b.py", "b")
        watch = FolderWatch(self.folder, StandIn(self.folder).scan)
        self.assertEqual(watch.changes(), [])
        self.write("a.py", "longer")
        self.write("c/d.py", "new")
        os.remove(os.path.join(self.folder, "b.py"))
        self.assertEqual(watch.changes(), [("a.py", True), ("b.py", False), ("c/d.py", True)])
        self.assertEqual(watch.changes(), [])

    def test_the_same_size_at_another_time(self) -> None:
        self.write("a.py", "1")
        watch = FolderWatch(self.folder, StandIn(self.folder).scan)
        os.utime(os.path.join(self.folder, "a.py"), ns=(1, 1))
        self.assertEqual(watch.changes(), [("a.py", True)])

    def test_a_link_that_leads_nowhere(self) -> None:
        os.symlink("nowhere.py", os.path.join(self.folder, "link.py"))
        self.assertEqual(FolderWatch(self.folder, StandIn(self.folder).scan).changes(), [])


class KeepingUp(unittest.TestCase):
    def test_longer_and_longer_pauses(self) -> None:
        failures: List[Exception] = [NoConnection("one"), Refused("two"), NoProgram("three")]
        failures += [NoConnection("more")] * 6
        pauses: List[float] = []
        said: List[str] = []

        def action() -> None:
            if failures:
                raise failures.pop(0)

        keep_up(action, said.append, pauses.append)
        self.assertEqual(pauses, [0.5, 1, 2, 4, 8, 16, 30, 30, 30])
        self.assertEqual(said[0], "one; again in 0.5 s")


class Sleeping(unittest.TestCase):
    def test_a_signal_that_came_before_ends_the_sleep(self) -> None:
        """Nothing is waiting when the signal comes, as in the gap between a step of Python and the wait itself."""
        seen: List[int] = []
        before = signal.signal(signal.SIGTERM, lambda number, _: seen.append(number))
        self.addCleanup(signal.signal, signal.SIGTERM, before)
        start = time.monotonic()
        with sleeper() as sleep:
            signal.raise_signal(signal.SIGTERM)
            sleep(10 * SECONDS)
            another = threading.Thread(target=signal.pthread_kill, args=(threading.get_ident(), signal.SIGTERM))
            another.start()
            sleep(10 * SECONDS)
            another.join()
            sleep(0)
        self.assertLess(time.monotonic() - start, 10 * SECONDS)
        self.assertEqual(seen, [signal.SIGTERM] * 2)

    def test_it_sleeps(self) -> None:
        start = time.monotonic()
        with sleeper() as sleep:
            sleep(0.05)
        self.assertGreaterEqual(time.monotonic() - start, 0.04)


class Words(InFolder):
    def run_main(self, *words: str) -> "tuple[int, str]":
        errors = io.StringIO()
        with contextlib.redirect_stderr(errors), mock.patch("signal.signal"):
            try:
                status = serve.main(words)
            except SystemExit as end:
                status = int(end.code or 0)
        return status, errors.getvalue()

    def test_words_that_are_wrong(self) -> None:
        without: List[List[str]] = [[], [self.folder]]
        for words in [
            *without,
            *([self.folder, "--port", *more] for more in (["x"], ["70000"], ["1", "--every", "0"])),
        ]:
            status, told = self.run_main(*words)
            self.assertEqual(status, 2, words)
            self.assertIn("usage:", told)

    def test_no_folder_and_no_server(self) -> None:
        status, told = self.run_main("/nowhere/at/all", "--port", "4711")
        self.assertEqual((status, told), (1, "navd-py: /nowhere/at/all is no folder\n"))
        with dead_port() as port:
            status, told = self.run_main(self.folder, "--port", str(port))
            self.assertEqual(status, 1)
            self.assertIn(f"nobody answers at port {port}", told)
            status, told = self.run_main(self.folder, "--port", str(port), "--start", "--navd", "/nowhere/navd")
        self.assertEqual(status, 1)
        self.assertIn("/nowhere/navd", told)

    @unittest.skipUnless(NAVD, "there is no navd: the environment variable NAVD names one")
    def test_once_with_a_server_of_its_own(self) -> None:
        self.write("a.py", "x = 1\nx\n")
        for port in ports():
            with mock.patch("navd_py.serve.Project", StandIn):
                words = [self.folder, "--port", str(port), "--start", "--once", "--navd", str(NAVD)]
                status, told = self.run_main(*words)
            if not any(part in told for part in TAKEN):
                break
        self.assertEqual(status, 0, told)
        self.assertIn(f"navd: listening at 127.0.0.1:{port}", told)
        self.assertIn("1 graphs committed, version 1", told)


@unittest.skipUnless(NAVD, "there is no navd: the environment variable NAVD names one")
class Mirrors(InFolder):
    def setUp(self) -> None:
        super().setUp()
        self.start_server()
        self.project = StandIn(self.folder)
        self.sessions: List[Session] = []
        self.keeper = Keeper(self.connect, is_shared=True, say=self.said.append)
        self.addCleanup(self.keeper.close)

    def start_server(self) -> None:
        self.server = NavdServe(str(NAVD))
        self.addCleanup(self.server.end)
        self.port = self.server.port

    def connect(self) -> Session:
        self.sessions.append(Session.connect(self.port))
        return self.sessions[-1]

    def mirror(self, prefix: str = "") -> Mirror:
        mirror = Mirror(self.project, self.folder, self.keeper, prefix, self.said.append)
        mirror.load()
        return mirror

    def rows(self, path: str, line: int = 0) -> Any:
        """What another client is told."""
        with Session.connect(self.port) as session:
            session.request({"do": "hello", "user": "operator"})
            reply = session.request({"do": "define", "path": path, "line": line, "column": 0})
        return [(row["path"], row["span"][0]) for row in reply["rows"]] if "rows" in reply else reply["error"]

    def test_the_folder_is_followed(self) -> None:
        self.write("main.py", "x\n")
        self.write("pkg/tools.py", "x = 1\n")
        mirror = self.mirror()
        self.assertEqual(self.rows("main.py.sg.json"), [("pkg/tools.py.sg.json", 0)])
        self.write("pkg/tools.py", "\n\nx = 12\n")
        self.write("more.py", "x\n")
        mirror.follow()
        self.assertEqual(self.rows("more.py.sg.json"), [("pkg/tools.py.sg.json", 2)])
        version = self.keeper.version
        mirror.follow()
        self.assertEqual(self.keeper.version, version)
        os.remove(os.path.join(self.folder, "pkg", "tools.py"))
        mirror.follow()
        self.assertEqual(self.rows("more.py.sg.json"), [])
        self.assertEqual(self.rows("pkg/tools.py.sg.json"), "no_file")

    def test_a_broken_text_keeps_its_graph(self) -> None:
        self.write("main.py", "x\n")
        self.write("tools.py", "x = 1\n")
        mirror = self.mirror()
        self.write("tools.py", "def (\n\nx = 1\n")
        mirror.follow()
        self.assertEqual(self.rows("main.py.sg.json"), [("tools.py.sg.json", 2)])
        self.assertTrue(self.has_said("tools.py: its last graph goes on: line 1"), self.said)
        self.write("tools.py", "\n\n\nx = 1\n")
        mirror.follow()
        self.assertEqual(self.rows("main.py.sg.json"), [("tools.py.sg.json", 3)])
        self.assertTrue(self.has_said("tools.py: taken again"), self.said)

    def test_what_is_left_out_is_told_once(self) -> None:
        self.write("broken.py", "def (\n")
        self.write("refused.py", "# refuse me\n")
        mirror = self.mirror()
        mirror.follow()
        told = [said for said in self.said if said.startswith("left out")]
        self.assertEqual([said.split(":")[0] for said in told], ["left out broken.py", "left out refused.py"])
        os.remove(os.path.join(self.folder, "broken.py"))
        mirror.follow()
        self.assertTrue(self.has_said("broken.py: gone"))

    def test_a_prefix(self) -> None:
        self.write("main.py", "x = 1\nx\n")
        self.mirror("project/one")
        self.assertEqual(self.rows("project/one/main.py.sg.json", 1), [("project/one/main.py.sg.json", 0)])

    def test_a_lost_connection(self) -> None:
        self.write("main.py", "x = 1\nx\n")
        mirror = self.mirror()
        version = self.keeper.version
        self.sessions[-1].stop()
        mirror.follow()
        self.assertEqual(len(self.sessions), 2)
        self.assertEqual(self.keeper.version, version)  # nothing was to be committed again

    def test_others_have_committed_meanwhile(self) -> None:
        self.write("main.py", "x = 1\nx\n")
        mirror = self.mirror()
        with Session.connect(self.port) as session:
            session.request({"do": "hello", "user": "operator"})
            session.request({"do": "commit", "edits": [{"remove": "main.py.sg.json"}]})
        self.assertEqual(self.rows("main.py.sg.json", 1), "no_file")
        self.sessions[-1].stop()
        mirror.follow()
        self.assertEqual(self.rows("main.py.sg.json", 1), [("main.py.sg.json", 0)])

    def test_another_server(self) -> None:
        self.write("main.py", "x = 1\nx\n")
        mirror = self.mirror()
        self.server.end()
        with dead_port() as self.port, self.assertRaises(NoConnection):
            mirror.follow()
        self.start_server()
        mirror.follow()
        self.assertEqual(self.rows("main.py.sg.json", 1), [("main.py.sg.json", 0)])


@unittest.skipUnless(NAVD, "there is no navd: the environment variable NAVD names one")
class Translator(InFolder):
    """With the translator itself, as a user starts it."""

    def test_a_project(self) -> None:
        self.write("pkg/__init__.py", "")
        self.write("pkg/tools.py", "class Box:\n    def size(self):\n        return 1\n")
        self.write("main.py", "from pkg.tools import Box as B\nb = B()\nb.size()\n")
        keeper, port = self.started()
        question = {"do": "define", "path": "main.py.sg.json", "line": 2, "column": 2}
        read = keeper.errors.wait_for("read 3 files in")
        with Session.connect(port) as session:
            session.request({"do": "hello", "user": "operator"})
            found = session.request(question)["rows"]
            self.assertEqual([(row["path"], row["span"]) for row in found], [("pkg/tools.py.sg.json", [1, 8, 1, 12])])
            self.write("pkg/tools.py", "# more\nclass Box:\n    def size(self):\n        return 1\n")
            keeper.errors.wait_for("1 files changed", read)
            session.request({"do": "pin"})
            self.assertEqual(session.request(question)["rows"][0]["span"], [2, 8, 2, 12])
            keeper.process.terminate()
            self.assertEqual(keeper.status(), 0)
            with self.assertRaises(SessionEnded):  # the server has ended with what started it
                session.request({"do": "pin"})

    def started(self) -> "tuple[Process, int]":
        """A `navd-py serve` with a server of its own, and the port that this has got."""
        clients = os.path.dirname(os.path.dirname(os.path.abspath(serve.__file__)))
        for port in ports():
            words = [self.folder, "--port", str(port), "--start", "--navd", str(NAVD), "--no-cache", "--every", "0.1"]
            keeper = Process([sys.executable, "-m", "navd_py", "serve", *words], {"PYTHONPATH": clients})
            self.addCleanup(keeper.end)
            if keeper.errors.find("navd: listening at ") is not None:
                return keeper, port
            said = "\n".join(keeper.errors.seen)
            self.assertTrue(any(part in said for part in TAKEN), said)
        raise AssertionError("not reached")


@unittest.skipUnless(NAVD, "there is no navd: the environment variable NAVD names one")
class OwnServers(unittest.TestCase):
    def test_it_is_started_and_ended(self) -> None:
        said: List[str] = []
        with contextlib.redirect_stderr(io.StringIO()):
            server, port = self.started(said)
            server.ensure()
            self.assertEqual(len(said), 1)
            with Session.connect(port) as session:
                self.assertEqual(session.request({"do": "hello", "user": "operator"}), {"version": 0})
                server.end()
                with self.assertRaises(SessionEnded):
                    session.request({"do": "pin"})

    def started(self, said: List[str]) -> "tuple[OwnServer, int]":
        for port in ports():
            server = OwnServer(NAVD, port, 2, 10, said.append)
            self.addCleanup(server.end)
            try:
                server.ensure()
                return server, port
            except NoProgram as failure:
                if not any(part in str(failure) for part in TAKEN):
                    raise
        raise AssertionError("not reached")

    def test_a_port_in_use(self) -> None:
        with socket.socket() as taken:
            taken.bind(("127.0.0.1", 0))
            taken.listen(1)
            port = taken.getsockname()[1]
            server = OwnServer(NAVD, port, 2, 10, lambda _: None)
            self.addCleanup(server.end)
            with self.assertRaisesRegex(NoProgram, f"port {port} is in use"):
                server.ensure()

    def test_words_that_navd_refuses(self) -> None:
        with dead_port() as port, contextlib.redirect_stderr(io.StringIO()) as told:
            with self.assertRaisesRegex(NoProgram, "status 2"):
                OwnServer(NAVD, port, 99, 10, lambda _: None).ensure()
        self.assertIn("usage", told.getvalue())


if __name__ == "__main__":
    unittest.main()
