"""Tests of sessions: with a stand-in that answers what it is asked, and with navd where there is one."""

import os
import shutil
import socket
import stat
import sys
import tempfile
import threading
import unittest
from typing import Any, Dict, Iterator, List
from unittest import mock

from navd_py import session as sessions
from navd_py.session import NoConnection, NoProgram, Session, SessionEnded, TooLong, find_program

from servers import SECONDS

HERE = os.path.dirname(os.path.abspath(__file__))
NAVD = os.environ.get("NAVD") or shutil.which("navd")


class FakeProgram(unittest.TestCase):
    """Tests with a program that stands in for navd."""

    def setUp(self) -> None:
        self.folder = tempfile.TemporaryDirectory(prefix="navd-session-")
        self.addCleanup(self.folder.cleanup)
        self.program = os.path.join(self.folder.name, "navd")
        with open(self.program, "w", encoding="utf-8") as file:
            file.write(f'#!/bin/sh\nexec "{sys.executable}" "{os.path.join(HERE, "fake_navd.py")}" "$@"\n')
        os.chmod(self.program, stat.S_IRWXU)

    def session(self, fake: str = "") -> Session:
        with mock.patch.dict(os.environ, {"NAVD_FAKE": fake}):
            session = Session(self.program)
        self.addCleanup(session.close)
        return session


class Requests(FakeProgram):
    def test_a_request_has_its_reply(self) -> None:
        with self.session() as session:
            self.assertEqual(session.request({"do": "pin"}), {"echo": {"do": "pin"}})
            self.assertEqual(session.request({"text": "é😀"}), {"echo": {"text": "é😀"}})
            self.assertEqual(session.lines, 2)
            self.assertTrue(session.alive)
        self.assertFalse(session.alive)
        with self.assertRaises(SessionEnded):
            session.request({"do": "pin"})

    def test_who_calls_is_asked_by_a_node_or_a_place(self) -> None:
        with self.session() as session:
            by_node = {"do": "callers", "path": "a.py", "node": 7}
            self.assertEqual(session.callers("a.py", 7), {"echo": by_node})
            by_place = {"do": "callers", "path": "a.py", "line": 0, "column": 4}
            self.assertEqual(session.callers("a.py", (0, 4)), {"echo": by_place})

    def test_half_of_a_pair_is_sent_as_an_escape(self) -> None:
        with self.session() as session:
            self.assertEqual(session.request({"text": "\ud800"}), {"echo": {"text": "\ud800"}})

    def test_a_program_that_ends_is_told_with_its_reason(self) -> None:
        session = self.session("end:1")
        session.request({})
        with self.assertRaises(SessionEnded) as caught:
            session.request({})
        self.assertEqual(caught.exception.status, 5)
        self.assertIn("memory was refused", caught.exception.errors)
        self.assertIn("memory was refused", str(caught.exception))
        self.assertFalse(session.alive)
        with self.assertRaises(SessionEnded):
            session.request({})

    def test_what_is_no_reply_ends_the_session(self) -> None:
        session = self.session("noise:0")
        with self.assertRaises(SessionEnded) as caught:
            session.request({})
        self.assertIn("no reply", str(caught.exception))

    def test_a_request_too_long_is_not_sent(self) -> None:
        with self.session() as session, mock.patch.object(sessions, "LONGEST_LINE", 100):
            with self.assertRaises(TooLong):
                session.request({"text": "x" * 100})
            self.assertEqual(session.request({"a": 1}), {"echo": {"a": 1}})

    def test_a_session_is_stopped_from_another_thread(self) -> None:
        session = self.session()
        session.request({})
        session.stop()
        with self.assertRaises(SessionEnded) as caught:
            session.request({})
        self.assertLess(caught.exception.status or 0, 0)


class Pipelines(FakeProgram):
    def test_replies_come_in_order_past_full_pipes(self) -> None:
        session = self.session("wide:2000")
        requests = [{"n": n, "text": "y" * 2000} for n in range(1000)]
        replies = [reply["echo"]["n"] for reply in session.pipeline(iter(requests))]
        self.assertEqual(replies, list(range(1000)))
        self.assertEqual(session.lines, 1000)

    def test_none_is_none(self) -> None:
        self.assertEqual(list(self.session().pipeline([])), [])

    def test_what_is_not_taken_is_passed_over(self) -> None:
        session = self.session("wide:2000")
        replies = session.pipeline({"n": n, "text": "y" * 2000} for n in range(5000))
        self.assertEqual(next(replies)["echo"]["n"], 0)
        replies.close()
        self.assertLess(session.lines, 5000)
        self.assertEqual(session.request({"n": "behind"})["echo"], {"n": "behind"})

    def test_a_failure_of_the_requests_comes_behind_the_replies(self) -> None:
        def requests() -> Iterator[Dict[str, Any]]:
            yield {"n": 1}
            raise OSError("a file has vanished")

        session = self.session()
        replies = session.pipeline(requests())
        self.assertEqual(next(replies)["echo"], {"n": 1})
        with self.assertRaisesRegex(OSError, "vanished"):
            next(replies)
        self.assertEqual(session.request({"n": 2})["echo"], {"n": 2})

    def test_a_program_that_ends_within(self) -> None:
        session = self.session("end:10")
        seen: List[Any] = []
        with self.assertRaises(SessionEnded) as caught:
            for reply in session.pipeline({"n": n, "text": "y" * 5000} for n in range(2000)):
                seen.append(reply["echo"]["n"])
        self.assertEqual(seen, list(range(10)))
        self.assertEqual(caught.exception.status, 5)

    def test_no_request_within_a_pipeline_of_the_same_thread(self) -> None:
        session = self.session()
        replies = session.pipeline([{"n": 1}, {"n": 2}])
        next(replies)
        with self.assertRaises(RuntimeError):
            session.request({})
        self.assertEqual([reply["echo"]["n"] for reply in replies], [2])

    def test_threads_take_turns(self) -> None:
        session = self.session()
        wrong: List[Any] = []

        def ask(name: int) -> None:
            for n in range(50):
                if session.request({"n": [name, n]})["echo"] != {"n": [name, n]}:
                    wrong.append((name, n))
            replies = [reply["echo"]["n"] for reply in session.pipeline({"n": [name, n]} for n in range(50))]
            if replies != [[name, n] for n in range(50)]:
                wrong.append(name)

        threads = [threading.Thread(target=ask, args=(name,)) for name in range(4)]
        for thread in threads:
            thread.start()
        for thread in threads:
            thread.join()
        self.assertEqual(wrong, [])


class Programs(unittest.TestCase):
    def test_where_there_is_none_it_is_said(self) -> None:
        with mock.patch.dict(os.environ, {"NAVD": "", "PATH": ""}):
            with self.assertRaisesRegex(NoProgram, "--navd"):
                find_program()
        with self.assertRaisesRegex(NoProgram, "/nowhere/navd"):
            Session("/nowhere/navd")
        with mock.patch.dict(os.environ, {"NAVD": "/nowhere/else"}):
            with self.assertRaisesRegex(NoProgram, "environment variable NAVD"):
                find_program()

    def test_what_is_given_comes_first(self) -> None:
        with mock.patch.dict(os.environ, {"NAVD": "/nowhere/else"}):
            self.assertEqual(find_program(sys.executable), os.path.abspath(sys.executable))
        with mock.patch.dict(os.environ, {"NAVD": sys.executable}):
            self.assertEqual(find_program(), os.path.abspath(sys.executable))

    def test_a_file_that_is_no_program(self) -> None:
        with self.assertRaises(NoProgram):
            Session(__file__)


class Connections(unittest.TestCase):
    def test_nobody_listens(self) -> None:
        with socket.socket() as taken:
            taken.bind(("127.0.0.1", 0))
            with self.assertRaisesRegex(NoConnection, str(taken.getsockname()[1])):
                Session.connect(taken.getsockname()[1])
        with self.assertRaises(NoConnection):
            Session.connect(70_000)

    def test_a_connection_that_ends(self) -> None:
        with socket.socket() as listener:
            listener.bind(("127.0.0.1", 0))
            listener.listen(1)

            def answer_once() -> None:
                client, _ = listener.accept()
                with client, client.makefile("rb") as lines:
                    client.sendall(b'{"version":0}\n' if lines.readline() else b"")

            thread = threading.Thread(target=answer_once)
            thread.start()
            with Session.connect(listener.getsockname()[1]) as session:
                self.assertEqual(session.request({"do": "hello", "user": "operator"}), {"version": 0})
                with self.assertRaisesRegex(SessionEnded, "connection"):
                    session.request({"do": "pin"})
            thread.join()


@unittest.skipUnless(NAVD, "there is no navd: the environment variable NAVD names one")
class RealProgram(unittest.TestCase):
    def test_a_module_is_committed_and_asked(self) -> None:
        with Session(NAVD) as session:
            self.assertEqual(session.request({"do": "hello", "user": "operator"}), {"version": 0})
            edits = [{"put": "main.py", "text": "x = 1\nx"}]
            self.assertEqual(session.request({"do": "commit", "edits": edits}), {"version": 1})
            question = {"do": "define", "path": "main.py", "line": 1, "column": 0}
            replies = list(session.pipeline([question] * 5000))
            self.assertEqual(len(replies), 5000)
            self.assertEqual({tuple(reply["rows"][0]["span"]) for reply in replies}, {(0, 0, 0, 1)})

    def test_callers_answers_where_references_is_crowded(self) -> None:
        loop = "node = 1\nwhile node:\n    node = node.left\n    node = node.right\n"
        with Session(NAVD) as session:
            session.request({"do": "hello", "user": "operator"})
            if session.callers("a.py", 0) == {"error": "bad_request", "field": "do"}:
                self.skipTest("this navd doesn't know `callers`")
            edits = [{"put": "list.py", "text": loop}, {"put": "main.py", "text": "size = 1\nsize\n"}]
            self.assertEqual(session.request({"do": "commit", "edits": edits}), {"version": 1})
            question = {"do": "references", "path": "main.py", "line": 0, "column": 1}
            self.assertEqual(session.request(question), {"error": "crowded"})
            reply = session.callers("main.py", (0, 1))
            self.assertEqual([row["span"] for row in reply["rows"]], [[1, 0, 1, 4]])
            self.assertEqual(list(reply), ["rows"])
            self.assertEqual(session.callers("list.py", (0, 1)), {"error": "crowded"})
            self.assertEqual(session.callers("main.py", (1, 0)), {"error": "no_definition"})

    def test_it_ends_by_itself_with_the_session(self) -> None:
        session = Session(NAVD)
        session.request({"do": "hello", "user": "operator"})
        with mock.patch.object(sessions, "SECONDS_TO_END", SECONDS):  # however long it takes, nobody kills it
            session.close()
        self.assertEqual(session._other.process.returncode, 0)
        session.close()


if __name__ == "__main__":
    unittest.main()
