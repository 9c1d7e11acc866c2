"""Tests of the language server, over pipes, with a stand-in for the translator and with navd, where there is one."""

import contextlib
import ctypes
import os
import shutil
import signal
import tempfile
import threading
import time
import unittest
from typing import Any, Dict, Iterator, List, Optional, Sequence, Set
from unittest import mock

from navd_py.keeper import Keeper
from navd_py.lsp.background import Loading
from navd_py.lsp.documents import Document
from navd_py.lsp.folder import Folder
from navd_py.lsp.frames import BadFrame, Message, frame, read_messages
from navd_py.lsp.inbox import Inbox
from navd_py.lsp.places import character_of, column_of, word_at
from navd_py.lsp.protocol import InvalidParams
from navd_py.lsp.server import Options, Server
from navd_py.lsp.uris import path_of, uri_below, uri_of
from navd_py.project import Definition
from navd_py.session import Session

from lsp_client import Editor, ServerProcess, ServerThread, shown
from servers import SECONDS, patient
from stand_in import StandIn

NAVD = os.environ.get("NAVD") or shutil.which("navd")
NEEDS_NAVD = unittest.skipUnless(NAVD, "there is no navd: the environment variable NAVD names one")


@contextlib.contextmanager
def held_reading() -> Iterator[threading.Event]:
    """No folder is read on before the event is set. The server answers meanwhile."""
    go_on = threading.Event()
    step = Loading.step

    def held(loading: Loading) -> bool:
        if go_on.is_set():
            return step(loading)
        time.sleep(0.001)
        return True

    with mock.patch.object(Loading, "step", held):
        try:
            yield go_on
        finally:
            go_on.set()


def messages(data: bytes, piece: int = 7) -> List[Any]:
    """What is read of a stream that comes in pieces."""
    pieces = [data[start : start + piece] for start in range(0, len(data), piece)]
    return list(read_messages(lambda size: pieces.pop(0) if pieces else b""))


class Frames(unittest.TestCase):
    def test_messages_of_any_pieces(self) -> None:
        data = frame({"a": "é😀"}) + frame([1]) + b"content-length:2\r\nContent-Type: x\n\n{}"
        for piece in (1, 2, 3, 50, 1000):
            self.assertEqual(messages(data, piece), [Message({"a": "é😀"}), Message([1]), Message({})])

    def test_it_goes_on_behind_what_is_wrong(self) -> None:
        good = frame({"good": 1})
        bodies = (b"Content-Length: 3\r\n\r\n{\xff}", b"Content-Length: 1\r\n\r\n{")
        for bad in (*bodies, b"{nonsense}\r\n\r\n", b"x" * 9000 + b"\n"):
            read = messages(bad + good)
            self.assertIsInstance(read[0], BadFrame, bad)
            self.assertEqual(read[1:], [Message({"good": 1})], bad)

    def test_deep_and_large_bodies(self) -> None:
        deep = b"[" * 200_000
        read = messages(b"Content-Length: %d\r\n\r\n" % len(deep) + deep + frame(1), 65_536)
        self.assertIsInstance(read[0], BadFrame)
        self.assertEqual(read[1:], [Message(1)])
        with mock.patch("navd_py.lsp.frames.LONGEST_BODY", 10):
            read = messages(frame("x" * 50) + frame(1))
        self.assertIsInstance(read[0], BadFrame)
        self.assertEqual(read[1:], [Message(1)])

    def test_the_end_within(self) -> None:
        self.assertEqual(messages(b""), [])
        for cut in (b"Content-Length: 5\r\n\r\n{}", b"Content-Length: 5\r\n"):
            self.assertIsInstance(messages(cut)[0], BadFrame)

    def test_half_of_a_pair(self) -> None:
        self.assertEqual(messages(frame("\ud800")), [Message("\ud800")])


class Places(unittest.TestCase):
    LINE = "aé😀b"

    def test_columns(self) -> None:
        found = [column_of(self.LINE, character, "utf-16") for character in range(7)]
        self.assertEqual(found, [0, 1, 3, 3, 7, 8, 8])
        self.assertEqual([column_of(self.LINE, character, "utf-32") for character in range(6)], [0, 1, 3, 7, 8, 8])
        found = [column_of(self.LINE, character, "utf-8") for character in (0, 1, 3, 7, 8, 9)]
        self.assertEqual(found, [0, 1, 3, 7, 8, 8])

    def test_characters(self) -> None:
        found = [character_of(self.LINE, column, "utf-16") for column in range(10)]
        self.assertEqual(found, [0, 1, 1, 2, 2, 2, 2, 4, 5, 5])
        self.assertEqual(character_of("plain", 3, "utf-16"), 3)

    def test_names(self) -> None:
        self.assertEqual(word_at("a.größe(b)", 4), (2, 7))
        self.assertEqual(word_at("a.größe(b)", 7), (2, 7))
        self.assertEqual(word_at("( )", 2), (2, 2))
        self.assertEqual(word_at("x_1", 9), (0, 3))

    def test_uris(self) -> None:
        path = "/a folder/é%/m+1.py"
        self.assertEqual(path_of(uri_of(path)), path)
        self.assertEqual(uri_of("/a b"), "file:///a%20b")
        self.assertEqual(uri_below("file:///a%20b/", "é.py"), "file:///a%20b/%C3%A9.py")
        self.assertIsNone(path_of("untitled:Untitled-1"))
        self.assertIsNone(path_of("file://other/a.py"))
        self.assertIsNone(path_of("file:///a%00.py"))


class Documents(unittest.TestCase):
    def changed(self, text: str, *changes: Any) -> str:
        document = Document("file:///x.py", text)
        document.change(list(changes), "utf-16")
        return document.text

    @staticmethod
    def edit(start_line: int, start: int, end_line: int, end: int, text: str) -> Dict[str, Any]:
        places = {"start": {"line": start_line, "character": start}, "end": {"line": end_line, "character": end}}
        return {"range": places, "text": text}

    def test_changes(self) -> None:
        self.assertEqual(self.changed("a\nb\nc", self.edit(1, 0, 1, 1, "xy")), "a\nxy\nc")
        self.assertEqual(self.changed("a\r\nb\rc", self.edit(1, 1, 2, 0, "")), "a\r\nbc")
        self.assertEqual(self.changed("é😀z\n", self.edit(0, 3, 0, 4, "!")), "é😀!\n")
        self.assertEqual(self.changed("a", self.edit(5, 0, 9, 0, "\nb")), "a\nb")
        self.assertEqual(self.changed("ab\nc", self.edit(0, 9, 0, 9, "!")), "ab!\nc")
        self.assertEqual(self.changed("a", {"text": "b"}, self.edit(0, 1, 0, 1, "c")), "bc")

    def test_changes_that_are_none(self) -> None:
        for bad in ([{}], [{"text": 1}], [{"text": "", "range": {"start": 1}}], [self.edit(-1, 0, 0, 0, "")], [3]):
            with self.assertRaises(InvalidParams):
                self.changed("a", *bad)


class ServerTest(unittest.TestCase):
    """Tests with a server in a thread, in a temporary folder."""

    def setUp(self) -> None:
        folder = tempfile.TemporaryDirectory(prefix="navd-lsp-")
        self.addCleanup(folder.cleanup)
        self.folder = os.path.realpath(folder.name)
        patched = mock.patch("navd_py.lsp.server.Project", StandIn)
        patched.start()
        self.addCleanup(patched.stop)
        patient(self)

    def write(self, path: str, text: str) -> str:
        place = os.path.join(self.folder, path)
        os.makedirs(os.path.dirname(place), exist_ok=True)
        with open(place + ".new", "w", encoding="utf-8", newline="") as file:
            file.write(text)
        os.replace(place + ".new", place)  # at once: nobody sees a part of it
        return place

    def start(self, program: Optional[str] = NAVD) -> Editor:
        self.server = ServerThread(Options(program=program))
        self.addCleanup(self.server.close)
        return Editor(self.server)


class Protocol(ServerTest):
    """What needs no navd."""

    def test_the_life_of_a_server(self) -> None:
        editor = self.start("/nowhere/navd")
        self.assertEqual(editor.error("textDocument/definition", {})["code"], -32002)
        editor.notify("textDocument/didOpen", {})
        result = editor.initialize([])
        self.assertEqual(result["capabilities"]["positionEncoding"], "utf-16")
        self.assertEqual(result["serverInfo"]["name"], "navd-py")
        self.assertEqual(editor.error("initialize", {})["code"], -32600)
        self.assertEqual(editor.error("textDocument/hover", {})["code"], -32601)
        self.assertEqual(editor.error("textDocument/definition", {})["code"], -32602)
        self.assertEqual(editor.error("textDocument/definition", [])["code"], -32602)
        editor.notify("$/setTrace", {"value": "off"})
        editor.notify("textDocument/didChange", {"textDocument": {}})
        self.assertIsNone(editor.ask("shutdown", None))
        self.assertEqual(editor.error("textDocument/definition", {})["code"], -32600)
        editor.notify("exit", None)
        self.assertEqual(self.server.wait(), 0)

    def test_it_is_left_without_shutdown(self) -> None:
        editor = self.start("/nowhere/navd")
        editor.initialize([])
        editor.notify("exit", None)
        self.assertEqual(self.server.wait(), 1)

    def test_its_input_ends(self) -> None:
        editor = self.start("/nowhere/navd")
        editor.initialize([])
        self.server.end_input()
        self.assertEqual(self.server.wait(), 1)

    def test_messages_that_are_none(self) -> None:
        editor = self.start("/nowhere/navd")
        self.server.write(b"Content-Length: 2\r\n\r\n{]")
        for bad in (frame(3), frame([]), frame({"id": 1}), frame({"method": 1}), b"what\n\n"):
            self.server.write(bad)
        editor.wait_for("six errors", lambda: len(editor.orphans) == 6)
        codes = [one["error"]["code"] for one in editor.orphans]
        self.assertEqual(codes, [-32700, -32600, -32600, -32600, -32600, -32700])
        self.server.write(frame({"id": {}, "method": "initialize"}) + frame({"id": 7, "result": 1}))
        editor.wait_for("a seventh error", lambda: len(editor.orphans) == 7)
        editor.initialize([])
        self.assertEqual(editor.leave(), 0)

    def test_no_navd(self) -> None:
        path = self.write("a.py", "x = 1\n")
        editor = self.start("/nowhere/navd")
        editor.initialize([self.folder])
        uri = editor.open(path)
        editor.wait_for_message("/nowhere/navd")
        place = {"textDocument": {"uri": uri}, "position": {"line": 0, "character": 0}}
        error = editor.error("textDocument/definition", place)
        self.assertEqual(error["code"], -32803)
        self.assertIn("/nowhere/navd", error["message"])
        self.assertEqual([one["name"] for one in editor.ask("textDocument/documentSymbol", place)], ["x"])
        self.assertEqual(len(editor.messages()), 1)
        self.assertEqual(editor.leave(), 0)

    def test_nobody_reads_the_answers(self) -> None:
        source, sink = os.pipe()
        os.close(source)
        data = [frame({"id": 1, "method": "initialize", "params": {}})]
        is_over = threading.Event()

        def read(size: int) -> bytes:
            if data:
                return data.pop()
            is_over.wait(SECONDS)  # the input goes on, so it isn't its end that ends the server
            return b""

        def write(message: bytes) -> None:
            os.write(sink, message)

        start = time.monotonic()
        self.assertEqual(Server(Options(program="/nowhere/navd"), read, write).serve(), 1)
        self.assertLess(time.monotonic() - start, SECONDS)
        is_over.set()
        os.close(sink)

    def test_a_disk_that_fails(self) -> None:
        path = self.write("a.py", "x = 1\n")
        editor = self.start("/nowhere/navd")
        failing = mock.patch.object(StandIn, "scan", side_effect=PermissionError("not for you"))
        with failing, mock.patch("traceback.print_exception"):
            editor.initialize([self.folder])
            uri = editor.open(path)
            editor.wait_for_message("not for you", "window/logMessage")
        symbols = editor.ask("textDocument/documentSymbol", {"textDocument": {"uri": uri}})
        self.assertEqual([one["name"] for one in symbols], ["x"])
        self.assertEqual(editor.leave(), 0)

    def test_documents_of_other_kinds(self) -> None:
        editor = self.start("/nowhere/navd")
        editor.initialize([self.folder])
        uri = editor.open(os.path.join(self.folder, "notes.md"), "# (\n")
        self.assertEqual(editor.ask("textDocument/documentSymbol", {"textDocument": {"uri": uri}}), [])
        editor.notify("textDocument/didClose", {"textDocument": {"uri": uri}})
        self.assertEqual(editor.leave(), 0)
        self.assertIsNone(editor.diagnostics(uri))

    def test_options_that_are_none(self) -> None:
        editor = self.start("/nowhere/navd")
        self.assertEqual(editor.error("initialize", {"capabilities": 3})["code"], -32602)
        self.assertEqual(editor.error("initialize", {"workspaceFolders": [3]})["code"], -32602)


@NEEDS_NAVD
class Questions(ServerTest):
    def begin(self, capabilities: Optional[Dict[str, Any]] = None, **more: Any) -> Editor:
        editor = self.start()
        editor.initialize([self.folder], capabilities, **more)
        return editor

    def test_definitions_in_files_that_are_not_open(self) -> None:
        main = self.write("main.py", "big()\nprint(small)\n")
        self.write("pkg/tools.py", "def big():\n    pass\n\nsmall = 1\n")
        editor = self.begin()
        uri = editor.open(main)
        self.assertEqual(editor.definition(uri, 0, 0), ["tools.py:0:4"])
        self.assertEqual(editor.definition(uri, 0, 3), ["tools.py:0:4"])
        self.assertEqual(editor.definition(uri, 1, 8), ["tools.py:3:0"])
        self.assertEqual(editor.definition(uri, 1, 2), [])
        self.assertEqual(editor.definition(uri, 0, 4), [])
        self.assertEqual(editor.definition(uri, 99, 0), [])
        self.assertEqual(editor.definition(uri_of("/elsewhere.py"), 0, 0), [])

    def test_references(self) -> None:
        main = self.write("main.py", "big()\nbig\n")
        tools = self.write("pkg/tools.py", "def big():\n    pass\nbig\n")
        editor = self.begin()
        uri = editor.open(main)
        there = editor.open(tools)
        uses = ["main.py:0:0", "main.py:1:0", "tools.py:2:0"]
        self.assertEqual(editor.references(uri, 1, 1), uses)
        self.assertEqual(editor.references(there, 0, 5), uses)
        self.assertEqual(editor.references(there, 0, 5, True), uses[:2] + ["tools.py:0:4"] + uses[2:])
        self.assertEqual(editor.definition(there, 0, 5), ["tools.py:0:4"])
        self.assertEqual(editor.references(there, 1, 5), [])

    def test_highlights(self) -> None:
        main = self.write("main.py", "x = 1\nprint(x, y)  # x\ny = x\n")
        editor = self.begin()
        uri = editor.open(main)
        found = editor.at("documentHighlight", uri, 1, 6)
        places = [(one["range"]["start"]["line"], one["range"]["start"]["character"], one["kind"]) for one in found]
        self.assertEqual(places, [(0, 0, 3), (1, 6, 2), (2, 4, 2)])
        self.assertEqual(editor.at("documentHighlight", uri, 1, 0), [])

    def test_units_of_utf_16(self) -> None:
        main = self.write("main.py", "é = '😀'; größe = é\nprint('😀', größe)\n")
        editor = self.begin()
        uri = editor.open(main)
        self.assertEqual(editor.definition(uri, 1, 13), ["main.py:0:10"])
        self.assertEqual(editor.references(uri, 0, 0), ["main.py:0:18"])

    def test_other_units(self) -> None:
        main = self.write("main.py", "é = '😀'; größe = é\nprint('😀', größe)\n")
        for units, character, column in (("utf-8", 14, 13), ("utf-32", 12, 9)):
            editor = self.start()
            result = editor.initialize([self.folder], {"general": {"positionEncodings": ["utf-7", units, "utf-16"]}})
            self.assertEqual(result["capabilities"]["positionEncoding"], units)
            uri = editor.open(main)
            self.assertEqual(editor.definition(uri, 1, character), [f"main.py:0:{column}"])
            self.assertEqual(editor.leave(), 0)

    def test_changes_are_seen_at_once(self) -> None:
        main = self.write("main.py", "x = 1\nx\n")
        editor = self.begin()
        uri = editor.open(main)
        self.assertEqual(editor.definition(uri, 1, 0), ["main.py:0:0"])
        editor.change(uri, "\n\nx = 1\nx\n")
        self.assertEqual(editor.definition(uri, 3, 0), ["main.py:2:0"])
        change = {"range": {"start": {"line": 0, "character": 0}, "end": {"line": 1, "character": 0}}, "text": ""}
        params = {"textDocument": {"uri": uri, "version": 3}, "contentChanges": [change]}
        editor.notify("textDocument/didChange", params)
        self.assertEqual(editor.definition(uri, 2, 0), ["main.py:1:0"])
        editor.notify("textDocument/didClose", {"textDocument": {"uri": uri}})
        self.assertEqual(editor.definition(uri, 1, 0), ["main.py:0:0"])

    def test_broken_texts(self) -> None:
        main = self.write("main.py", "x = 1\ny = 2\nx, y\n")
        editor = self.begin()
        uri = editor.open(main)
        self.assertEqual(editor.definition(uri, 2, 3), ["main.py:1:0"])
        self.assertIn(editor.diagnostics(uri), (None, []))
        editor.change(uri, "x = 1\n\ny = (\nx, y\n")
        self.assertEqual(editor.definition(uri, 3, 0), ["main.py:0:0"])
        self.assertEqual(editor.definition(uri, 3, 3), [])
        told = editor.wait_for_diagnostics(uri)
        self.assertEqual((told[0]["severity"], told[0]["source"]), (1, "navd"))
        symbols = editor.ask("textDocument/documentSymbol", {"textDocument": {"uri": uri}})
        self.assertEqual([one["name"] for one in symbols], ["x"])
        editor.change(uri, "x = 1\n\ny = ()\nx, y\n", 3)
        self.assertEqual(editor.definition(uri, 3, 3), ["main.py:2:0"])
        editor.wait_for("no more diagnostics", lambda: editor.diagnostics(uri) == [])

    def test_files_that_are_left_out(self) -> None:
        refused = self.write("refused.py", "# refuse me\n")
        broken = self.write("broken.py", "x = 1\né = )\n")
        latin = self.write("latin.py", "")
        with open(latin, "wb") as file:
            file.write(b"x = '\xff'\n")
        editor = self.begin()
        told = [editor.wait_for_diagnostics(uri_of(path)) for path in (refused, broken, latin)]
        self.assertEqual([one[0]["severity"] for one in told], [2, 1, 1])
        self.assertIn("left out", told[0][0]["message"])
        self.assertEqual(told[1][0]["range"]["start"]["line"], 1)

    def test_symbols(self) -> None:
        main = self.write("main.py", "class Box:\n    def size(self):\n        pass\n\nlimit = 1\n")
        self.write("other.py", "class Boxer: pass\nrubber_box = 1\n")
        editor = self.begin({"textDocument": {"documentSymbol": {"hierarchicalDocumentSymbolSupport": True}}})
        uri = editor.open(main)
        tree = editor.ask("textDocument/documentSymbol", {"textDocument": {"uri": uri}})
        self.assertEqual([one["name"] for one in tree], ["Box", "size", "limit"])  # the stand-in knows no containers
        self.assertEqual(tree[0]["range"]["end"]["line"], 2)
        found = editor.ask("workspace/symbol", {"query": "BOX"})
        self.assertEqual([one["name"] for one in found], ["Box", "Boxer", "rubber_box"])
        self.assertEqual([one["name"] for one in editor.ask("workspace/symbol", {"query": "rbbr"})], ["rubber_box"])
        self.assertEqual(len(editor.ask("workspace/symbol", {"query": ""})), 5)

    def test_what_is_crowded_is_said(self) -> None:
        main = self.write("main.py", "x = 1\nx\ncrowded\n")
        editor = self.begin()
        uri = editor.open(main)
        place = {"textDocument": {"uri": uri}, "position": {"line": 2, "character": 0}}
        self.assertIn("8,192", editor.error("textDocument/definition", place)["message"])
        place = {"textDocument": {"uri": uri}, "position": {"line": 0, "character": 0}, "context": {}}
        self.assertEqual(shown(editor.ask("textDocument/references", place)), ["main.py:1:0"])

    def test_callers_are_asked_where_navd_has_them(self) -> None:
        """With a navd that answers `callers`, as far as the server sees: they are `references` without a flag."""
        main = self.write("main.py", "x = 1\nx\n")
        other = self.write("other.py", "x = 2\n")
        asked: List[str] = []
        ask = Keeper.ask

        def ask_both(keeper: Keeper, requests: Sequence[Any], user: str = "operator") -> List[Any]:
            asked.extend(request["do"] for request in requests)
            plain = [{**one, "do": "references" if one["do"] == "callers" else one["do"]} for one in requests]
            replies = ask(keeper, plain, user)
            return [{"rows": one["rows"]} if "rows" in one else one for one in replies]

        with mock.patch.object(Keeper, "ask", ask_both):
            editor = self.begin()
            uri = editor.open(main)
            self.assertEqual(editor.references(uri, 1, 0), ["main.py:1:0"])
            self.assertEqual(editor.references(uri, 0, 0, True), ["main.py:0:0", "main.py:1:0"])
            self.assertEqual(editor.references(uri_of(other), 0, 0), ["main.py:1:0"])
        self.assertIn("callers", asked)
        self.assertNotIn("references", asked)

    def test_some_references_are_crowded(self) -> None:
        main = self.write("main.py", "x = 1\nx\n")
        self.write("other.py", "x = 2\n")
        ask = Keeper.ask

        def crowd_one(keeper: Keeper, requests: Sequence[Any], user: str = "operator") -> List[Any]:
            replies = ask(keeper, requests, user)
            is_asked = requests[0]["do"] in ("callers", "references")
            is_crowded = is_asked and requests[0]["path"] == "0/other.py.sg.json"
            return [{"error": "crowded"}] if is_crowded else replies

        with mock.patch.object(Keeper, "ask", crowd_one):
            editor = self.begin()
            uri = editor.open(main)
            self.assertEqual(editor.references(uri, 1, 0), ["main.py:1:0"])
            self.assertEqual(editor.messages(), [])
            self.assertIn("each place where x stands", editor.messages("window/logMessage")[0])
            with mock.patch("navd_py.by_name.MOST_PLACES", 0):
                self.assertEqual(editor.references(uri, 1, 0), ["main.py:1:0"])
        self.assertIn("some references may be missing", editor.messages()[0])

    def test_references_to_what_is_crowded(self) -> None:
        main = self.write("main.py", "crowd = 1\ncrowd\ncrowded\n")
        self.write("other.py", "crowd\n")
        editor = self.begin()
        uri = editor.open(main)
        self.assertEqual(editor.references(uri, 0, 0), ["main.py:1:0", "other.py:0:0"])
        told = editor.messages("window/logMessage")
        self.assertEqual(len(told), 1, told)
        self.assertIn("each place where crowd stands was asked: 2 places", told[0])
        self.assertEqual(editor.messages(), [])

    def test_references_by_name_are_cancelled(self) -> None:
        main = self.write("main.py", "crowd = 1\n" + "crowd\n" * 200 + "crowded\n")
        editor = self.begin()
        uri = editor.open(main)
        self.assertEqual(editor.definition(uri, 0, 0), ["main.py:0:0"])
        place = {"textDocument": {"uri": uri}, "position": {"line": 0, "character": 0}, "context": {}}
        asked: List[int] = []
        ask, is_cancelled = Keeper.ask, threading.Event()

        def ask_slowly(keeper: Keeper, requests: Sequence[Any], user: str = "operator") -> List[Any]:
            if len(requests) > 1:
                asked.append(len(requests))
                is_cancelled.wait(SECONDS)
            return ask(keeper, requests, user)

        inner = Inbox._cancel

        def cancel(inbox: Inbox, params: Any) -> None:
            inner(inbox, params)
            is_cancelled.set()

        with mock.patch.object(Keeper, "ask", ask_slowly), mock.patch.object(Inbox, "_cancel", cancel):
            number = editor.begin("textDocument/references", place)
            editor.notify("$/cancelRequest", {"id": number})
            self.assertEqual(editor.answer(number)["error"]["code"], -32800)
        self.assertLessEqual(len(asked), 1)

    def test_more_files_than_navd_takes(self) -> None:
        """With a navd that takes 20 files, as far as the server sees."""
        for number in range(32):
            self.write(f"m{number:02}.py", "pass\n")
        last = self.write("z.py", "x = 1\nx\n")
        there: Set[str] = set()
        request = Session.request

        def request_within_room(session: Session, asked: Dict[str, Any]) -> Any:
            edits = asked.get("edits", [])
            wanted = there.union(edit["put"] for edit in edits if "put" in edit)
            wanted.difference_update(edit.get("remove") for edit in edits)
            if len(wanted) > 20:
                return {"error": "too_many_files", "files": len(wanted)}
            there.clear()
            there.update(wanted)
            return request(session, asked)

        room = mock.patch("navd_py.keeper.MOST_FILES", 20)
        with room, mock.patch.object(Session, "request", request_within_room):
            editor = self.begin()
            editor.ask("workspace/symbol", {"query": "x"})
            editor.wait_for_message("13 files of the workspace are left out")
            uri = editor.open(last)
            self.assertEqual(editor.definition(uri, 1, 0), ["z.py:0:0"])
        self.assertEqual([one for one in editor.notifications if "publishDiagnostics" in one["method"]], [])


@NEEDS_NAVD
class Workspaces(ServerTest):
    def test_roots(self) -> None:
        main = self.write("main.py", "x = 1\n")
        no_folder: Dict[str, Any] = {"workspaceFolders": None, "rootUri": None}
        for more in ({"rootUri": uri_of(self.folder)}, {"rootPath": self.folder, "rootUri": None}, no_folder):
            editor = self.start()
            editor.initialize([], **more)
            uri = editor.open(main, "x = 1\nx\n")
            self.assertEqual(editor.definition(uri, 1, 0), ["main.py:0:0"], more)
            self.assertEqual(editor.leave(), 0)

    def test_folders_see_their_own_files(self) -> None:
        one, two = self.write("one/main.py", "x\n"), self.write("two/main.py", "x\n")
        self.write("one/x1.py", "x = 1\n")
        self.write("two/x2.py", "x = 1\n")
        editor = self.start()
        editor.initialize([os.path.dirname(one), os.path.dirname(two)])
        here, there = editor.open(one), editor.open(two)
        self.assertEqual(editor.definition(here, 0, 0), ["x1.py:0:0"])
        self.assertEqual(editor.definition(there, 0, 0), ["x2.py:0:0"])
        self.assertEqual(editor.references(uri_of(os.path.join(self.folder, "one", "x1.py")), 0, 0), ["main.py:0:0"])
        symbols = editor.ask("workspace/symbol", {"query": "x"})
        names = [symbol["location"]["uri"].rsplit("/", 2)[1:] for symbol in symbols]
        self.assertEqual(names, [["one", "x1.py"], ["two", "x2.py"]])

    def test_folders_come_and_go(self) -> None:
        one, two = self.write("one/main.py", "x\n"), self.write("two/main.py", "x = 1\nx\n")
        editor = self.start()
        editor.initialize([os.path.dirname(one)])
        uri = editor.open(two)
        self.assertEqual(editor.definition(uri, 1, 0), [])
        event = {"added": [{"uri": uri_of(os.path.dirname(two)), "name": "two"}], "removed": []}
        editor.notify("workspace/didChangeWorkspaceFolders", {"event": event})
        self.assertEqual(editor.definition(uri, 1, 0), ["main.py:0:0"])
        editor.notify("workspace/didChangeWorkspaceFolders", {"event": {"added": [], "removed": event["added"]}})
        self.assertEqual(editor.definition(uri, 1, 0), [])

    def test_the_disk_is_followed(self) -> None:
        main = self.write("main.py", "x\n")
        # A look that takes long, on a machine that is busy, is no reason for a long pause here.
        no_pause = mock.patch.multiple("navd_py.lsp.background", SHORTEST_PAUSE=0.02, SHARE_OF_LOOKS=1)
        with no_pause:
            editor = self.start()
            editor.initialize([self.folder])
            uri = editor.open(main)
            self.assertEqual(editor.definition(uri, 0, 0), [])
            other = self.write("other.py", "x = 1\n")
            editor.wait_for_definition(uri, 0, 0, ["other.py:0:0"])
            self.write("other.py", "\n\nx = 1\n")
            editor.wait_for_definition(uri, 0, 0, ["other.py:2:0"])
            self.write("other.py", "\n(\n\nx = 1\n")
            editor.wait_for_definition(uri, 0, 0, ["other.py:3:0"])
            os.remove(other)
            editor.wait_for_definition(uri, 0, 0, [])

    def test_the_editor_tells_of_the_disk(self) -> None:
        main = self.write("main.py", "x\n")
        editor = self.start()
        editor.initialize([self.folder], {"workspace": {"didChangeWatchedFiles": {"dynamicRegistration": True}}})
        uri = editor.open(main)
        editor.wait_for_request("client/registerCapability")
        self.assertEqual(editor.definition(uri, 0, 0), [])
        other = self.write("pkg/other.py", "x = 1\n")

        def told(kind: int) -> None:
            editor.notify("workspace/didChangeWatchedFiles", {"changes": [{"uri": uri_of(other), "type": kind}]})

        told(1)
        editor.wait_for_definition(uri, 0, 0, ["other.py:0:0"])
        self.write("pkg/other.py", "\nx = 1\n")
        told(2)
        editor.wait_for_definition(uri, 0, 0, ["other.py:1:0"])
        os.remove(other)
        told(3)
        editor.wait_for_definition(uri, 0, 0, [])
        self.write("pkg/other.py", "x = 1\n")
        told(1)
        editor.wait_for_definition(uri, 0, 0, ["other.py:0:0"])
        shutil.rmtree(os.path.dirname(other))
        gone = {"uri": uri_of(os.path.dirname(other)), "type": 3}
        editor.notify("workspace/didChangeWatchedFiles", {"changes": [gone]})
        editor.wait_for_definition(uri, 0, 0, [])

    def test_a_document_that_is_no_file(self) -> None:
        main = self.write("main.py", "x\n")
        editor = self.start()
        editor.initialize([self.folder])
        uri = editor.open(main)
        self.assertEqual(editor.definition(uri, 0, 0), [])
        new = editor.open(os.path.join(self.folder, "new.py"), "x = 1\n")
        self.assertEqual(editor.definition(uri, 0, 0), ["new.py:0:0"])
        hidden = editor.open(os.path.join(self.folder, ".hidden", "y.py"), "x = 2\n")
        self.assertEqual(editor.definition(uri, 0, 0), ["y.py:0:0", "new.py:0:0"])
        for one in (new, hidden):
            editor.notify("textDocument/didClose", {"textDocument": {"uri": one}})
        self.assertEqual(editor.definition(uri, 0, 0), [])

    def test_a_link_into_the_folder(self) -> None:
        main = self.write("one/main.py", "x = 1\nx\n")
        os.symlink(os.path.join(self.folder, "one"), os.path.join(self.folder, "link"))
        editor = self.start()
        editor.initialize([os.path.dirname(main)])
        uri = editor.open(os.path.join(self.folder, "link", "main.py"))
        self.assertEqual(editor.at("definition", uri, 1, 0)[0]["uri"], uri)

    def test_progress_and_questions_that_wait(self) -> None:
        main = self.write("a.py", "x\n")
        for number in range(30):
            self.write(f"m{number:02}.py", "pass\n")
        self.write("z.py", "x = 1\n")
        with held_reading() as go_on:
            editor = self.start()
            editor.initialize([self.folder], {"window": {"workDoneProgress": True}})
            uri = editor.open(main)
            place = {"textDocument": {"uri": uri}, "position": {"line": 0, "character": 0}, "context": {}}
            first = editor.begin("textDocument/references", place)
            second = editor.begin("textDocument/references", place)
            self.assertEqual(editor.ask("textDocument/documentSymbol", place), [])
            editor.notify("$/cancelRequest", {"id": second})
            self.assertEqual(editor.answer(second)["error"]["code"], -32800)
            self.assertNotIn(first, editor.answers)
            editor.wait_for_request("window/workDoneProgress/create")
            editor.ask("textDocument/documentSymbol", place)  # by now the server knows that the bar is there
            go_on.set()
            self.assertEqual(editor.definition(uri, 0, 0), ["z.py:0:0"])
            self.assertEqual(len(editor.answer(first)["result"]), 1)
        kinds = [one["params"]["value"]["kind"] for one in editor.notifications if one["method"] == "$/progress"]
        self.assertEqual((kinds[0], kinds[-1], kinds.count("begin"), kinds.count("end")), ("begin", "end", 1, 1))

    def test_an_import_waits_for_what_it_means(self) -> None:
        main = self.write("a.py", "x\n")
        for number in range(10):
            self.write(f"m{number:02}.py", "pass\n")
        self.write("z.py", "x = 1\n")
        imported = (Definition("x", "import", (0, 0, 0, 1), ""),)
        with held_reading() as go_on, mock.patch.object(Folder, "definitions_at") as at:
            at.side_effect = lambda path, line, column: imported if path == "a.py" else ()
            editor = self.start()
            editor.initialize([self.folder])
            uri = editor.open(main)
            place = {"textDocument": {"uri": uri}, "position": {"line": 0, "character": 0}}
            asked = editor.begin("textDocument/definition", place)
            editor.ask("textDocument/documentSymbol", place)
            self.assertNotIn(asked, editor.answers)
            go_on.set()
            self.assertEqual(shown(editor.answer(asked)["result"]), ["z.py:0:0"])
            os.remove(os.path.join(self.folder, "z.py"))
            gone = {"uri": uri_of(os.path.join(self.folder, "z.py")), "type": 3}
            editor.notify("workspace/didChangeWatchedFiles", {"changes": [gone]})
            editor.wait_for_definition(uri, 0, 0, ["a.py:0:0"])

    def test_progress_is_not_wanted(self) -> None:
        for number in range(20):
            self.write(f"m{number:02}.py", "pass\n")
        with held_reading() as go_on:
            editor = self.start()
            editor.refused_methods.append("window/workDoneProgress/create")
            editor.initialize([self.folder], {"window": {"workDoneProgress": True}})
            editor.wait_for_request("window/workDoneProgress/create")
            go_on.set()
            editor.ask("workspace/symbol", {"query": ""})
        self.assertEqual([one for one in editor.notifications if one["method"] == "$/progress"], [])

    def test_navd_is_started_anew(self) -> None:
        main = self.write("main.py", "x = 1\nx\n")
        editor = self.start()
        editor.initialize([self.folder])
        uri = editor.open(main)
        self.assertEqual(editor.definition(uri, 1, 0), ["main.py:0:0"])
        self.server.server.keeper._session.stop()
        self.assertEqual(editor.definition(uri, 1, 0), ["main.py:0:0"])
        self.assertTrue(any("signal 9" in one for one in editor.messages("window/logMessage")))

    def test_a_fault_of_the_translator_is_no_end(self) -> None:
        main = self.write("main.py", "x = 1\nx\n")
        editor = self.start()
        editor.initialize([self.folder])
        uri = editor.open(main)
        self.assertEqual(editor.definition(uri, 1, 0), ["main.py:0:0"])
        fault = mock.patch.object(StandIn, "translated", side_effect=KeyError("fault"))
        # The change is translated for the question behind it, however long that takes to come.
        typing = mock.patch("navd_py.lsp.server.SECONDS_OF_TYPING", 2 * SECONDS)
        with fault, typing, mock.patch("traceback.print_exception"):
            editor.change(uri, "x = 2\nx\n")
            place = {"textDocument": {"uri": uri}, "position": {"line": 1, "character": 0}}
            self.assertEqual(editor.error("textDocument/definition", place)["code"], -32603)
        editor.change(uri, "\nx = 2\nx\n", 3)
        self.assertEqual(editor.definition(uri, 2, 0), ["main.py:1:0"])


@NEEDS_NAVD
class Translator(unittest.TestCase):
    """The server with the translator itself, as an editor starts it."""

    FILES = {
        "pkg/__init__.py": "",
        "pkg/tools.py": '''"""Tools."""


class Box:
    """A box."""

    limit: int = 3

    def __init__(self, size=0):
        self.size = size

    def area(self):
        return self.size * self.limit
''',
        "main.py": "from pkg.tools import Box as B\n\n\ndef use():\n    größe = B()\n    return '😀', größe.area()\n",
    }

    def test_a_project(self) -> None:
        with tempfile.TemporaryDirectory(prefix="navd-lsp-") as place:
            folder = os.path.realpath(place)
            for path, text in self.FILES.items():
                os.makedirs(os.path.dirname(os.path.join(folder, path)), exist_ok=True)
                with open(os.path.join(folder, path), "w", encoding="utf-8") as file:
                    file.write(text)
            server = ServerProcess(["--navd", str(NAVD), "--no-cache"])
            self.addCleanup(server.close)
            editor = Editor(server)
            nested = {"textDocument": {"documentSymbol": {"hierarchicalDocumentSymbolSupport": True}}}
            editor.initialize([folder], nested)
            main = editor.open(os.path.join(folder, "main.py"))
            tools = uri_of(os.path.join(folder, "pkg", "tools.py"))
            self.assertEqual(editor.definition(main, 5, 24), ["tools.py:11:8"])
            self.assertEqual(editor.definition(main, 4, 12), ["tools.py:3:6"])
            self.assertEqual(editor.definition(tools, 12, 20), ["tools.py:9:13"])
            self.assertEqual(editor.references(tools, 11, 8), ["main.py:5:23"])
            self.assertEqual(editor.references(tools, 6, 4), ["tools.py:12:32"])
            tree = editor.ask("textDocument/documentSymbol", {"textDocument": {"uri": tools}})
            self.assertEqual([one["name"] for one in tree], ["Box"])
            names = [one["name"] for one in tree[0]["children"]]
            self.assertEqual(names, ["limit", "__init__", "size", "area"])
            self.assertEqual([one["name"] for one in editor.ask("workspace/symbol", {"query": "are"})], ["area"])
            self.assertEqual(editor.definition(main, 0, 22), ["tools.py:3:6"])
            editor.change(main, "x = (\n" + self.FILES["main.py"])
            self.assertEqual(editor.definition(main, 6, 24), ["tools.py:11:8"])
            self.assertEqual(editor.references(tools, 11, 8), ["main.py:6:23"])
            editor.wait_for_diagnostics(main)
            self.assertEqual(editor.leave(), 0)


def wait_until_it_waits(process: int) -> None:
    """Waits up to where the main thread of a process waits in the system, and hasn't run meanwhile: Linux, proc(5)."""

    def look() -> Dict[str, str]:
        with open(f"/proc/{process}/task/{process}/status", encoding="ascii") as file:
            fields = dict(line.rstrip("\n").split(":\t", 1) for line in file if ":\t" in line)
        return {name: fields[name] for name in ("State", "voluntary_ctxt_switches", "nonvoluntary_ctxt_switches")}

    until = time.monotonic() + SECONDS
    before = look()
    while time.monotonic() < until:
        time.sleep(0.1)
        now = look()
        if now == before and now["State"].startswith("S"):
            return
        before = now
    raise AssertionError(f"the main thread never waits: {before}")


class Process(ServerTest):
    def started(self, *words: str) -> ServerProcess:
        server = ServerProcess(["--navd", "/nowhere/navd", *words])
        self.addCleanup(server.close)
        return server

    def test_it_is_told_to_end(self) -> None:
        server = self.started()
        editor = Editor(server)
        editor.initialize([])
        server.process.terminate()
        self.assertEqual(server.wait(), 1)
        self.assertEqual(server.errors, b"")

    @unittest.skipUnless(os.path.isdir("/proc/self/task"), "a thread can't be named here")
    def test_a_signal_that_reaches_another_thread_ends_it(self) -> None:
        server = self.started()
        Editor(server).initialize([])
        process = server.process.pid
        others = [int(thread) for thread in os.listdir(f"/proc/{process}/task") if int(thread) != process]
        wait_until_it_waits(process)
        self.assertEqual(ctypes.CDLL(None).tgkill(process, max(others), signal.SIGTERM), 0)
        self.assertEqual(server.wait(), 1)
        self.assertEqual(server.errors, b"")

    def test_as_an_editor_starts_it(self) -> None:
        server = self.started("--stdio")
        editor = Editor(server)
        editor.initialize([])
        self.assertEqual(editor.leave(), 0)
        self.assertEqual(server.errors, b"")


if __name__ == "__main__":
    unittest.main()
