"""Tests of the last graph of a text that doesn't parse."""

import json
import random
import unittest
from typing import List, Optional

from navd_py.packed import PackedTexts
from navd_py.project import Definition, Fault, Translated
from navd_py.stale import LastGraphs, LineMap, lines_of, moved_graph, same_lines


def text_of(lines: List[str]) -> str:
    return "\n".join(lines)


def graph(*lines: Optional[int]) -> bytes:
    """A graph file with a definition and a reference of one letter in each of the lines; None: a node without place."""
    nodes = []
    for line in lines:
        if line is None:
            nodes.append({"kind": "scope", "exported": True})
        else:
            nodes.append({"kind": "pop", "symbol": "x", "definition": True, "span": [line, 0, line, 1]})
            nodes.append({"kind": "push", "symbol": "x", "reference": True, "span": [line, 2, line, 3]})
    return json.dumps({"nodes": nodes, "edges": [["root", 0, 0]]}).encode()


class Lines(unittest.TestCase):
    def test_ends_of_lines(self) -> None:
        self.assertEqual(lines_of("a\nb\r\nc\rd\x0ce\u2028f\n"), ["a", "b", "c", "d\x0ce\u2028f", ""])
        self.assertEqual(lines_of(""), [""])

    def test_the_same_text(self) -> None:
        lines = LineMap.between("a\nb\nb", "a\nb\nb")
        self.assertEqual([lines.line(line) for line in range(4)], [0, 1, 2, None])

    def test_lines_put_in_and_taken_out(self) -> None:
        old = ["a", "b", "c", "d", "e"]
        new = ["new", "a", "c", "changed", "e", "more"]
        lines = LineMap.between(text_of(old), text_of(new))
        self.assertEqual([lines.line(line) for line in range(5)], [1, None, 2, None, 4])

    def test_lines_that_go_on_are_one_block(self) -> None:
        lines = [f"line {number}" for number in range(50)]
        changed = lines[:10] + ["changed"] + lines[11:40] + lines[42:]
        self.assertEqual(same_lines(lines, changed), [(0, 0, 10), (11, 11, 29), (42, 40, 8)])

    def test_lines_moved_past_each_other(self) -> None:
        lines = LineMap.between("a\nb\nc\nd", "c\nd\na\nb")
        kept = [lines.line(line) for line in range(4)]
        self.assertEqual(sum(line is not None for line in kept), 2)

    def test_only_lines_that_occur_often(self) -> None:
        self.assertEqual(same_lines(["x", "x", "", "", "y"], ["", "", "", "x", "x", "z"]), [(0, 3, 2)])
        lines = LineMap.between("x x\nx x\nx x", "new\nx x\nx (\nx x")
        self.assertEqual([lines.line(line) for line in range(3)], [1, None, 3])

    def test_too_many_alike(self) -> None:
        self.assertEqual(same_lines(["a"] + ["x"] * 90 + ["b"], ["c"] + ["x"] * 91 + ["d"]), [])

    def test_spans_of_several_lines(self) -> None:
        lines = LineMap.between("a\nb\nc\nd", "n\na\nb\nm\nc\nd")
        self.assertEqual(lines.span((0, 1, 1, 2)), (1, 1, 2, 2))
        self.assertIsNone(lines.span((1, 0, 2, 1)))
        self.assertIsNone(lines.span((3, 0, 4, 1)))

    def test_any_two_texts(self) -> None:
        """Each block has equal lines, blocks rise and don't meet, and lines that nothing touches are kept."""
        chance = random.Random(5)
        for _ in range(400):
            old = [chance.choice("abcdefgh  ") for _ in range(chance.randrange(12))]
            new = list(old)
            for _ in range(chance.randrange(4)):
                place = chance.randrange(len(new) + 1)
                fresh = [chance.choice("abcxyz ") for _ in range(chance.randrange(3))]
                new[place : place + chance.randrange(3)] = fresh
            here, there = 0, 0
            for start, new_start, size in same_lines(old, new):
                self.assertGreaterEqual(start, here)
                self.assertGreaterEqual(new_start, there)
                self.assertGreater(size, 0)
                self.assertEqual(old[start : start + size], new[new_start : new_start + size])
                here, there = start + size, new_start + size
            if old == new:
                self.assertEqual(here, len(old))

    def test_many_lines(self) -> None:
        old = [f"line {number if number % 9 == 0 else number % 7}" for number in range(20_000)]
        new = old[:5_000] + ["put in"] + old[5_000:15_000] + old[15_010:]
        lines = LineMap.between(text_of(old), text_of(new))
        self.assertEqual((lines.line(4_999), lines.line(5_000), lines.line(19_999)), (4_999, 5_001, 19_990))


class Graphs(unittest.TestCase):
    def test_nodes_move_with_their_lines(self) -> None:
        lines = LineMap.between("x x\nx x\nx x", "new\nx x\nx (\nx x")
        moved = json.loads(moved_graph(graph(0, None), lines))
        self.assertEqual([node.get("span") for node in moved["nodes"]], [[1, 0, 1, 1], [1, 2, 1, 3], None])
        self.assertEqual(moved["edges"], [["root", 0, 0]])

    def test_changed_lines_have_no_answer(self) -> None:
        lines = LineMap.between("a\nb\nc", "a\nb(\nc")
        nodes = json.loads(moved_graph(graph(0, 1), lines))["nodes"]
        self.assertTrue(nodes[0]["definition"] and nodes[1]["reference"])
        self.assertEqual(nodes[2], {"kind": "pop", "symbol": "x"})
        self.assertEqual(nodes[3], {"kind": "push", "symbol": "x"})


class Last(unittest.TestCase):
    def setUp(self) -> None:
        self.last = LastGraphs()
        self.fault = Fault(1, 0, "invalid syntax")
        first = Definition("a", "variable", (0, 0, 0, 1), "")
        self.definitions = (first, Definition("c", "variable", (2, 0, 2, 1), ""))

    def good(self, text: str) -> None:
        current = self.last.current(Translated("m.py", graph(0, 2), None, self.definitions), text)
        self.assertEqual((current.source, current.fault, current.is_stale), (graph(0, 2), None, False))

    def test_a_broken_text_keeps_the_graph(self) -> None:
        self.good("a\nb\nc")
        broken = Translated("m.py", None, self.fault, ())
        current = self.last.current(broken, "new\na\nb(\nc")
        self.assertTrue(current.is_stale)
        self.assertEqual(current.fault, self.fault)
        self.assertEqual([definition.span[0] for definition in current.definitions], [1, 3])
        spans = [node["span"][0] for node in json.loads(current.source or b"{}")["nodes"]]
        self.assertEqual(spans, [1, 1, 3, 3])
        again = self.last.current(Translated("m.py", None, Fault(2, 1, "other"), ()), "new\na\nb((\nc")
        self.assertIs(again.source, current.source)
        self.assertEqual(again.fault and again.fault.message, "other")

    def test_it_is_moved_from_where_it_was_read(self) -> None:
        self.good("a\nb\nc")
        broken = Translated("m.py", None, self.fault, ())
        self.last.current(broken, "(")
        current = self.last.current(broken, "a\nb(\nc")
        self.assertEqual([definition.name for definition in current.definitions], ["a", "c"])

    def test_none_without_an_earlier_one(self) -> None:
        current = self.last.current(Translated("m.py", None, self.fault, ()), "(")
        self.assertEqual((current.source, current.fault, current.is_stale), (None, self.fault, False))

    def test_a_file_without_text_has_none(self) -> None:
        self.good("a\nb\nc")
        broken = Translated("m.py", None, self.fault, ())
        self.assertIsNone(self.last.current(broken, None).source)
        self.assertIsNone(self.last.current(broken, "a").source)

    def test_forgotten(self) -> None:
        self.good("a\nb\nc")
        self.last.forget("m.py")
        self.assertIsNone(self.last.current(Translated("m.py", None, self.fault, ()), "a").source)

    def test_half_of_a_pair(self) -> None:
        self.good("a\n'\ud800'\nc")
        current = self.last.current(Translated("m.py", None, self.fault, ()), "n\na\n'\ud800'\nc")
        self.assertTrue(current.is_stale)


class Packed(unittest.TestCase):
    def test_texts(self) -> None:
        texts = PackedTexts()
        for number in range(10):
            texts.set(f"{number}", b"text %d" % number)
        self.assertEqual(len(texts), 10)
        self.assertEqual([texts.get(f"{number}") for number in range(10)], [b"text %d" % n for n in range(10)])
        texts.set("0", b"other")
        texts.set("9", b"other")
        texts.discard("1")
        texts.discard("8")
        texts.discard("none")
        self.assertEqual([texts.get(path) for path in "0918"], [b"other", b"other", None, None])
        self.assertEqual(sorted(texts.paths), ["0", "2", "3", "4", "5", "6", "7", "9"])
        self.assertTrue("2" in texts and "1" not in texts)


if __name__ == "__main__":
    unittest.main()
