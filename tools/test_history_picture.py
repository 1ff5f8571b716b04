#!/usr/bin/env python3
"""Tests of tools/history_picture.py: each kind of line, bad lines, parts, equal neighbours, and a long history."""
from __future__ import annotations

import itertools
import json
import pathlib
import subprocess
import sys
import unittest
import xml.etree.ElementTree as tree

sys.path.insert(0, str(pathlib.Path(__file__).resolve().parent))

from history_columns import columns_of  # noqa: E402
from history_drawing import CELL, cells, draw  # noqa: E402
from history_report import Fault, History, read_report  # noqa: E402

TOOL = pathlib.Path(__file__).resolve().parent / "history_picture.py"
SVG = "{http://www.w3.org/2000/svg}"

EVERY_KIND = [
    '{"c":0,"e":"mutate","k":0,"seq":1,"vb":0}',
    '{"c":1,"code":1,"at":26,"e":"refuse","k":0,"what":"parse"}',
    '{"c":0,"e":"define","i":0,"k":1,"state":"deferred"}',
    '{"c":0,"e":"build","indexes":[0],"k":2}',
    '{"e":"publish","i":0,"v":{"0":1}}',
    '{"c":0,"e":"online","indexes":[0],"k":2}',
    '{"c":0,"d":{},"e":"start","i":0,"k":3}',
    '{"c":1,"d":{"0":3},"e":"start","i":0,"k":1}',
    '{"c":0,"e":"answer","k":3,"rows":[{"id":"<a>","keys":[[5]]}],"v":{"0":1}}',
    '{"c":1,"code":11,"e":"not_yet","have":1,"k":1,"v":{"0":1},"vb":0,"want":3}',
    '{"c":0,"d":{"0":1},"e":"start","i":0,"k":4}',
    '{"c":1,"e":"define","i":1,"k":2,"state":"building"}',
    '{"c":0,"e":"pick","k":4,"v":{"0":1}}',
    '{"c":1,"e":"online","indexes":[1],"k":2}',
    '{"c":0,"code":12,"e":"fetch","f":{"0":1},"k":4,"v":{"0":1},"what":"answer_too_large"}',
    '{"c":1,"e":"drop","i":1,"k":3}',
]


def end(events: int, high: int, indexes: str = "") -> str:
    return f'{{"e":"end","events":{events},"high":{{"0":{high}}},"indexes":[{indexes}]}}'


EVERY_KIND.append(end(16, 1, '{"i":0,"name":"by & by","rows":1,"state":"online","v":{"0":1}}'))


def mutation(number: int, client: int = 0) -> str:
    return f'{{"c":{client},"e":"mutate","k":{number - 1},"seq":{number},"vb":0}}'


def history_of(lines: list[str]) -> History:
    return read_report(line.encode() + b"\n" for line in lines)


def picture_of(lines: list[str], first: int = 1, last: int | None = None) -> tree.Element:
    history = history_of(lines)
    return tree.fromstring(draw(history, first, last or len(history.events)))


def titles(picture: tree.Element) -> str:
    return "\n".join(title.text or "" for title in picture.iter(f"{SVG}title"))


def words(picture: tree.Element) -> list[str]:
    return [text.text or "" for text in picture.iter(f"{SVG}text")]


def boxes(picture: tree.Element) -> list[tuple[float, float, float, float]]:
    """Left, right, top and bottom of each line of words."""
    found = []
    for text in picture.iter(f"{SVG}text"):
        x, y, width = float(text.attrib["x"]), float(text.attrib["y"]), cells(text.text or "") * CELL
        classes = text.attrib["class"].split()
        left = x if "l" in classes else x - width if "r" in classes else x - width / 2
        found.append((left, left + width, y - 9, y + 3))
    return found


class EveryKind(unittest.TestCase):
    def test_each_line_is_a_title(self) -> None:
        shown = titles(picture_of(EVERY_KIND))
        for line in EVERY_KIND:
            self.assertIn(line, shown)

    def test_refusals_have_code_and_name(self) -> None:
        shown = words(picture_of(EVERY_KIND))
        for word in ("1 parse", "at 26", "11 not_yet", "vb 0: 1 of 3", "12 answer_too_large", "by & by", "dropped"):
            self.assertIn(word, shown)

    def test_words_lie_apart_and_inside(self) -> None:
        picture = picture_of(EVERY_KIND)
        width, height = float(picture.attrib["width"]), float(picture.attrib["height"])
        for left, right, top, bottom in boxes(picture):
            self.assertTrue(0 <= left and right <= width and 0 <= top and bottom <= height)
        for one, other in itertools.combinations(boxes(picture), 2):
            beside = one[1] <= other[0] or other[1] <= one[0]
            below = one[3] <= other[2] or other[3] <= one[2]
            self.assertTrue(beside or below, (one, other))

    def test_an_empty_history(self) -> None:
        shown = words(picture_of(['{"e":"end","events":0,"high":{},"indexes":[]}']))
        self.assertIn("0 events, 0 clients, 0 indexes", shown)


class BadLines(unittest.TestCase):
    def fault(self, lines: list[str]) -> int:
        with self.assertRaises(Fault) as raised:
            history_of(lines)
        return raised.exception.number

    def test_a_line_alone(self) -> None:
        for line in (
            "", "no JSON", "7", '{"e":"nothing"}', '{"c":0,"e":"mutate","k":0,"seq":1}',
            '{"c":0,"e":"mutate","k":0,"seq":1.0,"vb":0}', '{"c":true,"e":"mutate","k":0,"seq":1,"vb":0}',
            '{"c":0,"code":4,"e":"refuse","k":0,"what":"parse"}', '{"e":"publish","i":0,"v":{"a":1}}',
        ):
            with self.subTest(line):
                self.assertEqual(self.fault([mutation(1), line, end(2, 1)]), 2)

    def test_a_line_where_it_stands(self) -> None:
        start, answer = '{"c":0,"d":{},"e":"start","i":0,"k":1}', '{"c":0,"e":"answer","k":1,"rows":[],"v":{}}'
        online = ['{"c":0,"e":"define","i":0,"k":0,"state":"building"}', '{"c":0,"e":"online","indexes":[0],"k":0}']
        for lines, number in (
            ([answer], 1), ([start], 1), ([*online, start, start], 4), ([mutation(1)], 2), ([end(1, 0)], 1),
            ([end(0, 0), mutation(1)], 2), ([*online, start, answer.replace('"v":{}', '"v":{"0":1}')], 4),
        ):
            with self.subTest(lines):
                self.assertEqual(self.fault(lines), number)

    def test_the_command(self) -> None:
        text = "\n".join([mutation(1), "{}", ""])
        done = subprocess.run([sys.executable, "-B", TOOL], input=text, capture_output=True, text=True, check=False)
        self.assertEqual((done.returncode, done.stdout), (1, ""))
        self.assertIn("line 2", done.stderr)


class Parts(unittest.TestCase):
    def test_from_and_to(self) -> None:
        picture = picture_of(EVERY_KIND, 9, 12)
        shown = words(picture)
        self.assertIn("events 9 to 12 are drawn", shown)
        for number in ("9", "10", "11", "12"):
            self.assertIn(number, shown)
        for number in ("8", "13", "end"):
            self.assertNotIn(number, shown)

    def test_an_arrow_from_an_earlier_part_tells_its_publication(self) -> None:
        self.assertIn("5", words(picture_of(EVERY_KIND, 9, 12)))


class Neighbours(unittest.TestCase):
    def test_few_events_stand_alone(self) -> None:
        history = history_of([*map(mutation, range(1, 301)), end(300, 300)])
        self.assertEqual(len(columns_of(history, history.events)), 300)

    def test_many_mutations_stand_together(self) -> None:
        lines = [*map(mutation, range(1, 402)), end(401, 401)]
        shown = words(picture_of(lines))
        for word in ("×401", "k0–k400", "1–401", "equal neighbours are drawn together (×n)"):
            self.assertIn(word, shown)
        self.assertIn("395 more lines", titles(picture_of(lines)))

    def test_requests_stand_together_where_they_are_equal(self) -> None:
        lines = ['{"c":0,"e":"define","i":0,"k":0,"state":"building"}', '{"c":0,"e":"online","indexes":[0],"k":0}']
        for k in range(1, 201):
            lines.append(f'{{"c":0,"d":{{}},"e":"start","i":0,"k":{k}}}')
            lines.append(f'{{"c":0,"e":"answer","k":{k},"rows":[],"v":{{}}}}')
            if k == 150:
                lines.append('{"e":"publish","i":0,"v":{"0":1}}')
        lines[303:] = [line.replace('"v":{}', '"v":{"0":1}') for line in lines[303:]]
        shown = words(picture_of([*lines, end(len(lines), 1)]))
        self.assertIn("start ×150", shown)
        self.assertIn("start ×50", shown)

    def test_a_very_long_history_is_small(self) -> None:
        lines = ['{"c":0,"e":"define","i":0,"k":0,"state":"building"}', '{"c":0,"e":"online","indexes":[0],"k":0}']
        for number in range(1, 10_000):
            lines.append(mutation(number, number % 3))
            lines.append(json.dumps({"e": "publish", "i": 0, "v": {"0": number}}))
        lines += ['{"c":0,"d":{},"e":"start","i":0,"k":1}', '{"c":0,"e":"answer","k":1,"rows":[],"v":{"0":9999}}']
        text = draw(history_of([*lines, end(len(lines), 9_999)]), 1, len(lines))
        self.assertLess(len(text), 2_000_000)
        shown = words(tree.fromstring(text))
        self.assertIn("columns whose numbers overlap are of one time: their events lie among each other", shown)
        self.assertIn("v {0:9999}", shown)


if __name__ == "__main__":
    unittest.main()
