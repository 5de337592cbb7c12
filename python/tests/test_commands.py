"""The commands for planar_code and reports: svg, cover, collect, split and stream, by what they write."""
from __future__ import annotations

import json
import math
import os
import re
import stat
import subprocess
import sys
import tempfile
import unittest
import xml.etree.ElementTree as xml
from collections import Counter
from pathlib import Path
from typing import Any
from unittest import mock

import support
from planarbend.layout.planar_code import HEADER, lists_of, split

SVG = "{http://www.w3.org/2000/svg}"
N4, N5, N7, CUBIC = (support.CORPUS / name for name in ("planar_d4_n4.pc", "planar_d4_n5.pc", "planar_d4_n7.pc",
                                                        "cubic60.pc"))
STEP = 40  # pixels of svg between neighbouring whole numbers
TRIANGLE, EDGE, LONE = bytes([3, 2, 3, 0, 3, 1, 0, 1, 2, 0]), bytes([2, 2, 0, 1, 0]), bytes([1, 0])
# All graphs of 4 and of 5 vertices by edges and fewest bends: counts by nauty and LEMON.
TABLE = {4: {3: {0: 2}, 4: {0: 1, 1: 1}, 5: {2: 1}, 6: {4: 1}},
         5: {4: {0: 3}, 5: {0: 2, 1: 3}, 6: {1: 1, 2: 4}, 7: {3: 2, 4: 1, 5: 1}, 8: {4: 1, 6: 1}, 9: {8: 1}}}
# A rectangle by hand: four vertices, two cells wide and one high.
RECTANGLE = bytes([4, 2, 4, 0, 3, 1, 0, 4, 2, 0, 1, 3, 0])
RECTANGLE_LINE = {"angles": [3, 1, 3, 1, 3, 1, 3, 1], "bends": 0, "drawn": "yes", "f": 2, "file": 1, "graph": 1, "m": 4,
                  "n": 4,
                  "points": {"corners": [[], [], [], []], "vertices": [[0, 0], [0, 1], [2, 1], [2, 0]]},
                  "prices": {"faces": [0, 0], "vertices": [0, 0, 0, 0]}, "status": "ok", "turns": [""] * 8}
END = '{"end":"complete","file":1,"graphs":1}\n'
Point = tuple[float, float]


class Case(unittest.TestCase):
    def setUp(self) -> None:
        folder = tempfile.TemporaryDirectory()
        self.addCleanup(folder.cleanup)
        self.folder = Path(folder.name)

    def written(self, name: str, data: bytes | str) -> Path:
        """A file with this content."""
        path = self.folder / name
        path.write_bytes(data if isinstance(data, bytes) else data.encode())
        return path

    def said(self, *words: object, data: str | bytes = b"") -> str:
        """What a command writes that succeeds."""
        status, out, errors = support.said(words, data)
        self.assertEqual((status, errors), (0, ""))
        return out

    def refused(self, words: str, *command: object, data: str | bytes = b"", status: int = 1) -> str:
        """What a command writes that ends with this status and an error with these words."""
        found, out, errors = support.said(command, data)
        self.assertEqual(found, status, errors)
        self.assertRegex(errors, words)
        return out


def numbers(element: xml.Element, *keys: str) -> tuple[float, ...]:
    return tuple(float(element.get(key, "nan")) for key in keys)


def points_of(element: xml.Element) -> tuple[Point, ...]:
    """The points of a polyline or a polygon."""
    return tuple((float(x), float(y)) for x, y in (point.split(",") for point in element.get("points", "").split()))


def area(ring: tuple[Point, ...]) -> float:
    """Twice the area of a polygon; its sign is that of the direction."""
    return sum(x * v - u * y for (x, y), (u, v) in zip(ring, ring[1:] + ring[:1]))


class Svg(Case):
    def lines(self, path: Path, *words: str) -> str:
        return support.program_run("layout", "--json", *words, path).stdout.decode()

    def test_one_graph(self) -> None:
        """Circles at the points, each with its number; lines through the corners; all faces but the outer one without
        shade, also where a longer face is inside."""
        text = self.lines(N7, "--outer", "best")
        records = split(N7.read_bytes())[0]
        for number in (34, 81, 200, 302):
            line, lists = json.loads(text.splitlines()[number - 1]), lists_of(records[number - 1])
            with self.subTest(number):
                self.looks_like(xml.fromstring(self.said("svg", N7, number, data=text)), line, lists, shaded=False)
                self.looks_like(xml.fromstring(self.said("svg", N7, number, "--outer", data=text)), line, lists,
                                shaded=True)

    def test_dots(self) -> None:
        """A picture without numbers is otherwise the same, with smaller circles."""
        text = self.lines(N7)
        numbered, dots = (xml.fromstring(self.said("svg", N7, 34, *words, data=text)) for words in ([], ["--dots"]))
        self.assertEqual(list(dots.iter(SVG + "text")), [])
        for tag, names in ("circle", ("cx", "cy")), ("polyline", ("points",)):
            found = [[[one.get(name) for name in names] for one in picture.iter(SVG + tag)] for picture in (numbered, dots)]
            self.assertEqual(*found)
        radii = [{numbers(one, "r") for one in picture.iter(SVG + "circle")} for picture in (numbered, dots)]
        self.assertLess(max(radii[1]), min(radii[0]))

    def looks_like(self, picture: xml.Element, line: dict[str, Any], lists: list[list[int]], shaded: bool) -> None:
        """Looks that a picture is that of a line."""
        vertices = line["points"]["vertices"]
        all_points = vertices + [corner for corners in line["points"]["corners"] for corner in corners]
        left, top = min(x for x, _ in all_points), max(y for _, y in all_points)

        def place(point: list[int]) -> Point:
            return STEP * (point[0] - left + 1), STEP * (top - point[1] + 1)

        size = tuple(STEP * (max(along) - min(along) + 2) for along in zip(*all_points))
        self.assertEqual(numbers(picture, "width", "height"), size)
        self.assertEqual([numbers(one, "cx", "cy") for one in picture.iter(SVG + "circle")], list(map(place, vertices)))
        self.assertEqual({one.text: numbers(one, "x", "y") for one in picture.iter(SVG + "text")},
                         {str(number): place(point) for number, point in enumerate(vertices, 1)})
        edges = [(tail, head) for tail, heads in enumerate(lists, 1) for head in heads if tail < head]
        paths = [tuple(map(place, [vertices[tail - 1], *corners, vertices[head - 1]]))
                 for (tail, head), corners in zip(edges, line["points"]["corners"], strict=True)]
        self.assertEqual(Counter(map(points_of, picture.iter(SVG + "polyline"))), Counter(paths))
        shades = [one for one in picture.iter(SVG + "rect") if one.get("fill") not in ("white", None)]
        polygons = list(map(points_of, picture.iter(SVG + "polygon")))
        if not shaded:
            self.assertEqual((shades, polygons), ([], []))
            return
        self.assertEqual([numbers(one, "width", "height") for one in shades], [size])
        self.assertTrue(all(one.get("fill") == "white" for one in picture.iter(SVG + "polygon")))
        self.assertEqual(len(polygons), line["f"] - 1)
        self.assertTrue(all(area(ring) < 0 for ring in polygons))  # counter-clockwise, y downwards

    def test_a_grid(self) -> None:
        text = self.lines(N5)
        picture = xml.fromstring(self.said("svg", N5, "--graphs", "2,4-6,9", "--columns", "2", data=text))
        bends = [json.loads(line).get("bends") for line in text.splitlines()]
        words = [f"graph {number}: {bends[number - 1]} bend{'s' * (bends[number - 1] != 1)}"
                 for number in (2, 4, 5, 6, 9)]
        captions = [one for one in picture.iter(SVG + "text") if str(one.text).startswith("graph")]
        self.assertEqual([one.text for one in captions], words)
        groups = [tuple(map(float, re.findall(r"[\d.]+", one.get("transform", "")))) for one in picture
                  if "transform" in one.attrib]
        self.assertEqual(len(groups), 5)
        sizes = []
        for number in (2, 4, 5, 6, 9):
            sizes.append(numbers(xml.fromstring(self.said("svg", N5, number, data=text)), "width", "height"))
        places = [(x, y, x + width, y + height) for (x, y), (width, height) in zip(groups, sizes, strict=True)]
        for place, (caption, box) in enumerate(zip(captions, places, strict=True)):
            x, y = numbers(caption, "x", "y")
            column = [box[::2] for box in places[place % 2::2]]
            middle = (min(one for one, _ in column) + max(other for _, other in column)) / 2
            self.assertAlmostEqual(x, middle, delta=1)
            self.assertAlmostEqual((box[0] + box[2]) / 2, middle, delta=1)
            self.assertGreater(y, box[3])
            self.assertLess(y, box[3] + 150)
        for one, other in zip(places, places[2:]):
            self.assertGreaterEqual(other[1], one[3] + 24)
        width, height = numbers(picture, "width", "height")
        self.assertLessEqual(max(box[2] for box in places), width)
        self.assertLessEqual(max(box[3] for box in places) + 24, height)
        self.assertGreaterEqual(min(box[0] for box in places[1::2]), max(box[2] for box in places[::2]) + 12)

    def test_a_page(self) -> None:
        text = self.lines(N5)
        page = self.said("svg", N5, "--html", "--outer", data=text)
        self.assertIn("<h1>planar_d4_n5.pc: 20 graphs, file ends complete</h1>", page)
        found = xml.fromstring(page.removeprefix("<!DOCTYPE html>\n").replace('<meta charset="utf-8">', ""))
        self.assertEqual(len(list(found.iter("figure"))), 20)
        self.assertEqual([one.text for one in found.iter("figcaption")][:2], ["graph 1: 0 bends", "graph 2: 0 bends"])
        some = self.said("svg", N5, "--html", "--graphs", "3-4", data=text)
        self.assertEqual((some.count("<figure>"), some.count("graph 3: ")), (2, 1))
        cut = HEADER + TRIANGLE + LONE + EDGE + b"\3"
        path = self.written("cut.pc", cut)
        page = self.refused("cut.pc ends truncated, so graphs may be missing", "svg", path, "--html",
                            data=self.lines(path), status=3)
        self.assertEqual((page.count("<figure>"), page.count("breaks the rule edgeless")), (3, 1))

    def test_graphs_in_order(self) -> None:
        """Also if the lines come in another order."""
        *lines, end = self.lines(N5).splitlines()
        page = self.said("svg", N5, "--html", data="\n".join([*lines[::-1], end]) + "\n")
        found = [int(number) for number in re.findall(r"graph (\d+): ", page)]
        self.assertEqual(found, list(range(1, 21)))

    def test_refusals(self) -> None:
        path = self.written("some.pc", HEADER + TRIANGLE + LONE + EDGE)
        text = self.lines(path)
        self.refused("graph 2: breaks the rule edgeless", "svg", path, "2", data=text)
        self.refused("have no graph 4", "svg", path, "4", data=text)
        self.refused("have no graph 4, 5, 6, 7, 8, \\.\\.", "svg", path, "--graphs", "1-9", data=text)
        self.refused("graph 3 of .* is not graph 3 of the lines", "svg",
                     self.written("x.pc", HEADER + EDGE + EDGE + TRIANGLE), "3", data=text)
        self.refused("graph 3 of .* is not graph 3 of the lines", "svg", self.written("x.pc", HEADER + TRIANGLE + EDGE),
                     "3", data=text)
        self.refused("standard input, line 2: not a line", "svg", path, "1", data=text.replace('"rule"', '"role"'))
        self.refused("no line gives the ending", "svg", path, "1", data=text.partition('{"end"')[0])
        self.refused("some-not.pc: No such file", "svg", self.folder / "some-not.pc", "1", data=text)
        self.refused("header: it does not begin", "svg", self.written("no.pc", b"none"), "1", data=text)
        for words, said in ((["0"], "1 to 1,000,000"), (["2-1"], "in increasing order"), (["a"], "is not a list"),
                            (["1-"], "is not a list"),
                            (["1000001"], "1 to 1,000,000"), (["1", "--graphs", "2"], "not both"), ([], "give GRAPH"),
                            (["1", "--columns", "0"], "at least 1")):
            self.refused(said, "svg", path, *words, status=2)

    def test_one_bend_and_memory(self) -> None:
        path = self.written("one.pc", HEADER + TRIANGLE + EDGE)
        lines = self.lines(path).splitlines(keepends=True)
        self.assertIn("graph 1: 1 bend<", self.said("svg", path, "--html", data="".join(lines)))
        lines[1] = '{"file":1,"graph":2,"status":"memory"}\n'
        self.assertIn("out of memory", self.said("svg", path, "--graphs", "1-2", data="".join(lines)))
        self.refused("graph 2: out of memory", "svg", path, "2", data="".join(lines))


class Cover(Case):
    def test_a_rectangle_by_hand(self) -> None:
        path = self.written("rectangle.pc", HEADER + RECTANGLE)
        data = json.dumps(RECTANGLE_LINE) + "\n" + END
        picture = xml.fromstring(self.said("cover", path, "1", "--row", "0", "--point", "0,0", data=data))
        self.assertEqual(numbers(picture, "width", "height"), (2 * 30 + 4 * 60, 2 * 30 + 3 * 60))
        rects = [one for one in picture.iter(SVG + "rect") if "x" in one.attrib]
        cells = {((x - 30) / 60 - 1, 1 - (y - 30) / 60): one.get("fill") for one in rects[:12] for x,
                 y in [numbers(one, "x", "y")]}
        self.assertEqual(set(cells), {(x, y) for x in range(-1, 3) for y in range(-1, 2)})
        boxes = [{(x, -1) for x in range(-1, 3)}, {(x, 1) for x in range(-1, 3)}, {(-1, 0)}, {(0, 0), (1, 0)}, {(2, 0)}]
        colours = [{cells[cell] for cell in box} for box in boxes]
        self.assertEqual(list(map(len, colours)), [1] * 5)
        self.assertEqual(len(set.union(*colours[2:4])), 2)
        self.assertFalse((colours[0] | colours[1]) & set.union(*colours[2:]))
        marked = [((x - 30) / 60 - 1, 1 - (y - 30) / 60) for one in rects[12:] for x, y in [numbers(one, "x", "y")]]
        self.assertEqual(Counter(marked), Counter([(-1, 0), (0, 0), (1, 0), (2, 0), (0, 0)]))
        texts = {(str(one.text), (x - 30) / 60 - 1, 2 - (y - 30) / 60) for one in picture.iter(SVG + "text") for x,
                 y in [numbers(one, "x", "y")]}
        self.assertEqual(texts, {("1", -.5, .5), ("2", 1, .5), ("3", 2.5, .5), ("1", 0, 0), ("2", 0, 1), ("3", 2, 1),
                                 ("4", 2, 0)})
        lines = {"dash": set(), "drawn": set(), "row": set(), "seen": set()}
        for one in picture.iter(SVG + "path"):
            ends = [(float(x) / 60 - 1.5, 2.5 - float(y) / 60) for x,
                    y in (end.split() for end in str(one.get("d"))[1:].split("L"))
                    if "z" not in str(one.get("d"))]
            if ends:
                kind = ("seen" if "seen" in str(one.get("marker-end")) else "row" if one.get("marker-end") else
                        "dash" if one.get("stroke-dasharray") else "drawn")
                lines[kind].add(tuple((round(x, 2), round(y, 2)) for x, y in ends))
        self.assertEqual(lines["dash"], {((-1, 0), (0, 0)), ((2, 0), (3, 0)), ((-1, 1), (0, 1)), ((2, 1), (3, 1))})
        frame = {((x, y), (x + 1, y)) for x in range(-1, 3) for y in (-1, 2)} | {((x, y), (x, y + 1)) for x in (-1, 3)
                                                                                 for y in range(-1, 2)}
        self.assertEqual(lines["drawn"], frame | {((0, 0), (0, 1)), ((2, 0), (2, 1)), ((0, 0), (1, 0)),
                                                  ((1, 0), (2, 0)), ((0, 1), (1, 1)),
                                                  ((1, 1), (2, 1))})
        self.assertEqual(lines["row"], {((x, .15), (x, .74)) for x in (-1, 0, 2, 3)})
        self.assertEqual(lines["seen"], {((0, 1), (0, .08))})
        circles = [numbers(one, "cx", "cy", "r") for one in picture.iter(SVG + "circle")]
        self.assertEqual(Counter(((x - 30) / 60 - 1, 2 - (y - 30) / 60, r) for x, y, r in circles),
                         Counter([(0, 0, 6), (0, 0, 15), (0, 1, 15), (2, 1, 15), (2, 0, 15)]))

    def test_every_drawing_is_covered_by_boxes(self) -> None:
        """All cells are covered, neighbouring boxes have two colours, and one dart sees each point of an edge."""
        text = support.program_run("layout", "--json", N7).stdout.decode()
        for number in range(10, 300, 70):
            line = json.loads(text.splitlines()[number - 1])
            (x, y), *_ = line["points"]["vertices"]
            picture = xml.fromstring(self.said("cover", N7, number, "--row", y, "--point", f"{x},{y}", data=text))
            points = line["points"]["vertices"] + [corner for corners in line["points"]["corners"]
                                                   for corner in corners]
            wide, high = (max(along) - min(along) + 2 for along in zip(*points))
            self.assertEqual(numbers(picture, "width", "height"), (60 + 60 * wide, 60 + 60 * high))
            fills = [one.get("fill") for one in picture.iter(SVG + "rect") if "x" in one.attrib]
            self.assertEqual(len(fills), wide * high + wide + 1)

    def test_refusals(self) -> None:
        path, data = self.written("rectangle.pc", HEADER + RECTANGLE), json.dumps(RECTANGLE_LINE) + "\n" + END
        self.refused("the point is not on an edge", "cover", path, "1", "--row", "0", "--point", "7,7", data=data)
        for row in ("-2", "2"):
            self.refused("row is outside", "cover", path, "1", "--row", row, "--point", "0,0", data=data)
        self.refused("no graph 2", "cover", path, "2", "--row", "0", "--point", "0,0", data=data)
        lost = '{"file":1,"graph":1,"status":"memory"}\n' + END
        self.refused("graph 1: out of memory", "cover", path, "1", "--row", "0", "--point", "0,0", data=lost)


class Collect(Case):
    def setUp(self) -> None:
        super().setUp()
        self.reports = {}
        for path in (N4, N5):
            self.reports[path.stem] = self.written(path.stem + ".report", support.program_run("layout", path).stdout)
        self.text = self.reports[N4.stem].read_text()

    def table(self, text: str) -> tuple[dict[str, dict[str, dict[int, int]]], dict[tuple[str, str], int], str]:
        """The counts of a table, its totals, and its last line."""
        rows = [[cell.strip() for cell in line.strip("|").split("|")] for line in text.splitlines()
                if line.startswith("|")]
        self.assertEqual(set(rows[1]), {"---:"})
        self.assertEqual((rows[0][:2], rows[0][-1], len(rows[1])), (["Vertices", "Edges"], "Graphs", len(rows[0])))
        counts: dict[str, dict[str, dict[int, int]]] = {}
        for vertices, edges, *cells, _ in rows[2:]:
            counts.setdefault(vertices, {})[edges] = {int(bends): int(cell) for bends,
                                                      cell in zip(rows[0][2:], cells) if cell}
        return counts, {(row[0], row[1]): int(row[-1]) for row in rows[2:]}, text.splitlines()[-1]

    def test_a_table(self) -> None:
        jsonl = self.written("more.jsonl", support.program_run("layout", "--json", N5).stdout)
        for parts in (self.reports.values(), [self.folder / "planar_d4_n4.report", jsonl]):
            counts, totals, last = self.table(self.said("collect", *parts))
            for vertices, rows in TABLE.items():
                together: Counter[int] = Counter()
                for edges, bends in rows.items():
                    self.assertEqual(counts[str(vertices)][str(edges)], bends)
                    self.assertEqual(totals[str(vertices), str(edges)], sum(bends.values()))
                    together.update(bends)
                self.assertEqual(counts[f"**{vertices}**"], {"**all**": dict(together)})
                self.assertEqual(totals[f"**{vertices}**", "**all**"], together.total())
            self.assertEqual(last, "26 graphs by vertices, edges and fewest bends; 0 refused.")
        counts, _, _ = self.table(self.said("collect", "--short", *self.reports.values()))
        self.assertEqual(set(counts), {"**4**", "**5**"})
        jsonl.unlink()
        self.written(".hidden.report", "no report")
        apart = self.said("collect", *self.reports.values())
        self.assertEqual(self.said("collect", self.folder), apart)
        both = self.written("both.report", support.program_run("layout", N4, N5).stdout)
        self.assertEqual(self.said("collect", both), apart)

    def test_refused_and_undrawn_graphs(self) -> None:
        answers = ["refused degree", "refused loop", "refused degree", "ok n=3 m=2 f=1 bends=0 drawn=no cause=wide"]
        lines = [f"graph {number} {answer}" for number, answer in enumerate(answers, 1)]
        text = "\n".join(["file 1", *lines, "end complete graphs=4", ""])
        last = self.said("collect", self.written("a.report", text)).splitlines()[-1]
        self.assertEqual(last, "1 graphs by vertices, edges and fewest bends, 1 not drawn (wide); 3 refused,"
                         " 2 by degree, 1 by loop.")

    def test_a_plot(self) -> None:
        plot = self.folder / "plot.svg"
        self.said("collect", *self.reports.values(), "--svg", plot)
        picture = xml.fromstring(plot.read_text())
        self.assertEqual(numbers(picture, "width", "height"), (760, 460))
        texts = [(str(one.text), *numbers(one, "x", "y")) for one in picture.iter(SVG + "text")]
        across = {int(text): x for text, x, y in texts if text.isdecimal() and y > 400 and x >= 80}
        up = {int(text): y for text, x, y in texts if text.isdecimal() and x < 80}
        self.assertEqual(sorted(across), list(range(9)))
        self.assertEqual(sorted(up), [1, 10])
        axes = next(str(one.get("d")) for one in picture.iter(SVG + "path") if one.get("fill") == "none"
                    and "H" in str(one.get("d")))
        left, top, bottom, right = map(float, re.findall(r"[\d.]+", axes))
        self.assertEqual((across[0], across[8], up[1], up[10]), (left, right, bottom, top))
        self.assertIn(("fewest bends", (left + right) // 2, bottom + 45), texts)
        dots = [numbers(one, "cx", "cy") for one in picture.iter(SVG + "circle")]
        wanted = []
        for rank, (vertices, rows) in enumerate(sorted(TABLE.items())):
            together: Counter[int] = sum((Counter(row) for row in rows.values()), Counter())
            places = {bends: (across[bends], up[1] + (up[10] - up[1]) * math.log10(count)) for bends,
                      count in together.items()}
            wanted += [places[bends] for bends in sorted(places)]
            wanted += [(x - 18, y) for text, x, y in texts if text == f"{vertices} vertices"]
            colour = [one.get("stroke") for one in picture.iter(SVG + "path")]
            steps = ["M" if bends - 1 not in together else "L" for bends in sorted(together)]
            paths = [re.findall("[ML]", str(one.get("d"))) for one in picture.iter(SVG + "path")
                     if one.get("stroke-width") == "2"]
            self.assertEqual(paths[2 * rank], steps)
            self.assertGreater(len(set(colour)), 3)
        self.assertEqual(len(dots), len(wanted))
        for (x, y), (u, v) in zip(dots, wanted):
            self.assertAlmostEqual(x, u, delta=.15)
            self.assertAlmostEqual(y, v, delta=.15)
            self.assertEqual((x, y), (round(x, 1), round(y, 1)))

    def test_refusals(self) -> None:
        four, five = self.reports.values()
        for change, said in ((self.text[:-1], "line 8: not a line of a report, or truncated"),
                             (self.text.replace("complete", "memory"), "line 8: the file ends memory, not complete"),
                             (self.text.replace("graphs=6", "graphs=5"), "line 8: 6 graphs precede it, not 5"),
                             (self.text.replace("graph 3", "graph 4", 1), "line 4: graph 4 where graph 3 is expected"),
                             (self.text.replace("graph 3 ok n=4 m=4 f=2 bends=1 drawn=yes", "graph 3 memory"),
                              "line 4: memory ran out for graph 3"),
                             (self.text.partition("end ")[0], "no 'end complete' after line 7"),
                             (self.text.partition("end ")[0] + "file 2\n",
                              "line 8: the previous file has no 'end complete'"),
                             ("file 1\nrecord 1 n=3 bytes=10\nend complete records=1\n",
                              "line 2: not a line of a report"),
                             ("file 1\nend complete records=0\n", "line 2: not a line of a report"),
                             ("", "no 'end complete'"),
                             (self.text.replace(" drawn=yes", ""), "line 2: not a line of a report")):
            self.assertEqual(self.refused(re.escape(said), "collect", self.written("x.report", change)), "")
        self.refused("planar_d4_n4 is given 2 times", "collect", four, five, four)
        self.refused("No such file", "collect", self.folder / "none.report")
        self.refused("the folder has no parts", "collect", support.CORPUS)
        self.refused("these files have no report: .*cubic60.*planar_d4_n6", "collect", four, five, "--of",
                     support.CORPUS)
        parts = [self.written(f"a-part-{number}-of-3.report", self.text) for number in (0, 1, 2)]
        self.assertIn("18 graphs", self.said("collect", *parts))
        self.refused("a: of 3 parts, these are missing: 0, 2", "collect", parts[1])
        twice = self.written("a-part-01-of-3.report", self.text)
        self.refused("a: part 1 of 3 is given twice", "collect", *parts, twice)
        folder = self.folder / "wanted"
        folder.mkdir()
        (folder / "planar_d4_n4.pc").touch()
        self.assertIn("6 graphs", self.said("collect", four, "--of", folder))


class Split(Case):
    def test_parts(self) -> None:
        records = split(N5.read_bytes())[0]
        for most, count in ((7, 3), (20, 1), (19, 2), (1, 20)):
            folder = self.folder / str(most)
            self.assertIn(f": 20 records in {count} parts", self.said("split", N5, folder, "-k", most))
            names = sorted(path.name for path in folder.iterdir())
            self.assertEqual(names, [f"planar_d4_n5-{number:04}.pc" for number in range(1, count + 1)])
            parts = [split((folder / name).read_bytes()) for name in names]
            self.assertEqual({ending for _, ending in parts}, {"complete"})
            self.assertEqual([len(found) for found, _ in parts[:-1]], [most] * (count - 1))
            self.assertEqual([record for found, _ in parts for record in found], records)
        self.assertIn("-: 20 records in 1 parts", self.said("split", "-", self.folder / "in", data=N5.read_bytes()))
        self.assertEqual([path.name for path in (self.folder / "in").iterdir()], ["stdin-0001.pc"])

    def test_what_is_not_planar_code_to_its_end(self) -> None:
        for data, said, count in ((HEADER + EDGE + TRIANGLE[:4],
                                   "truncated: record 2, which begins at byte 20, is truncated", 1),
                                  (HEADER + EDGE + EDGE + b"\0",
                                   "large: byte 0 where .*, in record 3, which begins at byte 25", 2),
                                  (HEADER + EDGE + b"\5" + b"\1" * 300,
                                   "oversize: a list of more than 254 neighbours, in record 2", 1),
                                  (b">>planar_cod", "header: it does not begin", 0)):
            path, folder = self.written("x.pc", data), self.folder / "parts"
            self.refused(said, "split", path, folder, status=3)
            self.assertEqual(sum(len(split(part.read_bytes())[0]) for part in folder.iterdir()), count)
            for part in folder.iterdir():
                part.unlink()
        self.refused("none.pc: No such file", "split", self.folder / "none.pc", self.folder)
        self.refused("K must be at least 1", "split", N5, self.folder, "-k", "0", status=2)

    def test_limits_of_a_record(self) -> None:
        """A record of 255 vertices, and a list of 254 neighbours."""
        ring = bytes([255]) + b"".join(bytes([(place + 1) % 255 + 1, (place - 1) % 255 + 1, 0]) for place in range(255))
        hub = bytes([255, *range(2, 256), 0]) + b"\1\0" * 254
        path = self.written("x.pc", HEADER + ring + hub + EDGE)
        self.assertIn("3 records in 1 parts", self.said("split", path, self.folder / "parts"))
        self.assertEqual((self.folder / "parts/x-0001.pc").read_bytes(), path.read_bytes())


class Closed(Case):
    def test_a_reader_that_has_gone(self) -> None:
        """Nothing is said about it."""
        for words, data in ((["svg", str(N5), "--html"], support.program_run("layout", "--json", N5).stdout),
                            (["stream"], CUBIC.read_bytes())):
            reader, writer = os.pipe()
            os.close(reader)
            done = subprocess.run([sys.executable, "-m", "planarbend", *words], input=data, stdout=writer, stderr=subprocess.PIPE,
                                  env=support.variables(PYTHONUNBUFFERED=""), check=False)
            os.close(writer)
            self.assertEqual((done.returncode, done.stderr), (1, b""), words)


class Stream(Case):
    """`stream`, which runs the program on parts of standard input; it needs a process of its own."""

    def ran(self, data: bytes, *words: str, **changes: str) -> tuple[int, list[str]]:
        done = support.ran(["stream", *words], data, **changes)
        return done.returncode, done.stdout.decode().splitlines()

    def test_the_outer_face_that_is_asked_for(self) -> None:
        """The fewest bends of twenty graphs by LEMON, with either choice."""
        for words, wanted in ((["--outer", "best"], 169), (["--outer", "first", "-k", "7"], 176),
                              (["-k", "19", "--json"], 176),
                              (["-k", "5", "--json", "--outer", "best"], 169)):
            status, lines = self.ran(CUBIC.read_bytes(), *words)
            bends = [int(found[1]) for found in (re.search(r'bends"?[=:](\d+)', line) for line in lines) if found]
            self.assertEqual((status, len(bends), sum(bends)), (0, 20, wanted))

    def test_the_status_is_the_greatest_of_all_parts(self) -> None:
        """A program that runs out of memory at its first run alone."""
        program = self.folder / "program"
        ran, report = self.folder / "ran", self.written("report", "file 1\ngraph 1 memory\nend complete graphs=1\n")
        lost = f"cat {report}; : > {ran}; cat > /dev/null; exit 3"
        program.write_text(f"#!/bin/sh\nif [ ! -e {ran} ]; then {lost}; fi\nexec {os.environ['PLANARBEND']} \"$@\"\n")
        program.chmod(program.stat().st_mode | stat.S_IXUSR)
        with mock.patch.dict(os.environ, PLANARBEND=str(program)):
            status, lines = self.ran(HEADER + EDGE + TRIANGLE + EDGE, "-k", "1")
        self.assertEqual(lines, ["file 1", "graph 1 memory", "graph 2 ok n=3 m=3 f=2 bends=1 drawn=yes",
                                 "graph 3 ok n=2 m=1 f=1 bends=0 drawn=yes", "end complete graphs=3"])
        self.assertEqual(status, 3)

    def test_a_program_that_fails(self) -> None:
        program = self.folder / "program"
        program.write_text("#!/bin/sh\ncat > /dev/null\nexit 1\n")
        program.chmod(program.stat().st_mode | stat.S_IXUSR)
        self.assertEqual(self.ran(HEADER + EDGE, PLANARBEND=str(program)), (1, ["file 1"]))
        done = support.ran(["stream"], HEADER + EDGE, PLANARBEND=str(self.folder / "none"))
        self.assertEqual((done.returncode, b"is not a program" in done.stderr), (1, True))
        for word in ("0", "1000001", "x"):
            self.assertEqual(support.said(["stream", "-k", word])[0], 2)


class Help(Case):
    def test_each_command_tells_of_itself(self) -> None:
        text = self.said("--help")
        for command in ("draw", "svg", "cover", "split", "stream", "collect"):
            self.assertRegex(text, rf"(?m)^  {command} +\w+")
            status, out, _ = support.said([command, "--help"])
            self.assertEqual((status, f"usage: planarbend {command}" in out or "usage: planarbend-draw" in out),
                             (0, True))
        self.assertRegex(support.said(["split", "--help"])[1], r"(?s)usage: .* FOLDER\n.*\n +FOLDER +the folder for the parts")
        for words in ([], ["no-command"]):
            status, out, errors = support.said(words)
            self.assertEqual((status, out, errors), (2, "", text))


if __name__ == "__main__":
    unittest.main()
