"""What `planarbend draw` writes is read back: the graph from SVG, JSON and planar_code, the size from PNG and PDF."""
from __future__ import annotations

import itertools
import json
import math
import re
import struct
import tempfile
import unittest
from collections import Counter
from pathlib import Path
from typing import Any

import support
from drawing_checker import check
from planarbend.layout.planar_code import lists_of, split
from svg_reader import Picture, Point, meets, on_border, read_svg

# Two components with labels on everything, none like the name; a loop, parallel edges, all arrows, and a box alone.
LABELLED = """digraph {
a [label="Alpha"]; b [label="Beta"]; c [label="Gam\\nma"]; d [label="Delta"]; e [label="Eps"]; p [label="Pi"];
q [label="Qu"]; r [label="Rho <&>"]; z [label="Alone"];
a -> b [label="ab"]; b -> c [label="bc" dir=back]; c -> a [label="ca" dir=both]; b -> d [label="bd" dir=none];
d -> a [label="two\\nlines"]; c -> d; e -> b [label="eb"]; p -> q [label="pq"]; q -> p [label="qp"];
q -> r [label="qr" dir=back];
r -> r [label="rr"];
}"""
VERTICES = [("a", "Alpha"), ("b", "Beta"), ("c", "Gam\nma"), ("d", "Delta"), ("e", "Eps"), ("p", "Pi"), ("q", "Qu"),
            ("r", "Rho <&>"),
            ("z", "Alone")]
EDGES = [("a", "b", "forward", "ab"), ("b", "c", "back", "bc"), ("c", "a", "both", "ca"), ("b", "d", "none", "bd"),
         ("d", "a", "forward", "two\nlines"), ("c", "d", "forward", ""), ("e", "b", "forward", "eb"),
         ("p", "q", "forward", "pq"),
         ("q", "p", "forward", "qp"), ("q", "r", "back", "qr"), ("r", "r", "forward", "rr")]
K5 = "\n".join(f"v{one} v{other}" for other in range(5) for one in range(other)) + "\n"
FRAMES = "\n".join(["a b", "b c", "c a", "d e", "e f", "f d", "a d", "b e", "c f", "x y", "y z", "alone"]) + "\n"
NET = (support.EXAMPLES / "amplifier.net").read_text(encoding="utf-8")
FILES = {"labelled.dot": LABELLED, "k5.txt": K5, "frames.txt": FRAMES, "amplifier.net": NET}
ENDINGS = {"labelled.dot": ("svg", "json", "pc", "png", "pdf"), "k5.txt": ("json", "pc", "svg"),
           "frames.txt": ("json", "pc"),
           "amplifier.net": ("svg", "json")}
WRITTEN: dict[tuple[str, str], bytes] = {}  # what was written of each file, by its ending


@support.needs_networkx
@support.needs_graphviz
def setUpModule() -> None:
    with tempfile.TemporaryDirectory() as folder:
        for name, text in FILES.items():
            path = Path(folder) / name
            path.write_text(text, encoding="utf-8")
            for ending in ENDINGS[name]:
                out = path.with_suffix("." + ending)
                words = ["--scale", "2.5"] if ending == "png" else []
                words += ["--format", "netlist"] if name.endswith(".net") else []  # a graph, not a schematic
                if ending in ("png", "pdf") and not support.has_rsvg:
                    continue
                status, said, errors = support.said(["draw", path, "-o", out, *words])
                assert (status, said, errors) == (0, "", ""), errors
                WRITTEN[name, ending] = out.read_bytes()


def drawing(name: str) -> dict[str, Any]:
    found: dict[str, Any] = json.loads(WRITTEN[name, "json"])
    return found


def picture(name: str) -> Picture:
    return read_svg(WRITTEN[name, "svg"])


class Svg(unittest.TestCase):
    def test_the_graph_is_read_back(self) -> None:
        found, label = picture("labelled.dot"), dict(VERTICES)
        self.assertEqual(sorted(vertex.label for vertex in found.vertices), sorted(label.values()))
        self.assertEqual(found.graph(), Counter((label[tail], label[head], arrow, text) for tail, head, arrow,
                                                text in EDGES))
        self.assertEqual(found.names, [])

    def test_all_lies_where_the_json_says(self) -> None:
        for name in ("labelled.dot", "k5.txt", "amplifier.net"):
            found, told = picture(name), drawing(name)
            self.assertEqual(found.size, tuple(told["size"]))
            boxes = {vertex["label"]: [round(side, 1) for side in vertex["box"]] for vertex in told["vertices"]
                     if vertex["kind"] != "net"}
            for vertex in found.vertices:
                for side, wanted in zip(vertex.box, boxes.pop(vertex.label), strict=True):
                    self.assertAlmostEqual(side, wanted, delta=.11)
            self.assertEqual(boxes, {})
            lines = Counter(tuple((round(x, 1), round(y, 1)) for x, y in edge["points"]) for edge in told["edges"])
            self.assertEqual(Counter(tuple(edge.points) for edge in found.edges), lines)

    def test_colours(self) -> None:
        """Each kind of box has its own colour, and parts of circuits have square corners."""
        kinds: dict[str, set[tuple[str, bool]]] = {}
        for name in ("labelled.dot", "amplifier.net"):
            kind = {vertex["label"]: vertex["kind"] for vertex in drawing(name)["vertices"]}
            for vertex in picture(name).vertices:
                kinds.setdefault(kind[vertex.label], set()).add((vertex.fill, vertex.corner > 0))
        self.assertEqual({kind: len(looks) for kind, looks in kinds.items()}, {"vertex": 1, "part": 1})
        self.assertNotEqual(min(kinds["vertex"])[0], min(kinds["part"])[0])
        self.assertEqual((min(kinds["vertex"])[1], min(kinds["part"])[1]), (True, False))

    def test_nets_are_joined_with_dots_where_three_lines_meet(self) -> None:
        found, told = picture("amplifier.net"), drawing("amplifier.net")
        nets = {vertex["label"]: vertex["box"] for vertex in told["vertices"] if vertex["kind"] == "net"}
        meeting: Counter[Point] = Counter()
        for piece in found.pieces:
            meeting.update(piece)
        at_nets = [end for edge in found.edges for end, box in ((edge.points[0], edge.tail),
                                                                (edge.points[-1], edge.head)) if box is None]
        meeting.update(at_nets)
        self.assertEqual(sorted(found.dots), sorted(point for point, count in meeting.items() if count > 2))
        self.assertGreater(len(found.dots), 2)
        for net, (left, top, right, bottom) in nets.items():
            grown = left - .1, top - .1, right + .1, bottom + .1
            ends = {point for point in at_nets if on_border(point, grown) or meets([point, point], grown)}
            own = [piece for piece in found.pieces if meets(piece, grown)]
            reached, waiting = set(), [min(ends)]
            while waiting:
                point = waiting.pop()
                reached.add(point)
                waiting += [end for piece in own if point in piece for end in piece if end not in reached]
            self.assertLessEqual(ends, reached, f"{net}: not all of its lines are joined")

    def test_names_of_nets_lie_at_their_lines(self) -> None:
        found, told = picture("amplifier.net"), drawing("amplifier.net")
        nets = {vertex["label"]: number for number, vertex in enumerate(told["vertices"]) if vertex["kind"] == "net"}
        self.assertEqual(sorted(one.text for one in found.names), ["GND", "VCC"])
        for one in found.names:
            number, (x, y) = nets[one.text], one.at
            room = x - 3 * one.size, y - 2 * one.size, x + 3 * one.size, y + 2 * one.size
            own = [edge["points"] for edge in told["edges"] if number in (edge["tail"], edge["head"])]
            own.append([told["vertices"][number]["box"][:2], told["vertices"][number]["box"][2:]])
            self.assertTrue(any(meets(line, room) for line in own), f"{one.text} lies at no line of its net")
            self.assertFalse(any(meets(edge.points, (x - one.size, y - one.size / 2, x + one.size, y + one.size / 2))
                                 for edge in found.edges), f"{one.text} lies on a line")


class Json(unittest.TestCase):
    def test_names_labels_kinds_and_arrows(self) -> None:
        told, number = drawing("labelled.dot"), {name: place for place, (name, _) in enumerate(VERTICES)}
        self.assertEqual([(one["name"], one["label"], one["kind"]) for one in told["vertices"]],
                         [(name, label, "vertex") for name, label in VERTICES])
        edges = [(number[tail], number[head], arrow, label) for tail, head, arrow, label in EDGES]
        keys = ("tail", "head", "arrow", "label")
        self.assertEqual(Counter(tuple(one[key] for key in keys) for one in told["edges"]), Counter(edges))
        check(told)

    def test_each_label_lies_on_its_edge(self) -> None:
        for edge in drawing("labelled.dot")["edges"]:
            self.assertEqual("label_box" in edge, edge["label"] != "")
            if edge["label"]:
                self.assertTrue(meets(edge["points"], tuple(edge["label_box"])), edge["label"])

    def test_bends_and_crossings(self) -> None:
        told = drawing("k5.txt")
        self.assertEqual(check(told).crossings, 1)
        self.assertEqual(len(told["crossings"]), 1)
        self.assertEqual(told["bends"], sum(len(edge["points"]) - 2 for edge in told["edges"]))


class PlanarCode(unittest.TestCase):
    def test_records_are_the_drawing(self) -> None:
        """A record for each component with an edge: round each vertex and crossing its neighbours as they are drawn."""
        for name, count in (("labelled.dot", 2), ("k5.txt", 1), ("frames.txt", 2)):
            records, ending = split(WRITTEN[name, "pc"])
            self.assertEqual((ending, len(records)), ("complete", count))
            with self.subTest(name):
                self.assertEqual([lists_of(record) for record in records],
                                 embedding_of(drawing(name), map(lists_of, records)))


def embedding_of(told: dict[str, Any], wanted: Any) -> list[list[list[int]]]:
    """The neighbour lists of each component of a drawing; each list begins where the wanted one does."""
    count = len(told["vertices"])
    lines = {number: edge["points"] for number, edge in enumerate(told["edges"]) if edge["tail"] != edge["head"]}
    near: dict[int, list[tuple[float, int]]] = {node: [] for node in range(count + len(told["crossings"]))}
    for number, line in lines.items():
        ends = told["edges"][number]["tail"], told["edges"][number]["head"]
        stops = sorted((along(line, one["at"]), count + place) for place,
                       one in enumerate(told["crossings"]) if number in one["edges"])
        nodes = [ends[0], *(node for _, node in stops), ends[1]]
        for one, other in itertools.pairwise(nodes):
            near[one].append((clockwise(told, one, line, False), other))
            near[other].append((clockwise(told, other, line, True), one))
    parts: list[list[int]] = []
    for first in range(count):
        if near[first] and not any(first in part for part in parts):
            part, waiting = {first}, [first]
            while waiting:
                fresh = {other for _, other in near[waiting.pop()]} - part
                part |= fresh
                waiting += fresh
            parts.append(sorted(part))
    found = []
    for part, lists in zip(parts, wanted, strict=True):
        number = {node: place for place, node in enumerate(part, 1)}
        found.append([])
        for node, listed in zip(part, lists, strict=True):
            around = [number[other] for _, other in sorted(near[node])]
            turns = [around[place:] + around[:place] for place in range(len(around))]
            found[-1].append(listed if listed in turns else around)
    return found


def along(line: list[Point], point: Point) -> float:
    """How far along a line a point on it lies."""
    far = 0.0
    for (x, y), (u, v) in itertools.pairwise(line):
        if meets([(x, y), (u, v)], (point[0] - .01, point[1] - .01, point[0] + .01, point[1] + .01)):
            return far + abs(point[0] - x) + abs(point[1] - y)
        far += abs(u - x) + abs(v - y)
    raise AssertionError("a crossing that is not on its edge")


def clockwise(told: dict[str, Any], node: int, line: list[Point], backward: bool) -> float:
    """Where a line leaves a box or a crossing, clockwise from the upper left corner."""
    count = len(told["vertices"])
    if node < count:
        (x, y), (left, top, right, bottom) = line[-1] if backward else line[0], told["vertices"][node]["box"]
        wide, high = right - left, bottom - top
        return min((abs(y - top), x - left), (abs(x - right), wide + y - top),
                   (abs(y - bottom), wide + high + right - x),
                   (abs(x - left), 2 * wide + high + bottom - y))[1]
    x, y = told["crossings"][node - count]["at"]
    for (a, b), (c, d) in itertools.pairwise(line):
        if meets([(a, b), (c, d)], (x - .01, y - .01, x + .01, y + .01)):
            across, down = ((a - c), (b - d)) if backward else ((c - a), (d - b))
            return [(0, -1), (1, 0), (0, 1), (-1, 0)].index(((across > 0) - (across < 0), (down > 0) - (down < 0)))
    raise AssertionError("a crossing that is not on its edge")


@support.needs_rsvg
class Converted(unittest.TestCase):
    def test_png_has_the_size_times_the_scale(self) -> None:
        data, (width, height) = WRITTEN["labelled.dot", "png"], drawing("labelled.dot")["size"]
        self.assertEqual(data[:8], b"\x89PNG\r\n\x1a\n")
        for pixels, wanted in zip(struct.unpack(">II", data[16:24]), (2.5 * width, 2.5 * height), strict=True):
            self.assertAlmostEqual(pixels, wanted, delta=1)

    def test_pdf_has_the_size_in_points(self) -> None:
        box = re.search(rb"/MediaBox\s*\[\s*0 0 ([\d.]+) ([\d.]+)", WRITTEN["labelled.dot", "pdf"])
        assert box is not None
        for points, pixels in zip(map(float, box.groups()), drawing("labelled.dot")["size"], strict=True):
            self.assertLessEqual(abs(points - .75 * pixels), math.ceil(.01 * pixels))


if __name__ == "__main__":
    unittest.main()
