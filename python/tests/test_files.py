"""Drawings as DOT, GraphML and GML, read by Graphviz and networkx."""
from __future__ import annotations

import itertools
import json
import re
import subprocess
import tempfile
import unittest
import xml.etree.ElementTree as xml
from pathlib import Path
from typing import Any

import support
from planarbend.draw import draw
from planarbend.graph import Kind
from planarbend.readers import read
from svg_reader import SVG
from test_attributes import EVERYTHING

XLINK = "{http://www.w3.org/1999/xlink}"
K6 = "\n".join(f"v{one} v{other}" for other in range(6) for one in range(other)) + "\n"
GROUPS = support.GRAPHS["groups.dot"].read_text(encoding="utf-8")
FILES = {"everything.dot": EVERYTHING, "k6.txt": K6, "groups.dot": GROUPS,
         "odd.dot": 'graph { "a\\"b" [label="x\\\\y <&> \\"z\\"\\nnext"]; "c;{" -- "a\\"b" [label="\\"l\\""];'
                    ' "é" -- "c;{"; "é" -- "é" }'}
WRITTEN: dict[tuple[str, str], str] = {}
Points = list[tuple[float, float]]


def others(errors: str) -> str:
    """What was said, but that the program draws no frames."""
    return "".join(line for line in errors.splitlines() if "drawn without frames" not in line)


@support.needs_networkx
@support.needs_graphviz
def setUpModule() -> None:
    with tempfile.TemporaryDirectory() as folder:
        for name, text in FILES.items():
            path = Path(folder) / name
            path.write_text(text, encoding="utf-8")
            for ending in ("json", "gv", "graphml", "gml"):
                out = path.with_suffix("." + ending)
                status, said, errors = support.said(["draw", path, "-o", out])
                assert (status, said, others(errors)) == (0, "", ""), errors
                WRITTEN[name, ending] = out.read_text(encoding="utf-8")


def drawing(name: str) -> dict[str, Any]:
    found: dict[str, Any] = json.loads(WRITTEN[name, "json"])
    return found


def meetings(lines: list[Points]) -> int:
    """The number of points where an upright piece of one line crosses a level piece of another."""
    pieces = [(number, *sorted(pair)) for number, line in enumerate(lines) for pair in itertools.pairwise(line)]
    upright = [(number, a, b) for number, a, b in pieces if abs(a[0] - b[0]) < abs(a[1] - b[1])]
    level = [(number, a, b) for number, a, b in pieces if abs(a[0] - b[0]) > abs(a[1] - b[1])]
    return sum(one != other and c[0] + .5 < a[0] < d[0] - .5 and min(a[1], b[1]) + .5 < c[1] < max(a[1], b[1]) - .5
               for one, a, b in upright for other, c, d in level)


class ByGraphviz(unittest.TestCase):
    """`neato -n2` shows the written DOT with the same boxes and lines."""

    def shown(self, name: str) -> tuple[dict[str, tuple[float, ...]], list[Points]]:
        """The boxes by name, and the lines, moved so that the lowest node is where the drawing has it."""
        ran = subprocess.run(["neato", "-n2", "-Tsvg"], input=WRITTEN[name, "gv"].encode(), capture_output=True, check=True)
        self.assertEqual(ran.stderr, b"")
        boxes, lines = {}, []
        for group in xml.fromstring(ran.stdout).iter(SVG + "g"):
            title = group.findtext(SVG + "title") or ""
            shapes = [one for name in ("polygon", "ellipse", "path", "polyline") for one in group.iter(SVG + name)]
            if group.get("class") == "node" and shapes:
                boxes[title] = extent(shapes)
            elif group.get("class") == "edge" and shapes:
                path = next(one for one in shapes if one.tag == SVG + "path").get("d", "")
                points = [(float(x), float(y)) for x, y in re.findall(r"(-?[\d.]+),(-?[\d.]+)", path)]
                lines.append(points[::3])
        return boxes, lines

    def test_boxes(self) -> None:
        for name in FILES:
            boxes, told = self.shown(name)[0], drawing(name)["vertices"]
            wanted = {one["name"]: one["box"] for one in told if one["name"] in boxes}
            self.assertGreaterEqual(len(wanted), len(told) - 2)  # one is invisible, one without an outline
            first = next(iter(wanted))
            move = [boxes[first][axis] - wanted[first][axis] for axis in (0, 1)]
            for title, box in wanted.items():
                with self.subTest(name, node=title):
                    for side, (found, here) in enumerate(zip(boxes[title], box, strict=True)):
                        self.assertAlmostEqual(found - move[side % 2], here, delta=1)

    def test_lines_and_crossings(self) -> None:
        for name in FILES:
            lines, told = self.shown(name)[1], drawing(name)
            if name != "everything.dot":
                self.assertEqual(sorted(map(len, lines)), sorted(len(edge["points"]) for edge in told["edges"]))
                self.assertEqual(meetings(lines), len(told["crossings"]))

    def said(self, text: str) -> dict[str, dict[str, str]]:
        """The attributes of each node as Graphviz reads them."""
        ran = subprocess.run(["dot", "-Tjson0", "-Kneato", "-n2"], input=text.encode(), capture_output=True, check=True)
        return {one["name"]: one for one in json.loads(ran.stdout)["objects"]}

    def test_styles(self) -> None:
        found = self.said(WRITTEN["everything.dot", "gv"])
        rounded = {name for name in "acnoqr" if "rounded" in found[name]["style"]}
        self.assertEqual(rounded, {"o", "r"})  # style=rounded, and Mrecord
        self.assertEqual(sum(bool(one.get("tooltip")) for one in found.values()), EVERYTHING.count("tooltip=") - 1)  # one of an edge
        self.assertIn('tooltip="<dots>"', WRITTEN["everything.dot", "gv"])

    def test_nets(self) -> None:
        """Nets are lines and points of the same size."""
        made = draw(read(support.GRAPHS["flasher.kicad_pcb"].read_bytes(), "flasher.kicad_pcb"))
        found = self.said(made.text("dot"))
        lengths = set()
        for vertex, (left, top, right, bottom) in zip(made.graph.vertices, made.boxes):
            if vertex.kind is Kind.NET:
                wide, high = (72 * float(found[vertex.name][key]) for key in ("width", "height"))
                self.assertEqual("point" == found[vertex.name].get("shape"), (left, top) == (right, bottom))
                self.assertLess(max(wide - (right - left), high - (bottom - top)), 7)
                self.assertGreater(min(wide - (right - left), high - (bottom - top)), -.5)
                lengths.add(round(max(wide, high)))
        self.assertGreater(max(lengths), 20)

    def test_arrows(self) -> None:
        """Each head is drawn at its own end, with the tip where the drawing's line ends."""
        made = draw(read(b"digraph { a -> b [dir=back]; b -> c; c -> d [dir=both]; d -> e [dir=none] }", "it.gv"))
        ran = subprocess.run(["neato", "-n2", "-Tsvg"], input=made.text("dot").encode(), capture_output=True, check=True)
        groups = {one.findtext(SVG + "title"): one for one in xml.fromstring(ran.stdout).iter(SVG + "g") if one.get("class") == "edge"}
        for (pair, ends), line in zip((("a->b", [0]), ("b->c", [-1]), ("c->d", [0, -1]), ("d->e", [])), made.lines, strict=True):
            path, *heads = [extent([one]) for kind in ("path", "polygon") for one in groups[pair].iter(SVG + kind)]
            self.assertEqual(len(heads), len(ends), pair)
            across = [abs(line[0][axis] - line[-1][axis]) for axis in (0, 1)]
            found = [path[2] - path[0], path[3] - path[1]]
            self.assertAlmostEqual(sum(across) - sum(found), 8 * len(ends), delta=2.5, msg=pair)

    def test_labels(self) -> None:
        ran = subprocess.run(["dot", "-Tjson0", "-Kneato", "-n2"], input=WRITTEN["odd.dot", "gv"].encode(),
                             capture_output=True, check=True)
        told = json.loads(ran.stdout)
        label = next(one["label"] for one in told["objects"] if one["name"] == 'a"b')
        self.assertEqual(label, 'x\\\\y <&>\\n"z"\\nnext' if "\\n\"z" in label else 'x\\\\y <&> "z"\\nnext')
        self.assertIn('"l"', [edge.get("label") for edge in told["edges"]])


def extent(shapes: list[xml.Element]) -> tuple[float, ...]:
    """The box of what is drawn."""
    points: Points = []
    for one in shapes:
        if one.tag == SVG + "ellipse":
            x, y, wide, high = (float(one.get(key, "nan")) for key in ("cx", "cy", "rx", "ry"))
            points += [(x - wide, y - high), (x + wide, y + high)]
        else:
            pairs = re.findall(r"(-?[\d.]+),(-?[\d.]+)", one.get("points") or one.get("d", ""))
            points += [(float(x), float(y)) for x, y in pairs]
    return (min(x for x, _ in points), min(y for _, y in points), max(x for x, _ in points), max(y for _, y in points))


class ByNetworkx(unittest.TestCase):
    def middles(self, name: str) -> list[tuple[float, float]]:
        return [((box[0] + box[2]) / 2, (box[1] + box[3]) / 2) for box in (one["box"] for one in drawing(name)["vertices"])]

    def test_gml(self) -> None:
        import networkx

        for name in FILES:
            found, told = networkx.parse_gml(WRITTEN[name, "gml"], label="id"), drawing(name)
            values = [value for _, value in sorted(found.nodes(data=True))]
            self.assertEqual([(one["name"], one["label"]) for one in values],
                             [(one["name"], one["label"]) for one in told["vertices"]])
            for one, (x, y) in zip(values, self.middles(name), strict=True):
                self.assertAlmostEqual(one["graphics"]["x"], x)
                self.assertAlmostEqual(one["graphics"]["y"], y)
            lines = sorted([[point["x"], point["y"]] for point in value["graphics"]["Line"]["point"]]
                           for _, _, value in found.edges(data=True))
            self.assertEqual(lines, sorted(edge["points"] for edge in told["edges"]))

    def test_graphml(self) -> None:
        import networkx

        for name in FILES:
            found, told = networkx.parse_graphml(WRITTEN[name, "graphml"], force_multigraph=True), drawing(name)
            self.assertEqual(list(found), [one["name"] for one in told["vertices"]])
            for (_, one), (x, y), vertex in zip(found.nodes(data=True), self.middles(name), told["vertices"], strict=True):
                self.assertAlmostEqual(one["x"], x)
                self.assertAlmostEqual(one["y"], y)
                self.assertEqual(one.get("label") or "", vertex["label"])
            self.assertEqual(found.number_of_edges(), len(told["edges"]))

    def test_what_is_written_is_drawn_again(self) -> None:
        for name, ending in itertools.product(FILES, ("gv", "graphml", "gml")):
            with self.subTest(name, ending=ending):
                status, out, errors = support.said(["draw", "-", "-o", "-", "--effort", "0"], WRITTEN[name, ending])
                self.assertEqual((status, others(errors)), (0, ""))


class Notebook(unittest.TestCase):
    def test_a_drawing_shows_itself(self) -> None:
        from planarbend.draw import draw
        from planarbend.readers import read

        found = draw(read(b"a b\nb c\n", "x.txt"))._repr_svg_()
        self.assertEqual(sorted(one.text or "" for one in xml.fromstring(found).iter(SVG + "text")), ["a", "b", "c"])


if __name__ == "__main__":
    unittest.main()
