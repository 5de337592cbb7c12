"""Pictures of examples/draw.py, as SVG: names with all kinds of letters from each format, boxes and lines that lie apart, a face
that is asked for outside, PNG and PDF."""
from __future__ import annotations

import itertools
import json
import random
import subprocess
import sys
import tempfile
import unittest
import xml.etree.ElementTree as xml
from pathlib import Path
from typing import Any

import support
from drawing_checker import check, on_outer_face
from planarbend.draw import Options, draw
from planarbend.graph import Edge, Graph, Vertex
from test_stream import SEED, random_graph

SVG = "{http://www.w3.org/2000/svg}"
FACES = 20
NAMES = ["a part", 'say "x"', "<b>&amp;", "Größe é", "日本", "-- no --", "#1", "x:y"]
QUOTED = ['"' + name.replace('"', '\\"') + '"' for name in NAMES]
RING = list(itertools.pairwise(range(len(NAMES)))) + [(len(NAMES) - 1, 0)]
FORMS = {
    "ring.txt": "\n".join(f"{QUOTED[tail]} -- {QUOTED[head]}" for tail, head in RING),
    "words.txt": "\n".join(f"{QUOTED[tail]} {QUOTED[head]}  # a comment" for tail, head in RING),
    "ring.json": json.dumps({"directed": False, "multigraph": False, "graph": {},
                             "nodes": [{"id": number, "name": name} for number, name in enumerate(NAMES)],
                             "links": [{"source": tail, "target": head} for tail, head in RING]}),
    "ring.dot": ("graph {" + "".join(f"{QUOTED[tail]} -- {QUOTED[head]};" for tail, head in RING) + "}").replace("&", "&amp;"),
}
SEVERAL = "a b\nb c\nc a\nd e\nalone\n" + "\n".join(f"h{one} h{one + 1}" for one in range(12))
Box = tuple[float, float, float, float]  # left, top, right and bottom


def script(*words: object) -> subprocess.CompletedProcess[str]:
    """A run of examples/draw.py."""
    return subprocess.run([sys.executable, support.EXAMPLES / "draw.py", *map(str, words)], capture_output=True, text=True, check=False)


def boxes_in(picture: Any) -> list[Box]:
    boxes = [box for box in picture.iter(SVG + "rect") if "x" in box.attrib]
    sides = [[float(box.get(key)) for key in ("x", "y", "width", "height")] for box in boxes]
    return [(x, y, x + width, y + height) for x, y, width, height in sides]


def lines_in(picture: Any) -> list[list[tuple[float, ...]]]:
    """The points of each line of a picture."""
    return [[tuple(map(float, point.split(","))) for point in line.get("points").split()]
            for line in picture.iter(SVG + "polyline")]


def overlap(one: Box, other: Box, room: float = 0.0) -> bool:
    """Whether two boxes overlap, where each is as much wider all round."""
    return (one[0] - room < other[2] + room and other[0] - room < one[2] + room
            and one[1] - room < other[3] + room and other[1] - room < one[3] + room)


@support.needs_networkx
@support.needs_graphviz
class Pictures(unittest.TestCase):
    def setUp(self) -> None:
        folder = tempfile.TemporaryDirectory()
        self.addCleanup(folder.cleanup)
        self.folder = Path(folder.name)

    def written(self, name: str, text: str) -> Path:
        path = self.folder / name
        path.write_text(text + "\n", encoding="utf-8")
        return path

    def picture(self, path: Path) -> Any:
        """The picture of a file: no box overlaps another or a line, and lines run along the axes and cross nowhere."""
        ran = script(path, "-o", "-")
        self.assertEqual(ran.returncode, 0, ran.stderr)
        picture = xml.fromstring(ran.stdout)
        boxes, pieces = boxes_in(picture), []
        for one, other in itertools.combinations(boxes, 2):
            self.assertFalse(overlap(one, other), "two boxes overlap")
        for number, line in enumerate(lines_in(picture)):
            for (x, y), (right, end) in itertools.pairwise(line):
                self.assertTrue(x == right or y == end, "a line that is not along an axis")
                pieces.append((number, (min(x, right), min(y, end), max(x, right), max(y, end))))
        for _, piece in pieces:
            self.assertFalse(any(overlap(piece, box, -.1) for box in boxes), "a line over a box")
        for (one, piece), (other, second) in itertools.combinations(pieces, 2):
            self.assertFalse(one != other and overlap(piece, second, .5), "two lines meet")
        return picture

    def test_formats(self) -> None:
        import networkx

        ring = networkx.Graph()
        ring.add_nodes_from((number, {"label": name}) for number, name in enumerate(NAMES))
        ring.add_edges_from(RING)
        networkx.write_graphml(ring, self.folder / "ring.graphml")
        paths = [self.written(name, text) for name, text in FORMS.items()]
        for path in [*paths, self.folder / "ring.graphml"]:
            with self.subTest(path.name):
                picture = self.picture(path)
                self.assertEqual(sorted(text.text for text in picture.iter(SVG + "text")), sorted(NAMES))
                self.assertEqual(len(lines_in(picture)), len(RING))

    def test_examples(self) -> None:
        for name in ("radio.txt", "house.dot", "tcp.dot"):
            with self.subTest(name):
                self.picture(support.EXAMPLES / name)
        self.assertEqual(len(boxes_in(self.picture(self.written("several.txt", SEVERAL)))), 19)

    @support.needs_rsvg
    def test_png_and_pdf(self) -> None:
        for name, start in (("radio.png", b"\x89PNG"), ("radio.pdf", b"%PDF")):
            self.assertEqual(script(support.EXAMPLES / "radio.txt", "-o", self.folder / name).returncode, 0)
            self.assertEqual((self.folder / name).read_bytes()[:4], start)

    def test_nothing_is_written_of_what_is_refused(self) -> None:
        out = self.folder / "refused.svg"
        for text, said in (("a -- b -- ", ":1: a connection lacks a name"),
                           (">>planar_code<<", "record 1, which begins at byte 15, is truncated"),
                           ("\n".join(f"v{number} v{number + 1}" for number in range(300)), "255"),
                           ("graph { a -> b }", ":1: Graphviz: syntax error")):
            with self.subTest(text[:20]):
                ran = script(self.written("refused.txt", text), "-o", out)
                self.assertEqual((ran.returncode, out.exists()), (1, False))
                self.assertIn(said, ran.stderr)

    def test_a_face_that_is_asked_for(self) -> None:
        """All vertices that were named are on the outer face of the drawings of random graphs."""
        import networkx

        source = random.Random(SEED)
        for _ in range(FACES):
            graph = random_graph(source, source.randint(5, 25))
            embedding = networkx.check_planarity(graph)[1]
            face = embedding.traverse_face(*source.choice(sorted(embedding.edges)))
            given = Graph([Vertex(str(vertex), str(vertex)) for vertex in range(len(graph))], [Edge(*edge) for edge in graph.edges])
            drawing = json.loads(draw(given, Options(outer=sorted(set(face)))).json())
            self.assertEqual(check(drawing, list(graph.edges)).crossings, 0)
            self.assertLessEqual(set(face), on_outer_face(drawing))
