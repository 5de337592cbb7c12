"""Frames of clusters: what is laid out, the embedding, and whole drawings, which the judge looks at."""
from __future__ import annotations

import itertools
import json
import random
import re
import unittest
import xml.etree.ElementTree as xml
from collections import Counter

import support
from attribute_judge import Element, Hue, elements_of, in_picture, is_inside
from dot_grammar import PortGrammar
from drawing_checker import on_outer_face
from planarbend.command import named
from planarbend.draw import draw
from planarbend.drawing.drawn import Drawing
from planarbend.drawing.frames import Frame
from planarbend.drawing.ink import beneath
from planarbend.drawing.nest_search import NestSearch, planarized
from planarbend.drawing.nesting import nesting_of
from planarbend.drawing.picture import svg
from planarbend.drawing.plans import Options
from planarbend.drawing.themes import DARK_PAPER
from planarbend.graph import Graph
from planarbend.layout.library import LibraryEngine
from planarbend.programs import PlanarbendError
from planarbend.readers import read
from port_judge import Judge
from test_clusters import CLUSTERS

NESTED = """digraph { compound=true; subgraph cluster_a { label="outer A"; a; subgraph cluster_b { style=filled; b; c; b -> c } subgraph cluster_e {
  label=empty } } subgraph cluster_d { label=D; labelloc=b; d; e } a -> b; c -> d; e -> a; a -> e [lhead=cluster_d, ltail=cluster_a]; f -> c; d -> d }"""
LONELY = """graph { subgraph cluster_a { label=one; a } subgraph cluster_b { label=two; subgraph cluster_c { b; c } d } subgraph cluster_f {
  label="nothing in it" } e }"""
K33 = "graph { subgraph cluster_a { a; b; x } subgraph cluster_b { c; y; z } a -- x; a -- y; a -- z; b -- x; b -- y; b -- z; c -- x; c -- y; c -- z }"
# Any three of four vertices that are all joined have a common face, all four only where two edges cross.
K4 = "graph { a -- b; a -- c; a -- d; b -- c; b -- d; c -- d; subgraph cluster_x { x; y; subgraph cluster_z { z } } x -- a; y -- b; z -- a }"
LABELS = """digraph { compound=true; %s subgraph cluster_a { style=filled; fillcolor=lightblue; a; x; subgraph cluster_b { style="filled,rounded"; fillcolor="#ffcc0080"
  b -> c [label="in b", taillabel=t, headlabel=h, arrowhead=odiamond, dir=both] subgraph cluster_e { c } } a -> x [label="in a", arrowhead=odot, fontcolor=blue] }
  subgraph cluster_d { label=plain; style=filled; fillcolor=none; d -> e [label="in d", arrowhead=odot] subgraph cluster_g { style="filled,invis"
  fillcolor=red; g -> e [label="in g"] } } a -> e [label=between]; c -> d [label="c to d", arrowhead=odot]; a -> b [label=over]
  y -> x [lhead=cluster_a, arrowhead=odot] }"""
WHEEL = ("graph { h; subgraph cluster_a { h; w1; w2; w3; w4 } subgraph cluster_b { w5; w6; w7; w8; w9; w10 } "
         + "; ".join(f"h -- w{one}; w{one} -- w{one % 10 + 1}" for one in range(1, 11)) + "}")
RECORDS = """graph { node [shape=record]; subgraph cluster_in { subgraph cluster_r { r [label="<p> x|<q> y"] } } u; v; r:p -- u; r:q -- v; u -- v }"""


def of(text: str) -> Graph:
    """The graph of a text."""
    return read(text.encode(), "it.gv", "dot")


class Plain(PortGrammar):
    """A file with clusters, and without ports."""

    def node(self, name: str) -> str:
        self.ports[name] = []
        return self.some(["", " [shape=box]", " [shape=circle]"])

    def end(self, name: str) -> str:
        return name


@support.needs_graphviz
class Embedded(unittest.TestCase):
    def test_what_is_laid_out(self) -> None:
        """Six vertices, a stub at each end at a frame, and the box of the empty cluster; all is connected, and each frame is left."""
        graph = of(NESTED)
        nesting = nesting_of(graph)
        self.assertEqual(nesting.drawn, (6, 7))
        self.assertEqual(len(nesting.home), 9)
        self.assertEqual([graph.clusters[one].name for one in nesting.empty], ["cluster_e"])
        self.assertEqual({graph.clusters[one].name for one in nesting.framed}, {"cluster_a", "cluster_b", "cluster_d"})
        for cluster in nesting.framed:
            self.assertTrue(any(cluster in set.union(*nesting.crossed(edge)) for edge in range(len(nesting.ends))))

    def test_frames_are_crossed_once(self) -> None:
        """Of random files: an edge crosses the frames of the clusters in which one of its ends lies, each once, and no other."""
        for seed in range(40):
            graph = of(Plain(seed).file())
            nesting = nesting_of(graph)
            if not nesting.framed:
                continue
            search = NestSearch(nesting, random.Random(seed))
            search.put_all()
            search.improve(2, 200_000)
            planar = search.finish()
            self.assertEqual(len(list(filter(None, planar.rotation))) - len(planar.tail) // 2 + len(planar.walks), 2)
            cluster_of = {dart >> 1: cluster for place, cluster in enumerate(nesting.framed) for side in planar.sides_of(place)
                          for dart in planar.chains[side]}
            for edge, chain in enumerate(planar.chains[:len(nesting.ends)]):
                met = [cluster_of[other >> 1] for dart in chain[1:] for other in planar.rotation[planar.tail[dart]][:2] if other >> 1 in cluster_of]
                if chain:
                    self.assertEqual(sorted(met), sorted(set.union(*nesting.crossed(edge))))

    def test_crossings(self) -> None:
        """K(3,3) has one crossing, also with frames around three vertices each."""
        self.assertEqual({planar.real_crossings for _, planar in planarized(nesting_of(of(K33)))}, {1})

    def test_turns(self) -> None:
        """Each face turns by 4, each frame too; the bends of two squares joined by four edges are none."""
        from planarbend.drawing.turns import Program, outer_faces  # it needs numpy and scipy

        text = "graph { subgraph cluster_a { a--b--c--d--a } subgraph cluster_b { e--f--g--h--e } a--e b--f c--g d--h }"
        planar = planarized(nesting_of(of(text)))[0][1]
        for face in outer_faces(planar):
            found = Program(planar).solved(face)
            for place, walk in enumerate(planar.walks):
                self.assertEqual(sum(found.turns(dart) + 2 - found.angle(dart) for dart in walk), -4 if place == face else 4)
            for place in (0, 1):
                turns = [found.turns(dart) for side in planar.sides_of(place) for dart in planar.chains[side]]
                self.assertEqual((sum(turns), min(turns)), (4, 0))


@support.needs_graphviz
class Under(unittest.TestCase):
    def test_a_box_beside_a_frame(self) -> None:
        """The colour of a frame lies under what is within it, and not under what only meets it."""
        made = Drawing(of("graph { subgraph cluster_a { style=filled; fillcolor=red; a } }"), [(20, 20, 30, 30)], [], [], (70, 70), {}, [],
                       frames={0: Frame((10, 10, 50, 50))})
        self.assertEqual(beneath(made, (10, 10, 50, 50), ["paper"]), [' fill="red"'])
        for box in ((9, 12, 14, 15), (12, 9, 14, 15), (12, 12, 51, 15), (12, 12, 14, 51)):
            self.assertEqual(beneath(made, box, ["paper"]), ["paper"])


@support.needs_graphviz
class Drawn(unittest.TestCase):
    """Whole drawings, by the library."""

    engine: LibraryEngine

    @classmethod
    def setUpClass(cls) -> None:
        try:
            import scipy  # noqa: F401

            cls.engine = LibraryEngine()
        except (ImportError, PlanarbendError, OSError) as fault:
            raise unittest.SkipTest(f"needs scipy and the library: {fault}") from None

    def judged(self, text: str, options: Options = Options()) -> Drawing:
        """The drawing of a text, in which the judge sees no fault, and all frames."""
        graph = of(text)
        made = draw(graph, options, self.engine)
        judge = Judge(text.encode(), made.text("svg"), json.loads(made.text("json")), "\n".join(graph.looks.warnings))
        self.assertEqual(judge.judged(), [], text)
        self.assertEqual(len(made.frames), len(graph.clusters))
        return made

    def test_nested(self) -> None:
        """Nested and empty clusters, labels above and below, a loop, and an edge that begins and ends at frames."""
        made = self.judged(NESTED)
        self.assertEqual(made.crossings, [])
        places = {made.graph.clusters[number].name: frame for number, frame in made.frames.items()}
        for name, is_below in (("cluster_a", False), ("cluster_d", True)):
            box, label = places[name].box, places[name].label_box
            assert label is not None
            self.assertEqual(label[1] - box[1] > box[3] - label[3], is_below)
        self.assertEqual({key for key in made.meets}, {(3, False), (3, True)})
        self.assertEqual(sorted(map(len, made.embedding)), [2, 6])  # the edge between frames has two ends of its own

    def test_nothing_joins(self) -> None:
        """Clusters that no edge leaves, with several parts or nothing in them; a cluster that only holds another."""
        made = self.judged(LONELY)
        self.assertEqual((made.bends, made.embedding), (0, []))
        self.judged("graph { subgraph cluster_a { subgraph cluster_b { subgraph cluster_c { a -- b } } } }")

    def test_wide_lines(self) -> None:
        """The lines of frames do not meet each other, boxes or labels, however wide they are; bold ones are twice as wide as others."""
        made = self.judged("""graph { penwidth=14; subgraph cluster_a { label=A; subgraph cluster_c { label=""; a -- b } } subgraph cluster_b {
          label=B; c -- d } a -- c; b -- d }""")
        boxes = [one.box for one in made.frames.values()] + made.boxes
        for number, one in enumerate(boxes):
            for other in boxes[number + 1:]:
                gaps = [far - near for near, far in zip(one, other)]
                apart = max(other[0] - one[2], one[0] - other[2], other[1] - one[3], one[1] - other[3])
                self.assertGreaterEqual(max(apart, min(abs(gap) for gap in gaps)), 14)
        for one in made.frames.values():
            if one.label_box is not None:
                self.assertGreater(min(abs(side - other) for side, other in zip(one.box, one.label_box)), 7)
        plain, bold = (re.findall(r'stroke-width="(.*?)"', self.judged(f"graph {{ subgraph cluster_a {{ style={style}; a }} }}").text("svg"))
                       for style in ("solid", "bold"))
        self.assertEqual(float(bold[1]), 2 * float(plain[0]))

    def test_random(self) -> None:
        for seed in range(6):
            self.judged(Plain(seed).file())

    def test_what_is_under_labels_and_heads(self) -> None:
        """Between a label and its line, and within open heads, is the colour of the frames and of the background that are there, and hides
        the line."""
        for background in ("", "bgcolor=beige;", 'bgcolor="#00ff0040";', "bgcolor=transparent;"):
            made = self.judged(LABELS % background)
            shown = elements_of(xml.fromstring(made.text("svg")))
            frames = {tuple(round(side, 1) for side in frame.box) for frame in made.frames.values()}
            behind = [one for one in shown if one.kind == "rect" and (not one.points or {tuple(round(side, 1) for side in one.box)} <= frames)]
            covers = [one for one in shown if one.kind == "rect" and one.points and "rx" not in one.own]
            boxes = [*made.label_boxes.values(), *made.end_boxes.values()]
            self.assertEqual(len(boxes), 9)
            for left, top, right, bottom in boxes:
                over = [one for one in covers if is_inside(((left + right) / 2, (top + bottom) / 2), one.box)]
                self.assertEqual(["fill-opacity" in one.own for one in over], [False] + [True] * (len(over) - 1))
                for corner in ((left, top), (right, bottom)):
                    self.assertEqual(mixed(over), mixed([one for one in behind if not one.points or is_inside(corner, one.box)]))
            heads: dict[str, list[Element]] = {}
            for one in shown:
                if one.kind == "marker":
                    heads[one.own["id"]] = []
                elif one.is_marker and "stroke" in one.own:
                    list(heads.values())[-1].append(one)
            lines = [one for one in shown if one.kind == "polyline"]
            for line, end in itertools.product(lines, ("marker-start", "marker-end")):
                inside = heads.get(line.own.get(end, "")[len("url(#"):-1])
                if inside:
                    (x, y), (u, v) = line.points[-2:] if end == "marker-end" else line.points[1::-1]
                    at = u + 4 * ((x > u) - (x < u)), v + 4 * ((y > v) - (y < v))
                    self.assertEqual(mixed(inside), mixed([one for one in behind if not one.points or is_inside(at, one.box)]))

    def test_labels_of_a_theme(self) -> None:
        """In dark pictures they are black on the colours of a file, as labels of frames are, and light elsewhere."""
        found = re.findall(r'<rect x=[^>]*? fill="([^"]*)"[^>]*?/>\n<text [^>]*?dy=".35em"(?: fill="(.*?)")?>(.*?)<', svg(draw(
            of(LABELS % ""), engine=self.engine), "dark"))
        fills = {text: (cover, fill) for cover, fill, text in found}
        wanted = dict.fromkeys(("in b", "over", "t", "h"), "black") | {"in a": "blue", "in d": "", "in g": "", "between": ""}
        self.assertEqual({text: fill for text, (_, fill) in fills.items() if text != "c to d"}, wanted)
        self.assertEqual({fills[text][0] for text in ("in d", "in g", "between")}, {DARK_PAPER})

    def test_compact(self) -> None:
        """Less room and more bends: ten lines leave the hub of a wheel on all sides, at most three on each."""
        plain, small = (self.judged(WHEEL, Options(compact=is_compact)) for is_compact in (False, True))
        self.assertLess(small.size[0] * small.size[1], .9 * plain.size[0] * plain.size[1])
        self.assertGreater(small.bends, plain.bends)
        left, top, right, bottom = small.boxes[0]
        ends = [line[0] for edge, line in zip(small.graph.edges, small.lines) if edge.tail == 0]
        sides = Counter((x == left) - (x == right) + 2 * (y == top) - 2 * (y == bottom) for x, y in ends)
        self.assertEqual((sum(sides.values()), len(sides), max(sides.values())), (10, 4, 3))

    def test_no_library(self) -> None:
        """The program takes no conditions: clusters are left out with a warning that names them."""

        class Without(LibraryEngine):
            keeps = False

        graph = of("graph { subgraph cluster_a { a -- b } subgraph cluster_b { c } }")
        made = draw(graph, engine=Without())
        self.assertEqual(made.frames, {})
        self.assertEqual(len(made.boxes), 3)
        self.assertEqual([warning.partition(":")[0] for warning in graph.looks.warnings], ["clusters are drawn without frames"] * 2)
        self.assertNotIn("frames", json.loads(made.text("json")))

    def test_outer_face(self) -> None:
        """Vertices outside all clusters come to the face outside all frames, also those that no drawing has there without a crossing."""
        for text, names, crossings in ((CLUSTERS, "start", 0), (CLUSTERS, "end", 0), (CLUSTERS, "start,end", 1), (K4, "a,b", 0),
                                       (K4, "a,d", 0), (K4, "a,b,c,d", 1), (RECORDS, "u,v", 0)):
            graph = of(text)
            made = draw(graph, Options(named(graph, names)), self.engine)
            self.assertEqual((len(made.frames), graph.looks.warnings), (len(graph.clusters), []), names)
            self.assertEqual(len(made.crossings), crossings, names)
            told = json.loads(made.text("json"))
            told["vertices"] += [{"kind": "frame", "box": frame.box} for frame in made.frames.values()]
            self.assertLessEqual(set(named(graph, names)), on_outer_face(told), names)

    def test_outer_face_within_a_frame(self) -> None:
        """It is not possible: the warning says where the vertex is; ports are kept."""
        graph = of(RECORDS)
        made = draw(graph, Options(named(graph, "u,r")), self.engine)
        self.assertEqual((made.frames, set(made.meets)), ({}, {(0, False), (1, False)}))
        self.assertEqual(graph.looks.warnings, ["clusters are drawn without frames: cluster_in, cluster_r: no vertex within a frame is on the"
                                                " outer face, as it must be: r (in cluster_r)"])
        self.assertLessEqual(set(named(graph, "u,r")), on_outer_face(json.loads(made.text("json"))))


def mixed(elements: list[Element]) -> Hue:
    """The colour of elements, each over those before it, on white."""
    found: tuple[float, ...] = (255.0, 255.0, 255.0)
    for one in elements:
        hue = in_picture(one, "fill")
        if hue is not None and one.values.get("fill") != "none":
            share = hue[3] / 255
            found = tuple(old + share * (new - old) for old, new in zip(found, hue))
    return tuple(round(one) for one in found)


if __name__ == "__main__":
    unittest.main()
