"""Ports: the sites of vertices, and whole drawings of records, tables and compass points, which the judge looks at."""
from __future__ import annotations

import json
import random
import unittest
import xml.etree.ElementTree as xml
from fractions import Fraction

import support
from dot_grammar import PortGrammar
from planarbend.draw import draw
from planarbend.drawing.drawn import Drawing
from planarbend.drawing.linked import NONE
from planarbend.drawing.nest_search import NestSearch
from planarbend.drawing.nesting import nesting_of
from planarbend.drawing.picture import line_of
from planarbend.drawing.sites import Sites, rectangles, sides_of
from planarbend.drawing.solver import in_order
from planarbend.layout.library import LibraryEngine
from planarbend.ports import Compass, End, Field, Side, Span
from planarbend.programs import PlanarbendError
from planarbend.readers import read
from port_files import FILES
from port_judge import Judge
from svg_reader import SVG

ROW = Field(fields=(Field("a", "p"), Field("b", "q", Span(column=1)), Field("c", "r", Span(column=2))))
STRUCTS = """digraph { node [shape=record]; s1 [label="<f0> left|<f1> middle|<f2> right"]; s2 [label="<f0> one|<f1> two"];
  s3 [label="hello\\nworld|{b|{c|<here> d|e}|f}|g|h"]; s1:f1 -> s2:f0; s1:f2 -> s3:here }"""
COMPASS = "digraph { a:n -> b:s; b:e -> c:w; c:ne -> a:sw; a -> c; b:n -> b:w; d [shape=circle]; d:se -> c:n; d -> a:w }"
TABLE = """graph { t [shape=none, label=<<table><tr><td port="a">x</td><td port="b">y</td><td port="c">z</td></tr><tr><td port="d">1</td>
  <td port="m">2</td><td port="e">3</td></tr><tr><td port="f" colspan="3">long</td></tr></table>>]; u -- t:m; v -- t:m:n; w -- t:f; u -- v; w -- t:d:e }"""
LOOPS = """graph { node [shape=record]; a [label="<p> x|<q> y"]; a:p -- a; a -- a:q:n; a:q:n -- a:p:s; b -- a:p; b -- a:q; c -- a:p; c -- a:q
  b -- c; d [label="<u> 1|<v> 2"]; d:u:w -- d:v:e; d -- b; d -- c; d -- a }"""
BOTH = """digraph { compound=true; node [shape=record]; subgraph cluster_a { label=A; r [label="{<p> x|<q> y}"]; s } subgraph cluster_b { label=B;
  t [label="<u> 1|<v> 2|<w> 3"] } r:p:e -> t:u; r:q -> t:w; t:v:n -> s; s -> r:p; s -> t [lhead=cluster_b]; t:u -> t:w }"""


GRID = "{{<a> alpha|<b> beta|<c> gamma}|{<d> delta|<e> epsilon|<f> phi}|{<g> ghi|<h> hjk|<i>}}"
MIDDLES = f"""digraph {{ node [shape=record]; m [label="{GRID}"]; n [label="{GRID}", fontsize=20]; r [label="<l> left|<m> middle|<r> right"]
  p -> m:e; r:m -> m:e; q -> m:d; m:b -> r:l; r:m:w -> s; t -> r:m:e; m:e -> u; n:e:n -> m:e; n:e -> n:a; n:e:se -> r:m:e; v -> n:e }}"""


class Places(unittest.TestCase):
    def test_rectangles(self) -> None:
        """Three fields of a row take a third each; two rows within the last one half of its height."""
        third = Fraction(1, 3)
        self.assertEqual([across for across, _ in rectangles(ROW)], [(0, 1), (0, third), (third, 2 * third), (2 * third, 1)])
        nested = Field(fields=(Field("a"), Field("", "", Span(column=1), (Field("b"), Field("c", "", Span(row=1))))))
        half = Fraction(1, 2)
        self.assertEqual(list(rectangles(nested))[3:], [((half, 1), (0, half)), ((half, 1), (half, 1))])

    def test_sites(self) -> None:
        """The middle field of a row is reached from above and below, or, where its east side is asked for, from the east; the first
        one from the west too, and in its right half at the south-east."""
        def at(end: End | None, *ends: End) -> list[tuple[Side, Fraction]]:
            found = Sites(ROW, [*ends, *([end] if end else [])])
            return [((Side.EAST, Side.NORTH, Side.WEST, Side.SOUTH)[site.side], site.low)
                    for place, site in enumerate(found.sites) if place in found.allowed(end)]

        third = Fraction(1, 3)
        self.assertEqual(at(End(2)), [(Side.NORTH, third), (Side.SOUTH, third)])
        self.assertEqual(at(End(2, Compass.EAST)), [(Side.EAST, 0)])
        self.assertEqual(at(End(1)), [(Side.NORTH, 0), (Side.WEST, 0), (Side.SOUTH, 0)])
        self.assertEqual(at(End(1, Compass.SOUTH_EAST)), [(Side.EAST, Fraction(1, 2)), (Side.SOUTH, Fraction(1, 6))])
        self.assertEqual(len(at(None)), 4)
        self.assertEqual(len(at(None, End(2))), 8)

    def test_nearest_sides(self) -> None:
        """The field in the middle of the third record of `STRUCTS` is reached over one other field from above and below."""
        inner = Field("", "", Span(row=1), (Field("c"), Field("d", "here", Span(column=1)), Field("e", "", Span(column=2))))
        whole = Field(fields=(Field("hello"), Field("", "", Span(column=1), (Field("b"), inner, Field("f", "", Span(row=2)))),
                              Field("g", "", Span(column=2)), Field("h", "", Span(column=3))))
        self.assertEqual(sides_of(whole, End(whole.place_of("here"))), {Side.NORTH, Side.SOUTH})
        self.assertEqual(sides_of(whole, End(whole.place_of("here"), Compass.WEST)), {Side.WEST})

    def test_order(self) -> None:
        """Coordinates keep their order as far as constraints allow; a cycle does not stop this."""
        self.assertEqual(in_order([0, 1, 2, 3], [(3, 1, 1.0), (1, 0, 1.0)]), [2, 3, 1, 0])
        self.assertEqual(sorted(in_order([0, 1, 2], [(0, 1, 1.0), (1, 0, 1.0)])), [0, 1, 2])


@support.needs_graphviz
class Embedded(unittest.TestCase):
    def test_loops(self) -> None:
        """A loop goes from one site to another, also if it crosses the edges between them."""
        graph = read(LOOPS.encode(), "it.gv", "dot")
        loops = [number for number, edge in enumerate(graph.edges) if edge.tail == edge.head]
        for seed in range(30):
            search = NestSearch(nesting_of(graph), random.Random(seed))
            search.put_all()
            search.improve(3, 100_000)
            search.finish()
            for loop in loops:
                tail, head = search.embedding.ends[loop]
                self.assertNotEqual(search.embedding.start[loop], NONE, (seed, loop))
                self.assertIn(tail, search.embedding.places_of(loop, False))
                self.assertIn(head, search.embedding.places_of(loop, True))
                self.assertNotEqual(tail, head)


@support.needs_graphviz
class Drawn(unittest.TestCase):
    """Whole drawings, by the library."""

    engine: LibraryEngine

    @classmethod
    def setUpClass(cls) -> None:
        try:
            import scipy  # noqa: F401

            cls.engine = LibraryEngine()
        except (ImportError, PlanarbendError, OSError) as fault:
            raise unittest.SkipTest(f"needs scipy and the library: {fault}") from None

    def judged(self, text: str) -> Drawing:
        """The drawing of a text, in which the judge sees no fault."""
        graph = read(text.encode(), "it.gv", "dot")
        made = draw(graph, engine=self.engine)
        judge = Judge(text.encode(), made.text("svg"), json.loads(made.text("json")), "\n".join(graph.looks.warnings))
        self.assertEqual(judge.judged(), [], text)
        return made

    def test_structs(self) -> None:
        """No edge needs a bend: the middle of the first record can be above the first field of the second, and its right field above
        the field in the middle of the third."""
        made = self.judged(STRUCTS)
        self.assertEqual(made.crossings, [])
        self.assertEqual(made.bends, 0)
        self.assertEqual(set(made.meets), {(0, False), (0, True), (1, False), (1, True)})
        self.assertEqual([len(made.field_boxes[number]) for number in range(3)], [4, 3, 11])

    def test_lines_over_boxes(self) -> None:
        """The line to the field in the middle of the last record lies over this record, below its texts; the other line is below
        all boxes."""
        elements = [one for one in xml.fromstring(self.judged(STRUCTS).text("svg")).iter()
                    if one.tag in (SVG + "polyline", SVG + "rect", SVG + "text")]
        order = "".join("l" if one.tag == SVG + "polyline" else "b" if one.tag == SVG + "rect" else "t" for one in elements)
        self.assertRegex(order, "^blbbblt+$")  # the first box is the paper

    def test_compass_points(self) -> None:
        """Also of a loop, and of a vertex that is no record."""
        self.judged(COMPASS)

    def test_compass_points_of_outlines(self) -> None:
        """Lines end at the outline of a diamond: the two edges of its outline from the south to the east and the west."""
        made = self.judged("digraph { d [shape=diamond, label=diamond]; d:s -> a; d:se -> b; d:w -> a }")
        left, top, right, bottom = made.boxes[0]
        for number in range(3):
            x, y = line_of(made, number)[0]
            across, down = abs(2 * x - left - right) / (right - left), abs(2 * y - top - bottom) / (bottom - top)
            self.assertAlmostEqual(across + down, 1, delta=.02)

    def test_tables(self) -> None:
        """The line to the field in the middle passes over one of those around it, and goes straight on from the border."""
        made = self.judged(TABLE)
        left, top, right, bottom = made.boxes[0]
        x, y = made.lines[0][-1]
        self.assertTrue(x in (left, right) or y in (top, bottom))
        self.assertNotEqual(made.meets[0, True], (x, y))

    def test_middles(self) -> None:
        """With room on all sides lines end at the middles of fields, and at corners a quarter of their length from these."""
        made = self.judged("""digraph { node [shape=record]; t [label="{<a> 1|<b> 2|<c> 3}"]; u [label="<d> left|<e> right"]; v [label="<f> of one|<g> of two"];
          node [shape=box]; t:c -> w; u:d:n -> x:s; v:g:se -> y }""")
        for (edge, is_head), at in made.meets.items():
            one, end = made.graph.edges[edge], made.graph.ends[edge, is_head]
            left, top, right, bottom = (made.field_boxes.get(one.head if is_head else one.tail) or [made.boxes[one.head]])[end.field or 0]
            far = ((at[0] - left) / (right - left), (at[1] - top) / (bottom - top))
            share = next(part for part in far if 0.01 < part < 0.99)
            self.assertAlmostEqual(min(share, 1 - share), 0.25 if end.compass is Compass.SOUTH_EAST else 0.5, delta=0.03)

    def test_with_clusters(self) -> None:
        self.judged(BOTH)

    def test_a_frame_that_one_edge_crosses(self) -> None:
        """While this edge is out, nothing joins the frame to what lies in it."""
        edges = "; ".join(f"v{one} -- v{other}" for other in range(5) for one in range(other))
        self.assertEqual(len(self.judged(f"graph {{ subgraph cluster_a {{ {edges} }} w:e -- v0 }}").crossings), 1)

    def test_files(self) -> None:
        """Clusters and records as people draw them: no edge of these crosses another."""
        for name in ("machine", "gates", "empties", "hash_5", "search_2"):
            self.assertEqual(self.judged(FILES[name]).crossings, [], name)

    def test_sides_of_fields(self) -> None:
        """All lists begin and go on to the east of a field, straight, but for the line from one list to another; a tree of records
        has straight lines alone, also in a frame."""
        self.assertLessEqual(self.judged(FILES["hash_5"]).bends, 1)
        tree = FILES["search_2"]
        self.assertEqual(self.judged(tree).bends, 0)
        self.assertEqual(self.judged(tree.replace("{", "{ subgraph cluster_a {", 1) + "}").bends, 0)

    def test_beside_texts(self) -> None:
        """A line to a field in the middle passes the short text of the field below it, which stays in the middle."""
        made = self.judged(STRUCTS.replace("<here> d", "<here> wide"))
        boxes, at = made.field_boxes[2], made.meets[1, True]
        place = made.graph.ends[1, True].field
        assert place is not None
        share = (at[0] - boxes[place][0]) / (boxes[place][2] - boxes[place][0])
        self.assertGreater(abs(share - 0.5), 0.2)
        self.assertEqual(made.text_boxes, made.field_boxes)

    def test_texts_on_the_way(self) -> None:
        """Lines to fields in the middle cross no text, which the judge sees, and are 4 pixels or more from borders beside them."""
        made, count = self.judged(MIDDLES), 0
        for (edge, is_head), at in made.meets.items():
            ends, (x, y) = made.graph.edges[edge], made.lines[edge][-1 if is_head else 0]
            vertex, axis = ends.head if is_head else ends.tail, 0 if x == at[0] else 1
            begin, end = sorted((y, at[1]) if axis == 0 else (x, at[0]))
            for (one, _), box, text in zip(made.graph.fields[vertex].walk(), made.field_boxes[vertex], made.text_boxes[vertex]):
                if one.fields or not max(begin, box[1 - axis]) < min(end, box[3 - axis]) or not box[axis] <= at[axis] <= box[2 + axis]:
                    self.assertTrue(one.fields or all(box[place] <= text[place] for place in (0, 1)))
                    continue
                count += 1
                self.assertGreaterEqual(min(at[axis] - box[axis], box[2 + axis] - at[axis]), 4)
                self.assertTrue(not one.text or text[2 + axis] <= at[axis] or text[axis] >= at[axis] or abs(
                    2 * at[axis] - text[axis] - text[2 + axis]) > 8)
        self.assertGreater(count, 7)

    def test_lines_up_to_a_frame(self) -> None:
        """None of them reaches the field in the middle, so all texts are in the middles of their fields."""
        made = self.judged(f'''digraph {{ compound=true; subgraph cluster_a {{ label=""; m [shape=record, label="{GRID}"] }}
          x -> m:e [lhead=cluster_a]; y -> m:e:s [lhead=cluster_a]; z -> m:e:w [lhead=cluster_a] }}''')
        self.assertEqual(made.text_boxes, made.field_boxes)

    def test_random(self) -> None:
        for seed in (2, 3, 4, 6, 7, 26, 507):
            self.judged(PortGrammar(seed).file())

    def test_no_library(self) -> None:
        """The program takes no conditions: edges end anywhere, with a warning that names the nodes; fields are drawn."""

        class Without(LibraryEngine):
            keeps = False

        graph = read(STRUCTS.encode(), "it.gv", "dot")
        made = draw(graph, engine=Without())
        self.assertEqual(made.meets, {})
        self.assertEqual(len(made.field_boxes), 3)
        self.assertEqual([warning.split(": ")[:2] for warning in graph.looks.warnings], [
            ["edges end anywhere at these nodes, not at their ports", "s1, s2, s3"]])


if __name__ == "__main__":
    unittest.main()
