"""Twenty graphs of each kind are drawn, checked by the checker of drawings, and have few crossings and bends."""
from __future__ import annotations

import itertools
import json
import random
import shutil
import tempfile
import unittest
from collections.abc import Sequence
from pathlib import Path
from typing import Any

import support
import test_layouts
from drawing_checker import Found, check, on_outer_face
from planarbend.draw import DrawError, Options, draw
from planarbend.graph import Edge, Graph, Vertex
from planarbend.drawing.picture import svg
from planarbend.layout import library
from planarbend.readers import read

# The most crossings and bends of each graph; crossings are the published numbers where there are any.
BOUNDS = {
    "amplifier.net": (0, 1), "apart.txt": (0, 4), "cubic30.g6": (6, 8), "flasher.kicad_pcb": (0, 1), "grid.gml": (0, 0),
    "groups.dot": (0, 6), "heawood.g6": (3, 6), "k5.txt": (1, 4), "k6.g6": (3, 4), "k7.json": (9, 6), "loops.txt": (0, 12),
    "nested.graphml": (0, 6), "order.txt": (0, 2), "parallel.txt": (0, 4), "petersen.gml": (2, 4), "records.dot": (0, 6),
    "flat.dot": (0, 1), "utilities.graphml": (1, 3), "wheel.json": (0, 2), "workshop.txt": (0, 0)}


def found(graph: Graph, options: Options = Options()) -> tuple[Found, dict[str, Any]]:
    """What the checker counts in the drawing of a graph, and the drawing."""
    drawing = json.loads(draw(graph, options).json())
    return check(drawing, [(edge.tail, edge.head) for edge in graph.edges], [vertex.name for vertex in graph.vertices]), drawing


def graph_of(count: int, edges: list[tuple[int, int]]) -> Graph:
    """A graph with these edges, whose vertices are named by their numbers."""
    return Graph([Vertex(str(number), str(number)) for number in range(count)], [Edge(*edge) for edge in edges])


@support.needs_networkx
class Twenty(unittest.TestCase):
    def test_all_are_drawn_within_their_bounds(self) -> None:
        self.assertEqual(sorted(support.GRAPHS), sorted(BOUNDS))
        for name, (crossings, bends) in BOUNDS.items():
            if name.endswith(".dot") and not shutil.which("gvpr"):
                continue
            with self.subTest(name):
                graph = read(support.GRAPHS[name].read_bytes(), name)
                counted, drawing = found(graph)
                self.assertLessEqual(counted.crossings, crossings)
                self.assertLessEqual(counted.bends, bends)
                self.assertEqual(counted.broken, 0)
                self.assertEqual([edge["label"] for edge in drawing["edges"]], [edge.label for edge in graph.edges])
                self.assertEqual([edge["arrow"] for edge in drawing["edges"]], [edge.arrow.value for edge in graph.edges])

    def test_nets_have_their_names_beside_their_lines(self) -> None:
        graph = read(support.GRAPHS["amplifier.net"].read_bytes(), "amplifier.net")
        drawing = draw(graph)
        named = [vertex["name"] for vertex in json.loads(drawing.json())["vertices"] if "label_box" in vertex]
        self.assertEqual(named, ["GND", "VCC"])
        self.assertIn(">GND</text>", svg(drawing))

    def test_compact_drawings_are_right_and_smaller_in_all(self) -> None:
        plain = small = 0.0
        for name in ("workshop.txt", "wheel.json", "order.txt"):
            graph = read(support.GRAPHS[name].read_bytes(), name)
            for compact in (False, True):
                with self.subTest(name, compact=compact):
                    counted, drawing = found(graph, Options(compact=compact))
                    self.assertEqual(counted.broken, 0)
                    if compact:
                        small += drawing["size"][0] * drawing["size"][1]
                    else:
                        plain += drawing["size"][0] * drawing["size"][1]
        self.assertLess(small, plain)


@support.needs_networkx
class Kinds(unittest.TestCase):
    def test_small_graphs(self) -> None:
        """Every multigraph of up to three vertices and three edges, loops among them, once each."""
        for count in range(1, 4):
            pairs = list(itertools.combinations_with_replacement(range(count), 2))
            for edges in itertools.chain.from_iterable(itertools.combinations_with_replacement(pairs, size) for size in range(4)):
                if list(edges) == min(renumbered(edges, order) for order in itertools.permutations(range(count))):
                    with self.subTest(f"{count} {edges}"):
                        found(graph_of(count, list(edges)))

    def test_random_multigraphs(self) -> None:
        for seed in range(8):
            chance = random.Random(seed)
            count = chance.randrange(2, 14)
            edges = [(chance.randrange(count), chance.randrange(count)) for _ in range(chance.randrange(2 * count))]
            with self.subTest(seed=seed):
                found(graph_of(count, edges))

    def test_cages_that_the_outer_face_would_turn_inside_out(self) -> None:
        """Hubs whose box would be the largest face, and so the outer one, if a cage could be it."""
        for count in (5, 12, 20):
            star = graph_of(count + 1, [(0, leaf) for leaf in range(1, count + 1)])
            wheel = graph_of(count + 1, star_and_rim(count))
            with self.subTest(count=count):
                self.assertEqual(found(star)[0], Found(0, 0))
                counted = found(wheel)[0]
                self.assertEqual((counted.crossings, counted.broken), (0, 0))
        hubs = graph_of(14, [(hub, leaf) for hub in (0, 1) for leaf in range(2, 14)])
        self.assertEqual((found(hubs)[0].crossings, found(hubs)[0].broken), (0, 0))

    def test_names_on_the_outer_face(self) -> None:
        """A square in a square in a square, each joined to the next: any face can be outside."""
        rings = [(4 * ring + place, 4 * ring + (place + 1) % 4) for ring in range(3) for place in range(4)]
        spokes = [(4 * ring + place, 4 * ring + 4 + place) for ring in range(2) for place in range(4)]
        graph = graph_of(12, rings + spokes)
        for outer in ((0, 1, 2, 3), (8, 9, 10, 11), (0, 1, 5, 4), (6,)):
            with self.subTest(outer=outer):
                counted, drawing = found(graph, Options(outer=outer))
                self.assertEqual(counted.crossings, 0)
                self.assertLessEqual(set(outer), on_outer_face(drawing))

    def test_a_short_face_outside(self) -> None:
        """The triangle of a K4 whose other edges are long: all other faces are longer."""
        spokes = [pair for corner in range(3) for pair in itertools.pairwise((corner, *range(4 + 5 * corner, 9 + 5 * corner), 3))]
        counted, drawing = found(graph_of(19, [(0, 1), (1, 2), (2, 0), *spokes]), Options(outer=(0, 1, 2)))
        self.assertEqual((counted.crossings, on_outer_face(drawing)), (0, {0, 1, 2}))


def renumbered(edges: Sequence[tuple[int, int]], order: Sequence[int]) -> list[tuple[int, int]]:
    """The edges of the same graph with other numbers, in order."""
    return sorted((min(order[tail], order[head]), max(order[tail], order[head])) for tail, head in edges)


def star_and_rim(count: int) -> list[tuple[int, int]]:
    """The edges of a wheel with this many spokes."""
    return [(0, leaf) for leaf in range(1, count + 1)] + [(leaf, leaf % count + 1) for leaf in range(1, count + 1)]


@support.needs_networkx
class Limits(unittest.TestCase):
    def test_255_and_256_vertices(self) -> None:
        ladder = [(place, place + 1) for place in range(254)]
        self.assertEqual(found(graph_of(255, ladder))[0], Found(0, 0))
        ring = [(place, (place + 1) % 255) for place in range(255)]
        self.assertEqual(found(graph_of(255, ring))[0].crossings, 0)
        with self.assertRaisesRegex(DrawError, "256|255"):
            draw(graph_of(256, [(place, place + 1) for place in range(255)]))
        self.assertEqual(found(graph_of(256, ladder))[0], Found(0, 0))  # the last vertex stands alone

    @test_layouts.needs_library
    def test_more_than_255_vertices(self) -> None:
        """By the library: a hub of 240 leaves as a box, and a vertex too many."""
        with test_layouts.calling(library.path()):
            self.assertEqual(found(graph_of(241, [(0, leaf) for leaf in range(1, 241)]))[0], Found(0, 0))
            with self.assertRaisesRegex(DrawError, "^a component has 1201 vertices; the limit is 1200;"):
                draw(graph_of(1201, [(0, leaf) for leaf in range(1, 1201)]))

    def test_a_hub_that_spines_alone_can_draw(self) -> None:
        """A star of 127 leaves has 254 vertices with a cage, and one of 150 leaves 300: it is drawn by a spine."""
        for count in (127, 150):
            with self.subTest(count=count):
                self.assertEqual(found(graph_of(count + 1, [(0, leaf) for leaf in range(1, count + 1)]))[0].crossings, 0)


@support.needs_networkx
class SameBytes(unittest.TestCase):
    def test_in_two_processes_and_under_two_hash_seeds(self) -> None:
        with tempfile.TemporaryDirectory() as folder:
            for name, ending, form in (("petersen.gml", "json", "gml"), ("nested.graphml", "svg", "graphml"),
                                       ("amplifier.net", "svg", "netlist")):
                told = []
                for number, seed in enumerate(("0", "4711")):
                    out = Path(folder) / f"{number}.{ending}"
                    words = ["draw", str(support.GRAPHS[name]), "-o", str(out), "--seed", "7", "--format", form]
                    ran = support.ran(words, PYTHONHASHSEED=seed)
                    self.assertEqual(ran.returncode, 0, ran.stderr)
                    told.append(out.read_bytes())
                self.assertEqual(told[0], told[1], name)


if __name__ == "__main__":
    unittest.main()
