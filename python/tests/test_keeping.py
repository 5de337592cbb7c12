"""What a layout has to keep: the pieces of boxes and of straight edges, the insides of cages, and what is said where it cannot."""
from __future__ import annotations

import json
import random
import unittest

import support
from drawing_checker import check
from planarbend.layout import library
from planarbend.drawing.choose import Search
from planarbend.draw import DrawError, Options, draw
from planarbend.layout.engine import Answer, Conditions, Cut, NotKept, ProcessEngine
from planarbend.drawing.expand import Expansion
from planarbend.graph import Edge, Graph, Vertex
from planarbend.drawing.numbering import Contraction, conditions_of, form_of, outer_forms
from planarbend.layout.planar_code import MOST_VERTICES, Lists, record_of
from planarbend.drawing.planarize import planarize
from planarbend.drawing.plans import Plan
from oracle import Plane

HUBS = [(hub, leaf) for hub in (0, 1) for leaf in range(2, 9)]  # two vertices of degree 7


def keeper() -> library.LibraryEngine:
    """The library as it is built or installed, if it keeps conditions."""
    if library.path() is None:
        raise unittest.SkipTest("libplanarbend is missing (planarbend --build)")
    engine = library.LibraryEngine()
    if not engine.keeps:
        raise unittest.SkipTest("libplanarbend is older than the package (planarbend --build)")
    return engine


def graph_of(count: int, edges: list[tuple[int, int]]) -> Graph:
    """A graph with these edges, whose vertices are named by their numbers."""
    return Graph([Vertex(str(number), str(number)) for number in range(count)], [Edge(*edge) for edge in edges])


class Refuser:
    """An engine that keeps no condition."""

    keeps = True
    most_vertices = MOST_VERTICES

    def lay(self, graphs: list[Lists], outer: str) -> list[Answer]:
        raise AssertionError("a straight edge was forgotten")

    def lay_keeping(self, lists: Lists, outer: str, conditions: Conditions) -> Answer:
        assert conditions.straight
        raise NotKept("noshape")


class Careless:
    """An engine that says that it keeps conditions, and does not look at them."""

    keeps = True
    most_vertices = MOST_VERTICES

    def __init__(self) -> None:
        self.engine = ProcessEngine()

    def lay(self, graphs: list[Lists], outer: str) -> list[Answer]:
        return self.engine.lay(graphs, outer)

    def lay_keeping(self, lists: Lists, outer: str, conditions: Conditions) -> Answer:
        return self.engine.lay([lists], outer)[0]


class Named(unittest.TestCase):
    """Conditions name edges and faces of the lists."""

    def test_cages_and_spines(self) -> None:
        planar = planarize(9, HUBS)
        for cages, spines in (((0, 1), {}), ((0,), {1: 2}), ((), {0: 0, 1: 3})):
            expansion = Expansion(planar, Plan(frozenset(cages), tuple(spines.items())))
            graph = Contraction(expansion)
            order = graph.nodes
            random.Random(1).shuffle(order)
            for form in (form_of(graph, order), *outer_forms(expansion)):
                kept = conditions_of(form, (), has_outer=False)
                plane = Plane(form.lists)
                home = {node: vertex for vertex, nodes in enumerate(expansion.homes) for node in nodes}
                with self.subTest(cages=cages, spines=spines):
                    self.assertEqual(len(kept.straight), 7 * len(cages) + sum(
                        len(expansion.homes[vertex]) - 1 for vertex in spines))
                    self.assertLessEqual(set(kept.straight), set(plane.darts))
                    self.assertEqual(len(kept.inner), len(cages))
                    for dart, vertex in zip(kept.inner, cages):
                        walk = plane.walks[plane.face[plane.darts.index(dart)]]
                        met = [form.order[plane.darts[place][0] - 1] for place in walk]
                        self.assertEqual({home[node] for node in met}, {vertex})
                        self.assertEqual(len(met), 7)
                    self.assertEqual(conditions_of(form, (), has_outer=True).inner, ())

    def test_edges_along_which_nodes_are_left_out(self) -> None:
        edges = [(hub, 2 + leaf) for leaf in range(100) for hub in (0, 1)]
        expansion = Expansion(planarize(102, edges), Plan(frozenset([0, 1])))
        graph = Contraction(expansion)
        form = form_of(graph, graph.nodes)
        kept = conditions_of(form, range(len(edges)), has_outer=False)
        self.assertLessEqual(set(kept.straight), set(Plane(form.lists).darts))
        self.assertEqual(len(kept.straight), 200 - 45 + 2 * 100)  # with the pieces of two cages


class Refused(unittest.TestCase):
    def test_what_is_said(self) -> None:
        triangle = graph_of(3, [(0, 1), (1, 2), (2, 0), (0, 0)])
        with self.assertRaisesRegex(DrawError, "no drawing was found in which these edges are straight: 0--1, 2--0"):
            draw(triangle, Options(straight=(0, 2)), Refuser())
        with self.assertRaisesRegex(DrawError, "a loop cannot be straight: 0"):
            draw(triangle, Options(straight=(3,)), Refuser())
        with self.assertRaisesRegex(DrawError, "need the library libplanarbend .*planarbend --build"):
            draw(triangle, Options(straight=(0,)), ProcessEngine())

    def test_what_bends_all_the_same_is_not_taken(self) -> None:
        triangle = graph_of(3, [(0, 1), (1, 2), (2, 0)])
        with self.assertRaisesRegex(DrawError, "these edges are straight: 0--1, 1--2, 2--0"):
            draw(triangle, Options(straight=(0, 1, 2)), Careless())
        drawing = json.loads(draw(graph_of(4, [(0, 1), (1, 2), (2, 3), (3, 0)]), Options(straight=(0, 2)), Careless()).json())
        self.assertEqual([len(drawing["edges"][number]["points"]) for number in (0, 2)], [2, 2])

    def test_names(self) -> None:
        for words, said in (("a--c", "no edge joins a and c"), ("a--d", "no two vertices are named a--d"),
                            ("a", "no two vertices are named a"), ("a--b", "need the library")):
            status, _, errors = support.said(["draw", "--straight", words, "-", "-o", "-"], "a -- b -- c\n")
            with self.subTest(words):
                self.assertEqual(status, 1)
                self.assertIn(said, errors)


class Kept(unittest.TestCase):
    def test_boxes_above_degree_4_are_rectangles_without_repair(self) -> None:
        engine, tried = keeper(), 0
        for seed in range(1, 12):
            dice = random.Random(seed)
            count = dice.randrange(8, 22)
            edges = [(dice.randrange(min(vertex, 4)), vertex) for vertex in range(1, count)]
            edges += [tuple(dice.sample(range(count), 2)) for _ in range(dice.randrange(count // 2, 2 * count))]
            search = Search(planarize(count, edges), engine, Options())
            pool = search.shapes_of([search.first_plan(False)])
            for found in search.kept_boxes(pool):
                tried += 1
                with self.subTest(seed=seed):
                    self.assertEqual(found.broken, [])
        self.assertGreater(tried, 50)

    def test_straight_edges(self) -> None:
        """Three edges of a tree within each of some random graphs."""
        engine = keeper()
        for seed in range(12):
            dice = random.Random(seed)
            count = dice.randrange(5, 16)
            edges = [(dice.randrange(vertex), vertex) for vertex in range(1, count)]
            edges += [(dice.randrange(count), dice.randrange(count)) for _ in range(dice.randrange(count))]
            straight = sorted(number for number in dice.sample(range(count - 1), 3))  # edges of a tree
            drawing = json.loads(draw(graph_of(count, edges), Options(straight=straight), engine).json())
            with self.subTest(seed=seed):
                check(drawing, edges, [str(number) for number in range(count)])
                self.assertEqual([len(drawing["edges"][number]["points"]) for number in straight], [2, 2, 2])

    def test_a_triangle_of_points_cannot_be_straight(self) -> None:
        with self.assertRaisesRegex(DrawError, "straight: 0--1, 1--2, 2--0"):
            draw(graph_of(3, [(0, 1), (1, 2), (2, 0)]), Options(straight=(0, 1, 2)), keeper())

    def test_what_cannot_be_kept_is_named(self) -> None:
        """The inside of a triangle has three corners, which turn three times at most, and no edge may bend."""
        triangle = [[2, 3], [3, 1], [1, 2]]
        straight = Conditions(straight=[(1, 2), (3, 2), (1, 3)])
        with self.assertRaisesRegex(NotKept, r"noshape \(faces 1 need more turns than the conditions allow\)") as raised:
            keeper().lay_keeping(triangle, "first", straight)
        self.assertEqual(raised.exception.cut, Cut((), (1,), 0))
        line = keeper().library.line(record_of(triangle), straight=straight.straight)
        self.assertEqual(line, {"cut": Cut((), (1,), 0), "status": "noshape"})
        with self.assertRaises(NotKept) as raised:
            keeper().lay_keeping(triangle, "first", Conditions(straight=[(1, 4)]))
        self.assertIsNone(raised.exception.cut)


if __name__ == "__main__":
    unittest.main()
