"""Shapes by hand: which one costs least, what is broken, which plans are tried, and how components share a page."""
from __future__ import annotations

import itertools
import json
import unittest
from types import SimpleNamespace
from typing import Any
from unittest import mock

import support  # noqa: F401  finds the package
from planarbend.draw import Options, draw, meeting, packed, price_of, stretch_of
from planarbend.drawing.choose import Search, choose, picked, smallest
from planarbend.drawing.constraints import apart, lengths_of
from planarbend.drawing.drawn import Box, Drawing, Point
from planarbend.drawing.expand import size_of
from planarbend.drawing.items import PIECE, Item, Sheet
from planarbend.drawing.mend import loosened, ways_round_spine
from planarbend.drawing.numbering import conditions_of
from planarbend.drawing.planarize import planarize
from planarbend.drawing.plans import Budget, Plan
from planarbend.drawing.shape import Shape, is_clockwise_rectangle, shape_of, without_straight
from planarbend.graph import Edge, Graph, Kind, Vertex
from planarbend.layout.engine import GridPoint, default_engine

NOTHING: Any = SimpleNamespace(most_vertices=255)
# Two vertices of degree 6 with all of their neighbours in common, of which two pairs are joined: degrees 2, 3 and 6.
EDGES = [(hub, leaf) for leaf in range(2, 8) for hub in (0, 1)] + [(2, 3), (4, 5)]


def by_plan(plan: Plan) -> Any:
    """An expansion with nothing but a plan."""
    return SimpleNamespace(plan=plan)


def found(plan: int = 0, broken: int = 0, bends: int = 0, size: tuple[int, int] = (1, 1)) -> Shape:
    """A shape with nothing but a plan and a price."""
    return Shape(by_plan(Plan(frozenset([plan]))), [], [], [], list(range(broken)), bends, size)


class Prices(unittest.TestCase):
    def test_a_price(self) -> None:
        self.assertEqual(found(broken=2, bends=3, size=(4, 5)).price(), (2, 3, 20))

    def test_the_best_shape_of_each_plan(self) -> None:
        """Of six plans four are taken, those with the fewest bends; a smaller shape goes first among equals."""
        one, two = found(1, bends=1), found(2, bends=2, size=(3, 3))
        three, four = found(3, bends=2, size=(2, 5)), found(4, bends=4)
        more = [found(5, bends=5), found(2, bends=3), found(6, broken=1), found(1, bends=1, size=(9, 9))]
        self.assertEqual(picked([*more, four, three, two, one]), [one, two, three, four])

    def test_broken_shapes_if_there_are_no_others(self) -> None:
        worse, better = found(1, broken=2), found(2, broken=1, bends=9)
        self.assertEqual(picked([worse, better]), [better])
        self.assertEqual(smallest([found(1, broken=2), found(2, broken=1, bends=9, size=(8, 8))]),
                         [found(2, broken=1, bends=9, size=(8, 8))])

    def test_the_smallest(self) -> None:
        wide, high, bent = found(bends=6, size=(5, 2)), found(size=(3, 4)), found(bends=7, size=(2, 5))
        broken = found(broken=1)
        self.assertEqual(smallest([high, broken, bent, wide]), [wide, bent, high])
        self.assertEqual(smallest([broken, high]), [high])
        self.assertEqual(smallest([high]), [high])
        many = [found(size=(1, side)) for side in range(1, 11)]
        self.assertEqual(smallest(many[::-1]), many[:8])


class Plans(unittest.TestCase):
    def test_cages_and_spines(self) -> None:
        plan = Plan(frozenset([1, 2]), ((3, 0),))
        self.assertEqual(plan.spined(2, 5), Plan(frozenset([1]), ((2, 5), (3, 0))))
        self.assertEqual(plan.spined(4, 1), Plan(frozenset([1, 2]), ((3, 0), (4, 1))))
        self.assertEqual(plan.spined(3, 4), Plan(frozenset([1, 2]), ((3, 4),)))
        self.assertEqual(plan.caged([2, 5]), Plan(frozenset([1, 2, 5]), ((3, 0),)))
        self.assertEqual(plan.uncaged([2, 5]), Plan(frozenset([1]), ((3, 0),)))

    def test_which_points_can_be_boxes(self) -> None:
        """Those with three or four connections that are none yet."""
        search = Search.__new__(Search)
        search.degree = [1, 2, 3, 4, 5, 3]
        found = [search.can_be_cage(vertex, Plan(frozenset([5]))) for vertex in range(6)]
        self.assertEqual(found, [False, False, True, True, False, False])

    def test_nodes_of_stars(self) -> None:
        """A cage has a node for each connection, and its sides must be kept straight from five on. A spine has two at
        each node, one more at its ends, and a leaf if they are odd."""
        for count in range(3, 10):
            search = Search(planarize(count + 1, [(0, end) for end in range(1, count + 1)]), NOTHING, Options(effort=0))
            plans = [Plan(frozenset([0]))] + [Plan(frozenset(), ((0, 0),))] * (count > 4)
            for plan in plans:
                expansion = search.expanded(plan)
                assert expansion is not None
                size = size_of(search.planar, plan)
                self.assertEqual(size, sum(map(len, expansion.homes)) + (count % 2 if plan.spines else 0))
                form = next(search.numberings(expansion))
                kept = conditions_of(form, (), has_outer=False)
                nodes = len(expansion.homes[0])
                self.assertEqual(len(kept.straight), nodes - 1 if plan.spines else count if count > 4 else 0)
                self.assertEqual(nodes, (count - 1) // 2 if plan.spines else count)


    def test_few_spines(self) -> None:
        """Vertices 0 and 1 have 7 and 11 connections, 16 of them to leaves: as cages they take 7 and 11 nodes, else 4 and 6."""
        planar = planarize(18, [(0, 1), *((0, leaf) for leaf in range(2, 8)), *((1, leaf) for leaf in range(8, 18))])
        cages, smaller, larger, both = (Plan(frozenset({0, 1} - set(spines)), tuple((vertex, 0) for vertex in spines))
                                        for spines in ((), (0,), (1,), (0, 1)))
        for most, wanted in ((34, [cages]), (33, [larger, smaller]), (31, [larger, smaller]), (30, [larger, both]),
                             (29, [larger, both]), (28, [both]), (26, [both])):
            engine: Any = SimpleNamespace(most_vertices=most, keeps=True)
            self.assertEqual(Search(planar, engine, Options(effort=0)).fitting_plans(), wanted, most)

    def test_boxes_of_dense_graphs_are_kept_first(self) -> None:
        """If the best shape has as many nodes as a dense graph, and the engine keeps conditions."""
        search: Any = Search.__new__(Search)
        for nodes, keeps, wanted in ((9, True, []), (10, True, [found(3)]), (10, False, [])):
            search.engine = SimpleNamespace(keeps=keeps)
            pool = [found(2, broken=2), found(1, broken=1)]
            pool[0].expansion.rotation, pool[1].expansion.rotation = [], [[]] * nodes
            with (mock.patch("planarbend.drawing.choose.DENSE", 10),
                  mock.patch.object(Search, "kept_boxes", return_value=[found(3)])):
                self.assertEqual(search.kept_first(pool), wanted)


class Mending(unittest.TestCase):
    def test_no_plan_is_tried_twice(self) -> None:
        """Each of three plans leads to all three, and none makes the box a rectangle."""
        plans, looked = [Plan(frozenset([number])) for number in range(3)], list[Plan]()

        def look(_: Search, *plans: Plan) -> list[Shape]:
            looked.extend(plans)
            return [found(broken=1) for _ in plans]

        with mock.patch.multiple(Search, mended=lambda *_: plans, look=look):
            Search.__new__(Search).mend([found(broken=1)])
        self.assertEqual(looked, plans)

    def test_three_vertices_become_spines(self) -> None:
        """One after another, as long as a further box is broken; more are not tried."""
        rounds = list[set[int]]()

        def look(_: Search, *plans: Plan) -> list[Shape]:
            rounds.append({vertex for plan in plans for vertex, _ in plan.spines})
            return [Shape(by_plan(plans[0]), [], [], [], [len(rounds)], 0)]

        search: Any = Search.__new__(Search)
        search.degree, search.options, search.budget = [5] * 9, Options(outer=(0,)), Budget()
        with mock.patch.object(Search, "look", look):
            self.assertEqual(len(search.spined([found(broken=1)])), 3)
        self.assertEqual(rounds, [{0}, {0, 1}, {0, 1, 2}])

    def test_only_what_bends_stays_loose(self) -> None:
        """Edge 0 is piece 0 and is straight; edge 1 is pieces 1 and 2, and bends."""
        plan, looked = Plan(frozenset([7]), (), ((0, 1), (1, 1), (2, 3))), list[Plan]()
        lines = [[(0, 0), (1, 0)], [(0, 0), (0, 1), (1, 1)]]

        def look(_: Search, *plans: Plan) -> list[Shape]:
            looked.extend(plans)
            return [Shape(by_plan(one), [], lines, [], [], 1) for one in plans]

        search: Any = Search.__new__(Search)
        search.planar = SimpleNamespace(chains=[[0], [2, 5]])
        with mock.patch.multiple(Search, mended=lambda *_: [plan], look=look):
            search.mend([found(broken=1)])
        self.assertEqual(looked, [plan, Plan(frozenset([7]), (), ((1, 1), (2, 3)))])

    def test_one_more_bend_each(self) -> None:
        self.assertEqual(loosened(((3, 1), (9, 2)), [5, 3, 5]), ((3, 2), (5, 2), (9, 2)))

    def test_ways_round_a_spine(self) -> None:
        """Three nodes with eight connections, clockwise: two at one end and on top of each, three at the other end. The
        spine turns at its middle node: the connections at either end can bend in its place, or all can."""
        one, other, every = ways_round_spine([[(0, 0), (2, 0)], [(2, 0), (2, 2)]], 8)
        self.assertEqual(every, list(range(8)))
        for way, near, far in ((one, {3, 4, 5}, {7, 0, 1}), (other, {7, 0, 1}, {3, 4, 5})):
            self.assertLessEqual(near, set(way))
            self.assertFalse(far & set(way))


class Moved:
    """A form with all places moved by (3, 5)."""

    def __init__(self, form: Any) -> None:
        self.form, self.graph = form, form.graph

    def places(self, answer: Any) -> tuple[list[GridPoint], dict[Any, list[GridPoint]]]:
        points, paths = self.form.places(answer)
        return moved(points), {key: moved(path) for key, path in paths.items()}


def moved(points: list[GridPoint]) -> list[GridPoint]:
    return [(x + 3, y + 5) for x, y in points]


class OnTheGrid(unittest.TestCase):
    def test_a_line_without_its_straight_points(self) -> None:
        line = [(0, 0), (1, 0), (3, 0), (3, 2), (3, 5), (4, 5)]
        self.assertEqual(without_straight(line), [(0, 0), (3, 0), (3, 5), (4, 5)])

    def test_a_rectangle(self) -> None:
        """Walked clockwise, y downwards; not with a step, nor with a line that goes inside and comes back."""
        ring = [(1, 1), (3, 1), (5, 1), (5, 4), (1, 4), (1, 1)]
        self.assertTrue(is_clockwise_rectangle(ring))
        self.assertFalse(is_clockwise_rectangle(ring[::-1]))
        self.assertFalse(is_clockwise_rectangle([(1, 1), (5, 1), (5, 4), (3, 4), (3, 3), (1, 3), (1, 1)]))
        self.assertFalse(is_clockwise_rectangle([*ring[:-1], (1, 2), (3, 2), (1, 2), (1, 1)]))

    def test_a_shape(self) -> None:
        """Boxes, bends and the size are those of the points, wherever on the grid these lie."""
        search = Search(planarize(8, EDGES), default_engine(), Options(effort=0))
        plans = [search.first_plan(False), search.first_plan(True), search.first_plan(False).caged([2, 3, 4, 5])]
        for plan in plans:
            expansion = search.expanded(plan)
            assert expansion is not None
            form: Any = next(search.numberings(expansion))
            answer = search.engine.lay([form.lists], "best")[0]
            for given in (form, Moved(form)):
                shape = shape_of(given, answer)
                xs, ys = zip(*shape.points, *itertools.chain(*shape.lines))
                self.assertEqual(shape.size, (max(xs) - min(xs) + 1, max(ys) - min(ys) + 1))
                self.assertEqual(shape.bends, sum(len(line) - 2 for line in shape.lines))
                self.sides(shape)
                for vertex, nodes in enumerate(expansion.homes):
                    left, top, right, bottom = shape.boxes[vertex]
                    if vertex not in shape.broken:
                        for x, y in (shape.points[node] for node in nodes):
                            self.assertTrue(x in (left, right) or y in (top, bottom))
                    self.assertEqual(left == right and top == bottom, len(nodes) == 1)

    def sides(self, found: Shape) -> None:
        """A vertex is a point if no two of its edges leave in the same direction."""
        lines = found.lines
        for vertex in range(8):
            ways = [(line[0], line[1]) for (tail, _), line in zip(EDGES, lines) if tail == vertex]
            ways += [(line[-1], line[-2]) for (_, head), line in zip(EDGES, lines) if head == vertex]
            is_east = [(end[0] > start[0], end[0] < start[0], end[1] > start[1]) for start, end in ways]
            self.assertEqual(found.is_point(vertex), len(set(is_east)) == len(ways))


def graph_of(count: int, edges: list[tuple[int, int]]) -> Graph:
    return Graph([Vertex(str(number), str(number)) for number in range(count)], [Edge(*edge) for edge in edges])


class Pixels(unittest.TestCase):
    def test_a_price_in_pixels(self) -> None:
        """The area, half as much again for three bends of six edges at weight 1."""
        sheet: Any = SimpleNamespace(bounds=lambda: (1.0, 2.0, 11.0, 22.0), shape=SimpleNamespace(bends=3))
        self.assertEqual(price_of(sheet, 6, 1.0), 300)
        self.assertEqual(price_of(sheet, 6, 0.0), 200)

    def test_stretched(self) -> None:
        """A page may be three times as wide as high, and twice as high as wide."""
        for size, stretch in (((10, 10), 1), ((3, 1), 1), ((6, 1), 2), ((1, 2), 1), ((1, 6), 3), ((.5, .5), 1)):
            self.assertEqual(stretch_of(*size), stretch, size)

    def test_nine_squares(self) -> None:
        places, width, height = packed([(10.0, 10.0)] * 9)
        self.assertEqual((width, height), (30, 30))
        self.assertEqual(sorted(places), [(x, y) for x in (0, 10, 20) for y in (0, 10, 20)])

    def test_lines_at_one_net(self) -> None:
        """Lines at its two sides may be one straight line, or are 10 pixels apart. Lines of others are, where they pass one
        another."""
        def distances(hosts: tuple[int, int], at: tuple[float, float], begins: float) -> list[tuple[int, int, float]]:
            items = [Item(PIECE, [0, 2], [0, 3], [], (True, False), host=hosts[:1]),
                     Item(PIECE, [1, 4], [1, 5], [], (True, False), host=hosts[1:])]
            places = {id(items[0]): [(at[0],) * 2, (0.0, 20.0)], id(items[1]): [(at[1],) * 2, (begins, 50.0)]}
            sheet: Any = SimpleNamespace(items=items, along=lambda item, axis, on_grid: places[id(item)][axis])
            return apart(sheet, 0, 1)

        self.assertEqual(distances((7, 7), (30.0, 30.0), 25.0), [])
        self.assertEqual(distances((7, 7), (30.0, 31.0), 25.0), [(0, 1, 10.0)])
        self.assertEqual(distances((7, 8), (30.0, 30.0), 25.0), [(0, 1, 10.0)])
        self.assertEqual(distances((7, 8), (30.0, 30.0), 30.0), [])

    def test_boxes_weigh_four_lines(self) -> None:
        """Along the line between two boxes: the line once, and each box four times, from its least size on."""
        graph = graph_of(2, [(0, 1)])
        sheet = Sheet(choose(planarize(2, [(0, 1)]), default_engine(), Options())[0], graph)
        found = [sorted((weight, length) for _, _, length, weight in lengths_of(sheet, axis)) for axis in (0, 1)]
        self.assertEqual(sorted(found), [[(1, 0), (4, 22), (4, 22)], [(4, 22), (4, 22)]])

    def test_two_rows_of_eleven(self) -> None:
        """22 rectangles: with more columns than two, and fewer than 22, all other numbers of columns leave places empty."""
        for size, page in (((27.0, 100.0), (297, 200)), ((59.0, 100.0), (649, 200))):
            self.assertEqual(packed([size] * 22)[1:], page)

    def test_where_lines_cross(self) -> None:
        level, upright = [(0.0, 5.0), (10.0, 5.0)], [(4.0, 9.0), (4.0, 1.0)]
        for one in (level, level[::-1], [(0.0, 0.0), (0.0, 5.0), (10.0, 5.0), (10.0, 8.0)]):
            for other in (upright, upright[::-1], [(2.0, 9.0), (4.0, 9.0), (4.0, 1.0), (3.0, 1.0)]):
                self.assertEqual(meeting(one, other), (4, 5))
                self.assertEqual(meeting(other, one), (4, 5))

    def test_five_lines_between_two_boxes(self) -> None:
        """They are 10 pixels apart, and 6 from the corners of boxes that are 22 pixels wide otherwise."""
        drawing = json.loads(draw(graph_of(2, [(0, 1)] * 5)).json())
        self.assertEqual([len(edge["points"]) for edge in drawing["edges"]], [2] * 5)
        self.assertEqual(sorted(drawing["size"]), [10 + 6 + 40 + 6 + 10, 10 + 22 + 20 + 22 + 10])

    def test_four_loops_on_four_sides(self) -> None:
        drawing = json.loads(draw(graph_of(1, [(0, 0)] * 4)).json())
        left, top, right, bottom = drawing["vertices"][0]["box"]
        sides = [{(x == left, y == top, x == right, y == bottom) for x, y in (edge["points"][0], edge["points"][-1])}
                 for edge in drawing["edges"]]
        self.assertEqual([len(side) for side in sides], [1] * 4)
        self.assertEqual(len(set().union(*sides)), 4)

    def test_six_loops(self) -> None:
        """Their ends at a side are 10 pixels apart."""
        drawing = json.loads(draw(graph_of(1, [(0, 0)] * 6)).json())
        ends = [tuple(end) for edge in drawing["edges"] for end in (edge["points"][0], edge["points"][-1])]
        for (x, y), (u, v) in itertools.combinations(ends, 2):
            if x == u or y == v:
                self.assertGreaterEqual(max(abs(x - u), abs(y - v)), 10 - .01)

    def test_loops_along_a_chain(self) -> None:
        """Each leaves one side of its box, 6 pixels or more from the corners, and is 10 pixels wide or more."""
        edges = [(number, number + 1) for number in range(5)] + [(number, number) for number in range(6)]
        drawing = json.loads(draw(graph_of(6, edges)).json())
        for vertex, edge in zip(drawing["vertices"], drawing["edges"][5:]):
            left, top, right, bottom = vertex["box"]
            (x, y), (u, v) = edge["points"][0], edge["points"][-1]
            self.assertTrue(x == u in (left, right) or y == v in (top, bottom))
            ends, low, high = (sorted([x, u]), left, right) if y == v else (sorted([y, v]), top, bottom)
            self.assertGreaterEqual(ends[0], low + 6 - .01)
            self.assertLessEqual(ends[1], high - 6 + .01)
            self.assertGreaterEqual(ends[1] - ends[0], 10 - .01)

    def test_another_embedding_if_a_box_is_broken(self) -> None:
        """The first shapes are said to be broken: then one more embedding is drawn, and no other."""
        for broken, times in ((0, 1), (1, 2), (2, 3)):
            planars = []

            def chosen(planar: Any, *words: Any, **options: Any) -> list[Shape]:
                planars.append(planar)
                found = choose(planar, *words, **options)
                for shape in found:
                    shape.broken = [0] if len(planars) <= broken else []
                return found

            with mock.patch("planarbend.draw.choose", chosen):
                draw(graph_of(8, EDGES), Options(effort=0))
            self.assertEqual(len(planars), times)


class NamesOfNets(unittest.TestCase):
    def label(self, name: str, net: tuple[Box, list[Point]], parts: list[Box], size: Point,
              other: tuple[Box, list[Point]] | None = None) -> Any:
        """The place of a net's name: the net joins as many parts as it has ends, and so does the other net."""
        nets = [net, other] if other else [net]
        ends = [(number, end) for number, (_, ends) in enumerate(nets) for end in ends]
        graph = Graph([Vertex("net", name, Kind.NET)] + [Vertex("other", "", Kind.NET)] * (len(nets) - 1)
                      + [Vertex("part", "part", Kind.PART) for _ in parts],
                      [Edge(number, len(nets) + place) for place, (number, _) in enumerate(ends)])
        lines = []
        for (_, (x, y)), (left, top, right, bottom) in zip(ends, parts):
            lines.append([(x, y), (left if x < left else right, y) if top <= y <= bottom else (x, top)])
        drawing = Drawing(graph, [*(box for box, _ in nets), *parts], lines, [], size, {}, [])
        return json.loads(drawing.json())["vertices"][0].get("label_box")

    def test_above(self) -> None:
        """A name of 12.8 by 12 pixels, 3 pixels above a line, may touch the border of the picture; it needs no more."""
        line = (0.0, 30.0, 12.8, 30.0), [(0.0, 30.0), (12.8, 30.0)]
        parts = [(0.0, 60.0, 5.0, 70.0), (8.0, 60.0, 12.8, 70.0)]
        self.assertEqual(self.label("aa", line, parts, (12.8, 80.0)), [0, 15, 12.8, 27])
        self.assertIsNone(self.label("aa", line, parts, (12.0, 80.0)))

    def test_on_the_left(self) -> None:
        """A box is in the way on the right of an upright line."""
        net = (50.0, 0.0, 50.0, 60.0), [(50.0, 0.0), (50.0, 60.0)]
        parts = [(90.0, 0.0, 100.0, 10.0), (90.0, 50.0, 100.0, 60.0)]
        self.assertEqual(self.label("aaaaa", net, parts, (100.0, 60.0)), [53, 24, 85, 36])
        self.assertEqual(self.label("aaaaa", net, [*parts, (55.0, 20.0, 85.0, 40.0)], (100.0, 60.0)), [15, 24, 47, 36])

    def test_not_in_the_box_of_another_net(self) -> None:
        net = (20.0, 45.0, 52.0, 45.0), [(20.0, 45.0), (52.0, 45.0)]
        parts = [(0.0, 40.0, 5.0, 50.0), (70.0, 40.0, 80.0, 50.0)]
        self.assertEqual(self.label("aaaaa", net, parts, (150.0, 80.0)), [20, 30, 52, 42])
        other = (20.0, 0.0, 120.0, 40.0), [(20.0, 20.0), (120.0, 20.0)]
        parts += [(0.0, 10.0, 5.0, 30.0), (135.0, 10.0, 145.0, 30.0)]
        self.assertEqual(self.label("aaaaa", net, parts, (150.0, 80.0), other), [20, 48, 52, 60])

    def test_every_place_along_a_line(self) -> None:
        """The middle first, then 12 pixels to either side, and so on: only the place left of the middle is free."""
        net = (0.0, 40.0, 80.0, 40.0), [(0.0, 40.0), (80.0, 40.0)]
        parts = [(0.0, 70.0, 5.0, 80.0), (75.0, 70.0, 80.0, 80.0)]
        parts += [(0.0, 24.0, 18.0, 30.0), (37.0, 24.0, 80.0, 30.0), (3.0, 46.0, 77.0, 60.0)]
        self.assertEqual(self.label("aa", net, parts, (80.0, 90.0)), [21.6, 25, 34.4, 37])


if __name__ == "__main__":
    unittest.main()
