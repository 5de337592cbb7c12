"""Boxes become rectangles: the corners of cages, edges that bend in place of a box, and nodes that are left out for room."""
from __future__ import annotations

import json
import random
import subprocess
import sys
import unittest
from collections.abc import Sequence
from unittest import mock

import support
from drawing_checker import check
from planarbend.draw import DrawError, Options, draw
from planarbend.drawing.choose import Search
from planarbend.drawing.expand import Expansion
from planarbend.drawing.incremental import incremental_embedding
from planarbend.drawing.mend import corners_of, ways_round_cage
from planarbend.drawing.nets import dots_of, pieces_of
from planarbend.drawing.numbering import Contraction, form_of, path_of, put_back
from planarbend.drawing.planarize import planarize
from planarbend.drawing.plans import Budget, Plan
from planarbend.drawing.shape import Shape
from planarbend.graph import Edge, Graph, Kind, Vertex
from planarbend.layout import library
from planarbend.layout.engine import Answer, ProcessEngine, default_engine
from planarbend.layout.planar_code import Lists

# From (0, 0) to the right and round, y downwards: a square of side 4 from which the quarter at the lower left is cut away.
STEP = [[(0, 0), (4, 0)], [(4, 0), (4, 4)], [(4, 4), (2, 4)], [(2, 4), (2, 2), (0, 2)], [(0, 2), (0, 0)]]
SQUARE = [[(0, 0), (2, 0)], [(2, 0), (4, 0), (4, 4)], [(4, 4), (0, 4)], [(0, 4), (0, 0)]]


def hubs(seed: int) -> tuple[int, list[tuple[int, int]]]:
    """A random connected graph in which four vertices have most of the edges: the number of its vertices, and its edges."""
    dice = random.Random(seed)
    count = dice.randrange(8, 22)
    edges = [(dice.randrange(min(vertex, 4)), vertex) for vertex in range(1, count)]
    for _ in range(dice.randrange(count // 2, 2 * count)):
        tail, head = dice.sample(range(count), 2)
        edges.append((tail, head))
    return count, edges


class Corners(unittest.TestCase):
    def test_corners(self) -> None:
        self.assertEqual(corners_of(SQUARE), [(0, 1), (3, 1), (4, 1), (6, 1)])
        self.assertEqual(corners_of(STEP), [(0, 1), (2, 1), (4, 1), (6, 1), (7, -1), (8, 1)])

    def test_ways(self) -> None:
        """A step lies between two nodes: the edge at either of them can bend in its place, or all edges can."""
        one, after, before, every = ways_round_cage(STEP)
        self.assertIn(one, ([3], [4]))
        self.assertEqual(sorted([after, before]), [[3], [4]])
        self.assertEqual(every, [0, 1, 2, 3, 4])

    def test_ways_from_any_node_on(self) -> None:
        """If the cage begins with another node, the connections have other numbers, and are the same."""
        for first in range(len(STEP)):
            one, *others, every = ways_round_cage(STEP[first:] + STEP[:first])
            found = [[(place + first) % len(STEP) for place in way] for way in (one, *others, every)]
            self.assertIn(found[0], ([3], [4]))
            self.assertEqual(sorted(found[1:3]), [[3], [4]])
            self.assertEqual(sorted(found[3]), [0, 1, 2, 3, 4])

    def test_turned_inside_out(self) -> None:
        """No edge helps where the inside of a cage lies outside."""
        turned = [section[::-1] for section in reversed(SQUARE)]
        self.assertEqual([turn for _, turn in corners_of(turned)], [-1] * 4)
        self.assertEqual(list(ways_round_cage(turned)), [])


@support.needs_networkx
class Mended(unittest.TestCase):
    def test_steps_are_mended(self) -> None:
        """Wherever a box of the least shape has a step, edges that bend in its place make it a rectangle."""
        engine, mended = default_engine(), 0
        for seed in (7, 10, 11, 13, 14, 18, 19):
            search = Search(planarize(*hubs(seed)), engine, Options())
            pool = search.shapes_of([search.first_plan(False)])
            best = min(pool, key=Shape.price)
            if best.broken and search.mended(best):
                pool += search.mend(pool)
                found = min(pool, key=Shape.price)
                with self.subTest(seed=seed):
                    self.assertEqual(found.broken, [])
                    self.assertEqual(found.bends, sum(len(line) - 2 for line in found.lines))
                    mended += 1
        self.assertEqual(mended, 5)

    def test_drawings_of_hubs_have_rectangles(self) -> None:
        for seed in (1, 3, 4, 5, 6, 8):
            count, edges = hubs(seed)
            kind = (Kind.VERTEX, Kind.PART, Kind.NET)[seed % 3]
            graph = Graph([Vertex(str(number), str(number), kind) for number in range(count)], [Edge(*edge) for edge in edges])
            with self.subTest(seed=seed, kind=kind):
                checked(graph, edges)


    def test_a_long_search_ends(self) -> None:
        """When no more vertices may be laid out, boxes stay as they are, and the message says what would help."""
        count, edges = hubs(7)
        graph = Graph([Vertex(str(number), str(number)) for number in range(count)], [Edge(*edge) for edge in edges])
        with mock.patch("planarbend.draw.MOST_LAID", 0), mock.patch("planarbend.drawing.choose.MOVES", ()):
            with self.assertRaisesRegex(DrawError, r"rectangles: .* \(libplanarbend may find one: .*; or try another "):
                draw(graph, engine=ProcessEngine())
            engine, budget = Counting(), Budget(10 ** 6)
            found = Search(planarize(count, edges), engine, Options(), budget).run()
        self.assertFalse(min(found, key=Shape.price).broken)
        self.assertEqual(budget.left, 10 ** 6 - engine.count)


@unittest.skipUnless(library.path(), "the library is missing (planarbend --build makes it)")
@support.needs_networkx
class Dense(unittest.TestCase):
    """Graphs that count as dense: the library keeps their boxes, and no edge is tried that bends instead."""

    @staticmethod
    def search(seed: int, dense: int) -> tuple[Search, list[Shape]]:
        """A search, and the shapes that it finds."""
        search = Search(planarize(*hubs(seed)), library.LibraryEngine(), Options())
        with mock.patch.multiple("planarbend.drawing.choose", DENSE=dense, MOST_SQUARES=1):
            return search, search.run()

    def test_boxes_are_rectangles_with_few_calls(self) -> None:
        for seed in (7, 10, 11, 13, 14):
            with self.subTest(seed=seed), mock.patch.object(library.LibraryEngine, "lay_keeping", autospec=True,
                                                            side_effect=library.LibraryEngine.lay_keeping) as kept:
                found = min(self.search(seed, 1)[1], key=Shape.price)
                self.assertEqual(found.broken, [])
                self.assertLessEqual(kept.call_count, 3)
                calls = kept.call_count
                usual = min(self.search(seed, 10 ** 4)[1], key=Shape.price)
                self.assertGreaterEqual(kept.call_count - calls, 8 * bool(calls))
                self.assertGreaterEqual(found.bends, usual.bends)

    def test_prices_are_those_of_rectangles(self) -> None:
        """A price with boxes as rectangles is that of a drawing of the same embedding, whose outer face may be better."""
        for seed in (7, 10, 11, 13, 14):
            search, pool = self.search(seed, 1)
            plan = min(pool, key=Shape.price).plan
            with self.subTest(seed=seed):
                (broken, bends, _), = search.prices([search.planar], plan, True)
                expansion = search.expanded(plan)
                assert expansion is not None
                best, *_ = search.kept(search.numberings(expansion), "best")
                assert best is not None
                self.assertEqual(broken, 0)
                self.assertGreaterEqual(bends, best.bends)


class Counting(ProcessEngine):
    """The program, with the number of vertices that it laid out."""

    count = 0

    def lay(self, graphs: Sequence[Lists], outer: str) -> list[Answer]:
        self.count += sum(map(len, graphs))
        return super().lay(graphs, outer)


def checked(graph: Graph, edges: Sequence[tuple[int, int]], options: Options = Options()) -> None:
    """Finds a drawing right, with rectangles alone."""
    found = check(json.loads(draw(graph, options).json()), edges, [vertex.name for vertex in graph.vertices])
    assert not found.broken


class Room(unittest.TestCase):
    def test_vertices_of_degree_2_make_room(self) -> None:
        """Two hubs with 100 vertices between them: 300 nodes with two cages, of which 45 are left out and put back."""
        edges = [(hub, 2 + leaf) for leaf in range(100) for hub in (0, 1)]
        graph = Graph([Vertex(str(number), str(number)) for number in range(102)], [Edge(*edge) for edge in edges])
        contracted = Contraction(Expansion(planarize(102, edges), Plan(frozenset([0, 1]))))
        around = {node: [contracted.tail[dart ^ 1] for dart in contracted.rotation[node]] for node in contracted.nodes}
        self.assertEqual((len(around), len(contracted.runs)), (255, 2 * 45))
        for node, others in around.items():
            self.assertEqual(len(set(others)), len(others))
            self.assertTrue(all(node in around[other] for other in others))
        for options in (Options(), Options(outer=(0, 5, 1))):
            with self.subTest(outer=options.outer):
                checked(graph, edges, options)

    def chains(self) -> list[tuple[int, int]]:
        """Two hubs with 40 chains of six vertices between them."""
        edges = []
        for chain in range(40):
            inner = list(range(2 + 6 * chain, 8 + 6 * chain))
            edges += list(zip([0, *inner], [*inner, 1]))
        return edges

    def test_chains_of_vertices(self) -> None:
        edges = self.chains()
        graph = Graph([Vertex(str(number), str(number)) for number in range(242)], [Edge(*edge) for edge in edges])
        checked(graph, edges)

    def test_nodes_are_put_back_on_the_longest_part(self) -> None:
        """At equal distances, whichever way that part of the line runs."""
        for a, b in ((1, 0), (0, 1), (-1, 0), (0, -1)):
            def turned(line: list[tuple[int, int]]) -> list[tuple[int, int]]:
                return [(a * x - b * y, b * x + a * y) for x, y in line]

            points, paths = [(0, 0)] * 4, dict[int, list[tuple[int, int]]]()
            put_back(points, paths, [10, 12, 14], [1, 2], turned([(0, 0), (0, 3), (9, 3), (9, 5)]))
            self.assertEqual(points[1:3], turned([(3, 3), (6, 3)]))
            self.assertEqual(paths, {10: turned([(0, 0), (0, 3), (3, 3)]), 12: turned([(3, 3), (6, 3)]),
                                     14: turned([(6, 3), (9, 3), (9, 5)])})

    def test_paths_along_chains(self) -> None:
        """The path of each piece leads from node to node, also where nodes next to one another are put back."""
        expansion = Expansion(planarize(242, self.chains()), Plan(frozenset([0, 1])))
        graph = Contraction(expansion)
        for seed in range(4):
            order = graph.nodes
            random.Random(seed).shuffle(order)
            form = form_of(graph, order)
            points, paths = form.places(default_engine().lay([form.lists], "best")[0])
            for dart in (dart for chain in expansion.chains for dart in chain):
                path = path_of(paths, dart)
                self.assertEqual((path[0], path[-1]), (points[expansion.tail[dart]], points[expansion.tail[dart ^ 1]]))


@unittest.skipUnless(library.path(), "the library is missing (planarbend --build makes it)")
class Engines(unittest.TestCase):
    def test_library_and_program_answer_alike(self) -> None:
        graphs = [form_of(graph, graph.nodes).lists for graph in map(Contraction, expansions())]
        for outer in ("first", "best"):
            self.assertEqual(library.LibraryEngine().lay(graphs, outer), ProcessEngine().lay(graphs, outer))


def expansions() -> list[Expansion]:
    """Expansions of random graphs in which four vertices have most of the edges."""
    found = []
    for seed in range(8):
        search = Search(planarize(*hubs(seed), effort=0), default_engine(), Options(effort=0))
        expansion = search.expanded(search.first_plan(False))
        assert expansion is not None
        found.append(expansion)
    return found


class Incremental(unittest.TestCase):
    def test_planar_graphs_without_a_test(self) -> None:
        """Whatever is found is an embedding of the graph: each edge at both ends, and Euler's formula holds."""
        for seed in range(60):
            dice = random.Random(seed)
            count = dice.randrange(1, 14)
            edges = [(dice.randrange(count), dice.randrange(count)) for _ in range(dice.randrange(2 * count))]
            edges = [pair for pair in edges if pair[0] != pair[1]]
            around = incremental_embedding(count, edges)
            if around is None:
                continue
            pairs = set(map(frozenset, edges))
            self.assertEqual({frozenset((tail, head)) for tail, heads in enumerate(around) for head in heads}, pairs)
            self.assertEqual(sum(map(len, around)), 2 * len(pairs))
            self.assertEqual(count - len(pairs) + faces(around), 1 + parts(around))

    def test_what_is_not_planar(self) -> None:
        for edges in ([(one, other) for one in range(5) for other in range(one)],
                      [(one, other) for one in range(3) for other in range(3, 6)]):
            self.assertIsNone(incremental_embedding(6, edges))

    def test_grids(self) -> None:
        """Most grids are found planar, with as many faces as they have squares, and one more."""
        missed = 0
        for width in range(2, 12):
            for height in range(2, width + 1):
                edges = [(place, place + 1) for place in range(width * height) if (place + 1) % width]
                edges += [(place, place + width) for place in range(width * (height - 1))]
                around = incremental_embedding(width * height, edges)
                missed += around is None
                if around is not None:
                    self.assertEqual(faces(around), (width - 1) * (height - 1) + 1)
        self.assertLess(missed, 6)

    def test_nothing_but_folded(self) -> None:
        """Chains between two vertices, with an edge there or without, and trees at them, are folded away and come back."""
        for has_edge in (False, True):
            edges = [(0, 1)] * has_edge
            for middle in range(2, 20, 2):
                edges += [(0, middle), (middle, middle + 1), (middle + 1, 1), (middle, middle + 20)]
            around = incremental_embedding(40, edges)
            assert around is not None
            self.assertEqual(sorted((tail, head) for tail, heads in enumerate(around) for head in heads),
                             sorted([*edges, *((head, tail) for tail, head in edges)]))
            self.assertEqual(40 - len(edges) + faces(around), 1 + parts(around))


def faces(around: list[list[int]]) -> int:
    """The number of faces of an embedding, with one for each vertex that stands alone."""
    after = {}
    for vertex, others in enumerate(around):
        for one, other in zip(others, others[1:] + others[:1]):
            after[one, vertex] = vertex, other
    count, left = sum(not others for others in around), set(after)
    while left:
        count += 1
        dart = first = left.pop()
        while after[dart] != first:
            dart = after[dart]
            left.discard(dart)
    return count - (parts(around) - 1)


def parts(around: list[list[int]]) -> int:
    """The number of connected parts."""
    left, count = set(range(len(around))), 0
    while left:
        count += 1
        waiting = [left.pop()]
        while waiting:
            for other in around[waiting.pop()]:
                if other in left:
                    left.discard(other)
                    waiting.append(other)
    return count


class Loaded(unittest.TestCase):
    def test_quickly_loaded_modules_suffice(self) -> None:
        """The command loads networkx only where it tests whether a graph is planar, and nothing of streams."""
        program = ("import sys, planarbend.command\n"
                   "assert not {'networkx', 'xml', 'subprocess', 'planarbend.layout.laid_out'} & set(sys.modules)\n")
        ran = subprocess.run([sys.executable, "-c", program], cwd=support.PACKAGE, capture_output=True, text=True, check=False)
        self.assertEqual(ran.returncode, 0, ran.stderr)


class Nets(unittest.TestCase):
    def test_pieces_join_all_ends_within_the_box(self) -> None:
        for seed in range(200):
            dice = random.Random(seed)
            left, top = 0.0, 0.0
            right, bottom = dice.choice((0.0, 6.0, 40.0, 90.0)), dice.choice((0.0, 6.0, 40.0, 90.0))
            ends = {((dice.uniform(left, right), dice.choice((top, bottom))), True) for _ in range(dice.randrange(4))}
            ends |= {((dice.choice((left, right)), dice.uniform(top, bottom)), False) for _ in range(dice.randrange(4))}
            pieces = pieces_of((left, top, right, bottom), sorted(ends))
            points = {point for point, _ in ends}
            with self.subTest(seed=seed):
                for (x, y), (u, v) in pieces:
                    self.assertTrue(x == u or y == v)
                    self.assertTrue(left <= min(x, u) and max(x, u) <= right and top <= min(y, v) and max(y, v) <= bottom)
                reached, waiting = set(), [min(points)] if points else []
                while waiting:
                    point = waiting.pop()
                    reached.add(point)
                    waiting += [end for piece in pieces if point in piece for end in piece if end not in reached]
                self.assertLessEqual(points, reached)

    def test_the_trunk(self) -> None:
        """Halfway up the box; in a box of less than 12 pixels straight with the first end."""
        for height, one, other, trunk in ((20, 3, 15, 10), (12, 2, 10, 6), (11, 2, 10, 2)):
            ends = [((0.0, float(one)), False), ((40.0, float(other)), False)]
            wanted = [((0, min(one, trunk)), (0, trunk)), ((0, trunk), (40, trunk)), ((40, trunk), (40, other))]
            self.assertEqual(pieces_of((0.0, 0.0, 40.0, height), ends), wanted[trunk == one:])

    def test_a_dot_where_three_meet(self) -> None:
        ends = [((0.0, 5.0), False), ((20.0, 5.0), False), ((8.0, 0.0), True)]
        self.assertEqual(dots_of(pieces_of((0.0, 0.0, 20.0, 10.0), ends), ends), [(8.0, 5.0)])


if __name__ == "__main__":
    unittest.main()
