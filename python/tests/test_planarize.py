"""Planarizations are planar, are of the graph, and have as few crossings as is known to be needed."""
from __future__ import annotations

import itertools
import math
import os
import random
import subprocess
import sys
import unittest
from collections.abc import Sequence
from unittest import mock

import support
from planarbend.drawing.core import core_of
from planarbend.drawing.incremental import fold, incremental_embedding
from planarbend.drawing.moves import Faces, climbed, flipped, flips_of, neighbours, shifted
from planarbend.drawing.planarization import LinkedEmbedding, Planarization
from planarbend.drawing.planarize import (TooManyCrossings, _embedded, _least, _Starts, needed_by_cycles,
                                          needed_crossings, planarize)
from planarbend.drawing.reinsert import FIXED, Reinsertion, growth, one_of
from oracle import Plane

try:
    import networkx
except ImportError:
    networkx = None

PRINTED = """
import random
from planarbend.drawing.planarize import planarize
dice = random.Random(5)
pairs = [(tail, head) for head in range(14) for tail in range(head)]
result = planarize(14, dice.sample(pairs, 45), effort=1, seed=3, together=(2, 9, 11))
print(result.tail, result.rotation, result.chains)
"""


UTILITIES = [(tail, head) for tail in range(3) for head in range(3, 6)]
PETERSEN = [edge for place in range(5) for edge in ((place, (place + 1) % 5), (place, place + 5), (place + 5, (place + 2) % 5 + 5))]


def lcf(count: int, shifts: Sequence[int]) -> list[tuple[int, int]]:
    """The edges of a cubic graph with a cycle through all vertices, by how far along it each vertex has its third neighbour."""
    third = ((vertex, (vertex + shifts[vertex % len(shifts)]) % count) for vertex in range(count))
    return [(vertex, (vertex + 1) % count) for vertex in range(count)] + [(one, other) for one, other in third if one < other]


HEAWOOD = [(place, (place + 1) % 14) for place in range(14)] + [(place, (place + 5) % 14) for place in range(0, 14, 2)]
MCGEE = lcf(24, (12, 7, -7))
TUTTE_COXETER = lcf(30, (-13, -9, 7, -7, 9, 13))


def faces_of(result: Planarization) -> list[list[int]]:
    """The faces, as the vertices on their boundaries."""
    origin = result.tail
    following = {}
    for around in result.rotation:
        for dart, after in zip(around, around[1:] + around[:1]):
            following[dart ^ 1] = after
    faces = []
    seen: set[int] = set()
    for first in range(len(origin)):
        if first not in seen:
            face = []
            dart = first
            while dart not in seen:
                seen.add(dart)
                face.append(origin[dart])
                dart = following[dart]
            faces.append(face)
    return faces


class Needed(unittest.TestCase):
    """Lower bounds for crossings."""

    def test_needed_by_cycles(self) -> None:
        """The bounds of complete graphs, and of those whose shortest cycle has four to eight edges."""
        complete = {count: [(tail, head) for head in range(count) for tail in range(head)] for count in range(1, 9)}
        for count, needed in zip(complete, (0, 0, 0, 0, 1, 3, 6, 10)):
            self.assertEqual(needed_by_cycles(count, complete[count]), needed, count)
        for count, edges, needed in ((6, UTILITIES, 1), (10, PETERSEN, 2), (14, HEAWOOD, 3),
                                     (24, MCGEE, 6), (30, TUTTE_COXETER, 8)):
            self.assertEqual(needed_by_cycles(count, edges), needed)
        self.assertEqual(needed_by_cycles(9, [(number, (number + 1) % 9) for number in range(9)]), 0)
        self.assertEqual(needed_by_cycles(9, [(number // 2, number) for number in range(1, 9)]), 0)

    def test_needed(self) -> None:
        """Complete graphs by Euler's formula; from 15 vertices on by 29 n^2 c >= m^3."""
        complete = {count: [(one, other) for one in range(count) for other in range(one)] for count in (2, 4, 5, 6, 15)}
        for count, needed in ((2, 0), (4, 0), (5, 1), (6, 3), (15, 105 ** 3 // (29 * 225))):
            self.assertEqual(needed_crossings(count, complete[count]), needed)
            again = [*complete[count], *((head, tail) for tail, head in complete[count]), (1, 1)]
            self.assertEqual(needed_crossings(count, again), needed)
        self.assertEqual(needed_crossings(6, UTILITIES), 0)


class Everywhere(Reinsertion):
    """A search that seeks the place of a vertex on all faces, however far they are."""

    def put_vertex(self, vertex: int, edges: Sequence[int], most: int = 0) -> None:
        super().put_vertex(vertex, edges)


class Moves(unittest.TestCase):
    """Vertices and edges are moved to the best places."""

    def test_no_place_is_missed(self) -> None:
        """The faces that are passed over are no best places: the same are found on all faces, and with the same choices."""
        for seed in range(0, 24, 3):
            made = []
            for kind in (Reinsertion, Everywhere):
                dice = random.Random(seed)
                count = 8 + seed
                pairs = [(vertex, (vertex + 1) % count) for vertex in range(count)]
                pairs += dice.sample([(one, other) for other in range(count) for one in range(other - 1) if one or other < count - 1],
                                     count)
                weights = [dice.choice((1, 1, 2, 5)) if seed % 2 else 1 for _ in pairs]
                search = kind(LinkedEmbedding(count, pairs), weights, dice)
                search.put_all()
                search.improve(2, 10 ** 6)
                made.append((search.cost, search.embedding.planarization().rotation))
            with self.subTest(seed=seed):
                self.assertEqual(*made)

    def test_growth(self) -> None:
        """The next vertex is always one with the most neighbours before it, then with the most edges."""
        for seed in range(10):
            dice = random.Random(seed)
            pairs = [(dice.randrange(20), dice.randrange(20)) for _ in range(40)]
            embedding = LinkedEmbedding(20, pairs)
            before: set[int] = set()

            def rank(vertex: int) -> tuple[int, int]:
                """Edges to vertices before, and all edges."""
                others = [sum(pairs[edge]) - vertex for edge in embedding.edges_at[vertex]]
                return sum(other in before for other in others), len(others)

            for vertex, edges in growth(embedding, dice):
                self.assertEqual(rank(vertex), max(map(rank, set(range(20)) - before)))
                self.assertEqual(len(edges), rank(vertex)[0])
                before.add(vertex)
            self.assertEqual(len(before), 20)


@support.needs_networkx
class Incremental(unittest.TestCase):
    def test_planar_graphs_are_embedded_vertex_by_vertex(self) -> None:
        """Without a planarity test, and with as many faces as Euler's formula says."""
        for made in (networkx.grid_2d_graph(6, 6), networkx.grid_2d_graph(8, 8), networkx.tutte_graph(), networkx.dodecahedral_graph(),
                     networkx.circular_ladder_graph(9)):
            graph = networkx.convert_node_labels_to_integers(made)
            found = incremental_embedding(len(graph), graph.edges())
            assert found is not None
            self.assertEqual([set(around) for around in found], [set(graph[vertex]) for vertex in graph])
            faces = Plane([[other + 1 for other in around] for around in found]).walks
            self.assertEqual(len(graph) - graph.number_of_edges() + len(faces), 2)


def straight(places: Sequence[tuple[float, float]], edges: Sequence[tuple[int, int]]) -> Planarization:
    """The embedding of a drawing with straight edges, of which no three meet at one point and none passes a vertex."""
    points, along = list(places), [[(0.0, tail), (1.0, head)] for tail, head in edges]
    for (one, (a, b)), (other, (c, d)) in itertools.combinations(enumerate(edges), 2):
        if not {a, b} & {c, d}:
            (ax, ay), (bx, by), (cx, cy), (dx, dy) = (places[vertex] for vertex in (a, b, c, d))
            area = (bx - ax) * (dy - cy) - (by - ay) * (dx - cx)
            first = ((cx - ax) * (dy - cy) - (cy - ay) * (dx - cx)) / area
            second = ((cx - ax) * (by - ay) - (cy - ay) * (bx - ax)) / area
            if 0 < first < 1 and 0 < second < 1:
                along[one].append((first, len(points)))
                along[other].append((second, len(points)))
                points.append((ax + first * (bx - ax), ay + first * (by - ay)))
    tail: list[int] = []
    chains: list[list[int]] = []
    for met in along:
        pieces = list(itertools.pairwise(vertex for _, vertex in sorted(met)))
        chains.append(list(range(len(tail), len(tail) + 2 * len(pieces), 2)))
        tail += [end for piece in pieces for end in piece]

    def angle(dart: int) -> float:
        (x, y), (u, v) = points[tail[dart]], points[tail[dart ^ 1]]
        return math.atan2(v - y, u - x)

    rotation = [sorted((dart for dart in range(len(tail)) if tail[dart] == vertex), key=angle, reverse=True)
                for vertex in range(len(points))]
    return Planarization(tail, rotation, len(places), chains)


def triangles() -> tuple[Planarization, list[tuple[int, int]]]:
    """Two triangles at a vertex, joined by two edges that cross: their embedding, and the edges."""
    edges = [(0, 1), (0, 2), (1, 2), (0, 3), (0, 4), (3, 4), (1, 3), (2, 4)]
    return straight([(0, -1), (-3, 3), (-1, 1), (1, 1), (3, 3)], edges), edges


@support.needs_networkx
class Effort(unittest.TestCase):
    def searched(self, count: int, work: int) -> tuple[int, list[int]]:
        """For a complete graph, the number of first embeddings, and for each the work that may be spent on improving it."""
        edges, allowed = [(tail, head) for tail in range(count) for head in range(tail)], list[int]()

        def improve(search: Reinsertion, patience: int, most_work: int) -> None:
            allowed.append(most_work - search.work)

        with (mock.patch("planarbend.drawing.planarize.WORK", work), mock.patch.object(Reinsertion, "improve", improve),
              mock.patch.object(_Starts, "next", autospec=True, side_effect=_Starts.next) as made):
            _least(core_of(range(len(edges)), edges, [1] * len(edges), FIXED), 1, 0, sys.maxsize)
        return made.call_count, allowed

    def test_planar_parts(self) -> None:
        """Those of K5 and K(3,3) lack one edge, which then makes one crossing."""
        for edges in ([(tail, head) for tail in range(5) for head in range(tail)], UTILITIES):
            for seed in range(4):
                order = list(range(len(edges)))
                random.Random(seed).shuffle(order)
                starts = _Starts(core_of(range(len(edges)), edges, [1] * len(edges), FIXED), seed)
                self.assertEqual(sum(map(len, starts._planar_part(order))), 2 * (len(edges) - 1))
                self.assertEqual(starts.next(1).cost, 1)
                with self.assertRaises(TooManyCrossings):
                    starts.next(0)

    def test_one_of_several(self) -> None:
        """Any of them, by the dice."""
        for numbers in ([7], [7, 8], [7, 8, 9]):
            self.assertEqual({one_of(numbers, random.Random(seed)) for seed in range(30)}, set(numbers))

    def test_a_search_ends(self) -> None:
        """After eight starts; before, if there is one crossing or none, or the work is done. Planarity tests are work."""
        self.assertEqual(self.searched(5, 10 ** 9)[0], 1)
        starts, allowed = self.searched(8, 10 ** 9)
        self.assertEqual((starts, len(allowed)), (8, 8))
        self.assertTrue(all(one > other for one, other in zip([10 ** 9, *allowed], allowed)))
        self.assertEqual(self.searched(8, 0), (1, [0]))


@support.needs_networkx
class Planarized(unittest.TestCase):
    """What every planarization must be."""

    def checked(self, count: int, edges: Sequence[tuple[int, int]], together: Sequence[int] = (),
                effort: int = 1, seed: int = 0) -> Planarization:
        """A planarization, found right by its lists, by networkx's planarity test and by Euler's formula."""
        result = planarize(count, edges, effort=effort, seed=seed, together=together)
        self.check(result, edges, together)
        return result

    def check(self, result: Planarization, edges: Sequence[tuple[int, int]], together: Sequence[int] = ()) -> None:
        """Finds a planarization right."""
        count = result.vertex_count
        origin = result.tail
        self.assertEqual(sorted(dart for around in result.rotation for dart in around), list(range(len(origin))))
        for vertex, around in enumerate(result.rotation):
            self.assertEqual([origin[dart] for dart in around], [vertex] * len(around))
        self.assertEqual(sorted(dart >> 1 for chain in result.chains for dart in chain), list(range(len(origin) // 2)))
        owner = {dart: edge for edge, chain in enumerate(result.chains) for step in chain for dart in (step, step ^ 1)}
        for chain, (tail, head) in zip(result.chains, edges, strict=True):
            self.assertEqual(bool(chain), tail != head, "loops alone are left out")
            if not chain:
                continue
            self.assertEqual((origin[chain[0]], origin[chain[-1] ^ 1]), (tail, head))
            for dart, after in zip(chain, chain[1:]):
                self.assertEqual(origin[dart ^ 1], origin[after])
                self.assertGreaterEqual(origin[after], count)
                around = result.rotation[origin[after]]
                self.assertEqual((around.index(after) - around.index(dart ^ 1)) % 4, 2)
        pairs = []
        for around in result.rotation[count:]:
            self.assertEqual(len(around), 4)
            first, second = owner[around[0]], owner[around[1]]
            self.assertFalse(set(edges[first]) & set(edges[second]), "edges that share an end cross")
            pairs.append((min(first, second), max(first, second)))
        self.assertEqual(len(set(pairs)), len(pairs), "two edges cross twice")
        planar = networkx.Graph()
        planar.add_nodes_from(range(len(result.rotation)))
        planar.add_edges_from(zip(origin[::2], origin[1::2]))
        self.assertTrue(networkx.check_planarity(planar)[0])
        parts = list(networkx.connected_components(planar))
        alone = sum(1 for around in result.rotation if not around)
        faces = faces_of(result)
        self.assertEqual(len(result.rotation) - len(origin) // 2 + len(faces) + alone, 2 * len(parts))
        for part in parts:
            members = set(together) & part
            self.assertTrue(len(members) < 2 or any(members <= set(face) for face in faces))

    def graph(self, graph: object) -> tuple[int, list[tuple[int, int]]]:
        """Number of vertices and edges of a networkx graph."""
        graph = networkx.convert_node_labels_to_integers(graph)
        return graph.number_of_nodes(), list(graph.edges())

    def test_known_numbers(self) -> None:
        """Crossing numbers that are known are reached."""
        for name, made, known in (
                ("K5", networkx.complete_graph(5), 1), ("K6", networkx.complete_graph(6), 3),
                ("K7", networkx.complete_graph(7), 9), ("K8", networkx.complete_graph(8), 18),
                ("K3,3", networkx.complete_bipartite_graph(3, 3), 1),
                ("K4,4", networkx.complete_bipartite_graph(4, 4), 4),
                ("K5,5", networkx.complete_bipartite_graph(5, 5), 16),
                ("Petersen", networkx.petersen_graph(), 2), ("Heawood", networkx.heawood_graph(), 3),
                ("Pappus", networkx.pappus_graph(), 5), ("Möbius and Kantor", networkx.moebius_kantor_graph(), 4),
                ("Desargues", networkx.desargues_graph(), 6)):
            with self.subTest(name):
                self.assertEqual(self.checked(*self.graph(made)).crossings, known)

    def test_folded(self) -> None:
        """Without its vertices of degree 1 and 2, a graph is planar if it was, and not otherwise."""
        for seed in range(60):
            made = networkx.gnm_random_graph(12 + seed, 15 + seed + seed // 3, seed=seed)
            joined = [set(made[vertex]) for vertex in made]
            fold(joined)
            self.assertFalse({len(others) for others in joined} & {1, 2})
            rest = networkx.Graph((vertex, other) for vertex, others in enumerate(joined) for other in others)
            with self.subTest(seed=seed):
                self.assertEqual(networkx.check_planarity(rest)[0], networkx.check_planarity(made)[0])

    def test_planar(self) -> None:
        """Planar graphs have no crossing."""
        for made in (networkx.path_graph(1), networkx.path_graph(2), networkx.star_graph(9), networkx.tutte_graph(),
                     networkx.icosahedral_graph(), networkx.grid_2d_graph(7, 9), networkx.wheel_graph(12)):
            self.assertEqual(self.checked(*self.graph(made)).crossings, 0)

    def test_parts(self) -> None:
        """Parts, blocks and vertices without edges stay apart; the empty graph has no piece."""
        self.assertEqual(self.checked(0, []).crossings, 0)
        self.assertEqual(self.checked(3, []).crossings, 0)
        five = [(tail, head) for tail in range(5) for head in range(tail)]
        moved = [(tail + 4, head + 4) for tail, head in five]
        apart = [(tail + 20, head + 20) for tail, head in five]
        result = self.checked(26, five + moved + apart + [(0, 10), (10, 11)])
        self.assertEqual(result.crossings, 3)

    def test_cuts(self) -> None:
        """Vertices without edges, vertices of degree 1 and blocks with a common vertex beside a block with many crossings."""
        eight = [(tail, head) for head in range(8) for tail in range(head)]  # 18 crossings
        six = [(tail, head) for head in range(6) for tail in range(head)]  # 3 crossings
        moved = [(tail + 5, head + 5) for tail, head in six]
        for count, edges, known in ((9, eight, 18), (7, six, 3), (7, [*six, (0, 6)], 3), (7, [*six, (6, 3)], 3),
                                    (8, [*six, (6, 7)], 3), (11, six + moved, 6)):
            with self.subTest(count=count, edges=len(edges)):
                self.assertEqual(self.checked(count, edges).crossings, known)

    def test_many_edges(self) -> None:
        """Loops, parallel edges and chains beside them; crossing a bundle costs each of its edges."""
        five = [(tail, head) for tail in range(5) for head in range(tail)]
        thick = [pair for pair in five for _ in range(3)]
        self.assertEqual(self.checked(5, thick + [(0, 0), (0, 0), (3, 3)]).crossings, 9)
        # Each edge twice but one, and one way round by a chain: the least product of two disjoint edges is 1 x 2.
        mixed = [pair for pair in five for _ in range(2 if pair != (1, 0) else 1)]
        chained = [pair for pair in mixed if pair != (3, 2)] + [(3, 5), (5, 2), (2, 6), (6, 7), (7, 3)]
        self.assertEqual(self.checked(8, chained).crossings, 2)

    def test_edges_that_only_touch(self) -> None:
        """If two edges touch in the embedding, they are drawn again without a crossing; those that cross stay."""
        ends, crossed = [(0, 1), (2, 3), (4, 5), (6, 7)], [[5], [5], [3], [3]]
        apart = [[1], [0], [3], [2], [8], [8], [8], [8], [4, 6, 5, 7]]
        met = [[9]] * 4 + [[8]] * 4 + [[4, 6, 5, 7], [0, 1, 2, 3]]  # crossing 3 becomes vertex 8, and crossing 5 vertex 9
        with mock.patch("planarbend.drawing.planarize._planar", side_effect=[met, apart]) as planar:
            result = _embedded(8, 8, ends, crossed)
        self.assertEqual(list(planar.call_args[0][1]), [(0, 1), (2, 3), (4, 8), (8, 5), (6, 8), (8, 7)])
        self.assertEqual((result.crossings, [len(chain) for chain in result.chains]), (1, [1, 1, 2, 2]))

    def test_random(self) -> None:
        """Random graphs with loops, parallel edges and vertices that are to lie on one face."""
        for seed in range(40):
            dice = random.Random(seed)
            count = dice.randrange(1, 16)
            edges = [(dice.randrange(count), dice.randrange(count)) for _ in range(dice.randrange(3 * count))]
            together = dice.sample(range(count), dice.randrange(count + 1))
            with self.subTest(seed=seed):
                self.checked(count, edges, together, effort=seed % 2, seed=seed)

    def test_together(self) -> None:
        """Vertices come to one face with no crossing where some embedding has them there, else by crossings."""
        count, grid = self.graph(networkx.grid_2d_graph(4, 4))
        self.assertEqual(self.checked(count, grid, (0, 3, 12, 15)).crossings, 0)
        self.assertGreater(self.checked(count, grid, (0, 5, 10, 15)).crossings, 0)
        # Two squares that share a side: the two vertices of degree 2 lie on one face after one square is turned.
        ladder = [(0, 1), (1, 2), (2, 3), (3, 0), (0, 4), (4, 2)]
        for pair in ((1, 3), (1, 4), (3, 4)):
            self.assertEqual(self.checked(5, ladder, pair).crossings, 0)

    def test_too_many(self) -> None:
        """A limit on crossings is kept, at once where it cannot be met."""
        eight = [(tail, head) for tail in range(8) for head in range(tail)]
        self.assertEqual(planarize(8, eight, most=18).crossings, 18)
        with self.assertRaisesRegex(TooManyCrossings, "^18 or more crossings in each attempt$") as caught:
            planarize(8, eight, most=17)
        self.assertEqual(caught.exception.crossings, 18)
        many = [(tail, head) for tail in range(60) for head in range(tail)]
        with self.assertRaisesRegex(TooManyCrossings, "^at least [0-9]+ crossings$"):
            planarize(60, many, most=255)
        # Twice and more the limit; few edges a vertex, so that only the search can tell.
        dice = random.Random(1)
        sparse = [(dice.randrange(40), dice.randrange(40)) for _ in range(110)]
        with self.assertRaises(TooManyCrossings):
            planarize(40, sparse, most=5)
        for count, edges in ((8, eight), (60, many), (5, [(0, 1)] * 9), (0, []), (1, [(0, 0)])):
            self.assertLessEqual(needed_crossings(count, edges), {8: 18, 60: 185_000}.get(count, 0))

    def test_neighbours(self) -> None:
        """Moves of an embedding lead to embeddings of the same graph with no more crossings, and to many."""
        for seed in range(12):
            dice = random.Random(seed)
            count = dice.randrange(4, 13)
            edges = [(dice.randrange(count), dice.randrange(count)) for _ in range(dice.randrange(count, 2 * count))]
            edges = [pair for pair in edges if pair[0] != pair[1] or seed % 5 == 0]
            embedding = self.checked(count, edges)
            for _ in range(4):
                for other in neighbours(embedding, dice, 5):
                    with self.subTest(seed=seed):
                        self.check(other, edges)
                        self.assertLessEqual(other.crossings, embedding.crossings)
                        embedding = other

    def test_edges_that_cross_are_not_made_to_touch(self) -> None:
        """If one of the two triangles is mirrored, these edges touch."""
        planar, edges = triangles()
        self.check(planar, edges)
        found = [flipped(Faces(planar), flip) for flip in flips_of(Faces(planar)) if {0, 5} == {*flip[2:]}]
        self.assertEqual(found, [None])

    def test_shifts_of_straight_drawings(self) -> None:
        """Drawings at random places have more crossings than they need; an edge or a vertex that is put back crosses no edge at
        its own ends."""
        for seed in (2, 3, 12, 30):
            dice = random.Random(seed)
            edges = [(vertex, (vertex + 1) % 12) for vertex in range(12)]
            edges += dice.sample([(one, other) for one, other in itertools.combinations(range(12), 2)
                                  if 1 < other - one < 11], 24)
            planar = straight([(dice.random(), dice.random()) for _ in range(12)], edges)
            self.check(planar, edges)
            for _ in range(4):
                other = shifted(Faces(planar), dice)
                assert other is not None
                self.check(other, edges)
                self.assertLessEqual(other.crossings, planar.crossings)

    def test_a_crossing_costs_the_product_of_its_weights(self) -> None:
        planar, edges = triangles()
        search = Reinsertion(LinkedEmbedding.of(planar, edges), [1] * 6 + [2, 3], random.Random(1))
        self.assertEqual(search.cost, 6)
        search.take(6)
        self.assertEqual(search.cost, 0)

    def test_a_cube_has_no_other_embedding(self) -> None:
        """But for its mirror image, since it is three-connected: no flip and no turn leads anywhere."""
        cube = [(corner, corner ^ bit) for corner in range(8) for bit in (1, 2, 4) if not corner & bit]
        self.assertEqual(neighbours(planarize(8, cube), random.Random(1), 4), [])

    def test_a_search_in_vain(self) -> None:
        """It ends after half as many rounds as it may take; each better embedding makes it go on."""
        prices = []

        def priced(planars: Sequence[Planarization]) -> list[tuple[int, ...]]:
            prices.append(len(planars))
            return [(0 if len(prices) == 4 else 1,)] * len(planars)

        star = planarize(6, [(0, leaf) for leaf in range(1, 6)])
        climbed(star, priced, random.Random(1), rounds=8, width=3)
        self.assertEqual(len(prices), 1 + 3 + 4)

    def test_all_embeddings(self) -> None:
        """Moves lead to each embedding of a graph, and mirrored ones are two: K(2,4) and a star of four have six, and two
        triangles at one vertex four."""
        double = [(end, middle) for end in (0, 1) for middle in (2, 3, 4, 5)]
        bow = [(0, 1), (1, 2), (2, 0), (0, 3), (3, 4), (4, 0)]
        for edges, known in ((double, 6), ([(0, 1), (0, 2), (0, 3), (0, 4)], 6), (bow, 4)):
            dice = random.Random(2)
            embedding = planarize(6, edges)
            seen = set()
            for _ in range(60):
                seen.add(tuple(tuple(darts[darts.index(min(darts)):] + darts[:darts.index(min(darts))])
                               for darts in embedding.rotation if darts))
                embedding = dice.choice(neighbours(embedding, dice, 4) or [embedding])
            self.assertEqual(len(seen), known)

    def test_same_bytes(self) -> None:
        """The result depends on the effort and the seed, not on the process and its hashes."""
        said = [subprocess.run([sys.executable, "-c", PRINTED], check=True, capture_output=True,
                               env={**os.environ, "PYTHONHASHSEED": seed, "PYTHONPATH": str(support.PACKAGE),
                                    "PYTHONDONTWRITEBYTECODE": "1"}).stdout
                for seed in ("0", "77")]
        self.assertEqual(said[0], said[1])


if __name__ == "__main__":
    unittest.main()
