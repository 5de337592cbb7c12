"""The core of a graph: what is folded away, and what a crossing of each folded edge costs, by hand and by flows."""
from __future__ import annotations

import itertools
import random
import unittest
from collections import Counter

import support  # finds the package
from planarbend.drawing.core import Core, Strand, core_of

FIXED = 1 << 20
Pair = tuple[int, int]


def folded(ends: list[Pair], weights: list[int] | None = None, most: int = FIXED) -> Core:
    """The core of a graph with these edges."""
    return core_of(range(len(ends)), ends, weights or [1] * len(ends), most)


def pairs_of(core: Core) -> dict[Pair, tuple[int, list[Strand]]]:
    """For each folded edge, from the lesser to the greater vertex of the graph, its weight and its strands."""
    found = {}
    for (tail, head), weight, strands in zip(core.ends, core.weights, core.strands, strict=True):
        one, other = core.vertices[tail], core.vertices[head]
        if one > other:
            one, other, strands = other, one, [Strand(strand.edge, not strand.reversed) for strand in reversed(strands)]
        assert (one, other) not in found, "two folded edges are parallel"
        found[one, other] = weight, strands
    return found


def least_cut(ends: list[Pair], weights: list[int], source: int, sink: int, inner: set[int]) -> int:
    """The least weight of edges that part two vertices, among those within a set and the two, by all subsets."""
    free = sorted(inner)
    here = [(edge, weight) for edge, weight in zip(ends, weights) if set(edge) <= inner | {source, sink}]
    sides = [{source, *some} for count in range(len(free) + 1) for some in itertools.combinations(free, count)]
    return min(sum(weight for edge, weight in here if len(side & set(edge)) == 1 and edge[0] != edge[1])
               for side in sides)


class ByHand(unittest.TestCase):
    def test_what_has_no_core(self) -> None:
        for ends in ([(0, 1)], [(0, 1), (1, 2), (2, 0)], [(0, 1), (0, 1), (1, 1)],
                     [(0, 1), (1, 2), (2, 3), (3, 0), (0, 2)]):
            self.assertEqual(folded(ends), Core([], [], [], []))

    def test_a_subdivided_k4(self) -> None:
        """A K4 of which one edge is a chain, one is double, one has a chain beside it, with a loop and a tree."""
        ends = [(0, 4), (5, 4), (5, 1), (2, 3), (3, 2), (0, 2), (6, 0), (6, 2), (0, 3), (1, 2), (1, 3), (3, 3), (3, 7),
                (7, 8)]
        self.assertEqual(pairs_of(folded(ends, [3, 2, 4] + [1] * 11)), {
            (0, 1): (2, [Strand(1, True)]), (2, 3): (2, [Strand(3, False), Strand(4, True)]),
            (0, 2): (2, [Strand(5, False), Strand(6, True)]), (0, 3): (1, [Strand(8, False)]),
            (1, 2): (1, [Strand(9, False)]), (1, 3): (1, [Strand(10, False)])})

    def test_weights_have_a_limit(self) -> None:
        ends = list(itertools.combinations(range(4), 2)) + [(0, 1)] * 3
        self.assertEqual(pairs_of(folded(ends))[0, 1][0], 4)
        self.assertEqual(pairs_of(folded(ends, [5] * 9, 7))[0, 1][0], 7)
        self.assertEqual(pairs_of(folded(ends, [5] * 9, 7))[2, 3][0], 5)


class Random(unittest.TestCase):
    def test_cores_are_simple_and_cost_what_a_cut_costs(self) -> None:
        """K4, K5 and K6 whose edges were divided and doubled fold back, at the cost of their least cuts."""
        for seed in range(40):
            dice = random.Random(seed)
            count = dice.choice((4, 5, 6))
            kept = list(itertools.combinations(range(count), 2))
            ends, inner, made = list(kept), {pair: set[int]() for pair in kept}, count
            owner = dict(enumerate(kept))
            for _ in range(dice.randrange(9)):
                edge = dice.randrange(len(ends))
                tail, head = ends[edge]
                if dice.random() < .5:
                    ends[edge] = (tail, made)
                    ends.append(dice.choice([(made, head), (head, made)]))
                    inner[owner[edge]].add(made)
                    made += 1
                else:
                    ends.append(dice.choice([(tail, head), (head, tail)]))
                owner[len(ends) - 1] = owner[edge]
            weights = [dice.randrange(1, 5) for _ in ends]
            found = pairs_of(folded(ends, weights))
            with self.subTest(seed=seed):
                self.assertEqual(set(found), set(kept))
                for pair, (weight, strands) in found.items():
                    own = [edge for edge in range(len(ends)) if owner[edge] == pair]
                    cut = least_cut([ends[edge] for edge in own], [weights[edge] for edge in own], *pair, inner[pair])
                    self.assertEqual(weight, cut)
                    self.assertEqual(weight, sum(weights[strand.edge] for strand in strands))
                    self.assertEqual({owner[strand.edge] for strand in strands}, {pair})
                    self.assertEqual(max(Counter(strand.edge for strand in strands).values()), 1)
                    self.look_at_sides(ends, owner, pair, strands)

    def look_at_sides(self, ends: list[Pair], owner: dict[int, Pair], pair: Pair, strands: list[Strand]) -> None:
        """Without the strands, the tail of each lies on the side of the folded edge's tail, unless it is reversed."""
        cut = {strand.edge for strand in strands}
        reached, waiting = {pair[0]}, [pair[0]]
        while waiting:
            vertex = waiting.pop()
            for edge, (tail, head) in enumerate(ends):
                if owner[edge] == pair and edge not in cut and vertex in (tail, head) and not {tail, head} <= reached:
                    waiting.append(tail + head - vertex)
                    reached.add(tail + head - vertex)
        self.assertNotIn(pair[1], reached)
        for strand in strands:
            tail, head = ends[strand.edge]
            self.assertEqual((tail in reached, head in reached), (not strand.reversed, strand.reversed))


if __name__ == "__main__":
    unittest.main()
