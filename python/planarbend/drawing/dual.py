"""Shortest paths in the dual graph of embedded darts: from face to face, across edges that cost their weights.

Work is counted in darts that a search passes, not in seconds, so that searches that stop by it give the same on any machine.
"""
from __future__ import annotations

import random
from collections.abc import Sequence

from planarbend.drawing.linked import LinkedDarts

FIXED = 1 << 20  # the weight of an edge that nothing may cross
FAR = 1 << 60  # the distance of a face that no path reaches


def one_of(numbers: Sequence[int], dice: random.Random) -> int:
    """Return one of some numbers, at random if there are several."""
    return numbers[int(dice.random() * len(numbers))] if len(numbers) > 1 else numbers[0]


class DualPaths:
    """Searches of the dual graph of an embedding.

    `embedding`: it may be edited between searches.
    `weights`: for each edge its weight. An edge of weight `FIXED` is never crossed.
    `dice`: the source of random choices.
    `work`: number of darts passed so far.
    """

    def __init__(self, embedding: LinkedDarts, weights: Sequence[int], dice: random.Random) -> None:
        """Return searches of an embedding."""
        self.embedding, self.weights, self.dice, self.work = embedding, list(weights), dice, 0

    def distances_from(self, sources: Sequence[int], goals: Sequence[int] = (), most: int = FAR, near: Sequence[int] = (),
                       sum_most: int = FAR) -> tuple[list[int], list[list[int]]]:
        """Return for each face the weight of the edges to cross from some faces to it, by Dial's algorithm, and the faces that
        are reached; `FAR` if there is no path, and maybe for faces farther than the nearest of some goals, farther than
        `most`, or with a sum above `sum_most` of this distance and that of `near`, there or on each shortest path."""
        embedding, weights = self.embedding, self.weights
        onward, face, corner, edge = embedding.onward, embedding.face, embedding.corner, embedding.edge
        buckets = [list(sources)]
        distance = [FAR] * len(corner)
        for here in buckets[0]:
            distance[here] = 0
        near = near or [0] * len(corner)
        work, steps, end = 0, 0, min(most + 1, FIXED)
        while steps < len(buckets) and steps < most and min(map(distance.__getitem__, goals), default=FAR) > steps:
            next_step = steps + 1
            for here in buckets[steps]:
                if distance[here] < steps:
                    continue
                first = dart = corner[here]
                while True:
                    work += 1
                    other = face[dart ^ 1]
                    if distance[other] > next_step:
                        there = steps + weights[edge[dart >> 1]]
                        if there < distance[other] and there < end and near[other] + there <= sum_most:
                            distance[other] = there
                            while len(buckets) <= there:
                                buckets.append([])
                            buckets[there].append(other)
                    dart = onward[dart]
                    if dart == first:
                        break
            steps = next_step
        self.work += work
        return distance, buckets

    def path(self, distance: list[int], to: int) -> list[int]:
        """Return the darts that a shortest path to a face crosses, from its start on, chosen at random among the shortest."""
        embedding, weights, chance = self.embedding, self.weights, self.dice.random
        onward, face, edge = embedding.onward, embedding.face, embedding.edge
        crossed: list[int] = []
        here = to
        while distance[here]:
            left = distance[here]
            first = dart = embedding.corner[here]
            choices: list[int] = []
            while True:
                weight = weights[edge[dart >> 1]]
                if distance[face[dart ^ 1]] == left - weight and weight != FIXED:
                    choices.append(dart ^ 1)
                dart = onward[dart]
                if dart == first:
                    break
            chosen = choices[int(chance() * len(choices))] if len(choices) > 1 else choices[0]
            crossed.append(chosen)
            here = face[chosen]
        crossed.reverse()
        return crossed
