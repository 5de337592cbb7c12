"""Fewer crossings by reinsertion: edges and vertices are removed from an embedding and put back where they cross least.

An edge goes back along a shortest path of the dual graph (Gutwenger and Mutzel 2004, with the embedding as it is), a vertex
into the face from which the sum of such paths to its neighbours is least (after Clancy, Haythorpe and Newcombe 2019). Neither
ever adds a crossing. Where several places are equally good, one is chosen at random, which lets the embedding drift.

A vertex came from a place where the sum was known, so faces with a greater one are no places for it. Nor does a shortest path
to a place pass a face whose distances from two neighbours add up to more, if their edges have the same weight.

Work is counted in darts that a search of the dual graph passes, not in seconds, so the same seed gives the same embedding.
"""
from __future__ import annotations

import random
from collections.abc import Iterator, Sequence

from planarbend.drawing.dual import FAR, FIXED, DualPaths, one_of
from planarbend.drawing.linked import NONE
from planarbend.drawing.planarization import LinkedEmbedding


def growth(embedding: LinkedEmbedding, dice: random.Random) -> Iterator[tuple[int, list[int]]]:
    """Yield each vertex with its edges to those before it: always one with the most such edges, then with the most edges."""
    count, chance = embedding.vertex_count, dice.random
    step = 1 + max(map(len, embedding.edges_at), default=0)
    rank = list(map(len, embedding.edges_at))  # plus `step` for each edge to a vertex that comes before
    waiting, is_placed = list(range(count)), [False] * count
    while waiting:
        ranks = [rank[vertex] for vertex in waiting]
        most = max(ranks)
        draws = [chance() for _ in waiting]
        place = max((draw, place) for place, (draw, other) in enumerate(zip(draws, ranks)) if other == most)[1]
        vertex = waiting.pop(place)
        is_placed[vertex] = True
        edges = []
        for edge in embedding.edges_at[vertex]:
            other = sum(embedding.ends[edge]) - vertex
            rank[other] += step
            if is_placed[other]:
                edges.append(edge)
        yield vertex, edges


class Reinsertion(DualPaths):
    """A search for an embedding with few crossings.

    `embedding`: of all of the graph's edges, of some that connect all its vertices, or of none. It is edited.
    `weights`: for each edge its weight: a crossing of two edges costs the product of their weights. An edge of weight `FIXED`
    is never crossed; such edges must form no cycle.
    `cost`: the sum of the costs of the embedding's crossings.
    """

    embedding: LinkedEmbedding

    def __init__(self, embedding: LinkedEmbedding, weights: Sequence[int], dice: random.Random) -> None:
        """Return a search that begins with an embedding."""
        super().__init__(embedding, weights, dice)
        self.cost = sum(map(self.cost_of, range(len(embedding.ends)))) // 2

    def cost_of(self, edge: int) -> int:
        """Return the cost of an edge's crossings."""
        weights = self.weights
        return weights[edge] * sum(weights[other] for other in self.embedding.crossed(edge))

    # Distances

    def distances(self, vertex: int, goals: Sequence[int] = (), most: int = FAR, near: Sequence[int] = (), sum_most: int = FAR
                  ) -> tuple[list[int], list[list[int]]]:
        """Return what `distances_from` returns for the faces at a vertex."""
        faces = list({self.embedding.face[dart] for dart in self.embedding.around(vertex)})
        return self.distances_from(faces, goals, most, near, sum_most)

    # Moves

    def take(self, edge: int) -> None:
        """Remove an edge."""
        self.cost -= self.cost_of(edge)
        self.embedding.remove(edge)

    def put(self, edge: int) -> None:
        """Insert an edge along a shortest path between its ends, which have other edges."""
        embedding = self.embedding
        tail, head = embedding.ends[edge]
        goals = sorted({embedding.face[dart] for dart in embedding.around(head)})
        distance, _ = self.distances(tail, goals)
        least = min(distance[goal] for goal in goals)
        goal = one_of([goal for goal in goals if distance[goal] == least], self.dice)
        crossed = self.path(distance, goal)
        from_face = embedding.face[crossed[0]] if crossed else goal
        self.cost += self.weights[edge] * least
        embedding.insert(edge, self._corner(tail, from_face), crossed, self._corner(head, goal))

    def put_at(self, edge: int, vertex: int, face: int, distance: list[int]) -> None:
        """Insert the first edge of a vertex, from a face, by the distances from the edge's other end."""
        embedding = self.embedding
        tail, head = embedding.ends[edge]
        crossed = self.path(distance, face)
        other = head if tail == vertex else tail
        corner = self._corner(other, embedding.face[crossed[0]] if crossed else face)
        self.cost += self.weights[edge] * distance[face]
        if tail == vertex:
            embedding.insert(edge, NONE, [dart ^ 1 for dart in reversed(crossed)], corner)
        else:
            embedding.insert(edge, corner, crossed, NONE)

    def _corner(self, vertex: int, face: int) -> int:
        """Return a dart that leaves the vertex with the face on its left, chosen at random."""
        return one_of(self.embedding.corners(vertex, (face,)), self.dice)

    def move_edge(self, edge: int) -> None:
        """Remove an edge and put it back."""
        self.take(edge)
        self.put(edge)

    def move_vertex(self, vertex: int) -> None:
        """Remove a vertex with its edges and put it back."""
        edges, before = self.embedding.edges_at[vertex], self.cost
        for edge in edges:
            self.take(edge)
        self.put_vertex(vertex, edges, before - self.cost)

    def put_vertex(self, vertex: int, edges: Sequence[int], most: int = FAR) -> None:
        """Insert a vertex with these of its edges, whose other ends have further edges, where this costs least: at most `most`,
        which is known to be possible."""
        embedding, weights = self.embedding, self.weights
        first, places, totals, least = list[int](), list[int](), list[int](), 0
        for edge in edges:
            lighter = min(weights[edge], weights[edges[0]])
            near = first if lighter == weights[edges[0]] else ()
            distance, reached = self.distances(sum(embedding.ends[edge]) - vertex, (), (most - least) // weights[edge], near,
                                               most // lighter)
            if not first:
                first, places = distance, sorted({face for faces in reached for face in faces})
                totals = [0] * len(places)
            totals = [total + weights[edge] * distance[face] for total, face in zip(totals, places)]
            least = min(totals)
            places = [face for face, total in zip(places, totals) if total <= most]
            totals = [total for total in totals if total <= most]
        places = [face for face, total in zip(places, totals) if total == least]
        self.put_at(edges[0], vertex, places[int(self.dice.random() * len(places))], first)
        for edge in edges[1:]:
            self.put(edge)

    def put_all(self) -> None:
        """Insert all vertices into an embedding without edges, each time the one with the most embedded neighbours."""
        embedding = self.embedding
        for vertex, edges in growth(embedding, self.dice):
            if edges and embedding.leaving[sum(embedding.ends[edges[0]]) - vertex] == NONE:  # the second vertex of a part
                embedding.insert(edges[0], NONE, (), NONE)
            elif edges:
                self.put_vertex(vertex, edges)

    def improve(self, patience: int, most_work: int) -> None:
        """Move all vertices and edges in random order, repeatedly.

        This ends after as many consecutive rounds as `patience` that save no crossing, or with a move after which `work` is
        above `most_work`.
        """
        edges = [edge for edge, weight in enumerate(self.weights) if weight != FIXED]
        vertices = list(range(self.embedding.vertex_count))
        vain = 0
        while vain < patience and self.cost:
            before = self.cost
            self.dice.shuffle(vertices)
            for vertex in vertices:
                if self.work <= most_work:
                    self.move_vertex(vertex)
            self.dice.shuffle(edges)
            for edge in edges:
                if self.work <= most_work and self.cost_of(edge):
                    self.move_edge(edge)
            vain = vain + 1 if self.cost == before else 0
            if self.work > most_work:
                return

    def settle(self) -> None:
        """Move each edge that crosses others until none saves a crossing.

        After this no two edges with a common end cross, and no two edges cross twice: one of them would save a crossing along
        the other.
        """
        before = self.cost + 1
        while self.cost < before:
            before = self.cost
            for edge in range(len(self.weights)):
                if self.weights[edge] != FIXED and self.cost_of(edge):
                    self.move_edge(edge)
