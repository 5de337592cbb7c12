"""Few crossings of edges between nested frames: edges and vertices go out of an embedding and back where they cross least.

This is the search of `reinsert` with two more rules. A path of the dual graph leaves and enters only the frames that its edge
has to cross; then it passes each of them once. A vertex is put only into faces of its own cluster.

Work is counted in darts that a search passes, so the same seed gives the same embedding.
"""
from __future__ import annotations

import random
from collections.abc import Collection, Iterable, Sequence

from planarbend.drawing.dual import FAR, one_of
from planarbend.drawing.linked import NONE
from planarbend.drawing.nested import NestedEmbedding, NestedPlanarization
from planarbend.drawing.nesting import Nesting

STARTS = 24  # first embeddings, for each unit of effort
LEAST_STARTS = 6
PATIENCE = 3  # consecutive rounds without success after which an embedding is left as it is
WORK = 3_000_000  # darts to pass for each unit of effort (about three seconds), after which no further start is made
MOST_KEPT = 4

Passing = Collection[int]  # the values of `NestedEmbedding.side` of darts that a path may cross


class Apart(Exception):
    """No path leads from one end of an edge to the other: an edge or vertex that joins them is out."""


class NestSearch:
    """A search for an embedding with few crossings.

    Attributes
    ----------
    embedding : NestedEmbedding
        It is edited.
    cost : int
        The number of crossings between edges, without those with frames.
    work : int
        The number of darts passed so far.
    """

    def __init__(self, nesting: Nesting, dice: random.Random) -> None:
        """Return a search that begins with an embedding of frames alone."""
        self.embedding, self.dice, self.cost, self.work = NestedEmbedding(nesting), dice, 0, 0
        self.nesting = nesting
        self.edges_at: list[list[int]] = [[] for _ in nesting.home]
        self.loops_at: dict[int, list[int]] = {}
        self.passing: list[tuple[Passing, Passing]] = []  # from tail to head, and from head to tail
        for edge, (tail, head) in enumerate(nesting.ends):
            left, entered = nesting.crossed(edge)
            self.passing.append((frozenset([1 + one for one in left] + [-1 - one for one in entered]),
                                 frozenset([1 + one for one in entered] + [-1 - one for one in left])))
            if tail != head:
                self.edges_at[tail].append(edge)
                self.edges_at[head].append(edge)
            elif tail in nesting.ports:
                self.loops_at.setdefault(tail, []).append(edge)

    # Distances

    def faces_at(self, places: Iterable[int]) -> list[int]:
        """Return the faces at vertices of the embedding."""
        return sorted({self.embedding.face[dart] for dart in self.embedding.free_corners(places)})

    def distances(self, edge: int, is_back: bool = False, places: Sequence[int] | None = None) -> tuple[list[int], list[int]]:
        """Return for each face how many darts a shortest path of an edge from its tail, or back from its head, crosses; `FAR` if
        there is none; and for each face that is reached the innermost cluster around it. `places` are the vertices of the
        embedding at which it may begin, by default all of `places_of`."""
        embedding, parent, passing = self.embedding, self.nesting.parent, self.passing[edge][is_back]
        onward, face, corner, side = embedding.onward, embedding.face, embedding.corner, embedding.side
        waiting = self.faces_at(embedding.places_of(edge, is_back) if places is None else places)
        distance, homes, work = [FAR] * len(corner), [NONE] * len(corner), 0
        for here in waiting:
            distance[here], homes[here] = 0, self.nesting.home[self.nesting.ends[edge][is_back]]
        for here in waiting:
            first = dart = corner[here]
            step = distance[here] + 1
            while True:
                work += 1
                other = face[dart ^ 1]
                if distance[other] > step:
                    number = side[dart]
                    if not number:
                        distance[other], homes[other] = step, homes[here]
                        waiting.append(other)
                    elif number in passing:
                        distance[other], homes[other] = step, parent[number - 1] if number > 0 else -number - 1
                        waiting.append(other)
                dart = onward[dart]
                if dart == first:
                    break
        self.work += work
        return distance, homes

    def path(self, distance: Sequence[int], goal: int, passing: Passing) -> list[int]:
        """Return the darts that a shortest path to a face crosses, from its start on, chosen at random."""
        embedding, crossed = self.embedding, list[int]()
        face, side = embedding.face, embedding.side
        while distance[goal]:
            choices = [dart ^ 1 for dart in embedding.along(embedding.corner[goal])
                       if distance[face[dart ^ 1]] == distance[goal] - 1
                       and (not side[dart ^ 1] or side[dart ^ 1] in passing)]
            crossed.append(one_of(choices, self.dice))
            goal = face[crossed[-1]]
        return crossed[::-1]

    # Moves

    def take(self, edge: int) -> None:
        """Remove an edge."""
        self.cost -= self.embedding.crossings_of(edge)
        self.embedding.remove(edge)

    def insert(self, edge: int, tail: int, crossed: Sequence[int], head: int) -> None:
        """Insert an edge between corners, or, in place of one, -1 - a vertex without edges, and count its crossings."""
        corners = [NONE if one < 0 else one for one in (tail, head)]
        ends = [-1 - one if one < 0 else self.embedding.origin[one] for one in (tail, head)]
        self.embedding.ends[edge] = (ends[0], ends[1])
        self.embedding.insert(edge, corners[0], crossed, corners[1])
        self.cost += self.embedding.crossings_of(edge)

    def corner(self, places: Sequence[int], face: int = NONE) -> int:
        """Return a dart that leaves one of some vertices of the embedding with a face on its left, chosen at random; without a
        face, any one, or -1 - a vertex without edges."""
        found = [dart for dart in self.embedding.free_corners(places) if face in (NONE, self.embedding.face[dart])]
        return one_of(found, self.dice) if found else -1 - places[0]

    def put(self, edge: int) -> None:
        """Insert an edge along a shortest path between its ends, which have other edges; raise `Apart` if there is none, unless
        it crosses no frame, so that it may join any corners. A loop goes from one site to another."""
        tails, heads = (self.embedding.places_of(edge, is_head) for is_head in (False, True))
        is_loop = self.nesting.ends[edge][0] == self.nesting.ends[edge][1]
        ways = []
        for tail in [[one] for one in tails] if is_loop else [list(tails)]:
            others = [one for one in heads if one not in tail]
            distance, goals = self.distances(edge, False, tail)[0], self.faces_at(others)
            ways.append((min((distance[goal] for goal in goals), default=FAR), tail, others, distance, goals))
        least = min(way[0] for way in ways)
        if least == FAR and self.passing[edge][0]:
            raise Apart
        if least == FAR:
            self.insert(edge, self.corner(tails), (), self.corner(heads))
            return
        best = one_of([number for number, way in enumerate(ways) if way[0] == least], self.dice)
        _, tail, others, distance, goals = ways[best]
        goal = one_of([goal for goal in goals if distance[goal] == least], self.dice)
        crossed = self.path(distance, goal, self.passing[edge][0])
        start = self.corner(tail, self.embedding.face[crossed[0]] if crossed else goal)
        self.insert(edge, start, crossed, self.corner(others, goal))

    def put_vertex(self, vertex: int, edges: Sequence[int]) -> None:
        """Insert a vertex with some of its edges where this costs least; raise `Apart` if no face is a place for it."""
        ends, home = self.nesting.ends, self.nesting.home[vertex]
        distance, homes = self.distances(edges[0], ends[edges[0]][1] != vertex)
        places = [face for face, one in enumerate(distance) if one < FAR and homes[face] == home]
        found = [distance, *(self.distances(edge, ends[edge][1] != vertex)[0] for edge in edges[1:])]
        totals = [sum([distance[face] for distance in found]) for face in places]
        if min(totals, default=FAR) >= FAR:
            raise Apart
        place = one_of([face for face, total in zip(places, totals) if total == min(totals)], self.dice)
        edge, is_head = edges[0], ends[edges[0]][1] == vertex
        crossed = self.path(found[0], place, self.passing[edge][not is_head])
        other = self.corner(self.embedding.places_of(edge, not is_head), self.embedding.face[crossed[0]] if crossed else place)
        own = self.corner(self.embedding.places_of(edge, is_head))
        if is_head:
            self.insert(edge, other, crossed, own)
        else:
            self.insert(edge, own, [dart ^ 1 for dart in reversed(crossed)], other)
        for edge in edges[1:]:
            self.put(edge)

    def put_all(self) -> None:
        """Insert all vertices, each time one with the most embedded neighbours, then with the most edges."""
        embedding, waiting, placed = self.embedding, set(range(len(self.nesting.home))), set[int]()
        rank = {vertex: [0, len(self.edges_at[vertex])] for vertex in waiting}
        while waiting:
            most = max(rank[vertex] for vertex in waiting)
            vertex = one_of([vertex for vertex in sorted(waiting) if rank[vertex] == most], self.dice)
            waiting.remove(vertex)
            edges = []
            for edge in self.edges_at[vertex]:
                other = sum(self.nesting.ends[edge]) - vertex
                rank[other][0] += 1
                edges += [edge] if other in placed else []
            is_second = not embedding.first and len(placed) == 1
            placed.add(vertex)
            if is_second:
                for edge in edges:
                    self.put(edge)
            elif edges:
                self.put_vertex(vertex, edges)
            elif embedding.first:
                corners = embedding.free_corners(embedding.places(vertex)[:1])
                hook = embedding.hook_corner(self.nesting.home[vertex])
                embedding.insert(embedding.vertex_ties + vertex, hook, (), corners[0] if corners else NONE)
        embedding.cut_ties()
        self.put_loops(self.loops_at)
        self.count()

    def put_loops(self, vertices: Iterable[int]) -> None:
        """Insert the loops of vertices with ports, each of which has two sites."""
        for vertex in vertices:
            for edge in self.loops_at.get(vertex, ()):
                self.put(edge)

    def count(self) -> None:
        """Count the crossings anew."""
        embedding = self.embedding
        self.cost = sum(map(embedding.crossings_of, range(embedding.sides))) // 2

    def moved(self, vertex: int, edges: Sequence[int]) -> None:
        """Remove a vertex with its edges, or, if it is `NONE`, an edge, and put it back, unless this costs more."""
        state, before = self.embedding.state(), self.cost
        try:
            for edge in [*edges, *self.loops_at.get(vertex, ())]:
                if self.embedding.start[edge] != NONE:
                    self.take(edge)
            if vertex == NONE:
                self.put(edges[0])
            else:
                self.put_vertex(vertex, edges)
                self.put_loops([vertex])
        except Apart:
            self.cost = FAR
        if self.cost > before:
            self.embedding.restore(state)
            self.cost = before

    def improve(self, patience: int, most_work: int) -> None:
        """Move all vertices and edges in random order, until `patience` rounds save nothing, or too much work is done."""
        vertices, vain = [vertex for vertex, edges in enumerate(self.edges_at) if edges], 0
        while vain < patience and self.cost and self.work <= most_work:
            before = self.cost
            self.dice.shuffle(vertices)
            for vertex in vertices:
                self.moved(vertex, self.edges_at[vertex])
            self.settle(False)
            vain = vain + 1 if self.cost == before else 0

    def settle(self, is_last: bool = True) -> None:
        """Move each edge that crosses others: once, or until none saves a crossing."""
        while True:
            before = self.cost
            for edge in range(self.embedding.sides):
                if self.embedding.crossings_of(edge):
                    self.moved(NONE, [edge])
            if self.cost == before or not is_last:
                return

    def finish(self) -> NestedPlanarization:
        """Return the embedding after edges that are not drawn went out while the whole stays connected."""
        self.embedding.cut_needless()
        self.count()
        self.settle()
        return self.embedding.nested()



def planarized(nesting: Nesting, seed: int = 0, effort: int = 1) -> list[tuple[NestSearch, NestedPlanarization]]:
    """Return searches that found embeddings of a component with equally few crossings, and these: at most `MOST_KEPT`.

    The same arguments give the same result.
    """
    kept: list[tuple[NestSearch, NestedPlanarization]] = []
    work = 0
    for number in range(STARTS * effort or 1):
        search = NestSearch(nesting, random.Random(f"{seed} {number}"))
        search.put_all()
        search.improve(PATIENCE, WORK * max(1, effort))
        found = search.finish()
        work += search.work
        if kept and found.real_crossings < kept[0][1].real_crossings:
            kept = []
        if not kept or found.real_crossings == kept[0][1].real_crossings and len(kept) < MOST_KEPT:
            kept.append((search, found))
        if len(kept) >= MOST_KEPT and not kept[0][1].real_crossings or work > WORK * effort and number + 1 >= LEAST_STARTS:
            break
    return kept
