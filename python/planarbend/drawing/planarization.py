"""The embedding of a graph whose edges cross: as it is passed on, and as linked lists of darts, which can be edited.

An edge is a chain of *pieces*, cut where other edges cross it. Two edges cross in a *crossing*: a vertex of degree 4, numbered
from ``vertex_count`` up, which each of the two passes straight.
"""
from __future__ import annotations

from collections.abc import Container, Sequence
from dataclasses import dataclass

from planarbend.drawing.linked import FREE, NONE, LinkedDarts
from planarbend.layout.embedding import Embedding


@dataclass(eq=False)
class Planarization(Embedding):
    """An embedded planar graph that stands for another graph with crossings.

    Vertices below `vertex_count` are those of the graph; each further one is a crossing, at which the darts of the two edges
    alternate. `chains` has for each edge of the graph its darts, from its tail to its head; none for a loop, which is not
    embedded.
    """

    vertex_count: int
    chains: list[list[int]]

    @property
    def crossings(self) -> int:
        """The number of crossings."""
        return len(self.rotation) - self.vertex_count


class LinkedEmbedding(LinkedDarts):
    """An embedding of part of a graph's edges, with crossings as vertices of degree 4.

    `ends`: tail and head of each edge. No edge is embedded yet. Loops cannot be embedded.
    `start`: for each edge the dart that leaves its tail, `NONE` while the edge is not embedded.
    `edges_at`: for each vertex its edges, embedded or not, without loops.
    """

    def __init__(self, vertex_count: int, ends: Sequence[tuple[int, int]]) -> None:
        """Return an embedding of no edge."""
        super().__init__(vertex_count)
        self.ends = list(ends)
        self.start: list[int] = [NONE] * len(self.ends)
        self.edges_at: list[list[int]] = [[] for _ in range(vertex_count)]
        for edge, (tail, head) in enumerate(self.ends):
            if tail != head:
                self.edges_at[tail].append(edge)
                self.edges_at[head].append(edge)

    @classmethod
    def of(cls, planar: Planarization, ends: Sequence[tuple[int, int]]) -> LinkedEmbedding:
        """Return the same embedding, with the same numbers of darts, of edges with these tails and heads."""
        made = cls(planar.vertex_count, ends)
        count = len(planar.tail)
        made.origin, made.onward = list(planar.tail), list(planar.onward)
        made.back, made.face, made.edge = [NONE] * count, [NONE] * count, [NONE] * (count // 2)
        made.leaving = [darts[0] if darts else NONE for darts in planar.rotation]
        for edge, chain in enumerate(planar.chains):
            for dart in chain:
                made.edge[dart >> 1] = edge
            made.start[edge] = chain[0] if chain else NONE
        for dart, after in enumerate(made.onward):
            made.back[after] = dart
        for walk in planar.walks_from(range(count)):
            made._label(walk[0], made._new_face(walk[0]))
        return made

    def planarization(self) -> Planarization:
        """Return the embedding of all embedded edges, with pieces numbered along them and crossings without gaps."""
        number = {vertex: vertex for vertex in range(self.vertex_count)}
        number |= {crossing: self.vertex_count + place for place, crossing in enumerate(self.crossings())}
        tail: list[int] = []
        chains: list[list[int]] = []
        new: dict[int, int] = {}
        for edge in range(len(self.ends)):
            chains.append([])
            for dart in self.chain(edge):
                new[dart], new[dart ^ 1] = len(tail), len(tail) + 1
                chains[-1].append(len(tail))
                tail += (number[self.origin[dart]], number[self.origin[dart ^ 1]])
        rotation = [[new[dart] for dart in self.around(vertex)] for vertex in number]
        return Planarization(tail, rotation, self.vertex_count, chains)

    # Reading

    def corners(self, vertex: int, faces: Container[int]) -> list[int]:
        """Return the darts that leave a vertex with one of these faces on their left, the one of `leaving` first."""
        return [dart for dart in self.around(vertex) if self.face[dart] in faces][::-1]

    def chain(self, edge: int) -> list[int]:
        """Return the darts of an edge from its tail to its head; empty while it is not embedded."""
        dart = self.start[edge]
        if dart == NONE:
            return []
        darts = [dart]
        while self.origin[dart ^ 1] >= self.vertex_count:
            dart = self.straight(dart)
            darts.append(dart)
        return darts

    def crossings(self) -> list[int]:
        """Return the crossings, ascending."""
        return [vertex for vertex in range(self.vertex_count, len(self.leaving)) if self.leaving[vertex] != FREE]

    def crossed(self, edge: int) -> list[int]:
        """Return the edges that cross an edge, from its tail to its head, once for each crossing."""
        return [self.edge[self.onward[dart] >> 1] for dart in self.chain(edge)[:-1]]

    # Editing

    def insert(self, edge: int, tail_corner: int, crossed: Sequence[int], head_corner: int) -> None:
        """Embed an edge, from a corner of its tail across other edges to a corner of its head.

        A corner is a dart that leaves the vertex: the edge comes to lie right before it, in the face on its left; `NONE` for a
        vertex without edges. Of the darts to cross, the first has the face of the tail's corner on its left, each further one
        the face that the dart before it has on its right, and the head's corner lies on the right of the last. No face comes
        twice. With nothing crossed, corners of two faces join two connected parts.
        """
        tail, head = self.ends[edge]
        if tail == head:
            raise ValueError("a loop cannot be embedded")
        from_vertex, from_corner = tail, tail_corner
        first = NONE
        for dart in crossed:
            meeting = self._split(dart)
            piece = self._join(edge, from_vertex, from_corner, self.origin[meeting], meeting)
            if first == NONE:
                first = piece
            if head_corner == dart ^ 1:
                head_corner = meeting ^ 1
            from_vertex, from_corner = self.origin[meeting], dart ^ 1
        piece = self._join(edge, from_vertex, from_corner, head, head_corner)
        self.start[edge] = piece if first == NONE else first

    def remove(self, edge: int) -> None:
        """Remove an embedded edge, and undo its crossings."""
        darts = self.chain(edge)
        meetings = [self.origin[dart] for dart in darts[1:]]
        for dart in darts:
            self._cut(dart)
        for meeting in meetings:
            self._smooth(meeting)
        self.start[edge] = NONE

    def _renamed(self, old: int, new: int) -> None:
        """Note that the dart that leaves a vertex has another number."""
        edge = self.edge[new >> 1]
        if self.start[edge] == old:
            self.start[edge] = new
