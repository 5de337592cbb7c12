"""The embedding of a graph in the plane: its darts, and their clockwise order about each vertex."""
from __future__ import annotations

import functools
from collections.abc import Iterable
from dataclasses import dataclass

from planarbend.layout.planar_code import Lists


@dataclass(eq=False)
class Embedding:
    """A plane multigraph.

    Edge e has the darts 2e and 2e + 1, so ``dart ^ 1`` is the reverse of ``dart``. A dart has its face on its left; the next
    dart along that face is the one clockwise after the reverse dart.

    `tail`: the vertex that each dart leaves. Vertices are counted from 0.
    `rotation`: for each vertex the darts that leave it, in clockwise order.
    """

    tail: list[int]
    rotation: list[list[int]]

    @classmethod
    def of(cls, lists: Lists) -> Embedding:
        """Return the embedding with these neighbour lists, which must break no rule of planar_code.

        Edges are numbered as they first occur in the lists; dart 2e leaves the lower vertex. In the order of the lists, darts
        and faces have the numbers of docs/JSON.md: see `order` and `walks`.
        """
        tail: list[int] = []
        number: dict[tuple[int, int], int] = {}
        for vertex, heads in enumerate(lists):
            for head in heads:
                if vertex < head - 1:
                    number[vertex, head - 1], number[head - 1, vertex] = len(tail), len(tail) + 1
                    tail += (vertex, head - 1)
        return cls(tail, [[number[vertex, head - 1] for head in heads] for vertex, heads in enumerate(lists)])

    @property
    def order(self) -> list[int]:
        """The darts in the order of the neighbour lists."""
        return [dart for darts in self.rotation for dart in darts]

    @property
    def lists(self) -> Lists:
        """The neighbour lists: for each vertex its neighbours in clockwise order, counted from 1."""
        return [[self.tail[dart ^ 1] + 1 for dart in darts] for darts in self.rotation]

    @functools.cached_property
    def onward(self) -> list[int]:
        """For each dart the next one along the face on its left."""
        found = [-1] * len(self.tail)
        for darts in self.rotation:
            for dart, after in zip(darts, darts[1:] + darts[:1]):
                found[dart ^ 1] = after
        return found

    def walks_from(self, darts: Iterable[int]) -> list[list[int]]:
        """Return the darts of each face along it. Faces, and the beginning of each, follow the order of these darts."""
        found: list[list[int]] = []
        met, onward = [False] * len(self.tail), self.onward
        for dart in darts:
            if not met[dart]:
                found.append([])
            while not met[dart]:
                met[dart] = True
                found[-1].append(dart)
                dart = onward[dart]
        return found

    @functools.cached_property
    def walks(self) -> list[list[int]]:
        """The darts of each face along it, in the order of the neighbour lists."""
        return self.walks_from(self.order)

    @functools.cached_property
    def face(self) -> list[int]:
        """For each dart the number of the face on its left: its place in `walks`."""
        found = [-1] * len(self.tail)
        for face, walk in enumerate(self.walks):
            for dart in walk:
                found[dart] = face
        return found
