"""Directions of all darts of an embedding with frames, with the fewest bends: a linear program of differences.

A direction is counted in quarter turns, counter-clockwise from east, and is *lifted*: it is not reduced modulo 4. Along a dart
the edge turns to the left by ``direction[dart ^ 1] + 2 - direction[dart] + 4 * winding[dart]``. The windings are integers that make
each inner face turn by 4 and the outer one by -4; they follow from the choice of the outer face.

A frame runs straight through its vertices and turns to the left only, by 4 in all: where it turns is a result. The lines at a
box leave it in any number on each side, those at a point on different sides.
"""
from __future__ import annotations

from collections.abc import Collection, Sequence
from dataclasses import dataclass
from typing import Any

import numpy
from scipy.optimize import Bounds, LinearConstraint, milp
from scipy.sparse import csr_matrix, hstack, vstack

from planarbend.drawing.expand import MOST_CONNECTIONS
from planarbend.drawing.linked import NONE
from planarbend.drawing.nested import NestedPlanarization
from planarbend.schematics.highs import solved

SHARED = 0.45  # bends that two lines on one side of a vertex with few edges cost
UNDRAWN = 0.3  # the cost of a bend of an edge that is not drawn
MOST_NODES = 100  # of the search for directions of vertices with ports


@dataclass(frozen=True, slots=True)
class Directed:
    """An embedding with an outer face, given by one of its darts, and the direction of each dart.

    Attributes
    ----------
    planar : NestedPlanarization
    outer : int
        The outer face, by its place in the walks of `planar`.
    cost : float
    directions, windings : list of int
        Of each dart.
    wraps : list of int
        1 for the last dart of each vertex, counter-clockwise; otherwise 0.
    upright : list of int
        For each vertex with ports how much it is turned: a multiple of 4, unless they may lie on their sides.
    """

    planar: NestedPlanarization
    outer: int
    cost: float
    directions: list[int]
    windings: list[int]
    wraps: list[int]
    upright: list[int]

    def turns(self, dart: int) -> int:
        """Return how much a dart turns to the left."""
        return self.directions[dart ^ 1] + 2 - self.directions[dart] + 4 * self.windings[dart]

    def angle(self, dart: int) -> int:
        """Return the right angles of the corner at the head of a dart, on its left."""
        after = self.planar.onward[dart]
        return self.directions[dart ^ 1] - self.directions[after] + 4 * self.wraps[after]

    def is_point(self, vertex: int) -> bool:
        """Return whether all lines at a vertex leave in different directions."""
        return len({self.directions[dart] % 4 for dart in self.planar.rotation[vertex]}) == len(self.planar.rotation[vertex])


class Program:
    """The linear program of an embedding.

    `boxes`: the vertices that may be boxes although they have few edges.
    `straight`: edges that must not bend.
    `is_even`: whether the sides of a vertex with many edges have equally many lines, as far as possible.
    """

    def __init__(self, planar: NestedPlanarization, boxes: Collection[int] = (), straight: Collection[int] = (),
                 is_even: bool = False) -> None:
        """Return the program of a connected embedding."""
        self.planar, self.boxes, self.is_even = planar, boxes, is_even
        count = len(planar.tail)
        self.variable, self.offset, self.wraps = [NONE] * count, [0] * count, [0] * count
        self.rows: list[tuple[int, int, float, int]] = []  # high, low, least difference, and a column that may make it less
        self.prices: list[float] = []  # of these columns
        self.upright: list[int] = []  # the variables of vertices with ports
        self.count = 0
        first, last = len(planar.nesting.home), planar.vertex_count
        for vertex, darts in enumerate(planar.rotation):
            if darts:
                self._add_vertex(vertex, darts[::-1], first <= vertex < last)
        sides = {dart for chain in planar.chains[len(planar.nesting.ends):] for dart in chain}
        self.forward = sorted(sides)
        self.pieces: list[tuple[int, float]] = []  # the first dart of each other piece, and the price of a bend
        for edge, chain in enumerate(planar.chains[:len(planar.nesting.ends)]):
            price = 1.0 if edge < planar.nesting.drawn[1] else UNDRAWN
            self.pieces += [(dart, NONE if edge in straight else price) for dart in chain]
        self._build()

    def _add_vertex(self, vertex: int, darts: Sequence[int], is_frame: bool) -> None:
        """Number the variables of a vertex whose darts are given counter-clockwise."""
        planar = self.planar
        if vertex in planar.nesting.ports:
            for dart in darts:
                self.variable[dart], self.offset[dart] = self.count, planar.facing[dart]
            self.upright.append(self.count)
            self.count += 1
        elif is_frame or vertex >= planar.vertex_count:
            for place, dart in enumerate(darts):
                self.variable[dart], self.offset[dart] = self.count, place * (4 // len(darts))
            self.count += 1
        else:
            for place, dart in enumerate(darts):
                self.variable[dart] = self.count + place
            is_large, most = len(darts) > MOST_CONNECTIONS, -(-len(darts) // 4)  # lines at a side
            for place in range(len(darts) if len(darts) > 1 else 0):
                is_last = place + 1 == len(darts)
                high, low = self.count + (place + 1) % len(darts), self.count + place
                least = -4 if is_last else 0
                self.rows.append((high, low, least + (not is_large and vertex not in self.boxes), NONE))
                if vertex in self.boxes and not is_large:
                    self.rows.append((high, low, least + 1, len(self.prices)))
                    self.prices.append(SHARED)
                if is_large and self.is_even:
                    turn, after = divmod(place + most, len(darts))
                    self.rows.append((self.count + after, self.count + place, 1 - 4 * turn, NONE))
            self.count += len(darts)
        self.wraps[darts[-1]] = 1

    def _build(self) -> None:
        """Make the matrices. Columns are directions, turns of each piece to either side, and what makes differences less."""
        variable, offset, pieces = self.variable, self.offset, self.pieces
        turned, shared = self.count, self.count + 2 * len(pieces)
        columns = shared + len(self.prices)
        equal: list[tuple[int, int, float]] = []
        for row, (dart, _) in enumerate(pieces):
            equal += [(row, variable[dart ^ 1], 1.0), (row, variable[dart], -1.0), (row, turned + 2 * row, -1.0),
                      (row, turned + 2 * row + 1, 1.0)]
        most: list[tuple[int, int, float]] = []
        for row, dart in enumerate(self.forward):
            most += [(row, variable[dart], 1.0), (row, variable[dart ^ 1], -1.0)]
        for row, (high, low, _, column) in enumerate(self.rows, len(self.forward)):
            most += [(row, low, 1.0), (row, high, -1.0)] + ([(row, shared + column, -1.0)] if column != NONE else [])
        self.equal, self.most = (
            csr_matrix(([entry[2] for entry in one], ([entry[0] for entry in one], [entry[1] for entry in one])), (rows, columns))
            for one, rows in ((equal, len(pieces)), (most, len(self.forward) + len(self.rows))))
        self.cost = numpy.array([0.0] * self.count + [max(price, 0.0) for _, price in pieces for _ in (0, 1)] + self.prices)
        root = self.upright[0] if self.upright else 0
        self.bounds = [*((0.0, 0.0) if column == root else (None, None) for column in range(self.count)),
                       *((0.0, 0.0 if price < 0 else None) for _, price in pieces for _ in (0, 1)),
                       *[(0.0, None)] * len(self.prices)]
        self.base = [(dart, 2 + offset[dart ^ 1] - offset[dart]) for dart, _ in pieces]
        self.side_base = [(dart, 2 + offset[dart ^ 1] - offset[dart]) for dart in self.forward]

    def solved(self, outer: int, upright: Sequence[int] | None = None, is_free: bool = False) -> Directed:
        """Return the directions with the fewest bends for an outer face, given by its place in the walks of the embedding.

        Parameters
        ----------
        outer : int
        upright : list of int, optional
            How much each vertex with ports is turned, in the order of `upright`; by default this is sought.
        is_free : bool
            Whether vertices with ports may lie on their sides.

        Raises
        ------
        ArithmeticError
            There are none, as some edges must be straight.
        """
        windings = windings_of(self.planar, self.wraps, outer)
        equal = [-base - 4 * windings[dart] for dart, base in self.base]
        most = [base + 4 * windings[dart] for dart, base in self.side_base] + [-least for _, _, least, _ in self.rows]
        bounds = list(self.bounds)
        if upright is None and len(self.upright) > 1 and not is_free:
            upright = self.turned_upright(equal, most)
        for column, number in zip(self.upright, upright or ()):
            bounds[column] = (float(number), float(number))
        found = solved(self.cost, "directions of edges", A_eq=self.equal, b_eq=equal, A_ub=self.most, b_ub=most, bounds=bounds)
        values = numpy.rint(found.x).astype(int).tolist()
        directions = [0 if number == NONE else values[number] + offset for number, offset in zip(self.variable, self.offset)]
        turned = [values[one] for one in self.upright]
        return Directed(self.planar, outer, float(found.fun), directions, windings, self.wraps, turned)


    def turned_upright(self, equal: Sequence[float], most: Sequence[float]) -> list[int]:
        """Return how much each vertex with ports is turned, a multiple of 4, by an integer program that ends after `MOST_NODES`
        nodes."""
        count, upright = self.equal.shape[1], self.upright
        whole = csr_matrix(([1.0] * len(upright) + [-4.0] * len(upright),
                            ([*range(len(upright))] * 2, [*upright, *range(count, count + len(upright))])),
                           (len(upright), count + len(upright)))
        rows = vstack([hstack([self.equal, csr_matrix((len(equal), len(upright)))]),
                       hstack([self.most, csr_matrix((len(most), len(upright)))]), whole])
        high = numpy.array([*equal, *most, *[0.0] * len(upright)])
        low = numpy.array([*equal, *[-numpy.inf] * len(most), *[0.0] * len(upright)])
        bounds = [*self.bounds, *[(None, None)] * len(upright)]
        least, greatest = ([edge if one is None else one for one in some]
                           for edge, some in zip((-numpy.inf, numpy.inf), zip(*bounds)))
        found = milp(numpy.append(self.cost, [0.0] * len(upright)), constraints=LinearConstraint(rows.tocsr(), low, high),
                     integrality=[0] * count + [1] * len(upright), bounds=Bounds(least, greatest),
                     options={"node_limit": MOST_NODES})
        if found.x is None:
            raise ArithmeticError("no directions of edges were found with which all records are upright")
        return [4 * round(value) for value in found.x[count:]]


def windings_of(planar: NestedPlanarization, wraps: Sequence[int], outer: int) -> list[int]:
    """Return the windings of all darts for an outer face."""
    onward, face, walks, found = planar.onward, planar.face, planar.walks, [0] * len(planar.tail)
    tree, start = set[int](), planar.tail[0]
    met, waiting = {start}, [start]
    for vertex in waiting:
        for dart in planar.rotation[vertex]:
            other = planar.tail[dart ^ 1]
            if other not in met:
                met.add(other)
                waiting.append(other)
                tree.add(dart >> 1)
    parent, order = {outer: NONE}, [outer]
    for here in order:
        for dart in walks[here]:
            other = face[dart ^ 1]
            if other not in parent and dart >> 1 not in tree:
                parent[other] = dart ^ 1
                order.append(other)
    for piece in tree:
        found[2 * piece + 1] = -1
    for here in reversed(order[1:]):
        up = parent[here]
        found[up] = 1 + sum(wraps[onward[dart]] - found[dart] - 1 for dart in walks[here])
        found[up ^ 1] = -1 - found[up]
    return found


def outer_faces(planar: NestedPlanarization) -> list[int]:
    """Return the faces outside all frames, the longest first."""
    sides = {dart for chain in planar.chains[len(planar.nesting.ends):] for dart in chain}
    inside = {planar.face[dart] for dart in sides}
    waiting = list(inside)
    for here in waiting:
        for dart in planar.walks[here]:
            other = planar.face[dart ^ 1]
            if other not in inside and dart not in sides:
                inside.add(other)
                waiting.append(other)
    return sorted((face for face in range(len(planar.walks)) if face not in inside),
                  key=lambda face: (-len(planar.walks[face]), face))
