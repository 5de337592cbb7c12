"""The plane graph of a wiring with directions, as planarbend's core takes it, and the conditions that give its shape.

A part with at most one pin on a side is a *point*: one vertex, whose angles are given. Any other part is a *cage*: a rectangle
of a vertex for each wired pin and for each corner, with straight sides. Crossings and junctions are vertices. A piece that is a
loop, or parallel to another edge, gets *middles*: vertices of degree 2 at which it runs straight.

The turns along a tree of wires are given, with the angles of the junctions on it, so that all parts with wishes have the
directions that were found. Everything else is left to the core, which proves that no shape with these directions has fewer
bends.
"""
from __future__ import annotations

from collections.abc import Iterator
from dataclasses import dataclass, field

from planarbend.layout.engine import Answer, Conditions, Engine, GridPoint
from planarbend.layout.planar_code import Lists
from planarbend.programs import PlanarbendError
from planarbend.schematics.directions import Directed

Dart = tuple[int, int]
UNITS = ((1, 0), (0, 1), (-1, 0), (0, -1))  # of the directions 0 to 3


class TooLarge(PlanarbendError):
    """A component takes more vertices than the core: `vertices`."""

    def __init__(self, vertices: int, most: int) -> None:
        """Return the error of a number of vertices."""
        super().__init__(f"a connected part of the schematic takes {vertices} vertices; the limit is {most}:"
                         " draw more nets as flags, or the sheets of a hierarchy apart")
        self.vertices = vertices


class OtherBends(PlanarbendError):
    """The core's shape has another number of bends than the directions promise."""

    def __init__(self, found: int, promised: int) -> None:
        """Return the error of the two numbers."""
        super().__init__(f"the core found a shape with {found} bends; the directions promise {promised}")
        self.found, self.promised = found, promised


@dataclass(slots=True)
class GridWiring:
    """A component on the grid, y to the north.

    Attributes
    ----------
    points : list of (int, int)
        Of each vertex of the plane graph.
    lines : dict
        For each of the wiring's darts the points along it, ends included.
    """

    points: list[GridPoint]
    lines: dict[int, list[GridPoint]]


@dataclass(slots=True)
class PlaneGraph:
    """A simple plane graph of degree at most 4. Its vertices are counted from 0, in conditions from 1.

    Attributes
    ----------
    directed : Directed
    around : list of list of int
        For each vertex its neighbours, clockwise.
    vertex_of : dict
        For each vertex of the wiring that is a point, a crossing or a junction, its vertex.
    pin_vertex : dict
        For each wired pin of a cage its vertex.
    ring : dict
        For each cage its vertices, counter-clockwise, beginning at the corner before the east side.
    corners : dict
        For each cage its four corners, of which the first is before the east side, the next before the north side.
    chains : dict
        For each of the wiring's darts the vertices along it.
    """

    directed: Directed
    around: list[list[int]] = field(default_factory=list)
    vertex_of: dict[int, int] = field(default_factory=dict)
    pin_vertex: dict[int, int] = field(default_factory=dict)
    ring: dict[int, list[int]] = field(default_factory=dict)
    corners: dict[int, list[int]] = field(default_factory=dict)
    chains: dict[int, list[int]] = field(default_factory=dict)

    @property
    def lists(self) -> Lists:
        """The neighbour lists, counted from 1."""
        return [[other + 1 for other in others] for others in self.around]

    def end(self, dart: int) -> int:
        """Return the vertex that a dart of the wiring leaves."""
        wiring = self.directed.turning.wiring
        pin = wiring.pin_at[dart]
        return self.pin_vertex[pin] if pin in self.pin_vertex else self.vertex_of[wiring.origin[dart]]

    def conditions(self) -> Conditions:
        """Return the conditions that give the shape."""
        angles, turns = dict(self._angles()), dict(self._turns())
        straight = [(one, other) for ring in self.ring.values() for one, other in zip(ring, ring[1:] + ring[:1])]
        return Conditions(_counted(straight), _counted(self._inner()),
                          {(one + 1, other + 1): angle for (one, other), angle in angles.items()},
                          {(one + 1, other + 1): number for (one, other), number in turns.items()})

    def _inner(self) -> Iterator[Dart]:
        """Yield a dart of each face that is not the outer one."""
        for face, walk in enumerate(self.directed.turning.walks):
            if face != self.directed.outer:
                chain = self.chains[walk[0]]
                yield chain[0], chain[1]
        for ring in self.ring.values():
            yield ring[0], ring[1]

    def _angles(self) -> Iterator[tuple[Dart, int]]:
        """Yield the angles that are given: the dart at whose head they are, on its left, and their right angles."""
        turning, joined = self.directed.turning, self.directed.tree()[1]
        wiring = turning.wiring
        for walk in turning.walks:
            for dart in walk:
                vertex = wiring.origin[dart ^ 1]
                if vertex in joined or vertex < wiring.vertex_count and vertex not in self.ring:
                    chain = self.chains[dart]
                    yield (chain[-2], chain[-1]), self.directed.angle(dart)
        for part, ring in self.ring.items():
            for one, other in zip(ring, ring[1:] + ring[:1]):
                yield (one, other), 1 if other in self.corners[part] else 2
        for dart in turning.darts:
            chain = self.chains[dart]
            for one, middle in zip(chain, chain[1:-1]):
                yield (one, middle), 2

    def _turns(self) -> Iterator[tuple[Dart, int]]:
        """Yield the turns that are given: a dart and how much it turns to the left."""
        turns = self.directed.turns()
        for dart in sorted(self.directed.tree()[0]):
            chain = self.chains[dart]
            for place, pair in enumerate(zip(chain, chain[1:])):
                yield pair, 0 if place else turns[dart]

    def laid(self, engine: Engine) -> GridWiring:
        """Return the drawing of the core on the grid.

        Raises
        ------
        TooLarge
            The core takes fewer vertices.
        OtherBends
            The core's shape has another number of bends.
        NotKept
            The core has no shape that keeps the conditions, or no drawing that fits its grid.
        """
        if len(self.around) > engine.most_vertices:
            raise TooLarge(len(self.around), engine.most_vertices)
        answer = engine.lay_keeping(self.lists, "first", self.conditions())
        if answer.bends != self.directed.solution.bends:
            raise OtherBends(answer.bends, self.directed.solution.bends)
        return self._placed(answer)

    def _placed(self, answer: Answer) -> GridWiring:
        """Return the drawing by the core's answer."""
        between: dict[Dart, list[GridPoint]] = {}
        corners = iter(answer.corners)
        for vertex, others in enumerate(self.around):
            for other in others:
                if vertex < other:
                    line = next(corners)
                    between[vertex, other], between[other, vertex] = line, line[::-1]
        lines = {}
        for dart, chain in self.chains.items():
            lines[dart] = [answer.points[chain[0]]]
            for pair in zip(chain, chain[1:]):
                lines[dart] += [*between[pair], answer.points[pair[1]]]
        return self._turned(GridWiring(answer.points, lines))

    def _turned(self, grid: GridWiring) -> GridWiring:
        """Return a drawing after it is turned as a whole, so that darts leave in their directions, from (0, 0) up."""
        turning = self.directed.turning
        wished = {wish.variable for wish in turning.wishes}  # of the parts whose directions the core has to keep
        dart = min(grid.lines, key=lambda one: turning.wiring.origin[one] not in wished)
        (x, y), (right, above) = grid.lines[dart][:2]
        heads = ((right > x) - (right < x), (above > y) - (above < y))
        turns = (self.directed.direction(dart) - UNITS.index(heads)) % 4

        def at(point: GridPoint) -> GridPoint:
            """Return where a point comes to lie."""
            x, y = point
            for _ in range(turns):
                x, y = -y, x
            return x - left, y - below

        left = below = 0
        all_points = [at(point) for line in grid.lines.values() for point in line] + [at(point) for point in grid.points]
        left, below = min(x for x, _ in all_points), min(y for _, y in all_points)
        return GridWiring([at(point) for point in grid.points],
                          {dart: [at(point) for point in line] for dart, line in grid.lines.items()})


def _counted(darts: Iterator[Dart] | list[Dart]) -> list[Dart]:
    """Return darts whose vertices are counted from 1."""
    return [(one + 1, other + 1) for one, other in darts]


def plane_graph(directed: Directed) -> PlaneGraph:
    """Return the plane graph of a wiring with directions."""
    found = PlaneGraph(directed)
    wiring = directed.turning.wiring
    ends: list[list[int]] = []  # for each vertex its darts in the wiring, clockwise

    def add(darts: list[int]) -> int:
        """Return a new vertex with darts of the wiring."""
        found.around.append([])
        ends.append(darts)
        return len(ends) - 1

    for vertex, leaving in enumerate(wiring.leaving):
        if leaving < 0:
            continue
        if vertex >= wiring.vertex_count or not directed.turning.parts[vertex].is_cage:
            found.vertex_of[vertex] = add(list(wiring.around(vertex)))
            continue
        side = {pin: one.side for pin, one in zip(wiring.pins_of[vertex], directed.turning.parts[vertex].pins)}
        found.ring[vertex], found.corners[vertex] = [], []
        for here in range(4):
            found.corners[vertex].append(add([]))
            found.ring[vertex].append(found.corners[vertex][-1])
            for pin in wiring.pins_of[vertex]:
                if side[pin] == here and wiring.dart_of[pin] >= 0:
                    found.pin_vertex[pin] = add([wiring.dart_of[pin]])
                    found.ring[vertex].append(found.pin_vertex[pin])
    _join(found, ends)
    return found


def _join(found: PlaneGraph, ends: list[list[int]]) -> None:
    """Add the chains of all pieces, with middles where these are needed, and the neighbours of all vertices."""
    rings = [ring for part, ring in sorted(found.ring.items())]
    joined = {frozenset(pair) for ring in rings for pair in zip(ring, ring[1:] + ring[:1])}
    for dart in found.directed.turning.darts:
        first, last = found.end(dart), found.end(dart ^ 1)
        count = 2 if first == last else int(frozenset((first, last)) in joined)
        middles = list(range(len(found.around), len(found.around) + count))
        found.around += [[] for _ in middles]
        chain = [first, *middles, last]
        for place, middle in enumerate(middles, 1):
            found.around[middle] = [chain[place - 1], chain[place + 1]]
        joined |= {frozenset(pair) for pair in zip(chain, chain[1:])}
        found.chains[dart], found.chains[dart ^ 1] = chain, chain[::-1]
    for vertex, darts in enumerate(ends):
        found.around[vertex] = [found.chains[dart][1] for dart in darts]
    for ring in rings:
        for place, vertex in enumerate(ring):
            found.around[vertex] += [ring[place - 1], ring[(place + 1) % len(ring)]]
