"""The shape of an embedding with frames whose directions were found, as planarbend's core draws it.

All turns and angles are conditions, so the core finds the coordinates of this shape and no other. A vertex that is no point is a
*box*: a cycle of a node for each of its lines and one for each corner. A frame has a node at each corner too.
"""
from __future__ import annotations

from collections.abc import Iterator
from itertools import pairwise

from planarbend.drawing.expand import Expansion
from planarbend.drawing.numbering import Contraction, Form, form_of, path_of
from planarbend.drawing.plans import Plan
from planarbend.drawing.shape import Shape, shape_of
from planarbend.drawing.turns import Directed
from planarbend.layout.engine import Answer, Conditions, Engine, GridPoint

STRAIGHT = 2  # right angles where a line goes on


class GivenExpansion(Expansion):
    """An expansion by directions. Numbers are those of `Expansion`; for each box the first node is that of its first line.

    Attributes
    ----------
    corners : set of int
        The nodes that are corners of boxes and frames.
    """

    def __init__(self, directed: Directed, most: int) -> None:
        """Return the expansion of an embedding with directions, for an engine that takes at most as many nodes."""
        planar = directed.planar
        self.tail, self.rotation = list(planar.tail), list(planar.rotation)
        self.directed, self.planar, self.most, self.spines = directed, planar, most, {}
        self.homes = [[vertex] for vertex in range(planar.vertex_count)]
        self.sides: dict[int, list[int]] = {}
        self.corners: set[int] = set()
        vertices = range(len(planar.nesting.home))
        boxes = [vertex for vertex in vertices
                 if planar.rotation[vertex] and (vertex in planar.nesting.ports or not directed.is_point(vertex))]
        self.plan = Plan(frozenset(boxes))
        for vertex in boxes:
            self._make_box(vertex)
        self.chains = self._divided({})

    def _make_box(self, vertex: int) -> None:
        """Replace a vertex by a cycle with four corners."""
        out, directions = self.rotation[vertex], self.directed.directions
        nodes, lines = list[int](), list[int]()
        for dart, after in zip(out, out[1:] + out[:1]):
            nodes.append(self._node() if nodes else vertex)
            lines.append(dart)
            self.tail[dart] = nodes[-1]
            turned = directions[dart] - directions[after] + 4 * self.directed.wraps[after]
            for _ in range(turned):
                nodes.append(self._node())
                lines.append(-1)
                self.corners.add(nodes[-1])
        ring = [self._dart(node, after) for node, after in zip(nodes, nodes[1:] + nodes[:1])]
        for place, (node, dart) in enumerate(zip(nodes, lines)):
            self.rotation[node] = [*([dart] if dart >= 0 else []), ring[place], ring[place - 1] ^ 1]
        self.homes[vertex], self.sides[vertex] = nodes, ring

    def _divided(self, loose: object) -> list[list[int]]:
        """Return the darts along each edge, after corners were put into sides of frames, and nodes into pieces that join nodes
        already joined."""
        joined = {frozenset((self.tail[dart], self.tail[dart ^ 1])) for ring in self.sides.values() for dart in ring}
        count, found = len(self.directed.planar.nesting.ends), list[list[int]]()
        for edge, chain in enumerate(self.planar.chains):
            found.append([])
            for dart in chain:
                pieces = [dart]
                ends = frozenset((self.tail[dart], self.tail[dart ^ 1]))
                for _ in range(self.directed.turns(dart) if edge >= count else ends in joined):
                    pieces.append(self._divide(pieces[-1]))
                    self.corners |= {self.tail[pieces[-1]]} if edge >= count else set()
                joined |= {frozenset((self.tail[piece], self.tail[piece ^ 1])) for piece in pieces}
                found[-1] += pieces
        return found

    def turns(self) -> Iterator[tuple[int, int]]:
        """Yield a dart of each piece, and how much it turns to the left."""
        planar, count = self.directed.planar, len(self.directed.planar.nesting.ends)
        given = {dart for chain in planar.chains[:count] for dart in chain}
        for chain in self.chains:
            for dart in chain:
                yield dart, self.directed.turns(dart) if dart in given else 0
        for ring in self.sides.values():
            for dart in ring:
                yield dart, 0

    def angles(self) -> Iterator[tuple[int, int]]:
        """Yield darts, and the right angles at their heads, on their left."""
        planar, count, large = self.directed.planar, len(self.directed.planar.nesting.ends), self.plan.cages
        last = {pieces[0]: pieces[-1] for pieces in self._pieces()}
        for dart in range(len(planar.tail)):
            if planar.tail[dart ^ 1] not in large:
                yield last.get(dart, dart), self.directed.angle(dart)
        for edge, chain in enumerate(self.chains):
            for dart, after in pairwise(chain):
                if after >= len(planar.tail):
                    yield dart, 1 if edge >= count else STRAIGHT
        for ring in self.sides.values():
            for dart in ring:  # clockwise, so that the inside is on the left of its reverse
                yield dart ^ 1, 1 if self.tail[dart] in self.corners else STRAIGHT

    def _pieces(self) -> Iterator[list[int]]:
        """Yield the darts of each piece of the embedding that was divided: in the direction of its edge."""
        for chain in self.chains:
            pieces: list[int] = []
            for dart in chain:
                if dart < len(self.planar.tail):
                    if len(pieces) > 1:
                        yield pieces
                    pieces = []
                pieces.append(dart)
            if len(pieces) > 1:
                yield pieces

    def conditions(self, form: Form) -> Conditions:
        """Return the conditions that give the shape."""
        number = {node: place for place, node in enumerate(form.order, 1)}

        def ends(dart: int) -> tuple[int, int]:
            """Return a dart as conditions name it."""
            return number[self.tail[dart]], number[self.tail[dart ^ 1]]

        inner = [walk[0] for face, walk in enumerate(self.planar.walks) if face != self.directed.outer]
        inner += [ring[0] ^ 1 for ring in self.sides.values()]
        return Conditions((), [ends(dart) for dart in inner], {ends(dart): angle for dart, angle in self.angles()},
                          {ends(dart): turns for dart, turns in self.turns()})


def turned(answer: Answer, form: Form, directed: Directed) -> Answer:
    """Return an answer after it is turned as a whole, so that darts leave in their directions; y grows to the north."""
    (x, y), (right, below) = path_of(form.places(answer)[1], 0)[:2]
    heads = 0 if right > x else 2 if right < x else 1 if below < y else 3
    turns = (directed.directions[0] - heads) % 4

    def at(point: GridPoint) -> GridPoint:
        """Return where a point comes to lie."""
        x, y = point
        for _ in range(turns):
            x, y = -y, x
        return x, y

    corners = [[at(point) for point in line] for line in answer.corners]
    return Answer(answer.bends, [at(point) for point in answer.points], corners)


def given_shape(directed: Directed, engine: Engine) -> Shape | None:
    """Return the shape of directions, or None if it takes more nodes than the engine."""
    expansion = GivenExpansion(directed, engine.most_vertices)
    nodes = [node for node, darts in enumerate(expansion.rotation) if darts]
    if len(nodes) > engine.most_vertices:
        return None
    form = form_of(Contraction(expansion), nodes)
    answer = engine.lay_keeping(form.lists, "first", expansion.conditions(form))
    found = shape_of(form, turned(answer, form, directed) if directed.planar.nesting.ports else answer)
    found.bends = sum(len(line) - 2 for line in found.lines[:directed.planar.nesting.drawn[1]] if line)
    return found
