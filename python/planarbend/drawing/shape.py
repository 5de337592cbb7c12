"""The shape of a component on the grid: the points of an answer, as boxes of vertices and lines of edges."""
from __future__ import annotations

import itertools
from collections.abc import Iterable, Sequence
from dataclasses import dataclass, field

from planarbend.drawing.expand import Expansion
from planarbend.drawing.numbering import Form, path_of
from planarbend.drawing.planarization import Planarization
from planarbend.drawing.plans import Plan
from planarbend.layout.engine import Answer, GridPoint

Rect = tuple[int, int, int, int]


@dataclass(slots=True)
class Shape:
    """A component on the grid, y downwards."""

    expansion: Expansion
    points: list[GridPoint]  # of each node
    lines: list[list[GridPoint]]  # the corners of each edge, ends included
    boxes: list[Rect]  # of each vertex
    broken: list[int]  # the vertices whose cage is not a rectangle, or is turned inside out, and those whose spine is bent
    bends: int  # of all edges
    size: tuple[int, int] = (0, 0)  # grid lines that it takes
    sections: dict[int, list[list[GridPoint]]] = field(default_factory=dict)  # the points between nodes of broken vertices

    @property
    def plan(self) -> Plan:
        """The plan that it was found by."""
        return self.expansion.plan

    def price(self) -> tuple[int, int, int]:
        """Return the price to minimise: broken boxes, bends, and the approximate size of the drawing."""
        return len(self.broken), self.bends, self.size[0] * self.size[1]

    def is_point(self, vertex: int) -> bool:
        """Return whether a vertex has at most one connection at each of its sides, all on different ones."""
        sides, tail, home = [], self.expansion.tail, self.expansion.homes[vertex]
        for line, chain in zip(self.lines, self.expansion.chains):
            ends = ((tail[chain[0]], line[0], line[1]), (tail[chain[-1] ^ 1], line[-1], line[-2])) if line else ()
            for node, (x, y), (after, below) in ends:
                if node in home:
                    sides.append(((after > x) - (after < x), (below > y) - (below < y)))
        return len(sides) == len(set(sides))


def without_straight(points: Sequence[GridPoint]) -> list[GridPoint]:
    """Return a line without the points at which it does not turn."""
    kept = list(points[:1])
    for point, after in zip(points[1:], points[2:]):
        if not (kept[-1][0] == point[0] == after[0] or kept[-1][1] == point[1] == after[1]):
            kept.append(point)
    return kept + list(points[-1:])


def shape_of(form: Form, answer: Answer) -> Shape:
    """Return the nodes and edges of an expansion as the answer to one of its forms draws them."""
    expansion = form.graph.expansion
    points, paths = form.places(answer)
    lines = []
    for chain in expansion.chains:
        line = [points[expansion.tail[chain[0]]]] if chain else []
        for dart in chain:
            line += path_of(paths, dart)[1:]
        lines.append(without_straight(line) if len(line) > 2 else line)
    boxes, broken = [], {}
    for vertex, nodes in enumerate(expansion.homes):
        if len(nodes) == 1:
            boxes.append(points[nodes[0]] * 2)
            continue
        is_cage = vertex in expansion.plan.cages
        sections = [path_of(paths, dart) for dart in expansion.sides[vertex]]
        ring = [points[nodes[0]], *(point for section in sections for point in section[1:])]
        boxes.append(rect_of(ring))
        if not is_clockwise_rectangle(ring) if is_cage else len(without_straight(ring)) > 2:
            broken[vertex] = sections
    left, top, right, bottom = rect_of([*points, *(point for line in lines if len(line) > 2 for point in line)])
    bends = sum(len(line) - 2 for line in lines if line)
    return Shape(expansion, points, lines, boxes, list(broken), bends, (right - left + 1, bottom - top + 1), broken)


def rect_of(points: Iterable[GridPoint]) -> Rect:
    """Return the least rectangle round points."""
    xs, ys = zip(*points)
    return min(xs), min(ys), max(xs), max(ys)


def is_clockwise_rectangle(ring: list[GridPoint]) -> bool:
    """Return whether a closed line, y downwards, is a rectangle walked clockwise."""
    left, top, right, bottom = rect_of(ring)
    area = sum(x * b - a * y for (x, y), (a, b) in itertools.pairwise(ring))
    return area == 2 * (right - left) * (bottom - top) and all(
        (x in (left, right) or y in (top, bottom)) for x, y in ring)


def lone(loops: int) -> Shape:
    """Return the shape of a single vertex with loops."""
    expansion = Expansion(Planarization([], [[]], 1, [[] for _ in range(loops)]), Plan())
    return Shape(expansion, [(0, 0)], [[] for _ in range(loops)], [(0, 0, 0, 0)], [], 0)
