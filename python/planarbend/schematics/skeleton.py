"""The lines of a component on the grid: nodes, straight segments between them, and which nodes have a coordinate in common.

Axis 0 is x; axis 1 is y, which grows to the south, here as in all that follows.
"""
from __future__ import annotations

import itertools
from collections.abc import Sequence
from dataclasses import dataclass, field

from planarbend.graph import Partition
from planarbend.layout.engine import GridPoint
from planarbend.schematics.plane import GridWiring, PlaneGraph


@dataclass(slots=True)
class Skeleton:
    """The lines of a component.

    Attributes
    ----------
    plane : PlaneGraph
    points : list of (int, int)
        The place of each node on the grid. The vertices of the plane graph come first, then the corners of wires.
    lines : dict
        For each of the wiring's darts its nodes: its ends and corners.
    shared : (Partition, Partition)
        For each axis the nodes that have the coordinate in common.
    """

    plane: PlaneGraph
    points: list[GridPoint]
    lines: dict[int, list[int]] = field(default_factory=dict)
    shared: tuple[Partition, Partition] = field(default_factory=lambda: (Partition(), Partition()))

    def key(self, node: int, axis: int) -> int:
        """Return the number of a node's coordinate along an axis."""
        return self.shared[axis].find(node)

    def heads(self, dart: int) -> int:
        """Return the direction in which a dart leaves its vertex: 0 east, 1 north, 2 west, 3 south."""
        (x, y), (right, below) = (self.points[node] for node in self.lines[dart][:2])
        return 0 if right > x else 2 if right < x else 1 if below < y else 3

    def segments(self) -> list[tuple[int, int, int]]:
        """Return the straight segments of all wires: the axis along which each runs, its lower end and its higher one."""
        found = []
        for dart in self.plane.directed.turning.darts:
            for one, other in itertools.pairwise(self.lines[dart]):
                axis = int(self.points[one][0] == self.points[other][0])
                low, high = sorted((one, other), key=lambda node: self.points[node][axis])
                found.append((axis, low, high))
        return found


def corners_of(line: Sequence[GridPoint]) -> list[int]:
    """Return the places in a line at which it turns."""
    return [place for place, (one, at, other) in enumerate(zip(line, line[1:], line[2:]), 1)
            if not (one[0] == at[0] == other[0] or one[1] == at[1] == other[1])]


def skeleton_of(plane: PlaneGraph, grid: GridWiring) -> Skeleton:
    """Return the lines of a component that is laid on the grid."""
    found = Skeleton(plane, [(x, -y) for x, y in grid.points])
    for dart in plane.directed.turning.darts:
        line, chain = grid.lines[dart], plane.chains[dart]
        corners = [line[place] for place in corners_of(line)]
        first = len(found.points)
        found.points += [(x, -y) for x, y in corners]
        found.lines[dart] = [chain[0], *range(first, len(found.points)), chain[-1]]
        found.lines[dart ^ 1] = found.lines[dart][::-1]
    found.shared = (Partition(len(found.points)), Partition(len(found.points)))
    for axis, low, high in found.segments():
        found.shared[1 - axis].unite(low, high)
    for ring in plane.ring.values():
        for one, other in zip(ring, ring[1:] + ring[:1]):
            found.shared[int(found.points[one][0] != found.points[other][0])].unite(one, other)
    return found
