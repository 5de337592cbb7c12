"""Which points of a KiCad schematic its wires and labels join."""
from __future__ import annotations

import bisect
import collections
from collections.abc import Hashable, Iterable

from planarbend.graph import Partition
from planarbend.schematics.readers.kicad_symbols import Point

Line = tuple[Point, Point]


class Joints:
    """Disjoint sets of points and names: what is in one set is one net."""

    def __init__(self) -> None:
        """Return no sets."""
        self.sets = Partition()
        self.numbers: dict[Hashable, int] = {}

    def number(self, one: Hashable) -> int:
        """Return the number of a point or name, which is new if it was not mentioned."""
        if one not in self.numbers:
            self.numbers[one] = self.sets.add()
        return self.numbers[one]

    def find(self, one: Hashable) -> int:
        """Return the number of the set of a point or name."""
        return self.sets.find(self.number(one))

    def unite(self, one: Hashable, other: Hashable) -> None:
        """Make the sets of two points or names one."""
        self.sets.unite(self.number(one), self.number(other))


class Lines:
    """Straight lines, by which of them pass through a point."""

    def __init__(self, lines: Iterable[Line]) -> None:
        """Return the index of some lines."""
        self.level: dict[int, list[tuple[int, Line]]] = collections.defaultdict(list)  # by y, with the lesser x
        self.upright: dict[int, list[tuple[int, Line]]] = collections.defaultdict(list)  # by x, with the lesser y
        self.slanted: list[Line] = []
        for one, other in lines:
            if one[1] == other[1]:
                self.level[one[1]].append((min(one[0], other[0]), (one, other)))
            elif one[0] == other[0]:
                self.upright[one[0]].append((min(one[1], other[1]), (one, other)))
            else:
                self.slanted.append((one, other))
        for found in (*self.level.values(), *self.upright.values()):
            found.sort()

    def at(self, point: Point) -> list[Line]:
        """Return the lines that pass through a point or end there."""
        near = [line for lines, place in ((self.level.get(point[1], []), point[0]), (self.upright.get(point[0], []), point[1]))
                for _, line in lines[:bisect.bisect_right(lines, place, key=lambda entry: entry[0])]]
        return [line for line in (*near, *self.slanted) if is_on(point, line)]


def is_on(point: Point, line: Line) -> bool:
    """Return whether a point is on a line or at its end."""
    (x, y), ((a, b), (c, d)) = point, line
    return (x - a) * (d - b) == (y - b) * (c - a) and min(a, c) <= x <= max(a, c) and min(b, d) <= y <= max(b, d)
