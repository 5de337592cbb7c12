"""Directions of the darts of a wiring: variables, and what each face demands of them.

A direction is counted in quarter turns, counter-clockwise from east, and is *lifted*: it is not reduced modulo 4. Each part and
each crossing has one variable, each junction one for each of its darts; a dart leaves in the direction of its variable plus its
offset. Along a dart, the wire turns to the left by ``direction[dart ^ 1] + 2 - direction[dart] + 4 * winding[dart]``, where
``winding[dart ^ 1] == -1 - winding[dart]``. The windings are integers that make each inner face turn by 4, and the outer one
by -4; they follow from the choice of the outer face.

"""
from __future__ import annotations

from collections.abc import Sequence
from dataclasses import dataclass
from typing import Any

import numpy

from planarbend.drawing.linked import NONE
from planarbend.schematics.parts import Part
from planarbend.schematics.wiring import Wiring


@dataclass(frozen=True, slots=True)
class Wish:
    """A part that is to have a direction: `want`, or that and a multiple of `period` more; each quarter turn away costs
    `weight`, or is not allowed if that is `None`."""

    variable: int
    want: int
    period: int
    weight: float | None


class Turning:
    """The directions of a connected wiring: what is the same for all of its outer faces.

    Attributes
    ----------
    wiring : Wiring
    parts : list of Part
        As they are put.
    darts : list of int
        One dart of each piece.
    variable, offset : list of int
        Of each dart.
    joints : list of (int, int, int)
        For junctions: variables `low`, `high` and the least difference of `high` and `low`.
    wishes : list of Wish
        In the order of their parts.
    walks : list of list of int
        The darts of each face.
    """

    def __init__(self, wiring: Wiring, wishes: Sequence[Wish] | None = None) -> None:
        """Return the directions of a wiring, in which each part has a wire; by default with the wishes of its parts."""
        self.wiring = wiring
        self.parts = [wiring.posed(part) for part in range(wiring.vertex_count)]
        self.darts = [2 * piece for piece, net in enumerate(wiring.edge) if net != NONE]
        self.variable, self.offset = [NONE] * len(wiring.origin), [0] * len(wiring.origin)
        self.wraps = [0] * len(wiring.origin)  # 1 for the last dart of each vertex, counter-clockwise
        self.joints: list[tuple[int, int, int]] = []
        self.count = wiring.vertex_count
        for vertex, leaving in enumerate(wiring.leaving):
            if leaving >= 0:
                self._add_vertex(vertex)
        self.walks = [list(wiring.along(dart)) for dart in wiring.corner if dart != NONE]
        self.place = {dart: face for face, walk in enumerate(self.walks) for dart in walk}
        self.tree = self._spanning_tree()
        self.wishes = wishes_of(self.parts) if wishes is None else list(wishes)

    def _add_vertex(self, vertex: int) -> None:
        """Number the variables of a vertex: a part has that of its number."""
        wiring = self.wiring
        darts = list(wiring.around(vertex))[::-1]
        if vertex < wiring.vertex_count:
            side = {pin: one.side for pin, one in zip(wiring.pins_of[vertex], self.parts[vertex].pins)}
            darts = [wiring.dart_of[pin] for pin in wiring.pins_of[vertex] if wiring.dart_of[pin] != NONE]
            for dart in darts:
                self.variable[dart], self.offset[dart] = vertex, side[wiring.pin_at[dart]]
        elif len(darts) == 4:
            for place, dart in enumerate(darts):
                self.variable[dart], self.offset[dart] = self.count, place
            self.count += 1
        else:
            for place, dart in enumerate(darts):
                self.variable[dart] = self.count + place
                self.joints.append((self.count + place, self.count + (place + 1) % 3, -3 if place == 2 else 1))
            self.count += 3
        self.wraps[darts[-1]] = 1

    def windings(self, outer: int) -> Any:
        """Return the windings of `darts`, an array, for an outer face, given by its place in `walks`."""
        onward, wraps = self.wiring.onward, self.wraps
        found = [0] * len(onward)
        parent, order = {outer: NONE}, [outer]
        for face in order:
            for dart in self.walks[face]:
                other = self.place[dart ^ 1]
                if other not in parent and dart >> 1 not in self.tree:
                    parent[other] = dart ^ 1
                    order.append(other)
        for piece in self.tree:
            found[2 * piece + 1] = -1
        for face in reversed(order[1:]):
            up, walk = parent[face], self.walks[face]
            found[up] = 1 + sum([wraps[onward[dart]] - found[dart] - 1 for dart in walk])
            found[up ^ 1] = -1 - found[up]
        return numpy.array([found[dart] for dart in self.darts])

    def _spanning_tree(self) -> set[int]:
        """Return the pieces of a spanning tree."""
        wiring = self.wiring
        start = wiring.origin[self.darts[0]]
        met, waiting, found = {start}, [start], set()
        for vertex in waiting:
            for dart in wiring.around(vertex):
                other = wiring.origin[dart ^ 1]
                if other not in met:
                    met.add(other)
                    waiting.append(other)
                    found.add(dart >> 1)
        return found


def wishes_of(parts: Sequence[Part]) -> list[Wish]:
    """Return the wishes of parts; those that are always to be read upright are."""
    return [Wish(number, part.want, 2 if part.half else 4, None if part.is_cage else part.upright)
            for number, part in enumerate(parts) if part.is_cage or part.upright]
