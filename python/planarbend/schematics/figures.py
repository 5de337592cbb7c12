"""The parts of a component as they are drawn, before they have their places: what room each takes, and what its pins need."""
from __future__ import annotations

import math
from dataclasses import dataclass, field

from planarbend.schematics.boxes import Needs, needs_of, outside
from planarbend.schematics.drawn import STUB
from planarbend.schematics.parts import EAST, NORTH, SOUTH, TURNED_OVER, WEST, Kind, Part
from planarbend.schematics.shapes import APART, Shape, Text, beside, shape_of, step
from planarbend.schematics.skeleton import Skeleton
from planarbend.schematics.strokes import Box, Pose
from planarbend.schematics.symbols import REACH
from planarbend.schematics.wiring import pose

COLUMN = 12  # pixels between jogs beside a symbol
FREE = 12  # pixels around a box that lines keep anyway
CLEAR = 3  # pixels around the number of a pin
CIRCLE = 6  # pixels of the circle of an inverted pin: it belongs to the box


@dataclass(slots=True)
class Figure:
    """A part as it is drawn.

    Attributes
    ----------
    part : Part
        With exchanged inputs at their places, not mirrored.
    pose : Pose
    pins : list of int
        For each place in the part's list of pins, the number of the pin in the wiring.
    shape : Shape or None
        Around the origin; None for a box or flip-flop, whose size is to be chosen.
    needs : Needs or None
        Of a box or flip-flop.
    texts : list of Text
        Beside a part that has its texts there, around the origin.
    rooms : dict
        For each side of a box that is to be smaller than the rectangle of its wires, the room for jogs.
    """

    part: Part
    pose: Pose
    pins: list[int]
    shape: Shape | None
    needs: Needs | None
    texts: list[Text]
    rooms: dict[int, int] = field(default_factory=dict)

    @property
    def is_point(self) -> bool:
        """Whether its wires meet in one point."""
        return not self.part.is_cage

    def on_side(self, side: int) -> list[int]:
        """Return the places of the pins that are drawn on a side: downwards or to the right."""
        found = [place for place, pin in enumerate(self.part.pins) if self.pose.side(pin.side) == side]
        upwards = side in (EAST, NORTH)
        return found[::-1] if upwards != self.pose.mirror else found

    def reach(self, side: int) -> float:
        """Return how far from its origin the wire of a point part begins."""
        return 0.0 if self.part.is_flag else REACH

    def boxes(self) -> list[Box]:
        """Return the boxes of a part of fixed size around its origin, without texts beside it."""
        assert self.shape is not None
        found = [self.shape.box, *(text.box for text in self.shape.texts)]
        for pin, at in zip(self.part.pins, self.shape.pins):
            if pin.net is None and self.is_point:
                x, y = step(at, self.pose.side(pin.side), STUB)
                found.append((min(at[0], x) - 1, min(at[1], y) - 1, max(at[0], x) + 1, max(at[1], y) + 1))
        return found

    def margin(self, side: int, is_wired: list[bool]) -> int:
        """Return the room for jogs between a part and the rectangle of its wires."""
        if self.shape is None:
            return self.rooms.get(side, 0)
        return COLUMN * sum(is_wired[place] for place in self.on_side(side))

    def beyond(self, side: int, is_wired: list[bool]) -> float:
        """Return how far what belongs to a part reaches beyond the rectangle of its wires."""
        if self.shape is None:
            return self.outside(side)
        border = (2, 1, 0, 3)[side]
        sign = 1 if side in (EAST, SOUTH) else -1
        reach = max((sign * (text.box[border] - self.shape.box[border]) for text in self.texts), default=0.0)
        return max(0.0, math.ceil(reach) - self.margin(side, is_wired))

    def outside(self, side: int) -> float:
        """Return how far what is outside a box reaches beyond the room that lines keep anyway."""
        if self.needs is None:
            return 0.0
        reach = outside(self.part, self.pose, side)
        return math.ceil(max(min(reach, CIRCLE), reach + CLEAR - FREE)) if reach else 0.0

    def levels(self) -> dict[int, tuple[float, float]]:
        """Return the pins of a symbol of fixed size, by their places: from its left upper corner."""
        assert self.shape is not None
        left, top = self.shape.box[:2]
        return {place: (x - left, y - top) for place, (x, y) in enumerate(self.shape.pins)}

    def spans(self, side: int, is_wired: list[bool]) -> list[tuple[int | None, int | None, float]]:
        """Return the least distances along a side of a box: between wired pins, and between the corners (None) and these."""
        assert self.needs is not None
        before, after = ((self.needs.top, self.needs.bottom) if side in (EAST, WEST) else (self.needs.left, self.needs.right))
        found: list[tuple[int | None, int | None, float]] = []
        last, length = None, before
        for place in self.on_side(side):
            if is_wired[place]:
                found.append((last, place, length))
                last, length = place, 0.0
            length += APART
        found.append((last, None, length - APART + after if self.on_side(side) else 0.0))
        return found


def figures_of(skeleton: Skeleton) -> list[Figure]:
    """Return the parts of a component as they are drawn. A part without a wish has the direction that the core gave it."""
    turning = skeleton.plane.directed.turning
    wiring = turning.wiring
    found = []
    for number, what in enumerate(wiring.sheet.parts):
        part, order = pose(what, False, wiring.places[number])
        dart = next(dart for dart in map(wiring.dart_of.__getitem__, wiring.pins_of[number]) if dart >= 0)
        turn = (skeleton.heads(dart) - turning.offset[dart]) % 4
        turned = Pose(turn, wiring.is_mirrored[number], what.kind in TURNED_OVER)
        found.append(figure(part, turned, [wiring.first[number] + pin for pin in order]))
    return found


def figure(part: Part, turned: Pose, pins: list[int]) -> Figure:
    """Return a part as it is drawn in a pose around the origin."""
    if part.kind in (Kind.BOX, Kind.DFF):
        return Figure(part, turned, pins, None, needs_of(part, turned), [])
    shape = shape_of(part, turned)
    texts = beside(part, turned, shape)
    return Figure(part, turned, pins, shape, None, texts[0] if texts else [])
