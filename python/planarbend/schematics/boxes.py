"""Boxes and flip-flops: the size that they need, and how they are drawn at a size that was chosen."""
from __future__ import annotations

import dataclasses
from collections.abc import Sequence
from dataclasses import dataclass

from planarbend.drawing.texts import width_of
from planarbend.schematics.parts import EAST, NORTH, SOUTH, WEST, Kind, Part, Pin
from planarbend.schematics.shapes import (APART, FONT, INSET, LINE, MARGIN, NAME, NUMBER, Shape, Text, around, shape_of,
                                          step, text_at)
from planarbend.schematics.strokes import Box, Point, Pose, Stroke, circle, rectangle
from planarbend.schematics.symbols import BUBBLE

WEDGE = 6.0  # the depth of the wedge at a clock's pin


@dataclass(frozen=True, slots=True)
class Needs:
    """What a box needs at least: its width and height; how far the first and last pins on its west and east sides are from its
    top and bottom, and those on the other sides from its left and right."""

    width: float
    height: float
    top: float
    bottom: float
    left: float
    right: float


def names_on(part: Part, pose: Pose, side: int) -> list[str]:
    """Return the names of the pins that are drawn on a side."""
    return [pin.name for pin in part.pins if pose.side(pin.side) == side]


def longest(part: Part, pose: Pose, side: int) -> float:
    """Return how far the names of pins on a side reach into the box, wedges of clocks included."""
    wedge = WEDGE if any("clock" in pin.shape and pose.side(pin.side) == side for pin in part.pins) else 0.0
    widest = max((width_of(name, NAME) for name in names_on(part, pose, side)), default=0.0)
    return wedge + (widest + MARGIN if widest else 0.0)


def middle_lines(part: Part) -> list[tuple[str, str]]:
    """Return the texts in the middle of a box, with their roles."""
    found = [(part.form, "sign")] if part.form else []
    found += [(part.ref, "ref")] if part.is_named and part.ref else []
    return found + ([(part.value, "value")] if part.value and part.value != part.ref else [])


def needs_of(part: Part, pose: Pose) -> Needs:
    """Return what a box needs in this position. No name meets another one, or what is in the middle."""
    reach = [longest(part, pose, side) for side in range(4)]
    counts = [len(names_on(part, pose, side)) for side in range(4)]
    lines = middle_lines(part)
    wide, high = max((width_of(text, FONT) for text, _ in lines), default=0.0), LINE * len(lines)
    top, bottom = (max(INSET, reach[side] + NAME * 0.6) for side in (NORTH, SOUTH))
    rows, columns = (max(counts[side] - 1, counts[side + 2] - 1, 0) for side in (EAST, NORTH))
    height = max(top + bottom + APART * rows, reach[NORTH] + reach[SOUTH] + high + 2 * MARGIN)
    width = max(2 * INSET + APART * columns, reach[EAST] + reach[WEST] + wide + 2 * MARGIN)
    return Needs(width, height, top, bottom, INSET, INSET)


def extent(part: Part, pose: Pose) -> Box:
    """Return the room that a part takes around its origin, with the text of a flag and without texts beside other parts. A box
    or a flip-flop of the size that it needs has its left upper corner there."""
    if part.kind in (Kind.BOX, Kind.DFF):
        needs = needs_of(part, pose)
        return 0.0, 0.0, needs.width, needs.height
    shape = shape_of(part, dataclasses.replace(pose, at=(0.0, 0.0)))
    boxes = [shape.box, *(text.box for text in shape.texts)]
    return around([corner for box in boxes for corner in (box[:2], box[2:])])


def box_shape(part: Part, pose: Pose, frame: Box, pins: Sequence[Point]) -> Shape:
    """Return a box or a flip-flop as it is drawn in a frame with its pins at points of the frame's border."""
    strokes, texts = [Stroke("body", rectangle(*frame))], middle_texts(part, pose, frame)
    for pin, at in zip(part.pins, pins):
        side = pose.side(pin.side)
        strokes += mark_strokes(pin, at, side)
        if pin.name:
            texts.append(name_text(pin, at, side))
        if has_number(part, pin):
            texts.append(number_text(pin, at, side))
    return Shape(frame, list(pins), strokes, texts)


def has_number(part: Part, pin: Pin) -> bool:
    """Return whether the number of a pin is written beside its box."""
    return bool(pin.number) and pin.number != pin.name and part.kind is Kind.BOX and part.is_named and not part.form


def outside(part: Part, pose: Pose, side: int) -> float:
    """Return how far circles and numbers of the pins on a side of a box or flip-flop reach beyond its border."""
    found = 0.0
    for pin in part.pins:
        if pose.side(pin.side) == side:
            found = max(found, 2 * BUBBLE if has_circle(pin) else 0.0)
            if has_number(part, pin):
                left, top, right, bottom = number_text(pin, (0.0, 0.0), side).box
                found = max(found, (right, -top, -left, bottom)[side])
    return found


def middle_texts(part: Part, pose: Pose, frame: Box) -> list[Text]:
    """Return the texts in the middle of a box, between the names of its pins."""
    left, top, right, bottom = frame
    lines = middle_lines(part)
    x = (left + longest(part, pose, WEST) + right - longest(part, pose, EAST)) / 2
    y = (top + longest(part, pose, NORTH) + bottom - longest(part, pose, SOUTH)) / 2
    first = y - LINE * (len(lines) - 1) / 2
    return [text_at(text, (x, first + LINE * number), FONT, role) for number, (text, role) in enumerate(lines)]


def mark_strokes(pin: Pin, at: Point, side: int) -> list[Stroke]:
    """Return the wedge of a clock and the circle of an inverted pin."""
    found = []
    if "clock" in pin.shape:
        tip = step(at, side + 2 & 3, WEDGE)
        (a, b), (c, d) = (step(at, side + 1 & 3, 4), step(at, side + 3 & 3, 4))
        found.append(Stroke("line", f"M{a:g} {b:g}L{tip[0]:g} {tip[1]:g}L{c:g} {d:g}"))
    if has_circle(pin):
        found.append(Stroke("circle", circle(*step(at, side, BUBBLE), BUBBLE)))
    return found


def has_circle(pin: Pin) -> bool:
    """Return whether a pin has a circle: it is inverted, and not merely a contact that the file draws so."""
    return "inverted" in pin.shape and pin.etype != "passive"


def name_text(pin: Pin, at: Point, side: int) -> Text:
    """Return the name of a pin inside the box."""
    inwards = side + 2 & 3
    depth = MARGIN + (WEDGE if "clock" in pin.shape else 0.0) + width_of(pin.name, NAME) / 2
    return text_at(pin.name, step(at, inwards, depth), NAME, "name", side in (NORTH, SOUTH))


def number_text(pin: Pin, at: Point, side: int) -> Text:
    """Return the number of a pin outside the box: above a wire that is level, to the left of one that is upright."""
    x, y = step(at, side, 2 + width_of(pin.number, NUMBER) / 2 + (2 * BUBBLE if has_circle(pin) else 0.0))
    is_upwards = side in (NORTH, SOUTH)
    return text_at(pin.number, (x - 5, y) if is_upwards else (x, y - 5), NUMBER, "number", is_upwards)
