"""Draws a sheet without wires from part to part: parts in rows, and a flag at each pin. Such a drawing is right for every sheet, so
it tries readers, symbols and the judge without what places and wires."""
from __future__ import annotations

import dataclasses
import itertools
import math

import support  # noqa: F401  (finds the package)
from planarbend.schematics.boxes import box_shape, needs_of
from planarbend.schematics.drawn import STUB, Schematic, Wire
from planarbend.schematics.flags import flag, kind_of, unused
from planarbend.schematics.parts import EAST, NORTH, SOUTH, TURNED_OVER, WEST, Kind, Part, Sheet
from planarbend.schematics.shapes import Shape, Text, beside, shape_of, step
from planarbend.schematics.strokes import Box, Point, Pose

WIRE = 20.0  # pixels from a pin to its flag
GAP = 30.0  # pixels between parts and around them
WIDE = 1600.0  # pixels, the width of a row


def apart(sheet: Sheet) -> Sheet:
    """A sheet in which each pin has a flag of its own, which has the same name as the flags of the other pins of its net."""
    found = Sheet(sheet.name, [], {}, sheet.notes)
    flags = []
    for part in sheet.parts:
        if part.is_flag and part.kind in (Kind.LABEL, Kind.GROUND, Kind.SUPPLY):
            continue
        pins = []
        for pin in part.pins:
            key = None
            if pin.net is not None:
                net = sheet.nets[pin.net]
                key = unused(found, f"{net.name} {part.ref} {pin.number}")
                found.nets[key] = dataclasses.replace(net)
                flags.append(flag(kind_of(net), net.name, key))
            pins.append(dataclasses.replace(pin, net=key))
        found.parts.append(dataclasses.replace(part, pins=pins))
    found.parts += flags
    return found


def rows(sheet: Sheet, turn: int = 0, mirror: bool = False) -> Schematic:
    """The drawing of a sheet, all parts in one position."""
    sheet = apart(sheet)
    at_net = {part.pins[0].net: place for place, part in enumerate(sheet.parts) if place >= len(sheet.parts) - len(sheet.nets)}
    count = len(sheet.parts) - len(sheet.nets)
    found = Schematic(sheet, [Pose()] * len(sheet.parts), [Shape((0, 0, 0, 0), [], [])] * len(sheet.parts),
                      [[] for _ in sheet.parts], [], [], [], (0, 0))
    x, y, deepest, widest = GAP, GAP, 0.0, 0.0
    for place in range(count):
        part = sheet.parts[place]
        group = group_at(sheet, place, at_net, Pose(turn, mirror, part.kind in TURNED_OVER))
        box = bounds(group, found)
        if x > GAP and x + box[2] - box[0] > WIDE:
            x, y, deepest = GAP, y + deepest + GAP, 0.0
        put(group, found, (x - box[0], y - box[1]))
        deepest, widest = max(deepest, box[3] - box[1]), max(widest, x + box[2] - box[0])
        x += box[2] - box[0] + GAP
    found.size = (math.ceil(widest + GAP), math.ceil(y + deepest + GAP))
    return found


@dataclasses.dataclass
class Group:
    """A part with its flags: for each its place in the sheet, its pose and its shape; texts beside the part, and wires."""

    members: list[tuple[int, Pose, Shape]]
    beside: list[Text]
    wires: list[Wire]


def group_at(sheet: Sheet, place: int, at_net: dict[str | None, int], pose: Pose) -> Group:
    """A part at the origin, with its flags."""
    part = sheet.parts[place]
    shape = sized(part, pose) if part.kind in (Kind.BOX, Kind.DFF) else shape_of(part, pose)
    found = Group([(place, pose, shape)], [], [])
    for pin, at in zip(part.pins, shape.pins):
        if pin.net is None:
            continue
        side, flag_place = pose.side(pin.side), at_net[pin.net]
        own = sheet.parts[flag_place].pins[0].side
        for length in itertools.count(WIRE, WIRE):
            end = step(at, side, length)
            turned = Pose((side + 2 - own) % 4, at=end)
            flagged = shape_of(sheet.parts[flag_place], turned)
            if all(not over(box, other) for box in boxes_of(flagged) for _, _, one in found.members[1:] for other in boxes_of(one)):
                break
        found.members.append((flag_place, turned, flagged))
        found.wires.append(Wire(pin.net, [at, end]))
    taken = [box for _, _, one in found.members[1:] for box in boxes_of(one)]
    taken += [around(wire.points) for wire in found.wires] + [text.box for text in shape.texts]
    taken += [around([at, step(at, pose.side(pin.side), STUB)]) for pin, at in zip(part.pins, shape.pins) if pin.net is None]
    for texts in beside(part, pose, shape):
        if all(not over(text.box, box) for text in texts for box in taken):
            found.beside = texts
            break
    return found


def boxes_of(shape: Shape) -> list[Box]:
    """The boxes of a shape and its texts."""
    return [shape.box, *(text.box for text in shape.texts)]


def sized(part: Part, pose: Pose) -> Shape:
    """A box of the size that it needs, with its pins in order."""
    needs = needs_of(part, pose)
    frame = (0.0, 0.0, needs.width, needs.height)
    places: dict[int, int] = {}
    points: list[Point] = [(0.0, 0.0)] * len(part.pins)
    order = list(range(len(part.pins)))[::-1 if pose.mirror else 1]
    for at in order:
        side = pose.side(part.pins[at].side)
        along = 20.0 * places.get(side, 0)
        places[side] = places.get(side, 0) + 1
        points[at] = {EAST: (needs.width, needs.height - needs.bottom - along), NORTH: (needs.width - needs.right - along, 0.0),
                      WEST: (0.0, needs.top + along), SOUTH: (needs.left + along, needs.height)}[side]
    return box_shape(part, pose, frame, points)


def around(points: list[Point]) -> Box:
    """A box around points, a little wider than they are."""
    return (min(x for x, _ in points) - 1, min(y for _, y in points) - 1, max(x for x, _ in points) + 1, max(y for _, y in points) + 1)


def over(one: Box, other: Box) -> bool:
    return min(one[2], other[2]) > max(one[0], other[0]) and min(one[3], other[3]) > max(one[1], other[1])


def bounds(group: Group, found: Schematic) -> Box:
    """The box around a group."""
    boxes = [box for _, _, shape in group.members for box in (shape.box, *(text.box for text in shape.texts))]
    boxes += [text.box for text in group.beside] + [around([at]) for _, _, shape in group.members for at in shape.pins]
    return (min(box[0] for box in boxes) - STUB, min(box[1] for box in boxes) - STUB, max(box[2] for box in boxes) + STUB,
            max(box[3] for box in boxes) + STUB)


def put(group: Group, found: Schematic, by: Point) -> None:
    """Puts a group into the drawing after moving it."""
    for place, pose, shape in group.members:
        found.poses[place] = dataclasses.replace(pose, at=(pose.at[0] + by[0], pose.at[1] + by[1]))
        found.shapes[place] = shape.moved(by)
    found.beside[group.members[0][0]] = [text.moved(by) for text in group.beside]
    found.wires += [Wire(wire.net, [(x + by[0], y + by[1]) for x, y in wire.points]) for wire in group.wires]
