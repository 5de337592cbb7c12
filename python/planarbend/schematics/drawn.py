"""A drawn schematic, and its JSON.

The JSON of a schematic is one object. Lengths are in pixels; points are [x, y] and boxes [left, top, right, bottom], y growing
to the south; directions are 0 east, 1 north, 2 west, 3 south.

    name       the name of the sheet
    size       [width, height] of the picture
    parts      a list of objects:
        ref, value    as in the file; of a flag, the name of its net and its text
        kind          a value of `Kind`; `flag` is true for ground, supply, label, input, output and const
        form          of a gate, a source or a box with a sign, else ""
        box           the symbol without its texts; it may reach beyond a pin's point only by the circle of an inverted pin
        turn          quarter turns counter-clockwise, after mirroring
        mirror        whether it is mirrored: north and south exchanged if `over` is true, else west and east
        pins          a list of objects, counter-clockwise in the upright, unmirrored part: those of the east side upwards, of the
                      north side leftwards, of the west side downwards, of the south side rightwards:
            number, name, etype, shape   as in the file
            side                         of the upright, unmirrored part
            net                          the key of its net, or null if it is not connected
            at                           the point at which its wire ends
    nets       an object: for each key {"name": the name in the file, "power": bool}; pieces of one net have one name
    wires      a list of {"net": key, "points": [..]}: lines with corners only where they turn. Each end is at a pin of the net or
               at one of its junctions, which no wire passes through
    junctions  a list of {"net": key, "at": point}: three wires end there
    crossings  a list of {"at": point, "nets": [key, key]}
    jogs       a list of {"wire": place, "corner": place in points, "into": "symbol" or "box"}: that corner and the next one are a
               jog, by which a wire reaches a pin of a symbol of fixed size, or of a box that is made smaller by it
    stubs      a list of {"part": place, "pin": place, "to": point}: the lines at pins that are not connected
    texts      a list of {"text", "box", "part": place or null, "role": ref, value, name, number, sign or net}
    bends      corners of wires without those of jogs
"""
from __future__ import annotations

import json
from dataclasses import dataclass, field
from typing import Any

from planarbend.schematics.parts import Sheet
from planarbend.schematics.shapes import Shape, Text, step
from planarbend.schematics.strokes import Box, Point, Pose

STUB = 8.0  # pixels, the length of the line at a pin that is not connected


@dataclass(slots=True)
class Wire:
    """A wire: the key of its net, and its points from end to end."""

    net: str
    points: list[Point]


@dataclass(frozen=True, slots=True)
class Jog:
    """A jog: the place of its wire, that of its first corner among the wire's points, and whether it leads into a symbol of
    fixed size or to a box."""

    wire: int
    corner: int
    into: str


@dataclass(slots=True)
class Schematic:
    """A drawn schematic: for each part of the sheet its pose, its shape with texts inside and at flags, and the texts beside;
    `names` are those of nets, beside their wires."""

    sheet: Sheet
    poses: list[Pose]
    shapes: list[Shape]
    beside: list[list[Text]]
    wires: list[Wire]
    junctions: list[tuple[str, Point]]
    crossings: list[tuple[Point, tuple[str, str]]]
    size: Point
    jogs: list[Jog] = field(default_factory=list)
    names: list[Text] = field(default_factory=list)

    @property
    def bends(self) -> int:
        """The number of corners of wires, without those of jogs."""
        return sum(len(wire.points) - 2 for wire in self.wires) - 2 * len(self.jogs)

    def stubs(self) -> list[tuple[int, int, Point, Point]]:
        """Return the lines at pins that are not connected: the places of part and pin, and the two ends."""
        found = []
        for number, (part, pose, shape) in enumerate(zip(self.sheet.parts, self.poses, self.shapes)):
            for place, (pin, at) in enumerate(zip(part.pins, shape.pins)):
                if pin.net is None:
                    found.append((number, place, at, step(at, pose.side(pin.side), STUB)))
        return found

    def texts(self) -> list[tuple[int | None, Text]]:
        """Return all texts with the places of their parts; names of nets have none."""
        found: list[tuple[int | None, Text]] = []
        for number, shape in enumerate(self.shapes):
            found += ((number, text) for text in (*shape.texts, *self.beside[number]))
        return found + [(None, text) for text in self.names]

    def json(self) -> str:
        """Return the drawing as JSON, as the module describes it."""
        found: dict[str, Any] = {
            "name": self.sheet.name, "size": rounded(self.size),
            "parts": [self.part(number) for number in range(len(self.shapes))],
            "nets": {key: {"name": net.name, "power": net.is_power} for key, net in self.sheet.nets.items()},
            "wires": [{"net": wire.net, "points": [rounded(point) for point in wire.points]} for wire in self.wires],
            "junctions": [{"net": net, "at": rounded(at)} for net, at in self.junctions],
            "crossings": [{"at": rounded(at), "nets": list(nets)} for at, nets in self.crossings],
            "jogs": [{"wire": one.wire, "corner": one.corner, "into": one.into} for one in self.jogs],
            "stubs": [{"part": part, "pin": pin, "to": rounded(to)} for part, pin, _, to in self.stubs()],
            "texts": [{"text": text.text, "box": rounded(text.box), "part": part, "role": text.role}
                      for part, text in self.texts()],
            "bends": self.bends}
        return json.dumps(found, ensure_ascii=False, separators=(",", ":"))

    def part(self, number: int) -> dict[str, Any]:
        """Return the JSON of a part."""
        part, pose, shape = self.sheet.parts[number], self.poses[number], self.shapes[number]
        pins = [{"number": pin.number, "name": pin.name, "etype": pin.etype, "shape": pin.shape, "side": pin.side, "net": pin.net,
                 "at": rounded(at)} for pin, at in zip(part.pins, shape.pins)]
        return {"ref": part.ref, "value": part.value, "kind": part.kind.value, "flag": part.is_flag, "form": part.form,
                "box": rounded(shape.box), "turn": pose.turn % 4, "mirror": pose.mirror, "over": pose.over, "pins": pins}


def rounded(numbers: Box | Point) -> list[float]:
    """Return numbers with at most three decimals."""
    return [round(number, 3) for number in numbers]
