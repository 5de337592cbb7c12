"""Places texts where a drawn schematic has room: references and values beside parts, and names of nets beside wires."""
from __future__ import annotations

import collections
from collections.abc import Iterator

from planarbend.drawing.texts import width_of
from planarbend.schematics.drawn import Schematic
from planarbend.schematics.shapes import NAME, Text, around, beside, text_at
from planarbend.schematics.strokes import Box

CELL = 64.0  # pixels, the side of a cell of `Room`
GAP = 2.0  # pixels between a text and what is around it
PARTS = (0.5, 0.25, 0.75)  # of a straight piece, before the middle of a name
HALF = 0.5  # pixels: a wire takes this much on both sides


class Room:
    """Boxes that are taken."""

    def __init__(self) -> None:
        """Return a room in which nothing is taken."""
        self.cells: dict[tuple[int, int], list[Box]] = collections.defaultdict(list)

    @staticmethod
    def cells_of(box: Box) -> Iterator[tuple[int, int]]:
        """Yield the cells that a box touches."""
        for column in range(int(box[0] // CELL), int(box[2] // CELL) + 1):
            for row in range(int(box[1] // CELL), int(box[3] // CELL) + 1):
                yield column, row

    def take(self, box: Box) -> None:
        """Take a box."""
        for cell in self.cells_of(box):
            self.cells[cell].append(box)

    def is_free(self, box: Box) -> bool:
        """Return whether no taken box overlaps a box."""
        return not any(one[0] < box[2] and box[0] < one[2] and one[1] < box[3] and box[1] < one[3]
                       for cell in self.cells_of(box) for one in self.cells[cell])


def room_of(drawing: Schematic) -> Room:
    """Return the room in which parts with their own texts, wires and stubs of a drawing are taken."""
    found = Room()
    for shape in drawing.shapes:
        for box in (shape.box, *(text.box for text in shape.texts)):
            found.take(box)
    lines = [list(pair) for wire in drawing.wires for pair in zip(wire.points, wire.points[1:])]
    for line in [*lines, *([at, to] for _, _, at, to in drawing.stubs())]:
        left, top, right, bottom = around(line)
        found.take((left - HALF, top - HALF, right + HALF, bottom + HALF))
    return found


def label(drawing: Schematic) -> None:
    """Place the references and values of parts, each where it is, or else at the best free place, then the names of nets that a
    person named and no flag shows. What finds no free place beside its part goes to the first one; a net's name is left out."""
    room = room_of(drawing)
    drawing.names.clear()
    for number, (part, pose, shape) in enumerate(zip(drawing.sheet.parts, drawing.poses, drawing.shapes)):
        places = [texts for texts in (drawing.beside[number], *beside(part, pose, shape)) if texts]
        if places:
            free = (texts for texts in places if all(room.is_free(text.box) for text in texts))
            drawing.beside[number] = next(free, places[0])
            for text in drawing.beside[number]:
                room.take(text.box)
    for names in net_places(drawing).values():
        for name in names:
            left, top, right, bottom = name.box
            if room.is_free((left - GAP, top, right + GAP, bottom)):
                room.take(name.box)
                drawing.names.append(name)
                break


def net_places(drawing: Schematic) -> dict[str, list[Text]]:
    """Return for each net that a person named, and that has no flag, the places for its name: beside its longest pieces first,
    above level ones, to the left of upright ones."""
    flagged = {part.pins[0].net for part in drawing.sheet.parts if part.is_flag}
    names = {key: net.name for key, net in drawing.sheet.nets.items()
             if net.is_shown and not net.is_power and key not in flagged}
    found: dict[str, list[tuple[float, Text]]] = {key: [] for key in names}
    for wire in drawing.wires:
        if wire.net not in names:
            continue
        wide = width_of(names[wire.net], NAME)
        for (a, b), (c, d) in zip(wire.points, wire.points[1:]):
            length, away = abs(a - c) + abs(b - d), NAME * 0.6 + GAP
            for part in PARTS:
                if length * min(part, 1 - part) > wide / 2 + GAP:
                    x, y = a + (c - a) * part, b + (d - b) * part
                    at = (x, y - away) if b == d else (x - away, y)
                    found[wire.net].append((length, text_at(names[wire.net], at, NAME, "net", b != d)))
    return {key: [text for _, text in sorted(places, key=lambda one: -one[0])] for key, places in found.items()}
