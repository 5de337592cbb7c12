"""Flags come nearer to what they are at: the order of the grid can keep them far away, with room in between."""
from __future__ import annotations

import dataclasses
import itertools
import math
from collections import defaultdict
from collections.abc import Iterator, Sequence

from planarbend.schematics.drawn import STUB
from planarbend.schematics.placing import Placed
from planarbend.schematics.shapes import Shape, around, step
from planarbend.schematics.spacing import BOX, FLAG, GAP, LINE, TEXT
from planarbend.schematics.strokes import Box, Point

SMALL = 4  # a kind of item beside those of `spacing`: a stub, or the number of a pin
NARROW = 3.0  # pixels between a small item and others
CROSS = 2.0  # pixels, half the size of the cross at a stub
OWN = 6.0  # pixels between a flag and its own wire, but for the last piece of that
SAVED = 10.0  # pixels by which a wire must become shorter, unless it loses corners
BEFORE = range(12, 97, 3)  # pixels from the other end of a wire to its corner or to the flag, as far as these are tried
AFTER = (8, 12, 16, 20, 26, 32, 40, 50)  # and from a corner to the flag
CELL = 64.0  # pixels, the side of a cell
SAME = 1e-6


class Items:
    """The boxes of parts, texts and wires: of what kind they are, and what they belong to. (Wire w is ``-1 - w`` here.)"""

    def __init__(self, found: Placed) -> None:
        """Return the items of a component."""
        self.cells: defaultdict[tuple[int, int], list[tuple[Box, int, int]]] = defaultdict(list)
        for number in range(len(found.parts)):
            self.put_part(found, number)
        for number in range(len(found.wires)):
            self.put_wire(found, number)

    def put_part(self, found: Placed, number: int) -> None:
        """Add a part with its texts and stubs."""
        part, pose, shape = found.parts[number], found.poses[number], found.shapes[number]
        self.put(shape.box, FLAG if part.is_flag else BOX, number)
        for text in (*shape.texts, *found.beside[number]):
            self.put(text.box, SMALL if text.role == "number" else TEXT, number)
        for pin, at in zip(part.pins, shape.pins):
            if pin.net is None:
                self.put(grown(around([at, step(at, pose.side(pin.side), STUB)]), CROSS), SMALL, number)

    def put_wire(self, found: Placed, number: int) -> None:
        """Add the pieces of a wire."""
        points = found.wires[number].points
        for pair in zip(points, points[1:]):
            self.put(around(pair), LINE, -1 - number)

    def put(self, box: Box, kind: int, owner: int) -> None:
        """Add a box."""
        for cell in cells_of(box):
            self.cells[cell].append((box, kind, owner))

    def drop(self, owner: int) -> None:
        """Remove what belongs to a part or a wire."""
        for cell, items in self.cells.items():
            self.cells[cell] = [item for item in items if item[2] != owner]

    def is_free(self, box: Box, kind: int, ignored: int | None = None) -> bool:
        """Return whether a box of some kind keeps its distances from all items but those of one owner."""
        for cell in cells_of(grown(box, GAP[LINE][LINE])):
            for other, what, owner in self.cells.get(cell, ()):
                gap = (NARROW if what == SMALL else GAP[kind][what]) - SAME
                if owner != ignored and other[0] < box[2] + gap and box[0] < other[2] + gap and \
                        other[1] < box[3] + gap and box[1] < other[3] + gap:
                    return False
        return True


def cells_of(box: Box) -> Iterator[tuple[int, int]]:
    """Yield the cells that a box touches."""
    for column in range(math.floor(box[0] / CELL), math.floor(box[2] / CELL) + 1):
        for row in range(math.floor(box[1] / CELL), math.floor(box[3] / CELL) + 1):
            yield column, row


def grown(box: Box, by: float) -> Box:
    """Return a box with a border around it."""
    return box[0] - by, box[1] - by, box[2] + by, box[3] + by


def gather(found: Placed) -> None:
    """Move each flag of a component as near to the other end of its wire as there is room for it."""
    items = Items(found)
    crossed = {net for _, nets in found.crossings for net in nets}
    at_pin = {(wire.net, end): number for number, wire in enumerate(found.wires) for end in (wire.points[0], wire.points[-1])}
    for number, part in enumerate(found.parts):
        wire = at_pin.get((part.pins[0].net or "", found.shapes[number].pins[0])) if part.is_flag else None
        if wire is None or part.pins[0].net in crossed:
            continue
        items.drop(number)
        items.drop(-1 - wire)
        move(found, number, wire, items)
        items.put_part(found, number)
        items.put_wire(found, wire)


def move(found: Placed, number: int, wire: int, items: Items) -> None:
    """Move a flag to the best free place, if that is better than its own."""
    flag, points = found.shapes[number], found.wires[wire].points
    is_last = points[-1] == flag.pins[0]
    line = points if is_last else points[::-1]
    start = next((other for other, shape in enumerate(found.shapes) if other != number and line[0] in shape.pins), None)
    for new in sorted(lines(line), key=lambda new: (len(new), length_of(new))):
        if len(new) == len(line) and length_of(new) > length_of(line) - SAVED:
            continue
        by = new[-1][0] - line[-1][0], new[-1][1] - line[-1][1]
        shape = flag.moved(by)
        if is_open(new, line, items, start) and is_clear(new, shape) and items.is_free(shape.box, FLAG) and \
                all(items.is_free(text.box, TEXT) for text in shape.texts):
            found.shapes[number] = shape
            found.poses[number] = dataclasses.replace(found.poses[number], at=shape.pins[0])
            found.wires[wire] = dataclasses.replace(found.wires[wire], points=new if is_last else new[::-1])
            if len(new) < len(line):
                found.jogs = [jog for jog in found.jogs if jog.wire != wire]
            return


def lines(line: Sequence[Point]) -> Iterator[list[Point]]:
    """Yield shorter lines that leave the first point of a line and arrive at the last one in the same directions: with as few
    corners as these need, or with a shorter last piece."""
    first, last = heads_of(line[0], line[1]), heads_of(line[-2], line[-1])
    start = line[0]
    if first == last:
        for length in BEFORE:
            yield [start, step(start, first, length)]
    elif (first - last) % 2:
        for before in BEFORE:
            corner = step(start, first, before)
            for after in AFTER:
                yield [start, corner, step(corner, last, after)]
    else:
        for before, across, turn in itertools.product(BEFORE, BEFORE, (1, -1)):
            corner = step(start, first, before)
            other = step(corner, (first + turn) % 4, across)
            yield [start, corner, other, step(other, last, AFTER[0])]
    if len(line) > 2:
        for after in AFTER:
            if after < length_of(line[-2:]):
                yield [*line[:-1], step(line[-2], last, after)]


def is_open(new: Sequence[Point], line: Sequence[Point], items: Items, start: int | None) -> bool:
    """Return whether a line is free: its pieces on those of the line before are, and its first piece touches the part at which
    it begins."""
    for place, pair in enumerate(zip(new, new[1:])):
        box, before = around(pair), around(line[place:place + 2])
        is_inside = before[0] <= box[0] and before[1] <= box[1] and box[2] <= before[2] and box[3] <= before[3]
        if not is_inside and (place == 0 and start is None or not items.is_free(box, LINE, None if place else start)):
            return False
    return True


def is_clear(new: Sequence[Point], flag: Shape) -> bool:
    """Return whether all pieces of a flag's line but the last are apart from the flag."""
    boxes = [grown(box, OWN) for box in (flag.box, *(text.box for text in flag.texts))]
    return not any(box[0] < other[2] and other[0] < box[2] and box[1] < other[3] and other[1] < box[3]
                   for other in map(around, zip(new, new[1:-1])) for box in boxes)


def heads_of(one: Point, other: Point) -> int:
    """Return the direction from a point to another one, which is due east, north, west or south of it."""
    if abs(other[0] - one[0]) > abs(other[1] - one[1]):
        return 0 if other[0] > one[0] else 2
    return 3 if other[1] > one[1] else 1


def length_of(line: Sequence[Point]) -> float:
    """Return the length of a line."""
    return sum(abs(a - c) + abs(b - d) for (a, b), (c, d) in zip(line, line[1:]))
