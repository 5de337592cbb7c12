"""A component in pixels: its parts at their places, its wires from pin to pin, and jogs into symbols of fixed size."""
from __future__ import annotations

import dataclasses
from collections import Counter
from collections.abc import Sequence
from dataclasses import dataclass, field

from planarbend.schematics.boxes import box_shape
from planarbend.schematics.drawn import STUB, Jog, Wire
from planarbend.schematics.figures import COLUMN, Figure
from planarbend.schematics.fitting import best_fit, columns_of
from planarbend.schematics.parts import EAST, NORTH, SOUTH, WEST, Part
from planarbend.schematics.shapes import APART, Shape, Text, step
from planarbend.schematics.spacing import SAME, Spacing
from planarbend.schematics.strokes import Box, Point, Pose

NEAR = 3.0  # pixels that a wire reaches beyond its points, for the bounds of a drawing


@dataclass(slots=True)
class Placed:
    """A component in pixels; what `planarbend.schematics.drawn.Schematic` has, for its parts."""

    parts: list[Part] = field(default_factory=list)
    poses: list[Pose] = field(default_factory=list)
    shapes: list[Shape] = field(default_factory=list)
    beside: list[list[Text]] = field(default_factory=list)
    wires: list[Wire] = field(default_factory=list)
    junctions: list[tuple[str, Point]] = field(default_factory=list)
    crossings: list[tuple[Point, tuple[str, str]]] = field(default_factory=list)
    jogs: list[Jog] = field(default_factory=list)

    def add(self, figure: Figure, turned: Pose, shape: Shape) -> None:
        """Add a part at its place."""
        self.parts.append(figure.part)
        self.poses.append(turned)
        self.shapes.append(shape)
        self.beside.append([text.moved(turned.at) for text in figure.texts])

    def bounds(self) -> Box:
        """Return the box around all that is drawn."""
        boxes = [shape.box for shape in self.shapes]
        boxes += [text.box for shape, texts in zip(self.shapes, self.beside) for text in (*shape.texts, *texts)]
        points = [(point, NEAR) for wire in self.wires for point in wire.points]
        for part, turned, shape in zip(self.parts, self.poses, self.shapes):
            points += [(step(at, turned.side(pin.side), STUB), NEAR) for pin, at in zip(part.pins, shape.pins)]
        boxes += [(x - more, y - more, x + more, y + more) for (x, y), more in points]
        lefts, tops, rights, bottoms = zip(*boxes)
        return min(lefts), min(tops), max(rights), max(bottoms)


def placed(spacing: Spacing) -> Placed:
    """Return a component in pixels, by its coordinates."""
    found = Placed()
    ends: dict[int, list[Point]] = {}  # for each wired pin the points from it to its node
    for number, one in enumerate(spacing.figures):
        if one.is_point:
            at = spacing.at(spacing.skeleton.plane.vertex_of[number])
            assert one.shape is not None
            shape = one.shape.moved(at)
        elif one.needs is not None:
            at, shape = (0.0, 0.0), _box(spacing, number, ends)
        else:
            at, shape = _symbol(spacing, number, ends)
        found.add(one, dataclasses.replace(one.pose, at=at), shape)
        for pin, point in zip(one.pins, shape.pins):
            ends.setdefault(pin, [point])
    _add_wires(spacing, ends, found)
    return found


def _box(spacing: Spacing, number: int, ends: dict[int, list[Point]]) -> Shape:
    """Return a box or a flip-flop in its rectangle; add the points from its pins to their nodes if it does not fill it."""
    one = spacing.figures[number]
    inner = [spacing.inner(number, axis) for axis in (0, 1)]
    wires = [spacing.wires_at(number, axis) for axis in (0, 1)]
    fits = [best_fit(one, axis, inner[axis], wires[axis], one.rooms) for axis in (0, 1)]
    (left, right), (top, bottom) = (inner[axis] if fit is None else (fit.low, fit.high) for axis, fit in enumerate(fits))
    frame = left, top, right, bottom
    points: list[Point] = [(0.0, 0.0)] * len(one.pins)
    for side in range(4):
        axis = 1 - side % 2
        fit = fits[axis]
        levels = along_side(one, side, frame, wires[axis]) if fit is None else fit.levels
        border = (frame[2], frame[1], frame[0], frame[3])[side]
        for place in one.on_side(side):
            points[place] = (border, levels[place]) if axis else (levels[place], border)
            if place in wires[axis]:
                column = 0 if fit is None else fit.columns[side][place]
                length = COLUMN * column + one.outside(side) if column else 0.0
                ends[one.pins[place]] = jog(points[place], spacing.at(spacing.node_of(one.pins[place])), side, length)
    return box_shape(one.part, one.pose, frame, points)


def along_side(one: Figure, side: int, frame: Box, known: dict[int, float]) -> dict[int, float]:
    """Return where the pins on a side of a box are along it, if some are known: the others are beside these."""
    assert one.needs is not None
    places = one.on_side(side)
    first = next((at for at, place in enumerate(places) if place in known), None)
    if first is None:
        level = frame[side in (EAST, WEST)] + (one.needs.top if side in (EAST, WEST) else one.needs.left)
    else:
        level = known[places[first]] - APART * first
    found = {}
    for place in places:
        level = found[place] = known.get(place, level)
        level += APART
    return found


def lone(one: Figure) -> Placed:
    """Return a part without wires."""
    if one.shape is not None:
        shape = one.shape
    else:
        assert one.needs is not None
        frame = (0.0, 0.0, one.needs.width, one.needs.height)
        points: list[Point] = [(0.0, 0.0)] * len(one.pins)
        for side in range(4):
            for place, level in along_side(one, side, frame, {}).items():
                border = (frame[2], frame[1], frame[0], frame[3])[side]
                points[place] = (border, level) if side in (EAST, WEST) else (level, border)
        shape = box_shape(one.part, one.pose, frame, points)
    found = Placed()
    found.add(one, one.pose, shape)
    return found


def _symbol(spacing: Spacing, number: int, ends: dict[int, list[Point]]) -> tuple[Point, Shape]:
    """Return where a symbol of fixed size is in its rectangle, and its shape; add the points from its pins to their nodes."""
    one, is_wired = spacing.figures[number], spacing.is_wired(number)
    assert one.shape is not None
    rectangle, corner = spacing.rectangle(number), [0.0, 0.0]
    for axis in (0, 1):
        low = spacing.value[axis][rectangle[axis]] + one.margin((WEST, NORTH)[axis], is_wired)
        size = one.shape.box[axis + 2] - one.shape.box[axis]
        high = spacing.value[axis][rectangle[axis + 2]] - one.margin((EAST, SOUTH)[axis], is_wired) - size
        levels = one.levels()
        wanted = [spacing.at(spacing.node_of(one.pins[place]))[axis] - levels[place][axis] for place in levels
                  if is_wired[place] and one.pose.side(one.part.pins[place].side) % 2 == 1 - axis]
        corner[axis] = best_level([level for level in wanted if low - SAME <= level <= high + SAME], (low + high) // 2)
    at = corner[0] - one.shape.box[0], corner[1] - one.shape.box[1]
    shape = one.shape.moved(at)
    for side in range(4):
        places = [place for place in one.on_side(side) if is_wired[place]]
        axis = 1 - side % 2
        nodes = [spacing.at(spacing.node_of(one.pins[place])) for place in places]
        columns = columns_of([node[axis] for node in nodes], [shape.pins[place][axis] for place in places])
        for place, node, column in zip(places, nodes, columns):
            ends[one.pins[place]] = jog(shape.pins[place], node, side, float(COLUMN * column))
    return at, shape


def best_level(wanted: Sequence[float], middle: float) -> float:
    """Return the most frequent of some numbers, near the middle if there are several; the middle if there are none."""
    counts = Counter(round(level, 3) for level in wanted)
    return min(counts, key=lambda level: (-counts[level], abs(level - middle), level), default=middle)


def jog(pin: Point, node: Point, side: int, length: float) -> list[Point]:
    """Return the points from a pin to the node of its wire, by a jog at a distance from the pin, which is 0 if there is none."""
    if not length:
        return [pin, node]
    corner = step(pin, side, length)
    other = (corner[0], node[1]) if side in (EAST, WEST) else (node[0], corner[1])
    return [pin, corner, other, node]


def cleaned(points: Sequence[Point]) -> list[Point]:
    """Return a line without the points at which it does not turn."""
    found: list[Point] = []
    for point in points:
        if found and abs(point[0] - found[-1][0]) + abs(point[1] - found[-1][1]) < SAME:
            continue
        while len(found) > 1 and any(abs(found[-2][axis] - found[-1][axis]) + abs(found[-1][axis] - point[axis]) < SAME
                                     for axis in (0, 1)):
            found.pop()
        found.append(point)
    return found


def _add_wires(spacing: Spacing, ends: dict[int, list[Point]], found: Placed) -> None:
    """Add the wires, junctions, crossings and jogs of a component."""
    wiring, lines = spacing.wiring, spacing.skeleton.lines
    keys = [wiring.sheet.parts[wiring.part_of[pins[0]]].pins[pins[0] - wiring.first[wiring.part_of[pins[0]]]].net or ""
            for pins in wiring.nets]
    for run in wiring.runs():
        points = [spacing.at(node) for dart in run for node in lines[dart]]
        for pin, place in ((wiring.pin_at[run[0]], 0), (wiring.pin_at[run[-1] ^ 1], -1)):
            if pin >= 0:
                if len(ends[pin]) == 1:
                    points[place] = ends[pin][0]
                else:
                    points = [*ends[pin], *points] if place == 0 else [*points, *ends[pin][::-1]]
                if len(ends[pin]) == 4:
                    into = "symbol" if spacing.figures[wiring.part_of[pin]].needs is None else "box"
                    found.jogs.append(Jog(len(found.wires), 1 if place == 0 else -3, into))
        line = cleaned(points)
        found.jogs = [dataclasses.replace(one, corner=len(line) + one.corner) if one.corner < 0 else one for one in found.jogs]
        found.wires.append(Wire(keys[wiring.edge[run[0] >> 1]], line))
    for vertex, leaving in enumerate(wiring.leaving):
        if vertex < wiring.vertex_count or leaving < 0:
            continue
        at = spacing.at(spacing.skeleton.plane.vertex_of[vertex])
        darts = list(wiring.around(vertex))
        if len(darts) == 3:
            found.junctions.append((keys[wiring.edge[leaving >> 1]], at))
        else:
            found.crossings.append((at, (keys[wiring.edge[darts[0] >> 1]], keys[wiring.edge[darts[1] >> 1]])))
