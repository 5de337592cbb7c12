"""Fields of vertices among the coordinates of a drawing: the lines between them, and the ends of edges at them."""
from __future__ import annotations

from collections.abc import Iterator, Sequence
from dataclasses import dataclass
from itertools import pairwise
from typing import TYPE_CHECKING

from planarbend.drawing.nesting import is_port
from planarbend.drawing.sites import halves_of, rim_of, sides_of
from planarbend.drawing.solver import Solver
from planarbend.drawing.texts import FONT, LINE_HEIGHT, lines_of, text_size
from planarbend.ports import End, Field
from planarbend.style import NodeLook

if TYPE_CHECKING:
    from planarbend.drawing.drawn import Box, Point
    from planarbend.drawing.items import Sheet

PAD = (5.0, 3.0)  # pixels between the text of a field and its border
LEAST = (14.0, 16.0)  # pixels, of a field
END = 4.0  # pixels from the end of an edge to the corners of its field
MIDDLE, BESIDE = 0.5, 0.8  # of a field: where an end of an edge should be, and where the line to it passes texts in the middle

Place = tuple[list[int], list[int]]  # of a field: the coordinates at which it begins, and at which it ends


@dataclass(frozen=True, slots=True)
class PortEnd:
    """An end of an edge at a field: along an axis the coordinates at which the field begins, of the end, and at which the field
    ends; at which share of the field it should be; and whether it has to be in that half."""

    axis: int
    places: tuple[int, int, int]
    share: float
    is_held: bool


def field_size(one: Field, look: NodeLook | None) -> tuple[float, float]:
    """Return the least size of a field without fields in it."""
    if not one.text.strip():
        return LEAST
    wide, high = text_size(lines_of(one.text), (look or NodeLook()).font, FONT, LINE_HEIGHT)
    return max(LEAST[0], wide + 2 * PAD[0]), max(LEAST[1], high + 2 * PAD[1])


def add_fields(sheet: Sheet) -> None:
    """Add the coordinates of the fields of all vertices, whose boxes are known."""
    for vertex, whole in sheet.graph.fields.items():
        box = sheet.boxes[vertex]
        sheet.fields[vertex] = list(_placed(sheet, vertex, whole, (list(box.low), list(box.high))))
        if len(whole.fields) > 0:
            sheet.held.add(vertex)
    for (edge, is_head), end in sheet.graph.ends.items():
        if is_port(end):
            one = sheet.graph.edges[edge]
            vertex = one.head if is_head else one.tail
            box = sheet.boxes[vertex]
            sheet.fields.setdefault(vertex, [(list(box.low), list(box.high))])
            if any(halves_of(end, 0)):
                sheet.held.add(vertex)


def _placed(sheet: Sheet, vertex: int, whole: Field, at: Place) -> Iterator[Place]:
    """Yield the places of a field, which is given, and of all fields within it, and demand that they have room."""
    yield at
    if not whole.fields:
        size = field_size(whole, sheet.graph.looks.nodes.get(vertex))
        for axis in (0, 1):
            sheet.within[axis].append((at[0][axis], at[1][axis], size[axis]))
        return
    rows, columns = whole.size
    lines: list[list[int]] = []
    for axis, count in ((0, columns), (1, rows)):
        first, last = at[0][axis], at[1][axis]
        along = sheet.axes[axis]
        low, high = along.value[first], along.value[last]
        inner = [along.add(low + (high - low) * place / count, -1 + 2 * place / count) for place in range(1, count)]
        lines.append([first, *inner, last])
        sheet.within[axis].extend((line, following, 1.0) for line, following in zip(lines[axis], lines[axis][1:]))
    for one in whole.fields:
        span = one.at
        yield from _placed(sheet, vertex, one, (
            [lines[0][span.column], lines[1][span.row]], [lines[0][span.column + span.columns], lines[1][span.row + span.rows]]))


def hold_end(sheet: Sheet, edge: int, is_head: bool, axis: int, coordinate: int) -> None:
    """Demand that the end of an edge, at a coordinate along an axis, lies between the lines of its field."""
    end = sheet.graph.ends.get((edge, is_head))
    if end is None or not is_port(end):
        return
    one = sheet.graph.edges[edge]
    vertex = one.head if is_head else one.tail
    low, high = sheet.fields[vertex][end.field or 0]
    sheet.within[axis].extend([(low[axis], coordinate, END), (coordinate, high[axis], END)])
    (is_low, is_high), whole = halves_of(end, axis), sheet.graph.fields.get(vertex, Field())
    share = 0.25 if is_low else 0.75 if is_high else MIDDLE if sides_of(whole, end) & rim_of(whole, end) else BESIDE
    sheet.port_ends.append(PortEnd(axis, (low[axis], coordinate, high[axis]), share, is_low or is_high))


def passed(sheet: Sheet) -> Iterator[tuple[int, int, int, list[int], float]]:
    """Yield the fields over which lines pass on their way to a field within the vertex: the vertex, the place of the field in
    `Field.walk`, the axis across the lines, the coordinates along it at which the field begins, of the lines, and at which it
    ends, in order, and the room that its text takes."""
    lines: dict[tuple[int, int], list[tuple[int, float, float]]] = {}  # coordinates, and from where to where along the other axis
    for (edge, is_head), end in sheet.graph.ends.items():
        if is_port(end) and end.field is not None:
            ends, piece = sheet.graph.edges[edge], sheet.piece_at(edge, is_head)[0]
            axis, points = piece.across, (sheet.line(edge)[-is_head], met(sheet, edge, is_head, end))
            begin, last = sorted(point[1 - axis] for point in points)
            lines.setdefault((ends.head if is_head else ends.tail, axis), []).append((piece.low[axis], begin, last))
    for (vertex, axis), some in lines.items():
        value, find, look = sheet.axes[axis].value, sheet.axes[axis].same.find, sheet.graph.looks.nodes.get(vertex)
        fields = zip(sheet.graph.fields[vertex].walk(), sheet.fields[vertex], field_boxes(sheet, vertex))
        for place, ((one, _), (low, high), box) in enumerate(fields):
            over = {line for line, begin, last in some if box[axis] <= value[line] < box[2 + axis]
                    and begin < box[3 - axis] and box[1 - axis] < last}
            if over and not one.fields:
                places = [find(low[axis]), *sorted(over, key=value.__getitem__), find(high[axis])]
                yield vertex, place, axis, places, field_size(one, look)[axis] if one.text.strip() else 0.0


def part_of(value: Sequence[float], places: Sequence[int], room: float) -> tuple[int, int]:
    """Return the coordinates between which the text of a field is that `passed` yields: the first and the last, unless a line
    would cross the text in the middle; then two that follow each other and are farthest apart."""
    first, *lines, last = places
    if all(abs(2 * value[line] - value[first] - value[last]) >= room for line in lines):
        return first, last
    return max(pairwise(places), key=lambda pair: value[pair[1]] - value[pair[0]])


def centre_ends(sheet: Sheet, axis: int, solver: Solver) -> None:
    """Move ends of edges towards the middles of their fields, or of the halves at their corners, or beside texts that lie on the
    way, as far as nothing else moves."""
    wanted: dict[int, list[float]] = {}
    for end in sheet.port_ends:
        if end.axis == axis:
            low, coordinate, high = map(sheet.axes[axis].same.find, end.places)
            wanted.setdefault(coordinate, []).append(solver.value[low] * (1 - end.share) + solver.value[high] * end.share)
    for coordinate, places in wanted.items():
        solver.move_to(coordinate, sum(places) / len(places))


def field_boxes(sheet: Sheet, vertex: int) -> list[Box]:
    """Return the boxes of the fields of a vertex, in the order of `Field.walk`."""
    x, y = sheet.axes[0].value, sheet.axes[1].value
    xs, ys = sheet.axes[0].same.find, sheet.axes[1].same.find
    return [(x[xs(low[0])], y[ys(low[1])], x[xs(high[0])], y[ys(high[1])]) for low, high in sheet.fields[vertex]]


def met(sheet: Sheet, edge: int, is_head: bool, end: End) -> Point:
    """Return the point at which an edge meets its field: straight on from the end of its line."""
    one, line = sheet.graph.edges[edge], sheet.line(edge)
    (x, y), (u, v) = line[-2:] if is_head else line[1::-1]
    left, top, right, bottom = field_boxes(sheet, one.head if is_head else one.tail)[end.field or 0]
    if x == u:
        return u, top if v > y else bottom
    return left if u > x else right, v
