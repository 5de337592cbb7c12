"""The items of a drawing, everything with an extent: boxes, labels of edges, and the straight pieces of edges.

Along an axis (0 is x, 1 is y) an item lies between two coordinates: that of a piece across the axis, or the two sides of a
box. Coordinates have numbers on their axis; pieces at one point of a net share one.
"""
from __future__ import annotations

import itertools
import math
from collections import Counter
from collections.abc import Mapping, Sequence
from types import MappingProxyType

from planarbend.drawing import field_items, frame_items
from planarbend.drawing.drawn import Box, Point
from planarbend.drawing.extents import BOX, LABEL, PIECE, UNIT, Axis, Item, item_at
from planarbend.drawing.shape import Shape
from planarbend.drawing.symbols import INSET, inset_of, room
from planarbend.drawing.texts import FONT, LINE_HEIGHT, lines_of, text_size, width_of
from planarbend.graph import Graph, Kind
from planarbend.style import NodeLook

PAD = (6.0, 4.0)  # pixels between a name and the border of its box
LEAST_SIDE = 22.0  # pixels, the width of a box
LEAST_DIVIDED = (22.0, 22.0)  # pixels, of a box with fields
LEAST_FLAG = 14.0  # pixels, the width of a flag
LABEL_FONT = 10
LABEL_HEIGHT = 12.0
LOOPS = 1024  # units of the fine grid that a box takes beyond its last line, for the ends of loops
LOOP = 32  # units of the fine grid, from there to the far side of a loop
NEAR_END = 1536  # units of the fine grid, from a box to a label at an end: beyond its loops, before the middle of a line

class Sheet:
    """A shape of a component and its items: `boxes` of the vertices, `pieces` of each edge, `labels` by edge."""

    frame_at: Mapping[tuple[int, bool], Item] = MappingProxyType({})  # by edge, and whether at its head: where it ends at a frame
    port_ends: list[field_items.PortEnd] = []

    def __init__(self, shape: Shape, graph: Graph) -> None:
        """Return the sheet of a shape, whose coordinates are still those of its grid."""
        self.shape, self.graph = shape, graph
        self.axes = (Axis(), Axis())
        self.items: list[Item] = []
        self.boxes: list[Item] = []
        self.end_labels: dict[tuple[int, bool], Item] = {}  # by edge, and whether it is at the head
        self.pieces: list[list[Item]] = []
        self.labels: dict[int, Item] = {}
        self.sides: Counter[tuple[int, int, bool]] = Counter()  # the lines at a box's sides: above, below, left, right
        self.loops: Counter[tuple[int, int, bool]] = Counter()
        self.corners: dict[int, list[tuple[int, int]]] = {}  # of loops
        self.within: tuple[list[tuple[int, int, float]], ...] = ([], [])  # distances within boxes: from, to, at least
        self.at_box: tuple[dict[int, list[int]], ...] = ({}, {})  # for each box the coordinates of the pieces at its sides
        self.frames: dict[int, Item] = {}  # by cluster
        self.frame_pieces: list[Item] = []
        self.frame_labels: dict[int, Item] = {}
        self.fields: dict[int, list[field_items.Place]] = {}  # of vertices with fields, and of those with ports, the whole
        self.held = set[int]()  # vertices whose boxes are not fitted to their lines alone
        self.port_ends = []
        looks = graph.looks.nodes
        self.sizes = [LEAST_DIVIDED if number in graph.fields else size_of(vertex.label, vertex.kind, looks.get(number))
                      for number, vertex in enumerate(graph.vertices)]
        self._add_all()
        self._unite()

    def _add_all(self) -> None:
        """Add all items."""
        shape, graph = self.shape, self.graph
        self.ends = frame_items.ends_of(shape, graph)  # by edge; -1 - cluster for a frame
        self.lines = [frame_items.cut_line(shape, number) for number in range(len(graph.edges))]
        frame_items.add_frames(self)
        self.frame_at = {(number, is_head): self.frames[-1 - end] for number, ends in enumerate(self.ends)
                         for is_head, end in zip((False, True), ends) if end < 0}
        for number, flat in enumerate(self._flat()):
            self._add_box(number, flat)
        field_items.add_fields(self)
        for number, line in enumerate(self.lines):
            self.pieces.append([])
            if line:
                self._add_line(number)
        for number, line in enumerate(self.lines):
            if not line:
                self._add_loop(number)
        for number, edge in enumerate(graph.edges):
            if edge.label.strip():
                self._add_label(number, edge.label)
        for number, look in graph.looks.edges.items():
            for is_head, text in ((False, look.tail_label), (True, look.head_label)):
                if text.strip():
                    self._add_end_label(number, is_head, text)

    def _flat(self) -> list[list[int | None]]:
        """Return for each vertex and axis its grid coordinate if it has no extent along that axis, as a net at one point, or a
        net whose lines across the axis are all on one line."""
        ends: list[tuple[set[int], set[int]]] = [(set(), set()) for _ in self.graph.vertices]
        has_loop = set()
        for edge, line in zip(self.graph.edges, self.lines):
            if not line:
                has_loop.add(edge.tail)
                continue
            for end, one, other in ((edge.tail, line[0], line[1]), (edge.head, line[-1], line[-2])):
                axis = 0 if one[0] == other[0] else 1
                ends[end][axis].add(one[axis])
        found: list[list[int | None]] = []
        for number, vertex in enumerate(self.graph.vertices):
            left, top, right, bottom = self.shape.boxes[number]
            is_net = vertex.kind is Kind.NET and number not in has_loop
            found.append([min(ends[number][axis], default=(low + high) // 2) if is_net and len(ends[number][axis]) < 2 else None
                          for axis, low, high in ((0, left, right), (1, top, bottom))])
        return found

    def _add_box(self, number: int, flat: list[int | None]) -> None:
        """Add the box of a vertex."""
        left, top, right, bottom = (UNIT * side for side in self.shape.boxes[number])
        low, high = [], []
        for axis, first, last in ((0, left, right), (1, top, bottom)):
            place = flat[axis]
            low.append(self.axes[axis].add(first if place is None else UNIT * place, -1.0 if place is None else 0.0))
            high.append(low[-1] if place is not None else self.axes[axis].add(last, 1.0))
            if place is None:
                self.within[axis].append((low[-1], high[-1], self.sizes[number][axis]))
        self.boxes.append(Item(BOX, low, high, [(left, right + LOOPS), (top, bottom + LOOPS)]))
        self.items.append(self.boxes[-1])

    def _add_line(self, number: int) -> None:
        """Add the pieces of an edge."""
        line, (tail, head) = self.lines[number], self.ends[number]
        across = [0 if before[0] == after[0] else 1 for before, after in itertools.pairwise(line)]
        last = len(across) - 1
        coordinates = []
        for place, axis in enumerate(across):
            hosts = [end for end, is_there in ((tail, place == 0), (head, place == last)) if is_there and end >= 0]
            coordinates.append(self._coordinate(axis, UNIT * line[place][axis], hosts))
        for is_head, place in ((False, 0), (True, last)):
            field_items.hold_end(self, number, is_head, across[place], coordinates[place])
        for place, axis in enumerate(across):
            other = 1 - axis
            forward = line[place][other] < line[place + 1][other]
            ends, hosts = [], []
            for at, neighbour, host in ((0, place - 1, tail), (1, place + 1, head)):
                is_low = (at == 0) == forward
                on_grid = UNIT * line[place + at][other]
                if 0 <= neighbour <= last:
                    ends.append((coordinates[neighbour], on_grid))
                elif host < 0:
                    ends.append((frame_items.side_at(self.frames[-1 - host], other, on_grid), on_grid))
                else:
                    hosts.append(host)
                    self.sides[host, axis, not is_low] += 1
                    box = self.boxes[host]
                    ends.append((box.high[other], on_grid + 1) if is_low else (box.low[other], on_grid - 1))
            low, high = ends if forward else ends[::-1]
            self.pieces[number].append(
                item_at(PIECE, axis, (coordinates[place], UNIT * line[place][axis]), low, high, hosts))
        self.items += self.pieces[number]

    def _add_loop(self, number: int) -> None:
        """Put a loop on the side of its box that has the fewest lines, after all other lines there."""
        host = self.graph.edges[number].tail
        box = self.boxes[host]
        along, is_low = min(((along, is_low) for along in (0, 1) for is_low in (True, False)),
                            key=lambda side: (self.sides[host, side[0], side[1]], side))
        across, count = 1 - along, self.loops[host, along, is_low]
        self.loops[host, along, is_low] += 1
        self.sides[host, along, is_low] += 2
        end = UNIT * self.shape.boxes[host][2 + along]
        sign, border = (-1, box.grid[across][0]) if is_low else (1, box.grid[across][1])
        places = [end + 4 + 8 * count, end + 8 + 8 * count]
        ends = [self._coordinate(along, end, [host], 0.1 + (2 * count + last) / 1000) for last in (0, 1)]
        far = self.axes[across].add(border + LOOP * sign), border + LOOP * sign
        near = box.low[across] if is_low else box.high[across], border + sign
        legs = list(zip(ends, places))
        extent = (far, near) if is_low else (near, far)
        self.pieces[number] = [item_at(PIECE, along, legs[0], *extent, [host]), item_at(PIECE, across, far, legs[0], legs[1], []),
                               item_at(PIECE, along, legs[1], *extent, [host])]
        self.items += self.pieces[number]
        corners = [(ends[0], near[0]), (ends[0], far[0]), (ends[1], far[0]), (ends[1], near[0])]
        self.corners[number] = corners if along == 0 else [(b, a) for a, b in corners]

    def _coordinate(self, axis: int, value: float, hosts: Sequence[int], rank: float = 0.0) -> int:
        """Return the coordinate of a piece across an axis, which lies within the boxes at its ends."""
        points = [self.boxes[host].low[axis] for host in hosts if self.boxes[host].low[axis] == self.boxes[host].high[axis]]
        found = points[0] if points else self.axes[axis].add(value, rank)
        for host in hosts:
            box = self.boxes[host]
            if box.low[axis] == box.high[axis]:
                self.axes[axis].same.unite(box.low[axis], found)
                continue
            inset = self.inset(host, axis)
            self.within[axis].extend([(box.low[axis], found, inset), (found, box.high[axis], inset)])
            self.at_box[axis].setdefault(host, []).append(found)
        return found

    def inset(self, host: int, axis: int) -> float:
        """Return the distance along an axis from a corner of a box to a line at its side."""
        if self.graph.vertices[host].kind is Kind.NET:
            return 0.0
        look = self.graph.looks.nodes.get(host)
        return INSET if look is None else inset_of(look.outline, self.sizes[host])[axis]

    def _add_label(self, number: int, text: str) -> None:
        """Put a label on the piece of its edge that has the most room."""
        size = self._label_size(number, text)
        pieces = self.pieces[number]

        def room(place: int) -> tuple[float, int]:
            """Return the length of a piece, a little more if it runs downwards; the first is preferred."""
            running = 1 - pieces[place].across
            return pieces[place].grid[running][1] - pieces[place].grid[running][0] + 2 * running, -place

        piece = pieces[1 if number in self.corners else max(range(len(pieces)), key=room)]
        across, running = piece.across, 1 - piece.across
        first, last = piece.grid[running]
        middle = UNIT * math.floor((first + last) / 2 / UNIT) + UNIT / 2 if last - first > UNIT / 2 else (first + last) / 2
        axis = self.axes[running]
        if number in self.corners:
            legs = [leg.low[running] for leg in (pieces[0], pieces[2])]
            place = axis.add(axis.value[legs[0]], sum(axis.rank[leg] for leg in legs) / 2)
        else:
            place = axis.add(middle)
        item = item_at(LABEL, across, (piece.low[across], piece.grid[across][0]), (place, middle), (place, middle),
                       [-1 - number])
        item.owns, item.before, item.after = (True, True), [-size[0] / 2, -size[1] / 2], [size[0] / 2, size[1] / 2]
        self.labels[number] = item
        self.items.append(item)

    def _add_end_label(self, number: int, is_head: bool, text: str) -> None:
        """Put a label on the piece of an edge at its head or its tail, near the end."""
        size, (piece, is_at_last) = self._label_size(number, text), self.piece_at(number, is_head)
        across, running = piece.across, 1 - piece.across
        first, last = piece.grid[running]
        far = NEAR_END if last - first > UNIT / 2 else (last - first) / 8
        middle = last - far if is_at_last else first + far
        place = self.axes[running].add(middle)
        item = item_at(LABEL, across, (piece.low[across], piece.grid[across][0]), (place, middle), (place, middle),
                       [-1 - number - (1 + is_head) * len(self.graph.edges)])
        item.owns, item.before, item.after = (True, True), [-size[0] / 2, -size[1] / 2], [size[0] / 2, size[1] / 2]
        self.end_labels[number, is_head] = item
        self.items.append(item)

    def piece_at(self, number: int, is_head: bool) -> tuple[Item, bool]:
        """Return the piece of an edge at its head or its tail, and whether this end has the greater coordinate."""
        edge, piece = self.graph.edges[number], self.pieces[number][-1 if is_head else 0]
        box = self.frame_at.get((number, is_head)) or self.boxes[edge.head if is_head else edge.tail]
        running = 1 - piece.across
        return piece, piece.high[running] in (box.low[running], box.high[running])

    def _label_size(self, number: int, text: str) -> tuple[float, float]:
        """Return the size of a label of an edge."""
        lines, look = lines_of(text), self.graph.looks.edges.get(number)
        if look is None:
            return max(width_of(line, LABEL_FONT) for line in lines) + 4, LABEL_HEIGHT * len(lines)
        width, height = text_size(lines, look.font, LABEL_FONT, LABEL_HEIGHT)
        return width + 4, height

    def _unite(self) -> None:
        """Replace each coordinate by its representative number."""
        finds = [axis.same.find for axis in self.axes]
        for item in [*self.items, *self.frames.values()]:
            item.low = [find(number) for find, number in zip(finds, item.low)]
            item.high = [find(number) for find, number in zip(finds, item.high)]
        for number, corners in self.corners.items():
            self.corners[number] = [(finds[0](x), finds[1](y)) for x, y in corners]
        for find, within, at_box in zip(finds, self.within, self.at_box):
            within[:] = [(find(low), find(high), distance) for low, high, distance in within]
            for lines in at_box.values():
                lines[:] = map(find, lines)

    def along(self, item: Item, axis: int, on_grid: bool = False) -> tuple[float, float]:
        """Return where an item begins and ends along an axis."""
        if on_grid:
            return item.grid[axis]
        value = self.axes[axis].value
        return value[item.low[axis]] + item.before[axis], value[item.high[axis]] + item.after[axis]

    def extent(self, item: Item) -> Box:
        """Return the rectangle of an item."""
        (left, right), (top, bottom) = self.along(item, 0), self.along(item, 1)
        return left, top, right, bottom

    def bounds(self) -> Box:
        """Return the rectangle around all items."""
        left, top, right, bottom = zip(*map(self.extent, self.items))
        return min(left), min(top), max(right), max(bottom)

    def line(self, number: int) -> list[Point]:
        """Return the corners of an edge."""
        x, y = self.axes[0].value, self.axes[1].value
        if number in self.corners:
            return [(x[across], y[upright]) for across, upright in self.corners[number]]
        shape, pieces = self.lines[number], self.pieces[number]
        found = []
        for place, (before, after) in enumerate(itertools.pairwise(shape)):
            piece = pieces[place]
            axis = 1 - piece.across
            low, high = (x[piece.low[0]], y[piece.low[1]]), (x[piece.high[0]], y[piece.high[1]])
            start, end = (low, high) if before[axis] < after[axis] else (high, low)
            if place == 0:
                found.append(start)
            found.append(end)
        return found


def size_of(label: str, kind: Kind, look: NodeLook | None = None) -> tuple[float, float]:
    """Return the least width and height of a box."""
    if kind is Kind.NET:
        return 0.0, 0.0
    lines = lines_of(label)
    if look is not None and kind is not Kind.FLAG:
        text = text_size(lines, look.font, FONT, LINE_HEIGHT)
        return room(look.outline, text, (max(LEAST_SIDE, text[0] + 2 * PAD[0]), text[1] + 2 * PAD[1]))
    if kind is Kind.FLAG:
        return max(LEAST_FLAG, max(map(width_of, lines)) + 8), len(lines) * LINE_HEIGHT + 2
    return (max(LEAST_SIDE, max(map(width_of, lines)) + 2 * PAD[0]), len(lines) * LINE_HEIGHT + 2 * PAD[1])
