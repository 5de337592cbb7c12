#!/usr/bin/env python3
"""Checks a drawing from its JSON alone: it shares no code with what draws.

    python3 python/tests/drawing_checker.py DRAWING.json

A drawing is right where

- each edge runs along the axes, turns at each of its inner points, begins on the border of its tail's box and ends on
  the border of its head's, and meets neither box elsewhere;
- two edges meet in crossings alone, each a point inside a straight piece of both, and all crossings are told; no edge
  meets itself, and lines that do not cross are at least `CLEAR` pixels apart;
- no edge comes near a box that is not its own, and boxes and labels are apart;
- bends are as told, and everything lies inside the size.

Edges of one net may meet at the net, which is a point or a line. A box that the drawing calls `broken` has no rectangle of
its own: it is counted, and what meets it is not looked at.
"""
from __future__ import annotations

import itertools
import json
import math
import sys
from collections import Counter
from collections.abc import Iterator, Sequence
from dataclasses import dataclass
from typing import Any

CLEAR = 1.0  # pixels, the least distance of what must not touch
SAME = 1e-3  # pixels: points nearer than this are one

Point = tuple[float, float]
Box = tuple[float, float, float, float]  # left, top, right, bottom


class Wrong(Exception):
    """What is wrong with a drawing."""


@dataclass(frozen=True)
class Found:
    """What was counted in a drawing that is right."""

    crossings: int
    bends: int
    broken: int = 0  # boxes that are no rectangles


@dataclass(frozen=True)
class Piece:
    """A straight piece of an edge: its place in the edge, and its box, of which one side is 0."""

    edge: int
    place: int
    box: Box

    @property
    def is_upright(self) -> bool:
        """Whether it runs from top to bottom."""
        return self.box[0] == self.box[2]


def check(drawing: dict[str, Any], edges: Sequence[tuple[int, int]] | None = None, names: Sequence[str] | None = None) -> Found:
    """Check a drawing.

    Parameters
    ----------
    drawing : dict
        As `planarbend-draw -o OUT.json` writes it.
    edges : sequence of (int, int), optional
        The edges of the graph that was to be drawn, as numbers of its vertices, in order.
    names : sequence of str, optional
        The names of its vertices, in order.

    Returns
    -------
    Found
        The crossings and bends, as counted here.

    Raises
    ------
    Wrong
        The first fault that is found.
    """
    look_at_graph(drawing, edges, names)
    boxes = [box_of(vertex) for vertex in drawing["vertices"]]
    lines = [[point_of(point) for point in edge["points"]] for edge in drawing["edges"]]
    pieces = [piece for number, line in enumerate(lines) for piece in pieces_of(number, line)]
    look_at_size(drawing, boxes, lines)
    look_at_boxes(drawing, boxes)
    look_at_ends(drawing, boxes, lines)
    for piece in pieces:
        look_at_piece(drawing, boxes, lines, piece)
    crossings = crossings_of(drawing, boxes, lines, pieces)
    look_at_told(drawing, crossings)
    look_at_labels(drawing, boxes, pieces)
    bends = sum(len(line) - 2 for line in lines)
    if drawing["bends"] != bends:
        raise Wrong(f"it tells {drawing['bends']} bends and has {bends}")
    return Found(len(crossings), bends, sum(map(is_broken, drawing["vertices"])))


def look_at_graph(drawing: dict[str, Any], edges: Sequence[tuple[int, int]] | None, names: Sequence[str] | None) -> None:
    """Raises `Wrong` where the vertices or edges are not those that were to be drawn."""
    drawn = [(edge["tail"], edge["head"]) for edge in drawing["edges"]]
    count = len(drawing["vertices"])
    if any(not 0 <= end < count for edge in drawn for end in edge):
        raise Wrong("an edge's end is no vertex")
    if names is not None and [vertex["name"] for vertex in drawing["vertices"]] != list(names):
        raise Wrong("the vertices are not those of the graph")
    if edges is not None and drawn != list(edges):
        lost = Counter(map(tuple, edges)) - Counter(drawn)
        raise Wrong(f"the edges are not those of the graph: {sum(lost.values())} are missing or in another order")


def is_broken(vertex: dict[str, Any]) -> bool:
    """Whether the drawing calls a box broken."""
    return bool(vertex.get("broken"))


def box_of(vertex: dict[str, Any]) -> Box:
    """The box of a vertex."""
    left, top, right, bottom = box = tuple(map(float, vertex["box"]))
    if not all(map(math.isfinite, box)):
        raise Wrong(f"the box of {vertex['name']} is not finite")
    is_point_or_line = vertex["kind"] == "net" and left <= right and top <= bottom
    if not is_point_or_line and not (left < right and top < bottom):
        raise Wrong(f"the box of {vertex['name']} has no inside: {box}")
    return left, top, right, bottom


def point_of(point: Sequence[float]) -> Point:
    """A point of a line."""
    x, y = map(float, point)
    if not (math.isfinite(x) and math.isfinite(y)):
        raise Wrong(f"a point is not finite: {point}")
    return x, y


def pieces_of(edge: int, line: list[Point]) -> Iterator[Piece]:
    """The straight pieces of an edge, each at a right angle to the one before."""
    if len(line) < 2:
        raise Wrong(f"edge {edge} has {len(line)} points")
    before = None
    for place, ((x, y), (right, bottom)) in enumerate(itertools.pairwise(line)):
        if (x == right) == (y == bottom):
            raise Wrong(f"edge {edge} does not run along an axis from {x}, {y} to {right}, {bottom}")
        if before is not None and before == (x == right):
            raise Wrong(f"edge {edge} does not turn at {x}, {y}")
        before = x == right
        yield Piece(edge, place, (min(x, right), min(y, bottom), max(x, right), max(y, bottom)))


def look_at_size(drawing: dict[str, Any], boxes: list[Box], lines: list[list[Point]]) -> None:
    """Raises `Wrong` where something lies outside the picture."""
    width, height = drawing["size"]
    points = [point for line in lines for point in line]
    points += [(box[0], box[1]) for box in boxes] + [(box[2], box[3]) for box in boxes]
    for x, y in points:
        if not (0 <= x <= width and 0 <= y <= height):
            raise Wrong(f"{x}, {y} lies outside the picture, {width} by {height}")


def apart(one: Box, other: Box) -> float:
    """How far two boxes are apart, along the axis along which they are further apart; 0 or less where they meet."""
    return max(one[0] - other[2], other[0] - one[2], one[1] - other[3], other[1] - one[3])


def look_at_boxes(drawing: dict[str, Any], boxes: list[Box]) -> None:
    """Raises `Wrong` where two boxes touch."""
    whole = [number for number, vertex in enumerate(drawing["vertices"]) if not is_broken(vertex)]
    order = sorted(whole, key=lambda vertex: boxes[vertex][0])
    for place, one in enumerate(order):
        for other in itertools.islice(order, place + 1, None):
            if boxes[other][0] - boxes[one][2] >= CLEAR:
                break
            if apart(boxes[one], boxes[other]) < CLEAR:
                raise Wrong(f"the boxes of {name(drawing, one)} and {name(drawing, other)} touch")


def name(drawing: dict[str, Any], vertex: int) -> str:
    """The name of a vertex, for a message."""
    return repr(drawing["vertices"][vertex]["name"])


def on_border(point: Point, box: Box) -> bool:
    """Whether a point is on the border of a box."""
    x, y = point
    inside = box[0] - SAME <= x <= box[2] + SAME and box[1] - SAME <= y <= box[3] + SAME
    return inside and min(abs(x - box[0]), abs(x - box[2]), abs(y - box[1]), abs(y - box[3])) <= SAME


def look_at_ends(drawing: dict[str, Any], boxes: list[Box], lines: list[list[Point]]) -> None:
    """Raises `Wrong` where an edge does not begin on the border of its tail's box or end on that of its head's."""
    for number, (edge, line) in enumerate(zip(drawing["edges"], lines, strict=True)):
        for vertex, point in ((edge["tail"], line[0]), (edge["head"], line[-1])):
            if not on_border(point, boxes[vertex]) and not is_broken(drawing["vertices"][vertex]):
                raise Wrong(f"edge {number} ends at {point}, not on the border of the box of {name(drawing, vertex)}")


def ends_of(drawing: dict[str, Any], lines: list[list[Point]], piece: Piece) -> dict[Point, int]:
    """The points at which a piece ends on a box, each with the vertex of the box."""
    edge, line = drawing["edges"][piece.edge], lines[piece.edge]
    found = {}
    if piece.place == 0:
        found[line[0]] = edge["tail"]
    if piece.place == len(line) - 2:
        found[line[-1]] = edge["head"]
    return found


def look_at_piece(drawing: dict[str, Any], boxes: list[Box], lines: list[list[Point]], piece: Piece) -> None:
    """Raises `Wrong` where a piece comes near a box but at its end on that box."""
    ends = ends_of(drawing, lines, piece)
    for vertex, box in enumerate(boxes):
        if apart(piece.box, box) >= CLEAR or is_broken(drawing["vertices"][vertex]):
            continue
        at = [point for point, end in ends.items() if end == vertex]
        if not at:
            raise Wrong(f"edge {piece.edge} touches the box of {name(drawing, vertex)}")
        for point in at:
            if not is_outside(piece.box, box, point):
                raise Wrong(f"edge {piece.edge} runs into the box of {name(drawing, vertex)}")


def is_outside(piece: Box, box: Box, point: Point) -> bool:
    """Whether a piece that ends on a box at this point has no other point in the box."""
    common = (max(piece[0], box[0]), max(piece[1], box[1]), min(piece[2], box[2]), min(piece[3], box[3]))
    return all(abs(value - own) <= SAME for value, own in zip(common, (*point, *point)))


def crossings_of(drawing: dict[str, Any], boxes: list[Box], lines: list[list[Point]],
                 pieces: list[Piece]) -> list[tuple[Point, tuple[int, int]]]:
    """The crossings, each with its two edges; raises `Wrong` where two edges meet in another way."""
    found = []
    order = sorted(pieces, key=lambda piece: piece.box[0])
    for place, one in enumerate(order):
        for other in itertools.islice(order, place + 1, None):
            if other.box[0] - one.box[2] >= CLEAR:
                break
            if apart(one.box, other.box) >= CLEAR:
                continue
            if one.edge == other.edge:
                look_at_own(one, other)
            elif not meet_at_net(drawing, boxes, lines, one, other):
                found.append((crossing_of(one, other), (min(one.edge, other.edge), max(one.edge, other.edge))))
    return found


def look_at_own(one: Piece, other: Piece) -> None:
    """Raises `Wrong` where two pieces of an edge that do not follow each other come near each other."""
    if abs(one.place - other.place) > 1:
        raise Wrong(f"edge {one.edge} meets itself")


def meet_at_net(drawing: dict[str, Any], boxes: list[Box], lines: list[list[Point]], one: Piece, other: Piece) -> bool:
    """Whether two pieces of two edges that end on the same net come near each other at the net alone."""
    near = grown(one.box, CLEAR / 2), grown(other.box, CLEAR / 2)
    common = (max(near[0][0], near[1][0]), max(near[0][1], near[1][1]), min(near[0][2], near[1][2]), min(near[0][3], near[1][3]))
    shared = set(ends_of(drawing, lines, one).values()) & set(ends_of(drawing, lines, other).values())
    for vertex in shared:
        box = grown(boxes[vertex], CLEAR)
        if drawing["vertices"][vertex]["kind"] == "net" and within(common, box):
            return True
    return False


def grown(box: Box, by: float) -> Box:
    """A box with this much more on each side."""
    return box[0] - by, box[1] - by, box[2] + by, box[3] + by


def within(inner: Box, outer: Box) -> bool:
    """Whether a box lies in another."""
    return inner[0] >= outer[0] and inner[1] >= outer[1] and inner[2] <= outer[2] and inner[3] <= outer[3]


def crossing_of(one: Piece, other: Piece) -> Point:
    """The point where two pieces cross; raises `Wrong` where they come near each other without crossing."""
    if one.is_upright == other.is_upright:
        raise Wrong(f"edges {one.edge} and {other.edge} run over each other")
    upright, level = (one, other) if one.is_upright else (other, one)
    x, y = upright.box[0], level.box[1]
    room = min(x - level.box[0], level.box[2] - x, y - upright.box[1], upright.box[3] - y)
    if room < CLEAR:
        raise Wrong(f"edges {one.edge} and {other.edge} touch at {x}, {y} without crossing there")
    return x, y


def look_at_told(drawing: dict[str, Any], crossings: list[tuple[Point, tuple[int, int]]]) -> None:
    """Raises `Wrong` where the crossings that the drawing tells are not those that it has."""
    told = Counter((round(one["at"][0], 2), round(one["at"][1], 2), *sorted(one["edges"])) for one in drawing["crossings"])
    counted = Counter((round(x, 2), round(y, 2), *edges) for (x, y), edges in crossings)
    if told != counted:
        raise Wrong(f"it tells {told.total()} crossings and has {counted.total()}, of which"
                    f" {(counted - told).total()} are not told")


def look_at_labels(drawing: dict[str, Any], boxes: list[Box], pieces: list[Piece]) -> None:
    """Raises `Wrong` where a label outside the boxes touches a box, another label, or a line that is not its own."""
    labels = [(f"edge {number}", number, tuple(map(float, edge["label_box"])))
              for number, edge in enumerate(drawing["edges"]) if edge.get("label_box")]
    labels += [(f"vertex {number}", None, tuple(map(float, vertex["label_box"])))
               for number, vertex in enumerate(drawing["vertices"]) if vertex.get("label_box")]
    width, height = drawing["size"]
    for (what, own, box), place in zip(labels, range(len(labels))):
        if not (0 <= box[0] < box[2] <= width and 0 <= box[1] < box[3] <= height):
            raise Wrong(f"the label of {what} lies outside the picture")
        for vertex, other in enumerate(boxes):
            if apart(box, other) < 0 and f"vertex {vertex}" != what:
                raise Wrong(f"the label of {what} covers the box of {name(drawing, vertex)}")
        for second, _, other in labels[place + 1:]:
            if apart(box, other) < 0:
                raise Wrong(f"the labels of {what} and {second} cover each other")
        for piece in pieces:
            if piece.edge != own and apart(box, piece.box) < 0:
                raise Wrong(f"the label of {what} covers edge {piece.edge}")


def on_outer_face(drawing: dict[str, Any]) -> set[int]:
    """The vertices on the outer face of a drawing: those whose boxes are met from outside without crossing a line.

    The plane is cut into cells at all coordinates, and the cells that are reached from outside are filled.
    """
    boxes = [box_of(vertex) for vertex in drawing["vertices"]]
    lines = [[point_of(point) for point in edge["points"]] for edge in drawing["edges"]]
    walls = [piece.box for number, line in enumerate(lines) for piece in pieces_of(number, line)]
    for left, top, right, bottom in boxes:
        walls += [(left, top, right, top), (left, bottom, right, bottom), (left, top, left, bottom), (right, top, right, bottom)]
    xs, ys = ([-1.0, *sorted({wall[side] for wall in walls for side in (axis, axis + 2)}), 1e9] for axis in (0, 1))
    column, row = {x: place for place, x in enumerate(xs)}, {y: place for place, y in enumerate(ys)}
    closed: set[tuple[int, int, bool]] = set()  # the upright or level side at the left or upper end of a cell
    for left, top, right, bottom in walls:
        closed |= {(column[left], place, True) for place in range(row[top], row[bottom]) if left == right}
        closed |= {(place, row[top], False) for place in range(column[left], column[right]) if top == bottom}
    reached, waiting = {(0, 0)}, [(0, 0)]
    while waiting:
        x, y = waiting.pop()
        for other, side in (((x - 1, y), (x, y, True)), ((x + 1, y), (x + 1, y, True)),
                            ((x, y - 1), (x, y, False)), ((x, y + 1), (x, y + 1, False))):
            if 0 <= other[0] < len(xs) - 1 and 0 <= other[1] < len(ys) - 1 and side not in closed and other not in reached:
                reached.add(other)
                waiting.append(other)
    found = set()
    for vertex, (left, top, right, bottom) in enumerate(boxes):
        around = [(x, y) for x in range(column[left] - 1, column[right] + 1) for y in range(row[top] - 1, row[bottom] + 1)]
        if reached.intersection(around):
            found.add(vertex)
    return found


def main() -> int:
    """Check the drawings that the command line names."""
    for path in sys.argv[1:]:
        with open(path, encoding="utf-8") as source:
            drawing = json.load(source)
        try:
            found = check(drawing)
        except Wrong as fault:
            print(f"{path}: {fault}", file=sys.stderr)
            return 1
        print(f"{path}: {found.crossings} crossings, {found.bends} bends, all right")
    return 0


if __name__ == "__main__":
    sys.exit(main())
