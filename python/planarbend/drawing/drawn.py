"""A finished drawing in pixels, and its JSON for other programs."""
from __future__ import annotations

import json
from dataclasses import dataclass, field
from typing import Any

from planarbend.graph import Graph
from planarbend.drawing.frames import Frame, ends_json, fields_json, frames_json
from planarbend.drawing.nets import net_labels
from planarbend.layout.planar_code import HEADER, Lists, record_of

Point = tuple[float, float]
Box = tuple[float, float, float, float]  # left, top, right, bottom


@dataclass(frozen=True, slots=True)
class Crossing:
    """A point where two edges cross at a right angle: the edges by their numbers in the graph, the lesser first."""

    at: Point
    edges: tuple[int, int]


@dataclass(frozen=True, slots=True)
class Drawing:
    """A graph with a box for each vertex and a line for each edge, in pixels, y downwards.

    Attributes
    ----------
    graph : Graph
    boxes : list of (left, top, right, bottom)
        For each vertex. A net is a point or a line; the box then has no width, no height, or neither.
    lines : list of list of (x, y)
        For each edge its corners from the border of its tail's box to the border of its head's box, ends included.
    crossings : list of Crossing
        All points where two edges cross.
    size : (width, height)
        Of the whole picture.
    label_boxes : dict from edge to Box
        The place of each edge's label that is drawn.
    embedding : list of neighbour lists
        For each component with an edge its vertices in the graph's order, then its crossings, each with its neighbours counted
        from 1, clockwise. Loops are left out.
    end_boxes : dict from (edge, whether at the head) to Box
        The place of each label at an end of an edge.
    frames : dict from cluster to Frame
        Those of all clusters, but for those of which a warning says that they are left out.
    field_boxes : dict from vertex to list of Box
        For each vertex whose fields are drawn their boxes, in the order of `Field.walk`, that of the whole first.
    text_boxes : dict from vertex to list of Box
        For each of these fields the box in whose middle its text is: that of the field, or a part beside lines that pass over it.
    meets : dict from (edge, whether at the head) to (x, y)
        The point where an edge meets its port: at the border of its field, at the side that is its compass point, or at the frame
        of a cluster. It is the end of the edge's line, unless the field is within others: then it is straight on from there.
    """

    graph: Graph
    boxes: list[Box]
    lines: list[list[Point]]
    crossings: list[Crossing]
    size: tuple[float, float]
    label_boxes: dict[int, Box]
    embedding: list[Lists]
    end_boxes: dict[tuple[int, bool], Box] = field(default_factory=dict)
    frames: dict[int, Frame] = field(default_factory=dict)
    field_boxes: dict[int, list[Box]] = field(default_factory=dict)
    meets: dict[tuple[int, bool], Point] = field(default_factory=dict)
    text_boxes: dict[int, list[Box]] = field(default_factory=dict)

    @property
    def bends(self) -> int:
        """The number of bends of all edges."""
        return sum(len(line) - 2 for line in self.lines)

    def planar_code(self) -> bytes:
        """Return the embedding as planar_code, a record for each component."""
        return HEADER + b"".join(map(record_of, self.embedding))

    def json(self) -> str:
        """Return the drawing as JSON: vertices, edges, crossings, bends, size and, if there are any, frames."""
        vertices: list[dict[str, Any]] = [
            {"name": vertex.name, "label": vertex.label, "kind": vertex.kind.value, "box": list(box)}
            for vertex, box in zip(self.graph.vertices, self.boxes, strict=True)]
        for number, box in net_labels(self).items():
            vertices[number]["label_box"] = list(box)
        for number, boxes in self.field_boxes.items():
            vertices[number]["fields"] = fields_json(self.graph.fields[number], boxes)
        edges = []
        for number, (edge, line) in enumerate(zip(self.graph.edges, self.lines, strict=True)):
            edges.append({"tail": edge.tail, "head": edge.head, "label": edge.label, "arrow": edge.arrow.value,
                          "points": [list(point) for point in line]})
            if number in self.label_boxes:
                edges[-1]["label_box"] = list(self.label_boxes[number])
            edges[-1] |= ends_json(self, number)
        found = {"vertices": vertices, "edges": edges,
                 "crossings": [{"at": list(one.at), "edges": list(one.edges)} for one in self.crossings],
                 "bends": self.bends, "size": list(self.size)}
        if self.frames:
            found["frames"] = frames_json(self)
        return json.dumps(found, ensure_ascii=False, separators=(",", ":"))

    def text(self, form: str) -> str:
        """Return the drawing as "svg", "dot", "graphml", "gml" or "json"."""
        from importlib import import_module  # these modules use this one

        if form == "json":
            return self.json() + "\n"
        write = getattr(import_module("planarbend.drawing." + ("picture" if form == "svg" else "files")), form)
        return str(write(self))

    def _repr_svg_(self) -> str:
        """Return the SVG picture, which notebooks show."""
        return self.text("svg")
