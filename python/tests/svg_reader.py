"""Reads the graph back from an SVG picture of `planarbend draw`, only by where texts, boxes and lines lie."""
from __future__ import annotations

import itertools
import xml.etree.ElementTree as xml
from collections import Counter
from collections.abc import Iterable, Sequence
from dataclasses import dataclass

SVG = "{http://www.w3.org/2000/svg}"
NEAR = .11  # pixels: coordinates have one decimal
ARROWS = {(False, False): "none", (False, True): "forward", (True, False): "back", (True, True): "both"}

Point = tuple[float, float]
Box = tuple[float, float, float, float]  # left, top, right, bottom


@dataclass
class Text:
    """A line of text: its place and its font size."""

    at: Point
    text: str
    size: float


@dataclass
class Vertex:
    """A box with the text in it."""

    box: Box
    fill: str
    corner: float
    label: str = ""


@dataclass
class Edge:
    """A line: the boxes at its ends, None where no box is; its arrow and its label."""

    points: list[Point]
    arrow: str
    tail: int | None
    head: int | None
    label: str = ""


@dataclass
class Picture:
    """What is in a picture.

    Attributes
    ----------
    vertices : list of Vertex
    edges : list of Edge
    pieces : list of (Point, Point)
        The lines of nets.
    dots : list of Point
    names : list of Text
        Texts outside boxes that belong to no edge: the names of nets.
    size : (width, height)
    """

    vertices: list[Vertex]
    edges: list[Edge]
    pieces: list[tuple[Point, Point]]
    dots: list[Point]
    names: list[Text]
    size: Point

    def graph(self) -> Counter[tuple[str | None, str | None, str, str]]:
        """The edges by the labels of the boxes at their ends, with their arrows and labels."""
        label = [vertex.label for vertex in self.vertices]
        return Counter((None if edge.tail is None else label[edge.tail],
                        None if edge.head is None else label[edge.head],
                        edge.arrow, edge.label) for edge in self.edges)


def inside(point: Point, box: Box) -> bool:
    """Whether a point lies in a box."""
    return box[0] <= point[0] <= box[2] and box[1] <= point[1] <= box[3]


def on_border(point: Point, box: Box) -> bool:
    """Whether a point lies on the border of a box."""
    (x, y), (left, top, right, bottom) = point, box
    return (inside(point, (left - NEAR, top - NEAR, right + NEAR, bottom + NEAR))
            and min(abs(x - left), abs(x - right), abs(y - top), abs(y - bottom)) <= NEAR)


def meets(points: Sequence[Point], box: Box) -> bool:
    """Whether a line meets a box."""
    return any(min(x, u) <= box[2] and max(x, u) >= box[0] and min(y, v) <= box[3] and max(y, v) >= box[1]
               for (x, y), (u, v) in itertools.pairwise(points))


def only(numbers: Iterable[int], what: str) -> int:
    """The only one of some numbers."""
    found = list(numbers)
    assert len(found) == 1, f"{what}: {len(found)} in place of one"
    return found[0]


def label_in(box: Box, texts: Sequence[Text]) -> str:
    """The lines of text in a box, from top to bottom: in its middle, at equal distances, and within it."""
    if texts:
        assert all(abs(one.at[0] - (box[0] + box[2]) / 2) <= 2 * NEAR
                   for one in texts), "a text that is not in the middle"
        downs = [one.at[1] for one in texts]
        steps = [after - before for before, after in itertools.pairwise(downs)]
        assert all(abs(step - steps[0]) <= NEAR and step >= texts[0].size
                   for step in steps), "lines of text that overlap"
        assert abs(sum(downs) / len(downs) - (box[1] + box[3]) / 2) <= 2 * NEAR, "a text above or below the middle"
        high = (len(texts) - 1) * max(steps, default=0) + texts[0].size
        assert high <= box[3] - box[1] + 1, "a text that leaves its box"
        narrowest = .3 * texts[0].size  # the least width of a letter, in any font
        assert all(len(one.text) * narrowest <= box[2] - box[0] for one in texts), "a text that is wider than its box"
    return "\n".join(one.text for one in texts)


def read_svg(text: str | bytes) -> Picture:
    """Read a picture; an `AssertionError` says what is not where it belongs."""
    root = xml.fromstring(text)
    size = float(root.get("width", "nan")), float(root.get("height", "nan"))
    assert root.get("viewBox") == f"0 0 {root.get('width')} {root.get('height')}"
    assert all(one.get("fill") == "white" for one in root.iter(SVG + "rect") if one.get("width") == "100%")
    heads = {f"url(#{marker.get('id')})" for marker in root.iter(SVG + "marker")}
    vertices, covers = [], []
    for rect in root.iter(SVG + "rect"):
        if "x" in rect.attrib:
            x, y, width, height = (float(rect.get(key, "nan")) for key in ("x", "y", "width", "height"))
            box = x, y, x + width, y + height
            if "rx" in rect.attrib:
                vertices.append(Vertex(box, rect.get("fill", ""), float(rect.get("rx", "nan"))))
            else:
                assert rect.get("fill") == "white", "what is behind a label hides the line"
                covers.append(box)
    edges = []
    for line in root.iter(SVG + "polyline"):
        points = [(float(x), float(y)) for x, y in (point.split(",") for point in line.get("points", "").split())]
        at = [line.get(f"marker-{end}") for end in ("start", "end")]
        assert {one for one in at if one} <= heads, "an arrowhead that is not defined"
        ends = [[number for number, vertex in enumerate(vertices) if on_border(point, vertex.box)]
                for point in (points[0], points[-1])]
        assert max(map(len, ends)) <= 1, "a line ends at two boxes"
        edges.append(Edge(points, ARROWS[bool(at[0]), bool(at[1])], *(one[0] if one else None for one in ends)))
    names: list[Text] = []
    in_boxes: list[list[Text]] = [[] for _ in vertices]
    in_covers: list[list[Text]] = [[] for _ in covers]
    for group in root.iter(SVG + "g"):
        for element in group.findall(SVG + "text"):
            assert (group.get("text-anchor"), element.get("dy")) == ("middle", ".35em"), "a text aside of its place"
            one = Text((float(element.get("x", "nan")), float(element.get("y", "nan"))), element.text or "",
                       float(group.get("font-size", "nan")))
            boxes = [number for number, vertex in enumerate(vertices) if inside(one.at, vertex.box)]
            behind = [number for number, box in enumerate(covers) if inside(one.at, box)]
            if boxes:
                in_boxes[only(boxes, "boxes around a text")].append(one)
            elif behind:
                in_covers[only(behind, "places of a text")].append(one)
            else:
                names.append(one)
    for vertex, texts in zip(vertices, in_boxes, strict=True):
        vertex.label = label_in(vertex.box, texts)
    for box, texts in zip(covers, in_covers, strict=True):
        own = edges[only((place for place, edge in enumerate(edges) if meets(edge.points, box)), "lines at a label")]
        assert texts and not own.label
        own.label = label_in(box, texts)
    pieces = []
    for path in root.iter(SVG + "path"):
        if path.get("fill") == "none":
            (x, y), (u, v) = (map(float, end.split()) for end in path.get("d", "").removeprefix("M").split("L"))
            pieces.append(((x, y), (u, v)))
    dots = [(float(dot.get("cx", "nan")), float(dot.get("cy", "nan"))) for dot in root.iter(SVG + "circle")]
    return Picture(vertices, edges, pieces, dots, names, size)
