"""Draws a graph: its components one by one, then side by side."""
from __future__ import annotations

import dataclasses
import math
import random
from collections.abc import Sequence
from dataclasses import dataclass, field

from planarbend.drawing import field_items
from planarbend.drawing.choose import NoStraightEdges, NoSuchFace, TooLarge, choose
from planarbend.drawing.drawn import Box, Crossing, Drawing, Point
from planarbend.drawing.frame_items import NoFrames, bare, drawn_edges
from planarbend.drawing.frames import Frame
from planarbend.drawing.items import Sheet
from planarbend.drawing.linked import NONE
from planarbend.drawing.nesting import is_port
from planarbend.drawing.planarization import Planarization
from planarbend.drawing.planarize import TooManyCrossings, planarize
from planarbend.drawing.plans import Budget, Options
from planarbend.drawing.shape import Shape, lone
from planarbend.drawing.spread import spread
from planarbend.graph import Edge, Graph, Partition
from planarbend.layout.engine import Engine, default_engine
from planarbend.ports import End
from planarbend.programs import PlanarbendError
from planarbend.progress import stage

MARGIN = 10.0  # pixels around the whole
BETWEEN = 18.0  # pixels between components
MOST_EMBEDDINGS = 4  # that are tried while some box would not be a rectangle
HELP = "--split draws vertices with many edges as flags"
MOST_LAID = 30_000  # vertices, by an engine that keeps no conditions (four seconds), in search of boxes that are rectangles
LIBRARY = "libplanarbend may find one: `./planarbend --build` builds it, and PLANARBEND must not be set; or "
MOST_BROKEN = 4  # if more boxes than this are not rectangles, no further embedding is tried
BEND_WEIGHT = 2.5  # of bends per edge, when shapes are compared by area
COMPACT_WEIGHT = 0.25  # the same for a compact drawing


class DrawError(Exception):
    """The graph cannot be drawn; the message says why."""


class NotStraight(DrawError):
    """No drawing was found in which all required edges are straight; another embedding may have one."""


@dataclass(frozen=True, slots=True)
class Part:
    """A component of a graph in pixels, with the graph's numbers of its vertices, edges and clusters."""

    vertices: list[int]
    edges: list[int]
    sheet: Sheet
    clusters: list[int] = field(default_factory=list)


def draw(graph: Graph, options: Options = Options(), engine: Engine | None = None) -> Drawing:
    """Return a drawing of a graph.

    Parameters
    ----------
    graph : Graph
    options : Options
    engine : Engine, optional
        What lays out embedded graphs; by default the library or, without one, the program.

    Raises
    ------
    DrawError
        A component would need more vertices than the engine takes (the library 1,200, the program 255); vertices of `outer` in
        one component lie on no common face; or the edges of `straight` cannot be kept straight (there is no library, an edge is
        a loop, or no such drawing was found).
    PlanarbendError
        The program is missing or fails.
    """
    engine = engine or default_engine()
    check_straight(graph, options, engine)
    components, parts = components_of(graph), list[Part]()
    for place, one in enumerate(components, 1):
        stage(f"component {place} of {len(components)}: {len(one.vertices)} vertices, {len(one.edges)} edges")
        parts += parts_of(graph, one, options, engine)
    stage("writing")
    return side_by_side(graph, parts)


def check_straight(graph: Graph, options: Options, engine: Engine) -> None:
    """Return if the engine can keep the edges that must be straight, and none is a loop; otherwise raise a `DrawError`."""
    if options.straight and not engine.keeps:
        raise DrawError("straight edges need the library libplanarbend of this version: `./planarbend --build` builds it, and"
                        " PLANARBEND must not be set")
    for number in options.straight:
        edge = graph.edges[number]
        if edge.tail == edge.head:
            raise DrawError(f"a loop cannot be straight: {graph.vertices[edge.tail].name}")


@dataclass(frozen=True, slots=True)
class Component:
    """The vertices, edges and clusters of a component, in the graph's order."""

    vertices: list[int]
    edges: list[int]
    clusters: list[int]


def components_of(graph: Graph, chosen: Sequence[int] | None = None) -> list[Component]:
    """Return the components of a graph, of which what lies in one cluster is never in two; or, if some vertices are chosen, those
    of their components without clusters."""
    count, is_whole = len(graph.vertices), chosen is None
    clusters = graph.clusters if is_whole else []
    parts = Partition(count + len(clusters))
    for edge in graph.edges:
        parts.unite(edge.tail, edge.head)
    for number, one in enumerate(clusters):
        for other in one.members + ([] if one.parent is None else [count + one.parent]):
            parts.unite(other, count + number)
    found: dict[int, Component] = {}
    for vertex in range(count) if chosen is None else chosen:
        found.setdefault(parts.find(vertex), Component([], [], [])).vertices.append(vertex)
    for number, edge in enumerate(graph.edges):
        if is_whole or parts.find(edge.tail) in found:
            found[parts.find(edge.tail)].edges.append(number)
    for number in range(len(clusters)):
        found.setdefault(parts.find(count + number), Component([], [], [])).clusters.append(number)
    return list(found.values())


def parts_of(graph: Graph, component: Component, options: Options, engine: Engine) -> list[Part]:
    """Return a component, drawn; if its clusters cannot be drawn, its parts without them, and if their ports cannot either, without
    these, and warnings."""
    try:
        return [part_of(graph, component, options, engine)]
    except NoFrames as fault:
        names = ", ".join(graph.clusters[number].name for number in component.clusters)
        if names:
            graph.looks.warnings.append(f"clusters are drawn without frames: {names}: {fault}")
        if names and engine.keeps:
            plain = dataclasses.replace(graph, clusters=[], ends={
                key: dataclasses.replace(end, cluster=None) for key, end in graph.ends.items()})
            return [part for one in components_of(plain, component.vertices) for part in parts_of(plain, one, options, engine)]
        ends = {key for key, end in graph.ends.items() if key[0] in component.edges and is_port(end)}
        names = ", ".join(dict.fromkeys(graph.vertices[graph.edges[edge].head if is_head else graph.edges[edge].tail].name
                                        for edge, is_head in sorted(ends)))
        graph.looks.warnings += [f"edges end anywhere at these nodes, not at their ports: {names}: {fault}"] if names else []
    plain = dataclasses.replace(graph, clusters=[], ends={})
    return [part_of(plain, one, options, engine) for one in components_of(plain, component.vertices)]


def inner_graph(graph: Graph, part: Component) -> Graph:
    """Return the graph of a component, whose vertices, edges and clusters have their places in its lists as numbers."""
    number = {vertex: place for place, vertex in enumerate(part.vertices)}
    cluster = {one: place for place, one in enumerate(part.clusters)}
    chosen, place_of = [graph.edges[edge] for edge in part.edges], {edge: place for place, edge in enumerate(part.edges)}
    ends = {(place_of[edge], is_head): dataclasses.replace(end, cluster=cluster.get(NONE if end.cluster is None else end.cluster))
            for (edge, is_head), end in graph.ends.items() if edge in place_of}
    clusters = [dataclasses.replace(one, parent=None if one.parent is None else cluster[one.parent],
                                    members=[number[vertex] for vertex in one.members])
                for one in (graph.clusters[number] for number in part.clusters)]
    return Graph([graph.vertices[vertex] for vertex in part.vertices],
                 [Edge(number[edge.tail], number[edge.head], edge.label, edge.arrow) for edge in chosen], graph.directed,
                 graph.looks.part(part.vertices, part.edges),
                 {number[vertex]: one for vertex, one in graph.fields.items() if vertex in number}, ends, clusters)


def part_of(graph: Graph, part: Component, options: Options, engine: Engine) -> Part:
    """Return one component, drawn. Inside, its vertices, edges and clusters have their places in its lists as numbers."""
    inner = inner_graph(graph, part)
    number = {vertex: place for place, vertex in enumerate(part.vertices)}
    options = dataclasses.replace(options, outer=[number[vertex] for vertex in options.outer if vertex in number],
                                  straight=[place for place, edge in enumerate(part.edges) if edge in options.straight])
    if inner.clusters or any(map(is_port, inner.ends.values())):
        return Part(part.vertices, part.edges, framed_sheet(inner, options, engine), part.clusters)
    if all(edge.tail == edge.head for edge in inner.edges):
        return Part(part.vertices, part.edges, settled(lone(len(part.edges)), inner))
    sheet = best_sheet(inner, options, engine)
    if sheet.shape.broken:
        names = ", ".join(inner.vertices[vertex].name for vertex in sheet.shape.broken)
        raise DrawError(f"no drawing was found in which these boxes are rectangles: {names} ({'' if engine.keeps else LIBRARY}try"
                        " another --seed, or --split with the nets that join most)")
    return Part(part.vertices, part.edges, sheet)


def framed_sheet(graph: Graph, options: Options, engine: Engine) -> Sheet:
    """Return the best drawing of a component with clusters; raise `NoFrames` if it is not drawn with their frames."""
    try:
        from planarbend.drawing.framed import framed_shapes  # slow to load, and often not needed
    except ModuleNotFoundError as error:
        raise NoFrames(f"frames need the Python library {error.name} (Debian: python3-{error.name})") from None
    stage(f"{len(graph.vertices)} vertices, {len(graph.edges)} edges, {len(graph.clusters)} clusters: searching")
    weight = COMPACT_WEIGHT if options.compact else BEND_WEIGHT
    sheets = [settled(shape, graph) for shape in framed_shapes(graph, options, engine)]
    return min(sheets, key=lambda sheet: price_of(sheet, len(graph.edges) or 1, weight))


def best_sheet(graph: Graph, options: Options, engine: Engine) -> Sheet:
    """Return the best drawing of a component."""
    weight = COMPACT_WEIGHT if options.compact else BEND_WEIGHT
    best, budget = None, Budget() if engine.keeps else Budget(MOST_LAID * max(1, options.effort))
    for attempt in range(MOST_EMBEDDINGS):
        try:
            shapes = shapes_of(embedded(graph, options, attempt, engine.most_vertices), graph, options, engine, budget)
        except DrawError as fault:
            if best is None and not (isinstance(fault, NotStraight) and attempt + 1 < MOST_EMBEDDINGS):
                raise
            continue  # an earlier embedding was drawn, or a later one may be
        for shape in shapes:
            sheet = settled(shape, graph)
            price = len(shape.broken), price_of(sheet, len(graph.edges), weight)
            if best is None or price < best[0]:
                best = price, sheet
        if best is not None and (not 0 < best[0][0] <= MOST_BROKEN or budget.left < 0):
            break
    assert best is not None, "a component has a shape"
    return best[1]


def embedded(graph: Graph, options: Options, attempt: int, most: int) -> Planarization:
    """Return a component in the plane: at each attempt but the first another embedding, by another order of its vertices and
    edges. Raise a `DrawError` if there are more vertices and crossings than `most`."""
    count, pairs = len(graph.vertices), [(edge.tail, edge.head) for edge in graph.edges]
    if count > most:
        raise DrawError(f"a component has {count} vertices; the limit is {most}; {HELP}")
    more = f", embedding {attempt + 1}" if attempt else ""
    stage(f"{count} vertices, {len(pairs)} edges: searching for few crossings{more}")
    order = random.Random(options.seed * MOST_EMBEDDINGS + attempt) if attempt else None
    try:
        return planarize(count, pairs, effort=options.effort, seed=options.seed, together=options.outer,
                         most=most - count, order=order)
    except TooManyCrossings as fault:
        plain = sum(tail != head for tail, head in pairs)
        raise DrawError(f"a component has {count} vertices, {plain} edges and {fault}; the limit is {most}"
                        f" vertices and crossings; {HELP}") from None


def shapes_of(planar: Planarization, graph: Graph, options: Options, engine: Engine, budget: Budget) -> list[Shape]:
    """Return good shapes of an embedded component; raise a `DrawError` if it takes too many vertices, or no shape was found
    with all of `outer` on one face, or with straight edges."""
    stage(f"{len(graph.vertices)} vertices, {len(graph.edges)} edges, {planar.crossings} crossings: searching for few bends")
    try:
        return choose(planar, engine, options, budget)
    except TooLarge as fault:
        raise DrawError(f"a component has {len(graph.vertices)} vertices, {len(graph.edges)} edges and {planar.crossings}"
                        f" crossings, which takes {fault} vertices of degree 4; the limit is"
                        f" {engine.most_vertices}; {HELP}") from None
    except NoSuchFace:
        names = ", ".join(graph.vertices[vertex].name for vertex in options.outer)
        raise DrawError(f"no embedding was found with these vertices on one face: {names}") from None
    except NoStraightEdges:
        ends = ((graph.edges[number].tail, graph.edges[number].head) for number in options.straight)
        names = ", ".join("--".join(graph.vertices[end].name for end in pair) for pair in ends)
        raise NotStraight(f"no drawing was found in which these edges are straight: {names}") from None


def settled(shape: Shape, graph: Graph) -> Sheet:
    """Return a shape in pixels."""
    sheet = Sheet(shape, graph)
    spread(sheet)
    return sheet


def price_of(sheet: Sheet, edges: int, weight: float) -> float:
    """Return the price to minimise: the area, times a factor that grows with the bends per edge."""
    left, top, right, bottom = sheet.bounds()
    return (right - left) * (bottom - top) * (1 + weight * sheet.shape.bends / edges)


def crossings_of(shape: Shape) -> list[tuple[int, int]]:
    """Return for each crossing the two edges that cross there, the lesser first; nothing for crossings with what is not drawn, or
    with a frame."""
    planar, drawn = shape.expansion.planar, drawn_edges(shape)
    met: list[list[int]] = [[] for _ in planar.rotation]
    for edge, chain in enumerate(planar.chains[:drawn]):
        for dart in chain[1:]:
            met[planar.tail[dart]].append(edge)
    return [(min(pair), max(pair)) for pair in met[planar.vertex_count:] if len(pair) == 2]


def meeting(one: list[Point], other: list[Point]) -> Point:
    """Return the point at which two lines cross."""
    for (a, b), (c, d) in zip(one, one[1:]):
        for (e, f), (g, h) in zip(other, other[1:]):
            if a == c and f == h and min(e, g) < a < max(e, g) and min(b, d) < f < max(b, d):
                return a, f
            if b == d and e == g and min(a, c) < e < max(a, c) and min(f, h) < b < max(f, h):
                return e, b
    raise PlanarbendError("two edges that cross do not meet: please report this graph")


def side_by_side(graph: Graph, parts: Sequence[Part]) -> Drawing:
    """Return all components in one picture."""
    boxes: list[Box] = [(0.0, 0.0, 0.0, 0.0)] * len(graph.vertices)
    lines: list[list[Point]] = [[]] * len(graph.edges)
    crossings: list[Crossing] = []
    labels: dict[int, Box] = {}
    end_labels: dict[tuple[int, bool], Box] = {}
    frames: dict[int, Frame] = {}
    field_boxes, text_boxes = dict[int, list[Box]](), dict[int, list[Box]]()
    meets: dict[tuple[int, bool], Point] = {}
    bounds = [part.sheet.bounds() for part in parts]
    places, width, height = packed([(right - left + BETWEEN, bottom - top + BETWEEN) for left, top, right, bottom in bounds])
    for part, box, (x, y) in zip(parts, bounds, places):
        sheet, edges, corner, place = part.sheet, part.edges, box[:2], (x + MARGIN, y + MARGIN)
        for vertex, item in zip(part.vertices, sheet.boxes):
            boxes[vertex] = box_at(sheet.extent(item), corner, place)
        for number, edge in enumerate(edges):
            lines[edge] = [point_at(point, corner, place) for point in sheet.line(number)]
        for number, item in sheet.labels.items():
            labels[edges[number]] = box_at(sheet.extent(item), corner, place)
        for (number, is_head), item in sheet.end_labels.items():
            end_labels[edges[number], is_head] = box_at(sheet.extent(item), corner, place)
        for cluster, item in sheet.frames.items():
            label = sheet.frame_labels.get(cluster)
            frames[part.clusters[cluster]] = Frame(box_at(sheet.extent(item), corner, place), None if label is None else box_at(
                sheet.extent(label), corner, place))
        for number, some in boxes_of_texts(sheet).items():
            field_boxes[part.vertices[number]] = [box_at(one, corner, place) for one in field_items.field_boxes(sheet, number)]
            text_boxes[part.vertices[number]] = [box_at(one, corner, place) for one in some]
        for (number, is_head), end in sheet.graph.ends.items():
            meets[edges[number], is_head] = point_at(end_of(sheet, number, is_head, end), corner, place)
        crossings += [Crossing(meeting(lines[edges[one]], lines[edges[other]]), (edges[one], edges[other]))
                      for one, other in crossings_of(sheet.shape)]
    size = (math.ceil(width - BETWEEN + 2 * MARGIN), math.ceil(height - BETWEEN + 2 * MARGIN))
    embedding = [lists for part in parts for lists in bare(part.sheet.shape)]
    return Drawing(graph, boxes, lines, crossings, size, labels, embedding, end_labels, frames, field_boxes, meets, text_boxes)


def end_of(sheet: Sheet, number: int, is_head: bool, end: End) -> Point:
    """Return the point at which an edge meets its port, or the frame at which it ends."""
    return field_items.met(sheet, number, is_head, end) if is_port(end) else sheet.line(number)[-1 if is_head else 0]


def boxes_of_texts(sheet: Sheet) -> dict[int, list[Box]]:
    """Return for the fields of vertices, in the order of `Field.walk`, the boxes in whose middle their texts are."""
    found = {vertex: field_items.field_boxes(sheet, vertex) for vertex in sheet.graph.fields}
    for vertex, place, axis, places, room in field_items.passed(sheet):
        (left, top, right, bottom), value = found[vertex][place], sheet.axes[axis].value
        low, high = (value[one] for one in field_items.part_of(value, places, room))
        found[vertex][place] = (low, top, high, bottom) if axis == 0 else (left, low, right, high)
    return found


def point_at(point: Point, corner: Point, place: Point) -> Point:
    """Return a point of a component whose left upper corner goes to a place in the picture."""
    return round(point[0] - corner[0] + place[0], 3), round(point[1] - corner[1] + place[1], 3)


def box_at(box: Box, corner: Point, place: Point) -> Box:
    """Return a box of a component whose left upper corner goes to a place in the picture."""
    return *point_at(box[:2], corner, place), *point_at(box[2:], corner, place)


def packed(sizes: list[tuple[float, float]]) -> tuple[list[Point], float, float]:
    """Return places for rectangles, and their total width and height. Several widths are tried, and the one with the least
    area is taken; results more stretched than the largest rectangle count more."""
    widest, area = max(width for width, _ in sizes), sum(width * height for width, height in sizes)
    least = stretch_of(*max(sizes, key=lambda size: size[0] * size[1]))
    widths = sorted({widest, *(max(widest, math.sqrt(area * shape)) for shape in (0.7, 0.9, 1.1, 1.3, 1.5, 1.8, 2.2, 2.7, 3.3))})
    found = [at_skyline(sizes, width) for width in widths]
    return min(found, key=lambda one: one[1] * one[2] * max(least, stretch_of(one[1], one[2])))


def stretch_of(width: float, height: float) -> float:
    """Return how much a rectangle is stretched: 1 if it is at most three times as wide as high, and twice as high as wide."""
    return max(1.0, width / height / 3, height / width / 2)


def at_skyline(sizes: list[tuple[float, float]], width: float) -> tuple[list[Point], float, float]:
    """Return places within a width: the highest rectangles first, each as far up, then as far left, as it may go."""
    skyline: list[tuple[float, float, float]] = [(0.0, width, 0.0)]  # from, to, how far down it is taken
    places: list[Point] = [(0.0, 0.0)] * len(sizes)
    for number in sorted(range(len(sizes)), key=lambda number: (-sizes[number][1], number)):
        wide, high = sizes[number]
        best = (math.inf, 0.0)
        for left, _, _ in skyline:
            if left + wide <= width + 1e-6:
                best = min(best, (max(down for start, end, down in skyline
                                      if start < left + wide - 1e-6 and end > left + 1e-6), left))
        top, left = best
        places[number] = left, top
        cut = [(start, min(end, left), down) for start, end, down in skyline if start < left - 1e-6]
        cut.append((left, left + wide, top + high))
        cut += [(max(start, left + wide), end, down) for start, end, down in skyline if end > left + wide + 1e-6]
        skyline = cut
    return (places, max(x + wide for (x, _), (wide, _) in zip(places, sizes)),
            max(y + high for (_, y), (_, high) in zip(places, sizes)))
