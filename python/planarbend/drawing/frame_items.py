"""The frames of clusters among the items of a drawing: four pieces for each, and its label within it."""
from __future__ import annotations

from itertools import pairwise
from typing import TYPE_CHECKING

from planarbend.drawing.extents import BOX, LABEL, PIECE, UNIT, Item, item_at
from planarbend.drawing.frame_picture import STROKE
from planarbend.drawing.nested import NestedPlanarization
from planarbend.drawing.shape import Shape, rect_of
from planarbend.drawing.solver import Solver
from planarbend.drawing.texts import FONT, LINE_HEIGHT, lines_of, text_size
from planarbend.graph import Graph
from planarbend.layout.engine import GridPoint
from planarbend.layout.planar_code import Lists
from planarbend.style import Across

if TYPE_CHECKING:
    from planarbend.drawing.items import Sheet

PAD = (8.0, 4.0)  # pixels between a label and its frame
LEAST = (30.0, 22.0)  # pixels, of a frame with nothing in it
GLUE = 2.0  # the weight of the distance of a label from its side, to that of a line's length
WEIGHT = 1.0  # of the length of a side


class NoFrames(Exception):
    """A component is not drawn with the frames of its clusters; the message says why."""


def framing(shape: Shape) -> NestedPlanarization | None:
    """Return the embedding of a shape if it has frames."""
    planar = shape.expansion.planar
    return planar if isinstance(planar, NestedPlanarization) else None


def add_frames(sheet: Sheet) -> None:
    """Add the frames of a shape to its sheet, before its lines."""
    planar = framing(sheet.shape)
    if planar is None:
        return
    for place, cluster in enumerate(planar.nesting.framed):
        corners = [point for side in planar.sides_of(place) for point in sheet.shape.lines[side]]
        left, top, right, bottom = rect_of(corners)
        grid = [(float(UNIT * left), float(UNIT * right)), (float(UNIT * top), float(UNIT * bottom))]
        coordinates, beyond = [[axis.add(side) for side in sides] for axis, sides in zip(sheet.axes, grid)], excess(sheet, cluster)
        frame = Item(BOX, [low for low, _ in coordinates], [high for _, high in coordinates], grid)
        sheet.frames[cluster] = frame
        for axis in (0, 1):
            low, high = zip(coordinates[1 - axis], grid[1 - axis])
            for at in zip(coordinates[axis], grid[axis]):
                piece = item_at(PIECE, axis, at, low, high, ())
                piece.before[axis], piece.after[axis] = -beyond, beyond
                sheet.frame_pieces.append(piece)
        _add_label(sheet, cluster, frame, label_place(sheet, planar, place))
    sheet.items += sheet.frame_pieces
    for cluster, vertex in planar.nesting.empty.items():
        _add_empty(sheet, cluster, vertex)


def excess(sheet: Sheet, cluster: int) -> float:
    """Return how far a frame with a wide line reaches beyond a plain one, to each side."""
    return max((sheet.graph.clusters[cluster].look.width or STROKE) - STROKE, 0.0) / 2


def label_place(sheet: Sheet, planar: NestedPlanarization, place: int) -> tuple[float, float]:
    """Return where on the fine grid the label of a frame is: beside its upper or lower side, where it has the most room."""
    sides, points = planar.sides_of(place), sheet.shape.points
    left, top, right, bottom = rect_of(point for side in sides for point in sheet.shape.lines[side])
    look = sheet.graph.clusters[planar.nesting.framed[place]].look
    y = bottom if look.is_label_below else top
    met: set[GridPoint] = {points[planar.tail[dart]] for side in sides for dart in planar.chains[side]
                           if planar.tail[dart] >= planar.vertex_count}
    stops = sorted({left, right, *(x for x, height in met if height == y)})
    wanted = {Across.LEFT: left, Across.RIGHT: right}.get(look.across, (left + right) / 2)
    low, high = max(pairwise(stops), key=lambda pair: (pair[1] - pair[0], -abs(sum(pair) / 2 - wanted)))
    return UNIT * (low + high) / 2, UNIT * y + (-UNIT / 2 if look.is_label_below else UNIT / 2)


def label_size(sheet: Sheet, cluster: int) -> tuple[float, float] | None:
    """Return the size of a cluster's label, or None if there is none to draw."""
    one = sheet.graph.clusters[cluster]
    if not one.label.strip() or not one.look.is_visible:
        return None
    return text_size(lines_of(one.label), one.look.font, FONT, LINE_HEIGHT)


def _add_label(sheet: Sheet, cluster: int, frame: Item, at: tuple[float, float]) -> None:
    """Add the label of a frame, which lies within it, if there is one to draw."""
    size = label_size(sheet, cluster)
    if size is None:
        return
    places = [(axis.add(value), value) for axis, value in zip(sheet.axes, at)]
    item = Item(LABEL, [place for place, _ in places], [place for place, _ in places], [(value, value) for _, value in places],
                before=[-one / 2 for one in size], after=[one / 2 for one in size], host=frame.host)
    for axis, (place, _) in enumerate(places):
        room = size[axis] / 2 + PAD[axis] + excess(sheet, cluster)
        sheet.within[axis].extend([(frame.low[axis], place, room), (place, frame.high[axis], room)])
    sheet.frame_labels[cluster] = item
    sheet.items.append(item)


def _add_empty(sheet: Sheet, cluster: int, vertex: int) -> None:
    """Add the frame of a cluster with nothing in it, a box with its label."""
    left, top, right, bottom = (UNIT * side for side in sheet.shape.boxes[vertex])
    size = label_size(sheet, cluster) or (0.0, 0.0)
    ends = [(axis.add(low, -1.0), axis.add(high, 1.0)) for axis, low, high in zip(sheet.axes, (left, top), (right, bottom))]
    frame = Item(BOX, [low for low, _ in ends], [high for _, high in ends], [(left, right), (top, bottom)],
                 host=(-1 - 3 * len(sheet.graph.edges) - cluster,))
    for axis, (low, high) in enumerate(ends):
        sheet.within[axis].append((low, high, max(LEAST[axis], size[axis] + 2 * PAD[axis])))
    sheet.frames[cluster] = frame
    sheet.items.append(frame)
    _add_label(sheet, cluster, frame, ((left + right) / 2, (top + bottom) / 2))


def frame_lengths(sheet: Sheet, axis: int) -> list[tuple[int, int, float, float]]:
    """Return what should be short along an axis: sides of frames, and the way from a side to its label."""
    found = [(frame.low[axis], frame.high[axis], 0.0, WEIGHT) for frame in sheet.frames.values()]
    for cluster, label in sheet.frame_labels.items() if axis == 1 else ():
        frame, is_below = sheet.frames[cluster], sheet.graph.clusters[cluster].look.is_label_below
        found.append((label.low[1], frame.high[1], 0.0, GLUE) if is_below else (frame.low[1], label.low[1], 0.0, GLUE))
    return found


def place_frame_labels(sheet: Sheet, axis: int, solver: Solver) -> None:
    """Move labels of frames to their sides, and along these to where they should be, as far as others allow."""
    for cluster, label in sheet.frame_labels.items():
        look, frame = sheet.graph.clusters[cluster].look, sheet.frames[cluster]
        low, high = solver.value[frame.low[axis]], solver.value[frame.high[axis]]
        if axis == 1:
            wanted = high if look.is_label_below else low
        else:
            wanted = {Across.LEFT: low, Across.RIGHT: high}.get(look.across, (low + high) / 2)
        solver.move_to(label.low[axis], wanted)


def drawn_edges(shape: Shape) -> int:
    """Return how many edges of the embedding of a shape are drawn, and are no sides of frames."""
    planar = framing(shape)
    return len(shape.expansion.planar.chains) if planar is None else planar.nesting.drawn[1]


def bare(shape: Shape) -> list[Lists]:
    """Return the neighbour lists of each component of a shape that has an edge, without frames and what is not drawn."""
    planar = framing(shape)
    if planar is None:
        return [shape.expansion.planar.lists] if shape.expansion.planar.tail else []
    return planar.bare()


def ends_of(shape: Shape, graph: Graph) -> list[tuple[int, int]]:
    """Return for each edge the vertices at whose boxes its line ends; for a frame, -1 - its cluster."""
    found = [(edge.tail, edge.head) for edge in graph.edges]
    planar = framing(shape)
    for (edge, is_head), cluster in planar.nesting.at_frames.items() if planar is not None else ():
        tail, head = found[edge]
        found[edge] = (tail, -1 - cluster) if is_head else (-1 - cluster, head)
    return found


def side_at(frame: Item, axis: int, on_grid: float) -> int:
    """Return the coordinate of the side of a frame that is at a place along an axis of the fine grid."""
    return frame.low[axis] if on_grid == frame.grid[axis][0] else frame.high[axis]


def cut_line(shape: Shape, number: int) -> list[GridPoint]:
    """Return the corners of an edge, without what lies within a frame at which it ends."""
    planar, line = framing(shape), list(shape.lines[number])
    if planar is None:
        return line
    frames = {dart >> 1: cluster for place, cluster in enumerate(planar.nesting.framed) for side in planar.sides_of(place)
              for dart in planar.chains[side]}
    for is_head in (False, True):
        cluster = planar.nesting.at_frames.get((number, is_head))
        if cluster is None:
            continue
        met = next(planar.tail[dart] for dart in planar.chains[number][1:]
                   if any(frames.get(other >> 1) == cluster for other in planar.rotation[planar.tail[dart]]))
        line = cut_at(line if is_head else line[::-1], shape.points[met])
        line = line if is_head else line[::-1]
    return line


def cut_at(line: list[GridPoint], at: GridPoint) -> list[GridPoint]:
    """Return a line up to a point on it."""
    for place, ((x, y), (u, v)) in enumerate(pairwise(line), 1):
        if min(x, u) <= at[0] <= max(x, u) and min(y, v) <= at[1] <= max(y, v):
            return [*line[:place], at]
    raise ValueError(f"{at} is not on {line}")
