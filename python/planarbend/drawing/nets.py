"""How a net of a circuit is drawn within its box, and where its name is.

A trunk runs along the longer side of the box, joined to the net's lines. The name is beside these, if there is room.
"""
from __future__ import annotations

import itertools
from collections import Counter
from collections.abc import Callable, Iterator
from typing import TYPE_CHECKING

from planarbend.drawing.texts import width_of
from planarbend.graph import Kind

FONT, HEIGHT = 10, 12  # pixels
AWAY = 3.0  # pixels, from the line to which a name belongs
ROOM = 2.0  # pixels, from everything else
STEP = 12.0  # pixels, between the places that are tried along a line
NARROW = 12.0  # pixels: in a lower box the trunk is straight with one of its ends

if TYPE_CHECKING:
    from planarbend.drawing.drawn import Box, Drawing, Point

    Piece = tuple[Point, Point]
    End = tuple[Point, bool]  # where an edge arrives, and whether it is upright there


def ends_of(drawing: Drawing) -> dict[int, list[End]]:
    """Return where edges arrive at each net."""
    found: dict[int, list[End]] = {number: [] for number, vertex in enumerate(drawing.graph.vertices)
                                   if vertex.kind is Kind.NET}
    for edge, line in zip(drawing.graph.edges, drawing.lines, strict=True):
        if edge.tail in found:
            found[edge.tail].append((line[0], line[0][0] == line[1][0]))
        if edge.head in found:
            found[edge.head].append((line[-1], line[-1][0] == line[-2][0]))
    return found


def pieces_of(box: Box, ends: list[End]) -> list[Piece]:
    """Return the straight pieces that join the ends of a net's lines within its box, in order."""
    left, top, right, bottom = box
    if bottom - top > right - left:
        turned = pieces_of((top, left, bottom, right), [((y, x), not is_upright) for (x, y), is_upright in ends])
        return sorted(((b, a), (d, c)) for (a, b), (c, d) in turned)
    upright = [point for point, is_upright in ends if is_upright]
    sideways = [point for point, is_upright in ends if not is_upright]
    at_side = [y for _, y in sideways]
    trunk = at_side[0] if len(set(at_side)) == 1 or at_side and bottom - top < NARROW else (top + bottom) / 2
    pieces = {((x, min(y, trunk)), (x, max(y, trunk))) for x, y in upright if y != trunk}
    for side in {x for x, _ in sideways}:
        at = sorted({trunk, *(y for x, y in sideways if x == side)})
        pieces |= {((side, one), (side, other)) for one, other in itertools.pairwise(at)}
    across = sorted({x for (x, _), _ in ends})
    pieces |= {((one, trunk), (other, trunk)) for one, other in itertools.pairwise(across)}
    return sorted(pieces)


def dots_of(pieces: list[Piece], ends: list[End]) -> list[Point]:
    """Return the points at which three or more lines of a net meet."""
    meet: Counter[Point] = Counter(point for piece in pieces for point in piece)
    meet.update(point for point, _ in ends)
    return sorted(point for point, count in meet.items() if count > 2)


def net_labels(drawing: Drawing) -> dict[int, Box]:
    """Return a box for the name of each net that has one, if there is room for it beside the lines of the net."""
    ends = ends_of(drawing)
    nets = [number for number in ends if drawing.graph.vertices[number].label]
    taken = [*(box for number, box in enumerate(drawing.boxes) if number not in ends), *drawing.label_boxes.values()]
    lines: dict[int, list[Box]] = {}
    for net in ends:
        lines[net] = sorted(((*one, *other) for one, other in pieces_of(drawing.boxes[net], ends[net])), key=longest_first)
        taken += lines[net]
    for edge, line in zip(drawing.graph.edges, drawing.lines, strict=True):
        pieces = [(min(x, u), min(y, v), max(x, u), max(y, v)) for (x, y), (u, v) in itertools.pairwise(line)]
        taken += pieces
        for end in {edge.tail, edge.head} & lines.keys():
            lines[end] += sorted(pieces, key=longest_first)
    found: dict[int, Box] = {}
    for net in nets:
        width = width_of(drawing.graph.vertices[net].label, FONT)
        for place in places(lines[net], width):
            inside = place[0] >= 0 and place[1] >= 0 and place[2] <= drawing.size[0] and place[3] <= drawing.size[1]
            others = (box for other, box in enumerate(drawing.boxes) if other in ends and other != net)
            if inside and not any(map(near(place), itertools.chain(taken, others))):
                left, top, right, bottom = (round(value, 3) for value in place)
                found[net] = left, top, right, bottom
                taken.append(place)
                break
    return found


def longest_first(piece: Box) -> float:
    """Return a sort key for straight pieces."""
    return piece[0] + piece[1] - piece[2] - piece[3]


def places(lines: list[Box], width: float) -> Iterator[Box]:
    """Yield the places beside lines, the nearest to each line's middle first: above and below, or right and left of it."""
    for left, top, right, bottom in lines:
        if right - left >= bottom - top:
            for x in steps(left, right - width):
                yield x, top - AWAY - HEIGHT, x + width, top - AWAY
                yield x, bottom + AWAY, x + width, bottom + AWAY + HEIGHT
        else:
            for y in steps(top, bottom - HEIGHT):
                yield right + AWAY, y, right + AWAY + width, y + HEIGHT
                yield left - AWAY - width, y, left - AWAY, y + HEIGHT


def steps(first: float, last: float) -> list[float]:
    """Return places from the first to the last, those in the middle first."""
    middle = (first + last) / 2
    count = max(0, int((last - first) / 2 / STEP))
    return [middle, *(middle + sign * step * STEP for step in range(1, count + 1) for sign in (1, -1))]


def near(place: Box) -> Callable[[Box], bool]:
    """Return a test whether a box is near this place."""
    left, top, right, bottom = place[0] - ROOM, place[1] - ROOM, place[2] + ROOM, place[3] + ROOM
    return lambda box: box[0] < right and box[2] > left and box[1] < bottom and box[3] > top
