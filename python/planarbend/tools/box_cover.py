"""Draws, as an SVG picture, how boxes cover the cells of the rectangle around a drawing."""
from __future__ import annotations

import argparse
import itertools
import sys
from collections.abc import Iterator

from planarbend.drawing.texts import svg_text
from planarbend.layout.embedding import Embedding
from planarbend.tools.svg import Lines, Refused, paths_of, read_lines, read_lists, reason_of

TEXT = """\
  F=crates/corpus/data/families.pc
  ./planarbend layout --json $F | python3 examples/cover.py $F 118 --row 3 --point 4,4 > docs/coverage.svg

Reads JSON Lines from standard input, as svg.py does. A rectangle surrounds the drawing at a distance of one unit. Each
face is cut into boxes along x: from each of its corners with three or four right angles, a line runs to the next edge
or line. Numbers count the boxes of one row of cells from west to east, between the northward darts that cross the
row. For one point, the cell to its upper right is marked, and the one dart that sees it. Needs only Python's standard
library.
"""
STATUSES = "exit status: 0; 1 if the picture cannot be drawn (standard error says why); 2 if the command line is wrong"
STEP, MARGIN = 60, 30  # pixels, of a cell and around the whole
LIGHT = ["#f7e1d3", "#d9e8f5", "#e0eed6", "#f5eec4", "#e8def0", "#d5ecea"]
ROW, SEEN, GREY = "#1f4e79", "#b3261e", "#9aa3ad"
STEPS = [(1, 0), (0, 1), (-1, 0), (0, -1)]  # for the directions 0 to 3, counter-clockwise from east

Point = tuple[int, int]
Dart = tuple[Point, Point]


def side(point: Point, way: int) -> frozenset[Point]:
    """Return the grid segment of length 1 from a point in a direction."""
    return frozenset([point, (point[0] + STEPS[way][0], point[1] + STEPS[way][1])])


def way_of(dart: Dart) -> int:
    """Return the direction of a dart, 0 to 3."""
    (x, y), (u, v) = dart
    return STEPS.index(((u > x) - (u < x), (v > y) - (v < y)))


class Cover:
    """The cells of the rectangle around a drawing, and their boxes. Each dart of the drawing is straight."""

    def __init__(self, darts: set[Dart]) -> None:
        """Return the cover of a drawing with these darts."""
        self.darts = darts
        xs, ys = ([point[axis] for dart in darts for point in dart] for axis in (0, 1))
        self.left, self.below, self.right, self.above = min(xs) - 1, min(ys) - 1, max(xs) + 1, max(ys) + 1
        ring = [(self.left, self.below), (self.right, self.below), (self.right, self.above), (self.left, self.above)]
        self.drawn = set(self._units({*darts, *zip(ring, ring[1:] + ring[:1])}))
        self.lines = self.drawn | set(self._cuts())
        self.boxes = self._boxes()

    @staticmethod
    def _units(darts: set[Dart]) -> Iterator[frozenset[Point]]:
        """Yield the segments of length 1 of darts."""
        for tail, head in darts:
            way, point = way_of((tail, head)), tail
            while point != head:
                yield side(point, way)
                point = point[0] + STEPS[way][0], point[1] + STEPS[way][1]

    def _cuts(self) -> Iterator[frozenset[Point]]:
        """Yield the segments from each corner with three or four right angles along x, up to the next edge."""
        for point in {tail for tail, _ in self.darts}:
            ways = [way for way in range(4) if side(point, way) in self.drawn]
            for first, last in zip(ways, ways[1:] + [ways[0] + 4]):
                if last - first < 3:
                    continue
                for way in (way % 4 for way in range(first + 1, last) if way % 2 == 0):
                    at = point
                    while at == point or not any(side(at, upright) in self.drawn for upright in (1, 3)):
                        yield side(at, way)
                        at = at[0] + STEPS[way][0], at[1]

    def _boxes(self) -> dict[Point, int]:
        """Return the number of the box of each cell; a cell is identified by its lower left corner."""
        found: dict[Point, int] = {}
        for cell in itertools.product(range(self.left, self.right), range(self.below, self.above)):
            if cell in found:
                continue
            number, held = len(set(found.values())), [cell]
            found[cell] = number
            for x, y in held:
                for way, border in enumerate((((x + 1, y), 1), ((x, y + 1), 0), ((x, y), 1), ((x, y), 0))):
                    other = x + STEPS[way][0], y + STEPS[way][1]
                    if side(*border) not in self.lines and other not in found:
                        found[other] = number
                        held.append(other)
            across, upright = ({one[axis] for one in held} for axis in (0, 1))
            assert set(held) == set(itertools.product(across, upright)), "a part of a face is not a box"
        return found

    def colours(self) -> dict[int, str]:
        """Return a colour for each box that differs from those of its neighbours."""
        near: dict[int, set[int]] = {box: set() for box in self.boxes.values()}
        for (x, y), box in self.boxes.items():
            for other in ((x + 1, y), (x, y + 1), (x + 1, y + 1), (x - 1, y + 1)):
                if self.boxes.get(other, box) != box:
                    near[box].add(self.boxes[other])
                    near[self.boxes[other]].add(box)
        found: dict[int, str] = {}
        for box in sorted(near):
            taken = {found.get(one) for one in near[box]}
            found[box] = next(colour for colour in LIGHT[box % 3:] + LIGHT if colour not in taken)
        return found

    def sees(self, dart: Dart, point: Point) -> bool:
        """Return whether a dart has the cell to the upper right of a point on its left."""
        (x, y), (u, v), (px, py), way = *dart, point, way_of(dart)
        if (way == 3 and px == u and v <= py < y) or (way == 0 and py == v and x < px < u):
            return True
        if (u, v) != point:
            return False
        back = way + 2  # the next edge on the left is the first one clockwise from the dart
        angle = next(turn for turn in range(1, 5) if side(point, (back - turn) % 4) in self.drawn)
        return (way + 1) % 4 < angle


def picture(cover: Cover, vertices: list[Point], row: int, point: Point) -> str:
    """Return the picture: y grows to the north, and in SVG downwards."""
    def place(x: float, y: float) -> tuple[float, float]:
        """Return the place of a point in pixels."""
        return MARGIN + (x - cover.left) * STEP, MARGIN + (cover.above - y) * STEP

    def line(x: float, y: float, u: float, v: float, rest: str) -> str:
        """Return a line with these attributes."""
        (a, b), (c, d) = place(x, y), place(u, v)
        return f'<path d="M{a:g} {b:g}L{c:g} {d:g}" {rest}/>'

    def cell(x: int, y: int, fill: str) -> str:
        """Return the square of a cell."""
        a, b = place(x, y + 1)
        return f'<rect x="{a:g}" y="{b:g}" width="{STEP}" height="{STEP}" fill="{fill}"/>'

    def circle(x: int, y: int, radius: int, colour: str) -> str:
        """Return a circle around a point."""
        a, b = place(x, y)
        return f'<circle cx="{a:g}" cy="{b:g}" r="{radius}" fill="white" stroke="{colour}"/>'

    def arrow(name: str, colour: str) -> str:
        """Return the attributes of an arrow."""
        return f'stroke="{colour}" stroke-width="6" marker-end="url(#{name})"'

    seen = [dart for dart in cover.darts if cover.sees(dart, point)]
    if len(seen) != 1 or not cover.below <= row < cover.above:
        raise Refused("the point is not on an edge, or the row is outside the rectangle")
    colours = cover.colours()
    columns = range(cover.left, cover.right)
    elements = [f'<defs><marker id="{name}" viewBox="0 0 10 10" refX="9" refY="5" markerWidth="16" markerHeight="16"'
                f' markerUnits="userSpaceOnUse" orient="auto"><path d="M0 0L10 5L0 10z" fill="{fill}"/></marker></defs>'
                for name, fill in (("row", ROW), ("seen", SEEN))]
    elements += [cell(*at, colours[box]) for at, box in cover.boxes.items()]
    elements += [cell(x, row, f'{ROW}" fill-opacity="0.22') for x in columns]
    elements.append(cell(*point, f'{SEEN}" fill-opacity="0.4'))
    for (x, y), (u, v) in sorted((min(unit), max(unit)) for unit in cover.lines):
        drawn = frozenset(((x, y), (u, v))) in cover.drawn
        rest = 'stroke="black" stroke-linecap="square"' if drawn else f'stroke="{GREY}" stroke-dasharray="6 6"'
        elements.append(line(x, y, u, v, rest))
    crossed = [x for x in range(cover.left, cover.right + 1) if side((x, row), 1) in cover.lines]
    elements += [line(x, row + 0.15, x, row + 0.74, arrow("row", ROW)) for x in crossed]
    words = [((x + u) / 2, row + 0.5, number, ROW, 24) for number, (x, u) in enumerate(itertools.pairwise(crossed), 1)]
    ((tail, head),) = seen
    east, north = STEPS[way_of((tail, head))]
    elements.append(line(*tail, head[0] - east * 0.08, head[1] - north * 0.08, arrow("seen", SEEN)))
    elements.append(circle(*point, 6, SEEN))
    for number, at in enumerate(vertices, 1):
        elements.append(circle(*at, 15, "black"))
        words.append((*at, number, "black", 19))
    for across, up, text, fill, size in words:
        a, b = place(across, up)
        elements.append(f'<text x="{a:g}" y="{b:g}" dy=".35em" stroke="none" fill="{fill}" font-size="{size}">{text}</text>')
    wide, high = (2 * MARGIN + size * STEP for size in (cover.right - cover.left, cover.above - cover.below))
    group = '<g font-family="sans-serif" text-anchor="middle" fill="none" stroke-width="3">'
    return svg_text(wide, high, [group, *elements, "</g>"])


def cover_of(path: str, lines: Lines, number: int) -> tuple[Cover, list[Point]]:
    """Return the cells and boxes of a graph's drawing, and the points of its vertices."""
    if number not in lines.graphs:
        raise Refused(f"the JSON Lines have no graph {number}")
    answer = lines.graphs[number]
    if reason_of(answer) is not None:
        raise Refused(f"graph {number}: {reason_of(answer)}")
    paths = paths_of(Embedding.of(read_lists(path, {number})[number]), answer["points"])
    darts = {((x, y), (u, v)) for path in paths for (x, y), (u, v) in itertools.pairwise(path)}
    return Cover(darts), [(x, y) for x, y in answer["points"]["vertices"]]


def point_of(word: str) -> Point:
    """Return the point that an argument names."""
    x, y = map(int, word.split(","))
    return x, y


def main() -> int:
    """Return the exit status of the command."""
    parser = argparse.ArgumentParser(description=__doc__ + "\n\n" + TEXT, epilog=STATUSES,
                                     formatter_class=argparse.RawDescriptionHelpFormatter)
    parser.add_argument("file", metavar="FILE", help="the planar_code file from which the JSON Lines were made")
    parser.add_argument("graph", metavar="GRAPH", type=int, help="the graph to draw, such as 118")
    parser.add_argument("--row", metavar="Y", type=int, required=True,
                        help="the y coordinate of the lower side of the row of cells")
    parser.add_argument("--point", metavar="X,Y", type=point_of, required=True, help="the point whose cell is marked")
    words = parser.parse_args()
    try:
        cover, vertices = cover_of(words.file, read_lines(sys.stdin, [words.graph]), words.graph)
        print(picture(cover, vertices, words.row, words.point), end="")
    except Refused as refused:
        print(f"cover.py: {refused}", file=sys.stderr)
        return 1
    return 0
