"""The outlines of nodes: the room that a label needs, the border at which lines end, and its SVG.

An outline lies within the box that layout reserves. A line arrives at a side of the box, at a right angle; it is drawn on in
its direction until it meets the border of the outline.
"""
from __future__ import annotations

import itertools
import math
from collections.abc import Sequence

from planarbend.style import Outline

Point = tuple[float, float]
Box = tuple[float, float, float, float]  # left, top, right, bottom

INSET = 6.0  # pixels from a corner of a box to a line at its side
DOT_INSET = 3.0  # the same of a point
DOT_SIZE = 7.0  # pixels, of a point
CAP = 4.0  # pixels, half the height of the top of a cylinder
FOLD = 8.0  # pixels, of the corner of a note
TAB = (22.0, 5.0)  # pixels, of a folder
LUG = (12.0, 6.0)  # pixels, of the two small boxes of a component, which lie half within the large one
RING = 4.0  # pixels, between the two circles of a double circle
SLANT = 0.4  # of a hexagon, in heights
CUT = 0.29  # of the corners of an octagon, in shorter sides
WIDER = 1.72  # a diamond, than its label
STEPS = 24  # pieces of a quarter of an ellipse
BENDS = 6  # pieces of a rounded corner
ROUND = 8  # pixels, the radius of rounded corners
NEAR = 1e-6
APART = 2.0  # pixels, for lines that meet the outline beside the same corner
JOINED = 0.1  # pixels: corners that are nearer are one

ELLIPSES = (Outline.ELLIPSE, Outline.CIRCLE, Outline.DOUBLE_CIRCLE, Outline.POINT)
WHOLE = (None, Outline.BOX, Outline.SQUARE, Outline.NONE, Outline.RECORD, Outline.ROUND_RECORD)  # the box is the outline


def room(outline: Outline | None, text: Point, box: Point) -> Point:
    """Return the least size of the box of an outline; `text` is that of its label, `box` that of a plain box around it."""
    (wide, high), (width, height) = text, box
    if outline in (Outline.SQUARE, Outline.CIRCLE, Outline.DOUBLE_CIRCLE):
        side = max(box) if outline is Outline.SQUARE else max(math.hypot(wide, high) + 4, *box)
        side += 2 * RING if outline is Outline.DOUBLE_CIRCLE else 0
        return side, side
    if outline is Outline.ELLIPSE:
        return max(width, wide * math.sqrt(2) + 4), max(height, high * math.sqrt(2) + 4)
    if outline is Outline.DIAMOND:
        height = high / (1 - 1 / WIDER) + 4
        return max(WIDER * wide + 6, 0.9 * height), height
    if outline is Outline.POINT:
        return DOT_SIZE, DOT_SIZE
    more: dict[Outline | None, Point] = {
        Outline.HEXAGON: (2 * SLANT * high, 0.0), Outline.OCTAGON: (8.0, 4.0), Outline.CYLINDER: (0.0, 4 * CAP),
        Outline.NOTE: (FOLD, 0.0), Outline.FOLDER: (0.0, 2 * TAB[1]), Outline.COMPONENT: (2 * LUG[0], 4.0)}
    return width + more.get(outline, (0.0, 0.0))[0], height + more.get(outline, (0.0, 0.0))[1]


def corner_of(outline: Outline | None, least: Point) -> Point:
    """Return how far an outline leaves out each corner of its box, across and down; `least` is the least size of the box.

    If the box is larger, the corners keep this size, and straight lines join them."""
    width, height = least
    if outline in ELLIPSES or outline is Outline.DIAMOND:
        return width / 2, height / 2
    if outline is Outline.HEXAGON:
        return min(SLANT * height, width / 3), height / 2
    if outline is Outline.OCTAGON:
        return CUT * min(least), CUT * min(least)
    return 0.0, 0.0


def inset_of(outline: Outline | None, least: Point) -> Point:
    """Return the least distances from a corner of the box to lines at its sides, so that no two meet before they reach the
    outline."""
    share = 1 - math.sqrt(0.5) if outline in ELLIPSES else 0.5
    plain = DOT_INSET if outline is Outline.POINT else INSET
    across, down = (max(plain, share * cut + APART * (cut > 0)) for cut in corner_of(outline, least))
    return across, down


def border(outline: Outline | None, box: Box, least: Point, corner: float = 0) -> list[Point]:
    """Return the corners of an outline in its box, clockwise; those of an ellipse or a cylinder approximate it. `corner` is
    the radius of the corners of a diamond, a hexagon or an octagon."""
    left, top, right, bottom = box
    if outline is Outline.CYLINDER:
        upper, lower = (left, top, right, top + 2 * CAP), (left, bottom - 2 * CAP, right, bottom)
        return arc(upper, 2, 4) + arc(lower, 0, 2)
    across, down = corner_of(outline, least)
    if not across:
        return straight_border(outline, box)
    if outline in ELLIPSES:
        wide, high = 2 * across, 2 * down
        return [*arc((right - wide, bottom - high, right, bottom), 0, 1),
                *arc((left, bottom - high, left + wide, bottom), 1, 2),
                *arc((left, top, left + wide, top + high), 2, 3), *arc((right - wide, top, right, top + high), 3, 4)]
    found = [(left + across, top), (right - across, top), (right, top + down), (right, bottom - down),
             (right - across, bottom), (left + across, bottom), (left, bottom - down), (left, top + down)]
    found = [point for place, point in enumerate(found) if math.dist(point, found[place - 1]) > JOINED]
    return softened(found, corner) if corner else found


def softened(corners: list[Point], size: float) -> list[Point]:
    """Return the corners of a polygon, each replaced by a curve that begins and ends at this distance, or half-way."""
    found = []
    for place, (x, y) in enumerate(corners):
        ends = []
        for u, v in (corners[place - 1], corners[(place + 1) % len(corners)]):
            share = min(0.5, size / math.dist((x, y), (u, v)))
            ends.append((x + share * (u - x), y + share * (v - y)))
        (a, b), (c, d) = ends
        for step in range(BENDS + 1):
            t = step / BENDS
            first, middle, last = (1 - t) ** 2, 2 * t * (1 - t), t * t
            found.append((first * a + middle * x + last * c, first * b + middle * y + last * d))
    return found


def straight_border(outline: Outline | None, box: Box) -> list[Point]:
    """Return the corners of an outline of horizontal and vertical lines, or of a note."""
    left, top, right, bottom = box
    if outline is Outline.NOTE:
        return [(left, top), (right - FOLD, top), (right, top + FOLD), (right, bottom), (left, bottom)]
    if outline is Outline.FOLDER:
        tab = max((left + right) / 2, right - TAB[0])
        return [(left, top + TAB[1]), (tab, top + TAB[1]), (tab, top), (right, top), (right, bottom), (left, bottom)]
    if outline is Outline.COMPONENT:
        body, found = left + LUG[0] / 2, [(left + LUG[0] / 2, top), (right, top), (right, bottom), (left + LUG[0] / 2, bottom)]
        for _, upper, _, lower in reversed(lugs(box)):
            found += [(body, lower), (left, lower), (left, upper), (body, upper)]
        return found
    return [(left, top), (right, top), (right, bottom), (left, bottom)]


def lugs(box: Box) -> list[Box]:
    """Return the two small boxes of a component, the upper one first."""
    left, top, _, bottom = box
    places = [top + (bottom - top) * share - LUG[1] / 2 for share in (0.25, 0.75)]
    return [(left, place, left + LUG[0], place + LUG[1]) for place in places]


def arc(box: Box, first: int, last: int) -> list[Point]:
    """Return points on the ellipse in a box, from one quarter to another: 0 is at the right, 1 at the bottom, and so on."""
    left, top, right, bottom = box
    turns = (math.pi / 2 * (first + step / STEPS) for step in range((last - first) * STEPS + 1))
    return [((left + right + (right - left) * math.cos(turn)) / 2, (top + bottom + (bottom - top) * math.sin(turn)) / 2)
            for turn in turns]


def drawn_on(corners: Sequence[Point], end: Point, before: Point) -> Point:
    """Return where a line from `before`, which ends at a side of a box, meets the border with these corners."""
    across = 0 if before[0] == end[0] else 1  # the axis along which the line does not run
    along = 1 - across
    sign = 1 if end[along] > before[along] else -1
    found = []
    for one, other in itertools.pairwise([*corners, corners[0]]):
        (low, near), (high, far) = sorted((point[across], point[along]) for point in (one, other))
        if low - NEAR <= end[across] <= high + NEAR:
            share = (end[across] - low) / (high - low) if high - low > NEAR else 0.0
            found += [near + share * (far - near)] + ([far] if high - low <= NEAR else [])
    place = min(found, key=lambda value: sign * value, default=end[along])
    return (end[0], round(place, 3)) if across == 0 else (round(place, 3), end[1])


def elements(outline: Outline | None, box: Box, least: Point, corner: float, words: str) -> list[str]:
    """Return the SVG of an outline in a box with this least size; `corner` is the radius of its corners, `words` are the
    attributes of all."""
    left, top, right, bottom = box
    if outline in ELLIPSES:
        radii = corner_of(outline, least)
        found = [ring(box, radii, words)]
        if outline is Outline.DOUBLE_CIRCLE:
            inner = left + RING, top + RING, right - RING, bottom - RING
            found.append(ring(inner, (radii[0] - RING, radii[1] - RING), words))
        return found
    if outline in WHOLE:
        return [rectangle(box, corner, words)]
    if outline is Outline.COMPONENT:
        return [rectangle((left + LUG[0] / 2, top, right, bottom), 0, words), *(rectangle(lug, 0, words) for lug in lugs(box))]
    if outline is Outline.CYLINDER:
        wide, arc = (right - left) / 2, f"A{(right - left) / 2:.1f} {CAP:.1f} 0 0"
        return [f'<path d="M{left:.1f} {top + CAP:.1f}{arc} 1 {right:.1f} {top + CAP:.1f}V{bottom - CAP:.1f}'
                f'{arc} 1 {left:.1f} {bottom - CAP:.1f}z"{words}/>',
                f'<path d="M{left:.1f} {top + CAP:.1f}{arc} 0 {left + 2 * wide:.1f} {top + CAP:.1f}"{words}/>']
    points = " ".join(f"{x:.1f},{y:.1f}" for x, y in border(outline, box, least, corner))
    found = [f'<polygon points="{points}"{words}/>']
    if outline is Outline.NOTE:
        found.append(f'<path d="M{right - FOLD:.1f} {top:.1f}V{top + FOLD:.1f}H{right:.1f}"{words}/>')
    if outline is Outline.FOLDER:
        tab = max((left + right) / 2, right - TAB[0])
        found.append(f'<path d="M{tab:.1f} {top + TAB[1]:.1f}H{right:.1f}"{words}/>')
    return found


def rectangle(box: Box, corner: float, words: str) -> str:
    """Return the SVG of a box."""
    left, top, right, bottom = box
    return (f'<rect x="{left:.1f}" y="{top:.1f}" width="{right - left:.1f}" height="{bottom - top:.1f}"'
            f' rx="{corner:g}"{words}/>')


def ring(box: Box, radii: Point, words: str) -> str:
    """Return the SVG of a circle or an ellipse with these radii; in a larger box, of a box with such corners."""
    left, top, right, bottom = box
    wide, high = (right - left) / 2, (bottom - top) / 2
    middle = f'cx="{left + wide:.1f}" cy="{top + high:.1f}"'
    if wide > radii[0] + 0.1 or high > radii[1] + 0.1:
        return (f'<rect x="{left:.1f}" y="{top:.1f}" width="{2 * wide:.1f}" height="{2 * high:.1f}" rx="{radii[0]:.1f}"'
                f' ry="{radii[1]:.1f}"{words}/>')
    if abs(wide - high) < 0.1:
        return f'<circle {middle} r="{wide:.1f}"{words}/>'
    return f'<ellipse {middle} rx="{wide:.1f}" ry="{high:.1f}"{words}/>'
