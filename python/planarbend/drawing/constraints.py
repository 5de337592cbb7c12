"""The constraints and wishes for the coordinates of a sheet along one axis: what is apart, and what should be short.

Two items are apart by a gap along one axis or the other.
"""
from __future__ import annotations

import bisect

from planarbend.drawing.extents import BOX, LABEL, PIECE
from planarbend.drawing.frame_items import frame_lengths
from planarbend.drawing.items import Sheet

BOX_WEIGHT = 4.0  # of the size of a box, to that of a line's length
LABEL_WEIGHT = 0.25  # of the distance of a label from an end of a line
GAPS = {(BOX, BOX): 20.0, (BOX, LABEL): 10.0, (BOX, PIECE): 12.0, (LABEL, LABEL): 6.0, (LABEL, PIECE): 4.0,
        (PIECE, PIECE): 10.0}  # pixels
GAP = [[GAPS[min(one, other), max(one, other)] for other in range(3)] for one in range(3)]


def apart(sheet: Sheet, axis: int, step: int) -> list[tuple[int, int, float]]:
    """Return the distances along an axis between items that overlap, or nearly do, along the other one."""
    other = 1 - axis
    by_grid = step == 0
    across_grid = by_grid and axis == 0
    rows = [(*sheet.along(item, axis, by_grid), *sheet.along(item, other, across_grid), item)
            for item in sheet.items if item.owns[axis]]
    rows.sort(key=lambda row: (row[0], row[1]))
    begins = [row[0] for row in rows]
    first_after = bisect.bisect_right if by_grid else bisect.bisect_left  # lines that cross the axis at one place: none
    found = []
    for place, (_, end, low, high, item) in enumerate(rows):
        gaps, coordinate, after = GAP[item.kind], item.high[axis], item.after[axis]
        margins = (1e-6,) * 3 if across_grid else [gap - 1e-6 for gap in gaps]
        hosts = item.host
        for begin, _, start, stop, later in rows[first_after(begins, end, place + 1):]:  # but for a line at its own box
            kind = later.kind
            if start - high > margins[kind] or low - stop > margins[kind]:
                continue
            if hosts and later.host and not set(hosts).isdisjoint(later.host) and (item.kind != PIECE or later.kind != PIECE
                                                                                or begin - end < 1e-6):
                continue
            found.append((coordinate, later.low[axis], gaps[kind] + after - later.before[axis]))
    return found


def lengths_of(sheet: Sheet, axis: int) -> list[tuple[int, int, float, float]]:
    """Return what should be short along an axis: pieces of edges, boxes, and the way from an end of an edge to its label."""
    found = frame_lengths(sheet, axis)
    for pieces in sheet.pieces:
        found += [(piece.low[axis], piece.high[axis], 0.0, 1.0) for piece in pieces if piece.owns[1 - axis]]
    for number, box in enumerate(sheet.boxes):
        if box.low[axis] != box.high[axis]:
            found.append((box.low[axis], box.high[axis], sheet.sizes[number][axis], BOX_WEIGHT))
    for key, label in sheet.end_labels.items():
        piece, is_at_last = sheet.piece_at(*key)
        if piece.owns[1 - axis]:
            place = label.low[axis]
            ends = (place, piece.high[axis]) if is_at_last else (piece.low[axis], place)
            found.append((*ends, 0.0, LABEL_WEIGHT))
    return found


def reach_of(sheet: Sheet, axis: int) -> list[tuple[int, float, int, float]]:
    """Return how far items reach beyond their coordinates along an axis."""
    return [(item.low[axis], -item.before[axis], item.high[axis], item.after[axis]) for item in sheet.items]
