"""Gives a shape on the grid its coordinates in pixels, with room for names and no more.

First x is settled, for items whose rows on the grid overlap; then y, for items that overlap in x; then both again, from the
places so far. Each time all coordinates take their least values by longest paths, then their greatest, then the middle, and
then what shortens lines.
"""
from __future__ import annotations

import math

from planarbend.drawing.constraints import GAP, apart, lengths_of, reach_of
from planarbend.drawing.extents import BOX, LABEL
from planarbend.drawing.field_items import MIDDLE, centre_ends, part_of, passed
from planarbend.drawing.frame_items import place_frame_labels
from planarbend.drawing.items import Sheet
from planarbend.drawing.solver import Solver, in_order
from planarbend.graph import Kind

PASSES = 2
SAME = 1e-3  # pixels, by which distances may differ
NARROW = 4.0  # pixels, between a label at an end of an edge and others, if it cannot be nearer to this end otherwise
MOST_HELD = 3  # times that lines are made longer for labels at their ends
CLOSE = 20.0  # pixels, from an end of a line to a label that need not be nearer to it than to the other end
BORDER = 6.0  # pixels, from a line over a field to its borders


def spread(sheet: Sheet) -> None:
    """Settle all coordinates."""
    for step in range(PASSES):
        settle_both(sheet, step)
    for _ in range(MOST_HELD + MOST_HELD * bool(sheet.port_ends)):
        if not hold_halves(sheet) and not hold_texts(sheet) and not hold_labels(sheet):
            return
        settle_both(sheet, PASSES - 1)


def settle_both(sheet: Sheet, step: int) -> None:
    """Settle the coordinates along both axes, and move labels to ends of edges."""
    for axis in (0, 1):
        settle(sheet, axis, step)
    for key in sheet.end_labels:
        if not return_label(sheet, key, math.inf):
            return_label(sheet, key, NARROW)


def way_of(sheet: Sheet, key: tuple[int, bool]) -> tuple[int, int, int]:
    """Return the axis along the piece of a label at an end, and the coordinates of the near end and of the far end."""
    piece, is_at_last = sheet.piece_at(*key)
    axis = 1 - piece.across
    return axis, *((piece.high[axis], piece.low[axis]) if is_at_last else (piece.low[axis], piece.high[axis]))


def return_label(sheet: Sheet, key: tuple[int, bool], most: float) -> bool:
    """Move a label at an end of an edge towards this end, past other items, to the nearest place that is free; gaps are at most
    `most` pixels wide. Return whether it is near the end."""
    label, (piece, is_at_last), (axis, near, _) = sheet.end_labels[key], sheet.piece_at(*key), way_of(sheet, key)
    value, number = sheet.axes[axis].value, label.low[axis]
    half, sign, held = label.after[axis], -1 if is_at_last else 1, value[number]
    others = [(min(GAP[item.kind][LABEL], most) - SAME, sheet.extent(item)) for item in sheet.items
              if item is not label and item is not piece]
    low, high = sheet.along(label, 1 - axis)
    beside = [(box[axis] - gap - half, box[2 + axis] + gap + half) for gap, box in others
              if low - gap < box[3 - axis] and box[1 - axis] < high + gap]
    places = [value[near] + sign * (GAP[BOX][LABEL] + half), *(pair[sign > 0] + sign * SAME for pair in beside)]
    for place in sorted(places, key=lambda place: sign * place):
        if sign * (place - places[0]) >= 0 and not any(begin < place < end for begin, end in beside):
            value[number] = place if sign * place < sign * held else held
            break
    return is_near(sheet, key)


def is_near(sheet: Sheet, key: tuple[int, bool]) -> bool:
    """Return whether a label at an end of an edge is close to this end, or nearer to it than to the far end."""
    label, (axis, near, far) = sheet.end_labels[key], way_of(sheet, key)
    value = sheet.axes[axis].value
    distance = abs(value[label.low[axis]] - value[near])
    return distance - label.after[axis] < CLOSE or 2 * distance < abs(value[far] - value[near])


def hold_labels(sheet: Sheet) -> bool:
    """Demand that each label that is not near the end where it should be gets farther from the far end than it is from the
    near one. Return whether there are any."""
    found = [key for key in sheet.end_labels if not is_near(sheet, key)]
    for key in found:
        axis, near, far = way_of(sheet, key)
        value, number = sheet.axes[axis].value, sheet.end_labels[key].low[axis]
        low, high = sorted((number, far), key=value.__getitem__)
        sheet.within[axis].append((low, high, abs(value[number] - value[near]) + 1))
    return bool(found)


def hold_halves(sheet: Sheet) -> bool:
    """Demand that ends at corners lie in the halves of their fields beside these. Return whether some did not."""
    found = False
    for end in sheet.port_ends:
        value, is_low = sheet.axes[end.axis].value, end.share < MIDDLE
        low, coordinate, high = map(sheet.axes[end.axis].same.find, end.places)
        middle = (value[low] + value[high]) / 2
        if end.is_held and is_low and value[coordinate] > middle:
            sheet.within[end.axis].append((coordinate, high, value[coordinate] - value[low] + 1))
        elif end.is_held and not is_low and value[coordinate] < middle:
            sheet.within[end.axis].append((low, coordinate, value[high] - value[coordinate] + 1))
        else:
            continue
        found = True
    return found


def hold_texts(sheet: Sheet) -> bool:
    """Demand that lines over fields leave room for the texts there, and do not run along borders. Return whether some did not."""
    found = False
    for _, _, axis, places, room in passed(sheet):
        value, (first, *lines, last) = sheet.axes[axis].value, places
        wanted = [(*part_of(value, places, room), room), *((first, line, BORDER) for line in lines),
                  *((line, last, BORDER) for line in lines)]
        if any(value[high] - value[low] < distance - SAME for low, high, distance in wanted):
            sheet.within[axis].extend(wanted)
            found = True
    return found


def settle(sheet: Sheet, axis: int, step: int) -> None:
    """Settle the coordinates along one axis: at step 0 from the order on the grid, at the last step with least lengths."""
    constraints = list(sheet.within[axis]) + apart(sheet, axis, step)
    along = sheet.axes[axis]
    order = sorted(range(len(along.value)), key=lambda number: (along.value[number], along.rank[number]))
    if sheet.fields:
        order = in_order(order, constraints)
    solver = Solver(len(order), order, constraints)
    if step == PASSES - 1:
        solver.shorten(lengths_of(sheet, axis), reach_of(sheet, axis))
        centre(sheet, axis, solver)
    else:
        solver.settle()
        pull(sheet, axis, solver)
    along.value = [round(value, 4) for value in solver.value]


def centre(sheet: Sheet, axis: int, solver: Solver) -> None:
    """Move boxes to the middle of their lines, and straight lines to the middle of their boxes, as far as nothing else moves."""
    hosts: dict[int, list[int]] = {}
    for number, lines in sheet.at_box[axis].items():
        for line in lines:
            hosts.setdefault(line, []).append(number)
    bent = {side for pieces in sheet.pieces for piece in pieces if piece.owns[1 - axis]
            for side in (piece.low[axis], piece.high[axis])}
    at_nets = {line for number, lines in sheet.at_box[axis].items() for line in lines
               if len(lines) == 2 and sheet.graph.vertices[number].kind is Kind.NET}
    for _ in range(3):
        before = solver.value[:]
        for number, box in enumerate(sheet.boxes):
            lines = sheet.at_box[axis].get(number, [])
            if sheet.graph.vertices[number].kind is Kind.NET and len(lines) == 2 and box.low[axis] != box.high[axis]:
                solver.move_to(lines[0], solver.value[lines[1]])
                solver.move_to(lines[1], solver.value[lines[0]])
        for line, numbers in hosts.items():
            if line not in bent and line not in at_nets:
                wanted = [(solver.value[sheet.boxes[number].low[axis]] + solver.value[sheet.boxes[number].high[axis]]) / 2
                          for number in numbers]
                solver.move_to(line, sum(wanted) / len(wanted))
        centre_ends(sheet, axis, solver)
        for number, lines in sheet.at_box[axis].items():
            if number in sheet.held:
                continue
            box = sheet.boxes[number]
            solver.fit(box.low[axis], box.high[axis], lines, sheet.sizes[number][axis], sheet.inset(number, axis))
        place_labels(sheet, axis, solver)
        if solver.value == before:
            return


def place_labels(sheet: Sheet, axis: int, solver: Solver) -> None:
    """Move labels at ends of edges towards these ends, and others to the middle of their lines."""
    for key, label in sheet.end_labels.items():
        piece, is_at_last = sheet.piece_at(*key)
        if piece.owns[1 - axis]:
            solver.move_to(label.low[axis], solver.value[piece.high[axis] if is_at_last else piece.low[axis]])
    for number, label in sheet.labels.items():
        for piece in sheet.pieces[number] if number not in sheet.corners else ():
            if piece.owns[1 - axis] and piece.low[1 - axis] == label.low[1 - axis]:
                solver.move_to(label.low[axis], (solver.value[piece.low[axis]] + solver.value[piece.high[axis]]) / 2)
    place_frame_labels(sheet, axis, solver)


def pull(sheet: Sheet, axis: int, solver: Solver) -> None:
    """Move coordinates to make lines shorter, and boxes no larger than necessary."""
    other = 1 - axis
    ends: dict[int, list[int]] = {}
    for pieces in sheet.pieces:
        for piece in pieces:
            if piece.owns[other]:
                ends.setdefault(piece.low[axis], []).append(piece.high[axis])
                ends.setdefault(piece.high[axis], []).append(piece.low[axis])
    sides = {side for box in sheet.boxes for side in (box.low[axis], box.high[axis]) if box.low[axis] != box.high[axis]}
    movable = [number for number in ends if number not in sides]
    fits = [(box.low[axis], box.high[axis], sheet.at_box[axis].get(number, []), sheet.sizes[number][axis],
             sheet.inset(number, axis)) for number, box in enumerate(sheet.boxes)
            if box.low[axis] != box.high[axis] and number not in sheet.held]
    for _ in range(6):
        before = solver.value[:]
        for fit in fits:
            solver.fit(*fit)
        for number in movable:
            solver.move(number, ends[number])
        place_labels(sheet, axis, solver)
        if solver.value == before:
            return
