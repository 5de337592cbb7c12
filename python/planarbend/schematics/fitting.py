"""Boxes that are smaller than the rectangles of their wires: where they are in these, and which wires reach them by jogs."""
from __future__ import annotations

from collections.abc import Iterator, Mapping, Sequence
from dataclasses import dataclass

from planarbend.schematics.figures import COLUMN, Figure
from planarbend.schematics.shapes import APART

SAME = 1e-6
FULL, LARGE = 1.56, 2.9  # times what a box needs: up to the first it is not stretched, and above the second it is never left
STRETCHED = 1.5  # what a stretched box costs, in jogs


@dataclass(frozen=True, slots=True)
class Fit:
    """A box along an axis.

    Attributes
    ----------
    low, high : float
        Its ends.
    levels : dict
        Where its pins are, by their places.
    columns : dict
        For each side that its wires reach by jogs, the columns of these, by the places of their pins; 0 for wires without.
    price : float
    """

    low: float
    high: float
    levels: dict[int, float]
    columns: dict[int, dict[int, int]]
    price: float

    def room(self, one: Figure, side: int) -> int:
        """Return the room for jogs on a side."""
        columns = max(self.columns.get(side, {0: 0}).values(), default=0)
        return int(COLUMN * columns + one.outside(side)) if columns else 0


def columns_of(levels: Sequence[float], pins: Sequence[float]) -> list[int]:
    """Return for each wire on a side the column of its jog, counted from the part; 0 if it is level with its pin.

    Both lists ascend. No two wires meet.
    """
    found = [0] * len(pins)
    for sign, order in ((1, range(len(pins))), (-1, range(len(pins) - 1, -1, -1))):
        column, reach = 0, float("-inf")
        for place in order:
            level, pin = sign * levels[place], sign * pins[place]
            if pin > level + SAME:
                column = column + 1 if level < reach + COLUMN - SAME else 1
                found[place], reach = column, pin
            else:
                column, reach = 0, float("-inf")
    return found


def best_fit(one: Figure, axis: int, ends: tuple[float, float], wires: Mapping[int, float],
             rooms: Mapping[int, int] | None = None) -> Fit | None:
    """Return how a box is put into its rectangle along an axis; `None` if it fills it.

    Parameters
    ----------
    one : Figure
    axis : int
    ends : (float, float)
        Of the rectangle, without room for jogs.
    wires : mapping
        Where the wires of pins are along the axis, by the places of the pins.
    rooms : mapping, optional
        The room that there is for jogs, by side.
    """
    assert one.needs is not None
    need = (one.needs.width, one.needs.height)[axis]
    whole = ends[1] - ends[0]
    if whole <= FULL * need:
        return None
    best, least = None, STRETCHED if whole <= LARGE * need else float("inf")
    for factor, price in ((FULL, 0.0), (LARGE, STRETCHED)):
        size = int(factor * need)
        for low in starts(one, axis, size, ends, wires) if size < whole else ():
            fit = fitted(one, axis, (low, low + size), wires, price)
            if fit.price < least - SAME and (rooms is None or all(fit.room(one, side) <= rooms.get(side, 0)
                                                                 for side in (1 - axis, 3 - axis))):
                best, least = fit, fit.price
    return best


def windows(one: Figure, axis: int) -> Iterator[tuple[int, int, float, float]]:
    """Yield for each pin on the two sides along an axis: its place, its side, and the least distances from both ends."""
    assert one.needs is not None
    before, after = (one.needs.left, one.needs.right) if axis == 0 else (one.needs.top, one.needs.bottom)
    for side in (1 - axis, 3 - axis):
        places = one.on_side(side)
        for number, place in enumerate(places):
            yield place, side, before + APART * number, after + APART * (len(places) - 1 - number)


def starts(one: Figure, axis: int, size: float, ends: tuple[float, float], wires: Mapping[int, float]) -> list[float]:
    """Return where a box of some size may begin: where a wire just becomes level with its pin."""
    found = {ends[0], ends[1] - size, (ends[0] + ends[1] - size) // 2}
    for place, _, before, after in windows(one, axis):
        if place in wires:
            found |= {wires[place] - before, wires[place] + after - size}
    return sorted(level for level in found if ends[0] - SAME <= level <= ends[1] - size + SAME)


def fitted(one: Figure, axis: int, ends: tuple[float, float], wires: Mapping[int, float], price: float) -> Fit:
    """Return a box between two ends, with as many pins as possible at their wires."""
    levels: dict[int, float] = {}
    columns: dict[int, dict[int, int]] = {}
    last, before_side = 0.0, -1
    for place, side, before, after in windows(one, axis):
        least, most = ends[0] + before, ends[1] - after
        if place in wires:
            level = min(max(wires[place], least), most)
        else:
            level = max(least, last + APART) if side == before_side else least
        levels[place], last, before_side = level, level, side
    for side in (1 - axis, 3 - axis):
        places = [place for place in one.on_side(side) if place in wires]
        found = columns_of([wires[place] for place in places], [levels[place] for place in places])
        columns[side] = dict(zip(places, found))
    jogs = sum(bool(column) for found in columns.values() for column in found.values())
    return Fit(*ends, levels, columns, price + jogs)
