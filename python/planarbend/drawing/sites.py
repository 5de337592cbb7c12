"""Where at the border of a vertex with ports edges may end, as far as their order goes.

Each field has a place in a square that is divided evenly. The sides of the square are cut where fields begin and end at which
edges end; each piece of a side is a *site*. With edges at sites that their ends allow, in the order of the sites, all edges can
end at their fields, however large these are drawn.
"""
from __future__ import annotations

from collections.abc import Iterable, Iterator
from dataclasses import dataclass
from fractions import Fraction

from planarbend.ports import End, Field, Side

SIDES = (Side.EAST, Side.NORTH, Side.WEST, Side.SOUTH)  # by direction, counter-clockwise
ENDS = ((Side.WEST, Side.EAST), (Side.NORTH, Side.SOUTH))  # of each axis
Rectangle = tuple[tuple[Fraction, Fraction], tuple[Fraction, Fraction]]  # from left to right, and from top to bottom


@dataclass(frozen=True, slots=True)
class Site:
    """A piece of a side: its direction as a place in `SIDES`, and where it begins and ends along the axis of the side."""

    side: int
    low: Fraction
    high: Fraction

    @property
    def axis(self) -> int:
        """The axis along the side."""
        return 1 - self.side % 2


def rectangles(whole: Field, at: Rectangle = ((Fraction(0), Fraction(1)),) * 2) -> Iterator[Rectangle]:
    """Yield the rectangles of a field, in one that is given, and of all fields within it, in the order of `Field.walk`."""
    yield at
    rows, columns = whole.size
    for one in whole.fields:
        spans = ((one.at.column, one.at.columns, columns), (one.at.row, one.at.rows, rows))
        (left, right), (top, bottom) = (
            (low + (high - low) * Fraction(first, count), low + (high - low) * Fraction(first + more, count))
            for (low, high), (first, more, count) in zip(at, spans))
        yield from rectangles(one, ((left, right), (top, bottom)))


def rim_of(whole: Field, end: End) -> frozenset[Side]:
    """Return the sides at which the field of an end is at the border of the whole."""
    return next(sides for place, (_, sides) in enumerate(whole.walk()) if place == (end.field or 0))


def nearest(whole: Field, end: End) -> frozenset[Side]:
    """Return the sides from which the field of an end is reached over the fewest others."""
    places, passed = list(rectangles(whole)), dict.fromkeys(Side, 0)
    own = places[end.field or 0]
    for (one, _), at in zip(whole.walk(), places):
        for axis, (before, after) in enumerate(ENDS):
            if not one.fields and at[1 - axis][0] < own[1 - axis][1] and own[1 - axis][0] < at[1 - axis][1]:
                passed[before] += at[axis][1] <= own[axis][0]
                passed[after] += at[axis][0] >= own[axis][1]
    return frozenset(side for side in Side if passed[side] == min(passed.values()))


def sides_of(whole: Field, end: End) -> frozenset[Side]:
    """Return the sides at which an end may be: those of its compass point; or those at which its field is at the border of the
    whole; or the nearest ones."""
    return rim_of(whole, end) or nearest(whole, end) if end.compass is None else end.compass.sides


def halves_of(end: End, axis: int) -> tuple[bool, bool]:
    """Return whether an end has to be in the lower or the higher half of a side along an axis."""
    if end.compass is None or len(end.compass.sides) == 1:
        return False, False
    low, high = ENDS[axis]
    return low in end.compass.sides, high in end.compass.sides


class Sites:
    """The sites of a vertex, counter-clockwise from the lower end of its east side."""

    def __init__(self, whole: Field, ends: Iterable[End], has_loop: bool = False) -> None:
        """Return the sites of a vertex with these fields for edges with these ends."""
        self.whole, self.places = whole, list(rectangles(whole))
        cuts: tuple[set[Fraction], set[Fraction]] = ({Fraction(0), Fraction(1)}, {Fraction(0), Fraction(1)})
        for end in ends:
            for axis, (low, high) in enumerate(self.places[end.field or 0]):
                cuts[axis].update((low, high))
                if any(halves_of(end, axis)):
                    cuts[axis].add((low + high) / 2)
        if has_loop:
            for one in cuts:
                one.update([(low + high) / 2 for low, high in zip(sorted(one), sorted(one)[1:])])
        self.sites: list[Site] = []
        for side in range(4):
            lines = sorted(cuts[1 - side % 2])
            pieces = [Site(side, low, high) for low, high in zip(lines, lines[1:])]
            self.sites += pieces if side in (2, 3) else pieces[::-1]

    def allowed(self, end: End | None) -> list[int]:
        """Return the places of the sites at which an end may be; all for an end without a port."""
        if end is None:
            return list(range(len(self.sites)))
        sides, found = sides_of(self.whole, end), list[int]()
        for place, site in enumerate(self.sites):
            low, high = self.places[end.field or 0][site.axis]
            is_low, is_high = halves_of(end, site.axis)
            low, high = (low + high) / 2 if is_high else low, (low + high) / 2 if is_low else high
            if SIDES[site.side] in sides and low <= site.low and site.high <= high:
                found.append(place)
        return found
