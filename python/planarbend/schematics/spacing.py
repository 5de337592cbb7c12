"""The coordinates of a component in pixels: what must be apart, and what should be short, one axis after the other.

Items are straight segments of wires, symbols and texts, and the rectangles of boxes. Two items whose rows overlap keep their
order along the axis, with a gap; rows are those of the grid at first, then those of the pixels so far. The least sum of the
lengths of wires and the sizes of boxes is a linear program of differences.
"""
from __future__ import annotations

import bisect
from collections.abc import Iterable, Sequence
from dataclasses import dataclass, field

import numpy
from scipy.sparse import csr_matrix

from planarbend.schematics.figures import Figure
from planarbend.schematics.fitting import best_fit
from planarbend.schematics.highs import solved
from planarbend.schematics.skeleton import Skeleton

LINE, BOX, FLAG, TEXT = range(4)  # kinds of items
GAP = ((12.0, 12.0, 12.0, 5.0), (12.0, 18.0, 12.0, 6.0), (12.0, 12.0, 6.0, 6.0), (5.0, 6.0, 6.0, 4.0))
WIDEST = 18.0
LEAST = 12.0  # pixels of a segment between two corners or junctions
STEM = 8.0  # pixels of a segment at a pin
SIZE_WEIGHT = 3.0  # of the size of a box, to that of a wire's length
LEVEL_WEIGHT = 6.0  # of pins of a symbol that are not level with their wires
PASSES = (0, 1) * 5
FITTED = (4, 6, 8)  # passes before which boxes that are too large get room for jogs
SAME = 1e-6

Place = tuple[int, float]  # a coordinate and what is added to it


@dataclass(slots=True)
class Item:
    """What has to be apart from others: its places along both axes, the nodes at its ends or the part that it belongs to, and
    the parts that it touches. (Part p is ``-1 - p`` here.)"""

    kind: int
    low: tuple[Place, Place]
    high: tuple[Place, Place]
    own: frozenset[int]
    touched: frozenset[int] = frozenset()

    def touches(self, other: Item) -> bool:
        """Return whether the two may meet."""
        return bool(self.own & other.own or self.touched & other.own or self.own & other.touched)


@dataclass(slots=True)
class Demands:
    """What a linear program of coordinates demands.

    Attributes
    ----------
    apart : list of (int, int, float)
        Two coordinates and the least difference of the second and the first.
    short : list of (int, int, float)
        Two coordinates, and the weight of their difference.
    level : list of (int, int, float, float)
        Two coordinates, the difference that they should have, and the weight of the distance from it.
    """

    apart: list[tuple[int, int, float]] = field(default_factory=list)
    short: list[tuple[int, int, float]] = field(default_factory=list)
    level: list[tuple[int, int, float, float]] = field(default_factory=list)


class Spacing:
    """The coordinates of a component.

    Attributes
    ----------
    skeleton : Skeleton
    figures : list of Figure
    value : (list of float, list of float)
        For each axis the coordinates, by the numbers that `Skeleton.key` gives: on the grid until they are found in pixels.
    """

    def __init__(self, skeleton: Skeleton, figures: Sequence[Figure]) -> None:
        """Return the coordinates of a component, found in several passes."""
        self.skeleton, self.figures = skeleton, figures
        self.wiring = skeleton.plane.directed.turning.wiring
        self.grid = [[float(point[axis]) for point in skeleton.points] for axis in (0, 1)]
        for axis in (0, 1):
            self.grid[axis] = [self.grid[axis][skeleton.key(node, axis)] for node in range(len(skeleton.points))]
        self.value = [list(self.grid[0]), list(self.grid[1])]
        plane = skeleton.plane
        self.owner = {vertex: part for part, vertex in plane.vertex_of.items() if part < self.wiring.vertex_count}
        self.owner |= {vertex: self.wiring.part_of[pin] for pin, vertex in plane.pin_vertex.items()}
        self.items = list(self._items())
        for step, axis in enumerate(PASSES):
            if step in FITTED:
                self._fit()
            self._solve(axis, step)

    def _fit(self) -> None:
        """Give room for jogs to the boxes that are too large for their pins."""
        for number, one in enumerate(self.figures):
            for axis in (0, 1) if one.needs is not None else ():
                fit = best_fit(one, axis, self.inner(number, axis), self.wires_at(number, axis))
                if fit is not None:
                    one.rooms |= {side: max(fit.room(one, side), one.rooms.get(side, 0)) for side in (1 - axis, 3 - axis)}

    # Items

    def inner(self, number: int, axis: int) -> tuple[float, float]:
        """Return the ends of the rectangle of a cage along an axis, without room for jogs."""
        one, is_wired, rectangle = self.figures[number], self.is_wired(number), self.rectangle(number)
        return (self.value[axis][rectangle[axis]] + one.margin((2, 1)[axis], is_wired),
                self.value[axis][rectangle[axis + 2]] - one.margin((0, 3)[axis], is_wired))

    def wires_at(self, number: int, axis: int) -> dict[int, float]:
        """Return where the wires of a cage are along an axis, by the places of their pins, on the sides along the axis."""
        one, is_wired = self.figures[number], self.is_wired(number)
        return {place: self.at(self.node_of(one.pins[place]))[axis] for side in (1 - axis, 3 - axis)
                for place in one.on_side(side) if is_wired[place]}

    def key(self, node: int, axis: int) -> int:
        """Return the number of a node's coordinate."""
        return self.skeleton.key(node, axis)

    def at(self, node: int) -> tuple[float, float]:
        """Return where a node is, in pixels."""
        return self.value[0][self.key(node, 0)], self.value[1][self.key(node, 1)]

    def node_of(self, pin: int) -> int:
        """Return the node at which the wire of a pin begins."""
        return self.skeleton.plane.end(self.wiring.dart_of[pin])

    def is_wired(self, number: int) -> list[bool]:
        """Return for each pin of a part, in the order of its figure, whether it has a wire."""
        return [self.wiring.dart_of[pin] >= 0 for pin in self.figures[number].pins]

    def rectangle(self, number: int) -> tuple[int, int, int, int]:
        """Return the coordinates of a cage: left, top, right and bottom."""
        nodes = self.skeleton.plane.corners[number]
        sides = []
        for place in range(4):
            axis = place % 2
            node = (min if place < 2 else max)(nodes, key=lambda node: self.grid[axis][self.key(node, axis)])
            sides.append(self.key(node, axis))
        return sides[0], sides[1], sides[2], sides[3]

    def _items(self) -> Iterable[Item]:
        """Yield all items."""
        for axis, low, high in self.skeleton.segments():
            ends = [((self.key(node, 0), 0.0), (self.key(node, 1), 0.0)) for node in (low, high)]
            touched = frozenset(-1 - part for part in map(self._part_at, (low, high)) if part >= 0)
            yield Item(LINE, ends[0], ends[1], frozenset((low, high)), touched)
        for number, one in enumerate(self.figures):
            owner = frozenset({-1 - number})
            if one.is_point:
                node = self.skeleton.plane.vertex_of[number]
                x, y = self.key(node, 0), self.key(node, 1)
                boxes = [(box, FLAG if one.part.is_flag else BOX) for box in one.boxes()]
                boxes += [(text.box, TEXT) for text in one.texts]
                for box, kind in boxes:
                    yield Item(kind, ((x, box[0]), (y, box[1])), ((x, box[2]), (y, box[3])), owner)
            else:
                left, top, right, bottom = self.rectangle(number)
                east, north, west, south = (one.beyond(side, self.is_wired(number)) for side in range(4))
                yield Item(BOX, ((left, -west), (top, -north)), ((right, east), (bottom, south)), owner)

    def _part_at(self, node: int) -> int:
        """Return the part whose wire begins at a node, or -1."""
        return self.owner.get(node, -1)

    # Demands

    def _apart(self, axis: int, step: int, found: Demands) -> None:
        """Add the distances between items whose rows overlap."""
        margin, thick = (0.25, 0.1) if step == 0 else (WIDEST, 0.5)
        rows = self._rows(axis, step)
        sky = Skyline(self.items)
        for place in sorted(range(len(rows)), key=lambda place: rows[place][:2]):
            item, (_, _, first, last) = self.items[place], rows[place]
            for seen in sky.between(first - margin, last + margin):
                before = self.items[seen]
                gap = GAP[before.kind][item.kind]
                near = gap - SAME if step else 0.25
                if rows[seen][3] + near < first or last + near < rows[seen][2] or item.touches(before):
                    continue
                (high, after), (low, ahead) = before.high[axis], item.low[axis]
                if high != low:
                    found.apart.append((high, low, gap + after - ahead))
            sky.cover(first - thick, last + thick, place)

    def _rows(self, axis: int, step: int) -> list[tuple[float, float, float, float]]:
        """Return for each item where it begins along an axis, what it reaches before that on the grid, and its rows: on the
        grid as long as nothing better is known, where symbols have no size."""
        along = self.grid[axis] if step < 2 else self.value[axis]
        across = self.grid[1 - axis] if step == 0 else self.value[1 - axis]
        size_along, size_across = float(step >= 2), float(step > 0)
        found = []
        for item in self.items:
            start, before = item.low[axis]
            (first, above), (last, below) = item.low[1 - axis], item.high[1 - axis]
            found.append((along[start] + size_along * before, before, across[first] + size_across * above,
                          across[last] + size_across * below))
        return found

    def _lengths(self, axis: int, found: Demands) -> None:
        """Add the lengths of segments: at least what their ends need, and short."""
        for along, low, high in self.skeleton.segments():
            if along != axis:
                continue
            least, is_at_pin = 0.0, False
            for node in (low, high):
                part = self._part_at(node)
                if part >= 0:
                    is_at_pin = True
                    least += self.figures[part].reach(0) if self.figures[part].is_point else 0.0
            least += STEM if is_at_pin else LEAST
            ends = self.key(low, axis), self.key(high, axis)
            found.apart.append((*ends, least))
            found.short.append((*ends, 1.0))

    def _sizes(self, axis: int, found: Demands) -> None:
        """Add what boxes and symbols need."""
        for number, one in enumerate(self.figures):
            if one.is_point:
                continue
            low, high = self.rectangle(number)[axis::2]
            found.short.append((low, high, SIZE_WEIGHT))
            if one.needs is not None:
                self._box(number, axis, (low, high), found)
            else:
                self._symbol(number, axis, (low, high), found)

    def _box(self, number: int, axis: int, ends: tuple[int, int], found: Demands) -> None:
        """Add what a box or a flip-flop needs along an axis."""
        one, is_wired = self.figures[number], self.is_wired(number)
        assert one.needs is not None
        before, after = one.margin((2, 1)[axis], is_wired), one.margin((0, 3)[axis], is_wired)
        found.apart.append((*ends, float(numpy.ceil((one.needs.width, one.needs.height)[axis])) + before + after))
        for side in (1 - axis, 3 - axis):
            for first, last, length in one.spans(side, is_wired):
                length += (before if first is None else 0) + (after if last is None else 0)
                low = ends[0] if first is None else self.key(self.node_of(one.pins[first]), axis)
                high = ends[1] if last is None else self.key(self.node_of(one.pins[last]), axis)
                found.apart.append((low, high, float(numpy.ceil(length))))

    def _symbol(self, number: int, axis: int, ends: tuple[int, int], found: Demands) -> None:
        """Add what a symbol of fixed size needs along an axis: room, and pins that are level with their wires."""
        one, is_wired = self.figures[number], self.is_wired(number)
        assert one.shape is not None
        size = one.shape.box[axis + 2] - one.shape.box[axis]
        before, after = one.margin((2, 1)[axis], is_wired), one.margin((0, 3)[axis], is_wired)
        found.apart.append((*ends, size + before + after))
        levels, pins = one.levels(), []
        for side in (1 - axis, 3 - axis):
            last = None
            for place in one.on_side(side):
                if not is_wired[place]:
                    continue
                key, level = self.key(self.node_of(one.pins[place]), axis), levels[place][axis]
                found.apart.append((ends[0], key, level + before))
                found.apart.append((key, ends[1], size - level + after))
                if last is not None:
                    found.apart.append((last[0], key, level - last[1]))
                last = key, level
                pins.append(last)
        for place, (key, level) in enumerate(pins):
            found.level += [(key, other, there - level, LEVEL_WEIGHT) for other, there in pins[:place] if other != key]

    # The program

    def _solve(self, axis: int, step: int) -> None:
        """Find the coordinates along an axis."""
        found = Demands()
        self._apart(axis, step, found)
        self._lengths(axis, found)
        self._sizes(axis, found)
        keys = sorted({self.key(node, axis) for node in range(len(self.skeleton.points))})
        values = least_sum(keys, found)
        low = min(values.values())
        for key, value in values.items():
            self.value[axis][key] = value - low


class Skyline:
    """What is seen from the far end of an axis: for each row the last item, and those before it that it touches: on the grid,
    a symbol has no size and would be hidden by its own wire."""

    def __init__(self, items: Sequence[Item]) -> None:
        """Return a skyline before its first item."""
        self.items = items
        self.starts: list[float] = [-numpy.inf]
        self.seen: list[tuple[int, ...]] = [()]

    def between(self, low: float, high: float) -> list[int]:
        """Return the items that are seen in rows."""
        first, last = bisect.bisect_right(self.starts, low) - 1, bisect.bisect_left(self.starts, high)
        return list(dict.fromkeys(item for seen in self.seen[first:last] for item in seen))

    def cover(self, low: float, high: float, item: int) -> None:
        """Put an item before all others in its rows."""
        for row in (low, high):
            place = bisect.bisect_left(self.starts, row)
            if place == len(self.starts) or self.starts[place] != row:
                self.starts.insert(place, row)
                self.seen.insert(place, self.seen[place - 1])
        for place in range(bisect.bisect_left(self.starts, low), bisect.bisect_left(self.starts, high)):
            kept = (other for other in self.seen[place] if self.items[item].touches(self.items[other]))
            self.seen[place] = item, *kept


def least_sum(keys: Sequence[int], demands: Demands) -> dict[int, float]:
    """Return the coordinates of the least sum, by their numbers."""
    place = {key: number for number, key in enumerate(keys)}
    count, extra = len(keys), len(demands.level)
    rows, columns, values, limits = list[int](), list[int](), list[float](), list[float]()
    cost = numpy.zeros(count + extra)
    least: dict[tuple[int, int], float] = {}
    for low, high, distance in demands.apart:
        pair = place[low], place[high]
        least[pair] = max(least.get(pair, distance), distance)
    for (low, high), distance in least.items():
        rows += [len(limits)] * 2
        columns += [low, high]
        values += [1.0, -1.0]
        limits.append(-distance)
    for low, high, weight in demands.short:
        cost[place[high]] += weight
        cost[place[low]] -= weight
    for number, (one, other, wanted, weight) in enumerate(demands.level):
        cost[count + number] = weight
        for sign in (1.0, -1.0):  # the distance is at least other - one - wanted, and the opposite
            rows += [len(limits)] * 3
            columns += [place[one], place[other], count + number]
            values += [-sign, sign, -1.0]
            limits.append(sign * wanted)
    matrix = csr_matrix((values, (rows, columns)), (len(limits), count + extra))
    bounds: list[tuple[float | None, float | None]] = [(0.0, 0.0)]
    bounds += [(None, None)] * (count - 1) + [(0.0, None)] * extra
    found = solved(cost, "coordinates", A_ub=matrix, b_ub=limits, bounds=bounds)
    return {key: float(numpy.round(found.x[number], 6)) for number, key in enumerate(keys)}
