"""Items, everything with an extent in a drawing, and the coordinates between which they lie."""
from __future__ import annotations

from collections.abc import Sequence
from dataclasses import dataclass, field

from planarbend.graph import Partition

UNIT = 4096  # of the fine grid, to one of the shape's
BOX, LABEL, PIECE = range(3)  # the kinds of items


@dataclass(slots=True)
class Axis:
    """The coordinates along one axis."""

    value: list[float] = field(default_factory=list)  # on the fine grid at first, in pixels later
    rank: list[float] = field(default_factory=list)  # the order of coordinates with the same value on the grid
    same: Partition = field(default_factory=Partition)  # numbers of the same coordinate

    def add(self, value: float, rank: float = 0.0) -> int:
        """Return the number of a new coordinate."""
        self.value.append(value)
        self.rank.append(rank)
        return self.same.add()


@dataclass(slots=True)
class Item:
    """A thing with an extent: along axis a from coordinate `low[a]` plus `before[a]` to `high[a]` plus `after[a]`."""

    kind: int  # `BOX`, `LABEL` or `PIECE`
    low: list[int]
    high: list[int]
    grid: list[tuple[float, float]]  # its extents on the fine grid
    owns: tuple[bool, bool] = (True, True)  # along which axes it is kept apart from others
    before: list[float] = field(default_factory=lambda: [0.0, 0.0])  # pixels
    after: list[float] = field(default_factory=lambda: [0.0, 0.0])
    host: tuple[int, ...] = ()  # the boxes at the ends of a piece; for a label its edge as -1 - number

    @property
    def across(self) -> int:
        """The axis along which a piece has no extent."""
        return 0 if self.owns[0] else 1


def item_at(kind: int, axis: int, at: tuple[int, float], low: tuple[int, float], high: tuple[int, float],
            host: Sequence[int]) -> Item:
    """Return an item at one coordinate along an axis, and between two along the other, each with its place on the fine grid."""
    extents = [(at, at), (low, high)] if axis == 0 else [(low, high), (at, at)]
    return Item(kind, [first[0] for first, _ in extents], [last[0] for _, last in extents],
                [(first[1], last[1]) for first, last in extents], (axis == 0, axis == 1), host=tuple(host))
