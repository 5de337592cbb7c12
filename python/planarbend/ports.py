"""Fields of a vertex, and where on a vertex an end of an edge is to be.

The fields of a record or a table lie in a grid, and each may have a grid of further fields within it. A row of a record is a
grid with one row, a column a grid with one column.
"""
from __future__ import annotations

import enum
from collections.abc import Iterator
from dataclasses import dataclass


class Side(enum.Enum):
    """A side of a box."""

    NORTH = "n"
    EAST = "e"
    SOUTH = "s"
    WEST = "w"


class Compass(enum.Enum):
    """A place at the border of a box; the values are Graphviz's words."""

    NORTH = "n"
    NORTH_EAST = "ne"
    EAST = "e"
    SOUTH_EAST = "se"
    SOUTH = "s"
    SOUTH_WEST = "sw"
    WEST = "w"
    NORTH_WEST = "nw"

    @property
    def sides(self) -> frozenset[Side]:
        """The side or, at a corner, the two sides."""
        return frozenset(map(Side, self.value))


COMPASS = {one.value: one for one in Compass}


@dataclass(frozen=True, slots=True)
class Span:
    """A place in a grid: the first row and column, from 0, and the number of rows and columns."""

    row: int = 0
    column: int = 0
    rows: int = 1
    columns: int = 1


@dataclass(frozen=True, slots=True)
class Field:
    """A field, or all fields of a vertex.

    Attributes
    ----------
    text : str
        Its label; empty if there are fields within it.
    port : str
        The name by which edges find it; empty if it has none.
    at : Span
        Its place in the grid of the field around it.
    fields : tuple of Field
        The grid within it, in reading order.
    """

    text: str = ""
    port: str = ""
    at: Span = Span()
    fields: tuple[Field, ...] = ()

    @property
    def size(self) -> tuple[int, int]:
        """The number of rows and of columns of the grid within it."""
        return (max((one.at.row + one.at.rows for one in self.fields), default=0),
                max((one.at.column + one.at.columns for one in self.fields), default=0))

    def walk(self, sides: frozenset[Side] = frozenset(Side)) -> Iterator[tuple[Field, frozenset[Side]]]:
        """Yield this field and all within it, each before those within it, with the sides at which it touches the border of the
        whole; `sides` are those of this field."""
        yield self, sides
        rows, columns = self.size
        for one in self.fields:
            is_at = {Side.NORTH: one.at.row == 0, Side.WEST: one.at.column == 0,
                     Side.SOUTH: one.at.row + one.at.rows == rows, Side.EAST: one.at.column + one.at.columns == columns}
            yield from one.walk(frozenset(side for side in sides if is_at[side]))

    def place_of(self, port: str) -> int | None:
        """Return the place of the first field with this port in the order of `walk`, or None."""
        return next((place for place, (one, _) in enumerate(self.walk()) if port and one.port == port), None)


@dataclass(frozen=True, slots=True)
class End:
    """Where an end of an edge is to be, if it is not anywhere at the border of its vertex.

    Attributes
    ----------
    field : int, optional
        The place of a field in the order of `Field.walk` of the vertex.
    compass : Compass, optional
        A side or a corner of the field or, without one, of the vertex.
    cluster : int, optional
        The number of a cluster around the vertex, at whose frame the edge ends.
    """

    field: int | None = None
    compass: Compass | None = None
    cluster: int | None = None
