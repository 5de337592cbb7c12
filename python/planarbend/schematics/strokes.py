"""Paths that can be turned by quarters and mirrored. Lengths are in pixels; y grows to the south."""
from __future__ import annotations

import re
from collections.abc import Callable
from dataclasses import dataclass

TOKEN = re.compile(r"([MLCZ])|(-?\d*\.?\d+)[ ,]?(-?\d*\.?\d+)")

Point = tuple[float, float]
Box = tuple[float, float, float, float]  # left, top, right, bottom


@dataclass(frozen=True, slots=True)
class Stroke:
    """A line or an area: `path` is SVG with the commands M, L, C and Z and absolute points; `style` is line, bold, body (a
    filled outline), ink (filled with the colour of lines) or circle (of an inverted pin, filled like a body)."""

    style: str
    path: str

    def moved(self, move: Callable[[Point], Point]) -> Stroke:
        """Return the stroke after each of its points was moved."""
        return Stroke(self.style, "".join(self.piece(match, move) for match in TOKEN.finditer(self.path)))

    @staticmethod
    def piece(match: re.Match[str], move: Callable[[Point], Point]) -> str:
        """Return a command, or a point after it was moved."""
        if match[1]:
            return match[1]
        x, y = move((float(match[2]), float(match[3])))
        return f"{x:.7g} {y:.7g} "

    def box(self) -> Box:
        """Return a box around all points of the path."""
        points = [(float(match[2]), float(match[3])) for match in TOKEN.finditer(self.path) if not match[1]]
        return (min(x for x, _ in points), min(y for _, y in points), max(x for x, _ in points), max(y for _, y in points))


@dataclass(frozen=True, slots=True)
class Pose:
    """How a part is drawn: it is mirrored, with north and south exchanged if `over`, else west and east, then turned by quarters
    counter-clockwise, then moved."""

    turn: int = 0
    mirror: bool = False
    over: bool = False
    at: Point = (0.0, 0.0)

    def point(self, point: Point) -> Point:
        """Return where a point of the upright, unmirrored part is."""
        x, y = point
        if self.mirror:
            x, y = (x, -y) if self.over else (-x, y)
        for _ in range(self.turn % 4):
            x, y = y, -x
        return x + self.at[0], y + self.at[1]

    def side(self, side: int) -> int:
        """Return the direction that a direction of the upright, unmirrored part becomes."""
        if self.mirror:
            side = (-side) % 4 if self.over else (2 - side) % 4
        return (side + self.turn) % 4

    def box(self, box: Box) -> Box:
        """Return where a box is."""
        (a, b), (c, d) = self.point(box[:2]), self.point(box[2:])
        return min(a, c), min(b, d), max(a, c), max(b, d)


def circle(x: float, y: float, radius: float) -> str:
    """Return the path of a circle."""
    a = 0.5523 * radius
    return (f"M{x - radius:g} {y:g}C{x - radius:g} {y - a:g} {x - a:g} {y - radius:g} {x:g} {y - radius:g}"
            f"C{x + a:g} {y - radius:g} {x + radius:g} {y - a:g} {x + radius:g} {y:g}"
            f"C{x + radius:g} {y + a:g} {x + a:g} {y + radius:g} {x:g} {y + radius:g}"
            f"C{x - a:g} {y + radius:g} {x - radius:g} {y + a:g} {x - radius:g} {y:g}Z")


def rectangle(left: float, top: float, right: float, bottom: float) -> str:
    """Return the path of a rectangle."""
    return f"M{left:g} {top:g}L{right:g} {top:g}L{right:g} {bottom:g}L{left:g} {bottom:g}Z"
