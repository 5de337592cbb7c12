"""How to draw a graph, and plans of a component: which vertices become boxes, and how."""
from __future__ import annotations

import math
from collections.abc import Iterable, Sequence
from dataclasses import dataclass, replace

from planarbend.drawing.mend import Loose


@dataclass(slots=True)
class Budget:
    """How many more vertices may be laid out before a search for rectangles ends."""

    left: float = math.inf


@dataclass(frozen=True, slots=True)
class Options:
    """How to draw.

    Attributes
    ----------
    outer : sequence of int
        Vertices that must lie on the outer face.
    compact : bool
        Whether to fix the sides of vertices of degree over 4 in advance, which takes less room but more bends.
    effort : int
        How long to search for fewer crossings and bends (0 is fastest).
    seed : int
        The seed of the random choices.
    straight : sequence of int
        Edges that must not bend. They need the library; the program cannot keep them straight.
    """

    outer: Sequence[int] = ()
    compact: bool = False
    effort: int = 1
    seed: int = 0
    straight: Sequence[int] = ()


@dataclass(frozen=True, slots=True)
class Plan:
    """Which vertices are cages, which are spines, each with the place at which it begins, and which pieces are loose."""

    cages: frozenset[int] = frozenset()
    spines: tuple[tuple[int, int], ...] = ()
    loose: Loose = ()

    def caged(self, vertices: Iterable[int]) -> Plan:
        """Return the plan with these vertices as cages too."""
        return replace(self, cages=self.cages | frozenset(vertices))

    def uncaged(self, vertices: Iterable[int]) -> Plan:
        """Return the plan with these cages as points."""
        return replace(self, cages=self.cages - frozenset(vertices))

    def spined(self, vertex: int, turn: int) -> Plan:
        """Return the plan with this vertex as a spine."""
        others = tuple(pair for pair in self.spines if pair[0] != vertex)
        return replace(self, cages=self.cages - {vertex}, spines=tuple(sorted((*others, (vertex, turn)))))
