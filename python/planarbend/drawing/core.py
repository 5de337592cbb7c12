"""The core of a graph, on which crossings are counted: what can be drawn without further crossings is folded away.

A vertex of degree 2 and its two edges become one edge with the lesser of their weights: a chain of edges is crossed where it
is lightest. Parallel edges become one edge with the sum of their weights: an edge that crosses one of them crosses all.
Vertices of degree 1 and loops are removed. This is repeated as long as possible. A crossing of two folded edges costs the
product of their weights (the reduction to a non-planar core by Chimani and Gutwenger 2005, for series and parallel parts).
"""
from __future__ import annotations

from collections.abc import Sequence
from dataclasses import dataclass


@dataclass(frozen=True, slots=True)
class Strand:
    """An edge of the graph that carries crossings of a folded edge."""

    edge: int
    reversed: bool  # whether it runs against the folded edge


@dataclass(frozen=True, slots=True)
class Core:
    """A simple graph of minimum degree 3, or without edges."""

    vertices: list[int]  # the graph's vertex for each of the core's
    ends: list[tuple[int, int]]  # tail and head of each folded edge, by the core's numbers
    weights: list[int]  # of each folded edge
    strands: list[list[Strand]]  # for each folded edge the edges to cross for it, from left to right as seen along it


@dataclass(slots=True)
class _Fold:
    """A folded edge while folding goes on."""

    tail: int
    head: int
    weight: int
    strands: list[Strand]

    def turned(self) -> _Fold:
        """Return the same from head to tail."""
        return _Fold(self.head, self.tail, self.weight,
                     [Strand(strand.edge, not strand.reversed) for strand in reversed(self.strands)])


def core_of(edges: Sequence[int], ends: Sequence[tuple[int, int]], weights: Sequence[int], most: int) -> Core:
    """Return the core of some of a graph's edges, of which all have ends (tail and head) and weights; a larger sum of weights
    is reduced to `most`."""
    folds: dict[int, _Fold] = {}
    at: dict[int, list[int]] = {}
    waiting: list[int] = []
    for edge in edges:
        tail, head = ends[edge]
        for vertex in (tail, head):
            if vertex not in at:
                at[vertex] = []
                waiting.append(vertex)
    made = 0

    def place(fold: _Fold) -> None:
        """Add a folded edge, merged with one that is parallel."""
        nonlocal made
        if fold.tail == fold.head:
            return
        for name in at[fold.tail]:
            other = folds[name]
            if fold.head in (other.tail, other.head):
                same = fold if fold.tail == other.tail else fold.turned()
                other.weight = min(other.weight + same.weight, most)
                other.strands = other.strands + same.strands
                return
        folds[made] = fold
        at[fold.tail].append(made)
        at[fold.head].append(made)
        made += 1

    def drop(name: int) -> _Fold:
        """Return a folded edge, which is removed."""
        fold = folds.pop(name)
        at[fold.tail].remove(name)
        at[fold.head].remove(name)
        return fold

    for edge in edges:
        tail, head = ends[edge]
        place(_Fold(tail, head, weights[edge], [Strand(edge, False)]))
    while waiting:
        vertex = waiting.pop()
        names = at[vertex]
        if len(names) == 1:
            fold = drop(names[0])
            waiting.append(fold.tail if fold.head == vertex else fold.head)
        elif len(names) == 2:
            first, second = drop(names[0]), drop(names[0])
            if first.head != vertex:
                first = first.turned()
            if second.tail != vertex:
                second = second.turned()
            lighter = first if first.weight <= second.weight else second
            place(_Fold(first.tail, second.head, lighter.weight, lighter.strands))
            waiting += (first.tail, second.head)
    vertices = [vertex for vertex in at if at[vertex]]
    number = {vertex: place for place, vertex in enumerate(vertices)}
    kept = list(folds.values())
    return Core(vertices, [(number[fold.tail], number[fold.head]) for fold in kept], [fold.weight for fold in kept],
                [fold.strands for fold in kept])
