"""Directions of the parts of a sheet: upright where that is read, with few bends.

For a choice of the outer face and of the wanted direction of each part, lifted, `turning` finds the least sum of bends and
unfulfilled wishes. The choice is a heuristic: the wanted directions are at first those that are nearest to the directions
with the fewest bends without any wish, after one of four turns of the whole; then one after another is changed by a whole turn
while this saves something. By the certificate of a solution, most changes are known to save nothing, and each touches few of
the independent parts of the program.
"""
from __future__ import annotations

from collections.abc import Sequence
from dataclasses import dataclass

import numpy

from planarbend.schematics.circulation import Case, Numbers, Program, Solution, changed, solve
from planarbend.schematics.parts import Kind
from planarbend.schematics.turning import Turning

FACES = 12  # outer faces of each wiring that are tried without wishes, the longest first
TURNED = 16  # wirings with an outer face that are tried with wishes
CLIMBED = 8  # of these, those in which single wanted directions are changed
NEAR = 1.0  # by how much the price of drawings that are compared may be above the lowest one
RIM = 0.4  # what a part that belongs to the rim costs inside, in bends
SAME = 1e-6


@dataclass(frozen=True, slots=True)
class Directed:
    """A wiring with an outer face, and the directions of its parts and wires.

    Attributes
    ----------
    outer : int
        The outer face, by its place in the walks of the turning.
    solution : Solution
    price : float
        What is to be least: the bends, the cost of wishes, and that of parts inside that belong to the rim.
    """

    outer: int
    solution: Solution
    price: float

    @property
    def turning(self) -> Turning:
        """The wiring."""
        return self.solution.case.program.turning

    def direction(self, dart: int) -> int:
        """Return the lifted direction in which a dart leaves its vertex."""
        return int(self.solution.directions[self.turning.variable[dart]]) + self.turning.offset[dart]

    def turns(self) -> dict[int, int]:
        """Return how much each dart turns to the left."""
        found = dict(zip(self.turning.darts, self.solution.case.turns(self.solution.directions).tolist()))
        return found | {dart ^ 1: -turns for dart, turns in found.items()}

    def angle(self, dart: int) -> int:
        """Return the right angles of the corner at the head of a dart, on its left."""
        after = self.turning.wiring.onward[dart]
        return self.direction(dart ^ 1) - self.direction(after) + 4 * self.turning.wraps[after]

    def tree(self) -> tuple[set[int], set[int]]:
        """Return the darts of a tree of wires that joins all parts with wishes, and the junctions on it."""
        wiring = self.turning.wiring
        wished = {wish.variable for wish in self.turning.wishes}  # a part has the variable of its number
        if not wished:
            return set(), set()
        into: dict[int, int] = {}
        order = [min(wished)]
        for vertex in order:
            for dart in wiring.around(vertex):
                other = wiring.origin[dart ^ 1]
                if other not in into and other != order[0]:
                    into[other] = dart
                    order.append(other)
        kept: set[int] = set()
        met = {order[0]}
        for vertex in wished:
            while vertex not in met:
                met.add(vertex)
                kept.add(into[vertex])
                vertex = wiring.origin[into[vertex]]
        return kept, {vertex for vertex in met if wiring.is_junction(vertex)}


def rim_cost(turning: Turning, outer: int) -> float:
    """Return the cost of inputs, outputs and connectors that have no wire at the outer face."""
    wiring = turning.wiring
    met = {wiring.origin[dart] for dart in turning.walks[outer]}
    return RIM * sum(part.kind in (Kind.INPUT, Kind.OUTPUT) or part.is_connector
                     for vertex, part in enumerate(turning.parts) if vertex not in met)


def nearest(turning: Turning, directions: Numbers, turns: int) -> Numbers:
    """Return the direction that is wanted for each wish and nearest to the given ones after some turns of the whole."""
    found = []
    for wish in turning.wishes:
        away = int(directions[wish.variable]) + turns - wish.want
        found.append(wish.want + wish.period * ((2 * away + wish.period) // (2 * wish.period)))
    return numpy.array(found, dtype=int)


def directed(turnings: Sequence[Turning], free: bool = False) -> Directed:
    """Return the directions that cost least, of those of `cheapest`."""
    return cheapest(turnings, free)[0]


def cheapest(turnings: Sequence[Turning], free: bool = False) -> list[Directed]:
    """Return wirings with directions whose prices are near to the lowest one that is found, the cheapest first.

    Parameters
    ----------
    turnings : sequence of Turning
        Wirings of one connected sheet.
    free : bool
        Whether no wish counts.
    """
    found = freely(turnings, free)
    if not free and found[0].turning.wishes:
        turned = sorted(wished(found[:TURNED]), key=lambda one: one.price)
        found = sorted(map(climbed, turned[:CLIMBED]), key=lambda one: one.price)
    return [one for one in found[:CLIMBED] if one.price < found[0].price + NEAR]


def freely(turnings: Sequence[Turning], free: bool = False) -> list[Directed]:
    """Return wirings with outer faces and directions without wishes; those of the lowest price first."""
    found: list[Directed] = []
    places, cases = list[tuple[Turning, int]](), list[Case]()
    for turning in turnings:
        program = Program(turning, False)
        for face in sorted(range(len(turning.walks)), key=lambda face: (-len(turning.walks[face]), face))[:FACES]:
            places.append((turning, face))
            cases.append(Case(program, turning.windings(face), numpy.zeros(0, dtype=int)))
    for (turning, face), solution in zip(places, solve(cases)):
        found.append(Directed(face, solution, solution.cost + (0.0 if free else rim_cost(turning, face))))
    return sorted(found, key=lambda one: one.price)


def wished(found: Sequence[Directed]) -> list[Directed]:
    """Return wirings with directions for which the wishes count, after the best turn of each as a whole."""
    programs: dict[Turning, Program] = {}
    cases = []
    for one in found:
        if one.turning not in programs:
            programs[one.turning] = Program(one.turning, True)
        cases += [Case(programs[one.turning], one.solution.case.windings, nearest(one.turning, one.solution.directions, turns))
                  for turns in range(4)]
    solutions = list(solve(cases))
    best = [min(solutions[first:first + 4], key=lambda one: one.cost) for first in range(0, len(cases), 4)]
    return [Directed(one.outer, solution, solution.cost + rim_cost(one.turning, one.outer)) for one, solution in zip(found, best)]


def climbed(one: Directed) -> Directed:
    """Return directions after changes of single wanted ones, until none of these saves anything."""
    best, rim = one.solution, one.price - one.solution.cost
    while True:
        wishes, changes = best.case.program.turning.wishes, []
        for place, pull in enumerate(best.pulls().tolist()):
            if abs(pull) > SAME:  # otherwise the certificate holds for the changed direction too
                changes.append((place, -wishes[place].period if pull > 0 else wishes[place].period))
        found = min(changed(best, changes), key=lambda one: one.cost, default=best)
        if found.cost > best.cost - SAME:
            return Directed(one.outer, best, best.cost + rim)
        best = found
