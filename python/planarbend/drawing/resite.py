"""Fewer bends by other sides of fields: ends of edges at ports go to other sides that they may be at, if no crossing is added."""
from __future__ import annotations

import itertools
import math
from collections.abc import Iterable, Iterator

from planarbend.drawing.nest_search import Apart, NestSearch
from planarbend.drawing.nested import NestedPlanarization
from planarbend.drawing.turns import Program, outer_faces

MOST_RESITED = 2  # embeddings
MOST_TRIES = 60  # other sides that are tried for each embedding
MOST_WORK = 24_000  # tries times darts
SAVED = 1e-6


def price_of(planar: NestedPlanarization, most: float = math.inf) -> float:
    """Return the cost of the directions of an embedding with its longest outer face, with vertices as boxes and those with ports
    upright; or a lower bound of the cost that is not less than `most`."""
    program, outer = Program(planar, range(len(planar.nesting.home))), outer_faces(planar)[0]
    bound = program.solved(outer, is_free=True).cost
    if bound >= most or len(program.upright) < 2:
        return bound
    try:
        return program.solved(outer).cost
    except ArithmeticError:  # none was found
        return math.inf


def choices(search: NestSearch, edge: int) -> Iterator[dict[tuple[int, bool], list[int]]]:
    """Yield for each pair of sides at which an edge with ports may end the sites there."""
    nesting = search.nesting
    ways: list[list[dict[tuple[int, bool], list[int]]]] = []
    for is_head in (False, True):
        allowed = nesting.at_ports.get((edge, is_head))
        if allowed is None:
            ways.append([{}])
            continue
        sites = nesting.ports[nesting.ends[edge][is_head]].sites
        sides = sorted({sites[place].side for place in allowed})
        ways.append([{(edge, is_head): [place for place in allowed if sites[place].side == side]} for side in sides])
    yield from (one | other for one, other in itertools.product(*ways))


def resited(searches: Iterable[tuple[NestSearch, NestedPlanarization]]) -> list[NestedPlanarization]:
    """Return the embeddings of the best searches after ends of edges went to sides with which fewer bends are needed."""
    ranked = sorted(((price_of(planar), place, search, planar) for place, (search, planar) in enumerate(searches)),
                    key=lambda one: one[:2])
    return [improved(search, planar, price) for price, _, search, planar in ranked[:MOST_RESITED]]


def improved(search: NestSearch, planar: NestedPlanarization, price: float) -> NestedPlanarization:
    """Return an embedding of a search, whose directions have this cost, after ends of edges went to better sides."""
    nesting, best = search.nesting, planar
    edges = [edge for edge in range(nesting.drawn[1]) if (edge, False) in nesting.at_ports or (edge, True) in nesting.at_ports]
    left = min(MOST_TRIES, MOST_WORK // max(1, len(planar.tail)))
    for edge in edges:
        for sites in list(choices(search, edge)):
            if left <= 0 or price < SAVED or search.embedding.start[edge] < 0:
                break
            state, cost, kept = search.embedding.state(), search.cost, dict(nesting.at_ports)
            nesting.at_ports |= sites
            try:
                search.take(edge)
                search.put(edge)
                is_better = search.cost <= cost
            except Apart:
                is_better = False
            nesting.at_ports = kept
            if is_better:
                left -= 1
                found = search.embedding.nested()
                new = price_of(found, price - SAVED)
                is_better = new < price - SAVED
            if is_better:
                best, price = found, new
            else:
                search.embedding.restore(state)
                search.cost = cost
    return best
