"""Embeddings with frames in which some vertices outside all frames lie on one face there."""
from __future__ import annotations

import random
from collections.abc import Sequence

from planarbend.drawing.linked import NONE
from planarbend.drawing.nest_search import LEAST_STARTS, MOST_KEPT, PATIENCE, STARTS, WORK, NestSearch
from planarbend.drawing.nested import NestedPlanarization
from planarbend.drawing.nesting import Nesting

COPIES = 4  # of an edge that should not be crossed: to cross all of them costs more than other ways


def planarized_together(nesting: Nesting, together: Sequence[int], seed: int, effort: int) -> list[NestedPlanarization]:
    """Return embeddings with equally few crossings, at most `MOST_KEPT`, in which some vertices lie on one face outside all frames;
    none if none is found.

    While this is searched, one more vertex is joined with all of them. The same arguments give the same result.
    """
    hub, first = nesting.add(NONE), len(nesting.ends)
    for vertex in together:
        for edge in range(len(nesting.ends), len(nesting.ends) + COPIES):
            nesting.ends.append((hub, vertex))
            if vertex in nesting.ports:
                nesting.at_ports[edge, True] = nesting.ports[vertex].allowed(None)
    joints, kept, work = range(first, len(nesting.ends)), list[NestedPlanarization](), 0
    for number in range(STARTS * effort or 1):
        search = NestSearch(nesting, random.Random(f"{seed} {number} together"))
        search.put_all()
        search.improve(PATIENCE, WORK * max(1, effort))
        search.settle()
        work += search.work
        if not any(map(search.embedding.crossings_of, joints)):
            found = without(search, joints)
            kept = [] if kept and found.real_crossings < kept[0].real_crossings else kept
            if not kept or found.real_crossings == kept[0].real_crossings and len(kept) < MOST_KEPT:
                kept.append(found)
        if len(kept) >= MOST_KEPT and not kept[0].real_crossings or work > WORK * effort and number + 1 >= LEAST_STARTS:
            break
    return kept


def without(search: NestSearch, edges: Sequence[int]) -> NestedPlanarization:
    """Return the embedding of a search without some edges, which are not crossed, and without others that are not drawn while the
    whole stays connected."""
    for edge in edges:
        search.embedding.remove(edge)
    search.embedding.cut_needless()
    return search.embedding.nested()
