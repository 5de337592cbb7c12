"""Mends boxes that are not rectangles: pieces of edges may bend at no cost, so that a box need not bend instead.

planarbend minimises bends, and a bend of a box counts like a bend of an edge. If a cage has a step in a side, the edges that
leave it between the two corners of the step could bend once each instead. A node of degree 2 lets an edge bend at no cost,
which makes this cheaper.
"""
from __future__ import annotations

import itertools
from collections.abc import Iterable, Iterator, Sequence

from planarbend.layout.engine import GridPoint

Sections = Sequence[Sequence[GridPoint]]
Loose = tuple[tuple[int, int], ...]  # pieces that may bend at no cost, each with its number of bends


def turns_of(points: Sequence[GridPoint]) -> list[int]:
    """Return the turn at each inner point of a line, y downwards: 1 to the right, -1 to the left, 0 for none."""
    found = []
    for (a, b), (c, d), (e, f) in zip(points, points[1:], points[2:]):
        area = (c - a) * (f - d) - (d - b) * (e - c)
        found.append((area > 0) - (area < 0))
    return found


def ways_round_cage(sections: Sections) -> Iterator[list[int]]:
    """Yield lists of connections whose bends could make a cage a rectangle, each as often as it has to bend.

    `sections`: the points between its nodes, from each node to the next, clockwise. Connection k is that of node k.
    """
    count = len(sections)
    for first_sign in (0, 1, -1):
        corners, found = corners_of(sections), []
        while any(turn < 0 for _, turn in corners):
            pairs = [(corners[place - 1], corners[place]) for place in range(len(corners))]
            ways = [(list(between(one[0], other[0], count)), place, one[1]) for place, (one, other) in enumerate(pairs)
                    if one[1] + other[1] == 0]
            if not ways:
                return  # it is turned inside out
            way, place, turn = min(ways, key=lambda way: (way[2] == first_sign, len(way[0])))
            found += way
            corners = [corner for number, corner in enumerate(corners) if number not in (place, (place or len(corners)) - 1)]
        yield found
    yield list(range(count))


def corners_of(sections: Sections) -> list[tuple[int, int]]:
    """Return the corners of a closed line: twice the number of the node at which one lies, or after which, plus one; and its
    turn. They begin with the first turn to the right."""
    found = []
    for place, section in enumerate(sections):
        before = sections[place - 1]
        found += [(2 * place, turn) for turn in turns_of([before[-2], *section[:2]]) if turn]
        found += [(2 * place + 1, turn) for turn in turns_of(section) if turn]
    first = next((place for place, (_, turn) in enumerate(found) if turn > 0), 0)
    return found[first:] + found[:first]


def between(first: int, last: int, count: int) -> Iterator[int]:
    """Yield the connections from one corner to another, clockwise."""
    start, end = (first + 1) // 2, last // 2
    if last < first:
        end += count
    return (place % count for place in range(start, end + 1))


def ways_round_spine(sections: Sections, count: int) -> Iterator[list[int]]:
    """Yield lists as `ways_round_cage`, for a spine, whose connections are counted clockwise from the one at its first end."""
    bent = [place for place, section in enumerate(sections) if any(turns_of(section))]
    bent += [place for place, (one, other) in enumerate(itertools.pairwise(sections)) if any(turns_of([*one[-2:], other[1]]))]
    first, last, nodes = min(bent), max(bent), len(sections) + 1
    middle = [place + 1 for place in range(first + 1, last + 1)]
    if middle:
        yield sorted({*middle, *(2 * nodes - place for place in middle)} & set(range(count)))
    yield [place for place in range(count) if last + 1 < place < 2 * nodes - last]  # all that lie right of the last bend
    yield [place for place in range(count) if not first + 1 < place < 2 * nodes - first]
    yield list(range(count))


def loosened(loose: Loose, pieces: Iterable[int]) -> Loose:
    """Return pieces that may bend at no cost, with one more bend for each of these."""
    found = dict(loose)
    for piece in pieces:
        found[piece] = found.get(piece, 0) + 1
    return tuple(sorted(found.items()))
