"""Other embeddings of the same planar graph, one local move away.

By Whitney (1933) all embeddings of a graph come from one another by two moves. A *flip*: two faces meet in two vertices, and
what lies between them there is mirrored. A *turn*: what hangs on a single vertex is taken to another place in the order about
it, with any of its faces outward. Crossings stay crossings: a move that would make their two edges touch is left out. Where
edges cross, a third move leads to other embeddings: a *shift* takes an edge or a vertex out and puts it where it crosses no
more than before.
"""
from __future__ import annotations

import itertools
import random
from collections.abc import Callable, Iterator, Sequence
from dataclasses import replace

from planarbend.drawing.planarization import LinkedEmbedding, Planarization
from planarbend.drawing.reinsert import Reinsertion

Price = tuple[int, ...]
Flip = tuple[int, int, int, int]  # two faces, and two vertices that each of them contains once


def climbed(planar: Planarization, prices: Callable[[Sequence[Planarization]], Sequence[Price]], dice: random.Random, *,
            rounds: int, width: int) -> Planarization:
    """Return the best embedding that moves find: in each round the best of some neighbours, if it is better.

    `prices`: returns the price of each of several embeddings; the search minimises it.
    `rounds`: number of rounds. The search ends after half as many consecutive rounds without success.
    `width`: number of neighbours in each round.
    """
    best, = prices([planar])
    vain = 0
    for _ in range(rounds):
        others = neighbours(planar, dice, width)
        if not others or 2 * vain >= rounds:
            break
        found = prices(others)
        place = min(range(len(others)), key=found.__getitem__)
        vain += 1
        if found[place] < best:
            planar, best, vain = others[place], found[place], 0
    return planar


def neighbours(planar: Planarization, dice: random.Random, count: int) -> list[Planarization]:
    """Return embeddings that are one move away, chosen at random: at most `count`, with no more crossings."""
    faces = Faces(planar)
    found: list[Planarization] = []
    flips = list(flips_of(faces))
    dice.shuffle(flips)
    for number in range(4 * count):
        if len(found) == count:
            break
        other: Planarization | None = None
        if number % 3 == 0 and flips:
            other = flipped(faces, flips.pop())
        elif number % 3 == 1 and faces.cuts:
            other = turned(planar, dice.choice(faces.cuts), dice)
        elif number % 3 == 2 and planar.crossings:
            other = shifted(faces, dice)
        if other is not None:
            found.append(other)
    return found


class Faces:
    """The faces of a planarization and their corners.

    `at`: for each vertex its faces.
    `corners`: for each face its vertices, each with those darts that the face comes clockwise after: several at a cut vertex.
    `cuts`: the vertices of the graph that are cut vertices.
    """

    def __init__(self, planar: Planarization) -> None:
        """Return the faces of a planarization."""
        self.planar = planar
        self.at: list[set[int]] = [set() for _ in planar.rotation]
        self.corners: list[dict[int, list[int]]] = []
        for face, walk in enumerate(planar.walks_from(dart ^ 1 for dart in range(len(planar.tail)))):
            corners: dict[int, list[int]] = {}
            for dart in walk:
                corners.setdefault(planar.tail[dart ^ 1], []).append(dart ^ 1)
                self.at[planar.tail[dart]].add(face)
            self.corners.append(corners)
        self.cuts = sorted({vertex for corners in self.corners for vertex, darts in corners.items()
                            if len(darts) > 1 and vertex < planar.vertex_count})


def flips_of(faces: Faces) -> Iterator[Flip]:
    """Yield the possible flips, including those that change nothing."""
    for one, corners in enumerate(faces.corners):
        met: dict[int, list[int]] = {}
        for vertex in corners:
            for other in faces.at[vertex]:
                if other > one:
                    met.setdefault(other, []).append(vertex)
        for other, vertices in sorted(met.items()):  # neighbours in the order along the first face
            for first, second in itertools.pairwise(vertices + vertices[:1] * (len(vertices) > 2)):
                if all(len(faces.corners[face][vertex]) == 1 for face in (one, other) for vertex in (first, second)):
                    yield one, other, first, second


def flipped(faces: Faces, flip: Flip) -> Planarization | None:
    """Return the embedding with what lies between two faces and two vertices mirrored, or `None` if nothing changes."""
    planar = faces.planar
    one, other, first, second = flip
    parts = []
    for from_face, to_face in ((one, other), (other, one)):
        here, there = faces.corners[from_face], faces.corners[to_face]
        left = darts_after(planar, here[first][0], there[first][0])
        right = darts_after(planar, there[second][0], here[second][0])
        parts.append((reached(planar, [*left, *right], (first, second)), left, right))
    inner, left, right = min(parts, key=lambda part: len(part[0]))
    if len(left) < 2 and len(right) < 2 and all(len(planar.rotation[vertex]) < 3 for vertex in inner):
        return None
    if any(vertex >= planar.vertex_count and len(darts) == 2 for vertex, darts in ((first, left), (second, right))):
        return None
    rotation = list(planar.rotation)
    for vertex in inner:
        rotation[vertex] = rotation[vertex][::-1]
    for vertex, darts in ((first, left), (second, right)):
        members = set(darts)
        rotation[vertex] = darts[::-1] + [dart for dart in from_dart(rotation[vertex], darts[0]) if dart not in members]
    return replace(planar, rotation=rotation)


def darts_after(planar: Planarization, first: int, last: int) -> list[int]:
    """Return the darts clockwise after `first` up to `last`, about the vertex that both leave."""
    around = from_dart(planar.rotation[planar.tail[first]], first)
    around = around[1:] + around[:1]
    return around[:around.index(last) + 1]


def from_dart(around: list[int], dart: int) -> list[int]:
    """Return a cyclic order from one of its darts on."""
    place = around.index(dart)
    return around[place:] + around[:place]


def reached(planar: Planarization, darts: Sequence[int], ends: Sequence[int]) -> list[int]:
    """Return the vertices that darts lead to without passing the ends, in the order in which they are found."""
    tail, seen = planar.tail, set(ends)
    found: list[int] = []
    for dart in darts:
        waiting = [tail[dart ^ 1]]
        while waiting:
            vertex = waiting.pop()
            if vertex not in seen:
                seen.add(vertex)
                found.append(vertex)
                waiting += [tail[out ^ 1] for out in planar.rotation[vertex]]
    return found


def turned(planar: Planarization, vertex: int, dice: random.Random) -> Planarization | None:
    """Return the embedding with a part that hangs on a vertex at another place there, chosen at random, or `None` if nothing
    hangs on the vertex or nothing changes."""
    around = planar.rotation[vertex]
    parts = parts_at(planar, vertex)
    if len(parts) < 2:
        return None
    largest = max(range(len(parts)), key=lambda number: len(parts[number]))
    number = dice.randrange(len(parts) - 1)
    part = parts[number if number < largest else number + 1]
    members = set(part)
    rest = [dart for dart in around if dart not in members]
    place, start = dice.randrange(len(rest)), dice.randrange(len(part))
    rotation = list(planar.rotation)
    if dice.random() < 0.5:
        for inner in reached(planar, part, (vertex,)):
            rotation[inner] = rotation[inner][::-1]
        part = part[::-1]
    order = rest[:place] + part[start:] + part[:start] + rest[place:]
    if len(around) < 3 or from_dart(order, around[0]) == around:
        return None
    rotation[vertex] = order
    return replace(planar, rotation=rotation)


def parts_at(planar: Planarization, vertex: int) -> list[list[int]]:
    """Return the darts of a vertex, grouped by the part that they lead to if the vertex is removed."""
    part_of: dict[int, int] = {}
    parts: list[list[int]] = []
    for dart in planar.rotation[vertex]:
        end = planar.tail[dart ^ 1]
        if end not in part_of:
            part_of |= dict.fromkeys(reached(planar, [dart], (vertex,)), len(parts))
            parts.append([])
        parts[part_of[end]].append(dart)
    return parts


def shifted(faces: Faces, dice: random.Random) -> Planarization | None:
    """Return the embedding with an edge or a vertex put back at random where it crosses least, or `None` if the graph would be
    disconnected without it."""
    planar = faces.planar
    ends = [(planar.tail[chain[0]], planar.tail[chain[-1] ^ 1]) if chain else (0, 0) for chain in planar.chains]
    search = Reinsertion(LinkedEmbedding.of(planar, ends), [1] * len(ends), dice)
    embedding = search.embedding
    if dice.random() < 0.5:
        edge = dice.choice([number for number, chain in enumerate(planar.chains) if chain])
        first = embedding.start[edge]
        if embedding.face[first] == embedding.face[first ^ 1]:
            return None
        moved = [edge]
        search.move_edge(edge)
    else:
        vertex = dice.randrange(planar.vertex_count)
        if len(planar.rotation[vertex]) < 2 or vertex in faces.cuts:
            return None
        moved = embedding.edges_at[vertex]
        search.move_vertex(vertex)
    for edge in moved:
        others = embedding.crossed(edge)
        if len(set(others)) < len(others) or any(set(ends[edge]) & set(ends[other]) for other in others):
            search.settle()
            break
    return embedding.planarization()
