#!/usr/bin/env python3
"""Prints a planar_code file of graphs of degree at most 4; those of more than 255 vertices in the two-byte form.

  generate.py KIND VERTICES COUNT SEED    random graphs: VERTICES is met as nearly as the kind allows
    cubic     duals of random triangulations; an even number of vertices
    medial    medial graphs of random triangulations, so 4-regular; a multiple of 3
    grid      connected parts of a square grid
    tree      random trees
    nested    prisms round one another: cycles of as many vertices as there are cycles, joined one to the next
    triangles the same with cycles of three vertices
    chain     triangles, each with one vertex of the next
    leaves    a cycle with a leaf at each vertex, all on one side
    mixed     one of the first three, of any size up to VERTICES, without a random share of the edges that are not
              needed to connect it
  generate.py KIND                        fixed graphs
    copies    twelve copies of a tree and of a path, in turn (crates/corpus/data/copies.pc). The tree has ten vertices,
              none of degree 2; the path has forty. Both can be drawn without bends and with edges of length 1, the path
              without a turn, so they are 9 and 39 long, and longer in quick drawings.
    prism     the medial graph of a prism over a cycle of 85 vertices (crates/corpus/data/prism85.pc), numbered by a
              breadth-first search: its vertices are the 255 edges of the prism, and two are joined if one follows the
              other round a face.
    growing   graphs that grow by an edge each to that one, from one edge to 510: of every order from 2 to 255 and every
              number of faces from 1 to 257. Each has its first edges, by their greater ends and then their lesser
              ones, and keeps the order of neighbours. The program `corpus` makes them too.
    families  graphs whose fewest bends are known (crates/corpus/data/families.pc). Paths of 2 to 40 vertices, cycles of
              4 to 40 and of 255, stars of 2 to 4 leaves and grids of 2 to 6 by 2 to 6 vertices need no bend; a triangle
              needs 1, K4 and each prism over a cycle of 3 to 12 need 4, the octahedron, which is the antiprism over a
              triangle, needs 12, and an antiprism over a cycle of k = 4 to 12 needs 2k + 4.

Needs Python's standard library alone, and takes a few milliseconds a graph of 250 vertices.
"""
import cmath
import math
import os
import random
import sys
from collections.abc import Callable, Iterator

sys.path.insert(0, os.path.join(os.path.dirname(os.path.abspath(__file__)), "../../checks"))
import programs
from planarbend.layout.planar_code import HEADER, MOST_VERTICES, Lists, record_of, wide_record_of

MOST_DEGREE = 4
TREE = [[2, 3, 4], [1, 5, 6], [1, 7, 8], [1, 9, 10], [2], [2], [3], [3], [4], [4]]
PATH = [[2], *([at - 1, at + 1] for at in range(2, 40)), [39]]
SIDES = 85

Rotation = dict[int, list[int]]  # the neighbours of each vertex, clockwise, from 0
Dart = tuple[int, int]
Placed = tuple[list[complex], list[Dart]]  # the places of vertices, and edges


def triangulation(corners: int, rng: random.Random) -> Rotation:
    """A random triangulation of the sphere."""
    # Each face (a, b, c) is walked with itself on one side: in each corner b, a follows c in b's rotation.
    rotation = {0: [1, 2], 1: [2, 0], 2: [0, 1]}
    faces = [(0, 1, 2), (0, 2, 1)]
    for new in range(3, corners):
        a, b, c = faces[at := rng.randrange(len(faces))]
        for v, before in ((a, c), (b, a), (c, b)):
            rotation[v].insert(rotation[v].index(before) + 1, new)
        rotation[new] = [a, c, b]
        faces[at] = (a, b, new)
        faces += [(b, c, new), (c, a, new)]
    return rotation


def darts_after(rotation: Rotation) -> dict[Dart, Dart]:
    """The dart after each one round its tail."""
    return {(v, w): (v, after) for v, around in rotation.items() for w, after in zip(around, around[1:] + around[:1])}


def dual(rotation: Rotation) -> Rotation:
    """The dual graph, its vertices numbered as the faces are met."""
    after, face, walks = darts_after(rotation), {}, []
    for dart in after:
        if dart in face:
            continue
        walk, at = [], dart
        while at not in face:
            face[at] = len(walks)
            walk.append(at)
            at = after[(at[1], at[0])]
        walks.append(walk)
    return {f: [face[(b, a)] for a, b in reversed(walk)] for f, walk in enumerate(walks)}


def medial(rotation: Rotation) -> Rotation:
    """The medial graph, its vertices in the order of the lesser darts."""
    after = darts_after(rotation)
    before = {d: e for e, d in after.items()}
    edges = [(a, b) for a, b in after if a < b]
    number = {dart: at for at, (a, b) in enumerate(edges) for dart in ((a, b), (b, a))}
    return {at: [number[other] for other in (before[(a, b)], after[(a, b)], before[(b, a)], after[(b, a)])]
            for at, (a, b) in enumerate(edges)}


def grid_part(vertices: int, rng: random.Random) -> Rotation:
    """A connected part of a square grid."""
    clockwise = ((0, 1), (1, 0), (0, -1), (-1, 0))
    cells, edge = {(0, 0)}, [(0, 0)]
    while len(cells) < vertices:
        (x, y), (dx, dy) = rng.choice(edge), rng.choice(clockwise)
        if (cell := (x + dx, y + dy)) not in cells:
            cells.add(cell)
            edge.append(cell)
    number = {cell: at for at, cell in enumerate(sorted(cells))}
    return {number[(x, y)]: [number[(x + dx, y + dy)] for dx, dy in clockwise if (x + dx, y + dy) in cells]
            for x, y in cells}


def tree(vertices: int, rng: random.Random) -> Rotation:
    """A random tree."""
    rotation: Rotation = {0: []}
    for new in range(1, vertices):
        while len(rotation[at := rng.randrange(new)]) == MOST_DEGREE:
            pass
        rotation[at].insert(rng.randint(0, len(rotation[at])), new)
        rotation[new] = [at]
    return rotation


def rings(cycles: int, sides: int) -> Rotation:
    """Cycles round one another, the first of them inside, each joined to the next vertex by vertex."""
    return {sides * cycle + at: [*([sides * (cycle + 1) + at] if cycle + 1 < cycles else []), sides * cycle + (at + 1) % sides,
                                 *([sides * (cycle - 1) + at] if cycle else []), sides * cycle + (at - 1) % sides]
            for cycle in range(cycles) for at in range(sides)}


def nested(vertices: int, _: random.Random) -> Rotation:
    """Rings of as many vertices as there are rings."""
    sides = max(3, math.isqrt(vertices))
    return rings(max(1, vertices // sides), sides)


def chain(vertices: int, _: random.Random) -> Rotation:
    """Triangles, each with one vertex of the next."""
    rotation: Rotation = {at: [] for at in range(vertices - 1 + vertices % 2)}
    for first in range(0, len(rotation) - 1, 2):
        for at in range(3):
            rotation[first + at] += [first + (at + 1) % 3, first + (at + 2) % 3]
    return rotation


def with_leaves(sides: int, leaves: int) -> Rotation:
    """A cycle, with the face on the left of the dart from 0 to 1 inside, and leaves outside at each vertex."""
    rotation = {at: [(at + 1) % sides, *range(sides + at * leaves, sides + (at + 1) * leaves), (at - 1) % sides]
                for at in range(sides)}
    return rotation | {sides + leaf: [leaf // leaves] for leaf in range(sides * leaves)}


def thinned(rotation: Rotation, rng: random.Random) -> Rotation:
    """The same without a random share of the edges, and still connected."""
    edges = [(v, w) for v, around in rotation.items() for w in around if v < w]
    rng.shuffle(edges)
    part, kept, share = {v: v for v in rotation}, set(), rng.random()

    def root(v: int) -> int:
        while part[v] != v:
            v = part[v]
        return v

    for v, w in edges:
        one, other = root(v), root(w)
        if one != other or rng.random() < share:
            kept |= {(v, w), (w, v)}
        part[one] = other
    return {v: [w for w in around if (v, w) in kept] for v, around in rotation.items()}


def mixed(vertices: int, rng: random.Random) -> Rotation:
    size = rng.randint(6, vertices)
    return thinned(RANDOM[rng.choice(("cubic", "medial", "grid"))](size, rng), rng)


RANDOM: dict[str, Callable[[int, random.Random], Rotation]] = {
    "cubic": lambda vertices, rng: dual(triangulation(vertices // 2 + 2, rng)),
    "medial": lambda vertices, rng: medial(triangulation(vertices // 3 + 2, rng)),
    "grid": grid_part, "tree": tree, "nested": nested, "mixed": mixed, "chain": chain,
    "triangles": lambda vertices, _: rings(vertices // 3, 3), "leaves": lambda vertices, _: with_leaves(vertices // 2, 1)}


def numbered(rotation: Rotation) -> Lists:
    """The lists of neighbours, from 1, of the vertices in their order."""
    return [[other + 1 for other in rotation[vertex]] for vertex in range(len(rotation))]


def relabelled(rotation: Rotation, rng: random.Random) -> Lists:
    """The lists of neighbours, from 1, of the vertices in a random order."""
    names = list(rotation)
    rng.shuffle(names)
    place = {v: at for at, v in enumerate(names, 1)}
    return [[place[w] for w in rotation[v]] for v in names]


def random_graphs(kind: str, vertices: int, count: int, seed: int) -> Iterator[Lists]:
    """Random graphs of a kind, without parallel edges and loops."""
    rng, made = random.Random(seed), 0
    while made < count:
        lists = relabelled(RANDOM[kind](vertices, rng), rng)
        if all(len(set(around)) == len(around) and at + 1 not in around for at, around in enumerate(lists)):
            yield lists
            made += 1


def medial_of_prism() -> Lists:
    """The last of the growing graphs."""
    rotation = {i: [(i + 1) % SIDES, SIDES + i, (i - 1) % SIDES] for i in range(SIDES)}
    rotation |= {SIDES + i: [SIDES + (i + 1) % SIDES, SIDES + (i - 1) % SIDES, i] for i in range(SIDES)}
    return by_breadth([around[-1:] + around[:-1] for around in medial(rotation).values()])


def by_breadth(lists: Lists) -> Lists:
    """The same graph, its vertices numbered by a breadth-first search, and from 1."""
    order = [0]
    for vertex in order:  # which grows
        order += [other for other in lists[vertex] if other not in order]
    place = {vertex: number for number, vertex in enumerate(order, 1)}
    return [[place[other] for other in lists[vertex]] for vertex in order]


def growing(lists: Lists) -> Iterator[Lists]:
    """The graphs of the first edges, of one, two and so on up to all."""
    for last in range(2, len(lists) + 1):
        for most in sorted(other for other in lists[last - 1] if other < last):
            yield [[other for other in around if (max(vertex, other), min(vertex, other)) <= (last, most)]
                   for vertex, around in enumerate(lists[:last], 1)]


def circle(count: int, radius: float, turn: float) -> list[complex]:
    """Places on a circle."""
    return [cmath.rect(radius, 2 * math.pi * (i + turn) / count) for i in range(count)]


def ring(first: int, count: int) -> list[Dart]:
    """The edges of a cycle through consecutive vertices."""
    return [(first + i, first + (i + 1) % count) for i in range(count)]


def cycle(n: int) -> Placed:
    return circle(n, 1, 0), ring(0, n)


def star(leaves: int) -> Placed:
    return [0, *circle(leaves, 1, 0)], [(0, i + 1) for i in range(leaves)]


def grid(a: int, b: int) -> Placed:
    edges = [(x * b + y, x * b + y + 1) for x in range(a) for y in range(b - 1)]
    edges += [(x * b + y, x * b + y + b) for x in range(a - 1) for y in range(b)]
    return [complex(x, y) for x in range(a) for y in range(b)], edges


def prism(k: int) -> Placed:
    return circle(k, 2, 0) + circle(k, 1, 0), ring(0, k) + ring(k, k) + [(i, k + i) for i in range(k)]


def antiprism(k: int) -> Placed:
    spokes = [(i, k + i) for i in range(k)] + [((i + 1) % k, k + i) for i in range(k)]
    return circle(k, 3, 0) + circle(k, 1, 0.5), ring(0, k) + ring(k, k) + spokes


def families() -> list[tuple[Placed, int]]:
    """Each graph with its fewest bends."""
    places, spokes = star(3)
    return [*((grid(n, 1), 0) for n in range(2, 41)), *((cycle(n), int(n == 3)) for n in range(3, 41)),
            *((star(leaves), 0) for leaves in range(2, 5)), *((grid(a, b), 0) for a in range(2, 7) for b in range(2, 7)),
            *((prism(k), 4) for k in range(3, 13)), *((antiprism(k), 12 if k == 3 else 2 * k + 4) for k in range(3, 13)),
            ((places, ring(1, 3) + spokes), 4), (cycle(255), 0)]


def drawn(graph: Placed) -> Lists:
    """The lists of neighbours, from 1, clockwise by where they lie."""
    places, edges = graph
    around: Rotation = {vertex: [] for vertex in range(len(places))}
    for v, w in edges:
        around[v].append(w)
        around[w].append(v)
    for vertex, place in enumerate(places):
        around[vertex].sort(key=lambda w: -cmath.phase(places[w] - place))
    return numbered(around)


def form_of(lists: Lists) -> bytes:
    """The record with these neighbour lists: of more than 255 vertices in the two-byte form, after a byte 0."""
    return record_of(lists) if len(lists) <= MOST_VERTICES else b"\0" + wide_record_of(lists).tobytes()


FIXED: dict[str, Callable[[], Iterator[Lists]]] = {
    "copies": lambda: iter([TREE, PATH] * 12),
    "prism": lambda: iter([medial_of_prism()]), "growing": lambda: growing(medial_of_prism()),
    "families": lambda: (drawn(graph) for graph, _ in families())}


def main() -> None:
    parser = programs.parser_of(
        __doc__, ("kind", {"metavar": "KIND", "choices": [*RANDOM, *FIXED], "help": ", ".join([*RANDOM, *FIXED])}),
        ("numbers", {"metavar": "NUMBER", "type": int, "nargs": "*", "help": "of random graphs: VERTICES COUNT SEED"}))
    told = parser.parse_args()
    if len(told.numbers) != (3 if told.kind in RANDOM else 0):
        parser.error("VERTICES, COUNT and SEED go with random graphs")
    graphs = random_graphs(told.kind, *told.numbers) if told.kind in RANDOM else FIXED[told.kind]()
    sys.stdout.buffer.write(HEADER)
    sys.stdout.buffer.writelines(map(form_of, graphs))


if __name__ == "__main__":
    main()
