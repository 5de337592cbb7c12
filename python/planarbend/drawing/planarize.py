"""Makes a graph planar: crossings become vertices of degree 4.

What is planar is embedded as it is: vertex by vertex (`incremental`), or else by networkx. The crossings of each other block
(a part that no single vertex cuts) are found separately: a large planar subgraph of its core (`core`) is embedded, each
further edge is inserted along a shortest path of the dual graph, and edges and vertices are moved to places with fewer
crossings (`reinsert`).
"""
from __future__ import annotations

import random
import sys
from collections.abc import Iterable, Sequence
from typing import Any

from planarbend.drawing.core import Core, core_of
from planarbend.drawing.dual import FIXED
from planarbend.drawing.incremental import fold, incremental_embedding
from planarbend.graph import Partition
from planarbend.drawing.planarization import LinkedEmbedding, Planarization
from planarbend.drawing.reinsert import Reinsertion

Pair = tuple[int, int]

STARTS = 8  # first embeddings that are improved, for each unit of effort
PATIENCE = 2  # consecutive rounds without success after which an embedding is left as it is
WORK = 12_000_000  # darts to pass for each block and unit of effort (about ten seconds), after which the search ends
EASY = 25_000  # darts to pass in search of as few crossings as Euler's formula requires
TEST = 64  # work of a planarity test for each edge that is left when vertices of degree 1 and 2 are folded away, in darts
LEAST_EDGES = 9  # of a graph that is not planar
HOPELESS = 6  # a first embedding may have this many times the allowed crossings: improving it divides them by three at most
MOST_TESTS = 100  # planarity tests for one first embedding


class TooManyCrossings(Exception):
    """No planarization was found with as few crossings as are allowed: `crossings` is the number of the best one that was
    found, or a lower bound for every one."""

    def __init__(self, crossings: int, must: bool = False) -> None:
        """Return the error of a number of crossings, which every planarization must have."""
        super().__init__(f"at least {crossings} crossings" if must else f"{crossings} or more crossings in each attempt")
        self.crossings = crossings


def planarize(vertex_count: int, edges: Sequence[Pair], *, effort: int = 1, seed: int = 0, together: Sequence[int] = (),
              most: int | None = None, order: random.Random | None = None) -> Planarization:
    """Return an embedding of a graph in the plane with few crossings.

    No edge crosses itself or an edge with which it shares an end, and no two edges cross twice.

    `vertex_count`: vertices are 0 to `vertex_count` - 1.
    `edges`: the edges. Several edges between the same vertices are allowed; loops are left out of the embedding. The graph
    need not be connected: then each connected part is embedded separately, and the faces of different parts are unrelated.
    `effort`: how long to search for fewer crossings: 0 is not at all, 1 is the default.
    `seed`: seed of the random choices. The same arguments give the same result.
    `together`: vertices that must all lie on one face of the result; those of each connected part on one face of that part.
    `most`: the number of crossings above which a result is useless. The search ends early if this number is certain or likely
    to be exceeded.
    `order`: puts vertices and edges in a random order first, which leads to another embedding.
    Raises `TooManyCrossings`: if no planarization with at most `most` crossings was found.
    """
    number, plain = list(range(vertex_count)), [edge for edge, (tail, head) in enumerate(edges) if tail != head]
    if order is not None:
        order.shuffle(number)
        order.shuffle(plain)
    ends = [(number[edges[edge][0]], number[edges[edge][1]]) for edge in plain]
    limit = sys.maxsize if most is None else most
    needed = needed_crossings(vertex_count, ends)
    if needed > limit:
        raise TooManyCrossings(needed, must=True)
    found = _planarized(vertex_count, ends, sorted({number[vertex] for vertex in together}), effort, seed, limit)
    number += range(vertex_count, len(found.rotation))
    name = {other: vertex for vertex, other in enumerate(number)}
    chains: list[list[int]] = [[] for _ in edges]
    for edge, chain in zip(plain, found.chains):
        chains[edge] = chain
    tail, rotation = [name[other] for other in found.tail], [found.rotation[other] for other in number]
    return Planarization(tail, rotation, vertex_count, chains)


def _planarized(vertex_count: int, ends: list[Pair], together: list[int], effort: int, seed: int, limit: int) -> Planarization:
    """Return what `planarize` returns for a graph without loops."""
    count, weights = vertex_count, [1] * len(ends)
    if together:
        count, ends, weights = _joined(vertex_count, ends, together)
    around = incremental_embedding(count, ends)
    if around is None and not together:
        certain = _certainly_least(vertex_count, ends, seed)
        if certain is not None:
            return certain
    around = around or _planar(count, ends)
    if around is not None:
        return _read(vertex_count, count, ends, around)[0]
    crossed: list[list[int]] = [[] for _ in ends]
    made = 0
    for block in _blocks(count, ends):
        if len(block) >= LEAST_EDGES and _planar(count, [ends[edge] for edge in block]) is None:
            core = core_of(block, ends, weights, FIXED)
            made = _unfold(core, _least(core, effort, seed, limit - made), crossed, made)
    result = _embedded(vertex_count, count, ends, crossed)
    if result.crossings > limit:
        raise TooManyCrossings(result.crossings)
    return result


def needed_crossings(vertex_count: int, edges: Sequence[Pair]) -> int:
    """Return a lower bound for the crossings of every drawing of the graph.

    By Euler's formula, and by the crossing lemma in the form of Ackerman (2019) for seven or more edges per vertex.
    """
    count = len({(min(pair), max(pair)) for pair in edges if pair[0] != pair[1]})
    needed = count - (3 * vertex_count - 6) if vertex_count > 2 else 0
    if count >= 7 * vertex_count > 0:
        needed = max(needed, count ** 3 // (29 * vertex_count ** 2))
    return max(0, needed)


def _certainly_least(vertex_count: int, ends: Sequence[Pair], seed: int) -> Planarization | None:
    """Return an embedding with as many crossings as Euler's formula requires, so that no other has fewer, of a graph that is
    not planar; `None` if a short search finds none, or there are parallel edges, or a vertex that would leave others without
    edges, or parts of the graph apart, if it were moved."""
    if len({frozenset(pair) for pair in ends}) < len(ends):
        return None
    least = needed_by_cycles(vertex_count, ends)
    if not least or _has_cuts(vertex_count, ends):
        return None
    dice, work = random.Random(seed + 1), 0  # other choices than `choose` makes
    while work < EASY:
        search = Reinsertion(LinkedEmbedding(vertex_count, ends), [1] * len(ends), dice)
        search.put_all()
        search.improve(PATIENCE, EASY - work)
        if search.cost == least:
            search.settle()
            return search.embedding.planarization()
        work += search.work
    return None


def needed_by_cycles(vertex_count: int, ends: Sequence[Pair]) -> int:
    """Return a lower bound for the crossings of a simple graph: by Euler's formula, a planar graph without cycles shorter than
    g has at most g (n - 2) / (g - 2) edges, and removing one edge for each crossing makes the graph planar."""
    joined: list[list[int]] = [[] for _ in range(vertex_count)]
    for tail, head in ends:
        joined[tail].append(head)
        joined[head].append(tail)
    girth = vertex_count + 1
    for vertex in range(vertex_count):
        girth = _shortest_cycle(joined, vertex, girth)
    if girth > vertex_count:
        return 0
    return max(0, len(ends) - girth * (vertex_count - 2) // (girth - 2))


def _shortest_cycle(joined: Sequence[Sequence[int]], start: int, shortest: int) -> int:
    """Return the length of a shortest cycle through a vertex of a simple graph, or of a cycle that is no longer; `shortest` if
    none that is shorter is found."""
    distance, parent = {start: 0}, {start: start}
    waiting = [start]
    for vertex in waiting:
        if 2 * distance[vertex] + 1 >= shortest:
            break
        for other in joined[vertex]:
            if other not in distance:
                distance[other], parent[other] = distance[vertex] + 1, vertex
                waiting.append(other)
            elif parent[vertex] != other:
                shortest = min(shortest, distance[vertex] + distance[other] + 1)
    return shortest


def _joined(vertex_count: int, ends: list[Pair], together: list[int]) -> tuple[int, list[Pair], list[int]]:
    """Return the graph with one more vertex in each connected part, joined to those that are to lie on one face: the number of
    its vertices, its edges, and their weights."""
    parts = Partition(vertex_count)
    for tail, head in ends:
        parts.unite(head, tail)
    members: dict[int, list[int]] = {}
    for vertex in together:
        members.setdefault(parts.find(vertex), []).append(vertex)
    added = [(vertex_count + place, vertex) for place, vertices in enumerate(members.values()) for vertex in vertices]
    return vertex_count + len(members), ends + added, [1] * len(ends) + [FIXED] * len(added)


def _graph(vertex_count: int, ends: Iterable[Pair]) -> Any:
    """Return a networkx graph."""
    import networkx  # slow to load

    graph = networkx.Graph()
    graph.add_nodes_from(range(vertex_count))
    graph.add_edges_from(ends)
    return graph


def _planar(vertex_count: int, ends: Iterable[Pair]) -> list[list[int]] | None:
    """Return for each vertex its neighbours, clockwise, in an embedding by networkx; `None` if the graph is not planar."""
    import networkx

    embedding = networkx.check_planarity(_graph(vertex_count, ends))[1]
    if embedding is None:
        return None
    return [list(embedding.neighbors_cw_order(vertex)) if embedding.degree(vertex) else [] for vertex in range(vertex_count)]


def _has_cuts(vertex_count: int, ends: Sequence[Pair]) -> bool:
    """Return whether a graph has a cut vertex, or a vertex of degree 0 or 1."""
    import networkx

    graph = _graph(vertex_count, ends)
    return min(len(graph[vertex]) for vertex in graph) < 2 or any(True for _ in networkx.articulation_points(graph))


def _blocks(vertex_count: int, ends: Sequence[Pair]) -> list[list[int]]:
    """Return the edges of each block."""
    import networkx

    block_of: dict[Pair, int] = {}
    blocks = list(networkx.biconnected_component_edges(_graph(vertex_count, ends)))
    for number, pairs in enumerate(blocks):
        for tail, head in pairs:
            block_of[tail, head] = block_of[head, tail] = number
    members: list[list[int]] = [[] for _ in blocks]
    for edge, pair in enumerate(ends):
        members[block_of[pair]].append(edge)
    return members


class _Starts:
    """First embeddings of a core, each at random: a planar part, then each further edge where it crosses least."""

    def __init__(self, core: Core, seed: int) -> None:
        """Return the source of first embeddings for a seed."""
        self.core, self.dice = core, random.Random(seed)
        self.work = 0  # darts that the planarity tests have passed so far, counted as in `Reinsertion.work`

    def next(self, limit: int = sys.maxsize) -> Reinsertion:
        """Return another embedding, or raise `TooManyCrossings` if its crossings cost more than the limit."""
        core = self.core
        order = sorted(range(len(core.ends)), key=lambda edge: (core.weights[edge] != FIXED, self.dice.random()))
        search = Reinsertion(self._linked(self._planar_part(order)), core.weights, self.dice)
        for edge in order:
            if search.embedding.start[edge] < 0:
                search.put(edge)
            if search.cost > limit:
                raise TooManyCrossings(search.cost)
        return search

    def _linked(self, around: Sequence[Sequence[int]]) -> LinkedEmbedding:
        """Return the embedding of edges of the core with these neighbours, clockwise. Its pieces are numbered from vertex to
        vertex, counter-clockwise about each."""
        ends = self.core.ends
        edge_of = {pair: edge for edge, pair in enumerate(ends)}
        tail: list[int] = []
        dart: dict[Pair, int] = {}
        chains: list[list[int]] = [[] for _ in ends]
        for vertex, others in enumerate(around):
            for pair in ((vertex, other) for other in reversed(others) if (vertex, other) not in dart):
                pair = pair if pair in edge_of else pair[::-1]
                dart[pair], dart[pair[::-1]], chains[edge_of[pair]] = len(tail), len(tail) + 1, [len(tail)]
                tail += pair
        rotation = [[dart[vertex, other] for other in others] for vertex, others in enumerate(around)]
        return LinkedEmbedding.of(Planarization(tail, rotation, len(around), chains), ends)

    def _planar_part(self, order: Sequence[int]) -> list[list[int]]:
        """Return the embedding of a large planar subgraph: a tree, then further edges in order while it stays planar.

        Many edges are tried at once, and halves of them if this fails. After `MOST_TESTS` tests the rest is left out.
        """
        parts, kept, rest = Partition(len(self.core.vertices)), list[Pair](), list[Pair]()
        for edge in order:
            pair = self.core.ends[edge]
            (kept if parts.unite(*pair) else rest).append(pair)
        waiting = [rest]
        for _ in range(MOST_TESTS):
            if not waiting:
                break
            some = waiting.pop()
            if self._test(kept + some):
                kept += some
            elif len(some) > 1:
                middle = len(some) // 2
                waiting += (some[middle:], some[:middle])
        embedding = _planar(len(self.core.vertices), kept)
        assert embedding is not None, "the tested part is planar"
        return embedding

    def _test(self, pairs: list[Pair]) -> bool:
        """Return whether edges of the core, which connect it, make a planar graph."""
        joined: list[set[int]] = [set() for _ in self.core.vertices]
        for tail, head in pairs:
            joined[tail].add(head)
            joined[head].add(tail)
        fold(joined)
        number = {vertex: place for place, vertex in enumerate(vertex for vertex, others in enumerate(joined) if others)}
        rest = [(place, number[other]) for vertex, place in number.items() for other in joined[vertex] if vertex < other]
        self.work += TEST * len(rest)
        return not rest or _planar(len(number), rest) is not None


def _least(core: Core, effort: int, seed: int, limit: int) -> LinkedEmbedding:
    """Return an embedding of a core with few crossings, the best of several starts; raise `TooManyCrossings` if the first has
    far more than the limit, so that no search would reach it."""
    starts = _Starts(core, seed)
    best = starts.next(HOPELESS * max(limit, 1))
    work = 0
    for number in range(STARTS * effort):
        search = starts.next() if number else best
        before = search.work
        search.improve(PATIENCE, before + max(0, WORK * effort - work - starts.work))
        work += search.work
        if search.cost < best.cost:
            best = search
        if best.cost <= 1 or work + starts.work > WORK * effort:
            break
    best.settle()
    return best.embedding


def _unfold(core: Core, embedding: LinkedEmbedding, crossed: list[list[int]], made: int) -> int:
    """Return the number of crossings so far, which was `made`, after those of a core's folded edges were written to `crossed`:
    for each edge of the graph the crossings on it, from its tail to its head."""
    strands = core.strands
    chains = [embedding.chain(edge) for edge in range(len(core.ends))]
    forward = {dart for chain in chains for dart in chain}
    first: dict[int, int] = {}
    for edge, chain in enumerate(chains):
        meetings: list[list[int]] = [[] for _ in strands[edge]]
        for dart in chain[1:]:
            crossing = embedding.origin[dart]
            left = embedding.back[dart] ^ 1
            other = embedding.edge[left >> 1]
            width = len(strands[other])
            if crossing not in first:
                first[crossing] = made
                made += width * len(strands[edge])
            # Who goes to the left is met first by the strand that is its left one.
            order = range(width) if left in forward else range(width - 1, -1, -1)
            for place, found in enumerate(meetings):
                if edge < other:
                    found += (first[crossing] + place * width + beside for beside in order)
                else:
                    found += (first[crossing] + beside * len(strands[edge]) + place for beside in order)
        for strand, found in zip(strands[edge], meetings):
            crossed[strand.edge] = found[::-1] if strand.reversed else found
    return made


def _embedded(vertex_count: int, count: int, ends: Sequence[Pair], crossed: list[list[int]]) -> Planarization:
    """Return the embedding of the graph with the given crossings, without the vertices from `vertex_count` to `count`."""
    while True:
        numbers = sorted({crossing for found in crossed for crossing in found})
        name = {crossing: count + place for place, crossing in enumerate(numbers)}
        lines = [[tail, *(name[crossing] for crossing in found), head] for (tail, head), found in zip(ends, crossed)]
        around = _planar(count + len(numbers), (pair for line in lines for pair in zip(line, line[1:])))
        assert around is not None, "crossings that do not make the graph planar"
        result, touching = _read(vertex_count, count, lines, around)
        if not touching:
            return result
        undone = {numbers[place] for place in touching}
        crossed = [[crossing for crossing in found if crossing not in undone] for found in crossed]


def _read(vertex_count: int, count: int, lines: Sequence[Sequence[int]], neighbours: Sequence[Sequence[int]]
          ) -> tuple[Planarization, list[int]]:
    """Return a planarization by an embedding without parallel pieces, which then lie side by side, and without the vertices
    from `vertex_count` to `count`; and the crossings in which two edges only touch."""
    tails: list[int] = []
    chains: list[list[int]] = []
    edge_of: list[int] = []
    between: dict[Pair, list[int]] = {}
    shift = count - vertex_count
    for edge, line in enumerate(lines):
        if vertex_count <= line[0] < count:
            continue
        chains.append([])
        for tail, head in zip(line, line[1:]):
            dart = len(tails)
            tails += (tail if tail < count else tail - shift, head if head < count else head - shift)
            edge_of.append(edge)
            chains[-1].append(dart)
            between.setdefault((tail, head), []).append(dart)
            between.setdefault((head, tail), []).insert(0, dart + 1)
    rotation: list[list[int]] = []
    touching: list[int] = []
    for vertex in [*range(vertex_count), *range(count, len(neighbours))]:
        around = [dart for other in neighbours[vertex] for dart in between.get((vertex, other), ())]
        rotation.append(around)
        if vertex >= count and edge_of[around[0] >> 1] != edge_of[around[2] >> 1]:
            touching.append(vertex - count)
    return Planarization(tails, rotation, vertex_count, chains), touching
