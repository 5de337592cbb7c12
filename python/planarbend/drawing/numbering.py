"""An expansion as it is passed to planarbend: with its nodes in some order, and one of its faces as the outer face.

planarbend takes at most 1,200 nodes, and the program alone 255. If an expansion has more, vertices of degree 2 are left out;
each is later put back in the middle of the line that replaces it.
"""
from __future__ import annotations

from collections.abc import Iterable, Iterator, Sequence
from dataclasses import dataclass

from planarbend.drawing.expand import Expansion
from planarbend.layout.embedding import Embedding
from planarbend.layout.engine import Answer, Conditions, GridPoint
from planarbend.layout.planar_code import Lists

LEAST_CORNERS = 4  # nodes of a cage, of which a smaller one, or one that is no larger, has its corners between nodes
Paths = dict[int, list[GridPoint]]  # of darts: the points along each, in one of its two directions


class Contraction(Embedding):
    """An expansion without some of its nodes of degree 2, whose rotations are empty.

    `runs`: for each dart that leads past nodes that are left out, the darts of the expansion along it.
    """

    def __init__(self, expansion: Expansion, room: int = 0, kept: Sequence[int] = ()) -> None:
        """Return an expansion with room for as many further nodes; these nodes are not left out."""
        super().__init__(expansion.tail, expansion.rotation)
        self.expansion = expansion
        self.runs: dict[int, list[int]] = {}
        excess = len(self.rotation) + room - expansion.most
        if excess > 0:
            self.tail, self.rotation = list(self.tail), list(self.rotation)
            self._leave_out([nodes[0] for nodes in expansion.homes if nodes[0] not in kept], excess)

    @property
    def nodes(self) -> list[int]:
        """The nodes that are not left out."""
        return [node for node, darts in enumerate(self.rotation) if darts]

    def along(self, dart: int) -> list[int]:
        """Return the darts of the expansion along a dart."""
        return self.runs.get(dart, [dart])

    def _leave_out(self, nodes: list[int], excess: int) -> None:
        """Leave out as many of these nodes as are in excess and have degree 2, unless their neighbours are joined."""
        tail, rotation = self.tail, self.rotation
        for node in nodes:
            if len(rotation[node]) != 2:
                continue
            back, on = rotation[node]
            other = tail[on ^ 1]
            if other in (tail[dart ^ 1] for dart in rotation[tail[back ^ 1]]):
                continue
            rotation[other] = [back if dart == on ^ 1 else dart for dart in rotation[other]]
            run = self.along(back ^ 1) + self.runs.pop(on, [on])
            self.runs.pop(on ^ 1, None)
            self.runs[back ^ 1], self.runs[back] = run, [dart ^ 1 for dart in reversed(run)]
            tail[back], rotation[node] = other, []
            excess -= 1
            if not excess:
                return

    def add_tail(self, dart: int, length: int) -> int:
        """Return the dart from a new vertex in the middle of a dart to its head; the vertex has a path of this length in the
        face on its left."""
        middle, head, on = len(self.rotation), self.tail[dart ^ 1], len(self.tail)
        self.tail, self.rotation = [*self.tail, middle, head], list(self.rotation)
        self.tail[dart ^ 1] = middle
        self.rotation[head] = [on ^ 1 if out == dart ^ 1 else out for out in self.rotation[head]]
        for node in range(middle, middle + length):
            self.tail += (node, node + 1)
        steps = range(on + 2, len(self.tail), 2)
        self.rotation.append([dart ^ 1, steps[0], on])
        self.rotation += [[step ^ 1, step + 2] for step in steps[:-1]] + [[steps[-1] ^ 1]]
        return on


@dataclass(frozen=True, slots=True)
class Form:
    """An expansion as it is passed to planarbend. The vertices of the tail that makes a face the longest have no node: their
    numbers are above all nodes."""

    lists: Lists
    order: list[int]  # the node of each vertex
    graph: Contraction  # whose neighbour lists these are
    divided: tuple[int, int] | None = None  # a dart with one more vertex in its middle, and the dart from there to its head

    def places(self, answer: Answer) -> tuple[list[GridPoint], Paths]:
        """Return the place of each node, y downwards, and the points along each dart, in at least one direction."""
        graph, tail = self.graph, self.graph.expansion.tail
        scale = max(map(len, graph.runs.values()), default=1)
        points = [(0, 0)] * len(graph.rotation)
        for node, (x, y) in zip(self.order, answer.points):
            points[node] = x * scale, -y * scale
        paths: Paths = {}
        corners = iter(answer.corners)
        for place, (node, heads) in enumerate(zip(self.order, self.lists), 1):
            for dart, head in zip(graph.rotation[node], heads):
                if place < head:
                    between = [(x * scale, -y * scale) for x, y in next(corners)]
                    paths[dart] = [points[node], *between, points[self.order[head - 1]]]
        if self.divided is not None:
            first, last = self.divided
            paths[first] = path_of(paths, first) + path_of(paths, last)[1:]
            paths.pop(first ^ 1, None)
        for dart, run in graph.runs.items():
            if tail[run[0]] < tail[run[-1] ^ 1]:
                whole = path_of(paths, dart)
                paths.pop(dart ^ 1, None)  # the dart's number is that of one of the run
                put_back(points, paths, run, [tail[inner] for inner in run[1:]], whole)
        return points[:len(graph.expansion.rotation)], paths


def path_of(paths: Paths, dart: int) -> list[GridPoint]:
    """Return the points along a dart."""
    return paths[dart] if dart in paths else paths[dart ^ 1][::-1]


def put_back(points: list[GridPoint], paths: Paths, run: Sequence[int], inner: Sequence[int], whole: list[GridPoint]) -> None:
    """Place nodes that were left out between the darts of a run: on the longest straight part of the line along it."""
    lengths = [abs(c - a) + abs(d - b) for (a, b), (c, d) in zip(whole, whole[1:])]
    longest = lengths.index(max(lengths))
    (x, y), (right, below) = whole[longest:longest + 2]
    step = lengths[longest] // len(run)
    across, down = ((right > x) - (right < x)) * step, ((below > y) - (below < y)) * step
    for place, node in enumerate(inner, 1):
        points[node] = x + place * across, y + place * down
    for dart, one, other in zip(run[1:], inner, inner[1:]):
        paths[dart] = [points[one], points[other]]
    paths[run[0]] = [*whole[:longest + 1], points[inner[0]]]
    paths[run[-1]] = [points[inner[-1]], *whole[longest + 1:]]


def form_of(graph: Contraction, order: Sequence[int], divided: tuple[int, int] | None = None) -> Form:
    """Return the form whose vertices are these nodes in this order."""
    number = [0] * len(graph.rotation)
    for vertex, node in enumerate(order, 1):
        number[node] = vertex
    tail = graph.tail
    lists = [[number[tail[dart ^ 1]] for dart in graph.rotation[node]] for node in order]
    return Form(lists, list(order), graph, divided)


def conditions_of(form: Form, edges: Iterable[int], has_outer: bool) -> Conditions:
    """Return what a layout of a form has to keep: boxes are rectangles with their insides inside, and some edges are straight.

    A cage whose pieces are straight is a rectangle with its corners at nodes, since each node has three connections; a spine
    whose pieces are straight is a line. If the form already has its outer face, no face needs to be kept inside.
    """
    graph, expansion = form.graph, form.graph.expansion
    straight, inner = [dart for edge in edges for dart in expansion.chains[edge]], []
    for vertex in sorted(expansion.plan.cages):
        if len(expansion.homes[vertex]) > LEAST_CORNERS:
            straight += expansion.sides[vertex]
        inner.append(expansion.sides[vertex][0] ^ 1)
    for vertex in sorted(expansion.spines):
        straight += expansion.sides[vertex]
    number = {node: place for place, node in enumerate(form.order, 1)}
    stand_in = {one: dart for dart, run in graph.runs.items() for one in run}
    halves = dict.fromkeys((form.divided[0], form.divided[0] ^ 1), form.divided) if form.divided else {}
    kept: dict[tuple[int, int], None] = {}
    for one in straight:
        dart = stand_in.get(one, one)
        for half in halves.get(dart, (dart,)):
            ends = number[graph.tail[half]], number[graph.tail[half ^ 1]]
            kept[min(ends), max(ends)] = None
    sides = () if has_outer else tuple((number[expansion.tail[dart]], number[expansion.tail[dart ^ 1]]) for dart in inner)
    return Conditions(tuple(kept), sides)


def outer_forms(expansion: Expansion, outer: Sequence[int] = ()) -> Iterator[Form]:
    """Yield forms with one face after another as the outer face, longest first; never the inner face of a cage. Only faces
    with the vertices of `outer` on them."""
    graph = Contraction(expansion)
    if len(graph.nodes) > expansion.most:
        return
    home = {node: vertex for vertex, nodes in enumerate(expansion.homes) for node in nodes}
    cage_of = {node: vertex for vertex in expansion.plan.cages for node in expansion.homes[vertex]}
    walks = []
    for walk in graph.walks:
        owners = {cage_of.get(graph.tail[dart]) for dart in walk}
        met = {home.get(expansion.tail[one]) for dart in walk for one in graph.along(dart)} if outer else set()
        if (None in owners or len(owners) > 1) and met.issuperset(outer):
            walks.append(walk)
    most = max(map(len, graph.walks))
    walks.sort(key=lambda walk: (-len(walk), graph.tail[walk[0]], graph.tail[walk[0] ^ 1]))
    for walk in walks:
        form = form_with_outer(graph, walk, most)
        if form is not None:
            yield form


def form_with_outer(graph: Contraction, walk: list[int], most: int) -> Form | None:
    """Return a form of which `first` takes this face: the face begins with the first dart, and has a tail if others are
    longer. None if this takes too many vertices."""
    expansion = graph.expansion
    if len(walk) == most:
        graph = Contraction(expansion)
        tail, first = graph.tail[walk[0]], graph.rotation[graph.tail[walk[0]]].index(walk[0])
        graph.rotation = list(graph.rotation)
        graph.rotation[tail] = graph.rotation[tail][first:] + graph.rotation[tail][:first]
        return form_of(graph, [tail, *(node for node in graph.nodes if node != tail)])
    chosen = tail_place(graph, walk)
    tail, head = graph.tail[chosen], graph.tail[chosen ^ 1]
    length = (most - len(walk)) // 2 + 1
    graph = Contraction(expansion, 1 + length, (tail, head))
    dart = next((dart for dart in graph.rotation[tail] if graph.tail[dart ^ 1] == head), None)
    if dart is None or len(graph.nodes) + 1 + length > expansion.most:
        return None
    if graph.runs and tail_needed(graph, dart) > length:
        return None
    on = graph.add_tail(dart, length)
    return form_of(graph, graph.nodes, (dart, on))


def tail_needed(graph: Contraction, dart: int) -> int:
    """Return the length of a tail that makes the face to the left of a dart the longest."""
    lengths = [len(walk) for walk in graph.walks]
    return (max(lengths) - lengths[graph.face[dart]]) // 2 + 1


def tail_place(graph: Contraction, walk: list[int]) -> int:
    """Return the dart of a face that gets a tail: one of an edge, if there is one."""
    home = {node: vertex for vertex, nodes in enumerate(graph.expansion.homes) for node in nodes}
    return next((dart for dart in walk if home.get(graph.tail[dart], -1) != home.get(graph.tail[dart ^ 1], -2)), walk[0])
