"""An embedding in which frames of clusters are cycles that edges cross, as linked lists.

A frame is a cycle of four vertices and four edges, its *sides*, which run counter-clockwise; an edge with one end in the cluster
crosses it once, any other never. Where the corners of the drawn frame are is not decided here.
"""
from __future__ import annotations

from collections.abc import Iterable, Sequence

from planarbend.drawing.linked import NONE
from planarbend.drawing.nesting import Nesting
from planarbend.drawing.planarization import LinkedEmbedding, Planarization
from planarbend.graph import Partition
from planarbend.layout.planar_code import Lists

CORNERS = 4

State = tuple[list[list[int]], list[tuple[int, int]]]


class NestedEmbedding(LinkedEmbedding):
    """An embedding of part of a nesting's edges, and of all its frames.

    Vertices are those of the nesting, then four for each framed cluster, then the sites of vertices with ports, each of which
    is a cycle that nothing crosses. Edges are those of the nesting, then the sides of all cycles, then *ties*: one for each
    frame but the first, from the frame around it or the first, and one for each vertex, from the frame around it or the first.
    Ties hold the parts together while edges are missing.

    Attributes
    ----------
    nesting : Nesting
    side : list of int
        For each dart of a side one more than its cluster if that is on its left, this number below 0 if it is on the right;
        otherwise 0. Vertices with ports have the numbers after those of clusters.
    first : dict from cluster to int
        The first of the four vertices of each frame.
    rings : dict from vertex to range
        The sites of each vertex with ports, counter-clockwise.
    """

    def __init__(self, nesting: Nesting) -> None:
        """Return an embedding of the frames, joined by ties."""
        count, framed = len(nesting.home), nesting.framed
        self.nesting, self.first, self.side = nesting, {}, list[int]()
        sides: list[tuple[int, int]] = []
        for place, cluster in enumerate(framed):
            first = self.first[cluster] = count + CORNERS * place
            sides += cycle(range(first, first + CORNERS))
        count += len(sides)
        self.rings: dict[int, range] = {}
        for vertex, one in nesting.ports.items():
            self.rings[vertex] = range(count, count + len(one.sites))
            sides += cycle(self.rings[vertex])
            count += len(one.sites)
        self.sides = len(nesting.ends)
        self.ties = self.sides + len(sides)
        ties = [(self.hook(nesting.parent[cluster]), self.first[cluster]) for cluster in framed[1:]]
        self.vertex_ties = self.ties + len(ties)
        ties += [(self.hook(home), self.places(vertex)[0]) for vertex, home in enumerate(nesting.home)] if framed else []
        super().__init__(count, [*nesting.ends, *sides, *ties])
        edge = self.sides
        for place, cluster in enumerate(framed):
            self._add_cycle(edge, range(self.first[cluster], self.first[cluster] + CORNERS), 1 + cluster)
            if place:
                outer = next(dart for dart in self.around(self.first[cluster]) if self.side[dart] < 0)
                self.insert(self.ties + place - 1, self.hook_corner(self.nesting.parent[cluster]), (), outer)
            edge += CORNERS
        for place, ring in enumerate(self.rings.values(), 1 + len(nesting.parent)):
            self._add_cycle(edge, ring, place)
            edge += len(ring)

    def places(self, vertex: int) -> Sequence[int]:
        """Return the vertices of the embedding that stand for a vertex: itself, or its sites."""
        return self.rings.get(vertex, (vertex,))

    def places_of(self, edge: int, is_head: bool) -> Sequence[int]:
        """Return the vertices of the embedding at which an end of an edge may be."""
        allowed, places = self.nesting.at_ports.get((edge, is_head)), self.places(self.nesting.ends[edge][is_head])
        return places if allowed is None else [places[place] for place in allowed]

    def free_corners(self, places: Iterable[int]) -> list[int]:
        """Return the darts that leave vertices of the embedding with a face on their left that is not within a vertex."""
        inside, side = len(self.nesting.parent), self.side
        return [dart for vertex in places for dart in self.around(vertex) if side[dart] <= inside]

    def hook(self, home: int) -> int:
        """Return the vertex of a frame at which ties begin that lead into a cluster, or to what is in none."""
        return self.first[home] if home != NONE else next(iter(self.first.values()))

    def hook_corner(self, home: int) -> int:
        """Return the dart at `hook` before which ties begin."""
        wanted = 1 + home if home != NONE else -1 - next(iter(self.first))
        return next(dart for dart in self.around(self.hook(home)) if self.side[dart] == wanted)

    def _add_cycle(self, edge: int, vertices: Sequence[int], number: int) -> None:
        """Add a cycle of sides, the first of which is given, around what has a number in `side`."""
        self.insert(edge, NONE, (), NONE)
        for place in range(1, len(vertices) - 1):
            self.insert(edge + place, self.leaving[vertices[place]], (), NONE)
        self.insert(edge + len(vertices) - 1, self.leaving[vertices[-1]], (), self.leaving[vertices[0]])
        for one in range(edge, edge + len(vertices)):
            self.side[self.start[one]], self.side[self.start[one] ^ 1] = number, -number

    def is_side(self, edge: int) -> bool:
        """Return whether an edge is a side of a frame."""
        return self.sides <= edge < self.ties

    def crossings_of(self, edge: int) -> int:
        """Return how many crossings an edge has with edges, without those with frames."""
        return sum(not self.is_side(other) for other in self.crossed(edge))

    # Editing

    def _new_piece(self, edge: int, tail: int, head: int) -> int:
        """Return a new piece, not yet in a face."""
        piece = super()._new_piece(edge, tail, head)
        if len(self.side) < len(self.origin):
            self.side += (0, 0)
        self.side[2 * piece] = self.side[2 * piece + 1] = 0
        return piece

    def _split(self, dart: int) -> int:
        """Return the dart that leaves a new crossing, which cuts a piece in two, onward, with the face of `dart`."""
        ahead = super()._split(dart)
        self.side[ahead], self.side[ahead ^ 1] = self.side[dart], self.side[dart ^ 1]
        return ahead

    def parts(self) -> int:
        """Return the number of connected parts with an edge."""
        met, found = set[int](), 0
        for vertex, leaving in enumerate(self.leaving):
            if leaving < 0 or vertex in met:
                continue
            found += 1
            waiting = [vertex]
            met.add(vertex)
            for one in waiting:
                for dart in self.around(one):
                    other = self.origin[dart ^ 1]
                    if other not in met:
                        met.add(other)
                        waiting.append(other)
        return found

    def cut_ties(self) -> None:
        """Remove all ties, after all edges are embedded."""
        for edge in range(self.ties, len(self.ends)):
            if self.start[edge] != NONE:
                self.remove(edge)

    def cut_needless(self) -> None:
        """Remove edges that are not drawn while the whole stays connected."""
        for edge in range(self.nesting.drawn[1], self.sides):
            if all(self.face[dart] != self.face[dart ^ 1] for dart in self.chain(edge)):
                state = self.state()
                self.remove(edge)
                if self.parts() > 1 or any(self.leaving[end] < 0 for end in self.ends[edge]):
                    self.restore(state)

    # Copies

    def state(self) -> State:
        """Return a copy of all that is embedded, for `restore`."""
        lists = (self.origin, self.onward, self.back, self.face, self.leaving, self.corner, self.edge, self.free_pieces,
                 self.free_faces, self.free_crossings, self.start, self.side)
        return [list(one) for one in lists], list(self.ends)

    def restore(self, state: State) -> None:
        """Return to a state, which is not used again."""
        (self.origin, self.onward, self.back, self.face, self.leaving, self.corner, self.edge, self.free_pieces,
         self.free_faces, self.free_crossings, self.start, self.side), self.ends = state

    def nested(self) -> NestedPlanarization:
        """Return the embedding without ties, and with one vertex in place of the sites of each."""
        found = self.planarization()
        last = self.sides + CORNERS * len(self.first)  # the first edge of a ring
        first = len(self.nesting.home) + CORNERS * len(self.first)  # its first vertex
        count, more = found.vertex_count, found.vertex_count - first
        darts = 2 * sum(map(len, found.chains[:last]))
        owner = {site: vertex for vertex, ring in self.rings.items() for site in ring}
        tail = [owner.get(vertex, vertex - more * (vertex >= count)) for vertex in found.tail[:darts]]
        rotation = found.rotation[:first] + found.rotation[count:]
        facing: dict[int, int] = {}
        for vertex, ring in self.rings.items():
            rotation[vertex] = []
            for place, site in reversed(list(enumerate(ring))):
                around = found.rotation[site]
                forward = found.chains[last + site - first][0]
                turned = around[around.index(forward) + 1:] + around[:around.index(forward)]
                out = [dart for dart in turned if dart < darts]
                rotation[vertex] += out
                facing |= {dart: self.nesting.ports[vertex].sites[place].side for dart in out}
        return NestedPlanarization(tail, rotation, found.chains[:last], self.nesting, facing)


def cycle(vertices: Sequence[int]) -> list[tuple[int, int]]:
    """Return the pairs of neighbours in a cycle."""
    return list(zip(vertices, [*vertices[1:], vertices[0]]))


class NestedPlanarization(Planarization):
    """An embedding with frames: after the vertices of the nesting come four for each frame, after its edges four sides."""

    def __init__(self, tail: list[int], rotation: list[list[int]], chains: list[list[int]], nesting: Nesting,
                 facing: dict[int, int]) -> None:
        """Return an embedding; `facing` are the directions in which darts leave vertices with ports."""
        super().__init__(tail, rotation, len(nesting.home) + CORNERS * len(nesting.framed), chains)
        self.nesting, self.facing = nesting, facing

    def sides_of(self, place: int) -> range:
        """Return the edges that are the sides of a frame, given by its place in `framed`."""
        first = len(self.nesting.ends) + CORNERS * place
        return range(first, first + CORNERS)

    @property
    def real_crossings(self) -> int:
        """The number of crossings between edges that are drawn."""
        drawn, met = self.nesting.drawn[1], [0] * len(self.rotation)
        for chain in self.chains[:drawn]:
            for dart in chain[1:]:
                met[self.tail[dart]] += 1
        return met.count(2)

    def bare(self) -> list[Lists]:
        """Return the neighbour lists of each component with an edge, without frames and what is not drawn. A stub, at which
        an edge ends at a frame, is a vertex of its own."""
        nesting = self.nesting
        linked = LinkedEmbedding.of(self, [*nesting.ends, *([(0, 0)] * (len(self.chains) - len(nesting.ends)))])
        for edge in range(nesting.drawn[1], len(self.chains)):
            if linked.start[edge] != NONE:
                linked.remove(edge)
        found = linked.planarization()
        parts = Partition(len(found.rotation))
        for dart in range(0, len(found.tail), 2):
            parts.unite(found.tail[dart], found.tail[dart + 1])
        members: dict[int, list[int]] = {}
        for vertex, darts in enumerate(found.rotation):
            if darts:
                members.setdefault(parts.find(vertex), []).append(vertex)
        number = {vertex: place for one in members.values() for place, vertex in enumerate(one, 1)}
        return [[[number[found.tail[dart ^ 1]] for dart in found.rotation[vertex]] for vertex in one]
                for one in members.values()]
