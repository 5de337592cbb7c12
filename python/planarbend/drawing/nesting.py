"""What is laid out of a component with clusters: its vertices and edges, and some more that are not drawn.

Further vertices are *stubs*, at which edges end that end at a frame, and boxes in place of clusters without vertices. Further
edges join what no edge joins, so that the whole is connected and each frame is crossed by an edge.
"""
from __future__ import annotations

from collections.abc import Iterable, Sequence
from dataclasses import dataclass, field

from planarbend.clusters import Cluster, around, clusters_of
from planarbend.drawing.linked import NONE
from planarbend.drawing.sites import Sites
from planarbend.graph import Graph, Partition
from planarbend.ports import End, Field

MANY = 4  # edges at a vertex from which a further one would make it a box


@dataclass(slots=True)
class Nesting:
    """Vertices and edges to lay out, and the clusters around them.

    Attributes
    ----------
    ends : list of (int, int)
        The tail and head of each edge: first the graph's edges, then those that are not drawn.
    home : list of int
        For each vertex the innermost cluster around it, `NONE` if there is none; first the graph's vertices.
    parent : list of int
        For each cluster the cluster around it, or `NONE`.
    drawn : (int, int)
        The number of the graph's vertices, and of its edges.
    empty : dict from cluster to vertex
        The boxes of clusters in which there is nothing.
    at_frames : dict from (edge, whether at the head) to cluster
        The ends of edges that are drawn up to a frame; they lead to a stub just within it.
    ports : dict from vertex to Sites
        The sites of each vertex at which an edge ends at a port.
    at_ports : dict from (edge, whether at the head) to list of int
        For each end at such a vertex the places of the sites at which it may be.
    """

    ends: list[tuple[int, int]]
    home: list[int]
    parent: list[int]
    drawn: tuple[int, int]
    empty: dict[int, int] = field(default_factory=dict)
    at_frames: dict[tuple[int, bool], int] = field(default_factory=dict)
    ports: dict[int, Sites] = field(default_factory=dict)
    at_ports: dict[tuple[int, bool], list[int]] = field(default_factory=dict)

    @property
    def framed(self) -> list[int]:
        """The clusters with a frame that edges cross: those in which there is something."""
        return [cluster for cluster in range(len(self.parent)) if cluster not in self.empty]

    def outside(self, cluster: int) -> list[int]:
        """Return a cluster and all clusters around it, from the inside outwards; none of `NONE`."""
        found = []
        while cluster != NONE:
            found.append(cluster)
            cluster = self.parent[cluster]
        return found

    def crossed(self, edge: int) -> tuple[set[int], set[int]]:
        """Return the clusters that an edge leaves, and those that it enters, from its tail to its head."""
        tail, head = (set(self.outside(self.home[end])) for end in self.ends[edge])
        return tail - head, head - tail

    def add(self, home: int) -> int:
        """Return a new vertex."""
        self.home.append(home)
        return len(self.home) - 1


def nesting_of(graph: Graph) -> Nesting:
    """Return what is laid out of a component."""
    clusters, innermost = graph.clusters, clusters_of(graph.clusters)
    found = Nesting([(edge.tail, edge.head) for edge in graph.edges],
                    [innermost.get(vertex, NONE) for vertex in range(len(graph.vertices))],
                    [NONE if one.parent is None else one.parent for one in clusters], (len(graph.vertices), len(graph.edges)))
    inhabited = {number for home in innermost.values() for number in around(clusters, home)}
    _add_empty(found, clusters, inhabited)
    for (edge, is_head), end in graph.ends.items():
        if end.cluster is not None:
            stub = found.add(end.cluster)
            tail, head = found.ends[edge]
            found.ends[edge] = (tail, stub) if is_head else (stub, head)
            found.at_frames[edge, is_head] = end.cluster
    _join(found)
    _add_ports(found, graph)
    return found


def is_port(end: End) -> bool:
    """Return whether an end is to be at a field or a compass point."""
    return end.cluster is None and end != End()


def _add_ports(found: Nesting, graph: Graph) -> None:
    """Add the sites of vertices with ports."""
    ports: dict[int, list[End]] = {}
    for (edge, is_head), end in graph.ends.items():
        if is_port(end):
            ports.setdefault(found.ends[edge][is_head], []).append(end)
    loops = {tail for tail, head in found.ends if tail == head}
    for vertex, wanted in ports.items():
        found.ports[vertex] = Sites(graph.fields.get(vertex, Field()), wanted, vertex in loops)
    for edge, ends in enumerate(found.ends):
        for is_head in (False, True):
            if ends[is_head] in found.ports:
                end = graph.ends.get((edge, is_head), End())
                found.at_ports[edge, is_head] = found.ports[ends[is_head]].allowed(end if is_port(end) else None)


def _add_empty(found: Nesting, clusters: Sequence[Cluster], inhabited: set[int]) -> None:
    """Add the boxes of clusters in which there are neither vertices nor clusters."""
    parents = {one.parent for one in clusters}
    for number in range(len(clusters)):
        if number not in inhabited and number not in parents:
            found.empty[number] = found.add(found.parent[number])


def _join(found: Nesting) -> None:
    """Add edges that are not drawn, so that all is connected, and an edge leaves each cluster."""
    parts, degree = Partition(len(found.home)), [0] * len(found.home)
    for tail, head in found.ends:
        parts.unite(tail, head)
        degree[tail] += 1
        degree[head] += 1
    stubs = {found.ends[edge][is_head] for edge, is_head in found.at_frames}
    members: list[list[int]] = [[] for _ in [*found.parent, NONE]]
    for vertex, home in enumerate(found.home):
        for cluster in [*found.outside(home), NONE]:
            members[cluster].append(vertex)

    def rank(vertex: int) -> tuple[bool, bool, int, int]:
        """Return how well a vertex serves as an end, the best first."""
        return vertex in stubs, degree[vertex] >= MANY, len(found.outside(found.home[vertex])), degree[vertex]

    def join(one: int, other: int) -> None:
        """Add an edge."""
        found.ends.append((one, other))
        parts.unite(one, other)
        for vertex in (one, other):
            degree[vertex] += 1

    for cluster in [*reversed(range(len(found.parent))), NONE]:
        for group in groups(members[cluster], parts)[1:]:
            first = parts.find(members[cluster][0])
            join(min(group, key=rank), min((one for one in members[cluster] if parts.find(one) == first), key=rank))
    if any(len(members[cluster]) == len(found.home) for cluster in found.framed) or len(found.home) == 1:
        inner = min(range(len(found.home)), key=rank)
        found.ends.append((inner, found.add(NONE)))


def groups(vertices: Iterable[int], parts: Partition) -> list[list[int]]:
    """Return vertices by their parts, in order."""
    found: dict[int, list[int]] = {}
    for vertex in vertices:
        found.setdefault(parts.find(vertex), []).append(vertex)
    return list(found.values())
