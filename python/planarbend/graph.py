"""The graph to draw: vertices with a label and a kind, edges with a label and an arrow.

Vertices and edges are numbered by their positions in the lists, from 0. Loops and parallel edges are allowed.
"""
from __future__ import annotations

import dataclasses
import enum
from collections.abc import Collection
from dataclasses import dataclass, field

from planarbend.clusters import Cluster, clusters_of
from planarbend.ports import End, Field
from planarbend.style import Looks


class Kind(enum.Enum):
    """The kind of a vertex, which determines how it is drawn."""

    VERTEX = "vertex"  # a box with its label
    PART = "part"  # a part of a circuit: a box with square corners
    NET = "net"  # a net of a circuit: lines that meet in a dot
    FLAG = "flag"  # one of the flags that replace a split net


class Arrow(enum.Enum):
    """The arrowheads of an edge."""

    NONE = "none"
    FORWARD = "forward"  # at its head
    BACK = "back"  # at its tail
    BOTH = "both"


@dataclass(slots=True)
class Vertex:
    """A vertex: the name that identifies it in its file, and the label that is drawn."""

    name: str
    label: str
    kind: Kind = Kind.VERTEX


@dataclass(slots=True)
class Edge:
    """An edge between the vertices with the numbers `tail` and `head`."""

    tail: int
    head: int
    label: str = ""
    arrow: Arrow = Arrow.NONE


@dataclass(slots=True)
class Graph:
    """A graph.

    Attributes
    ----------
    vertices : list of Vertex
    edges : list of Edge
    directed : bool
        Whether its file says that it is directed.
    looks : Looks
        What its file says about the picture.
    fields : dict from vertex to Field
        The whole of each vertex that has fields.
    ends : dict from (edge, whether at the head) to End
        The ends of edges that are to be at a certain place.
    clusters : list of Cluster
        Each after the cluster around it.
    """

    vertices: list[Vertex] = field(default_factory=list)
    edges: list[Edge] = field(default_factory=list)
    directed: bool = False
    looks: Looks = field(default_factory=Looks)
    fields: dict[int, Field] = field(default_factory=dict)
    ends: dict[tuple[int, bool], End] = field(default_factory=dict)
    clusters: list[Cluster] = field(default_factory=list)


def split(graph: Graph, vertices: Collection[int]) -> Graph:
    """Return a graph in which some vertices, such as power nets, are split into one flag for each of their connections.

    Its edges are those of `graph`, in the same order. The first flag of a vertex has the vertex's number; further flags come
    after all vertices. A flag has no fields, and lies in the cluster of its vertex.
    """
    found = Graph([Vertex(one.name, one.label, Kind.FLAG if number in vertices else one.kind)
                   for number, one in enumerate(graph.vertices)], [], graph.directed,
                  dataclasses.replace(graph.looks, nodes=dict(graph.looks.nodes)),
                  {number: one for number, one in graph.fields.items() if number not in vertices}, {},
                  [dataclasses.replace(one, members=list(one.members)) for one in graph.clusters])
    used, innermost = set[int](), clusters_of(graph.clusters)

    def end(vertex: int) -> int:
        """Return the number of an end: the vertex itself at first, then a further flag."""
        if vertex not in vertices or vertex not in used:
            used.add(vertex)
            return vertex
        if vertex in graph.looks.nodes:
            found.looks.nodes[len(found.vertices)] = graph.looks.nodes[vertex]
        if vertex in innermost:
            found.clusters[innermost[vertex]].members.append(len(found.vertices))
        found.vertices.append(dataclasses.replace(found.vertices[vertex]))
        return len(found.vertices) - 1

    for edge in graph.edges:
        found.edges.append(dataclasses.replace(edge, tail=end(edge.tail), head=end(edge.head)))
    for (number, is_head), one in graph.ends.items():
        vertex = graph.edges[number].head if is_head else graph.edges[number].tail
        if vertex not in vertices:
            found.ends[number, is_head] = one
        elif one.cluster is not None:
            found.ends[number, is_head] = End(cluster=one.cluster)
    return found


class Partition:
    """Disjoint sets of the numbers from 0 up (union-find): at first, each number is a set of its own."""

    def __init__(self, count: int = 0) -> None:
        """Return the partition of this many numbers."""
        self.parent = list(range(count))

    def add(self) -> int:
        """Return a new number, which is a set of its own."""
        self.parent.append(len(self.parent))
        return len(self.parent) - 1

    def find(self, number: int) -> int:
        """Return the number that represents the set of a number."""
        parent = self.parent
        while parent[number] != number:
            parent[number] = number = parent[parent[number]]
        return number

    def unite(self, one: int, other: int) -> bool:
        """Return whether two sets were different, after making them one that is represented as that of `one`."""
        one, other = self.find(one), self.find(other)
        self.parent[other] = one
        return one != other
