"""Collects a graph while a reader goes through its input."""
from __future__ import annotations

from collections.abc import Hashable
from dataclasses import dataclass, field

from planarbend.graph import Arrow, Edge, Graph, Kind, Vertex


@dataclass
class Builder(Graph):
    """A graph that is being built: its vertices are found by the keys that the input uses for them."""

    places: dict[Hashable, int] = field(default_factory=dict)

    def vertex(self, key: Hashable, label: str | None = None, kind: Kind = Kind.VERTEX, name: str | None = None) -> int:
        """Return the index of the vertex with this key, which is added if it is new; its name is the key unless one is given."""
        place = self.places.get(key)
        if place is None:
            place = self.places[key] = len(self.vertices)
            name = str(key) if name is None else name
            self.vertices.append(Vertex(name, name if label is None else label, kind))
        return place

    def has(self, key: Hashable) -> bool:
        """Return whether there is a vertex with this key."""
        return key in self.places

    def edge(self, tail: Hashable, head: Hashable, label: str = "", arrow: Arrow = Arrow.NONE) -> None:
        """Add an edge; ends that are new become vertices."""
        self.edges.append(Edge(self.vertex(tail), self.vertex(head), label, arrow))
