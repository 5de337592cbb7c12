"""Fields of nodes, and where edges end, in data that have the names of Graphviz's attributes."""
from __future__ import annotations

import dataclasses
from collections.abc import Mapping, Sequence
from typing import Any

from planarbend.clusters import clusters_of, first_around
from planarbend.ports import COMPASS, End, Field
from planarbend.readers import tables
from planarbend.readers.building import Builder

FIELDS = "fields"  # of nodes: the fields as a table of Graphviz's HTML
PORTS = ((False, "tailport", "ltail"), (True, "headport", "lhead"))


def fields_in(values: Mapping[str, Any]) -> Field | None:
    """Return the fields in the data of a node, or None if there are none."""
    text = values.get(FIELDS)
    return tables.fields_of(text) if isinstance(text, str) and text.startswith("<table") else None


def are_ports(values: Mapping[str, Any]) -> bool:
    """Return whether the data of an edge say where it ends."""
    return any(port in values or frame in values for _, port, frame in PORTS)


def add_ends(built: Builder, data: Sequence[Mapping[str, Any]]) -> None:
    """Add where edges end by their data, which are in the graph's order, to a graph whose fields and clusters are known."""
    innermost = clusters_of(built.clusters)
    for number, (edge, values) in enumerate(zip(built.edges, data, strict=True)):
        for is_head, port, frame in PORTS:
            vertex, other = (edge.head, edge.tail) if is_head else (edge.tail, edge.head)
            end = end_at(built.fields.get(vertex, Field()), str(values.get(port, "")))
            cluster = first_around(built.clusters, str(values.get(frame, "")), innermost.get(vertex), innermost.get(other))
            if end != End() or cluster is not None:
                built.ends[number, is_head] = dataclasses.replace(end, cluster=cluster)


def end_at(whole: Field, port: str) -> End:
    """Return where a port of a vertex is: a field, a compass point, or both with a colon between them; nowhere if there is none."""
    place = whole.place_of(port)
    if place is not None:
        return End(place)
    name, _, compass = port.rpartition(":")
    place = whole.place_of(name)
    return End(place, COMPASS.get(compass)) if place is not None or not name else End()
