"""Adds the fields of nodes, and where edges end at them, to the graph of a DOT text."""
from __future__ import annotations

from collections.abc import Sequence

from planarbend.clusters import clusters_of, first_around
from planarbend.ports import COMPASS, End, Field
from planarbend.readers import records, tables
from planarbend.readers.building import Builder
from planarbend.readers.gvpr import Entry

RECORDS = ("record", "Mrecord")
LEVEL = ("LR", "RL")  # values of `rankdir` with which the outermost fields of a record are below each other
ANYWHERE = ("", "c", "_")  # compass points that name no side
TRUE = ("true", "yes")
BAD_RECORDS = "nodes whose label is none of a record"
NO_PORTS = "ports that are not found"
NO_CLUSTERS = "edges that cannot end at the frame of a cluster as lhead or ltail says"


class Ports:
    """Adds fields and ends to a graph whose nodes, edges and clusters are known."""

    def __init__(self, graph: Builder, whole: Entry) -> None:
        """Return the adder to a graph with this entry."""
        self.graph, self.name = graph, whole.names[0]
        self.is_column = whole.values["rankdir"] in LEVEL
        self.is_compound = is_true(whole.values["compound"])
        self.tables: set[int] = set()  # vertices in whose ports small and capital letters are the same
        self.innermost = clusters_of(graph.clusters)
        self.strange: dict[str, list[str]] = {}

    def node(self, entry: Entry) -> None:
        """Add the fields of a node: those of a record that has several or a port, and of a table with a port."""
        number, (is_html, label) = self.graph.places[entry.names[0]], entry.labels[0]
        shape = entry.values["shape"]
        if is_html and shape != "point":
            fields = tables.fields_of(label)
            self.tables.add(number)
        else:
            fields = self.record(entry.names[0], label) if shape in RECORDS else None
        is_divided = fields is not None and not is_html and len(fields.fields) > 1
        if fields is not None and (is_divided or any(one.port for one, _ in fields.walk())):
            self.graph.fields[number] = fields

    def record(self, node: str, label: str) -> Field | None:
        """Return the fields of a record, or None if its label is none."""
        try:
            return records.fields_of(label, {"N": node, "G": self.name}, self.is_column)
        except records.BadLabel:
            self.strange.setdefault(BAD_RECORDS, []).append(node)
            return None

    def edge(self, number: int, entry: Entry) -> None:
        """Add where an edge ends."""
        values, edge = entry.values, self.graph.edges[number]
        for is_head, port, frame in ((False, values["tailport"], values["ltail"]), (True, values["headport"], values["lhead"])):
            vertex, other = (edge.head, edge.tail) if is_head else (edge.tail, edge.head)
            end = self.end_at(vertex, port)
            cluster = self.frame(frame, vertex, other) if frame and self.is_compound else None
            if end != End() or cluster is not None:
                self.graph.ends[number, is_head] = End(end.field, end.compass, cluster)

    def end_at(self, vertex: int, port: str) -> End:
        """Return where a port is: a field, a compass point, or both with a colon between them; a field comes before a compass
        point of the same name."""
        name, _, compass = port.partition(":")
        place = self.place_of(vertex, name)
        point = compass if place is not None else name
        if point not in COMPASS and point not in ANYWHERE or place is None and compass:
            self.strange.setdefault(NO_PORTS, []).append(f"{self.graph.vertices[vertex].name}:{port}")
        return End(place, COMPASS.get(point))

    def place_of(self, vertex: int, name: str) -> int | None:
        """Return the place of the first field of a vertex with this port, or None."""
        fields = self.graph.fields.get(vertex)
        if fields is None:
            return None
        if vertex in self.tables:
            name = next((one.port for one, _ in fields.walk() if one.port.lower() == name.lower()), name)
        return fields.place_of(name)

    def frame(self, name: str, vertex: int, other: int) -> int | None:
        """Return the first cluster with a name if it is around a vertex and not around the other end of the edge, or None."""
        found = first_around(self.graph.clusters, name, self.innermost.get(vertex), self.innermost.get(other))
        if found is None:
            names = " and ".join(self.graph.vertices[one].name for one in (vertex, other))
            self.strange.setdefault(NO_CLUSTERS, []).append(f"{names} ({name})")
        return found

    def warn(self) -> None:
        """Add the warnings to the graph's looks."""
        self.graph.looks.warnings += [f"{what}: {', '.join(dict.fromkeys(which))}" for what, which in sorted(self.strange.items())]


def is_true(text: str) -> bool:
    """Return whether Graphviz takes a text as true: true, yes, or a number that is not 0."""
    return text.lower() in TRUE or text.isdecimal() and int(text) != 0


def add_ports(graph: Builder, entries: Sequence[Entry]) -> None:
    """Add fields and ends of the entries of a text to its graph, whose nodes, edges and clusters are known."""
    ports = Ports(graph, next(entry for entry in entries if entry.kind == "g"))
    for entry in entries:
        if entry.kind == "n":
            ports.node(entry)
    for number, entry in enumerate(entry for entry in entries if entry.kind == "e"):
        ports.edge(number, entry)
    ports.warn()
