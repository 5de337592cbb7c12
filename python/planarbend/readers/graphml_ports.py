"""Adds the ports and the nested graphs of a GraphML text to its graph."""
from __future__ import annotations

from collections.abc import Container, Hashable, Mapping, Sequence
from typing import Any
from xml.etree.ElementTree import Element

from planarbend.ports import End, Field, Span
from planarbend.readers import groups, port_data
from planarbend.readers.building import Builder
from planarbend.readers.fault import shown
from planarbend.readers.groups import Group

NAMESPACE = "{http://graphml.graphdrawing.org/xmlns}"
PORT, GRAPH, NODE = NAMESPACE + "port", NAMESPACE + "graph", NAMESPACE + "node"
FOLDER, FOLDERS = "yfiles.foldertype", ("group", "folder")  # the attribute of yEd's groups, and its values


def field_of(element: Element, text: str, name: str = "", at: Span = Span()) -> Field:
    """Return a node or a port with its text; the ports in it are a row below the text."""
    ports = [one for one in element.findall(PORT) if one.get("name")]
    if not ports:
        return Field(text, name, at)
    inner = [field_of(one, one.get("name", ""), one.get("name", ""), Span(1, column)) for column, one in enumerate(ports)]
    return Field("", name, at, (Field(text, at=Span(0, 0, 1, len(ports))), *inner))


def add_ports(built: Builder, nodes: Mapping[str | None, Element], values: Mapping[str | None, Mapping[str, Any]],
              lines: Sequence[Element]) -> None:
    """Add the ports of nodes as fields, and the ends of edges at them; `values` are the data of nodes, and `lines` are the edges
    in the graph's order."""
    for key, element in nodes.items():
        if built.has(key):
            vertex, names = built.places[key], {one.get("name", "") for port in element.findall(PORT) for one in port.iter(PORT)}
            given = port_data.fields_in(values[key])
            if given is not None and names <= {one.port for one, _ in given.walk()}:
                built.fields[vertex] = given
            elif names:
                built.fields[vertex] = field_of(element, built.vertices[vertex].label)
    unknown = []
    for number, (edge, line) in enumerate(zip(built.edges, lines, strict=True)):
        for is_head, port in ((False, line.get("sourceport")), (True, line.get("targetport"))):
            vertex = edge.head if is_head else edge.tail
            place = built.fields[vertex].place_of(port) if port and vertex in built.fields else None
            if place is not None:
                built.ends[number, is_head] = End(place)
            elif port:
                unknown.append(f"{built.vertices[vertex].name}:{port}")
    if unknown:
        built.looks.warnings.append(f"ports that are not found: {', '.join(map(shown, dict.fromkeys(unknown)))}")


def frames_of(root: Element, ends: Container[str | None]) -> set[str | None]:
    """Return the nodes that are groups of yEd and no more: no edge ends at one; `ends` are the nodes at which edges end."""
    return {node.get("id") for node in root.iter(NODE)
            if node.get(FOLDER) in FOLDERS and node.find(GRAPH) is not None and node.get("id") not in ends}


def add_clusters(built: Builder, nodes: Mapping[str | None, Element], frames: Mapping[str | None, Group]) -> None:
    """Add a cluster for each node with nodes inside it, and for `frames`, which are no vertices. Another one is one of the members
    of its cluster, which has the same label."""
    homes: dict[Hashable, Hashable] = {
        inner.get("id"): key for key, node in nodes.items() for inner in node.findall(f"{GRAPH}/{NODE}")}
    found: dict[Hashable, Group] = {
        key: frames[key] if key in frames else Group(str(key), built.vertices[built.places[key]].label)
        for key, node in nodes.items() if key in frames or node.find(f"{GRAPH}/{NODE}") is not None}
    groups.add_clusters(built, found, homes)
