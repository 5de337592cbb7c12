"""Reads GraphML, GML and graph6 by networkx, and node-link JSON as networkx and D3 write it."""
from __future__ import annotations

import json
import operator
import re
import warnings
from collections.abc import Callable, Hashable, Iterable
from typing import Any

from planarbend.graph import Arrow, Graph
from planarbend.readers import graphics, graphml_ports, port_data
from planarbend.readers.building import Builder
from planarbend.readers.fault import Fault, decoded, shown
from planarbend.readers.groups import Group, add_clusters

NAMESPACE = "{http://graphml.graphdrawing.org/xmlns}"
GRAPH6 = b">>graph6<<"
GML_GRAPH = re.compile(r"^\s*graph\s*\[", re.M)
PLACE = re.compile(r" at \((\d+), \d+\)")
PARALLEL = (r"^(\s*)multigraph\s+0\b", r"\1multigraph 1")
LABELS = ("label", "name")


def label_of(data: dict[str, Any]) -> str | None:
    """Return the label that a vertex's or an edge's data give it, or None."""
    return next((str(data[key]) for key in LABELS if data.get(key) not in (None, "")), None)


def read_graphml(data: bytes) -> Graph:
    """Return the graph of a GraphML text: its first `graph`, with the nodes and edges of graphs inside its nodes.

    Ports are fields of their nodes; a node with nodes inside has a cluster, and is no vertex itself if it is a group of yEd at
    which no edge ends. Edges keep their order and each its own direction. Labels are the data named `label` or `name`, or the
    first label of yEd. A `Fault` is raised if the text is not XML or not GraphML, has a hyperedge, or an edge to a node that it
    does not have.
    """
    from xml.etree import ElementTree

    import networkx

    directions = scanned(data)
    root = ElementTree.fromstring(data)
    for element in root.iter():
        if "}" not in element.tag:
            element.tag = NAMESPACE + element.tag
    for edge, number in zip(root.iter(NAMESPACE + "edge"), range(len(directions))):
        edge.attrib.pop("directed", None)
        edge.set("id", str(number))  # networkx returns it as the key, so that no two edges are merged
    frames = graphml_ports.frames_of(root, {end for pair in directions for end in pair[:2]})
    for element in root.iter(NAMESPACE + "node"):
        if element.find(NAMESPACE + "graph") is not None:
            element.set("yfiles.foldertype", "group")  # else networkx skips what is inside
    found = parsed(networkx.parse_graphml, ElementTree.tostring(root, encoding="unicode"))
    built = Builder(directed=found.is_directed())
    elements = {node.get("id"): node for node in root.iter(NAMESPACE + "node")}
    groups = graphml_nodes(built, found, elements, frames)
    lines, edges = list(root.iter(NAMESPACE + "edge")), sorted(found.edges(keys=True, data=True), key=operator.itemgetter(2))
    for tail, head, key, values in edges:
        tail, head = directions[key][0], directions[key][1]  # of an undirected graph networkx may exchange the ends
        is_arrow = found.is_directed() if directions[key][2] is None else directions[key][2]
        built.edge(tail, head, label_of(values) or "", Arrow.FORWARD if is_arrow else Arrow.NONE)
        built.looks.add_edge(len(built.edges) - 1, graphics.graphml_edge(lines[int(key)], values))
        built.directed |= is_arrow
    graphml_ports.add_ports(built, elements, found.nodes, lines)
    graphml_ports.add_clusters(built, elements, groups)
    port_data.add_ends(built, [values for *_, values in edges])
    return built


def graphml_nodes(built: Builder, found: Any, elements: dict[str | None, Any], frames: set[str | None]) -> dict[str | None, Group]:
    """Add the nodes that networkx found, but for those that are frames only, which are returned."""
    groups: dict[str | None, Group] = {}
    for node, values in found.nodes(data=True):
        label, element = label_of(values) or graphics.graphml_label(elements[node]), elements[node]
        if node in frames:
            groups[node] = Group(node, node if label is None else label, graphics.graphml_cluster(element, values))
        else:
            built.looks.add_node(built.vertex(node, label or None), graphics.graphml_node(element, values))
    return groups


def parsed(parse: Callable[..., Any], text: str) -> Any:
    """Return networkx's graph of a GraphML text, or raise a `Fault` if it refuses the text."""
    with warnings.catch_warnings():
        warnings.simplefilter("ignore")
        try:
            return parse(text, force_multigraph=True)
        except Exception as error:  # networkx lets many kinds through
            raise Fault(f"not GraphML: {shown(str(error))}") from None


def scanned(data: bytes) -> list[tuple[str, str, bool | None]]:
    """Return the edges of a GraphML text in order: source, target, and `directed` if it is given."""
    from xml.parsers import expat

    parser = expat.ParserCreate(namespace_separator="}")
    nodes: set[str] = set()
    edges: list[tuple[int, str, str, bool | None]] = []
    open_elements: list[str] = []
    graphs = 0

    def begun(element: str, values: dict[str, str]) -> None:
        """Note the beginning of an element."""
        nonlocal graphs
        kind, line = element.rpartition("}")[2], parser.CurrentLineNumber
        open_elements.append(kind)
        wanted = {"node": ("id",), "edge": ("source", "target")}.get(kind, ())
        if any(key not in values for key in wanted):
            raise Fault(f"a {kind} without {' and '.join(wanted)}", line)
        if kind == "hyperedge":
            raise Fault("a hyperedge, which joins more than two nodes, cannot be drawn", line)
        if kind == "graph" and len(open_elements) == 2:
            graphs += 1
            if graphs > 1:
                raise Fault("a second graph; only one can be drawn", line)
        if kind == "node":
            nodes.add(values["id"])
        if kind == "edge":
            directed = {"true": True, "false": False}.get(values.get("directed", ""))
            edges.append((line, values["source"], values["target"], directed))

    parser.StartElementHandler = begun
    parser.EndElementHandler = lambda element: open_elements.pop()
    try:
        parser.Parse(data, True)
    except expat.ExpatError as error:
        raise Fault(f"not XML: {expat.errors.messages[error.code]}", error.lineno) from None
    if not graphs:
        raise Fault("not GraphML: it has no graph")
    look_at_ends(nodes, edges)
    return [(tail, head, directed) for _, tail, head, directed in edges]


def look_at_ends(nodes: set[str], edges: Iterable[tuple[int, str, str, bool | None]]) -> None:
    """Raise a `Fault` with the line of the first edge of which an end is not a node."""
    for line, *ends, _ in edges:
        for end in ends:
            if end not in nodes:
                raise Fault(f"the edge's end {shown(str(end))} is not a node", line)


def read_gml(data: bytes) -> Graph:
    """Return the graph of a GML text, with parallel edges even if it does not declare them, or raise a `Fault` with the line
    given by networkx if it refuses the text. A group of yEd (`isGroup` and `gid`) is a cluster, and also a vertex if an edge ends
    at it."""
    text = re.sub(*PARALLEL, decoded(data), flags=re.M)
    if "multigraph" not in text:
        text = GML_GRAPH.sub(lambda match: match[0] + " multigraph 1", text, count=1)
    found = parsed_gml(text)
    built = Builder(directed=found.is_directed())
    if not built.directed and any(port_data.are_ports(values) for *_, values in found.edges(data=True)):
        found = parsed_gml(GML_GRAPH.sub(lambda match: match[0] + " directed 1", text, count=1))  # which keeps tails and heads
    groups: dict[Hashable, Group] = {}
    for node, values in found.nodes(data=True):
        name = label_of(values) or str(node)
        if values.get("isGroup") == 1:
            groups[node] = Group(str(values.get("name", name)), str(values.get("label", name)), graphics.gml_cluster(values))
        if node not in groups or found.degree(node):
            number, fields = built.vertex(node, name, name=name), port_data.fields_in(values)
            built.looks.add_node(number, graphics.gml_node(values))
            built.fields |= {} if fields is None else {number: fields}
    for tail, head, values in found.edges(data=True):
        built.edge(tail, head, label_of(values) or "", Arrow.FORWARD if built.directed else Arrow.NONE)
        built.looks.add_edge(len(built.edges) - 1, graphics.gml_edge(values))
    add_clusters(built, groups, {node: group for node, group in found.nodes(data="gid") if isinstance(group, int)})
    port_data.add_ends(built, [values for *_, values in found.edges(data=True)])
    return built


def parsed_gml(text: str) -> Any:
    """Return networkx's graph of a GML text, or raise a `Fault` if it refuses the text."""
    import networkx

    try:
        return networkx.parse_gml(text, label=None)
    except Exception as error:  # networkx lets many kinds through
        place = PLACE.search(str(error))
        raise Fault(f"not GML: {shown(PLACE.sub('', str(error)))}", int(place[1]) if place else None) from None


def read_graph6(data: bytes) -> Graph:
    """Return the graph of one line of graph6, with or without the header, or raise a `Fault` if there is no such line, or
    several. Its vertices are named 0, 1, and so on."""
    import networkx

    lines = [(number, line.strip()) for number, line in enumerate(data.removeprefix(GRAPH6).split(b"\n"), 1) if line.strip()]
    if len(lines) != 1:
        count = f"{len(lines)} graphs; only one can be drawn" if lines else "no graph"
        raise Fault(f"the file has {count}", lines[1][0] if lines else None)
    number, line = lines[0]
    try:
        found = networkx.from_graph6_bytes(line)
    except Exception as error:  # networkx lets many kinds through
        raise Fault(f"not graph6: {shown(str(error) or repr(error))}", number) from None
    built = Builder()
    for node in found:
        built.vertex(node)
    for pair in found.edges():
        built.edge(*pair)
    return built


def read_json(data: bytes) -> Graph:
    """Return the graph of node-link JSON: `nodes` with `id`, and `links` or `edges` with `source` and `target`.

    A node without `id` is identified by its position from 0, as in D3. Labels are `label` or `name`. A `Fault` is raised if
    the text is not JSON (with its line), or not node-link JSON.
    """
    try:
        found = json.loads(decoded(data))
    except json.JSONDecodeError as error:
        raise Fault(f"not JSON: {error.msg}", error.lineno) from None
    except RecursionError:
        raise Fault("not node-link JSON: nested too deeply") from None
    edges = found.get("links", found.get("edges")) if isinstance(found, dict) else None
    if edges is None or not isinstance(edges, list) or not isinstance(found.get("nodes"), list):
        raise Fault("not node-link JSON: it needs the lists nodes and links (or edges)")
    built = Builder(directed=found.get("directed") is True)
    for number, node in enumerate(objects(found["nodes"], "node")):
        key = hashable(node.get("id", number))
        if built.has(key):
            raise Fault(f"not node-link JSON: two nodes have the id {shown(str(key))}")
        label = label_of(node)
        built.vertex(key, label, name=str(key) if "id" in node or label is None else label)
    for number, edge in enumerate(objects(edges, "link"), 1):
        ends = [hashable(edge.get(key)) for key in ("source", "target")]
        for key, end in zip(("source", "target"), ends):
            if end is None or not built.has(end):
                raise Fault(f"not node-link JSON: the {key} of link {number} is not a node: {shown(str(end))}")
        label = edge.get("label")
        built.edge(ends[0], ends[1], "" if label is None else str(label), Arrow.FORWARD if built.directed else Arrow.NONE)
    return built


def objects(found: Iterable[Any], what: str) -> Iterable[dict[str, Any]]:
    """Return the entries of a JSON list, each of which must be an object."""
    for number, one in enumerate(found, 1):
        if not isinstance(one, dict):
            raise Fault(f"not node-link JSON: {what} {number} is not an object")
        yield one


def hashable(key: Any) -> Hashable:
    """Return a node's id as in networkx: a list becomes a tuple."""
    if isinstance(key, dict):
        raise Fault("not node-link JSON: an id is an object")
    found: Hashable = tuple(map(hashable, key)) if isinstance(key, list) else key
    return found
