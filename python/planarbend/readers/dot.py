"""Makes a graph of what Graphviz's own parser reads in a DOT text."""
from __future__ import annotations

from planarbend.graph import Arrow, Graph
from planarbend.readers import texts
from planarbend.readers.attributes import Attributes, palette_of
from planarbend.readers.building import Builder
from planarbend.readers.dot_clusters import add_clusters
from planarbend.readers.dot_ports import RECORDS, add_ports
from planarbend.readers.fault import Fault
from planarbend.readers.gvpr import Entry, entries_of, subgraphs_of

ARROWS = {"forward": (False, True), "back": (True, False), "both": (True, True), "none": (False, False)}
ARROW = {(False, False): Arrow.NONE, (False, True): Arrow.FORWARD, (True, False): Arrow.BACK, (True, True): Arrow.BOTH}
SUBGRAPH = b"subgraph"  # the word of DOT without which a text has no clusters


def read_dot(data: bytes) -> Graph:
    """Return the graph of a DOT text, as Graphviz reads it.

    Nodes of clusters and other subgraphs are nodes of the graph; invisible nodes and edges too. Labels are plain text: the
    fields of a record with bars between them, an HTML label without its markup. An edge's label is `label`, or `xlabel` if
    that is empty. Arrows are by `dir`, `arrowhead` and `arrowtail`. Clusters, the fields of records and of tables with ports,
    and where edges end by their ports, `lhead` and `ltail`, are data of the graph. A `Fault` is raised if Graphviz is
    missing, refuses the text (with its line), or finds no graph or several. What else the file says about nodes, edges and
    the whole is their look.
    """
    entries = entries_of(data)
    graphs = [entry for entry in entries if entry.kind == "g"]
    if len(graphs) != 1:
        raise Fault(f"the file has {len(graphs)} graphs; only one can be drawn" if graphs else "the file has no graph")
    found, name = Builder(directed=graphs[0].flag == "1"), graphs[0].names[0]
    subgraphs = subgraphs_of(data) if SUBGRAPH in data.lower() else []
    attributes = Attributes(found.looks, palette_of([entry.values for entry in [*entries, *subgraphs]]))
    for entry in entries:
        ADD[entry.kind](found, entry, name, attributes)
    add_clusters(found, subgraphs, data.decode(errors="replace"), attributes)
    attributes.warn()
    add_ports(found, entries)
    return found


def text_of(label: tuple[bool, str], names: dict[str, str]) -> str:
    """Return a label as plain text."""
    return texts.of_html(label[1]) if label[0] else texts.plain(label[1], names)


def add_graph(found: Builder, entry: Entry, graph: str, attributes: Attributes) -> None:
    """Add the look of the whole: its label and its other attributes."""
    found.looks.graph = attributes.graph(entry.values, text_of(entry.labels[1], {"G": graph}))


def add_node(found: Builder, entry: Entry, graph: str, attributes: Attributes) -> None:
    """Add the node of an entry: its name, its label and its look."""
    names = {"N": entry.names[0], "G": graph}
    is_html, label = entry.labels[0]
    is_record = not is_html and entry.values["shape"] in RECORDS
    text = texts.of_record(label, names) if is_record else text_of((is_html, label), names)
    number = found.vertex(entry.names[0], "" if entry.values["shape"] == "point" else text)
    found.looks.add_node(number, attributes.node(entry.values, names))


def add_edge(found: Builder, entry: Entry, graph: str, attributes: Attributes) -> None:
    """Add the edge of an entry: its ends, its arrow, its labels and its look."""
    (tail, head), values = entry.names, entry.values
    joint = "->" if found.directed else "--"
    names = {"T": tail, "H": head, "E": f"{tail}{joint}{head}", "G": graph}
    label, other, at_head, at_tail = entry.labels
    back, forward = ARROWS.get(values["dir"], (False, found.directed))
    arrow = ARROW[back and values["arrowtail"] != "none", forward and values["arrowhead"] != "none"]
    found.edge(tail, head, text_of(label if label[1] else other, names), arrow)
    look = attributes.edge(values, names, (text_of(at_head, names), text_of(at_tail, names)))
    found.looks.add_edge(len(found.edges) - 1, look)


ADD = {"g": add_graph, "n": add_node, "e": add_edge}
