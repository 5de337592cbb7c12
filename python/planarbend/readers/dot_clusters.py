"""Adds the clusters of a DOT text to its graph."""
from __future__ import annotations

import re
from collections.abc import Iterable, Sequence
from dataclasses import dataclass, field

from planarbend.clusters import Cluster, around
from planarbend.readers import texts
from planarbend.readers.attributes import Attributes
from planarbend.readers.building import Builder
from planarbend.readers.gvpr import Entry

BEGINNING = "cluster"  # of the names of subgraphs that are clusters
COMMENT = re.compile(r'("(?:[^"\\]|\\.)*")|//[^\n]*|/\*.*?\*/|^#[^\n]*', re.S | re.M)


@dataclass(slots=True)
class Found:
    """A cluster that is found: its entry, all nodes in it, and the clusters within it."""

    entry: Entry
    nodes: list[str] = field(default_factory=list)
    inner: list[Found] = field(default_factory=list)


def outermost(entries: Iterable[Entry]) -> list[Found]:
    """Return the outermost clusters among subgraphs; one in a subgraph that is no cluster lies in the cluster around that."""
    found: list[Found] = []
    within = [found]  # for each subgraph that is open, and for the whole, where clusters in it are added
    nodes: list[str] = []
    for entry in entries:
        if entry.kind == "m":
            nodes.append(entry.names[0])
        elif entry.kind == "s":
            del within[int(entry.names[1]) + 1:]
            if entry.names[0].startswith(BEGINNING):
                made = Found(entry)
                within[-1].append(made)
                within.append(made.inner)
                nodes = made.nodes
            else:
                within.append(within[-1])
                nodes = []
    return found


def in_order(clusters: list[Found], text: str) -> list[Found]:
    """Return clusters in the order in which a text opens them, which Graphviz's parser does not keep."""

    def place(one: Found) -> int:
        """Return where the text opens a cluster, or its length if its name is written in another way there."""
        name = re.escape(one.entry.names[0])
        match = re.search(rf'\bsubgraph\s+(?:{name}(?!\w)|"{name}")', text, re.I)
        return match.start() if match else len(text)

    return sorted(clusters, key=place)


class Clusters:
    """Adds clusters to a graph."""

    def __init__(self, graph: Builder, text: str, attributes: Attributes) -> None:
        """Return the adder of clusters of a text to its graph, all of whose nodes are known."""
        self.graph, self.attributes = graph, attributes
        self.text = COMMENT.sub(lambda match: match[1] or " ", text)
        self.innermost: dict[int, int] = {}
        self.twice: dict[int, list[int]] = {}

    def add(self, clusters: list[Found]) -> None:
        """Add the outermost clusters, and all that lie in them. A node in two clusters of which none lies in the other belongs to
        the first."""
        waiting: list[tuple[Found, int | None]] = [(one, None) for one in reversed(in_order(clusters, self.text))]
        while waiting:
            one, parent = waiting.pop()
            number, name = len(self.graph.clusters), one.entry.names[0]
            is_html, label = one.entry.labels[0]
            text = texts.of_html(label) if is_html else texts.plain(label, {"G": name})
            look = self.attributes.cluster(one.entry.values, {"G": name})
            self.graph.clusters.append(Cluster(name, text, parent, look=look))
            self.take(number, one.nodes)
            waiting += [(inner, number) for inner in reversed(in_order(one.inner, self.text))]

    def take(self, number: int, nodes: Sequence[str]) -> None:
        """Take nodes into a cluster, unless they are in another one that is not around it."""
        outside = around(self.graph.clusters, number)
        for vertex in (self.graph.places[name] for name in nodes if self.graph.has(name)):
            if self.innermost.setdefault(vertex, number) in outside:
                self.innermost[vertex] = number
            else:
                self.twice.setdefault(vertex, []).append(number)

    def finish(self) -> None:
        """Give each cluster its members, and warn of nodes in two."""
        for vertex, number in sorted(self.innermost.items()):
            self.graph.clusters[number].members.append(vertex)
        for vertex, others in sorted(self.twice.items()):
            names = [self.graph.clusters[number].name for number in (self.innermost[vertex], *others)]
            self.graph.looks.warnings.append(
                f"the node {self.graph.vertices[vertex].name} is in several clusters, and is drawn in the first of them:"
                f" {', '.join(dict.fromkeys(names))}")


def add_clusters(graph: Builder, entries: Iterable[Entry], text: str, attributes: Attributes) -> None:
    """Add the clusters among subgraphs of a text to its graph, whose nodes and edges are known."""
    clusters = Clusters(graph, text, attributes)
    clusters.add(outermost(entries))
    clusters.finish()
