"""Adds clusters to a graph whose file has nodes within nodes."""
from __future__ import annotations

from collections.abc import Hashable, Mapping
from dataclasses import dataclass

from planarbend.clusters import Cluster
from planarbend.readers.building import Builder
from planarbend.style import ClusterLook


@dataclass(frozen=True, slots=True)
class Group:
    """A node with nodes inside."""

    name: str
    label: str
    look: ClusterLook = ClusterLook()


def add_clusters(built: Builder, groups: Mapping[Hashable, Group], homes: Mapping[Hashable, Hashable]) -> None:
    """Add a cluster for each group; `homes` are the groups in which nodes and groups lie, by their keys. A group that is a vertex
    of the graph too is one of the members of its cluster."""
    numbers: dict[Hashable, int] = {}
    for key in groups:
        outside: dict[Hashable, None] = {}
        while key in groups and key not in numbers and key not in outside:  # a group that lies in itself has no home
            outside[key] = None
            key = homes.get(key)
        for one in reversed(outside):
            parent = numbers.get(homes.get(one))
            numbers[one] = len(built.clusters)
            built.clusters.append(Cluster(groups[one].name, groups[one].label, parent, look=groups[one].look))
    for key, vertex in built.places.items():
        home = key if key in groups else homes.get(key)
        if home in numbers:
            built.clusters[numbers[home]].members.append(vertex)
    for cluster in built.clusters:
        cluster.members.sort()
