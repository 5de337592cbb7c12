"""Clusters: sets of vertices that are drawn within a frame, and may lie within each other."""
from __future__ import annotations

from collections.abc import Sequence
from dataclasses import dataclass, field

from planarbend.style import ClusterLook


@dataclass(slots=True)
class Cluster:
    """A cluster.

    Attributes
    ----------
    name : str
        What identifies it in its file.
    label : str
        What is drawn at its frame.
    parent : int, optional
        The number of the cluster around it, which is less than its own.
    members : list of int
        The vertices that lie in it and in no cluster within it, ascending.
    look : ClusterLook
    """

    name: str
    label: str = ""
    parent: int | None = None
    members: list[int] = field(default_factory=list)
    look: ClusterLook = ClusterLook()


def around(clusters: Sequence[Cluster], number: int | None) -> list[int]:
    """Return the numbers of a cluster and of all clusters around it, from the inside outwards; none of None."""
    found = []
    while number is not None:
        found.append(number)
        number = clusters[number].parent
    return found


def first_around(clusters: Sequence[Cluster], name: str, inside: int | None, outside: int | None) -> int | None:
    """Return the first cluster with a name if `inside` is this cluster or lies in it, and `outside` does not; otherwise None."""
    number = next((number for number, one in enumerate(clusters) if one.name == name), None)
    return number if number in around(clusters, inside) and number not in around(clusters, outside) else None


def clusters_of(clusters: Sequence[Cluster]) -> dict[int, int]:
    """Return for each vertex that lies in a cluster the innermost one."""
    return {vertex: number for number, one in enumerate(clusters) for vertex in one.members}


def within(clusters: Sequence[Cluster], number: int) -> list[int]:
    """Return all vertices that lie in a cluster and in the clusters within it, ascending."""
    return sorted(vertex for inner, one in enumerate(clusters) if number in around(clusters, inner) for vertex in one.members)
