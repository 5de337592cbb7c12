"""What in a graph breaks a rule of docs/FORMAT.md: the first vertex or pair that shows it, by name."""
from __future__ import annotations

from collections.abc import Callable, Hashable, Sequence

from planarbend.layout.embedding import Embedding
from planarbend.layout.planar_code import Lists

Names = Sequence[Hashable]
Found = tuple[str, tuple[int, ...]]  # a text, and the vertices that it names, numbered from 0


def fault_of(rule: str, names: Names, lists: Lists) -> Found:
    """Return what breaks a rule in a record, whose vertices have these names; an empty text if nothing in it does."""
    try:
        return FAULTS[rule](names, lists)
    except (StopIteration, LookupError):
        return "", ()


def out_of_range(names: Names, lists: Lists) -> Found:
    """Return a neighbour that is no vertex."""
    vertex, other = next((vertex, other) for vertex, near in enumerate(lists) for other in near if other > len(lists))
    return f"vertex {names[vertex]!r} has the neighbour {other}, and the last vertex is {len(lists)}", (vertex,)


def loop(names: Names, lists: Lists) -> Found:
    """Return a vertex that is its own neighbour."""
    vertex = next(vertex for vertex, near in enumerate(lists) if vertex + 1 in near)
    return f"vertex {names[vertex]!r} is its own neighbour", (vertex,)


def twice(names: Names, lists: Lists) -> Found:
    """Return a neighbour that is more than once in a list."""
    vertex, other = next((vertex, other - 1) for vertex, near in enumerate(lists) for other in near if near.count(other) > 1)
    return f"{names[other]!r} is {lists[vertex].count(other + 1)} times in the list of {names[vertex]!r}", (vertex, other)


def asymmetric(names: Names, lists: Lists) -> Found:
    """Return a pair of which only one is in the list of the other."""
    vertex, other = next((vertex, other - 1) for vertex, near in enumerate(lists) for other in near
                         if vertex + 1 not in lists[other - 1])
    one, two = names[vertex], names[other]
    return f"{two!r} is in the list of {one!r}, {one!r} is not in that of {two!r}", (vertex, other)


def edgeless(names: Names, lists: Lists) -> Found:
    """Return that no vertex has a neighbour."""
    return f"{len(lists)} vertices without a neighbour" if len(lists) > 1 else f"vertex {names[0]!r} has no neighbour", ()


def degree(names: Names, lists: Lists) -> Found:
    """Return a vertex with more than four neighbours."""
    vertex = next(vertex for vertex, near in enumerate(lists) if len(near) > 4)
    return f"vertex {names[vertex]!r} has {len(lists[vertex])} neighbours", (vertex,)


def disconnected(names: Names, lists: Lists) -> Found:
    """Return a vertex that cannot be reached from the first."""
    reached, waiting = {0}, [0]
    while waiting:
        fresh = {other - 1 for other in lists[waiting.pop()]} - reached
        reached |= fresh
        waiting += fresh
    vertex = next(vertex for vertex in range(len(lists)) if vertex not in reached)
    return f"no path joins {names[0]!r} and {names[vertex]!r}", (0, vertex)


def genus(names: Names, lists: Lists) -> Found:
    """Return the numbers of vertices, edges and faces."""
    edges, faces = sum(map(len, lists)) // 2, len(Embedding.of(lists).walks)
    return f"{len(lists)} vertices - {edges} edges + {faces} faces is {len(lists) - edges + faces}, and not 2", ()


FAULTS: dict[str, Callable[[Names, Lists], Found]] = {
    "range": out_of_range, "loop": loop, "multi": twice, "asymmetric": asymmetric, "edgeless": edgeless, "degree": degree,
    "disconnected": disconnected, "genus": genus}
