"""An embedding of a planar graph whose vertices are inserted one by one, without a planarity test.

Drawings of it tend to have fewer bends than those of other embeddings. First, all vertices of degree 1 and 2 are folded away.
The next vertex is always the one with the most neighbours in the embedded part. It goes into a face that has all of them; if
there are several, into the one on which the most vertices still wait for neighbours, since other faces are mostly finished. If
no face has all of them, an earlier vertex was put on the wrong side: everything is then repeated with other choices among
equals, and sometimes with less preference for such faces. Finally, the folded vertices are put back one by one.

This is not a planarity test: if no attempt succeeds, the graph may still be planar.
"""
from __future__ import annotations

import random
from collections.abc import Iterable, Sequence

from planarbend.drawing.dual import one_of
from planarbend.drawing.linked import NONE
from planarbend.drawing.planarization import LinkedEmbedding
from planarbend.drawing.reinsert import growth

ATTEMPTS = 24  # orders that are tried

Folded = tuple[int, list[int], bool]  # a vertex, its neighbours when it was folded away, and whether these were joined


def incremental_embedding(vertex_count: int, ends: Iterable[tuple[int, int]]) -> list[list[int]] | None:
    """Return for each vertex its neighbours, clockwise, in an embedding; `None` if no attempt succeeds.

    There must be no loops. Of parallel edges there is one in the embedding.
    """
    joined: list[set[int]] = [set() for _ in range(vertex_count)]
    for tail, head in ends:
        joined[tail].add(head)
        joined[head].add(tail)
    folded = fold(joined)
    kept = [vertex for vertex, others in enumerate(joined) if others]
    number = {vertex: place for place, vertex in enumerate(kept)}
    pairs = [(number[vertex], number[other]) for vertex in kept for other in sorted(joined[vertex]) if vertex < other]
    if len(pairs) > max(0, 3 * len(kept) - 6):
        return None
    dice = random.Random(0)
    for attempt in range(ATTEMPTS):
        made = _Attempt(LinkedEmbedding(len(kept), pairs), dice, attempt % 3 == 2)
        if made.succeeds():
            around: list[list[int]] = [[] for _ in range(vertex_count)]
            for place, vertex in enumerate(kept):
                around[vertex] = [kept[made.embedding.origin[dart ^ 1]] for dart in made.embedding.around(place)]
            _unfold(around, folded)
            return around
    return None


def fold(joined: list[set[int]]) -> list[Folded]:
    """Return the vertices of degree 1 and 2, removed one after another from the neighbours `joined` of each vertex; an edge
    then joins the two neighbours of a vertex of degree 2."""
    folded = []
    waiting = [vertex for vertex, others in enumerate(joined) if 0 < len(others) < 3][::-1]
    while waiting:
        vertex = waiting.pop()
        others = sorted(joined[vertex])
        if not 0 < len(others) < 3:
            continue
        joined[vertex].clear()
        for other in others:
            joined[other].remove(vertex)
        one, last = others[0], others[-1]
        folded.append((vertex, others, last in joined[one]))
        if one != last:
            joined[one].add(last)
            joined[last].add(one)
        waiting += [other for other in others if 0 < len(joined[other]) < 3]
    return folded


def _unfold(around: list[list[int]], folded: list[Folded]) -> None:
    """Put folded vertices back, the last first: into an edge, beside one, or at the end of their neighbour's list."""
    for vertex, others, were_joined in reversed(folded):
        one, last = others[0], others[-1]
        if one == last:
            around[one].append(vertex)
        elif were_joined:
            around[one].insert(around[one].index(last) + 1, vertex)
            around[last].insert(around[last].index(one), vertex)
        else:
            around[one][around[one].index(last)] = vertex
            around[last][around[last].index(one)] = vertex
        around[vertex] = others


class _Attempt:
    """One order in which vertices are inserted into an embedding without edges.

    If it is random, a face on which fewer vertices wait may be chosen.
    """

    def __init__(self, embedding: LinkedEmbedding, dice: random.Random, is_random: bool) -> None:
        """Return an attempt before its first vertex."""
        self.embedding, self.dice, self.is_random = embedding, dice, is_random
        self.missing = [len(edges) for edges in embedding.edges_at]  # edges of each vertex that are not embedded yet

    def succeeds(self) -> bool:
        """Return whether all vertices could be inserted without a crossing."""
        return all(not edges or self._put(vertex, edges) for vertex, edges in growth(self.embedding, self.dice))

    def _put(self, vertex: int, edges: Sequence[int]) -> bool:
        """Return whether some face has all ends of these edges of a vertex, which is then inserted there."""
        embedding = self.embedding
        others = [sum(embedding.ends[edge]) - vertex for edge in edges]
        if embedding.leaving[others[0]] == NONE:  # the second vertex of a part
            embedding.insert(edges[0], NONE, (), NONE)
        else:
            faces = set.intersection(*({embedding.face[dart] for dart in embedding.around(other)} for other in others))
            if not faces:
                return False
            here = {self._chosen(sorted(faces)): NONE}
            for edge, other in zip(edges, others):
                there = one_of(embedding.corners(other, here), self.dice)
                corner = here[embedding.face[there]]
                tail_first = embedding.ends[edge][0] == vertex
                embedding.insert(edge, *((corner, (), there) if tail_first else (there, (), corner)))
                here = {embedding.face[dart]: dart for dart in embedding.around(vertex)}
        for edge in edges:
            for end in embedding.ends[edge]:
                self.missing[end] -= 1
        return True

    def _chosen(self, faces: Sequence[int]) -> int:
        """Return a face to put a vertex into."""
        if len(faces) == 1:
            return faces[0]
        embedding, missing = self.embedding, self.missing
        walks = (embedding.along(embedding.corner[face]) for face in faces)
        waiting = [sum(missing[embedding.origin[dart]] > 0 for dart in walk) for walk in walks]
        if self.is_random:
            return max((count * self.dice.random(), face) for count, face in zip(waiting, faces))[1]
        return max(zip(waiting, faces))[1]
