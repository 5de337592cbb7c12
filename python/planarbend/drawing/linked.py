"""Embedded darts as linked lists, which can be edited: what every search for few crossings shares.

A search takes edges out and puts them back a million times; in an `Embedding`, each of these edits would take as long as the
orders and faces that it touches. Here, all state is in flat lists of integers, which callers may read; only the methods
write them. Darts and directions are those of `Embedding`: ``h ^ 1`` is the reverse of ``h``, a dart has its face on its left,
and turning clockwise about a vertex, ``onward[h ^ 1]`` follows ``h``.

An edge is a chain of *pieces*, cut where other edges cross it or, if it is a net, where it branches.
"""
from __future__ import annotations

from collections.abc import Iterator

NONE = -1  # no dart, face or edge; in `LinkedDarts.leaving`, a vertex without edges
FREE = -2  # in `LinkedDarts.leaving`, a number that no vertex uses


class LinkedDarts:
    """Pieces of edges in the plane, between vertices that are given and vertices that pieces are split at.

    `vertex_count`: the given vertices are 0 to ``vertex_count - 1``.
    `origin`, `onward`, `back`, `face`: for each dart: the vertex it leaves, the next and the previous dart of the face on its
    left, and that face. ``face`` is `NONE` if the dart is unused.
    `leaving`: for each vertex a dart that leaves it, `NONE` without edges, `FREE` for an unused number above those given.
    `corner`: for each face one of its darts, `NONE` for an unused number.
    `edge`: for each piece the edge it is part of.
    """

    def __init__(self, vertex_count: int) -> None:
        """Return an embedding of no edge."""
        self.vertex_count = vertex_count
        self.origin: list[int] = []
        self.onward: list[int] = []
        self.back: list[int] = []
        self.face: list[int] = []
        self.leaving: list[int] = [NONE] * vertex_count
        self.corner: list[int] = []
        self.edge: list[int] = []
        self.free_pieces: list[int] = []
        self.free_faces: list[int] = []
        self.free_crossings: list[int] = []

    def _renamed(self, old: int, new: int) -> None:
        """Note that the dart that leaves a vertex has another number: the piece was split, or joined with the next."""

    # Reading

    def around(self, vertex: int) -> Iterator[int]:
        """Yield the darts that leave a vertex or a crossing, clockwise; the last is that of `leaving`."""
        last = dart = self.leaving[vertex]
        while dart >= 0:
            dart = self.onward[dart ^ 1]
            yield dart
            if dart == last:
                return

    def along(self, dart: int) -> Iterator[int]:
        """Yield the darts of the face on the left of ``dart``, from ``dart`` on."""
        first = dart
        while True:
            yield dart
            dart = self.onward[dart]
            if dart == first:
                return

    def straight(self, dart: int) -> int:
        """Return the dart that continues ``dart`` straight through the crossing at its end."""
        return self.onward[self.onward[dart] ^ 1]

    # Pieces and faces

    def _new_piece(self, edge: int, tail: int, head: int) -> int:
        """Return a new piece, not yet in a face."""
        if self.free_pieces:
            piece = self.free_pieces.pop()
            self.origin[2 * piece], self.origin[2 * piece + 1] = tail, head
            self.edge[piece] = edge
            return piece
        self.origin += (tail, head)
        self.onward += (NONE, NONE)
        self.back += (NONE, NONE)
        self.face += (NONE, NONE)
        self.edge.append(edge)
        return len(self.edge) - 1

    def _new_face(self, dart: int) -> int:
        """Return a new face with this dart."""
        if self.free_faces:
            face = self.free_faces.pop()
            self.corner[face] = dart
            return face
        self.corner.append(dart)
        return len(self.corner) - 1

    def _label(self, first: int, face: int) -> None:
        """Write the face of each dart of a boundary."""
        faces, onward = self.face, self.onward
        dart = first
        while True:
            faces[dart] = face
            dart = onward[dart]
            if dart == first:
                return

    def _split(self, dart: int) -> int:
        """Return the dart that leaves a new crossing, which cuts a piece in two, onward, with the face of ``dart``.

        ``dart`` then ends at the crossing, and its twin leaves it.
        """
        origin, onward, back, face = self.origin, self.onward, self.back, self.face
        twin = dart ^ 1
        end = origin[twin]
        if self.free_crossings:
            crossing = self.free_crossings.pop()
        else:
            crossing = len(self.leaving)
            self.leaving.append(FREE)
        piece = self._new_piece(self.edge[dart >> 1], crossing, end)
        ahead, behind = 2 * piece, 2 * piece + 1
        face[ahead], face[behind] = face[dart], face[twin]
        origin[twin] = crossing
        if onward[dart] == twin:
            onward[ahead], back[behind] = behind, ahead
        else:
            onward[ahead], back[onward[dart]] = onward[dart], ahead
            onward[back[twin]], back[behind] = behind, back[twin]
        onward[dart], back[ahead] = ahead, dart
        onward[behind], back[twin] = twin, behind
        self.leaving[crossing] = ahead
        if self.leaving[end] == twin:
            self.leaving[end] = behind
        self._renamed(twin, behind)
        return ahead

    def _join(self, edge: int, tail: int, tail_corner: int, head: int, head_corner: int) -> int:
        """Return the dart from tail to head of a new piece between two corners."""
        ahead = 2 * self._new_piece(edge, tail, head)
        behind = ahead + 1
        onward, back, face = self.onward, self.back, self.face
        if tail_corner == NONE:
            onward[behind], back[ahead] = ahead, behind
            self.leaving[tail] = ahead
        else:
            before = back[tail_corner]
            onward[before], back[ahead] = ahead, before
            onward[behind], back[tail_corner] = tail_corner, behind
        if head_corner == NONE:
            onward[ahead], back[behind] = behind, ahead
            self.leaving[head] = behind
        else:
            before = back[head_corner]
            onward[before], back[behind] = behind, before
            onward[ahead], back[head_corner] = head_corner, ahead
        if tail_corner == NONE and head_corner == NONE:
            face[ahead] = face[behind] = self._new_face(ahead)
        elif tail_corner == NONE:
            face[ahead] = face[behind] = face[head_corner]
        elif head_corner == NONE:
            face[ahead] = face[behind] = face[tail_corner]
        else:
            old, other = face[tail_corner], face[head_corner]
            if old == other:
                face[behind] = old
                self.corner[old] = behind
                self._label(ahead, self._new_face(ahead))
            else:
                self._label(ahead, old)
                self.corner[other] = NONE
                self.free_faces.append(other)
        return ahead

    def _cut(self, dart: int) -> None:
        """Remove a piece."""
        onward, back, face = self.onward, self.back, self.face
        twin = dart ^ 1
        kept, other = face[dart], face[twin]
        after, before = onward[dart], back[dart]
        twin_after, twin_before = onward[twin], back[twin]
        head_alone, tail_alone = after == twin, twin_after == dart
        tail, head = self.origin[dart], self.origin[twin]
        if head_alone:
            self.leaving[head] = NONE
        else:
            onward[twin_before], back[after] = after, twin_before
            self.leaving[head] = after
        if tail_alone:
            self.leaving[tail] = NONE
        else:
            onward[before], back[twin_after] = twin_after, before
            self.leaving[tail] = twin_after
        face[dart] = face[twin] = NONE
        self.edge[dart >> 1] = NONE
        self.free_pieces.append(dart >> 1)
        if kept != other:
            self.corner[kept] = after
            self._label(after, kept)
            self.corner[other] = NONE
            self.free_faces.append(other)
        elif head_alone and tail_alone:
            self.corner[kept] = NONE
            self.free_faces.append(kept)
        elif head_alone:
            self.corner[kept] = twin_after
        else:
            self.corner[kept] = after
            if not tail_alone:
                self._label(twin_after, self._new_face(twin_after))

    def _smooth(self, crossing: int) -> None:
        """Join the two pieces that are left at a crossing."""
        dart = self.leaving[crossing]
        other = self.back[dart] ^ 1
        onward, back = self.onward, self.back
        coming = other ^ 1
        end = self.origin[coming]
        self.origin[dart] = end
        twin = dart ^ 1
        if onward[other] == coming:
            onward[twin], back[dart] = dart, twin
        else:
            onward[twin], back[onward[other]] = onward[other], twin
            onward[back[coming]], back[dart] = dart, back[coming]
        if self.leaving[end] == coming:
            self.leaving[end] = dart
        if self.corner[self.face[other]] == other:
            self.corner[self.face[other]] = twin
        if self.corner[self.face[coming]] == coming:
            self.corner[self.face[coming]] = dart
        self._renamed(coming, dart)
        self.face[other] = self.face[coming] = NONE
        self.edge[other >> 1] = NONE
        self.free_pieces.append(other >> 1)
        self.leaving[crossing] = FREE
        self.free_crossings.append(crossing)
