"""The embedding obeys Euler's formula after each edit, whatever the edits are."""
from __future__ import annotations

import random
import unittest

import support  # finds the package
from planarbend.drawing.planarization import FREE, NONE, LinkedEmbedding, Planarization


def random_route(rotation: LinkedEmbedding, edge: int, dice: random.Random) -> tuple[int, list[int], int]:
    """Corners of an edge's ends and a path of the dual graph between them, by a random walk without returns."""
    tail, head = rotation.ends[edge]
    corners = list(rotation.around(tail))
    goals = {rotation.face[dart]: dart for dart in rotation.around(head)}
    if not corners and not goals:
        return NONE, [], NONE
    if not corners:
        return NONE, [], dice.choice(sorted(goals.values()))
    corner = dice.choice(corners)
    if not goals:
        return corner, [], NONE
    # A tree of the dual graph in random order, from the corner's face.
    face = rotation.face[corner]
    came: dict[int, int] = {face: NONE}
    waiting = [face]
    while waiting:
        at = waiting.pop(dice.randrange(len(waiting)))
        for dart in rotation.along(rotation.corner[at]):
            beyond = rotation.face[dart ^ 1]
            if beyond not in came:
                came[beyond] = dart
                waiting.append(beyond)
    reached = sorted(goals[face] for face in goals if face in came)
    if not reached:
        return corner, [], dice.choice(sorted(goals.values()))  # another part: the two are joined
    goal = dice.choice(reached)
    at = rotation.face[goal]
    crossed: list[int] = []
    while came[at] != NONE:
        crossed.append(came[at])
        at = rotation.face[came[at]]
    return corner, crossed[::-1], goal


def check(linked: LinkedEmbedding) -> None:
    """Checks the lists against each other, and Euler's formula for each connected part."""
    used = [dart for dart in range(len(linked.origin)) if linked.face[dart] != NONE]
    for dart in used:
        assert linked.face[dart ^ 1] != NONE, f"dart {dart} has no twin"
        assert linked.back[linked.onward[dart]] == dart, f"dart {dart} is not before the one after it"
        assert linked.origin[linked.onward[dart]] == linked.origin[dart ^ 1], f"dart {dart} ends elsewhere"
        assert linked.face[linked.onward[dart]] == linked.face[dart], f"the face changes after dart {dart}"
        assert linked.leaving[linked.origin[dart]] >= 0, f"vertex {linked.origin[dart]} does not know its edges"
    degree = [0] * len(linked.leaving)
    for dart in used:
        degree[linked.origin[dart]] += 1
    for vertex, first in enumerate(linked.leaving):
        assert sum(1 for _ in linked.around(vertex)) == degree[vertex], f"vertex {vertex} is in two parts"
        assert first < 0 or linked.origin[first] == vertex, f"vertex {vertex} knows a dart of another"
        assert vertex < linked.vertex_count or degree[vertex] == (0 if first == FREE else 4), f"degree of {vertex}"
    faces = [face for face, dart in enumerate(linked.corner) if dart != NONE]
    for face in faces:
        assert linked.face[linked.corner[face]] == face, f"face {face} knows a dart of another"
    assert sum(sum(1 for _ in linked.along(linked.corner[face])) for face in faces) == len(used), "a face in two parts"
    assert sorted(edge for edge in linked.edge if edge != NONE) == sorted(
        linked.edge[dart >> 1] for edge in range(len(linked.ends)) for dart in linked.chain(edge)), "pieces of no edge"
    for edge, (tail, head) in enumerate(linked.ends):
        darts = linked.chain(edge)
        assert not darts or (linked.origin[darts[0]], linked.origin[darts[-1] ^ 1]) == (tail, head), f"edge {edge}"
        assert all(linked.edge[dart >> 1] == edge for dart in darts), f"edge {edge} goes on as another"
    vertices = sum(1 for first in linked.leaving if first >= 0)
    assert vertices - len(used) // 2 + len(faces) == 2 * parts_of(linked), "V - E + F is not 2"


def parts_of(linked: LinkedEmbedding) -> int:
    """The number of connected parts that have edges."""
    seen = [first < 0 for first in linked.leaving]
    parts = 0
    for vertex in range(len(seen)):
        if not seen[vertex]:
            parts += 1
            seen[vertex] = True
            waiting = [vertex]
            while waiting:
                for dart in linked.around(waiting.pop()):
                    if not seen[linked.origin[dart ^ 1]]:
                        seen[linked.origin[dart ^ 1]] = True
                        waiting.append(linked.origin[dart ^ 1])
    return parts


class RandomEdits(unittest.TestCase):
    """Edges are put in and taken out at random."""

    def edits(self, vertices: int, edges: int, seed: int, steps: int) -> None:
        dice = random.Random(seed)
        ends = []
        while len(ends) < edges:
            tail, head = dice.randrange(vertices), dice.randrange(vertices)
            if tail != head:
                ends.append((tail, head))
        rotation = LinkedEmbedding(vertices, ends)
        crossings = 0
        for _ in range(steps):
            edge = dice.randrange(edges)
            if rotation.start[edge] == NONE:
                tail_corner, crossed, head_corner = random_route(rotation, edge, dice)
                told = [rotation.edge[dart >> 1] for dart in crossed]
                rotation.insert(edge, tail_corner, crossed, head_corner)
                self.assertEqual(rotation.crossed(edge), told)
                crossings += len(told)
            elif dice.random() < 0.4:
                crossings -= len(rotation.crossed(edge))
                rotation.remove(edge)
            check(rotation)
            self.assertEqual(len(rotation.crossings()), crossings)

    def test_sparse(self) -> None:
        """Graphs of few edges, whose parts join and come apart."""
        for seed in range(20):
            self.edits(12, 12, seed, 60)

    def test_dense(self) -> None:
        """Graphs of many edges and crossings, with parallel edges."""
        for seed in range(6):
            self.edits(7, 25, seed, 80)


class Reading(unittest.TestCase):
    """An embedding that is given by its cyclic orders."""

    def test_of(self) -> None:
        """A cube has six faces of four edges, and its darts keep their numbers and clockwise orders."""
        ends = [(corner, corner ^ bit) for corner in range(8) for bit in (1, 2, 4) if not corner & bit]
        number = {pair: 2 * edge for edge, pair in enumerate(ends)} | {pair[::-1]: 2 * edge + 1 for edge, pair in enumerate(ends)}
        rotation = [[number[corner, corner ^ bit] for bit in ((1, 2, 4) if corner.bit_count() % 2 else (4, 2, 1))]
                    for corner in range(8)]
        planar = Planarization([end for pair in ends for end in pair], rotation, 8, [[2 * edge] for edge in range(12)])
        cube = LinkedEmbedding.of(planar, ends)
        check(cube)
        self.assertEqual([len(list(cube.along(dart))) for dart in cube.corner], [4] * 6)
        turned = [darts[1:] + darts[:1] for darts in rotation]
        self.assertEqual([list(cube.around(corner)) for corner in range(8)], turned)
        back = cube.planarization()
        self.assertEqual((back.tail, back.rotation, back.chains), (planar.tail, turned, planar.chains))

    def test_edges_come_and_go(self) -> None:
        """A triangle without an edge, and with it again."""
        ends = [(0, 1), (1, 2), (2, 0)]
        planar = Planarization([0, 1, 1, 2, 2, 0], [[0, 5], [2, 1], [4, 3]], 3, [[0], [2], [4]])
        rotation = LinkedEmbedding.of(planar, ends)
        for _ in range(2):
            rotation.remove(1)
            self.assertEqual(rotation.chain(1), [])
            check(rotation)
            faces = {rotation.face[dart] for dart in rotation.around(1)}
            rotation.insert(1, *rotation.corners(1, faces), (), *rotation.corners(2, faces))
            check(rotation)
            self.assertEqual(len(rotation.chain(1)), 1)
        self.assertEqual(rotation.crossings(), [])
        self.assertNotIn(FREE, rotation.leaving)


if __name__ == "__main__":
    unittest.main()
