"""Turns an embedded graph of any degree into one of degree at most 4, as planarbend takes it.

A vertex of degree d becomes a *cage*, a cycle of d vertices with one connection each, whose inner face is its box: planarbend
then chooses which connections leave on which side. Or it becomes a *spine*, a path of (d - 2) / 2 vertices with a connection
above and one below each, which takes fewer vertices. Parallel edges get vertices of degree 2.
"""
from __future__ import annotations

from collections.abc import Mapping

from planarbend.drawing.planarization import Planarization
from planarbend.drawing.plans import Plan
from planarbend.layout.embedding import Embedding
from planarbend.layout.planar_code import MOST_VERTICES

MOST_CONNECTIONS = 4  # of a vertex, as planarbend takes it
LEAST_CAGE = 3  # connections of a vertex that can be a cage


class Expansion(Embedding):
    """A simple embedded graph of degree at most 4 that stands for a planarization.

    Its vertices are called nodes. Vertices, crossings and darts of the planarization keep their numbers: the first node of a
    box is its vertex, and a piece that is divided begins with its dart. Vertices that become cages have at least `LEAST_CAGE`
    connections, those that become spines at least 5. A loose piece gets a node of degree 2 for each of its bends.

    `most`: how many nodes planarbend takes.
    `homes`: for each vertex of the graph its nodes: one; or those of its cage, clockwise; or those of its spine, in order.
    `sides`: for each cage the darts from node to node, clockwise; for each spine the darts along it.
    `chains`: for each edge of the graph the darts along it, from its tail to its head.
    """

    def __init__(self, planar: Planarization, plan: Plan, most: int = MOST_VERTICES) -> None:
        """Return the expansion of a connected graph by a plan, for an engine that takes at most as many nodes."""
        super().__init__(list(planar.tail), list(planar.rotation))
        self.planar, self.plan, self.spines, self.most = planar, plan, dict(plan.spines), most
        self.homes = [[vertex] for vertex in range(planar.vertex_count)]
        self.sides: dict[int, list[int]] = {}
        for vertex in range(planar.vertex_count):
            if vertex in plan.cages:
                self._make_cage(vertex)
            elif vertex in self.spines:
                self._make_spine(vertex, self.spines[vertex])
        self.chains = self._divided(dict(plan.loose))

    def _node(self) -> int:
        """Return a new node."""
        self.rotation.append([])
        return len(self.rotation) - 1

    def _dart(self, tail: int, head: int) -> int:
        """Return the dart from tail to head of a new piece, which is not in a rotation yet."""
        self.tail += [tail, head]
        return len(self.tail) - 2

    def _make_cage(self, vertex: int) -> None:
        """Replace a vertex by a cycle."""
        out = self.rotation[vertex]
        nodes = [vertex] + [self._node() for _ in out[1:]]
        ring = [self._dart(node, after) for node, after in zip(nodes, nodes[1:] + nodes[:1])]
        for place, (node, dart) in enumerate(zip(nodes, out)):
            self.tail[dart] = node
            self.rotation[node] = [dart, ring[place], ring[place - 1] ^ 1]
        self.homes[vertex], self.sides[vertex] = nodes, ring

    def _make_spine(self, vertex: int, turn: int) -> None:
        """Replace a vertex by a path. The connection at place `turn` leaves at its first end."""
        out = self.rotation[vertex]
        out = out[turn:] + out[:turn]
        nodes = [vertex] + [self._node() for _ in range((len(out) - 1) // 2 - 1)]
        if len(out) % 2:  # a leaf, so that the last node has four connections and the path runs straight
            leaf = self._node()
            out.append(self._dart(nodes[0], leaf))
            self.rotation[leaf] = [out[-1] ^ 1]
        count, links = len(nodes), [self._dart(*pair) for pair in zip(nodes, nodes[1:])]
        for place, node in enumerate(nodes):
            left = links[place - 1] ^ 1 if place else out[0]
            right = links[place] if place + 1 < count else out[count + 1]
            self.rotation[node] = [left, out[place + 1], right, out[2 * count + 1 - place]]
            for dart in self.rotation[node]:
                self.tail[dart] = node
        self.homes[vertex], self.sides[vertex] = nodes, links

    def _divide(self, dart: int) -> int:
        """Return the dart to the head of a piece from a new node in its middle."""
        middle, back = self._node(), dart ^ 1
        head = self.tail[back]
        on = self._dart(middle, head)
        self.rotation[head] = [on ^ 1 if out == back else out for out in self.rotation[head]]
        self.tail[back] = middle
        self.rotation[middle] = [back, on]
        return on

    def _divided(self, loose: Mapping[int, int]) -> list[list[int]]:
        """Return the darts along each edge, after pieces were divided that are loose or join nodes already joined."""
        joined = set[frozenset[int]]()
        found: list[list[int]] = []
        for chain in self.planar.chains:
            found.append([])
            for dart in chain:
                pieces = [dart]
                ends = frozenset((self.tail[dart], self.tail[dart ^ 1]))
                for _ in range(max(loose.get(dart >> 1, 0), ends in joined)):
                    pieces.append(self._divide(pieces[-1]))
                joined |= {frozenset((self.tail[piece], self.tail[piece ^ 1])) for piece in pieces}
                found[-1] += pieces
        return found


def size_of(planar: Planarization, plan: Plan) -> int:
    """Return the least number of nodes of an expansion, before parallel edges."""
    degree = list(map(len, planar.rotation))
    cage = sum(degree[vertex] - 1 for vertex in plan.cages)
    spine = sum((degree[vertex] - 1) // 2 - 1 + degree[vertex] % 2 for vertex, _ in plan.spines)
    return len(planar.rotation) + cage + spine + sum(count for _, count in plan.loose)
