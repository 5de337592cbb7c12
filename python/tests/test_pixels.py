"""From the grid to pixels: room between all that is drawn, sizes by hand, least lengths beside all other placements,
components packed, and names beside nets."""
from __future__ import annotations

import itertools
import json
import random
import unittest
from collections.abc import Iterator
from dataclasses import dataclass
from typing import Any

import support
from drawing_checker import check
from planarbend.draw import Options, draw
from planarbend.graph import Arrow, Edge, Graph, Kind, Vertex
from planarbend.drawing.solver import Lengths
from planarbend.readers import read
from planarbend.drawing.texts import lines_of

Box = tuple[float, float, float, float]
# Pixels between boxes, labels and straight pieces of edges: enough that nobody takes one for part of another.
ROOM = {("box", "box"): 20.0, ("box", "label"): 10.0, ("box", "piece"): 12.0, ("label", "label"): 6.0,
        ("label", "piece"): 4.0,
        ("piece", "piece"): 10.0}
INSET, MARGIN, BETWEEN = 6.0, 10.0, 18.0  # pixels from a box's corner to a line, round the whole, between components
SAME = .01


def graph_of(text: str) -> Graph:
    return read(text.encode(), "graph.txt", "list")


def drawing_of(graph: Graph, **options: Any) -> dict[str, Any]:
    found: dict[str, Any] = json.loads(draw(graph, Options(**options)).json())
    return found


@dataclass(frozen=True)
class Item:
    """What takes room: a box, a label or a piece; its edge, and the vertices whose boxes it touches."""

    kind: str
    box: Box
    edge: int
    hosts: frozenset[int]


def items_of(drawing: dict[str, Any]) -> Iterator[Item]:
    """All items of a drawing."""
    for number, vertex in enumerate(drawing["vertices"]):
        yield Item("box", tuple(vertex["box"]), -1, frozenset([number]))
    for number, edge in enumerate(drawing["edges"]):
        if "label_box" in edge:
            yield Item("label", tuple(edge["label_box"]), number, frozenset())
        pieces = list(itertools.pairwise(edge["points"]))
        for place, ((x, y), (u, v)) in enumerate(pieces):
            hosts = {edge["tail"]} if place == 0 else set()
            hosts |= {edge["head"]} if place == len(pieces) - 1 else set()
            yield Item("piece", (min(x, u), min(y, v), max(x, u), max(y, v)), number, frozenset(hosts))


def components_of(drawing: dict[str, Any]) -> list[int]:
    """A number for each vertex, which is the same in each component."""
    part = list(range(len(drawing["vertices"])))
    for edge in drawing["edges"]:
        old, new = part[edge["tail"]], part[edge["head"]]
        part = [new if one == old else one for one in part]
    return part


def part_of(item: Item, part: list[int], drawing: dict[str, Any]) -> int:
    """The component of an item."""
    return part[min(item.hosts) if item.kind == "box" else drawing["edges"][item.edge]["tail"]]


def apart(one: Box, other: Box) -> float:
    """How far two boxes are apart along the axis along which they are further apart."""
    return max(one[0] - other[2], other[0] - one[2], one[1] - other[3], other[1] - one[3])


class Room(unittest.TestCase):
    def test_between_all_that_is_drawn(self) -> None:
        for name in ("workshop.txt", "wheel.json", "order.txt", "loops.txt", "parallel.txt", "k5.txt", "apart.txt",
                     "records.dot",
                     "petersen.gml", "groups.dot"):
            if not name.endswith(".txt") and not (support.has_graphviz and support.has_networkx):
                continue
            graph = read(support.GRAPHS[name].read_bytes(), name)
            for number, edge in enumerate(graph.edges):
                edge.label, edge.arrow = edge.label or ("" if number % 3 else f"edge\n{number}"), Arrow.FORWARD
            for options in ({}, {"compact": True}):
                with self.subTest(name, **options):
                    drawing = drawing_of(graph, **options)
                    check(drawing)
                    self.look_at(drawing)

    def test_labels_of_loops(self) -> None:
        """They keep their distance from all that is drawn."""
        for seed in (*range(12), 21, 22):
            dice = random.Random(seed)
            count = dice.randrange(2, 6)
            edges = [Edge(dice.randrange(vertex), vertex) for vertex in range(1, count)]
            edges += [Edge(vertex, vertex, "label\nx") for vertex in range(count) for _ in range(dice.randrange(4))]
            drawing = drawing_of(Graph([Vertex(str(vertex), str(vertex)) for vertex in range(count)], edges), effort=0)
            with self.subTest(seed=seed):
                check(drawing)
                self.look_at(drawing)

    def look_at(self, drawing: dict[str, Any]) -> None:
        """Looks at the room between all items but those that belong together."""
        part = components_of(drawing)
        for one, other in itertools.combinations(items_of(drawing), 2):
            if part_of(one, part, drawing) != part_of(other, part, drawing):
                self.assertGreaterEqual(apart(one.box, other.box), BETWEEN - SAME, (one, other))
                continue
            if one.edge == other.edge >= 0 or one.hosts & other.hosts and "box" in (one.kind, other.kind):
                continue
            room, far = ROOM[min(one.kind, other.kind), max(one.kind, other.kind)], apart(one.box, other.box)
            crosses = any({one.edge, other.edge} == set(crossing["edges"]) for crossing in drawing["crossings"])
            if one.kind == other.kind == "piece" and (crosses or one.hosts & other.hosts):
                is_upright = [item.box[0] == item.box[2] for item in (one, other)]
                if is_upright[0] != is_upright[1]:
                    continue
            self.assertGreaterEqual(far, room - SAME, (one, other))

    def test_at_the_sides_of_boxes(self) -> None:
        for name in ("workshop.txt", "loops.txt", "parallel.txt"):
            drawing = drawing_of(read(support.GRAPHS[name].read_bytes(), name))
            for edge in drawing["edges"]:
                for vertex, (x, y) in ((edge["tail"], edge["points"][0]), (edge["head"], edge["points"][-1])):
                    left, top, right, bottom = drawing["vertices"][vertex]["box"]
                    along = (x - left, right - x) if y in (top, bottom) else (y - top, bottom - y)
                    self.assertGreaterEqual(min(along), INSET - SAME)

    def test_the_margin(self) -> None:
        for name in ("workshop.txt", "loops.txt", "apart.txt"):
            drawing = drawing_of(read(support.GRAPHS[name].read_bytes(), name))
            boxes = [item.box for item in items_of(drawing)]
            self.assertAlmostEqual(min(box[0] for box in boxes), MARGIN, delta=SAME)
            self.assertAlmostEqual(min(box[1] for box in boxes), MARGIN, delta=SAME)
            for side, size in zip((2, 3), drawing["size"]):
                self.assertLess(abs(size - max(box[side] for box in boxes) - MARGIN), 1)


class ByHand(unittest.TestCase):
    def test_two_boxes(self) -> None:
        """Two least boxes of 22 by 22 pixels, 20 pixels apart, with a line between the middles of their sides."""
        drawing = drawing_of(graph_of("a b\n"))
        self.assertEqual(sorted(drawing["size"]), [42, 84])
        if drawing["size"] == [84, 42]:
            self.assertEqual(sorted(vertex["box"] for vertex in drawing["vertices"]),
                             [[10, 10, 32, 32], [52, 10, 74, 32]])
            self.assertEqual(sorted(drawing["edges"][0]["points"]), [[32, 21], [52, 21]])
        else:
            self.assertEqual(sorted(vertex["box"] for vertex in drawing["vertices"]),
                             [[10, 10, 32, 32], [10, 52, 32, 74]])
            self.assertEqual(sorted(drawing["edges"][0]["points"]), [[21, 32], [21, 52]])

    def test_a_square(self) -> None:
        """Four least boxes at the corners of a square: nothing is larger or further apart than it must be."""
        drawing = drawing_of(graph_of("a b\nb c\nc d\nd a\n"))
        self.assertEqual(drawing["size"], [84, 84])
        self.assertEqual(sorted(vertex["box"] for vertex in drawing["vertices"]),
                         [[10, 10, 32, 32], [10, 52, 32, 74], [52, 10, 74, 32], [52, 52, 74, 74]])

    def test_widths(self) -> None:
        """A name is as wide as its letters, 11 pixels high, in a box with 6 pixels at either side."""
        for name, letters in (("aaaa", 4 * .64), ("ABCD", 4 * .80), ("mmWW", 4 * .98), ("ijl.", 4 * .40),
                              ("a b!", 2 * .64 + .32 + .40),
                              ("日本語文", 4 * 1.05), ("éàüñ", 4 * .64), ("ααββ", 4 * .85),
                              ("e\u0301e\u0301ee", 4 * .64),
                              ("a", 0)):
            graph = Graph([Vertex("x", name), Vertex("y", "")], [Edge(0, 1)])
            left, top, right, bottom = drawing_of(graph)["vertices"][0]["box"]
            self.assertAlmostEqual(right - left, max(22, 11 * letters + 12), delta=SAME)
            self.assertAlmostEqual(bottom - top, 22, delta=SAME)

    def test_heights_and_flags(self) -> None:
        graph = Graph([Vertex("x", "a\nb\nc"), Vertex("y", "A\nA", Kind.FLAG), Vertex("z", "", Kind.FLAG)], [])
        sizes = [(right - left, bottom - top) for left, top, right,
                 bottom in (one["box"] for one in drawing_of(graph)["vertices"])]
        for (width, height), (wide, high) in zip(sizes, ((22, 3 * 14 + 8), (.8 * 11 + 8, 2 * 14 + 2), (14, 14 + 2)),
                                                 strict=True):
            self.assertAlmostEqual(width, wide, delta=SAME)
            self.assertAlmostEqual(height, high, delta=SAME)

    def test_long_names_are_broken_at_spaces(self) -> None:
        """A line is at most 110 pixels wide: 15 letters of 7.04 pixels and a space of 3.52, but not 16."""
        self.assertEqual(lines_of("aaaaaaaa bbbbbbb"), ["aaaaaaaa bbbbbbb"])
        self.assertEqual(lines_of("aaaaaaaa bbbbbbbb"), ["aaaaaaaa", "bbbbbbbb"])
        self.assertEqual(lines_of("a" * 30 + " b"), ["a" * 30, "b"])
        self.assertEqual(lines_of(" a  b\n\nc "), ["a b", "", "c"])
        self.assertEqual(lines_of("aaaa bbbb cccc dddd eeee", 60), ["aaaa bbbb", "cccc dddd", "eeee"])

    def test_labels(self) -> None:
        """A label takes room on its line: its letters are 10 pixels high, and 10 pixels lie between it and each box."""
        graph = Graph([Vertex("a", "a"), Vertex("b", "b")], [Edge(0, 1, "label")])
        drawing = drawing_of(graph)
        left, top, right, bottom = drawing["edges"][0]["label_box"]
        wide = 10 * (2 * .40 + 3 * .64)
        self.assertGreaterEqual(right - left, wide)
        self.assertLessEqual(right - left, wide + 8)
        self.assertAlmostEqual(bottom - top, 12, delta=SAME)
        (a, b, c, d), (e, f, g, h) = sorted(vertex["box"] for vertex in drawing["vertices"])
        self.assertAlmostEqual(left - c if c < left else top - d, 10, delta=SAME)
        self.assertAlmostEqual(e - right if e > right else f - bottom, 10, delta=SAME)


class LeastLengths(unittest.TestCase):
    def test_beside_all_placements(self) -> None:
        """The sum is the least of all whole placements of some random small cases."""
        for seed in range(60):
            dice = random.Random(seed)
            count = dice.randrange(3, 6)
            pairs = [(dice.randrange(high), high, dice.randrange(3), dice.randrange(4)) for high in range(1, count)]
            pairs += [(low, high, dice.randrange(3), dice.randrange(4)) for low,
                      high in itertools.combinations(range(count), 2)
                      if dice.random() < .7]
            wanted = min(cost_of(values, pairs) for values in itertools.product([0], *[range(9)] * (count - 1))
                         if fits(values, pairs))
            found = Lengths(count, range(count), pairs)
            found.shorten(1000)
            with self.subTest(seed=seed):
                self.assertTrue(fits(found.value, pairs))
                self.assertEqual(found.value[0], 0)
                self.assertAlmostEqual(cost_of(found.value, pairs), wanted)

    def test_nothing_is_moved_without_steps(self) -> None:
        """Without an exchange all values are the least ones."""
        found = Lengths(4, range(4), [(0, 1, 2.0, 0.0), (1, 2, 1.0, 0.0), (0, 3, 0.0, 0.0), (3, 2, 1.0, 9.0)])
        self.assertEqual(found.value, [0, 2, 3, 0])
        found.shorten(0)
        self.assertEqual(found.value, [0, 2, 3, 0])
        found.shorten(5)
        self.assertEqual(found.value, [0, 2, 3, 2])

    def test_one_after_another(self) -> None:
        """Two coordinates are moved up to a third, each by an exchange."""
        pairs = [(2, 1, 0.0, 1.0), (0, 1, 5.0, 0.0), (0, 2, 0.0, 0.0), (3, 1, 0.0, 1.0), (0, 3, 0.0, 0.0)]
        for most, values in ((0, [0, 0, 0, 5]), (1, [0, 0, 5, 5]), (5, [0, 5, 5, 5])):
            found = Lengths(4, (0, 2, 3, 1), pairs)
            found.shorten(most)
            self.assertEqual(sorted(found.value), values)


def fits(values: Any, pairs: list[tuple[int, int, int, int]]) -> bool:
    """Whether all pairs have their distance, and nothing lies before the first."""
    return all(values[high] - values[low] >= distance - 1e-6 for low, high, distance, _ in pairs) and min(values) >= 0


def cost_of(values: Any, pairs: list[tuple[int, int, int, int]]) -> float:
    """The sum of the lengths, each times its weight."""
    return sum(weight * (values[high] - values[low]) for low, high, _, weight in pairs)


class Components(unittest.TestCase):
    def test_they_are_packed(self) -> None:
        """Many components of several sizes take little more room than they need, in a picture that is not stretched."""
        for seed in range(6):
            dice = random.Random(seed)
            lines = []
            for part in range(dice.randrange(5, 25)):
                count = dice.randrange(2, 9)
                lines += [f"v{part}_{one} v{part}_{(one + 1) % count if dice.random() < .5 else (one + 1)}"
                          for one in range(count - 1)]
            graph = graph_of("\n".join(lines) + "\nalone\n")
            drawing = drawing_of(graph, effort=0)
            check(drawing)
            parts = parts_of(drawing)
            sizes = [(right - left + BETWEEN, bottom - top + BETWEEN) for left, top, right, bottom in parts]
            width, height = drawing["size"]
            with self.subTest(seed=seed):
                self.assertLess(width * height, 1.6 * sum(wide * high for wide, high in sizes))
                stretch = max(wide / high for wide, high in sizes), max(high / wide for wide, high in sizes)
                self.assertLessEqual(width / height, max(3.5, stretch[0]))
                self.assertLessEqual(height / width, max(2.5, stretch[1]))
                for one, other in itertools.combinations(parts, 2):
                    self.assertGreaterEqual(apart(one, other), BETWEEN - SAME)

    def test_in_rows(self) -> None:
        """Nine squares of one size lie in three rows of three."""
        drawing = drawing_of(graph_of("\n".join(f"{part}{one} {part}{(one + 1) % 4}" for part in "abcdefghi"
                                                for one in range(4))))
        left, top, right, bottom = parts_of(drawing)[0]
        for size, side in zip(drawing["size"], (right - left, bottom - top)):
            self.assertLess(abs(size - (3 * side + 2 * BETWEEN + 2 * MARGIN)), 1)


def parts_of(drawing: dict[str, Any]) -> list[Box]:
    """The rectangle round each component."""
    part = components_of(drawing)
    boxes: dict[int, list[Box]] = {}
    for item in items_of(drawing):
        boxes.setdefault(part_of(item, part, drawing), []).append(item.box)
    return [(min(box[0] for box in some), min(box[1] for box in some), max(box[2] for box in some),
             max(box[3] for box in some))
            for some in boxes.values()]


class NamesOfNets(unittest.TestCase):
    def test_they_keep_their_distance(self) -> None:
        """A name lies 3 pixels from its net's line, and 2 pixels or more from all else; nets with room have one."""
        named = nets = 0
        for seed in range(6):
            dice = random.Random(seed)
            count = dice.randrange(6, 12)
            vertices = [Vertex(f"n{number}", f"N{number}", Kind.NET if number % 3 == 0 else Kind.PART)
                        for number in range(count)]
            edges = [Edge(dice.randrange(vertex), vertex) for vertex in range(1, count)]
            edges += [Edge(*dice.sample(range(count), 2)) for _ in range(count // 2)]
            drawing = drawing_of(Graph(vertices, edges))
            check(drawing)
            pieces = [item for item in items_of(drawing) if item.kind == "piece"]
            for number, vertex in enumerate(drawing["vertices"]):
                nets += vertex["kind"] == "net"
                if "label_box" not in vertex:
                    continue
                named += 1
                self.assertEqual(vertex["kind"], "net")
                box = tuple(vertex["label_box"])
                self.assertAlmostEqual(box[2] - box[0], 10 * (.80 + .64 * len(str(number))), delta=SAME)
                self.assertAlmostEqual(box[3] - box[1], 12, delta=SAME)
                own = [piece.box for piece in pieces if number in (drawing["edges"][piece.edge][end]
                                                                   for end in ("tail", "head"))]
                self.assertLessEqual(min(apart(box, line) for line in [*own, tuple(vertex["box"])]), 3 + SAME)
                self.assertGreaterEqual(min(apart(box, line) for line in own), 2 - SAME)
                for other in pieces:
                    self.assertGreaterEqual(apart(box, other.box), 2 - SAME)
                for place, other in enumerate(drawing["vertices"]):
                    self.assertTrue(place == number or apart(box, tuple(other["box"])) >= 2 - SAME)
        self.assertGreater(named, .8 * nets)


if __name__ == "__main__":
    unittest.main()
