"""The checker of drawings refuses each fault that it is for."""
from __future__ import annotations

import copy
import unittest
from typing import Any

import support
from drawing_checker import Found, Wrong, check, on_outer_face

EDGES = [(0, 1), (2, 3), (0, 0), (4, 1), (4, 3)]
NAMES = ["a", "b", "c", "d", "gnd"]


def vertex(name: str, box: list[float], kind: str = "vertex") -> dict[str, Any]:
    return {"name": name, "label": name, "kind": kind, "box": box}


def edge(tail: int, head: int, points: list[list[float]]) -> dict[str, Any]:
    return {"tail": tail, "head": head, "label": "", "arrow": "none", "points": points}


def right() -> dict[str, Any]:
    """A drawing by hand: two edges that cross, a loop, and two lines that meet at a net."""
    return {
        "vertices": [vertex("a", [10, 50, 30, 70]), vertex("b", [90, 50, 110, 70]), vertex("c", [50, 10, 70, 30]),
                     vertex("d", [50, 90, 70, 110]), vertex("gnd", [100, 100, 100, 100], "net")],
        "edges": [edge(0, 1, [[30, 60], [90, 60]]), edge(2, 3, [[60, 30], [60, 90]]),
                  edge(0, 0, [[10, 60], [2, 60], [2, 80], [20, 80], [20, 70]]), edge(4, 1, [[100, 100], [100, 70]]),
                  edge(4, 3, [[100, 100], [70, 100]])],
        "crossings": [{"at": [60, 60], "edges": [0, 1]}], "bends": 3, "size": [120, 120]}


class Checker(unittest.TestCase):
    def test_a_right_drawing_passes(self) -> None:
        self.assertEqual(check(right(), EDGES, NAMES), Found(crossings=1, bends=3))

    def test_the_outer_face(self) -> None:
        self.assertEqual(on_outer_face(right()), {0, 1, 2, 3, 4})
        drawing = right()
        drawing["vertices"][0] |= {"box": [40, 40, 50, 50]}
        drawing["edges"] = [edge(2, 3, [[50, 20], [5, 20], [5, 100], [50, 100]]), edge(2, 3, [[70, 20], [85, 20], [85, 100], [70, 100]])]
        self.assertEqual(on_outer_face(drawing), {1, 2, 3, 4})

    def refused(self, words: str, **changes: Any) -> None:
        """Looks that the drawing with these changes is refused with these words; a key is the way to what changes."""
        drawing = copy.deepcopy(right())
        for way, value in changes.items():
            *steps, last = (int(step) if step.isdigit() else step for step in way.split("__"))
            inner: Any = drawing
            for step in steps:
                inner = inner[step]
            inner[last] = value
        with self.assertRaisesRegex(Wrong, words):
            check(drawing, EDGES, NAMES)

    def test_another_graph(self) -> None:
        self.refused("not those of the graph", edges__0__head=3)
        self.refused("not those of the graph", vertices__0__name="z")
        self.refused("not those of the graph", edges=right()["edges"][:4])
        self.refused("is no vertex", edges__0__head=9)

    def test_lines_off_the_axes(self) -> None:
        self.refused("along an axis", edges__0__points=[[30, 60], [90, 61]])
        self.refused("along an axis", edges__0__points=[[30, 60], [30, 60], [90, 60]])
        self.refused("does not turn", edges__0__points=[[30, 60], [50, 60], [90, 60]])
        self.refused("points", edges__0__points=[[30, 60]])
        self.refused("not finite", edges__0__points=[[30, 60], [float("nan"), 60]])

    def test_ends(self) -> None:
        self.refused("border of the box of 'b'", edges__0__points=[[30, 60], [80, 60]])
        self.refused("into the box of 'b'", edges__0__points=[[30, 60], [110, 60]])
        self.refused("into the box of 'a'", edges__0__points=[[10, 60], [90, 60]])
        self.refused("into the box of 'a'", edges__0__points=[[30, 60], [30, 40], [80, 40], [80, 60], [90, 60]])

    def test_what_touches(self) -> None:
        self.refused("touches the box of 'c'", edges__0__points=[[30, 60], [40, 60], [40, 20], [80, 20], [80, 60], [90, 60]])
        self.refused("boxes of 'a' and 'b' touch", vertices__1__box=[30, 60, 110, 80])
        self.refused("run over each other|touch", edges__1__points=[[60, 30], [60, 60], [65, 60], [65, 90]])
        self.refused("touch at|run over", edges__1__points=[[60, 30], [60, 60.5], [50, 60.5], [50, 75], [60, 75], [60, 90]])
        self.refused("meets itself", edges__2__points=[[10, 60], [2, 60], [2, 80], [25, 80], [25, 75], [1, 75], [1, 90],
                                                       [20, 90], [20, 70]])

    def test_nets(self) -> None:
        self.refused("run over each other|touch", edges__4__points=[[100, 100], [100, 85], [80, 85], [80, 100], [70, 100]])
        self.refused("into the box of 'gnd'|touch", vertices__4__kind="vertex", vertices__4__box=[90, 90, 100, 100])
        self.refused("has no inside", vertices__4__kind="vertex")

    def test_what_is_told(self) -> None:
        self.refused("2 bends", bends=2)
        self.refused("0 crossings and has 1", crossings=[])
        self.refused("are not told", crossings=[{"at": [60, 60], "edges": [0, 2]}])
        self.refused("are not told", crossings=[{"at": [61, 60], "edges": [0, 1]}])
        self.refused("2 crossings and has 1", crossings=2 * right()["crossings"])

    def test_size_and_labels(self) -> None:
        self.refused("outside the picture", size=[100, 120])
        self.refused("covers the box", edges__0__label_box=[80, 50, 95, 59])
        self.refused("covers edge 1", edges__0__label_box=[50, 45, 70, 55])
        self.refused("outside the picture", edges__0__label_box=[110, 10, 130, 20])
        self.refused("cover each other", edges__0__label_box=[32, 45, 45, 58], edges__2__label_box=[35, 45, 48, 58])


if __name__ == "__main__":
    unittest.main()
