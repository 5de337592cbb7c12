"""Where lines meet the outlines of nodes, by the equations of ellipses and straight lines."""
from __future__ import annotations

import itertools
import math
import unittest

import support  # noqa: F401  (finds the package)
from planarbend.drawing.symbols import border, drawn_on, inset_of, room
from planarbend.style import Outline

BOX = (10.0, 20.0, 70.0, 60.0)  # its middle is (40, 40), half its width 30, half its height 20
SIZE = (60.0, 40.0)
CURVED = (Outline.ELLIPSE, Outline.DIAMOND, Outline.HEXAGON, Outline.OCTAGON)


class Ends(unittest.TestCase):
    def end(self, outline: Outline, point: tuple[float, float], before: tuple[float, float],
            least: tuple[float, float] = SIZE) -> tuple[float, float]:
        return drawn_on(border(outline, BOX, least), point, before)

    def test_ellipse(self) -> None:
        for x in (16, 25, 40, 61.5):
            down = 20 * math.sqrt(1 - ((x - 40) / 30) ** 2)
            self.assertAlmostEqual(self.end(Outline.ELLIPSE, (x, 20), (x, 5))[1], 40 - down, delta=.1)
            self.assertAlmostEqual(self.end(Outline.ELLIPSE, (x, 60), (x, 90))[1], 40 + down, delta=.1)
        for y in (26, 40, 50):
            across = 30 * math.sqrt(1 - ((y - 40) / 20) ** 2)
            self.assertAlmostEqual(self.end(Outline.ELLIPSE, (10, y), (0, y))[0], 40 - across, delta=.1)
            self.assertAlmostEqual(self.end(Outline.ELLIPSE, (70, y), (99, y))[0], 40 + across, delta=.1)

    def test_an_ellipse_in_a_larger_box_has_straight_sides(self) -> None:
        for x in (25, 40, 55):
            self.assertEqual(self.end(Outline.CIRCLE, (x, 20), (x, 5), (30.0, 30.0)), (x, 20))
        found = self.end(Outline.CIRCLE, (16, 20), (16, 5), (30.0, 30.0))[1]
        self.assertAlmostEqual(found, 35 - math.sqrt(15**2 - 9**2), delta=.1)

    def test_diamond(self) -> None:
        for x, y in ((25, 30), (40, 20), (64, 36)):
            self.assertAlmostEqual(self.end(Outline.DIAMOND, (x, 20), (x, 5))[1], y)
        self.assertAlmostEqual(self.end(Outline.DIAMOND, (70, 35), (99, 35))[0], 62.5)

    def test_note_folder_component_and_cylinder(self) -> None:
        """A note lacks a triangle of 8 pixels, a folder 5 pixels but for its tab, a component 6 beside its small boxes."""
        self.assertEqual(self.end(Outline.NOTE, (40, 20), (40, 5)), (40, 20))
        self.assertAlmostEqual(self.end(Outline.NOTE, (66, 20), (66, 5))[1], 24)
        self.assertEqual([self.end(Outline.FOLDER, (x, 20), (x, 5))[1] for x in (30, 60)], [25, 20])
        self.assertEqual([self.end(Outline.COMPONENT, (10, y), (0, y))[0] for y in (30, 40, 50)], [10, 16, 10])
        self.assertEqual(self.end(Outline.CYLINDER, (40, 20), (40, 5))[1], 20)
        self.assertAlmostEqual(self.end(Outline.CYLINDER, (55, 60), (55, 90))[1], 56 + 4 * math.sqrt(.75), delta=.1)
        self.assertEqual(self.end(Outline.CYLINDER, (70, 40), (99, 40))[0], 70)

    def test_lines_beside_a_corner_do_not_meet(self) -> None:
        for outline, least, (x, y) in itertools.product(CURVED, (SIZE, (30.0, 40.0)), itertools.product((0, 1), (0, 1))):
            across, down = inset_of(outline, least)
            at_x, at_y = (BOX[2] - across if x else BOX[0] + across), (BOX[3] - down if y else BOX[1] + down)
            upright = self.end(outline, (at_x, BOX[1 + 2 * y]), (at_x, BOX[1 + 2 * y] + (9 if y else -9)), least)
            level = self.end(outline, (BOX[2 * x], at_y), (BOX[2 * x] + (9 if x else -9), at_y), least)
            self.assertLess(abs(upright[1] - BOX[1 + 2 * y]), down)
            self.assertLess(abs(level[0] - BOX[2 * x]), across)


class Room(unittest.TestCase):
    def test_a_label_fits(self) -> None:
        """The corners of the label lie within the outline."""
        for outline, (wide, high) in itertools.product(Outline, ((7, 14), (60, 14), (100, 42))):
            if outline is Outline.POINT:
                continue
            size = room(outline, (wide, high), (max(22, wide + 12), high + 8))
            box = (0.0, 0.0, *size)
            corners = border(outline, box, size)
            for x in (size[0] / 2 - wide / 2, size[0] / 2 + wide / 2):
                upper = drawn_on(corners, (x, 0), (x, -9))[1]
                lower = drawn_on(corners, (x, size[1]), (x, size[1] + 9))[1]
                self.assertLessEqual(upper, size[1] / 2 - high / 2 + .1, outline)
                self.assertGreaterEqual(lower, size[1] / 2 + high / 2 - .1, outline)

    def test_proportions(self) -> None:
        """A label is as far from the tab of a folder as from the border of a box; a diamond of one letter is upright."""
        folder = room(Outline.FOLDER, (60, 14), (72, 22))
        tab = min(y for x, y in border(Outline.FOLDER, (0.0, 0.0, *folder), folder) if x == 0)
        self.assertEqual(folder[1] / 2 - 14 / 2 - tab, 4)
        diamond = room(Outline.DIAMOND, (7, 14), (22, 22))
        self.assertLess(diamond[0], diamond[1])


if __name__ == "__main__":
    unittest.main()
