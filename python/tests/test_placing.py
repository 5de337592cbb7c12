"""Drawings of random sheets: right by the judge, near to what is wanted, and the same each time."""
from __future__ import annotations

import json
import unittest
from unittest import mock

import support  # noqa: F401  (finds the package)
from schematic_judge import judge_alone
from sheets import random_sheet
from test_wiring import given_engine, has_scipy, needs_scipy, sheet_of

from planarbend.drawing.texts import width_of
from planarbend.schematics.parts import EAST, NORTH, SOUTH, WEST, Kind, Part, Pin

if has_scipy:
    from planarbend.schematics.figures import figure
    from planarbend.schematics.drawn import Jog, Wire
    from planarbend.schematics.fitting import LARGE, best_fit, columns_of
    from planarbend.schematics.gathering import gather
    from planarbend.schematics.placing import Placed, best_level, cleaned
    from planarbend.schematics.schematic import schematic_of, shelves
    from planarbend.schematics.spacing import Demands, Item, Skyline, least_sum
    from planarbend.schematics.shapes import Shape, Text, shape_of
    from planarbend.schematics.strokes import Pose


@needs_scipy
class Drawings(unittest.TestCase):
    """Whole drawings."""

    def judged(self, seed: int, free: bool) -> None:
        """Look that the judge finds no fault in the drawing of a random sheet."""
        with self.subTest(seed=seed, free=free), mock.patch("planarbend.schematics.wirings.WORK", 60_000):
            sheet = random_sheet(seed, 6 + 2 * seed)
            found = schematic_of(sheet, given_engine(), free=free)
            verdict = judge_alone(json.loads(found.json()))
            self.assertEqual(verdict.faults, [])
            self.assertLessEqual(verdict.counts["worst_stretch"], 3.0)
            if not free:
                self.assertEqual(verdict.counts["upright"], verdict.counts["cages"])
            self.assertEqual([part.ref for part in found.sheet.parts], [part.ref for part in sheet.parts])

    def test_judged(self) -> None:
        """Sheets of 6 to 10 parts."""
        for seed in range(3):
            self.judged(seed, False)

    def test_larger(self) -> None:
        """A sheet of 16 parts."""
        self.judged(5, False)

    def test_free(self) -> None:
        """Sheets without wishes."""
        for seed in (1, 3):
            self.judged(seed, True)

    def test_same(self) -> None:
        """The same seed gives the same drawing."""
        engine, sheet = given_engine(), random_sheet(3, 8)
        self.assertEqual(*(schematic_of(sheet, engine, seed=4).json() for _ in range(2)))

    def test_lone(self) -> None:
        """Parts without wires."""
        sheet = sheet_of(Part("U1", "X", Kind.BOX, [Pin("1", "a", EAST), Pin("2", "b", WEST), Pin("3", "c", WEST)]),
                         Part("R1", "1k", Kind.RESISTOR, [Pin("1", "", NORTH), Pin("2", "", SOUTH)]))
        verdict = judge_alone(json.loads(schematic_of(sheet, given_engine()).json()))
        self.assertEqual(verdict.faults, [])


@needs_scipy
class Pieces(unittest.TestCase):
    """Jogs, boxes in their rectangles, lines and shelves, by hand."""

    def test_columns(self) -> None:
        """A jog downwards is nearer to the part than those that it would meet below; one upwards than those above."""
        self.assertEqual(columns_of([0, 20, 40], [0, 20, 40]), [0, 0, 0])
        self.assertEqual(columns_of([0, 20, 100], [50, 70, 100]), [1, 2, 0])
        self.assertEqual(columns_of([0, 60, 80], [0, 20, 40]), [0, 2, 1])
        self.assertEqual(columns_of([0, 100], [20, 120]), [1, 1])
        self.assertEqual(columns_of([0, 31], [20, 51]), [1, 2])
        self.assertEqual(columns_of([0, 32], [20, 52]), [1, 1])

    def test_fit(self) -> None:
        """A box that is stretched by one wire far away is as large as it needs, with one jog."""
        part = Part("U1", "", Kind.BOX, [Pin("1", "", EAST), Pin("2", "", WEST), Pin("3", "", WEST)])
        one = figure(part, Pose(), [0, 1, 2])
        self.assertIsNone(best_fit(one, 1, (0.0, one.needs.height), {1: 10.0, 2: 30.0}))
        fit = best_fit(one, 1, (0.0, 400.0), {0: 20.0, 1: 10.0, 2: 390.0})
        self.assertEqual(fit.columns, {0: {0: 0}, 2: {1: 0, 2: 1}})
        self.assertEqual((fit.levels[0], fit.levels[1]), (20.0, 10.0))
        self.assertLess(fit.high - fit.low, LARGE * one.needs.height)
        self.assertIsNone(best_fit(one, 1, (0.0, 400.0), {0: 20.0, 1: 10.0, 2: 390.0}, {}))

    def test_lines(self) -> None:
        """Points at which a line does not turn are left out, and those that come twice."""
        self.assertEqual(cleaned([(0, 0), (5, 0), (5, 0), (9, 0), (9, 4), (9, 6)]), [(0, 0), (9, 0), (9, 6)])
        self.assertEqual(best_level([3.0, 5.0, 5.0, 1.0], 2.0), 5.0)
        self.assertEqual(best_level([3.0, 1.0], 1.5), 1.0)
        self.assertEqual(best_level([], 7.0), 7.0)

    def test_shelves(self) -> None:
        """Components do not overlap, and each is moved from where it was."""
        boxes = [(0, 0, 100, 40), (-5, 7, 60, 90), (3, 3, 30, 20), (0, 0, 10, 10)]
        moves, (width, height) = shelves(boxes)
        found = [(left + x, top + y, right + x, bottom + y) for (left, top, right, bottom), (x, y) in zip(boxes, moves)]
        for place, one in enumerate(found):
            self.assertTrue(0 < one[0] and one[2] < width and 0 < one[1] and one[3] < height)
            for other in found[:place]:
                self.assertTrue(one[2] < other[0] or other[2] < one[0] or one[3] < other[1] or other[3] < one[1])

    def gathered(self, line: list[tuple[float, float]], *others: list[tuple[float, float]], jogs: int = 0, crossed: str = "",
                 beside: Part | None = None, kind: Kind = Kind.GROUND,
                 step: int = 1, texts: tuple[Text, ...] = ()) -> tuple[list[tuple[float, float]], tuple[float, float], int]:
        """A wire from a box to a ground, the ground's pin, and the jogs that are left, beside other wires and a part."""
        box = Part("U1", "", Kind.BOX, [Pin("1", "", EAST, net="a"), Pin("2", "", SOUTH, net="a")])
        flag = Part("GND", "GND", kind, [Pin("1", "", NORTH, net="a")])
        shapes = [Shape((0, 0, 40, 40), [(40, 20), (20, 40)], [], list(texts)), shape_of(flag, Pose(at=line[-1]))]
        found = Placed([box, flag], [Pose(), Pose(at=line[-1])], shapes, [[], []],
                       [*(Wire("b", other) for other in others), Wire("a", line[::step])],
                       crossings=[((0, 0), (crossed, "b"))] if crossed else [], jogs=[Jog(len(others), 1, "box")] * jogs)
        if beside is not None:
            found.add(figure(beside, Pose(at=(70, 70)), [0, 1]), Pose(at=(70, 70)), shape_of(beside, Pose(at=(70, 70))))
        gather(found)
        self.assertEqual(found.poses[1].at, found.shapes[1].pins[0])
        return found.wires[-1].points[::step], found.shapes[1].pins[0], len(found.jogs)

    def test_flags_come_near(self) -> None:
        """A flag is as near as its distances allow: a ground reaches 9 to both sides of its pin and 15 below it, and keeps 12
        from parts and wires."""
        straight, near = [(20, 40), (20, 300)], ([(40, 20), (61, 20), (61, 28)], (61, 28), 0)
        self.assertEqual(self.gathered(straight), ([(20, 40), (20, 52)], (20, 52), 0))
        self.assertEqual(self.gathered([(20, 40), (20, 62)])[1], (20, 52))
        self.assertEqual(self.gathered(straight, [(40, 45), (40, 70)])[1], (20, 82))  # beyond the wire
        self.assertEqual(self.gathered(straight, [(41, 45), (41, 70)])[1], (20, 52))
        for step in (1, -1):
            self.assertEqual(self.gathered([(40, 20), (200, 20), (200, 90)], step=step), near)
        self.assertEqual(self.gathered([(40, 20), (55, 20), (55, 80), (90, 80), (90, 99)], jogs=1), near)

    def test_flags_beside_texts(self) -> None:
        """The text of a flag keeps 5 from wires; a flag keeps 12 from parts, 6 from texts, and 3 from numbers of pins."""
        straight, supply = [(20, 40), (20, 300)], {"kind": Kind.SUPPLY}
        half = width_of("GND", 10) / 2
        for gap, end in ((5, 52), (4, 112)):  # a wire beside the text, which is 12 to 24 below the pin
            self.assertEqual(self.gathered(straight, [(20 + half + gap, 76), (20 + half + gap, 100)], **supply)[1], (20, end))
        for role, left, end in (("ref", 35, 52), ("ref", 34, 70), ("number", 32, 52), ("number", 31, 67)):
            text = Text("1", (left, 55, 60, 62), 6, role)  # the ground reaches to 29
            self.assertEqual(self.gathered(straight, texts=(text,))[1], (20, end))
        resistor = Part("R1", "1k", Kind.RESISTOR, [Pin("1", "", NORTH, net="c"), Pin("2", "", SOUTH, net="d")])
        line = [(40, 20), (130, 20), (130, 200)]  # the resistor's box is 64 to 76 by 46 to 94
        self.assertEqual(self.gathered(line, beside=resistor)[1], (97, 28))
        self.assertEqual(self.gathered(line, [(65, 30), (90, 30)], beside=resistor)[1], (112, 28))

    def test_flags_that_stay(self) -> None:
        """A flag stays if its wire is crossed, or there is no room, or too little would be saved; a wire with other ends, or
        whose other places are taken, keeps its corners."""
        self.assertEqual(self.gathered([(20, 40), (20, 300)], crossed="a")[1], (20, 300))
        self.assertEqual(self.gathered([(20, 40), (20, 61)])[1], (20, 61))
        self.assertEqual(self.gathered([(20, 40), (20, 300)], [(35, 45), (35, 290)])[1], (20, 300))
        long = [(40, 20), (80, 20), (80, -90), (120, -90), (120, 200)]
        wall = [(60, -70), (60, 10)], [(60, 30), (60, 300)]
        self.assertEqual(self.gathered(long, *wall, jogs=1), ([*long[:-1], (120, -82)], (120, -82), 1))
        around = [(40, 20), (55, 20), (55, 80), (90, 80), (90, 99)]
        self.assertEqual(self.gathered(around, [(58, 10), (58, 75)])[1], (90, 88))
        ahead = [(40, 20), (50, 20), (50, 80), (130, 80)]
        self.assertEqual(self.gathered(ahead, [(58, 0), (58, 15)])[0], [*ahead[:-1], (66, 80)])
        junction = [(100, 100), (111, 100), (111, 160), (180, 160)]  # other wires of the net may begin there too
        self.assertEqual(self.gathered(junction)[0], [*junction[:-1], (127, 160)])

    def test_flags_beyond_a_part(self) -> None:
        """A wire that goes up and down again, 6 beside the ground at its end."""
        line = [(100, 100), (100, 40), (160, 40), (160, 150)]
        self.assertEqual(self.gathered(line)[0], [(100, 100), (100, 88), (85, 88), (85, 96)])
        self.assertEqual(self.gathered(line, [(80, 60), (80, 120)])[0], [(100, 100), (100, 88), (115, 88), (115, 96)])

    def test_least_sum(self) -> None:
        """Coordinates of least sum, by hand."""
        demands = Demands([(0, 1, 10.0), (1, 2, 5.0), (0, 3, 2.0)], [(0, 2, 1.0), (0, 3, 1.0)], [(3, 1, 0.0, 3.0)])
        self.assertEqual(least_sum([0, 1, 2, 3], demands), {0: 0.0, 1: 10.0, 2: 15.0, 3: 10.0})

    def test_skyline(self) -> None:
        """What is covered is not seen any more, but for what the cover touches."""
        items = [Item(0, ((0, 0.0),) * 2, ((0, 0.0),) * 2, frozenset({number}), frozenset(touched))
                 for number, touched in enumerate(((), (), (0,)))]
        sky = Skyline(items)
        sky.cover(0.0, 10.0, 0)
        self.assertEqual((sky.between(-5.0, 1.0), sky.between(11.0, 12.0)), ([0], []))
        sky.cover(5.0, 20.0, 2)
        self.assertEqual(sky.between(6.0, 8.0), [2, 0])
        sky.cover(-5.0, 30.0, 1)
        self.assertEqual(sky.between(-9.0, 40.0), [1])


if __name__ == "__main__":
    unittest.main()
