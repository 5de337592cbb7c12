"""Labels at ends of edges on sheets made by hand, whose coordinates are pixels; places are calculated by hand from the gaps:
10 pixels between a label and a box, 6 between labels, 4 between a label and a line. Each test is tried in four ways: along
x and along y, with the end at either side."""
from __future__ import annotations

import math
import unittest
from collections.abc import Iterator
from typing import TypeVar
from unittest import mock

import support  # noqa: F401  it sets the path
from planarbend.drawing import spread
from planarbend.drawing.items import BOX, LABEL, PIECE, Axis, Item, Sheet
from planarbend.graph import Edge, Graph, Kind, Vertex

HALF = 10.0  # of the label along its line
SIDE = 6.0  # half of it across the line
NEAR, FAR = 50.0, 250.0  # where the line leaves the box at its near end, and where it reaches the other
END = (0, True)
Value = TypeVar("Value")


class Hand:
    """A line from one box to another with a label at its near end; `axis` is along it. With `turned` the near end is the one
    with the greater coordinate: all places are counted from 300 down."""

    def __init__(self, axis: int, turned: bool, held: float, far: float = FAR) -> None:
        self.axis, self.turned = axis, turned
        self.sheet = sheet = Sheet.__new__(Sheet)
        sheet.axes, sheet.within, sheet.items = (Axis(), Axis()), ([], []), []
        sheet.graph = Graph([Vertex(name, name, Kind.VERTEX) for name in "uv"], [Edge(1, 0)], True)
        near_box, far_box = self.box(NEAR - 30, NEAR, -12, 12), self.box(far, far + 30, -12, 12)
        sheet.boxes = [near_box, far_box]
        ends = (far_box.high[axis], near_box.low[axis]) if turned else (near_box.high[axis], far_box.low[axis])
        middle = sheet.axes[1 - axis].add(0.0)
        piece = Item(PIECE, self.pair(ends[0], middle), self.pair(ends[1], middle), [], (axis == 1, axis == 0), host=(1, 0))
        place = self.pair(sheet.axes[axis].add(self.real(held)), middle)
        self.label = Item(LABEL, place, place, [], before=self.pair(-HALF, -SIDE), after=self.pair(HALF, SIDE), host=(-2,))
        sheet.pieces, sheet.end_labels = [[piece]], {END: self.label}
        sheet.items += [piece, self.label]
        self.near, self.far = (ends[1], ends[0]) if turned else ends

    def real(self, place: float) -> float:
        """The coordinate of a place along the line."""
        return 300 - place if self.turned else place

    def pair(self, along: Value, across: Value) -> list[Value]:
        """Two values in the order of the axes."""
        return [along, across] if self.axis == 0 else [across, along]

    def extents(self, kind: int, first: float, last: float, low: float, high: float) -> Item:
        """A thing between two places along the line and two across it, which is on the sheet."""
        axes = self.sheet.axes
        one, other = sorted((self.real(first), self.real(last)))
        along, across = axes[self.axis], axes[1 - self.axis]
        numbers = [along.add(one), across.add(low), along.add(other), across.add(high)]
        item = Item(kind, self.pair(*numbers[:2]), self.pair(*numbers[2:]), [])
        self.sheet.items.append(item)
        return item

    def box(self, first: float, last: float, low: float, high: float) -> Item:
        """A box."""
        return self.extents(BOX, first, last, low, high)

    @property
    def place(self) -> float:
        """Where the middle of the label lies along the line."""
        return self.real(self.sheet.axes[self.axis].value[self.label.low[self.axis]])

    def returned(self, most: float = math.inf) -> bool:
        """Moves the label; whether it is near the end."""
        return spread.return_label(self.sheet, END, most)


def hands(held: float, far: float = FAR) -> Iterator[Hand]:
    """The four ways."""
    return (Hand(axis, turned, held, far) for axis in (0, 1) for turned in (False, True))


class Returned(unittest.TestCase):
    def at(self, hand: Hand, place: float) -> None:
        self.assertAlmostEqual(hand.place, place, delta=.01, msg=f"axis {hand.axis}, turned {hand.turned}")

    def test_a_free_line(self) -> None:
        """The label is 10 pixels from the box."""
        for hand in hands(130):
            self.assertTrue(hand.returned())
            self.at(hand, NEAR + 10 + HALF)

    def test_it_never_moves_away(self) -> None:
        for held in (61, NEAR + 10 + HALF):
            for hand in hands(held):
                self.assertTrue(hand.returned())
                self.at(hand, held)

    def test_past_what_crosses_the_line(self) -> None:
        """A line, a label or a box across the line is passed, and the label stops in front of it, or behind it if there is no
        room in front."""
        for kind, gap in ((PIECE, 4), (LABEL, 6), (BOX, 10)):
            for first, wanted in ((66, 70 + gap + HALF), (77, 81 + gap + HALF), (80 + gap, NEAR + 20), (120, NEAR + 20)):
                for hand in hands(180):
                    hand.extents(kind, first, first + 4, -40, 40)
                    self.assertTrue(hand.returned())
                    self.at(hand, wanted)

    def test_the_first_room_that_is_wide_enough(self) -> None:
        """Lines at 70 and 97 leave 27 pixels, one too few, and those at 97 and 125 leave 28."""
        for hand in hands(200):
            for place in (125, 70, 97, 180):
                hand.extents(PIECE, place, place, -40, 40)
            self.assertTrue(hand.returned())
            self.at(hand, 97 + 4 + HALF)

    def test_what_is_beside_the_line(self) -> None:
        """What is as far from the label as the gap across the line does not matter; what is nearer does."""
        for kind, gap in ((PIECE, 4), (LABEL, 6), (BOX, 10)):
            for distance, wanted in ((gap, NEAR + 20), (gap - .5, 90 + gap + HALF)):
                for low, high in ((SIDE + distance, 60), (-60, -SIDE - distance)):
                    for hand in hands(180):
                        hand.extents(kind, 70, 90, low, high)
                        self.assertTrue(hand.returned())
                        self.at(hand, wanted)

    def test_narrow_gaps(self) -> None:
        """With gaps of at most 4 pixels boxes and labels leave more room, but the box of the end stays 10 pixels off."""
        for kind in (PIECE, LABEL, BOX):
            for hand in hands(180):
                hand.extents(kind, 66, 70, -40, 40)
                self.assertTrue(hand.returned(4))
                self.at(hand, 70 + 4 + HALF)
        for hand in hands(180):
            self.assertTrue(hand.returned(4))
            self.at(hand, NEAR + 20)

    def test_near_by_its_distance_or_by_its_half(self) -> None:
        """A label is near if it begins less than 20 pixels from the end, or if its middle is nearer to this end."""
        for far, place, wanted in ((100, 79.5, True), (100, 80, False), (FAR, 149.5, True), (FAR, 150, False)):
            for hand in hands(place, far):
                last = place - HALF - 4
                for line in [*range(59, math.ceil(last), 3), last]:  # up to the label nothing is free
                    hand.extents(PIECE, line, line, -40, 40)
                self.assertEqual(hand.returned(), wanted, (far, place, hand.axis, hand.turned))
                self.at(hand, place)


class Settled(unittest.TestCase):
    def settled(self, hand: Hand, step: int = 1) -> list[tuple[int, int]]:
        """The axes and steps that are settled; nothing else moves."""
        with mock.patch.object(spread, "settle") as settle:
            spread.settle_both(hand.sheet, step)
        return [(call.args[1], call.args[2]) for call in settle.call_args_list]

    def test_both_axes(self) -> None:
        for step in (0, 1):
            self.assertEqual(self.settled(Hand(0, False, 130), step), [(0, step), (1, step)])

    def test_gaps_are_narrow_only_if_needed(self) -> None:
        """Two boxes leave 28 pixels, in which the label has room with gaps of 4 pixels. Behind both it would be at 180, which
        is nearer to the end of a line to 400, but not of one to 250."""
        for far, wanted in ((400, 160 + 10 + HALF), (FAR, 66 + 4 + HALF)):
            for hand in hands(220, far):
                hand.box(62, 66, -40, 40)
                hand.box(94, 160, -40, 40)
                self.settled(hand)
                self.assertAlmostEqual(hand.place, wanted, delta=.01)


class Held(unittest.TestCase):
    def test_a_label_that_is_near(self) -> None:
        for hand in hands(120):
            self.assertIs(spread.hold_labels(hand.sheet), False)
            self.assertEqual(hand.sheet.within, ([], []))

    def test_a_label_that_is_not_near(self) -> None:
        """It is 150 pixels from the near end: then it must be more than that from the other end."""
        for hand in hands(200):
            self.assertIs(spread.hold_labels(hand.sheet), True)
            (low, high, distance), = hand.sheet.within[hand.axis]
            label = hand.label.low[hand.axis]
            self.assertEqual((low, high), (hand.far, label) if hand.turned else (label, hand.far))
            self.assertEqual(distance, 151)
            self.assertEqual(hand.sheet.within[1 - hand.axis], [])

    def test_until_all_are_near(self) -> None:
        """Lines are made longer at most three times, and only while a label is not near."""
        for rounds, answers in ((0, [False]), (2, [True, True, False]), (3, [True, True, True, True])):
            with mock.patch.object(spread, "settle_both") as settle, \
                    mock.patch.object(spread, "hold_labels", side_effect=answers):
                sheet = Hand(0, False, 130).sheet
                spread.spread(sheet)
            self.assertEqual([call.args for call in settle.call_args_list], [(sheet, 0), *[(sheet, 1)] * (1 + rounds)])


if __name__ == "__main__":
    unittest.main()
