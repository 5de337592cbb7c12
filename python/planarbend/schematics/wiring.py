"""The wiring of a sheet in the plane: parts whose pins have a fixed order, and wires that branch and cross.

Each part is one vertex; its wires leave in the order of its pins, so no wire passes through a part. The wires of a net are a
tree of *pieces* between pins, *junctions* (vertices of degree 3) and *crossings* with other nets (vertices of degree 4, which
each net passes straight). A *run* is what lies between two pins or junctions: pieces in a row, across crossings.

Pins are numbered through: those of the first part, in the order of its list, then those of the next.
"""
from __future__ import annotations

import dataclasses
from collections.abc import Iterator, Sequence

from planarbend.drawing.linked import FREE, NONE, LinkedDarts
from planarbend.schematics.parts import Part, Sheet, mirrored


def pose(part: Part, is_mirrored: bool, places: Sequence[int]) -> tuple[Part, list[int]]:
    """Return a part as it is drawn, and which pin each of its pins was.

    Parameters
    ----------
    part : Part
    is_mirrored : bool
    places : sequence of int
        For each place in the list of pins, which pin is there: pins that are interchangeable may be exchanged.
    """
    pins = [dataclasses.replace(part.pins[pin], number=str(pin), side=place.side) for pin, place in zip(places, part.pins)]
    found = dataclasses.replace(part, pins=pins)
    if is_mirrored:
        found = mirrored(found)
    order = [int(pin.number) for pin in found.pins]
    found.pins = [dataclasses.replace(pin, number=part.pins[was].number) for pin, was in zip(found.pins, order)]
    return found, order


class Wiring(LinkedDarts):
    """An embedding of the nets of a sheet, or of some of their runs. Its edges are the nets.

    Attributes
    ----------
    sheet : Sheet
    pins_of : list of list of int
        The pins of each part, counter-clockwise as it is put.
    part_of, net_of : list of int
        For each pin its part, and its net; `NONE` for a pin that is not connected, or alone in its net.
    nets : list of list of int
        The pins of each net: at least two.
    dart_of : list of int
        For each pin the dart that leaves it, `NONE` while it is not wired.
    pin_at : list of int
        For each dart the pin that it leaves, `NONE` if there is none.
    is_mirrored, places : list of bool, list of list of int
        How each part is put (see `pose`).
    crossings : int
        The number of crossings.
    """

    def __init__(self, sheet: Sheet) -> None:
        """Return an embedding without wires, of all parts as they are."""
        super().__init__(len(sheet.parts))
        self.sheet = sheet
        self.first = [0]
        for part in sheet.parts:
            self.first.append(self.first[-1] + len(part.pins))
        self.part_of = [number for number, part in enumerate(sheet.parts) for _ in part.pins]
        self.net_of = [NONE] * self.first[-1]
        self.nets: list[list[int]] = []
        for ends in sheet.ends().values():
            if len(ends) > 1:
                pins = [self.first[part] + place for part, place in ends]
                for pin in pins:
                    self.net_of[pin] = len(self.nets)
                self.nets.append(pins)
        self.dart_of, self.pin_at = [NONE] * self.first[-1], list[int]()
        self.is_mirrored = [False] * len(sheet.parts)
        self.places = [list(range(len(part.pins))) for part in sheet.parts]
        self.pins_of = [list(range(*self.first[part:part + 2])) for part in range(len(sheet.parts))]
        self.crossings = 0

    # How parts are put

    def put_as(self, part: int, is_mirrored: bool, places: Sequence[int]) -> None:
        """Put a part, which has no wires, as `pose` says."""
        self.is_mirrored[part], self.places[part] = is_mirrored, list(places)
        first = self.first[part]
        self.pins_of[part] = [first + pin for pin in pose(self.sheet.parts[part], is_mirrored, places)[1]]

    def posed(self, part: int) -> Part:
        """Return a part as it is put."""
        return pose(self.sheet.parts[part], self.is_mirrored[part], self.places[part])[0]

    # Reading

    def is_junction(self, vertex: int) -> bool:
        """Return whether a vertex is a junction."""
        if vertex < self.vertex_count:
            return False
        onward, dart = self.onward, self.leaving[vertex]
        return onward[onward[onward[dart ^ 1] ^ 1] ^ 1] == dart

    def run(self, dart: int) -> list[int]:
        """Return the darts from a pin or junction, which `dart` leaves, to the next one."""
        found, origin, onward, count = [dart], self.origin, self.onward, self.vertex_count
        while origin[dart ^ 1] >= count:
            second = onward[onward[dart] ^ 1]
            if onward[second ^ 1] == dart ^ 1:  # a junction
                break
            dart = second
            found.append(dart)
        return found

    def tree(self, dart: int) -> list[int]:
        """Return all darts of the wires that hang together with a dart, in both directions."""
        origin, onward, count = self.origin, self.onward, self.vertex_count
        found, waiting = [dart, dart ^ 1], [dart, dart ^ 1]
        while waiting:
            one = waiting.pop()
            if origin[one ^ 1] < count:
                continue
            after = onward[one]
            second = onward[after ^ 1]
            if onward[second ^ 1] == one ^ 1:  # a junction
                found += (after, after ^ 1, second, second ^ 1)
                waiting += (after, second)
            else:
                found += (second, second ^ 1)
                waiting.append(second)
        return found

    def runs(self) -> Iterator[list[int]]:
        """Yield the darts of each run, in one of its directions."""
        for dart in range(len(self.origin)):
            if self.face[dart] != NONE and (self.pin_at[dart] != NONE or self.is_junction(self.origin[dart])):
                found = self.run(dart)
                if dart <= found[-1] ^ 1:
                    yield found

    def corner_of(self, pin: int) -> int:
        """Return the dart of the wired pin before a pin, counter-clockwise; `NONE` if no other pin of its part is wired.

        The wire of the pin leaves into the face on the left of this dart.
        """
        pins, dart_of = self.pins_of[self.part_of[pin]], self.dart_of
        place = pins.index(pin)
        for other in range(place - 1, place - len(pins), -1):
            if dart_of[pins[other]] != NONE:
                return dart_of[pins[other]]
        return NONE

    # Editing

    def join(self, start: int, crossed: Sequence[int], end: int, is_pin: tuple[bool, bool]) -> None:
        """Add a run across other nets.

        Parameters
        ----------
        start, end : int
            Pins that are not wired, or darts of wires in two trees of one net: the run meets them in a junction, from the
            faces on their left.
        crossed : sequence of int
            The darts to cross. The first has the face of the start on its left, each further one the face that the dart
            before it has on its right, and the end is in the face on the right of the last. No face comes twice.
        is_pin : (bool, bool)
            Whether `start` and `end` are pins.
        """
        net = self.net_of[start] if is_pin[0] else self.edge[start >> 1]
        heads = None if is_pin[1] else self._branch(end)  # first, since it may rename the dart of a pin beside the start
        vertex, corner = (self.part_of[start], self.corner_of(start)) if is_pin[0] else self._branch(start)
        if not crossed and is_pin == (True, True) and self.part_of[end] == vertex:
            self._loop(start, end)
            return
        for place, dart in enumerate(crossed):
            meeting = self._split(dart)
            piece = self._join(net, vertex, corner, self.origin[meeting], meeting)
            if is_pin[0] and not place:
                self._wire(start, piece)
            vertex, corner = self.origin[meeting], dart ^ 1
        self.crossings += len(crossed)
        piece = self._join(net, vertex, corner, *(heads or (self.part_of[end], self.corner_of(end))))
        if is_pin[0] and not crossed:
            self._wire(start, piece)
        if is_pin[1]:
            self._wire(end, piece ^ 1)

    def _branch(self, dart: int) -> tuple[int, int]:
        """Return a new junction in a dart, and its corner on the left of the dart."""
        ahead = self._split(dart)
        return self.origin[ahead], ahead

    def _wire(self, pin: int, dart: int) -> None:
        """Note the dart of a pin."""
        self.dart_of[pin], self.pin_at[dart] = dart, pin

    def _loop(self, start: int, end: int) -> None:
        """Add a piece between two pins of one part that are in one face."""
        part, net = self.part_of[start], self.net_of[start]
        corner, other = self.corner_of(start), self.corner_of(end)
        if corner == NONE:
            dart = 2 * self._new_piece(net, part, part)
            for one in (dart, dart ^ 1):
                self.onward[one] = self.back[one] = one
                self.face[one] = self._new_face(one)
            self.leaving[part] = dart
        else:
            pins = self.pins_of[part]
            base = pins.index(self.pin_at[corner])
            if corner == other and (pins.index(start) - base) % len(pins) < (pins.index(end) - base) % len(pins):
                start, end = end, start  # the one that is farther, counter-clockwise, first
                corner, other = other, corner
            dart = self._join(net, part, corner, part, other)
        self._wire(start, dart)
        self._wire(end, dart ^ 1)

    def remove(self, dart: int) -> tuple[tuple[int, bool], tuple[int, bool]]:
        """Remove the run that a dart begins, and return what is left at its start and at its end: a pin or the dart of a
        tree, and whether it is a pin."""
        darts = self.run(dart)
        last = darts[-1] ^ 1
        meetings = [self.origin[one] for one in darts[1:]]
        pins, junctions = (self.pin_at[dart], self.pin_at[last]), (self.origin[dart], self.origin[last])
        for one in darts:
            if self.origin[one] == self.origin[one ^ 1]:
                self._cut_loop(one)
            else:
                self._cut(one)
        for meeting in meetings:
            self._smooth(meeting)
        self.crossings -= len(meetings)
        left = []
        for pin, junction, one in zip(pins, junctions, (dart, last)):
            if pin != NONE:
                self.dart_of[pin] = self.pin_at[one] = NONE
                left.append((pin, True))
            else:
                left.append((self.leaving[junction], False))
                self._smooth(junction)
        return left[0], left[1]

    def _cut_loop(self, dart: int) -> None:
        """Remove a piece from a part to itself."""
        onward, back, face = self.onward, self.back, self.face
        part, faces = self.origin[dart], (face[dart], face[dart ^ 1])
        left = [one for one in self.around(part) if one >> 1 != dart >> 1]
        for one in (dart ^ 1, dart):
            before, after = back[one], onward[one ^ 1]
            onward[before], back[after] = after, before
        face[dart] = face[dart ^ 1] = self.edge[dart >> 1] = NONE
        self.free_pieces.append(dart >> 1)
        self.leaving[part] = left[0] if left else NONE
        for number in faces[1:] if left else faces:
            self.corner[number] = NONE
            self.free_faces.append(number)
        if left:
            self.corner[faces[0]] = next(one for one in left if face[one] in faces)
            self._label(self.corner[faces[0]], faces[0])

    def _new_piece(self, edge: int, tail: int, head: int) -> int:
        """Return a new piece, not yet in a face."""
        piece = super()._new_piece(edge, tail, head)
        if len(self.pin_at) < len(self.origin):
            self.pin_at += (NONE, NONE)
        return piece

    def _renamed(self, old: int, new: int) -> None:
        """Note that the dart that leaves a vertex has another number."""
        pin = self.pin_at[old]
        if pin != NONE:
            self.pin_at[old], self.pin_at[new], self.dart_of[pin] = NONE, pin, new

    # Copies

    def state(self) -> tuple[list[int], ...]:
        """Return a copy of the wires, for `restore`."""
        return (*(list(one) for one in (self.origin, self.onward, self.back, self.face, self.leaving, self.corner, self.edge,
                                        self.free_pieces, self.free_faces, self.free_crossings, self.dart_of, self.pin_at)),
                [self.crossings])

    def restore(self, state: tuple[list[int], ...]) -> None:
        """Return to a state, which is not used again; the parts are put as they were then by the caller."""
        (self.origin, self.onward, self.back, self.face, self.leaving, self.corner, self.edge, self.free_pieces,
         self.free_faces, self.free_crossings, self.dart_of, self.pin_at, (self.crossings,)) = state
