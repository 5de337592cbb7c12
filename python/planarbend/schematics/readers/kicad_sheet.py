"""Makes a sheet of what a file of a KiCad schematic has: parts of symbols, nets of wires and labels."""
from __future__ import annotations

import collections
import dataclasses
import math
import re
from collections.abc import Hashable, Iterator

from planarbend.schematics.flags import flag, unused
from planarbend.schematics.parts import Kind, Net, Part, Sheet, ordered
from planarbend.schematics.readers.kicad_page import Label, Page, Placed, plain
from planarbend.schematics.readers.kicad_symbols import PER_MILLIMETRE, LibraryPin, Point
from planarbend.schematics.readers.kicad_wires import Joints, Lines
from planarbend.schematics.readers.kinds import finished, kind_of, polarity_note

NAME_FROM_VALUE = 20220914  # the version from which on the value of a power symbol is the name of its net
BUS = re.compile(r".*[\[{].*[\]}]", re.S)  # the name of a bus
ARROWS = {frozenset("BCE"): ("E", Kind.NPN, Kind.PNP), frozenset("GDS"): ("G", Kind.NMOS, Kind.PMOS)}


@dataclasses.dataclass(slots=True)
class Piece:
    """Pins that wires join: the places of parts and pins; its labels, and the names of its power symbols."""

    pins: list[tuple[int, int]] = dataclasses.field(default_factory=list)
    labels: list[Label] = dataclasses.field(default_factory=list)
    powers: list[str] = dataclasses.field(default_factory=list)

    @property
    def names(self) -> list[str]:
        """The names that it has."""
        return self.powers + [label.name for label in self.labels]


class Wiring:
    """Finds the pieces of a page's nets."""

    def __init__(self, page: Page) -> None:
        """Return the finder, which knows what wires join."""
        self.page, self.joints = page, Joints()
        self.wires, self.buses = Lines(page.wires), Lines(page.buses)
        for one, other in page.wires:
            self.joints.unite(one, other)
        for one, other in page.buses:
            self.joints.unite(("bus", one), ("bus", other))
        for at in (*page.junctions, *(label.at for label in page.labels)):
            for line in self.wires.at(at):
                self.joints.unite(at, line[0])
            for line in self.buses.at(at):
                self.joints.unite(("bus", at), ("bus", line[0]))

    def notes(self) -> Iterator[str]:
        """Yield notes on wires that end on another one without a junction, which KiCad does not join."""
        joined = {*self.page.junctions, *(label.at for label in self.page.labels)}
        for at in dict.fromkeys(end for line in self.page.wires for end in line):
            if at not in joined and any(at not in line for line in self.wires.at(at)):
                x, y = (length / PER_MILLIMETRE for length in at)
                yield f"a wire ends on another one at ({x:g}, {-y:g}) without a junction: they are not joined"

    def place(self, at: Point, name: str) -> Hashable:
        """Return a point, or the pair for one on a bus: there is a bus at it, or the name is one and there is no wire."""
        is_bus = self.buses.at(at) or BUS.fullmatch(name) and not self.wires.at(at)
        return ("bus", at) if is_bus else at

    def pieces(self, parts: list[Placed]) -> list[Piece]:
        """Return the pieces that have a pin of a part, or a name."""
        found: dict[int, Piece] = collections.defaultdict(Piece)
        for place, part in enumerate(parts):
            for at, (pin, point) in enumerate(part.pins):
                found[self.joints.find(self.place(point, pin.pin.name if part.is_sheet else ""))].pins.append((place, at))
        for label in self.page.labels:
            found[self.joints.find(self.place(label.at, label.name))].labels.append(label)
        for one in self.page.placed:
            if one.is_power:
                for pin, point in one.pins:
                    found[self.joints.find(point)].powers.append(self.power_name(one, pin))
        return list(found.values())

    def power_name(self, one: Placed, pin: LibraryPin) -> str:
        """Return the name of the net of a power symbol."""
        is_value = self.page.version >= NAME_FROM_VALUE or not pin.pin.name
        return plain(one.value if is_value and one.value else pin.pin.name)


def sheet_of(page: Page, name: str) -> Sheet:
    """Return the sheet of a page. A net whose pieces are joined by labels only is drawn in these pieces, with a flag at each."""
    wiring = Wiring(page)
    found = Sheet(name, notes=list(wiring.notes()))
    placed = [shown_pins(one, wiring, found) for one in page.placed if one.is_part or one.is_sheet]
    found.parts = [part_of(one, found) for one in placed]
    counts = collections.Counter(part.ref for part in found.parts)
    found.notes += (f"{count} parts have the reference {ref}" for ref, count in counts.items() if count > 1)
    for pieces in nets_of(wiring.pieces(placed)):
        add_net(found, pieces, placed)
    for one, part in zip(placed, found.parts):
        part.pins = ordered([(pin, *source.at) for pin, (source, _) in zip(part.pins, one.pins)])
        finished(part)
    return found


def shown_pins(one: Placed, wiring: Wiring, sheet: Sheet) -> Placed:
    """Return a part without its hidden pins that no wire reaches; a note says which these are."""
    pins = [(pin, at) for pin, at in one.pins if not pin.is_hidden or wiring.wires.at(at)]
    hidden = [pin.pin for pin, at in one.pins if (pin, at) not in pins]
    if hidden:
        names = ", ".join(f"{pin.name} ({pin.number})" for pin in hidden)
        sheet.notes.append(f"{one.reference}: pins that the file hides are not drawn: {names}")
    return dataclasses.replace(one, pins=pins)


def part_of(one: Placed, sheet: Sheet) -> Part:
    """Return a part whose pins are in the order of the file, or note why it is a box."""
    pins = [dataclasses.replace(pin.pin) for pin, _ in one.pins]
    if one.is_sheet:
        return Part(one.reference, one.value, Kind.BOX, pins)
    prefix = one.symbol.prefix or "".join(letter for letter in one.reference if letter.isalpha()).upper()
    kind, form = kind_of(one.symbol.words, prefix, pins)
    polarity = ARROWS.get(frozenset(pin.name.upper() for pin in pins)) if len(pins) == 3 else None
    if kind is Kind.BOX and polarity:
        kind = by_arrow(one, *polarity) or kind
    found = Part(one.reference, one.value, kind, pins, form=form)
    note = polarity_note(found)
    if note:
        sheet.notes.append(note)
    return found


def by_arrow(one: Placed, name: str, outwards: Kind, inwards: Kind) -> Kind | None:
    """Return the kind of a transistor from the arrow in its picture: whether it points to the pin with this name, or away."""
    pin = next(pin for pin, _ in one.pins if pin.pin.name.upper() == name)
    is_field = outwards is Kind.NMOS
    if is_field and "MOS" not in one.symbol.words.upper() or any((other.pin.side - pin.pin.side) % 4 == 2 for other, _ in one.pins
                                                                 if is_field):
        return None
    for tip, back in one.symbol.arrows:
        along = (tip[0] - back[0], tip[1] - back[1])
        if is_field and abs(along[1 - pin.pin.side % 2]) > abs(along[pin.pin.side % 2]):
            continue  # the diode from source to drain
        return outwards if math.dist(tip, pin.at) < math.dist(back, pin.at) else inwards
    return None


def nets_of(pieces: list[Piece]) -> Iterator[list[Piece]]:
    """Yield the nets: the pieces that have names in common, those with pins first."""
    joints = Joints()
    for place, piece in enumerate(pieces):
        for name in piece.names:
            joints.unite(place, ("name", name))
    found: dict[int, list[Piece]] = collections.defaultdict(list)
    for place, piece in enumerate(pieces):
        found[joints.find(place)].append(piece)
    for net in found.values():
        yield sorted(net, key=lambda piece: not piece.pins)


def add_net(sheet: Sheet, pieces: list[Piece], placed: list[Placed]) -> None:
    """Add a net to a sheet, with flags where it leaves the sheet, and at each piece if there are several. Power nets have no
    flags yet."""
    drawn = [piece for piece in pieces if piece.pins]
    powers = [name for piece in pieces for name in piece.powers]
    labels = sorted((label for piece in pieces for label in piece.labels), key=lambda label: label.rank)
    names = [*powers, *(label.name for label in labels)]
    if not drawn or not names and len(drawn[0].pins) == 1:
        return
    name = names[0] if names else unused(sheet, made_name(placed, *drawn[0].pins[0]))
    if powers:
        drawn = [Piece([pin for piece in drawn for pin in piece.pins])]
    for number, piece in enumerate(drawn, 1):
        key = unused(sheet, name if len(drawn) == 1 else f"{name} {number}")
        sheet.nets[key] = Net(name, bool(names), bool(powers))
        for part, pin in piece.pins:
            sheet.parts[part].pins[pin].net = key
        ports = {label.name: label.port for label in (labels if number == 1 else piece.labels) if label.port is not None}
        is_split = len(drawn) > 1 or len(piece.pins) == 1
        if not powers and (ports or is_split):
            sheet.parts += (flag(kind, one, key) for one, kind in (ports or {name: Kind.LABEL}).items())


def made_name(placed: list[Placed], part: int, pin: int) -> str:
    """Return the name of a net without a label, from one of its pins."""
    found = placed[part].pins[pin][0].pin
    return f"Net-({placed[part].reference}-{found.number or found.name})"
