"""What a file of a KiCad schematic has: symbols, sheets inside it, labels, wires and buses."""
from __future__ import annotations

import re
from collections.abc import Iterator
from dataclasses import dataclass, field

from planarbend.readers.fault import Fault, shown
from planarbend.readers.sexpr import Expression
from planarbend.schematics.parts import Kind, Pin
from planarbend.schematics.readers.kicad_symbols import (LibraryPin, Point, Symbol, corners_of, fields_of, joined, place_of,
                                                         symbols_of)
from planarbend.schematics.readers.kicad_wires import Line

POWER_MARK = "PWR_FLAG"  # a symbol that tells KiCad's checker that a net has power; it is not drawn
LABELS = ("global_label", "hierarchical_label", "label")  # in their order of precedence
PORTS = {"input": Kind.INPUT, "output": Kind.OUTPUT}  # by the shape of a label; others are labels
OVERBAR = re.compile(r"~\{([^{}]*)\}")
LETTERS = "ABCDEFGHIJKLMNOPQRSTUVWXYZ"


@dataclass(slots=True)
class Placed:
    """A symbol on a sheet: its library symbol, reference, value, unit, and its pins with their points on the sheet."""

    symbol: Symbol
    reference: str
    value: str
    pins: list[tuple[LibraryPin, Point]]
    is_sheet: bool = False

    @property
    def is_power(self) -> bool:
        """Whether it stands for a power net."""
        is_mark = self.symbol.is_power or self.reference.startswith("#")
        return is_mark and not self.symbol.name.startswith(POWER_MARK)

    @property
    def is_part(self) -> bool:
        """Whether it stands for a part."""
        return bool(self.pins) and not self.symbol.is_power and not self.reference.startswith("#")


@dataclass(slots=True)
class Label:
    """A label on a wire or a bus; `port` is the kind of the flag by which its net leaves the sheet, or None; `rank` is the place
    of its form among `LABELS`."""

    name: str
    at: Point
    port: Kind | None
    rank: int


@dataclass
class Page:
    """A file of a schematic; `names` are the references and units of its symbols, by their identifiers, where they differ from
    what the symbols themselves have."""

    whole: Expression
    names: dict[str, tuple[str, int]] = field(default_factory=dict)

    def __post_init__(self) -> None:
        """Read the lists."""
        symbols = symbols_of(self.whole)
        self.placed = [placed_of(one, symbols, self.names) for one in self.whole.all("symbol")]
        self.placed += map(box_of, self.whole.all("sheet"))
        self.labels = list(map(label_of, self.whole.all(*LABELS)))
        self.wires, self.buses = (list(lines_of(self.whole, head)) for head in ("wire", "bus"))
        self.junctions = [flipped(place_of(one)[0]) for one in self.whole.all("junction")]

    @property
    def version(self) -> int:
        """The version of the format, 0 if the file does not give one."""
        text = self.whole.value("version") or ""
        return int(text) if text.isascii() and text.isdecimal() and len(text) < 10 else 0


def placed_of(one: Expression, symbols: dict[str, Symbol], names: dict[str, tuple[str, int]]) -> Placed:
    """Return a symbol on the sheet."""
    name = one.value("lib_name") or one.value("lib_id") or ""
    if name not in symbols:
        raise Fault(f"a symbol {shown(name)} that the file does not describe", one.line)
    symbol, fields = symbols[name], fields_of(one)
    reference, unit = names.get(one.value("uuid") or "", (fields.get("Reference", ""), whole_number(one, "unit", 1)))
    (x, y), turns = place_of(one)
    style = whole_number(one, "convert", whole_number(one, "body_style", 1))
    chosen = {pin.words[1]: pin.value("alternate") or "" for pin in one.all("pin") if len(pin.words) > 1}
    pins = [(pin.as_alternate(chosen.get(pin.pin.number, "")), moved(pin.at, (x, -y), turns, one.value("mirror")))
            for pin in symbol.of_unit(unit, style)]
    if symbol.unit_count > 1:
        reference += LETTERS[unit - 1] if 0 < unit <= len(LETTERS) else f".{unit}"
    value = fields.get("Value", "")
    return Placed(symbol, reference, "" if value == "~" else value, joined(pins))


def whole_number(expression: Expression, head: str, default: int) -> int:
    """Return the number in an inner list, or the default without one."""
    text = expression.value(head)
    if text is None:
        return default
    if not (text.isascii() and text.isdecimal() and len(text) < 10):
        raise Fault(f"{head} is not a number: {shown(text)}", expression.line)
    return int(text)


def flipped(at: Point) -> Point:
    """Return a point of a sheet, whose y grows to the south in the file."""
    return at[0], -at[1]


def moved(at: Point, origin: Point, turns: int, mirror: str | None) -> Point:
    """Return the point on the sheet of one of a symbol that stands at an origin, is turned, then mirrored at an axis."""
    x, y = at
    for _ in range(turns):
        x, y = -y, x
    if mirror == "x":
        y = -y
    elif mirror == "y":
        x = -x
    return x + origin[0], y + origin[1]


def lines_of(whole: Expression, head: str) -> Iterator[Line]:
    """Yield the straight lines of wires or buses."""
    for one in whole.all(head):
        corners = [flipped(corner) for corner in corners_of(one)]
        yield from zip(corners, corners[1:])


def label_of(one: Expression) -> Label:
    """Return a label."""
    if len(one.words) < 2:
        raise Fault(f"a {one.head} without its name", one.line)
    port = None if one.head == "label" else PORTS.get(one.value("shape") or "", Kind.LABEL)
    return Label(plain(one.words[1]), flipped(place_of(one)[0]), port, LABELS.index(one.head))


def plain(name: str) -> str:
    """Return a name without KiCad's marks: a slash is put before what has a bar above it."""
    return OVERBAR.sub(r"/\1", name).replace("{slash}", "/")


def box_of(one: Expression) -> Placed:
    """Return a sheet inside the sheet: a box with the sheet's pins."""
    fields = fields_of(one)
    (x, y), _ = place_of(one)
    (width, height), _ = place_of(one, "size")
    pins = []
    for pin in one.all("pin"):
        if len(pin.words) < 3:
            raise Fault("a sheet's pin without its name and type", pin.line)
        at, _ = place_of(pin)
        gaps = abs(x + width - at[0]), abs(at[1] - y), abs(at[0] - x), abs(y + height - at[1])
        found = Pin("", plain(pin.words[1]), gaps.index(min(gaps)), pin.words[2])
        pins.append((LibraryPin(found, flipped(at), 0, 0, False), flipped(at)))
    return Placed(Symbol("", False, {}), *names_of(fields), pins, True)


def names_of(fields: dict[str, str]) -> tuple[str, str]:
    """Return the name and the file of a sheet inside a sheet: its first two fields, whose names version 6 translates."""
    first, second, *_ = [*fields.values(), "", ""]
    return fields.get("Sheetname", first), fields.get("Sheetfile", second)
