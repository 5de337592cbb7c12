"""Symbols of KiCad's libraries, and their pins. Lengths are in units of 0.1 micrometres; y grows to the north."""
from __future__ import annotations

import dataclasses
import math
import re
from collections.abc import Iterator
from dataclasses import dataclass, field

from planarbend.readers.fault import Fault, shown
from planarbend.readers.sexpr import Expression
from planarbend.schematics.parts import Pin

PER_MILLIMETRE = 10_000
FARTHEST = 10 ** 9  # millimetres: a coordinate beyond it is a fault
UNIT = re.compile(r".*_(\d{1,9})_(\d{1,9})", re.S)  # a symbol's name, the number of the unit, and that of the body style
ALL_UNITS = 0  # the number of a unit or style whose pins belong to all of them
UNNAMED = ("", "~")

Point = tuple[int, int]


@dataclass(frozen=True, slots=True)
class LibraryPin:
    """A pin of a library symbol: `at` is where wires reach it; it belongs to a unit and a body style. `alternates` are the types
    and shapes of its other functions, by their names."""

    pin: Pin
    at: Point
    unit: int
    style: int
    is_hidden: bool
    alternates: dict[str, tuple[str, str]] = field(default_factory=dict, compare=False)

    def as_alternate(self, name: str) -> LibraryPin:
        """Return the pin in another function, or itself if it does not have one of this name."""
        if name not in self.alternates:
            return self
        etype, shape = self.alternates[name]
        return dataclasses.replace(self, pin=dataclasses.replace(self.pin, name=name, etype=etype, shape=shape))


@dataclass(slots=True)
class Symbol:
    """A symbol of a library: its name without that of the library, whether it stands for a power net, and its fields; `arrows`
    are the filled triangles in its picture, each as its point and the middle of the opposite side."""

    name: str
    is_power: bool
    fields: dict[str, str]
    pins: list[LibraryPin] = field(default_factory=list)
    arrows: list[tuple[Point, Point]] = field(default_factory=list)

    @property
    def words(self) -> str:
        """What the library says about it: its name, keywords and description."""
        return " ".join([self.name, *(self.fields.get(key, "") for key in ("ki_keywords", "ki_description", "Description"))])

    @property
    def prefix(self) -> str:
        """The letters with which the references of such parts begin."""
        return letters_of(self.fields.get("Reference", ""))

    @property
    def unit_count(self) -> int:
        """The number of its units that have pins."""
        return len({one.unit for one in self.pins} - {ALL_UNITS})

    def of_unit(self, unit: int, style: int) -> list[LibraryPin]:
        """Return the pins of a unit in a body style."""
        return [one for one in self.pins if one.unit in (ALL_UNITS, unit) and one.style in (ALL_UNITS, style)]


def letters_of(reference: str) -> str:
    """Return the letters with which a reference begins, such as RV of RV12, in upper case."""
    match = re.match(r"#?[A-Za-z_]*", reference)
    return match[0].upper() if match else ""


def number_of(word: str, line: int) -> float:
    """Return the number that a word is, or raise a `Fault`."""
    try:
        found = float(word)
    except ValueError:
        found = math.nan
    if not abs(found) < FARTHEST:  # true also if it is not a number
        raise Fault(f"not a number: {shown(word)}", line)
    return found


def place_of(expression: Expression, head: str = "at") -> tuple[Point, int]:
    """Return the point of an inner list, in the sense of this module if its y grows to the north, and its angle in quarter
    turns."""
    inner = next(expression.all(head), None)
    if inner is None or len(inner.words) < 3:
        raise Fault(f"a {shown(expression.head)} without {head}", expression.line)
    x, y, *rest = (number_of(word, inner.line) for word in inner.words[1:4])
    return point_of(x, y), round(rest[0] / 90) % 4 if rest else 0


def point_of(x: float, y: float) -> Point:
    """Return a point in units of this module, from millimetres."""
    return round(x * PER_MILLIMETRE), round(y * PER_MILLIMETRE)


def corners_of(line: Expression) -> list[Point]:
    """Return the corners of a line."""
    found = []
    for points in line.all("pts"):
        for one in points.all("xy"):
            if len(one.words) < 3:
                raise Fault("a corner of a line without x and y", one.line)
            found.append(point_of(*(number_of(word, one.line) for word in one.words[1:3])))
    return found


def fields_of(symbol: Expression) -> dict[str, str]:
    """Return the fields of a symbol: Reference, Value and so on."""
    return {one.words[1]: one.words[2] for one in symbol.all("property") if len(one.words) > 2}


def is_set(expression: Expression, word: str) -> bool:
    """Return whether a list has a word or an inner list `(word yes)` after its first word."""
    return word in expression.words[1:] or any(one.words[1:] != ["no"] for one in expression.all(word))


def symbols_of(whole: Expression) -> dict[str, Symbol]:
    """Return the library symbols that a schematic has, by their identifiers."""
    lists = {one.words[1]: one for library in whole.all("lib_symbols") for one in library.all("symbol") if len(one.words) > 1}
    found: dict[str, Symbol] = {}
    for name, one in lists.items():
        parent = one.value("extends")
        library = name.rpartition(":")[0]
        base = lists.get(parent or "", lists.get(f"{library}:{parent}"))
        found[name] = symbol_of(name, [one] if base is None or base is one else [base, one])
    return found


def symbol_of(name: str, lists: list[Expression]) -> Symbol:
    """Return a library symbol, from its own list or from that of the one that it extends and its own."""
    found = Symbol(name.rpartition(":")[2], any(any(one.all("power")) for one in lists), {})
    for one in lists:
        found.fields |= fields_of(one)
        for inner in one.all("symbol"):
            match = UNIT.fullmatch(inner.words[1]) if len(inner.words) > 1 else None
            unit, style = (int(match[1]), int(match[2])) if match else (ALL_UNITS, ALL_UNITS)
            found.pins += (library_pin(pin, unit, style) for pin in inner.all("pin"))
            found.arrows += arrows_of(inner)
    return found


def library_pin(pin: Expression, unit: int, style: int) -> LibraryPin:
    """Return a pin of a library symbol. Its angle is the direction from the point that wires reach to the body."""
    if len(pin.words) < 3:
        raise Fault("a pin without its type and shape", pin.line)
    at, turns = place_of(pin)
    name = text_of(pin, "name")
    found = Pin(text_of(pin, "number"), "" if name in UNNAMED else name, (turns + 2) % 4, pin.words[1], None, pin.words[2])
    alternates = {one.words[1]: (one.words[2], one.words[3]) for one in pin.all("alternate") if len(one.words) > 3}
    return LibraryPin(found, at, unit, style, is_set(pin, "hide"), alternates)


def text_of(pin: Expression, head: str) -> str:
    """Return the name or the number of a pin, empty if it has none."""
    return pin.value(head) or ""


def arrows_of(unit: Expression) -> Iterator[tuple[Point, Point]]:
    """Yield the filled triangles of a unit's picture that point somewhere: two equal sides are longer than the third."""
    for line in unit.all("polyline"):
        fill = next(line.all("fill"), None)
        if fill is None or fill.value("type") != "outline":
            continue
        corners = list(dict.fromkeys(corners_of(line)))
        if len(corners) != 3:
            continue
        for place, tip in enumerate(corners):
            one, other = (corner for at, corner in enumerate(corners) if at != place)
            if max(math.dist(tip, one), math.dist(tip, other)) < 1.02 * min(math.dist(tip, one), math.dist(tip, other)) \
                    and math.dist(one, other) < 0.98 * math.dist(tip, one):
                yield tip, ((one[0] + other[0]) // 2, (one[1] + other[1]) // 2)


def joined(pins: list[tuple[LibraryPin, Point]]) -> list[tuple[LibraryPin, Point]]:
    """Return the pins of a part, those on one point and one side made one, with the numbers of all in order."""
    found: dict[tuple[Point, int], tuple[LibraryPin, Point]] = {}
    for one, at in sorted(pins, key=lambda entry: entry[0].is_hidden):
        key = at, one.pin.side
        if key not in found:
            found[key] = one, at
            continue
        first = found[key][0]
        numbers = ",".join([first.pin.number, one.pin.number])
        found[key] = dataclasses.replace(first, pin=dataclasses.replace(first.pin, number=numbers)), at
    return list(found.values())
