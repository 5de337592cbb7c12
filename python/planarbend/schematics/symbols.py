"""The symbols of parts, as data. Lengths are in pixels; the origin of a part is where its pins' wires would meet; y grows to the
south.

Each symbol is drawn in one position; how it is turned and mirrored follows from where its pins are.
"""
from __future__ import annotations

import dataclasses
from collections.abc import Mapping
from dataclasses import dataclass

from planarbend.schematics.parts import EAST, NORTH, SOUTH, WEST, Kind, Part
from planarbend.schematics.strokes import Box, Pose, Stroke, circle, rectangle

REACH = 24.0  # from the origin of a point part to its pins
BUBBLE = 3.0  # the radius of the circle at an inverted pin
LEADS = (Stroke("line", "M-24 0L-14 0M14 0L24 0"),)
DIODE = (Stroke("line", "M-24 0L-7 0M7 0L24 0"), Stroke("body", "M-7 -7L-7 7L7 0Z"), Stroke("bold", "M7 -7L7 7"))
BIPOLAR = (Stroke("line", "M-24 0L-7 0"), Stroke("bold", "M-7 -11L-7 11"), Stroke("line", "M-7 -4L0 -12L0 -24M-7 4L0 12L0 24"))
FIELD = (Stroke("line", "M-24 0L-10 0M-10 -9L-10 9M-6 -8L0 -8L0 -24M-6 8L0 8L0 24"),
         Stroke("bold", "M-6 -11L-6 -5M-6 -3L-6 3M-6 5L-6 11"))
JUNCTION = (Stroke("bold", "M-6 -11L-6 11"), Stroke("line", "M-24 0L-6 0M-6 -8L0 -8L0 -24M-6 8L0 8L0 24"))
ARROW_IN, ARROW_OUT = Stroke("ink", "M-6 0L-1 -2.5L-1 2.5Z"), Stroke("ink", "M0 0L-5 -2.5L-5 2.5Z")
COIL = Stroke("line", "M-24 0L-16 0C-16 -5.3 -8 -5.3 -8 0C-8 -5.3 0 -5.3 0 0C0 -5.3 8 -5.3 8 0C8 -5.3 16 -5.3 16 0L24 0")
SOURCE = (Stroke("line", "M-24 0L-13 0M13 0L24 0"), Stroke("body", circle(0, 0, 13)))


@dataclass(frozen=True, slots=True)
class Symbol:
    """A symbol in its own position: its box, its strokes, and texts (each with its middle and size); `marks` are the directions
    of its pins by their roles."""

    box: Box
    strokes: tuple[Stroke, ...]
    marks: Mapping[str, int]
    texts: tuple[tuple[str, float, float, float], ...] = ()


TWO = {"first": WEST, "second": EAST}
THREE = {"first": WEST, "upper": NORTH, "lower": SOUTH}
LETTERS = (("C", 7.0, -13.0, 6.0), ("E", 7.0, 13.0, 6.0))
DRAIN = (("D", 7.0, -14.0, 6.0), ("S", 7.0, 14.0, 6.0))

POINTS: dict[Kind, Symbol] = {
    Kind.RESISTOR: Symbol((-24, -6, 24, 6), (*LEADS, Stroke("body", rectangle(-14, -5, 14, 5))), TWO),
    Kind.TWO: Symbol((-24, -8, 24, 8), (*LEADS, Stroke("body", rectangle(-14, -7, 14, 7))), TWO),
    Kind.CAPACITOR: Symbol((-24, -10, 24, 10), (Stroke("line", "M-24 0L-3 0M3 0L24 0"),
                                              Stroke("bold", "M-3 -9L-3 9M3 -9L3 9")), TWO),
    Kind.POLARIZED: Symbol((-24, -10, 24, 10), (Stroke("line", "M-24 0L-3 0M3 0L24 0M-11 -6L-7 -6M-9 -8L-9 -4"),
                                              Stroke("bold", "M-3 -9L-3 9M6 -9C2 -4 2 4 6 9")), TWO),
    Kind.INDUCTOR: Symbol((-24, -7, 24, 4), (COIL,), TWO),
    Kind.DIODE: Symbol((-24, -9, 24, 9), DIODE, TWO),
    Kind.LED: Symbol((-24, -17, 24, 9), (*DIODE, Stroke("line", "M-2 -9L3 -14M4 -9L9 -14"),
                                       Stroke("ink", "M4.5 -15.5L0.7 -14.3L3.3 -11.7ZM10.5 -15.5L6.7 -14.3L9.3 -11.7Z")), TWO),
    Kind.CRYSTAL: Symbol((-24, -10, 24, 10), (Stroke("line", "M-24 0L-8 0M8 0L24 0"), Stroke("bold", "M-8 -7L-8 7M8 -7L8 7"),
                                            Stroke("body", rectangle(-4.5, -9, 4.5, 9))), TWO),
    Kind.SOURCE: Symbol((-24, -14, 24, 14), (*SOURCE, Stroke("line", "M-7 0C-4 -8 -2 -4 0 0C2 4 4 8 7 0")), TWO),
    Kind.POT: Symbol((-24, -24, 24, 6), (*LEADS, Stroke("body", rectangle(-14, -5, 14, 5)), Stroke("line", "M0 -24L0 -9"),
                                       Stroke("ink", "M0 -5L-3 -11L3 -11Z")), {"upper": NORTH}),
    Kind.NPN: Symbol((-24, -24, 10, 24), (*BIPOLAR, Stroke("ink", "M-1.4 10.4L-3.3 4.7L-6.8 7.8Z")), THREE, LETTERS),
    Kind.PNP: Symbol((-24, -24, 10, 24), (*BIPOLAR, Stroke("ink", "M-6.2 4.9L-0.8 7.5L-4.4 10.6Z")), THREE, LETTERS),
    Kind.NMOS: Symbol((-24, -24, 10, 24), (*FIELD, Stroke("line", "M-6 0L0 0"), ARROW_IN), THREE, DRAIN),
    Kind.PMOS: Symbol((-24, -24, 10, 24), (*FIELD, Stroke("line", "M-6 0L0 0"), ARROW_OUT), THREE, DRAIN),
    Kind.NJF: Symbol((-24, -24, 10, 24), (*JUNCTION, Stroke("ink", "M-7 0L-13 -2.5L-13 2.5Z")), THREE, DRAIN),
    Kind.PJF: Symbol((-24, -24, 10, 24), (*JUNCTION, Stroke("ink", "M-14 0L-8 -2.5L-8 2.5Z")), THREE, DRAIN),
}
SIGNS = (Stroke("line", "M-9 0L-4 0M-6.5 -2.5L-6.5 2.5M6 -2.5L6 2.5"),)
ARROW = (Stroke("line", "M-9 0L3 0"), Stroke("ink", "M9 0L2 -3.5L2 3.5Z"))
DIAMOND = (Stroke("line", "M-24 0L-13 0M13 0L24 0"), Stroke("body", "M-13 0L0 -13L13 0L0 13Z"))
FORMS: dict[str, Symbol] = {  # of sources and diodes
    "voltage": Symbol((-24, -14, 24, 14), (*SOURCE, *SIGNS), TWO), "current": Symbol((-24, -14, 24, 14), (*SOURCE, *ARROW), TWO),
    "controlled voltage": Symbol((-24, -14, 24, 14), (*DIAMOND, *SIGNS), TWO),
    "controlled current": Symbol((-24, -14, 24, 14), (*DIAMOND, *ARROW), TWO),
    "zener": Symbol((-24, -9, 24, 9), (*DIODE[:2], Stroke("bold", "M3.5 -7L7 -7L7 7L10.5 7")), TWO),
    "tvs": Symbol((-24, -9, 24, 9), (Stroke("line", "M-24 0L-12 0M12 0L24 0"), Stroke("body", "M-12 -7L-12 7L0 0Z"),
                                    Stroke("body", "M12 -7L12 7L0 0Z"), Stroke("bold", "M-3 -9L0 -7L0 7L3 9")), TWO),
    "schottky": Symbol((-24, -9, 24, 9), (*DIODE[:2], Stroke("bold", "M11 -4L11 -7L7 -7L7 7L3 7L3 4")), TWO)}
BULK = Stroke("line", "M0 0L24 0")  # the fourth pin of a transistor
TIED = Stroke("line", "M0 0L0 8")  # a bulk that is tied to the source
FIRST = {Kind.DIODE: ("A", "ANODE", "+"), Kind.LED: ("A", "ANODE", "+"), Kind.POLARIZED: ("+",), Kind.SOURCE: ("+",),
         Kind.NPN: ("B",), Kind.PNP: ("B",), Kind.NMOS: ("G",), Kind.PMOS: ("G",), Kind.NJF: ("G",), Kind.PJF: ("G",)}
LOWER = {Kind.NPN: "E", Kind.PNP: "E", **dict.fromkeys((Kind.NMOS, Kind.PMOS, Kind.NJF, Kind.PJF), "S")}


def symbol_of(part: Part) -> Symbol:
    """Return the symbol of a point part in its own position."""
    if part.form in FORMS:
        return FORMS[part.form]
    found = POINTS[part.kind]
    if part.kind in (Kind.NMOS, Kind.PMOS) and len(part.pins) == 3:
        return dataclasses.replace(found, strokes=(*found.strokes, TIED))
    if len(part.pins) == 4:
        return dataclasses.replace(found, strokes=(*found.strokes, BULK), box=(-24, -24, 24, 24))
    return found


def pose_of(part: Part, pose: Pose) -> Pose:
    """Return how the symbol of a point part is turned and mirrored so that its pins are where those of the part are."""
    sides = {role: pose.side(part.pins[place].side) for role, place in roles_of(part).items()}
    if "first" not in sides:  # a potentiometer
        return Pose((sides["upper"] - NORTH) % 4, at=pose.at)
    turn = (sides["first"] - WEST) % 4
    is_mirrored = "lower" in sides and (sides["lower"] - sides["first"]) % 4 != (SOUTH - WEST) % 4
    return Pose(turn, is_mirrored, True, pose.at)


def roles_of(part: Part) -> dict[str, int]:
    """Return the places of the pins that settle the position of a point part's symbol."""
    names = [pin.name.upper() for pin in part.pins]
    first = next((place for place, name in enumerate(names) if name in FIRST.get(part.kind, ())), None)
    if part.kind is Kind.POT:
        sides = [pin.side for pin in part.pins]
        return {"upper": next(place for place, side in enumerate(sides) if (side + 2) % 4 not in sides)}
    if first is None:
        numbers = [pin.number for pin in part.pins]
        first = numbers.index("1") if "1" in numbers else 0
    lower = next((place for place, name in enumerate(names) if name == LOWER.get(part.kind)), None)
    return {"first": first} if lower is None else {"first": first, "lower": lower}
