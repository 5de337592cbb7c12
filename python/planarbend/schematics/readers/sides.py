"""Sides for the pins of a part whose file does not give any."""
from __future__ import annotations

import re
from collections.abc import Sequence

from planarbend.schematics.names import is_ground, is_negative, is_power
from planarbend.schematics.parts import EAST, NORTH, SOUTH, WEST, Pin, ordered

THREE = {frozenset("BCE"): {"B": WEST, "C": NORTH, "E": SOUTH}, frozenset("GDS"): {"G": WEST, "D": NORTH, "S": SOUTH}}
TURNED = re.compile(r"(?i)(?<![a-z])(?:PNP|P-?MOS(?:FET)?|P-?channel|PCH|PJF)(?![a-z])")  # whose emitter or source is above
TWO = {"R", "C", "L", "D", "FB", "Y", "X", "F", "LED", "V", "I"}  # letters of references of parts with opposite pins
CONNECTORS = {"J", "P", "CN", "CON", "K", "X"}
UNTYPED = ("passive", "unspecified")
INPUT_NAME = re.compile(r"(?i)in\w*[+-]?|clk\w*|ck|d|a|b|set|rst\w*|reset|en\w*|cin")
OUTPUT_NAME = re.compile(r"(?i)out\w*[+-]?|q|y|nq|qb|cout|sum")


def set_sides(pins: Sequence[Pin], prefix: str, words: str) -> list[Pin]:
    """Return pins in the order that a part wants, after setting their sides.

    Parameters
    ----------
    pins : sequence of Pin
        In the order of the file.
    prefix : str
        The letters with which the part's reference begins.
    words : str
        What the file says about the part.
    """
    names = frozenset(pin.name.upper() for pin in pins)
    if len(pins) == 3 and names in THREE:
        sides = [THREE[names][pin.name.upper()] for pin in pins]
        if TURNED.search(words):
            sides = [side if side == WEST else NORTH + SOUTH - side for side in sides]
    elif len(pins) == 2 and prefix in TWO:
        sides = [WEST, EAST]
    elif prefix in CONNECTORS:
        sides = [EAST] * len(pins)
    else:
        sides = sides_of(pins)
    for pin, side in zip(pins, sides):
        pin.side = side
    return placed(pins)


def sides_of(pins: Sequence[Pin]) -> list[int]:
    """Return sides for the pins of a box or an op-amp: inputs west, outputs east, supplies north, grounds south, and the others
    so that west and east have equally many."""
    sides = [side_of(pin) for pin in pins]
    others = [place for place, side in enumerate(sides) if side is None]
    west = (len(others) - sides.count(WEST) + sides.count(EAST) + 1) // 2
    for number, place in enumerate(others):
        sides[place] = WEST if number < west else EAST
    return [side for side in sides if side is not None]


def side_of(pin: Pin) -> int | None:
    """Return the side of a pin by its type and name, or None if these do not settle it."""
    name = pin.name or pin.number
    if pin.etype == "power_in" or pin.etype in UNTYPED and is_power(name) and name != "0":
        return SOUTH if is_ground(name) or is_negative(name) else NORTH
    if pin.etype == "input" or pin.etype in UNTYPED and INPUT_NAME.fullmatch(name):
        return WEST
    if pin.etype in ("output", "power_out", "open_collector", "open_emitter"):
        return EAST
    return EAST if pin.etype in UNTYPED and OUTPUT_NAME.fullmatch(name) else None


def placed(pins: Sequence[Pin]) -> list[Pin]:
    """Return pins in the order that a part wants: on each side in the order given, downwards or to the right."""
    return ordered([(pin, number, -number) for number, pin in enumerate(pins)])
