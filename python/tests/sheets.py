"""Random sheets of circuits, for tests: parts of all kinds, and nets of two to six pins."""
from __future__ import annotations

import dataclasses
import random

from planarbend.schematics.parts import EAST, NORTH, SOUTH, WEST, WISHES, Kind, Net, Part, Pin, Sheet

NAMES = {Kind.NPN: "CBE", Kind.OPAMP: " +-"}
SIDES = {Kind.RESISTOR: (NORTH, SOUTH), Kind.DIODE: (EAST, WEST), Kind.NPN: (NORTH, WEST, SOUTH),
         Kind.OPAMP: (EAST, WEST, WEST), Kind.POT: (NORTH, WEST, SOUTH), Kind.MUX: (EAST, WEST, WEST, SOUTH)}


def random_part(ref: str, kind: Kind, dice: random.Random) -> Part:
    """A part without nets."""
    if kind is Kind.BOX:
        sides = sorted(dice.choices((EAST, NORTH, WEST, SOUTH), (4, 1, 4, 1), k=dice.randint(2, 12)))
    elif kind is Kind.GATE:
        sides = [EAST] + [WEST] * dice.randint(2, 3)
    else:
        sides = list(SIDES[kind])
    names = NAMES.get(kind, " " * len(sides))
    pins = [Pin(str(number), name.strip(), side) for number, (name, side) in enumerate(zip(names, sides), 1)]
    swaps = [list(range(1, len(pins)))] if kind is Kind.GATE else []
    return Part(ref, "", kind, pins, kind in (Kind.NPN, Kind.POT, Kind.OPAMP, Kind.MUX), swaps, WISHES.get(kind, 0.0),
                form="and" if kind is Kind.GATE else "")


def random_sheet(seed: int, count: int) -> Sheet:
    """A sheet of so many parts whose nets mostly join parts that are near in the list."""
    dice = random.Random(seed)
    kinds = dice.choices([*SIDES, Kind.BOX, Kind.GATE], [8, 2, 3, 2, 1, 1, 2, 3], k=count)
    parts = [random_part(f"P{number}", kind, dice) for number, kind in enumerate(kinds)]
    free = [(place, pin) for place, part in enumerate(parts) for pin in part.pins]
    dice.shuffle(free)
    free.sort(key=lambda one: one[0] + 4 * dice.random())
    sheet = Sheet("random", parts)
    while len(free) > 1:
        pins = free[:dice.choice((2, 2, 2, 3, 3, 4, 5, 6))]
        del free[:len(pins)]
        key = f"N{len(sheet.nets)}"
        if dice.random() < 0.1:
            continue
        sheet.nets[key] = Net(key)
        for _, pin in pins:
            pin.net = key
    flags = []
    for place, (kind, side) in enumerate(((Kind.GROUND, NORTH), (Kind.SUPPLY, SOUTH), (Kind.INPUT, EAST), (Kind.LABEL, EAST))):
        for _ in range(count // 6):
            key = dice.choice(sorted(sheet.nets))
            flags.append(Part(f"F{len(flags)}", "", kind, [Pin("1", "", side, net=key)], False, [], WISHES[kind], 0,
                              kind is Kind.LABEL))
    sheet.parts += flags
    return dataclasses.replace(sheet)
