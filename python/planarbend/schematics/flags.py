"""Flags: parts of one pin that show that a net goes on elsewhere."""
from __future__ import annotations

import dataclasses
from collections.abc import Collection

from planarbend.schematics.names import is_ground, is_negative
from planarbend.schematics.parts import EAST, NORTH, SOUTH, WEST, WISHES, Kind, Net, Part, Pin, Sheet

MOST_PINS = 8  # of a net that is drawn as wires
SIDES = {Kind.GROUND: NORTH, Kind.SUPPLY: SOUTH, Kind.INPUT: EAST, Kind.OUTPUT: WEST, Kind.LABEL: EAST, Kind.CONST: EAST}


def flag(kind: Kind, text: str, net: str) -> Part:
    """Return a flag at a net with this key. The pin of a negative supply is above its symbol, as that of a ground."""
    side = NORTH if kind is Kind.SUPPLY and is_negative(text) else SIDES[kind]
    return Part(text, text, kind, [Pin("1", "", side, net=net)], upright=WISHES[kind], half=kind is Kind.LABEL)


def kind_of(net: Net) -> Kind:
    """Return the kind of the flags of a net that is split."""
    if not net.is_power:
        return Kind.LABEL
    return Kind.GROUND if is_ground(net.name) else Kind.SUPPLY


def split(sheet: Sheet, most: int | None = MOST_PINS, wired: Collection[str] = ()) -> Sheet:
    """Return a sheet in which each pin of a power net, and of a net with more pins than `most`, has a flag and a net of its own.

    Parameters
    ----------
    sheet : Sheet
    most : int, optional
        None: only power nets are split.
    wired : collection of str
        The names of nets that are drawn as wires; if the sheet has one in several pieces, these become one. A power net among
        them has one flag.
    """
    found = joined(sheet, wired)
    flags: list[Part] = []
    for key, ends in found.ends().items():
        net, pins = found.nets[key], [end for end in ends if not found.parts[end[0]].is_flag]
        if net.name in wired or not net.is_power and (most is None or len(pins) <= most):
            flags += [flag(kind_of(net), net.name, key)] if net.is_power else []
            continue
        del found.nets[key]
        for number, (part, pin) in enumerate(pins, 1):
            new = unused(found, f"{key} {number}" if len(pins) > 1 else key)
            found.nets[new] = dataclasses.replace(net)
            found.parts[part].pins[pin].net = new
            flags.append(flag(kind_of(net), net.name, new))
    found.parts = [part for part in found.parts if not part.is_flag or part.pins[0].net in found.nets] + flags
    return found


def joined(sheet: Sheet, wired: Collection[str]) -> Sheet:
    """Return a copy of a sheet in which the pieces of each net with one of these names are one net, without labels at them."""
    first: dict[str, str] = {}
    for key, net in sheet.nets.items():
        if net.name in wired:
            first.setdefault(net.name, key)
    single = {name for name in first if sum(net.name == name for net in sheet.nets.values()) == 1}
    found = Sheet(sheet.name, [], {key: dataclasses.replace(net) for key, net in sheet.nets.items()
                                   if first.get(net.name, key) == key}, list(sheet.notes))
    for part in sheet.parts:
        if part.kind is Kind.LABEL and part.ref in first and part.ref not in single:
            continue
        pins = [pin if pin.net is None else
                dataclasses.replace(pin, net=first.get(sheet.nets[pin.net].name, pin.net)) for pin in part.pins]
        found.parts.append(dataclasses.replace(part, pins=[dataclasses.replace(pin) for pin in pins]))
    return found


def unused(sheet: Sheet, key: str, others: Collection[str] = ()) -> str:
    """Return a key for a net that no other net of a sheet has, nor is among the others."""
    number, found = 1, key
    while found in sheet.nets or found in others:
        number += 1
        found = f"{key} ({number})"
    return found


def drop_single(sheet: Sheet) -> Sheet:
    """Return a sheet after removing the nets of one pin, which join nothing, but for power nets."""
    for key, ends in sheet.ends().items():
        if len(ends) < 2 and not sheet.nets[key].is_power:
            for part, pin in ends:
                sheet.parts[part].pins[pin].net = None
            del sheet.nets[key]
    return sheet
