"""Reads a module of the JSON that yosys writes."""
from __future__ import annotations

import json
import re
from typing import Any

from planarbend.readers.fault import Fault, decoded, shown
from planarbend.schematics.flags import drop_single, flag
from planarbend.schematics.parts import Kind, Pin, Sheet
from planarbend.schematics.readers.yosys_bits import Vectors
from planarbend.schematics.readers.yosys_cells import Bit, Cell, part_of

PORTS = {"input": Kind.INPUT, "output": Kind.OUTPUT, "inout": Kind.LABEL}
INSIDE = {"input": "output", "output": "input", "inout": "inout"}  # how a port of the module acts on what is inside
CONSTANTS = ("0", "1", "x", "z")

End = tuple[Pin, str, list[Bit], str]  # a pin, its direction, its bits, and what a net is called that has no name


def read_yosys(data: bytes, file: str, inner: str | None = None) -> Sheet:
    """Return the sheet of a module: the one with a name, or the top module, or the only one. A `Fault` is raised if the text is
    not JSON of yosys (with its line), or there is no such module."""
    text = decoded(data)
    try:
        whole = json.loads(text)
    except json.JSONDecodeError as error:
        raise Fault(f"not JSON: {error.msg}", error.lineno) from None
    except (RecursionError, ValueError):
        raise Fault("not JSON of yosys: nested too deeply, or a number that is too long") from None
    return Reader(text, whole).sheet(inner)


class Reader:
    """Reads modules of a text."""

    def __init__(self, text: str, whole: Any) -> None:
        """Return the reader of a text and its value."""
        self.text = text
        self.modules = self.object(whole, "modules")

    def fault(self, reason: str, name: str | None = None) -> Fault:
        """Return the fault of what has a name, with the first line that has the name as a key."""
        place = -1 if name is None else self.text.find(json.dumps(name, ensure_ascii=False) + ":")
        return Fault(f"not JSON of yosys: {reason}", None if place < 0 else self.text.count("\n", 0, place) + 1)

    def object(self, outer: Any, key: str, name: str | None = None) -> dict[str, Any]:
        """Return the object that an object has at a key, empty if there is none."""
        found = outer.get(key, {}) if isinstance(outer, dict) else None
        if not isinstance(found, dict):
            raise self.fault(f"{key} is not an object" + (f" of {shown(name)}" if name else ""), name or key)
        return found

    def chosen(self, inner: str | None) -> tuple[str, Any]:
        """Return the name of the module to draw, and the module."""
        if inner is not None:
            if inner not in self.modules:
                raise Fault(f"there is no module {shown(inner)}; there are {shown(', '.join(self.modules))}")
            return inner, self.modules[inner]
        marks = {name: self.object(one, "attributes", name) for name, one in self.modules.items()}
        tops = [name for name, one in marks.items() if is_on(one.get("top", 0))]
        own = [name for name, one in marks.items() if not is_on(one.get("blackbox", 0))]
        found = tops or own
        if len(found) != 1:
            reason = "no modules" if not found else f"{len(found)} modules, of which none is the top: {shown(', '.join(found))}"
            raise Fault(f"there are {reason}")
        return found[0], self.modules[found[0]]

    def sheet(self, inner: str | None) -> Sheet:
        """Return the sheet of a module."""
        name, module = self.chosen(inner)
        if not isinstance(module, dict):
            raise self.fault(f"the module {shown(name)} is not an object", name)
        found = Sheet(name)
        ends: list[End] = []
        for port, value in self.object(module, "ports", name).items():
            direction, bits = self.port(port, value)
            found.parts.append(flag(PORTS[direction], port, ""))
            found.parts[-1].pins[0].net = None
            ends.append((found.parts[-1].pins[0], INSIDE[direction], bits, port))
        for one in self.object(module, "cells", name).items():
            cell = self.cell(*one)
            found.parts.append(part_of(cell))
            ends += ((pin, cell.directions[pin.number], cell.bits[pin.number], f"{short_name(cell)}.{pin.number}")
                     for pin in found.parts[-1].pins)
        connect(Vectors(found, self.names(module, name)), ends)
        return drop_single(found)

    def names(self, module: Any, name: str) -> dict[tuple[Bit, ...], str]:
        """Return the names that people gave to vectors of a module."""
        found: dict[tuple[Bit, ...], str] = {}
        for key, value in self.object(module, "netnames", name).items():
            if isinstance(value, dict) and not is_on(value.get("hide_name", 0)):
                found.setdefault(tuple(self.bits(value.get("bits"), key)), key)
        return found

    def port(self, name: str, value: Any) -> tuple[str, list[Bit]]:
        """Return the direction and the bits of a port of a module."""
        direction = value.get("direction") if isinstance(value, dict) else None
        if direction not in PORTS:
            raise self.fault(f"the port {shown(name)} has no direction", name)
        return str(direction), self.bits(value.get("bits"), name)

    def cell(self, name: str, value: Any) -> Cell:
        """Return a cell."""
        kind = value.get("type") if isinstance(value, dict) else None
        if not isinstance(kind, str):
            raise self.fault(f"the cell {shown(name)} has no type", name)
        bits = {port: self.bits(one, name) for port, one in self.object(value, "connections", name).items()}
        directions = self.object(value, "port_directions", name)
        known = self.object(self.modules[kind], "ports", kind) if kind in self.modules else {}
        found: dict[str, str] = {}
        for port in bits:
            direction = directions.get(port) or self.object(known, port, kind).get("direction", "")
            if direction not in (*PORTS, ""):
                raise self.fault(f"the port {shown(port)} of {shown(name)} has the direction {shown(str(direction))}", name)
            found[port] = str(direction)
        return Cell(name, not is_on(value.get("hide_name", 0)), kind, found, bits, self.object(value, "parameters", name))

    def bits(self, found: Any, name: str) -> list[Bit]:
        """Return a list of bits: numbers, or constants."""
        if not isinstance(found, list):
            raise self.fault(f"{shown(name)} has no list of bits", name)
        for bit in found:
            if not (isinstance(bit, int) and not isinstance(bit, bool) or bit in CONSTANTS):
                raise self.fault(f"{shown(name)} has a bit that is neither a number nor a constant: {shown(str(bit))}", name)
        return found


def connect(vectors: Vectors, ends: list[End]) -> None:
    """Connect pins to the nets of their bits: first what drives, so that what takes finds its nets."""
    for wanted in ("output", "inout", ""):
        for pin, direction, bits, made in ends:
            if direction == wanted:
                vectors.drive(pin, bits, made)
    for pin, direction, bits, made in ends:
        if direction == "input":
            vectors.sink(pin, bits, made)


def short_name(cell: Cell) -> str:
    """Return a short name for a cell: its type and the number at the end of its name, if no person named it."""
    if cell.is_named:
        return cell.name
    digits = re.search(r"\d*$", cell.name)
    words = re.search(r"[A-Za-z]+", cell.type)
    return (words[0].lower() if words else "cell") + (digits[0] if digits else "")


def is_on(value: Any) -> bool:
    """Return whether an attribute is on: yosys writes numbers, or binary digits."""
    return str(value).strip("0") not in ("", "False")
