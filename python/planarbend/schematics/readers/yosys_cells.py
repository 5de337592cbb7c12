"""Makes parts of the cells of yosys."""
from __future__ import annotations

import re
from collections.abc import Mapping
from dataclasses import dataclass, field
from typing import Any

from planarbend.schematics.parts import EAST, NORTH, SOUTH, WEST, Kind, Part, Pin
from planarbend.schematics.readers.kinds import finished
from planarbend.schematics.readers.sides import placed, set_sides

Bit = int | str

GATES = {"$_AND_": "and", "$_OR_": "or", "$_XOR_": "xor", "$_XNOR_": "xnor", "$_NAND_": "nand", "$_NOR_": "nor", "$_NOT_": "not",
         "$_BUF_": "buffer", "$_ANDNOT_": "and", "$_ORNOT_": "or", "$_TBUF_": "buffer", "$and": "and", "$or": "or", "$xor": "xor",
         "$xnor": "xnor", "$not": "not", "$logic_and": "and", "$logic_or": "or", "$logic_not": "not", "$tribuf": "buffer",
         "$buf": "buffer"}
SECOND_INVERTED = ("$_ANDNOT_", "$_ORNOT_")
MULTIPLEXERS = {"$_MUX_": "line", "$_NMUX_": "inverted", "$mux": "line"}  # and the shape of the output
SIGNS = {"add": "+", "sub": "\u2212", "mul": "\u00d7", "div": "/", "mod": "%", "pow": "**", "eq": "=", "ne": "\u2260",
         "eqx": "===", "nex": "!==", "lt": "<", "le": "\u2264", "gt": ">", "ge": "\u2265", "shl": "<<", "shr": ">>",
         "sshl": "<<<", "sshr": ">>>", "neg": "\u2212", "pos": "+", "reduce_and": "&", "reduce_or": "|", "reduce_xor": "^",
         "reduce_xnor": "~^", "reduce_bool": "\u2260 0"}
EQUAL_INPUTS = {"$add", "$mul", "$eq", "$ne", "$eqx", "$nex"}
FLIP_FLOP = re.compile(r"\$_(?:S?DFF(?:C?E)?|DFFSRE?)_([NP]+)([01]?)([NP]?)_|\$[as]?dff(?:ce|e|sr|sre)?")
# Names of the pins of flip-flops from above, with their sides.
FLIP_FLOP_PINS = {"D": WEST, "E": WEST, "EN": WEST, "C": WEST, "CLK": WEST, "R": SOUTH, "SRST": SOUTH, "ARST": SOUTH,
                  "CLR": SOUTH, "S": NORTH, "SET": NORTH, "Q": EAST}
CLOCKS = ("C", "CLK")


@dataclass(slots=True)
class Cell:
    """A cell: its name and whether a person gave it, its type, and the directions and bits of its ports."""

    name: str
    is_named: bool
    type: str
    directions: dict[str, str]
    bits: dict[str, list[Bit]]
    parameters: Mapping[str, Any] = field(default_factory=dict)


def part_of(cell: Cell) -> Part:
    """Return the part that a cell is, whose pins have the names of its ports as numbers."""
    ports = list(cell.bits)
    if cell.type in GATES and {"A", "Y"} <= set(ports) <= {"A", "B", "E", "EN", "Y"}:
        part = gate(cell)
    elif cell.type in MULTIPLEXERS and set(ports) == {"A", "B", "S", "Y"}:
        shape = MULTIPLEXERS[cell.type]
        pins = [Pin("A", "0", WEST, "input"), Pin("B", "1", WEST, "input"), Pin("S", "", SOUTH, "input"),
                Pin("Y", "", EAST, "output", None, shape)]
        part = Part(cell.name, "", Kind.MUX, pins)
    elif FLIP_FLOP.fullmatch(cell.type) and {"D", "Q"} < set(ports) <= set(FLIP_FLOP_PINS) and set(CLOCKS) & set(ports):
        part = flip_flop(cell)
    else:
        part = box(cell)
    part.pins = part.pins if part.kind is Kind.BOX else placed(part.pins)
    part.is_named = cell.is_named
    return finished(part)


def gate(cell: Cell) -> Part:
    """Return a gate, or a buffer that can be switched off."""
    form = GATES[cell.type]
    pins = [Pin(port, "", EAST if port == "Y" else SOUTH if port in ("E", "EN") else WEST, "output" if port == "Y" else "input")
            for port in sorted(cell.bits)]
    for pin in pins:
        if pin.number == "B" and cell.type in SECOND_INVERTED or pin.number == "Y" and form in ("not", "nand", "nor", "xnor"):
            pin.shape = "inverted"
    return Part(cell.name, "", Kind.GATE, pins, form=form)


def flip_flop(cell: Cell) -> Part:
    """Return a flip-flop, whose inputs that are active at 0 are inverted."""
    low = inverted_ports(cell)
    pins = []
    for port, side in FLIP_FLOP_PINS.items():
        if port in cell.bits:
            clock = "clock" if port in CLOCKS else ""
            shape = "_".join(word for word in ("inverted" if port in low else "", clock) if word) or "line"
            pins.append(Pin(port, "" if clock else port, side, "output" if port == "Q" else "input", None, shape))
    return Part(cell.name, "", Kind.DFF, pins)


def inverted_ports(cell: Cell) -> set[str]:
    """Return the ports of a flip-flop that are active at 0."""
    match = FLIP_FLOP.fullmatch(cell.type)
    if match is None or match[1] is None:
        return {port for port in cell.bits if str(cell.parameters.get(f"{port}_POLARITY", 1)).endswith("0")}
    letters = match[1] + match[3]
    order = "CSRE" if "DFFSR" in cell.type else "CRE" if match[2] else "CE"
    return {port for port, letter in zip(order, letters) if letter == "N"}


def box(cell: Cell) -> Part:
    """Return a box: inputs on its west side, outputs on its east side."""
    sign = SIGNS.get(cell.type[1:], "") if cell.type.startswith("$") else ""
    is_plain = sign and set(cell.bits) <= {"A", "B", "Y"}
    pins = [Pin(port, "" if is_plain else port, 0, TYPES.get(cell.directions.get(port, ""), "unspecified")) for port in cell.bits]
    part = Part(cell.name, "", Kind.BOX, set_sides(pins, "", ""), form=sign or cell.type.strip("$_"))
    if cell.type in EQUAL_INPUTS and is_plain:
        part.swaps = [[place for place, pin in enumerate(part.pins) if pin.side == WEST]]
    if not cell.type.startswith("$"):
        part.value, part.form = cell.type, ""
    return part


TYPES = {"input": "input", "output": "output", "inout": "bidirectional"}
