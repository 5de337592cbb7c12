"""Determines from a file's content which format of a circuit it has."""
from __future__ import annotations

import os
import re

from planarbend.readers.fault import Fault
from planarbend.readers.forms import DOT, GML, HEAD, check_foreign

SPICE_ENDINGS = (".cir", ".sp", ".spi", ".spice", ".ckt", ".net", ".sub")
EXPRESSIONS = {b"kicad_sch": "schematic", b"export": "netlist"}
EXPRESSION = re.compile(rb"\s*\(\s*([\w.-]+)")
YOSYS = re.compile(rb'\s*\{.*"modules"\s*:', re.S)
DOTTED = re.compile(rb"(?im)^\.(?:end|ends|subckt|model|op|tran|ac|dc|include|lib|param|title|global)\b")
UNKNOWN = "neither a KiCad schematic or netlist, nor JSON of yosys, nor a SPICE netlist"


def form_of(data: bytes, name: str) -> str:
    """Return the format of a file of a circuit, or raise a `Fault` if it is none that is known."""
    check_foreign(data.removeprefix(b"\xef\xbb\xbf"))
    found = circuit_form(data, name)
    if found is None:
        raise Fault(UNKNOWN)
    return found


def circuit_form(data: bytes, name: str) -> str | None:
    """Return the format of a file of a circuit, or None if it seems to be another file."""
    data = data.removeprefix(b"\xef\xbb\xbf")
    match = EXPRESSION.match(data)
    if match:
        return EXPRESSIONS.get(match[1])
    if YOSYS.match(data):
        return "yosys"
    if data.lstrip()[:1] in (b"{", b"[", b"<") or DOT.match(data[:HEAD]) or GML.match(data[:HEAD]):
        return None
    is_named = os.path.splitext(name)[1].lower() in SPICE_ENDINGS
    return "spice" if is_named or DOTTED.search(data) else None
