"""Schematics: parts with pins, symbols and wires, drawn from the file of a circuit.

    from planarbend import schematics
    schematics.draw("amplifier.kicad_sch", "amplifier.svg")

`read` returns the sheet of a file, `schematic_of` draws a sheet, and `draw` does both and writes a picture.
"""
from __future__ import annotations

import os
from typing import TYPE_CHECKING, Any

if TYPE_CHECKING:
    from planarbend.schematics.drawn import Schematic
    from planarbend.schematics.parts import Kind, Net, Part, Pin, Sheet
    from planarbend.schematics.readers import ReadError, read
    from planarbend.schematics.schematic import schematic_of

__all__ = ["Kind", "Net", "Part", "Pin", "ReadError", "Schematic", "Sheet", "draw", "read", "schematic_of"]
PLACES = {"Schematic": "drawn", "ReadError": "readers", "read": "readers", "schematic_of": "schematic"}


def __getattr__(name: str) -> Any:
    """Return a name of one of the modules, which are loaded on first use."""
    if name not in __all__:
        raise AttributeError(f"module 'planarbend.schematics' has no attribute {name!r}")
    import importlib

    return getattr(importlib.import_module(f"planarbend.schematics.{PLACES.get(name, 'parts')}"), name)


def draw(file: str, output: str, inner: str | None = None, flags: int = 8, wired: tuple[str, ...] = (), seed: int = 0,
         effort: int = 1, free: bool = False) -> Schematic:
    """Draw the schematic of a circuit's file, and write it.

    Parameters
    ----------
    file : str
        A KiCad schematic or netlist, JSON of yosys, or a SPICE netlist.
    output : str
        Its ending is .svg, .png, .pdf (both by rsvg-convert) or .json.
    inner : str, optional
        The name of a sheet of the hierarchy, of a module, or of a subcircuit.
    flags : int
        Nets with more pins than this become a flag at each pin.
    wired : tuple of str
        The names of nets that are drawn as wires, however many pins they have.
    seed, effort : int
        Of the search for few crossings.
    free : bool
        Whether no part must be upright.

    Returns
    -------
    Schematic
        `notes` of its sheet say what could not be drawn as a symbol, and why.

    Raises
    ------
    ReadError
        The file cannot be read as a circuit.
    NoProgram
        The library is missing.
    TooLarge
        A connected part of the circuit is too large for it.
    NoConverter
        rsvg-convert is missing.

    Examples
    --------
    >>> drawing = draw("divider.cir", "divider.svg")  # doctest: +SKIP
    >>> drawing.bends, len(drawing.crossings)  # doctest: +SKIP
    (0, 0)
    """
    from planarbend.drawing.picture import check_output, write_picture
    from planarbend.layout.library import LibraryEngine
    from planarbend.schematics.flags import split
    from planarbend.schematics.picture import svg
    from planarbend.schematics.readers import read
    from planarbend.schematics.schematic import schematic_of

    check_output(output)
    with open(file, "rb") as source:
        sheet = read(source.read(), file, inner=inner)
    found = schematic_of(split(sheet, flags, wired), LibraryEngine(), seed, effort, free)
    if os.path.splitext(output)[1] == ".json":
        with open(output, "w", encoding="utf-8") as out:
            out.write(found.json() + "\n")
    else:
        write_picture(svg(found), output)
    return found
