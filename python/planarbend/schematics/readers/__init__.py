"""Reads sheets from files: `read` finds the format from the content."""
from __future__ import annotations

from importlib import import_module

from planarbend.readers.fault import Fault, ReadError
from planarbend.schematics.parts import Sheet
from planarbend.schematics.readers.forms import form_of

__all__ = ["FORMS", "ReadError", "read"]

READERS = {"schematic": "kicad_hierarchy", "netlist": "kicad_netlist", "yosys": "yosys", "spice": "spice"}  # and their modules
FORMS: tuple[str, ...] = tuple(READERS)


def read(data: bytes, name: str, form: str | None = None, inner: str | None = None) -> Sheet:
    """Return the sheet in the bytes of a file.

    Parameters
    ----------
    data : bytes
        The whole file.
    name : str
        Its name, for messages; the sheets of a KiCad hierarchy are looked for beside it.
    form : str, optional
        One of `FORMS`; found from the content by default.
    inner : str, optional
        The name of a sheet of a KiCad hierarchy, of a module, or of a subcircuit; by default the root, the top module, or all
        outside subcircuits.

    Returns
    -------
    Sheet
        It has at least one part. Power nets have no flags yet (`planarbend.schematics.flags.split`).

    Raises
    ------
    ReadError
        The file is not of this format or of any known one, it has no parts, or nothing in it has the name `inner`.
    ValueError
        `form` is not one of `FORMS`.

    Examples
    --------
    >>> sheet = read(b"A divider\\nR1 in out 10k\\nR2 out 0 22k\\nV1 in 0 5\\n.end\\n", "divider.cir")
    >>> [(part.ref, part.kind.value, {pin.number: pin.net for pin in part.pins}) for part in sheet.parts[:2]]
    [('R1', 'resistor', {'2': 'out', '1': 'in'}), ('R2', 'resistor', {'2': '0', '1': 'out'})]
    """
    if form is not None and form not in READERS:
        raise ValueError(f"no such format: {form} (known: {', '.join(FORMS)})")
    try:
        form = form or form_of(data, name)
        reader = getattr(import_module(f"planarbend.schematics.readers.{READERS[form]}"), f"read_{form}")
        found: Sheet = reader(data, name, inner)
        if not found.parts:
            raise Fault("there are no parts to draw")
    except Fault as fault:
        raise ReadError(name, fault.line, fault.reason) from None
    return found
