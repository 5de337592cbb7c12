"""Reads one sheet of a hierarchy of KiCad schematics."""
from __future__ import annotations

import os
from collections.abc import Iterator
from dataclasses import dataclass, field

from planarbend.readers.fault import Fault, ReadError, decoded, shown
from planarbend.readers.sexpr import Expression, parsed
from planarbend.schematics.parts import Sheet
from planarbend.schematics.readers.kicad_page import Page, names_of, whole_number
from planarbend.schematics.readers.kicad_sheet import sheet_of
from planarbend.schematics.readers.kicad_symbols import fields_of

MOST_SHEETS = 1000  # of a hierarchy that are searched


@dataclass(slots=True)
class Instance:
    """A sheet of a hierarchy: its file and the file's list, its name with those of the sheets it is in, and its path: the
    identifiers of these sheets, that of the root first."""

    file: str
    whole: Expression
    names: list[str] = field(default_factory=list)
    path: list[str] = field(default_factory=list)


def read_schematic(data: bytes, file: str, inner: str | None = None) -> Sheet:
    """Return a sheet of a schematic.

    Parameters
    ----------
    data : bytes
        The file of the root of the hierarchy.
    file : str
        Its name: the files of the sheets inside are looked for beside it.
    inner : str, optional
        The name of a sheet inside, or its name after those of the sheets it is in, with slashes between; by default the sheet
        is the root.

    Raises
    ------
    Fault
        A fault of the root's file, or there is no such sheet.
    ReadError
        A fault of another file.
    """
    root = Instance(file, whole_of(data))
    root.path = [root.whole.value("uuid") or ""]
    wanted = root if inner is None else found_in(root, inner)
    stem = os.path.splitext(os.path.basename(wanted.file))[0]
    return sheet_of(Page(wanted.whole, references(root, wanted)), "/".join(wanted.names) or stem)


def whole_of(data: bytes) -> Expression:
    """Return the list of a schematic's file."""
    whole = parsed(decoded(data))
    if whole.head != "kicad_sch":
        raise Fault(f"not a KiCad schematic: it begins with ({shown(whole.head)}", whole.line)
    return whole


def found_in(root: Instance, inner: str) -> Instance:
    """Return the first sheet with a name, level by level."""
    level, seen = [root], 0
    known: list[str] = []
    while level:
        below: list[Instance] = []
        for instance in level:
            for names, sheet in sheets_in(instance):
                if inner in (names[-1], "/".join(names)):
                    return opened(instance, names, sheet)
                known.append("/".join(names))
                below.append(opened(instance, names, sheet))
                seen += 1
        level = below if seen <= MOST_SHEETS else []
    listed = f"; it has {shown(', '.join(known))}" if known else "; there are no sheets inside it"
    raise Fault(f"the schematic has no sheet {shown(inner)}{listed}")


def sheets_in(instance: Instance) -> Iterator[tuple[list[str], Expression]]:
    """Yield the names of the sheets inside a sheet, and their lists."""
    for one in instance.whole.all("sheet"):
        yield [*instance.names, names_of(fields_of(one))[0]], one


def opened(outer: Instance, names: list[str], sheet: Expression) -> Instance:
    """Return a sheet inside another one, read from its file."""
    file = os.path.join(os.path.dirname(outer.file), names_of(fields_of(sheet))[1])
    try:
        with open(file, "rb") as source:
            return Instance(file, whole_of(source.read()), names, [*outer.path, sheet.value("uuid") or ""])
    except (OSError, ValueError) as error:
        reason = getattr(error, "strerror", None) or str(error)
        raise ReadError(outer.file, sheet.line, f"the sheet {shown(names[-1])} is in {shown(file)}: {reason}") from None
    except Fault as fault:
        raise ReadError(file, fault.line, fault.reason) from None


def references(root: Instance, wanted: Instance) -> dict[str, tuple[str, int]]:
    """Return the references and units of the symbols of a sheet as an instance, by the identifiers of the symbols.

    In version 6 the root has them for all sheets, later each symbol has its own.
    """
    found: dict[str, tuple[str, int]] = {}
    before = "".join(f"/{one}" for one in wanted.path[1:]) + "/"
    for listed in root.whole.all("symbol_instances"):
        for one in listed.all("path"):
            place = one.words[1] if len(one.words) > 1 else ""
            if place.startswith(before) and one.value("reference"):
                found[place.removeprefix(before)] = one.value("reference") or "", whole_number(one, "unit", 1)
    path = "/" + "/".join(wanted.path)
    for symbol in wanted.whole.all("symbol"):
        for project in (project for listed in symbol.all("instances") for project in listed.all("project")):
            for one in project.all("path"):
                if one.words[1:2] == [path] and one.value("reference"):
                    found[symbol.value("uuid") or ""] = one.value("reference") or "", whole_number(one, "unit", 1)
    return found
