"""Reads KiCad's netlists as sheets. The sides of pins, which they do not give, follow from names and types of pins."""
from __future__ import annotations

import os
import re
from dataclasses import dataclass, field

from planarbend.readers.fault import Fault, decoded, shown
from planarbend.readers.kicad import MADE_NAME, wanted
from planarbend.readers.sexpr import Expression, parsed
from planarbend.schematics.flags import flag
from planarbend.schematics.names import is_power
from planarbend.schematics.parts import Kind, Net, Part, Pin, Sheet
from planarbend.schematics.readers.kicad_page import plain
from planarbend.schematics.readers.kicad_symbols import UNNAMED, letters_of
from planarbend.schematics.readers.kinds import finished, kind_of, polarity_note
from planarbend.schematics.readers.sides import set_sides

SINGLE = "unconnected-("  # how the names of nets of one pin begin


@dataclass(slots=True)
class Component:
    """A component: its value, what the file says about it, and its pins by their numbers; `is_listed` says whether the file
    lists the pins of such components."""

    ref: str
    value: str
    words: str
    pins: dict[str, Pin] = field(default_factory=dict)
    is_listed: bool = False


def read_netlist(data: bytes, file: str, inner: str | None = None) -> Sheet:
    """Return the sheet of a netlist, or raise a `Fault` if it is none, or a net has a pin of a component or a pin that it does
    not list."""
    whole = parsed(decoded(data))
    if whole.head != "export":
        raise Fault(f"not a KiCad netlist: it begins with ({shown(whole.head)}", whole.line)
    if inner is not None:
        raise Fault(f"a netlist has no sheets, so none is named {shown(inner)}")
    components = components_of(whole)
    found = Sheet(os.path.splitext(os.path.basename(file))[0])
    for nets in whole.all("nets"):
        for net in nets.all("net"):
            add_net(found, net, components)
    for component in components.values():
        add_part(found, component)
    for key, ends in found.ends().items():
        if len(ends) == 1 and not found.nets[key].is_power:
            found.parts.append(flag(Kind.LABEL, found.nets[key].name, key))
    return found


def components_of(whole: Expression) -> dict[str, Component]:
    """Return the components of a netlist by their references."""
    library = {name_in(one): one for parts in whole.all("libparts") for one in parts.all("libpart")}
    found: dict[str, Component] = {}
    for components in whole.all("components"):
        for one in components.all("comp"):
            ref = wanted(one, "ref")
            if ref in found:
                raise Fault(f"a second component {shown(ref)}", one.line)
            value = one.value("value") or ""
            found[ref] = Component(ref, "" if value == "~" else value, "")
            for source in one.all("libsource"):
                found[ref].words = f"{name_in(source)[1]} {source.value('description') or ''}"
                if name_in(source) in library:
                    list_pins(found[ref], library[name_in(source)])
    return found


def name_in(one: Expression) -> tuple[str, str]:
    """Return the library of a part, and its name there."""
    return one.value("lib") or "", one.value("part") or ""


def list_pins(component: Component, libpart: Expression) -> None:
    """Give a component the pins that its library part lists, and the words that describe it."""
    component.words += " " + (libpart.value("description") or "")
    for pins in libpart.all("pins"):
        component.is_listed = True
        for one in pins.all("pin"):
            number, name = wanted(one, "num"), one.value("name") or ""
            component.pins[number] = Pin(number, "" if name in UNNAMED else plain(name), 0, one.value("type") or "unspecified")


def add_net(sheet: Sheet, net: Expression, components: dict[str, Component]) -> None:
    """Add a net to a sheet and to the pins of its nodes. A net of one pin is not a connection."""
    name = net.value("name") or f"net {wanted(net, 'code')}"
    pins = [pin_of(node, name, components) for node in net.all("node")]
    if len(pins) < 2 and (not pins or MADE_NAME.fullmatch(name) or name.startswith(SINGLE)):
        return
    is_shown = not MADE_NAME.fullmatch(name)
    sheet.nets[name] = Net(plain(name.removeprefix("/")) if is_shown else name, is_shown, is_shown and is_power(name))
    for pin in pins:
        pin.net = name


def pin_of(node: Expression, net: str, components: dict[str, Component]) -> Pin:
    """Return the pin that is a node of a net; it is new if the file does not list the pins of its component."""
    ref, number = wanted(node, "ref"), wanted(node, "pin")
    if ref not in components:
        raise Fault(f"the net {shown(net)} has a pin of {shown(ref)}, which is not a component", node.line)
    component = components[ref]
    if number not in component.pins:
        if component.is_listed:
            raise Fault(f"the net {shown(net)} has the pin {shown(number)} of {shown(ref)}, which the file does not list",
                        node.line)
        name = node.value("pinfunction") or ""
        component.pins[number] = Pin(number, plain(name), 0, node.value("pintype") or "unspecified")
    return component.pins[number]


def add_part(sheet: Sheet, component: Component) -> None:
    """Add a component to a sheet, and a note if it is a box for want of something that the file does not say."""
    pins = sorted(component.pins.values(), key=lambda pin: natural(pin.number))
    if not pins:
        return
    prefix = letters_of(component.ref)
    pins = set_sides(pins, prefix, component.words)
    kind, form = kind_of(component.words, prefix, pins)
    part = finished(Part(component.ref, component.value, kind, pins, form=form))
    note = polarity_note(part)
    if note is None and kind is Kind.BOX and not part.is_connector and not any(pin.name for pin in pins):
        note = f"{component.ref}: a box, since the file does not say what its pins are"
    if note:
        sheet.notes.append(note)
    sheet.parts.append(part)


def natural(number: str) -> tuple[tuple[int, int | str], ...]:
    """Return a key that sorts the numbers of pins as people do: 2 before 10."""
    pieces = re.findall(r"[0-9]{1,9}|[^0-9]+", number)
    return tuple((0, int(piece)) if piece[0] in "0123456789" else (1, piece) for piece in pieces)
