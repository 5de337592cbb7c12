"""Reads KiCad's netlists (.net) and boards (.kicad_pcb): parts and the nets that join their pins."""
from __future__ import annotations

import collections
import re
from dataclasses import dataclass, field

from planarbend.graph import Graph, Kind
from planarbend.readers.building import Builder
from planarbend.readers.fault import Fault, decoded
from planarbend.readers.sexpr import Expression, parsed

LEAST_PARTS = 3  # of a net that is a vertex
# Names that KiCad makes for nets without a label.
MADE_NAME = re.compile(r"(unconnected-|no_connect|Net)-?\(.*|N-\d+|\$\w+|")
PART_HEADS = ("footprint", "module")


@dataclass(slots=True)
class Part:
    """A part of a circuit: its reference, such as R1, and its value, such as 10k."""

    reference: str
    value: str

    @property
    def label(self) -> str:
        """The reference and the value, on two lines, as schematics have them."""
        return self.reference if self.value in ("", "~", self.reference) else f"{self.reference}\n{self.value}"


@dataclass
class Circuit:
    """Parts, and nets each with its pins: the part and the pin's number."""

    parts: list[Part] = field(default_factory=list)
    nets: dict[str, dict[tuple[int, str], None]] = field(default_factory=lambda: collections.defaultdict(dict))

    def graph(self) -> Graph:
        """Return the graph of the circuit, in which a net joins each of its parts once, with however many pins.

        Parts, and nets that join three or more, are vertices; a net of two parts is an edge, and a net that joins pins of only
        one part is a loop. A single pin is not a connection.
        """
        built = Builder()
        for number, part in enumerate(self.parts):
            built.vertex(number, part.label, Kind.PART, part.reference)
        for name, pins in self.nets.items():
            parts = list(dict.fromkeys(part for part, _ in pins))
            shown = "" if MADE_NAME.fullmatch(name) else name.removeprefix("/")
            if len(parts) >= LEAST_PARTS:
                net = ("net", name)
                built.vertex(net, shown, Kind.NET, name)
                for pin in parts:
                    built.edge(pin, net)
            elif len(pins) > 1:
                built.edge(parts[0], parts[-1], shown)
        return built


def read_netlist(data: bytes) -> Graph:
    """Return the circuit of a netlist as KiCad's schematic editor exports it, or raise a `Fault` if it is none, or a net names
    a part that it does not have."""
    whole = parsed(decoded(data))
    if whole.head != "export":
        raise Fault(f"not a KiCad netlist: it begins with ({whole.head}", whole.line)
    circuit, places = Circuit(), {}
    for components in whole.all("components"):
        for component in components.all("comp"):
            reference = wanted(component, "ref")
            places[reference] = len(circuit.parts)
            circuit.parts.append(Part(reference, component.value("value") or ""))
    for nets in whole.all("nets"):
        for net in nets.all("net"):
            name = net.value("name") or f"net {wanted(net, 'code')}"
            for node in net.all("node"):
                reference = wanted(node, "ref")
                if reference not in places:
                    raise Fault(f"the net {name} has a pin of {reference}, which is not a component", node.line)
                circuit.nets[name][places[reference], wanted(node, "pin")] = None
    return circuit.graph()


def read_board(data: bytes) -> Graph:
    """Return the circuit of a board as KiCad's board editor saves it from release 4 on, or raise a `Fault` if it is none."""
    whole = parsed(decoded(data))
    if whole.head != "kicad_pcb":
        raise Fault(f"not a KiCad board: it begins with ({whole.head}", whole.line)
    circuit, names = Circuit(), {net.words[1]: net.words[2] for net in whole.all("net") if len(net.words) > 2}
    for footprint in whole.all(*PART_HEADS):
        number = len(circuit.parts)
        circuit.parts.append(Part(field_of(footprint, "Reference") or f"part {number + 1}", field_of(footprint, "Value")))
        for place, pad in enumerate(footprint.all("pad")):
            name = net_of(pad, names)
            if name:
                pin = pad.words[1] if len(pad.words) > 1 and pad.words[1] else f"pad {place}"
                circuit.nets[name][number, pin] = None
    return circuit.graph()


def net_of(pad: Expression, names: dict[str, str]) -> str:
    """Return the name of a pad's net: its second word after the number, or, in newer boards, its only word."""
    words: list[str] = next((net.words[1:] for net in pad.all("net")), [])
    return words[1] if len(words) > 1 else names.get(words[0], words[0]) if words else ""


def field_of(footprint: Expression, name: str) -> str:
    """Return the text of a footprint's field: `property` of newer boards, `fp_text` of older ones."""
    for one in footprint.all("property", "fp_text"):
        if len(one.words) > 2 and one.words[1].lower() == name.lower():
            return one.words[2]
    return ""


def wanted(expression: Expression, head: str) -> str:
    """Return the value of a required inner list."""
    value = expression.value(head)
    if value is None:
        raise Fault(f"a {expression.head} without {head}", expression.line)
    return value
