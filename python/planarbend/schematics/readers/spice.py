"""Reads SPICE netlists as sheets."""
from __future__ import annotations

import re
from collections.abc import Sequence

from planarbend.readers.fault import Fault, decoded, shown
from planarbend.schematics.flags import drop_single, flag
from planarbend.schematics.names import is_power
from planarbend.schematics.parts import EAST, NORTH, SOUTH, WEST, Kind, Net, Part, Pin, Sheet
from planarbend.schematics.readers.kinds import finished
from planarbend.schematics.readers.sides import placed, set_sides
from planarbend.schematics.readers.spice_lines import PARAMETER, Circuit, Line, circuit_of

NUMBER = re.compile(r"(?i)[+-]?(?:\d+\.?\d*|\.\d+)(?:e[+-]?\d+)?[a-z]*")
MADE_NODE = re.compile(r"(?i)n?\d+")  # names of nodes that programs make, or that say nothing
GROUNDS = ("0", "gnd", "gnd!")  # the names of the node 0
SKIPPED = {"k": "couplings of inductors", "a": "code models"}  # elements that are not drawn
LONGEST_VALUE = 24  # characters of a value with the parameters after it

Ends = tuple[tuple[str, int], ...]  # names of pins in the order of nodes, with their sides

TWO = {"w": (Kind.TWO, ""), "r": (Kind.RESISTOR, ""), "c": (Kind.CAPACITOR, ""), "l": (Kind.INDUCTOR, ""), "d": (Kind.DIODE, ""),
       "v": (Kind.SOURCE, "voltage"), "i": (Kind.SOURCE, "current")}
POLES: Ends = (("+", NORTH), ("-", SOUTH))
PLAIN_ENDS: Ends = (("1", WEST), ("2", EAST))
TWO_ENDS: dict[str, Ends] = {"d": (("A", WEST), ("K", EAST)), "v": POLES, "i": POLES}
OUT: Ends = (("+", EAST), ("-", EAST))
CONTROL: Ends = (("C+", WEST), ("C-", WEST))
BOXES: dict[str, Ends] = {"e": OUT + CONTROL, "g": OUT + CONTROL, "s": OUT + CONTROL,
                          "t": (("1+", WEST), ("1-", WEST), ("2+", EAST), ("2-", EAST))}
CONTROLLED = {"b": "voltage", "e": "voltage", "f": "current", "g": "current", "h": "voltage"}  # sources without pins for control
CURRENT = re.compile(r"(?i)i=.*", re.S)  # of a source B
BEHAVIOUR = re.compile(r"(?i)(?:value|table|laplace|freq|chebyshev|vol|cur)\b.*|\{.*|'.*|[^=]*=.*", re.S)
POLYNOMIAL = re.compile(r"(?i)poly\s*\(\s*(\d{1,3})\s*\)")
TRANSISTORS: dict[str, tuple[tuple[str, ...], dict[str, Kind]]] = {  # names of pins, and kinds by the types of models
    "q": (("C", "B", "E", "S"), {"npn": Kind.NPN, "pnp": Kind.PNP, "lpnp": Kind.PNP}),
    "m": (("D", "G", "S", "B"), {"nmos": Kind.NMOS, "pmos": Kind.PMOS}),
    "j": (("D", "G", "S"), {"njf": Kind.NJF, "pjf": Kind.PJF})}
SIDES, SIDES_REVERSED = (NORTH, WEST, SOUTH, EAST), (SOUTH, WEST, NORTH, EAST)
REVERSED = (Kind.PNP, Kind.PMOS, Kind.PJF)  # whose emitter or source is above


def read_spice(data: bytes, file: str, inner: str | None = None) -> Sheet:
    """Return the sheet of a circuit, or of its subcircuit with the name `inner`; a `Fault` has the line that breaks a rule."""
    whole = circuit_of(text_of(data))
    known = [one.name for one in whole.all_inside()]
    circuit = whole
    if inner is not None:
        found = next((one for one in whole.all_inside() if one.name.lower() == inner.lower()), None)
        if found is None:
            raise Fault(f"there is no subcircuit {shown(inner)}" + (f"; there are {shown(', '.join(known))}" if known else ""))
        circuit = found
    if not circuit.elements:
        raise Fault("the circuit has no elements" + (f" outside its subcircuits {shown(', '.join(known))}" if known else ""))
    return Builder(circuit, whole.notes).sheet()


def text_of(data: bytes) -> str:
    """Return the text of a file: UTF-8, or else Latin-1, in which other programs write the sign of micro."""
    try:
        return decoded(data)
    except Fault:
        return data.decode("latin-1")


class Builder:
    """Builds the sheet of a circuit."""

    def __init__(self, circuit: Circuit, notes: Sequence[str]) -> None:
        """Return the builder, which begins with these notes."""
        self.circuit = circuit
        self.found = Sheet(circuit.name, notes=list(notes))
        self.nodes: dict[str, str] = {}  # the keys of nets, by nodes in small letters

    def sheet(self) -> Sheet:
        """Return the sheet. The nodes of a subcircuit have labels."""
        names: set[str] = set()
        for line in self.circuit.elements:
            name = line.words[0].lower()
            if name in names:
                raise Fault(f"a second element {shown(line.words[0])}", line.number)
            names.add(name)
            part = self.part(line)
            if part is not None:
                self.found.parts.append(finished(part))
        for port in self.circuit.ports:
            key = self.nodes.get(port.lower())
            if key is not None and not self.found.nets[key].is_power:
                self.found.parts.append(flag(Kind.LABEL, port, key))
        return drop_single(self.found)

    def net(self, node: str) -> str:
        """Return the key of the net of a node."""
        name = "0" if node.lower() in GROUNDS else node
        if name.lower() not in self.nodes:
            self.nodes[name.lower()] = name
            self.found.nets[name] = Net(name, not MADE_NODE.fullmatch(name) or name == "0", is_power(name))
        return self.nodes[name.lower()]

    def part(self, line: Line) -> Part | None:
        """Return the part that a line describes, or None if it is not drawn."""
        name, letter = line.words[0], line.words[0][0].lower()
        if letter in TWO:
            kind, form = TWO[letter]
            pins, rest = self.pins(line, TWO_ENDS.get(letter, PLAIN_ENDS))
            return Part(name, value_of(rest), kind, placed(pins), form=form)
        if letter in BOXES or letter in CONTROLLED:
            return self.controlled(line, letter)
        if letter in TRANSISTORS:
            return self.transistor(line, letter)
        if letter == "x":
            return self.instance(line)
        if letter in SKIPPED:
            self.found.notes.append(f"{name}: {SKIPPED[letter]} are not drawn")
            return None
        raise Fault(f"unknown kind of element: {shown(name)}", line.number)

    def controlled(self, line: Line, letter: str) -> Part:
        """Return a source or switch that is controlled: a box, or a source with two pins if nodes do not control it."""
        ends = ends_of(line, letter)
        pins, rest = self.pins(line, POLES if ends == OUT else ends)
        if ends != OUT:
            return Part(line.words[0], value_of(rest), Kind.BOX, placed(pins))
        is_current = letter == "b" and rest and CURRENT.fullmatch(rest[0])
        form = "current" if is_current else CONTROLLED[letter]
        return Part(line.words[0], value_of(rest), Kind.SOURCE, placed(pins), form=f"controlled {form}")

    def pins(self, line: Line, ends: Ends) -> tuple[list[Pin], list[str]]:
        """Return pins for the first nodes of an element, and the words after these."""
        nodes = line.words[1:len(ends) + 1]
        if len(nodes) < len(ends) or any(PARAMETER.fullmatch(node) for node in nodes):
            raise Fault(f"{shown(line.words[0])} needs {len(ends)} nodes", line.number)
        is_plain = ends == PLAIN_ENDS
        pins = [Pin(name, "" if is_plain else name, side, "passive", self.net(node)) for node, (name, side) in zip(nodes, ends)]
        return pins, line.words[len(ends) + 1:]

    def transistor(self, line: Line, letter: str) -> Part:
        """Return a transistor; it is a box if its model is not defined."""
        names, kinds = TRANSISTORS[letter]
        words = [word for word in line.words[1:] if not PARAMETER.fullmatch(word) and word.lower() not in ("off", "ic")]
        while len(words) > len(names) and NUMBER.fullmatch(words[-1]) and self.circuit.model(words[-1]) is None:
            words.pop()  # areas and temperatures
        count = len(names) if letter == "m" or len(words) > len(names) else 3
        if len(words) <= count:
            raise Fault(f"{shown(line.words[0])} needs {count} nodes and a model", line.number)
        kind = kinds.get(self.circuit.model(words[count]) or "", Kind.BOX)
        if kind is Kind.BOX:
            self.found.notes.append(f"{line.words[0]}: a box, since the file does not say what the model"
                                    f" {shown(words[count])} is")
        sides = SIDES_REVERSED if kind in REVERSED else SIDES
        pins = [Pin(name, name, side, "passive", self.net(node)) for name, side, node in zip(names[:count], sides, words)]
        if letter == "m" and pins[3].net == pins[2].net:
            pins[2].number = f"{pins[2].number},{pins.pop().number}"
        parameters = [word for word in line.words if "=" in word] if letter == "m" else []
        return Part(line.words[0], value_of([words[count], *parameters]), kind, placed(pins))

    def instance(self, line: Line) -> Part:
        """Return a subcircuit as a box, whose pins have the names of its nodes if it is defined."""
        words = [word for word in line.words[1:] if not PARAMETER.fullmatch(word)]
        if len(words) < 2:
            raise Fault(f"{shown(line.words[0])} needs nodes and the name of a subcircuit", line.number)
        *nodes, name = words
        circuit = self.circuit.subcircuit(name)
        if circuit is None:
            self.found.notes.append(f"{line.words[0]}: its pins have no names, since the file does not define {shown(name)}")
        elif len(circuit.ports) != len(nodes):
            raise Fault(f"{shown(line.words[0])} has {len(nodes)} nodes, and {shown(name)} has {len(circuit.ports)}",
                        line.number)
        pins = [Pin(str(number), circuit.ports[number - 1] if circuit else "", 0, "unspecified", self.net(node))
                for number, node in enumerate(nodes, 1)]
        return Part(line.words[0], name, Kind.BOX, set_sides(pins, "", ""))


def ends_of(line: Line, letter: str) -> Ends:
    """Return the ends of a box: a source that is described by a formula has no control nodes, one by a polynomial has pairs."""
    word = line.words[3] if letter in "eg" and len(line.words) > 3 else ""
    match = POLYNOMIAL.fullmatch(word)
    if match:
        del line.words[3]
        return OUT + tuple((f"C{number}{sign}", WEST) for number in range(1, int(match[1]) + 1) for sign in "+-")
    return OUT if BEHAVIOUR.fullmatch(word) else BOXES.get(letter, OUT)


def value_of(words: Sequence[str]) -> str:
    """Return what is written beside a part: its first word, with the others if they are short."""
    text = " ".join(words)
    return text if len(text) <= LONGEST_VALUE else words[0][:LONGEST_VALUE]
