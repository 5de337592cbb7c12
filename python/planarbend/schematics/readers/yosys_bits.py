"""Joins the ports of cells by their bits: a net is the vector of bits that one port drives."""
from __future__ import annotations

import itertools
from collections.abc import Sequence
from dataclasses import dataclass

from planarbend.schematics.flags import flag, unused
from planarbend.schematics.parts import EAST, WEST, Kind, Net, Part, Pin, Sheet, ordered
from planarbend.schematics.readers.kinds import finished
from planarbend.schematics.readers.yosys_cells import Bit

LONGEST_BINARY = 4  # bits of a constant that is written bit by bit


@dataclass(frozen=True, slots=True)
class Slice:
    """Bits of a vector, from the place `start` in the vector that wants them: constants, or those of a net from `first` on."""

    start: int
    bits: tuple[Bit, ...]
    net: str | None = None
    first: int = 0

    @property
    def span(self) -> str:
        """Its places in the vector that wants it."""
        return span(self.start, len(self.bits))


def span(first: int, count: int) -> str:
    """Return the places of bits: `3:0`, or `3` for one."""
    return str(first) if count == 1 else f"{first + count - 1}:{first}"


class Vectors:
    """Nets by the bits that they carry; adds nets, bundles and constants to a sheet."""

    def __init__(self, sheet: Sheet, names: dict[tuple[Bit, ...], str]) -> None:
        """Return none; `names` are those that people gave to vectors."""
        self.sheet, self.names, self.given = sheet, names, frozenset(names.values())
        self.owners: dict[Bit, tuple[str, int]] = {}  # the net of each bit, and its place in there
        self.widths: dict[str, int] = {}
        self.bundles: dict[tuple[Bit, ...], str] = {}  # and the nets of those that were put together

    def net(self, bits: Sequence[Bit], made: str) -> str:
        """Return the key of a new net, whose name is that of its bits or, if they have none, one that is made."""
        name = self.names.get(tuple(bits))
        key = unused(self.sheet, name or made, () if name else self.given)
        self.sheet.nets[key] = Net(name or key, name is not None)
        return key

    def drive(self, pin: Pin, bits: Sequence[Bit], made: str) -> None:
        """Connect a pin that drives bits: a new net has them, unless one of them is driven already."""
        if any(isinstance(bit, str) or bit in self.owners for bit in bits) or len(set(bits)) < len(bits):
            self.sink(pin, bits, made)
        elif bits:
            pin.net = self.net(bits, made)
            self.own(bits, pin.net)

    def own(self, bits: Sequence[Bit], net: str) -> None:
        """Note that a net has these bits."""
        self.widths[net] = len(bits)
        for place, bit in enumerate(bits):
            self.owners[bit] = net, place

    def sink(self, pin: Pin, bits: Sequence[Bit], made: str) -> None:
        """Connect a pin that takes bits: to the net that has just these, to a constant, or to a bundle."""
        if not bits:
            return
        self.adopt(bits, made)
        slices = self.slices(bits)
        first = slices[0]
        if len(slices) == 1 and first.net is None:
            pin.net = self.constant(first.bits, made)
        elif len(slices) == 1 and len(first.bits) == self.widths[first.net or ""]:
            pin.net = first.net
        else:
            pin.net = self.bundles.get(tuple(bits)) or self.bundle(bits, slices, made)

    def adopt(self, bits: Sequence[Bit], made: str) -> None:
        """Give bits that nothing drives a net of their own, with a label."""
        for is_free, run in itertools.groupby(range(len(bits)), lambda place: self.is_free(bits[place])):
            places = list(run) if is_free else []
            free = list(dict.fromkeys(bits[place] for place in places))
            if free:
                net = self.net(free, made if len(free) == len(bits) else f"{made}[{span(places[0], len(places))}]")
                self.own(free, net)
                self.sheet.parts.append(flag(Kind.LABEL, self.sheet.nets[net].name, net))

    def is_free(self, bit: Bit) -> bool:
        """Return whether nothing drives a bit."""
        return isinstance(bit, int) and bit not in self.owners

    def slices(self, bits: Sequence[Bit]) -> list[Slice]:
        """Return a vector as the fewest slices of nets and constants, from its bit 0 on."""
        found: list[Slice] = []
        for place, bit in enumerate(bits):
            net, at = self.owners.get(bit, (None, 0)) if isinstance(bit, int) else (None, 0)
            last = found[-1] if found else None
            if last is not None and last.net == net and (net is None or last.first + len(last.bits) == at):
                found[-1] = Slice(last.start, (*last.bits, bit), net, last.first)
            else:
                found.append(Slice(place, (bit,), net, at))
        return found

    def constant(self, bits: Sequence[Bit], made: str) -> str:
        """Return the net of a new constant."""
        key = unused(self.sheet, made, self.given)
        text = constant_text("".join(map(str, reversed(bits))))
        self.sheet.nets[key] = Net(key, False)
        self.sheet.parts.append(flag(Kind.CONST, text, key))
        return key

    def bundle(self, bits: Sequence[Bit], slices: list[Slice], made: str) -> str:
        """Return the net of a new bundle, a box that takes slices on its west side and has the vector on its east side."""
        net = self.net(bits, made)
        pins = [(Pin("Y", "", EAST, "output", net), 0, 0)]
        for number, one in enumerate(reversed(slices)):
            is_part = one.net is not None and len(one.bits) < self.widths[one.net]
            taken = f"[{span(one.first, len(one.bits))}]" if is_part else ""
            name = taken if len(slices) == 1 else f"{one.span} {taken}".strip()
            source = one.net or self.constant(one.bits, f"{made}[{one.span}]")
            pins.append((Pin(one.span, name, WEST, "input", source), 0, -number))
        self.bundles[tuple(bits)] = net
        self.sheet.parts.append(finished(Part(f"bundle {net}", "", Kind.BOX, ordered(pins), is_named=False)))
        return net


def constant_text(digits: str) -> str:
    """Return a constant as Verilog writes it, from its binary digits."""
    width = len(digits)
    if width == 1:
        return digits
    if digits in ("x" * width, "z" * width):
        return f"{width}'b{digits[0]}"
    if width <= LONGEST_BINARY or not digits.strip("01") == "":
        return f"{width}'b{digits}"
    value = int(digits, 2)
    return f"{width}'d{value}" if value < 1 << 16 else f"{width}'h{value:x}"
