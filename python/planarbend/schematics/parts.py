"""A sheet of a circuit: parts with pins, and the nets that join the pins.

Directions are counted in quarter turns, counter-clockwise as seen: 0 east, 1 north, 2 west, 3 south.
"""
from __future__ import annotations

import dataclasses
import enum
from collections.abc import Sequence
from dataclasses import dataclass, field

EAST, NORTH, WEST, SOUTH = range(4)


class Kind(enum.Enum):
    """The kind of a part, which determines its symbol."""

    RESISTOR = "resistor"
    CAPACITOR = "capacitor"
    POLARIZED = "polarized"  # a capacitor
    INDUCTOR = "inductor"
    DIODE = "diode"
    LED = "led"
    CRYSTAL = "crystal"
    SOURCE = "source"
    TWO = "two"  # any other part of two pins
    POT = "pot"
    NPN = "npn"
    PNP = "pnp"
    NMOS = "nmos"
    PMOS = "pmos"
    NJF = "njf"
    PJF = "pjf"
    OPAMP = "opamp"
    GATE = "gate"
    MUX = "mux"
    DFF = "dff"
    BOX = "box"
    GROUND = "ground"  # this and all that follow are flags, which have one pin
    SUPPLY = "supply"
    LABEL = "label"
    INPUT = "input"
    OUTPUT = "output"
    CONST = "const"


FLAGS = frozenset({Kind.GROUND, Kind.SUPPLY, Kind.LABEL, Kind.INPUT, Kind.OUTPUT, Kind.CONST})
CAGES = frozenset({Kind.BOX, Kind.OPAMP, Kind.GATE, Kind.MUX, Kind.DFF})
TURNED_OVER = frozenset({Kind.OPAMP, Kind.GATE, Kind.MUX})  # kinds whose mirror image has its upper and lower side exchanged
TWO_PINS = frozenset({Kind.RESISTOR, Kind.CAPACITOR, Kind.POLARIZED, Kind.INDUCTOR, Kind.DIODE, Kind.LED, Kind.CRYSTAL,
                      Kind.SOURCE, Kind.TWO})
TRANSISTORS = frozenset({Kind.NPN, Kind.PNP, Kind.NMOS, Kind.PMOS, Kind.NJF, Kind.PJF})
WISHES = {**dict.fromkeys(CAGES, 20.0), **dict.fromkeys(TRANSISTORS, 1.6), Kind.GROUND: 1.2, Kind.SUPPLY: 1.2,
          Kind.INPUT: 1.0, Kind.OUTPUT: 1.0, Kind.CONST: 1.0, Kind.LABEL: 0.3}  # in bends, for each quarter turn


@dataclass(slots=True)
class Pin:
    """A pin of a part.

    Attributes
    ----------
    number : str
        As in the file; pins that the file draws on one point are one pin with their numbers and commas between.
    name : str
        Empty if the file gives none.
    side : int
        The direction in which it leaves the upright, unmirrored part.
    etype : str
        KiCad's words: input, output, bidirectional, tri_state, passive, power_in, power_out, open_collector, open_emitter,
        free, unspecified, no_connect.
    net : str or None
        The key of its net in the sheet; None if it is not connected (it is drawn as a stub with a cross).
    shape : str
        KiCad's words: line, inverted, clock, inverted_clock and so on.
    """

    number: str
    name: str
    side: int
    etype: str = "passive"
    net: str | None = None
    shape: str = "line"


@dataclass(slots=True)
class Part:
    """A part, upright and not mirrored.

    Attributes
    ----------
    ref : str
        Its reference, with the letter of its unit if it has several (`U3A`); of a flag, the name of its net.
    value : str
        What is written beside it; of a flag, its text.
    kind : Kind
    pins : list of Pin
        Counter-clockwise: those of the east side upwards, the north side leftwards, the west side downwards, the south side
        rightwards.
    mirror : bool
        Whether it may be mirrored (see `mirrored`).
    swaps : list of list of int
        Sets of pins that may be exchanged, by their places in `pins`.
    upright : float
        What each quarter turn away from `want` costs, in bends.
    want : int
        By how many quarter turns it is to be turned.
    half : bool
        Whether it is upright also after a half turn.
    form : str
        Of a gate: and, or, xor, nand, nor, xnor, not or buffer; of a source: voltage or current, after "controlled" if it is;
        of a diode: zener or schottky; of another part of two pins: tvs; of a box, a text for its middle (`+`); else empty.
    is_named : bool
        Whether `ref` is written beside it: false if the file has no name for it that a person gave.
    """

    ref: str
    value: str
    kind: Kind
    pins: list[Pin]
    mirror: bool = False
    swaps: list[list[int]] = field(default_factory=list)
    upright: float = 0.0
    want: int = 0
    half: bool = False
    form: str = ""
    is_named: bool = True

    @property
    def is_flag(self) -> bool:
        """Whether it shows that a net goes on elsewhere: it has one pin."""
        return self.kind in FLAGS

    @property
    def is_cage(self) -> bool:
        """Whether it is a rectangle that has room for its pins; else it is a point, with at most one pin on each side."""
        return self.kind in CAGES or len({pin.side for pin in self.pins}) < len(self.pins)

    @property
    def is_connector(self) -> bool:
        """Whether it is a box with all of its pins on one side."""
        return self.kind is Kind.BOX and len(self.pins) > 1 and len({pin.side for pin in self.pins}) == 1


@dataclass(slots=True)
class Net:
    """A net: `name` is its name in the file, `is_shown` whether a person gave it that name.

    If a net was split into flags, `name` is that of the whole, and each piece is a net of its own.
    """

    name: str
    is_shown: bool = True
    is_power: bool = False


@dataclass(slots=True)
class Sheet:
    """Parts, and nets by the keys that pins have; `notes` says what could not be drawn as a symbol, and why."""

    name: str
    parts: list[Part] = field(default_factory=list)
    nets: dict[str, Net] = field(default_factory=dict)
    notes: list[str] = field(default_factory=list)

    def ends(self) -> dict[str, list[tuple[int, int]]]:
        """Return the pins of each net: places in `parts`, and in the part's `pins`, in order."""
        found: dict[str, list[tuple[int, int]]] = {key: [] for key in self.nets}
        for place, part in enumerate(self.parts):
            for at, pin in enumerate(part.pins):
                if pin.net is not None:
                    found[pin.net].append((place, at))
        return found


def mirrored(part: Part) -> Part:
    """Return a part mirrored: the order of its pins is reversed, and west and east are exchanged, or, of op-amps, gates and
    multiplexers, north and south. It is the mirror image also of a mirrored part."""
    side = (EAST, SOUTH, WEST, NORTH) if part.kind in TURNED_OVER else (WEST, NORTH, EAST, SOUTH)
    order = sorted(range(len(part.pins)), key=lambda place: (side[part.pins[place].side], -place))
    pins = [dataclasses.replace(part.pins[place], side=side[part.pins[place].side]) for place in order]
    moved = {place: at for at, place in enumerate(order)}
    return dataclasses.replace(part, pins=pins, swaps=[sorted(moved[place] for place in one) for one in part.swaps])


def ordered(pins: Sequence[tuple[Pin, float, float]]) -> list[Pin]:
    """Return pins in the order that `Part.pins` wants, from their places: x to the east, y to the north."""
    def key(one: tuple[Pin, float, float]) -> tuple[int, float]:
        """Return the side of a pin, and how far it is along the side."""
        pin, x, y = one
        return pin.side, (y, -x, -y, x)[pin.side]

    return [pin for pin, *_ in sorted(pins, key=key)]
