"""The kinds of parts, from what a file says about them: names, keywords, the letters of references, and pins.

Where that does not settle the kind, a part is a box.
"""
from __future__ import annotations

import re
from collections.abc import Sequence

from planarbend.schematics.parts import EAST, NORTH, SOUTH, TRANSISTORS, WEST, WISHES, Kind, Part, Pin

INPUTS, OUTPUTS = ("input",), ("output", "tri_state", "open_collector", "open_emitter")
POLARIZED = re.compile(r"(?i)\bCP(?:\d+|small)?\b|\bpolari[sz]ed|electrolytic|tantal")
UNPOLARIZED = re.compile(r"(?i)\b(?:un|non-?)polari[sz]ed")
LIGHT = re.compile(r"(?i)(?:\b|_)LED(?:\b|_)|light.emitting")
POTENTIOMETER = re.compile(r"(?i)pot|trim")
RESISTORS, CRYSTALS, SOURCES, POTS = {"R"}, {"Y", "X", "XTAL"}, {"V", "I", "VS", "IS"}, {"RV", "VR", "POT", "P", "R"}
NEGATIVE, POSITIVE = {"K", "C", "CATHODE", "KATHODE", "-"}, {"A", "ANODE", "+"}
BIPOLAR, FIELD = ("B", "C", "E"), ("G", "D", "S")
POLARITY = [(Kind.PNP, re.compile(r"(?i)(?<![a-z])PNP(?![a-z])")), (Kind.NPN, re.compile(r"(?i)(?<![a-z])NPN(?![a-z])")),
            (Kind.PMOS, re.compile(r"(?i)(?<![a-z])(?:P-?MOS|P-?MOSFET|PMOSFET|P-?channel|PCH)(?![a-z])")),
            (Kind.NMOS, re.compile(r"(?i)(?<![a-z])(?:N-?MOS|N-?MOSFET|NMOSFET|N-?channel|NCH)(?![a-z])"))]
JUNCTION = [(Kind.NJF, re.compile(r"(?i)(?<![a-z])N-?J-?FET|\bN-?channel\b.*\bJ-?FET")),
            (Kind.PJF, re.compile(r"(?i)(?<![a-z])P-?J-?FET|\bP-?channel\b.*\bJ-?FET"))]
IS_JUNCTION = re.compile(r"(?i)J-?FET|\bjunction")
DIODES = {Kind.DIODE: (("zener", re.compile(r"(?i)zener")), ("schottky", re.compile(r"(?i)schottky"))),
          Kind.TWO: (("tvs", re.compile(r"(?i)(?:\b|_)TVS(?:\b|_)|bidirectional|diac\b")),)}  # in both directions alike

# Gates by the numbers of the families 74 and 4000, and by words of descriptions.
GATES_74 = {"00": "nand", "01": "nand", "03": "nand", "10": "nand", "12": "nand", "20": "nand", "30": "nand", "37": "nand",
            "38": "nand", "132": "nand", "133": "nand", "02": "nor", "27": "nor", "28": "nor", "36": "nor", "04": "not",
            "05": "not", "06": "not", "14": "not", "07": "buffer", "17": "buffer", "34": "buffer", "125": "buffer",
            "126": "buffer", "08": "and", "09": "and", "11": "and", "15": "and", "21": "and", "32": "or", "86": "xor",
            "136": "xor", "266": "xnor"}
GATES_4000 = {"4001": "nor", "4002": "nor", "4025": "nor", "4011": "nand", "4012": "nand", "4023": "nand", "4093": "nand",
              "4030": "xor", "4070": "xor", "4077": "xnor", "4071": "or", "4072": "or", "4075": "or", "4073": "and",
              "4081": "and", "4082": "and", "4069": "not", "4049": "not", "4050": "buffer", "40106": "not"}
FAMILY_74 = re.compile(r"(?i)(?:SN|MC|CD|MM|DM|HD)?(?:74|54)(?:[A-Z]{0,4})(?:1G|2G|3G)?(\d{2,3})[A-Z]{0,4}")
FAMILY_4000 = re.compile(r"(?i)(?:CD|HEF|HCF|MC1|TC|MC)?(4\d{3}|40106)[A-Z]{0,4}")
GATE_WORDS = {"xnor": "xnor|exclusive.nor", "xor": "xor|exclusive.or", "nand": "nand", "nor": "nor", "and": "and", "or": "or",
              "not": "inverter", "buffer": "buffer"}
GATE_TEXT = re.compile(r"(?i)\b(?:\d-?input |single |dual |triple |quad |hex )+(?:schmitt[- ]trigger )?"
                       r"(?:positive[- ])?(exclusive.x?nor|exclusive.or|xnor|xor|nand|nor|and|or|inverter|buffer)\b")
MAY_BE_MIRRORED = TRANSISTORS | {Kind.POT, Kind.OPAMP, Kind.MUX}
SYMMETRIC = ("and", "or", "xor", "nand", "nor", "xnor")


def kind_of(words: str, prefix: str, pins: Sequence[Pin]) -> tuple[Kind, str]:
    """Return the kind of a part, and the form of a gate.

    Parameters
    ----------
    words : str
        The name of its library symbol, keywords and a description.
    prefix : str
        The letters of its reference.
    pins : sequence of Pin
        With sides.
    """
    sides = {pin.side for pin in pins}
    form = gate_of(words, pins)
    if form:
        return Kind.GATE, form
    if len(pins) == 2 and len(sides) == 2 and sum(sides) % 2 == 0:
        kind = of_two(words, prefix, pins)
        forms = DIODES.get(kind, ()) if prefix == "D" else ()
        return kind, next((form for form, pattern in forms if pattern.search(words)), "")
    if len(pins) == 3 and len(sides) == 3:
        found = transistor(words, pins)
        if found is None and prefix in POTS and POTENTIOMETER.search(words):
            found = Kind.POT
        if found is not None:
            return found, ""
    return (Kind.OPAMP if is_opamp(pins) else Kind.BOX), ""


def of_two(words: str, prefix: str, pins: Sequence[Pin]) -> Kind:
    """Return the kind of a part of two pins that are on opposite sides."""
    names = {pin.name.upper() for pin in pins}
    if prefix in RESISTORS:
        return Kind.RESISTOR
    if prefix == "C":
        is_polarized = names == {"+", "-"} or POLARIZED.search(UNPOLARIZED.sub("", words.replace("_", " ")))
        return Kind.POLARIZED if is_polarized else Kind.CAPACITOR
    if prefix == "L":
        return Kind.INDUCTOR
    if prefix in ("D", "LED") and len(names & NEGATIVE) == len(names & POSITIVE) == 1:
        return Kind.LED if prefix == "LED" or LIGHT.search(words) else Kind.DIODE
    if prefix in CRYSTALS:
        return Kind.CRYSTAL
    return Kind.SOURCE if prefix in SOURCES else Kind.TWO


def transistor(words: str, pins: Sequence[Pin]) -> Kind | None:
    """Return the kind of a transistor by the names of its pins and its polarity, or None if the two are not known."""
    names = sorted(pin.name.upper() for pin in pins)
    if names not in (sorted(BIPOLAR), sorted(FIELD)):
        return None
    middle = next(pin.side for pin in pins if pin.name.upper() in ("B", "G"))
    if any(pin.side == (middle + 2) % 4 for pin in pins):
        return None
    wanted = (Kind.NPN, Kind.PNP) if "B" in names else (Kind.NMOS, Kind.PMOS, Kind.NJF, Kind.PJF)
    patterns = JUNCTION if "G" in names and IS_JUNCTION.search(words) else POLARITY
    return next((kind for kind, pattern in patterns if kind in wanted and pattern.search(words)), None)


def polarity_note(part: Part) -> str | None:
    """Return the note on a part that is a box for want of its polarity, or None if it is not such a part."""
    names = sorted(pin.name.upper() for pin in part.pins)
    kinds = {tuple(BIPOLAR): "NPN or PNP", tuple(sorted(FIELD)): "n-channel or p-channel"}.get(tuple(names))
    if part.kind is Kind.TWO and re.fullmatch(r"D\d+", part.ref) and names == ["", ""]:
        return f"{part.ref}: the file does not say which pin is its cathode"
    if part.kind is not Kind.BOX or kinds is None:
        return None
    return f"{part.ref}: a box, since the file does not say whether it is {kinds}"


def is_opamp(pins: Sequence[Pin]) -> bool:
    """Return whether a part has the inputs + and - on its west side, one output on its east side, and at most one further pin
    on each of the other sides, for power."""
    west = [pin for pin in pins if pin.side == WEST]
    east = [pin for pin in pins if pin.side == EAST]
    others = [pin for pin in pins if pin.side in (NORTH, SOUTH)]
    return (sorted(pin.name for pin in west) == ["+", "-"] and all(pin.etype in INPUTS for pin in west) and len(east) == 1
            and east[0].etype in OUTPUTS and len(others) == len({pin.side for pin in others}))


def gate_of(words: str, pins: Sequence[Pin]) -> str:
    """Return the form of a gate, empty if the part is not known to be one: it has inputs on its west side, one output on its
    east side, and at most one further pin on each of the other sides."""
    west = [pin for pin in pins if pin.side == WEST]
    east = [pin for pin in pins if pin.side == EAST]
    others = [pin.side for pin in pins if pin.side in (NORTH, SOUTH)]
    if not west or len(east) != 1 or len(others) > len(set(others)) or east[0].etype not in OUTPUTS:
        return ""
    if any(pin.etype not in INPUTS or pin.shape != "line" for pin in west):
        return ""
    form = form_of(words)
    if (form in ("not", "buffer")) != (len(west) == 1):
        return ""
    is_inverted = east[0].shape == "inverted"
    return form if is_inverted == (form in ("not", "nand", "nor", "xnor")) else ""


def form_of(words: str) -> str:
    """Return the form of the gate that a library symbol's name, keywords and description name, or nothing."""
    name = words.split(" ", 1)[0]
    match = FAMILY_74.fullmatch(name)
    if match and match[1] in GATES_74:
        return GATES_74[match[1]]
    match = FAMILY_4000.fullmatch(name)
    if match and match[1] in GATES_4000:
        return GATES_4000[match[1]]
    match = GATE_TEXT.search(words)
    if match is None:
        return ""
    return next((form for form, pattern in GATE_WORDS.items() if re.fullmatch(f"(?i){pattern}", match[1])), "")


def finished(part: Part) -> Part:
    """Return a part after setting what follows from its kind and pins: whether it may be mirrored, equal inputs, its wish."""
    part.upright = WISHES.get(part.kind, 0.0)
    part.half = part.kind is Kind.LABEL or part.is_connector
    part.mirror = part.is_connector or part.kind in MAY_BE_MIRRORED
    if part.kind is Kind.GATE and part.form in SYMMETRIC:
        inputs = [place for place, pin in enumerate(part.pins) if pin.side == WEST]
        part.swaps = [inputs] if len(inputs) > 1 else []
    return part
