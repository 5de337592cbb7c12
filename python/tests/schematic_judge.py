#!/usr/bin/env python3
"""Judges a drawn schematic from its JSON and the file of the circuit: it shares no code with what reads and draws.

    python3 python/tests/schematic_judge.py DRAWING.json FILE FORM [INNER]

FORM is schematic, netlist, yosys or spice; INNER is the name of a sheet, module or subcircuit. The JSON is described in
`planarbend.schematics.drawn`. A drawing is right where

- the parts are those of the file, and wires, and flags with one text, join the pins that the file joins, and no others;
- each wire runs along the axes and ends at pins and junctions of its net; each connected pin has one wire, which leaves it
  outwards; a net's wires form a tree;
- no wire goes through a part, a text or the stub of a pin; no text is on another text or on a part that is not its own; parts
  do not overlap;
- two wires of different nets meet only where they cross at right angles, each inside a straight piece, and all crossings are
  told; wires of one net meet only at junctions;
- pins are on their sides and in their order, as the part is turned and mirrored.
"""
from __future__ import annotations

import collections
import json
import re
import sys
from collections.abc import Iterable, Iterator
from dataclasses import dataclass, field
from pathlib import Path
from typing import Any

from schematic_oracle import Groups, Truth, truth

SAME = 0.01  # pixels: points nearer than this are one
STEPS = ((1, 0), (0, -1), (-1, 0), (0, 1))  # of the directions, y growing to the south
FIXED = ("opamp", "gate", "mux")  # kinds of symbols of fixed size that are rectangles to the drawing
CAGES = (*FIXED, "dff", "box")
SYMMETRIC = ("and", "or", "xor", "nand", "nor", "xnor", "+", "\u00d7", "=", "\u2260", "===", "!==")
WIRE_GAP, BOX_GAP = 12.0, 18.0  # pixels, the least distances that are wanted
STRETCHED = 1.6  # times what it needs

Point = tuple[float, float]
Box = tuple[float, float, float, float]


@dataclass
class Verdict:
    """The faults of a drawing, and what was counted."""

    faults: list[str] = field(default_factory=list)
    counts: dict[str, float] = field(default_factory=dict)

    def need(self, is_right: object, fault: str) -> bool:
        """Notes a fault unless something is right."""
        if not is_right:
            self.faults.append(fault)
        return bool(is_right)


@dataclass(frozen=True)
class Piece:
    """A straight piece of a wire: its wire, its place there, its net, and its box, of which one side is 0."""

    wire: int
    place: int
    net: str
    box: Box

    @property
    def is_level(self) -> bool:
        return self.box[1] == self.box[3]


def judge(drawing: dict[str, Any], path: Path, form: str, inner: str | None = None) -> Verdict:
    """The verdict on a drawing of a file."""
    found, said = judge_alone(drawing), truth(path, form, inner)
    look_at_order(drawing, said, found)
    look_at_nets(drawing, said, found)
    return found


def judge_alone(drawing: dict[str, Any]) -> Verdict:
    """The verdict on a drawing without its file: whether it is consistent."""
    found = Verdict()
    pieces = list(pieces_of(drawing, found))
    look_at_wires(drawing, found)
    look_at_meetings(drawing, pieces, found)
    look_at_obstacles(drawing, pieces, found)
    look_at_boxes(drawing, found)
    look_at_pins(drawing, found)
    count(drawing, pieces, found)
    return found


def near(one: Iterable[float], other: Iterable[float]) -> bool:
    return all(abs(a - b) < SAME for a, b in zip(one, other))


def key(at: Iterable[float]) -> tuple[int, ...]:
    """A point as whole hundredths, so that points that are one have one key."""
    return tuple(round(number * 100) for number in at)


def pieces_of(drawing: dict[str, Any], found: Verdict) -> Iterator[Piece]:
    """The straight pieces of wires, after looking that they run along the axes and turn at each corner."""
    for number, wire in enumerate(drawing["wires"]):
        points = wire["points"]
        found.need(len(points) > 1, f"wire {number} has one point")
        before = None
        for place, ((a, b), (c, d)) in enumerate(zip(points, points[1:])):
            is_level = abs(b - d) < SAME
            found.need(is_level != (abs(a - c) < SAME), f"wire {number} is slanted, or has a piece without length, at {a, b}")
            found.need(is_level != before, f"wire {number} has a corner where it does not turn, at {a, b}")
            before = is_level
            box = (min(a, c), b, max(a, c), b) if is_level else (a, min(b, d), a, max(b, d))
            yield Piece(number, place, wire["net"], box)


def ends_of(drawing: dict[str, Any]) -> Iterator[tuple[int, str, Point, Point]]:
    """The ends of wires: the wire, its net, the end and the point next to it."""
    for number, wire in enumerate(drawing["wires"]):
        for points in (wire["points"], wire["points"][::-1]):
            yield number, wire["net"], tuple(points[0]), tuple(points[1])


def drawn_side(part: dict[str, Any], side: int) -> int:
    """The direction that a direction of the upright part has in the drawing."""
    if part["mirror"]:
        side = (4 - side) % 4 if part["over"] else (6 - side) % 4
    return (side + part["turn"]) % 4


def look_at_wires(drawing: dict[str, Any], found: Verdict) -> None:
    """Each wire ends at pins and junctions of its net, each pin has one wire that leaves it outwards, and a net is a tree."""
    at_pins = {(pin["net"], key(pin["at"])): (part, pin) for part in drawing["parts"] for pin in part["pins"] if pin["net"]}
    met: collections.Counter[tuple[str, tuple[int, ...]]] = collections.Counter()
    junctions = {(one["net"], key(one["at"])) for one in drawing["junctions"]}
    leaving = collections.defaultdict(set)
    for number, net, at, towards in ends_of(drawing):
        spot = net, key(at)
        met[spot] += 1
        direction = direction_of(at, towards)
        found.need(direction not in leaving[spot], f"two wires leave {at} in one direction")
        leaving[spot].add(direction)
        if spot in at_pins:
            part, pin = at_pins[spot]
            side = drawn_side(part, pin["side"])
            found.need(direction == side, f"the wire at {part['ref']} {pin['number']} leaves in the direction {direction}, not {side}")
        else:
            found.need(spot in junctions, f"wire {number} of {net} ends in the open at {at}")
    for spot, (part, pin) in at_pins.items():
        found.need(met[spot] == 1, f"{part['ref']} {pin['number']} has {met[spot]} wires")
    for spot in junctions:
        found.need(met[spot] == 3, f"{met[spot]} wires meet at the junction {spot}")
    look_at_trees(drawing, found)


def direction_of(at: Point, towards: Point) -> int | None:
    dx, dy = towards[0] - at[0], towards[1] - at[1]
    return next((place for place, (x, y) in enumerate(STEPS) if dx * x + dy * y > SAME and abs(dx * y) + abs(dy * x) < SAME), None)


def look_at_trees(drawing: dict[str, Any], found: Verdict) -> None:
    """The wires of each net form one tree."""
    joins = Groups()
    for number, wire in enumerate(drawing["wires"]):
        one, other = ((wire["net"], key(wire["points"][place])) for place in (0, -1))
        found.need(joins.top(one) != joins.top(other), f"wire {number} closes a ring of {wire['net']}")
        joins.join(one, other)
    tops = collections.defaultdict(set)
    for part in drawing["parts"]:
        for pin in part["pins"]:
            if pin["net"]:
                found.need(pin["net"] in drawing["nets"], f"{part['ref']} {pin['number']} has an unknown net")
                tops[pin["net"]].add(joins.top((pin["net"], key(pin["at"]))))
    for net, pieces in tops.items():
        found.need(len(pieces) == 1, f"the wires of {net} do not join its pins: {len(pieces)} pieces")
    for wire in drawing["wires"]:
        found.need(wire["net"] in tops, f"a wire of {wire['net']}, which has no pins")


def look_at_meetings(drawing: dict[str, Any], pieces: list[Piece], found: Verdict) -> None:
    """Where two pieces meet they cross inside both and are of two nets, or are of one net at a junction or a corner."""
    told = collections.Counter((key(one["at"]), frozenset(one["nets"])) for one in drawing["crossings"])
    seen: collections.Counter[Any] = collections.Counter()
    junctions = {(one["net"], key(one["at"])) for one in drawing["junctions"]}
    for one, other in meeting_pairs(pieces):
        at = (max(one.box[0], other.box[0]), max(one.box[1], other.box[1]))
        size = (min(one.box[2], other.box[2]) - at[0], min(one.box[3], other.box[3]) - at[1])
        if one.net != other.net:
            is_crossing = one.is_level != other.is_level and all(inside(at, piece) for piece in (one, other))
            if found.need(is_crossing, f"wires of {one.net} and {other.net} touch at {at}"):
                seen[key(at), frozenset((one.net, other.net))] += 1
            continue
        is_corner = one.wire == other.wire and abs(one.place - other.place) == 1
        is_point = max(size) < SAME
        is_end = all(not inside(at, piece) for piece in (one, other))
        found.need(is_point and is_end and (is_corner or (one.net, key(at)) in junctions), f"the net {one.net} meets itself at {at}")
    found.need(seen == told, f"crossings are {sorted(map(str, (seen - told)))} more and {sorted(map(str, (told - seen)))} fewer than told")
    found.counts["crossings"] = sum(seen.values())


def inside(at: Point, piece: Piece) -> bool:
    """Whether a point is inside a piece, not at its end."""
    left, top, right, bottom = piece.box
    return left + SAME < at[0] < right - SAME if piece.is_level else top + SAME < at[1] < bottom - SAME


def meeting_pairs(pieces: list[Piece]) -> Iterator[tuple[Piece, Piece]]:
    """The pairs of pieces that have a point in common."""
    order = sorted(pieces, key=lambda piece: piece.box[0])
    open_pieces: list[Piece] = []
    for piece in order:
        open_pieces = [one for one in open_pieces if one.box[2] >= piece.box[0] - SAME]
        for one in open_pieces:
            if one.box[1] <= piece.box[3] + SAME and piece.box[1] <= one.box[3] + SAME:
                yield one, piece
        open_pieces.append(piece)


def overlap(one: Box, other: Box) -> float:
    """How deep two boxes are in each other, negative if they are apart."""
    return min(min(one[2], other[2]) - max(one[0], other[0]), min(one[3], other[3]) - max(one[1], other[1]))


def touching(ones: list[tuple[Box, Any]], others: list[tuple[Box, Any]]) -> Iterator[tuple[Box, Any, Box, Any]]:
    """The pairs of a box of one list and one of the other that have points in common, with what the boxes are of."""
    events = sorted([(box[0], 0, place) for place, (box, _) in enumerate(ones)] + [(box[0], 1, place) for place, (box, _) in enumerate(others)])
    lists, open_boxes = (ones, others), ([], [])
    for left, which, place in events:
        box, name = lists[which][place]
        across = open_boxes[1 - which]
        across[:] = [entry for entry in across if entry[0][2] >= left]
        open_boxes[which].append((box, name))
        for other, second in across:
            if other[1] <= box[3] and box[1] <= other[3]:
                yield (box, name, other, second) if which == 0 else (other, second, box, name)


def pairs_of(boxes: list[tuple[Box, Any]]) -> Iterator[tuple[Box, Any, Box, Any]]:
    """The pairs of boxes of one list that have points in common, each pair once."""
    marked = [(box, (place, name)) for place, (box, name) in enumerate(boxes)]
    for box, (place, name), other, (at, second) in touching(marked, marked):
        if place < at:
            yield box, name, other, second


def look_at_obstacles(drawing: dict[str, Any], pieces: list[Piece], found: Verdict) -> None:
    """No wire goes through a part, a text or the stub of a pin."""
    obstacles = [(tuple(part["box"]), f"the part {part['ref']}") for part in drawing["parts"]]
    obstacles += [(tuple(text["box"]), f"the text {text['text']}") for text in drawing["texts"]]
    for stub in drawing["stubs"]:
        pin = drawing["parts"][stub["part"]]["pins"][stub["pin"]]
        (a, b), (c, d) = pin["at"], stub["to"]
        box = (min(a, c) - 1, min(b, d) - 1, max(a, c) + 1, max(b, d) + 1)
        obstacles.append((box, f"the stub of {drawing['parts'][stub['part']]['ref']}"))
        found.need(pin["net"] is None, "a stub at a pin that is connected")
    for box, piece, other, name in touching([(piece.box, piece) for piece in pieces], obstacles):
        if box[2] > other[0] + SAME and box[0] < other[2] - SAME and box[3] > other[1] + SAME and box[1] < other[3] - SAME:
            found.need(False, f"a wire of {piece.net} goes through {name} at {other}")


def look_at_boxes(drawing: dict[str, Any], found: Verdict) -> None:
    """Parts are apart; a text is on no other text, on no part but its own; all is inside the picture."""
    width, height = drawing["size"]
    boxes = [(tuple(part["box"]), (place, part["ref"])) for place, part in enumerate(drawing["parts"])]
    texts = [(tuple(text["box"]), (text["part"], text["text"])) for text in drawing["texts"]]
    wires = [((min(x for x, _ in points), min(y for _, y in points), max(x for x, _ in points), max(y for _, y in points)), (None, "a wire"))
             for points in (wire["points"] for wire in drawing["wires"])]
    for box, (_, name) in (*boxes, *texts, *wires):
        found.need(min(box[:2]) > -SAME and box[2] < width + SAME and box[3] < height + SAME, f"{name} is outside the picture")
    for one, first, other, second in pairs_of(boxes):
        found.need(overlap(one, other) < SAME, f"the parts {first[1]} and {second[1]} overlap")
    for one, first, other, second in pairs_of(texts):
        found.need(overlap(one, other) < SAME, f"the texts {first[1]} and {second[1]} overlap")
    for one, first, other, second in touching(texts, boxes):
        if first[0] != second[0]:
            found.need(overlap(one, other) < SAME, f"the text {first[1]} is on the part {second[1]}")
    cages = [tuple(part["box"]) for part in drawing["parts"] if part["kind"] in CAGES]
    wide = [((box[0] - BOX_GAP, box[1] - BOX_GAP, box[2], box[3]), box) for box in cages]
    found.counts["near_boxes"] = sum(overlap(one, other) > SAME - BOX_GAP for _, one, _, other in pairs_of(wide))


def look_at_pins(drawing: dict[str, Any], found: Verdict) -> None:
    """The pins are on their sides, in their order."""
    for part in drawing["parts"]:
        box = part["box"]
        runs: dict[int, list[Any]] = collections.defaultdict(list)
        sides = [pin["side"] for pin in part["pins"]]
        found.need(sides == sorted(sides), f"the pins of {part['ref']} are not listed side by side")
        for pin in part["pins"]:
            side = drawn_side(part, pin["side"])
            border = (box[2], box[1], box[0], box[3])[side]
            at = pin["at"][side % 2]
            along, low, high = pin["at"][1 - side % 2], box[1 - side % 2], box[3 - side % 2]
            is_on = abs(at - border) < SAME and low - SAME <= along <= high + SAME
            found.need(is_on, f"{part['ref']} {pin['number']} is not on its side {side}: {pin['at']} of {box}")
            runs[pin["side"]].append(pin)
        for side, pins in runs.items():
            x, y = STEPS[drawn_side(part, (side + 1) % 4)]
            places = [pin["at"][0] * x + pin["at"][1] * y for pin in pins]
            found.need(all(one < other - SAME for one, other in zip(places, places[1:])), f"the pins of {part['ref']} are out of order")


def named_parts(drawing: dict[str, Any]) -> Iterator[tuple[str, int, dict[str, Any]]]:
    """The parts that are not flags, with the names that they have in the truth."""
    seen: collections.Counter[str] = collections.Counter()
    for place, part in enumerate(drawing["parts"]):
        if not part["flag"]:
            seen[part["ref"]] += 1
            yield part["ref"] + (f"~{seen[part['ref']]}" if seen[part["ref"]] > 1 else ""), place, part


def look_at_order(drawing: dict[str, Any], said: Truth, found: Verdict) -> None:
    """The sides and the order of pins are those that the file gives, but for pins that may be exchanged."""
    for name, _, part in named_parts(drawing):
        wanted = said.sides.get(name)
        if wanted is None:
            continue
        first = {number: at for at, (number, _) in enumerate(wanted)}
        given = [(number, pin["side"]) for pin in part["pins"] for number in pin["number"].split(",")[:1]]
        kept = [entry for entry in wanted if entry[0] in {number for number, _ in given}]
        if part["kind"] == "gate" and part["form"] in SYMMETRIC:
            given.sort(key=lambda entry: (entry[1], 0 if entry[1] == 2 else first[entry[0]]))
            given = [entry if entry[1] != 2 else ("", 2) for entry in given]
            kept = [entry if entry[1] != 2 else ("", 2) for entry in kept]
        found.need(given == kept, f"the pins of {name} are {given}, in the file {kept}")


def look_at_nets(drawing: dict[str, Any], said: Truth, found: Verdict) -> None:
    """Wires, and flags with one text, join the pins that the file joins."""
    if said.modules:
        look_at_bits(drawing, said.modules[""], found)
        return
    joins, flags = joined(drawing, found)
    mine: dict[Any, Any] = {}
    for name, place, part in named_parts(drawing):
        for at, pin in enumerate(part["pins"]):
            for number in pin["number"].split(","):
                mine[name, number or pin["name"]] = joins.top((place, at)) if pin["net"] else None
    for entry in sorted(set(mine) ^ set(said.nets)):
        found.need(False, f"the pin {entry} is {'not in the file' if entry in mine else 'not drawn'}")
    drawn, given = collections.defaultdict(set), collections.defaultdict(set)
    for entry in set(mine) & set(said.nets):
        drawn[mine[entry]].add(entry)
        given[said.nets[entry]].add(entry)
        found.need((mine[entry] is None) == (said.nets[entry] is None), f"the pin {entry} is connected in one of drawing and file only")
    drawn.pop(None, None)
    given.pop(None, None)
    for members in drawn.values():
        nets = {str(said.nets[entry]) for entry in members}
        found.need(len(nets) == 1, f"drawn as one net, but not in the file: {sorted(members)[:9]}")
    for members in given.values():
        found.need(len({mine[entry] for entry in members}) == 1, f"one net in the file, but not drawn so: {sorted(members)[:9]}")
    look_at_texts(flags, mine, joins, said, found)


def joined(drawing: dict[str, Any], found: Verdict) -> tuple[Groups, list[tuple[str, Any]]]:
    """The pins that wires and equal texts of flags join; and the text of each flag with its pin."""
    joins, flags = Groups(), []
    for place, part in enumerate(drawing["parts"]):
        for at, pin in enumerate(part["pins"]):
            if pin["net"]:
                joins.join((place, at), ("net", pin["net"]))
    for place, part in enumerate(drawing["parts"]):
        if part["flag"] and part["kind"] != "const":
            texts = [text["text"] for text in drawing["texts"] if text["part"] == place and text["role"] == "net"]
            if found.need(texts or part["kind"] == "ground", f"the flag {part['ref']} has no text"):
                text = texts[0] if texts else "(ground)"
                joins.join((place, 0), ("text", text))
                flags.append((text, (place, 0)))
    return joins, flags


def look_at_texts(flags: list[Any], mine: dict[Any, Any], joins: Groups, said: Truth, found: Verdict) -> None:
    """A flag whose text is a name in the file is at that net."""
    owners = {name: net for net, names in said.names.items() for name in names}
    nets = {top: said.nets.get(entry) for entry, top in mine.items() if top is not None}
    for text, pin in flags:
        if text in owners:
            found.need(nets.get(joins.top(pin)) == owners[text], f"a flag {text} is at a net of another name")


def look_at_bits(drawing: dict[str, Any], module: dict[str, Any], found: Verdict) -> None:
    """Each port of a cell has the bits that the file gives it, through bundles of slices."""
    cells = {name for name, *_ in named_parts(drawing) if not name.startswith("bundle ")}
    found.need(cells == set(module["cells"]), "the parts are not the cells of the module")
    joins, _ = joined(drawing, found)
    drivers: dict[Any, Any] = {}
    sinks: list[tuple[Any, str, list[Any]]] = []
    for place, part in enumerate(drawing["parts"]):
        for at, pin in enumerate(part["pins"]):
            bits, is_driver = bits_of(part, pin, module)
            name = f"{part['ref']} {pin['number']}"
            if bits is None:
                continue
            if pin["net"] is None:
                found.need(is_driver or not [bit for bit in bits if isinstance(bit, int)], f"{name} is not connected")
            elif is_driver:
                drivers[joins.top((place, at))] = bits if isinstance(bits, list) else (part, place)
            else:
                sinks.append((joins.top((place, at)), name, bits))
    for net, name, bits in sinks:
        drivers.setdefault(net, bits)  # nothing drives it
    for net, name, bits in sinks:
        value = value_of(net, drivers, joins)
        found.need(value == bits, f"{name} has the bits {value}, in the file {bits}")


def bits_of(part: dict[str, Any], pin: dict[str, Any], module: dict[str, Any]) -> tuple[Any, bool]:
    """The bits of a pin, or something else that is not None if it is the output of a bundle; and whether it drives them."""
    if part["kind"] in ("input", "output"):
        return module["ports"][part["ref"]]["bits"], part["kind"] == "input"
    if part["flag"]:
        return (constant(part["value"]), True) if part["kind"] == "const" else (None, False)
    cell = module["cells"].get(part["ref"])
    if cell:
        return cell["connections"][pin["number"]], cell["port_directions"][pin["number"]] != "input"
    return (True, True) if pin["side"] == 0 else (None, False)


def value_of(net: Any, drivers: dict[Any, Any], joins: Groups) -> list[Any]:
    """The bits of a net: those of its driver, or of what a bundle puts together."""
    if net not in drivers:
        return []
    if isinstance(drivers[net], list):
        return drivers[net]
    part, place = drivers[net]
    found: dict[int, Any] = {}
    for at, pin in enumerate(part["pins"]):
        if pin["side"] == 2:
            high, _, low = pin["number"].partition(":")
            taken = re.search(r"\[(\d+)(?::(\d+))?\]", pin["name"])
            source = value_of(joins.top((place, at)), drivers, joins)
            if taken:
                source = source[int(taken[2] or taken[1]):int(taken[1]) + 1]
            found |= dict(zip(range(int(low or high), int(high) + 1), source))
    return [found.get(position) for position in range(max(found, default=-1) + 1)]


def constant(text: str) -> list[str]:
    """The bits of a constant of Verilog, the lowest first."""
    width, _, rest = text.partition("'")
    if not rest:
        return [text]
    base, digits = rest[0], rest[1:]
    if digits in ("x", "z"):
        return [digits] * int(width)
    if base != "b":
        digits = f"{int(digits, 10 if base == 'd' else 16):0{int(width)}b}"
    return list(reversed(digits))


def count(drawing: dict[str, Any], pieces: list[Piece], found: Verdict) -> None:
    """Counts bends, jogs, upright parts, stretched boxes and narrow gaps; looks at what the drawing tells of them."""
    corners = sum(len(wire["points"]) - 2 for wire in drawing["wires"])
    jogs = collections.Counter(one["into"] for one in drawing["jogs"])
    for one in drawing["jogs"]:
        look_at_jog(drawing, one, found)
    bends = corners - 2 * sum(jogs.values())
    found.need(bends == drawing["bends"], f"{drawing['bends']} bends are told, {bends} counted")
    parts = [part for part in drawing["parts"] if part["kind"] in CAGES and any(pin["net"] for pin in part["pins"])]
    upright = sum(part["turn"] == 0 or part["turn"] == 2 and is_connector(part) for part in parts)
    stretches = [stretch(drawing, place, part) for place, part in enumerate(drawing["parts"]) if part in parts and part["kind"] not in FIXED]
    flags = [part for part in drawing["parts"] if part["kind"] in ("ground", "supply")]
    found.counts |= {"bends": bends, "symbol_jogs": jogs["symbol"], "box_jogs": jogs["box"], "cages": len(parts), "upright": upright,
                     "stretched": sum(one > STRETCHED for one in stretches), "worst_stretch": round(max(stretches, default=1.0), 2),
                     "flags": len(flags), "upright_flags": sum(part["turn"] == 0 for part in flags),
                     "near_wires": near_wires(pieces)}


def look_at_jog(drawing: dict[str, Any], jog: dict[str, Any], found: Verdict) -> None:
    """A jog is two corners that turn to opposite sides, next to a pin of a part of its kind."""
    points = drawing["wires"][jog["wire"]]["points"]
    place = jog["corner"]
    if not found.need(0 < place < len(points) - 2, f"a jog that has no two corners on wire {jog['wire']}"):
        return
    steps = [direction_of(points[at], points[at + 1]) for at in (place - 1, place, place + 1)]
    found.need(None not in steps and steps[0] == steps[2], f"a jog on wire {jog['wire']} that is none")
    ends = [points[end] for end, is_next in ((0, place == 1), (-1, place == len(points) - 3)) if is_next]
    kinds = FIXED if jog["into"] == "symbol" else ("box", "dff")
    pins = [pin for part in drawing["parts"] if part["kind"] in kinds for pin in part["pins"]]
    found.need(any(near(pin["at"], end) for pin in pins for end in ends), f"a jog on wire {jog['wire']} is not beside its part")


def is_connector(part: dict[str, Any]) -> bool:
    """Whether a box has all of its several pins on one side."""
    return part["kind"] == "box" and len(part["pins"]) > 1 and len({pin["side"] for pin in part["pins"]}) == 1


def stretch(drawing: dict[str, Any], place: int, part: dict[str, Any]) -> float:
    """By how much a box is larger than it needs: pins 20 apart and 10 from corners, names inside, texts in the middle."""
    left, top, right, bottom = part["box"]
    counts = collections.Counter(drawn_side(part, pin["side"]) for pin in part["pins"])
    names = [0.0] * 4
    middle = [0.0, 0.0]
    for text in drawing["texts"]:
        if text["part"] != place or overlap(text["box"], part["box"]) < 0:
            continue
        a, b, c, d = text["box"]
        if text["role"] == "name":
            gaps = [right - c, b - top, a - left, bottom - d]
            side = gaps.index(min(gaps))
            names[side] = max(names[side], (d - b if side % 2 else c - a) + min(gaps))
        else:
            middle = [max(middle[0], c - a), middle[1] + d - b]
    rows, columns = max(counts[0], counts[2], 1) - 1, max(counts[1], counts[3], 1) - 1
    wide = max(20.0 + 20 * columns, names[0] + names[2] + middle[0] + 8)
    high = max(20 * rows + max(10.0, names[1] + 6) + max(10.0, names[3] + 6), names[1] + names[3] + middle[1] + 8)
    return max((right - left) / wide, (bottom - top) / high)


def near_wires(pieces: list[Piece]) -> int:
    """The number of pairs of parallel pieces of two nets that are side by side, nearer than is wanted."""
    found = 0
    for is_level in (True, False):
        along, across = (0, 1) if is_level else (1, 0)
        order = sorted((piece for piece in pieces if piece.is_level == is_level), key=lambda piece: piece.box[across])
        for place, one in enumerate(order):
            for other in order[place + 1:]:
                if other.box[across] - one.box[across] > WIRE_GAP - SAME:
                    break
                common = min(one.box[along + 2], other.box[along + 2]) - max(one.box[along], other.box[along])
                found += one.net != other.net and common > SAME
    return found


def main() -> int:
    drawing, path, form, *inner = sys.argv[1:]
    found = judge(json.loads(Path(drawing).read_text(encoding="utf-8")), Path(path), form, *inner)
    for fault in found.faults:
        print(fault)
    print(json.dumps({"faults": len(found.faults), **found.counts}))
    return 1 if found.faults else 0


if __name__ == "__main__":
    sys.exit(main())
