"""Wirings of a sheet with few crossings: several starts, of which the best are kept.

Parts that hang on a single net, such as flags, never cause a crossing: they are put in last, one after another.
"""
from __future__ import annotations

import random
from collections.abc import Sequence

from planarbend.drawing.linked import NONE
from planarbend.graph import Partition
from planarbend.schematics.parts import Sheet
from planarbend.schematics.routing import Routing
from planarbend.schematics.wiring import Wiring

STARTS = 40  # first wirings, for each unit of effort
LEAST_STARTS = 12
PATIENCE = 4  # consecutive rounds without success after which a wiring is left as it is
WORK = 1_600_000  # darts to pass for each unit of effort (about one second), after which no further start is made
MOST_KEPT = 10


def components(sheet: Sheet) -> list[list[int]]:
    """Return the parts of each connected component, the largest first."""
    parts = Partition(len(sheet.parts))
    for ends in sheet.ends().values():
        for part, _ in ends:
            parts.unite(ends[0][0], part)
    members: dict[int, list[int]] = {}
    for part in range(len(sheet.parts)):
        members.setdefault(parts.find(part), []).append(part)
    return sorted(members.values(), key=lambda one: (-len(one), one))


def part_of_sheet(sheet: Sheet, parts: Sequence[int]) -> Sheet:
    """Return the sheet of some parts, in this order, with the nets that they have."""
    found = [sheet.parts[part] for part in parts]
    keys = dict.fromkeys(pin.net for part in found for pin in part.pins if pin.net is not None)
    return Sheet(sheet.name, found, {key: sheet.nets[key] for key in keys})


def hanging(wiring: Wiring) -> list[int]:
    """Return the parts to put in last, in this order, which adds no crossing: each has at most one net that it shares with
    those before it, or that joins several of its own pins."""
    at = [{wiring.part_of[pin] for pin in pins} for pins in wiring.nets]
    nets = [[wiring.net_of[pin] for pin in pins if wiring.net_of[pin] != NONE] for pins in wiring.pins_of]
    found: list[int] = []
    waiting = list(range(wiring.vertex_count))[::-1]
    is_out = [False] * wiring.vertex_count
    while waiting:
        part = waiting.pop()
        tied = {net for net in nets[part] if len(at[net]) > 1 or nets[part].count(net) > 1}
        if is_out[part] or len(tied) > 1:
            continue
        is_out[part] = True
        found.append(part)
        for net in sorted(set(nets[part])):
            at[net].remove(part)
            waiting += sorted(at[net]) if len(at[net]) == 1 else ()
    return found[::-1]


def wirings_of(sheet: Sheet, seed: int = 0, effort: int = 1) -> list[Routing]:
    """Return different wirings of a connected sheet with equally few crossings, at most `MOST_KEPT`, in order of discovery.

    The same arguments give the same result.
    """
    first = Wiring(sheet)
    last = hanging(first)
    inner = sorted(set(range(first.vertex_count)) - set(last))
    kept: list[Routing] = []
    work = 0
    for number in range(STARTS * max(effort, 1)):
        search = Routing(Wiring(sheet) if number else first, random.Random(f"{seed} {number}"))
        search.put_all(inner)
        search.improve(PATIENCE, WORK * effort)
        work += search.work
        if kept and search.embedding.crossings < kept[0].embedding.crossings:
            kept = []
        if not kept or search.embedding.crossings == kept[0].embedding.crossings and len(kept) < MOST_KEPT:
            kept.append(search)
        enough = len(kept) >= MOST_KEPT and not kept[0].embedding.crossings
        if enough or work > WORK * effort and number + 1 >= LEAST_STARTS:
            break
    found: dict[object, Routing] = {}
    for search in kept:
        for part in last:
            search.put_part(part)
        found.setdefault(order_of(search.embedding), search)
    return list(found.values())


def order_of(wiring: Wiring) -> tuple[object, ...]:
    """Return what two wirings have in common if they are the same but for numbers of pieces: for each pin the next one along
    its face, and how parts are put."""
    found = []
    for dart in wiring.dart_of:
        if dart != NONE:
            while wiring.pin_at[dart ^ 1] == NONE:
                dart = wiring.onward[dart]
            dart = wiring.pin_at[dart ^ 1]
        found.append(dart)
    return tuple(found), tuple(wiring.is_mirrored), tuple(tuple(places) for places in wiring.places)
