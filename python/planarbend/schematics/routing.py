"""Few crossings in the wiring of a sheet: runs and parts are taken out and put back where they cross least.

A run goes back along a shortest path of the dual graph, between any places of the two trees that it joins. A part goes back
into a face from which the sum of such paths to its nets is least. Where several places are equally good, one is chosen at
random, which lets the wiring drift.
"""
from __future__ import annotations

import random
from collections.abc import Sequence

from planarbend.drawing.dual import FAR, DualPaths, one_of
from planarbend.drawing.linked import NONE
from planarbend.schematics.wiring import Wiring

End = tuple[int, bool]  # what a run is to join: a pin, or a dart of a tree; whether it is a pin


class Routing(DualPaths):
    """A search for a wiring with few crossings.

    Attributes
    ----------
    embedding : Wiring
        It is edited.
    is_placed : list of bool
        For each part whether it is in the wiring: its pins are wired with those of the other parts that are.
    """

    embedding: Wiring

    def __init__(self, wiring: Wiring, dice: random.Random) -> None:
        """Return a search that begins with no part placed."""
        super().__init__(wiring, [1] * len(wiring.nets), dice)
        self.is_placed = [False] * wiring.vertex_count

    # Runs

    def _faces(self, end: End) -> list[int]:
        """Return the faces in which a run can begin; none if its part has no wire."""
        wiring = self.embedding
        if end[1]:
            corner = wiring.corner_of(end[0])
            return [wiring.face[corner]] if corner != NONE else []
        return sorted({wiring.face[dart] for dart in wiring.tree(end[0])})

    def _chosen(self, end: End, face: int) -> int:
        """Return where a run begins in a face: the pin, or a dart of the tree. The face is `NONE` if any will do."""
        if end[1]:
            return end[0]
        wiring = self.embedding
        return one_of([dart for dart in wiring.tree(end[0]) if face in (wiring.face[dart], NONE)], self.dice)

    def connect(self, one: End, other: End) -> None:
        """Add a run that crosses as little as is possible."""
        sources, goals = self._faces(one), self._faces(other)
        crossed: list[int] = []
        start = goal = NONE
        if sources and goals:
            distance, _ = self.distances_from(sources, goals)
            least = min(map(distance.__getitem__, goals))
            if least < FAR:  # not in two connected parts
                goal = one_of([face for face in goals if distance[face] == least], self.dice)
                crossed = self.path(distance, goal)
                start = self.embedding.face[crossed[0]] if crossed else goal
        self.embedding.join(self._chosen(one, start), crossed, self._chosen(other, goal), (one[1], other[1]))

    def move_run(self, dart: int) -> None:
        """Remove the run that a dart begins, and put it back."""
        self.connect(*self.embedding.remove(dart))

    # Parts

    def _target(self, pin: int) -> End | None:
        """Return what a pin is to be joined with: the tree of its net, or a pin, or nothing yet."""
        wiring, part = self.embedding, self.embedding.part_of
        others = [other for other in wiring.nets[wiring.net_of[pin]] if other != pin]
        for other in others:
            if wiring.dart_of[other] != NONE:
                return wiring.dart_of[other], False
        placed = [other for other in others if self.is_placed[part[other]]]
        placed.sort(key=lambda other: part[other] == part[pin])  # a pin of the part itself if there is no other
        return (placed[0], True) if placed else None

    def _wanted(self, part: int) -> list[int]:
        """Return the pins of a part that are in a net and not wired."""
        wiring = self.embedding
        return [pin for pin in wiring.pins_of[part] if wiring.net_of[pin] != NONE and wiring.dart_of[pin] == NONE]

    def put_part(self, part: int) -> None:
        """Insert a part where it crosses least."""
        wiring = self.embedding
        distance: dict[int, list[int]] = {}  # of each net, from each face
        targets: dict[int, End] = {}
        for pin in self._wanted(part):
            net = wiring.net_of[pin]
            target = self._target(pin)
            if target is not None and net not in distance:
                faces = self._faces(target)
                if faces:
                    distance[net] = self.distances_from(faces)[0]
                    targets[pin] = target
        self.is_placed[part] = True
        order = self._wanted(part)
        self.dice.shuffle(order)
        if distance:
            totals = [sum(column) for column in zip(*distance.values())]
            least = min(totals)
            face = one_of([place for place, total in enumerate(totals) if total == least], self.dice)
            first = min(targets, key=lambda pin: (distance[wiring.net_of[pin]][face], order.index(pin)))
            self._put_first(first, targets[first], distance[wiring.net_of[first]], face)
            nearest = {net: found[face] for net, found in distance.items()}
            order.sort(key=lambda pin: nearest.get(wiring.net_of[pin], FAR))
        for pin in order:
            target = self._target(pin)
            if wiring.dart_of[pin] == NONE and target is not None:
                self.connect((pin, True), target)

    def _put_first(self, pin: int, target: End, distance: list[int], face: int) -> None:
        """Join the first pin of a part, which goes into a face, with its net, by the distances from the net."""
        crossed = self.path(distance, face)
        start = self.embedding.face[crossed[0]] if crossed else face
        self.embedding.join(self._chosen(target, start), crossed, pin, (target[1], True))

    def take_part(self, part: int) -> None:
        """Remove the runs of a part."""
        wiring = self.embedding
        for pin in wiring.pins_of[part]:
            if wiring.dart_of[pin] != NONE:
                wiring.remove(wiring.dart_of[pin])
        self.is_placed[part] = False

    def turn_over(self, part: int) -> None:
        """Put a part, which has no wires, in another way, at random: mirrored, or with two pins exchanged."""
        wiring, dice = self.embedding, self.dice
        what, places = wiring.sheet.parts[part], list(wiring.places[part])
        is_mirrored = wiring.is_mirrored[part] ^ (what.mirror and dice.random() < 0.5)
        for group in what.swaps:
            if len(group) > 1 and dice.random() < 0.5:
                one, other = dice.sample(group, 2)
                places[one], places[other] = places[other], places[one]
        wiring.put_as(part, is_mirrored, places)

    def move_part(self, part: int) -> None:
        """Remove a part and put it back, perhaps in another way; undo this if it adds crossings."""
        wiring = self.embedding
        before, state = wiring.crossings, wiring.state()
        way = wiring.is_mirrored[part], wiring.places[part]
        self.take_part(part)
        what = wiring.sheet.parts[part]
        if what.mirror or what.swaps:
            self.turn_over(part)
        self.put_part(part)
        if wiring.crossings > before:
            wiring.restore(state)
            wiring.put_as(part, *way)

    # The whole

    def put_all(self, parts: Sequence[int]) -> None:
        """Insert parts, each time one with the most nets in common with those before, then with the most pins in nets."""
        wiring, chance = self.embedding, self.dice.random
        rank = {part: [0, len(self._wanted(part))] for part in parts}
        is_met = [False] * len(wiring.nets)
        while rank:
            most = max(rank.values())
            part = one_of([part for part, other in rank.items() if other == most], self.dice)
            del rank[part]
            self.put_part(part)
            for pin in wiring.pins_of[part]:
                net = wiring.net_of[pin]
                if net != NONE and not is_met[net]:
                    is_met[net] = True
                    for other in wiring.nets[net]:
                        if wiring.part_of[other] in rank:
                            rank[wiring.part_of[other]][0] += 1

    def improve(self, patience: int, most_work: int) -> None:
        """Move all runs and parts in random order, repeatedly.

        This ends after as many consecutive rounds as `patience` that save no crossing, or with a move after which `work` is
        above `most_work`.
        """
        wiring, vain = self.embedding, 0
        parts = [part for part, placed in enumerate(self.is_placed) if placed]
        while vain < patience and wiring.crossings and self.work <= most_work:
            before = wiring.crossings
            self._move_runs(most_work)
            self.dice.shuffle(parts)
            for part in parts:
                if self.work <= most_work:
                    self.move_part(part)
            vain = vain + 1 if wiring.crossings == before else 0

    def _move_runs(self, most_work: int) -> None:
        """Move all runs in random order."""
        wiring = self.embedding
        pieces = [piece for piece, net in enumerate(wiring.edge) if net != NONE]
        self.dice.shuffle(pieces)
        for piece in pieces:
            if wiring.edge[piece] != NONE and self.work <= most_work:
                dart = 2 * piece
                if wiring.pin_at[dart] != NONE or wiring.is_junction(wiring.origin[dart]):
                    self.move_run(dart)
                elif wiring.pin_at[dart ^ 1] != NONE or wiring.is_junction(wiring.origin[dart ^ 1]):
                    self.move_run(dart ^ 1)
