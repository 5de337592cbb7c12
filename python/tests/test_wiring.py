"""Wirings are those of their sheets, with pins in order and few crossings; directions cost least; the core gets their shape."""
from __future__ import annotations

import functools
import importlib.util
import os
import random
import subprocess
import sys
import unittest
from unittest import mock

import support
from sheets import random_sheet

has_scipy = importlib.util.find_spec("scipy") is not None
needs_scipy = unittest.skipUnless(has_scipy, "SciPy is missing (Debian: python3-scipy)")

from planarbend.drawing.linked import NONE
from planarbend.schematics.parts import EAST, NORTH, SOUTH, WEST, Kind, Net, Part, Pin, Sheet, mirrored
from planarbend.schematics.routing import Routing
from planarbend.schematics.wiring import Wiring, pose
from planarbend.schematics.wirings import components, hanging, part_of_sheet, wirings_of
from oracle import Plane

if has_scipy:
    import numpy
    from planarbend.schematics.circulation import Case, Program, Solution, changed, solve
    from planarbend.schematics.directions import Directed, climbed, directed, freely, wished
    from planarbend.schematics.plane import OtherBends, PlaneGraph, TooLarge, plane_graph
    from planarbend.schematics.turning import Turning, Wish
    from scipy.optimize import Bounds, LinearConstraint, linprog, milp

COUNT = 12  # parts of a random sheet
PRINTED = """
import sys
sys.path[:0] = sys.argv[1:]
from sheets import random_sheet
from planarbend.schematics import wirings
from planarbend.schematics.wirings import components, part_of_sheet, wirings_of
wirings.WORK = 150_000
sheet = random_sheet(3, 14)
for one in wirings_of(part_of_sheet(sheet, components(sheet)[0]), seed=5):
    wiring = one.embedding
    print(wiring.crossings, wiring.origin, wiring.onward, wiring.edge, wiring.dart_of, wiring.is_mirrored, wiring.places)
"""


def setUpModule() -> None:
    """Search for as short a time as is enough for these sheets."""
    for name, value in (("WORK", 150_000), ("LEAST_STARTS", 4)):
        patch = mock.patch(f"planarbend.schematics.wirings.{name}", value)
        patch.start()
        unittest.addModuleCleanup(patch.stop)


def box(ref: str, sides: list[int], nets: list[str], **more) -> Part:
    """A box with pins on these sides, in these nets."""
    return Part(ref, "", more.pop("kind", Kind.BOX), [Pin(str(place), "", side, net=net or None)
                                                     for place, (side, net) in enumerate(zip(sides, nets))], **more)


def sheet_of(*parts: Part) -> Sheet:
    """The sheet of some parts."""
    keys = dict.fromkeys(pin.net for part in parts for pin in part.pins if pin.net)
    return Sheet("", list(parts), {key: Net(key) for key in keys})


def largest(seed: int, count: int) -> Sheet:
    """The largest component of a random sheet."""
    sheet = random_sheet(seed, count)
    return part_of_sheet(sheet, components(sheet)[0])


@functools.cache
def turnings_of(seed: int, count: int) -> tuple[Turning, ...]:
    """The wirings of the largest component of a random sheet, which tests share."""
    return tuple(Turning(one.embedding) for one in wirings_of(largest(seed, count)))


@functools.cache
def plane_of(seed: int) -> PlaneGraph:
    """The plane graph of a random sheet, which tests share."""
    return plane_graph(directed(turnings_of(seed, COUNT)))


def faces_of(wiring: Wiring) -> list[list[int]]:
    """The darts along each face, by what follows each dart."""
    found, met = [], set()
    for first in range(len(wiring.origin)):
        if wiring.face[first] == NONE or first in met:
            continue
        found.append([])
        dart = first
        while dart not in met:
            met.add(dart)
            found[-1].append(dart)
            dart = wiring.onward[dart]
    return found


def rotation_of(wiring: Wiring) -> dict[int, list[int]]:
    """For each vertex its darts, counter-clockwise, by what precedes each dart along its face."""
    found: dict[int, list[int]] = {}
    for dart, vertex in enumerate(wiring.origin):
        if wiring.face[dart] != NONE and vertex not in found:
            around = [dart]
            while (dart := wiring.back[dart] ^ 1) != around[0]:
                around.append(dart)
            found[vertex] = around
    return found


class Read:
    """What a wiring joins and crosses, read from its darts alone."""

    def __init__(self, wiring: Wiring) -> None:
        self.rotation = rotation_of(wiring)
        self.crossings, joined = 0, {}
        for vertex, darts in self.rotation.items():
            if vertex < wiring.vertex_count:
                continue
            groups = [darts] if len(darts) == 3 else [darts[::2], darts[1::2]]
            self.crossings += len(darts) == 4
            for group in groups:
                for one in group:
                    joined.setdefault(one, set()).update(group)
        self.nets, met = [], set()
        pins = {dart: pin for pin, dart in enumerate(wiring.dart_of) if dart != NONE}
        self.is_tree = True
        for first in pins:
            if first in met:
                continue
            found, waiting, pieces, places = set(), [first], set(), set()
            while waiting:
                dart = waiting.pop()
                if dart in met:
                    continue
                met.add(dart)
                pieces.add(dart >> 1)
                places.add(min(joined.get(dart, {dart})))
                waiting += [dart ^ 1, *joined.get(dart, ())]
                if dart in pins:
                    found.add(pins[dart])
            self.nets.append(frozenset(found))
            self.is_tree &= len(places) == len(pieces) + 1


class Planarizations(unittest.TestCase):
    """The wires join what the sheet joins."""

    def check(self, wiring: Wiring) -> None:
        """Check links, faces, the pins' order, the nets and the number of crossings."""
        darts = [dart for dart in range(len(wiring.origin)) if wiring.face[dart] != NONE]
        for dart in darts:
            self.assertEqual(wiring.back[wiring.onward[dart]], dart)
            self.assertEqual(wiring.origin[wiring.onward[dart]], wiring.origin[dart ^ 1])
        faces, read = faces_of(wiring), Read(wiring)
        for walk in faces:
            self.assertEqual(len({wiring.face[dart] for dart in walk}), 1)
            self.assertIn(wiring.corner[wiring.face[walk[0]]], walk)
        self.assertEqual(len(faces), sum(dart != NONE for dart in wiring.corner))
        parts = {vertex: {vertex} for vertex in read.rotation}
        for dart in darts[::2]:
            one, other = parts[wiring.origin[dart]], parts[wiring.origin[dart ^ 1]]
            if one is not other:
                one |= other
                parts |= dict.fromkeys(other, one)
        pieces = len({id(one) for one in parts.values()})
        self.assertEqual(len(read.rotation) - len(darts) // 2 + len(faces), 2 * pieces)  # Euler's formula of each
        self.assertEqual(read.crossings, wiring.crossings)
        self.assertTrue(read.is_tree)
        for part in range(wiring.vertex_count):
            self.check_order(wiring, part, read.rotation.get(part, []))

    def check_order(self, wiring: Wiring, part: int, darts: list[int]) -> None:
        """Check that wires leave a part in the order of its pins, as it is put."""
        at = {dart: pin for pin, dart in enumerate(wiring.dart_of) if dart != NONE}
        around = [wiring.sheet.parts[part].pins[at[dart] - wiring.first[part]].number for dart in darts]
        numbers = [pin.number for pin in wiring.posed(part).pins if pin.number in around]
        self.assertIn(around, [numbers[place:] + numbers[:place] for place in range(max(1, len(numbers)))])

    def check_nets(self, wiring: Wiring) -> None:
        """Check that all nets of at least two pins are wired, and nothing else."""
        wanted = [frozenset(wiring.first[part] + place for part, place in ends)
                  for ends in wiring.sheet.ends().values() if len(ends) > 1]
        self.assertEqual(sorted(map(sorted, Read(wiring).nets)), sorted(map(sorted, wanted)))

    def test_random_sheets(self) -> None:
        """Random sheets: as they are put in, after each round of moves, and as `wirings_of` finds them."""
        for seed, count in [*((seed, 14) for seed in range(7)), (12, 24)]:
            with self.subTest(seed=seed):
                sheet = random_sheet(seed, count)
                search = Routing(Wiring(sheet), random.Random(seed))
                search.put_all(range(len(sheet.parts)))
                for _ in range(3):
                    self.check(search.embedding)
                    self.check_nets(search.embedding)
                    before = search.embedding.crossings
                    search.improve(1, search.work + 10 ** 5)
                    self.assertLessEqual(search.embedding.crossings, before)
                found = wirings_of(largest(seed, count))
                self.assertEqual(len({one.embedding.crossings for one in found}), 1)
                self.assertLessEqual(found[0].embedding.crossings, before)
                for one in found:
                    self.check(one.embedding)
                    self.check_nets(one.embedding)

    def test_out(self) -> None:
        """After parts are taken out one after another, nothing is left, and all numbers are free again."""
        sheet = random_sheet(4, 16)
        search = Routing(Wiring(sheet), random.Random(4))
        search.put_all(range(len(sheet.parts)))
        wiring = search.embedding
        state = wiring.state()
        for part in random.Random(1).sample(range(len(sheet.parts)), len(sheet.parts)):
            search.take_part(part)
            self.check(wiring)
        self.assertEqual((wiring.crossings, set(wiring.face), set(wiring.dart_of)), (0, {NONE}, {NONE}))
        self.assertEqual(len(wiring.free_pieces), len(wiring.edge))
        self.assertEqual(len(wiring.free_faces), len(wiring.corner))
        wiring.restore(state)
        self.check(wiring)
        self.check_nets(wiring)

    def test_same(self) -> None:
        """The same seed gives the same wirings, whatever the hash seed is."""
        printed = [subprocess.run([sys.executable, "-c", PRINTED, str(support.PACKAGE), str(support.TESTS)],
                                  env={**os.environ, "PYTHONHASHSEED": str(number)}, capture_output=True, check=True).stdout
                   for number in (1, 2)]
        self.assertEqual(*printed)
        self.assertGreater(len(printed[0]), 1000)

    def test_loops(self) -> None:
        """Nets within one part, one in another, and a part that nothing else is joined to."""
        nested = box("U1", [EAST] * 6, ["a", "b", "c", "c", "b", "a"])
        crossed = box("U2", [EAST] * 4, ["a", "b", "a", "b"])
        tree = box("U3", [EAST, NORTH, WEST, SOUTH], ["x", "x", "x", "y"])
        for parts, crossings in (((nested,), 0), ((crossed,), 1), ((tree, box("U4", [EAST, WEST], ["y", "x"])), 0)):
            for seed in range(5):
                search = Routing(Wiring(sheet_of(*parts)), random.Random(seed))
                search.put_all(range(len(parts)))
                search.improve(2, 10 ** 5)
                self.check(search.embedding)
                self.check_nets(search.embedding)
                self.assertEqual(search.embedding.crossings, crossings)
                for part in range(len(parts)):
                    search.take_part(part)
                    self.check(search.embedding)

    def test_unconnected(self) -> None:
        """Pins without a net, and nets of one pin, have no wire."""
        sheet = sheet_of(box("U1", [EAST, EAST, WEST], ["a", "", "b"]), box("U2", [WEST, WEST], ["", "a"]))
        wiring = wirings_of(sheet)[0].embedding
        self.assertEqual([dart != NONE for dart in wiring.dart_of], [True, False, False, False, True])


class Crossings(unittest.TestCase):
    """Numbers of crossings that are known."""

    def crossings(self, *parts: Part) -> int:
        """The crossings that are found for a sheet of these parts."""
        return wirings_of(sheet_of(*parts))[0].embedding.crossings

    def test_equal_orders(self) -> None:
        """Two parts whose pins have the same order, joined pin by pin: floor(n / 2) floor((n - 1) / 2) crossings (Woodall,
        Cyclic-order graphs and Zarankiewicz's crossing-number conjecture, 1993); in the opposite order none, as with one
        part mirrored."""
        for count in range(2, 9):
            names = [f"n{place}" for place in range(count)]
            one, other = box("U1", [EAST] * count, names), box("U2", [WEST] * count, names)
            with self.subTest(count=count):
                self.assertEqual(self.crossings(one, other), (count // 2) * ((count - 1) // 2))
                other.mirror = True
                self.assertEqual(self.crossings(one, other), 0)
                self.assertEqual(self.crossings(one, box("U2", [WEST] * count, names[::-1])), 0)

    def test_exchanged(self) -> None:
        """Inputs of a gate that are interchangeable are exchanged."""
        driver = box("U1", [EAST, EAST, EAST], ["a", "b", "y"])
        gate = box("G1", [EAST, WEST, WEST], ["y", "a", "b"], kind=Kind.GATE)
        self.assertEqual(self.crossings(driver, gate), 1)
        gate.swaps = [[1, 2]]
        self.assertEqual(self.crossings(driver, gate), 0)

    def test_hanging(self) -> None:
        """Parts that hang on one net are put in last, each after what it hangs on; they add no crossing."""
        for seed in range(3):
            sheet = largest(seed, 14)
            order = hanging(Wiring(sheet))
            rest = [part for number, part in enumerate(sheet.parts) if number not in order]
            for place, part in enumerate(order):
                others = {pin.net for number, one in enumerate(sheet.parts)
                          if number not in order[place:] for pin in one.pins} - {None}
                self.assertLessEqual(len(others & {pin.net for pin in sheet.parts[part].pins}), 1)
            self.assertTrue(all(sheet.parts[number].is_flag <= (number in order) for number in range(len(sheet.parts))))
            if rest:
                self.assertLessEqual(wirings_of(sheet)[0].embedding.crossings,
                                     min(one.embedding.crossings for one in wirings_of(part_of_sheet(sheet, [
                                         number for number in range(len(sheet.parts)) if number not in order]))[:1]))

    def test_pose(self) -> None:
        """A part is put mirrored, and with pins exchanged, each at the place of the other."""
        gate = box("G1", [EAST, WEST, WEST], ["y", "a", "b"], kind=Kind.GATE, swaps=[[1, 2]])
        found, order = pose(gate, False, [0, 2, 1])
        self.assertEqual(([pin.net for pin in found.pins], order), (["y", "b", "a"], [0, 2, 1]))
        transistor = box("Q1", [NORTH, WEST, SOUTH], ["c", "b", "e"], kind=Kind.NPN, mirror=True)
        found, order = pose(transistor, True, [0, 1, 2])
        self.assertEqual(found, mirrored(transistor))
        self.assertEqual([pin.side for pin in found.pins], [EAST, NORTH, SOUTH])
        self.assertEqual([transistor.pins[was].net for was in order], [pin.net for pin in found.pins])


@needs_scipy
class Directions(unittest.TestCase):
    """Directions fit together and cost least."""

    def check(self, one: Directed) -> None:
        """Check angles, that each face turns by 4 and the outer one by -4, and the directions at the ends of each wire."""
        turning, turns = one.turning, one.turns()
        wiring = turning.wiring
        for face, walk in enumerate(turning.walks):
            total = 0
            for dart in walk:
                angle, vertex = one.angle(dart), wiring.origin[dart ^ 1]
                if vertex >= wiring.vertex_count:
                    self.assertIn(angle, (1, 2) if wiring.is_junction(vertex) else (1,))
                elif not turning.parts[vertex].is_cage:
                    self.assertIn(angle, (1, 2, 3, 4))
                total += turns[dart] + 2 - angle
                self.assertEqual((one.direction(dart) + turns[dart] + 2 - one.direction(dart ^ 1)) % 4, 0)
                self.assertEqual(turns[dart], -turns[dart ^ 1])
            self.assertEqual(total, -4 if face == one.outer else 4)
        for vertex, darts in rotation_of(wiring).items():
            if vertex < wiring.vertex_count:
                side = {pin.number: pin.side for pin in turning.parts[vertex].pins}
                for dart in darts:
                    number = wiring.sheet.parts[vertex].pins[wiring.pin_at[dart] - wiring.first[vertex]].number
                    self.assertEqual(one.direction(dart) - int(one.solution.directions[vertex]), side[number])

    def check_certificate(self, solution: Solution) -> None:
        """Check that no directions cost less, by the flow: along each wire at most one unit, conserved at each variable that
        is not fixed."""
        case, turning = solution.case, solution.case.program.turning
        fixed = {wish.variable: int(want) for wish, want in zip(turning.wishes, case.wanted) if wish.weight is None}
        if not len(case.wanted):
            fixed = {}
        net, gain = [0.0] * turning.count, 0.0
        flows = iter(solution.flow.tolist())
        for dart, winding in zip(turning.darts, case.windings.tolist()):
            flow, (low, high) = next(flows), (turning.variable[dart], turning.variable[dart ^ 1])
            self.assertLessEqual(abs(flow), 1 + 1e-9)
            gain += flow * (2 + turning.offset[dart ^ 1] - turning.offset[dart] + 4 * winding)
            net[high] += flow
            net[low] -= flow
        for low, high, least in turning.joints:
            flow = next(flows)
            self.assertGreaterEqual(flow, -1e-9)
            gain += flow * least
            net[low] += flow
            net[high] -= flow
        for wish, want in zip(turning.wishes, case.wanted.tolist()):
            if wish.weight is not None:
                flow = next(flows)
                self.assertLessEqual(abs(flow), wish.weight + 1e-9)
                gain -= flow * want
                net[wish.variable] += flow
        for variable, amount in enumerate(net):
            if variable in fixed:
                gain += amount * fixed[variable]
            else:
                self.assertAlmostEqual(amount, 0)
        self.assertAlmostEqual(gain, solution.cost)

    def test_free(self) -> None:
        """Without wishes: the directions fit and cost least, for each outer face that is tried."""
        for seed in range(4):
            for one in freely(turnings_of(seed, COUNT)[:2]):
                self.check(one)
                self.check_certificate(one.solution)

    def test_wished(self) -> None:
        """With wishes: chips and gates are upright, and what is found costs least for the directions that are wanted."""
        for seed in range(5):
            with self.subTest(seed=seed):
                turnings = turnings_of(seed, COUNT)
                one = directed(turnings)
                self.check(one)
                self.check_certificate(one.solution)
                for number, part in enumerate(one.turning.parts):
                    if part.is_cage:
                        self.assertEqual((int(one.solution.directions[number]) - part.want) % (2 if part.half else 4), 0)
                free = directed(turnings, free=True)
                self.check(free)
                self.assertLessEqual(free.solution.bends, one.solution.bends)

    def test_changed(self) -> None:
        """After one wanted direction is changed, the rest of the program need not be solved again; the pulls bound what is
        gained."""
        for seed in range(4):
            one = wished(freely(turnings_of(seed, COUNT))[:1])[0]
            case, pulls = one.solution.case, one.solution.pulls()
            steps = [(place, step) for place in range(len(case.wanted)) for step in (-4, 4)]
            whole = list(solve(case.with_wanted(*change) for change in steps))
            for (place, step), found, again in zip(steps, changed(one.solution, steps), whole):
                self.assertAlmostEqual(found.cost, again.cost)
                self.assertGreaterEqual(found.cost, one.solution.cost + step * pulls[place] - 1e-6)
                self.check_certificate(found)

    def test_any_directions(self) -> None:
        """There is a shape for all directions of all parts."""
        dice = random.Random(2)
        for wiring in [one.wiring for one in turnings_of(1, COUNT)[:3]]:
            turning = Turning(wiring, ())
            turning.wishes = [Wish(part, 0, 1, None) for part in range(turning.wiring.vertex_count)]
            program = Program(turning, True)
            for face in range(3):
                wanted = numpy.array([dice.randint(-9, 9) for _ in turning.wishes])
                found, = solve([Case(program, turning.windings(face), wanted)])
                self.check(Directed(face, found, found.cost))
                self.check_certificate(found)

    def test_least(self) -> None:
        """A mixed-integer program that chooses windings and whole turns too has the same optimum."""
        for seed in range(5):
            with self.subTest(seed=seed):
                one = directed(turnings_of(seed, 5)[:2])
                least = best_of_all(one.turning, one.outer, True)
                self.assertAlmostEqual(one.solution.cost, least)
                free = freely([one.turning])[0]
                self.assertAlmostEqual(free.solution.cost, best_of_all(free.turning, free.outer, False))


def best_of_all(turning: Turning, outer: int, is_wished: bool) -> float:
    """The least cost for an outer face, by a mixed-integer program of the angles at junctions, the turns of wires, the
    directions of darts and how often parts turn as a whole. It shares no variable with the circulation."""
    program = Integers(turning)
    for face, walk in enumerate(turning.walks):
        terms, total = [], 0.0
        for dart in walk:
            some, constant = program.angle(dart)
            terms += program.turn(dart) + [(variable, -value) for variable, value in some]
            total += 2 - constant
        program.equal(terms, (-4 if face == outer else 4) - total)
    for vertex, darts in rotation_of(turning.wiring).items():
        if turning.wiring.is_junction(vertex):
            program.equal([term for dart in darts for term in program.angle(dart ^ 1)[0]], 4)
        for one, after in zip(darts, darts[1:]):  # the corner between them is at the end of the twin of `after`
            some, constant = program.angle(after ^ 1)
            program.equal([(program.name(("heads", after)), 1), (program.name(("heads", one)), -1),
                           *((term, -value) for term, value in some)], constant)
    for dart in turning.darts:
        program.equal([(program.name(("heads", dart ^ 1)), 1), (program.name(("heads", dart)), -1),
                       (program.name(("whole", dart)), -4), *((term, -value) for term, value in program.turn(dart))], -2)
    for wish in turning.wishes if is_wished else ():
        program.wish(wish)
    return program.least()


class Integers:
    """A mixed-integer program of the shape of a wiring."""

    def __init__(self, turning: Turning) -> None:
        self.turning, self.wiring = turning, turning.wiring
        self.names: dict[object, int] = {}
        self.low, self.high, self.cost, self.rows = [], [], [], []

    def name(self, key: object, least: float = -60, most: float = 60, price: float = 0) -> int:
        """The number of a variable."""
        if key not in self.names:
            self.names[key] = len(self.names)
            self.low.append(least)
            self.high.append(most)
            self.cost.append(price)
        return self.names[key]

    def equal(self, terms: list[tuple[int, float]], value: float) -> None:
        """A sum has a value."""
        self.rows.append((terms, value))

    def angle(self, dart: int) -> tuple[list[tuple[int, float]], float]:
        """The corner at the end of a dart: terms and a constant."""
        wiring = self.wiring
        vertex, after = wiring.origin[dart ^ 1], wiring.onward[dart]
        if vertex >= wiring.vertex_count:
            return ([(self.name(("angle", dart), 1, 2), 1)], 0) if wiring.is_junction(vertex) else ([], 1)
        places = wiring.pins_of[vertex]
        one, other = places.index(wiring.pin_at[after]), places.index(wiring.pin_at[dart ^ 1])
        sides = [pin.side for pin in self.turning.parts[vertex].pins]
        return [], sides[other] - sides[one] + (4 if other <= one else 0)

    def turn(self, dart: int) -> list[tuple[int, float]]:
        """How much a dart turns to the left."""
        return [(self.name(("left", dart), 0, 60, 1), 1), (self.name(("left", dart ^ 1), 0, 60, 1), -1)]

    def wish(self, wish: Wish) -> None:
        """A part has the direction that is wanted, or pays for the distance."""
        wiring, part = self.wiring, wish.variable
        pin = next(pin for pin in wiring.pins_of[part] if wiring.dart_of[pin] != NONE)
        side = self.turning.parts[part].pins[wiring.pins_of[part].index(pin)].side
        most, price = (0, 0) if wish.weight is None else (60, wish.weight)
        self.equal([(self.name(("heads", wiring.dart_of[pin])), 1), (self.name(("turns", part)), -wish.period),
                    (self.name(("more", part), 0, most, price), -1), (self.name(("less", part), 0, most, price), 1)],
                   side + wish.want)

    def least(self) -> float:
        """The least cost."""
        matrix = numpy.zeros((len(self.rows), len(self.names)))
        for place, (terms, _) in enumerate(self.rows):
            for variable, value in terms:
                matrix[place, variable] += value
        values = numpy.array([value for _, value in self.rows], dtype=float)
        found = milp(numpy.array(self.cost, dtype=float), integrality=numpy.ones(len(self.names)),
                     bounds=Bounds(self.low, self.high), constraints=LinearConstraint(matrix, values, values),
                     options={"presolve": False})  # HiGHS 1.2 calls some of these infeasible
        assert found.status == 0, found.message
        return float(found.fun)


@needs_scipy
class Core(unittest.TestCase):
    """The plane graph and its conditions have the shape as their optimum."""

    def test_plane(self) -> None:
        """The graph is simple, plane and connected, of degree at most 4."""
        for seed in range(6):
            lists = plane_of(seed).lists
            plane = Plane(lists)
            self.assertEqual(plane.vertices - len(plane.darts) // 2 + plane.faces, 2)
            for vertex, others in enumerate(lists, 1):
                self.assertIn(len(others), (1, 2, 3, 4))
                self.assertEqual(len(set(others) - {vertex}), len(others))

    def test_fewest_bends(self) -> None:
        """A linear program of angles and turns with the conditions has as many bends as the directions promise; without the
        turns no more."""
        for seed in range(6):
            with self.subTest(seed=seed):
                found = plane_of(seed)
                given = given_of(found)
                self.assertEqual(least_bends(found.lists, *given), found.directed.solution.bends)
                self.assertLessEqual(least_bends(found.lists, given[0], given[1], {}), found.directed.solution.bends)
                self.assertLess(len(given[2]), 2 * len(found.chains))

    def test_drawn(self) -> None:
        """The library draws the shape, as a whole turned so that all directions are right."""
        engine = given_engine()
        for seed in range(5):
            found = plane_of(seed)
            grid = found.laid(engine)
            one = found.directed
            for dart, turns in one.turns().items():
                line = grid.lines[dart]
                heads = [direction_of(*pair) for pair in zip(line, line[1:]) if pair[0] != pair[1]]
                if dart in one.tree()[0] or dart ^ 1 in one.tree()[0]:
                    self.assertEqual((heads[0] - one.direction(dart)) % 4, 0)
                    self.assertEqual(sum((after - before + 1) % 4 - 1 for before, after in zip(heads, heads[1:])), turns)
            for part, corners in found.corners.items():
                points = [grid.points[vertex] for vertex in corners]
                turned = int(one.solution.directions[part]) % 4
                self.assertEqual([direction_of(*pair) for pair in zip(points, points[1:])],
                                 [(turned + side) % 4 for side in (NORTH, WEST, SOUTH)])

    def test_refused(self) -> None:
        """A graph that is too large, and a shape with another number of bends, are refused."""
        found = plane_of(1)
        engine = mock.Mock(most_vertices=len(found.around) - 1)
        with self.assertRaises(TooLarge) as told:
            found.laid(engine)
        self.assertEqual(told.exception.vertices, len(found.around))
        engine = mock.Mock(most_vertices=len(found.around))
        engine.lay_keeping.return_value.bends = found.directed.solution.bends - 1
        with self.assertRaises(OtherBends):
            found.laid(engine)


def direction_of(one: tuple[int, int], other: tuple[int, int]) -> int:
    """The direction from a point to another that is due east, north, west or south of it."""
    (x, y), (right, above) = one, other
    return {(1, 0): EAST, (0, 1): NORTH, (-1, 0): WEST, (0, -1): SOUTH}[(right > x) - (right < x), (above > y) - (above < y)]


def given_engine():
    """The library, if it takes angles and turns; otherwise the test is skipped."""
    from planarbend.layout import library
    from planarbend.layout.engine import Conditions

    if not hasattr(Conditions(), "angles"):
        raise unittest.SkipTest("the package takes no angles and turns")
    if library.path() is None:
        raise unittest.SkipTest("the library is missing (planarbend --build makes it)")
    return library.LibraryEngine()


def given_of(found: PlaneGraph) -> tuple[list[tuple[int, int]], dict[tuple[int, int], int], dict[tuple[int, int], int]]:
    """The inner faces, angles and turns that are given; vertices counted from 1."""
    with mock.patch("planarbend.schematics.plane.Conditions") as made:
        found.conditions()
    straight, inner, angles, turns = made.call_args.args
    return inner, angles, {**dict.fromkeys(straight, 0), **turns}


def least_bends(lists, inner, angles, turns) -> float:
    """The fewest bends of a plane graph under conditions, for the outer face that is left, by a linear program of the angles
    at the ends of darts and the turns along them."""
    plane = Plane(lists)
    number = {dart: place for place, dart in enumerate(plane.darts)}
    outer, = set(range(plane.faces)) - {plane.face[number[dart]] for dart in inner}
    count = len(plane.darts)
    bounds = [(1, 4)] * count + [(0, None)] * count
    for dart, angle in angles.items():
        bounds[number[dart]] = (angle, angle)
    for (one, other), turn in turns.items():
        for place, value in ((number[one, other], max(turn, 0)), (number[other, one], max(-turn, 0))):
            bounds[count + place] = (value, value)
    rows, values = [], []
    for face, walk in enumerate(plane.walks):
        row = numpy.zeros(2 * count)
        for dart in walk:
            row[dart] -= 1
            row[count + dart] += 1
            row[count + plane.back[dart]] -= 1
        rows.append(row)
        values.append((-4 if face == outer else 4) - 2 * len(walk))
    for vertex in range(1, plane.vertices + 1):
        row = numpy.zeros(2 * count)
        row[[place for place, (_, head) in enumerate(plane.darts) if head == vertex]] = 1
        rows.append(row)
        values.append(4)
    found = linprog([0] * count + [1] * count, A_eq=numpy.array(rows), b_eq=values, bounds=bounds, method="highs")
    assert found.status == 0, found.message
    return round(found.fun)


if __name__ == "__main__":
    unittest.main()
