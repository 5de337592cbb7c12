"""The least sum of bends and unfulfilled wishes, by linear programs of differences.

With the directions of the parts that are fixed, the sum of the absolute turns of the wires is least for the potentials of a
circulation of least cost: at most one unit on each wire, and on each wish at most its weight. The circulation is the
certificate: its cost is the least sum. SciPy's HiGHS finds both. The program falls into independent parts between the fixed
variables, so that after a change of one wanted direction few of them are solved again.
"""
from __future__ import annotations

from collections.abc import Iterable, Iterator, Sequence
from dataclasses import dataclass
from typing import Any

import numpy
from scipy.sparse import csc_matrix

from planarbend.drawing.linked import NONE
from planarbend.graph import Partition
from planarbend.schematics.highs import solved
from planarbend.schematics.turning import Turning

MOST_COLUMNS = 4000  # of one linear program, in which several are solved together: a call takes longer than a small program
Numbers = Any  # a numpy array


class Program:
    """The linear programs of a wiring, with or without its wishes: what is the same for all windings and wanted directions.

    Columns are the wires (in the order of the turning's `darts`), the joints, and the wishes that have a weight.

    Attributes
    ----------
    turning : Turning
    wires, fixed_columns : int
        The number of wires, and of wires and joints.
    low, high : arrays
        For each column the variables at which the flow leaves and arrives; for a wish, `NONE` and its variable.
    base : array
        For each column the turns, without windings and directions; for a joint, the least difference.
    limits : array
        The least and the greatest flow of each column.
    fixed, soft : arrays
        The places of the wishes that are demands, and of those that have a weight.
    columns_at : list of arrays
        For each wish the columns of the independent parts of the program that it touches.
    """

    def __init__(self, turning: Turning, is_wished: bool) -> None:
        """Return the programs of a wiring."""
        self.turning = turning
        wishes = turning.wishes if is_wished else []
        self.fixed = numpy.array([place for place, wish in enumerate(wishes) if wish.weight is None], dtype=int)
        self.soft = numpy.array([place for place, wish in enumerate(wishes) if wish.weight is not None], dtype=int)
        variable, offset, joints = turning.variable, turning.offset, turning.joints
        weights = numpy.array([wishes[place].weight for place in self.soft], dtype=float)
        self.wish_variable = numpy.array([wish.variable for wish in wishes], dtype=int)
        self.wires = len(turning.darts)
        self.edges = self.wires + len(joints)
        self.low = numpy.array([variable[dart] for dart in turning.darts] + [high for _, high, _ in joints]
                               + [NONE] * len(self.soft), dtype=int)
        self.high = numpy.array([variable[dart ^ 1] for dart in turning.darts] + [low for low, *_ in joints]
                                + list(self.wish_variable[self.soft]), dtype=int)
        self.base = numpy.array([2 + offset[dart ^ 1] - offset[dart] for dart in turning.darts]
                                + [least for *_, least in joints] + [0] * len(self.soft), dtype=int)
        self.limits = numpy.ones((len(self.low), 2)) * (-1.0, 1.0)
        self.limits[self.wires:self.edges] = (0.0, numpy.inf)
        self.limits[self.edges:] = numpy.stack((-weights, weights), 1)
        self.is_free = numpy.ones(turning.count + 1, dtype=bool)  # the last one stands for `NONE`
        self.is_free[self.wish_variable[self.fixed]] = self.is_free[NONE] = False
        if not wishes:
            self.is_free[variable[turning.darts[0]]] = False
        self.columns_at = self._parts()
        self.all_columns = numpy.nonzero(self.is_free[self.low] | self.is_free[self.high])[0]

    def _parts(self) -> list[Numbers]:
        """Return for each wish the columns of the parts of the program that it touches."""
        parts = Partition(self.turning.count)
        both = numpy.nonzero(self.is_free[self.low] & self.is_free[self.high])[0]
        for low, high in zip(self.low[both].tolist(), self.high[both].tolist()):
            parts.unite(low, high)
        part_of = numpy.array([parts.find(variable) for variable in range(self.turning.count)] + [NONE])
        own = numpy.where(self.is_free[self.low], part_of[self.low], NONE)
        own = numpy.where(self.is_free[self.high], part_of[self.high], own)
        found = []
        for variable in self.wish_variable:
            touched = own[(self.low == variable) | (self.high == variable)]
            found.append(numpy.nonzero(numpy.isin(own, touched[touched != NONE]))[0])
        return found


@dataclass(frozen=True, slots=True)
class Case:
    """What a program is solved for: the windings of the wiring's `darts`, and the direction wanted for each wish."""

    program: Program
    windings: Numbers
    wanted: Numbers

    def constants(self) -> Numbers:
        """Return for each column what its absolute value would cost if all directions were 0: the turns of a wire, the
        distance from what is wanted."""
        program = self.program
        found = program.base.copy()
        found[:program.wires] += 4 * self.windings
        found[program.edges:] -= self.wanted[program.soft]
        return found

    def with_wanted(self, place: int, step: int) -> Case:
        """Return the case in which one wanted direction is greater by a step."""
        wanted = self.wanted.copy()
        wanted[place] += step
        return Case(self.program, self.windings, wanted)

    def start(self) -> Numbers:
        """Return directions of which those of fixed parts are right."""
        program = self.program
        found = numpy.zeros(program.turning.count + 1, dtype=int)  # the last one stands for `NONE`
        found[program.wish_variable[program.fixed]] = self.wanted[program.fixed]
        return found

    def turns(self, directions: Numbers) -> Numbers:
        """Return how much each of the wiring's `darts` turns to the left."""
        program = self.program
        low, high = program.low[:program.wires], program.high[:program.wires]
        return directions[high] - directions[low] + program.base[:program.wires] + 4 * self.windings

    def cost(self, directions: Numbers) -> float:
        """Return the bends and the cost of the wishes that are not fulfilled."""
        program = self.program
        away = directions[program.wish_variable[program.soft]] - self.wanted[program.soft]
        return float(numpy.abs(self.turns(directions)).sum() + program.limits[program.edges:, 1] @ numpy.abs(away))


@dataclass(frozen=True, slots=True)
class Solution:
    """The least cost of a case, and the certificate that there is none that is lower.

    Attributes
    ----------
    case : Case
    cost : float
        The bends and the cost of the wishes that are not fulfilled.
    directions : array
        Of each variable; the last number is 0.
    flow : array
        For each column of the program its flow. Joints have no negative flow, wires at most one unit, wishes at most their
        weight; all that arrives at a variable that is not fixed leaves it.
    """

    case: Case
    cost: float
    directions: Numbers
    flow: Numbers

    @property
    def bends(self) -> int:
        """The number of bends."""
        return int(numpy.abs(self.case.turns(self.directions)).sum())

    def pulls(self) -> Numbers:
        """Return for each wish how much the cost grows at least for each unit by which the wanted direction grows."""
        program = self.case.program
        edges = slice(program.edges)
        count = program.turning.count
        net = (numpy.bincount(program.high[edges], self.flow[edges], count)
               - numpy.bincount(program.low[edges], self.flow[edges], count))
        return net[program.wish_variable]


@dataclass(frozen=True, slots=True)
class _Task:
    """Columns of a case to be solved, where the rest stays as it is."""

    case: Case
    columns: Numbers
    directions: Numbers
    flow: Numbers


def solve(cases: Iterable[Case]) -> Iterator[Solution]:
    """Yield the solution of each case."""
    return _solve(_Task(case, case.program.all_columns, case.start(), numpy.zeros(len(case.program.low))) for case in cases)


def changed(solution: Solution, changes: Iterable[tuple[int, int]]) -> Iterator[Solution]:
    """Yield for each change of a single wanted direction (a wish, a step to add) the solution after it."""
    program = solution.case.program
    tasks = []
    for place, step in changes:
        case = solution.case.with_wanted(place, step)
        directions = solution.directions.copy()
        directions[program.wish_variable[program.fixed]] = case.wanted[program.fixed]
        tasks.append(_Task(case, program.columns_at[place], directions, solution.flow))
    return _solve(tasks)


def _solve(tasks: Iterable[_Task]) -> Iterator[Solution]:
    """Yield the solution of each task."""
    waiting: list[_Task] = []
    columns = 0
    for task in tasks:
        waiting.append(task)
        columns += len(task.columns)
        if columns > MOST_COLUMNS:
            yield from _solved(waiting)
            waiting, columns = [], 0
    yield from _solved(waiting)


def _solved(tasks: Sequence[_Task]) -> Iterator[Solution]:
    """Yield the solutions of tasks, which are solved as one program."""
    gains, limits, ends, rows_of = [], [], [], []
    row_count = 0
    for task in tasks:
        program, columns = task.case.program, task.columns
        low, high = program.low[columns], program.high[columns]
        outer = numpy.where(program.is_free, 0, task.directions)  # the fixed directions
        gain = task.case.constants()[columns] + outer[high] - outer[low]
        rows = numpy.unique(numpy.concatenate((low, high)))
        rows = rows[program.is_free[rows]]
        place = numpy.full(len(program.is_free), NONE)
        place[rows] = numpy.arange(row_count, row_count + len(rows))
        row_count += len(rows)
        gains.append(gain)
        limits.append(program.limits[columns])
        ends.append((place[low], place[high]))
        rows_of.append(rows)
    if row_count:
        flow, potentials = _optimum(numpy.concatenate(gains), numpy.concatenate(limits), ends, row_count)
    first = first_row = 0
    for task, rows in zip(tasks, rows_of):
        directions, flows = task.directions.copy(), task.flow.copy()
        if len(rows):
            directions[rows] = numpy.rint(potentials[first_row:first_row + len(rows)])
            flows[task.columns] = flow[first:first + len(task.columns)]
        first, first_row = first + len(task.columns), first_row + len(rows)
        yield _checked(task.case, directions, flows)


def _optimum(gains: Numbers, limits: Numbers, ends: Sequence[tuple[Numbers, Numbers]], row_count: int
             ) -> tuple[Numbers, Numbers]:
    """Return the flow of greatest gain, and the potentials of the rows."""
    rows = numpy.stack((numpy.concatenate([low for low, _ in ends]), numpy.concatenate([high for _, high in ends])), 1)
    columns = numpy.repeat(numpy.arange(len(gains)), 2)
    values = numpy.tile((-1.0, 1.0), len(gains))
    kept = rows.ravel() != NONE
    matrix = csc_matrix((values[kept], (rows.ravel()[kept], columns[kept])), (row_count, len(gains)))
    found = solved(-gains, "directions", A_eq=matrix, b_eq=numpy.zeros(row_count), bounds=limits)
    return found.x, found.eqlin.marginals


def _checked(case: Case, directions: Numbers, flow: Numbers) -> Solution:
    """Return a solution; raise `ArithmeticError` if the flow does not prove that it costs least."""
    program = case.program
    cost = case.cost(directions)
    outer = numpy.where(program.is_free, 0, directions)
    flow = _whole(case, directions, flow)
    gain = float((case.constants() + outer[program.high] - outer[program.low]) @ flow)
    joints = slice(program.wires, program.edges)
    is_kept = (directions[program.high[joints]] + program.base[joints] <= directions[program.low[joints]]).all()
    if abs(gain - cost) > 1e-6 * max(1.0, cost) or not is_kept:
        raise ArithmeticError(f"the directions cost {cost} in place of {gain}")
    return Solution(case, cost, directions, flow)


def _whole(case: Case, directions: Numbers, flow: Numbers) -> Numbers:
    """Return the flow with that of the wires between fixed parts, which are in no program: the sign of their turns."""
    program = case.program
    constant = ~(program.is_free[program.low] | program.is_free[program.high])
    constant[program.wires:] = False
    found = flow.copy()
    found[constant] = numpy.sign(case.turns(directions)[constant[:program.wires]])
    return found
