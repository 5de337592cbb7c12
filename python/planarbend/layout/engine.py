"""The interface between drawing and planarbend: neighbour lists in, bends and points out."""
from __future__ import annotations

import json
import os
from collections.abc import Mapping, Sequence
from dataclasses import dataclass, field
from typing import Any, Protocol

from planarbend.layout.planar_code import HEADER, MOST_VERTICES, Lists, record_of
from planarbend.programs import PlanarbendError, RunFailed, program

GridPoint = tuple[int, int]
Dart = tuple[Any, Any]  # by its ends, which are numbers or names


@dataclass(frozen=True, slots=True)
class Representation:
    """An orthogonal representation, and the dual prices that prove that it has the fewest bends."""

    outer: int  # the outer face
    angles: list[int]  # for each dart, at its head, in right angles
    turns: list[str]  # for each dart, an L or R for each
    vertex_prices: list[int]
    face_prices: list[int]


@dataclass(frozen=True, slots=True)
class Answer:
    """The layout of one embedded graph on the grid; y grows to the north. Numbers are those of docs/JSON.md."""

    bends: int  # the fewest for its outer face
    points: list[GridPoint]  # of each vertex
    corners: list[list[GridPoint]]  # of each edge, along its lesser dart
    representation: Representation | None = None  # an engine leaves it out


@dataclass(frozen=True, slots=True)
class Refusal:
    """Why a graph has no layout: its status is "refused" (the word is the rule), "undrawn" (the cause) or "memory"."""

    status: str
    word: str = ""


@dataclass(frozen=True, slots=True)
class Conditions:
    """Conditions on a layout, of which no two on one edge differ.

    A dart is the edge from its first vertex to its second. Vertices are numbered from 1; for `layouts` they have names.

    Raises
    ------
    Conflict
        Two conditions on one edge differ.
    ValueError
        An angle is not 1, 2, 3 or 4.
    """

    straight: Sequence[Dart] = ()  # edges that must be straight, each given by its ends
    inner: Sequence[Dart] = ()  # faces that must not be the outer one, each given by a dart with it on its left
    angles: Mapping[Dart, int] = field(default_factory=dict)  # by dart: right angles at its head, on its left
    turns: Mapping[Dart, int] = field(default_factory=dict)  # by dart: turns to the left; below 0, turns to the right

    def __post_init__(self) -> None:
        """Look at the angles, and for conflicts."""
        for (tail, head), angle in self.angles.items():
            if angle not in (1, 2, 3, 4):
                raise ValueError(f"the angle from {tail!r} to {head!r} is {angle!r}, not 1 to 4 right angles")
        found: dict[Dart, tuple[int, tuple[Dart, int]]] = {}  # by dart, its turns, and the condition that gives them
        for given in [*self.turns.items(), *((dart, 0) for dart in self.straight)]:
            (tail, head), number = given
            along, before = found.setdefault((tail, head), (number, given))
            if along != number:
                raise Conflict(before, given)
            found.setdefault((head, tail), (-number, given))

    def __bool__(self) -> bool:
        """Return whether there are any."""
        return bool(self.straight or self.inner or self.angles or self.turns)

    @property
    def darts(self) -> list[Dart]:
        """The darts that the conditions name."""
        return [*self.straight, *self.turns, *self.angles, *self.inner]

    def numbered(self, number: Mapping[Any, int]) -> Conditions:
        """Return the same conditions with the numbers of the vertices in place of their names."""
        def of(dart: Dart) -> Dart:
            return number[dart[0]], number[dart[1]]

        return Conditions([of(dart) for dart in self.straight], [of(dart) for dart in self.inner],
                          {of(dart): angle for dart, angle in self.angles.items()},
                          {of(dart): turns for dart, turns in self.turns.items()})


@dataclass(frozen=True, slots=True)
class Cut:
    """Why no shape has the angles and turns: a set of vertices and faces that need more turns than these allow."""

    vertices: tuple[int, ...]  # numbered from 1
    faces: tuple[int, ...]  # numbered from 0, in the order of their lowest darts
    outer: int  # the outer face for which the cut shows this

    def __str__(self) -> str:
        """Return the cut in words."""
        named = [f"{what} {', '.join(map(str, numbers))}"
                 for what, numbers in (("vertices", self.vertices), ("faces", self.faces)) if numbers]
        return f"{' and '.join(named)} need more turns than the conditions allow"


class NotKept(PlanarbendError):
    """No layout keeps the conditions.

    `word`: "noshape" (no shape keeps them), "noedge" (two vertices are not neighbours), "noouter" (all faces must be inner) or
    "wide" (the drawing does not fit the grid).
    `cut`: with "noshape", the reason.
    """

    def __init__(self, word: str, cut: Cut | None = None) -> None:
        """Return the error of a word."""
        super().__init__(f"planarbend has no layout that keeps the conditions: {word}{f' ({cut})' if cut else ''}")
        self.word, self.cut = word, cut


class Conflict(ValueError):
    """Two conditions on one edge differ. `one` and `other` are these: a dart, and its turns to the left."""

    def __init__(self, one: tuple[Dart, int], other: tuple[Dart, int]) -> None:
        """Return the error of two conditions."""
        said = " and ".join(f"{turns} turns from {tail!r} to {head!r}" for (tail, head), turns in (one, other))
        super().__init__(f"two conditions on one edge differ: {said}")
        self.one, self.other = one, other


class Engine(Protocol):
    """What lays out embedded graphs with the fewest bends: the library, the program, or a stand-in.

    Neighbour lists have vertices numbered from 1 and neighbours in clockwise order. A graph has at most `most_vertices`
    vertices (the library takes 1,200, the program 255) of degree at most 4; it is connected and has an edge, but no loops or parallel
    edges. `outer` is "first", for the outer face with the longest boundary (among several, the one with the lowest number), or
    "best", for the one that minimises bends. `keeps` says whether conditions can be kept.
    """

    keeps: bool
    most_vertices: int

    def lay(self, graphs: Sequence[Lists], outer: str) -> list[Answer]:
        """Return the layout of each graph, or raise a `PlanarbendError` if one has none, or the engine fails."""
        ...

    def lay_keeping(self, lists: Lists, outer: str, conditions: Conditions) -> Answer:
        """Return a layout of one graph that keeps conditions, with the fewest bends of all that do; raise `NotKept` if none
        keeps them, and a `PlanarbendError` as `lay`, or if the engine keeps no conditions."""
        ...


class ProcessEngine:
    """The program, which runs once for each call of `lay`. It keeps no conditions."""

    keeps = False
    most_vertices = MOST_VERTICES

    def __init__(self) -> None:
        """Return the program's engine, or raise `NoProgram`."""
        self.program = program()

    def lay(self, graphs: Sequence[Lists], outer: str) -> list[Answer]:
        """Return the layout of each graph, as `Engine.lay`."""
        if not graphs:
            return []
        import subprocess  # slow to load, and not needed by the library

        given = HEADER + b"".join(map(record_of, graphs))
        ran = subprocess.run([self.program, "layout", "--json", "--outer", outer, "-"], input=given, capture_output=True)
        lines = [json.loads(line) for line in ran.stdout.splitlines()] if ran.returncode in (0, 3) else []
        if len(lines) != len(graphs) + 1 or lines[-1].get("end") != "complete":
            raise RunFailed(ran.returncode, ran.stderr.decode(errors="replace").strip())
        return [answer_of(line) for line in lines[:-1]]

    def lay_keeping(self, lists: Lists, outer: str, conditions: Conditions) -> Answer:
        """Return no layout: raise a `PlanarbendError`, since the program takes no conditions."""
        raise PlanarbendError("given angles, turns and inner faces need libplanarbend, which was not found")


def answer_of(line: dict[str, Any]) -> Answer:
    """Return the answer in a JSON line, without its representation, or raise `PlanarbendError` if the graph is not drawn."""
    if line["status"] != "ok" or line["points"] is None:
        raise PlanarbendError(f"planarbend could not lay out the graph: {line}")
    return Answer(line["bends"], *points_of(line["points"]))


def points_of(points: dict[str, Any]) -> tuple[list[GridPoint], list[list[GridPoint]]]:
    """Return the points of the vertices, and the corners of the edges, in the `points` of a JSON line."""
    return ([(x, y) for x, y in points["vertices"]], [[(x, y) for x, y in corners] for corners in points["corners"]])


def default_engine() -> Engine:
    """Return the engine to use: the library if there is one, otherwise the program. Both answer the same.

    If PLANARBEND is set, the program that it names is used.
    """
    if "PLANARBEND" not in os.environ:
        from planarbend.layout import library  # imported here: it uses this module, and is slow to load

        if library.is_wanted():
            return library.LibraryEngine()
    return ProcessEngine()
