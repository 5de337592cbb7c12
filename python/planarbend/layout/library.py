"""Calls of libplanarbend through `ctypes`, without a process or JSON.

    with Library() as library:
        print(library.line(record, outer="best", drawing="none")["bends"])

A `Library` object reuses its memory from call to call, so each thread needs its own.
"""
from __future__ import annotations

import ctypes
import itertools
import os
import types
from array import array
from collections.abc import Iterable, Iterator, Mapping, Sequence
from typing import Any

from planarbend.layout.engine import Answer, Conditions, Cut, Dart, GridPoint, NotKept, Refusal, Representation
from planarbend.layout.planar_code import MOST_VERTICES, MOST_WIDE, Lists, record_of, wide_record_of
from planarbend.programs import FOLDER, ROOT, NoProgram, PlanarbendError

OUTER = {"first": 0, "best": 1}
DRAWING = {"none": 0, "quick": 1, "short": 2}
OK, NOT_A_RECORD, MEMORY, FULL, ARGUMENT, NO_SHAPE, WIDE, LARGE, CONFLICT = 0, 9, 10, 11, 12, 13, 16, 17, 18
NAME = "libplanarbend.so.2"
PLACES = [  # built, in a wheel, and installed
    os.path.join(ROOT, "out", NAME), os.path.join(FOLDER, NAME), os.path.join(os.path.dirname(ROOT), NAME)]


class Counts(ctypes.Structure):
    """`planarbend_counts` of planarbend.h."""

    _fields_ = [(name, ctypes.c_uint32) for name in ("vertices", "edges", "faces", "bends", "outer_face", "corners")]

    def sizes(self) -> dict[str, int]:
        """Return the items of each list."""
        return {"angles": 2 * self.edges, "turns": 2 * self.edges, "vertex_prices": self.vertices, "face_prices": self.faces,
                "points": self.vertices, "corner_starts": self.edges + 1, "corners": self.corners}


# The lists of planarbend.h: the type of a number, and the numbers of an item.
LISTS: dict[str, tuple[Any, int]] = {
    "angles": (ctypes.c_uint8, 1), "turns": (ctypes.c_uint32, 2), "vertex_prices": (ctypes.c_int32, 1),
    "face_prices": (ctypes.c_int32, 1), "points": (ctypes.c_uint16, 2), "corner_starts": (ctypes.c_uint32, 1),
    "corners": (ctypes.c_uint16, 2)}


class Room(ctypes.Structure):
    """`planarbend_lists` of planarbend.h: the address of each list, and its capacity in items."""

    _fields_ = [("size", ctypes.c_size_t), *(field for name in LISTS for field in (
        (name, ctypes.c_void_p), (f"{name}_room", ctypes.c_size_t)))]


class Request(ctypes.Structure):
    """`planarbend_request` of planarbend.h."""

    _fields_ = [("size", ctypes.c_size_t), ("record8", ctypes.c_char_p), ("record8_count", ctypes.c_size_t),
                ("record16", ctypes.c_void_p), ("record16_count", ctypes.c_size_t), ("outer", ctypes.c_int),
                ("drawing", ctypes.c_int), ("turns", ctypes.c_void_p), ("turns_count", ctypes.c_size_t),
                ("angles", ctypes.c_void_p), ("angles_count", ctypes.c_size_t), ("inner", ctypes.c_void_p),
                ("inner_count", ctypes.c_size_t)]


class Marks(ctypes.Structure):
    """`planarbend_cut` of planarbend.h."""

    _fields_ = [("size", ctypes.c_size_t), ("vertices", ctypes.c_void_p), ("vertices_room", ctypes.c_size_t),
                ("faces", ctypes.c_void_p), ("faces_room", ctypes.c_size_t), ("outer_face", ctypes.c_uint32)]


Record = bytes | array  # entries of 8 or of 16 bits
NOTHING: Mapping[Dart, int] = types.MappingProxyType({})
FREE = Conditions()


def path() -> str | None:
    """Return the path of the library, or None if there is none.

    It is PLANARBEND_LIBRARY, where an empty value means none. If that is not set, it is the first that exists of: the library
    built in this checkout, the one in this package, the one installed with it, and the system's.
    """
    named = os.environ.get("PLANARBEND_LIBRARY")
    if named is not None:
        return named or None
    for place in PLACES:
        if os.path.isfile(place):
            return place
    try:
        ctypes.CDLL(NAME)  # `ctypes.util.find_library` would start a compiler and two linkers
    except OSError:
        return None
    return NAME


def is_wanted() -> bool:
    """Return whether to use the library: there is one, and PLANARBEND does not name a program to use instead."""
    return "PLANARBEND" not in os.environ and path() is not None


class Library:
    """The library, and memory for its calls."""

    def __init__(self, name: str | None = None) -> None:
        """Return the library with this path, by default that of `path`; raise `NoProgram` if there is none, or it cannot be
        loaded, and `MemoryError` if memory ran out."""
        self._object = ctypes.c_void_p()
        name = name or path()
        if name is None:
            raise NoProgram(f"the library {NAME} was not found: run ./planarbend --build, or set PLANARBEND_LIBRARY"
                            " to its path")
        try:
            self._library = ctypes.CDLL(name)
        except OSError as error:
            raise NoProgram(f"{name}: {error}") from None
        if not hasattr(self._library, "planarbend_room"):
            raise NoProgram(f"{name} is older than the package: run ./planarbend --build")
        self._library.planarbend_version.restype = ctypes.c_char_p
        self._library.planarbend_word.restype = ctypes.c_char_p
        self._library.planarbend_free.argtypes = [ctypes.c_void_p]
        self._library.planarbend_room.restype = Counts
        self._layout = self._library.planarbend_layout
        self._layout.argtypes = [ctypes.c_void_p] * 5
        self._request, self._counts = Request(size=ctypes.sizeof(Request)), Counts()
        self._lists, self._marks = Room(size=ctypes.sizeof(Room)), Marks(size=ctypes.sizeof(Marks))
        self._held: dict[str, Any] = {}  # the memory of each list, and the marks of a cut
        self._most = 0  # vertices for which the lists have room
        if self._library.planarbend_new(ctypes.byref(self._object)):
            raise MemoryError("planarbend_new")

    def __enter__(self) -> Library:
        """Return this object."""
        return self

    def __exit__(self, *_: object) -> None:
        """Free the memory."""
        self.close()

    def __del__(self) -> None:
        """Free the memory."""
        self.close()

    def close(self) -> None:
        """Free the memory. No call may follow."""
        held, self._object = self._object, ctypes.c_void_p()
        if held:
            self._library.planarbend_free(held)

    def version(self) -> str:
        """Return the version of the library, such as "2.0.0"."""
        return bytes(self._library.planarbend_version()).decode()

    def word(self, result: int) -> str:
        """Return the word of a result of planarbend.h, such as "ok" or "range"."""
        return bytes(self._library.planarbend_word(result)).decode()

    def bends(self, records: Iterable[bytes], outer: str = "first") -> Iterator[int | None]:
        """Yield the fewest bends of each record, or None if the record is refused. Nothing is drawn.

        Raises `ValueError`: an item is not exactly one record.
        Raises `MemoryError`: memory ran out.
        """
        request, counts = Request(size=ctypes.sizeof(Request), outer=OUTER[outer]), self._counts
        layout, given = self._layout, (self._object, ctypes.addressof(request), ctypes.addressof(counts), None, None)
        for record in records:
            request.record8, request.record8_count = record, len(record)
            result = layout(*given)
            if result != OK:
                self._check(result)
            yield counts.bends if result == OK else None

    def _check(self, result: int) -> None:
        """Return if a result is a broken rule; otherwise raise its error."""
        if result == NOT_A_RECORD:
            raise ValueError("the bytes are not one record of planar_code")
        if result == LARGE:
            raise ValueError(f"a graph of more than {MOST_WIDE} vertices")
        if result == MEMORY:
            raise MemoryError("planarbend_layout")
        if result == ARGUMENT:
            raise ValueError("more turns than edges can be given")

    def _make_room(self, counts: Counts) -> None:
        """Give each list room for these counts, if it has less."""
        for name, items in counts.sizes().items():
            if items > getattr(self._lists, f"{name}_room"):
                kind, numbers = LISTS[name]
                self._held[name] = (kind * (numbers * items))()
                setattr(self._lists, name, ctypes.addressof(self._held[name]))
                setattr(self._lists, f"{name}_room", items)

    def _make_room_for(self, vertices: int) -> None:
        """Give each list, and the cut, room for a graph with this number of vertices, if it has less."""
        if not self._most < vertices <= MOST_WIDE:
            return
        counts = self._library.planarbend_room(vertices)
        self._make_room(counts)
        for name in ("vertices", "faces"):
            items = getattr(counts, name)
            self._held[name] = (ctypes.c_uint8 * items)()
            setattr(self._marks, name, ctypes.addressof(self._held[name]))
            setattr(self._marks, f"{name}_room", items)
        self._most = vertices

    def _called(self, record: Record, outer: str, drawing: str, conditions: Conditions) -> int:
        """Return the result of a call. Raise `ValueError` if there are more turns than edges can be given."""
        request = self._request
        request.outer, request.drawing = OUTER[outer], DRAWING[drawing]
        if isinstance(record, array):
            request.record8, request.record8_count = None, 0
            request.record16, request.record16_count = record.buffer_info()
        else:
            request.record8, request.record8_count = record, len(record)
            request.record16, request.record16_count = None, 0
        turns = [(tail, head, 0) for tail, head in conditions.straight]
        turns += [(tail, head, in_16_bits(number)) for (tail, head), number in conditions.turns.items()]
        angles = [(tail, head, number) for (tail, head), number in conditions.angles.items()]
        held = []  # until the call has ended
        for name, width, items in (("turns", 3, turns), ("angles", 3, angles), ("inner", 2, conditions.inner)):
            held.append(array("H", itertools.chain.from_iterable(items)))
            setattr(request, name, held[-1].buffer_info()[0] if held[-1] else None)
            setattr(request, f"{name}_count", len(held[-1]) // width)
        self._make_room_for(record[0] if record else 0)
        result = self._call()
        if result == FULL:  # conditions may need more bends
            self._make_room(self._counts)
            result = self._call()
        if result == ARGUMENT:
            self._check(result)
        return result

    def _call(self) -> int:
        """Return the result of a call with the request as it is."""
        structures = self._request, self._counts, self._lists, self._marks
        return int(self._layout(self._object, *map(ctypes.addressof, structures)))

    def _cut(self) -> Cut:
        """Return the cut that the last call wrote: the marked vertices and faces, and the outer face."""
        vertices = tuple(vertex for vertex, mark in enumerate(self._held["vertices"], 1) if mark)
        return Cut(vertices, tuple(face for face, mark in enumerate(self._held["faces"]) if mark), self._marks.outer_face)

    def line(self, record: Record, outer: str = "first", drawing: str = "short", straight: Iterable[Dart] = (),
             inner: Iterable[Dart] = (), angles: Mapping[Dart, int] = NOTHING,
             turns: Mapping[Dart, int] = NOTHING) -> dict[str, Any]:
        """Return the line of `planarbend layout --json` for a record, without "file" and "graph".

        Parameters
        ----------
        record : bytes, or array of 16-bit numbers
            One record of planar_code; with entries of 16 bits, of at most 1,200 vertices.
        outer : {"first", "best"}
            The outer face.
        drawing : {"none", "quick", "short"}
            The drawing. With "none", "points" is None and "drawn" is "no".
        straight, inner : iterables of (u, v), optional
            See `planarbend.layout.engine.Conditions`. If they cannot be kept, "status" is "noshape", "noedge", "noouter" or
            "wide", and the only other key is "cut" (see `planarbend.layout.engine.Cut`), with "noshape" alone.
        angles, turns : mappings from (u, v) to numbers, optional
            The same.

        Raises
        ------
        ValueError
            The bytes are not exactly one record; two conditions on one edge differ (`Conflict`); an angle is not 1 to 4, or
            there are more turns than edges can be given.
        """
        conditions = Conditions(tuple(straight), tuple(inner), angles, turns)
        result = self._called(record, outer, drawing, conditions)
        if NO_SHAPE <= result <= WIDE:
            return ({"cut": self._cut()} if result == NO_SHAPE else {}) | {"status": self.word(result)}
        found, counts = self._found(result, drawing != "none"), self._counts
        if isinstance(found, Refusal):
            return ({"rule": found.word} if found.word else {}) | {"status": found.status}
        line = json_of(found, (counts.vertices, counts.edges, counts.faces))
        return line if drawing != "none" else line | {"drawn": "no", "points": None}

    def laid(self, record: Record, outer: str, drawing: str, conditions: Conditions = FREE) -> Answer | Refusal:
        """Return the layout of a record with its representation, or why there is none.

        Raises
        ------
        NotKept
            No layout keeps the conditions.
        ValueError
            As for `line`.
        """
        result = self._called(record, outer, drawing, conditions)
        self._look_whether_kept(result)
        return self._found(result, drawing != "none")

    def answer(self, record: Record, outer: str, conditions: Conditions = FREE) -> Answer:
        """Return the bends, points and corners of a record, for `planarbend.draw`; raise `NotKept` if the conditions cannot be
        kept, and `PlanarbendError` if the record is refused or memory ran out."""
        result = self._called(record, outer, "short", conditions)
        self._look_whether_kept(result)
        if result != OK:
            raise PlanarbendError(f"planarbend could not lay out the graph: {self.word(result)}")
        return Answer(self._counts.bends, *self._points())

    def _look_whether_kept(self, result: int) -> None:
        """Raise `NotKept` if this is the result of conditions that cannot be kept."""
        if NO_SHAPE <= result <= WIDE:
            raise NotKept(self.word(result), self._cut() if result == NO_SHAPE else None)

    def _found(self, result: int, is_drawn: bool = True) -> Answer | Refusal:
        """Return what the last call found."""
        if result == MEMORY:
            return Refusal(self.word(result))
        if result != OK:
            self._check(result)
            return Refusal("refused", self.word(result))
        counts, lists = self._counts, self._held
        turns = lists["turns"][:4 * counts.edges]
        representation = Representation(
            counts.outer_face, lists["angles"][:2 * counts.edges],
            ["L" * left + "R" * right for left, right in zip(turns[::2], turns[1::2])],
            lists["vertex_prices"][:counts.vertices], lists["face_prices"][:counts.faces])
        return Answer(counts.bends, *(self._points() if is_drawn else ([], [])), representation)

    def _points(self) -> tuple[list[GridPoint], list[list[GridPoint]]]:
        """Return the points of the vertices, and the corners of the edges, that the last call found."""
        counts, lists = self._counts, self._held
        points = pairs(lists["points"][:2 * counts.vertices])
        if not counts.corners:
            return points, [[] for _ in range(counts.edges)]
        corners, starts = pairs(lists["corners"][:2 * counts.corners]), lists["corner_starts"][:counts.edges + 1]
        return points, [corners[start:end] for start, end in itertools.pairwise(starts)]


def in_16_bits(turns: int) -> int:
    """Return the number without a sign that has the same 16 bits, or raise `ValueError` if there is none."""
    if not -0x8000 <= turns < 0x8000:
        raise ValueError(f"{turns} turns of an edge: more than edges can be given")
    return turns & 0xFFFF


def pairs(numbers: list[int]) -> list[GridPoint]:
    """Return consecutive numbers as pairs."""
    return list(zip(numbers[::2], numbers[1::2]))


def json_of(answer: Answer, sizes: tuple[int, int, int]) -> dict[str, Any]:
    """Return the JSON line of a layout with its representation, without "file" and "graph"; sizes are n, m and f."""
    found = answer.representation
    assert found is not None, "it was asked for"
    points = {"corners": [[list(corner) for corner in corners] for corners in answer.corners], "vertices": [list(point) for point in answer.points]}
    return {"angles": found.angles, "bends": answer.bends, "drawn": "yes", "f": sizes[2], "m": sizes[1], "n": sizes[0],
            "points": points,
            "prices": {"faces": found.face_prices, "vertices": found.vertex_prices}, "status": "ok", "turns": found.turns}


def any_record_of(lists: Lists) -> Record:
    """Return the record with these neighbour lists, in bytes if it has at most 255 vertices."""
    return record_of(lists) if len(lists) <= MOST_VERTICES else wide_record_of(lists)


class LibraryEngine:
    """The library, which is called once for each graph."""

    keeps = True
    most_vertices = MOST_WIDE

    def __init__(self, library: Library | None = None) -> None:
        """Return the engine of a library, by default that of `path`."""
        self.library = library or Library()

    def lay_keeping(self, lists: Lists, outer: str, conditions: Conditions) -> Answer:
        """Return a layout that keeps conditions, as `Engine.lay_keeping`."""
        return self.library.answer(any_record_of(lists), outer, conditions)

    def lay(self, graphs: Sequence[Lists], outer: str) -> list[Answer]:
        """Return the layout of each graph, as `Engine.lay`."""
        return [self.library.answer(any_record_of(lists), outer) for lists in graphs]
