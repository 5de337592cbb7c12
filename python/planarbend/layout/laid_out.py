"""Layouts of a stream of embedded graphs: one object for each graph.

    for layout in layouts([{"a": ["b"], "b": ["a"]}], outer="best"):
        print(layout.bends, layout.points["a"], layout.path("a", "b"), layout.outer_face)

A graph is a mapping from each vertex to its neighbours in clockwise order, a networkx `PlanarEmbedding`, or a `Record`. Graphs
are read and layouts returned while the program runs, so memory does not grow with their number. After a million graphs,
another run continues. Only Python's standard library is needed.

Errors are exceptions: `NoProgram` and `RunFailed`, and for a single graph `GraphRefused`, `GraphUnkept`, `GraphUndrawn` or
`GraphLost`. After an error of a single graph, `next` continues with the next graph.
"""
from __future__ import annotations

import collections
import dataclasses
import itertools
import subprocess
import tempfile
import threading
from collections.abc import Hashable, Iterable, Iterator, Mapping
from typing import Any

from planarbend.layout import library
from planarbend.layout.embedding import Embedding
from planarbend.layout.engine import Answer, Conditions, Dart, NotKept, Refusal, Representation, points_of
from planarbend.layout.faults import fault_of
from planarbend.layout.planar_code import (
    HEADER, MOST_NEIGHBOURS, MOST_RECORDS, MOST_VERTICES, MOST_WIDE, Lists, lists_of, record_of)
from planarbend.programs import NoProgram, PlanarbendError, RunFailed, program
from planarbend.layout.reports import NoLine, json_line

Vertex = Hashable
Point = tuple[int, int]


class GraphError(PlanarbendError):
    """One graph has no layout: the one with this `number` in the stream, counted from 1."""

    def __init__(self, number: int, said: str) -> None:
        """Return the error of a graph."""
        super().__init__(f"graph {number}: {said}")
        self.number = number


class GraphRefused(GraphError):
    """The graph breaks a rule: `rule` is its word in docs/FORMAT.md, `what` says what breaks it, and `vertices` are those that
    `what` names."""

    def __init__(self, number: int, rule: str, what: str = "", vertices: tuple[Vertex, ...] = ()) -> None:
        """Return the error of a graph."""
        super().__init__(number, f"refused {rule}{what and ': '}{what}")
        self.rule, self.what, self.vertices = rule, what, vertices


class GraphUnkept(GraphError):
    """No layout of the graph keeps the conditions.

    `word`: "noshape" (no shape has these angles and turns), "noedge" (two vertices are not neighbours), "noouter" (all faces
    must be inner) or "wide" (the drawing does not fit the grid).
    `vertices`, `faces`: with "noshape", vertices and faces that need more turns than the conditions allow, if the outer face is
    `outer_face`. A face has its vertices in walking order, with the face on the left. With "noedge", `vertices` are the two.
    """

    def __init__(self, number: int, word: str, what: str = "", vertices: tuple[Vertex, ...] = (),
                 faces: tuple[tuple[Vertex, ...], ...] = (), outer_face: tuple[Vertex, ...] = ()) -> None:
        """Return the error of a graph."""
        super().__init__(number, f"no layout keeps the conditions: {word}{what and ': '}{what}")
        self.word, self.what, self.vertices, self.faces, self.outer_face = word, what, vertices, faces, outer_face

    @staticmethod
    def of(number: int, record: Record, fault: NotKept) -> GraphUnkept:
        """Return the error of a record whose conditions cannot be kept."""
        if fault.cut is None:
            return GraphUnkept(number, fault.word)
        embedding, names = Embedding.of(record.lists), record.names
        walks = [tuple(names[embedding.tail[dart]] for dart in walk) for walk in embedding.walks]
        vertices = tuple(names[vertex - 1] for vertex in fault.cut.vertices)
        faces = tuple(walks[face] for face in fault.cut.faces)
        said = [f"vertices {', '.join(map(repr, vertices))}"] if vertices else []
        said += [f"faces {', '.join(map(repr, faces))}"] if faces else []
        return GraphUnkept(number, fault.word, f"{' and '.join(said)} need more turns than the conditions allow", vertices, faces,
                           walks[fault.cut.outer])


Found = Answer | Refusal | GraphUnkept
Answered = tuple["Record", Found]


class GraphUndrawn(GraphError):
    """The graph has no drawing, which is proved never to occur: `cause` is the word for the cause."""

    def __init__(self, number: int, cause: str) -> None:
        """Return the error of a graph."""
        super().__init__(number, f"drawn=no cause={cause}")
        self.cause = cause


class GraphLost(GraphError):
    """Memory ran out for the graph."""

    def __init__(self, number: int) -> None:
        """Return the error of a graph."""
        super().__init__(number, "memory")


@dataclasses.dataclass(frozen=True)
class Record:
    """A graph as in planar_code."""

    names: tuple[Vertex, ...]  # the vertices of the given graph, vertex 1 first
    lists: Lists  # the neighbours of each vertex by number, clockwise

    @staticmethod
    def of(graph: Record | Mapping[Vertex, Iterable[Vertex]] | Any) -> Record:
        """Return the record of a graph.

        Raises
        ------
        ValueError
            The graph has 0 or over 1,200 vertices, one of at most 255 has a vertex with over 254 neighbours, or a
            neighbour is not a vertex.
        TypeError
            The argument is not an embedded graph.
        """
        if isinstance(graph, Record):
            return graph
        if hasattr(graph, "neighbors_cw_order"):  # a PlanarEmbedding of networkx
            graph = {vertex: list(graph.neighbors_cw_order(vertex)) for vertex in graph}
        elif hasattr(graph, "adjacency"):
            raise TypeError("a networkx graph has no embedding: pass networkx.check_planarity(graph)[1]")
        elif not isinstance(graph, Mapping):
            raise TypeError(f"a graph is a mapping from each vertex to its neighbours in clockwise order, not {graph!r:.60}")
        names = tuple(graph)
        number = {name: place for place, name in enumerate(names, 1)}
        if not 1 <= len(names) <= MOST_WIDE:
            raise ValueError(f"a graph of {len(names)} vertices; planarbend lays out 1 to {MOST_WIDE}")
        lists = []
        for name, neighbours in graph.items():
            strange = [other for other in neighbours if other not in number]
            if strange:
                raise ValueError(f"{name!r} has the neighbour {strange[0]!r}, which is not a vertex")
            lists.append([number[other] for other in neighbours])
            if len(lists[-1]) > MOST_NEIGHBOURS and len(names) <= MOST_VERTICES:
                raise ValueError(f"{name!r} has {len(lists[-1])} neighbours; planar_code has at most {MOST_NEIGHBOURS}")
        return Record(names, lists)

    @staticmethod
    def read(record: bytes) -> Record:
        """Return the record with these bytes; its vertices are named 1, 2, and so on."""
        lists = lists_of(record)
        return Record(tuple(range(1, len(lists) + 1)), lists)

    def bytes(self) -> bytes:
        """Return the record's bytes in planar_code; raise `ValueError` if it has over 255 vertices, which only the library
        takes."""
        if len(self.lists) > MOST_VERTICES:
            raise ValueError(f"a graph of {len(self.lists)} vertices; planar_code has 1 to {MOST_VERTICES}")
        return record_of(self.lists)


@dataclasses.dataclass(frozen=True)
class Layout:
    """The layout of one graph. Vertices are those of the given graph."""

    number: int  # of the graph in the stream, counted from 1
    record: Record  # the graph
    bends: int  # the fewest
    outer: int  # the number of the outer face
    faces: list[list[Vertex]]  # the vertices of each, in walking order with the face on the left
    points: dict[Vertex, Point]  # of each vertex; x grows to the east, y to the north
    corners: dict[tuple[Vertex, Vertex], list[Point]]  # of each edge in both directions, from tail to head
    answer: Answer  # the layout by numbers (docs/JSON.md)

    @property
    def outer_face(self) -> list[Vertex]:
        """The vertices of the outer face, in walking order with it on the left."""
        return self.faces[self.outer]

    @property
    def line(self) -> dict[str, Any]:
        """The JSON line of the layout (docs/JSON.md)."""
        sizes = len(self.record.names), len(self.corners) // 2, len(self.faces)
        return dict(sorted((library.json_of(self.answer, sizes) | {"file": 1, "graph": self.number}).items()))

    def path(self, tail: Vertex, head: Vertex) -> list[Point]:
        """Return the points along the edge from `tail` to `head`, both ends included."""
        return [self.points[tail], *self.corners[tail, head], self.points[head]]

    @staticmethod
    def of(number: int, record: Record, answer: Found) -> Layout:
        """Return the layout of a record, or raise a `GraphError` if the answer is none."""
        if isinstance(answer, GraphUnkept):
            raise answer
        if isinstance(answer, Refusal):
            if answer.status == "refused":
                what, which = fault_of(answer.word, record.names, record.lists)
                raise GraphRefused(number, answer.word, what, tuple(record.names[vertex] for vertex in which))
            raise GraphUndrawn(number, answer.word) if answer.status == "undrawn" else GraphLost(number)
        assert answer.representation is not None, "it was asked for"
        embedding, names = Embedding.of(record.lists), record.names
        corners = {}
        for edge, between in enumerate(answer.corners):
            tail, head = names[embedding.tail[2 * edge]], names[embedding.tail[2 * edge + 1]]
            corners[tail, head], corners[head, tail] = between, between[::-1]
        return Layout(number, record, answer.bends, answer.representation.outer,
                      [[names[embedding.tail[dart]] for dart in walk] for walk in embedding.walks],
                      dict(zip(names, answer.points, strict=True)), corners, answer)


def laid_in(line: dict[str, Any], lists: Lists) -> Answer | Refusal:
    """Return the layout of a graph with its representation, as its JSON line has it, or why there is none."""
    if line["status"] == "refused":
        return Refusal("refused", line["rule"])
    if line["status"] != "ok":
        return Refusal("memory")
    if line["points"] is None:
        return Refusal("undrawn", line["drawn"])
    prices = line["prices"]
    return Answer(line["bends"], *points_of(line["points"]), Representation(
        outer_of(Embedding.of(lists), line), line["angles"], line["turns"], prices["vertices"], prices["faces"]))


def outer_of(embedding: Embedding, line: dict[str, Any]) -> int:
    """Return the outer face of a JSON line: around it, the sum of 2 minus the angle, plus left, minus right turns, is -4."""
    sums = [0] * len(embedding.walks)
    for dart, angle, turns in zip(embedding.order, line["angles"], line["turns"], strict=True):
        sums[embedding.face[dart]] += 2 - angle + turns.count("L") - turns.count("R")
    found = [face for face, turning in enumerate(sums) if turning == -4]
    if len(found) != 1:
        raise ValueError(f"graph {line['graph']}: its angles and turns have {len(found)} outer faces, not one")
    return found[0]


class Run:
    """One run of `layout --json -`. A thread writes the records; `lines` yields the lines."""

    def __init__(self, words: list[str], records: Iterator[Record], most: int) -> None:
        """Return a run with these words for at most this many records."""
        self.given: collections.deque[Record] = collections.deque()  # records without a line so far
        self.failed: BaseException | None = None  # what the caller's graphs raised
        self.is_last = False  # whether the graphs ended in this run
        self.said = tempfile.TemporaryFile()
        try:
            self.child = subprocess.Popen(words, stdin=subprocess.PIPE, stdout=subprocess.PIPE, stderr=self.said)
        except OSError as error:
            raise NoProgram(f"{words[0]}: {error.strerror}") from None
        assert self.child.stdout is not None
        self.output = self.child.stdout
        self.feeder = threading.Thread(target=self._feed, args=(records, most), daemon=True)
        self.feeder.start()

    def _feed(self, records: Iterator[Record], most: int) -> None:
        """Write the records to the program, and note what the caller's graphs raise."""
        try:
            assert self.child.stdin is not None
            with self.child.stdin as sink:
                sink.write(HEADER)
                sink.flush()
                for record in itertools.islice(records, most):
                    self.given.append(record)
                    sink.write(record.bytes())
                    sink.flush()  # the next graph may take long
                    most -= 1
                self.is_last = most > 0
        except BrokenPipeError:
            pass  # the run has ended; its status says why
        except BaseException as error:  # raised after the layouts of all earlier graphs
            self.failed = error

    def lines(self) -> Iterator[tuple[Record, dict[str, Any]]]:
        """Yield each record with its line, in order. An error is raised after the last line."""
        ended = False
        for text in self.output:
            try:
                line = json_line(text.decode())
            except (NoLine, UnicodeDecodeError):
                break
            if "end" in line:
                ended = line["end"] == "complete"
                break
            yield self.given.popleft(), line
        self.end(ended)

    def end(self, is_whole: bool) -> None:
        """Wait for the end of the run; raise what the caller's graphs raised, or `RunFailed` if the run failed or ended early."""
        self.output.close()
        status = self.child.wait()
        self.feeder.join()
        self.said.seek(0)
        said = self.said.read().decode(errors="replace").strip()
        self.said.close()
        if self.failed is not None:
            raise self.failed
        if status not in (0, 3) or not is_whole or self.given:
            raise RunFailed(status, said)

    def stop(self) -> None:
        """Stop the run."""
        self.child.kill()
        self.output.close()
        self.child.wait()
        self.said.close()


def refuse_single(graphs: Any) -> None:
    """Check that this is an iterable of graphs, or raise `TypeError` if it is a single graph."""
    if isinstance(graphs, (Record, Mapping, str, bytes)) or hasattr(graphs, "adjacency"):
        raise TypeError("layouts takes an iterable of graphs, not a single graph: pass [graph], or call layout_of")


def answers_of(words: list[str], records: Iterator[Record], most: int, runs: list[Run]) -> Iterator[Answered]:
    """Yield the answers of one run after another; the list has the run that goes on."""
    is_last = False
    while not is_last:
        runs.append(Run(words, records, most))
        for record, line in runs[0].lines():
            yield record, laid_in(line, record.lists)
        is_last = runs.pop().is_last


def answers_by(found: library.Library, records: Iterator[Record], outer: str, drawing: str,
               conditions: Conditions) -> Iterator[Answered]:
    """Yield the answers of the library for records that are to keep conditions, by names of vertices."""
    for number, record in enumerate(records, 1):
        yield record, answer_by(found, number, record, (outer, drawing), conditions)


def answer_by(found: library.Library, number: int, record: Record, asked: tuple[str, str], conditions: Conditions) -> Found:
    """Return the answer of the library for a record, the one with this number in the stream."""
    given = library.any_record_of(record.lists)
    if not conditions:
        return found.laid(given, *asked)
    place = {name: place for place, name in enumerate(record.names, 1)}
    strange = [name for dart in conditions.darts for name in dart if name not in place]
    if strange:
        raise ValueError(f"a condition names {strange[0]!r}, which is not a vertex")
    try:
        return found.laid(given, *asked, conditions.numbered(place))
    except NotKept as fault:
        apart = ((tail, head) for tail, head in conditions.darts if place[head] not in record.lists[place[tail] - 1])
        if fault.word == "noedge" and (ends := next(apart, None)):
            return GraphUnkept(number, fault.word, f"{ends[0]!r} and {ends[1]!r} are not neighbours", ends)
        return GraphUnkept.of(number, record, fault)


class Layouts:
    """An iterator over the layouts of a stream of graphs, by runs of the program. After a `GraphError`, it continues with the
    next graph."""

    def __init__(self, graphs: Iterable[Any], outer: str = "first", words: Iterable[str] = (), most: int = MOST_RECORDS) -> None:
        """Return an iterator, as `layouts`, with at most this many graphs in one run."""
        refuse_single(graphs)
        self.number = 0
        self.runs: list[Run] = []  # the one that goes on, if there is one
        self.answers = self._answers(map(Record.of, graphs), outer, words, most)

    def _answers(self, records: Iterator[Record], outer: str, words: Iterable[str], most: int) -> Iterator[Answered]:
        """Return the answers for all records, each with its record."""
        return answers_of([program(), "layout", "--json", "--outer", outer, *words, "-"], records, most, self.runs)

    def __iter__(self) -> Layouts:
        """Return this iterator."""
        return self

    def __next__(self) -> Layout:
        """Return the next layout."""
        try:
            record, answer = next(self.answers)
        except BaseException:
            self.runs.clear()
            self.close()
            raise
        self.number += 1
        return Layout.of(self.number, record, answer)

    def close(self) -> None:
        """Stop; no layouts follow."""
        self.answers = iter(())
        while self.runs:
            self.runs.pop().stop()

    def __enter__(self) -> Layouts:
        """Return this iterator."""
        return self

    def __exit__(self, *_: object) -> None:
        """Stop."""
        self.close()

    def __del__(self) -> None:
        """Stop, if a run goes on."""
        if getattr(self, "runs", None):
            self.close()


class LibraryLayouts(Layouts):
    """The same by calls of the library, with a drawing that is "short" or "quick"."""

    def __init__(self, graphs: Iterable[Any], outer: str = "first", drawing: str = "short",
                 conditions: Conditions = library.FREE) -> None:
        """Return an iterator, as `layouts`."""
        refuse_single(graphs)
        self.library = library.Library()
        self.conditions = conditions
        super().__init__(graphs, outer, [drawing])

    def _answers(self, records: Iterator[Record], outer: str, words: Iterable[str], most: int) -> Iterator[Answered]:
        """Return the answers for all records, each with its record."""
        drawing, = words
        return answers_by(self.library, records, outer, drawing, self.conditions)

    def close(self) -> None:
        """Stop, and free the library's memory; no layouts follow."""
        super().close()
        self.library.close()


def layouts(graphs: Iterable[Any], outer: str = "first", words: Iterable[str] = (), *, straight: Iterable[Dart] = (),
            inner: Iterable[Dart] = (), angles: Mapping[Dart, int] = library.NOTHING,
            turns: Mapping[Dart, int] = library.NOTHING) -> Layouts:
    """Return an iterator over the layouts of a stream of graphs.

    Uses the library if there is one, PLANARBEND is not set, and `words` is empty or `--drawing KIND`; otherwise runs the
    program. The layouts are the same. Conditions need the library.

    Parameters
    ----------
    graphs : iterable
        Mappings from each vertex to its neighbours in clockwise order, networkx `PlanarEmbedding`s, or `Record`s.
    outer : {"first", "best"}
        The outer face, as in `layout --outer`; under conditions, of the faces that may be outside.
    words : iterable of str, optional
        Further arguments for `layout`.
    straight : iterable of (vertex, vertex), optional
        Edges of each graph that must be straight.
    inner : iterable of (vertex, vertex), optional
        Faces that must not be the outer one, each by a dart (from, to) with the face on its left.
    angles : mapping from (vertex, vertex) to int, optional
        By dart (from, to), the angle at its head on its left, in right angles, 1 to 4. It lies between the dart and the edge
        to the neighbour that is clockwise after `from` around `to`.
    turns : mapping from (vertex, vertex) to int, optional
        By dart (from, to), how often it turns left; below 0, how often it turns right. It turns no other way.

    Raises
    ------
    TypeError
        `graphs` is a single graph.
    NoProgram
        The program is needed, and there is none.
    PlanarbendError
        There are conditions, and no library, or `words` for the program.
    ValueError
        Two conditions on one edge differ (`planarbend.layout.engine.Conflict`), or an angle is not 1 to 4.

    Notes
    -----
    `next` raises a `GraphError` for a graph without a layout, what `Record.of` raises, `ValueError` if a condition names no
    vertex or there are more turns than edges can be given, and `RunFailed` if the program fails.

    Examples
    --------
    >>> triangle = {"a": ["b", "c"], "b": ["c", "a"], "c": ["a", "b"]}
    >>> [layout.bends for layout in layouts([triangle])]
    [1]
    >>> [layout.bends for layout in layouts([triangle], turns={("a", "b"): 3})]
    [3]
    """
    words, conditions = list(words), Conditions(tuple(straight), tuple(inner), angles, turns)
    drawing = {(): "short", ("--drawing", "short"): "short", ("--drawing", "quick"): "quick"}.get(tuple(words))
    if drawing is not None and library.is_wanted():
        return LibraryLayouts(graphs, outer, drawing, conditions)
    if conditions:
        raise PlanarbendError("conditions need the library libplanarbend, which ./planarbend --build builds; it takes no"
                              " arguments of the program but --drawing")
    return Layouts(graphs, outer, words)


def layout_of(graph: Any, outer: str = "first", *, straight: Iterable[Dart] = (), inner: Iterable[Dart] = (),
              angles: Mapping[Dart, int] = library.NOTHING, turns: Mapping[Dart, int] = library.NOTHING) -> Layout:
    """Return the layout of one graph.

    Parameters
    ----------
    graph : mapping, `PlanarEmbedding` or `Record`
        An embedded graph, as in `layouts`.
    outer : {"first", "best"}
        The outer face, as in `layout --outer`.
    straight, inner, angles, turns : optional
        Conditions, as in `layouts`.

    Raises
    ------
    GraphError
        The graph has no layout.
    ValueError, TypeError
        The argument is not an embedded graph, as for `Record.of`, or the conditions are none, as for `layouts`.
    NoProgram, RunFailed, PlanarbendError
        There is neither program nor library, the program fails, or there are conditions and no library.

    Examples
    --------
    >>> square = {1: [2, 4], 2: [3, 1], 3: [4, 2], 4: [1, 3]}
    >>> layout_of(square, angles={(1, 2): 3}).bends
    2
    """
    with layouts([graph], outer, straight=straight, inner=inner, angles=angles, turns=turns) as found:
        return next(found)
