"""Good shapes of a component with clusters: embeddings with few crossings, directions with few bends, and the core's drawings."""
from __future__ import annotations

from collections.abc import Iterable, Iterator, Sequence

from planarbend.clusters import clusters_of
from planarbend.drawing.choose import smallest
from planarbend.drawing.frame_items import NoFrames
from planarbend.drawing.given import given_shape
from planarbend.drawing.nest_search import planarized
from planarbend.drawing.nested import NestedPlanarization
from planarbend.drawing.resite import resited
from planarbend.drawing.nesting import nesting_of
from planarbend.drawing.outer_search import planarized_together
from planarbend.drawing.plans import Options
from planarbend.drawing.shape import Shape
from planarbend.drawing.turns import Directed, Program, outer_faces
from planarbend.graph import Graph
from planarbend.layout.engine import Engine, NotKept

MOST_FACES = 4  # outer faces of each embedding that are tried
MOST_WORK = 8_000  # outer faces times darts
MOST_WAYS = 4  # of these, those in which vertices with few edges may be boxes too
MOST_SHAPES = 3  # that are drawn, without and with such boxes each


def framed_shapes(graph: Graph, options: Options, engine: Engine) -> list[Shape]:
    """Return good shapes of a component with the frames of its clusters.

    Raises
    ------
    NoFrames
        There is no library, the component takes too many vertices, edges cannot be straight, or vertices of `outer` lie in a
        cluster or on no common face.
    """
    if not engine.keeps:
        raise NoFrames("frames need the library libplanarbend of this version")
    check_outer(graph, options.outer)
    searches = planarized(nesting_of(graph), options.seed, options.effort)
    if searches[0][0].nesting.ports:
        planars = resited(searches)
    else:
        planars = [planar for _, planar in searches]
    if len(options.outer) > 1 and not any(faces_with(planar, options.outer) for planar in planars):
        planars = planarized_together(nesting_of(graph), options.outer, options.seed, options.effort)
    if not planars:
        names = ", ".join(graph.vertices[vertex].name for vertex in options.outer)
        raise NoFrames(f"no embedding was found with these vertices on one face outside all frames: {names}")
    if min(len(planar.rotation) for planar in planars) > engine.most_vertices:
        raise NoFrames(f"they take more than {engine.most_vertices} vertices and crossings")
    best = sorted(directed(planars, options), key=lambda one: one.cost)
    ways = sorted(filter(None, (upright(one, options) for one in best[:MOST_WAYS])), key=lambda one: one.cost)
    boxed = sorted(filter(None, (again(one, options) for one in ways)), key=lambda one: one.cost)
    found = [*shapes_of(ways[:MOST_SHAPES], engine), *shapes_of(boxed[:MOST_SHAPES], engine)]
    if options.compact:
        even = list(filter(None, (upright(one, options, True) for one in best)))
        boxed = list(filter(None, (again(one, options, True) for one in even)))
        found += smallest([*shapes_of(even, engine), *shapes_of(boxed, engine)])
    if not found:
        raise NoFrames(f"no drawing was found with at most {engine.most_vertices} vertices of degree 4 and all conditions")
    return found


def check_outer(graph: Graph, outer: Sequence[int]) -> None:
    """Raise `NoFrames` if vertices that must lie on the outer face lie in a cluster, whose frame is between them and this face."""
    home = clusters_of(graph.clusters)
    names = [f"{graph.vertices[vertex].name} (in {graph.clusters[home[vertex]].name})" for vertex in outer if vertex in home]
    if names:
        raise NoFrames(f"no vertex within a frame is on the outer face, as it must be: {', '.join(names)}")


def faces_with(planar: NestedPlanarization, vertices: Sequence[int]) -> list[int]:
    """Return the faces outside all frames with all of some vertices, the longest first."""
    return [face for face in outer_faces(planar) if {planar.tail[dart] for dart in planar.walks[face]}.issuperset(vertices)]


def directed(planars: Iterable[NestedPlanarization], options: Options) -> Iterator[Directed]:
    """Yield embeddings with outer faces that have all of `outer`, and directions in which vertices with ports may lie on their
    sides."""
    for planar in planars:
        program = Program(planar, (), options.straight)
        faces = faces_with(planar, options.outer)
        for face in faces[:max(1, min(MOST_FACES, MOST_WORK // len(planar.tail)))]:
            try:
                yield program.solved(face, is_free=True)
            except ArithmeticError:  # edges cannot be straight
                continue


def upright(way: Directed, options: Options, is_even: bool = False) -> Directed | None:
    """Return the directions of the same embedding and outer face in which vertices with ports are upright and, if `is_even`, the
    sides of large vertices have equally many lines; None if the search for them ends without any."""
    try:
        return way if len(way.upright) < 2 and not is_even else Program(way.planar, (), options.straight, is_even).solved(way.outer)
    except ArithmeticError:
        return None


def again(way: Directed, options: Options, is_even: bool = False) -> Directed | None:
    """Return the directions of the same embedding if vertices with few edges may be boxes too; None if none is one."""
    found = Program(way.planar, range(len(way.planar.nesting.home)), options.straight, is_even).solved(way.outer, way.upright)
    return found if found.cost < way.cost else None


def shapes_of(ways: Iterable[Directed], engine: Engine) -> Iterator[Shape]:
    """Yield the shapes of directions that fit the engine."""
    for way in ways:
        try:
            shape = given_shape(way, engine)
        except NotKept as fault:
            if fault.word != "wide":
                raise
            continue
        if shape is not None:
            yield shape
