"""Finds a good shape of an embedded component: which vertices are cages, and the outer face.

A search begins with the shapes of one plan and goes through a table of moves, `MOVES` and then, while a box is not a
rectangle, `REPAIRS`. Each move begins with the shapes found so far and adds others; what costs least in the end is drawn.
"""
from __future__ import annotations

import itertools
import random
import sys
from collections.abc import Callable, Iterable, Iterator, Sequence
from dataclasses import replace

from planarbend.drawing.expand import LEAST_CAGE, MOST_CONNECTIONS, Expansion, size_of
from planarbend.drawing.mend import loosened, ways_round_cage, ways_round_spine
from planarbend.drawing.numbering import Contraction, Form, conditions_of, form_of, outer_forms
from planarbend.drawing.planarization import Planarization
from planarbend.drawing.plans import Budget, Options, Plan
from planarbend.drawing.shape import Shape, shape_of
from planarbend.layout.engine import Engine, NotKept

NUMBERINGS = 7  # further numberings of each plan, for each unit of effort
MOST_FACES = 24  # outer faces of a plan that are tried
MOST_TURNS = 8  # spines that are tried in place of a cage
MOST_KEPT = 3  # plans for which the engine keeps boxes rectangular
MOST_TURNED = 2  # plans that are turned out in search of rectangles
MOST_REPAIRS = 3  # vertices that become points or spines, one after another
MOST_MENDS = 4  # rounds in which edges may bend instead of boxes
MOST_MENDED = 4  # shapes with which each of these rounds continues
MOST_PICKED = 4  # shapes that are tried in pixels
MOST_COMPACT = 8  # further shapes that are tried in pixels for a compact drawing
MOST_SQUARES = 4_000_000  # calls for boxes of a dense graph, times the square of its nodes, for each plan
LARGE = 80  # nodes from which other embeddings are tried even if nothing bends
DENSE = 600  # nodes from which plans are compared by few calls of an engine that keeps conditions
ROUNDS, WIDTH = 8, 12  # of the search for another embedding: rounds for each unit of effort, and embeddings in each


class TooLarge(Exception):
    """A component takes more vertices than planarbend draws; the argument is their number."""


class NoSuchFace(Exception):
    """No face has all the vertices that must be on the outer face."""


class NoStraightEdges(Exception):
    """No drawing was found in which all required edges are straight."""


class Search:
    """Looks for a good shape of one embedded component: for each plan, it tries `NUMBERINGS` times the effort."""

    def __init__(self, planar: Planarization, engine: Engine, options: Options, budget: Budget | None = None) -> None:
        """Return a search before its first shape. When the budget is spent, it makes do with what it has found."""
        self.budget = budget or Budget()
        self.planar, self.engine, self.options, self.random = planar, engine, options, random.Random(options.seed)
        self.most = engine.most_vertices
        self.degree = [len(darts) for darts in planar.rotation[:planar.vertex_count]]
        self.large = [vertex for vertex, count in enumerate(self.degree) if count > MOST_CONNECTIONS]
        self.first = self.first_plan(False)

    def fits(self, plan: Plan) -> bool:
        """Return whether a plan takes few enough vertices, before parallel edges."""
        return size_of(self.planar, plan) - self.degree.count(2) <= self.most

    def expanded(self, plan: Plan) -> Expansion | None:
        """Return the expansion of a plan, or None if it takes too many vertices."""
        if not self.fits(plan):
            return None
        expansion = Expansion(self.planar, plan, self.most)
        return expansion if len(Contraction(expansion).nodes) <= self.most else None

    def first_plan(self, compact: bool) -> Plan:
        """Return the plan with cages for all vertices above degree 4; spines if compact, or for the largest until all fits."""
        plan = Plan(spines=tuple((vertex, 0) for vertex in self.large)) if compact else Plan(frozenset(self.large))
        for vertex in sorted(plan.cages, key=lambda vertex: (-self.degree[vertex], vertex)):
            if self.fits(plan):
                break
            plan = plan.spined(vertex, 0)
        return plan

    def fitting_plans(self) -> list[Plan]:
        """Return the plans with as few spines as fit: one with spines for the largest vertices, one for the smallest."""
        ranked = sorted(self.large, key=lambda vertex: (-self.degree[vertex], vertex))
        found = []
        for order in (ranked, ranked[::-1]):
            plan = Plan(frozenset(order))
            for vertex in order:
                if self.expanded(plan) is not None:
                    break
                plan = plan.spined(vertex, 0)
            found.append(plan)
        return list(dict.fromkeys(found))

    def is_dense(self, expansion: Expansion) -> bool:
        """Return whether an expansion is so large that few calls are made, and the engine keeps conditions."""
        return self.engine.keeps and len(expansion.rotation) >= DENSE

    def shapes_of(self, plans: Iterable[Plan]) -> list[Shape]:
        """Return the shapes of plans with their best outer faces, each under several numberings, which can lead to different
        shapes with the fewest bends."""
        expansions = [expansion for expansion in map(self.expanded, plans) if expansion is not None]
        return there(self.laid([form for expansion in expansions for form in self.numberings(expansion)], "best"))

    def laid(self, forms: Sequence[Form], outer: str) -> list[Shape | None]:
        """Return the shape of each form; None if some edges must be straight, and cannot be."""
        if self.options.straight:
            return self.kept(forms, outer, outer == "first")
        self.budget.left -= sum(len(form.lists) for form in forms)
        return list(map(shape_of, forms, self.engine.lay([form.lists for form in forms], outer)))

    def kept(self, forms: Iterable[Form], outer: str, has_outer: bool = False) -> list[Shape | None]:
        """Return the shape of each form in which boxes are rectangles and the required edges are straight, or None. If the
        forms already have their outer faces, these are the longest."""
        found: list[Shape | None] = []
        for form in forms:
            conditions = conditions_of(form, self.options.straight, has_outer)
            try:
                shape = shape_of(form, self.engine.lay_keeping(form.lists, outer, conditions))
            except NotKept:
                found.append(None)
                continue
            found.append(shape if all(len(shape.lines[edge]) == 2 for edge in self.options.straight) else None)
        return found

    def numberings(self, expansion: Expansion, dice: random.Random | None = None) -> Iterator[Form]:
        """Yield an expansion under several numberings: by the search's own random source, or by another one."""
        graph = Contraction(expansion)
        order = graph.nodes
        yield form_of(graph, order)
        for _ in range(NUMBERINGS * self.options.effort):
            (dice or self.random).shuffle(order)
            yield form_of(graph, order)

    def turned_out(self, plan: Plan) -> list[Shape]:
        """Return the shapes of a plan with other outer faces: with all of `outer` on them, if there are such vertices."""
        expansion = self.expanded(plan)
        if expansion is None:
            return []
        return there(self.laid(list(itertools.islice(outer_forms(expansion, self.options.outer), MOST_FACES)), "first"))

    def look(self, *plans: Plan) -> list[Shape]:
        """Return the shapes of plans, with `outer` on the outer face if there are such vertices. One call for several plans
        starts the program once."""
        if self.options.outer:
            return [found for plan in plans for found in self.turned_out(plan)]
        return self.shapes_of(plans)

    def run(self) -> list[Shape]:
        """Return shapes of this embedding: those of the first plan, and what `MOVES` and `REPAIRS` add."""
        pool = self.begin()
        for move in MOVES:
            pool += move(self, pool)
        return self.repaired(pool)

    def begin(self) -> list[Shape]:
        """Return shapes of the first plan that has any, which becomes `first`."""
        pool = self.look(self.first)
        if not pool and self.options.straight:
            pool = self.look(self.first.caged(self.small(self.first)))
        if not pool and self.engine.keeps:
            pool = self.look(*self.fitting_plans())
            self.first = best_of(pool).plan if pool else self.first
        if not pool:
            self.first = self.first_plan(True)
            pool = self.look(self.first)
        if not pool:
            if self.options.outer and self.shapes_of([self.first]):
                raise NoSuchFace
            if self.options.straight and self.expanded(self.first) is not None:
                raise NoStraightEdges
            raise TooLarge(len(Expansion(self.planar, Plan(spines=tuple((vertex, 0) for vertex in self.large))).rotation))
        return pool

    def repaired(self, pool: list[Shape]) -> list[Shape]:
        """Return a pool with what `REPAIRS` add while its best shape has a box that is not a rectangle."""
        for moves in REPAIRS:
            if not best_of(pool).broken or self.budget.left < 0:
                break
            pool = [*pool, *(found for move in moves for found in move(self, pool))]
        return pool

    def small(self, plan: Plan) -> list[int]:
        """Return the vertices of degree 3 and 4 that are points so far."""
        return [vertex for vertex in range(self.planar.vertex_count) if self.can_be_cage(vertex, plan)]

    def boxed(self, pool: list[Shape]) -> list[Shape]:
        """Return shapes with boxes for vertices of degree 3 and 4: for all, and for those at the ends of edges that bend."""
        return self.look(self.first.caged(self.small(self.first)), self.first.caged(self.small_at_bends(best_of(pool))))

    def unboxed(self, pool: list[Shape]) -> list[Shape]:
        """Return shapes without those added boxes of the best shape that could as well be points."""
        best = best_of(pool)
        return self.look(best.plan.uncaged(vertex for vertex in best.plan.cages - self.first.cages if best.is_point(vertex)))

    def elsewhere(self, best: Shape) -> list[Shape]:
        """Return shapes of another embedding, by the plan of the best one so far; none if a few moves find nothing better."""
        if not any(best.price()[:2]) and len(best.expansion.rotation) < LARGE or best.broken and self.budget.left < 0:
            return []
        from planarbend.drawing.moves import climbed  # slow to load, and often not needed

        is_kept = self.is_dense(best.expansion) and self.prices([self.planar], best.plan)[0][0] > 0
        other = climbed(self.planar, lambda planars: self.prices(planars, best.plan, is_kept), self.random,
                        rounds=ROUNDS * self.options.effort * (1 + is_kept), width=WIDTH)
        if other is self.planar:
            return []
        search = Search(other, self.engine, replace(self.options, seed=0, outer=()), self.budget)
        pool = search.shapes_of([replace(best.plan, loose=())])
        return search.repaired(pool) if pool else []

    def prices(self, planars: Sequence[Planarization], plan: Plan, is_kept: bool = False) -> list[tuple[int, ...]]:
        """Return the price of a plan in each of several embeddings, which have other pieces: with the best outer face, or with
        rectangles for boxes and the longest outer face outside them, which is quickly found."""
        expansions = [Expansion(planar, replace(plan, loose=()), self.most) for planar in planars]
        forms = [next(self.numberings(expansion)) for expansion in expansions]
        fitting = [form for form in forms if len(form.lists) <= self.most]
        laid = iter(self.kept(fitting, "first") if is_kept else self.laid(fitting, "best"))
        found = [next(laid) if len(form.lists) <= self.most else None for form in forms]
        return [(sys.maxsize,) if one is None else one.price() for one in found]

    def can_be_cage(self, vertex: int, plan: Plan) -> bool:
        """Return whether a vertex of degree 3 or 4 is a point so far."""
        return LEAST_CAGE <= self.degree[vertex] <= MOST_CONNECTIONS and vertex not in plan.cages

    def outward(self, pool: list[Shape]) -> list[Shape]:
        """Return shapes of the best plans with other outer faces; none if some vertices must be on that face."""
        plans = list(dict.fromkeys(found.plan for found in sorted(pool, key=Shape.price)))
        return [found for plan in plans[:0 if self.options.outer else MOST_TURNED] for found in self.turned_out(plan)]

    def spined(self, pool: list[Shape]) -> list[Shape]:
        """Return shapes with broken boxes, one after another, as points or as spines; if some stay broken, also shapes with
        spines for all vertices above degree 4."""
        current, added = best_of(pool), list[Shape]()
        for _ in range(MOST_REPAIRS):
            if not current.broken or self.budget.left < 0:
                return added
            vertex, degree = current.broken[0], self.degree[current.broken[0]]
            if degree <= MOST_CONNECTIONS:
                plans = [current.plan.uncaged([vertex])]
            else:
                plans = [current.plan.spined(vertex, turn) for turn in range(0, degree, max(1, degree // MOST_TURNS))]
            tried = self.look(*plans)
            if not tried:
                break
            added += tried
            current = best_of(tried)
        return added if self.options.outer else added + self.shapes_of([self.first_plan(True)])

    def kept_boxes(self, pool: list[Shape]) -> list[Shape]:
        """Return shapes with the fewest bends in which all boxes are rectangles, by the best plans so far."""
        if not self.engine.keeps:
            return []
        plans = dict.fromkeys(replace(found.plan, loose=()) for found in sorted(pool, key=Shape.price))
        found: list[Shape] = []
        dice = random.Random(self.options.seed)  # a separate source, so that these shapes do not change later choices
        outer = self.options.outer
        for expansion in map(self.expanded, itertools.islice(plans, MOST_KEPT)):
            if expansion is not None:
                forms = outer_forms(expansion, outer) if outer else self.numberings(expansion, dice)
                most = MOST_FACES
                if self.is_dense(expansion) and not outer:
                    most = max(1, MOST_SQUARES // len(expansion.rotation) ** 2)  # numberings: none has fewer bends
                found += there(self.kept(itertools.islice(forms, most), "first" if outer else "best", bool(outer)))
        return found

    def kept_first(self, pool: list[Shape]) -> list[Shape]:
        """Return what `kept_boxes` returns if the best shape so far is dense: no other way to rectangles takes as few calls."""
        return self.kept_boxes(pool) if self.is_dense(best_of(pool).expansion) else []

    def mend(self, pool: list[Shape]) -> list[Shape]:
        """Return shapes with edges that may bend instead of boxes, starting from a few of the best shapes."""
        beam, tried, added = sorted(pool, key=Shape.price)[:MOST_MENDED], set[Plan](), list[Shape]()
        for _ in range(MOST_MENDS):
            plans = dict.fromkeys(plan for found in beam for plan in self.mended(found) if plan not in tried)
            tried |= set(plans)
            found = self.look(*plans)
            added += found
            beam = sorted([*beam, *found], key=Shape.price)[:MOST_MENDED]
            if not beam[0].broken:
                needed = tuple(pair for pair in beam[0].plan.loose if self.is_bent(beam[0], pair[0]))
                return added + self.look(replace(beam[0].plan, loose=needed))
        return added

    def mended(self, found: Shape) -> list[Plan]:
        """Return plans that may make broken boxes rectangles; the first is for all of them at once."""
        first: list[int] = []
        ways: list[list[int]] = []
        for vertex, sections in found.sections.items():
            out = self.planar.rotation[vertex]
            if vertex in found.plan.cages:
                sets = list(ways_round_cage(sections))
            else:
                turn = dict(found.plan.spines)[vertex]
                out = out[turn:] + out[:turn]
                sets = list(ways_round_spine(sections, len(out)))
            pieces = [[out[place] >> 1 for place in places] for places in sets]
            first += pieces[0] if pieces else []
            ways += pieces
        plans = [replace(found.plan, loose=loosened(found.plan.loose, way)) for way in [first, *ways] if way]
        roomier = [self.roomier(plan, found.broken) for plan in dict.fromkeys(plans)]
        return [plan for plan in dict.fromkeys(roomier) if self.fits(plan)]

    def roomier(self, plan: Plan, but: Sequence[int]) -> Plan:
        """Return a plan with spines in place of some cages, the smallest first, if it takes too many vertices as it is."""
        for vertex in sorted(plan.cages, key=lambda vertex: (self.degree[vertex], vertex)):
            if self.fits(plan):
                break
            if self.degree[vertex] > MOST_CONNECTIONS and vertex not in but:
                plan = plan.spined(vertex, 0)
        return plan

    def is_bent(self, found: Shape, piece: int) -> bool:
        """Return whether the edge with a piece bends."""
        return any(len(line) > 2 and any(dart >> 1 == piece for dart in chain)
                   for line, chain in zip(found.lines, self.planar.chains))

    def small_at_bends(self, found: Shape) -> list[int]:
        """Return the vertices of degree 3 and 4 at the ends of edges that bend."""
        ends = set()
        for line, chain in zip(found.lines, self.planar.chains):
            if len(line) > 2:
                ends |= {self.planar.tail[chain[0]], self.planar.tail[chain[-1] ^ 1]}
        return sorted(vertex for vertex in ends if self.can_be_cage(vertex, found.plan))


Move = Callable[[Search, list[Shape]], list[Shape]]
"""A way from the shapes found so far to others."""
MOVES: tuple[Move, ...] = (
    Search.boxed,     # vertices of degree 3 and 4 get boxes
    Search.unboxed,   # those that could as well be points lose them
)
REPAIRS: tuple[tuple[Move, ...], ...] = (  # tried in turn while a box is not a rectangle; moves of a row begin alike
    (Search.kept_first,),              # the engine keeps boxes of a dense graph
    (Search.mend, Search.kept_boxes),  # edges may bend instead of boxes; the engine keeps boxes, if it can
    (Search.outward,),                 # other outer faces
    (Search.spined,),                  # spines in place of broken cages, and then of all
)


def there(found: Iterable[Shape | None]) -> list[Shape]:
    """Return what there is."""
    return [one for one in found if one is not None]


def best_of(pool: Iterable[Shape]) -> Shape:
    """Return the shape with the lowest price; the first of several."""
    return min(pool, key=Shape.price)


def choose(planar: Planarization, engine: Engine, options: Options, budget: Budget | None = None) -> list[Shape]:
    """Return some good shapes of an embedded component, the one with the fewest bends first, or raise `TooLarge` (even with
    spines), `NoSuchFace` or `NoStraightEdges`."""
    search = Search(planar, engine, options, budget)
    pool = search.run()
    if not options.outer:
        pool += search.elsewhere(best_of(pool))
    shapes = picked(pool)
    if options.compact:
        shapes += smallest(pool + search.look(search.first_plan(True)))
    return shapes


def picked(pool: list[Shape]) -> list[Shape]:
    """Return for each plan the shape with the lowest price, best first; only shapes without broken boxes, if there are any."""
    best: dict[Plan, Shape] = {}
    for found in sorted(pool, key=Shape.price):
        best.setdefault(found.plan, found)
    fewest = min(len(found.broken) for found in best.values())
    return [found for found in best.values() if len(found.broken) == fewest][:MOST_PICKED]


def smallest(pool: list[Shape]) -> list[Shape]:
    """Return the shapes that take the least room on the grid; only shapes without broken boxes, if there are any."""
    found = sorted(pool, key=lambda found: (found.price()[0], found.price()[2], found.price()[1]))
    return [one for one in found[:MOST_COMPACT] if len(one.broken) == len(found[0].broken)]
