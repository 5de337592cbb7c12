"""A sheet becomes a drawn schematic: each component is wired, directed, laid by the core and placed in pixels."""
from __future__ import annotations

import dataclasses
import math
from collections.abc import Sequence

from planarbend.layout.engine import Engine
from planarbend.progress import stage
from planarbend.schematics.directions import Directed, cheapest
from planarbend.schematics.drawn import Jog, Schematic, Wire
from planarbend.schematics.figures import figure, figures_of
from planarbend.schematics.gathering import gather, length_of
from planarbend.schematics.labelling import label
from planarbend.schematics.parts import TURNED_OVER, Sheet
from planarbend.schematics.placing import Placed, lone, placed
from planarbend.schematics.plane import plane_graph
from planarbend.schematics.skeleton import skeleton_of
from planarbend.schematics.spacing import Spacing
from planarbend.schematics.strokes import Point, Pose
from planarbend.schematics.turning import Turning
from planarbend.schematics.wirings import components, part_of_sheet, wirings_of

BORDER = 20.0  # pixels around the drawing
BETWEEN = 30.0  # pixels between components
AREA = 300.0  # square pixels that cost as much as a pixel of a wire
JOG, BEND = 40.0, 100.0  # what a jog costs, and a bend or as much of a wish, in pixels of a wire
ASPECT = 1.4  # of the width of the drawing to its height, if the components allow it


def schematic_of(sheet: Sheet, engine: Engine, seed: int = 0, effort: int = 1, free: bool = False) -> Schematic:
    """Return the drawing of a sheet, whose power nets have flags.

    The same arguments give the same drawing.

    Parameters
    ----------
    sheet : Sheet
    engine : Engine
        The library, which must take angles and turns.
    seed : int
        Of the random choices.
    effort : int
        How long to search for few crossings.
    free : bool
        Whether parts may have any direction.

    Raises
    ------
    TooLarge
        A component takes more vertices than the engine.

    Examples
    --------
    >>> from planarbend.layout.library import LibraryEngine
    >>> from planarbend.schematics.flags import split
    >>> from planarbend.schematics.readers import read
    >>> sheet = split(read(b"A divider\\nR1 in out 10k\\nR2 out 0 22k\\nV1 in 0 5\\n.end\\n", "divider.cir"))
    >>> drawing = schematic_of(sheet, LibraryEngine())  # doctest: +SKIP
    >>> drawing.bends, len(drawing.crossings), len(drawing.sheet.parts)  # doctest: +SKIP
    (2, 0, 5)
    """
    found: list[Placed] = []
    places: list[int] = []
    members = components(sheet)
    for number, parts in enumerate(members, 1):
        stage(f"component {number} of {len(members)}: {len(parts)} parts and flags")
        places += parts
        found.append(component(part_of_sheet(sheet, parts), engine, seed, effort, free))
    return assembled(sheet, found, places)


def component(sheet: Sheet, engine: Engine, seed: int, effort: int, free: bool) -> Placed:
    """Return a connected sheet in pixels."""
    wirings = wirings_of(sheet, seed, effort)
    if not wirings[0].embedding.edge:
        part = sheet.parts[0]
        return lone(figure(part, Pose(0 if free else part.want, False, part.kind in TURNED_OVER), list(range(len(part.pins)))))
    tried = cheapest([Turning(search.embedding) for search in wirings], free)
    found = [laid(one, engine) for one in tried]
    return min(zip(found, tried), key=lambda pair: price_of(pair[0]) + BEND * pair[1].price)[0]


def laid(one: Directed, engine: Engine) -> Placed:
    """Return a wiring with directions in pixels."""
    plane = plane_graph(one)
    skeleton = skeleton_of(plane, plane.laid(engine))
    found = placed(Spacing(skeleton, figures_of(skeleton)))
    gather(found)
    return found


def price_of(one: Placed) -> float:
    """Return what is to be small in a component: the length of wires, the area, and the number of jogs, in pixels of a wire."""
    left, top, right, bottom = one.bounds()
    return sum(length_of(wire.points) for wire in one.wires) + (right - left) * (bottom - top) / AREA + JOG * len(one.jogs)


def assembled(sheet: Sheet, found: Sequence[Placed], places: Sequence[int]) -> Schematic:
    """Return the drawing of components on shelves, the parts in the order of the sheet."""
    corners, size = shelves([one.bounds() for one in found])
    whole = Placed()
    for one, by in zip(found, corners):
        first = len(whole.wires)
        whole.parts += one.parts
        whole.poses += [dataclasses.replace(pose, at=moved(pose.at, by)) for pose in one.poses]
        whole.shapes += [shape.moved(by) for shape in one.shapes]
        whole.wires += [Wire(wire.net, [moved(point, by) for point in wire.points]) for wire in one.wires]
        whole.junctions += [(net, moved(at, by)) for net, at in one.junctions]
        whole.crossings += [(moved(at, by), nets) for at, nets in one.crossings]
        whole.jogs += [Jog(jog.wire + first, jog.corner, jog.into) for jog in one.jogs]
    order = sorted(range(len(places)), key=places.__getitem__)
    drawn = Sheet(sheet.name, [whole.parts[at] for at in order], sheet.nets, sheet.notes)
    result = Schematic(drawn, [whole.poses[at] for at in order], [whole.shapes[at] for at in order], [[] for _ in order],
                       whole.wires, whole.junctions, whole.crossings, size, whole.jogs)
    label(result)
    stage("writing")
    return result


def moved(point: Point, by: Point) -> Point:
    """Return a point after it was moved."""
    return point[0] + by[0], point[1] + by[1]


def shelves(boxes: Sequence[tuple[float, float, float, float]]) -> tuple[list[Point], Point]:
    """Return by how much each component is to be moved, and the size of the whole: the highest ones first, in rows."""
    sizes = [(math.ceil(right - left) + BETWEEN, math.ceil(bottom - top) + BETWEEN) for left, top, right, bottom in boxes]
    wide = max(max(width for width, _ in sizes), math.sqrt(ASPECT * sum(width * height for width, height in sizes)))
    found: list[Point] = [(0.0, 0.0)] * len(boxes)
    x = y = deepest = widest = 0.0
    for place in sorted(range(len(boxes)), key=lambda place: (-sizes[place][1], place)):
        if x and x + sizes[place][0] > wide:
            x, y, deepest = 0.0, y + deepest, 0.0
        found[place] = BORDER + x - math.floor(boxes[place][0]), BORDER + y - math.floor(boxes[place][1])
        x += sizes[place][0]
        widest, deepest = max(widest, x), max(deepest, sizes[place][1])
    return found, (widest - BETWEEN + 2 * BORDER + 1, y + deepest - BETWEEN + 2 * BORDER + 1)
