"""What a right answer is, without the code of the product: darts and faces of neighbour lists, rules for graphs, the JSON form
of lines, what the points of a drawing show, and the fewest bends, also under conditions. By docs/FORMAT.md, docs/JSON.md and
docs/CHECK.md. The fewest bends are those of scipy's HiGHS, and regions are scipy's labels (Debian: python3-scipy)."""
import collections
import itertools
import json
import random
from collections.abc import Callable, Iterator
from dataclasses import dataclass, field
from typing import Any

GRID_END, NUMBER_END, FACE_END, ANGLE_END, PRICE_END = 65_535, 2**32 - 1, 2**16 - 1, 2**8 - 1, 2**31
LONGEST = 4_000_000  # bytes of a line, without its end
EXCHANGED = str.maketrans("LR", "RL")
Lists = list[list[int]]
Point = tuple[int, int]
Walls = dict[tuple[Point, Point], tuple[int, int]]


class Wrong(Exception):
    """The first error of a line: its word, and its place, such as `edge=3`."""


class Plane:
    """The darts, edges and faces of neighbour lists that break no rule, numbered as in docs/JSON.md."""

    def __init__(self, lists: Lists) -> None:
        self.vertices = len(lists)
        self.darts = [(tail, head) for tail, heads in enumerate(lists, 1) for head in heads]
        number = {dart: place for place, dart in enumerate(self.darts)}
        self.back = [number[head, tail] for tail, head in self.darts]
        self.next = []
        for tail, head in self.darts:
            around = lists[head - 1]
            self.next.append(number[head, around[(around.index(tail) + 1) % len(around)]])
        self.walks: list[list[int]] = []  # the darts of each face in walking order, beginning with its least
        self.face = [-1] * len(self.darts)
        for dart in range(len(self.darts)):
            if self.face[dart] < 0:
                self.walks.append([])
            while self.face[dart] < 0:
                self.face[dart] = len(self.walks) - 1
                self.walks[-1].append(dart)
                dart = self.next[dart]
        self.faces = len(self.walks)
        self.outer = longest(self, range(self.faces))
        self.lesser = [dart for dart, back in enumerate(self.back) if dart < back]
        self.degree = collections.Counter(tail for tail, _ in self.darts)


def longest(plane: Plane, faces: Any) -> int:
    """The first of the faces with the most darts."""
    return max(faces, key=lambda face: (len(plane.walks[face]), -face))


def broken_rule(lists: Lists) -> str | None:
    """The word of the first rule of docs/FORMAT.md that neighbour lists break."""
    count = len(lists)
    darts = {(tail, head) for tail, heads in enumerate(lists, 1) for head in heads}
    met, waiting = {1}, [1] if lists else []
    for vertex in waiting:  # which grows
        new = [head for head in lists[vertex - 1] if head <= count and head not in met]
        met.update(new)
        waiting += new
    rules = [("range", any(head > count for _, head in darts)), ("loop", any(tail == head for tail, head in darts)),
             ("multi", len(darts) < sum(map(len, lists))),
             ("asymmetric", any((head, tail) not in darts for tail, head in darts)), ("edgeless", not darts),
             ("degree", any(len(heads) > 4 for heads in lists)), ("disconnected", len(met) < count)]
    first = next((word for word, is_broken in rules if is_broken), None)
    return first or (None if count - len(darts) // 2 + Plane(lists).faces == 2 else "genus")


# ---- the JSON form


def whole(value: Any, least: int = 0, end: int = NUMBER_END) -> int:
    """An integer of a line within a range."""
    if type(value) is not int or not least <= value <= end:
        raise Wrong("line=range")
    return value


def listed(value: Any, each: Callable[[Any], Any], word: str, length: int | None = None) -> list[Any]:
    """A list of a line, each of whose elements is read by `each`."""
    if not isinstance(value, list) or length not in (None, len(value)):
        raise Wrong(f"line={word}")
    return [each(element) for element in value]


def points_of(value: Any) -> list[Any]:
    return listed(value, lambda point: tuple(listed(point, whole, "points", 2)), "points")


def turns_of(value: Any) -> str:
    if not isinstance(value, str) or set(value) - set("LR"):
        raise Wrong("line=turns")
    return value


def field_of(value: Any, key: str, word: str) -> Any:
    if not isinstance(value, dict) or key not in value:
        raise Wrong(f"line={word}")
    return value[key]


def value_of(text: bytes) -> Any:
    """The JSON value of a line, with None for numbers that are no integers."""
    try:
        if len(text) > LONGEST:
            raise ValueError
        return json.loads(text.decode(), parse_float=lambda _: None, parse_constant=lambda _: 1 / 0)
    except (ValueError, RecursionError, ZeroDivisionError):
        raise Wrong("line=malformed") from None


# The fields of a line that need not be there, each with what reads it.
FIELDS: dict[str, Callable[[Any], Any]] = {
    "angles": lambda value: listed(value, lambda angle: whole(angle, 0, ANGLE_END), "angles"),
    "turns": lambda value: listed(value, turns_of, "turns"),
    "prices": lambda value: [listed(field_of(value, key, "prices"), lambda price: whole(price, -PRICE_END, PRICE_END - 1),
                                    "prices") for key in ("vertices", "faces")],
    "bends": whole, "outer": lambda value: whole(value, 0, FACE_END)}


def read_line(text: bytes) -> dict[str, Any]:
    """The fields of a line. Raises `Wrong` if it does not have the form of one."""
    value = value_of(text)
    if not isinstance(value, dict):
        raise Wrong("line=malformed")
    points = field_of(value, "points", "points")
    return {"vertices": points_of(field_of(points, "vertices", "points")),
            "corners": listed(field_of(points, "corners", "points"), points_of, "points"),
            **{key: read(value[key]) for key, read in FIELDS.items() if key in value}}


# ---- the drawing


def paths_of(plane: Plane, points: dict[str, Any]) -> list[list[Any]]:
    """The points along each edge, its ends included."""
    vertices = points["vertices"]
    return [[vertices[plane.darts[dart][0] - 1], *between, vertices[plane.darts[dart][1] - 1]]
            for dart, between in zip(plane.lesser, points["corners"], strict=True)]


def length_of(path: list[Any]) -> int:
    return sum(abs(x - end) + abs(y - top) for (x, y), (end, top) in itertools.pairwise(path))


def step(one: Point, other: Point) -> Point:
    """The direction from one point to another, along each axis."""
    return (other[0] > one[0]) - (other[0] < one[0]), (other[1] > one[1]) - (other[1] < one[1])


def directions_of(edge: int, path: list[Point]) -> list[Point]:
    """The direction of each part of an edge's path."""
    found = list(itertools.starmap(step, itertools.pairwise(path)))
    for part, direction in enumerate(found):
        if direction.count(0) != 1:
            raise Wrong("drawn=axes", f"edge={edge}", f"part={part}")
    return found


def turns_along(edge: int, directions: list[Point]) -> str:
    """The turn at each corner of an edge."""
    turns = ""
    for corner, ((x, y), after) in enumerate(itertools.pairwise(directions)):
        if after not in ((-y, x), (y, -x)):
            raise Wrong("drawn=turn", f"edge={edge}", f"corner={corner}")
        turns += "L" if after == (-y, x) else "R"
    return turns


def met_along(path: list[Point]) -> Iterator[Point]:
    """The integer points of a path after its first."""
    for (x, y), end in itertools.pairwise(path):
        along, up = step((x, y), end)
        while (x, y) != end:
            x, y = x + along, y + up
            yield x, y


class Seen:
    """What the points of a line show: of each dart the turns, the direction in which it leaves, and the angle; and the
    outer face. Raises `Wrong` if they draw no plane."""

    def __init__(self, plane: Plane, line: dict[str, Any]) -> None:
        self.plane = plane
        vertices, corners = line["vertices"], line["corners"]
        for word, found, count in (("vertices", vertices, plane.vertices), ("edges", corners, len(plane.lesser))):
            if len(found) != count:
                raise Wrong(f"drawn={word}")
        places = [(f"vertex={vertex}", point) for vertex, point in enumerate(vertices, 1)]
        places += [(f"edge={edge} corner={corner}", point) for edge, between in enumerate(corners)
                   for corner, point in enumerate(between)]
        for place, point in places:
            if max(point) > GRID_END:
                raise Wrong("drawn=grid", place)
        self.paths = paths_of(plane, line)
        directions = [directions_of(edge, path) for edge, path in enumerate(self.paths)]
        self.turns, self.leaving = [""] * len(plane.darts), [(0, 0)] * len(plane.darts)
        for edge, (dart, along) in enumerate(zip(plane.lesser, directions)):
            back, (x, y) = plane.back[dart], along[-1]
            self.turns[dart] = turns_along(edge, along)
            self.turns[back] = self.turns[dart][::-1].translate(EXCHANGED)
            self.leaving[dart], self.leaving[back] = along[0], (-x, -y)
        self.bends = sum(map(len, self.turns)) // 2
        self.angles = self._angles()
        self.outer = self._outer()
        met = collections.Counter(vertices)
        for path in self.paths:
            met.update(list(met_along(path))[:-1])
        if max(met.values()) > 1:
            raise Wrong("drawn=meet")

    def _angles(self) -> list[int]:
        """The angle of each dart: the number of quarter turns to the left from the next dart of its face to the reverse
        dart."""
        plane, angles = self.plane, []
        around: collections.Counter[int] = collections.Counter()
        for dart, after in enumerate(plane.next):
            (x, y), angle = self.leaving[after], 0
            while angle == 0 or (x, y) != self.leaving[plane.back[dart]]:
                x, y, angle = -y, x, angle + 1
            angles.append(angle)
            around[plane.darts[dart][1]] += angle
        if wrong := [vertex for vertex in range(1, plane.vertices + 1) if around[vertex] != 4]:
            raise Wrong("embedding", f"vertex={wrong[0]}")
        return angles

    def _outer(self) -> int:
        """The one face round which the turns sum to -4; round others they sum to 4."""
        turned = turned_round(self.plane, self.angles, self.turns)
        if sorted(turned) != [-4] + [4] * (len(turned) - 1):
            raise Wrong("outer")
        return turned.index(-4)


def turned_round(plane: Plane, angles: list[int], turns: list[str]) -> list[int]:
    """How many quarter turns to the left are made round each face."""
    return [sum(2 - angles[dart] + turns[dart].count("L") - turns[dart].count("R") for dart in walk)
            for walk in plane.walks]


def wrong_field(seen: Seen, line: dict[str, Any]) -> str | None:
    """The first field of a line that does not agree with its points; prices must prove that the bends are fewest."""
    for key in FIELDS:
        if key in line and not (are_prices(seen.plane, seen.angles, seen.turns, line[key]) if key == "prices"
                                else line[key] == getattr(seen, key)):
            return key
    return None


def walls_of(plane: Plane, paths: list[list[Any]], xs: dict[int, int], ys: dict[int, int]) -> Walls:
    """The sides of cells along which edges run: for the two cells that touch there, the face in which each must lie.
    Cell (i, j) is the one east of the i-th least x and north of the j-th least y, counted from 1; 0 is before the
    least."""
    walls: Walls = {}
    for dart, path in zip(plane.lesser, paths):
        face, across = plane.face[dart], plane.face[plane.back[dart]]
        for (x, y), (nextx, nexty) in itertools.pairwise(path):
            i, j, lasti, lastj = xs[x], ys[y], xs[nextx], ys[nexty]
            for row in range(min(j, lastj), max(j, lastj)):  # going north, the west is on the left
                walls[(i - 1, row), (i, row)] = (face, across) if lastj > j else (across, face)
            for column in range(min(i, lasti), max(i, lasti)):  # going east, the north is
                walls[(column, j - 1), (column, j)] = (across, face) if lasti > i else (face, across)
    return walls


def look_at_regions(plane: Plane, paths: list[list[Any]], outer: int) -> None:
    """Checks that the regions of a drawing are the faces, each on the left of its darts, and the unbounded one the outer
    face, by labels of the cells, of what is between them and of points."""
    import numpy
    from scipy import ndimage

    met = [point for path in paths for point in path]
    xs, ys = ({at: number for number, at in enumerate(sorted({point[axis] for point in met}), 1)} for axis in (0, 1))
    walls = walls_of(plane, paths, xs, ys)
    is_open = numpy.ones((2 * len(xs) + 1, 2 * len(ys) + 1), bool)
    is_open[1::2, 1::2] = False
    for (i, j), (nexti, nextj) in walls:
        is_open[i + nexti, j + nextj] = False
    region, count = ndimage.label(is_open)
    face_of = {region[0, 0]: outer}
    for sides, faces in walls.items():
        for (i, j), face in zip(sides, faces):
            assert face_of.setdefault(region[2 * i, 2 * j], face) == face, "regions"
    assert count == plane.faces and len(set(face_of.values())) == count, "regions"


# ---- conditions, prices and the fewest bends


@dataclass
class Asked:
    """Conditions by the numbers of darts and faces."""

    angles: dict[int, int] = field(default_factory=dict)
    turns: dict[int, int] = field(default_factory=dict)  # of lesser darts, to the left
    inner: set[int] = field(default_factory=set)

    def along(self, plane: Plane, dart: int) -> int | None:
        """The given turns along any dart."""
        back = plane.back[dart]
        return self.turns.get(dart) if dart < back else -self.turns[back] if back in self.turns else None

    def words(self, plane: Plane, rng: random.Random) -> dict[str, Any]:
        """The conditions as the library takes them: an edge by either dart or both, a face by any dart along it."""
        turns = {}
        for dart, number in self.turns.items():
            if rng.random() < 0.6:
                turns[plane.darts[dart]] = number
            if plane.darts[dart] not in turns or rng.random() < 0.2:
                turns[plane.darts[plane.back[dart]]] = -number
        return {"angles": {plane.darts[dart]: angle for dart, angle in self.angles.items()}, "turns": turns,
                "inner": [plane.darts[rng.choice(plane.walks[face])] for face in self.inner]}


def are_prices(plane: Plane, angles: list[int], turns: list[str], prices: list[list[int]], asked: Asked = Asked()) -> bool:
    """Whether prices of vertices and faces prove that the bends are fewest, by the definition in docs/JSON.md: what is not
    given agrees with them."""
    vertices, faces = prices
    if (len(vertices), len(faces)) != (plane.vertices, plane.faces):
        return False
    for dart, (_, head) in enumerate(plane.darts):
        vertex, face, across = vertices[head - 1], faces[plane.face[dart]], faces[plane.face[plane.back[dart]]]
        if dart not in asked.angles and (angles[dart] < 4 and vertex < face or angles[dart] > 1 and vertex > face):
            return False
        if asked.along(plane, dart) is None and (across > 1 + face or "L" in turns[dart] and across != 1 + face):
            return False
    return True


class Program:
    """Least representations of a plane by HiGHS. The variables are the angle and the left turns of each dart."""

    def __init__(self, plane: Plane) -> None:
        import numpy
        from scipy import sparse

        self.plane, count = plane, len(plane.darts)
        rows = numpy.array([head - 1 for _, head in plane.darts])
        faces = plane.vertices + numpy.array(plane.face)
        number = numpy.arange(count)
        where = (numpy.concatenate([rows, faces, faces, faces[plane.back]]),
                 numpy.concatenate([number, number, count + number, count + number]))
        self.matrix = sparse.csr_matrix((numpy.repeat([1, -1, 1, -1], count), where),
                                        shape=(plane.vertices + plane.faces, 2 * count))
        self.cost = numpy.concatenate([numpy.zeros(count), numpy.ones(count)])

    def fewest(self, outer: int, asked: Asked = Asked()) -> int | None:
        """The fewest bends with this outer face, or None if no representation has what is given."""
        import numpy
        from scipy import optimize

        plane, count = self.plane, len(self.plane.darts)
        sums = [4] * plane.vertices
        sums += [(-4 if face == outer else 4) - 2 * len(walk) for face, walk in enumerate(plane.walks)]
        low, high = numpy.zeros(2 * count), numpy.full(2 * count, numpy.inf)
        low[:count], high[:count] = 1, 4
        for dart, angle in asked.angles.items():
            low[dart] = high[dart] = angle
        for dart in asked.turns:
            for one in (dart, plane.back[dart]):
                low[count + one] = high[count + one] = max(asked.along(plane, one) or 0, 0)
        found = optimize.linprog(self.cost, A_eq=self.matrix, b_eq=sums, bounds=numpy.stack([low, high], axis=1),
                                 method="highs")
        if found.status == 2:
            return None
        assert found.status == 0 and abs(found.fun - round(found.fun)) < 1e-6, found.message
        return round(found.fun)

    def best(self, asked: Asked, choice: str) -> tuple[int | None, int | None]:
        """The outer face of a choice among those that may be outside, and the fewest bends; None if there is none."""
        faces = [face for face in range(self.plane.faces) if face not in asked.inner]
        if choice == "first" and faces:
            outer = longest(self.plane, faces)
            return outer, self.fewest(outer, asked)
        kept = [(bends, face) for face in faces if (bends := self.fewest(face, asked)) is not None]
        return (min(kept)[1], min(kept)[0]) if kept else (faces[0] if faces else None, None)
