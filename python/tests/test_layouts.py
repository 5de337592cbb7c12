"""Layouts of the corpus as `planarbend.layouts` gives them: faces and outer face by the points, bends beside LEMON's.
The library and the program give the same, field by field."""
from __future__ import annotations

import contextlib
import functools
import itertools
import json
import os
import shutil
import subprocess
import tempfile
import unittest
from collections import Counter
from collections.abc import Iterator
from contextlib import contextmanager
from pathlib import Path
from unittest import mock

import support
import planarbend
from planarbend.layout import laid_out, library
from planarbend.layout.engine import Conditions, Conflict, Cut, NotKept
from planarbend.layout.planar_code import split
from oracle import Plane

# The fewest bends of all graphs of a file, with the longest outer face and with the best one, by LEMON.
BENDS = {"cubic60.pc": (176, 169), "medial60.pc": (1102, 1082), "planar_d4_n6.pc": (217, 216),
         "planar_d4_n7.pc": (1105, 1094),
         "tree60.pc": (0, 0), "grid60.pc": (0, 0)}
CHOICES = ("first", "best")
COMPILER = next(filter(shutil.which, (os.environ.get("CC") or "cc", "clang", "gcc")), None)
needs_library = unittest.skipUnless(library.path(), "the library is missing (planarbend --build makes it)")

@contextmanager
def calling(path: str | None) -> Iterator[None]:
    """The package calls the library with this path, and runs no program."""
    with mock.patch.dict(os.environ, PLANARBEND_LIBRARY=path or ""):
        os.environ.pop("PLANARBEND", None)
        yield


@functools.cache
def records_of(name: str) -> list[planarbend.Record]:
    """The graphs of a file of the corpus."""
    records, ending = split((support.CORPUS / name).read_bytes())
    assert ending == "complete"
    return list(map(planarbend.Record.read, records))


@functools.cache
def by_program(name: str, outer: str, *words: str) -> list[planarbend.Layout]:
    """The layouts of a file by the program."""
    assert "PLANARBEND" in os.environ
    return list(planarbend.layouts(records_of(name), outer, words))


def areas_of(layout: planarbend.Layout) -> list[int]:
    """Twice the area of each face, which is positive where the walk has the inside on its left."""
    found = []
    for face in layout.faces:
        ring = [point for tail, head in zip(face, face[1:] + face[:1]) for point in layout.path(tail, head)[:-1]]
        found.append(sum(x * v - u * y for (x, y), (u, v) in zip(ring, ring[1:] + ring[:1])))
    return found


def length_of(layouts: list[planarbend.Layout]) -> int:
    """The length of all edges."""
    return sum(abs(u - x) + abs(v - y) for layout in layouts for tail, head in layout.corners
               for (x, y), (u, v) in itertools.pairwise(layout.path(tail, head))) // 2


class Program(unittest.TestCase):
    def test_bends(self) -> None:
        for name, bends in BENDS.items():
            for outer, wanted in zip(CHOICES, bends, strict=True):
                found = by_program(name, outer)
                self.assertEqual([layout.number for layout in found], list(range(1, len(records_of(name)) + 1)))
                self.assertEqual([layout.record for layout in found], records_of(name))
                self.assertEqual(sum(layout.bends for layout in found), wanted, (name, outer))
                for layout in found:
                    self.assertEqual(sum(map(len, layout.corners.values())), 2 * layout.bends)

    def test_lines(self) -> None:
        """Each layout has the line that `layout --json` writes for its graph."""
        for name in ("planar_d4_n6.pc", "tree60.pc"):
            *lines, _ = support.program_run("layout", "--json", "--outer", "best", support.CORPUS / name).stdout.splitlines()
            made = [json.dumps(layout.line, separators=(",", ":")).encode() for layout in by_program(name, "best")]
            self.assertEqual(made, lines)

    def test_faces_lie_on_the_left_of_their_walks(self) -> None:
        """The inner faces are walked counter-clockwise, and the outer face round all of them."""
        for name, outer in itertools.product(BENDS, CHOICES):
            for layout in by_program(name, outer):
                areas = areas_of(layout)
                outside = areas.pop(layout.outer)
                self.assertTrue(all(area > 0 for area in areas), (name, layout.number))
                self.assertEqual(outside, -sum(areas), (name, layout.number))
                self.assertEqual(layout.outer_face, layout.faces[layout.outer])

    def test_faces_are_those_of_the_embedding(self) -> None:
        """Each dart is on one face, the next dart of a face is the next clockwise, and faces come in order."""
        for name in BENDS:
            for layout in by_program(name, "first"):
                lists = layout.record.lists
                darts = [list(zip(face, face[1:] + face[:1])) for face in layout.faces]
                self.assertEqual(Counter(itertools.chain(*darts)), Counter(
                    (tail, head) for tail, heads in enumerate(lists, 1) for head in heads))
                place = {(tail, head): (tail, at) for tail, heads in enumerate(lists, 1) for at,
                         head in enumerate(heads)}
                self.assertEqual(sorted(darts, key=lambda walk: place[walk[0]]), darts)
                for walk in darts:
                    self.assertEqual(min(walk, key=place.__getitem__), walk[0])
                    for (tail, head), (_, after) in zip(walk, walk[1:] + walk[:1]):
                        around = lists[head - 1]
                        self.assertEqual(around[(around.index(tail) + 1) % len(around)], after)
                self.assertEqual(len(lists) - len(layout.corners) // 2 + len(layout.faces), 2)

    def test_the_longest_face_is_the_first_choice(self) -> None:
        others = 0
        for name in BENDS:
            for first, best in zip(by_program(name, "first"), by_program(name, "best"), strict=True):
                lengths = list(map(len, first.faces))
                self.assertEqual(first.outer, lengths.index(max(lengths)))
                self.assertLessEqual(best.bends, first.bends)
                others += best.outer != first.outer
        self.assertGreater(others, 20)

    def test_short_drawings_are_shorter(self) -> None:
        for name in ("tree60.pc", "cubic60.pc"):
            short, quick = by_program(name, "first"), by_program(name, "first", "--drawing", "quick")
            self.assertLess(length_of(short), .98 * length_of(quick))
            self.assertTrue(all(length_of([one]) <= length_of([other]) for one,
                                other in zip(short, quick, strict=True)))
            self.assertEqual(by_program(name, "first", "--drawing", "short"), short)


@needs_library
class Library(unittest.TestCase):
    def test_it_gives_the_layouts_of_the_program(self) -> None:
        for name, outer in itertools.product((*BENDS, "families.pc", "prism85.pc"), CHOICES):
            wanted = list(planarbend.Layouts(records_of(name), outer)) if name == "families.pc" else by_program(name,
                                                                                                                outer)
            with calling(library.path()):
                found = list(planarbend.layouts(records_of(name), outer))
            self.assertEqual(found, wanted, (name, outer))

    def test_it_draws_what_is_asked_for(self) -> None:
        for name, words in itertools.product(("tree60.pc", "cubic60.pc"),
                                             (("--drawing", "quick"), ("--drawing", "short"))):
            wanted = by_program(name, "first", *words)
            with calling(library.path()):
                layouts = planarbend.layouts(records_of(name), "first", words)
                self.assertIsInstance(layouts, laid_out.LibraryLayouts)
                self.assertEqual(list(layouts), wanted, (name, words))

    def test_more_than_255_vertices(self) -> None:
        """Rings of up to 1,200 vertices, with a leaf at every third vertex of the ring: they need no bend."""
        for sides in (189, 300, 900):
            graph = {at: [(at + 1) % sides, (at - 1) % sides, *([sides + at // 3] if at % 3 == 0 else [])] for at in range(sides)}
            graph |= {sides + at // 3: [at] for at in range(0, sides, 3)}
            with calling(library.path()):
                layout, = planarbend.layouts([graph])
                self.assertEqual((len(layout.points), layout.bends), (sides * 4 // 3, 0))
                self.assertEqual(len(set(layout.points.values())), sides * 4 // 3)
            self.assertEqual(planarbend.layout_of(graph).bends if sides == 189 else 0, 0)
        with self.assertRaisesRegex(ValueError, "^a graph of 1200 vertices; planar_code has 1 to 255$"):
            planarbend.layout_of(graph)  # by the program
        with calling(library.path()):
            record = planarbend.Record(tuple(range(1201)), [[1], [0]])
            with self.assertRaisesRegex(ValueError, "^a graph of 1201 vertices; planarbend lays out 1 to 1200$"):
                planarbend.layout_of({at: [] for at in record.names})
            with library.Library() as called, self.assertRaisesRegex(ValueError, "more than 1200 vertices"):
                called.line(library.wide_record_of([[]] * 1201))

    def test_both_widths(self) -> None:
        """A record gives the same with entries of 8 and of 16 bits."""
        with library.Library(library.path()) as called:
            for name, outer in itertools.product(("planar_d4_n6.pc", "cubic60.pc"), CHOICES):
                for record in records_of(name):
                    wide, kept = library.wide_record_of(record.lists), [(1, record.lists[0][0])]
                    self.assertEqual(called.line(wide, outer), called.line(record.bytes(), outer))
                    self.assertEqual(called.line(wide, outer, straight=kept), called.line(record.bytes(), outer, straight=kept))
            for wide in ([2, 2, 0, 1], [0], [], [2, 2, 0, 1, 0, 0]):
                with self.assertRaisesRegex(ValueError, "not one record"):
                    called.line(library.array("H", wide))

    def test_one_graph(self) -> None:
        with calling(library.path()):
            layout = planarbend.layout_of({"a": "bc", "b": "ca", "c": "ab"}, "best")
            self.assertEqual((layout.bends, layout.number, sorted(map(len, layout.faces))), (1, 1, [3, 3]))
            for record, rule in (({1: [1]}, "loop"), ({1: [2], 2: []}, "asymmetric"), ({1: []}, "edgeless"),
                                 ({1: [2], 2: [1], 3: [4], 4: [3]}, "disconnected"), ({1: [2, 2], 2: [1, 1]}, "multi"),
                                 ({0: [1, 2, 3, 4, 5], **{leaf: [0] for leaf in range(1, 6)}}, "degree")):
                with self.assertRaisesRegex(planarbend.GraphRefused, f"^graph 1: refused {rule}: ") as refused:
                    planarbend.layout_of(record)
                self.assertEqual(refused.exception.rule, rule)

    def test_what_breaks_a_rule(self) -> None:
        """By hand: the torus has 4 vertices, 6 edges and 2 faces."""
        torus = {"a": "bcd", "b": "acd", "c": "abd", "d": "abc"}
        for graph, what, vertices in (
                ({"a": "a"}, "loop: vertex 'a' is its own neighbour", "a"),
                ({"a": "bb", "b": "aa"}, "multi: 'b' is 2 times in the list of 'a'", "ab"),
                ({"a": "bc", "b": "ac", "c": "b"}, "asymmetric: 'c' is in the list of 'a', 'a' is not in that of 'c'", "ac"),
                ({"a": "", "b": ""}, "edgeless: 2 vertices without a neighbour", ""),
                ({"a": "bcdef", **{leaf: "a" for leaf in "bcdef"}}, "degree: vertex 'a' has 5 neighbours", "a"),
                ({"a": "b", "b": "a", "c": "d", "d": "c"}, "disconnected: no path joins 'a' and 'c'", "ac"),
                (torus, "genus: 4 vertices - 6 edges \\+ 2 faces is 0, and not 2", ""),
                (planarbend.Record.read(bytes([2, 2, 0, 3, 0])), "range: vertex 2 has the neighbour 3, and the last vertex is 2",
                 (2,))):
            for library_or_program in (calling(library.path()), contextlib.nullcontext()):
                with library_or_program, self.assertRaisesRegex(planarbend.GraphRefused, f"^graph 1: refused {what}$") as found:
                    planarbend.layout_of(graph)
                self.assertEqual(found.exception.vertices, tuple(vertices))

    def test_the_stream_goes_on_after_a_graph_that_is_refused(self) -> None:
        edge = {"a": ["b"], "b": ["a"]}
        with calling(library.path()), planarbend.layouts([edge, {"a": []}, edge]) as found:
            self.assertEqual(next(found).number, 1)
            with self.assertRaisesRegex(planarbend.GraphRefused, "^graph 2: refused edgeless: vertex 'a' has no neighbour$"):
                next(found)
            self.assertEqual(next(found).number, 3)
            self.assertEqual(list(found), [])

    def test_no_layouts_follow_the_end(self) -> None:
        edge = {"a": ["b"], "b": ["a"]}
        with calling(library.path()):
            found = planarbend.layouts([edge] * 3)
            self.assertEqual(next(found).number, 1)
            found.close()
            self.assertEqual(list(found), [])

    def test_bends_alone(self) -> None:
        with library.Library() as called:
            for name, wanted in BENDS.items():
                records = [record.bytes() for record in records_of(name)]
                self.assertEqual(tuple(sum(filter(None, called.bends(records, outer))) for outer in CHOICES), wanted)
            self.assertEqual(list(called.bends([bytes([1, 0]), bytes([2, 2, 0, 1, 0])])), [None, 0])
            with self.assertRaisesRegex(ValueError, "not one record"):
                list(called.bends([b"\3\2"]))
            self.assertEqual(called.version(), (support.ROOT / "checks/start/texts/version").read_text().split()[1])

    def test_lines_without_a_drawing(self) -> None:
        record = records_of("cubic60.pc")[0].bytes()
        with library.Library() as called:
            short, none = called.line(record), called.line(record, drawing="none")
        self.assertEqual(none, short | {"points": None, "drawn": "no"})

    def test_cuts_show_why(self) -> None:
        """By the definition in planarbend.h: the marked vertices and faces need more turns than the conditions allow."""
        seen = 0
        for record in records_of("planar_d4_n6.pc") + records_of("medial60.pc")[:5]:
            edges = [(tail, head) for tail, heads in enumerate(record.lists, 1) for head in heads if tail < head]
            for straight in (edges, edges[::2], edges[:6]):
                try:
                    library.LibraryEngine().lay_keeping(record.lists, "first", Conditions(straight))
                except NotKept as refused:
                    self.assertEqual(refused.word, "noshape")
                    assert refused.cut is not None
                    self.assertGreater(surplus(record, straight, refused.cut), 0)
                    seen += 1
        self.assertGreater(seen, 50)


@needs_library
class Given(unittest.TestCase):
    """Angles and turns by names of vertices; the numbers are found by hand."""

    SQUARE = {"a": ["b", "d"], "b": ["c", "a"], "c": ["d", "b"], "d": ["a", "c"]}  # the inside is on the left of a-b
    INSIDE = (("a", "b"),)

    def setUp(self) -> None:
        self.enterContext(calling(library.path()))

    def test_angles(self) -> None:
        for angle, bends in ((1, 0), (2, 1), (3, 2)):
            layout = planarbend.layout_of(self.SQUARE, inner=self.INSIDE, angles={("a", "b"): angle})
            self.assertEqual((layout.bends, layout.outer_face), (bends, ["a", "d", "c", "b"]))
            (x, y), corner, (u, v) = layout.path("a", "b")[-2], layout.points["b"], layout.path("b", "c")[1]
            into, out = (corner[0] - x, corner[1] - y), (u - corner[0], v - corner[1])
            left = into[0] * out[1] - into[1] * out[0]
            self.assertEqual((left > 0) - (left < 0), 2 - angle)

    def test_the_best_face(self) -> None:
        """The angle of 270 degrees needs two bends inside, and none outside."""
        for outer, bends, face in zip(CHOICES, (2, 0), ({("a", "b"), ("b", "c")}, {("a", "d"), ("b", "a")})):
            layout = planarbend.layout_of(self.SQUARE, outer, angles={("b", "a"): 3})
            self.assertEqual(layout.bends, bends)
            around = layout.outer_face
            self.assertLessEqual(face, set(zip(around, around[1:] + around[:1])))

    def test_turns(self) -> None:
        for turns in range(-12, 13):
            layout = planarbend.layout_of(self.SQUARE, inner=self.INSIDE, turns={("b", "a"): -turns})
            self.assertEqual(layout.bends, -2 * turns if turns < 0 else max(turns, 2 * turns - 8))
            self.assertEqual(len(layout.corners["a", "b"]), abs(turns))
        straight = planarbend.layout_of(self.SQUARE, straight=[("a", "b"), ("d", "c")], angles={("a", "b"): 2, ("b", "a"): 2})
        self.assertEqual((straight.corners["a", "b"], straight.corners["c", "d"]), ([], []))

    def test_many_bends(self) -> None:
        """More of them than without conditions, and then a graph with few."""
        layout = planarbend.layout_of(self.SQUARE, inner=self.INSIDE, turns={("a", "b"): 500})
        self.assertEqual((layout.bends, len(layout.corners["b", "a"])), (992, 500))
        found = list(planarbend.layouts([self.SQUARE] * 3, turns={("a", "b"): 40, ("c", "d"): -40}))
        self.assertEqual([(layout.number, layout.bends) for layout in found], [(1, 80), (2, 80), (3, 80)])

    def test_a_large_graph(self) -> None:
        """A cycle of 400 vertices, each with two leaves outside, needs 396 bends, which may all be along one edge."""
        graph = {("side", at): [("side", (at + 1) % 400), ("leaf", at, 0), ("leaf", at, 1), ("side", (at - 1) % 400)]
                 for at in range(400)}
        graph |= {("leaf", at, end): [("side", at)] for at in range(400) for end in (0, 1)}
        edge = ("side", 0), ("side", 1)
        layout = planarbend.layout_of(graph, inner=[edge], turns={edge: -396})
        self.assertEqual((len(layout.points), layout.bends, len(layout.corners[edge])), (1200, 396, 396))
        with self.assertRaises(planarbend.GraphUnkept) as raised:
            planarbend.layout_of(graph, inner=[edge], straight=[(("side", at), ("side", (at + 1) % 400)) for at in range(400)])
        self.assertEqual(set(raised.exception.vertices), {("leaf", at, end) for at in range(400) for end in (0, 1)})
        self.assertEqual(list(map(len, raised.exception.faces)), [2000])

    def test_conflicts(self) -> None:
        for turns, straight, said in (
                ({("a", "b"): 2, ("b", "a"): 2}, [], "2 turns from 'a' to 'b' and 2 turns from 'b' to 'a'"),
                ({("a", "b"): 1}, [("b", "a")], "1 turns from 'a' to 'b' and 0 turns from 'b' to 'a'")):
            with self.assertRaisesRegex(ValueError, said) as raised:
                planarbend.layout_of(self.SQUARE, turns=turns, straight=straight)
            self.assertIsInstance(raised.exception, Conflict)
            self.assertEqual([raised.exception.one[0], raised.exception.other[0]], [("a", "b"), ("b", "a")])
        again = planarbend.layout_of(self.SQUARE, inner=self.INSIDE, turns={("a", "b"): 2, ("b", "a"): -2},
                                     straight=[("b", "c"), ("c", "b")])
        self.assertEqual(again.bends, 2)

    def test_what_cannot_be_given(self) -> None:
        for words, said in (({"angles": {("a", "b"): 5}}, "the angle from 'a' to 'b' is 5"),
                            ({"angles": {("a", "b"): 0}}, "the angle from 'a' to 'b' is 0"),
                            ({"turns": {("a", "b"): 7205}}, "more turns"), ({"turns": {("a", "b"): -32769}}, "-32769 turns"),
                            ({"turns": {("a", "x"): 0}}, "'x', which is not a vertex"),
                            ({"inner": [("y", "b")]}, "'y', which is not a vertex")):
            with self.subTest(said), self.assertRaisesRegex(ValueError, said):
                planarbend.layout_of(self.SQUARE, **words)

    def test_cuts_by_name(self) -> None:
        star = {"hub": ["x", "y", "z"], "x": ["hub"], "y": ["hub"], "z": ["hub"]}
        few = {("x", "hub"): 1, ("y", "hub"): 1, ("z", "hub"): 1}
        with self.assertRaisesRegex(planarbend.GraphUnkept, "noshape: vertices 'hub' need more turns") as raised:
            planarbend.layout_of(star, angles=few)
        self.assertEqual((raised.exception.vertices, raised.exception.faces), (("hub",), ()))
        round_hub = ("hub", "x", "hub", "y", "hub", "z")
        with self.assertRaises(planarbend.GraphUnkept) as raised:
            planarbend.layout_of(star, angles=few | {("x", "hub"): 3})
        fault = raised.exception
        self.assertEqual((fault.word, fault.vertices, fault.faces, fault.outer_face),
                         ("noshape", ("x", "y", "z"), (round_hub,), round_hub))
        self.assertIn(f"vertices 'x', 'y', 'z' and faces {round_hub!r} need more turns than the conditions allow", str(fault))
        with self.assertRaisesRegex(planarbend.GraphUnkept, "noedge: 'x' and 'y' are not neighbours") as raised:
            planarbend.layout_of(star, turns={("x", "y"): 0})
        self.assertEqual(raised.exception.vertices, ("x", "y"))
        with self.assertRaisesRegex(planarbend.GraphUnkept, "noouter"):
            planarbend.layout_of(star, inner=[("hub", "x")])

    def test_after_a_graph_without_a_layout(self) -> None:
        path = {"a": ["b"], "b": ["a", "c"], "c": ["b", "d"], "d": ["c"]}
        found = planarbend.layouts([path, self.SQUARE, path], turns={("a", "d"): 0})
        for number in (1, 3):
            with self.assertRaisesRegex(planarbend.GraphUnkept, f"^graph {number}: .*noedge"):
                next(found)
            if number == 1:
                self.assertEqual(next(found).number, 2)

    def test_without_the_library(self) -> None:
        with mock.patch.dict(os.environ, PLANARBEND="/none"):
            with self.assertRaisesRegex(planarbend.PlanarbendError, "conditions need the library"):
                planarbend.layout_of(self.SQUARE, turns={("a", "b"): 0})
        with self.assertRaisesRegex(planarbend.PlanarbendError, "conditions need the library"):
            planarbend.layouts([], words=["--lanes", "2"], turns={("a", "b"): 0})


def surplus(record: planarbend.Record, straight: list[tuple[int, int]], cut: Cut) -> int:
    """By how much a cut turns more than can leave it: whatever a turn could go to is in the set."""
    plane = Plane(record.lists)
    for dart, (tail, head) in enumerate(plane.darts):
        face = plane.face[dart]
        assert tail not in cut.vertices or face in cut.faces, "a face at a vertex of the set"
        is_straight = (tail, head) in straight or (head, tail) in straight
        beyond = plane.face[plane.back[dart]]
        assert is_straight or face not in cut.faces or beyond in cut.faces, "a face across an edge"
    assert cut.outer == plane.outer
    turns = [4 - len(record.lists[vertex - 1]) for vertex in cut.vertices]
    turns += [(-4 if face == cut.outer else 4) - len(plane.walks[face]) for face in cut.faces]
    return sum(turns)


@unittest.skipUnless(COMPILER, "a C compiler is missing (Debian: gcc)")
class StandIn(unittest.TestCase):
    """The package reads what planarbend.h says: stand_in.c gives answers that can be told apart."""

    @classmethod
    def setUpClass(cls) -> None:
        folder = tempfile.TemporaryDirectory()
        cls.addClassCleanup(folder.cleanup)
        source = support.TESTS / "stand_in.c"
        cls.path, cls.old, cls.full = (str(Path(folder.name) / f"lib{name}.so") for name in ("now", "old", "full"))
        for path, words in ((cls.path, ["-DOLD=0", "-DFULL=0"]), (cls.old, ["-DOLD=1", "-DFULL=0"]),
                            (cls.full, ["-DOLD=0", "-DFULL=10"])):
            subprocess.run([COMPILER, "-shared", "-fPIC", "-Wall", "-Werror", *words, f"-I{support.ROOT / 'c'}", source,
                            "-o", path], check=True)

    def test_each_field(self) -> None:
        line = {"angles": [3, 1], "bends": 2, "drawn": "yes", "f": 1, "m": 1, "n": 2,
                "points": {"corners": [[[5, 6], [7, 10]]], "vertices": [[1, 20], [300, 65535]]},
                "prices": {"faces": [-9], "vertices": [-7, 8]}, "status": "ok", "turns": ["LL", "RR"]}
        with library.Library(self.path) as called:
            self.assertEqual(called.line(bytes([2, 2, 0, 1, 0]), "best"), line)
            line["points"]["corners"][0][1][1] = 9
            self.assertEqual(called.line(bytes([2, 2, 0, 1, 0]), "best", "quick"), line)
            self.assertEqual(called.line(bytes([2, 2, 0, 1, 0]), "best", "none"),
                             line | {"points": None, "drawn": "no"})
            self.assertEqual(list(called.bends([bytes([2, 2, 0, 1, 0])], "best")), [2])
            self.assertEqual(called.version(), "7.8.9")
            answer = called.answer(bytes([2, 2, 0, 1, 0]), "best")
            self.assertEqual((answer.bends, answer.points, answer.corners),
                             (2, [(1, 20), (300, 65535)], [[(5, 6), (7, 10)]]))

    def test_memory(self) -> None:
        with calling(self.path):
            with self.assertRaisesRegex(planarbend.GraphLost, "^graph 1: memory$"):
                planarbend.layout_of(planarbend.Record((1,), [[10]]))
            with library.Library() as called, self.assertRaises(MemoryError):
                list(called.bends([bytes([1, 10, 0])]))
            with self.assertRaisesRegex(planarbend.PlanarbendError, "could not lay out the graph: memory"):
                library.LibraryEngine().lay([[[10]]], "first")
        with self.assertRaises(MemoryError):
            library.Library(self.full)

    def test_rules(self) -> None:
        words = ("range", "loop", "multi", "asymmetric", "edgeless", "degree", "disconnected", "genus")
        with calling(self.path):
            for result, word in enumerate(words, 1):
                with self.assertRaisesRegex(planarbend.GraphRefused, f"^graph 1: refused {word}(: |$)"):
                    planarbend.layout_of(planarbend.Record((1,), [[result]]))
                self.assertEqual(list(library.Library().bends([bytes([1, result, 0])])), [None])
            with self.assertRaisesRegex(ValueError, "not one record"):
                planarbend.layout_of(planarbend.Record((1,), [[9]]))

    def test_conditions(self) -> None:
        kept = Conditions([(1, 2), (2, 3)], [(4, 1)], {(5, 6): 3}, {(3, 700): -40})
        engine = library.LibraryEngine(library.Library(self.path))
        self.assertTrue(engine.keeps)
        for result, word in ((14, "noedge"), (15, "noouter"), (16, "wide"), (13, "noshape")):
            with self.assertRaisesRegex(NotKept, f"keeps the conditions: {word}") as refused:
                engine.lay_keeping([[result]], "first", kept)
            cut = Cut((1, 5), (3,), 6) if result == 13 else None
            self.assertEqual((refused.exception.word, refused.exception.cut), (word, cut))
            line = engine.library.line(bytes([1, result, 0]), straight=kept.straight, inner=kept.inner, angles=kept.angles,
                                       turns=kept.turns)
            self.assertEqual(line, {"status": word} | ({"cut": cut} if cut else {}))
        self.assertEqual(str(Cut((1, 5), (3,), 6)), "vertices 1, 5 and faces 3 need more turns than the conditions allow")

    def test_an_older_library(self) -> None:
        with self.assertRaisesRegex(planarbend.NoProgram, "older than the package"):
            library.Library(self.old)

    def test_which_is_called(self) -> None:
        with mock.patch.dict(os.environ, PLANARBEND_LIBRARY=self.path):
            self.assertFalse(library.is_wanted())
            del os.environ["PLANARBEND"]
            self.assertTrue(library.is_wanted())
            self.assertIsInstance(planarbend.layouts([]), laid_out.LibraryLayouts)
            self.assertIsInstance(planarbend.layouts([], words=["--drawing", "quick"]), laid_out.LibraryLayouts)
            del os.environ["PLANARBEND_LIBRARY"]
            for name, wanted in (("libnone.so.1", None), (self.path, self.path)):
                with mock.patch.multiple(library, PLACES=[], NAME=name):
                    self.assertEqual(library.path(), wanted)
            os.environ["PLANARBEND_LIBRARY"] = ""
            self.assertFalse(library.is_wanted())
            with self.assertRaisesRegex(planarbend.NoProgram, "was not found"):
                library.Library()
            with self.assertRaisesRegex(planarbend.NoProgram, "nowhere.so"):
                library.Library("/nowhere.so")


if __name__ == "__main__":
    unittest.main()
