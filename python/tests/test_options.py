"""Each option of `planarbend draw` by what it changes in the drawing, and programs that tell too little."""
from __future__ import annotations

import collections
import json
import os
import stat
import tempfile
import unittest
from pathlib import Path
from typing import Any
from unittest import mock

import support
from drawing_checker import check, on_outer_face
from planarbend.layout import library

# Three squares, one in another, each joined to the next: any face can be outside. The second is a component of its own.
RINGS = ["{0}{1} {0}{2}".format(name, 4 * ring + place, 4 * ring + (place + 1) % 4)
         for name in "pq" for ring in range(3) for place in range(4)]
RINGS += [f"{name}{4 * ring + place} {name}{4 * ring + 4 + place}" for name in "pq" for ring in range(2)
          for place in range(4)]
CUBE = "\n".join(f"c{one} c{one ^ bit}" for one in range(8) for bit in (1, 2, 4) if one < one ^ bit)
WHEEL = "\n".join(f"hub rim{one}\nrim{one} rim{(one + 1) % 8}" for one in range(8))
HUBS = "\n".join([f"four leaf{one}" for one in range(4)] + [f"five leaf{one}" for one in range(5)])
PARALLEL = "v0 v1\nv0 v1\nv1 v2\nv1 v0\nv1 v2\nv3 v1\nv1 v0\nv1 v3\n"  # of the four v0--v1 one bends by default


class Case(unittest.TestCase):
    def setUp(self) -> None:
        folder = tempfile.TemporaryDirectory()
        self.addCleanup(folder.cleanup)
        self.folder = Path(folder.name)

    def drawing(self, text: str | bytes, *words: object, name: str = "graph.txt") -> dict[str, Any]:
        """The drawing of a graph with these words, found right by the checker."""
        graph, out = self.folder / name, self.folder / "out.json"
        graph.write_bytes(text.encode() if isinstance(text, str) else text)
        status, said, errors = support.said(["draw", graph, "-o", out, *words])
        self.assertEqual((status, said, errors), (0, "", ""))
        found: dict[str, Any] = json.loads(out.read_text(encoding="utf-8"))
        check(found)
        return found

    def refused(self, text: str, words: str, *options: object) -> None:
        """Looks that a graph is not drawn, for a reason with these words, and that nothing is written."""
        graph, out = self.folder / "graph.txt", self.folder / "out.svg"
        graph.write_text(text, encoding="utf-8")
        status, said, errors = support.said(["draw", graph, "-o", out, *options])
        self.assertEqual((status, said), (1, ""))
        self.assertRegex(errors, "^planarbend-draw: .*" + words)
        self.assertFalse(out.exists())


def area(drawing: dict[str, Any]) -> float:
    """The area of a drawing."""
    width, height = drawing["size"]
    return float(width * height)


def outside(drawing: dict[str, Any]) -> set[str]:
    """The names of the vertices on the outer face."""
    return {drawing["vertices"][number]["name"] for number in on_outer_face(drawing)}


class Outer(Case):
    def test_all_names_are_outside_in_each_component(self) -> None:
        text = "\n".join(RINGS)
        for names in ("p0,p2", "p8,p10", "p0, p5", "q0,q2", "q8,q10", "p0,p2,q8,q10", "p9,p10,q1,q2"):
            with self.subTest(names):
                wanted = set(map(str.strip, names.split(",")))
                self.assertLessEqual(wanted, outside(self.drawing(text, "--outer", names)))

    def test_labels_serve_as_names(self) -> None:
        nodes = [{"id": name, "label": name.upper()} for name in ("a", "b", "c", "d", "e", "f")]
        links = [{"source": one, "target": other} for one, other in ("ab", "bc", "ca", "de", "ef", "fd", "ad", "be",
                                                                     "cf")]
        text = json.dumps({"nodes": nodes, "links": links})
        for names, wanted in (("A,b,C", set("abc")), ("D,E,F", set("def")), ("a,E", set("ae"))):
            self.assertLessEqual(wanted, outside(self.drawing(text, "--outer", names)))

    def test_refusals(self) -> None:
        text = "\n".join(RINGS)
        self.refused(text, "no vertex is named nobody", "--outer", "p0,nobody")

    def test_edges_cross_where_no_face_has_all_names(self) -> None:
        """A path from a face at one name to a face at the other crosses one edge or two, which then cross others."""
        for other, crossings in (("p9", (1, 2)), ("p10", (2,))):
            found = self.drawing("\n".join(RINGS), "--outer", "p0," + other)
            self.assertLessEqual({"p0", other}, outside(found))
            self.assertIn(len(found["crossings"]), crossings)


class Split(Case):
    def flags(self, drawing: dict[str, Any]) -> dict[str, int]:
        """The number of flags of each name."""
        return collections.Counter(one["name"] for one in drawing["vertices"] if one["kind"] == "flag")

    def test_a_degree(self) -> None:
        """Vertices with more connections are split, those with as many are not."""
        self.assertEqual(self.flags(self.drawing(HUBS, "--split", "4")), {"five": 5})
        self.assertEqual(self.flags(self.drawing(HUBS, "--split", "3")), {"five": 5, "four": 4})
        self.assertEqual(self.flags(self.drawing(HUBS, "--split", "5")), {})

    def test_names_and_labels(self) -> None:
        """Each flag has the name and the label of what it stands for, and each edge ends where it ended."""
        nodes = [{"id": name, "label": name.upper()} for name in ("a", "b", "c", "d")]
        ends = ["ab", "ac", "ad", "bc", "bd", "cd"]
        text = json.dumps({"nodes": nodes, "links": [{"source": one, "target": other} for one, other in ends]})
        found = self.drawing(text, "--split", "b,D")
        self.assertEqual(self.flags(found), {"b": 3, "d": 3})
        self.assertEqual({(one["name"], one["label"]) for one in found["vertices"]},
                         {(name, name.upper()) for name in "abcd"})
        name = [one["name"] for one in found["vertices"]]
        self.assertEqual([name[edge["tail"]] + name[edge["head"]] for edge in found["edges"]], ends)

    def test_nets_alone_are_split_by_degree_in_a_circuit(self) -> None:
        text = support.GRAPHS["amplifier.net"].read_bytes()
        plain = self.drawing(text, "--format", "netlist", name="amplifier.net")
        degree = collections.Counter(end for edge in plain["edges"] for end in (edge["tail"], edge["head"]))
        nets = {one["name"]: degree[number] for number, one in enumerate(plain["vertices"]) if one["kind"] == "net"}
        self.assertEqual(self.flags(self.drawing(text, "--split", "4", name="amplifier.net")),
                         {name: count for name, count in nets.items() if count > 4})
        self.assertEqual(self.flags(self.drawing(text, "--split", "GND", name="amplifier.net")), {"GND": nets["GND"]})


class Search(Case):
    def test_seed(self) -> None:
        """A seed gives the same drawing again, and others give other drawings, also of planar graphs."""
        for text in (CUBE, WHEEL):
            found = [json.dumps(self.drawing(text, "--seed", seed)) for seed in (0, 0, 1, 2, 3)]
            self.assertEqual(found[0], found[1])
            self.assertGreater(len(set(found)), 2)

    def test_compact(self) -> None:
        """Less room and more bends, but no other graph."""
        for text in (WHEEL, support.GRAPHS["wheel.json"].read_text(encoding="utf-8")):
            plain, small = self.drawing(text), self.drawing(text, "--compact")
            self.assertLess(area(small), .9 * area(plain))
            self.assertGreater(small["bends"], plain["bends"])
            self.assertEqual([(edge["tail"], edge["head"]) for edge in small["edges"]],
                             [(edge["tail"], edge["head"]) for edge in plain["edges"]])

    @support.needs_networkx
    def test_effort(self) -> None:
        """More effort leaves fewer crossings and bends."""
        found = []
        for effort in (0, 1, 2):
            drawings = [self.drawing(support.GRAPHS[name].read_bytes(), "--effort", effort, name=name)
                        for name in ("k7.json", "k6.g6")]
            found.append((sum(len(one["crossings"]) for one in drawings), sum(one["bends"] for one in drawings)))
        self.assertGreaterEqual(found[1], found[2])
        self.assertGreater(found[0], found[1])
        self.assertEqual(found[2][0], 9 + 3)

    @support.needs_networkx
    def test_format(self) -> None:
        found = self.drawing("C~\n", "--format", "graph6")
        self.assertEqual((len(found["vertices"]), len(found["edges"])), (4, 6))
        found = self.drawing("graph {\n", "--format", "list")
        self.assertEqual([one["name"] for one in found["vertices"]], ["graph", "{"])

    def test_words_that_are_refused(self) -> None:
        for words, said in ((["-o", "x.gif"], "OUT must end with"), (["-o", "x.svg", "--scale", "0"], "0.1 to 20"),
                            (["-o", "x.svg", "--scale", "20.5"], "0.1 to 20"),
                            (["-o", "x.svg", "--effort", "101"], "0 to 100"),
                            (["-o", "x.svg", "--effort", "-1"], "0 to 100"),
                            (["-o", "x.svg", "--format", "gif"], "invalid choice")):
            status, _, errors = support.said(["draw", "-", *words], CUBE)
            self.assertEqual(status, 2)
            self.assertIn(said, errors)
        status, text, _ = support.said(["draw", "-", "-o", "-", "--effort", "0", "--scale", "20"], "a b\n")
        self.assertEqual((status, text[:4], text[-7:]), (0, "<svg", "</svg>\n"))


@unittest.skipUnless(library.path(), "the library is missing (planarbend --build makes it)")
class Straight(Case):
    def setUp(self) -> None:
        super().setUp()
        changed = mock.patch.dict(os.environ)
        changed.start()
        self.addCleanup(changed.stop)
        os.environ.pop("PLANARBEND", None)

    def bends(self, drawing: dict[str, Any]) -> list[int]:
        """The bends of each edge."""
        return [len(edge["points"]) - 2 for edge in drawing["edges"]]

    def test_all_parallel_edges_are_straight(self) -> None:
        plain, kept = (self.bends(self.drawing(PARALLEL, *words)) for words in ((), ("--straight", "v0--v1")))
        self.assertNotEqual([plain[number] for number in (0, 1, 3, 6)], [0] * 4)
        self.assertEqual([kept[number] for number in (0, 1, 3, 6)], [0] * 4)

    def test_several_pairs(self) -> None:
        """Those edges of an octahedron that bend become straight, with the edge opposite to each."""
        text = "\n".join(f"o{one} o{other}" for other in range(6) for one in range(other) if one + other != 5)
        plain = self.drawing(text)
        bent = [number for number, bends in enumerate(self.bends(plain)) if bends]
        self.assertTrue(bent)
        words = []
        for number in bent:
            tail, head = plain["edges"][number]["tail"], plain["edges"][number]["head"]
            words += ["--straight", f"o{tail}--o{head}", "--straight", f"o{5 - tail}--o{5 - head}"]
        kept = self.bends(self.drawing(text, *words))
        self.assertEqual([kept[number] for number in bent], [0] * len(bent))

    def test_what_is_asked_for_is_told_where_it_cannot_be(self) -> None:
        self.refused("a b\na b\n", "these edges are straight: a--b, a--b$", "--straight", "a--b")
        self.refused("a b\nb c\nc a\n", "these edges are straight: a--b, b--c, c--a$", "--straight", "a--b",
                     "--straight", "b--c",
                     "--straight", "c--a")


class Cut(Case):
    """A program that tells less than was asked for."""

    def test_a_line_that_is_missing(self) -> None:
        program = self.folder / "program"
        for cut in ("sed -n '$!{$!p}' | head -n -1", "head -n -1", "sed '$s/complete/memory/'", "sed 2d", "head -n 0"):
            program.write_text(f"#!/bin/sh\n{os.environ['PLANARBEND']} \"$@\" | {cut}\n")
            program.chmod(program.stat().st_mode | stat.S_IXUSR)
            with self.subTest(cut), mock.patch.dict(os.environ, PLANARBEND=str(program)):
                self.refused(CUBE, "planarbend ended with status 0")

    def test_a_program_that_fails(self) -> None:
        program = self.folder / "program"
        program.write_text("#!/bin/sh\necho lost >&2\nexit 1\n")
        program.chmod(program.stat().st_mode | stat.S_IXUSR)
        with mock.patch.dict(os.environ, PLANARBEND=str(program)):
            self.refused(CUBE, "lost$")
        with mock.patch.dict(os.environ, PLANARBEND=str(self.folder / "nothing")):
            self.refused(CUBE, "is not a program")


if __name__ == "__main__":
    unittest.main()
