"""Clusters, fields and ports in written DOT, GraphML and GML: they are read again, by the package and by Graphviz."""
from __future__ import annotations

import json
import re
import subprocess
import unittest
import xml.etree.ElementTree as xml
from collections import Counter
from pathlib import Path
from typing import Any

import support
from planarbend.draw import draw
from planarbend.drawing.drawn import Drawing
from planarbend.drawing.file_text import identifier
from planarbend.drawing.frames import Frame
from planarbend.drawing.plans import Options
from planarbend.graph import Graph
from planarbend.layout.library import LibraryEngine
from planarbend.programs import PlanarbendError
from planarbend.readers import read
from port_files import FILES
from svg_reader import SVG
from test_attributes import EVERYTHING
from test_clusters import CLUSTERS, COMPOUND, GML, YED
from test_frames import LONELY, NESTED
from test_port_drawings import BOTH, COMPASS, MIDDLES, TABLE
from test_ports import GRAPHML, STRUCTS, TABLES
from test_read_back import LABELLED

EXAMPLES = Path("/usr/share/doc/graphviz/examples/graphs")  # Debian: graphviz-doc
COLUMNS = r"""digraph { rankdir=LR; node [shape=record]; a [label="<p q> x|{b\ \ c|<q> d\|e}|"];
  b [shape=Mrecord, label="{<u> \"1\"|\\|<v> \<3\>}"]; a:"p q" -> b:u:n; a:q:s -> b:v }"""
LOOKS = """graph { label=whole; bgcolor=ivory; fontsize=20; fontcolor=red; compound=true;
  subgraph cluster_a { label="a \\"b\\" c\\\\d"; style="rounded,filled,dashed"; color=blue; fillcolor=red; penwidth=3; labelloc=b; labeljust=r;
    fontcolor=green; fontsize=8; fontname="Helvetica-Bold"; tooltip=tip; URL="x.html?a&b"; x -- y
    subgraph cluster_in { label=""; style=""; bgcolor=blue; labelloc=t; labeljust=c; tooltip=""; URL=""; "n\\"o" } } z -- x [lhead=cluster_a]; x -- y [tailport=ne] }"""
ODD = """digraph { subgraph "cluster \\"1\\"" { label="<1>"; "a\\b" } subgraph cluster { label="é &amp; y"; z }
  subgraph cluster_e { label=empty } "a\\b" -> z }"""
WIDE = f"""digraph {{ r [shape=record, label="{{{'n' * 30}|<m> middle|{{{'o' * 17}|{'u' * 17}}}}}"]; x -> r:m:n }}"""
TEXTS = {"structs": STRUCTS, "tables": TABLES, "clusters": CLUSTERS, "compound": COMPOUND, "nested": NESTED, "lonely": LONELY, "both": BOTH,
         "middles": MIDDLES, "wide": WIDE,
         "compass": COMPASS, "table": TABLE, "columns": COLUMNS, "looks": LOOKS, "odd": ODD, **FILES}
NAMED = {"graphml": GRAPHML, "yed": YED, "nested": support.GRAPHS["nested.graphml"].read_text(encoding="utf-8")}
Told = dict[str, Any]


def of(text: str, form: str = "dot") -> Graph:
    """The graph of a text."""
    return read(text.encode(), "it", form)


def placed(graph: Graph) -> Drawing:
    """A drawing in which everything is at the same place, as that does not matter."""
    box = (0.0, 0.0, 50.0, 20.0)
    labels = {number: box for number, one in enumerate(graph.edges) if one.label}
    return Drawing(graph, [box for _ in graph.vertices], [[(0.0, 0.0), (9.0, 0.0)] for _ in graph.edges], [], (50.0, 20.0), labels, [],
                   frames={number: Frame(box, box if one.label else None) for number, one in enumerate(graph.clusters)})


def told(graph: Graph, by: str = "name") -> Told:
    """What is in a graph, vertices by name or label; the number of spaces does not count, nor the label of a vertex with fields."""
    name = [str(getattr(one, by)) for one in graph.vertices]

    def end(edge: int, is_head: bool) -> tuple[str, ...]:
        vertex, found = (graph.edges[edge].head if is_head else graph.edges[edge].tail), graph.ends.get((edge, is_head))
        if found is None:
            return (name[vertex],)
        walk = [one.port for one, _ in graph.fields[vertex].walk()] if found.field is not None else []
        return (name[vertex], walk[found.field or 0] if walk else "", found.compass.value if found.compass else "",
                " ".join(graph.clusters[found.cluster].label.split()) if found.cluster is not None else "-")

    def label(number: int | None) -> str:
        return "-" if number is None else " ".join(graph.clusters[number].label.split())

    edges = []
    for number, edge in enumerate(graph.edges):
        tail, head = end(number, False), end(number, True)
        tail, head = (tail, head) if graph.directed else (min(tail, head), max(tail, head))
        edges.append((tail, head, " ".join(edge.label.split())))
    fields = [(name[number], [(" ".join(one.text.split()), one.port, one.at) for one, _ in whole.walk()])
              for number, whole in graph.fields.items()]
    labels = [one.label if one.label and number not in graph.fields else name[number] for number, one in enumerate(graph.vertices)]
    return {"vertices": sorted((name[number], " ".join(one.split())) for number, one in enumerate(labels)),
            "edges": Counter(edges), "fields": sorted(fields, key=str),
            "clusters": sorted((label(number), label(one.parent), sorted(name[member] for member in one.members))
                               for number, one in enumerate(graph.clusters))}


@support.needs_graphviz
@support.needs_networkx
class ReadAgain(unittest.TestCase):
    """What is written has the same vertices, edges, fields, ports and clusters."""

    maxDiff = None

    def check(self, graph: Graph, form: str, by: str = "name") -> Graph:
        """Check that a written graph is read again; return that."""
        found = of(placed(graph).text(form), form)
        self.assertEqual(told(found, by), told(graph, by))
        self.assertEqual([one for one in found.looks.warnings if "drawn as boxes" not in one], [])
        return found

    def test_dot(self) -> None:
        for name, text in TEXTS.items():
            with self.subTest(name):
                graph = of(text)
                found = self.check(graph, "dot")
                again, fields = ({one.vertices[number].name: whole for number, whole in one.fields.items()} for one in (found, graph))
                self.assertEqual(again, fields)  # with all spaces
                self.assertEqual([one.name for one in found.clusters], [one.name for one in graph.clusters])

    def test_graphml(self) -> None:
        for name, text in TEXTS.items():
            with self.subTest(name):
                graph = of(text)
                self.assertEqual({one.name for one in self.check(graph, "graphml").clusters}, {one.name for one in graph.clusters})

    def test_gml(self) -> None:
        """Vertices have their labels as names in GML."""
        for name, text in TEXTS.items():
            if "" not in [one.label for one in of(text).vertices]:
                with self.subTest(name):
                    self.check(of(text), "gml", "label")

    @unittest.skipUnless(EXAMPLES.is_dir(), "the examples of Graphviz are missing (Debian: graphviz-doc)")
    def test_examples_of_graphviz(self) -> None:
        count = 0
        for path in sorted(EXAMPLES.glob("*/*.gv")):
            data = path.read_bytes()
            graph = read(data, path.name) if re.search(rb"cluster|record", data) else Graph()
            if graph.clusters or graph.fields:
                count += 1
                for form in ("dot", "graphml"):
                    with self.subTest(path.name, form=form):
                        self.check(graph, form)
        self.assertGreater(count, 10)

    def test_nodes_of_graphml(self) -> None:
        """A cluster that is a vertex too stays one; a name of a cluster in DOT begins as it must."""
        for name, text in NAMED.items():
            graph = of(text, "graphml")
            with self.subTest(name):
                found = self.check(graph, "graphml")
                self.assertEqual({one.name for one in found.clusters}, {one.name for one in graph.clusters})
                self.assertEqual({one.name for one in self.check(graph, "dot").clusters}, {f"cluster_{one.name}" for one in graph.clusters})
        self.check(of(GML, "gml"), "gml", "label")

    def test_ports_with_colons(self) -> None:
        """DOT ends names there; the others keep them."""
        text = GRAPHML.replace('"in"', '"in:n"')
        graph = of(text, "graphml")
        self.check(graph, "graphml")
        self.check(graph, "gml", "label")
        self.assertEqual(told(of(placed(graph).text("dot")))["edges"], told(of(text.replace("in:n", "in_n"), "graphml"))["edges"])

    def test_looks_of_clusters(self) -> None:
        """Those that a file gives, and no others of the whole or of the cluster around it."""
        graph = of(LOOKS)
        found = of(placed(graph).text("dot"))
        for one, other in zip(found.clusters, graph.clusters, strict=True):
            for key in ("fill", "dash", "is_visible", "link", "tooltip", "is_rounded", "is_label_below", "across"):
                self.assertEqual(getattr(one.look, key), getattr(other.look, key), key)
        self.assertEqual((found.clusters[0].look.colour, found.clusters[0].look.width), (graph.clusters[0].look.colour, 3))
        self.assertEqual([one.look.font for one in found.clusters], [one.look.font for one in graph.clusters])
        self.assertEqual(found.looks.graph, graph.looks.graph)

    def test_without_frames(self) -> None:
        """Clusters whose frames are left out are kept in DOT, without a place, and are left out elsewhere."""
        made = placed(of(CLUSTERS))
        made.frames.clear()
        self.assertEqual(told(of(made.text("dot"))), told(of(CLUSTERS)))
        self.assertEqual([of(made.text(form), form).clusters for form in ("graphml", "gml")], [[], []])

    def test_plain_files(self) -> None:
        """A graph without any of these is written as before."""
        for text in (EVERYTHING, LABELLED):
            made = placed(of(text))
            self.assertNotRegex("".join(map(made.text, ("dot", "graphml", "gml"))), "subgraph|yfiles.folder|isGroup|gid|compound|rankdir|<port|tailport")

    def test_names_in_dot(self) -> None:
        """Graphviz keeps backslashes, but for one before a quote or at the end."""
        for name in ('a"b', "a\\b", "a\\\\b", "a\\\\", "\\N", "a\nb", 'a\\\\"b'):
            ran = subprocess.run(["gvpr", "N { printf(\"%s\", name); }"], input=f"graph {{ {identifier(name)} }}".encode(), capture_output=True)
            self.assertEqual((ran.stdout.decode(), ran.stderr), (name, b""))


@support.needs_graphviz
class ByGraphviz(unittest.TestCase):
    """Written DOT of real drawings, as Graphviz takes it."""

    made: dict[str, Drawing]

    @classmethod
    def setUpClass(cls) -> None:
        try:
            import scipy  # noqa: F401

            engine = LibraryEngine()
        except (ImportError, PlanarbendError, OSError) as fault:
            raise unittest.SkipTest(f"needs scipy and the library: {fault}") from None
        names = ("structs", "tables", "clusters", "compound", "nested", "both", "table", "columns", "looks", "machine", "empties",
                 "gates", "list_7", "hash_5", "search_3", "middles", "wide")
        cls.made = {name: draw(of(TEXTS[name]), Options(effort=0), engine) for name in names}

    def test_all_is_taken(self) -> None:
        """By the layout programs too, without a word."""
        for name, made in self.made.items():
            for words in (["nop"], ["dot", "-Tplain"], ["neato", "-n2", "-Tplain"]):
                ran = subprocess.run(words, input=made.text("dot").encode(), capture_output=True, check=True)
                self.assertEqual(ran.stderr, b"", (name, words))

    def test_frames(self) -> None:
        """`neato -n2` draws them where they are, with their labels."""
        for name, made in self.made.items():
            ran = subprocess.run(["neato", "-n2", "-Tsvg"], input=made.text("dot").encode(), capture_output=True, check=True)
            groups = [one for one in xml.fromstring(ran.stdout).iter(SVG + "g") if one.get("class") == "cluster"]
            found = {}
            for one in groups:
                paths = [path.get("points") or path.get("d") or "" for kind in ("polygon", "path") for path in one.iter(SVG + kind)]
                found[one.findtext(SVG + "title") or ""] = [float(part) for part in re.findall(r"-?[\d.]+", "".join(paths))]
            self.assertEqual(set(found), {one.name for one in made.graph.clusters})
            sizes = {name: [max(line) - min(line) for line in (points[::2], points[1::2])] for name, points in found.items()}
            for number, frame in made.frames.items():
                left, top, right, bottom = frame.box
                for size, wanted in zip(sizes[made.graph.clusters[number].name], (right - left, bottom - top), strict=True):
                    self.assertAlmostEqual(size, wanted, delta=1, msg=name)
            texts = ["".join(text.itertext()) for one in groups for text in one.iter(SVG + "text")]
            self.assertEqual(sorted(texts), sorted(line for one in made.graph.clusters for line in one.label.split("\n") if line), name)

    def test_cells(self) -> None:
        """`neato -n2` draws the cells of a table as large as they are."""
        for name, number in (("tables", 1), ("table", 0)):
            made = self.made[name]
            ran = subprocess.run(["neato", "-n2", "-Tsvg"], input=made.text("dot").encode(), capture_output=True, check=True)
            group = next(one for one in xml.fromstring(ran.stdout).iter(SVG + "g")
                         if one.get("class") == "node" and one.findtext(SVG + "title") == made.graph.vertices[number].name)
            found = []
            for cell in group.iter(SVG + "polygon"):
                points = [float(part) for part in re.findall(r"-?[\d.]+", cell.get("points", ""))]
                found.append((min(points[::2]), min(points[1::2]), max(points[::2]), max(points[1::2])))
            boxes = [box for (one, _), box in zip(made.graph.fields[number].walk(), made.field_boxes[number]) if not one.fields]
            self.assertEqual(len(found), len(boxes))
            move = [min(box[axis] for box in boxes) - min(cell[axis] for cell in found) for axis in (0, 1)]
            for box in boxes:
                self.assertTrue(any(all(abs(cell[side] + move[side % 2] - box[side]) <= 2 for side in range(4)) for cell in found), box)

    def test_lines_over_fields(self) -> None:
        """Graphviz draws the texts of fields beside the lines that pass there."""
        count = 0
        for name in ("structs", "table", "middles"):
            ran = subprocess.run(["neato", "-n2", "-Tsvg"], input=self.made[name].text("dot").encode(), capture_output=True, check=True)
            groups = [one for one in xml.fromstring(ran.stdout).iter(SVG + "g") if one.get("class") in ("node", "edge")]
            lines = [[float(part) for part in re.findall(r"-?[\d.]+", path.get("d", ""))]
                     for one in groups if one.get("class") == "edge" for path in one.iter(SVG + "path")]
            pieces = [piece for line in lines for piece in zip(line[::2], line[1::2], line[2::2], line[3::2])]
            for text in (text for one in groups if one.get("class") == "node" for text in one.iter(SVG + "text")):
                x, y, size = (float(text.get(key, "nan")) for key in ("x", "y", "font-size"))
                wide, count = .27 * size * len(text.text or ""), count + 1
                left = x if text.get("text-anchor") == "start" else x - wide / 2
                crossed = [one for one in pieces if min(one[::2]) < left + wide and max(one[::2]) > left
                           and min(one[1::2]) < y and max(one[1::2]) > y - .7 * size]
                self.assertEqual(crossed, [], (name, text.text))
        self.assertGreater(count, 30)
        self.assertRegex(self.made["wide"].text("dot"), ' align="(left|right)"')
        self.assertNotIn(' align="', self.made["gates"].text("dot"))

    def test_ports(self) -> None:
        """Graphviz finds the same ports at the same edges as in the file."""
        program = 'E { printf("%s %s %s %s\\n", tail.name, aget($, "tailport"), head.name, aget($, "headport")); }'
        for name in ("structs", "tables", "both", "table", "columns"):
            given, written = (Counter(subprocess.run(["gvpr", program], input=text.encode(), capture_output=True, check=True).stdout.splitlines())
                              for text in (TEXTS[name].replace("HERE", "here"), self.made[name].text("dot")))
            self.assertEqual(written, given, name)

    def test_fields_of_records(self) -> None:
        """Graphviz places the fields of a record itself: lines end at them there too."""
        count = 0
        for made in self.made.values():
            told = json.loads(subprocess.run(["dot", "-Tjson0", "-Kneato", "-n2"], input=made.text("dot").encode(), capture_output=True,
                                             check=True).stdout)
            nodes = {one["name"]: one for one in told.get("objects", ()) if "rects" in one}
            ends = {(edge["tail"], edge["head"], edge["pos"]): edge for edge in told.get("edges", ())}
            number_of = {vertex.name: number for number, vertex in enumerate(made.graph.vertices)}
            for edge in ends.values():
                for port, vertex, is_head in (("tailport", edge["tail"], False), ("headport", edge["head"], True)):
                    node = nodes.get(told["objects"][vertex]["name"])
                    if node is None or port not in edge or edge[port].split(":")[0] in ("n", "e", "s", "w"):
                        continue
                    leaves = [one.port for one, _ in made.graph.fields[number_of[node["name"]]].walk() if not one.fields]
                    rects = [tuple(map(float, rect.split(","))) for rect in node["rects"].split()]
                    self.assertEqual(len(rects), len(leaves))
                    left, low, right, high = rects[leaves.index(edge[port].split(":")[0])]
                    points = [tuple(map(float, point.split(","))) for point in re.sub(r"\b[es],\S+ ?", "", edge["pos"]).split()]
                    (x, y), (u, v) = points[-1:-3:-1] if is_head else points[:2]
                    count += 1
                    self.assertTrue(low - 1 < y < high + 1 if y == v else left - 1 < x < right + 1, (node["name"], edge))
        self.assertGreater(count, 20)

    def test_lines_end_at_fields_in_the_middle(self) -> None:
        made = self.made["structs"]
        told = json.loads(subprocess.run(["dot", "-Tjson0", "-Kneato", "-n2"], input=made.text("dot").encode(), capture_output=True,
                                         check=True).stdout)
        ends = [re.search(r"e,(-?[\d.]+),(-?[\d.]+)", edge["pos"]) for edge in told["edges"]]
        left, top, right, bottom = made.boxes[0]
        x, y = map(float, next(one["pos"] for one in told["objects"] if one["name"] == made.graph.vertices[0].name).split(","))
        at = [(float(end[1]) - x + (left + right) / 2, y - float(end[2]) + (top + bottom) / 2) for end in ends if end]
        for point in (made.meets[number, True] for number in range(3)):
            self.assertTrue(any(abs(point[0] - u) + abs(point[1] - v) < .2 for u, v in at), point)


if __name__ == "__main__":
    unittest.main()
