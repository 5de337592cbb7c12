"""What DOT files say about colours, outlines, lines, texts and links is in the picture. What they say is taken from Graphviz's
own reading, `dot -Tjson0`."""
from __future__ import annotations

import itertools
import json
import random
import re
import subprocess
import tempfile
import unittest
import xml.etree.ElementTree as xml
from pathlib import Path
from typing import Any

import support
from planarbend.draw import draw
from planarbend.drawing.drawn import Drawing
from planarbend.readers import read
from svg_reader import SVG

SEEDS = (8, 27, 30, 42, 45, 57)
XLINK = "{http://www.w3.org/1999/xlink}"
EVERYTHING = r"""digraph "G<&>" {
  label="All <of> \"it\""; bgcolor="#fffff0"; fontcolor=navy; fontsize=17;
  node [style=filled, fillcolor=lightblue, fontname="Times-Italic"];
  a [shape=ellipse, color=red, tooltip="it's \"<b>\" ]]>", URL="http://example.org/?a=1&b=\"2\"<3>"];
  b [shape=diamond, fillcolor="#CD0000", penwidth=3]; c [shape=circle, style="filled,dashed"];
  d [shape=doublecircle, style=dotted]; e [shape=cylinder, fontsize=20, fontcolor="#00ff00"]; f [shape=note];
  g [shape=folder, href="f.html#\N"]; h [shape=component]; i [shape=hexagon, fontname="Courier-Bold"]; j [shape=octagon];
  k [shape=point, fillcolor=black]; l [shape=plaintext, style="", fillcolor=white]; m [shape=box, style=invis];
  n [shape=square];
  o [style=rounded, shape=rect]; p [shape=oval, style=bold]; q [shape=record, label="x|y"]; r [shape=Mrecord]; s [shape=none];
  t [fillcolor=none, color=transparent];
  a -> b [color=blue, label="ab", fontcolor=green, headlabel="1..*", taillabel="0", arrowhead=diamond];
  b -> c [style=dashed, dir=both, arrowtail=odot, fontsize=8, label="bc"]; c -> d [arrowhead=vee, color="#123456"];
  d -> e [arrowhead=tee, penwidth=2.5]; e -> f [style=dotted, tooltip="<dots>"]; f -> g [style=invis, label="unseen"];
  g -> h [arrowhead=inv]; h -> i [arrowhead=odiamond, color=red]; i -> j [arrowhead=odot]; j -> k [arrowhead=dot];
  k -> l [dir=none]; l -> m [dir=back]; m -> n [style=bold]; n -> o [arrowhead=none]; o -> p [URL="http://e.org/'x'"];
  p -> q [arrowhead=normal]; q -> r; r -> s; s -> t; t -> a [fontname="Helvetica", label="ta"];
}"""
SHAPES = {"ellipse": "ellipse", "oval": "ellipse", "circle": "circle", "doublecircle": "circle", "point": "circle",
          "diamond": "polygon", "hexagon": "polygon", "octagon": "polygon", "note": "polygon", "folder": "polygon",
          "cylinder": "path", "component": "rect", "box": "rect", "rect": "rect", "square": "rect", "plaintext": "rect",
          "none": "rect", "record": "rect", "Mrecord": "rect"}
PARTS = {"doublecircle": 2, "note": 2, "folder": 2, "cylinder": 2, "component": 3}  # elements of an outline
CORNERS = {"diamond": (4,), "hexagon": (6,), "octagon": (8,), "note": (5,), "folder": (6,)}


def told(text: str) -> dict[str, Any]:
    """What Graphviz reads in a DOT text."""
    ran = subprocess.run(["dot", "-Tjson0"], input=text.encode(), capture_output=True, check=True)
    found: dict[str, Any] = json.loads(ran.stdout)
    return found


class Element:
    """An element of a picture with what it inherits: attributes, the links around it, and titles."""

    def __init__(self, element: xml.Element, above: list[xml.Element]) -> None:
        self.kind, self.text = element.tag.removeprefix(SVG), element.text or ""
        self.values = {key: value for one in (*above, element) for key, value in one.items()}
        self.own = element.attrib
        self.links = [one.get("href") for one in above if one.tag == SVG + "a"]
        self.titles = [title.text for one in above for title in one.findall(SVG + "title")]


def elements_of(root: xml.Element, above: tuple[xml.Element, ...] = ()) -> list[Element]:
    """All elements of a picture in order."""
    found = []
    for one in root:
        found.append(Element(one, [*above, one][:-1]))
        found += elements_of(one, (*above, one))
    return found


def colour(text: str) -> str:
    """A colour of Graphviz as SVG has it."""
    return {"transparent": "none"}.get(text, text.lower())


@support.needs_graphviz
@support.needs_networkx
class Drawn(unittest.TestCase):
    said: dict[str, Any]
    elements: list[Element]
    points: dict[str, Any]

    @classmethod
    def setUpClass(cls) -> None:
        cls.said = told(EVERYTHING)
        with tempfile.TemporaryDirectory() as folder:
            path = Path(folder) / "all.dot"
            path.write_text(EVERYTHING, encoding="utf-8")
            cls.points = support.drawn(path, Path(folder))
            status, out, errors = support.said(["draw", path, "-o", "-"])
        assert (status, errors) == (0, ""), errors
        cls.root = xml.fromstring(out)
        cls.elements = elements_of(cls.root)

    def node(self, name: str) -> tuple[dict[str, Any], list[Element], list[Element]]:
        """What is said of a node, the elements that make its outline, and its texts: all that lies in its box."""
        said = next(one for one in self.said["objects"] if one["name"] == name)
        left, top, right, bottom = next(one["box"] for one in self.points["vertices"] if one["name"] == name)
        found: tuple[list[Element], list[Element]] = ([], [])
        for one in self.elements:
            if one.kind in ("polyline", "marker") or one.kind == "path" and one.own.get("d", "").startswith("M0 "):
                continue
            if one.kind == "path" and said.get("shape") in ("record", "Mrecord"):  # the lines between its fields
                continue
            places = [tuple(map(float, pair)) for pair in corners_of(one)]
            if places and all(left - .2 <= x <= right + .2 and top - .2 <= y <= bottom + .2 for x, y in places):
                found[one.kind == "text"].append(one)
        return said, *found

    def names(self) -> list[str]:
        return [one["name"] for one in self.said["objects"]]

    def test_outlines(self) -> None:
        for name in self.names():
            said, outline, _ = self.node(name)
            shape = said.get("shape", "ellipse")
            if said.get("style") == "invis":
                self.assertEqual(outline, [])
                continue
            if "shape" not in said or name == "t":
                continue
            self.assertEqual((name, outline[0].kind), (name, SHAPES[shape]))
            self.assertEqual(len(outline), PARTS.get(shape, 1), shape)
            if shape in CORNERS:
                self.assertIn(len(outline[0].own["points"].split()), CORNERS[shape], shape)
            if shape == "square":
                self.assertEqual(outline[0].own["width"], outline[0].own["height"])
            is_round = "rounded" in said.get("style", "") or shape == "Mrecord"
            if shape in ("box", "rect", "record", "Mrecord", "square"):
                self.assertEqual(float(outline[0].own["rx"]) > 0, is_round, name)

    def test_colours_and_lines_of_nodes(self) -> None:
        for name in self.names():
            said, outline, texts = self.node(name)
            styles = said.get("style", "").split(",")
            if "invis" in styles:
                continue
            for one in outline:
                if "filled" in styles or said.get("shape") == "point":
                    self.assertEqual(one.values["fill"], colour(said["fillcolor"]), name)
                if said.get("color"):
                    self.assertEqual(one.values["stroke"], colour(said["color"]), name)
                if said.get("penwidth"):
                    self.assertEqual(float(one.values["stroke-width"]), float(said["penwidth"]))
                self.assertEqual("stroke-dasharray" in one.values, bool({"dashed", "dotted"} & set(styles)), name)
            for one in texts:
                self.assertEqual(one.values["fill"], colour(said.get("fontcolor", one.values["fill"])))
                self.assertEqual(float(one.values["font-size"]), float(said.get("fontsize", 11)))
                family, _, face = said["fontname"].partition("-")
                self.assertEqual(one.values["font-family"].split(",")[0], family)
                self.assertEqual((one.values.get("font-weight"), one.values.get("font-style")),
                                 ("bold" if face == "Bold" else None, "italic" if face == "Italic" else None))

    def test_links_and_tooltips(self) -> None:
        found = {name: self.node(name) for name in ("a", "g")}
        for name, link in (("a", 'http://example.org/?a=1&b="2"<3>'), ("g", "f.html#g")):
            for one in (*found[name][1], *found[name][2]):
                self.assertEqual(one.links, [link])
        self.assertEqual({title for one in found["a"][1] for title in one.titles}, {'it\'s "<b>" ]]>'})
        self.assertEqual([one.links for one in self.elements if one.kind == "polyline" and one.links], [["http://e.org/'x'"]])
        self.assertEqual([one.titles for one in self.elements if one.kind == "polyline" and one.titles], [["<dots>"]])

    def test_edges(self) -> None:
        names = self.names()
        lines = [one for one in self.elements if one.kind == "polyline"]
        markers = {one.own["id"]: shape for one, shape in zip(self.elements, self.elements[1:]) if one.kind == "marker"}
        told_edges = [edge for edge in self.said["edges"] if edge.get("style") != "invis"]
        self.assertEqual(len(lines), len(told_edges))
        order = {(names[edge["tail"]], names[edge["head"]]): edge for edge in told_edges}
        drawn = [(self.points["vertices"][edge["tail"]]["name"], self.points["vertices"][edge["head"]]["name"])
                 for edge in self.points["edges"]]
        for pair, line in zip([pair for pair in drawn if pair in order], lines, strict=True):
            said = order[pair]
            with self.subTest(pair):
                if "color" in said:
                    self.assertEqual(line.values["stroke"], colour(said["color"]))
                if "penwidth" in said:
                    self.assertEqual(float(line.values["stroke-width"]), float(said["penwidth"]))
                self.assertEqual("stroke-dasharray" in line.values, said.get("style") in ("dashed", "dotted"))
                self.assertEqual(float(line.values["stroke-width"]) > 2, said.get("style") == "bold" or "penwidth" in said)
                way = said.get("dir", "forward")
                for end, key, ways in (("end", "arrowhead", ("forward", "both")), ("start", "arrowtail", ("back", "both"))):
                    head = line.own.get(f"marker-{end}", "")
                    self.assertEqual(bool(head), way in ways and said.get(key) != "none")
                    if head:
                        shape = markers[head[len("url(#"):-1]]
                        self.assertEqual(shape.kind, "circle" if said.get(key) in ("dot", "odot") else "path")
                        line_colour = shape.values["stroke" if said.get(key, "").startswith("o") else "fill"]
                        self.assertEqual(line_colour, line.values["stroke"])
                        self.assertEqual(shape.values["fill"] != line.values["stroke"], said.get(key, "").startswith("o"))

    def test_each_kind_of_head_has_its_own_form(self) -> None:
        forms = {}
        for kind in ("normal", "inv", "vee", "dot", "odot", "diamond", "odiamond", "tee"):
            text = support.said(["draw", "-", "-o", "-", "--format", "dot"], f"digraph {{ a -> b [arrowhead={kind}] }}")[1]
            forms[kind] = re.sub(' (fill|stroke)="[^"]*"', "", re.findall("<marker.*?</marker>", text)[0])
        self.assertEqual(len(set(forms.values())), len(forms))

    def test_labels_of_edges(self) -> None:
        texts = {one.text: one for one in self.elements if one.kind == "text"}
        self.assertNotIn("unseen", texts)
        for label, key, value in (("ab", "fill", "green"), ("1..*", "fill", "green"), ("0", "fill", "green"),
                                  ("bc", "font-size", "8")):
            self.assertEqual(texts[label].values[key], value)
        self.assertTrue(texts["ta"].values["font-family"].startswith("Helvetica"))
        line = next(edge["points"] for edge in self.points["edges"] if edge["label"] == "ab")
        places = {label: (float(texts[label].own["x"]), float(texts[label].own["y"])) for label in ("0", "ab", "1..*")}

        def far(label: str, end: list[float]) -> float:
            return abs(places[label][0] - end[0]) + abs(places[label][1] - end[1])

        self.assertLess(far("0", line[0]), far("1..*", line[0]))
        self.assertLess(far("1..*", line[-1]), far("0", line[-1]))

    def test_the_whole(self) -> None:
        self.assertEqual(self.elements[0].own["fill"], self.said["bgcolor"])
        caption = next(one for one in self.elements if one.text == 'All <of> "it"')
        self.assertEqual((caption.values["fill"], float(caption.values["font-size"])), (self.said["fontcolor"], 17))
        lowest = max(one["box"][3] for one in self.points["vertices"])
        self.assertGreater(float(caption.own["y"]), lowest)
        self.assertLess(float(caption.own["y"]), float(self.root.get("height", "nan")))

    def test_lines_end_at_outlines(self) -> None:
        """Each line ends at a border, along an axis, and within the box that the drawing has for it."""
        for one in (one for one in self.elements if one.kind == "polyline"):
            points = [tuple(map(float, pair)) for pair in corners_of(one)]
            self.assertTrue(all(x == u or y == v for (x, y), (u, v) in zip(points, points[1:])))


def corners_of(element: Element) -> list[list[str]]:
    """The points of an element's extent."""
    own = element.own
    if element.kind == "rect" and "x" in own:
        left, top, wide, high = (float(own[key]) for key in ("x", "y", "width", "height"))
        return [[str(left), str(top)], [str(left + wide), str(top + high)]]
    if element.kind in ("circle", "ellipse") and float(own["cx"]) != 5:
        x, y = float(own["cx"]), float(own["cy"])
        wide, high = (float(own.get(key, own.get("r", "0"))) for key in ("rx", "ry"))
        return [[str(x - wide), str(y - high)], [str(x + wide), str(y + high)]]
    if "points" in own:
        return [pair.split(",") for pair in own["points"].split()]
    if element.kind == "path":
        return [re.findall(r"[\d.]+", own["d"])[:2]]
    return [[own["x"], own["y"]]] if element.kind == "text" else []


@support.needs_graphviz
@support.needs_networkx
class Odd(unittest.TestCase):
    def drawn(self, text: str) -> tuple[xml.Element, str]:
        status, out, errors = support.said(["draw", "-", "-o", "-", "--format", "dot"], text)
        self.assertEqual(status, 0, errors)
        return xml.fromstring(out), errors

    def test_other_shapes_are_boxes_with_one_warning(self) -> None:
        root, errors = self.drawn("graph { a [shape=egg]; b [shape=star]; c [shape=egg]; a -- b -- c }")
        self.assertEqual(errors, "planarbend-draw: -: shapes that are drawn as boxes: egg, star\n")
        self.assertEqual(len([one for one in root.iter(SVG + "rect") if "rx" in one.attrib]), 3)

    def test_values_with_quotes_and_brackets(self) -> None:
        for value in ('\\"', "<>", "</svg>", '\\" onload=\\"x', "&amp;", "]]>", "--", "'", "%3C", "url(x)", ""):
            keys = [key for key in ("color", "fillcolor", "fontcolor", "fontname", "URL", "tooltip", "style", "penwidth",
                                    "fontsize", "bgcolor", "label", "headlabel", "arrowhead", "colorscheme")
                    if "color" not in key or ";" not in value]  # Graphviz refuses it: in colours it stands before a number
            values = [f'{key}="{value}"' for key in keys]
            root, _ = self.drawn(f"digraph {{ graph [{', '.join(values)}]; node [style=filled];" + "".join(
                f"{key} [{said}]; {key} -> {key}2 [{said}];" for key, said in zip(keys, values)) + "}")
            self.assertEqual(len(list(root.iter(SVG + "polyline"))), len(keys))
            for one in root.iter():
                self.assertNotIn("onload", one.attrib)
                self.assertTrue({one.get("fill"), one.get("stroke")}.isdisjoint({value, ""}), value)

    def test_colours_as_graphviz_shows_them(self) -> None:
        names = ["red3", "grey50", "/accent8/3", "0.5 0.5 0.5", "0.1,0.9,1", "#12345680", "RED", "lightgoldenrod2", "none"]
        text = "graph { node [shape=box style=filled label=\"\"];" + "".join(
            f'n{number} [fillcolor="{name}"];' for number, name in enumerate(names)) + "}"
        root, errors = self.drawn(text)
        self.assertEqual(errors, "")
        shown = subprocess.run(["dot", "-Tsvg"], input=text.encode(), capture_output=True, check=True).stdout.decode()
        wanted = [(colour(fill), opacity[:4]) for fill, opacity in
                  re.findall(r'<title>n\d+</title>\s*<polygon fill="([^"]*)"(?: fill-opacity="([\d.]+)")?', shown)]
        found = [(one.get("fill", ""), one.get("fill-opacity", "")[:4]) for one in root.iter(SVG + "rect") if "rx" in one.attrib]
        self.assertEqual(found, wanted)

    def test_unknown_colours_are_left_out_with_a_warning(self) -> None:
        root, errors = self.drawn('graph { a [color="no such" style=filled fillcolor=blurple]; a -- b }')
        self.assertIn("colours that are not known are left out: blurple, no such", errors)
        self.assertFalse(any("blurple" in value for one in root.iter() for value in one.attrib.values()))

    def test_what_is_invisible_keeps_its_room(self) -> None:
        text = "graph { a -- b -- c -- a; b -- d; %s }"
        shown, hidden = self.drawn(text % "")[0], self.drawn(text % "b [style=invis]; c -- a [style=invis]")[0]
        self.assertEqual(shown.attrib["viewBox"].split()[:2], ["0", "0"])
        self.assertEqual(sorted(one.text or "" for one in hidden.iter(SVG + "text")), ["a", "c", "d"])

    def test_looks_follow_the_flags_of_a_split_node(self) -> None:
        found = self.drawn("graph { a [color=red]; a -- b; a -- c; a -- d; b -- c -- d }")[0]
        self.assertEqual(len([one for one in found.iter(SVG + "rect") if one.get("stroke") == "red"]), 1)
        text = "graph { a [color=red]; a -- b; a -- c; a -- d; b -- c -- d }"
        status, out, errors = support.said(["draw", "-", "-o", "-", "--split", "a"], text)
        self.assertEqual((status, errors), (0, ""))
        flags = [one for one in xml.fromstring(out).iter(SVG + "rect") if one.get("stroke") == "red"]
        self.assertEqual(len(flags), 3)


@support.needs_graphviz
class Read(unittest.TestCase):
    def test_a_plain_file_has_no_looks(self) -> None:
        for name in ("groups.dot", "flat.dot"):
            looks = read(support.GRAPHS[name].read_bytes(), name).looks
            self.assertEqual((looks.nodes, looks.edges, looks.warnings), ({}, {}, []))


GML = """graph [ node [ id 1 label "one" graphics [ x 1.0 w 30.0 type "ellipse" fill "#FF0000" outline "#0000FF" ] ]
  node [ id 2 label "two" graphics [ type "diamond" fill "#00ff00" ] ] node [ id 3 label "three" graphics [ fill "?" ] ]
  edge [ source 1 target 2 graphics [ fill "#808000" width 3 style "dashed" ] ] edge [ source 2 target 3 ] ]"""
YED = """<graphml xmlns="http://graphml.graphdrawing.org/xmlns" xmlns:y="http://www.yworks.com/xml/graphml">
<key for="node" id="d0" yfiles.type="nodegraphics"/><key for="edge" id="d1" yfiles.type="edgegraphics"/>
<graph edgedefault="directed"><node id="n0"><data key="d0"><y:ShapeNode><y:Geometry height="30" width="30" x="0" y="0"/>
<y:Fill color="#FFCC00" transparent="false"/><y:BorderStyle color="#993366" type="dotted" width="2.0"/>
<y:NodeLabel fontFamily="Arial" fontSize="18" fontStyle="bold" textColor="#003366">first</y:NodeLabel><y:Shape type="hexagon"/>
</y:ShapeNode></data></node><node id="n1"><data key="d0"><y:ShapeNode><y:Fill hasColor="false" transparent="false"/>
<y:NodeLabel>second</y:NodeLabel><y:Shape type="roundrectangle"/></y:ShapeNode></data></node>
<edge id="e0" source="n0" target="n1"><data key="d1"><y:PolyLineEdge><y:LineStyle color="#FF00FF" type="dashed" width="4.0"/>
<y:Arrows source="none" target="standard"/></y:PolyLineEdge></data></edge></graph></graphml>"""
GEPHI = """<graphml xmlns="http://graphml.graphdrawing.org/xmlns"><key attr.name="r" attr.type="int" for="node" id="r"/>
<key attr.name="g" attr.type="int" for="node" id="g"/><key attr.name="b" attr.type="int" for="node" id="b"/>
<graph edgedefault="undirected"><node id="u"><data key="r">153</data><data key="g">0</data><data key="b">16</data></node>
<node id="v"/><edge source="u" target="v"/></graph></graphml>"""


@support.needs_networkx
class OtherFormats(unittest.TestCase):
    """Colours and lines by hand, from the texts above."""

    def drawn(self, text: str) -> list[Element]:
        status, out, errors = support.said(["draw", "-", "-o", "-"], text)
        self.assertEqual((status, errors), (0, ""))
        return elements_of(xml.fromstring(out))

    def test_gml(self) -> None:
        found = self.drawn(GML)
        circle = next(one for one in found if one.kind in ("circle", "ellipse"))
        self.assertEqual((circle.values["fill"], circle.values["stroke"]), ("#ff0000", "#0000ff"))
        diamond = next(one for one in found if one.kind == "polygon")
        self.assertEqual((diamond.values["fill"], len(diamond.own["points"].split())), ("#00ff00", 4))
        lines = [one for one in found if one.kind == "polyline"]
        self.assertEqual([(one.values["stroke"], one.values["stroke-width"]) for one in lines if "stroke" in one.own],
                         [("#808000", "3")])
        self.assertEqual(["stroke-dasharray" in one.own for one in lines], [True, False])

    def test_yed(self) -> None:
        found = self.drawn(YED)
        hexagon = next(one for one in found if one.kind == "polygon")
        self.assertEqual([hexagon.values[key] for key in ("fill", "stroke", "stroke-width")], ["#ffcc00", "#993366", "2"])
        self.assertEqual((len(hexagon.own["points"].split()), "stroke-dasharray" in hexagon.own), (6, True))
        text = next(one for one in found if one.text == "first")
        self.assertEqual([text.values[key] for key in ("fill", "font-size", "font-weight")], ["#003366", "18", "bold"])
        self.assertTrue(text.values["font-family"].startswith("Arial"))
        line = next(one for one in found if one.kind == "polyline")
        self.assertEqual((line.values["stroke"], line.values["stroke-width"]), ("#ff00ff", "4"))
        self.assertIn("marker-end", line.own)
        second = next(one for one in found if one.kind == "rect" and "rx" in one.own)
        self.assertGreater(float(second.own["rx"]), 4)

    def test_gephi(self) -> None:
        fills = [one.own["fill"] for one in self.drawn(GEPHI) if one.kind == "rect" and "rx" in one.own]
        self.assertEqual(len(fills), 2)
        self.assertIn("#990010", fills)


class AtEnds(unittest.TestCase):
    """Labels at ends of edges are nearer to these ends than to the others, or close to them, and cover nothing."""

    TEXTS = ("0", "0..1", "some words", "two\\nlines", "a long label of some words")

    def drawn(self, seed: int) -> Drawing:
        dice, lines = random.Random(seed), list[str]()
        for _ in range(14):
            tail, head, text = *dice.choices("abcdefghij", k=2), dice.choice(self.TEXTS)
            label = dice.choice(("", "", "ab", "long label"))
            size = dice.choice((10, 24))
            lines.append(f'{tail} -> {head} [{dice.choice(("head", "tail"))}label="{text}", label="{label}", fontsize={size}]')
        return draw(read("\n".join(["digraph {", *lines, "}"]).encode(), "it.gv"))

    def test_places(self) -> None:
        for seed in SEEDS:
            drawing = self.drawn(seed)
            for (number, is_head), box in drawing.end_boxes.items():
                line, edge = drawing.lines[number], drawing.graph.edges[number]
                far = [max(box[0] - x, x - box[2], box[1] - y, y - box[3]) for x, y in (line[0], line[-1])]
                if edge.tail != edge.head:
                    self.assertLess(far[is_head], max(25, far[not is_head]), (seed, number, is_head))
            labels = [*drawing.end_boxes.values(), *drawing.label_boxes.values()]
            for one, other in [*itertools.combinations(labels, 2), *itertools.product(labels, drawing.boxes)]:
                is_clear = any(one[2 + axis] <= other[axis] or other[2 + axis] <= one[axis] for axis in (0, 1))
                self.assertTrue(is_clear, (seed, one, other))


if __name__ == "__main__":
    unittest.main()
