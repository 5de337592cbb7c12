"""Fields of nodes and ports of edges are read as Graphviz's documentation says."""
from __future__ import annotations

import json
import unittest

import support
from planarbend.drawing.drawn import Drawing
from planarbend.graph import Graph, split
from planarbend.ports import Compass, End, Field, Side, Span
from planarbend.readers import read

# Of the page on shapes of nodes, with a port more.
STRUCTS = r"""digraph structs { node [shape=record];
  struct1 [label="<f0> left|<f1> mid\ dle|<f2> right"]; struct2 [label="<f0> one|<f1> two"];
  struct3 [label="hello\nworld |{ b |{c|<here> d|e}| f}| g | h"];
  struct1:f1 -> struct2:f0; struct1:f2 -> struct3:here:n; struct2 -> struct3:w [tailport="f1:se"] }"""
# Of the same page, as HTML.
TABLES = """digraph structs { node [shape=plaintext]
  struct1 [label=<<TABLE BORDER="0" CELLBORDER="1" CELLSPACING="0"><TR><TD>left</TD><TD PORT="f1">mid dle</TD>
    <TD PORT="f2">right</TD></TR></TABLE>>];
  struct3 [label=<<TABLE BORDER="0" CELLBORDER="1" CELLSPACING="0" CELLPADDING="4">
    <TR><TD ROWSPAN="3">hello<BR/>world</TD><TD COLSPAN="3">b</TD><TD ROWSPAN="3">g</TD><TD ROWSPAN="3">h</TD></TR>
    <TR><TD>c</TD><TD PORT="here">d</TD><TD>e</TD></TR><TR><TD COLSPAN="3">f</TD></TR></TABLE>>];
  struct1:f2 -> struct3:HERE; struct1:f1:s -> struct3:e }"""
GRAPHML = """<graphml xmlns="http://graphml.graphdrawing.org/xmlns"><graph edgedefault="directed">
  <node id="n0"><port name="North"/><port name="East"><port name="in"/></port></node><node id="n1"><port name="x"/></node>
  <edge source="n0" target="n1" sourceport="in" targetport="x"/><edge source="n1" target="n0" targetport="none"/></graph></graphml>"""
WHOLE = frozenset(Side)


def of(text: str, form: str = "dot") -> Graph:
    """The graph of a text."""
    return read(text.encode(), "input", form)


def leaves(whole: Field) -> list[tuple[str, str]]:
    """Texts and ports of the fields that have no fields."""
    return [(one.text, one.port) for one, _ in whole.walk() if not one.fields]


@support.needs_graphviz
class Records(unittest.TestCase):
    def test_fields(self) -> None:
        graph = of(STRUCTS)
        self.assertEqual(leaves(graph.fields[0]), [("left", "f0"), ("mid dle", "f1"), ("right", "f2")])
        self.assertEqual(leaves(graph.fields[2]), [("hello\nworld", ""), ("b", ""), ("c", ""), ("d", "here"), ("e", ""), ("f", ""),
                                                   ("g", ""), ("h", "")])
        self.assertEqual((graph.fields[2].size, graph.fields[2].fields[1].size), ((1, 4), (3, 1)))
        self.assertEqual(graph.looks.warnings, [])

    def test_sides(self) -> None:
        """Those of a field are the sides at which it is at the border of the record."""
        found = {one.text: sides for one, sides in of(STRUCTS).fields[2].walk() if not one.fields}
        self.assertEqual(found, {"hello\nworld": WHOLE - {Side.EAST}, "b": {Side.NORTH}, "c": set(), "d": set(), "e": set(),
                                 "f": {Side.SOUTH}, "g": {Side.NORTH, Side.SOUTH}, "h": WHOLE - {Side.WEST}})

    def test_ends(self) -> None:
        self.assertEqual(of(STRUCTS).ends, {
            (0, False): End(2), (0, True): End(1), (1, False): End(3), (1, True): End(6, Compass.NORTH),
            (2, False): End(2, Compass.SOUTH_EAST), (2, True): End(None, Compass.WEST)})

    def test_direction(self) -> None:
        """With rankdir LR or RL the outermost fields are below each other."""
        for rankdir, size in (("LR", (2, 1)), ("RL", (2, 1)), ("TB", (1, 2)), ("BT", (1, 2))):
            graph = of(f'digraph {{ rankdir={rankdir}; a [shape=Mrecord, label="<p>x|{{y|z}}"] }}')
            self.assertEqual((graph.fields[0].size, graph.fields[0].fields[1].size), (size, size[::-1]))

    def test_escapes_and_spaces(self) -> None:
        graph = of(r'graph { "n o" [shape=record, label="a\|b\{\}|  c   d |<p q>\N|\ e\ |{|\<x\>}|&amp;"] }')
        self.assertEqual(leaves(graph.fields[0]), [("a|b{}", ""), ("c d", ""), ("n o", "p q"), (" e ", ""), ("", ""), ("<x>", ""),
                                                   ("&", "")])

    def test_labels_that_graphviz_refuses(self) -> None:
        """`bad label format` is what dot says of each."""
        for label in ("a|{b", "a{b}", "<p>{a}", "<p><q>a", "a>b", "{a}b", "<p"):
            graph = of(f'graph {{ a [shape=record, label="{label}"] }}')
            self.assertEqual((graph.fields, graph.looks.warnings), ({}, ["nodes whose label is none of a record: a"]), label)

    def test_braces_without_end(self) -> None:
        for deep, count in ((50, 1), (5000, 0)):
            self.assertEqual(len(of(f'graph {{ a [shape=record, label="{"{" * deep}<p>x{"}" * deep}"] }}').fields), count)

    def test_one_field_without_a_port_is_a_plain_box(self) -> None:
        self.assertEqual(of('graph { a [shape=record]; b [shape=record, label="x"]; c [label="x|y"] }').fields, {})

    def test_ports_that_are_not_found(self) -> None:
        graph = of('graph { a [shape=record, label="<n>x|y"]; a:n -- b:p; a:q:s -- b:_; a:n:zz -- b:c; a:s -- b:p:s }')
        self.assertEqual(graph.ends, {(0, False): End(1), (2, False): End(1), (3, False): End(None, Compass.SOUTH)})
        self.assertEqual(graph.looks.warnings, ["ports that are not found: b:p, a:q:s, a:n:zz, b:p:s"])


@support.needs_graphviz
class Tables(unittest.TestCase):
    def test_cells(self) -> None:
        graph = of(TABLES)
        self.assertEqual([(one.text, one.port, one.at) for one in graph.fields[1].fields], [
            ("hello\nworld", "", Span(0, 0, 3, 1)), ("b", "", Span(0, 1, 1, 3)), ("g", "", Span(0, 4, 3, 1)), ("h", "", Span(0, 5, 3, 1)),
            ("c", "", Span(1, 1)), ("d", "here", Span(1, 2)), ("e", "", Span(1, 3)), ("f", "", Span(2, 1, 1, 3))])
        self.assertEqual(graph.ends, {(0, False): End(3), (0, True): End(6), (1, False): End(2, Compass.SOUTH),
                                      (1, True): End(None, Compass.EAST)})

    def test_tables_in_cells(self) -> None:
        for outer, inner, wanted in (("", "", [""]), (" port='o'", "", ["o"]), ("", " port='i'", ["i"]), (" port='o'", " port='i'", ["o", "i"])):
            graph = of(f"graph {{ a [label=<<table><tr><td{outer}><table{inner}><tr><td>x</td><td port='p'>y</td></tr></table></td>"
                       "<td>z</td></tr></table>>] }")
            ports = [one.port for one, _ in graph.fields[0].walk() if one.fields][1:]
            self.assertEqual((ports, leaves(graph.fields[0])), (wanted, [("x", ""), ("y", "p"), ("z", "")]))

    def test_tables_that_graphviz_refuses(self) -> None:
        for label in ("<table><td port='p'>x</td></table>", "<tr><td port='p'>x</td></tr>", "<table><tr><td port='p'>x</tr></table>",
                      "<table><tr><table port='p'></table></tr></table>", "<table>" + "<tr><td port='p'><table>" * 200):
            self.assertEqual(of(f"graph {{ a [label=<{label}>] }}").fields, {}, label)

    def test_other_labels_have_no_fields(self) -> None:
        """A table without a port is a text, as before."""
        for label in ("<b>x</b>", "<table><tr><td>x</td><td>y</td></tr></table>", "x<br/>y"):
            self.assertEqual(of(f"graph {{ a [label=<{label}>] }}").fields, {}, label)


@support.needs_networkx
class GraphML(unittest.TestCase):
    def test_ports(self) -> None:
        graph = of(GRAPHML, "graphml")
        self.assertEqual([(one.text, one.port, one.at.row) for one, _ in graph.fields[0].walk()], [
            ("", "", 0), ("n0", "", 0), ("North", "North", 1), ("", "East", 1), ("East", "", 0), ("in", "in", 1)])
        self.assertEqual(graph.ends, {(0, False): End(5), (0, True): End(2)})
        self.assertEqual(graph.looks.warnings, ["ports that are not found: n0:none"])


@support.needs_graphviz
class Kept(unittest.TestCase):
    def test_flags_have_no_fields(self) -> None:
        found = split(of(STRUCTS), {1})
        self.assertEqual((set(found.fields), set(found.ends)), ({0, 2}, {(0, False), (1, False), (1, True), (2, True)}))

    def test_json(self) -> None:
        """Fields and ends are in the JSON of a drawing that has them, and only there."""
        graph = of('digraph { a [shape=record, label="<p>x|y"]; a:p:w -> b }')
        plain = Drawing(graph, [(20, 0, 60, 20), (0, 40, 10, 50)], [[(20, 10), (5, 10), (5, 40)]], [], (60, 50), {}, [])
        self.assertEqual({key for one in json.loads(plain.json())["vertices"] for key in one}, {"name", "label", "kind", "box"})
        plain.field_boxes[0] = [(20, 0, 60, 20), (20, 0, 40, 20), (40, 0, 60, 20)]
        plain.meets[0, False] = (20, 10)
        found = json.loads(plain.json())
        self.assertEqual(found["vertices"][0]["fields"], [{"text": "x", "port": "p", "box": [20, 0, 40, 20]},
                                                         {"text": "y", "port": "", "box": [40, 0, 60, 20]}])
        self.assertEqual(found["edges"][0]["tail_port"], {"at": [20, 10], "port": "p", "compass": "w"})
        self.assertNotIn("head_port", found["edges"][0])


if __name__ == "__main__":
    unittest.main()
