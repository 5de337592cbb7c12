"""Clusters are read as Graphviz's documentation says."""
from __future__ import annotations

import json
import unittest

import support
from planarbend.clusters import around, clusters_of, within
from planarbend.drawing.drawn import Drawing
from planarbend.drawing.frames import Frame
from planarbend.graph import Graph, split
from planarbend.ports import Compass, End
from planarbend.readers import read
from planarbend.style import Across, Colour, Dash

# Of the gallery.
CLUSTERS = """digraph G { subgraph cluster_0 { style=filled; color=lightgrey; node [style=filled,color=white];
    a0 -> a1 -> a2 -> a3; label = "process #1"; }
  subgraph cluster_1 { node [style=filled]; b0 -> b1 -> b2 -> b3; label = "process #2"; color=blue }
  start -> a0; start -> b0; a1 -> b3; b2 -> a3; a3 -> a0; a3 -> end; b3 -> end; }"""
# Of the guide to dot, the example of compound.
COMPOUND = """digraph G { compound=true; subgraph cluster0 { a -> b; a -> c; b -> d; c -> d; } subgraph cluster1 { e -> g; e -> f; }
  b -> f [lhead=cluster1]; d -> e; c -> g [ltail=cluster0, lhead=cluster1]; c -> e [ltail=cluster0]; d -> h; }"""

# As yEd writes groups, shortened.
GROUP = """<data key="d6"><y:ProxyAutoBoundsNode><y:Realizers active="0"><y:GroupNode><y:Fill color="#F5F5F5" transparent="false"/>
  <y:BorderStyle color="#000000" type="dashed" width="1.0"/><y:NodeLabel fontSize="15" modelName="internal" modelPosition="t">{}</y:NodeLabel>
  <y:Shape type="roundrectangle"/></y:GroupNode></y:Realizers></y:ProxyAutoBoundsNode></data>"""
NODE = '<node id="{}"><data key="d6"><y:ShapeNode><y:NodeLabel>{}</y:NodeLabel></y:ShapeNode></data></node>'
YED = f"""<graphml xmlns="http://graphml.graphdrawing.org/xmlns" xmlns:y="http://www.yworks.com/xml/graphml">
  <key for="node" id="d6" yfiles.type="nodegraphics"/><graph edgedefault="directed" id="G">
  <node id="n0" yfiles.foldertype="group">{GROUP.format("Group 1")}<graph edgedefault="directed" id="n0:">{NODE.format("n0::n0", "a")}
    <node id="n0::n1" yfiles.foldertype="folder">{GROUP.format("Inner")}<graph edgedefault="directed" id="n0::n1:">
    {NODE.format("n0::n1::n0", "b")}</graph></node></graph></node>
  <node id="n1" yfiles.foldertype="group"><graph edgedefault="directed" id="n1:">{NODE.format("n1::n0", "c")}</graph></node>
  <node id="n2" yfiles.foldertype="group">{GROUP.format("")}<graph edgedefault="directed" id="n2:"/></node>
  <edge id="e0" source="n0::n0" target="n1"/></graph></graphml>"""
GML = """Creator "yFiles"\nVersion "2.18"\ngraph\n[ hierarchic 1 directed 1
  node [ id 0 label "a" gid 2 ] node [ id 1 label "b" gid 2 ]
  node [ id 2 label "Group 1" graphics [ type "roundrectangle" fill "#F5F5F5" ] isGroup 1 gid 4 LabelGraphics [ anchor "b" ] ]
  node [ id 3 label "c" ] node [ id 4 label "Outer" isGroup 1 ] node [ id 5 label "Self" isGroup 1 gid 5 ]
  node [ id 6 label "d" gid 5 ]
  edge [ source 0 target 1 ] edge [ source 3 target 0 ] edge [ source 3 target 5 ] ]"""


def of(text: str, form: str = "dot") -> Graph:
    """The graph of a text."""
    return read(text.encode(), "input", form)


def members(graph: Graph) -> dict[str, set[str]]:
    """The names of the vertices of each cluster, without those of clusters in it."""
    return {one.name: {graph.vertices[vertex].name for vertex in one.members} for one in graph.clusters}


@support.needs_graphviz
class Dot(unittest.TestCase):
    def test_members_labels_and_looks(self) -> None:
        graph = of(CLUSTERS)
        self.assertEqual(members(graph), {"cluster_0": {"a0", "a1", "a2", "a3"}, "cluster_1": {"b0", "b1", "b2", "b3"}})
        self.assertEqual([one.label for one in graph.clusters], ["process #1", "process #2"])
        grey, blue = (one.look for one in graph.clusters)
        self.assertEqual((grey.fill, grey.colour, blue.fill, blue.colour), (Colour("lightgrey"), Colour("lightgrey"), None, Colour("blue")))
        self.assertEqual(graph.looks.warnings, [])

    def test_colours(self) -> None:
        """bgcolor fills also without style; pencolor is that of the line; without peripheries there is none."""
        for given, fill, colour in (("bgcolor=red", "red", None), ("style=filled", "lightgrey", None), ("pencolor=red color=blue", None, "red"),
                                    ("style=filled fillcolor=red color=blue", "red", "blue"), ("color=blue peripheries=0", None, "none"),
                                    ("style=filled bgcolor=red color=blue", "blue", "blue")):
            look = of(f"graph {{ subgraph cluster {{ {given}; a }} }}").clusters[0].look
            self.assertEqual((look.fill and look.fill.text, look.colour and look.colour.text), (fill, colour), given)

    def test_other_looks(self) -> None:
        look = of('graph { subgraph cluster { style="rounded,dashed"; penwidth=3; labelloc=b; labeljust=r; fontsize=20; URL="x.html"; a }}'
                  ).clusters[0].look
        self.assertEqual((look.is_rounded, look.dash, look.width, look.is_label_below, look.across, look.font.size, look.link),
                         (True, Dash.DASHED, 3, True, Across.RIGHT, 20, "x.html"))

    def test_nesting(self) -> None:
        """A subgraph that is no cluster does not count; labels are inherited, as in Graphviz, but not those set later."""
        graph = of('graph { subgraph cluster_a { label=A; x; { rank=same; subgraph cluster_b { y; subgraph cluster_c { label=C; z } } } } '
                   'subgraph cluster_d { w } label=whole; v }')
        self.assertEqual([(one.name, one.label, one.parent) for one in graph.clusters],
                         [("cluster_a", "A", None), ("cluster_b", "A", 0), ("cluster_c", "C", 1), ("cluster_d", "", None)])
        self.assertEqual(members(graph), {"cluster_a": {"x"}, "cluster_b": {"y"}, "cluster_c": {"z"}, "cluster_d": {"w"}})
        self.assertEqual([around(graph.clusters, number) for number in (None, 0, 2)], [[], [0], [2, 1, 0]])
        self.assertEqual({graph.vertices[one].name for one in within(graph.clusters, 1)}, {"y", "z"})

    def test_a_node_in_two_clusters_belongs_to_the_first(self) -> None:
        for first, second in (("cluster_a", "cluster_b"), ("cluster_z", "cluster_a")):
            graph = of(f'graph {{ // subgraph {second} {{\n subgraph {first} {{ x; y }} subgraph "{second}" {{ x; subgraph cluster_in {{ y }} z }} }}')
            self.assertEqual(members(graph), {first: {"x", "y"}, second: {"z"}, "cluster_in": set()})
            self.assertEqual(sorted(graph.looks.warnings), [
                f"the node x is in several clusters, and is drawn in the first of them: {first}, {second}",
                f"the node y is in several clusters, and is drawn in the first of them: {first}, {second}, cluster_in"])

    def test_deep_nesting(self) -> None:
        text = "".join(f"subgraph cluster_{number} {{ " for number in range(1500)) + "a" + "}" * 1500
        graph = of(f"graph {{ {text} }}")
        self.assertEqual((len(graph.clusters), graph.clusters[-1].members, graph.clusters[-1].parent), (1500, [0], 1498))

    def test_empty_clusters(self) -> None:
        graph = of('graph { a; subgraph cluster_e { label=<<b>empty</b> one> } subgraph other { b } }')
        self.assertEqual([(one.name, one.label, one.members) for one in graph.clusters], [("cluster_e", "empty one", [])])

    def test_ends_at_frames(self) -> None:
        graph = of(COMPOUND)
        ends = {(graph.vertices[graph.edges[edge].tail].name + graph.vertices[graph.edges[edge].head].name, is_head):
                graph.clusters[end.cluster or 0].name for (edge, is_head), end in graph.ends.items()}
        self.assertEqual(ends, {("bf", True): "cluster1", ("cg", False): "cluster0", ("cg", True): "cluster1", ("ce", False): "cluster0"})
        self.assertEqual(of(COMPOUND.replace("compound=true", "compound=false")).ends, {})

    def test_ends_at_frames_that_cannot_be(self) -> None:
        graph = of('digraph { compound=true; subgraph cluster_a { a; b } a -> b [lhead=cluster_a]; c -> a [lhead=cluster_b];'
                   ' c -> b [ltail=cluster_a, headport=n] }')
        self.assertEqual(list(graph.ends.values()), [End(None, Compass.NORTH)])
        self.assertEqual(graph.looks.warnings, ["edges that cannot end at the frame of a cluster as lhead or ltail says:"
                                                " b and a (cluster_a), a and c (cluster_b), c and b (cluster_a)"])

    def test_flags_lie_in_the_cluster_of_their_vertex(self) -> None:
        graph = of("graph { subgraph cluster_a { p } p -- a; p -- b; p -- c }")
        power = next(number for number, one in enumerate(graph.vertices) if one.name == "p")
        found = split(graph, {power})
        self.assertEqual(set(clusters_of(found.clusters)), {power, 4, 5})
        self.assertEqual(graph.clusters[0].members, [power])

    def test_json(self) -> None:
        graph = of("graph { subgraph cluster_a { label=A; a } subgraph cluster_b { b } }")
        made = Drawing(graph, [(10, 20, 20, 30), (50, 20, 60, 30)], [], [], (70, 40), {}, [])
        self.assertNotIn("frames", json.loads(made.json()))
        made.frames[0] = Frame((5, 5, 25, 35), (6, 6, 24, 16))
        self.assertEqual(json.loads(made.json())["frames"], [
            {"name": "cluster_a", "label": "A", "parent": None, "members": [0], "box": [5, 5, 25, 35], "label_box": [6, 6, 24, 16]},
            {"name": "cluster_b", "label": "", "parent": None, "members": [1], "box": None}])


@support.needs_networkx
class GraphML(unittest.TestCase):
    def test_nested_graphs(self) -> None:
        """A node with nodes inside is one of the members of its cluster, and both have its label."""
        text = support.GRAPHS["nested.graphml"].read_text(encoding="utf-8")
        for more, label in (("", "server"), ('<data key="text">The server</data>', "The server")):
            graph = of(text.replace('<node id="server">', '<node id="server">' + more), "graphml")
            self.assertEqual(members(graph), {"server": {"server", "cache", "store"}})
            self.assertEqual([(one.label, one.parent) for one in graph.clusters], [(label, None)])
            self.assertEqual(graph.vertices[1].label, label)

    def test_groups_of_yed(self) -> None:
        """A group is a frame with its label; one at which an edge ends is a vertex too. Graphs in it may be empty."""
        graph = of(YED, "graphml")
        self.assertEqual([(one.name, one.label, one.parent) for one in graph.clusters],
                         [("n0", "Group 1", None), ("n0::n1", "Inner", 0), ("n1", "n1", None), ("n2", "", None)])
        self.assertEqual(members(graph), {"n0": {"n0::n0"}, "n0::n1": {"n0::n1::n0"}, "n1": {"n1", "n1::n0"}, "n2": set()})
        self.assertEqual([vertex.label for vertex in graph.vertices], ["a", "b", "n1", "c"])
        look = graph.clusters[0].look
        self.assertEqual((look.fill, look.colour, look.dash, look.font.size, look.is_rounded, look.is_label_below),
                         (Colour("#f5f5f5"), Colour("#000000"), Dash.DASHED, 15, True, False))


@support.needs_networkx
class Gml(unittest.TestCase):
    def test_groups_of_yed(self) -> None:
        """A node lies in the group that is its gid; a group that lies in itself is outermost."""
        graph = of(GML, "gml")
        self.assertEqual([(one.name, one.label, one.parent) for one in graph.clusters],
                         [("Outer", "Outer", None), ("Group 1", "Group 1", 0), ("Self", "Self", None)])
        self.assertEqual(members(graph), {"Outer": set(), "Group 1": {"a", "b"}, "Self": {"Self", "d"}})
        self.assertEqual((graph.clusters[1].look.fill, graph.clusters[1].look.is_label_below), (Colour("#f5f5f5"), True))
        self.assertEqual([(graph.vertices[edge.tail].label, graph.vertices[edge.head].label) for edge in graph.edges],
                         [("a", "b"), ("c", "a"), ("c", "Self")])


if __name__ == "__main__":
    unittest.main()
