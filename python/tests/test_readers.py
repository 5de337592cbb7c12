"""Each reader beside Graphviz's and networkx's own counts, and each refusal by its words and its line."""
from __future__ import annotations

import collections
import json
import random
import re
import shutil
import subprocess
import unittest
from pathlib import Path
from unittest import mock

import support
from planarbend.graph import Arrow, Graph, Kind
from planarbend.readers import FORMS, ReadError, read

COUNT = 'BEG_G { printf("%d %d", $G.n_nodes, $G.n_edges); }'


def of(text: str | bytes, name: str = "input", form: str | None = None) -> Graph:
    """The graph of a text."""
    return read(text.encode() if isinstance(text, str) else text, name, form)


def labels(graph: Graph) -> list[str]:
    return [vertex.label for vertex in graph.vertices]


def pairs(graph: Graph) -> list[tuple[str, str]]:
    """The edges by the names of their ends."""
    return [(graph.vertices[edge.tail].name, graph.vertices[edge.head].name) for edge in graph.edges]


def unordered(graph: Graph) -> collections.Counter[frozenset[str]]:
    return collections.Counter(map(frozenset, pairs(graph)))


class Case(unittest.TestCase):
    def refused(self, text: str | bytes, words: str, line: int | None = None, name: str = "input", form: str | None = None) -> None:
        """Looks that a text is refused by these words, and by this line where one is given."""
        with self.assertRaisesRegex(ReadError, words) as caught:
            of(text, name, form)
        self.assertEqual(caught.exception.file, name)
        if line is not None:
            self.assertEqual(caught.exception.line, line)
            self.assertIn(f"{name}:{line}: ", str(caught.exception))


class Lists(Case):
    def test_chains_words_and_names(self) -> None:
        graph = of('a -- b -> c\n"q -- r" -- "s\\"t" # no\nlone\nx  y\r\n\n"two words"  w\none more -- a#b\n')
        self.assertEqual(pairs(graph), [("a", "b"), ("b", "c"), ("q -- r", 's"t'), ("x", "y"), ("two words", "w"), ("one more", "a#b")])
        self.assertEqual([edge.arrow for edge in graph.edges[:2]], [Arrow.NONE, Arrow.FORWARD])
        self.assertTrue(graph.directed)
        self.assertIn("lone", labels(graph))

    def test_loops_and_parallel_edges_stay(self) -> None:
        self.assertEqual(pairs(of("a -- a -- b\nb a\na b\n")), [("a", "a"), ("a", "b"), ("b", "a"), ("a", "b")])

    def test_refusals(self) -> None:
        self.refused("a -- b\na -- \n", "lacks a name: a --", 2)
        self.refused("a -- -- b", "lacks a name", 1)
        self.refused("a b\na b c\n", "neither a connection .* nor two words: a b c", 2)
        self.refused("a,b\n", "not a connection: a,b", 1)
        self.refused('a -- "b', "unterminated quote", 1)
        self.refused("a -- b\nc\xe9 d".encode("latin-1"), "not UTF-8 text .byte 0xe9.", 2)
        self.refused("", "empty")
        self.refused("# nothing\n", "contains no vertices")


@support.needs_graphviz
class Dot(Case):
    def test_our_graphs_have_graphviz_counts(self) -> None:
        for path in (support.GRAPHS["groups.dot"], support.GRAPHS["records.dot"], *support.EXAMPLES.glob("*.dot")):
            counted = subprocess.run(["gvpr", COUNT], input=path.read_bytes(), capture_output=True, check=True).stdout
            graph = of(path.read_bytes(), path.name)
            self.assertEqual((len(graph.vertices), len(graph.edges)), tuple(map(int, counted.split())), path.name)

    def test_random_graphs_have_graphviz_counts(self) -> None:
        chance = random.Random(81)
        for _ in range(20):
            directed = chance.random() < .5
            word, joint = ("digraph", "->") if directed else ("graph", "--")
            lines = []
            for _ in range(chance.randrange(1, 8)):
                ends = ["{" + " ".join(chance.sample("abcdefgh", chance.randrange(1, 4))) + "}" if chance.random() < .4
                        else chance.choice("abcdefgh") for _ in range(chance.randrange(1, 5))]
                body = f" {joint} ".join(ends) + ";"
                lines.append(f"subgraph cluster_{len(lines)} {{ {body} }}" if chance.random() < .3 else body)
            text = "\n".join([chance.choice(["", "strict "]) + word + " {", *lines, "}"])
            counted = subprocess.run(["gvpr", COUNT], input=text.encode(), capture_output=True, check=True).stdout
            graph = of(text)
            self.assertEqual((len(graph.vertices), len(graph.edges)), tuple(map(int, counted.split())), text)
            self.assertEqual(graph.directed, directed)

    def test_chains_through_groups(self) -> None:
        self.assertEqual(sorted(pairs(of("digraph { a -> b -> {c d} }"))), [("a", "b"), ("b", "c"), ("b", "d")])

    def test_labels(self) -> None:
        graph = of(support.GRAPHS["records.dot"].read_bytes())
        self.assertEqual(labels(graph), ["key | one | two | <rest>", "id | name\n7 | R&D", 'a "quoted" name,\non two lines'])
        self.assertEqual([edge.label for edge in graph.edges if edge.label], ["refers\nto"])
        graph = of('digraph g { a [label="x\\ny\\l\\N\\G&lt;"]; b [label=""]; a -> b [label="\\T to \\H"]; b -> b [xlabel=x] }')
        self.assertEqual(labels(graph), ["x\ny\nag<", ""])
        self.assertEqual([edge.label for edge in graph.edges], ["a to b", "x"])
        self.assertEqual(labels(of('graph { a [label="<b>no HTML</b>"] }')), ["<b>no HTML</b>"])
        self.assertEqual(labels(of('graph { node [shape=record]; a [label="x<b|{y"]; b [label="<p> x|y>z"] }')), ["x<b | y", "x | yz"])
        self.assertEqual(labels(of("graph { a [shape=nosuch]; b [label=<<nob>x</nob>>] }")), ["a", "x"])
        self.assertEqual(labels(of('graph { charset=latin1; a [label="\xe4"] }'.encode("latin-1"))), ["\xe4"])

    def test_beginnings(self) -> None:
        for begin in ("graph", "/* { */ GRAPH // {\n", '# 1 "{"\nstrict graph g', 'graph "{" + "b{"', "strict\ngraph<{>", "graph -1.5"):
            graph = of(begin + '{ a -- b; b [label=""]; a [color=red] }')
            self.assertEqual(labels(graph), ["a", ""], begin)

    def test_arrows(self) -> None:
        def arrows(text: str) -> list[str]:
            return [edge.arrow.name for edge in of(text).edges]

        self.assertEqual(arrows("digraph { a->b; b->c [dir=back]; c->d [dir=both]; d->e [dir=none] }"), ["FORWARD", "BACK", "BOTH", "NONE"])
        self.assertEqual(arrows("graph { a--b; b--c [dir=forward] }"), ["NONE", "FORWARD"])
        self.assertEqual(arrows("digraph { a->b [arrowhead=none]; b->c [dir=both arrowtail=none] }"), ["NONE", "FORWARD"])

    def test_refusals(self) -> None:
        self.refused("digraph {\n a -> b\n b -> -> c }", "Graphviz: syntax error near '->'", 3)
        self.refused("graph { a -> b }", "syntax error", 1)
        self.refused("graph { a -- b", "syntax error", 1, "plan.gv")
        self.refused("nonsense", "syntax error", 1, "plan.dot")
        self.refused('graph { "\xe4'.encode("latin-1"), "syntax error .*missing endquote", 1)
        self.refused("graph {a} graph {b}", "2 graphs; only one can be drawn")

    def test_without_graphviz(self) -> None:
        with mock.patch.object(shutil, "which", return_value=None):
            self.refused("graph { a -- b }", r"program nop is needed .*apt install graphviz")


@support.needs_networkx
class Networks(Case):
    def test_random_graphs_of_networkx(self) -> None:
        import networkx

        chance = random.Random(81)
        for number in range(12):
            graph = (networkx.MultiDiGraph if number % 2 else networkx.MultiGraph)()
            graph.add_nodes_from(range(chance.randrange(1, 12)))
            ends = list(graph)
            graph.add_edges_from((chance.choice(ends), chance.choice(ends)) for _ in range(chance.randrange(20)))
            data = networkx.node_link_data(graph)
            for text in ("\n".join(networkx.generate_graphml(graph)), "\n".join(networkx.generate_gml(graph)), json.dumps(data)):
                found = of(text)
                wanted = collections.Counter(frozenset(map(str, edge[:2])) for edge in graph.edges)
                self.assertEqual(sorted(labels(found)), sorted(map(str, graph)))
                self.assertEqual(unordered(found), wanted)
                self.assertEqual(found.directed, graph.is_directed())
                if graph.is_directed():
                    self.assertEqual(sorted(pairs(found)), sorted(tuple(map(str, edge[:2])) for edge in graph.edges))
            simple = networkx.empty_graph(ends)
            simple.add_edges_from((tail, head) for tail, head, _ in graph.edges if tail != head)
            found = of(networkx.to_graph6_bytes(simple))
            self.assertEqual(unordered(found), collections.Counter(frozenset(map(str, edge)) for edge in simple.edges))

    def test_graphml_keeps_directions_order_and_nested_graphs(self) -> None:
        graph = of(support.GRAPHS["nested.graphml"].read_bytes())
        self.assertEqual(labels(graph), ["client", "server", "cache", "store"])
        self.assertEqual([(edge.label, edge.arrow.name) for edge in graph.edges],
                         [("", "FORWARD"), ("late", "FORWARD"), ("asks", "FORWARD"), ("answers", "FORWARD"), ("", "NONE"),
                          ("", "FORWARD"), ("", "FORWARD")])
        text = ('<graphml><graph edgedefault="undirected"><node id="b"/><node id="a"/><edge id="e" source="b" target="a"/>'
                '<edge id="e" source="b" target="a" directed="true"/></graph></graphml>')
        self.assertEqual([(edge.tail, edge.head, edge.arrow.name) for edge in of(text).edges], [(0, 1, "NONE"), (0, 1, "FORWARD")])

    def test_graphml_refusals(self) -> None:
        head = '<graphml><graph edgedefault="directed">\n<node id="a"/>\n'
        self.refused(head + '<edge source="a" target="z"/></graph></graphml>', "end z is not a node", 3)
        self.refused(head + "<edge/></graph></graphml>", "edge without source and target", 3)
        self.refused(head + "<hyperedge/></graph></graphml>", "hyperedge", 3)
        self.refused(head + "</graph><graph/></graphml>", "a second graph", 3)
        self.refused(head + "</graphml>", "not XML: mismatched tag", 3)
        self.refused("<graphml/>", "has no graph")

    def test_gml(self) -> None:
        text = 'Creator "x"\nVersion 1\ngraph\n[ node [ id 1 label "a&amp;b" ] node [ id 2 label "a" ]\nedge [ source 1 target 2 label 5 ] edge [ source 1 target 2 ] ]'
        graph = of(text)
        self.assertEqual(labels(graph), ["a&b", "a"])
        self.assertEqual([edge.label for edge in graph.edges], ["5", ""])
        self.refused("graph [\n node [ id 1 \n node id ]\n]", "not GML: expected", 3)
        self.refused("graph [ node [ id 1 ] edge [ source 1 target 3 ] ]", "not GML: .*undefined target 3")

    def test_graph6(self) -> None:
        import networkx

        petersen = networkx.petersen_graph()
        for header, name, form in ((True, "any", None), (False, "petersen.g6", None), (False, "any", "graph6")):
            graph = of(networkx.to_graph6_bytes(petersen, header=header), name, form)
            self.assertEqual((len(graph.vertices), len(graph.edges)), (10, 15))
        self.refused(2 * networkx.to_graph6_bytes(petersen, header=False), "2 graphs; only one can be drawn", 2, "many.g6")
        self.refused(">>graph6<<I!", "not graph6", 1)
        self.refused(">>graph6<<\n", "no graph")

    def test_without_networkx(self) -> None:
        with mock.patch.dict("sys.modules", networkx=None):
            for text in ("<graphml/>", "graph [ node [ id 1 ] ]", ">>graph6<<@"):
                status, _, errors = support.said(["draw", "-", "-o", "-"], text)
                self.assertEqual(status, 1)
                self.assertIn("needs the Python library networkx (Debian: python3-networkx; pip install networkx)", errors)


class Json(Case):
    def test_networkx_and_d3(self) -> None:
        graph = of('{"directed":true,"nodes":[{"id":[0,1],"label":"x"},{"id":"b"}],"edges":[{"source":[0,1],"target":"b","label":3}]}')
        self.assertEqual(labels(graph), ["x", "b"])
        self.assertEqual([(edge.tail, edge.head, edge.label, edge.arrow) for edge in graph.edges], [(0, 1, "3", Arrow.FORWARD)])
        graph = of('{"nodes":[{"name":"x"},{"name":"y"}],"links":[{"source":1,"target":0},{"source":1,"target":1}]}')
        self.assertEqual(pairs(graph), [("y", "x"), ("y", "y")])

    def test_refusals(self) -> None:
        self.refused('{"nodes":[{"id":1}\n{"id":2}]}', "not JSON: ", 2)
        self.refused('{"a":1}', "needs the lists nodes and links")
        self.refused("[1]", "needs the lists nodes and links")
        self.refused("[" * 100_000, "nested too deeply|not JSON")
        self.refused('{"nodes":[1],"links":[]}', "node 1 is not an object")
        self.refused('{"nodes":[{"id":1},{"id":1}],"links":[]}', "two nodes have the id 1")
        self.refused('{"nodes":[{"id":1}],"links":[{"source":1,"target":7}]}', "target of link 1 is not a node: 7")
        self.refused('{"nodes":[{"id":1}],"links":[{"source":1}]}', "target of link 1")
        self.refused('{"nodes":[{"id":{}}],"links":[]}', "an id is an object")
        self.refused('{"nodes":[],"links":[]}', "contains no vertices")


class Circuits(Case):
    def test_netlist(self) -> None:
        graph = of(support.GRAPHS["amplifier.net"].read_bytes())
        kinds = collections.Counter(vertex.kind for vertex in graph.vertices)
        self.assertEqual(kinds, {Kind.PART: 11, Kind.NET: 5})
        self.assertEqual([(graph.vertices[edge.tail].name, graph.vertices[edge.head].name, edge.label) for edge in graph.edges
                          if graph.vertices[edge.head].kind is Kind.PART], [("J1", "C1", "IN"), ("C2", "J2", "OUT")])
        self.assertEqual([vertex.label for vertex in graph.vertices if vertex.kind is Kind.NET], ["GND", "VCC", "", "", ""])
        self.assertEqual(graph.vertices[0].label, "C1\n100n")
        self.assertEqual(len(graph.edges), 6 + 3 + 1 + 4 + 3 + 1 + 3)

    def test_board(self) -> None:
        graph = of(support.GRAPHS["flasher.kicad_pcb"].read_bytes())
        named = sorted(pairs(graph))
        self.assertEqual(named, sorted([
            ("U1", "GND"), ("J1", "GND"), ("D1", "GND"), ("U1", "VCC"), ("J1", "VCC"), ("R1", "VCC"), ("U1", "/BUS0"),
            ("J1", "/BUS0"), ("R2", "/BUS0"), ("U1", "R1"), ("U1", "J1"), ("D1", "R2")]))
        self.assertIn("H1", labels(graph))

    def test_newer_boards_name_nets_without_numbers(self) -> None:
        graph = of('(kicad_pcb (footprint "x" (property "Reference" "A") (pad "1" (net "N"))) (footprint "x" (pad "1" (net "N"))))')
        self.assertEqual(pairs(graph), [("A", "part 2")])

    def test_pads_of_one_name_are_one_pin(self) -> None:
        """Pads without a name are one each, whether the name is empty or left out: a net that joins two pins of a part is a loop."""
        for one, other, wanted in (('"1"', '"1"', []), ('"1"', '"2"', [("A", "A")]), ('""', '""', [("A", "A")]), ("", "", [("A", "A")])):
            graph = of(f'(kicad_pcb (footprint "x" (property "Reference" "A") (pad {one} (net "N")) (pad {other} (net "N"))))')
            self.assertEqual(pairs(graph), wanted)

    def test_quotes_and_backslashes_in_words(self) -> None:
        graph = of(r'(export (components (comp (ref "A\"1") (value "x\\y"))))')
        self.assertEqual(labels(graph), ['A"1\nx\\y'])

    def test_a_net_within_a_part_is_a_loop_and_a_single_pin_nothing(self) -> None:
        parts = '(components (comp (ref "U1")) (comp (ref "U2")))'
        graph = of(f'(export {parts} (nets (net (name "/A") (node (ref "U1") (pin "1")) (node (ref "U1") (pin "2")))'
                   '(net (name "/B") (node (ref "U2") (pin "1"))) (net (name "/C") (node (ref "U2") (pin "1")) (node (ref "U2") (pin "1")))))')
        self.assertEqual([(edge.tail, edge.head, edge.label) for edge in graph.edges], [(0, 0, "A")])

    def test_refusals(self) -> None:
        self.refused("(kicad_sch (version 1))", "a KiCad schematic.*export a netlist.*kicad-cli sch export netlist", 1, "amp.kicad_sch")
        self.refused("EESchema Schematic File Version 4", "KiCad 5 or older.*netlist", 1, "amp.sch")
        self.refused("(kicad_pcb\n (net 1 \"a)", "unterminated quote", 2)
        self.refused("(kicad_pcb\n (net 1", r"unclosed '\(net'", 2)
        self.refused("(kicad_pcb))", r"unmatched '\)'", 1)
        self.refused('(export (components\n (comp (value "1"))))', "a comp without ref", 2)
        self.refused('(export (nets (net (code "1")\n (node (ref "R9") (pin "1")))))', "pin of R9, which is not a component", 2)
        self.refused("* spice\nR1 a b 1k\n", "text outside the list", 1, "amp.net")
        self.refused("<export version='D'/>", "netlist of KiCad in XML", 1)
        self.refused("(footprint x)", "a footprint of KiCad", 1)
        self.refused("(edif x)", "EDIF", 1)
        self.refused("(lisp x)", "begins with lisp", 1)


class Content(Case):
    def test_content_decides_and_not_the_name(self) -> None:
        for path in support.GRAPHS.values():
            if path.suffix == ".g6" or not self.can_read(path):
                continue
            plain, other = of(path.read_bytes(), path.name), of(path.read_bytes(), "input.txt")
            self.assertEqual(plain, other, path.name)
            self.assertEqual(plain, of(b"\xef\xbb\xbf" + path.read_bytes(), "input") if path.suffix != ".dot" else plain)

    def can_read(self, path: Path) -> bool:
        if path.suffix == ".dot":
            return bool(shutil.which("dot"))
        return path.suffix not in (".graphml", ".gml", ".g6") or bool(support.importlib.util.find_spec("networkx"))

    def test_comments_before_the_graph(self) -> None:
        if shutil.which("dot"):
            for head in ("/* graph { */ ", "// graph\n", "# line\n", "\n\n", 'strict ', "STRICT /* x */ "):
                self.assertEqual(len(of(head + 'Graph "x {" { a -- b }').edges), 1, head)
        if self.can_read(Path("a.gml")):
            self.assertEqual(len(of("# c\ncomment \"graph [\"\nVersion 1\ngraph [ node [ id 0 ] ]").vertices), 1)

    def test_the_format_overrides(self) -> None:
        self.assertEqual(labels(of("{ [", form="list")), ["{", "["])
        with self.assertRaisesRegex(ValueError, "no such format: pdf"):
            of("a", form="pdf")
        for form in FORMS:
            if form not in ("list", "dot") and self.can_read(Path(f"x.{form}")) and self.can_read(Path("x.gml")):
                self.refused("a -- b", "", form=form)

    def test_what_is_no_graph_is_named(self) -> None:
        foreign = {b">>planar_code<<\x02\x02\0\x01\0": "planar_code", b"\x89PNG\r\n\x1a\n": "PNG image", b"\xff\xd8\xff\xe0": "JPEG",
                   b"GIF89a": "GIF", b"%PDF-1.4": "PDF", b"%!PS-Adobe": "PostScript", b"PK\x03\x04": "zip", b"\x1f\x8b\x08": "gzip",
                   b"\x7fELF\x02": "program", b"<svg xmlns='x'>": "SVG image", b"<?xml version='1.0'?><!-- c --><gexf>": "GEXF",
                   b"<html>": "HTML", b"<thing>": "root thing", b">>sparse6<<:I`": "sparse6", b":An": "sparse6",
                   b">>digraph6<<&": "digraph6", b"\xff\xfea\0": "UTF-16", b"a -- b\n\0\0": "not text: it contains the byte 0x00",
                   b'{"vertices":[],"edges":[],"crossings":[]}': "a drawing that planarbend-draw wrote",
                   b'{"angles":[],"file":1,"graph":1,"status":"ok"}\n{"end":"complete"}': "JSON Lines of planarbend",
                   b"SQLite format 3\0": "SQLite"}
        for data, words in foreign.items():
            for name in ("input", "input.txt", "input.dot"):
                self.refused(data, re.escape(words) if "(" not in words else words, None, name)

    def test_the_repository_has_no_graph_in_its_pages(self) -> None:
        for name in ("README.md", "planarbend", "crates.txt", "docs/radio.svg", "crates/corpus/data/two.pc"):
            path = support.ROOT / name
            if path.is_file():
                with self.assertRaises(ReadError, msg=name):
                    of(path.read_bytes(), path.name)

    def test_no_bytes_break_a_reader(self) -> None:
        """Bytes taken out, put in and changed give a graph or a ReadError, and nothing else."""
        chance = random.Random(1)
        for path in support.GRAPHS.values():
            if not self.can_read(path) or path.suffix == ".dot" or path.suffix == ".g6" and not self.can_read(Path("a.gml")):
                continue
            data = path.read_bytes()
            for _ in range(20):
                at, length = chance.randrange(len(data)), chance.randrange(1, 20)
                new = bytes(chance.randrange(256) for _ in range(chance.randrange(3)))
                try:
                    of(data[:at] + new + data[at + length:], path.name)
                except ReadError:
                    pass


if __name__ == "__main__":
    unittest.main()
