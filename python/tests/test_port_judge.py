"""The judge of ports and clusters takes a right drawing, and sees each change that makes it wrong. The drawing is by hand."""
from __future__ import annotations

import copy
import json
import unittest
from collections.abc import Callable
from typing import Any

import support
from attribute_judge import resolved, words_of
from dot_grammar import PortGrammar
from planarbend.clusters import within
from planarbend.readers import read
from port_judge import Judge

FILE = b"""digraph { compound=true; node [shape=record];
  subgraph cluster_a { label=A; color=red; r [label="<p>x|{y|<q>z}|w"]; subgraph cluster_b { style=filled; fillcolor=gold; label=B; s [label="s"] } }
  t [label="t"]; u [label="u"]; r:q:s -> s; t -> r:p:w; t -> s [lhead=cluster_a]; t -> u; r:y -> u:n }"""
# r is at (40, 40) to (100, 80), its fields 20 wide, s at (50, 120) to (70, 140), t at (0, 200) to (20, 220), u at (100, 200)
FIELDS = [{"text": "x", "port": "p", "box": [40, 40, 60, 80]},
          {"text": "", "port": "", "box": [60, 40, 80, 80], "fields": [{"text": "y", "port": "", "box": [60, 40, 80, 60]},
                                                                     {"text": "z", "port": "q", "box": [60, 60, 80, 80]}]},
          {"text": "w", "port": "", "box": [80, 40, 100, 80]}]
DRAWING: dict[str, Any] = {
    "vertices": [{"name": "r", "box": [40, 40, 100, 80], "fields": FIELDS}, {"name": "s", "box": [50, 120, 80, 140]},
                 {"name": "t", "box": [0, 200, 20, 220]}, {"name": "u", "box": [100, 200, 120, 220]}],
    "edges": [{"tail": 0, "head": 1, "points": [[70, 80], [70, 120]], "tail_port": {"at": [70, 80]}},
              {"tail": 2, "head": 0, "points": [[5, 200], [5, 60], [40, 60]], "head_port": {"at": [40, 60]}},
              {"tail": 2, "head": 1, "points": [[15, 200], [15, 130], [20, 130]], "head_port": {"at": [20, 130]}},
              {"tail": 2, "head": 3, "points": [[20, 210], [100, 210]]},
              {"tail": 0, "head": 3, "points": [[100, 60], [110, 60], [110, 200]]}],
    "frames": [{"name": "cluster_a", "label": "A", "parent": None, "box": [20, 10, 105, 160], "label_box": [50, 12, 70, 24]},
               {"name": "cluster_b", "label": "B", "parent": 0, "box": [45, 100, 90, 150], "label_box": [50, 104, 60, 114]}]}
TEXTS = {"x": (50, 60), "y": (70, 52), "z": (70, 72), "w": (90, 60), "A": (60, 20), "B": (55, 110)}
PICTURE = ('<svg xmlns="http://www.w3.org/2000/svg">' + "".join(f'<text x="{x}" y="{y}">{text}</text>' for text, (x, y) in TEXTS.items())
           + '<rect x="20" y="10" width="85" height="150" stroke="red" fill="none"/>'
           '<rect x="45" y="100" width="45" height="50" stroke="red" fill="gold"/></svg>')

Change = Callable[[dict[str, Any]], object]
CHANGES: dict[str, Change] = {
    "its fields are not drawn": lambda made: made["vertices"][0].pop("fields"),
    "2 fields for 3": lambda made: made["vertices"][0]["fields"].pop(),
    "port 'no' for 'p'": lambda made: made["vertices"][0]["fields"][0].update(port="no"),
    "column 1 at": lambda made: made["vertices"][0]["fields"][0]["box"].__setitem__(2, 58),
    "columns at": lambda made: made["vertices"][0]["fields"][2]["box"].__setitem__(2, 98),
    "not in": lambda made: made["vertices"][0]["fields"][1]["fields"][1]["box"].__setitem__(3, 84),
    "the text 'y' for 'x'": lambda made: made["vertices"][0]["fields"][0].update(box=[60, 40, 80, 60]),
    "1 frames for 2": lambda made: made["frames"].pop(),
    "cluster cluster_b: not drawn": lambda made: made["frames"][1].update(box=None),
    "node u": lambda made: made["vertices"][3].update(box=[85, 90, 102, 98]),
    "node s": lambda made: made["vertices"][1].update(box=[50, 130, 80, 155]),
    "frames cluster_b": lambda made: made["frames"][1].update(box=[45, 100, 104.5, 150]),
    "the label 'B'": lambda made: made["frames"][1].pop("label_box"),
    "the label 'A'": lambda made: made["frames"][0].update(label_box=[50, 2, 70, 24]),
    "cluster_a: no outline": lambda made: made["frames"][0].update(box=[18, 8, 108, 160]),
    "not drawn": lambda made: made["edges"].pop(3),
    "not at q:s": lambda made: made["edges"][0].update(points=[[90, 80], [90, 90], [70, 90], [70, 120]],
                                                                                       tail_port={"at": [90, 80]}),
    "not at p:w": lambda made: made["edges"][1].update(points=[[5, 200], [5, 30], [50, 30], [50, 40]], head_port={"at": [50, 40]}),
    "not straight on": lambda made: made["edges"][0]["tail_port"].update(at=[75, 80]),
    "not reached from outside": lambda made: made["edges"][1].update(points=[[5, 200], [5, 30], [110, 30], [110, 60], [40, 60]]),
    "not at [20, 10, 105, 160]": lambda made: made["edges"][2].update(points=[[15, 200], [15, 130], [50, 130]]),
    "crosses the frame cluster_a 2 times": lambda made: made["edges"][3].update(
        points=[[20, 210], [30, 210], [30, 155], [95, 155], [95, 210], [100, 210]]),
    "crosses the frame cluster_b 3 times": lambda made: made["edges"][0].update(
        points=[[70, 80], [70, 110], [95, 110], [95, 130], [80, 130]]),
    "not at n of": lambda made: made["edges"][4].update(points=[[100, 60], [130, 60], [130, 210], [120, 210]])}


@support.needs_graphviz
class Judged(unittest.TestCase):
    def test_a_right_drawing(self) -> None:
        judge = Judge(FILE, PICTURE, DRAWING)
        self.assertEqual(judge.judged(), [])
        self.assertEqual({what: judge.counts[what] for what in ("ends at fields", "ends at sides", "ends at frames", "frames",
                                                              "crossings with frames", "compass points", "colours of frames")},
                         {"ends at fields": 2, "ends at sides": 1, "ends at frames": 1, "frames": 2, "crossings with frames": 10,
                          "compass points": 3, "colours of frames": 3})

    def test_each_change_is_seen(self) -> None:
        for fault, change in CHANGES.items():
            with self.subTest(fault):
                made = copy.deepcopy(DRAWING)
                change(made)
                found = Judge(FILE, PICTURE, json.loads(json.dumps(made))).judged()
                self.assertTrue(any(fault in one for one in found), found)

    def test_changes_of_the_picture(self) -> None:
        for old, new, fault in ((">x<", ">v<", "the text 'v' for 'x'"), ('fill="gold"', 'fill="navy"', "fill gold"),
                                ('stroke="red" fill="none"', 'stroke="navy"', "stroke red"), (">A<", "><", "the label 'A'"),
                                ("</svg>", '<polyline points="85,58 110,58"/></svg>', "a line crosses the text 'w'"),
                                ("</svg>", '<polyline points="92,80 92,20"/></svg>', "a line crosses the text 'w'")):
            self.assertTrue(any(fault in one for one in Judge(FILE, PICTURE.replace(old, new), DRAWING).judged()), fault)

    def test_a_node_in_two_clusters(self) -> None:
        """It is in the first that the text opens, whatever its name."""
        for first, second in (("cluster_z", "cluster_a"), ("cluster_a", "cluster_z")):
            text = f"graph {{ // subgraph {second}\n subgraph {first} {{ x }} subgraph {second} {{ x; y }} }}"
            groups = Judge(text.encode(), PICTURE, {"vertices": [], "edges": []}).groups
            self.assertEqual([(one.said["name"], one.nodes) for one in groups], [(first, {"x"}), (second, {"y"})])

    def test_random_files_are_read_alike(self) -> None:
        """The readers and the judge, which share no code, find the same clusters and fields."""
        for seed in range(1, 31):
            text = PortGrammar(seed).file().encode()
            graph, judge = read(text, "input", "dot"), Judge(text, PICTURE, {"vertices": [], "edges": []})
            with self.subTest(seed=seed):
                self.assertEqual(sorted((one.name, sorted(graph.vertices[vertex].name for vertex in within(graph.clusters, number)))
                                        for number, one in enumerate(graph.clusters)),
                                 sorted((one.said["name"], sorted(one.nodes)) for one in judge.groups))
                for number, vertex in enumerate(graph.vertices):
                    whole, wanted = graph.fields.get(number), judge.wanted[vertex.name]
                    found = [] if whole is None else [
                        (one.port, (one.at.row, one.at.row + one.at.rows), (one.at.column, one.at.column + one.at.columns),
                         words_of(one.text)) for one, _ in whole.walk()]
                    other = [] if wanted is None else [
                        (one.port, one.rows, one.columns, [] if one.inner else words_of(resolved(one.text, {"N": vertex.name})))
                        for one in wanted.all()]
                    self.assertEqual(found, other, vertex.name)


if __name__ == "__main__":
    unittest.main()
