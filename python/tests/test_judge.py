"""Random DOT files are drawn as they say, and the judge of that sees what is not."""
from __future__ import annotations

import json
import unittest
from collections import Counter

import support
from attribute_judge import LISTED, Judge, Verdict, drawn, shown_alike
from dot_grammar import Grammar

FILES = (54, 61, 95, 112, 119, 120, 128, 147)
FILE = """digraph { bgcolor=ivory; label=whole; a [shape=diamond, color=red, penwidth=3, URL="a.html", tooltip=tip];
  b [style="filled,dashed", fillcolor=gold, fontcolor=blue, fontsize=20, fontname="Times-Bold"]; c [shape=box, style=rounded];
  a -> b [label=ab, headlabel=h, taillabel=t, arrowhead=tee, color=green]; b -> c [dir=back, arrowtail=odot, style=bold];
  a -> c [style=invis]; d [style=invis] }"""
CHANGES = {  # of the picture, and the attributes that are then missing; none if the whole outline is
    'stroke="red"': ('stroke="blue"', "color"), 'stroke-width="3"': ('stroke-width="2"', "penwidth"),
    'href="a.html"': ('href="b.html"', "URL"), ">tip<": (">top<", "tooltip"), 'fill="gold"': ('fill="red"', "fillcolor"),
    'fill="blue"': ('fill="red"', "fontcolor"), 'font-size="20"': ('font-size="19"', "fontsize"),
    'font-weight="bold"': ('font-weight="lighter"', "fontname"), 'stroke-dasharray="5 3"': ("", "style dashed"),
    'rx="8"': ('rx="0"', "style rounded"), 'fill="ivory"': ('fill="white"', "bgcolor"), ">whole<": (">part<", "label"),
    ">ab<": (">ba<", "label"), ">h<": (">i<", "headlabel"), ">t<": (">u<", "taillabel"),
    "M6.5 0H9V10H6.5z": ("M0 1L9 5L0 9z", "arrowhead"), ' marker-start="': (' marker-end="', "dir"),
    '<circle cx="5" cy="5" r="3.5"': ('<path d="M0 1L9 5L0 9z"', "arrowtail"), "<polygon": ("<polyline", "")}


@support.needs_graphviz
@support.needs_networkx
class Judged(unittest.TestCase):
    def judged(self, text: str) -> Verdict:
        svg, drawing, warnings, written = drawn(text.encode())
        self.assertEqual(shown_alike(drawing, written), [])
        return Judge(text.encode(), svg, drawing, warnings).judged()

    def test_random_files(self) -> None:
        """They have nearly all attributes between them."""
        whole = Verdict()
        for seed in FILES:
            with self.subTest(seed=seed):
                found = self.judged(Grammar(seed).file())
                self.assertEqual(found.faults, [])
                whole.add(found)
        self.assertEqual(whole.set, whole.seen)
        self.assertGreaterEqual({what for _, what in whole.set}, set(LISTED))

    def test_what_is_missing_is_seen(self) -> None:
        svg, drawing, warnings, _ = drawn(FILE.encode())
        self.assertEqual(Judge(FILE.encode(), svg, drawing, warnings).judged().faults, [])
        for old, (new, attribute) in CHANGES.items():
            with self.subTest(old):
                self.assertIn(old, svg)
                found = Judge(FILE.encode(), svg.replace(old, new), drawing, warnings).judged()
                missing = Counter({what for (of, what), count in found.set.items() if found.seen[of, what] < count})
                self.assertTrue(found.faults)
                self.assertIn(attribute, [*missing, ""])

    def test_other_boxes_and_crossings_are_seen(self) -> None:
        _, drawing, _, written = drawn(b"graph { a -- b -- c -- d -- a -- c; b -- d; e -- {a b c d} }")
        moved = json.loads(json.dumps(drawing))
        moved["vertices"][1]["box"][2] += 3
        self.assertEqual(len(shown_alike(moved, written)), 1)
        self.assertEqual(len(drawing["crossings"]), 1)
        self.assertEqual(len(shown_alike(drawing | {"crossings": []}, written)), 1)


if __name__ == "__main__":
    unittest.main()
