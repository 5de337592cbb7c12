"""`planarbend-draw` of planar_code, against what `svg.py` makes of the program's JSON Lines; themes; and what is told on
a terminal."""
from __future__ import annotations

import contextlib
import io
import os
import pty
import re
import tempfile
import unittest
import xml.etree.ElementTree as xml
from pathlib import Path

import support
from planarbend.progress import Progress, stage
from svg_reader import SVG

N5 = support.EXAMPLES / "planar_d4_n5.pc"
TWO = support.EXAMPLES / "two.pc"


class Embedded(unittest.TestCase):
    def drawn(self, path: Path, *words: str, name: str = "x.svg") -> str:
        with tempfile.TemporaryDirectory() as folder:
            out = Path(folder) / name
            status, said, errors = support.said(["draw", path, "-o", out, *words])
            self.assertEqual((status, said, errors), (0, "", ""))
            return out.read_text(encoding="utf-8")

    def piped(self, path: Path, *words: str, outer: str = "first") -> str:
        lines = support.program_run("layout", "--json", "--outer", outer, path).stdout
        status, said, errors = support.said(["svg", path, *words], lines)
        self.assertEqual((status, errors), (0, ""))
        return said

    def test_one_graph_a_grid_and_a_page(self) -> None:
        self.assertEqual(self.drawn(TWO), self.piped(TWO, "1"))
        self.assertEqual(self.drawn(TWO, "--graphs", "2"), self.piped(TWO, "2"))
        self.assertEqual(self.drawn(N5, "--graphs", "1-12"), self.piped(N5, "--graphs", "1-12"))
        self.assertEqual(self.drawn(N5, "--graphs", "3,7", "--outer", "best"),
                         self.piped(N5, "--graphs", "3,7", "--outer", outer="best"))
        self.assertEqual(self.drawn(N5, name="x.html"), self.piped(N5, "--html"))
        self.assertEqual(self.drawn(N5, "--graphs", "2-4", "--outer", "first", name="x.html"),
                         self.piped(N5, "--html", "--graphs", "2-4", "--outer"))

    def test_standard_input_and_output(self) -> None:
        status, said, errors = support.said(["draw", "-", "-o", "-"], TWO.read_bytes())
        self.assertEqual((status, said, errors), (0, self.piped(TWO, "1"), ""))

    @support.needs_rsvg
    def test_png(self) -> None:
        with tempfile.TemporaryDirectory() as folder:
            out = Path(folder) / "x.png"
            self.assertEqual(support.said(["draw", TWO, "-o", out])[0], 0)
            self.assertEqual(out.read_bytes()[:4], b"\x89PNG")

    def refused(self, what: str, *words: object, data: bytes = b"", status: int = 1) -> None:
        found, said, errors = support.said(["draw", *words], data)
        self.assertEqual((found, said), (status, ""))
        self.assertRegex(errors, what)

    def test_what_is_refused(self) -> None:
        self.refused("no graph 9", TWO, "-o", "-", "--graphs", "9")
        self.refused("--outer takes first or best for planar_code, not a", TWO, "-o", "-", "--outer", "a")
        self.refused("drawn as .svg, .html, .png, .pdf, not as .json", TWO, "-o", "x.json")
        self.refused("--graphs needs planar_code", support.GRAPHS["k5.txt"], "-o", "-", "--graphs", "1")
        self.refused("an HTML page needs planar_code", support.GRAPHS["k5.txt"], "-o", "/tmp/x.html")
        self.refused("x-y is not a list such as 1-12", TWO, "-o", "-", "--graphs", "x-y", status=2)
        star = bytes([6, 2, 3, 4, 5, 6, 0, 1, 0, 1, 0, 1, 0, 1, 0, 1, 0])
        self.refused("graph 1: refused degree: vertex 1 has 5 neighbours", "-", "-o", "-", data=b">>planar_code<<" + star)
        self.refused("truncated", "-", "-o", "-", data=b">>planar_code<<" + star[:-1])

    def test_a_file_without_graphs(self) -> None:
        header = b">>planar_code<<"
        for words in (["-"], ["-", "--graphs", "2,3"], ["/tmp/x.html"]):
            self.refused(r"\Aplanarbend-draw: -: no graphs\n\Z", "-", "-o", *words, data=header)
        self.refused(r": -: the file contains no vertices\n\Z", "-", "-o", "-", data=b"graph { }\n")
        self.refused(r": -: the file has no graph\n\Z", "-", "-o", "-", "--format", "dot")

    def test_a_page_of_a_cut_file(self) -> None:
        with tempfile.TemporaryDirectory() as folder:
            out = Path(folder) / "x.html"
            status, _, errors = support.said(["draw", "-", "-o", out], TWO.read_bytes()[:-1])
            self.assertEqual((status, errors), (3, "planarbend-draw: - ends truncated, so graphs may be missing\n"))
            self.assertIn("file ends truncated", out.read_text(encoding="utf-8"))


@support.needs_networkx
class Themes(unittest.TestCase):
    def picture(self, text: str, theme: str, form: str = "list") -> xml.Element:
        status, said, errors = support.said(["draw", "-", "-o", "-", "--format", form, "--theme", theme], text)
        self.assertEqual((status, errors), (0, ""))
        return xml.fromstring(said)

    def paints(self, picture: xml.Element) -> set[str]:
        return {one.get(kind, "none").lower() for one in picture.iter() for kind in ("fill", "stroke")} - {"none"}

    def test_dark(self) -> None:
        light, dark = (self.picture("a -> b -> c\n", theme) for theme in ("light", "dark"))
        self.assertEqual([one.tag for one in light.iter()], [one.tag for one in dark.iter()])
        self.assertEqual(self.paints(light) & self.paints(dark), set())
        self.assertLess(brightness(dark[0].get("fill", "")), 40)
        texts = next(group for group in dark.iter(SVG + "g") if group.get("text-anchor"))
        self.assertGreater(brightness(texts.get("fill", "")), 200)

    def test_auto_is_light_with_a_style_for_dark(self) -> None:
        light, dark, auto = (self.picture("a -> b -> c\n", theme) for theme in ("light", "dark", "auto"))
        self.assertEqual(self.paints(auto), self.paints(light))
        style = auto.findtext(SVG + "style") or ""
        self.assertTrue(style.startswith("@media (prefers-color-scheme:dark)"))
        rules = dict(re.findall(r"\.(\w+)\{\w+:(#\w+)\}", style))
        shown = [one for one in auto.iter() if one.tag != SVG + "style"]
        for one, in_dark in zip(shown, dark.iter(), strict=True):
            for kind in ("fill", "stroke"):
                named = [rules[name] for name in one.get("class", "").split() if name in ("paper", *rules) and
                         (name.startswith(kind) or kind == "fill" and name == "paper")]
                self.assertEqual(named or [one.get(kind)], [in_dark.get(kind)])

    @support.needs_graphviz
    def test_colours_of_the_file_stay(self) -> None:
        text = 'digraph { a [color=red fillcolor=white style=filled]; b [fontcolor=blue]; a -> b [color=green] }'
        dark = self.paints(self.picture(text, "dark", "dot"))
        self.assertLessEqual({"red", "white", "blue", "green"}, dark)
        paper = self.picture('graph { bgcolor=yellow; a -- b }', "dark", "dot")
        self.assertEqual(self.paints(paper), self.paints(self.picture('graph { bgcolor=yellow; a -- b }', "light", "dot")))


def brightness(colour: str) -> float:
    """The mean of the parts of a colour, 0 to 255."""
    return sum(int(colour[place:place + 2], 16) for place in (1, 3, 5)) / 3


class Told(unittest.TestCase):
    def test_nothing_where_there_is_no_terminal(self) -> None:
        out = io.StringIO()
        with Progress("x", out) as found:
            self.assertIsNone(found.thread)
        self.assertEqual(out.getvalue(), "")

    def test_a_terminal_is_told_after_a_second(self) -> None:
        main, other = pty.openpty()
        with os.fdopen(other, "w") as out:
            with Progress("short", out):
                stage("quick")
            with Progress("planarbend-draw", out) as progress:
                stage("counting sheep")
                progress.ended.wait(2.5)
        said = ""
        with contextlib.suppress(OSError):  # the end of a terminal
            while piece := os.read(main, 1 << 16):
                said += piece.decode()
        os.close(main)
        self.assertNotIn("short", said)
        self.assertRegex(said, r"planarbend-draw: [1-9]\d* s counting sheep")
        self.assertTrue(said.endswith("\r\033[K"))


if __name__ == "__main__":
    unittest.main()
