"""`planarbend-draw` of circuits, with a stand-in for what places and wires."""
from __future__ import annotations

import io
import json
import sys
import tempfile
import time
import types
import unittest
from pathlib import Path
from typing import Any
from unittest import mock

import support
from schematic_judge import judge_alone
from schematic_rows import rows

from planarbend.command import run
from planarbend.progress import CLEAR, stage

FILES = support.TESTS / "schematics"


class Commands(unittest.TestCase):
    def setUp(self) -> None:
        folder = tempfile.TemporaryDirectory()
        self.addCleanup(folder.cleanup)
        self.folder = Path(folder.name)
        self.asked: list[tuple[Any, tuple[int, int, bool]]] = []
        stand_in = types.ModuleType("planarbend.schematics.schematic")
        stand_in.schematic_of = self.schematic_of  # type: ignore[attr-defined]
        for patched in (mock.patch.dict(sys.modules, {"planarbend.schematics.schematic": stand_in}),
                        mock.patch("planarbend.layout.library.LibraryEngine")):
            patched.start()
            self.addCleanup(patched.stop)

    def schematic_of(self, sheet: Any, engine: object, seed: int, effort: int, free: bool) -> Any:
        self.asked.append((sheet, (seed, effort, free)))
        return rows(sheet)

    def drawn(self, name: str, *words: str) -> tuple[dict[str, Any], str]:
        """The JSON of a file, and what standard error says."""
        out = self.folder / "out.json"
        status, said, errors = support.said(["draw", FILES / name, "-o", out, *words])
        self.assertEqual((status, said), (0, ""), errors)
        return json.loads(out.read_text()), errors

    def refused(self, words: list[object], reason: str, status: int = 1) -> None:
        found, said, errors = support.said(["draw", *words])
        self.assertEqual((found, said), (status, ""))
        self.assertIn(reason, errors)

    def test_each_form_is_drawn(self) -> None:
        for name, ref in (("two_units.kicad_sch", "U1A"), ("stage.net", "U2"), ("counter.json", "clk"), ("ring.cir", "X1")):
            drawing, _ = self.drawn(name)
            self.assertEqual(judge_alone(drawing).faults, [], name)
            self.assertIn(ref, [part["ref"] for part in drawing["parts"]])

    def test_notes_are_printed(self) -> None:
        _, errors = self.drawn("two_units.kicad_sch")
        self.assertEqual(errors.splitlines(), [
            f"planarbend-draw: {FILES}/two_units.kicad_sch: {note}" for note in (
                "a wire ends on another one at (100.19, 118) without a junction: they are not joined",
                "Q2: a box, since the file does not say whether it is NPN or PNP")])

    def test_options_arrive(self) -> None:
        self.drawn("ring.cir", "--free", "--effort", "3", "--seed", "7")
        self.assertEqual(self.asked[-1][1], (7, 3, True))
        self.drawn("stage.net", "--flags", "4")
        self.assertEqual({part.value for part in self.asked[-1][0].parts if part.is_flag}, {"GND", "+5V", "-5V", "OUT", "LONELY"})
        self.drawn("stage.net", "--wire", "GND, +5V")
        self.assertEqual(sorted(part.value for part in self.asked[-1][0].parts if part.is_flag), ["+5V", "-5V", "-5V", "GND", "LONELY"])

    def test_sheets_modules_and_subcircuits(self) -> None:
        for name, word, inner, parts in (("root.kicad_sch", "--sheet", "amp", 2), ("counter.json", "--module", "counter", 14),
                                         ("ring.cir", "--sheet", "inverter", 2)):
            self.drawn(name, word, inner)
            own = [part for part in self.asked[-1][0].parts if not part.is_flag and not part.ref.startswith("bundle")]
            self.assertEqual(len(own), parts, name)
        self.refused([FILES / "ring.cir", "-o", "-", "--sheet", "x"], "there is no subcircuit x; there are inverter")

    def test_pictures(self) -> None:
        status, said, errors = support.said(["draw", FILES / "nand.cir", "-o", "-"])
        self.assertEqual((status, errors), (0, ""))
        self.assertIn("<title>M3 NM, pin G</title>", said)
        if support.has_rsvg:
            for ending, head in (("png", b"\x89PNG"), ("pdf", b"%PDF")):
                out = self.folder / f"out.{ending}"
                self.assertEqual(support.said(["draw", FILES / "nand.cir", "-o", out])[0], 0)
                self.assertTrue(out.read_bytes().startswith(head))

    def test_other_files_are_refused(self) -> None:
        self.refused([FILES / "nand.cir", "-o", self.folder / "out.gml"], "a schematic is written as .svg, .png, .pdf or .json, not as .gml")
        self.refused([FILES / "empty.cir", "-o", "-"], f"{FILES}/empty.cir: the circuit has no elements")
        self.refused([FILES / "nand.cir", "-o", "-", "--split", "a"], "--split is for graphs, not for schematics")
        self.refused([FILES / "nand.cir", "-o", "-", "--flags", "1"], "--flags must be at least 2", 2)
        broken = self.folder / "broken.kicad_sch"
        broken.write_text("(kicad_sch (version 20211123)\n(symbol (lib_id x)))")
        self.refused([broken, "-o", "-"], f"{broken}:2: a symbol x that the file does not describe")

    def test_progress_on_a_terminal_only(self) -> None:
        class Errors(io.StringIO):
            """Standard error, which may be a terminal."""

            is_terminal = False

            def isatty(self) -> bool:
                return self.is_terminal

        def slowly(*given: Any) -> Any:
            stage("component 1 of 1")
            time.sleep(0.2)
            return self.schematic_of(*given)

        sys.modules["planarbend.schematics.schematic"].schematic_of = slowly  # type: ignore[attr-defined]
        for is_terminal in (True, False):
            errors = Errors()
            errors.is_terminal = is_terminal
            words = ["planarbend-draw", str(FILES / "nand.cir"), "-o", str(self.folder / "out.svg")]
            with (mock.patch("planarbend.progress.AFTER", 0.01), mock.patch.object(sys, "stderr", errors),
                  mock.patch.object(sys, "argv", words)):
                self.assertEqual(run(), 0)
            if is_terminal:
                self.assertIn("planarbend-draw: 0 s component 1 of 1", errors.getvalue())
                self.assertTrue(errors.getvalue().endswith(CLEAR))
            else:
                self.assertEqual(errors.getvalue(), "")

    def test_without_the_library(self) -> None:
        out = self.folder / "out.svg"
        for words in ({}, {"PLANARBEND": "/bin/true"}):
            ran = support.ran(["draw", str(FILES / "nand.cir"), "-o", str(out)], PLANARBEND_LIBRARY="", **words)
            self.assertEqual(ran.returncode, 1)
            self.assertIn(b"libplanarbend.so.2 was not found: run ./planarbend --build", ran.stderr)
            self.assertFalse(out.exists())

    def test_draw(self) -> None:
        from planarbend import schematics

        out = self.folder / "out.svg"
        drawing = schematics.draw(str(FILES / "nand.cir"), str(out))
        self.assertEqual(drawing.bends, 0)
        self.assertIn("<svg", out.read_text())
        with self.assertRaises(schematics.ReadError):
            schematics.draw(str(FILES / "empty.cir"), str(out))
        self.assertEqual(schematics.read(b"t\nR1 a b 1\n", "x.cir").parts[0].kind, schematics.Kind.RESISTOR)
        with self.assertRaises(AttributeError):
            schematics.nothing


if __name__ == "__main__":
    unittest.main()
