"""Schematics from file to drawing, with the library: hand-written files, damaged ones, and the same bytes again."""
from __future__ import annotations

import json
import random
import subprocess
import sys
import tempfile
import unittest
from pathlib import Path
from unittest import mock

import support
from schematic_judge import judge, judge_alone

from planarbend.layout.library import LibraryEngine, path
from planarbend.programs import NoProgram, PlanarbendError
from planarbend.schematics.drawn import Schematic
from planarbend.schematics.flags import split
from planarbend.schematics.parts import Sheet
from planarbend.schematics.readers import ReadError, read

FILES = support.TESTS / "schematics"
FORMS = {"amplifier.cir": "spice", "filter.cir": "spice", "rectifier.cir": "spice", "ring.cir": "spice", "nand.cir": "spice",
         "two_units.kicad_sch": "schematic", "root.kicad_sch": "schematic", "inner.kicad_sch": "schematic", "stage.net": "netlist",
         "counter.json": "yosys"}


def drawn(sheet: Sheet) -> Schematic:
    """The drawing of a sheet by the library, with all of its texts."""
    from planarbend.schematics.schematic import schematic_of  # it needs numpy and scipy

    return schematic_of(split(sheet), LibraryEngine())


class Whole(unittest.TestCase):
    @classmethod
    def setUpClass(cls) -> None:
        try:
            import numpy  # noqa: F401
            import scipy  # noqa: F401

            LibraryEngine()
        except (ImportError, NoProgram, PlanarbendError, OSError) as error:
            raise unittest.SkipTest(f"needs numpy, scipy and the library: {error}") from None
        shorter = mock.patch("planarbend.schematics.wirings.WORK", 200_000)
        shorter.start()
        cls.addClassCleanup(shorter.stop)

    def test_spice(self) -> None:
        self.drawn_files("spice")

    def test_kicad(self) -> None:
        self.drawn_files("schematic", "netlist")

    def test_yosys(self) -> None:
        self.drawn_files("yosys")

    def drawn_files(self, *forms: str) -> None:
        """Look that the judge finds no fault in the drawings of the files of some forms."""
        for name, form in ((name, form) for name, form in FORMS.items() if form in forms):
            with self.subTest(name):
                file = FILES / name
                drawing = json.loads(drawn(read(file.read_bytes(), str(file))).json())
                verdict = judge(drawing, file, form)
                self.assertEqual(verdict.faults, [])
                self.assertEqual(verdict.counts["upright"], verdict.counts["cages"])

    def test_fewest_crossings_and_bends_of_small_circuits(self) -> None:
        for name, crossings, bends in (("amplifier.cir", 0, 3), ("rectifier.cir", 0, 3)):  # as people draw them
            with self.subTest(name):
                drawing = drawn(read((FILES / name).read_bytes(), name))
                self.assertLessEqual(len(drawing.crossings), crossings)
                self.assertLessEqual(drawing.bends, bends)

    def test_the_same_bytes_in_two_processes(self) -> None:
        with tempfile.TemporaryDirectory() as folder:
            told = []
            for seed in ("0", "4711"):
                out = Path(folder) / f"{seed}.svg"
                words = [sys.executable, "-m", "planarbend", "draw", str(FILES / "nand.cir"), "-o", str(out), "--seed", "3", "--effort", "0"]
                environment = support.variables(PYTHONHASHSEED=seed, PLANARBEND_LIBRARY=str(path()))
                environment.pop("PLANARBEND", None)
                subprocess.run(words, env=environment, check=True, capture_output=True)
                told.append(out.read_bytes())
            self.assertEqual(told[0], told[1])

    def tried(self, data: bytes, name: str) -> int:
        """Whether damaged bytes are a sheet; then its drawing is consistent."""
        try:
            sheet = read(data, str(FILES / name))
        except ReadError:
            return 0
        self.assertEqual(judge_alone(json.loads(drawn(sheet).json())).faults, [], name)
        return 1

    def test_damaged_files(self) -> None:
        chance, count = random.Random(2), 0
        for name in FORMS:
            data = (FILES / name).read_bytes()
            for place in range(1, 20, 6):
                count += self.tried(data[:len(data) * place // 20], name)
            damaged = bytearray(data)
            for _ in range(20 if name.endswith(".cir") else 1):
                one, other = chance.randrange(len(data)), chance.randrange(len(data))
                damaged[one], damaged[other] = damaged[other], damaged[one]
            count += self.tried(bytes(damaged), name)
        self.assertGreater(count, 3)


if __name__ == "__main__":
    unittest.main()
