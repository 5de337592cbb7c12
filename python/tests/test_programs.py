"""Which program and which library the package finds, in a checkout, where it was installed, and on the path."""
from __future__ import annotations

import os
import shutil
import stat
import subprocess
import sys
import tempfile
import unittest
from pathlib import Path

import support

ASKED = "import planarbend; from planarbend.layout import library; print(planarbend.program()); print(library.path())"


class Found(unittest.TestCase):
    def setUp(self) -> None:
        folder = tempfile.TemporaryDirectory()
        self.addCleanup(folder.cleanup)
        self.root = Path(folder.name).resolve()
        ignored = shutil.ignore_patterns("__pycache__")
        self.package = self.root / "lib/planarbend/python/planarbend"  # of a checkout, or of an installation
        shutil.copytree(support.PACKAGE / "planarbend", self.package, ignore=ignored)

    def made(self, *places: str) -> list[Path]:
        """Programs at these places below the folder."""
        paths = [self.root / place for place in places]
        for path in paths:
            path.parent.mkdir(parents=True, exist_ok=True)
            path.write_text("#!/bin/sh\n")
            path.chmod(path.stat().st_mode | stat.S_IXUSR)
        return paths

    def asked(self, **changes: str) -> list[str]:
        """The program and the library, or the last line of the error."""
        kept = {name: value for name, value in os.environ.items() if not name.startswith("PLANARBEND")}
        found = subprocess.run([sys.executable, "-B", "-c", ASKED], capture_output=True, text=True, check=False,
                               cwd=self.root, env=kept | {"PYTHONPATH": str(self.package.parent)} | changes)
        return (found.stdout or found.stderr.splitlines()[-1]).splitlines()

    def test_the_first_of_those_that_exist(self) -> None:
        places = ["lib/planarbend/out/planarbend", "lib/planarbend/planarbend", "bin/planarbend",
                  "lib/planarbend/python/bin/planarbend", "path/planarbend"]
        path = f"{self.root / 'path'}:{os.environ['PATH']}"
        paths = self.made(*places)
        for found in paths:
            self.assertEqual(self.asked(PATH=path)[0], str(found))
            found.chmod(0o644)  # no longer a program
        self.assertIn("is not installed", self.asked(PATH=path)[0])
        paths[4].chmod(0o755)
        paths[0].unlink()
        paths[0].mkdir()
        self.assertEqual(self.asked(PATH=path)[0], str(paths[4]))

    def test_the_program_that_is_named(self) -> None:
        program, other = self.made("lib/planarbend/planarbend", "some/program")
        self.assertEqual(self.asked(PLANARBEND=str(other))[0], str(other))
        self.assertEqual(self.asked(PLANARBEND=os.path.relpath(other, self.root))[0], str(other))
        self.assertIn(f"PLANARBEND={other}x is not a program", self.asked(PLANARBEND=f"{other}x")[0])
        self.assertEqual(self.asked(PLANARBEND="")[0], str(program))

    def test_libraries(self) -> None:
        self.made("lib/planarbend/planarbend")
        places = [self.root / "lib/planarbend/out/libplanarbend.so.2", self.package / "libplanarbend.so.2",
                  self.root / "lib/libplanarbend.so.2"]
        none = self.asked()[1]
        for place in reversed(places):
            place.parent.mkdir(exist_ok=True)
            place.touch()
            self.assertEqual(self.asked()[1], str(place))
        self.assertEqual(self.asked(PLANARBEND_LIBRARY="")[1], "None")
        self.assertEqual(self.asked(PLANARBEND_LIBRARY="/some/library.so")[1], "/some/library.so")
        self.assertIn(none, ("None", "libplanarbend.so.2"))


if __name__ == "__main__":
    unittest.main()
