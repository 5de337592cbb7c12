"""The package installs without a network, and its commands answer from there."""
from __future__ import annotations

import os
import subprocess
import sys
import tempfile
import unittest
from importlib.util import find_spec
from pathlib import Path

import support

EDGE = "a -- b -- c\nc -- a\n"


def environment(**changes: str) -> dict[str, str]:
    """The variables without those that would let the checkout's package be found."""
    return {**{key: value for key, value in os.environ.items() if not key.startswith("PYTHON")}, **changes}


class Install(unittest.TestCase):
    def test_pip_install_offline(self) -> None:
        with tempfile.TemporaryDirectory() as folder:
            words = ["-m", "venv", "--system-site-packages"] + ["--without-pip"] * (find_spec("pip") is not None)
            made = subprocess.run([sys.executable, *words, folder], capture_output=True, check=False)
            if made.returncode:
                self.skipTest("venv is missing (Debian: python3-venv)")
            binaries = Path(folder) / "bin"
            words = ["install", "--no-build-isolation", "--no-index", "--no-compile", "--disable-pip-version-check",
                     str(support.PACKAGE)]
            ran = subprocess.run([binaries / "python3", "-m", "pip", *words], capture_output=True, text=True, env=environment(), check=False)
            self.assertEqual(ran.returncode, 0, ran.stdout + ran.stderr)
            (Path(folder) / "edge.txt").write_text(EDGE)
            for command in ([binaries / "planarbend-draw"], [binaries / "python3", "-m", "planarbend", "draw"]):
                ran = subprocess.run([*command, "edge.txt", "-o", "edge.svg"], cwd=folder, capture_output=True, text=True,
                                     env=environment(), check=False)
                if ran.returncode and "networkx" in ran.stderr:
                    self.skipTest("networkx is missing (Debian: python3-networkx)")
                self.assertEqual(ran.returncode, 0, ran.stderr)
                self.assertTrue((Path(folder) / "edge.svg").read_text().startswith("<svg"))
            where = subprocess.run([binaries / "python3", "-c", "import planarbend; print(planarbend.__file__)"], cwd=folder,
                                   capture_output=True, text=True, env=environment(), check=True).stdout
            self.assertTrue(where.startswith(str(Path(folder).resolve())) or where.startswith(folder), where)

    def test_the_sources_stay_clean(self) -> None:
        """Nothing that an installation leaves lies in the checkout."""
        left = [path.name for path in support.PACKAGE.iterdir() if path.name in ("build", "dist") or path.suffix == ".egg-info"]
        self.assertEqual(left, [])


if __name__ == "__main__":
    unittest.main()
