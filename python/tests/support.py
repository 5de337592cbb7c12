"""What the tests share: the package and the program that they try, and what they need beside Python."""
from __future__ import annotations

import atexit
import contextlib
import functools
import importlib.util
import io
import json
import os
import shutil
import subprocess
import sys
import tempfile
import unittest
from collections.abc import Sequence
from pathlib import Path
from typing import Any
from unittest import mock

sys.dont_write_bytecode = True
TESTS = Path(__file__).resolve().parent
PACKAGE = TESTS.parent
ROOT = PACKAGE.parent
EXAMPLES = ROOT / "examples"
GRAPHS = {path.name: path for path in [*sorted((TESTS / "graphs").iterdir()), EXAMPLES / "amplifier.net",
                                       EXAMPLES / "flat.dot"]}
BUILT = ROOT / "out/planarbend"  # where `./planarbend --build` and `--test` leave the program
CORPUS = ROOT / "crates/corpus/data"  # planar_code files
sys.path.insert(0, str(PACKAGE))
sys.path.append(str(ROOT / "checks"))
os.environ.setdefault("PLANARBEND", str(BUILT))

has_networkx = importlib.util.find_spec("networkx") is not None
has_graphviz = bool(shutil.which("dot") and shutil.which("gvpr"))
needs_networkx = unittest.skipUnless(has_networkx, "networkx is missing (Debian: python3-networkx)")
needs_graphviz = unittest.skipUnless(has_graphviz, "Graphviz is missing (Debian: graphviz)")
has_rsvg = shutil.which("rsvg-convert") is not None
needs_rsvg = unittest.skipUnless(has_rsvg, "rsvg-convert is missing (Debian: librsvg2-bin)")


@functools.cache
def compiled() -> str:
    """A folder for what Python compiles, which all processes of the tests share; it is removed at the end."""
    if sys.pycache_prefix:
        return sys.pycache_prefix
    folder = tempfile.mkdtemp()
    atexit.register(shutil.rmtree, folder, ignore_errors=True)
    return folder


def variables(**changes: str) -> dict[str, str]:
    """The environment of a process that finds the package."""
    kept = {name: value for name, value in os.environ.items() if name != "PYTHONDONTWRITEBYTECODE"}
    return {**kept, "PYTHONPATH": str(PACKAGE), "PYTHONPYCACHEPREFIX": compiled(), **changes}


def ran(words: Sequence[str], data: str | bytes = b"", **changes: str) -> subprocess.CompletedProcess[bytes]:
    """What `python3 -m planarbend` does with these words, this standard input and these variables."""
    given = data.encode() if isinstance(data, str) else data
    return subprocess.run([sys.executable, "-m", "planarbend", *words], input=given, capture_output=True,
                          env=variables(**changes), check=False)


def said(words: Sequence[object], data: str | bytes = b"") -> tuple[int, str, str]:
    """The status, output and errors of `python3 -m planarbend` with these words and this input, run in this process."""
    from planarbend import __main__ as package

    given = io.TextIOWrapper(io.BytesIO(data.encode() if isinstance(data, str) else data), encoding="utf-8")
    out, errors = io.StringIO(), io.StringIO()
    with (mock.patch.object(sys, "argv", ["planarbend", *map(str, words)]), mock.patch.object(sys, "stdin", given),
          contextlib.redirect_stdout(out), contextlib.redirect_stderr(errors)):
        try:
            status = package.main()
        except SystemExit as end:
            status = int(end.code or 0)
    return status, out.getvalue(), errors.getvalue()


def drawn(path: Path, folder: Path, *words: str, **changes: str) -> dict[str, Any]:
    """The drawing of a file as JSON; raises `AssertionError` with what was said where there is none."""
    out = folder / (path.name + ".json")
    done = ran(["draw", str(path), "-o", str(out), *words], **changes)
    if done.returncode:
        raise AssertionError(f"{path.name}: status {done.returncode}: {done.stderr.decode(errors='replace')}")
    return json.loads(out.read_text(encoding="utf-8"))


def program_run(*words: object, data: bytes | None = None) -> subprocess.CompletedProcess[bytes]:
    """A run of the program that PLANARBEND names."""
    return subprocess.run([os.environ["PLANARBEND"], *map(str, words)], input=data, capture_output=True, check=False)
