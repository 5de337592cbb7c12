#!/usr/bin/env python3
"""Runs all tests: `rt ci`, which proves and tries the crates and builds the program; those of the library for C, which
is built from what was proved; those of the Python package with both; and checks/orders --quick. The last line is 'N
passed, M failed, K skipped'; the exit status is 0 if nothing failed, otherwise 1.

What `rt ci` proves is kept for `planarbend --build`. What was built stays, also if a test fails or is stopped. If
`rt ci` fails, no library is built, and the Python tests run with what was built before.

The package's tests are run by the first of this Python and Debian's that has networkx, NumPy and SciPy, otherwise by the
first that has networkx. Those that need one of these, Graphviz or rsvg-convert are skipped, by name, if it is missing. `planarbend --test` starts this script.
"""
import contextlib
import os
import re
import subprocess
import sys
from collections.abc import Callable
from pathlib import Path

sys.dont_write_bytecode = True
import build
from common import PROGRAM, alone, end_on_signals, ignore_signals, say

ROOT = Path(__file__).resolve().parents[2]
PYTHONS = (sys.executable, "/usr/bin/python3")
ENDING = re.compile(r"(\d+) passed, (\d+) failed(?:, (\d+) skipped)?")
PROVED = re.compile(r"rt: (\w+) (?:proved|is kept: .*)\n")  # lines of `rt ci`


def counts(name: str, folder: Path, *words: str, look: Callable[[str], None] = lambda _: None) -> tuple[int, int, int]:
    """The numbers of passed, failed and skipped tests in a command's last line. The rest of its output is passed on,
    and each line to `look`. A command that fails, or ends without such a line, counts as at least one failure."""
    last = ""
    variables = {"PLANARBEND": program(), "PYTHONDONTWRITEBYTECODE": "1"}
    child = subprocess.Popen(words, cwd=folder, stdin=subprocess.DEVNULL, stdout=subprocess.PIPE, text=True,
                             errors="replace", env=os.environ | variables)
    try:
        for line in child.stdout:
            print(last, end="", flush=True)
            look(line)
            last = line
        child.wait()
    finally:
        child.kill()  # if this script is stopped; what the command has started ends with it
        child.wait()
    found = ENDING.fullmatch(last.strip())
    print(f"{name}: {last.strip()}" if found else last, flush=True)
    passed, failed, skipped = (int(count or 0) for count in found.groups()) if found else (0, 0, 0)
    if found and not child.returncode:
        return passed, failed, skipped
    print(f"{name} ended with status {child.returncode}{'' if found else ' and without its last line'}", flush=True)
    return passed, max(failed, 1), skipped


def program() -> str:
    """The program to test: that of `rt ci`, or the one that was built before."""
    return next((path for path in (build.LINKED, PROGRAM) if os.access(path, os.X_OK)), build.LINKED)


def python() -> str:
    """The Python that runs the package's tests."""
    for modules in ("networkx, numpy, scipy", "networkx"):
        has = f"import sys, {modules}; sys.exit(sys.version_info < (3, 11))"
        for path in PYTHONS:
            if os.path.exists(path) and not subprocess.run([path, "-c", has], capture_output=True).returncode:
                return path
    return sys.executable


class Sources:
    """The sources when the test began: of the program, of the program and the library for C, and of all crates."""

    def __init__(self) -> None:
        self.program = build.Crates()
        self.both = build.Crates("planarbend", build.LIBRARY)
        self.all = build.Crates(*build.listed())

    def keep(self, line: str) -> None:
        """Keeps the library that a line of `rt ci` says is proved for the next build and for `rt check`."""
        found = PROVED.fullmatch(line)
        if found and found[1] in self.all.libraries and found[1] != build.LIBRARY:
            with contextlib.suppress(OSError):
                self.all.keep(found[1])

    def prove(self) -> tuple[int, int, int]:
        """Runs `rt ci`."""
        with build.kept_out(self.all.uses):
            self.all.set_outdated_aside()
        results = counts("rt ci", ROOT, "rt", "ci", look=self.keep)
        with build.kept_out(self.all.uses):
            self.all.put_outdated_back()
        return results

    def build(self) -> tuple[int, int, int]:
        """Puts the program that `rt ci` has built into out/, and makes the library for C of what it has proved."""
        if lacking := {name for name in self.both.libraries if not self.both.is_built(name)} - {build.LIBRARY}:
            print(f"not built, since sources were changed during the test: {' '.join(sorted(lacking))}")
            return 0, 1, 0
        if not self.program.is_program_built():
            self.program.keep_program()
        if missing := build.make.missing():
            print(f"skipped: the library for C, which needs {missing}")
            return 0, 0, 1
        try:
            build.make_library()
        except SystemExit as ended:
            if ended.code > 128:  # a signal
                raise
            return 0, 1, 0
        build.give_to_rt()
        return 1, 0, 0


def run() -> tuple[int, ...]:
    """The numbers of passed, failed and skipped tests."""
    sources = Sources()
    results = [sources.prove()]
    if not results[0][1]:
        results.append(sources.build())
        if results[1][0] and (ROOT / "c/tests/run.py").is_file():
            results.append(counts("C tests", ROOT, sys.executable, "c/tests/run.py"))
    elif os.path.exists(PROGRAM):
        print(f"what was built before is still in {os.path.dirname(PROGRAM)}")
    if not os.access(program(), os.X_OK):
        print("there is no program: the tests that need it fail")
    results.append(counts("Python tests", ROOT / "python", python(), "tests/run.py"))
    results.append(counts("checks/orders", ROOT, sys.executable, "checks/orders", "--quick"))
    return tuple(map(sum, zip(*results)))


def main() -> int:
    end_on_signals()
    with alone():
        build.take_back()
        try:
            passed, failed, skipped = run()
        except SystemExit as ended:
            ignore_signals()
            build.take_back()
            if ended.code > 128:  # a signal
                say("stopped: what was built and proved is kept")
            raise
    print(f"{passed} passed, {failed} failed, {skipped} skipped")
    return 1 if failed else 0


if __name__ == "__main__":
    sys.exit(main())
