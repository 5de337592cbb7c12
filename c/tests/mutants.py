#!/usr/bin/env python3
"""Tries the wrong versions of c/planarbend.c and c/planarbend.h in c/tests/mutants.txt: for each, the libraries are
made again in a copy of the checkout, and c/tests/run.py has to fail. It prints what sees each, and the share that is
seen; the exit status is 0 if that is at least nine in ten.

    c/tests/mutants.py ARCHIVE [NUMBER...] [--patch FILE]    ARCHIVE is that of the crate planarbend_c

With numbers, only these lines of the table are tried; with --patch, only this patch. It takes about four minutes of
processor time. At the end of the table stand versions that are not wrong: no caller can tell them from the right one,
for the reason given there. They are tried, by all tests, only by number, or with --same (half a minute each).
"""
from __future__ import annotations

import argparse
import concurrent.futures
import os
import shutil
import subprocess
import sys
import tempfile
from pathlib import Path

sys.dont_write_bytecode = True
ROOT = Path(__file__).resolve().parents[2]
COPIED = ["c", "checks/start", "python/planarbend", "crates/corpus/data", "examples/c"]
TESTS = [["crossing"], ["edges"], ["crossing_addresses", "names", "header_in_cpp", "layouts"],
         ["sizes", "wide", "threads", "valgrind", "examples", "package"]]  # tried in this order, until one fails
QUICKLY = {**os.environ, "CFLAGS": "-O0"}  # tests are compiled more often than run

# A line for each: the old text, which occurs once, " -> ", and the new text. "H " before that: the header. " ## " and a
# reason after it: the version is not wrong.
TABLE = ROOT / "c/tests/mutants.txt"


class Mutant:
    """Another version: where, the old and the new text, and why it is not wrong, or an empty string."""

    def __init__(self, line: str) -> None:
        line, _, self.why = line.partition(" ## ")
        self.file = "c/planarbend.h" if line.startswith("H ") else "c/planarbend.c"
        old, _, new = line.removeprefix("H ").partition(" ->")
        self.old, self.new = (text.replace("\\n", "\n") for text in (old, new.strip(" ")))

    def __str__(self) -> str:
        return f"{self.old!r} -> {self.new!r}"

    def put_in(self, root: Path) -> None:
        """Writes the version into a copy of the checkout."""
        text = (ROOT / self.file).read_text(encoding="utf-8")
        if text.count(self.old) != 1:
            sys.exit(f"this text occurs {text.count(self.old)} times: {self.old}")
        (root / self.file).write_text(text.replace(self.old, self.new), encoding="utf-8")


def seen_by(root: Path, archive: Path) -> str:
    """What sees the version in a copy of the checkout, or an empty string. The first test needs no library."""
    make, tests = root / "c/make.py", root / "c/tests/run.py"
    for names in TESTS:
        if names == TESTS[1] and subprocess.run([sys.executable, make, archive], capture_output=True).returncode:
            return "the compiler"
        words = [sys.executable, tests, *names]
        ran = subprocess.run(words, stdout=subprocess.PIPE, text=True, errors="replace", env=QUICKLY)
        if ran.returncode:
            first = next((line for line in ran.stdout.splitlines() if line.startswith("failed: ")), "the tests").split()
            return first[1] if len(first) > 1 else first[0]
    return ""


def tried(mutant: Mutant | Path, archive: Path) -> str:
    """What sees a version or a patch."""
    with tempfile.TemporaryDirectory() as folder:
        root = Path(folder)
        for name in COPIED:
            shutil.copytree(ROOT / name, root / name)
        if isinstance(mutant, Mutant):
            mutant.put_in(root)
        else:
            subprocess.run(["patch", "-s", "-p1", "-d", root, "-i", mutant.resolve()], check=True)
        return seen_by(root, archive.resolve())


def main() -> int:
    parser = argparse.ArgumentParser(description=__doc__, formatter_class=argparse.RawDescriptionHelpFormatter)
    parser.add_argument("archive", type=Path)
    parser.add_argument("numbers", type=int, nargs="*")
    parser.add_argument("--patch", type=Path, action="append", default=[])
    parser.add_argument("--same", action="store_true", help="try those that are not wrong")
    parser.add_argument("--jobs", type=int, default=2, help="how many are tried at a time (2)")
    told = parser.parse_args()
    mutants = list(map(Mutant, TABLE.read_text(encoding="utf-8").splitlines()))
    chosen = told.patch or [mutants[number - 1] for number in told.numbers] or [
        mutant for mutant in mutants if bool(mutant.why) == told.same]
    seen, unseen = 0, 0
    with concurrent.futures.ThreadPoolExecutor(told.jobs) as pool:
        trials = {pool.submit(tried, one, told.archive): one for one in chosen}
        for trial in concurrent.futures.as_completed(trials):
            mutant, what = trials[trial], trial.result()
            if isinstance(mutant, Mutant) and mutant.why:
                print(f"{mutant}: {'SEEN by ' + what if what else 'not seen, and not wrong'}: {mutant.why}", flush=True)
                continue
            seen, unseen = seen + bool(what), unseen + (not what)
            print(f"{mutant}: {what or 'NOT SEEN'}", flush=True)
    print(f"{seen} of {seen + unseen} wrong versions are seen")
    return 1 if 10 * seen < 9 * (seen + unseen) else 0


if __name__ == "__main__":
    sys.exit(main())
