#!/usr/bin/env python3
"""Makes wrong bodies of the package's functions, and prints how many the tests see: at least nine in ten should be.

    PLANARBEND=PROGRAM python3 python/tests/mutants.py

A mutant is a module with one change: another operator, number or truth value, an argument or a call left out, two
arguments exchanged, a condition turned round. Which are tried depends on the seed and on their own text alone. Each is
tried in a copy of the package by those test classes that call its function, the quickest first, up to the first
failure. A mutant that survives is printed; `mutants.txt` lists those of which nobody would see anything, each with the
reason, and they are not tried again unless `--again` is given.

The first part finds which class calls which function, which takes about as long as the tests. `--calls FILE` keeps that
for the next time. The whole takes up to 20 minutes of processor time. `test_install` is left out.
"""
from __future__ import annotations

import argparse
import ast
import compileall
import contextlib
import hashlib
import importlib
import itertools
import json
import os
import re
import resource
import shutil
import signal
import sys
import tempfile
import time
import traceback
import unittest
from collections.abc import Iterator
from concurrent.futures import ThreadPoolExecutor
from dataclasses import dataclass
from pathlib import Path
from typing import Any

TESTS = Path(__file__).resolve().parent
ROOT = TESTS.parents[1]
EXCUSED = TESTS / "mutants.txt"
LEFT_OUT = ("test_install",)
PRELOADED = ("networkx", "numpy", "scipy.optimize", "scipy.sparse", "unittest.mock", "xml.etree.ElementTree", "subprocess", "ctypes",
             "decimal", "html")
COPIED = {"test_programs.Found": ("programs.py", "library.py")}  # it tries these in a copy, where no calls are noted
LEAST = 4  # mutants of a module
MOST_SECONDS = 1200  # of one mutant, of the clock: only those that wait for ever need it
MOST_OF_TEST = 3  # seconds of processor time of one test
MOST_OF_CHILD = 20  # seconds of processor time of one process that a test starts
NOTING = '''
import atexit, os, sys, threading
if "PLANARBEND_CALLS" in os.environ:
    called = set()
    def note(frame, event, argument):
        called.add((frame.f_code.co_filename, frame.f_code.co_firstlineno))
    def tell():
        sys.settrace(None)
        with open(os.path.join(os.environ["PLANARBEND_CALLS"], f"{os.getpid()}"), "w") as out:
            out.writelines(f"{line} {path}\\n" for path, line in called if "/planarbend/" in path)
    atexit.register(tell)
    sys.settrace(note)
    threading.settrace(note)
'''
OPERATORS: dict[type[ast.AST], type[ast.AST]] = {
    ast.Lt: ast.LtE, ast.LtE: ast.Lt, ast.Gt: ast.GtE, ast.GtE: ast.Gt, ast.Eq: ast.NotEq, ast.NotEq: ast.Eq,
                                                 ast.Is: ast.IsNot,
    ast.IsNot: ast.Is, ast.In: ast.NotIn, ast.NotIn: ast.In, ast.Add: ast.Sub, ast.Sub: ast.Add, ast.Mult: ast.Add,
                                                 ast.Div: ast.Mult,
    ast.FloorDiv: ast.Mult, ast.Mod: ast.FloorDiv, ast.BitXor: ast.BitOr, ast.BitAnd: ast.BitOr, ast.BitOr: ast.BitAnd,
    ast.RShift: ast.LShift, ast.LShift: ast.RShift, ast.And: ast.Or, ast.Or: ast.And}
NAMES = {"min": "max", "max": "min", "any": "all", "all": "any"}


@dataclass(frozen=True)
class Mutant:
    """A module with one change."""

    path: str  # in the package's folder
    line: int  # on which its outermost function begins, or 0
    function: str
    change: str
    number: int  # of the change in the module

    @property
    def key(self) -> str:
        """What identifies it, wherever the module lies and whatever else is in it."""
        return f"{Path(self.path).name} {self.function}: {self.change}"


def changes_of(node: ast.AST) -> Iterator[tuple[ast.AST, str, object]]:
    """The changes of a node: the node, its field, and the field's other value."""
    if isinstance(node, (ast.BinOp, ast.AugAssign, ast.BoolOp)) and type(node.op) in OPERATORS:
        yield node, "op", OPERATORS[type(node.op)]()
    if isinstance(node, ast.Compare) and len(node.ops) == 1:
        yield node, "ops", [OPERATORS[type(node.ops[0])]()]
    if isinstance(node, (ast.If, ast.While, ast.IfExp)):
        yield node, "test", ast.UnaryOp(ast.Not(), node.test)
    if isinstance(node, ast.comprehension) and node.ifs:
        yield node, "ifs", node.ifs[1:]
    if isinstance(node, ast.Constant) and isinstance(node.value, (bool, int, float)):
        yield node, "value", not node.value if isinstance(node.value, bool) else node.value + 1
    if isinstance(node, ast.Call):
        plain = [place for place, one in enumerate(node.args) if not isinstance(one, ast.Starred)]
        is_symmetric = isinstance(node.func, ast.Name) and node.func.id in NAMES
        if len(node.args) > 1 and plain == list(range(len(node.args))) and not is_symmetric:
            yield node, "args", [node.args[1], node.args[0], *node.args[2:]]
        if node.keywords:
            yield node, "keywords", node.keywords[1:]
        if isinstance(node.func, ast.Name) and node.func.id in NAMES:
            yield node, "func", ast.Name(NAMES[node.func.id], ast.Load())
    for field in ("value", "iter"):  # a call around a value is left out
        inner = getattr(node, field, None)
        if isinstance(inner, ast.Call) and len(inner.args) == 1 and not isinstance(node, ast.Expr):
            yield node, field, inner.args[0]
    if isinstance(node, ast.Expr) and isinstance(node.value, ast.Call):
        yield node, "value", ast.Constant(None)


def sites_of(tree: ast.Module) -> Iterator[tuple[int, str, ast.AST, str, object]]:
    """The changes of a module: the line of the outermost function, the function's name, and the change."""
    def within(node: ast.AST, line: int, function: str) -> Iterator[tuple[int, str, ast.AST, str, object]]:
        if isinstance(node, (ast.FunctionDef, ast.ClassDef)):
            function = f"{function}.{node.name}".lstrip(".")
            if isinstance(node, ast.FunctionDef) and not line:
                line = min([node.lineno, *(one.lineno for one in node.decorator_list)])
        if isinstance(node, (ast.Raise, ast.Assert)):
            return
        if isinstance(node, ast.If) and ast.unparse(node.test) == "TYPE_CHECKING":
            return
        for change in changes_of(node):
            yield line, function, *change
        for name, child in ast.iter_fields(node):
            for one in child if isinstance(child, list) else [child]:
                if isinstance(one, ast.AST) and name not in ("annotation", "returns", "decorator_list"):
                    yield from within(one, line, function)

    return within(tree, 0, "")


def mutants_of(path: Path, package: Path) -> Iterator[Mutant]:
    """All mutants of a module."""
    sites = sites_of(ast.parse(path.read_text(encoding="utf-8")))
    for number, (line, function, node, field, value) in enumerate(sites):
        held, before = getattr(node, field), shown(node)
        setattr(node, field, value)
        change = f"{before} => {shown(node)}"
        setattr(node, field, held)
        yield Mutant(str(path.relative_to(package)), line, function, change, number)


def shown(node: ast.AST) -> str:
    """The first line of a node's text."""
    return ast.unparse(node).partition("\n")[0]


def text_of(path: Path, number: int) -> str:
    """The text of a module with this change."""
    tree = ast.parse(path.read_text(encoding="utf-8"))
    _, _, node, field, value = next(itertools.islice(sites_of(tree), number, None))
    setattr(node, field, value)
    return ast.unparse(ast.fix_missing_locations(tree)) + "\n"


def chosen(package: Path, count: int, seed: int, only: str) -> list[Mutant]:
    """The mutants that are tried: of each module as large a share, but not fewer than `LEAST`."""
    every = {path: list({one.key: one for one in mutants_of(path, package)}.values())
             for path in sorted(package.rglob("*.py"))
             if path.name not in ("__init__.py", "__main__.py")}
    total = sum(map(len, every.values()))
    found = []
    for path, mutants in every.items():
        mutants.sort(key=lambda one: hashlib.sha256(f"{seed} {one.key}".encode()).digest())
        found += mutants[:max(LEAST, round(count * len(mutants) / total))]
    return [one for one in found if re.search(only, f"{one.path} {one.key}")]


def tree_in(folder: Path) -> Path:
    """A copy of the package and the examples in a folder, beside links to all else."""
    for path in ROOT.iterdir():
        if path.name in ("python", "examples"):
            shutil.copytree(path, folder / path.name, ignore=shutil.ignore_patterns("__pycache__"))
        elif not path.name.startswith("."):
            (folder / path.name).symlink_to(path)
    (folder / "python/sitecustomize.py").write_text(NOTING)
    compileall.compile_dir(folder / "python", quiet=2)
    return folder


def run_tests(tree: Path, names: list[str], said: Path, calls: Path | None = None) -> tuple[int, float]:
    """The status of some test classes up to the first failure, in a process of its own, and its processor time."""
    child = os.fork()
    if not child:
        try:
            in_child(tree, names, said, calls)
        except BaseException:
            traceback.print_exc()
        finally:
            os._exit(1)
    ends = time.monotonic() + (MOST_SECONDS if calls is None else 3 * MOST_SECONDS)
    while True:
        ended, status, used = os.wait4(child, os.WNOHANG)
        if ended:
            return status, used.ru_utime + used.ru_stime
        if time.monotonic() > ends:
            os.killpg(child, signal.SIGKILL)
            ends += 1
        time.sleep(.05)


class Timed(unittest.TextTestResult):
    """A result that ends the process if a test takes too much processor time."""

    def startTest(self, test: unittest.TestCase) -> None:
        signal.setitimer(signal.ITIMER_PROF, MOST_OF_TEST)
        super().startTest(test)


def in_child(tree: Path, names: list[str], said: Path, calls: Path | None) -> None:
    """Runs test classes and ends the process, which has loaded all but the package and the tests before."""
    os.setsid()
    os.dup2(os.open(said, os.O_WRONLY | os.O_CREAT | os.O_TRUNC), 1)
    os.dup2(1, 2)
    resource.setrlimit(resource.RLIMIT_AS, (4 << 30, 4 << 30))
    os.environ |= {"PYTHONPATH": str(tree / "python"), "PYTHONPYCACHEPREFIX": str(sys.pycache_prefix)}
    noting: dict[str, Any] = {}
    if calls:
        os.environ["PLANARBEND_CALLS"] = str(calls)
        exec(NOTING, noting)
        Timed.startTest = unittest.TextTestResult.startTest  # without a limit
    else:
        signal.signal(signal.SIGXCPU, lambda *_: None)  # the tests go on; a process that they start ends
        resource.setrlimit(resource.RLIMIT_CPU, (MOST_OF_CHILD, resource.RLIM_INFINITY))
    os.chdir(tree / "python/tests")
    sys.path[0] = os.getcwd()
    signal.setitimer(signal.ITIMER_PROF, 0 if calls else MOST_OF_TEST)
    suite = unittest.TestLoader().loadTestsFromNames(names)
    result = unittest.TextTestRunner(sys.__stdout__, failfast=True, resultclass=Timed).run(suite)
    sys.stdout.flush()
    if calls:
        noting["tell"]()
    os._exit(0 if result.wasSuccessful() else 1)


def classes_of(tests: Path) -> list[str]:
    """The names of all test classes."""
    found: list[str] = []
    for path in sorted(tests.glob("test_*.py")):
        if path.stem not in LEFT_OUT:
            found += [f"{path.stem}.{node.name}" for node in ast.parse(path.read_text(encoding="utf-8")).body
                      if isinstance(node, ast.ClassDef)
                      and any(isinstance(one, ast.FunctionDef) and one.name.startswith("test") for one in node.body)]
    return found


def calls_of(folder: Path, jobs: int, keep: Path | None, names: list[str]) -> dict[str, tuple[float, list[str]]]:
    """For each test class its processor time, and the functions that it calls, as `PATH:LINE`."""
    known = json.loads(keep.read_text()) if keep and keep.exists() else {}
    if known.keys() >= set(names):
        return {name: known[name] for name in names}
    tree = tree_in(folder / "calls")
    package = str(tree / "python/planarbend") + "/"

    def of(name: str) -> tuple[str, tuple[float, list[str]]]:
        noted = folder / name
        noted.mkdir()
        status, seconds = run_tests(tree, [name], folder / f"{name}.txt", calls=noted)
        if status:
            sys.exit(f"{name} fails without a change:\n" + (folder / f"{name}.txt").read_text()[-3000:])
        lines = {line.strip() for path in noted.iterdir() for line in path.read_text().splitlines()}
        found = {f"{path.removeprefix(package)}:{line}" for line, path in (one.split(" ", 1) for one in lines)}
        return name, (seconds, sorted(found))

    with ThreadPoolExecutor(jobs) as pool:
        for name, found in pool.map(of, [name for name in names if name not in known]):
            known[name] = found
            if keep:
                keep.write_text(json.dumps(known))
    return {name: known[name] for name in names}


def main() -> int:
    parser = argparse.ArgumentParser(description=__doc__, formatter_class=argparse.RawDescriptionHelpFormatter)
    parser.add_argument("--count", type=int, default=330, help="the number of mutants (default 330)")
    parser.add_argument("--seed", type=int, default=1, help="another seed chooses other mutants")
    parser.add_argument("--jobs", type=int, default=2, help="processes at a time (default 2)")
    parser.add_argument("--only", default="", help="only those in whose path or line this pattern is found")
    parser.add_argument("--calls", type=Path, help="read from this file which test calls what, or write it there")
    parser.add_argument("--classes", default="", help="only with test classes of which this pattern finds a part")
    parser.add_argument("--again", action="store_true", help="also try those that mutants.txt excuses")
    words = parser.parse_args()
    began = time.monotonic()
    with tempfile.TemporaryDirectory() as name:
        folder = Path(name)
        (folder / "calls").mkdir()
        sys.pycache_prefix = str(folder / "compiled")
        for module in PRELOADED:
            with contextlib.suppress(ImportError):
                importlib.import_module(module)
        names = [name for name in classes_of(TESTS) if re.search(words.classes, name)]
        return judge(words, calls_of(folder, words.jobs, words.calls, names), folder, began)


def is_called(mutant: Mutant, called: list[str]) -> bool:
    """Whether a class calls a mutant's function; if it is in none, any function of its module."""
    if mutant.line:
        return f"{mutant.path}:{mutant.line}" in called
    return any(one.startswith(f"{mutant.path}:") for one in called)


def judge(words: argparse.Namespace, calls: dict[str, tuple[float, list[str]]], folder: Path, began: float) -> int:
    """Tries the mutants, and prints what came of it."""
    package = ROOT / "python/planarbend"
    lines = EXCUSED.read_text(encoding="utf-8").splitlines() if EXCUSED.exists() else []
    reasons = {key: reason for key, _, reason in (line.rpartition(" | ") for line in lines) if key}
    mutants = chosen(package, words.count, words.seed, words.only)
    trees, numbers = [], itertools.count(10 ** 9)
    for number in range(words.jobs):
        (folder / str(number)).mkdir()
        trees.append(tree_in(folder / str(number)))

    def tried(mutant: Mutant) -> tuple[Mutant, str]:
        if mutant.key in reasons and not words.again:
            return mutant, "excused"
        tree = trees.pop()
        path = tree / "python/planarbend" / mutant.path
        held, date = path.read_text(encoding="utf-8"), path.stat().st_mtime
        names = [name for _, name in sorted((used, name) for name, (used, called) in calls.items()
                                            if path.name in COPIED.get(name, ()) or is_called(mutant, called))]
        path.write_text(text_of(path, mutant.number), encoding="utf-8")
        os.utime(path, (number := next(numbers), number))  # no two of its texts have the same date
        said = folder / f"{path.name}-{id(mutant)}"
        status, seconds = run_tests(tree, names, said) if names else (0, 0.0)
        path.write_text(held, encoding="utf-8")
        os.utime(path, (date, date))
        trees.append(tree)
        by = next((line.split()[-1].strip("()") for line in said.read_text(errors="replace").splitlines()
                   if line.startswith(("FAIL:", "ERROR:"))), "")\
            if status else ""
        word = "seen" if status else "SURVIVES"
        print(f"{word} {seconds:5.1f} s {mutant.key} {by if status else f'({len(names)} classes)'}", flush=True)
        return mutant, "seen" if status else "survives"

    with ThreadPoolExecutor(words.jobs) as pool:
        found = list(pool.map(tried, mutants))
    counts = {word: sum(one == word for _, one in found) for word in ("seen", "excused", "survives")}
    print(*(f"survives: {mutant.key}" for mutant, word in found if word == "survives"), sep="\n")
    used = sum(sum(resource.getrusage(whose)[:2]) for whose in (resource.RUSAGE_SELF, resource.RUSAGE_CHILDREN))
    share = counts["seen"] / len(found)
    rest = f"{counts['excused']} are excused, {counts['survives']} survive"
    print(f"{counts['seen']} of {len(found)} are seen: {share:.1%}; {rest}")
    print(f"{used:.0f} s of processor time, {time.monotonic() - began:.0f} s of the clock")
    return 1 if counts["survives"] or share < .9 else 0


if __name__ == "__main__":
    sys.exit(main())
