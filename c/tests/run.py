#!/usr/bin/env python3
"""Runs the tests of the library for C in out/, which c/make.py makes. The last line is 'N passed, M failed, K skipped';
the exit status is 0 if nothing failed, otherwise 1. A test that needs valgrind, AddressSanitizer, pkg-config or a C++
compiler is skipped, by name, if that is missing. With names of tests as arguments, only these run. CC, CXX and CFLAGS
are as usual.
"""
from __future__ import annotations

import collections
import os
import re
import resource
import shutil
import subprocess
import sys
import tempfile
from collections.abc import Callable
from pathlib import Path

sys.dont_write_bytecode = True
ROOT = Path(__file__).resolve().parents[2]
sys.path.append(str(ROOT / "python"))
from planarbend.layout.planar_code import HEADER, record_of

SOURCE, TESTS, OUT, DATA = ROOT / "c", ROOT / "c/tests", ROOT / "out", ROOT / "crates/corpus/data"
COMPILER = os.environ.get("CC") or "cc"
STRICT = ["-pedantic", "-Wall", "-Wextra", "-Werror", "-O2", "-g", f"-I{SOURCE}", "-pthread",
          *os.environ.get("CFLAGS", "").split()]
STATIC, SHARED = [str(OUT / "libplanarbend.a")], [f"-L{OUT}", f"-Wl,-rpath,{OUT}", "-lplanarbend"]
WRAPPED = ["-Wl,--wrap=malloc,--wrap=calloc,--wrap=realloc,--wrap=free"]
ADDRESSES = ["-DEXACT", "-fsanitize=address,undefined", "-fno-sanitize-recover=all"]
VALGRIND = ["valgrind", "--quiet", "--error-exitcode=9", "--leak-check=full", "--show-leak-kinds=all"]
VERSION = (ROOT / "checks/start/texts/version").read_text(encoding="utf-8").split()[1]
OWN = [SOURCE / "planarbend.c"]
SECONDS, CLOCK_SECONDS = 200, 1800  # the most that a command may take, of the processor and by the clock

# The sums of bends for the first and for the best outer face, by LEMON's network simplex (bench/outside/lemon.cc).
BENDS = {"copies": (0, 0), "cubic60": (176, 169), "grid60": (0, 0), "medial60": (1102, 1082), "planar_d4_n4": (7, None),
         "planar_d4_n5": (45, None), "planar_d4_n6": (217, 216), "planar_d4_n7": (1105, 1094),
         "planar_d4_n8": (6760, None), "tree60": (0, 0), "families": None, "prism85": None}


class Failed(Exception):
    """Why a test failed."""


class Skipped(Exception):
    """What a test lacks."""


def run(*words: object, **options: object) -> str:
    """The output of a command; if it fails, the test fails."""
    try:
        ran = subprocess.run([str(word) for word in words], stdout=subprocess.PIPE, stderr=subprocess.STDOUT, text=True,
                             errors="replace", timeout=CLOCK_SECONDS, **options)
    except subprocess.TimeoutExpired as why:
        raise Failed(str(why)) from None
    if ran.returncode:
        raise Failed(f"status {ran.returncode}: {' '.join(map(str, words))}\n{ran.stdout[-4000:]}")
    return ran.stdout


def needs(tool: str) -> None:
    """Skips the test if a tool is missing."""
    if shutil.which(tool) is None:
        raise Skipped(f"{tool} is missing")


def compiled(folder: Path, source: Path, *words: object, standard: str = "c11") -> Path:
    """A program of a source in C."""
    made = folder / source.stem
    run(COMPILER, f"-std={standard}", *STRICT, source, *words, "-o", made)
    return made


# ---- the libraries


def test_names(_: Path) -> None:
    """The libraries export what the header declares, and nothing else."""
    header = (SOURCE / "planarbend.h").read_text(encoding="utf-8")
    declared = sorted(set(re.findall(r"\b(planarbend_\w+)\(", re.sub(r"/\*.*?\*/", "", header, flags=re.S))))
    for option, library in (("-D", "libplanarbend.so"), ("-g", "libplanarbend.a")):
        lines = run("nm", option, "--defined-only", OUT / library)
        found = sorted(name for name in re.findall(r"^\w+ \w (\w+)", lines, re.M) if name != "PLANARBEND_2")
        if found != declared:
            raise Failed(f"{library} exports {found}, and the header declares {declared}")
    if "Library soname: [libplanarbend.so.2]" not in run("readelf", "-d", OUT / "libplanarbend.so"):
        raise Failed("libplanarbend.so has another soname")


def test_package(folder: Path) -> None:
    """pkg-config finds the library, and a program links with its options."""
    needs("pkg-config")
    environment = {**os.environ, "PKG_CONFIG_PATH": str(OUT)}
    words = run("pkg-config", "--cflags", "--libs", "planarbend", env=environment).split()
    run(COMPILER, "-std=c99", TESTS / "answers.c", *words, "-pthread", "-o", folder / "by_package")
    if run("pkg-config", "--modversion", "planarbend", env=environment).strip() != VERSION:
        raise Failed("planarbend.pc has another version")


def test_header_in_cpp(folder: Path) -> None:
    """A program in C++ includes the header and links."""
    compiler = os.environ.get("CXX") or "c++"
    needs(compiler)
    (folder / "least.cc").write_text('#include "planarbend.h"\nint main() { return planarbend_word(0)[0] != \'o\'; }\n')
    run(compiler, "-std=c++11", *STRICT, folder / "least.cc", *STATIC, "-o", folder / "least")
    run(folder / "least")


# ---- the calls


def test_header_example(folder: Path) -> None:
    """The program in the header compiles as it stands; with a straight edge, a triangle has one bend."""
    header = (SOURCE / "planarbend.h").read_text(encoding="utf-8")
    lines = re.findall(r"^ \*     (.*)$|^ \*$", header.partition("*/")[0], re.M)
    (folder / "example.c").write_text("\n".join(lines).replace("<planarbend.h>", '"planarbend.h"'), encoding="utf-8")
    said = run(compiled(folder, folder / "example.c", *STATIC, standard="c99"))
    if not re.fullmatch(r"1 bends, vertex 1 at \d+, \d+\n", said):
        raise Failed(f"the example prints {said}")


def test_crossing(folder: Path) -> None:
    """What is passed to the proved call and back, and the memory lent to it."""
    run(compiled(folder, TESTS / "crossing.c", *OWN, *WRAPPED))


def test_crossing_addresses(folder: Path) -> None:
    """The same with AddressSanitizer."""
    (folder / "empty.c").write_text("int main(void) { return 0; }\n")
    try:
        run(compiled(folder, folder / "empty.c", *ADDRESSES))
    except Failed:
        raise Skipped("AddressSanitizer is missing") from None
    run(compiled(folder, TESTS / "crossing.c", *OWN, *WRAPPED, *ADDRESSES))


def test_edges(folder: Path) -> None:
    """Null pointers, rooms, rules, largest records, each condition, refused allocations, growing graphs."""
    made = compiled(folder, TESTS / "edges.c", f'-DVERSION="{VERSION}"', *WRAPPED, *STATIC)
    run(made, *[DATA / f"{name}.pc" for name in ("planar_d4_n6", "planar_d4_n8", "cubic60")])


def test_layouts(folder: Path) -> None:
    """Layouts by the definitions, with the fewest bends that are known."""
    made = compiled(folder, TESTS / "layouts.c", *WRAPPED, *STATIC)
    files = sorted(DATA.glob("*.pc"))
    sums = [list(map(int, line.split()[1:])) for line in run(made, 4, *files).splitlines()]
    for file, (graphs, first, best, *_) in zip(files, sums, strict=True):
        known = BENDS[file.stem] or (first, best)
        if graphs == 0 or first != known[0] or known[1] not in (None, best):
            raise Failed(f"{file.name}: {first} and {best} bends, but {known} are known")
    quick, short, quick_kept, short_kept = map(sum, zip(*(line[3:] for line in sums)))
    if not (short < quick and short_kept < quick_kept):
        raise Failed(f"short drawings are no shorter: {short} of {quick}, with conditions {short_kept} of {quick_kept}")


def rings(vertices: int) -> list[list[int]]:
    """As many rings as can be, one in another, each of the same number of vertices."""
    around = next(count for count in range(3, vertices + 1) if vertices % count == 0)
    lists = []
    for vertex in range(vertices):
        start = vertex - vertex % around
        after, before = (start + (vertex - start + step) % around + 1 for step in (1, -1))
        near = [vertex - around + 1, after, vertex + around + 1, before]
        lists.append([other for other in near if 1 <= other <= vertices])
    return lists


def path(vertices: int) -> list[list[int]]:
    """A path."""
    return [[other for other in (vertex - 1, vertex + 1) if 1 <= other <= vertices]
            for vertex in range(1, vertices + 1)]


def sized(folder: Path, most: int) -> list[Path]:
    """Files of rings and paths with each number of vertices."""
    files = {"paths": [path(count) for count in range(2, most)], "rings": [rings(count) for count in range(3, most)]}
    for name, graphs in files.items():
        (folder / f"{name}.pc").write_bytes(HEADER + b"".join(map(record_of, graphs)))
    return [folder / f"{name}.pc" for name in files]


def test_sizes(folder: Path) -> None:
    """Graphs of each size up to the limits: 255 vertices, 510 edges, 257 faces."""
    made = compiled(folder, TESTS / "layouts.c", *WRAPPED, *STATIC)
    run(made, 0, *sized(folder, 256))


def test_wide(folder: Path) -> None:
    """Records with entries of 16 bits, up to 1,200 vertices."""
    run(compiled(folder, TESTS / "wide.c", *WRAPPED, *STATIC))


def test_threads(folder: Path) -> None:
    """Eight threads at once give the same answers, from the shared library."""
    made = compiled(folder, TESTS / "answers.c", *SHARED, standard="c99")
    texts = {run(made, 1, 2, memory, 8, DATA / "planar_d4_n7.pc") for memory in ("object", "malloc")}
    if len(texts) != 1:
        raise Failed("other answers with an object than without")


def test_valgrind(folder: Path) -> None:
    """valgrind finds nothing: no byte that was not set, and no leak."""
    needs("valgrind")
    run(*VALGRIND, compiled(folder, TESTS / "crossing.c", "-DEXACT", *OWN, *WRAPPED))
    run(*VALGRIND, compiled(folder, TESTS / "layouts.c", "-DEXACT", *WRAPPED, *STATIC), 0, *sized(folder, 64))


def test_examples(folder: Path) -> None:
    """The examples in C count the known bends: the filter, and the plug-in of plantri with a stand-in for plantri."""
    filter_ = compiled(folder, ROOT / "examples/c/bends.c", *SHARED, standard="c99")
    plugin = f'-DPLUGIN="{ROOT / "examples/c/plantri_bends.c"}"'
    plantri = compiled(folder, TESTS / "plantri.c", plugin, *SHARED, standard="c99")
    for name in ("cubic60", "planar_d4_n8"):
        with open(DATA / f"{name}.pc", "rb") as graphs:
            bends = collections.Counter(map(int, run(filter_, stdin=graphs).split()))
        with open(DATA / f"{name}.pc", "rb") as graphs:
            told = run(plantri, stdin=graphs)
        if sum(count * graphs for count, graphs in bends.items()) != BENDS[name][0]:
            raise Failed(f"{name}: examples/c/bends.c counts other bends")
        lines = re.findall(r"^(\d+) bends: (\d+) graphs$", told, re.M)
        if {int(count): int(graphs) for count, graphs in lines} != bends:
            raise Failed(f"{name}: examples/c/plantri_bends.c counts other bends")


CASES: list[Callable[[Path], None]] = [
    test_names, test_package, test_header_in_cpp, test_header_example, test_crossing, test_crossing_addresses,
    test_edges, test_layouts, test_sizes, test_wide, test_threads, test_valgrind, test_examples]


def seconds() -> float:
    """The processor seconds of the commands so far."""
    used = resource.getrusage(resource.RUSAGE_CHILDREN)
    return used.ru_utime + used.ru_stime


def main() -> int:
    resource.setrlimit(resource.RLIMIT_CPU, (SECONDS, resource.getrlimit(resource.RLIMIT_CPU)[1]))
    counts: collections.Counter[str] = collections.Counter()
    names = {f"test_{name.removeprefix('test_')}" for name in sys.argv[1:]}
    for case in CASES:
        if names and case.__name__ not in names:
            continue
        began, told = seconds(), ""
        with tempfile.TemporaryDirectory() as folder:
            try:
                case(Path(folder))
                what = "passed"
            except Skipped as why:
                what, told = "skipped", f": {why}"
            except Failed as why:
                what, told = "failed", f": {why}"
        counts[what] += 1
        print(f"{what}: {case.__name__} ({seconds() - began:.1f} s){told}", flush=True)
    failed = counts["failed"] or int(not counts["passed"])
    print(f"{counts['passed']} passed, {failed} failed, {counts['skipped']} skipped")
    return 1 if failed else 0


if __name__ == "__main__":
    sys.exit(main())
