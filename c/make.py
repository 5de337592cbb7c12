#!/usr/bin/env python3
"""Makes the library for C in out/ from an archive of the crate planarbend_c: libplanarbend.a, libplanarbend.so.2, the
same file as libplanarbend.so, and planarbend.pc, by which pkg-config finds them here. Both libraries consist of the
archive and of c/planarbend.c. They export the names in c/planarbend.map and no others. Needs a C compiler (CC, or cc)
and binutils.

`planarbend --build` and `--test` make it from what they have proved. Called directly, this script takes an archive as
its argument.
"""
import os
import re
import shutil
import subprocess
import sys
from pathlib import Path

sys.dont_write_bytecode = True
sys.path.append(str(Path(__file__).resolve().parent.parent / "checks/start"))
from common import ROOT, START, say, stop

TOP = Path(ROOT)
SOURCE, OUT = TOP / "c", TOP / "out"
SONAME = "libplanarbend.so.2"
LIBRARIES = [SONAME, "libplanarbend.a", "libplanarbend.so"]
FILES = [*LIBRARIES, "planarbend.pc"]
RECORD = OUT / f"{SONAME}.sources"  # sums of what was made and of its sources, which checks/start/build.py writes
SOURCES = [SOURCE / name for name in ("planarbend.c", "planarbend.h", "planarbend.map")]
COMPILER = os.environ.get("CC") or "cc"
FLAGS = ["-std=c11", "-O2", "-fPIC", "-Wall", "-Wextra", "-Werror"]


def version() -> str:
    """The version, without the program's name."""
    return Path(START, "texts/version").read_text(encoding="utf-8").split()[1]


def exported():
    """The names that both libraries export."""
    return re.findall(r"\bplanarbend_\w+(?=;)", (SOURCE / "planarbend.map").read_text(encoding="utf-8"))


def package_text(prefix: object, libraries: object, headers: object) -> str:
    """The text of planarbend.pc for these folders."""
    text = (SOURCE / "planarbend.pc.in").read_text(encoding="utf-8")
    for name, value in [("prefix", prefix), ("libdir", libraries), ("includedir", headers), ("version", version())]:
        text = text.replace(f"@{name}@", str(value))
    return text


def run(*words):
    """Runs a command; if it fails, prints its output and ends the script."""
    ran = subprocess.run([str(word) for word in words], stdout=subprocess.PIPE, stderr=subprocess.STDOUT, text=True)
    if ran.returncode:
        sys.stderr.write(ran.stdout)
        stop(f"the library could not be made: {Path(words[0]).name} failed")


def missing():
    """The first of the tools that is not on the path, or None."""
    return next((tool for tool in (COMPILER, "ld", "objcopy", "ar") if shutil.which(tool) is None), None)


def make(archive):
    """Makes the libraries. Each file in out/ is whole at any time."""
    if tool := missing():
        stop(f"{tool} is not on the path, and the library for C needs it: install a C compiler and binutils")
    folder = OUT / "new"
    shutil.rmtree(folder, ignore_errors=True)  # of a script that was killed
    folder.mkdir(parents=True)
    own, whole, static, shared = (folder / name for name in ("planarbend.o", "whole.o", "libplanarbend.a", SONAME))
    run(COMPILER, *FLAGS, f"-I{SOURCE}", "-c", SOURCE / "planarbend.c", "-o", own)
    run("ld", "-r", "-o", whole, own, "--whole-archive", archive)
    run("objcopy", *[f"--keep-global-symbol={name}" for name in exported()], whole)
    run("ar", "rcsD", static, whole)
    run(COMPILER, "-shared", "-Wl,-z,defs", f"-Wl,-soname,{SONAME}", f"-Wl,--version-script={SOURCE}/planarbend.map",
        "-o", shared, whole)
    shutil.copy2(shared, folder / "libplanarbend.so")  # rt takes no link
    (folder / "planarbend.pc").write_text(package_text(TOP, OUT, SOURCE), encoding="utf-8")
    for name in FILES:
        (folder / name).replace(OUT / name)
    shutil.rmtree(folder)
    say(f"the library for C is in {OUT}")


if __name__ == "__main__":
    if len(sys.argv) != 2 or not Path(sys.argv[1]).is_file():
        stop("c/make.py takes one argument, an archive of the crate planarbend_c")
    make(Path(sys.argv[1]))
