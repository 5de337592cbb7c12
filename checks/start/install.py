#!/usr/bin/env python3
"""Copies what --build has made to folders below PREFIX: the program and planarbend-draw to bin, the library to lib, its
header to include, the man pages to share/man/man1, completions for bash to share/bash-completion/completions, and the
Python package to the folder below PREFIX where this version of Python looks for packages. The list of all these files
is share/planarbend/files.

All files are first written next to their places under temporary names, and then renamed, so that each is complete at
any time. If one cannot be written or renamed, all are as they were before. Files that only an earlier installation has
put there are removed. If DESTDIR is set, files go to PREFIX below that folder, and name PREFIX without it.

`planarbend --install PREFIX` starts this script, and `planarbend --uninstall PREFIX` too, to remove the listed files
and the folders that are then empty. The exit status is 0 if all was done; otherwise it is 1, and a message says why.
"""
import contextlib
import os
import shutil
import sys
import sysconfig
from pathlib import Path

sys.dont_write_bytecode = True
from common import PROGRAM, ROOT, alone, end_on_signals, ignore_signals, say, stop

sys.path.append(os.path.join(ROOT, "c"))
import make

TOP = Path(ROOT)
LIST = "share/planarbend/files"
COMMANDS = ("planarbend", "planarbend-draw")
# The man pages and completions, by their paths below PREFIX and in the checkout.
SHARED = {f"share/man/man1/{name}.1": f"docs/{name}.1" for name in COMMANDS} | {
    f"share/bash-completion/completions/{name}": f"docs/{name}.bash" for name in COMMANDS}
NEW, OLD = ".planarbend-new", ".planarbend-old"  # endings of temporary names
DRAW = """#!{python}
import sys

sys.path.insert(0, {packages!r})
from planarbend.command import run

sys.exit(run())
"""


def files_of(prefix):
    """What each path below PREFIX gets: a file, a text, or for a link its target, each with its mode."""
    found = {"bin/planarbend": (Path(PROGRAM), 0o755),
             **{path: (TOP / source, 0o644) for path, source in SHARED.items()}}
    if (make.OUT / make.SONAME).is_file():
        found |= {"lib/libplanarbend.a": (make.OUT / "libplanarbend.a", 0o644),
                  f"lib/{make.SONAME}": (make.OUT / make.SONAME, 0o755), "lib/libplanarbend.so": (make.SONAME, None),
                  "include/planarbend.h": (make.SOURCE / "planarbend.h", 0o644)}
        package = make.package_text(prefix, "${prefix}/lib", "${prefix}/include")
        found["lib/pkgconfig/planarbend.pc"] = package, 0o644
    else:
        say("there is no C library here, so none is installed: planarbend --build makes it")
    packages = sysconfig.get_path("purelib", "posix_prefix", {"base": str(prefix), "platbase": str(prefix)})
    place = os.path.relpath(packages, prefix)
    for path in sorted((TOP / "python/planarbend").rglob("*")):
        if path.is_file() and "__pycache__" not in path.parts:
            found[f"{place}/{path.relative_to(TOP / 'python')}"] = path, 0o644
    found["bin/planarbend-draw"] = DRAW.format(python=sys.executable, packages=packages), 0o755
    return found


def listed(place):
    """The files that earlier installations have put here, and the folders that they have made, which end in a slash."""
    paths = (place / LIST, beside(place / LIST, NEW))  # the second of one that was killed
    names = (name for path in paths if path.is_file() for name in path.read_text(encoding="utf-8").splitlines())
    return list(dict.fromkeys(names))


def beside(path, ending):
    return path.with_name(f".{path.name}{ending}")


def write(path, content, mode):
    """Writes a file, or a link if there is no mode."""
    path.unlink(missing_ok=True)
    if mode is None:
        path.symlink_to(content)
    else:
        path.write_bytes(content.read_bytes() if isinstance(content, Path) else content.encode())
        path.chmod(mode)


def make_folders(path, made):
    """Makes a folder and those above it, and notes each."""
    for folder in reversed([path, *path.parents]):
        if not folder.is_dir():
            folder.mkdir()
            made.append(folder)


def rename(path, renamed):
    """Puts the file with the temporary name in its place, and keeps the one that stood there."""
    beside(path, OLD).unlink(missing_ok=True)
    if os.path.lexists(path):
        os.link(path, beside(path, OLD), follow_symlinks=False)
    renamed.append(path)
    beside(path, NEW).replace(path)


def undo(paths, renamed, made):
    """Undoes what an installation has done so far."""
    for path in renamed:
        if os.path.lexists(beside(path, OLD)):
            beside(path, OLD).replace(path)
        else:
            path.unlink(missing_ok=True)
    for path in paths:
        beside(path, NEW).unlink(missing_ok=True)
    for folder in reversed(made):
        with contextlib.suppress(OSError):
            folder.rmdir()


def remove(place, names):
    """Removes files with what temporary names have left, and listed folders that are empty; last the list."""
    for name in sorted(names, key=lambda name: (name == LIST, name)):
        for path in (place / name, beside(place / name, NEW), beside(place / name, OLD)):
            if not name.endswith("/"):
                path.unlink(missing_ok=True)
    for name in sorted(names, reverse=True):
        if name.endswith("/"):
            shutil.rmtree(place / name / "__pycache__", ignore_errors=True)
            with contextlib.suppress(OSError):
                (place / name).rmdir()


def install(prefix, place):
    """Writes all files, then renames them. On a failure or a signal, nothing has changed."""
    files, before, made, renamed = files_of(prefix), listed(place), [], []
    paths = [place / name for name in [LIST, *files]]
    try:
        for path in paths:
            make_folders(path.parent, made)
        folders = [f"{folder.relative_to(place)}/" for folder in made if place in folder.parents]
        folders += [name for name in before if name.endswith("/")]
        files = {LIST: ("".join(f"{name}\n" for name in [LIST, *files, *folders]), 0o644)} | files
        for name, what in files.items():
            write(beside(place / name, NEW), *what)
        for path in paths:
            rename(path, renamed)
    except BaseException:
        ignore_signals()
        undo(paths, renamed, made)
        raise
    ignore_signals()
    for path in paths:
        beside(path, OLD).unlink(missing_ok=True)
    remove(place, [name for name in before if name not in files and name not in folders])
    say(f"installed {len(files)} files below {place}; --uninstall {prefix} removes them")


def main(what, folder):
    prefix = Path(os.path.abspath(folder))
    place = Path(os.environ.get("DESTDIR", "") + str(prefix))
    end_on_signals()
    with alone():
        try:
            if what == "--uninstall":
                remove(place, listed(place) or stop(f"nothing is installed below {place}: there is no {LIST}"))
                say(f"removed what was installed below {place}")
            elif os.path.isfile(PROGRAM):
                install(prefix, place)
            else:
                stop("there is no proved program here yet", "planarbend --build proves and builds it")
        except OSError as error:
            stop(f"cannot {what[2:]} below {place}: {error.filename}: {error.strerror}")


if __name__ == "__main__":
    main(*sys.argv[1:])
