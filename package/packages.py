#!/usr/bin/env python3
"""Makes packages for machines without the Rattle kit from what --build has made: a wheel with the Python package, the program
and the library; and a tarball with the program, the library, its header, a pkg-config file, man pages, completions for bash
and pages on the formats. Each gets a file with its SHA-256 sum. Both may be moved to any folder. The file `origin` in each
names the commit and the kit, and says that program and library are proved.

The checkout must have no changes since its commit, and program and library must be built from its sources. The same build
gives the same bytes. `planarbend --package DIR` starts this script. With --trial, program and library are those that
PLANARBEND and PLANARBEND_LIBRARY name, changes are allowed, and the packages say `unverified`, also in their names.
"""
from __future__ import annotations

import calendar
import gzip
import hashlib
import io
import os
import re
import subprocess
import sys
import tarfile
import tempfile
from collections.abc import Mapping
from pathlib import Path
from typing import NamedTuple

sys.dont_write_bytecode = True
ROOT = Path(__file__).resolve().parent.parent
sys.path[1:1] = [str(ROOT / folder) for folder in ("checks/start", "c", "python")]
import build_wheel
import make as library
from common import PROGRAM, alone, end_on_signals, say, stop
from install import SHARED

PAGES = ("README.md", "CHANGELOG.md", "docs/CHECK.md", "docs/FORMAT.md", "docs/JSON.md")
MACHINE = "x86_64"
GLIBC = re.compile(rb"\0GLIBC_2\.(\d+)(?=[.\0])")
STAMP = calendar.timegm(build_wheel.STAMP)
Tree = Mapping[str, tuple[bytes, int]]  # paths, each with its contents and mode, or the target of a link and 0


class Made(NamedTuple):
    """What was built: program and library, the static library if there is one, and where they come from."""

    program: bytes
    library: bytes
    static: bytes | None
    commit: str
    kit: str
    word: str  # "proved" or "unverified"

    @property
    def version(self) -> str:
        """The version of the packages."""
        return f"{library.version()}{'' if self.word == 'proved' else f'+{self.word}'}"

    @property
    def origin(self) -> str:
        """The text of the file `origin`."""
        needs = glibc_of(self.program + self.library)
        return (f"planarbend {self.version}\ncommit {self.commit}\nkit {self.kit}\nprogram {self.word}\nlibrary {self.word}\n"
                f"needs {MACHINE} Linux" + (f" with glibc 2.{needs} or later\n" if needs else "\n"))


def glibc_of(data: bytes) -> int:
    """Return the newest version 2.N of glibc whose symbols a program or library needs, as N; 0 if it names none."""
    return max(map(int, GLIBC.findall(data)), default=0)


def tag_of(data: bytes) -> str:
    """Return the tag of a wheel with these programs and libraries."""
    needs = glibc_of(data)
    return f"py3-none-manylinux_2_{needs}_{MACHINE}" if needs else f"py3-none-linux_{MACHINE}"


def outdated(record: Path, root: Path = ROOT) -> str:
    """Return why something in out/ was not built from the sources as they are, or an empty text.

    Parameters
    ----------
    record : Path
        The file of checks/start/build.py with sums, as `sha256sum` writes them, of what was built and of its sources, and
        with lines of crates.txt as comments.
    root : Path
        The checkout.
    """
    made = record.name.removesuffix(".sources")
    if not record.with_name(made).is_file():
        return f"there is no proved out/{made} here yet"
    if not record.is_file():
        return f"out/{made} has no record of its sources"
    known = (root / "crates.txt").read_text(encoding="utf-8").splitlines()
    for line in record.read_text(encoding="utf-8").splitlines():
        if line.startswith("#"):
            mark, _, rest = line.partition(" ")
            if mark == "#crates.txt" and rest not in known:
                return f"out/{made} is older than crates.txt"
            continue
        digest, _, path = line.partition("  ")
        if not (root / path).is_file() or hashlib.sha256((root / path).read_bytes()).hexdigest() != digest:
            return f"out/{made} " + ("has no record of its sources" if path.startswith("out/") else f"is older than {path}")
    return ""


def commit_of(root: Path, is_trial: bool) -> str:
    """Return the commit of a checkout; end if there is none, or if there are changes since and this is no trial. New files are
    changes only where a package takes every file."""
    def git(*words: str) -> list[str]:
        """The lines that git prints."""
        try:
            return subprocess.run(["git", "-C", root, *words], capture_output=True, text=True, check=True).stdout.splitlines()
        except (OSError, subprocess.CalledProcessError) as error:
            reason = getattr(error, "stderr", "") or str(error)
            stop("the commit, which a package names, was not found: git failed", reason.strip())

    commit, top = git("rev-parse", "HEAD", "--show-toplevel")
    if Path(top).resolve() != root:
        stop(f"the commit, which a package names, was not found: {root} is not a git checkout")
    changed = [line for line in git("status", "--porcelain") if not line.startswith("?? ") or line.startswith("?? python/")]
    if changed and not is_trial:
        stop(f"{changed[0][3:]} has changes since commit {commit[:12]}: commit them or undo them")
    return commit + " with changes" * bool(changed)


def built() -> Made:
    """Return what --build has made; end if it is not of this commit."""
    records = Path(PROGRAM + ".sources"), library.RECORD
    for record in records:
        if why := outdated(record):
            stop(why, "planarbend --build proves and builds it")
    commit = commit_of(ROOT, is_trial=False)
    kits = {line for record in records for line in re.findall(r"^#kit-id (.*)", record.read_text(encoding="utf-8"), re.M)}
    if len(kits) != 1:
        stop("program and library were built by different kits", "planarbend --build proves and builds them")
    return Made(Path(PROGRAM).read_bytes(), (library.OUT / library.SONAME).read_bytes(),
                (library.OUT / "libplanarbend.a").read_bytes(), commit, kits.pop(), "proved")


def tried() -> Made:
    """Return the program and the library that the environment names."""
    paths = [os.environ.get(name, "") for name in ("PLANARBEND", "PLANARBEND_LIBRARY")]
    if not all(map(os.path.isfile, paths)):
        stop("for --trial, PLANARBEND must name a program and PLANARBEND_LIBRARY a library", status=2)
    program, shared = map(Path, paths)
    told = subprocess.run([program, "--version"], capture_output=True, text=True, check=True).stdout
    static = shared.with_name("libplanarbend.a")
    return Made(program.read_bytes(), shared.read_bytes(), static.read_bytes() if static.is_file() else None,
                commit_of(ROOT, is_trial=True), told.partition("toolchain ")[2].strip(), "unverified")


def tree_of(made: Made) -> Tree:
    """Return the files of the tarball, by their paths in its folder."""
    package = library.package_text("${pcfiledir}/../..", "${prefix}/lib", "${prefix}/include")
    files = {"bin/planarbend": (made.program, 0o755), "include/planarbend.h": ((ROOT / "c/planarbend.h").read_bytes(), 0o644),
             f"lib/{library.SONAME}": (made.library, 0o755), "lib/libplanarbend.so": (library.SONAME.encode(), 0),
             "lib/pkgconfig/planarbend.pc": (package.encode(), 0o644),
             "share/planarbend/origin": (made.origin.encode(), 0o644)}
    if made.static is not None:
        files["lib/libplanarbend.a"] = made.static, 0o644
    pages = {f"share/doc/planarbend/{os.path.basename(page)}": page for page in PAGES}
    return files | {path: ((ROOT / source).read_bytes(), 0o644) for path, source in (SHARED | pages).items()}


def write_tarball(path: Path, top: str, files: Tree) -> None:
    """Write files below the folder `top` of a tarball."""
    whole = io.BytesIO()
    with tarfile.open(fileobj=whole, mode="w", format=tarfile.GNU_FORMAT) as tarball:
        for name, (data, mode) in sorted(files.items()):
            entry = tarfile.TarInfo(f"{top}/{name}")
            entry.mtime, entry.mode = STAMP, mode or 0o777
            if mode:
                entry.size = len(data)
            else:
                entry.type, entry.linkname = tarfile.SYMTYPE, data.decode()
            tarball.addfile(entry, io.BytesIO(data) if mode else None)
    path.write_bytes(gzip.compress(whole.getvalue(), mtime=STAMP))


def write_wheel(folder: Path, made: Made) -> str:
    """Write the wheel to a folder, and return its name."""
    files = build_wheel.sources() | {f"planarbend/{library.SONAME}": made.library, "{}.data/scripts/planarbend": made.program}
    files |= {"{}.data/data/" + path: (ROOT / source).read_bytes() for path, source in SHARED.items()}
    return build_wheel.write_wheel(str(folder), files, tag_of(made.program + made.library), made.version,
                                   {"origin": made.origin})


def write(folder: Path, made: Made) -> None:
    """Write all packages and their sums to a folder. Each file is whole at any time."""
    folder.mkdir(parents=True, exist_ok=True)
    with tempfile.TemporaryDirectory(prefix=".planarbend-", dir=folder) as new:
        stem = f"planarbend-{made.version}-linux-{MACHINE}"
        write_tarball(Path(new, f"{stem}.tar.gz"), stem, tree_of(made))
        for name in (write_wheel(Path(new), made), f"{stem}.tar.gz"):
            digest = hashlib.sha256(Path(new, name).read_bytes()).hexdigest()
            Path(new, f"{name}.sha256").write_text(f"{digest}  {name}\n", encoding="utf-8")
            for part in (name, f"{name}.sha256"):
                Path(new, part).replace(folder / part)
            say(f"{folder / name}: {made.word}, of commit {made.commit}")


def main(words: list[str]) -> None:
    """Make the packages."""
    is_trial = words[:1] == ["--trial"]
    if len(words) != 1 + is_trial:
        stop("package/packages.py takes one argument, the folder to write to, after --trial if this is one", status=2)
    end_on_signals()
    try:
        with alone():
            write(Path(words[-1]), tried() if is_trial else built())
    except OSError as error:
        stop(f"no package was made: {error.filename}: {error.strerror}")


if __name__ == "__main__":
    main(sys.argv[1:])
