"""Shared by the scripts of bench/ and checks/: command lines, the programs that they run, the toolchain, the preloaded
library, copies of crates, files of graphs, runs of a program, and the sections of bench/RESULTS.md."""
import argparse
import contextlib
import datetime
import glob
import hashlib
import importlib.machinery
import os
import re
import resource
import shutil
import subprocess
import sys
import tempfile
import time
import types
from collections.abc import Callable, Collection, Iterable, Sequence
from pathlib import Path
from typing import Any, NamedTuple

sys.dont_write_bytecode = True
ROOT = os.path.dirname(os.path.dirname(os.path.abspath(__file__)))
sys.path.append(os.path.join(ROOT, "python"))
from planarbend.layout.planar_code import HEADER, records

DATA = os.path.join(ROOT, "crates/corpus/data")
OUTSIDE = os.path.join(ROOT, "bench/outside")

KINDS = [("cubic", "250", "1"), ("medial", "249", "2"), ("grid", "250", "3"), ("tree", "250", "4")]
SMALL = os.path.join(DATA, "planar_d4_n8.pc")

FAST = ["-O3", "-march=native", "-std=c++17"]  # for other programs; ours is built for any x86-64

RESULTS = os.path.join(ROOT, "bench/RESULTS.md")

# Records of an edge, a triangle, a vertex alone, and an octahedron.
EDGE, TRIANGLE, LONE = b"\2\2\0\1\0", b"\3\2\3\0\3\1\0\1\2\0", b"\1\0"
OCTAHEDRON = bytes([6, 2, 3, 4, 5, 0, 6, 3, 1, 5, 0, 2, 6, 4, 1, 0, 1, 3, 6, 5, 0, 2, 1, 4, 6, 0, 2, 5, 4, 3, 0])

# Messages of the program.
MEMORY, THREAD = "planarbend: out of memory\n", "planarbend: cannot start a thread\n"
LOST = "planarbend: internal error: a worker thread disconnected\n"

PIECE = 1 << 20  # bytes of output read at a time, at most


class Run(NamedTuple):
    """One run: wall seconds, processor seconds, peak bytes and a digest of the output."""
    seconds: float
    processor: float
    peak: int
    digest: str


Option = tuple[str, dict[str, Any]]  # a name, and what argparse is told of it
WRITE: Option = ("--write", {"action": "store_true", "help": "replace this script's tables in bench/RESULTS.md"})


def parser_of(text: str | None, *options: Option) -> argparse.ArgumentParser:
    """A parser of the command line with this help and these options."""
    parser = argparse.ArgumentParser(description=text, formatter_class=argparse.RawDescriptionHelpFormatter,
                                     epilog="The built program is PLANARBEND, or else that of ./planarbend --build.")
    for option, how in options:
        parser.add_argument(option, **how)
    return parser


def add_names(parser: argparse.ArgumentParser, what: str, known: Collection[str], default: str = "") -> None:
    """Adds arguments, each one of the known names. They are given as `names`: without any, all or the default."""
    def name(word: str) -> str:
        if word not in known:
            raise argparse.ArgumentTypeError(f"no such {what.lower()}: {word}")
        return word

    parser.add_argument("names", metavar=what, nargs="*", type=name, default=[default] if default else list(known),
                        help=f"{', '.join(known)} ({default or 'all'})" if len(known) < 30 else "(all)")


class Section:
    """A section of bench/RESULTS.md: the command that writes it, a title, when and where it ran, and tables. Each line
    is printed as soon as it is added. Faults are bounds that a figure exceeds."""

    def __init__(self, command: str, title: str, *columns: str) -> None:
        self.head, self.lines, self.faults = f"## `{command}`", list[str](), list[str]()
        self.add(f"{self.head}: {title}", "", where(), "")
        self.columns(*columns)

    def add(self, *lines: str) -> None:
        self.lines += lines
        print("\n".join(lines), flush=True)

    def columns(self, *names: str) -> None:
        """Begins a table."""
        self.row(*names)
        self.add("|---" * len(names) + "|")

    def row(self, *cells: object) -> None:
        self.add("|" + "|".join(map(str, cells)) + "|")

    def keep(self, wanted: bool) -> None:
        """If requested, replaces the section of the same command, or appends this one."""
        if wanted:
            page, mine = read(RESULTS).decode().rstrip() + "\n", "\n".join(self.lines).rstrip() + "\n"
            old = re.search(rf"^{re.escape(self.head)}:.*?\n(?=\n## |\Z)", page, re.M | re.S)
            page = page[:old.start()] + mine + page[old.end():] if old else f"{page}\n{mine}"
            Path(RESULTS).write_text(page, encoding="utf-8")


Part = Callable[[argparse.Namespace, str], Section]  # of a script: from its options and a folder


def measure(parts: dict[str, Part], *options: Option, default: str = "") -> int:
    """Runs the parts that the command line names, each in its own folder, keeps what they print if requested, and prints
    their faults. Returns the exit status of the script."""
    parser, faults = parser_of(sys.modules["__main__"].__doc__, *options, WRITE), []
    if len(parts) > 1:
        add_names(parser, "PART", parts, default)
    told = parser.parse_args()
    for name in told.names if len(parts) > 1 else parts:
        with tempfile.TemporaryDirectory() as folder:
            section = parts[name](told, folder)
        section.keep(told.write)
        faults += section.faults
    print(*faults, sep="\n", end="\n" * bool(faults))
    return 1 if faults else 0


def where() -> str:
    """The day, the program's commit, the number of cores, and the load of the last minute."""
    cores = len(os.sched_getaffinity(0))
    return f"{datetime.date.today()}, commit {commit()}, {cores} cores with a load of {os.getloadavg()[0]:.1f}."


def commit() -> str:
    """The commit of the checkout that holds the program, or else of this one."""
    for folder in (os.path.dirname(os.path.abspath(os.environ.get("PLANARBEND") or RESULTS)), ROOT):
        if found := ran(["git", "-C", folder, "log", "-1", "--format=%h"], None, text=True).stdout.strip():
            return str(found)
    return "unknown"


def planarbend() -> str:
    """The built program: PLANARBEND, or that of ./planarbend --build."""
    return built(os.environ.get("PLANARBEND") or f"{ROOT}/out/planarbend", "./planarbend --build")


def library() -> Any:
    """The built library: PLANARBEND_LIBRARY, or that of ./planarbend --build."""
    from planarbend.layout.library import Library

    return Library(library_file())


def library_file(name: str = "libplanarbend.so.2") -> str:
    """The path of the built library, or of a file beside it."""
    path = os.environ.get("PLANARBEND_LIBRARY") or f"{ROOT}/out/libplanarbend.so.2"
    path = os.path.join(os.path.dirname(os.path.abspath(path)), name)
    return path if os.path.isfile(path) else sys.exit(f"not built: {path}; build it by ./planarbend --build")


def of_crate(crate: str, command: str) -> str:
    """The program that `rt` with this command builds in a crate: its tests, or the program that it is."""
    return built(f"{ROOT}/crates/{crate}/out/{crate}{'_tests' * (command == 'test')}", f"(cd crates/{crate} && rt {command})")


def corpus() -> str:
    """The built program of crates/corpus, which tries the layers of the library."""
    return of_crate("corpus", "run -- again")


def built(program: str, command: str) -> str:
    """The path of a program; exits if it is not built."""
    program = os.path.abspath(program)
    if not os.access(program, os.X_OK):
        sys.exit(f"{os.path.basename(sys.argv[0])}: not built: {program}; build it by {command}")
    return program


def module(path: str) -> Any:
    """A script of this repository, as a module; or another Python file, by its full path."""
    name = os.path.basename(path).replace("-", "_").removesuffix(".py")
    sys.modules[name] = found = types.ModuleType(name)
    found.__file__ = os.path.join(ROOT, path)
    importlib.machinery.SourceFileLoader(name, found.__file__).exec_module(found)
    return found


def preload(folder: str) -> str:
    """Builds checks/preload.c in a folder and returns the library's path."""
    made = os.path.join(folder, "preload.so")
    subprocess.run(["cc", "-O1", "-shared", "-fPIC", "-o", made, os.path.join(ROOT, "checks/preload.c")], check=True)
    return made


def outside(folder: str, source: str = "lemon.cc", *more: str) -> str:
    """Builds a program of bench/outside in a folder, with these arguments for the compiler, and returns its path."""
    program = os.path.join(folder, os.path.basename(source).removesuffix(".cc"))
    subprocess.run(["g++", *FAST, "-o", program, os.path.join(OUTSIDE, source), *more], check=True)
    return program


def speed(folder: str) -> str:
    """Builds c/tests/speed.c, which times the library, in a folder, and returns its path."""
    made = os.path.join(folder, "speed")
    subprocess.run(["cc", "-std=c11", "-O2", "-pthread", f"-I{ROOT}/c", f"{ROOT}/c/tests/speed.c",
                    library_file("libplanarbend.a"), "-o", made], check=True)
    return made


def toolchain(name: str = "rt") -> Any:
    """The toolchain's command `rt` as a module, or the module `rtlib` next to it, which reads crates."""
    command = os.path.realpath(shutil.which("rt") or sys.exit("the Rattle kit's command rt is not on the path"))
    return module(command if name == "rt" else os.path.join(os.path.dirname(command), name + ".py"))


def read(path: str) -> bytes:
    """The bytes of a file."""
    return Path(path).read_bytes()


def name_of(path: str) -> str:
    """The name of a file of planar_code, without its ending."""
    return os.path.basename(path).removesuffix(".pc")


def corpus_files() -> list[str]:
    """The files of planar_code in crates/corpus/data."""
    return sorted(glob.glob(os.path.join(DATA, "*.pc")))


def records_of(path: str) -> list[bytes]:
    """The records of a file of planar_code."""
    with open(path, "rb") as source:
        return list(records(source))


def write(path: str, graphs: Iterable[bytes]) -> str:
    """This file of planar_code, with these records."""
    Path(path).write_bytes(HEADER + b"".join(graphs))
    return path


def libraries(root: str = ROOT) -> dict[str, list[str]]:
    """Each crate of a checkout with the libraries it uses, lowest first."""
    text = read(os.path.join(root, "crates.txt")).decode()
    return {name: rest.split() for name, rest in re.findall(r"^(\w+)[^:#\n]*:([^#\n]*)", text, re.M)}


def copy_crates(folder: str, top: str, root: str = ROOT) -> str:
    """Copies the sources and definitions of a crate and of all below it, and returns the copy of the crate."""
    uses, found = libraries(root), [top]
    for crate in found:  # which grows
        found += [used for used in uses[crate] if used in uses and used not in found]
        for source in [part for part in ("src", "specs") if os.path.isdir(f"{root}/crates/{crate}/{part}")]:
            shutil.copytree(f"{root}/crates/{crate}/{source}", f"{folder}/crates/{crate}/{source}")
    shutil.copy(os.path.join(root, "HANDLES"), folder)
    lines = [f"{crate}: {' '.join(used)}\n" for crate, used in uses.items() if crate in found]
    Path(folder, "crates.txt").write_text("".join(lines), encoding="utf-8")
    return os.path.join(folder, "crates", top)


def plant(edit: str, folder: str) -> None:
    """Makes the changes of an edit, lines `file:`, `old:` and `new:`, in the copy of its crate below a folder."""
    for line in read(edit).decode().splitlines():
        word, _, text = line.partition(": ")
        if word == "file":
            path = Path(folder, "crates", os.path.basename(os.path.dirname(edit)), text)
        elif word == "old":
            old = text
        elif word == "new":
            whole = path.read_text(encoding="utf-8")
            if whole.count(old) != 1:
                sys.exit(f"{edit}: its text does not occur once in {path}")
            path.write_text(whole.replace(old, text), encoding="utf-8")


def run(words: Sequence[str], stderr: int | None = None) -> Run:
    """One run of a program, which must end with status 0. The peak is what was seen while output arrived; for a run too
    short to be seen it is the system's count, which includes what this script held when it forked."""
    start = time.perf_counter()
    child = subprocess.Popen(words, stdout=subprocess.PIPE, stderr=stderr, bufsize=0)
    assert child.stdout
    digest, peak = hashlib.sha256(), 0
    while chunk := child.stdout.read(PIECE):
        digest.update(chunk)
        peak = max(peak, peak_of(child.pid))
    child.stdout.close()
    _, status, used = os.wait4(child.pid, 0)
    seconds = time.perf_counter() - start
    if status != 0:
        sys.exit(f"{words} ended with status {status}")
    return Run(seconds, used.ru_utime + used.ru_stime, peak or used.ru_maxrss * 1024, digest.hexdigest())


def in_turn(ways: dict[Any, Any], rounds: int) -> dict[Any, list[Any]]:
    """What each way returns, called in turn in each round. A command in place of a function stands for its run."""
    found = [[way() if callable(way) else run(way) for way in ways.values()] for _ in range(rounds)]
    return dict(zip(ways, map(list, zip(*found))))


def limits(**which: int) -> Callable[[], None]:
    """A function that sets limits by name, such as AS or NOFILE, in the process that becomes a program."""
    def set_limits() -> None:
        for name, most in which.items():
            resource.setrlimit(getattr(resource, f"RLIMIT_{name}"), (most, most))
    return set_limits


def wait_for(holds: Callable[[], object], text: str, patience: float, pause: float = 0.1) -> None:
    """Waits until a condition holds."""
    end = time.monotonic() + patience
    while not holds():
        assert time.monotonic() < end, f"not seen in {patience} s: {text}"
        time.sleep(pause)


def peak_of(process: int) -> int:
    """The most memory, in bytes, that a process has had so far; 0 once it has ended."""
    with contextlib.suppress(OSError):
        if found := re.search(rb"^VmHWM:\s*(\d+)", read(f"/proc/{process}/status"), re.M):
            return int(found[1]) * 1024
    return 0


def generated(folder: str, kind: str, vertices: int | str, count: int, seed: int | str) -> str:
    """A file of this many random graphs of a kind."""
    return written(os.path.join(folder, f"{kind}{vertices}_{seed}.pc"), kind, str(vertices), str(count), str(seed))


def written(path: str, *words: str) -> str:
    """This file, written by bench/outside/generate.py with these arguments."""
    with open(path, "wb") as out:
        subprocess.run([sys.executable, os.path.join(OUTSIDE, "generate.py"), *words], check=True, stdout=out)
    return path


def files(folder: str, count: int) -> list[str]:
    """Files of this many random graphs of each kind, and the one of small graphs."""
    random = [generated(folder, kind, vertices, count, seed) for kind, vertices, seed in KINDS]
    return [*random, shutil.copy(SMALL, folder)]


def enumerated(folder: str, orders: Iterable[int], is_needed: bool = False) -> list[str]:
    """Files of all connected planar graphs of degree at most 4 with these numbers of vertices. Without nauty there are
    none, or the script ends if they are needed."""
    geng, planarg = (shutil.which("nauty-" + name) or shutil.which(name) for name in ("geng", "planarg"))
    if not geng or not planarg:
        if is_needed:
            sys.exit(f"{os.path.basename(sys.argv[0])}: needs nauty's geng and planarg (Debian: nauty)")
        return []
    paths = []
    for order in orders:
        paths.append(os.path.join(folder, f"planar_d4_n{order}.pc"))
        with open(paths[-1], "wb") as out, subprocess.Popen([geng, "-q", "-c", "-D4", str(order)],
                                                            stdout=subprocess.PIPE) as graphs:
            subprocess.run([planarg, "-q", "-p"], check=True, stdin=graphs.stdout, stdout=out)
    return paths


def ran(words: Iterable[object], status: int | None = 0, **how: Any) -> subprocess.CompletedProcess[Any]:
    """A run of a program to its end, with what it wrote. It must end with this status, unless that is None."""
    done = subprocess.run(list(map(str, words)), capture_output=True, **how)
    assert status in (None, done.returncode), \
        f"{' '.join(map(str, words))}: status {done.returncode}\n{done.stdout[-400:]!r}\n{done.stderr[-4000:]!r}"
    return done


def text_of(words: Iterable[object]) -> str:
    """The output of a program."""
    return str(ran(words, text=True).stdout)


def figures(words: Iterable[object]) -> dict[str, int]:
    """The numbers that a program prints in one line, by name."""
    pairs = (word.partition("=") for word in text_of(words).split())
    return {name: int(figure) for name, _, figure in pairs if figure}
