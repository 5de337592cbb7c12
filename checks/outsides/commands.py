"""Arguments of the command line, and the command `check`."""
import os
import signal
import subprocess
import time
from typing import Any

from machine import (
    AS_NOBODY, broken_pipe, closing, FULL, full_disk, HEADER, LONE, Machine, Ran, TRIANGLE, TWICE, TWO, WRITE)
from outputs import ends_by
from programs import ROOT, limits, read


# ---- Arguments of the command line: wrong ones, help, and the version.

NEEDS_JSON = ("error: --drawing needs --json: the report has no drawings\n\nUsage: planarbend <COMMAND>\n\n"
              "For more information, try '--help'.\n")


def check_words(machine: Machine) -> None:
    """Command lines that are refused, and help."""
    for name, words, text in refused(machine.two):
        machine.faulty("command line", name, words, 2, text)
    with machine.case("--help", "is asked for"):
        ran = machine.ran(["--help"])
        assert ran.status == 0 and not ran.err and ran.out, ran
    with machine.case("--version", "names the version and the toolchain"):
        assert (ran := machine.ran(["--version"])) == Ran(0, read(f"{ROOT}/checks/start/texts/version"), ""), ran


def refused(path: str) -> list[tuple[str, list[Any], str | None]]:
    """Command lines that are refused, each with its name and the text of the fault, or None for any text."""
    return [
        ("no words", [], None), ("no such command", ["draw", path], None), ("frames of no file", ["frames"], None),
        ("frames of two files", ["frames", path, path], None), ("layout of no file", ["layout"], None),
        ("no such option", ["layout", "--fast", path], None),
        ("no such choice", ["layout", "--outer", "greatest", path], None),
        ("a choice that is not said", ["layout", path, "--outer"], None),
        ("no such drawing", ["layout", "--drawing", "x", path], None),
        ("a kind of drawing for the report", ["layout", "--drawing", "short", path], NEEDS_JSON),
        *[(" ".join(words), ["layout", *words, path], f"planarbend: {option[2:]} must be 1 to {most}\n")
          for option, most in (("--lanes", 8), ("--waiting", 65536))
          for words in [*([option, number] for number in ("0", "-1", "x", "", "1.5", "65537")),
                        *([f"{option}={number}"] for number in ("0", "-1", "x", "4294967297"))]]]


# ---- The command `check`: two files, of which one may be standard input, with the verdicts of docs/CHECK.md, found by
# hand.

LONGEST = 4_000_000  # bytes of a line, without its end
ROOM = 64 << 20  # bytes of address space, in which a line of any length is read
DRAWN = b"""{"points":{"vertices":[[0,0],[5,0]],"corners":[[]]}}
{"points":{"vertices":[[0,1],[1,1],[0,0]],"corners":[[],[],[[1,0]]]}}
"""
OBLIQUE = DRAWN.replace(b"[[1,0]]", b"[]")
OK = b"graph 1 ok bends=0 fewest=0\ngraph 2 ok bends=1 fewest=1\nend complete graphs=2 surplus=0\n"
OK_JSON = (b'{"graph":1,"ok":true,"bends":0,"fewest":0}\n{"graph":2,"ok":true,"bends":1,"fewest":1}\n'
           b'{"end":"complete","graphs":2,"surplus":0}\n')
NOT_OK = b"graph 1 ok bends=0 fewest=0\ngraph 2 drawn=axes edge=2 part=0\nend complete graphs=2 surplus=0\n"
UNREAD = b"graph 1 line=unread\ngraph 2 line=unread\nend complete graphs=2 surplus=0\n"
NO_GRAPHS = b"end io graphs=0 surplus=0\n"
NEVER = "planarbend: {}: {}\n"
MISSING = "No such file or directory"


def check_check(machine: Machine) -> None:
    """Files, standard input, lines of all lengths, and outputs."""
    two, drawn, oblique, none = machine.two, machine.file(DRAWN), machine.file(OBLIQUE), machine.file(b"")
    says(machine, "two drawings", [two, drawn], OK, 0)
    says(machine, "two drawings as JSON", [two, drawn, "--json"], OK_JSON, 0)
    says(machine, "an oblique edge", ["--faces", two, oblique], NOT_OK, 4)
    says(machine, "the same file twice", [none, none], b"end header graphs=0 surplus=0\n", 3,
         NEVER.format(none, "empty file"))
    reads_pipes(machine, two, drawn)
    names_files(machine, two, none)
    reads_long_lines(machine)
    fails_to_write(machine, [two, drawn])
    for which in (signal.SIGTERM, signal.SIGINT):
        with machine.case("check", f"{which.name} while it waits for a FIFO"):
            with machine.started(["check", two, machine.fifo()]) as child:
                time.sleep(0.05)
                ends_by(machine, child, which)
    for name, words, text in [("no file", [], None), ("one file", [two], None),
                              ("three files", [two, drawn, drawn], None), ("standard input twice", ["-", "-"], TWICE),
                              ("--lanes", ["--lanes", "2", two, drawn], None),
                              ("--progress", ["--progress", two, drawn], None)]:
        machine.faulty("check", name, ["check", *words], 2, text)


def says(machine: Machine, name: str, words: list[Any], out: bytes, status: int, err: str = "", **how: Any) -> None:
    """A run with this output, this status and this text on standard error; with a pause, it is given its input byte by
    byte."""
    with machine.case("check", name):
        words = ["check", *words]
        ran = machine.fed(words, how["given"], how["pause"]) if "pause" in how else machine.ran(words, **how)
        assert ran == (status, out, err), f"{ran}; not {Ran(status, out, err)}"


def reads_pipes(machine: Machine, two: str, drawn: str) -> None:
    """Either file as standard input, at once or byte by byte, and from `layout --json`."""
    says(machine, "graphs from a pipe", ["-", drawn], OK, 0, given=TWO)
    says(machine, "lines from a pipe", [two, "-"], OK, 0, given=DRAWN)
    says(machine, "lines without a last line end", [two, "-"], OK, 0, given=DRAWN[:-1])
    says(machine, "a line too many", [two, "-"], OK.replace(b"surplus=0", b"surplus=1"), 4, given=DRAWN + b"{}\n")
    says(machine, "graphs byte by byte", ["-", drawn], OK, 0, pause=0.002, given=TWO)
    says(machine, "lines byte by byte", [two, "-"], OK, 0, pause=0.002, given=DRAWN)
    says(machine, "lines of layout --json", ["--faces", two, "-"], OK, 0, given=machine.ran(["layout", "--json", two]).out)


def names_files(machine: Machine, two: str, none: str) -> None:
    """Files that cannot be opened or read: the reason is on standard error, and the rest is checked."""
    forbidden, missing = machine.file(TWO), machine.path()
    os.chmod(forbidden, 0)
    for name, path, reason, how in [("a missing file", missing, MISSING, {}),
                                    ("a folder", machine.room, "Is a directory", {}),
                                    ("a file without permission", forbidden, "Permission denied", AS_NOBODY),
                                    ("- is closed", "-", "Bad file descriptor", closing(0))]:
        said = NEVER.format(path, reason)
        says(machine, f"{name} for the graphs", [path, none], NO_GRAPHS, 3, said, **how)
        says(machine, f"{name} for the lines", [two, path], UNREAD, 3, said, **how)
    both = [missing, missing + "-too"]
    says(machine, "both missing", both, NO_GRAPHS, 3, "".join(NEVER.format(path, MISSING) for path in both))


def reads_long_lines(machine: Machine) -> None:
    """Lines up to the limit and above it, in little memory, and many of them."""
    lone, line, room = machine.file(HEADER + TRIANGLE), DRAWN.splitlines()[1], {"preexec_fn": limits(AS=ROOM)}
    for length, said, status in [(LONGEST, b"ok bends=1 fewest=1", 0), (LONGEST + 1, b"line=malformed", 4),
                                 (50 << 20, b"line=malformed", 4)]:
        for end in (b"", b"\n"):
            says(machine, f"a line of {length} bytes", [lone, "-"], b"graph 1 " + said
                 + b"\nend complete graphs=1 surplus=0\n", status, given=line + b" " * (length - len(line)) + end, **room)
    count = 200_000
    many = machine.file(HEADER + LONE * count)
    with machine.case("check", f"{count} graphs in little memory"):
        ran = machine.ran(["check", many, machine.file(b"{}\n" * count)], **room)
        assert ran.status == 4 and ran.out.count(b" refused edgeless\n") == count, ran


def fails_to_write(machine: Machine, paths: list[str]) -> None:
    """Outputs that accept no data."""
    for name, make, said in [("full disk", full_disk, FULL), ("closed pipe", broken_pipe, "")]:
        with make() as output:
            says(machine, f"standard output is a {name}", paths, b"", 1, said, stdout=output)
    says(machine, "standard output closed", paths, b"", 1, WRITE.format("Bad file descriptor"),
         stdout=subprocess.DEVNULL, **closing(1))
    says(machine, "standard error closed", paths, OK, 0, **closing(2))
