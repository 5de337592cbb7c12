"""Shared by the groups of cases: the program's input and expected answers, the content of report lines, how a run may
end, the use of Linux, and the folder in which the program runs."""
import array
import contextlib
import fcntl
import functools
import json
import os
import re
import shutil
import subprocess
import termios
import time
from collections.abc import Iterable, Iterator
from typing import Any, NamedTuple

import harness
import programs
from planarbend.layout import planar_code, reports
from planarbend.layout.planar_code import HEADER
from programs import EDGE, LONE, TRIANGLE


# ---- What the program is given and must answer: the commands that are tried, the records of the files, the texts of
# faults, and the lines of a whole report, as README.md, docs/FORMAT.md and docs/JSON.md say.

# A path of 10 vertices, whose record begins with a line end.
PATH_OF_10 = b"\n\2\0" + b"".join(bytes([vertex - 1, vertex + 1, 0]) for vertex in range(2, 10)) + b"\x09\0"
BULKY = b"\xff" + 255 * (254 * b"\1" + b"\0")  # the longest record there is; no graph
TWO = HEADER + EDGE + TRIANGLE
MANY = 10_000  # times two graphs, whose report is longer than a pipe holds
LONG = HEADER + (EDGE + TRIANGLE) * MANY

# What README.md says of these graphs: n, m, f and fewest bends; and docs/FORMAT.md of one without an edge.
ANSWERS = {EDGE: "ok n=2 m=1 f=1 bends=0 drawn=yes", TRIANGLE: "ok n=3 m=3 f=2 bends=1 drawn=yes",
           LONE: "refused edgeless", PATH_OF_10: "ok n=10 m=9 f=1 bends=0 drawn=yes"}

WRITE = "planarbend: cannot write output: {}\n"  # with the reason, as the system has it
FULL = WRITE.format("No space left on device")
TWICE = ("error: '-' (standard input) may be given only once\n\n"
         "Usage: planarbend <COMMAND>\n\nFor more information, try '--help'.\n")



class Command(NamedTuple):
    """A command with its form and its number of lanes."""
    words: list[str]
    lanes: int = 1

    @property
    def frames(self) -> bool:
        return self.words[0] == "frames"

    @property
    def json(self) -> bool:
        return "--json" in self.words

    def __str__(self) -> str:
        return " ".join(self.words)


def layout(lanes: int, *words: str) -> Command:
    """The command `layout` with these options."""
    return Command(["layout", *words, *["--lanes", str(lanes)] * (lanes > 1)], lanes)


FRAMES, LAYOUT, LAYOUT_JSON = Command(["frames"]), layout(1), layout(1, "--json")
LAYOUTS = [LAYOUT, layout(4), LAYOUT_JSON, layout(4, "--json"), layout(8, "--outer", "best")]
COMMANDS = [FRAMES, *LAYOUTS]


class File(NamedTuple):
    """What a file has: its records and how it ends."""
    records: list[bytes]
    mark: str = "complete"


IO, EMPTY = File([], "io"), File([], "header")


def split(text: bytes) -> File:
    """The records and the ending of these bytes, as docs/FORMAT.md has them."""
    return File(*planar_code.split(text))


def expected_lines(command: Command, files: Iterable[File]) -> list[str]:
    """The lines of a whole report; of JSON Lines those of the same report, each after the number of its file."""
    found: list[str] = []
    for number, file in enumerate(files, 1):
        lines: list[object] = [] if command.frames or command.json else [reports.File(number)]
        lines += [reports.Record(place, record[0], len(record)) if command.frames
                  else f"graph {place} {ANSWERS.get(record, '?')}" for place, record in enumerate(file.records, 1)]
        lines.append(reports.End(file.mark, len(file.records), "records" if command.frames else "graphs"))
        found += [f"{number}: {line}" if command.json else str(line) for line in lines]
    return found


def lines_of(command: Command, text: bytes) -> tuple[list[str], str]:
    """The complete lines of a report, in the form of `expected_lines`, and the rest after the last of them."""
    *lines, rest = text.decode("ascii", "replace").split("\n")
    return [line_of_json(line) if command.json else line for line in lines], rest


def line_of_json(text: str) -> str:
    """The content of a JSON line. It is compact, with the keys of docs/JSON.md in order, and the turns are the bends."""
    line = reports.json_line(text)
    assert json.dumps(line, sort_keys=True, separators=(",", ":")) == text, f"not compact or in order: {text[:80]}"
    assert len("".join(line.get("turns", ""))) == 2 * line.get("bends", 0), f"other bends than turns: {line}"
    return f"{line['file']}: {reports.of_json(line)}"


# ---- How a run may end: with a whole report, with a beginning of one, or with a fault.

class Ran(NamedTuple):
    """How a run ended: its status, below 0 for a signal, and what it wrote."""
    status: int
    out: bytes
    err: str

    def __str__(self) -> str:
        return f"status {self.status}, {len(self.out)} bytes of output to {self.out[-80:]!r}, error {self.err[:200]!r}"


# The marks of files of which a line on standard error may say what they look like.
MISFITS = ("header", "large", "oversize", "truncated")


def is_whole(command: Command, ran: Ran, files: list[File], said: str | None = None) -> None:
    """The whole report of these files, the status that goes with it, and this text on standard error. If no text is
    given, there is a line for each file that could not be read, and one or none for each that is not planar_code."""
    least = sum(file.mark == "io" for file in files)
    most = least + sum(file.mark in MISFITS for file in files)
    assert said in (None, ran.err) and least <= ran.err.count("planarbend: ") <= most, f"{ran}, not {said!r}"
    (lines, rest), expected = lines_of(command, ran.out), expected_lines(command, files)
    place = next((at for at, pair in enumerate(zip(lines, expected)) if pair[0] != pair[1]), len(lines))
    assert lines == expected and not rest, f"{ran}; line {place + 1}: {lines[place:][:1]}, not {expected[place:][:1]}"
    assert ran.status == (0 if all(file.mark == "complete" for file in files) else 3), ran


def are_same(lines: list[str], expected: list[str], scarce: bool) -> bool:
    """Whether these are the expected lines; if memory is scarce, a graph may be `memory` instead."""
    return len(lines) == len(expected) and all(
        line == other or scarce and line == re.sub(r"(graph \d+) .*", r"\1 memory", other) for line, other in zip(lines, expected))


def is_beginning(command: Command, out: bytes, files: list[File], scarce: bool = False) -> None:
    """What was written is a prefix of the whole report of these files; if memory is scarce, with graphs that
    are `memory`."""
    (lines, rest), expected = lines_of(command, out), expected_lines(command, files)
    following = expected[len(lines):len(lines) + 1]
    assert are_same(lines, expected[:len(lines)], scarce) and (
        not rest or following and (command.json or following[0].startswith(rest))), f"no beginning: {out[-80:]!r}"


def is_fault(ran: Ran, status: int, text: str | None) -> None:
    """This status with nothing on standard output, and this text on standard error (any text if it is None)."""
    is_said = bool(ran.err) if text is None else ran.err == text
    assert ran.status == status and not ran.out and is_said, f"{ran}; not status {status}, {text!r}"


# ---- What the cases ask of Linux: limits and closed descriptors for the process that becomes the program, outputs
# that take nothing, and what is seen of a process while it runs.

PATIENCE = 20  # seconds that one run may take
wait_for = functools.partial(programs.wait_for, patience=PATIENCE, pause=0.001)  # until a condition holds
NOBODY = 65534
IS_ROOT = os.geteuid() == 0
AS_NOBODY: dict[str, Any] = {"user": NOBODY, "group": NOBODY, "extra_groups": []} if IS_ROOT else {}


def closing(*descriptors: int) -> dict[str, Any]:
    """The option by which these are closed in the process that becomes the program."""
    return {"preexec_fn": lambda: [os.close(descriptor) for descriptor in descriptors]}


def broken_pipe() -> Any:
    """The write end of a pipe that nobody reads."""
    reader, writer = os.pipe()
    os.close(reader)
    return os.fdopen(writer, "wb", buffering=0)


def full_disk() -> Any:
    """An output without space."""
    return open("/dev/full", "wb", buffering=0)


def both_ends(fifo: str) -> Any:
    """The writing end of a FIFO, which is also open for reading."""
    return open(fifo, "r+b", buffering=0)


def waiting_bytes(pipe: int) -> int:
    """How many bytes a pipe holds."""
    count = array.array("i", [0])
    fcntl.ioctl(pipe, termios.FIONREAD, count)
    return count[0]


def is_stopped(process: int) -> bool:
    """Whether all threads of a process are idle."""
    states = []
    for task in os.listdir(f"/proc/{process}/task"):
        with contextlib.suppress(OSError):
            states.append(programs.read(f"/proc/{process}/task/{task}/stat").rpartition(b")")[2].split()[0])
    return set(states) == {b"T"}


def place_in(process: int, path: str) -> int:
    """The number of bytes of a file that a process has read, or -1 if it has not opened the file."""
    for number in os.listdir(f"/proc/{process}/fd"):
        with contextlib.suppress(OSError):
            if os.readlink(f"/proc/{process}/fd/{number}") == path:
                return int(programs.read(f"/proc/{process}/fdinfo/{number}").split()[1])
    return -1


# ---- The folder in which the program runs.

class Machine(harness.Checks):
    """A folder with the program and files."""

    def setUp(self) -> None:
        super().setUp()
        self.named, self.room = 0, os.path.join(self.folder, "room")
        os.mkdir(self.room)
        self.program = shutil.copy(programs.planarbend(), os.path.join(self.folder, "planarbend"))
        for path, mode in ((self.folder, 0o755), (self.room, 0o777), (self.program, 0o755)):
            os.chmod(path, mode)
        self.two = self.file(TWO)

    def path(self) -> str:
        """A name that no file has yet."""
        self.named += 1
        return os.path.join(self.folder, f"file-{self.named}")

    def file(self, text: bytes, path: str | bytes | None = None) -> Any:
        """A file that holds this, readable by all."""
        path = path or self.path()
        with open(path, "wb") as file:
            file.write(text)
        os.chmod(path, 0o644)
        return path

    def fifo(self) -> str:
        """A pipe with a name."""
        path = self.path()
        os.mkfifo(path)
        return path

    @contextlib.contextmanager
    def started(self, words: list[Any], **how: Any) -> Iterator[subprocess.Popen[bytes]]:
        """The running program with these arguments; it is killed at the end if it still runs."""
        standard = {"stdin": subprocess.DEVNULL, "stdout": subprocess.PIPE, "stderr": subprocess.PIPE}
        environment = {"PATH": "/usr/bin:/bin", "TMPDIR": self.room, "HOME": self.room} | how.pop("environment", {})
        with subprocess.Popen([self.program, *words], cwd=self.room, env=environment, **standard | how) as child:
            try:
                yield child
            finally:
                child.kill()  # which does nothing once it was waited for

    def ended(self, child: subprocess.Popen[bytes], given: bytes | None = None) -> Ran:
        """How a run ends. It leaves nothing behind."""
        out, err = child.communicate(given, timeout=PATIENCE)
        assert not os.listdir(self.room), f"left behind: {os.listdir(self.room)}"
        return Ran(child.returncode, out or b"", (err or b"").decode("utf-8", "replace"))

    def ran(self, words: list[Any], given: bytes | None = None, **how: Any) -> Ran:
        """One run of the program to its end."""
        with self.started(words, **({} if given is None else {"stdin": subprocess.PIPE}) | how) as child:
            return self.ended(child, given)

    def fed(self, words: list[Any], text: bytes, pause: float, **how: Any) -> Ran:
        """A run whose standard input is a pipe that delivers this text, with a pause after each byte."""
        with self.started(words, stdin=subprocess.PIPE, **how) as child:
            for byte in text:
                child.stdin.write(bytes([byte]))
                child.stdin.flush()
                time.sleep(pause)
            return self.ended(child)

    def whole(self, command: Command, name: str, paths: list[Any], files: list[File], **how: Any) -> None:
        """A case that ends with the whole report of these files."""
        with self.case(command, name):
            is_whole(command, self.ran([*command.words, *paths], **how), files)

    def faulty(self, command: object, name: str, words: list[Any], status: int, text: str | None, **how: Any) -> None:
        """A case that ends with this status, nothing on standard output, and this text on standard error."""
        with self.case(command, name):
            is_fault(self.ran(words, **how), status, text)
