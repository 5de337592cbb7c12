"""What a run writes, and when: outputs that are closed or full, signals, sources that become silent, lines of progress,
and how far later files are read."""
import contextlib
import os
import pty
import re
import select
import signal
import socket
import subprocess
import threading
import time
from collections.abc import Iterator
from typing import Any

import programs
from machine import (
    both_ends, broken_pipe, closing, Command, COMMANDS, EDGE, expected_lines, File, FRAMES, FULL, full_disk, IO,
    is_beginning, is_whole, LAYOUT, LAYOUTS, lines_of, LONG, Machine, MANY, PATIENCE, place_in, Ran, split,
    TRIANGLE, TWO, wait_for, waiting_bytes, WRITE)
from planarbend.layout.planar_code import HEADER
from programs import limits


# ---- Standard output and standard error that are closed or full.

IGNORED = {"restore_signals": False}  # Python ignores SIGPIPE and SIGXFSZ, and so does then the program


def check_outputs(machine: Machine) -> None:
    """Standard output that accepts no data, or no more data."""
    two, long = [split(TWO)], machine.file(LONG)
    for command in COMMANDS:
        output_is_closed(machine, command)
        nobody_reads(machine, command, long)
        with machine.case(command, "a file that may not grow, SIGXFSZ ignored"):
            takes_no_more(command, to_a_short_file(machine, [*command.words, machine.two]), two,
                          WRITE.format("File too large"))
        machine.whole(command, "SIGPIPE ignored, output read", [machine.two], two, **IGNORED)
    for name, make, said in [("closed pipe", broken_pipe, ""), ("full disk", full_disk, FULL)]:
        for word in ("--help", "--version"):
            with machine.case(word, f"standard output is a {name}"), make() as output:
                takes_no_more(FRAMES, machine.ran([word], stdout=output), two, said)


def takes_no_more(command: Command, ran: Ran, files: list[File], said: str) -> None:
    """The error of standard output that accepts no more data, with a beginning of the report. If the reader is gone,
    there is no message."""
    assert (ran.status, ran.err) == (1, said), f"{ran}; not status 1, {said!r}"
    is_beginning(command, ran.out, files)


def output_is_closed(machine: Machine, command: Command) -> None:
    """Standard output that is full, is closed, cannot be written to, or whose reader has closed it."""
    nowhere, bad = {"stdout": subprocess.DEVNULL}, WRITE.format("Bad file descriptor")
    (master, terminal), (near, far) = pty.openpty(), socket.socketpair()
    os.close(master)
    near.close()
    with full_disk() as full, open("/dev/null", "rb") as null, open(terminal, "wb", buffering=0) as gone, far:
        for name, how, said in [
                ("on /dev/full", {"stdout": full}, FULL), ("closed", {**nowhere, **closing(1)}, bad),
                ("closed, and standard input", {**nowhere, **closing(0, 1)}, bad),
                ("open for reading only", {"stdout": null}, bad),
                ("on a terminal that is gone", {"stdout": gone}, WRITE.format("Input/output error")),
                ("on a socket that is gone", {"stdout": far}, "")]:
            with machine.case(command, f"standard output {name}"):
                takes_no_more(command, machine.ran([*command.words, machine.two], **how), [split(TWO)], said)


def nobody_reads(machine: Machine, command: Command, long: str) -> None:
    """Standard output is a pipe that nobody reads, from the beginning or after the first line."""
    for name, how in [("", {}), (", SIGPIPE ignored", IGNORED)]:
        with machine.case(command, f"standard output is a closed pipe{name}"), broken_pipe() as pipe:
            takes_no_more(command, machine.ran([*command.words, machine.two], stdout=pipe, **how), [split(TWO)], "")
        with machine.case(command, f"| head -1{name}"), machine.started([*command.words, long], **how) as child:
            line = child.stdout.readline()
            child.stdout.close()
            child.stdout = None
            takes_no_more(command, machine.ended(child)._replace(out=line), [File([EDGE, TRIANGLE] * MANY)], "")


def to_a_short_file(machine: Machine, words: list[Any]) -> Ran:
    """A run that writes to a file limited to 16 bytes."""
    with open(machine.path(), "w+b") as file:
        ran = machine.ran(words, stdout=file, preexec_fn=limits(FSIZE=16), **IGNORED)
        file.seek(0)
        return ran._replace(out=file.read())


def check_errors(machine: Machine) -> None:
    """Standard error that is closed or full changes no status."""
    with full_disk() as full:
        for name, how in bad_errors(full):
            for command in COMMANDS:
                words = [*command.words, machine.two]
                machine.whole(command, f"standard error {name}", [machine.two], [split(TWO)], **how)
                machine.faulty(command, f"standard error {name}, standard output full", words, 1, "", stdout=full, **how)
                machine.faulty(command, f"standard error {name}, command line refused", command.words, 2, "", **how)
    for command in COMMANDS:
        machine.faulty(command, "all three closed", [*command.words, machine.two], 1, "", stdout=subprocess.DEVNULL,
                       **closing(0, 1, 2))


def bad_errors(full: Any) -> Iterator[tuple[str, dict[str, Any]]]:
    """Kinds of standard error that accept no data, each with the option for it."""
    with broken_pipe() as broken:
        yield from [("full", {"stderr": full}), ("a closed pipe", {"stderr": broken}), ("closed", closing(2))]


# ---- Signals that end a run while it waits for a file, reads or writes.

FULL_PIPE = 30_000  # bytes, more than which a pipe holds once a run waits to write


def check_signals(machine: Machine) -> None:
    """Both signals that ask a run to end, while it waits for a FIFO, has read a part of one, or waits to write."""
    long = machine.file(LONG)
    for command in COMMANDS:
        for which in (signal.SIGTERM, signal.SIGINT):
            with machine.case(command, f"{which.name} while it waits for a FIFO"):
                with machine.started([*command.words, machine.fifo()]) as child:
                    time.sleep(0.05)
                    ends_by(machine, child, which)
            path = machine.fifo()
            with machine.case(command, f"{which.name} while it reads"), both_ends(path) as writer:
                with machine.started([*command.words, path]) as child:
                    writer.write(TWO + EDGE[:2])
                    wait_for(lambda: not waiting_bytes(writer.fileno()), "a read")
                    ends_by(machine, child, which, writes=command.frames)  # which prints as records come
            with machine.case(command, f"{which.name} while it writes"):
                with machine.started([*command.words, long]) as child:
                    wait_for(lambda: waiting_bytes(child.stdout.fileno()) > FULL_PIPE, "a full pipe")
                    ends_by(machine, child, which, writes=True)


def ends_by(machine: Machine, child: subprocess.Popen[bytes], which: signal.Signals, writes: bool = False) -> None:
    """The run ends by this signal, and had written nothing unless it was writing."""
    child.send_signal(which)
    ran = machine.ended(child)
    assert ran.status == -which and not ran.err and (writes or not ran.out), f"{ran}; not the end by {which.name}"


# ---- Slow and silent sources: lines are written within a second, and a waiting run takes hardly any processor time.

SECOND = 1.0  # a line that is ready is written within this time
REST = 3.0  # how long a source is silent while processor time is taken
PART = 0.01  # of a core: the most that a waiting run takes
AT_ONCE = 50


def check_silence(machine: Machine) -> None:
    """Sources that give graphs and then wait with the pipe open."""
    for command in LAYOUTS:
        with machine.case(command, f"{AT_ONCE} graphs at once, then silence"):
            falls_silent(machine, command, "-")
        with machine.case(command, f"{AT_ONCE} graphs at once from a FIFO, then silence"):
            falls_silent(machine, command, machine.fifo())
        with machine.case(command, "a graph a second"):
            comes_slowly(machine, command)
        if command.lanes > 1:
            with machine.case(command, "a silent file before one that ends"):
                is_before_another(machine, command)


class Fed:
    """A run, the end of the pipe that feeds it, and what it has written so far."""

    def __init__(self, child: subprocess.Popen[bytes], pipe: Any, command: Command) -> None:
        self.child, self.pipe, self.command, self.out = child, pipe, command, b""

    def tells(self, records: list[bytes]) -> None:
        """It has written the lines of these records within a second, and no others."""
        end, expected = time.monotonic() + SECOND, expected_lines(self.command, [File(records)])[:-1]
        while lines_of(self.command, self.out) != (expected, ""):
            left = end - time.monotonic()
            assert left > 0 and select.select([self.child.stdout], [], [], left)[0], f"not {len(expected)} lines in time"
            self.out += os.read(self.child.stdout.fileno(), 65_536)

    def busy(self) -> float:
        """How many seconds of processor time its threads have taken."""
        spent = 0
        for task in os.listdir(f"/proc/{self.child.pid}/task"):
            with contextlib.suppress(OSError):
                spent += int(programs.read(f"/proc/{self.child.pid}/task/{task}/schedstat").split()[0])
        return spent / 1e9

    def ends(self, machine: Machine, *records: list[bytes]) -> None:
        """The pipe is closed, and the run ends with the whole report of files with these records."""
        self.pipe.close()
        ran = machine.ended(self.child)
        is_whole(self.command, ran._replace(out=self.out + ran.out), list(map(File, records)))


@contextlib.contextmanager
def feeding(machine: Machine, command: Command, path: str, *more: str) -> Iterator[Fed]:
    """A run over this pipe, and over further files."""
    if path == "-":
        reader, writer = os.pipe()
        ends = os.fdopen(reader, "rb"), os.fdopen(writer, "wb", buffering=0)
    else:
        ends = open(os.devnull, "rb"), both_ends(path)
    with ends[0] as reader, ends[1] as writer, machine.started([*command.words, path, *more], stdin=reader) as child:
        reader.close()
        yield Fed(child, writer, command)


def falls_silent(machine: Machine, command: Command, path: str) -> None:
    """Graphs arrive at once, and then nothing for some seconds."""
    records = [EDGE, TRIANGLE] * (AT_ONCE // 2)
    with feeding(machine, command, path) as fed:
        fed.pipe.write(HEADER + b"".join(records))
        fed.tells(records)
        time.sleep(SECOND / 2)
        before = fed.busy()
        time.sleep(REST)
        took = (fed.busy() - before) / REST
        assert took <= PART, f"{took:.2%} of a core while nothing comes"
        fed.pipe.write(EDGE)
        fed.tells([*records, EDGE])
        fed.ends(machine, [*records, EDGE])


def comes_slowly(machine: Machine, command: Command) -> None:
    """One graph per second arrives, and its line within that second."""
    records: list[bytes] = []
    with feeding(machine, command, "-") as fed:
        fed.pipe.write(HEADER)
        before, start = 0.0, time.monotonic()
        for record in [EDGE, TRIANGLE, EDGE, EDGE]:
            records.append(record)
            fed.pipe.write(record)
            fed.tells(records)
            time.sleep(max(0.0, start + len(records) * SECOND - time.monotonic()))
            before = before or fed.busy()  # once the run has begun
        took = (fed.busy() - before) / (len(records) - 1)
        assert took <= PART, f"{took:.2%} of a core while a graph comes a second"
        fed.ends(machine, records)


def is_before_another(machine: Machine, command: Command) -> None:
    """The lines of a silent file are written, although a later file, whose lines are buffered, has ended."""
    records, others = [TRIANGLE] * 3, [EDGE] * 2_000
    with feeding(machine, command, "-", machine.file(HEADER + b"".join(others))) as fed:
        fed.pipe.write(HEADER + b"".join(records))
        fed.tells(records)
        fed.ends(machine, records, others)


# ---- Lines of progress: where, how often, and that they change nothing else.

def check_progress(machine: Machine) -> None:
    """The option `--progress`, given once or twice."""
    for command in LAYOUTS:
        once, twice = (command._replace(words=[*command.words, *["--progress"] * count]) for count in (1, 2))
        tells_nothing(machine, once)
        for few, name in [(command, "without the option"), (once, "once"), (twice, "twice")]:
            with machine.case(few, f"standard error is a terminal, {name}"):
                tells_on_a_terminal(machine, few, few is not command)
        with machine.case(once, "the report goes to the same terminal"):
            shares_a_terminal(machine, once)
        with machine.case(twice, "a slow input"):
            tells_in_time(machine, twice)
        with machine.case(twice, "several files"):
            tells_of_files(machine, twice)
        changes_nothing_else(machine, twice)


def tells_nothing(machine: Machine, command: Command) -> None:
    """Given once, the option writes nothing if standard error is not a terminal."""
    machine.whole(command, "standard error is a pipe", [machine.two], [split(TWO)])
    with machine.case(command, "standard error is a file"), open(machine.path(), "w+b") as file:
        is_whole(command, machine.ran([*command.words, machine.two], stderr=file), [split(TWO)])
        assert not os.fstat(file.fileno()).st_size, "lines in the file"


def tells_on_a_terminal(machine: Machine, command: Command, wanted: bool) -> None:
    """On a terminal the line is overwritten, and ended at the end of the run; it is shown only if requested."""
    ran, shown = on_a_terminal(machine, command, 100, "stderr")
    is_whole(command, ran, [File([EDGE] * 100)])
    if wanted:
        assert shown.startswith("\r") and shown.endswith("\r\n") and "\n" not in shown[:-1], f"not one line: {shown!r}"
        tells(shown[1:-2].replace("\r", "\n") + "\n", 1, 100, 100)
    assert wanted or not shown, f"shown: {shown!r}"


def shares_a_terminal(machine: Machine, command: Command) -> None:
    """On a terminal that also gets the report, each of its lines is complete, and the last line of progress follows."""
    ran, shown = on_a_terminal(machine, command, 200, "stdout", "stderr")
    *report, last = screen_of(shown)
    is_whole(command, ran._replace(out="\n".join([*report, ""]).encode()), [File([EDGE] * 200)], "")
    tells(last + "\n", 1, 200, 1)


def on_a_terminal(machine: Machine, command: Command, graphs: int, *outputs: str) -> tuple[Ran, str]:
    """A run over this many graphs whose given outputs are a terminal, and what the terminal shows."""
    master, terminal = pty.openpty()
    parts: list[bytes] = []
    reader = threading.Thread(target=reads_all, args=(master, parts), daemon=True)
    reader.start()
    with os.fdopen(master, "rb"):
        with os.fdopen(terminal, "wb", buffering=0) as screen:
            ran = machine.fed([*command.words, "-"], HEADER + EDGE * graphs, 0.001, **dict.fromkeys(outputs, screen))
        reader.join(PATIENCE)
    return ran, b"".join(parts).decode()


def reads_all(master: int, parts: list[bytes]) -> None:
    """Reads what is written to a terminal until nobody has it open."""
    with contextlib.suppress(OSError):
        while part := os.read(master, 65_536):
            parts.append(part)


def screen_of(shown: str) -> list[str]:
    """The lines on a screen after this text, which returns the cursor and clears to the end of the line."""
    screen = []
    for text in shown.split("\n")[:-1]:
        line = ""
        for part in text.split("\r"):  # each begins at the left again
            kept, *rest = part.split("\x1b[K")
            line = kept + ("".join(rest) if rest else line[len(kept):])
        screen.append(line.rstrip(" "))
    return screen


def tells_in_time(machine: Machine, command: Command) -> None:
    """While graphs arrive for over a second, lines are written at most four times a second, and once at the end."""
    start = time.monotonic()
    ran = machine.fed([*command.words, "-"], HEADER + EDGE * 300, 0.001)
    passed = time.monotonic() - start
    is_whole(command, ran._replace(err=""), [File([EDGE] * 300)])
    assert tells(ran.err, 1, 300, 4 * passed + 1) >= 3, f"fewer than 3 lines in {passed:.1f} s: {ran.err!r}"


def tells_of_files(machine: Machine, command: Command) -> None:
    """A file that does not open is counted as begun."""
    start, missing = time.monotonic(), machine.path()
    ran = machine.ran([*command.words, machine.two, missing, machine.two])
    said = f"planarbend: {missing}: No such file or directory\n"
    is_whole(command, ran._replace(err=ran.err[-len(said):]), [split(TWO), IO, split(TWO)], said)
    tells(ran.err.removesuffix(said), 3, 4, 4 * (time.monotonic() - start) + 1)


def tells(text: str, files: int, graphs: int, most: float) -> int:
    """Lines of progress, at most `most`: none has less progress than the previous one, and the last one has this many
    files and graphs. Returns the number of lines."""
    lines = [re.fullmatch(r"file (\d+) of (\d+): ([\d,]+) graphs, [\d,]+/s", line.rstrip(" "))
             for line in text.splitlines()]
    assert lines and None not in lines and len(lines) <= most and text.endswith("\n"), f"not 1 to {most} lines: {text!r}"
    counts = [(int(line[1]), int(line[3].replace(",", ""))) for line in lines if line]
    named = {int(line[2]) for line in lines if line}
    assert counts == sorted(counts) and counts[-1] == (files, graphs) and named == {files}, \
        f"not up to {files} files and {graphs} graphs: {text!r}"
    return len(lines)


def changes_nothing_else(machine: Machine, command: Command) -> None:
    """With lines of progress, report, status and faults are what they are without."""
    with full_disk() as full:
        for name, how in bad_errors(full):
            machine.whole(command, f"standard error {name}", [machine.two], [split(TWO)], **how)
        with machine.case(command, "standard output full"):
            ran = machine.ran([*command.words, machine.two], stdout=full)
            assert ran.status == 1 and ran.err.endswith("/s\n" + FULL), ran


# ---- How far a later file is read while the first is held, by `--waiting`; and how many files are open at once, by
# `--lanes`.

LINE = len("graph 100000 ok n=2 m=1 f=1 bends=0 drawn=yes\n")
RECORDS = 1_000_000
ON_THE_WAY = 600_000  # bytes of a file that may be on their way through the stages of a lane
STILL = 1  # seconds in which a file that pauses is not read


def check_waiting(machine: Machine) -> None:
    """Numbers of megabytes, and of lanes."""
    later = machine.file(HEADER + EDGE * RECORDS)
    for words, most in [(["--waiting", "1"], 1), (["--waiting=1"], 1), (["--waiting", "8"], 8), ([], 64)]:
        with machine.case(LAYOUT, *words, "a later file pauses, or may wait whole"):
            pauses(machine, words, later, min(most * 1_000_000 // LINE, RECORDS) * len(EDGE))
    for lanes in range(1, 9):
        for words in (["--lanes", str(lanes)], [f"--lanes={lanes}"]):
            with machine.case("layout", *words, "files that are open at once"):
                opens(machine, words, lanes)


def pauses(machine: Machine, words: list[str], later: str, wanted: int) -> None:
    """While the first file is held, this many bytes of a later one are read, and not many more."""
    path = machine.fifo()
    with both_ends(path), machine.started(["layout", "--lanes", "2", *words, path, later]) as child:
        place = place_where_it_pauses(child, later, wanted // 2)
    assert wanted // 2 <= place <= wanted + ON_THE_WAY, f"{place} bytes were read, not about {wanted}"


def place_where_it_pauses(child: subprocess.Popen[bytes], path: str, least: int) -> int:
    """The bytes of a file that are read until its end, or until reading pauses after at least this many bytes."""
    place, since = 0, time.monotonic()
    while place < least or time.monotonic() < since + STILL:
        now = place_in(child.pid, path)
        if now > place:
            place, since = now, time.monotonic()
        elif now < 0 < place:
            return os.path.getsize(path)
        elif child.poll() is not None or time.monotonic() > since + PATIENCE:
            break
        time.sleep(0.01)
    return place


def opens(machine: Machine, words: list[str], lanes: int) -> None:
    """Of ten files without data, one for each lane is open at a time."""
    paths = [machine.fifo() for _ in range(10)]
    with contextlib.ExitStack() as opened:
        for path in paths:
            opened.enter_context(both_ends(path))
        child = opened.enter_context(machine.started(["layout", *words, *paths]))
        wait_for(lambda: count_open(child.pid, paths) >= lanes, f"{lanes} open files")
        time.sleep(0.1)
        assert count_open(child.pid, paths) == lanes, f"not {lanes} files were open"


def count_open(process: int, paths: list[str]) -> int:
    """How many of these files a process has open."""
    return sum(place_in(process, path) >= 0 for path in paths)
