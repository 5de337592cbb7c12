"""Files of all kinds, good and bad, pipes and standard input."""
import bz2
import contextlib
import gzip
import lzma
import os
import pty
import random
import shutil
import signal
import socket
import subprocess
import threading
import time
import tty
from collections.abc import Callable
from typing import Any

from machine import (
    AS_NOBODY, both_ends, BULKY, closing, Command, COMMANDS, EDGE, EMPTY, File, FRAMES, IO, is_stopped, is_whole,
    LAYOUT, LAYOUT_JSON, layout, LAYOUTS, LONE, Machine, PATH_OF_10, PATIENCE, place_in, Ran, split, TRIANGLE, TWICE,
    TWO, wait_for, waiting_bytes)
from planarbend.layout.planar_code import HEADER, MOST_RECORDS


# ---- Files of all kinds, good and bad, one or several in a run.

MOST_FILES = 256


def check_files(machine: Machine) -> None:
    """One file in a run, also cut after each of its bytes."""
    address, zeros = machine.path(), machine.file(HEADER + EDGE + b"\0" + EDGE)
    spaced = machine.file(TWO, os.path.join(machine.folder, " a name\nwith\tspaces and lines "))
    unicode = machine.file(TWO, os.path.join(machine.folder, "größe-图").encode())
    long = machine.file(TWO, os.path.join(machine.folder, "n" * 255))
    no_utf8 = machine.file(TWO, os.path.join(machine.folder.encode(), b"\xff\xfe"))
    files: list[tuple[str, Any, File]] = [
        ("a socket", address, IO), ("/dev/null", "/dev/null", EMPTY), ("/dev/zero", "/dev/zero", EMPTY),
        ("an empty file", machine.file(b""), EMPTY), ("a header alone", machine.file(HEADER), File([])),
        ("a byte 0 for a record", zeros, File([EDGE], "large")),
        ("a list of 255", machine.file(HEADER + EDGE + b"\1" + 255 * b"\1"), File([EDGE], "oversize")),
        ("a name with spaces and lines", spaced, split(TWO)), ("a name in UTF-8", unicode, split(TWO)),
        ("a name of 255 bytes", long, split(TWO)),
        *((f"two.pc cut after byte {length}", machine.file(TWO[:length]), split(TWO[:length])) for length in range(len(TWO)))]
    with socket.socket(socket.AF_UNIX) as listening:
        listening.bind(address)
        for command in COMMANDS:
            for name, path, file in files:
                machine.whole(command, name, [path], [file])
    machine.whole(FRAMES, "the longest record", [machine.file(HEADER + BULKY)], [File([BULKY])])
    for command in COMMANDS:
        place = len(command.words) + 1
        machine.faulty(command, "a name that is no UTF-8", [*command.words, no_utf8], 2,
                       f"planarbend: argument {place} is not valid UTF-8, as the name of a file must be\n")


def check_several(machine: Machine) -> None:
    """Several files in one run."""
    lone, missing, two = machine.file(HEADER + LONE), machine.path(), machine.two
    for command in LAYOUTS:
        for name, paths, files in [("the same file twice", [two] * 2, [split(TWO)] * 2),
                                   (f"{MOST_FILES} files", [two] * MOST_FILES, [split(TWO)] * MOST_FILES),
                                   ("a missing file between others", [two, missing, lone], [split(TWO), IO, File([LONE])])]:
            machine.whole(command, name, paths, files)
        machine.faulty(command, f"{MOST_FILES + 1} files", [*command.words, *[two] * (MOST_FILES + 1)], 2,
                       f"planarbend: more than {MOST_FILES} files\n")


# ---- Files and pipes of more than a megabyte, with every value of a byte at the ends of the pieces in which they are
# read.

PIECE = 65_536  # bytes that one read asks for
GRAPHS = 45_000  # whose report leaves in more than 100 writes


def check_pieces(machine: Machine) -> None:
    """A long file, and a pipe that delivers pieces of all sizes."""
    text, records = bulky_text(270)
    machine.whole(FRAMES, "a file of 17 MB", [machine.file(text)], [File(records)])
    with machine.case(FRAMES, "a pipe of 1.3 MB in pieces"):
        in_pieces(machine, FRAMES, *bulky_text(20), 4_000)
    with machine.case(LAYOUT, "a pipe of graphs in pieces"):
        in_pieces(machine, LAYOUT, HEADER + EDGE * 2_000, [EDGE] * 2_000, 1_000)
    edges = machine.file(HEADER + EDGE * GRAPHS)
    for command in (LAYOUT, LAYOUT_JSON):
        machine.whole(command, f"{GRAPHS} graphs", [edges], [File([EDGE] * GRAPHS)])


def bulky_text(count: int) -> tuple[bytes, list[bytes]]:
    """This many of the longest records: each value from 1 to 255 occurs as an entry at the end of a piece."""
    text = bytearray(HEADER + BULKY * count)
    for piece, end in enumerate(range(PIECE, len(text), PIECE)):
        for place in [place for place in (end - 1, end) if text[place] == 1]:
            text[place] = piece % 255 + 1
    return bytes(text), [bytes(text[place:place + len(BULKY)]) for place in range(len(HEADER), len(text), len(BULKY))]


def in_pieces(machine: Machine, command: Command, text: bytes, records: list[bytes], pieces: int) -> None:
    """A run over a pipe that delivers a text in this many pieces, each after the previous one was read."""
    cuts = [0, *sorted(random.Random(1).sample(range(1, len(text)), pieces - 1)), len(text)]
    with machine.started([*command.words, "-"], stdin=subprocess.PIPE, stdout=subprocess.PIPE) as child:
        pipe = child.stdin.fileno()
        for begin, end in zip(cuts, cuts[1:]):
            for place in range(begin, end, PIECE // 2):
                os.write(pipe, text[place:min(place + PIECE // 2, end)])
                wait_for(lambda: not waiting_bytes(pipe) or child.poll() is not None, "a read")
        is_whole(command, machine.ended(child), [File(records)])


# ---- Pipes, slow files and standard input, by its path and by its name `-`.

PAUSE = 0.003  # seconds between two bytes of a slow file


def check_streams(machine: Machine) -> None:
    """Standard input by its path, pipes and slow files."""
    two = split(TWO)
    for command in COMMANDS:
        with open(machine.two, "rb") as file:
            machine.whole(command, "/dev/stdin, a file", ["/dev/stdin"], [two], stdin=file)
        machine.whole(command, "a closed standard input", [machine.two], [two], **closing(0))
        named_pipes(machine, command)
    with machine.case(FRAMES, "a pipe that never ends"):
        with machine.started(["frames", "/dev/stdin"], stdin=subprocess.PIPE) as child:
            threading.Thread(target=endless, args=(child.stdin,), daemon=True).start()
            out, status = child.stdout.read(), child.wait(PATIENCE)
        end = f"\nend many records={MOST_RECORDS}\n".encode()
        assert status == 3 and out.endswith(end), f"status {status}, {out[-80:]!r}"


def named_pipes(machine: Machine, command: Command) -> None:
    """FIFOs that are slow, end early, stop, or give nothing."""
    for name, text, pause, stop in [("byte by byte", TWO, PAUSE, False), ("cut in a record", TWO[:-3], 0, False),
                                    ("stopped and continued between bytes", TWO, PAUSE, True)]:
        with machine.case(command, f"a FIFO, {name}"):
            is_whole(command, slowly(machine, command, text, pause, stop), [split(text)])
    path = machine.fifo()
    threading.Thread(target=lambda: os.close(os.open(path, os.O_WRONLY)), daemon=True).start()
    machine.whole(command, "a FIFO that is opened and closed again", [path], [EMPTY])


def slowly(machine: Machine, command: Command, text: bytes, pause: float, stop: bool) -> Ran:
    """A run over a FIFO that delivers this text, with a pause after each byte, in which the run may be stopped."""
    path = machine.fifo()
    with both_ends(path) as writer, machine.started([*command.words, path]) as child:
        for byte in text:
            writer.write(bytes([byte]))
            time.sleep(pause)
            for which in (signal.SIGSTOP, signal.SIGCONT) if stop else ():
                child.send_signal(which)
        wait_for(lambda: not waiting_bytes(writer.fileno()) or child.poll() is not None, "the end of the FIFO")
        writer.close()
        return machine.ended(child)


def endless(pipe: Any) -> None:
    """Writes records until nobody reads them."""
    with contextlib.suppress(OSError):
        pipe.write(HEADER)
        while True:
            pipe.write(LONE * 30_000)


def check_input(machine: Machine) -> None:
    """Standard input by its name `-`."""
    two, one = split(TWO), File([LONE])
    machine.file(HEADER + LONE, os.path.join(machine.folder, "-"))
    before = machine.file(b"more" + TWO)
    for command in COMMANDS:
        input_is_a_pipe(machine, command)
        input_is_a_file(machine, command, before)
        with machine.case(command, "- byte by byte"):
            is_whole(command, machine.fed([*command.words, "-"], TWO, PAUSE), [two])
        machine.faulty(command, "- twice", [*command.words, "-", "--", "-"], 2, None if command.frames else TWICE, given=TWO)
    for command in LAYOUTS:
        others = [machine.two, "-", machine.two, "../-"]
        machine.whole(command, "- between files", others, [two, one, two, one], given=HEADER + LONE)
        machine.whole(command, "- is closed, between files", others, [two, IO, two, one], **closing(0))
    for command in (layout(2), layout(2, "--json")):
        with machine.case(command, "- is closed, and no file gets its number"):
            is_whole(command, beside_closed_input(machine, command), [two, two, IO])


def input_is_a_pipe(machine: Machine, command: Command) -> None:
    """Standard input that is a pipe or is empty; and a file that has its name."""
    for name in ("-", "/dev/stdin"):
        for text in (TWO, TWO[:-3], b""):
            machine.whole(command, f"{name} is a pipe of {len(text)} bytes", [name], [split(text)], given=text)
    machine.whole(command, "- behind --", ["--", "-"], [split(TWO)], given=TWO)
    machine.whole(command, "- is /dev/null", ["-"], [EMPTY])
    machine.whole(command, "a file of the name -", ["../-"], [File([LONE])], given=TWO)


def input_is_a_file(machine: Machine, command: Command, before: str) -> None:
    """Standard input that is a file, or one of which four bytes were read before."""
    for name, path, place in (("a file", machine.two, 0), ("a file, read before", before, 4)):
        with open(path, "rb", buffering=0) as file:
            file.seek(place)
            machine.whole(command, f"- is {name}", ["-"], [split(TWO)], stdin=file)


def beside_closed_input(machine: Machine, command: Command) -> Ran:
    """A run of two lanes over two FIFOs and `-`, while standard input is closed: a folder has its number. `-` is opened
    once a FIFO has ended."""
    paths = [machine.fifo(), machine.fifo()]
    with both_ends(paths[0]) as one, both_ends(paths[1]) as other, \
            machine.started([*command.words, *paths, "-"], **closing(0)) as child:
        wait_for(lambda: child.poll() is not None or all(place_in(child.pid, path) >= 0 for path in paths), "two files")
        first = os.path.realpath(f"/proc/{child.pid}/fd/0")
        assert first == "/", f"{first} has the number of standard input"
        for path, writer in zip(paths, (one, other)):
            writer.write(TWO)
            writer.close()
            wait_for(lambda: child.poll() is not None or place_in(child.pid, path) < 0, "the end of a file")
        return machine.ended(child)


# ---- Files that shrink and grow while they are read.

TRIES = 20  # to see a file while it is read
MORE = EDGE * 3

# Changes of a file of which this many bytes were read: to how many bytes it is cut, if at all, and what is added.
CHANGES: dict[str, tuple[Callable[[int], int | None], bytes]] = {
    "shrinks before it is read": (lambda place: place + 7, b""), "is emptied": (lambda place: 0, b""),
    "grows": (lambda place: None, MORE)}


def check_changes(machine: Machine) -> None:
    """Each change for each command, in a file that is long enough to be seen while it is read."""
    for command in COMMANDS:
        text = HEADER + (BULKY * 400 if command.frames else TRIANGLE * 25_000)
        for name, change in CHANGES.items():
            with machine.case(command, f"a file that {name} while it is read"):
                assert any(changed(machine, command, text, *change) for _ in range(TRIES)), "never seen in the middle"


def changed(machine: Machine, command: Command, text: bytes, cut: Callable[[int], int | None], more: bytes) -> bool:
    """Whether a file was seen in the middle, and changed, in a run over it."""
    path, place = machine.file(text), 0
    with machine.started([*command.words, path]) as child:
        while place <= 0 and child.poll() is None:
            place = place_in(child.pid, path)
        child.send_signal(signal.SIGSTOP)
        wait_for(lambda: child.poll() is not None or is_stopped(child.pid), "a stop")
        place = place_in(child.pid, path) if child.poll() is None else -1
        if is_seen := 0 < place < len(text) - len(BULKY):
            with open(path, "ab") as file:
                os.truncate(path, len(text) if (end := cut(place)) is None else end)
                file.write(more)
            text = text[:None if end is None else max(end, place)] + more  # all that can then be read
        child.send_signal(signal.SIGCONT)
        ran = machine.ended(child)
    os.remove(path)
    if is_seen:
        is_whole(command, ran, [split(text)])
    return is_seen


# ---- The lines on standard error that say why a file could not be read, or what it looks like, compared completely.

MISSING, FOLDER = "No such file or directory", "Is a directory"
CLOSED, FAILED = "Bad file descriptor", "Input/output error"


def check_reasons(machine: Machine) -> None:
    """Why a file could not be read, for one file and for several; and what a file looks like."""
    files = [(name, path, IO, reason) for name, path, reason in unreadable(machine)]
    files += [(name, machine.file(text), split(text), said) for name, text, said in misfits()]
    for command in COMMANDS:
        for name, path, file, reason in files:
            tells(machine, command, name, path, file, reason, **(AS_NOBODY if reason == "Permission denied" else {}))
        tells(machine, command, "- is closed", "-", IO, CLOSED, **closing(0))
        tells(machine, command, "/dev/stdin, closed", "/dev/stdin", IO, FOLDER, **closing(0))
        for name, path, how, reason in (("open for writing only", os.devnull, os.O_WRONLY, CLOSED),
                                        ("a folder", machine.room, os.O_RDONLY, FOLDER)):
            given = os.open(path, how)
            tells(machine, command, f"- is {name}", "-", IO, reason, stdin=given)
            os.close(given)
        master, terminal = pty.openpty()
        with os.fdopen(master, "rb", buffering=0) as given:  # reads of it fail after this text
            tty.setraw(terminal)
            os.write(terminal, TWO)
            os.close(terminal)
            tells(machine, command, "a read that fails in the middle", "-", File([EDGE, TRIANGLE], "io"), FAILED, stdin=given)
    missing = machine.path()
    paths, reasons = [missing, machine.two, machine.room, "-", missing], [MISSING, None, FOLDER, CLOSED, MISSING]
    said = "".join(f"planarbend: {path}: {why}\n" for path, why in zip(paths, reasons) if why)
    for command in LAYOUTS:  # a line for each file that could not be read, in order; a name may occur twice
        with machine.case(command, "what is said of several files"):
            ran = machine.ran([*command.words, *paths], **closing(0))
            is_whole(command, ran, [split(TWO) if why is None else IO for why in reasons], said)


def tells(machine: Machine, command: Command, name: str, path: str, file: File, reason: str | None, **how: Any) -> None:
    """One file, with this message about it, or none."""
    with machine.case(command, f"what is said of {name}"):
        said = f"planarbend: {path}: {reason}\n" if reason else ""
        is_whole(command, machine.ran([*command.words, path], **how), [file], said)


def unreadable(machine: Machine) -> list[tuple[str, str, str]]:
    """Files that cannot be opened or read, each with its name and the reason."""
    loop, forbidden = machine.path(), machine.file(TWO)
    os.symlink(loop, loop)
    os.chmod(forbidden, 0)
    return [("a missing file", machine.path(), MISSING), ("a folder", machine.room, FOLDER),
            ("a loop of links", loop, "Too many levels of symbolic links"),
            ("a file below a file", machine.two + "/a", "Not a directory"), ("no name", "", MISSING),
            ("a long name", "a" * 300, "File name too long"), ("a long path", "/a" * 3000, "File name too long"),
            ("a file without permission", forbidden, "Permission denied"),
            ("a read that fails at once", "/proc/self/mem", FAILED)]


def misfits() -> list[tuple[str, bytes, str | None]]:
    """Files that are not planar_code in the one-byte form, as other programs write them, with the message about each;
    and a file without a message."""
    two_bytes = "two-byte form: at most 255 vertices here"
    cases: list[tuple[str, bytes, str | None]] = [
        ("gzip", gzip.compress(TWO), "gzip-compressed: use zcat"),
        ("xz", lzma.compress(TWO), "xz-compressed: use xzcat"),
        ("bzip2", bz2.compress(TWO), "bzip2-compressed: use bzcat"),
        ("two bytes", HEADER + b"\0\1\x2c" + b"\0\2\0\0" * 300, two_bytes),
        *[(f"{order} endian", b">>planar_code " + order[:1].encode() + b"e<<" + EDGE, two_bytes)
          for order in ("little", "big")],
        ("edge_code", b">>edge_code<<\3\1\2\xff\1", "edge_code, not planar_code"),
        ("graph6", b"C~\nDhC\n", "graph6: use planarg -p"), ("sparse6", b":Cca\n", "sparse6: use planarg -p"),
        ("an empty file", b"", "empty file"), ("text", b"graph { a -- b }\n", "text, not planar_code"),
        ("a line end after the header", HEADER + b"\n" + TRIANGLE * 2, "a line end follows the header: remove it"),
        ("graphs of 10 vertices", HEADER + PATH_OF_10 * 3, None), ("a cut file", HEADER + PATH_OF_10[:-1], None)]
    if shutil.which("zstd"):
        packed = subprocess.run(["zstd", "-q", "-c"], input=TWO, stdout=subprocess.PIPE, check=True).stdout
        cases.append(("zstd", packed, "zstd-compressed: use zstdcat"))
    return cases
