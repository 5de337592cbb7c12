"""Shared by the scripts of this folder: paths, lines on standard error, queries of the machine, signals and locks."""
import contextlib
import fcntl
import os
import re
import shutil
import signal
import sys
from typing import NoReturn

START = os.path.dirname(os.path.abspath(__file__))
ROOT = os.path.dirname(os.path.dirname(START))
CRATE = os.path.join(ROOT, "crates", "planarbend")
PROGRAM = os.path.join(ROOT, "out", "planarbend")  # of --build or --test; `rt ci` leaves the folder out/ alone

BUILD_MINUTES = 37  # from nothing, on 4 free cores


def write_error(text: bytes) -> None:
    """Writes bytes to standard error, and ignores errors."""
    with contextlib.suppress(OSError):
        while text:
            text = text[os.write(2, text):]


def say(*lines: str) -> None:
    for line in lines:
        write_error(os.fsencode(f"planarbend: {line}\n"))


def stop(*lines: str, status: int = 1) -> NoReturn:
    """Prints these lines and exits with this status."""
    say(*lines)
    sys.exit(status)


def free_memory():
    """MB of available memory."""
    with open("/proc/meminfo", encoding="ascii") as file:
        return int(re.search(r"^MemAvailable: *(\d+)", file.read(), re.M)[1]) // 1000


def look_at_machine(what, memory, disk, folder):
    """Exits if there is less memory, or less disk space in this folder, than this needs, both in MB."""
    if free_memory() < memory:
        stop(f"{what} needs {memory} MB of free memory, and {free_memory()} MB are free",
             "end other programs, or build on another machine and copy out/planarbend")
    free = shutil.disk_usage(folder).free // 1000000
    if free < disk:
        stop(f"{what} needs {disk} MB of disk space in {folder}, and {free} MB are free", "free some space there")


SIGNALS = (signal.SIGINT, signal.SIGTERM, signal.SIGHUP)  # that end a program


def end_on_signals() -> None:
    """Makes these signals raise SystemExit, so that processes are ended and temporary files removed."""
    for number in SIGNALS:
        signal.signal(number, lambda number, _: sys.exit(128 + number))


def ignore_signals():
    for number in SIGNALS:
        signal.signal(number, signal.SIG_IGN)


@contextlib.contextmanager
def locked(path, other):
    """Locks a folder, and yields its descriptor; says so if it waits for another process, unless the file system has no
    locks."""
    folder = os.open(path, os.O_RDONLY)
    try:
        with contextlib.suppress(OSError):
            try:
                fcntl.flock(folder, fcntl.LOCK_EX | fcntl.LOCK_NB)
            except BlockingIOError:
                say(f"waiting for another {other} in this checkout")
                fcntl.flock(folder, fcntl.LOCK_EX)
        yield folder
    finally:
        os.close(folder)


def alone():
    """Waits for other builds, tests and installations in this checkout, and keeps later ones waiting."""
    return locked(ROOT, "--build, --test or --install")


def replace_text(path, text):
    """Writes a file that is whole at any time."""
    with open(f"{path}.new", "w", encoding="utf-8") as out:
        out.write(text)
    os.replace(f"{path}.new", path)


def end(process):
    """Ends a process that may still run, and waits for it."""
    ignore_signals()
    process.terminate()
    process.wait()
