"""Cuts a planar_code file into parts, so that several machines can share them."""
from __future__ import annotations

import argparse
import os
import sys
from typing import BinaryIO

from planarbend.layout.planar_code import HEADER, Unreadable, records

TEXT = """\
Reads FILE once from beginning to end, one record at a time, and writes FOLDER/NAME-0001.pc, FOLDER/NAME-0002.pc
and so on, each with at most K records, in the order of the file. If the file is not planar_code up to its end (it lacks
the header, a record is truncated, or its bytes are not a record), standard error says where. The parts then have all
complete records before that place, and nothing after it.

Needs only Python's standard library. A million graphs of 8 vertices (31 MB) take about ten seconds.

A part appears under its name only when it is complete. It replaces a file of the same name. Older parts with
higher numbers are not deleted, so use an empty folder.
"""
STATUSES = """\
exit status: 0 if the whole file was cut; 3 if it was cut up to an error in it, which standard error names; 1 if a
file cannot be read or written; 2 if the command line is wrong
"""


class Parts:
    """The parts of a file, written one after another."""

    def __init__(self, folder: str, name: str, most: int) -> None:
        """Return the parts of a file of this name, each with at most so many records."""
        self.stem, self.most = os.path.join(folder, name), most
        self.count = 0  # parts begun
        self.held = 0  # records in the open part
        self.part: BinaryIO | None = None

    def add(self, record: bytes) -> None:
        """Write one record to the open part, or to a new one if that is full."""
        if self.part is None or self.held == self.most:
            self.close()
            self.count, self.held = self.count + 1, 0
            self.part = open(self.path() + ".part", "wb")
            self.part.write(HEADER)
        self.part.write(record)
        self.held += 1

    def close(self) -> None:
        """Close the open part and give it its name."""
        if self.part is not None:
            self.part.close()
            os.replace(self.path() + ".part", self.path())
            self.part = None

    def path(self) -> str:
        """Return the path of the part that is open."""
        return f"{self.stem}-{self.count:04}.pc"


def positive(word: str) -> int:
    """Return a whole number of at least 1."""
    number = int(word)
    if number < 1:
        raise argparse.ArgumentTypeError("K must be at least 1")
    return number


def split(source: BinaryIO, parts: Parts) -> tuple[int, Unreadable | None]:
    """Return how many records a stream, cut into parts, has, and the error that ended it, if any."""
    total, fault = 0, None
    try:
        for record in records(source):
            parts.add(record)
            total += 1
    except Unreadable as found:
        fault = found
    parts.close()
    return total, fault


def main() -> int:
    """Return the exit status of the command."""
    parser = argparse.ArgumentParser(description=__doc__ + "\n\n" + TEXT, epilog=STATUSES,
                                     formatter_class=argparse.RawDescriptionHelpFormatter)
    parser.add_argument("file", metavar="FILE", help="the planar_code file, or - for standard input")
    parser.add_argument("folder", metavar="FOLDER", help="the folder for the parts; created if it does not exist")
    parser.add_argument("-k", "--records", metavar="K", type=positive, default=10_000,
                        help="the most records in a part (default 10000)")
    words = parser.parse_args()
    name = "stdin" if words.file == "-" else os.path.basename(words.file).removesuffix(".pc")
    try:
        os.makedirs(words.folder, exist_ok=True)
        parts = Parts(words.folder, name, words.records)
        with sys.stdin.buffer if words.file == "-" else open(words.file, "rb") as source:
            total, fault = split(source, parts)
    except OSError as error:
        print(f"split.py: {error.filename or words.file}: {error.strerror}", file=sys.stderr)
        return 1
    print(f"{words.file}: {total} records in {parts.count} parts")
    if fault:
        print(f"split.py: {words.file}: {fault}", file=sys.stderr)
        return 3
    return 0
