"""Lays out a stream of planar_code of any length, and writes one report with consecutive numbers."""
from __future__ import annotations

import argparse
import functools
import io
import os
import re
import subprocess
import sys
import threading
from typing import IO

from planarbend.layout.planar_code import HEADER, MOST_NEIGHBOURS, MOST_RECORD, MOST_RECORDS
from planarbend.programs import NoProgram, program

TEXT = """\
  geng -c -D4 12 | planarg -p | python3 examples/stream.py
  geng -c -D4 12 | planarg -p | python3 examples/stream.py --json --outer best

planarbend reads at most a million graphs of a file. This script cuts standard input into parts of K graphs
while it runs, passes each part to a run of `planarbend layout -` with the given options, and joins their output
into one report, or JSON Lines, for one file: graph numbers continue from part to part, and the single last line
gives the ending of the whole stream. Memory does not grow with the stream.

Needs only Python's standard library.
"""
STATUSES = """\
exit status, as that of planarbend: 0 if the stream is complete and every graph is answered, 3 if not; 1 after an
error, which is printed on standard error; 2 if the command line is wrong
"""
PIECE = 1 << 20  # bytes read at a time
NUMBER = {False: re.compile(rb"^graph (\d+)"), True: re.compile(rb'"graph":(\d+)')}
END = {False: re.compile(rb"^end (\w+) graphs=(\d+)\n$"),
       True: re.compile(rb'^\{"end":"(\w+)","file":1,"graphs":(\d+)\}\n$')}
END_LINE = {False: "end {} graphs={}\n", True: '{{"end":"{}","file":1,"graphs":{}}}\n'}
FIRST_LINE = {False: b"file 1\n", True: b""}


class Fault(Exception):
    """An error that ends the whole run, and its exit status."""

    def __init__(self, status: int) -> None:
        """Return the error with this status."""
        super().__init__()
        self.status = status


@functools.cache
def record_of_order(vertices: int) -> re.Pattern[bytes]:
    """Return the pattern of a complete record with this many vertices."""
    return re.compile(b"%s(?:[^\\0]{0,%d}\\0){%d}" % (re.escape(bytes([vertices])), MOST_NEIGHBOURS, vertices))


class Stream:
    """Standard input after its header, cut into parts of complete records."""

    def __init__(self, source: io.BufferedReader) -> None:
        """Return the stream of a source of which the header was read."""
        self.source, self.held = source, b""
        self.is_over = False  # whether the source has ended
        self.is_noise = False  # whether `held` begins with no record: the rest is passed on as it is, and reported

    def read_on(self) -> None:
        """Read the next piece of the source."""
        piece = self.source.read1(PIECE)
        self.held += piece
        self.is_over = not piece

    def has_more(self) -> bool:
        """Return whether there is a record, or anything else, to pass on."""
        while not self.held and not self.is_over:
            self.read_on()
        return bool(self.held)

    def whole(self, most: int) -> tuple[bytes, int]:
        """Return the complete records that are held, at most `most` of them, and their number."""
        start = count = 0
        while count < most and start < len(self.held):
            vertices = self.held[start]
            match = record_of_order(vertices).match(self.held, start) if vertices else None
            if match is None:
                self.is_noise = not vertices or len(self.held) - start >= MOST_RECORD
                break
            start, count = match.end(), count + 1
        records, self.held = self.held[:start], self.held[start:]
        return records, count

    def feed(self, sink: IO[bytes], most: int) -> None:
        """Write the next part, of at most `most` records."""
        while most > 0 and self.has_more():
            records, count = self.whole(most)
            most -= count
            sink.write(records)
            if self.is_noise or self.is_over:
                break
            if not count:
                self.read_on()
        if most > 0:  # an incomplete record goes to a run that can take one more, which reports it
            sink.write(self.held)
            self.held = b""
            while self.is_noise and not self.is_over:
                self.read_on()
                sink.write(self.held)
                self.held = b""


class Report:
    """The joined report: the lines of each part in turn, with consecutive numbers."""

    def __init__(self, sink: IO[bytes], is_json: bool) -> None:
        """Return a report before its first line."""
        self.sink, self.is_json = sink, is_json
        self.graphs = 0  # in the parts that have ended
        self.ending = ""  # of the last part

    def add(self, lines: IO[bytes]) -> None:
        """Write the lines of a part, except its first and its last."""
        number, base = NUMBER[self.is_json], self.graphs
        for line in lines:
            if line == FIRST_LINE[self.is_json]:
                continue
            if match := END[self.is_json].match(line):
                self.ending, self.graphs = match[1].decode(), base + int(match[2])
                continue
            if base and (match := number.search(line)):
                line = line[:match.start(1)] + b"%d" % (base + int(match[1])) + line[match.end(1):]
            self.sink.write(line)
        self.sink.flush()

    def end(self) -> None:
        """Write the last line."""
        self.sink.write(END_LINE[self.is_json].format(self.ending, self.graphs).encode())
        self.sink.flush()


def run_part(words: list[str], stream: Stream, report: Report, most: int) -> int:
    """Return the exit status of a run of the program on the next part."""
    report.ending = ""
    with subprocess.Popen(words, stdin=subprocess.PIPE, stdout=subprocess.PIPE) as child:
        adder = threading.Thread(target=lines_of, args=(report, child))
        adder.start()
        try:
            assert child.stdin is not None
            with child.stdin as sink:
                sink.write(HEADER)
                stream.feed(sink, most)
        except BrokenPipeError:
            pass  # the program, or the reader of the report, has ended
        adder.join()
    if not report.ending:
        raise Fault(max(child.returncode, 0) or 1)
    return child.returncode


def lines_of(report: Report, child: subprocess.Popen[bytes]) -> None:
    """Add the lines that a run prints to the report."""
    try:
        assert child.stdout is not None
        report.add(child.stdout)
    except BrokenPipeError:
        report.ending = ""
        child.kill()


def run_all(words: list[str], report: Report, most: int) -> int:
    """Return the greatest exit status of runs of the program on each part."""
    source = sys.stdin.buffer
    assert isinstance(source, io.BufferedReader)
    beginning = source.read(len(HEADER))
    if beginning != HEADER:
        return run_whole(words, beginning, source)
    stream, status = Stream(source), 0
    report.sink.write(FIRST_LINE[report.is_json])
    while True:
        status = max(status, run_part(words, stream, report, most))
        if report.ending != "complete" or not stream.has_more():
            break
    report.end()
    return status


def run_whole(words: list[str], beginning: bytes, source: IO[bytes]) -> int:
    """Return the exit status of a run on a stream that is not planar_code, which the program reports."""
    with subprocess.Popen(words, stdin=subprocess.PIPE) as child:
        assert child.stdin is not None
        try:
            child.stdin.write(beginning)
            child.stdin.close()
        except BrokenPipeError:
            pass
    return child.returncode


def positive(word: str) -> int:
    """Return a whole number from 1 to the most graphs that planarbend reads of a file."""
    if not word.isdecimal() or not 1 <= int(word) <= MOST_RECORDS:
        raise argparse.ArgumentTypeError(f"K must be 1 to {MOST_RECORDS:,}")
    return int(word)


def main() -> int:
    """Return the exit status of the command."""
    parser = argparse.ArgumentParser(description=__doc__ + "\n\n" + TEXT, epilog=STATUSES,
                                     formatter_class=argparse.RawDescriptionHelpFormatter)
    parser.add_argument("--json", action="store_true", help="write JSON Lines instead of the report")
    parser.add_argument("--outer", choices=["first", "best"], default="first",
                        help="the outer face: longest boundary (first, the default) or fewest bends (best)")
    parser.add_argument("-k", "--records", metavar="K", type=positive, default=MOST_RECORDS,
                        help=f"number of graphs in a part (default {MOST_RECORDS})")
    words = parser.parse_args()
    options = ["--outer", words.outer] + (["--json"] if words.json else [])
    try:
        return run_all([program(), "layout", *options, "-"], Report(sys.stdout.buffer, words.json), words.records)
    except NoProgram as fault:
        print(f"stream.py: {fault}", file=sys.stderr)
        return 1
    except Fault as fault:
        return fault.status


def run() -> int:
    """Return the exit status of the command, also if the output is closed or the user interrupts it."""
    try:
        status = main()
    except BrokenPipeError:
        status = 1
    except KeyboardInterrupt:
        status = 130
    os.dup2(os.open(os.devnull, os.O_WRONLY), sys.stdout.fileno())
    return status
