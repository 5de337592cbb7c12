"""Reads and writes planar_code, one record at a time. Shared by split.py, svg.py and the scripts of bench/ and checks/. Needs
only Python's standard library."""
from __future__ import annotations

import io
import itertools
from array import array
from collections.abc import Iterable, Iterator
from typing import BinaryIO

HEADER = b">>planar_code<<"
MOST_VERTICES = 255  # of one record
MOST_NEIGHBOURS = 254  # of one neighbour list
MOST_WIDE = 1200  # vertices of a record with entries of 16 bits, which the library takes
MOST_RECORD = 1 + MOST_VERTICES * (MOST_NEIGHBOURS + 1)  # bytes of one record
MOST_RECORDS = 1_000_000  # of one file, as planarbend reads it
PIECE = 1 << 16  # bytes read at a time

Lists = list[list[int]]


class Unreadable(Exception):
    """The bytes are not planar_code up to their end: `ending` is the word of docs/FORMAT.md, `why` says what is wrong and
    where."""

    def __init__(self, ending: str, why: str) -> None:
        """Return the error of an ending."""
        super().__init__(f"{ending}: {why}")
        self.ending, self.why = ending, why


def records(source: BinaryIO) -> Iterator[bytes]:
    """Yield the bytes of each complete record of a stream, in order.

    Only one record and one piece of the stream are in memory at a time.

    Raises `Unreadable`: after the last complete record, if the stream does not end there. The ending is `header`, `truncated`,
    `large` or `oversize`.
    """
    if source.read(len(HEADER)) != HEADER:
        raise Unreadable("header", f"it does not begin with {HEADER.decode()}")
    held, start, offset, number = b"", 0, len(HEADER), 1
    while True:
        try:
            end = end_of_record(held, start)
        except Unreadable as fault:
            why = f"{fault.why}, in record {number}, which begins at byte {offset}"
            raise Unreadable(fault.ending, why) from None
        if end is not None:
            yield held[start:end]
            start, offset, number = end, offset + end - start, number + 1
            continue
        piece = source.read(PIECE)
        held, start = held[start:] + piece, 0
        if not piece:
            break
    if held:
        raise Unreadable("truncated", f"record {number}, which begins at byte {offset}, is truncated")


def split(text: bytes) -> tuple[list[bytes], str]:
    """Return the records and the ending of the bytes of a whole file, as defined in docs/FORMAT.md."""
    found: list[bytes] = []
    try:
        for record in records(io.BytesIO(text)):
            if len(found) == MOST_RECORDS:
                return found, "many"
            found.append(record)
    except Unreadable as fault:
        return found, "many" if len(found) == MOST_RECORDS else fault.ending
    return found, "complete"


def end_of_record(held: bytes, start: int) -> int | None:
    """Return where the record that begins at `start` ends, or None if it continues after `held`."""
    if start == len(held):
        return None
    if held[start] == 0:
        raise Unreadable("large", "byte 0 where a number of vertices is expected (two-byte form, or a damaged file)")
    end = start + 1
    for _ in range(held[start]):
        zero = held.find(0, end, end + MOST_NEIGHBOURS + 1)
        if zero < 0:
            if len(held) - end > MOST_NEIGHBOURS:
                raise Unreadable("oversize", f"a list of more than {MOST_NEIGHBOURS} neighbours")
            return None
        end = zero + 1
    return end


def lists_of(record: bytes) -> Lists:
    """Return the neighbour lists of a record: for each vertex its neighbours in clockwise order, numbered from 1."""
    return [list(neighbours) for neighbours in record[1:-1].split(b"\0")]


def record_of(lists: Iterable[Iterable[int]]) -> bytes:
    """Return the record with these neighbour lists."""
    ended = [bytes(neighbours) + b"\0" for neighbours in lists]
    return bytes([len(ended)]) + b"".join(ended)


def wide_record_of(lists: Iterable[Iterable[int]]) -> array[int]:
    """Return the record with these neighbour lists in entries of 16 bits, which the library takes for large graphs."""
    ended = [[*neighbours, 0] for neighbours in lists]
    return array("H", [len(ended), *itertools.chain.from_iterable(ended)])
