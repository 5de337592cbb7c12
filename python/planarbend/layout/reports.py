"""Reads what planarbend prints, line by line: reports of `layout` and of `frames`, and JSON Lines. Shared by collect.py,
svg.py and the scripts of bench/ and checks/. Needs only Python's standard library."""
from __future__ import annotations

import json
import re
from typing import Any, NamedTuple

FILE = re.compile(r"file (\d+)")
RECORD = re.compile(r"record (\d+) n=(\d+) bytes=(\d+)")
GRAPH = re.compile(r"graph (\d+) (?:ok n=(\d+) m=(\d+) f=(\d+) bends=(\d+)(?: drawn=(?:(yes)|no cause=(\w+)))?"
                   r"|refused (\w+)|memory)")
END = re.compile(r"end (\w+) (graphs|records)=(\d+)")

OK_KEYS = ["angles", "bends", "drawn", "f", "file", "graph", "m", "n", "points", "prices", "status", "turns"]
REFUSED_KEYS = ["file", "graph", "rule", "status"]
MEMORY_KEYS = ["file", "graph", "status"]
END_KEYS = ["end", "file", "graphs"]
KEYS = {"ok": OK_KEYS, "refused": REFUSED_KEYS, "memory": MEMORY_KEYS, None: END_KEYS}


class NoLine(ValueError):
    """A line that planarbend does not print."""


class File(NamedTuple):
    """The first line of a file."""

    number: int

    def __str__(self) -> str:
        """Return the line, without its end."""
        return f"file {self.number}"


class Record(NamedTuple):
    """The line of `frames` for a record."""

    number: int
    vertices: int
    size: int

    def __str__(self) -> str:
        """Return the line, without its end."""
        return f"record {self.number} n={self.vertices} bytes={self.size}"


class Graph(NamedTuple):
    """The line of one graph: its size and fewest bends, the rule that it breaks, or neither if memory ran out."""

    number: int
    size: tuple[int, int, int] | None = None  # vertices, edges, faces
    bends: int | None = None
    drawn: str | None = None  # yes, or why it is not drawn
    rule: str | None = None

    def __str__(self) -> str:
        """Return the line, without its end and without `drawn` if that is not known."""
        if self.rule is not None or self.size is None:
            return f"graph {self.number} " + ("memory" if self.rule is None else f"refused {self.rule}")
        drawn = {None: "", "yes": " drawn=yes"}.get(self.drawn, f" drawn=no cause={self.drawn}")
        return f"graph {self.number} " + "ok n={} m={} f={}".format(*self.size) + f" bends={self.bends}{drawn}"


class End(NamedTuple):
    """The last line of a file: its ending, and its number of graphs or records."""

    ending: str
    count: int  # type: ignore[assignment]  # tuples have a method of this name
    of: str = "graphs"

    def __str__(self) -> str:
        """Return the line, without its end."""
        return f"end {self.ending} {self.of}={self.count}"


Line = File | Record | Graph | End


def line_of(text: str) -> Line:
    """Return the entry in a line of a report, given without its line end, or raise `NoLine`."""
    if match := RECORD.fullmatch(text):
        return Record(*map(int, match.groups()))
    if match := FILE.fullmatch(text):
        return File(int(match[1]))
    if match := END.fullmatch(text):
        return End(match[1], int(match[3]), match[2])
    graph = figures_of(text)
    if graph.size is not None and graph.drawn is None:
        raise NoLine(f"a line without `drawn`: {text[:80]!r}")
    return graph


def figures_of(text: str) -> Graph:
    """Return the entry in the line of a graph. The line may end after the bends, as other programs print it."""
    match = GRAPH.fullmatch(text)
    if match is None:
        raise NoLine(f"not a line of a report: {text[:80]!r}")
    number, vertices, edges, faces, bends, yes, cause, rule = match.groups()
    if vertices is None:
        return Graph(int(number), rule=rule)
    return Graph(int(number), (int(vertices), int(edges), int(faces)), int(bends), yes or cause)


def json_line(text: str) -> dict[str, Any]:
    """Return the object of a JSON line, or raise `NoLine` if it does not have the keys of such a line, in order."""
    try:
        line: dict[str, Any] = json.loads(text)
        status = line.get("status")
        if list(line) != KEYS.get(status) or not isinstance(line["file"], int):
            raise ValueError
    except (ValueError, AttributeError, TypeError):
        raise NoLine(f"not a JSON line of planarbend: {text[:80]!r}") from None
    return line


def of_json(line: dict[str, Any]) -> Graph | End:
    """Return the entry in the object of a JSON line, as for a line of the report."""
    if "end" in line:
        return End(line["end"], int(line["graphs"]))
    if line["status"] == "ok":
        return Graph(int(line["graph"]), (line["n"], line["m"], line["f"]), line["bends"], line["drawn"])
    return Graph(int(line["graph"]), rule=line.get("rule"))
