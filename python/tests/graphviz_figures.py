#!/usr/bin/env python3
"""Draws the graphs of real_graphs.py by Graphviz, `dot -Gsplines=ortho`, and counts bends, crossings of edges and pairs of edges
that share a part of a line, from the splines that dot writes. The boxes have names only, as those that OGDF had."""
from __future__ import annotations

import csv
import itertools
import json
import math
import subprocess
import sys
import tempfile
from pathlib import Path
from typing import NamedTuple

sys.dont_write_bytecode = True
import real_graphs
from planarbend.readers import read

SAME = 0.5  # points: places of dot nearer than this are one

Point = tuple[float, float]


class Figures(NamedTuple):
    """What was counted in a drawing."""

    crossings: int
    bends: int
    shared: int  # pairs of edges
    seconds: float  # of CPU time


def drawn(name: str, folder: Path) -> Figures:
    """The figures of dot's drawing of a graph."""
    source = real_graphs.input_of(name, folder, is_whole=False)
    graph = read(source.read_bytes(), source.name)
    nodes = "".join(f"{number} [label={json.dumps(vertex.name)}];" for number, vertex in enumerate(graph.vertices))
    edges = "".join(f"{edge.tail} -> {edge.head};" for edge in graph.edges)
    used = real_graphs.processor()
    ran = subprocess.run(["dot", "-Gsplines=ortho", "-Nshape=box", "-Tjson0"], input=f"digraph {{ {nodes} {edges} }}",
                         capture_output=True, text=True, check=True)
    seconds = real_graphs.processor() - used
    paths = [path_of(edge["pos"]) for edge in json.loads(ran.stdout).get("edges", [])]
    pairs = list(itertools.combinations(([*zip(path, path[1:])] for path in paths), 2))
    crossings = sum(cross(*lines) for pair in pairs for lines in itertools.product(*pair))
    shared = sum(any(overlap(*lines) for lines in itertools.product(*pair)) for pair in pairs)
    return Figures(crossings, sum(len(path) - 2 for path in paths), shared, seconds)


def path_of(pos: str) -> list[Point]:
    """The points of a spline where it begins, turns and ends."""
    path: list[Point] = []
    for word in pos.split():
        if word[0] in "es":  # the tip of an arrow
            continue
        x, y = map(float, word.split(","))
        if path and math.dist(path[-1], (x, y)) < SAME:
            continue
        if len(path) > 1 and any(abs(path[-2][axis] - path[-1][axis]) < SAME > abs(path[-1][axis] - (x, y)[axis]) for axis in (0, 1)):
            path.pop()
        path.append((x, y))
    return path


def is_flat(line: tuple[Point, Point]) -> bool:
    """Whether a line runs from left to right."""
    return abs(line[0][1] - line[1][1]) < SAME


def span(line: tuple[Point, Point], axis: int) -> Point:
    """Where a line begins and ends along an axis."""
    return min(line[0][axis], line[1][axis]), max(line[0][axis], line[1][axis])


def cross(first: tuple[Point, Point], second: tuple[Point, Point]) -> bool:
    """Whether two lines cross inside both."""
    if is_flat(first) == is_flat(second):
        return False
    flat, upright = (first, second) if is_flat(first) else (second, first)
    (left, right), (bottom, top) = span(flat, 0), span(upright, 1)
    return left + SAME < upright[0][0] < right - SAME and bottom + SAME < flat[0][1] < top - SAME


def overlap(first: tuple[Point, Point], second: tuple[Point, Point]) -> bool:
    """Whether two lines share more than a point."""
    if is_flat(first) != is_flat(second):
        return False
    along = 0 if is_flat(first) else 1
    (begin, end), (start, stop) = span(first, along), span(second, along)
    return abs(first[0][1 - along] - second[0][1 - along]) < SAME and min(end, stop) - max(begin, start) > 1


def main() -> int:
    """Prints a line for each graph, and the sums without the largest."""
    with open(real_graphs.TABLE, encoding="utf-8", newline="") as source:
        names = [row["graph"] for row in csv.DictReader(source) if row["graph"] != real_graphs.BIG]
    whole: list[Figures] = []
    with tempfile.TemporaryDirectory() as folder:
        print("graph                 crossings bends shared seconds")
        for name in names:
            whole.append(drawn(name, Path(folder)))
            print("{:<22}{:>9}{:>6}{:>7}{:>8.2f}".format(name, *whole[-1]), flush=True)
    print("{:<22}{:>9}{:>6}{:>7}{:>8.2f}".format(f"{len(names)} graphs", *map(sum, zip(*whole))))
    return 0


if __name__ == "__main__":
    sys.exit(main())
