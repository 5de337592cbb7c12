"""Collects the reports of all parts of a batch into one table: graphs by vertices, edges and fewest bends,
and refused graphs by rule."""
from __future__ import annotations

import argparse
import collections
import dataclasses
import math
import os
import re
import sys
from collections.abc import Iterable, Iterator

from planarbend.drawing.texts import svg_text
from planarbend.layout.reports import End, File, Graph, NoLine, Record, json_line, line_of, of_json

TEXT = """\
A part is a report of planarbend layout, or its JSON Lines (.jsonl). For a folder, all parts in it are read. A table
is written only if all parts exist and are complete. No table is written

  if a report is truncated, or has a file that does not end complete, a line that is not a report line, or a graph
  for which memory ran out;
  if a part is missing: reports named NAME-part-RES-of-MOD must have all RES from 0 to MOD - 1, and with
  --of FOLDER each FILE.pc of that folder must have a report named FILE;
  if a part is given twice.

Needs only Python's standard library, and takes about twenty seconds for a million graphs.
"""
STATUSES = """\
exit status: 0; 1 if no table is written (standard error says why); 2 if the command line is wrong
"""
SUFFIXES = (".report", ".jsonl")
PART = re.compile(r"(.*)-part-(\d+)-of-(\d+)")


class Incomplete(Exception):
    """A part is missing, given twice or incomplete, so there is no table; the message says which."""


@dataclasses.dataclass
class Table:
    """Graphs by (vertices, edges, fewest bends), refused graphs by rule, and graphs that are not drawn by cause."""
    laid: collections.Counter[tuple[int, int, int]] = dataclasses.field(default_factory=collections.Counter)
    refused: collections.Counter[str] = dataclasses.field(default_factory=collections.Counter)
    not_drawn: collections.Counter[str] = dataclasses.field(default_factory=collections.Counter)

    def add(self, graph: Graph) -> None:
        """Count a graph."""
        if graph.rule is not None:
            self.refused[graph.rule] += 1
        elif graph.size is not None and graph.bends is not None:
            self.laid[graph.size[0], graph.size[1], graph.bends] += 1
            if graph.drawn is not None and graph.drawn != "yes":
                self.not_drawn[graph.drawn] += 1


def entry_of(text: str) -> File | Graph | End:
    """Return the entry in a line of a report of `layout` or of JSON Lines, given with its line end."""
    if not text.endswith("\n"):
        raise NoLine("a truncated line")
    if text[0] == "{":
        return of_json(json_line(text))
    entry = line_of(text[:-1])
    if isinstance(entry, Record) or isinstance(entry, End) and entry.of != "graphs":
        raise NoLine("a line of `frames`")
    return entry


def graphs_of(path: str) -> Iterator[Graph]:
    """Yield the graphs of a part; raise `Incomplete` if it is no complete report, or one of its files does not end complete."""
    count, ended, place = 0, None, 0
    with open(path, encoding="utf-8", errors="replace") as lines:
        for place, text in enumerate(lines, 1):
            try:
                entry = entry_of(text)
            except NoLine:
                raise Incomplete(f"{path}, line {place}: not a line of a report, or truncated") from None
            if isinstance(entry, End):
                if entry.ending != "complete":
                    raise Incomplete(f"{path}, line {place}: the file ends {entry.ending}, not complete")
                if entry.count != count:
                    raise Incomplete(f"{path}, line {place}: {count} graphs precede it, not {entry.count}")
                count, ended = 0, True
                continue
            ended = False
            if isinstance(entry, File):
                if count:
                    raise Incomplete(f"{path}, line {place}: the previous file has no 'end complete'")
                continue
            count += 1
            if entry.number != count:
                raise Incomplete(f"{path}, line {place}: graph {entry.number} where graph {count} is expected")
            if entry.size is None and entry.rule is None:
                raise Incomplete(f"{path}, line {place}: memory ran out for graph {entry.number}")
            yield entry
    if not ended:
        raise Incomplete(f"{path}: no 'end complete' after line {place}")


def paths_of(words: Iterable[str]) -> list[str]:
    """Return the paths of the parts; a folder stands for all parts in it."""
    paths = []
    for word in words:
        if not os.path.isdir(word):
            paths.append(word)
            continue
        inside = sorted(name for name in os.listdir(word) if name.endswith(SUFFIXES) and name[0] != ".")
        if not inside:
            raise Incomplete(f"{word}: the folder has no parts")
        paths += [os.path.join(word, name) for name in inside]
    return paths


def stem_of(path: str) -> str:
    """Return the name of a part, without its folder and suffix."""
    name = os.path.basename(path)
    for suffix in SUFFIXES:
        name = name.removesuffix(suffix)
    return name


def check_missing(paths: list[str], folder: str | None) -> None:
    """Check that each part is given once, or raise `Incomplete` if one is missing or given twice."""
    stems = collections.Counter(map(stem_of, paths))
    for stem, count in stems.items():
        if count > 1:
            raise Incomplete(f"{stem} is given {count} times")
    parts = collections.defaultdict(list)
    for match in filter(None, map(PART.fullmatch, stems)):
        parts[match[1], int(match[3])].append(int(match[2]))
    for (name, modulus), found in parts.items():
        if twice := sorted(part for part, count in collections.Counter(found).items() if count > 1):
            raise Incomplete(f"{name}: part {twice[0]} of {modulus} is given twice")
        if missing := sorted(set(range(modulus)) - set(found)):
            raise Incomplete(f"{name}: of {modulus} parts, these are missing: {', '.join(map(str, missing))}")
    if folder is not None:
        wanted = {name.removesuffix(".pc") for name in os.listdir(folder) if name.endswith(".pc")}
        if without := sorted(wanted - set(stems)):
            raise Incomplete(f"{folder}: these files have no report: {', '.join(without)}")


def collect(words: Iterable[str], folder: str | None = None) -> Table:
    """Return the table of all these parts, or raise `Incomplete` if one is missing or incomplete."""
    paths = paths_of(words)
    check_missing(paths, folder)
    table = Table()
    for path in paths:
        for graph in graphs_of(path):
            table.add(graph)
    return table


ALL = "**all**"  # instead of a number of edges


def rows_of(table: Table) -> Iterator[tuple[str, str, dict[int, int]]]:
    """Yield for each number of vertices, a row for each number of edges, and one for all edges."""
    rows: dict[int, dict[int, dict[int, int]]] = collections.defaultdict(lambda: collections.defaultdict(dict))
    for (vertices, edges, bends), count in table.laid.items():
        rows[vertices][edges][bends] = count
    for vertices, by_edges in sorted(rows.items()):
        total: collections.Counter[int] = collections.Counter()
        for edges, by_bends in sorted(by_edges.items()):
            total.update(by_bends)
            yield str(vertices), str(edges), by_bends
        yield f"**{vertices}**", ALL, total


def text_of(table: Table, short: bool = False) -> str:
    """Return the table in Markdown; a short one has only the rows for all edges."""
    bends = range(max((bends for _, _, bends in table.laid), default=0) + 1)
    lines = ["| Vertices | Edges | " + " | ".join(map(str, bends)) + " | Graphs |",
             "|" + "---:|" * (len(bends) + 3)]
    for vertices, edges, counts in rows_of(table):
        if short and edges != ALL:
            continue
        cells = [vertices, edges, *(str(counts.get(number, "")) for number in bends), str(sum(counts.values()))]
        lines.append("| " + " | ".join(cells) + " |")
    lines += ["", f"{table.laid.total()} graphs by vertices, edges and fewest bends"
              + "".join(f", {count} not drawn ({cause})" for cause, count in sorted(table.not_drawn.items()))
              + f"; {table.refused.total()} refused"
              + "".join(f", {count} by {rule}" for rule, count in sorted(table.refused.items())) + "."]
    return "\n".join(lines) + "\n"


COLOURS = ["#4477aa", "#ee6677", "#228833", "#ccbb44", "#66ccee", "#aa3377", "#555555", "#ee7733", "#009988"]
WIDTH, HEIGHT = 760, 460  # of the plot, in pixels
LEFT, RIGHT, TOP, BOTTOM = 80, 150, 40, 60  # its margins
ROW, DASH = 20, 20  # pixels from one entry of the legend to the next, and the length of its line
POINT = 4  # pixels, the radius of a point
TEXT_SIZE = 12  # pixels


@dataclasses.dataclass
class Frame:
    """Positions of numbers of bends and of graphs in the plot; the axis of graphs is logarithmic."""
    most_bends: int
    decades: int

    def across(self, bends: int) -> float:
        """Return the x coordinate of a number of bends."""
        return round(LEFT + (WIDTH - LEFT - RIGHT) * bends / self.most_bends, 1)

    def up(self, graphs: int) -> float:
        """Return the y coordinate of a number of graphs."""
        return round(HEIGHT - BOTTOM - (HEIGHT - TOP - BOTTOM) * math.log10(graphs) / self.decades, 1)

    def axes(self) -> Iterator[str]:
        """Yield the grid, its numbers, and the axis titles."""
        right, bottom = WIDTH - RIGHT, HEIGHT - BOTTOM
        for power in range(self.decades + 1):
            y = self.up(10 ** power)
            yield f'<path d="M{LEFT},{y}H{right}" stroke="#ddd"/>'
            yield f'<text x="{LEFT - 10}" y="{y}" dy=".35em" text-anchor="end">{10 ** power:,}</text>'
        for bends in range(self.most_bends + 1):
            x = self.across(bends)
            yield f'<path d="M{x},{bottom}v5" stroke="black"/>'
            yield f'<text x="{x}" y="{bottom + 20}" text-anchor="middle">{bends}</text>'
        yield f'<path d="M{LEFT},{TOP}V{bottom}H{right}" fill="none" stroke="black"/>'
        yield f'<text x="{(LEFT + right) // 2}" y="{bottom + 45}" text-anchor="middle">fewest bends</text>'
        yield f'<text x="{LEFT - 10}" y="{TOP - 18}" text-anchor="middle">graphs</text>'

    def curve(self, vertices: int, row: dict[int, int], rank: int) -> Iterator[str]:
        """Yield the curve for one number of vertices, and its legend entry: a point for each number of bends that some graph
        has, joined to the point for one bend less if there is one."""
        colour, y = COLOURS[rank % len(COLOURS)], TOP + ROW * rank
        points = [(self.across(bends), self.up(count)) for bends, count in sorted(row.items())]
        steps = "".join(f"{'L' if bends - 1 in row else 'M'}{x},{y}"
                        for bends, (x, y) in zip(sorted(row), points))
        yield f'<path d="{steps}" fill="none" stroke="{colour}" stroke-width="2"/>'
        yield from (f'<circle cx="{x}" cy="{y}" r="{POINT}" fill="{colour}"/>' for x, y in points)
        x = WIDTH - RIGHT + DASH
        yield f'<path d="M{x},{y}h{DASH}" stroke="{colour}" stroke-width="2"/>'
        yield f'<circle cx="{x + DASH // 2}" cy="{y}" r="{POINT}" fill="{colour}"/>'
        yield f'<text x="{x + DASH + 2 * POINT}" y="{y}" dy=".35em">{vertices} vertices</text>'


def plot_of(table: Table) -> str:
    """Return a plot as SVG: for each number of vertices, the number of graphs by number of bends."""
    rows: dict[int, collections.Counter[int]] = collections.defaultdict(collections.Counter)
    for (vertices, _, bends), count in table.laid.items():
        rows[vertices][bends] += count
    most_graphs = max((max(row.values()) for row in rows.values()), default=1)
    frame = Frame(max((max(row) for row in rows.values()), default=0) or 1, math.ceil(math.log10(most_graphs)) or 1)
    lines = [f'<g font-family="sans-serif" font-size="{TEXT_SIZE}">', *frame.axes()]
    for rank, (vertices, row) in enumerate(sorted(rows.items())):
        lines += frame.curve(vertices, row, rank)
    return svg_text(WIDTH, HEIGHT, [*lines, "</g>"])


def main() -> int:
    """Return the exit status of the command."""
    parser = argparse.ArgumentParser(description=__doc__ + "\n\n" + TEXT, epilog=STATUSES,
                                     formatter_class=argparse.RawDescriptionHelpFormatter)
    parser.add_argument("parts", metavar="PART", nargs="+", help="a report, JSON Lines, or a folder of them")
    parser.add_argument("--of", metavar="FOLDER", help="the folder whose .pc files must all have a report")
    parser.add_argument("--short", action="store_true", help="leave out the rows for each number of edges")
    parser.add_argument("--svg", metavar="PLOT", help="also write a plot of the table to this file")
    words = parser.parse_args()
    try:
        table = collect(words.parts, words.of)
        if words.svg:
            with open(words.svg, "w", encoding="utf-8") as plot:
                plot.write(plot_of(table))
    except (Incomplete, OSError) as fault:
        print(f"collect.py: {f'{fault.filename}: {fault.strerror}' if isinstance(fault, OSError) else fault}", file=sys.stderr)
        return 1
    print(text_of(table, words.short), end="")
    return 0
