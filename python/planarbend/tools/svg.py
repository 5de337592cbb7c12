"""Draws graphs of a planar_code file: one as an SVG picture, several in a grid, or all on an HTML page."""
from __future__ import annotations

import argparse
import dataclasses
import html
import os
import sys
from collections.abc import Iterable, Iterator
from typing import Any

from planarbend.drawing.texts import svg_text
from planarbend.layout.embedding import Embedding
from planarbend.layout.laid_out import outer_of
from planarbend.layout.planar_code import Lists, Unreadable, lists_of, records
from planarbend.layout.reports import NoLine, json_line

TEXT = """\
  ./planarbend layout --json FILE | python3 examples/svg.py FILE 2 > picture.svg
  ./planarbend layout --json FILE | python3 examples/svg.py FILE --graphs 1-12 --outer > grid.svg
  ./planarbend layout --json FILE | python3 examples/svg.py FILE --html > page.html

Reads JSON Lines from standard input and takes from them the coordinates of graphs of the first file, numbered
from 1. The edges are read from FILE, which must be that first file. In a grid and on a page, a graph without a
drawing shows the reason instead of a picture. A page loads nothing, so it opens without a network. Needs only
Python's standard library, and takes a few seconds at most.
"""
STATUSES = """\
exit status: 0; 1 if a requested graph cannot be drawn (standard error says why, and nothing is written); 2 if the
command line is wrong; 3 if a page was written, but its file does not end complete
"""
STEP = 40  # pixels between neighbouring whole numbers
RADIUS, DOT = 11, 6  # of a vertex with a number and without
LINE = 2  # how wide an edge is
LABEL = 11  # pixels, font size in a vertex
CAPTION = 24  # pixels below a picture of a grid
CAPTION_LINE = 14  # pixels from a picture down to the baseline of its caption
CAPTION_TEXT = 12  # pixels, font size of a caption
GAP = 12  # pixels between the columns of a grid
REASON = (160, 80)  # pixels, size of the box for a graph without a picture
MOST_NUMBER = 1_000_000  # of a graph
MOST_ON_PAGE = 2_000
SHADE = "#c9d7e8"

Point = list[int]


class Refused(Exception):
    """Something cannot be drawn; the message says why."""


@dataclasses.dataclass
class Picture:
    """One graph: the caption below it, its size in pixels, and its SVG elements."""

    caption: str
    width: int
    height: int
    elements: list[str]


@dataclasses.dataclass
class Lines:
    """What the lines contain for the first file: the line of each requested graph, and the file's ending, which is empty if no
    line gives it."""
    graphs: dict[int, dict[str, Any]]
    ending: str


def read_lines(lines: Iterable[str], numbers: list[int] | None) -> Lines:
    """Return the lines of these graphs of the first file; if `numbers` is None, of all graphs, up to one more than a page
    shows."""
    found, wanted = Lines({}, ""), None if numbers is None else set(numbers)
    for place, text in enumerate(lines, 1):  # reads all lines, so that their writer does not get SIGPIPE
        try:
            line = json_line(text)
        except NoLine:
            raise Refused(f"standard input, line {place}: not a line of planarbend layout --json") from None
        if line["file"] != 1:
            continue
        if "end" in line:
            found.ending = line["end"]
        elif len(found.graphs) <= MOST_ON_PAGE if wanted is None else line["graph"] in wanted:
            found.graphs[line["graph"]] = line
    return found


def read_lists(path: str, numbers: set[int]) -> dict[int, Lists]:
    """Return the neighbour lists of these records of a file, which is read up to the last of them."""
    found: dict[int, Lists] = {}
    try:
        with open(path, "rb") as source:
            for number, record in enumerate(records(source), 1):
                if number in numbers:
                    found[number] = lists_of(record)
                if len(found) == len(numbers):
                    break
    except Unreadable as fault:
        raise Refused(f"{path}: {fault}") from None
    except OSError as error:
        raise Refused(f"{path}: {error.strerror}") from None
    return found


def reason_of(line: dict[str, Any]) -> str | None:
    """Return why a graph has no drawing, or None if it has one."""
    if line["status"] == "refused":
        return f"breaks the rule {line['rule']}"
    if line["status"] != "ok":
        return "out of memory"
    return None if line["points"] is not None else f"not drawn: {line['drawn']}"


def paths_of(embedding: Embedding, points: dict[str, Any]) -> list[list[Point]]:
    """Return the points along each dart, from its tail to its head."""
    paths, vertices, tail = [], points["vertices"], embedding.tail
    for edge, corners in zip(range(0, len(tail), 2), points["corners"], strict=True):
        path = [vertices[tail[edge]], *corners, vertices[tail[edge + 1]]]
        paths += [path, path[::-1]]
    return paths


def draw(embedding: Embedding, line: dict[str, Any], shaded: bool, numbered: bool = True) -> Picture:
    """Return the picture of one graph, with vertices as numbers or as dots: y grows to the north, and in SVG downwards."""
    vertices, paths = line["points"]["vertices"], paths_of(embedding, line["points"])
    drawn = vertices + [point for path in paths for point in path]
    left, top = min(x for x, _ in drawn), max(y for _, y in drawn)
    width = (max(x for x, _ in drawn) - left + 2) * STEP
    height = (top - min(y for _, y in drawn) + 2) * STEP

    def place(point: Point) -> tuple[int, int]:
        """Return the place of a point in pixels."""
        return (point[0] - left + 1) * STEP, (top - point[1] + 1) * STEP

    def along(points: Iterable[Point]) -> str:
        """Return the places of points, for SVG."""
        return " ".join(f"{x},{y}" for x, y in map(place, points))

    elements = []
    if shaded:  # the outer face is what no inner one covers
        outer = outer_of(embedding, line)
        elements.append(f'<rect width="{width}" height="{height}" fill="{SHADE}"/>')
        elements += [f'<polygon points="{along(point for dart in walk for point in paths[dart][:-1])}" fill="white"/>'
                     for face, walk in enumerate(embedding.walks) if face != outer]
    elements.append(f'<g fill="none" stroke="black" stroke-width="{LINE}">')
    elements += [f'<polyline points="{along(path)}"/>' for path in paths[::2]]
    elements.append(f'</g><g fill="{"white" if numbered else "black"}" stroke="black" stroke-width="{LINE}">')
    elements += ['<circle cx="{}" cy="{}" r="{}"/>'.format(*place(point), RADIUS if numbered else DOT) for point in vertices]
    if numbered:
        elements.append(f'</g><g font-family="sans-serif" font-size="{LABEL}" text-anchor="middle">')
        elements += ['<text x="{}" y="{}" dy=".35em">{}</text>'.format(*place(point), number)
                     for number, point in enumerate(vertices, 1)]
    elements.append("</g>")
    bends = "1 bend" if line["bends"] == 1 else f"{line['bends']} bends"
    return Picture(f"graph {line['graph']}: {bends}", width, height, elements)


def reason_picture(number: int, reason: str) -> Picture:
    """Return a box that says why there is no picture."""
    width, height = REASON
    text = (f'<text x="{width // 2}" y="{height // 2}" font-family="sans-serif" font-size="{LABEL}"'
            f' text-anchor="middle">{reason}</text>')
    return Picture(f"graph {number}", width, height, [text])


def pictures(path: str, lines: Lines, shaded: bool, numbered: bool, alone: bool) -> Iterator[Picture]:
    """Yield the pictures of all graphs of these lines, in order."""
    drawn = {number for number, line in lines.graphs.items() if reason_of(line) is None}
    lists = read_lists(path, drawn)
    for number, line in sorted(lines.graphs.items()):
        reason = reason_of(line)
        if reason is not None:
            if alone:
                raise Refused(f"graph {number}: {reason}")
            yield reason_picture(number, reason)
            continue
        try:
            embedding = Embedding.of(lists[number])
            sizes = len(embedding.rotation), len(embedding.tail) // 2, len(embedding.walks)
            if sizes != (line["n"], line["m"], line["f"]):
                raise ValueError
            yield draw(embedding, line, shaded, numbered)
        except (KeyError, ValueError, IndexError, TypeError):
            raise Refused(f"graph {number} of {path} is not graph {number} of the lines") from None


def grid(shown: list[Picture], columns: int) -> str:
    """Return the pictures in rows of `columns` columns, each above its caption."""
    columns = min(columns, len(shown))
    wide = [max(one.width for one in shown[column::columns]) for column in range(columns)]
    elements, top = [], 0
    for first in range(0, len(shown), columns):
        row, left = shown[first:first + columns], 0
        high = max(one.height for one in row)
        for one, width in zip(row, wide):
            x, y = left + (width - one.width) // 2, top + (high - one.height) // 2
            elements += [f'<g transform="translate({x},{y})">', *one.elements, "</g>"]
            elements.append(f'<text x="{left + width // 2}" y="{top + high + CAPTION_LINE}" font-family="sans-serif"'
                            f' font-size="{CAPTION_TEXT}" text-anchor="middle">{one.caption}</text>')
            left += width + GAP
        top += high + CAPTION
    return svg_text(sum(wide) + GAP * (columns - 1), top, elements)


def page(name: str, shown: list[Picture], ending: str) -> str:
    """Return an HTML page with all pictures, which loads nothing."""
    title = html.escape(f"{os.path.basename(name)}: {len(shown)} graphs, file ends {ending}")
    style = ("body{font:14px sans-serif;margin:2em}main{display:flex;flex-wrap:wrap;gap:1em;align-items:flex-end}"
             "figure{margin:0;text-align:center}")
    figures = [f"<figure>{svg_text(one.width, one.height, one.elements).rstrip()}<figcaption>{one.caption}</figcaption></figure>"
               for one in shown]
    return "\n".join(['<!DOCTYPE html>', f'<html lang="en"><head><meta charset="utf-8"><title>{title}</title>',
                      f"<style>{style}</style></head><body><h1>{title}</h1><main>", *figures, "</main></body></html>"])


def numbers_of(word: str) -> list[int]:
    """Return the numbers of a list such as 1-12 or 1,3,7-9."""
    numbers: set[int] = set()
    for part in word.split(","):
        first, dash, last = part.partition("-")
        if not first.isdecimal() or (dash and not last.isdecimal()):
            raise argparse.ArgumentTypeError(f"{word} is not a list such as 1-12 or 1,3,7-9")
        end = int(last if dash else first)
        if not 1 <= int(first) <= end <= MOST_NUMBER:
            raise argparse.ArgumentTypeError(f"{part}: graph numbers are 1 to {MOST_NUMBER:,}, in increasing order")
        numbers.update(range(int(first), end + 1))
    return sorted(numbers)


def command_line() -> argparse.Namespace:
    """Return the arguments."""
    parser = argparse.ArgumentParser(description=__doc__ + "\n\n" + TEXT, epilog=STATUSES,
                                     formatter_class=argparse.RawDescriptionHelpFormatter)
    parser.add_argument("file", metavar="FILE", help="the planar_code file from which the JSON Lines were made")
    parser.add_argument("graph", metavar="GRAPH", nargs="?", type=numbers_of, help="the graph to draw, such as 2")
    parser.add_argument("--graphs", metavar="LIST", type=numbers_of, help="draw several graphs in a grid, such as 1-12")
    parser.add_argument("--columns", metavar="N", type=int, default=4, help="pictures in a row of the grid (default 4)")
    parser.add_argument("--outer", action="store_true", help="shade the outer face")
    parser.add_argument("--dots", action="store_true", help="draw vertices as dots, without numbers")
    parser.add_argument("--html", action="store_true",
                        help=f"write an HTML page of all graphs (at most {MOST_ON_PAGE}), or of those of --graphs")
    words = parser.parse_args()
    if words.graph and words.graphs:
        parser.error("give either GRAPH or --graphs, not both")
    if not (words.graph or words.graphs or words.html):
        parser.error("give GRAPH, --graphs LIST or --html")
    if words.columns < 1:
        parser.error("--columns must be at least 1")
    return words


def check_numbers(lines: Lines, numbers: list[int] | None) -> None:
    """Check that the lines have the requested graphs, or raise `Refused`."""
    if not lines.ending:
        raise Refused("standard input: incomplete, since no line gives the ending of the first file")
    missing = [str(number) for number in numbers or [] if number not in lines.graphs]
    if missing:
        raise Refused(f"the JSON Lines have no graph {', '.join(missing[:5])}{', ..' if len(missing) > 5 else ''}")
    if numbers is None and len(lines.graphs) > MOST_ON_PAGE:
        raise Refused(f"a page shows at most {MOST_ON_PAGE} graphs: use --graphs")


def main() -> int:
    """Return the exit status of the command."""
    words = command_line()
    numbers = words.graph or words.graphs
    alone = numbers is not None and len(numbers) == 1 and not words.html
    try:
        lines = read_lines(sys.stdin, numbers)
        check_numbers(lines, numbers)
        shown = list(pictures(words.file, lines, words.outer, not words.dots, alone))
    except (Refused, UnicodeDecodeError) as refused:
        print(f"svg.py: {refused}", file=sys.stderr)
        return 1
    if words.html:
        print(page(words.file, shown, lines.ending))
        if lines.ending != "complete":
            print(f"svg.py: {words.file} ends {lines.ending}, so graphs may be missing", file=sys.stderr)
            return 3
    else:
        print(svg_text(shown[0].width, shown[0].height, shown[0].elements) if alone else grid(shown, words.columns), end="")
    return 0


def run() -> int:
    """Return the exit status of the command, which is 1 if the reader of the output has gone."""
    try:
        status = main()
        sys.stdout.flush()
    except BrokenPipeError:
        # The reader has gone. Nothing is printed about it, not even when Python closes the output.
        os.dup2(os.open(os.devnull, os.O_WRONLY), sys.stdout.fileno())
        status = 1
    return status
