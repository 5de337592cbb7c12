#!/usr/bin/env python3
"""Says whether fields, ends of edges and frames of clusters in a drawing are as a DOT file says; shares no code with what draws.

    python3 python/tests/port_judge.py FILE.gv...

What a file says is read from `dot -Tjson0 -Kneato`, which leaves nodes in all their clusters, and the order of clusters from the
text. Boxes, lines and frames are taken from the drawing's JSON; of the picture are the texts of fields and the outlines of
frames. The exit status is 0 if there is no fault and each file is drawn.
"""
from __future__ import annotations

import argparse
import gzip
import itertools
import json
import re
import subprocess
import sys
import xml.etree.ElementTree as xml
from collections import Counter
from collections.abc import Iterator, Sequence
from dataclasses import dataclass, field
from html.parser import HTMLParser
from pathlib import Path
from typing import Any

sys.dont_write_bytecode = True
from attribute_judge import HUES, Element, decoded, elements_of, first_of, in_picture, is_same, learn, resolved, words_of

Point = tuple[float, float]
Box = Sequence[float]  # left, top, right, bottom
Said = dict[str, Any]

SLACK = .3  # pixels
NARROW = "ijlftrI.,:;'|!()[]{}`\"/\\- "  # letters
POINTS = ("n", "ne", "e", "se", "s", "sw", "w", "nw")
TOKEN = re.compile(r'//[^\n]*|/\*.*?\*/|(?:^|(?<=\n))#[^\n]*|"(?:[^"\\]|\\.)*"|[\w.\x80-\U0010ffff-]+|\S', re.S)
SIGN = re.compile(r"\\.|[{}|<>]|[^\\{}|<>]+", re.S)


class Refused(Exception):
    """A label is no record."""


@dataclass
class Wanted:
    """A field that a label asks for: its text, its port, its first and last row and column, and the fields within it."""

    text: str = ""
    port: str = ""
    rows: tuple[int, int] = (0, 1)
    columns: tuple[int, int] = (0, 1)
    inner: list[Wanted] = field(default_factory=list)

    def all(self) -> Iterator[Wanted]:
        """This field and all within it."""
        yield self
        for one in self.inner:
            yield from one.all()


def record(label: str, is_level: bool) -> Wanted:
    """What the label of a record asks for; its outermost fields are side by side unless `is_level`."""
    signs = SIGN.findall(label)

    def grid(is_column: bool, is_inner: bool) -> Wanted:
        found = Wanted()
        while True:
            one, has_port, text = Wanted(), False, ""
            while signs and signs[0] not in "|}":
                sign = signs.pop(0)
                if sign == "{":
                    if text.strip() or has_port or one.inner:
                        raise Refused
                    one.inner = grid(not is_column, True).inner
                elif sign == "<":
                    if has_port or one.inner:
                        raise Refused
                    port = ""
                    while signs and signs[0] not in tuple("{}|<>"):
                        port += signs.pop(0)
                    if not signs or signs.pop(0) != ">":
                        raise Refused
                    one.port, has_port = " ".join(resolved(port, {}).split()), True
                elif sign == ">" or one.inner and sign.strip():
                    raise Refused
                else:
                    text += sign
            one.text = text
            place = (len(found.inner), len(found.inner) + 1)
            one.rows, one.columns = (place, (0, 1)) if is_column else ((0, 1), place)
            found.inner.append(one)
            sign = signs.pop(0) if signs else ""
            if sign != "|":
                if is_inner and not sign:
                    raise Refused
                return found

    return grid(is_level, False)


class TableReader(HTMLParser):
    """Reads an HTML label: `tables` are those that are open, `first` is the outermost one."""

    def __init__(self) -> None:
        super().__init__()
        self.open: list[tuple[Wanted, dict[tuple[int, int], bool]]] = []
        self.cells: list[Wanted] = []
        self.row: list[int] = []
        self.first: Wanted | None = None

    def handle_starttag(self, tag: str, attrs: list[tuple[str, str | None]]) -> None:
        values = dict(attrs)
        if tag == "table":
            made = Wanted(port=values.get("port") or "")
            if self.cells and len(self.cells) == len(self.open):
                self.cells[-1].inner = [made]
            self.first = self.first or made
            self.open.append((made, {}))
            self.row.append(-1)
        elif tag == "tr":
            self.row[-1] += 1
        elif tag == "td":
            table, taken = self.open[-1]
            high, wide, row = int(values.get("rowspan") or 1), int(values.get("colspan") or 1), self.row[-1]
            column = next(at for at in itertools.count(max((one.columns[1] for one in table.inner if one.rows[0] == row), default=0))
                          if not any((row, at + more) in taken for more in range(wide)))
            taken |= {(row + down, column + more): True for down in range(high) for more in range(wide)}
            cell = Wanted("", values.get("port") or "", (row, row + high), (column, column + wide))
            table.inner.append(cell)
            self.cells.append(cell)

    def handle_endtag(self, tag: str) -> None:
        if tag == "table":
            self.open.pop()
            self.row.pop()
        elif tag == "td":
            self.cells.pop()

    def handle_data(self, data: str) -> None:
        if self.cells:
            self.cells[-1].text += " " + data


def merged(one: Wanted) -> Wanted:
    """A cell without the table in it, whose cells and port it takes unless both have ports."""
    one.inner = [merged(inner) for inner in one.inner]
    if len(one.inner) == 1 and not one.text.strip() and not (one.port and one.inner[0].port) and one.inner[0].inner:
        only = one.inner[0]
        if only.rows == only.columns == (0, 1):
            one.port, one.inner = one.port or only.port, only.inner
    return one


def table(label: str) -> Wanted | None:
    """What an HTML label asks for, or None if it is no table."""
    if not re.search(r"<\s*table\b", label, re.I):
        return None
    reader = TableReader()
    reader.feed(label)
    return None if reader.first is None else merged(reader.first)


@dataclass
class Group:
    """A cluster of a file: what it says, the cluster around it, and its nodes, each in the first of several."""

    said: Said
    parent: int | None
    nodes: set[str] = field(default_factory=set)


def groups_of(said: Said, text: str) -> list[Group]:
    """The clusters of a file, each after that around it, siblings in the order in which the text opens them."""
    objects: list[Said] = said.get("objects", [])
    count = said["_subgraph_cnt"]
    inner = {number for one in objects[:count] for number in one.get("subgraphs", [])}
    tokens = [one.strip('"') if one.startswith('"') else one for one in TOKEN.findall(text) if not one.startswith(("//", "/*"))]
    opened = {name: place for place, (word, name) in reversed(list(enumerate(itertools.pairwise(tokens)))) if word.lower() == "subgraph"}
    found: list[Group] = []

    def clusters(numbers: list[int]) -> list[int]:
        some: list[int] = []
        for number in numbers:
            is_one = objects[number]["name"].startswith("cluster")
            some += [number] if is_one else clusters(objects[number].get("subgraphs", []))
        return sorted(some, key=lambda number: opened.get(objects[number]["name"], len(tokens)))

    def walk(numbers: list[int], parent: int | None) -> None:
        for number in clusters(numbers):
            found.append(Group(objects[number], parent, {objects[node]["name"] for node in objects[number].get("nodes", [])}))
            walk(objects[number].get("subgraphs", []), len(found) - 1)

    walk([number for number in range(count) if number not in inner], None)
    taken: dict[str, int] = {}
    for number, one in enumerate(found):
        for node in list(one.nodes):
            if node not in taken or taken[node] in chain(found, number):
                taken[node] = number
            else:
                one.nodes.remove(node)
    return found


def chain(groups: list[Group], number: int | None) -> list[int]:
    """A cluster and those around it."""
    found = []
    while number is not None:
        found.append(number)
        number = groups[number].parent
    return found


def is_apart(one: Box, other: Box) -> bool:
    """Whether two boxes have no point in common."""
    return one[2] < other[0] or other[2] < one[0] or one[3] < other[1] or other[3] < one[1]


def holds(outer: Box, inner: Box, gap: float = 0.0) -> bool:
    """Whether a box holds another, with a gap around it."""
    return (outer[0] + gap <= inner[0] and outer[1] + gap <= inner[1] and outer[2] - gap >= inner[2] and outer[3] - gap >= inner[3])


def sides_at(box: Box, point: Sequence[float]) -> set[str]:
    """The sides of a box on which a point lies."""
    x, y = point
    if not (box[0] - SLACK <= x <= box[2] + SLACK and box[1] - SLACK <= y <= box[3] + SLACK):
        return set()
    return {side for side, far in (("w", x - box[0]), ("n", y - box[1]), ("e", x - box[2]), ("s", y - box[3])) if abs(far) <= SLACK}


def letters_of(text: Element) -> Box:
    """A box that the letters of a text fill at least, in a font as wide as DejaVu Sans."""
    (x, y), size = text.points[0], float(text.values.get("font-size", 11))
    half = size * sum(.27 if one in NARROW else .5 for one in text.text) / 2
    return x - half, y - .38 * size, x + half, y + (.5 if set(text.text) & set("gjpqy") else .35) * size


def meets(line: Sequence[Point], box: Box) -> bool:
    """Whether a piece of a line runs through a box."""
    return any(min(x, u) < box[2] and max(x, u) > box[0] and min(y, v) < box[3] and max(y, v) > box[1]
               for (x, y), (u, v) in itertools.pairwise(line))


def crossings(line: Sequence[Point], box: Box) -> int:
    """How often a line crosses the border of a box. Its ends may lie there; a piece along the border counts twice."""
    found = 0
    for (x, y), (u, v) in itertools.pairwise(line):
        is_upright = abs(x - u) <= SLACK
        at, (low, high) = (x, sorted((y, v))) if is_upright else (y, sorted((x, u)))
        near, far, start, end = (box[0], box[2], box[1], box[3]) if is_upright else (box[1], box[3], box[0], box[2])
        if min(abs(at - near), abs(at - far)) <= SLACK and low < end - SLACK and high > start + SLACK:
            found += 2
        elif near < at < far:
            found += sum(low + SLACK < border < high - SLACK for border in (start, end))
            inner = line[1:-1]
            found += sum(any(abs((q if is_upright else p) - border) <= SLACK and abs((p if is_upright else q) - at) <= SLACK
                             for p, q in inner) for border in (start, end))
    return found


class Judge:
    """Compares a file with its drawing."""

    def __init__(self, text: bytes, svg: str, drawing: dict[str, Any], warnings: str = "") -> None:
        """Reads a DOT text, the picture and the JSON of the same drawing, and what was said on standard error."""
        ran = subprocess.run(["dot", "-Tjson0", "-Kneato"], input=text, capture_output=True, check=False)
        self.said: Said = json.loads(decoded(ran.stdout), strict=False)
        self.drawing, self.warnings = drawing, warnings
        self.elements = [one for one in elements_of(xml.fromstring(svg)) if one.points and not one.is_marker]
        self.nodes: list[Said] = self.said.get("objects", [])[self.said["_subgraph_cnt"]:]
        self.names = {one["_gvid"]: one["name"] for one in self.nodes}
        self.groups = groups_of(self.said, decoded(text))
        self.boxes = {one["name"]: one["box"] for one in drawing["vertices"]}
        self.drawn = {one["name"]: one for one in drawing["vertices"]}
        self.wanted = {one["name"]: self.fields_of(one) for one in self.nodes}
        self.faults: list[str] = []
        self.counts: Counter[str] = Counter()
        learn((first_of(one.said[key]), one.said.get("colorscheme", "")) for one in self.groups
              for key in ("color", "fillcolor", "pencolor", "bgcolor") if one.said.get(key))

    def judged(self) -> list[str]:
        """The faults."""
        for name, wanted in self.wanted.items():
            if wanted is not None:
                self.fields(name, wanted)
        frames = self.frames()
        self.edges(frames)
        return self.faults

    def check(self, what: str, is_right: bool, fault: str) -> None:
        """Counts a thing, and a fault if it is not right."""
        self.counts[what] += 1
        if not is_right:
            self.faults.append(fault)

    # Fields

    def fields_of(self, one: Said) -> Wanted | None:
        """The fields of a node; None if it has none, a record with one field and no port, or a table without a port."""
        label = one.get("label", "\\N")
        is_record = one.get("shape") in ("record", "Mrecord") and not re.match(r"\s*<\s*table\b", label, re.I)
        try:
            found = record(label, self.said.get("rankdir") in ("LR", "RL")) if is_record else table(label)
        except Refused:
            return None
        if found is None or one.get("shape") == "point":
            return None
        return found if is_record and len(found.inner) > 1 or any(inner.port for inner in found.all()) else None

    def fields(self, name: str, wanted: Wanted) -> None:
        """Looks at the fields of a node."""
        drawn = self.drawn.get(name, {}).get("fields")
        if drawn is None:
            self.check("fields", False, f"node {name}: its fields are not drawn")
        else:
            self.grid(name, wanted, drawn, self.boxes[name])

    def grid(self, name: str, wanted: Wanted, drawn: list[Said], box: Box) -> None:
        """Looks at a grid of fields: they are those of the label, and lie between the same lines."""
        labels = {"N": name, "G": self.said.get("name", "")}
        self.check("fields", len(wanted.inner) == len(drawn), f"node {name}: {len(drawn)} fields for {len(wanted.inner)}")
        lines: dict[tuple[str, int], set[float]] = {}
        for one, found in zip(wanted.inner, drawn):
            at, text = found["box"], "".join(words_of(resolved(one.text, labels)))
            self.check("ports", found["port"] == one.port, f"node {name}: port {found['port']!r} for {one.port!r}")
            self.check("boxes of fields", holds(box, at, -SLACK) and at[0] < at[2] and at[1] < at[3], f"node {name}: {at} not in {box}")
            for key, (low, high), near, far in (("row", one.rows, at[1], at[3]), ("column", one.columns, at[0], at[2])):
                lines.setdefault((key, low), set()).add(near)
                lines.setdefault((key, high), set()).add(far)
            if one.inner:
                self.grid(name, one, found.get("fields", []), at)
                continue
            inside = [some for some in self.elements if some.kind == "text" and holds(at, some.points[0] * 2)]
            shown = "".join(words_of("".join(some.text for some in inside)))
            self.check("texts of fields", shown == text, f"node {name}: the text {shown!r} for {text!r}")
            for some in inside:
                crossed = any(meets(line.points, letters_of(some)) for line in self.elements if line.kind == "polyline")
                self.check("lines beside texts", not crossed, f"node {name}: a line crosses the text {some.text!r}")
        for (kind, number), places in lines.items():
            self.check("lines of fields", max(places) - min(places) <= SLACK, f"node {name}: {kind} {number} at {sorted(places)}")
        for kind, near, far in (("row", box[1], box[3]), ("column", box[0], box[2])):
            order = [min(places) for key, places in sorted(lines.items()) if key[0] == kind]
            is_right = all(one < other for one, other in itertools.pairwise(order))
            self.check("order of fields", is_right and abs(order[0] - near) <= SLACK and abs(order[-1] - far) <= SLACK,
                       f"node {name}: {kind}s at {order} of {near} to {far}")

    # Frames

    def frames(self) -> dict[int, Box]:
        """Looks at the frames, and returns their boxes by cluster."""
        drawn, found = self.drawing.get("frames", []), {}
        paths = {self.path(drawn, number): one for number, one in enumerate(drawn)}
        self.check("clusters", len(drawn) == len(self.groups), f"{len(drawn)} frames for {len(self.groups)} clusters")
        wholes: list[Any] = [{"name": one.said["name"], "parent": one.parent} for one in self.groups]
        for number, one in enumerate(self.groups):
            frame, name = paths.get(self.path(wholes, number)), one.said["name"]
            box = None if frame is None else frame["box"]
            self.check("frames", box is not None or name in self.warnings, f"cluster {name}: not drawn")
            if box is not None and frame is not None:
                found[number] = box
                self.frame(name, one, frame)
        for number, box in found.items():
            for other, around in found.items():
                if number == other or number in chain(self.groups, other):
                    continue
                is_right = holds(around, box, 1) if other in chain(self.groups, number) else is_apart(around, box)
                self.check("frames within frames", is_right, f"frames {self.groups[number].said['name']} {box} and"
                           f" {self.groups[other].said['name']} {around}")
        return found

    def path(self, frames: list[Any], number: int | None) -> tuple[str, ...]:
        """The names of a cluster and those around it."""
        found = []
        while number is not None:
            found.append(frames[number]["name"])
            number = frames[number]["parent"]
        return tuple(found)

    def frame(self, name: str, group: Group, frame: Said) -> None:
        """Looks at a frame: whose boxes it holds, its label and its outline."""
        box = frame["box"]
        for node, at in self.boxes.items():
            is_right = holds(box, at, 1) if node in group.nodes else is_apart(box, at)
            self.check("boxes and frames", is_right, f"cluster {name} {box}: node {node} {at}")
        said, label = group.said, group.said.get("label", "")
        plain = re.sub(r"<[^<>]*>", " ", label) if label.lstrip().startswith("<") else label
        text = "".join(words_of(resolved(plain, {"G": name})))
        if "invis" in said.get("style", ""):
            return
        if text:
            at = frame.get("label_box")
            inside = [one for one in self.elements if at and one.kind == "text" and holds(at, one.points[0] * 2, -SLACK)]
            self.check("labels of frames", at is not None and holds(box, at) and "".join(
                words_of("".join(one.text for one in inside))) == text, f"cluster {name}: the label {label!r} at {at}")
            for node, other in self.boxes.items():
                self.check("labels of frames", at is None or is_apart(at, other), f"cluster {name}: its label is on node {node}")
        outlines = [one for one in self.elements if one.kind in ("rect", "path", "polygon") and all(
            abs(side - other) <= 1 for side, other in zip(one.box, box))]
        self.check("outlines of frames", bool(outlines) or said.get("peripheries") == "0", f"cluster {name}: no outline at {box}")
        self.look(name, said, outlines)

    def look(self, name: str, said: Said, outlines: list[Element]) -> None:
        """Looks at the colours and the line of a frame."""
        is_filled = "filled" in said.get("style", "")
        line = said.get("pencolor") or said.get("color")
        fill = (said.get("fillcolor") or said.get("color")) if is_filled else None
        for what, colour in (("stroke", line), ("fill", fill or said.get("bgcolor"))):
            hue = HUES.get((first_of(colour), said.get("colorscheme", ""))) if colour else None
            if outlines and hue is not None and not (what == "stroke" and said.get("peripheries") == "0"):
                self.check("colours of frames", any(is_same(hue, in_picture(one, what)) for one in outlines),
                           f"cluster {name}: {what} {colour}")
        for style in ("dashed", "dotted"):
            if outlines and style in said.get("style", ""):
                self.check("lines of frames", any("stroke-dasharray" in one.values for one in outlines), f"cluster {name}: not {style}")

    # Edges

    def edges(self, frames: dict[int, Box]) -> None:
        """Looks at the ends of edges, and at how often they cross frames."""
        drawn: dict[tuple[str, str], list[Said]] = {}
        names = [one["name"] for one in self.drawing["vertices"]]
        for one in self.drawing["edges"]:
            drawn.setdefault((names[one["tail"]], names[one["head"]]), []).append(one)
        for said in self.said.get("edges", []):
            pair = self.names[said["tail"]], self.names[said["head"]]
            some = drawn.get(pair) or ([] if self.said["directed"] else drawn.get(pair[::-1], []))
            if not some:
                self.check("edges", False, f"edge {pair}: not drawn")
                continue
            tries = [(self.edge(said, pair, one, frames), one) for one in some]
            (faults, counts), best = min(tries, key=lambda one: len(one[0][0]))
            some.remove(best)
            self.faults += faults
            self.counts.update(counts)

    def edge(self, said: Said, pair: tuple[str, str], drawn: Said, frames: dict[int, Box]) -> tuple[list[str], Counter[str]]:
        """The faults and the counts of an edge that a file asks for, if a line is its."""
        kept, self.faults, self.counts = (self.faults, self.counts), [], Counter()
        innermost = [max((number for number, one in enumerate(self.groups) if node in one.nodes), default=None,
                         key=lambda number: len(chain(self.groups, number))) for node in pair]
        inside = [set(chain(self.groups, number)) for number in innermost]
        clipped = [self.clip(said.get(key), inside[end], inside[1 - end]) for end, key in ((0, "ltail"), (1, "lhead"))]
        line = [(x, y) for x, y in drawn["points"]]
        for end, key in ((0, "tailport"), (1, "headport")):
            claim = drawn.get(("tail_port", "head_port")[end])
            if clipped[end] is not None:
                box = frames.get(clipped[end] or 0)
                self.check("ends at frames", box is not None and bool(sides_at(box, line[-end])), f"edge {pair}: {line[-end]} not at {box}")
            elif said.get(key):
                self.end(pair, pair[end], said[key], line if end else line[::-1], claim)
        for number, box in frames.items():
            is_in = [number in inside[end] and not (clipped[end] is not None and number in self.within(clipped[end])) for end in (0, 1)]
            found = crossings(line, box)
            self.check("crossings with frames", found == (is_in[0] != is_in[1]),
                       f"edge {pair} crosses the frame {self.groups[number].said['name']} {found} times")
        made = self.faults, self.counts
        self.faults, self.counts = kept
        return made

    def within(self, outer: int | None) -> list[int]:
        """A cluster and all clusters within it."""
        return [number for number in range(len(self.groups)) if outer in chain(self.groups, number)]

    def clip(self, name: str | None, inside: set[int], other: set[int]) -> int | None:
        """The cluster at whose frame an edge ends, or None."""
        if not name or str(self.said.get("compound", "")).lower() not in ("true", "yes", "1"):
            return None
        number = next((number for number, one in enumerate(self.groups) if one.said["name"] == name), None)
        return number if number in inside and number not in other else None

    def end(self, pair: tuple[str, str], node: str, port: str, line: list[Point], claim: Said | None) -> None:
        """Looks at the end of an edge that names a port; the line goes there."""
        name, _, compass = port.partition(":")
        box, wanted = self.boxes[node], self.wanted[node]
        place = None if wanted is None else self.place(wanted, name, node)
        if place is None:
            if compass or name not in POINTS:
                self.counts["ends that say nothing"] += 1
                return
            compass = name
        else:
            fields = flat(self.drawn[node].get("fields", []))
            if place and place > len(fields):
                self.check("ends at fields", False, f"edge {pair}: {node} has no field {name}")
                return
            box = fields[place - 1] if place else box
        at = tuple(claim["at"]) if claim else line[-1]
        sides = sides_at(box, at)
        self.check("ends at fields" if place is not None else "ends at sides", bool(sides), f"edge {pair}: {at} not at {port} {box}")
        self.check("ways to fields", self.is_on(line, at, self.boxes[node]), f"edge {pair}: {at} is not straight on from {line[-2:]}")
        self.check("ends from outside", self.from_outside(line, at, sides), f"edge {pair}: {at} of {port} is not reached from outside")
        if compass in POINTS:
            middle = (box[0] + box[2]) / 2, (box[1] + box[3]) / 2
            halves = {"n": at[1] <= middle[1] + SLACK, "s": at[1] >= middle[1] - SLACK, "w": at[0] <= middle[0] + SLACK,
                      "e": at[0] >= middle[0] - SLACK}
            self.check("compass points", bool(sides & set(compass)) and all(halves[side] for side in compass),
                       f"edge {pair}: {at} not at {port} of {box}")

    def place(self, wanted: Wanted, name: str, node: str) -> int | None:
        """The place of the first field with a port, in the order of the label; 0 is the whole."""
        is_record = any(one["name"] == node and one.get("shape") in ("record", "Mrecord") for one in self.nodes)
        for place, one in enumerate(wanted.all()):
            if one.port and (one.port == name if is_record else one.port.lower() == name.lower()):
                return place
        return None

    def is_on(self, line: list[Point], at: Sequence[float], box: Box) -> bool:
        """Whether a point is the end of a line, or straight on from there within a box at whose border the line ends."""
        (x, y), (u, v) = line[-2:]
        if abs(at[0] - u) <= SLACK and abs(at[1] - v) <= SLACK:
            return True
        ahead = (at[0] - u) * (u - x) + (at[1] - v) * (v - y) > 0
        straight = abs(at[0] - u) <= SLACK and abs(x - u) <= SLACK or abs(at[1] - v) <= SLACK and abs(y - v) <= SLACK
        return ahead and straight and bool(sides_at(box, (u, v)))

    def from_outside(self, line: list[Point], at: Sequence[float], sides: set[str]) -> bool:
        """Whether the last piece of a line goes to one of these sides of a field from outside the field."""
        (x, y), (u, v) = line[-2:]
        way = ("n" if v > y else "s") if abs(x - u) <= SLACK else ("w" if u > x else "e")
        return way in sides


def flat(fields: list[Said]) -> list[Box]:
    """The boxes of fields, each before those within it."""
    return [box for one in fields for box in (one["box"], *flat(one.get("fields", [])))]


def drawn(data: bytes) -> tuple[str, dict[str, Any], str]:
    """The picture, the drawing and the warnings of a DOT text."""
    sys.path.insert(0, str(Path(__file__).resolve().parents[1]))
    from planarbend.draw import draw
    from planarbend.readers import read

    graph = read(data, "it.gv", "dot")
    made = draw(graph)
    return made.text("svg"), json.loads(made.text("json")), "\n".join(graph.looks.warnings)


def main() -> int:
    parser = argparse.ArgumentParser(description=__doc__, formatter_class=argparse.RawDescriptionHelpFormatter)
    parser.add_argument("files", metavar="FILE", nargs="+")
    counts: Counter[str] = Counter()
    lost = faults = 0
    for name in parser.parse_args().files:
        data = Path(name).read_bytes()
        data = gzip.decompress(data) if name.endswith(".gz") else data
        try:
            judge = Judge(data, *drawn(data))
            found = judge.judged()
        except Exception as error:  # each is a fault of the drawing
            lost += 1
            print(f"{name}: {type(error).__name__}: {error}")
            continue
        for fault in found:
            print(f"{name}: {fault}")
        faults += len(found)
        counts.update(judge.counts)
    for what, count in sorted(counts.items()):
        print(f"{what:28}{count:8}")
    print(f"{faults} faults, {lost} not drawn")
    return 1 if faults or lost else 0


if __name__ == "__main__":
    sys.exit(main())
