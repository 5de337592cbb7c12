#!/usr/bin/env python3
"""Says which attributes of a DOT file are in a picture of it; shares no code with what draws.

    python3 python/tests/attribute_judge.py FILE.gv...

What a file sets is read from `dot -Tjson0`, colours are those that Graphviz makes of them, and the picture is read as XML.
Only the places of boxes and lines are taken from the drawing's JSON, to find which elements belong to which node or edge.
For each attribute the table says how often files set it, where this is to be seen at all, and how often it is in the
picture; what is not is told before. The exit status is 0 if nothing is missing and each file is drawn.
"""
from __future__ import annotations

import argparse
import functools
import gzip
import html
import itertools
import json
import re
import subprocess
import sys
import xml.etree.ElementTree as xml
from collections import Counter
from collections.abc import Iterable, Iterator, Sequence
from dataclasses import dataclass, field
from pathlib import Path
from typing import Any

sys.dont_write_bytecode = True
SVG = "{http://www.w3.org/2000/svg}"
Point = tuple[float, float]
Box = tuple[float, float, float, float]
Said = dict[str, Any]
Hue = tuple[int, ...]  # red, green, blue and opacity, 0 to 255

SLACK = .2  # pixels
ROUNDED = 20  # points of a polygon with rounded corners, at least
NEAR_END = 25  # pixels, from the end of a line to a label there: room for a head
NORMAL_WIDTH = 1.6  # pixels, of a line of which nothing is said
CORNERS = {"diamond": (4, 6, 8), "hexagon": (6, 8), "octagon": (8,), "note": (5,), "folder": (6,)}
PLAIN_BOXES = ("box", "rect", "rectangle", "square", "record", "Mrecord", "plaintext", "none", "plain")
ROUND = {"ellipse": "ellipse", "oval": "ellipse", "circle": "circle", "doublecircle": "circle", "point": "circle"}
PARTS = {"doublecircle": 2, "note": 2, "folder": 2, "cylinder": 2, "component": 3}  # elements of an outline
BARE = ("plaintext", "none", "plain")
SHAPES = {*CORNERS, *PLAIN_BOXES, *ROUND, "cylinder", "component"}
WAYS = {"forward": (False, True), "back": (True, False), "both": (True, True), "none": (False, False)}
LISTED = ("shape", "style filled", "style rounded", "style dashed", "style dotted", "style bold", "style invis", "color",
          "fillcolor", "fontcolor", "penwidth", "fontsize", "fontname", "URL", "tooltip", "label", "headlabel", "taillabel",
          "arrowhead", "arrowtail", "dir", "bgcolor")


@dataclass
class Element:
    """An element of a picture: its attributes with those that it inherits, links and titles around it, and its points."""

    kind: str
    own: dict[str, str]
    values: dict[str, str]
    links: list[str]
    titles: list[str]
    text: str
    points: list[Point]
    is_marker: bool

    @property
    def box(self) -> Box:
        """The box around its points."""
        across, down = [x for x, _ in self.points], [y for _, y in self.points]
        return min(across), min(down), max(across), max(down)


@dataclass
class Verdict:
    """For each attribute how often it is set and how often it is in the picture; and what is not there."""

    set: Counter[tuple[str, str]] = field(default_factory=Counter)
    seen: Counter[tuple[str, str]] = field(default_factory=Counter)
    faults: list[str] = field(default_factory=list)

    def note(self, of: str, what: str, name: str, is_there: bool, said: object = "", found: object = "") -> None:
        """Counts an attribute of a node, an edge or the graph."""
        self.set[of, what] += 1
        self.seen[of, what] += is_there
        if not is_there:
            self.faults.append(f"{of} {name}: {what}={said}: {found}")

    def add(self, other: Verdict) -> None:
        """Adds the counts of another verdict."""
        self.set.update(other.set)
        self.seen.update(other.seen)
        self.faults += other.faults


def elements_of(root: xml.Element) -> list[Element]:
    """All elements of a picture in order."""
    found: list[Element] = []

    def walk(element: xml.Element, values: dict[str, str], links: list[str], titles: list[str], is_marker: bool) -> None:
        for one in element:
            kind, own = one.tag.removeprefix(SVG), dict(one.items())
            within = is_marker or kind == "marker"
            inherited = values | own
            around = [*titles, *(title.text or "" for title in one.findall(SVG + "title"))]
            found.append(Element(kind, own, inherited, links, titles, one.text or "", points_of(kind, own), within))
            walk(one, inherited, [*links, own.get("href", "")] if kind == "a" else links, around, within)

    walk(root, {}, [], [], False)
    return found


def points_of(kind: str, own: dict[str, str]) -> list[Point]:
    """Points that an element goes through, or the corners of its box."""
    number = {key: float(value) for key, value in own.items() if re.fullmatch(r"-?[\d.]+", value)}
    if kind == "rect" and "x" in number:
        x, y, wide, high = (number[key] for key in ("x", "y", "width", "height"))
        return [(x, y), (x + wide, y + high)]
    if kind in ("circle", "ellipse"):
        x, y = number["cx"], number["cy"]
        wide, high = (number["r"],) * 2 if kind == "circle" else (number["rx"], number["ry"])
        return [(x - wide, y - high), (x + wide, y + high)]
    if kind in ("polygon", "polyline"):
        return [(float(x), float(y)) for x, y in (pair.split(",") for pair in own["points"].split())]
    if kind == "text":
        return [(number["x"], number["y"])]
    return path_points(own.get("d", "")) if kind == "path" else []


def path_points(text: str) -> list[Point]:
    """The ends of the pieces of a path of M, L, H, V and A."""
    found: list[Point] = []
    x = y = 0.0
    for letter, rest in re.findall(r"([MLHVAz])([^MLHVAz]*)", text):
        numbers = list(map(float, re.findall(r"-?[\d.]+", rest)))
        if letter in "ML":
            x, y = numbers[-2:]
        elif letter == "A":
            x, y = numbers[-2:]
        elif letter == "H":
            x = numbers[-1]
        elif letter == "V":
            y = numbers[-1]
        if letter != "z":
            found.append((x, y))
    return found


def run(words: Sequence[str], text: str | bytes) -> bytes:
    """What a program writes for a text."""
    data = text.encode() if isinstance(text, str) else text
    return subprocess.run(words, input=data, capture_output=True, check=True).stdout


def said_in(text: bytes) -> tuple[dict[str, Any], bool]:
    """What a DOT text says, and whether `dot` lays it out without an error; otherwise it is read by `neato`, if necessary.

    dot 2.43 ends by an assertion of its own (`lblenclosing`) on some files with labels at ends of edges, which are valid."""
    for engine in ("dot", "neato"):
        ran = subprocess.run(["dot", "-Tjson0", f"-K{engine}"], input=text, capture_output=True, check=False)
        if ran.returncode >= 0 and ran.stdout.endswith(b"}\n"):
            return json.loads(decoded(ran.stdout), strict=False), engine == "dot" and not ran.returncode
    raise ValueError(f"Graphviz ended with status {ran.returncode}")


def decoded(data: bytes) -> str:
    """A text that is UTF-8 or else Latin-1."""
    try:
        return data.decode()
    except UnicodeDecodeError:
        return data.decode("latin-1")


HUES: dict[tuple[str, str], Hue | None] = {}  # of colours of DOT, each with its scheme
NAMED: dict[str, Hue] = {"none": (255, 255, 254, 0), "transparent": (255, 255, 254, 0)}  # of colours of SVG


def learn(pairs: Iterable[tuple[str, str]]) -> None:
    """Asks Graphviz for colours of DOT as it writes them into SVG."""
    fresh = sorted({pair for pair in pairs if pair not in HUES})
    if not fresh:
        return
    quoted = [[part.replace("\\", "").replace('"', "") for part in pair] for pair in fresh]
    lines = [f'n{number} [fillcolor="{text}" colorscheme="{scheme}"]' for number, (text, scheme) in enumerate(quoted)]
    text = 'graph { node [shape=box style=filled label="" color=none] ' + "\n".join(lines) + "}"
    ran = subprocess.run(["dot", "-Tsvg", "-Kneato"], input=text.encode(), capture_output=True, check=True)
    unknown = set(re.findall(r"Warning: (.*) is not a known color", decoded(ran.stderr)))
    found = {one.findtext(SVG + "title", ""): one.find(SVG + "polygon") for one in xml.fromstring(ran.stdout).iter(SVG + "g")}
    for number, pair in enumerate(fresh):
        shape = found[f"n{number}"]
        is_known = shape is not None and quoted[number][0] not in unknown and shape.get("fill", "").find("(") < 0
        HUES[pair] = painted(shape.get("fill", ""), shape.get("fill-opacity", "1")) if is_known and shape is not None else None


def painted(text: str, opacity: str) -> Hue | None:
    """The numbers of a colour of SVG: #rrggbb or a name."""
    if text.startswith("#"):
        found: Hue | None = (*(int(text[place:place + 2], 16) for place in (1, 3, 5)), 255)
    else:
        if text not in NAMED:
            ran = run(["dot", "-Tjson", "-Kneato"], f'graph {{ n [colorscheme=svg style=filled fillcolor="{text}"] }}')
            steps = json.loads(ran)["objects"][0]["_draw_"]
            shown = next((step["color"] for step in steps if step["op"] == "C"), "#000000")
            NAMED[text] = (*(int(shown[place:place + 2], 16) for place in (1, 3, 5)), 255)
        found = NAMED[text]
    return None if found is None else (*found[:3], round(found[3] * float(opacity)))


def first_of(text: str) -> str:
    """The first colour of a list, without its share."""
    return text.split(":")[0].split(";")[0].strip()


def in_picture(element: Element, kind: str) -> Hue | None:
    """The colour of an element's fill or stroke."""
    return painted(element.values.get(kind, "none"), element.values.get(kind + "-opacity", "1"))


def is_same(said: Hue | None, found: Hue | None) -> bool:
    """Whether two colours are the same; if the file's is none that Graphviz knows, any is."""
    if said is None or said[3] == 0:
        return said is None or found is not None and found[3] == 0
    return found is not None and all(abs(one - other) <= 2 for one, other in zip(said, found))


def words_of(text: str) -> list[str]:
    """The words of a text, in order; long ones may be broken."""
    return re.findall(r"[^\W_]+", text)


def label_words(label: str, names: dict[str, str], is_record: bool = False) -> list[str]:
    """What the letters and digits of a label may be: those of a text, of a record without its ports, and of HTML without
    tags, which `dot -Tjson0` does not tell apart."""
    found = [resolved(re.sub(r"(?<!\\)<[^<>]*>", " ", label) if is_record else label, names)]
    if label.strip().startswith("<") or re.search(r"<(b|i|u|s|br|font|sub|sup|table|img|o)\b", label, re.I):
        found.append(html.unescape(re.sub(r"<!--.*?-->|<[^<>]*>", " ", label, flags=re.S)))
    return ["".join(words_of(text)) for text in found]


def resolved(text: str, names: dict[str, str]) -> str:
    """A text with its escapes."""
    plain = re.sub(r"\\(.)", lambda match: " " if match[1] in "nlr" else names.get(match[1], match[1]), text, flags=re.S)
    return html.unescape(plain)


def number_in(text: Any, least: float, most: float) -> float | None:
    """The number at the beginning of a text, between limits."""
    match = re.match(r"\s*\+?(\d+\.?\d*|\.\d+)", str(text))
    return min(max(float(match[1]), least), most) if match else None


class Judge:
    """Compares a file with its picture."""

    def __init__(self, text: bytes, svg: str, drawing: dict[str, Any], warnings: str = "") -> None:
        """Reads a DOT text, the picture and the JSON of the same drawing, and what was said on standard error."""
        self.said, self.is_laid_out = said_in(text)
        self.elements, self.drawing, self.warnings = elements_of(xml.fromstring(svg)), drawing, warnings
        self.verdict = Verdict()
        self.ends: list[Point] = []  # of the edge that is looked at, at the sides of boxes
        self.nodes: list[Said] = self.said.get("objects", [])[self.said["_subgraph_cnt"]:]
        self.names = {one["_gvid"]: one["name"] for one in self.nodes}
        self.behind = next(place for place, one in enumerate(self.elements) if one.kind == "rect")
        self.shown = [one for one in self.elements if not one.is_marker and one.points]
        self.markers = markers_of(self.elements)
        things = [self.said, *self.nodes, *self.said.get("edges", [])]
        learn((first_of(one[key]), one.get("colorscheme", "")) for one in things
              for key in ("color", "fillcolor", "fontcolor", "bgcolor") if one.get(key))

    def judged(self) -> Verdict:
        """The verdict."""
        boxes = {one["name"]: tuple(one["box"]) for one in self.drawing["vertices"]}
        for one in self.nodes:
            if one["name"] not in boxes:
                self.verdict.faults.append(f"node {one['name']}: not drawn")
            else:
                self.node(one, boxes[one["name"]])
        self.edges()
        self.graph()
        self.apart()
        return self.verdict

    # Colours and texts of all

    def hue(self, said: Said, key: str) -> Hue | None:
        """The colour of an attribute; None if Graphviz knows none."""
        return HUES.get((first_of(said[key]), said.get("colorscheme", ""))) if said.get(key) else None

    def font(self, of: str, name: str, said: Said, texts: list[Element]) -> None:
        """Looks at the font of some texts."""
        for key in ("fontcolor", "fontsize", "fontname"):
            if not said.get(key) or not texts:
                continue
            if key == "fontcolor":
                right = all(is_same(self.hue(said, key), in_picture(one, "fill")) for one in texts)
            elif key == "fontsize":
                size = number_in(said[key], 4, 400)
                right = size is None or all(abs(float(one.values["font-size"]) - size) < .01 for one in texts)
            else:
                right = all(is_font(said[key], one) for one in texts)
            self.verdict.note(of, key, name, right, said[key], [one.values.get({"fontcolor": "fill", "fontsize": "font-size",
                                                                "fontname": "font-family"}[key]) for one in texts][:1])

    def links(self, of: str, name: str, said: Said, parts: list[Element], names: dict[str, str]) -> None:
        """Looks at links and tooltips."""
        link = said.get("URL") or said.get("href")
        if link and parts:
            wanted = resolved(link, names)
            right = any(one.links and squeezed(one.links[-1]) == squeezed(wanted) for one in parts)
            self.verdict.note(of, "URL", name, right, link, [one.links for one in parts][:1])
        if said.get("tooltip") and parts:
            wanted = resolved(said["tooltip"], names)
            right = any(squeezed(wanted) == squeezed("".join(one.titles)) for one in parts)
            self.verdict.note(of, "tooltip", name, right, said["tooltip"], [one.titles for one in parts][:1])

    def line(self, of: str, name: str, said: Said, parts: list[Element], styles: set[str]) -> None:
        """Looks at the lines of an outline or an edge: dashes, width and colour."""
        for word in ("dashed", "dotted"):
            if word in styles:
                self.verdict.note(of, f"style {word}", name, all("stroke-dasharray" in one.values for one in parts), word)
        if not {"dashed", "dotted"} & styles and any("stroke-dasharray" in one.values for one in parts):
            self.verdict.faults.append(f"{of} {name}: a broken line")
        widths = [float(one.values.get("stroke-width", "nan")) for one in parts]
        width = number_in(said.get("penwidth", ""), 0, 60)
        if width is not None:
            self.verdict.note(of, "penwidth", name, all(abs(one - width) < .01 for one in widths), width, widths)
        elif "bold" in styles:
            self.verdict.note(of, "style bold", name, all(one > 1.2 * NORMAL_WIDTH for one in widths), "bold", widths)
        if said.get("color"):
            right = all(is_same(self.hue(said, "color"), in_picture(one, "stroke")) for one in parts)
            self.verdict.note(of, "color", name, right, said["color"], [one.values.get("stroke") for one in parts][:1])

    # Nodes

    def node(self, said: Said, box: Box) -> None:
        """Looks at a node."""
        name, shape, styles = said["name"], said.get("shape", ""), styles_of(said)
        left, top, right, bottom = box
        within = [one for one in self.shown if one.kind not in ("polyline",)
                  and left - SLACK <= one.box[0] and one.box[2] <= right + SLACK
                  and top - SLACK <= one.box[1] and one.box[3] <= bottom + SLACK]
        outline, texts = [one for one in within if one.kind != "text"], [one for one in within if one.kind == "text"]
        if "invis" in styles:
            self.verdict.note("node", "style invis", name, not within, "invis", within)
            return
        if not outline:
            self.verdict.faults.append(f"node {name}: no outline")
            return
        if shape:
            is_divided = any(one["name"] == name and "fields" in one for one in self.drawing["vertices"])
            whole = outline[:1] + [one for one in outline[1:] if not (is_divided and one.own.get("fill") == "none")]
            self.verdict.note("node", "shape", name, self.is_shape(shape, whole), shape, [one.kind for one in whole])
        self.fill(said, outline, shape, styles)
        if "rounded" in styles and (shape in ("diamond", "hexagon", "octagon", "record") or shape in PLAIN_BOXES[:4]):
            rounded = len(outline[0].points) > ROUNDED or float(outline[0].own.get("rx", 0)) > 0
            self.verdict.note("node", "style rounded", name, rounded, "rounded")
        if shape not in BARE:
            self.line("node", name, said, outline, styles)
        self.font("node", name, said, texts)
        names = {"N": name, "G": self.said.get("name", "")}
        self.links("node", name, said, outline + texts, names)
        is_record = shape in ("record", "Mrecord")
        if shape != "point":
            wanted = label_words(said.get("label", "\\N"), names, is_record)
            found = words_of(" ".join(one.text for one in texts))
            if "".join(found) not in wanted:
                self.verdict.faults.append(f"node {name}: label {wanted} is {found}")

    def is_shape(self, shape: str, outline: list[Element]) -> bool:
        """Whether an outline has a shape; what is not listed is a box with a warning."""
        kinds = [one.kind for one in outline]
        if shape not in SHAPES:
            return kinds == ["rect"] and shape in self.warnings
        if len(outline) != PARTS.get(shape, 1):
            return False
        if shape in ROUND:  # or a box with such corners if it is larger than its label needs
            return kinds[0] in (ROUND[shape], "circle") or kinds[0] == "rect" and float(outline[0].own.get("rx", 0)) > 3
        if shape in CORNERS:
            return kinds[0] == "polygon" and (len(outline[0].points) in CORNERS[shape] or len(outline[0].points) > ROUNDED)
        if shape == "square":
            wide, high = (float(outline[0].own.get(key, "nan")) for key in ("width", "height"))
            return kinds == ["rect"] and (abs(wide - high) < .2 or min(wide, high) > 20)
        return kinds[0] == {"cylinder": "path", "component": "rect"}.get(shape, "rect")

    def fill(self, said: Said, outline: list[Element], shape: str, styles: set[str]) -> None:
        """Looks at what fills a node."""
        is_point = shape == "point"
        if not is_point and "filled" not in styles:
            return
        found = [in_picture(one, "fill") for one in outline if one.values.get("fill") != "none" or len(outline) == 1]
        key = "fillcolor" if said.get("fillcolor") else "color"
        if said.get(key) and self.hue(said, key) is not None:
            wanted = self.hue(said, key)
            self.verdict.note("node", "fillcolor", said["name"], all(is_same(wanted, one) for one in found), said[key],
                              [one.values.get("fill") for one in outline])
        if "filled" in styles:
            is_empty = (self.hue(said, key) or (0, 0, 0, 255))[3] == 0 if said.get(key) else False
            self.verdict.note("node", "style filled", said["name"], is_empty or all(one and one[3] for one in found), "filled")

    # Edges

    def edges(self) -> None:
        """Looks at the edges; of several between the same ends, each is compared with the one that fits it best."""
        drawn: dict[tuple[str, str], list[dict[str, Any]]] = {}
        names = [one["name"] for one in self.drawing["vertices"]]
        for one in self.drawing["edges"]:
            drawn.setdefault((names[one["tail"]], names[one["head"]]), []).append(one)
        lines = [one for one in self.shown if one.kind == "polyline"]
        self.unmatched = list(lines)
        told: dict[tuple[str, str], list[Said]] = {}
        for said in self.said.get("edges", []):
            told.setdefault((self.names[said["tail"]], self.names[said["head"]]), []).append(said)
        if {pair: len(some) for pair, some in drawn.items()} != {pair: len(some) for pair, some in told.items()}:
            self.verdict.faults.append("other edges are drawn")
            return
        for pair, some in told.items():
            rest = list(drawn[pair])
            for said in some:
                verdicts = [self.edge(said, pair, line_like(one["points"], lines), one["points"]) for one in rest]
                best = min(range(len(verdicts)), key=lambda place: len(verdicts[place].faults))
                self.verdict.add(verdicts[best])
                del rest[best]

    def edge(self, said: Said, pair: tuple[str, str], line: Element | None, points: list[list[float]]) -> Verdict:
        """The verdict on an edge that is drawn by a line."""
        kept, self.verdict = self.verdict, Verdict()
        name, styles = "--".join(pair), styles_of(said)
        if "invis" in styles or line is None:
            if "invis" in styles:
                self.verdict.note("edge", "style invis", name, line is None, "invis")
            else:
                self.verdict.faults.append(f"edge {name}: not drawn")
        else:
            self.ends = [(points[0][0], points[0][1]), (points[-1][0], points[-1][1])]
            self.visible_edge(said, name, pair, line, styles)
        kept, self.verdict = self.verdict, kept
        return kept

    def visible_edge(self, said: Said, name: str, pair: tuple[str, str], line: Element, styles: set[str]) -> None:
        """Looks at an edge."""
        self.line("edge", name, said, [line], styles)
        joint = "->" if self.said["directed"] else "--"
        names = {"T": pair[0], "H": pair[1], "E": joint.join(pair), "G": self.said.get("name", ""), "L": said.get("label", "")}
        self.links("edge", name, said, [line], names)
        self.heads(said, name, line)
        for key, at in (("label", None), ("xlabel", None), ("headlabel", -1), ("taillabel", 0)):
            if not said.get(key) or key == "xlabel" and said.get("label"):
                continue
            wanted = label_words(said[key], names)
            if not any(wanted):
                continue
            texts = [some for some in self.labels() if "".join(words_of(" ".join(one.text for one in some[1]))) in wanted
                     and self.is_at(some[0], line, at if pair[0] != pair[1] else None)]
            self.verdict.note("edge", "label" if key == "xlabel" else key, name, bool(texts), said[key],
                              "" if texts else [(line.points[0], line.points[-1]), *(
                                  some[0] for some in self.labels()
                                  if "".join(words_of(" ".join(one.text for one in some[1]))) in wanted)])
            if texts and key == "label":
                tried = []
                for _, some in texts:
                    kept, self.verdict = self.verdict, Verdict()
                    self.font("edge", name, said, some)
                    kept, self.verdict = self.verdict, kept
                    tried.append(kept)
                self.verdict.add(min(tried, key=lambda one: len(one.faults)))

    @functools.cached_property
    def _labels(self) -> list[tuple[Box, list[Element]]]:
        covers = dict.fromkeys(one.box for one in self.shown if one.kind == "rect" and "rx" not in one.own)  # each once
        texts = [one for one in self.shown if one.kind == "text"]
        return [(cover, [one for one in texts if is_inside(one.points[0], cover)]) for cover in covers]

    def labels(self) -> list[tuple[Box, list[Element]]]:
        """The labels of edges: what is behind them, and their texts."""
        return self._labels

    def is_at(self, box: Box, line: Element, at: int | None) -> bool:
        """Whether a label lies on a line; with `at`, nearer to this end of it."""
        def far(point: Point) -> float:
            return max(box[0] - point[0], point[0] - box[2], box[1] - point[1], point[1] - box[3])

        meets = any(min(x, u) <= box[2] + 1 and max(x, u) >= box[0] - 1 and min(y, v) <= box[3] + 1 and max(y, v) >= box[1] - 1
                    for (x, y), (u, v) in itertools.pairwise(line.points))
        return meets and (at is None or far(self.ends[at]) <= max(NEAR_END, far(self.ends[-1 - at])))

    def heads(self, said: Said, name: str, line: Element) -> None:
        """Looks at the ends of an edge."""
        back, forward = WAYS.get(said.get("dir", ""), (False, self.said["directed"]))
        if said.get("dir"):
            here = ("marker-start" in line.own, "marker-end" in line.own)
            wanted = back and said.get("arrowtail") != "none", forward and said.get("arrowhead") != "none"
            self.verdict.note("edge", "dir", name, here == wanted, said["dir"], here)
        for key, is_drawn, marker in (("arrowhead", forward, "marker-end"), ("arrowtail", back, "marker-start")):
            kind = said.get(key)
            if not kind or not is_drawn:
                continue
            head = self.markers.get(line.own.get(marker, "")[len("url(#"):-1])
            is_filled = (head is not None and bool(said.get("fillcolor")) and kind[0] != "o"
                         and is_same(self.hue(said, "fillcolor"), in_picture(head, "fill")))
            found = None if head is None else head_kind(head, is_filled)
            hue, behind = self.hue(said, "color"), in_picture(self.elements[self.behind], "fill")
            if behind is None or not behind[3]:
                behind = (255, 255, 255, 255)
            if kind[0] == "o" and is_same(in_picture(line, "stroke"), behind):
                found = kind if found == kind[1:] else found  # a line of the colour of the background
            if found is not None and hue is not None and not hue[3]:
                found = kind  # the line is transparent
            right = found is None if kind == "none" else found in (
                kind, *(("normal",) if kind not in HEAD_KINDS else ()), OTHER_HEADS.get(kind, kind))
            self.verdict.note("edge", key, name, right, kind, found)
            if head is not None and hue is not None and hue[3]:
                shown = in_picture(head, "stroke" if head.values.get("stroke", "none") != "none" else "fill")
                if not is_same(hue, shown):
                    self.verdict.faults.append(f"edge {name}: the head has another colour")

    # The whole

    def graph(self) -> None:
        """Looks at the label of the graph and what is behind all."""
        if self.said.get("bgcolor"):
            behind = self.elements[self.behind]
            right = is_same(self.hue(self.said, "bgcolor"), in_picture(behind, "fill"))
            self.verdict.note("graph", "bgcolor", "", right, self.said["bgcolor"], behind.own.get("fill"))
        wanted = label_words(self.said.get("label", ""), {"G": self.said.get("name", "")})
        if any(wanted):
            low = max((one["box"][3] for one in self.drawing["vertices"]), default=0)
            at_edges = {id(one) for _, some in self.labels() for one in some}
            texts = [one for one in self.shown if one.kind == "text" and one.points[0][1] > low and id(one) not in at_edges]
            found = words_of(" ".join(one.text for one in texts))
            right = any(one and "".join(found).endswith(one) for one in wanted)
            self.verdict.note("graph", "label", "", right, self.said["label"], found)
            self.font("graph", "", self.said, texts)

    def apart(self) -> None:
        """No label of an edge lies on a box, or on another label."""
        covers = [box for box, texts in self.labels() if texts]
        boxes = [tuple(one["box"]) for one in self.drawing["vertices"]]
        for place, one in enumerate(covers):
            for other in (*covers[place + 1:], *boxes):
                if all(one[axis] < other[2 + axis] - .5 and other[axis] < one[2 + axis] - .5 for axis in (0, 1)):
                    self.verdict.faults.append(f"a label at {one} covers what is at {other}")


HEAD_KINDS = ("normal", "inv", "vee", "dot", "odot", "diamond", "odiamond", "tee", "none")
OTHER_HEADS = {"open": "vee", "ediamond": "odiamond"}


def head_kind(head: Element, is_filled: bool) -> str:
    """What kind of head an element of a marker is, by its form; `is_filled` if the edge has this colour for it."""
    has_line = head.values.get("stroke", "none") != "none"
    is_open = not is_filled and has_line and in_picture(head, "fill") != in_picture(head, "stroke")
    if head.kind == "circle":
        return "odot" if is_open else "dot"
    points = sorted(set(head.points))
    if len(points) == 3:
        return "normal" if points[-1][1] == 5 and points[0][0] == points[1][0] else "inv"
    across = {x for x, _ in points}
    if len(points) == 4 and len(across) == 2:
        return "tee"
    middle = sorted(points)[1:3]
    is_diamond = len(points) == 4 and len({x for x, _ in middle}) == 1 and middle[0][1] != middle[1][1] and points[0][1] == 5
    return ("odiamond" if is_open else "diamond") if is_diamond else "vee"


def markers_of(elements: list[Element]) -> dict[str, Element]:
    """The element in each marker, by the marker's name."""
    return {one.own["id"]: after for one, after in itertools.pairwise(elements) if one.kind == "marker"}


def line_like(points: list[list[float]], lines: list[Element]) -> Element | None:
    """The line with the corners of an edge, whose ends may be moved along it."""
    for one in lines:
        if len(one.points) != len(points):
            continue
        inner = all(abs(a - b) < .11 for here, there in zip(one.points[1:-1], points[1:-1]) for a, b in zip(here, there))
        ends = all(min(abs(one.points[place][axis] - points[place][axis]) for axis in (0, 1)) < .11
                   and on_piece(one.points[place], points, place) for place in (0, -1))
        if inner and ends:
            return one
    return None


def on_piece(point: Point, points: list[list[float]], place: int) -> bool:
    """Whether a point is the end of a line, or lies up to half a box farther in its direction."""
    (x, y), (u, v) = points[place], points[1 if place == 0 else -2]
    if abs(x - u) < .01:
        return abs(point[0] - x) < .11 and (point[1] - y) * (y - v) >= -.2 * abs(y - v)
    return abs(point[1] - y) < .11 and (point[0] - x) * (x - u) >= -.2 * abs(x - u)


def is_inside(point: Point, box: Box) -> bool:
    """Whether a point lies in a box."""
    return box[0] <= point[0] <= box[2] and box[1] <= point[1] <= box[3]


def is_font(name: str, text: Element) -> bool:
    """Whether a text is in a font of this name."""
    family = text.values["font-family"].split(",")[0].strip("'\" ")
    right = squeezed(name).lower().startswith(squeezed(family).lower()) and bool(family)
    faces = [re.search(face, name, re.I) is not None for face in ("bold", "italic|oblique")]
    return right and [text.values.get("font-weight") == "bold", text.values.get("font-style") == "italic"] == faces


def squeezed(text: str) -> str:
    """A text without white space and characters that are not printed."""
    return "".join(letter for letter in text if letter.isprintable() and not letter.isspace())


def styles_of(said: Said) -> set[str]:
    """The words of a style."""
    return set(re.findall(r"[\w-]+", re.sub(r"\([^)]*\)", "", said.get("style", ""))))


def table(verdict: Verdict) -> Iterator[str]:
    """The lines of a table."""
    yield f"{'':8}{'attribute':16}{'set':>8}{'seen':>8}"
    for of in ("node", "edge", "graph"):
        for what in LISTED:
            if verdict.set[of, what]:
                yield f"{of:8}{what:16}{verdict.set[of, what]:8}{verdict.seen[of, what]:8}"


def drawn(data: bytes) -> tuple[str, dict[str, Any], str, str]:
    """The picture, the drawing, the warnings of a DOT text, and what is written as DOT with positions."""
    sys.path.insert(0, str(Path(__file__).resolve().parents[1]))
    from planarbend.draw import draw
    from planarbend.readers import read

    graph = read(data, "it.gv", "dot")
    made = draw(graph)
    return made.text("svg"), json.loads(made.text("json")), "\n".join(graph.looks.warnings), made.text("dot")


def shown_alike(drawing: dict[str, Any], written: str) -> list[str]:
    """The faults of what `neato -n2` shows of a drawing that was written as DOT: other boxes, or other crossings."""
    ran = subprocess.run(["neato", "-n2", "-Tsvg"], input=written.encode(), capture_output=True, check=True)
    boxes, lines, faults = {}, [], []
    for group in xml.fromstring(ran.stdout).iter(SVG + "g"):
        parts = [one for one in elements_of(group) if one.kind in ("polygon", "polyline", "ellipse", "path")]
        for one in parts:
            one.points = curve_points(one.own["d"]) if one.kind == "path" else one.points
        if group.get("class") == "node" and parts:
            some = [one.box for one in parts]
            boxes[group.findtext(SVG + "title", "")] = tuple(
                choose(box[side] for box in some) for side, choose in enumerate((min, min, max, max)))
        elif group.get("class") == "edge":
            lines += [curve_points(one.own["d"])[::3] for one in parts if one.kind == "path"]
    wanted = [(one["name"], one["box"]) for one in drawing["vertices"] if one["name"] in boxes]
    moves = [sorted(boxes[name][axis] - box[axis] for name, box in wanted) for axis in (0, 1)]
    move = [some[len(some) // 2] if some else 0.0 for some in moves]
    for name, box in wanted:
        far = max(abs(boxes[name][side] - move[side % 2] - box[side]) for side in range(4))
        if far > 1:
            faults.append(f"neato -n2 shows {name} {far:.1f} pixels aside")
    if len(lines) == len(drawing["edges"]) and meetings(lines) != len(drawing["crossings"]):
        faults.append(f"neato -n2 shows {meetings(lines)} crossings, and there are {len(drawing['crossings'])}")
    return faults


def curve_points(text: str) -> list[Point]:
    """The points of a path of M and C."""
    return [(float(x), float(y)) for x, y in re.findall(r"(-?[\d.]+),(-?[\d.]+)", text)]


def meetings(lines: list[list[Point]]) -> int:
    """The number of points where an upright piece of one line crosses a level piece of another."""
    pieces = [(number, *sorted(pair)) for number, line in enumerate(lines) for pair in itertools.pairwise(line)]
    upright = [(number, a, b) for number, a, b in pieces if abs(a[0] - b[0]) < abs(a[1] - b[1])]
    level = [(number, a, b) for number, a, b in pieces if abs(a[0] - b[0]) > abs(a[1] - b[1])]
    return sum(one != other and c[0] + .5 < a[0] < d[0] - .5 and min(a[1], b[1]) + .5 < c[1] < max(a[1], b[1]) - .5
               for one, a, b in upright for other, c, d in level)


def main() -> int:
    parser = argparse.ArgumentParser(description=__doc__, formatter_class=argparse.RawDescriptionHelpFormatter)
    parser.add_argument("files", metavar="FILE", nargs="+")
    whole, lost = Verdict(), 0
    for name in parser.parse_args().files:
        data = Path(name).read_bytes()
        data = gzip.decompress(data) if name.endswith(".gz") else data
        try:
            svg, drawing, warnings, written = drawn(data)
            found = Judge(data, svg, drawing, warnings).judged()
            found.faults += shown_alike(drawing, written)
        except Exception as error:  # each is a fault of the drawing
            lost += 1
            print(f"{name}: {type(error).__name__}: {error}")
            continue
        for fault in found.faults:
            print(f"{name}: {fault}")
        whole.add(found)
    print("\n".join(table(whole)))
    print(f"{len(whole.faults)} faults, {lost} not drawn")
    return 1 if whole.faults or lost else 0


if __name__ == "__main__":
    sys.exit(main())
