"""Turns looks into SVG: attributes of lines, boxes and texts, arrowheads, links and tooltips."""
from __future__ import annotations

import re
from collections.abc import Sequence
from typing import TYPE_CHECKING

from planarbend.drawing.texts import FAMILY, MONOSPACED, xml_text
from planarbend.graph import Arrow
from planarbend.style import Colour, Dash, EdgeLook, Font, Head, Look

if TYPE_CHECKING:
    from planarbend.drawing.drawn import Box, Drawing

DASHES = {Dash.DASHED: "5 3", Dash.DOTTED: "1.5 3"}  # pixels: drawn, left out
# The SVG of heads in a square of 10, in which the line comes from the left and ends at (9, 5). Open ones are not filled.
HEADS = {
    Head.NORMAL: '<path d="M0 1L9 5L0 9z"{}/>', Head.INVERTED: '<path d="M9 1L0 5L9 9z"{}/>',
    Head.VEE: '<path d="M0 1L9 5L0 9L3.5 5z"{}/>', Head.DOT: '<circle cx="5" cy="5" r="4"{}/>',
    Head.OPEN_DOT: '<circle cx="5" cy="5" r="3.5"{}/>', Head.DIAMOND: '<path d="M0 5L4.5 1.5L9 5L4.5 8.5z"{}/>',
    Head.OPEN_DIAMOND: '<path d="M0.5 5L4.5 1.8L8.5 5L4.5 8.2z"{}/>', Head.TEE: '<path d="M6.5 0H9V10H6.5z"{}/>'}
SERIF = re.compile("times|roman|palatino|schlbk|schoolbook|bookman|garamond|georgia", re.I)
GENERIC = {"monospace": MONOSPACED, "serif": SERIF}  # families by which others are replaced
OPEN = (Head.OPEN_DOT, Head.OPEN_DIAMOND)
HALF = 4.0  # pixels, from the end of a line to the middle of its head
MARKER = ('<marker id="{}" viewBox="0 0 10 10" refX="9" refY="5" markerWidth="8" markerHeight="8"'
          ' markerUnits="userSpaceOnUse" orient="auto-start-reverse">{}</marker>')

Marker = tuple[Head, Colour, tuple[str, ...]]  # a head, the colour of its line, and what paints its inside, from below


def quoted(text: str) -> str:
    """Return a text as the value of an attribute, in quotes."""
    return '"' + xml_text(text).replace('"', "&quot;").replace("\ufffd", " ") + '"'


def painted(kind: str, colour: Colour | None) -> str:
    """Return the attributes that paint with a colour, `kind` being "fill" or "stroke"; none for no colour."""
    if colour is None:
        return ""
    return f' {kind}="{colour.text}"' + (f' {kind}-opacity="{colour.opacity:g}"' if colour.opacity < 1 else "")


def stroked(look: Look) -> str:
    """Return the attributes of the lines of a look."""
    found = painted("stroke", look.colour)
    if look.width is not None:
        found += f' stroke-width="{look.width:g}"'
    return found + (f' stroke-dasharray="{DASHES[look.dash]}"' if look.dash else "")


def is_solid(colour: Colour | None) -> bool:
    """Return whether a colour paints anything."""
    return colour is not None and colour.text != "none"


def beneath(drawing: Drawing, box: Box, paper: Sequence[str]) -> list[str]:
    """Return the attributes that paint what lies under a box, from below: the paper, and the frames around the box that are
    filled, without what another hides."""
    found = list(paper)
    for number, frame in sorted(drawing.frames.items()):
        look, (left, top, right, bottom) = drawing.graph.clusters[number].look, frame.box
        if look.is_visible and look.fill and is_solid(look.fill) and (
                left <= box[0] and top <= box[1] and right >= box[2] and bottom >= box[3]):
            found = [*(found if look.fill.opacity < 1 else []), painted("fill", look.fill)]
    return found


def lettered(font: Font, is_on_own: bool = False) -> str:
    """Return the attributes of the texts in a font; texts on colours of the file are black if it does not say otherwise."""
    found = painted("fill", font.colour)
    if font.family:
        others = next((generic for generic, names in GENERIC.items() if names.search(font.family)), FAMILY)
        found += f" font-family={quoted(f'{font.family}, {others}')}"
    if font.size is not None:
        found += f' font-size="{font.size:g}"'
    found += (' font-weight="bold"' if font.is_bold else "") + (' font-style="italic"' if font.is_italic else "")
    return found + (' fill="black"' if is_on_own and font.colour is None else "")


def wrapped(look: Look, elements: list[str]) -> list[str]:
    """Return elements with the link and the tooltip of a look."""
    if not elements or not (look.link or look.tooltip):
        return elements
    title = [f"<title>{xml_text(look.tooltip)}</title>"] if look.tooltip else []
    return [f"<a href={quoted(look.link)}>" if look.link else "<g>", *title, *elements, "</a>" if look.link else "</g>"]


class Markers:
    """The heads of a drawing's edges, each kind and colour once."""

    def __init__(self, drawing: Drawing, ink: str, paper: Sequence[str]) -> None:
        """Return the heads of a drawing; `ink` is the colour of plain lines; `paper` paints what is behind all."""
        self.drawing, self.ink, self.paper = drawing, Colour(ink), paper
        self.names: dict[Marker, str] = {}
        self.at: list[str] = []  # for each edge the attributes of its line
        for number, edge in enumerate(drawing.graph.edges):
            look, words = drawing.graph.looks.edges.get(number, EdgeLook()), ""
            if look.is_visible and edge.arrow in (Arrow.FORWARD, Arrow.BOTH):
                words += f' marker-end="url(#{self.name(number, look, True)})"'
            if look.is_visible and edge.arrow in (Arrow.BACK, Arrow.BOTH):
                words += f' marker-start="url(#{self.name(number, look, False)})"'
            self.at.append(words)

    def name(self, number: int, look: EdgeLook, is_head: bool) -> str:
        """Return the name of the head at an end of an edge, which is new if there is none like it."""
        head, line = (look.head if is_head else look.tail) or Head.NORMAL, look.colour or self.ink
        inside = [painted("fill", look.fill or line)]
        if head in OPEN:
            inside = beneath(self.drawing, self.place(number, is_head), self.paper)
        return self.names.setdefault((head, line, tuple(inside)), f"head{len(self.names) or ''}")

    def place(self, number: int, is_head: bool) -> Box:
        """Return the middle of the head at an end of an edge."""
        line = self.drawing.lines[number]
        (x, y), (u, v) = line[:-3:-1] if is_head else line[:2]
        far = max(abs(u - x) + abs(v - y), HALF)
        x, y = x + HALF * (u - x) / far, y + HALF * (v - y) / far
        return x, y, x, y

    def elements(self) -> list[str]:
        """Return the SVG that defines the heads."""
        found = []
        for (head, line, inside), name in self.names.items():
            words = "" if inside == (painted("fill", line),) else painted("stroke", line)
            found.append(MARKER.format(name, "".join(HEADS[head].format(one + words) for one in inside)))
        return ["<defs>" + "".join(found) + "</defs>"] if found else []
