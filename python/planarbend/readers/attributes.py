"""Makes looks of the attributes of DOT."""
from __future__ import annotations

import math
import re
from collections.abc import Callable, Mapping
from typing import Any

from planarbend.readers import colours, texts
from planarbend.style import (Across, ClusterLook, Colour, Dash, EdgeLook, Font, GraphLook, Head, Look, Looks, NodeLook,
                              Outline)

OUTLINES = {one.value: one for one in Outline} | {
    "rect": Outline.BOX, "rectangle": Outline.BOX, "oval": Outline.ELLIPSE, "plaintext": Outline.NONE, "plain": Outline.NONE}
HEADS = {one.value: one for one in Head} | {
    "open": Head.VEE, "empty": Head.NORMAL, "onormal": Head.NORMAL, "ediamond": Head.OPEN_DIAMOND}
NODE_KEYS = ("shape", "style", "color", "fillcolor", "fontcolor", "penwidth", "fontsize", "fontname", "URL", "href", "tooltip",
             "colorscheme")
EDGE_KEYS = ("style", "color", "fillcolor", "fontcolor", "penwidth", "fontsize", "fontname", "URL", "href", "tooltip",
             "colorscheme", "arrowhead", "arrowtail")
GRAPH_KEYS = ("bgcolor", "fontcolor", "fontsize", "fontname", "colorscheme")
CLUSTER_KEYS = ("style", "color", "fillcolor", "pencolor", "bgcolor", "fontcolor", "penwidth", "fontsize", "fontname", "URL",
                "href", "tooltip", "colorscheme", "peripheries", "labelloc", "labeljust")
COLOURS = ("color", "fillcolor", "fontcolor", "bgcolor", "pencolor")
NO_COLOUR = Colour("none")
PLAIN_FILL = Colour("lightgrey")  # of a filled node without a colour
BOLD, BOLD_FRAME = 3.2, 2.2  # pixels, the widths of bold lines
FONTS = (4.0, 400.0)  # pixels, the least and the greatest size of a font that is taken
WIDEST = 60.0  # pixels, of a line
WORDS = re.compile(r"([\w-]+)(?:\(([^)]*)\))?")
FACE = re.compile(r"[\s-]*(?:(?:\b|(?<=[a-z]))(Bold|Italic|Oblique)|\b(bold|italic|oblique)\b)(?![a-z])|-(?:Roman|Regular)\b")

Values = Mapping[str, str]
Palette = Mapping[tuple[str, str], Colour | None]


class Attributes:
    """Makes looks of attributes, all of whose colours are in a palette."""

    def __init__(self, looks: Looks, palette: Palette) -> None:
        """Return the maker of some looks, whose warnings it adds."""
        self.looks, self.palette = looks, palette
        self.strange: dict[str, set[str]] = {}

    def colour(self, values: Values, key: str) -> Colour | None:
        """Return the colour of an attribute, or None if it has none that is known."""
        text = values.get(key, "")
        found = self.palette.get((text, values.get("colorscheme", ""))) if text else None
        if text and found is None:
            self.strange.setdefault("colours that are not known are left out", set()).add(text)
        return found

    def font(self, values: Values) -> Font:
        """Return the font of a label."""
        name = "".join(letter for letter in values.get("fontname", "") if letter.isprintable())
        faces = {face.lower() for pair in FACE.findall(name) for face in pair}
        size = number_of(values.get("fontsize", ""), *FONTS)
        return Font(FACE.sub("", name).strip(" :"), size, self.colour(values, "fontcolor"),
                    "bold" in faces, bool(faces & {"italic", "oblique"}))

    def node(self, values: Values, names: dict[str, str]) -> NodeLook:
        """Return the look of a node; `names` are what escapes in texts stand for."""
        styles, shape = styles_of(values), values.get("shape", "")
        outline = OUTLINES.get(shape)
        if shape and outline is None:
            self.strange.setdefault("shapes that are drawn as boxes", set()).add(shape)
            outline = Outline.BOX
        colour = self.colour(values, "color")
        fill = (self.colour(values, "fillcolor") or colour or PLAIN_FILL) if "filled" in styles else None
        if outline is Outline.POINT:
            fill = self.colour(values, "fillcolor") or colour
        return NodeLook(**vars_of(self.look(values, names), colour=colour, fill=fill), outline=outline,
                        is_rounded="rounded" in styles)

    def edge(self, values: Values, names: dict[str, str], labels: tuple[str, str]) -> EdgeLook:
        """Return the look of an edge; `labels` are those at its head and its tail."""
        head, tail = (self.head(values.get(key, "")) for key in ("arrowhead", "arrowtail"))
        look = self.look(values, names)
        found = vars_of(look, colour=self.colour(values, "color"), fill=self.colour(values, "fillcolor"))
        return EdgeLook(**found, head=head, tail=tail, head_label=labels[0], tail_label=labels[1])

    def head(self, kind: str) -> Head | None:
        """Return a kind of arrowhead, or None if there is none or nothing is said."""
        if kind and kind != "none" and kind not in HEADS:
            self.strange.setdefault("arrowheads that are drawn as normal", set()).add(kind)
        return None if kind in ("", "none") else HEADS.get(kind, Head.NORMAL)

    def cluster(self, values: Values, names: dict[str, str]) -> ClusterLook:
        """Return the look of a cluster's frame; `names` are what escapes in texts stand for."""
        styles, plain, behind = styles_of(values), self.colour(values, "color"), self.colour(values, "bgcolor")
        fill = self.colour(values, "fillcolor") or plain if "filled" in styles else None
        line = NO_COLOUR if values["peripheries"] == "0" else self.colour(values, "pencolor") or plain
        found = vars_of(self.look(values, names, BOLD_FRAME), colour=line,
                        fill=fill or behind or (PLAIN_FILL if "filled" in styles else None))
        across = next((one for one in Across if one.value == values["labeljust"]), Across.CENTRE)
        return ClusterLook(**found, is_rounded="rounded" in styles, is_label_below=values["labelloc"] == "b", across=across)

    def graph(self, values: Values, label: str) -> GraphLook:
        """Return the look of the whole."""
        return GraphLook(label, self.colour(values, "bgcolor"), self.font(values))

    def look(self, values: Values, names: dict[str, str], bold: float = BOLD) -> Look:
        """Return what nodes, edges and clusters share, but for their colours; `bold` is the width of bold lines."""
        styles = styles_of(values)
        width = number_of(values.get("penwidth", "") or styles.get("setlinewidth", ""), 0.0, WIDEST)
        dash = next((dash for dash in Dash if dash.value in styles), None)
        link = texts.plain(values.get("URL", "") or values.get("href", ""), names)
        return Look(width=bold if width is None and "bold" in styles else width, dash=dash, is_visible="invis" not in styles,
                    font=self.font(values), link=link, tooltip=texts.plain(values.get("tooltip", ""), names))

    def warn(self) -> None:
        """Add the warnings to the looks."""
        self.looks.warnings += [f"{what}: {', '.join(sorted(which))}" for what, which in sorted(self.strange.items())]


def vars_of(look: Look, **changes: Colour | None) -> dict[str, Any]:
    """Return the fields of a look by name, some of them changed."""
    return {name: getattr(look, name) for name in Look.__dataclass_fields__} | changes


def styles_of(values: Values) -> dict[str, str]:
    """Return the words of `style`, each with what is in parentheses after it."""
    return {word: inside for word, inside in WORDS.findall(values.get("style", ""))}


def number_of(text: str, least: float, most: float) -> float | None:
    """Return the number at the beginning of a text, moved between these limits; None if there is none."""
    match = re.match(r"\s*\+?(\d+\.?\d*|\.\d+)", text)
    value = float(match[1]) if match else math.nan
    return min(max(value, least), most) if math.isfinite(value) else None


def colours_in(values: Values) -> list[tuple[str, str]]:
    """Return the texts of colours among attributes, each with the colour scheme."""
    return [(values[key], values.get("colorscheme", "")) for key in COLOURS if values.get(key)]


def palette_of(entries: list[Values], ask: Callable[[list[tuple[str, str]]], Palette] = colours.palette) -> Palette:
    """Return the colours of all these attributes."""
    return ask([pair for values in entries for pair in colours_in(values)])
