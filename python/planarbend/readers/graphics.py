"""Makes looks of the data of GML (`graphics`), of yEd's GraphML (shapes and lines) and of Gephi's (`r`, `g`, `b`)."""
from __future__ import annotations

import math
from collections.abc import Mapping
from typing import Any
from xml.etree.ElementTree import Element

from planarbend.readers.colours import colour_of, of_parts
from planarbend.style import Across, ClusterLook, Colour, Dash, EdgeLook, Font, Look, NodeLook, Outline

YED = "{http://www.yworks.com/xml/graphml}"
OUTLINES = {"rectangle": Outline.BOX, "rectangle3d": Outline.BOX, "roundrectangle": Outline.BOX, "ellipse": Outline.ELLIPSE,
            "oval": Outline.ELLIPSE, "circle": Outline.CIRCLE, "diamond": Outline.DIAMOND, "hexagon": Outline.HEXAGON,
            "octagon": Outline.OCTAGON}
DASHES = {"dashed": Dash.DASHED, "dotted": Dash.DOTTED, "dashed_dotted": Dash.DASHED}
WIDEST = 60.0  # pixels, of a line
PARTS = ("r", "g", "b")  # of Gephi's colours


def gml_node(values: Mapping[str, Any]) -> NodeLook:
    """Return the look of a node of GML."""
    graphics = values.get("graphics")
    if not isinstance(graphics, Mapping):
        return NodeLook()
    shape = str(graphics.get("type", "")).lower()
    return NodeLook(colour=colour(graphics.get("outline")), fill=colour(graphics.get("fill")),
                    width=number(graphics.get("width")),
                    outline=OUTLINES.get(shape), is_rounded=shape == "roundrectangle")


def gml_edge(values: Mapping[str, Any]) -> EdgeLook:
    """Return the look of an edge of GML."""
    graphics = values.get("graphics")
    if not isinstance(graphics, Mapping):
        return EdgeLook()
    return EdgeLook(colour=colour(graphics.get("fill")), width=number(graphics.get("width")),
                    dash=DASHES.get(str(graphics.get("style", "")).lower()))


def gephi_colour(values: Mapping[str, Any]) -> Colour | None:
    """Return the colour that Gephi writes for a node or an edge: parts named r, g and b of 0 to 255."""
    parts = [number(values.get(key), 255.0) for key in PARTS]
    return of_parts(*(part for part in parts if part is not None)) if None not in parts else None


def graphml_node(element: Element, values: Mapping[str, Any]) -> NodeLook:
    """Return the look of a node of GraphML: as yEd has it, or with Gephi's colour."""
    fill, line, label = (first(element, name) for name in ("Fill", "BorderStyle", "NodeLabel"))
    shape = first(element, "Shape").get("type", "")
    if not any((fill, line, label, shape)):
        return NodeLook(fill=gephi_colour(values))
    inside = None if fill.get("hasColor") == "false" or fill.get("transparent") == "true" else colour(fill.get("color"))
    stroke = Colour("none") if line.get("hasColor") == "false" else colour(line.get("color"))
    return NodeLook(colour=stroke, fill=inside, width=number(line.get("width")), dash=DASHES.get(line.get("type", "")),
                    font=font(label), outline=OUTLINES.get(shape), is_rounded=shape == "roundrectangle")


def graphml_label(element: Element) -> str | None:
    """Return the text of yEd's first label of a node, or None if there is no label."""
    found = next((one for data in element if data.tag.endswith("}data") for one in data.iter(YED + "NodeLabel")), None)
    text = "" if found is None else found.text or ""
    return None if found is None else text if text.strip() else ""


def graphml_cluster(element: Element, values: Mapping[str, Any]) -> ClusterLook:
    """Return the look of a frame in GraphML, where it is a node."""
    return cluster_look(graphml_node(element, values), first(element, "NodeLabel").get("modelPosition", ""))


def gml_cluster(values: Mapping[str, Any]) -> ClusterLook:
    """Return the look of a frame in GML, where it is a node."""
    label = values.get("LabelGraphics")
    return cluster_look(gml_node(values), str(label.get("anchor", "")) if isinstance(label, Mapping) else "")


def cluster_look(look: NodeLook, label: str) -> ClusterLook:
    """Return the look of a node as that of a frame; `label` is where its label is, such as `t` or `br`."""
    across = next((one for one in Across if label.endswith(one.value)), Across.CENTRE)
    return ClusterLook(**{name: getattr(look, name) for name in Look.__dataclass_fields__}, is_rounded=look.is_rounded,
                       is_label_below=label.startswith("b"), across=across)


def graphml_edge(element: Element, values: Mapping[str, Any]) -> EdgeLook:
    """Return the look of an edge of GraphML: as yEd has it, or with Gephi's colour."""
    line, label = first(element, "LineStyle"), first(element, "EdgeLabel")
    if not line and not label:
        return EdgeLook(colour=gephi_colour(values))
    return EdgeLook(colour=colour(line.get("color")), width=number(line.get("width")), dash=DASHES.get(line.get("type", "")),
                    font=font(label))


def first(element: Element, name: str) -> dict[str, str]:
    """Return the attributes of yEd's first element of this name in the data of a node or an edge; none if there is none."""
    found = next((one for data in element if data.tag.endswith("}data") for one in data.iter(YED + name)), None)
    return {} if found is None else found.attrib


def font(label: Mapping[str, str]) -> Font:
    """Return the font of a label of yEd."""
    style = label.get("fontStyle", "")
    family = "" if label.get("fontFamily", "Dialog") == "Dialog" else label["fontFamily"]
    size = number(label.get("fontSize"), 400.0)
    return Font(family, size, colour(label.get("textColor")), "bold" in style, "italic" in style)


def colour(text: object) -> Colour | None:
    """Return the colour of a text, or None if there is none that is known."""
    return colour_of(text) if isinstance(text, str) else None


def number(text: object, most: float = WIDEST) -> float | None:
    """Return a number from 0 to `most`, or None if there is none."""
    try:
        value = float(text) if isinstance(text, str | int | float) else math.nan
    except ValueError:
        return None
    return value if 0 <= value <= most else None
