"""How a file says that nodes, edges and the picture look. Where it says nothing, a value is None or empty.

Readers make these records, the graph carries them by number, layout takes the size of boxes from outline and font, and the
picture takes the rest. Colours are checked when they are made, so that each can be written into SVG as it is.
"""
from __future__ import annotations

import enum
from collections.abc import Sequence
from dataclasses import dataclass, field


class Outline(enum.Enum):
    """The outline of a node; the values are Graphviz's words."""

    BOX = "box"
    SQUARE = "square"
    ELLIPSE = "ellipse"
    CIRCLE = "circle"
    DOUBLE_CIRCLE = "doublecircle"
    DIAMOND = "diamond"
    HEXAGON = "hexagon"
    OCTAGON = "octagon"
    CYLINDER = "cylinder"
    NOTE = "note"
    FOLDER = "folder"
    COMPONENT = "component"
    POINT = "point"
    NONE = "none"  # the label alone
    RECORD = "record"
    ROUND_RECORD = "Mrecord"


class Head(enum.Enum):
    """What is drawn at an end of an edge; the values are Graphviz's words."""

    NORMAL = "normal"
    INVERTED = "inv"
    VEE = "vee"
    DOT = "dot"
    OPEN_DOT = "odot"
    DIAMOND = "diamond"
    OPEN_DIAMOND = "odiamond"
    TEE = "tee"


class Dash(enum.Enum):
    """How a line is broken."""

    DASHED = "dashed"
    DOTTED = "dotted"


@dataclass(frozen=True, slots=True)
class Colour:
    """A colour: `text` is #rrggbb, a name of SVG or `none`; `opacity` is 0 to 1."""

    text: str
    opacity: float = 1.0


@dataclass(frozen=True, slots=True)
class Font:
    """The font of a label: `size` is in pixels."""

    family: str = ""
    size: float | None = None
    colour: Colour | None = None
    is_bold: bool = False
    is_italic: bool = False


@dataclass(frozen=True, slots=True)
class Look:
    """What nodes and edges share: `width` is that of lines, in pixels."""

    colour: Colour | None = None
    fill: Colour | None = None
    width: float | None = None
    dash: Dash | None = None
    is_visible: bool = True
    font: Font = Font()
    link: str = ""
    tooltip: str = ""


@dataclass(frozen=True, slots=True)
class NodeLook(Look):
    """How a node looks."""

    outline: Outline | None = None
    is_rounded: bool = False


@dataclass(frozen=True, slots=True)
class EdgeLook(Look):
    """How an edge looks. Whether it has a head at an end at all is its `Arrow`."""

    head: Head | None = None
    tail: Head | None = None
    head_label: str = ""
    tail_label: str = ""


class Across(enum.Enum):
    """Where a label is from left to right; the values are Graphviz's words."""

    LEFT = "l"
    CENTRE = "c"
    RIGHT = "r"


@dataclass(frozen=True, slots=True)
class ClusterLook(Look):
    """How the frame of a cluster looks. Its label is at the top or, if so said, at the bottom."""

    is_rounded: bool = False
    is_label_below: bool = False
    across: Across = Across.CENTRE


@dataclass(frozen=True, slots=True)
class GraphLook:
    """How the whole looks: a label below it, and what is behind it."""

    label: str = ""
    background: Colour | None = None
    font: Font = Font()


@dataclass(slots=True)
class Looks:
    """The looks of a graph: those of nodes and edges by number, if a file says anything about them; `warnings` say what is
    not drawn as the file says."""

    nodes: dict[int, NodeLook] = field(default_factory=dict)
    edges: dict[int, EdgeLook] = field(default_factory=dict)
    graph: GraphLook = GraphLook()
    warnings: list[str] = field(default_factory=list)

    def add_node(self, number: int, look: NodeLook) -> None:
        """Note how a node looks, if anything is said about it."""
        if look != NodeLook():
            self.nodes[number] = look

    def add_edge(self, number: int, look: EdgeLook) -> None:
        """Note how an edge looks, if anything is said about it."""
        if look != EdgeLook():
            self.edges[number] = look

    def part(self, nodes: Sequence[int], edges: Sequence[int]) -> Looks:
        """Return the looks of some nodes and edges, by their places in these lists."""
        return Looks({place: self.nodes[number] for place, number in enumerate(nodes) if number in self.nodes},
                     {place: self.edges[number] for place, number in enumerate(edges) if number in self.edges})
