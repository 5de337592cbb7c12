"""Values in DOT, GraphML and GML."""
from __future__ import annotations

import re
from collections import Counter
from collections.abc import Mapping
from dataclasses import dataclass
from html import escape

from planarbend.drawing.texts import allowed
from planarbend.graph import Graph
from planarbend.style import Colour, Font

PLAIN = "DejaVu Sans"

Values = Mapping[str, object]


@dataclass(frozen=True, slots=True)
class Source:
    """A value of an attribute of DOT, as it is written there."""

    text: str


def names_of(graph: Graph) -> list[str]:
    """Return a name for each vertex; all are different."""
    used, found = Counter(vertex.name for vertex in graph.vertices), []
    seen: set[str] = set()
    for number, vertex in enumerate(graph.vertices):
        name = vertex.name
        while name in seen or (used[vertex.name] > 1 and vertex.name in seen and name in used):
            name = f"{vertex.name} {number}" if name == vertex.name else name + "+"
        seen.add(name)
        found.append(name)
    return found


def quoted(text: str) -> str:
    """Return a text as a string of DOT."""
    return '"' + text.replace("\\", "\\\\").replace('"', '\\"').replace("\r", "").replace("\n", "\\n") + '"'


def identifier(name: str) -> str:
    """Return a name as a string of DOT, in which a backslash stands for itself. One that would hide a quote is written twice,
    which Graphviz does not undo."""
    return '"' + re.sub(r'(?<!\\)((?:\\\\)*\\)(?="|\Z)', r"\1\\", name).replace('"', '\\"') + '"'


def listed(values: Values) -> str:
    """Return attributes of DOT in brackets, without those that are None."""
    given = [f"{key}={value_text(value)}" for key, value in values.items() if value is not None]
    return f" [{', '.join(given)}]" if given else ""


def value_text(value: object) -> str:
    """Return the value of an attribute of DOT: a text, a number, or what is written as it is."""
    if isinstance(value, Source):
        return value.text
    return quoted(value) if isinstance(value, str) else f"{value:g}"


def painted(colour: Colour | None, plain: str | None = None) -> str | None:
    """Return a colour as DOT has it, or the plain one if there is none."""
    if colour is None or colour.text == "none":
        return plain if colour is None else "transparent"
    opacity = f"{round(255 * colour.opacity):02x}" if colour.opacity < 1 and colour.text.startswith("#") else ""
    return colour.text + opacity


def lettered(font: Font, size: float) -> dict[str, object]:
    """Return the attributes of a font; `size` is that of the plain one."""
    face = ("-Bold" if font.is_bold else "") + ("-Italic" if font.is_italic else "")
    family = font.family or (PLAIN if face else None)
    return {"fontname": family and family + face, "fontsize": font.size, "fontcolor": painted(font.colour)}


def gml_text(text: str) -> str:
    """Return a text as a string of GML, which is ASCII."""
    plain = escape(allowed(text))
    return '"' + "".join(letter if " " <= letter <= "~" else f"&#{ord(letter)};" for letter in plain) + '"'


def attribute(text: str) -> str:
    """Return a text as the value of an attribute of XML, in quotes."""
    return '"' + escape(allowed(text)).replace("\n", "&#10;") + '"'


def hue(colour: Colour) -> str:
    """Return the attributes of a colour for yEd."""
    return 'hasColor="false"' if colour.text == "none" else f'color="{colour.text}"'


def address(link: str) -> str | None:
    """Return a link as Graphviz can write it into XML, or None if there is none."""
    return "".join(f"%{ord(letter):02X}" if letter in '<>"' else letter for letter in link).replace("&", "&amp;") or None
