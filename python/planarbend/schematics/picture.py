"""A schematic as SVG."""
from __future__ import annotations

from planarbend.drawing.texts import FAMILY, svg_text, xml_text
from planarbend.drawing.themes import paper, themed
from planarbend.schematics.drawn import Schematic
from planarbend.schematics.parts import Part, Pin
from planarbend.schematics.shapes import Text
from planarbend.schematics.strokes import Point, Stroke

INK, WIRE = "#1d2733", "#0a6e2c"  # the colours of symbols and texts, and of wires
BODY, NAMES = "#fffbe6", "#334455"  # those of the inside of parts, and of names and numbers of pins
STROKE, WIRE_STROKE, BOLD = 1.3, 1.2, 2.2  # pixels
DOT = 2.4  # pixels, the radius of a junction's dot
CROSS = 2.0  # pixels, half the size of the cross at a pin that is not connected
STYLES = {"line": "", "bold": f' stroke-width="{BOLD}"', "body": f' fill="{BODY}"', "ink": f' fill="{INK}"',
          "circle": f' fill="{BODY}"'}
QUIET = ("name", "number")  # roles of texts that are written in the colour of names


def svg(drawing: Schematic, theme: str = "light") -> str:
    """Return the SVG text of a schematic. Each wire, part and pin is a group with a title."""
    width, height = (round(length + 0.499) for length in drawing.size)
    elements = [*wire_elements(drawing), *part_elements(drawing), *text_elements(drawing)]
    return themed(svg_text(width, height, elements, paper(theme)), theme)


def titled(title: str, elements: list[str]) -> str:
    """Return a group with a title."""
    return f"<g><title>{xml_text(title)}</title>{''.join(elements)}</g>"


def path_of(points: list[Point]) -> str:
    """Return the path of a line through points."""
    return "M" + "L".join(f"{x:.1f} {y:.1f}" for x, y in points)


def wire_elements(drawing: Schematic) -> list[str]:
    """Return the wires, net by net, with dots at junctions."""
    lines: dict[str, list[str]] = {}
    for wire in drawing.wires:
        lines.setdefault(wire.net, []).append(f'<path d="{path_of(wire.points)}"/>')
    for net, (x, y) in drawing.junctions:
        lines.setdefault(net, []).append(f'<circle cx="{x:.1f}" cy="{y:.1f}" r="{DOT}" fill="{WIRE}" stroke="none"/>')
    return [f'<g fill="none" stroke="{WIRE}" stroke-width="{WIRE_STROKE}" stroke-linejoin="round">',
            *(titled(drawing.sheet.nets[net].name, found) for net, found in lines.items()), "</g>"]


def part_elements(drawing: Schematic) -> list[str]:
    """Return the symbols of parts, and the stubs of pins that are not connected."""
    found = [f'<g fill="none" stroke="{INK}" stroke-width="{STROKE}" stroke-linejoin="round">']
    stubs: dict[int, list[str]] = {}
    for number, _, at, (x, y) in drawing.stubs():
        crossed = [[(x - CROSS, y - CROSS), (x + CROSS, y + CROSS)], [(x - CROSS, y + CROSS), (x + CROSS, y - CROSS)]]
        stubs.setdefault(number, []).append(f'<path d="{"".join(map(path_of, [[at, (x, y)], *crossed]))}"/>')
    for number, (part, shape) in enumerate(zip(drawing.sheet.parts, drawing.shapes)):
        pins = [] if part.is_flag else [pin_element(part, pin, at) for pin, at in zip(part.pins, shape.pins)]
        found.append(titled(title_of(part), [*map(stroke_element, shape.strokes), *stubs.get(number, []), *pins]))
    return [*found, "</g>"]


def pin_element(part: Part, pin: Pin, at: Point) -> str:
    """Return a place without colour at a pin, which has its title."""
    dot = f'<circle cx="{at[0]:.1f}" cy="{at[1]:.1f}" r="3" stroke="none" fill="transparent"/>'
    return titled(title_of(part, pin), [dot])


def title_of(part: Part, pin: Pin | None = None) -> str:
    """Return the title of a part, or of one of its pins: `Q1 BC547, pin C`. A pin without a name has its number, and one of
    several with one name has both."""
    title = part.ref if part.value in ("", part.ref) else f"{part.ref} {part.value}"
    if pin is None:
        return title
    is_alone = sum(one.name == pin.name for one in part.pins) == 1
    number = "" if is_alone or not pin.name else f" ({pin.number})"
    return f"{title}, pin {pin.name or pin.number}{number}"


def stroke_element(stroke: Stroke) -> str:
    """Return a stroke."""
    return f'<path d="{stroke.path.replace(" L", "L").replace(" C", "C").strip()}"{STYLES[stroke.style]}/>'


def text_elements(drawing: Schematic) -> list[str]:
    """Return the texts."""
    return [f'<g fill="{INK}" font-family="{FAMILY}">', *(text_element(text, part) for part, text in drawing.texts()), "</g>"]


def text_element(text: Text, part: int | None) -> str:
    """Return a text, which stays within its box; one without a part is the name of a net."""
    left, top, right, bottom = text.box
    x, y = {"start": left, "end": right}.get(text.anchor, (left + right) / 2), (top + bottom) / 2
    turned = f' transform="rotate(-90 {x:.1f} {y:.1f})"' if text.is_upwards else ""
    colour = f' fill="{NAMES if text.role in QUIET else WIRE}"' if text.role in QUIET or part is None else ""
    return (f'<text x="{x:.1f}" y="{y:.1f}" dy=".35em" font-size="{text.size:g}" text-anchor="{text.anchor}"{colour}{turned}>'
            f"{xml_text(text.text)}</text>")
