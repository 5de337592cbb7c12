"""A drawing as SVG, and by rsvg-convert as PNG or PDF."""
from __future__ import annotations

import errno
import math
import os
from collections.abc import Sequence

from planarbend.drawing.drawn import Box, Drawing, Point
from planarbend.drawing.field_picture import field_lines, field_texts
from planarbend.drawing.frame_picture import frame_elements
from planarbend.drawing.ink import Markers, beneath, is_solid, lettered, painted, stroked, wrapped
from planarbend.drawing.nets import dots_of, ends_of, net_labels, pieces_of
from planarbend.drawing.items import size_of
from planarbend.drawing.symbols import ROUND, WHOLE, border, drawn_on, elements
from planarbend.drawing.texts import FAMILY, FONT, LINE_HEIGHT, LONGEST_LINE, lines_of, svg_text, text_lines, text_size
from planarbend.drawing.themes import paper, themed
from planarbend.graph import Kind, Vertex
from planarbend.ports import End
from planarbend.style import EdgeLook, NodeLook, Outline

STROKE = 1.6  # pixels, of lines
INK, LINE = "#1d2733", "#3f5873"
FILL, PART_FILL, FLAG_FILL = "#f4f7fb", "#fdf6e3", "#e3f1e4"
FILLS = {Kind.VERTEX: (FILL, 4), Kind.PART: (PART_FILL, 0), Kind.FLAG: (FLAG_FILL, 7)}  # and the radius of the corners
DOT = 3.5  # pixels, the radius of a dot
LABEL_FONT, LABEL_HEIGHT = 10, 12
CAPTION = 6  # pixels beside and below the label of the graph
CONVERTED = {".png": "png", ".pdf": "pdf"}
WRITTEN = {".gv": "dot", ".dot": "dot", ".graphml": "graphml", ".gml": "gml"}  # and the functions of drawing/files.py


class NoConverter(Exception):
    """rsvg-convert is missing or failed."""


def svg(drawing: Drawing, theme: str = "light") -> str:
    """Return the SVG text of a drawing, with the colours of one of `THEMES` where its file says none. If the file says what is
    behind all, the theme is light."""
    background = drawing.graph.looks.graph.background
    theme = "light" if background is not None else theme
    behind = paper(theme) if background is None else painted("fill", background)
    is_opaque = background is None or is_solid(background) and background.opacity >= 1
    cover = [behind] if is_opaque else [paper("light")] + [behind] * is_solid(background)
    markers = Markers(drawing, LINE, cover)
    (width, height), caption = captioned(drawing)
    text = svg_text(width, height, [*markers.elements(), *frame_elements(drawing, LINE, INK, theme),
                                    *line_elements(drawing, markers, False),
                                    *box_elements(drawing, theme, line_elements(drawing, markers, True)),
                                    *label_elements(drawing, theme, cover), *net_label_elements(drawing), *caption], behind)
    return themed(text, theme)


def captioned(drawing: Drawing) -> tuple[tuple[int, int], list[str]]:
    """Return the size of the picture in pixels, and the label of the graph, which is below everything else."""
    width, height = math.ceil(drawing.size[0]), math.ceil(drawing.size[1])
    label, font = drawing.graph.looks.graph.label, drawing.graph.looks.graph.font
    if not label.strip():
        return (width, height), []
    scale = (font.size or FONT) / FONT
    lines = lines_of(label, max(LONGEST_LINE, (width - 2 * CAPTION) / scale))
    wide, high = text_size(lines, font, FONT, LINE_HEIGHT)
    width = max(width, math.ceil(wide + 2 * CAPTION))
    texts = text_lines(lines, width / 2, height + high / 2, LINE_HEIGHT * scale, lettered(font))
    group = f'<g fill="{INK}" font-family="{FAMILY}" font-size="{FONT}" text-anchor="middle">'
    return (width, math.ceil(height + high + CAPTION)), [group, *texts, "</g>"]


def line_of(drawing: Drawing, number: int) -> list[Point]:
    """Return the corners of an edge between the borders of the outlines at its ends."""
    edge, line = drawing.graph.edges[number], drawing.lines[number]
    ends = []
    for end, at, before in ((edge.tail, line[0], line[1]), (edge.head, line[-1], line[-2])):
        vertex, look = drawing.graph.vertices[end], drawing.graph.looks.nodes.get(end)
        if look is None or look.outline in WHOLE or vertex.kind in (Kind.NET, Kind.FLAG):
            ends.append(at)
        else:
            least = size_of(vertex.label, vertex.kind, look)
            corners = border(look.outline, drawing.boxes[end], least, ROUND * look.is_rounded)
            ends.append(drawn_on(corners, at, before))
    for is_head in (False, True):
        one = drawing.graph.ends.get((number, is_head), End())
        if one.field is not None or one.cluster is not None:
            ends[is_head] = drawing.meets.get((number, is_head), ends[is_head])
    return [ends[0], *line[1:-1], ends[1]]


def enters(drawing: Drawing, number: int) -> bool:
    """Return whether an edge meets a field more than a pixel inside the box of a vertex."""
    for is_head, vertex in enumerate((drawing.graph.edges[number].tail, drawing.graph.edges[number].head)):
        x, y = drawing.meets.get((number, bool(is_head)), drawing.boxes[vertex][:2])
        left, top, right, bottom = drawing.boxes[vertex]
        if left + 1 < x < right - 1 and top + 1 < y < bottom - 1:
            return True
    return False


def line_elements(drawing: Drawing, markers: Markers, are_inside: bool) -> list[str]:
    """Return the lines of the edges that enter boxes, or of all others."""
    found = [f'<g fill="none" stroke="{LINE}" stroke-width="{STROKE}" stroke-linejoin="round">']
    for number, heads in enumerate(markers.at):
        look = drawing.graph.looks.edges.get(number, EdgeLook())
        if look.is_visible and enters(drawing, number) is are_inside:
            points = " ".join(f"{x:.1f},{y:.1f}" for x, y in line_of(drawing, number))
            found += wrapped(look, [f'<polyline points="{points}"{stroked(look)}{heads}/>'])
    return found + ["</g>"] if len(found) > 1 or not are_inside else []


def box_elements(drawing: Drawing, theme: str, over: Sequence[str]) -> list[str]:
    """Return the boxes with their names; `over` is between the two."""
    found = [f'<g stroke="{LINE}" stroke-width="{STROKE}">']
    texts = [f'<g fill="{INK}" font-family="{FAMILY}" font-size="{FONT}" text-anchor="middle">']
    for number, vertex in enumerate(drawing.graph.vertices):
        box, look = drawing.boxes[number], drawing.graph.looks.nodes.get(number, NodeLook())
        if vertex.kind is Kind.NET or not look.is_visible:
            continue
        found += wrapped(look, outline_elements(vertex, look, box) + field_lines(drawing, number, look))
        height = LINE_HEIGHT * (look.font.size or FONT) / FONT
        words = lettered(look.font, is_solid(look.fill) and theme != "light")
        texts += wrapped(look, [line for text, at in field_texts(drawing, number) for line in text_lines(
            lines_of(text), (at[0] + at[2]) / 2, (at[1] + at[3]) / 2, height, words)])
    return found + ["</g>", *net_elements(drawing), *over, *texts, "</g>"]


def outline_elements(vertex: Vertex, look: NodeLook, box: Box) -> list[str]:
    """Return the outline of a node, or the box of a part or a flag."""
    fill, corner = FILLS[vertex.kind]
    outline = None if vertex.kind is Kind.FLAG else look.outline
    if outline is not None:
        corner = 0
    if look.is_rounded or outline is Outline.ROUND_RECORD:
        corner = ROUND
    stroke = stroked(look)
    if outline is Outline.NONE:
        fill, stroke = "none", ' stroke="none"'
    elif outline is Outline.POINT:
        fill = LINE
    paint = f' fill="{fill}"' if look.fill is None else painted("fill", look.fill)
    return elements(outline, box, size_of(vertex.label, vertex.kind, look), corner, paint + stroke)


def net_elements(drawing: Drawing) -> list[str]:
    """Return the nets: lines that join their connections, with a dot where three meet."""
    found = [f'<g fill="{LINE}" stroke="{LINE}" stroke-width="{STROKE}" stroke-linecap="square">']
    for number, ends in ends_of(drawing).items():
        pieces = pieces_of(drawing.boxes[number], ends)
        found += [f'<path d="M{x:.1f} {y:.1f}L{u:.1f} {v:.1f}" fill="none"/>' for (x, y), (u, v) in pieces]
        found += [f'<circle cx="{x:.1f}" cy="{y:.1f}" r="{DOT}" stroke="none"/>' for x, y in dots_of(pieces, ends)]
    return found + ["</g>"]


def label_elements(drawing: Drawing, theme: str, paper: Sequence[str]) -> list[str]:
    """Return the labels of the edges, each on its line, and between the two what is under the line; `paper` paints what is behind
    all."""
    labels = [(number, drawing.graph.edges[number].label, box) for number, box in drawing.label_boxes.items()]
    for (number, is_head), box in drawing.end_boxes.items():
        look = drawing.graph.looks.edges[number]
        labels.append((number, look.head_label if is_head else look.tail_label, box))
    if not labels:
        return []
    found = [f'<g fill="{INK}" font-family="{FAMILY}" font-size="{LABEL_FONT}" text-anchor="middle">']
    for number, label, box in labels:
        look, (left, top, right, bottom) = drawing.graph.looks.edges.get(number, EdgeLook()), box
        if look.is_visible:
            place = f'x="{left:.1f}" y="{top:.1f}" width="{right - left:.1f}" height="{bottom - top:.1f}"'
            under, height = beneath(drawing, box, paper), LABEL_HEIGHT * (look.font.size or LABEL_FONT) / LABEL_FONT
            words = lettered(look.font, under != paper and theme != "light")
            lines = text_lines(lines_of(label), (left + right) / 2, (top + bottom) / 2, height, words)
            found += wrapped(look, [*(f"<rect {place}{paint}/>" for paint in under), *lines])
    return found + ["</g>"]


def net_label_elements(drawing: Drawing) -> list[str]:
    """Return the names of nets beside their lines."""
    found = [f'<g fill="{LINE}" font-family="{FAMILY}" font-size="{LABEL_FONT}" text-anchor="middle">']
    for number, (left, top, right, bottom) in net_labels(drawing).items():
        found += text_lines([drawing.graph.vertices[number].label], (left + right) / 2, (top + bottom) / 2, LABEL_HEIGHT)
    return [*found, "</g>"] if len(found) > 1 else []


def check_output(path: str) -> None:
    """Check, before a graph is drawn, that its picture can be written; raise `NoConverter` if rsvg-convert is missing for PNG
    or PDF, and `OSError` if the file's folder is missing."""
    folder = os.path.dirname(os.path.abspath(path))
    if not os.path.isdir(folder):
        raise FileNotFoundError(errno.ENOENT, "no such folder", folder)
    if os.path.splitext(path)[1] in CONVERTED:
        import shutil  # slow to load

        if not shutil.which("rsvg-convert"):
            raise NoConverter(f"{path}: needs rsvg-convert (Debian: librsvg2-bin)")


def write_picture(text: str, path: str, scale: float = 1.0) -> None:
    """Write an SVG text in the format of the file's extension, as `check_output` allows, or raise `NoConverter` if
    rsvg-convert fails. The file gets its name once it is complete."""
    import subprocess  # this and the next module are slow to load
    import tempfile

    check_output(path)
    kind = CONVERTED.get(os.path.splitext(path)[1])
    with tempfile.TemporaryDirectory(dir=os.path.dirname(os.path.abspath(path))) as folder:
        drawn = os.path.join(folder, "picture.svg")
        with open(drawn, "w", encoding="utf-8") as out:
            out.write(text)
        if kind:
            converted = os.path.join(folder, "picture." + kind)
            zoom = ["--zoom", str(scale)] if kind == "png" else []
            ran = subprocess.run(["rsvg-convert", "--format", kind, *zoom, "--output", converted, drawn],
                                 capture_output=True, text=True)
            if ran.returncode:
                raise NoConverter(f"rsvg-convert: {ran.stderr.strip()}")
            drawn = converted
        os.replace(drawn, path)
