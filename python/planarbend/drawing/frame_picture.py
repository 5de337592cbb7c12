"""The frames of clusters in a picture."""
from __future__ import annotations

from planarbend.drawing.drawn import Drawing
from planarbend.drawing.ink import is_solid, lettered, painted, stroked, wrapped
from planarbend.drawing.symbols import ROUND, rectangle
from planarbend.drawing.texts import FAMILY, FONT, LINE_HEIGHT, lines_of, text_lines

STROKE = 1.1  # pixels, of the line of a frame


def frame_elements(drawing: Drawing, line: str, ink: str, theme: str) -> list[str]:
    """Return the frames, each before those within it, with their labels; `line` and `ink` are the colours of plain lines and
    texts."""
    if not drawing.frames:
        return []
    found = [f'<g fill="none" stroke="{line}" stroke-width="{STROKE}">']
    texts = [f'<g fill="{ink}" font-family="{FAMILY}" font-size="{FONT}" text-anchor="middle">']
    for number, frame in sorted(drawing.frames.items()):
        one = drawing.graph.clusters[number]
        if not one.look.is_visible:
            continue
        paint = painted("fill", one.look.fill) + stroked(one.look)
        found += wrapped(one.look, [rectangle(frame.box, ROUND * one.look.is_rounded, paint)])
        if frame.label_box is not None:
            left, top, right, bottom = frame.label_box
            words = lettered(one.look.font, is_solid(one.look.fill) and theme != "light")
            height = LINE_HEIGHT * (one.look.font.size or FONT) / FONT
            texts += wrapped(one.look, text_lines(lines_of(one.label), (left + right) / 2, (top + bottom) / 2, height, words))
    return [*found, "</g>", *texts, "</g>"]
