"""The fields of vertices in a picture."""
from __future__ import annotations

from collections.abc import Iterator

from planarbend.drawing.drawn import Box, Drawing
from planarbend.drawing.ink import stroked
from planarbend.drawing.symbols import rectangle
from planarbend.style import NodeLook, Outline


def field_texts(drawing: Drawing, number: int) -> Iterator[tuple[str, Box]]:
    """Yield the texts of a vertex and the boxes in whose middle they are: those of its fields, or its label."""
    boxes = drawing.text_boxes.get(number, drawing.field_boxes.get(number))
    if boxes is None:
        yield drawing.graph.vertices[number].label, drawing.boxes[number]
        return
    for (one, _), box in zip(drawing.graph.fields[number].walk(), boxes, strict=True):
        if not one.fields:
            yield one.text, box


def field_lines(drawing: Drawing, number: int, look: NodeLook) -> list[str]:
    """Return the lines between the fields of a vertex, and around all if the vertex has no outline."""
    boxes = drawing.field_boxes.get(number)
    if boxes is None:
        return []
    stroke, whole = stroked(look), drawing.graph.fields[number]
    box_of = {id(one): box for (one, _), box in zip(whole.walk(), boxes, strict=True)}
    found = [rectangle(boxes[0], 0, stroke + ' fill="none"')] if look.outline is Outline.NONE else []
    path = ""
    for one, _ in whole.walk():
        rows, columns = one.size
        for inner in one.fields:
            left, top, right, bottom = box_of[id(inner)]
            if inner.at.column + inner.at.columns < columns:
                path += f"M{right:.1f} {top:.1f}V{bottom:.1f}"
            if inner.at.row + inner.at.rows < rows:
                path += f"M{left:.1f} {bottom:.1f}H{right:.1f}"
    return [*found, f'<path d="{path}" fill="none"{stroke}/>'] if path else found
