"""The frames of clusters in a drawing, and the JSON of frames, of fields and of ends of edges."""
from __future__ import annotations

from collections.abc import Iterator, Sequence
from dataclasses import dataclass
from typing import TYPE_CHECKING, Any

from planarbend.ports import End, Field

if TYPE_CHECKING:
    from planarbend.drawing.drawn import Box, Drawing, Point


@dataclass(frozen=True, slots=True)
class Frame:
    """The frame of a cluster: its box, and the place of its label within it; None if it has no label."""

    box: Box
    label_box: Box | None = None


def frames_json(drawing: Drawing) -> list[dict[str, Any]]:
    """Return all clusters in the graph's order; one whose frame was left out has the box None."""
    found = []
    for number, one in enumerate(drawing.graph.clusters):
        frame = drawing.frames.get(number)
        found.append({"name": one.name, "label": one.label, "parent": one.parent, "members": one.members,
                      "box": None if frame is None else list(frame.box)})
        if frame is not None and frame.label_box is not None:
            found[-1]["label_box"] = list(frame.label_box)
    return found


def fields_json(whole: Field, boxes: Sequence[Box]) -> list[dict[str, Any]]:
    """Return the fields of a vertex; `boxes` are in the order of `Field.walk`."""
    places = iter(boxes)

    def of(one: Field) -> dict[str, Any]:
        """Return a field with those within it."""
        found: dict[str, Any] = {"text": one.text, "port": one.port, "box": list(next(places))}
        return found | {"fields": [of(inner) for inner in one.fields]} if one.fields else found

    return list(of(whole).get("fields", []))


def ends_json(drawing: Drawing, edge: int) -> Iterator[tuple[str, dict[str, Any]]]:
    """Yield `tail_port` and `head_port` of an edge, each if it is drawn at a certain place."""
    for is_head, key in ((False, "tail_port"), (True, "head_port")):
        at = drawing.meets.get((edge, is_head))
        if at is not None:
            yield key, end_json(drawing, edge, is_head, at)


def end_json(drawing: Drawing, edge: int, is_head: bool, at: Point) -> dict[str, Any]:
    """Return an end of an edge: the port, the compass point and the cluster that its file names, and the point."""
    end: End = drawing.graph.ends[edge, is_head]
    found: dict[str, Any] = {"at": list(at)}
    if end.cluster is not None and end.cluster in drawing.frames:
        return found | {"cluster": drawing.graph.clusters[end.cluster].name}
    ends = drawing.graph.edges[edge]
    if end.field is not None:
        whole = drawing.graph.fields[ends.head if is_head else ends.tail]
        found["port"] = next(one.port for place, (one, _) in enumerate(whole.walk()) if place == end.field)
    return found if end.compass is None else found | {"compass": end.compass.value}
