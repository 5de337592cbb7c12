"""Clusters, fields and ports in DOT, GraphML and GML."""
from __future__ import annotations

import dataclasses
from collections.abc import Iterable, Iterator, Sequence
from html import escape

from planarbend.clusters import Cluster
from planarbend.drawing.drawn import Box, Drawing, Point
from planarbend.drawing.file_text import PLAIN, Source, Values, address, attribute, identifier, lettered, listed, painted
from planarbend.drawing.frame_picture import STROKE
from planarbend.drawing.picture import INK, LINE
from planarbend.drawing.texts import FONT, allowed, lines_of, text_size
from planarbend.graph import Graph
from planarbend.ports import End, Field, Span
from planarbend.readers.port_data import PORTS
from planarbend.style import Across, Font, NodeLook, Outline

RECORDS = (Outline.RECORD, Outline.ROUND_RECORD)
MARGIN, MARGINS = "0.055,0.03", (4.0, 2.0)  # inches and pixels around the texts of a record, less than in pictures
FONT_HEIGHT = 1.2 * FONT  # pixels, of a line in Graphviz
NEAR = 0.01  # pixels
SIGNS = str.maketrans({sign: "\\" + sign for sign in "\\{}|<>"} | {"\n": "\\n"})  # of records
TABLE = ' border="0" cellborder="1" cellspacing="0" cellpadding="0"'
PADDED = ' cellpadding="2"'


def steps(clusters: Sequence[Cluster], chosen: Iterable[int]) -> Iterator[tuple[int, bool]]:
    """Yield each of some clusters twice, before and after all within it, with whether it ends."""
    inner: dict[int | None, list[int]] = {}
    for number in chosen:
        inner.setdefault(clusters[number].parent, []).append(number)
    waiting = [(number, False) for number in reversed(inner.get(None, []))]
    while waiting:
        number, is_end = waiting.pop()
        yield number, is_end
        if not is_end:
            waiting += [(number, True), *((one, False) for one in reversed(inner.get(number, [])))]


def cluster_names(graph: Graph, used: Iterable[str] = (), beginning: str = "") -> list[str]:
    """Return a name for each cluster; all begin in the same way, and are different from each other and from those used."""
    seen, found = set(used), list[str]()
    for number, one in enumerate(graph.clusters):
        first = name = one.name if one.name.startswith(beginning) else f"{beginning}_{one.name}"
        while name in seen:
            name = f"{first} {number}" if name == first else name + "+"
        seen.add(name)
        found.append(name)
    return found


def group_names(graph: Graph, names: Sequence[str]) -> list[str]:
    """Return a name for each cluster in GraphML: that of the vertex in it that the cluster is too, or one that no vertex has;
    `names` are those of the vertices."""
    found = cluster_names(graph, names)
    for number, one in enumerate(graph.clusters):
        found[number] = next((names[vertex] for vertex in one.members if names[vertex] == one.name), found[number])
    return found


def is_record(whole: Field, is_column: bool) -> bool:
    """Return whether the fields of a vertex are those of a record whose outermost fields are below or beside each other."""
    return all(one.at == (Span(row=place) if is_column else Span(column=place))
               and (not one.fields or not (one.text or one.port) and is_record(one, not is_column))
               for place, one in enumerate(whole.fields))


def has_columns(graph: Graph) -> bool:
    """Return whether the outermost fields of records are below each other: some are, and are not beside each other."""
    return any(is_record(whole, True) and not is_record(whole, False) for number, whole in graph.fields.items()
               if is_divided(graph, number))


def is_divided(graph: Graph, number: int) -> bool:
    """Return whether the outline of a vertex is that of a record, and it has fields."""
    return number in graph.fields and graph.looks.nodes.get(number, NodeLook()).outline in RECORDS


def record_size(one: Field, font: Font, axis: int) -> tuple[float, float]:
    """Return the least size that Graphviz gives a field of a record; those within it follow each other along an axis."""
    if not one.fields:
        wide, high = text_size(lines_of(one.text), font, FONT, FONT_HEIGHT)
        return wide + 2 * MARGINS[0], high + 2 * MARGINS[1]
    sizes = [record_size(inner, font, 1 - axis) for inner in one.fields]
    along, across = [size[axis] for size in sizes], [size[1 - axis] for size in sizes]
    return (sum(along), max(across)) if axis == 0 else (max(across), sum(along))


def record_boxes(whole: Field, font: Font, axis: int, box: Box) -> Iterator[Box]:
    """Yield the boxes that Graphviz gives the fields of a record with a box, in the order of `Field.walk`."""
    yield box
    sizes = [record_size(one, font, 1 - axis)[axis] for one in whole.fields]
    low, more = box[axis], (box[axis + 2] - box[axis] - sum(sizes)) / max(1, len(sizes))
    for one, size in zip(whole.fields, sizes):
        high = low + size + more
        yield from record_boxes(one, font, 1 - axis, (low, box[1], high, box[3]) if axis == 0 else (box[0], low, box[2], high))
        low = high


def has_ends(drawing: Drawing, number: int, is_column: bool) -> bool:
    """Return whether all edges at a record end at their fields too if Graphviz places these."""
    graph, boxes = drawing.graph, drawing.field_boxes.get(number)
    if boxes is None:
        return True
    font = graph.looks.nodes.get(number, NodeLook()).font
    others = list(record_boxes(graph.fields[number], font, int(is_column), drawing.boxes[number]))
    for (edge, is_head), at in drawing.meets.items():
        place = graph.ends[edge, is_head].field
        if place is not None and number == (graph.edges[edge].head if is_head else graph.edges[edge].tail):
            along = 1 if min(abs(at[0] - boxes[place][side]) for side in (0, 2)) < NEAR else 0  # the axis of the side
            if not others[place][along] + 1 < at[along] < others[place][along + 2] - 1:
                return False
    return True


def without_colons(drawing: Drawing) -> Drawing:
    """Return a drawing with other names of ports in place of those with colons, which end names in DOT."""
    def of(one: Field) -> Field:
        """Return a field with all within it."""
        return dataclasses.replace(one, port=one.port.replace(":", "_"), fields=tuple(map(of, one.fields)))

    fields = {number: of(whole) for number, whole in drawing.graph.fields.items()}
    return dataclasses.replace(drawing, graph=dataclasses.replace(drawing.graph, fields=fields)) if fields else drawing


def record_text(whole: Field) -> str:
    """Return the label of a record."""
    found = []
    for one in whole.fields:
        text = one.text.translate(SIGNS)
        text = "".join("\\ " if letter == " " and (place in (0, len(text) - 1) or text[place - 1] == " ") else letter
                       for place, letter in enumerate(text))
        port = f"<{one.port.translate(SIGNS)}> " if one.port else ""
        found.append("{" + record_text(one) + "}" if one.fields else port + text)
    return "|".join(found)


def table_text(whole: Field, boxes: Sequence[Box] = (), texts: Sequence[Box] = ()) -> str:
    """Return fields as a table of Graphviz's HTML. If cells have borders and sizes, `boxes` are those of the fields, and `texts`
    those in whose middle their texts are, in the order of `Field.walk`."""
    box_of = {id(one): pair for (one, _), *pair in zip(whole.walk(), boxes, texts)}

    def cell(one: Field) -> str:
        """Return a field as a cell."""
        words = "".join(f' {key}="{count}"' for key, count in (("rowspan", one.at.rows), ("colspan", one.at.columns)) if count > 1)
        if boxes and one.fields:
            words += ' border="0"'
        elif boxes:
            (left, top, right, bottom), (x, y) = box_of[id(one)][0], boxes[0][:2]
            sizes = int(right - x) - int(left - x), int(bottom - y) - int(top - y)
            wide, high = (size // count * count for size, count in zip(sizes, (one.at.columns, one.at.rows)))  # not rounded up
            words += f' width="{wide}" height="{high}"' + aligned(*box_of[id(one)])
        text = escape(allowed(one.text), quote=False).replace("\n", "<br/>")
        return f"<td{port_word(one.port)}{words}>{table(one) if one.fields else text}</td>"

    def table(around: Field, port: str = "") -> str:
        """Return the fields in a field as a table."""
        rows = ["".join(cell(one) for one in around.fields if one.at.row == row) for row in range(around.size[0])]
        inner = "".join(f"<tr>{row}</tr>" for row in rows if row)
        return f"<table{port_word(port)}{TABLE if boxes else ''}>{inner}</table>"

    return table(whole, whole.port)


def aligned(box: Box, text: Box) -> str:
    """Return the attributes of a cell in HTML with this box, if the box in whose middle its text is lies at one of its sides."""
    found = ""
    for axis, key, sides in ((0, "align", ("left", "right")), (1, "valign", ("top", "bottom"))):
        is_after = text[axis] > box[axis]
        if is_after != (text[2 + axis] < box[2 + axis]):
            found += f' {key}="{sides[is_after]}"'
    return found and found + PADDED


def port_word(port: str) -> str:
    """Return the attribute that names a port in HTML; nothing if it has no name."""
    return f" port={attribute(port)}" if port else ""


def field_values(drawing: Drawing, number: int, is_column: bool) -> dict[str, object]:
    """Return the attributes in DOT of a vertex with fields: a record as a record if edges end at its fields there too and no
    line passes beside a text, another one as a table, whose cells have sizes; `is_column` is what `has_columns` returns."""
    graph = drawing.graph
    if number not in graph.fields:
        return {}
    whole, outline = graph.fields[number], graph.looks.nodes.get(number, NodeLook()).outline
    boxes = drawing.field_boxes.get(number, [])
    texts = drawing.text_boxes.get(number, boxes)
    is_plain = is_record(whole, is_column) and texts == boxes and has_ends(drawing, number, is_column)
    if outline in RECORDS and outline is not None and is_plain:
        return {"shape": outline.value, "label": Source(identifier(record_text(whole))), "margin": MARGIN}
    return {"label": Source(f"<{table_text(whole, boxes, texts)}>"), "margin": "0"}


def port_values(graph: Graph, number: int, clusters: Sequence[str]) -> dict[str, str]:
    """Return where an edge ends, as the attributes of DOT say it; `clusters` are the names of the clusters."""
    found = dict[str, str]()
    for is_head, port, frame in PORTS:
        end, one = graph.ends.get((number, is_head), End()), field_at(graph, number, is_head)
        words = ([one.port] if one else []) + ([end.compass.value] if end.compass else [])
        if words:
            found[port] = ":".join(words)
        if end.cluster is not None:
            found[frame] = clusters[end.cluster]
    return found


def field_at(graph: Graph, number: int, is_head: bool) -> Field | None:
    """Return the field at which an edge ends, or None if there is none."""
    edge, place = graph.edges[number], graph.ends.get((number, is_head), End()).field
    whole = graph.fields.get(edge.head if is_head else edge.tail, Field())
    return next((one for at, (one, _) in enumerate(whole.walk()) if at == place), None)


def ended(drawing: Drawing, number: int) -> list[Point]:
    """Return the line of an edge up to the points where it meets its ports."""
    first, *middle, last = drawing.lines[number]
    return [drawing.meets.get((number, False), first), *middle, drawing.meets.get((number, True), last)]


def dot_clusters(drawing: Drawing, nodes: Sequence[str], clusters: Sequence[str]) -> list[str]:
    """Return the clusters as subgraphs within each other, with the names of their nodes."""
    found, depth = list[str](), 1
    for number, is_end in steps(drawing.graph.clusters, range(len(clusters))):
        depth -= is_end
        indent = "  " * depth
        if is_end:
            found.append(indent + "}")
            continue
        found += [f"{indent}subgraph {identifier(clusters[number])} {{", f"{indent}  graph{listed(dot_cluster(drawing, number))};"]
        found += [f"{indent}  {identifier(nodes[vertex])};" for vertex in drawing.graph.clusters[number].members]
        depth += 1
    return found


def dot_cluster(drawing: Drawing, number: int) -> Values:
    """Return the attributes of a cluster in DOT; an empty text is said where the cluster would inherit something."""
    one, frame, high = drawing.graph.clusters[number], drawing.frames.get(number), drawing.size[1]
    look, found = one.look, dict[str, object](bb="", label="\n".join(lines_of(one.label)))
    if frame is not None:
        left, top, right, bottom = frame.box
        found["bb"] = f"{left:g},{high - bottom:g},{right:g},{high - top:g}"
        if frame.label_box is not None:
            left, top, right, bottom = frame.label_box
            found["lp"] = f"{(left + right) / 2:g},{high - (top + bottom) / 2:g}"
    words = [word for word, is_said in (("filled", look.fill is not None), ("rounded", look.is_rounded),
                                        (look.dash and look.dash.value, look.dash is not None),
                                        ("invis", not look.is_visible)) if is_said]
    font = {"fontname": PLAIN, "fontsize": FONT, "fontcolor": INK} | {
        key: value for key, value in lettered(look.font, FONT).items() if value is not None}
    said = {"style": ",".join(map(str, words)), "fillcolor": painted(look.fill), "labelloc": "b" * look.is_label_below,
            "labeljust": "" if look.across is Across.CENTRE else str(look.across.value), "URL": address(look.link),
            "tooltip": look.tooltip}
    return {**found, **font, "color": painted(look.colour, LINE), "penwidth": STROKE if look.width is None else look.width,
            "bgcolor": None if drawing.graph.looks.graph.background is None else "",
            **{key: value or (None if one.parent is None else "") for key, value in said.items()}}
