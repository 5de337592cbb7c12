"""A drawing as DOT with positions, as GraphML and as GML, for other programs."""
from __future__ import annotations

from collections.abc import Sequence
from html import escape

from planarbend.clusters import clusters_of
from planarbend.drawing.drawn import Box, Drawing, Point
from planarbend.drawing.file_text import (PLAIN, Values, address, attribute, gml_text, hue, identifier, lettered, listed,
                                          names_of, painted)
from planarbend.drawing.frame_picture import STROKE as FRAME_STROKE
from planarbend.drawing.items import size_of
from planarbend.drawing.nested_files import (cluster_names, dot_clusters, ended, field_at, field_values, group_names,
                                             has_columns, port_values, steps, table_text, without_colons)
from planarbend.drawing.picture import DOT, FILL, FILLS, INK, LABEL_FONT, LINE, STROKE
from planarbend.drawing.symbols import ELLIPSES, RING, WHOLE, corner_of
from planarbend.drawing.texts import FONT, allowed, lines_of
from planarbend.graph import Arrow, Graph, Kind
from planarbend.readers.dot_clusters import BEGINNING
from planarbend.readers.port_data import FIELDS
from planarbend.style import Across, ClusterLook, Colour, EdgeLook, Look, NodeLook, Outline

INCH = 72.0  # pixels, as one pixel is written as one point
ARROW = 8.0  # pixels, the length of an arrowhead
ARROW_SIZE = 0.8  # the same, in Graphviz's unit
TAB = 12.0  # pixels, three times the greatest height of the tab of a folder in Graphviz
PLAIN_LOOK = NodeLook()
YED: dict[Outline | None, str] = {
    Outline.ELLIPSE: "ellipse", Outline.CIRCLE: "ellipse", Outline.DOUBLE_CIRCLE: "ellipse", Outline.POINT: "ellipse",
    Outline.DIAMOND: "diamond", Outline.HEXAGON: "hexagon", Outline.OCTAGON: "octagon"}

def is_directed(graph: Graph) -> bool:
    """Return whether a graph is written as a directed one: its file says so, or an edge has an arrow."""
    return graph.directed or any(edge.arrow is not Arrow.NONE for edge in graph.edges)


def dot(drawing: Drawing) -> str:
    """Return the drawing as DOT with positions, sizes and splines: `neato -n2` shows it. A pixel is written as a point."""
    drawing = without_colons(drawing)
    graph, names = drawing.graph, names_of(drawing.graph)
    joint, clusters = "->" if is_directed(graph) else "--", cluster_names(graph, beginning=BEGINNING)
    is_column = has_columns(graph)
    whole: dict[str, object] = {
        "bb": f"0,0,{drawing.size[0]:g},{drawing.size[1]:g}", "label": graph.looks.graph.label or None,
        "bgcolor": painted(graph.looks.graph.background), **lettered(graph.looks.graph.font, FONT),
        "rankdir": "LR" if is_column else None,
        "compound": "true" if any(end.cluster is not None for end in graph.ends.values()) else None}
    nodes = {"shape": "box", "style": "filled,rounded", "fillcolor": FILL, "color": LINE, "penwidth": STROKE,
             "fontname": PLAIN, "fontsize": FONT, "fontcolor": INK, "fixedsize": "true"}
    edges = {"color": LINE, "penwidth": STROKE, "arrowsize": ARROW_SIZE, "fontname": PLAIN, "fontsize": LABEL_FONT,
             "fontcolor": INK}
    found = [f"{'digraph' if is_directed(graph) else 'graph'} {{", f"  graph{listed(whole)};", f"  node{listed(nodes)};",
             f"  edge{listed(edges)};"]
    for number, name in enumerate(names):
        found.append(f"  {identifier(name)}{listed(dot_node(drawing, number) | field_values(drawing, number, is_column))};")
    found += dot_clusters(drawing, names, clusters)
    for number, edge in enumerate(graph.edges):
        values = dot_edge(drawing, number) | port_values(graph, number, clusters)
        found.append(f"  {identifier(names[edge.tail])} {joint} {identifier(names[edge.head])}{listed(values)};")
    return "\n".join([*found, "}\n"])


def dot_node(drawing: Drawing, number: int) -> dict[str, object]:
    """Return the attributes of a node."""
    vertex, look, high = drawing.graph.vertices[number], drawing.graph.looks.nodes.get(number, PLAIN_LOOK), drawing.size[1]
    left, top, right, bottom = without_tabs(look.outline, drawing.boxes[number])
    place: dict[str, object] = {"pos": f"{(left + right) / 2:g},{high - (top + bottom) / 2:g}", "width": (right - left) / INCH,
                                "height": (bottom - top) / INCH}
    if vertex.kind is Kind.NET:
        wide, tall = max(right - left, STROKE), max(bottom - top, STROKE)
        is_point = wide == tall == STROKE
        wide, tall = (2 * DOT, 2 * DOT) if is_point else (wide, tall)
        return place | {"width": wide / INCH, "height": tall / INCH, "label": "", "shape": "point" if is_point else "box",
                        "fillcolor": LINE, "style": "filled"}
    found: dict[str, object] = {
        **place, "label": "\n".join(lines_of(vertex.label)),
        **shape_of(vertex.kind, look, drawing.boxes[number], vertex.label), "color": painted(look.colour), "penwidth": look.width,
        **lettered(look.font, FONT), "URL": address(look.link), "tooltip": look.tooltip or None}
    if found["shape"] == Outline.DOUBLE_CIRCLE.value:  # Graphviz draws the outer circle around this size
        found |= {"width": (right - left - 2 * RING) / INCH, "height": (bottom - top - 2 * RING) / INCH}
    fill = painted(look.fill, None if vertex.kind is Kind.VERTEX else FILLS[vertex.kind][0])
    return found if fill is None else found | {"fillcolor": fill}


def without_tabs(outline: Outline | None, box: Box) -> Box:
    """Return the box of a node in Graphviz, which draws the tab of a folder and the small boxes of a component outside it."""
    left, top, right, bottom = box
    out = min(TAB, min(right - left, bottom - top) / 3) / 3
    return left + out * (outline is Outline.COMPONENT), top + out * (outline is Outline.FOLDER), right, bottom


def shape_of(kind: Kind, look: NodeLook, box: Box, label: str) -> dict[str, object]:
    """Return the shape and the style of a node, if they are not those of a plain node."""
    least, (left, top, right, bottom) = size_of(label, kind, look), box
    outline = look.outline
    if outline is not None and any(corner_of(outline, least)):
        is_larger = right - left > least[0] + 1 or bottom - top > least[1] + 1
        outline = (Outline.ROUND_RECORD if outline in ELLIPSES else Outline.OCTAGON) if is_larger else outline
    is_round = kind is not Kind.PART and (outline in (None, Outline.ROUND_RECORD) or look.is_rounded and outline in WHOLE)
    is_filled = outline is not Outline.NONE or look.fill is not None
    words = [word for word, is_said in (("filled", is_filled), ("rounded", is_round),
                                        (look.dash and look.dash.value, look.dash is not None),
                                        ("invis", not look.is_visible)) if is_said]
    boxes = (Outline.RECORD, Outline.ROUND_RECORD, Outline.SQUARE)
    shape = "box" if outline is None or outline in boxes else outline.value
    style = None if words == ["filled", "rounded"] else ",".join(map(str, words))
    return {"shape": None if shape == "box" else shape, "style": style}


def dot_edge(drawing: Drawing, number: int) -> dict[str, object]:
    """Return the attributes of an edge."""
    edge, look = drawing.graph.edges[number], drawing.graph.looks.edges.get(number, EdgeLook())
    found: dict[str, object] = {"pos": spline(ended(drawing, number), edge.arrow, drawing.size[1])}
    way = {Arrow.NONE: "none", Arrow.FORWARD: "forward", Arrow.BACK: "back", Arrow.BOTH: "both"}[edge.arrow]
    if way != ("forward" if is_directed(drawing.graph) else "none"):
        found["dir"] = way
    for key, text, box in (("label", edge.label, drawing.label_boxes.get(number)),
                           ("taillabel", look.tail_label, drawing.end_boxes.get((number, False))),
                           ("headlabel", look.head_label, drawing.end_boxes.get((number, True)))):
        if box is not None:
            place = {"label": "lp", "taillabel": "tail_lp", "headlabel": "head_lp"}[key]
            found |= {key: "\n".join(lines_of(text)),
                      place: f"{(box[0] + box[2]) / 2:g},{drawing.size[1] - (box[1] + box[3]) / 2:g}"}
    style = look.dash.value if look.dash else None
    looks: dict[str, object] = {
        "color": painted(look.colour), "fillcolor": painted(look.fill), "penwidth": look.width,
        "style": style if look.is_visible else "invis", "arrowhead": look.head and look.head.value,
        "arrowtail": look.tail and look.tail.value, **lettered(look.font, LABEL_FONT), "URL": address(look.link),
        "tooltip": look.tooltip or None}
    return found | looks


def spline(line: list[Point], arrow: Arrow, height: float) -> str:
    """Return a line as a spline of DOT: three further points for each straight piece, and the tips of arrows apart."""
    points = [(x, height - y) for x, y in line]
    tips = []
    if arrow in (Arrow.BACK, Arrow.BOTH):
        tips.append("s,{:g},{:g}".format(*points[0]))
        points[0] = shortened(points[0], points[1])
    if arrow in (Arrow.FORWARD, Arrow.BOTH):
        tips.append("e,{:g},{:g}".format(*points[-1]))
        points[-1] = shortened(points[-1], points[-2])
    found = [points[0]]
    for (x, y), (u, v) in zip(points, points[1:]):
        found += [(x + (u - x) / 3, y + (v - y) / 3), (x + 2 * (u - x) / 3, y + 2 * (v - y) / 3), (u, v)]
    return " ".join([*tips, *(f"{round(x, 3):g},{round(y, 3):g}" for x, y in found)])


def shortened(end: Point, before: Point) -> Point:
    """Return the point at which an arrowhead begins that ends at a point, at most half-way to the one before."""
    far = abs(end[0] - before[0]) + abs(end[1] - before[1])
    share = min(ARROW, far / 2) / far
    return end[0] + share * (before[0] - end[0]), end[1] + share * (before[1] - end[1])


def gml(drawing: Drawing) -> str:
    """Return the drawing as GML, with the middle and the size of each box, and the points of each line, y downwards. Clusters with
    frames are groups of yEd."""
    graph, clusters = drawing.graph, cluster_names(drawing.graph)
    homes = {vertex: number for vertex, number in clusters_of(graph.clusters).items() if number in drawing.frames}
    found = ["graph [", f"  directed {is_directed(graph):d}", "  multigraph 1"]
    for number, vertex in enumerate(graph.vertices):
        look = graph.looks.nodes.get(number, PLAIN_LOOK)
        is_round = look.outline is None or look.is_rounded
        more = f" gid {len(graph.vertices) + homes[number]}" if number in homes else ""
        more += f" {FIELDS} {gml_text(table_text(graph.fields[number]))}" if number in graph.fields else ""
        kind = YED.get(look.outline, "roundrectangle" if is_round else "rectangle")
        found.append(f'  node [ id {number} label {gml_text(vertex.label)} name {gml_text(vertex.name)}{more}'
                     f' graphics [ {gml_box(drawing.boxes[number], kind, look)} ] ]')
    for number in drawing.frames:
        found.append(gml_group(drawing, number, clusters[number]))
    for number, (edge, line) in enumerate(zip(graph.edges, drawing.lines, strict=True)):
        edge_look = graph.looks.edges.get(number, EdgeLook())
        points = " ".join(f"point [ x {x} y {y} ]" for x, y in line)
        more = f' fill "{edge_look.colour.text}"' if edge_look.colour else ""
        more += f' style "{edge_look.dash.value}"' if edge_look.dash else ""
        for key, arrows in (("sourceArrow", (Arrow.BACK, Arrow.BOTH)), ("targetArrow", (Arrow.FORWARD, Arrow.BOTH))):
            more += f' {key} "standard"' if edge.arrow in arrows else ""
        label = f" label {gml_text(edge.label)}" if edge.label else ""
        label += "".join(f" {key} {gml_text(value)}" for key, value in port_values(graph, number, clusters).items())
        found.append(f'  edge [ source {edge.tail} target {edge.head}{label}'
                     f' graphics [ type "line"{more} Line [ {points} ] ] ]')
    return "\n".join([*found, "]\n"])


def gml_box(box: Box, kind: str, look: Look) -> str:
    """Return the graphics of a node in GML."""
    left, top, right, bottom = box
    more = "".join(f' {key} "{colour.text}"' for key, colour in (("fill", look.fill), ("outline", look.colour)) if colour)
    return f'x {(left + right) / 2} y {(top + bottom) / 2} w {right - left} h {bottom - top} type "{kind}"{more}'


def gml_group(drawing: Drawing, number: int, name: str) -> str:
    """Return a cluster in GML, by a name."""
    one, first = drawing.graph.clusters[number], len(drawing.graph.vertices)
    kind, more = "roundrectangle" if one.look.is_rounded else "rectangle", "" if one.look.fill else " hasFill 0"
    home = "" if one.parent is None else f" gid {first + one.parent}"
    return (f"  node [ id {first + number} label {gml_text(one.label)} name {gml_text(name)} isGroup 1{home}"
            f" graphics [ {gml_box(drawing.frames[number].box, kind, one.look)}{more} ]"
            f' LabelGraphics [ anchor "{label_place(one.look)}" ] ]')


def label_place(look: ClusterLook) -> str:
    """Return where the label of a frame is, in yEd's words."""
    return ("b" if look.is_label_below else "t") + ("" if look.across is Across.CENTRE else str(look.across.value))


def graphml(drawing: Drawing) -> str:
    """Return the drawing as GraphML, with coordinates as numbers for networkx and Gephi, and as graphics for yEd. Clusters with
    frames are nodes with their nodes inside."""
    graph, names = drawing.graph, names_of(drawing.graph)
    clusters = group_names(graph, names)
    ends = {key for number in range(len(graph.edges)) for key in port_values(graph, number, clusters)}
    keys = [("label", "node", "string"), *((key, "node", "double") for key in ("x", "y", "width", "height")),
            ("text", "edge", "string"), ("points", "edge", "string"),
            *([(FIELDS, "node", "string")] if graph.fields else []), *((key, "edge", "string") for key in sorted(ends))]
    found = ['<?xml version="1.0" encoding="UTF-8"?>', '<graphml xmlns="http://graphml.graphdrawing.org/xmlns"'
             ' xmlns:y="http://www.yworks.com/xml/graphml">',
             *(f'<key id="{key}" for="{of}" attr.name="{"label" if key == "text" else key}" attr.type="{kind}"/>'
               for key, of, kind in keys),
             '<key id="yn" for="node" yfiles.type="nodegraphics"/><key id="ye" for="edge" yfiles.type="edgegraphics"/>',
             f'<graph edgedefault="{default_of(graph)}">']
    found += graphml_nodes(drawing, names, clusters)
    for number, edge in enumerate(graph.edges):
        fields = [field_at(graph, number, is_head) for is_head in (False, True)]
        ports = "".join(f" {key}={attribute(one.port)}" for key, one in zip(("sourceport", "targetport"), fields) if one)
        found.append(f"<edge id=\"e{number}\" source={attribute(names[edge.tail])} target={attribute(names[edge.head])}{ports}>"
                     f"{graphml_edge(drawing, number)}{data_of(port_values(graph, number, clusters))}</edge>")
    return "\n".join([*found, "</graph>", "</graphml>\n"])


def default_of(graph: Graph) -> str:
    """Return the direction of edges in GraphML."""
    return "directed" if is_directed(graph) else "undirected"


def data_of(values: Values) -> str:
    """Return values as data of GraphML."""
    return "".join(f'<data key="{key}">{escape(allowed(str(value)), quote=False)}</data>' for key, value in values.items())


def graphml_nodes(drawing: Drawing, names: Sequence[str], clusters: Sequence[str]) -> list[str]:
    """Return all nodes of GraphML, those of a cluster with a frame inside that of the cluster; `names` and `clusters` are the names
    of vertices and clusters."""
    graph, home = drawing.graph, clusters_of(drawing.graph.clusters)
    own = {name: number for number, name in enumerate(names)}  # of the vertices that clusters are, too
    node_of = [f"<node id={attribute(name)}>{graphml_node(drawing, number)}" for number, name in enumerate(names)]
    found = [f"{node}</node>" for number, node in enumerate(node_of) if home.get(number) not in drawing.frames]
    for number, is_end in steps(graph.clusters, sorted(drawing.frames)):
        name = clusters[number]
        if is_end:
            found.append("</graph></node>")
            continue
        found.append(node_of[own[name]] if name in own else f'<node id={attribute(name)} yfiles.foldertype="group">'
                     + graphml_group(drawing, number))
        found[-1] += f'<graph id={attribute(name + ":")} edgedefault="{default_of(graph)}">'
        found += [f"{node_of[vertex]}</node>" for vertex in graph.clusters[number].members if names[vertex] != name]
    return found


def graphml_group(drawing: Drawing, number: int) -> str:
    """Return the data of a cluster with a frame."""
    one, (left, top, right, bottom) = drawing.graph.clusters[number], drawing.frames[number].box
    look, size = one.look, f' fontSize="{one.look.font.size:g}"' if one.look.font.size else ""
    text = f">{escape(allowed(one.label), quote=False)}</y:NodeLabel>" if one.label else ' hasText="false"/>'
    place = {"x": (left + right) / 2, "y": (top + bottom) / 2, "width": right - left, "height": bottom - top}
    return "".join([
        '<data key="yn"><y:ProxyAutoBoundsNode><y:Realizers active="0"><y:GroupNode>',
        f'<y:Geometry x="{left}" y="{top}" width="{right - left}" height="{bottom - top}"/>',
        f'<y:Fill {hue(look.fill or Colour("none"))}/><y:BorderStyle {hue(look.colour or Colour(LINE))}'
        f' type="{look.dash.value if look.dash else "line"}" width="{FRAME_STROKE if look.width is None else look.width:g}"/>',
        f'<y:NodeLabel modelName="internal" modelPosition="{label_place(look)}"{size}{text}',
        f'<y:Shape type="{"roundrectangle" if look.is_rounded else "rectangle"}"/>',
        '</y:GroupNode></y:Realizers></y:ProxyAutoBoundsNode></data>',
        data_of({"label": one.label} if one.label else {}), data_of(place)])


def graphml_node(drawing: Drawing, number: int) -> str:
    """Return the data of a node."""
    vertex, (left, top, right, bottom) = drawing.graph.vertices[number], drawing.boxes[number]
    look = drawing.graph.looks.nodes.get(number, PLAIN_LOOK)
    values = {"label": vertex.label, "x": (left + right) / 2, "y": (top + bottom) / 2, "width": right - left,
              "height": bottom - top}
    fill, line = look.fill or Colour(FILLS.get(vertex.kind, (FILL, 0))[0]), look.colour or Colour(LINE)
    size = f' fontSize="{look.font.size:g}"' if look.font.size else ""
    kind = YED.get(look.outline, "rectangle") if look.outline else "roundrectangle"
    return "".join([
        f'<data key="yn"><y:ShapeNode><y:Geometry x="{left}" y="{top}" width="{right - left}" height="{bottom - top}"/>',
        f'<y:Fill {hue(fill)}/><y:BorderStyle {hue(line)} type="{look.dash.value if look.dash else "line"}"'
        f' width="{STROKE}"/><y:NodeLabel{size}>{escape(allowed(vertex.label), quote=False)}</y:NodeLabel>'
        f'<y:Shape type="{kind}"/></y:ShapeNode></data>', data_of(values), graphml_fields(drawing.graph, number)])


def graphml_fields(graph: Graph, number: int) -> str:
    """Return the ports of a node with fields, and the fields as data."""
    if number not in graph.fields:
        return ""
    names = dict.fromkeys(one.port for one, _ in graph.fields[number].walk() if one.port)
    return data_of({FIELDS: table_text(graph.fields[number])}) + "".join(f"<port name={attribute(name)}/>" for name in names)


def graphml_edge(drawing: Drawing, number: int) -> str:
    """Return the data of an edge."""
    edge, line = drawing.graph.edges[number], drawing.lines[number]
    look = drawing.graph.looks.edges.get(number, EdgeLook())
    boxes = [drawing.boxes[end] for end in (edge.tail, edge.head)]
    (a, b), (c, d) = ((x - (box[0] + box[2]) / 2, y - (box[1] + box[3]) / 2)
                      for box, (x, y) in zip(boxes, (line[0], line[-1])))
    label = f'<data key="text">{escape(allowed(edge.label), quote=False)}</data>' if edge.label else ""
    arrows = ["standard" if edge.arrow in ways else "none" for ways in ((Arrow.BACK, Arrow.BOTH), (Arrow.FORWARD, Arrow.BOTH))]
    return "".join([
        label, f'<data key="points">{" ".join(f"{x},{y}" for x, y in line)}</data>',
        f'<data key="ye"><y:PolyLineEdge><y:Path sx="{a:g}" sy="{b:g}" tx="{c:g}" ty="{d:g}">',
        *(f'<y:Point x="{x}" y="{y}"/>' for x, y in line[1:-1]),
        f'</y:Path><y:LineStyle {hue(look.colour or Colour(LINE))} type="{look.dash.value if look.dash else "line"}"'
        f' width="{STROKE if look.width is None else look.width:g}"/><y:Arrows source="{arrows[0]}" target="{arrows[1]}"/>',
        f"<y:EdgeLabel>{escape(allowed(edge.label), quote=False)}</y:EdgeLabel>" if edge.label else "",
        "</y:PolyLineEdge></data>"])
