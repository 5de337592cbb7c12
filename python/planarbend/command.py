"""The command `planarbend-draw`, which is also `python3 -m planarbend draw`."""
from __future__ import annotations

import argparse
import os
import re
import sys
from collections.abc import Sequence

from planarbend.draw import DrawError, draw
from planarbend.drawing.drawn import Drawing
from planarbend.layout.engine import Engine, ProcessEngine, default_engine
from planarbend.graph import Graph, Kind, split
from planarbend.programs import SCRIPT, PlanarbendError
from planarbend.drawing.picture import CONVERTED, WRITTEN, NoConverter, check_output, svg, write_picture
from planarbend.drawing.plans import Options
from planarbend.drawing.themes import THEMES
from planarbend.layout.planar_code import HEADER
from planarbend.progress import Progress
from planarbend.readers import FORMS, ReadError, read

ABOUT = "Draws a graph along horizontal and vertical lines with few bends and few crossings; edges cross at right angles."
TEXT = """\
examples:
  planarbend-draw radio.txt -o radio.svg
  planarbend-draw house.dot -o house.pdf --outer Street,Garden
  planarbend-draw board.kicad_pcb -o board.png --split GND,VCC
  planarbend-draw amplifier.kicad_sch -o amplifier.svg

Of a circuit it draws the schematic: parts with pins, symbols, wires and flags. A circuit is a KiCad schematic or netlist,
JSON of yosys, or a SPICE netlist. (With --format netlist, --split, --outer, --straight or --compact, a KiCad netlist is
drawn as a graph.)

GRAPH is a list of connections, one or more per line (`antenna -- tuner -> mixer`, or two words); DOT, GraphML, GML,
node-link JSON or graph6; a KiCad netlist or board; or planar_code, of which each graph is drawn as it is embedded
(then --outer takes first or best, and shades the outer face). The content determines the format, unless --format is given.

networkx (Debian: python3-networkx) tests which graphs are planar, and reads GraphML, GML and graph6. DOT is read by
Graphviz (graphviz). rsvg-convert (librsvg2-bin) makes PNG and PDF. Layouts are computed by libplanarbend of this checkout,
this package or the system; or by the program planarbend: the one that PLANARBEND names, that of this checkout or this
package, or the one on the path. Schematics need the library, NumPy and SciPy (python3-numpy, python3-scipy).

exit status: 0; 1 if the graph cannot be read or drawn (standard error says why, and nothing is written); 2 if the
command line is wrong; 3 if a page was written, but its planar_code does not end complete
"""
ENDINGS = (".svg", ".json", ".pc", ".html", *CONVERTED, *WRITTEN)
INCOMPLETE = 3  # exit status
GRAPH_OPTIONS = ("split", "outer", "straight", "compact", "graphs")
TAKES_PLANAR_CODE = (".svg", ".html", *CONVERTED)


class Help(argparse.RawDescriptionHelpFormatter):
    """Help as wide as COLUMNS or the terminal. To find the width, argparse would load many compression modules."""

    def __init__(self, prog: str) -> None:
        """Return the help of a program."""
        columns = os.environ.get("COLUMNS", "")
        try:
            width = int(columns) if columns.isdecimal() else os.get_terminal_size().columns
        except OSError:
            width = 80
        super().__init__(prog, width=(width or 80) - 2)


def command_line() -> argparse.Namespace:
    """Return the arguments."""
    parser = argparse.ArgumentParser(description=ABOUT, epilog=TEXT, formatter_class=Help)
    parser.add_argument("graph", metavar="GRAPH", help="the file, or - for standard input")
    parser.add_argument("-o", "--output", metavar="OUT", required=True,
                        help="a picture (.svg, .png, .pdf); of planar_code an HTML page of all graphs (.html); the"
                             " drawing's points for other programs (.json, .graphml, .gml, .gv, .dot); the embedding with"
                             " its crossings as planar_code (.pc); or - for SVG on standard output")
    parser.add_argument("--format", choices=FORMS, help="the format of GRAPH (default: by its content)")
    parser.add_argument("--outer", metavar="NAMES", help="put these vertices on the outer face; commas separate names")
    parser.add_argument("--straight", metavar="NAME--NAME", action="append", default=[],
                        help="draw the edges between these two vertices without bends; may be repeated; needs libplanarbend")
    parser.add_argument("--split", metavar="NETS|DEGREE",
                        help="replace these vertices, or nets of more connections than DEGREE, by a labelled flag at each"
                             " connection")
    add_circuits(parser)
    parser.add_argument("--compact", action="store_true", help="smaller drawing with more bends")
    parser.add_argument("--effort", metavar="N", type=int, default=1,
                        help="search longer for fewer crossings and bends (default 1; 0 is fastest)")
    parser.add_argument("--seed", metavar="N", type=int, default=0,
                        help="seed of the random choices: the same seed gives the same drawing (default 0)")
    parser.add_argument("--scale", metavar="N", type=float, default=1.0, help="scale of a PNG; 1 is 96 dots per inch")
    parser.add_argument("--theme", choices=THEMES, default="light",
                        help="colours where GRAPH says none: light, dark, or as the reader's system is set (auto, SVG only)")
    parser.add_argument("--graphs", metavar="LIST", type=numbers,
                        help="of planar_code, draw these graphs in a grid or on a page, such as 1-12 (default: the first; on a"
                             " page all)")
    words = parser.parse_args()
    check_words(parser, words)
    return words


def add_circuits(parser: argparse.ArgumentParser) -> None:
    """Add the arguments that are for circuits only."""
    parser.add_argument("--sheet", "--module", metavar="NAME", dest="inner",
                        help="of a circuit, draw this sheet of the hierarchy, this module or this subcircuit")
    parser.add_argument("--flags", metavar="N", type=int, default=8,
                        help="in a schematic, replace nets with more pins than N by a labelled flag at each pin (default 8)")
    parser.add_argument("--wire", metavar="NETS", default="",
                        help="draw these nets of a schematic as wires, however many pins they have; commas separate names")
    parser.add_argument("--free", action="store_true", help="fewer bends: any part of a schematic may be rotated")


def numbers(word: str) -> list[int]:
    """Return the numbers of a list such as 1-12."""
    from planarbend.tools.svg import numbers_of  # slow to load

    return numbers_of(word)


def check_words(parser: argparse.ArgumentParser, words: argparse.Namespace) -> None:
    """Check the arguments; end with the status 2 if one is wrong."""
    if os.path.splitext(words.output)[1] not in ENDINGS and words.output != "-":
        parser.error(f"OUT must end with {', '.join(ENDINGS)}")
    if not 0.1 <= words.scale <= 20:
        parser.error("--scale must be 0.1 to 20")
    if not 0 <= words.effort <= 100:
        parser.error("--effort must be 0 to 100")
    if words.flags < 2:
        parser.error("--flags must be at least 2")


def named(graph: Graph, names: str) -> list[int]:
    """Return the vertices with these names, or raise a `DrawError` if several vertices, or none, have a name."""
    found = []
    for name in filter(None, map(str.strip, names.split(","))):
        at = [number for number, vertex in enumerate(graph.vertices) if vertex.name == name]
        at = at or [number for number, vertex in enumerate(graph.vertices) if vertex.label == name]
        if len(at) != 1:
            raise DrawError(f"{len(at)} vertices are named {name}" if at else f"no vertex is named {name}")
        found.append(at[0])
    return found


def between(graph: Graph, names: str) -> list[int]:
    """Return the edges between two vertices, given as `NAME--NAME`, or raise a `DrawError` if there are none."""
    known = {name for vertex in graph.vertices for name in (vertex.name, vertex.label)}
    cuts = [(names[:match.start()].strip(), names[match.end():].strip()) for match in re.finditer("--", names)]
    pair = next((cut for cut in cuts if known.issuperset(cut)), None)
    if pair is None:
        raise DrawError(f"no two vertices are named {names} (--straight takes NAME--NAME)")
    ends = {vertex for name in pair for vertex in named(graph, name)}
    found = [number for number, edge in enumerate(graph.edges) if {edge.tail, edge.head} == ends]
    if not found:
        raise DrawError(f"no edge joins {pair[0]} and {pair[1]}")
    return found


def to_split(graph: Graph, which: str) -> list[int]:
    """Return the vertices to split: those with these names, or those with more connections than a number; in a circuit, only
    nets."""
    if not which.isdecimal():
        return named(graph, which)
    degree = [0] * len(graph.vertices)
    for edge in graph.edges:
        degree[edge.tail] += 1
        degree[edge.head] += 1
    is_circuit = any(vertex.kind is Kind.NET for vertex in graph.vertices)
    return [number for number, vertex in enumerate(graph.vertices)
            if degree[number] > int(which) and (vertex.kind is Kind.NET or not is_circuit)]


def write(drawing: Drawing, path: str, scale: float, theme: str) -> None:
    """Write a drawing in the format of the file's extension."""
    if path == "-":
        sys.stdout.write(svg(drawing, theme))
        sys.stdout.flush()
    elif path.endswith((".json", ".pc", *WRITTEN)):
        ending = os.path.splitext(path)[1]
        data = drawing.planar_code() if ending == ".pc" else drawing.text(WRITTEN.get(ending, "json")).encode()
        with open(path, "wb") as out:
            out.write(data)
    else:
        write_picture(svg(drawing, theme), path, scale)


def draw_embedded(data: bytes, words: argparse.Namespace) -> int:
    """Return the exit status after drawing graphs of planar_code as they are embedded."""
    from planarbend.tools.embedded import embedded_text

    ending = os.path.splitext(words.output)[1]
    if words.output != "-" and ending not in TAKES_PLANAR_CODE:
        raise DrawError(f"planar_code is drawn as {', '.join(TAKES_PLANAR_CODE)}, not as {ending}")
    text, end = embedded_text(data, words.graph, words.graphs, words.outer, ending == ".html")
    if words.output == "-":
        sys.stdout.write(text)
        sys.stdout.flush()
    else:
        write_picture(text, words.output, words.scale)
    if end != "complete":
        print(f"planarbend-draw: {words.graph} ends {end}, so graphs may be missing", file=sys.stderr)
    return 0 if end == "complete" else INCOMPLETE


def warn(words: argparse.Namespace, warnings: Sequence[str]) -> None:
    """Say on standard error what is not drawn as the file says."""
    for warning in warnings:
        print(f"planarbend-draw: {words.graph}: {warning}", file=sys.stderr)


def draw_graph(data: bytes, words: argparse.Namespace) -> int:
    """Return the exit status after drawing a graph."""
    if words.graphs or words.output.endswith(".html"):
        raise DrawError(f"{words.graph}: {'--graphs' if words.graphs else 'an HTML page'} needs planar_code")
    graph = read(data, words.graph, words.format)
    if words.split:
        graph = split(graph, to_split(graph, words.split))
    outer = named(graph, words.outer) if words.outer else ()
    straight = [edge for names in words.straight for edge in between(graph, names)]
    warn(words, graph.looks.warnings)
    known = len(graph.looks.warnings)
    with Progress("planarbend-draw"):
        drawing = draw(graph, Options(outer, words.compact, words.effort, words.seed, straight), engine_of())
    warn(words, graph.looks.warnings[known:])
    write(drawing, words.output, words.scale, words.theme)
    return 0


def graph_options(words: argparse.Namespace) -> list[str]:
    """Return the options that were given and are for graphs only."""
    return [f"--{name}" for name in GRAPH_OPTIONS if getattr(words, name)]


def is_circuit(data: bytes, words: argparse.Namespace) -> bool:
    """Return whether a schematic is to be drawn: the file is a circuit, and not a netlist that options for graphs ask to draw as
    a graph."""
    from planarbend.schematics.readers.forms import circuit_form

    form = None if words.format else circuit_form(data, words.graph)
    return form is not None and not (form == "netlist" and graph_options(words))


def draw_circuit(data: bytes, words: argparse.Namespace) -> int:
    """Return the exit status after drawing the schematic of a circuit."""
    from planarbend.layout.library import LibraryEngine
    from planarbend.schematics import schematic_of
    from planarbend.schematics.flags import split as flagged
    from planarbend.schematics.picture import svg as schematic_svg
    from planarbend.schematics.readers import read as read_circuit

    ending = os.path.splitext(words.output)[1]
    if graph_options(words):
        raise DrawError(f"{words.graph}: {graph_options(words)[0]} is for graphs, not for schematics")
    if words.output != "-" and ending not in (".svg", ".json", *CONVERTED):
        raise DrawError(f"a schematic is written as .svg, .png, .pdf or .json, not as {ending}")
    sheet = read_circuit(data, words.graph, inner=words.inner)
    for note in sheet.notes:
        print(f"planarbend-draw: {words.graph}: {note}", file=sys.stderr)
    with Progress("planarbend-draw"):
        wired = [name for name in map(str.strip, words.wire.split(",")) if name]
        drawing = schematic_of(flagged(sheet, words.flags, wired), LibraryEngine(), words.seed, words.effort, words.free)
    if ending == ".json":
        with open(words.output, "w", encoding="utf-8") as out:
            out.write(drawing.json() + "\n")
    elif words.output == "-":
        sys.stdout.write(schematic_svg(drawing, words.theme))
        sys.stdout.flush()
    else:
        write_picture(schematic_svg(drawing, words.theme), words.output, words.scale)
    return 0


def engine_of() -> Engine:
    """Return the engine. If nothing is built in this checkout, a message on standard error says that this is slow."""
    engine = default_engine()
    if isinstance(engine, ProcessEngine) and engine.program == SCRIPT:
        print("planarbend-draw: planarbend is not built, so a drawing takes many trial runs of a minute or two each:"
              f" stop this, and run {SCRIPT} --build first", file=sys.stderr)
    return engine


def run() -> int:
    """Return the exit status of the command."""
    words = command_line()
    try:
        if words.output != "-":
            check_output(words.output)
        with sys.stdin.buffer if words.graph == "-" else open(words.graph, "rb") as source:
            data = source.read()
        if is_circuit(data, words):
            return draw_circuit(data, words)
        return draw_embedded(data, words) if data.startswith(HEADER) and not words.format else draw_graph(data, words)
    except (ReadError, DrawError, PlanarbendError, NoConverter) as fault:
        print(f"planarbend-draw: {fault}", file=sys.stderr)
    except ModuleNotFoundError as error:
        print(f"planarbend-draw: needs the Python library {error.name} (Debian: python3-{error.name};"
              f" pip install {error.name})", file=sys.stderr)
    except OSError as error:
        print(f"planarbend-draw: {error.filename or words.output}: {error.strerror}", file=sys.stderr)
    return 1
