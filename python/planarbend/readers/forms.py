"""Determines the format of a file from its content."""
from __future__ import annotations

import os
import re

from planarbend.readers.fault import Fault, shown

HEAD = 1 << 16  # bytes that are examined
ENDINGS = {".dot": "dot", ".gv": "dot", ".graphml": "graphml", ".gml": "gml", ".g6": "graph6", ".json": "json",
           ".net": "netlist", ".kicad_pcb": "board"}

# Kinds of files that are not graphs, by their first bytes.
FOREIGN: list[tuple[bytes, str] | tuple[bytes, str, bytes]] = [
    (b">>planar_code", "a planar_code file of embedded graphs; `planarbend layout` reads it"),
    (b">>edge_code", "an edge_code file; plantri writes it, and nothing here reads it"),
    (b">>sparse6<<", "a sparse6 file; nauty's `copyg -g` makes graph6 of it"),
    (b">>digraph6<<", "a digraph6 file; nauty's `listg` shows its arrows"),
    (b":", "a sparse6 file; nauty's `copyg -g` makes graph6 of it", rb":[?-~]+\s*$"),
    (b"\x89PNG", "a PNG image"), (b"\xff\xd8\xff", "a JPEG image"), (b"GIF8", "a GIF image"), (b"BM", "a BMP image", rb"BM.{4}\0\0"),
    (b"RIFF", "a WebP image or a sound"), (b"II*\0", "a TIFF image"), (b"MM\0*", "a TIFF image"),
    (b"%PDF", "a PDF document"), (b"%!PS", "a PostScript document"), (b"{\\rtf", "an RTF document"),
    (b"PK\x03\x04", "a zip archive or an office document"), (b"\x1f\x8b", "a gzip file, not a graph: unpack it first"),
    (b"BZh", "a bzip2 file, not a graph: unpack it first", rb"BZh[1-9]1AY"), (b"\xfd7zXZ", "an xz file, not a graph: unpack it first"),
    (b"\x28\xb5\x2f\xfd", "a zstd file, not a graph: unpack it first"), (b"7z\xbc\xaf", "a 7z archive"),
    (b"\x7fELF", "a program"), (b"SQLite format 3", "an SQLite database"),
    (b"EESchema Schematic", "a schematic of KiCad 5 or older: open it in KiCad, and export a netlist (File, Export, Netlist)"),
    (b"PCBNEW-BOARD", "a board from KiCad before version 4: open it in a newer KiCad and save it"),
    (b"# EESchema Netlist", "an old KiCad netlist format; export it in KiCad's own format"),
    (b"( { ", "an OrcadPCB2 netlist; export it in KiCad's own format"),
]
SCHEMATIC = ("a KiCad schematic, which has symbols and wires but no list of connections: export a netlist, in KiCad by"
             " File, Export, Netlist, or by `kicad-cli sch export netlist FILE`, and draw that")
EXPRESSIONS = {"export": "netlist", "kicad_pcb": "board"}
FOREIGN_EXPRESSIONS = {"kicad_sch": SCHEMATIC, "kicad_symbol_lib": "a library of KiCad's symbols",
                       "kicad_wks": "a drawing sheet of KiCad", "footprint": "a footprint of KiCad",
                       "module": "a footprint of KiCad", "edif": "an EDIF netlist; export it in KiCad's own format",
                       "pcb": "a Specctra board"}
FOREIGN_XML = {"svg": "an SVG image", "html": "an HTML page", "gexf": "a GEXF graph; Gephi and networkx make GraphML of it",
               "gxl": "a GXL graph; Graphviz's `gxl2gv` makes DOT of it", "mxfile": "a diagram of draw.io",
               "export": "a netlist of KiCad in XML; export it in KiCad's own format"}
FOREIGN_OBJECTS = [
    ({"crossings", "vertices", "edges"}, "a drawing that planarbend-draw wrote, and not a graph"),
    ({"status", "record"}, "JSON Lines of planarbend"), ({"status", "graph"}, "JSON Lines of planarbend"),
    ({"meta", "project"}, "a project or settings of KiCad"), ({"cells", "nbformat"}, "a Jupyter notebook"),
]

SPACE = rb"(?:\s|/\*.*?\*/|//[^\n]*(?:\n|$)|(?:^|(?<=\n))#[^\n]*(?:\n|$))*"
QUOTED = rb'"(?:[^"\\]|\\.)*"'
IDENTIFIER = rb"(?:" + QUOTED + rb"(?:" + SPACE + rb"\+" + SPACE + QUOTED + rb")*|[A-Za-z_0-9.\x80-\xff-]+|<[^<>]*>)"
DOT = re.compile(SPACE + rb"(?:strict" + SPACE + rb")?(?:di)?graph\b" + SPACE + rb"(?:" + IDENTIFIER + SPACE + rb")?\{", re.I | re.S)
GML = re.compile(rb'(?:\s+|#[^\n]*\n|(?!graph\b)[A-Za-z]\w*[ \t]+(?:"[^"]*"|[^\s\["]+)[ \t]*\r?\n)*graph\s*\[')
XML = re.compile(rb"(?:\s+|<\?.*?\?>|<!--.*?-->|<!DOCTYPE[^>\[]*(?:\[.*?\]\s*)?>)*<(?:[\w.-]+:)?([\w.-]+)", re.S | re.I)
EXPRESSION = re.compile(rb"\s*\(\s*([\w.-]+)")
BINARY = re.compile(rb"[\x00-\x08\x0e-\x1f]")


def form_of(data: bytes, name: str) -> str:
    """Return the format of a file, by its content or, if that does not identify a format, by the extension of its name; raise
    a `Fault` if the file is of a known kind that is not a graph, is empty, or is not text."""
    data = data.removeprefix(b"\xef\xbb\xbf")
    check_foreign(data)
    head = data[:HEAD]
    by_name = ENDINGS.get(os.path.splitext(name)[1].lower())
    found = of_expression(data) or of_xml(head) or of_json(data)
    if found:
        return found
    if head.startswith(b">>graph6<<"):
        return "graph6"
    if DOT.match(head):
        return "dot"
    if GML.match(head):
        return "gml"
    return by_name or "list"


def check_foreign(data: bytes) -> None:
    """Check that a file may be a graph, or raise a `Fault` if it is empty, no text, or of a known kind that is not a graph."""
    for mark, what, *pattern in FOREIGN:
        if data.startswith(mark) and (not pattern or re.match(pattern[0], data, re.S)):
            raise Fault(f"{what}, not a graph" if "graph" not in what else what, 1)
    if not data.strip():
        raise Fault("the file is empty")
    if data.startswith((b"\xff\xfe", b"\xfe\xff")):
        raise Fault("UTF-16 text; save it as UTF-8", 1)
    strange = BINARY.search(data)
    if strange:
        line = data.count(b"\n", 0, strange.start()) + 1
        raise Fault(f"not text: it contains the byte {strange[0][0]:#04x}", line)


def of_expression(data: bytes) -> str | None:
    """Return the format of an S-expression, or None if it is not one."""
    match = EXPRESSION.match(data)
    if match is None:
        return None
    word, line = match[1].decode(errors="replace"), data.count(b"\n", 0, match.start(1)) + 1
    if word in FOREIGN_EXPRESSIONS:
        raise Fault(FOREIGN_EXPRESSIONS[word], line)
    if word not in EXPRESSIONS and data.rstrip().endswith(b")"):
        raise Fault(f"a list in parentheses that begins with {shown(word)}, which is not a known graph format", line)
    return EXPRESSIONS.get(word)


def of_xml(head: bytes) -> str | None:
    """Return the format of an XML text, or None if it is not one."""
    match = XML.match(head)
    if match is None:
        return None
    word, line = match[1].decode(errors="replace"), head.count(b"\n", 0, match.start(1)) + 1
    if word == "graphml":
        return "graphml"
    unknown = f"XML with the root {shown(word)}, which is not a known graph format"
    raise Fault(FOREIGN_XML.get(word.lower(), unknown), line)


def of_json(data: bytes) -> str | None:
    """Return `json` if the text begins like JSON, or None."""
    match = re.match(rb'\s*(?:\{\s*(?:"|\}|$)|\[)', data)
    if match is None:
        return None
    keys = {key.decode(errors="replace") for key in re.findall(rb'[{,]\s*"(\w+)"\s*:', data[:HEAD])}
    for known, what in FOREIGN_OBJECTS:
        if known <= keys and "links" not in keys and "nodes" not in keys:
            raise Fault(what, 1)
    return "json"
