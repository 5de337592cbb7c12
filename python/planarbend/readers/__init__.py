"""Reads graphs from files: `read` finds the format from the content."""
from __future__ import annotations

from importlib import import_module

from planarbend.graph import Graph
from planarbend.readers.fault import Fault, ReadError
from planarbend.readers.forms import form_of

__all__ = ["FORMS", "ReadError", "read"]

READERS = {  # the module of each format's reader, which is loaded when it is needed
    "list": "lists", "dot": "dot", "graphml": "networks", "gml": "networks", "json": "networks", "graph6": "networks",
    "netlist": "kicad", "board": "kicad"}
FORMS: tuple[str, ...] = tuple(READERS)  # what --format takes


def read(data: bytes, name: str, form: str | None = None) -> Graph:
    """Return the graph in the bytes of a file.

    Parameters
    ----------
    data : bytes
        The whole file.
    name : str
        Its name, for messages; its extension identifies graph6 without a header.
    form : str, optional
        One of `FORMS`; found from the content by default.

    Returns
    -------
    Graph
        It has at least one vertex; vertices and edges are in the file's order if the format keeps one.

    Raises
    ------
    ReadError
        The file is not of this format or of any known one, it contains no vertices, or the program that reads its format is
        missing.
    ValueError
        `form` is not one of `FORMS`.
    """
    if form is not None and form not in READERS:
        raise ValueError(f"no such format: {form} (known: {', '.join(FORMS)})")
    try:
        form = form or form_of(data, name)
        found: Graph = getattr(import_module(f"planarbend.readers.{READERS[form]}"), f"read_{form}")(data)
        if not found.vertices:
            raise Fault("the file contains no vertices")
    except Fault as fault:
        raise ReadError(name, fault.line, fault.reason) from None
    return Graph(found.vertices, found.edges, found.directed, found.looks, found.fields, found.ends, found.clusters)
