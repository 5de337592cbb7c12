"""Layouts of embedded planar graphs, and drawings of any graph.

    from planarbend import layouts
    for layout in layouts([{"a": ["b"], "b": ["a"]}], outer="best"):
        print(layout.bends, layout.points["a"], layout.path("a", "b"), layout.outer_face)
"""
from __future__ import annotations

from typing import TYPE_CHECKING, Any

from planarbend.clusters import Cluster
from planarbend.graph import Arrow, Edge, Graph, Kind, Vertex
from planarbend.ports import Compass, End, Field, Side, Span
from planarbend.programs import NoProgram, PlanarbendError, RunFailed, program

if TYPE_CHECKING:
    from planarbend.layout.laid_out import (GraphError, GraphLost, GraphRefused, GraphUndrawn, GraphUnkept, Layout, Layouts,
                                            Record, layout_of, layouts)

__all__ = ["Arrow", "Cluster", "Compass", "Edge", "End", "Field", "Graph", "GraphError", "GraphLost", "GraphRefused",
           "GraphUndrawn", "GraphUnkept", "Kind", "Layout", "Layouts", "NoProgram", "PlanarbendError", "Record", "RunFailed",
           "Side", "Span", "Vertex", "layout_of", "layouts", "program"]


def __getattr__(name: str) -> Any:
    """Return a name of `planarbend.layout.laid_out`, which is loaded on first use: drawing does not need it."""
    if name not in __all__:
        raise AttributeError(f"module 'planarbend' has no attribute {name!r}")
    import importlib

    return getattr(importlib.import_module("planarbend.layout.laid_out"), name)
