"""Graphs of 200 vertices or more, for `real_graphs.py --large`.

Dependencies and reverse dependencies of Debian's packages, a board of KiCad, netlists by yosys, and a star (Debian: debtree,
kicad-demos, yosys); and random graphs, points with edges between near ones and 5 % of the edges between any (python3-scipy).
"""
from __future__ import annotations

import itertools
import json
import random
import subprocess
from collections.abc import Callable
from pathlib import Path

FAST = ["--no-recommends", "--no-conflicts", "--no-alternatives", "--no-provides"]
BOARDS = Path("/usr/share/kicad/demos")
RIPPLE = """module ripple(input [47:0] a, b, input c, output [47:0] s, output d);
wire [48:0] carry; assign carry[0] = c; assign d = carry[48];
genvar i; generate for (i = 0; i < 48; i = i + 1) begin : bits
assign s[i] = a[i] ^ b[i] ^ carry[i]; assign carry[i+1] = (a[i] & b[i]) | (carry[i] & (a[i] ^ b[i])); end endgenerate
endmodule
"""
VOTE = """module vote(input [63:0] a, b, c, output [63:0] v, output p);
assign v = (a & b) | (b & c) | (a & c); assign p = ^v;
endmodule
"""


def packages(*words: str, needing: str = "", depth: int = 0, most: int = 0) -> str:
    """The dependencies that debtree finds; or the packages that need one, to this depth, each with at most this many."""
    if needing:
        words = ("--show-rdeps", "--max-depth=1", f"--rdeps-depth={depth}", f"--max-rdeps={most}", *FAST, needing)
    return subprocess.run(["debtree", "--no-versions", *words], check=True, capture_output=True, text=True).stdout


def netlist(source: str, folder: Path) -> str:
    """The netlist that yosys makes of a module."""
    path = folder / "netlist"
    path.with_suffix(".v").write_text(source, encoding="ascii")
    command = (f"read_verilog {path}.v; synth -flatten -noabc -run :fine; techmap; opt -full; simplemap; splitnets -ports;"
               f" opt_clean; show -format dot -viewer true -prefix {path}")
    subprocess.run(["yosys", "-q", "-p", command], check=True, capture_output=True)
    return path.with_suffix(".dot").read_text(encoding="utf-8")


def near(vertices: int, count: int, seed: int) -> str:
    """Edges of random points, as node-link JSON: of a shortest tree, between further near ones, and 5 % between any two."""
    import networkx
    import numpy
    from scipy.spatial import Delaunay

    dice, graph = random.Random(seed), networkx.Graph()
    points = numpy.array([(dice.random(), dice.random()) for _ in range(vertices)])
    pairs = sorted({(int(min(pair)), int(max(pair))) for sides in Delaunay(points).simplices
                    for pair in itertools.combinations(sides, 2)})
    graph.add_weighted_edges_from((*pair, float(numpy.hypot(*(points[pair[0]] - points[pair[1]])))) for pair in pairs)
    tree = {(min(pair), max(pair)) for pair in networkx.minimum_spanning_edges(graph, data=False)}
    further = [pair for pair in pairs if pair not in tree]
    dice.shuffle(further)
    edges = [*sorted(tree), *further[:count - round(count / 20) - len(tree)]]
    while len(edges) < count:
        one, other = dice.randrange(vertices), dice.randrange(vertices)
        if one != other and (min(one, other), max(one, other)) not in edges:
            edges.append((min(one, other), max(one, other)))
    dice.shuffle(edges)
    return json.dumps({"directed": False, "nodes": [{"id": vertex} for vertex in range(vertices)],
                       "links": [{"source": tail, "target": head} for tail, head in edges]})


# By a name: the ending of the file's name, its text, which may need a folder, and above how many connections vertices are split.
GRAPHS: dict[str, tuple[str, Callable[[Path], str], str]] = {
    "star of 240": ("txt", lambda _: "".join(f"hub -- leaf{leaf}\n" for leaf in range(1, 241)), ""),
    "coldfire": ("kicad_pcb", lambda _: next(BOARDS.glob("kit-dev-coldfire*/*.kicad_pcb")).read_text(encoding="utf-8"), ""),
    "texlive-latex-base": ("dot", lambda _: packages("texlive-latex-base"), ""),
    "needing libgsl27": ("dot", lambda _: packages(needing="libgsl27", depth=2, most=120), ""),
    "needing libgsl further": ("dot", lambda _: packages(needing="libgsl27", depth=3, most=400), ""),
    "needing liblua5.3-0": ("dot", lambda _: packages(needing="liblua5.3-0", depth=3, most=400), ""),
    "needing liblua further": ("dot", lambda _: packages(needing="liblua5.3-0", depth=4, most=800), ""),
    "needing libhdf5-103-1": ("dot", lambda _: packages(needing="libhdf5-103-1", depth=2, most=200), ""),
    "cups": ("dot", lambda _: packages("cups"), "8"),
    "kicad": ("dot", lambda _: packages("kicad"), "6"),
    "hplip": ("dot", lambda _: packages("hplip"), "10"),
    "adder of 48 bits": ("dot", lambda folder: netlist(RIPPLE, folder), ""),
    "64 votes": ("dot", lambda folder: netlist(VOTE, folder), ""),
    "random 400": ("json", lambda _: near(400, 560, 1), ""),
    "random 400 again": ("json", lambda _: near(400, 560, 2), ""),
    "random 1000": ("json", lambda _: near(1000, 1250, 1), ""),
    "random 1000 again": ("json", lambda _: near(1000, 1250, 2), ""),
}
