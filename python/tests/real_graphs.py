#!/usr/bin/env python3
"""Draws 93 real graphs and compares their crossings, bends, area and time with a table of figures.

The graphs are examples of Graphviz, demo boards of KiCad and graphs of networkx (Debian: graphviz-doc, kicad-demos,
python3-networkx; the first two are downloaded with apt-get if they are not installed, and deleted afterwards). Each is drawn
by a separate process `python3 -m planarbend draw`, and drawing_checker.py checks each drawing. real_graphs.csv has the
figures of OGDF and of an early version.

The graphs are as OGDF received them: parallel connections of a board only once, no loops, no parts without a connection;
boxes with names only, so that sizes are comparable (`--labels` draws the graphs as they are). OGDF's figures are from its
release 2012.07, with 10 pixels between lines; pydot read the graphs. Those that pydot reads differently from Graphviz were
measured again.

With --large, the graphs are those of large_graphs.py, which have 200 vertices or more; random ones are only planarized
(--planarize-only). OGDF's figures are those of Debian's libogdf-tulip-5.4 for the same graphs without loops and parallel edges,
with boxes that are squares with 20 pixels of side for each edge and 8 starts; with effort, each edge is inserted again.
"""
from __future__ import annotations

import argparse
import collections
import concurrent.futures
import csv
import gzip
import json
import os
import statistics
import subprocess
import sys
import tempfile
import time
from dataclasses import dataclass
from pathlib import Path

sys.dont_write_bytecode = True
TESTS = Path(__file__).resolve().parent
PACKAGE = TESTS.parent
sys.path.insert(0, str(PACKAGE))
import drawing_checker
import large_graphs
from planarbend.command import to_split
from planarbend.graph import Graph, Kind, split
from planarbend.readers import read

TABLE, LARGE_TABLE = TESTS / "real_graphs.csv", TESTS / "large_graphs.csv"
PACKAGES = {"graphviz-doc": "usr/share/doc/graphviz/examples/graphs", "kicad-demos": "usr/share/kicad/demos"}
BIG = "lesmis"  # the sums are without it
WANTED = {"crossings": 680, "bends": 480, "boxes": 2, "room": 1.1, "room of --compact": 0.85, "median": 0.3, "worst": 20.0}
UNDRAWN = 2  # times OGDF's figures
NETWORKX = {
    "karate": ("karate_club_graph",), "florentine": ("florentine_families_graph",), "lesmis": ("les_miserables_graph",),
    "petersen": ("petersen_graph",), "tutte": ("tutte_graph",), "icosahedral": ("icosahedral_graph",),
    "K33": ("complete_bipartite_graph", 3, 3), "grid5x6": ("grid_2d_graph", 5, 6), "grid10x10": ("grid_2d_graph", 10, 10),
    "dodecahedral": ("dodecahedral_graph",), "davis": ("davis_southern_women_graph",),
    **{f"K{n}": ("complete_graph", n) for n in range(5, 9)},
}


@dataclass
class Result:
    """What came of one graph: `fault` is empty where it was drawn and the drawing is right."""

    name: str
    size: tuple[int, int]
    fault: str
    seconds: float
    crossings: int = 0
    bends: int = 0
    pixels: float = 0.0
    boxes: int = 0  # that are no rectangles


def command_line() -> argparse.Namespace:
    parser = argparse.ArgumentParser(description=__doc__, formatter_class=argparse.RawDescriptionHelpFormatter,
                                     epilog="status: 0 where all that is wanted is reached, 1 where it is not")
    parser.add_argument("--only", metavar="NAME", action="append", help="this graph alone; may be repeated")
    parser.add_argument("--large", action="store_true", help="the graphs of large_graphs.py")
    parser.add_argument("--planarize-only", action="store_true", help="find crossings and draw nothing")
    parser.add_argument("--labels", action="store_true", help="draw the files as they are, with their labels and loops")
    parser.add_argument("--compact", action="store_true", help="draw with --compact")
    parser.add_argument("--effort", metavar="N", help="draw with --effort N")
    parser.add_argument("--seed", metavar="N", help="draw with --seed N")
    parser.add_argument("--processor", action="store_true", help="seconds of processor time, for a machine that does other work")
    parser.add_argument("-j", "--jobs", metavar="N", type=int, default=1, help="graphs at once (1); more makes times worse")
    parser.add_argument("--keep", metavar="FOLDER", help="leave the inputs and drawings in this folder")
    return parser.parse_args()


def package(name: str, folder: Path) -> Path:
    """The folder of a Debian package's graphs: installed, or unpacked below this folder."""
    installed = Path("/") / PACKAGES[name]
    if installed.is_dir():
        return installed
    kept = folder / name
    if not kept.is_dir():
        kept.mkdir()
        subprocess.run(["apt-get", "-q", "download", name], cwd=kept, check=True, stdout=subprocess.DEVNULL)
        subprocess.run(["dpkg-deb", "-x", next(kept.glob("*.deb")), kept], check=True)
    return kept / PACKAGES[name]


def input_of(name: str, folder: Path, is_whole: bool) -> Path:
    """The file of a graph, written below this folder: the whole of it, or what OGDF had of it."""
    if name in large_graphs.GRAPHS:
        ending, text, _ = large_graphs.GRAPHS[name]
        return written(folder / f"{name}.{ending}", text(folder).encode())
    for found in package("graphviz-doc", folder).glob(f"*/{name}.gv*"):
        data = gzip.decompress(found.read_bytes()) if found.suffix == ".gz" else found.read_bytes()
        if is_whole:
            return written(folder / f"{name}.gv", data)
        return written(folder / f"{name}.json", json.dumps(names_alone(read(data, found.name))).encode())
    for found in package("kicad-demos", folder).glob(f"*/{name}.kicad_pcb"):
        if is_whole:
            return written(folder / found.name, found.read_bytes())
        return written(folder / f"{name}.net", netlist(read(found.read_bytes(), found.name)).encode())
    return written(folder / f"{name}.json", json.dumps(of_networkx(name)).encode())


def names_alone(graph: Graph) -> dict[str, object]:
    """A graph without its labels, as node-link JSON."""
    return {"directed": graph.directed, "nodes": [{"id": vertex.name} for vertex in graph.vertices],
            "links": [{"source": graph.vertices[edge.tail].name, "target": graph.vertices[edge.head].name} for edge in graph.edges]}


def written(path: Path, data: bytes) -> Path:
    path.write_bytes(data)
    return path


def netlist(graph: Graph) -> str:
    """A board as a netlist in which no two parts are joined twice, no part to itself, and each part is joined."""
    nets: dict[frozenset[int], list[int]] = {}
    joined: dict[int, list[int]] = collections.defaultdict(list)
    for edge in graph.edges:
        if graph.vertices[edge.head].kind is Kind.NET:
            joined[edge.head].append(edge.tail)
        elif edge.tail != edge.head:
            nets.setdefault(frozenset((edge.tail, edge.head)), [edge.tail, edge.head])
    quoted = {number: json.dumps(vertex.name) for number, vertex in enumerate(graph.vertices)}
    named = [(f'"Net-({number})"', parts) for number, parts in enumerate(nets.values())]
    named += [(quoted[net], parts) for net, parts in joined.items()]
    lines = ["(export (version \"E\") (components"]
    lines += [f" (comp (ref {quoted[part]}))" for part in sorted({part for _, parts in named for part in parts})]
    lines.append(") (nets")
    for code, (name, parts) in enumerate(named, 1):
        nodes = " ".join(f"(node (ref {quoted[part]}) (pin \"{code}\"))" for part in parts)
        lines.append(f" (net (code \"{code}\") (name {name}) {nodes})")
    return "\n".join([*lines, "))"]) + "\n"


def of_networkx(name: str) -> dict[str, object]:
    """A graph of networkx as node-link JSON."""
    import networkx

    if name.startswith("reg"):
        degree, count = map(int, name[3:].split("_"))
        graph = networkx.random_regular_graph(degree, count, seed=count + degree)
    else:
        function, *words = NETWORKX[name]
        graph = getattr(networkx, function)(*words)
    nodes = sorted(graph) if name.startswith("reg") else list(graph)  # whose order else depends on hashes
    edges = sorted(map(sorted, graph.edges())) if name.startswith("reg") else graph.edges()
    return {"directed": False, "multigraph": False, "nodes": [{"id": node} for node in nodes],
            "links": [{"source": tail, "target": head} for tail, head in edges]}


def drawn(name: str, words: argparse.Namespace, folder: Path) -> Result:
    """Draws one graph and checks the drawing."""
    source, degree = input_of(name, folder, words.labels), large_graphs.GRAPHS.get(name, ("", None, ""))[2]
    graph = read(source.read_bytes(), source.name)
    graph = split(graph, to_split(graph, degree)) if degree else graph
    size = len(graph.vertices), len(graph.edges)
    if words.planarize_only:
        return planarized(name, size, graph, words)
    out, environment = folder / f"{name}.drawing.json", compiled(folder)
    options = ["--format", "netlist"] if source.suffix == ".net" else []  # a graph, not a schematic
    options += ["--split", degree] if degree else []
    options += ["--compact"] if words.compact else []
    options += ["--effort", words.effort] if words.effort else []
    options += ["--seed", words.seed] if words.seed else []
    began, used = time.perf_counter(), processor()
    ran = subprocess.run([sys.executable, "-m", "planarbend", "draw", str(source), "-o", str(out), *options],
                         cwd=PACKAGE, env=environment, capture_output=True, text=True)
    seconds = processor() - used if words.processor else time.perf_counter() - began
    if ran.returncode:
        return Result(name, size, (ran.stderr.strip() or f"status {ran.returncode}").splitlines()[-1], seconds)
    drawing = json.loads(out.read_text(encoding="utf-8"))
    try:
        found = drawing_checker.check(drawing, [(edge.tail, edge.head) for edge in graph.edges],
                                      [vertex.name for vertex in graph.vertices])
    except drawing_checker.Wrong as fault:
        return Result(name, size, f"the drawing is wrong: {fault}", seconds)
    width, height = drawing["size"]
    return Result(name, size, "", seconds, found.crossings, found.bends, width * height, found.broken)


def compiled(folder: Path) -> dict[str, str]:
    """The environment in which the package's modules are compiled, as they are where it is installed."""
    environment = {**os.environ, "PYTHONPYCACHEPREFIX": str(folder / "compiled")}
    environment.pop("PYTHONDONTWRITEBYTECODE", None)
    if not (folder / "compiled").is_dir():
        subprocess.run([sys.executable, "-m", "compileall", "-q", PACKAGE / "planarbend"], env=environment, check=True)
    return environment


def processor() -> float:
    """The processor time of all processes that ended so far, in seconds."""
    used = os.times()
    return used.children_user + used.children_system


def planarized(name: str, size: tuple[int, int], graph: Graph, words: argparse.Namespace) -> Result:
    """The crossings of one graph, component by component."""
    import networkx
    from planarbend.drawing.planarize import planarize

    whole = networkx.Graph()
    whole.add_nodes_from(range(len(graph.vertices)))
    whole.add_edges_from((edge.tail, edge.head) for edge in graph.edges if edge.tail != edge.head)
    options = {key: int(value) for key, value in (("effort", words.effort), ("seed", words.seed)) if value}
    began, crossings = time.perf_counter(), 0
    for component in networkx.connected_components(whole):
        number = {vertex: place for place, vertex in enumerate(sorted(component))}
        edges = sorted((number[min(edge)], number[max(edge)]) for edge in whole.subgraph(component).edges)
        try:
            crossings += planarize(len(component), edges, **options).crossings
        except NotImplementedError as fault:
            return Result(name, size, str(fault), time.perf_counter() - began)
    return Result(name, size, "", time.perf_counter() - began, crossings)


def line_of(row: dict[str, str], result: Result) -> str:
    """The line of one graph: the figures of OGDF (with effort), of the first try and of today."""
    changed = "" if result.size == (int(row["n"]), int(row["m"])) else f" n+ {result.size[0]} {result.size[1]}"
    if result.fault:
        return f"{row['graph']:<22} not drawn in {result.seconds:.1f} s: {result.fault}{changed}"
    too_many = " TOO MANY" if result.crossings > most_crossings(row) else ""
    return (f"{row['graph']:<22}{result.crossings:>5} ({row['effort_crossings']:>3}, {row['first_crossings'] or '-':>3})"
            f"{result.bends:>6} ({row['growing_bends']:>3}, {row['first_bends'] or '-':>3})"
            f"{result.pixels / 1000:>7.0f} ({row['ogdf_kilopixels']:>4}, {row['first_kilopixels'] or '-':>4})"
            f"{result.boxes:>4}{result.seconds:>8.2f}{changed}{too_many}")


def most_crossings(row: dict[str, str]) -> float:
    """The most crossings that a graph may have."""
    return max(int(row["effort_crossings"]) + 1, 1.1 * int(row["effort_crossings"]))


def sums(rows: list[dict[str, str]], results: list[Result], words: argparse.Namespace) -> bool:
    """Prints the sums beside what is wanted; whether all of that is reached."""
    pairs = [(row, result) for row, result in zip(rows, results) if row["graph"] != BIG]
    counted: dict[str, float] = collections.Counter()
    for row, result in pairs:
        counted["crossings"] += UNDRAWN * int(row["ogdf_crossings"]) if result.fault else result.crossings
        counted["bends"] += UNDRAWN * int(row["growing_bends"]) if result.fault else result.bends
        counted["pixels"] += UNDRAWN * 1000 * int(row["ogdf_kilopixels"]) if result.fault else result.pixels
        counted["boxes"] += result.boxes
        counted["above"] += not result.fault and result.crossings > most_crossings(row)
    whole = len(pairs) == sum(row["graph"] != BIG for row in table(TABLE))
    undrawn = sum(bool(result.fault) for result in results)
    room = counted["pixels"] / (1000 * sum(int(row["ogdf_kilopixels"]) for row, _ in pairs) or 1)
    seconds = [result.seconds for result in results]
    lines = [("undrawn", undrawn, 1), ("crossings", counted["crossings"], WANTED["crossings"]),
             ("graphs with too many crossings", counted["above"], 0)]
    if not words.planarize_only:
        roomy = "room of --compact" if words.compact else "room"
        lines += [("bends", counted["bends"], WANTED["bends"]), ("boxes that are no rectangles", counted["boxes"], 2),
                  ("pixels, of OGDF's with growing boxes", room, WANTED[roomy]),
                  ("seconds, median", statistics.median(seconds), WANTED["median"])]
    lines.append(("seconds, worst", max(seconds), WANTED["worst"]))
    if words.compact:
        lines = [line for line in lines if line[0] != "bends"]
    print(f"\n{len(results)} graphs; sums without {BIG}" + ("" if whole else "; wanted is of all graphs"))
    for what, value, wanted in lines:
        print(f"{what:<40}{value:>8.2f}   wanted {wanted:g}{'' if value <= wanted else '   NOT REACHED'}")
    return all(value <= wanted for _, value, wanted in lines)


def table(path: Path) -> list[dict[str, str]]:
    """The rows of a table of figures."""
    with open(path, encoding="utf-8", newline="") as source:
        return list(csv.DictReader(source))


def main() -> int:
    words = command_line()
    rows = [row for row in table(LARGE_TABLE if words.large else TABLE) if not words.only or row["graph"] in words.only]
    rows = [row for row in rows if words.planarize_only or not row["graph"].startswith("random")]
    unknown = set(words.only or ()) - {row["graph"] for row in rows}
    if unknown:
        sys.exit(f"real_graphs.py: no such graph: {', '.join(sorted(unknown))}")
    with tempfile.TemporaryDirectory() as kept:
        folder = Path(words.keep or kept)
        folder.mkdir(parents=True, exist_ok=True)
        print("graph                 crossings (OGDF, first)  bends (OGDF, first)  kilopixels (OGDF, first)  boxes  s")
        results = []
        with concurrent.futures.ThreadPoolExecutor(words.jobs) as pool:
            for row, result in zip(rows, pool.map(lambda row: drawn(row["graph"], words, folder), rows)):
                print(line_of(row, result), flush=True)
                results.append(result)
    if words.large:
        return int(any(result.fault for result in results))
    return 0 if sums(rows, results, words) else 1


if __name__ == "__main__":
    sys.exit(main())
