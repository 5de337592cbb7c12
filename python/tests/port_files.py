"""DOT files with clusters, records, tables and ports, thirty in all: what people draw, and dense graphs with few or many frames.

    python3 python/tests/port_files.py FOLDER
    python3 python/tests/port_judge.py FOLDER/*.gv

The first command writes the files into a folder.
"""
from __future__ import annotations

import itertools
import sys
from collections.abc import Sequence
from pathlib import Path


def graph(body: str, kind: str = "graph") -> str:
    """A graph with these statements."""
    return f"{kind} {{\n{body}\n}}\n"


def cluster(name: str, members: Sequence[str], more: str = "") -> str:
    """A cluster with its name as label."""
    return f'subgraph cluster_{name} {{ label="{name}"; {"; ".join(members)}; {more} }}'


def complete(count: int, size: int) -> str:
    """A complete graph, a cluster around each `size` vertices."""
    names = [f"v{number}" for number in range(count)]
    parts = [names[first:first + size] for first in range(0, count, size)]
    return graph("\n".join([cluster(f"c{place}", part) for place, part in enumerate(parts)]
                           + [f"{one} -- {other}" for one, other in itertools.combinations(names, 2)]))


def bipartite(left: int, right: int) -> str:
    """A complete bipartite graph, a cluster around each of its sides."""
    one, other = [f"a{number}" for number in range(left)], [f"b{number}" for number in range(right)]
    return graph("\n".join([cluster("left", one), cluster("right", other)] + [f"{a} -- {b}" for a in one for b in other]))


def grid(high: int, wide: int) -> str:
    """A grid, a cluster around each row."""
    name = "n{}_{}".format
    edges = [f"{name(y, x)} -- {name(y, x + 1)}" for y in range(high) for x in range(wide - 1)]
    edges += [f"{name(y, x)} -- {name(y + 1, x)}" for y in range(high - 1) for x in range(wide)]
    return graph("\n".join([cluster(f"row{y}", [name(y, x) for x in range(wide)]) for y in range(high)] + edges))


def tree(deep: int) -> str:
    """A binary tree, a cluster around each subtree."""
    def below(name: str) -> str:
        if len(name) > deep:
            return name
        return cluster(name, [name], below(name + "0") + "; " + below(name + "1"))

    names = ["r" + "".join(bits) for length in range(deep + 1) for bits in itertools.product("01", repeat=length)]
    return graph("\n".join([below("r"), *(f"{name[:-1]} -> {name}" for name in names if len(name) > 1)]), "digraph")


def ring(count: int, size: int) -> str:
    """A cycle with chords, a cluster around consecutive vertices."""
    names = [f"v{number}" for number in range(count)]
    return graph("\n".join([cluster(f"c{first}", names[first:first + size]) for first in range(0, count, size)]
                           + [f"{names[at]} -- {names[(at + step) % count]}" for at in range(count) for step in (1, 3)]))


def petersen() -> str:
    """The Petersen graph, with clusters around the outer and the inner cycle."""
    edges = [f"o{at} -- o{(at + 1) % 5}; o{at} -- i{at}; i{at} -- i{(at + 2) % 5}" for at in range(5)]
    return graph("\n".join([cluster("outer", [f"o{at}" for at in range(5)]), cluster("inner", [f"i{at}" for at in range(5)]), *edges]))


def deep(count: int) -> str:
    """Clusters within each other, a vertex in each, and edges from the innermost one to all."""
    text = "v0"
    for number in range(1, count):
        text = cluster(f"d{number}", [f"v{number}"], text)
    return graph(text + "\n" + "\n".join(f"v0 -- v{number}" for number in range(1, count)))


def linked_list(count: int) -> str:
    """A list of records, each of which points to the next one, and to data."""
    lines = ["node [shape=record]", *(f'c{at} [label="<data> data|<next>"]; d{at} [shape=box]' for at in range(count))]
    return graph("\n".join(lines + [f"c{at}:data -> d{at}; c{at}:next -> c{at + 1}:data" for at in range(count - 1)]), "digraph")


def hash_table(count: int) -> str:
    """A column of fields, from each of which a list begins."""
    fields = "|".join(f"<f{at}> {at}" for at in range(count))
    lines = ["rankdir=LR", "node [shape=record]", f'table [label="{fields}"]']
    lines += [f'n{at} [label="{{<key> key {at}|value|<next>}}"]; table:f{at} -> n{at}:key' for at in range(0, count, 2)]
    return graph("\n".join([*lines, 'm [label="{<key> key|value|<next>}"]', "n0:next -> m:key", f"n2:next:e -> m:key:w"]), "digraph")


def search_tree(deep: int) -> str:
    """A binary tree of records with two pointers each."""
    names = ["r" + "".join(bits) for length in range(deep + 1) for bits in itertools.product("lr", repeat=length)]
    lines = ["node [shape=record]", *(f'{name} [label="<l>|{name}|<r>"]' for name in names)]
    return graph("\n".join(lines + [f"{name[:-1]}:{name[-1]} -> {name}" for name in names if len(name) > 1]), "digraph")


def tables(count: int) -> str:
    """Tables of a database with keys that refer to others."""
    lines = []
    for at in range(count):
        rows = "".join(f'<tr><td port="{key}">{key}</td><td>{kind}</td></tr>' for key, kind in (("id", "int"), ("name", "text"), ("ref", "int")))
        lines.append(f't{at} [shape=plaintext, label=<<table><tr><td colspan="2">table {at}</td></tr>{rows}</table>>]')
    return graph("\n".join(lines + [f"t{at}:ref -> t{(at * 2 + 1) % count}:id" for at in range(count)]), "digraph")


def services() -> str:
    """What a system consists of."""
    return graph("""compound=true; node [shape=box]; user [shape=circle]
      subgraph cluster_web { label="web"; style=rounded; proxy; subgraph cluster_app { label="application"; style=filled; app1; app2 } }
      subgraph cluster_data { label="data"; color=blue; db [shape=cylinder]; cache; subgraph cluster_backup { label="backup"; labelloc=b } }
      queue; worker1; worker2; user -> proxy; proxy -> app1; proxy -> app2; app1 -> db; app2 -> db; app1 -> cache; app2 -> cache
      app1 -> queue [ltail=cluster_app]; queue -> worker1; queue -> worker2; worker1 -> db [lhead=cluster_data]; worker2 -> cache""", "digraph")


def machine() -> str:
    """A machine of states with regions, loops and edges between frames."""
    return graph("""compound=true; start [shape=point]; start -> idle
      subgraph cluster_on { label="on"; idle; subgraph cluster_busy { label="busy"; read; write; check; read -> check; check -> write; write -> read } }
      subgraph cluster_off { label="off"; sleep; stop [shape=doublecircle] }
      idle -> read [lhead=cluster_busy]; read -> idle [ltail=cluster_busy]; idle -> sleep [ltail=cluster_on, lhead=cluster_off]
      sleep -> idle; write -> write; check -> stop; sleep -> stop""", "digraph")


def gates() -> str:
    """Records with sides for inputs and outputs, in clusters."""
    lines = ["node [shape=record]"]
    for block in "ab":
        lines.append(cluster(block, [f'{block}{at} [label="{{{{<x> x|<y> y}}|g{at}|<q> q}}"]' for at in range(3)]))
        lines.append(f"{block}0:q:s -> {block}1:x:n; {block}0:q:s -> {block}2:y:n; {block}1:q:s -> {block}2:x:n")
    return graph("\n".join([*lines, "a2:q:s -> b0:x:n; a1:q:s -> b0:y:n; in -> a0:x:n; in -> a0:y:n; b2:q:s -> out"]), "digraph")


def compass(count: int) -> str:
    """A path of boxes that goes out and in at all corners and sides."""
    points = ["n", "ne", "e", "se", "s", "sw", "w", "nw"]
    return graph("\n".join(f"v{at}:{points[at % 8]} -> v{(at + 1) % count}:{points[3 * at % 8]}" for at in range(count)), "digraph")


def empties() -> str:
    """Clusters with nothing in them, or with nothing that an edge joins."""
    return graph("""subgraph cluster_a { label="a"; subgraph cluster_b { label="nothing" } subgraph cluster_c { label="alone"; x; y; z } u }
      subgraph cluster_d { label="nothing at all" } subgraph cluster_e { label="e"; p -- q; r -- s } v -- u""")


FILES = {
    "complete_5": complete(5, 2), "complete_6": complete(6, 3), "complete_7": complete(7, 3), "complete_8": complete(8, 4),
    "bipartite_3_3": bipartite(3, 3), "bipartite_4_4": bipartite(4, 4), "bipartite_3_5": bipartite(3, 5), "grid_3_4": grid(3, 4),
    "grid_4_4": grid(4, 4), "tree_2": tree(2), "tree_3": tree(3), "ring_12": ring(12, 3), "ring_10": ring(10, 4), "ring_16": ring(16, 8),
    "petersen": petersen(), "deep_4": deep(4), "deep_7": deep(7), "list_4": linked_list(4), "list_7": linked_list(7),
    "hash_5": hash_table(5), "hash_8": hash_table(8), "search_2": search_tree(2), "search_3": search_tree(3), "tables_4": tables(4),
    "tables_7": tables(7), "services": services(), "machine": machine(), "gates": gates(), "compass_9": compass(9), "empties": empties()}


def main() -> None:
    folder = Path(sys.argv[1])
    folder.mkdir(parents=True, exist_ok=True)
    for name, text in FILES.items():
        (folder / f"{name}.gv").write_text(text, encoding="utf-8")


if __name__ == "__main__":
    main()
