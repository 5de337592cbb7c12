"""What Graphviz's own parser reads in a DOT text: `nop` writes it out, and `gvpr` lists it."""
from __future__ import annotations

import re
import subprocess
from collections.abc import Iterator
from dataclasses import dataclass

from planarbend.readers.attributes import CLUSTER_KEYS, EDGE_KEYS, GRAPH_KEYS, NODE_KEYS
from planarbend.readers.fault import Fault, program
from planarbend.readers.forms import DOT

PACKAGE = "graphviz"
LABEL_KEYS = ("label", "xlabel", "headlabel", "taillabel")
PORT_KEYS = ("tailport", "headport", "ltail", "lhead")
WHOLE_KEYS = ("rankdir", "compound")


def printed(of: str, *keys: str) -> str:
    """Return the statements of gvpr that print these attributes of a graph, node or edge, each after a space."""
    return "".join(f'printf(" %s", value(aget({of}, "{key}")));' for key in keys)


# One line for each graph, node or edge: a letter, then values in DOT's quotes, HTML strings after an h. `canon` quotes.
HEAD = f"""
BEG_G {{
  graph_t s, next; node_t n; edge_t e; int depth = 0;
  printf("g %d %s", isDirect($G), quoted($G.name)); {printed("$G", "charset", "label", *GRAPH_KEYS, *WHOLE_KEYS)} printf("\\n");
"""
LISTING = HEAD + f"""
  for (n = fstnode($G); n; n = nxtnode(n)) {{
    printf("n %s", quoted(n.name)); {printed("n", "label", *NODE_KEYS)} printf("\\n");
  }}
  for (n = fstnode($G); n; n = nxtnode(n))
    for (e = fstout(n); e; e = nxtout(e)) {{
      printf("e %s %s", quoted(e.tail.name), quoted(e.head.name));
      {printed("e", *LABEL_KEYS, "dir", *EDGE_KEYS, *PORT_KEYS)} printf("\\n");
    }}
}}
"""
# Each subgraph before those within it, with its depth, then its nodes.
SUBGRAPHS = HEAD + f"""
  for (s = fstsubg($G); s; s = next) {{
    printf("s %s \\"%d\\"", quoted(s.name), depth); {printed("s", "label", *CLUSTER_KEYS)} printf("\\n");
    for (n = fstnode(s); n; n = nxtnode_sg(s, n)) printf("m %s\\n", quoted(n.name));
    next = fstsubg(s);
    if (next) depth++;
    else {{
      next = nxtsubg(s);
      while (!next && depth > 0) {{ s = s.parent; depth--; next = nxtsubg(s); }}
    }}
  }}
}}
"""
FUNCTIONS = r"""
BEGIN {
  string quoted(string s) { return "\"" + gsub(gsub(s, "%", "%25"), "\"", "%22") + "\""; }
  string value(string s) { if (ishtml(s)) return "h" + quoted(s); return quoted(s); }
}
"""
DEFAULT = rb'node [label="\N"]'  # the label of a node of which nothing is said
VALUE = re.compile(r'(h?)"([^"]*)"')
COUNTED = re.compile(r'(?:^|\n)([gnesm]) ((?:[01] )?)((?:h?"[^"]*" ?)+)')
SYNTAX = re.compile(r"Error: .*?: (syntax error) in line (\d+)(.*)")
LATIN = ("latin1", "latin-1", "l1", "iso-8859-1", "iso_8859-1", "iso8859-1", "iso-ir-100")


@dataclass(frozen=True, slots=True)
class Entry:
    """An entry of a listing: a letter, the flag of a graph, names, labels (each with whether it is HTML), other attributes."""

    kind: str
    flag: str
    names: list[str]
    labels: list[tuple[bool, str]]
    values: dict[str, str]


# For each letter the numbers of names and of labels, and the names of the attributes that follow.
COLUMNS = {"g": (1, 2, (*GRAPH_KEYS, *WHOLE_KEYS)), "n": (1, 1, NODE_KEYS),
           "e": (2, len(LABEL_KEYS), ("dir", *EDGE_KEYS, *PORT_KEYS)), "s": (2, 1, CLUSTER_KEYS), "m": (1, 0, ())}


def entries_of(data: bytes) -> list[Entry]:
    """Return the graph, its nodes and its edges, in Graphviz's order; raise a `Fault` if Graphviz is missing, or refuses the
    text."""
    head = DOT.match(data)
    labelled = data[:head.end()] + DEFAULT + data[head.end():] if head else data
    canonical = run([program("nop", PACKAGE)], labelled)  # `dot -Tcanon` would lay the graph out
    return list(listed(run([program("gvpr", PACKAGE), FUNCTIONS + LISTING], canonical)))


def subgraphs_of(data: bytes) -> list[Entry]:
    """Return the graph, then each subgraph, followed by its nodes and then by the subgraphs within it.

    They are listed from the text itself: in what `nop` writes, subgraphs have attributes that the text gives to the graph later.
    """
    return list(listed(run([program("gvpr", PACKAGE), FUNCTIONS + SUBGRAPHS], data)))


def run(words: list[str], data: bytes) -> bytes:
    """Return the output of a program of Graphviz for these bytes."""
    ran = subprocess.run(words, input=data, capture_output=True, check=False)
    for error in map(SYNTAX.match, ran.stderr.decode(errors="replace").splitlines()):
        if error:
            raise Fault(f"Graphviz: {error[1]}{error[3]}", int(error[2]))
    if ran.returncode:
        raise Fault(f"Graphviz's {words[0]} ended with status {ran.returncode}")
    return ran.stdout


def is_latin(listing: bytes) -> bool:
    """Return whether the graph of a listing says that its text is Latin-1."""
    return bool(re.match(rb'g [01] "[^"]*" "(?i:' + "|".join(LATIN).encode() + rb')"', listing))


def listed(listing: bytes) -> Iterator[Entry]:
    """Yield the entries of a listing."""
    text = listing.decode("latin-1" if is_latin(listing) else "utf-8", errors="replace")
    for kind, flag, values in COUNTED.findall(text):
        found = [(html == "h", value.replace("%22", '"').replace("%25", "%")) for html, value in VALUE.findall(values)]
        names, labels, keys = COLUMNS[kind]
        yield Entry(kind, flag.strip(), [value for _, value in found[:names]], found[names:names + labels],
                    dict(zip(keys, (value for _, value in found[names + labels:]))))
