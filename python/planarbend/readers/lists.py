"""Reads lists of connections: lines such as `a -- b -- c`, `a -> b`, or two words; `#` begins a comment."""
from __future__ import annotations

import re

from planarbend.graph import Arrow, Graph
from planarbend.readers.building import Builder
from planarbend.readers.fault import Fault, decoded, shown

QUOTED = r'"(?:[^"\\]|\\.)*"'
PIECE = re.compile(rf'{QUOTED}|\s+|[^\s"]+|"')
WORD = re.compile(rf"{QUOTED}|\S+")
COMMENT = re.compile(rf"({QUOTED})|(?:^|(?<=\s))#.*")


def read_list(data: bytes) -> Graph:
    """Return the graph of a list of connections.

    A line has one name, two words, or names with ` -- ` or ` -> ` between them. A name in quotes may hold any letters, with a
    backslash before a quote or a backslash. Vertices are in the order of their first mention. The graph is directed if any
    connection is an arrow. A `Fault` has the number of a line that is none of these.
    """
    found = Builder()
    for number, line in enumerate(decoded(data).split("\n"), 1):
        line = COMMENT.sub(lambda match: match[1] or "", line).strip()
        if not line:
            continue
        names, between = names_of(line, number)
        found.vertex(names[0])
        for tail, separator, head in zip(names, between, names[1:]):
            found.directed |= separator == "->"
            found.edge(tail, head, arrow=Arrow.FORWARD if separator == "->" else Arrow.NONE)
    return found


def names_of(line: str, number: int) -> tuple[list[str], list[str]]:
    """Return the names of a line that is not empty, and the separators between them."""
    names, between = [""], []
    for piece in PIECE.findall(line):
        if piece in ("--", "->"):
            names.append("")
            between.append(piece)
        else:
            names[-1] += piece
    names = [name.strip() for name in names]
    if not between:
        names = WORD.findall(line)
        if len(names) > 2:
            raise Fault(f"neither a connection (a -- b) nor two words: {shown(line)}", number)
        if len(names) == 1 and re.fullmatch(r'[^",;]+([,;][^",;]+)+', line):
            raise Fault(f"not a connection: {shown(line)} (write it as `a -- b`, or the name in quotes)", number)
        between = ["--"] * (len(names) - 1)
    if "" in names:
        raise Fault(f"a connection lacks a name: {shown(line)}", number)
    return [unquoted(name, number) for name in names], between


def unquoted(name: str, number: int) -> str:
    """Return a name without its quotes, if it has any."""
    if re.fullmatch(QUOTED, name):
        return re.sub(r"\\(.)", r"\1", name[1:-1])
    if name[0] == '"':
        raise Fault(f"unterminated quote, or letters after it: {shown(name)}", number)
    return name
