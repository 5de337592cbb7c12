"""Reads the tables in Graphviz's HTML labels as fields."""
from __future__ import annotations

import re
from dataclasses import dataclass, field
from html.entities import name2codepoint
from xml.parsers import expat

from planarbend.ports import Field, Span

XML_NAMES = ("lt", "gt", "amp", "quot")
ENTITY = re.compile(r"&([A-Za-z][A-Za-z0-9]*);")
MOST = 200  # rows or columns that a cell may span
DEEPEST = 100  # tables and cells within each other


class BadTable(ValueError):
    """A label that Graphviz refuses."""


@dataclass(slots=True)
class Cell:
    """A cell that is read: its text, its port, what it spans, and the table in it."""

    port: str = ""
    rows: int = 1
    columns: int = 1
    text: str = ""
    table: Table | None = None


@dataclass(slots=True)
class Table:
    """A table that is read: its port and its rows."""

    port: str = ""
    rows: list[list[Cell]] = field(default_factory=list)


def fields_of(label: str) -> Field | None:
    """Return the whole of an HTML label that is a table, or None if it is none or Graphviz refuses it. The whole has the table's
    port; a cell with a table in it has the table's cells as fields, with a field around them if both have a port."""
    try:
        table = Reader(label).table
    except (expat.ExpatError, BadTable):
        return None
    return None if table is None else placed(table, Span())


class Reader:
    """Reads a label; `table` is the outermost table, or None."""

    def __init__(self, label: str) -> None:
        """Return the reader at the end of the label."""
        self.table: Table | None = None
        self.open: list[Table | Cell] = []
        parser = expat.ParserCreate()
        parser.StartElementHandler, parser.EndElementHandler, parser.CharacterDataHandler = self.begin, self.end, self.add
        parser.Parse(f"<HTML>{ENTITY.sub(letter_of, label)}</HTML>", True)

    def begin(self, element: str, values: dict[str, str]) -> None:
        """Begin an element."""
        kind, given = element.upper(), {key.upper(): value for key, value in values.items()}
        inner = self.open[-1] if self.open else None
        if kind == "TABLE":
            made = Table(given.get("PORT", ""))
            if isinstance(inner, Cell):
                inner.table = made
            elif inner is None and self.table is None:
                self.table = made
            else:
                raise BadTable
            self.open.append(made)
        elif kind == "TR" and isinstance(inner, Table):
            inner.rows.append([])
        elif kind == "TD" and isinstance(inner, Table) and inner.rows:
            inner.rows[-1].append(Cell(given.get("PORT", ""), spanned(given.get("ROWSPAN")), spanned(given.get("COLSPAN"))))
            self.open.append(inner.rows[-1][-1])
        elif kind in ("TR", "TD"):
            raise BadTable
        elif kind == "BR":
            self.add("\n")
        if len(self.open) > DEEPEST:
            raise BadTable

    def end(self, element: str) -> None:
        """End an element."""
        if element.upper() in ("TABLE", "TD") and self.open:
            self.open.pop()

    def add(self, text: str) -> None:
        """Add a text."""
        if self.open and isinstance(self.open[-1], Cell):
            self.open[-1].text += text if text == "\n" else re.sub(r"\s", " ", text)


def letter_of(match: re.Match[str]) -> str:
    """Return what a named letter of HTML stands for, or its name if XML has it too or it is not known."""
    code = name2codepoint.get(match[1])
    return match[0] if code is None or match[1] in XML_NAMES else chr(code)


def spanned(text: str | None) -> int:
    """Return the rows or columns that a cell spans, 1 if nothing or nonsense is said."""
    return min(max(int(text), 1), MOST) if text and text.isdecimal() else 1


def placed(table: Table, at: Span) -> Field:
    """Return a table as a field: each cell is in the next column that is free in its row."""
    taken: set[tuple[int, int]] = set()
    found = []
    for row, cells in enumerate(table.rows):
        column = 0
        for cell in cells:
            while any((row, column + one) in taken for one in range(cell.columns)):
                column += 1
            span = Span(row, column, cell.rows, cell.columns)
            taken |= {(row + down, column + one) for down in range(cell.rows) for one in range(cell.columns)}
            found.append(of_cell(cell, span))
            column += cell.columns
    return Field(port=table.port, at=at, fields=tuple(found))


def of_cell(cell: Cell, at: Span) -> Field:
    """Return a cell as a field."""
    if cell.table is None:
        lines = (" ".join(line.split()) for line in cell.text.split("\n"))
        return Field("\n".join(lines).strip("\n"), cell.port, at)
    inner = placed(cell.table, at)
    if cell.port and inner.port:
        return Field(port=cell.port, at=at, fields=(placed(cell.table, Span()),))
    return Field(port=cell.port or inner.port, at=at, fields=inner.fields)
