"""Reads the labels of Graphviz's records as fields."""
from __future__ import annotations

from collections.abc import Mapping

from planarbend.ports import Field, Span
from planarbend.readers import texts


DEEPEST = 100  # braces within each other


class BadLabel(ValueError):
    """A label is none of a record."""


def fields_of(label: str, names: Mapping[str, str], is_column: bool = False) -> Field:
    """Return the whole of a record with this label; `names` are what escapes stand for, and `is_column` says that its outermost
    fields are below each other. Raise `BadLabel` if Graphviz refuses the label."""
    return Record(label, names).whole(is_column)


class Record:
    """A label that is read."""

    def __init__(self, label: str, names: Mapping[str, str]) -> None:
        """Return the label at its beginning."""
        self.label, self.names, self.place = "".join(letter for letter in label if letter >= " "), dict(names), 0
        self.depth = 0

    def whole(self, is_column: bool) -> Field:
        """Return all fields of the label."""
        found = self.grid(is_column)
        if self.place < len(self.label) and self.label[self.place] != "}":
            raise BadLabel
        return found

    def grid(self, is_column: bool) -> Field:
        """Return the fields up to the end or the next closing brace as a row or a column."""
        found: list[Field] = []
        while True:
            at = Span(row=len(found)) if is_column else Span(column=len(found))
            found.append(self.field(at, is_column))
            if self.label[self.place:self.place + 1] != "|":
                return Field(fields=tuple(found))
            self.place += 1

    def field(self, at: Span, is_column: bool) -> Field:
        """Return the next field, and stop before the sign that ends it."""
        text: list[str] = []
        port: str | None = None
        inner: Field | None = None
        while (sign := self.sign()) not in ("", "|", "}"):
            if sign == "<":
                if port is not None or inner is not None:
                    raise BadLabel
                port = self.port()
            elif sign == "{":
                if set(text) - {" "} or port is not None or inner is not None:
                    raise BadLabel
                inner = self.inner(not is_column)
            elif sign == ">" or inner is not None and sign != " ":
                raise BadLabel
            else:
                text.append(sign)
                self.place += len(sign)
        if inner is not None:
            return Field(at=at, fields=inner.fields)
        return Field(shown(text, self.names), port or "", at)

    def inner(self, is_column: bool) -> Field:
        """Return what is between an opening brace and its closing one, and go after that."""
        self.place, self.depth = self.place + 1, self.depth + 1
        if self.depth > DEEPEST:
            raise BadLabel
        found = self.grid(is_column)
        if self.label[self.place:self.place + 1] != "}":
            raise BadLabel
        self.place, self.depth = self.place + 1, self.depth - 1
        return found

    def port(self) -> str:
        """Return what is between a less-than sign and the next greater-than sign, and go after that."""
        self.place += 1
        found: list[str] = []
        while (sign := self.sign()) != ">":
            if sign in ("", "{", "}", "|", "<"):
                raise BadLabel
            found.append(sign)
            self.place += len(sign)
        self.place += 1
        return shown(found, {})

    def sign(self) -> str:
        """Return the next letter, with the backslash before it if there is one; empty at the end."""
        return self.label[self.place:self.place + (2 if self.label[self.place:self.place + 1] == "\\" else 1)]


def shown(signs: list[str], names: dict[str, str]) -> str:
    """Return the text of some signs, without spaces at its ends, and one space for several, but for those after a backslash."""
    found: list[str] = []
    for sign in signs:
        if sign != " " or found and found[-1] != " ":
            found.append(sign)
    return texts.plain("".join(found[:-1] if found and found[-1] == " " else found), names)
