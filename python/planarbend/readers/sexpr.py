"""Parses S-expressions as KiCad writes them."""
from __future__ import annotations

import re
from collections.abc import Iterator
from dataclasses import dataclass, field

from planarbend.readers.fault import Fault

TOKEN = re.compile(r'\s+|([()])|"((?:[^"\\]|\\.)*)"|([^\s()"]+)', re.S)
ESCAPES = {"n": "\n", "t": "\t", "r": "\r"}


@dataclass(slots=True)
class Expression:
    """A list in parentheses: its first word, the words after it, and the lists inside it, each in order."""

    line: int
    words: list[str] = field(default_factory=list)
    inner: list[Expression] = field(default_factory=list)

    @property
    def head(self) -> str:
        """The first word, or nothing."""
        return self.words[0] if self.words else ""

    def all(self, *heads: str) -> Iterator[Expression]:
        """Yield the inner lists that begin with one of these words."""
        return (one for one in self.inner if one.head in heads)

    def value(self, head: str) -> str | None:
        """Return the word after this first word, in the first such inner list, or None."""
        return next((one.words[1] for one in self.all(head) if len(one.words) > 1), None)


def parsed(text: str) -> Expression:
    """Return the one list that a text holds, or raise a `Fault` if parentheses or quotes do not match, or something else is
    outside the list."""
    open_lists: list[Expression] = []
    place, line = 0, 1
    whole: Expression | None = None
    while place < len(text):
        match = TOKEN.match(text, place)
        if match is None:
            raise Fault("unterminated quote", line)
        if match[1] == "(":
            if whole is not None and not open_lists:
                raise Fault("text after the closing parenthesis", line)
            open_lists.append(Expression(line))
            whole = whole or open_lists[0]
        elif match[1] == ")":
            if not open_lists:
                raise Fault("unmatched ')'", line)
            closed = open_lists.pop()
            if open_lists:
                open_lists[-1].inner.append(closed)
        elif not match[0].isspace():
            if not open_lists:
                raise Fault("text outside the list", line)
            open_lists[-1].words.append(match[3] if match[3] is not None else unescaped(match[2]))
        line += match[0].count("\n")
        place = match.end()
    if open_lists:
        raise Fault(f"unclosed '({open_lists[-1].head}': the file is cut off", open_lists[-1].line)
    if whole is None:
        raise Fault("no list in parentheses")
    return whole


def unescaped(text: str) -> str:
    """Return the text of a quoted word."""
    if "\\" not in text:
        return text
    return re.sub(r"\\(.)", lambda match: ESCAPES.get(match[1], match[1]), text, flags=re.S)
