"""Turns labels of Graphviz into plain text: escapes, fields of records, markup of HTML labels."""
from __future__ import annotations

import html
import re

TAG = re.compile(r"<!--.*?-->|</?([A-Za-z][A-Za-z-]*)[^<>]*>", re.S)
LINE_ENDS = {"br", "/tr", "hr"}
FIELD_END = " | "  # between the fields of a record, or the cells of a row


def plain(label: str, names: dict[str, str]) -> str:
    """Return a label with its escapes resolved: line ends, and the names that `\\N`, `\\G`, `\\T`, `\\H` and `\\E` stand for."""
    return html.unescape(re.sub(r"\\(.)", lambda match: escape(str(match[1]), names), label, flags=re.S)).strip("\n")


def escape(letter: str, names: dict[str, str]) -> str:
    """Return the meaning of a backslash and this letter."""
    return "\n" if letter in "nlr" else names.get(letter, letter)


def of_record(label: str, names: dict[str, str]) -> str:
    """Return the text of a record label: its fields in order, without ports and braces."""
    fields, text, port, place = [], "", False, 0
    while place < len(label):
        letter = label[place]
        if letter == "\\" and place + 1 < len(label):
            place += 1
            text += "" if port else escape(label[place], names)
        elif letter == ">" or letter == "<" and ">" in label[place:]:
            port = letter == "<"
        elif letter in "|{}" and not port:
            fields.append(text)
            text = ""
        elif not port:
            text += letter
        place += 1
    fields = [" ".join(field.split(" ")).strip() for field in [*fields, text]]
    return html.unescape(FIELD_END.join(field for field in fields if field))


def of_html(label: str) -> str:
    """Return the text of an HTML label: a line for each row or line break, cells with a bar between them."""
    text = TAG.sub(lambda match: of_tag(match[0], match[1]), re.sub(r"\s+", " ", label))
    lines = [" ".join(line.split()).strip("| ") for line in html.unescape(text).split("\n")]
    return "\n".join(line for line in lines if line)


def of_tag(tag: str, name: str | None) -> str:
    """Return the text that replaces a tag of an HTML label."""
    kind = ("/" if tag.startswith("</") else "") + (name or "").lower()
    if kind in LINE_ENDS:
        return "\n"
    return FIELD_END if kind == "/td" else ""
