"""The lines of SPICE netlists, and the circuits that they describe."""
from __future__ import annotations

import re
from collections.abc import Iterator
from dataclasses import dataclass, field

from planarbend.readers.fault import Fault, shown

LINE_END = re.compile(r"\r\n?|\n")
COMMENT = re.compile(r"(?:;|(?:^|(?<=\s))(?:\$(?=\s|$)|//)).*")
WORD = re.compile(r"""(?:\([^()]*\)|\{[^{}]*\}|'[^']*'|"[^"]*"|[^\s,])+""")
PARAMETER = re.compile(r"(?i)params?:|optional:|[^=]*=.*", re.S)
LIKE_ELEMENT = re.compile(r"(?i)[rclvi]\w*\s+\w+\s+\w+\s+[+-]?[\d.]+\w*\s*|\.\w+\s.*")
UNREAD = (".include", ".inc", ".lib")


@dataclass(slots=True)
class Line:
    """A line with those that continue it: the number of its first one, and its words."""

    number: int
    words: list[str]


@dataclass
class Circuit:
    """A circuit or subcircuit: the lines of its elements, its models' types and its subcircuits by their names in small letters;
    `ports` are the nodes of a subcircuit."""

    name: str
    ports: list[str] = field(default_factory=list)
    elements: list[Line] = field(default_factory=list)
    models: dict[str, str] = field(default_factory=dict)
    inner: dict[str, Circuit] = field(default_factory=dict)
    outer: Circuit | None = None
    notes: list[str] = field(default_factory=list)

    def scopes(self) -> Iterator[Circuit]:
        """Yield this circuit and those around it."""
        here: Circuit | None = self
        while here is not None:
            yield here
            here = here.outer

    def model(self, name: str) -> str | None:
        """Return the type of a model, or None if it is defined neither here nor outside."""
        return next((one.models[name.lower()] for one in self.scopes() if name.lower() in one.models), None)

    def subcircuit(self, name: str) -> Circuit | None:
        """Return a subcircuit, or None if it is defined neither here nor outside."""
        return next((one.inner[name.lower()] for one in self.scopes() if name.lower() in one.inner), None)

    def all_inside(self) -> list[Circuit]:
        """Return its subcircuits, and those inside them."""
        found = list(self.inner.values())
        for one in found:
            found += one.inner.values()
        return found


def words_of(line: str) -> list[str]:
    """Return the words of a line: what is in brackets or quotes, or on both sides of a sign of equality, is one."""
    return WORD.findall(re.sub(r"\s*=\s*", "=", line))


def lines_of(text: str) -> list[Line]:
    """Return the lines of a text but the first one, which is its title, without comments, and continued lines made one."""
    found: list[Line] = []
    for number, line in enumerate(LINE_END.split(text)[1:], 2):
        line = "" if line[:1] == "*" else COMMENT.sub("", line).strip()
        if line[:1] == "+":
            if not found:
                raise Fault("a continuation line with no line before it", number)
            found[-1].words += words_of(line[1:])
        elif line and line[0] != "*" and words_of(line):
            found.append(Line(number, words_of(line)))
    return found


def circuit_of(text: str) -> Circuit:
    """Return the circuit that a text describes, or raise a `Fault` with the line that breaks a rule."""
    whole = here = Circuit("")
    opened: list[int] = []
    if LIKE_ELEMENT.fullmatch(LINE_END.split(text, 1)[0]):
        whole.notes.append("line 1 is the title, as in every SPICE netlist, and not drawn")
    for line in lines_of(text):
        word = line.words[0].lower()
        if word == ".subckt":
            here = subcircuit_of(line, here)
            opened.append(line.number)
        elif word in (".ends", ".eom"):
            if here.outer is None:
                raise Fault(".ends without .subckt", line.number)
            here = here.outer
            opened.pop()
        elif word == ".model":
            if len(line.words) < 3:
                raise Fault("a model without its name or type", line.number)
            here.models[line.words[1].lower()] = line.words[2].split("(")[0].lower()
        elif word == ".end":
            break
        elif word in UNREAD:
            whole.notes.append(f"line {line.number}: {shown(' '.join(line.words[1:]))} is not read")
        elif word[0] != ".":
            here.elements.append(line)
    if opened:
        raise Fault(f".subckt {shown(here.name)} without .ends: the file is cut off", opened[-1])
    return whole


def subcircuit_of(line: Line, outer: Circuit) -> Circuit:
    """Return a new subcircuit of a circuit."""
    words = [word for word in line.words[1:] if not PARAMETER.fullmatch(word)]
    if not words:
        raise Fault("a subcircuit without a name", line.number)
    found = Circuit(words[0], words[1:], outer=outer)
    if found.name.lower() in outer.inner:
        raise Fault(f"a second subcircuit {shown(found.name)}", line.number)
    outer.inner[found.name.lower()] = found
    return found
