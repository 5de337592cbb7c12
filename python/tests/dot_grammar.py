#!/usr/bin/env python3
"""Writes random DOT files, of at most 30 nodes, and judges how they are drawn.

    python3 python/tests/dot_grammar.py [--ports] [FIRST [COUNT [FOLDER]]]

Of the files from number FIRST on (1), COUNT (2000) are drawn, and `attribute_judge` looks at each picture; `neato -n2` must
show the same boxes and as many crossings of each `.gv` that is written of it. Files of which something is wrong are
written to FOLDER, if it is given. The last lines are the table of attributes and the counts; the exit status is 0 if at
least 39 in 40 are drawn and right.

With --ports the files have records, tables and at most 6 clusters, to a depth of 3, and `port_judge` looks at each drawing
(1000 by default). The exit status is then 0 if there is no fault and at least 49 in 50 are drawn.
"""
from __future__ import annotations

import random
import subprocess
import sys
from collections import Counter
from collections.abc import Callable
from pathlib import Path

sys.dont_write_bytecode = True
SHAPES = """box rect square ellipse oval circle doublecircle diamond hexagon octagon cylinder note folder component point
    plaintext none record Mrecord box ellipse record triangle egg""".split()
STYLES = ["filled", "rounded", "dashed", "dotted", "bold", "invis", "filled,rounded", "filled, dashed", "rounded,bold",
          "setlinewidth(3)", "solid"]
COLOURS = ["red", "Blue", "navy", "#ff8800", "#12345680", "0.6 0.7 0.8", "0.1,0.9,1", "transparent", "red:blue", "grey50",
           "lightgoldenrod2", "/accent8/3", "orange3", "palegreen", "black", "white", "red;0.3:green;0.7"]
FONTS = ["Helvetica", "Times-Bold", "Courier", "DejaVu Sans Bold Oblique", "Arial Narrow", "Times New Roman",
         "Courier-BoldOblique"]
HEADS = "normal inv vee dot odot diamond odiamond tee none normal vee crow box lnormal open".split()
LINKS = ["http://example.org/", "http://e.org/?a=1&b=2", "file.html#\\N", "a b.html", "x.html?q=\\\"y\\\"&z='<>'",
         "javascript:0"]
WORDS = """alpha beta Gamma delta x y1 42 longer-word with_underscore naïve Ω 東京 über a<b A&B 50% #7 it's
    end. (par) {brace} q?""".split()
HTMLS = ["<b>bold</b> text", "one<br/>two", "<i>it</i> &amp; <u>that</u>", '<font color="red">red</font> one',
         "<table><tr><td>a</td><td port='p'>b</td></tr><tr><td colspan='2'>c &lt; d</td></tr></table>",
         "x<sub>1</sub> y", "&#945; beta"]
SIZES = ["8", "11", "14", "20", "24.5", "9pt"]
WIDTHS = ["0.5", "1", "2", "3.5", "6", "2abc", ".75"]
TIPS = ["a tip", "two\\nlines", "\\\"quoted\\\" & <tag>", "of \\N", "it's"]


class Grammar:
    """A file: its choices are those of a seed."""

    def __init__(self, seed: int) -> None:
        self.dice = random.Random(seed)
        dice = self.dice
        self.is_directed = dice.random() < .6
        self.count = dice.choice((1, 2, 3, 4, 5, 6, 7, 8, 9, 10, 12, 14, 16, 20, 25, 30))
        self.rate = dice.choice((0, .1, .3, .6))  # of attributes
        self.names = [self.name(number) for number in range(self.count)]

    def some(self, values: list[str]) -> str:
        return self.dice.choice(values)

    def quoted(self, text: str) -> str:
        """A string of DOT; sometimes in two pieces, or broken by a line end that counts as nothing."""
        if len(text) > 4 and self.dice.random() < .05 and "\\" not in text:
            return f'"{text[:3]}" + "{text[3:]}"'
        if len(text) > 4 and self.dice.random() < .05 and "\\" not in text:
            return f'"{text[:3]}\\\n{text[3:]}"'
        return f'"{text}"'

    def value(self, text: str) -> str:
        """A value without quotes if it may be so."""
        plain = text.isascii() and text.replace("_", "").isalnum() and not text[0].isdigit()
        return text if plain and self.dice.random() < .5 else self.quoted(text)

    def name(self, number: int) -> str:
        """A name of a node, in DOT."""
        kind = self.dice.random()
        if kind < .5:
            return f"n{number}"
        if kind < .6:
            return str(number) if self.dice.random() < .5 else f"-.{number}5"
        if kind < .9:
            return self.quoted(f"{self.some(WORDS)} {number}")
        odd = ["node", "edge:", "a->b", "\\\"", "semi;colon", "back\\\\slash", "[x]", "=", "//no"]
        return self.quoted(self.some(odd) + str(number))

    def text(self) -> str:
        """A label."""
        kind = self.dice.random()
        if kind < .15:
            return f"<{self.some(HTMLS)}>"
        words = [self.some(WORDS) for _ in range(self.dice.choice((0, 1, 1, 1, 2, 2, 3, 6)))]
        joint = self.some([" ", " ", "\\n", "\\l", "  "])
        more = self.some(["", "", "", "", " &eacute;", "\\N", "\\\\x", "\\\"q\\\"", "\\r"])
        return self.quoted(joint.join(words) + more)

    def record(self) -> str:
        """The label of a record."""
        fields = [self.some(["a", "left", "<p> port", "x\\|y", "two words", "{u|v|<q> w}", "", "\\{z\\}", "1 \\< 2"])
                  for _ in range(self.dice.randrange(1, 5))]
        return self.quoted("|".join(fields))

    def attributes(self, of: str) -> str:
        """The attributes of a node or an edge, in brackets."""
        values: dict[str, Callable[[], str]] = {
            "style": lambda: self.quoted(self.some(STYLES)), "color": lambda: self.quoted(self.some(COLOURS)),
            "fillcolor": lambda: self.quoted(self.some(COLOURS)), "fontcolor": lambda: self.quoted(self.some(COLOURS[:9])),
            "penwidth": lambda: self.quoted(self.some(WIDTHS)), "fontsize": lambda: self.quoted(self.some(SIZES)),
            "fontname": lambda: self.quoted(self.some(FONTS)),
            self.some(["URL", "href"]): lambda: self.quoted(self.some(LINKS)), "tooltip": lambda: self.quoted(self.some(TIPS))}
        if of == "node":
            values |= {"shape": lambda: self.value(self.some(SHAPES)), "label": self.text}
        else:
            values |= {"label": self.text, "headlabel": self.text, "taillabel": self.text,
                       "dir": lambda: self.some(["forward", "back", "both", "none"]),
                       "arrowhead": lambda: self.some(HEADS), "arrowtail": lambda: self.some(HEADS)}
        chosen = {key: made() for key, made in values.items() if self.dice.random() < self.rate}
        is_record = chosen.get("shape", "").strip('"') in ("record", "Mrecord")
        if is_record and self.dice.random() < .7:
            chosen["label"] = self.record()
        if is_record and any(sign in chosen.get("label", "") for sign in "{<") and "|" not in chosen["label"]:
            chosen["label"] = '"r"'
        given = [f"{key}={value}" if self.dice.random() < .7 else f"{key} = {value}" for key, value in chosen.items()]
        return f" [{self.some([', ', ' ', '; ']).join(given)}]" if given else ""

    def edge(self) -> str:
        """An edge, or a chain or a fan of them."""
        joint = " -> " if self.is_directed else " -- "
        ends = [self.some(self.names) for _ in range(self.some([2, 2, 2, 2, 2, 3]))]  # type: ignore[list-item, call-overload]
        if self.dice.random() < .05:
            ends[-1] = f"{{ {self.some(self.names)} {self.some(self.names)} }}"
        elif self.dice.random() < .08:
            ends[-1] += self.some([":n", ":se", ":p", ":p:w"])
        return joint.join(ends) + self.attributes("edge")

    def statement(self) -> str:
        """A statement that is neither an edge nor a node."""
        kind = self.dice.random()
        if kind < .3:
            pair = f"{self.some(self.names)}; {self.some(self.names)}"
            return f"subgraph cluster_{self.dice.randrange(9)} {{ label=\"in\"; {pair} }}"
        if kind < .5:
            return f"{{ rank=same; {self.some(self.names)} {self.some(self.names)} }}"
        return self.some(["rankdir=LR", "nodesep=0.3", "ratio=fill"])

    def file(self) -> str:
        """The whole file."""
        dice, lines = self.dice, []
        for of in ("node", "edge"):
            if dice.random() < .3:
                lines.append(of + (self.attributes(of) or " []"))
        if dice.random() < .4:
            lines.append(f"graph [label={self.text()}, bgcolor={self.quoted(self.some(COLOURS[:11]))}]")
        if dice.random() < .2:
            lines.append(f"label={self.text()}; fontsize={self.some(SIZES[:4])}; fontcolor=navy")
        for name in self.names:
            if dice.random() < .8 or name == self.names[0]:
                lines.append(name + self.attributes("node"))
        for _ in range(dice.randrange(int(self.count * 1.4) + 1)):
            lines.append(self.edge())
        for _ in range(dice.randrange(3)):
            lines.append(self.statement())
        notes = ["// a comment", "/* another\none */", "# 1 a line of the preprocessor", ""]
        head = ("strict " if dice.random() < .1 else "") + ("digraph" if self.is_directed else "graph")
        title = self.some(["", " G", ' "a title"', " 7", ' "<&>"'])
        ends = [";\n", "\n", " ;\n"]
        return f"{head}{title} {{\n{self.some(notes)}\n" + "".join(line + self.some(ends) for line in lines) + "}\n"


class PortGrammar(Grammar):
    """A file with records, tables and clusters: at most 30 nodes, and 6 clusters to a depth of 3."""

    def __init__(self, seed: int) -> None:
        super().__init__(seed)
        dice = self.dice
        self.names = [f"n{number}" if dice.random() < .8 else self.quoted(f"node {number}") for number in range(self.count)]
        self.ports: dict[str, list[str]] = {}  # of each node that has any
        self.nodes = [name + self.node(name) for name in self.names]
        self.parents = [dice.choice([None, *range(number)]) for number in range(dice.randrange(7))]
        for number, parent in enumerate(self.parents):
            if len(self.around(parent)) >= 3:
                self.parents[number] = None
        groups = [None, *range(len(self.parents))]
        self.group = {name: dice.choice(groups) for name in self.names}

    def around(self, group: int | None) -> list[int]:
        """A cluster and those around it."""
        return [] if group is None else [group, *self.around(self.parents[group])]

    def fields(self, ports: list[str], deep: int = 0) -> str:
        """The fields of a record, of which some have ports."""
        found = []
        for _ in range(self.dice.randrange(1, 5 - deep)):
            if deep < 2 and self.dice.random() < .3:
                found.append("{" + self.fields(ports, deep + 1) + "}")
                continue
            text = self.some(["a", "left", "two words", "", "x\\|y", "\\N", "long text of it", "1 \\< 2"])
            if self.dice.random() < .6:
                ports.append(self.some(["p", "in", "out", "f"]) + str(len(ports)))
                text = f"<{ports[-1]}> {text}"
            found.append(text)
        return "|".join(found)

    def table(self, ports: list[str]) -> str:
        """The rows of a table, of which the first has one cell."""
        wide, rows = self.dice.randrange(1, 4), []
        for high in range(self.dice.randrange(1, 4)):
            cells = []
            for _ in range(wide if high else 1):
                ports.append(f"c{len(ports)}")
                span = "" if high else f' colspan="{wide}"'
                cells.append(f'<td port="{ports[-1]}"{span}>{self.some(["x", "y z", "&lt;", "42"])}</td>')
            rows.append(f"<tr>{''.join(cells)}</tr>")
        return f"<<table>{''.join(rows)}</table>>"

    def node(self, name: str) -> str:
        """The attributes of a node."""
        kind, ports = self.dice.random(), self.ports.setdefault(name, [])
        if kind < .35:
            return f' [shape={self.some(["record", "Mrecord"])}, label="{self.fields(ports)}"]'
        if kind < .5:
            return f' [shape={self.some(["none", "plaintext", "box"])}, label={self.table(ports)}]'
        return self.some(["", "", " [shape=box]", " [shape=circle]", " [shape=diamond, style=filled]"])

    def end(self, name: str) -> str:
        """An end of an edge."""
        ports, kind = self.ports[name], self.dice.random()
        point = self.some(["n", "e", "s", "w", "ne", "sw", "c", "_"])
        if ports and kind < .7:
            return f"{name}:{self.some(ports)}" + (f":{point}" if kind < .25 else "")
        return f"{name}:{point}" if kind > .9 else name

    def edge(self) -> str:
        """An edge."""
        tail, head = self.some(self.names), self.some(self.names)
        values = []
        for key, node, other in (("ltail", tail, head), ("lhead", head, tail)):
            free = [one for one in self.around(self.group[node]) if one not in self.around(self.group[other])]
            if free and self.dice.random() < .15:
                values.append(f"{key}=cluster_{self.dice.choice(free)}")
        if self.dice.random() < .15:
            values.append(f'label="{self.some(WORDS)}"')
        joint = "->" if self.is_directed else "--"
        return f"{self.end(tail)} {joint} {self.end(head)}" + (f" [{', '.join(values)}]" if values else "")

    def cluster(self, group: int) -> str:
        """A cluster with what lies in it."""
        lines = [self.some([f'label="{self.some(WORDS)}"', 'label=""', f'label="part {group}"']),
                 self.some(["", "", "style=filled", "style=rounded", "style=dashed", "color=blue", "bgcolor=ivory", "pencolor=red"])]
        lines += [self.cluster(inner) for inner, parent in enumerate(self.parents) if parent == group]
        lines += [text for text, name in zip(self.nodes, self.names) if self.group[name] == group]
        return f"subgraph cluster_{group} {{ " + "; ".join(line for line in lines if line) + " }"

    def file(self) -> str:
        """The whole file."""
        lines = ["compound=true", f"rankdir={self.some(['TB', 'LR'])}"]
        lines += [self.cluster(group) for group, parent in enumerate(self.parents) if parent is None]
        lines += [text for text, name in zip(self.nodes, self.names) if self.group[name] is None]
        lines += [self.edge() for _ in range(self.dice.randrange(int(self.count * 1.3) + 1))]
        if self.parents and self.dice.random() < .1:  # a node in a further cluster
            lines.append(f"subgraph cluster_{self.dice.randrange(len(self.parents))} {{ {self.some(self.names)} }}")
        return ("digraph" if self.is_directed else "graph") + " {\n" + "".join(f"  {line};\n" for line in lines) + "}\n"


def judge_ports(first: int, count: int, folder: Path | None) -> int:
    """Draws files with ports and clusters, and returns the exit status."""
    from port_judge import Judge, drawn

    counts: Counter[str] = Counter()
    faults = lost = 0
    for seed in range(first, first + count):
        text = PortGrammar(seed).file()
        try:
            judge = Judge(text.encode(), *drawn(text.encode()))
            found = judge.judged()
            counts.update(judge.counts)
        except Exception as error:  # each is a fault of the drawing
            lost, found = lost + 1, []
            print(f"{seed}: {type(error).__name__}: {error}", flush=True)
        for fault in found:
            print(f"{seed}: {fault}", flush=True)
        if folder is not None and found:
            (folder / f"{seed}.gv").write_text(text, encoding="utf-8")
        faults += len(found)
    for what, number in sorted(counts.items()):
        print(f"{what:28}{number:8}")
    print(f"{count} files: {faults} faults, {lost} not drawn")
    return 0 if not faults and 50 * lost <= count else 1


def refused(text: str) -> bool:
    """Whether Graphviz refuses a text."""
    ran = subprocess.run(["dot", "-Tcanon"], input=text.encode(), capture_output=True, check=False)
    return ran.returncode != 0 or b"syntax error" in ran.stderr


def main() -> int:
    from attribute_judge import Judge, Verdict, drawn, shown_alike, table

    is_ported = "--ports" in sys.argv
    words = [word for word in sys.argv[1:] if word != "--ports"]
    numbers = [int(word) for word in words[:2]]
    first, count = (*numbers, *(1, 1000 if is_ported else 2000)[len(numbers):])
    folder = Path(words[2]) if len(words) > 2 else None
    if is_ported:
        return judge_ports(first, count, folder)
    whole, right, neither, alone = Verdict(), 0, 0, 0
    for seed in range(first, first + count):
        text = Grammar(seed).file()
        try:
            svg, drawing, warnings, written = drawn(text.encode())
            judge = Judge(text.encode(), svg, drawing, warnings)
            found = judge.judged()
            faults = found.faults + shown_alike(drawing, written)
        except Exception as error:  # each is a fault of the drawing, unless Graphviz refuses the file too
            if refused(text):
                neither += 1
                continue
            found, faults = Verdict(), [f"{type(error).__name__}: {error}"]
        for fault in faults:
            print(f"{seed}: {fault}", flush=True)
        if faults and folder is not None:
            (folder / f"{seed}.gv").write_text(text, encoding="utf-8")
        whole.add(found)
        right += not faults
        alone += not faults and not judge.is_laid_out
    print("\n".join(table(whole)))
    print(f"{count} files: {right} drawn and right, of which dot itself fails on {alone}; {neither} that no program of Graphviz draws,"
          f" {count - right - neither} not")
    return 0 if 40 * right >= 39 * count else 1


if __name__ == "__main__":
    if "-h" in sys.argv or "--help" in sys.argv:
        print(__doc__)
        sys.exit(0)
    sys.exit(main())
