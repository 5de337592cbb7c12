"""What the file of a circuit says about its pins, read without the package: the nets, and where the file gives them the sides.

Used by the judge of schematics and by the tests of readers.
"""
from __future__ import annotations

import collections
import json
import re
from collections.abc import Iterable
from dataclasses import dataclass, field
from pathlib import Path
from typing import Any

Key = tuple[str, str]  # the reference of a part, with ~2 after it if it is the second one with it, and the number of a pin


@dataclass
class Truth:
    """What a file says: the name of the net of each pin (None: not connected), all names of each net, and, of the parts whose
    sides the file gives, the numbers of the pins from the lower end of the east side counter-clockwise, with their sides."""

    nets: dict[Key, str | None]
    names: dict[str, set[str]] = field(default_factory=dict)
    sides: dict[str, list[tuple[str, int]]] = field(default_factory=dict)
    modules: dict[str, Any] = field(default_factory=dict)  # of yosys


class Groups:
    """Disjoint sets."""

    def __init__(self) -> None:
        self.above: dict[Any, Any] = {}

    def top(self, one: Any) -> Any:
        self.above.setdefault(one, one)
        while self.above[one] != one:
            one = self.above[one]
        return one

    def join(self, one: Any, other: Any) -> None:
        self.above[self.top(one)] = self.top(other)


def truth(path: Path, form: str, inner: str | None = None) -> Truth:
    """What a file says."""
    return {"schematic": of_schematic, "netlist": of_netlist, "yosys": of_yosys, "spice": of_spice}[form](path, inner)


def lists(text: str) -> list[Any]:
    """The nested lists of an S-expression."""
    open_lists: list[list[Any]] = [[]]
    for quoted, bracket, word in re.findall(r'"((?:\\.|[^"\\])*)"|([()])|([^\s()"]+)', text, re.S):
        if bracket == "(":
            open_lists.append([])
        elif bracket == ")":
            done = open_lists.pop()
            open_lists[-1].append(done)
        else:
            open_lists[-1].append(word or re.sub(r"\\(.)", r"\1", quoted))
    return open_lists[0][0]


def sub(one: list[Any], *heads: str) -> list[list[Any]]:
    return [inner for inner in one if isinstance(inner, list) and inner and inner[0] in heads]


def value(one: list[Any], head: str, default: Any = None) -> Any:
    return next((inner[1] for inner in sub(one, head) if len(inner) > 1), default)


def spot(one: list[Any], head: str = "at") -> tuple[int, int]:
    x, y = sub(one, head)[0][1:3]
    return round(float(x) * 10_000), round(float(y) * 10_000)


def on(point: tuple[int, int], line: tuple[tuple[int, int], tuple[int, int]]) -> bool:
    (x, y), ((a, b), (c, d)) = point, line
    return (c - a) * (y - b) == (d - b) * (x - a) and min(a, c) <= x <= max(a, c) and min(b, d) <= y <= max(b, d)


def properties(one: list[Any]) -> dict[str, str]:
    return {inner[1]: inner[2] for inner in sub(one, "property")}


def clean(name: str) -> str:
    return re.sub(r"~\{([^{}]*)\}", r"/\1", name).replace("{slash}", "/")


def sheet_file(whole: list[Any], path: Path, inner: str) -> tuple[Path, list[str]]:
    """The file of a sheet directly inside a sheet, and its path of identifiers."""
    for one in sub(whole, "sheet"):
        name, file = sub(one, "property")[0][2], sub(one, "property")[1][2]
        if name == inner:
            return path.parent / file, [value(one, "uuid", "")]
    raise AssertionError(f"{path} has no sheet {inner}")


def of_schematic(path: Path, inner: str | None) -> Truth:
    """What a KiCad schematic says."""
    root = whole = lists(path.read_text())
    chain: list[str] = []
    if inner is not None:
        inside, chain = sheet_file(root, path, inner)
        whole = lists(inside.read_text())
    found, sides = drawn_pins(whole, references(root, whole, chain))
    joins = Groups()
    wires, buses = wiring(whole, joins)
    names = labels(whole, joins, wires, buses)
    for one in found:
        joins.join(("pin", one[0]), ("bus", one[1]) if any(on(one[1], line) for line in buses) else one[1])
    members = collections.Counter(joins.top(("pin", key)) for key, *_ in found)
    called: dict[Any, set[str]] = collections.defaultdict(set)
    for name in names:
        called[joins.top(("name", name))].add(name)
    nets: dict[Key, str | None] = {}
    for key, *_ in found:
        top = joins.top(("pin", key))
        nets[key] = str(top) if members[top] > 1 or called[top] else None
    return Truth(nets, {str(top): found for top, found in called.items()}, sides)


def references(root: list[Any], whole: list[Any], chain: list[str]) -> dict[str, tuple[str, int]]:
    """The references and units of symbols by their identifiers."""
    found = {}
    before = "/" + "".join(one + "/" for one in chain)
    for one in (entry for table in sub(root, "symbol_instances") for entry in sub(table, "path")):
        if one[1].startswith(before):
            found[one[1][len(before):]] = value(one, "reference"), int(value(one, "unit"))
    wanted = "/" + "/".join([value(root, "uuid", ""), *chain])
    for symbol in sub(whole, "symbol"):
        for instances in sub(symbol, "instances"):
            for entry in (entry for project in sub(instances, "project") for entry in sub(project, "path")):
                if entry[1] == wanted:
                    found[value(symbol, "uuid")] = value(entry, "reference"), int(value(entry, "unit"))
    return found


def wiring(whole: list[Any], joins: Groups) -> tuple[list[Any], list[Any]]:
    """Joins what wires and buses join; returns both."""
    both = []
    for kind in ("wire", "bus"):
        both.append([tuple((round(float(x) * 10_000), round(float(y) * 10_000)) for _, x, y in sub(sub(one, "pts")[0], "xy"))
                     for one in sub(whole, kind)])
    wires, buses = both
    for line in wires:
        joins.join(*line)
    for one, other in buses:
        joins.join(("bus", one), ("bus", other))
    for at in map(spot, sub(whole, "junction")):
        for line in (line for line in wires if on(at, line)):
            joins.join(at, line[0])
        for line in (line for line in buses if on(at, line)):
            joins.join(("bus", at), ("bus", line[0]))
    return wires, buses


def labels(whole: list[Any], joins: Groups, wires: list[Any], buses: list[Any]) -> set[str]:
    """Joins what labels and power symbols join; returns their names."""
    names = set()
    for one in sub(whole, "label", "global_label", "hierarchical_label"):
        at, name = spot(one), clean(one[1])
        names.add(name)
        lines = [line for line in wires if on(at, line)]
        for line in lines:
            joins.join(at, line[0])
        is_bus = False
        for line in (line for line in buses if on(at, line)):
            is_bus = True
            joins.join(("bus", at), ("bus", line[0]))
        is_bus |= not lines and bool(re.search(r"[\[{]", name))
        joins.join(("bus", at) if is_bus else at, ("name", name))
    library = {one[1]: one for table in sub(whole, "lib_symbols") for one in sub(table, "symbol")}
    for one in sub(whole, "symbol"):
        source = library[value(one, "lib_name") or value(one, "lib_id")]
        if is_mark(one, source) and not source[1].endswith("PWR_FLAG"):
            for pin, at in pins_of(one, source, {}):
                given = value(pin, "name", "")
                is_new = int(value(whole, "version", "0")) >= 20220914
                name = clean(properties(one)["Value"] if is_new or given in ("", "~") else given)
                names.add(name)
                joins.join(at, ("name", name))
    return names


def is_mark(one: list[Any], source: list[Any]) -> bool:
    return bool(sub(source, "power")) or properties(one).get("Reference", "").startswith("#")


def pins_of(one: list[Any], source: list[Any], known: dict[str, tuple[str, int]]) -> list[tuple[list[Any], tuple[int, int]]]:
    """The pins of a placed symbol, and their points on the sheet."""
    unit = known.get(value(one, "uuid", ""), ("", int(value(one, "unit", 1))))[1]
    style = int(value(one, "convert", 1))
    at = sub(one, "at")[0]
    (x, y), turn = spot(one), int(float(at[3])) if len(at) > 3 else 0
    found = []
    for block in sub(source, "symbol"):
        number, body = map(int, block[1].rsplit("_", 2)[1:])
        if number not in (0, unit) or body not in (0, style):
            continue
        for pin in sub(block, "pin"):
            a, b = spot(pin)
            b = -b
            for _ in range(turn // 90 % 4):
                a, b = b, -a
            mirror = value(one, "mirror")
            a, b = (-a if mirror == "y" else a), (-b if mirror == "x" else b)
            found.append((pin, (x + a, y + b)))
    return found


def drawn_pins(whole: list[Any], known: dict[str, tuple[str, int]]) -> tuple[list[tuple[Key, tuple[int, int]]], dict[str, Any]]:
    """The pins that a schematic shows, with their points, and the sides of parts."""
    library = {one[1]: one for table in sub(whole, "lib_symbols") for one in sub(table, "symbol")}
    wires = [tuple(spot(["", ["at", x, y]]) for _, x, y in sub(sub(one, "pts")[0], "xy")) for one in sub(whole, "wire")]
    found: list[tuple[Key, tuple[int, int]]] = []
    sides = {}
    seen: collections.Counter[str] = collections.Counter()
    for one in sub(whole, "symbol"):
        source = library[value(one, "lib_name") or value(one, "lib_id")]
        if is_mark(one, source):
            continue
        reference, unit = known.get(value(one, "uuid", ""), (properties(one)["Reference"], int(value(one, "unit", 1))))
        units = {block[1].rsplit("_", 2)[1] for block in sub(source, "symbol") if sub(block, "pin")} - {"0"}
        reference += chr(64 + unit) if len(units) > 1 else ""
        seen[reference] += 1
        reference += f"~{seen[reference]}" if seen[reference] > 1 else ""
        visible = {at for pin, at in pins_of(one, source, known) if not hidden(pin)}
        places = []
        for pin, at in pins_of(one, source, known):
            if hidden(pin) and at not in visible and not any(on(at, line) for line in wires):
                continue
            number = value(pin, "number", "")
            found.append(((reference, number), at))
            (a, b), angle = spot(pin), int(float(sub(pin, "at")[0][3])) // 90
            side = (angle + 2) % 4
            places.append((side, {0: b, 1: -a, 2: -b, 3: a}[side], number))
        if places:
            sides[reference] = [(number, side) for side, _, number in sorted(places)]
    for one in sub(whole, "sheet"):
        for pin in sub(one, "pin"):
            found.append(((sub(one, "property")[0][2], clean(pin[1])), spot(pin)))
    return found, sides


def hidden(pin: list[Any]) -> bool:
    return "hide" in pin or any(one[1:] != ["no"] for one in sub(pin, "hide"))


def of_netlist(path: Path, inner: str | None) -> Truth:
    """What a KiCad netlist says."""
    whole = lists(path.read_text())
    nets: dict[Key, str | None] = {}
    names = {}
    listed = {(value(one, "lib"), value(one, "part")): [value(pin, "num") for pins in sub(one, "pins") for pin in sub(pins, "pin")]
              for table in sub(whole, "libparts") for one in sub(table, "libpart")}
    for one in (one for table in sub(whole, "components") for one in sub(table, "comp")):
        for source in sub(one, "libsource"):
            for number in listed.get((value(source, "lib"), value(source, "part")), []):
                nets[value(one, "ref"), number] = None
    for net in (net for table in sub(whole, "nets") for net in sub(table, "net")):
        name, nodes = value(net, "name"), sub(net, "node")
        is_made = re.match(r"unconnected-|Net-|N-\d|no_connect", name)
        for node in nodes:
            nets[value(node, "ref"), value(node, "pin")] = name if len(nodes) > 1 or not is_made else None
        names[name] = {name.removeprefix("/")}
    return Truth(nets, names)


def of_yosys(path: Path, inner: str | None) -> Truth:
    """What JSON of yosys says: only the module, since nets are found by bits."""
    modules = json.loads(path.read_text())["modules"]
    tops = [name for name, one in modules.items() if int(str(one["attributes"].get("top", "0")), 2)]
    name = inner or (tops or list(modules))[0]
    return Truth({}, modules={"": modules[name]})


def of_spice(path: Path, inner: str | None) -> Truth:
    """What a SPICE netlist says."""
    lines: list[str] = []
    for line in path.read_text().split("\n")[1:]:
        line = re.sub(r"\s*=\s*", "=", re.split(r";|\s\$\s", line)[0].strip())
        if line.startswith("+"):
            lines[-1] += " " + line[1:]
        elif line and not line.startswith("*"):
            lines.append(line)
    bodies: dict[str, list[str]] = collections.defaultdict(list)
    models, ports, stack = {}, {}, [""]
    for words in map(str.split, lines):
        head = words[0].lower()
        if head == ".subckt":
            stack.append(words[1].lower())
            ports[words[1].lower()] = [word for word in words[2:] if "=" not in word]
        elif head == ".ends":
            stack.pop()
        elif head == ".model":
            models[words[1].lower()] = re.split(r"\(", words[2])[0].lower()
        elif head == ".end":
            break
        elif head[0] != ".":
            bodies[stack[-1]].append(" ".join(words))
    nets: dict[Key, str | None] = {}
    for words in map(str.split, bodies[(inner or "").lower()]):
        for number, node in terminals(words, models):
            nets[words[0], number] = "0" if node.lower() in ("0", "gnd") else node.lower()
    names: dict[str, set[str]] = collections.defaultdict(set)
    for net in nets.values():
        names[str(net)].add(str(net))
    shown = {port.lower() for port in ports.get((inner or "").lower(), [])} | {"0"}
    count = collections.Counter(nets.values())
    return Truth({key: net if count[net] > 1 or net in shown or is_supply(str(net)) else None for key, net in nets.items()}, names)


def is_supply(name: str) -> bool:
    return bool(re.match(r"(?i)v(cc|dd|ss|ee)|gnd|[+-]\d", name))


def terminals(words: list[str], models: dict[str, str]) -> Iterable[tuple[str, str]]:
    """The terminals of an element and their nodes."""
    letter = words[0][0].lower()
    plain = [word for word in words[1:] if "=" not in word]
    if letter == "x":
        return zip(map(str, range(1, len(plain))), plain[:-1])
    if letter == "q":
        count = next((place for place, word in enumerate(plain) if place >= 3 and word.lower() in models), 3)
        return zip("CBES", plain[:count])
    if letter in "mj":
        return zip("DGSB" if letter == "m" else "DGS", plain)
    if letter in "eg":
        is_plain = len(words) > 4 and "=" not in words[3] and not re.match(r"(?i)poly|value|\{", words[3])
        return zip(("+", "-", "C+", "C-") if is_plain else ("+", "-"), words[1:])
    return zip({"d": "AK", "v": "+-", "i": "+-"}.get(letter, "12"), words[1:3])
