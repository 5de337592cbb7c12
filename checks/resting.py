"""What the refusal of a wrong body rests on: the text and the contract of each function that it changes, and the
definitions that the contract cites, with those that these cite, however deep. Files and crates are not part of it, so a
function may move to another one; nor are comments and layout.

Definitions are those of specs/, and declarations of the sources: constants, and types with their meaning in contracts.
A method rests on what its block says beside functions, and one of a trait's block also on the trait's contract.
"""
from __future__ import annotations

import functools
import hashlib
import os
import re
from collections.abc import Iterator
from pathlib import Path
from typing import NamedTuple

# The first line of a function, a block or another declaration of a source, with its name.
FUNCTION = re.compile(r"^( *)(?:pub(?:\([\w ]+\))? +)?(?:const +|final +)*fn +(\w+)")
BLOCK = re.compile(r"^(?:pub(?:\([\w ]+\))? +)?(?:impl|trait|mod)\b")
DECLARED = re.compile(r"^(?:pub(?:\([\w ]+\))? +)?(?:struct|enum|const|static|type|trait) +(\w+)")
IMPLEMENTED = re.compile(r"^impl(?:<.*?>)? +(?:(?P<trait>\w+)(?:<.*>)? +for +)?(?P<type>\w+)")
# An import in a source or a file of specs/, with the names after its path: `PATH.{a, b as c}`, `PATH as c` or `PATH`.
IMPORT = re.compile(r"^ *(?:ghost )?use +(?P<path>Rattle(?:\.\w+)+?)(?:\.\{(?P<names>[^}]*)\}|(?: +as +(?P<alias>\w+))?);?$", re.M)
USED = re.compile(r"^use +(?P<path>\w+(?:::\w+)*?)(?:::\{(?P<names>[^}]*)\}|(?:::(?P<name>\w+))?);$", re.M)
# The first words of a definition of specs/.
DEFINED = re.compile(r"^(?:(?:pub|abbrev|record|data|opaque|macro|mutual|instance|inductive) +)*([\w']+|◌\S+◌)")
NAME = re.compile(r"(?<![\w'])(?:([a-z]\w*)\.)?([A-Za-z_][\w']*)")


class Named(NamedTuple):
    """A definition by its file of specs/ and its name, or a declaration by its crate and its name."""
    home: str
    name: str


class Function(NamedTuple):
    """A function of a source: its name, the places of its lines (the first, that of its body, that after the last), and the
    first line of its block, if it stands in one."""
    name: str
    first: int
    body: int
    last: int
    block: int | None


def plain(text: str, comment: str) -> str:
    """A text without comments that take whole lines, and without its layout."""
    lines = (line for line in text.splitlines() if not line.strip().startswith(comment))
    return " ".join(" ".join(lines).split())


@functools.cache
def lines_of(path: str) -> list[str]:
    """The lines of a file."""
    return Path(path).read_text(encoding="utf-8").splitlines()


def end_of(lines: list[str], first: int) -> int:
    """The place after the last line of the function, block or declaration that begins at this line."""
    indent = re.match(" *", lines[first])[0]
    for at in range(first, len(lines)):
        line = lines[at]
        if line in (indent + "}", indent + "};", indent + "{}") or at == first and line.endswith(("}", ";", "};")):
            return at + 1
        if at > first and line.startswith((indent + ")", indent + "    ")) and line.endswith((";", "{}")) and not any(
                it == indent + "{" or it.startswith(indent) and it.endswith(" {") for it in lines[first:at]):
            return at + 1
    return len(lines)


@functools.cache
def functions_of(path: str) -> list[Function]:
    """The functions of a source, in order."""
    lines, found, block, block_end = lines_of(path), [], None, 0
    for at, line in enumerate(lines):
        if BLOCK.match(line):
            block, block_end = at, end_of(lines, at)
        if head := FUNCTION.match(line):
            last = end_of(lines, at)
            opened = (it for it in range(at, last) if lines[it] == head[1] + "{")
            body = next(opened, next((it for it in range(at, last) if lines[it].endswith("{")), last - 1))
            found.append(Function(head[2], at, body, last, block if at < block_end else None))
    return found


@functools.cache
def imports_of(path: str) -> dict[str, tuple[str, str]]:
    """The names that a file imports for contracts: from what module each comes, and under which name there."""
    found = {}
    for told in IMPORT.finditer("\n".join(lines_of(path))):
        for word in (told["names"] or "").split(","):
            name, _, other = word.strip().partition(" as ")
            found[other or name] = (told["path"], name)
        if told["alias"]:
            found[told["alias"]] = (told["path"], "")
    return found


@functools.cache
def types_used(path: str) -> dict[str, str]:
    """The names that a source uses of crates: of which crate each is."""
    found = {}
    for told in USED.finditer("\n".join(lines_of(path))):
        for word in [*(told["names"] or "").split(","), told["name"] or ""]:
            found[word.strip().rpartition("::")[2]] = told["path"].partition("::")[0]
    return found


@functools.cache
def definitions_of(path: str) -> dict[str, str]:
    """The definitions of a file of specs/: the text of each by its name, and by the names of its fields or cases."""
    lines, found = lines_of(path), {}
    heads = [at for at, line in enumerate(lines) if line[:1].strip() and not line.startswith(("--", "use ", "module "))]
    for at, after in zip(heads, [*heads[1:], len(lines)]):
        text = plain("\n".join(lines[at:after]), "--")
        name = DEFINED.match(lines[at])
        for one in {name[1]} if name else ():
            found[one] = f"{found.get(one, '')} {text}"
        if " where" in lines[at]:
            fields = (re.match(r"(?:pub +)?([\w']+)", line.strip()) for line in lines[at + 1:after])
            found |= {field[1]: text for field in fields if field and field[1] not in found}
    return found


@functools.cache
def sources_of(top: str, crate: str) -> list[str]:
    """The paths of a crate's sources."""
    folder = Path(top, "crates", crate, "src")
    return sorted(map(str, folder.rglob("*.rt"))) if folder.is_dir() else []


@functools.cache
def declared_in(top: str, crate: str, name: str) -> list[tuple[str, str]]:
    """The declaration of a type, trait or constant in a crate, and its meaning in contracts: paths and texts."""
    found = []
    for path in sources_of(top, crate):
        lines = lines_of(path)
        for at, line in enumerate(lines):
            named, made = DECLARED.match(line), IMPLEMENTED.match(line)
            if named and named[1] == name and not line.startswith(("trait", "pub trait")):
                found.append((path, "\n".join(lines[at:end_of(lines, at)])))
            elif made and made["type"] == name and made["trait"] == "Model":
                found.append((path, "\n".join(lines[at:end_of(lines, at)])))
    return found


def beside_functions(path: str, block: int) -> str:
    """The lines of a block that stand in none of its functions."""
    lines = lines_of(path)
    inside = {at for one in functions_of(path) for at in range(one.first, one.last)}
    return "\n".join(lines[at] for at in range(block, end_of(lines, block)) if at not in inside)


def trait_parts(top: str, trait: str, function: str) -> Iterator[tuple[str, str]]:
    """What a trait of the repository says of a function, and beside its functions: paths and texts."""
    for crate in sorted(os.listdir(os.path.join(top, "crates"))):
        for path in sources_of(top, crate):
            for at, line in enumerate(lines_of(path)):
                if re.match(rf"(?:pub +)?trait +{trait}\b", line):
                    yield path, beside_functions(path, at)
                    for one in functions_of(path):
                        if one.block == at and one.name == function:
                            yield path, "\n".join(lines_of(path)[one.first:one.last])


@functools.cache
def cited_in(top: str, path: str, text: str) -> frozenset[Named]:
    """The definitions and declarations of the repository whose names stand in a text of this file."""
    imports, found = imports_of(path), set()
    own = Path(path).relative_to(top).parts[1]
    for alias, name in NAME.findall(plain(text, "--" if path.endswith(".antt") else "//")):
        if alias in imports and not imports[alias][1]:
            found.add(named_by(top, imports[alias][0], name))
        elif name in imports:
            found.add(named_by(top, *imports[name]))
        elif path.endswith(".antt") and name in definitions_of(path):
            found.add(Named(path, name))
        elif path.endswith(".rt") and name[:1].isupper():
            crate = types_used(path).get(name, own)
            found.add(Named(own if crate == "crate" else crate, name))
    return frozenset(found - {None})


def named_by(top: str, module: str, name: str) -> Named | None:
    """What a module's name stands for, if the module is one of the repository."""
    _, crate, *rest = module.split(".")
    if rest[:2] == ["specs", "declared"]:
        kinds = [it for it in rest[2:] if it[:1].isupper() and not it.startswith("The")]
        return Named(crate, kinds[-1] if kinds else name)
    path = os.path.join(top, "crates", crate, *rest) + ".antt"
    return Named(path, name) if rest[:1] == ["specs"] and os.path.isfile(path) else None


@functools.cache
def texts_of(top: str, one: Named) -> list[tuple[str, str]]:
    """The texts of a definition or declaration, each with the file in which it stands."""
    if one.home.endswith(".antt"):
        text = definitions_of(one.home).get(one.name)
        return [(one.home, text)] if text else []
    return declared_in(top, one.home, one.name)


@functools.cache
def cited_by(top: str, one: Named) -> frozenset[Named]:
    """What a definition or declaration cites."""
    return frozenset(it for path, text in texts_of(top, one) for it in cited_in(top, path, text))


def parts_of(top: str, path: str, one: Function) -> Iterator[tuple[str, str, str]]:
    """The parts of a function and of its contract: the file of each, its text, and that of it which is contract."""
    lines = lines_of(path)
    yield path, "\n".join(lines[one.first:one.last]), "\n".join(lines[one.first:one.body])
    if one.block is not None:
        beside, made = beside_functions(path, one.block), IMPLEMENTED.match(lines[one.block])
        yield path, beside, beside
        for other, text in trait_parts(top, made["trait"], one.name) if made and made["trait"] else ():
            yield other, text, text


def rest_of(top: str, path: str, functions: list[Function]) -> str:
    """The checksum of what a wrong body of these functions of a source rests on; of the whole source without any."""
    texts, met, front = set(), set(), set()
    for one in functions:
        for home, text, contract in parts_of(top, path, one):
            texts.add(plain(text, "//"))
            front |= cited_in(top, home, contract)
    if not functions:
        texts.add(plain("\n".join(lines_of(path)), "//"))
    while front:
        met |= front
        front = {it for one in front for it in cited_by(top, one)} - met
    texts |= {plain(text, "--" if home.endswith(".antt") else "//") for one in met for home, text in texts_of(top, one)}
    return hashlib.sha256("\0".join(sorted(texts)).encode()).hexdigest()[:12]
