#!/usr/bin/env python3
"""Writes the completions for bash, docs/planarbend.bash and docs/planarbend-draw.bash, from the texts of --help.
python/tests/test_packages.py finds them if they are not those of the texts."""
from __future__ import annotations

import re
import sys
from collections.abc import Iterable, Mapping
from pathlib import Path

sys.dont_write_bytecode = True
sys.path.insert(1, str(Path(__file__).resolve().parent.parent / "checks"))
import pages
import programs
from programs import ROOT

Entries = Iterable[tuple[str, str]]  # arguments and options, each with what --help says of it
TEXT = """\
# Completion of {program} for bash. package/completion.py writes it from --help.
{name}() {{
    local command= word=$2 before=$3 words=
    if ((COMP_CWORD > 1)); then command=${{COMP_WORDS[1]}}; fi
    if [[ $word == = ]]; then word=; fi
    if [[ $before == = ]]; then before=${{COMP_WORDS[COMP_CWORD - 2]}}; fi
    case $command:$before in
{cases}    esac
    mapfile -t COMPREPLY < <(compgen -W "$words" -- "$word")
}}
complete -o default -F {name} {program}
"""


def option_of(name: str, said: str) -> tuple[list[str], list[str] | None]:
    """The names of an option, and the values that it takes: `None` if it takes none or a file."""
    words = re.findall(r"(?<![\w-])--?[a-z][a-z-]*", name)
    if values := re.search(r"\{(.*)\}", name) or re.search(r"\[possible values: (.*?)\]", said):
        return words, re.split(r", ?", values[1])
    return words, [] if re.search(r"[A-Z]", name) and "OUT" not in name else None


def cases(command: str, entries: Entries) -> str:
    """The cases of a command: after an option with listed values these, after one with others nothing, otherwise files, or
    options if the word begins with a dash."""
    options = [option_of(*entry) for entry in entries]
    lines = [(words, f'words="{" ".join(values)}"') for words, values in options if values]
    lines.append(([word for words, values in options if values == [] for word in words], "compopt +o default"))
    every = " ".join(word for words, _ in options for word in words)
    lines.append((["*"], f'if [[ $word == -* ]]; then words="{every}"; fi'))
    return "".join(f"    {' | '.join(f'{command}:{word}' for word in words)}) {does} ;;\n" for words, does in lines if words)


def completion(program: str, table: Mapping[str, Entries], commands: Iterable[str] = (), options: Iterable[str] = ()) -> str:
    """The completion of a program.

    Parameters
    ----------
    program : str
        Its name.
    table : mapping from commands to their arguments and options
        A program without commands has one, named `*`.
    commands, options : words, optional
        The words that may be in place of a command; the commands may also follow the last of them, which is `help`.
    """
    text = "".join(map(cases, table, table.values()))
    if commands:
        *named, last = commands
        text += f'    {last}:*) words="{" ".join(named)}" ;;\n    *) words="{" ".join([*named, last, *options])}" ;;\n'
    return TEXT.format(program=program, name="_" + program.replace("-", "_"), cases=text)


def completions() -> dict[str, str]:
    """The text of each file."""
    commands = re.findall(r"^  ([a-z]+)  ", pages.text_of(f"{pages.TEXTS}/help"), re.M)
    options = [word for entry in pages.entries_of("help") for word in option_of(*entry)[0]]
    table = {name: pages.entries_of(name) for name in commands if name != "help"}
    return {"docs/planarbend.bash": completion("planarbend", table, commands, options),
            "docs/planarbend-draw.bash": completion("planarbend-draw", {"*": pages.entries_of("draw")})}


if __name__ == "__main__":
    programs.parser_of(__doc__).parse_args()
    for path, text in completions().items():
        Path(ROOT, path).write_text(text, encoding="utf-8")
