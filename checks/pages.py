#!/usr/bin/env python3
"""Checks of the pages for checks/ready: no page is too long; and each name in backticks exists in the tree as a file, a
crate, an option, or a word of the code, the definitions or the scripts. In docs/PROVED.md, a name must occur in the crates of
its section, and each clause in a table must be in the contract of a call in the same row. Code blocks are not checked. The
man pages docs/planarbend.1 and docs/planarbend-draw.1 have the arguments and options of --help in the same words, their
version is the program's, and that of CHANGELOG.md, and `man --warnings` finds no fault in them. The program's texts are those
of checks/start/texts, which checks/first-answer compares with the program's. Run directly, this script puts these texts into
the man pages.
"""
import collections
import difflib
import glob
import os
import re
import shutil
import subprocess
import sys
from pathlib import Path

import programs
from programs import ROOT

PAGES = ["README.md", "CONTRIBUTING.md", "docs/*.md", "bench/*.md"]
COUNTED = [*PAGES, "CHANGELOG.md", "examples/README.md"]
MOST = {"README.md": 1_000, "CONTRIBUTING.md": 900, "CHANGELOG.md": 600, "docs/CHECK.md": 500, "docs/CLUSTER.md": 750,
        "all pages": 13_000}  # words
WRITTEN = {"bench/RESULTS.md", "docs/COUNTS.md"}  # by scripts, and so not counted
NO_TREE = {"bench/RESULTS.md"}  # quotes what ran
# Words of other programs, of formats, and of the system.
OUTSIDE = set("""rt ci check fmt tidy lemma test doc version must-fail verdict Ok Err printf png svg planarg geng -p -c
    -D4 plantri parallel slurm-wlm munge nauty chromium futex clap MOD RES kill cred_expire slurm.conf sshlogin workdir
    env passed failed format-patch smallvec --only requires docs/REFUSED.md python3-networkx python3-scipy graphviz pip -e
    -d librsvg2-bin -Gsplines ortho dot kicad_sch --sheet""".split())
MEN, TEXTS = ("docs/planarbend.1", "docs/planarbend-draw.1"), "checks/start/texts"
ENTRY = re.compile(r"^ {2,6}(-\S.*?|<.*?>\S*)  +(\S.*)$")  # an argument or option of --help, and what it says
DRAW_ENTRY = re.compile(r"^ {2}(-\S.*?|[A-Z]+)(?: {2,}|\n {10,})(\S.*)$", re.M)  # the same of planarbend-draw
WORD = re.compile(r"-{0,2}[A-Za-z_][\w\-]*(?:\.[a-z]\w*)*|\d[\d,.]*")


def text_of(path):
    return programs.read(os.path.join(ROOT, path)).decode(errors="replace")


def pages(patterns):
    """The pages that these patterns name, with their texts."""
    paths = [path for pattern in patterns for path in sorted(glob.glob(os.path.join(ROOT, pattern)))]
    return {os.path.relpath(path, ROOT): text_of(path) for path in paths}


def too_long():
    """Reports each page that has too many words, and all pages together, except those that scripts write."""
    counts = collections.Counter({page: len(text.split()) for page, text in pages(COUNTED).items() if page not in WRITTEN})
    counts["all pages"] = counts.total()
    return [f"{page}: {counts[page]} words, {most} at most" for page, most in MOST.items() if counts[page] > most]


class Tree:
    """The names in the repository."""

    def __init__(self, crates):
        self.crates = [crate.name for crate in crates]
        self.files, folders = set(), set()
        for folder, below, names in os.walk(ROOT):
            below[:] = [name for name in below if name not in (".git", "out", "__pycache__")]
            place = os.path.relpath(folder, ROOT)
            folders.add(place)
            self.files.update(os.path.normpath(os.path.join(place, name)) for name in names)
        self.ends = {"/".join(place.split("/")[at:]) for place in self.files | folders for at in range(place.count("/") + 1)}
        self.words = {crate: self.words_of_crate(crate) for crate in self.crates}
        scripts = [file for file in self.files if file.split("/")[0] in ("checks", "bench", "examples")
                   and not file.endswith((".md", ".pc")) and not file.startswith("checks/pages")]
        self.others = self.split("\n".join(map(text_of, scripts + ["planarbend", "crates.txt"])))
        self.all = self.others.union(OUTSIDE, *self.words.values())

    @staticmethod
    def split(text):
        return {part for word in WORD.findall(text) for part in (word, *word.split("."), *word.split("-"), word.lstrip("-"))}

    def words_of_crate(self, crate):
        """The words of a crate's code and definitions, without comments."""
        return {crate, *self.split("\n".join(
            line.partition(comment)[0] for part, comment in (("src", "//"), ("specs", "--")) for file in self.files
            if file.startswith(f"crates/{crate}/{part}/") for line in text_of(file).splitlines()))}

    def has_path(self, name):
        """Whether the path of some file or folder of the tree ends like this."""
        return name.removeprefix("./").rstrip("/") in self.ends

    def has(self, word, crates):
        """Whether a word is in one of these crates, or, if these are all crates, in scripts; or is a word of other
        programs. A placeholder is not a name, and the end of a name stands for all names with this end."""
        if word in OUTSIDE or re.fullmatch(r"[A-Z]{1,9}(\.\w+)?|\d[\d,.]*", word):
            return True
        if word.startswith("_"):
            return any(name.endswith(word) for name in self.all)
        return any(word in self.words[crate] for crate in crates) or (crates == self.crates and word in self.others)


def spans(page, text):
    """Each name in backticks with the crates in which it must occur: in docs/PROVED.md those of its section and of its
    paragraph, otherwise all."""
    text = re.sub(r"^```.*?^```", "", text, flags=re.M | re.S)
    for section in re.split(r"^(?=## )", text, flags=re.M):
        heading = section.splitlines()[0] if section.startswith("## ") else ""
        for paragraph in re.split(r"\n\n|\n(?=- )", section):
            for name in re.findall(r"`([^`\n]+)`", paragraph):
                yield name, (heading + paragraph if page == "docs/PROVED.md" and "`" in heading else None)


def lost_names(tree, page, text):
    """The names in backticks that are not in the tree."""
    lost = []
    for name, context in spans(page, text):
        named = [crate for crate in re.findall(r"`(\w+)(?=::|`)", context or "") if crate in tree.crates]
        crates = named if context else tree.crates
        if tree.has_path(name) or (crates == tree.crates and name in tree.all):
            continue
        first = name.split("::")[0]
        here = [first] if first != name and first in tree.crates else []
        for word in WORD.findall(re.sub(r"['\"\[\]{}()|=]", " ", name.replace("::", " "))):
            if not (tree.has(word, here or crates) or tree.has_path(word)):
                lost.append(f"{page}: `{name}`: there is no {word}"
                            + (f" in {' '.join(here or crates)}" if here or context else ""))
                break
    return lost


def clauses_by_call(tree):
    """The named clauses of all functions of the crates, by the function's name."""
    found = collections.defaultdict(set)
    for file in filter(re.compile(r"crates/\w+/src/.*\.rt").fullmatch, tree.files):
        _, *parts = re.split(r"\bfn (\w+)", text_of(file))
        for name, contract in zip(parts[::2], parts[1::2]):
            found[name].update(re.findall(r"\bensures (\w+) \{", contract))
    return found


def lost_clauses(tree, text):
    """The clauses in the tables of docs/PROVED.md that no call of their row has. A cell without a call repeats the one
    above; in a table of two columns the call is in the heading."""
    clauses, lost = clauses_by_call(tree), []
    for table in re.findall(r"(?:^\|.*\n)+", text, flags=re.M):
        rows = [line[1:-1].split("|") for line in table.splitlines()]
        calls = []
        for cells in rows if rows[0][-1] == "Clause" else []:
            if cells is rows[0] or len(cells) == 3:
                calls = [name for name in re.findall(r"`(?:\w+::)*(\w+)`", cells[-2]) if name in clauses] or calls
            has = set().union(*(clauses[name] for name in calls))
            if not cells[-2].startswith("type "):
                lost += [f"docs/PROVED.md: no clause {name} of {' or '.join(calls)}"
                         for name in re.findall(r"`(\w+)`", cells[-1]) if name not in has]
    return lost


def troff(text):
    """A text with troff escapes."""
    text = text.replace("\\", "\\e").replace("-", "\\-")
    return "\\&" + text if text.startswith((".", "'")) else text


def man_page(text):
    """The man page with the texts of --help between its headings."""
    for command in re.findall(r'^\.\\" (\w+)$', text, re.M):
        section = "".join(f".TP\n.B {troff(name)}\n{troff(said)}\n" for name, said in entries_of(command))
        heading = f'.\\" {command}\n'
        before, _, after = text.partition(heading)
        text = before + heading + section + ".SH " + after.partition(".SH ")[2]
    version = text_of(f"{TEXTS}/version").split()[1]
    return re.sub(r'"planarbend [\d.]+"', f'"planarbend {version}"', text, count=1)


def entries_of(command):
    """The arguments and options of a command, each with what --help says of it."""
    if command != "draw":
        return [entry.groups() for entry in map(ENTRY.match, text_of(f"{TEXTS}/{command}").splitlines()) if entry]
    environment = {"COLUMNS": "1000", "PYTHONPATH": os.path.join(ROOT, "python"), "PYTHONDONTWRITEBYTECODE": "1"}
    ran = subprocess.run([sys.executable, "-m", "planarbend", "draw", "--help"], capture_output=True, text=True,
                         env=os.environ | environment, check=True)
    told = ran.stdout.partition("arguments:\n")[2].partition("\nexamples:")[0]
    return [(re.sub(r"^(-\w) \w+,", r"\1,", name), said)  # as Python 3.13 has it
            for name, said in DRAW_ENTRY.findall(told)]


def faults_of_man(page):
    """The faults of a man page, one line each."""
    text = text_of(page)
    lines = list(difflib.unified_diff(text.splitlines(), man_page(text).splitlines(), page, "--help", lineterm=""))
    if shutil.which("man"):
        words = ["man", "--warnings", "-E", "UTF-8", "-l", "-Tutf8", "-Z", os.path.join(ROOT, page)]
        environment = {"LC_ALL": "C.UTF-8", "MANROFFSEQ": "", "MANWIDTH": "80", "PATH": "/usr/bin:/bin"}
        ran = subprocess.run(words, capture_output=True, text=True, env=environment)
        status = [f"status {ran.returncode}"] if ran.returncode else []
        lines += [f"man: {line}" for line in ran.stderr.splitlines() or status]
    return lines


def faults(crates):
    """The faults of the pages, one line each."""
    tree, found = Tree(crates), pages(PAGES)
    lines = too_long() + [line for page, text in found.items() if page not in NO_TREE for line in lost_names(tree, page, text)]
    newest = re.search(r"^(?:To become |## \[)(\d[\d.]*\d)", text_of("CHANGELOG.md"), re.M)[1]
    if newest != (version := text_of(f"{TEXTS}/version").split()[1]):
        lines.append(f"CHANGELOG.md: the newest version is {newest}, and that of the program {version}")
    return lines + lost_clauses(tree, found["docs/PROVED.md"]) + [line for page in MEN for line in faults_of_man(page)]


if __name__ == "__main__":
    programs.parser_of(__doc__).parse_args()
    for man in MEN:
        Path(ROOT, man).write_text(man_page(text_of(man)), encoding="utf-8")
