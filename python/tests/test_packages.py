"""The parts of packages and wheels that read or return texts and bytes, and the completions for bash."""
from __future__ import annotations

import email
import re
import subprocess
import sys
import tarfile
import tempfile
import tomllib
import unittest
import zipfile
from pathlib import Path

import support

sys.path.insert(1, str(support.ROOT / "package"))
import build_wheel
import completion
import packages

ABOUT = {"name": "some", "version": "1.5", "description": "A thing", "keywords": ["a b", "c"], "requires-python": ">=3.11",
         "authors": [{"name": "A B"}, {"name": "C"}], "classifiers": ["Typing :: Typed"], "dependencies": ["x>=2"], "optional-dependencies": {"more": ["y", "z<3"]}}
ABC = "ungWv48Bz-pBQUDeXa4iI7ADYaOWF3qctBD_YfIAFa0"  # SHA-256 of "abc" by FIPS 180, as RECORD has it
MADE = packages.Made(b"\0GLIBC_2.2.5\0GLIBC_2.17\0", b"\0GLIBC_2.34\0GLIBC_PRIVATE\0", None, "c0ffee", "kit 1", "proved")


class Wheel(unittest.TestCase):
    def test_metadata(self) -> None:
        text = build_wheel.core_metadata(ABOUT, "# Some\n\nName: other\n")
        found = email.message_from_string(text)
        self.assertEqual([found[name] for name in ("Name", "Version", "Summary", "Keywords", "Author", "Requires-Python")],
                         ["some", "1.5", "A thing", "a b,c", "A B, C", ">=3.11"])
        self.assertEqual(found.get_all("Requires-Dist"), ["x>=2", 'y; extra == "more"', 'z<3; extra == "more"'])
        self.assertEqual((found.get_all("Provides-Extra"), found["Description-Content-Type"]), (["more"], "text/markdown"))
        self.assertEqual(found.get_payload(), "# Some\n\nName: other\n")

    def test_record(self) -> None:
        self.assertEqual(build_wheel.record({"a/b": b"abc"}, "it/RECORD").decode(), f"a/b,sha256={ABC},3\nit/RECORD,,\n")

    def test_written(self) -> None:
        with tempfile.TemporaryDirectory() as folder:
            files = {"planarbend/x.so": b"abc", "{}.data/scripts/run": b"abc"}
            name = build_wheel.write_wheel(folder, files, "py3-none-linux_x86_64", "9.8+y", {"origin": "here"})
            self.assertEqual(name, "planarbend-9.8+y-py3-none-linux_x86_64.whl")
            with zipfile.ZipFile(Path(folder, name)) as wheel:
                modes = {entry.filename: entry.external_attr >> 16 for entry in wheel.infolist()}
                self.assertEqual(modes["planarbend-9.8+y.data/scripts/run"], 0o100755)
                self.assertEqual(modes["planarbend/x.so"], 0o100644)
                about = "planarbend-9.8+y.dist-info/"
                self.assertEqual(wheel.read(about + "origin"), b"here")
                self.assertIn(b"\nRoot-Is-Purelib: false\nTag: py3-none-linux_x86_64\n", wheel.read(about + "WHEEL"))
                self.assertIn(b"\nVersion: 9.8+y\n", wheel.read(about + "METADATA"))
                lines = wheel.read(about + "RECORD").decode().splitlines()
                self.assertEqual([line.split(",")[0] for line in lines], list(modes))


class Packages(unittest.TestCase):
    def setUp(self) -> None:
        self.folder = Path(self.enterContext(tempfile.TemporaryDirectory()))

    def test_glibc(self) -> None:
        for data, version in ((b"", 0), (b"GLIBC_2.9\0", 0), (b"\0GLIBC_2.9\0GLIBC_2.10x\0", 9), (MADE.program, 17)):
            self.assertEqual(packages.glibc_of(data), version)
        self.assertEqual(packages.tag_of(MADE.program + MADE.library), "py3-none-manylinux_2_34_x86_64")
        self.assertEqual(packages.tag_of(b"#!/bin/sh\n"), "py3-none-linux_x86_64")

    def test_origin(self) -> None:
        version = packages.library.version()
        self.assertEqual(MADE.origin, f"planarbend {version}\ncommit c0ffee\nkit kit 1\nprogram proved\nlibrary proved\n"
                                      "needs x86_64 Linux with glibc 2.34 or later\n")
        tried = MADE._replace(word="unverified")
        self.assertEqual(tried.version, f"{version}+unverified")
        self.assertEqual(tried.origin.count("proved"), 0)

    def test_tree(self) -> None:
        tree = packages.tree_of(MADE)
        self.assertEqual(tree["bin/planarbend"], (MADE.program, 0o755))
        self.assertNotIn("lib/libplanarbend.a", tree)
        self.assertEqual(packages.tree_of(MADE._replace(static=b"abc"))["lib/libplanarbend.a"], (b"abc", 0o644))
        lines = tree["lib/pkgconfig/planarbend.pc"][0].decode().splitlines()
        self.assertEqual(lines[:3], ["prefix=${pcfiledir}/../..", "libdir=${prefix}/lib", "includedir=${prefix}/include"])

    def test_tarball(self) -> None:
        tree = {"lib/it": (b"abc", 0o755), "a": (b"it", 0), "b": (b"", 0o644)}
        for name in ("one", "other"):
            packages.write_tarball(self.folder / name, "top", tree)
        self.assertEqual((self.folder / "one").read_bytes(), (self.folder / "other").read_bytes())
        with tarfile.open(self.folder / "one") as found:
            self.assertEqual(found.getnames(), ["top/a", "top/b", "top/lib/it"])
            self.assertEqual((found.getmember("top/a").linkname, found.getmember("top/lib/it").mode), ("it", 0o755))
        listed = subprocess.run(["tar", "-xzOf", self.folder / "one", "top/lib/it"], capture_output=True, check=True)
        self.assertEqual(listed.stdout, b"abc")

    def test_outdated(self) -> None:
        for name in ("out/it", "a/b", "c"):
            (self.folder / name).parent.mkdir(exist_ok=True)
            (self.folder / name).write_text(name)
        (self.folder / "crates.txt").write_text("it: a\nother:\n")
        sums = subprocess.run(["sha256sum", "out/it", "a/b", "c"], cwd=self.folder, capture_output=True, check=True).stdout
        record = self.folder / "out/it.sources"
        self.assertEqual(packages.outdated(record, self.folder), "out/it has no record of its sources")
        record.write_bytes(b"#kit 12\n#crates.txt it: a\n" + sums)
        self.assertEqual(packages.outdated(record, self.folder), "")
        for name, why in (("c", "is older than c"), ("a/b", "is older than a/b"), ("crates.txt", "is older than crates.txt"),
                          ("out/it", "has no record of its sources")):
            before = (self.folder / name).read_bytes()
            (self.folder / name).write_text("other: a\n")
            self.assertEqual(packages.outdated(record, self.folder), f"out/it {why}")
            (self.folder / name).write_bytes(before)
        (self.folder / "c").unlink()
        self.assertEqual(packages.outdated(record, self.folder), "out/it is older than c")
        (self.folder / "out/it").unlink()
        self.assertEqual(packages.outdated(record, self.folder), "there is no proved out/it here yet")

    def test_changes(self) -> None:
        """New files are changes only below python/, of which a wheel takes every file."""
        with tempfile.TemporaryDirectory() as name:
            folder = Path(name).resolve()
            subprocess.run(["git", "init", "-q", folder], check=True)
            for new, is_change in ("graphs.pc", False), ("python/new.py", True):
                (folder / new).parent.mkdir(exist_ok=True)
                (folder / new).touch()
                author = ["-c", "user.name=a", "-c", "user.email=a@example.org"]
                subprocess.run(["git", "-C", folder, *author, "commit", "-q", "--allow-empty", "-m", "x"], check=True)
                with self.subTest(new):
                    self.assertEqual(packages.commit_of(folder, True).endswith(" with changes"), is_change)

    def test_the_same_version(self) -> None:
        about = tomllib.loads((support.PACKAGE / "pyproject.toml").read_text())["project"]
        header, cited = (support.ROOT / "c/planarbend.h").read_text(), (support.ROOT / "CITATION.cff").read_text()
        found = re.findall(r'(?m)^(?:#define PLANARBEND_VERSION|version:) "(.*)"$', header + cited)
        self.assertEqual([*found, about["version"]], [packages.library.version()] * 3)


class Completion(unittest.TestCase):
    def test_written_from_help(self) -> None:
        for path, text in completion.completions().items():
            self.assertEqual((support.ROOT / path).read_text(encoding="utf-8"), text, "run package/completion.py")

    def test_options(self) -> None:
        for name, said, wanted in (
            ("-h, --help", "Print help", (["-h", "--help"], None)), ("<FILE>...", "files", ([], [])),
            ("--outer <CHOICE>", "Face [default: a] [possible values: a, b]", (["--outer"], ["a", "b"])),
            ("--theme {x,y}", "colours", (["--theme"], ["x", "y"])), ("-o, --output OUT", "a file", (["-o", "--output"], None)),
            ("--straight NAME--NAME", "no bends", (["--straight"], [])), ("--progress...", "Show", (["--progress"], None)),
        ):
            self.assertEqual(completion.option_of(name, said), wanted)

    def completed(self, *words: str) -> list[str]:
        """What bash completes the last of these words to; a text that begins with `compopt` if files are not meant."""
        script = (f". {support.ROOT}/docs/{words[0]}.bash; compopt() {{ echo compopt $*; }}; COMP_WORDS=(\"$@\")"
                  "; COMP_CWORD=$(($# - 1)); _${1//-/_} \"$1\" \"${@: -1}\" \"${@: -2:1}\"; printf '%s\\n' \"${COMPREPLY[@]}\"")
        ran = subprocess.run(["bash", "-c", script, "bash", *words], capture_output=True, text=True, check=True)
        self.assertEqual(ran.stderr, "")
        return ran.stdout.split()

    def test_planarbend(self) -> None:
        for words, wanted in (
            ("", "layout frames check pick count help --version -h --help"), ("l", "layout"), ("--v", "--version"),
            ("help c", "check count"), ("pick --rule n", "none"), ("count --by n,m ", ""),
            ("layout --outer ", "first best"), ("layout --outer =", "first best"), ("layout --outer = b", "best"),
            ("layout x.pc --drawing q", "quick"), ("layout --lanes ", "compopt +o default"), ("layout tw", ""),
            ("layout --wa", "--waiting"), ("check --", "--json --faces --help"), ("frames --x", ""),
        ):
            self.assertEqual(self.completed("planarbend", *words.split(" ")), wanted.split(), words)

    def test_planarbend_draw(self) -> None:
        for words, wanted in (("x --theme ", "light dark auto"), ("--format g", "graphml gml graph6"), ("x -o y", ""),
                              ("--str", "--straight"), ("--seed ", "compopt +o default"), ("gr", "")):
            self.assertEqual(self.completed("planarbend-draw", *words.split(" ")), wanted.split(), words)


if __name__ == "__main__":
    unittest.main()
