#!/usr/bin/env python3
"""Answers a call of planarbend by a trial run if there is no proved program: `rt try` compiles the same sources with
run-time checks, proves nothing, and runs the compiled program in its own folder, on copies of the caller's files.

`planarbend` starts it with its own path, the reason why no proved program runs, and the arguments of the call. The
output is written only after the trial has ended successfully; the exit status is then that of the program. If a trial
cannot answer, a message says why and what to do, and the exit status is 1.
"""
import os
import re
import subprocess
import sys
import tempfile
from pathlib import Path

sys.dont_write_bytecode = True
from common import BUILD_MINUTES, CRATE, end, end_on_signals, look_at_machine, say, stop, write_error

# Limits of a trial. In a second it lays out one or two hundred graphs of ten vertices.
INPUT = 256 << 10  # bytes of files and standard input in total
SECONDS = 40  # of run, once it is compiled
MEMORY, DISK = 3500, 200  # MB

# The last lines of `rt try` if the program ended. Nothing else follows the program's own lines.
ENDED = re.compile(rb"^checked: ended status=(\d+)\n(?:races: .*\n)?run=ended status=\1 .*proved=no\n\Z", re.M)

# Options with a value.
VALUED = {"--lanes", "--outer", "--waiting", "--drawing", "--vertices", "--edges", "--bends", "--rule", "--by"}


def places_of_files(words):
    """The positions of the files among the arguments, as the program reads them: after the command, neither an option
    nor its value; after `--` all arguments are files."""
    if words[0] not in ("layout", "frames", "check", "pick", "count"):
        return []
    places, rest = [], iter(enumerate(words[1:], 1))
    valued = VALUED | {"--faces"} if words[0] in ("pick", "count") else VALUED
    for place, word in rest:
        if word == "--":
            return places + [place for place, _ in rest]
        if word in valued:
            next(rest, None)
        elif word == "-" or not word.startswith("-"):
            places.append(place)
    return places


class Trial:
    """A trial run in its own folder, which has a copy of each file of the caller under a separate name."""

    def __init__(self, words, called, folder):
        self.folder, self.words, self.files = folder, list(words), places_of_files(words)
        self.way_out = f"{called} --build proves and builds the program, in about {BUILD_MINUTES} minutes on 4 idle cores"
        self.room, self.data, self.names = INPUT, [], {}

    def path(self, name):
        return os.path.join(self.folder, name)

    def refuse(self, why=f"its files and standard input have more than {INPUT >> 10} KiB in total"):
        stop(f"a trial run cannot answer this: {why}", self.way_out)

    def take_input(self):
        """Copies the caller's files and standard input. A file that cannot be read is missing in the trial too, and
        standard input that cannot be read is replaced by a missing file: the answer to both is the same."""
        Path(self.path("stdin")).touch()
        for place in self.files:
            word = self.words[place]
            if word == "-" and self.copy(0, self.path("stdin")):
                continue
            name = f"planarbend-file-{place}"
            if word != "-" and self.copy(word, self.path(name)):
                self.data += ["--data", f"{name}={self.path(name)}"]
            if word != "-" or self.words.count("-") == 1:
                self.words[place] = name
                self.names[name.encode()] = os.fsencode(word)

    def copy(self, source, copied):
        """Whether a file, or the data of a descriptor, could be copied. More than the trial takes is refused."""
        try:
            with open(source, "rb", closefd=source != 0) as file:
                content = file.read(self.room + 1)
        except OSError:
            return False
        self.room -= len(content)
        if self.room < 0:
            self.refuse()
        Path(copied).write_bytes(content)
        return True

    def run(self):
        """Runs the trial, and returns its standard error; its standard output is kept in the folder."""
        words = ["rt", "try", "--seconds", str(SECONDS), *self.data, "--", *self.words]
        with open(self.path("stdin"), "rb") as given, open(self.path("stdout"), "wb") as out:
            process = subprocess.Popen(words, cwd=CRATE, env={**os.environ, "TMPDIR": self.folder}, stdin=given, stdout=out,
                                       stderr=subprocess.PIPE)
            try:
                return process.communicate()[1]
            finally:
                if process.poll() is None:
                    end(process)

    def answer(self, said):
        """Writes the output of the program and returns its exit status, or says why the trial has no answer."""
        ended = ENDED.search(said)
        if not ended:
            self.tell_fault(said)
        written = said[: ended.start()]
        for name, word in self.names.items():
            written = written.replace(name, word)
        write_error(written)
        try:
            with open(1, "wb", closefd=False) as out:
                out.write(Path(self.path("stdout")).read_bytes())
        except BrokenPipeError:
            return 1  # without a message, like the program
        except OSError as error:
            stop(f"cannot write output: {error.strerror}")
        return int(ended[1])

    def tell_fault(self, said):
        """Says why the trial has no answer, with its own message if the reason is a limit of trials."""
        if b" bytes to standard output or to standard error, the limit on each" in said:
            self.refuse("its output is longer than 1 MiB")
        if b"no-answer: the program did not end within the time limit" in said:
            self.refuse(f"it runs for longer than {SECONDS} seconds")
        write_error(said)
        self.refuse("the lines above say why")


def main(called, why, *words):
    end_on_signals()
    if wrong := [number for number, word in enumerate(words, 1) if re.search("[\udc80-\udcff]", word)]:  # bytes of no UTF-8
        stop(f"argument {wrong[0]} is not valid UTF-8, as the name of a file must be", status=2)
    with tempfile.TemporaryDirectory(prefix="planarbend-") as folder:
        look_at_machine("a trial run", MEMORY, DISK, folder)
        trial = Trial(words, called, folder)
        trial.take_input()
        say(f"{why}: an unverified build of the same sources, with run-time checks, answers in one to two minutes",
            trial.way_out)
        return trial.answer(trial.run())


if __name__ == "__main__":
    sys.exit(main(*sys.argv[1:]))
