#!/usr/bin/env python3
"""Proves and builds the program and the library for C in out/, and shows its progress.
Proved crates are kept, so a build that was stopped continues from them. The exit status is 0 if both are built,
otherwise 1.

Libraries are proved in parallel, first those on which the longest chain of others depends. Each is built with only its
statements, as in `rt ci`, so that crates above need not load its proofs. rt builds libraries with their proofs, so the
kit's compiler is called directly. Its output is kept where rt looks for libraries, since `rt ci` puts back what it
finds there. A file next to each library records its sources, and those of all libraries below.

A file next to the program records its sources: their checksums, as `sha256sum` writes them, and as comments their lines
of crates.txt and the kit. With it, `planarbend` detects whether a source has changed. Another one next to the library
for C does the same. `planarbend --build` starts this script.
"""
import concurrent.futures
import contextlib
import fcntl
import functools
import hashlib
import os
import re
import shutil
import signal
import subprocess
import sys
import time
from pathlib import Path

sys.dont_write_bytecode = True
from common import (
    BUILD_MINUTES, CRATE, PROGRAM, ROOT, START, alone, end_on_signals, free_memory, locked, look_at_machine, replace_text,
    say, stop, write_error)

sys.path.append(os.path.join(ROOT, "c"))
import make

SUMS = PROGRAM + ".sources"
LINKED = os.path.join(CRATE, "out", "planarbend")
LIBRARY = "planarbend_c"  # the crate that is the library for C
MARK = "sources"  # the file next to a library that records what it was built from
CRATE_LIST = os.path.join(ROOT, "crates.txt")
KIT = os.path.dirname(os.path.dirname(os.path.realpath(shutil.which("rt") or "")))
MEMORY, DISK = 4000, 8000  # MB
MEMORY_OF_CRATE = 2500  # MB, while it is proved
SECONDS = os.path.join(START, "seconds")
OTHER_SECONDS = 60  # for a crate that has no line there
JOBS, BUSY = 4, 2  # of a proof that is shared: its jobs, and how many processors these keep busy
NEARLY = 0.95  # of the longest chain
TARGET = "x86_64-unknown-linux-gnu"
LOG_LINES = 40  # of a build that failed


class Crates:
    """The crates of the program, or of other targets: what each uses of them and of the kit, and which crates use
    it."""

    def __init__(self, *targets):
        all_crates, text = listed(), read(CRATE_LIST)
        self.uses, waiting = {}, list(targets or ["planarbend"])
        while waiting:
            name = waiting.pop()
            self.uses[name] = [used for used in all_crates[name] if used in all_crates]
            waiting += [used for used in self.uses[name] if used not in self.uses]
        self.users = {name: [user for user in self.uses if name in self.uses[user]] for name in self.uses}
        self.of_kit = {name: ["std", *[used for used in all_crates[name] if used not in all_crates]] for name in self.uses}
        self.sums_of_crates = {name: self.sum_of_texts(name) for name in self.uses}
        self.libraries = [name for name in self.uses if name != "planarbend"]
        self.lines = [line for line in text.splitlines() if re.split(r"\W", line)[0] in self.uses]
        self.files = {path: sum_of_file(path) for name in self.uses for path in sources_of(name)}

    def below(self, name):
        """The crates below this one."""
        return set(self.uses[name]).union(*map(self.below, self.uses[name]))

    def sum_of_texts(self, name):
        """A checksum of the sources of a crate and of what it uses."""
        found = hashlib.sha256(Path(KIT, "WHAT").read_bytes() + repr((self.uses[name], self.of_kit[name])).encode())
        for path in sources_of(name):
            found.update(repr((os.path.relpath(path, ROOT), Path(path).read_bytes())).encode())
        return found.hexdigest()

    def stamp(self, name):
        """The stamp of a library that was built from the current sources."""
        return "".join(f"{crate} {self.sums_of_crates[crate]}\n" for crate in sorted({name} | self.below(name)))

    def is_built(self, name):
        with contextlib.suppress(OSError):
            return os.path.exists(library_of(name)) and read(stamp_of(name)) == self.stamp(name)
        return False

    def keep(self, name):
        """Marks a library as built from the current sources, if they are still those with which this script began."""
        if self.sum_of_texts(name) == self.sums_of_crates[name]:
            replace_text(stamp_of(name), self.stamp(name))

    def set_outdated_aside(self):
        """Moves libraries that are not built from the current sources away, since `rt ci` would put them back in place
        of its own. If there is no folder for them, removes them."""
        for name in self.libraries:
            place = os.path.dirname(library_of(name))
            if os.path.isdir(place) and not self.is_built(name):
                if OUTDATED:
                    put(place, os.path.join(OUTDATED, name))
                else:
                    shutil.rmtree(place)

    def put_outdated_back(self):
        """Moves these libraries back, except those that were built anew, and those of `rt check` over them."""
        if not OUTDATED or not os.path.isdir(OUTDATED):
            return
        names = set(self.libraries).intersection(os.listdir(OUTDATED))
        new = set(filter(self.is_built, names))
        for name in names - new:
            old, place = os.path.join(OUTDATED, name), os.path.dirname(library_of(name))
            if os.path.exists(os.path.join(old, MARK)) or not new.intersection(self.below(name)):
                put(old, place)
        shutil.rmtree(OUTDATED)

    def sums(self, made=(PROGRAM,), more=()):
        """The record next to what was made, by default the program: first its checksums, then those of its sources. `more`
        are sources that are not Rattle, with their checksums."""
        lines = [f"#kit {sum_of_file(os.path.join(KIT, 'WHAT'))}", f"#kit-id {read(os.path.join(KIT, 'KIT-ID')).strip()}",
                 *(f"#crates.txt {line}" for line in self.lines)]
        sums = {path: sum_of_file(path) for path in made} | self.files | dict(more)
        lines += [f"{found}  {os.path.relpath(path, ROOT)}" for path, found in sums.items()]
        return "".join(f"{line}\n" for line in lines)

    def is_program_built(self):
        """Whether the existing program was built from the current sources."""
        with contextlib.suppress(OSError):
            return os.access(PROGRAM, os.X_OK) and read(SUMS) == self.sums()
        return False

    def keep_program(self):
        """Moves the program that was linked or that `rt ci` left to out/, with its record, unless a source has changed
        since this script began."""
        is_same = self.sum_of_texts("planarbend") == self.sums_of_crates["planarbend"]
        if is_same and all(map(self.is_built, self.libraries)):
            os.makedirs(os.path.dirname(PROGRAM), exist_ok=True)
            shutil.copy2(LINKED, f"{PROGRAM}.new")
            os.replace(f"{PROGRAM}.new", PROGRAM)
            replace_text(SUMS, self.sums())

    def command(self, name, jobs):
        """The command that proves a crate and builds it, in the crate's folder, without the output file."""
        root = "main" if name == "planarbend" else "lib"
        words = [f"{KIT}/bin/rattle", "build", "--crate-name", name, f"src/{root}.rt", "--links", f"{name}="]
        for used in [*self.of_kit[name], *self.uses[name]]:
            place = library_of(used) if used in self.uses[name] else f"{KIT}/rlibs/{used}.rlib"
            words += ["--extern", f"{used}={place}"]
        for folder in [f"{KIT}/rlibs", *[os.path.dirname(library_of(used)) for used in self.below(name)]]:
            words += ["-L", f"dependency={folder}"]
        words += ["--antt-project", f"{KIT}/rattle/logic/antt-project.json", "--logic-built", f"{KIT}/logic_built"]
        return [*words, "--jobs", str(jobs)]


def git_folder():
    """The folder in which git keeps the state of this checkout, or None. A worktree names it in a file."""
    path = os.path.join(ROOT, ".git")
    path = os.path.join(ROOT, read(path).strip().removeprefix("gitdir: ")) if os.path.isfile(path) else path
    return path if os.path.isdir(path) else None


def listed():
    """What each crate of crates.txt uses."""
    found = re.findall(r"^(\w+)[^:#\n]*:([^#\n]*)", read(CRATE_LIST), re.M)
    return {name: used.split() for name, used in found}


def folder_of(name):
    return os.path.join(ROOT, "crates", name)


def sources_of(name):
    """The files of a crate that its proof may read."""
    found = []
    for part in ["src", "specs", "proofs"]:
        for folder, folders, files in os.walk(os.path.join(folder_of(name), part)):
            folders.sort()
            found += sorted(os.path.join(folder, file) for file in files if file.endswith((".rt", ".antt")))
    return found


def sum_of_file(path):
    return hashlib.sha256(Path(path).read_bytes()).hexdigest()


def library_of(name):
    """The path of a built library."""
    return os.path.join(folder_of(name), "out", "rlib", f"lib{name}.a" if name == LIBRARY else f"{name}.rlib")


def stamp_of(name):
    return os.path.join(os.path.dirname(library_of(name)), MARK)


def put(old, place):
    """Moves a folder to a place, and removes what is there."""
    shutil.rmtree(place, ignore_errors=True)
    os.makedirs(os.path.dirname(place), exist_ok=True)
    shutil.move(old, place)


def read(path):
    return Path(path).read_text(encoding="utf-8")


def take_back():
    """Puts back what a test that was killed had set aside: libraries, if they were not built anew, and what `rt check`
    keeps of its work. `rt ci` sets it aside in a folder of git's, and otherwise for good."""
    aside = GIT and os.path.join(GIT, "rt-aside")
    if not GIT or not os.path.isdir(aside) and not os.path.isdir(OUTDATED):
        return
    with open(os.path.join(GIT, "rt-ci.lock"), "a", encoding="utf-8") as lock, contextlib.ExitStack() as stack:
        try:
            fcntl.flock(lock, fcntl.LOCK_EX | fcntl.LOCK_NB)
        except BlockingIOError:
            return  # it still runs
        stack.enter_context(kept_out(listed()))
        for name in os.listdir(aside) if os.path.isdir(aside) else []:
            for part, mark in [("rlib", MARK), ("incremental", "")]:
                old, here = os.path.join(aside, name, part), os.path.join(folder_of(name), "out", part)
                is_new = os.path.exists(os.path.join(here, mark))
                if os.path.isdir(old) and os.path.isdir(folder_of(name)) and not is_new:
                    put(old, here)
        shutil.rmtree(aside, ignore_errors=True)
        Crates(*listed()).put_outdated_back()
    say("put back the libraries that a stopped test had set aside")


GIT = git_folder()
OUTDATED = GIT and os.path.join(GIT, "planarbend-outdated")


def seconds_of(crates):
    """The approximate processor seconds for the proof of each crate, from a file of such figures, and the crates that
    do not gain from several jobs."""
    lines = re.findall(r"^(\w+) (\d+)( alone)?$", read(SECONDS), re.M)
    known = {name: int(seconds) for name, seconds, _ in lines}
    return {name: known.get(name, OTHER_SECONDS) for name in crates}, {name for name, _, is_alone in lines if is_alone}


@contextlib.contextmanager
def kept_out(names):
    """Locks the folders of these crates against rt and other builds, and returns the locks. They hold as long as a
    process that has them runs, even if this script was killed."""
    with contextlib.ExitStack() as held:
        yield [held.enter_context(locked(folder_of(name), "rt or build")) for name in sorted(names)]


def start(words, name, held):
    """Starts a command in the folder of a crate, in its own process group."""
    return subprocess.Popen(words, cwd=folder_of(name), pass_fds=held, start_new_session=True, stdin=subprocess.DEVNULL,
                            stdout=subprocess.PIPE, stderr=subprocess.STDOUT, text=True, errors="replace")


def end(process):
    """Ends a process that may still run, and all processes that it started."""
    with contextlib.suppress(ProcessLookupError):
        os.killpg(process.pid, signal.SIGKILL)
    process.wait()


class Proofs:
    """The running proofs. They end when this object ends, in any way."""

    def __init__(self, crates, held):
        self.crates, self.held, self.at_once = crates, held, processors()
        self.seconds, self.alone = seconds_of(crates.users)
        self.running = {}  # names, processes, and the number of processors that each keeps busy, by output file
        self.pool = concurrent.futures.ThreadPoolExecutor(self.at_once)

    def __enter__(self):
        return self

    def __exit__(self, *_):
        for _, process, _ in self.running.values():
            end(process)
        self.pool.shutdown()

    def chains(self, proved):
        """The seconds of the longest chain of unproved crates that wait for one another, from each crate up."""
        @functools.cache
        def chain(name):
            return self.seconds[name] * (name not in proved) + max(map(chain, self.crates.users[name]), default=0)

        return {name: chain(name) for name in self.crates.users}

    def begin_ready(self, waiting, proved):
        """Starts the proofs of libraries for which all lower ones are proved, as long as a processor is idle: first those
        on which the longest chain depends. Several jobs share a proof if that leaves a processor for each other proof, and
        the first proof if its chain is the longest of all or nearly so."""
        chains = self.chains(proved)
        ready = sorted((name for name in waiting if proved.issuperset(self.crates.uses[name])), key=chains.get, reverse=True)
        for at, name in enumerate(ready):
            idle = self.at_once - sum(busy for _, _, busy in self.running.values())
            if not idle:
                break
            is_first = at == 0 and chains[name] > NEARLY * max(chains.values())
            others = 0 if is_first else len(ready) - at - 1
            waiting.remove(name)
            self.begin(name, is_shared=name not in self.alone and idle >= others + BUSY)

    def begin(self, name, is_shared):
        jobs, busy = (min(JOBS, self.at_once), BUSY) if is_shared else (1, 1)
        for user in self.crates.libraries:
            if name in self.crates.below(user):  # built over the library that stood here
                shutil.rmtree(os.path.dirname(library_of(user)), ignore_errors=True)
        shutil.rmtree(os.path.dirname(library_of(name)), ignore_errors=True)
        os.makedirs(os.path.dirname(library_of(name)))
        kind = ["--crate-type", "staticlib", "--toolchain", f"{KIT}/toolchain"] if name == LIBRARY else ["--statements"]
        process = start([*self.crates.command(name, jobs), *kind, "-o", library_of(name)], name, self.held)
        self.running[self.pool.submit(process.communicate)] = name, process, busy

    def ended(self):
        """Waits until a proof has ended, and returns the names of the libraries whose proof has, each with its status
        and its log. A proof that the system killed, most likely for lack of memory, is started again with one job."""
        for output in concurrent.futures.wait(self.running, None, concurrent.futures.FIRST_COMPLETED).done:
            name, process, busy = self.running.pop(output)
            if process.returncode == -signal.SIGKILL and busy > 1:
                self.begin(name, is_shared=False)
            else:
                yield name, process.returncode, output.result()[0]


def stop_failed(log):
    write_error("".join(log.splitlines(keepends=True)[-LOG_LINES:]).encode())
    stop("the build failed")


def prove(crates, held):
    """Proves the libraries."""
    built = set(filter(crates.is_built, crates.libraries))
    proved = {name for name in built if built.issuperset(crates.below(name))}
    waiting = set(crates.libraries) - proved
    if proved:
        say(f"{len(proved)} of {len(crates.libraries)} libraries are already proved")
    with Proofs(crates, held) as proofs:
        proofs.begin_ready(waiting, proved)
        while proofs.running:
            for name, status, log in proofs.ended():
                if status:
                    stop_failed(log)
                crates.keep(name)
                proved.add(name)
                say(f"{name} is proved ({len(proved)} of {len(crates.libraries)})")
            proofs.begin_ready(waiting, proved)


def compile_proved(crates, held):
    """Proves the program over its libraries, and compiles and links it."""
    made, toolchain = "out/planarbend.o", ["--toolchain", f"{KIT}/toolchain"]
    linked = [f"{KIT}/c/libos_c.a", f"{KIT}/c/liblibc_c.a"]
    for words in [
        [*crates.command("planarbend", min(JOBS, processors())), *toolchain, "--backend", "llvm", "-o", made],
        [f"{KIT}/bin/rattle-link", "--target", TARGET, *toolchain, "-o", LINKED, made, *linked],
    ]:
        process = start(words, "planarbend", held)
        try:
            log, _ = process.communicate()
        finally:  # also by a signal
            end(process)
        if process.returncode:
            stop_failed(log)


def processors():
    """The number of proofs that may run at once."""
    return max(1, min(len(os.sched_getaffinity(0)), free_memory() // MEMORY_OF_CRATE))


def build(crates):
    both, started = Crates("planarbend", LIBRARY), time.monotonic()
    say(f"proving and building: about {BUILD_MINUTES} minutes on 4 idle cores from scratch; if this is stopped, the"
        " next --build continues")
    with kept_out(both.uses) as held:
        prove(both, held)
        say("proving and compiling the program itself")
        os.makedirs(os.path.dirname(LINKED), exist_ok=True)
        compile_proved(crates, held)
        crates.keep_program()
    if not crates.is_program_built():
        stop("a source was changed during the build: start --build again")
    say(f"proved and built the program in {(time.monotonic() - started) / 60:.0f} min")


def make_library():
    """Proves the library for C, unless it is proved, and makes its files."""
    crates = Crates(LIBRARY)
    if not all(map(crates.is_built, crates.libraries)):
        say("proving and compiling the library for C")
        with kept_out(crates.uses) as held:
            prove(crates, held)
    sums = {path: sum_of_file(path) for path in make.SOURCES}
    make.make(Path(library_of(LIBRARY)))
    if all(map(crates.is_built, crates.libraries)):
        replace_text(make.RECORD, crates.sums([make.OUT / name for name in make.LIBRARIES], sums))


def give_to_rt():
    """Lets `rt check` use what is proved. Otherwise it would prove it again, and replace it."""
    subprocess.run([sys.executable, os.path.join(ROOT, "checks/libraries")], stdout=subprocess.DEVNULL)


def main():
    end_on_signals()
    try:
        with alone():
            take_back()
            crates = Crates()
            if crates.is_program_built():
                say("the program is already proved and built from these sources")
            else:
                look_at_machine("the build", MEMORY, DISK, ROOT)
                build(crates)
            make_library()
            give_to_rt()
    except SystemExit as ended:
        if isinstance(ended.code, int) and ended.code > 128:  # a signal
            say("stopped: the next --build continues from what is proved")
        raise
    except OSError as error:
        stop(f"the build failed: {error.filename}: {error.strerror}", "the next --build continues from what is proved")


if __name__ == "__main__":
    main()
