"""Limits on open files, threads and address space."""
import bisect
import contextlib
import ctypes
import os
import re
import resource
import signal
import subprocess
from collections.abc import Iterable
from typing import NamedTuple

from machine import (
    are_same, AS_NOBODY, both_ends, Command, COMMANDS, expected_lines, File, IO, is_beginning, is_fault, IS_ROOT,
    is_whole, LAYOUT, LAYOUT_JSON, LAYOUTS, lines_of, Machine, NOBODY, Ran, split, TRIANGLE, TWO, wait_for,
    waiting_bytes)
import programs
from planarbend.layout.planar_code import HEADER
from programs import LOST, MEMORY, THREAD, limits


# ---- Limits on open files: a file that cannot be opened is `io`.

def check_open_files(machine: Machine) -> None:
    """A lane has one file open, and each of its four threads briefly one more: when a thread first allocates memory,
    the C library may open one to count the processors."""
    for command in COMMANDS:
        paths = [machine.two] * (1 if command.frames else 64)
        files = 3 + 5 * command.lanes
        machine.whole(command, f"{files} open files", paths, [split(TWO)] * len(paths), preexec_fn=limits(NOFILE=files))
    for command in LAYOUTS:  # each of 8 files is whole or `io`
        with machine.case(command, "4 open files, as many as one lane needs"):
            ran = machine.ran([*command.words, *[machine.two] * 8], preexec_fn=limits(NOFILE=4))
            marks = re.findall(r"\bend (\w+) ", "\n".join(lines_of(command, ran.out)[0]))
            is_whole(command, ran, [split(TWO) if mark == "complete" else IO for mark in marks])
            assert len(marks) == 8, f"{len(marks)} files in the report, not 8"
    for command in (LAYOUT, LAYOUT_JSON):
        with machine.case(command, "no more open files from the second file on"):
            path = machine.fifo()
            with both_ends(path) as writer, machine.started([*command.words, path, machine.two]) as child:
                writer.write(TWO)
                wait_for(lambda: not waiting_bytes(writer.fileno()), "a read")
                resource.prlimit(child.pid, resource.RLIMIT_NOFILE, (3, 3))
                writer.close()
                is_whole(command, machine.ended(child), [split(TWO), IO])


# ---- Limits on threads: besides its first thread, a run has four threads for each lane, and `frames` none.

def check_threads(machine: Machine) -> None:
    """If a thread cannot be started, the error says so; a lane may end before the next one starts."""
    alone = IS_ROOT and not is_in_use(NOBODY)
    for command in COMMANDS:
        enough = 1 if command.frames else 1 + 4 * command.lanes
        for most in range(1, enough + 2):
            with machine.case(command, f"ulimit -u {most} as {'nobody' if IS_ROOT else 'this user'}"):
                ran = machine.ran([*command.words, machine.two], preexec_fn=limits(NPROC=most), **AS_NOBODY)
                if ran.status == 0 and most >= min(enough, 2) or most >= enough and alone:
                    is_whole(command, ran, [split(TWO)])
                else:
                    is_fault(ran, 1, THREAD)


def is_in_use(user: int) -> bool:
    """Whether a process of this user runs."""
    with contextlib.suppress(OSError):  # if a process ends at the same time
        return any(entry.name.isdecimal() and entry.stat().st_uid == user for entry in os.scandir("/proc"))
    return True


# ---- Limits on address space, in steps from too little to enough.

MOST_TO_LOAD = 65_536  # kB of address space, with which any program loads
TRACEME, CONTINUE = 0, 7  # of ptrace
LIBC = ctypes.CDLL(None)


class Climb(NamedTuple):
    """A run over a file that is tried at each step, in kB of address space."""
    command: Command
    name: str
    path: str
    file: File
    steps: Iterable[int]
    environment: dict[str, str]


def check_memory(machine: Machine) -> None:
    """Steps for two graphs; for many graphs, so that memory runs out during the work; and for many with one heap for
    all threads, to each of which the C library otherwise gives 64 MB."""
    least = loaded_from(machine)
    steps = [*range(least, least + 1024, 64), *range(least + 1024, least + 12_288, 512),
             *range(least + 12_288, 150_000, 2048), *(step << 10 for step in (192, 256, 384, 512, 768, 4096, 8192))]
    few, many = File([TRIANGLE] * 1000), File([TRIANGLE] * 4000)
    thousand, thousands = (machine.file(HEADER + b"".join(file.records)) for file in (few, many))
    for command in COMMANDS:
        stacks = least + 8192 * (0 if command.frames else 4 * command.lanes)
        above = [stacks + step for step in (0, 512, 1024, 2048, 4096, 8192, 16_384, 65_536, 262_144, 4 << 20)]
        climb(machine, Climb(command, "2 graphs", machine.two, split(TWO), steps, {}))
        climb(machine, Climb(command, "1000 graphs", thousand, few, above, {}))
        climb(machine, Climb(command, "4000 graphs, one heap", thousands, many,
                             range(stacks - 4096, stacks + 24_576, 1024), {"MALLOC_ARENA_MAX": "1"}))


def loaded_from(machine: Machine) -> int:
    """The least address space, in kB, with which the system's loader brings the program to its start."""
    steps, traced = range(0, MOST_TO_LOAD, 4), {"LD_TRACE_LOADED_OBJECTS": "1"}  # it ends where the program would start
    return steps[bisect.bisect_left(steps, True, key=lambda space: machine.ran(
        [], environment=traced, preexec_fn=limits(AS=space << 10)).status == 0)]


def climb(machine: Machine, runs: Climb) -> None:
    """Runs with more address space from step to step: each ends with a defined answer, the last with the whole report,
    and an error says what was missing. If the system refuses a page for the stack, there is no answer. Prints the step from
    which on all succeeded."""
    answers: dict[int, Ran] = {}
    for step in runs.steps:
        with machine.case(runs.command, f"ulimit -v {step}, {runs.name}"):
            answers[step] = ran = machine.ran([*runs.command.words, runs.path], environment=runs.environment,
                                              preexec_fn=limits(AS=step << 10))
            assert ran.err != LOST, LOST
            if ran.status != -signal.SIGSEGV or not lacks_stack(machine, runs, step):
                wants_memory(runs.command, ran, [runs.file])
    with machine.case(runs.command, f"ulimit -v, {runs.name}"):
        is_whole(runs.command, answers[max(answers)], [runs.file])
    refused = max((step for step, ran in answers.items() if ran.status != 0), default=0)
    print(f"{runs.command}, {runs.name}: enough address space: {min(filter(refused.__lt__, answers), default=None)} kB", flush=True)


def wants_memory(command: Command, ran: Ran, files: list[File]) -> None:
    """A whole report, or one in which graphs or ends of files are `memory`; or a fault of memory or threads with a beginning
    of such a report."""
    if ran.status == 1 and ran.err in (MEMORY, THREAD):
        is_beginning(command, ran.out, files, scarce=True)
        return
    lines, rest = lines_of(command, ran.out)
    ends = re.findall(r"\bend (\w+) \w+=(\d+)", "\n".join(lines))
    told = [File(file.records[:int(count)], mark) if mark == "memory" else file for file, (mark, count) in zip(files, ends)]
    status = 3 if any(line.endswith(" memory") for line in lines) or any(file.mark != "complete" for file in told) else 0
    is_right = len(ends) == len(files) and not rest and are_same(lines, expected_lines(command, told), scarce=True)
    assert ran.status == status and is_right and not ran.err, ran


def lacks_stack(machine: Machine, runs: Climb, step: int) -> bool:
    """Whether a run with this many kB of address space ends because the system does not let the stack of its first
    thread grow: by SIGSEGV with the stack pointer below the mapped part of the stack, which is less than 1 MB. No
    program can answer then."""
    def prepare() -> None:
        LIBC.ptrace(TRACEME, 0, None, None)
        limits(AS=step << 10)()
    with machine.started([*runs.command.words, runs.path], environment=runs.environment, stdout=subprocess.DEVNULL,
                         stderr=subprocess.DEVNULL, preexec_fn=prepare) as child:
        while os.WIFSTOPPED(status := os.waitpid(child.pid, 0)[1]) and os.WSTOPSIG(status) != signal.SIGSEGV:
            LIBC.ptrace(CONTINUE, child.pid, None, None)
        if not os.WIFSTOPPED(status):
            return False
        stack = re.search(rb"^(\w+)-(\w+) .*\[stack\]$", programs.read(f"/proc/{child.pid}/maps"), re.M)
        (low, high), pointer = stack.groups(), programs.read(f"/proc/{child.pid}/syscall").split()[1]
        os.kill(child.pid, signal.SIGKILL)
        os.waitpid(child.pid, 0)
    return int(pointer, 16) < int(low, 16) and int(high, 16) - int(low, 16) < 1 << 20
