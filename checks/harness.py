"""The harness of the scripts of checks/, on unittest: cases by their names on the command line, a line for each, the counts
and the exit status. A case fails by any exception; `assert` with a text says why."""
import argparse
import os
import signal
import sys
import tempfile
import unittest
from collections.abc import Iterable
from typing import Any

import programs


class Checks(unittest.TestCase):
    """The cases of a script: each public method of its class is one, or a group of smaller ones."""

    told: argparse.Namespace  # the options
    folder: str  # a new one for each method

    def setUp(self) -> None:
        self.folder = self.enterContext(tempfile.TemporaryDirectory(prefix="planarbend-"))

    def case(self, *names: object) -> Any:
        """A smaller case, which ends with this block."""
        return self.subTest(": ".join(map(str, names)))

    def look(self, name: str, well: object, told: object = "") -> None:
        """A smaller case: whether this holds, with a remark if there is one."""
        with self.case(name, *[told] * bool(told)):
            assert well


class Counted(unittest.TestResult):
    """Prints a line for each case, or only for those that failed, and counts them. A group is no case."""

    def __init__(self, is_quiet: bool) -> None:
        super().__init__()
        self.is_quiet, self.passed, self.failed, self.group = is_quiet, 0, 0, ""

    def note(self, name: str, error: Any) -> None:
        """Counts a case, which failed if there is an error."""
        self.passed, self.failed = self.passed + (error is None), self.failed + (error is not None)
        why = error and (error[1] if issubclass(error[0], AssertionError) else repr(error[1]))
        if error or not self.is_quiet:
            print(f"{'FAILED' if error else 'passed'}: {name}" + f": {why}" * bool(why and str(why)), flush=True)

    def addSuccess(self, test: unittest.TestCase) -> None:
        if self.group != test.id():
            self.addError(test, None)

    def addError(self, test: unittest.TestCase, error: Any) -> None:
        self.note(test.id().rpartition(".")[2], error)

    addFailure = addError

    def addSubTest(self, test: unittest.TestCase, subtest: Any, error: Any) -> None:
        self.group = test.id()
        self.note(subtest._message, error)


def stop(*_: object) -> None:
    raise KeyboardInterrupt


def asked(checks: type[Checks], *options: programs.Option, what: str = "CASE") -> argparse.Namespace:
    """The arguments of a script: names of its cases, and these options."""
    parser = programs.parser_of(sys.modules["__main__"].__doc__, *options)
    programs.add_names(parser, what, [name for name, value in vars(checks).items() if name[0] != "_" and name != "setUp"
                                      and (callable(value) or hasattr(value, "__get__"))])
    checks.told = parser.parse_args()
    return checks.told


def run(checks: type[Checks], names: Iterable[str], is_quiet: bool = False) -> int:
    """Runs these cases, prints the counts, and returns the exit status."""
    result = Counted(is_quiet)
    for number in (signal.SIGTERM, signal.SIGINT):  # a shell's background job starts with SIGINT ignored
        signal.signal(number, stop)
    try:
        for name in names:
            checks(name).run(result)
    except KeyboardInterrupt:
        sys.exit(f"{os.path.relpath(sys.argv[0], programs.ROOT)}: stopped")
    print(f"{result.passed} passed, {result.failed} failed")
    return 1 if result.failed else 0


def main(checks: type[Checks], *options: programs.Option, is_quiet: bool = False) -> int:
    """Runs a script whose arguments are names of its cases and these options."""
    return run(checks, asked(checks, *options).names, is_quiet)
