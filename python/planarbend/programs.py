"""The program planarbend: its path, and the errors of its runs."""
from __future__ import annotations

import os

FOLDER = os.path.dirname(os.path.abspath(__file__))
ROOT = os.path.dirname(os.path.dirname(FOLDER))
BUILT = os.path.join(ROOT, "out/planarbend")
SCRIPT = os.path.join(ROOT, "planarbend")
INSTALLED = [  # where --install and pip put it, and `pip install --target`
    os.path.join(os.path.dirname(os.path.dirname(ROOT)), "bin/planarbend"),
    os.path.join(os.path.dirname(FOLDER), "bin/planarbend")]


class PlanarbendError(Exception):
    """Base class of this package's errors."""


class NoProgram(PlanarbendError):
    """There is no program to run, or no library to load."""


class RunFailed(PlanarbendError):
    """The run ended before its last graph, with an exit `status`; `said` is the whole standard error."""

    def __init__(self, status: int, said: str) -> None:
        """Return the error of a run."""
        super().__init__(said or f"planarbend ended with status {status}")
        self.status, self.said = status, said


def program() -> str:
    """Return the path of the program to run.

    It is the one that PLANARBEND names. If that is not set, it is the first that exists of: the one built in this checkout,
    ./planarbend, the one installed with this package, and the one on the path.

    Raises
    ------
    NoProgram
        There is none.
    """
    named = os.environ.get("PLANARBEND")
    for path in [named] if named else [BUILT, SCRIPT, *INSTALLED]:
        if path and is_program(path):
            return os.path.abspath(path)
    if not named:
        import shutil  # slow to load

        found = shutil.which("planarbend")
        if found and is_program(found):
            return os.path.abspath(found)
    if named:
        raise NoProgram(f"PLANARBEND={named} is not a program")
    raise NoProgram("the program planarbend is not installed: put it on the path, or set PLANARBEND to its path")


def is_program(path: str) -> bool:
    """Return whether the file can be executed."""
    return os.path.isfile(path) and os.access(path, os.X_OK)
