"""Linear programs by SciPy's HiGHS."""
from __future__ import annotations

from typing import Any

from scipy.optimize import linprog


def solved(cost: Any, what: str, **demands: Any) -> Any:
    """Return the result of `scipy.optimize.linprog` for a program that has an optimum.

    Raises
    ------
    ArithmeticError
        HiGHS finds none, nor does it without its presolve: that of HiGHS 1.2 calls some feasible programs infeasible.
    """
    found: Any = None
    for presolve in (True, False):
        found = linprog(cost, method="highs-ds", options={"presolve": presolve}, **demands)
        if found.status == 0:
            return found
    raise ArithmeticError(f"no {what} were found: {found.message}")
