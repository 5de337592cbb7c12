"""Draws graphs of planar_code as they are embedded: one as a picture, several in a grid, or all on an HTML page."""
from __future__ import annotations

import io
from collections.abc import Iterator

from planarbend.draw import DrawError
from planarbend.drawing.texts import svg_text
from planarbend.layout.laid_out import GraphError, GraphRefused, Record, layouts
from planarbend.layout.embedding import Embedding
from planarbend.layout.planar_code import Unreadable, records
from planarbend.tools.svg import MOST_ON_PAGE, Picture, draw, grid, page, reason_picture

OUTER = ("first", "best")
COLUMNS = 4  # of a grid


def chosen(data: bytes, numbers: list[int] | None, name: str) -> tuple[dict[int, Record], str]:
    """Return the graphs with these numbers, counted from 1, and how the file ends; all graphs, if `numbers` is None. Raise a
    `DrawError` if the file has no graphs, none with a number, or too many for a page."""
    found: dict[int, Record] = {}
    number, ending, wanted = 0, "complete", None if numbers is None else set(numbers)
    try:
        for number, record in enumerate(records(io.BytesIO(data)), 1):
            if wanted is None or number in wanted:
                found[number] = Record.read(record)
            if wanted is None and len(found) > MOST_ON_PAGE:
                raise DrawError(f"{name}: a page shows at most {MOST_ON_PAGE} graphs: use --graphs")
            if wanted is not None and len(found) == len(wanted):
                break
    except Unreadable as fault:
        if not found or wanted is not None:
            raise DrawError(f"{name}: {fault}") from None
        ending = fault.ending
    missing = [str(number) for number in numbers or [] if number not in found]
    if missing or not number:
        raise DrawError(f"{name}: no graph {', '.join(missing[:5])}" if number else f"{name}: no graphs")
    return found, ending


def pictures(found: dict[int, Record], outer: str | None) -> Iterator[Picture]:
    """Yield the picture of each graph in order, or the reason why there is none; with `outer` the outer face is shaded."""
    with layouts(list(found.values()), outer or OUTER[0]) as laid:
        for number, record in found.items():
            try:
                layout = next(laid)
            except GraphError as fault:
                if len(found) == 1:
                    raise DrawError(f"graph {number}: {reason_of(fault)}") from None
                reason = f"breaks the rule {fault.rule}" if isinstance(fault, GraphRefused) else reason_of(fault)
                yield reason_picture(number, reason)
                continue
            yield draw(Embedding.of(record.lists), layout.line | {"graph": number}, outer is not None)


def reason_of(fault: GraphError) -> str:
    """Return why a graph is not drawn."""
    return str(fault).partition(": ")[2]


def embedded_text(data: bytes, name: str, numbers: list[int] | None, outer: str | None, is_page: bool) -> tuple[str, str]:
    """Return the text of an HTML page or an SVG picture of planar_code, and how the file ends.

    Parameters
    ----------
    data : bytes
        The whole file.
    name : str
        Its name, for messages and the title.
    numbers : list of int, optional
        The graphs, counted from 1; by default all on a page, and the first in a picture.
    outer : {"first", "best"}, optional
        The outer face, as in `layout --outer`; it is shaded if this is given.
    is_page : bool

    Raises
    ------
    DrawError
        The bytes are not planar_code, a graph is missing, or the only one has no layout.
    """
    if outer not in (None, *OUTER):
        raise DrawError(f"--outer takes {' or '.join(OUTER)} for planar_code, not {outer}")
    found, ending = chosen(data, numbers or (None if is_page else [1]), name)
    shown = list(pictures(found, outer))
    if is_page:
        return page(name, shown, ending) + "\n", ending
    if len(shown) == 1:
        return svg_text(shown[0].width, shown[0].height, shown[0].elements), ending
    return grid(shown, COLUMNS), ending
