"""The errors of readers, and look-up of the programs that they need."""
from __future__ import annotations

MOST_SHOWN = 60  # characters of the input that a message quotes


class ReadError(Exception):
    """The input cannot be read as a graph: `file` is its name, `line` that of the fault, counted from 1, or None if it does
    not belong to one line, and `reason` says what is wrong."""

    def __init__(self, file: str, line: int | None, reason: str) -> None:
        """Return the error of an input."""
        place = file if line is None else f"{file}:{line}"
        super().__init__(f"{place}: {reason}")
        self.file, self.line, self.reason = file, line, reason


class Fault(Exception):
    """A fault inside a file whose name the raiser does not know; `read` turns it into a `ReadError`."""

    def __init__(self, reason: str, line: int | None = None) -> None:
        """Return the fault of a line, or of the whole."""
        super().__init__(reason)
        self.reason, self.line = reason, line


def shown(text: str) -> str:
    """Return the beginning of a text, on one line, for a message."""
    flat = " ".join(text.split())
    return flat if len(flat) <= MOST_SHOWN else flat[:MOST_SHOWN - 2] + ".."


def program(name: str, package: str) -> str:
    """Return the path of a program, or raise a `Fault` that names Debian's package if it is missing."""
    import shutil  # slow to load

    path = shutil.which(name)
    if path is None:
        raise Fault(f"the program {name} is needed to read this format (Debian: apt install {package})")
    return path


def decoded(data: bytes) -> str:
    """Return the text of bytes without a byte order mark; a `Fault` has the line of the first byte that is no UTF-8."""
    try:
        return data.decode("utf-8-sig")
    except UnicodeDecodeError as error:
        line = data.count(b"\n", 0, error.start) + 1
        raise Fault(f"not UTF-8 text (byte {data[error.start]:#04x})", line) from None
