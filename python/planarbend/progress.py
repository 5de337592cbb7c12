"""Tells on a terminal what a command is doing, once it takes more than a second."""
from __future__ import annotations

import sys
import threading
import time
from types import TracebackType
from typing import TextIO

AFTER = 1.0  # seconds of silence
EVERY = 0.25  # seconds between lines
CLEAR = "\r\033[K"  # to the beginning of the line, and clear it

_now = ""  # what is being done


def stage(text: str) -> None:
    """Note what is being done."""
    global _now
    _now = text


class Progress:
    """Shows, while it is entered, what is being done and for how long, on the last line of a terminal; on no other file."""

    def __init__(self, name: str, out: TextIO | None = None) -> None:
        """Return the progress of a command with this name; `out` is standard error by default."""
        self.name, self.out = name, sys.stderr if out is None else out
        self.ended = threading.Event()
        self.thread: threading.Thread | None = None

    def __enter__(self) -> Progress:
        """Begin."""
        stage("")
        if self.out.isatty():
            self.thread = threading.Thread(target=self._show, daemon=True)
            self.thread.start()
        return self

    def __exit__(self, kind: type[BaseException] | None, error: BaseException | None, trace: TracebackType | None) -> None:
        """End, and clear the line."""
        self.ended.set()
        if self.thread is not None:
            self.thread.join()

    def _show(self) -> None:
        """Show the line until the end."""
        began = time.monotonic()
        if self.ended.wait(AFTER):
            return
        while not self.ended.is_set():
            print(f"{CLEAR}{self.name}: {time.monotonic() - began:.0f} s {_now}", end="", file=self.out, flush=True)
            self.ended.wait(EVERY)
        print(CLEAR, end="", file=self.out, flush=True)
