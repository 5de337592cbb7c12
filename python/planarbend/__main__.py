"""`python3 -m planarbend draw` and the other commands of the package."""
from __future__ import annotations

import importlib
import sys

COMMANDS = {  # name: module, function, description
    "draw": ("command", "run", "draw a graph from a file"),
    "svg": ("tools.svg", "run", "draw graphs of a planar_code file from the program's JSON Lines"),
    "cover": ("tools.box_cover", "main", "draw how boxes cover a drawing"),
    "split": ("tools.split", "main", "cut a planar_code file into parts"),
    "stream": ("tools.stream", "run", "lay out planar_code of any length"),
    "collect": ("tools.collect", "main", "make one table of many reports"),
}


def main() -> int:
    """Return the exit status of the command that the first argument names."""
    name = sys.argv[1] if len(sys.argv) > 1 else "--help"
    if name in ("-h", "--help") or name not in COMMANDS:
        lines = ["usage: python3 -m planarbend COMMAND ...", ""]
        lines += [f"  {command:<8} {does}" for command, (_, _, does) in COMMANDS.items()]
        is_help = name in ("-h", "--help") and len(sys.argv) > 1
        print("\n".join(lines), file=sys.stdout if is_help else sys.stderr)
        return 0 if is_help else 2
    module, function, _ = COMMANDS[name]
    sys.argv[:2] = [f"planarbend {name}"]
    return int(getattr(importlib.import_module(f"planarbend.{module}"), function)())


if __name__ == "__main__":
    sys.exit(main())
