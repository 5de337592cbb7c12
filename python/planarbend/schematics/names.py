"""What the names of nets and pins say: whether they are grounds or supplies."""
from __future__ import annotations

import re

GROUND = re.compile(r"(?i)[A-Z]?GND[A-Z0-9_]*|[A-Z0-9_]+[-_]GND|GND[-/].*|GROUND|EARTH|CHASSIS|0")
NEGATIVE = re.compile(r"(?i)-\d.*|-V.*|V-|V(?:SS|EE|NEG)[A-Z0-9_]*")
POSITIVE = re.compile(r"(?i)\+\d.*|\+?[AD]?V(?:CC|DD|PP|AA|BAT|BUS|SUP)[A-Z0-9_]*|\+V[A-Z0-9_]*|V\+"
                      r"|\d+(?:[.,]\d+)?V\d*(?:[A-Z]|_\w+)?")


def is_ground(name: str) -> bool:
    """Return whether this is the name of a ground."""
    return bool(GROUND.fullmatch(name))


def is_negative(name: str) -> bool:
    """Return whether this is the name of a negative supply."""
    return bool(NEGATIVE.fullmatch(name))


def is_power(name: str) -> bool:
    """Return whether this is the name of a ground or a supply."""
    return any(pattern.fullmatch(name) for pattern in (GROUND, NEGATIVE, POSITIVE))
