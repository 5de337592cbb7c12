"""The width of a text, its division into lines, and SVG."""
from __future__ import annotations

import re
import unicodedata
from collections.abc import Iterable, Sequence

from planarbend.style import Font

FONT = 11  # pixels, font size of a name
LINE_HEIGHT = 14  # pixels from line to line of a name
LONGEST_LINE = 110  # pixels: a wider name is broken at a space
FAMILY = "DejaVu Sans, Verdana, sans-serif"

WIDTHS = {0.32: " ", 0.40: "ijlI.,:;'|!()[]{}`frt-\"/\\", 0.98: "mMwW@%&"}  # of characters, relative to the font size
WIDTH = {letter: width for width, letters in WIDTHS.items() for letter in letters}
MONOSPACED = re.compile("mono|courier|consol|fixed|typewriter", re.I)
BOLDER = 1.1  # times as wide as plain letters
LOWER, UPPER, OTHER, WIDE = 0.64, 0.80, 0.85, 1.05


def width_of(text: str, font: float = FONT) -> float:
    """Return the greatest width of a text, in pixels."""
    return font * sum(map(letter_width, text))


def text_size(lines: Sequence[str], font: Font, size: float, height: float) -> tuple[float, float]:
    """Return the width and height of lines in a font; `size` and the `height` of a line are those of the plain font."""
    pixels = font.size or size
    widest = max(width_of(line, pixels) for line in lines)
    if MONOSPACED.search(font.family):
        widest = max(widest, max(map(len, lines)) * LOWER * pixels)
    return widest * (BOLDER if font.is_bold else 1), len(lines) * height * pixels / size


def letter_width(letter: str) -> float:
    """Return the width of a character, relative to the font size."""
    if unicodedata.combining(letter):
        return 0.0
    if unicodedata.east_asian_width(letter) in "WF":
        return WIDE
    plain = unicodedata.normalize("NFD", letter)[0]
    if plain in WIDTH:
        return WIDTH[plain]
    if plain.isascii():
        return UPPER if plain.isupper() else LOWER
    return OTHER


def lines_of(name: str, longest: float = LONGEST_LINE) -> list[str]:
    """Return a name in lines, none wider than `longest` if it has spaces at which to break."""
    lines = []
    for whole in name.split("\n"):
        line = ""
        for word in whole.split():
            longer = f"{line} {word}".strip()
            if line and width_of(longer) > longest:
                lines.append(line)
                longer = word
            line = longer
        lines.append(line)
    return lines


def allowed(text: str) -> str:
    """Return a text with U+FFFD in place of characters that XML does not allow."""
    return "".join(letter if letter >= " " and letter not in "\ufffe\uffff" or letter in "\n\t" else "\ufffd"
                   for letter in text)


def xml_text(text: str) -> str:
    """Return a text with XML escapes; characters that XML does not allow become U+FFFD."""
    return allowed(text).replace("&", "&amp;").replace("<", "&lt;").replace(">", "&gt;")


def text_lines(lines: list[str], x: float, y: float, height: float, words: str = "") -> list[str]:
    """Return the lines of a text around a point, with these attributes."""
    first = y - (len(lines) - 1) * height / 2
    return [f'<text x="{x:.1f}" y="{first + place * height:.1f}" dy=".35em"{words}>{xml_text(line)}</text>'
            for place, line in enumerate(lines) if line]


def svg_text(width: int, height: int, elements: Iterable[str], paper: str = ' fill="white"') -> str:
    """Return the text of an SVG picture on a background with these attributes."""
    head = f'<svg xmlns="http://www.w3.org/2000/svg" width="{width}" height="{height}" viewBox="0 0 {width} {height}">'
    return "\n".join([head, f'<rect width="100%" height="100%"{paper}/>', *elements, "</svg>\n"])
