"""Checks the colours of files: what is returned can be written into SVG as it is."""
from __future__ import annotations

import colorsys
import re
from collections.abc import Iterable

from planarbend.readers.fault import program
from planarbend.style import Colour

NAMES = frozenset("""
aliceblue antiquewhite aqua aquamarine azure beige bisque black blanchedalmond blue blueviolet brown burlywood cadetblue
chartreuse chocolate coral cornflowerblue cornsilk crimson cyan darkblue darkcyan darkgoldenrod darkgray darkgreen darkgrey
darkkhaki darkmagenta darkolivegreen darkorange darkorchid darkred darksalmon darkseagreen darkslateblue darkslategray
darkslategrey darkturquoise darkviolet deeppink deepskyblue dimgray dimgrey dodgerblue firebrick floralwhite forestgreen
fuchsia gainsboro ghostwhite gold goldenrod gray grey green greenyellow honeydew hotpink indianred indigo ivory khaki lavender
lavenderblush lawngreen lemonchiffon lightblue lightcoral lightcyan lightgoldenrodyellow lightgray lightgreen lightgrey
lightpink lightsalmon lightseagreen lightskyblue lightslategray lightslategrey lightsteelblue lightyellow lime limegreen linen
magenta maroon mediumaquamarine mediumblue mediumorchid mediumpurple mediumseagreen mediumslateblue mediumspringgreen
mediumturquoise mediumvioletred midnightblue mintcream mistyrose moccasin navajowhite navy oldlace olive olivedrab orange
orangered orchid palegoldenrod palegreen paleturquoise palevioletred papayawhip peachpuff peru pink plum powderblue purple red
rosybrown royalblue saddlebrown salmon sandybrown seagreen seashell sienna silver skyblue slateblue slategray slategrey snow
springgreen steelblue tan teal thistle tomato turquoise violet wheat white whitesmoke yellow yellowgreen
""".split())  # of SVG 1.1
HEX = re.compile(r"#([0-9a-f]{3,4}|[0-9a-f]{6}|[0-9a-f]{8})", re.I)
HSV = re.compile(r"\+?(\d*\.?\d+|\d+\.)[\s,]+\+?(\d*\.?\d+|\d+\.)[\s,]+\+?(\d*\.?\d+|\d+\.)")
PLAIN = re.compile(r"[\w/ .+-]+", re.A)  # what may be a colour's name
CLEAR = Colour("none")
FILLED = re.compile(rb'<title>c(\d+)</title>\s*<polygon fill="([^"]*)"')
UNKNOWN = re.compile(rb"([^\n]*) is not a known color")


def colour_of(text: str) -> Colour | None:
    """Return the colour of a text without Graphviz's own names: #rgb, #rrggbb, either with an opacity, hue with saturation and
    value, a name of SVG, `none` or `transparent`; None for any other text. Of a list of colours it is the first."""
    text = first_of(text)
    if match := HEX.fullmatch(text):
        digits = match[1].lower()
        digits = "".join(2 * digit for digit in digits) if len(digits) < 6 else digits
        return Colour("#" + digits[:6], round(int(digits[6:], 16) / 255, 3) if digits[6:] else 1.0)
    if match := HSV.fullmatch(text):
        hue, saturation, value = (min(float(one), 1.0) for one in match.groups())
        return of_parts(*(255 * part for part in colorsys.hsv_to_rgb(hue, saturation, value)))
    name = text.lower()
    return CLEAR if name in ("none", "transparent") else Colour(name) if name in NAMES else None


def of_parts(red: float, green: float, blue: float) -> Colour:
    """Return the colour with these parts, each 0 to 255."""
    return Colour("#" + "".join(f"{min(max(int(part), 0), 255):02x}" for part in (red, green, blue)))


def first_of(text: str) -> str:
    """Return the first colour of a list such as `red;0.3:blue`."""
    return text.split(":")[0].split(";")[0].strip()


def palette(wanted: Iterable[tuple[str, str]]) -> dict[tuple[str, str], Colour | None]:
    """Return the colours of Graphviz's texts, each with its `colorscheme`; None if Graphviz does not know it.

    Graphviz itself is asked, once, for the names that SVG does not have."""
    found: dict[tuple[str, str], Colour | None] = {}
    to_ask: list[tuple[str, str]] = []
    for text, scheme in dict.fromkeys(wanted):
        plain = first_of(text)
        found[text, scheme] = colour_of(plain)
        is_name = PLAIN.fullmatch(plain) and (not scheme or PLAIN.fullmatch(scheme))
        if is_name and (found[text, scheme] is None or scheme.lower() not in ("", "x11") and not plain.startswith("#")):
            to_ask.append((text, scheme))
    if to_ask:
        found.update(zip(to_ask, asked(to_ask), strict=True))
    return found


def asked(wanted: list[tuple[str, str]]) -> list[Colour | None]:
    """Return the colours in which Graphviz fills nodes with these texts."""
    import subprocess  # slow to load

    nodes = [f'c{number} [fillcolor="{first_of(text)}" colorscheme="{scheme}" pos="{9 * number},0"]'
             for number, (text, scheme) in enumerate(wanted)]
    text = 'graph { node [shape=box style=filled color=black label=""]\n' + "\n".join(nodes) + "\n}\n"
    ran = subprocess.run([program("dot", "graphviz"), "-Kneato", "-n2", "-Tsvg"], input=text.encode(), capture_output=True,
                         check=False)
    unknown = {match[1].decode(errors="replace").rpartition("Warning: ")[2].strip() for match in UNKNOWN.finditer(ran.stderr)}
    found: list[Colour | None] = [None] * len(wanted)
    for number, fill in FILLED.findall(ran.stdout):
        plain = first_of(wanted[int(number)][0])
        if plain not in unknown and plain.rpartition("/")[2] not in unknown:
            found[int(number)] = colour_of(fill.decode())
    return found
