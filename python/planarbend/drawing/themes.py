"""Colours of plain lines, texts and boxes: light, dark, or as the reader's system is set."""
from __future__ import annotations

import re

THEMES = ("light", "dark", "auto")
PAPER = "white"
DARK = {"#1d2733": "#e6edf3", "#3f5873": "#9db4cc", "#f4f7fb": "#1f2a36", "#fdf6e3": "#3a3320", "#e3f1e4": "#22382a",
        "#0a6e2c": "#56c27d", "#fffbe6": "#2b2a22", "#334455": "#a9bccf"}
DARK_PAPER = "#12171d"
TAG = re.compile(r"<[a-zA-Z][^<>]*>")
PAINT = re.compile(r' (fill|stroke)="(' + "|".join(DARK) + ')"')


def paper(theme: str) -> str:
    """Return the attributes of the background."""
    return {"light": f' fill="{PAPER}"', "dark": f' fill="{DARK_PAPER}"'}.get(theme, f' class="paper" fill="{PAPER}"')


def themed(text: str, theme: str) -> str:
    """Return an SVG text with the colours of a theme in place of the light ones."""
    if theme == "light":
        return text
    if theme == "dark":
        return TAG.sub(lambda tag: PAINT.sub(lambda match: f' {match[1]}="{DARK[match[2]]}"', tag[0]), text)
    rules = [f".paper{{fill:{DARK_PAPER}}}"]
    rules += [f".{kind}{name[1:]}{{{kind}:{dark}}}" for name, dark in DARK.items() for kind in ("fill", "stroke")]
    style = f"<style>@media (prefers-color-scheme:dark){{{''.join(rules)}}}</style>"
    head, end, rest = text.partition("\n")
    return head + end + style + "\n" + TAG.sub(lambda tag: classed(tag[0]), rest)


def classed(tag: str) -> str:
    """Return a tag with classes for its plain colours."""
    names = [kind + colour[1:] for kind, colour in PAINT.findall(tag)]
    if not names:
        return tag
    end = -2 if tag.endswith("/>") else -1
    return f'{tag[:end]} class="{" ".join(names)}"{tag[end:]}'
