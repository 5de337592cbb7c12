"""Parts as they are drawn: strokes, texts and the points of pins. Lengths are in pixels; y grows to the south."""
from __future__ import annotations

import dataclasses
from collections.abc import Sequence
from dataclasses import dataclass, field

from planarbend.drawing.texts import width_of
from planarbend.schematics.parts import EAST, NORTH, SOUTH, WEST, Kind, Part, Pin
from planarbend.schematics.strokes import Box, Point, Pose, Stroke, circle
from planarbend.schematics.symbols import BUBBLE, POINTS, REACH, pose_of, symbol_of

FONT, LINE = 10.0, 12.0  # of references and values, and the height of a line of them
NAME, NUMBER = 9.0, 6.0  # font sizes of the names and numbers of pins
APART = 20.0  # between pins on a side of a box
INSET = 10.0  # from the corner of a box to a pin
MARGIN = 4.0  # from the border of a box to a name inside
BESIDE = 4.0  # from a part to its texts
PITCH = 20.0  # between the inputs of a gate
WIDEST = 30.0  # of the value inside an op-amp
PLAIN_GROUNDS = ("GND", "0")  # grounds whose symbol has no name
TOWARDS = ((1, 0), (0, -1), (-1, 0), (0, 1))  # the steps in the four directions


@dataclass(frozen=True, slots=True)
class Text:
    """A text: its box, the size of its font, whether it is read upwards, and its role: ref, value, name, number, sign or net."""

    text: str
    box: Box
    size: float
    role: str
    is_upwards: bool = False
    anchor: str = "middle"  # SVG's words: which point of the text stays where it is if the font is narrower than was assumed

    def moved(self, by: Point) -> Text:
        """Return the text after it was moved."""
        return dataclasses.replace(self, box=moved_box(self.box, by))


@dataclass(slots=True)
class Shape:
    """A part as it is drawn: its box, the points of its pins in the part's order, strokes and texts."""

    box: Box
    pins: list[Point]
    strokes: list[Stroke]
    texts: list[Text] = field(default_factory=list)

    def moved(self, by: Point) -> Shape:
        """Return the shape after it was moved."""
        return Shape(moved_box(self.box, by), [(x + by[0], y + by[1]) for x, y in self.pins],
                     [stroke.moved(lambda point: (point[0] + by[0], point[1] + by[1])) for stroke in self.strokes],
                     [text.moved(by) for text in self.texts])


def moved_box(box: Box, by: Point) -> Box:
    """Return a box after it was moved."""
    return box[0] + by[0], box[1] + by[1], box[2] + by[0], box[3] + by[1]


def text_at(text: str, middle: Point, size: float, role: str, is_upwards: bool = False) -> Text:
    """Return a text around a point."""
    half, high = width_of(text, size) / 2, size * 0.6
    if is_upwards:
        half, high = high, half
    x, y = middle
    return Text(text, (x - half, y - high, x + half, y + high), size, role, is_upwards)


def text_beyond(text: str, at: Point, direction: int, size: float, role: str) -> Text:
    """Return a level text whose box begins at a point and lies in a direction from it."""
    (across, along), half = TOWARDS[direction], width_of(text, size) / 2
    return text_at(text, (at[0] + across * half, at[1] + along * size * 0.6), size, role)


def step(at: Point, direction: int, length: float) -> Point:
    """Return the point at a distance in a direction."""
    across, along = TOWARDS[direction]
    return at[0] + across * length, at[1] + along * length


def shape_of(part: Part, pose: Pose) -> Shape:
    """Return a part of a fixed size as it is drawn: any but boxes and flip-flops. A flag's pin is at the origin."""
    if part.is_flag:
        return flag_shape(part, pose)
    if part.kind in POINTS:
        return point_shape(part, pose)
    own = {Kind.OPAMP: opamp, Kind.GATE: gate, Kind.MUX: mux}[part.kind](part)
    pose = dataclasses.replace(pose, over=True)
    texts = [dataclasses.replace(one, box=turned_text(one, pose)) for one in own.texts]
    if part.kind is Kind.OPAMP and pose.turn % 2 == 0:
        x, y = pose.point((-4.0, 0.0))
        small = 6.0 if width_of(part.value, 6.0) <= WIDEST else 5.0
        texts += [text_at(text, (x, y + down), size, role) for text, role, down, size, widest in
                  ((part.ref, "ref", -5.4, 8.0, 22.0), (part.value, "value", 3.0, small, WIDEST))
                  if text and width_of(text, size) <= widest]
    return Shape(pose.box(own.box), [pose.point(pin) for pin in own.pins], [one.moved(pose.point) for one in own.strokes], texts)


def turned_text(text: Text, pose: Pose) -> Box:
    """Return the box of a text that stays level while its part is turned."""
    left, top, right, bottom = text.box
    x, y = pose.point(((left + right) / 2, (top + bottom) / 2))
    return x - (right - left) / 2, y - (bottom - top) / 2, x + (right - left) / 2, y + (bottom - top) / 2


def point_shape(part: Part, pose: Pose) -> Shape:
    """Return a point part as it is drawn."""
    symbol, own = symbol_of(part), pose_of(part, pose)
    texts = [text_at(text, own.point((x, y)), size, "name") for text, x, y, size in symbol.texts]
    pins = [step(pose.at, pose.side(pin.side), REACH) for pin in part.pins]
    return Shape(own.box(symbol.box), pins, [one.moved(own.point) for one in symbol.strokes], texts)


def flag_shape(part: Part, pose: Pose) -> Shape:
    """Return a flag as it is drawn, with its text."""
    towards = (pose.side(part.pins[0].side) + 2) % 4  # from the pin to the symbol
    if part.kind in (Kind.GROUND, Kind.SUPPLY):
        return power_shape(part, pose.at, towards)
    if part.kind is Kind.CONST:
        stub, at = step(pose.at, towards, 14), pose.at
        is_level = towards in (EAST, WEST)
        half = width_of(part.value, FONT) / 2
        text = text_at(part.value, step(at, towards, 16 + half), FONT, "net", not is_level)
        return Shape(around([at, stub, text.box[:2], text.box[2:]]), [at],
                     [Stroke("line", f"M{at[0]:g} {at[1]:g}L{stub[0]:g} {stub[1]:g}")], [text])
    width = width_of(part.value, FONT) + 12
    outline = f"M0 -7L{width - 5:g} -7L{width:g} 0L{width - 5:g} 7L0 7Z" if part.kind is Kind.OUTPUT else \
        f"M0 0L5 -7L{width:g} -7L{width:g} 7L5 7Z"
    turned = Pose(towards, at=pose.at)
    middle = turned.point(((width - 5 if part.kind is Kind.OUTPUT else width + 5) / 2, 0))
    text = text_at(part.value, middle, FONT, "net", towards in (NORTH, SOUTH))
    return Shape(turned.box((0, -7, width, 7)), [pose.at], [Stroke("body", outline).moved(turned.point)], [text])


def power_shape(part: Part, at: Point, towards: int) -> Shape:
    """Return a ground or a supply, which lies in a direction from its pin."""
    turned = Pose((towards - SOUTH) % 4, at=at)
    if part.kind is Kind.GROUND:
        path, box, depth = "M0 0L0 8M-8 8L8 8M-5 11L5 11M-2 14L2 14", (-9, 0, 9, 15), 16
    else:
        path, box, depth = "M0 0L0 10M-7 10L7 10", (-8, 0, 8, 11), 12
    texts = []
    if part.kind is Kind.SUPPLY or part.value not in PLAIN_GROUNDS:
        texts.append(text_beyond(part.value, step(at, towards, depth), towards, FONT, "net"))
    return Shape(turned.box(box), [at], [Stroke("line", path).moved(turned.point)], texts)


def around(points: Sequence[Point]) -> Box:
    """Return the box around points."""
    return (min(x for x, _ in points), min(y for _, y in points), max(x for x, _ in points), max(y for _, y in points))


def beside(part: Part, pose: Pose, shape: Shape) -> list[list[Text]]:
    """Return places for the reference and the value of a part that does not have them inside, the best ones first: at sides
    without pins, then at corners. There are none if there is nothing to write."""
    inside = {text.role for text in shape.texts}
    lines = [(text, role) for text, role in ((part.ref, "ref"), (part.value, "value")) if text and role not in inside]
    if not lines or part.is_flag or not part.is_named:
        return []
    used = {pose.side(pin.side) for pin in part.pins}
    left, top, right, bottom = shape.box
    x, y, half = (left + right) / 2, (top + bottom) / 2, LINE * len(lines) / 2
    sides = [(EAST, right + BESIDE, y), (WEST, left - BESIDE, y), (NORTH, x, top + 2 - BESIDE - half),
             (SOUTH, x, bottom - 2 + BESIDE + half)]
    found = [block(lines, at, middle, side) for side, at, middle in sides if side not in used]
    corners = [(EAST, max(x + BESIDE, right - 6), top - half), (EAST, max(x + BESIDE, right - 6), bottom + half),
               (WEST, min(x - BESIDE, left + 6), top - half), (WEST, min(x - BESIDE, left + 6), bottom + half)]
    return found + [block(lines, at, middle, side) for side, at, middle in corners]


def block(lines: Sequence[tuple[str, str]], x: float, y: float, side: int) -> list[Text]:
    """Return lines around a height: to the east or the west of a place, or in the middle above or below it."""
    found = []
    for number, (text, role) in enumerate(lines):
        half = width_of(text, FONT) / 2
        middle = x + {EAST: half, WEST: -half}.get(side, 0.0), y + LINE * (number - (len(lines) - 1) / 2)
        anchor = {EAST: "start", WEST: "end"}.get(side, "middle")
        found.append(dataclasses.replace(text_at(text, middle, FONT, role), anchor=anchor))
    return found


def opamp(part: Part) -> Shape:
    """Return an op-amp, upright and not mirrored."""
    inputs = [pin for pin in part.pins if pin.side == WEST]
    places = {EAST: (27.0, 0.0), NORTH: (0.0, -26.0), SOUTH: (0.0, 26.0)}
    level = {id(pin): 12.0 * (2 * number - 1) for number, pin in enumerate(inputs)}
    pins = [(-27.0, level[id(pin)]) if pin.side == WEST else places[pin.side] for pin in part.pins]
    strokes = [Stroke("body", "M-27 -26L-27 26L27 0Z")]
    strokes += [Stroke("line", f"M0 {13 * sign}L0 {26 * sign}") for side, sign in ((NORTH, -1), (SOUTH, 1))
                if any(pin.side == side for pin in part.pins)]
    signs = [text_at("+" if pin.name == "+" else "\u2212", (-19, level[id(pin)]), 9, "sign") for pin in inputs]
    return Shape((-27, -26, 27, 26), pins, strokes, signs)


def gate(part: Part) -> Shape:
    """Return a gate, upright."""
    inputs = [pin for pin in part.pins if pin.side == WEST]
    is_small = part.form in ("not", "buffer")
    half = 13.0 if is_small else max(17.0, PITCH * (len(inputs) - 1) / 2 + 7)
    right, back, path = BODIES[part.form]
    strokes = [scaled(Stroke("body", path), half / (13 if is_small else 17))]
    if part.form in ("xor", "xnor"):
        strokes.append(scaled(Stroke("line", "M-24 -17C-17 -7 -17 7 -24 17"), half / 17))
    level = {id(pin): PITCH * (number - (len(inputs) - 1) / 2) for number, pin in enumerate(inputs)}
    pins = []
    for pin in part.pins:
        at = {EAST: (28.0, 0.0), WEST: (-28.0, level.get(id(pin), 0.0)), NORTH: (-3.0, -half - 4),
              SOUTH: (-3.0, half + 4)}[pin.side]
        edge = 7.4 if is_small else half  # of the body, above and below the point -3
        border = {EAST: (right, 0.0), WEST: (back, at[1]), NORTH: (-3.0, -edge), SOUTH: (-3.0, edge)}[pin.side]
        pins.append(at)
        strokes += pin_strokes(at, border, pin)
    is_tall = any(pin.side in (NORTH, SOUTH) for pin in part.pins)
    return Shape((-28, -half - 4 * is_tall, 28, half + 4 * is_tall), pins, strokes)


BODIES = {  # of gates: the right end of the body, where inputs reach it, and its path
    "and": (18.0, -20.0, "M-20 -17L1 -17C10.4 -17 18 -9.4 18 0C18 9.4 10.4 17 1 17L-20 17Z"),
    "or": (18.0, -16.5, "M-20 -17C5 -17 11 -10 18 0C11 10 5 17 -20 17C-13 7 -13 -7 -20 -17Z"),
    "not": (9.0, -12.0, "M-12 -13L-12 13L9 0Z")}
BODIES |= {"nand": BODIES["and"], "nor": BODIES["or"], "xor": BODIES["or"], "xnor": BODIES["or"], "buffer": BODIES["not"]}


def scaled(stroke: Stroke, factor: float) -> Stroke:
    """Return a stroke whose height is multiplied."""
    return stroke.moved(lambda point: (point[0], point[1] * factor))


def pin_strokes(at: Point, border: Point, pin: Pin) -> list[Stroke]:
    """Return the line from a pin's point to the border of its part, with a circle at the border if it is inverted."""
    if "inverted" not in pin.shape:
        return [Stroke("line", f"M{at[0]:g} {at[1]:g}L{border[0]:g} {border[1]:g}")]
    middle = step(border, pin.side, BUBBLE)
    end = step(border, pin.side, 2 * BUBBLE)
    return [Stroke("line", f"M{at[0]:g} {at[1]:g}L{end[0]:g} {end[1]:g}"), Stroke("circle", circle(*middle, BUBBLE))]


def mux(part: Part) -> Shape:
    """Return a multiplexer of two inputs, upright; its select input is above or below."""
    inputs = [pin for pin in part.pins if pin.side == WEST]
    level = {id(pin): PITCH * (number - 0.5) for number, pin in enumerate(inputs)}
    is_inverted = any("inverted" in pin.shape for pin in part.pins if pin.side == EAST)
    right = 12.0 + 2 * BUBBLE * is_inverted
    places = {EAST: (right, 0.0), NORTH: (0.0, -25.0), SOUTH: (0.0, 25.0)}
    pins = [(-12.0, level[id(pin)]) if pin.side == WEST else places[pin.side] for pin in part.pins]
    strokes = [Stroke("body", "M-12 -25L12 -15L12 15L-12 25Z")]
    strokes += [Stroke("line", f"M0 {20 * sign}L0 {25 * sign}") for side, sign in ((NORTH, -1), (SOUTH, 1))
                if any(pin.side == side for pin in part.pins)]
    strokes += [Stroke("circle", circle(12 + BUBBLE, 0, BUBBLE))] * is_inverted
    return Shape((-12, -25, right, 25), pins, strokes, [text_at(pin.name, (-6, level[id(pin)]), NAME, "name") for pin in inputs])
