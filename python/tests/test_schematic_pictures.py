"""Symbols, texts and files of schematics, on drawings whose points were chosen by hand."""
from __future__ import annotations

import itertools
import json
import re
import unittest
from pathlib import Path
from tempfile import TemporaryDirectory
from xml.etree import ElementTree

import support
from schematic_judge import judge
from schematic_rows import rows
from test_schematic_judge import CIRCUIT, by_hand

from planarbend.schematics.boxes import box_shape, extent, needs_of, outside
from planarbend.schematics.drawn import Schematic, Wire
from planarbend.schematics.flags import flag
from planarbend.schematics.labelling import Room, label
from planarbend.schematics.parts import EAST, NORTH, SOUTH, TURNED_OVER, WEST, Kind, Part, Pin
from planarbend.schematics.picture import svg, title_of
from planarbend.schematics.readers import read
from planarbend.schematics.shapes import beside, shape_of
from planarbend.schematics.strokes import Pose, Stroke, circle
from planarbend.schematics.symbols import POINTS, pose_of

SVG = "{http://www.w3.org/2000/svg}"
NAMES = {Kind.DIODE: "AK", Kind.LED: "AK", Kind.POLARIZED: "+-", Kind.SOURCE: "+-"}
TRANSISTORS = {Kind.NPN: "CBE", Kind.PNP: "CBE", Kind.NMOS: "DGS", Kind.PMOS: "DGS", Kind.NJF: "DGS", Kind.PJF: "DGS"}
POSES = [Pose(turn, mirror) for turn in range(4) for mirror in (False, True)]


def drawn_by_hand() -> Schematic:
    """The drawing of the judge's tests, made of the package's shapes."""
    sheet, given = read(CIRCUIT.encode(), "circuit.cir"), by_hand()
    middles = [((one["box"][0] + one["box"][2]) / 2, (one["box"][1] + one["box"][3]) / 2) for one in given["parts"]]
    poses = [Pose(one["turn"], at=at) for one, at in zip(given["parts"], middles)]
    return Schematic(sheet, poses, [shape_of(part, pose) for part, pose in zip(sheet.parts, poses)], [[] for _ in poses],
                     [Wire(one["net"], [(x, y) for x, y in one["points"]]) for one in given["wires"]],
                     [(one["net"], tuple(one["at"])) for one in given["junctions"]],
                     [(tuple(one["at"]), tuple(one["nets"])) for one in given["crossings"]], (330.0, 250.0))


def point_part(kind: Kind) -> Part:
    """A part of a kind, at most one pin on a side."""
    if kind in TRANSISTORS:
        names = TRANSISTORS[kind]
        return Part("Q1", "x", kind, [Pin(str(place), name, side) for place, (name, side) in enumerate(zip(names, (NORTH, WEST, SOUTH)))])
    if kind is Kind.POT:
        return Part("RV1", "x", kind, [Pin("3", "", EAST), Pin("2", "", NORTH), Pin("1", "", WEST)])
    first, second = NAMES.get(kind, ("", ""))
    return Part("X1", "x", kind, [Pin("2", second, EAST), Pin("1", first, WEST)])


class Symbols(unittest.TestCase):
    def test_pins_are_where_the_pose_puts_them(self) -> None:
        for kind, pose in itertools.product(POINTS, POSES):
            part = point_part(kind)
            shape = shape_of(part, Pose(pose.turn, pose.mirror, False, (100.0, 50.0)))
            for pin, (x, y) in zip(part.pins, shape.pins):
                side = (2 - pin.side) % 4 if pose.mirror else pin.side  # west and east are exchanged
                step = [(1, 0), (0, -1), (-1, 0), (0, 1)][(side + pose.turn) % 4]
                self.assertEqual((x - 100, y - 50), (24 * step[0], 24 * step[1]), (kind, pose))

    def test_strokes_reach_the_pins_and_stay_in_the_box(self) -> None:
        for kind, pose in itertools.product(POINTS, POSES):
            part = point_part(kind)
            shape = shape_of(part, pose)
            ends = {(round(float(x)), round(float(y))) for stroke in shape.strokes for x, y in
                    re.findall(r"(-?[\d.]+) (-?[\d.]+)", stroke.path)}
            for x, y in shape.pins:
                self.assertIn((round(x), round(y)), ends, (kind, pose))
            for stroke in shape.strokes:
                left, top, right, bottom = stroke.box()
                self.assertTrue(left >= shape.box[0] and top >= shape.box[1] and right <= shape.box[2] and bottom <= shape.box[3],
                                (kind, pose, stroke, shape.box))

    def test_the_first_pin_is_at_the_symbols_first_end(self) -> None:
        """The anode of a diode is where its triangle is wide, and the base of a transistor where its bar is."""
        for kind, name in ((Kind.DIODE, "A"), (Kind.NPN, "B"), (Kind.NMOS, "G")):
            for pose in POSES:
                part = point_part(kind)
                place = next(place for place, pin in enumerate(part.pins) if pin.name == name)
                at = pose_of(part, pose).point((-24.0, 0.0))
                self.assertEqual(tuple(map(round, at)), tuple(map(round, shape_of(part, pose).pins[place])))

    def test_the_lower_pin_of_a_transistor(self) -> None:
        for kind, name in ((Kind.NPN, "E"), (Kind.PNP, "E"), (Kind.NMOS, "S"), (Kind.PJF, "S")):
            for pose in POSES:
                part = point_part(kind)
                place = next(place for place, pin in enumerate(part.pins) if pin.name == name)
                at = pose_of(part, pose).point((0.0, 24.0))
                self.assertEqual(tuple(map(round, at)), tuple(map(round, shape_of(part, pose).pins[place])))

    def test_flags_lie_away_from_their_wires(self) -> None:
        for kind, side in ((Kind.GROUND, SOUTH), (Kind.SUPPLY, NORTH), (Kind.LABEL, WEST), (Kind.INPUT, WEST), (Kind.OUTPUT, EAST),
                           (Kind.CONST, WEST)):
            left, top, right, bottom = extent(flag(kind, "NAME", "n"), Pose())
            far = {EAST: right, NORTH: -top, WEST: -left, SOUTH: bottom}
            near = {EAST: left, NORTH: bottom, WEST: right, SOUTH: top}
            self.assertGreater(far[side], 10, kind)
            self.assertAlmostEqual(near[side], 0.0, msg=str(kind))

    def test_grounds_with_other_names_have_them(self) -> None:
        texts = {name: [text.text for text in shape_of(flag(Kind.GROUND, name, "n"), Pose()).texts] for name in ("GND", "0", "AGND")}
        self.assertEqual(texts, {"GND": [], "0": [], "AGND": ["AGND"]})
        self.assertEqual(shape_of(flag(Kind.SUPPLY, "-12V", "n"), Pose()).texts[0].box[1] > 0, True)  # below its pin

    def test_paths_are_moved_point_by_point(self) -> None:
        stroke = Stroke("line", "M0 -5L10 0C1 2 3 4 5.5 6Z").moved(Pose(1, True, True, (1.0, 1.0)).point)
        # mirrored: y changes its sign; turned: (x, y) becomes (y, -x); moved by (1, 1)
        self.assertEqual(stroke.path.replace(" L", "L").replace(" C", "C").replace(" Z", "Z"), "M6 1L1 -9C-1 0 -3 -2 -5 -4.5Z")
        self.assertEqual(Stroke("line", circle(10, 20, 3)).box(), (7, 17, 13, 23))


    def test_a_fourth_pin_of_a_transistor(self) -> None:
        part = Part("M1", "x", Kind.NMOS, [Pin("B", "B", EAST), Pin("D", "D", NORTH), Pin("G", "G", WEST), Pin("S", "S", SOUTH)])
        shape = shape_of(part, Pose())
        self.assertEqual((shape.box, shape.pins), ((-24, -24, 24, 24), [(24, 0), (0, -24), (-24, 0), (0, 24)]))
        self.assertEqual(shape_of(point_part(Kind.NMOS), Pose()).box, (-24, -24, 10, 24))

    def test_forms_of_sources_and_diodes(self) -> None:
        for kind, form in ((Kind.SOURCE, "voltage"), (Kind.SOURCE, "current"), (Kind.SOURCE, "controlled voltage"),
                           (Kind.SOURCE, "controlled current"), (Kind.DIODE, "zener"), (Kind.DIODE, "schottky"), (Kind.TWO, "tvs")):
            plain, part = point_part(kind), point_part(kind)
            part.form = form
            shape = shape_of(part, Pose())
            self.assertNotEqual(shape.strokes, shape_of(plain, Pose()).strokes)
            for stroke in shape.strokes:
                left, top, right, bottom = stroke.box()
                self.assertTrue(left >= shape.box[0] and top >= shape.box[1] and right <= shape.box[2] and bottom <= shape.box[3], form)


class Rectangles(unittest.TestCase):
    """Op-amps, gates and multiplexers, whose size is fixed."""

    def parts(self) -> list[Part]:
        found = []
        for form in ("and", "or", "xor", "nand", "nor", "xnor"):
            for count in (2, 3, 5):
                shape = "inverted" if form in ("nand", "nor", "xnor") else "line"
                found.append(Part("U1", "x", Kind.GATE, [Pin("Y", "", EAST, "output", None, shape), *(Pin(str(one), "", WEST) for one in range(count))],
                                  form=form))
        for form in ("not", "buffer"):
            found.append(Part("U1", "x", Kind.GATE, [Pin("Y", "", EAST, "output"), Pin("A", "", WEST), Pin("E", "", SOUTH, "input", None, "inverted")],
                              form=form))
        found.append(Part("U1", "x", Kind.OPAMP, [Pin("1", "", EAST), Pin("8", "V+", NORTH), Pin("3", "+", WEST), Pin("2", "-", WEST), Pin("4", "V-", SOUTH)]))
        for side in (SOUTH, NORTH):
            pins = [Pin("Y", "", EAST, "output", None, "inverted"), Pin("A", "0", WEST), Pin("B", "1", WEST), Pin("S", "", side)]
            found.append(Part("m", "", Kind.MUX, sorted(pins, key=lambda pin: pin.side)))
        return found

    def test_strokes_reach_the_pins_and_stay_in_the_box(self) -> None:
        for part, pose in itertools.product(self.parts(), POSES):
            shape = shape_of(part, Pose(pose.turn, pose.mirror, True))
            self.assertEqual(len(shape.pins), len(part.pins))
            for stroke in shape.strokes:
                self.assertIn(stroke.style, ("line", "bold", "body", "ink", "circle"))
                left, top, right, bottom = stroke.box()
                self.assertTrue(left >= shape.box[0] - 0.01 and top >= shape.box[1] - 0.01 and right <= shape.box[2] + 0.01
                                and bottom <= shape.box[3] + 0.01, (part.form, pose, stroke, shape.box))
            drawn = [stroke.box() for stroke in shape.strokes]
            for pin, (x, y) in zip(part.pins, shape.pins):
                side = pose.side(pin.side) if not pose.mirror else ((-pin.side) % 4 + pose.turn) % 4
                border = (shape.box[2], shape.box[1], shape.box[0], shape.box[3])[side]
                self.assertAlmostEqual((x, y)[side % 2], border, 3, (part.kind, part.form, pose, pin))
                self.assertTrue(any(box[0] - 0.01 <= x <= box[2] + 0.01 and box[1] - 0.01 <= y <= box[3] + 0.01 for box in drawn))

    def test_inputs_are_twenty_pixels_apart(self) -> None:
        for part in self.parts():
            shape = shape_of(part, Pose())
            heights = [y for pin, (_, y) in zip(part.pins, shape.pins) if pin.side == WEST]
            apart = 24.0 if part.kind is Kind.OPAMP else 20.0
            self.assertEqual([other - one for one, other in zip(heights, heights[1:])], [apart] * (len(heights) - 1), part.form)
            self.assertAlmostEqual(sum(heights), 0.0)

    def test_multiplexers(self) -> None:
        for side, y in ((SOUTH, 25.0), (NORTH, -25.0)):
            for shape, right, strokes in (("line", 12.0, 2), ("inverted", 18.0, 3)):
                pins = [Pin("Y", "", EAST, "output", None, shape), Pin("A", "0", WEST), Pin("B", "1", WEST), Pin("S", "", side)]
                found = shape_of(Part("m", "", Kind.MUX, pins), Pose(0, False, True))
                self.assertEqual(found.pins, [(right, 0.0), (-12.0, -10.0), (-12.0, 10.0), (0.0, y)])
                self.assertEqual(len(found.strokes), strokes)

    def test_names_stay_at_their_pins(self) -> None:
        for part, pose in itertools.product(self.parts(), POSES):
            shape = shape_of(part, Pose(pose.turn, pose.mirror, True))
            texts = {text.text: ((text.box[0] + text.box[2]) / 2, (text.box[1] + text.box[3]) / 2) for text in shape.texts}
            for pin, at in zip(part.pins, shape.pins):
                if pin.name in ("0", "1", "+"):
                    away = [abs(one - other) for one, other in zip(texts[pin.name], at)]
                    self.assertLess(max(away), 12, (part.kind, pose, pin.name))


class Boxes(unittest.TestCase):
    PART = Part("U1", "CHIP", Kind.BOX, [Pin("4", "OUT", EAST), Pin("5", "Q", EAST, "output", None, "inverted"), Pin("8", "VCC", NORTH),
                                         Pin("1", "CLOCK", WEST, "input", None, "clock"), Pin("2", "DATA", WEST), Pin("3", "EN", WEST),
                                         Pin("7", "GROUND", SOUTH)])

    def test_a_wedge_takes_room_on_its_side(self) -> None:
        sides = {side: needs_of(Part("f", "", Kind.DFF, [Pin("C", "", side, "input", None, "clock"), Pin("D", "D", WEST)], is_named=False),
                                Pose()) for side in (WEST, EAST)}
        self.assertEqual(sides[WEST].width, sides[EAST].width)  # room for the wedge and for the name of D, at one side or at two

    def test_texts_in_a_box_are_apart(self) -> None:
        for pose in POSES:
            needs = needs_of(self.PART, pose)
            counts: dict[int, int] = {}
            pins = []
            for pin in self.PART.pins:
                side = pose.side(pin.side)
                along = 20.0 * counts.get(side, 0)
                counts[side] = counts.get(side, 0) + 1
                pins.append({EAST: (needs.width, needs.top + along), WEST: (0.0, needs.top + along), NORTH: (needs.left + along, 0.0),
                             SOUTH: (needs.left + along, needs.height)}[side])
            self.assertGreaterEqual(needs.height, max(needs.top, needs.bottom) + 20 * (max(counts[EAST], counts[WEST]) - 1), pose)
            shape = box_shape(self.PART, pose, (0.0, 0.0, needs.width, needs.height), pins)
            inside = [text for text in shape.texts if text.role != "number"]
            self.assertEqual({text.text for text in inside}, {"OUT", "Q", "VCC", "CLOCK", "DATA", "EN", "GROUND", "U1", "CHIP"})
            for one, other in itertools.combinations(inside, 2):
                self.assertFalse(all(max(one.box[axis], other.box[axis]) < min(one.box[axis + 2], other.box[axis + 2]) for axis in (0, 1)),
                                 (pose, one, other))
            for text in inside:
                self.assertTrue(text.box[0] >= 0 and text.box[1] >= 0 and text.box[2] <= needs.width and text.box[3] <= needs.height,
                                (pose, text))

    def test_what_reaches_beyond_a_box(self) -> None:
        for pose in POSES:
            size = 200.0
            points = [{EAST: (size, 100.0), WEST: (0.0, 100.0), NORTH: (100.0, 0.0), SOUTH: (100.0, size)}[pose.side(pin.side)]
                      for pin in self.PART.pins]
            shape = box_shape(self.PART, pose, (0.0, 0.0, size, size), points)
            boxes = [text.box for text in shape.texts if text.role == "number"]
            boxes += [stroke.box() for stroke in shape.strokes if stroke.style == "circle"]
            for side in range(4):
                far = [(box[2] - size, -box[1], -box[0], box[3] - size)[side] for box in boxes]
                self.assertAlmostEqual(outside(self.PART, pose, side), max(0.0, *far), msg=str((pose, side)))

    def test_names_on_upright_sides_are_read_upwards(self) -> None:
        shape = box_shape(self.PART, Pose(), (0.0, 0.0, 200.0, 200.0), [(200, 160), (200, 60), (100, 0), (0, 60), (0, 80), (0, 100), (100, 200)])
        self.assertEqual({text.text for text in shape.texts if text.is_upwards}, {"VCC", "GROUND", "8", "7"})
        self.assertEqual([text.text for text in shape.texts if text.role == "number"], ["4", "5", "8", "1", "2", "3", "7"])
        self.assertEqual([stroke.style for stroke in shape.strokes], ["body", "circle", "line"])  # the circle, then the wedge


class Texts(unittest.TestCase):
    def test_texts_find_free_places(self) -> None:
        drawing = drawn_by_hand()
        label(drawing)
        with TemporaryDirectory() as folder:
            path = Path(folder) / "circuit.cir"
            path.write_text(CIRCUIT)
            self.assertEqual(judge(json.loads(drawing.json()), path, "spice").faults, [])
        self.assertEqual([[text.text for text in texts] for texts in drawing.beside], [["R1", "1"], ["R2", "1"], ["R3", "1"], ["R4", "1"]])
        self.assertEqual([text.text for text in drawing.names], ["b", "a", "c"])
        before = drawing.json()
        label(drawing)  # once more
        self.assertEqual(drawing.json(), before)

    def test_texts_that_are_in_the_way_are_moved(self) -> None:
        drawing = drawn_by_hand()
        label(drawing)
        kept = drawing.beside[0]
        drawing.beside[0] = [text.moved((0.0, 60.0 - text.box[1])) for text in kept[:1]] + kept[1:]
        drawing.beside[1] = [text.moved((0.0, 30.0)) for text in drawing.beside[1]]  # onto the wire of b
        moved = list(drawing.beside[1])
        label(drawing)
        self.assertNotEqual(drawing.beside[1], moved)
        self.assertEqual([text.text for text in drawing.beside[1]], ["R2", "1"])

    def test_sides_without_pins_come_first(self) -> None:
        for turn, sides in ((0, (NORTH, SOUTH)), (1, (EAST, WEST))):
            part, pose = point_part(Kind.RESISTOR), Pose(turn)
            shape = shape_of(part, pose)
            places = beside(part, pose, shape)
            found = []
            for texts in places[:2]:
                left, top, right, bottom = texts[0].box
                found.append(EAST if left > 0 and turn else WEST if right < 0 and turn else NORTH if bottom < 0 else SOUTH)
            self.assertEqual(tuple(found), sides)
            gaps = [shape.box[1] - places[0][-1].box[3], places[1][0].box[1] - shape.box[3]] if turn == 0 else \
                [places[0][0].box[0] - shape.box[2], shape.box[0] - places[1][0].box[2]]
            self.assertEqual([round(gap, 3) for gap in gaps], [2.0, 2.0] if turn == 0 else [4.0, 4.0])
            self.assertEqual(len(places), 6)

    def test_names_that_nobody_gave_are_not_written(self) -> None:
        part = Part("$auto$1", "", Kind.GATE, [Pin("Y", "", EAST), Pin("A", "", WEST)], form="not", is_named=False)
        self.assertEqual(beside(part, Pose(), shape_of(part, Pose())), [])

    def test_room(self) -> None:
        room = Room()
        room.take((10.0, 10.0, 100.0, 20.0))
        self.assertFalse(room.is_free((90.0, 15.0, 200.0, 16.0)))
        self.assertTrue(room.is_free((100.0, 15.0, 200.0, 16.0)))  # they touch only
        self.assertTrue(room.is_free((-50.0, -50.0, 10.0, 300.0)))
        self.assertFalse(room.is_free((50.0, -500.0, 51.0, 500.0)))


class Files(unittest.TestCase):
    def test_json(self) -> None:
        found = json.loads(drawn_by_hand().json())
        self.assertEqual((found["bends"], found["size"]), (5, [330.0, 250.0]))
        self.assertEqual([part["ref"] for part in found["parts"]], ["R1", "R2", "R3", "R4"])
        self.assertEqual(found["parts"][2]["pins"], [
            {"number": "2", "name": "", "etype": "passive", "shape": "line", "side": 0, "net": "c", "at": [150, 208]},
            {"number": "1", "name": "", "etype": "passive", "shape": "line", "side": 2, "net": "a", "at": [150, 160]}])
        self.assertEqual(found["stubs"], [{"part": 3, "pin": 0, "to": [316, 230]}])
        self.assertEqual(found["nets"]["a"], {"name": "a", "power": False})

    def test_svg_has_groups_with_titles(self) -> None:
        root = ElementTree.fromstring(svg(drawn_by_hand()))
        self.assertEqual((root.get("width"), root.get("height")), ("330", "250"))
        titles = [title.text for title in root.iter(f"{SVG}title")]
        self.assertEqual(titles, ["a", "b", "c", *(title for ref in ("R1", "R2", "R3", "R4")
                                                   for title in (f"{ref} 1", f"{ref} 1, pin 2", f"{ref} 1, pin 1"))])
        dots = [dot for dot in root.iter(f"{SVG}circle") if dot.get("fill") == "#0a6e2c"]
        self.assertEqual([(dot.get("cx"), dot.get("cy")) for dot in dots], [("150.0", "100.0")])  # a junction has one, a crossing none

    def test_svg_of_every_symbol_is_well_formed(self) -> None:
        for name in ("two_units.kicad_sch", "nand.cir", "counter.json", "stage.net"):
            path = support.TESTS / "schematics" / name
            drawing = rows(read(path.read_bytes(), str(path)))
            for theme in ("light", "dark", "auto"):
                root = ElementTree.fromstring(svg(drawing, theme))
                texts = sorted(text.text or "" for text in root.iter(f"{SVG}text"))
                self.assertEqual(texts, sorted(text.text for _, text in drawing.texts()), name)

    def test_dark_pictures_have_no_light_colours(self) -> None:
        path = support.TESTS / "schematics" / "two_units.kicad_sch"
        text = svg(rows(read(path.read_bytes(), str(path))), "dark")
        colours = {found.lower() for found in re.findall(r'(?:fill|stroke)="(#\w+|\w+)"', text)} - {"none", "transparent"}
        light = {"#e6edf3", "#56c27d", "#a9bccf"}  # of lines and texts
        self.assertEqual(colours, light | {"#12171d", "#2b2a22"})

    def test_titles_tell_pins(self) -> None:
        path = support.TESTS / "schematics" / "two_units.kicad_sch"
        text = svg(rows(read(path.read_bytes(), str(path))))
        for title in ("Q1 BC547, pin C", "U1A LM358, pin +", "R1 10k, pin 1", "R2"):
            self.assertIn(f"<title>{title}</title>", text)
        part = Part("U1", "x", Kind.BOX, [Pin("1", "GND", WEST), Pin("2", "GND", WEST), Pin("3", "IN", WEST)])
        self.assertEqual([title_of(part, pin) for pin in part.pins], ["U1 x, pin GND (1)", "U1 x, pin GND (2)", "U1 x, pin IN"])

    def test_kinds_that_are_turned_over(self) -> None:
        self.assertEqual(TURNED_OVER, {Kind.OPAMP, Kind.GATE, Kind.MUX})
        part = Part("U1", "x", Kind.OPAMP, [Pin("1", "", EAST), Pin("3", "+", WEST), Pin("2", "-", WEST)])
        plus = [shape_of(part, Pose(0, mirror, True)).pins[1] for mirror in (False, True)]
        self.assertEqual(plus, [(-27.0, -12.0), (-27.0, 12.0)])


if __name__ == "__main__":
    unittest.main()
