"""Readers of circuits: hand-written files whose content follows from the formats' descriptions, the boards and the counts of
KiCad's demonstration sheets, yosys's own netlists, faults by their words and lines, and damaged files."""
from __future__ import annotations

import collections
import doctest
import json
import random
import shutil
import subprocess
import tempfile
import unittest
from pathlib import Path
from typing import Any

import support
from schematic_judge import judge, judge_alone
from schematic_oracle import lists, sub
from schematic_rows import rows

from planarbend.schematics import readers
from planarbend.schematics.flags import split
from planarbend.schematics.names import is_ground, is_negative, is_power
from planarbend.schematics.parts import EAST, NORTH, SOUTH, WEST, Kind, Part, Pin, Sheet, mirrored
from planarbend.schematics.readers import FORMS, ReadError, read
from planarbend.schematics.readers.kicad_page import Placed
from planarbend.schematics.readers.kicad_sheet import by_arrow
from planarbend.schematics.readers.kicad_symbols import LibraryPin, Symbol
from planarbend.schematics.readers.kicad_wires import Lines
from planarbend.schematics.readers.kinds import kind_of

FILES = support.TESTS / "schematics"
DEMOS = Path("/usr/share/kicad/demos")
# Parts and flags, nets, and rectangles with wires, as counted by another program.
SHEETS = {
    "simulation/sallen_key/sallen_key": (8, 8, 12, 1), "simulation/laser_driver/laser_driver": (13, 10, 16, 1),
    "complex_hierarchy/ampli_ht": (30, 16, 37, 4), "ecc83/ecc83-pp_v2": (17, 7, 15, 7), "pic_programmer/pic_programmer": (54, 57, 85, 9),
    "sonde xilinx/sonde xilinx": (31, 26, 50, 11), "video/modul": (39, 40, 66, 2), "stickhub/StickHub": (89, 146, 186, 19),
    "interf_u/interf_u": (24, 240, 260, 10), "test_xil_95108/carte_test": (47, 190, 210, 17)}
# Here that program left out ports (4 and 6) or labels (2), or joined a wire that ends on another one without a junction (a net).
OTHERWISE = {"pic_programmer/pic_sockets": (7, 13 + 4, 17, 5), "electric/electric": (97, 33, 90 + 1, 20),
             "video/esvideo": (29, 117 + 6 + 2, 142, 2)}
BOARDS = {"stickhub/StickHub": 45, "interf_u/interf_u": 110, "test_xil_95108/carte_test": 83, "sonde xilinx/sonde xilinx": 26,
          "ecc83/ecc83-pp_v2": 9}  # and their nets of two pins or more that are on the sheet
MODULES = {"fulladd": (10, 5), "adder2": (18, 10), "counter": (20, 15), "lfsr": (11, 7), "traffic": (47, 27), "alu": (18, 11),
           "traffic_gates": (36, 32)}  # parts with flags, and rectangles
SYNTHESIS = {
    "fulladd": "synth; abc -g AND,OR,XOR; clean", "adder2": "synth; abc -g AND,OR,XOR,NAND; clean",
    "counter": "synth; abc -g AND,OR,XOR,NAND; clean", "lfsr": "synth; abc -g AND,OR,XOR; clean", "traffic": "proc; opt; clean",
    "alu": "proc; opt; clean", "traffic_gates": "synth; abc -g AND,OR,XOR,NAND,NOR,MUX; clean"}
needs_demos = unittest.skipUnless(DEMOS.is_dir(), "KiCad's demonstration sheets are missing (Debian: kicad-demos)")
needs_yosys = unittest.skipUnless(shutil.which("yosys"), "yosys is missing (Debian: yosys)")


def of(name: str, inner: str | None = None) -> Sheet:
    """The sheet of one of the files."""
    path = FILES / name
    return read(path.read_bytes(), str(path), inner=inner)


def text(lines: str, inner: str | None = None) -> Sheet:
    """The sheet of a SPICE netlist, without its title."""
    return read(("title\n" + lines).encode(), "circuit.cir", "spice", inner)


def pins(part: Part) -> list[tuple[str, str, int, str | None]]:
    return [(pin.number, pin.name, pin.side, pin.net) for pin in part.pins]


def by_ref(sheet: Sheet) -> dict[str, Part]:
    return {part.ref: part for part in sheet.parts if not part.is_flag}


def flags(sheet: Sheet) -> list[tuple[Kind, str, str | None]]:
    return [(part.kind, part.value, part.pins[0].net) for part in sheet.parts if part.is_flag]


def joined(sheet: Sheet, net: str) -> set[tuple[str, str]]:
    """The pins at a net, and the flags by their texts and the number 1."""
    return {(sheet.parts[part].ref, sheet.parts[part].pins[pin].number) for part, pin in sheet.ends()[net]}


class Case(unittest.TestCase):
    def refused(self, data: str | bytes, words: str, line: int | None = None, form: str | None = None, inner: str | None = None,
                name: str = "input") -> None:
        """Looks that a file is refused by these words, and by this line."""
        with self.assertRaisesRegex(ReadError, words) as caught:
            read(data.encode() if isinstance(data, str) else data, name, form, inner)
        self.assertEqual((caught.exception.file, caught.exception.line), (name, line))


class KiCad(Case):
    """`two_units.kicad_sch`: places of pins follow from those in the library, turned, mirrored, then moved."""

    def setUp(self) -> None:
        self.sheet = of("two_units.kicad_sch")
        self.parts = by_ref(self.sheet)

    def test_parts_and_kinds(self) -> None:
        self.assertEqual({ref: part.kind for ref, part in self.parts.items()}, {
            "U1A": Kind.OPAMP, "U1B": Kind.OPAMP, "R1": Kind.RESISTOR, "R2": Kind.RESISTOR, "R3": Kind.RESISTOR, "Q1": Kind.NPN,
            "Q2": Kind.BOX, "Q3": Kind.PNP})
        self.assertEqual([self.parts[ref].value for ref in ("U1A", "R1", "R2")], ["LM358", "10k", ""])

    def test_sides_are_those_of_the_library(self) -> None:
        self.assertEqual([pin[:3] for pin in pins(self.parts["U1B"])],
                         [("7", "", EAST), ("8", "V+", NORTH), ("5", "+", WEST), ("6", "-", WEST), ("4", "V-", SOUTH)])
        self.assertEqual([pin[:3] for pin in pins(self.parts["Q1"])], [("1", "C", NORTH), ("2", "B", WEST), ("3", "E", SOUTH)])
        self.assertEqual([pin.etype for pin in self.parts["U1A"].pins], ["output", "power_in", "input", "input", "power_in"])

    def test_wires_junctions_and_labels_join(self) -> None:
        self.assertEqual(joined(self.sheet, "OUT"), {("U1A", "1"), ("U1A", "2"), ("R1", "1")})
        self.assertEqual(joined(self.sheet, "Net-(U1B-5)"), {("R1", "2"), ("U1B", "5")})  # U1B is mirrored
        self.assertEqual(joined(self.sheet, "IN"), {("U1A", "3"), ("IN", "1")})

    def test_power_symbols(self) -> None:
        self.assertEqual(joined(self.sheet, "GND"), {("U1A", "4"), ("U1B", "4"), ("R2", "2"), ("R3", "2")})
        self.assertEqual(joined(self.sheet, "VCC"), {("U1A", "8"), ("U1B", "8")})
        self.assertTrue(self.sheet.nets["GND"].is_power)
        self.assertFalse(self.sheet.nets["OUT"].is_power)

    def test_a_net_that_labels_join_has_flags_at_its_pieces(self) -> None:
        self.assertEqual(flags(self.sheet), [(Kind.INPUT, "IN", "IN"), (Kind.LABEL, "OUT2", "OUT2 1"), (Kind.LABEL, "OUT2", "OUT2 2")])
        self.assertEqual(joined(self.sheet, "OUT2 1"), {("U1B", "6"), ("OUT2", "1")})
        self.assertEqual({net.name for net in self.sheet.nets.values()}, {"OUT", "OUT2", "IN", "GND", "VCC", "Net-(U1B-5)", "Net-(Q1-3)"})

    def test_what_does_not_join(self) -> None:
        self.assertIsNone(pins(self.parts["R2"])[0][3])  # a mark says so
        self.assertIsNone(pins(self.parts["R3"])[0][3])  # its wire ends on another one without a junction
        self.assertIn("a wire ends on another one at (100.19, 118) without a junction: they are not joined", self.sheet.notes)

    def test_polarity_is_not_guessed(self) -> None:
        self.assertIn("Q2: a box, since the file does not say whether it is NPN or PNP", self.sheet.notes)

    def test_hidden_pins_are_noted(self) -> None:
        whole = (FILES / "two_units.kicad_sch").read_text()
        place = whole.index('(name "V+"')
        start = whole.rindex("(length 2.54)", 0, place)
        sheet = read((whole[:start] + "(length 2.54) hide" + whole[start + 13:]).encode(), "x.kicad_sch")
        self.assertEqual([pin.number for pin in by_ref(sheet)["U1A"].pins], ["1", "3", "2", "4"])
        self.assertIn("U1A: pins that the file hides are not drawn: V+ (8)", sheet.notes)

    def test_labels_have_precedence(self) -> None:
        whole = (FILES / "two_units.kicad_sch").read_text()
        local = '(label "LOCAL" (at 90 97.46 0))\n  (hierarchical_label "IN"'
        sheet = read(whole.replace('(hierarchical_label "IN"', local).encode(), "x.kicad_sch")
        self.assertEqual(joined(sheet, "IN"), {("U1A", "3"), ("IN", "1")})

    def test_arrows_of_field_effect_transistors(self) -> None:
        def kind(words: str, tip: tuple[int, int], back: tuple[int, int], sides: tuple[int, int, int] = (NORTH, WEST, SOUTH)) -> Kind | None:
            points = ((25, 50), (-50, 0), (25, -50))
            found = [(LibraryPin(Pin(name, name, side), at, 1, 1, False), at) for name, side, at in zip("DGS", sides, points)]
            return by_arrow(Placed(Symbol(words, False, {}, arrows=[((10, 5), (10, 0)), (tip, back)]), "Q1", "", found), "G", Kind.NMOS, Kind.PMOS)

        self.assertIs(kind("MOSFET", (0, 0), (8, 0)), Kind.NMOS)  # it points to the gate; the diode before it is left out
        self.assertIs(kind("MOSFET", (8, 0), (0, 0)), Kind.PMOS)
        self.assertIsNone(kind("J310", (0, 0), (8, 0)))  # a junction transistor has its arrow elsewhere
        self.assertIsNone(kind("MOSFET", (0, 0), (8, 0), (NORTH, WEST, EAST)))

    def test_wishes(self) -> None:
        self.assertEqual([self.parts[ref].upright for ref in ("U1A", "Q1", "R1", "Q2")], [20.0, 1.6, 0.0, 20.0])
        self.assertEqual([self.parts[ref].mirror for ref in ("U1A", "Q1", "R1", "Q2")], [True, True, False, False])

    def test_a_pin_in_another_function(self) -> None:
        whole = (FILES / "two_units.kicad_sch").read_text()
        listed = '(name "C" (effects (font (size 1.27 1.27))))'
        whole = whole.replace(listed, listed + ' (alternate "COLLECTOR" output inverted)', 1)
        place = whole.index('"Q1"')
        whole = whole[:place] + whole[place:].replace("))\n  (symbol", ') (pin "1" (alternate "COLLECTOR")))\n  (symbol', 1)
        pin = next(pin for pin in by_ref(read(whole.encode(), "x.kicad_sch"))["Q1"].pins if pin.number == "1")
        self.assertEqual((pin.name, pin.etype, pin.shape), ("COLLECTOR", "output", "inverted"))

    def test_faults(self) -> None:
        whole = (FILES / "two_units.kicad_sch").read_text()
        line = whole[:whole.index('(lib_id "My:R")')].count("\n") + 1
        self.refused(whole.replace('(lib_id "My:R")', '(lib_id "My:S")', 1), "symbol My:S that the file does not describe", line)
        line = whole[:whole.index("(junction")].count("\n") + 1
        self.refused(whole.replace("(junction (at 110 100)", "(junction (at 110 1x)"), "not a number: 1x", line)
        place = whole.index("(name")
        self.refused(whole[:place], r"unclosed '\(pin': the file is cut off", whole[:whole.index("(pin")].count("\n") + 1)
        self.refused("(kicad_sch)", "there are no parts")


class Points(unittest.TestCase):
    def test_lines_through_a_point(self) -> None:
        level, upright, slanted = ((0, 0), (10, 0)), ((5, -3), (5, 10)), ((0, 0), (4, 4))
        lines = Lines([level, upright, slanted])
        self.assertEqual(lines.at((5, 0)), [level, upright])
        self.assertEqual(lines.at((5, 9)), [upright])
        self.assertEqual(lines.at((9, 0)), [level])
        self.assertEqual(lines.at((0, 0)), [level, slanted])
        self.assertEqual(lines.at((3, 3)), [slanted])
        self.assertEqual([lines.at(point) for point in ((11, 0), (5, 11), (5, -4), (-1, 0), (3, 2))], [[]] * 5)


class Hierarchy(Case):
    """`root.kicad_sch` has `inner.kicad_sch` twice, in the form of version 7."""

    def test_a_sheet_is_a_box_with_its_pins(self) -> None:
        box = by_ref(of("root.kicad_sch"))["amp"]
        self.assertEqual((box.kind, box.value), (Kind.BOX, "inner.kicad_sch"))
        self.assertEqual([(pin.name, pin.side, pin.etype) for pin in box.pins],
                         [("OUT", EAST, "output"), ("IN", WEST, "input"), ("D[0..7]", SOUTH, "bidirectional")])

    def test_names_of_fields_may_be_translated(self) -> None:
        whole = (FILES / "root.kicad_sch").read_text().replace('"Sheetname"', '"Nom feuille"').replace('"Sheetfile"', '"Fichier de feuille"')
        self.assertEqual([(part.ref, part.value) for part in read(whole.encode(), "x.kicad_sch").parts if part.kind is Kind.BOX],
                         [("amp", "inner.kicad_sch"), ("second", "inner.kicad_sch")])

    def test_wires_and_buses_join_sheets(self) -> None:
        sheet = of("root.kicad_sch")
        names = [{(sheet.parts[part].ref, sheet.parts[part].pins[pin].name) for part, pin in ends} for ends in sheet.ends().values()]
        self.assertCountEqual(names, [{("R1", ""), ("amp", "IN")}, {("amp", "OUT"), ("second", "IN")},
                                      {("amp", "D[0..7]"), ("second", "D[0..7]")}])

    def test_references_are_those_of_the_instance(self) -> None:
        for inner, wanted in (("amp", "R20"), ("second", "R30")):
            sheet = of("root.kicad_sch", inner)
            self.assertEqual(sheet.name, inner)
            self.assertEqual([part.ref for part in sheet.parts if part.kind is Kind.RESISTOR], [wanted, "R21"])
            self.assertCountEqual(flags(sheet), [(Kind.INPUT, "IN", "IN"), (Kind.OUTPUT, "OUT", "OUT")])

    def test_a_power_symbol_has_the_name_of_its_value(self) -> None:
        self.assertIn("+3.3V", of("root.kicad_sch", "amp").nets)  # its pin is called +3V3

    def test_faults(self) -> None:
        data = (FILES / "root.kicad_sch").read_bytes()
        self.refused(data, "no sheet third; it has amp, second", None, None, "third", str(FILES / "root.kicad_sch"))
        self.refused(data, "the sheet amp is in .*inner.kicad_sch: No such file", data[:data.index(b"(sheet")].count(b"\n") + 1, None,
                     "amp", "/nowhere/root.kicad_sch")
        with tempfile.TemporaryDirectory() as folder:
            (Path(folder) / "inner.kicad_sch").write_text("(kicad_sch\n(wire (pts (xy 1)))")
            with self.assertRaises(ReadError) as caught:
                read(data, folder + "/root.kicad_sch", inner="amp")
            self.assertEqual((caught.exception.file, caught.exception.line), (folder + "/inner.kicad_sch", 1))


class Netlist(Case):
    """`stage.net` has the pins of its parts, but no sides."""

    def setUp(self) -> None:
        self.sheet = of("stage.net")
        self.parts = by_ref(self.sheet)

    def test_kinds(self) -> None:
        self.assertEqual({ref: part.kind for ref, part in self.parts.items()}, {
            "C1": Kind.POLARIZED, "D1": Kind.LED, "J1": Kind.BOX, "Q1": Kind.PNP, "Q2": Kind.BOX, "R1": Kind.RESISTOR, "U1": Kind.OPAMP,
            "U2": Kind.BOX})

    def test_sides(self) -> None:
        sides = {ref: {pin.number: pin.side for pin in part.pins} for ref, part in self.parts.items()}
        self.assertEqual(sides["Q1"], {"1": SOUTH, "2": WEST, "3": NORTH})  # the emitter of a pnp is above
        self.assertEqual(sides["Q2"], {"1": WEST, "2": SOUTH, "3": NORTH})
        self.assertEqual(sides["U1"], {"2": WEST, "3": WEST, "4": SOUTH, "6": EAST, "7": NORTH})
        self.assertEqual(sides["J1"], {"1": EAST, "2": EAST, "3": EAST})
        self.assertEqual(sides["U2"], {"1": NORTH, "2": SOUTH, "3": WEST, "4": EAST, "5": WEST, "6": WEST, "10": EAST})

    def test_pins_are_in_order(self) -> None:
        self.assertEqual([pin.number for pin in self.parts["U2"].pins], ["10", "4", "1", "3", "5", "6", "2"])
        self.assertEqual([pin.number for pin in self.parts["J1"].pins], ["3", "2", "1"])  # 1 is above
        self.assertEqual(next(pin.name for pin in self.parts["U2"].pins if pin.number == "3"), "/RESET")

    def test_nets(self) -> None:
        self.assertEqual({key for key, net in self.sheet.nets.items() if net.is_power}, {"+5V", "GND", "-5V"})
        self.assertEqual(self.sheet.nets["/OUT"].name, "OUT")
        self.assertFalse(self.sheet.nets["Net-(D1-A)"].is_shown)
        self.assertEqual(flags(self.sheet), [(Kind.LABEL, "LONELY", "/LONELY")])
        self.assertIsNone(next(pin.net for pin in self.parts["U2"].pins if pin.number == "5"))

    def test_without_a_list_of_pins_a_transistor_is_a_box(self) -> None:
        path = support.EXAMPLES / "amplifier.net"
        sheet = read(path.read_bytes(), path.name)
        self.assertEqual(by_ref(sheet)["Q1"].kind, Kind.BOX)
        self.assertEqual(sheet.notes, ["Q1: a box, since the file does not say what its pins are"])

    def test_faults(self) -> None:
        whole = (FILES / "stage.net").read_text()
        line = whole[:whole.index('(name "+5V")')].count("\n") + 1
        self.refused(whole.replace('(ref "Q1") (pin "3")', '(ref "Q7") (pin "3")'), "net .5V has a pin of Q7, which is not a component", line)
        self.refused(whole.replace('(ref "Q1") (pin "3")', '(ref "Q1") (pin "9")'), "the pin 9 of Q1, which the file does not list", line)
        line = whole[:whole.index('(comp (ref "D1")')].count("\n") + 1
        self.refused(whole.replace('(comp (ref "D1")', '(comp (ref "C1")'), "a second component C1", line)
        self.refused(whole, "no sheets", None, None, "amp")


def module(cells: dict[str, Any], ports: dict[str, Any], names: dict[str, Any] | None = None) -> bytes:
    """The JSON of yosys for one module."""
    return json.dumps({"creator": "by hand", "modules": {"m": {"attributes": {"top": 1}, "ports": ports, "cells": cells,
                                                               "netnames": names or {}}}}, indent=1).encode()


def cell(kind: str, parameters: dict[str, str] | None = None, **ports: tuple[str, list[Any]]) -> dict[str, Any]:
    """A cell: for each port its direction, i or o, and its bits."""
    words = {"i": "input", "o": "output", "b": "inout"}
    return {"hide_name": 0, "type": kind, "parameters": parameters or {}, "port_directions": {port: words[way] for port, (way, _) in ports.items()},
            "connections": {port: bits for port, (_, bits) in ports.items()}}


class Yosys(Case):
    PORTS = {"a": {"direction": "input", "bits": [2, 3, 4, 5]}, "b": {"direction": "input", "bits": [6]},
             "y": {"direction": "output", "bits": [7]}}

    def sheet(self, cells: dict[str, Any], ports: dict[str, Any] | None = None, names: dict[str, Any] | None = None) -> Sheet:
        return read(module(cells, ports or self.PORTS, names), "m.json")

    def test_ports_are_flags_and_gates_have_forms(self) -> None:
        sheet = self.sheet({"g": cell("$_NAND_", A=("i", [6]), B=("i", [8]), Y=("o", [7])), "h": cell("$_NOT_", A=("i", [6]), Y=("o", [8]))})
        gate = by_ref(sheet)["g"]
        self.assertEqual((gate.kind, gate.form), (Kind.GATE, "nand"))
        self.assertEqual([(pin.number, pin.side, pin.shape) for pin in gate.pins],
                         [("Y", EAST, "inverted"), ("A", WEST, "line"), ("B", WEST, "line")])
        self.assertEqual(gate.swaps, [[1, 2]])
        self.assertEqual([(kind, name) for kind, name, _ in flags(sheet)], [(Kind.INPUT, "a"), (Kind.INPUT, "b"), (Kind.OUTPUT, "y")])
        self.assertEqual(joined(sheet, "b"), {("b", "1"), ("g", "A"), ("h", "A")})

    def test_a_slice_and_a_concatenation_are_boxes(self) -> None:
        sheet = self.sheet({"c": cell("$add", A=("i", [6, 4, 3, "0", "1"]), B=("i", [2, 3, 4, 5]), Y=("o", [7]))})
        bundle = next(part for part in sheet.parts if part.ref.startswith("bundle"))
        self.assertEqual([(pin.number, pin.name, pin.side) for pin in bundle.pins], [
            ("Y", "", EAST), ("4:3", "4:3", WEST), ("2", "2 [1]", WEST), ("1", "1 [2]", WEST), ("0", "0", WEST)])
        self.assertEqual([part.value for part in sheet.parts if part.kind is Kind.CONST], ["2'b10"])
        self.assertEqual([pin.net for pin in bundle.pins][2:], ["a", "a", "b"])
        self.assertEqual(by_ref(sheet)["c"].form, "+")

    def test_constants(self) -> None:
        cells = {"c": cell("x", A=("i", ["x", "x"]), B=("i", ["0", "1", "z"]), C=("i", ["1"]), D=("i", ["1"] + ["0"] * 31),
                           E=("i", ["1"] * 17), F=("i", [6]))}
        values = {part.value for part in self.sheet(cells).parts if part.kind is Kind.CONST}
        self.assertEqual(values, {"2'bx", "3'bz10", "1", "32'd1", "17'h1ffff"})

    def test_flip_flops_and_multiplexers(self) -> None:
        ports = {"D": ("i", [8]), "C": ("i", [6]), "E": ("i", [2]), "R": ("i", [3]), "Q": ("o", [7])}
        sheet = self.sheet({"f": cell("$_SDFFE_NP0N_", **ports), "m": cell("$_NMUX_", A=("i", [4]), B=("i", [5]), S=("i", [6]), Y=("o", [8]))})
        flop, mux = by_ref(sheet)["f"], by_ref(sheet)["m"]
        self.assertEqual((flop.kind, mux.kind), (Kind.DFF, Kind.MUX))
        self.assertEqual({pin.number: (pin.side, pin.shape) for pin in flop.pins}, {
            "D": (WEST, "line"), "C": (WEST, "inverted_clock"), "E": (WEST, "inverted"), "R": (SOUTH, "line"), "Q": (EAST, "line")})
        self.assertEqual([(pin.number, pin.name, pin.side, pin.shape) for pin in mux.pins], [
            ("Y", "", EAST, "inverted"), ("A", "0", WEST, "line"), ("B", "1", WEST, "line"), ("S", "", SOUTH, "line")])

    def test_polarities_of_words(self) -> None:
        sheet = self.sheet({"f": cell("$adff", {"CLK_POLARITY": "0", "ARST_POLARITY": "1"}, D=("i", [2]), CLK=("i", [6]), ARST=("i", [3]),
                                      Q=("o", [7]))})
        self.assertEqual({pin.number: pin.shape for pin in by_ref(sheet)["f"].pins},
                         {"D": "line", "CLK": "inverted_clock", "ARST": "line", "Q": "line"})

    def test_bits_that_nothing_drives_have_a_label(self) -> None:
        names = {"open": {"hide_name": 0, "bits": [9], "attributes": {}}}
        sheet = self.sheet({"g": cell("$_NOT_", A=("i", [9]), Y=("o", [7]))}, names=names)
        self.assertIn((Kind.LABEL, "open", "open"), flags(sheet))
        for bits, made in (([9, 10], "g.A"), ([6, 9, 10], "g.A[2:1]"), ([9, 6], "g.A[0]")):
            sheet = self.sheet({"g": cell("$neg", A=("i", bits), Y=("o", [7]))})
            self.assertEqual([name for kind, name, _ in flags(sheet) if kind is Kind.LABEL], [made])

    def test_an_instance_takes_directions_from_its_module(self) -> None:
        whole = json.loads(module({"u": {**cell("sub", p=("i", [6]), q=("o", [7])), "port_directions": {}}}, self.PORTS))
        whole["modules"]["sub"] = {"attributes": {}, "ports": {"p": {"direction": "input", "bits": [2]}, "q": {"direction": "output", "bits": [3]}},
                                   "cells": {}, "netnames": {}}
        part = by_ref(read(json.dumps(whole).encode(), "m.json"))["u"]
        self.assertEqual((part.kind, part.value), (Kind.BOX, "sub"))
        self.assertEqual([(pin.name, pin.side) for pin in part.pins], [("q", EAST), ("p", WEST)])

    def test_faults(self) -> None:
        data = module({"g": cell("$_NOT_", A=("i", [9]), Y=("o", [7]))}, self.PORTS)
        self.refused(data[:-30], "not JSON: ", data[:-30].count(b"\n") + 1)
        line = data[:data.index(b'"g"')].count(b"\n") + 1
        self.refused(data.replace(b'"$_NOT_"', b"7"), "the cell g has no type", line)
        self.refused(data.replace(b"       9\n", b'       "q"\n'), "g has a bit that is neither a number nor a constant: q", line)
        self.refused(data, "no module n; there are m", None, None, "n")
        whole = json.loads(data)
        whole["modules"]["n"] = {**whole["modules"]["m"]}
        for one in whole["modules"].values():
            one["attributes"] = {}
        self.refused(json.dumps(whole), "2 modules, of which none is the top: m, n")
        self.refused('{"creator": "yosys", "modules": {}}', "there are no modules")


class Spice(Case):
    def test_elements(self) -> None:
        parts = by_ref(of("nand.cir"))
        self.assertEqual({ref: (part.kind, part.form) for ref, part in parts.items()}, {
            "M1": (Kind.PMOS, ""), "M2": (Kind.PMOS, ""), "M3": (Kind.NMOS, ""), "M4": (Kind.NMOS, ""), "C1": (Kind.CAPACITOR, ""),
            "I1": (Kind.SOURCE, "current"), "J1": (Kind.NJF, ""), "G1": (Kind.BOX, ""), "E2": (Kind.SOURCE, "controlled voltage"),
            "L1": (Kind.INDUCTOR, "")})
        self.assertEqual(pins(parts["M1"]), [("S,B", "S", NORTH, "vdd"), ("G", "G", WEST, "a"), ("D", "D", SOUTH, "y")])
        self.assertEqual(pins(parts["M3"]), [("B", "B", EAST, "0"), ("D", "D", NORTH, "y"), ("G", "G", WEST, "a"), ("S", "S", SOUTH, "n1")])
        self.assertEqual(pins(parts["G1"]), [("-", "-", EAST, "0"), ("+", "+", EAST, "y"), ("C+", "C+", WEST, "a"), ("C-", "C-", WEST, "b")])
        self.assertEqual((parts["E2"].value, len(parts["E2"].pins)), ("VALUE={V(y) * 2}", 2))

    def test_continued_lines_and_comments(self) -> None:
        parts = by_ref(of("amplifier.cir"))
        self.assertEqual([(ref, part.value) for ref, part in parts.items()], [
            ("Vcc", "DC 12"), ("Vin", "SIN(0 10m 1k)"), ("C1", "1u"), ("R1", "47k"), ("R2", "10k"), ("RC", "4k7"), ("RE", "1k"), ("Q1", "BC547"),
            ("C2", "1u"), ("RL", "10k")])
        self.assertEqual(pins(parts["Q1"]), [("C", "C", NORTH, "c"), ("B", "B", WEST, "b"), ("E", "E", SOUTH, "e")])

    def test_ground_has_several_names_and_letters_have_no_case(self) -> None:
        sheet = text("R1 Node GND 1\nR2 NODE 0 1\nR3 node gnd 1\n")
        self.assertEqual(set(sheet.nets), {"Node", "0"})
        self.assertEqual(joined(sheet, "Node"), {("R1", "1"), ("R2", "1"), ("R3", "1")})

    def test_subcircuits(self) -> None:
        box = by_ref(of("ring.cir"))["X2"]
        self.assertEqual((box.kind, box.value), (Kind.BOX, "inverter"))
        self.assertEqual(pins(box), [("2", "out", EAST, "c"), ("3", "vdd", NORTH, "vdd"), ("1", "in", WEST, "b"), ("4", "gnd", SOUTH, "0")])
        inside = of("ring.cir", "INVERTER")
        self.assertEqual({ref: part.kind for ref, part in by_ref(inside).items()}, {"M1": Kind.NMOS, "M2": Kind.PMOS})
        self.assertEqual(flags(inside), [(Kind.LABEL, "in", "in"), (Kind.LABEL, "out", "out")])
        self.assertEqual([part.value for part in by_ref(inside).values()], ["NM W={width} L=0.35u", "PM W={width*2} L=0.35u"])

    def test_a_subcircuit_that_is_not_defined_is_a_box_with_numbers(self) -> None:
        sheet = text("X1 a b c thing w=1 l = 2\nR1 a b 1\nR2 b c 1")
        self.assertEqual([(pin.number, pin.name) for pin in by_ref(sheet)["X1"].pins], [("3", ""), ("1", ""), ("2", "")])
        self.assertIn("the file does not define thing", sheet.notes[0])

    def test_models_settle_polarity(self) -> None:
        sheet = text("Q1 c b e 0 up 2\nQ2 c b e what\n.model up PNP\n")
        self.assertEqual(pins(by_ref(sheet)["Q1"])[0], ("S", "S", EAST, "0"))
        self.assertEqual([by_ref(sheet)[ref].kind for ref in ("Q1", "Q2")], [Kind.PNP, Kind.BOX])
        self.assertEqual(sheet.notes, ["Q2: a box, since the file does not say what the model what is"])

    def test_sources_that_are_controlled(self) -> None:
        sheet = text("B1 a 0 V={V(b)}\nB2 b 0 I = {V(a)}\nF1 a b V1 2\nH1 b 0 V1 3\nG1 a b VALUE={1}\nS1 a b c d sw\nW1 a b V1 sw\n"
                     "T1 a 0 b 0 z0=50\nR1 c d 1\nV1 a 0 1\n")
        parts = by_ref(sheet)
        self.assertEqual({ref: part.form for ref, part in parts.items() if part.kind is Kind.SOURCE}, {
            "B1": "controlled voltage", "B2": "controlled current", "F1": "controlled current", "H1": "controlled voltage",
            "G1": "controlled current", "V1": "voltage"})
        self.assertEqual(pins(parts["B1"]), [("+", "+", NORTH, "a"), ("-", "-", SOUTH, "0")])
        self.assertEqual(pins(parts["S1"]), [("-", "-", EAST, "b"), ("+", "+", EAST, "a"), ("C+", "C+", WEST, "c"), ("C-", "C-", WEST, "d")])
        self.assertEqual((parts["W1"].kind, pins(parts["W1"])), (Kind.TWO, [("2", "", EAST, "b"), ("1", "", WEST, "a")]))
        self.assertEqual([pin.name for pin in parts["T1"].pins], ["2-", "2+", "1+", "1-"])

    def test_other_encodings(self) -> None:
        self.assertEqual(by_ref(read("t\nC1 a 0 1\u00b5\nR1 a 0 1\n.end".encode("latin-1"), "x.cir"))["C1"].value, "1\u00b5")

    def test_polynomial_sources(self) -> None:
        part = by_ref(text("E1 a 0 POLY(2) b 0 c 0 0 1 1\nR1 a b 1\nR2 b c 1"))["E1"]
        self.assertEqual([pin.name for pin in part.pins], ["-", "+", "C1+", "C1-", "C2+", "C2-"])

    def test_what_is_not_read_is_noted(self) -> None:
        self.assertEqual(text(".include models.lib\nR1 a 0 1\nK1 L1 L2 0.9").notes,
                         ["line 2: models.lib is not read", "K1: couplings of inductors are not drawn"])
        self.assertEqual(read(b"R1 a 0 1\nR2 a 0 1\n", "x.cir").notes, ["line 1 is the title, as in every SPICE netlist, and not drawn"])

    def test_faults(self) -> None:
        for lines, words, line in (
                ("R1 a", "R1 needs 2 nodes", 2), ("R1 a 0 1\n\nR1 a 0 1", "a second element R1", 4), ("Q1 a b", "Q1 needs 3 nodes and a model", 2),
                ("*\n+ more", "a continuation line with no line before it", 3), (".subckt s a\nR1 a 0 1", ".subckt s without .ends", 2),
                (".ends", ".ends without .subckt", 2), ("Z1 a b c", "unknown kind of element: Z1", 2),
                (".subckt s a b\nR1 a b 1\n.ends\nX1 c s", "X1 has 1 nodes, and s has 2", 5), (".model q", "a model without its name or type", 2),
                (".subckt s a\n.ends\n.subckt S b\n.ends", "a second subcircuit S", 4)):
            self.refused("title\n" + lines, words, line, "spice")
        self.refused("title\n.end\n", "the circuit has no elements", None)
        self.refused("title\n.subckt s a\nR1 a 0 1\n.ends\n", "no elements outside its subcircuits s")
        self.refused("title\nR1 a 0 1\n", "no subcircuit t", None, "spice", "t")


class Kinds(unittest.TestCase):
    """Kinds by what a library says: its part's name, keywords and description."""

    def kind(self, words: str, prefix: str, *ends: tuple[str, int, str] | tuple[str, int]) -> tuple[Kind, str]:
        listed = [Pin(str(place), name, side, *more) for place, (name, side, *more) in enumerate(ends)]
        return kind_of(words, prefix, listed)

    def test_two_pins(self) -> None:
        for words, prefix, names, wanted in (
                ("R", "R", "", (Kind.RESISTOR, "")), ("R_Small_US", "R", "", (Kind.RESISTOR, "")), ("C", "C", "", (Kind.CAPACITOR, "")),
                ("C_Polarized", "C", "", (Kind.POLARIZED, "")), ("CP", "C", "", (Kind.POLARIZED, "")), ("CP1_Small", "C", "", (Kind.POLARIZED, "")),
                ("C Unpolarized capacitor", "C", "", (Kind.CAPACITOR, "")), ("CPU", "C", "", (Kind.CAPACITOR, "")), ("X", "C", "+-", (Kind.POLARIZED, "")),
                ("L", "L", "", (Kind.INDUCTOR, "")), ("D", "D", "KA", (Kind.DIODE, "")), ("D", "D", "", (Kind.TWO, "")),
                ("D_Zener", "D", "KA", (Kind.DIODE, "zener")), ("D_Schottky", "D", "AK", (Kind.DIODE, "schottky")),
                ("LED", "D", "KA", (Kind.LED, "")), ("D_LED_x", "D", "KA", (Kind.LED, "")), ("LEDGER", "D", "KA", (Kind.DIODE, "")),
                ("D_TVS", "D", "AA", (Kind.TWO, "tvs")), ("SW_TVS", "SW", "", (Kind.TWO, "")), ("Crystal", "Y", "", (Kind.CRYSTAL, "")), ("VSOURCE", "V", "", (Kind.SOURCE, "")),
                ("Fuse", "F", "", (Kind.TWO, "")), ("RN", "RN", "", (Kind.TWO, ""))):
            first, second = names or ("", "")
            self.assertEqual(self.kind(words, prefix, (first, WEST), (second, EAST)), wanted, words)
        self.assertEqual(self.kind("R", "R", ("", WEST), ("", NORTH))[0], Kind.BOX)
        self.assertEqual(self.kind("R", "R", ("", WEST), ("", WEST))[0], Kind.BOX)

    def test_three_pins(self) -> None:
        for words, names, wanted in (
                ("BC547 NPN transistor", "CBE", Kind.NPN), ("Q_PNP_BCE", "CBE", Kind.PNP), ("BC547", "CBE", Kind.BOX), ("PNPX", "CBE", Kind.BOX),
                ("Q_NMOS_GDS", "DGS", Kind.NMOS), ("IRF9540 P-Channel MOSFET", "DGS", Kind.PMOS), ("J310 N-JFET", "DGS", Kind.NJF),
                ("J176 P-channel JFET", "DGS", Kind.PJF), ("JFET", "DGS", Kind.BOX), ("NPN", "DGS", Kind.BOX)):
            first, middle, last = names
            self.assertEqual(self.kind(words, "Q", (first, NORTH), (middle, WEST), (last, SOUTH))[0], wanted, words)
        self.assertEqual(self.kind("NPN", "Q", ("C", NORTH), ("B", EAST), ("E", WEST))[0], Kind.BOX)  # base and emitter opposite
        self.assertEqual(self.kind("POT", "RV", ("1", NORTH), ("2", EAST), ("3", SOUTH))[0], Kind.POT)
        self.assertEqual(self.kind("POT", "RV", ("1", NORTH), ("2", EAST), ("3", SOUTH), ("4", SOUTH))[0], Kind.BOX)
        self.assertEqual(self.kind("Thermistor", "RV", ("1", NORTH), ("2", EAST), ("3", SOUTH))[0], Kind.BOX)

    def test_opamps(self) -> None:
        plus, minus, out = ("+", WEST, "input"), ("-", WEST, "input"), ("", EAST, "output")
        self.assertEqual(self.kind("LM358", "U", plus, minus, out)[0], Kind.OPAMP)
        self.assertEqual(self.kind("LM358", "U", plus, minus, out, ("V+", NORTH, "power_in"), ("V-", SOUTH, "power_in"))[0], Kind.OPAMP)
        self.assertEqual(self.kind("LM318", "U", plus, minus, out, ("V+", NORTH, "power_in"), ("B", NORTH, "input"))[0], Kind.BOX)
        self.assertEqual(self.kind("LM358", "U", plus, ("-", WEST, "passive"), out)[0], Kind.BOX)
        self.assertEqual(self.kind("LM358", "U", plus, minus, ("", EAST, "passive"))[0], Kind.BOX)
        self.assertEqual(self.kind("LM358", "U", plus, ("IN", WEST, "input"), out)[0], Kind.BOX)

    def test_gates(self) -> None:
        ins, out, low = [("", WEST, "input")] * 2, ("", EAST, "output"), ("", EAST, "output", None, "inverted")
        for words, ends, wanted in (
                ("74HC00", [*ins, low], "nand"), ("SN74LS32N", [*ins, out], "or"), ("74HC86", [*ins, out], "xor"), ("4001", [*ins, low], "nor"),
                ("CD4081B", [*ins, out], "and"), ("74HC04", [ins[0], low], "not"), ("40106", [ins[0], low], "not"), ("74HC00", [*ins, out], ""),
                ("74HC04", [*ins, low], ""), ("74HC574", [*ins, out], ""), ("X quad 2-input NAND gate", [*ins, low], "nand"),
                ("X hex inverter", [ins[0], low], "not"), ("X dual 2-input exclusive-or", [*ins, out], "xor"), ("android", [*ins, out], ""),
                ("74LS125", [ins[0], out, ("", SOUTH, "input", None, "inverted")], "buffer"),
                ("74HC08", [*ins, out, ("", NORTH, "power_in"), ("", NORTH, "power_in")], ""), ("74HC08", [*ins, out, out], ""),
                ("74HC08", [ins[0], ("", WEST, "passive"), out], ""), ("74HC08", [*ins, ("", EAST, "passive")], "")):
            found = self.kind(words, "U", *ends)
            self.assertEqual(found, (Kind.GATE, wanted) if wanted else (found[0], ""), words)
            self.assertEqual(found[0] is Kind.GATE, bool(wanted), words)

    def test_names_of_power_nets(self) -> None:
        for name in ("GND", "AGND", "GNDA", "GND1", "0", "V_GND", "EARTH", "+5V", "+3.3V", "3V3", "VCC", "VDD_IO", "-12V", "VSS", "VEE", "V+", "AVDD",
                     "+1V8", "-VAA", "5V"):
            self.assertTrue(is_power(name), name)
        for name in ("OUT", "IN+", "VIN", "1", "N5", "V1", "SIG", "RESET", "5VOLTAGE", "GNASH", "VC"):
            self.assertFalse(is_power(name), name)
        self.assertEqual([is_negative(name) for name in ("-12V", "-VAA", "VSS", "+12V", "VDD", "GND")], [True, True, True, False, False, False])
        self.assertEqual([is_ground(name) for name in ("GND", "VSS", "DGND", "-5V")], [True, False, True, False])


class Forms(Case):
    def test_examples_in_docstrings(self) -> None:
        found = doctest.testmod(readers)
        self.assertEqual((found.failed, found.attempted), (0, 2))

    def test_the_form_is_found(self) -> None:
        for name, form in (("two_units.kicad_sch", "schematic"), ("stage.net", "netlist"), ("counter.json", "yosys"), ("ring.cir", "spice")):
            data = (FILES / name).read_bytes()
            self.assertEqual(read(data, str(FILES / "x")).parts, read(data, str(FILES / "x"), form).parts)

    def test_foreign_files(self) -> None:
        self.refused("", "empty")
        self.refused("a -- b\n", "neither a KiCad schematic")
        self.refused(b"\x89PNG", "PNG", 1)
        self.refused("(kicad_pcb)", "neither a KiCad schematic")
        with self.assertRaises(ValueError):
            read(b"", "x", "pdf")
        self.assertEqual(FORMS, ("schematic", "netlist", "yosys", "spice"))


class Flags(Case):
    def test_power_nets_have_a_flag_at_each_pin(self) -> None:
        sheet = split(of("stage.net"))
        counted = collections.Counter((kind, name) for kind, name, _ in flags(sheet))
        self.assertEqual(counted, {(Kind.SUPPLY, "+5V"): 4, (Kind.GROUND, "GND"): 4, (Kind.SUPPLY, "-5V"): 2, (Kind.LABEL, "LONELY"): 1})
        self.assertTrue(all(len(ends) == 2 for ends in sheet.ends().values() if sheet.parts[ends[-1][0]].is_flag))

    def test_large_nets_have_labels(self) -> None:
        circuit = text("".join(f"R{number} hub n{number} 1\nC{number} n{number} 0 1\n" for number in range(9)))
        self.assertEqual(sum(kind is Kind.LABEL for kind, *_ in flags(split(circuit))), 9)
        self.assertEqual(sum(kind is Kind.LABEL for kind, *_ in flags(split(circuit, 9))), 0)
        self.assertEqual(sum(kind is Kind.LABEL for kind, *_ in flags(split(circuit, None))), 0)
        self.assertEqual(flags(split(circuit, 8, ["hub", "0"])), [(Kind.GROUND, "0", "0")])

    def test_pieces_of_a_wired_net_are_one(self) -> None:
        sheet = split(of("two_units.kicad_sch"), 8, ["OUT2"])
        self.assertEqual(joined(sheet, "OUT2 1"), {("U1B", "6"), ("U1B", "7")})
        self.assertNotIn("OUT2 2", sheet.nets)

    def test_a_negative_supply_is_below(self) -> None:
        sides = {part.value: part.pins[0].side for part in split(of("stage.net")).parts if part.kind is Kind.SUPPLY}
        self.assertEqual(sides, {"+5V": SOUTH, "-5V": NORTH})

    def test_mirroring_twice_changes_nothing(self) -> None:
        for sheet in map(of, ("two_units.kicad_sch", "stage.net", "counter.json", "nand.cir")):
            for part in sheet.parts:
                self.assertEqual(mirrored(mirrored(part)), part)
                self.assertEqual([pin.side for pin in mirrored(part).pins], sorted(pin.side for pin in mirrored(part).pins))


class Drawn(Case):
    """Each file in a drawing without wires from part to part: readers, symbols and the judge agree."""

    def accepted(self, path: Path, form: str, inner: str | None = None, turn: int = 0, mirror: bool = False) -> None:
        drawing = json.loads(rows(read(path.read_bytes(), str(path), form, inner), turn, mirror).json())
        self.assertEqual(judge(drawing, path, form, inner).faults, [], f"{path.name} {inner} {turn} {mirror}")

    def test_hand_written_files(self) -> None:
        for name, form, inner in (("two_units.kicad_sch", "schematic", None), ("root.kicad_sch", "schematic", None),
                                  ("root.kicad_sch", "schematic", "second"), ("stage.net", "netlist", None), ("counter.json", "yosys", None),
                                  ("amplifier.cir", "spice", None), ("filter.cir", "spice", None), ("rectifier.cir", "spice", None),
                                  ("ring.cir", "spice", None), ("ring.cir", "spice", "inverter"), ("nand.cir", "spice", None)):
            for turn in range(4):
                self.accepted(FILES / name, form, inner, turn, turn % 2 == 1)
                self.accepted(FILES / name, form, inner, turn, turn % 2 == 0)


@needs_demos
class Demonstrations(Case):
    """KiCad's demonstration sheets."""

    def test_counts(self) -> None:
        for name, (parts, flag_count, nets, rectangles) in (SHEETS | OTHERWISE).items():
            path = DEMOS / f"{name}.kicad_sch"
            sheet = split(read(path.read_bytes(), str(path)), None)
            own = [part for part in sheet.parts if not part.is_flag]
            wired = [part for part in own if part.is_cage and any(pin.net for pin in part.pins)]
            self.assertEqual((len(own), len(sheet.parts) - len(own), len(sheet.nets), len(wired)), (parts, flag_count, nets, rectangles), name)

    def test_boards_have_the_same_nets(self) -> None:
        for name, count in BOARDS.items():
            sheet = read((DEMOS / f"{name}.kicad_sch").read_bytes(), str(DEMOS / f"{name}.kicad_sch"))
            mine, theirs = collections.defaultdict(set), collections.defaultdict(set)
            units = {part.ref for part in sheet.parts}
            for part in sheet.parts:
                ref = part.ref[:-1] if part.ref[-1:].isalpha() and part.ref[:-1] + "A" in units else part.ref
                for number in (number for pin in part.pins if not part.is_flag and pin.net for number in pin.number.split(",")):
                    net = next(pin.net for pin in part.pins if number in pin.number.split(","))
                    mine[sheet.nets[net or ""].name].add((ref, number))
            drawn = {pin for members in mine.values() for pin in members}
            for pin, net in pads(DEMOS / f"{name}.kicad_pcb").items():
                if pin in drawn:
                    theirs[net].add(pin)
            same = {frozenset(members) for members in mine.values() if len(members) > 1}
            self.assertEqual(same, {frozenset(members) for members in theirs.values() if len(members) > 1}, name)
            self.assertEqual(len(same), count, name)

    def test_the_judge_accepts_them(self) -> None:
        for name in ("simulation/sallen_key/sallen_key", "complex_hierarchy/ampli_ht", "sonde xilinx/sonde xilinx", "video/modul"):
            Drawn.accepted(self, DEMOS / f"{name}.kicad_sch", "schematic")  # type: ignore[arg-type]
        Drawn.accepted(self, DEMOS / "complex_hierarchy/complex_hierarchy.kicad_sch", "schematic", "ampli_ht_horizontal")  # type: ignore[arg-type]


def pads(path: Path) -> dict[tuple[str, str], str]:
    """The nets of a board's pads, by the reference of the footprint and the number of the pad."""
    board = lists(path.read_text())
    found = {}
    for one in sub(board, "footprint", "module"):
        ref = next(text[2] for text in sub(one, "fp_text", "property") if text[1].lower() == "reference")
        for pad in sub(one, "pad"):
            for net in sub(pad, "net"):
                found[ref, pad[1]] = net[-1]
    return found


@needs_yosys
class Synthesized(Case):
    """Modules that yosys makes of Verilog."""

    def test_counts_and_bits(self) -> None:
        with tempfile.TemporaryDirectory() as folder:
            for name, (count, rectangles) in MODULES.items():
                source = FILES / ("adder.v" if name in ("fulladd", "adder2") else "counter.v")
                top, out = name.removesuffix("_gates"), Path(folder) / f"{name}.json"
                script = f"read_verilog {source}; hierarchy -top {top}; {SYNTHESIS[name]}; write_json {out}"
                subprocess.run(["yosys", "-q", "-p", script], check=True, capture_output=True)
                sheet = read(out.read_bytes(), str(out))
                self.assertEqual((len(sheet.parts), sum(part.is_cage for part in sheet.parts)), (count, rectangles), name)
                Drawn.accepted(self, out, "yosys")  # type: ignore[arg-type]


class Damaged(Case):
    """A damaged file is a sheet that can be drawn, or refused in words."""

    INPUTS = ("two_units.kicad_sch", "root.kicad_sch", "inner.kicad_sch", "stage.net", "counter.json", "amplifier.cir", "filter.cir", "ring.cir",
              "nand.cir", "rectifier.cir")

    def tried(self, data: bytes, name: str) -> int:
        """Whether damaged bytes are a sheet; then it is drawn."""
        try:
            sheet = read(data, name)
        except ReadError as error:
            self.assertNotEqual(error.reason, "")
            return 0
        drawing = json.loads(rows(split(sheet)).json())
        self.assertEqual(judge_alone(drawing).faults, [], name)
        return 1

    def test_cut_files(self) -> None:
        for name in self.INPUTS:
            data = (FILES / name).read_bytes()
            for place in range(20):
                self.tried(data[:len(data) * place // 20], str(FILES / name))

    def test_exchanged_bytes(self) -> None:
        chance = random.Random(1)
        drawn = 0
        for name in self.INPUTS:
            for count in (1, 1, 1, 1, 20):
                damaged = bytearray((FILES / name).read_bytes())
                for _ in range(count):
                    one, other = chance.randrange(len(damaged)), chance.randrange(len(damaged))
                    damaged[one], damaged[other] = damaged[other], damaged[one]
                drawn += self.tried(bytes(damaged), str(FILES / name))
        self.assertGreater(drawn, 5)


if __name__ == "__main__":
    unittest.main()
