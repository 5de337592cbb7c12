"""The judge of schematics: it accepts right drawings and names each fault that is planted in one."""
from __future__ import annotations

import copy
import json
import tempfile
import unittest
from pathlib import Path
from typing import Any

import support
from schematic_judge import Verdict, judge
from schematic_rows import rows

from planarbend.schematics.readers import read

CIRCUIT = "Four resistors\nR1 b a 1\nR2 a b 1\nR3 a c 1\nR4 c d 1\n.end\n"


def resistor(ref: str, box: list[float], turn: int, pins: list[tuple[str, str | None, list[float]]]) -> dict[str, Any]:
    """A resistor: its pins are 2, on the east side, and 1, on the west side."""
    return {"ref": ref, "value": "1", "kind": "resistor", "flag": False, "form": "", "box": box, "turn": turn, "mirror": False,
            "over": False, "pins": [{"number": number, "name": "", "etype": "passive", "shape": "line", "side": side, "net": net, "at": at}
                                    for (number, net, at), side in zip(pins, (0, 2))]}


def by_hand() -> dict[str, Any]:
    """A right drawing of the circuit, with a junction, a crossing, five bends and a stub."""
    parts = [resistor("R1", [52, 94, 100, 106], 0, [("2", "a", [100, 100]), ("1", "b", [52, 100])]),
             resistor("R2", [200, 94, 248, 106], 0, [("2", "b", [248, 100]), ("1", "a", [200, 100])]),
             resistor("R3", [144, 160, 156, 208], 3, [("2", "c", [150, 208]), ("1", "a", [150, 160])]),
             resistor("R4", [260, 224, 308, 236], 0, [("2", None, [308, 230]), ("1", "c", [260, 230])])]
    wires = [("a", [[100, 100], [150, 100]]), ("a", [[150, 100], [200, 100]]), ("a", [[150, 160], [150, 100]]),
             ("b", [[52, 100], [30, 100], [30, 130], [280, 130], [280, 100], [248, 100]]), ("c", [[150, 208], [150, 230], [260, 230]])]
    return {"name": "", "size": [330, 250], "parts": parts, "nets": {net: {"name": net, "power": False} for net in "abc"},
            "wires": [{"net": net, "points": points} for net, points in wires], "junctions": [{"net": "a", "at": [150, 100]}],
            "crossings": [{"at": [150, 130], "nets": ["a", "b"]}], "jogs": [], "stubs": [{"part": 3, "pin": 0, "to": [316, 230]}],
            "texts": [{"text": "R1", "box": [60, 80, 80, 92], "part": 0, "role": "ref"},
                      {"text": "R2", "box": [210, 80, 230, 92], "part": 1, "role": "ref"}], "bends": 5}


class Judged(unittest.TestCase):
    def setUp(self) -> None:
        folder = tempfile.TemporaryDirectory()
        self.addCleanup(folder.cleanup)
        self.path = Path(folder.name) / "circuit.cir"
        self.path.write_text(CIRCUIT)
        self.drawing = by_hand()

    def verdict(self) -> Verdict:
        return judge(copy.deepcopy(self.drawing), self.path, "spice")

    def faulty(self, words: str) -> None:
        """Looks that there is a fault with these words."""
        faults = self.verdict().faults
        self.assertTrue(any(words in fault for fault in faults), faults)

    def jogged(self) -> None:
        """Makes R4 a box, which the wire reaches by a jog."""
        self.drawing["parts"][3]["kind"] = "box"
        self.drawing["parts"][3]["pins"][1]["at"] = [260, 234]
        self.drawing["wires"][4]["points"] = [[150, 208], [150, 230], [240, 230], [240, 234], [260, 234]]
        self.drawing["jogs"] = [{"wire": 4, "corner": 2, "into": "box"}]


class Right(Judged):
    def test_a_drawing_by_hand(self) -> None:
        verdict = self.verdict()
        self.assertEqual(verdict.faults, [])
        wanted = {"crossings": 1, "bends": 5, "symbol_jogs": 0, "box_jogs": 0, "cages": 0, "near_wires": 0, "near_boxes": 0}
        self.assertEqual({name: verdict.counts[name] for name in wanted}, wanted)

    def test_jogs_are_counted_apart(self) -> None:
        self.jogged()
        verdict = self.verdict()
        self.assertEqual(verdict.faults, [])
        self.assertEqual((verdict.counts["bends"], verdict.counts["box_jogs"]), (5, 1))
        self.assertEqual((verdict.counts["cages"], verdict.counts["upright"]), (1, 1))

    def test_narrow_gaps_are_counted(self) -> None:
        self.drawing["wires"][3]["points"] = [[52, 100], [30, 100], [30, 111], [280, 111], [280, 100], [248, 100]]
        self.drawing["crossings"][0]["at"] = [150, 111]
        self.assertEqual(self.verdict().faults, [])
        self.assertEqual(self.verdict().counts["near_wires"], 2)  # beside both level wires of the net a


class Faults(Judged):
    def test_pins_of_two_nets_joined(self) -> None:
        self.path.write_text(CIRCUIT.replace("R3 a c", "R3 e c").replace("R2 a b", "R2 a b\nR5 e b 1"))
        self.faulty("drawn as one net, but not in the file")

    def test_a_net_in_two(self) -> None:
        self.path.write_text(CIRCUIT.replace("R4 c d", "R4 b d"))
        self.faulty("one net in the file, but not drawn so")

    def test_a_part_too_many_and_one_too_few(self) -> None:
        self.path.write_text(CIRCUIT.replace("R4", "R5"))
        self.faulty("('R5', '1') is not drawn")
        self.faulty("('R4', '1') is not in the file")

    def test_a_connected_pin_that_is_not(self) -> None:
        self.path.write_text(CIRCUIT.replace("R4 c d 1", "R4 c a 1"))
        self.faulty("connected in one of drawing and file only")

    def test_a_wire_that_ends_in_the_open(self) -> None:
        self.drawing["wires"][4]["points"][-1] = [250, 230]
        self.faulty("ends in the open at (250, 230)")
        self.faulty("R4 1 has 0 wires")

    def test_a_wire_at_another_nets_pin(self) -> None:
        self.drawing["wires"][4]["net"] = "b"
        self.faulty("wire 4 of b ends in the open")

    def test_a_wire_that_leaves_sideways(self) -> None:
        self.drawing["wires"][4]["points"] = [[150, 208], [150, 250], [260, 250], [260, 230]]
        self.faulty("the wire at R4 1 leaves in the direction 3, not 2")

    def test_a_slanted_wire(self) -> None:
        self.drawing["wires"][4]["points"] = [[150, 208], [260, 230]]
        self.faulty("slanted")

    def test_a_corner_that_does_not_turn(self) -> None:
        self.drawing["wires"][0]["points"].insert(1, [120, 100])
        self.faulty("where it does not turn")

    def test_a_junction_without_three_wires(self) -> None:
        self.drawing["junctions"].append({"net": "c", "at": [150, 230]})
        self.faulty("0 wires meet at the junction")

    def test_a_missing_junction(self) -> None:
        self.drawing["junctions"] = []
        self.faulty("ends in the open at (150, 100)")

    def test_a_ring(self) -> None:
        self.drawing["wires"].append({"net": "a", "points": [[100, 100], [150, 100]]})
        self.faulty("closes a ring of a")

    def test_a_net_in_pieces(self) -> None:
        del self.drawing["wires"][4]
        self.faulty("the wires of c do not join its pins")

    def test_a_crossing_that_is_not_told(self) -> None:
        self.drawing["crossings"] = []
        self.faulty("crossings are")

    def test_a_crossing_that_is_none(self) -> None:
        self.drawing["crossings"].append({"at": [30, 130], "nets": ["a", "b"]})
        self.faulty("crossings are")

    def test_wires_that_touch_at_a_corner(self) -> None:
        self.drawing["wires"][3]["points"] = [[52, 100], [30, 100], [30, 130], [150, 130], [150, 140], [280, 140], [280, 100], [248, 100]]
        self.faulty("touch at")

    def test_wires_that_lie_on_each_other(self) -> None:
        self.drawing["wires"][3]["points"] = [[52, 100], [30, 100], [30, 130], [150, 130], [150, 120], [280, 120], [280, 100], [248, 100]]
        self.faulty("touch at")

    def test_a_net_that_crosses_itself(self) -> None:
        self.drawing["wires"][4]["points"] = [[150, 208], [150, 240], [180, 240], [180, 220], [140, 220], [140, 230], [260, 230]]
        self.faulty("the net c meets itself")

    def test_a_wire_through_a_part(self) -> None:
        self.drawing["parts"][1]["box"] = [200, 94, 248, 135]
        self.faulty("a wire of b goes through the part R2")

    def test_a_wire_through_a_text(self) -> None:
        self.drawing["texts"][0]["box"] = [60, 120, 80, 132]
        self.faulty("a wire of b goes through the text R1")

    def test_a_wire_through_a_stub(self) -> None:
        self.drawing["wires"][3]["points"] = [[52, 100], [30, 100], [30, 130], [312, 130], [312, 240], [280, 240], [280, 248], [320, 248],
                                              [320, 100], [248, 100]]
        self.faulty("goes through the stub of R4")

    def test_a_stub_at_a_connected_pin(self) -> None:
        self.drawing["stubs"][0] = {"part": 3, "pin": 1, "to": [252, 230]}
        self.faulty("a stub at a pin that is connected")

    def test_a_text_on_a_text(self) -> None:
        self.drawing["texts"][0]["box"] = [215, 82, 225, 90]
        self.faulty("the texts R1 and R2 overlap")

    def test_a_text_on_another_part(self) -> None:
        self.drawing["texts"][0]["box"] = [270, 226, 290, 234]
        self.faulty("the text R1 is on the part R4")

    def test_parts_that_overlap(self) -> None:
        self.drawing["parts"][3]["box"] = [140, 200, 308, 236]
        self.faulty("the parts R3 and R4 overlap")

    def test_what_is_outside_the_picture(self) -> None:
        self.drawing["size"] = [300, 250]
        self.faulty("R4 is outside the picture")

    def test_a_pin_beside_its_side(self) -> None:
        self.drawing["parts"][3]["box"] = [255, 224, 308, 236]
        self.faulty("R4 1 is not on its side 2")

    def test_a_turn_that_does_not_fit(self) -> None:
        self.drawing["parts"][2]["turn"] = 1
        self.faulty("R3 2 is not on its side")

    def test_wrong_bends(self) -> None:
        self.drawing["bends"] = 4
        self.faulty("4 bends are told, 5 counted")

    def test_jogs_that_are_none(self) -> None:
        self.drawing["jogs"] = [{"wire": 4, "corner": 1, "into": "box"}]
        self.faulty("a jog that has no two corners")
        self.drawing["jogs"] = [{"wire": 3, "corner": 1, "into": "box"}]
        self.faulty("a jog on wire 3 that is none")
        self.jogged()
        self.drawing["jogs"][0]["into"] = "symbol"
        self.faulty("a jog on wire 4 is not beside its part")


class Order(unittest.TestCase):
    """Pins of boxes, flags and bits, in drawings without wires from part to part."""

    def drawing(self, name: str, form: str) -> tuple[dict[str, Any], Path]:
        path = support.TESTS / "schematics" / name
        return json.loads(rows(read(path.read_bytes(), str(path), form)).json()), path

    def test_exchanged_pins(self) -> None:
        drawing, path = self.drawing("two_units.kicad_sch", "schematic")
        self.assertEqual(judge(drawing, path, "schematic").faults, [])
        pins = next(part for part in drawing["parts"] if part["kind"] == "opamp")["pins"]
        plus, minus = (pin for pin in pins if pin["side"] == 2)
        plus["at"], minus["at"] = minus["at"], plus["at"]
        faults = judge(drawing, path, "schematic").faults
        self.assertTrue(any("are out of order" in fault for fault in faults), faults)
        plus["at"], minus["at"] = minus["at"], plus["at"]
        plus["number"], minus["number"] = minus["number"], plus["number"]
        faults = judge(drawing, path, "schematic").faults
        self.assertTrue(any("in the file" in fault for fault in faults), faults)

    def test_a_flag_with_another_nets_text(self) -> None:
        drawing, path = self.drawing("two_units.kicad_sch", "schematic")
        place = next(place for place, part in enumerate(drawing["parts"]) if part["kind"] == "supply")
        text = next(text for text in drawing["texts"] if text["part"] == place)
        text["text"] = "OUT"
        faults = judge(drawing, path, "schematic").faults
        self.assertTrue(any("drawn as one net" in fault for fault in faults), faults)

    def test_exchanged_bits(self) -> None:
        drawing, path = self.drawing("counter.json", "yosys")
        self.assertEqual(judge(drawing, path, "yosys").faults, [])
        bundle = next(part for part in drawing["parts"] if part["ref"].startswith("bundle"))
        one, other = bundle["pins"][1:3]
        one["number"], other["number"] = other["number"], one["number"]
        faults = judge(drawing, path, "yosys").faults
        self.assertTrue(any("has the bits" in fault for fault in faults), faults)


if __name__ == "__main__":
    unittest.main()
