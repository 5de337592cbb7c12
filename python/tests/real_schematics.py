#!/usr/bin/env python3
"""Draws 13 sheets of KiCad, seven modules of yosys and six SPICE netlists as schematics, and compares figures with limits.

KiCad's sheets are those of its package of demonstrations, yosys makes the modules of Verilog in tests/schematics (Debian:
kicad-demos, yosys; if it is missing, apt-get downloads the first, which is deleted afterwards, and installs the second). Each
is drawn by a separate process `python3 -m planarbend draw`, and schematic_judge.py judges each drawing by the file.

Figures: crossings; bends, those of jogs at boxes included; jogs into symbols; parts that are upright, of those that are to be;
boxes taller or wider than 1.6 times their need, and the worst; pairs of parallel wires nearer than 12 pixels, and of boxes
nearer than 18.
"""
from __future__ import annotations

import argparse
import json
import shutil
import statistics
import subprocess
import sys
import tempfile
import time
from dataclasses import dataclass, field
from pathlib import Path

sys.dont_write_bytecode = True
TESTS = Path(__file__).resolve().parent
PACKAGE = TESTS.parent
sys.path.insert(0, str(PACKAGE))
from real_graphs import compiled, package, processor
from schematic_judge import judge

NINE = {"sallen_key": "simulation/sallen_key", "laser_driver": "simulation/laser_driver", "ampli_ht": "complex_hierarchy",
        "ecc83-pp_v2": "ecc83", "pic_sockets": "pic_programmer", "pic_programmer": "pic_programmer", "sonde xilinx": "sonde xilinx",
        "modul": "video", "electric": "electric"}
LARGE = {"StickHub": "stickhub", "interf_u": "interf_u", "carte_test": "test_xil_95108", "esvideo": "video"}
MODULES = {
    "fulladd": ("adder", "fulladd", "synth; abc -g AND,OR,XOR; clean"), "adder2": ("adder", "adder2", "synth; abc -g AND,OR,XOR,NAND; clean"),
    "counter": ("counter", "counter", "synth; abc -g AND,OR,XOR,NAND; clean"), "lfsr": ("counter", "lfsr", "synth; abc -g AND,OR,XOR; clean"),
    "traffic": ("counter", "traffic", "proc; opt; clean"), "alu": ("counter", "alu", "proc; opt; clean"),
    "traffic_gates": ("counter", "traffic", "synth; abc -g AND,OR,XOR,NAND,NOR,MUX; clean")}
SPICE = ("amplifier", "filter", "rectifier", "ring", "nand")
# The most crossings, bends and jogs into symbols, and how many parts are to be upright; all boxes but 15 are small.
WANTED = {"nine": (8, 148, 16, 60), "large": (21, 236, 999, 48), "yosys": (46, 169, 64, 107)}
MOST_STRETCHED, WORST_STRETCH, MORE_BENDS = 15, 3.0, 40
SECONDS = {"nine": (10.0, 4.0), "large": (40.0, 40.0)}  # the most for one, and their median
EMPTY = "the circuit has no elements"


@dataclass
class Result:
    """What came of one file: `fault` is empty if it was drawn."""

    name: str
    group: str
    seconds: float
    fault: str = ""
    faults: list[str] = field(default_factory=list)
    counts: dict[str, float] = field(default_factory=dict)
    size: tuple[float, float] = (0.0, 0.0)


def command_line() -> argparse.Namespace:
    parser = argparse.ArgumentParser(description=__doc__, formatter_class=argparse.RawDescriptionHelpFormatter,
                                     epilog="status: 0 where all that is wanted is reached, 1 where it is not")
    parser.add_argument("--only", metavar="NAME", action="append", help="this file or group (nine, large, yosys, spice); may be repeated")
    parser.add_argument("--seed", metavar="N", default="0", help="draw with --seed N")
    parser.add_argument("--processor", action="store_true", help="seconds of processor time, for a machine that does other work")
    parser.add_argument("--keep", metavar="FOLDER", help="leave files and drawings in this folder, with a picture of each")
    return parser.parse_args()


def source_of(name: str, group: str, folder: Path) -> tuple[Path, str]:
    """The file of a name, and its form."""
    if group in ("nine", "large"):
        return package("kicad-demos", folder) / (NINE | LARGE)[name] / f"{name}.kicad_sch", "schematic"
    if group == "spice":
        return TESTS / "schematics" / f"{name}.cir", "spice"
    if not shutil.which("yosys"):
        subprocess.run(["apt-get", "-q", "install", "-y", "--no-install-recommends", "yosys"], check=True, stdout=subprocess.DEVNULL)
    file, top, script = MODULES[name]
    made = folder / f"{name}.json"
    steps = f"read_verilog {TESTS}/schematics/{file}.v; hierarchy -top {top}; {script}; write_json {made}"
    subprocess.run(["yosys", "-q", "-p", steps], check=True, capture_output=True)
    return made, "yosys"


def drawn(name: str, group: str, words: argparse.Namespace, folder: Path) -> Result:
    """Draws one file and judges the drawing."""
    source, form = source_of(name, group, folder)
    out = folder / f"{name.replace(' ', '_')}.drawing.json"
    options = ["--seed", words.seed, *(["--flags", "1000"] if group == "yosys" else [])]
    command = [sys.executable, "-m", "planarbend", "draw", str(source), *options, "-o"]
    environment = compiled(folder)
    began, used = time.perf_counter(), processor()
    ran = subprocess.run([*command, str(out)], cwd=PACKAGE, env=environment, capture_output=True, text=True, check=False)
    seconds = processor() - used if words.processor else time.perf_counter() - began
    if ran.returncode:
        return Result(name, group, seconds, (ran.stderr.strip() or f"status {ran.returncode}").splitlines()[-1])
    if words.keep:
        subprocess.run([*command, str(out.with_suffix(".svg"))], cwd=PACKAGE, env=environment, capture_output=True, check=True)
    drawing = json.loads(out.read_text(encoding="utf-8"))
    verdict = judge(drawing, source, form)
    return Result(name, group, seconds, "", verdict.faults, verdict.counts, tuple(drawing["size"]))


def line_of(one: Result) -> str:
    """The line of one file."""
    if one.fault:
        return f"{one.name:<15} not drawn in {one.seconds:.1f} s: {one.fault}"
    count = {name: round(value) for name, value in one.counts.items()}
    return (f"{one.name:<15}{len(one.faults):>6}{count['crossings']:>6}{count['bends']:>6}{count['box_jogs']:>5}{count['symbol_jogs']:>5}"
            f"{count['upright']:>6}/{count['cages']:<4}{count['upright_flags']:>5}/{count['flags']:<5}"
            f"{count['stretched']:>3} {one.counts['worst_stretch']:<5.1f}{count['near_wires']:>5}{count['near_boxes']:>5}"
            f"{one.size[0]:>7.0f}x{one.size[1]:<5.0f}{one.seconds:>6.1f}")


def limits(results: list[Result]) -> list[tuple[str, float, float]]:
    """What was found and what is wanted at most, with what it is."""
    found: list[tuple[str, float, float]] = [("not drawn", sum(bool(one.fault) for one in results), 0),
                                             ("faults", sum(len(one.faults) for one in results), 0)]
    for group, (crossings, bends, jogs, upright) in WANTED.items():
        own = [one for one in results if one.group == group and not one.fault]
        if not own:
            continue
        total = {name: sum(one.counts[name] for one in own) for name in ("crossings", "bends", "box_jogs", "symbol_jogs", "cages", "upright")}
        found += [(f"{group}: crossings", total["crossings"], crossings),
                  (f"{group}: bends, with those of jogs at boxes", total["bends"] + 2 * total["box_jogs"], bends + MORE_BENDS),
                  (f"{group}: bends", total["bends"], bends), (f"{group}: jogs into symbols", total["symbol_jogs"], jogs),
                  (f"{group}: parts that are not upright", total["cages"] - total["upright"], 0)]
        if len(own) == {"nine": 9, "large": 4, "yosys": 7}[group]:
            found.append((f"{group}: parts that are to be upright, fewer than expected", upright - total["cages"], 0))
        if group in SECONDS:
            times = [one.seconds for one in own]
            found += [(f"{group}: seconds, worst", max(times), SECONDS[group][0]),
                      (f"{group}: seconds, median", statistics.median(times), SECONDS[group][1])]
    boxes = [one for one in results if not one.fault and one.group != "spice"]
    if boxes:
        found += [("boxes taller or wider than 1.6 times their need", sum(one.counts["stretched"] for one in boxes), MOST_STRETCHED),
                  ("the worst of them", max(one.counts["worst_stretch"] for one in boxes), WORST_STRETCH)]
    return found


def is_refused(folder: Path) -> bool:
    """Whether an empty netlist is refused in words."""
    source = TESTS / "schematics" / "empty.cir"
    ran = subprocess.run([sys.executable, "-m", "planarbend", "draw", str(source), "-o", str(folder / "empty.svg")], cwd=PACKAGE,
                         env=compiled(folder), capture_output=True, text=True, check=False)
    return ran.returncode == 1 and EMPTY in ran.stderr


def main() -> int:
    words = command_line()
    names = [(name, group) for group, all_names in (("nine", NINE), ("large", LARGE), ("yosys", MODULES), ("spice", SPICE)) for name in all_names]
    chosen = [entry for entry in names if not words.only or set(entry) & set(words.only)]
    unknown = set(words.only or ()) - {word for entry in names for word in entry}
    if unknown:
        sys.exit(f"real_schematics.py: no such file or group: {', '.join(sorted(unknown))}")
    with tempfile.TemporaryDirectory() as kept:
        folder = Path(words.keep or kept).resolve()
        folder.mkdir(parents=True, exist_ok=True)
        print("               faults cross bends jogs: box symbol  upright  flags   stretched  near: wires parts  pixels      s")
        results = []
        for name, group in chosen:
            results.append(drawn(name, group, words, folder))
            print(line_of(results[-1]), flush=True)
            for fault in results[-1].faults[:5]:
                print(f"    {fault}")
        is_right = is_refused(folder) if not words.only else True
    print("" if is_right else "\nthe empty netlist was not refused in words   NOT REACHED")
    found = limits(results)
    for what, value, most in found:
        print(f"{what:<60}{value:>8.2f}   wanted at most {most:g}{'' if value <= most else '   NOT REACHED'}")
    return 0 if is_right and all(value <= most for _, value, most in found) else 1


if __name__ == "__main__":
    sys.exit(main())
