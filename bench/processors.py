#!/usr/bin/env python3
"""How long laying out two real processors takes, by one program or by several side by side.

    python3 bench/processors.py PROGRAM [OLDER ..] --sources NEXTPNR [--runs 3] [--yosys yosys]

NEXTPNR is the folder of nextpnr's source, as in Debian's source package `nextpnr` 0.4 (`apt-get source nextpnr`), whose examples have PicoRV32 and PicoSoC in Verilog. yosys maps them to the cells of
examples/from_verilog, and `import` makes designs of them: `picorv32`, without its upper registers, some 5,900 cells, with a clock of 1,014 pins; `picosoc`, the whole one with a memory of 16 words, some 17,900
cells. The first is routed with the everyday rules, the second with the sample rules, which anneal nothing. Every case is run by all programs in turn, so many times, and the median of the seconds is
printed for each; where several programs are given, their layouts and lines must be the same byte for byte, or the last line says how many were not.
"""
import argparse
import os
import shutil
import statistics
import subprocess
import tempfile

from speed import EVERYDAY, EXAMPLES, SAMPLE, run

CELLS = os.path.join(EXAMPLES, "from_verilog")
PARTS = {
    "picorv32": ("smoketest/attosoc", ["picorv32.v"], "chparam -set ENABLE_REGS_16_31 0 -set ENABLE_COUNTERS64 0 picorv32\nhierarchy -check -top picorv32\n"
                 "delete -port picorv32/trace_* picorv32/eoi picorv32/irq picorv32/pcpi_*"),
    "picosoc": ("benchmark", ["picosoc.v", "simpleuart.v", "spimemio.v", "picorv32.v"], "chparam -set MEM_WORDS 16 picosoc"),
}
SCRIPT = """read_liberty -lib cells.lib
read_verilog {files}
{chosen}
synth -flatten -top {name}
setundef -zero
dfflibmap -liberty cells.lib
opt
abc -liberty cells.lib
setundef -zero
opt_clean -purge
hilomap -singleton -hicell TIE1 Y -locell TIE0 Y
opt_clean -purge
insbuf -buf BUF A Y
opt_clean -purge
write_blif -gates {name}.blif
"""


def design(name, program, sources, yosys, room):
    """The path of the design of a processor."""
    folder = os.path.join(room, name)
    os.mkdir(folder)
    part, files, chosen = PARTS[name]
    for path in [os.path.join(sources, "ice40", part, file) for file in files] + [os.path.join(CELLS, file) for file in ("cells.lib", "cells.yal")]:
        shutil.copy(path, folder)
    with open(os.path.join(folder, "synth.ys"), "w", encoding="ascii") as file:
        file.write(SCRIPT.format(name=name, files=" ".join(files), chosen=chosen))
    subprocess.run([yosys, "-q", "-s", "synth.ys"], cwd=folder, check=True)
    subprocess.run([program, "import", f"{name}.blif", "cells.yal", f"{name}.yal", "-q"], cwd=folder, check=True)
    return os.path.join(folder, f"{name}.yal")


def main():
    parser = argparse.ArgumentParser(description=__doc__, formatter_class=argparse.RawDescriptionHelpFormatter)
    parser.add_argument("programs", nargs="+", type=os.path.abspath)
    parser.add_argument("--sources", required=True)
    parser.add_argument("--runs", type=int, default=3)
    parser.add_argument("--yosys", default="yosys")
    given = parser.parse_args()
    unlike = 0
    with tempfile.TemporaryDirectory() as room:
        found = {name: design(name, given.programs[0], given.sources, given.yosys, room) for name in PARTS}
        for name, rules, style in (("picorv32", EVERYDAY, "deft"), ("picosoc", SAMPLE, "deft"), ("picosoc", SAMPLE, "best")):
            seconds = {program: [] for program in given.programs}
            answers = set()
            for _ in range(given.runs):
                for program in given.programs:
                    spent, answer = run(program, ["route", found[name], rules], ["--style", style], os.path.join(room, "out.cif"))
                    seconds[program].append(spent)
                    answers.add(answer)
            unlike += len(answers) > 1
            cells = next(iter(answers))[1].split("\n", 1)[0]
            medians = "  ".join(f"{statistics.median(seconds[program]):8.2f} s" for program in given.programs)
            print(f"{name}, {cells}, {style}, {os.path.basename(rules):16} {medians}" + ("" if len(answers) == 1 else "  DIFFERENT"), flush=True)
    print(f"{unlike} cases differ" if len(given.programs) > 1 else "done")


if __name__ == "__main__":
    main()
