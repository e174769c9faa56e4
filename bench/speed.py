#!/usr/bin/env python3
"""How long laying a design out takes, by one program or by several side by side.

    python3 bench/speed.py PROGRAM [OLDER ..] [--runs 5] [--cases made,annealed,clocked,growth,heights]

Each PROGRAM is a built cellroute. Every case is run by all programs in turn, so many times, and the median of the seconds is printed for
each; where several programs are given, their layouts and lines must be the same byte for byte, or the last line says how many were not.

made: the design of `make 1 2000` under the sample rules, which anneal nothing, in the styles `best`, `deft` and `near`.
annealed: `make 1 500` and `make 1 2000` under the everyday rules, and the design of `make 1 20000` with 1,000,000 changes.
clocked: designs shaped like a processor: short local nets, a clock that every fifth cell bears, three resets and enables of many pins.
growth: `make 1 N` under the sample rules for N from 500 to 8,000. Behind the seconds stand the millions of columns times tracks of all
channels, by which the seconds should grow.
heights: 20,000 cells of one height, and the same cells of three heights in turn.
"""
import argparse
import hashlib
import os
import random
import statistics
import subprocess
import tempfile
import time

from tracks import made_design

HERE = os.path.dirname(os.path.abspath(__file__))
EXAMPLES = os.path.join(os.path.dirname(HERE), "examples")
SAMPLE = os.path.join(EXAMPLES, "sample.toml")
EVERYDAY = os.path.join(EXAMPLES, "everyday.toml")
KINDS = [("NOT", 2, ["a"], ["y"]), ("AND", 3, ["a", "b"], ["y"]), ("MUX", 5, ["a", "b", "s"], ["y"]), ("DFF", 7, ["d", "ck", "en"], ["q"])]


def kind_text(name, columns, inputs, outputs, height):
    """A cell of this height, with each input at both edges and each output at the right."""
    width = columns * 8
    lines = [f"MODULE {name};\nTYPE STANDARD;\nDIMENSIONS 0 0 {width} 0 {width} {height} 0 {height};\nIOLIST;\n"]
    for flow, places in (("I", [(t, k) for k, t in enumerate(inputs)]), ("O", [(t, columns - 1) for t in outputs])):
        for terminal, column in places:
            lines += [f"{terminal} {flow} {8 * column + 4} {y} 3 POLY;\n" for y in (0, height)]
    return "".join(lines) + "vdd PWR;\nvss GND;\nENDIOLIST;\nENDMODULE;\n"


def clocked(count, heights=(40,)):
    """A design of so many cells, of which every fifth is a register on one clock, whose kinds have these heights in turn."""
    drawn = random.Random(count)

    def near(i):
        return f"n{max(0, min(count - 1, i + int(drawn.gauss(0, 1 + 12 * drawn.random() ** 4 * count ** 0.5))))}"

    calls = []
    for i in range(count):
        name = "DFF" if i % 5 == 0 else drawn.choice(["NOT", "AND", "AND", "AND", "MUX"])
        signals = {
            "NOT": lambda: [near(i)],
            "AND": lambda: [near(i), near(i)],
            "MUX": lambda: [near(i), near(i), f"sel{drawn.randrange(4)}"],
            "DFF": lambda: [near(i), "clk", f"en{drawn.randrange(6)}"],
        }[name]()
        calls.append(f"u{i} {name} {' '.join(signals)} n{i} VDD VSS;\n")
    head = "MODULE clocked;\nTYPE PARENT;\nDIMENSIONS 0 0 1 0 1 1 0 1;\nIOLIST;\nENDIOLIST;\nNETWORK;\n"
    return "".join(kind_text(*kind, heights[k % len(heights)]) for k, kind in enumerate(KINDS)) + head + "".join(calls) + "ENDNETWORK;\nENDMODULE;\n"


def written(folder, name, text):
    path = os.path.join(folder, name)
    with open(path, "w", encoding="ascii") as file:
        file.write(text)
    return path


def rules_with(folder, name, **values):
    """The sample rules with other values of annealing."""
    lines = []
    for line in open(SAMPLE):
        key = line.split("=")[0].strip()
        lines.append(f"{key} = {values[key]}\n" if key in values else line)
    return written(folder, name, "".join(lines))


def cases_of(folder, wanted):
    """Name and words of each case, without OUT."""
    found = []
    if "made" in wanted:
        path = written(folder, "made2000.yal", made_design(1, 2000))
        found += [(f"made 2000, {style}", ["route", path, SAMPLE], ["--style", style]) for style in ("best", "deft", "near")]
    if "annealed" in wanted:
        found += [(f"make 1 {n}, everyday rules", ["make", "1", str(n), EVERYDAY], []) for n in (500, 2000)]
        million = rules_with(folder, "million.toml", temperature=30, stages=5, moves=10)
        path = written(folder, "made20000.yal", made_design(1, 20000))
        found.append(("made 20000, 1,000,000 changes, deft", ["route", path, million], ["--style", "deft"]))
    if "clocked" in wanted:
        for n in (1500, 5000):
            path = written(folder, f"clocked{n}.yal", clocked(n))
            found.append((f"clocked {n}, deft, everyday rules", ["route", path, EVERYDAY], ["--style", "deft"]))
    if "growth" in wanted:
        found += [(f"make 1 {n}, best", ["make", "1", str(n), SAMPLE], []) for n in (500, 1000, 2000, 4000, 8000)]
    if "heights" in wanted:
        for name, heights in (("80", [80]), ("40, 60 and 80", [40, 60, 80])):
            path = written(folder, f"heights{len(found)}.yal", clocked(20000, heights))
            found.append((f"20,000 cells, heights {name}, deft", ["route", path, SAMPLE], ["--style", "deft"]))
    return found


def run(program, words, options, out):
    begun = time.monotonic()
    done = subprocess.run([program, *words, out, *options], capture_output=True, text=True)
    seconds = time.monotonic() - begun
    text = open(out, "rb").read() if os.path.exists(out) else b""
    return seconds, (done.returncode, done.stdout, hashlib.sha256(text).hexdigest())


def millions(lines):
    """The sum over the channels of tracks times columns, in millions, by the lines of the summary; a column of the rules has 8 microns."""
    width, tracks = 0, []
    for words in map(str.split, lines.splitlines()):
        if words[:1] == ["size"]:
            width = int(words[1]) // 800
        if words[:1] == ["channel"]:
            tracks.append(int(words[3]))
    return sum(tracks) * width / 1e6


def main():
    parser = argparse.ArgumentParser()
    parser.add_argument("programs", nargs="+")
    parser.add_argument("--runs", type=int, default=5)
    parser.add_argument("--cases", default="made,annealed,clocked,growth,heights")
    given = parser.parse_args()
    unlike = 0
    with tempfile.TemporaryDirectory() as folder:
        for name, words, options in cases_of(folder, given.cases.split(",")):
            seconds = {program: [] for program in given.programs}
            answers = set()
            for _ in range(given.runs):
                for program in given.programs:
                    spent, answer = run(program, words, options, os.path.join(folder, "out.cif"))
                    seconds[program].append(spent)
                    answers.add(answer)
            unlike += len(answers) > 1
            medians = "  ".join(f"{statistics.median(seconds[program]):8.2f} s" for program in given.programs)
            size = millions(next(iter(answers))[1])
            print(f"{name:52} {medians}  {size:9.2f} M" + ("" if len(answers) == 1 else "  DIFFERENT"), flush=True)
    print(f"{unlike} cases differ" if len(given.programs) > 1 else "done")


if __name__ == "__main__":
    main()
