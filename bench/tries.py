#!/usr/bin/env python3
"""How large the layouts of the best of several placements are, and how long they take.

    python3 bench/tries.py PROGRAM [--tries 1,2,4,8,16] [--seeds 3] [--rules everyday]

PROGRAM is a built cellroute. Designs of `make` and designs shaped like a processor (`clocked` of speed.py) are laid out with these numbers of tries, each with seeds 1, 2 and so on, under the rules of
`examples` with this name. Printed is the sum of the areas over the seeds, beside that of one try, and the seconds for one layout in the mean. The moves of the rules are made as few as the limit of
50,000,000 changes wants.
"""
import argparse
import os
import re
import subprocess
import tempfile
import time

from speed import clocked, written
from tracks import made_design

HERE = os.path.dirname(os.path.abspath(__file__))
EXAMPLES = os.path.join(os.path.dirname(HERE), "examples")
MOST_CHANGES = 50_000_000


def designs(folder):
    """Name, path and number of instances of each design."""
    for count in (60, 200, 500, 2000):
        yield f"made {count}", written(folder, f"made{count}.yal", made_design(1, count)), count
    for count in (300, 1500):
        yield f"clocked {count}", written(folder, f"clocked{count}.yal", clocked(count)), count


def rules_within(folder, name, instances, tries):
    """The rules of this name, with as few moves as the limit wants."""
    text = open(os.path.join(EXAMPLES, name + ".toml"), encoding="ascii").read()
    value = {key: int(found) for key, found in re.findall(r"^(stages|moves) = (\d+)", text, re.M)}
    most = MOST_CHANGES // max(1, value["stages"] * instances * tries)
    return written(folder, f"{name}{instances}_{tries}.toml", re.sub(r"^moves = \d+", f"moves = {min(value['moves'], most)}", text, flags=re.M))


def area(program, design, rules, seed, tries, out):
    """The area in square millimetres, and the seconds."""
    begun = time.monotonic()
    done = subprocess.run([program, "route", design, rules, out, "-q", "--seed", str(seed), "--tries", str(tries)], capture_output=True, text=True, check=True)
    seconds = time.monotonic() - begun
    width, height = map(int, re.search(r"^size (\d+) (\d+)$", done.stdout, re.M).groups())
    return width * height / 1e10, seconds


def main():
    parser = argparse.ArgumentParser()
    parser.add_argument("program")
    parser.add_argument("--tries", default="1,2,4,8,16")
    parser.add_argument("--seeds", type=int, default=3)
    parser.add_argument("--rules", default="everyday")
    given = parser.parse_args()
    counts = [int(n) for n in given.tries.split(",")]
    with tempfile.TemporaryDirectory() as folder:
        for name, design, instances in designs(folder):
            first = None
            for tries in counts:
                rules = rules_within(folder, given.rules, instances, tries)
                found = [area(given.program, design, rules, seed, tries, os.path.join(folder, "out.cif")) for seed in range(1, given.seeds + 1)]
                areas, seconds = sum(a for a, _ in found), sum(s for _, s in found) / given.seeds
                first = first or areas
                print(f"{name:14} {tries:3} tries  {areas:10.3f} mm2  {areas / first:6.3f}  {seconds:7.2f} s", flush=True)


if __name__ == "__main__":
    main()
