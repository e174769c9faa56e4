#!/usr/bin/env python3
"""How large layouts are by the schedule of annealing, and by the best of several placements.

    python3 bench/schedules.py PROGRAM [--seeds 2] [--tries N]

PROGRAM is a built cellroute. Five designs of 120 to 1,500 cells are laid out: two of `make`, and three shaped like a processor (`clocked` of speed.py). A line for each schedule has the areas under the rules of
`examples/everyday.toml` with these keys changed, divided by those under the sample rules, which anneal nothing, design by design and in the mean, and the processor's seconds for all five.
With `--tries N` instead the areas of the best of N placements under `examples/thorough.toml` are divided by those of one placement under `examples/everyday.toml`.
"""
import argparse
import os
import re
import resource
import subprocess
import tempfile

from speed import clocked, written
from tracks import made_design

HERE = os.path.dirname(os.path.abspath(__file__))
EXAMPLES = os.path.join(os.path.dirname(HERE), "examples")
SCHEDULES = [
    {},
    {"temperature": 100, "stages": 28},
    {"temperature": 100, "stages": 40},
    {"stages": 40},
    {"moves": 200},
    {"moves": 400},
    {"moves": 1000},
    {"row_cost": 4},
    {"row_cost": 16},
    {"length_cost": 1},
    {"length_cost": 4},
    {"row_cost": 4, "length_cost": 1},
    {"row_cost": 16, "length_cost": 4},
    {"row_cost": 16, "length_cost": 1},
]


def designs(folder):
    """Name and path of each design."""
    for count in (120, 500):
        yield f"made {count}", written(folder, f"made{count}.yal", made_design(1, count))
    for count in (300, 800, 1500):
        yield f"clocked {count}", written(folder, f"clocked{count}.yal", clocked(count))


def rules_with(folder, name, keys):
    """The rules of this name with these keys changed."""
    text = open(os.path.join(EXAMPLES, name + ".toml"), encoding="ascii").read()
    for key, value in keys.items():
        text = re.sub(rf"^{key} = \d+", f"{key} = {value}", text, flags=re.M)
    return written(folder, f"{name}_{'_'.join(f'{k}{v}' for k, v in keys.items())}.toml", text)


def laid(program, design, rules, seed, tries, out):
    """The area in square millimetres, and the processor's seconds."""
    before = resource.getrusage(resource.RUSAGE_CHILDREN).ru_utime
    words = [program, "route", design, rules, out, "-q", "--seed", str(seed)] + (["--tries", str(tries)] if tries > 1 else [])
    done = subprocess.run(words, capture_output=True, text=True, check=True)
    width, height = map(int, re.search(r"^size (\d+) (\d+)$", done.stdout, re.M).groups())
    return width * height / 1e10, resource.getrusage(resource.RUSAGE_CHILDREN).ru_utime - before


def row(program, folder, found, rules, seeds, tries=1):
    """The areas of all designs under rules, each the mean over the seeds, and the seconds of all."""
    areas, seconds = [], 0.0
    for _, design in found:
        runs = [laid(program, design, rules, seed, tries, os.path.join(folder, "out.cif")) for seed in range(1, seeds + 1)]
        areas.append(sum(area for area, _ in runs) / seeds)
        seconds += sum(s for _, s in runs) / seeds
    return areas, seconds


def shown(title, areas, base, seconds):
    """A line of the table."""
    parts = [area / first for area, first in zip(areas, base)]
    print(f"| {title} | " + " | ".join(f"{part:.3f}" for part in parts) + f" | {sum(parts) / len(parts):.3f} | {seconds:.1f} |", flush=True)


def main():
    parser = argparse.ArgumentParser()
    parser.add_argument("program")
    parser.add_argument("--seeds", type=int, default=2)
    parser.add_argument("--tries", type=int, default=0)
    given = parser.parse_args()
    with tempfile.TemporaryDirectory() as folder:
        found = list(designs(folder))
        print("| | " + " | ".join(name for name, _ in found) + " | mean | s |")
        if given.tries:
            base, seconds = row(given.program, folder, found, rules_with(folder, "everyday", {}), given.seeds)
            shown("one placement, everyday", base, base, seconds)
            for name, tries in (("everyday", given.tries), ("thorough", 1), ("thorough", given.tries)):
                areas, seconds = row(given.program, folder, found, rules_with(folder, name, {}), given.seeds, tries)
                shown(f"best of {tries}, {name}", areas, base, seconds)
            return
        base, seconds = row(given.program, folder, found, rules_with(folder, "sample", {}), 1)
        shown("not annealed", base, base, seconds)
        for keys in SCHEDULES:
            areas, seconds = row(given.program, folder, found, rules_with(folder, "everyday", keys), given.seeds)
            shown(", ".join(f"{key} {value}" for key, value in keys.items()) or "as in everyday.toml", areas, base, seconds)


if __name__ == "__main__":
    main()
