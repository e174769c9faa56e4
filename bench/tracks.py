#!/usr/bin/env python3
"""How many tracks the styles take, beside the densities of the channels.

    python3 bench/tracks.py PROGRAM [--styles best,deft,lean,near] [--sizes 60,200,500] [--seeds 1,2,3] [--channels 20]

PROGRAM is a built cellroute. For each size and seed the design that `cellroute make SEED SIZE` makes is written into a folder of its
own and routed by each style under examples/everyday.toml, so that its rows are annealed. Then random channels of 200 columns and of
density 19, with pins in three quarters of all places and in all, are routed by each style, each as a design of two wide cells in two
rows. The densities are counted here, from the written layouts alone: the pieces of wire of a channel that touch are the nets, and a
net spans from its first to its last pin at an edge. Printed are the tracks of all channels, their densities, the ratio, the columns
added, the plain channels, and the seconds of all runs.
"""
import argparse
import os
import random
import subprocess
import tempfile
import time
from collections import defaultdict

MASK = (1 << 64) - 1
COLUMN, TRACK, PIN, SPACE, WIRE = 8, 8, 4, 3, 3
HERE = os.path.dirname(os.path.abspath(__file__))
EXAMPLES = os.path.join(os.path.dirname(HERE), "examples")


def words(seed):
    """The 32-bit words of PCG's generator of this seed, with stream 55."""
    step = (55 << 1) | 1
    state = ((seed + step) * 6364136223846793005 + step) & MASK
    while True:
        mixed = (((state >> 18) ^ state) >> 27) & 0xFFFFFFFF
        turn = state >> 59
        state = (state * 6364136223846793005 + step) & MASK
        yield ((mixed >> turn) | (mixed << (32 - turn))) & 0xFFFFFFFF


def module(name, columns, height, positions):
    width = columns * COLUMN
    lines = [f"MODULE {name};\nTYPE STANDARD;\nDIMENSIONS 0 0 {width} 0 {width} {height} 0 {height};\nIOLIST;\n"]
    for terminal, flow, column, y in positions:
        lines.append(f"{terminal} {flow} {column * COLUMN + COLUMN // 2} {y} {WIRE} POLY;\n")
    return "".join(lines) + "ENDIOLIST;\nENDMODULE;\n"


def parent(calls):
    head = "MODULE made;\nTYPE PARENT;\nDIMENSIONS 0 0 1 0 1 1 0 1;\nPROFILE 0 0;\nIOLIST;\nENDIOLIST;\nNETWORK;\n"
    return head + "".join(f"{call};\n" for call in calls) + "ENDNETWORK;\nPLACEMENT;\nENDPLACEMENT;\nENDMODULE;\n"


def made_design(seed, count, heights=(2 * PIN + SPACE,)):
    """The design of `cellroute make SEED COUNT`, without its power terminals; or the same with kinds that have these heights in turn."""
    kinds = []
    for j in range(5):
        height = heights[j % len(heights)]
        positions = [("a", "I", 0, 0), ("b", "I", j + 1, 0), ("y", "O", 0, height), ("z", "B", 1, height)]
        if j == 4:
            positions.append(("z", "B", 2, 0))
        kinds.append(module(f"M{j}", j + 2, height, positions))
    drawn = words(seed)
    calls = []
    for i in range(count):
        first, second = next(drawn) % count, next(drawn) % count
        calls.append(f"c{i} M{i % 5} n{first} n{second} n{i} z{i // 4}")
    return "".join(kinds) + parent(calls)


def density_of(pins):
    """The greatest number of nets over one column, from the columns of the pins of each net."""
    opened = defaultdict(int)
    for columns in pins:
        opened[min(columns)] += 1
        opened[max(columns) + 1] -= 1
    over = most = 0
    for column in sorted(opened):
        over += opened[column]
        most = max(most, over)
    return most


def random_channel(chance, columns, density, filled):
    """Top and bottom pins of a channel of this density, with pins in so many hundredths of all places, of nets of two to four pins that lie
    near each other."""
    reach = 4
    while True:
        slots = [(column, side) for column in range(columns) for side in (0, 1)]
        chance.shuffle(slots)
        slots = slots[: len(slots) * filled // 100]
        free, pins, nets = set(slots), [[0] * columns, [0] * columns], []
        for slot in slots:
            near = [other for other in free if other != slot and abs(other[0] - slot[0]) <= reach] if slot in free else []
            if not near:
                continue
            members = [slot] + chance.sample(sorted(near), min(len(near), chance.randint(1, 3)))
            for column, side in members:
                free.discard((column, side))
                pins[side][column] = len(nets) + 1
            nets.append([column for column, _ in members])
        if density_of(nets) == density:
            return pins
        reach += 1 if density_of(nets) < density else -1


def channel_design(pins):
    """Two wide cells, whose facing edges have the pins of a channel."""
    height = 2 * PIN + SPACE
    cells, calls = [], []
    for name, side, y in (("LOW", pins[1], height), ("HIGH", pins[0], 0)):
        used = [column for column, net in enumerate(side) if net]
        cells.append(module(name, len(side), height, [(f"p{column}", "B", column, y) for column in used]))
        calls.append(f"u{name} {name} " + " ".join(f"n{side[column]}" for column in used))
    return "".join(cells) + parent(calls)


class Groups:
    """Sets that are joined, by their first members."""

    def __init__(self):
        self.above = {}

    def of(self, member):
        self.above.setdefault(member, member)
        while self.above[member] != member:
            self.above[member] = self.above[self.above[member]]
            member = self.above[member]
        return member

    def join(self, one, other):
        self.above[self.of(one)] = self.of(other)


def channel_density(boxes, base, top):
    """The density of a channel between two heights, from its boxes as (layer, x0, y0, x1, y1)."""
    groups, columns, tracks, cuts = Groups(), defaultdict(list), defaultdict(list), []
    for box in boxes:
        layer, x0, y0, x1, y1 = box
        if layer == "NP":
            columns[x0 + x1].append(box)
        elif layer == "NM":
            tracks[y0 + y1].append(box)
        else:
            cuts.append((x0 + x1, y0 + y1))
    for line in columns.values():
        reach = None
        for box in sorted(line, key=lambda b: b[2]):
            if reach is not None and box[2] <= reach[4]:
                groups.join(reach, box)
            if reach is None or box[4] > reach[4]:
                reach = box
    for line in tracks.values():
        reach = None
        for box in sorted(line, key=lambda b: b[1]):
            if reach is not None and box[1] <= reach[3]:
                groups.join(reach, box)
            if reach is None or box[3] > reach[3]:
                reach = box
    places = defaultdict(list)
    for box in boxes:
        places[(box[1] + box[3], box[2] + box[4])].append(box)
    for cut in cuts:
        pads = [box for box in places[cut] if box[0] in ("NP", "NM")]
        for pad in pads[1:]:
            groups.join(pads[0], pad)
    pins = defaultdict(list)
    for box in boxes:
        if box[0] == "NP" and (box[2] == base or box[4] == top):
            pins[groups.of(box)].append((box[1] + box[3]) // 2)
    return density_of(pins.values()) if pins else 0


def densities(path, tracks):
    """The densities of the channels of a written layout, which have so many tracks."""
    channels, row_low, defining, layer, height = [[]], [], False, "", 0
    with open(path, encoding="ascii") as text:
        for line in text:
            part = line.rstrip(";\n").split()
            if part[0] == "DS":
                defining = True
            elif part[0] == "DF":
                defining, layer = False, ""
            elif part[0] == "L":
                layer = part[1]
            elif part[0] == "B" and defining and layer == "XP":
                height = max(height, int(part[2]))
            elif part[0] == "B" and not defining:
                length, width, x, y = (int(word) for word in part[1:5])
                channels[len(row_low)].append((layer, 2 * x - length, 2 * y - width, 2 * x + length, 2 * y + width))
            elif part[0] == "C" and not defining:
                low = int(part[-1])
                if not row_low or low != row_low[-1]:
                    row_low.append(low)
                    channels.append([])
    found, base = [], 0
    for number, boxes in enumerate(channels):
        top = 2 * row_low[number] if number < len(row_low) else base + 2 * (tracks[number] + 1) * TRACK * 100
        found.append(channel_density(boxes, base, top))
        base = top + 2 * height
    return found


def routed(program, folder, design, rules, style, options):
    """The tracks, densities, added columns and plain channels of a design, and the seconds that it took."""
    out = os.path.join(folder, "out.cif")
    command = [program, "route", design, rules, out, "--style", style] + options
    began = time.time()
    done = subprocess.run(command, capture_output=True, text=True, check=False)
    took = time.time() - began
    if done.returncode != 0:
        raise SystemExit(f"{' '.join(command)}: status {done.returncode}: {done.stdout}")
    lines = [line.split() for line in done.stdout.splitlines() if line.startswith("channel ")]
    tracks = [int(line[3]) for line in lines]
    return tracks, densities(out, tracks), sum(int(line[5]) for line in lines), sum(line[6] == "plain" for line in lines), took


def report(program, name, styles, designs, rules, options):
    for style in styles:
        total, dense, extra, plain, took = 0, 0, 0, 0, 0.0
        for folder, design, chosen in designs:
            one = routed(program, folder, design, rules, style, options + chosen)
            total, dense, extra, plain, took = total + sum(one[0]), dense + sum(one[1]), extra + one[2], plain + one[3], took + one[4]
        print(f"{name:14} {style:6} tracks {total:6} density {dense:6} ratio {total / dense:.3f} extra {extra:5} plain {plain:3} seconds {took:.2f}", flush=True)


def main():
    parser = argparse.ArgumentParser(description="Tracks of the styles beside the densities.")
    parser.add_argument("program")
    parser.add_argument("--styles", default="best,deft,lean,near")
    parser.add_argument("--sizes", default="60,200,500")
    parser.add_argument("--seeds", default="1,2,3")
    parser.add_argument("--channels", type=int, default=20)
    asked = parser.parse_args()
    styles = asked.styles.split(",")
    with tempfile.TemporaryDirectory() as folder:
        for size in asked.sizes.split(","):
            designs = []
            for seed in asked.seeds.split(","):
                path = os.path.join(folder, f"made-{size}-{seed}.yal")
                with open(path, "w", encoding="ascii") as text:
                    text.write(made_design(int(seed), int(size)))
                designs.append((folder, path, ["--seed", seed]))
            report(asked.program, f"made {size}", styles, designs, os.path.join(EXAMPLES, "everyday.toml"), [])
        for filled in (75, 100):
            designs = []
            for number in range(asked.channels):
                path = os.path.join(folder, f"channel-{filled}-{number}.yal")
                with open(path, "w", encoding="ascii") as text:
                    text.write(channel_design(random_channel(random.Random(number), 200, 19, filled)))
                designs.append((folder, path, []))
            report(asked.program, f"random {filled}%", styles, designs, os.path.join(EXAMPLES, "sample.toml"), ["--rows", "2"])


if __name__ == "__main__":
    main()
