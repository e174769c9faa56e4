#!/usr/bin/env python3
"""Whether layouts that KLayout has saved are judged as those that it read.

    python3 bench/klayout.py PROGRAM [--klayout klayout] [--cells 200]

PROGRAM is a built cellroute. The layouts are those that it routes of the examples, with and without ports, and of a made design of so many
cells, the drawn examples, and the broken ones of examples/faulty. KLayout reads each and saves it as CIF twice: with the shapes of each layer
of the main level merged, so that wires become polygons, and with each of them as a polygon of its own. Then `cellroute check` judges what was
saved, and has to say the same of it as of the layout before. Of findings that tell shapes by their numbers the kinds have to be the same, since
other shapes cover the same area; all other lines have to be the same.

What KLayout saves is mended first, as anybody has to who takes such a file to `check`. KLayout puts the main level into a symbol CIF_TOP of its own, which nothing
calls, and drops the names of the calls. So the calls that had names go back to the main level, each behind its name: they are told by the
name of their symbol and by their place. What else was at the main level is called there as one symbol. A main level of a single call becomes
that call's symbol, without its place. In each symbol KLayout writes the layers in the order in which the file first had them, and a cell has to
keep the order of its drawing: so the layers of a symbol go back into the order that they had in it.
"""
import argparse
import os
import re
import subprocess
import tempfile
from fractions import Fraction

from tracks import made_design

HERE = os.path.dirname(os.path.abspath(__file__))
EXAMPLES = os.path.join(os.path.dirname(HERE), "examples")
FAULTY = os.path.join(EXAMPLES, "faulty")
NUMBERED = {"Overlap", "OutOfRow", "Narrow", "Close", "BareCut"}
STEP = re.compile(r"T[^0-9-]*(-?\d+)[^0-9-]+(-?\d+)|M[^XY]*([XY])|R[^0-9-]*(-?\d+)[^0-9-]+(-?\d+)")


def commands(text):
    """The commands of a text, without its comments."""
    found, at = [], 0
    while True:
        while at < len(text) and not re.match(r"[0-9A-Z(]", text[at]):
            at += 1
        if at == len(text) or text[at] == "E":
            return found
        if text[at] == "(":
            depth = 0
            while True:
                depth += {"(": 1, ")": -1}.get(text[at], 0)
                at += 1
                if depth == 0:
                    break
        else:
            end = text.index(";", at)
            found.append(text[at:end].strip())
            at = end + 1


def symbol_of(call):
    """The number of the symbol that a call calls, and its steps."""
    number, steps = re.fullmatch(r"C[^0-9]*(\d+)(.*)", call, re.S).groups()
    return int(number), steps


def place_of(steps, scale):
    """Where the steps of a call put the point (0, 0), and the ends of the two axes beside it."""
    points = [(Fraction(0), Fraction(0)), (Fraction(1), Fraction(0)), (Fraction(0), Fraction(1))]
    for x, y, axis, a, b in STEP.findall(steps):
        if x:
            points = [(u + int(x) * scale, v + int(y) * scale) for u, v in points]
        elif axis:
            points = [(-u, v) if axis == "X" else (u, -v) for u, v in points]
        else:
            a, b = (int(a) > 0) - (int(a) < 0), (int(b) > 0) - (int(b) < 0)
            points = [(a * u - b * v, b * u + a * v) for u, v in points]
    return tuple(points)


def layer_of(command):
    return re.fullmatch(r"L[^0-9A-Z]*(\w+)", command).group(1)


def in_layers(found, layers):
    """The commands of a symbol, those without a layer first and then by layers in this order."""
    groups, now = {None: []}, None
    for command in found:
        if command[0] == "L":
            now = layer_of(command)
            groups.setdefault(now, [])
        groups[now if command[0] != "C" else None].append(command)
    order = [None, *layers]
    return [command for layer in sorted(groups, key=lambda one: order.index(one) if one in order else len(order)) for command in groups[layer]]


class Text:
    """The symbols of a text, by their numbers: scale, name and commands; and the commands of its main level."""

    def __init__(self, text):
        self.symbols, self.main, now = {}, [], None
        for command in commands(text):
            if re.match(r"D[^0-9A-Z(;-]*S", command):
                numbers = [int(n) for n in re.findall(r"\d+", command)]
                now = {"scale": Fraction(*numbers[1:3]) if len(numbers) == 3 else Fraction(1), "name": None, "commands": []}
                self.symbols[numbers[0]] = now
            elif re.match(r"D[^0-9A-Z(;-]*F", command):
                now = None
            elif now is None:
                self.main.append(command)
            elif re.match(r"9\D", command):
                now["name"] = command[1:].strip()
            else:
                now["commands"].append(command)

    def layers_of(self, name):
        """The layers of the symbol of this name, as they come first."""
        for symbol in self.symbols.values():
            if symbol["name"] == name:
                return list(dict.fromkeys(layer_of(command) for command in symbol["commands"] if command[0] == "L"))
        return []

    def named_calls(self):
        """The named calls of the main level: the name of the symbol, the place, the name and the steps."""
        found, waiting = [], None
        for command in self.main:
            if re.match(r"91\D", command):
                waiting = command[2:].strip()
            elif command[0] == "C" and waiting is not None:
                number, steps = symbol_of(command)
                found.append((self.symbols[number]["name"], place_of(steps, Fraction(1)), waiting, steps))
                waiting = None
        return found


def moved_to_main(steps, scale):
    """The steps of a call inside a symbol of this scale, as the main level writes them."""

    def step(found):
        x, y = found.group(1), found.group(2)
        if x is None:
            return found.group(0)
        x, y = int(x) * scale, int(y) * scale
        if x.denominator != 1 or y.denominator != 1:
            raise SystemExit(f"a call at {x} {y}, which the main level cannot write")
        return f"T {x} {y}"

    return STEP.sub(step, steps)


def mended(saved, before):
    """The text that KLayout saved of a layout, with a main level and with the names of its calls."""
    text, original = Text(saved), Text(before)
    named = original.named_calls()
    top = next((n for n, symbol in text.symbols.items() if symbol["name"] == "CIF_TOP"), None)
    lines, main = [], []
    for number, symbol in text.symbols.items():
        kept = []
        for command in symbol["commands"]:
            if number != top or command[0] != "C":
                kept.append(command)
                continue
            called, steps = symbol_of(command)
            place = (text.symbols[called]["name"], place_of(steps, symbol["scale"]))
            at = next((i for i, one in enumerate(named) if one[:2] == place), None)
            if at is None:
                kept.append(command)
            else:
                main += [f"91 {named.pop(at)[2]};", f"C {called} {moved_to_main(steps, symbol['scale'])};"]
        lines.append(f"DS {number} {symbol['scale'].numerator} {symbol['scale'].denominator};")
        if symbol["name"]:
            lines.append(f"9 {symbol['name']};")
        lines += [f"{command};" for command in in_layers(kept, original.layers_of(symbol["name"]))] + ["DF;"]
    if top is not None:
        main.append(f"C {top};")
    else:
        for kind, _, name, steps in named:
            called = next(n for n, symbol in text.symbols.items() if symbol["name"] == kind)
            main += [f"91 {name};", f"C {called} {steps};"]
        named = []
    if named:
        raise SystemExit(f"no call stands where these stood: {' '.join(one[2] for one in named)}")
    return "\n".join(lines + main + ["E", ""])


def told(line):
    """A finding, by its kind alone where it tells shapes by their numbers."""
    kind = line.split()[0]
    return kind if kind in NUMBERED else line


class Bench:
    def __init__(self, program, klayout, folder):
        self.program, self.klayout, self.folder = program, klayout, folder
        self.count, self.differing = 0, 0

    def run(self, *words):
        done = subprocess.run([self.program, *words], capture_output=True, text=True, check=False)
        if done.returncode not in (0, 1):
            raise SystemExit(f"{' '.join(words)}: status {done.returncode}: {done.stdout}")
        return done.stdout.splitlines()

    def saved(self, layout, merge):
        """The file that KLayout saves of a layout, mended, and the most points of a polygon in it."""
        out = os.path.join(self.folder, "saved.cif")
        words = [self.klayout, "-b", "-r", os.path.join(HERE, "merged.rb"), "-rd", f"input={layout}", "-rd", f"output={out}", "-rd", f"merge={merge}"]
        done = subprocess.run(words, capture_output=True, text=True, check=True, env={**os.environ, "QT_QPA_PLATFORM": "offscreen"})
        points = int(re.search(r"points (\d+)", done.stdout).group(1))
        with open(out, encoding="latin-1") as text, open(layout, encoding="latin-1") as before:
            whole = mended(text.read(), before.read())
        with open(out, "w", encoding="latin-1") as text:
            text.write(whole)
        return out, points

    def judge(self, name, design, rules, layout, options):
        """Judges a layout, and what KLayout saves of it."""
        before = self.run("check", design, rules, layout, *options)
        for merge, way in ((1, "merged"), (0, "apart")):
            out, points = self.saved(layout, merge)
            after = self.run("check", design, rules, out, *options)
            numbered = any(told(line) in NUMBERED for line in before)
            same = {told(line) for line in before[:-1]} == {told(line) for line in after[:-1]} and (numbered or before == after)
            self.count += 1
            self.differing += not same
            said = "as before" if same else "DIFFERS"
            print(f"{name:34} {way:7} points {points:5}  {before[-1]:13} {after[-1]:13} {said}", flush=True)
            if not same:
                print("    before:", *before[:6], "    after:", *after[:6], sep="\n        ")

    def route(self, name, design, rules, options):
        """Routes a design, and judges what comes of it."""
        layout = os.path.join(self.folder, "layout.cif")
        done = subprocess.run([self.program, "route", design, rules, layout, *options], capture_output=True, text=True, check=False)
        if done.returncode != 0:
            print(f"{name:34} is not routed: {done.stdout.splitlines()[-1]}")
            return
        self.judge(name, design, rules, layout, options)


def examples():
    """The examples with the rules that they are made for."""
    for file in sorted(os.listdir(EXAMPLES)):
        if file.endswith(".yal"):
            rules = "microns.toml" if "microns" in file else "sample.toml"
            yield file, os.path.join(EXAMPLES, file), os.path.join(EXAMPLES, rules)


def faulty():
    """The broken layouts that are judged, with the designs that they are of."""
    for file in sorted(os.listdir(FAULTY)):
        path = os.path.join(FAULTY, file)
        if not file.endswith(".cif"):
            continue
        with open(path, encoding="ascii") as text:
            design, said = re.match(r'\(of (\S+) prints "([^"]*)"', text.read()).groups()
        if not said.startswith("cif "):
            yield file, os.path.join(EXAMPLES, design), path


def main():
    parser = argparse.ArgumentParser(description="Layouts that KLayout saved, as `check` judges them.")
    parser.add_argument("program")
    parser.add_argument("--klayout", default="klayout")
    parser.add_argument("--cells", type=int, default=200)
    asked = parser.parse_args()
    sample = os.path.join(EXAMPLES, "sample.toml")
    with tempfile.TemporaryDirectory() as folder:
        bench = Bench(asked.program, asked.klayout, folder)
        for name, design, rules in examples():
            bench.route(name, design, rules, [])
            bench.route(f"{name} --ports", design, rules, ["--ports"])
        made = os.path.join(folder, "made.yal")
        with open(made, "w", encoding="ascii") as text:
            text.write(made_design(1, asked.cells))
        bench.route(f"made 1 {asked.cells}", made, sample, [])
        for file in ("drawn.cif", "drawn_wires.cif"):
            bench.judge(file, os.path.join(EXAMPLES, "joined.yal"), sample, os.path.join(EXAMPLES, file), [])
        for file, design, path in faulty():
            bench.judge(file, design, sample, path, [])
        print(f"{bench.count} judged, {bench.differing} not as before")
    raise SystemExit(bench.differing != 0)


if __name__ == "__main__":
    main()
