#!/usr/bin/env python3
"""Has KLayout and Magic open layouts with the files of examples/viewers.

Usage: viewers.py PROGRAM [--klayout klayout] [--magic magic]

PROGRAM is the built cellroute. The layouts are those that it routes of the examples with labels, and the drawn one. KLayout loads each with klayout.lyp, without a window: each line of its list of layers
must be a layer of the layout, where the layout has shapes on it. Magic reads each with magic.tech and saves it as CIF, and KLayout compares both: on each layer they must cover the same area. Both must
have each label of the layout, by its name and its place; and `check` must find nothing in it. KLayout saves each routed layout as CIF again, and `check --labels` must find nothing in that, nor in what Magic
saved of each. The last line is `N layouts, M differ`.
"""
import argparse
import os
import pathlib
import re
import shutil
import subprocess
import tempfile

ROOT = pathlib.Path(__file__).resolve().parent.parent
EXAMPLES = ROOT / "examples"
VIEWERS = EXAMPLES / "viewers"

# How many centimicrons a number counts in what Magic saves at the top.
MAGIC_UNIT = 25

# What KLayout runs: a line for each layer of the list that has shapes, and one for each layer on which the two layouts differ.
SCRIPT = """
import pya
view = pya.LayoutView()
view.load_layout(first, True)
view.load_layer_props(layers)
one = view.active_cellview().layout()
places = view.begin_layers()
while not places.at_end():
    node = places.current()
    if node.layer_index() >= 0:
        print("listed\\t" + node.source.split("@")[0])
    places.next()
for cell in one.top_cells():
    for index in one.layer_indexes():
        for shape in cell.shapes(index).each(pya.Shapes.STexts):
            print("label\t%s %d %d" % (shape.text.string, round(shape.text.x * one.dbu * 100), round(shape.text.y * one.dbu * 100)))
other = pya.Layout()
other.read(second)

def areas(layout):
    found = {}
    for index in layout.layer_indexes():
        region = pya.Region()
        for cell in layout.top_cells():
            region += pya.Region(cell.begin_shapes_rec(index))
        found[layout.get_info(index).name] = region.merged()
    return found

options = pya.SaveLayoutOptions()
options.format = "CIF"
one.write(third, options)

here, there = areas(one), areas(other)
for name in sorted(set(here) | set(there)):
    print("found\\t" + name)
    if not (here.get(name, pya.Region()) ^ there.get(name, pya.Region())).is_empty():
        print("differs\\t" + name)
"""

MAGIC = """
cif istyle lambda=0.5
cif ostyle lambda=0.5
cif read layout
load [lindex [cellname list topcells] 0]
cif write saved
quit -noprompt
"""


def layouts(program, folder):
    """Names and files of layouts."""
    yield "drawn", EXAMPLES / "drawn.cif"
    for design in sorted(EXAMPLES.glob("*.yal")):
        if "microns" in design.stem:
            continue
        out = folder / f"{design.stem}.cif"
        ran = subprocess.run([program, "route", design, EXAMPLES / "everyday.toml", out, "--labels", "-q"], capture_output=True, text=True)
        if ran.returncode == 0:
            yield design.stem, out


def saved_by_magic(magic, layout, folder):
    """What Magic saves of a layout."""
    room = folder / "magic"
    shutil.rmtree(room, ignore_errors=True)
    room.mkdir()
    shutil.copy(layout, room / "layout.cif")
    (room / "save.tcl").write_text(MAGIC)
    words = [magic, "-dnull", "-noconsole", "-T", VIEWERS / "magic.tech", "save.tcl"]
    ran = subprocess.run(words, cwd=room, stdin=subprocess.DEVNULL, capture_output=True, text=True, timeout=120)
    if not (room / "saved.cif").exists():
        raise SystemExit(f"Magic saved nothing of {layout}:\n{ran.stdout}{ran.stderr}")
    saved = room / "saved.cif"
    # Magic puts a layer behind the place of a label that lies on one, where KLayout wants the height of its letters.
    saved.write_text(re.sub(r"^(94 \S+ -?\d+ -?\d+) \w+;", r"\1;", saved.read_text(), flags=re.M))
    return saved


def told_by_klayout(klayout, layout, saved, again, folder):
    """The lines that the script prints, as a set of names for each first word. The layout is saved again."""
    script = folder / "compare.py"
    script.write_text(SCRIPT)
    values = {"first": layout, "second": saved, "third": again, "layers": VIEWERS / "klayout.lyp"}
    words = [klayout, "-zz", "-r", script]
    for name, value in values.items():
        words += ["-rd", f"{name}={value}"]
    ran = subprocess.run(words, capture_output=True, text=True, timeout=120, env=dict(os.environ, QT_QPA_PLATFORM="offscreen"))
    if ran.returncode != 0:
        raise SystemExit(f"{klayout} ended with {ran.returncode}: {ran.stderr}")
    told = {"listed": set(), "found": set(), "differs": set(), "label": set()}
    for line in ran.stdout.splitlines():
        word, _, name = line.partition("\t")
        if word in told:
            told[word].add(name)
    return told


def labels_of(text, scale):
    """The labels of a text, each as its name and its place in centimicrons, where a number counts as so many."""
    return {f"{name} {round(int(x) * scale)} {round(int(y) * scale)}" for name, x, y in re.findall(r"^94 (\S+) (-?\d+) (-?\d+);", text, re.M)}


def checked(program, design, layout, *options):
    """The last line that `check` prints of a layout of an example."""
    ran = subprocess.run([program, "check", design, EXAMPLES / "everyday.toml", layout, "-q", *options], capture_output=True, text=True)
    return ran.stdout.splitlines()[-1]


def main():
    words = argparse.ArgumentParser(description=__doc__, formatter_class=argparse.RawDescriptionHelpFormatter)
    words.add_argument("program", type=pathlib.Path)
    words.add_argument("--klayout", default="klayout")
    words.add_argument("--magic", default="magic")
    asked = words.parse_args()
    count = differ = 0
    with tempfile.TemporaryDirectory() as name:
        folder = pathlib.Path(name)
        for title, layout in layouts(asked.program.resolve(), folder):
            shown = set(re.findall(r"^L (\w+);", layout.read_text(), re.M)) or {"NM", "NP", "NC", "XP"}
            saved = saved_by_magic(asked.magic, layout, folder)
            again = folder / "again.cif"
            told = told_by_klayout(asked.klayout, layout, saved, again, folder)
            wanted = labels_of(layout.read_text(), 1)
            design = EXAMPLES / ("joined.yal" if title == "drawn" else f"{title}.yal")
            count += 1
            faults = [f"not listed {layer}" for layer in sorted(shown - told["listed"])]
            faults += [f"not found {layer}" for layer in sorted(shown - told["found"])]
            faults += [f"differs {layer}" for layer in sorted(told["differs"])]
            faults += [f"KLayout has no label {label}" for label in sorted(wanted - told["label"])]
            faults += [f"Magic has no label {label}" for label in sorted(wanted - labels_of(saved.read_text(), MAGIC_UNIT))]
            program = asked.program.resolve()
            if checked(program, design, layout) != "findings 0":
                faults.append("findings")
            if title != "drawn" and checked(program, design, again, "--labels") != "findings 0":
                faults.append("findings by labels of KLayout")
            if checked(program, design, saved, "--labels") != "findings 0":
                faults.append("findings by labels of Magic")
            differ += bool(faults)
            print(title, "; ".join(faults) or "same", flush=True)
    print(f"{count} layouts, {differ} differ")
    raise SystemExit(differ != 0)


if __name__ == "__main__":
    main()
