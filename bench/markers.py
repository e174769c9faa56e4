#!/usr/bin/env python3
"""Has KLayout read the report databases that `check --markers` writes, and compares what it reads with what is printed.

Usage: markers.py PROGRAM [KLAYOUT]

PROGRAM is the built cellroute, and KLAYOUT the command of KLayout (klayout). Each layout of examples/faulty, and a routed one that is good, is checked with markers; KLayout
loads the file without a window (`klayout -b`) and lists its categories and items; each line of a finding must be the text of one item, in its category, in the order of the lines, and
each box must lie within a micron of the layout's own extent. The last line is `N files, M differ`.
"""

import pathlib
import subprocess
import sys
import tempfile
import xml.etree.ElementTree as tree

ROOT = pathlib.Path(__file__).resolve().parent.parent
EXAMPLES = ROOT / "examples"

# What KLayout runs: it loads the database, and prints a line for each category and each item.
SCRIPT = """
database = RBA::ReportDatabase::new("read")
database.load($file)
database.each_category { |c| puts "category\\t" + c.name }
database.each_item do |item|
  name = database.category_by_id(item.category_id).name
  cell = database.cell_by_id(item.cell_id).name
  texts = []
  boxes = []
  item.each_value do |value|
    if value.is_box?
      boxes.push(value.box.to_s)
    elsif value.is_string?
      texts.push(value.string)
    end
  end
  puts ["item", name, cell, texts.join("|"), boxes.join("|")].join("\\t")
end
"""

CATEGORIES = "Missing Doubled Strange Drawing Overlap OutOfRow Narrow Close BareCut Open Short".split()


def cases():
    """Names, designs, rules and layouts: the broken ones of the examples by the first line of each, and a good one."""
    for layout in sorted((EXAMPLES / "faulty").glob("layout_*.cif")):
        design = "pair.yal" if layout.stem == "layout_short" else "joined.yal"
        yield layout.stem, EXAMPLES / design, EXAMPLES / "sample.toml", layout
    yield "good", EXAMPLES / "joined.yal", EXAMPLES / "sample.toml", EXAMPLES / "drawn.cif"


def read_by_klayout(klayout, script, markers):
    ran = subprocess.run(
        [klayout, "-b", "-r", str(script), "-rd", f"file={markers}"], capture_output=True, text=True, timeout=120
    )
    if ran.returncode != 0:
        raise SystemExit(f"{klayout} ended with {ran.returncode}: {ran.stderr}")
    return [line.split("\t") for line in ran.stdout.splitlines() if "\t" in line]


def parsed(markers):
    """What Python's own reader of XML finds in it."""
    root = tree.parse(markers).getroot()
    names = [c.findtext("name") for c in root.find("categories")]
    items = []
    for item in root.find("items"):
        values = [v.text for v in item.find("values")]
        texts = [v for v in values if v.startswith("text: ")]
        boxes = [v.removeprefix("box: ").strip("()") for v in values if v.startswith("box: ")]
        items.append((item.findtext("category"), len(texts), boxes))
    return names, items


def corners(box):
    return [tuple(float(n) for n in corner.split(",")) for corner in box.strip("()").split(";")]


def compare(lines, rows, names, items):
    """What differs between the printed findings and what was read."""
    findings = lines[:-1]
    found = [row for row in rows if row[0] == "item"]
    if [row[1] for row in rows if row[0] == "category"] != CATEGORIES or names != CATEGORIES:
        yield "the categories"
    if [row[3] for row in found] != findings:
        yield f"the texts {[row[3] for row in found]} for {findings}"
    if [row[1] for row in found] != [line.split(" ")[0] for line in findings]:
        yield "the category of an item"
    if any(row[2] != "CIF_TOP" for row in found):
        yield "the cell of an item"
    read = [[corners(box) for box in row[4].split("|") if box] for row in found]
    if read != [[corners(box) for box in boxes] for _, _, boxes in items]:
        yield f"the boxes {read}"


def main():
    if len(sys.argv) not in (2, 3):
        raise SystemExit(__doc__)
    program, klayout = pathlib.Path(sys.argv[1]).resolve(), (sys.argv[2:] or ["klayout"])[0]
    files = differ = 0
    with tempfile.TemporaryDirectory() as room:
        script = pathlib.Path(room, "read.rb")
        script.write_text(SCRIPT)
        for name, design, rules, layout in cases():
            markers = pathlib.Path(room, f"{name}.lyrdb")
            ran = subprocess.run(
                [program, "check", design, rules, layout, "--markers", markers, "-q"], capture_output=True, text=True, timeout=120
            )
            if ran.returncode not in (0, 1):
                print(f"{name}: status {ran.returncode}, {ran.stdout.strip()}")
                if markers.exists():
                    files, differ = files + 1, differ + 1
                    print(f"{name}: a file all the same")
                continue
            names, items = parsed(markers)
            faults = list(compare(ran.stdout.splitlines(), read_by_klayout(klayout, script, markers), names, items))
            files, differ = files + 1, differ + bool(faults)
            print(f"{name}: {ran.stdout.splitlines()[-1]}, " + ("; ".join(faults) or "as printed"))
    print(f"{files} files, {differ} differ")
    return 1 if differ else 0


if __name__ == "__main__":
    sys.exit(main())
