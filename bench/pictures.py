#!/usr/bin/env python3
"""Makes the pictures of the documents anew, and has a browser show them.

Usage: pictures.py PROGRAM [--chromium chromium] [--out docs]

PROGRAM is the built cellroute. It routes examples/full_adder.yal under the everyday rules and draws the layout as OUT/full_adder.svg; then Chromium, without a window, shows that file and saves what
is seen as OUT/full_adder.png, which must have each colour of the style sheet. The last line is `shown`, or says which colours are missing.
"""
import argparse
import pathlib
import re
import struct
import subprocess
import tempfile
import zlib

ROOT = pathlib.Path(__file__).resolve().parent.parent
EXAMPLES = ROOT / "examples"


def ended(words):
    ran = subprocess.run([str(word) for word in words], capture_output=True, text=True, timeout=300)
    if ran.returncode != 0:
        raise SystemExit(f"{words[0]} ended with {ran.returncode}:\n{ran.stdout}{ran.stderr}")


def filtered(kind, line, above, step):
    """A line of bytes of a PNG, without its filter."""
    for i, byte in enumerate(line):
        left = line[i - step] if i >= step else 0
        up = above[i]
        corner = above[i - step] if i >= step else 0
        near = left + up - corner
        paeth = min((abs(near - left), 0, left), (abs(near - up), 1, up), (abs(near - corner), 2, corner))[2]
        line[i] = (byte + (0, left, up, (left + up) // 2, paeth)[kind]) & 255
    return line


def colours_of(picture):
    """The colours of the points of a PNG of 8 bits a channel, red, green and blue."""
    data, at, packed = picture.read_bytes(), 8, b""
    while at < len(data):
        size, kind = struct.unpack(">I4s", data[at : at + 8])
        if kind == b"IHDR":
            width, height, depth, form = struct.unpack(">IIBB", data[at + 8 : at + 18])
        if kind == b"IDAT":
            packed += data[at + 8 : at + 8 + size]
        at += 12 + size
    if depth != 8 or form not in (2, 6):
        raise SystemExit(f"{picture} is a PNG of another form")
    step = 3 if form == 2 else 4
    raw, above, found = zlib.decompress(packed), bytearray(width * step), set()
    for row in range(height):
        start = row * (width * step + 1)
        above = filtered(raw[start], bytearray(raw[start + 1 : start + 1 + width * step]), above, step)
        found |= {bytes(above[i : i + 3]) for i in range(0, len(above), step)}
    return found


def main():
    words = argparse.ArgumentParser(description=__doc__, formatter_class=argparse.RawDescriptionHelpFormatter)
    words.add_argument("program", type=pathlib.Path)
    words.add_argument("--chromium", default="chromium")
    words.add_argument("--out", type=pathlib.Path, default=ROOT / "docs")
    asked = words.parse_args()
    program, out = asked.program.resolve(), asked.out.resolve()
    rules = EXAMPLES / "everyday.toml"
    drawn, seen = out / "full_adder.svg", out / "full_adder.png"
    with tempfile.TemporaryDirectory() as folder:
        layout = pathlib.Path(folder) / "full_adder.cif"
        ended([program, "route", EXAMPLES / "full_adder.yal", rules, layout, "-q"])
        ended([program, "draw", layout, drawn, "--rules", rules])
        ended(
            [asked.chromium, "--headless", "--no-sandbox", "--disable-gpu", f"--user-data-dir={folder}/browser", f"--screenshot={seen}", "--window-size=900,900", drawn.as_uri()]
        )
    wanted = set(re.findall(r"\.layer-\w+ \{ fill: #(\w{6});", drawn.read_text()))
    shown = {colour.hex() for colour in colours_of(seen)}
    missing = sorted(wanted - shown)
    print("missing " + " ".join(missing) if missing else "shown")
    raise SystemExit(bool(missing))


if __name__ == "__main__":
    main()
