#!/usr/bin/env python3
"""Whether docs/MESSAGES.md has each message.

    python3 bench/messages.py

Of each text that notes are made of, the front of one of the pieces between its names and numbers has to stand on the page. Printed are the texts of which none does.
"""
import pathlib
import re
import sys

ROOT = pathlib.Path(__file__).resolve().parent.parent
CRATES = ("input_notes", "fault_notes")
FRONT = 20


def texts(source):
    """The texts of a source that say what is wrong."""
    for match in re.finditer(r'format!\(in alloc;\s*"((?:[^"\\]|\\.)*)"', source):
        yield match.group(1).replace('\\"', '"').replace("\\\\", "\\")


def pieces(text):
    """The pieces of a text between names and numbers that tell it from others."""
    found = [piece.strip() for piece in re.split(r"\{[^}]*\}", text)]
    return [piece for piece in found if len(piece) >= 6]


def main():
    page = " ".join((ROOT / "docs" / "MESSAGES.md").read_text().split())
    missing = []
    for crate in CRATES:
        for path in sorted((ROOT / "crates" / crate / "src").glob("*.rt")):
            for text in texts(path.read_text()):
                parts = pieces(text)
                if parts and not any(part[:FRONT].strip() in page for part in parts):
                    missing.append(f"{path.name}: {text}")
    for line in missing:
        print(line)
    print(f"{len(missing)} messages are missing")
    sys.exit(1 if missing else 0)


main()
