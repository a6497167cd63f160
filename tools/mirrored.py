#!/usr/bin/env python3
"""Writes the mirrored characters, as code and as a definition, from Unicode's BidiMirroring.txt.

    python3 tools/mirrored.py BidiMirroring.txt

The file is that of Unicode 17.0.0, in Debian's package `unicode-data`. Then run `rt fmt` in crates/aat_characters."""
import os
import re
import sys

TOP = os.path.dirname(os.path.dirname(os.path.abspath(__file__)))
CRATE = f"{TOP}/crates/aat_characters"
ROW = re.compile(r"([0-9A-F]{4,6}); ([0-9A-F]{4,6}) #")


def rows_of(lines):
    return sorted((int(it[1], 16), int(it[2], 16)) for it in map(ROW.match, lines) if it)


def code(rows):
    yield "//! The characters that have a mirrored one. Written by tools/mirrored.py from Unicode 17.0.0. Do not edit.\n"
    yield ""
    yield "/// The characters that have a mirrored one, with it, rising."
    yield f"pub(crate) static MIRRORED: [(u16, char); {len(rows)}] = ["
    yield from (f"    (0x{a:04X}, '\\u{{{b:04X}}}')," for a, b in rows)
    yield "];"


def definition(rows):
    yield "-- The characters that have a mirrored one. Written by tools/mirrored.py from Unicode 17.0.0. Do not edit."
    yield "use Rattle.std.specs.Prelude.{ℕ, List, [], ◌∷◌}"
    yield ""
    yield "-- the characters that have a mirrored one, with it, as BidiMirroring.txt lists them"
    yield "abbrev pub mirrored_rows : List (ℕ × ℕ)"
    yield "mirrored_rows ="
    cells = [f"(0x{a:04X}, 0x{b:04X}) ∷" for a, b in rows]
    for at in range(0, len(cells), 5):
        yield "    " + " ".join(cells[at : at + 5]) + (" []" if at + 5 >= len(cells) else "")


def main():
    with open(sys.argv[1], encoding="utf-8") as file:
        rows = rows_of(file)
    for path, lines in ((f"{CRATE}/src/mirrored_rows.rt", code(rows)), (f"{CRATE}/specs/MirroredRows.antt", definition(rows))):
        with open(path, "w", encoding="utf-8") as file:
            file.write("\n".join(lines) + "\n")


main()
