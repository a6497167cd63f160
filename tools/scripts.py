#!/usr/bin/env python3
"""Writes the scripts by their tags, from Unicode's PropertyValueAliases.txt.

    python3 tools/scripts.py PropertyValueAliases.txt

The file is that of Unicode 17.0.0, in Debian's package `unicode-data`. Then run `rt fmt` in crates/aat_typesetter."""
import os
import re
import sys

TOP = os.path.dirname(os.path.dirname(os.path.abspath(__file__)))
ROW = re.compile(r"sc\s*;\s*(\w+)\s*;\s*(\w+)")

HEAD = """//! The scripts by their tags of ISO 15924. Written by tools/scripts.py from Unicode 17.0.0. Do not edit.
ghost use Rattle.std.specs.Prelude.{◌≡◌};
ghost use Rattle.aat_typesetter.specs.ScriptTags.{script_of_tag};

use aat_characters::Script;

/// The tags, as Unicode has them, and their scripts.
const SCRIPTS: [(u32, Script); {}] = [
"""
TAIL = """];

/// The script of a tag of ISO 15924, of four letters in any case, the first in the high byte. `None` where it is no script
/// of Unicode 17.0.0, as `Hans`.
pub fn script_of_tag(tag: u32) -> Option<Script>
    ensures { result ≡ script_of_tag tag }
{
    let cased = (tag & 0xDFDF_DFDF) | 0x0020_2020;
    let found = SCRIPTS.iter().find(|row| row.0 == cased);
    found.map(|row| row.1)
}
"""


def rows_of(lines):
    """The tag and the name of each script, but of Katakana_Or_Hiragana, which no character has."""
    found = [(it[1], it[2].replace("_", "")) for it in map(ROW.match, lines) if it and it[1] != "Hrkt"]
    return sorted(found)


def number_of(tag):
    """The digits of a tag as a number."""
    digits = tag.encode().hex().upper()
    return f"{digits[:4]}_{digits[4:]}"


def main():
    with open(sys.argv[1], encoding="utf-8") as file:
        rows = rows_of(file)
    with open(f"{TOP}/crates/aat_typesetter/src/script_tags.rt", "w", encoding="utf-8") as file:
        file.write(HEAD.replace("{}", str(len(rows))))
        file.writelines(f"    (0x{number_of(tag)}, Script::{name}),\n" for tag, name in rows)
        file.write(TAIL)


main()
