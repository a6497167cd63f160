#!/usr/bin/env python3
"""Makes the fonts of the tests anew, from their descriptions.

    python3 tools/fonts.py PROGRAM            writes crates/aat/data/*.ttf
    python3 tools/fonts.py PROGRAM --check    tells which of them are not what would be written

PROGRAM is what runs `aat`, as crates/aat/out/aat; spaces part its words. Each description of crates/aat/data
becomes a font of its name. Then come variants of these with tables in formats that the writers do not write: the table's
bytes are built here, and stand in the place of those that were written.

- noncontextual_N.ttf: the lookup of the subtable in the format N, of 0, 2, 4, 6, 8 and 10.
- kern_old_0.ttf, kern_old_2.ttf: the pairs and the classes of `kern` behind the header of version 0. kern_3.ttf: the
  classes in format 3.
- cmap_N.ttf: the characters of noncontextual.ttf in format N, of 0, 4, 6 and 12. cmap_symbol.ttf: from U+F000 on, for
  symbols. cmap_macintosh.ttf: for the Macintosh, which has U+00C4, U+20AC and U+F8FF too.
- kerx_4_points.ttf, kerx_4_coordinates.ttf: the machine of kerx_4.ttf with the two other types of actions.
- names.ttf, check_values_names.ttf, check_returns_names.ttf, check_marks_names.ttf: fonts of these names with names of
  glyphs, in `post`; names.ttf is sample.ttf.
- charstrings.ttf, charstrings_cid.ttf: outlines.ttf with other outlines, in `CFF `; the second one with two Font DICTs.
- steps_1100.ttf: steps.ttf with a chain of 1,100 subtables. That of the number N has glyph N + 2 in the place of N + 1,
  but each seventh one inserts it behind that glyph.
"""
import os
import shlex
import struct
import subprocess
import sys

TOP = os.path.dirname(os.path.dirname(os.path.abspath(__file__)))
DATA = os.path.join(TOP, "crates/aat/data")


def words(*numbers):
    """Numbers of 16 bits."""
    return b"".join(struct.pack(">H", number & 0xFFFF) for number in numbers)


def longs(*numbers):
    """Numbers of 32 bits."""
    return b"".join(struct.pack(">I", number & 0xFFFFFFFF) for number in numbers)


def word_at(table, place):
    return struct.unpack_from(">H", table, place)[0]


def long_at(table, place):
    return struct.unpack_from(">I", table, place)[0]


# Files

def tables_of(font):
    """The tables of a font, by their tags."""
    found = {}
    for record in range(word_at(font, 4)):
        tag, _, offset, length = struct.unpack_from(">4sIII", font, 12 + 16 * record)
        found[tag] = font[offset:offset + length]
    return found


def font_of(tables):
    """The font of tables. The sums of the directory stay 0, as the writers leave them."""
    place = 12 + 16 * len(tables)
    version = b"OTTO" if b"CFF " in tables else longs(0x00010000)
    head, body = version + words(len(tables), 0, 0, 0), b""
    for tag, table in sorted(tables.items()):
        head += tag + longs(0, place + len(body), len(table))
        body += table + bytes(-len(table) % 4)
    return head + body


def with_table(font, tag, table):
    """A font with another table in the place of one."""
    return font_of({**tables_of(font), tag: table})


# Lookups

def search_header(size, count):
    """The header of a binary search over so many units of a size."""
    power = 1 << max(count, 1).bit_length() - 1
    return words(size, count, size * power, power.bit_length() - 1, size * (count - power))


def segments_of(pairs):
    """Runs of neighbouring glyphs, each with its first and its last glyph and the values."""
    runs = []
    for glyph, value in sorted(pairs.items()):
        if runs and runs[-1][1] + 1 == glyph:
            runs[-1][1] = glyph
            runs[-1][2].append(value)
        else:
            runs.append([glyph, glyph, [value]])
    return runs


def lookup(number, pairs, count):
    """A lookup in a format, for a font of so many glyphs. In formats 0, 8 and 10 a glyph without a value has itself."""
    low, high = min(pairs), max(pairs)
    dense = [pairs.get(glyph, glyph) for glyph in range(low, high + 1)]
    if number == 0:
        return words(0, *[pairs.get(glyph, glyph) for glyph in range(count)])
    if number == 2:
        units = [(glyph, glyph, value) for glyph, value in sorted(pairs.items())]
        body = b"".join(words(last, first, value) for first, last, value in units)
        return words(2) + search_header(6, len(units)) + body + words(0xFFFF, 0xFFFF, 0)
    if number == 4:
        runs, body, tail = segments_of(pairs), b"", b""
        start = 12 + 6 * (len(runs) + 1)
        for first, last, values in runs:
            body += words(last, first, start + len(tail))
            tail += words(*values)
        return words(4) + search_header(6, len(runs)) + body + words(0xFFFF, 0xFFFF, 0) + tail
    if number == 6:
        body = b"".join(words(glyph, value) for glyph, value in sorted(pairs.items()))
        return words(6) + search_header(4, len(pairs)) + body + words(0xFFFF, 0xFFFF)
    if number == 8:
        return words(8, low, len(dense), *dense)
    return words(10, 2, low, len(dense), *dense)


def pairs_of_lookup(table):
    """The pairs of a lookup as the writers write it, in format 6."""
    assert word_at(table, 0) == 6, "the writers write format 6"
    found = {}
    for unit in range(word_at(table, 4)):
        glyph, value = struct.unpack_from(">HH", table, 12 + 4 * unit)
        if glyph != 0xFFFF:
            found[glyph] = value
    return found


def with_lookup(font, number):
    """A font whose one subtable of `morx` is noncontextual, with its lookup in a format."""
    tables = tables_of(font)
    morx = tables[b"morx"]
    start = 8 + 16 + 12 * long_at(morx, 16)
    pairs = pairs_of_lookup(morx[start + 12:])
    body = lookup(number, pairs, word_at(tables[b"maxp"], 4))
    body += bytes(-len(body) % 4)
    head = longs(12 + len(body)) + morx[start + 4:start + 12]
    chain = morx[8:12] + longs(start - 8 + len(head) + len(body)) + morx[16:start]
    return with_table(font, b"morx", morx[:8] + chain + head + body)


# Kerning

def kern_subtables(kern):
    """The bodies of the subtables of `kern` as the writers write them, behind headers of 8 bytes."""
    place, bodies = 8, []
    for _ in range(long_at(kern, 4)):
        length = long_at(kern, place)
        bodies.append(kern[place + 8:place + length])
        place += length
    return bodies


def old_kern(body, number):
    """The table of version 0 with one subtable, whose header has 6 bytes. Offsets in a body count from its header."""
    if number == 2:
        width, left, right, array = struct.unpack_from(">4H", body)
        body = words(width, left - 2, right - 2, array - 2) + moved_classes(body, left - 8, array)
    return words(0, 1) + words(0, 6 + len(body), number << 8 | 1) + body


def moved_classes(body, left, array):
    """What stands behind the header of pairs by classes, with left offsets from a header of 6 bytes."""
    first, count = word_at(body, left), word_at(body, left + 2)
    offsets = [word_at(body, left + 4 + 2 * glyph) for glyph in range(count)]
    moved = [offset - 2 if offset >= array else offset for offset in offsets]
    return body[8:left] + words(first, count, *moved) + body[left + 4 + 2 * count:]


def class_lists(body):
    """The pairs by classes of a body: the class of each left and of each right glyph, and the rows of values."""
    width, left, right, array = struct.unpack_from(">4H", body)
    columns, lefts, rights = width // 2, {}, {}
    for glyph in range(word_at(body, left - 6)):
        offset = word_at(body, left - 4 + 2 * glyph)
        lefts[word_at(body, left - 8) + glyph] = (offset - array) // width + 1 if offset >= array else 0
    for glyph in range(word_at(body, right - 6)):
        rights[word_at(body, right - 8) + glyph] = word_at(body, right - 4 + 2 * glyph) // 2
    values = [number for (number,) in struct.iter_unpack(">h", body[array - 8:])]
    rows = [values[row:row + columns] for row in range(0, len(values), columns)]
    return lefts, rights, [[0] * columns, *rows]


def kern_3(body, count):
    """The table of version 1 with pairs by classes in format 3."""
    lefts, rights, rows = class_lists(body)
    values = sorted({value for row in rows for value in row})
    table = words(count) + bytes([len(values), len(rows), len(rows[0]), 0]) + words(*values)
    table += bytes(lefts.get(glyph, 0) for glyph in range(count))
    table += bytes(rights.get(glyph, 0) for glyph in range(count))
    table += bytes(values.index(value) for row in rows for value in row)
    table += bytes(len(table) % 2)
    return words(1, 0) + longs(1, 8 + len(table)) + words(3, 0) + table


def with_action_type(font, number):
    """A font whose one subtable of `kerx` has the format 4, with another type of actions."""
    kerx = bytearray(tables_of(font)[b"kerx"])
    flags = 8 + 12 + 16
    kerx[flags] = kerx[flags] & 0x3F | number << 6
    return with_table(font, b"kerx", bytes(kerx))


# Characters

def characters_of(cmap):
    """The characters of a table as the writers write it, with one subtable of format 12."""
    assert word_at(cmap, 12) == 12, "the writers write format 12"
    groups = (struct.unpack_from(">III", cmap, 28 + 12 * group) for group in range(long_at(cmap, 24)))
    return {first: glyph for first, _, glyph in groups}


def cmap(number, characters, platform=None):
    """The table of one subtable in a format, for a platform and encoding."""
    low, high = min(characters), max(characters)
    if number == 0:
        body = words(0, 262, 0) + bytes(characters.get(character, 0) for character in range(256))
    elif number == 4:
        runs = segments_of(characters) + [[0xFFFF, 0xFFFF, [0]]]
        ends, starts = [run[1] for run in runs], [run[0] for run in runs]
        offsets, glyphs = [], []
        for place, run in enumerate(runs):
            offsets.append(2 * (len(runs) - place + len(glyphs)))
            glyphs += run[2]
        header = search_header(2, len(runs))[2:]
        body = words(2 * len(runs)) + header[2:] + words(*ends, 0, *starts) + words(*[0] * len(runs))
        body += words(*offsets, *glyphs)
        body = words(4, 6 + len(body), 0) + body
    elif number == 6:
        glyphs = [characters.get(character, 0) for character in range(low, high + 1)]
        body = words(6, 10 + 2 * len(glyphs), 0, low, len(glyphs), *glyphs)
    else:
        groups = b"".join(longs(first, last, values[0]) for first, last, values in in_steps(characters))
        body = words(12, 0) + longs(16 + len(groups), 0, len(groups) // 12) + groups
    platform = platform or ((3, 10) if number == 12 else (0, 3) if number == 0 else (3, 1))
    return words(0, 1, *platform) + longs(12) + body


def in_steps(characters):
    """Runs of neighbouring characters whose glyphs are neighbours too."""
    runs = []
    for character, glyph in sorted(characters.items()):
        if runs and runs[-1][1] + 1 == character and runs[-1][2][-1] + 1 == glyph:
            runs[-1][1] = character
            runs[-1][2].append(glyph)
        else:
            runs.append([character, character, [glyph]])
    return runs


def step(number):
    """A subtable of `morx` with one glyph more in the place of a glyph, or behind it."""
    glyph = number + 1
    if number % 7 < 6:
        kind, body = 4, words(6, 4, 1, 4, 0, 0, glyph, glyph + 1, 0xFFFF, 0xFFFF)
    else:
        classes = words(8, glyph, 1, 4)
        states = words(0, 0, 0, 0, 1, 0, 0, 0, 0, 1)
        entries = words(0, 0, 0xFFFF, 0xFFFF, 0, 0x0020, 0, 0xFFFF)
        start = 20
        kind = 5
        body = longs(5, start, start + 8, start + 28, start + 44) + classes + states + entries + words(glyph + 1, 0)
    return longs(12 + len(body), 0x20000000 | kind, 1) + body


def with_steps(font, count):
    """A font with a chain of so many steps."""
    subtables = b"".join(step(number) for number in range(count))
    chain = longs(1, 16 + len(subtables), 0, count) + subtables
    return with_table(font, b"morx", words(2, 0) + longs(1) + chain)


# Charstrings

OPERATORS = {
    "hstem": 1, "vstem": 3, "vmoveto": 4, "rlineto": 5, "hlineto": 6, "vlineto": 7, "rrcurveto": 8, "callsubr": 10,
    "return": 11, "endchar": 14, "hstemhm": 18, "hintmask": 19, "cntrmask": 20, "rmoveto": 21, "hmoveto": 22,
    "vstemhm": 23, "rcurveline": 24, "rlinecurve": 25, "vvcurveto": 26, "hhcurveto": 27, "callgsubr": 29,
    "vhcurveto": 30, "hvcurveto": 31, "hflex": 3106, "flex": 3107, "hflex1": 3108, "flex1": 3109,
}
CHARSET, CHAR_STRINGS, PRIVATE, SUBRS, ROS, FD_ARRAY, FD_SELECT = 15, 17, 18, 19, 3102, 3108, 3109


def code(operator):
    """The bytes of an operator: one above 255 stands behind 12."""
    return bytes([operator]) if operator < 256 else words(operator)


def token(word):
    """The bytes of a word of a charstring: an operator, bytes of a mask, or a number in the shortest form."""
    if word in OPERATORS:
        return code(OPERATORS[word])
    if word.startswith("0x"):
        return bytes.fromhex(word[2:])
    number = float(word)
    if number != int(number):
        return b"\xFF" + longs(int(number * 65536))
    number = int(number)
    if abs(number) <= 107:
        return bytes([number + 139])
    if abs(number) <= 1131:
        return words((abs(number) - 108) + (0xF700 if number > 0 else 0xFB00))
    return b"\x1C" + words(number)


def charstring(text):
    return b"".join(map(token, text.split()))


def index(objects):
    """An INDEX with offsets of 16 bits."""
    if not objects:
        return words(0)
    ends = [1 + sum(map(len, objects[:count])) for count in range(len(objects) + 1)]
    return words(len(objects)) + b"\2" + words(*ends) + b"".join(objects)


def dictionary(entries):
    """A DICT of keys with numbers, which have five bytes each."""
    return b"".join(b"".join(b"\x1D" + longs(number) for number in numbers) + code(key) for key, numbers in entries)


def private(locals_, start):
    """A Private DICT that begins there with its local subroutines behind it, and the entry that names it."""
    size = len(dictionary([(SUBRS, [0])]))
    return dictionary([(SUBRS, [size])]) + index(locals_), (PRIVATE, [size, start])


def cff(glyphs, globals_, fonts, ranges=None):
    """The table of the texts of charstrings and of global subroutines, and for each Font DICT those of its local ones.
    In a CID font ranges of glyphs, by their first ones, have the Font DICTs."""
    glyphs, globals_ = list(map(charstring, glyphs)), list(map(charstring, globals_))
    strings = [b"Adobe", b"Identity"] if ranges else []

    def laid_out(places):
        """The table whose parts stand at these places, and the places where they do."""
        top = [(ROS, [391, 392, 0])] if ranges else []
        top += [(CHAR_STRINGS, places[:1])]
        privates = [private(list(map(charstring, it)), place) for it, place in zip(fonts, places[4:])]
        if ranges:
            top += [(CHARSET, places[1:2]), (FD_SELECT, places[2:3]), (FD_ARRAY, places[3:4])]
        else:
            top += [(CHARSET, [0]), privates[0][1]]
        parts = [index(glyphs)]
        parts.append(b"\2" + words(1, len(glyphs) - 2) if ranges else b"")
        spans = b"".join(words(first) + bytes([number]) for number, first in enumerate(ranges or []))
        parts.append(b"\3" + words(len(ranges)) + spans + words(len(glyphs)) if ranges else b"")
        parts.append(index([dictionary([entry]) for _, entry in privates]) if ranges else b"")
        parts += [it for it, _ in privates]
        head = b"\1\0\4\2" + index([b"Test"]) + index([dictionary(top)]) + index(strings) + index(globals_)
        return head + b"".join(parts), [len(head + b"".join(parts[:part])) for part in range(len(parts))]

    _, places = laid_out([0] * (4 + len(fonts)))
    return laid_out(places)[0]


# Lines with hints; curves by each operator; subroutines within each other, and parts of units; flexes.
GLYPHS = [
    "endchar",
    "120 0 80 540 80 hstemhm 100 90 320 90 hintmask 0xF0 100 hmoveto 500 hlineto 700 vlineto -500 hlineto"
    " cntrmask 0xA0 90 -620 rmoveto 540 320 -540 vlineto endchar",
    "30 350 rmoveto -110 60 -90 120 vhcurveto 80 50 40 70 20 hvcurveto 10 -20 30 -40 50 60 70 80 rcurveline"
    " -30 20 -40 50 10 60 rlinecurve 5 -40 -60 20 -50 hhcurveto 3 20 -30 10 40 vvcurveto"
    " -10 20 -30 40 -50 60 rrcurveto 0 -300 rmoveto 40 10 20 30 -40 -10 -20 -30 hvcurveto endchar",
    "1 4 hstem 50.25 -20.75 rmoveto -107 callsubr 200.5 -107 callgsubr endchar",
    "100 vmoveto 50 60 70 80 90 100 -110 hflex 10 20 30 40 50 60 -20 -10 15 -35 45 25 50 flex"
    " 10 5 20 30 40 -50 -60 7 -70 hflex1 20 30 -10 40 15 -50 10 20 300 -60 45 flex1 endchar",
]
GLOBALS = ["100.125 hlineto return"]
LOCALS = ["300 hlineto -106 callsubr return", "0.25 100 -50.5 150 25.125 75.375 rrcurveto return"]
# Each Font DICT has another first subroutine.
CID_GLYPHS = ["endchar"] + ["100 50 rmoveto -107 callsubr endchar"] * 4
CID_LOCALS = [["200 300 -200 hlineto return"], ["200 hlineto -100 400 rlineto return"]]


def with_charstrings(font, table):
    """A font with this table in the place of its outlines."""
    tables = {tag: it for tag, it in tables_of(font).items() if tag not in (b"glyf", b"loca")}
    return font_of({**tables, b"CFF ": table})


# Names

# Numbers of standard names and texts of own ones, for all glyphs but the last one of the sample.
SAMPLE_NAMES = [0, 3, 16, 68, 73, 76, 79, "f_l", "f_i", 141, "a.sc", "f.sc"]
CHECKED_NAMES = [
    ("check_values", [0, 68, "b.alt", 70], ["b.alt"]),
    ("check_returns", [0, 68, "b.alt", 70], ["b.alt"]),
    ("check_marks", [0, 68, 69, "mark"], ["mark"]),
]


def post(names, strings):
    """The table of version 2 of these names, whose own ones stand in this order."""
    numbers = [name if isinstance(name, int) else 258 + strings.index(name) for name in names]
    texts = b"".join(bytes([len(text)]) + text.encode() for text in strings)
    return longs(0x00020000, 0, 0, 0, 0, 0, 0, 0) + words(len(numbers), *numbers) + texts


def variants(fonts):
    """The fonts with tables in other formats, by their names."""
    made, plain = {}, fonts["noncontextual"]
    for number in (0, 2, 4, 6, 8, 10):
        made[f"noncontextual_{number}"] = with_lookup(plain, number)
    for number in (0, 4, 6, 12):
        found = characters_of(tables_of(plain)[b"cmap"])
        made[f"cmap_{number}"] = with_table(plain, b"cmap", cmap(number, found))
    symbols = {0xF000 + character: glyph for character, glyph in found.items()}
    made["cmap_symbol"] = with_table(plain, b"cmap", cmap(4, symbols, (3, 0)))
    letters = {**found, 0x80: found[ord("a")], 0xDB: found[ord("b")], 0xF0: found[ord("c")]}
    made["cmap_macintosh"] = with_table(plain, b"cmap", cmap(0, letters, (1, 0)))
    pairs, classes = (fonts[name] for name in ("kern_pairs", "kern_classes"))
    listed = kern_subtables(tables_of(pairs)[b"kern"])[0]
    made["kern_old_0"] = with_table(pairs, b"kern", old_kern(listed, 0))
    arrays = kern_subtables(tables_of(classes)[b"kern"])[0]
    count = word_at(tables_of(classes)[b"maxp"], 4)
    made["kern_old_2"] = with_table(classes, b"kern", old_kern(arrays, 2))
    made["kern_3"] = with_table(classes, b"kern", kern_3(arrays, count))
    made["steps_1100"] = with_steps(fonts["steps"], 1100)
    made["names"] = font_of({**tables_of(fonts["sample"]), b"post": post(SAMPLE_NAMES, ["f_i", "f_l", "a.sc", "f.sc"])})
    for name, names, own in CHECKED_NAMES:
        made[f"{name}_names"] = font_of({**tables_of(fonts[name]), b"post": post(names, own)})
    made["charstrings"] = with_charstrings(fonts["outlines"], cff(GLYPHS, GLOBALS, [LOCALS]))
    made["charstrings_cid"] = with_charstrings(fonts["outlines"], cff(CID_GLYPHS, [], CID_LOCALS, [0, 3]))
    made["kerx_4_points"] = with_action_type(fonts["kerx_4"], 0)
    made["kerx_4_coordinates"] = with_action_type(fonts["kerx_4"], 2)
    return made


def described(program):
    """The fonts of the descriptions, by their names."""
    fonts = {}
    for name in sorted(it for it in os.listdir(DATA) if it.endswith(".json")):
        path = os.path.join(DATA, name)
        run = subprocess.run([*shlex.split(program), "make", path], stdout=subprocess.PIPE, check=False)
        if run.returncode != 0:
            sys.exit(f"{path} is not made")
        fonts[name.removesuffix(".json")] = run.stdout
    return fonts


def main():
    if len(sys.argv) not in (2, 3):
        sys.exit(__doc__)
    fonts = described(sys.argv[1])
    different = 0
    for name, font in {**fonts, **variants(fonts)}.items():
        path = os.path.join(DATA, name + ".ttf")
        if "--check" not in sys.argv:
            with open(path, "wb") as file:
                file.write(font)
            continue
        if not os.path.exists(path) or open(path, "rb").read() != font:
            different += 1
            print(f"{path} is not what is made")
    sys.exit(1 if different else 0)


if __name__ == "__main__":
    main()
