#!/usr/bin/env python3
"""Writes fonts and texts to measure: the workloads of docs/BENCH.md.

    python3 tools/workloads.py FOLDER

Each workload is a font, NAME.ttf, and so many characters of a line. The folder gets the fonts, the texts LENGTH.txt,
and `requests`, which has the words of `aat bench` for each workload and length, a line each. HarfBuzz reads the same
files: `hb-shape NAME.ttf --text-file LENGTH.txt --no-glyph-names` draws the same glyphs at the same places, but that
12.3.2 looks up the classes of ligatures and of inserted glyphs.

- Glyph g is the character U+4E00 + g, an ideograph, which no shaper changes before substitution. It is g + 500 units
  wide. The classes of GDEF name no glyph, so that no shaper makes classes up. NAME-classes.ttf is the same font with
  classes: most glyphs are bases, some ligatures and marks.
- A line has glyphs 1 to 200 in an order that has no rule in it, and each line another one.
- The worst machines take the whole line at each turn, and the worst tables have more subtables or chains than a font.
- A subtable of morx is on unless a feature switches it off: liga, dlig, clig and hlig do.
- Lookups and classes that name most glyphs are arrays (format 8), those of a few glyphs lists (format 6).
"""
import os
import struct
import sys

# The glyphs of lines are 1 to LAST. Some tables name glyphs from STRANGERS on, which no line has.
LAST = 200
STRANGERS = 300
GLYPHS = 321
FIRST_CHARACTER = 0x4E00

# The classes that have a meaning of their own; those of a table follow.
GIVEN_CLASSES = 4
NONE = 0xFFFF

# Bits of entries: a glyph is marked or pushed, a ligature is made, a span ends, a glyph goes in at the cursor or mark.
MARK = 0x8000
JOIN = 0xA000
MARK_LAST = 0x2000
ONE_AT_CURSOR = 0x0020
ONE_AT_MARK = 0x0001

# The lengths of lines, with the place, the distance and the span of requests over them, and how many lines a text has.
LINES = {8: (185, 2, 1, 2_500), 20: (185, 2, 1, 1_000), 2_000: (185, 10, 5, 10), 200_000: (185, 1_000, 500, 1)}

# The lengths of lines of the worst workloads, whose time may grow with the square of a line. A text is one line, but
# those of a length of LINES.
WORST_LINES = (20, 1_000, 2_000, 4_000, 16_000, 64_000)

# The numbers of a step of a generator of 64 bits, of which the upper half is taken: a low bit comes back after few steps.
FACTOR = 6364136223846793005
ADDEND = 1442695040888963407


def words(*numbers):
    """Numbers of 16 bits."""
    return struct.pack(f">{len(numbers)}H", *(number & 0xFFFF for number in numbers))


def longs(*numbers):
    """Numbers of 32 bits."""
    return struct.pack(f">{len(numbers)}I", *numbers)


def padded(content):
    """Bytes up to a multiple of four."""
    return content + bytes(-len(content) % 4)


def search_numbers(count, size):
    """What a table tells of a search among so many units of a size: a range, its exponent and what is left."""
    exponent = max(count, 1).bit_length() - 1
    return size << exponent, exponent, size * count - (size << exponent)


def glyph_of(number):
    """A glyph for a number."""
    return number % LAST + 1


# Lines.


def line_of(length, number):
    """The glyphs of a line of a text."""
    state = number
    glyphs = []
    for _place in range(length):
        state = state * FACTOR + ADDEND & 0xFFFF_FFFF_FFFF_FFFF
        glyphs.append(glyph_of(state >> 32))
    return glyphs


def text_of(length, lines):
    """A text of so many lines."""
    return "".join(
        "".join(chr(FIRST_CHARACTER + glyph) for glyph in line_of(length, number)) + "\n" for number in range(lines)
    )


# Lookups.


def array(first, values):
    """A lookup of format 8: the values of glyphs one behind the other."""
    return words(8, first, len(values), *values)


def units(pairs):
    """A lookup of format 6: glyphs, rising, with their values."""
    flat = [number for pair in pairs for number in pair]
    return words(6, 4, len(pairs), *search_numbers(len(pairs), 4), *flat, NONE, NONE)


def multiples(factor):
    """A lookup of all glyphs, in which the value of each is the glyph for a multiple of it. One has itself."""
    values = [glyph_of(glyph * factor & 0xFFFF) for glyph in range(1, LAST + 1)]
    values[factor] = factor + 1
    return array(1, values)


def themselves(glyphs):
    """A lookup in which each glyph has itself."""
    return units([(glyph, glyph) for glyph in glyphs])


# State tables.


def own_classes(classes):
    """The class of each glyph, where a table's own classes take turns."""
    own = classes - GIVEN_CLASSES
    return [glyph % own + GIVEN_CLASSES for glyph in range(1, LAST + 1)]


def machine(classes, class_table, states, entry, lists=()):
    """An extended state table: `entry` gives the bytes of the entry of a state and a class. Lists stand behind it, whose
    offsets follow those of the table."""
    entries = [entry(state, column) for state in range(states) for column in range(classes)]
    distinct = sorted(set(entries))
    index = {content: place for place, content in enumerate(distinct)}
    blocks = [class_table, words(*(index[content] for content in entries)), b"".join(distinct), *lists]
    header, body = longs(classes), b""
    start = 4 * (len(blocks) + 1)
    for block in blocks:
        header += longs(start + len(body))
        body += padded(block)
    return header + body


def dense_machine(classes, states, entry, lists=()):
    """A machine in which each glyph has one of the table's own classes."""
    return machine(classes, array(1, own_classes(classes)), states, entry, lists)


def sparse_machine(glyphs, entry, lists=()):
    """A machine that waits in one state, in which some glyphs have a class of their own."""
    class_table = units([(glyph, GIVEN_CLASSES) for glyph in glyphs])
    return machine(GIVEN_CLASSES + 1, class_table, 2, lambda _state, column: entry(column), lists)


def far_machine(first, others, lists=()):
    """A machine in which all glyphs have one class: the first glyph of a line has one entry, all others another one."""
    class_table = array(1, [GIVEN_CLASSES] * LAST)
    idle = bytes(len(first))

    def entry(state, column):
        if column < GIVEN_CLASSES:
            return idle[:4] + words(*(NONE for _ in range(len(first) // 2 - 2)))
        return others if state == 2 else first

    return machine(GIVEN_CLASSES + 1, class_table, 3, entry, lists)


def number_of(state, column):
    """A number for a state and a class."""
    return state * 7 + column * 5


def joining(state, column):
    """Joins the last two glyphs in a fourth of its entries, and else holds the glyph."""
    number = number_of(state, column)
    if column < GIVEN_CLASSES:
        return words(0, 0, NONE)
    return words(number % 24, JOIN, 0) if number % 4 == 0 else words(number % 24, MARK, NONE)


def replacing(state, column):
    """Marks a glyph in a third of its entries, and replaces the marked or the current one in most."""
    number = number_of(state, column)
    marked = number % 12 if number % 4 == 1 else NONE
    current = number % 12 if number % 2 == 0 else NONE
    return words(number % 8, MARK if number % 3 == 0 else 0, marked, current)


def reordering(state, column):
    """Begins a span at the first of its own classes, and ends it at the others, with all verbs."""
    number = number_of(state, column)
    if column < GIVEN_CLASSES:
        return words(0, 0)
    return words(number % 4, MARK if column == GIVEN_CLASSES else MARK_LAST | number % 16)


def inserting(state, column):
    """Inserts a glyph at the first of its own classes, marks at the second, and inserts at the mark at the third."""
    flags = {4: ONE_AT_CURSOR, 5: MARK, 6: ONE_AT_MARK}.get(column, 0)
    current = state % 4 if column == 4 else NONE
    marked = state % 4 if column == 6 else NONE
    return words(number_of(state, column) % 4, flags, current, marked)


def waking(*extra):
    """Holds, marks or begins a span at the glyphs that have a class of their own, and passes all others."""
    return lambda column: words(0, MARK, *extra) if column == GIVEN_CLASSES else words(0, 0, *(NONE for _ in extra))


# Subtables of morx, as their kinds and their bytes.


def noncontextual():
    return [(4, multiples(factor)) for factor in (7, 9, 11, 13, 17, 19, 21, 23)]


def ligature_lists():
    """Two actions make a ligature of two glyphs, whose components add up to less than 16."""
    components = words(*(glyph % 8 for glyph in range(256)))
    joined = words(*(glyph_of(place * 12) for place in range(16)))
    return [longs(0, 0x8000_0000), components, joined]


def ligatures():
    return [(2, dense_machine(16, 24, joining, ligature_lists()))]


def lookup_list(lookups):
    """Lookups behind their offsets."""
    offsets, body = b"", b""
    for lookup in lookups:
        offsets += longs(4 * len(lookups) + len(body))
        body += padded(lookup)
    return offsets + body


def contextual():
    lookups = [multiples(factor) for factor in (7, 9, 11, 13, 17, 19, 21, 23, 27, 29, 31, 33)]
    return [(1, dense_machine(12, 8, replacing, [lookup_list(lookups)]))]


def rearrangement():
    return [(0, dense_machine(8, 4, reordering))]


def insertion():
    return [(5, dense_machine(20, 4, inserting, [words(5, 17, 29, 101)]))]


# All kinds, as they take turns.
KINDS = (2, 1, 4, 0, 5)


def sleeper(kind, glyphs):
    """A subtable of a kind that acts at some glyphs alone, and changes nothing there."""
    if kind == 0:
        return sparse_machine(glyphs, waking())
    if kind == 1:
        return sparse_machine(glyphs, waking(NONE, 0), [lookup_list([themselves(glyphs)])])
    if kind == 2:
        return sparse_machine(glyphs, waking(NONE), [b"", b"", b""])
    if kind == 4:
        return themselves(glyphs)
    return sparse_machine(glyphs, waking(NONE, NONE), [b""])


def mixed(glyphs_of):
    """Twenty subtables of all kinds, each of which acts at a few glyphs alone, as most subtables of a font do."""
    made = []
    for number in range(20):
        kind = KINDS[number % 5]
        glyphs = [glyph_of(glyph) for glyph in glyphs_of(number)] + [STRANGERS + number]
        made.append((kind, sleeper(kind, glyphs)))
    return made


def five_of_two(number):
    return [number * 7 + place * 2 for place in range(5)] if number in (3, 12) else []


# The worst.


def far_replacement():
    """Marks the first glyph, and replaces it at each other one."""
    lists = [lookup_list([multiples(7)])]
    return [(1, far_machine(words(2, MARK, NONE, NONE), words(2, 0, 0, NONE), lists))]


def far_ligature():
    """Joins each glyph to the first."""
    return [(2, far_machine(words(2, MARK, NONE), words(2, JOIN, 0), ligature_lists()))]


def far_insertion():
    """Marks the first glyph, and inserts one behind it at each other one."""
    return [(5, far_machine(words(2, MARK, NONE, NONE), words(2, ONE_AT_MARK, NONE, 0), [words(5)]))]


# A list of as many glyphs as an entry can put in at once.
MOST_AT_ONCE = 31
LIST = words(*(5, 17, 29, 101) * 7, 5, 17, 29)


def insertion_31():
    """Inserts as many glyphs as can be at the glyphs of one class."""
    most = words(0, MOST_AT_ONCE << 5, 0, NONE)
    return [(5, dense_machine(5, 1, lambda _state, column: most if column == 4 else words(0, 0, NONE, NONE), [LIST]))]


def far_insertion_31():
    """As the far insertion, as many glyphs as can be."""
    return [(5, far_machine(words(2, MARK, NONE, NONE), words(2, MOST_AT_ONCE, NONE, 0), [LIST]))]


def cells():
    """A contextual machine of 64,000 cells."""
    def entry(state, column):
        number = number_of(state, column)
        if column < GIVEN_CLASSES:
            return words(0, 0, NONE, NONE)
        marks, replaces = number % 3 == 0, number % 4 == 1
        at_mark = number % 12 if replaces else NONE
        return words(number % 320, MARK if marks else 0, at_mark, number % 12 if number % 2 == 0 else NONE)

    lookups = [multiples(factor) for factor in (7, 9, 11, 13, 17, 19, 21, 23, 27, 29, 31, 33)]
    return [(1, dense_machine(200, 320, entry, [lookup_list(lookups)]))]


def sleepers(count):
    """So many subtables of all kinds, none of which acts at a glyph of a line."""
    return [(kind, sleeper(kind, [STRANGERS + number % 20])) for number in range(count) for kind in [KINDS[number % 5]]]


def wakers(count):
    """So many subtables of all kinds, each of which acts at one glyph of the lines."""
    made = []
    for number in range(count):
        kind = KINDS[number % 5]
        made.append((kind, sleeper(kind, [glyph_of(number * 7), STRANGERS])))
    return made


# Tables.


def chain(subtables):
    """A chain of subtables for all text, which each setting switches on or off."""
    settings = b""
    for on in (2, 4, 18, 20):
        settings += words(1, on) + longs(1, 0xFFFF_FFFF) + words(1, on + 1) + longs(0, 0xFFFF_FFFE)
    body = b""
    for kind, content in subtables:
        content = padded(content)
        body += longs(12 + len(content), 0x2000_0000 | kind, 1) + content
    return longs(1, 16 + len(settings) + len(body), 8, len(subtables)) + settings + body


def morx(chains):
    """Chains of subtables, one behind the other."""
    return words(2, 0) + longs(len(chains)) + b"".join(chain(subtables) for subtables in chains)


def feat():
    """The name of ligatures, whose eight settings do not exclude one another."""
    names = b"".join(words(setting, 256) for setting in (2, 3, 4, 5, 18, 19, 20, 21))
    return longs(0x0001_0000) + words(1, 0) + longs(0) + words(1, 8) + longs(24) + words(0, 256) + names


def substituted(*chains):
    """The tables of a font that substitutes."""
    return {"morx": morx(chains), "feat": feat()}


def in_chains(subtables):
    """The tables of a font that substitutes, with a chain for each subtable."""
    return substituted(*([subtable] for subtable in subtables))


def kern(number, content):
    """The kerning table of one subtable for rows, with Apple's header."""
    return longs(0x0001_0000, 1, 8 + len(content)) + words(number, 0) + content


def kerx(number, content):
    """The extended kerning table of one subtable for rows."""
    content = padded(content)
    return words(2, 0) + longs(1, 12 + len(content), number, 0) + content


def units_of(number, bound):
    """A number of units for a number, below a bound and above its opposite."""
    return number % bound if number % 2 == 0 else -(number % bound)


def pair_list():
    """Pairs of each glyph with every tenth one, and their values."""
    rights = [(left, place * 10 + left % 10 + 1) for left in range(1, LAST + 1) for place in range(20)]
    return [(left, right, units_of(left * right, 41)) for left, right in rights]


def listed_pairs(long):
    """The pairs of a subtable of format 0, with numbers of 32 or of 16 bits before them."""
    pairs = pair_list()
    header = (longs if long else words)(len(pairs), *search_numbers(len(pairs), 6))
    return header + b"".join(words(*pair) for pair in pairs)


def classed_pairs():
    """The same pairs by classes, of which each glyph has one of its own: format 2 of kerx, since its rows begin further
    on than an offset of kern can say."""
    values = [0] * (LAST + 1) ** 2
    for left, right, value in pair_list():
        values[left * (LAST + 1) + right] = value
    left = padded(array(1, [glyph * (LAST + 1) for glyph in range(1, LAST + 1)]))
    right = padded(array(1, range(1, LAST + 1)))
    header = longs(2 * (LAST + 1), 28, 28 + len(left), 28 + len(left) + len(right))
    return header + left + right + words(*values)


# Two lists of two values, of which an odd one is the last. HarfBuzz uses a list only where as many numbers follow as the
# stack has glyphs, of which there are up to eight, so there are more.
VALUES = (20, 11, -12, 7, *[0] * 8)


def pushes(column):
    """Pushes the glyphs of three of its own four classes."""
    return MARK if column in (4, 5, 6) else 0


def pushing(state, column):
    """Pushes glyphs, and at the third of its own classes gives two of them values, which an offset names."""
    return words(column % 2, pushes(column), state % 2 * 4 if column == 6 else NONE)


def plain_machine():
    """The same machine in the form of kern: offsets stand for states and values, and bytes for entries."""
    classes, states = 8, 2
    class_table = words(1, LAST) + bytes(own_classes(classes))
    rows = 10 + len(class_table)
    entries = rows + classes * states
    values = entries + 4 * classes * states
    body = b""
    for state in range(states):
        for column in range(classes):
            named = values + state % 2 * 4 if column == 6 else 0
            body += words(rows + column % 2 * classes, pushes(column) | named)
    header = words(classes, 10, rows, entries, values)
    return header + class_table + bytes(range(classes * states)) + body + words(*VALUES)


def attaching(state, column):
    """Marks a glyph at the first of its own classes, and attaches glyphs to it at the next two."""
    action = number_of(state, column) % 4 if column in (5, 6) else NONE
    return words(column % 2, MARK if column == 4 else 0, action)


def anchored_machine():
    """A machine that attaches by anchor points, whose list begins at the offset beside the type of its actions."""
    content = dense_machine(8, 2, attaching, [b""])
    offset = struct.unpack(">I", content[16:20])[0]
    return content[:16] + longs(1 << 30 | offset) + content[20:] + words(0, 0, 1, 2, 3, 1, 2, 3)


def ankr():
    """Four anchor points for each glyph."""
    points = b""
    for glyph in range(1, LAST + 1):
        points += longs(4)
        for place in range(4):
            number = glyph * 31 + place * 57
            points += words(units_of(number, 500), units_of(number, 300))
    offsets = padded(array(1, [place * 20 for place in range(LAST)]))
    return words(0, 0) + longs(12, 12 + len(offsets)) + offsets + points


# Fonts.


def head():
    sums = longs(0x0001_0000, 0x0001_0000, 0, 0x5F0F_3CF5)
    return sums + words(0, 1000) + bytes(16) + words(0, 0, 1000, 1000, 0, 8, 2, 0, 0)


def cmap():
    """The characters of the glyphs, in a table of format 12."""
    group = longs(FIRST_CHARACTER + 1, FIRST_CHARACTER + GLYPHS - 1, 1)
    return words(0, 1, 3, 10) + longs(12) + words(12, 0) + longs(28, 0, 1) + group


def glyph_classes():
    """GDEF with the classes of glyphs: of twenty, two are ligatures, one is a mark, and the others are bases."""
    classes = [{7: 2, 17: 2, 13: 3}.get(glyph % 20, 1) for glyph in range(1, GLYPHS)]
    return longs(0x0001_0000) + words(12, 0, 0, 0) + words(1, 1, len(classes), *classes)


def plain_tables():
    """The tables that each font has."""
    return {
        "head": head(),
        "hhea": longs(0x0001_0000) + words(800, -200, 0, 1000, *[0] * 11, GLYPHS),
        "maxp": longs(0x0000_5000) + words(GLYPHS),
        "hmtx": words(*(number for glyph in range(GLYPHS) for number in (500 + glyph, 0))),
        "cmap": cmap(),
        "GDEF": longs(0x0001_0000) + words(12, 0, 0, 0, 2, 0),
    }


def checksum(content):
    return sum(number for (number,) in struct.iter_unpack(">I", padded(content))) & 0xFFFF_FFFF


def font(tables):
    """The bytes of a font with these tables besides those that each has."""
    tables = sorted({**plain_tables(), **tables}.items())
    directory = longs(0x0001_0000) + words(len(tables), *search_numbers(len(tables), 16))
    body, start = b"", 12 + 16 * len(tables)
    for tag, content in tables:
        directory += tag.encode() + longs(checksum(content), start + len(body), len(content))
        body += padded(content)
    return directory + body


FONTS = {
    "noncontextual": lambda: substituted(noncontextual()),
    "ligatures": lambda: substituted(ligatures()),
    "contextual": lambda: substituted(contextual()),
    "rearrangement": lambda: substituted(rearrangement()),
    "insertion": lambda: substituted(insertion()),
    "mixed-asleep": lambda: substituted(mixed(lambda number: [])),
    "mixed-two-awake": lambda: substituted(mixed(five_of_two)),
    "mixed-each-awake": lambda: substituted(mixed(lambda number: [number * 7])),
    "kern-pairs": lambda: {"kern": kern(0, listed_pairs(False))},
    "kerx-pairs": lambda: {"kerx": kerx(0, listed_pairs(True))},
    "kerx-classes": lambda: {"kerx": kerx(2, classed_pairs())},
    "kern-machine": lambda: {"kern": kern(1, plain_machine())},
    "kerx-machine": lambda: {"kerx": kerx(1, dense_machine(8, 2, pushing, [words(*VALUES)]))},
    "kerx-anchors": lambda: {"kerx": kerx(4, anchored_machine()), "ankr": ankr()},
}

WORST_FONTS = {
    "far-replacement": lambda: substituted(far_replacement()),
    "far-ligature": lambda: substituted(far_ligature()),
    "far-insertion": lambda: substituted(far_insertion()),
    "256-chains-asleep": lambda: in_chains(sleepers(256)),
    "2048-asleep": lambda: substituted(sleepers(2_048)),
    "130-chains-awake": lambda: in_chains(wakers(130)),
    "insertion-31": lambda: substituted(insertion_31()),
    "far-insertion-31": lambda: substituted(far_insertion_31()),
    "64000-cells": lambda: substituted(cells()),
}


# Requests.


def feature_list(count, places, stride, span):
    """So many features, which do not come in the order of their clusters. Four are off, the next four on."""
    features = []
    for number in range(count):
        start = number * 7919 % places * stride
        tag = ("liga", "dlig", "clig", "hlig")[number % 4]
        features.append(f"{tag}[{start}:{start + span}]={number // 4 % 2}")
    return ["--features", ",".join(features)]


def requests():
    """The words of each request: a font, the length of a line, and what is asked besides."""
    for name in FONTS:
        for variant in (name, f"{name}-classes"):
            for length in LINES:
                yield variant, length, []
    for name in WORST_FONTS:
        for length in WORST_LINES:
            yield name, length, []
    for name in ("noncontextual", "ligatures"):
        for length, (places, stride, span, _lines) in LINES.items():
            yield name, length, feature_list(185, places, stride, span)
    yield "mixed-asleep", 8, ["--features", "liga,dlig,clig"]
    for count in (20, 200, 2_000, 20_000):
        yield "noncontextual", 8, feature_list(count, count, 10, 25)
    for count in (20, 200, 2_000, 20_000):
        yield "noncontextual", 8, feature_list(count, 1_999, 1, 25)


def write(folder, name, content):
    with open(os.path.join(folder, name), "wb") as file:
        file.write(content)


def main():
    if len(sys.argv) != 2:
        sys.exit(__doc__)
    folder = sys.argv[1]
    os.makedirs(folder, exist_ok=True)
    for name, tables in FONTS.items():
        write(folder, f"{name}.ttf", font(tables()))
        write(folder, f"{name}-classes.ttf", font({**tables(), "GDEF": glyph_classes()}))
    for name, tables in WORST_FONTS.items():
        write(folder, f"{name}.ttf", font(tables()))
    for length, (_places, _stride, _span, lines) in LINES.items():
        write(folder, f"{length}.txt", text_of(length, lines).encode())
    for length in WORST_LINES:
        if length not in LINES:
            write(folder, f"{length}.txt", text_of(length, 1).encode())
    listed = [["bench", f"{name}.ttf", "--file", f"{length}.txt", *more] for name, length, more in requests()]
    write(folder, "requests", "".join(" ".join(request) + "\n" for request in listed).encode())


if __name__ == "__main__":
    main()
