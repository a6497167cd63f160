#!/usr/bin/env python3
"""Compares lines of `aat batch` with those of HarfBuzz's hb-shape. It stands outside of the gate.

tools/compare.py [--hb-shape PATH] [--all]
    Compares the answers of crates/aat/stdout to the `shape` requests of crates/aat/stdin over fonts of crates/aat/data.
    A comment `# hb-shape differs: REASON` excepts the requests behind it, up to the next comment or empty line.
tools/compare.py --fonts FONT.. [--texts FILE | --lines N --seed N] [--features LIST] [--directions ltr,rtl] [--aat PATH]
    Compares the program with hb-shape over any fonts: over each line of a file, or over random lines of the letters,
    digits and signs that the fonts have, but for those that a backward line mirrors.

What is asked of hb-shape: direction, script and level as they are told, for glyphs a script that it turns round for no
direction, and kerning in columns, which is off by itself there. `--glyphs` is shaped with a `cmap` that gives U+F0000 and the characters behind it the glyphs from 0 on. The flags of
`--show-flags` are passed over, as are other forms than `glyphs`, `--width` and `--file`; of `--trace` the glyphs count.
"""
import argparse, os, random, re, struct, subprocess, sys, tempfile, unicodedata

TOP = os.path.dirname(os.path.dirname(os.path.abspath(__file__)))
CRATE = os.path.join(TOP, "crates", "aat")
DIFFERS = "# hb-shape differs:"
PLANE = 0xF0000
GLYPH = re.compile(r"(\d+)=(\d+)(?:@(-?\d+),(-?\d+))?\+(-?\d+)(?:,(-?\d+))?(?:#\d+)?")


def words_of(line):
    """The words of a request."""
    def character(found):
        return chr(int(found[1], 16)) if found[1] else found[2]
    parts = re.findall(r'"(?:\\u\{[0-9A-Fa-f]+\}|\\.|[^"\\])*"|[^ "]+', line)
    return [re.sub(r"\\u\{([0-9A-Fa-f]+)\}|\\(.)", character, part[1:-1]) if part[0] == '"' else part for part in parts]


def quoted(text):
    """A text as a word of a request."""
    return '"%s"' % "".join(c if " " <= c <= "~" and c not in '"\\' else "\\u{%X}" % ord(c) for c in text)


class Request:
    """A request to shape: its plain words and its options."""

    def __init__(self, line):
        self.plain, self.options = [], {}
        words = iter(words_of(line))
        for word in words:
            name, sign, value = word.partition("=")
            if word in ("--trace", "--show-flags", "--remove-default-ignorables", "--json", "--glyph-names", "--no-glyph-names"):
                self.options[word] = True
            elif word.startswith("--"):
                self.options[name] = value if sign else next(words, "")
            else:
                self.plain.append(word)

    def is_compared(self):
        passed = {"--width", "--file", "--help", "--unicodes", "--remove-default-ignorables"} & set(self.options)
        return self.plain[:1] == ["shape"] and not passed and self.options.get("--output", "glyphs") == "glyphs"

    def text(self):
        if "--glyphs" in self.options:
            return "".join(chr(PLANE + int(glyph)) for glyph in self.options["--glyphs"].split())
        return self.plain[2]

    def direction(self):
        return self.options.get("--direction") or "ltr"

    def is_told(self):
        """Whether the direction is told. That of glyphs is, from left to right without a word."""
        return "--direction" in self.options or "--glyphs" in self.options

    def script(self):
        """The script that is told. That of glyphs is written both ways, so that they are not turned round."""
        return self.options.get("--script", "Hung" if "--glyphs" in self.options else "")

    def is_column(self):
        return self.direction() in ("ttb", "btt")

    def font(self):
        """The bytes of the font as they are asked for."""
        data = bytes_of(self.plain[1])
        if "--change" in self.options:
            data = changed(data, self.options["--change"])
        return with_identity(data) if "--glyphs" in self.options else data


def bytes_of(path):
    return open(path, "rb").read()


def changed(data, changes):
    data = bytearray(data)
    for change in changes.split(","):
        place, new = change.split("=")
        data[int(place):int(place) + len(new) // 2] = bytes.fromhex(new)
    return bytes(data)


def directory_of(data):
    """The place of the directory, of the first font of a collection."""
    return int.from_bytes(data[12:16], "big") if data[:4] == b"ttcf" else 0


def records(data):
    """The places of the records of the directory."""
    start = directory_of(data)
    return [start + 12 + 16 * i for i in range(int.from_bytes(data[start + 4:start + 6], "big"))]


def table(data, tag):
    for place in records(data):
        if data[place:place + 4] == tag:
            start, length = struct.unpack_from(">II", data, place + 8)
            return data[start:start + length]
    return b""


def with_table(data, tag, body):
    """The font with another table. The file becomes a collection of one font, whose directory stands at its end."""
    start, data = directory_of(data), data + bytes(-len(data) % 4)
    listed = [data[place:place + 16] for place in records(data) if data[place:place + 4] != tag]
    listed.append(struct.pack(">4sIII", tag, 0, len(data), len(body)))
    directory = data[start:start + 4] + struct.pack(">4H", len(listed), 0, 0, 0) + b"".join(sorted(listed))
    body += bytes(-len(body) % 4)
    return b"ttcf" + struct.pack(">3I", 0x10000, 1, len(data) + len(body)) + data[16:] + body + directory


def with_identity(data):
    """The font with a `cmap` of the characters of plane 15."""
    cmap = struct.pack(">HHHHIHHIIIIII", 0, 1, 3, 10, 12, 12, 0, 28, 0, 1, PLANE, PLANE + 0xFFFF, 0)
    return with_table(data, b"cmap", cmap)


def with_column_kerning(data):
    """The font with a table that has the feature `vkrn`, without which hb-shape kerns no column: `GPOS` beside `kerx`, else
    `GSUB`, beside which it takes no `morx`."""
    tag = b"GPOS" if table(data, b"kerx") else b"GSUB"
    if tag == b"GSUB" and table(data, b"morx"):
        return data
    script = (1, b"DFLT", 8, 4, 0, 0, 0xFFFF, 1, 0)
    body = struct.pack(">5H H4sH 2H 4H H4sH 2H H", 1, 0, 10, 30, 42, *script, 1, b"vkrn", 8, 0, 0, 0)
    return with_table(data, tag, body)


class HarfBuzz:
    """hb-shape, asked many lines at a time."""

    def __init__(self, program):
        self.program, self.folder, self.files = program, tempfile.TemporaryDirectory(), {}

    def file(self, data):
        """A file with these bytes."""
        if data not in self.files:
            self.files[data] = os.path.join(self.folder.name, "%d.ttf" % len(self.files))
            open(self.files[data], "wb").write(data)
        return self.files[data]

    def words(self, request, data):
        words = [self.file(data), "--shapers=ot"]
        words += [] if "--glyph-names" in request.options else ["--no-glyph-names"]
        words += ["--direction=" + request.direction()] if request.is_told() else []
        words += ["--script=" + request.script()] if request.script() else []
        words += ["--cluster-level=" + request.options["--cluster-level"]] if "--cluster-level" in request.options else []
        features = request.options.get("--features", "")
        if request.is_column():
            features = "vkrn," + re.sub(r"\bkern\b", "vkrn", features)
        words += ["--features=" + features.strip(",")] if features else []
        if request.options.get("--clusters") == "bytes":
            words.append("--utf8-clusters")
        others = (
            ("--point-size", "--font-ptem="),
            ("--index", "--face-index="),
            ("--not-found-glyph", "--not-found-glyph="),
        )
        words += [other + request.options[name] for name, other in others if name in request.options]
        return words + ["--unicodes=" + ",".join("%X" % ord(c) for c in request.text())]

    def run(self, words):
        found = subprocess.run([self.program] + words, capture_output=True, text=True)
        return "hb-shape: " + found.stderr.strip() if found.returncode else found.stdout.rstrip("\n").replace("\n", "\t")

    def lines(self, asked):
        """The line of each of some words, by hb-shape's own batch where it takes them. An empty text has an empty line."""
        def is_short(words):
            text = ";".join(words) + ","
            return len(text) < 4000 and text.count(";") == len(words) - 1 and not re.search("[=,]A,", text)
        short = [";".join(words) for words in asked if is_short(words) and not words[-1].endswith("=")]
        text = "".join(line + "\n" for line in short)
        found = subprocess.run([self.program, "--batch"], input=text, capture_output=True, text=True).stdout.splitlines()
        known = dict(zip(short, found)) if len(found) == len(short) else {}
        return ["" if words[-1].endswith("=") else known.get(";".join(words)) or self.run(words) for words in asked]

    def answers(self, requests):
        """The answers to requests, in the form of `aat`."""
        fonts = [request.font() for request in requests]
        asked = [with_column_kerning(font) if request.is_column() else font for request, font in zip(requests, fonts)]
        return self.lines([self.words(*pair) for pair in zip(requests, asked)])


def comparable(answer, request):
    """The glyphs of an answer without their flags. A line without glyphs is empty."""
    return re.sub(r"#\d+|^\[\]$", "", answer.split("\t")[-1] if "--trace" in request.options else answer)


def stored():
    """The requests that are compared: the number of the line, it, the request, its answer, and why it may differ."""
    reason, texts = None, (bytes_of(os.path.join(CRATE, name)).decode(errors="replace") for name in ("stdin", "stdout"))
    for number, (line, answer) in enumerate(zip(*(text.replace("\r\n", "\n").split("\n") for text in texts)), 1):
        if not line or line.startswith("#"):
            reason = line[len(DIFFERS):].strip() if line.startswith(DIFFERS) else None
        elif not answer.startswith("error ") and Request(line).is_compared():
            yield number, line, Request(line), answer, reason


def compare_stored(harfbuzz, shows_all):
    os.chdir(os.path.join(CRATE, "data"))
    cases = list(stored())
    counts = {"agree": 0, "differ": 0, "differ as said": 0, "agree though said to differ": 0}
    for (number, line, request, answer, reason), theirs in zip(cases, harfbuzz.answers([case[2] for case in cases])):
        agrees = comparable(answer, request) == comparable(theirs, request)
        word = ("agree though said to differ" if agrees else "differ as said") if reason else "agree" if agrees else "differ"
        counts[word] += 1
        if word == "differ" or shows_all and word != "agree":
            print("%d: %s\n  aat      %s\n  hb-shape %s\n  %s" % (number, line, answer, theirs, reason or word))
    print("%d requests: " % len(cases) + ", ".join("%d %s" % (n, word) for word, n in counts.items()))
    return counts["differ"]


def characters(path):
    """The letters, digits and signs that subtables of format 4 of `cmap` name, but for those that are mirrored."""
    cmap, found = table(bytes_of(path), b"cmap"), set()
    for i in range(int.from_bytes(cmap[2:4], "big")):
        place, = struct.unpack_from(">I", cmap, 8 + 8 * i)
        half = int.from_bytes(cmap[place + 6:place + 8], "big") if cmap[place:place + 2] == b"\0\4" else 0
        for k in range(place + 14, place + 14 + half, 2):
            end, start = (struct.unpack_from(">H", cmap, at)[0] for at in (k, k + half + 2))
            found.update(map(chr, range(start, min(end, 0xFFFD) + 1)))
    return [c for c in sorted(found) if unicodedata.category(c)[0] in "LNPS" and not unicodedata.mirrored(c) and c != "-"]


def texts_for(path, options):
    if options.texts:
        return [text for text in bytes_of(options.texts).decode().splitlines() if text]
    source, known = random.Random("%d %s" % (options.seed, os.path.basename(path))), characters(path) or list("abc")
    return ["".join(source.choice(known) for _ in range(source.randint(1, 12))) for _ in range(options.lines)]


def compare_fonts(harfbuzz, options):
    tail = " --features " + quoted(options.features) if options.features else ""
    lines = ["shape %s %s --direction %s%s" % (quoted(os.path.abspath(path)), quoted(text), direction, tail)
             for path in options.fonts for text in texts_for(path, options) for direction in options.directions.split(",")]
    asked = "".join(line + "\n" for line in lines)
    ours = subprocess.run([options.aat, "batch"], input=asked, capture_output=True, text=True).stdout.splitlines()
    theirs = harfbuzz.answers([Request(line) for line in lines])
    differ = [three for three in zip(lines, ours, theirs) if three[1] != three[2]]
    for three in differ if options.all else differ[:20]:
        print("%s\n  aat      %s\n  hb-shape %s" % three)
    print("%d lines over %d fonts, %d differ" % (len(lines), len(options.fonts), len(differ)))
    return len(differ) + len(lines) - len(ours)


def main():
    parser = argparse.ArgumentParser(description=__doc__, formatter_class=argparse.RawDescriptionHelpFormatter)
    for name, default in (("--hb-shape", "hb-shape"), ("--aat", os.path.join(CRATE, "out", "aat")), ("--texts", None),
                          ("--features", ""), ("--directions", "ltr,rtl")):
        parser.add_argument(name, default=default)
    parser.add_argument("--fonts", nargs="+")
    parser.add_argument("--lines", type=int, default=100)
    parser.add_argument("--seed", type=int, default=1)
    parser.add_argument("--all", action="store_true", help="shows every line that differs")
    options = parser.parse_args()
    harfbuzz = HarfBuzz(options.hb_shape)
    sys.exit(1 if (compare_fonts(harfbuzz, options) if options.fonts else compare_stored(harfbuzz, options.all)) else 0)


if __name__ == "__main__":
    main()
