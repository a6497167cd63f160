#!/usr/bin/env python3
"""Asks a program over the library for C the lines of the gate, and compares its answers. It stands outside of the gate.

    python3 tools/bound_answers.py PROGRAM

PROGRAM answers requests as bindings/c/tests/answers.c has them. Asked are the requests `shape` of crates/aat/stdin whose
answers are glyphs, one line and no error."""
import os
import subprocess
import sys
import tempfile
from decimal import Decimal

from compare import CRATE, Request, bytes_of, changed

ASKED = {"--features", "--direction", "--script", "--change", "--glyphs", "--show-flags", "--point-size", "--clusters",
         "--cluster-level", "--index"}
DIRECTIONS = {"ltr": 4, "rtl": 5, "ttb": 6, "btt": 7}


def is_asked(request, answer):
    return set(request.options) <= ASKED and "\t" not in answer


def file_of(folder, request):
    """The file of the font, with its bytes changed."""
    path = os.path.join(CRATE, "data", request.plain[1])
    if "--change" not in request.options:
        return path
    made = os.path.join(folder, f"{len(os.listdir(folder))}.ttf")
    with open(made, "wb") as file:
        file.write(changed(bytes_of(path), request.options["--change"]))
    return made


def words_for(folder, request):
    told = request.options
    is_glyphs = "--glyphs" in told
    numbers = told["--glyphs"].split() if is_glyphs else [str(ord(character)) for character in request.plain[2]]
    size = told.get("--point-size")
    return [
        file_of(folder, request), told.get("--index", "0"), "glyphs" if is_glyphs else "text",
        "bytes" if told.get("--clusters") == "bytes" else "characters",
        str(DIRECTIONS.get(told.get("--direction"), 0)),
        str(int.from_bytes(told["--script"].encode(), "big") if "--script" in told else 0),
        "0" if size is None else str(int(Decimal(size) * 65536) or 0xFFFF_FFFF),
        told.get("--cluster-level", "0"), "1" if "--show-flags" in told else "0", told.get("--features", ""),
        " ".join(numbers),
    ]


def main():
    with open(os.path.join(CRATE, "stdin"), encoding="utf-8", errors="surrogateescape") as file:
        lines = file.read().split("\n")
    with open(os.path.join(CRATE, "stdout"), encoding="utf-8", errors="surrogateescape") as file:
        answers = file.read().split("\n")
    asked = [(line, answer) for line, answer in zip(lines, answers) if line.startswith("shape ") and answer.startswith("[")]
    pairs = [(Request(line), answer) for line, answer in asked]
    pairs = [(request, answer) for request, answer in pairs if is_asked(request, answer)]
    with tempfile.TemporaryDirectory() as folder:
        asked = "".join("\t".join(words_for(folder, request)) + "\n" for request, _ in pairs)
        output = subprocess.run(sys.argv[1:], input=asked, capture_output=True, text=True, check=True).stdout
    found = output.split("\n")
    differing = [(request, told, answer) for (request, answer), told in zip(pairs, found) if told != answer]
    for request, told, answer in differing[:20]:
        print(f"{' '.join(request.plain)} {request.options}\n  {told}\n  {answer}")
    print(f"answers: {len(pairs)} asked, {len(differing)} differ")
    return 1 if differing or len(found) != len(pairs) + 1 else 0


if __name__ == "__main__":
    sys.exit(main())
