#!/usr/bin/env python3
"""Prints rows of times (docs/BENCH.md, "Times").

    python3 tools/times.py AAT FOLDER HBTIME6 HBTIME12 [RUNS]
    python3 tools/times.py --fonts AAT HBTIME6 HBTIME12 FONT:TEXT..

AAT is the program, FOLDER what tools/workloads.py wrote, and HBTIME6 and HBTIME12 are tools/hbtime.cc built over
HarfBuzz 6.0.0 and 12.3.2:

    g++ -O3 -std=c++17 -Isrc hbtime.cc src/harfbuzz.cc -o hbtime

Programs run by turns, RUNS times (5), and the least time counts. A row has our nanoseconds a character for each length of
a line, and what they are of the times of each HarfBuzz. Run it on a quiet machine.
With --fonts each font is timed over each line of a text, over each word of it, and opened."""
import math
import os
import re
import subprocess
import sys
import tempfile

ROWS = [
    ("noncontextual", "`noncontextual`, 8 subtables"), ("noncontextual-classes", "the same with `GDEF`"),
    ("ligatures", "`ligatures`"), ("contextual", "`contextual`"), ("rearrangement", "`rearrangement`"),
    ("insertion", "`insertion`"), ("mixed-asleep", "`mixed-asleep`, 20 subtables"),
    ("mixed-two-awake", "`mixed-two-awake`"), ("mixed-each-awake", "`mixed-each-awake`"),
    ("kern-pairs", "`kern-pairs`, 4,000 pairs"), ("kerx-pairs", "`kerx-pairs`, 4,000 pairs"),
    ("kerx-classes", "`kerx-classes`"), ("kern-machine", "`kern-machine`"), ("kerx-machine", "`kerx-machine`"),
    ("kerx-anchors", "`kerx-anchors`"), ("256-chains-asleep", "`256-chains-asleep`"),
    ("2048-asleep", "`2048-asleep`"), ("64000-cells", "`64000-cells`"),
]
WORST_ROWS = [
    ("130-chains-awake", "`130-chains-awake`"), ("far-replacement", "`far-replacement`"),
    ("far-ligature", "`far-ligature`"), ("far-insertion", "`far-insertion`"), ("insertion-31", "`insertion-31`"),
]
LENGTHS = (8, 20, 2000, 200000)
WORST_LENGTHS = (1000, 4000, 16000, 64000)
STEP = re.compile(r"^(\w+)\s+([\d.]+)\s+[\d.]+\s", re.M)


def ours(program, font, text, rounds):
    """The least time of each step."""
    words = [program, "bench", font, "--file", text, "--rounds", str(rounds)]
    output = subprocess.run(words, capture_output=True, text=True, check=True).stdout
    return {found[1]: float(found[2]) for found in STEP.finditer(output)}


def theirs(program, font, text, rounds, *more):
    """The least time of `hb_shape`."""
    words = [program, font, text, str(rounds), *more]
    return float(subprocess.run(words, capture_output=True, text=True, check=True).stdout.split()[0])


def least_of(program, folder, judges, name, lengths):
    """The least time of each step of ours, and of each judge, by the length of the lines."""
    least = {}
    for length in lengths:
        rounds = 7 if length < 10_000 else 1
        font, text = f"{folder}/{name}.ttf", f"{folder}/{length}.txt"
        times = ours(program, font, text, rounds)
        times.update((judge, theirs(judge, font, text, rounds)) for judge in judges)
        for key, time in times.items():
            least[key, length] = min(least.get((key, length), math.inf), time)
    return least


def written(time):
    return f"{time:,.1f}" if time < 1000 else f"{time:,.0f}"


def beside(least, judges, step, lengths):
    """Our times as parts of those of the judges."""
    return [f"{least[step, length] / least[judge, length]:.2f}" for judge in judges for length in lengths]


def workloads(program, folder, judges, runs):
    """Rows of workloads: our nanoseconds a character for each length, and their parts of those of each judge."""
    for rows, lengths in ((ROWS, LENGTHS), (WORST_ROWS, WORST_LENGTHS)):
        for name, title in rows:
            least = least_of(program, folder, judges, name, lengths * runs)
            cells = [written(least["typesetting", length]) for length in lengths]
            print(f"|{title}|{'|'.join(cells + beside(least, judges, 'typesetting', lengths))}|", flush=True)


def in_words(text, folder):
    """The words of a text, a line each."""
    path = os.path.join(folder, "words.txt")
    with open(text, encoding="utf-8") as file, open(path, "w", encoding="utf-8") as out:
        out.write("".join(word + "\n" for word in file.read().split()))
    return path


def opening(program, font, text, folder):
    """The nanoseconds of reading the font and shaping two characters, and the file of these."""
    with open(text, encoding="utf-8") as file:
        start = file.read()[:2]
    path = os.path.join(folder, "start.txt")
    with open(path, "w", encoding="utf-8") as out:
        out.write(start + "\n")
    size = os.path.getsize(font)
    times = ours(program, font, path, 9)
    return times["reading"] * size + times["typesetting"] * len(start), path


def fonts(program, judges, pairs):
    """Rows of real fonts: lines, words and opening, ours, theirs and their parts."""
    for pair in pairs:
        font, text = pair.split(":")
        with tempfile.TemporaryDirectory() as folder:
            cells = []
            for path in (text, in_words(text, folder)):
                time = ours(program, font, path, 9)["typesetting"]
                cells.append(written(time))
                cells += [f"{time / theirs(judge, font, path, 9):.2f}" for judge in judges]
            time, path = opening(program, font, text, folder)
            cells.append(written(time / 1000))
            cells += [f"{time / theirs(judge, font, path, 9, '--open'):.2f}" for judge in judges]
        print(f"|{os.path.basename(font)}|{'|'.join(cells)}|", flush=True)


def main():
    words = sys.argv[1:]
    if words[0] == "--fonts":
        fonts(words[1], words[2:4], words[4:])
        return
    program, folder, *judges = words[:4]
    workloads(program, folder, judges, int(words[4]) if len(words) > 4 else 5)


main()
