#!/usr/bin/env python3
"""Random fonts, and lines over them cut wherever `aat` tells a break. Outside of the gate.

tools/cut_lines.py settled|kerned [--hb-shape PATH] [--aat WORDS] [--seed N] [--write]

The machines of a settled font are all settled, and of its lines hb-shape draws other glyphs than they have. A kerned font has
any kerning, and of its lines hb-shape moves some glyph, as `aat` does. Behind a line come its two parts at each place told.
Printed are answers that are not those of hb-shape, places told whose parts are not the whole by hb-shape, and the places where
clusters meet. With `--write` fonts, requests and answers stand in crates/aat afterwards.
"""
import argparse, json, os, random, re, shlex, subprocess, tempfile
from compare import CRATE, GLYPH, HarfBuzz, Request

HEADS = {"settled": "# Random fonts whose machines are settled, drawn as by hb-shape 6.0.0",
         "kerned": "# Random fonts that kern, drawn as by hb-shape 6.0.0"}
KINDS, GLYPHS = ("contextual", "ligature", "insertion", "rearrangement"), range(1, 9)
LISTS = {"contextual": lambda r: {"lookups": [{str(g): r.choice(GLYPHS) for g in sorted(r.sample(GLYPHS, 4))} for _ in "ab"]},
         "ligature": lambda r: {"actions": ["0", "0", "last 0"], "components": r.choices(range(3), k=9),
                                "ligatures": r.choices(GLYPHS, k=7)},
         "insertion": lambda r: {"glyphs": r.choices(GLYPHS, k=4)}, "rearrangement": lambda r: {}}
KERNED = (("kern", ["machine"]), ("kern", ["pairs", "machine"]), ("kerx", [1, 1]), ("kerx", [4]), ("kerx", [0, 1, 4]))


def entry_of(kind, r, held, is_end):
    """An entry of a state in which so much is held: a mark or not, or so many components; and what is held behind it."""
    first, second, third = (r.random() < 0.5 for _ in "abc")
    sets, moves = first and not is_end, bool(held and second and not is_end)
    if kind == "contextual":
        names = {name: r.randrange(2) for name in ["mark"] * held + ["current"] * (held or not is_end) if r.random() < 0.4}
        flags, behind = {"set_mark": sets}, max(held, sets)
    elif kind == "insertion":
        names = {name: r.randrange(3) for name in ("mark", "current") if r.random() < 0.2}
        names.update({name + "_count": r.randint(1, 2) for name in names})
        flags, behind = {"set_mark": first, "current_insert_before": second, "marked_insert_before": third}, 1
    elif kind == "rearrangement":
        names, flags = {"verb": r.randint(1, 15) * moves}, {"mark_first": sets and not moves, "mark_last": moves}
        behind = max(held, flags["mark_first"])
    else:
        steps = r.randint(2, held + 1) if sets and held and third else 0
        names, flags = {"action": 3 - steps} if steps else {}, {"set_component": sets, "perform_action": steps}
        behind = held + sets - max(0, steps - 1)
    return {"flags": " ".join(flag for flag, is_set in flags.items() if is_set), **names}, behind


def subtable(r, kind):
    """A machine of three or four states, in each of which so much is held at least."""
    holds, states = [0] + [r.randint(0, 2 if kind == "ligature" else 1) for _ in range(r.randint(2, 3))], []
    for held in holds:
        states.append({})
        for name in r.sample("pqr", r.randint(1, 3)) + [name for name in ("end", "out") if r.random() < 0.3]:
            entry, behind = entry_of(kind, r, held, name == "end")
            entry["next"] = 0 if name == "end" else r.choice([s for s, wanted in enumerate(holds) if wanted <= behind])
            if held and not entry["next"] and r.random() < 0.2:
                entry["flags"] = (entry["flags"] + " dont_advance").strip()
            states[-1][name] = {key: value for key, value in entry.items() if value or key in ("mark", "current", "action")}
    shares = [r.choice("pqrpqr-") for _ in GLYPHS]
    orders = [" logical"] if kind == "rearrangement" else ["", "", " logical", " backwards", " logical backwards"]
    return {"kind": kind, "coverage": "all_directions" + r.choice(orders), "flags": 1, "states": states, **LISTS[kind](r),
            "classes": {name: [g for g, share in zip(GLYPHS, shares) if share == name] for name in "pqr"}}


def pairs(r):
    return {"%d %d" % (r.choice(GLYPHS), r.choice(GLYPHS)): 9 * i - 20 for i in range(6)}


def kerned_entry(r, kind, state, states):
    """An entry of a stack, or of anchors (4): what it holds, what it takes, and where it goes."""
    flag = r.choice({"machine": ["push"], 1: ["push", "push", "reset"], 4: ["mark"]}[kind] + ["", ""])
    entry = {"flags": flag, "next": r.choice((0, 0, *states))}
    if r.random() < 0.4:
        entry["action"] = r.randrange(2 if kind == 4 else 4)
    if state and not entry["next"] and r.random() < 0.3:
        entry["flags"] = (flag + " dont_advance").strip()
    return {key: value for key, value in entry.items() if value or key == "action"}


def kerned_subtable(r, table, kind):
    """Pairs, or a machine of one to three states. A stack has more values than it can take."""
    head = {"kind" if table == "kern" else "format": kind}
    if kind in ("pairs", 0):
        return {**head, "pairs": pairs(r)}
    shares, states = [r.choice("pqrr-") for _ in GLYPHS], range(r.randint(1, 3))
    rows = [{name: kerned_entry(r, kind, state, states) for name in [*"pqr", *["end"] * (r.random() < 0.2)]} for state in states]
    lists = {"points": [[0, 0], [0, 1]]} if kind == 4 else {"values": [r.randint(-40, 40) for _ in range(12)]}
    turned = {"coverage": "last_to_first"} if kind == 1 and r.random() < 0.3 else {}
    classes = {name: [g for g, share in zip(GLYPHS, shares) if share == letter] for name, letter in zip(["out", *"pqr"], "-pqr")}
    return {**head, **turned, "classes": classes, "states": rows, **lists}


def settled_tables(r, kinds, has_pairs):
    kern = [{"kind": "pairs", "pairs": pairs(r)}] * has_pairs
    return {"kern": kern, "morx": [{"default_flags": 1, "subtables": [subtable(r, kind) for kind in kinds]}]}


def kerned_tables(r, kinds, table):
    points = {str(g): [[r.randint(0, 90), 300], [10, r.randint(-50, 0)]] for g in GLYPHS} if 4 in kinds else {}
    return {table: [kerned_subtable(r, table, kind) for kind in kinds], "ankr": points}


def description(name, kinds, tables):
    made = {"comment": "%s by chance: %s." % (name, ", ".join(map(str, kinds))), "units_per_em": 1000,
            "glyphs": [{"count": 5, "advance": 500}, {"count": 4, "advance": 300}], **tables}
    return "{\n%s\n}\n" % ",\n".join("  %s: %s" % (json.dumps(key), json.dumps(made[key])) for key in made if made[key])


def request(font, glyphs, direction):
    return 'shape %s --glyphs "%s" --direction %s' % (font, " ".join(map(str, glyphs)), direction)


class Tried:
    """The two programs, and how many places are told, not told though the parts are the whole, and not told."""
    def __init__(self, options):
        self.words, self.harfbuzz, self.counts = shlex.split(options.aat), HarfBuzz(options.hb_shape), [0, 0, 0]
        self.kerns = options.fonts == "kerned"

    def ours(self, requests):
        asked = "\n".join(requests) + "\n"
        return subprocess.run([*self.words, "batch"], input=asked, capture_output=True, text=True).stdout.splitlines()

    def theirs(self, requests):
        return [*map(GLYPH.findall, self.harfbuzz.answers([Request(line) for line in requests]))]

    def is_taken(self, glyphs, direction, whole, drawn):
        """Whether a line is taken, that hb-shape draws so, and `aat`."""
        if self.kerns:
            return whole == drawn and any(glyph[2] for glyph in whole)
        return [int(glyph[0]) for glyph in whole] != glyphs[::1 if direction == "ltr" else -1]

    def lines(self, r, font):
        for direction in ("ltr", "rtl"):
            lines = [r.choices(GLYPHS, k=r.randint(5, 9)) for _ in range(30)]
            asked = [request(font, glyphs, direction) for glyphs in lines]
            found = zip(lines, self.theirs(asked), map(GLYPH.findall, self.ours(asked)))
            yield from [(glyphs, direction, whole) for glyphs, whole, drawn in found
                        if self.is_taken(glyphs, direction, whole, drawn)][:2]

    def make(self, r, name, kinds, more):
        lines = []
        while len(lines) < 4 or ", not settled" in self.ours(["settled %s.ttf" % name])[0]:
            what, tables = ("Kerning", kerned_tables) if self.kerns else ("Settled machines", settled_tables)
            open(name + ".json", "w").write(description(what, kinds, tables(r, kinds, more)))
            run = subprocess.run([*self.words, "make", name + ".json"], capture_output=True)
            open(name + ".ttf", "wb").write(run.stdout)
            lines = [] if run.returncode else list(self.lines(r, name + ".ttf"))
        return lines

    def cut(self, font, glyphs, direction, whole):
        """The requests of a line, and of its parts at each place told."""
        asked = [request(font, glyphs, direction) + " --show-flags"]
        told = [not mark for mark in re.findall(r"(#1)?[|\]]", self.ours(asked)[0])]
        for before, behind, is_told in zip(whole, whole[1:], told[1:]):
            place = max(int(before[1]), int(behind[1]))
            if before[1] != behind[1]:
                parts = [request(font, part, direction) for part in (glyphs[:place], glyphs[place:])]
                front, back = self.theirs(parts)
                back = [(glyph, str(int(cluster) + place), *numbers) for glyph, cluster, *numbers in back]
                is_whole = (front + back if direction == "ltr" else back + front) == whole
                self.counts[0 if is_told else 1 if is_whole else 2] += 1
                asked += parts * is_told
                if is_told > is_whole:
                    print("%s: its parts at %d differ" % (asked[0], place))
        return asked


def fonts(kerns, seed):
    """Of each font its chances, its name, the kinds of its subtables, and its table of kerning, or whether it has pairs."""
    for number in range(1, 1 + len(KERNED)) if kerns else (*range(1, 10), 13):
        r = random.Random("%s %d" % (seed, number))
        if kerns:
            table, kinds = KERNED[number - 1]
            yield r, "cut_kerned_%d" % number, kinds, table
        else:
            kinds = [KINDS[number % 4]] if number < 9 else r.choices(KINDS, k=r.randint(2, 3))
            yield r, "cut_random_%d" % number, kinds, number % 3 == 0


def all_requests(tried, seed):
    for r, name, kinds, more in fonts(tried.kerns, seed):
        lines = tried.make(r, name, kinds, more)
        yield "make %s.json --compare %s.ttf" % (name, name)
        for line in lines:
            yield from tried.cut(name + ".ttf", *line)


def write(name, start, lines):
    """Puts lines in the place of those that start so, up to an empty line, or else at the end."""
    path = os.path.join(CRATE, name)
    parts = open(path, "rb").read().rstrip(b"\n").split(b"\n\n")
    kept = [part for part in parts if not part.startswith(start.encode())]
    open(path, "wb").write(b"\n\n".join([*kept, "\n".join(lines).encode()]) + b"\n")


def main():
    parser = argparse.ArgumentParser(description=__doc__, formatter_class=argparse.RawDescriptionHelpFormatter)
    parser.add_argument("fonts", choices=HEADS)
    for name, default in (("--hb-shape", "hb-shape"), ("--aat", os.path.join(CRATE, "out", "aat")), ("--seed", "2")):
        parser.add_argument(name, default=default)
    parser.add_argument("--write", action="store_true")
    tried = Tried(options := parser.parse_args())
    with tempfile.TemporaryDirectory() as folder:
        os.chdir(os.path.join(CRATE, "data") if options.write else folder)
        requests = list(all_requests(tried, options.seed))
        answers = tried.ours(requests)
        for line, answer in zip(requests, answers):
            if line.startswith("shape") and [GLYPH.findall(answer)] != tried.theirs([line]):
                print("%s: aat answers %s" % (line, answer))
    head = HEADS[options.fonts]
    told = "%s. Of %d places where clusters meet %d are told." % (head, sum(tried.counts), tried.counts[0])
    print("%s %d are not, though the parts are the whole." % (told, tried.counts[1]))
    for name, lines in (("stdin", requests), ("stdout", answers)) if options.write else ():
        write(name, head, [told, *lines])


if __name__ == "__main__":
    main()
