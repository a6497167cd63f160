#!/usr/bin/env python3
"""Tells which public items of a revision are gone from this checkout, or stand otherwise.

    python3 tools/items.py REV

An item is a public call with its clauses, or a public definition of crates/*/specs but for specs/facts and specs/inside.
Crates of tests and programs are not looked at. Items are the same where name and text are, wherever they stand: so a
move to another file or crate is no change. White space, comments and bodies of calls do not count.

Behind each item that is gone or stands otherwise is the file where REV has it. A name that is otherwise written may still
compute to the same: read it. The status is 1 where something is gone."""
import os
import re
import subprocess
import sys

TOP = os.path.dirname(os.path.dirname(os.path.abspath(__file__)))
SKIPPED = re.compile(r"_tests/|/specs/(facts|inside)|/main\.rt")
CALL = re.compile(r"^( *)pub (?:const |unsafe )*fn (\w+)", re.M)
DEFINITION = re.compile(r"^( *)(?:abbrev |unfoldable |opaque )?pub (?:record |data )?([\w◌]+)", re.M)


def squeezed(text):
    """Text without comments, in single spaces."""
    text = re.sub(r"^\s*(//|--|#\[).*$", "", text, flags=re.M)
    return re.sub(r"\s+", " ", text).strip(" ,")


def call_at(text, found):
    """The signature and the clauses of a call, up to its body."""
    end = re.compile(r"^" + found[1] + r"\{|;$", re.M).search(text, found.end())
    brace = re.compile(r"\{$", re.M).search(text, found.end())
    stops = [it.start() for it in (end, brace) if it]
    head = text[found.start():min(stops)] if stops else text[found.start():]
    clauses = text[found.start():end.start()] if end else head
    return squeezed(clauses if "ensures" in clauses or "requires" in clauses else head)


def definition_at(text, found):
    """A definition, up to the next one that stands as far left."""
    rest = text[found.end():]
    stop = re.compile(r"^ {0," + str(len(found[1])) + r"}(--|abbrev|unfoldable|opaque|pub|module|use)", re.M).search(rest)
    return squeezed(text[found.start():found.end() + (stop.start() if stop else len(rest))])


def items_of(path, text):
    if path.endswith(".rt") and "/src/" in path:
        return [(it[2], call_at(text, it)) for it in CALL.finditer(text)]
    if path.endswith(".antt") and "/specs/" in path:
        found = [it for it in DEFINITION.finditer(text) if it[2] not in ("use", "mod")]
        return [(it[2], definition_at(text, it)) for it in found]
    return []


def here():
    for folder, _, names in os.walk(f"{TOP}/crates"):
        if "/out/" not in f"{folder}/":
            for name in names:
                path = os.path.relpath(f"{folder}/{name}", TOP)
                if path.endswith((".rt", ".antt")) and not SKIPPED.search(path):
                    with open(f"{TOP}/{path}", encoding="utf-8") as file:
                        yield path, file.read()


def at(revision):
    listed = subprocess.run(["git", "ls-tree", "-r", "--name-only", revision, "crates"], cwd=TOP, capture_output=True,
                            text=True, check=True).stdout.split("\n")
    for path in listed:
        if path.endswith((".rt", ".antt")) and not SKIPPED.search(path):
            shown = subprocess.run(["git", "show", f"{revision}:{path}"], cwd=TOP, capture_output=True, text=True, check=True)
            yield path, shown.stdout


def main(words):
    if len(words) != 1:
        print(__doc__)
        return 2
    now = {}
    for path, text in here():
        for name, item in items_of(path, text):
            now.setdefault(name, set()).add(item)
    count, gone, otherwise = 0, [], []
    for path, text in at(words[0]):
        for name, item in items_of(path, text):
            count += 1
            if name not in now:
                gone.append((name, path))
            elif item not in now[name]:
                otherwise.append((name, path))
    for title, names in (("gone", gone), ("stands otherwise", otherwise)):
        for name, path in names:
            print(f"{title}: {name} of {path}")
    print(f"{count} items, {len(gone)} gone, {len(otherwise)} stand otherwise")
    return int(bool(gone))


sys.exit(main(sys.argv[1:]))
