#!/usr/bin/env python3
"""Counts what has to be believed, and how long clauses and documents are.

    python3 tools/count.py            this repository
    python3 tools/count.py FOLDER     the checkout that stands in FOLDER

For each public call it counts the definitions behind its contract: the words of crates/*/specs that its clauses cite,
and those that their definitions cite, and so on. It follows the names that `use` and `ghost use` bring in. Behind them
it says how many stand behind `Shaper::shape`, behind all public calls, behind these and the laws, and how many there are
in all: those besides are of worked examples and of contracts inside the crates. Then it prints the README's sentence,
and how many definitions there are in all.

- A public call is a `pub fn`, a function or a method, or a method of a trait's impl that has clauses. The crates are
  those of the layer and of its callers: no crate of tests, no program, no rows, and no module `laws` or `worked`, or
  whose name ends so.
- A law is a function of a module `laws`, or whose name ends so. It does nothing: what is proved is its contract.
- A call over a trait of the repository owes the trait's clauses too, so these count. At a method of a trait's impl
  count what the impl says of the trait's members.
- A definition is an abbreviation, a function, a record or a data type. Its lines are those of its text, without comments
  and blank lines. A definition inside a module with parameters cites what the module's head cites.
- Not counted are the words of the toolchain's library, the types that the code declares with how their values are seen,
  and the lemmas of specs/facts.
- A clause is a `requires` or `ensures`, or a ghost item of a trait or a type. Its length is in characters, where a line
  break with its indentation counts as one space.
- A word of a document is what `wc -w` takes for one.
"""
import glob
import os
import re
import sys

TOP = os.path.abspath(sys.argv[1] if len(sys.argv) > 1 else os.path.join(os.path.dirname(__file__), ".."))
NAME = re.compile(r"[^\s(){}\[\],;:.λ→×¬|∷]+(?:\.[^\s(){}\[\],;:.λ→×¬|∷]+)*")
USE = re.compile(r"\buse Rattle\.([\w.]+?)(?:\.\{([^}]*)\}| as (\w+))?\s*;?\s*$", re.M)
HANDED_ON = re.compile(r"^pub use Rattle\.([\w.]+?)(?:\.\{([^}]*)\})?\s*$", re.M)
START = re.compile(r"^(?:abbrev |unfoldable )?(?:pub )?(?:abbrev |unfoldable )?(record |data )?([^\s:]+)")
WORDS_OF_ANTT = {"use", "pub", "mod", "module", "where", "abbrev", "unfoldable", "record", "data"}
NOT_COUNTED = re.compile(r"_tests$|^aat_(make_font|shape)$")
FUNCTION = re.compile(r"^( *)(pub )?(?:const )?(?:unsafe )?fn (\w+)")


def read(path):
    with open(os.path.join(TOP, path), encoding="utf-8") as file:
        return file.read()


def files(pattern):
    return sorted(os.path.relpath(path, TOP) for path in glob.glob(os.path.join(TOP, pattern), recursive=True))


def module_of(path):
    """The name of the module in a file of specs."""
    return path.removeprefix("crates/").removesuffix(".antt").replace("/", ".")


class Names:
    """Where a name that a text brings in is defined: what one module hands on of another is followed."""

    def __init__(self):
        self.modules, self.names = {}, {}
        for path in files("crates/*/specs/**/*.antt"):
            here = module_of(path).removesuffix(".Lib")
            for module, listed in HANDED_ON.findall(read(path)):
                if listed:
                    self.names.update({(here, name): (module, name) for name in words(listed)})
                else:
                    self.modules[f"{here}.{module.split('.')[-1]}"] = module

    def true(self, module, name):
        while module in self.modules or (module, name) in self.names:
            module, name = self.names.get((module, name)) or (self.modules[module], name)
        return module, name

    def brought_in(self, text):
        """What `use` lines bring in: a name to its definition, and an alias to its module."""
        names = {}
        for module, listed, alias in USE.findall(text):
            names.update({name: (module, name) for name in words(listed)})
            if alias:
                names[alias] = (module, None)
        return names

    def cited(self, text, names):
        """The definitions that a text cites."""
        found = set()
        for token in NAME.findall(text):
            first, _, rest = token.partition(".")
            if first in names:
                module, name = names[first]
                found.add(self.true(module, name or rest.split(".")[0]))
        return found


def words(listed):
    return filter(None, re.split(r"[,\s]+", listed))


def unfolded(text):
    """The lines of a file without comments, those of a module with parameters less indented, each with its head."""
    head, in_head, depth = "", False, 0
    for line in text.splitlines():
        if not line.strip() or line.lstrip().startswith("--"):
            continue
        indent = len(line) - len(line.lstrip())
        if line.startswith("module "):
            head, in_head, depth = "", True, None
        elif indent == 0:
            head, in_head, depth = "", False, 0
        if in_head:
            head, in_head = head + line + "\n", not line.rstrip().endswith("where")
            continue
        depth = indent if depth is None else depth
        yield line[depth:] if depth else line, head


def items_in(text):
    """The definitions of a file: each name with its lines, its head, and the constructors of its data."""
    items, name = {}, None
    for line, head in unfolded(text):
        if line[0] not in " ()[]{}":
            kind, found = START.match(line).groups()
            name = None if found in WORDS_OF_ANTT else found
            items.setdefault(name, ([], head, [], kind == "data "))
        lines, _, constructors, is_data = items.setdefault(name, ([], head, [], False))
        lines.append(line)
        if is_data and (found := re.match(r"^ +([^\s:]+) :", line)):
            constructors.append(found.group(1))
    items.pop(None, None)
    return items


def definitions(known):
    """All definitions: (module, name) to its lines and to what it cites."""
    found, texts = {}, {}
    for path in files("crates/*/specs/**/*.antt"):
        if path.endswith("/Lib.antt") or "/facts/" in path or re.search(r"/(facts|inside)\.antt$", path):
            continue
        module = module_of(path)
        texts[module] = items_in(read(path)), known.brought_in(read(path))
        for name, (_, _, constructors, _) in texts[module][0].items():
            for constructor in constructors:
                known.names[module, constructor] = (module, name)
                known.names[f"{module}.{name}", constructor] = (module, name)
    for module, (items, names) in texts.items():
        names.update({name: (module, name) for name in items})
        names.update({other: (module, other) for item in items.values() for other in item[2]})
        for name, (lines, head, _, _) in items.items():
            found[module, name] = lines, known.cited("\n".join(lines) + head, names)
    return found


def clauses_in(text):
    """The clauses of a source text: each as its lines."""
    for start in re.finditer(r"^ *(?:ensures|requires|ghost)\b(?! use)[^{\n;]*\{", text, re.M):
        depth, at = 1, start.end()
        while depth and at < len(text):
            depth += {"{": 1, "}": -1}.get(text[at], 0)
            at += 1
        yield text[start.start():at].split("\n")


def clauses_of(text):
    """What the clauses of a source text say, without their names."""
    return "\n".join("\n".join(clause).partition("{")[2] for clause in clauses_in(text))


def blocks(text):
    """The outer items of a source text: each as its first line and its lines."""
    lines = []
    for line in text.split("\n"):
        if re.match(r"(pub(\(crate\))? )?(impl|trait|fn|const fn|unsafe fn|struct|enum|mod|const|type)\b", line) and lines:
            yield lines
            lines = []
        lines.append(line)
    yield lines


def contracts(lines):
    """The functions of an outer item: each as its indentation, whether it is `pub`, its name and its contract."""
    for at, line in enumerate(lines):
        if found := FUNCTION.match(line):
            indent, end = found.group(1), at
            while end < len(lines) and not is_body(lines[end], indent, end == at):
                end += 1
            yield indent, bool(found.group(2)), found.group(3), "\n".join(lines[at:end + 1])


def is_body(line, indent, is_first):
    """Whether the body of a function begins in a line: alone after a contract, or at the end of the parameters."""
    return line in (indent + "{", indent + "{}") or (
        line.endswith(("{", "{}")) and (is_first or line.startswith((indent + ")", indent + ">"))))


def traits(known):
    """The traits of the repository: each with what its clauses cite."""
    found = {}
    for path in files("crates/*/src/**/*.rt"):
        outer = outer_names(path, known)
        for lines in blocks(read(path)):
            if trait := re.match(r"pub trait (\w+)", lines[0]):
                names = outer | known.brought_in("\n".join(lines[1:]))
                found[trait.group(1)] = known.cited(clauses_of("\n".join(lines)), names)
    return found


def sources():
    """The sources of the crates that are counted: each with its crate and the name of its file."""
    for path in files("crates/*/src/**/*.rt"):
        crate, file = path.split("/")[1], path.split("/")[-1]
        if not (os.path.exists(os.path.join(TOP, f"crates/{crate}/src/main.rt")) or NOT_COUNTED.search(crate)):
            yield path, crate, file


def outer_names(path, known):
    """What the `ghost use` lines at the top of a source bring in."""
    return known.brought_in("\n".join(re.findall(r"^ghost use .*$", read(path), re.M)))


def laws(known):
    """What the laws cite."""
    found = set()
    for path, _, file in sources():
        if file.endswith("laws.rt"):
            found |= known.cited(clauses_of(read(path)), outer_names(path, known))
    return found


def calls(known):
    """The public calls: each with what its contract cites."""
    asked = traits(known)
    for path, crate, file in sources():
        if file.endswith(("laws.rt", "worked.rt")):
            continue
        outer = outer_names(path, known)
        for lines in blocks(read(path)):
            first, text = lines[0], "\n".join(lines)
            if re.match(r"(pub(\(crate\))? )?trait\b", first):
                continue
            is_impl, of_trait = first.startswith("impl"), re.match(r"impl\b.*? for (\w+)", first)
            names = outer | (known.brought_in("\n".join(lines[1:])) if is_impl else {})
            owner = re.match(r"impl(?:<[^{]*?>)? (?:.*? for )?(\w+)", first)
            for indent, is_public, name, contract in contracts(lines):
                clauses = clauses_of(contract)
                if not (is_public or (of_trait and clauses)):
                    continue
                cited = known.cited(clauses, names)
                for trait in re.findall(r"\w+", contract.split("ensures")[0].split("requires")[0]):
                    cited |= asked.get(trait, set())
                if of_trait:
                    cited |= known.cited(clauses_of(text.split("    fn ")[0]), names)
                yield f"{crate}: {owner.group(1) + '::' if indent and owner else ''}{name}", cited


def behind(first, all_items):
    """The definitions that stand behind some."""
    seen, left = set(), [item for item in first if item in all_items]
    while left:
        item = left.pop()
        if item not in seen:
            seen.add(item)
            left += [other for other in all_items[item][1] if other in all_items]
    return seen


def print_row(name, items, lines):
    print(f"{name:<64}{len(items):>12}{lines:>8}")


def print_sentence(numbers):
    """What the README says of these pairs of numbers: definitions and lines."""
    shape, of_calls, with_laws, every = (f"{items:,} {{}}in {lines:,}" for items, lines in numbers)
    print(f"""
Behind `Shaper::shape` are {shape.format("definitions ")} lines, behind all public calls {of_calls.format("")}, and behind
these and the laws (modules `laws`) {with_laws.format("")}. All of `crates/*/specs` has {every.format("")}: the others are
of worked examples, and of contracts inside the crates (`tools/count.py`).
""")


def print_calls():
    known = Names()
    all_items = definitions(known)
    found = {name: behind(cited, all_items) for name, cited in sorted(calls(known), key=lambda call: call[0])}
    of_calls = set().union(*found.values())
    counted = {
        "Shaper::shape": found["aat_shaper: Shaper::shape"],
        "all public calls": of_calls,
        "all public calls and the laws": of_calls | behind(laws(known), all_items),
        "all of crates/*/specs": set(all_items),
    }
    lines = {item: len(text) for item, (text, _) in all_items.items()}
    print(f"{'call':<64}{'definitions':>12}{'lines':>8}")
    for name, items in (found | counted).items():
        print_row(name, items, sum(lines[item] for item in items))
    print_sentence([(len(items), sum(lines[item] for item in items)) for items in counted.values()])


def print_lengths():
    clauses = [clause for path in files("crates/*/src/**/*.rt") for clause in clauses_in(read(path))]
    whole = max(clauses, key=lambda clause: len(" ".join(line.strip() for line in clause)))
    print(f"longest clause: {len(' '.join(line.strip() for line in whole))} characters: {whole[0].strip()[:60]}")
    print(f"longest line of a clause: {max(len(line) for clause in clauses for line in clause)} characters")
    print(f"edits that must fail: {len(files('crates/*/must-fail/*.edit'))}")
    count = {path: len(read(path).split()) for path in ["README.md"] + files("docs/*.md")}
    print(f"words of documents: {sum(count.values())} in {len(count)} files")


if __name__ == "__main__":
    print_calls()
    print_lengths()
