#!/usr/bin/env python3
"""Counts what the contracts of all crates come to.

    python3 bench/contracts.py

prints for each crate its lines of code, of definitions and of proof, and its `ensures` clauses, with the sums; then the lines of
proof for a line of code, and those that are imports; then each line of a clause or of a definition that is wider than 110
columns, each definition with more than six arguments, each name that means two definitions to one crate, or two types, and
each lemma that states what another one states. The crates of tests count in the sums alone. It looks at the files only.
"""

import collections
import pathlib
import re

import clauses
import terms

TOP = pathlib.Path(__file__).resolve().parent.parent
WIDEST = 110
MOST_ARGUMENTS = 6
TYPE = re.compile(r"\b(?:struct|enum)\s+(\w+)")


def lines_of(folder, ending):
    """The lines of all files of a folder with this ending, each with its file and its number."""
    for path in sorted(folder.rglob("*" + ending)):
        for number, line in enumerate(path.read_text(encoding="utf-8").splitlines(), 1):
            yield path, number, line


def clauses_of(crate):
    """The `ensures` clauses of a crate, each with its file, the number of its first line, and its lines."""
    for path in sorted((crate / "src").rglob("*.rt")):
        lines = path.read_text(encoding="utf-8").splitlines()
        for item in clauses.items_of(path, crate.name):
            for clause in item.clauses:
                if clause.kind == "ensures":
                    yield path, clause.line, lines[clause.line - 1 : clause.last]


def items_of(crate, kind):
    """The definitions or the lemmas of a crate."""
    for path in sorted((crate / kind).rglob("*.antt")):
        yield from terms.items_of(path, crate.name, crate / kind)


def at(path, line):
    """A place, as it is printed."""
    return f"{path.relative_to(TOP)}:{line}"


def print_rows(what, rows):
    """Says what was found, with the count of it last."""
    for row in rows:
        print(f"  {row}")
    print(f"{what}: {len(rows)}")


def print_wide(what, lines):
    """Says which of these lines are too wide."""
    wide = [f"{at(path, number)}: {len(line)}" for path, number, line in lines if len(line) > WIDEST]
    print_rows(f"lines of {what} wider than {WIDEST} columns", wide)


def print_arguments(definitions):
    """Says which definitions take many arguments."""
    counted = [(it, terms.arguments_of(it)) for it in definitions]
    rows = [f"{at(it.path, it.line)}: {it.name}: {count}" for it, count in counted if count > MOST_ARGUMENTS]
    print_rows(f"definitions with more than {MOST_ARGUMENTS} arguments", rows)


def cited_by(crate):
    """What a crate's files take from others: its module, its name there, and the name by which it goes here."""
    # What a build leaves is beside these folders.
    for path in sorted(path for kind in ("src", "specs", "proofs") for path in (crate / kind).rglob("*.*t")):
        text = path.read_text(encoding="utf-8")
        for here, (module, name) in terms.imports_of(text).items():
            if name:
                yield module, name, here
            else:
                yield from ((module, it, it) for it in terms.taken_from(here, text))


def meanings_in(crate, own, known):
    """What each name means to a crate: its own definitions, those of others that it cites, and one for all of the kit's."""
    found, kit = collections.defaultdict(set), {}
    for item in own:
        found[item.name].add(at(item.path, item.line))
    for module, name, here in cited_by(crate):
        if (module, name) in known:
            item = known[module, name]
            found[here].add(at(item.path, item.line))
        elif module.split(".")[2] == "specs" and not (TOP / "crates" / module.split(".")[1]).exists():
            found[here].add("the kit's " + kit.setdefault(here, module))
    return found


def print_meanings(crates, definitions):
    """Says which names mean two definitions to one crate."""
    known = {(f"Rattle.{it.crate}.specs.{it.module}", it.name): it for it in definitions}
    seen = collections.defaultdict(list)
    for crate in crates:
        own = [it for it in definitions if it.crate == crate.name]
        for name, places in meanings_in(crate, own, known).items():
            if len(places) > 1:
                seen[name, tuple(sorted(places))].append(crate.name)
    rows = [f"{name}: {', '.join(places)} (in {', '.join(names)})" for (name, places), names in sorted(seen.items())]
    print_rows("names that mean two definitions", rows)


def print_types(crates):
    """Says which names are those of two types of the code."""
    found = collections.defaultdict(list)
    for crate in crates:
        for path in sorted((crate / "src").rglob("*.rt")):
            code = clauses.blanked(path.read_text(encoding="utf-8"))
            for name in TYPE.finditer(code):
                found[name[1]].append(at(path, code.count("\n", 0, name.start()) + 1))
    rows = [f"{name}: {', '.join(places)}" for name, places in sorted(found.items()) if len(places) > 1]
    print_rows("names of two types", rows)


def below(crate):
    """A crate and all below it, as `crates.txt` has them."""
    lines = (TOP / "crates.txt").read_text(encoding="utf-8").splitlines()
    uses = {line.split(":")[0].strip(): line.split(":")[1].split() for line in lines if ":" in line}
    found = [crate]
    for name in found:
        found += [it for it in uses.get(name, []) if it not in found]
    return found


def statements(items):
    """The lemmas among these by what they state: what has no variable in its last part is no lemma."""
    meanings, found = {}, collections.defaultdict(list)
    for item in items:
        if item.path not in meanings:
            meanings[item.path] = terms.imports_of(item.path.read_text(encoding="utf-8"))
        if item.kind == "signature" and terms.states(item):
            found[terms.Statement(meanings[item.path]).of(item)].append(item)
    return found


def print_repeats(definitions, lemmas):
    """Says which lemmas state what another one states, in their crate or in one below."""
    rows = []
    for group in statements([*definitions, *lemmas]).values():
        for place, item in enumerate(group):
            others = [it for it in group[:place] if it.crate in below(item.crate)]
            if others and item in lemmas:
                first = others[0]
                rows.append(f"{at(item.path, item.line)}: {item.name}: {at(first.path, first.line)}: {first.name}")
    print_rows("lemmas that state what another one states", sorted(rows))


def is_import(line):
    """Whether a line takes something from another file, or names a file."""
    return bool(re.match(r"\s*(pub )?(use|mod) ", line))


def main():
    sums = [0, 0, 0, 0]
    product = imports = 0
    said, defined, definitions, lemmas = [], [], [], []
    crates = sorted((TOP / "crates").iterdir())
    print(f"{'crate':<16} {'code':>6} {'specs':>6} {'proofs':>6} {'ensures':>8}")
    for crate in crates:
        code = sum(1 for _ in lines_of(crate / "src", ".rt"))
        specs = list(lines_of(crate / "specs", ".antt"))
        proofs = [line for _, _, line in lines_of(crate / "proofs", ".antt")]
        ensures = list(clauses_of(crate))
        if not crate.name.endswith("tests"):
            product += code
            said += [(path, first + at, line) for path, first, lines in ensures for at, line in enumerate(lines)]
            # What a file takes from others is no definition.
            defined += [row for row in specs if not row[2].startswith(("use ", "pub use "))]
        definitions += items_of(crate, "specs")
        lemmas += items_of(crate, "proofs")
        imports += sum(map(is_import, proofs))
        row = [code, len(specs), len(proofs), len(ensures)]
        sums = [a + b for a, b in zip(sums, row)]
        print(f"{crate.name:<16} {row[0]:>6} {row[1]:>6} {row[2]:>6} {row[3]:>8}")
    print(f"{'all':<16} {sums[0]:>6} {sums[1]:>6} {sums[2]:>6} {sums[3]:>8}")
    print(f"lines of proof for a line of code: {sums[2] / product:.2f}")
    print(f"lines of proof that are imports: {imports}, and that are none: {sums[2] - imports}")
    print_wide("clauses", said)
    print_wide("definitions", defined)
    print_arguments(definitions)
    print_meanings(crates, definitions)
    print_types(crates)
    print_repeats(definitions, lemmas)


main()
