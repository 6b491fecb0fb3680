#!/usr/bin/env python3
"""Compares what two checkouts promise to callers.

    python3 bench/clauses.py OLD NEW

lists what a caller may have lost: a public function or definition that is gone, an `ensures`, a ghost member or a definition
that is gone or has another text, and a `requires` that is new or has another text. Texts are compared without comments and
blanks, so what is only said otherwise is listed too, with both texts. What stands in another file or crate is found there by its
type and name. The status is 1 where something is listed.
"""

import collections
import pathlib
import re
import sys

# A function, with its clauses by kind and name; or a ghost member or a definition, which has one text.
Item = collections.namedtuple("Item", "path line crate owner name is_public clauses")
Clause = collections.namedtuple("Clause", "line last kind name text")

ITEM = re.compile(r"\bfn\s+(?P<function>\w+)|\bghost\s+(?!use\b)(?P<ghost>\w+)|\b(?:impl|trait|mod)\b|[{}]")
CLAUSE = re.compile(r"\s*(requires|ensures)\b\*?\s*(\w*)\s*\{")
PUBLIC = re.compile(r"\bpub\s+(?:const\s+)?(?:unsafe\s+)?$")
NO_CODE = re.compile(
    r"""//[^\n]*|/\*.*?\*/|b?r(?P<hashes>\#*)".*?"(?P=hashes)|b?"(?:\\.|[^"\\])*"|b?'(?:\\[^']+|[^\\'\n])'""", re.DOTALL
)
NAMED = re.compile(r"(?:(?:abbrev|pub|record|data|opaque) )*([^\s:({=)}\]][^\s:({=]*)")


def blanked(text):
    """The text with blanks in place of comments, strings and characters: each brace that is left is one of the code."""
    return NO_CODE.sub(lambda found: re.sub(r"[^\n]", " ", found[0]), text)


def plain(text):
    """A text without comments, and with single blanks."""
    return " ".join(re.sub(r"(//|--)[^\n]*", " ", text).split())


def bare(text):
    """A text without blanks at brackets, and without a sign that only ends the last part of a value."""
    return re.sub(r"([({]) | ?[;,]? (?=[)}])|[;,](?=[)}])", r"\1", text)


def behind(code, at, ends):
    """The place of the next of these characters or words that isn't within brackets of any kind."""
    depth = 0
    for found in re.finditer(rf"[(\[{{]|[)\]}}]|{ends}", code[at:]):
        if depth == 0 and re.fullmatch(ends, found[0]):
            return at + found.start()
        depth += {"(": 1, "[": 1, "{": 1, ")": -1, "]": -1, "}": -1}.get(found[0], 0)
    return len(code)


def items_of(path, crate):
    """The functions and ghost members of a file, with their clauses."""
    text = path.read_text(encoding="utf-8")
    code = blanked(text)
    # The header of each impl, trait and module that is open, and nothing for another block.
    headers = []

    def item(name, is_public, clauses):
        return Item(path, line(found.start()), crate, " ".join(filter(None, headers)), name, is_public, clauses)

    def line(place):
        return text.count("\n", 0, place) + 1

    at = 0
    while found := ITEM.search(code, at):
        at = found.end()
        begins_public = bool(PUBLIC.search(code, 0, found.start()))
        if found["function"]:
            holder = next(filter(None, reversed(headers)), "")
            clauses = []
            at = behind(code, at, r"[{;]|\b(?:requires|ensures)\b")
            while part := CLAUSE.match(code, at):
                at = behind(code, part.end(), "}") + 1
                says = plain(text[part.end() : at - 1])
                clauses.append(Clause(line(part.start(1)), line(at - 1), part[1], part[2], says))
            yield item(found["function"], begins_public or " for " in holder or holder.startswith("pub trait"), clauses)
        elif found["ghost"]:
            at = behind(code, at, "[;,}]")
            member = Clause(line(found.start()), line(at), "ghost", "", plain(text[found.end() : at]))
            yield item("ghost " + found["ghost"], True, [member])
        elif found[0] == "{":
            headers.append("")
        elif found[0] == "}":
            headers.pop()
        else:
            at = behind(code, at, "[{;]") + 1
            if code[at - 1] == "{":
                headers.append(("pub " if begins_public else "") + plain(text[found.start() : at - 1]))


def definitions_of(path, crate):
    """The definitions of a file of specs/: each begins at the left edge, and goes on as far as the next name there."""
    texts = {}
    name = None
    for number, text in enumerate(path.read_text(encoding="utf-8").splitlines(), 1):
        text = re.sub(r"(^|\s)--.*", "", text)
        found = NAMED.match(text)
        if found:
            name = found[1]
        if text.strip() and name not in (None, "use", "mod"):
            texts.setdefault(name, []).append((number, text))
    for name, lines in texts.items():
        first = lines[0][0]
        definition = Clause(first, lines[-1][0], "definition", "", plain("\n".join(text for _, text in lines)))
        yield Item(path, first, crate, "specs", name, True, [definition])


def all_items(top):
    """All functions, ghost members and definitions of the libraries of a checkout, but for tests."""
    for crate in sorted((pathlib.Path(top) / "crates").iterdir()):
        if crate.name.endswith("tests") or not (crate / "src" / "lib.rt").exists():
            continue
        for path in sorted((crate / "src").rglob("*.rt")):
            yield from items_of(path, crate.name)
        for path in sorted((crate / "specs").rglob("*.antt")):
            yield from definitions_of(path, crate.name)


def public_items(top):
    """Those that a caller sees, by owner and name."""
    found = collections.defaultdict(list)
    for item in all_items(top):
        if item.is_public:
            found[item.owner, item.name].append(item)
    return found


def nearest(item, others):
    """What stands in place of an item: in its file, else in its crate, else in another one."""
    def distance(other):
        return (other.crate != item.crate, other.path.name != item.path.name, abs(other.line - item.line))

    return min(others, key=distance, default=None)


def lost(old, new):
    """What a caller may have lost between two forms of an item: the old clause and the new one, of which one may be none."""
    before, after = ({(clause.kind, clause.name): clause for clause in item.clauses} for item in (old, new))
    for key in before | after:
        one, two = before.get(key), after.get(key)
        is_demand = key[0] == "requires"
        if one and two and bare(one.text) != bare(two.text) or two is None and not is_demand or one is None and is_demand:
            yield one, two


def main(old, new):
    before, after = public_items(old), public_items(new)
    count = 0
    for key, items in before.items():
        for item in items:
            other = nearest(item, after.get(key, []))
            if other is None:
                count += 1
                print(f"{item.path}:{item.line}: {item.owner}: {item.name} is gone")
                continue
            for one, two in lost(item, other):
                count += 1
                what = two or one
                state = "is new" if one is None else "is gone" if two is None else "has another text"
                print(f"{other.path}:{(two or other).line}: {item.owner}: {item.name}: {what.kind} {what.name} {state}")
                print("".join(f"    {word} {clause.text}\n" for word, clause in (("-", one), ("+", two)) if clause), end="")
    print(f"{sum(map(len, before.values()))} functions, members and definitions before, "
          f"{sum(map(len, after.values()))} now; {count} of their promises are gone or have another text")
    return 1 if count else 0


if __name__ == "__main__":
    if len(sys.argv) != 3:
        sys.exit(__doc__)
    sys.exit(main(*sys.argv[1:]))
