#!/usr/bin/env python3
"""Prints what each public call promises, in the words of its clauses' definitions.

    python3 docs/promises.py [CRATE] [NAME]     the calls of all crates, of one, or those of this name, also of a type that
                                                the crate hands on
    python3 docs/promises.py --definitions      the files of definitions, lowest crate first
    python3 docs/promises.py --check            only what has no words

For each call: its signature, its doc comment, and for each clause the comment of the definition that it names, or the clause
itself where it is an equation; behind the calls of a crate the words of the other definitions that clauses name, and where a
name is given those of the definitions that these name. Nothing is stored. Ends with 1 where a call, a clause or a definition
has no words, and where no call is named so.
"""

import dataclasses
import itertools
import pathlib
import re
import sys

CRATES = pathlib.Path(__file__).resolve().parent.parent / "crates"
TESTS = ("tv_test_support", "tv_tests", "tv_reader_tests", "tv_replay_tests", "tv_cases", "tv_timings", "tv")

# Each or some value of a type.
EACH = r"\([\w ,]+ : .*\)"

# What is presumed, as a reader says it: each form stands before an arrow.
PREMISES = [
    (r"(?:.*\.)?told\.content", "where the content is told"),
    (r"(?:.*\.)?told\.heard", "where the lines are told"),
    (r"(?:.*\.)?told\.locks", "where locks are told"),
    (r"(?:.*\.)?told\.said", "where it is told what was said"),
    (r"(?:.*\.)?tells_images", "where it is told what a crash may leave"),
    (r"(?:.*\.)?keeps", "where it is told what was written"),
    (EACH, ""),
]

# Of whom a clause speaks: each form stands before what is said.
ANSWERS = [
    (r"(?:IfOk|OnOk) [\w.]+ ", "at Ok"),
    (r"(?:IfErr|OnErr) [\w.]+ ", "at an error"),
    (r"IfSome [\w.]+ ", "where there is one"),
    (r"IfNone [\w.]+ ", "where there is none"),
    (r"λ \(?[\w, ]+\)?\. ", ""),
]

NAME = re.compile(r"[^\W\d][\w'-]*")


@dataclasses.dataclass
class Definition:
    crate: str
    module: str
    name: str
    comment: str
    place: str
    body: str = ""
    parts: list = dataclasses.field(default_factory=list)
    imports: dict = dataclasses.field(default_factory=dict)

    def key(self):
        return self.crate, self.module, self.name

    def words(self):
        """What it says, with the comments of its parts."""
        end = "" if not self.comment or self.comment.endswith(".") else "."
        parts = "; ".join(it.rstrip(".") for it in self.parts)
        return self.comment + end + (f" Its parts: {parts}." if parts else "")


@dataclasses.dataclass
class Clause:
    kind: str
    label: str
    text: str
    remark: str


@dataclasses.dataclass
class Call:
    crate: str
    owner: str
    name: str
    signature: str
    doc: str
    clauses: list
    place: str
    imports: dict
    is_trait: bool = False

    def title(self):
        return f"{self.owner}::{self.name}" if self.owner else self.name


def crates():
    """The crates of the library, lowest first, as crates.txt has them."""
    lines = (CRATES.parent / "crates.txt").read_text(encoding="utf-8").splitlines()
    names = [line.split(":")[0].strip() for line in lines if ":" in line and not line.startswith("#")]
    return [name for name in names if name not in TESTS]


def definitions():
    """All definitions of specs/, by crate, file and name."""
    found = {}
    for crate in crates():
        for path in sorted((CRATES / crate / "specs").glob("*.antt")):
            text = path.read_text(encoding="utf-8")
            own = definitions_of(crate, path, text)
            imports = imports_of(text, r"^use") | {it.name: (crate, path.stem, it.name) for it in own}
            for it in own:
                it.imports = imports
                found.setdefault((crate, path.stem, it.name), it)
    return found


def definitions_of(crate, path, text):
    """The definitions of one file, in their order."""
    starts = re.compile(r"\s*(?:abbrev |unfoldable )?pub (?:abbrev |unfoldable |record |data )?([^\W\d][\w'-]*)(?= |$)")
    found, comment, margin = [], [], 0
    for number, line in enumerate(text.splitlines(), 1):
        indent = len(line) - len(line.lstrip())
        if line.startswith("module _ "):
            margin = 2
        elif starts.match(line) and indent == 0:
            margin = 0
        if line.strip().startswith("--"):
            comment.append(line.strip()[2:].strip())
            continue
        start = starts.match(line)
        if start and indent <= margin and start[1] not in ("mod", "use"):
            place = f"crates/{crate}/specs/{path.name}:{number}"
            found.append(Definition(crate, path.stem, start[1], " ".join(comment), place))
        elif found and comment and indent > margin:
            found[-1].parts.append(" ".join(comment))
        if found:
            found[-1].body += line.strip() + " "
        comment = []
    return found


def header_of(path):
    """The comment that a file begins with."""
    lines = path.read_text(encoding="utf-8").splitlines()
    header = itertools.takewhile(lambda line: line.startswith("--"), lines)
    return " ".join(line[2:].strip() for line in header)


def imports_of(text, word="ghost use"):
    """What the names stand for that a file's lines with this word bring in."""
    found = {}
    for line in re.finditer(word + r" Rattle\.(\w+)\.specs\.([\w.]+)\.\{([^}]*)\}", text, re.M):
        for name in line[3].split(","):
            own, _, other = name.strip().partition(" as ")
            found[other or own] = (line[1], line[2].split(".")[-1], own)
    return found


def exported(crate):
    """The names that a crate gives away, and its public modules."""
    text = (CRATES / crate / "src" / "lib.rt").read_text(encoding="utf-8")
    names = set(re.findall(r"^pub (?:fn|struct|enum|trait|type) (\w+)", text, re.M))
    modules = set(re.findall(r"^pub mod (\w+);", text, re.M))
    for line in re.finditer(r"^pub use ([\w:]+)(?:::\{([^}]*)\})?;", text, re.M):
        names |= {it.strip() for it in line[2].split(",")} if line[2] else {line[1].split("::")[-1]}
    return names, modules


def handed_on(crate):
    """The crates below of which a crate hands names on."""
    text = (CRATES / crate / "src" / "lib.rt").read_text(encoding="utf-8")
    return [it for it in crates() if re.search(rf"^pub use {it}::", text, re.M)]


def braces(text):
    """How many more braces open in a text than close, but for those in strings."""
    bare = re.sub(r'"(?:\\.|[^"\\])*"', "", text)
    return bare.count("{") - bare.count("}")


def clause_at(lines, at):
    """The clause that begins at this line, and the line behind it."""
    first = re.match(r"\s*(requires|ensures)\*?(?: (\w+))?\s*\{(.*)", lines[at])
    text, depth, end = first[3], 1, at
    while True:
        depth = 1 + braces(text)
        if depth <= 0:
            break
        end += 1
        text += " " + lines[end].strip()
    text = re.sub(r"\s+", " ", text).strip()
    return Clause(first[1], first[2] or "", text[: text.rindex("}")].strip(), ""), end + 1


def call_at(lines, at, made):
    """The call whose signature begins at this line: its clauses are added to it."""
    signature = []
    while True:
        line = lines[at]
        if re.match(r"\s*(requires|ensures|//)", line) or line.strip() in ("{", "{}"):
            break
        signature.append(line.strip().removesuffix("{").strip())
        at += 1
        if line.rstrip().endswith((";", "{", "{}")):
            break
    made.signature = " ".join(signature).rstrip(";").replace("( ", "(").replace(", )", ")").replace(",)", ")")
    remark = []
    while at < len(lines):
        line = lines[at].strip()
        if line.startswith("//"):
            remark.append(line.lstrip("/").strip())
            at += 1
        elif re.match(r"(requires|ensures)\b", line):
            clause, at = clause_at(lines, at)
            clause.remark, remark = " ".join(remark), []
            made.clauses.append(clause)
        elif not line:
            at += 1
        else:
            return


def owner_of(line):
    """The type or trait of an impl or a trait, and whether its calls are those of a trait."""
    trait = re.match(r"pub trait (\w+)", line)
    if trait:
        return trait[1], True
    bare = re.sub(r"<[^<>]*>", "", re.sub(r"<[^<>]*>", "", re.sub(r"<[^<>]*>", "", line)))
    of = re.match(r"impl\s+(?:[\w:]+ for )?&?(\w+)", bare)
    return (of[1] if of else ""), " for " in bare


def calls_of(crate):
    """The public calls of a crate, in the order of its files."""
    names, modules = exported(crate)
    found = []
    for path in sorted((CRATES / crate / "src").rglob("*.rt")):
        text = path.read_text(encoding="utf-8")
        imports, lines, doc, owner, of_trait = imports_of(text), text.splitlines(), [], "", False
        for at, line in enumerate(lines):
            if line == "}":
                owner, of_trait = "", False
            if re.match(r"(pub trait|impl)\b", line):
                owner, of_trait = owner_of(line)
            if line.strip().startswith("///"):
                doc.append(line.strip()[3:].strip())
                continue
            start = re.match(r"(\s*)(pub )?(?:final )?fn (\w+)", line)
            if start and (start[2] or (of_trait and start[1])) and "#[test]" not in lines[at - 1]:
                is_public = (owner or start[3]) in names or path.stem in modules or path.parent.name in modules
                if is_public:
                    place = f"crates/{crate}/src/{path.name}:{at + 1}"
                    words = re.sub(r" ?\n\n ?", "\n\n", " ".join(it or "\n\n" for it in doc))
                    made = Call(crate, owner, start[3], "", words, [], place, imports, of_trait)
                    call_at(lines, at, made)
                    found.append(made)
            if line.strip() and not line.strip().startswith("#["):
                doc = []
    return found


def split(text, sign):
    """The text, cut at each sign that stands in no brackets."""
    parts, depth, start = [], 0, 0
    for at, char in enumerate(text):
        depth += (char in "([{⟦") - (char in ")]}⟧")
        if char == sign and depth == 0:
            parts.append(text[start:at].strip())
            start = at + 1
    return parts + [text[start:].strip()]


def bare(text):
    """The text without brackets round the whole of it."""
    while text.startswith("(") and text.endswith(")"):
        depths, depth = [], 0
        for char in text:
            depth += (char == "(") - (char == ")")
            depths.append(depth)
        if 0 in depths[:-1]:
            break
        text = text[1:-1].strip()
    return text


def defined(text, call, known):
    """The definition that a text begins with, if that is a sentence."""
    head = NAME.match(text)
    found = known.get(call.imports.get(head[0])) if head else None
    is_equation = len(split(text, "≡")) > 1 or len(split(text, "↔")) > 1
    return found if found and found.comment and found.name[0].isupper() and not is_equation else None


def premise(text, call, known):
    """What is presumed, in words; none for what is said of each value."""
    for form, words in PREMISES:
        if re.fullmatch(form, text):
            return words
    found = defined(text, call, known)
    if found and ". " not in found.comment and ":" not in found.comment:
        return "where " + found.comment[:1].lower() + found.comment[1:].rstrip(".") + f" (`{found.name}`)"
    return f"where `{text}`"


def opened(text, call, known):
    """What a clause presumes and of which answer it speaks, and what it says then."""
    said, text = [], bare(text)
    while True:
        parts = split(text, "→") if not text.startswith("λ") else [text]
        answer = next((it for it in ANSWERS if re.match(it[0], text)), None)
        if len(parts) > 1:
            said.append(premise(parts[0], call, known))
            text = bare(text[text.index("→", len(parts[0])) + 1 :].strip())
        elif answer:
            said.append(answer[1])
            text = bare(re.sub("^" + answer[0], "", text))
        else:
            return [it for it in dict.fromkeys(said) if it], text


def sentence(clause, call, known):
    """A clause in words, and the definitions whose words are in it."""
    said, rest = opened(clause.text, call, known)
    opening = ", ".join(said)
    opening = opening[:1].upper() + opening[1:] + ": " if opening else ""
    parts = [it for it in split(rest, "×") if not re.fullmatch(EACH, it)]
    heads = [defined(it, call, known) for it in parts]
    remark = clause.remark + " " if clause.remark else ""
    if all(heads):
        inner = [known[it] for it in named_in(rest, call, known) if it[2][0].isupper()]
        inner = [it for it in inner if it not in heads and it.comment]
        words = " And: ".join(f"{it.comment} (`{it.name}`)" for it in heads)
        more = "".join(f" `{it.name}`: {it.comment}" for it in inner)
        return remark + opening + words + more, heads + inner
    if remark:
        return f"{remark}`{clause.text}`", []
    return f"{opening}`{rest}`", []


def named_in(text, call, known):
    """The definitions that a text names, each once."""
    found = [call.imports.get(it) for it in NAME.findall(text)]
    return [it for it in dict.fromkeys(found) if it in known]


def show(call, known):
    """Prints one call. Gives the definitions that it names, and those of them whose words it has."""
    print(f"### {call.title()}\n\n```rust\n{call.signature}\n```\n")
    if call.doc:
        print(call.doc + "\n")
    named, said = [], []
    for clause in call.clauses:
        words, heads = sentence(clause, call, known)
        label = f"**{clause.label}**: " if clause.label else ""
        wants = "presumes " if clause.kind == "requires" else ""
        print(f"- {wants}{label}{words}")
        named += named_in(clause.text, call, known)
        said += [it.key() for it in heads]
    print()
    return named, said


def show_words(crate, named, said, known, is_deep):
    """Prints the words of the definitions that clauses name, and of those that the ones of this crate name."""
    keys = dict.fromkeys(named)
    left = list(keys) if is_deep else []
    while left:
        key = left.pop(0)
        more = [known[key].imports.get(it) for it in NAME.findall(known[key].body)] if key[0] == crate else []
        more = [it for it in dict.fromkeys(more) if it in known and it not in keys]
        keys |= dict.fromkeys(more)
        left += more
    others = [it for it in keys if it not in said or known[it].parts]
    if others:
        print("### Words\n")
    for key in others:
        print(f"- `{known[key].name}`: {known[key].words()}")
    if others:
        print()


def show_definitions():
    """Prints the files of definitions, lowest crate first."""
    for crate in crates():
        print(f"## {crate}\n")
        lib = CRATES / crate / "specs" / "Lib.antt"
        for name in re.findall(r"^(?:pub )?mod (\w+)", lib.read_text(encoding="utf-8"), re.M) if lib.exists() else []:
            print(f"- `{name}`: {header_of(CRATES / crate / 'specs' / (name + '.antt'))}")
        print()


def problems_of(calls, known):
    """What has no words in the calls of a crate."""
    found = {f"{it.place}: `{it.title()}` has no words" for it in calls if not it.doc and not it.is_trait}
    for call in calls:
        for key in [key for clause in call.clauses for key in named_in(clause.text, call, known)]:
            if not known[key].comment:
                found.add(f"{known[key].place}: `{known[key].name}` has no words")
    return found


def show_crate(crate, calls, known, is_deep):
    """Prints the calls of a crate, and the words of their definitions."""
    print(f"## {crate}\n")
    named, said = [], []
    for call in calls:
        if not call.is_trait or call.clauses:
            more, heads = show(call, known)
            named, said = named + more, said + heads
    show_words(crate, named, said, known, is_deep)


def main(words):
    known, problems = definitions(), set()
    if words == ["--definitions"]:
        show_definitions()
    is_check, is_named = words == ["--check"], len(words) == 2
    below = handed_on(words[0]) if is_named and words[0] in crates() else []
    found = 0
    for crate in [] if words == ["--definitions"] else crates():
        if words and not is_check and crate not in [words[0], *below]:
            continue
        calls = [it for it in calls_of(crate) if not is_named or words[1] in (it.name, it.title())]
        if crate in below:
            names, _ = exported(words[0])
            calls = [it for it in calls if (it.owner or it.name) in names]
        problems |= problems_of(calls, known)
        found += len(calls)
        if not is_check and calls:
            show_crate(crate, calls, known, is_named)
    if found == 0 and words != ["--definitions"]:
        problems.add(f"no call is named so: {' '.join(words)}")
    if not words or is_check or words == ["--definitions"]:
        problems |= {f"{it.place}: `{it.name}` has no words" for it in known.values() if not it.comment}
    for problem in sorted(problems):
        print(problem, file=sys.stderr)
    return 1 if problems else 0


sys.exit(main(sys.argv[1:]))
