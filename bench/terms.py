"""Reads files of definitions and lemmas: the items of a file, what its names stand for, and what an item states."""

import collections
import re

# A definition or a lemma: `parameters` are those of a record or of modules around it, as tokens, and `type` those of its type.
Item = collections.namedtuple("Item", "path line crate module name kind parameters type")

TOKEN = re.compile(r'"(?:\\.|[^"\\])*"|«[^»]*»|[(){}.;,@]|[^\s(){}.;,@"«»]+')
NO_TERM = re.compile(r'"(?:\\.|[^"\\])*"|(?<![^\s(){};,])--[^\n]*|\{-.*?-\}', re.DOTALL)
IMPORT = re.compile(r"\buse\s+(Rattle(?:\.\w+)+)(?:\.\{([^}]*)\}|\s+as\s+([^\s;]+))?")
MARKS = ("pub", "abbrev", "unfoldable", "pattern", "opaque")
# What begins a line at the margin and states nothing.
OTHERS = ("use", "mod", "module", "mutual", "open", "infix", "infixl", "infixr", "ruleset", "unfolding", "axiom")
OPENS, CLOSES = ("(", "{"), (")", "}")


def tokens_of(text):
    """The words and signs of a text without comments."""
    return TOKEN.findall(text)


def without_comments(text):
    """The text with nothing in place of comments, on the same lines."""
    return NO_TERM.sub(lambda found: found[0] if found[0][0] == '"' else re.sub(r"[^\n]", "", found[0]), text)


def blocks_of(text):
    """What begins at the margin of a file or of a module block, as far as the next: its line, its text, the modules around."""
    around, found = [], []
    for number, line in enumerate(without_comments(text).splitlines(), 1):
        indent = len(line) - len(line.lstrip())
        if not line.strip():
            if found:
                found[-1][1].append("")
            continue
        while around and indent <= around[-1][0]:
            around.pop()
        if around and around[-1][1] is None and "".join(around[-1][2]).endswith((" where", "mutual")):
            around[-1][1] = indent
        if indent > ((around[-1][1] or 0) if around else 0):
            found[-1][1].append(line)
            continue
        found.append((number, [line], [heading for _, _, heading in around]))
        if line.split()[0] == "module" or line.endswith("mutual"):
            around.append([indent, None, found[-1][1]])
    return [(number, "\n".join(lines), ["\n".join(heading) for heading in headings]) for number, lines, headings in found]


def place_in(tokens, sign):
    """Where the first of this sign stands that is in no brackets, or the end."""
    depth = 0
    for at, token in enumerate(tokens):
        if depth == 0 and token == sign:
            return at
        depth += (token in OPENS) - (token in CLOSES)
    return len(tokens)


def parts_of(tokens, sign):
    """The tokens, cut at each of these signs that is in no brackets."""
    parts = []
    while (at := place_in(tokens, sign)) < len(tokens):
        parts.append(tokens[:at])
        tokens = tokens[at + 1 :]
    return parts + [tokens]


def groups_of(tokens):
    """The bracketed groups that the tokens begin with, without their brackets, each with how it opens; and what is left."""
    groups = []
    while tokens and tokens[0] in OPENS:
        depth, at = 1, 1
        while depth and at < len(tokens):
            depth += (tokens[at] in OPENS) - (tokens[at] in CLOSES)
            at += 1
        groups.append((tokens[0], tokens[1 : at - 1]))
        tokens = tokens[at:]
    return groups, tokens


def heading_of(headings):
    """The parameters of modules, as tokens."""
    return [it for heading in headings if heading.lstrip().startswith("module") for it in tokens_of(heading)[2:-1]]


def constructors_of(text, number, make):
    """The constructors of a type: each begins a line of its body, all at one margin."""
    lines = text.splitlines()[1:]
    margin = min((len(it) - len(it.lstrip()) for it in lines if it), default=0)
    for at, line in enumerate(lines, number + 1):
        tokens = [it for it in tokens_of(line) if it not in MARKS]
        if len(line) - len(line.lstrip()) == margin and ":" in tokens:
            yield from (make(at, name, "constructor", [], tokens[tokens.index(":") + 1 :])
                        for name in tokens[: tokens.index(":")])


def items_of(path, crate, folder):
    """The definitions and lemmas of a file of this folder, in their order."""
    def make(*rest):
        return Item(path, rest[0], crate, module, *rest[1:])

    module = ".".join(path.relative_to(folder).with_suffix("").parts)
    for number, text, headings in blocks_of(path.read_text(encoding="utf-8")):
        tokens = tokens_of(text)
        while tokens and tokens[0] in MARKS:
            tokens = tokens[1:]
        if not tokens or tokens[0] in OTHERS:
            continue
        kind = tokens.pop(0) if tokens[0] in ("record", "data") else "signature"
        at = place_in(tokens, ":")
        parameters = heading_of(headings)
        if kind != "signature":
            parameters = parameters + tokens[1:at]
            end = place_in(tokens, "where")
            yield make(number, tokens[0], kind, parameters, tokens[at + 1 : end])
            if kind == "data":
                yield from constructors_of(text, number, make)
        elif at < place_in(tokens, "=") and not groups_of(tokens[1:at])[1]:
            yield make(number, tokens[0], kind, parameters, tokens[at + 1 : place_in(tokens, "unfolding")])


def bound_in(group):
    """The names that a group such as `a b : T` binds; none where it is no such group."""
    at = place_in(group, ":")
    return [] if at == len(group) or {*group[:at]} & {*OPENS, *CLOSES, ",", ";", "="} else group[:at]


def arguments_of(item):
    """How many explicit arguments an item has, those of modules around it among them."""
    count = sum(len(bound_in(group)) for opening, group in groups_of(item.parameters)[0] if opening == "(")
    for part in parts_of(item.type, "→")[:-1]:
        groups, rest = groups_of(part)
        if rest or not all(bound_in(group) for _, group in groups):
            count += 1
        else:
            count += sum(len(bound_in(group)) for opening, group in groups if opening == "(")
    return count


def states(item):
    """Whether what an item gives is said of a variable that is no type: so it is a lemma, and no function."""
    parts = parts_of([it for it in item.parameters + ["→"] if it] + item.type, "→")
    variables = set()
    for part in parts:
        for _, group in groups_of(part)[0]:
            if group[-2:-1] != ["Type"]:
                variables |= set(bound_in(group))
    return bool(variables & set(parts[-1])) and "Type" not in parts[-1]


def imports_of(text):
    """The names that a file takes from others: each with the module that it comes from, and its name there."""
    found = {}
    for path, names, other in IMPORT.findall(without_comments(text)):
        if other:
            found[other] = (path, "")
        for name in filter(None, map(str.strip, names.split(","))):
            own, _, other = name.partition(" as ")
            found[(other or own).strip()] = (path, own.strip())
    return found


def taken_from(alias, text):
    """The names that a text takes from a module by its name here."""
    return re.findall(rf"(?<![^\s(){{}},;]){re.escape(alias)}\.([^\s(){{}}.;,@\"«»]+)", without_comments(text))


class Statement:
    """What an item states: the same text for two items that differ in blanks and in the names of what they bind alone."""

    def __init__(self, meanings):
        self.meanings, self.count, self.scope = meanings, 0, []

    def of(self, item):
        """The text of what an item states."""
        parameters = []
        for opening, group in groups_of(item.parameters)[0]:
            parameters += [opening, *group, "}" if opening == "{" else ")"]
        return " ".join(self.walk(parameters + (["→"] if parameters else []) + item.type))

    def walk(self, tokens):
        """The tokens of one bracket, with numbers for bound names, each group on its own and unused names left out."""
        said, before = [], len(self.scope)
        while tokens:
            token = tokens[0]
            if token in OPENS:
                (_, group), tokens = self.first_group(tokens)
                said, tokens = self.grouped(token, group, tokens, said)
            elif token == "λ":
                at = place_in(tokens, ".")
                said += ["λ", *self.bound(tokens[1:at]), "."]
                tokens = tokens[at + 1 :]
            else:
                said.append(token if said and said[-1] == "." else self.meant(token))
                tokens = tokens[1:]
        del self.scope[before:]
        return said

    def first_group(self, tokens):
        """The first group of these tokens, and what is behind it."""
        groups, _ = groups_of(tokens)
        return groups[0], tokens[len(groups[0][1]) + 2 :]

    def grouped(self, opening, group, rest, said):
        """Adds a group: names of one type stand on their own, and a name that nothing uses is left out."""
        names = bound_in(group)
        if not names:
            return said + [opening, *self.walk(group), "}" if opening == "{" else ")"], rest
        kind = self.walk(group[len(names) + 1 :])
        sign = "×" if self.sign_behind(rest) == "×" else "→"
        for name in names:
            if name in rest:
                said += ["(", self.bind(name), ":", *kind, ")", sign]
            else:
                said += (["(", *kind, ")"] if {"→", "×", "⊎", "λ"} & set(kind) else kind) + [sign]
        return said, rest[1:] if rest and rest[0] in ("→", "×") else rest

    def sign_behind(self, tokens):
        """The sign behind the groups that these tokens begin with."""
        rest = groups_of(tokens)[1]
        return rest[0] if rest else ""

    def bound(self, tokens):
        """The names that a function binds, as numbers."""
        return [it if it in OPENS + CLOSES + (",", ":", "=") else self.bind(it) for it in tokens]

    def bind(self, name):
        """A new number for a name."""
        self.count += 1
        self.scope.append((name, f"#{self.count}"))
        return self.scope[-1][1]

    def meant(self, token):
        """What a word stands for: a bound name, or what it is where it comes from."""
        number = next((it for name, it in reversed(self.scope) if name == token), None)
        path, name = self.meanings.get(token, ("", token))
        return number or (f"{path}.{name}" if path and name else path or name)
