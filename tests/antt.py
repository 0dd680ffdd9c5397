"""Reads antt files as far as a small change of a definition needs it: definitions, their scopes, and expressions."""

import re
from typing import NamedTuple

TOKEN = re.compile(r'--[^\n]*|"(?:\\.|[^"\\])*"|\[\]|\|\||[(){}\[\];|]|\.[^\s(){}\[\];|."]+|\.|[^\s(){}\[\];|."]+')
# A line that opens a block or stands alone: what is indented below it does not continue it.
HEADING = re.compile(r"(?:pub )?(?:record|data|module|use|mod|infix[lr]?)\b")
SIGNATURE = re.compile(r"(?:unfoldable |abbrev |opaque )*(?:pub )?(\S+) : ")
RECORD = re.compile(r"(?:pub )?record (\S+)")
# Words between which an expression stands; what stands before one of BINDING is a pattern, a name or a binder.
SEPARATING = {"|", "↦", ";", "=", "in", "let", "→", ":", "λ", "."}
BINDING = {"↦", "=", ":", "."}
CONSTRUCTORS = {"zero", "suc", "none", "some", "true", "false", "[]", "∷", "pos", "negsuc"}


class Leaf(NamedTuple):
    text: str
    start: int
    end: int


class Group(NamedTuple):
    bracket: str  # or a point: a value and its projections, written tight
    items: tuple
    start: int
    end: int


class Line(NamedTuple):
    """A line with those that continue it."""

    indent: int
    start: int
    end: int
    words: str


class Variable(NamedTuple):
    name: str
    type: str
    start: int  # where in the file it can be used
    end: int


class Clause(NamedTuple):
    """What stands left of a definition's `=`, and its body; of a statement's field, no pattern and its type."""

    patterns: tuple
    body: tuple
    start: int
    end: int


class Definition(NamedTuple):
    file: str
    name: str
    types: tuple  # of its arguments and of its result, last
    clauses: list
    modules: tuple  # the places of the modules around it
    scope: tuple  # the modules' parameters, or those of a record and its fields
    fields: dict  # of a record: the type of each field

    @property
    def start(self):
        return self.clauses[0].start

    @property
    def end(self):
        return self.clauses[-1].end


def parse(text, start, end):
    """The items of a part of a file: words, and groups in brackets."""
    stack, opened = [[]], []
    for found in TOKEN.finditer(text, start, end):
        word = found[0]
        if word in {"(", "[", "{"}:
            opened.append((word, found.start()))
            stack.append([])
        elif word in {")", "]", "}"}:
            items = tuple(stack.pop())
            bracket, at = opened.pop()
            stack[-1].append(Group(bracket, items, at, found.end()))
        elif not word.startswith("--"):
            add(stack[-1], Leaf(word, found.start(), found.end()))
    return tuple(stack[0])


def add(items, leaf):
    """Puts a word behind the others; a projection joins what it stands behind with no blank."""
    before = items[-1] if items else None
    if before and len(leaf.text) > 1 and leaf.text.startswith(".") and before.end == leaf.start:
        parts = before.items if isinstance(before, Group) and before.bracket == "." else (before,)
        items[-1] = Group(".", (*parts, leaf), before.start, leaf.end)
    else:
        items.append(leaf)


def lines_of(text):
    """The lines of a file without comments, each with those below that are indented deeper."""
    lines, at = [], 0
    for line in text.splitlines(keepends=True):
        words, indent = line.strip(), len(line) - len(line.lstrip())
        start = at + indent
        at += len(line)
        if not words or words.startswith("--"):
            continue
        if lines and indent > lines[-1].indent and not HEADING.match(lines[-1].words):
            lines[-1] = lines[-1]._replace(end=start + len(words))
        else:
            lines.append(Line(indent, start, start + len(words), words))
    return lines


def split(items, words):
    """The stretches between the given words, and those words."""
    stretches, between = [[]], []
    for item in items:
        if isinstance(item, Leaf) and item.text in words:
            between.append(item)
            stretches.append([])
        else:
            stretches[-1].append(item)
    return [tuple(stretch) for stretch in stretches], between


def leaves(items):
    for item in items:
        if isinstance(item, Leaf):
            yield item
        else:
            yield from leaves(item.items)


def written(text, items):
    return " ".join(text[items[0].start : items[-1].end].split()) if items else ""


def plain(type_):
    """A type without brackets around it all; a path is a list of numbers."""
    items = parse(type_, 0, len(type_))
    if len(items) == 1 and isinstance(items[0], Group) and items[0].bracket == "(":
        type_ = type_[1:-1]
    return {"Path": "List ℕ"}.get(type_, type_)


def types_in(text, items):
    """The types between a signature's arrows, without those in braces, which no caller writes."""
    stretches, _ = split(items, {"→"})
    hidden = [len(part) == 1 and isinstance(part[0], Group) and part[0].bracket == "{" for part in stretches]
    return tuple(plain(written(text, part)) for part, gone in zip(stretches, hidden) if not gone)


def parameters(text, items):
    """The variables of groups such as `(t rows : List ℕ)`."""
    for group in items:
        if isinstance(group, Group) and group.bracket == "(":
            names, *types = split(group.items, {":"})[0]
            for name in names if types else ():
                yield Variable(name.text, plain(written(text, types[0])), 0, len(text))


class Reader:
    """Reads one file; a record's parameters and fields are a scope, as a module's parameters are."""

    def __init__(self, file, text):
        self.file, self.text, self.found, self.blocks = file, text, [], []

    def read(self):
        for line in lines_of(self.text):
            while self.blocks and line.indent <= self.blocks[-1][0].indent:
                self.blocks.pop()
            items = parse(self.text, line.start, line.end)
            if HEADING.match(line.words):
                self.heading(line, items)
            elif any(opened.words.startswith(("pub data", "data")) for opened, _ in self.blocks):
                continue
            else:
                self.line(line, items)
        return [definition for definition in self.found if definition.clauses]

    def heading(self, line, items):
        if line.words.startswith(("pub data", "data", "module", "pub record", "record")):
            self.blocks.append((line, tuple(parameters(self.text, items))))
        if record := RECORD.match(line.words):
            self.add(record[1], ())

    def line(self, line, items):
        inside = self.blocks and RECORD.match(self.blocks[-1][0].words)
        signature = SIGNATURE.match(line.words)
        if inside:
            self.field(signature[1], line, items)
        elif signature:
            self.add(signature[1], types_in(self.text, parse(self.text, line.start + signature.end(), line.end)))
        else:
            left, *right = split(items, {"="})[0]
            if right:
                body = parse(self.text, left[-1].end, line.end)[1:]
                self.found[-1].clauses.append(Clause(left, body, line.start, line.end))

    def add(self, name, types):
        modules = tuple(line.start for line, _ in self.blocks)
        scope = tuple(variable for _, variables in self.blocks for variable in variables)
        self.found.append(Definition(self.file, name, types, [], modules, scope, {}))

    def field(self, name, line, items):
        """A field of a record with parameters is part of a statement, and its type can be changed."""
        record = self.found[-1]
        type_items = items[[item.text if isinstance(item, Leaf) else "" for item in items].index(":") + 1 :]
        record.fields[name] = plain(written(self.text, type_items))
        if self.blocks[-1][1]:
            variable = Variable(name, record.fields[name], line.end, len(self.text))
            self.found[-1] = record._replace(scope=(*record.scope, variable))
            record.clauses.append(Clause((), type_items, line.start, line.end))


def definitions(file, text):
    return Reader(file, text).read()


def records(file, text):
    """The fields of each record of a file, with their types."""
    reader = Reader(file, text)
    reader.read()
    return [definition.fields for definition in reader.found if definition.fields]


def expressions(items, tested=False):
    """Each stretch between separating words at every depth, without patterns, names that are bound and binders; and
    whether it is all that an `elim` looks at."""
    stretch, last = [], ""
    for item in (*items, Leaf("|", 0, 0)):
        if not (isinstance(item, Leaf) and item.text in SEPARATING):
            stretch.append(item)
            continue
        if stretch and item.text not in BINDING and last != ":":
            yield tuple(stretch), tested
            for before, group in zip((None, *stretch), stretch):
                word = before.text if isinstance(before, Leaf) else ""
                if isinstance(group, Group) and (group.bracket != "{" or word == "record"):
                    yield from expressions(group.items, word == "elim")
        last, stretch = item.text, []


# From the loosest operators to the tightest.
LEVELS = ("≡ ≢", "or_else", "||", "&&", "++", "∷", "+ - +ℤ -ℤ", "* / %")


def chains(stretch, level=0):
    """Each chain of operators of one level: the operands and the operators."""
    if level < len(LEVELS):
        operands, operators = split(stretch, set(LEVELS[level].split()))
        if operators and all(operands):
            yield operands, operators
        for operand in operands:
            yield from chains(operand, level + 1)


def applications(stretch):
    """The parts of a stretch without operators: each a head with its arguments."""
    return [part for part in split(stretch, set(" ".join(LEVELS).split()))[0] if part]


def pattern_variables(pattern, type_):
    """The variables of a pattern for a value of the given type, each with its type where it is known."""
    if isinstance(pattern, Leaf):
        return [] if pattern.text in CONSTRUCTORS else [(pattern.text, type_)]
    items = pattern.items
    words = [item.text if isinstance(item, Leaf) else "" for item in items]
    if "∷" in words and type_.startswith("List "):
        return pattern_variables(items[0], plain(type_[5:])) + pattern_variables(items[2], type_)
    if words[0] == "some" and type_.startswith("Option "):
        return pattern_variables(items[1], plain(type_[7:]))
    inner = "ℕ" if words[0] in {"suc", "pos", "negsuc"} else ""
    return [found for item in items[1:] for found in pattern_variables(item, inner)]


def arguments(definition, clause):
    """The patterns of a clause, without the definition's name or the parts of its operator."""
    parts = {part for part in definition.name.split("◌") if part} | {definition.name}
    return [item for item in clause.patterns if not (isinstance(item, Leaf) and item.text in parts)]


def clause_variables(definition, clause):
    pairs = zip(arguments(definition, clause), definition.types[:-1])
    return [found for pattern, type_ in pairs for found in pattern_variables(pattern, type_)]


def bound(patterns):
    """The names that patterns bind."""
    return {leaf.text for leaf in leaves(patterns)} - CONSTRUCTORS
