"""The small changes that `mutate.py` tries: each alters one place of one definition of an antt file."""

import re
from itertools import pairwise
from typing import NamedTuple

import antt
from antt import Group, Leaf

# The library's names that a change may bring in, by the module that has them.
HOMES = {
    "Rattle.std.specs.Prelude": {
        *("true", "false", "not", "◌||◌", "◌&&◌", "take", "drop", "min", "max"),
        *("◌+◌", "◌-◌", "◌*◌", "◌/◌", "◌%◌", "◌+ℤ◌", "◌-ℤ◌"),
    },
}
# A word for which another stands, by the kind of the change.
EXCHANGED = {
    "true-false-exchanged": (("true", "false"), ("false", "true")),
    "and-or-exchanged": (("&&", "||"), ("||", "&&")),
    "operator-exchanged": (
        *(("+", "-"), ("-", "+"), ("/", "%"), ("%", "/"), ("*", "+"), ("+", "*")),
        *(("+ℤ", "-ℤ"), ("-ℤ", "+ℤ"), ("max", "min"), ("min", "max")),
    ),
    "take-drop-exchanged": (("take", "drop"), ("drop", "take")),
}
# Functions that do not care for the order of their arguments.
SYMMETRIC = {"same"}
KINDS = (
    *EXCHANGED,
    *("number-up", "number-down", "letter-changed", "blank-dropped"),
    *("projection-exchanged", "fields-exchanged", "variable-exchanged", "name-exchanged", "arguments-exchanged"),
    *("append-exchanged", "or_else-exchanged", "operand-dropped", "elements-exchanged", "element-dropped"),
    *("not-dropped", "suc-dropped", "eqb-negated", "ltb-turned", "ltb-widened"),
    *("arms-exchanged", "arms-copied", "clauses-exchanged", "clauses-copied", "premise-dropped", "let-forgotten"),
)


class Edit(NamedTuple):
    start: int
    end: int
    text: str


class Change(NamedTuple):
    name: str  # such as Greedy.antt:87:true-false-exchanged:1
    kind: str
    file: str
    line: int
    definition: str
    before: str  # the definition's clauses, in one line
    after: str
    text: str  # the whole file


class Place(NamedTuple):
    """An expression and what is known where it stands."""

    world: "World"
    definition: antt.Definition
    text: str
    variables: list
    items: tuple
    tested: bool  # it is all that an `elim` looks at
    last: set  # the last use of each word of the clause

    def cut(self, *items):
        return self.text[items[0].start : items[-1].end]


# ---- edits


def put(item, text):
    return [Edit(item.start, item.end, text)]


def exchange(text, one, other):
    """Two stretches in each other's place; nothing where they are the same."""
    first, second = text[one[0].start : one[-1].end], text[other[0].start : other[-1].end]
    if first.split() == second.split():
        return None
    return [Edit(one[0].start, one[-1].end, second), Edit(other[0].start, other[-1].end, first)]


def drop(operands, k):
    """An operand away, with the operator after it or, for the last, before it."""
    if k + 1 < len(operands):
        return [Edit(operands[k][0].start, operands[k + 1][0].start, "")]
    return [Edit(operands[k - 1][-1].end, operands[k][-1].end, "")]


def apply(text, edits):
    for edit in sorted(edits, reverse=True):
        text = text[: edit.start] + edit.text + text[edit.end :]
    return text


# ---- changes of a word


def words(place):
    for leaf in place.items:
        if not isinstance(leaf, Leaf):
            continue
        if leaf.text.isdigit():
            yield "number-up", put(leaf, str(int(leaf.text) + 1))
            if int(leaf.text):
                yield "number-down", put(leaf, str(int(leaf.text) - 1))
        for kind, pairs in EXCHANGED.items():
            for old, new in pairs:
                if leaf.text == old:
                    yield kind, put(leaf, new)


def strings(place):
    for leaf in place.items:
        if isinstance(leaf, Leaf) and leaf.text.startswith('"'):
            inner = leaf.text[1:-1]
            letter = re.search(r"(?<!\\)[a-wyz]", inner)
            at = letter.start() if letter else 0
            changed = inner[:at] + "x" + inner[at + 1 :] if letter else "x"
            yield "letter-changed", put(leaf, f'"{changed}"')
            if inner.startswith(" "):
                yield "blank-dropped", put(leaf, f'"{inner[1:]}"')
            if inner.endswith(" ") and len(inner) > 1:
                yield "blank-dropped", put(leaf, f'"{inner[:-1]}"')


def neighbour(found, types):
    """The next name of the same type, the first after the last; nothing where there is no other."""
    alike = [name for name, type_ in types.items() if type_ == types[found]]
    return alike[(alike.index(found) + 1) % len(alike)] if len(alike) > 1 else None


def projections(place):
    for leaf in place.items:
        field = leaf.text[1:] if isinstance(leaf, Leaf) and leaf.text.startswith(".") else None
        for types in place.world.records:
            other = neighbour(field, types) if field in types else None
            if other:
                yield "projection-exchanged", put(leaf, f".{other}")


def variables(place):
    """Another variable of the same type, at the last place of a clause where one is used."""
    for leaf in place.items:
        if not isinstance(leaf, Leaf) or leaf not in place.last:
            continue
        types = {found.name: found.type for found in place.variables if found.start <= leaf.start < found.end}
        other = neighbour(leaf.text, types) if types.get(leaf.text) else None
        if other:
            yield "variable-exchanged", put(leaf, other)


def names(place):
    """Another definition of the same type that stands beside the used one: the one before, else the one after."""
    for leaf in place.items:
        used = place.world.named(leaf.text, place.definition) if isinstance(leaf, Leaf) else None
        if used and used.name != place.definition.name and used.clauses[0].patterns:
            for other in place.world.beside(used, place.definition)[:1]:
                yield "name-exchanged", put(leaf, other.name)


# ---- changes of an expression


def operands(place):
    for parts, operators in antt.chains(place.items):
        word = operators[0].text
        elements = parts[:-1] if word == "∷" else parts
        kinds = {"∷": "elements-exchanged", "++": "append-exchanged", "or_else": "or_else-exchanged"}
        if word in kinds:
            for one, other in pairwise(elements):
                yield kinds[word], exchange(place.text, one, other)
        if word in {"∷", "or_else", "||", "&&"} and len(elements) > 1:
            for k in range(len(elements)):
                yield ("element-dropped" if word == "∷" else "operand-dropped"), drop(parts, k)


def calls(place):
    """Changes of a function with its arguments."""
    for head, *given in antt.applications(place.items):
        if not isinstance(head, Leaf) or not given:
            continue
        whole = Leaf("", head.start, given[-1].end)
        if head.text == "not" and len(given) == 1:
            yield "not-dropped", put(whole, place.cut(*given))
        elif head.text == "suc" and len(given) == 1:
            yield "suc-dropped", put(whole, place.cut(*given))
        elif head.text == "ltb" and len(given) == 2:
            yield "ltb-turned", exchange(place.text, given[:1], given[1:])
            yield "ltb-widened", put(whole, f"not (ltb {place.cut(given[1])} {place.cut(given[0])})")
        elif head.text == "eqb" and len(given) == 2 and not (place.tested and len(place.items) == 3):
            yield "eqb-negated", put(whole, f"not ({place.cut(whole)})")
        elif head.text == "elim" and isinstance(given[-1], Group):
            yield from arms(place, given[-1])
        elif head.text == "record":
            yield from fields(place, given[0])
        else:
            yield from exchanged_arguments(place, head, given)


def exchanged_arguments(place, head, given):
    used = place.world.named(head.text, place.definition)
    if used and head.text not in SYMMETRIC:
        until = [isinstance(item, Leaf) and item.text.startswith(".") for item in [*given, Leaf(".", 0, 0)]].index(True)
        types = place.world.types(used, place.definition)[:-1]
        for (one, left), (other, right) in pairwise(zip(given[:until], types)):
            if left == right and not (isinstance(one, Leaf) and isinstance(other, Leaf)):
                yield "arguments-exchanged", exchange(place.text, [one], [other])


def exchange_bodies(text, kind, one, other):
    """Of two cases, each the names that it binds and its body: the bodies exchanged; or, where one needs what its own
    case binds, the other in its place too."""
    (left_bound, left), (right_bound, right) = one, other
    left_needs = {leaf.text for leaf in antt.leaves(left)} & (left_bound - right_bound)
    right_needs = {leaf.text for leaf in antt.leaves(right)} & (right_bound - left_bound)
    both = exchange(text, left, right)
    if both and not left_needs and not right_needs:
        yield f"{kind}-exchanged", both
    elif both and not left_needs:
        yield f"{kind}-copied", both[1:]
    elif both and not right_needs:
        yield f"{kind}-copied", both[:1]


def arms(place, group):
    """The arms of an `elim`."""
    cases = []
    for arm in antt.split(group.items, {"|"})[0]:
        pattern, *body = antt.split(arm, {"↦"})[0]
        if body and body[0]:
            cases.append((antt.bound(pattern), body[0]))
    for one, other in pairwise(cases):
        yield from exchange_bodies(place.text, "arms", one, other)


def fields(place, group):
    """Fields of the same type, side by side in a record that is made."""
    made = []
    for part in antt.split(group.items, {";"})[0]:
        name, *body = antt.split(part, {"="})[0]
        if body and body[0]:
            made.append((name[0].text, part[2:]))
    declared = next((types for types in place.world.records if {name for name, _ in made} <= {*types}), {})
    for (one, left), (other, right) in pairwise(made):
        if declared.get(one) == declared.get(other):
            yield "fields-exchanged", exchange(place.text, left, right)


# ---- changes of a definition as a whole


def clauses(definition, text):
    cases = [(antt.bound(antt.arguments(definition, clause)), clause.body) for clause in definition.clauses]
    if definition.clauses[0].patterns:
        for one, other in pairwise(cases):
            yield from exchange_bodies(text, "clauses", one, other)


def premises(definition, text):
    """A condition of a statement away."""
    for clause in definition.clauses:
        parts, _ = antt.split(clause.body, {"→"})
        for part, after in pairwise(parts):
            if {"≡", "≢"} & {item.text for item in part if isinstance(item, Leaf)}:
                yield "premise-dropped", [Edit(part[0].start, after[0].start, "")]


def forgotten(definition, world, text):
    """`let x = f a b in ..`: a, where it has the type of x, in place of x."""
    for clause in definition.clauses:
        for name, value, rest in lets(clause.body):
            used = world.named(value[0].text, definition) if isinstance(value[0], Leaf) else None
            types = world.types(used, definition) if used else ()
            for item, type_ in zip(value[1:], types[:-1]):
                if len(types) == len(value) and type_ == types[-1]:
                    for leaf in antt.leaves(rest):
                        if leaf.text == name:
                            yield "let-forgotten", put(leaf, text[item.start : item.end])


def lets(items):
    """The name, the value and what follows of each `let` at the outermost depth."""
    marks = [k for k, item in enumerate(items) if isinstance(item, Leaf) and item.text in {"let", "in"}]
    for opened, closed in pairwise(marks):
        if items[opened].text == "let" and items[closed].text == "in":
            yield items[opened + 1].text, items[opened + 3 : closed], items[closed + 1 :]


# ---- all of them


class World:
    """The definitions of all files, and what a change of one asks of the others."""

    def __init__(self, files):
        self.files = files  # the text of each file
        self.definitions = [found for file, text in files.items() for found in antt.definitions(file, text)]
        self.records = [types for file, text in files.items() for types in antt.records(file, text)]
        self.by_name = {found.name: found for found in self.definitions}

    def named(self, name, user):
        """The definition that a name means where no variable hides it."""
        hidden = {variable.name for variable in user.scope}
        return None if name in hidden else self.by_name.get(name)

    def types(self, used, user):
        """The types of a definition as its user writes it: parameters of modules that both stand in are not written."""
        inside = used.file == user.file and {*used.modules} & {*user.modules}
        shared = {variable.name for variable in user.scope} if inside else set()
        return (*(found.type for found in used.scope if found.name not in shared), *used.types)

    def beside(self, used, user):
        """The definitions right before and after one that have its type and that its user could name."""
        own = [found for found in self.definitions if found.file == used.file]
        at = own.index(used)
        return [
            found
            for found in [*own[max(at - 1, 0) : at], *own[at + 1 : at + 2]]
            if (found.types, found.modules) == (used.types, used.modules)
            and (found.file != user.file or found.start < user.start)
        ]

    def places(self, definition):
        text = self.files[definition.file]
        for clause in definition.clauses:
            own = [
                antt.Variable(name, type_, clause.start, clause.end)
                for name, type_ in antt.clause_variables(definition, clause)
            ]
            known = [*definition.scope, *own, *self.let_variables(definition, clause)]
            last = {*{leaf.text: leaf for leaf in antt.leaves(clause.body)}.values()}
            for items, tested in antt.expressions(clause.body):
                yield Place(self, definition, text, known, items, tested, last)

    def let_variables(self, definition, clause):
        for name, value, rest in lets(clause.body):
            used = self.named(value[0].text, definition) if isinstance(value[0], Leaf) else None
            if used and len(self.types(used, definition)) == len(value):
                yield antt.Variable(name, used.types[-1], rest[0].start, clause.end)

    def edits(self, definition):
        """The kind and the edits of each change of a definition."""
        text = self.files[definition.file]
        for place in self.places(definition):
            for part in (words, strings, projections, variables, names, operands, calls):
                yield from part(place)
        yield from clauses(definition, text)
        yield from premises(definition, text)
        yield from forgotten(definition, self, text)

    def changes(self):
        """Every change, in the order of the files and of the places; none twice."""
        for file, text in self.files.items():
            found = {}
            for definition in self.definitions:
                if definition.file == file:
                    for kind, edits in self.edits(definition):
                        if edits:
                            found.setdefault(apply(text, edits), (min(edits).start, kind, definition, edits))
            yield from self.named_changes(file, sorted(found.values(), key=lambda entry: entry[0]))

    def named_changes(self, file, found):
        text, counted = self.files[file], {}
        for start, kind, definition, edits in found:
            line = text.count("\n", 0, start) + 1
            counted[line, kind] = counted.get((line, kind), 0) + 1
            name = f"{file}:{line}:{kind}:{counted[line, kind]}"
            part = slice(definition.start, definition.end)
            shifted = [Edit(edit.start - part.start, edit.end - part.start, edit.text) for edit in edits]
            before, after = text[part], apply(text[part], shifted)
            whole = self.imported(definition, apply(text, edits), edits)
            spaced = [" ".join(side.split()) for side in (before, after)]
            yield Change(name, kind, file, line, definition.name, *spaced, whole)

    def imported(self, definition, text, edits):
        """The changed file, with the names brought in that the change uses and the file does not."""
        for word in {leaf.text for edit in edits for leaf in antt.leaves(antt.parse(edit.text, 0, len(edit.text)))}:
            for name in (word, f"◌{word}◌"):
                for module, known in HOMES.items():
                    if name in known:
                        text = bring(text, re.escape(module), module, name)
            other = self.by_name.get(word)
            if other and other.file != definition.file:
                stem = other.file.removesuffix(".antt")
                text = bring(text, rf"Rattle\.\w+\.specs\.{stem}", None, word)
        return text


def bring(text, pattern, module, name):
    """A file that imports a name of a module, as before where it does already."""
    line = re.search(rf"^use {pattern}\.\{{(.*)\}}$", text, re.MULTILINE)
    if line and name in line[1].split(", "):
        return text
    if line:
        return text[: line.end() - 1] + f", {name}" + text[line.end() - 1 :]
    if module is None:
        return text
    return re.sub(r"^use ", f"use {module}.{{{name}}}\nuse ", text, count=1, flags=re.MULTILINE)
