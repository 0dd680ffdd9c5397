#!/usr/bin/env python3
"""Turns the older Proof.antt files of a crate into Invariants.antt and Answers.antt.

usage: python3 tools/to_answers.py NAMES CRATE..     NAMES: the folder that `rt names NAMES` wrote, from a copy without proofs/

What an old proof reached by steps back (`c.before.before.loop.i`) is a field of today's flat record (`c.loop-i.i`); goals,
steps and places get today's names. Answers that the check finds alone are left out. It proves nothing: rt check decides.
"""

import difflib
import json
import re
import sys
from pathlib import Path

ROOT = Path(__file__).resolve().parent.parent
OLDER = {"holds": "init", "less": "smaller", "again": "preserved"}
ALONE = re.compile(r"^(tt|refl|search rules|search needs|omega arith|\(omega arith, omega arith\))$")
IDENT = r"[^\s(){}\[\],;.:\"|]+"


# The parameters `&mut` of each function of src/, by its name.
MUTABLE = {}
for source in ROOT.glob("crates/*/src/**/*.rt"):
    for header in re.finditer(r"\bfn (\w+)\(([^{]*?)\)(?: ->|\s*\n?\s*(?:requires|ensures|\{))", source.read_text(encoding="utf-8"), re.S):
        MUTABLE[header[1]] = re.findall(r"(\w+): &mut", header[2])


def plain(name):
    """A name without the differences of spelling between the older toolchains."""
    name = name.lower().replace("_", "-").replace("'", "")
    return re.sub(r"(?<=loop)((?:-\w+)*)-(holds|less|again)(?=$|-\d)", lambda m: f"{m[1]}-{OLDER[m[2]]}", name)


class Function:
    """What NAMES says of one function."""

    def __init__(self, names):
        self.needs = names["needs"]
        self.asked = [new for _, new in names["asked_at"]]
        self.new = names["places_by_name"]
        olds = [place[0] for place in names["places"]]
        self.place_of = {plain(old): new for old, new in zip(olds, self.new)}
        self.parent = {}
        for place, new in zip(names["places"], self.new):
            self.parent[new] = self.place_of.get(plain(place[1])) if place[1] else None
        self.steps = {}
        for place in names["places"]:
            if place[2][0]:
                self.steps[plain(place[2][0])] = place[2][1]
        self.loops = names["loops"]
        self.changed = names["changed"]
        for (old, new), _ in self.loops:
            self.steps[plain(old)] = new
        self.callee = {place[2][1]: place[3] for place in names["places"] if place[3]}
        self.typed = {}
        for place in names["typed"]:
            for variable, step in place:
                self.typed.setdefault(plain(step), variable)

    def back(self, place, to):
        """How many steps back from one place to another, or nothing."""
        n = 0
        while place is not None and place != to:
            place, n = self.parent.get(place), n + 1
        return n if place is not None else None


def blocks_of(text):
    """The declarations of a file: each with the comment lines in front of it; then the use lines are apart."""
    uses, blocks, comment, current = [], [], [], None
    for line in text.split("\n"):
        if line.startswith("use "):
            uses.append(line)
        elif line.startswith("--"):
            if current:
                blocks.append(current)
                current = None
            comment.append(line)
        elif not line.strip():
            if current:
                blocks.append(current)
                current = None
            elif comment:
                comment.append("")
        else:
            if current is None:
                current = [comment, []]
                comment = []
            current[1].append(line)
    if current:
        blocks.append(current)
    return uses, [("\n".join(c).strip(), l) for c, l in blocks]


def name_of(lines):
    return re.match(rf"(?:abbrev )?(?:pub )?({IDENT})", lines[0])[1]


def parens(text, at):
    """The end of the bracket that opens at a place."""
    depth = 0
    for k in range(at, len(text)):
        depth += {"(": 1, ")": -1}.get(text[k], 0)
        if depth == 0:
            return k + 1
    raise ValueError(text[at:at + 80])


class Turner:
    def __init__(self, function, place_functions, helpers):
        self.f, self.place_functions, self.helpers = function, place_functions, helpers
        self.odd = []

    def place_at(self, text, at, aliases):
        """The place expression that begins at a place of a text: its end and its place, or nothing."""
        if text[at] == "(":
            end = parens(text, at)
            inner = text[at + 1:end - 1].strip()
            got = self.whole(inner, aliases)
            if got is None:
                return None
        else:
            found = re.compile(IDENT).match(text, at)
            if not found or found[0] not in aliases:
                return None
            end, got = found.end(), aliases[found[0]]
        while text.startswith(".before", end) and not re.match(r"[\w-]", text[end + 7:end + 8] or " "):
            end, got = end + 7, "?"
        return end, got

    def whole(self, text, aliases):
        """The place of a text that is a place expression and nothing else."""
        text = text.strip()
        found = re.match(rf"({IDENT})\s+", text)
        if found and found[1] in self.place_functions:
            rest = text[found.end():].strip()
            return self.place_functions[found[1]] if self.whole(rest, aliases) is not None else None
        if not text or (text[0] != "(" and not re.match(IDENT, text)):
            return None
        got = self.place_at(text, 0, aliases)
        return got[1] if got and got[0] == len(text) else None

    def body(self, text, root, place):
        aliases = {root: place}
        # let a = PLACE in
        while True:
            for found in re.finditer(rf"let ({IDENT}) = ", text):
                end = text.find(" in", found.end())
                got = self.whole(text[found.end():end], aliases) if end > 0 else None
                if got is not None:
                    aliases[found[1]] = got
                    rest = text[end + 3:]
                    text = text[:found.start()] + rest.lstrip(" ") if rest.startswith((" ", "\n")) is False else text[:found.start()] + rest.lstrip()
                    break
            else:
                break
        out, at, last = [], 0, ""
        word = re.compile(IDENT)
        while at < len(text):
            if text[at] == '"':
                end = text.index('"', at + 1) + 1
                out.append(text[at:end])
                at = end
                continue
            here = text[at] == "(" or (word.match(text, at) and not re.match(r"[\w.'₀-₉-]", text[at - 1:at] or " "))
            got = self.place_at(text, at, aliases) if here else None
            if got:
                end, to = got
                if text.startswith(".", end):
                    out.append(root)
                else:
                    out.append(self.bare(root, place, last, to))
                at = end
                last = ""
                continue
            found = word.match(text, at)
            if found:
                out.append(found[0])
                last, at = found[0], found.end()
            else:
                if text[at] in "(,":
                    last = last if text[at] == "(" and False else ""
                out.append(text[at])
                at += 1
        return self.steps("".join(out), root)

    def bare(self, root, place, function, to):
        target = self.helpers.get(function) or (to if to != "?" else None)
        if target is None or place is None:
            self.odd.append(f"a place is passed to {function}")
            return f"{root}"
        n = self.f.back(place, target)
        if n is None:
            self.odd.append(f"no way from {place} to {target}")
            return root
        return root + ".before" * n

    def steps(self, text, root):
        def one(found):
            step = plain(found[1])
            if step in self.f.typed and found[2].startswith(".given"):
                return f"{root}.type_inv.{self.f.typed[step]}" + found[2][6:]
            if found[1] == "before":
                return found[0]
            if found[1] in ("args", "requires", "pre", "ranges", "type_inv", "lifetimes", "well-formed"):
                word = {"pre": "requires", "well-formed": "well_formed"}.get(found[1], found[1])
                return f"{root}.{word}{found[2]}"
            new = self.f.steps.get(step) or self.f.steps.get(step.removesuffix("-lem"))
            if new is None:
                self.odd.append(f"no step {found[1]}")
                return found[0]
            parameters = MUTABLE.get((self.f.callee.get(new) or "").split("::")[-1], [])
            if re.match(r"\.(auto|new)\.\d", found[2]) and int(found[2].split(".")[2]) < len(parameters):
                return f"{root}.{new}.{found[2].split('.')[1]}.{parameters[int(found[2].split('.')[2])]}"
            rest = re.sub(r"^\.(inv|taken|left|pre)\b", lambda m: {"inv": ".invariant", "taken": ".true", "left": ".false", "pre": ".requires"}[m[1]], found[2])
            return f"{root}.{new}{rest}"
        return re.sub(rf"(?<![\w.'-]){re.escape(root)}\.({IDENT})((?:\.{IDENT})*)", one, text)


def invariant(function, lines, number, kind):
    """An invariant or a measure over the record l of today."""
    text = "\n".join(lines)
    (old, new), variables = function.loops[number]
    changed = function.changed[number]
    head, body = re.match(rf"[^\n]*\n((?:unfolding[^\n]*\n)?){IDENT}((?:\s+[^\s=]+)*)\s+=\s*(.*)$", text, re.S).group(2, 3)
    names = head.split()
    fields = ["l.initial." + v if c else "l." + v for v, c in zip(variables, changed)] + ["l." + v for v, c in zip(variables, changed) if c]
    odd = []
    if len(fields) != len(names):
        odd.append(f"{kind} {new}: {names} beside {fields}")
        fields = ["l.initial." + n[:-1] if n.endswith("₀") else "l." + n for n in names]
    mapping = dict(zip(names, fields))
    for n, field in mapping.items():
        if n == "_":
            continue
        body = re.sub(rf"(?<![\w.'-]){re.escape(n)}(?![\w'₀-]|-\w)", "\0" + field.replace("l.", "l\1", 1) + "\0", body)
    body = body.replace("\0", "").replace("\1", ".")
    return f"abbrev pub {kind}-{new} : goal.{kind}-{new}\n{kind}-{new} l = {body}", odd


def turn(path, crate, names, keep_all):
    function_name = ".".join(path.relative_to(ROOT / "crates" / crate / "proofs").parts[:-1])
    f = Function(names[f"Rattle-{crate}-proofs.{function_name}.Lts"])
    text = path.read_text(encoding="utf-8")
    uses, blocks = blocks_of(text)
    module = f"Rattle.{crate}.proofs.{function_name}"
    uses = [u for u in uses if not re.search(r"\.(Statement|Tie)\b", u)]
    head = text[:text.index("\nuse ")] if text.startswith("--") else ""
    blocks = [(("" if c == head.strip() else c.replace(head.strip(), "").strip()), l) for c, l in blocks]
    loops = [new for (_, new), _ in f.loops]
    spec = next(l for _, l in blocks if "tie.close" in "\n".join(l))
    given = re.search(r"tie\.spec\b([^)]*)", "\n".join(spec))[1].split()
    inv_names, goal_names = given[:2 * len(loops)], given[2 * len(loops):]
    odd = []
    # goals: align the old arguments of tie.spec with today's needs
    olds, needs = [plain(g) for g in goal_names], [plain(n[0]) for n in f.needs]
    goals = {}
    for tag, i1, i2, j1, j2 in difflib.SequenceMatcher(None, olds, needs, autojunk=False).get_opcodes():
        if tag == "equal":
            for i, j in zip(range(i1, i2), range(j1, j2)):
                goals[goal_names[i]] = (f.needs[j][1], f.asked[j])
        elif tag in ("replace", "delete"):
            for i in range(i1, i2):
                goals[goal_names[i]] = None
    strip = re.compile(r"((?:tie|goal)\.[^\s()]+)((?:\n?[ \t]+(?:invariant-loop|decreases-loop)[\w-]*)+)")
    place_functions, helpers = {}, {}
    for _, lines in blocks:
        sig = strip.sub(r"\1", " ".join(lines))
        found = re.match(rf"abbrev ({IDENT}) : tie\.({IDENT}) → tie\.({IDENT}) ", sig)
        if found and f.place_of.get(plain(found[3])):
            place_functions[found[1]] = f.place_of[plain(found[3])]
        found = re.match(rf"(?:abbrev )?({IDENT}) : (?:\((?:{IDENT}) : )?tie\.({IDENT})", sig)
        if found and f.place_of.get(plain(found[2])):
            helpers[found[1]] = f.place_of[plain(found[2])]
    invariants, answers = [], []
    for comment, lines in blocks:
        name = name_of(lines)
        joined = strip.sub(r"\1", "\n".join(lines))
        if lines is spec or name in place_functions:
            continue
        if name in inv_names:
            k = inv_names.index(name)
            kind = "invariant" if name.startswith("invariant") else "decreases"
            number = k % len(loops) if False else (k if k < len(loops) else k - len(loops))
            out, more = invariant(f, joined.split("\n"), number, kind)
            odd += more
            invariants.append((comment + "\n" if comment else "") + out)
            continue
        turner = Turner(f, place_functions, helpers)
        if name in goals:
            if goals[name] is None:
                if not re.search(r"same.length|enum.known|enum.told|aggregate", name):
                    odd.append(f"goal {name} is gone: {lines[-1].strip()[:60]}")
                continue
            new, place = goals[name]
            found = re.match(rf"[^\n]*\n((?:unfolding[^\n]*\n)?){re.escape(name)} ({IDENT})(?: [^\s=]+)*\s*=\s*(.*)$", joined, re.S)
            if not found:
                odd.append(f"goal {name}: not read: {joined[:200]}")
                continue
            opened, root, body = found.groups()
            if ALONE.match(body.strip()) and not opened and not keep_all:
                continue
            body = turner.body(body, root, place)
            line = f"{opened}{new} {root} ="
            body = re.sub(r"\n[ \t]*\n", "\n", body)
            sep = "\n    " if "\n" in body or len(body) > 80 else " "
            answers.append((comment + "\n" if comment else "") + f"pub {new} : goal.{new}\n{line}{sep}{body.strip()}")
            odd += [f"{new}: {o}" for o in turner.odd]
            continue
        # a helper: its places get today's names
        place = helpers.get(name)
        out = re.sub(rf"tie\.({IDENT})", lambda m: "goal." + f.place_of.get(plain(m[1]), m[1]), joined)
        if place is not None:
            sig_end = re.search(rf"^(?:unfolding [^\n]*\n)?{re.escape(name)} ", out, re.M)
            root = re.search(rf"^{re.escape(name)} ({IDENT})", out, re.M)[1]
            out = turner.body(out, root, place)
            odd += [f"{name}: {o}" for o in turner.odd]
        answers.append((comment + "\n" if comment else "") + out)
    folder = path.parent
    made = {}
    if invariants:
        made["Invariants.antt"] = "\n".join([*uses, f"use {module}.Given as goal", "", "\n\n".join(invariants), ""])
    if answers:
        made["Answers.antt"] = "\n".join([head, *uses, f"use {module}.Goals as goal", "", "\n\n".join(answers), ""]).lstrip("\n")
    return made, odd, function_name


def main(argv):
    keep_all = "--all" in argv
    argv = [a for a in argv if a != "--all"]
    names_folder, crates = Path(argv[0]), argv[1:]
    for crate in crates:
        names = json.loads((names_folder / "crates" / crate / "names.json").read_text())
        for path in sorted((ROOT / "crates" / crate / "proofs").rglob("Proof.antt")):
            try:
                made, odd, function_name = turn(path, crate, names, keep_all)
            except Exception as problem:
                print(f"{crate} {path.parent.name}: {type(problem).__name__} {problem}")
                continue
            path.unlink()
            for name, text in made.items():
                (path.parent / name).write_text(text, encoding="utf-8")
            for line in odd:
                print(f"{crate} {function_name}: {line}")


if __name__ == "__main__":
    main(sys.argv[1:])
