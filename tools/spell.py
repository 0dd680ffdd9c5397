#!/usr/bin/env python3
"""Brings this repository's own definitions and lemmas to the spelling of today's Rattle: words in snake case.

usage: python3 tools/spell.py [--look]     at the top of the repository, right after port.py; --look changes nothing

It turns the names that specs/ declares (definitions, lemmas, fields, parameters of modules, variables) where they stand
in specs/, proofs/, in the clauses and `ghost` lines of src/ and in the tables of docs. Names of src/, of the library and
of generated modules stay, and so does all text in strings. It says which names fall together.
"""

import re
import subprocess
import sys
from pathlib import Path

ROOT = Path(__file__).resolve().parent.parent
TOKEN = re.compile(r"[^\s(){}\[\],;.:\"|`]+")
WORD = re.compile(r"[a-zA-Z][A-Za-z0-9'-]*")
FOREIGN = re.compile(r"^use (?!Rattle\.(?:%s)\.)([^{]*)\{([^}]*)\}" % "|".join(
    sorted(p.name for p in (ROOT / "crates").iterdir() if p.is_dir())), re.MULTILINE)
GHOST = re.compile(r"^\s*(?:ghost use |(?:requires|ensures)\b)")
DECLARED = re.compile(r"^\s*(?:abbrev |unfoldable )*(?:pub )?([^\s(){}\[\],;.:\"|`]+) *:(?= )", re.MULTILINE)


# Lemmas that port.py had turned to a name that a definition gets here.
TAKEN = {"any_below", "other_length", "row_written"}


def snake(name):
    """The name in snake case; a name that begins with a capital is a type or a module and keeps its capitals."""
    name = name.replace("getD", "get_or")
    if re.match(r"[a-z]", name):
        name = re.sub(r"(?<=[a-z0-9'])([A-Z])(?=[A-Z][a-z]|$|-)", lambda m: "_" + m[1], name)
        name = re.sub(r"([A-Z]+)([A-Z][a-z])", lambda m: m[1] + "_" + m[2], name)
        name = re.sub(r"(?<=[a-z0-9'])([A-Z])", lambda m: "_" + m[1], name).lower()
    return name.replace("-", "_")


def code_and_comment(line):
    at = line.find("--")
    while at > 0 and line[at - 1] not in " \t":
        at = line.find("--", at + 2)
    return (line, "") if at < 0 else (line[:at], line[at:])


def own_names():
    """Each own token of specs/ that changes, with its new spelling."""
    foreign, own = set(), set()
    for path in ROOT.glob("crates/*/*/**/*.antt"):
        text = path.read_text(encoding="utf-8")
        for found in FOREIGN.finditer(text):
            for word in found[2].split(","):
                foreign.add(re.sub(r"^◌|◌$", "", word.strip().split(" as ")[0]))
    for path in ROOT.glob("crates/*/specs/**/*.antt"):
        for line in path.read_text(encoding="utf-8").splitlines():
            code, _ = code_and_comment(line)
            if line.startswith(("use ", "pub mod ", "mod ")) and not re.match(r"use Rattle\.", line):
                continue
            for token in TOKEN.findall(re.sub(r'"[^"]*"', '""', code)):
                bare = token.strip("◌")
                if WORD.match(bare) and snake(bare) != bare and bare not in foreign:
                    own.add(bare)
    names = {name: snake(name) for name in own}
    # A lemma that would have its function's name gets `_lem`: of two names that fall together the one with dashes.
    for name in [n for n in names if "-" in n and sum(new == names[n] for new in names.values()) > 1]:
        names[name] += "_lem"
    return names | {name: f"{name}_lem" for name in TAKEN}


def turn_code(code, names):
    def one(found):
        token = found[0]
        bare = token.strip("◌")
        return token.replace(bare, names[bare]) if bare in names else token
    return TOKEN.sub(one, code)


def turn_line(line, names):
    code, comment = code_and_comment(line)
    pieces = re.split(r'("[^"]*")', code)
    code = "".join(p if p.startswith('"') else turn_code(p, names) for p in pieces)
    comment = re.sub(r"`([^`]*)`", lambda m: "`" + turn_code(m[1], names) + "`", comment)
    return code + comment


def turn_source(text, names):
    """Turns `ghost use` lines and the braces behind `requires` and `ensures`."""
    out, at = [], 0
    for found in re.finditer(r"^ghost use [^;]*;|\b(?:requires|ensures)\b[^{;\n]*\{", text, re.MULTILINE):
        if found.start() < at:
            continue
        end = found.end()
        if not found[0].startswith("ghost"):
            depth = 1
            while depth:
                depth += {"{": 1, "}": -1}.get(text[end], 0)
                end += 1
        out += [text[at:found.start()], turn_code(text[found.start():end], names)]
        at = end
    return "".join(out + [text[at:]])


def main(look):
    names = own_names()
    new = {}
    for old, name in sorted(names.items()):
        new.setdefault(name, []).append(old)
    for name, olds in sorted(new.items()):
        if len(olds) > 1:
            print(f"fall together: {' and '.join(olds)} are {name}")
    for path in sorted([*ROOT.glob("crates/*/specs/**/*.antt"), *ROOT.glob("crates/*/proofs/**/*.antt"), *ROOT.glob("crates/*/src/**/*.rt")]):
        text = path.read_text(encoding="utf-8")
        if path.suffix == ".rt":
            turned = turn_source(text, names)
        elif "proofs" in path.parts and path.name == "Proof.antt":
            turned = "\n".join(turn_line(line, names) for line in text.split("\n"))
        else:
            here = {t.strip("◌") for line in text.splitlines() for t in TOKEN.findall(code_and_comment(line)[0])}
            for old in sorted(here & names.keys()):
                if names[old] in here:
                    print(f"{path.relative_to(ROOT)}: {old} would be {names[old]}, which stands there")
            turned = "\n".join(turn_line(line, names) for line in text.split("\n"))
        if turned != text and not look:
            path.write_text(turned, encoding="utf-8")
    print(f"{len(names)} names")
    if look:
        for old, name in sorted(names.items()):
            print(old, name)


if __name__ == "__main__":
    main("--look" in sys.argv[1:])
