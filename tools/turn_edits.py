#!/usr/bin/env python3
"""Brings the must-fail edits to the spelling of today's Rattle, and says which of them do not fit.

usage: python3 tools/turn_edits.py LANDED     at the top of the repository; LANDED holds crates/ in the older Rattle's spelling
       python3 tools/turn_edits.py            changes nothing, and says only which edits do not fit

An edit fits where each of its `old:` texts stands once in its file, after the pairs before it. One that fits is left as it is.
In any other the names of specs/ are turned as they were turned in specs/ itself; what does not fit then is for the hand.
"""

import re
import sys
from collections import Counter, defaultdict
from difflib import SequenceMatcher
from pathlib import Path

ROOT = Path(__file__).resolve().parent.parent
TOKEN = re.compile(r"[A-Za-z][\w'′-]*|[^\s]")


def code(text):
    """The tokens of a file of specs/, without its imports and comments."""
    return TOKEN.findall(re.sub(r"(?m)^(?:use|pub mod) .*$|(?<!\S)--.*$", "", text))


def turned_names(landed):
    """What each name of specs/ became, by the two texts of each file beside one another."""
    became = defaultdict(Counter)
    for path in sorted(landed.glob("crates/*/specs/*.antt")):
        old, new = (code(p.read_text(encoding="utf-8")) for p in (path, ROOT / path.relative_to(landed)))
        for kind, a, b, c, d in SequenceMatcher(None, old, new, autojunk=False).get_opcodes():
            if kind != "insert" and b - a == d - c:
                for one, other in zip(old[a:b], new[c:d]):
                    became[one][other] += 1
    return {one: others.most_common(1)[0][0] for one, others in became.items() if one[0].isalpha()}


def turn(text, names):
    """The text in today's spelling."""
    text = re.sub(r"(?<!\w)_([^\s_(){}\[\],;]+)_(?!\w)", lambda m: f"◌{names.get(m[1], m[1])}◌", text)
    pieces = re.split(r'("[^"]*")', text)
    pieces = [p if p.startswith('"') else TOKEN.sub(lambda m: names.get(m[0], m[0]), p) for p in pieces]
    text = re.sub(r"(?<=[\w')]) \.(?=[a-z])", ".", "".join(pieces))
    # A projection stands without brackets.
    return re.sub(r"(?<=[ (])\(([a-z]\w*\.\w+)\)(?=[ )])", r"\1", text)


def unfit(crate, text):
    """Why the edit does not fit its crate, or None."""
    path, old, texts, pairs = None, None, {}, 0
    for line in text.split("\n"):
        if line.startswith("file: "):
            path = line[len("file: "):].strip()
            if not (crate / path).is_file():
                return f"there is no {path}"
            if path not in texts:
                texts[path] = (crate / path).read_text(encoding="utf-8")
        elif line.startswith("old: "):
            old = line[len("old: "):]
        elif line.startswith("new:"):
            found = texts[path].count(old)
            if found != 1:
                return f"{path} has {found} times: {old}"
            texts[path] = texts[path].replace(old, line[len("new: "):])
            pairs += 1
    return None if pairs else "it has no pair"


def main(landed):
    names = turned_names(Path(landed)) if landed else {}
    fit, left = 0, []
    for edit in sorted(ROOT.glob("crates/*/must-fail/*.edit")):
        crate = edit.parent.parent
        text = edit.read_text(encoding="utf-8")
        if landed and unfit(crate, text):
            source, lines = False, []
            for line in text.split("\n"):
                source = line.startswith("file: src/") if line.startswith("file: ") else source
                lines.append(turn(line, names) if line.startswith(("old: ", "new: ")) and not source else line)
            text = "\n".join(lines)
            edit.write_text(text, encoding="utf-8")
        why = unfit(crate, text)
        if why:
            left.append(f"{crate.name}/{edit.name}: {why}")
        fit += not why
    print("\n".join(left))
    print(f"{fit} edits fit, {len(left)} do not")


if __name__ == "__main__":
    main(sys.argv[1] if len(sys.argv) > 1 else None)
