"""What README and docs/PROOFS.md name exists: each theorem, contract, definition and file; what holds each definition of the
rules is told and tried; and no two crates have a file of definitions or laws of one name."""

import re
import unittest
from collections import Counter
from pathlib import Path

ROOT = Path(__file__).resolve().parent.parent
CODE = re.compile(r"`([^`]+)`")
# A name of a law, a definition, a record or a function, perhaps with one of its fields behind it.
NAME = re.compile(r"[A-Za-z_][\w-]*(?=\.\w+$|$)")
FILE = re.compile(r"[\w./*-]+\.(?:antt|rt|py|c|md)")
# What stands before the colon of a statement, or is declared by a word of its own.
DECLARED = re.compile(
    r'^\s*(?:pub(?:\(crate\))? )?(?:(?:unfoldable|abbrev) )?(?:pub )?(?:extern "C" )?(?:fn |enum |struct |record |data )?'
    r"([A-Za-z_][\w-]*)(?= [:({]|\(| where)",
    re.MULTILINE,
)
# What stands in the tables beside our own names: a command, a word of contracts, a part of the gate, an option.
FOREIGN = {"rt", "requires", "contracts", "none"}
# The first column of README's table of theorems.
DEMANDS = {"1", "2", "3", "examples"}


def declared():
    """The crates, and every name that some source of theirs declares."""
    kinds = [f"{part}/**/*.{kind}" for part in ("src", "specs", "proofs") for kind in ("antt", "rt")]
    texts = [path.read_text(encoding="utf-8") for kind in kinds for path in ROOT.glob(f"crates/*/{kind}")]
    return {path.name for path in ROOT.glob("crates/*")} | {name for text in texts for name in DECLARED.findall(text)}


def rows(document):
    """The cells of each table row of a document, but for the heading and the rule below it."""
    for line in (ROOT / document).read_text(encoding="utf-8").splitlines():
        cells = [cell.strip() for cell in line.strip("|").split(" | ")]
        if line.startswith("| ") and len(cells) > 1:
            yield cells


def named(cells):
    return [span for cell in cells for span in CODE.findall(cell)]


def missing_names(spans, known):
    """The spans that look like a name of ours and are declared nowhere; `step_refused_..` stands for all that begin so."""
    names = [match[0] for span in spans if (match := NAME.match(span.removesuffix("..")))]
    return [name for name in names if name not in known | FOREIGN and not begins_one(name, known)]


def begins_one(name, known):
    return name.endswith("_") and any(one.startswith(name) for one in known)


def missing_files(spans):
    """The spans that look like a file and are none, from the root, from `crates/` or in `specs/` or `proofs/` of a crate."""
    files = [span for span in spans if FILE.fullmatch(span)]
    return [file for file in files if not any(place(file))]


def place(file):
    crate, _, rest = file.partition("/")
    below = [f"crates/{pattern}" for part in ("specs", "proofs") for pattern in (f"{crate}/{part}/{rest}", f"*/{part}/{file}")]
    for pattern in (file, f"crates/{file}", *below):
        yield next(ROOT.glob(pattern), None)


# ---- the definitions of the rules

RULES = ROOT / "crates" / "rules"
# What begins a definition; a record of values, a data type and a type's short name have no meaning of their own.
BEGINS = re.compile(r"^ *(?:unfoldable pub|abbrev pub|pub record|pub data) (\S+)", re.MULTILINE)
TYPES = {"Path", "Settled", "Pair", "Report", "Tally", "Refusal", "Rule", "Verdict"}


def definition_files():
    return [path for path in sorted(RULES.glob("specs/*.antt")) if not path.stem.endswith(("Examples", "Lib"))]


def parts_of(text):
    """Each definition's name, with its text down to the next one."""
    found = [*BEGINS.finditer(text)]
    ends = [one.start() for one in found[1:]] + [len(text)]
    return [(one[1], text[one.start() : end]) for one, end in zip(found, ends)]


def defined():
    """The file and the name of each definition of the rules that has a meaning."""
    texts = [(path.name, path.read_text(encoding="utf-8")) for path in definition_files()]
    return {(file, name) for file, text in texts for name, _ in parts_of(text) if name not in TYPES}


def changed_by(edit):
    """The definitions that the first replacements of a must-fail edit of the rules stand in."""
    file = re.search(r"^file: specs/(.*)$", edit, re.MULTILINE)[1]
    parts = parts_of((RULES / "specs" / file).read_text(encoding="utf-8"))
    return {(file, name) for old in re.findall(r"^old: (.*)$", edit, re.MULTILINE) for name, text in parts if old in text}


def believed(files):
    """The lines of some files but for comments, imports and empty ones."""
    lines = [line for path in files for line in path.read_text(encoding="utf-8").splitlines()]
    return len([line for line in lines if line.strip() and not line.lstrip().startswith("--") and not line.startswith("use ")])


def told(document):
    """A document's words, however its lines are broken."""
    return " ".join((ROOT / document).read_text(encoding="utf-8").split())


def names_twice(paths):
    """The names of files that stand in the specs or the proofs of two crates; the toolchain wants a `Lib.antt` in each."""
    counts = Counter(name for _, name in {(path.parts[-3], path.name) for path in paths})
    return sorted(name for name, count in counts.items() if count > 1 and name != "Lib.antt")


class Specs(unittest.TestCase):
    def test_a_file_is_told_by_its_name(self):
        paths = [path for part in ("specs", "proofs") for path in ROOT.glob(f"crates/*/{part}/*.antt")]
        self.assertEqual(names_twice(paths), [])

    def test_a_name_that_stands_twice_is_found(self):
        names = ("a/specs/Lib", "b/specs/Lib", "a/specs/RowLaws", "b/proofs/RowLaws", "b/specs/Rows", "b/proofs/Rows")
        self.assertEqual(names_twice([Path(f"{name}.antt") for name in names]), ["RowLaws.antt"])


class Definitions(unittest.TestCase):
    def test_each_has_its_line(self):
        table = [row for row in rows("docs/PROOFS.md") if len(row) == 4 and row[0].endswith(".antt`")]
        told = [(row[0].strip("`"), name) for row in table for name in CODE.findall(row[1])]
        self.assertEqual(sorted(told), sorted(defined()))

    def test_each_has_an_edit(self):
        edits = [path.read_text(encoding="utf-8") for path in RULES.glob("must-fail/*.edit")]
        self.assertEqual(defined() - {place for edit in edits for place in changed_by(edit)}, set())

    def test_how_much_is_to_be_believed(self):
        lists = believed(ROOT / "crates" / "lists" / "specs" / f"{name}.antt" for name in ("Search", "Fill", "Fold"))
        rules = believed(definition_files())
        words = f"{lists + rules} lines, without comments and imports: {lists} of `lists` and {rules} of `rules`"
        self.assertIn(words, told("docs/PROOFS.md"))
        self.assertIn(f"{rules} lines of definitions, with {lists} of", told("README.md"))


class Named(unittest.TestCase):
    """One test for each document: the columns behind the claims, of every row."""

    def held(self, cells, least):
        self.assertGreater(len(cells), least)
        spans = [span for row in cells for span in named(row)]
        self.assertEqual(missing_names([span for span in spans if not FILE.fullmatch(span)], declared()), [])
        self.assertEqual(missing_files(spans), [])

    def test_proofs(self):
        self.held([row[1:] for row in rows("docs/PROOFS.md")], 60)

    def test_readme(self):
        self.held([row[2:] for row in rows("README.md") if row[0] in DEMANDS], 20)

    def test_what_is_not_there_is_found(self):
        self.assertEqual(missing_names(["settling", "no_such_law", "Stays.now"], declared()), ["no_such_law"])
        self.assertEqual(missing_files(["rules/Table.antt", "rules/Tables.antt"]), ["rules/Tables.antt"])


if __name__ == "__main__":
    unittest.main()
