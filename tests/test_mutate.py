"""The worked examples notice changes of the definitions; and the tool that tries them, on made-up definitions."""

import os
import re
import shutil
import subprocess
import sys
import tempfile
import time
import unittest
from pathlib import Path
from unittest import mock

import changes
import mutate
from test_gate import Folder

# What the gate tries of all changes: about a minute on two processors.
SAMPLE = 50
SEED = 64

# One definition or more for each kind of change.
MADE = """-- Nothing here counts: 7, true, not x, "word", a ++ b.
use Rattle.std.specs.Prelude.{ℕ, zero, suc, ◌+◌, ◌*◌, ◌/◌, Bool, true, false, not, ◌||◌, ◌≡◌}
use Rattle.std.proofs.Math.Option.{Option}

pub record Pair : Type 0 where
  pub listener : ℕ
  pub speaker : ℕ

pub record Fits (low high : ℕ) : Type 0 where
  pub holds : (n : ℕ) → ltb n low ≡ false → low ≡ 0

-- 3 is no number of a definition
unfoldable pub size : ℕ → ℕ → ℕ
size a b = 7 * a + b / 2

unfoldable pub depth : ℕ → ℕ → ℕ
depth a b = max a b

unfoldable pub known : ℕ → Bool
known n = not (eqb n 3) || ltb n 9

unfoldable pub lower : ℕ → ℕ
lower zero = 0
lower (suc n) = elim (known n) [ true ↦ suc (lower n) | false ↦ 1 ]

unfoldable pub kind : Bool → Bool
kind true = false
kind false = true

unfoldable pub found : Option ℕ → ℕ → List ℕ
found o n = elim o [ none ↦ [] | some k ↦ take k (4 ∷ n ∷ []) ]

unfoldable pub words : ℕ → List ℕ
words n = codes " none " ++ decimal n

unfoldable pub decided : List ℕ → Option ℕ
decided t = first t or_else second t

unfoldable pub turn : Pair → Pair
turn p = record { listener = p.speaker; speaker = 5 }

unfoldable pub asked : ℕ → ℕ → ℕ
asked a b = let c = size (a + 1) b in depth c (size a b)
"""


def made(text=MADE):
    return list(changes.World({"Made.antt": text}).changes())


def of(definition, kind=None, text=MADE):
    """What a definition of the made-up file becomes, by one kind of change or by all."""
    return [change.after for change in made(text) if change.definition == definition and kind in {None, change.kind}]


class Made(unittest.TestCase):
    """Changes of the made-up definitions above."""

    def test_each_kind_is_found(self):
        kinds = {change.kind for change in made()}
        self.assertEqual(kinds, {*changes.KINDS})

    def test_numbers(self):
        self.assertEqual(of("size", "number-up"), ["size a b = 8 * a + b / 2", "size a b = 7 * a + b / 3"])
        self.assertEqual(of("size", "number-down"), ["size a b = 6 * a + b / 2", "size a b = 7 * a + b / 1"])
        lower = "lower zero = 0 lower (suc n) = elim (known n) [ true ↦ suc (lower n) | false ↦ 0 ]"
        self.assertEqual(of("lower", "number-down"), [lower])

    def test_operators(self):
        new = [f"size a b = {body}" for body in ("7 + a + b / 2", "7 * a - b / 2", "7 * a * b / 2", "7 * a + b % 2")]
        self.assertEqual(of("size", "operator-exchanged"), new)
        self.assertEqual(of("known", "and-or-exchanged"), ["known n = not (eqb n 3) && ltb n 9"])
        self.assertEqual(of("known", "operand-dropped"), ["known n = ltb n 9", "known n = not (eqb n 3)"])

    def test_tests(self):
        self.assertEqual(of("known", "not-dropped"), ["known n = (eqb n 3) || ltb n 9"])
        self.assertEqual(of("known", "eqb-negated"), ["known n = not (not (eqb n 3)) || ltb n 9"])
        self.assertEqual(of("known", "ltb-turned"), ["known n = not (eqb n 3) || ltb 9 n"])
        self.assertEqual(of("known", "ltb-widened"), ["known n = not (eqb n 3) || not (ltb 9 n)"])

    def test_cases(self):
        self.assertEqual(of("kind", "clauses-exchanged"), ["kind true = true kind false = false"])
        self.assertEqual(of("found", "arms-copied"), ["found o n = elim o [ none ↦ [] | some k ↦ [] ]"])
        turned = "lower zero = 0 lower (suc n) = elim (known n) [ true ↦ 1 | false ↦ suc (lower n) ]"
        self.assertEqual(of("lower", "arms-exchanged"), [turned])
        self.assertEqual(of("lower", "clauses-copied"), ["lower zero = 0 lower (suc n) = 0"])

    def test_lists_and_texts(self):
        self.assertIn("found o n = elim o [ none ↦ [] | some k ↦ take k (n ∷ 4 ∷ []) ]", of("found"))
        self.assertIn("found o n = elim o [ none ↦ [] | some k ↦ take k (4 ∷ []) ]", of("found"))
        self.assertEqual(of("words", "append-exchanged"), ['words n = decimal n ++ codes " none "'])
        self.assertEqual(of("words", "letter-changed"), ['words n = codes " xone " ++ decimal n'])
        self.assertEqual(len(of("words", "blank-dropped")), 2)
        self.assertEqual(of("decided", "or_else-exchanged"), ["decided t = second t or_else first t"])

    def test_records(self):
        other = "turn p = record { listener = p.listener; speaker = 5 }"
        self.assertEqual(of("turn", "projection-exchanged"), [other])
        self.assertEqual(of("turn", "fields-exchanged"), ["turn p = record { listener = 5; speaker = p.speaker }"])

    def test_statements(self):
        self.assertEqual(of("Fits", "premise-dropped"), ["pub holds : (n : ℕ) → low ≡ 0"])
        self.assertIn("pub holds : (n : ℕ) → ltb n low ≡ false → high ≡ 0", of("Fits"))
        self.assertIn("pub holds : (n : ℕ) → ltb n low ≡ true → low ≡ 0", of("Fits"))

    def test_names_of_the_same_type(self):
        self.assertIn("asked a b = let c = size (a + 1) b in depth c (depth a b)", of("asked"))
        self.assertIn("asked a b = let c = size (a + 1) b in depth (size a b) c", of("asked"))
        self.assertIn("asked a b = let c = size (a + 1) b in depth (a + 1) (size a b)", of("asked", "let-forgotten"))

    def test_what_a_change_needs_is_imported(self):
        texts = {change.kind: change.text for change in made()}
        own = MADE.splitlines()[1]
        self.assertIn(own.replace("}", ", ◌&&◌}") + "\n", texts["and-or-exchanged"])
        self.assertIn(own.replace("}", ", drop}") + "\n", texts["take-drop-exchanged"])
        self.assertIn(f"{own}\n", texts["number-up"])

    def test_a_module_that_is_not_imported_is_imported(self):
        texts = {change.kind: change.text for change in made("use Other.{x}\n" + MADE.split("\n", 3)[3])}
        self.assertIn("use Rattle.std.specs.Prelude.{drop}\nuse Other.{x}\n", texts["take-drop-exchanged"])
        self.assertNotIn("Prelude", texts["number-up"])


class Places(unittest.TestCase):
    """Where the changes of the project's own definitions stand."""

    @classmethod
    def setUpClass(cls):
        cls.files = mutate.sources(mutate.ROOT)
        cls.changes = list(changes.World(cls.files).changes())

    def kept(self, text):
        """The lines that no change may touch: comments, signatures, headings, and what is imported from where."""
        lines = [line.strip() for line in text.splitlines()]
        still = re.compile(r"--|unfoldable|abbrev|unfolding|module|infix|pub (?:data|record|mod)\b")
        return [line for line in lines if still.match(line)]

    def test_only_bodies_are_changed(self):
        for change in self.changes:
            self.assertEqual(self.kept(change.text), self.kept(self.files[change.file]), change.name)

    def test_imports_are_only_added(self):
        imported = re.compile(r"^use (\S+)\.\{(.*)\}$", re.MULTILINE)
        for change in self.changes:
            texts = (self.files[change.file], change.text)
            old, new = ({(m[1], n) for m in imported.finditer(text) for n in m[2].split(", ")} for text in texts)
            self.assertLessEqual(old, new, change.name)
            self.assertLessEqual(len(new - old), 2, change.name)

    def test_no_example_is_changed(self):
        self.assertFalse([file for file in self.files if file.endswith("Examples.antt")])
        self.assertIn("Greedy.antt", self.files)

    def test_names_and_order(self):
        names = [change.name for change in self.changes]
        self.assertEqual(len(names), len({*names}))
        self.assertEqual(names, [change.name for change in changes.World(self.files).changes()])
        self.assertTrue(all(re.fullmatch(r"\w+\.antt:\d+:[\w-]+:\d+", name) for name in names))

    def test_most_definitions_have_a_change(self):
        world = changes.World(self.files)
        without = {found.name for found in world.definitions} - {change.definition for change in self.changes}
        self.assertLess(len(without), len(world.definitions) // 8, without)


class Judged(unittest.TestCase):
    EXAMPLE = "./proofs/Examples.antt:3:1: error: `worked`: the two differ\n"
    LISTED = "./specs/RunExamples.antt:3:1: error: `worked`: the two differ\n"
    OWN = "./specs/Table.antt:9:1: error: `rank_of`: `drop` is not in scope\n"

    def test_classes(self):
        self.assertEqual(mutate.judge(0, "logic=proved\n"), ("survived", ""))
        self.assertEqual(mutate.judge(1, self.LISTED), ("noticed", self.LISTED.strip()))
        self.assertEqual(mutate.judge(1, self.EXAMPLE.replace("Examples", "f/Answers"))[0], "noticed")
        self.assertEqual(mutate.judge(1, self.EXAMPLE), ("noticed", self.EXAMPLE.strip()))
        self.assertEqual(mutate.judge(1, self.EXAMPLE + self.OWN), ("ill-formed", self.OWN.strip()))
        for status in (None, 3, 137, 152, -24):
            self.assertEqual(mutate.judge(status, "")[0], "slow")

    def test_a_failure_without_an_error_is_no_result(self):
        for status in (1, 2, 127):
            with self.assertRaises(mutate.Broken):
                mutate.judge(status, "rt: crates.txt: line 1: no\n")


class LaidOut(Folder):
    """What stands in a scratch repository."""

    def laid(self, *names):
        for name in names:
            self.write(name, f"{name}\n")
        with tempfile.TemporaryDirectory() as folder:
            mutate.lay_out(self.root, Path(folder))
            return {str(path.relative_to(folder)): path.read_text() for path in Path(folder).rglob("*") if path.is_file()}

    def test_the_definitions_and_the_examples(self):
        lists = [f"crates/lists/specs/{name}" for name in mutate.LISTS]
        rules = ["src/lib.rt", "specs/Lib.antt", "specs/Table.antt", "specs/RunExamples.antt"]
        rules = [f"crates/rules/{name}" for name in [*rules, "proofs/RunExamples.antt", "proofs/f/Answers.antt"]]
        other = ["lists/src/lib.rt", "lists/specs/Laws.antt", "lists/proofs/f/Answers.antt", "laws/specs/Laws.antt"]
        other = [f"crates/{name}" for name in [*other, "rules/must-fail/x.edit", "rules/out/x"]]
        found = self.laid(*lists, *rules, *other)
        self.assertEqual({name for name, text in found.items() if text == f"{name}\n"}, {*lists, *rules})
        made = {"crates.txt", "crates/lists/specs/Lib.antt", "crates/lists/src/lib.rt"}
        self.assertEqual(found.keys() - {*lists, *rules}, made)
        self.assertEqual(found["crates/lists/src/lib.rt"], mutate.EMPTY)
        self.assertEqual(found["crates/lists/specs/Lib.antt"], "pub mod Search\npub mod Fill\npub mod Fold\n")


class Stages(Folder):
    """Which example files are checked after a change."""

    def setUp(self):
        super().setUp()
        uses = {"Table": "", "Greedy": "Table", "Text": "", "Examples": "Table", "RunExamples": "Greedy"}
        uses |= {"RingExamples": "Greedy Examples", "TextExamples": "Text RingExamples"}
        for stem, used in uses.items():
            lines = [f"use Rattle.rules.specs.{one}.{{x}}\n" for one in used.split()]
            self.write(f"crates/rules/specs/{stem}.antt", "".join(lines) + "worked = refl\n")
        self.write("crates/rules/specs/TriedExamples.antt", "use Rattle.rules.specs.Table.{x}\n")
        self.write("crates/rules/specs/Lib.antt", "".join(f"pub mod {stem}\n" for stem in [*uses, "TriedExamples"]))
        self.examples = mutate.Examples(self.root)

    def test_those_that_rest_on_the_changed_file(self):
        few = {"Examples", "RunExamples", "RingExamples"}
        self.assertEqual([*self.examples.stages("Table.antt")], [few, few | {"TextExamples"}])
        self.assertEqual([*self.examples.stages("Text.antt")], [{"Examples", "RingExamples", "TextExamples"}])
        self.assertEqual([*self.examples.stages("Other.antt")], [set()])

    def test_the_others_are_not_there(self):
        specs = self.root / "crates" / "rules" / "specs"
        self.examples.show({"Examples"})
        self.assertFalse((specs / "TextExamples.antt").exists())
        lines = (specs / "Lib.antt").read_text().split("\n")
        self.assertIn("pub mod Examples", lines)
        self.assertNotIn("pub mod TextExamples", lines)
        self.examples.show({*self.examples.texts})
        self.assertTrue((specs / "TextExamples.antt").exists())
        self.assertEqual((specs / "Lib.antt").read_text(), self.examples.lib)


class Known(unittest.TestCase):
    """The file of changes that are known to be the same."""

    def names(self, text):
        return mutate.known_same(mutate.read_same(text), made())

    def test_an_entry_is_matched_by_content(self):
        named = [change.name for change in made() if change.after.startswith("known n = not (eqb n 4)")]
        self.assertEqual(self.names("# a comment\n\nMade.known: n 3) => n 4) # no reason\n"), {*named})
        self.assertEqual(len(named), 1)

    def test_an_entry_without_a_change(self):
        for text in ("Made.known: n 3) => n 5) # no", "Made.size: n 3) => n 4) # no", "Other.known: n 3) => n 4) # no"):
            with self.assertRaisesRegex(mutate.Broken, "is of this form any more"):
                self.names(text)

    def test_a_fragment_that_is_there_twice(self):
        with self.assertRaises(mutate.Broken):
            self.names("Made.kind: kind => no # no")

    def test_an_entry_needs_a_reason(self):
        with self.assertRaisesRegex(mutate.Broken, "not of the form"):
            mutate.read_same("Made.known: n 3) => n 4)")

    def test_what_is_printed_can_be_an_entry(self):
        own = list(changes.World(mutate.sources(mutate.ROOT)).changes())
        for change in made() + own:
            line = mutate.show(mutate.Result(change, "", "", 0)).removeprefix(f"{change.name}: ")
            [entry] = mutate.read_same(f"{line} # as printed")
            self.assertTrue(entry.matches(change), line)

    def test_the_projects_own_file_holds(self):
        own = list(changes.World(mutate.sources(mutate.ROOT)).changes())
        mutate.known_same(mutate.read_same(mutate.SAME.read_text(encoding="utf-8")), own)


class Summed(unittest.TestCase):
    def summed(self, statuses, known=()):
        results = [mutate.Result(change, status, "", 0) for change, status in zip(made(), statuses)]
        return mutate.summary(results, {results[k].change.name for k in known})

    def test_counts(self):
        lines, well = self.summed(["noticed", "survived", "ill-formed", "slow", "survived"], [4])
        self.assertEqual(lines[-1], "5 changes: 2 noticed, 1 survived, 1 ill-formed, 1 known the same")
        self.assertEqual([line.split(":")[0] for line in lines[:-1]], ["survived", "slow"])
        self.assertFalse(well)

    def test_nothing_survives(self):
        lines, well = self.summed(["noticed", "survived"], [1])
        self.assertEqual(lines, ["2 changes: 1 noticed, 0 survived, 0 ill-formed, 1 known the same"])
        self.assertTrue(well)

    def test_what_is_known_the_same_and_is_noticed_is_told(self):
        lines, well = self.summed(["noticed", "noticed"], [1])
        self.assertIn("noticed, and yet in", lines[0])
        self.assertTrue(well)


class Chosen(unittest.TestCase):
    def chosen(self, *words):
        return [change.name for change in mutate.chosen_by(mutate.read_options(words), made())]

    def test_a_sample_goes_by_its_seed(self):
        one = self.chosen("--sample", "5", "--seed", "1")
        self.assertEqual((len(one), one), (5, self.chosen("--sample", "5", "--seed", "1")))
        self.assertNotEqual(one, self.chosen("--sample", "5", "--seed", "2"))
        self.assertEqual(self.chosen("--sample", "9999"), self.chosen())

    def test_one_file_or_definition(self):
        self.assertEqual(self.chosen("--only", "Made"), self.chosen())
        self.assertTrue(0 < len(self.chosen("--only", "Made.antt:kind")) < 5)
        self.assertEqual(len(self.chosen("--only", "Made:size", "--kind", "number-up")), 2)
        name = self.chosen()[3]
        self.assertEqual(self.chosen("--name", name), [name])

    def test_nothing_of_that_name(self):
        with self.assertRaises(mutate.Broken):
            self.chosen("--only", "Made:nothing")


SMALL = """use Rattle.std.specs.Prelude.{ℕ, suc, ◌+◌, Bool, true, false}

unfoldable pub two_more : ℕ → ℕ
two_more n = n + 2

unfoldable pub always : Bool
always = true
"""
SMALL_EXAMPLES = """use Rattle.std.specs.Prelude.{◌≡◌, refl}
use Rattle.rules.specs.Small.{two_more}

pub worked : two_more 3 ≡ 5
unfolding two_more
worked = refl
"""


def is_there(status):
    """Whether a process runs, by its file of /proc."""
    try:
        return "zombie" not in status.read_text()
    except (FileNotFoundError, ProcessLookupError):
        return False


class Small(Folder):
    """Checks of two made-up crates, with the toolchain."""

    def lay(self, examples=SMALL_EXAMPLES):
        for crate in ("lists", "rules"):
            self.write(f"crates/{crate}/src/lib.rt", "// Definitions.\n")
        for name in mutate.LISTS:
            self.write(f"crates/lists/specs/{name}", "-- Nothing.\n")
        self.write("crates/rules/specs/Lib.antt", "pub mod Small\n")
        self.write("crates/rules/specs/Small.antt", SMALL)
        self.write("crates/rules/proofs/Lib.antt", "pub mod SmallExamples\n")
        self.write("crates/rules/proofs/SmallExamples.antt", examples)

    def statuses(self, *more):
        candidates = [*changes.World(mutate.sources(self.root)).changes(), *more]
        results = mutate.check_all(self.root, candidates, 2, lambda result: None)
        return {result.change.kind: result.status for result in results}

    def test_what_an_example_speaks_of_is_noticed(self):
        self.lay()
        found = self.statuses()
        self.assertEqual((found["number-up"], found["operator-exchanged"]), ("noticed", "noticed"))
        self.assertEqual(found["true-false-exchanged"], "survived")

    def test_without_examples_a_change_survives(self):
        self.lay("-- No example.\n")
        self.assertEqual({*self.statuses().values()}, {"survived"})

    def test_an_ill_formed_change(self):
        self.lay()
        bad = changes.Change("x", "made-up", "Small.antt", 1, "always", "", "", SMALL.replace("= true", "= 3"))
        self.assertEqual(self.statuses(bad)["made-up"], "ill-formed")

    def test_definitions_that_are_not_proved(self):
        self.lay(SMALL_EXAMPLES.replace("≡ 5", "≡ 6"))
        with self.assertRaisesRegex(mutate.Broken, "the unchanged definitions are not proved"):
            self.statuses()

    def stand_in(self, text):
        """Something else in the place of rt."""
        self.write("rt", text)
        (self.root / "rt").chmod(0o755)
        (self.root / "crates" / "rules").mkdir(parents=True)

    def test_a_check_that_does_not_end(self):
        self.stand_in("#!/bin/sh\nsleep 600 & echo $! >child; wait\n")
        path = f"{self.root}:{os.environ['PATH']}"
        with mock.patch.dict(os.environ, PATH=path), mock.patch.object(mutate, "CLOCK_SECONDS", 1):
            self.assertEqual(mutate.run(self.root, 60), (None, ""))
        status = Path("/proc", (self.root / "crates/rules/child").read_text().strip(), "status")
        # A process that was killed can be there for a moment.
        until = time.monotonic() + 5
        while is_there(status) and time.monotonic() < until:
            time.sleep(0.05)
        self.assertFalse(is_there(status))

    def test_the_scratch_folder_goes_when_the_tool_is_ended(self):
        self.stand_in('#!/bin/sh\n: >"$BEGUN"; sleep 600\n')
        (self.root / "tmp").mkdir()
        begun = self.root / "begun"
        own = {"PATH": f"{self.root}:{os.environ['PATH']}", "TMPDIR": str(self.root / "tmp"), "BEGUN": str(begun)}
        tool = subprocess.Popen([sys.executable, mutate.__file__, "--jobs", "1"], env=os.environ | own)
        while not begun.exists():
            time.sleep(0.05)
        tool.terminate()
        self.assertEqual(tool.wait(60), 143)
        self.assertEqual([*(self.root / "tmp").iterdir()], [])

    def test_a_check_that_needs_too_much_of_the_processor(self):
        self.stand_in("#!/bin/sh\nwhile :; do :; done\n")
        with mock.patch.dict(os.environ, PATH=f"{self.root}:{os.environ['PATH']}"):
            self.assertEqual(mutate.judge(*mutate.run(self.root, 1))[0], "slow")


class Project(unittest.TestCase):
    """The project's own definitions and examples."""

    maxDiff = None

    def results(self, root, words):
        candidates = list(changes.World(mutate.sources(root)).changes())
        known = mutate.known_same(mutate.read_same(mutate.SAME.read_text(encoding="utf-8")), candidates)
        options = mutate.read_options(words)
        return mutate.summary(mutate.check_all(root, mutate.chosen_by(options, candidates), options.jobs, len), known)

    def test_a_sample_of_changes_is_noticed(self):
        print(f"mutants: {SAMPLE} changes, seed {SEED}", flush=True)
        lines, _ = self.results(mutate.ROOT, ["--sample", str(SAMPLE), "--seed", str(SEED)])
        self.assertEqual([line for line in lines if line.startswith("survived")], [])

    def test_without_the_examples_the_same_changes_survive(self):
        with tempfile.TemporaryDirectory() as holder:
            root = Path(holder)
            for crate in mutate.CRATES:
                left = shutil.ignore_patterns("out", "proofs")
                shutil.copytree(mutate.ROOT / "crates" / crate, root / "crates" / crate, ignore=left)
            for path in (root / "crates" / "rules" / "specs").glob("*Examples.antt"):
                path.write_text("-- No example.\n", encoding="utf-8")
            (root / "crates" / "rules" / "src" / "lib.rt").write_text(mutate.EMPTY, encoding="utf-8")
            lines, well = self.results(root, ["--only", "Report:row_bytes"])
        self.assertFalse(well)
        self.assertIn(" 0 noticed, ", lines[-1])


if __name__ == "__main__":
    unittest.main()
