"""The gate's judgements, on made-up outputs, logs and sources."""

import re
import tempfile
import unittest
from pathlib import Path
from unittest import mock

import gate

GOOD = "proofs/f/Answers.antt:31:15: error: `returns.c`: `omega`: the goal does not follow from what it read"
MISFIT = "proofs/f/Answers.antt:27:11: error: `add`: module `f.Goals` has no `add` that can be named from here"
UNFILED = "note: src/lib.rt:7:24: it is not proved that the index is below 3, the array's length (`read`)"
RT_OK = """rt: lists proved
rt: must-fail lists/x.edit: refused, as it must be: src/lib.rt:7:24: error: x
rt: must-fail lists/y.edit: refused, as it must be: src/lib.rt:7:24: error: x
rt: ok; handles allowed: none; must-fail edits: 2 refused; every proof and must-fail edit was done in this run
3 passed, 0 failed
"""


class Folder(unittest.TestCase):
    def setUp(self):
        holder = tempfile.TemporaryDirectory()
        self.addCleanup(holder.cleanup)
        self.root = Path(holder.name)

    def write(self, name, text):
        path = self.root / name
        path.parent.mkdir(parents=True, exist_ok=True)
        path.write_text(text, encoding="utf-8")


class Edits(Folder):
    def judged(self, *said, label="weak", edit="weak.edit", crate="reader"):
        """The judgement on an edit of which rt says that it is refused, with these words behind it."""
        self.write(f"crates/{crate}/must-fail/{edit}", "")
        lines = [f"rt: must-fail {crate}/{label}.edit: refused, as it must be: {words}\n" for words in said]
        return gate.judge_edits(self.root, "".join(lines) + "rt: reader proved\n")

    def test_no_edit_at_all(self):
        self.assertEqual(gate.judge_edits(self.root, RT_OK), (0, [], ()))

    def test_a_failed_fact(self):
        self.assertEqual(self.judged(GOOD), (1, [], ()))

    def test_a_failed_fact_of_a_function_without_a_proof_file(self):
        self.assertEqual(self.judged(UNFILED), (1, [], ()))

    def test_a_misfit_is_named(self):
        counts = self.judged(MISFIT)
        why = "its first error only says that the proof file no longer fits"
        self.assertEqual(counts, (0, [f"must-fail reader/weak: {why}"], ()))

    def test_other_misfits_are_named(self):
        for words in gate.MISFITS:
            counts = self.judged(f"proofs/f/Answers.antt:27:11: error: `add`: {words}")
            self.assertEqual((counts.passed, len(counts.failures)), (0, 1))

    def test_a_misfit_that_rt_tells_is_named(self):
        self.write("crates/reader/must-fail/weak.edit", "")
        of_a_name = f"(only because a proof file names what the edit took away, so ..): {MISFIT}"
        for words in (of_a_name, "(only by a limit ..): x: error: y"):
            counts = gate.judge_edits(self.root, f"rt: must-fail reader/weak.edit: refused, as it must be {words}\n")
            self.assertEqual((counts.passed, len(counts.failures)), (0, 1))
            self.assertIn("no fact was seen to fail", counts.failures[0])

    def test_an_edit_that_is_not_refused(self):
        self.write("crates/reader/must-fail/weak.edit", "")
        bad, untried = f"BAD EDIT: it changes nothing: {GOOD}", f"NOT TRIED: its check was killed: {GOOD}"
        for words in (bad, untried, "NOT REFUSED: the crate is proved"):
            counts = gate.judge_edits(self.root, f"rt: must-fail reader/weak.edit: {words}\n")
            self.assertEqual(counts, (0, [f"must-fail reader/weak: no fact was seen to fail: {words}"], ()))

    def test_a_label_that_speaks_of_an_error_is_no_error(self):
        counts = self.judged("src/lib.rt:1:1: note: nothing", label="error_lost", edit="error_lost.edit")
        self.assertEqual((counts.passed, len(counts.failures)), (0, 1))

    def test_an_edit_that_is_not_told_of(self):
        self.assertEqual(self.judged().failures, ["must-fail reader/weak: rt ci does not say that it was refused"])
        self.assertEqual(self.judged(GOOD, label="weaker").passed, 0)

    def test_a_refusal_without_a_failed_fact(self):
        failures = ["must-fail reader/weak: what is said of it names no fact that fails"]
        self.assertEqual(self.judged("logic=not-proved").failures, failures)

    def test_a_definition_is_refused_at_an_example(self):
        files = ("proofs/RunExamples", "specs/Run", "proofs/RunLaws")
        example, definition, law = (f"{file}.antt:9:1: error: `x`: the two types differ" for file in files)
        elsewhere = ["must-fail rules/weak: it is refused elsewhere than at an example"]
        self.assertEqual(self.judged(example, crate="rules").failures, [])
        self.assertEqual(self.judged(definition, crate="rules").failures, elsewhere)
        self.assertEqual(self.judged(law, crate="rules").failures, elsewhere)
        self.assertEqual(self.judged(f"specs/Run.antt:9:1: error: `x` at {example}", crate="rules").failures, elsewhere)

    def test_a_file_that_rt_passes_over(self):
        for edit in ("weak.txt", "below/weak.edit", "weak"):
            self.assertEqual(self.judged(GOOD, edit=edit).passed, 0, edit)
            (self.root / "crates" / "reader" / "must-fail" / edit).unlink()

    def test_each_edit_counts(self):
        self.write("crates/reader/must-fail/weak.edit", "")
        self.write("crates/reader/must-fail/other.edit", "")
        pairs = (("weak", GOOD), ("other", MISFIT))
        told = [f"rt: must-fail reader/{label}.edit: refused, as it must be: {said}\n" for label, said in pairs]
        counts = gate.judge_edits(self.root, "".join(told))
        self.assertEqual((counts.passed, len(counts.failures)), (1, 1))


class Tools(unittest.TestCase):
    """With a stand-in for apt-get: each call ends with the next status, and 0 brings what was missing."""

    def installed(self, missing, statuses):
        """The counts, and what apt-get was called for."""
        left, called = [*missing], []

        def run(log, words):
            status = statuses.pop(0)
            called.append(words[words.index("apt-get") + 1])
            if status == 0 and called[-1] == "install":
                left.clear()
            return status, "Reading package lists...\nE: Unable to locate package\n"

        with mock.patch.multiple(gate, missing_tools=lambda: [*left], run=run):
            return str(gate.install_tools()), called

    def test_nothing_is_missing(self):
        self.assertEqual(self.installed([], []), ("2 passed, 0 failed", []))

    def test_a_plain_install(self):
        self.assertEqual(self.installed(["g++"], [0]), ("2 passed, 0 failed", ["install"]))

    def test_the_lists_are_fetched_where_it_fails(self):
        called = ["install", "update", "install"]
        self.assertEqual(self.installed(["g++"], [100, 0, 0]), ("2 passed, 0 failed", called))
        self.assertEqual(self.installed(["g++"], [100, 100, 100]), ("1 passed, 1 failed", called))

    def test_what_is_still_missing_is_named(self):
        why = "is not there, and apt-get cannot install it; its last line: E: no"
        failures = [f"tools: {tool} {why}" for tool in ("valgrind", "g++")]
        self.assertEqual(gate.judge_tools(["valgrind", "g++"], "x\nE: no\n"), (0, failures, ()))

    def test_a_missing_tool_is_seen(self):
        with mock.patch.object(gate, "TOOLS", ("sh", "no-such-tool")):
            self.assertEqual(gate.missing_tools(), ["no-such-tool"])


class RtCi(unittest.TestCase):
    def test_a_plain_rt_ci_is_run(self):
        """With no names and no flag, at the top of the checkout, in the surroundings as they are."""
        ran = mock.Mock(return_value=mock.Mock(returncode=0))
        with tempfile.TemporaryDirectory() as logs:
            with mock.patch.object(gate, "LOGS", Path(logs)), mock.patch.object(gate.subprocess, "run", ran):
                self.assertEqual(len(gate.run_rt_ci().failures), 1)
        [call] = ran.call_args_list
        self.assertEqual((call.args, call.kwargs["cwd"], "env" in call.kwargs), ((["rt", "ci"],), gate.ROOT, False))

    def test_nothing_of_the_checkout_is_touched_before(self):
        """Only the tools come before it."""
        self.assertEqual([name for name, _ in gate.parts()][:3], ["tools", "rt ci", "must-fail edits"])

    def test_counts_are_taken_over(self):
        self.assertEqual(gate.judge_rt_ci(0, RT_OK), (3, [], ()))

    def test_a_status_counts_even_if_no_count_does(self):
        self.assertEqual(str(gate.judge_rt_ci(2, RT_OK)), "3 passed, 1 failed")

    def test_no_counts_at_all(self):
        for status, text in ((0, ""), (0, "rt: ok\n"), (2, "rt: crates.txt: line 2: x is listed twice\n")):
            self.assertEqual(str(gate.judge_rt_ci(status, text)), "0 passed, 1 failed")

    def test_a_run_of_some_crates_is_not_the_whole(self):
        text = RT_OK.replace("0 failed", "0 failed (lists and the crates below alone: not the gate)")
        self.assertEqual(str(gate.judge_rt_ci(0, text)), "0 passed, 1 failed")

    def test_without_the_line_of_a_run_that_passed(self):
        text = RT_OK.replace("rt: ok; ", "rt: ")
        self.assertEqual(gate.judge_rt_ci(0, text), (3, ["rt ci: it has no line `rt: ok`"], ()))

    def test_a_bad_edit_fails_though_rt_passes(self):
        line = "rt: ok; handles allowed: none; must-fail edits: 2 refused, 1 bad; done in this run: 2 of the 43 proofs"
        text = RT_OK.replace(RT_OK.splitlines()[-2], line)
        self.assertEqual(gate.judge_rt_ci(0, text), (3, [f"rt ci: bad must-fail edits: {line}"], ()))

    def test_failures_are_named(self):
        said = ["rules NOT PROVED", "must-fail lists/x.edit: NOT REFUSED: it is still proved"]
        said += ["run_program: it ended with status 1", "words: its tests FAILED"]
        names = "rules lists/x.edit run_program (run) words (tests)"
        text = "".join(f"rt: {line}\n" for line in [*said, f"FAILED: {names}"]) + "4 passed, 4 failed\n"
        self.assertEqual(gate.judge_rt_ci(1, text), (4, [f"rt ci: {line}" for line in said], ()))

    def test_what_the_prover_complains_of_is_a_hint(self):
        said = "src/lib.rt:3:1: error[unnamed-clause]: x"
        edit = "rt: must-fail lists/x.edit: refused, as it must be: src/lib.rt:7:24: error: x"
        text = f"{said}\nrt: rules NOT PROVED\n{edit}\nrt: FAILED: rules\n4 passed, 1 failed\n"
        self.assertEqual(gate.judge_rt_ci(1, text), (4, ["rt ci: rules NOT PROVED"], (said,)))

    def test_failures_without_a_name_count(self):
        self.assertEqual(str(gate.judge_rt_ci(1, "2 passed, 3 failed\n")), "2 passed, 3 failed")

    def test_what_is_refused_before_all_proofs_is_told(self):
        said = "no check reads docs/a.antt: a .rt file goes in src/"
        failures = [f"rt ci: a failure that it does not name; {said}"]
        self.assertEqual(gate.judge_rt_ci(2, f"rt: {said}\n0 passed, 1 failed\n").failures, failures)


class Contracts(Folder):
    def requiring(self, source):
        return [(line, name) for line, name, fault in gate.contract_faults(source) if fault == "has a requires"]

    def without(self, source):
        return [(line, name) for line, name, fault in gate.contract_faults(source) if fault == "has no ensures"]

    def test_public_functions_with_a_requires(self):
        self.assertEqual(self.requiring("\npub fn f(x: u8)\n    requires { x < 3 }\n{ }\n"), [(2, "f")])
        self.assertEqual(self.requiring('#[unsafe(no_mangle)]\npub extern "C" fn g(x: u8) requires { a } { }'), [(2, "g")])
        method = "impl S { pub fn h(self) -> u8\nensures { a } requires { b } { 1 } }"
        self.assertEqual(list(gate.contract_faults(method)), [(1, "h", "has a requires")])
        behind = "pub fn k() ensures { f (record { a = record { b = 1 } }) }\nrequires { b } { }"
        self.assertEqual(list(gate.contract_faults(behind)), [(1, "k", "has a requires")])

    def test_public_functions_without_an_ensures(self):
        self.assertEqual(self.without("\npub fn f(x: u8) -> [u8; 2]\n{\n    [x; 2]\n}\n"), [(2, "f")])
        self.assertEqual(self.without('#[unsafe(no_mangle)]\npub extern "C" fn g(x: u8) { }'), [(2, "g")])
        self.assertEqual(self.without("impl S { pub fn h(self) requires { a } { } }"), [(1, "h")])
        self.assertEqual(self.without("pub const fn c() -> u8 { 1 }\npub fn d()\n{ }"), [(1, "c"), (2, "d")])
        self.assertEqual(self.without("pub fn declared(x: u8);"), [(1, "declared")])

    def test_public_functions_with_an_ensures(self):
        for source in (
            "pub fn f(x: u8) -> u8\n    ensures { result ≡ x }\n{ x }\n",
            '#[unsafe(no_mangle)]\npub extern "C" fn g(x: &mut [u8])\n  ensures code { a }\n  ensures x { b }\n{ }\n',
            "pub fn h(x: [u8; 2]) ensures { result ≡ f (record { a = x; b = record { c = 1 } }) } { if x { } }",
        ):
            self.assertEqual(list(gate.contract_faults(source)), [])

    def test_a_clause_elsewhere_is_not_the_function_s(self):
        self.assertEqual(self.without("pub fn f() { g() }\nfn g() ensures { a } { }"), [(1, "f")])
        self.assertEqual(self.without("fn g() ensures { a } { }\npub fn f() { g() }"), [(2, "f")])
        self.assertEqual(self.without("pub fn f() { while a ensures { b } { } }"), [(1, "f")])
        self.assertEqual(self.requiring("pub fn g() { }\nfn f() requires { a } { }"), [])

    def test_functions_that_are_not_public(self):
        private = "fn main() { }\npub(crate) fn f() requires { a } { }\nfn g(x: u8) requires { a } { }"
        self.assertEqual(list(gate.contract_faults(private)), [])

    def test_words_aside(self):
        named_aside = '// pub fn f requires\npub fn g() ensures { a } { b"requires"; } /* requires */ // requires\n'
        self.assertEqual(list(gate.contract_faults(named_aside)), [])
        self.assertEqual(self.requiring("pub fn g() { b'\"'; }\npub fn f() requires { a } { b'\"'; }"), [(2, "f")])
        for aside in ("// ensures { a }\n", "/* ensures { a } */", '"ensures"', 'b"ensures { a }"'):
            self.assertEqual(self.without(f"pub fn f() {aside} {{ }}"), [(1, "f")], aside)

    def test_the_place_is_named(self):
        self.write("crates/a/src/lib.rt", "pub fn fine() ensures { a } { }\n")
        self.assertEqual(gate.judge_contracts(self.root), (1, [], ()))
        self.write("crates/a/src/deep/b.rt", "\npub fn f() requires { a } ensures { a } { }\n")
        self.write("crates/b/src/lib.rt", '// What g does.\n#[unsafe(no_mangle)]\npub extern "C" fn g() { }\n')
        failures = [
            "contracts: crates/a/src/deep/b.rt:2: pub fn f has a requires",
            "contracts: crates/b/src/lib.rt:3: pub fn g has no ensures",
        ]
        self.assertEqual(gate.judge_contracts(self.root), (0, failures, ()))

    def test_a_source_of_ours_that_loses_its_ensures(self):
        """The reader's own source, with the lines of its contract taken away."""
        source = (gate.ROOT / "crates" / "reader" / "src" / "lib.rt").read_text(encoding="utf-8")
        self.assertEqual(list(gate.contract_faults(source)), [])
        bare = re.sub(r"^ *ensures.*\n", "", source, flags=re.MULTILINE)
        self.assertEqual([name for _, name in self.without(bare)], ["read"])


class Outside(unittest.TestCase):
    def test_cargo_is_counted_by_test(self):
        text = "test a::b ... ok\ntest c ... FAILED\ntest d ... ignored\ntest e ... ok\ntest result: FAILED. 2 passed\n"
        self.assertEqual(gate.judge_cargo(101, text), (2, ["second: c: FAILED", "second: d: ignored"], ()))

    def test_cargo_that_does_not_build(self):
        counts = gate.judge_cargo(101, "error: expected `;`\n")
        self.assertEqual((str(counts), counts.hints), ("0 passed, 1 failed", ("error: expected `;`",)))
        self.assertEqual(str(gate.judge_cargo(0, "")), "0 passed, 1 failed")

    def test_a_part_that_breaks_off_is_one_failure(self):
        counts = gate.guarded("x", lambda: open("/no/such/file"))
        self.assertEqual(str(counts), "0 passed, 1 failed")

    def test_a_traceback_in_one_line(self):
        why = "Traceback ..\n  File x\nAssertionError: 1 != 2\n- 1\n"
        self.assertEqual(gate.first_words(why), "AssertionError: 1 != 2")


class Sum(unittest.TestCase):
    def test_parts_add_up(self):
        total = gate.Counts(2, []).plus(gate.Counts(3, ["a"])).plus(gate.Counts(0, ["b", "c"]))
        self.assertEqual((str(total), total.failures), ("5 passed, 3 failed", ["a", "b", "c"]))


if __name__ == "__main__":
    unittest.main()
