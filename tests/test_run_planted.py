"""Wrong steps and runs, planted between the driver and the proved code: the comparison finds each and names it."""

import os
import unittest
from unittest import mock

import comparing
import run_cases
import test_run
import test_samples
import worked_cases
from comparing import NUMBERS_BYTES, SEED
from run_cases import HEARD_BYTES, SUMS_BYTES, ZEROS
from worked_cases import BY_HAND, CASE_9

DRIVER = comparing.BUILT / "machine-planted"

# Each fault of planted_machine.c, and what the comparison must say of it: for both, of the step or of the run.
BOTH = {
    "number": "code is 1 .* and 0 for",
    "place": "code is 256 .* and 0 for",
    "stores-nothing": "heard at 128 is 00 .* and 01 for|ups is 2 .* and 4 for",
    "keeps-withdrawn-choice": "movement is 0 .* and -16 for|downs is 0 .* and 1 for",
    "stores-elsewhere-too": "heard at 64 is 01 .* and 00 for|ups is 3 .* and 4 for",
    "stores-next-to-it": "heard at 128 is 00 .* and 01 for|ups is 1 .* and 4 for",
    "sign-turned": "movement is -15 .* and 15 for|ups is 1 .* and 4 for",
    "state-judged-where-heard": "code is 0 .* and 1048332 for",
    "numbers-rest-last": "numbers at 31 is 01 .* and 00 for",
    "moves-refused": "numbers at 0 is 00 .* and a5 for",
    "numbers-before": "around is numbers-before",
    "numbers-after": "around is numbers-after",
    "heard-before": "around is heard-before",
    "heard-after": "around is heard-after",
    "what-was-there": "around is answer-by-what-was-there",
    "table-byte": "machine-planted ended with status 3",
    "aborts": "machine-planted ended with status -6",
}
STEP_PLANTS = BOTH | {
    "vertices-wrap": "code is 0 .* and 14 for",
    "pair-wraps": "code is 0 .* and 14 for",
    "bad-pair-has-a-place": "code is 270 .* and 14 for",
    "numbers-byte": "movement is 14 .* and 15 for",
    "numbers-high-byte": "movement is 16777231 .* and 15 for",
    "numbers-turned": "movement is 251658240 .* and 15 for",
    "numbers-one-byte": "movement is 240 .* and -16 for",
    "numbers-rest-first": "numbers at 4 is 01 .* and 00 for",
}
RUN_PLANTS = BOTH | {
    "first-pair-only": "ups is 1 .* and 4 for",
    "invented-steps": "steps is 6 .* and 5 for",
    "invented-ups": "ups is 5 .* and 4 for",
    "invented-downs": "downs is 2 .* and 1 for",
    "invented-rounds": "rounds is 2 .* and 1 for",
    "last-is-steps": "last is 12 .* and 1 for",
    "last-counts-from-0": "last is 4 .* and 5 for",
    "rounds-never-close": "rounds is 0 .* and 1 for",
    "rounds-close-early": "rounds is 3 .* and 0 for",
    "numbers-byte": "steps is 4 .* and 5 for",
    "numbers-high-byte": "steps is 16777221 .* and 5 for",
    "numbers-turned": "steps is 83886080 .* and 5 for",
    "numbers-rest-first": "numbers at 20 is 01 .* and 00 for",
    "adds-to-sums": "sums at 0 is",
    "sums-of-movers-only": "sums at 0 is",
    "sums-of-64-bytes": "sums at 16 is",
    "sums-first-byte": "sums at 0 is 1 .* and 0 for",
    "sums-last-byte": "sums at 63 is 16777216 .* and 0 for",
    "sums-turned": "sums at 1 is 268435456 .* and 16 for",
    "sums-one-byte": "sums at 3 is 240 .* and -16 for",
    "stores-before-judging": "heard at 64 is 01 .* and 00 for",
    "judges-schedule-first": "code is 13 .* and 1048332 for",
    "odd-byte-passed-over": "code is 0 .* and 13 for",
    "last-pair-not-judged": "code is 0 .* and 526 for",
    "clears-sums": "sums at 0 is 0 .* and -?[0-9]+ for",
    "sums-before": "around is sums-before",
    "sums-after": "around is sums-after",
    "text-byte": "text at [0-9]+ is",
    "text-short": "text at [0-9]+ is nothing .* and 0a for",
    "text-long": "text at 0 is",
    "text-before": "around is text-before",
    "text-rest": "around is text-rest",
    "text-after": "around is text-after",
    "schedule-byte": "machine-planted ended with status 3",
}
PLANTS = {"step": STEP_PLANTS, "run": RUN_PLANTS}


def setUpModule():
    test_samples.setUpModule()
    wrapped = ["reefsplice_step", "reefsplice_run", "probe_run_text"]
    comparing.build_planted(DRIVER, "machine_driver.c", "planted_machine.c", wrapped)


def planted_steps():
    """The steps of case 9, then refused ones: pairs that wrap onto listening pairs, and a byte at no listening pair."""
    steps = list(worked_cases.steps_by_hand(*CASE_9))
    last = steps[-1]
    wraps = [last._replace(pair=bytes(pair), says={}) for pair in ((66, 64), (1, 64))]
    return [*steps, *wraps, last._replace(heard=run_cases.with_bytes(last.heard, {4095: 1}), says={})]


def planted_runs():
    """Case 9, its last step alone, a run whose steps but the first change nothing, and refused ones."""
    case = worked_cases.run_by_hand(*BY_HAND["case-9"])._replace(says={})
    last = list(worked_cases.steps_by_hand(*CASE_9))[-1]
    falls = case._replace(heard=last.heard, schedule=last.pair)
    idle = case._replace(schedule=bytes([1, 0]) * 12)
    strays = case._replace(schedule=bytes([1, 0, 2, 0, 0, 1]))
    odd = case._replace(schedule=case.schedule + b"\x01")
    unheard = run_cases.with_bytes(ZEROS, {4095: 1})
    return [case, falls, idle, strays, odd, case._replace(heard=unheard), odd._replace(heard=unheard)]


class Planted:
    """One test for each fault."""

    def planted(self, fault, cases=None, **how):
        with mock.patch.dict(os.environ, {"PLANT": fault}):
            return test_run.compare(self.which, "planted", cases or self.cases(), driver=DRIVER, **how)

    def held(self, fault):
        with self.assertRaises(AssertionError) as found:
            self.planted(fault)
        words = PLANTS[self.which][fault]
        self.assertRegex(str(found.exception), f"^seed {SEED}, {self.which} planted, case [0-9]: ({words}).*; table ")

    def test_nothing(self):
        self.assertEqual(len(self.planted("nothing")), len(self.cases()))

    def test_stays(self):
        found = self.assertRaisesRegex(AssertionError, "case 0: machine-planted did not end; table")
        with mock.patch.object(comparing, "LONGEST_RUN", 0.5), found:
            self.planted("stays", self.cases()[:1])

    def of_other_lengths(self):
        """Cases in which one buffer has a wrong length, each with the length of the numbers."""
        case = self.cases()[0]._replace(says={})
        yield case, NUMBERS_BYTES - 1
        yield case._replace(heard=bytes(HEARD_BYTES - 1)), NUMBERS_BYTES

    def test_any_length(self):
        for case, length in self.of_other_lengths():
            with self.assertRaisesRegex(AssertionError, "code is 0 .* and 1 for"):
                self.planted("any-length", [case], length=length)


class PlantedSteps(Planted, unittest.TestCase):
    which = "step"
    cases = staticmethod(planted_steps)


class PlantedRuns(Planted, unittest.TestCase):
    which = "run"
    cases = staticmethod(planted_runs)

    def of_other_lengths(self):
        yield from super().of_other_lengths()
        yield self.cases()[0]._replace(sums=bytes(SUMS_BYTES + 1)), NUMBERS_BYTES


test_samples.add_tests(PlantedSteps, PLANTS["step"])
test_samples.add_tests(PlantedRuns, PLANTS["run"])

if __name__ == "__main__":
    unittest.main()
