"""Cases 8 and 9 of the rules page by both programs, and what is said of a run and its parts, on the answers of both."""

import random
import unittest

import run_cases
import test_run
import test_samples
import worked_cases
from comparing import SEED
from run_cases import ACCEPTED, Step
from test_run import compare
from worked_cases import BY_HAND, NUMBERS

# How many runs of a kind are taken apart, and how long they are at most.
APART, LONGEST_APART = 60, 40


def setUpModule():
    test_run.setUpModule()


class ByHand(unittest.TestCase):
    """One test for each case: step by step, and as a run."""

    def held(self, name):
        table, steps, numbers, sums = BY_HAND[name]
        self.assertEqual(len(compare("step", name, list(worked_cases.steps_by_hand(table, steps)))), len(steps))
        self.assertEqual(len(compare("run", name, [worked_cases.run_by_hand(table, steps, numbers, sums)])), 1)


def heard_of(answer):
    return bytes.fromhex(answer["heard"])


def sums_of(answer):
    return [int(number) for number in answer["sums"].split(",")]


def numbers_of(answer):
    return {name: int(answer[name]) for name in NUMBERS}


def pairs_of(case):
    return list(zip(case.schedule[::2], case.schedule[1::2]))


def rounds_in(case):
    """The rounds of a schedule, by the set of pairs since the last closing."""
    listening, since, closed = set(run_cases.Facts(case.table).pairs), set(), 0
    for pair in pairs_of(case):
        since.add(pair)
        if since == listening:
            since, closed = set(), closed + 1
    return closed


class StepByStep:
    """A run taken apart: the state after its steps so far, and what they add up to."""

    def __init__(self, case):
        self.case, self.heard, self.sums = case, case.heard, [0] * run_cases.SUMS
        self.numbers = dict.fromkeys(NUMBERS, 0) | {"rounds": rounds_in(case)}

    def next(self):
        at = 2 * self.numbers["steps"]
        return Step(self.case.table, self.heard, self.case.schedule[at : at + 2], ACCEPTED)

    def is_done(self):
        return 2 * self.numbers["steps"] == len(self.case.schedule)

    def add(self, listener, answer):
        movement = int(answer["movement"])
        self.heard = heard_of(answer)
        self.sums[listener] += movement
        self.numbers["steps"] += 1
        self.numbers["ups"] += movement > 0
        self.numbers["downs"] += movement < 0
        if movement:
            self.numbers["last"] = self.numbers["steps"]


class Laws(unittest.TestCase):
    """What is said of runs and their parts, on the answers of both."""

    def runs(self):
        chosen = [pair for kind in ("from_zeros", "from_valid") for pair in test_run.compared("run", kind)[:APART]]
        return [(case, answer) for case, answer in chosen if len(case.schedule) <= 2 * LONGEST_APART]

    def test_a_run_is_its_steps(self):
        runs = self.runs()
        self.assertGreater(len(runs), APART // 2)
        apart = [StepByStep(case) for case, _ in runs]
        while going := [run for run in apart if not run.is_done()]:
            steps = [run.next() for run in going]
            for run, step, answer in zip(going, steps, compare("step", "of a run", steps)):
                run.add(step.pair[0], answer)
        for run, (_, answer) in zip(apart, runs):
            expected = (heard_of(answer), sums_of(answer), numbers_of(answer))
            self.assertEqual((run.heard, run.sums, run.numbers), expected)

    def test_a_run_is_its_two_parts(self):
        rng, runs = random.Random(f"{SEED} parts"), test_run.some("run", 60)
        runs = [(case, answer) for case, answer in runs if answer["code"] == "0"]
        cuts = [2 * rng.randint(0, len(case.schedule) // 2) for case, _ in runs]
        fronts = [case._replace(schedule=case.schedule[:cut], says={}) for (case, _), cut in zip(runs, cuts)]
        ones = compare("run", "front part", fronts)
        rests = [
            case._replace(heard=heard_of(one), schedule=case.schedule[cut:], says={})
            for (case, _), cut, one in zip(runs, cuts, ones)
        ]
        for (_, whole), one, other in zip(runs, ones, compare("run", "rest", rests)):
            self.assert_joined(whole, one, other)

    def assert_joined(self, whole, one, other):
        both, first, second = numbers_of(whole), numbers_of(one), numbers_of(other)
        self.assertEqual(whole["heard"], other["heard"])
        self.assertEqual(sums_of(whole), [a + b for a, b in zip(sums_of(one), sums_of(other))])
        for name in ("steps", "ups", "downs"):
            self.assertEqual(both[name], first[name] + second[name])
        self.assertEqual(both["last"], first["steps"] + second["last"] if second["last"] else first["last"])
        # The round that is open at the cut can close in the rest, and then one more fits into the whole.
        self.assertIn(both["rounds"] - first["rounds"] - second["rounds"], (0, 1))


test_samples.add_tests(ByHand, BY_HAND)

if __name__ == "__main__":
    unittest.main()
