"""The proved C entries beside the second program, by harness/: the cases of one seed, and each planted difference."""

import re
import shutil
import subprocess
import unittest
import zlib

import comparing
import test_samples
from comparing import ROOT

BUILT = ROOT / ".build" / "harness"
HARNESS = BUILT / "release" / "harness"
CARGO = ["--quiet", "--release", "--offline", "--manifest-path", "harness/Cargo.toml", "--target-dir", BUILT]
LEAST_CASES = 20000
# Where an entry is left out, so many leave enough of the others for the mix to be judged.
MIXED_CASES = 15000

SAME, DIFFERENT, DRIFTED, NOT_UNDERSTOOD = range(4)
ENDED = re.compile(r"harness: (\d+) cases, 0 differences")
OTHER = "for the proved entry and .* for the second program"

# The lent buffers of each entry; the last byte of each that has a fixed length.
BUFFERS = {
    "check": ["table", "rows", "ring", "numbers"],
    "step": ["table", "heard", "numbers"],
    "run": ["table", "heard", "schedule", "sums", "numbers"],
}
LAST = {"rows": 1023, "ring": 63, "heard": 4095, "sums": 255, "numbers": 31}

# What must be said of differences that come seldom or in the layout of a buffer.
SELDOM = {
    "check-stays": "it did not end",
    "check-no-ring-length": f"numbers at [0-9]+ is .. {OTHER}",
    "check-refusal-11": rf"the return value is .*refusal 11.* {OTHER}",
    "check-63-stages": f"rows at 1023 is .. {OTHER}",
    "check-ring-of-10": f"ring at 0 is .. {OTHER}",
    "check-full-table": f"numbers at 0 is .. {OTHER}",
    "step-movement-of-one-byte": f"numbers at 1 is 00 {OTHER}",
    "step-refusal-14": rf"the return value is 270 \(refusal 14, place 1\) {OTHER}",
    "step-refusal-1": f"heard at 0 is .. {OTHER}",
    "step-deepest-fall": f"numbers at 31 is 01 {OTHER}",
    "run-high-byte-first": f"sums at [0-9]+ is .. {OTHER}",
    "run-refusal-14": rf"the return value is .*refusal 14.* {OTHER}",
    "run-refusal-13": f"sums at 0 is .. {OTHER}",
    "run-negative-sum": f"sums at 255 is .. {OTHER}",
    "run-longest-schedule": f"heard at 4095 is .. {OTHER}",
    "run-no-pair": f"sums at 0 is .. {OTHER}",
}


def of_entry(entry):
    """Each difference of an entry's return value, and what must be said of it."""
    return {
        f"{entry}-number": rf"the return value is 1 \(refusal 1, place 0\) {OTHER}",
        f"{entry}-place": rf"the return value is [0-9]+ \(refusal [0-9]+, place [0-9]+\) {OTHER}",
        f"{entry}-aborts": "it aborted",
    }


def of_buffer(entry, name):
    """Each difference of one of an entry's buffers, and what must be said of it."""
    return {
        f"{entry}-{name}-first": f"{name} at 0 is .. {OTHER}",
        f"{entry}-{name}-last": f"{name} at {LAST.get(name, '[0-9]+')} is .. {OTHER}",
        f"{entry}-{name}-refused": f"{name} at 0 is .. {OTHER}",
        f"{entry}-{name}-before": f"the byte 1 before {name} is .. {OTHER}",
        f"{entry}-{name}-after": f"the byte 1 behind {name} is .. {OTHER}",
    }


PLANTS = SELDOM.copy()
for one in BUFFERS:
    PLANTS |= of_entry(one)
    for lent in BUFFERS[one]:
        PLANTS |= of_buffer(one, lent)
LEFT_OUT = [f"{entry}-left-out" for entry in BUFFERS]


def setUpModule():
    """From nothing, since cargo goes by file times and can trust a build of other sources."""
    comparing.build_entries()
    shutil.rmtree(BUILT, ignore_errors=True)
    comparing.build(["cargo", "build", *CARGO])


def run(*words):
    """How the harness ended, and its lines."""
    done = subprocess.run([HARNESS, *words], capture_output=True, text=True, timeout=60)
    return done.returncode, done.stdout.splitlines()


class Harness(unittest.TestCase):
    def compared(self, *words):
        """How many cases, once no difference was found and no kind of case was too rare."""
        status, lines = run(*words)
        self.assertEqual(status, SAME, "\n".join(lines)[:2000])
        self.assertRegex(lines[-1], ENDED)
        return int(ENDED.fullmatch(lines[-1])[1])

    def test_the_cases_of_a_seed(self):
        self.assertGreaterEqual(self.compared(), LEAST_CASES)

    def test_the_seed_of_the_other_tests(self):
        """That may be any word, and the harness takes a number."""
        seed = zlib.crc32(comparing.SEED.encode())
        self.assertEqual(self.compared("--seed", str(seed), "--cases", "3000"), 3000)

    def test_seeds_until_the_time_is_over(self):
        status, lines = run("--minutes", "0.02", "--seed", "7")
        self.assertEqual(status, SAME)
        self.assertRegex(lines[1], r"^seeds 7 to \d+$")
        self.assertGreater(int(ENDED.fullmatch(lines[-1])[1]), 0)

    def test_its_own_tests(self):
        comparing.build(["cargo", "test", *CARGO])

    def test_the_plants_are_these(self):
        self.assertEqual(sorted(run("--plants")[1]), sorted([*PLANTS, *LEFT_OUT]))

    def test_a_word_that_it_does_not_know(self):
        self.assertEqual(run("--plant", "no-such-plant"), (NOT_UNDERSTOOD, []))

    def test_a_difference_is_seen_again(self):
        """By its case alone, with all inputs."""
        plant = ["--plant", "run-negative-sum"]
        found = run(*plant)
        self.assertEqual([line.split()[0] for line in found[1][1:]], [*BUFFERS["run"], "again:"])
        words = found[1][-1].removeprefix("again: harness ").split()
        self.assertEqual(run(*plant, *words), found)
        self.assertEqual(self.compared(*words), 1)


class Planted(unittest.TestCase):
    """One test for each difference: it is found, and its place is named."""

    def held(self, name):
        status, lines = run("--plant", name)
        self.assertEqual(status, DIFFERENT)
        entry = name.partition("-")[0]
        self.assertRegex(lines[0], rf"^reefsplice_{entry}, seed 1, case [0-9]+: {PLANTS[name]}$")


class LeftOut(unittest.TestCase):
    """One test for each entry: where its cases are missing, that is noticed."""

    def held(self, name):
        status, lines = run("--plant", name, "--cases", str(MIXED_CASES))
        self.assertEqual(status, DRIFTED)
        entry = name.partition("-")[0]
        rare = [line for line in lines if line.startswith("too seldom: ")]
        self.assertGreater(len(rare), 20)
        self.assertEqual([line for line in rare if not line.startswith(f"too seldom: {entry} ")], [])


test_samples.add_tests(Planted, PLANTS)
test_samples.add_tests(LeftOut, LEFT_OUT)

if __name__ == "__main__":
    unittest.main()
