"""The check program, through the front: samples against their stored texts, seeded tables against the second program.

Only standard output is fixed, and it holds nothing but the check's text.
"""

import os
import random
import subprocess
import time
import unittest

import check_cases
import comparing
import test_samples
from comparing import ROOT, SECOND, SEED

FRONT = ROOT / "reefsplice"
PER_KIND = 4
LEAST = 100
LONGEST = 16128


def setUpModule():
    print(f"test_program: seed {SEED}", flush=True)
    test_samples.setUpModule()
    build_program("check")


def build_program(*words):
    """The first call proves and builds, so that each later one shows the program alone."""
    done = subprocess.run([FRONT, *words], input=b"", capture_output=True)
    if done.returncode != 0:
        raise RuntimeError(f"the front ended with status {done.returncode}: {done.stderr.decode()[-2000:]}")


def check(table):
    """The status and the text of the program for a table."""
    done = subprocess.run([FRONT, "check"], input=table, capture_output=True)
    return done.returncode, done.stdout.decode("latin-1")


class Samples(unittest.TestCase):
    """One test for each sample: its stored text."""

    def held(self, name):
        text = (test_samples.SAMPLES / f"{name}.txt").read_text()
        self.assertEqual(check(test_samples.sample(f"{name}.table")), (0, text))


class Lengths(unittest.TestCase):
    full = test_samples.sample("full-1008.table")

    def refused(self, table, number):
        self.assertEqual(check(table), (0, f"refused {number}\n"))

    def test_nothing(self):
        self.assertEqual(check(b""), (0, "verdict complete settled 0 stuck 0 stages 0 longest 0\n"))

    def test_longest(self):
        self.assertEqual(len(self.full), LONGEST)
        self.assertTrue(check(self.full)[1].startswith("verdict complete settled 63 "))

    def test_one_byte_more_than_the_longest(self):
        self.refused(self.full + b"\x00", 2)
        self.refused(bytes(LONGEST + 1), 2)

    def test_more_than_the_longest(self):
        for more in (2, 15, 16, 17, 256, 16384, 65536 - LONGEST, 65536, 1 << 20):
            with self.subTest(more=more):
                self.refused(self.full + bytes(more), 2)

    def test_ragged(self):
        for length in (1, 15, 17, 31, LONGEST - 15, LONGEST - 1):
            with self.subTest(length=length):
                self.refused(self.full[:length], 3)

    def test_in_pieces(self):
        """A pipe hands over what is there, so one read can give less than there will be."""
        program = subprocess.Popen([FRONT, "check"], stdin=subprocess.PIPE, stdout=subprocess.PIPE)
        for at in range(0, LONGEST, 4001):
            program.stdin.write(self.full[at : at + 4001])
            program.stdin.flush()
            time.sleep(0.02)
        text = program.communicate()[0].decode()
        self.assertEqual((program.returncode, text), check(self.full))

    def test_an_input_that_cannot_be_read(self):
        """A folder opens and cannot be read: nothing that looks like a check may be printed."""
        folder = os.open(ROOT / "samples", os.O_RDONLY)
        try:
            done = subprocess.run([FRONT, "check"], stdin=folder, capture_output=True)
        finally:
            os.close(folder)
        self.assertEqual(done.stdout, b"")
        self.assertIn(b"cannot be read", done.stderr)


class Seeded(unittest.TestCase):
    def test_tables_of_each_kind(self):
        cases = []
        for kind, (make, _) in check_cases.KINDS.items():
            # Some kinds have all their places only from so many cases on.
            made = make(3 * PER_KIND, random.Random(f"{SEED} program {kind}"))
            cases += random.Random(f"{SEED} some of {kind}").sample(made, PER_KIND)
        self.assertGreaterEqual(len(cases), LEAST)
        lines = comparing.answers("program", [SECOND, "check-batch"], cases)
        for number, (case, line) in enumerate(zip(cases, lines)):
            expected = (0, bytes.fromhex(line.split()[8]).decode())
            found = check(case.table)
            if found != expected:
                comparing.blame("program", cases, number, f"the program: {found}, the second program: {expected}")


test_samples.add_tests(Samples, test_samples.named("table"))

if __name__ == "__main__":
    unittest.main()
