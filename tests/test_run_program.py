"""The run program, through the front: samples against their stored texts, seeded runs against the second program.

Only standard output is fixed, and it holds nothing but the run's text.
"""

import os
import random
import subprocess
import tempfile
import threading
import unittest
from pathlib import Path

import comparing
import run_cases
import test_program
import test_samples
from comparing import SECOND, SEED
from test_program import FRONT

LONGEST_TABLE, LONGEST_SCHEDULE = 16128, 32768
# Kinds of which nothing shows in a text are left out: what was heard, and what is lent.
KINDS = [kind for kind in run_cases.RUNS if not kind.startswith(run_cases.FAULTS) and kind != "other_lengths"]
PER_KIND = 2
LEAST = 50


def setUpModule():
    print(f"test_run_program: seed {SEED}", flush=True)
    test_samples.setUpModule()
    test_program.build_program("run", *test_samples.run_files("chain.case9"))


def front(*words, **how):
    """The status, the text and what is said on standard error."""
    done = subprocess.run([FRONT, *words], stdin=subprocess.DEVNULL, capture_output=True, **how)
    return done.returncode, done.stdout.decode("latin-1"), done.stderr.decode()


class Folder(unittest.TestCase):
    """A folder with a table and a schedule."""

    def setUp(self):
        holder = tempfile.TemporaryDirectory()
        self.addCleanup(holder.cleanup)
        self.folder = Path(holder.name)
        self.table, self.schedule = self.folder / "a table", self.folder / "schedule"

    def ran(self, table, schedule):
        self.table.write_bytes(table)
        self.schedule.write_bytes(schedule)
        return front("run", self.table, self.schedule)


class Samples(unittest.TestCase):
    """One test for each schedule: its stored text."""

    def held(self, name):
        text = (test_samples.SAMPLES / f"{name}.txt").read_text()
        self.assertEqual(front("run", *test_samples.run_files(name)), (0, text, ""))


class Lengths(Folder):
    table_7 = test_samples.sample("chain.table")
    full = test_samples.sample("full-1008.table")
    deep = test_samples.sample("deep-63.table")
    longest = test_samples.sample("deep-63.downwards.schedule")

    def refused(self, table, schedule, number):
        self.assertEqual(self.ran(table, schedule), (0, f"refused {number}\n", ""))

    def test_nothing(self):
        self.assertEqual(self.ran(b"", b""), (0, "run steps 0 ups 0 downs 0 last 0 rounds 0\n", ""))

    def test_an_empty_schedule(self):
        text = "run steps 0 ups 0 downs 0 last 0 rounds 0\n1 sum 0 none\n2 sum 0 none\n3 sum 0 none\n"
        self.assertEqual(self.ran(self.table_7, b""), (0, text, ""))

    def test_longest(self):
        self.assertEqual((len(self.full), len(self.longest)), (LONGEST_TABLE, LONGEST_SCHEDULE))
        self.assertTrue(self.ran(self.full, self.longest)[1].startswith("run steps 16384 "))

    def test_tables_too_long(self):
        for more in (1, 15, 16, 65536 - LONGEST_TABLE, 65536):
            with self.subTest(more=more):
                self.refused(self.full + bytes(more), self.longest, 2)

    def test_ragged_tables(self):
        for length in (1, 17, LONGEST_TABLE - 1):
            with self.subTest(length=length):
                self.refused(self.full[:length], self.longest, 3)

    def test_schedules_too_long(self):
        for more in (1, 2, 3, 65536 - LONGEST_SCHEDULE, 65536):
            with self.subTest(more=more):
                self.refused(self.deep, self.longest + bytes(more), 13)

    def test_odd_schedules(self):
        for length in (1, 3, LONGEST_SCHEDULE - 1):
            with self.subTest(length=length):
                self.refused(self.deep, self.longest[:length], 13)

    def test_the_table_is_judged_first(self):
        self.refused(self.full[:17], self.longest + b"\x00", 3)


class Files(Folder):
    def test_names_are_from_the_callers_folder(self):
        self.table.write_bytes(test_samples.sample("chain.table"))
        self.schedule.write_bytes(test_samples.sample("chain.case9.schedule"))
        for command in ("run", "second-run"):
            found = front(command, "a table", "./schedule", cwd=self.folder)
            self.assertEqual(found, (0, test_samples.CASE_9, ""))

    def test_a_missing_argument(self):
        usage = front("help")[1]
        for command in ("run", "second-run"):
            for words in ([], [self.table], [self.table, self.schedule, self.table]):
                self.assertEqual(front(command, *words), (2, "", usage))

    def test_a_file_that_cannot_be_read(self):
        """One that is not there, and a folder, which opens and cannot be read: nothing like a run may be printed."""
        table, schedule = test_samples.run_files("chain.case9")
        for words in ((self.table, schedule), (table, self.schedule), (self.folder, schedule), (table, self.folder)):
            with self.subTest(words=words):
                _, out, said = front("run", *words)
                self.assertEqual(out, "")
                self.assertNotEqual(said, "")

    def test_in_pieces(self):
        """A pipe hands over what is there, so one read can give less than there will be."""
        table, schedule = test_samples.sample("deep-63.table"), test_samples.sample("deep-63.downwards.schedule")
        for path, content in ((self.table, table), (self.schedule, schedule)):
            os.mkfifo(path)
            # A daemon, since it would wait for ever for a program that never opens its file.
            threading.Thread(target=write_in_pieces, args=(path, content), daemon=True).start()
        text = (test_samples.SAMPLES / "deep-63.downwards.txt").read_text()
        self.assertEqual(front("run", self.table, self.schedule, timeout=20), (0, text, ""))


def write_in_pieces(path, content):
    # Unbuffered, so that each piece is a write of its own.
    with path.open("wb", buffering=0) as pipe:
        for at in range(0, len(content), 1001):
            pipe.write(content[at : at + 1001])


class Seeded(Folder):
    def test_runs_of_each_kind(self):
        cases = []
        for kind in KINDS:
            # Some kinds have all their places only from so many cases on.
            made = run_cases.RUNS[kind][0](3 * PER_KIND, random.Random(f"{SEED} run program {kind}"))
            cases += random.Random(f"{SEED} some of {kind}").sample(made, PER_KIND)
        self.assertGreaterEqual(len(cases), LEAST)
        lines = comparing.answers("run program", [SECOND, "run-batch"], cases)
        for number, (case, line) in enumerate(zip(cases, lines)):
            expected = (0, bytes.fromhex(line.split()[-1]).decode(), "")
            found = self.ran(case.table, case.schedule)
            if found != expected:
                comparing.blame("run program", cases, number, f"the program: {found}, the second program: {expected}")


test_samples.add_tests(Samples, test_samples.named("schedule"))

if __name__ == "__main__":
    unittest.main()
