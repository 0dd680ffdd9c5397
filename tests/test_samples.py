"""The samples against the script that makes them, and the second program's answers on them against the rules page."""

import re
import subprocess
import sys
import tempfile
import unittest
from pathlib import Path

ROOT = Path(__file__).resolve().parent.parent
SAMPLES = ROOT / "samples"
SECOND = ROOT / ".build" / "second" / "debug" / "second"

# Case 10 of the rules page, and the second March table beside its first.
CASE_10 = {
    "twelve-hops": "accepted",
    "no-hops": "refused 4 record 0",
    "thirteen-hops": "refused 4 record 0",
    "vertex-63": "accepted",
    "vertex-64": "refused 5 record 0",
    "rank-16": "accepted",
    "rank-17": "refused 10 record 16",
    "full-1008": "accepted",
    "too-long-16144": "refused 2",
    "ragged-17": "refused 3",
    "blocks-apart": "refused 9 record 2",
    "blocks-adjacent": "refused 10 record 1",
}
SIZES = {"full-1008": 16128, "too-long-16144": 16144, "ragged-17": 17}

# What the rules page prints for table 5, word for word.
TABLE_5 = """\
verdict stuck settled 1 stuck 2 stages 1 longest 2
1 stage 1 rank 1 path 1 0
2 stuck rank 1 path 2 3 0
3 stuck rank 1 path 3 2 0
ring 2 3
"""

# What a run of case 9 prints, with the numbers and sums of the rules page.
CASE_9 = """\
run steps 5 ups 4 downs 1 last 5 rounds 1
1 sum 16 rank 1 path 1 0
2 sum 16 rank 1 path 2 1 0
3 sum 0 none
"""


def setUpModule():
    cargo = ["cargo", "build", "--quiet", "--offline", "--target-dir", SECOND.parent.parent]
    subprocess.run(cargo, cwd=ROOT / "second", check=True, capture_output=True)


def second(*words, table=b""):
    return subprocess.run([SECOND, *words], input=table, stdout=subprocess.PIPE, check=True).stdout.decode()


def sample(name):
    return (SAMPLES / name).read_bytes()


def named(ending):
    """The names of the samples of a kind."""
    return sorted(path.stem for path in SAMPLES.glob(f"*.{ending}"))


def run_files(name):
    """The table and the schedule of a sample run, whose name begins with that of its table."""
    return SAMPLES / f"{name.partition('.')[0]}.table", SAMPLES / f"{name}.schedule"


class Samples(unittest.TestCase):
    def test_files_are_those_of_the_script(self):
        with tempfile.TemporaryDirectory() as folder:
            subprocess.run([sys.executable, SAMPLES / "make.py", folder], check=True)
            made = {path.name: path.read_bytes() for path in Path(folder).iterdir()}
        kept = {path.name for path in SAMPLES.iterdir() if path.suffix in (".table", ".schedule")}
        self.assertEqual(kept, set(made))
        self.assertEqual([name for name in sorted(kept) if sample(name) != made[name]], [])

    def test_each_table_and_schedule_has_its_printed_form(self):
        self.assertEqual(sorted(named("table") + named("schedule")), named("txt"))

    def test_table_5_is_as_the_rules_page_prints_it(self):
        self.assertEqual((SAMPLES / "shortcut.txt").read_text(), TABLE_5)

    def test_case_9_is_as_the_rules_page_counts_it(self):
        self.assertEqual((SAMPLES / "chain.case9.txt").read_text(), CASE_9)

    def test_a_long_run_comes_to_what_the_check_says(self):
        """The check of this table is complete, and the run has more rounds than stages times hops."""
        checked, ran = ((SAMPLES / f"{name}.txt").read_text() for name in ("deep-63", "deep-63.downwards"))
        settled, chosen = ([line.split()[3:] for line in text.splitlines()[1:]] for text in (checked, ran))
        self.assertEqual(settled, chosen)

    def test_the_front_prints_the_second_program(self):
        words = [ROOT / "reefsplice", "second-check"]
        front = subprocess.run(words, input=sample("shortcut.table"), stdout=subprocess.PIPE, check=True)
        self.assertEqual(front.stdout.decode(), TABLE_5)
        words = [ROOT / "reefsplice", "second-run", *run_files("chain.case9")]
        front = subprocess.run(words, stdout=subprocess.PIPE, check=True)
        self.assertEqual(front.stdout.decode(), CASE_9)


class Check(unittest.TestCase):
    """One test for each table: its printed form."""

    def held(self, name):
        printed = second("check", table=sample(f"{name}.table"))
        self.assertEqual(printed, (SAMPLES / f"{name}.txt").read_text())


class Case10(unittest.TestCase):
    """One test for each table of case 10: accepted, or refused by number and place."""

    def held(self, name):
        table = sample(f"{name}.table")
        self.assertEqual(len(table), SIZES.get(name, len(table)))
        self.assertEqual(second("reader", table=table), f"{CASE_10[name]}\n")


class Run(unittest.TestCase):
    """One test for each schedule: the printed form of its run from zeros."""

    def held(self, name):
        self.assertEqual(second("run", *run_files(name)), (SAMPLES / f"{name}.txt").read_text())


def add_tests(case, names):
    """Each name becomes a test of its own, so that the gate counts it as one."""
    for name in names:
        setattr(case, "test_" + re.sub(r"\W", "_", name), lambda self, name=name: self.held(name))


add_tests(Check, named("table"))
add_tests(Case10, CASE_10)
add_tests(Run, named("schedule"))

if __name__ == "__main__":
    unittest.main()
