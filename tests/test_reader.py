"""The proved reader against the second program: the same tables to both, and their answers compared line by line.

The proved reader is the crate `probe`, linked into a small C program that answers as `second batch` does: number and
place where a table is refused, otherwise L, present, slots and listens too, in full for every accepted table. The
tables come from a seed, which REEFSPLICE_SEED sets and the run prints. Where a table is made so that the rules page
says its number and place, the answer is held to those too.
"""

import random
import unittest
from collections import Counter

import comparing
import reader_cases as made
import test_samples
from comparing import SECOND, SEED

DRIVER = comparing.BUILT / "reader"
FIELDS = {
    "number": comparing.characters,
    "place": comparing.characters,
    "L": comparing.characters,
    "present": comparing.characters,
    "slots": comparing.numbers,
    "listens": comparing.characters,
}

# How many cases a kind has; for a damaged table, at each of the three places.
KINDS = {
    "small_valid": (made.accepted, made.small, 600),
    "large_valid": (made.accepted, made.large, 120),
    "full_ranks": (made.full_ranks, 100),
    "several_faults": (made.several_faults, 600),
    "changed_byte": (made.changed_byte, 600),
    "random_bytes": (made.random_bytes, 300),
    "likely_bytes": (made.likely_bytes, 900),
    "ragged": (made.ragged, 200),
    "around_longest": (made.around_longest, 240),
}
PER_PLACE = 30
# The run is worth little if a number hardly occurs.
LEAST = 20

compared = Counter()


def setUpModule():
    print(f"test_reader: seed {SEED}", flush=True)
    comparing.build_driver(DRIVER, "probe_driver.c")


def tearDownModule():
    print(f"test_reader: seed {SEED}, {compared.total()} cases, by number: {dict(sorted(compared.items()))}")


class Reader(unittest.TestCase):
    """One test for each kind of table."""

    def compare(self, kind, cases):
        """Gives the number and place of each answer, once the two programs agree on all."""
        proved = comparing.answers(kind, [DRIVER], cases)
        second = comparing.answers(kind, [SECOND, "batch"], cases)
        heads = [tuple(map(int, line.split()[:2])) for line in proved]
        for number, (case, head, ours, theirs) in enumerate(zip(cases, heads, proved, second)):
            reason = comparing.difference(FIELDS, ours.split(), theirs.split())
            if not reason and case.expected not in (None, head):
                reason = f"both say {head}, and the table was made for {case.expected}"
            if reason:
                comparing.blame(kind, cases, number, reason)
        compared.update(number for number, _ in heads)
        return heads

    def counted(self, kind):
        """How often each number and place is the answer to a kind of table."""
        make, *arguments = KINDS[kind]
        return Counter(self.compare(kind, make(*arguments, random.Random(f"{SEED} {kind}"))))

    def held(self, kind):
        self.counted(kind)

    def held_damaged(self, number):
        kind = f"damaged_{number}"
        cases = made.damaged(number, PER_PLACE, random.Random(f"{SEED} {kind}"))
        lasts = [len(case.table) // made.RECORD_BYTES - 1 for case in cases]
        # No first record can be below one before it or repeat its path.
        first = 1 if number in (9, 11) else 0
        at = Counter(
            "first" if place == first else "last" if place == last else "middle"
            for (found, place), last in zip(self.compare(kind, cases), lasts)
            if found == number
        )
        self.assertGreaterEqual(min(at["first"], at["middle"], at["last"]), LEAST, at)

    def test_ragged(self):
        self.assertGreaterEqual(self.counted("ragged")[3, 0], LEAST)

    def test_around_longest(self):
        found = self.counted("around_longest")
        self.assertGreaterEqual(min(found[2, 0], found[3, 0]), LEAST, found)

    def test_samples(self):
        files = sorted(test_samples.SAMPLES.glob("*.table"))
        self.assertGreater(len(files), 0)
        self.compare("samples", [made.Case(path.read_bytes()) for path in files])


def add_tests():
    """Each kind becomes a test of its own, so that the gate counts it as one."""
    for kind in KINDS:
        if not hasattr(Reader, f"test_{kind}"):
            setattr(Reader, f"test_{kind}", lambda self, kind=kind: self.held(kind))
    for number in made.FAULTS:
        setattr(Reader, f"test_damaged_{number}", lambda self, number=number: self.held_damaged(number))


add_tests()

if __name__ == "__main__":
    unittest.main()
