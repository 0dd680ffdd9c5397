"""The proved check against the second program: the same tables to both, and all that they give back compared.

The return value, numbers, rows and ring are those of `reefsplice_check`, and the text is that of `probe_text`. The five
numbers are compared as they stand in the buffer of numbers, and once more as ring and text tell them. What a call may
not write is looked at too: see check_driver.c. Where a table is made so that its answer is known, both are held to that
as well.
"""

import functools
import os
import random
import re
import unittest
from collections import Counter
from unittest import mock

import check_cases
import comparing
import reader_cases
import test_samples
from comparing import NUMBERS_BYTES, SECOND, SEED

DRIVER = comparing.BUILT / "check"
PLANTED = comparing.BUILT / "check-planted"
NUMBERS = ["ring length", "settled", "stuck", "stages", "longest"]
FIELDS = dict.fromkeys(["code", *NUMBERS], comparing.characters) | {
    "numbers": comparing.hex_bytes,
    "numbers by ring and text": comparing.numbers,
    "rows": comparing.hex_bytes,
    "ring": comparing.hex_bytes,
    "text": comparing.hex_bytes,
    "around": comparing.characters,
}

# The run is worth little if one of these hardly occurs: each with its least number.
MIX = {"cases": 2000, "complete": 300, "stuck": 300, "silent": 100, "stages 63": 30, "longest 12": 50}
MIX |= {"1008 records": 50, "1008 records, stages 63": 5, "1008 records, stuck": 20}
MIX |= {"ring without the lowest stuck": 100, "ring of 2": 20, "ring of 63": 5}
MIX |= {f"refused {number}": 40 for number in range(2, 12)}
MIX |= {f"refused {number} of several faults": 15 for number in range(2, 12)}
RING_LENGTHS = 30

# The lengths of rows, ring and numbers, and others, of which not all are right.
LENT = (1024, 64, NUMBERS_BYTES)
LENGTHS = [(rows, 64, 32) for rows in (0, 1023, 1025, 1040, 2048, 65536 + 1024)]
LENGTHS += [(1024, ring, 32) for ring in (0, 63, 65, 128, 256 + 64)]
LENGTHS += [(1024, 64, numbers) for numbers in (0, 5, 20, 31, 33, 64, 256 + 32)]
LENGTHS += [(0, 0, 0), (64, 1024, 32), (1023, 65, 32), (1023, 64, 33)]

# Lengths of the buffer for the text: a shorter one takes as much of it as fits, and a longer one keeps its rest.
TEXT_LENGTHS = [0, 1, 8, 50, 51, 100, 1000, 16383, 20000]

# Each fault of planted_check.c, and what the comparison must say of it.
PLANTS = {
    "number": "code is 1 .* and 0 for",
    "place": "code is 256 .* and 0 for",
    "longer-ring": "ring length is 3 .* and 2 for",
    "invented-settled": "settled is 2 .* and 1 for",
    "invented-stuck": "stuck is 3 .* and 2 for",
    "invented-stages": "stages is 2 .* and 1 for",
    "invented-longest": "longest is 3 .* and 2 for",
    "numbers-byte": "ring length is 3 .* and 2 for",
    "numbers-high-byte": "ring length is 16777218 .* and 2 for",
    "numbers-turned": "ring length is 33554432 .* and 2 for",
    "numbers-rest-first": "numbers at 20 is 01 .* and 00 for",
    "numbers-rest-last": "numbers at 31 is 01 .* and 00 for",
    "rows-byte": "rows at 1023 is fe .* and ff for",
    "ring-byte": "ring at 0 is",
    "ring-end": "numbers by ring and text is 3,1,2,1,2 .* and 2,1,2,1,2 for",
    "text-byte": "text at [0-9]+ is",
    "text-short": "text at [0-9]+ is nothing .* and 0a for",
    "text-count": "numbers by ring and text is 2,0,2,1,2 .* and 2,1,2,1,2 for",
    "text-long": "numbers by ring and text at 1 is nothing .* and 1 for",
    "rows-before": "around is rows-before",
    "rows-after": "around is rows-after",
    "ring-before": "around is ring-before",
    "ring-after": "around is ring-after",
    "numbers-before": "around is numbers-before",
    "numbers-after": "around is numbers-after",
    "text-before": "around is text-before",
    "text-rest": "around is text-rest",
    "text-after": "around is text-after",
    "table-byte": "check-planted ended with status 3",
    "what-was-there": "around is answer-by-what-was-there",
    "which-numbers-were-there": "around is answer-by-what-was-there",
    "clears-rows": "rows at 0 is 00 .* and a5 for",
    "clears-ring": "ring at 0 is 00 .* and a5 for",
    "clears-numbers": "numbers at 0 is 00 .* and a5 for",
    "aborts": "check-planted ended with status -6",
}


def setUpModule():
    print(f"test_check: seed {SEED}", flush=True)
    comparing.build_driver(DRIVER, "check_driver.c")
    comparing.build_planted(PLANTED, "check_driver.c", "planted_check.c", ["reefsplice_check", "probe_text"])


def numbers_by(ring, text):
    """The ring's length by its bytes, and the four counts by the text's first line."""
    length = len(bytes.fromhex(ring.strip("-")).partition(b"\xff")[0])
    words = bytes.fromhex(text.strip("-")).split(b"\n")[0].decode("latin-1").split()
    return [str(length), *words[3::2], *["nothing"] * 4][:5]


def proved_words(line):
    """The words of the proved check's line, with its numbers, and with what ring and text say of them."""
    code, numbers, rows, ring, text, around = line.split()
    told = ",".join(numbers_by(ring, text) if code == "0" else ["0"] * 5)
    return [code, *comparing.given(code, numbers, len(NUMBERS)), numbers, told, rows, ring, text, around]


def second_words(line, rows_bytes, ring_bytes, numbers_bytes):
    """The second program's words for the same call; it is lent no buffer of numbers and so cannot refuse its length."""
    code, *numbers, rows, ring, text = line.split()
    if numbers_bytes != NUMBERS_BYTES:
        code, numbers = comparing.BUFFER_LENGTH, ["0"] * len(numbers)
        rows, ring = comparing.marks(rows_bytes), comparing.marks(ring_bytes)
    laid = comparing.buffer_of(code, numbers, numbers_bytes)
    return [code, *numbers, laid, ",".join(numbers), rows, ring, text, "kept"]


def compare(kind, cases, driver=DRIVER, lengths=LENT):
    """The answer to each case as a dictionary, once both programs agree on all and with what the cases say."""
    words = [str(length) for length in lengths]
    proved = comparing.answers(kind, [driver, *words], cases)
    second = comparing.answers(kind, [SECOND, "check-batch", *words[:2]], cases)
    theirs = [second_words(line, *lengths) for line in second]
    return comparing.agreed(kind, cases, FIELDS, [proved_words(line) for line in proved], theirs)


def sample_case(name):
    return check_cases.Case(test_samples.sample(f"{name}.table"), {"text": test_samples.sample(f"{name}.txt").hex()})


def compare_texts(length, pairs, driver=DRIVER):
    comparing.agreed_texts(f"text in {length} bytes", [driver, *map(str, LENT), str(length)], pairs, length)


@functools.cache
def compared(kind):
    make, count = check_cases.KINDS[kind]
    cases = make(count, random.Random(f"{SEED} {kind}"))
    return list(zip(cases, compare(kind, cases)))


def refused_labels(kind, case, number):
    yield f"refused {number}"
    # The tables of a wrong length whose first record is bad as well have no hops or rank 17 there.
    is_first_bad = case.table[1:2] == b"\x00" or case.table[:1] == b"\x11"
    if kind.startswith("damaged_more") or number in (2, 3) and is_first_bad:
        yield f"refused {number} of several faults"


def labels(kind, case, answer):
    """What a case adds to the mix."""
    yield "cases"
    if answer["code"] != "0":
        yield from refused_labels(kind, case, int(answer["code"]) % 256)
        return
    verdict = "complete" if answer["stuck"] == "0" else "stuck"
    about = [verdict, f"stages {answer['stages']}", f"longest {answer['longest']}"]
    yield from about
    if len(case.table) == reader_cases.MOST_BYTES:
        yield from ["1008 records", *(f"1008 records, {label}" for label in about)]
    rows, ring = bytes.fromhex(answer["rows"]), bytes.fromhex(answer["ring"]).partition(b"\xff")[0]
    if any(stage < 254 and rank == 0 for stage, rank in zip(rows[16::16], rows[17::16])):
        yield "silent"
    if verdict == "stuck":
        yield f"ring of {len(ring)}"
        if rows[::16].index(255) not in ring:
            yield "ring without the lowest stuck"


class Check(unittest.TestCase):
    """One test for each kind of table."""

    def held(self, kind):
        self.assertGreater(len(compared(kind)), 0)

    def test_samples(self):
        cases = [sample_case(path.stem) for path in sorted(test_samples.SAMPLES.glob("*.table"))]
        self.assertGreater(len(compare("samples", cases)), 0)

    def test_the_mix_has_each_kind(self):
        pairs = [(kind, *pair) for kind in check_cases.KINDS for pair in compared(kind)]
        found = Counter(label for pair in pairs for label in labels(*pair))
        print(f"test_check: seed {SEED}, " + ", ".join(f"{label}: {found[label]}" for label in MIX), flush=True)
        self.assertEqual({label: found[label] for label in MIX if found[label] < MIX[label]}, {})
        self.assertGreaterEqual(sum(label.startswith("ring of") for label in found), RING_LENGTHS)

    def test_other_lengths(self):
        """Refusal 1 comes before any other, and nothing changes."""
        kinds = [kind for kind in check_cases.KINDS if not kind.startswith("damaged_more")]
        tables = [case.table for kind in kinds for case, _ in compared(kind)[:2]]
        cases = [check_cases.Case(table, {"code": "1"}) for table in tables]
        for lengths in LENGTHS:
            with self.subTest(lengths=lengths):
                self.assertEqual(len(compare(f"buffers of {lengths}", cases, lengths=lengths)), len(cases))

    def test_other_text_lengths(self):
        pairs = [pair for kind in check_cases.KINDS for pair in compared(kind)[:3]]
        for length in TEXT_LENGTHS:
            with self.subTest(length=length):
                compare_texts(length, pairs)


class Planted(unittest.TestCase):
    """One test for each fault planted into the proved check: the comparison finds it and names it."""

    def setUp(self):
        # One that is accepted and one that is refused.
        self.cases = [sample_case("shortcut"), sample_case("ragged-17")]

    def planted(self, fault, **how):
        with mock.patch.dict(os.environ, {"PLANT": fault}):
            return compare("planted", self.cases, driver=PLANTED, **how)

    def held(self, fault):
        with self.assertRaises(AssertionError) as found:
            self.planted(fault)
        self.assertRegex(str(found.exception), f"^seed {SEED}, planted, case [01]: {PLANTS[fault]}.*; table [0-9a-f]+$")

    def test_nothing(self):
        self.assertEqual(len(self.planted("nothing")), len(self.cases))

    def test_stays(self):
        found = self.assertRaisesRegex(AssertionError, "case 0: check-planted did not end; table")
        with mock.patch.object(comparing, "LONGEST_RUN", 0.5), found:
            self.planted("stays")

    def test_any_length(self):
        for lengths in ((1023, 64, 32), (1024, 65, 32), (1024, 64, 31)):
            with self.assertRaisesRegex(AssertionError, "code is 0 .* and 1 for"):
                self.planted("any-length", lengths=lengths)

    def test_other_text_lengths(self):
        pairs = list(zip(self.cases, compare("planted", self.cases)))
        compare_texts(20, pairs, PLANTED)
        for fault in ("text-byte", "text-short", "text-long", "text-after"):
            with mock.patch.dict(os.environ, {"PLANT": fault}), self.assertRaisesRegex(AssertionError, "and not"):
                compare_texts(20, pairs, PLANTED)

    def test_what_a_case_says(self):
        case = self.cases[0]._replace(says={"stages": "2"})
        with self.assertRaisesRegex(AssertionError, "both differ from what it was made for"):
            compare("planted", [case])

    def test_each_field(self):
        words = [chr(ord("a") + at) * 40 for at in range(len(FIELDS))]
        self.assertIsNone(comparing.difference(FIELDS, words, list(words)))
        for at, name in enumerate(FIELDS):
            other = [*words[:at], "z" + words[at][1:], *words[at + 1 :]]
            self.assertTrue(re.match(f"{name} at 0 is ", comparing.difference(FIELDS, words, other)))


test_samples.add_tests(Check, check_cases.KINDS)
test_samples.add_tests(Planted, PLANTS)

if __name__ == "__main__":
    unittest.main()
