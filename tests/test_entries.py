"""The C entries on the cases of entries.c: codes, places and every byte, written there by hand from the rules page."""

import re
import unittest

import linking

SOURCES = ["tests/entries.c", "tests/entry_calls.c"]
LINE = re.compile(r"ok (check|step|run) (\S+) (\d+)")
# The refusals of each entry: "The check uses 1 to 11, the step 1 to 12 and 14 (place 0), the run all."
REFUSALS = {"check": {*range(1, 12)}, "step": {*range(1, 13), 14}, "run": {*range(1, 15)}}
WORKED = {
    "check": {f"table-{n}" for n in range(1, 8)},
    "step": {"case-8-step-1", "case-8-step-2", *(f"case-9-step-{n}" for n in range(1, 6))},
    "run": {"table-1", "case-8", "case-9"},
}
LENGTHS = {
    "rows": (0, 1023, 1025),
    "ring": (0, 63, 65),
    "heard": (0, 4095, 4097),
    "sums": (0, 255, 257),
    "numbers": (0, 31, 33),
}
FILLED = {"check": ("rows", "ring", "numbers"), "step": ("heard", "numbers"), "run": ("heard", "sums", "numbers")}

# One bit of what entries.c expects is turned, and this is what it must say of it.
TURNED = {
    "check table-5 rows 33": "rows at 33 is 1 and not 0",
    "check table-6 ring 63": "ring at 63 is 255 and not 254",
    "check table-7 numbers 12": "numbers at 12 is 3 and not 2",
    "check table-7 table -1": "table at -1 is 158 and not 159",
    "check same-path code 0": "code is 523 and not 522",
    "step case-9-step-5 numbers 0": "numbers at 0 is 240 and not 241",
    "step case-9-step-5 heard 194": "heard at 194 is 1 and not 0",
    "step pair-1-2 heard 4096": "heard at 4096 is 165 and not 164",
    "run case-9 heard 4095": "heard at 4095 is 0 and not 1",
    "run case-9-rest sums 15": "sums at 15 is 255 and not 254",
    "run case-9 schedule 9": "schedule at 9 is 2 and not 3",
    "run sums-255 sums 254": "sums at 254 is 151 and not 150",
    "run pair-4-0 numbers 31": "numbers at 31 is 126 and not 127",
}


def setUpModule():
    Entries.program = linking.build("entries", *SOURCES)


class Entries(unittest.TestCase):
    program = None

    def calls(self):
        """The code of each call, by entry and name, once all of them passed."""
        status, said = linking.run(self.program)
        *lines, last = said.splitlines()
        found = [LINE.fullmatch(line) for line in lines]
        self.assertEqual([line for line, match in zip(lines, found) if not match], [])
        self.assertEqual((status, last), (0, f"{len(lines)} passed, 0 failed"))
        codes = {(match[1], match[2]): int(match[3]) for match in found}
        self.assertEqual(len(codes), len(lines))
        return codes

    def test_every_call(self):
        self.assertGreaterEqual(len(self.calls()), 150)

    def test_every_refusal_of_every_entry(self):
        for entry, numbers in REFUSALS.items():
            refused = {code % 256 for (called, _), code in self.calls().items() if called == entry and code != 0}
            self.assertEqual(refused, numbers, entry)

    def test_every_worked_table(self):
        for entry, names in WORKED.items():
            accepted = {name for (called, name), code in self.calls().items() if called == entry and code == 0}
            self.assertLessEqual(names, accepted, entry)

    def test_every_wrong_length(self):
        codes = self.calls()
        for entry, buffers in FILLED.items():
            for buffer in buffers:
                for length in LENGTHS[buffer]:
                    self.assertEqual(codes.get((entry, f"{buffer}-{length}")), 1, (entry, buffer, length))

    def test_what_is_turned_is_found(self):
        passed = len(self.calls())
        for turned, words in TURNED.items():
            with self.subTest(turned=turned):
                entry, name, *_ = turned.split()
                status, said = linking.run(self.program, ENTRIES_TURN=turned)
                wrong = [line for line in said.splitlines() if not LINE.fullmatch(line)]
                expected = [f"FAILED {entry} {name}: {words}", f"{passed - 1} passed, 1 failed"]
                self.assertEqual((status, wrong), (1, expected))


if __name__ == "__main__":
    unittest.main()
