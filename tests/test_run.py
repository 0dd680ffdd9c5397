"""The proved step and run against the second program: the same calls to both, and all that they give back compared.

The return value, every byte of the buffer of numbers and of the heard state, and every sum are those of
`reefsplice_step` and `reefsplice_run`, and the text is that of `probe_run_text`, which runs from zeros. What a call may
not write is looked at too: see lent.h. Where a case is made so that its answer is known, both are held to that as well.
"""

import functools
import random
import unittest
from collections import Counter

import comparing
import run_cases
import test_samples
from comparing import NUMBER_BYTES, NUMBERS_BYTES, SECOND, SEED
from worked_cases import NUMBERS

DRIVER = comparing.BUILT / "machine"
NAMES = {"step": ["movement"], "run": NUMBERS}
BUFFERS = {"numbers": comparing.hex_bytes, "heard": comparing.hex_bytes}
STEP_FIELDS = dict.fromkeys(["code", *NAMES["step"]], comparing.characters) | BUFFERS
RUN_FIELDS = dict.fromkeys(["code", *NAMES["run"]], comparing.characters) | BUFFERS
RUN_FIELDS |= {"sums": comparing.numbers, "text": comparing.hex_bytes}
FIELDS = {"step": STEP_FIELDS, "run": RUN_FIELDS}
for fields in FIELDS.values():
    fields["around"] = comparing.characters

# The run is worth little if one of these hardly occurs: each with its least number.
STEP_MIX = {"cases": 2000, "up": 150, "down": 30, "no movement": 150, "movement 16": 10, "movement -16": 5}
STEP_MIX |= {"stored and not moved": 40, "refused 1": 60, "refused 12": 150, "refused 14": 200}
RUN_MIX = {"cases": 2000, "ups and downs": 250, "no change": 30, "last change before the end": 200}
RUN_MIX |= {"last change at the end": 20, "no round": 100, "one round": 50, "many rounds": 50, "16384 steps": 20}
RUN_MIX |= {"half a sum": 50, "sum below 0": 100, "text with none": 300, "text of twelve hops": 15}
RUN_MIX |= {f"refused {number}": least for number, least in {1: 150, 12: 180, 13: 80, 14: 200}.items()}
for mix in (STEP_MIX, RUN_MIX):
    mix |= {f"refused {number}": 20 for number in range(2, 12)}
MIX = {"step": STEP_MIX, "run": RUN_MIX}

# Lengths of the buffer of numbers, none of them right: the answer's own bytes or all words, one off, and 256 more.
LENGTHS = {"step": [0, 4, 31, 33], "run": [0, 8, 20, 31, 33, 256 + 32]}
TEXT_LENGTHS = [0, 1, 8, 41, 42, 100, 1000, 8191, 20000]


def setUpModule():
    print(f"test_run: seed {SEED}", flush=True)
    comparing.build_driver(DRIVER, "machine_driver.c")


def sums_word(lent):
    """Lent sums as the second program prints its own."""
    return ",".join(comparing.words_of(lent)) or "-"


def proved_words(which, line):
    """The words of the proved code's line, with the numbers that the buffers hold."""
    code, numbers, heard, *others = line.split()
    if which == "run":
        others[0] = sums_word(bytes.fromhex(others[0].strip("-")))
    return [code, *comparing.given(code, numbers, len(NAMES[which])), numbers, heard, *others]


def has_half_a_sum(case):
    return isinstance(case, run_cases.Run) and len(case.sums) % NUMBER_BYTES != 0


def refused_for_length(which, case):
    """What a call leaves that is refused for the length of a buffer: no number, and all that it was lent as it was."""
    lent = {"heard": case.heard.hex() or "-"} | ({"sums": sums_word(case.sums)} if which == "run" else {})
    return dict.fromkeys(NAMES[which], "0") | lent | {"code": comparing.BUFFER_LENGTH}


def second_words(which, case, line, length):
    """The second program's words for the same call; it is lent no buffer of numbers, and only whole sums."""
    words = dict(zip(["code", *NAMES[which], "heard", "sums", "text"], line.split())) | {"around": "kept"}
    if length != NUMBERS_BYTES or has_half_a_sum(case):
        words |= refused_for_length(which, case)
    words["numbers"] = comparing.buffer_of(words["code"], [words[name] for name in NAMES[which]], length)
    return [words[name] for name in FIELDS[which]]


def compare(which, kind, cases, driver=DRIVER, length=NUMBERS_BYTES):
    """The answer to each case as a dictionary, once both programs agree on all and with what the cases say."""
    proved = comparing.answers(f"{which} {kind}", [driver, which, str(length)], cases)
    whole = [case._replace(sums=b"") if has_half_a_sum(case) else case for case in cases]
    second = comparing.answers(f"{which} {kind}", [SECOND, f"{which}-batch"], whole)
    ours = [proved_words(which, line) for line in proved]
    theirs = [second_words(which, case, line, length) for case, line in zip(cases, second)]
    return comparing.agreed(f"{which} {kind}", cases, FIELDS[which], ours, theirs)


@functools.cache
def compared(which, kind):
    make, count = run_cases.KINDS[which][kind]
    cases = make(count, random.Random(f"{SEED} {which} {kind}"))
    return list(zip(cases, compare(which, kind, cases)))


def some(which, each_has):
    """The first cases of each kind with their answers."""
    return [pair for kind in run_cases.KINDS[which] for pair in compared(which, kind)[:each_has]]


# ---- what the cases turned out to be


def step_labels(case, answer):
    movement = int(answer["movement"])
    yield "up" if movement > 0 else "down" if movement < 0 else "no movement"
    yield f"movement {movement}"
    if movement == 0 and answer["heard"] != case.heard.hex():
        yield "stored and not moved"


def run_labels(case, answer):
    steps, ups, downs, last, rounds = (int(answer[name]) for name in NUMBERS)
    text = bytes.fromhex(answer["text"]).decode()
    found = {
        f"{steps} steps": True,
        "ups and downs": ups and downs,
        "no change": steps and not last,
        "last change before the end": 0 < last < steps,
        "last change at the end": 0 < last == steps,
        "no round": steps and rounds == 0,
        "one round": rounds == 1,
        "many rounds": rounds > 9,
        "sum below 0": "-" in answer["sums"],
        "text with none": " none\n" in text,
        "text of twelve hops": any(len(line.split()) == 6 + 13 for line in text.splitlines()[1:]),
    }
    yield from (label for label, is_so in found.items() if is_so)


def labels(which, case, answer):
    yield "cases"
    if has_half_a_sum(case):
        yield "half a sum"
    if answer["code"] != "0":
        yield f"refused {int(answer['code']) % 256}"
    else:
        yield from (step_labels if which == "step" else run_labels)(case, answer)


# ---- the comparison


class Compared:
    """One test for each kind of case."""

    def held(self, kind):
        self.assertGreater(len(compared(self.which, kind)), 0)

    def test_the_mix_has_each_kind(self):
        pairs = [pair for kind in run_cases.KINDS[self.which] for pair in compared(self.which, kind)]
        found, mix = Counter(label for pair in pairs for label in labels(self.which, *pair)), MIX[self.which]
        said = ", ".join(f"{label}: {found[label]}" for label in mix)
        print(f"test_run: seed {SEED}, {self.which}, {said}", flush=True)
        self.assertEqual({label: found[label] for label in mix if found[label] < mix[label]}, {})

    def test_other_lengths_of_the_numbers(self):
        """Refusal 1 comes before any other, and nothing changes."""
        cases = [case._replace(says=run_cases.says(run_cases.BUFFER_LENGTH)) for case, _ in some(self.which, 3)]
        for length in LENGTHS[self.which]:
            with self.subTest(length=length):
                self.assertEqual(len(compare(self.which, f"numbers of {length}", cases, length=length)), len(cases))


class Steps(Compared, unittest.TestCase):
    which = "step"


class Runs(Compared, unittest.TestCase):
    which = "run"

    def test_other_text_lengths(self):
        for length in TEXT_LENGTHS:
            with self.subTest(length=length):
                words = [DRIVER, "run", str(NUMBERS_BYTES), str(length)]
                comparing.agreed_texts(f"text in {length} bytes", words, some("run", 3), length)

    def test_the_sum_in_a_text_is_the_standing(self):
        """From zeros nobody has a choice, so each vertex's sum of movements is its last standing."""
        lines = [line for _, answer in some("run", 99) for line in text_lines(answer)]
        self.assertGreater(len(lines), 1000)
        for words in lines:
            self.assertEqual(words[2], "0" if words[3] == "none" else str(17 - int(words[4])))


def text_lines(answer):
    """The words of each vertex's line in a text that is no refusal."""
    first, *lines = bytes.fromhex(answer["text"]).decode().splitlines()
    return [line.split() for line in lines if first.startswith("run ")]


test_samples.add_tests(Steps, run_cases.STEPS)
test_samples.add_tests(Runs, run_cases.RUNS)

if __name__ == "__main__":
    unittest.main()
