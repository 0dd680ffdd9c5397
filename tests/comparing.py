"""The proved code and the second program on the same cases: how both are built and run, and how the first difference
between their lines is named.

Cases come from a seed, which REEFSPLICE_SEED sets. The proved code is that of the C entries, and of the crate `probe`
for what no entry gives, linked into a small C program that takes a case per line and answers with a line, as the
second program does. What a case lends are its fields of bytes: a table, or what else its call takes beside one.
"""

import functools
import os
import subprocess
from itertools import zip_longest

import test_samples

ROOT = test_samples.ROOT
SECOND = test_samples.SECOND
BUILT = ROOT / ".build" / "probe"
SEED = os.environ.get("REEFSPLICE_SEED", "1")
ENDED = "ended with status 0"
LONGEST_RUN = 20  # seconds for one run over the cases of a kind, which takes less than one
NUMBER_BYTES, NUMBERS_BYTES = 4, 32
BUFFER_LENGTH = "1"  # the code of a refusal for the length of a lent buffer


def archive(crate):
    """Where `rt lib` writes a static library, from the root."""
    return f"crates/{crate}/out/lib{crate}.a"


def build(words, folder=ROOT):
    done = subprocess.run(words, cwd=folder, stdin=subprocess.DEVNULL, capture_output=True, text=True)
    if done.returncode != 0:
        raise RuntimeError(f"{words[0]} ended with status {done.returncode}: {(done.stdout + done.stderr)[-2000:]}")


@functools.cache
def build_libraries():
    """Once for all tests of a run, since rt looks at all that the crate stands on each time."""
    test_samples.setUpModule()
    build_entries()
    build_archive("probe")
    BUILT.mkdir(parents=True, exist_ok=True)


@functools.cache
def build_entries():
    build_archive("reefsplice")


def build_archive(crate):
    build(["rt", "lib"], ROOT / "crates" / crate)


def build_driver(place, *sources, flags=()):
    """A C program over the proved code."""
    build_libraries()
    files = [f"tests/{source}" for source in (*sources, "lines.c", "lent.c")]
    files += [archive(crate) for crate in ("reefsplice", "probe")]
    warnings = ["-std=c11", "-O2", "-Wall", "-Wextra", "-Werror"]
    build(["gcc", *warnings, "-Iinclude", *flags, *files, "-o", place])


def build_planted(place, driver, planted, wrapped):
    """The same driver with faults between it and the functions that are wrapped; the variable PLANT names one."""
    flags = "".join(f",--wrap={name}" for name in wrapped)
    build_driver(place, driver, planted, "planting.c", flags=[f"-Wl{flags}"])


def fields_of(case):
    return {name: value for name, value in case._asdict().items() if isinstance(value, bytes)}


def run(words, cases):
    """How a program ended, and its lines."""
    lines = "".join(" ".join(field.hex() for field in fields_of(case).values()) + "\n" for case in cases).encode()
    try:
        done = subprocess.run(words, input=lines, capture_output=True, timeout=LONGEST_RUN)
    except subprocess.TimeoutExpired:
        return "did not end", []
    return f"ended with status {done.returncode}", done.stdout.decode().splitlines()


def blame(kind, cases, number, reason):
    fields = ", ".join(f"{name} {field.hex()}" for name, field in fields_of(cases[number]).items())
    raise AssertionError(f"seed {SEED}, {kind}, case {number}: {reason}; {fields}")


def answers(kind, words, cases):
    """A program's line for each case; where it breaks off, each case alone shows at which."""
    end, lines = run(words, cases)
    if end != ENDED:
        for number, case in enumerate(cases):
            if run(words, [case])[0] != ENDED:
                blame(kind, cases, number, f"{words[0].name} {end}")
    if (end, len(lines)) != (ENDED, len(cases)):
        raise AssertionError(f"seed {SEED}, {kind}: {words[0].name} {end}, {len(lines)} lines")
    return lines


def agreed(kind, cases, fields, proved, second):
    """The answer to each case as a dictionary, once both programs' words agree on all and with what the cases say."""
    found = []
    for number, (case, ours, theirs) in enumerate(zip(cases, proved, second)):
        reason = difference(fields, ours, theirs)
        found.append(dict(zip(fields, ours)))
        if reason or not case.says.items() <= found[-1].items():
            blame(kind, cases, number, reason or f"both differ from what it was made for: {case.says}")
    return found


def agreed_texts(kind, words, pairs, length):
    """Holds the text in a buffer of that length to the front of the whole text, for cases with their answers."""
    cases = [case for case, _ in pairs]
    for number, ((_, answer), line) in enumerate(zip(pairs, answers(kind, words, cases))):
        found, expected = line.split()[-2:], [answer["text"][: 2 * length] or "-", "kept"]
        if found != expected:
            blame(kind, cases, number, f"{found} and not {expected}")


# ---- buffers of numbers


def marks(length):
    """A buffer that a driver lends marked, in hex, as it is before its first call."""
    return bytes((165 + 7 * at) % 256 for at in range(length)).hex() or "-"


def words_of(lent):
    """The numbers in lent bytes, four bytes each, low byte first."""
    chunks = [lent[at : at + NUMBER_BYTES] for at in range(0, len(lent), NUMBER_BYTES)]
    return [str(int.from_bytes(chunk, "little", signed=True)) for chunk in chunks]


def words_in(field):
    return words_of(bytes.fromhex(field.strip("-")))


def given(code, field, count):
    """The first numbers of a buffer; those of a refusal are 0, whatever the buffer holds."""
    return words_in(field)[:count] if code == "0" else ["0"] * count


def buffer_of(code, numbers, length):
    """The buffer of numbers after a call, as the rules page has it: the rest is 0, and a refusal leaves its marks."""
    laid = b"".join(int(number).to_bytes(NUMBER_BYTES, "little", signed=True) for number in numbers)
    return laid.ljust(NUMBERS_BYTES, b"\0").hex() if code == "0" else marks(length)


# ---- the first difference


def characters(word):
    return word


def numbers(word):
    return word.split(",")


def hex_bytes(word):
    return [word[at : at + 2] for at in range(0, len(word), 2)]


def difference(fields, ours, theirs):
    """The first field in which two lists of words differ and, in a long one, the first place; or nothing.

    `fields` gives for each name how its word is taken apart.
    """
    for name, one, other in zip_longest(fields, ours, theirs, fillvalue="nothing"):
        if one != other and max(len(one), len(other)) < 32:
            return f"{name} is {one} for the proved code and {other} for the second program"
        if one != other:
            apart = fields.get(name, characters)
            pairs = enumerate(zip_longest(apart(one), apart(other), fillvalue="nothing"))
            at, (mine, its) = next((at, pair) for at, pair in pairs if pair[0] != pair[1])
            return f"{name} at {at} is {mine} for the proved code and {its} for the second program"
    return None
