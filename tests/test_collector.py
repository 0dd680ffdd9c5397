"""The example collector, the header and the library as a C programmer gets them: the collector's stored outputs, its
answers on every sample and on runs that are cut off, the header by itself, and no error under a memory checker."""

import os
import re
import shlex
import shutil
import subprocess
import tempfile
import unittest
from pathlib import Path

import linking
import test_entries
import test_samples
from linking import BUILT, CHECKER, ROOT, WARNINGS
from test_samples import SAMPLES

EXAMPLES = ROOT / "examples"
HEADER = ROOT / "include" / "reefsplice.h"
SOURCES = ["examples/collector.c"]
# Beside a table that is refused, where the schedule makes no difference.
ANY_SCHEDULE = SAMPLES / "chain.case9.schedule"
STORED = sorted(path.name.removeprefix("collector.").removesuffix(".txt") for path in EXAMPLES.glob("collector.*.txt"))
GUARANTEE = re.compile(r"(\d+) after (\d+) rounds: (reached|not yet), now (as reported|otherwise)")
PAIRS_OF_DEEP = 125

# Worked out by hand: 2 comes to (2 0) and then (2 1 0), which 3 has not heard, and 3 to (3 2 0), which 2 has not heard.
AFTER_TABLE_5 = """\
run steps 6 ups 5 downs 0 last 6 rounds 1
1 sum 16 rank 1 path 1 0
2 sum 15 rank 2 path 2 1 0
3 sum 16 rank 1 path 3 2 0
guarantees, rounds answered: 1
1 after 2 rounds: not yet, now as reported
again pairs 6 changed 2 ups 0 downs 1: the state was not at rest
"""


def setUpModule():
    Collector.program = linking.build("collector", *SOURCES)
    test_entries.setUpModule()


def files_of(name):
    """The table and the schedule of a stored output, which has the name of a sample run or of a refused table."""
    table, schedule = test_samples.run_files(name)
    return table, schedule if schedule.exists() else ANY_SCHEDULE


class Collector(unittest.TestCase):
    """A folder for a table and a schedule, and the collector."""

    program = None

    def setUp(self):
        holder = tempfile.TemporaryDirectory()
        self.addCleanup(holder.cleanup)
        self.folder = Path(holder.name)

    def collected(self, table, schedule):
        """The status and what is said about a table and a schedule."""
        files = self.folder / "table", self.folder / "schedule"
        for path, content in zip(files, (table, schedule)):
            path.write_bytes(content)
        return linking.run(self.program, *files)


class Stored(unittest.TestCase):
    """One test for each stored output; a refused one ends with status 1."""

    def held(self, name):
        text = (EXAMPLES / f"collector.{name}.txt").read_text()
        status = 1 if re.search(r"^refused", text, re.MULTILINE) else 0
        self.assertEqual(linking.run(Collector.program, *files_of(name)), (status, text))
        self.assertEqual(linking.run(*CHECKER, Collector.program, *files_of(name)), (status, text))


class Samples(Collector):
    """The check and the run are told in the words of the two programs."""

    def test_every_table(self):
        for name in test_samples.named("table"):
            with self.subTest(name=name):
                text = (SAMPLES / f"{name}.txt").read_text()
                status, said = self.collected(test_samples.sample(f"{name}.table"), b"")
                self.assertTrue(said.startswith(text + ("collector: " if status == 1 else "run steps 0 ")), said)

    def test_every_schedule(self):
        for name in test_samples.named("schedule"):
            with self.subTest(name=name):
                check, run = ((SAMPLES / f"{part}.txt").read_text() for part in (name.partition(".")[0], name))
                said = linking.run(self.program, *test_samples.run_files(name))[1]
                self.assertTrue(said.startswith(check + run), said)

    def test_each_kind_is_stored(self):
        texts = [(EXAMPLES / f"collector.{name}.txt").read_text() for name in STORED]
        for words in ("verdict complete", "verdict stuck", "refused 9", "\nrefused 14", ": reached", ": not yet"):
            self.assertTrue(any(words in text for text in texts), words)

    def test_nothing(self):
        numbers = "steps 0 ups 0 downs 0 last 0 rounds 0"
        rest = "guarantees, rounds answered: 0\nagain pairs 0 changed 0 ups 0 downs 0: the state rests\n"
        text = f"verdict complete settled 0 stuck 0 stages 0 longest 0\nrun {numbers}\n{rest}"
        self.assertEqual(self.collected(b"", b""), (0, text))


class Guarantees(Collector):
    """The deep table has a router for each of 63 stages, and L is 2: after n rounds those up to n/2 are guaranteed."""

    def told(self, rounds):
        schedule = test_samples.sample("deep-63.downwards.schedule")[: 2 * PAIRS_OF_DEEP * rounds]
        status, said = self.collected(test_samples.sample("deep-63.table"), schedule)
        self.assertEqual((status, f"\nguarantees, rounds answered: {rounds}\n" in said), (0, True))
        return said, [match.groups() for match in map(GUARANTEE.fullmatch, said.splitlines()) if match]

    def test_runs_that_are_cut_off(self):
        for rounds in (0, 1, 2, 31, 125, 126):
            with self.subTest(rounds=rounds):
                told = self.told(rounds)[1]
                when = [(v, 2 * v, "reached" if 2 * v <= rounds else "not yet") for v in range(1, 64)]
                self.assertEqual([(int(v), int(enough), reached) for v, enough, reached, _ in told], when)
                self.assertNotIn(("reached", "otherwise"), [line[2:] for line in told])

    def test_before_it_is_guaranteed_a_router_can_be_elsewhere(self):
        self.assertIn(("not yet", "otherwise"), [line[2:] for line in self.told(1)[1]])

    def test_the_state_rests_at_the_end(self):
        for rounds, end in ((31, "was not at rest"), (126, "rests")):
            last = self.told(rounds)[0].splitlines()[-1]
            self.assertRegex(last, f"^again pairs {PAIRS_OF_DEEP} changed .*: the state {end}$")

    def test_a_settled_router_beside_stuck_ones(self):
        """Table 5: 1 hears 0, 2 hears 0 and 3, 3 hears 0 and 2; then 2 hears 1, which closes a round."""
        schedule = bytes([1, 0, 2, 0, 2, 3, 3, 0, 3, 2, 2, 1])
        said = self.collected(test_samples.sample("shortcut.table"), schedule)[1]
        self.assertEqual(said, test_samples.TABLE_5 + AFTER_TABLE_5)


class Wrong(Collector):
    def test_too_long(self):
        table, schedule = (test_samples.sample(name) for name in ("deep-63.table", "deep-63.downwards.schedule"))
        self.assertEqual(self.collected(bytes(16129), b"")[1].splitlines()[0], "refused 2")
        for more in (b"\x01", b"\x01\x00", bytes(1 << 20)):
            status, said = self.collected(table, schedule + more)
            self.assertEqual((status, said.splitlines()[-2:-1]), (1, ["refused 13"]))

    def test_only_the_words_go_to_standard_error(self):
        words = [self.program, *files_of("blocks-apart")]
        done = subprocess.run(words, capture_output=True, text=True)
        said = "collector: owner below the previous record's owner\n"
        self.assertEqual((done.returncode, done.stdout, done.stderr), (1, "refused 9 record 2\n", said))

    def test_a_wrong_call(self):
        table, schedule = test_samples.run_files("chain.case9")
        for words in ([], [table], [table, schedule, table]):
            self.assertEqual(linking.run(self.program, *words), (2, "usage: collector TABLE SCHEDULE\n"))

    def test_a_file_that_cannot_be_read(self):
        """One that is not there, and a folder, which opens and cannot be read."""
        table, schedule = test_samples.run_files("chain.case9")
        for bad in (self.folder / "none", self.folder):
            for words in ((bad, schedule), (table, bad)):
                status, said = linking.run(self.program, *words)
                self.assertEqual((status, said.startswith(f"{bad}: ")), (2, True))

    def test_an_output_that_cannot_be_written(self):
        with open("/dev/full", "w") as full:
            words = [self.program, *test_samples.run_files("chain.case9")]
            done = subprocess.run(words, stdout=full, stderr=subprocess.PIPE)
        self.assertEqual((done.returncode, done.stderr.startswith(b"collector: standard output: ")), (2, True))


class Header(unittest.TestCase):
    """The header alone, in C99 and C++11."""

    text = HEADER.read_text()
    calls = """
        #include "reefsplice.h"
        uint64_t checked(const uint8_t *table, uint8_t *rows, uint8_t *ring, uint8_t *numbers);
        uint64_t checked(const uint8_t *table, uint8_t *rows, uint8_t *ring, uint8_t *numbers)
        {
            return reefsplice_check(table, 0, rows, REEFSPLICE_ROWS_BYTES, ring, REEFSPLICE_RING_BYTES, numbers,
                                    REEFSPLICE_NUMBERS_BYTES);
        }
        """

    def compile(self, compiler, standard, name, text, *words):
        BUILT.mkdir(parents=True, exist_ok=True)
        (BUILT / name).write_text(text)
        flags = [f"-std={standard}", *WARNINGS, "-Wconversion", "-Wsign-conversion", "-Iinclude"]
        return linking.run(compiler, *flags, BUILT / name, *words)

    def test_in_c_and_in_cpp(self):
        for compiler, standard in (("gcc", "c99"), ("gcc", "c11"), ("g++", "c++11")):
            name = "header.c" if compiler == "gcc" else "header.cpp"
            self.assertEqual(self.compile(compiler, standard, name, self.calls, "-fsyntax-only"), (0, ""))

    def test_a_wrong_call_is_seen(self):
        for compiler, standard, name in (("gcc", "c99", "wrong.c"), ("g++", "c++11", "wrong.cpp")):
            wrong = self.calls.replace("rows, REEFSPLICE_ROWS_BYTES, ", "rows, ", 1)
            status, said = self.compile(compiler, standard, name, wrong, "-fsyntax-only")
            self.assertNotEqual(status, 0)
            self.assertIn("reefsplice_check", said)

    def test_cpp_links(self):
        """The names are those of C, so a C++ program finds them in the library."""
        main = "\nint main() { uint8_t b[1120] = {0}; return int(checked(b, b + 1, b + 1025, b + 1088)) + b[0]; }\n"
        words = [linking.LIBRARY, "-o", BUILT / "header"]
        self.assertEqual(self.compile("g++", "c++11", "header.cpp", self.calls + main, *words), (0, ""))
        self.assertEqual(linking.run(BUILT / "header"), (0, ""))

    def test_words_of_the_refusals(self):
        """What stands beside a refusal's number is what `reefsplice_words` says of it."""
        flat = re.sub(r"\s+", " ", self.text)
        beside = re.findall(r"REEFSPLICE_REFUSED_\w+ = (\d+),? /\* (.*?); place.*? \*/", flat)
        words = re.findall(r'"([^"]+)",', self.text[self.text.index("words[] = {") :])
        self.assertEqual(beside, [(str(number), said) for number, said in enumerate(words[1:], start=1)])
        self.assertEqual((len(beside), words[0]), (14, "accepted"))

    def test_helpers(self):
        self.assertEqual(linking.run(linking.build("header_helpers", "tests/header_helpers.c")), (0, "0 failed\n"))


# Stands in for rt where the library is built already, since a second proof of it would tell nothing new.
RT = """#!/bin/sh
[ "$* in ${PWD##*/}" = "lib in reefsplice" ] && mkdir -p out && cp '%s' out/
"""


class Linking(Collector):
    """The front in a folder of its own, whose name has a space."""

    def setUp(self):
        super().setUp()
        self.home, tools = self.folder / "a home", self.folder / "tools"
        for folder in ("include", "examples"):
            shutil.copytree(ROOT / folder, self.home / folder)
        shutil.copy(ROOT / "reefsplice", self.home)
        (self.home / "crates" / "reefsplice").mkdir(parents=True)
        (self.home / "crates.txt").write_text("")
        tools.mkdir()
        (tools / "rt").write_text(RT % (ROOT / linking.LIBRARY))
        (tools / "rt").chmod(0o755)
        self.path = f"{tools}:{os.environ['PATH']}"

    def test_the_front_tells_how_to_link(self):
        """The line that `lib` prints is run as it stands, in another folder."""
        how = {"env": os.environ | {"PATH": self.path}, "capture_output": True, "text": True, "check": True}
        front = subprocess.run([self.home / "reefsplice", "lib"], **how)
        told = dict(line.split(" ", 1) for line in front.stdout.splitlines())
        self.assertEqual(Path(told["header"]).read_text(), HEADER.read_text())
        self.assertEqual(Path(told["library"]).read_bytes(), (ROOT / linking.LIBRARY).read_bytes())
        subprocess.run(shlex.split(told["link"]), cwd=self.folder, check=True)
        stored = (EXAMPLES / "collector.chain.case9.txt").read_text()
        self.assertEqual(linking.run(self.folder / "collector", *files_of("chain.case9")), (0, stored))


class Checked(unittest.TestCase):
    """Under the memory checker; the stored outputs are, too."""

    def test_entries(self):
        status, said = linking.run(*CHECKER, test_entries.Entries.program)
        self.assertEqual((status, said.splitlines()[-1].endswith(" passed, 0 failed"), "==" in said), (0, True, False))

    def test_a_read_past_the_end_is_found(self):
        """Each buffer is one byte longer for the entry than in memory."""
        old, new = "uint8_t *all = malloc(whole);", "uint8_t *all = malloc(whole == 0 ? 0 : whole - 1);"
        program = linking.build_planted("entries_past", test_entries.SOURCES, old, new)
        status, said = linking.run(*CHECKER, program)
        self.assertEqual(status, 9)
        readers = set(re.findall(r"Invalid read of size \d+\n==\d+== +at \w+: (\S+)", said))
        self.assertTrue(readers & linking.functions(), readers)

    def test_lost_memory_is_found(self):
        program = linking.build_planted("entries_lost", test_entries.SOURCES, "free(tried.all[i]);", "")
        self.assertEqual(linking.run(*CHECKER, program)[0], 9)


test_samples.add_tests(Stored, STORED)

if __name__ == "__main__":
    unittest.main()
