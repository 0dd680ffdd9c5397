"""The front: its help, its demo, and that it proves each program and the library once for given sources and never uses
an old one."""

import os
import shutil
import subprocess
import tempfile
import time
import unittest
from pathlib import Path

import test_program
import test_samples

FRONT = test_program.FRONT
# A second run starts at once: the quickest of some, since the machine may be busy.
RUNS, SECONDS = 5, 0.1


def setUpModule():
    test_program.build_program("check")
    test_program.build_program("run", *test_samples.run_files("chain.case9"))


def front(*words, table=b"", path=FRONT, **how):
    done = subprocess.run([path, *words], input=table, capture_output=True, **how)
    return done.returncode, done.stdout.decode(), done.stderr.decode()


class Front(unittest.TestCase):
    table = test_samples.sample("shortcut.table")

    def test_help_without_a_subcommand(self):
        status, out, said = front()
        self.assertEqual((status, said), (0, ""))
        self.assertTrue(out.startswith("usage: ./reefsplice COMMAND\n"))
        commands = ["check < TABLE", "run TABLE SCHEDULE", "published", "demo", "lib"]
        for command in (*commands, "second-check < TABLE", "second-run TABLE SCHEDULE", "help"):
            self.assertIn(f"\n  {command} ", out)
        self.assertEqual(front("help"), (0, out, ""))

    def test_an_unknown_subcommand(self):
        self.assertEqual(front("chekc"), (2, "", front("help")[1]))

    def test_check_prints_the_text_alone(self):
        self.assertEqual(front("check", table=self.table), (0, test_samples.TABLE_5, ""))

    def test_a_second_run_starts_at_once(self):
        took = []
        for _ in range(RUNS):
            began = time.monotonic()
            front("check", table=self.table)
            took.append(time.monotonic() - began)
        self.assertLess(min(took), SECONDS)

    def test_from_any_folder_and_through_a_link(self):
        with tempfile.TemporaryDirectory() as folder:
            link = Path(folder) / "link"
            link.symlink_to(FRONT)
            found = front("check", table=self.table, path=link, cwd=folder)
        self.assertEqual(found, (0, test_samples.TABLE_5, ""))

    def test_demo_prints_every_sample(self):
        expected = "Printed by the proved programs:\n"
        for ending in ("table", "schedule"):
            for path in sorted(test_samples.SAMPLES.glob(f"*.{ending}"), key=lambda path: path.name):
                expected += f"\n{path.stem}\n{path.with_suffix('.txt').read_text()}"
        self.assertEqual(front("demo", env=os.environ | {"LC_ALL": "C"}), (0, expected, ""))


# Stands in for rt in a crate's folder: it proves nothing, reads all that it is given, and makes a program that prints the
# source, its arguments and its input, and a library that is the source; a source that says `wrong` is not proved. As rt does,
# it says all on standard error under `run`, and then the program prints: what is stored, or under a source that says `other`
# something else.
RT = """#!/bin/sh
source=../a/src/lib.rt name=${PWD##*/}
[ "$1" = run ] || exec 3>&1
[ "$1" != run ] || exec 3>&2
echo "rt $* in $name: $(cat)" >&3
mkdir -p out
! grep -q wrong "$source" || exit 1
cp "$source" "out/lib$name.a"
printf '#!/bin/sh\\necho %s "$@"\\ncat\\n' "$(cat "$source")" >"out/$name"
chmod +x "out/$name"
[ "$1" = run ] || exit 0
! grep -q other "$source" || exec echo other
cat stdout
"""


# What rt is called for: its words, the crate, and what it is given; the stored case of a program.
MADE = {
    "check": "run -- in check_program: a table",
    "run": "run -- data/table another word in run_program: ",
    "lib": "lib in reefsplice: ",
}


class Building(unittest.TestCase):
    """The front in a folder of its own, with a stand-in for rt."""

    def setUp(self):
        holder = tempfile.TemporaryDirectory()
        self.addCleanup(holder.cleanup)
        self.home = Path(holder.name) / "home with a space"
        self.source = self.home / "crates/a/src/lib.rt"
        self.source.parent.mkdir(parents=True)
        (self.home / "crates.txt").write_text("a:\n")
        stored = {"check_program/stdin": "a table", "check_program/stdout": "a check\n", "reefsplice/src/lib.rt": ""}
        stored |= {"run_program/args": "table\nanother word\n", "run_program/data/table": "a table"}
        stored |= {"run_program/stdout": "a run\n"}
        for name, text in stored.items():
            (self.home / "crates" / name).parent.mkdir(parents=True, exist_ok=True)
            (self.home / "crates" / name).write_text(text)
        shutil.copy(FRONT, self.home)
        self.tools = self.home.parent / "tools"
        self.tools.mkdir()
        (self.tools / "rt").write_text(RT)
        (self.tools / "rt").chmod(0o755)

    def call(self, *words, source=None, tools=True):
        """Gives the status, the text, and whether rt was called for it; what it says is kept, and shown where it fails."""
        if source:
            self.source.write_text(source)
        path = f"{self.tools}:{os.environ['PATH']}" if tools else os.defpath
        how = {"path": self.home / "reefsplice", "env": os.environ | {"PATH": path}}
        status, out, said = front(*words, table=b"input\n", **how)
        log = self.home / ".build" / words[0] / "log"
        told = log.read_text() if "reefsplice: proving and building" in said else ""
        self.assertEqual(told != "" and told in said, status == 1)
        return status, out, f"\nrt {MADE[words[0]]}\n" in f"\n{told}"

    def check(self, source=None, tools=True):
        return self.call("check", source=source, tools=tools)

    def test_built_once(self):
        self.assertEqual(self.check("one"), (0, "one\ninput\n", True))
        self.assertEqual(self.check(), (0, "one\ninput\n", False))
        self.assertEqual(self.check(tools=False), (0, "one\ninput\n", False))

    def test_built_again_where_a_source_changed(self):
        self.check("one")
        self.assertEqual(self.check("two"), (0, "two\ninput\n", True))
        self.assertEqual(self.check(), (0, "two\ninput\n", False))

    def test_an_old_time_hides_no_change(self):
        self.check("one")
        self.source.write_text("two")
        os.utime(self.source, (0, 0))
        self.assertEqual(self.check(), (0, "two\ninput\n", True))

    def test_built_again_where_a_file_came_went_or_was_renamed(self):
        self.check("one")
        other = self.source.with_name("other.rt")
        for change in (
            lambda: other.write_text("x"),
            lambda: other.rename(other.with_name("third.rt")),
            lambda: other.with_name("third.rt").unlink(),
            lambda: (self.home / "crates.txt").write_text("a:\nb:\n"),
            lambda: shutil.rmtree(self.home / ".build"),
        ):
            change()
            self.assertEqual(self.check(), (0, "one\ninput\n", True))
            self.assertEqual(self.check(), (0, "one\ninput\n", False))

    def test_not_proved(self):
        self.check("one")
        for _ in range(2):
            self.assertEqual(self.check("wrong"), (1, "", True))
        self.assertEqual(self.check("one"), (0, "one\ninput\n", True))

    def test_a_stored_run_that_prints_something_else(self):
        for _ in range(2):
            self.assertEqual(self.check("other"), (1, "", True))
        self.assertEqual(self.check("one"), (0, "one\ninput\n", True))

    def test_what_rt_made_is_no_source(self):
        """A folder of that name that stands deeper is one."""
        self.check("one")
        for folder, is_source in (("out", False), ("proofs/out", True)):
            made = self.home / "crates" / "a" / folder / "made"
            made.parent.mkdir(parents=True)
            made.write_text("x")
            self.assertEqual(self.check(), (0, "one\ninput\n", is_source), folder)

    def test_each_program_is_built_by_itself(self):
        run = ["run", "a table", "-n"]
        self.assertEqual(self.check("one"), (0, "one\ninput\n", True))
        self.assertEqual(self.call(*run), (0, "one a table -n\ninput\n", True))
        self.assertEqual(self.call(*run, source="two"), (0, "two a table -n\ninput\n", True))
        self.assertEqual(self.check(), (0, "two\ninput\n", True))
        self.assertEqual(self.call(*run, tools=False), (0, "two a table -n\ninput\n", False))

    def test_the_library_is_built_once(self):
        library = self.home / ".build/lib/libreefsplice.a"
        for source, tools, is_built in (("one", True, True), (None, False, False), ("two", True, True)):
            status, out, built = self.call("lib", source=source, tools=tools)
            self.assertEqual((status, built), (0, is_built))
            self.assertEqual(library.read_text(), self.source.read_text())
        header, link = f"{self.home}/include/reefsplice.h", f'gcc -I"{self.home}/include" '
        self.assertEqual([line.split()[0] for line in out.splitlines()], ["library", "header", "link"])
        for words in (f"library {library}\n", f"header {header}\n", f"link {link}", f' "{library}" -o collector\n'):
            self.assertIn(words, out)

    def test_a_library_that_is_not_proved_goes(self):
        self.call("lib", source="one")
        self.assertEqual(self.call("lib", source="wrong"), (1, "", True))
        self.assertFalse((self.home / ".build/lib/libreefsplice.a").exists())

    def test_a_missing_argument_builds_nothing(self):
        self.assertEqual(self.call("run", "table", source="one"), (2, "", False))

    def test_says_what_failed(self):
        self.source.write_text("wrong")
        environment = os.environ | {"PATH": f"{self.tools}:{os.environ['PATH']}"}
        named = {"check": "check program", "demo": "check program", "run": "run program", "lib": "library"}
        for words in (["check"], ["demo"], ["run", "table", "schedule"], ["lib"]):
            status, out, said = front(*words, path=self.home / "reefsplice", env=environment)
            self.assertEqual((status, out), (1, ""))
            self.assertIn(f"\nreefsplice: the {named[words[0]]} is not proved", said)

    def test_without_rt(self):
        self.assertEqual(self.check("one", tools=False), (1, "", False))


if __name__ == "__main__":
    unittest.main()
