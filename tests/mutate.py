#!/usr/bin/env python3
"""Changes one small place of a definition at a time and sees whether a worked example notices.

    tests/mutate.py                         every change
    tests/mutate.py --sample 60 --seed 1    some of them
    tests/mutate.py --only Greedy.antt:judged
    tests/mutate.py --name Greedy.antt:87:true-false-exchanged:1

The definitions are those of crates/rules and of three files of crates/lists; the examples are the files *Examples.antt
of crates/rules and their theorems in its proofs/. No law is looked at. Each change is checked in a scratch repository
outside of this one.
docs/TESTING.md says what the results mean.
"""

import argparse
import difflib
import math
import os
import random
import re
import resource
import shutil
import signal
import subprocess
import sys
import tempfile
import time
from concurrent.futures import ThreadPoolExecutor
from pathlib import Path
from queue import Queue
from typing import NamedTuple

import changes

ROOT = Path(__file__).resolve().parent.parent
SAME = Path(__file__).resolve().parent / "mutants_same.txt"
# The files of crates/lists that have definitions; the rest of that crate are laws, which are no examples.
LISTS = ("Search.antt", "Fill.antt", "Fold.antt")
CRATES = ("lists", "rules")
# The code of a crate that has only definitions.
EMPTY = "// Definitions.\n#![tactic(auto)]\n"
# How many example files are checked first.
FIRST_FILES = 3
USED = re.compile(r"^use Rattle\.\S+\.(?:specs|proofs)\.(\w+)", re.MULTILINE)
# A check may need so many times what the unchanged one needs of the processor, and at least so many seconds of it,
# however busy the machine is; and so many seconds by the clock.
TIMES = 5
CPU_SECONDS = 15
CLOCK_SECONDS = 300
ERROR = re.compile(r"^(\S+\.antt):\d+:\d+: error: .*$", re.MULTILINE)

NOTICED, SURVIVED, ILL_FORMED, SLOW, KNOWN = "noticed", "survived", "ill-formed", "slow", "known the same"


class Result(NamedTuple):
    change: changes.Change
    status: str
    error: str  # the checker's first error
    seconds: float


class Broken(Exception):
    """The tool cannot say anything about the definitions."""


# ---- the scratch repository


def is_example(path):
    """Whether a file of `rules` is one of the worked examples: a list of them, or theorems about such a list."""
    return path.name.endswith("Examples.antt") or "proofs" in path.parts


def sources(root):
    """The text of each definition file by its name, in the order in which they are changed."""
    lists = [root / "crates" / "lists" / "specs" / name for name in LISTS]
    rules = sorted((root / "crates" / "rules" / "specs").glob("*.antt"))
    paths = [*lists, *(path for path in rules if path.name != "Lib.antt" and not is_example(path))]
    return {path.name: path.read_text(encoding="utf-8") for path in paths}


def lay_out(root, folder):
    """Copies the definitions and the examples into a folder that is a repository of its own."""
    source, specs = folder / "crates" / "lists" / "src", folder / "crates" / "lists" / "specs"
    source.mkdir(parents=True)
    # Of `lists` the definitions alone, without the functions that speak of its laws.
    (source / "lib.rt").write_text(EMPTY, encoding="utf-8")
    specs.mkdir()
    for name in LISTS:
        shutil.copy(root / "crates" / "lists" / "specs" / name, specs)
    (specs / "Lib.antt").write_text("".join(f"pub mod {Path(name).stem}\n" for name in LISTS), encoding="utf-8")
    for part in ("src", "specs", "proofs"):
        if (root / "crates" / "rules" / part).is_dir():
            shutil.copytree(root / "crates" / "rules" / part, folder / "crates" / "rules" / part)
    (folder / "crates.txt").write_text("lists:\nrules: lists\n", encoding="utf-8")


def run(folder, seconds):
    """Checks a scratch repository within the limits; gives the exit status, none by the clock, and the output."""
    # One process for each check, since a check for each processor runs at a time.
    limited = ["sh", "-c", f'ulimit -t {seconds}; exec "$@"', "sh", "rt", "check", "--jobs", "1"]
    with tempfile.TemporaryFile() as out:
        process = subprocess.Popen(
            limited,
            cwd=folder / "crates" / "rules",
            stdin=subprocess.DEVNULL,
            stdout=out,
            stderr=out,
            start_new_session=True,
        )
        try:
            status = process.wait(CLOCK_SECONDS)
        except subprocess.TimeoutExpired:
            status = None
        finally:
            if process.poll() is None:
                os.killpg(process.pid, signal.SIGKILL)
                process.wait()
        out.seek(0)
        return status, out.read().decode("utf-8", errors="replace")


def processor_seconds():
    """What all ended checks have needed so far."""
    used = resource.getrusage(resource.RUSAGE_CHILDREN)
    return used.ru_utime + used.ru_stime


def judge(status, output):
    """The class of a check by its status and output, and its first error."""
    errors = [(Path(found[1]), found[0]) for found in ERROR.finditer(output)]
    if status == 0:
        return SURVIVED, ""
    if status == 1 and errors:
        bad = [line for path, line in errors if not is_example(path)]
        return (ILL_FORMED, bad[0]) if bad else (NOTICED, errors[0][1])
    # Stopped at a limit or by a signal, or the prover could not tell: the gate would not take it, so it is no survivor.
    if status is None or status == 3 or not 0 <= status <= 128:
        return SLOW, f"status {status}"
    raise Broken(f"a check ended with status {status} and without the place of an error:\n{output}")


class Examples:
    """The example files of a scratch repository, and which of them a change of a file can make fail. The examples of a
    file and the theorems about them, in the file of its name in `proofs`, go together."""

    def __init__(self, folder):
        rules = folder / "crates" / "rules"
        paths = [path for part in ("specs", "proofs") for path in folder.glob(f"crates/*/{part}/*.antt")]
        texts = {path: path.read_text(encoding="utf-8") for path in paths if path.name != "Lib.antt"}
        self.uses = {path.stem: set() for path in texts}
        for path, text in texts.items():
            self.uses[path.stem] |= {*USED.findall(text)} - {path.stem}
        self.libs = {path: path.read_text(encoding="utf-8") for path in rules.glob("*/Lib.antt")}
        self.lib = self.libs[rules / "specs" / "Lib.antt"]
        self.texts = {}
        for path, text in texts.items():
            if is_example(Path(path.name)):
                self.texts.setdefault(path.stem, {})[path] = text

    def reach(self, stem):
        """The files that a file rests on, with itself."""
        found, open_ = set(), [stem]
        while open_:
            one = open_.pop()
            if one not in found:
                found.add(one)
                open_ += self.uses.get(one, ())
        return found

    def stages(self, file):
        """The example files to check after a change, a few at first, since most changes are noticed early and a whole
        check is slow; at last all that rest on the changed file. A file without a proof notices nothing."""
        able = [stem for stem, texts in self.texts.items() if any(re.search(r"\brefl\b", text) for text in texts.values())]
        reach = {stem: self.reach(stem) for stem in able}
        able = sorted((len(reach[stem]), stem) for stem in reach if Path(file).stem in reach[stem])
        for size in sorted({min(FIRST_FILES, len(able)), len(able)}):
            yield {one for _, stem in able[:size] for one in reach[stem] if one in self.texts}

    def show(self, shown):
        """Leaves the given example files in the repository, and no other."""
        for stem, texts in self.texts.items():
            for path, text in texts.items():
                if stem in shown:
                    path.write_text(text, encoding="utf-8")
                else:
                    path.unlink(missing_ok=True)
        hidden = "|".join(stem for stem in self.texts if stem not in shown)
        for path, text in self.libs.items():
            left = re.sub(rf"^(?:pub )?mod (?:{hidden})$", "", text, flags=re.MULTILINE) if hidden else text
            path.write_text(left, encoding="utf-8")


class Scratch:
    """A scratch repository; every check begins from what the unchanged definitions left."""

    def __init__(self, folder, kept, seconds=CLOCK_SECONDS):
        self.folder, self.kept, self.seconds = folder, kept, seconds
        self.examples = Examples(folder)

    def path(self, file):
        return self.folder / "crates" / ("lists" if file in LISTS else "rules") / "specs" / file

    def prepare(self):
        """Proves the unchanged definitions, and keeps what that leaves; the time it needs is the measure for others."""
        before = processor_seconds()
        status, output = run(self.folder, self.seconds)
        if status != 0:
            raise Broken(f"the unchanged definitions are not proved:\n{output}")
        self.seconds = max(CPU_SECONDS, math.ceil(TIMES * (processor_seconds() - before)))
        for crate in CRATES:
            (self.folder / "crates" / crate / "out").rename(self.kept / crate)

    def again(self):
        for crate in CRATES:
            out = self.folder / "crates" / crate / "out"
            shutil.rmtree(out, ignore_errors=True)
            shutil.copytree(self.kept / crate, out)

    def check(self, change):
        path, start = self.path(change.file), time.monotonic()
        unchanged = path.read_bytes()
        path.write_text(change.text, encoding="utf-8")
        try:
            self.again()
            for shown in self.examples.stages(change.file):
                self.examples.show(shown)
                status, error = judge(*run(self.folder, self.seconds))
                if status != SURVIVED:
                    break
        finally:
            path.write_bytes(unchanged)
        return Result(change, status, error.replace(f"{self.folder}/", ""), time.monotonic() - start)


def check_all(root, chosen, jobs, tell):
    """The results in the order of the changes; each worker has a scratch repository of its own."""
    with tempfile.TemporaryDirectory(prefix="mutants") as holder:
        kept = Path(holder) / "kept"
        kept.mkdir()
        lay_out(root, Path(holder) / "0")
        first = Scratch(Path(holder) / "0", kept)
        first.prepare()
        free = Queue()
        free.put(first)
        for k in range(1, jobs):
            shutil.copytree(first.folder, Path(holder) / str(k))
            free.put(Scratch(Path(holder) / str(k), kept, first.seconds))

        def one(change):
            scratch = free.get()
            try:
                return scratch.check(change)
            finally:
                free.put(scratch)

        with ThreadPoolExecutor(jobs) as pool:
            return told(pool, pool.map(one, chosen), tell)


def told(pool, coming, tell):
    """All results, each told as it comes; where one breaks off, the others are not begun."""
    results = []
    try:
        for result in coming:
            tell(result)
            results.append(result)
    except BaseException:
        pool.shutdown(cancel_futures=True)
        raise
    return results


# ---- what is known to be the same


class Same(NamedTuple):
    definition: str
    old: str
    new: str
    line: int

    def matches(self, change):
        if self.definition != full_name(change) or change.before.count(self.old) != 1:
            return False
        return change.before.replace(self.old, self.new) == change.after


def full_name(change):
    return f"{change.file.removesuffix('.antt')}.{change.definition}"


def read_same(text):
    """Entries such as `Table.rank_of: get_or r 0 0 => get_or r 0 1 # why`, one to a line."""
    entries = []
    for number, line in enumerate(text.splitlines(), 1):
        if line.strip() and not line.startswith("#"):
            entry = re.fullmatch(r"(\w+\.\S+): (.+?) => (.*?) # (.+)", line)
            if not entry:
                raise Broken(f"{SAME.name}:{number}: not of the form FILE.DEFINITION: OLD => NEW # REASON")
            entries.append(Same(entry[1], entry[2], entry[3], number))
    return entries


def known_same(entries, candidates):
    """The names of the changes that the entries name; each entry has to name one."""
    names = set()
    for entry in entries:
        found = {change.name for change in candidates if entry.matches(change)}
        if not found:
            raise Broken(f"{SAME.name}:{entry.line}: no change of {entry.definition} is of this form any more")
        names |= found
    return names


def fragments(before, after):
    """The least part of a definition in whole words that is there once and holds a change; and what it becomes."""
    front = len(os.path.commonprefix([before, after]))
    back = len(os.path.commonprefix([before[front:][::-1], after[front:][::-1]]))
    end = len(before) - back
    while True:
        front = before.rfind(" ", 0, front) + 1
        end = len(before) if before.find(" ", end) < 0 else before.find(" ", end)
        old = before[front:end]
        if before.count(old) == 1:
            return old, after[front : len(after) - (len(before) - end)]
        front, end = max(front - 1, 0), min(end + 1, len(before))


# ---- the command line


def show(result):
    """A survivor as a line, in the form that the file of known changes has."""
    change = result.change
    old, new = fragments(change.before, change.after)
    return f"{change.name}: {full_name(change)}: {old} => {new}"


def summary(results, known):
    """The lines at the end, and whether the examples notice all that they should."""
    named = [result.change.name in known for result in results]
    statuses = [KNOWN if same and result.status == SURVIVED else result.status for result, same in zip(results, named)]
    counts = {status: statuses.count(status) for status in (NOTICED, SURVIVED, ILL_FORMED, SLOW, KNOWN)}
    lines = [f"survived: {show(result)}" for result, status in zip(results, statuses) if status == SURVIVED]
    lines += [f"slow: {show(result)} ({result.error})" for result in results if result.status == SLOW]
    lines += [
        f"noticed, and yet in {SAME.name}: {show(result)}"
        for result, same in zip(results, named)
        if same and result.status != SURVIVED
    ]
    lines.append(
        f"{len(results)} changes: {counts[NOTICED] + counts[SLOW]} noticed, {counts[SURVIVED]} survived,"
        f" {counts[ILL_FORMED]} ill-formed, {counts[KNOWN]} known the same"
    )
    return lines, not counts[SURVIVED]


def chosen_by(options, candidates):
    if options.name:
        candidates = [change for change in candidates if change.name == options.name]
    if options.only:
        file, _, definition = options.only.partition(":")
        names = {file, f"{file}.antt"}
        candidates = [change for change in candidates if change.file in names and definition in {"", change.definition}]
    if options.kind:
        candidates = [change for change in candidates if change.kind in options.kind]
    if options.sample is not None and options.sample < len(candidates):
        taken = set(random.Random(options.seed).sample(range(len(candidates)), options.sample))
        candidates = [change for k, change in enumerate(candidates) if k in taken]
    if not candidates:
        raise Broken("no change is of that name")
    return candidates


def difference(change, root):
    old = sources(root)[change.file]
    lines = difflib.unified_diff(old.splitlines(), change.text.splitlines(), change.file, change.file, n=0, lineterm="")
    return "\n".join(lines)


def read_options(words):
    parser = argparse.ArgumentParser(description=__doc__, formatter_class=argparse.RawDescriptionHelpFormatter)
    parser.add_argument("--sample", type=int, help="try so many of the changes")
    parser.add_argument("--seed", type=int, default=1, help="which ones")
    parser.add_argument("--only", metavar="FILE[:DEFINITION]")
    parser.add_argument("--kind", nargs="+", choices=changes.KINDS, metavar="KIND", help="of these kinds alone")
    parser.add_argument("--name", help="one change: print its difference and the first error")
    parser.add_argument("--list", action="store_true", help="print the changes and try none")
    parser.add_argument("--jobs", type=int, default=os.cpu_count() or 1)
    parser.add_argument("--verbose", action="store_true", help="print each result as it comes")
    return parser.parse_args(words)


def work(options, root=ROOT):
    candidates = list(changes.World(sources(root)).changes())
    known = known_same(read_same(SAME.read_text(encoding="utf-8")), candidates)
    chosen = chosen_by(options, candidates)
    if options.list:
        for change in chosen:
            print(show(Result(change, "", "", 0)))
        print(f"{len(chosen)} changes")
        return True
    if options.sample is not None:
        print(f"seed {options.seed}")

    def tell(result):
        if options.name:
            print(difference(result.change, root))
        if options.verbose or options.name:
            print(f"{result.status} {result.seconds:.1f} s {show(result)}\n    {result.error[:200]}", flush=True)

    lines, well = summary(check_all(root, chosen, options.jobs, tell), known)
    print("\n".join(lines))
    return well


def main():
    # So that the scratch folder goes, whoever ends this.
    signal.signal(signal.SIGTERM, lambda *_: sys.exit(143))
    try:
        return 0 if work(read_options(sys.argv[1:])) else 1
    except Broken as problem:
        print(f"mutate: {problem}", file=sys.stderr)
        return 2


if __name__ == "__main__":
    sys.exit(main())
