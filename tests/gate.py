"""The parts of the gate and how each is judged; `.ci/run` runs this file.

A part gives how many of its tests passed and one line for each that failed. The whole output of each part's command
is kept in .build/log/.
"""

import os
import re
import shutil
import subprocess
import sys
import time
import unittest
from functools import partial
from pathlib import Path
from typing import NamedTuple

ROOT = Path(__file__).resolve().parent.parent
LOGS = ROOT / ".build" / "log"
COUNTS = re.compile(r"(\d+) passed, (\d+) failed")
# How the prover names what fails: at a proof file, and at a function that has none.
COMPLAINT = re.compile(r"\berror[:\[]|it is not proved that")
# What the prover says where an edit only made the proof file unfit for the code, so that no fact was tried.
MISFITS = (
    "has no `",
    "` has no field `",
    "is not in scope",
    "was not admitted",
    "a dimension (`0`, `1` or an interval variable) is expected here",
)
# What rt ci says of an edit, and where the first error that shows a fact stands. After "refused, as it must be" it has a
# reason in brackets where no fact was shown.
EDIT = re.compile(r"^rt: must-fail (\S+)\.edit: (.*)$")
REFUSED = "refused, as it must be: "
# Where an example of the rules stands.
EXAMPLE = re.compile(r"(?:\./)?(?:specs|proofs)/\w*Examples\.antt:\d+:\d+: ")
# On the line of a run that passed.
BAD_EDITS = re.compile(r", \d+ bad\b")
LONGEST_LINE = 300


class Counts(NamedTuple):
    passed: int
    failures: list  # one line for each failed test
    hints: tuple = ()  # lines of the log that help to find the cause

    def plus(self, other):
        return Counts(self.passed + other.passed, self.failures + other.failures)

    def __str__(self):
        return f"{self.passed} passed, {len(self.failures)} failed"


def run(log, words):
    """Runs a command with its output in a log file; gives its exit status and its output."""
    path = LOGS / f"{log}.log"
    with path.open("w") as out:
        status = subprocess.run(words, cwd=ROOT, stdin=subprocess.DEVNULL, stdout=out, stderr=out).returncode
    return status, path.read_text(encoding="utf-8", errors="replace")


# ---- the tools

# What the tests need beside rt, gcc, cargo and python3; each is a Debian package of the same name.
TOOLS = ("valgrind", "g++")


def missing_tools():
    return [tool for tool in TOOLS if shutil.which(tool) is None]


def install_tools():
    """Installs what is missing; the lists of packages are fetched only where it cannot be done without."""
    missing, said = missing_tools(), ""
    if missing:
        options = ["--yes", "--no-install-recommends"]
        install = ["env", "DEBIAN_FRONTEND=noninteractive", "apt-get", "install", *options, *missing]
        status, said = run("tools", install)
        if status != 0:
            run("tools-update", ["env", "apt-get", "update"])
            said = run("tools", install)[1]
    return judge_tools(missing_tools(), said)


def judge_tools(missing, said):
    """One test for each tool; apt-get's last line tells why one could not be installed."""
    why = (said.splitlines() or ["nothing"])[-1]
    failures = [f"tools: {tool} is not there, and apt-get cannot install it; its last line: {why}" for tool in missing]
    return Counts(len(TOOLS) - len(missing), failures)


# ---- rt ci, the must-fail edits and the public contracts

# A name on the line of failures: a crate, one's tests or its run, or a must-fail edit.
FAILED = re.compile(r"\S+(?: \((?:tests|run)\))?")


def run_rt_ci():
    """Proves and tries all of this checkout, as it stands, and holds what is said to what is asked."""
    status, text = run("rt-ci", ["rt", "ci"])
    return judge_rt_ci(status, text)


def judge_rt_ci(status, text):
    """Takes the counts of rt's own last line; whatever its counts, it fails with a status other than 0, without the line of
    a run that passed, and where that line counts an edit that is bad."""
    lines = text.splitlines()
    counts = COUNTS.fullmatch(lines[-1]) if lines else None
    passed, failed = map(int, counts.groups()) if counts else (0, 0)
    told = [line.removeprefix("rt: FAILED:") for line in lines if line.startswith("rt: FAILED:")]
    names = [name for line in told for name in FAILED.findall(line)]
    failures = [f"rt ci: {rt_reason(name, lines)}" for name in names]
    failures += [f"rt ci: a failure that it does not name; {last_words(lines)}"] * (failed - len(failures))
    if (status != 0 or not counts) and not failures:
        failures = [f"rt ci: it ended with status {status} and the line: {lines[-1] if lines else ''}"]
    well = [line for line in lines if line.startswith("rt: ok")]
    if not well and not failures:
        failures = ["rt ci: it has no line `rt: ok`"]
    failures += [f"rt ci: bad must-fail edits: {line}" for line in well if BAD_EDITS.search(line)]
    complaints = tuple(line for line in lines if COMPLAINT.search(line) and not line.startswith("rt: must-fail "))
    return Counts(passed, failures, complaints[:5] if failures else ())


def last_words(lines):
    """What rt said last, but for its counts."""
    return next((line.removeprefix("rt: ") for line in reversed(lines) if line.startswith("rt: ")), "it said nothing")


def rt_reason(name, lines):
    """What rt says about a name of its line of failures."""
    crate = name.partition(" (")[0]
    if crate == name:
        starts = (f"rt: {name} NOT PROVED", f"rt: {name}: its tests are NOT PROVED", f"rt: must-fail {name}: ")
    else:
        starts = (f"rt: {crate}: ", f"rt: {crate} (")
    return "; ".join(line.removeprefix("rt: ") for line in lines if line.startswith(starts)) or name


def judge_edits(root, text):
    """Holds each must-fail edit to what rt ci says of it: a fact must fail, and not only the proof file's fit."""
    told = dict(found.groups() for line in text.splitlines() if (found := EDIT.match(line)))
    counts = Counts(0, [])
    for edit in sorted(path for path in root.glob("crates/*/must-fail/**/*") if path.is_file()):
        _, crate, _, *label = edit.relative_to(root).parts
        # For rt a file with another ending or in a folder below is no edit that it tries, so it says nothing of it.
        name = "/".join([crate, *label]).removesuffix(".edit")
        fault = edit_fault(told.get(name) if edit.suffix == ".edit" else None, crate)
        counts = counts.plus(Counts(0, [f"must-fail {name}: {fault}"]) if fault else Counts(1, []))
    return counts


def edit_fault(said, crate):
    """What is wrong with what rt says of an edit, or nothing. In `rules` an example must notice, and not the definitions
    themselves."""
    if said is None:
        return "rt ci does not say that it was refused"
    if not said.startswith(REFUSED):
        return f"no fact was seen to fail: {said}"
    first = said.removeprefix(REFUSED)
    if not COMPLAINT.search(first):
        return "what is said of it names no fact that fails"
    if any(words in first for words in MISFITS):
        return "its first error only says that the proof file no longer fits"
    if crate == "rules" and not EXAMPLE.match(first):
        return "it is refused elsewhere than at an example"
    return None


# Comments and quoted text, in which no contract stands.
ASIDE = re.compile(r"""//[^\n]*|/\*.*?\*/|b?"(?:\\.|[^"\\])*"|b?'(?:\\.|[^'\\])'""", re.DOTALL)
PUBLIC = re.compile(r"\bpub\s+(?:(?:const|unsafe|extern)\s+)*fn\s+(\w+)")
CLAUSE = re.compile(r"\b(requires|ensures)\b")


def contract_faults(source):
    """The line, the name and the fault of each `pub fn` of a source text that has a `requires` or no `ensures`."""
    code = ASIDE.sub(lambda aside: "\n" * aside[0].count("\n"), source)
    for found in PUBLIC.finditer(code):
        line = code.count("\n", 0, found.start()) + 1
        clauses = clauses_in(re.split(r"\bfn\b", code[found.end() :], maxsplit=1)[0])
        if "requires" in clauses:
            yield line, found[1], "has a requires"
        if "ensures" not in clauses:
            yield line, found[1], "has no ensures"


def clauses_in(code):
    """The words of a function's contract that stand before braces; the first braces without one are its body."""
    clauses, depth, begin = [], 0, 0
    for brace in re.finditer(r"[{}]", code):
        if brace[0] == "{" and depth == 0:
            clause = CLAUSE.search(code, begin, brace.start())
            if clause is None:
                break
            clauses.append(clause[1])
        depth += 1 if brace[0] == "{" else -1
        begin = brace.end()
    return clauses


def judge_contracts(root):
    """One test: every public function asks nothing of its caller, and promises something."""
    failures = [
        f"contracts: {path.relative_to(root)}:{line}: pub fn {name} {fault}"
        for path in sorted(root.glob("crates/*/src/**/*.rt"))
        for line, name, fault in contract_faults(path.read_text(encoding="utf-8"))
    ]
    return Counts(0 if failures else 1, failures)


# ---- the tests outside Rattle


def run_second():
    """Tests the second program from nothing, since cargo goes by file times and can trust a build of other sources."""
    build = ROOT / ".build" / "second"
    shutil.rmtree(build, ignore_errors=True)
    package = ["--manifest-path", "second/Cargo.toml", "--target-dir", build]
    return judge_cargo(*run("second", ["cargo", "test", "--offline", "--no-fail-fast", *package]))


def judge_cargo(status, text):
    """Counts cargo's tests by their lines; a test that it ignores is no pass."""
    results = re.findall(r"^test (.+) \.\.\. (ok|FAILED|ignored)", text, re.MULTILINE)
    failures = [f"second: {name}: {result}" for name, result in results if result != "ok"]
    if (status != 0 or not results) and not failures:
        failures = [f"second: cargo test ended with status {status} after {len(results)} tests"]
    errors = tuple(line for line in text.splitlines() if line.startswith("error"))
    return Counts(sum(result == "ok" for _, result in results), failures, errors[:5])


class Collected(unittest.TestResult):
    """Counts what passed, since unittest counts only what ran."""

    passed = 0

    def addSuccess(self, test):
        self.passed += 1


def judge_python(name, suite):
    """Runs a suite of unittest; a test that is skipped is no pass."""
    result = Collected()
    suite.run(result)
    bad = result.failures + result.errors + result.skipped
    (LOGS / f"{name}.log").write_text("\n".join(f"{test.id()}\n{why}" for test, why in bad), encoding="utf-8")
    failures = [f"{test.id()}: {first_words(why)}" for test, why in bad]
    if not result.passed and not failures:
        failures = [f"{name}: no test ran"]
    return Counts(result.passed, failures)


def run_python(name):
    return judge_python(name, unittest.defaultTestLoader.loadTestsFromName(name))


def first_words(why):
    """The line of a traceback that names the exception."""
    lines = [line for line in why.splitlines() if line and not line.startswith((" ", "Traceback"))]
    return lines[0] if lines else why


# ---- the gate


def parts():
    """Each part's name, and the function that runs and judges it."""
    yield "tools", install_tools
    yield "rt ci", run_rt_ci
    yield "must-fail edits", lambda: judge_edits(ROOT, (LOGS / "rt-ci.log").read_text(encoding="utf-8", errors="replace"))
    yield "contracts", lambda: judge_contracts(ROOT)
    yield "second", run_second
    for path in sorted(ROOT.glob("tests/test_*.py")):
        yield path.stem, partial(run_python, path.stem)


def guarded(name, part):
    """A part that breaks off is one failure, so that the gate still ends with its counts."""
    try:
        return part()
    except Exception as problem:
        return Counts(0, [f"{name}: {type(problem).__name__}: {problem}"])


def main():
    LOGS.mkdir(parents=True, exist_ok=True)
    # The logs are read by line, and a colour code would stand at a line's start.
    os.environ["CARGO_TERM_COLOR"] = "never"
    total, start = Counts(0, []), time.monotonic()
    for name, part in parts():
        began = time.monotonic()
        counts = guarded(name, part)
        for line in [f"FAILED: {failure}" for failure in counts.failures] + [f"  {hint}" for hint in counts.hints]:
            print(line[:LONGEST_LINE])
        print(f"time: {name} {time.monotonic() - began:.0f} s, {counts}", flush=True)
        total = total.plus(counts)
    print(f"time: all {time.monotonic() - start:.0f} s")
    print(total)
    return 1 if total.failures else 0


if __name__ == "__main__":
    sys.exit(main())
