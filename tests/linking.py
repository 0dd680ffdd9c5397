"""C programs over the proved entries: how they are built, and run under a memory checker."""

import os
import subprocess

import comparing
from comparing import ROOT

BUILT = ROOT / ".build" / "entries"
LIBRARY = comparing.archive("reefsplice")
WARNINGS = ["-O2", "-Wall", "-Wextra", "-Werror", "-pedantic"]
# Status 9 where the checker found something, so that it is not taken for the program's own.
CHECKER = ["valgrind", "--error-exitcode=9", "--leak-check=full", "-q"]
LONGEST = 60  # seconds for a program that takes one or two under the checker


def build(name, *sources, flags=()):
    """A program over the library; gives its path."""
    comparing.build_entries()
    BUILT.mkdir(parents=True, exist_ok=True)
    words = ["gcc", "-std=c11", *WARNINGS, *flags, "-Iinclude", "-Itests", *sources, LIBRARY, "-o", BUILT / name]
    comparing.build(words)
    return BUILT / name


def build_planted(name, sources, old, new):
    """The same program with `new` in place of `old`, which stands once in the last of its sources."""
    text = (ROOT / sources[-1]).read_text()
    if text.count(old) != 1:
        raise RuntimeError(f"{sources[-1]} has `{old}` {text.count(old)} times")
    BUILT.mkdir(parents=True, exist_ok=True)
    planted = BUILT / f"{name}.c"
    planted.write_text(text.replace(old, new))
    return build(name, *sources[:-1], planted)


def functions():
    """The names of the library's functions."""
    listed = subprocess.run(["nm", LIBRARY], cwd=ROOT, check=True, capture_output=True, text=True).stdout
    return {line.split()[-1] for line in listed.splitlines() if line[17:18] in ("t", "T")}


def run(*words, **variables):
    """The status and what a program says, standard error too."""
    how = {"stdin": subprocess.DEVNULL, "stdout": subprocess.PIPE, "stderr": subprocess.STDOUT, "timeout": LONGEST}
    done = subprocess.run(words, cwd=ROOT, env=os.environ | variables, **how)
    return done.returncode, done.stdout.decode()
