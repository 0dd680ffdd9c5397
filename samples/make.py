#!/usr/bin/env python3
"""Writes every sample table and schedule: python3 samples/make.py [FOLDER], by default beside this script.

A table is described by lines as `2: 2 3 0 | 2 1 0 | 2 0`: an owner, then its paths, best first. Each line is one
block, and its ranks start at 1. The script checks nothing, since some samples are there to be refused.
"""

import sys
from pathlib import Path

# Tables 1 to 7 of the rules page, and the two tables of March, in which router 1 has two blocks.
SMALL = {
    "empty": "",
    "direct": "1: 1 0",
    "disagree": """
        1: 1 2 0 | 1 0
        2: 2 1 0 | 2 0""",
    "three-ring": """
        1: 1 2 0 | 1 0
        2: 2 3 0 | 2 0
        3: 3 1 0 | 3 0""",
    "shortcut": """
        1: 1 0
        2: 2 3 0 | 2 1 0 | 2 0
        3: 3 2 0 | 3 0""",
    "silent": "1: 1 2 0",
    "chain": """
        1: 1 0
        2: 2 1 0 | 2 0
        3: 3 2 0""",
    "blocks-apart": """
        1: 1 0
        2: 2 0
        1: 1 2 0""",
    "blocks-adjacent": """
        1: 1 0
        1: 1 2 0""",
}

# Case 10 of the rules page, as far as its tables are small: each limit, and one past it.
LIMITS = {
    "no-hops": "1: 1",
    "twelve-hops": "1: 1 2 3 4 5 6 7 8 9 10 11 12 0",
    "thirteen-hops": "1: 1 2 3 4 5 6 7 8 9 10 11 12 13 0",
    "vertex-63": "63: 63 0",
    "vertex-64": "64: 64 0",
    "rank-16": "1: " + " | ".join(f"1 {v} 0" for v in range(2, 17)) + " | 1 0",
    "rank-17": "1: " + " | ".join(f"1 {v} 0" for v in range(2, 18)) + " | 1 0",
}

# Published examples of paper 001; its DISAGREE and DI-SAFE-GREE are tables 3 and 5 above, `disagree` and `shortcut`.
PUBLISHED = {
    "bad-gadget": """
        1: 1 3 0 | 1 0
        2: 2 1 0 | 2 0
        3: 3 2 0 | 3 0""",
    "bleedin-edge": """
        1: 1 2 4 0 | 1 0
        2: 2 4 3 0 | 2 4 0 | 2 1 0 | 2 3 0
        3: 3 2 1 0 | 3 0
        4: 4 3 0 | 4 2 3 0 | 4 0""",
}

# Pairs of listener and speaker, under the name of the table and one of their own: cases 8 and 9 of the rules page, a
# ring that never comes to rest, and one that activates a pair which does not listen.
SCHEDULES = {
    "disagree.case8": [(1, 0), (2, 1)],
    "chain.case9": [(2, 0), (3, 2), (1, 0), (2, 1), (3, 2)],
    "three-ring.around": 10 * [(1, 0), (2, 0), (3, 0), (1, 2), (2, 3), (3, 1)],
    "chain.stray": [(1, 0), (2, 1), (1, 2), (0, 1)],
}

# Rows of paper 001, pair by pair: rows 1 and 2 of Table 2 with either pair of row 2 first, rounds, all rows of Table 4,
# and the order that section 4 tells of DI-SAFE-GREE.
PUBLISHED_SCHEDULES = {
    "disagree.two-first": [(1, 0), (2, 0), (2, 1), (1, 2)],
    "disagree.one-first": [(1, 0), (2, 0), (1, 2), (2, 1)],
    "bad-gadget.rounds": 3 * [(1, 0), (2, 0), (3, 0), (1, 3), (2, 1), (3, 2)],
    "bleedin-edge.table4": [
        *[(1, 0), (3, 0), (4, 0)],
        *[(2, 3)],
        *[(4, 2), (2, 4)],
        *[(2, 1), (1, 2)],
        *[(2, 4)],
        *[(3, 2)],
        *[(4, 3)],
        *[(2, 1), (2, 3), (2, 4)],
        *[(1, 2), (3, 2), (4, 2)],
    ],
    "bleedin-edge.round": [(1, 0), (3, 0), (4, 0), (4, 3), (2, 4), (1, 2), (2, 1), (2, 3), (3, 2), (4, 2)],
    "shortcut.section4": [(1, 0), (2, 0), (3, 0), (3, 2), (2, 1), (3, 2), (2, 3), (3, 2)],
}


def record(rank, path):
    """The 16 bytes of one path; a path of 14 vertices just fits, since its last one, 0, falls on byte 15."""
    filled = bytes([rank, len(path) - 1, *path]).ljust(15, b"\xff")
    return filled[:15] + b"\x00"


def block(paths):
    return b"".join(record(rank, path) for rank, path in enumerate(paths, start=1))


def table(text):
    """The table of a description; what stands before a colon only helps the reader."""
    lines = [line.partition(":")[2] for line in text.splitlines() if line.strip()]
    return b"".join(block([[int(v) for v in path.split()] for path in line.split("|")]) for line in lines)


def deep(owner):
    """Each router prefers the one below it to its direct path, so that one enters in each of 63 stages."""
    return [[1, 0]] if owner == 1 else [[owner, owner - 1, 0], [owner, 0]]


def full(owner):
    """The paths of `deep`, filled up to 16 by paths of 12 hops, each through eleven routers in a row."""
    paths = deep(owner)
    for start in range(owner, owner + 16 - len(paths)):
        paths.append([owner, *((start + step) % 63 + 1 for step in range(11)), 0])
    return paths


def downwards():
    """Every pair of `deep`, from the last router to the first, so that a round brings a path one router further; as
    often as the longest schedule holds."""
    rounds = [(path[0], path[1]) for owner in range(63, 0, -1) for path in deep(owner)]
    return (16384 * rounds)[:16384]


def samples():
    """Every sample's file name with its bytes."""
    files = {f"{name}.table": table(text) for name, text in (SMALL | LIMITS | PUBLISHED).items()}
    files["deep-63.table"] = b"".join(block(deep(owner)) for owner in range(1, 64))
    files["full-1008.table"] = b"".join(block(full(owner)) for owner in range(1, 64))
    files["too-long-16144.table"] = files["full-1008.table"] + record(17, [63, 1, 2, 0])
    files["ragged-17.table"] = files["direct.table"] + b"\x00"
    for name, pairs in (SCHEDULES | PUBLISHED_SCHEDULES | {"deep-63.downwards": downwards()}).items():
        files[f"{name}.schedule"] = bytes(number for pair in pairs for number in pair)
    return files


def main():
    folder = Path(sys.argv[1]) if len(sys.argv) > 1 else Path(__file__).resolve().parent
    folder.mkdir(parents=True, exist_ok=True)
    for name, content in samples().items():
        (folder / name).write_bytes(content)


if __name__ == "__main__":
    main()
