"""Seeded tables for the tests of the check, beside those of the reader: tables in which vertices wait for one another.

A case is a table with what is known of its check: for some of the fields of a line, the word that must stand there.
"""

from typing import NamedTuple

import reader_cases as reader
from reader_cases import MOST_HOPS, MOST_RANKS, MOST_RECORDS, RECORD_BYTES, VERTICES

OWNERS = range(1, VERTICES)
RING_BYTES = 64


class Case(NamedTuple):
    table: bytes
    says: dict  # from a field's name to its word


ACCEPTED = {"code": "0"}


def table(paths):
    """The table of a dictionary from owners to their paths, best first; an owner without a path has no record."""
    return b"".join(reader.record(rank, path) for v in sorted(paths) for rank, path in enumerate(paths[v], start=1))


def from_reader(make, *arguments):
    """A kind of the reader's tables, as a kind of the check's."""

    def made(count, rng):
        return [Case(table, code_of(expected)) for table, expected in make(*arguments, count, rng)]

    return made


def code_of(expected):
    return {} if expected is None else {"code": str(expected[0] + 256 * expected[1])}


def each(make):
    """A kind of so many cases, each made by itself."""
    return lambda count, rng: [make(rng) for _ in range(count)]


# ---- vertices that depend on one another


def grown(rng, vertices, most_paths, most_hops, tries):
    """Paths that lengthen one another, so that a vertex's path can become compatible and cease to be."""
    paths = {v: [(v, 0)] if rng.random() < 0.7 else [] for v in vertices}
    paths[vertices[0]] = [(vertices[0], 0)]
    for _ in range(tries):
        lengthen(rng, paths, vertices, most_paths, most_hops)
    return {v: ranked(rng, paths[v]) for v in vertices}


def lengthen(rng, paths, vertices, most_paths, most_hops):
    """Gives a vertex one more path, where the drawn one is new and allowed."""
    v, u = rng.sample(vertices, 2)
    rest = rng.choice(paths[u] or [()])
    path = (v, *rest)
    is_allowed = rest and v not in rest and len(rest) <= most_hops and len(paths[v]) < most_paths
    if is_allowed and path not in paths[v]:
        paths[v].append(path)


def ranked(rng, paths):
    """In any order, or long ones first, which is where rings come from."""
    order = rng.choice([len, lambda path: -len(path), lambda path: rng.random()])
    return sorted(rng.sample(paths, len(paths)), key=order)


def small_grown(rng):
    vertices = rng.sample(OWNERS, rng.randint(2, 10))
    most_hops = rng.choice([2, 3, MOST_HOPS])
    return Case(table(grown(rng, vertices, rng.randint(1, 6), most_hops, rng.randint(5, 60))), ACCEPTED)


def small_random(rng):
    """Any paths among few vertices, so that many are named and few fit together."""
    vertices = rng.sample(OWNERS, rng.randint(2, 6))
    owners = rng.sample(vertices, rng.randint(1, len(vertices)))
    paths = {v: [] for v in owners}
    for _ in range(rng.randint(1, 20)):
        v = rng.choice(owners)
        others = [u for u in vertices if u != v]
        path = (v, *rng.sample(others, rng.randint(0, len(others))), 0)
        if path not in paths[v] and len(paths[v]) < MOST_RANKS:
            paths[v].append(path)
    return Case(table(paths), ACCEPTED)


def silent(rng):
    """A grown table from which some owners' records are taken, so that others name vertices that own none."""
    vertices = rng.sample(OWNERS, rng.randint(3, 12))
    paths = grown(rng, vertices, 5, MOST_HOPS, 60)
    for v in rng.sample(vertices, rng.randint(1, len(vertices) // 2)):
        del paths[v]
    return Case(table(paths), ACCEPTED)


def twelve_hops(rng):
    """A line of vertices with ever longer paths, up to 12 hops, among grown ones; some lines are broken."""
    vertices = rng.sample(OWNERS, rng.randint(12, 20))
    paths = grown(rng, vertices, 4, 3, 40)
    for at in range(MOST_HOPS):
        line = (*vertices[at::-1], 0)
        own = paths[vertices[at]]
        if line not in own and (at == MOST_HOPS - 1 or rng.random() < 0.97):
            own.insert(rng.choice([0, 0, len(own)]), line)
    return Case(table(paths), {"code": "0", "longest": "12"})


def one_off(rng):
    """A line of vertices, and others whose path's rest is that of the line's head, or differs in one place.

    These come to that path only after the head has settled, since one by a later vertex keeps them waiting before. Some
    of the paths go by a vertex that is stuck, so that the first settled vertex is not the next hop.
    """
    vertices = rng.sample(OWNERS, 20)
    line = vertices[: rng.choice([rng.randint(2, MOST_HOPS - 2), MOST_HOPS - 1])]
    late, one, other, stranger, *rest = vertices[len(line) :]
    paths = {v: [(*line[at::-1], 0)] for at, v in enumerate(line)}
    paths |= {late: [(late, *line[::-1], 0)], stranger: [(stranger, 0)]}
    paths |= {one: [(one, other, 0), (one, 0)], other: [(other, one, 0), (other, 0)]}
    for v in rest:
        by = [one] if len(line) < MOST_HOPS - 1 and rng.random() < 0.5 else []
        paths[v] = [(v, late, 0), (v, *by, *changed(rng, line[::-1], stranger), 0), (v, 0)]
    return Case(table(paths), ACCEPTED)


def changed(rng, line, stranger):
    """A line behind its head: one vertex replaced, two swapped, one left out, or as it was."""
    line = list(line)
    at = rng.randrange(1, len(line))
    match rng.randrange(4):
        case 0:
            line[at] = stranger
        case 1:
            line[at - 1 : at + 1] = line[at - 1 : at + 1][:: 1 if at == 1 else -1]
        case 2:
            del line[at]
    return line


# ---- rings


def ring_from(following):
    """The ring that the walk from the lowest vertex ends in, from its own lowest vertex on."""
    walked = [min(following)]
    while following[walked[-1]] not in walked:
        walked.append(following[walked[-1]])
    closed = walked[walked.index(following[walked[-1]]) :]
    low = closed.index(min(closed))
    return closed[low:] + closed[:low]


def ring_case(following, settled):
    """Each vertex prefers the one that it follows to its direct path, so all of `following` are stuck."""
    paths = {v: [(v, u, 0), (v, 0)] for v, u in following.items()} | {v: [(v, 0)] for v in settled}
    ring = bytes(ring_from(following))
    counts = {"ring length": str(len(ring)), "settled": str(len(settled)), "stuck": str(len(following))}
    return Case(table(paths), counts | {"code": "0", "ring": ring.ljust(RING_BYTES, b"\xff").hex()})


def circle(vertices):
    return dict(zip(vertices, [*vertices[1:], vertices[0]]))


def rings(rng):
    """A ring of 2 to 63 vertices, at times a second one, with tails that lead into them and settled vertices beside."""
    count = rng.randint(2, 63)
    vertices = rng.sample(OWNERS, count)
    first = min(count, rng.choice([2, 3, rng.randint(2, count), count]))
    following = circle(vertices[:first])
    at = first
    if count - at >= 2 and rng.random() < 0.5:
        second = rng.randint(2, count - at)
        following |= circle(vertices[at : at + second])
        at += second
    tails = rng.randint(0, count - at)
    for v in vertices[at : at + tails]:
        following[v] = rng.choice(list(following))
    return ring_case(following, vertices[at + tails :])


def lowest_outside(rng):
    """The lowest stuck vertex is at the end of a tail, and the walk enters the ring anywhere."""
    vertices = rng.sample(OWNERS, rng.randint(3, 40))
    lowest = min(vertices)
    vertices.sort(key=lambda v: v == lowest)
    length = rng.randint(2, len(vertices) - 1)
    following = circle(vertices[:length])
    for v in vertices[length:]:
        following[v] = rng.choice(list(following))
    return ring_case(following, [])


# ---- many stages, many records


def fillers(rng, owner, through, count, others):
    """Paths of 12 hops through a vertex that settles at stage 1 on its direct path, so that none stays compatible."""
    found = {}
    while len(found) < count:
        path = rng.sample([u for u in others if u not in (owner, through)], MOST_HOPS - 2)
        found[owner, *path[:-1], through, path[-1], 0] = None
    return list(found)


def staged(rng, owners, each_has, stages, order=None):
    """A table of so many stages: each vertex waits for the one before it in `order`, the last ones for the same.

    Of the paths that an owner has, those of 12 hops come first; from stage 2 on none of them is compatible, and each
    judgement looks at all of them.
    """
    order = order or list(range(1, owners + 1))
    # The later a vertex settles, the further a path through it is looked at.
    late = order[-max(20, owners // 3) :]
    paths = {}
    for at, v in enumerate(order):
        before = min(at, stages - 1)
        own = [(v, order[before - 1], 0), (v, 0)] if before else [(v, 0)]
        long = fillers(rng, v, order[0 if at else 1], max(0, each_has - len(own)), late)
        paths[v] = (long + own if before else own + long)[:each_has]
    return table(paths)


def deep(rng):
    """63 stages in any order, each with one vertex; every third has all 1,008 records."""
    order = rng.sample(OWNERS, len(OWNERS))
    each_has = rng.choice([2, rng.randint(3, 15), MOST_RANKS])
    return Case(staged(rng, len(OWNERS), each_has, 63, order), {"code": "0", "stages": "63", "stuck": "0"})


def all_stuck(rng):
    """1,008 records: one ring of all, behind each first path fifteen others."""
    following = circle(rng.sample(OWNERS, len(OWNERS)))
    paths = {v: [(v, u, 0), *fillers(rng, v, u, MOST_RANKS - 1, OWNERS)] for v, u in following.items()}
    ring = bytes(ring_from(following)).ljust(RING_BYTES, b"\xff")
    return Case(table(paths), {"code": "0", "stuck": "63", "ring": ring.hex()})


def full_grown(rng):
    """1,008 records whose paths lengthen one another."""
    vertices = list(OWNERS)
    paths = {v: [(v, 0)] for v in vertices}
    while any(len(paths[v]) < MOST_RANKS for v in vertices):
        lengthen(rng, paths, vertices, MOST_RANKS, MOST_HOPS)
    made = table({v: ranked(rng, paths[v]) for v in vertices})
    assert len(made) == RECORD_BYTES * MOST_RECORDS
    return Case(made, ACCEPTED)


# ---- several faults


def damaged_more(number, count, rng):
    """Tables with a fault and more faults in the records after it, which change nothing of the answer."""
    cases = []
    for case in reader.damaged(number, count, rng):
        records = [case.table[at : at + RECORD_BYTES] for at in range(0, len(case.table), RECORD_BYTES)]
        after = range(case.expected[1] + 1, len(records))
        for at in rng.sample(after, rng.randint(1, len(after)) if after else 0):
            records[at] = reader.careless(rng, records[at], records[:at])
        if after:
            cases.append(Case(b"".join(records), code_of(case.expected)))
    return cases


# How each kind is made, and how many cases it has; for a fault, at each of the reader's three places.
KINDS = {
    "small_random": (each(small_random), 500),
    "small_grown": (each(small_grown), 500),
    "silent": (each(silent), 200),
    "twelve_hops": (each(twelve_hops), 100),
    "one_off": (each(one_off), 150),
    "rings": (each(rings), 200),
    "lowest_outside": (each(lowest_outside), 100),
    "deep": (each(deep), 60),
    "all_stuck": (each(all_stuck), 20),
    "full_grown": (each(full_grown), 30),
    "large": (from_reader(reader.accepted, reader.large), 40),
    "full_ranks": (from_reader(reader.full_ranks), 40),
    "several_faults": (from_reader(reader.several_faults), 300),
    "changed_byte": (from_reader(reader.changed_byte), 200),
    "likely_bytes": (from_reader(reader.likely_bytes), 200),
    "ragged": (from_reader(reader.ragged), 60),
    "around_longest": (from_reader(reader.around_longest), 180),
}
for fault in reader.FAULTS:
    KINDS[f"damaged_{fault}"] = (from_reader(reader.damaged, fault), 10)
    KINDS[f"damaged_more_{fault}"] = (lambda count, rng, fault=fault: damaged_more(fault, count, rng), 10)
