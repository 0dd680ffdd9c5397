"""What the rules page says of choices, rounds and stable assignments, in Python, and seeded histories of runs.

Nothing here asks a program: a choice comes from the table's records and the heard bytes alone. A history is a report of
a table with a heard state to begin with, and a schedule cut into runs.
"""

import itertools
import math
from typing import NamedTuple

import check_cases
import run_cases
from check_cases import OWNERS
from reader_cases import MOST_HOPS, RECORD_BYTES
from run_cases import MOST_PAIRS, ZEROS, offset

ABSENT = 254
NONE, DESTINATION = (), (0,)
ROW_BYTES = 16


# ---- the page's words


class Routes(run_cases.Facts):
    """An accepted table as each vertex's paths, best first."""

    def __init__(self, table):
        super().__init__(table)
        self.paths = {0: [DESTINATION]}
        for at in range(0, len(table), RECORD_BYTES):
            record = table[at : at + RECORD_BYTES]
            self.paths.setdefault(record[2], []).append(tuple(record[2 : 3 + record[1]]))
        named = {v for paths in self.paths.values() for path in paths for v in path}
        self.present = sorted(named - {0})

    def own(self, v):
        return self.paths.get(v, [])

    def rank(self, path):
        """As a heard byte has it: 0 for none, and 1 for (0)."""
        return self.own(path[0]).index(path) + 1 if path else 0

    def first(self, v, said):
        """The best path of v that is v followed by what its next hop says, or none."""
        return next((path for path in self.own(v) if path[1:] == said(path[1])), NONE)

    def last_heard(self, heard, v, u):
        byte = heard[offset((v, u))]
        return self.own(u)[byte - 1] if byte else NONE

    def choice(self, heard, v):
        return self.first(v, lambda u: self.last_heard(heard, v, u))

    def choices(self, heard):
        return {v: self.choice(heard, v) for v in self.present}

    def is_stable(self, assigned):
        said = assigned | {0: DESTINATION}
        return all(assigned[v] == self.first(v, said.__getitem__) for v in self.present)

    def assignments(self):
        """Every way to give each present vertex one of its paths or none."""
        for drawn in itertools.product(*([NONE, *self.own(v)] for v in self.present)):
            yield dict(zip(self.present, drawn))

    def assignment_count(self):
        return math.prod(1 + len(self.own(v)) for v in self.present)

    def stable(self):
        return [assigned for assigned in self.assignments() if self.is_stable(assigned)]

    def storing(self, assigned):
        """The heard state that stores an assignment at every listening pair."""
        said = assigned | {0: DESTINATION}
        return run_cases.with_bytes(ZEROS, {offset((v, u)): self.rank(said[u]) for v, u in self.pairs})

    def heard_states(self):
        """Every valid heard state."""
        highest = [self.highest(*pair) for pair in self.pairs]
        for drawn in itertools.product(*(range(most + 1) for most in highest)):
            yield run_cases.with_bytes(ZEROS, dict(zip(map(offset, self.pairs), drawn)))

    def heard_state_count(self):
        return math.prod(1 + self.highest(*pair) for pair in self.pairs)

    def is_valid(self, heard):
        highest = {offset(pair): self.highest(*pair) for pair in self.pairs}
        return all(byte <= highest.get(at, 0) for at, byte in enumerate(heard))


class Report(NamedTuple):
    """What the check gives back of a table."""

    routes: Routes
    rows: bytes
    longest: int
    is_complete: bool

    def stage(self, v):
        return self.rows[ROW_BYTES * v]

    def settled(self):
        return [v for v in self.routes.present if self.stage(v) < ABSENT]

    def due(self, rounds):
        """The vertices that must have settled after so many rounds: those whose stage times L is no more."""
        return [v for v in self.settled() if self.stage(v) * self.longest <= rounds]

    def shown(self, v):
        """Rank, hops and vertices as they stand in the row."""
        return self.rows[ROW_BYTES * v + 1 : ROW_BYTES * (v + 1)]

    def wrong(self, vertices, paths):
        """Those of the vertices whose path is not exactly that of their row."""
        return [v for v in vertices if as_in_a_row(self.routes, paths[v]) != self.shown(v)]

    def with_row(self, v, stage, path):
        """A report that differs in one row."""
        row = bytes([stage]) + as_in_a_row(self.routes, path)
        return self._replace(rows=self.rows[: ROW_BYTES * v] + row + self.rows[ROW_BYTES * (v + 1) :])


def as_in_a_row(routes, path):
    return bytes([routes.rank(path), max(0, len(path) - 1), *path]).ljust(ROW_BYTES - 1, b"\xff")


# ---- tables


def of_paths(paths):
    return Routes(check_cases.table(paths))


def made_by(*makes):
    """A kind of tables with a listening pair, by one of the generators of the check's tests."""

    def made(rng):
        routes = Routes(rng.choice(makes)(rng).table)
        return routes if routes.pairs else made(rng)

    return made


def line(rng):
    return Routes(run_cases.line(rng).table)


def many_stages(rng):
    """Each vertex waits for the one before it in any order, with paths of 12 hops that it must give up."""
    owners = rng.randint(26, 40)
    order = rng.sample(range(1, owners + 1), owners)
    return Routes(check_cases.staged(rng, owners, rng.randint(2, 4), rng.randint(5, owners), order))


def deep(rng):
    """63 stages of one vertex each and no path above 2 hops, so that there is room for the rounds of all."""
    order = rng.sample(OWNERS, len(OWNERS))
    paths = {v: [(v, u, 0), (v, 0)] for u, v in itertools.pairwise(order)}
    return of_paths(paths | {order[0]: [(order[0], 0)]})


def relays(rng):
    hops = rng.randint(2, MOST_HOPS)
    layers = rng.randint(1, min(4, most_layers(hops)))
    return relays_of(rng.sample(OWNERS, 1 + layers * hops), hops)


def most_layers(hops):
    return (len(OWNERS) - 1) // hops


def relays_of(vertices, hops):
    """Layers in which news takes long: a vertex leaves its direct path for the layer before it, and behind it a whole
    line of vertices must learn so, hop by hop, until the last one falls back to its direct path."""
    head, *others = vertices
    paths = {head: [(head, 0)]}
    for at in range(0, len(others), hops):
        leaving, *behind = others[at : at + hops]
        paths[leaving] = [(leaving, head, 0), (leaving, 0)]
        paths |= {v: [(*behind[place::-1], leaving, 0)] for place, v in enumerate(behind)}
        head = behind[-1]
        paths[head].append((head, 0))
    return of_paths(paths)


def beside_a_ring(rng):
    """A ring of two, which can rest, or of three, which never does, and vertices beside it with paths through it."""
    vertices = rng.sample(OWNERS, rng.randint(5, 12))
    count = rng.choice([2, 3])
    following, others = check_cases.circle(vertices[:count]), vertices[count:]
    ring = {v: [(v, u, 0), (v, 0)] for v, u in following.items()}
    paths = check_cases.grown(rng, others, 4, 4, 40)
    for v in others:
        through = rng.choice(ring[rng.choice(vertices[:count])])
        paths[v].insert(rng.choice([0, len(paths[v]), len(paths[v])]), (v, *through))
    return of_paths(paths | ring)


# How each kind is made, and how many tables it has.
KINDS = {
    "small": (made_by(*run_cases.SMALL), 120),
    "silent": (made_by(check_cases.silent), 40),
    "long_paths": (made_by(*run_cases.LONG_PATHS), 25),
    "line": (line, 10),
    "relays": (relays, 30),
    "many_stages": (many_stages, 5),
    "deep": (deep, 2),
    "large": (made_by(*run_cases.LARGE), 3),
    "beside_a_ring": (beside_a_ring, 60),
}

MOST_ASSIGNMENTS, MOST_STEPS = 500, 250


def few_assignments(rng):
    """A table so small that all assignments can be looked at."""
    make = rng.choice([check_cases.small_random, check_cases.small_grown, check_cases.small_grown, small_ring])
    routes = Routes(make(rng).table)
    return routes if routes.assignment_count() <= MOST_ASSIGNMENTS else few_assignments(rng)


def small_ring(rng):
    vertices = rng.sample(OWNERS, rng.randint(2, 6))
    ring = rng.randint(2, len(vertices))
    return check_cases.ring_case(check_cases.circle(vertices[:ring]), vertices[ring:])


def few_steps(rng):
    """A table so small that each step from each valid heard state can be made."""
    routes = of_paths(check_cases.grown(rng, rng.sample(OWNERS, rng.randint(2, 4)), 2, 3, 12))
    return routes if has_few_steps(routes) and len(routes.pairs) > 2 else few_steps(rng)


def has_few_steps(routes):
    return routes.heard_state_count() * len(routes.pairs) <= MOST_STEPS


# ---- schedules of rounds


def any_order(rng, report):
    return rng.sample(report.routes.pairs, len(report.routes.pairs))


def falling(rng, report):
    """Who settles late listens first, and of a stage who has the longest path, so that news goes one hop in a round."""

    def earliness(pair):
        return -report.stage(pair[0]), -max(map(len, report.routes.own(pair[0])))

    return sorted(any_order(rng, report), key=earliness)


def rising(rng, report):
    return falling(rng, report)[::-1]


def the_same(order):
    return lambda rng, report: itertools.repeat(order(rng, report))


def anew(order):
    return lambda rng, report: (order(rng, report) for _ in itertools.count())


ORDERS = [anew(any_order), the_same(any_order), the_same(falling), anew(falling), the_same(rising)]


def plain(rng, order, pairs):
    return order


def repeated(rng, order, pairs):
    """Some pairs several times before the next."""
    return [pair for pair in order for _ in range(rng.choice([1, 1, 1, 2, 3]))]


def gaps(rng, order, pairs):
    """Other pairs between."""
    between = ([pair, *rng.choices(pairs, k=rng.choice([0, 0, 0, 1, 3]))] for pair in order)
    return [pair for part in between for pair in part]


def late(rng, order, pairs):
    """The last pair is kept waiting while the others go on."""
    return [*order[:-1], *rng.choices(order[:-1] or order, k=len(order)), order[-1]]


STRETCHES = [plain, plain, repeated, gaps, late]


def rounds_of(rng, report, count):
    """So many rounds in one of the orders, of one of the forms."""
    orders, stretch = rng.choice(ORDERS)(rng, report), rng.choice(STRETCHES)
    rounds = (stretch(rng, order, report.routes.pairs) for order in itertools.islice(orders, count))
    return [pair for pairs in rounds for pair in pairs]


def closings(routes, pairs):
    """After how many pairs each round closes: as soon as every listening pair has come since the last closing."""
    since, closed = set(), []
    for count, pair in enumerate(pairs, start=1):
        since.add(pair)
        if len(since) == len(routes.pairs):
            since = set()
            closed.append(count)
    return closed


def cut(rng, report, pairs):
    """Runs of any length, so that most rounds at a cut begin in one run and end in a later one; at times a run ends
    just where the vertices of a stage must have settled."""
    just_due = closings(report.routes, pairs)[report.longest - 1 :: report.longest]
    places = rng.choices(range(len(pairs) + 1), k=rng.randint(0, 4))
    places += rng.sample(just_due, min(len(just_due), rng.randint(0, 3)))
    places = sorted({0, *places, *range(0, len(pairs), MOST_PAIRS), len(pairs)})
    return [pairs[start:end] for start, end in itertools.pairwise(places)]


# ---- histories


class History(NamedTuple):
    report: Report
    heard: bytes  # to begin with
    runs: list  # of lists of pairs

    def pairs(self, count):
        """Those of so many runs."""
        return [pair for run in self.runs[:count] for pair in run]


PAIRS_IN_ROUNDS = 16000  # without what is repeated or stands between; where that is too few, not all rounds are made


def history(rng, report):
    """As many rounds as all vertices need, or as there is room for, from any valid heard state."""
    stages = max((report.stage(v) for v in report.settled()), default=1)
    room = PAIRS_IN_ROUNDS // len(report.routes.pairs)
    pairs = rounds_of(rng, report, min(stages * report.longest, max(room, report.longest)))
    return History(report, run_cases.valid(rng, report.routes), cut(rng, report, pairs))
