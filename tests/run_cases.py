"""Seeded cases for the tests of the step and the run: tables with heard states, pairs and schedules.

A case holds what its call is lent, and what is known of the answer: for some of the fields of a line, the word that
must stand there. Where a case is made to be refused, that is the code.
"""

from collections import Counter
from functools import partial
from typing import NamedTuple

import check_cases
import reader_cases as reader
from check_cases import each
from reader_cases import MOST_HOPS, RECORD_BYTES, VERTICES

HEARD_BYTES, SUMS, SUMS_BYTES, MOST_PAIRS = VERTICES * VERTICES, VERTICES, 4 * VERTICES, 16384
ZEROS = bytes(HEARD_BYTES)
BUFFER_LENGTH, BAD_STATE, BAD_LENGTH, BAD_PAIR = 1, 12, 13, 14


class Step(NamedTuple):
    table: bytes
    heard: bytes
    pair: bytes
    says: dict  # from a field's name to its word


class Run(NamedTuple):
    table: bytes
    heard: bytes
    schedule: bytes
    sums: bytes
    says: dict


def says(number, place=0):
    return {"code": str(number + 256 * place)}


ACCEPTED = says(0)


def lent_sums(rng, length=SUMS_BYTES):
    """Any bytes, since what was there must not matter."""
    return rng.randbytes(length)


# ---- what an accepted table says


class Facts:
    def __init__(self, table):
        records = [table[at : at + RECORD_BYTES] for at in range(0, len(table), RECORD_BYTES)]
        self.table = table
        self.listening = {(record[2], record[3]) for record in records}
        self.pairs = sorted(self.listening)
        self.counts = Counter(record[2] for record in records) + Counter([0])

    def highest(self, v, u):
        """The highest byte that is valid at a pair."""
        return self.counts[u] if (v, u) in self.listening else 0


SMALL = [check_cases.small_random, check_cases.small_grown, check_cases.silent, check_cases.rings]
LONG_PATHS = [check_cases.twelve_hops, check_cases.one_off]
LARGE = [check_cases.deep, check_cases.all_stuck, check_cases.full_grown]


def table(rng):
    """The facts of an accepted table with a listening pair; every twentieth is large."""
    make = rng.choice(LARGE if rng.random() < 0.05 else SMALL * 2 + LONG_PATHS)
    facts = Facts(make(rng).table)
    return facts if facts.pairs else table(rng)


def line(rng):
    """Twelve vertices, each with the path along them first and a direct one, so that the last comes to 12 hops."""
    vertices = rng.sample(check_cases.OWNERS, MOST_HOPS)
    paths = {v: [(*vertices[at::-1], 0), (v, 0)] for at, v in enumerate(vertices)}
    paths[vertices[0]].pop()
    return Facts(check_cases.table(paths))


def offset(pair):
    return VERTICES * pair[0] + pair[1]


# ---- heard states


def with_bytes(state, changes):
    changed = bytearray(state)
    for at, byte in changes.items():
        changed[at] = byte
    return bytes(changed)


def valid(rng, facts):
    """At each listening pair nothing, any byte that is valid, or the highest; sparse, dense, or zeros."""
    share = rng.choice([0, 0.1, 0.5, 0.9, 1])
    drawn = [pair for pair in facts.pairs if rng.random() < share]
    highest = {pair: facts.highest(*pair) for pair in drawn}
    return with_bytes(ZEROS, {offset(p): rng.choice([most, rng.randint(0, most)]) for p, most in highest.items()})


def fault_places(facts):
    """The offsets at which a fault of each kind can stand: no listening pair, above the speaker's records, above (0)."""
    listening = {offset(pair) for pair in facts.pairs}
    return {
        "not_listening": [at for at in range(HEARD_BYTES) if at not in listening],
        "above_records": [at for at in sorted(listening) if at % VERTICES != 0],
        "above_destination": [at for at in sorted(listening) if at % VERTICES == 0],
    }


def bad_byte(rng, facts, at):
    """Every other time the lowest bad one, since a limit that is off by one shows only there."""
    lowest = facts.highest(at // VERTICES, at % VERTICES) + 1
    return rng.choice([lowest, rng.randint(lowest, 255)])


def damaged(rng, facts, kind, place):
    """A state whose lowest fault is of that kind, at the first offset that can have it, the last or another; others
    may stand behind it. Gives the offset too."""
    places = fault_places(facts)[kind]
    at = {"first": places[0], "last": places[-1], "any": rng.choice(places)}[place]
    behind = rng.sample(range(at + 1, HEARD_BYTES), min(rng.choice([0, 0, 1, 5]), HEARD_BYTES - at - 1))
    faults = {fault: bad_byte(rng, facts, fault) for fault in [at, *behind]}
    return with_bytes(valid(rng, facts), faults), at


def with_places(rng, kind):
    """The facts of a table in which a fault of that kind has a place."""
    facts = table(rng)
    return facts if fault_places(facts)[kind] else with_places(rng, kind)


OTHER_LENGTHS = [0, 1, 64, HEARD_BYTES - 1, HEARD_BYTES + 1, 2 * HEARD_BYTES, HEARD_BYTES + 65536]
# As many bytes as sums, a sum or a byte less or more, and what a count in other units would take for right.
OTHER_SUMS = [0, SUMS, *(SUMS_BYTES + more for more in (-4, -1, 1, 4, 65536)), 4 * SUMS_BYTES]


def of_length(state, length):
    return (state + bytes(length))[:length]


# ---- pairs and schedules


def schedule_of(pairs):
    return bytes(vertex for pair in pairs for vertex in pair)


def any_order(rng, pairs, count):
    return rng.choices(pairs, k=count)


def in_rounds(rng, pairs, count):
    """Each round has every pair once, in an order of its own."""
    order = []
    while len(order) < count:
        order += rng.sample(pairs, len(pairs))
    return order[:count]


def one_left_out(rng, pairs, count):
    """One pair comes seldom, so that rounds close late and at that pair."""
    rare, others = rng.choice(pairs), pairs[:]
    if len(pairs) > 1:
        others.remove(rare)
    return [rare if rng.random() < 1 / (len(pairs) + 3) else rng.choice(others) for _ in range(count)]


def again_and_again(rng, pairs, count):
    """Few pairs many times, so that most steps change nothing."""
    return rng.choices(rng.sample(pairs, min(len(pairs), 3)), k=count)


ORDERS = [any_order, any_order, in_rounds, one_left_out, again_and_again]


def walk(rng, facts, count):
    return rng.choice(ORDERS)(rng, facts.pairs, count)


def short(rng, facts):
    """Up to a few rounds."""
    return walk(rng, facts, rng.randint(1, min(300, 4 * len(facts.pairs) + 4)))


def stray(rng, facts):
    return rng.randrange(VERTICES), rng.randrange(VERTICES)


def turned(rng, facts):
    v, u = rng.choice(facts.pairs)
    return u, v


def above(rng, facts):
    v, u = rng.choice(facts.pairs)
    high = rng.choice([VERTICES, 255, rng.randint(VERTICES, 255)])
    return rng.choice([(v, high), (high, u), (high, high)])


def wrapping(rng, facts):
    """A pair with a vertex above 63 whose offset, or whose vertices, wrap onto a listening pair."""
    v, u = rng.choice(facts.pairs)
    turns, up = rng.randrange(1, 4), VERTICES * rng.randrange(4)
    past = u + VERTICES * turns
    return rng.choice([(v + up, past), ((v - turns) % VERTICES + up, past), (v + VERTICES * turns, u)])


BAD_PAIRS = {"stray": stray, "turned": turned, "above": above, "wrapping": wrapping}


def bad_pair(rng, facts, kind=None):
    pair = BAD_PAIRS[kind or rng.choice(list(BAD_PAIRS))](rng, facts)
    # A drawn pair may listen by chance, and a table may have no other of its kind.
    return bad_pair(rng, facts) if pair in facts.listening else pair


def ending_badly(rng, facts, kind, place):
    """A schedule with a bad pair at the start, in the middle or at the end, more behind it, and its number."""
    pairs = walk(rng, facts, rng.choice([1, 2, rng.randint(3, 100)]))
    at = {"first": 0, "middle": len(pairs) // 2, "last": len(pairs) - 1}[place]
    pairs[at] = bad_pair(rng, facts, kind)
    for behind in range(at + 1, len(pairs)):
        if rng.random() < 0.1:
            pairs[behind] = bad_pair(rng, facts)
    return schedule_of(pairs), at


# ---- one step


def step(rng, from_zeros=False):
    facts = table(rng)
    heard = ZEROS if from_zeros else valid(rng, facts)
    return Step(facts.table, heard, bytes(rng.choice(facts.pairs)), ACCEPTED)


def step_at_a_bad_pair(rng, kind):
    facts = table(rng)
    return Step(facts.table, valid(rng, facts), bytes(bad_pair(rng, facts, kind)), says(BAD_PAIR))


def any_pair(rng, facts):
    return bytes(rng.choice([rng.choice(facts.pairs), bad_pair(rng, facts)]))


def step_in_a_bad_state(rng, kind, place):
    facts = with_places(rng, kind)
    heard, at = damaged(rng, facts, kind, place)
    return Step(facts.table, heard, any_pair(rng, facts), says(BAD_STATE, at))


def step_of_other_length(rng):
    facts = table(rng)
    heard = of_length(valid(rng, facts), rng.choice(OTHER_LENGTHS))
    return Step(facts.table, heard, any_pair(rng, facts), says(BUFFER_LENGTH))


# ---- a run


def run(rng, heard=valid, order=short, make=table):
    facts = make(rng)
    return Run(facts.table, heard(rng, facts), schedule_of(order(rng, facts)), lent_sums(rng), ACCEPTED)


def zeros(rng, facts):
    return ZEROS


def nothing(rng, facts):
    return []


def longest(rng, facts):
    return walk(rng, facts, MOST_PAIRS)


def settling(rng, facts):
    """Rounds enough for a path of 12 hops, pair by pair."""
    return in_rounds(rng, facts.pairs, min(MOST_PAIRS, rng.randint(12, 20) * len(facts.pairs)))


def run_in_a_bad_state(rng, kind, place):
    facts = with_places(rng, kind)
    heard, at = damaged(rng, facts, kind, place)
    return Run(facts.table, heard, schedule_of(short(rng, facts)), lent_sums(rng), says(BAD_STATE, at))


def run_to_a_bad_pair(rng, kind, place):
    facts = table(rng)
    schedule, at = ending_badly(rng, facts, kind, place)
    return Run(facts.table, valid(rng, facts), schedule, lent_sums(rng), says(BAD_PAIR, at))


def run_of_other_lengths(rng):
    """The state, the sums, or both."""
    case = run(rng)
    other = rng.choice([["heard"], ["sums"], ["heard", "sums"]])
    heard = of_length(case.heard, rng.choice(OTHER_LENGTHS)) if "heard" in other else case.heard
    length = rng.choice(OTHER_SUMS) if "sums" in other else SUMS_BYTES
    return case._replace(heard=heard, sums=lent_sums(rng, length), says=says(BUFFER_LENGTH))


def bad_length(rng, schedule):
    """Odd, by a byte less or more, or one pair or more too long; a schedule that is both is one refusal."""
    if rng.random() < 0.6:
        return rng.choice([schedule[:-1], schedule + rng.randbytes(1)])
    longer = schedule * (2 * MOST_PAIRS // len(schedule) + 1)
    return longer[: 2 * MOST_PAIRS] + schedule[:2] * rng.choice([1, 1, 2, 100]) + rng.choice([b"", b"\0"])


def run_of_bad_length(rng):
    case = run(rng)
    return case._replace(schedule=bad_length(rng, case.schedule), says=says(BAD_LENGTH))


def longest_with_a_bad_pair(rng):
    """The last pair of the longest schedule, or the one that would follow."""
    case = run(rng, order=longest)
    stray = bytes(bad_pair(rng, Facts(case.table)))
    if rng.random() < 0.5:
        return case._replace(schedule=case.schedule + stray, says=says(BAD_LENGTH))
    return case._replace(schedule=case.schedule[:-2] + stray, says=says(BAD_PAIR, MOST_PAIRS - 1))


# ---- several refusals at once


def bad_tables(rng):
    """Damaged tables of each number from 2 to 11, with their codes."""
    damaged = [case for number in reader.FAULTS for case in reader.damaged(number, 4, rng)]
    ragged = [(b"".join(reader.small(rng)) + b"\x01", says(3)) for _ in range(12)]
    long = [(bytes(reader.MOST_BYTES + more), says(2)) for more in (1, 15, 16, 256)]
    return [(case.table, says(*case.expected)) for case in damaged] + ragged + 3 * long


def several(count, rng):
    tables = bad_tables(rng)
    return [with_faults(rng, *rng.choice(tables)) for _ in range(count)]


def with_faults(rng, bad_table, table_says):
    """Two faults or more of a run, each where the call looks for it; the first in the order of the page decides."""
    facts = table(rng)
    kinds = [kind for kind, places in fault_places(facts).items() if places]
    heard, state_at = damaged(rng, facts, rng.choice(kinds), rng.choice(["first", "last", "any"]))
    schedule, pair_at = ending_badly(rng, facts, None, rng.choice(["first", "middle", "last"]))
    case = Run(facts.table, valid(rng, facts), schedule_of(short(rng, facts)), lent_sums(rng), ACCEPTED)
    # From the last to the first, so that what an earlier check says stays.
    faults = {
        "pair": lambda case: case._replace(schedule=schedule, says=says(BAD_PAIR, pair_at)),
        "length": lambda case: case._replace(schedule=bad_length(rng, case.schedule), says=says(BAD_LENGTH)),
        "state": lambda case: case._replace(heard=heard, says=says(BAD_STATE, state_at)),
        "table": lambda case: case._replace(table=bad_table, says=table_says),
        "sums": lambda case: case._replace(sums=lent_sums(rng, rng.choice(OTHER_SUMS)), says=says(BUFFER_LENGTH)),
        "heard": lambda case: case._replace(heard=case.heard + bytes(1), says=says(BUFFER_LENGTH)),
    }
    chosen = rng.sample(list(faults), rng.randint(2, len(faults)))
    for name in [name for name in faults if name in chosen]:
        case = faults[name](case)
    return case


def several_for_a_step(count, rng):
    """Steps with the faults of runs, but for those of the sums and of the schedule's length, which a step has not."""
    runs = several(3 * count, rng)
    others = (says(BUFFER_LENGTH), says(BAD_LENGTH))
    own = [case for case in runs if len(case.heard) != HEARD_BYTES or case.says not in others]
    return [step_of(rng, case) for case in own[:count]]


def step_of(rng, case):
    place = int(case.says["code"]) // 256
    if case.says != says(BAD_PAIR, place):
        return Step(case.table, case.heard, rng.randbytes(2), case.says)
    return Step(case.table, case.heard, case.schedule[2 * place : 2 * place + 2], says(BAD_PAIR))


# ---- tables of the reader's tests


def from_reader(make, *arguments):
    """Tables that are mostly refused, in calls that fit them as far as they are accepted."""

    def made(count, rng):
        return [around(rng, case) for case in make(*arguments, count, rng)]

    return made


def around(rng, case):
    pairs = Facts(case.table[: len(case.table) // RECORD_BYTES * RECORD_BYTES]).pairs or [(1, 0)]
    schedule = schedule_of(rng.choices(pairs, k=rng.randrange(20)))
    expected = {} if case.expected in (None, reader.ACCEPTED) else says(*case.expected)
    return Run(case.table, ZEROS, schedule, lent_sums(rng), expected)


def steps_from_reader(make, *arguments):
    runs = from_reader(make, *arguments)
    return lambda count, rng: [Step(c.table, c.heard, c.schedule[:2] or bytes(2), c.says) for c in runs(count, rng)]


TABLES = {f"table_{number}": (reader.damaged, number) for number in reader.FAULTS} | {
    "table_ragged": (reader.ragged,),
    "table_around_longest": (reader.around_longest,),
    "table_several_faults": (reader.several_faults,),
    "table_changed_byte": (reader.changed_byte,),
    "table_likely_bytes": (reader.likely_bytes,),
}
FAULTS = ("not_listening", "above_records", "above_destination")
STATES = [(kind, place) for kind in FAULTS for place in ("first", "last", "any")]
PAIRS = [(kind, place) for kind in BAD_PAIRS for place in ("first", "middle", "last")]


def at_each(make, places, count):
    """A kind for each fault and place."""
    return {"_".join(how): (each(partial(make, kind=how[0], place=how[1])), count) for how in places}


def of_tables(make):
    # The tables around the longest are past it only from so many on.
    counts = {"table_around_longest": 140} | {f"table_{number}": 8 for number in reader.FAULTS}
    return {name: (make(*how), counts.get(name, 60)) for name, how in TABLES.items()}


# How each kind is made, and how many cases it has; for a damaged table, at each of the reader's three places.
STEPS = {"from_zeros": (each(partial(step, from_zeros=True)), 200), "from_valid": (each(step), 900)}
STEPS |= {kind: (each(partial(step_at_a_bad_pair, kind=kind)), 60) for kind in BAD_PAIRS}
STEPS |= at_each(step_in_a_bad_state, STATES, 20) | of_tables(steps_from_reader)
STEPS |= {"other_length": (each(step_of_other_length), 60), "several": (several_for_a_step, 200)}

RUNS = {
    "from_zeros": (each(partial(run, heard=zeros)), 300),
    "from_valid": (each(run), 600),
    "many_rounds": (each(partial(run, order=settling)), 60),
    "line": (each(partial(run, order=settling, make=line)), 20),
    "empty_schedule": (each(partial(run, order=nothing)), 60),
    "longest_schedule": (each(partial(run, order=longest)), 30),
    "longest_with_a_bad_pair": (each(longest_with_a_bad_pair), 10),
    "other_lengths": (each(run_of_other_lengths), 100),
    "bad_length": (each(run_of_bad_length), 100),
    "several": (several, 400),
}
RUNS |= at_each(run_to_a_bad_pair, PAIRS, 20) | at_each(run_in_a_bad_state, STATES, 20) | of_tables(from_reader)
KINDS = {"step": STEPS, "run": RUNS}
