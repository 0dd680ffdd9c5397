"""Seeded tables for the tests of the reader: valid ones, damaged ones, and bytes of no meaning.

A case is a table with what the rules page says of it: accepted, a number and a place, or nothing where only the two
programs are compared.
"""

from typing import NamedTuple

RECORD_BYTES, MOST_RECORDS, MOST_RANKS, MOST_HOPS, VERTICES = 16, 1008, 16, 12, 64
MOST_BYTES = RECORD_BYTES * MOST_RECORDS
ACCEPTED = (0, 0)


class Case(NamedTuple):
    table: bytes
    expected: tuple | None = None  # number and place


# ---- valid tables


def record(rank, path):
    return bytes([rank, len(path) - 1, *path]).ljust(15, b"\xff") + b"\x00"


def paths(rng, owner, count, most_hops):
    """Different paths of one owner, none of them through it or through the destination before the end."""
    others = [v for v in range(1, VERTICES) if v != owner]
    found = {}
    while len(found) < count:
        found[owner, *rng.sample(others, rng.randrange(most_hops)), 0] = None
    return list(found)


def valid(rng, owners, counts, most_hops=MOST_HOPS):
    """The records of a valid table: the owners rise, each with so many paths as `counts` gives for it."""
    blocks = (paths(rng, owner, counts(), most_hops) for owner in sorted(owners))
    return [record(rank, path) for block in blocks for rank, path in enumerate(block, start=1)]


def small(rng):
    owners = rng.sample(range(1, VERTICES), rng.randrange(6))
    return valid(rng, owners, lambda: rng.randint(1, 4), rng.randint(2, MOST_HOPS))


def large(rng):
    """From 500 records on; every third has all 1,008."""
    if rng.randrange(3) == 0:
        return valid(rng, range(1, VERTICES), lambda: MOST_RANKS)
    owners = rng.sample(range(1, VERTICES), rng.randint(50, 63))
    return valid(rng, owners, lambda: rng.randint(10, MOST_RANKS))


def accepted(make, count, rng):
    return [Case(b"".join(make(rng)), ACCEPTED) for _ in range(count)]


def full_ranks(count, rng):
    """Owners with 15 to 18 paths, ranks running on, since 17 is refused even where it follows 16."""
    cases = []
    for _ in range(count):
        records = valid(rng, rng.sample(range(1, VERTICES), rng.randint(1, 4)), lambda: rng.randint(15, 18))
        over = [i for i, part in enumerate(records) if part[0] > MOST_RANKS]
        cases.append(Case(b"".join(records), (10, over[0]) if over else ACCEPTED))
    return cases


# ---- one fault: each function changes one record so that it breaks its rule and none of those before


def with_byte(part, at, value):
    changed = bytearray(part)
    changed[at] = value
    return bytes(changed)


def other_than(rng, kept, top=255):
    """Every other time a value just outside, since a limit that is off by one shows only there."""
    others = [value for value in range(top + 1) if value not in kept]
    near = [value for value in others if value in (min(kept) - 1, max(kept) + 1)]
    return rng.choice(rng.choice([near, others]) or others)


def hops_bad(rng, part, before):
    return with_byte(part, 1, other_than(rng, range(1, MOST_HOPS + 1)))


def vertex_bad(rng, part, before):
    return with_byte(part, rng.randint(2, 2 + part[1]), other_than(rng, range(VERTICES)))


def filler_bad(rng, part, before):
    at = rng.randint(3 + part[1], 15)
    return with_byte(part, at, other_than(rng, [0 if at == 15 else 255]))


def twice_bad(rng, part, before):
    here, there = rng.sample(range(2, 3 + part[1]), 2)
    return with_byte(part, here, part[there])


def last_bad(rng, part, before):
    return with_byte(part, 2 + part[1], other_than(rng, part[2 : 3 + part[1]], VERTICES - 1))


def owner_bad(rng, part, before):
    return with_byte(part, 2, other_than(rng, part[3 : 3 + part[1]], before[-1][2] - 1))


def rank_bad(rng, part, before):
    """A near rank or any other, since a near one is the likelier to be let through."""
    near = [rank for rank in (part[0] - 1, part[0] + 1, 1, 17) if rank != part[0]]
    return with_byte(part, 0, rng.choice([*near, other_than(rng, [part[0]])]))


def path_bad(rng, part, before):
    """The rank tells how many records of this owner stand before."""
    return part[:1] + rng.choice(before[-(part[0] - 1) :])[1:]


FAULTS = {
    4: hops_bad,
    5: vertex_bad,
    6: filler_bad,
    7: twice_bad,
    8: last_bad,
    9: owner_bad,
    10: rank_bad,
    11: path_bad,
}


def can_break(number, records):
    """The records at which a fault can stand: 9 needs one before, and 11 one of the same owner."""
    needed_rank = 2 if number == 11 else 1
    return [i for i, part in enumerate(records) if part[0] >= needed_rank and (i > 0 or number != 9)]


def breakable(rng, big):
    """High owners leave lower ones for 9, and two paths or more for each give 11 its place."""
    owners = rng.sample(range(20, VERTICES), 40 if big else rng.randint(3, 5))
    return valid(rng, owners, lambda: rng.randint(2, MOST_RANKS if big else 5))


def damaged(number, count, rng):
    """So many cases for the first record that can break the rule, for one between, and for the last of the table."""
    cases = []
    for turn in range(3 * count):
        records = breakable(rng, big=turn % 10 == 0)
        places = can_break(number, records)
        at = (places[0], rng.choice(places[1:-1]), places[-1])[turn % 3]
        records[at] = FAULTS[number](rng, records[at], records[:at])
        cases.append(Case(b"".join(records), (number, at)))
    return cases


# ---- several faults, and bytes of no meaning


def several_faults(count, rng):
    """Up to six faults in up to six records, so that the first bad record and the order of the rules decide."""
    cases = []
    for _ in range(count):
        records = breakable(rng, big=False)
        for _ in range(rng.randint(2, 6)):
            at = rng.randrange(1, len(records))
            records[at] = careless(rng, records[at], records[:at])
        cases.append(Case(b"".join(records)))
    return cases


def careless(rng, part, before):
    """A fault put on a record that may have one already: where it finds no room, any byte changes instead."""
    try:
        return rng.choice(list(FAULTS.values()))(rng, part, before)
    except (IndexError, ValueError):
        return with_byte(part, rng.randrange(RECORD_BYTES), rng.randrange(256))


def changed_byte(count, rng):
    """A valid table with one byte changed, often by one, since that hits the limits; some stay valid."""
    cases = []
    for _ in range(count):
        table = b"".join(breakable(rng, big=False))
        at = rng.randrange(len(table))
        values = [(table[at] + 1) % 256, (table[at] - 1) % 256, rng.randrange(256)]
        cases.append(Case(with_byte(table, at, rng.choice(values))))
    return cases


def random_bytes(count, rng):
    lengths = [rng.choice([rng.randrange(400), RECORD_BYTES * rng.randrange(30)]) for _ in range(count)]
    return [Case(rng.randbytes(length)) for length in lengths]


def likely_record(rng):
    """Each field near its limits, so that every rule has its turn."""
    hops = rng.choice([0, 1, 1, 2, 2, 3, 12, 13])
    path = [rng.choice([1, 2, 3, 63, 63, rng.randrange(66)]) for _ in range(hops)]
    last = rng.choice([0] * 9 + [1])
    part = bytes([rng.choice([1, 1, 1, 2, 16, 17]), hops, *path, last]).ljust(15, b"\xff")[:15] + b"\x00"
    return part if rng.randrange(9) else with_byte(part, rng.randrange(RECORD_BYTES), rng.randrange(256))


def likely_bytes(count, rng):
    return [Case(b"".join(likely_record(rng) for _ in range(rng.randint(1, 4)))) for _ in range(count)]


# ---- lengths


def judged(length, records_say):
    """Refusals 2 and 3 come before what the records say."""
    if length > MOST_BYTES:
        return (2, 0)
    return (3, 0) if length % RECORD_BYTES else records_say


def ragged(count, rng):
    """Tables of any size that end within a record, every other one with a bad first rank."""
    cases = []
    for turn in range(count):
        records = small(rng) if turn % 3 else breakable(rng, big=turn % 10 == 0)
        table = b"".join(records) + rng.randbytes(rng.randint(1, RECORD_BYTES - 1))
        cases.append(Case(with_byte(table, 0, 17) if turn % 2 else table, (3, 0)))
    return cases


def around_longest(count, rng):
    """Every length from three records below 16,128 on, of a full table and of one with a bad first record."""
    good = b"".join(valid(rng, range(1, VERTICES), lambda: MOST_RANKS)) + rng.randbytes(count)
    bad = with_byte(good, 1, 0)
    lengths = range(MOST_BYTES - 3 * RECORD_BYTES, MOST_BYTES - 3 * RECORD_BYTES + count // 2)
    sources = ((good, ACCEPTED), (bad, (4, 0)))
    return [Case(table[:length], judged(length, say)) for table, say in sources for length in lengths]
