"""The published examples of paper 001: what the proved program prints of them, held to 001's tables and to the second
program; and searches through all heard states that single pairs reach.

Tables, rows and stable states stand here once more, as they are read off 001, and not in the words of a definition. A
pair has the listener first; 001 writes an edge from the speaker.
"""

import subprocess
import unittest
from typing import NamedTuple

import settling_cases
import test_program
import test_samples
from run_cases import SUMS_BYTES, ZEROS, offset, with_bytes
from settling_cases import NONE

STDOUT = test_samples.ROOT / "crates" / "published_program" / "stdout"
RESTS, MOVES = "no step changes this state", "a step changes this state"


def path(text):
    return tuple(map(int, text.split()))


def paths(text):
    """One path for each router, `-` for none."""
    return {v: NONE if word.strip() == "-" else path(word) for v, word in enumerate(text.split("|"), start=1)}


class Row(NamedTuple):
    title: str
    pairs: list  # of listener and speaker
    selected: dict  # from each router to its path


def row(title, pairs, selected):
    return Row(title, [path(pair) for pair in pairs.split(",") if pair], paths(selected))


class Part(NamedTuple):
    """Rows one after the other, from zeros or another state; after some the program says whether the state rests."""

    rows: list
    start: bytes = ZEROS
    end: str = None


class Published(NamedTuple):
    sample: str
    routes: settling_cases.Routes
    stable: list  # of what 001 calls stable
    parts: list


def of_lists(*lists):
    """Each router's paths, best first."""
    return settling_cases.of_paths({v: list(map(path, words.split("|"))) for v, words in enumerate(lists, start=1)})


# ---- DISAGREE, Tables 2 and 3

TABLE_3 = [paths("1 0 | 2 1 0"), paths("1 2 0 | 2 0")]
ROW_1 = row("from zeros, row 1, pairs", "1 0,2 0", "1 0 | 2 0")
DISAGREE = Published(
    "disagree",
    of_lists("1 2 0 | 1 0", "2 1 0 | 2 0"),
    TABLE_3,
    [
        Part([ROW_1, Row("row 2, 2 first, pairs", [(2, 1), (1, 2)], TABLE_3[0])], end=RESTS),
        Part([ROW_1, Row("row 2, 1 first, pairs", [(1, 2), (2, 1)], TABLE_3[1])], end=RESTS),
    ],
)

# ---- BAD GADGET

AROUND = "1 0,2 0,3 0,1 3,2 1,3 2"
BAD_GADGET = Published(
    "bad-gadget",
    of_lists("1 3 0 | 1 0", "2 1 0 | 2 0", "3 2 0 | 3 0"),
    [],
    [
        Part(
            [
                row("round 1, pairs", AROUND, "1 3 0 | 2 0 | 3 2 0"),
                row("round 2, pairs", AROUND, "1 0 | 2 1 0 | 3 0"),
                row("round 3, pairs", AROUND, "1 3 0 | 2 0 | 3 2 0"),
            ],
            end=MOVES,
        )
    ],
)

# ---- BLEEDIN-EDGE, Tables 4 and 5

EDGE = of_lists("1 2 4 0 | 1 0", "2 4 3 0 | 2 4 0 | 2 1 0 | 2 3 0", "3 2 1 0 | 3 0", "4 3 0 | 4 2 3 0 | 4 0")
TABLE_4 = [
    row("row 1, pairs", "1 0,3 0,4 0", "1 0 | - | 3 0 | 4 0"),
    row("row 2, pairs", "2 3", "1 0 | 2 3 0 | 3 0 | 4 0"),
    row("row 3, pairs", "4 2,2 4", "1 0 | 2 4 0 | 3 0 | 4 2 3 0"),
    row("row 4, pairs", "2 1,1 2", "1 2 4 0 | 2 4 0 | 3 0 | 4 2 3 0"),
    row("row 5, pairs", "2 4", "1 2 4 0 | 2 1 0 | 3 0 | 4 2 3 0"),
    row("row 6, pairs", "3 2", "1 2 4 0 | 2 1 0 | 3 2 1 0 | 4 2 3 0"),
    row("row 7, pairs", "4 3", "1 2 4 0 | 2 1 0 | 3 2 1 0 | 4 2 3 0"),
    row("row 8, pairs", "2 1,2 3,2 4", "1 2 4 0 | - | 3 2 1 0 | 4 2 3 0"),
    row("row 9, pairs", "1 2,3 2,4 2", "1 0 | - | 3 0 | 4 0"),
]
FOUR_FIRST = row("row 3, 4 first, pairs", "4 2,2 4", "1 0 | 2 3 0 | 3 0 | 4 2 3 0")
TWO_FIRST = row("row 3 after row 2 again, 2 first, pairs", "2 4,4 2", "1 0 | 2 4 0 | 3 0 | 4 0")
TABLE_5 = paths("1 0 | 2 4 3 0 | 3 0 | 4 3 0")
ROUND = Row("round, pairs", list(map(path, "1 0,3 0,4 0,4 3,2 4,1 2,2 1,2 3,3 2,4 2".split(","))), TABLE_5)


def stepped(routes, heard, pair, seen=None):
    """The heard state after a step, in which the speaker's choice is the one of the state seen, by the page."""
    speaker = pair[1]
    chosen = routes.choice(seen or heard, speaker) if speaker else settling_cases.DESTINATION
    return with_bytes(heard, {offset(pair): routes.rank(chosen)})


def at_once(routes, heard, pairs):
    """All pairs at one moment, as 001 has it: each hears what was chosen before."""
    after = heard
    for pair in pairs:
        after = stepped(routes, after, pair, seen=heard)
    return after


def after_moments(routes, rows):
    heard = ZEROS
    for one in rows:
        heard = at_once(routes, heard, one.pairs)
    return heard


ROW_3 = after_moments(EDGE, TABLE_4[:3])
LEFTOVER = [Row("row 3, no pairs", [], TABLE_4[2].selected), *TABLE_4[3:], TABLE_4[1]]
BLEEDIN_EDGE = Published(
    "bleedin-edge",
    EDGE,
    [TABLE_5],
    [
        Part([*TABLE_4[:2], FOUR_FIRST]),
        Part([TWO_FIRST], start=after_moments(EDGE, TABLE_4[:2])),
        Part(LEFTOVER, start=ROW_3),
        Part([ROUND], end=RESTS),
    ],
)

# ---- DI-SAFE-GREE, Table 6

TABLE_6 = paths("1 0 | 2 3 0 | 3 0")
DI_SAFE_GREE = Published(
    "shortcut",
    of_lists("1 0", "2 3 0 | 2 1 0 | 2 0", "3 2 0 | 3 0"),
    [TABLE_6],
    [
        Part(
            [
                row("direct paths, pairs", "1 0,2 0,3 0,3 2", "1 0 | 2 0 | 3 2 0"),
                row("then 2 1 0, pairs", "2 1,3 2", "1 0 | 2 1 0 | 3 0"),
                row("then 2 3 0, pairs", "2 3,3 2", "1 0 | 2 3 0 | 3 0"),
            ],
            end=RESTS,
        )
    ],
)

EXAMPLES = {"DISAGREE": DISAGREE, "BAD GADGET": BAD_GADGET, "BLEEDIN-EDGE": BLEEDIN_EDGE, "DI-SAFE-GREE": DI_SAFE_GREE}

# ---- the second program


def setUpModule():
    test_samples.setUpModule()


def second_lines(command, *fields):
    """The words of the second program's answer to one case."""
    case = " ".join(field.hex() for field in fields) + "\n"
    return test_samples.second(command, table=case.encode()).split()


class Ran(NamedTuple):
    numbers: list  # steps, ups, downs, last change, rounds
    heard: bytes
    sums: list


def ran(table, heard, pairs):
    schedule = bytes(number for pair in pairs for number in pair)
    code, *numbers, heard, sums, _ = second_lines("run-batch", table, heard, schedule, bytes(SUMS_BYTES))
    if code != "0":
        raise AssertionError(f"refused with {code}")
    return Ran(numbers, bytes.fromhex(heard), sums.split(","))


def rests(routes, heard):
    """Whether the second program's step leaves the state at every listening pair."""
    steps = [second_lines("step-batch", routes.table, heard, bytes(pair)) for pair in routes.pairs]
    if any(code != "0" for code, _, _ in steps):
        raise AssertionError("a listening pair was refused")
    return all(bytes.fromhex(after) == heard for _, _, after in steps)


def run_lines(routes, answer):
    """The run in its printed form; the choices are read off the heard state by the page's words."""
    words = "run steps {} ups {} downs {} last {} rounds {}".format(*answer.numbers)
    lines = [f"{v} sum {answer.sums[v]} {route(routes, answer.heard, v)}" for v in routes.present]
    return [words, *lines]


def route(routes, heard, v):
    chosen = routes.choice(heard, v)
    return f"rank {routes.rank(chosen)} path {' '.join(map(str, chosen))}" if chosen else "none"


def part_lines(routes, part):
    """What is expected of a part, by the second program."""
    lines, heard = [], part.start
    for one in part.rows:
        answer = ran(routes.table, heard, one.pairs)
        heard = answer.heard
        lines += [" ".join([one.title, *(str(number) for pair in one.pairs for number in pair)])]
        lines += run_lines(routes, answer)
    if part.end:
        lines.append(RESTS if rests(routes, heard) else MOVES)
    return lines


def printed(name):
    """The stored lines of an example, without its headings."""
    sections = {}
    for line in STDOUT.read_text().splitlines():
        if " of 001: " in line:
            sections[line.partition(" of 001: ")[0]] = []
        elif not line.startswith("Table "):
            list(sections.values())[-1].append(line)
    return sections[name]


class Printed(unittest.TestCase):
    """One test for each example: the stored output is what the second program and the page's choices give."""

    def held(self, name):
        example = EXAMPLES[name]
        check = test_samples.second("check", table=example.routes.table).splitlines()
        rows = [line for part in example.parts for line in part_lines(example.routes, part)]
        self.assertEqual(printed(name), check + rows)


class Selected(unittest.TestCase):
    """One test for each example: after each row the routers have selected what 001 says, and the ends are as said."""

    def held(self, name):
        example = EXAMPLES[name]
        for part in example.parts:
            heard = part.start
            for one in part.rows:
                heard = ran(example.routes.table, heard, one.pairs).heard
                self.assertEqual(example.routes.choices(heard), one.selected, one.title)
            if part.end:
                self.assertEqual(rests(example.routes, heard), part.end == RESTS)


class Tables(unittest.TestCase):
    """One test for each example: the sample is its table, and its stable assignments are those that 001 names."""

    def held(self, name):
        example = EXAMPLES[name]
        self.assertEqual(test_samples.sample(f"{example.sample}.table"), example.routes.table)
        self.assertCountEqual(example.routes.stable(), example.stable)
        for assigned in example.stable:
            self.assertTrue(rests(example.routes, example.routes.storing(assigned)))


for case in (Printed, Selected, Tables):
    test_samples.add_tests(case, EXAMPLES)


class Program(unittest.TestCase):
    def test_the_front_prints_what_is_stored(self):
        done = subprocess.run([test_program.FRONT, "published"], stdin=subprocess.DEVNULL, stdout=subprocess.PIPE)
        self.assertEqual((done.returncode, done.stdout), (0, STDOUT.read_bytes()))

    def test_every_example_is_printed(self):
        heads = [line.partition(" of 001: ")[0] for line in STDOUT.read_text().splitlines() if " of 001: " in line]
        self.assertEqual(heads, list(EXAMPLES))


# ---- every order of single pairs


def changes(routes, starts):
    """Each heard state that single pairs reach from the given ones, with the states that a step makes of it, itself
    left out."""
    found, waiting = {}, list(starts)
    while waiting:
        heard = waiting.pop()
        if heard not in found:
            found[heard] = {stepped(routes, heard, pair) for pair in routes.pairs} - {heard}
            waiting += found[heard]
    return found


def unending(found):
    """The states that are left when states all of whose steps lead to removed ones are removed again and again: none
    exactly where no order of steps changes the state for ever."""
    left = dict(found)
    while gone := [heard for heard, after in left.items() if not any(state in left for state in after)]:
        for heard in gone:
            del left[heard]
    return left


class Orders(unittest.TestCase):
    """Searches through all states that single pairs reach."""

    def test_disagree_comes_to_rest_under_every_order(self):
        for starts in ([ZEROS], DISAGREE.routes.heard_states()):
            found = changes(DISAGREE.routes, starts)
            self.assertEqual(unending(found), {})
            resting = {heard for heard, after in found.items() if not after}
            self.assertEqual(resting, {DISAGREE.routes.storing(assigned) for assigned in TABLE_3})

    def test_table_2_goes_round_by_moments(self):
        """The same table, with both pairs of rows 2 and 3 at one moment: the state of row 1's choices comes back."""
        first = at_once(DISAGREE.routes, ZEROS, ROW_1.pairs)
        second = at_once(DISAGREE.routes, first, [(2, 1), (1, 2)])
        third = at_once(DISAGREE.routes, second, [(2, 1), (1, 2)])
        self.assertEqual(DISAGREE.routes.choices(second), paths("1 2 0 | 2 1 0"))
        self.assertEqual(DISAGREE.routes.choices(third), ROW_1.selected)
        self.assertEqual(at_once(DISAGREE.routes, third, [(2, 1), (1, 2)]), second)

    def test_bad_gadget_never_rests(self):
        found = changes(BAD_GADGET.routes, BAD_GADGET.routes.heard_states())
        self.assertEqual([heard for heard, after in found.items() if not after], [])

    def test_row_3_of_table_4_is_not_reached_by_single_pairs(self):
        found = changes(EDGE, [ZEROS])
        self.assertGreater(len(found), 1000)
        self.assertNotIn(ROW_3, found)
        self.assertEqual([heard for heard in found if EDGE.choices(heard) == TABLE_4[2].selected], [])

    def test_table_4_goes_round_by_moments(self):
        """Rows 2 to 9 over and over: from row 9 on even the heard bytes come back."""
        heard = after_moments(EDGE, TABLE_4)
        self.assertEqual(EDGE.choices(heard), TABLE_4[0].selected)
        again = heard
        for one in TABLE_4[1:]:
            again = at_once(EDGE, again, one.pairs)
            self.assertEqual(EDGE.choices(again), one.selected, one.title)
        self.assertEqual(again, heard)

    def test_di_safe_gree_comes_to_rest_under_every_order(self):
        found = changes(DI_SAFE_GREE.routes, [ZEROS])
        self.assertEqual(unending(found), {})
        self.assertEqual([heard for heard, after in found.items() if not after], [DI_SAFE_GREE.routes.storing(TABLE_6)])


if __name__ == "__main__":
    unittest.main()
