"""What the check reports against where the machine arrives: settling by rounds, stable assignments, resting points.

Rows, heard states and rounds are those on which the proved code and the second program agree; the choices are taken
from the heard states by settling_cases.py, which goes by the rules page alone.
"""

import functools
import random
import unittest
from collections import Counter
from typing import NamedTuple

import check_cases
import comparing
import run_cases
import settling_cases as settling
import test_check
import test_run
import test_run_laws
import test_samples
from comparing import SEED
from reader_cases import MOST_HOPS
from run_cases import ZEROS, Run, Step
from settling_cases import NONE, Report, Routes

# The tests are worth little if one of these hardly occurs: each with its least number.
MIX = {"histories": 200, "complete": 80, "partly stuck": 50, "stale start": 100, "several runs": 150}
MIX |= {"round over a cut": 100, "fewer rounds by the runs": 100, "due": 1000, "due without a path": 200}
MIX |= {"due at stage 3 or later": 500, "due at stage 9 or later": 100, "due with 12 hops in the table": 200}
MIX |= {"due just now": 500, "wrong before": 500}
MIX |= {"wrong before and after a round": 20, "wrong before and after L rounds": 5}

# The verdict, and how many stable assignments there are: none, one, or 2 and more.
STABLE_MIX = {"complete with 1": 30, "stuck with 0": 5, "stuck with 1": 1, "stuck with 2": 5}

SMALL_TABLES, MACHINES = 150, 16
FURTHER_STEPS = 8
PAGE_TABLES = ["empty", "direct", "disagree", "three-ring", "shortcut", "silent", "chain"]


def setUpModule():
    comparing.build_driver(test_check.DRIVER, "check_driver.c")
    test_run.setUpModule()


def reports(kind, tables):
    """The check of each table, by both programs."""
    cases = [check_cases.Case(routes.table, check_cases.ACCEPTED) for routes in tables]
    answers = zip(tables, test_check.compare(kind, cases))
    return [Report(routes, bytes.fromhex(a["rows"]), int(a["longest"]), a["stuck"] == "0") for routes, a in answers]


def about(report):
    """What a failure says of its table."""
    return f"seed {SEED}, table {report.routes.table.hex()}"


def sample_report(name):
    return reports(name, [Routes(test_samples.sample(f"{name}.table"))])[0]


# ---- histories run by both programs


class Moment(NamedTuple):
    """A heard state after some runs, and their rounds: those of the whole schedule, and the runs' own added up."""

    report: Report
    heard: bytes
    contained: int
    counted: int

    def choices(self):
        return self.report.routes.choices(self.heard)

    def wrong(self, rounds):
        """The vertices that must have settled after so many rounds and have not."""
        return self.report.wrong(self.report.due(rounds), self.choices())


def run_case(report, heard, pairs, rng):
    return Run(report.routes.table, heard, run_cases.schedule_of(pairs), run_cases.lent_sums(rng), run_cases.ACCEPTED)


def step_case(report, heard, pair, says=run_cases.ACCEPTED):
    return Step(report.routes.table, heard, bytes(pair), says)


def all_moments(kind, histories):
    """The moments of each history, from its start on; the first runs of all together, then the second ones."""
    rng = random.Random(f"{SEED} sums {kind}")
    found = [[Moment(history.report, history.heard, 0, 0)] for history in histories]
    for number in range(max(len(history.runs) for history in histories)):
        going = [pair for pair in zip(histories, found) if number < len(pair[0].runs)]
        cases = [run_case(h.report, moments[-1].heard, h.runs[number], rng) for h, moments in going]
        for (history, moments), answer in zip(going, test_run.compare("run", kind, cases)):
            moments.append(next_moment(history, number, moments[-1], answer))
    return found


def next_moment(history, number, last, answer):
    contained = len(settling.closings(history.report.routes, history.pairs(number + 1)))
    counted = last.counted + int(answer["rounds"])
    return Moment(history.report, test_run_laws.heard_of(answer), contained, counted)


@functools.cache
def histories(kind):
    """Seeded histories of a kind with their moments."""
    make, count = settling.KINDS[kind]
    rng = random.Random(f"{SEED} settling {kind}")
    found = [settling.history(rng, report) for report in reports(kind, [make(rng) for _ in range(count)])]
    return list(zip(found, all_moments(kind, found)))


def ends(kind):
    return [moments[-1] for _, moments in histories(kind)]


def every_moment():
    return [moment for kind in settling.KINDS for _, moments in histories(kind) for moment in moments]


def after_steps(kind, moments, rng):
    """The moments after one more step each, at any listening pair."""
    pairs = [rng.choice(moment.report.routes.pairs) for moment in moments]
    cases = [step_case(moment.report, moment.heard, pair) for moment, pair in zip(moments, pairs)]
    answers = test_run.compare("step", kind, cases)
    return [moment._replace(heard=test_run_laws.heard_of(answer)) for moment, answer in zip(moments, answers)]


# ---- what the histories turned out to be


def history_labels(history, moments):
    end, report = moments[-1], history.report
    found = {
        "histories": True,
        "complete": report.is_complete,
        "partly stuck": report.settled() and not report.is_complete,
        "stale start": any(history.heard),
        "several runs": len(history.runs) > 1,
        "round over a cut": any(is_open(history, at) for at in range(1, len(history.runs))),
        "fewer rounds by the runs": end.counted < end.contained,
    }
    yield from (label for label, is_so in found.items() if is_so)
    for v in report.due(end.contained):
        yield from due_labels(report, v, moments)


def is_open(history, count):
    """Whether a round has begun in so many runs and not closed."""
    pairs = history.pairs(count)
    return settling.closings(history.report.routes, pairs)[-1:] != [len(pairs)]


def due_labels(report, v, moments):
    stage, bound = report.stage(v), report.stage(v) * report.longest
    before = [moment for moment in moments if moment.contained < bound and report.wrong([v], moment.choices())]
    found = {
        "due": True,
        "due without a path": report.shown(v)[0] == 0,
        "due at stage 3 or later": stage >= 3,
        "due at stage 9 or later": stage >= 9,
        "due with 12 hops in the table": report.longest == 12,
        "due just now": any(moment.contained == bound for moment in moments),
        "wrong before": before,
        "wrong before and after a round": any(moment.contained > 0 for moment in before),
        "wrong before and after L rounds": any(moment.contained >= report.longest for moment in before),
    }
    yield from (label for label, is_so in found.items() if is_so)


def said(found, mix):
    return ", ".join(f"{label}: {found[label]}" for label in mix)


def too_few(found, mix):
    return {label: found[label] for label in mix if found[label] < mix[label]}


# ---- settling


class Settling(unittest.TestCase):
    """One test for each kind of table: who is settled at stage k chooses as reported after k times L rounds, and on."""

    def held(self, kind):
        self.assertGreater(sum(len(end.report.due(end.contained)) for end in ends(kind)), 0)
        for _, moments in histories(kind):
            for moment in moments:
                self.assertEqual(moment.wrong(moment.contained), [], about(moment.report))

    def test_it_stays_through_every_step(self):
        rng = random.Random(f"{SEED} further steps")
        going = [end for kind in settling.KINDS for end in ends(kind) if end.report.due(end.contained)]
        self.assertGreater(len(going), MIX["histories"] // 2)
        for _ in range(FURTHER_STEPS):
            going = after_steps("further", going, rng)
            for moment in going:
                self.assertEqual(moment.wrong(moment.contained), [], about(moment.report))

    def test_a_settled_table_moves_no_more(self):
        """Where all are due, a further run changes no choice at any of its steps, so that its last change is 0."""
        rng = random.Random(f"{SEED} further runs")
        due = [end for kind in settling.KINDS for end in ends(kind) if is_all_due(end)]
        self.assertGreater(len(due), MIX["complete"] // 2)
        cases = [run_case(e.report, e.heard, rng.choices(e.report.routes.pairs, k=200), rng) for e in due]
        for answer in test_run.compare("run", "further", cases):
            self.assertEqual([answer[name] for name in ("ups", "downs", "last")], ["0", "0", "0"])

    def test_the_mix_has_each_kind(self):
        walked = [pair for kind in settling.KINDS for pair in histories(kind)]
        found = Counter(label for pair in walked for label in history_labels(*pair))
        print(f"test_settling: seed {SEED}, {said(found, MIX)}", flush=True)
        self.assertEqual(too_few(found, MIX), {})


def is_all_due(end):
    return end.report.is_complete and len(end.report.due(end.contained)) == len(end.report.routes.present)


class OwnCount(unittest.TestCase):
    """The rounds that the runs answer, added up, in place of those of the whole schedule."""

    def test_runs_count_no_more_rounds_than_the_schedule_has(self):
        moments = every_moment()
        self.assertEqual([m for m in moments if m.counted > m.contained], [])
        self.assertGreaterEqual(sum(m.counted < m.contained for m in moments), MIX["fewer rounds by the runs"])

    def test_it_settles_by_the_runs_own_count(self):
        moments = every_moment()
        self.assertGreater(sum(len(m.report.due(m.counted)) for m in moments), MIX["due"] // 2)
        fewer = [m for m in moments if m.counted < m.contained]
        self.assertGreater(sum(len(m.report.due(m.counted)) for m in fewer), 0)
        for moment in moments:
            self.assertEqual(moment.wrong(moment.counted), [], about(moment.report))


# ---- stable assignments


def page_tables():
    return [Routes(test_samples.sample(f"{name}.table")) for name in PAGE_TABLES]


@functools.cache
def small_tables():
    """Tables 1 to 7 of the page and random ones: each report with all stable assignments."""
    rng = random.Random(f"{SEED} stable")
    tables = page_tables() + [settling.few_assignments(rng) for _ in range(SMALL_TABLES)]
    return [(report, report.routes.stable()) for report in reports("few assignments", tables)]


def of_page(name):
    return small_tables()[PAGE_TABLES.index(name)]


def disagreeing(report, stable):
    """The stable assignments that differ from the report at a settled vertex."""
    return [assigned for assigned in stable if report.wrong(report.settled(), assigned)]


def stable_label(report, stable):
    verdict = "complete" if report.is_complete else "stuck"
    return f"{verdict} with {min(len(stable), 2)}"


class Stable(unittest.TestCase):
    """All stable assignments of small tables, found by trying every assignment."""

    def test_each_agrees_with_the_report(self):
        for report, stable in small_tables():
            self.assertEqual(disagreeing(report, stable), [], about(report))

    def test_a_complete_report_is_the_only_one(self):
        complete = [(report, stable) for report, stable in small_tables() if report.is_complete]
        self.assertGreater(len(complete), SMALL_TABLES // 5)
        for report, stable in complete:
            self.assertEqual(len(stable), 1, about(report))
            self.assertEqual(report.wrong(report.routes.present, stable[0]), [])

    def test_tables_with_none_one_and_several_occur(self):
        found = Counter(stable_label(*pair) for pair in small_tables())
        print(f"test_settling: seed {SEED}, {said(found, STABLE_MIX)}", flush=True)
        self.assertEqual(too_few(found, STABLE_MIX), {})

    def test_table_3_has_two_and_table_4_none(self):
        self.assertEqual([len(of_page(name)[1]) for name in ("disagree", "three-ring")], [2, 0])


# ---- every step from every valid heard state


class Machine(NamedTuple):
    """The valid heard states of a table, and for each of them the state after the step at each listening pair."""

    report: Report
    after: dict

    def resting(self):
        return [heard for heard, steps in self.after.items() if set(steps) == {heard}]

    def after_a_round(self, states):
        """The states in which a round from any of these can end, whatever its order and what it repeats."""
        every_pair = 2 ** len(self.report.routes.pairs) - 1
        reached, going = set(), [(heard, 0) for heard in states]
        while going:
            heard, activated = node = going.pop()
            if node not in reached:
                reached.add(node)
                going += [(then, activated | 1 << at) for at, then in enumerate(self.after[heard])]
        return {heard for heard, activated in reached if activated == every_pair}

    def wrong(self, vertices, states):
        """The vertices that one of these states has wrong."""
        choices = [self.report.routes.choices(heard) for heard in states]
        return sorted({v for chosen in choices for v in self.report.wrong(vertices, chosen)})


def machine_of(report):
    states = list(report.routes.heard_states())
    cases = [step_case(report, heard, pair) for heard in states for pair in report.routes.pairs]
    answers = test_run.compare("step", "every valid state", cases)
    found = [test_run_laws.heard_of(answer) for answer in answers]
    width = len(report.routes.pairs)
    return Machine(report, {heard: found[at * width : (at + 1) * width] for at, heard in enumerate(states)})


@functools.cache
def machines():
    """Tables 2, 3, 6 and 7 of the page, a relay, and random tables."""
    rng = random.Random(f"{SEED} machines")
    tables = [routes for routes in page_tables() if routes.pairs and settling.has_few_steps(routes)]
    tables += [settling.relays_of([1, 2, 3], 2)] + [settling.few_steps(rng) for _ in range(MACHINES)]
    return [machine_of(report) for report in reports("few steps", tables)]


class EverySchedule(unittest.TestCase):
    """From every valid heard state of the smallest tables, by rounds in every order with every repetition."""

    def test_it_settles(self):
        self.assertGreater(sum(bool(machine.report.settled()) for machine in machines()), MACHINES // 2)
        for machine in machines():
            states, rounds = set(machine.after), 0
            while machine.report.due(rounds) != machine.report.settled():
                states, rounds = machine.after_a_round(states), rounds + 1
                due = machine.report.due(rounds)
                self.assertEqual(machine.wrong(due, states), [], about(machine.report))

    def test_table_7_needs_as_many_rounds_as_stages(self):
        """In all states, then in those after a round, and so on; a bound below 3 would be wrong here."""
        chain, wrong = machine_of(sample_report("chain")), []
        states = set(chain.after)
        for _ in range(5):
            wrong.append(chain.wrong([1, 2, 3], states))
            states = chain.after_a_round(states)
        self.assertEqual(wrong, [[1, 2, 3], [2, 3], [3], [], []])


# ---- resting points


def unmoved(kind, states):
    """Whether no step changes a byte of each state, by a run that has every pair once: a changed byte would stay so."""
    rng = random.Random(f"{SEED} sums {kind}")
    cases = [run_case(report, heard, settling.any_order(rng, report), rng) for report, heard in states]
    answers = test_run.compare("run", kind, cases)
    return [test_run_laws.heard_of(answer) == heard for answer, (_, heard) in zip(answers, states)]


class Resting(unittest.TestCase):
    """Heard states that no step changes, and stable assignments: each gives the other."""

    def stored(self):
        """Each report with a stable assignment and the state that stores it."""
        pairs = [(report, assigned) for report, stable in small_tables() for assigned in stable]
        return [(report, assigned, report.routes.storing(assigned)) for report, assigned in pairs]

    def test_a_stored_assignment_is_valid_and_chosen(self):
        self.assertGreater(len(self.stored()), SMALL_TABLES // 2)
        for report, assigned, heard in self.stored():
            self.assertTrue(report.routes.is_valid(heard))
            self.assertEqual(report.routes.choices(heard), assigned)

    def test_no_step_changes_a_stored_assignment(self):
        unchanged = [run_cases.ACCEPTED | {"movement": "0", "heard": heard.hex()} for _, _, heard in self.stored()]
        cases = [
            step_case(report, heard, pair, says)
            for (report, _, heard), says in zip(self.stored(), unchanged)
            for pair in report.routes.pairs
        ]
        self.assertEqual(len(test_run.compare("step", "stored assignment", cases)), len(cases))

    def test_what_rests_is_a_stable_assignment(self):
        """Of all valid heard states of the smallest tables those rest that store a stable assignment, and no others."""
        for machine in machines():
            routes = machine.report.routes
            self.assertEqual(set(machine.resting()), {routes.storing(assigned) for assigned in routes.stable()})
            for heard in machine.resting():
                self.assertTrue(routes.is_stable(routes.choices(heard)))

    def test_tables_with_one_and_two_resting_states_occur(self):
        found = Counter(len(machine.resting()) for machine in machines() if len(machine.after) > 2)
        self.assertGreater(found[1], MACHINES // 4)
        self.assertGreater(found[2], 0)

    def test_table_4_never_rests(self):
        report = sample_report("three-ring")
        states = [(report, heard) for heard in report.routes.heard_states()]
        self.assertEqual(sum(unmoved("three-ring", states)), 0)

    def test_a_history_that_ends_at_rest_ends_in_a_stable_assignment(self):
        ended = [(end.report, end.heard) for kind in settling.KINDS for end in ends(kind)]
        resting = [state for state, is_so in zip(ended, unmoved("ends", ended)) if is_so]
        self.assertTrue(MIX["histories"] // 4 < len(resting) < len(ended))
        for report, heard in resting:
            self.assertTrue(report.routes.is_stable(report.routes.choices(heard)), about(report))


# ---- these tests can fail


def walked(report, heard, runs):
    return all_moments("by hand", [settling.History(report, heard, runs)])[0]


class CanFail(unittest.TestCase):
    """Too few rounds and wrong reports, found by the functions that the tests above go by."""

    def test_table_7_is_wrong_after_two_rounds(self):
        """From late to early in each round, 3 hears of 2's direct path just before 2 leaves it."""
        report = sample_report("chain")
        moments = walked(report, ZEROS, [[(3, 2), (2, 1), (2, 0), (1, 0)]] * 6)
        wrong = [report.wrong([1, 2, 3], moment.choices()) for moment in moments]
        self.assertEqual([moment.contained for moment in moments], list(range(7)))
        self.assertEqual(wrong, [[1, 2], [2], [3], [], [], [], []])

    def test_table_2_is_wrong_after_no_round(self):
        moments = walked(sample_report("direct"), ZEROS, [[(1, 0)]])
        self.assertEqual([m.report.wrong([1], m.choices()) for m in moments], [[1], []])

    def test_relays_need_all_hops_for_every_two_stages(self):
        """From late to early in each round, the last vertex is wrong until there is one round more than that."""
        for hops in range(2, MOST_HOPS + 1):
            layers = settling.most_layers(hops)
            vertices = range(1, 2 + layers * hops)
            report = reports("relays by hand", [settling.relays_of(vertices, hops)])[0]
            late_first = sorted(report.routes.pairs, reverse=True)
            moments = walked(report, ZEROS, [late_first * (layers * hops), late_first])
            self.assertEqual((report.longest, report.stage(vertices[-1])), (hops, 2 * layers + 1))
            self.assertEqual([report.wrong(vertices, m.choices()) for m in moments[1:]], [[vertices[-1]], []])

    def test_a_wrong_row_is_found(self):
        """Each row of a vertex that is due, with each other path that it could show."""
        planted = [
            (end, v, path)
            for kind in ("small", "relays", "silent")
            for end in ends(kind)
            for v in end.report.due(end.contained)
            for path in other_paths(end, v)
        ]
        self.assertGreater(len(planted), MIX["due"] // 2)
        for end, v, path in planted:
            wrong = end.report.with_row(v, end.report.stage(v), path)
            self.assertEqual(end._replace(report=wrong).wrong(end.contained), [v])

    def test_a_machine_that_stays_is_found(self):
        """The states at the start, in place of those after the rounds."""
        ended = [(moments[0], moments[-1]) for kind in settling.KINDS for _, moments in histories(kind)]
        found = [start._replace(contained=end.contained) for start, end in ended]
        self.assertGreater(sum(bool(moment.wrong(moment.contained)) for moment in found), MIX["histories"] // 4)

    def test_a_wrong_report_disagrees_with_a_stable_assignment(self):
        """Of table 3 nobody settles: whichever path a report gave to 1, one of the two stable assignments has another.
        Of table 5 a check that compares only direct paths would settle 2 on (2 0)."""
        report, _ = of_page("disagree")
        wrong = [("disagree", 1, path) for path in [NONE, *report.routes.own(1)]] + [("shortcut", 2, (2, 0))]
        for name, v, path in wrong:
            report, stable = of_page(name)
            self.assertGreater(len(disagreeing(report.with_row(v, 1, path), stable)), 0)

    def test_a_state_that_moves_is_seen(self):
        """Table 2 from zeros has one step, and it changes its byte."""
        self.assertEqual(unmoved("moving", [(sample_report("direct"), ZEROS)]), [False])


def other_paths(end, v):
    return [path for path in [NONE, *end.report.routes.own(v)] if path != end.choices()[v]]


test_samples.add_tests(Settling, settling.KINDS)

if __name__ == "__main__":
    unittest.main()
