"""Cases 8 and 9 of the rules page, written out by hand: step by step, and as runs."""

import random

import run_cases
import test_samples
from run_cases import ZEROS, Run, Step

NUMBERS = ["steps", "ups", "downs", "last", "rounds"]


def heard_hex(bytes_at):
    return run_cases.with_bytes(ZEROS, {run_cases.offset(pair): byte for pair, byte in bytes_at.items()}).hex()


# For each step its pair, its movement, and the byte that it stores.
CASE_8 = ("disagree", [((1, 0), 15, 1), ((2, 1), 16, 2)])
CASE_9 = ("chain", [((2, 0), 15, 1), ((3, 2), 16, 2), ((1, 0), 16, 1), ((2, 1), 1, 1), ((3, 2), -16, 1)])
BY_HAND = {
    "case-8": (*CASE_8, "2 2 0 2 0", {1: 15, 2: 16}),
    "case-9": (*CASE_9, "5 4 1 5 1", {1: 16, 2: 16}),
}


def steps_by_hand(name, steps):
    """Each step from the state that the steps before it leave, written out."""
    table, heard = test_samples.sample(f"{name}.table"), {}
    for pair, movement, stored in steps:
        before = bytes.fromhex(heard_hex(heard))
        heard |= {pair: stored}
        yield Step(table, before, bytes(pair), {"code": "0", "movement": str(movement), "heard": heard_hex(heard)})


def run_by_hand(name, steps, numbers, sums):
    table, schedule = test_samples.sample(f"{name}.table"), run_cases.schedule_of(pair for pair, _, _ in steps)
    heard = heard_hex({pair: stored for pair, _, stored in steps})
    all_sums = ",".join(str(sums.get(v, 0)) for v in range(run_cases.SUMS))
    says = {"code": "0", "heard": heard, "sums": all_sums} | dict(zip(NUMBERS, numbers.split()))
    return Run(table, ZEROS, schedule, run_cases.lent_sums(random.Random(name)), says)
