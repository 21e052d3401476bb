#!/usr/bin/env python3
"""Statements next to those of S-9 (document 02) that are false, each with the first example of a search.

    python3 conformance/order_false.py

The searches go through small files, most of them file B of document 01 with other rewards; the reference calculates.
Exit status: 0 when every search finds an example, 1 when one does not, 2 when the run itself is not possible.
"""

import os
import sys
from collections import namedtuple

sys.dont_write_bytecode = True
sys.path.insert(0, os.path.dirname(os.path.abspath(__file__)))

import order  # noqa: E402
import runner  # noqa: E402
from order_models import with_reward  # noqa: E402
from parts import build, on_one, valid  # noqa: E402

ONE = 10**12
LARGEST_RAISED = 12     # rewards that are tried past the largest

# words: what is false. files: gives (fields, state, new reward), the smallest first; state and reward are None where
# nothing is raised. shows(before, after): whether the rows of the two answers show it; after is None for one file.
Statement = namedtuple("Statement", "name words files shows")

# What a search finds: the files (one, or the first and the raised one), what was raised in words, the tries made.
Example = namedtuple("Example", "files raised tried")


# --- Small files, the smallest first -------------------------------------------------------------------

def as_b(rewards, R=2, T=1, rates=((1_000_000,), (1_000_000,))):
    """The fields of file B with other rewards, moments, time or rates."""
    return valid(len(rewards), R, 100_000_000, T, list(rewards), list(rates))


def one_state():
    """One state, rewards from 1 to 9."""
    for top in range(1, 10):
        yield as_b([top], rates=[[]]), None, None


def pairs():
    """Two states without arrows, then those of file B."""
    for rates in (((0,), (0,)), ((1_000_000,), (1_000_000,))):
        for rewards in ([1, 0], [1, 1], [2, 0], [2, 1]):
            yield as_b(rewards, rates=rates), None, None


def rarely_left():
    """Rewards one apart, from 1 up to the limit by powers of ten; one arrow, with rate 1, from the larger."""
    for top in (10**k for k in range(7)):
        for R in range(2, 9):
            yield as_b([top, top - 1], R, rates=((1,), (0,))), None, None


def with_starts():
    """Pairs in version 2, starting in state 1, in state 2, or in either by halves."""
    for fields, _, _ in pairs():
        for weights in (on_one(2, 0), on_one(2, 1), [500_000, 500_000]):
            yield dict(fields, version=2, weights=weights), None, None


def raised_past(lows):
    """Two states, state 2 raised past the largest; lows(top) are the rewards that it may have before."""
    for T in (1, 2, 4, 8):
        for top in range(1, 4):
            for low in lows(top):
                for new in range(top + 1, LARGEST_RAISED + 1):
                    yield as_b([top, low], T=T), 2, new


def raised_within():
    """Pairs, a reward raised by one within the file's largest."""
    for fields, _, _ in pairs():
        for state, reward in enumerate(fields["rewards"], 1):
            if reward < max(fields["rewards"]):
                yield fields, state, reward + 1


# --- What shows that a statement is false ----------------------------------------------------------------

def equal_neighbours(wanted, whose="state"):
    """Whether a row has two equal figures next to each other that are as wanted."""
    def shows(before, _):
        return any(one == other and wanted(one) for name, figures in before.rows if name.startswith(whose)
                   for one, other in zip(figures, figures[1:]))
    return shows


def between(ticks):
    return 0 < ticks < ONE


def changes(before, after):
    """[(row, r, by how many ticks its figure rises)]."""
    return [(name, r, new - old) for name, r, old, new in order.figures_of_both(before, after)]


def lower_and_higher(before, after):
    by = [change for _, _, change in changes(before, after)]
    return min(by) < 0 < max(by)


def all_of_state_2_lower(before, after):
    return all(change < 0 for name, _, change in changes(before, after) if name == "state 2")


def some_equal(before, after):
    return any(change == 0 for _, _, change in changes(before, after))


BELOW = "Each figure is below the one before it in its row"
PAST = "Raising a reward past the file's largest lowers no figure"
STATEMENTS = [
    Statement("equal-at-1", f"{BELOW}: equal at 1", one_state, equal_neighbours(lambda ticks: ticks == ONE)),
    Statement("equal-at-0", f"{BELOW}: equal at 0", pairs, equal_neighbours(lambda ticks: ticks == 0)),
    Statement("equal-between", f"{BELOW}: equal between 0 and 1", rarely_left, equal_neighbours(between)),
    Statement("equal-start", f"{BELOW}: equal start figures between 0 and 1", with_starts,
              equal_neighbours(between, "start")),
    Statement("past-others", f"{PAST}: it lowers some and raises others", lambda: raised_past(lambda top: range(top)),
              lower_and_higher),
    Statement("past-itself-largest", f"{PAST}, if the state has the largest: it lowers those of the state itself",
              lambda: raised_past(lambda top: [top]), all_of_state_2_lower),
    Statement("past-itself", f"{PAST} of the state itself, if another has the largest",
              lambda: raised_past(lambda top: range(top)), all_of_state_2_lower),
    Statement("not-all-rise", "Raising a reward, within the file's largest, raises every figure", raised_within,
              some_equal),
]


# --- Searching and showing -------------------------------------------------------------------------------

def search(statement, calculator):
    """The first example of a statement's files, or None."""
    for tried, (fields, state, new) in enumerate(statement.files(), 1):
        files = [build(**fields)]
        if state:
            files.append(with_reward(fields, state - 1, new))
        answers = [order.read_sheet(file, calculator.sheet(file)) for file in files]
        if statement.shows(answers[0], answers[1] if state else None):
            raised = f"the reward of state {state} raised from {fields['rewards'][state - 1]} to {new}" if state else ""
            return Example(files, raised, tried)
    return None


def main():
    """Prints every statement with its example; 0 where each has one, else 1."""
    calculator = order.reference()
    missing = 0
    for statement in STATEMENTS:
        print(f"{statement.name}. Not so: {statement.words}.")
        example = search(statement, calculator)
        if not example:
            missing += 1
            print("no example found\n")
            continue
        for k, file in enumerate(example.files):
            what = f"with {example.raised}" if k else f"file {example.tried} of its search"
            print(f"{what}: {file.hex(' ').upper()}")
            print(calculator.sheet(file).decode("ascii"), end="")
        print()
    print(f"{len(STATEMENTS) - missing} of {len(STATEMENTS)} statements shown to be false")
    return 1 if missing else 0


if __name__ == "__main__":
    runner.leave(main)
