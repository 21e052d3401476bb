#!/usr/bin/env python3
"""Write the example models and their sheets from their fields: python3 examples/make.py
With --check, compare them with the stored ones instead.

The bytes are put together by build() of reference/models.py, the sheets come from
reference/calculator.py. Rates are in millionths per hour, the tolerance is in billionths, the
starting weights of version 2 are in millionths.
"""

import os
import sys

sys.dont_write_bytecode = True
HERE = os.path.dirname(os.path.abspath(__file__))
sys.path.insert(0, os.path.join(os.path.dirname(HERE), "reference"))

import models  # noqa: E402
import stored  # noqa: E402


def without_diagonal(rates):
    """The rows the file holds: each row of a square table without its own state."""
    return [row[:i] + row[i + 1:] for i, row in enumerate(rates)]


def file_A():
    """One state: the whole time is worked, the moment is 1."""
    return models.build(version=1, M=1, R=1, eps=10_000, T=1, rewards=[5], rates=[[]])


def file_B(version=1, weights=()):
    """Two states, left for each other once an hour; only state 1 earns a reward."""
    return models.build(version=version, M=2, R=2, eps=100_000_000, T=1, weights=weights,
                        rewards=[1, 0], rates=[[1_000_000], [1_000_000]])


def pair(version=1, weights=()):
    """Two identical units, one repair crew; the reward is the number of working units."""
    failure, repair = 1_000, 100_000
    rates = [
        [0, 2 * failure, 0],       # state 1: both work
        [repair, 0, failure],      # state 2: one works, one is in repair
        [0, repair, 0],            # state 3: none works, one is in repair
    ]
    return models.build(version=version, M=3, R=3, eps=10_000, T=1_000, weights=weights,
                        rewards=[2, 1, 0], rates=without_diagonal(rates))


def multiprocessor(processors, stages, hours):
    """Document 000, section 5: state (i, j) has i working processors, and j = 1 while all
    buffer stages work. The states in the file: (n,1) ... (0,1), then (n,0) ... (0,0)."""
    processor_failure, processor_repair = 60, 166_600
    stage_failure, stage_repair = 1_310, 166_600
    states = [(i, j) for j in (1, 0) for i in range(processors, -1, -1)]
    place = {state: k for k, state in enumerate(states)}
    rates = [[0] * len(states) for _ in states]
    for (i, j), row in zip(states, rates):
        if i < processors:
            row[place[i + 1, j]] = processor_repair               # repaired singly
        if j == 0:
            row[place[i, 1]] = stage_repair
        else:
            row[place[i, 0]] = stages * stage_failure
        if i > 0 and j == 1:                                      # only while the system works
            row[place[i - 1, j]] = i * processor_failure
    working = [1 if i > 0 and j == 1 else 0 for i, j in states]
    return models.build(version=1, M=len(states), R=5, eps=10_000, T=hours, rewards=working,
                        rates=without_diagonal(rates))


EXAMPLES = {
    "A": file_A(),
    "B": file_B(),
    "B-start": file_B(version=2, weights=[250_000, 750_000]),
    "pair": pair(),
    "pair-start": pair(version=2, weights=[900_000, 90_000, 10_000]),
    "multiprocessor": multiprocessor(processors=8, stages=64, hours=720),
    "multiprocessor-16": multiprocessor(processors=16, stages=1024, hours=100),
}


if __name__ == "__main__":
    sys.exit(stored.main(sys.argv[1:], HERE, EXAMPLES.items(), sys.stderr, sys.stdout))
