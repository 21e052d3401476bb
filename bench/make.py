#!/usr/bin/env python3
"""Writes the model files that are timed, from fixed seeds.

    python3 bench/make.py FOLDER
"""

import os
import random
import sys

sys.dont_write_bytecode = True
sys.path.insert(0, os.path.join(os.path.dirname(os.path.abspath(__file__)), "..", "reference"))
import models  # noqa: E402

ROW_SUM = 4_000_000  # E: the first row sums to it, and no other to more
ALL_WEIGHT = 1_000_000  # starting weights sum to it


def build(highest, tolerance, jumps, rewards, rates, weights=()):
    """A file with q = jumps: E × T is jumps × 10^6. With starting weights it is of version 2."""
    time, rest = divmod(jumps * 1_000_000, ROW_SUM)
    assert rest == 0 and max(map(sum, rates)) == ROW_SUM
    return models.build(version=2 if weights else 1, M=len(rewards), R=highest, eps=tolerance, T=time,
                        weights=weights, rewards=rewards, rates=rates)


def random_rewards(rng, states):
    return [rng.randint(0, 1_000_000) for _ in range(states)]


def random_weights(seed, states):
    """A starting distribution: ALL_WEIGHT cut at random places."""
    rng = random.Random(seed)
    cuts = [0, *sorted(rng.randint(0, ALL_WEIGHT) for _ in range(states - 1)), ALL_WEIGHT]
    return [after - before for before, after in zip(cuts, cuts[1:])]


def dense(seed, states, highest, tolerance, jumps, weights=()):
    """Every state goes to every other."""
    rng = random.Random(seed)
    rewards = random_rewards(rng, states)
    rates = [[rng.randint(1, ROW_SUM // states) for _ in range(states - 1)] for _ in range(states)]
    rates[0][0] += ROW_SUM - sum(rates[0])
    return build(highest, tolerance, jumps, rewards, rates, weights)


def birth_death(seed, states, highest, tolerance, jumps):
    """State i goes to i + 1 and i − 1 only."""
    rng = random.Random(seed)
    rewards = random_rewards(rng, states)
    rates = [[0] * (states - 1) for _ in range(states)]
    for i in range(states - 1):
        # the diagonal is left out: i + 1 is number i in row i, and i is number i in row i + 1
        rates[i][i] = rng.randint(1, ROW_SUM // 2)
        rates[i + 1][i] = rng.randint(1, ROW_SUM // 2)
    rates[0][0] = ROW_SUM
    return build(highest, tolerance, jumps, rewards, rates)


FILES = {
    "heaviest": dense(1, 64, 8, 1, 256),
    "heaviest-start": dense(1, 64, 8, 1, 256, random_weights(8, 64)),  # the same chain
    "sparse": birth_death(2, 64, 8, 1, 256),
    "middle": dense(3, 8, 2, 10_000, 20),
    # for growth: M alone changes
    "dense-8": dense(4, 8, 4, 1, 64),
    "dense-16": dense(5, 16, 4, 1, 64),
    "dense-32": dense(6, 32, 4, 1, 64),
    "dense-64": dense(7, 64, 4, 1, 64),
}

if __name__ == "__main__":
    for name, file in FILES.items():
        with open(os.path.join(sys.argv[1], f"{name}.model"), "wb") as out:
            out.write(file)
