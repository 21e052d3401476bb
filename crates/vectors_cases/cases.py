#!/usr/bin/env python3
"""Writes stdin and stdout: two model files, one after the other, and the lines of their reward vectors.

The vectors are computed here from document 01's text alone, in whole numbers with no width.
"""

import os

ONE = 10**12


def chain_of(rates):
    """c, and E: the largest row sum, or 1."""
    states = range(len(rates))
    sums = [sum(rates[i][j] for j in states if j != i) for i in states]
    rate = max(max(sums), 1)
    return [[rate - sums[i] if i == j else rates[i][j] for j in states] for i in states], rate


def vectors(rates, rewards, highest, last):
    """U[n, r] for n = 0 to last, r = 0 to highest, and the number of row means taken."""
    chain, rate = chain_of(rates)
    states = range(len(rates))
    largest = max(rewards)
    u = {}
    taken = 0
    for n in range(last + 1):
        u[n, 0] = [ONE for _ in states]
        for r in range(1, highest + 1):
            share = [rewards[i] * u[n, r - 1][i] // largest for i in states]
            if n == 0:
                u[n, r] = share
            else:
                mean = [sum(chain[i][j] * u[n - 1, r][j] for j in states) // rate for i in states]
                taken += len(mean)
                u[n, r] = [(n * mean[i] + r * share[i]) // (n + r) for i in states]
    return u, taken


def lines(rates, rewards, highest, last):
    u, taken = vectors(rates, rewards, highest, last)
    for n in range(last + 1):
        if n <= 3 or n == last:
            for r in range(highest + 1):
                yield " ".join(str(x) for x in [n, r] + u[n, r])
    yield str(taken)


def file_of(rates, rewards, highest, tolerance, time):
    """The model's bytes: the rates row after row, the diagonal left out."""
    states = range(len(rates))
    numbers = [tolerance, time] + rewards + [rates[i][j] for i in states for j in states if j != i]
    body = bytes([1, len(rates), highest]) + b"".join(x.to_bytes(4, "big") for x in numbers)
    return len(body).to_bytes(2, "big") + body


# the rates, 0 at j = i, the rewards, and R: of document 01's file B, and of a model with 64 states
TWO = [[0, 1000000], [1000000, 0]], [1, 0], 2
MANY = (
    [[0 if i == j else (i * 7 + j * 3) % 11 * 12347 for j in range(64)] for i in range(64)],
    [i * 37 % 64 * 15013 for i in range(64)],
    4,
)


def main():
    here = os.path.dirname(os.path.abspath(__file__))
    with open(os.path.join(here, "stdin"), "wb") as out:
        out.write(file_of(*TWO, 100000000, 1))
        out.write(file_of(*MANY, 10000, 1))
    with open(os.path.join(here, "stdout"), "w") as out:
        out.writelines(line + "\n" for line in lines(*TWO, 3))
        out.writelines(line + "\n" for line in lines(*MANY, 9))


main()
