"""The expected output of poisson_cases: document 01's "Weights" and "Level" in plain whole numbers.

Usage: python3 cases.py > stdout. With --cases it prints the table of src/main.rt instead.
"""
import sys

MILLION = 10**6
LAST = 563
PRIME = 1_000_000_007
FILLING = 7  # every entry of the array before the search

CASES = [(x, e) for x in (1, 999_999, 1_000_000, 256_000_000) for e in (1, 10_000, 100_000_000)] + [
    (2, 100_000_000),
    (500_000, 1),
    (1_000_001, 100_000_000),
    (1_999_999, 7),
    (2_000_000, 10_000),
    (9_999_999, 99_999_999),
    (37_123_456, 1),
    (64_000_000, 1_000_000),
    (100_000_001, 10_000),
    (128_500_000, 3),
    (200_000_000, 50_000_000),
    (255_999_999, 1),
    (0, 1),
    (0, 100_000_000),
]


def weights(X):
    """w(0) to w(563): 10^15 at m, then rightward and leftward, rounded down at each step."""
    m = X // MILLION
    w = [0] * (LAST + 1)
    w[m] = 10**15
    for n in range(m, LAST):
        w[n + 1] = w[n] * X // ((n + 1) * MILLION)
    for n in range(m, 0, -1):
        w[n - 1] = w[n] * n * MILLION // X
    return w


def level(X, w, tolerance):
    """The least n with n * 1,000,000 >= X and t <= S(n) * tolerance / 10^9, and S(n)."""
    m = X // MILLION
    S = 0
    for n in range(LAST + 1):
        S += w[n]
        if n * MILLION >= X:
            t = 1 + (w[n] + n - m) * X // ((n + 1) * MILLION - X)
            if t <= S * tolerance // 10**9:
                return n, S


def array(w, N):
    """What stands in the array after the search: w(0) to w(N), and past N what stood there before."""
    return w[: N + 1] + [FILLING] * (LAST - N)


def checksum(w):
    c = 0
    for x in w:
        c = (31 * c + x) % PRIME
    return c


if "--cases" in sys.argv:
    print(CASES)
    sys.exit()
w = weights(MILLION)
print("B", *w[:4], level(MILLION, w, 100_000_000)[0])
for X, tolerance in CASES:
    w = weights(X)
    N, S = level(X, w, tolerance)
    print(X, tolerance, N, S, checksum(array(w, N)))
