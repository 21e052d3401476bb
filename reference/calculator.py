#!/usr/bin/env python3
"""Reference calculator: moments of the accumulated reward of a repairable system.

Written from document 01 and requests S-1, S-3 to S-6 and S-8 of document 02 alone, in plain whole
numbers, with the papers' letters. S-1 decides the last division; every other rounding is down.
Reads a model file from standard input and prints its sheet:

    python3 reference/calculator.py < examples/B.model

Python's whole numbers have no upper limit, so the paper's helper
"Multiply, then divide" is not needed here: a * b // c is that quotient.
"""

import sys
from collections import namedtuple
from fractions import Fraction
from itertools import islice
from operator import mul

ONE = 10**12          # ticks: the unit of every moment is 10^-12
TOP_WEIGHT = 10**15   # w(m); weights are in units of 10^-15
MILLION = 10**6       # rates are in millionths per hour, starting weights in millionths
BILLION = 10**9       # the tolerance is in billionths
READ_LIMIT = 16654    # bytes the program reads at most
LENT_CELLS = 520      # answer cells the program lends: enough for every file
LEVEL_LIMIT = 1024    # the level is never above this
MOST_TIMES = 8        # times that a list may have
REFUSED = 1_000_000   # refusal k as the answer of a call: this and k
GIVEN, NONE = 0, 1    # what the call `remainders` answers for a file without a refusal
MULTIPLIER, INCREMENT = 1664525, 1013904223     # of the stream from which a practice file is dealt

# M states, highest moment R, tolerance epsilon, time T, reward rates f with the largest F,
# rows c of the uniformized chain with uniformization rate E, X = E * T, and starting weights a
# (none in version 1).
Model = namedtuple("Model", "M R epsilon T f F c E X a")

# The worked table of a file: E and F, the level N, first[r] = U(0,r) at each state, and its lines. A line has n, r and
# the state (counted from 1), and the three divisions of U(n,r) there, each a quotient and its rest.
Worked = namedtuple("Worked", "E F N first lines")
Line = namedtuple("Line", "n r state V rest_V W rest_W U rest_U")


# --- The model file -------------------------------------------------------------------------

def number(file, start, size):
    """The unsigned big-endian number in `size` bytes from byte `start`."""
    return int.from_bytes(file[start:start + size], "big")


def right_length(version, M):
    """What the length field of a file with M states has to be."""
    return 4 * M * M + 4 * M + 11 if version == 2 else 4 * M * M + 11


def read_starts(file, M):
    """The M starting weights of version 2, from byte 13; version 1 has none."""
    return [number(file, 13 + 4 * i, 4) for i in range(M)] if file[2] == 2 else []


def first_reward(file, M):
    """The byte where the reward rates begin: behind the header, in version 2 behind the starting weights."""
    return 13 + 4 * M if file[2] == 2 else 13


def read_rewards(file, M):
    """The M reward rates."""
    first = first_reward(file, M)
    return [number(file, first + 4 * i, 4) for i in range(M)]


def read_rates(file, M):
    """Row i: the M - 1 rates from state i to each other state, the diagonal left out."""
    first = first_reward(file, M) + 4 * M
    row_size = 4 * (M - 1)
    return [[number(file, first + i * row_size + 4 * k, 4) for k in range(M - 1)] for i in range(M)]


def uniformization_rate(rates):
    """E: the largest row sum, or 1 where all row sums are 0."""
    return max(sum(row) for row in rates) or 1


def block_size(file):
    """The cells of a file's block: M * R moments, and in version 2 the R start figures."""
    M, R = file[3], file[4]
    return (M + 1) * R if file[2] == 2 else M * R


def refusal(file, cells, versions=(1, 2)):
    """The number of the first row of the refusal table that holds, or 0 where none holds: rows 1 to 8, 16, 9 to 13.
    Row 3 holds for all but the versions that a call admits."""
    if len(file) < 13:
        return 1
    length = number(file, 0, 2)
    if length != len(file) - 2:
        return 2
    if file[2] not in versions:
        return 3
    M, R = file[3], file[4]
    if M == 0 or M > 64:
        return 4
    if R == 0 or R > 8:
        return 5
    if length != right_length(file[2], M):
        return 6
    epsilon = number(file, 5, 4)
    if epsilon == 0 or epsilon > 100_000_000:
        return 7
    T = number(file, 9, 4)
    if T == 0:
        return 8
    if file[2] == 2 and sum(read_starts(file, M)) != MILLION:
        return 16
    f = read_rewards(file, M)
    if max(f) > 1_000_000:
        return 9
    if max(f) == 0:
        return 10
    rates = read_rates(file, M)
    if max(sum(row) for row in rates) > 10_000_000:
        return 11
    if uniformization_rate(rates) * T > 256_000_000:
        return 12
    if cells < block_size(file):
        return 13
    return 0


def read_model(file):
    """The model of a file that is not refused."""
    M, R = file[3], file[4]
    f = read_rewards(file, M)
    rates = read_rates(file, M)
    E = uniformization_rate(rates)
    T = number(file, 9, 4)
    # c(i,i) is E less row i's sum; before it the rates to j < i, after it those to j > i.
    c = [row[:i] + [E - sum(row)] + row[i:] for i, row in enumerate(rates)]
    return Model(M, R, number(file, 5, 4), T, f, max(f), c, E, E * T, read_starts(file, M))


# --- Reward vectors: conditional moments in ticks ---------------------------------------------

def first_vectors(model):
    """[U(0,0), ..., U(0,R)], each a vector with one number of ticks per state."""
    vectors = [[ONE] * model.M]
    for _ in range(model.R):
        vectors.append([f * u // model.F for f, u in zip(model.f, vectors[-1])])
    return vectors


def means(model, vector, taken):
    """V, the row mean, at every state: the sum over j of c(i,j) * U(n-1,r) at j, over E, down. Each adds one to the
    number taken, a list of one."""
    V = []
    for row in model.c:
        V.append(sum(map(mul, row, vector)) // model.E)
        taken[0] += 1
    return V


def next_vectors(model, n, before, taken):
    """[U(n,0), ..., U(n,R)] for n >= 1, from before = [U(n-1,0), ..., U(n-1,R)]."""
    vectors = [[ONE] * model.M]
    for r in range(1, model.R + 1):
        V = means(model, before[r], taken)
        W = [f * u // model.F for f, u in zip(model.f, vectors[r - 1])]
        vectors.append([(n * v + r * w) // (n + r) for v, w in zip(V, W)])
    return vectors


def reward_vectors(model, last, taken=None):
    """The list U with U[n][r][i] for n = 0 to last; the row means that it takes are counted in `taken`, where given."""
    taken = taken or [0]
    U = [first_vectors(model)]
    while len(U) <= last:
        U.append(next_vectors(model, len(U), U[-1], taken))
    return U


# --- Poisson weights and truncation level -----------------------------------------------------

def weights(X, last):
    """[w(0), ..., w(last)], for last >= m, where m is q = X / 1,000,000 rounded down."""
    m = X // MILLION
    w = [0] * (last + 1)
    w[m] = TOP_WEIGHT
    for n in range(m, last):
        w[n + 1] = w[n] * X // ((n + 1) * MILLION)
    for n in range(m, 0, -1):
        w[n - 1] = w[n] * n * MILLION // X
    return w


def tail(w, X, n):
    """t, which bounds the weights right of n, for n * 1,000,000 >= X."""
    m = X // MILLION
    return 1 + (w[n] + n - m) * X // ((n + 1) * MILLION - X)


def level(X, epsilon):
    """N: the least n with n * 1,000,000 >= X and t <= S(n) * epsilon over 10^9 (down)."""
    w = weights(X, LEVEL_LIMIT)
    S = 0
    for n in range(LEVEL_LIMIT + 1):
        S += w[n]
        if n * MILLION >= X and tail(w, X, n) <= S * epsilon // BILLION:
            return n
    raise ArithmeticError("no level up to 1,024: document 01 says one always exists")


# --- Moments -----------------------------------------------------------------------------------

def last_division(A, S):
    """A * 10^12 over S, rounded to the nearest tick, a half going up."""
    quotient, left = divmod(A * ONE, S)
    return quotient + 1 if 2 * left >= S else quotient


def moment(w, U, N, i, r):
    """The moment r at state i (counted from 0 here), in ticks."""
    A = sum(w[n] * U[n][r][i] // ONE for n in range(N + 1))
    return last_division(A, sum(w[:N + 1]))


def start_figures(model, moments):
    """The start figures of version 2 for r = 1 to R, from the moments of a block: the sum over the states of weight
    times moment, over 1,000,000, down. Version 1 has none."""
    if not model.a:
        return []
    return [sum(map(mul, model.a, moments[r - 1::model.R])) // MILLION for r in range(1, model.R + 1)]


def outcome(file, cells):
    """("refused", k) or ("level", N) for a file and a count of answer cells."""
    k = refusal(file, cells)
    if k:
        return ("refused", k)
    model = read_model(file)
    return ("level", level(model.X, model.epsilon))


def give(row_means, taken):
    """The number of row means taken goes to where it is lent, a list of one, or nowhere (S-8)."""
    if row_means:
        row_means[0] = taken[0]


def calculate(file, cells, row_means=None):
    """The outcome of a file; where it is accepted, cells 0 to M * R - 1 take the moments, in version 2 the R cells
    after them the start figures, and row_means the number of row means that the run took."""
    result = outcome(file, len(cells))
    if result[0] == "refused":
        return result
    N = result[1]
    model = read_model(file)
    w = weights(model.X, N)
    taken = [0]
    U = reward_vectors(model, N, taken)
    for i in range(1, model.M + 1):
        for r in range(1, model.R + 1):
            cells[(i - 1) * model.R + (r - 1)] = moment(w, U, N, i - 1, r)
    cells[model.M * model.R:block_size(file)] = start_figures(model, cells)
    give(row_means, taken)
    return result


# --- One model, several times (S-3) --------------------------------------------------------------

def series_refusal(file, times, levels, cells):
    """The first row that holds for a file with a list of times and counts of level and block cells, or 0: rows 1 to 8,
    8 also for a first listed time of 0, then 16, 9 to 11, 14, 15, 12 for the last listed time, 13."""
    row = refusal(file, LENT_CELLS)            # 12, for the file's own time, does not count here
    if 1 <= row <= 8:
        return row
    if times and times[0] == 0:
        return 8
    if row == 16 or 9 <= row <= 11:
        return row
    if not 1 <= len(times) <= MOST_TIMES:
        return 14
    if any(late <= early for early, late in zip(times, times[1:])):
        return 15
    model = read_model(file)
    if model.E * times[-1] > 256_000_000:
        return 12
    if levels < len(times) or cells < len(times) * block_size(file):
        return 13
    return 0


def series(file, times, levels, cells, row_means=None):
    """("refused", k), or ("times", how many): then each time has its level, and its block takes the moments, in version
    2 the start figures after them, in list order, and row_means the number of row means that the run took."""
    row = series_refusal(file, times, len(levels), len(cells))
    if row:
        return ("refused", row)
    model = read_model(file)
    found = [level(model.E * T, model.epsilon) for T in times]
    taken = [0]
    U = reward_vectors(model, max(found), taken)      # no vector depends on the time
    size = block_size(file)
    for k, (T, N) in enumerate(zip(times, found)):
        w = weights(model.E * T, N)
        block = [moment(w, U, N, i, r) for i in range(model.M) for r in range(1, model.R + 1)]
        block += start_figures(model, block)
        levels[k] = N
        cells[k * size:(k + 1) * size] = block
    give(row_means, taken)
    return ("times", len(times))


# --- What the divisions leave (S-4) --------------------------------------------------------------

def divisions(model, U, n, r, i):
    """The divisions of U(n,r) at state i (counted from 0 here), for n, r >= 1, from the vectors before it: quotient and
    rest of V, of W and of U."""
    V, rest_V = divmod(sum(map(mul, model.c[i], U[n - 1][r])), model.E)
    W, rest_W = divmod(model.f[i] * U[n][r - 1][i], model.F)
    return (V, rest_V, W, rest_W, *divmod(n * V + r * W, n + r))


def rests(file, state, n, r):
    """("refused", k) for a file that row k of 1 to 12 stops, whatever the numbers are; ("none", 1) where the state is
    outside 1 to M, n outside 1 to N or r outside 1 to R; else ("given", the rests of V, W and U)."""
    word, N = outcome(file, LENT_CELLS)        # enough cells for every file, so that 13 never holds
    if word == "refused":
        return (word, N)
    model = read_model(file)
    if not (1 <= state <= model.M and 1 <= n <= N and 1 <= r <= model.R):
        return ("none", NONE)
    return ("given", divisions(model, reward_vectors(model, n), n, r, state - 1)[1::2])


def remainders(file, state, n, r, mean, share, mix):
    """The answer of `rests` as that of a call: ("given", 0) where the three numbers, each a list of one, take the rests
    of V, W and U."""
    word, value = rests(file, state, n, r)
    if word != "given":
        return (word, value)
    mean[0], share[0], mix[0] = value
    return (word, GIVEN)


def worked(file):
    """The worked table of an accepted file: n by n from 1 to N, then r by r, then state by state."""
    model = read_model(file)
    N = level(model.X, model.epsilon)
    U = reward_vectors(model, N)
    lines = [Line(n, r, i + 1, *divisions(model, U, n, r, i))
             for n in range(1, N + 1) for r in range(1, model.R + 1) for i in range(model.M)]
    return Worked(model.E, model.F, N, U[0], lines)


# --- From one version to the other (S-5) -----------------------------------------------------------

def framed(version, fields):
    """The file with this version and the bytes of the fields after it."""
    return (1 + len(fields)).to_bytes(2, "big") + bytes([version]) + fields


def as_version_2(file):
    """A version 1 file as version 2, all weight on state 1."""
    starts = MILLION.to_bytes(4, "big") + bytes(4 * (file[3] - 1))
    return framed(2, file[3:13] + starts + file[13:])


def as_version_1(file):
    """A version 2 file as version 1, without its starting weights."""
    return framed(1, file[3:13] + file[13 + 4 * file[3]:])


def written(file, out):
    """("refused", 13) where a file is longer than the slice `out`, or ("bytes", how many): then its first bytes are the
    file."""
    if len(out) < len(file):
        return ("refused", 13)
    out[:len(file)] = file
    return ("bytes", len(file))


def to_version_2(file, out):
    """A version 1 file moved to version 2: refused by rows 1 to 12, 3 for all but version 1, then 13, or written."""
    row = refusal(file, LENT_CELLS, [1])       # enough cells for every file: 13 is that of `out`
    return ("refused", row) if row else written(as_version_2(file), out)


def to_version_1(file, out):
    """A version 2 file moved back: refused by rows 1 to 12 with 16, 3 for all but version 2, then 17, weight on a state
    other than 1, then 13, or written."""
    row = refusal(file, LENT_CELLS, [2])
    if not row and any(read_starts(file, file[3])[1:]):
        row = 17
    return ("refused", row) if row else written(as_version_1(file), out)


# --- Practice files (S-6) ------------------------------------------------------------------------

def words(numbers):
    """Numbers of 4 bytes each, one after the other."""
    return b"".join(each.to_bytes(4, "big") for each in numbers)


def draws(seed):
    """The draws of a seed number, without end: the upper 16 bits of its stream after each step."""
    x = seed
    while True:
        x = (x * MULTIPLIER + INCREMENT) % 2**32
        yield x >> 16


def dealt(M, R, seed):
    """The practice file of a seed number: version 1 with M states and highest moment R."""
    stream = draws(seed)
    T = 1 + next(stream) // 4096
    rewards = [1 + next(stream), *islice(stream, M - 1)]
    rates = islice(stream, M * (M - 1))        # row by row, as in the file
    return framed(1, bytes([M, R]) + words([10_000, T, *rewards, *rates]))


def practice(states, highest, seed, out):
    """A practice file dealt: refused by 4 and 5 for M and R, then 13, or written."""
    if not 1 <= states <= 64:
        return ("refused", 4)
    if not 1 <= highest <= 8:
        return ("refused", 5)
    return written(dealt(states, highest, seed), out)


# --- The answer of a call ------------------------------------------------------------------------

def answer(result):
    """The number that a call of the library answers for a result: 1,000,000 and k for refusal k."""
    word, value = result
    return REFUSED + value if word == "refused" else value


# --- The printed sheet -------------------------------------------------------------------------

def sheet_line(i, r, ticks):
    """A line of the sheet: a state, or "start", and its figure for r."""
    return f"{i} {r} {ticks // ONE}.{ticks % ONE:012d}"


def sheet(file):
    """The program's output for an input: judged on the bytes it reads, 520 cells lent."""
    file = file[:READ_LIMIT]
    cells = [0] * LENT_CELLS
    word, value = calculate(file, cells)
    lines = [f"{word} {value}"]
    if word == "level":
        M, R = file[3], file[4]
        for i in range(1, M + 1):
            for r in range(1, R + 1):
                lines.append(sheet_line(i, r, cells[(i - 1) * R + (r - 1)]))
        if file[2] == 2:
            for r in range(1, R + 1):
                lines.append(sheet_line("start", r, cells[M * R + (r - 1)]))
    return "".join(line + "\n" for line in lines).encode("ascii")


# --- Exact average: fractions, nothing rounded ---------------------------------------------------

def exact_first(model):
    """[u(0,0), ..., u(0,R)] as fractions."""
    vectors = [[Fraction(1)] * model.M]
    for _ in range(model.R):
        vectors.append([Fraction(f, model.F) * u for f, u in zip(model.f, vectors[-1])])
    return vectors


def exact_next(model, n, before):
    """[u(n,0), ..., u(n,R)] for n >= 1, from before = [u(n-1,0), ..., u(n-1,R)]."""
    vectors = [[Fraction(1)] * model.M]
    for r in range(1, model.R + 1):
        v = [sum(map(mul, row, before[r])) / model.E for row in model.c]
        z = [Fraction(f, model.F) * u for f, u in zip(model.f, vectors[r - 1])]
        vectors.append([(n * a + r * b) / (n + r) for a, b in zip(v, z)])
    return vectors


def averages(model, levels):
    """{L: rows}: rows[i][r - 1] is the exact average up to level L at state i (from 0), for r."""
    q = Fraction(model.X, MILLION)
    weight = Fraction(1)                      # q^n / n!
    total = Fraction(0)                       # sum of the weights so far
    sums = [[Fraction(0)] * model.R for _ in range(model.M)]
    result = {}
    for n in range(max(levels) + 1):
        if n == 0:
            u = exact_first(model)
        else:
            u = exact_next(model, n, u)
            weight = weight * q / n
        total += weight
        for i in range(model.M):
            for r in range(1, model.R + 1):
                sums[i][r - 1] += weight * u[r][i]
        if n in levels:
            result[n] = [[s / total for s in row] for row in sums]
    return result


def average(model, L, i, r):
    """The exact average up to level L at state i (counted from 1) and for r."""
    return averages(model, [L])[L][i - 1][r - 1]


def start_averages(model, rows):
    """The exact averages of `averages` up to one level, weighted by the starting weights, for r = 1 to R."""
    return [sum(map(mul, model.a, column)) / MILLION for column in zip(*rows)]


# --- The program -----------------------------------------------------------------------------------

def read_input(arguments):
    """At most READ_LIMIT bytes, of the named file or of standard input."""
    if arguments:
        with open(arguments[0], "rb") as source:
            return source.read(READ_LIMIT)
    if sys.stdin is None:
        raise OSError("standard input is closed")
    return sys.stdin.buffer.read(READ_LIMIT)


def main(arguments):
    if len(arguments) > 1 or (arguments and arguments[0].startswith("-")):
        print("calculator: at most one argument, the name of a model file", file=sys.stderr)
        return 2
    try:
        file = read_input(arguments)
    except (OSError, ValueError) as error:
        print(f"calculator: cannot read the model: {error}", file=sys.stderr)
        return 2
    output = sheet(file)
    try:
        if sys.stdout is None:
            raise OSError("standard output is closed")
        sys.stdout.buffer.write(output)
        sys.stdout.buffer.flush()
    except OSError as error:
        print(f"calculator: cannot write the sheet: {error}", file=sys.stderr)
        return 2
    return 0


if __name__ == "__main__":
    sys.exit(main(sys.argv[1:]))
