"""The table of wrong calculators for mutants.py: each the reference with one thing changed.

An entry names the mistake, says it in a line and gives its changes in the text of
reference/calculator.py: pairs of an old text, which stands there exactly once, and a new one.
TABLE holds the mistakes; EQUIVALENT the changes that no sheet can show, each with the reason.
"""

import math
import os
import signal
import struct
import sys
from collections import namedtuple
from decimal import Context, Decimal
from fractions import Fraction

# time_limit: None for a calculator that is called as a module; where the mistake is in reading
# or writing, the seconds that the calculator gets as a program, one model after the other.
Wrong = namedtuple("Wrong", "name what changes time_limit")


def wrong(name, what, *changes):
    return Wrong(name, what, changes, None)


def program(name, what, *changes, time_limit=60):
    return Wrong(name, what, changes, time_limit)


# --- Parts of the reference that the entries change ------------------------------------------

NUMBER = 'int.from_bytes(file[start:start + size], "big")'
RATES = "[[number(file, first + i * row_size + 4 * k, 4) for k in range(M - 1)] for i in range(M)]"
LARGEST_SUM = "max(sum(row) for row in rates) or 1"
ROW_E = "row[:i] + [E - sum(row)] + row[i:]"
CHAIN_ROWS = f"[{ROW_E} for i, row in enumerate(rates)]"
DIAGONAL = "E - sum(row)"
FIRST = "f * u // model.F for f, u in zip(model.f, vectors[-1])"
MEAN = "sum(map(mul, row, vector)) // model.E"
EACH_ROW = "    for row in model.c:\n"
MEANS = "V = means(model, before[r], taken)"
STEP = "next_vectors(model, len(U), U[-1], taken)"
W = "f * u // model.F for f, u in zip(model.f, vectors[r - 1])"
MIX = "(n * v + r * w) // (n + r)"
MIXED = f"[{MIX} for v, w in zip(V, W)]"
WEIGHTS = "    w[m] = TOP_WEIGHT\n"
WEIGHTS_M = "m = X // MILLION\n    w = "
RIGHT = "w[n] * X // ((n + 1) * MILLION)"
LEFT = "w[n] * n * MILLION // X"
TAIL_M = "m = X // MILLION\n    return 1 "
T_QUOTIENT = "(w[n] + n - m) * X // ((n + 1) * MILLION - X)"
TAIL = "1 + " + T_QUOTIENT
FROM_Q = "n * MILLION >= X and "
BOUND = "S * epsilon // BILLION"
T_TEST = "tail(w, X, n) <= " + BOUND
SUM_S = "        S += w[n]\n"
LEVEL_FOUND = "            return n\n"
TERM = "w[n] * U[n][r][i] // ONE"
A = f"sum({TERM} for n in range(N + 1))"
FROM_HALF = "2 * left >= S"
LAST = f"quotient, left = divmod(A * ONE, S)\n    return quotient + 1 if {FROM_HALF} else quotient"
OVER_S = "last_division(A, sum(w[:N + 1]))"
CELL = "cells[(i - 1) * model.R + (r - 1)] = "
MOMENT_CELL = "cells[(i - 1) * R + (r - 1)]"
START_SUM = "sum(map(mul, model.a, moments[r - 1::model.R]))"
START = f"{START_SUM} // MILLION"
STARTS = f"[{START} for r in range(1, model.R + 1)]"
PUT_STARTS = "    cells[model.M * model.R:block_size(file)] = start_figures(model, cells)\n"
FIGURE = "{ticks // ONE}.{ticks % ONE:012d}"
LINE = "{i} {r} " + FIGURE + '"'
STATE_LINE = f"sheet_line(i, r, {MOMENT_CELL})"
START_LINE = 'sheet_line("start", r, cells[M * R + (r - 1)])'
START_LINES = f"            for r in range(1, R + 1):\n                lines.append({START_LINE})\n"
MOMENT_LINES = ("        for i in range(1, M + 1):\n            for r in range(1, R + 1):\n"
                f"                lines.append({STATE_LINE})\n")
ENDED = 'line + "\\n" for line in lines'
ENCODED = 'encode("ascii")'
INPUT = "file = file[:READ_LIMIT]"
READ = "return sys.stdin.buffer.read(READ_LIMIT)"
ADMITTED = "versions=(1, 2)"
LENGTH = "right_length(file[2], M)"
WEIGHT = "number(file, 13 + 4 * i, 4)"
FIRST_REWARD = "13 + 4 * M if file[2] == 2 else 13"
REWARDS_FROM = "first = first_reward(file, M)\n"
RATES_FROM = "first = first_reward(file, M) + 4 * M\n"
WEIGHT_SUM = "sum(read_starts(file, M))"

# The refusal table, row by row, and its rows in their order.
ROWS = {
    1: "len(file) < 13", 2: "length != len(file) - 2", 3: "file[2] not in versions", 4: "M == 0 or M > 64",
    5: "R == 0 or R > 8", 6: f"length != {LENGTH}", 7: "epsilon == 0 or epsilon > 100_000_000", 8: "T == 0",
    16: f"file[2] == 2 and {WEIGHT_SUM} != MILLION", 9: "max(f) > 1_000_000", 10: "max(f) == 0",
    11: "max(sum(row) for row in rates) > 10_000_000", 12: "uniformization_rate(rates) * T > 256_000_000",
    13: "cells < block_size(file)",
}
ORDER = [*ROWS]


# --- Helpers for the new texts -----------------------------------------------------------------------

def up(a, b):
    """a / b rounded up."""
    return -(-a // b)


def nearest(a, b):
    """a / b rounded to the nearest, a half going up."""
    return (2 * a + b) // (2 * b)


def even(a, b):
    """a / b rounded to the nearest, a half going to the even one."""
    return a // b + (2 * (a % b) + (a // b) % 2 > b)


def binary64(a, b, c):
    """a * b / c in binary64, cut to a whole number."""
    return int(float(a) * float(b) / float(c))


def binary32(a):
    """A number rounded to binary32."""
    return struct.unpack("f", struct.pack("f", a))[0]


def extended(a, b, c):
    """a * b / c with 64 significant bits (long double on many machines), cut to a whole number."""
    unit = 2**max(0, (a * b).bit_length() - 64)
    product = even(a * b, unit) * unit
    places = 64 - (product // c).bit_length()
    return even(product << places, c) >> places


def significant64(a):
    """A fraction rounded to 64 significant bits, a half to the even one."""
    if not a:
        return a
    places = 64 - a.numerator.bit_length() + a.denominator.bit_length()
    places -= a * Fraction(2)**places >= 2**64
    return round(a * Fraction(2)**places) / Fraction(2)**places


def nearest_to(a):
    """A fraction rounded to the nearest whole number, a half going up."""
    return nearest(a.numerator, a.denominator)


def decimal(a, b, digits, rounding):
    """a / b in ticks: so many significant decimal digits, then rounded to twelve decimals."""
    share = Context(prec=digits).divide(Decimal(a), Decimal(b))
    return int(share.quantize(Decimal("1e-12"), rounding).scaleb(12))


def added(numbers):
    """A sum in binary64, one number after the other; sum() of Python 3.12 or later makes up for what a step loses."""
    total = 0.0
    for number in numbers:
        total += number
    return total


def digits15(a):
    """A whole number rounded to 15 digits, as a spreadsheet shows it."""
    unit = 10 ** max(0, len(str(a)) - 15)
    return nearest(a, unit) * unit


def signed(a, bits):
    """The lowest bits of a whole number, taken with a sign."""
    return (a + 2**(bits - 1)) % 2**bits - 2**(bits - 1)


def signed_bytes(part):
    """A big-endian number put together from bytes with a sign, as in b[0] << 8 | b[1]."""
    result = 0
    for byte in part:
        result = result << 8 | signed(byte, 8)
    return result


def by_columns(rates):
    """The rates to state i in the place of those from it."""
    M = len(rates)
    full = [row[:i] + [0] + row[i:] for i, row in enumerate(rates)]
    return [[full[j][i] for j in range(M) if j != i] for i in range(M)]


def overwritten(model, n, r, vector, W):
    """U(n,r) written over U(n-1,r) state by state, so that a row mean reads both."""
    vector = list(vector)
    for i, row in enumerate(model.c):
        V = sum(c * u for c, u in zip(row, vector)) // model.E
        vector[i] = (n * V + r * W[i]) // (n + r)
    return vector


def arrows(rates):
    """The arrows of each state, (target, rate) with targets counted from 0: the rates above 0, the highest first."""
    return [[(k + (k >= i), row[k]) for k in reversed(range(len(row))) if row[k]] for i, row in enumerate(rates)]


def chain_row(M, i, diagonal, listed):
    """What a row mean adds by a diagonal and a list of arrows, as a row of the chain; an arrow to no state adds
    nothing."""
    row = [0] * M
    row[i] = diagonal
    for j, rate in listed:
        if 0 <= j < M:
            row[j] += rate
    return row


def in_one_list(lists, change):
    """The arrows of all states in one list, row by row, and taken out again: from the start of each row to that of the
    next, the starts, and the end behind them, changed."""
    one = [arrow for listed in lists for arrow in listed]
    starts = [sum(map(len, lists[:i])) for i in range(len(lists) + 1)]
    starts = [change(i, start) for i, start in enumerate(starts)]
    return [one[start:end] for start, end in zip(starts, starts[1:])]


def at_most(lists, most):
    """The lists with no more than so many arrows in all, row by row."""
    return in_one_list(lists, lambda i, start: min(start, most))


def one_off(rates, places):
    """The rates of all rows read so many places late (1) or early (-1); 0 where there is none."""
    M, width = len(rates), len(rates) - 1
    every = [0] + [rate for row in rates for rate in row] + [0]
    return [[every[1 + places + i * width + k] for k in range(width)] for i in range(M)]


def unless_still(before, after):
    """The vectors before a step where the step moves no number by more than 1,000 ticks, else those after it."""
    still = all(abs(a - b) <= 1000 for old, new in zip(before, after) for a, b in zip(old, new))
    return before if still else after


def poisson(X, last):
    """The weights as Poisson probabilities in binary64, times 10^15, cut to whole numbers."""
    q = X / 10**6
    return [int(1e15 * math.exp(n * math.log(q) - q - math.lgamma(n + 1))) for n in range(last + 1)]


def cut_once(X, last):
    """The weights worked out without rounding, each cut to a whole number at its end."""
    m = X // 10**6
    w = [0] * m + [10**15] + [0] * (last - m)
    above, below = 10**15, 1
    for n in range(m, last):
        above, below = above * X, below * (n + 1) * 10**6
        w[n + 1] = above // below
    above, below = 10**15, 1
    for n in range(m, 0, -1):
        above, below = above * n * 10**6, below * X
        w[n - 1] = above // below
    return w


def e_to_q(X):
    """e^q on the scale of the weights, in which q^m / m! is 10^15."""
    q = X / 10**6
    m = X // 10**6
    return int(1e15 * math.exp(q - m * math.log(q) + math.lgamma(m + 1)))


def relation_10(X, epsilon):
    """The least n whose Poisson probabilities up to n reach 1 - tolerance, in binary64."""
    q, total = X / 10**6, 0.0
    for n in range(1025):
        total += math.exp(n * math.log(q) - q - math.lgamma(n + 1))
        if total >= 1 - epsilon / 10**9:
            return n
    return 1024


def exponent(ticks):
    """A figure as many languages print it: below 10^-4 with an exponent."""
    return f"{ticks / 10**12:.12f}" if ticks >= 10**8 or ticks == 0 else f"{ticks / 10**12:.12e}"


def row_holds(row, file):
    """Whether a row of the refusal table holds, whatever rows before it do."""
    def number(start, size):
        return int.from_bytes(file[start:start + size], "big")
    version, M, R, epsilon, T = number(2, 1), number(3, 1), number(4, 1), number(5, 4), number(9, 4)
    starts = M if version == 2 else 0
    a, f = ([number(13 + 4 * (first + i), 4) for i in range(M)] for first in (0, starts))
    rates = [number(start, 4) for start in range(13 + 4 * (starts + M), len(file), 4)]
    sums = [sum(rates[i * (M - 1):(i + 1) * (M - 1)]) for i in range(M)]
    return {
        2: number(0, 2) != len(file) - 2, 3: version not in (1, 2), 4: not 1 <= M <= 64, 5: not 1 <= R <= 8,
        6: number(0, 2) != 4 * M * M + 4 * starts + 11, 7: not 1 <= epsilon <= 100_000_000, 8: T == 0,
        16: version == 2 and sum(a) != 1_000_000,
        9: any(a > 1_000_000 for a in f), 10: not any(f), 11: any(a > 10_000_000 for a in sums),
        12: (max(sums, default=0) or 1) * T > 256_000_000,
    }[row]


def by_length(file):
    """The file with the version that its length tells, where it is that of one."""
    M, length = file[3], len(file) - 2 - 4 * file[3]**2 - 11
    return file[:2] + {0: b"\1", 4 * M: b"\2"}.get(length, file[2:3]) + file[3:]


def row_by_row(rates, T):
    """Rows 11 and 12 tested on one state's rates after the other: the number of the first that holds, or 0."""
    for row in rates:
        if sum(row) > 10_000_000:
            return 11
        if (sum(row) or 1) * T > 256_000_000:
            return 12
    return 0


def state_by_state(f, rates):
    """Rows 9 and 11 tested on one state after the other: the number of the first that holds, or 0."""
    for reward, row in zip(f, rates):
        if reward > 1_000_000:
            return 9
        if sum(row) > 10_000_000:
            return 11
    return 0


def as_binary64(ticks):
    """The ticks of a figure taken from its value in binary64, cut to a whole number."""
    return int(ticks / 10**12 * 10**12)


def crash():
    """Ends this process by a signal, as an access outside its memory does."""
    sys.stdout.flush()
    os.kill(os.getpid(), signal.SIGSEGV)


def read_pieces(stream, size, most, enough=lambda file: False):
    """Reads pieces of at most `size` bytes, up to `most` bytes, until one is empty or `enough` holds."""
    file = b""
    while len(file) < most and not enough(file):
        piece = stream.read(min(size, most - len(file)))
        if not piece:
            break
        file += piece
    return file


HELPERS = (math.comb, up, nearest, even, binary64, binary32, extended, significant64, nearest_to, decimal, added,
           digits15, signed, signed_bytes, by_columns, overwritten, arrows, chain_row, in_one_list, at_most, one_off,
           unless_still, poisson, cut_once, e_to_q, relation_10, exponent, as_binary64, crash, row_holds, by_length,
           row_by_row, state_by_state, read_pieces)


# --- The model file --------------------------------------------------------------------------------

REWARDS_AT = "first_reward(file, file[3])"
FIELDS = {
    "length": "start == 0",
    "tolerance": "start == 5",
    "time": "start == 9",
    "starting-weights": f"13 <= start < {REWARDS_AT}",
    "rewards": f"0 <= start - {REWARDS_AT} < 4 * file[3]",
    "rates": f"start >= {REWARDS_AT} + 4 * file[3]",
}


def fields():
    """Each field low byte first, from bytes with a sign, and in 16 bits or in 32 with a sign."""
    for field, where in FIELDS.items():
        yield wrong(f"{field}-low-byte-first", f"{field} read low byte first",
                    (NUMBER, f'int.from_bytes(file[start:start + size], "little" if {where} else "big")'))
        yield wrong(f"{field}-signed-bytes", f"{field} put together from bytes with a sign",
                    (NUMBER, f"signed_bytes(file[start:start + size]) if {where} else {NUMBER}"))
        if field != "length":
            yield wrong(f"{field}-16-bit", f"{field} in 16 bits", (NUMBER, f"{NUMBER} % (2**16 if {where} else 2**32)"))
            yield wrong(f"{field}-signed", f"{field} in 32 bits with a sign",
                        (NUMBER, f"signed({NUMBER}, 32) if {where} else {NUMBER}"))


MODEL_FILE = [
    *fields(),
    wrong("states-signed-byte", "M as a byte with a sign",
          ("M, R = file[3], file[4]\n    if M", "M, R = signed(file[3], 8), file[4]\n    if M")),
    wrong("moments-signed-byte", "R as a byte with a sign",
          ("M, R = file[3], file[4]\n    if M", "M, R = file[3], signed(file[4], 8)\n    if M")),
    wrong("tolerance-and-time-exchanged", "time read before the tolerance",
          (NUMBER, NUMBER.replace("[start:start + size]", "[{5: 9, 9: 5}.get(start, start):][:size]"))),
    wrong("length-counts-itself", "the length taken with its own two bytes", (ROWS[2], "length != len(file)")),
    wrong("rates-by-columns", "rates to state i read in the place of those from it", (RATES, f"by_columns({RATES})")),
    wrong("rates-j-falling", "the rates of a row read from the last j to the first",
          (RATES, RATES.replace("range(M - 1)", "reversed(range(M - 1))"))),
    wrong("rates-i-falling", "the rows of rates read from the last state to the first",
          (RATES, RATES.replace("in range(M)", "in reversed(range(M))"))),
    wrong("rates-with-diagonal", "a diagonal read from the file", ("row_size = 4 * (M - 1)", "row_size = 4 * M"),
          ("first + i * row_size + 4 * k", "first + i * row_size + 4 * (k + (k >= i))")),
    wrong("rewards-after-rates", "rewards read behind the rates",
          (REWARDS_FROM, "first = first_reward(file, M) + 4 * M * (M - 1)\n"),
          (RATES_FROM, "first = first_reward(file, M)\n")),
    *(wrong(f"read-limit-{limit}", f"{what} bytes read", ("READ_LIMIT = 16654", f"READ_LIMIT = {limit}"))
      for limit, what in ((4096, "at most 4,096"), (16384, "at most 16,384"), (16397, "at most 16,397"),
                          (16398, "at most 16,398, those of version 1,"), (16653, "at most 16,653"),
                          (16655, "at most 16,655"), (10**9, "all"))),
    *(wrong(f"cells-lent-{cells}", f"{cells} cells lent", ("LENT_CELLS = 520", f"LENT_CELLS = {cells}"))
      for cells in (512, 519)),
    wrong("text-mode-1A", "input in text mode, ended by byte 1A", (INPUT, INPUT + '.split(b"\\x1a")[0]')),
    wrong("text-mode-0D-0A", "input in text mode, 0D 0A read as 0A", (INPUT, INPUT + '.replace(b"\\r\\n", b"\\n")')),
    wrong("text-mode-0D", "input in text mode, 0D read as 0A", (INPUT, INPUT + '.replace(b"\\r", b"\\n")')),
    wrong("one-line-read", "input read up to the first byte 0A", (INPUT, INPUT + '.split(b"\\n")[0]')),
    wrong("last-line-end-cut", "a last byte 0A of the input cut off", (INPUT, INPUT + '.removesuffix(b"\\n")')),
    wrong("white-space-cut", "white space at both ends of the input cut off", (INPUT, INPUT + ".strip()")),
    wrong("text-7-bit", "the highest bit of every byte lost", (INPUT, INPUT + "; file = bytes(b & 127 for b in file)")),
]


# --- The refusal table --------------------------------------------------------------------------------

def border(row, name, what, new):
    return wrong(f"row-{row:02d}-{name}", f"row {row}: {what}", (f"if {ROWS[row]}:", f"if {new}:"))


def left_out(row):
    return border(row, "left-out", "not tested", "False")


def earlier(late, early):
    """Row `late` tested before row `early`."""
    return wrong(f"row-{late:02d}-before-row-{early:02d}", f"row {late} tested before row {early}",
                 (f"    if {ROWS[early]}:",
                  f"    if row_holds({late}, file):\n        return {late}\n    if {ROWS[early]}:"))


def tested_last(row):
    """Row `row` tested after row 12."""
    return wrong(f"row-{row:02d}-last", f"row {row} tested after row 12", (f"if {ROWS[row]}:", "if False:"),
                 (f"    if {ROWS[13]}:", f"    if row_holds({row}, file):\n        return {row}\n    if {ROWS[13]}:"))


def one_before():
    """Every row but the first and the last tested before the one before it; 9 and 10 do not hold together."""
    return [earlier(row, before) for before, row in zip(ORDER, ORDER[1:-1]) if row != 10]


REFUSAL_TABLE = [
    *map(left_out, ORDER[:-1]),
    *one_before(),
    *(earlier(row, before) for before, row in zip(ORDER, ORDER[2:-1])),
    *(earlier(row, 2) for row in ORDER[4:-1]),
    *(earlier(row, 16) for row in (11, 12)),
    *map(tested_last, ORDER[1:-3]),
    border(1, "at-13", "a file of 13 bytes refused", "len(file) <= 13"),
    border(1, "below-12", "a file of 12 bytes let through", "len(file) < 12"),
    border(2, "only-too-short", "only bytes missing refused", "length > len(file) - 2"),
    border(2, "only-too-long", "only bytes too many refused", "length < len(file) - 2"),
    border(2, "8-bit", "the lower bytes of the lengths compared", "length % 256 != (len(file) - 2) % 256"),
    border(3, "only-above-2", "version 0 let through", "file[2] > 2"),
    border(3, "only-0", "versions above 2 let through", "file[2] == 0"),
    border(3, "without-2", "version 2 refused", "file[2] != 1"),
    border(3, "without-1", "version 1 refused", "file[2] != 2"),
    border(3, "with-3", "version 3 let through as version 1", "file[2] not in (1, 2, 3)"),
    border(3, "2-bits", "a version let through by its last two bits", "file[2] & 3 not in (1, 2)"),
    border(4, "without-0", "M = 0 let through", "M > 64"),
    border(4, "without-limit", "no upper limit", "M == 0"),
    border(4, "at-64", "M = 64 refused", "M == 0 or M >= 64"),
    border(4, "at-65", "M = 65 let through", "M == 0 or M > 65"),
    border(4, "at-1", "M = 1 refused", "M <= 1 or M > 64"),
    border(5, "without-0", "R = 0 let through", "R > 8"),
    border(5, "without-limit", "no upper limit", "R == 0"),
    border(5, "at-8", "R = 8 refused", "R == 0 or R >= 8"),
    border(5, "at-9", "R = 9 let through", "R == 0 or R > 9"),
    border(5, "at-1", "R = 1 refused", "R <= 1 or R > 8"),
    border(6, "only-too-short", "only a length too small refused", f"length < {LENGTH}"),
    border(6, "only-too-long", "only a length too large refused", f"length > {LENGTH}"),
    border(6, "one-less", "a length that is one less", f"length != {LENGTH} - 1"),
    border(6, "8-bit", "the right length in 8 bits", f"length != {LENGTH} % 2**8"),
    border(6, "with-diagonal", "room for M rates in a row", f"length != {LENGTH} + 4 * M"),
    border(6, "of-version-1", "the length of version 1 for both", "length != right_length(1, M)"),
    border(6, "of-version-2", "the length of version 2 for both", "length != right_length(2, M)"),
    border(6, "of-either-version", "the length of either version let through",
           "length not in (right_length(1, M), right_length(2, M))"),
    border(6, "of-the-other-version", "the lengths of the versions exchanged",
           "length != right_length(3 - file[2], M)"),
    border(6, "without-version-2", "not tested in version 2", f"file[2] == 1 and {ROWS[6]}"),
    border(6, "a-weight-less", "M - 1 weights, the last being what is left",
           f"length != {LENGTH} - (4 if file[2] == 2 else 0)"),
    border(7, "without-0", "tolerance 0 let through", "epsilon > 100_000_000"),
    border(7, "without-limit", "no upper limit", "epsilon == 0"),
    border(7, "at-100000000", "tolerance 100,000,000 refused", "epsilon == 0 or epsilon >= 100_000_000"),
    border(7, "at-100000001", "tolerance 100,000,001 let through", "epsilon == 0 or epsilon > 100_000_001"),
    border(7, "at-1", "tolerance 1 refused", "epsilon <= 1 or epsilon > 100_000_000"),
    border(7, "limit-10-to-9", "tolerances up to 10^9", "epsilon == 0 or epsilon > 10**9"),
    border(8, "at-1", "time 1 refused", "T <= 1"),
    border(9, "at-1000000", "reward 1,000,000 refused", "max(f) >= 1_000_000"),
    border(9, "at-1000001", "reward 1,000,001 let through", "max(f) > 1_000_001"),
    border(9, "first-state-only", "tested on the first state only", "f[0] > 1_000_000"),
    border(9, "last-state-only", "tested on the last state only", "f[-1] > 1_000_000"),
    border(9, "not-first-state", "not tested on the first state", "max(f[1:], default=0) > 1_000_000"),
    border(9, "not-last-state", "not tested on the last state", "max(f[:-1], default=0) > 1_000_000"),
    border(9, "on-the-sum", "tested on the sum of all rewards", "sum(f) > 1_000_000"),
    border(10, "at-1", "a largest reward of 1 refused", "max(f) <= 1"),
    border(10, "first-state-only", "tested on the first state only", "f[0] == 0"),
    border(10, "last-state-only", "tested on the last state only", "f[-1] == 0"),
    border(10, "not-first-state", "not tested on the first state", "max(f[1:], default=1) == 0"),
    border(10, "not-last-state", "not tested on the last state", "max(f[:-1], default=1) == 0"),
    border(10, "one-reward-0", "one reward 0 refused", "min(f) == 0"),
    border(11, "at-10000000", "a row sum of 10,000,000 refused", ROWS[11].replace(">", ">=")),
    border(11, "at-10000001", "a row sum of 10,000,001 let through", ROWS[11].replace("000_000", "000_001")),
    border(11, "first-row-only", "tested on the first row only", "sum(rates[0]) > 10_000_000"),
    border(11, "last-row-only", "tested on the last row only", "sum(rates[-1]) > 10_000_000"),
    border(11, "not-first-row", "not tested on the first row", "max(map(sum, rates[1:]), default=0) > 10_000_000"),
    border(11, "not-last-row", "not tested on the last row", "max(map(sum, rates[:-1]), default=0) > 10_000_000"),
    border(11, "each-rate", "tested on each rate alone", "max(max(row, default=0) for row in rates) > 10_000_000"),
    border(11, "all-rates", "tested on the sum of all rates", "sum(map(sum, rates)) > 10_000_000"),
    border(11, "32-bit", "row sums in 32 bits", "max(sum(row) % 2**32 for row in rates) > 10_000_000"),
    border(11, "32-bit-signed", "row sums in 32 bits with a sign",
           "max(signed(sum(row), 32) for row in rates) > 10_000_000"),
    border(11, "sign-extended", "rates in 32 bits with a sign, summed in 64 bits",
           "max(sum(signed(a, 32) for a in row) % 2**64 for row in rates) > 10_000_000"),
    wrong("rows-09-and-11-state-by-state", "rows 9 and 11 tested on one state after the other", (f"    if {ROWS[9]}:",
          f"    if k := state_by_state(f, read_rates(file, M)):\n        return k\n    if {ROWS[9]}:")),
    wrong("rows-11-and-12-row-by-row", "rows 11 and 12 tested on one state's rates after the other",
          (f"    if {ROWS[11]}:", f"    if k := row_by_row(rates, T):\n        return k\n    if {ROWS[11]}:")),
    border(11, "absorbing", "a state without rates refused", "min(map(sum, rates)) == 0 or " + ROWS[11]),
    border(12, "at-256000000", "a product of 256,000,000 refused", ROWS[12].replace(">", ">=")),
    border(12, "at-256000001", "a product of 256,000,001 let through", ROWS[12].replace("000_000", "000_001")),
    border(12, "32-bit", "E * T in 32 bits", "uniformization_rate(rates) * T % 2**32 > 256_000_000"),
    border(12, "32-bit-signed", "E * T in 32 bits with a sign",
           "signed(uniformization_rate(rates) * T, 32) > 256_000_000"),
    border(12, "whole-q", "q rounded down, above 256", "uniformization_rate(rates) * T // MILLION > 256"),
    border(12, "without-rates", "not tested where all rates are 0", "max(map(sum, rates)) * T > 256_000_000"),
    border(13, "at-the-last-cell", "520 cells taken to be too few for 520 figures", "cells <= block_size(file)"),
]


# --- Version 2: its weights, row 16 ---------------------------------------------------------------------

def sums(name, what, new):
    """Row 16 by another sum."""
    return border(16, name, what, f"file[2] == 2 and {new} != MILLION")


def read_otherwise(name, what, *changes):
    return wrong(f"starting-weights-{name}", f"starting weights {what}", *changes)


AS_VERSION_2 = (
    ("if version == 2 else 4 * M", "if version >= 2 else 4 * M"),
    ("if file[2] == 2 else []", "if file[2] >= 2 else []"),
    (FIRST_REWARD, FIRST_REWARD.replace("==", ">=")), ("(M + 1) * R if file[2] == 2", "(M + 1) * R if file[2] >= 2"),
    (ROWS[16], ROWS[16].replace("==", ">=")), ("        if file[2] == 2:\n", "        if file[2] >= 2:\n"))
# Mistakes that every call that reads a file may have.
VERSION_2 = [
    wrong("version-3-as-2", "version 3 read as version 2", (ADMITTED, "versions=(1, 2, 3)"), *AS_VERSION_2),
    wrong("versions-from-2", "every version above 2 read as version 2",
          (f"if {ROWS[3]}:", "if file[2] == 0:"), *AS_VERSION_2),
    wrong("version-by-length", "the version told by the length, whatever byte 2 is",
          ("        return 3\n    M, R = file[3], file[4]\n", "        return 3\n    M, R = file[3], file[4]\n"
           "    file = by_length(file)\n"),
          ("    M, R = file[3], file[4]\n    f =", "    file = by_length(file)\n    M, R = file[3], file[4]\n    f =")),
    *(border(16, name, what, new) for name, what, new in (
        ("above-alone", "only a sum that is too large refused", ROWS[16].replace("!=", ">")),
        ("below-alone", "only a sum that is too small refused", ROWS[16].replace("!=", "<")),
        ("one-off", "a sum one off let through", f"file[2] == 2 and abs({WEIGHT_SUM} - MILLION) > 1"),
        ("one-more", "1,000,001 asked for", ROWS[16].replace("MILLION", "MILLION + 1")),
        ("sum-0", "a sum of 0 let through", f"file[2] == 2 and {WEIGHT_SUM} not in (0, MILLION)"),
        ("each", "tested on each weight alone", "max(read_starts(file, M), default=0) > MILLION"),
        ("weight-0", "a weight of 0 refused", f"{ROWS[16]} or 0 in read_starts(file, M)"),
        ("million", "a weight of 1,000,000 refused", f"{ROWS[16]} or MILLION in read_starts(file, M)"),
        ("last-as-the-rest", "the last weight taken for what is left, whatever it is",
         f"file[2] == 2 and {WEIGHT_SUM} - read_starts(file, M)[-1] > MILLION"))),
    *(sums(name, what, new) for name, what, new in (
        ("32-bit", "the sum in 32 bits", f"{WEIGHT_SUM} % 2**32"),
        ("31-bit", "the sum in 31 bits", f"{WEIGHT_SUM} % 2**31"),
        ("24-bit", "the sum in 24 bits", f"{WEIGHT_SUM} % 2**24"),
        ("sign-extended", "weights in 32 bits with a sign, summed in 64 bits",
         "sum(signed(a, 32) for a in read_starts(file, M))"),
        ("20-bit", "each weight in 20 bits", "sum(a % 2**20 for a in read_starts(file, M))"),
        ("without-first", "the sum without the first state", f"({WEIGHT_SUM} - read_starts(file, M)[0])"),
        ("without-last", "the sum without the last state", f"({WEIGHT_SUM} - read_starts(file, M)[-1])"),
        ("without-largest", "without a weight above 1,000,000",
         "sum(a for a in read_starts(file, M) if a <= MILLION)"),
        ("each-at-most", "each weight above 1,000,000 taken as that",
         "sum(min(a, MILLION) for a in read_starts(file, M))"),
        ("of-rewards", "the sum of the rewards", "sum(read_rewards(file, M))"),
        ("first-two", "the sum of the first two weights", "sum(read_starts(file, M)[:2])"))),
    border(16, "16-bit", "the sum compared in 16 bits", f"file[2] == 2 and ({WEIGHT_SUM} - MILLION) % 2**16"),
    wrong("row-16-as-9", "row 16 answered with 9", ("        return 16\n", "        return 9\n")),
    wrong("row-16-as-14", "row 16 answered with 14", ("        return 16\n", "        return 14\n")),
    wrong("row-16-normalised", "weights of any sum let through, figures over their sum",
          (f"if {ROWS[16]}:", "if file[2] == 2 and not any(read_starts(file, M)):"),
          (START, START.replace("MILLION", "sum(model.a)"))),
    read_otherwise("after-rewards", "read behind the rewards", (WEIGHT, "number(file, 13 + 4 * M + 4 * i, 4)"),
                   (REWARDS_FROM, "first = 13\n")),
    read_otherwise("after-rates", "read behind the rates", (WEIGHT, "number(file, 13 + 4 * M * M + 4 * i, 4)"),
                   (FIRST_REWARD, "13")),
    read_otherwise("between-rewards", "read state by state, each before its reward",
                   (WEIGHT, "number(file, 13 + (8 if M > 1 else 4) * i, 4)"),
                   ("return [number(file, first + 4 * i, 4) for i in range(M)]",
                    "return [number(file, first - 4 * M + 8 * i + 4 if file[2] == 2 else first + 4 * i, 4) "
                    "for i in range(M)]")),
    read_otherwise("read-as-rewards", "taken for the rewards as well", (REWARDS_FROM, "first = 13\n")),
    read_otherwise("skipped-nowhere", "not skipped, rewards and rates read from byte 13 on", (FIRST_REWARD, "13")),
    read_otherwise("not-before-rates", "not skipped before the rates", (RATES_FROM, "first = 13 + 4 * M\n")),
    read_otherwise("skipped-in-version-1", "skipped in version 1 too", (FIRST_REWARD, "13 + 4 * M")),
]


# --- Version 2: start figures ----------------------------------------------------------------------------

def started_by(name, what, new):
    """Another start figure."""
    return wrong(f"start-{name}", f"start figures {what}", (START, new))


def weighed(name, what, weights="model.a", moments="moments[r - 1::model.R]"):
    """Start figures with other weights or of other moments."""
    return started_by(name, what, START.replace("model.a", weights).replace("moments[r - 1::model.R]", moments))


def of_terms(name, what, term):
    """Start figures with each product divided."""
    return started_by(name, what, f"sum({term} for a, x in zip(model.a, moments[r - 1::model.R]))")


# Those that do not depend on who calls: they stand in start_figures.
START_FIGURES = [
    started_by("nearest", "rounded to the nearest", f"nearest({START_SUM}, MILLION)"),
    started_by("even", "rounded to the nearest, a half to the even one", f"even({START_SUM}, MILLION)"),
    started_by("half-down", "rounded to the nearest, a half going down", f"up(2 * {START_SUM} - MILLION, 2 * MILLION)"),
    started_by("up", "rounded up", f"up({START_SUM}, MILLION)"),
    started_by("one-more", "one tick more", f"{START} + 1"),
    of_terms("each-term", "with each product divided, down", "a * x // MILLION"),
    of_terms("each-term-nearest", "with each product divided, to the nearest", "nearest(a * x, MILLION)"),
    of_terms("each-term-up", "with each product divided, up", "up(a * x, MILLION)"),
    started_by("first-divided", "with the moments divided by 1,000,000 first",
               "sum(a * (x // MILLION) for a, x in zip(model.a, moments[r - 1::model.R]))"),
    started_by("binary64", "divided in binary64", f"int({START_SUM} / 1e6)"),
    started_by("binary64-sum", "summed and divided in binary64",
               "int(added(float(a) * x for a, x in zip(model.a, moments[r - 1::model.R])) / 1e6)"),
    started_by("binary64-shares", "with the weights over 1,000,000 in binary64",
               "int(added(a / 1e6 * x for a, x in zip(model.a, moments[r - 1::model.R])))"),
    started_by("binary32-weights", "with the weights in binary32 over 1,000,000",
               "int(added(binary32(a / 1e6) * x for a, x in zip(model.a, moments[r - 1::model.R])))"),
    started_by("15-digits", "from a sum with 15 digits", f"digits15({START_SUM}) // MILLION"),
    started_by("32-bit-products", "from products in 32 bits",
               "sum(a * x % 2**32 for a, x in zip(model.a, moments[r - 1::model.R])) // MILLION"),
    weighed("reversed", "with the weights from the last state to the first", weights="model.a[::-1]"),
    weighed("without-first", "without the first state", "model.a[1:]", "moments[model.R + r - 1::model.R]"),
    weighed("without-last", "without the last state", "model.a[:-1]"),
    weighed("shifted", "with the weights one state off", weights="model.a[1:] + model.a[:1]"),
    weighed("even-weights", "as the plain mean of the states", weights="[MILLION // model.M] * model.M"),
    weighed("percent", "with the weights in percent", weights="[a // 10_000 * 10_000 for a in model.a]"),
    weighed("thousandths", "with the weights in thousandths", weights="[a // 1_000 * 1_000 for a in model.a]"),
    started_by("billionths", "over 10^9", f"{START_SUM} // BILLION"),
    weighed("first-moments", "of r = 1 for every r", moments="moments[::model.R]"),
    weighed("last-moments", "of R for every r", moments="moments[model.R - 1::model.R]"),
    weighed("r-by-r", "of moments taken r by r", moments="moments[(r - 1) * model.M:r * model.M]"),
    weighed("squares", "with the weights squared", weights="[a * a // MILLION for a in model.a]"),
    started_by("state-1", "those of the first state", "moments[r - 1]"),
    started_by("heaviest-state", "those of the state with the largest weight",
               "moments[model.a.index(max(model.a)) * model.R + r - 1]"),
    started_by("largest", "the largest moments", "max(moments[r - 1:model.M * model.R:model.R])"),
    started_by("powers", "powers of the first", "sum(map(mul, model.a, moments[::model.R]))**r // MILLION**r "
                                                "// ONE**(r - 1)"),
    started_by("not-divided", "not divided", START_SUM),
    wrong("start-r-falling", "start figures from the highest r to the first",
          (STARTS, STARTS.replace("range(1, model.R + 1)", "range(model.R, 0, -1)"))),
]


def from_sums(name, what, new):
    """Start figures from the sums A of the states in place of their moments."""
    return wrong(f"start-{name}", f"start figures {what}", (PUT_STARTS, (
        "    for r in range(1, model.R + 1) if model.a else []:\n"
        "        A = [sum(w[n] * U[n][r][i] // ONE for n in range(N + 1)) for i in range(model.M)]\n"
        f"        cells[model.M * model.R + r - 1] = {new}\n")))


# Those of the program and of the call `calculate`.
START_CELLS = [
    from_sums("of-exact-moments", "of moments that are not rounded",
              "sum(map(mul, model.a, A)) * ONE // (sum(w) * MILLION)"),
    from_sums("of-exact-moments-nearest", "of moments that are not rounded, to the nearest",
              "last_division(sum(map(mul, model.a, A)), sum(w) * MILLION)"),
    from_sums("of-moments-down", "of moments rounded down",
              "sum(a * (x * ONE // sum(w)) for a, x in zip(model.a, A)) // MILLION"),
    from_sums("of-sums", "by the last division of the weighted sums, down",
              "last_division(sum(map(mul, model.a, A)) // MILLION, sum(w))"),
    from_sums("of-vectors", "from the vectors weighted first, down",
              "last_division(sum(w[n] * (sum(map(mul, model.a, U[n][r])) // MILLION) // ONE "
              "for n in range(N + 1)), sum(w))"),
    wrong("start-in-version-1", "start figures in version 1 too, those of state 1",
          (PUT_STARTS, "    cells[model.M * model.R:(model.M + 1) * model.R] = "
                       "start_figures(model, cells) or cells[:model.R]\n"),
          ("        if file[2] == 2:\n", "        if True:\n")),
]


# --- Chain and reward vectors -------------------------------------------------------------------------

def rounded(name, what, old, parts):
    """A quotient rounded up and to the nearest in place of down."""
    quotient = old.split(" for ")[0]
    for helper, how in (("up", "up"), ("nearest", "to the nearest")):
        yield wrong(f"{name}-{helper}", f"{what} rounded {how}", (old, old.replace(quotient, f"{helper}({parts})", 1)))


CHAIN = [
    wrong("E-sum-of-all-rates", "E is the sum of all rates", (LARGEST_SUM, "sum(map(sum, rates)) or 1")),
    wrong("E-first-row", "E is the first row's sum", (LARGEST_SUM, "sum(rates[0]) or 1")),
    wrong("E-last-row", "E is the last row's sum", (LARGEST_SUM, "sum(rates[-1]) or 1")),
    wrong("E-largest-rate", "E is the largest rate", (LARGEST_SUM, "max(max(row, default=0) for row in rates) or 1")),
    wrong("E-one-more", "E is one more than the largest row sum", (LARGEST_SUM, "max(map(sum, rates)) + 1")),
    wrong("E-0-without-rates", "E is 0 where all rates are 0", (LARGEST_SUM, "max(map(sum, rates))")),
    wrong("E-million-without-rates", "E is 1,000,000 where all rates are 0",
          (LARGEST_SUM, "max(map(sum, rates)) or 10**6")),
    wrong("E-of-states-without-reward", "E is the largest row sum of the states without reward",
          ("    E = uniformization_rate(rates)",
           "    E = uniformization_rate([row for row, g in zip(rates, f) if g == 0] or [[]])")),
    wrong("diagonal-0", "c(i,i) is 0", (ROW_E, "row[:i] + [0] + row[i:]")),
    wrong("diagonal-E", "c(i,i) is E", (ROW_E, "row[:i] + [E] + row[i:]")),
    wrong("diagonal-negative", "c(i,i) is less the row's sum", (ROW_E, "row[:i] + [-sum(row)] + row[i:]")),
    wrong("diagonal-last", "c(i,i) put at the end of its row", (ROW_E, "row + [E - sum(row)]")),
    wrong("chain-transposed", "c(j,i) in place of c(i,j)",
          (EACH_ROW, EACH_ROW.replace("model.c", "zip(*model.c)"))),
    wrong("F-first-state", "F is the first state's reward", ("f, max(f), c", "f, f[0], c")),
    wrong("F-last-state", "F is the last state's reward", ("f, max(f), c", "f, f[-1], c")),
    wrong("F-sum", "F is the sum of the rewards", ("f, max(f), c", "f, sum(f), c")),
    wrong("F-limit", "F is 1,000,000", ("f, max(f), c", "f, 10**6, c")),
    wrong("F-1", "moments not divided by F^r", ("f, max(f), c", "f, 1, c")),
]

VECTORS = [
    *rounded("first-vectors", "U(0,r)", FIRST, "f * u, model.F"),
    *rounded("row-mean", "V", MEAN, "sum(map(mul, row, vector)), model.E"),
    *rounded("w", "W", W, "f * u, model.F"),
    *rounded("mix", "U(n,r)", MIX, "n * v + r * w, n + r"),
    wrong("first-vectors-one-division", "U(0,r) as f^r over F^r, divided once",
          ("for _ in range(model.R):\n        vectors.append([" + FIRST,
           "for r in range(1, model.R + 1):\n        vectors.append([f**r * ONE // model.F**r for f in model.f")),
    wrong("first-vectors-not-powers", "U(0,r) as f over F for every r", (FIRST, "f * ONE // model.F for f in model.f")),
    wrong("first-vectors-0", "U(0,r) as 0", (FIRST, "0 for f in model.f")),
    wrong("v-not-divided", "U(n,r) with V not rounded", (MEAN, "sum(map(mul, row, vector))"),
          (MIX, "(n * v + r * w * model.E) // ((n + r) * model.E)")),
    wrong("w-not-divided", "U(n,r) with W not rounded", (W, W.replace(" // model.F", "")),
          (MIX, "(n * v * model.F + r * w) // ((n + r) * model.F)")),
    wrong("mix-one-division", "U(n,r) with neither V nor W rounded", (MEAN, "sum(map(mul, row, vector))"),
          (W, W.replace(" // model.F", "")),
          (MIX, "(n * v * model.F + r * w * model.E) // ((n + r) * model.E * model.F)")),
    wrong("mix-two-divisions", "n V and r W divided one by one", (MIX, "n * v // (n + r) + r * w // (n + r)")),
    wrong("row-mean-each-product", "V with each product divided",
          (MEAN, "sum(a * b // model.E for a, b in zip(row, vector))")),
    wrong("row-mean-probabilities", "V with c(i,j) / E kept in units of 10^-12",
          (MEAN, "sum(a * ONE // model.E * b for a, b in zip(row, vector)) // ONE")),
    wrong("row-mean-binary64", "V in binary64",
          (MEAN, "int(sum(float(a) * b for a, b in zip(row, vector)) / model.E)")),
    wrong("row-mean-64-bit-signed", "V's sum in 64 bits with a sign",
          (MEAN, "signed(sum(map(mul, row, vector)), 64) // model.E")),
    wrong("row-mean-15-digits", "V's sum with 15 digits", (MEAN, "digits15(sum(map(mul, row, vector))) // model.E")),
    wrong("w-binary64", "W in binary64", (W, W.replace("f * u // model.F", "binary64(f, u, model.F)"))),
    wrong("w-share-in-billionths", "W with f / F kept in billionths",
          (W, W.replace("f * u // model.F", "f * BILLION // model.F * u // BILLION"))),
    wrong("overwritten", "the vector overwritten state by state", (MIXED, "overwritten(model, n, r, before[r], W)")),
    wrong("w-of-n-1-and-r-1", "W takes U(n-1,r-1)", (W, W.replace("vectors[r - 1]", "before[r - 1]"))),
    wrong("w-of-n-1-and-r", "W takes U(n-1,r)", (W, W.replace("vectors[r - 1]", "before[r]"))),
    wrong("v-of-r-1", "V takes U(n-1,r-1)", (MEANS, MEANS.replace("before[r]", "before[r - 1]"))),
    wrong("mix-exchanged", "n and r exchanged in U(n,r)", (MIX, "(r * v + n * w) // (n + r)")),
    wrong("mix-n-from-0", "n counted from 0 in U(n,r)", (MIX, "((n - 1) * v + r * w) // (n - 1 + r)")),
    wrong("mix-n-one-more", "n + 1 in place of n in U(n,r)", (MIX, "((n + 1) * v + r * w) // (n + 1 + r)")),
    wrong("mix-half", "U(n,r) as the plain mean of V and W", (MIX, "(v + w) // 2")),
    wrong("mix-r-1", "U(n,r) with r = 1 for every r", (MIX, "(n * v + w) // (n + 1)")),
    wrong("vectors-stationary", "vectors kept once no number moves by more than 10^-9",
          (STEP, f"unless_still(U[-1], {STEP})")),
    wrong("mix-misprinted-binomial", "U(n,r) by binomials, a lower index one off",
          (MIX, "(comb(n + r - 1, r) * v + comb(n + r - 1, r) * w) // comb(n + r, r)")),
]


# --- Lists of arrows (S-7) ------------------------------------------------------------------------------
# A row mean adds the diagonal and the arrows of a list, built from the file: for each row every other state with a rate
# above 0, once, the highest first. In the new texts L is the right list of row i, `lists` has those of all rows, and
# an arrow is a target j, counted from 0, with its rate a.

def listing(name, what, listed="L", diagonal=DIAGONAL, lists="arrows(rates)"):
    """Row means by another list, by another diagonal, or both."""
    return wrong(name, what, (CHAIN_ROWS, f"[chain_row(M, i, {diagonal}, {listed}) for lists in [{lists}] "
                                          "for i, (row, L) in enumerate(zip(rates, lists))]"))


def arrow_list(name, what, listed="L", lists="arrows(rates)"):
    """Another list; the diagonal is as it was."""
    return listing(f"arrows-{name}", what, listed, lists=lists)


def without(name, what, when):
    """Some arrows left out."""
    return arrow_list(f"without-{name}", f"{what} left out", f"[(j, a) for j, a in L if not ({when})]")


def to_target(name, what, target):
    """Arrows with another target."""
    return arrow_list(f"targets-{name}", what, f"[({target}, a) for j, a in L]")


def rate_listed(name, what, rate):
    """Arrows with another rate."""
    return arrow_list(f"rates-{name}", f"rates {what} when listed", f"[(j, {rate}) for j, a in L]")


def in_one(name, what, change):
    """The starts of the rows in one list changed."""
    return arrow_list(f"starts-{name}", what, lists=f"in_one_list(arrows(rates), lambda i, start: {change})")


def diagonal(name, what, new):
    """Another diagonal; the list is as it was."""
    return listing(f"diagonal-{name}", what, diagonal=new)


def to_diagonal(name, what, listed):
    """A list that is not whole, and E less what is listed for the diagonal."""
    return listing(f"arrows-{name}-to-diagonal", f"{what}, its rate left to the diagonal", listed,
                   f"E - sum(a for j, a in ({listed}))")


def cut_lists():
    """Lists cut at a number of arrows: in a row from either end, or in all."""
    for most in (1, 2, 4, 8, 16, 31, 32, 62):
        yield arrow_list(f"at-most-{most}", f"at most {most} arrows of a row listed, the highest", f"L[:{most}]")
        yield arrow_list(f"at-most-{most}-lowest", f"at most {most} arrows of a row listed, the lowest", f"L[-{most}:]")
    for most in (64, 128, 255, 256, 512, 1024, 2048, 4031):
        yield arrow_list(f"at-most-{most}-in-all", f"at most {most:,} arrows listed in all",
                         lists=f"at_most(arrows(rates), {most})")
    for bits in (4, 5):
        yield arrow_list(f"count-{bits}-bit", f"the count of a row's arrows in {bits} bits",
                         f"L[:len(L) % {2**bits}]")


ENDS_LEFT_OUT = {
    "lowest": "L[:-1]",
    "highest": "L[1:]",
}
IN_ROWS = {
    "row": ("every row", "True"),
    "row-of-several": ("every row with two arrows or more", "len(L) > 1"),
    "first-row": ("the first row", "i == 0"),
    "last-row": ("the last row", "i == M - 1"),
    "first-row-of-several": ("the first row, where it has two or more,", "i == 0 and len(L) > 1"),
    "last-row-of-several": ("the last row, where it has two or more,", "i == M - 1 and len(L) > 1"),
    "row-64": ("the row of state 64", "i == 63"),
}


def missing_at_ends():
    """The lowest or the highest arrow of a row left out, in every row or in some."""
    for row, (where, when) in IN_ROWS.items():
        for end, part in ENDS_LEFT_OUT.items():
            yield arrow_list(f"without-{end}-in-{row}", f"the {end} arrow of {where} left out",
                             f"{part} if {when} else L")


ARROWS = [
    # which arrows
    *missing_at_ends(),
    *cut_lists(),
    *(without(*entry) for entry in (
        ("first-state", "arrows to state 1", "j == 0"),
        ("last-state", "arrows to state M", "j == M - 1"),
        ("next-state", "arrows to the next state", "j == i + 1"),
        ("state-before", "arrows to the state before", "j == i - 1"),
        ("higher-states", "arrows to higher states", "j > i"),
        ("lower-states", "arrows to lower states", "j < i"),
        ("states-from-33", "arrows to states above 32, by 32 bits for the targets,", "j >= 32"),
        ("state-64", "arrows to state 64, its number in six bits,", "j == 63"),
        ("row-64", "arrows of state 64, its number in six bits,", "i == 63"),
        ("first-row", "all arrows of the first row", "i == 0"),
        ("last-row", "all arrows of the last row", "i == M - 1"),
        ("way-back", "of two arrows between two states the one to the lower", "j < i and i in dict(lists[j])"),
        ("absorbing-targets", "arrows to a state that has none", "not lists[j]"),
        ("rate-1", "arrows of rate 1", "a == 1"),
        ("rates-by-low-8-bits", "arrows whose rate is 0 in its last 8 bits", "a % 2**8 == 0"),
        ("rates-by-low-16-bits", "arrows whose rate is 0 in its last 16 bits", "a % 2**16 == 0"),
        ("rates-by-high-bits", "arrows whose rate has no bit before the last 16", "a < 2**16"),
        ("below-diagonal-0", "arrows to lower states, where a diagonal of 0 ends the list,",
         f"j < i and {DIAGONAL} == 0"))),
    arrow_list("to-first-0", "the list ended by the first rate of 0, from the highest j on",
               "L[:row[::-1].index(0)] if 0 in row else L"),
    arrow_list("from-last-0", "the list ended by the first rate of 0, from the lowest j on",
               "L[len(L) - row.index(0):] if 0 in row else L"),
    arrow_list("equal-rates-once", "of the arrows of a row with the same rate one listed",
               "[(j, a) for a, j in {a: j for j, a in L}.items()]"),
    arrow_list("highest-twice", "the highest arrow of a row listed twice", "L[:1] + L"),
    arrow_list("lowest-twice", "the lowest arrow of a row listed twice", "L + L[-1:]"),
    arrow_list("next-state-twice", "the arrow to the next state listed twice", "L + [b for b in L if b[0] == i + 1]"),
    arrow_list("state-before-twice", "the arrow to the state before listed twice",
               "L + [b for b in L if b[0] == i - 1]"),
    arrow_list("both-ways", "each arrow taken to lead back as well",
               "L + [(j, b) for j, back in enumerate(lists) for k, b in back if k == i]"),
    # of which row
    arrow_list("of-row-before", "the list of the row before read", "lists[max(i - 1, 0)]"),
    arrow_list("of-next-row", "the list of the next row read", "lists[min(i + 1, M - 1)]"),
    arrow_list("of-first-row", "the list of the first row read for every row", "lists[0]"),
    arrow_list("of-last-row", "the list of the last row read for every row", "lists[-1]"),
    arrow_list("kept", "the list of the row before kept for a state without arrows", "L or lists[max(i - 1, 0)]"),
    arrow_list("kept-at-the-end", "the end of the list before kept where the new one is shorter",
               "L + lists[max(i - 1, 0)][len(L):]"),
    arrow_list("growing", "the arrows of all rows before added too", "sum(lists[:i], L)"),
    arrow_list("growing-by-one", "the arrows of the row before added too", "L + lists[i - 1] if i else L"),
    arrow_list("one-late", "the rates of all rows read one place late", lists="arrows(one_off(rates, 1))"),
    arrow_list("one-early", "the rates of all rows read one place early", lists="arrows(one_off(rates, -1))"),
    arrow_list("of-version-1", "the lists of version 2 read where version 1 has its rates",
               lists="arrows(read_rates(file[:2] + b'\\1' + file[3:], M))"),
    in_one("8-bit", "the starts of the rows in one list in 8 bits", "start % 2**8"),
    in_one("0-without-arrows", "the start of a row without arrows left at 0",
           "start if i == M or any(rates[i]) else 0"),
    in_one("from-1", "the first arrow of all left out, its number 0 being none", "max(start, 1)"),
    in_one("one-late", "each row from its second arrow to the first of the next", "start + 1"),
    in_one("without-last", "the last arrow of all left out", "min(start, sum(map(len, arrows(rates))) - 1)"),
    # with which target and rate
    to_target("k", "the diagonal not passed over: targets above it one too low", "j - (j > i)"),
    to_target("k-plus-1", "the diagonal passed over from the first on: targets below it one too high", "j + (j < i)"),
    to_target("next-to-itself", "the diagonal passed over one late: the arrow to the next state to itself",
              "i if j == i + 1 else j"),
    to_target("before-to-itself", "the diagonal passed over one early: the arrow to the state before to itself",
              "i if j == i - 1 else j"),
    to_target("one-higher", "targets counted from 1, vectors from 0", "j + 1"),
    to_target("one-lower", "targets counted from 0, vectors from 1", "j - 1"),
    to_target("from-the-end", "targets counted from the last state", "M - 1 - j"),
    to_target("5-bit", "targets in 5 bits", "j % 32"),
    arrow_list("rates-lowest-first", "the rates of a list lowest target first, its targets highest first",
               "[(j, a) for (j, _), (_, a) in zip(L, L[::-1])]"),
    arrow_list("rates-of-next-arrow", "each target with the rate of the next arrow",
               "[(j, a) for (j, _), (_, a) in zip(L, L[1:])]"),
    *(rate_listed(*entry) for entry in (
        ("16-bit", "cut to 16 bits", "a % 2**16"),
        ("16-bit-signed", "cut to 16 bits with a sign", "signed(a, 16)"),
        ("at-most-65535", "held at 65,535", "min(a, 2**16 - 1)"),
        ("20-bit", "cut to 20 bits", "a % 2**20"),
        ("24-bit-signed", "cut to 24 bits with a sign", "signed(a, 24)"),
        ("11-bits", "cut to 11 significant bits", "a - a % 2**max(a.bit_length() - 11, 0)"),
        ("thousandths", "cut to whole thousandths per hour", "a // 1_000 * 1_000"))),
    # the diagonal
    *(diagonal(*entry) for entry in (
        ("twice", "c(i,i) added twice", f"2 * ({DIAGONAL})"),
        ("with-each-arrow", "c(i,i) added with each arrow", f"({DIAGONAL}) * (len(L) or 1)"),
        ("with-each-lower-arrow", "c(i,i) added before each arrow to a lower state",
         f"({DIAGONAL}) * (sum(j < i for j, a in L) or 1)"),
        ("0-absorbing", "c(i,i) left out for a state without arrows", f"{DIAGONAL} if L else 0"),
        ("0-not-absorbing", "c(i,i) left out but for a state without arrows", f"0 if L else {DIAGONAL}"),
        ("0-both-sides", "c(i,i) left out where a row has arrows on both sides",
         f"0 if L and L[-1][0] < i < L[0][0] else {DIAGONAL}"),
        ("0-no-lower", "c(i,i) left out where arrows lead to higher states alone",
         f"0 if L and i < L[-1][0] else {DIAGONAL}"),
        ("0-no-higher", "c(i,i) left out where arrows lead to lower states alone",
         f"0 if L and L[0][0] < i else {DIAGONAL}"),
        ("0-first-state", "c(i,i) left out for the first of several states", f"0 if i == 0 < M - 1 else {DIAGONAL}"),
        ("0-last-state", "c(i,i) left out for the last of several states", f"0 if i == M - 1 > 0 else {DIAGONAL}"),
        ("0-first-absorbing", "c(i,i) left out for the first of several states, where it has no arrows",
         f"0 if i == 0 < M - 1 and not L else {DIAGONAL}"),
        ("0-last-absorbing", "c(i,i) left out for the last of several states, where it has no arrows",
         f"0 if i == M - 1 > 0 and not L else {DIAGONAL}"),
        ("0-absorbing-between", "c(i,i) left out for a state without arrows between others",
         f"0 if 0 < i < M - 1 and not L else {DIAGONAL}"),
        ("0-state-64", "c(i,i) left out for state 64", f"{DIAGONAL} if i < 63 else 0"),
        ("0-one-arrow", "c(i,i) left out for a state with one arrow", f"0 if len(L) == 1 else {DIAGONAL}"),
        ("0-63-arrows", "c(i,i) left out for a state with 63 arrows", f"0 if len(L) == 63 else {DIAGONAL}"),
        ("1-absorbing", "c(i,i) is 1 for a state without arrows", f"{DIAGONAL} if L else 1"),
        ("E-for-0", "c(i,i) is E where it is 0", f"{DIAGONAL} or E"),
        ("less-largest-rate", "c(i,i) is E less the row's largest rate", "E - max(row, default=0)"),
        ("less-last-arrow", "c(i,i) is E less the rate listed last", "E - (L[-1][1] if L else 0)"),
        ("less-first-arrow", "c(i,i) is E less the rate listed first", "E - (L[0][1] if L else 0)"))),
    listing("diagonal-to-last-arrow", "c(i,i) times the number of the state listed last",
            f"L + [(L[-1][0] if L else i, {DIAGONAL})]", "0"),
    listing("diagonal-to-first-state", "c(i,i) times the number of the first state", f"L + [(0, {DIAGONAL})]", "0"),
    *(to_diagonal(*entry) for entry in (
        ("without-rate-1", "an arrow of rate 1 left out", "[(j, a) for j, a in L if a > 1]"),
        ("without-first-state", "the arrow to state 1 left out", "[(j, a) for j, a in L if j]"),
        ("without-last-state", "the arrow to state M left out", "[(j, a) for j, a in L if j < M - 1]"),
        ("without-lowest-in-last-row", "the lowest arrow of the last row left out", "L[:-1] if i == M - 1 else L"),
        ("without-highest-in-last-row", "the highest arrow of the last row left out", "L[1:] if i == M - 1 else L"),
        ("without-lowest-in-first-row", "the lowest arrow of the first row left out", "L[:-1] if i == 0 else L"),
        ("without-highest-in-first-row", "the highest arrow of the first row left out", "L[1:] if i == 0 else L"),
        ("at-most-8", "an arrow behind the eighth left out", "L[:8]"),
        ("at-most-62", "the lowest of 63 arrows left out", "L[:62]"),
        ("at-most-62-lowest", "the highest of 63 arrows left out", "L[-62:]"),
        ("rates-16-bit", "the rate cut to 16 bits", "[(j, a % 2**16) for j, a in L]"),
        ("to-first-0", "an arrow behind the first rate of 0 left out", "L[:row[::-1].index(0)] if 0 in row else L"))),
    wrong("rates-1-as-0", "a rate of 1 read as 0", (RATES, f"[[a if a > 1 else 0 for a in row] for row in {RATES}]")),
    wrong("row-mean-own-sum", "V over the row's own sum, without the diagonal",
          (EACH_ROW, "    for i, row in enumerate(model.c):\n"),
          (MEAN, "(sum(map(mul, row, vector)) - row[i] * vector[i]) // (model.E - row[i]) if row[i] < model.E "
                 "else vector[i]")),
    wrong("row-mean-one-carry", "V from quotients and remainders, at most one E taken out of these",
          (MEAN, "(sum(a * b // model.E for a, b in zip(row, vector)) + "
                 "(sum(a * b % model.E for a, b in zip(row, vector)) >= model.E))")),
]


# --- Weights and level ---------------------------------------------------------------------------------

WEIGHT_LIST = [
    *rounded("weights-right", "weights right of m", RIGHT, "w[n] * X, (n + 1) * MILLION"),
    *rounded("weights-left", "weights left of m", LEFT, "w[n] * n * MILLION, X"),
    wrong("weights-right-binary64", "weights right of m in binary64", (RIGHT, "binary64(w[n], X, (n + 1) * MILLION)")),
    wrong("weights-left-binary64", "weights left of m in binary64", (LEFT, "binary64(w[n], n * MILLION, X)")),
    wrong("weights-right-extended", "weights right of m with 64 significant bits",
          (RIGHT, "extended(w[n], X, (n + 1) * MILLION)")),
    wrong("weights-left-extended", "weights left of m with 64 significant bits",
          (LEFT, "extended(w[n], n * MILLION, X)")),
    wrong("weights-right-64-bit", "w(n) X in 64 bits", (RIGHT, "w[n] * X % 2**64 // ((n + 1) * MILLION)")),
    wrong("weights-left-64-bit", "w(n) n 1,000,000 in 64 bits", (LEFT, "w[n] * n * MILLION % 2**64 // X")),
    wrong("weights-left-first-divided", "leftward, w(n) n divided before it is multiplied",
          (LEFT, "w[n] * n // X * MILLION")),
    wrong("weights-right-15-digits", "w(n) X with 15 digits", (RIGHT, "digits15(w[n] * X) // ((n + 1) * MILLION)")),
    wrong("weights-left-15-digits", "w(n) n 1,000,000 with 15 digits", (LEFT, "digits15(w[n] * n * MILLION) // X")),
    wrong("weights-from-0", "weights started at n = 0 with 10^15", (WEIGHTS_M, "m = 0\n    w = ")),
    wrong("weights-from-0-64-bit", "weights started at n = 0, the products in 64 bits", (WEIGHTS_M, "m = 0\n    w = "),
          (RIGHT, "w[n] * X % 2**64 // ((n + 1) * MILLION)")),
    wrong("weights-poisson", "weights as probabilities in binary64", ("w[m] = TOP_WEIGHT", "return poisson(X, last)")),
    wrong("weights-cut-once", "weights worked out without rounding, each cut at its end",
          ("w[m] = TOP_WEIGHT", "return cut_once(X, last)")),
    wrong("weights-top-10-to-12", "w(m) = 10^12", ("TOP_WEIGHT = 10**15", "TOP_WEIGHT = 10**12")),
    wrong("weights-top-10-to-18", "w(m) = 10^18", ("TOP_WEIGHT = 10**15", "TOP_WEIGHT = 10**18")),
    wrong("weights-whole-q", "q rounded down in the weights", (WEIGHTS, WEIGHTS + "    X = max(m, 1) * MILLION\n")),
    wrong("weights-left-truncated", "weights below 10^-12 left of m taken as 0",
          ("        w[n - 1] = " + LEFT, f"        w[n - 1] = {LEFT} if w[n] >= 1000 else 0")),
    wrong("weights-left-110", "weights left of m - 110 taken as 0",
          ("        w[n - 1] = " + LEFT, f"        w[n - 1] = {LEFT} if n > m - 110 else 0")),
    wrong("m-up", "m is q rounded up", (WEIGHTS_M, "m = up(X, MILLION)\n    w = "),
          (TAIL_M, "m = up(X, MILLION)\n    return 1 ")),
    wrong("m-binary32", "m from q in binary32", (WEIGHTS_M, "m = int(binary32(binary32(X) / 10**6))\n    w = ")),
    wrong("m-nearest", "m is q rounded to the nearest", (WEIGHTS_M, "m = nearest(X, MILLION)\n    w = "),
          (TAIL_M, "m = nearest(X, MILLION)\n    return 1 ")),
]

LEVEL = [
    wrong("t-with-n-minus-m-plus-1", "t with n - m + 1", (TAIL, TAIL.replace("n - m", "n - m + 1"))),
    wrong("t-with-n-minus-m-minus-1", "t with n - m - 1", (TAIL, TAIL.replace("n - m", "n - m - 1"))),
    wrong("t-with-n", "t with n in place of n - m", (TAIL, TAIL.replace("n - m", "n"))),
    wrong("t-without-n-minus-m", "t without n - m", (TAIL, TAIL.replace("(w[n] + n - m)", "w[n]"))),
    wrong("t-without-its-1", "t without its 1", (TAIL, T_QUOTIENT)),
    wrong("t-divisor-with-n", "t's divisor with n in place of n + 1", (TAIL, TAIL.replace("(n + 1)", "n"))),
    wrong("t-divisor-with-n-plus-2", "t's divisor with n + 2 in place of n + 1",
          (TAIL, TAIL.replace("n + 1", "n + 2"))),
    *rounded("t", "t's quotient", T_QUOTIENT, "(w[n] + n - m) * X, (n + 1) * MILLION - X"),
    wrong("t-binary64", "t's quotient in binary64", (TAIL, "1 + binary64(w[n] + n - m, X, (n + 1) * MILLION - X)")),
    wrong("t-binary64-q", "t's quotient in binary64, with q for X",
          (TAIL, "1 + int((w[n] + n - m) * (X / 1e6) / (n + 1 - X / 1e6))")),
    wrong("t-64-bit", "t's product in 64 bits", (TAIL, TAIL.replace("* X //", "* X % 2**64 //"))),
    wrong("t-is-the-tail", "t is the sum of the weights right of n", (TAIL, "sum(w[n + 1:])")),
    wrong("t-is-the-next-weight", "t is the weight right of n", (TAIL, "w[n + 1] if n < LEVEL_LIMIT else 0")),
    wrong("t-below-its-bound", "t < its bound in place of t <= it", (T_TEST, T_TEST.replace("<=", "<"))),
    *rounded("bound", "S(n) epsilon / 10^9", BOUND, "S * epsilon, BILLION"),
    wrong("bound-binary64", "S(n) epsilon / 10^9 in binary64", (BOUND, "binary64(S, epsilon, BILLION)")),
    wrong("bound-binary64-tolerance", "epsilon / 10^9 in binary64, then times S(n)",
          (BOUND, "int(S * (epsilon / 1e9))")),
    wrong("bound-binary64-S", "S(n) / 10^9 in binary64, then times epsilon", (BOUND, "int(S / 1e9 * epsilon)")),
    wrong("bound-as-share", "t / S(n) <= epsilon / 10^9 in binary64", (T_TEST, "tail(w, X, n) / S <= epsilon / 1e9")),
    wrong("S-binary64", "S(n) summed in binary64", (SUM_S, "        S = int(float(S) + w[n])\n")),
    wrong("bound-64-bit", "S(n) epsilon in 64 bits", (BOUND, "S * epsilon % 2**64 // BILLION")),
    wrong("bound-15-digits", "S(n) epsilon with 15 digits", (BOUND, "digits15(S * epsilon) // BILLION")),
    wrong("bound-first-divided", "S(n) divided by 10^9 before it is multiplied", (BOUND, "S // BILLION * epsilon")),
    wrong("bound-in-millionths", "the tolerance taken in millionths", (BOUND, "S * epsilon // MILLION")),
    wrong("bound-of-S-before-n", "S(n-1) in place of S(n)", (BOUND, "(S - w[n]) * epsilon // BILLION")),
    wrong("bound-of-all-weights", "the sum of all weights in place of S(n)", (BOUND, "sum(w) * epsilon // BILLION")),
    wrong("bound-of-w-m", "10^15 in place of S(n)", (BOUND, "TOP_WEIGHT * epsilon // BILLION")),
    wrong("level-from-m", "the search begun at m, also where q is above it", (FROM_Q, "n >= X // MILLION and ")),
    wrong("level-from-m-plus-2", "the search begun at m + 2", (FROM_Q, "n >= X // MILLION + 2 and ")),
    wrong("level-from-0", "the search begun at 0", (FROM_Q, "")),
    wrong("level-one-more", "the level one more", (LEVEL_FOUND, "            return n + 1\n")),
    wrong("level-one-less", "the level one less", (LEVEL_FOUND, "            return n - 1\n")),
    wrong("level-at-most-255", "the level at most 255", (LEVEL_FOUND, "            return min(n, 255)\n")),
    wrong("level-at-most-256", "the level at most 256", (LEVEL_FOUND, "            return min(n, 256)\n")),
    wrong("level-at-most-300", "the level at most 300", (LEVEL_FOUND, "            return min(n, 300)\n")),
    wrong("level-always-1024", "the level always 1,024", (LEVEL_FOUND, "            return LEVEL_LIMIT\n")),
    wrong("level-by-relation-10", "the level by relation (10) in binary64", ("w = weights(X, LEVEL_LIMIT)",
          "return relation_10(X, epsilon)")),
]


# --- Moments ------------------------------------------------------------------------------------------

MOMENTS = [
    *rounded("terms", "the terms of A", TERM, "w[n] * U[n][r][i], ONE"),
    wrong("terms-binary64", "the terms of A in binary64", (TERM, "binary64(w[n], U[n][r][i], ONE)")),
    wrong("terms-extended", "the terms of A with 64 significant bits", (TERM, "extended(w[n], U[n][r][i], ONE)")),
    wrong("terms-64-bit", "w(n) U(n,r) in 64 bits", (TERM, "w[n] * U[n][r][i] % 2**64 // ONE")),
    wrong("terms-15-digits", "w(n) U(n,r) with 15 digits", (TERM, "digits15(w[n] * U[n][r][i]) // ONE")),
    wrong("terms-together", "A divided by 10^12 after it is summed",
          (A, "sum(w[n] * U[n][r][i] for n in range(N + 1)) // ONE")),
    wrong("terms-not-divided", "A not divided by 10^12 at all", (A, "sum(w[n] * U[n][r][i] for n in range(N + 1))"),
          (OVER_S, "last_division(A, ONE * sum(w[:N + 1]))")),
    wrong("A-binary64", "A summed in binary64", (A, f"int({A.replace('sum', 'added')})")),
    wrong("A-from-1", "A summed from n = 1", (A, A.replace("range(N + 1)", "range(1, N + 1)"))),
    wrong("A-below-N", "A summed to N - 1", (A, A.replace("range(N + 1)", "range(N)"))),
    wrong("S-below-N", "S(N-1) in place of S(N)", (OVER_S, "last_division(A, sum(w[:N]))")),
    wrong("S-of-all-weights", "A divided by the sum of all weights",
          ("w = weights(model.X, N)", "w = weights(model.X, LEVEL_LIMIT)"), (OVER_S, "last_division(A, sum(w))")),
    wrong("S-is-e-to-the-q", "A divided by e^q", ("moment(w, U, N, i - 1, r)\n",
          "moment(w, U, N, i - 1, r) * sum(w) // e_to_q(model.X)\n")),
    wrong("A-of-n-0", "A with U(0,r) for every n", (TERM, "w[n] * U[0][r][i] // ONE")),
    wrong("all-binary64", "vectors and sums in binary64, nothing cut before the last division",
          (FIRST, FIRST.replace("f * u // model.F", "f / model.F * u")),
          (MEAN, "sum(a / model.E * b for a, b in zip(row, vector))"),
          (W, W.replace("f * u // model.F", "f / model.F * u")), (MIX, MIX.replace("//", "/")),
          (TERM, "w[n] * U[n][r][i] / ONE"), (LAST, "return int(A * ONE / S + 0.5)")),
    wrong("exact-fractions", "the exact average up to N, rounded once",
          ("moment(w, U, N, i - 1, r)\n", "nearest(*(average(model, N, i, r) * ONE).as_integer_ratio())\n")),
    wrong("variance", "the variance in place of the second moment",
          (MOMENT_CELL, f"{MOMENT_CELL} - (cells[(i - 1) * R]**2 // ONE if r == 2 else 0)")),
    wrong("cells-r-by-r", "the moments in their cells r by r", (CELL, "cells[(r - 1) * model.M + (i - 1)] = ")),
    wrong("cells-eight-each", "eight cells for every state", (CELL, "cells[(i - 1) * 8 + (r - 1)] = ")),
]


# --- The last division ----------------------------------------------------------------------------------

def last(name, what, new):
    """The last division worked out in another way."""
    return wrong(f"last-division-{name}", f"the last division {what}", (LAST, f"return {new}"))


def half_test(name, what, new):
    """Another test for a remainder of half the divisor or more."""
    return wrong(f"half-test-{name}", f"the last division goes up where {what}", (FROM_HALF, new))


def carry(name, what, raised, *changes):
    """Another number in place of the quotient plus 1."""
    return wrong(f"carry-{name}", what, (LAST, LAST.replace("quotient + 1", raised)), *changes)


def rounded_twice():
    """More than twelve decimals first, rounded or cut, then twelve."""
    for more in (1, 3, 6):
        places = f"{12 + more} decimals"
        yield last(f"rounded-at-{12 + more}", f"rounded to {places}, then to twelve",
                   f"nearest(nearest(A * ONE * 10**{more}, S), 10**{more})")
        yield last(f"cut-at-{12 + more}-even", f"cut to {places}, then rounded, a half to the even one",
                   f"even(A * ONE * 10**{more} // S, 10**{more})")


LAST_DIVISION = [
    last("down", "rounded down", "A * ONE // S"),
    last("up", "rounded up", "up(A * ONE, S)"),
    last("half-down", "rounded to the nearest, a half going down", "up(2 * A * ONE - S, 2 * S)"),
    last("even", "rounded to the nearest, a half to the even one", "even(A * ONE, S)"),
    last("odd", "rounded to the nearest, a half to the odd one", "even(A * ONE + S, S) - 1"),
    last("digit-above-5", "going up where the 13th decimal is above 5", "(A * ONE * 10 // S + 4) // 10"),
    *rounded_twice(),
    last("cut-at-13-binary64", "cut to 13 decimals, then rounded to twelve in binary64",
         "int(A * ONE * 10 // S / 1e13 * 1e12 + 0.5)"),
    last("decimal", "with 28 decimal digits, a half going up", "decimal(A, S, 28, 'ROUND_HALF_UP')"),
    last("decimal-even", "with 28 decimal digits, a half to the even one", "decimal(A, S, 28, 'ROUND_HALF_EVEN')"),
    last("binary64", "in binary64", "int(float(A) * ONE / float(S) + 0.5)"),
    last("binary64-once", "as the nearest binary64, rounded, a half to the even one", "round(A * ONE / S)"),
    last("share", "as A / S(N) in binary64, times 10^12", "int(A / S * ONE + 0.5)"),
    last("share-half-added", "as A / S(N) in binary64, cut to twelve decimals after 5 10^-13 is added",
         "int((A / S + 5e-13) * ONE)"),
    last("reciprocal", "as A times 10^12 / S(N) in binary64", "int(A * (ONE / S) + 0.5)"),
    last("share-printed", "as A / S(N) in binary64, printed with twelve decimals",
         'int(f"{A / S:.12f}".replace(".", ""))'),
    last("share-fixed", "as A / S(N) in binary64, printed with twelve decimals, a half going up",
         "nearest_to(Fraction(A / S) * ONE)"),
    last("extended", "with 64 significant bits", "nearest_to(significant64(significant64(Fraction(A * ONE)) / S))"),
    last("share-extended", "as A / S(N) with 64 significant bits, times 10^12",
         "nearest_to(significant64(significant64(Fraction(A, S)) * ONE))"),
    last("share-extended-printed", "as A / S(N) with 64 significant bits, printed with twelve decimals",
         "round(significant64(Fraction(A, S)) * ONE)"),
    last("A-binary64", "with A in binary64", "nearest(int(float(A)) * ONE, S)"),
    last("S-binary64", "with S(N) in binary64", "nearest(A * ONE, int(float(S)))"),
    last("64-bit", "with A 10^12 in 64 bits", "nearest(A * ONE % 2**64, S)"),
    last("doubled-64-bit", "with 2 A 10^12 + S(N) in 64 bits", "(2 * A * ONE + S) % 2**64 // (2 * S)"),
    last("15-digits", "with 15 digits of A", "nearest(digits15(A) * ONE, S)"),
    last("first-divided", "with S(N) divided by 1,000 before it", "nearest(A * BILLION, S // 1000)"),
    last("S-halved", "by half of S(N), down, and the quotient halved", "(A * ONE // (S // 2) + 1) // 2"),
    last("half-tick-of-A", "down after half a tick in units of A, down, is added to A",
         "(A + S // (2 * ONE)) * ONE // S"),
    half_test("S-halved", "the remainder is half of S(N), down, or more", "left >= S // 2"),
    half_test("S-halved-binary64", "the remainder is half of S(N) in binary64 or more", "left >= S / 2"),
    half_test("share", "the remainder over S(N) in binary64 is 0.5 or more", "left / S >= 0.5"),
    half_test("binary64", "twice the remainder is S(N) or more, both in binary64", "2.0 * left >= float(S)"),
    half_test("remainder-binary64", "the remainder worked out in binary64 is half of S(N) or more",
              "2 * (float(A) * ONE - float(quotient) * S) >= S"),
    half_test("quarter", "the remainder is a quarter of S(N) or more", "4 * left >= S"),
    wrong("last-division-first-moments", "the last division rounded to the nearest for r = 1 alone",
          (OVER_S, OVER_S + " if r == 1 else A * ONE // sum(w[:N + 1])")),
    *(carry(f"within-{places}", f"rounding up, the carry goes no further than the last decimals, {places} of them",
            f"quotient - quotient % 10**{places} + (quotient + 1) % 10**{places}") for places in (1, 2, 6, 9)),
    carry("one-missed", "a moment that rounds to 1 left at 0.999999999999", "min(quotient + 1, ONE - 1)"),
    carry("one-lost", "a moment that rounds to 1 printed as 0.000000000000", "(quotient + 1) % ONE"),
    carry("one-in-13-digits", "a moment that rounds to 1 printed as 0.1000000000000",
          "(quotient + 1 if quotient + 1 < ONE else -1)",
          (LINE, LINE.replace(FIGURE, f"{{f'{FIGURE}' if ticks >= 0 else '0.1000000000000'}}"))),
    carry("tick-missed", "a moment below a tick left at 0", "(quotient + 1 if quotient else 0)"),
    wrong("all-nearest", "every division rounded to the nearest",
          *(change for entry in (*VECTORS, *WEIGHT_LIST, *LEVEL, *MOMENTS)
            if entry.name.endswith("-nearest") and entry.name != "m-nearest" for change in entry.changes)),
]


# --- The printed sheet ----------------------------------------------------------------------------------

FIRST_LINE = 'f"{word} {value}"'


def figure(name, what, new):
    return wrong(name, what, (LINE, LINE.replace(FIGURE, new)))


def state_line(name, what, state):
    """The state printed otherwise."""
    return wrong(name, what, (STATE_LINE, STATE_LINE.replace("(i", f"({state}", 1)))


def start_line(name, what, new):
    """Another line for a start figure."""
    return wrong(f"start-lines-{name}", f"start lines {what}", (START_LINE, new))


def start_word(name, what, new):
    """Another word in the place of `start`."""
    return start_line(name, what, START_LINE.replace('"start"', new))


START_SHEET = [
    wrong("start-lines-missing", "start lines left out", ("        if file[2] == 2:\n", "        if False:\n")),
    wrong("start-lines-first-r", "start lines for r = 1 alone",
          (START_LINES, START_LINES.replace("range(1, R + 1)", "(1,)"))),
    wrong("start-lines-without-last-r", "start lines without that of R",
          (START_LINES, START_LINES.replace("range(1, R + 1)", "range(1, max(R, 2))"))),
    wrong("start-lines-r-falling", "start lines from R to 1",
          (START_LINES, START_LINES.replace("range(1, R + 1)", "range(R, 0, -1)"))),
    wrong("start-lines-first", "start lines before those of the states",
          (MOMENT_LINES, f"        if file[2] == 2:\n{START_LINES}{MOMENT_LINES}"),
          (f"        if file[2] == 2:\n{START_LINES}    return", "    return")),
    start_word("as-state", "labelled M + 1", "M + 1"),
    start_word("as-0", "labelled 0", "0"),
    start_word("capital", "with a capital first letter", '"Start"'),
    start_word("colon", "with a colon", '"start:"'),
    start_word("starts", "labelled starts", '"starts"'),
    start_word("all", "labelled all", '"all"'),
    start_word("with-M", "with M behind the word", 'f"start {M}"'),
    start_line("without-r", "without r", 'sheet_line("start", r, cells[M * R + (r - 1)]).replace(f" {r}", "", 1)'),
    start_line("r-first", "with r before the word", 'sheet_line(r, "start", cells[M * R + (r - 1)])'),
    start_line("r-from-0", "with r counted from 0", 'sheet_line("start", r - 1, cells[M * R + (r - 1)])'),
    start_line("first-cell", "with the figures of the first cells", 'sheet_line("start", r, cells[r - 1])'),
    start_line("last-state", "with the figures of the last state",
               'sheet_line("start", r, cells[(M - 1) * R + (r - 1)])'),
    start_line("cell-512", "with the figures of the cells from 512 on", 'sheet_line("start", r, cells[512 + (r - 1)])'),
    start_line("in-millionths", "with six digits", 'sheet_line("start", r, cells[M * R + (r - 1)])[:-6]'),
    wrong("start-lines-for-64-missing", "start lines left out where there are more than 512 cells",
          ("        if file[2] == 2:\n", "        if file[2] == 2 and block_size(file) <= 512:\n")),
]

SHEET = [
    *START_SHEET,
    figure("eleven-digits", "eleven digits", "{ticks // ONE}.{ticks % ONE // 10:011d}"),
    figure("thirteen-digits", "thirteen digits", "{ticks // ONE}.{ticks % ONE * 10:013d}"),
    figure("digits-not-filled", "zeros left out behind the point", "{ticks // ONE}.{ticks % ONE}"),
    figure("no-first-digit", "no digit before the point where it is 0", "{ticks // ONE or ''}.{ticks % ONE:012d}"),
    figure("last-zeros-left-out", "zeros left out at the end", "{ticks / ONE:.12g}"),
    figure("exponent", "an exponent for figures below 10^-4", "{exponent(ticks)}"),
    figure("comma", "a comma for the point", "{ticks // ONE},{ticks % ONE:012d}"),
    figure("one-printed-below", "1 printed as 0.999999999999", "0.{min(ticks, ONE - 1):012d}"),
    figure("one-printed-as-0", "1 printed as 0.000000000000", "0.{ticks % ONE:012d}"),
    figure("zero-printed-short", "0 printed without a point", "{f'{ticks // ONE}.{ticks % ONE:012d}' if ticks else 0}"),
    figure("one-printed-short", "1 printed without a point", "{f'0.{ticks:012d}' if ticks < ONE else 1}"),
    figure("figure-binary64", "the digits taken from the value in binary64",
           "{as_binary64(ticks) // ONE}.{as_binary64(ticks) % ONE:012d}"),
    figure("figure-in-percent", "percent", "{ticks // 10**10}.{ticks % 10**10:010d}"),
    state_line("states-one-digit", "states printed as one character", "chr(48 + i)"),
    state_line("states-from-0", "states counted from 0", "i - 1"),
    wrong("r-from-0", "r counted from 0", (LINE, LINE.replace("{r}", "{r - 1}"))),
    wrong("r-before-state", "r printed before the state", (LINE, LINE.replace("{i} {r}", "{r} {i}"))),
    state_line("columns-filled", "states printed with two places", 'f"{i:2d}"'),
    wrong("tabs", "fields parted by tabs", (LINE, LINE.replace("} {", "}\\t{"))),
    wrong("trailing-space", "a space at the end of lines", (ENDED, ENDED.replace("\\n", " \\n"))),
    wrong("lines-r-by-r", "the lines r by r", ("for i in range(1, M + 1):\n            for r in range(1, R + 1):",
          "for r in range(1, R + 1):\n            for i in range(1, M + 1):")),
    wrong("last-line-missing", "the last line left out", (ENDED, ENDED.replace("lines", "(lines[:-1] or lines)"))),
    wrong("blank-line-at-the-end", "a blank line at the end", (ENDED, ENDED.replace("lines", 'lines + [""]'))),
    wrong("level-two-digits", "the level printed with its last two digits", (FIRST_LINE, 'f"{word} {value % 100}"')),
    wrong("level-counts-terms", "the count of the terms printed for the level",
          (FIRST_LINE, """f"{word} {value + (word == 'level')}\"""")),
    *(wrong(f"output-{size}", f"the sheet cut off after {size} bytes", (ENCODED, f"{ENCODED}[:{size}]"))
      for size in (4096, 8192, 10_000)),
    wrong("level-in-capitals", "a capital first letter", (FIRST_LINE, 'f"{word.capitalize()} {value}"')),
    wrong("level-with-colon", "a colon in the first line", (FIRST_LINE, 'f"{word}: {value}"')),
    wrong("level-left-out", "the level's line left out", (FIRST_LINE, FIRST_LINE + '][:word == "refused"')),
    wrong("refused-as-error", "error in place of refused", (FIRST_LINE, FIRST_LINE + '.replace("refused", "error")')),
    wrong("refused-two-digits", "the row printed with two digits", (FIRST_LINE, 'f"{word} {value:02d}"')),
    wrong("refused-silent", "nothing printed for a refused file",
          ("word, value = calculate(file, cells)", "word, value = calculate(file, cells)\n    if word == 'refused':"
           "\n        return b''")),
    wrong("refused-and-figures", "figures printed behind a refusal", ('if word == "level":', "if len(file) > 4:")),
    wrong("no-length-silent", "nothing printed for an input of fewer than 2 bytes",
          (INPUT, INPUT + "\n    if len(file) < 2:\n        return b''")),
]


# --- Input and output of the program ------------------------------------------------------------------------

STDIN = "sys.stdin.buffer.raw"
WRITE = "sys.stdout.buffer.write(output)"

PROGRAMS = [
    program("single-read", "input read once", (READ, f"return {STDIN}.read(READ_LIMIT)")),
    program("two-reads", "13 bytes read, then the others at once",
            (READ, f"return {STDIN}.read(13) + {STDIN}.read(16641)")),
    program("four-reads", "at most four reads", (READ, f"return b''.join({STDIN}.read(READ_LIMIT) for _ in range(4))")),
    program("short-read-is-the-end", "a read of fewer than 4,096 bytes taken for the last",
            (READ, f"return read_pieces({STDIN}, 4096, READ_LIMIT, lambda file: len(file) % 4096)")),
    program("read-to-its-length", "nothing read behind the length that the file gives",
            (READ, f"return read_pieces({STDIN}, READ_LIMIT, READ_LIMIT, "
             "lambda file: len(file) >= 2 and len(file) >= 2 + number(file, 0, 2))")),
    program("read-without-end", "input read until 16,654 bytes are there, no end seen",
            (READ, f"file = b''\n    while len(file) < READ_LIMIT:\n        file += {STDIN}.read(READ_LIMIT)\n"
             "    return file"), time_limit=1),
    program("CRLF", "lines ended by 0D 0A", (WRITE, 'sys.stdout.buffer.write(output.replace(b"\\n", b"\\r\\n"))')),
    program("CR", "lines ended by 0D", (WRITE, 'sys.stdout.buffer.write(output.replace(b"\\n", b"\\r"))')),
    program("no-last-line-end", "no line end behind the last line", (WRITE, "sys.stdout.buffer.write(output[:-1])")),
    program("byte-order-mark", "a byte order mark before the sheet",
            (WRITE, 'sys.stdout.buffer.write(b"\\xef\\xbb\\xbf" + output)')),
    program("UTF-16", "two bytes for each character",
            (WRITE, 'sys.stdout.buffer.write(output.decode().encode("utf-16"))')),
    program("signal-at-the-end", "ended by a signal behind the sheet", (WRITE, f"{WRITE}\n        crash()")),
]


# --- Changes that no sheet can show -------------------------------------------------------------------------

EQUIVALENT = [
    wrong("level-above-q", "n 1,000,000 > X for >=: at n = q, t is above q 10^15, and its bound at most (q + 1) 10^14",
          (FROM_Q, "n * MILLION > X and ")),
    wrong("level-from-m-plus-1", "the search begun at m + 1: at n = m the test is reached only where q = m, as above",
          (FROM_Q, "n >= X // MILLION + 1 and ")),
    wrong("level-at-most-512", "the level at most 512: there w(n) is 0 and t at most 511, its bound at least 10^6",
          (LEVEL_FOUND, "            return min(n, 512)\n")),
    wrong("weights-right-two-divisions", "w(n) X over 1,000,000, down, then over n + 1, down: the same whole number",
          (RIGHT, "w[n] * X // MILLION // (n + 1)")),
    wrong("mix-binomials", "U(n,r) by binomials: their shares are n / (n + r) and r / (n + r)",
          (MIX, "(comb(n + r - 1, r) * v + comb(n + r - 1, r - 1) * w) // comb(n + r, r)")),
    wrong("mix-binary64", "U(n,r) in binary64: below 2^53, and 1 / (n + r) is above the distance of two numbers there",
          (MIX, "int((n * v + r * w) / (n + r))")),
    wrong("row-mean-j-falling", "V summed from the last j: a sum of whole numbers has no order",
          (MEAN, "sum(map(mul, row[::-1], vector[::-1])) // model.E")),
    arrow_list("right", "the list as S-7 has it: a rate of 0 adds nothing, and a sum of whole numbers has no order"),
    arrow_list("lowest-first", "the list lowest first: a sum of whole numbers has no order", "L[::-1]"),
    arrow_list("in-one-list", "the arrows of all rows in one list, each row from its start to that of the next",
               lists="in_one_list(arrows(rates), lambda i, start: start)"),
    arrow_list("at-most-63", "at most 63 arrows of a row listed: there are not more", "L[:63]"),
    arrow_list("at-most-4032-in-all", "at most 4,032 arrows listed in all: there are not more",
               lists="at_most(arrows(rates), 4032)"),
    arrow_list("rates-24-bit", "rates cut to 24 bits when listed: by row 11 they are at most 10,000,000, below 2^24",
               "[(j, a % 2**24) for j, a in L]"),
    arrow_list("rates-binary32", "rates in binary32 when listed: below 2^24 it holds every whole number",
               "[(j, int(binary32(a))) for j, a in L]"),
    listing("diagonal-listed-above-0", "c(i,i) listed as an arrow to itself, where it is above 0: 0 adds nothing",
            f"[(j, a) for j, a in [*L, (i, {DIAGONAL})] if a]", "0"),
    wrong("absorbing-kept", "U(0,r) kept for a state without arrows: V is U(n-1,r) there and W the same as U(0,r)",
          (MIXED, "[u if model.c[i][i] == model.E else (n * v + r * w) // (n + r) "
                  "for i, (v, w, u) in enumerate(zip(V, W, before[r]))]")),
    last("doubled", "as 2 A 10^12 + S(N) over 2 S(N), down: that is to the nearest, a half going up",
         "(2 * A * ONE + S) // (2 * S)"),
    last("half-added", "down after half of S(N), down, is added: no remainder is half of an odd S(N)",
         "(A * ONE + S // 2) // S"),
    last("in-halves", "as 2 A 10^12 over S(N), down, plus 1, halved: the halves of a tick are counted",
         "(2 * A * ONE // S + 1) // 2"),
    last("cut-at-13", "cut to 13 decimals, then rounded, a half going up: the 13th decimal is 5 or more from a half on",
         "nearest(A * ONE * 10 // S, 10)"),
    last("decimal-34", "with 34 decimal digits, a half going up: that is off by 10^-21 of a tick at most, and what "
         "is no half differs from one by 10^-19 or more", "decimal(A, S, 34, 'ROUND_HALF_UP')"),
    last("at-most-one", "never above 10^12: A is at most S(N), as no number of a vector is above 10^12",
         "min(nearest(A * ONE, S), ONE)"),
    half_test("difference", "S(N) less the remainder is not above the remainder: twice the remainder is S(N) or more",
              "S - left <= left"),
    wrong("figure-rounded-binary64", "figures printed from binary64 with twelve digits: it holds fifteen",
          (LINE, LINE.replace(FIGURE, "{ticks / ONE:.12f}"))),
    wrong("length-signed", "the length as 16 bits with a sign: 32,768 and more never fits the bytes read",
          (NUMBER, f"signed({NUMBER}, 16) if start == 0 else {NUMBER}")),
    border(6, "16-bit", "the right length in 16 bits: it is 16,651 at most, as M is at most 64 by row 4",
           f"length != {LENGTH} % 2**16"),
    earlier(10, 9)._replace(what="row 10 tested before row 9: rewards that are all 0 are not above their limit"),
    border(13, "left-out", "not tested: 520 cells are enough for 64 states, the start and 8 moments", "False"),
    sums("64-bit", "the sum in 64 bits: 64 weights below 2^32", f"{WEIGHT_SUM} % 2**64"),
    sums("held-at-2-32", "the sum held at 2^32 - 1: 1,000,000 is below", f"min({WEIGHT_SUM}, 2**32 - 1)"),
    border(16, "by-the-rest", "the weights taken off 1,000,000 one after the other, and ending at 0",
           f"file[2] == 2 and MILLION - {WEIGHT_SUM}"),
    started_by("64-bit-signed", "from a sum in 64 bits with a sign: it is at most 10^18",
               f"signed({START_SUM}, 64) // MILLION"),
    started_by("over-the-sum", "over the sum of the weights: by row 16 it is 1,000,000",
               f"{START_SUM} // sum(model.a)"),
    started_by("from-the-last", "summed from the last state: a sum of whole numbers has no order",
               "sum(map(mul, model.a[::-1], moments[r - 1:model.M * model.R:model.R][::-1])) // MILLION"),
    started_by("with-the-rests", "from quotients and remainders: the remainders are summed and divided too",
               "sum(a * (x // MILLION) for a, x in zip(model.a, moments[r - 1::model.R])) + "
               "sum(a * (x % MILLION) for a, x in zip(model.a, moments[r - 1::model.R])) // MILLION"),
    started_by("at-most-one", "never above 10^12: no moment is", f"min({START}, ONE)"),
]

CALCULATION = (*CHAIN, *VECTORS, *ARROWS, *WEIGHT_LIST, *LEVEL, *MOMENTS, *LAST_DIVISION)
TABLE = {}
for _entry in (*MODEL_FILE, *REFUSAL_TABLE, *VERSION_2, *CALCULATION, *START_FIGURES, *START_CELLS, *SHEET, *PROGRAMS):
    if _entry.name in TABLE:
        raise ValueError(f"two wrong calculators are named {_entry.name}")
    TABLE[_entry.name] = _entry
