"""The stored calls of the comparison kit: inputs of the library's calls, by name, and what the reference gives.

A name that begins with refused-NN tells the row that is answered; the others are accepted. Of remainders, a name that
begins with none is answered so; with the others the three rests are given. A name with start tells that the file is of
version 2.
"""

import itertools
import math
import random

import arrows
import calculator
import cases
import edges
import inputs
import models
from inputs import LARGEST, MAX_WORD, MAX_X, MOST, NUMBERS, ROWS, Input

A = bytes.fromhex("000F010101000027100000000100000005")
B = bytes.fromhex("001B01020205F5E100000000010000000100000000000F4240000F4240")
EIGHT = [1, 2, 3, 4, 5, 6, 7, 8]
NINE = EIGHT + [9]


def put(file, start, size, value):
    """The file with a number of `size` bytes written from byte `start`."""
    return file[:start] + value.to_bytes(size, "big") + file[start + size:]


def weighted(file, weights):
    """A version 1 file as one of version 2 with these starting weights."""
    return models.relength(file[:2] + b"\2" + file[3:13] + models.words(weights) + file[13:])


def moved(file):
    """A version 1 file as one of version 2 with all weight on state 1."""
    return weighted(file, models.on_one(file[3], 0))


def spread(file):
    """The same with weight on every state."""
    return weighted(file, models.uneven(random.Random(f"spread {len(file)}"), file[3]))


FEW_ARROWS = dict(arrows.files())      # models by name
A_MOVED, B_MOVED = moved(A), moved(B)
B_START = weighted(B, [250_000, 750_000])


def own_time(file, T):
    return put(file, 9, 4, T)


def series(name, file, times, levels=None, cells=None):
    """A call of series; where a count is not given, just what the list and the file need."""
    return Input(name, "series", inputs.listing(file, list(times), len(times) if levels is None else levels,
                                                len(times) * inputs.need(file) if cells is None else cells))


def calculate(name, file, cells=None):
    """A call of calculate; where no count is given, just what the file needs."""
    return Input(name, "calculate", inputs.calculating(file, inputs.need(file) if cells is None else cells))


def remainders(name, file, state, n, r):
    return Input(name, "remainders", inputs.asked(file, state=state, n=n, r=r))


def move(call, name, file, out=None):
    """A call of the converter; where no count of bytes is given, just what the moved file needs."""
    return Input(name, call, dict(file=file, out=inputs.moved_length(call, file) if out is None else out))


def practice(name, states, highest, seed, out=None):
    """A call of practice; where no count of bytes is given, just what the file needs."""
    return Input(name, "practice", dict(states=states, highest=highest, seed=seed,
                                        out=inputs.dealt_length(states) if out is None else out))


def at(word, file, state, n, r):
    """A call of remainders whose name tells its numbers."""
    return remainders(f"{word}-state-{state}-n-{n}-r-{r}", file, state, n, r)


def three_states(R, T=1, tolerance=1_000):
    return models.build(1, 3, R, tolerance, T, [999_983, 31, 500_000], [[70_001, 3], [90_007, 11], [0, 123_457]])


def slow_pair(R=1, tolerance=1_000):
    """E is 1: a time is the expected jump count in millionths."""
    return models.build(1, 2, R, tolerance, 1, [3, 1], [[1], [0]])


def states(M, R, E=1_000, tolerance=10_000_000):
    """M states with a level that is quick for times up to 1,000."""
    return models.build(**models.fields_for(random.Random(f"calls {M} {R}"), M, E, 1, R=R, eps=tolerance, fill=1.0))


# --- Version 2 ---------------------------------------------------------------------------------------

def with_weights(*weights):
    """Three states with these starting weights."""
    return weighted(three_states(2), weights)


# Starting weights of three states that sum to 1,000,000.
WEIGHTS = {
    "on-first": (1_000_000, 0, 0),
    "on-second": (0, 1_000_000, 0),
    "on-last": (0, 0, 1_000_000),
    "nearly-on-first": (999_999, 0, 1),
    "nearly-on-last": (1, 0, 999_999),
    "with-zero": (345_679, 0, 654_321),
    "even": (333_334, 333_333, 333_333),
    "uneven": (123_457, 271_829, 604_714),
}
# And others that do not.
WRONG_WEIGHTS = {
    "0": (0, 0, 0),
    "999999": (333_333, 333_333, 333_333),
    "1000001": (333_333, 333_334, 333_334),
    "999999-on-first": (999_999, 0, 0),
    "1000001-on-first": (1_000_001, 0, 0),
    "1000001-on-last": (0, 0, 1_000_001),
    "16960": (10_000, 6_900, 60),
    "right-in-24-bits": (2**24, 400_000, 600_000),
    "right-in-31-bits": (2**30, 1_000_000, 2**30),
    "right-in-32-bits": (2**32 - 1, 400_000, 600_001),
    "right-in-32-bits-last": (400_000, 600_001, 2**32 - 1),
    "right-in-32-bits-twice": (2**32 - 1, 2**32 - 1, 1_000_002),
    "right-in-20-bits-each": (2**20, 400_000, 600_000),
    "right-without-first": (1, 400_000, 600_000),
    "right-without-second": (400_000, 1, 600_000),
    "right-without-last": (400_000, 600_000, 1),
    "2000000": (1_000_000, 0, 1_000_000),
    "3000000": (1_000_000, 1_000_000, 1_000_000),
    "largest-words": (MAX_WORD, MAX_WORD, MAX_WORD),
}


def largest_words_64():
    """64 weights of 2^32 - 1, which do not fit 32 bits together."""
    return weighted(states(64, 1), [MAX_WORD] * 64)


def stopped_files():
    """Files that row 3, 6 or 16 stops, with the ends of their names."""
    for version in (0, 3, 5, 6, 255):
        yield f"refused-03-version-{version}", put(B, 2, 1, version)
        yield f"refused-03-start-version-{version}", put(B_START, 2, 1, version)
    yield "refused-06-A-version-2", put(A, 2, 1, 2)
    yield "refused-06-version-2-as-1", put(B, 2, 1, 2)
    yield "refused-06-version-1-as-2", put(B_START, 2, 1, 1)
    yield "refused-06-start-a-weight-less", models.relength(B_START[:13] + B_START[17:])
    yield "refused-06-start-a-weight-more", models.relength(B_START[:13] + bytes(4) + B_START[13:])
    for word, weights in WRONG_WEIGHTS.items():
        yield f"refused-16-sum-{word}", with_weights(*weights)
    for weight in (0, 999_999, 1_000_001):
        yield f"refused-16-1-state-{weight}", weighted(A, [weight])


def start_files():
    """Accepted files of version 2, with the ends of their names."""
    for word, weights in WEIGHTS.items():
        yield f"start-{word}", with_weights(*weights)


def start_left(left, rewards, rate):
    """Two states and one moment with a rate, this one or the least above it, for which there are starting weights that
    let the sum of weight times moment leave this by 1,000,000; and those weights."""
    fields = models.valid(2, 1, 1_000, 40, rewards, [[rate], [90_007]])
    cells = [0] * 2
    calculator.calculate(models.build(**fields), cells)
    apart = cells[0] - cells[1]         # a on state 1 adds a times this to 1,000,000 times the second moment
    common = math.gcd(apart, 1_000_000)
    step = 1_000_000 // common
    if left % common == 0:
        least = left // common * pow(apart // common, -1, step) % step
        first = least + (1_000_000 - least) // step // 2 * step
        if 0 < first < 1_000_000:
            return models.build(**models.in_version_2(fields, [first, 1_000_000 - first]))
    return start_left(left, rewards, rate + 1)


def lefts():
    """Files of start_left, by their names: what the division by 1,000,000 leaves is next to 0 or to a half."""
    for left in (0, 1, 499_999, 500_000, 500_001, 999_999):
        for k, rewards in enumerate(([999_983, 31], [17, 999_979]), 1):
            yield f"start-left-{left:06d}-{k}", start_left(left, rewards, 123_457 + k)


def pairs_of_16():
    """Row 16 with rows before and after it."""
    for row in (2, 4, 5, 6, 7, 8):
        yield f"refused-{row:02d}-before-16", broken({row, 16})
    for row in (9, 10, 11):
        yield f"refused-16-before-{row:02d}", broken({16, row})
    yield "refused-16-before-12", own_time(broken({16}), 257)
    yield from pairs_of_sum_0()


def pairs_of_sum_0():
    """The same with weights that are all 0."""
    none = weighted(B, [0, 0])
    for row in (7, 8):
        yield f"refused-{row:02d}-before-16-sum-0", broken({row}, none)
    for row in (9, 10, 11):
        yield f"refused-16-sum-0-before-{row:02d}", broken({row}, none)
    yield "refused-16-sum-0-before-12", own_time(none, 257)
    yield "refused-16-before-9-11-12", own_time(broken({16, 9, 11}), 257)


# --- Rows broken ------------------------------------------------------------------------------------

def rewards_from(file):
    """Where the rewards of file B begin, or of a file with its numbers."""
    return 21 if file[2] == 2 else 13


def one_more(file):
    """A version 2 file with its first weight one more."""
    return put(file, 13, 4, 1 + int.from_bytes(file[13:17], "big"))


# File B, in either version, with one row broken, by the least that breaks it; row 1 cuts it to 12 bytes. Row 17 has all
# but a millionth on state 1.
BROKEN = {
    1: lambda file: models.relength(file[:12]),
    2: lambda file: file + b"\0",
    3: lambda file: put(file, 2, 1, 3),
    4: lambda file: put(file, 3, 1, 65),
    5: lambda file: put(file, 4, 1, 9),
    6: lambda file: models.relength(file + b"\0"),
    7: lambda file: put(file, 5, 4, 100_000_001),
    8: lambda file: own_time(file, 0),
    16: one_more,
    9: lambda file: put(file, rewards_from(file) + 4, 4, 1_000_001),
    10: lambda file: put(file, rewards_from(file), 8, 0),
    11: lambda file: put(file, rewards_from(file) + 8, 4, 10_000_001),
    17: lambda file: put(put(file, 13, 4, 999_999), 17, 4, 1),
}
# A list that breaks this row, or these rows.
LISTS = {
    (): [1, 2], (8,): [0, 1], (14,): NINE, (15,): [2, 2], (12,): [1, MAX_X + 1],
    (8, 14): [0] + EIGHT, (8, 15): [0, 0], (8, 12): [0, MAX_X + 1],
    (14, 15): [1] * 9, (12, 14): EIGHT + [MAX_X + 1], (12, 15): [MAX_X + 1] * 2,
}
# Rows that file B does not break together: 12 bytes hold no weights, rewards and rates, 65 states leave no room for
# rates.
IMPOSSIBLE = {(1, 2), (1, 6), (1, 16), (1, 9), (1, 10), (1, 11), (1, 17), (9, 10), (4, 11)}


def broken(rows, file=None):
    """File B, or another with its numbers, with those of the rows broken that a file breaks but 12: the last first,
    since a broken length or cut goes over all else. With row 16 it has a starting distribution."""
    file = file or (B_START if 16 in rows else B)
    for row in reversed(BROKEN):
        file = BROKEN[row](file) if row in rows else file
    return put(file, 3, 1, 0) if {4, 10} <= rows else file      # 65 states would read other rewards


def series_rows():
    """Every row of the table alone, then every two together: the first of the two is answered. Row 8 is that of the
    file, 8-list that of the list."""
    order = ROWS["series"]
    for row in order:
        yield series_breaking(f"refused-{row:02d}", {row})
    yield series_breaking("refused-08-list", {8}, in_list=True)
    for k, row in enumerate(order):
        for later in order[k + 1:]:
            if (row, later) in IMPOSSIBLE:
                continue
            name = f"refused-{row:02d}-before-{later:02d}"
            yield series_breaking(name, {row, later})
            if 8 in (row, later):
                yield series_breaking(name.replace("08", "08-list"), {row, later}, in_list=True)


def series_breaking(name, rows, in_list=False):
    """A call that breaks these rows and no other (13: no cell of either slice)."""
    listed = tuple(sorted(rows & ({8, 12, 14, 15} if in_list else {12, 14, 15})))
    counts = (0, 0) if 13 in rows else (9, 54 if 16 in rows else 36)
    return series(name, broken(rows - {8} if in_list else rows), LISTS[listed], *counts)


def series_row_8():
    """The file's own time and the first listed time."""
    yield series("refused-08-file-time-0-no-times", own_time(B, 0), [])
    yield series("refused-08-both-times-0", own_time(B, 0), [0])
    yield series("refused-08-first-time-0-alone", B, [0])
    yield series("refused-08-first-time-0-of-9", B, [0] + EIGHT, 9, 36)
    yield series("refused-08-first-two-times-0", B, [0, 0])
    yield series("refused-08-first-time-0-last-largest", B, [0, MAX_WORD])
    yield series("refused-08-first-time-0-own-time-late", own_time(B, 257), [0, 5])
    yield series("refused-15-second-time-0", B, [1, 0])
    yield series("refused-15-last-time-0", B, [1, 2, 3, 0])
    yield series("refused-14-later-time-0-of-9", B, [1, 0] + EIGHT[:7], 9, 36)


def series_row_14():
    """No times, and more than 8."""
    yield series("refused-14-no-times", B, [])
    yield series("refused-14-no-times-cells-lent", B, [], 8, 32)
    yield series("refused-14-no-times-own-time-late", own_time(B, 257), [], 8, 32)
    yield series("refused-14-9-times", B, NINE)
    yield series("refused-14-10-times", B, NINE + [10])
    yield series("refused-14-16-times", B, range(1, 17))
    yield series("refused-14-256-times", B, range(1, 257), 256, 1024)
    yield series("refused-14-257-times", B, range(1, 258), 257, 1028)
    yield series("refused-14-264-times", B, range(1, 265), 264, 1056)
    yield series("refused-14-9-times-cells-of-8", B, NINE, 8, 32)
    yield series("refused-14-9-times-first-8-equal", B, [1] * 8 + [2])
    yield series("refused-14-9-times-last-late", B, range(249, 258))
    yield series("border-8-times", B, EIGHT)
    yield series("border-7-times", B, EIGHT[:7])
    yield series("border-1-time", B, [1])


def series_row_15():
    """A time equal to the one before it, or below it, at every place of 8 and of 2."""
    for place in range(1, 8):
        for word, less in (("equal", 0), ("falling", 1)):
            times = [10 * k for k in EIGHT]
            times[place] = times[place - 1] - less
            yield series(f"refused-15-{word}-at-{place + 1}", B, times)
    yield series("refused-15-two-equal", B, [5, 5])
    yield series("refused-15-two-falling", B, [2, 1])
    yield series("refused-15-all-falling", B, EIGHT[::-1])
    yield series("refused-15-all-equal", B, [7] * 8)
    yield series("refused-15-past-2-31-then-1", slow_pair(), [2**31, 1])
    yield series("refused-15-largest-then-1", slow_pair(), [MAX_WORD, 1])
    yield series("refused-15-largest-twice", slow_pair(), [MAX_WORD, MAX_WORD])
    yield series("refused-15-late-then-in-time", B, [257, 256])
    yield series("refused-15-late-twice", B, [257, 257])
    yield series("refused-15-above-all-but-the-last", B, [1, 5, 4, 6])
    yield series("border-15-each-one-more", B, [249, 250, 251, 252, 253, 254, 255, 256])


def series_row_12():
    """E times the last time: 256,000,000 and the least above it, past 2^31 and 2^32, the file's own time late."""
    rate = {E: models.build(1, 2, 1, 100_000_000, 1, [1, 0], [[E], [E // 2]])
            for E in (1, 2, 3, 5_333, 2**16, 8_000_000, 10_000_000)}
    for E, file in rate.items():
        most = MAX_X // E
        yield series(f"border-12-rate-{E}-last-{most}", file, [1, most])
        yield series(f"refused-12-rate-{E}-last-{most + 1}", file, [1, most + 1])
        yield series(f"refused-12-rate-{E}-only-{most + 1}", file, [most + 1])
    yield series("border-12-B-last-256", B, [256])
    yield series("refused-12-B-last-257", B, [1, 256, 257])
    yield series("refused-12-two-late", B, [257, 258])
    yield series("refused-12-all-late", B, range(257, 265))
    yield series("refused-12-last-of-8", B, EIGHT[:7] + [257])
    yield series("refused-12-product-2-31", rate[2**16], [1, 2**15])
    yield series("refused-12-product-2-32", rate[2**16], [1, 2**16])
    yield series("refused-12-product-4300000000", rate[10_000_000], [1, 430])
    yield series("refused-12-last-2-31", rate[1], [1, 2**31])
    yield series("refused-12-last-largest", rate[1], [1, MAX_WORD])
    yield series("refused-12-last-largest-no-rates", A, [1, MAX_WORD])
    yield series("refused-12-rate-10000000-last-largest", rate[10_000_000], [25, MAX_WORD])
    yield series("refused-12-two-largest", A, [MAX_WORD - 1, MAX_WORD])
    yield series("refused-12-own-time-1", own_time(B, 1), [2, 257])
    yield series("border-12-no-rates", A, [1, MAX_X])
    yield series("refused-12-no-rates", A, [1, MAX_X + 1])


def series_own_time():
    """The file's own time is checked at 8 and not used."""
    for word, T in (("in-the-list", 2), ("before-the-list", 1), ("after-the-list", 200), ("just-late", 257),
                    ("late", 300), ("past-2-31", 2**31), ("largest", MAX_WORD)):
        yield series(f"own-time-{word}", own_time(B, T), [2, 3, 100])
    yield series("own-time-late-list-longest", own_time(B, 257), [256])
    yield series("refused-12-own-time-late-too", own_time(B, 257), [257])
    yield series("own-time-late-1-state", own_time(A, MAX_WORD), [1, 2])


def series_row_13():
    """Level cells and block cells: one too few, none, enough for one block alone, more than enough."""
    for word, file in (("B", B), ("A", A), ("3-states", three_states(8))):
        size = inputs.need(file)
        for times in ([3], [1, 4], EIGHT):
            n, name = len(times), f"{word}-{len(times)}-times"
            yield series(f"border-13-{name}", file, times)
            yield series(f"border-13-{name}-one-more-each", file, times, n + 1, n * size + 1)
            yield series(f"refused-13-{name}-a-level-less", file, times, n - 1, n * size)
            yield series(f"refused-13-{name}-a-cell-less", file, times, n, n * size - 1)
    for word, levels, cells in (("no-levels", 0, 64), ("no-cells", 64, 0), ("none-of-either", 0, 0),
                                ("one-block-of-three", 3, 4), ("two-blocks-of-three", 3, 8),
                                ("one-level-of-three", 1, 12), ("counts-exchanged", 12, 3),
                                ("a-level-less-cells-more", 2, 64), ("a-cell-less-levels-more", 64, 11)):
        yield series(f"refused-13-{word}", B, [1, 2, 3], levels, cells)
    for word, levels, cells in (("levels-longer", 20, 12), ("cells-longer", 3, 40), ("both-longer", 20, 600)):
        yield series(f"border-13-{word}", B, [1, 2, 3], levels, cells)
    for row, times in ((14, NINE), (15, [3, 3]), (12, [1, 257])):
        n = len(times)
        yield series(f"refused-{row}-a-level-less", B, times, n - 1, 4 * n)
        yield series(f"refused-{row}-a-cell-less", B, times, n, 4 * n - 1)
    wide = states(4, 8)
    yield series("border-13-256-cells", wide, EIGHT)
    yield series("refused-13-256-cells-less-one", wide, EIGHT, 8, 255)
    yield series("refused-13-256-cells-none", wide, EIGHT, 8, 0)


# --- Levels and moments ---------------------------------------------------------------------------------

def series_values():
    """Levels and blocks over the range of models and times."""
    yield series("hand-A", A, [1])
    yield series("hand-B", B, [1])
    yield series("hand-B-times-1-and-2", B, [1, 2])
    yield series("hand-B-three-times-longer-slices", B, [1, 2, 256], 5, 20)
    yield series("year-in-months", models.build(1, 3, 3, 10_000, 1_000, [2, 1, 0],
                                                [[2_000, 0], [100_000, 1_000], [0, 100_000]]),
                 [730, 1_460, 2_190])
    for R in (1, 2, 8):
        yield series(f"moments-{R}", three_states(R), [1, 10, 100, 1_000])
        yield series(f"1-state-moments-{R}", models.build(1, 1, R, 1_000, 1, [5], [[]]), EIGHT[:7] + [MAX_X])
    yield series("no-rates-3-states", models.build(1, 3, 2, 1_000, 1, [7, 0, 3], [[0, 0]] * 3), [1, 1_000, MAX_X])
    yield series("spread-times", three_states(2, tolerance=1), [1, 3, 17, 60, 200, 700, 1_500, 2_000])
    yield series("large-steps-and-small", B, [1, 2, 128, 129, 255, 256])
    yield series("absorbing", models.build(1, 3, 3, 1_000, 1, [4, 2, 0], [[500_000, 7], [0, 300_000], [0, 0]]),
                 [1, 2, 50])
    for M, R, times in ((16, 3, [1, 500]), (64, 1, [1, 1_000]), (64, 8, EIGHT)):
        yield series(f"states-{M}-moments-{R}", states(M, R), times)
    for name in ("arrows-none-of-middle", "arrows-none-of-last", "arrows-rates-1", "arrows-to-both-ends",
                 "arrows-start", "arrows-one-crew-64-states"):
        yield series(name, FEW_ARROWS[name], [1, 2, 5])


def series_levels():
    """Close times, whose level stays or rises by one, and jump counts about whole numbers."""
    yield series("levels-stay", slow_pair(), range(7_000_000, 7_000_008))
    yield series("first-time-65536", slow_pair(), [2**16, 2**16 + 1])
    yield series("first-time-16777216", slow_pair(), [2**24, 2**24 + 1])
    yield series("levels-stay-small", slow_pair(8), [1, 2, 3, 4])
    yield series("levels-stay-wide-tolerance", slow_pair(2, 100_000_000), [100_000, 200_000, 300_000, 400_000])
    for q in (1, 2, 9, 256):
        last = [] if q == 256 else [q * 10**6 + 1]
        yield series(f"whole-q-{q}", slow_pair(2), [q * 10**6 - 1, q * 10**6] + last)
    for row in edges.LEVEL_ROWS[::4]:
        X = row.rates[0][0] * row.T
        file = models.build(1, 2, 1, row.epsilon, 1, [1, 0], [[1], [0]])
        yield series(f"{row.name.replace('level-edge', 'level-rises-next-to')}", file, [X - 1, X, X + 1])


def series_last_division():
    """Files of the kit whose last division is at a half or next to it, with a second time."""
    halves = [row for row in edges.DIGIT_ROWS if isinstance(row.holds[0], edges.Half)]
    for row in halves[::3]:
        file = models.build(**models.edge_fields(row))
        most = inputs.longest_time(file)
        other = [row.T + 1] if row.T < most else []
        yield series(f"at-{row.name}", own_time(file, 1), [row.T] + other)


def series_kinds():
    """An accepted list for every small kind of model."""
    for kind in models.SMALL_KINDS:
        name = kind.__name__.replace("_", "-")
        rng = random.Random(f"calls {name}")
        file = models.build(**kind(rng))
        while inputs.cost(dict(file=file, times=[inputs.longest_time(file)])) > inputs.CHEAP // 4:
            file = models.build(**kind(rng))
        yield series(f"valid-{name}", file, inputs.rising(rng, inputs.longest_time(file), rng.randint(2, 5)))


def series_start():
    """Version 2: a block has its start figures behind its moments."""
    yield series("hand-A-start", A_MOVED, [1, 2])
    yield series("hand-B-start", B_START, [1])
    yield series("hand-B-start-times-1-and-2", B_START, [1, 2])
    yield series("hand-B-start-on-1", B_MOVED, [1, 2])
    yield series("hand-B-start-three-times-longer-slices", B_START, [1, 2, 256], 5, 30)
    for name, file in start_files():
        yield series(name, file, [3, 40, 500])
    for name, file in lefts():
        yield series(name, own_time(file, 1), [40, 41])
    for R in (1, 3, 8):
        yield series(f"start-moments-{R}", spread(three_states(R)), [1, 10, 100, 1_000])
    yield series("start-1-state", moved(models.build(1, 1, 3, 1_000, 1, [5], [[]])), EIGHT[:7] + [MAX_X])
    yield series("start-levels-stay", spread(slow_pair(2)), range(7_000_000, 7_000_008))
    yield series("start-large-steps-and-small", B_START, [1, 2, 128, 129, 255, 256])
    yield series("start-8-times", spread(three_states(2)), [1, 3, 17, 60, 200, 700, 1_500, 2_000])
    yield series("start-16-states", spread(states(16, 3)), [1, 500])
    yield series("start-64-states-moments-8", spread(states(64, 8)), [1, 1_000])
    for word, T in (("late", 257), ("largest", MAX_WORD)):
        yield series(f"start-own-time-{word}", own_time(B_START, T), [2, 3, 100])


def series_start_rows():
    """Version 2: rows 3, 6 and 16, and 16 with those before and after it."""
    for name, file in (*stopped_files(), *pairs_of_sum_0(), ("refused-16-64-largest-words", largest_words_64())):
        yield series(name, file, [1, 2])
    yield series("refused-08-list-before-16-9-times", broken({16}), [0] + EIGHT, 9, 54)
    yield series("refused-08-both-before-16", broken({8, 16}), [0, 1])
    yield series("refused-16-no-times", broken({16}), [])
    yield series("refused-16-before-9-14-15", broken({16, 9}), [257] * 9, 9, 54)
    yield series("refused-16-no-cells", broken({16}), [1, 2], 0, 0)
    for row, times in ((14, NINE), (15, [2, 2]), (12, [1, 257])):
        yield series(f"refused-{row}-start", B_START, times, 9, 54)
    yield series("border-12-start-last-256", B_START, [256])
    yield series("refused-12-start-last-257", B_START, [1, 256, 257])


def series_start_row_13():
    """Version 2: the start figures are counted, in each block."""
    for word, file in (("B", B_START), ("A", A_MOVED), ("3-states", spread(three_states(8)))):
        size, moments = inputs.need(file), file[3] * file[4]
        for times in ([3], [1, 4], EIGHT):
            n, name = len(times), f"start-{word}-{len(times)}-times"
            yield series(f"border-13-{name}", file, times)
            yield series(f"border-13-{name}-three-more-each", file, times, n + 3, n * size + 3)
            yield series(f"refused-13-{name}-a-level-less", file, times, n - 1, n * size)
            yield series(f"refused-13-{name}-a-cell-less", file, times, n, n * size - 1)
            yield series(f"refused-13-{name}-moments-alone", file, times, n, n * moments)
            if n > 1:
                yield series(f"refused-13-{name}-start-once", file, times, n, n * moments + file[4])
    for word, levels, cells in (("no-levels", 0, 64), ("no-cells", 64, 0), ("none-of-either", 0, 0)):
        yield series(f"refused-13-start-{word}", B_START, [1, 2, 3], levels, cells)
    wide = spread(states(3, 8))
    yield series("border-13-start-256-cells", wide, EIGHT)
    yield series("refused-13-start-256-cells-less-one", wide, EIGHT, 8, 255)
    yield series("refused-13-start-256-cells-none", wide, EIGHT, 8, 0)


# --- Row means -------------------------------------------------------------------------------------------

# Numbers of row means, and the states, moments, E and time of a file that takes so many with the tolerance 1,000; the
# levels are 17, 16 and 256.
ROW_MEANS = {255: (5, 3, 4_200_000, 1), 256: (4, 4, 3_700_000, 1), 65_536: (32, 8, 5_850_000, 32)}


def row_mean_files():
    """Files by the number of row means that a run takes."""
    for count, (M, R, E, T) in ROW_MEANS.items():
        rng = random.Random(f"row means {count}")
        yield count, models.build(**models.fields_for(rng, M, E, T, R=R, eps=1_000, fill=0.2))


def calculate_row_means():
    """Numbers of row means: by hand, over the range of models, next to 2^8 and 2^16, and the largest."""
    yield calculate("hand-A", A)
    yield calculate("hand-B", B)
    for T in (2, 256):
        yield calculate(f"row-means-B-time-{T}", own_time(B, T))
        yield calculate(f"row-means-start-B-time-{T}", own_time(B_START, T))
    for word, file in (("1-state", one_state()), ("no-rates", no_rates()), ("absorbing", absorbing()),
                       ("leaving", leaving()), ("longest", longest()), ("64-states", states_64())):
        yield calculate(f"row-means-{word}", file)
    yield calculate("row-means-start-longest", spread(longest()))
    for count, file in row_mean_files():
        yield calculate(f"row-means-{count}", file)
    yield calculate("row-means-start-past-16-bits", spread(dict(row_mean_files())[65_536]))
    yield calculate("row-means-heaviest", models.build(**models.heaviest(random.Random(1))))


def series_row_means():
    """The same for lists, by the largest level."""
    for word, file, times in (("1-state", one_state(), [1, 3_000_000]), ("no-rates", no_rates(), [1_000, 3_000_000]),
                              ("absorbing", absorbing(), [2, 20, 21]), ("longest", longest(), [1, 31, 32]),
                              ("longest-alone", longest(), [32]), ("start-longest", spread(longest()), [8, 32])):
        yield series(f"row-means-{word}", file, times)
    for count, file in row_mean_files():
        T = ROW_MEANS[count][-1]
        yield series(f"row-means-{count}", file, [T])
        if T > 1:
            yield series(f"row-means-{count}-three-times", file, [1, T // 2, T])


SERIES = (series_values, series_rows, series_row_8, series_row_14, series_row_15, series_row_12, series_own_time,
          series_row_13, series_levels, series_last_division, series_kinds, series_start, series_start_rows,
          series_start_row_13, series_row_means)


# --- Calculate: row 13 -------------------------------------------------------------------------------------

def calculate_row_13():
    """Too few cells, just enough, and more; for every highest moment, and for 1 to 32 states."""
    models_of = [("A", A), ("B", B)] + [(f"3-states-moments-{R}", three_states(R)) for R in range(1, 9)]
    models_of += [(f"{M}-states-moments-{R}", states(M, R)) for M, R in ((8, 1), (9, 8), (32, 8))]
    for word, file in models_of:
        size = inputs.need(file)
        yield calculate(f"border-13-{word}", file, size)
        yield calculate(f"refused-13-{word}-one-less", file, size - 1)
        if size < 256:
            yield calculate(f"border-13-{word}-one-more", file, size + 1)
    for cells in range(4):
        yield calculate(f"refused-13-B-{cells}-cells", B, cells)
    for cells in (5, 16, 511, 512, 513):
        yield calculate(f"border-13-B-{cells}-cells", B, cells)
    yield calculate("refused-13-3-states-moments-8-no-cells", three_states(8), 0)
    yield calculate("refused-13-32-states-moments-8-no-cells", states(32, 8), 0)


def calculate_before_13():
    """Every earlier row with too few cells."""
    for row in ROWS["calculate"][:-1]:
        for cells in (0, 3):
            yield calculate(f"refused-{row:02d}-before-13-{cells}-cells", alone(row), cells)
    yield calculate("refused-01-before-13-empty", b"", 0)


# --- Calculate: version 2 ------------------------------------------------------------------------------------

def calculate_start():
    """Start figures behind the moments."""
    for word, file in (("hand-A-start", A_MOVED), ("hand-B-start", B_START), ("hand-B-start-on-1", B_MOVED),
                       ("hand-B-start-on-2", weighted(B, [0, 1_000_000])), *start_files(), *lefts(),
                       ("start-9-states", spread(states(9, 8)))):
        yield calculate(word, file)


def calculate_start_rows():
    """Rows 3, 6 and 16, and 16 with those before and after it, cells being enough, and too few."""
    for name, file in (*stopped_files(), ("refused-16-64-largest-words", largest_words_64())):
        yield calculate(name, file, 65 if file[3] == 64 else 9)
    for name, file in pairs_of_16():
        yield calculate(name, file, 9)
        yield calculate(f"{name}-no-cells", file, 0)
    for row in ROWS["calculate"][:-1]:
        if row != 16:
            yield calculate(f"refused-{row:02d}-start", alone(row, B_START), 6)
            yield calculate(f"refused-{row:02d}-start-before-13", alone(row, B_START), 5)


def calculate_start_row_13():
    """The start figures are counted: too few cells, those of the moments alone, just enough, and more."""
    files = [("A", A_MOVED), ("B", B_START)]
    files += [(f"3-states-moments-{R}", spread(three_states(R))) for R in range(1, 9)]
    files += [(f"{M}-states-moments-{R}", spread(states(M, R))) for M, R in ((8, 1), (31, 8))]
    for word, file in files:
        size = inputs.need(file)
        yield calculate(f"border-13-start-{word}", file, size)
        yield calculate(f"refused-13-start-{word}-one-less", file, size - 1)
        yield calculate(f"refused-13-start-{word}-moments-alone", file, size - file[4])
        if size < 256:
            yield calculate(f"border-13-start-{word}-three-more", file, size + 3)
    for cells in range(6):
        yield calculate(f"refused-13-start-B-{cells}-cells", B_START, cells)
    for cells in (7, 520, 521):
        yield calculate(f"border-13-start-B-{cells}-cells", B_START, cells)
    largest = spread(states(64, 8))
    yield calculate("border-13-start-64-states-520-cells", largest, 520)
    for cells in (512, 519):
        yield calculate(f"refused-13-start-64-states-{cells}-cells", largest, cells)


CALCULATE = (calculate_row_13, calculate_before_13, calculate_start, calculate_start_rows, calculate_start_row_13,
             calculate_row_means)


# --- Remainders: models -----------------------------------------------------------------------------------

def leaving():
    """Divisors that leave rests nearly everywhere; the level is 19."""
    return models.build(1, 3, 3, 1_000, 40, [500_000, 999_983, 31], [[70_001, 3], [90_007, 11], [60_000, 63_457]])


def small_divisors():
    """E is 7 and F is 5."""
    return models.build(1, 3, 4, 1_000, 2_000_000, [5, 3, 2], [[1, 3], [4, 2], [2, 5]])


def largest_rate():
    """E is 10,000,000 and F 1,000,000, the largest divisors; every sum of V is past 2^63."""
    return models.build(1, 2, 8, 1, 25, [1_000_000, 999_999], [[10_000_000], [3_333_337]])


def longest():
    """q is 256 and the tolerance the least: the level is 358, and n + r up to 366."""
    return models.build(1, 3, 8, 1, 32, [1_000_000, 999_983, 3],
                        [[7_999_999, 1], [1_234_567, 7], [3, 3_141_592]])


def near_rewards():
    """Rewards next to each other and a prime E next to the largest."""
    return models.build(1, 3, 4, 1_000, 25, [1_000_000, 999_999, 999_901],
                        [[9_999_990, 1], [1_234_567, 7], [3, 3_141_592]])


def one_state():
    return models.build(1, 1, 8, 1_000, 3_000_000, [5], [[]])


def absorbing():
    """Nothing leads out of state 3."""
    return models.build(1, 3, 3, 1_000, 20, [4, 9, 7], [[500_000, 7], [100, 300_000], [0, 0]])


def no_rates():
    """E is 1; state 2 has no reward."""
    return models.build(1, 3, 3, 1_000, 3_000_000, [7, 0, 3], [[0, 0]] * 3)


def states_64():
    return own_time(states(64, 8), 1_000)


# --- Remainders: the three rests given ---------------------------------------------------------------------

def remainders_hand():
    """The whole worked tables of files A and B."""
    for word, file in (("hand-A", A), ("hand-B", B)):
        for line in calculator.worked(file).lines:
            yield at(word, file, line.state, line.n, line.r)


def remainders_corners():
    """The first and the last state, n and r of three states, and numbers between them."""
    file = leaving()
    for numbers in itertools.product(*((1, limit) for limit in inputs.limits(file).values())):
        yield at("corner", file, *numbers)
    yield at("between", file, 2, 9, 2)


# What may hold of a line with the divisors E and F.
HOLDS = {
    "all-0": lambda line, E, F: line.rest_V == line.rest_W == line.rest_U == 0,
    "mean-alone-0": lambda line, E, F: line.rest_V == 0 < line.rest_W * line.rest_U,
    "share-alone-0": lambda line, E, F: line.rest_W == 0 < line.rest_V * line.rest_U,
    "mix-alone-0": lambda line, E, F: line.rest_U == 0 < line.rest_V * line.rest_W,
    "mean-largest": lambda line, E, F: line.rest_V == E - 1,
    "share-largest": lambda line, E, F: line.rest_W == F - 1,
    "mix-largest": lambda line, E, F: line.rest_U == line.n + line.r - 1,
    "all-equal": lambda line, E, F: line.rest_V == line.rest_W == line.rest_U > 0,
}


def remainders_rests():
    """For each of HOLDS the last line of a worked table of which it holds."""
    file = small_divisors()
    table = calculator.worked(file)
    for word, holds in HOLDS.items():
        line = [line for line in table.lines if holds(line, table.E, table.F)][-1]
        yield at(f"rests-{word}", file, line.state, line.n, line.r)


def remainders_models():
    """The range of models: their first numbers and their last."""
    for word, file, all_numbers in (
            ("1-state", one_state(), ((1, 1, 8), (1, 13, 8))),
            ("no-rates", no_rates(), ((1, 13, 3), (2, 13, 2), (3, 1, 3), (3, 13, 3))),
            ("absorbing", absorbing(), ((1, 28, 3), (2, 9, 2), (3, 1, 3), (3, 28, 3))),
            ("largest-rate", largest_rate(), ((2, 1, 8), (2, 350, 3), (2, 351, 8))),
            ("longest", longest(), ((3, 2, 7), (3, 258, 3), (2, 357, 5), (3, 358, 8))),
            ("near-rewards", near_rewards(), ((1, 2, 4), (2, 2, 2), (3, 329, 4))),
            ("states-64", states_64(), ((64, 2, 1), (64, 4, 8)))):
        for numbers in all_numbers:
            yield at(word, file, *numbers)
    yield at("border-12-B", own_time(B, 256), 2, 2, 2)
    yield at("border-12-rate-1", own_time(slow_pair(2), MAX_X), 1, 2, 2)


def remainders_arrows():
    """Models with few arrows: the first state, one between and the last; of 64 states, one with 63 arrows."""
    for name in ("none-of-first", "none-of-middle", "none-of-last", "of-first-alone", "of-last-alone", "to-both-ends",
                 "diagonal-0-of-middle", "equal-rates-apart", "rates-1", "rates-256", "rates-65536", "rates-largest"):
        file = FEW_ARROWS[f"arrows-{name}"]
        for numbers in ((1, 2, 1), (3, 3, 2), (5, inputs.limits(file)["n"], 2)):
            yield at(f"arrows-{name}", file, *numbers)
    for hub in (33, 64):
        yield at(f"arrows-star-64-at-{hub}", FEW_ARROWS[f"arrows-star-64-at-{hub}"], hub, 2, 1)
    yield at("arrows-start", FEW_ARROWS["arrows-start"], 4, 3, 2)


def remainders_levels():
    """Levels that are decided by little: where t meets its bound at n, the next n is outside, where it misses it by one
    the next n is the last; and the level 1, that of the least jump counts."""
    for row in edges.LEVEL_ROWS[12:18]:
        name, (n, miss) = row.name.replace("edge", "by-little"), row.holds[0]
        file = models.build(**models.edge_fields(row))
        yield remainders(name if miss > 0 else f"none-{name}", file, 1, n + 1, 1)
    least = put(own_time(no_rates(), 1), 5, 4, 10_000)
    yield remainders("level-1", least, 3, 1, 3)
    yield remainders("none-level-1", least, 3, 2, 3)
    yield remainders("none-level-1-A", A, 1, 2, 1)


# --- Remainders: none ----------------------------------------------------------------------------------------

# Where a number is outside, by its limit; the others are 1, or their limit where the name ends so, or for 0.
OUTSIDE = {
    "0": lambda limit: 0,
    "one-past": lambda limit: limit + 1,
    "2-8-and-1": lambda limit: 2**8 + 1,
    "2-16-and-limit": lambda limit: 2**16 + limit,
    "2-32-and-1": lambda limit: 2**32 + 1,
    "2-32-and-limit": lambda limit: 2**32 + limit,
    "2-63": lambda limit: 2**63,
    "largest": lambda limit: LARGEST,
}


def outside(word, file, names, place):
    """A call with some numbers at a place of OUTSIDE."""
    limit = inputs.limits(file)
    others = limit if place == "0" or place.endswith("limit") else dict.fromkeys(NUMBERS, 1)
    numbers = {**others, **{name: OUTSIDE[place](limit[name]) for name in names}}
    return remainders(f"none-{word}{'-and-'.join(names)}-{place}", file, **numbers)


def remainders_none():
    """One number outside, two, and all."""
    file = leaving()
    for name in NUMBERS:
        for place in OUTSIDE:
            yield outside("", file, [name], place)
        for place in ("0", "one-past"):
            yield outside("B-", B, [name], place)
    for names in (*itertools.combinations(NUMBERS, 2), NUMBERS):
        for place in ("0", "one-past"):
            yield outside("", file, names, place)
    for place in ("2-32-and-1", "largest"):
        yield outside("", file, NUMBERS, place)
    yield remainders("none-state-0-r-one-past", file, 0, 1, 4)
    yield remainders("none-state-one-past-r-0", file, 4, 1, 0)
    for n in (53, 563, 1_024, 1_025):
        yield remainders(f"none-B-n-{n}", B, 1, n, 1)
    yield remainders("none-longest-n-one-past", longest(), 3, 359, 8)
    yield remainders("none-states-64-state-65", states_64(), 65, 4, 8)


# --- Remainders: the refusals come first -----------------------------------------------------------------------

# Numbers that are outside of every file.
FAR = [tuple(OUTSIDE[place](limit) for limit in MOST.values()) for place in ("0", "one-past", "2-32-and-1", "largest")]


def alone(row, file=None):
    """File B, or another with its numbers, with this row broken; row 12 by the time 257."""
    return own_time(file or B, 257) if row == 12 else broken({row}, file)


def with_later(row):
    """File B with this row broken, and the later ones that it can break as well; 16 is that of version 2."""
    if row == 1:
        return with_later(2)[:12]
    if row < 9:
        return broken(set(range(row, 12)))
    if row == 16:
        return own_time(broken({16, 9, 11}), 257)
    return own_time(broken({row, 11}) if row < 12 else B, 257)


def remainders_rows():
    """Every row alone, with later ones, and so with numbers that are outside of every file; the last row with each
    number outside alone."""
    order = ROWS["remainders"]
    for row in order:
        yield remainders(f"refused-{row:02d}", alone(row), 1, 1, 1)
        yield remainders(f"refused-{row:02d}-outside", with_later(row), *FAR[row % len(FAR)])
    for row in order[:-1]:
        yield remainders(f"refused-{row:02d}-before-later", with_later(row), 1, 1, 1)
    for name in NUMBERS:
        yield remainders(f"refused-12-{name}-outside", alone(12), **{**dict.fromkeys(NUMBERS, 1), name: MOST[name] + 1})
    yield remainders("refused-01-empty-outside", b"", 0, 0, 0)


def remainders_start():
    """Version 2: the rests are those of version 1; rows 3, 6 and 16 come before none."""
    for numbers in ((1, 3, 1), (2, 3, 2), (1, 1, 2)):
        yield at("hand-B-start", B_START, *numbers)
    file = spread(leaving())
    for numbers in itertools.product(*((1, limit) for limit in inputs.limits(file).values())):
        yield at("start-corner", file, *numbers)
    for name, each in start_files():
        yield remainders(name, each, 2, 2, 2)
    yield at("start-1-state", moved(one_state()), 1, 13, 8)
    for name in NUMBERS:
        for place in ("0", "one-past"):
            yield outside("start-", file, [name], place)
    for name, each in stopped_files():
        yield remainders(name, each, 1, 1, 1)
        yield remainders(f"{name}-outside", each, *FAR[1])
    for name, each in pairs_of_16():
        yield remainders(name, each, 1, 1, 1)
    for row in ROWS["remainders"]:
        if row != 16:
            yield remainders(f"refused-{row:02d}-start", alone(row, B_START), 1, 1, 1)


REMAINDERS = (remainders_hand, remainders_corners, remainders_rests, remainders_models, remainders_arrows,
              remainders_levels, remainders_none, remainders_rows, remainders_start)


# --- The converter --------------------------------------------------------------------------------------------

FILE_B = {"to_version_2": B, "to_version_1": B_MOVED}


def of_version(call, file):
    """A version 1 file in the version that a call moves."""
    return file if call == "to_version_2" else moved(file)


def move_files(call):
    """Files that are moved, by the same names in either call: what one gets, the other gives."""
    files = [("hand-A", A), ("hand-B", B), ("moments-1", three_states(1)), ("moments-8", three_states(8)),
             ("no-rates", no_rates()), ("absorbing", absorbing()), ("largest-rate", largest_rate()),
             ("longest", longest()), ("border-12-B", own_time(B, 256)), ("border-7-B", put(B, 5, 4, 100_000_000)),
             ("time-2-24-and-1", put(slow_pair(), 9, 4, 2**24 + 1))]
    files += [(f"states-{M}", states(M, 1 + M % 8)) for M in (1, 2, 4, 7, 8, 11, 16, 64)]
    for name, file in files:
        yield move(call, f"there-and-back-{name}", of_version(call, file))


LARGE_ROOMS = (16_397, 16_653, 2**16, 2**16 + 1)     # bytes


def rooms_13(word, enough):
    """Counts of bytes that are too few for a file, and more than enough, by name."""
    for name, out in (("one-less", enough - 1), ("two-less", enough - 2), ("none", 0), ("one-byte", 1),
                      ("header", 13), ("a-word-less", enough - 4)):
        yield f"refused-13-{word}-{name}", out
    for name, out in (("one-more", enough + 1), ("three-more", enough + 3), ("a-word-more", enough + 4),
                      ("256-more", enough + 256)):
        yield f"border-13-{word}-{name}", out


def move_row_13(call):
    """Slices that are too short, just enough, and longer."""
    for word, file in (("A", A), ("B", B), ("3-states", three_states(8)), ("11-states", states(11, 2))):
        file = of_version(call, file)
        for name, out in rooms_13(word, inputs.moved_length(call, file)):
            yield move(call, name, file, out)
        if call == "to_version_2":
            yield move(call, f"refused-13-{word}-of-the-file", file, len(file))
        else:
            yield move(call, f"border-13-{word}-of-the-file", file, len(file))
    for out in LARGE_ROOMS:
        yield move(call, f"border-13-B-{out}-bytes", FILE_B[call], out)


def move_rows(call):
    """Every row of the table alone, then every two together: the first of the two is answered. Row 13: a byte less."""
    file, order = FILE_B[call], ROWS[call]
    enough = inputs.moved_length(call, file)

    def breaking(name, rows, base):
        base = own_time(base, 257) if 12 in rows else base
        return move(call, name, broken(rows, base), enough - (13 in rows))

    for row in order:
        yield breaking(f"refused-{row:02d}", {row}, file)
    for k, row in enumerate(order):
        for later in order[k + 1:]:
            if (row, later) not in IMPOSSIBLE | {(8, 12)}:
                yield breaking(f"refused-{row:02d}-before-{later:02d}", {row, later}, file)
    for row, later in (*zip(order, order[1:]), *zip(order, order[2:])):
        if (row, later) not in IMPOSSIBLE | {(8, 12)}:
            yield breaking(f"refused-{row:02d}-before-{later:02d}-moments-8", {row, later}, put(file, 4, 1, 8))
    for row in order[:-1]:
        yield move(call, f"refused-{row:02d}-no-bytes", alone(row, file), 0)
        yield move(call, f"refused-{row:02d}-longer", alone(row, file), 200)
    yield move(call, "refused-01-empty", b"", 20)
    yield move(call, "refused-01-one-byte", b"\0", 20)
    yield move(call, "refused-01-12-bytes", file[:12], 20)


def move_versions(call):
    """Row 3: versions that are none, and the version that is not to be moved, whatever else holds; row 6 by the length
    of the other version."""
    for version in (0, 3, 5, 255):
        yield move(call, f"refused-03-version-{version}", put(B, 2, 1, version), 60)
        yield move(call, f"refused-03-start-version-{version}", put(B_MOVED, 2, 1, version), 60)
    other, word = (B_MOVED, "version-2") if call == "to_version_2" else (B, "version-1")
    yield move(call, f"refused-03-{word}", other, 60)
    yield move(call, f"refused-03-{word}-no-bytes", other, 0)
    yield move(call, f"refused-03-{word}-A", A_MOVED if call == "to_version_2" else A, 60)
    for row in (1, 2):
        yield move(call, f"refused-{row:02d}-{word}", alone(row, other), 60)
        yield move(call, f"refused-{row:02d}-version-3", alone(row, put(other, 2, 1, 3)), 60)
    yield move(call, f"refused-02-{word}-a-byte-less", other[:-1], 60)
    for row in (4, 5, 6, 7, 8, 9, 10, 11, 12):
        yield move(call, f"refused-03-{word}-before-{row:02d}", alone(row, other), 60)
    if call == "to_version_2":
        yield move(call, "refused-03-version-2-spread", B_START, 60)
        yield move(call, "refused-03-version-2-before-16", broken({16}), 60)
        yield move(call, "refused-06-version-1-as-2", put(B_MOVED, 2, 1, 1), 60)
    else:
        yield move(call, "refused-06-A-version-2", put(A, 2, 1, 2), 60)
        yield move(call, "refused-06-version-2-as-1", put(B, 2, 1, 2), 60)


def move_back_weights(call):
    """Rows 16 and 17: sums that are wrong, and weight on another state than the first."""
    for word, weights in WRONG_WEIGHTS.items():
        yield move(call, f"refused-16-sum-{word}", with_weights(*weights))
    for weight in (0, 999_999, 1_000_001):
        yield move(call, f"refused-16-1-state-{weight}", weighted(A, [weight]))
    yield move(call, "refused-16-64-largest-words", largest_words_64())
    for word, weights in WEIGHTS.items():
        name = word if word == "on-first" else f"refused-17-{word}"
        yield move(call, name, with_weights(*weights))
    for word, weights in (("1-on-second", (999_999, 1, 0)), ("1-on-last", (999_999, 0, 1)),
                          ("2-8-on-last", (999_744, 0, 256)), ("2-16-on-second", (934_464, 65_536, 0)),
                          ("2-16-on-last", (934_464, 0, 65_536)), ("2-16-together", (934_464, 65_535, 1))):
        file = with_weights(*weights)
        enough = inputs.moved_length(call, file)
        yield move(call, f"refused-17-{word}", file)
        yield move(call, f"refused-17-{word}-one-less", file, enough - 1)
    for row in (8, 16, 9, 10, 11, 12):
        yield move(call, f"refused-{row:02d}-before-17-quarter", alone(row, B_START), 40)
    yield move(call, "refused-17-on-second-of-2", weighted(B, [0, 1_000_000]), 40)
    yield move(call, "refused-12-before-17-and-13", own_time(B_START, 257), 28)
    yield move(call, "refused-12-before-17-and-13-no-bytes", own_time(B_START, 257), 0)
    yield move(call, "refused-17-quarter", B_START, 40)
    yield move(call, "refused-17-quarter-no-bytes", B_START, 0)
    one_on_8 = [999_999, 0, 0, 0, 0, 0, 0, 1, 0, 0, 0]
    yield move(call, "refused-17-1-on-state-8-of-11", weighted(states(11, 1), one_on_8))


def moves(call, *groups):
    """The groups of inputs of a call of the converter."""
    return tuple(lambda group=group: group(call) for group in groups)


TO_VERSION_2 = moves("to_version_2", move_files, move_row_13, move_rows, move_versions)
TO_VERSION_1 = moves("to_version_1", move_files, move_row_13, move_rows, move_versions, move_back_weights)


# --- Practice files --------------------------------------------------------------------------------------------

# The practice files of the kit by name: states, highest moment and seed number.
PRACTICE = {
    **{f"practice-states-{M:02d}-moments-{R}-seed-{seed}": (M, R, seed) for M, R, seed in (
        *((M, R, seed) for M, R in ((1, 1), (2, 2), (3, 8)) for seed in inputs.SEEDS.values()),
        (1, 8, 20_261), (2, 1, MAX_WORD), (4, 3, 2), (5, 4, 1_000_003), (6, 5, 2**16 - 1), (7, 6, 2**16), (8, 7, 4_711),
        (9, 1, 2**31 - 1), (11, 2, 2**31 + 1), (16, 8, 2_718_281_828), (21, 3, 3_141_592_653), (32, 1, 20_262),
        (64, 1, 1), (64, 2, MAX_WORD))},
    **{f"practice-{end}": (2, 3, inputs.seed_drawing(*draw)) for end, draw in inputs.DRAWS.items()},
}
# Numbers that are too many states, and too many moments; in 8, 16 or 32 bits some would not be.
TOO_MANY = (128, 255, 256, 257, 258, 2**16 + 1, 2**16 + 2, 2**31 + 1, 2**32, 2**32 + 1, 2**32 + 3, 2**63, 2**63 + 1,
            LARGEST - 1, LARGEST)


def practice_files():
    """The practice files of the kit, and every highest moment."""
    for name, numbers in PRACTICE.items():
        yield practice(name, *numbers)
    for R in range(1, 9):
        yield practice(f"moments-{R}", 3, R, 77)


def practice_seeds():
    """Seed numbers next to a limit of bits, and every draw next to where the time changes."""
    for seed in (2, 3, 255, 256, 2**15, 2**16 - 1, 2**16, 2**16 + 1, 2**24, 2**24 + 1, 2**31 - 1, 2**31 + 1,
                 MAX_WORD - 1):
        yield practice(f"seed-{seed}", 2, 1, seed)
    for T in range(1, 17):
        for draw in (4096 * T - 4096, 4096 * T - 1):
            yield practice(f"time-{T}-draw-{draw}", 1, 1, inputs.seed_drawing(1, draw, 2**16 - T))
    for draw in (0, 1, 65_534, 65_535):
        yield practice(f"first-reward-{draw + 1}-1-state", 1, 2, inputs.seed_drawing(2, draw, 77))


def practice_rows():
    """Rows 4 and 5 alone and together, and before 13."""
    for states in (0, 65, 66, *TOO_MANY):
        yield practice(f"refused-04-states-{states}", states, 2, 5, 18_000 if states in (65, 66) else 100)
    for highest in (0, 9, 10, 16, 64, *TOO_MANY):
        yield practice(f"refused-05-highest-{highest}", 2, highest, 5, 100)
    yield practice("refused-05-highest-9-64-states", 64, 9, 5)
    for states, highest in itertools.product((0, 65, 257, 2**32 + 1, LARGEST), (0, 9, 257, LARGEST)):
        word = f"states-{states}-highest-{highest}"
        yield practice(f"refused-04-before-05-{word}", states, highest, 5, 18_000)
        yield practice(f"refused-04-before-05-and-13-{word}", states, highest, 5, 0)
    for states, less in ((0, 12), (65, 16_912), (65, 16_397), (257, 16), (2**32 + 1, 16), (LARGEST, 16)):
        yield practice(f"refused-04-before-13-states-{states}-bytes-{less}", states, 1, 5, less)
        yield practice(f"refused-04-before-05-and-13-states-{states}-bytes-{less}", states, 9, 5, less)
    for states in (0, 65, 257, 2**32 + 1, LARGEST):
        yield practice(f"refused-04-before-13-states-{states}-bytes-0", states, 1, 5, 0)
    for highest in (0, 9, 257, 2**32 + 1, LARGEST):
        yield practice(f"refused-05-before-13-highest-{highest}-bytes-0", 1, highest, 5, 0)
        yield practice(f"refused-05-before-13-highest-{highest}-one-less", 2, highest, 5, 28)


def practice_row_13():
    """Slices that are too short, just enough, and longer."""
    for states, highest, seed in ((1, 1, 0), (2, 2, 1), (3, 8, 7), (11, 2, 2**31)):
        for name, out in rooms_13(f"states-{states}", inputs.dealt_length(states)):
            yield practice(name, states, highest, seed, out)
    for out in LARGE_ROOMS:
        yield practice(f"border-13-states-2-{out}-bytes", 2, 2, 1, out)
    for name, out in (("one-less", 16_396), ("two-less", 16_395), ("none", 0)):
        yield practice(f"refused-13-states-64-{name}", 64, 8, 9, out)


DEALING = (practice_files, practice_seeds, practice_rows, practice_row_13)

GROUPS = {"calculate": CALCULATE, "practice": DEALING, "remainders": REMAINDERS, "series": SERIES,
          "to_version_1": TO_VERSION_1, "to_version_2": TO_VERSION_2}


def named(call):
    """The inputs of a call; a ValueError where two have the same name."""
    result = {}
    for group in GROUPS[call]:
        for each in group():
            if each.name in result:
                raise ValueError(f"two calls of {call} are named {each.name}")
            result[each.name] = each
    return list(result.values())


def end_named(name):
    """The end that a name tells: the row of a refusal, "none", or 0, for any other accepted call."""
    word, _, rest = name.partition("-")
    return int(rest[:2]) if word == "refused" else "none" if word == "none" else 0


def end_of(call, answer):
    """The same of an answer."""
    return "none" if call == "remainders" and answer == calculator.NONE else inputs.row_of(answer)


def case(each):
    """The case of an input with what the reference gives; a ValueError where its name tells another end."""
    result = inputs.outcome(calculator, each.call, each.given)
    if end_of(each.call, result[0]) != end_named(each.name):
        raise ValueError(f"{each.call} {each.name}: the reference answers {result[0]}")
    return cases.case(*each, result, inputs.outcome(calculator, each.call, each.given, other=True))


def texts():
    """{file name: bytes} of the stored calls."""
    return {f"{call}.txt": cases.text(map(case, named(call))).encode("ascii") for call in GROUPS}
