#!/usr/bin/env python3
"""Write the comparison kit, conformance/files and conformance/calls: python3 conformance/make.py
With --check, compare it with the stored one instead.

Models come from fixed seeds and fields, from arrows.py and from the table of edges.py, calls from call_cases.py, sheets
and answers from reference/calculator.py, so that every run writes the same files.
"""

import os
import random
import sys

sys.dont_write_bytecode = True
HERE = os.path.dirname(os.path.abspath(__file__))
FILES = os.path.join(HERE, "files")
CALLS = os.path.join(HERE, "calls")
sys.path.insert(0, HERE)
sys.path.insert(0, os.path.join(os.path.dirname(HERE), "reference"))

import arrows  # noqa: E402
import calculator  # noqa: E402
import call_cases  # noqa: E402
import edges  # noqa: E402
import models  # noqa: E402
import stored  # noqa: E402
from call_cases import A, A_MOVED, B, B_MOVED, B_START, broken, lefts, put, weighted  # noqa: E402
from inputs import ROWS  # noqa: E402


def hand_checked():
    """The hand-checked files of document 01 and the small examples of its refusal table; files A and B with a starting
    distribution (S-5)."""
    yield "hand-A", A
    yield "hand-A-without-last-byte", A[:-1]
    yield "hand-A-version-2", put(A, 2, 1, 2)
    yield "hand-A-version-3", put(A, 2, 1, 3)
    yield "hand-A-states-0", put(A, 3, 1, 0)
    yield "hand-A-moments-9", put(A, 4, 1, 9)
    yield "hand-A-states-2", put(A, 3, 1, 2)
    yield "hand-A-tolerance-0", put(A, 5, 4, 0)
    yield "hand-A-time-0", put(A, 9, 4, 0)
    yield "hand-A-reward-1000001", put(A, 13, 4, 1_000_001)
    yield "hand-A-reward-0", put(A, 13, 4, 0)
    yield "hand-B", B
    yield "hand-B-rewards-0", put(B, 13, 8, 0)
    yield "hand-B-version-9-states-0", put(put(B, 2, 1, 9), 3, 1, 0)
    yield "hand-B-time-256", put(B, 9, 4, 256)
    yield "hand-B-time-257", put(B, 9, 4, 257)
    yield "hand-B-tolerance-1", put(B, 5, 4, 1)
    yield "hand-B-tolerance-100000001", put(B, 5, 4, 100_000_001)
    yield "hand-B-first-rate-10000000", put(B, 21, 4, 10_000_000)
    yield "hand-B-first-rate-10000001", put(B, 21, 4, 10_000_001)
    yield "hand-A-start", A_MOVED
    yield "hand-A-start-999999", weighted(A, [999_999])
    yield "hand-B-start", B_START
    yield "hand-B-start-on-1", B_MOVED
    yield "hand-B-start-on-2", weighted(B, [0, 1_000_000])
    yield "hand-B-start-sum-999999", weighted(B, [250_000, 749_999])
    yield "hand-B-start-sum-1000001", weighted(B, [250_001, 750_000])
    yield "hand-B-start-sum-2-32-too-many", weighted(B, [2**32 - 1, 1_000_001])
    yield "hand-B-start-version-1", put(B_START, 2, 1, 1)
    yield "hand-B-start-version-3", put(B_START, 2, 1, 3)


def borders():
    """Every kind of damage and the accepted side of every border; chance kinds three times."""
    for row, what, make in models.DAMAGE:
        if what.startswith("several"):      # pairs() takes their place
            continue
        times = 3 if row is None else 1
        for k in range(1, times + 1):
            rng = random.Random(f"{row} {what} {k}")
            if row is None:
                name = f"chance-{what}"
            elif row == 0:
                name = f"border-{what}"
            else:
                name = f"refused-{row:02d}-{what}"
            yield (f"{name}-{k}" if times > 1 else name), make(rng)


IMPOSSIBLE = {(8, 12), (9, 10)}     # rows of the refusal table that no file breaks together


def two_rows(first=2):
    """Two rows of the refusal table that a file can break together, the first of them from `first` on."""
    order = ROWS["calculate"][:-1]
    for k, row in enumerate(order):
        for later in order[k + 1:]:
            if row >= first and (row, later) not in IMPOSSIBLE:
                yield row, later


def pairs():
    """Files that break two rows of the refusal table: the first of the two is printed."""
    for row, later in two_rows():
        rng = random.Random(f"{row} and {later}")
        yield f"refused-{row:02d}-before-{later:02d}", models.several(row, [later])(rng)


def least(rows, file=None):
    """File B, or another with its numbers, with these rows of the refusal table broken, each by the least; with row 16
    it is file B with a starting distribution. Row 12 by the time, also where no rates are left, so that E is 1."""
    file = file or (B_START if 16 in rows else B)
    return broken(rows - {12}, put(file, 9, 4, 256_000_001) if 12 in rows else file)


def least_pairs():
    """Two rows of the refusal table broken in file B, each by the least; row 1: file B cut to 12 bytes."""
    for later in (3, 4, 5, 7, 8):
        yield f"refused-01-before-{later:02d}-least", least({1, later})
    for row, later in two_rows():
        if (row, later) != (4, 11):     # with 65 states there are no rates left
            yield f"refused-{row:02d}-before-{later:02d}-least", least({row, later})


def least_of_version_2():
    """File B with a starting distribution, each row of the refusal table broken by the least, alone and with the next
    one."""
    order = ROWS["calculate"][1:-1]
    for row, later in zip(order, [*order[1:], None]):
        yield f"refused-{row:02d}-start-least", least({row}, B_START)
        if later and (row, later) not in IMPOSSIBLE and 16 not in (row, later):
            yield f"refused-{row:02d}-start-before-{later:02d}-least", least({row, later}, B_START)


def other_versions():
    """Files of version 1 with version byte 2, which makes them too short, and of version 2 with version byte 1; rows
    that come before 6, and later ones."""
    short, long = put(B, 2, 1, 2), put(B_START, 2, 1, 1)
    for word, file in (("version-2-as-1", short), ("version-1-as-2", long)):
        yield f"refused-06-{word}", file
        for row in (2, 4, 5):
            yield f"refused-{row:02d}-before-06-{word}", least({row}, file)
        for row in (7, 8):
            yield f"refused-06-before-{row:02d}-{word}", least({row}, file)


def three_states(rewards=(3, 2, 1), rates=((1_000, 2_000), (3_000, 4_000), (5_000, 6_000)), T=100, weights=()):
    return models.build(2 if weights else 1, 3, 2, 1_000, T, rewards, rates, weights)


def in_one(state, one, others):
    """A list for three states: one state's entry, and that of the others."""
    return [one if k == state else others for k in (1, 2, 3)]


def one_of_three():
    """A limit passed or met in one state of three: the first, the second, the last."""
    for state in (1, 2, 3):
        above, met = (in_one(state, row, (1, 2)) for row in ((5_000_000, 5_000_001), (5_000_000, 5_000_000)))
        yield f"refused-09-reward-1000001-state-{state}-of-3", three_states(rewards=in_one(state, 1_000_001, 7))
        yield f"refused-11-row-sum-10000001-state-{state}-of-3", three_states(rates=above, T=1)
        yield f"border-reward-1-state-{state}-of-3", three_states(rewards=in_one(state, 1, 0))
        yield f"border-row-sum-10000000-state-{state}-of-3", three_states(rates=met, T=1)


def weight_of_three():
    """In version 2 with three states: all weight on one state, the weights one less or one more in one state, and the
    limits of rewards and row sums passed in one state."""
    for state in (1, 2, 3):
        one = dict(weights=in_one(state, 500_000, 250_000))
        yield f"start-on-state-{state}-of-3", three_states(weights=in_one(state, 1_000_000, 0))
        for sum_of, off in (("999999", -1), ("1000001", 1)):
            weights = [300_000 + off if k == state else 350_000 for k in (1, 2, 3)]
            yield f"refused-16-weights-sum-{sum_of}-state-{state}-of-3", three_states(weights=weights)
        yield f"refused-16-weight-1000001-state-{state}-of-3", three_states(weights=in_one(state, 1_000_001, 0))
        yield f"refused-09-start-state-{state}-of-3", three_states(in_one(state, 1_000_001, 7), **one)
        yield f"border-start-reward-1-state-{state}-of-3", three_states(in_one(state, 1, 0), **one)
        yield (f"refused-11-start-state-{state}-of-3",
               three_states(rates=in_one(state, (5_000_000, 5_000_001), (1, 2)), T=1, **one))
    yield "refused-10-start-3-states", three_states((0, 0, 0), weights=(200_000, 300_000, 500_000))


def two_of_three():
    """Two rows of the refusal table broken in different states, the one that counts behind the other."""
    for state in (2, 3):
        rewards = in_one(state, 1_000_001, 7)
        rates = in_one(state, (5_000_000, 5_000_001), (1_000_000, 2_000_000))
        yield f"refused-09-before-11-state-{state}-of-3", three_states(rewards, ((10_000_001, 0), (1, 2), (1, 2)))
        yield f"refused-11-before-12-state-{state}-of-3", three_states(rates=rates)


def past_32_bits():
    """Row sums and products at and past 2^31 and 2^32, small or below 0 in 32 bits."""
    for total in (2**31, 2**32, 2**32 + 5_000_000):
        row = (total // 2, total - total // 2)
        yield f"refused-11-row-sum-{total}", three_states(rates=(row, (1, 2), (3, 4)), T=1)
    yield f"refused-11-row-sum-{2**32 + 1}", three_states(rates=((2**32 - 1, 2), (1, 2), (3, 4)), T=1)
    for E, T in ((2**16, 2**15), (2**16, 2**16), (10_000_000, 430)):
        yield f"refused-12-product-{E * T}", models.build(1, 2, 1, 1_000, T, [1, 0], [[E], [1]])


def weights_past_bits():
    """Weights whose sum is not 1,000,000, but is so in 16, 24, 31 or 32 bits, in 20 bits for each, or without one; sums
    at 2^31 and 2^32."""
    yield "refused-16-weights-sum-16960", three_states(weights=(10_000, 6_900, 60))
    for total in (2**24 + 1_000_000, 2**31, 2**31 + 1_000_000, 2**32, 2**32 + 1_000_000):
        yield f"refused-16-weights-sum-{total}", three_states(weights=(total // 2, total - total // 2 - 10, 10))
    yield f"refused-16-weights-sum-{2**32 + 1_000_000}-by-one", three_states(weights=(1_000_000, 1, 2**32 - 1))
    yield f"refused-16-weights-sum-{2**33 + 1_000_000}", three_states(weights=(2**32 - 1, 1_000_002, 2**32 - 1))
    yield "refused-16-weights-right-without-one", three_states(weights=(400_000, 3_000_000, 600_000))
    yield "refused-16-weights-right-in-20-bits", three_states(weights=(2**20, 400_000, 600_000))
    yield "refused-16-weights-right-in-20-bits-last", three_states(weights=(300_000, 300_000, 2**20 + 400_000))


def lengths():
    """File B with a wrong length of which the lower byte is right, or the upper one."""
    for length in (0x011B, 0xFF1B, 0x001A, 0x00FF):
        yield f"refused-02-length-{length:04X}", put(B, 0, 2, length)


def read_limit():
    """Inputs of 16,655 bytes, one more than the calculator reads, and of 16,399, one more than it read before S-5."""
    yield "refused-02-16655-bytes-counted", models.relength(models.full_size(64, 2) + bytes(2))
    yield "refused-06-16655-bytes-length-16652", models.relength(models.full_size(64, 2) + b"\0") + b"\0"
    yield "refused-06-16399-bytes-counted", models.relength(models.full_size(64) + bytes(2))
    yield "refused-02-16399-bytes-length-16396", models.relength(models.full_size(64) + b"\0") + b"\0"


def byte_values():
    """Bytes that a program may change that reads its input as text, inside a model and at its end."""
    for name, value in (("1A", 0x1A), ("0D-0A", 0x0D0A), ("0A", 0x0A), ("20", 0x20), ("FF", 0xFF)):
        yield f"bytes-{name}", three_states((value, 5, 3), ((value, 1), (2, value), (3, 1)))
        yield f"bytes-{name}-last", three_states(rates=((1_000, 2_000), (3_000, 4_000), (5_000, 0x010000 + value)))


def most_moments():
    """64 states and 8 moments, 512 cells in version 1 and in version 2 all 520; two models each, with a level that is
    quick."""
    for T in (1, 1_000):
        rng = random.Random(f"most moments {T}")
        yield f"states-64-moments-8-time-{T}", models.build(**models.fields_for(rng, 64, 1_000, T, R=8, eps=10_000_000))
    for T, starts in ((1, models.even), (1_000, models.uneven)):
        rng = random.Random(f"most moments and start {T}")
        fields = models.fields_for(rng, 64, 1_000, T, R=8, eps=10_000_000, fill=0.1)
        yield f"start-64-states-moments-8-time-{T}", models.build(**models.in_version_2(fields, starts(rng, 64)))


def near_rewards():
    """Rewards that differ by a millionth: from step to step the vectors hardly move, and yet they do."""
    for T in (100, 250):
        yield f"near-rewards-time-{T}", models.build(1, 2, 2, 1_000, T, [1_000_000, 999_999], [[1_000_000], [300_000]])


def moments():
    """One model for each highest moment R."""
    for R in range(1, 9):
        yield f"moments-{R}", models.build(1, 3, R, 1_000, 40, [999_983, 31, 500_000],
                                           [[70_001, 3], [90_007, 11], [0, 123_457]])


def states():
    """One model for each of some numbers of states, with a level that is quick."""
    for M in (1, 2, 3, 4, 5, 8, 13, 21, 32, 63, 64):
        rng = random.Random(M)
        yield f"states-{M:02d}", models.build(**models.fields_for(rng, M, 999_983, 3, R=1 + M % 3, eps=100))


def jump_counts():
    """X = E * T, the expected jump count q in millionths: below 1, at whole numbers, 256."""
    for X in (1, 2, 1_000, 500_000, 999_999, 1_000_000, 1_000_001, 1_999_999, 2_000_000, 2_000_001, 9_999_991):
        yield f"q-millionths-{X:09d}", models.build(1, 2, 3, 7, 1, [2, 1], [[X], [X // 2]])
    for E, T in ((10_000_000, 25), (8_000_000, 32), (1_000_000, 256), (1_000, 256_000), (1, 256_000_000)):
        yield f"q-millionths-{E * T:09d}-rate-{E}", models.build(1, 2, 3, 1, T, [5, 2], [[E], [E // 3]])


def below_whole():
    """X one below a whole q, which is that q in binary32: with the least reward for which taking the whole one for m
    changes a printed digit."""
    for X, reward in ((16_999_999, 575), (63_999_999, 93), (255_999_999, 2_830)):
        E, T = models.factors(X)
        yield f"q-millionths-{X:09d}", models.build(1, 2, 8, 1_000, T, [reward, 10_000], [[E], [E // 3]])


def tolerances():
    """One model over the range of tolerances."""
    for power in range(9):
        yield f"level-tolerance-{10**power:09d}", models.build(1, 2, 2, 10**power, 11, [1, 3], [[1_234_567], [89]])


def figures():
    """Figures at the two ends: 0, two ticks, others below 10^-4, 1 less a tick, and 1."""
    yield "figures-no-rates", models.build(1, 4, 3, 1_000, 3_000_000, [700_000, 0, 1, 699_999], [[0, 0, 0]] * 4)
    yield "figures-small", models.build(1, 2, 8, 1_000, 1, [0, 1_000_000], [[1], [5_000_000]])
    yield "figures-1-less-a-tick", models.build(1, 2, 3, 1_000, 1, [1_000_000, 999_999], [[1], [0]])
    yield "figures-1-by-sums", models.build(1, 3, 2, 1_000, 1, [7, 7, 0],
                                            [[2_000_000, 0], [3_000_000, 0], [500_000, 0]])


def start_figures():
    """Start figures: what the last division leaves, from 1 to 8 of them, 1 to 13 states, at 0 and 1."""
    yield from lefts()
    for R in range(1, 9):
        fields = models.valid(3, R, 1_000, 40, [999_983, 31, 500_000], [[70_001, 3], [90_007, 11], [0, 123_457]])
        yield f"start-moments-{R}", models.build(**models.in_version_2(fields, [123_457, 271_829, 604_714]))
    for M in (1, 2, 3, 4, 5, 8, 13):
        rng = random.Random(f"start {M}")
        fields = models.fields_for(rng, M, 999_983, 3, R=1 + M % 3, eps=100)
        yield f"start-states-{M:02d}", models.build(**models.in_version_2(fields, models.uneven(rng, M)))
    no_rates = dict(rates=[[0, 0, 0]] * 4, T=3_000_000)
    fields = models.valid(4, 3, 1_000, rewards=[700_000, 0, 1, 699_999], **no_rates)
    for word, weights in (("0", [0, 1_000_000, 0, 0]), ("1", [1_000_000, 0, 0, 0]), ("small", [0, 999_999, 1, 0]),
                          ("1-less-a-tick", [999_999, 0, 0, 1]), ("a-millionth", [1, 999_999, 0, 0]),
                          ("half", [500_000, 500_000, 0, 0])):
        yield f"start-figures-{word}", models.build(**models.in_version_2(fields, weights))


def start_edges():
    """Files of the table with a last division at a half, in version 2: the weighted moments are rounded ones."""
    halves = [row for row in edges.DIGIT_ROWS if isinstance(row.holds[0], edges.Half)]
    for row in halves[::8]:
        rng = random.Random(f"start {row.name}")
        fields = models.edge_fields(row)
        yield f"start-{row.name}", models.build(**models.in_version_2(fields, models.uneven(rng, fields["M"])))


def start_kinds():
    """A model of every small kind in version 2."""
    kinds = [kind for kind in models.SMALL_KINDS if kind not in (models.level_edge, models.rounding_edge)]
    for kind in kinds:
        rng = random.Random(f"start {kind.__name__}")
        fields = kind(rng)
        weights = models.random_starts(rng, fields["M"])
        yield f"start-{kind.__name__.replace('_', '-')}", models.build(**models.in_version_2(fields, weights))


def arrow_files():
    """Models with few arrows (S-7)."""
    yield from arrows.files()


def practice_files():
    """Files dealt from seed numbers (S-6); the calls of practice have them by the same names."""
    for name, numbers in call_cases.PRACTICE.items():
        yield name, calculator.dealt(*numbers)


def edge_files():
    """What conformance/search.py found: a rounding or a border decides the sheet."""
    for row in edges.EDGES:
        yield row.name, models.build(**models.edge_fields(row))


def kinds():
    """Two models of every other small kind, one larger one and the heaviest."""
    for kind in models.SMALL_KINDS:
        if kind in (models.level_edge, models.rounding_edge):
            continue
        for k in (1, 2):
            rng = random.Random(f"{kind.__name__} {k}")
            yield f"valid-{kind.__name__.replace('_', '-')}-{k}", models.build(**kind(rng))
    yield "valid-medium", models.build(**models.medium(random.Random(1)))
    yield "valid-heaviest", models.build(**models.heaviest(random.Random(1)))


def all_files():
    for group in (hand_checked, borders, pairs, least_pairs, least_of_version_2, other_versions, one_of_three,
                  weight_of_three, two_of_three, past_32_bits, weights_past_bits, lengths, read_limit, byte_values,
                  most_moments, near_rewards, moments, states, jump_counts, below_whole, tolerances, figures,
                  start_figures, start_edges, start_kinds, arrow_files, practice_files, edge_files, kinds):
        yield from group()


def main(arguments):
    status = stored.main(arguments, FILES, all_files(), sys.stderr, sys.stdout)
    if status == 2:
        return status
    texts = call_cases.texts()
    count = sum(text.count(b"name ") for text in texts.values())
    return max(status, stored.keep(bool(arguments), CALLS, texts, f"{count} calls", sys.stderr, sys.stdout))


if __name__ == "__main__":
    sys.exit(main(sys.argv[1:]))
