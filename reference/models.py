#!/usr/bin/env python3
"""Generated model files for the calculator, from a seed.

valid_models(seed, count)    files that are accepted, over the whole range of document 01, in
                             version 1 and 2
damaged_models(seed, count)  files that reach rows 1 to 12 and 16 of the refusal table, the
                             accepted side of each border, and random bytes
few_cells_models(seed, count)  accepted files with a count of cells at the border of row 13

    python3 reference/models.py --seed 1 --count 20 --out DIR
"""

import os
import random
import sys

sys.dont_write_bytecode = True
sys.path.insert(0, os.path.join(os.path.dirname(os.path.dirname(os.path.abspath(__file__))), "conformance"))

import edges  # noqa: E402
from parts import (  # noqa: E402, F401: some are for those who import this module
    ALL_WEIGHT, MAX_REWARD, MAX_ROW_SUM, MAX_TOLERANCE, MAX_WORD, MAX_X, STARTS, build, even, factors, fields_for,
    in_either_version, in_version_2, log_uniform, on_one, random_rates, random_rewards, random_starts, random_time,
    random_tolerance, repair_shop_parts, row_to, split, uneven, valid, words)
from runner import Parser, positive  # noqa: E402


# --- Bytes ----------------------------------------------------------------------------------

def relength(file):
    """The file with its length field set to the bytes that follow it."""
    return (len(file) - 2).to_bytes(2, "big") + file[2:]


def edge_fields(row):
    """The fields of a row of conformance/edges.py."""
    return valid(len(row.rewards), row.R, row.epsilon, row.T, list(row.rewards), [list(rates) for rates in row.rates])


# --- Random parts -----------------------------------------------------------------------------

def small_fields(rng, low=1, high=5):
    """A random accepted file of few states, with a moderate level: the base for damage."""
    M = rng.randint(low, high)
    E = log_uniform(rng, 1, 1_000_000)
    T = log_uniform(rng, 1, max(1, 20_000_000 // E))
    return fields_for(rng, M, E, T)


# --- Starting weights (version 2) ---------------------------------------------------------------

def right_in_32_bits(rng, M):
    """Weights of two states or more that sum to 1,000,000 and some times 2^32."""
    times = rng.randint(1, M - 1)
    weights = [MAX_WORD] * times + split(rng, ALL_WEIGHT + times, M - times)
    rng.shuffle(weights)
    return weights


def right_without_one(place):
    """Weights of two states or more that sum to 1,000,000 without one state, which has some too."""
    def make(rng, M):
        weights = split(rng, ALL_WEIGHT, M - 1)
        weights.insert(place % M, rng.randint(1, ALL_WEIGHT))
        return weights
    return make


# Starting weights of two states or more that do not sum to 1,000,000.
WRONG_SUMS = {
    "0": lambda rng, M: [0] * M,
    "999999": lambda rng, M: split(rng, ALL_WEIGHT - 1, M),
    "1000001": lambda rng, M: split(rng, ALL_WEIGHT + 1, M),
    "right-in-32-bits": right_in_32_bits,
    "right-without-first": right_without_one(0),
    "right-without-last": right_without_one(-1),
    "1000000-each": lambda rng, M: [ALL_WEIGHT] * M,
    "largest-words": lambda rng, M: [MAX_WORD] * M,
    "any": lambda rng, M: split(rng, ALL_WEIGHT + rng.randint(1, 2**31), M),
}


def wrong_starts(rng, M):
    return WRONG_SUMS[rng.choice([*WRONG_SUMS])](rng, M)


def not_on_first_alone(rng, M):
    """Starting weights of two states or more, with some on a state other than the first."""
    while True:
        weights = random_starts(rng, M)
        if any(weights[1:]):
            return weights


# --- Kinds of valid models ----------------------------------------------------------------------

def one_state(rng):
    return fields_for(rng, 1, 1, random_time(rng, 1))


def tiny(rng):
    E = log_uniform(rng, 1, MAX_ROW_SUM)
    return fields_for(rng, rng.randint(2, 4), E, random_time(rng, E))


def small(rng):
    E = log_uniform(rng, 1, MAX_ROW_SUM)
    return fields_for(rng, rng.randint(3, 10), E, random_time(rng, E))


def absorbing_states(rng):
    M, E = rng.randint(2, 7), log_uniform(rng, 1, MAX_ROW_SUM)
    fields = fields_for(rng, M, E, random_time(rng, E))
    fields["rates"] = random_rates(rng, M, E, 0.6, absorbing=0.6)
    return fields


def all_rates_zero(rng):
    M = rng.randint(1, 6)
    fields = fields_for(rng, M, 1, random_time(rng, 1))
    fields["rates"] = [[0] * (M - 1) for _ in range(M)]
    return fields


def q_below_1(rng):
    E = log_uniform(rng, 1, 999_999)
    return fields_for(rng, rng.randint(2, 6), E, rng.randint(1, 999_999 // E))


def q_whole_or_next(rng):
    X = rng.randint(1, 9) * 1_000_000 + rng.choice([-1, 0, 1])
    return fields_for(rng, rng.randint(2, 4), X, 1)


def q_256(rng):
    T = rng.choice([32, 40, 64, 100, 128, 256, 512, 1000, 256_000, 256_000_000])
    return fields_for(rng, rng.randint(2, 6), MAX_X // T, T)


def row_sum_largest(rng):
    return fields_for(rng, rng.randint(2, 6), MAX_ROW_SUM, rng.choice([1, 2, 24, 25]))


def reward_largest(rng):
    M, E = rng.randint(1, 6), log_uniform(rng, 1, MAX_ROW_SUM)
    return fields_for(rng, M, E, random_time(rng, E), rewards=random_rewards(rng, M, MAX_REWARD))


def reward_in_one_state(rng):
    M, E = rng.randint(2, 6), log_uniform(rng, 1, MAX_ROW_SUM)
    rewards = [0] * M
    rewards[rng.randrange(M)] = rng.choice([1, 3, MAX_REWARD])
    return fields_for(rng, M, E, random_time(rng, E), rewards=rewards)


def rewards_equal(rng):
    M, E = rng.randint(2, 6), log_uniform(rng, 1, MAX_ROW_SUM)
    return fields_for(rng, M, E, random_time(rng, E), rewards=[rng.randint(1, MAX_REWARD)] * M)


def tolerance_smallest(rng):
    E = log_uniform(rng, 1, MAX_ROW_SUM)
    return fields_for(rng, rng.randint(2, 5), E, random_time(rng, E), eps=1)


def tolerance_largest(rng):
    E = log_uniform(rng, 1, MAX_ROW_SUM)
    return fields_for(rng, rng.randint(2, 5), E, random_time(rng, E), eps=MAX_TOLERANCE)


def time_longest(rng):
    return fields_for(rng, rng.randint(2, 4), 1, MAX_X)


def stiff_pair(rng):
    """Two states, one left a million times as fast as the other."""
    fields = fields_for(rng, 2, 1, rng.randint(1, 25), fill=1.0)
    fields["rates"] = rng.sample([[rng.randint(1, 9)], [MAX_ROW_SUM - rng.randint(0, 9)]], 2)
    return fields


def units_with_one_crew(rng):
    """Identical units with one repair crew; the reward is the number of working units."""
    M = rng.randint(2, 9)
    rewards, rates = repair_shop_parts(rng, M)
    E = max(map(sum, rates))
    return valid(M, rng.randint(1, 8), random_tolerance(rng), random_time(rng, E), rewards, rates)


def large_primes(rng):
    """Divisors that leave remainders nearly everywhere."""
    M = rng.randint(2, 6)
    rewards = [rng.choice([999_983, 999_979, 999_961, 3]) for _ in range(M)]
    return fields_for(rng, M, 9_999_991, rng.randint(1, 25), rewards=rewards, fill=1.0)


def level_edge(rng):
    row = rng.choice(edges.LEVEL_ROWS)
    return fields_for(rng, rng.randint(2, 3), row.rates[0][0], row.T, R=rng.randint(1, 2), eps=row.epsilon)


def rounding_edge(rng):
    """A model of the kit in which a rounding reaches the printed digits."""
    return edge_fields(rng.choice(edges.DIGIT_ROWS))


def half_tick(rng):
    """Two states and N = 1: of 1,000 drawn pairs of rewards the one with which the last division of state 1's first
    moment comes nearest to a half. Two of three X have enough factors of two for a half to be met."""
    X = rng.choice([48_576, 8_000 + 16_000 * rng.randint(0, 29), rng.randint(1, 474_000)])  # N is 1 up to X = 474,271
    S = 10**15 + 10**9 * X                                             # w(0) + w(1)

    def off_half(rewards):
        first, second = (f * 10**12 // max(rewards) for f in rewards)  # U(0,1)
        A = 1_000 * first + X * ((second + first) // 2) // 1_000
        return abs(2 * (A * 10**12 % S) - S)

    drawn = [random_rewards(rng, 2, log_uniform(rng, 1, MAX_REWARD)) for _ in range(1_000)]
    return valid(2, rng.randint(1, 8), MAX_TOLERANCE, 1, min(drawn, key=off_half), [[X], [rng.randint(0, X)]])


def sparse(rng):
    E = log_uniform(rng, 1, MAX_ROW_SUM)
    return fields_for(rng, rng.randint(8, 16), E, random_time(rng, E), R=rng.randint(1, 3), fill=0.0)


def row_of_arrows(rng, M, count, total):
    """M - 1 rates that sum to total, or to count where that is more: so many of them at least 1, the others 0."""
    row = [0] * (M - 1)
    if count:
        for place, part in zip(rng.sample(range(M - 1), count), split(rng, max(0, total - count), count)):
            row[place] = 1 + part
    return row


def few_arrows(rng):
    """Up to 64 states with none to three arrows each, now and then one with arrows to all others; the largest row sum,
    so that the diagonal is 0, in one state or in several, and rates of 1."""
    M, E = rng.choice([33, 63, 64, rng.randint(5, 64)]), log_uniform(rng, 100, MAX_ROW_SUM)
    counts = [rng.choice([0, 1, 1, 2, 3]) for _ in range(M)]
    if rng.random() < 0.3:
        counts[rng.randrange(M)] = M - 1
    for place in rng.sample([0, M // 2, M - 1], rng.randint(0, 2)):
        counts[place] = 0
    busiest = rng.randrange(M)
    counts[busiest] = counts[busiest] or 1
    totals = [rng.choice([E, counts[i], rng.randint(1, E)]) for i in range(M)]
    totals[busiest] = E
    fields = fields_for(rng, M, E, rng.randint(1, max(1, 20_000_000 // E)), R=rng.randint(1, 3))
    fields["rates"] = [row_of_arrows(rng, M, count, total) for count, total in zip(counts, totals)]
    return fields


def dense(rng):
    E = log_uniform(rng, 1, MAX_ROW_SUM)
    return fields_for(rng, rng.randint(8, 14), E, random_time(rng, E), R=rng.randint(1, 4), fill=1.0)


def medium(rng):
    E = log_uniform(rng, 1_000, MAX_ROW_SUM)
    T = rng.randint(1, max(1, 100_000_000 // E))
    return fields_for(rng, rng.randint(17, 32), E, T)


def large(rng):
    E = log_uniform(rng, 1_000, MAX_ROW_SUM)
    T = rng.randint(1, max(1, 100_000_000 // E))
    return fields_for(rng, rng.choice([63, 64, rng.randint(33, 64)]), E, T, R=rng.choice([1, 3, 8]))


def heaviest(rng):
    T = rng.choice([32, 64, 256])
    return fields_for(rng, 64, MAX_X // T, T, R=8, eps=1, fill=1.0)


def long_run(rng):
    """The largest level, 358, with enough states for more than 2^16 row means."""
    T = rng.choice([32, 64, 256])
    return fields_for(rng, rng.randint(24, 28), MAX_X // T, T, R=8, eps=1)


# conformance/make.py stores models of these kinds: one more here is two more files in the kit.
SMALL_KINDS = [
    one_state, tiny, small, absorbing_states, all_rates_zero, q_below_1, q_whole_or_next, q_256,
    row_sum_largest, reward_largest, reward_in_one_state, rewards_equal, tolerance_smallest,
    tolerance_largest, time_longest, stiff_pair, units_with_one_crew, large_primes, level_edge,
    rounding_edge, sparse, dense,
]


def valid_kind(index):
    """The kind of the valid model number `index`: mostly small, now and then a larger one, one with few arrows or one
    at half a tick."""
    if index % 100 == 47:
        return heaviest
    if index % 10 == 6:
        return half_tick
    if index % 40 == 23:
        return large
    if index % 20 == 17:
        return few_arrows
    if index % 20 == 11:
        return medium
    return SMALL_KINDS[index % len(SMALL_KINDS)]


def valid_models(seed, count):
    """`count` accepted files, as (name, bytes); about every second is of version 2."""
    rng = random.Random(seed)
    for index in range(count):
        kind = valid_kind(index)
        fields = in_either_version(rng, kind(rng))
        yield f"{index:05d}-valid-{kind.__name__.replace('_', '-')}-version-{fields['version']}", build(**fields)


# --- Damage -----------------------------------------------------------------------------------
# Each kind is (row, what, function of rng giving the bytes). Row 0 is the accepted side of a
# border; row None is left to the calculator. The row is the one the program prints, which
# judges the first 16,654 bytes.

def changed(base=small_fields, **changes):
    """A random accepted file with some fields changed; a change may be a function of rng."""
    def make(rng):
        fields = base(rng)
        for name, value in changes.items():
            fields[name] = value(rng) if callable(value) else value
        return build(**fields)
    return make


def bytewise(change, base=small_fields):
    """A random accepted file, built and then changed as bytes."""
    return lambda rng: change(build(**base(rng)), rng)


def states_64(rng):
    """64 states with a low level, so that it is quick."""
    return fields_for(rng, 64, 1000, 1, R=rng.choice([1, 8]), eps=MAX_TOLERANCE)


def single(rng):
    return small_fields(rng, 1, 1)


def two_or_more(rng):
    return small_fields(rng, 2, 5)


def small_starting(rng):
    """A random accepted file of version 2."""
    fields = small_fields(rng)
    return in_version_2(fields, random_starts(rng, fields["M"]))


def full_size(states, version=1):
    """A file of `states` states (64 or 65), every rate 1."""
    weights = on_one(states, 0) if version == 2 else ()
    return build(version, states, 1, 1, 1, [1] * states, [[1] * (states - 1)] * states, weights)


def wrong_length(rng):
    file = build(**small_fields(rng))
    length = rng.choice([n for n in (rng.randint(0, 65535), 0, 65535) if n != len(file) - 2])
    return length.to_bytes(2, "big") + file[2:]


def swapped_length(rng):
    """The length written low byte first (its two bytes differ up to 16 states)."""
    file = build(**two_or_more(rng))
    return file[1::-1] + file[2:]


def rewards_with(value, where):
    def make(rng):
        fields = small_fields(rng)
        place = {"first": 0, "last": fields["M"] - 1}.get(where, rng.randrange(fields["M"]))
        fields["rewards"][place] = value(rng) if callable(value) else value
        return build(**fields)
    return make


def only_last_reward(rng):
    fields = small_fields(rng)
    fields["rewards"] = [0] * (fields["M"] - 1) + [1]
    return build(**fields)


def no_reward(rng):
    fields = small_fields(rng)
    fields["rewards"] = [0] * fields["M"]
    return build(**fields)


def row_sum(total, where="any", time=1):
    """One row with exactly this sum; the other rows are within the limit."""
    def make(rng):
        fields = two_or_more(rng)
        M = fields["M"]
        place = {"first": 0, "last": M - 1}.get(where, rng.randrange(M))
        fields["rates"][place] = row_to(rng, M, total, 1.0)
        fields["T"] = time
        return build(**fields)
    return make


def rates_largest(rng):
    fields = small_fields(rng, 2, 5)
    M = fields["M"]
    fields["rates"] = [[MAX_WORD] * (M - 1) for _ in range(M)]
    return build(**fields)


def row_sum_past_32_bits(rng):
    """A row that sums to 2^32 and a little: small once cut to 32 bits."""
    fields = small_fields(rng, 3, 5)
    M = fields["M"]
    rest = 2**32 + rng.randint(0, 1000) - MAX_WORD
    fields["rates"][rng.randrange(M)] = [MAX_WORD, rest] + [0] * (M - 3)
    return build(**fields)


def product(E, T, R=1):
    """E * T given by its factors; a row sum is E."""
    def make(rng):
        return build(**fields_for(rng, rng.randint(2, 3), E, T, R=R, eps=MAX_TOLERANCE))
    return make


def no_rates(T):
    def make(rng):
        M = rng.randint(1, 3)
        return build(**valid(M, 1, MAX_TOLERANCE, T, random_rewards(rng, M), [[0] * (M - 1)] * M))
    return make


def product_past_32_bits(rng):
    """E * T at or above 2^32, and small once cut to 32 bits."""
    shift = rng.randint(10, 23)
    E = 2**shift
    return build(**fields_for(rng, rng.randint(2, 3), E, 2**(32 - shift) + rng.choice([0, 1])))


def starting(starts, base=small_fields):
    """A random accepted file in version 2 with starting weights by a function of rng and M."""
    def make(rng):
        fields = base(rng)
        return build(**in_version_2(fields, starts(rng, fields["M"])))
    return make


def with_starts(file, rng):
    """A file of version 1 as one of version 2 with any starting weights that sum to 1,000,000."""
    return relength(file[:2] + b"\2" + file[3:13] + words(random_starts(rng, file[3])) + file[13:])


def rewards_like_weights(total):
    """Reward rates that sum to 1,000,000, and starting weights that sum to `total`."""
    def make(rng):
        fields = two_or_more(rng)
        fields["rewards"] = uneven(rng, fields["M"])
        return build(**in_version_2(fields, split(rng, total, fields["M"])))
    return make


def other_version(rng, versions):
    """A version that is none of these."""
    return rng.choice([each for each in (0, 1, 2, 3, 255, rng.randint(3, 255)) if each not in versions])


def other_length(file, rng):
    """The file with the length of the other version: without its weights, or with some. Its version stays."""
    M = file[3]
    return relength(file[:13] + (file[13 + 4 * M:] if file[2] == 2 else words(random_starts(rng, M)) + file[13:]))


def breaking(rng, fields, rows, versions=(1, 2)):
    """A file of two states or more, changed so that it breaks these rows of 1 to 12, 16 and 17: the first of them in
    the order of a call counts. `versions` are those that the call admits; 16 and 17 make the file one of version 2."""
    M = fields["M"]
    if 17 in rows:
        fields = in_version_2(fields, not_on_first_alone(rng, M))
    if 16 in rows:
        fields = in_version_2(fields, wrong_starts(rng, M))
    if 12 in rows:
        fields["T"] = MAX_WORD
        fields["rates"] = [row_to(rng, M, rng.randint(1, 9_000_000), 1.0) for _ in range(M)]
    if 11 in rows:
        fields["rates"][rng.randrange(M)] = row_to(rng, M, rng.randint(10_000_001, MAX_WORD), 0.0)
    if 10 in rows:
        fields["rewards"] = [0] * M
    if 9 in rows:
        fields["rewards"][rng.randrange(M)] = rng.randint(1_000_001, MAX_WORD)
    if 8 in rows:
        fields["T"] = 0
    if 7 in rows:
        fields["eps"] = rng.choice([0, rng.randint(100_000_001, MAX_WORD)])
    if 5 in rows:
        fields["R"] = rng.choice([0, 9, rng.randint(9, 255)])
    if 4 in rows:
        fields["M"] = rng.choice([0, 65, rng.randint(65, 255)])
    if 3 in rows:
        fields["version"] = other_version(rng, versions)
    file = build(**fields)
    if 6 in rows:
        file = relength(file + bytes(rng.randint(1, 9)))
    if 2 in rows:
        file = file + bytes(rng.randint(1, 9))
    if 1 in rows:
        file = file[:rng.randint(0, 12)]
    return file


def several(row, later):
    """A file that breaks `row` and some of the `later` rows as well: the first one counts."""
    def make(rng):
        fields = two_or_more(rng)
        return breaking(rng, fields, {row} | set(rng.sample(later, rng.randint(1, len(later)))))
    return make


def random_bytes(rng):
    return rng.randbytes(rng.randint(0, 80))


def random_bytes_right_length(rng):
    return relength(rng.randbytes(rng.randint(2, 80)))


def random_numbers(rng):
    """The right shape and version 1, every number up to about twice its limit."""
    M = rng.randint(1, 4)
    rewards = [rng.randint(0, rng.choice([3, 1_000_000, 1_200_000])) for _ in range(M)]
    most = 20_000_000 // M
    rates = [[log_uniform(rng, 1, most) for _ in range(M - 1)] for _ in range(M)]
    eps = rng.randint(0, 150_000_000)
    return build(1, M, rng.randint(1, 8), eps, log_uniform(rng, 1, 1_000), rewards, rates)


def flipped_bits(rng, make=changed()):
    file = bytearray(make(rng))
    for _ in range(rng.randint(1, 3)):
        file[rng.randrange(len(file))] ^= 1 << rng.randrange(8)
    return bytes(file)


def fixed(file):
    return lambda rng: file


def diagonal_given(rng):
    """The rates of every row with their diagonal: M numbers per row."""
    fields = small_fields(rng)
    fields["rates"] = [row + [0] for row in fields["rates"]]
    return build(**fields)


DAMAGE = [
    (1, "empty", fixed(b"")),
    (1, "one-byte", fixed(b"\0")),
    (1, "two-bytes-length-0", fixed(b"\0\0")),
    (1, "12-bytes", bytewise(lambda file, rng: file[:12])),
    (1, "12-bytes-length-right", bytewise(lambda file, rng: relength(file[:12]))),
    (1, "below-13-bytes", bytewise(lambda file, rng: file[:rng.randint(2, 11)])),
    (2, "length-one-more", bytewise(lambda file, rng: (len(file) - 1).to_bytes(2, "big") + file[2:])),
    (2, "length-one-less", bytewise(lambda file, rng: (len(file) - 3).to_bytes(2, "big") + file[2:])),
    (2, "length-counts-itself", bytewise(lambda file, rng: len(file).to_bytes(2, "big") + file[2:])),
    (2, "length-wrong", wrong_length),
    (2, "length-low-byte-first", swapped_length),
    (2, "last-byte-missing", bytewise(lambda file, rng: file[:-1])),
    (2, "13-bytes-of-more", bytewise(lambda file, rng: file[:13])),
    (2, "truncated", bytewise(lambda file, rng: file[:rng.randint(13, len(file) - 1)])),
    (2, "one-byte-too-many", bytewise(lambda file, rng: file + b"\0")),
    (2, "bytes-too-many", bytewise(lambda file, rng: file + rng.randbytes(rng.randint(2, 90)))),
    (2, "64-states-one-byte-too-many", lambda rng: full_size(64) + b"\0"),
    (2, "20000-bytes-length-19998", lambda rng: relength(full_size(64) + bytes(3603))),
    (2, "20000-bytes-length-16396", lambda rng: relength(full_size(64) + b"\0") + bytes(3602)),
    (2, "65-states-in-full", lambda rng: full_size(65)),
    (2, "64-states-version-2-one-byte-too-many", lambda rng: full_size(64, 2) + b"\0"),
    (2, "65-states-version-2-in-full", lambda rng: full_size(65, 2)),
    (3, "version-0", changed(version=0)),
    (3, "version-3", changed(version=3)),
    (3, "version-3-with-weights", bytewise(lambda file, rng: file[:2] + b"\3" + file[3:], small_starting)),
    (3, "version-255", changed(version=255)),
    (4, "states-0", changed(M=0)),
    (4, "states-0-length-11", lambda rng: build(1, 0, 1, 1, 1, [], [])),
    (4, "states-65", changed(M=65)),
    (4, "states-255", changed(M=255)),
    (0, "states-64", changed(states_64)),
    (0, "states-1", changed(single)),
    (5, "moments-0", changed(R=0)),
    (5, "moments-9", changed(R=9)),
    (5, "moments-255", changed(R=255)),
    (0, "moments-8", changed(R=8)),
    (0, "moments-1", changed(R=1)),
    (6, "one-byte-too-many-counted", bytewise(lambda file, rng: relength(file + b"\0"))),
    (6, "one-byte-too-few-counted", bytewise(lambda file, rng: relength(file[:-1]))),
    (6, "one-rate-too-many", bytewise(lambda file, rng: relength(file + bytes(4)))),
    (6, "one-rate-too-few", bytewise(lambda file, rng: relength(file[:-4]))),
    (6, "no-rewards-no-rates", bytewise(lambda file, rng: relength(file[:13]))),
    (6, "diagonal-given", diagonal_given),
    (6, "states-one-more", bytewise(lambda file, rng: file[:3] + bytes([file[3] + 1]) + file[4:])),
    (6, "16398-bytes-counted", lambda rng: relength(full_size(64) + b"\0")),
    (6, "16654-bytes-counted", lambda rng: relength(full_size(64, 2) + b"\0")),
    (6, "20000-bytes-length-16652", lambda rng: relength(full_size(64, 2) + b"\0") + bytes(3346)),
    (6, "version-2-length-of-version-1", bytewise(other_length, small_starting)),
    (6, "version-1-length-of-version-2", bytewise(other_length)),
    (6, "version-2-one-weight-too-many", bytewise(lambda file, rng: relength(file + bytes(4)), small_starting)),
    (6, "version-2-one-rate-too-few", bytewise(lambda file, rng: relength(file[:-4]), small_starting)),
    (6, "version-2-no-numbers", bytewise(lambda file, rng: relength(file[:13]), small_starting)),
    (7, "tolerance-0", changed(eps=0)),
    (7, "tolerance-100000001", changed(eps=MAX_TOLERANCE + 1)),
    (7, "tolerance-largest-word", changed(eps=MAX_WORD)),
    (0, "tolerance-100000000", changed(eps=MAX_TOLERANCE)),
    (0, "tolerance-1", changed(eps=1)),
    (8, "time-0", changed(T=0)),
    (0, "time-1", changed(T=1)),
    *((16, f"weights-sum-{name}", starting(make, two_or_more)) for name, make in WRONG_SUMS.items()),
    (16, "weights-sum-999999-1-state", starting(lambda rng, M: [999_999], single)),
    (16, "weights-sum-1000001-1-state", starting(lambda rng, M: [1_000_001], single)),
    (16, "weights-largest-word-1-state", starting(lambda rng, M: [MAX_WORD], single)),
    (16, "weights-largest-words-64-states", starting(WRONG_SUMS["largest-words"], states_64)),
    (16, "weights-right-in-32-bits-64-states", starting(right_in_32_bits, states_64)),
    (16, "weights-sum-999999-rewards-1000000", rewards_like_weights(999_999)),
    *((0, f"weights-{name}", starting(make, two_or_more)) for name, make in STARTS.items()),
    (0, "weights-1-state", starting(even, single)),
    (0, "weights-on-last-64-states", starting(STARTS["on-last"], states_64)),
    (0, "weights-uneven-64-states", starting(uneven, states_64)),
    (0, "weights-and-rewards-1000000", rewards_like_weights(ALL_WEIGHT)),
    (9, "reward-1000001-first", rewards_with(MAX_REWARD + 1, "first")),
    (9, "reward-1000001-last", rewards_with(MAX_REWARD + 1, "last")),
    (9, "reward-above", rewards_with(lambda rng: rng.randint(MAX_REWARD + 1, MAX_WORD), "any")),
    (9, "reward-largest-word", rewards_with(MAX_WORD, "any")),
    (0, "reward-1000000", rewards_with(MAX_REWARD, "any")),
    (10, "rewards-0", no_reward),
    (0, "reward-1-in-last-state", only_last_reward),
    (11, "row-sum-10000001-first", row_sum(MAX_ROW_SUM + 1, "first")),
    (11, "row-sum-10000001-last", row_sum(MAX_ROW_SUM + 1, "last")),
    (11, "row-sum-10000001-time-26", row_sum(MAX_ROW_SUM + 1, "any", 26)),
    (11, "rates-largest-word", rates_largest),
    (11, "row-sum-past-32-bits", row_sum_past_32_bits),
    (0, "row-sum-10000000", row_sum(MAX_ROW_SUM, "any")),
    (12, "row-sum-10000000-time-26", row_sum(MAX_ROW_SUM, "any", 26)),
    (0, "row-sum-10000000-time-25", row_sum(MAX_ROW_SUM, "any", 25)),
    (12, "product-256000001-rate-1", product(1, MAX_X + 1)),
    (12, "product-256000003", product(6_918_919, 37)),      # 256,000,001 itself is prime
    (12, "product-256000001-no-rates", no_rates(MAX_X + 1)),
    (12, "time-largest-word-no-rates", no_rates(MAX_WORD)),
    (12, "product-257000000", product(1_000_000, 257)),
    (12, "product-largest", product(MAX_ROW_SUM, MAX_WORD)),
    (12, "product-past-32-bits", product_past_32_bits),
    (0, "product-256000000-rate-1", product(1, MAX_X)),
    (0, "product-256000000", product(8_000_000, 32)),
    (0, "product-256000000-no-rates", no_rates(MAX_X)),
    (0, "product-255999999", product(48_003, 5_333)),
    (1, "several", several(1, [2, 3, 4, 5, 6, 7, 8, 9, 11])),
    (2, "several", several(2, [3, 4, 5, 6, 7, 8, 9, 11])),
    (3, "several", several(3, [4, 5, 6, 7, 8, 9, 11])),
    (4, "several", several(4, [5, 6, 7, 8, 10, 11])),
    (5, "several", several(5, [6, 7, 8, 9, 11])),
    (6, "several", several(6, [7, 8, 9, 11])),
    (7, "several", several(7, [8, 9, 11])),
    (7, "several-again", several(7, [10, 11, 12])),
    (8, "several", several(8, [9, 11])),
    (8, "several-again", several(8, [10, 11])),
    (6, "several-with-16", several(6, [16])),
    (7, "several-with-16", several(7, [16])),
    (8, "several-with-16", several(8, [16])),
    (16, "several", several(16, [9, 11, 12])),
    (16, "several-again", several(16, [10, 11, 12])),
    (9, "several", several(9, [11, 12])),
    (10, "several", several(10, [11, 12])),
    (11, "several", several(11, [12])),
    (None, "random-bytes", random_bytes),
    (None, "random-bytes-right-length", random_bytes_right_length),
    (None, "random-numbers", random_numbers),
    (None, "flipped-bits", flipped_bits),
    (None, "flipped-bits-version-2", lambda rng: flipped_bits(rng, changed(small_starting))),
]


def damage_name(row, what):
    """refusedNN-what, accepted-what, or open-what."""
    if row is None:
        return f"open-{what}"
    return f"refused{row:02d}-{what}" if row else f"accepted-{what}"


def damaged(rng, row, make):
    """A file of a kind of damage. Where it is accepted or refused by its numbers, about every second is put into
    version 2."""
    file = make(rng)
    by_numbers = row in (0, 7, 8, 9, 10, 11, 12) and file[2] == 1
    return with_starts(file, rng) if by_numbers and rng.random() < 0.5 else file


def damaged_models(seed, count):
    """`count` files at and beyond the borders, as (name, bytes); the name tells the row."""
    rng = random.Random(seed)
    for index in range(count):
        row, what, make = DAMAGE[index % len(DAMAGE)]
        yield f"{index:05d}-{damage_name(row, what)}", damaged(rng, row, make)


def few_cells_models(seed, count):
    """Accepted files with a count of answer cells, as (name, bytes, cells): M * R cells are enough in version 1,
    (M + 1) * R in version 2, one less or none is row 13."""
    rng = random.Random(seed)
    for index in range(count):
        fields = (small_fields if index % 2 else small_starting)(rng)
        moments = fields["M"] * fields["R"]
        need = moments if index % 2 else moments + fields["R"]
        row, cells = [(13, need - 1), (0, need), (0, need + 3), (13, 0), (0 if index % 2 else 13, moments)][index % 5]
        yield f"{index:05d}-{damage_name(row, 'cells')}", build(**fields), cells


def mixed_models(seed, count):
    """Valid and damaged files in turn, `count` in all."""
    valid_ones = valid_models(seed, (count + 1) // 2)
    damaged_ones = damaged_models(seed, count // 2)
    for index in range(count):
        yield next(damaged_ones if index % 2 else valid_ones)


# --- Command line -----------------------------------------------------------------------------

def main():
    parser = Parser(description="Write generated model files, valid and damaged in turn.")
    parser.add_argument("--seed", type=int, default=1)
    parser.add_argument("--count", type=positive, default=100)
    parser.add_argument("--out", required=True, metavar="DIR")
    options = parser.parse_args()
    try:
        os.makedirs(options.out, exist_ok=True)
        for name, file in mixed_models(options.seed, options.count):
            with open(os.path.join(options.out, name + ".model"), "wb") as target:
                target.write(file)
    except OSError as error:
        print(f"models.py: cannot write: {error}", file=sys.stderr)
        return 2
    print(f"wrote {options.count} models, seed {options.seed}")
    return 0


if __name__ == "__main__":
    sys.exit(main())
