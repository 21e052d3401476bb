"""Generated inputs of the library's calls, from a seed.

calculate_inputs(seed, count)     files, valid and damaged, with counts of cells about the border of row 13
series_inputs(seed, count)        files with lists of times, and counts of level and block cells
remainders_inputs(seed, count)    files with a state, n and r: within their limits, at their ends, outside
to_version_2_inputs(seed, count)  files with a count of bytes for the moved one; to_version_1_inputs alike
practice_inputs(seed, count)      states, highest moment and seed number with a count of bytes for the file

The inputs of a call come from several parts in turn: aimed at a row of the call's table, each row in its turn, breaking
some later rows as well; accepted; aimed at an end of its files, counts or numbers; put together by chance.
"""

import copy
import random
from collections import Counter, namedtuple
from functools import partial
from itertools import islice

import calculator
import models
from library import CALLS, painted
from models import MAX_WORD, MAX_X

# The call, and what it gets: {parameter: a number, the elements of a slice, or the count of a slice that is written}.
Input = namedtuple("Input", "name call given")

# The versions that each call admits, of those that read a file.
VERSIONS = {"calculate": (1, 2), "series": (1, 2), "remainders": (1, 2), "to_version_2": (1,), "to_version_1": (2,)}

# The refusals of each call, in the order in which they are tried. A file of version 1 has no weights for 16.
ROWS = {
    "calculate": [*range(1, 9), 16, *range(9, 14)],
    "series": [*range(1, 9), 16, 9, 10, 11, 14, 15, 12, 13],
    "remainders": [*range(1, 9), 16, *range(9, 13)],
    "to_version_2": [*range(1, 14)],
    "to_version_1": [*range(1, 9), 16, *range(9, 13), 17, 13],
    "practice": [4, 5, 13],
}
FILE_ROWS = {*range(1, 13), 16, 17}     # those that a file breaks by itself
CHEAP = 200_000     # multiplications of the vectors of one input
LARGEST = 2**64 - 1


def outcome(program, call, given, other=False):
    """What a call gives by the reference (or a module like it): the answer, and what each written slice then holds.
    With `other` the slices hold other numbers beforehand."""
    values = {each.name: painted(given[each.name], each.type, 0, other) if each.written else copy.copy(given[each.name])
              for each in CALLS[call]}
    result = getattr(program, call)(*values.values())
    return program.answer(result), {each.name: values[each.name] for each in CALLS[call] if each.written}


# --- Files --------------------------------------------------------------------------------------

def in_one_of(rng, versions, fields):
    """The fields of a version 1 file in one of these versions; where that is 2 alone, all weight is on state 1."""
    if versions == (2,):
        return models.in_version_2(fields, models.on_one(fields["M"], 0))
    return fields if versions == (1,) else models.in_either_version(rng, fields)


def base_fields(rng, versions=(1, 2)):
    """The fields of an accepted file of two to six states, in one of these versions."""
    kind = rng.choice([models.two_or_more, models.two_or_more, models.tiny, models.stiff_pair, models.large_primes,
                       models.q_256, models.time_longest, models.row_sum_largest, models.absorbing_states])
    return in_one_of(rng, versions, kind(rng))


def other_version(call):
    """The version that a call does not admit, of one that admits 1 or 2 alone."""
    return (3 - VERSIONS[call][0],)


def broken_file(rng, call, rows):
    """A file that breaks these rows of the call's table, as far as they are a file's: row 3 also by a file of the other
    version, row 6 also by its length."""
    rows, versions = rows & FILE_ROWS, VERSIONS[call]
    if 3 in rows and len(versions) == 1 and rng.random() < 0.5:
        return models.breaking(rng, base_fields(rng, other_version(call)), rows - {3, 16, 17})
    if min(rows, default=0) == 6 and rng.random() < 0.3:
        return models.other_length(models.breaking(rng, base_fields(rng, versions), rows - {6}), rng)
    return models.breaking(rng, base_fields(rng, versions), rows, versions)


def longer_by_65536(rng):
    """A file whose length is right in 16 bits alone."""
    return models.build(**models.in_either_version(rng, models.small_fields(rng))) + bytes(2**16)


def any_accepted(rng):
    return models.build(**models.in_either_version(rng, rng.choice(models.SMALL_KINDS)(rng)))


def any_file(rng):
    """A file of chance: accepted, damaged, or of a length that only a call can be given."""
    kind = rng.random()
    if kind < 0.01:
        return longer_by_65536(rng)
    if kind < 0.5:
        row, _, make = rng.choice(models.DAMAGE)
        return models.damaged(rng, row, make)
    return any_accepted(rng)


def own_time(file):
    return calculator.number(file, 9, 4)


def with_time(file, T):
    """The file with another time, where it has one."""
    return file[:9] + T.to_bytes(4, "big") + file[13:] if len(file) >= 13 else file


def longest_time(file):
    """The longest time that row 12 lets pass; that of E = 1 where an earlier row holds."""
    if calculator.refusal(file, calculator.LENT_CELLS) not in (0, 12):
        return MAX_X
    return MAX_X // calculator.read_model(file).E


def need(file):
    """The cells of a block where the bytes are there, or 520 where that is more."""
    return min(calculator.block_size(file), calculator.LENT_CELLS) if len(file) > 4 else 4


def moved_length(call, file):
    """The bytes of a file that a call moves, as far as they can be told, and 1 or more."""
    weights = 4 * file[3] if len(file) > 3 else 0
    return max(1, len(file) + weights if call == "to_version_2" else len(file) - weights)


# --- Counts -----------------------------------------------------------------------------------------

def too_few(rng, enough):
    """Fewer than enough (which is 1 or more): by one, none, or any."""
    return rng.choice([enough - 1, enough - 1, 0, rng.randrange(enough)])


def at_least(rng, enough):
    """Enough: just, one more, or more."""
    return enough + rng.choice([0, 0, 1, rng.randint(2, 40)])


def room(rng, enough, short):
    return (too_few if short else at_least)(rng, max(1, enough))


# --- Rows ------------------------------------------------------------------------------------------

def row_of(answer):
    """The row that an answer tells, or 0 for an acceptance."""
    return max(0, answer - calculator.REFUSED)


def and_later(rng, call, row, next_too):
    """A row and the next one in the call's table, or up to three that come after it; none comes after row 0, which is
    no row."""
    later = ROWS[call][ROWS[call].index(row) + 1:] if row else []
    if next_too:
        return {row, *later[:1]}
    return {row} | set(rng.sample(later, rng.randint(0, min(3, len(later)))))


# --- Lists of times -----------------------------------------------------------------------------------

def rising(rng, most, count):
    """Times from 1 to `most` (25 or more), each above the one before it: spread, close together, up to the longest."""
    kind = rng.randrange(4)
    if kind == 0:
        first = rng.randint(1, most - count + 1)
        return list(range(first, first + count))
    times = set() if kind == 1 else {most}
    while len(times) < count:
        times.add(rng.randint(1, most) if kind < 3 else models.log_uniform(rng, 1, most))
    return sorted(times)[:count]


def late(rng, most):
    """A time that row 12 does not let pass: the first, the last, one that is below 0 or whose product is small in 32
    bits, or any."""
    past_32_bits = min(most * 2**32 // MAX_X + 1, MAX_WORD)
    return rng.choice([most + 1, MAX_WORD, 2**31, past_32_bits, rng.randint(most + 1, MAX_WORD)])


def disturbed(rng, times, keep_last):
    """A list of two or more with a time that is not above the one before it: lowered, or the one before it raised."""
    times = list(times)
    place = rng.randrange(1, len(times))
    if rng.random() < 0.5 and not (keep_last and place == len(times) - 1):
        times[place] = rng.choice([times[place - 1], 0, rng.randint(0, times[place - 1])])
    else:
        times[place - 1] = rng.choice([times[place], rng.randint(times[place], MAX_WORD)])
    return times


def list_of_times(rng, most, rows):
    """A list that breaks these rows: 8 by a first 0, 14, 15, and 12 by its last time; an empty one breaks 14 alone."""
    if rows == {14} and rng.random() < 0.4:
        return []
    count = rng.choice([9, 9, 10, 17]) if 14 in rows else rng.choice([1, 2, 3, 5, 7, 8, 8])
    if 15 in rows:
        count = max(count, 2)
    if 8 in rows and {12, 15} & rows:
        count = max(count, 3)                   # so that the first 0 leaves the others as they are
    times = rising(rng, most, count)
    if 12 in rows:
        times[-1] = late(rng, most)
    if 15 in rows:
        first = times[:1] if 8 in rows else []
        times = first + disturbed(rng, times[len(first):], 12 in rows)
    if 8 in rows:
        times[0] = 0
    return times


# --- Inputs of series ---------------------------------------------------------------------------------

def listing(file, times, levels, cells):
    """The input of a file with a list of times, and counts of level and block cells."""
    return dict(file=file, times=times, levels=levels, cells=cells, row_means=1)


def another_time(rng, file):
    """For the file's own time, which 8 alone judges: it itself, late ones, and 1."""
    return rng.choice([own_time(file), MAX_WORD, longest_time(file) + 1, 1])


def edge_series(rng):
    """An accepted list with the time for which a rounding or the level of its file is decided by little."""
    fields = rng.choice([models.rounding_edge, models.rounding_edge, models.level_edge])(rng)
    file = models.build(**models.in_either_version(rng, fields))
    times = sorted({own_time(file), *rising(rng, longest_time(file), rng.randint(1, 7))})
    return listing(with_time(file, another_time(rng, file)), times, at_least(rng, len(times)),
                   at_least(rng, len(times) * need(file)))


def aimed_series(rng, row, next_too=False):
    """An input that breaks this row and some that come after it; row 0: none."""
    if row == 0 and rng.random() < 0.3:
        return edge_series(rng)
    rows = and_later(rng, "series", row, next_too)
    in_list = rows & {12, 14, 15} | ({8} & rows if rng.random() < 0.5 else set())
    in_file = rows & {*range(1, 12), 16} - in_list
    file = broken_file(rng, "series", in_file)
    if len(file) >= 13 and 8 not in in_file:
        file = with_time(file, another_time(rng, file))
    times = list_of_times(rng, longest_time(file), in_list)
    short = rng.choice([(True, False), (False, True), (True, True)]) if 13 in rows else (False, False)
    return listing(file, times, room(rng, len(times), short[0]), room(rng, len(times) * need(file), short[1]))


def any_series(rng):
    """An input of chance."""
    file = any_file(rng)
    if rng.random() < 0.5:
        file = with_time(file, another_time(rng, file))
    broken = {row for row, share in ((8, 0.05), (14, 0.1), (15, 0.1), (12, 0.1)) if rng.random() < share}
    times = list_of_times(rng, longest_time(file), broken)
    levels, cells = (room(rng, each, rng.random() < 0.1) for each in (len(times), len(times) * need(file)))
    return listing(file, times, levels, cells)


def series_of(rng, file):
    """A file with a list that is accepted, and cells just enough."""
    times = list_of_times(rng, longest_time(file), set())
    return listing(file, times, len(times), len(times) * need(file))


def large_series(rng):
    """64 states, which take all cells where R is 8, the list has 8 times and the file is of version 2."""
    file = models.build(**models.in_either_version(rng, models.states_64(rng)))
    times = rising(rng, 4_000, rng.choice([1, 8]))
    return listing(file, times, len(times), len(times) * need(file))


def long_series(rng):
    """Row means past 2^16, by the last time."""
    file = models.build(**models.in_either_version(rng, models.long_run(rng)))
    times = sorted({*rng.sample(range(1, 20), rng.randint(0, 3)), own_time(file)})
    return listing(file, times, len(times), len(times) * need(file))


# --- Inputs of calculate ------------------------------------------------------------------------------

def calculating(file, cells):
    """The input of a file with a count of cells."""
    return dict(file=file, cells=cells, row_means=1)


def aimed_calculate(rng, row, next_too=False):
    """An input that breaks this row and some that come after it; row 0: none."""
    rows = and_later(rng, "calculate", row, next_too)
    file = broken_file(rng, "calculate", rows)
    return calculating(file, room(rng, need(file), 13 in rows))


def any_calculate(rng):
    file = any_file(rng)
    return calculating(file, room(rng, need(file), rng.random() < 0.3))


def calculate_of(rng, file):
    """A file with cells just enough."""
    return calculating(file, need(file))


def large_calculate(rng):
    """64 states, which take all cells where R is 8 and the file is of version 2."""
    return calculate_of(rng, models.build(**models.in_either_version(rng, models.states_64(rng))))


def long_calculate(rng):
    """Row means past 2^16."""
    return calculate_of(rng, models.build(**models.in_either_version(rng, models.long_run(rng))))


# --- Inputs of to_version_2 and to_version_1 ----------------------------------------------------------

def aimed_move(rng, call, row, next_too=False):
    """An input that breaks this row and some that come after it; row 0: none."""
    rows = and_later(rng, call, row, next_too)
    file = broken_file(rng, call, rows)
    return dict(file=file, out=room(rng, moved_length(call, file), 13 in rows))


def any_move(rng, call):
    """An input of chance; of the files without damage, half are of the version to be moved."""
    file = any_file(rng) if rng.random() < 0.7 else models.build(**base_fields(rng, VERSIONS[call]))
    return dict(file=file, out=room(rng, moved_length(call, file), rng.random() < 0.3))


def move_of(rng, file, call):
    """A file with just the bytes that the moved one takes."""
    return dict(file=file, out=moved_length(call, file))


# --- Inputs of remainders -----------------------------------------------------------------------------

NUMBERS = ("state", "n", "r")
MOST = dict(state=64, n=calculator.LEVEL_LIMIT, r=8)     # no file has more

# Where one of the numbers stands, by its limit.
PLACES = {
    "0": lambda limit: 0,
    "1": lambda limit: 1,
    "limit": lambda limit: limit,
    "past-limit": lambda limit: limit + 1,
    "past-32-bits": lambda limit: 2**32 + 1,             # within the limit in 32 bits
    "largest": lambda limit: LARGEST,
}


def longer_states_64(rng):
    """64 states with a level up to 4."""
    return dict(models.states_64(rng), T=rng.randint(1, 2_000))


def near_largest(rng):
    """Rewards next to each other and E next to the largest: sums of V past 2^63, rests nearly everywhere."""
    M = rng.randint(2, 6)
    return models.fields_for(rng, M, 9_999_991, rng.randint(1, 25),
                             rewards=[models.MAX_REWARD - rng.randint(0, 99) for _ in range(M)])


# Models that are reached with an accepted input, and the kind that is drawn for each.
MODELS = {
    "rests-above-0": models.large_primes,
    "absorbing-state": models.absorbing_states,
    "no-rates": models.all_rates_zero,
    "reward-0": models.reward_in_one_state,
    "1-state": models.one_state,
    "64-states": longer_states_64,
}


def limits(file):
    """The limits of state, n and r: M, N and R; of a refused file those that no file passes."""
    word, N = calculator.outcome(file, calculator.LENT_CELLS)
    return MOST if word == "refused" else dict(state=file[3], n=N, r=file[4])


def asked(file, **numbers):
    """The input of a file with state, n and r."""
    return dict(file=file, **numbers, mean=1, share=1, mix=1)


def models_reached(file, i, rests):
    """Which of MODELS an accepted file with state i (counted from 0 here) is, and the rests given there."""
    model = calculator.read_model(file)
    still = [model.c[k][k] == model.E for k in range(model.M)]     # no rate leads out of state k
    holds = {
        "rests-above-0": all(rests),
        "absorbing-state": still[i] and not all(still),
        "no-rates": model.M > 1 and all(still),
        "reward-0": model.f[i] == 0,
        "1-state": model.M == 1,
        "64-states": model.M == 64,
    }
    return [name for name in MODELS if holds[name]]


def places_reached(given, limit):
    """Which numbers of an input are outside of their limits, and at which of PLACES one is that has the others
    within."""
    outside = {name for name in limit if not 1 <= given[name] <= limit[name]}
    return outside, [f"{name}-{place}" for name in limit for place, at in PLACES.items()
                     if given[name] == at(limit[name]) and outside <= {name}]


def remainders_ends(given, result):
    """The ends that an input of remainders reaches: a number at a place has the others within their limits."""
    answer, written = result
    outside, places = places_reached(given, limits(given["file"]))
    row = row_of(answer)
    if row:
        return [f"outside-row-{row:02d}"] if len(outside) == 3 else []
    if answer == calculator.NONE:
        return ["none", *places, *(["outside"] if len(outside) == 3 else [])]
    rests = [written[name][0] for name in ("mean", "share", "mix")]
    return ["given", *places, *models_reached(given["file"], given["state"] - 1, rests)]


def within(rng, limit):
    return {name: rng.randint(1, most) for name, most in limit.items()}


def beyond(rng, limit):
    """A number outside of 1 to a limit."""
    return rng.choice([0, limit + 1, 2**32 + 1, LARGEST, rng.randint(limit + 1, LARGEST)])


def all_beyond(rng, limit):
    return {name: beyond(rng, most) for name, most in limit.items()}


def any_number(rng, limit):
    """A number of chance: mostly within its limit, or at it, or outside, or within it in fewer bits."""
    inside = rng.randint(1, limit)
    return rng.choice([*[inside] * 6, limit, beyond(rng, limit), 2**rng.choice([8, 16, 31, 32, 63]) + inside])


def refused_remainders(rng, row, outside):
    """An input that breaks this row and the next one, with numbers that every file has; or outside, this row and some
    later ones, with numbers that no file has."""
    file = broken_file(rng, "remainders", and_later(rng, "remainders", row, not outside))
    return asked(file, **(all_beyond(rng, MOST) if outside else dict.fromkeys(NUMBERS, 1)))


def at_place(rng, name, place):
    """An accepted file with one number at a place and the others within their limits; for n, files whose level is
    decided by little as well."""
    by_little = name == "n" and rng.random() < 0.5
    file = models.build(**models.in_either_version(rng, models.level_edge(rng))) if by_little else any_accepted(rng)
    limit = limits(file)
    return asked(file, **{**within(rng, limit), name: PLACES[place](limit[name])})


def of_model(rng, model):
    """An input that reaches one of MODELS: drawn until it does."""
    while True:
        given = remainders_of(rng, models.build(**models.in_either_version(rng, MODELS[model](rng))))
        if model in remainders_ends(given, outcome(calculator, "remainders", given)):
            return given


def outside_remainders(rng):
    """An accepted file with all three numbers outside."""
    file = any_accepted(rng)
    return asked(file, **all_beyond(rng, limits(file)))


def given_remainders(rng):
    """An accepted file, mostly one that leaves rests nearly everywhere, with numbers within their limits."""
    fields = rng.choice([near_largest, models.large_primes, rng.choice(models.SMALL_KINDS)])(rng)
    return remainders_of(rng, models.build(**models.in_either_version(rng, fields)))


def remainders_of(rng, file):
    """A file with numbers within its limits."""
    return asked(file, **within(rng, limits(file)))


def any_remainders(rng):
    file = any_file(rng)
    return asked(file, **{name: any_number(rng, limit) for name, limit in limits(file).items()})


# --- Inputs of practice ---------------------------------------------------------------------------------

SIZES = dict(states=64, highest=8)      # the limits of M and R
SEEDS = {"seed-0": 0, "seed-1": 1, "seed-2-31": 2**31, "seed-largest": MAX_WORD}

# Draws at their ends: which one, and what it is. The first gives the time, the second the first reward, and with two
# states the third the other reward and the fourth a rate.
DRAWS = {
    "time-least": (1, 0),
    "time-1-last": (1, 4095),
    "time-2-first": (1, 4096),
    "time-largest": (1, 65_535),
    "first-reward-least": (2, 0),
    "first-reward-largest": (2, 65_535),
    "third-draw-largest": (3, 65_535),
    "fourth-draw-largest": (4, 65_535),
}


def seed_before(x, steps):
    """The seed number whose stream is x after so many steps."""
    for _ in range(steps):
        x = (x - calculator.INCREMENT) * pow(calculator.MULTIPLIER, -1, 2**32) % 2**32
    return x


def seed_drawing(step, draw, low=0):
    """A seed number with this draw at this step; `low` are the lower 16 bits of the stream there."""
    return seed_before(draw << 16 | low, step)


def any_seed(rng):
    """A seed number of chance, or one with draws at an end."""
    return rng.choice([rng.choice([*SEEDS.values()]), rng.getrandbits(32), models.log_uniform(rng, 1, MAX_WORD),
                       seed_drawing(*rng.choice([*DRAWS.values()]), rng.getrandbits(16))])


def dealt_length(states):
    """The bytes of a practice file; of states past their limit those of one too many."""
    return 4 * min(states, SIZES["states"] + 1)**2 + 13


def practice_of(rng, **numbers):
    """An input that is accepted but for these numbers, with just the bytes that the file takes; few states more often
    than many."""
    given = {**within(rng, SIZES), "states": models.log_uniform(rng, 1, SIZES["states"]), "seed": any_seed(rng),
             **numbers}
    return dict(given, out=dealt_length(given["states"]))


def aimed_practice(rng, row, next_too=False):
    """An input that breaks this row and some that come after it; row 0: none."""
    rows = and_later(rng, "practice", row, next_too)
    given = practice_of(rng, **{name: beyond(rng, limit) for number, (name, limit) in enumerate(SIZES.items(), 4)
                                if number in rows})
    return dict(given, out=room(rng, given["out"], 13 in rows))


def any_practice(rng):
    given = practice_of(rng, **{name: any_number(rng, limit) for name, limit in SIZES.items()})
    return dict(given, out=room(rng, given["out"], rng.random() < 0.3))


def practice_at(rng, name, place):
    """An input with states or highest at a place, the other within its limit."""
    return practice_of(rng, **{name: PLACES[place](SIZES[name])})


def practice_seed(rng, end):
    """An accepted input with a seed number at an end; two states at least, where it is by its draws."""
    if end in SEEDS:
        return practice_of(rng, seed=SEEDS[end])
    return practice_of(rng, seed=seed_drawing(*DRAWS[end], rng.getrandbits(16)), states=rng.randint(2, 6))


def practice_room(rng, end):
    """An input with a count of bytes at an end."""
    given = practice_of(rng)
    name, enough, other = rooms("practice", given)
    return {**given, name: ROOM_ENDS[end](enough, other)}


def practice_ends(given, result):
    """The ends that an input of practice reaches: states or highest at a place has the other within its limit; those of
    its seed number, where a file is dealt; those of its count, where nothing is outside."""
    outside, places = places_reached(given, SIZES)
    if outside:
        return places
    first = list(islice(calculator.draws(given["seed"]), 4))
    seeds = [end for end, seed in SEEDS.items() if given["seed"] == seed]
    seeds += [end for end, (step, draw) in DRAWS.items() if first[step - 1] == draw]
    return [*places, *room_ends("practice", given), *(seeds if row_of(result[0]) == 0 else [])]


# --- Ends of versions, starting weights and counts -------------------------------------------------------

# What may hold of starting weights that sum to 1,000,000, and the kind of models.STARTS that is drawn for it.
START_ENDS = {
    "start-on-first": ("on-first", lambda weights: weights[0] == models.ALL_WEIGHT),
    "start-on-last": ("on-last", lambda weights: weights[-1] == models.ALL_WEIGHT and len(weights) > 1),
    "start-nearly-on-one": ("nearly-on-one", lambda weights: max(weights) == models.ALL_WEIGHT - 1),
    "start-with-zeros": ("with-zeros", lambda weights: 0 in weights and max(weights) < models.ALL_WEIGHT),
    "start-even": ("even", lambda weights: len(weights) > 1 and max(weights) - min(weights) < 2),
    "start-uneven": ("uneven", lambda weights: 0 < min(weights) < max(weights) - 1),
}

# The same of weights that do not, and the kind of models.WRONG_SUMS.
SUM_ENDS = {
    "sum-0": ("0", lambda weights: sum(weights) == 0),
    "sum-999999": ("999999", lambda weights: sum(weights) == 999_999),
    "sum-1000001": ("1000001", lambda weights: sum(weights) == 1_000_001),
    "sum-right-in-32-bits": ("right-in-32-bits", lambda weights: sum(weights) % 2**32 == models.ALL_WEIGHT),
    "sum-right-without-first": ("right-without-first", lambda weights: sum(weights[1:]) == models.ALL_WEIGHT),
    "sum-right-without-last": ("right-without-last", lambda weights: sum(weights[:-1]) == models.ALL_WEIGHT),
    "64-largest-words": ("largest-words", lambda weights: weights == [MAX_WORD] * 64),
}

# Counts of what a call writes, by how much is enough, and another count: for cells of version 2 those of the moments
# alone, for a moved file the bytes of the file itself, for a practice file those that its length counts.
ROOM_ENDS = {
    "room-none": lambda enough, other: 0,
    "room-one-less": lambda enough, other: enough - 1,
    "room-just-enough": lambda enough, other: enough,
    "room-three-more": lambda enough, other: enough + 3,
    "room-other": lambda enough, other: other,
}


def weights_of(file):
    return calculator.read_starts(file, file[3])


def rooms(call, given):
    """The parameter with the count of what is written, how much is enough, and the other count of ROOM_ENDS."""
    if call == "practice":
        enough = dealt_length(given["states"])
        return "out", enough, enough - 2
    file = given["file"]
    if call in ("to_version_2", "to_version_1"):
        return "out", moved_length(call, file), len(file)
    times = len(given.get("times", [1]))
    return "cells", times * need(file), times * file[3] * file[4]


def room_ends(call, given):
    """Which of ROOM_ENDS an input reaches whose file is not refused; of cells in version 2 alone."""
    if call == "remainders":
        return []
    name, enough, other = rooms(call, given)
    if (name == "cells" and given["file"][2] == 1) or given.get("levels", LARGEST) < len(given.get("times", [])):
        return []
    return [end for end, count in ROOM_ENDS.items() if given[name] == count(enough, other)]


def file_ends(call, given, result):
    """The ends that an input reaches by its file's version and starting weights, and by its counts."""
    file, row = given["file"], row_of(result[0])
    if row == 3:
        return [f"version-{file[2]}-refused"]
    if row == 6:
        other = file[2] in VERSIONS[call] and len(file) - 2 == calculator.right_length(3 - file[2], file[3])
        return [f"version-{file[2]}-other-length"] if other else []
    if row == 16:
        return [end for end, (_, holds) in SUM_ENDS.items() if holds(weights_of(file))]
    if row == 13:
        return room_ends(call, given)
    if row not in (0, 17):
        return []
    starts = [end for end, (_, holds) in START_ENDS.items() if file[2] == 2 and holds(weights_of(file))]
    if row == 17:
        return starts
    sizes = [end for end, M in (("1-state", 1), ("64-states", 64)) if file[3] == M]
    return [f"version-{file[2]}", *starts, *sizes, *room_ends(call, given)]


def drawn_files(call):
    """What files of a call are drawn for beside its rows: {end: a function of rng that gives the file's bytes}."""
    versions = VERSIONS[call]
    makes = {f"version-{version}-refused": models.changed(base_fields, version=version) for version in (0, 3, 255)}
    for version in versions:
        fields = partial(base_fields, versions=(version,))
        makes[f"version-{version}"] = models.changed(fields)
        makes[f"version-{version}-other-length"] = models.bytewise(models.other_length, fields)
    if 2 in versions:
        for ends, kinds in ((SUM_ENDS, models.WRONG_SUMS), (START_ENDS, models.STARTS)):
            makes.update((end, models.starting(kinds[kind], base_fields)) for end, (kind, _) in ends.items())
        makes["64-largest-words"] = models.starting(models.WRONG_SUMS["largest-words"], models.states_64)
    if len(versions) == 1:
        makes[f"version-{3 - versions[0]}-refused"] = models.changed(partial(base_fields, versions=other_version(call)))
        for end, base in (("1-state", models.single), ("64-states", models.states_64)):
            makes[end] = models.changed(lambda rng, base=base: in_one_of(rng, versions, base(rng)))
    return makes


def of_file(rng, make, around):
    """An input around a file."""
    return around(rng, make(rng))


def of_room(rng, call, end, around):
    """An input around an accepted file, of version 2 where it can be, with a count at an end."""
    given = around(rng, models.build(**base_fields(rng, VERSIONS[call][-1:])))
    name, enough, other = rooms(call, given)
    return {**given, name: ROOM_ENDS[end](enough, other)}


def reaching(rng, call, end, make):
    """An input that reaches an end: drawn until it does."""
    while True:
        given = make(rng)
        if end in file_ends(call, given, outcome(calculator, call, given)):
            return given


def file_aims(call, around):
    """(end, a function of rng) for each end of a call's files."""
    return [(end, partial(reaching, call=call, end=end, make=partial(of_file, make=make, around=around)))
            for end, make in drawn_files(call).items()]


def room_aims(call, around):
    """The same for its counts."""
    return [(end, partial(of_room, call=call, end=end, around=around)) for end in ROOM_ENDS]


# --- A mix ---------------------------------------------------------------------------------------------

def aims(call, aimed, by_chance, ends):
    """Inputs of each row with later ones, and with the next one, accepted inputs, those of each end, and inputs of
    chance."""
    return ([(f"{word}row-{row:02d}", partial(aimed, row=row, next_too=bool(word)))
             for word in ("", "next-") for row in ROWS[call]],
            [("accepted", partial(aimed, row=0))],
            ends,
            [("by-chance", by_chance)])


def reading_aims(call, aimed, by_chance, around):
    """Those of a call that reads a file: ends of its files and counts."""
    return aims(call, aimed, by_chance, file_aims(call, around) + room_aims(call, around))


def moving_aims(call):
    return reading_aims(call, *(partial(each, call=call) for each in (aimed_move, any_move, move_of)))


# What the inputs of a call are aimed at, in parts: (name, a function of rng).
AIMS = {
    "calculate": reading_aims("calculate", aimed_calculate, any_calculate, calculate_of),
    "series": reading_aims("series", aimed_series, any_series, series_of),
    "remainders": (
        [(f"{word}row-{row:02d}", partial(refused_remainders, row=row, outside=bool(word)))
         for word in ("", "outside-") for row in ROWS["remainders"]],
        [*((f"{name}-{place}", partial(at_place, name=name, place=place)) for name in NUMBERS for place in PLACES),
         *((model, partial(of_model, model=model)) for model in MODELS),
         ("outside", outside_remainders)],
        [("given", given_remainders), ("by-chance", any_remainders)],
        [(f"file-{end}", make) for end, make in file_aims("remainders", remainders_of)]),
    "to_version_2": moving_aims("to_version_2"),
    "to_version_1": moving_aims("to_version_1"),
    "practice": aims("practice", aimed_practice, any_practice, [
        *((f"{name}-{place}", partial(practice_at, name=name, place=place)) for name in SIZES for place in PLACES),
        *((end, partial(practice_seed, end=end)) for end in (*SEEDS, *DRAWS)),
        *((end, partial(practice_room, end=end)) for end in ROOM_ENDS)]),
}

# What a run has to reach beside the rows of a call's table; of remainders, that of its numbers and models alone.
ENDS = {call: [name for part in parts for name, _ in part
               if name not in ("accepted", "by-chance") and not name.startswith(("row-", "next-row-", "file-"))]
        for call, parts in AIMS.items()}
ENDS["remainders"].insert(0, "none")


def enough(call):
    """How many inputs of a call meet all its aims: each of a part is met in its turn."""
    return len(AIMS[call]) * max(map(len, AIMS[call]))


def cost(given):
    """About the work of the reference for an input: the multiplications of its vectors, up to n where it has one; none
    for a file that is moved or dealt."""
    if "out" in given:
        return 0
    file = given["file"]
    longest = longest_time(file)
    if calculator.refusal(file, calculator.LENT_CELLS) not in (0, 12):
        return 0
    T = max(given.get("times", [own_time(file)]), default=0)
    q = calculator.read_model(file).E * min(T, longest) // 10**6
    return min(q + 100, given.get("n", LARGEST)) * file[3]**2 * file[4]


def mixed(call, seed, count):
    """Inputs of the parts in turn, and of each part in its turn."""
    rng = random.Random(f"{call} {seed}")
    for index in range(count):
        turn, place = divmod(index, len(AIMS[call]))
        part = AIMS[call][place]
        name, make = part[turn % len(part)]
        given = make(rng)
        while cost(given) > CHEAP:
            given = make(rng)
        yield Input(f"{index:05d}-{name}", call, given)


def mixed_with_large(call, large, long, seed, count):
    """Of every 150 inputs one has 64 states, and one a long run."""
    others = {51: ("long-run", long), 100: ("64-states", large)}
    for index, each in enumerate(mixed(call, seed, count)):
        if index % 150 in others:
            name, make = others[index % 150]
            each = Input(f"{index:05d}-{name}", call, make(random.Random(f"large {seed} {index}")))
        yield each


def calculate_inputs(seed, count):
    return mixed_with_large("calculate", large_calculate, long_calculate, seed, count)


def series_inputs(seed, count):
    return mixed_with_large("series", large_series, long_series, seed, count)


def remainders_inputs(seed, count):
    return mixed("remainders", seed, count)


def to_version_2_inputs(seed, count):
    return mixed("to_version_2", seed, count)


def to_version_1_inputs(seed, count):
    return mixed("to_version_1", seed, count)


def practice_inputs(seed, count):
    return mixed("practice", seed, count)


GENERATED = {"calculate": calculate_inputs, "series": series_inputs, "remainders": remainders_inputs,
             "to_version_2": to_version_2_inputs, "to_version_1": to_version_1_inputs, "practice": practice_inputs}


# --- How often each row and each end is reached ---------------------------------------------------------

def reached(call, given, result):
    """What an input with this result reaches: the row that its answer tells, or 0, and ends of its call."""
    own = {"remainders": remainders_ends, "practice": practice_ends}
    ends = own[call](given, result) if call in own else file_ends(call, given, result)
    return [row_of(result[0]), *(end for end in ends if end in ENDS[call])]


def tally(call, all_reached):
    """{row or end: how often}, rows in the order of the call's table, accepted ones as row 0, then ends; what is never
    reached is 0."""
    counts = Counter(all_reached)
    return {each: counts[each] for each in [0, *ROWS[call], *ENDS[call]]}


def tally_words(call, counts):
    """The counts in a line, as: accepted 12; refused 1: 3, 2: 5; 39 ends, each at least 2 times."""
    refused = ", ".join(f"{row}: {counts[row]}" for row in ROWS[call])
    least = min((counts[end] for end in ENDS[call]), default=0)
    ends = f"; {len(ENDS[call])} ends, each at least {least} times" if ENDS[call] else ""
    return f"accepted {counts[0]}; refused {refused}{ends}"
