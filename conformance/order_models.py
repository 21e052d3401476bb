"""Generated accepted files for order.py, each with one reward to raise: models from the whole range of document 01 with
S-5 of document 02, and some in which the figures are a few ticks from 0, from 1 or from each other. This folder alone
is enough."""

import random
from collections import namedtuple

from parts import (MAX_REWARD, MAX_ROW_SUM, MAX_TOLERANCE, MAX_X, build, fields_for, in_either_version, log_uniform,
                   random_rates, random_rewards, random_time, repair_shop_parts, split, valid)

# name: what the file is there for. first: its bytes. state: whose reward is raised, from 1. raised: (reward, bytes)
# with that reward, none below the one before, from the file's own to its largest.
Try = namedtuple("Try", "name first state raised")


# --- Parts -----------------------------------------------------------------------------------------

def moments(rng):
    """R, mostly 3 or more."""
    return rng.choice([1, 2, 3, 3, 4, 5, 6, 7, 8, 8, 8])


def short_time(rng, E, most=20_000_000):
    """A time with E * T up to a limit below that of row 12."""
    return log_uniform(rng, 1, max(1, most // E))


def few(rng, rewards, absorbing=0.1, E=None, T=None, eps=None):
    """As many states as rewards, any rates."""
    E = E or log_uniform(rng, 1, MAX_ROW_SUM)
    fields = fields_for(rng, len(rewards), E, T or short_time(rng, E), moments(rng), eps, rewards)
    fields["rates"] = random_rates(rng, len(rewards), E, rng.choice([0.3, 1.0]), absorbing)
    return fields


def any_rewards(rng, M, top=None):
    """Rewards from 0 to their largest, which is in one state or in several."""
    return random_rewards(rng, M, top or log_uniform(rng, 1, MAX_REWARD))


# --- Kinds: functions of rng that give the fields of an accepted file --------------------------------

def one_state(rng):
    return few(rng, [rng.choice([1, 5, MAX_REWARD])], E=1, T=random_time(rng, 1))


def two_or_three_states(rng):
    return few(rng, any_rewards(rng, rng.randint(2, 3)))


def up_to_8_states(rng):
    return few(rng, any_rewards(rng, rng.randint(4, 8)))


def absorbing_states(rng):
    return few(rng, any_rewards(rng, rng.randint(2, 6)), absorbing=0.7)


def no_rates(rng):
    M = rng.randint(1, 6)
    return valid(M, moments(rng), rng.choice([1, MAX_TOLERANCE]), random_time(rng, 1), any_rewards(rng, M),
                 [[0] * (M - 1) for _ in range(M)])


def small_rewards(rng):
    return few(rng, any_rewards(rng, rng.randint(2, 5), rng.randint(1, 10)))


def one_reward_above_0(rng):
    rewards = [0] * rng.randint(2, 6)
    rewards[rng.randrange(len(rewards))] = rng.choice([1, 2, MAX_REWARD])
    return few(rng, rewards)


def equal_rewards(rng):
    """All equal, or all but one."""
    top = rng.choice([1, 2, MAX_REWARD, rng.randint(1, MAX_REWARD)])
    rewards = [top] * rng.randint(2, 6)
    if rng.random() < 0.7:
        rewards[rng.randrange(len(rewards))] = rng.choice([0, top - 1, rng.randint(0, top)])
    return few(rng, rewards)


def rewards_one_apart(rng):
    """Next to the limit of row 9."""
    rewards = [MAX_REWARD - rng.choice([0, 1, 1, 2]) for _ in range(rng.randint(2, 5))]
    return few(rng, rewards)


def some_jumps(rng):
    """q from 1 to 60."""
    X = log_uniform(rng, 1_000_000, 60_000_000)
    T = rng.randint(-(-X // MAX_ROW_SUM), 60)
    return few(rng, any_rewards(rng, rng.randint(2, 6)), E=X // T, T=T)


def largest_rates(rng):
    """E at the limit of row 11, in most files by one rate; T up to the largest for it."""
    T = rng.choice([1, 25, rng.randint(2, 24)])
    return few(rng, any_rewards(rng, rng.randint(2, 3)), E=MAX_ROW_SUM, T=T)


def longest(rng):
    """E * T at its limit, up to the largest time: the level is above 300."""
    T = rng.choice([32, 40, 256, 256_000, MAX_X])
    return few(rng, any_rewards(rng, rng.randint(2, 3)), E=MAX_X // T, T=T)


def shortest(rng):
    """E * T of a few millionths."""
    return few(rng, any_rewards(rng, rng.randint(2, 5)), E=rng.randint(1, 9), T=rng.randint(1, 3))


def tolerance_smallest(rng):
    return few(rng, any_rewards(rng, rng.randint(2, 5)), eps=1)


def tolerance_largest(rng):
    return few(rng, any_rewards(rng, rng.randint(2, 5)), eps=MAX_TOLERANCE)


def repair_shop(rng):
    """Units with one repair crew; the reward is the number of working units."""
    M = rng.randint(2, 7)
    rewards, rates = repair_shop_parts(rng, M)
    E = max(map(sum, rates))
    return valid(M, moments(rng), rng.choice([1, 10_000, MAX_TOLERANCE]), short_time(rng, E), rewards, rates)


def many_states(rng):
    """Up to 64 states, few jumps."""
    M, E = rng.choice([63, 64, rng.randint(9, 40)]), log_uniform(rng, 1, MAX_ROW_SUM)
    fields = few(rng, any_rewards(rng, M), E=E, T=short_time(rng, E, 200_000), eps=MAX_TOLERANCE)
    return dict(fields, R=rng.choice([2, 3, 4, 8]))


# Kinds in which neighbours are equal or a tick apart: figures of a few ticks, or 1 less a few.

def rarely_left(rng, rewards):
    """States that are left by a few millionths of a jump."""
    M = len(rewards)
    rates = [split(rng, rng.choice([0, 1, 1, 2, 3, 20]), M - 1) for _ in range(M)]
    return valid(M, rng.choice([4, 8]), rng.choice([1, MAX_TOLERANCE]), rng.choice([1, 1, 1, 2]), rewards, rates)


def large_top(rng):
    """A largest reward of which a millionth is about a tick; mostly the limit, where shares have no rest."""
    return rng.choice([MAX_REWARD, MAX_REWARD, rng.randint(950_000, MAX_REWARD)])


def ticks_below_1(rng):
    top = large_top(rng)
    return rarely_left(rng, [top, *(top - rng.choice([0, 1, 1, 1, 2]) for _ in range(rng.randint(1, 3)))])


def half_ticks_below_1(rng):
    """State 1 is left at rate 1 for a reward that is one less: half a tick from one r to the next."""
    top = large_top(rng)
    others = [top - 1, *(top - rng.choice([0, 1]) for _ in range(rng.randint(0, 2)))]
    rates = [split(rng, rng.choice([1, 1, 2]), len(others)) for _ in range(len(others) + 1)]
    return valid(len(others) + 1, 8, rng.choice([1, MAX_TOLERANCE]), 1, [top, *others], rates)


def ticks_above_0(rng):
    top = large_top(rng)
    return rarely_left(rng, [0, *(rng.choice([0, 1, 1, 2, 5]) for _ in range(rng.randint(1, 3))), top])


def ticks_in_high_moments(rng):
    """(f / F)^r of a few ticks for r of 3 to 8."""
    r = rng.randint(3, 8)
    near = int(MAX_REWARD * 10**(-12 / r))
    return rarely_left(rng, [rng.randint(near // 2, 2 * near), rng.choice([0, 1, near]), MAX_REWARD])


def ticks_apart_by_start(rng):
    """Version 2: the start figures are ticks apart, by a millionth of weight on the state whose figures differ."""
    top = large_top(rng)
    fields = rarely_left(rng, [rng.choice([0, top]), rng.choice([0, top]), rng.choice([1, 2, top - 2, top - 1]), top])
    rare = rng.randint(1, 3)
    common = rng.randint(0, 1_000_000 - rare)
    return dict(fields, version=2, weights=[common, 1_000_000 - rare - common, rare, 0])


def half_ticks(rng):
    """Round rates and rewards up to 10: last divisions at a half."""
    E = 10_000 * rng.randint(1, 100)
    top = rng.randint(1, 10)
    return valid(2, moments(rng), 10**rng.randint(5, 8), 1, rng.sample([top, rng.randint(0, top)], 2),
                 rng.sample([[E], [E * rng.randint(0, 10) // 10]], 2))


KINDS = [two_or_three_states, ticks_below_1, small_rewards, ticks_above_0, up_to_8_states, ticks_in_high_moments,
         absorbing_states, half_ticks_below_1, ticks_apart_by_start, no_rates, half_ticks, some_jumps,
         one_reward_above_0, equal_rewards, one_state, rewards_one_apart, half_ticks_below_1, longest, shortest,
         ticks_above_0, tolerance_smallest, tolerance_largest, ticks_apart_by_start, repair_shop, half_ticks_below_1,
         many_states, largest_rates]


# --- Files with a reward to raise ------------------------------------------------------------------------

def with_reward(fields, place, reward):
    """The file with another reward for one state, counted from 0."""
    rewards = list(fields["rewards"])
    rewards[place] = reward
    return build(**dict(fields, rewards=rewards))


def place_to_raise(rng, rewards):
    """A state below the largest reward where there is one; now and then any."""
    below = [place for place, reward in enumerate(rewards) if reward < max(rewards)]
    return rng.choice(below) if below and rng.random() < 0.9 else rng.randrange(len(rewards))


def raised_rewards(rng, old, largest):
    """The reward itself, one more, one between and the largest, as far as there are such."""
    return sorted({old, min(old + 1, largest), rng.randint(old, largest), largest})


def tries(seed, count):
    """`count` accepted files, each with one reward raised in steps; the same ones for the same seed."""
    rng = random.Random(f"order {seed}")
    for index in range(count):
        kind = KINDS[index % len(KINDS)]
        fields = kind(rng)
        if fields["version"] == 1:
            fields = in_either_version(rng, fields)
        rewards = fields["rewards"]
        place = place_to_raise(rng, rewards)
        raised = [(reward, with_reward(fields, place, reward))
                  for reward in raised_rewards(rng, rewards[place], max(rewards))]
        yield Try(f"{index:05d}-{kind.__name__.replace('_', '-')}", build(**fields), place + 1, raised)
