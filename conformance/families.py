"""Families of small accepted models for search.py, in which a rounding or a border may decide the sheet.

A family is a function of a try's number and of the search's options (seed, within, least, off, quotient,
wrong_weights); it gives rows of edges.py with a model, for the level's families also with a name and with what
holds of t. The same number always gives the same rows.
"""

import math
import random

import calculator
import models
from calculator import BILLION, MILLION, ONE
from edges import Edge, Level
from models import MAX_ROW_SUM, MAX_TOLERANCE, MAX_X

BLOCK = 1_000          # X in a block
FORETOLD = 2e-7        # how far a foretold tolerance may be off, by the rounding of the weights
AIMS = 300             # draws of rates and rewards for each A that a try aims at
NEAR_FORETOLD = 50     # ticks by which a foretold inflow may be off
FIRST_REWARDS = 300    # of the first absorbing state, tried for an inflow


# --- Level: t and its bound ------------------------------------------------------------------------

def level_row(X, n, epsilon, miss):
    """The two-state model that tries the level for X and a tolerance."""
    E, T = models.factors(X)
    return Edge(f"level-edge-{X:09d}-at-{n}", "", [Level(n, miss)], 1, epsilon, T, [1, 0], [[E], [E // 2]])


def miss_at(X, n, epsilon):
    """t less its bound, at n."""
    w = calculator.weights(X, n)
    return calculator.tail(w, X, n) - sum(w) * epsilon // BILLION


def tails(X, least):
    """(n, t, S(n)) for each n from q on, to the first for which a tolerance of `least` is enough."""
    m = X // MILLION
    w = calculator.weights(X, m + 14 + (6 if least < MILLION else 3) * int(m**0.5))
    first = -(-X // MILLION)
    S = sum(w[:first])
    for n in range(first, len(w)):
        S += w[n]
        t = calculator.tail(w, X, n)
        yield n, t, S
        if t * BILLION <= S * least:
            return


def level_edges(X, options):
    """For one X and every n: the tolerances next to t * 10^9 / S(n), where t is within reach of its bound."""
    reach = options.within * BILLION
    for n, t, S in tails(X, options.least) if X <= MAX_X else ():
        epsilon, rest = divmod(t * BILLION, S)      # S * epsilon / 10^9 is t - rest / 10^9
        if epsilon < MAX_TOLERANCE and (rest <= reach or S - rest < reach + BILLION):
            for tolerance in (epsilon, epsilon + 1):
                miss = t - S * tolerance // BILLION
                if tolerance >= options.least and abs(miss) <= options.within:
                    yield level_row(X, n, tolerance, miss)


def differences(values):
    """The first of the values, of their differences, of the differences of these, and so on."""
    result = []
    while values:
        result.append(values[0])
        values = [b - a for a, b in zip(values, values[1:])]
    return result


def newton(D, s):
    """At s, the polynomial that has the differences D at 0, 1, 2, 3, 4."""
    return D[0] + s * (D[1] + (s - 1) / 2 * (D[2] + (s - 2) / 3 * (D[3] + (s - 3) / 4 * D[4])))


def level_blocks(k, options):
    """The X from 1,000 k to 1,000 k + 999, for q of 1 or more. Over so few X the tolerance t * 10^9 / S(n) is
    smooth: five of them foretell where it comes near a whole number, and only there t is worked out."""
    first = BLOCK * k
    if not MILLION <= first <= MAX_X - BLOCK:
        return
    nodes = [{n: (t * BILLION << 60) // S for n, t, S in tails(first + BLOCK * j // 4, options.least)}
             for j in range(5)]
    near = FORETOLD + (options.within + 1) * BILLION / calculator.TOP_WEIGHT
    hits = set()
    for n in set.intersection(*map(set, nodes)):
        whole = nodes[0][n] >> 60 << 60
        if whole >> 60 < MAX_TOLERANCE:
            D = differences([(node[n] - whole) / 2**60 for node in nodes])
            hits.update(d for d in range(BLOCK) if not near < newton(D, 4 * d / BLOCK) % 1 < 1 - near)
    for d in sorted(hits):
        yield from level_edges(first + d, options)


def level_crossings(k, options):
    """For an n and a small tolerance: the last X for which t at n keeps to its bound, and the next one."""
    rng = random.Random(f"crossing {options.seed} {k}")
    n = models.log_uniform(rng, 2, 358)
    epsilon = models.log_uniform(rng, 1, 200)
    low, high = 1, min(n * MILLION, MAX_X)
    if miss_at(low, n, epsilon) > 0 or miss_at(high, n, epsilon) <= 0:
        return
    while high - low > 1:
        middle = (low + high) // 2
        if miss_at(middle, n, epsilon) <= 0:
            low = middle
        else:
            high = middle
    for X in (low, high):
        yield level_row(X, n, epsilon, miss_at(X, n, epsilon))


# --- Two states: roundings that reach the printed digits -----------------------------------------------

def pair(rng, least, most):
    """Two states, eight moments, any rates, X between two limits: every division leaves something."""
    X = models.log_uniform(rng, least, most)
    T = rng.randint(-(-X // MAX_ROW_SUM), 20)
    E = X // T
    F = rng.randint(100_000, 1_000_000)
    rewards = rng.sample([F, rng.randint(0, F)], 2)
    return Edge("", "", [], 8, rng.choice([1, 1_000, 1_000_000, 100_000_000]), T, rewards, [[E], [rng.randint(0, E)]])


def pairs(k, options):
    """Pairs with q from 1 to 20."""
    yield pair(random.Random(f"pair {options.seed} {k}"), 1_000_000, 20_000_000)


def long_pairs(k, options):
    """Pairs with q from 20 to 200."""
    yield pair(random.Random(f"long pair {options.seed} {k}"), 20_000_000, 200_000_000)


def round_numbers(k, options):
    """Two states, few terms and round numbers: quotients that are whole, or half a tick off."""
    rng = random.Random(f"round {options.seed} {k}")
    E = 10_000 * rng.randint(1, 100)
    rewards = rng.sample(range(0, 11), 2)
    yield Edge("", "", [], rng.randint(1, 4), 10**rng.randint(5, 8), 1, rewards, [[E], [E * rng.randint(0, 10) // 10]])


def two_states(k, options):
    """Pairs and round numbers in turn."""
    return (pairs if k % 2 else round_numbers)(k, options)


# --- Five states, aimed at a half -----------------------------------------------------------------------------
# State 1 has its own reward and is left for three absorbing states; a fifth state, never reached, has the largest
# reward and the largest row sum. Their rewards are set so that A of state 1 and r = 1 is a wanted number.

def half_sums(S):
    """{off: (A, step)}: for the sums A, A + step and so on, twice what A 10^12 over S leaves is S + off. The offs are
    those nearest to 0: 0 itself, or else one on each side."""
    common = math.gcd(2 * ONE, 2 * S)
    step = 2 * S // common
    inverse = pow(2 * ONE // common, -1, step)
    short = S % common
    return {off: ((S + off) // common * inverse % step, step) for off in ((-short, common - short) if short else (0,))}


def sum_of_first(w, E, stay, inflow, u):
    """A of state 1 and r = 1, where it stays with rate `stay` and the states it leaves for are absorbing; `inflow`
    is the sum of their rates times their ticks, u its own ticks."""
    x = u
    A = w[0] * u // ONE
    for n in range(1, len(w)):
        x = (n * ((stay * x + inflow) // E) + u) // (n + 1)
        A += w[n] * x // ONE
    return A


def least_inflow(A, sum_for, E, most):
    """The least inflow for which the sum of state 1 is A or more; `most` where A is out of reach. The sum grows
    evenly, so that only inflows near a foretold one are tried."""
    none, all_of_it = sum_for(0), sum_for(most)
    if not none < A <= all_of_it:
        return most
    low = max(0, most * (A - none) // (all_of_it - none) - NEAR_FORETOLD * E)
    high = low + 2 * NEAR_FORETOLD * E
    while high - low > 1:
        middle = (low + high) // 2
        low, high = (low, middle) if sum_for(middle) >= A else (middle, high)
    return high


def rewards_for(low, high, rates, F):
    """Rewards of three absorbing states, each rate much below the one before, for an inflow from low to high, or
    None."""
    most = min(F, low * F // (rates[0] * ONE))
    for first in range(most, max(most - FIRST_REWARDS, -1), -1):
        rest = low - rates[0] * (first * ONE // F)
        second = min(F, rest * F // (rates[1] * ONE))
        rest -= rates[1] * (second * ONE // F)
        third = -(-rest * F // (rates[2] * ONE))
        if third <= F and rest <= rates[2] * (third * ONE // F) <= rest + high - low:
            return [first, second, third]
    return None


def aim(rng, A, w, E):
    """A draw of rates and of the first reward, and the other rewards for which the sum of state 1 is A, or None."""
    F = rng.randint(500_000, 1_000_000)
    own = min(F, int(F * A / sum(w) * rng.uniform(0.5, 1.5)))
    rates = [rng.randint(E // 4, E // 2), 1 + E * rng.randint(1, 9) // 50_000, 1 + E * rng.randint(0, 9) // 5_000_000]
    most = sum(rates) * ONE

    def sum_for(inflow):
        return sum_of_first(w, E, E - sum(rates), inflow, own * ONE // F)

    low = least_inflow(A, sum_for, E, most)
    if sum_for(low) != A:
        return None
    rewards = rewards_for(low, least_inflow(A + 1, sum_for, E, most) - 1, rates, F)
    return ([own, *rewards, F], [rates + [0], [0] * 4, [0] * 4, [0] * 4, [E, 0, 0, 0]]) if rewards else None


def aims(w, options, rng):
    """Sums to aim at: those nearest to a half, or those on both sides of the half behind a given quotient."""
    S = sum(w)
    if options.quotient is not None:
        border = -(-(2 * options.quotient + 1) * S // (2 * ONE))
        return [border - 1, border]
    return [rng.randrange(first, S, step) for off, (first, step) in half_sums(S).items() if options.off in (None, off)]


def aimed_at(rng, options, least, most):
    """For one X between two limits and each sum to aim at: the first draw that meets it."""
    X = models.log_uniform(rng, least, most)
    T = -(-X // MAX_ROW_SUM) + rng.randint(0, 3)
    E = X // T
    epsilon = rng.choice([1, 1_000, 1_000_000, 100_000_000])
    N = calculator.level(E * T, epsilon)
    w = calculator.weights(E * T, N)
    if options.wrong_weights and options.wrong_weights(E * T, N) == w:
        return
    for A in aims(w, options, rng):
        found = next(filter(None, (aim(rng, A, w, E) for _ in range(AIMS))), None)
        if found:
            yield Edge("", "", [], 1, epsilon, T, *found)


def aimed(k, options):
    """q from 0.2 to 13."""
    return aimed_at(random.Random(f"aimed {options.seed} {k}"), options, 200_000, 13_000_000)


def aimed_long(k, options):
    """q from 13 to 250, where S(N) passes 2^53."""
    return aimed_at(random.Random(f"aimed long {options.seed} {k}"), options, 13_000_000, 250_000_000)


# --- Halves by round numbers ------------------------------------------------------------------------------------

def power_of_two(k, options):
    """E T = 48,576 and a wide tolerance: N is 1 and S(N) is 10^9 2^20."""
    rng = random.Random(f"power of two {options.seed} {k}")
    T = rng.choice([T for T in range(1, 12) if 48_576 % T == 0])
    F = rng.randint(1, 1_000)
    rates = [[48_576 // T], [rng.randint(0, 48_576 // T)]]
    yield Edge("", "", [], 8, 100_000_000, T, rng.sample([F, rng.randint(0, F)], 2), rates)


def few_ticks(k, options):
    """A first state with reward 0 or F and, seldom reached from it, one whose reward is next to its own."""
    rng = random.Random(f"few ticks {options.seed} {k}")
    E, F = 1_000 * rng.randint(1, 50), 1_000 * rng.randint(900, 1_000)
    own, other = rng.choice([(0, rng.randint(1, 4)), (F, F - rng.randint(1, 4))])
    yield Edge("", "", [], rng.randint(1, 3), 100_000_000, 1, [own, other, F], [[rng.randint(1, 4), 0], [0, 0], [E, 0]])


FAMILIES = {"level-edges": level_edges, "level-blocks": level_blocks, "level-crossings": level_crossings,
            "pairs": pairs, "long-pairs": long_pairs, "round-numbers": round_numbers, "two-states": two_states,
            "aimed": aimed, "aimed-long": aimed_long, "power-of-two": power_of_two, "few-ticks": few_ticks}
