"""Models with few arrows, by name. A row mean that goes through a list of arrows (document 02, S-7) has to add those
that the file has, each once, and the diagonal.

States are counted from 1 here; an arrow is a pair of them with its rate, {(i, j): rate}.
"""

import models


def model(M, arrows, T=1, R=2, weights=()):
    """A model with these arrows alone, every reward another, with a level that is quick."""
    rates = [[arrows.get((i, j), 0) for j in range(1, M + 1) if j != i] for i in range(1, M + 1)]
    return models.build(2 if weights else 1, M, R, 1_000_000, T, [k * 617_051 % 999_983 for k in range(1, M + 1)],
                        rates, weights)


def rated(pairs):
    """Arrows between these pairs of states, every rate another."""
    return {(i, j): 100_003 + (7_919 * i + 104_729 * j) % 400_009 for i, j in pairs}


def several_units(units):
    """Units that fail and are repaired one by one: bit k of a state's number less 1 tells whether unit k is down."""
    states = range(2**units)
    return {(state + 1, (state ^ 1 << k) + 1): (200_003 if state >> k & 1 else 1_009) + 10_007 * k
            for state in states for k in range(units)}


def one_crew(M):
    """M - 1 equal units with one repair crew, state i having i - 1 of them down."""
    return {**{(i, i + 1): (M - i) * 10_007 for i in range(1, M)}, **{(i, i - 1): 300_007 for i in range(2, M + 1)}}


def star(M, hub, step):
    """A state with an arrow to every other one, and one back from each, its rate rising by `step`."""
    others = [j for j in range(1, M + 1) if j != hub]
    return {**{(hub, j): 10_007 + 101 * j for j in others}, **{(j, hub): 200_003 + step * j for j in others}}


def counted(M, counts):
    """So many arrows of each state, to states all over the range; for an even M."""
    return {(i, (i - 1 + 13 * k) % M + 1): 5_003 + (7_919 * i + 1_009 * k) % 20_011
            for i, count in enumerate(counts, 1) for k in range(1, count + 1)}


def files():
    """(name, model): arrows to some states alone, of some states alone, rates at an end, rings, stars, units."""
    five = range(1, 6)
    every = [(i, j) for i in five for j in five if i != j]
    some = [(i, j) for i, j in every if (i + 2 * j) % 5 in (0, 1, 4)]
    for name, pairs in (("higher-alone", [(i, j) for i, j in every if i < j]),
                        ("lower-alone", [(i, j) for i, j in every if i > j]),
                        ("to-first-alone", [(i, 1) for i in five if i > 1]),
                        ("to-last-alone", [(i, 5) for i in five if i < 5]),
                        ("of-first-alone", [(1, j) for j in five if j > 1]),
                        ("of-last-alone", [(5, j) for j in five if j < 5]),
                        ("to-both-ends", [(i, j) for i, j in every if j in (1, 5)]),
                        ("next-rising", [(i, i + 1) for i in five if i < 5] + [(5, 1)]),
                        ("next-falling", [(i, i - 1) for i in five if i > 1] + [(1, 5)])):
        yield f"arrows-{name}", model(5, rated(pairs))
    for state, name in ((1, "first"), (3, "middle"), (5, "last")):
        yield f"arrows-none-of-{name}", model(5, rated((i, j) for i, j in some if i != state))
        yield f"arrows-all-of-{name}", model(5, {**rated(some), **rated((i, j) for i, j in every if i == state)})
        yield f"arrows-diagonal-0-of-{name}", model(5, {
            (i, j): rate * 4 if i == state else rate for (i, j), rate in rated(some).items()})
    yield "arrows-equal-rates", model(5, {pair: 250_000 for pair in every})
    yield "arrows-equal-rates-apart", model(5, {(i, j): 400_000 for i, j in some})
    spread = every[::3]
    for name, rates in (("rates-1", [1, 1_999_993, 1, 1, 2_999_999, 1, 1_999_993]),
                        ("rates-1-of-first", [1, 1, 2_000_003, 999_983, 1_500_007, 700_001, 800_011]),
                        ("rates-1-of-last", [2_000_003, 999_983, 1_500_007, 3_000_017, 700_001, 800_011, 1]),
                        ("rates-256", [256, 512, 257, 524_800, 256, 512, 257]),
                        ("rates-65536", [65_536, 131_072, 1_310_720, 65_537, 720_896, 65_536, 131_072]),
                        ("rates-largest", [1, 8_388_608, 9_999_999, 9_000_000, 1, 8_388_608, 10_000_000])):
        yield f"arrows-{name}", model(5, dict(zip(spread, rates)))
    for M, word in ((33, "rising"), (33, "falling"), (64, "rising")):
        turn = 1 if word == "rising" else -1
        yield f"arrows-ring-{M}-{word}", model(M, rated((i, (i - 1 + turn) % M + 1) for i in range(1, M + 1)), R=1)
    for hub, step in ((1, 1_009), (33, 12_007), (64, 12_007)):      # the diagonal of the first is 0
        yield f"arrows-star-64-at-{hub}", model(64, star(64, hub, step), R=1)
    yield "arrows-counts-0-to-63", model(64, counted(64, range(64)), R=1)
    yield "arrows-counts-63-to-0", model(64, counted(64, range(63, -1, -1)), R=1)
    yield "arrows-units-64-states", model(64, several_units(6))
    yield "arrows-one-crew-64-states", model(64, one_crew(64))
    yield "arrows-start", model(5, rated(some), weights=models.on_one(5, 2))
    yield "arrows-start-64-states", model(64, several_units(6), T=2, weights=models.even(None, 64))
