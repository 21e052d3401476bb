#!/usr/bin/env python3
"""Tests of the reference calculator: python3 reference/test_reference.py"""

import itertools
import math
import os
import random
import subprocess
import sys
import unittest
from fractions import Fraction
from unittest import mock

sys.dont_write_bytecode = True
HERE = os.path.dirname(os.path.abspath(__file__))
sys.path.insert(0, HERE)

import calculator  # noqa: E402
import models  # noqa: E402
import edges  # noqa: E402
import run  # noqa: E402
from calculator import ONE, last_division, outcome, sheet  # noqa: E402

A = bytes.fromhex("00 0F 01 01 01 00 00 27 10 00 00 00 01 00 00 00 05")
B = bytes.fromhex("00 1B 01 02 02 05 F5 E1 00 00 00 00 01 00 00 00 01 00 00 00 00"
                  "00 0F 42 40 00 0F 42 40")
B_SHEET = (b"level 3\n"
           b"1 1 0.718750000000\n"
           b"1 2 0.612500000000\n"
           b"2 1 0.281250000000\n"
           b"2 2 0.175000000000\n")


def put(file, start, size, value):
    """The file with a number of `size` bytes written from byte `start`."""
    return file[:start] + value.to_bytes(size, "big") + file[start + size:]


def starting(file, *weights):
    """A version 1 file as one of version 2 with these starting weights."""
    words = b"".join(weight.to_bytes(4, "big") for weight in weights)
    return models.relength(put(file[:13], 2, 1, 2) + words + file[13:])


# File B in version 2, worked out by hand: 0.25 * 0.71875 + 0.75 * 0.28125, and 0.25 * 0.6125 + 0.75 * 0.175.
B2 = starting(B, 250_000, 750_000)
B2_STARTS = [390625000000, 284375000000]
B2_SHEET = B_SHEET + b"start 1 0.390625000000\nstart 2 0.284375000000\n"

# A small example of each row that a file can break: document 01's, for 3 and 16 those of S-5.
EXAMPLES = {
    1: b"",
    2: A[:-1],
    3: put(A, 2, 1, 3),
    4: put(A, 3, 1, 0),
    5: put(A, 4, 1, 9),
    6: put(A, 3, 1, 2),
    7: put(A, 5, 4, 0),
    8: put(A, 9, 4, 0),
    9: put(A, 13, 4, 1_000_001),
    10: put(A, 13, 4, 0),
    11: put(B, 21, 4, 10_000_001),
    12: put(B, 9, 4, 257),
    16: starting(B, 250_000, 749_999),
}


def expected_row(name):
    """The row a generated name tells, 0 for accepted, None where it is left open."""
    word = name.split("-")[1]
    if word.startswith("refused"):
        return int(word[7:])
    return {"accepted": 0, "valid": 0, "open": None}[word]


def last_divisions(file):
    """(A, S) of the last division of every moment, in the order of the cells."""
    with mock.patch.object(calculator, "last_division", wraps=last_division) as watched:
        sheet(file)
    return [call.args for call in watched.call_args_list]


def sheet_with(rule, file):
    """The sheet of a file, with another rule for the last division."""
    with mock.patch.object(calculator, "last_division", rule):
        return sheet(file)


class HandCheckedFiles(unittest.TestCase):

    def test_A(self):
        cells = [7, 7]
        self.assertEqual(calculator.calculate(A, cells), ("level", 1))
        self.assertEqual(cells, [ONE, 7])
        self.assertEqual(sheet(A), b"level 1\n1 1 1.000000000000\n")

    def test_B(self):
        cells = [7] * 6
        self.assertEqual(calculator.calculate(B, cells), ("level", 3))
        self.assertEqual(cells, [718750000000, 612500000000, 281250000000, 175000000000, 7, 7])

    def test_sheet_of_B(self):
        self.assertEqual(sheet(B), B_SHEET)

    def test_weights_of_B(self):
        self.assertEqual(calculator.weights(1_000_000, 3),
                         [10**15, 10**15, 5 * 10**14, 166666666666666])

    def test_B_at_2_is_not_the_level(self):
        w = calculator.weights(1_000_000, 3)
        self.assertEqual(calculator.tail(w, 1_000_000, 2), 250000000000001)
        self.assertEqual(sum(w[:3]) * 100_000_000 // 10**9, 250000000000000)
        self.assertEqual(calculator.level(1_000_000, 100_000_000), 3)

    def test_vectors_of_B(self):
        U = calculator.reward_vectors(calculator.read_model(B), 3)
        self.assertEqual(U[3][1], [499999999999, 499999999999])
        self.assertEqual(U[2][2], [499999999999, 166666666666])

    def test_refused(self):
        self.assertEqual(outcome(put(B, 13, 8, 0), 520), ("refused", 10))
        self.assertEqual(outcome(put(put(B, 2, 1, 9), 3, 1, 0), 520), ("refused", 3))
        self.assertEqual(outcome(put(B, 9, 4, 257), 520), ("refused", 12))
        self.assertEqual(outcome(put(B, 5, 4, 100_000_001), 520), ("refused", 7))

    def test_accepted(self):
        self.assertEqual(outcome(put(B, 9, 4, 256), 520)[0], "level")
        self.assertEqual(outcome(put(B, 21, 4, 10_000_000), 520)[0], "level")
        self.assertEqual(outcome(put(B, 5, 4, 1), 520)[0], "level")
        self.assertEqual(outcome(B, 4), ("level", 3))


class RefusalTable(unittest.TestCase):

    def test_small_examples(self):
        for row, file in EXAMPLES.items():
            with self.subTest(row=row):
                self.assertEqual(outcome(file, 520), ("refused", row))
                self.assertEqual(sheet(file), b"refused %d\n" % row)
                # Every earlier row counts before row 13.
                self.assertEqual(outcome(file, 0), ("refused", row))

    def test_too_few_cells(self):
        self.assertEqual(outcome(B, 3), ("refused", 13))
        cells = [7, 8, 9]
        self.assertEqual(calculator.calculate(B, cells), ("refused", 13))
        self.assertEqual(cells, [7, 8, 9])
        self.assertEqual(outcome(B, 4), ("level", 3))

    def test_cells_stay_unchanged(self):
        for name, file in models.damaged_models(3, len(models.DAMAGE)):
            cells = list(range(520))
            word, _ = calculator.calculate(file, cells)
            if word == "refused":
                self.assertEqual(cells, list(range(520)), name)

    def test_damage_reaches_its_row(self):
        reached = set()
        for name, file in models.damaged_models(1, 5 * len(models.DAMAGE)):
            row = expected_row(name)
            printed = sheet(file)
            if row:
                self.assertEqual(printed, b"refused %d\n" % row, name)
                reached.add(row)
            elif row == 0:
                self.assertTrue(printed.startswith(b"level "), name)
        self.assertEqual(reached, {*range(1, 13), 16})

    def test_generated_cells(self):
        for name, file, cells in models.few_cells_models(1, 60):
            row = expected_row(name)
            result = outcome(file, cells)
            if row:
                self.assertEqual(result, ("refused", row), name)
            else:
                self.assertEqual(result[0], "level", name)

    def test_valid_models_are_accepted(self):
        for name, file in models.valid_models(1, 300):
            word, N = outcome(file, 520)
            self.assertEqual(word, "level", name)
            self.assertLessEqual(N, 1024, name)

    def test_only_16654_bytes_are_judged(self):
        # In full, 65 states are refused as such; the program reads too few bytes to see them.
        for version in (1, 2):
            full = models.full_size(65, version)
            self.assertEqual(outcome(full, 520), ("refused", 4))
            self.assertEqual(sheet(full), b"refused 2\n")
            self.assertTrue(sheet(models.full_size(64, version)).startswith(b"level "))
        # The largest accepted file is one byte below the reading limit.
        self.assertEqual(len(models.full_size(64, 2)), 16653)
        self.assertEqual(len(models.full_size(64)), 16397)


class WhereHandSolutionsGoWrong(unittest.TestCase):

    def setUp(self):
        self.U = calculator.reward_vectors(calculator.read_model(B), 3)

    def test_vector_is_not_overwritten_state_by_state(self):
        self.assertEqual(self.U[1][1][1], 500000000000)

    def test_W_takes_the_vector_of_the_same_n(self):
        self.assertEqual(self.U[1][2][0], 333333333333)

    def test_divided_by_S_and_not_by_e_to_the_q(self):
        w = calculator.weights(1_000_000, 3)
        self.assertEqual(calculator.moment(w, self.U, 3, 0, 1), 718750000000)
        divided_by_e = 0.71875 * sum(w) / (10**15 * math.e)
        self.assertAlmostEqual(divided_by_e, 0.7051, places=4)

    def test_weights_start_at_m(self):
        X = 256_000_000
        w = calculator.weights(X, 358)
        self.assertEqual(w[256], 10**15)
        self.assertEqual(max(w), 10**15)
        self.assertLess(sum(w), 2**64)
        from_zero = 10**15
        for n in range(256):
            from_zero = from_zero * X // ((n + 1) * 10**6)
        self.assertGreaterEqual(from_zero, 2**64)

    def test_no_diagonal_in_the_file(self):
        model = calculator.read_model(B)
        self.assertEqual(model.c, [[0, 1_000_000], [1_000_000, 0]])
        with_diagonal = models.build(1, 2, 2, 100_000_000, 1, [1, 0], [[0, 1_000_000], [1_000_000, 0]])
        self.assertEqual(outcome(with_diagonal, 520), ("refused", 6))


class Level(unittest.TestCase):

    def test_edges(self):
        for row in edges.LEVEL_ROWS:
            X, (n, miss) = row.rates[0][0] * row.T, row.holds[0]
            w = calculator.weights(X, n)
            self.assertEqual(calculator.tail(w, X, n) - sum(w) * row.epsilon // 10**9, miss, row.name)
            self.assertEqual(calculator.level(X, row.epsilon), n + (miss > 0), row.name)

    def test_heaviest(self):
        self.assertEqual(calculator.level(256_000_000, 1), 358)

    def test_never_below_relation_10(self):
        # Relation (10) of document 000: the least n whose Poisson weights up to n, over e^q,
        # reach 1 - tolerance. e^q is not a fraction, so it is taken from above and below.
        rng = random.Random(10)
        for _ in range(60):
            X = models.log_uniform(rng, 1, 30_000_000)
            epsilon = models.random_tolerance(rng)
            N = calculator.level(X, epsilon)
            q, term, total, tail_terms = Fraction(X, 10**6), Fraction(1), Fraction(0), Fraction(0)
            for n in range(N + 120):
                if n <= N:
                    total += term
                else:
                    tail_terms += term
                term = term * q / (n + 1)
            tail_terms += 2 * term           # the rest, term + ..., is below twice its first
            self.assertLessEqual(tail_terms, (total + tail_terms) * Fraction(epsilon, 10**9))

    def test_largest_level_in_range(self):
        for X in range(1_000_000, 256_000_001, 5_000_000):
            self.assertLessEqual(calculator.level(X, 1), 1024)

    def check_2m_and_51(self, name, X, epsilon):
        self.assertLessEqual(calculator.level(X, epsilon), 2 * (X // 10**6) + 51, name)

    def test_at_most_2m_and_51(self):
        """S-8: generated and stored models, and for each m the largest X with the least tolerance."""
        files = [*models.valid_models(8, 400), *((name, run.stored(name + ".model")) for name in run.names())]
        accepted = [(name, calculator.read_model(file)) for name, file in files if outcome(file, 520)[0] == "level"]
        self.assertGreater(len(accepted), 700)
        for name, model in accepted:
            self.check_2m_and_51(name, model.X, model.epsilon)
        for m in range(257):
            self.check_2m_and_51(m, min(m * 10**6 + 999_999, 256_000_000), 1)


class LastDivision(unittest.TestCase):
    """S-1: the final quotient alone is rounded to the nearest tick, a half going up."""

    # Other rules, each a slip in this one.
    WRONG = {
        "down": lambda A, S: A * ONE // S,
        "up": lambda A, S: -(-A * ONE // S),
        "a half going down": lambda A, S: -((S - 2 * A * ONE) // (2 * S)),
        "a half to the even one": lambda A, S: round(Fraction(A * ONE, S)),
    }

    def check(self, A, S, ticks):
        self.assertEqual(last_division(A, S), ticks, (A, S))

    def test_small_quotients(self):
        # A over d, which is A * 10^12 over d * 10^12, for A = 0, 1, 2, ...
        for d, nearest in ((1, [0, 1, 2, 3]),
                           (2, [0, 1, 1, 2, 2, 3, 3, 4]),
                           (3, [0, 0, 1, 1, 1, 2, 2, 2, 3]),
                           (4, [0, 0, 1, 1, 1, 1, 2, 2, 2, 2, 3]),
                           (5, [0, 0, 0, 1, 1, 1, 1, 1, 2, 2, 2]),
                           (6, [0, 0, 0, 1, 1, 1, 1, 1, 1, 2, 2, 2, 2, 2, 2, 3])):
            for A, ticks in enumerate(nearest):
                self.check(A, d * ONE, ticks)

    def test_next_to_a_half(self):
        # 1/2, 3/2 and 5/2, a hair less and a hair more
        for A in (1, 3, 5):
            self.check(A, 2 * ONE + 1, A // 2)
            self.check(A, 2 * ONE, A // 2 + 1)
            self.check(A, 2 * ONE - 1, A // 2 + 1)

    def test_odd_divisors(self):
        # 10^12 leaves 1 by 3, 1 by 9 and 1 by 11
        self.check(1, 3, 333333333333)
        self.check(2, 3, 666666666667)
        for A in range(10):
            self.check(A, 9, 111111111111 * A + (A >= 5))
        for A in range(12):
            self.check(A, 11, 90909090909 * A + (A >= 6))

    def test_half_at_full_size(self):
        # S is odd, or has a half that can be left; A is chosen for what A * 10^12 leaves.
        rng = random.Random(62)
        parities = set()
        for k in range(400):
            odd = 2 * rng.randint(5 * 10**14, 10**17) + 1
            S = odd if k % 2 else odd * 2**13
            step = math.gcd(ONE, S)                 # A * 10^12 leaves multiples of this alone
            inverse = pow(ONE // step, -1, S // step)
            half = S // 2 // step * step            # the last of them up to a half
            for left in (half - step, half, half + step):
                A = left // step * inverse % (S // step) + S // step * rng.randrange(step)
                quotient, rest = divmod(A * ONE, S)
                self.assertEqual(rest, left)
                self.check(A, S, quotient + (2 * left >= S))
                if 2 * left == S:
                    parities.add(quotient % 2)
        self.assertEqual(parities, {0, 1})

    def check_nearest(self, A, S, ticks):
        """Half a tick too much may be, half a tick too little may not."""
        above = 2 * (ticks * S - A * ONE)           # twice the distance, times S
        self.assertTrue(-S < above <= S, (A, S))

    def drawn(self):
        """(A, S): all small ones, with S whole ticks and not, and some of full size."""
        for S in range(1, 40):
            for A in range(2 * S + 1):
                yield A, S
                yield A, S * ONE
        rng = random.Random(12)
        for _ in range(2_000):
            S = rng.randint(10**15, 2**62)
            for A in (rng.randint(0, S), S - 1, S, 1):
                yield A, S

    def test_nearest(self):
        for A, S in self.drawn():
            self.check_nearest(A, S, last_division(A, S))

    def test_limits(self):
        for A, S in self.drawn():
            down = A * ONE // S
            self.assertIn(last_division(A, S), (down, down + 1), (A, S))
            if A <= S:
                self.assertLessEqual(last_division(A, S), ONE, (A, S))

    def test_at_most_one(self):
        S = 2 * 10**15
        self.check(S, S, ONE)
        self.check(S - 1, S, ONE)                   # less than half a tick below 1
        self.check(S - 1_000, S, ONE)               # half a tick below 1
        self.check(S - 1_001, S, ONE - 1)

    def test_nearest_in_generated_models(self):
        for name, file in models.valid_models(5, 45):
            cells = [None] * calculator.block_size(file)
            calculator.calculate(file, cells)
            divisions = last_divisions(file)
            self.assertEqual(len(divisions), file[3] * file[4], name)
            for (A, S), ticks in zip(divisions, cells):
                self.assertLessEqual(A, S, name)
                self.check_nearest(A, S, ticks)

    def test_earlier_roundings_stay_down(self):
        # At state 2 every quotient leaves half of its divisor or more: U(0,1) and W, V, of which 40480 / 48576 = 5/6
        # come from state 1, U(1,1), and the term of w(1) = 48576 * 10^9.
        file = models.build(1, 2, 1, 100_000_000, 1, [9, 7], [[48_576], [40_480]])
        self.assertEqual(divmod(7 * ONE, 9), (777777777777, 7))
        self.assertEqual(divmod(5 * ONE + 777777777777, 6), (962962962962, 5))
        self.assertEqual(divmod(962962962962 + 777777777777, 2), (870370370369, 1))
        self.assertEqual(divmod(48_576 * 870370370369, 1_000), (42279111111044, 544))
        A, S = last_divisions(file)[1]
        self.assertEqual(A, 777777777777000 + 42279111111044)
        self.assertEqual(S, 1_048_576 * 10**9)

    def test_half_tick_models(self):
        rng = random.Random(3)
        sides = set()
        for _ in range(60):
            file = models.build(**models.half_tick(rng))
            self.assertEqual(outcome(file, 520), ("level", 1))
            A, S = last_divisions(file)[0]
            quotient, left = divmod(A * ONE, S)
            off = 2 * left - S
            if abs(off) * 100 < S:
                sides.add(("half", quotient % 2) if off == 0 else "less" if off < 0 else "more")
        self.assertEqual(sides, {("half", 0), ("half", 1), "less", "more"})

    def test_compared_models_tell_other_rules_apart(self):
        # The kind that compare.py draws among its 300 models
        files = [file for name, file in models.mixed_models(1, 300) if "half-tick" in name]
        for rule, wrong in self.WRONG.items():
            self.assertTrue(any(sheet_with(wrong, file) != sheet(file) for file in files), rule)


class Series(unittest.TestCase):
    """S-3: one model, several times."""

    NINE = list(range(1, 10))
    LISTS = ([], [1], [1, 1], [2, 1], [1, 0], NINE, NINE[::-1], [1] * 9, [1, 2**32 - 1], [2**32 - 1])

    def refused(self, row, file, times, levels=9, cells=99):
        """A refusal by this row, no cell of either slice changed."""
        lent = list(range(100, 100 + levels)), list(range(200, 200 + cells))
        before = [list(part) for part in lent]
        result = calculator.series(file, times, *lent)
        self.assertEqual((result, list(lent)), (("refused", row), before), (file.hex(), times))

    def blocks(self, file, times, levels=None, cells=None):
        """The levels and the blocks of an accepted list, cells past them left out; those keep what they hold."""
        size = calculator.block_size(file)
        taken = len(times), len(times) * size
        lent = [list(range(100, 100 + (n if count is None else count))) for n, count in zip(taken, (levels, cells))]
        past = [part[n:] for n, part in zip(taken, lent)]
        self.assertEqual(calculator.series(file, times, *lent), ("times", len(times)))
        self.assertEqual([part[n:] for n, part in zip(taken, lent)], past)
        return lent[0][:taken[0]], [lent[1][k * size:(k + 1) * size] for k in range(len(times))]

    def check_runs(self, name, file, times):
        """Each level and block is that of the file with this time in bytes 9 to 12."""
        for T, N, block in zip(times, *self.blocks(file, times)):
            cells = [None] * calculator.block_size(file)
            self.assertEqual(calculator.calculate(put(file, 9, 4, T), cells), ("level", N), (name, T))
            self.assertEqual(cells, block, (name, T))

    def test_B(self):
        levels, blocks = self.blocks(B, [1, 2, 256], 5, 20)
        self.assertEqual(levels, [3, 4, 280])
        self.assertEqual(blocks[0], [718750000000, 612500000000, 281250000000, 175000000000])
        # With q = 2, N = 4: the weights 1, 2, 2, 4/3, 2/3 sum to 7, and u(n,1) at state 1 is 1, 1/2, 2/3, 1/2, 3/5.
        by_hand = (1 + Fraction(2, 2) + 2 * Fraction(2, 3) + Fraction(4, 3) / 2 + Fraction(2, 3) * Fraction(3, 5)) / 7
        self.assertEqual((by_hand, blocks[1][0]), (Fraction(22, 35), 628571428571))

    def test_B_in_version_2(self):
        levels, blocks = self.blocks(B2, [1, 2, 256], 5, 30)
        of_moments = self.blocks(B, [1, 2, 256])
        self.assertEqual((levels, [block[:4] for block in blocks]), of_moments)
        self.assertEqual(blocks[0][4:], B2_STARTS)

    def test_rows_1_to_7(self):
        for row in range(1, 8):
            for times in (*self.LISTS, [0], [0] * 9):
                self.refused(row, EXAMPLES[row], times)
                self.refused(row, EXAMPLES[row], times, 0, 0)

    def test_row_8_of_the_file(self):
        for times in (*self.LISTS, [0], [0] * 9):
            self.refused(8, put(B, 9, 4, 0), times)
            self.refused(8, put(B, 9, 4, 0), times, 0, 0)

    def test_row_8_of_the_list(self):
        for times in ([0], [0, 1], [0, 0], [0] * 9, [0, 2**32 - 1], [0] + self.NINE):
            self.refused(8, B, times)
            self.refused(8, B, times, 0, 0)
            for row in (16, 9, 10, 11):
                self.refused(8, EXAMPLES[row], times)
            self.refused(7, put(B, 5, 4, 0), times)
        self.refused(15, B, [1, 0])            # the first time alone is judged by 8

    def test_rows_16_and_9_to_11(self):
        for row in (16, 9, 10, 11):
            for times in self.LISTS:
                self.refused(row, EXAMPLES[row], times)
                self.refused(row, EXAMPLES[row], times, 0, 0)

    def test_row_14(self):
        for times in ([], self.NINE, self.NINE[::-1], [1] * 9, [1] * 9 + [0], [257] * 9, list(range(250, 259))):
            self.refused(14, B, times)
            self.refused(14, B, times, 0, 0)
        self.refused(14, B, list(range(1, 1001)), 1000, 4000)
        self.assertEqual(len(self.blocks(B, self.NINE[:8])[0]), 8)
        self.assertEqual(len(self.blocks(B, [1])[0]), 1)

    def test_empty_list(self):
        self.refused(14, B, [])
        self.refused(8, put(B, 9, 4, 0), [])
        self.refused(14, put(B, 9, 4, 257), [])
        self.refused(11, EXAMPLES[11], [])

    def test_row_15(self):
        for place in range(1, 8):
            for other in (place - 1, place):   # below the time before it, or equal to it
                times = self.NINE[:8]
                times[place] = other
                self.refused(15, B, times)
                self.refused(15, B, times, 0, 0)
                self.refused(15, B, [T + 300 for T in times])       # 12 holds as well
        for times in ([2, 1], [1, 1], [257, 257], [300, 257], [2**31, 1], [2**32 - 1, 0]):
            self.refused(15, B, times)

    def test_row_12(self):
        for times in ([257], [1, 257], [256, 257], [1, 2**31], [2**32 - 2, 2**32 - 1], list(range(250, 258))):
            self.refused(12, B, times)
            self.refused(12, B, times, 0, 0)
        self.refused(12, A, [256_000_001])
        self.refused(12, A, [2**32 - 1])
        self.assertEqual(self.blocks(A, [1, 256_000_000])[1], [[ONE], [ONE]])
        self.blocks(B, [256])

    def test_the_files_own_time_is_not_used(self):
        for T in (1, 256, 257, 2**32 - 1):
            self.assertEqual(self.blocks(put(B, 9, 4, T), [1, 2]), self.blocks(B, [1, 2]))
        self.refused(12, put(B, 9, 4, 1), [257])

    def test_row_13(self):
        for times in ([1], [1, 2], [1, 2, 3, 4, 5, 6, 7, 8]):
            for file, size in ((B, 4), (B2, 6)):
                enough = len(times), size * len(times)
                self.blocks(file, times, *enough)
                self.refused(13, file, times, enough[0] - 1, enough[1])
                self.refused(13, file, times, enough[0], enough[1] - 1)
                self.refused(13, file, times, 0, 10**4)
                self.refused(13, file, times, 10**4, 0)
                self.refused(13, file, times, 0, 0)
            self.refused(13, B2, times, 8, 4 * len(times))      # cells for the moments alone

    def test_runs_of_small_files(self):
        self.check_runs("A", A, [1, 2, 1000, 256_000_000])
        self.check_runs("B", B, [1, 2, 3, 5, 8, 13, 21, 256])
        self.check_runs("B2", B2, [1, 2, 3, 5, 8, 13, 21, 256])
        for name, file in models.valid_models(7, 60):
            if file[3]**2 * file[4] > 300:
                continue
            most = 256_000_000 // calculator.read_model(file).E
            rng = random.Random(name)
            count = min(most, rng.randint(1, 8))
            self.check_runs(name, file, sorted(rng.sample(range(1, most + 1), count)))

    def test_levels_that_stay(self):
        # E is 1 and q moves by a millionth: the level stays, and so do nearly all digits.
        file = models.build(1, 2, 1, 1_000, 1, [3, 1], [[1], [0]])
        times = list(range(7_000_000, 7_000_008))
        levels, blocks = self.blocks(file, times)
        self.assertEqual(len(set(levels)), 1)
        self.assertGreater(len(set(map(tuple, blocks))), 1)
        self.check_runs("close times", file, times)

    def test_level_next_to_its_rise(self):
        # Two times next to each other between which the level rises by one, by the kit's rows of exact borders.
        rises = 0
        for row in edges.LEVEL_ROWS:
            X, n = row.rates[0][0] * row.T, row.holds[0].n
            if X > 20_000_000:
                continue
            file = models.build(1, 2, 1, row.epsilon, 1, [1, 0], [[1], [0]])
            levels, _ = self.blocks(file, [X - 1, X, X + 1])
            self.assertEqual(levels[1], n + (row.holds[0].miss > 0), row.name)
            rises += levels[0] < levels[2]
        self.assertGreater(rises, 5)

    def test_level_does_not_fall(self):
        """Where t meets its bound at n, t less its bound rises from X to X + 1: no level falls as the time rises."""
        def miss(X):
            w = calculator.weights(X, n)
            return calculator.tail(w, X, n) - sum(w) * epsilon // 10**9

        rng = random.Random(33)
        others = ((rng.randint(1, 358), rng.choice([2, 3, rng.randint(4, 1_000)])) for _ in range(150))
        for n, epsilon in (*((n, 1) for n in range(1, 359)), *others):
            low, high = 1, min(n * 10**6, 256_000_000)
            if miss(low) > 0 or miss(high) <= 0:
                continue
            while high - low > 1:
                middle = (low + high) // 2
                low, high = (middle, high) if miss(middle) <= 0 else (low, middle)
            misses = [miss(X) for X in range(max(1, low - 3), low + 5)]
            self.assertGreater(min(b - a for a, b in zip(misses, misses[1:])), 5, (n, epsilon, low))

    def test_vectors_once(self):
        with mock.patch.object(calculator, "next_vectors", wraps=calculator.next_vectors) as watched:
            levels, _ = self.blocks(B, [1, 2, 100, 256])
        self.assertEqual([call.args[1] for call in watched.call_args_list], list(range(1, max(levels) + 1)))

    def test_largest_level_need_not_be_the_last(self):
        # Levels rise with the time as document 01 has them; the vectors go as far as the largest, wherever it stands.
        right = calculator.series(B, [1, 2], [0, 0], [0] * 8)
        with mock.patch.object(calculator, "level", side_effect=lambda X, epsilon: 9 - X // 10**6):
            levels, blocks = self.blocks(B, [1, 2])
            row_means = [7]
            calculator.series(B, [1, 2], [0, 0], [0] * 8, row_means)
        self.assertEqual((right, levels, row_means), (("times", 2), [8, 7], [8 * 2 * 2]))
        self.assertEqual(blocks[0][0], calculator.moment(
            calculator.weights(10**6, 8), calculator.reward_vectors(calculator.read_model(B), 8), 8, 0, 1))

    def test_answer(self):
        self.assertEqual(calculator.answer(("refused", 14)), 1_000_014)
        self.assertEqual(calculator.answer(("times", 8)), 8)
        self.assertEqual(calculator.answer(("level", 3)), 3)


class RowMeans(unittest.TestCase):
    """S-8: the number of row means that a call takes, one for each state, each r and each n from 1 to N."""

    def of_file(self, file):
        """The level of an accepted file, and the number of row means given."""
        row_means = [7]
        word, N = calculator.calculate(file, [0] * 520, row_means)
        self.assertEqual(word, "level")
        return N, row_means[0]

    def of_list(self, file, times):
        """The levels of an accepted list, and the number of row means given."""
        levels, row_means = [0] * len(times), [7]
        result = calculator.series(file, times, levels, [0] * 4160, row_means)
        self.assertEqual(result, ("times", len(times)))
        return levels, row_means[0]

    def test_by_hand(self):
        self.assertEqual(self.of_file(A), (1, 1))
        self.assertEqual(self.of_file(B), (3, 12))
        self.assertEqual(self.of_file(put(B, 9, 4, 2)), (4, 16))
        self.assertEqual(self.of_file(put(B, 4, 1, 1)), (3, 6))
        self.assertEqual(self.of_file(B2), (3, 12))             # the start figures take none

    def test_lists_by_hand(self):
        self.assertEqual(self.of_list(A, [1, 2, 3]), ([1, 1, 1], 1))
        self.assertEqual(self.of_list(B, [1]), ([3], 12))
        self.assertEqual(self.of_list(B, [1, 2]), ([3, 4], 16))
        self.assertEqual(self.of_list(B2, [1, 2]), ([3, 4], 16))
        self.assertEqual(self.of_list(put(B, 9, 4, 257), [1, 2]), ([3, 4], 16))
        self.assertEqual(self.of_list(B, [1, 2, 256]), ([3, 4, 280], 1120))

    def test_refused(self):
        for row, file in EXAMPLES.items():
            row_means = [7]
            self.assertEqual(calculator.calculate(file, [0] * 520, row_means), ("refused", row))
            self.assertEqual(calculator.series(file, [1, 257], [0] * 9, [0] * 99, row_means), ("refused", row))
            self.assertEqual(row_means, [7], row)
        for row, times, levels, cells in ((14, [], 9, 99), (15, [1, 1], 9, 99), (12, [257], 9, 99), (8, [0], 9, 99),
                                          (13, [1], 0, 99), (13, [1], 9, 3)):
            row_means = [7]
            self.assertEqual(calculator.series(B, times, [0] * levels, [0] * cells, row_means), ("refused", row))
            self.assertEqual(row_means, [7], row)
        row_means = [7]
        self.assertEqual(calculator.calculate(B, [0] * 3, row_means), ("refused", 13))
        self.assertEqual(row_means, [7])

    def test_N_M_R(self):
        for name, file in models.valid_models(9, 200):
            N, row_means = self.of_file(file)
            self.assertEqual(row_means, N * file[3] * file[4], name)

    def test_N_M_R_of_lists(self):
        several = 0
        for name, file in models.valid_models(10, 120):
            most = 256_000_000 // calculator.read_model(file).E
            rng = random.Random(name)
            times = sorted(rng.sample(range(1, most + 1), min(most, rng.randint(1, 8))))
            if file[3]**2 * file[4] <= 300:
                levels, row_means = self.of_list(file, times)
                self.assertEqual(row_means, max(levels) * file[3] * file[4], name)
                several += len(set(levels)) > 1
        self.assertGreater(several, 20)

    def test_largest(self):
        file = models.build(**models.heaviest(random.Random(1)))
        self.assertEqual(self.of_file(file), (358, 358 * 64 * 8))


class Remainders(unittest.TestCase):
    """S-4: what the divisions of V, W and U leave."""

    # Two states: rows 0 3 and 1 2 of c, E = 3, F = 7.
    SMALL = models.build(1, 2, 2, 100_000_000, 1, [7, 3], [[3], [1]])
    OUTSIDE = (0, 9, 65, 1025, 2**32, 2**32 + 1, 2**63, 2**64 - 1)

    def call(self, file, state, n, r):
        """The result of a call, and the three numbers after it, which were 100, 200 and 300."""
        numbers = [100], [200], [300]
        result = calculator.remainders(file, state, n, r, *numbers)
        return result, [value for number in numbers for value in number]

    def given(self, file, state, n, r, *rests):
        self.assertEqual(calculator.rests(file, state, n, r), ("given", rests))
        self.assertEqual(self.call(file, state, n, r), (("given", 0), list(rests)))

    def kept(self, result, file, state, n, r):
        """Another result than "given", the three numbers as they were."""
        self.assertEqual(calculator.rests(file, state, n, r), result, (file.hex(), state, n, r))
        self.assertEqual(self.call(file, state, n, r), (result, [100, 200, 300]))

    def test_B(self):
        # At state 1 V is U(n-1,r) of state 2 and W is U(n,r-1); at state 2 V is U(n-1,r) of state 1 and W is 0.
        # E and F leave nothing: c has whole rows of E, and F is 1.
        table = calculator.worked(B)
        self.assertEqual((table.E, table.F, table.N), (1_000_000, 1, 3))
        self.assertEqual(table.first, [[ONE, ONE], [ONE, 0], [ONE, 0]])
        self.assertEqual(table.lines, [
            (1, 1, 1, 0, 0, ONE, 0, 500000000000, 0),
            (1, 1, 2, ONE, 0, 0, 0, 500000000000, 0),
            (1, 2, 1, 0, 0, 500000000000, 0, 333333333333, 1),                 # 2 * 500000000000 by 3
            (1, 2, 2, ONE, 0, 0, 0, 333333333333, 1),                          # 1 * ONE by 3
            (2, 1, 1, 500000000000, 0, ONE, 0, 666666666666, 2),               # 2 * ONE by 3
            (2, 1, 2, 500000000000, 0, 0, 0, 333333333333, 1),
            (2, 2, 1, 333333333333, 0, 666666666666, 0, 499999999999, 2),      # 1999999999998 by 4
            (2, 2, 2, 333333333333, 0, 0, 0, 166666666666, 2),                 # 666666666666 by 4
            (3, 1, 1, 333333333333, 0, ONE, 0, 499999999999, 3),               # 1999999999999 by 4
            (3, 1, 2, 666666666666, 0, 0, 0, 499999999999, 2),                 # 1999999999998 by 4
            (3, 2, 1, 166666666666, 0, 499999999999, 0, 299999999999, 1),      # 1499999999996 by 5
            (3, 2, 2, 499999999999, 0, 0, 0, 299999999999, 2),                 # 1499999999997 by 5
        ])

    def test_small_divisors(self):
        # U(0,1) at state 2 is 3 * ONE by 7, which leaves 3; U(0,2) there is 3 * 428571428571 by 7, which leaves 4.
        table = calculator.worked(self.SMALL)
        self.assertEqual((table.E, table.F, table.N), (3, 7, 1))
        self.assertEqual(table.first, [[ONE, ONE], [ONE, 428571428571], [ONE, 183673469387]])
        self.assertEqual(table.lines, [
            # V: 3 * 428571428571 by 3. W: 7 * ONE by 7. U: 1428571428571 by 2.
            (1, 1, 1, 428571428571, 0, ONE, 0, 714285714285, 1),
            # V: ONE + 2 * 428571428571 by 3. W: 3 * ONE by 7. U: 1047619047618 by 2.
            (1, 1, 2, 619047619047, 1, 428571428571, 3, 523809523809, 0),
            # V: 3 * 183673469387 by 3. W: 7 * 714285714285 by 7. U: 183673469387 + 2 * 714285714285 by 3.
            (1, 2, 1, 183673469387, 0, 714285714285, 0, 537414965985, 2),
            # V: ONE + 2 * 183673469387 by 3. W: 3 * 523809523809 by 7. U: 455782312924 + 2 * 224489795918 by 3.
            (1, 2, 2, 455782312924, 2, 224489795918, 1, 301587301586, 2),
        ])
        self.given(self.SMALL, 2, 1, 2, 2, 1, 2)
        self.given(self.SMALL, 1, 1, 2, 0, 0, 2)

    def test_E_is_no_power_of_ten(self):
        # At state 2, with E = 48576 = 6 * 8096: V is 5 * ONE + 777777777777 by 6, which leaves 5, 8096 times.
        file = models.build(1, 2, 1, 100_000_000, 1, [9, 7], [[48_576], [40_480]])
        self.given(file, 2, 1, 1, 5 * 8096, 7, 1)

    def test_A(self):
        # All is 1: V and W are ONE, by E = 1 and F = 5, and U is 2 * ONE by 2.
        self.assertEqual(calculator.worked(A), (1, 5, 1, [[ONE], [ONE]], [(1, 1, 1, ONE, 0, ONE, 0, ONE, 0)]))
        self.given(A, 1, 1, 1, 0, 0, 0)

    def test_limits(self):
        self.given(B, 2, 3, 2, 0, 0, 2)
        for numbers in ((0, 1, 1), (3, 1, 1), (1, 0, 1), (1, 4, 1), (1, 1, 0), (1, 1, 3), (3, 4, 3), (0, 0, 0)):
            self.kept(("none", 1), B, *numbers)
        for outside in self.OUTSIDE:
            for numbers in ((outside, 1, 1), (1, outside, 1), (1, 1, outside), (outside,) * 3):
                self.kept(("none", 1), B, *numbers)

    def test_n_goes_to_the_level_of_the_own_time(self):
        for T, N in ((1, 3), (2, 4), (256, 280)):
            file = put(B, 9, 4, T)
            self.assertEqual(calculator.rests(file, 1, N, 1)[0], "given")
            self.kept(("none", 1), file, 1, N + 1, 1)

    def test_refused_before_all_else(self):
        for row, file in EXAMPLES.items():
            self.kept(("refused", row), file, 1, 1, 1)
            for outside in self.OUTSIDE:
                self.kept(("refused", row), file, outside, outside, outside)
                self.kept(("refused", row), file, 1, outside, 1)
        self.assertEqual(calculator.answer(calculator.rests(EXAMPLES[12], 0, 0, 0)), 1_000_012)

    def test_answers(self):
        for numbers, number in (((1, 1, 1), 0), ((3, 1, 1), 1)):
            self.assertEqual(calculator.answer(self.call(B, *numbers)[0]), number)

    def small_models(self):
        """(name, file) of generated models with few divisions, one with 64 states."""
        large = models.build(**{**models.states_64(random.Random(4)), "R": 3})
        for name, file in (*models.valid_models(4, 90), ("64 states", large)):
            _, N = outcome(file, 520)
            if file[3]**2 * file[4] * N <= 20_000:
                yield name, file

    def test_laws(self):
        """Quotient times divisor and rest are the dividend, the rest is below the divisor, U is that of the vectors."""
        all_above_0 = 0
        for name, file in self.small_models():
            model, table = calculator.read_model(file), calculator.worked(file)
            U = calculator.reward_vectors(model, table.N)
            self.assertEqual((table.E, table.F, table.first), (model.E, model.F, U[0]))
            self.assertEqual([line[:3] for line in table.lines], list(itertools.product(
                range(1, table.N + 1), range(1, model.R + 1), range(1, model.M + 1))), name)
            for line in table.lines:
                n, r, i = line.n, line.r, line.state - 1
                mean = sum(model.c[i][j] * U[n - 1][r][j] for j in range(model.M))
                self.assertEqual(line.V * model.E + line.rest_V, mean, (name, line))
                self.assertEqual(line.W * model.F + line.rest_W, model.f[i] * U[n][r - 1][i], (name, line))
                self.assertEqual(line.U * (n + r) + line.rest_U, n * line.V + r * line.W, (name, line))
                self.assertTrue(0 <= line.rest_V < model.E and 0 <= line.rest_W < model.F, (name, line))
                self.assertTrue(0 <= line.rest_U < n + r, (name, line))
                self.assertEqual(line.U, U[n][r][i], (name, line))
                all_above_0 += min(line.rest_V, line.rest_W, line.rest_U) > 0
        self.assertGreater(all_above_0, 100)

    def test_rests_are_those_of_the_table(self):
        rng = random.Random(4)
        for name, file in self.small_models():
            lines = calculator.worked(file).lines
            for line in rng.sample(lines, min(len(lines), 5)):
                self.assertEqual(calculator.rests(file, line.state, line.n, line.r),
                                 ("given", (line.rest_V, line.rest_W, line.rest_U)), (name, line))


class Version2(unittest.TestCase):
    """S-5: starting weights before the reward rates."""

    def cells(self, file):
        cells = [None] * calculator.block_size(file)
        self.assertEqual(calculator.calculate(file, cells)[0], "level")
        return cells

    def refused(self, row, file, cells=520):
        lent = list(range(cells))
        self.assertEqual(calculator.calculate(file, lent), ("refused", row))
        self.assertEqual(lent, list(range(cells)))

    def test_B(self):
        cells = [7] * 8
        self.assertEqual(calculator.calculate(B2, cells), ("level", 3))
        self.assertEqual(cells, self.cells(B) + B2_STARTS + [7, 7])
        self.assertEqual(B2.hex(), "00230202" + B[4:13].hex() + "0003d090000b71b0" + B[13:].hex())

    def test_versions_and_lengths(self):
        self.refused(6, put(A, 2, 1, 2))                # the length of version 1
        self.refused(6, put(B, 2, 1, 2))
        self.refused(6, put(B2, 2, 1, 1))               # the length of version 2
        for file in (A, B, B2):
            for version in (0, 3, 4, 127, 128, 255):
                self.refused(3, put(file, 2, 1, version))
                self.refused(3, put(put(file, 2, 1, version), 3, 8, 0))

    def test_sums(self):
        for weights in ((0, 0), (1_000_000, 1), (999_999, 0), (0, 999_999), (1, 1_000_000), (500_000, 500_001),
                        (1_000_000, 1_000_000), (2**32 - 1, 1_000_001), (1_000_001, 2**32 - 1), (2**32 - 1, 2**32 - 1)):
            self.refused(16, starting(B, *weights))
        for weight in (0, 1, 999_999, 1_000_001, 2**32 - 1):
            self.refused(16, starting(A, weight))
        full = models.full_size(64)
        self.refused(16, starting(full, *[2**32 - 1] * 64))
        for times in (1, 32, 63):                       # 1,000,000 in 32 bits
            self.refused(16, starting(full, *[2**32 - 1] * times, 1_000_000 + times, *[0] * (63 - times)))
        self.cells(starting(full, *[15_625] * 64))

    def test_order(self):
        """16 with each row before it and behind it."""
        wrong = EXAMPLES[16]
        for row, file in ((1, wrong[:12]), (2, wrong + b"\0"), (3, put(wrong, 2, 1, 3)), (4, put(wrong, 3, 1, 65)),
                          (5, put(wrong, 4, 1, 9)), (6, models.relength(wrong + b"\0")), (7, put(wrong, 5, 4, 0)),
                          (8, put(wrong, 9, 4, 0)), (16, put(wrong, 21, 4, 1_000_001)), (16, put(wrong, 21, 8, 0)),
                          (16, put(wrong, 29, 4, 10_000_001)), (16, put(wrong, 9, 4, 257))):
            self.refused(row, file)
            self.refused(row, file, 0)
            self.assertEqual(calculator.rests(file, 1, 1, 1), ("refused", row))
        for row, file in ((9, put(B2, 21, 4, 1_000_001)), (10, put(B2, 21, 8, 0)), (11, put(B2, 29, 4, 10_000_001)),
                          (12, put(B2, 9, 4, 257))):
            self.refused(row, file)
            self.refused(row, file, 0)

    def test_cells(self):
        for cells in range(6):                          # 4 are enough for the moments alone
            self.refused(13, B2, cells)
        self.assertEqual(outcome(B2, 6), ("level", 3))
        largest = models.build(**models.in_version_2(
            dict(models.states_64(random.Random(1)), R=8), models.on_one(64, 63)))
        self.refused(13, largest, 519)
        self.assertEqual(outcome(largest, 520)[0], "level")

    def test_down(self):
        # 333,333 * 718,750,000,000 + 666,667 * 281,250,000,000, over 1,000,000, and
        # 333,333 * 612,500,000,000 + 666,667 * 175,000,000,000, over 1,000,000: nothing is left.
        self.assertEqual(self.cells(starting(B, 333_333, 666_667))[4:], [427083187500, 320833187500])
        # Moments ONE - 1 and ONE: a half and more of a tick go down.
        model = calculator.read_model(starting(B, 500_000, 500_000))._replace(R=1)
        self.assertEqual(calculator.start_figures(model, [ONE - 1, ONE]), [ONE - 1])
        model = calculator.read_model(starting(B, 1, 999_999))._replace(R=1)
        self.assertEqual(calculator.start_figures(model, [ONE - 1, ONE]), [ONE - 1])
        self.assertEqual(calculator.start_figures(model, [0, 1]), [0])

    def test_laws(self):
        """Level and moments are those of version 1; a start figure lies between the moments of the states with weight,
        within a tick of their weighted sum; with all weight on one state it is that state's moment."""
        inexact = 0
        for name, file in models.valid_models(6, 120):
            if file[2] == 1 or file[3]**2 * file[4] > 500:
                continue
            M, R, model, cells = file[3], file[4], calculator.read_model(file), self.cells(file)
            bare = calculator.as_version_1(file)
            self.assertEqual((outcome(bare, 520), self.cells(bare)), (outcome(file, 520), cells[:M * R]), name)
            for r in range(R):
                moments, figure = cells[r:M * R:R], cells[M * R + r]
                weighted = sum(weight * moment for weight, moment in zip(model.a, moments))
                self.assertTrue(figure * 10**6 <= weighted < (figure + 1) * 10**6, name)
                held = [moment for weight, moment in zip(model.a, moments) if weight]
                self.assertTrue(min(held) <= figure <= max(held), name)
                inexact += weighted % 10**6 > 0
                for i in range(M):
                    alone = model._replace(a=models.on_one(M, i))
                    self.assertEqual(calculator.start_figures(alone, cells)[r], moments[i], name)
        self.assertGreater(inexact, 20)

    def test_remainders_do_not_look_at_the_weights(self):
        for weights in ((250_000, 750_000), (0, 1_000_000)):
            self.assertEqual(calculator.worked(starting(B, *weights)), calculator.worked(B))
        self.assertEqual(calculator.rests(B2, 1, 3, 1), calculator.rests(B, 1, 3, 1))


class Converter(unittest.TestCase):
    """S-5: from one version to the other."""

    def move(self, move, file, room):
        """The result, and the bytes after it, which were FF."""
        out = [255] * room
        return move(file, out), bytes(out)

    def moved(self, move, file, right):
        """The file is moved, into just the bytes that it takes and into more; into fewer it is not."""
        for more in (0, 1, 40):
            self.assertEqual(self.move(move, file, len(right) + more), (("bytes", len(right)), right + b"\xff" * more))
        for room in (len(right) - 1, 13, 12, 1, 0):
            self.kept(13, move, file, room)

    def kept(self, row, move, file, room=20_000):
        self.assertEqual(self.move(move, file, room), (("refused", row), b"\xff" * room), file.hex())

    def there_and_back(self, file):
        """Moves a version 1 file to version 2 and back; its form in version 2."""
        other = starting(file, *models.on_one(file[3], 0))
        self.moved(calculator.to_version_2, file, other)
        self.moved(calculator.to_version_1, other, file)
        return other

    def test_A_and_B(self):
        self.assertEqual(self.there_and_back(A).hex(), "00130201010000271000000001000f424000000005")
        other = self.there_and_back(B)
        self.assertEqual(other.hex(), "002302020205f5e10000000001000f4240000000000000000100000000000f4240000f4240")
        self.assertEqual(sheet(other), B_SHEET + b"start 1 0.718750000000\nstart 2 0.612500000000\n")
        self.assertEqual(len(self.there_and_back(models.full_size(64))), 16653)

    def test_generated(self):
        """There and back; level and moments stay, and the start figures are the moments of state 1."""
        for name, file in models.valid_models(9, 150):
            if file[2] == 2 or file[3]**2 * file[4] > 500:
                continue
            other = self.there_and_back(file)
            cells = [0] * 520
            self.assertEqual(calculator.calculate(other, cells), outcome(file, 520), name)
            moments = [0] * (file[3] * file[4])
            calculator.calculate(file, moments)
            self.assertEqual(cells[:len(moments) + file[4]], moments + moments[:file[4]], name)

    def test_versions(self):
        for version in (0, 2, 3, 255):
            for file in (put(B, 2, 1, version), put(B2, 2, 1, version), put(put(B, 2, 1, version), 3, 6, 0)):
                self.kept(3, calculator.to_version_2, file)
                self.kept(3, calculator.to_version_2, file, 0)
        for version in (0, 1, 3, 255):
            for file in (put(B2, 2, 1, version), put(B, 2, 1, version), put(EXAMPLES[16], 2, 1, version)):
                self.kept(3, calculator.to_version_1, file)
                self.kept(3, calculator.to_version_1, file, 0)
        self.kept(6, calculator.to_version_2, put(B2, 2, 1, 1))
        self.kept(6, calculator.to_version_1, put(B, 2, 1, 2))

    def test_rows(self):
        """Rows 1 to 12 come before 17 and 13, whatever room there is."""
        for row, file in EXAMPLES.items():
            if row != 16:                               # the only one of version 2
                for room in (0, 20_000):
                    self.kept(row, calculator.to_version_2, file, room)
        first, last = starting(B, 1_000_000, 0), starting(B, 0, 1_000_000)
        for file in (first, last):
            for row, broken in ((1, file[:12]), (2, file + b"\0"), (4, put(file, 3, 1, 0)), (5, put(file, 4, 1, 0)),
                                (6, models.relength(file + b"\0")), (7, put(file, 5, 4, 100_000_001)),
                                (8, put(file, 9, 4, 0)), (16, put(file, 17, 4, 1_000_001)),
                                (9, put(file, 21, 4, 1_000_001)), (10, put(file, 21, 8, 0)),
                                (11, put(file, 33, 4, 10_000_001)), (12, put(file, 9, 4, 257))):
                for room in (0, 20_000):
                    self.kept(row, calculator.to_version_1, broken, room)
        for room in (0, 28, 29, 20_000):
            self.kept(17, calculator.to_version_1, last, room)
        self.kept(13, calculator.to_version_1, first, 28)

    def test_weight_elsewhere(self):
        file = models.build(1, 3, 1, 100, 1, [1, 2, 3], [[1, 1]] * 3)
        for weights in ((0, 1_000_000, 0), (0, 0, 1_000_000), (999_999, 1, 0), (999_999, 0, 1), (1, 999_998, 1)):
            self.kept(17, calculator.to_version_1, starting(file, *weights))
        for weights in ((1_000_000, 1, 0), (0, 0, 0), (1_000_000, 2**32 - 1, 1), (999_999, 0, 0)):
            self.kept(16, calculator.to_version_1, starting(file, *weights))
        self.there_and_back(file)

    def test_answers(self):
        self.assertEqual(calculator.answer(self.move(calculator.to_version_2, B, 37)[0]), 37)
        self.assertEqual(calculator.answer(self.move(calculator.to_version_1, B2, 37)[0]), 1_000_017)


class Practice(unittest.TestCase):
    """S-6: practice files from a seed number."""

    SEEDS = (0, 1, 2**31, 2**32 - 1, 123_456_789)
    NO_STATES = (0, 65, 66, 255, 256, 257, 2**16 + 1, 2**32, 2**32 + 1, 2**32 + 3, 2**63 + 1, 2**64 - 1)
    NO_HIGHEST = (0, 9, 10, 255, 256, 257, 2**16 + 1, 2**32, 2**32 + 1, 2**32 + 3, 2**63 + 1, 2**64 - 1)

    def deal(self, states, highest, seed, room):
        """The result, and the bytes after it, which were FF."""
        out = [255] * room
        return calculator.practice(states, highest, seed, out), bytes(out)

    def dealt(self, M, R, seed, right):
        """The file is dealt into just the bytes that it takes and into more; into fewer it is not."""
        for more in (0, 1, 40):
            self.assertEqual(self.deal(M, R, seed, len(right) + more),
                             (("bytes", len(right)), right + b"\xff" * more))
        for room in (len(right) - 1, len(right) - 2, 13, 1, 0):
            self.kept(13, M, R, seed, room)

    def kept(self, row, states, highest, seed, room):
        self.assertEqual(self.deal(states, highest, seed, room), (("refused", row), b"\xff" * room))

    def test_draws(self):
        """First draws by hand. From 0 the stream steps to the increment itself, 3C6EF35F. From 1 to 1664525 more,
        3C88596C, from 2^32 - 1, which is -1, to as much less, 3C558D52. From 2^31 the upper bit alone is the other one,
        at every step, as the multiplier is odd. The second step from 0 is 1013904223 * 1664526, of which 32 bits are
        47502932."""
        for seed, first in ((0, (0x3C6E, 0x4750, 0xD1CC, 0xAAF9, 0x6252)),
                            (1, (0x3C88, 0x5E88, 0x8116, 0xB473, 0x0CF0)),
                            (2**31, (0xBC6E, 0xC750, 0x51CC, 0x2AF9, 0xE252)),
                            (2**32 - 1, (0x3C55, 0x3017, 0x2283, 0xA17F, 0xB7B5))):
            self.assertEqual(tuple(itertools.islice(calculator.draws(seed), 5)), first)

    def test_small_files(self):
        """The draws above: 3C6E = 15,470 is 3 times 4,096 and more, so that the time is 4; BC6E is 11 times and more.
        The first reward is 1 more than its draw."""
        header = "00 0F 01 01 01 00 00 27 10", "00 1B 01 02 02 00 00 27 10"
        for M, R, seed, right in (
                (1, 1, 0, f"{header[0]} 00000004 00004751"),
                (1, 1, 1, f"{header[0]} 00000004 00005E89"),
                (1, 1, 2**31, f"{header[0]} 0000000C 0000C751"),
                (1, 1, 2**32 - 1, f"{header[0]} 00000004 00003018"),
                (2, 2, 0, f"{header[1]} 00000004 00004751 0000D1CC 0000AAF9 00006252"),
                (2, 2, 1, f"{header[1]} 00000004 00005E89 00008116 0000B473 00000CF0"),
                (2, 2, 2**31, f"{header[1]} 0000000C 0000C751 000051CC 00002AF9 0000E252"),
                (2, 2, 2**32 - 1, f"{header[1]} 00000004 00003018 00002283 0000A17F 0000B7B5")):
            self.dealt(M, R, seed, bytes.fromhex(right))

    def test_fields(self):
        """Against the stream in closed form: after n steps it is a^n times the seed number, and the increment times
        1 + a + ... + a^(n-1)."""
        a, c = 1664525, 1013904223
        for M, R, seed in ((1, 8, 7), (3, 2, 2**31 + 5), (5, 1, 99), (12, 3, 4_000_000_000)):
            drawn = [(a**n * seed + c * (a**n - 1) // (a - 1)) % 2**32 // 2**16 for n in range(1, M * M + 2)]
            rewards = [drawn[1] + 1] + drawn[2:M + 1]
            rates = [drawn[k:k + M - 1] for k in range(M + 1, M * M + 1, M - 1)] if M > 1 else [[]]
            self.dealt(M, R, seed, models.build(1, M, R, 10_000, drawn[0] // 4096 + 1, rewards, rates))

    def test_accepted(self):
        """Every number of states and every highest moment, with just the cells that the file needs."""
        for M in range(1, 65):
            for k, seed in enumerate(self.SEEDS):
                R = 1 + (M + k) % 8
                file = calculator.dealt(M, R, seed)
                self.assertEqual(len(file), 4 * M * M + 13)
                self.assertEqual((file[2], file[3], file[4], file[5:9]), (1, M, R, b"\0\0\x27\x10"))
                self.assertEqual((calculator.refusal(file, M * R), calculator.refusal(file, M * R - 1)), (0, 13))

    def test_worst_draws(self):
        """Draws that are all the least or all the largest: even so every file is accepted."""
        for draw, T, reward in ((0, 1, 1), (65_535, 16, 65_536)):
            with mock.patch.object(calculator, "draws", lambda seed, draw=draw: itertools.repeat(draw)):
                for M, R in itertools.product(range(1, 65), (1, 8)):
                    file = calculator.dealt(M, R, 0)
                    self.assertEqual(calculator.refusal(file, M * R), 0)
                    self.assertEqual(calculator.number(file, 9, 4), T)
                    self.assertEqual(calculator.read_rewards(file, M), [reward] + [draw] * (M - 1))
                    self.assertEqual([sum(row) for row in calculator.read_rates(file, M)], [(M - 1) * draw] * M)
        self.assertEqual(calculator.read_model(file).X, 66_059_280)

    def test_times(self):
        """Each of the sixteen times is dealt; the draws on both sides of where it changes."""
        for draw in (*range(0, 65_536, 4096), *range(4095, 65_536, 4096)):
            with mock.patch.object(calculator, "draws", lambda seed, draw=draw: itertools.repeat(draw)):
                self.assertEqual(calculator.dealt(1, 1, 0)[9:13], bytes([0, 0, 0, 1 + (draw >> 12)]))

    def test_row_4(self):
        for states in self.NO_STATES:
            for highest in (1, 8, *self.NO_HIGHEST):
                for room in (0, 13, 17, 20_000):
                    self.kept(4, states, highest, 5, room)
        self.assertEqual(self.deal(64, 1, 5, 20_000)[0], ("bytes", 16_397))

    def test_row_5(self):
        for highest in self.NO_HIGHEST:
            for states in (1, 2, 64):
                for room in (0, 16, 17, 20_000):
                    self.kept(5, states, highest, 5, room)
        self.assertEqual(self.deal(1, 8, 5, 17)[0], ("bytes", 17))

    def test_row_13(self):
        for M in (1, 2, 3, 8, 63, 64):
            size = 4 * M * M + 13
            for room in (0, 1, 12, 13, size - 4, size - 2, size - 1):
                self.kept(13, M, 8, 2**32 - 1, room)
            for room in (size, size + 1, size + 300):
                self.assertEqual(self.deal(M, 8, 2**32 - 1, room)[0], ("bytes", size))

    def test_answers(self):
        self.assertEqual(calculator.answer(self.deal(2, 2, 1, 29)[0]), 29)
        for row, numbers in ((4, (0, 0, 1, 0)), (5, (1, 0, 1, 0)), (13, (1, 1, 1, 0))):
            self.assertEqual(calculator.answer(self.deal(*numbers)[0]), 1_000_000 + row)


class ExactAverage(unittest.TestCase):

    def test_average_of_B(self):
        model = calculator.read_model(B)
        self.assertEqual(calculator.average(model, 3, 1, 1), Fraction(23, 32))
        self.assertEqual(calculator.average(model, 3, 2, 1), Fraction(9, 32))

    def test_B_is_printed_as_found_by_hand(self):
        cells = [None] * 4
        calculator.calculate(B, cells)
        rows = calculator.averages(calculator.read_model(B), [3])[3]
        self.assertEqual([Fraction(ticks, ONE) for ticks in cells], rows[0] + rows[1])

    def check_distance(self, where, ticks, average, tolerance, most_ticks):
        self.assertTrue(0 <= ticks <= ONE, where)
        self.assertLessEqual(abs(Fraction(ticks, ONE) - average), tolerance + Fraction(most_ticks, ONE), where)

    def check_demand_3(self, name, file):
        """Each printed moment against the average up to N and beyond, and each start figure against these weighted,
        where one tick more may be."""
        model = calculator.read_model(file)
        cells = [None] * calculator.block_size(file)
        _, N = calculator.calculate(file, cells)
        averages = calculator.averages(model, [N, N + 1, N + 7, N + 25])
        for L, rows in averages.items():
            tolerance = Fraction(model.epsilon, 10**9) if L > N else 0
            for r in range(1, model.R + 1):
                for i in range(model.M):
                    self.check_distance((name, L, i, r), cells[i * model.R + r - 1], rows[i][r - 1],
                                        tolerance, 3 * N + 2 * r + 3)
                if model.a:
                    self.check_distance((name, L, "start", r), cells[model.M * model.R + r - 1],
                                        calculator.start_averages(model, rows)[r - 1], tolerance, 3 * N + 2 * r + 4)

    def test_demand_3_on_small_models(self):
        for seed in range(100):
            rng = random.Random(seed)
            M = rng.randint(1, 5)
            E = rng.choice([models.log_uniform(rng, 1, 10_000_000), 10_000_000, 1_000_000, 3])
            T = models.log_uniform(rng, 1, max(1, 20_000_000 // E))
            fields = models.fields_for(rng, M, E, T, R=rng.randint(1, 5))
            self.check_demand_3(f"seed {seed}", models.build(**models.in_either_version(rng, fields)))

    def test_demand_3_on_valid_models(self):
        checked = 0
        for name, file in models.valid_models(3, 250):
            _, N = outcome(file, 520)
            if file[3]**2 * file[4] * N <= 4000:       # M * M * R * N: few enough fractions
                self.check_demand_3(name, file)
                checked += 1
        self.assertGreater(checked, 50)

    def test_demand_3_at_q_256(self):
        file = models.build(1, 2, 2, 1, 256, [3, 1], [[1_000_000], [700_000]])
        self.check_demand_3("q 256", file)
        self.check_demand_3("q 256, a start", starting(file, 333_333, 666_667))

    def test_start_average_of_B(self):
        model = calculator.read_model(starting(B, 1, 999_999))
        rows = calculator.averages(model, [3])[3]
        self.assertEqual(calculator.start_averages(model, rows)[0], Fraction(23 + 999_999 * 9, 32 * 10**6))


class EditedDemand3(unittest.TestCase):
    """Demand 3 with a part taken away is false, and B shows it: the proof cannot have been too easy."""

    def setUp(self):
        self.model = calculator.read_model(B)
        self.printed = Fraction(718750000000, ONE)     # state 1, r = 1, N = 3
        self.ticks = Fraction(3 * 3 + 2 * 1 + 3, ONE)

    def test_no_ticks_but_half_of_one(self):
        # The last division adds half a tick at most. B's moments are exact; with another rate the roundings before the
        # last division reach the digits.
        file = put(B, 21, 4, 10_000_000)
        cells = [None] * 4
        _, N = calculator.calculate(file, cells)
        average = calculator.average(calculator.read_model(file), N, 1, 1)
        self.assertGreater(abs(Fraction(cells[0], ONE) - average), Fraction(1, 2 * ONE))

    def test_no_tolerance_past_the_level(self):
        self.assertGreater(abs(self.printed - calculator.average(self.model, 10, 1, 1)), self.ticks)

    def test_weights_one_index_late(self):
        u = [calculator.exact_first(self.model)]
        for n in range(1, 4):
            u.append(calculator.exact_next(self.model, n, u[-1]))
        weight = [Fraction(1, math.factorial(n + 1)) for n in range(4)]    # q is 1
        late = sum(w * v[1][0] for w, v in zip(weight, u)) / sum(weight)
        self.assertGreater(abs(self.printed - late), self.ticks + Fraction(1, 100))


class Printing(unittest.TestCase):

    def test_moments_are_in_range_and_in_order(self):
        for name, file in models.valid_models(8, 40):
            lines = sheet(file).decode("ascii").split("\n")
            self.assertEqual(lines.pop(), "", name)
            M, R = file[3], file[4]
            firsts = [*range(1, M + 1), *(["start"] if file[2] == 2 else [])]
            self.assertEqual(len(lines), 1 + len(firsts) * R, name)
            for k, line in enumerate(lines[1:]):
                self.assertRegex(line, r"\A([0-9]+|start) [0-9] [01]\.[0-9]{12}\Z")
                self.assertTrue(line.startswith(f"{firsts[k // R]} {k % R + 1} "), name)
                self.assertLessEqual(line.split()[2], "1.000000000000")

    def test_lines_of_a_start(self):
        self.assertEqual(sheet(B2), B2_SHEET)
        self.assertEqual(sheet(starting(A, 1_000_000)), b"level 1\n1 1 1.000000000000\nstart 1 1.000000000000\n")
        self.assertEqual(sheet(EXAMPLES[16]), b"refused 16\n")


class Examples(unittest.TestCase):

    def stored(self, name):
        with open(os.path.join(os.path.dirname(HERE), "examples", name), "rb") as source:
            return source.read()

    def test_stored_sheets(self):
        self.assertEqual((self.stored("A.model"), self.stored("B.model")), (A, B))
        for name in ("A", "B", "pair", "multiprocessor", "multiprocessor-16"):
            self.assertEqual(sheet(self.stored(name + ".model")), self.stored(name + ".sheet"), name)

    def test_multiprocessor_against_closed_form(self):
        # Processors are almost never all down, so the mean is that of the buffer alone: an
        # on-off pair with failure rate a and repair rate b, started up.
        for name, stages, t in (("multiprocessor", 64, 720), ("multiprocessor-16", 1024, 100)):
            a, b = stages * 0.00131, 0.1666
            rest = (1 - math.exp(-(a + b) * t)) / ((a + b) * t)
            mean = b / (a + b) + a / (a + b) * rest
            printed = float(self.stored(name + ".sheet").split(b"\n")[1].split()[2])
            self.assertLess(abs(printed - mean), 0.00001, name)


class Program(unittest.TestCase):

    def run_program(self, arguments, given=b""):
        command = [sys.executable, "-B", os.path.join(HERE, "calculator.py")] + arguments
        return subprocess.run(command, input=given, capture_output=True, check=False)

    def test_standard_input(self):
        result = self.run_program([], B)
        self.assertEqual((result.returncode, result.stdout, result.stderr), (0, B_SHEET, b""))

    def test_empty_input(self):
        result = self.run_program([])
        self.assertEqual((result.returncode, result.stdout), (0, b"refused 1\n"))

    def test_long_input(self):
        result = self.run_program([], models.full_size(64) + bytes(100_000))
        self.assertEqual((result.returncode, result.stdout), (0, b"refused 2\n"))

    def test_version_2(self):
        result = self.run_program([], B2)
        self.assertEqual((result.returncode, result.stdout, result.stderr), (0, B2_SHEET, b""))

    def test_wrong_arguments(self):
        for arguments in (["no-such-file"], ["--wrong"], ["a", "b"], [HERE]):
            result = self.run_program(arguments)
            self.assertEqual((result.returncode, result.stdout), (2, b""))
            self.assertEqual(result.stderr.count(b"\n"), 1)


if __name__ == "__main__":
    unittest.main()
