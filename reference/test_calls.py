#!/usr/bin/env python3
"""Tests of the library's calls from Python and of their generated inputs: python3 reference/test_calls.py"""

import contextlib
import functools
import io
import itertools
import os
import subprocess
import sys
import tempfile
import unittest
from collections import Counter
from unittest import mock

sys.dont_write_bytecode = True
HERE = os.path.dirname(os.path.abspath(__file__))
sys.path.insert(0, HERE)

import calculator  # noqa: E402
import compare_calls  # noqa: E402
import inputs  # noqa: E402
import library  # noqa: E402
import models  # noqa: E402
import call_cases  # noqa: E402
import call_mistakes  # noqa: E402
import call_mutants  # noqa: E402
import cases  # noqa: E402
import count_mistakes  # noqa: E402
import mutants  # noqa: E402
import practice_mistakes  # noqa: E402
import run_calls  # noqa: E402
from inputs import MOST, NUMBERS, asked, calculating, limits, listing  # noqa: E402
from library import GUARD, PAINT, PAINT_BYTE  # noqa: E402
from mistakes import wrong  # noqa: E402

B = bytes.fromhex("001B01020205F5E100000000010000000100000000000F4240000F4240")

RUN_CALLS = os.path.join("..", "conformance", "run_calls.py")

# A library that goes wrong in the way that the file's first byte tells.
WRONG_LIBRARY = r"""
#include <stdint.h>
#include <stddef.h>
uint64_t kuldrepso_calculate(uint8_t *file, size_t file_length, uint64_t *cells, size_t cell_count,
                             uint64_t *row_means) {
    switch (file[0]) {
    case 1: cells[cell_count] = 7; break;
    case 2: cells[-1] = 7; break;
    case 3: file[1] = 7; break;
    case 4: file[file_length] = 7; break;
    case 5: file[-1] = 7; break;
    case 6: cells[cell_count + 8] = 7; break;
    case 7: *(volatile int *)8 = 7; break;
    case 8: row_means[1] = 7; break;
    case 9: row_means[-1] = 7; break;
    case 10: row_means[0] = 7; break;
    }
    if (cell_count > 0) cells[0] = 10 * file_length + cell_count;
    return UINT64_C(0xFFFFFFFFFFFFFFFF) - file[0];
}
uint64_t kuldrepso_remainders(uint8_t *file, size_t file_length, uint64_t state, uint64_t n, uint64_t r,
                              uint64_t *mean, uint64_t *share, uint64_t *mix) {
    switch (file[0]) {
    case 1: mean[1] = 7; break;
    case 2: share[-1] = 7; break;
    case 3: mix[9] = 7; break;
    case 4: file[file_length] = 7; break;
    }
    *mean = state;
    *share = n;
    if (r != 0) *mix = r;
    return 10 * file_length;
}
uint64_t kuldrepso_to_version_2(uint8_t *file, size_t file_length, uint8_t *out, size_t out_length) {
    switch (file[0]) {
    case 1: out[out_length] = 7; break;
    case 2: out[-1] = 7; break;
    case 3: file[2] = 7; break;
    case 4: file[file_length] = 7; break;
    }
    if (out_length > 2) out[2] = 2;
    return 10 * file_length + out_length;
}
uint64_t kuldrepso_practice(uint64_t states, uint64_t highest, uint32_t seed, uint8_t *out, size_t out_length) {
    switch (seed) {
    case 1: out[out_length] = 7; break;
    case 2: out[-1] = 7; break;
    case 3: out[out_length + 8] = 7; break;
    }
    if (out_length > 2) out[2] = (uint8_t)(seed >> 24);
    return states - highest;
}
uint64_t kuldrepso_probe(uint32_t number, uint8_t *out, size_t out_count) {
    if (out_count > 1) out[0] = 200, out[1] = (uint8_t)number;
    return number + out_count;
}
"""
PROBE = dict(probe=library.parameters("number:u32 out:u8[]*"))


def given_all(seed, count, call="series"):
    return [each.given for each in inputs.GENERATED[call](seed, count)]


def reached(call, given):
    return inputs.reached(call, given, inputs.outcome(calculator, call, given))


def all_reached(call, seed, count):
    return [each for given in given_all(seed, count, call) for each in reached(call, given)]


def worked_line(given):
    """The line of the worked table that an input asks for, worked out to its n."""
    model = calculator.read_model(given["file"])
    state, n, r = (given[name] for name in NUMBERS)
    return calculator.Line(n, r, state, *calculator.divisions(
        model, calculator.reward_vectors(model, n), n, r, state - 1))


class Reference:
    """A library that is the reference itself, or a module like it; `before` may change what a call is given, `after`
    what it gives."""

    def __init__(self, before=lambda given: given, after=lambda given, answer, written: (answer, written),
                 program=calculator):
        self.before, self.after, self.program = before, after, program

    def call(self, name, given):
        return (*self.after(given, *inputs.outcome(self.program, name, self.before(given))), [])


class Inputs(unittest.TestCase):

    def test_aimed_inputs_reach_their_row_and_end(self):
        for call in library.CALLS:
            for name, _, given in inputs.GENERATED[call](2, 200):
                found, aim = reached(call, given), name[6:]
                if "row-" in aim:
                    self.assertEqual(found[0], int(aim[-2:]), name)
                elif aim in ("accepted", "64-states", "long-run") or (
                        call == "remainders" and aim in inputs.ENDS[call]):
                    self.assertEqual(found[0], 0, name)
                if aim.startswith("file-"):
                    self.assertIn(aim[5:], inputs.file_ends(call, given, inputs.outcome(calculator, call, given)), name)
                if aim in inputs.ENDS[call]:
                    self.assertIn(aim, found, name)

    def test_each_row_and_end_is_reached(self):
        for call in library.CALLS:
            found = all_reached(call, 3, 2 * inputs.enough(call))
            self.assertGreater(min(inputs.tally(call, found).values()), 1, call)
            self.assertLessEqual(set(found), {0, *inputs.ROWS[call], *inputs.ENDS[call]}, call)
            self.assertTrue(all(inputs.tally(call, all_reached(call, 20, inputs.enough(call))).values()), call)

    def test_rows_are_those_of_the_papers(self):
        to_8 = [1, 2, 3, 4, 5, 6, 7, 8]
        self.assertEqual(inputs.ROWS["calculate"], to_8 + [16, 9, 10, 11, 12, 13])
        self.assertEqual(inputs.ROWS["series"], to_8 + [16, 9, 10, 11, 14, 15, 12, 13])
        self.assertEqual(inputs.ROWS["remainders"], to_8 + [16, 9, 10, 11, 12])
        self.assertEqual(inputs.ROWS["to_version_2"], to_8 + [9, 10, 11, 12, 13])
        self.assertEqual(inputs.ROWS["to_version_1"], to_8 + [16, 9, 10, 11, 12, 17, 13])
        self.assertEqual(inputs.ROWS["practice"], [4, 5, 13])
        for call, rows in inputs.ROWS.items():
            self.assertGreaterEqual(inputs.enough(call), 3 * len(rows))

    def test_tally_words(self):
        for call, ends in (("calculate", 25), ("series", 25), ("remainders", 40), ("to_version_2", 13),
                           ("to_version_1", 26), ("practice", 29)):
            counts = inputs.tally(call, [0, *inputs.ROWS[call], *inputs.ENDS[call], 2, 2])
            words = ", ".join(f"{row}: {3 if row == 2 else 1}" for row in inputs.ROWS[call])
            self.assertEqual(inputs.tally_words(call, counts),
                             f"accepted 1; refused {words}; {ends} ends, each at least 1 times")

    def test_same_seed_same_inputs(self):
        for call in library.CALLS:
            self.assertEqual(given_all(5, 60, call), given_all(5, 60, call))
            self.assertNotEqual(given_all(5, 60, call), given_all(6, 60, call))

    def test_lists(self):
        lists = [given["times"] for given in given_all(1, 1200)]
        counts = {len(times) for times in lists}
        self.assertLessEqual({0, 1, 2, 3, 5, 7, 8, 9, 10}, counts)
        neighbours = [pair for times in lists for pair in zip(times, times[1:])]
        for word, found in (("first 0", [times for times in lists if times[:1] == [0]]),
                            ("first 0 of 9 or more", [times for times in lists if times[:1] == [0] and len(times) > 8]),
                            ("0 later", [pair for pair in neighbours if pair[1] == 0]),
                            ("equal", [pair for pair in neighbours if pair[0] == pair[1]]),
                            ("falling", [pair for pair in neighbours if pair[0] > pair[1]]),
                            ("close", [pair for pair in neighbours if pair[0] + 1 == pair[1]]),
                            ("2^32 - 1", [times for times in lists if 2**32 - 1 in times]),
                            ("2^32 - 1 last", [times for times in lists if times[-1:] == [2**32 - 1]])):
            self.assertGreater(len(found), 2, word)

    def test_own_time_and_list(self):
        """Row 12 holds for the file's own time and not for the list, and the other way round."""
        own = listed = both = 0
        for given in given_all(1, 800):
            by_list = calculator.series_refusal(*map(given.get, ("file", "times", "levels", "cells")))
            by_file = calculator.refusal(given["file"], 10**6)
            own += (by_file, by_list) == (12, 0)
            listed += (by_file, by_list) == (0, 12)
            both += (by_file, by_list) == (12, 12)
        self.assertGreater(min(own, listed, both), 5)

    def test_counts(self):
        short = {"levels": set(), "cells": set()}
        for given in given_all(1, 400):
            if given["times"] and calculator.series_refusal(given["file"], given["times"], 9, 10**6) == 0:
                short["levels"].add(given["levels"] - len(given["times"]))
                short["cells"].add(given["cells"] - len(given["times"]) * inputs.need(given["file"]))
        for name, off in short.items():
            self.assertLessEqual({-1, 0, 1}, off, name)
            self.assertLess(min(off), -2, name)
            self.assertGreater(max(off), 5, name)


class RowMeansInputs(unittest.TestCase):

    @classmethod
    def setUpClass(cls):
        """For each call some accepted inputs, with what is written."""
        cls.accepted = {}
        for call in ("calculate", "series"):
            results = ((given, *inputs.outcome(calculator, call, given)) for given in given_all(1, 400, call))
            cls.accepted[call] = [(given, written) for given, answer, written in results if answer < calculator.REFUSED]

    def test_numbers(self):
        """Numbers past 8 and 16 bits; 1 state and 64; one moment; version 2; states without an arrow; weights of 0."""
        for call, accepted in self.accepted.items():
            found = Counter()
            for given, written in accepted:
                model, row_means = calculator.read_model(given["file"]), written["row_means"][0]
                X = model.E * given.get("times", [model.T])[-1]
                found["past 8 bits"] += row_means >= 2**8
                found["past 16 bits"] += row_means >= 2**16
                found["1 state"] += model.M == 1
                found["64 states"] += model.M == 64
                found["1 moment"] += model.R == 1
                found["version 2"] += bool(model.a)
                found["no arrow"] += any(row[i] == model.E for i, row in enumerate(model.c))
                found["no weight"] += 0 in calculator.weights(X, X // 10**6)[1:]
            self.assertEqual(len(found), 8)
            self.assertTrue(all(found.values()), (call, found))

    def test_levels_of_lists(self):
        """Lists whose first level is below the largest, and lists of one time; no list falls."""
        rising = alone = 0
        for given, written in self.accepted["series"]:
            levels, file = written["levels"][:len(given["times"])], given["file"]
            self.assertEqual(written["row_means"], [levels[-1] * file[3] * file[4]])
            rising += levels[0] < levels[-1]
            alone += len(levels) == 1
        self.assertGreater(min(rising, alone), 10)


class Version2Inputs(unittest.TestCase):

    @classmethod
    def setUpClass(cls):
        """For each call the row that each of some inputs reaches, with its file."""
        cls.files = {call: [(reached(call, given)[0], given["file"]) for given in given_all(1, 400, call)]
                     for call in inputs.VERSIONS}

    def weights(self, call, *rows):
        """The starting weights of version 2 files that these rows stop, or none for 0."""
        return [inputs.weights_of(file) for row, file in self.files[call] if row in rows and file[2] == 2]

    def test_sums(self):
        for call in ("calculate", "series", "remainders", "to_version_1"):
            found = [sum(weights) for weights in self.weights(call, 16)]
            for word, holds in (("0", lambda total: total == 0),
                                ("one below", lambda total: total == 999_999),
                                ("one above", lambda total: total == 1_000_001),
                                ("past 2^32", lambda total: total >= 2**32),
                                ("right in 32 bits", lambda total: total % 2**32 == 10**6)):
                self.assertGreater(sum(map(holds, found)), 2, (call, word))

    def test_starts(self):
        for call in ("calculate", "series", "remainders", "to_version_1"):
            found = self.weights(call, 0, 17)
            for end, (_, holds) in inputs.START_ENDS.items():
                self.assertGreater(sum(map(holds, found)), 4, (call, end))

    def test_versions(self):
        for call, versions in inputs.VERSIONS.items():
            for row in (0, 7, 12):
                found = Counter(file[2] for each, file in self.files[call] if each == row)
                self.assertEqual(set(found), set(versions), (call, row))
            refused = {file[2] for row, file in self.files[call] if row == 3}
            self.assertLessEqual({0, 3, 255} | {1, 2} - set(versions), refused, call)
            self.assertFalse(refused & set(versions), call)

    def test_moved_there_and_back(self):
        """The accepted files of either call, moved and moved back."""
        for call, back in (("to_version_2", "to_version_1"), ("to_version_1", "to_version_2")):
            moved = 0
            for given in given_all(2, 300, call):
                count, written = inputs.outcome(calculator, call, given)
                if count < calculator.REFUSED:
                    other = bytes(written["out"][:count])
                    again, bytes_of = inputs.outcome(calculator, back, dict(file=other, out=len(given["file"])))
                    self.assertEqual((again, bytes(bytes_of["out"])), (len(given["file"]), given["file"]))
                    moved += 1
            self.assertGreater(moved, 80)


class RemaindersInputs(unittest.TestCase):

    def ends(self, file, state, n, r):
        """The ends that an input reaches, without those of its model."""
        found = reached("remainders", asked(file, state=state, n=n, r=r))
        return [each for each in found if each not in inputs.MODELS]

    def test_ends(self):
        # File B: two states, level 3, two moments.
        self.assertEqual(self.ends(B, 1, 2, 1), [0, "given", "state-1", "r-1"])
        self.assertEqual(self.ends(B, 2, 3, 2), [0, "given", "state-limit", "n-limit", "r-limit"])
        for place, number in (("0", 0), ("past-32-bits", 2**32 + 1), ("largest", 2**64 - 1)):
            self.assertEqual(self.ends(B, number, 2, 2), [0, "none", f"state-{place}"])
            self.assertEqual(self.ends(B, 2, number, 2), [0, "none", f"n-{place}"])
            self.assertEqual(self.ends(B, 2, 2, number), [0, "none", f"r-{place}"])
        self.assertEqual(self.ends(B, 3, 2, 2), [0, "none", "state-past-limit"])
        self.assertEqual(self.ends(B, 2, 4, 2), [0, "none", "n-past-limit"])
        self.assertEqual(self.ends(B, 2, 2, 3), [0, "none", "r-past-limit"])
        self.assertEqual(self.ends(B, 0, 4, 2), [0, "none"])
        self.assertEqual(self.ends(B, 0, 4, 3), [0, "none", "outside"])
        self.assertEqual(self.ends(b"", 64, 0, 0), [1])
        self.assertEqual(self.ends(b"", 65, 1025, 9), [1, "outside-row-01"])
        self.assertEqual(len(set(inputs.ENDS["remainders"])), 2 + 1 + 13 + 18 + 6)

    def test_models(self):
        for M, rewards, rates, state, found in (
                (1, [5], [[]], 1, {"1-state"}),
                (2, [5, 0], [[0], [0]], 2, {"no-rates", "reward-0"}),
                (2, [5, 5], [[0], [3]], 1, {"absorbing-state"}),
                (2, [5, 5], [[0], [3]], 2, set()),
                (64, [5] * 64, [[1] * 63] * 64, 1, {"64-states"})):
            file = models.build(1, M, 1, 100_000_000, 1, rewards, rates)
            given = asked(file, state=state, n=1, r=1)
            self.assertEqual(set(reached("remainders", given)) & set(inputs.MODELS), found)
        small = models.build(1, 2, 2, 100_000_000, 1, [7, 3], [[3], [1]])
        self.assertIn("rests-above-0", reached("remainders", asked(small, state=2, n=1, r=2)))
        self.assertNotIn("rests-above-0", reached("remainders", asked(small, state=2, n=1, r=1)))

    def test_numbers(self):
        """Numbers outside that are within their limits in 8, 16 or 32 bits; n past 100; sums of V past 2^63."""
        found = Counter()
        for given in given_all(1, 600, "remainders"):
            file, numbers = given["file"], [given[name] for name in NUMBERS]
            word = calculator.rests(file, *numbers)[0]
            if word == "none":
                for bits in (8, 16, 32):
                    low = (number % 2**bits for number in numbers)
                    found[bits] += all(1 <= number <= limit for number, limit in zip(low, limits(file).values()))
            elif word == "given":
                line = worked_line(given)
                found["far"] += line.n > 100
                found["large"] += line.V * calculator.read_model(file).E + line.rest_V >= 2**63
        self.assertGreater(min(found[word] for word in (8, 16, 32, "far", "large")), 5, found)


class PracticeInputs(unittest.TestCase):

    def ends(self, states, highest, seed, out):
        return reached("practice", dict(states=states, highest=highest, seed=seed, out=out))

    def test_ends(self):
        self.assertEqual(self.ends(2, 3, 7, 29), [0, "room-just-enough"])
        self.assertEqual(self.ends(1, 8, 0, 20), [0, "states-1", "highest-limit", "room-three-more", "seed-0"])
        self.assertEqual(self.ends(64, 1, 2**32 - 1, 16_396), [13, "states-limit", "highest-1", "room-one-less"])
        self.assertEqual(self.ends(2, 3, 2**31, 27), [13, "room-other"])
        for place, number in (("0", 0), ("past-32-bits", 2**32 + 1), ("largest", 2**64 - 1)):
            self.assertEqual(self.ends(number, 3, 1, 0), [4, f"states-{place}"])
            self.assertEqual(self.ends(2, number, 1, 0), [5, f"highest-{place}"])
            self.assertEqual(self.ends(number, number, 1, 0), [4])
        self.assertEqual(self.ends(65, 3, 1, 29), [4, "states-past-limit"])
        self.assertEqual(self.ends(2, 9, 1, 29), [5, "highest-past-limit"])
        self.assertEqual(len(set(inputs.ENDS["practice"])), 12 + 4 + 8 + 5)

    def test_seeds(self):
        """The seed numbers with draws at an end have them, whatever stands below."""
        for end, (step, draw) in inputs.DRAWS.items():
            for low in (0, 77, 2**16 - 1):
                seed = inputs.seed_drawing(step, draw, low)
                self.assertEqual(list(itertools.islice(calculator.draws(seed), step))[-1], draw)
                self.assertIn(end, self.ends(2, 3, seed, 29))

    def test_numbers(self):
        """Numbers outside that are within their limits in 8, 16 or 32 bits; many states and many seed numbers."""
        found, states, seeds = Counter(), set(), set()
        for given in given_all(1, 600, "practice"):
            row = reached("practice", given)[0]
            if row in (4, 5):
                number, limit = (given["states"], 64) if row == 4 else (given["highest"], 8)
                for bits in (8, 16, 32):
                    found[row, bits] += 1 <= number % 2**bits <= limit
            elif row == 0:
                states.add(given["states"])
                seeds.add(given["seed"])
        self.assertGreater(min(found[row, bits] for row in (4, 5) for bits in (8, 16, 32)), 5, found)
        self.assertGreater(min(len(states), len(seeds) // 4), 40)


class Cases(unittest.TestCase):

    def test_there_and_back(self):
        for call in library.CALLS:
            made = [cases.case(name, call, given, inputs.outcome(calculator, call, given))
                    for name, _, given in inputs.GENERATED[call](4, 80)]
            self.assertEqual(cases.read(cases.text(made)), made)
            for each in made:
                self.assertEqual(cases.expected(each), inputs.outcome(calculator, call, each.given))

    def test_element_written_with_the_number_that_it_has(self):
        with mock.patch.dict(library.CALLS, PROBE):
            result = (13, {"out": [200, *library.painted(3, "u8", 1)]})
            other = (13, {"out": [200, PAINT_BYTE + 1, *library.painted(2, "u8", 2, True)]})
            self.assertEqual(cases.case("a", "probe", dict(number=1, out=4), result).written, {"out": [200]})
            made = cases.case("a", "probe", dict(number=1, out=4), result, other)
            self.assertEqual(made.written, {"out": [200, PAINT_BYTE + 1]})
            self.assertEqual(cases.text([made]), "name a\ncall probe\nnumber 1\nout_lent 4\nanswer 13\nout C881\n")
            self.assertEqual(cases.read(cases.text([made])), [made])
            self.assertEqual(cases.expected(made), result)

    def test_text(self):
        given = listing(B, [1], 2, 5)
        made = cases.case("B", "series", given, inputs.outcome(calculator, "series", given))
        refused = cases.case("none", "series", dict(given, file=b"", times=[]), (1_000_001, {
            "levels": library.painted(2), "cells": library.painted(5), "row_means": library.painted(1)}))
        self.assertEqual(cases.text([made, refused]), (
            "name B\ncall series\nfile 001B01020205F5E100000000010000000100000000000F4240000F4240\ntimes 1\n"
            "levels_lent 2\ncells_lent 5\nrow_means_lent 1\nanswer 1\nlevels 3\n"
            "cells 718750000000 612500000000 281250000000 175000000000\nrow_means 12\n"
            "\nname none\ncall series\nfile\ntimes\nlevels_lent 2\ncells_lent 5\nrow_means_lent 1\n"
            "answer 1000001\n"))

    def test_text_of_numbers_that_are_written(self):
        given = asked(B, state=1, n=3, r=1)
        made = cases.case("B", "remainders", given, inputs.outcome(calculator, "remainders", given))
        self.assertEqual(cases.text([made]), (
            "name B\ncall remainders\nfile 001B01020205F5E100000000010000000100000000000F4240000F4240\n"
            "state 1\nn 3\nr 1\nmean_lent 1\nshare_lent 1\nmix_lent 1\nanswer 0\nmean 0\nshare 0\nmix 3\n"))


    def test_text_of_a_moved_file(self):
        given = dict(file=B, out=40)
        made = cases.case("B", "to_version_2", given, inputs.outcome(calculator, "to_version_2", given))
        self.assertEqual(cases.text([made]), (
            "name B\ncall to_version_2\nfile 001B01020205F5E100000000010000000100000000000F4240000F4240\n"
            "out_lent 40\nanswer 37\n"
            "out 002302020205F5E10000000001000F4240000000000000000100000000000F4240000F4240\n"))


    def test_text_of_a_practice_file(self):
        given = dict(states=1, highest=1, seed=2**31, out=19)
        made = cases.case("dealt", "practice", given, inputs.outcome(calculator, "practice", given))
        self.assertEqual(cases.text([made]), (
            "name dealt\ncall practice\nstates 1\nhighest 1\nseed 2147483648\nout_lent 19\nanswer 17\n"
            "out 000F010101000027100000000C0000C751\n"))


class Kit(unittest.TestCase):
    """The stored calls of conformance/calls, and the wrong calls that they have to catch."""

    def test_every_row_is_stored(self):
        for call in call_cases.GROUPS:
            rows = Counter(inputs.row_of(each.answer) for each in run_calls.stored() if each.call == call)
            self.assertEqual(set(rows), {0, *inputs.ROWS[call]}, call)
            self.assertGreater(min(rows.values()), 1, call)

    def test_form(self):
        for name in os.listdir(run_calls.CALLS):
            with open(os.path.join(run_calls.CALLS, name), encoding="ascii", newline="") as source:
                content = source.read()
            self.assertRegex(content, r"\A(name [a-z0-9AB-]+\n([a-z_]+( [0-9A-F]+)*\n|call [a-z0-9_]+\n)+\n?)+\Z", name)
            self.assertFalse(content.endswith("\n\n"), name)
            self.assertEqual(cases.text(cases.read(content)), content, name)

    def test_wrong_calls(self):
        kit = [each for each in run_calls.stored() if each.call == "series"][:100]
        self.assertEqual(call_mutants.catches(call_mistakes.RIGHT, kit), [])
        for entry, enough in ((call_mistakes.TABLE["series"]["answer-0"], True), (call_mistakes.EQUIVALENT[0], False)):
            with contextlib.redirect_stdout(io.StringIO()) as said:
                self.assertEqual(call_mutants.judge("series", entry, kit), enough)
            self.assertEqual("caught by none: fewer than two" in said.getvalue(), not enough)


# --- Wrong calls of remainders ---------------------------------------------------------------------------

def moved(change):
    """The reference with state, n and r changed before the call, by a function of them and of their limits."""
    return Reference(before=lambda given: {**given, **change(
        {name: given[name] for name in NUMBERS}, limits(given["file"]))})


def given_otherwise(change):
    """The reference with other rests where they are given, by a function of the worked line and of the input."""
    def after(given, answer, written):
        if answer == calculator.GIVEN:
            written.update(change(worked_line(given), given))
        return answer, written
    return Reference(after=after)


def low_bits(*names):
    return moved(lambda numbers, limit: {name: numbers[name] % 2**32 for name in names})


def from_to(name, place, other):
    """A number at a place taken for one at another."""
    at, to = inputs.PLACES[place], inputs.PLACES[other]
    return moved(lambda numbers, limit: {name: to(limit[name])} if numbers[name] == at(limit[name]) else {})


def none_first(name):
    """None answered before a file's refusal where this number is outside for every file."""
    return Reference(after=lambda given, answer, written: (
        answer if 1 <= given[name] <= MOST[name] else calculator.NONE, written))


def written_when(word, holds):
    """A number written where it has to stay."""
    return Reference(after=lambda given, answer, written: (
        answer, {**written, word: [0]} if holds(answer) else written))


def share_of_the_n_before(line, given):
    """The rest of W from U(n-1,r-1)."""
    model = calculator.read_model(given["file"])
    U = calculator.reward_vectors(model, line.n - 1)
    return {"share": [model.f[line.state - 1] * U[line.n - 1][line.r - 1][line.state - 1] % model.F]}


WRONG_REMAINDERS = {
    "rest of U by n": given_otherwise(lambda line, given: {"mix": [(line.n * line.V + line.r * line.W) % line.n]}),
    "W from U(n-1,r-1)": given_otherwise(share_of_the_n_before),
    "rest of V for that of W": given_otherwise(lambda line, given: {"share": [line.rest_V]}),
    "rests of V and U exchanged": given_otherwise(lambda line, given: {"mean": [line.rest_U], "mix": [line.rest_V]}),
    "low 32 bits": low_bits(*NUMBERS),
    **{f"low 32 bits of {name}": low_bits(name) for name in NUMBERS},
    **{f"none at the limit of {name}": from_to(name, "limit", "0") for name in NUMBERS},
    **{f"given past the limit of {name}": from_to(name, "past-limit", "limit") for name in NUMBERS},
    **{f"given at {name} 0": from_to(name, "0", "1") for name in NUMBERS},
    **{f"given at the largest {name}": from_to(name, "largest", "1") for name in NUMBERS},
    **{f"none by {name} before a refusal": none_first(name) for name in NUMBERS},
    **{f"{word} written on none": written_when(word, lambda answer: answer == calculator.NONE)
       for word in ("mean", "share", "mix")},
    **{f"{word} written on refusal {row}": written_when(word, lambda answer, row=row: inputs.row_of(answer) == row)
       for word, row in (("mean", 1), ("share", 6), ("mix", 12))},
}


# --- Wrong calls of version 2 and the converter ------------------------------------------------------------

# Parts of calculator.py.
ROW_16 = "    if file[2] == 2 and sum(read_starts(file, M)) != MILLION:\n        return 16\n"
ROW_8 = "    if T == 0:\n        return 8\n"
TO_9 = "    f = read_rewards(file, M)\n    if max(f) > 1_000_000:\n        return 9\n"
SUM = "sum(read_starts(file, M))"
VERSIONS = "versions=(1, 2)"
REWARDS = "first = first_reward(file, M)\n"
WEIGHTS = "number(file, 13 + 4 * i, 4)"
WEIGHTED = "sum(map(mul, model.a, moments[r - 1::model.R]))"
FIGURE = WEIGHTED + " // MILLION"
ON_FIRST = 'MILLION.to_bytes(4, "big") + bytes(4 * (file[3] - 1))'
WITH_STARTS = "file[3:13] + starts + file[13:]"
WITHOUT = "file[3:13] + file[13 + 4 * file[3]:]"
ELSEWHERE = "any(read_starts(file, file[3])[1:])"
ROW_17 = f"    if not row and {ELSEWHERE}:\n        row = 17\n"
SHORT = "    if len(out) < len(file):\n"
LAY = "    out[:len(file)] = file\n"
BACK = "if row else written(as_version_1(file), out)"

# What goes wrong where these parts are changed, by the calls that have to show it.
WRONG_TEXTS = {
    ("calculate", "series", "remainders", "to_version_1"): (
        wrong("16-before-8", "", (ROW_8 + ROW_16, ROW_16 + ROW_8)),
        wrong("16-after-9", "", (ROW_16 + TO_9, TO_9 + ROW_16)),
        wrong("16-left-out", "", (ROW_16, "")),
        wrong("16-in-32-bits", "", (SUM, f"{SUM} % 2**32")),
        wrong("16-above-alone", "", (f"{SUM} != MILLION", f"{SUM} > MILLION")),
        wrong("16-below-alone", "", (f"{SUM} != MILLION", f"{SUM} < MILLION")),
        wrong("16-without-first", "", (SUM, SUM.replace("M))", "M)[1:])"))),
        wrong("16-without-last", "", (SUM, SUM.replace("M))", "M)[:-1])"))),
        wrong("weights-after-rewards", "", (WEIGHTS, "number(file, 13 + 4 * M + 4 * i, 4)"), (REWARDS, "first = 13\n")),
        wrong("rewards-at-13", "", (REWARDS, "first = 13\n")),
        wrong("6-of-version-1", "", ("right_length(file[2], M)", "right_length(1, M)")),
    ),
    ("calculate", "series"): (
        wrong("version-0-admitted", "", (VERSIONS, "versions=(0, 1, 2)")),
        wrong("version-2-refused", "", (VERSIONS, "versions=(1,)")),
        wrong("version-3-admitted", "", (VERSIONS, "versions=(1, 2, 3)")),
        wrong("start-to-the-nearest", "", (FIGURE, f"({WEIGHTED} + 500_000) // MILLION")),
        wrong("start-up", "", (FIGURE, f"-(-{WEIGHTED} // MILLION)")),
        wrong("start-product-by-product", "",
              (FIGURE, "sum(a * m // MILLION for a, m in zip(model.a, moments[r - 1::model.R]))")),
        wrong("start-of-state-1", "", (FIGURE, "moments[r - 1]")),
        wrong("start-without-last", "", (FIGURE, FIGURE.replace("model.a", "model.a[:-1]"))),
        wrong("13-of-the-moments", "", ("if cells < block_size(file)", "if cells < M * R"),
              ("len(times) * block_size(file)", "len(times) * model.M * model.R")),
    ),
    ("to_version_2", "to_version_1"): (
        wrong("both-versions", "", ("LENT_CELLS, [1])", "LENT_CELLS)"), ("LENT_CELLS, [2])", "LENT_CELLS)")),
        wrong("13-left-out", "", (SHORT, "    if False:\n")),
        wrong("13-for-just-enough", "", (SHORT, "    if len(out) <= len(file):\n")),
        wrong("count-one-more", "", ('("bytes", len(file))', '("bytes", len(file) + 1)')),
        wrong("byte-past-the-end", "", (LAY, LAY + "    out[len(file):len(file) + 1] = [0]\n")),
        wrong("written-before-13", "", (SHORT, "    out[:] = [*file[:len(out)], *out[len(file):]]\n" + SHORT)),
        wrong("length-one-more", "", ("(1 + len(fields))", "(2 + len(fields))")),
        wrong("version-stays", "", ("bytes([version])", "bytes([3 - version])")),
        wrong("version-not-written", "", (LAY, f"    kept = out[2]\n{LAY}    out[2] = kept\n")),
    ),
    ("to_version_2",): (
        wrong("weight-on-last", "", (ON_FIRST, 'bytes(4 * (file[3] - 1)) + MILLION.to_bytes(4, "big")')),
        wrong("weights-behind-rewards", "",
              (WITH_STARTS, "file[3:13 + 4 * file[3]] + starts + file[13 + 4 * file[3]:]")),
    ),
    ("to_version_1",): (
        wrong("17-left-out", "", (ROW_17, "")),
        wrong("17-before-12", "", (ROW_17, ROW_17.replace("not row", "row in (0, 12)"))),
        wrong("17-before-16", "", (ROW_17, ROW_17.replace("not row", "row in (0, 16)"))),
        wrong("17-after-13", "", (ELSEWHERE, f"{ELSEWHERE} and len(out) >= len(file) - 4 * file[3]")),
        wrong("17-state-2-alone", "", (ELSEWHERE, ELSEWHERE.replace("[1:]", "[1:2]"))),
        wrong("17-last-state-alone", "", (ELSEWHERE, ELSEWHERE.replace("[1:]", "[1:][-1:]"))),
        wrong("13-for-less-than-the-file", "",
              (BACK, BACK.replace("else", 'else ("refused", 13) if len(out) < len(file) else'))),
        wrong("rewards-dropped", "", (WITHOUT, "file[3:13 + 4 * file[3]] + file[13 + 8 * file[3]:]")),
    ),
    ("calculate",): count_mistakes.CALCULATE,
    ("series",): count_mistakes.SERIES,
    # All those of the kit but one: no drawn slice has 2^16 bytes.
    ("practice",): [entry for entry in practice_mistakes.TABLE if entry.name != "row-13-16-bit-count"],
}


class Comparison(unittest.TestCase):

    def compare(self, linked, call="series", count=50, draw=None):
        """The status of a comparison, and what it prints; files go to a folder of their own."""
        with tempfile.TemporaryDirectory() as folder, contextlib.redirect_stdout(io.StringIO()) as said:
            with mock.patch.multiple(library, FOLDER=folder, UNDER_WAY=os.path.join(folder, "under-way")):
                with mock.patch.dict(inputs.GENERATED, {call: draw or inputs.GENERATED[call]}):
                    status = compare_calls.compare(linked, call, count, 7)
                saved = [name for name in os.listdir(folder) if name.startswith("difference")]
        return status, said.getvalue(), saved

    def test_equal(self):
        for call, ends in inputs.ENDS.items():
            status, said, saved = self.compare(Reference(), call, inputs.enough(call))
            self.assertEqual((status, saved), (0, []))
            self.assertRegex(said, rf"\Acompared \d+ inputs of {call}, seed 7: all equal "
                                   rf"\(accepted \d+; refused {inputs.ROWS[call][0]}: \d+, .*; {len(ends)} ends, "
                                   r"each at least \d+ times\)\n\Z")

    def test_different(self):
        def one_more(given, answer, written):
            if answer < calculator.REFUSED:
                written["levels"][answer - 1] += 1
            return answer, written

        status, said, saved = self.compare(Reference(after=one_more))
        self.assertEqual((status, len(saved)), (1, 1))
        self.assertRegex(said, r"\Aseries 00001-accepted: levels\[\d\]: expected \d+, got \d+\n"
                               r"input 2 of 50 differs, seed 7; it is saved as .*seed7-series-00001-accepted.txt\n\Z")

    def test_number_written_by_a_refusal(self):
        def cleared(given, answer, written):
            return answer, {**written, "row_means": [0]} if answer > calculator.REFUSED else written

        status, said, saved = self.compare(Reference(after=cleared))
        self.assertEqual((status, len(saved)), (1, 1))
        self.assertRegex(said, rf"\Aseries 00000-row-01: row_means\[0\]: expected {PAINT} \(as it was\), got 0\n")

    def test_wrong_remainders(self):
        for word, linked in WRONG_REMAINDERS.items():
            status, said, saved = self.compare(linked, "remainders", 2 * inputs.enough("remainders"))
            self.assertEqual((status, len(saved)), (1, 1), word)
            self.assertRegex(said, r"\Aremainders \d{5}-.*: .*expected \d+.*, got \d+\n", word)

    def test_wrong_texts(self):
        """Each wrong text is told by some input of each of its calls."""
        drawn = {call: given_all(7, 4 * inputs.enough(call), call) for call in library.CALLS}
        right = functools.lru_cache(None)(lambda call, k: cases.case(
            k, call, drawn[call][k], inputs.outcome(calculator, call, drawn[call][k])))
        for calls, entries in WRONG_TEXTS.items():
            for entry in entries:
                program = mutants.module(entry, call_mistakes.HELPERS)
                for call in calls:
                    self.assertTrue(any(call_mutants.caught(program, right(call, k))
                                        for k in range(len(drawn[call]))), (call, entry.name))

    def test_what_is_never_reached_is_told(self):
        for call, missing in (("calculate", 16), ("calculate", "sum-right-in-32-bits"), ("remainders", "n-largest"),
                              ("remainders", "r-past-limit"), ("remainders", "64-states"),
                              ("remainders", "outside-row-12"), ("to_version_2", 0), ("to_version_2", "room-other"),
                              ("to_version_1", 17), ("practice", 5), ("practice", "states-past-32-bits"),
                              ("practice", "time-1-last"), ("practice", "seed-2-31")):
            def without(seed, count, call=call, missing=missing):
                drawn = inputs.mixed(call, seed, 3 * count)
                kept = (each for each in drawn if missing not in reached(call, each.given))
                return [each for each, _ in zip(kept, range(count))]

            status, said, _ = self.compare(Reference(), call, inputs.enough(call), without)
            self.assertEqual(status, 1)
            self.assertIn(str(missing), said.partition(f"{call}: never reached: ")[2].rstrip("\n").split(", "), said)

    def test_difference(self):
        was = library.painted(3)
        for answer, cells, row_means, words in (
                (3, [1, *was[1:]], 9, ""),
                (4, [1, *was[1:]], 9, "answer: expected 3, got 4"),
                (3, [2, *was[1:]], 8, "cells[0]: expected 1, got 2"),
                (3, [1, was[1], 5], 9, f"cells[2]: expected {PAINT + 2} (as it was), got 5"),
                (3, [1, *was[1:]], 8, "row_means[0]: expected 9, got 8")):
            right, got = (3, {"cells": [1, *was[1:]], "row_means": [9]}), {"cells": cells, "row_means": [row_means]}
            self.assertEqual(library.difference("calculate", right, (answer, got)), words)


@unittest.skipIf(library.why_not(), library.why_not())
class Library(unittest.TestCase):

    @classmethod
    def setUpClass(cls):
        cls.folder = tempfile.TemporaryDirectory()
        source, cls.object = (os.path.join(cls.folder.name, name) for name in ("wrong.c", "wrong.so"))
        with open(source, "w", encoding="ascii") as target:
            target.write(WRONG_LIBRARY)
        subprocess.run([*library.compiler(), "-shared", "-fPIC", source, "-o", cls.object], check=True)
        cls.linked = library.Library(cls.object)

    @classmethod
    def tearDownClass(cls):
        cls.folder.cleanup()

    def call(self, kind, cells=3):
        return self.linked.call("calculate", calculating(bytes([kind, 2, 3]), cells))

    def test_right(self):
        self.assertEqual(self.call(0), (2**64 - 1, {"cells": [33, PAINT + 1, PAINT + 2], "row_means": [PAINT]}, []))
        self.assertEqual(self.call(0, 0), (2**64 - 1, {"cells": [], "row_means": [PAINT]}, []))
        self.assertEqual(self.call(10, 0), (2**64 - 11, {"cells": [], "row_means": [7]}, []))

    def test_faults(self):
        for kind, words in ((1, f"cells[3], outside of its 3, was {PAINT + 3} and is 7"),
                            (2, f"cells[-1], outside of its 3, was {PAINT - 1} and is 7"),
                            (3, "file[1], which is only read, was 2 and is 7"),
                            (4, f"file[3], outside of its 3, was {PAINT_BYTE + 3} and is 7"),
                            (5, "file[-1], outside of its 3, was 255 and is 7"),
                            (8, f"row_means[1], outside of its 1, was {PAINT + 1} and is 7"),
                            (9, f"row_means[-1], outside of its 1, was {PAINT - 1} and is 7")):
            answer, written, faults = self.call(kind)
            self.assertEqual((answer, faults), (2**64 - 1 - kind, [words]))
            self.assertEqual(written["cells"][0], 33)
        self.assertEqual(len(self.call(6, 0)[2]), 1)
        self.assertEqual(GUARD, 9)

    def test_numbers_that_are_written(self):
        for kind, r, words in ((0, 5, []),
                               (0, 0, []),
                               (1, 5, [f"mean[1], outside of its 1, was {PAINT + 1} and is 7"]),
                               (2, 5, [f"share[-1], outside of its 1, was {PAINT - 1} and is 7"]),
                               (3, 5, [f"mix[9], outside of its 1, was {PAINT + 9} and is 7"]),
                               (4, 5, [f"file[3], outside of its 3, was {PAINT_BYTE + 3} and is 7"])):
            got = self.linked.call("remainders", asked(bytes([kind, 2, 3]), state=2**64 - 1, n=2**32 + 1, r=r))
            self.assertEqual(got, (30, {"mean": [2**64 - 1], "share": [2**32 + 1], "mix": [r or PAINT]}, words))

    def test_bytes_that_are_written(self):
        for kind, words in ((0, []),
                            (1, [f"out[3], outside of its 3, was {PAINT_BYTE + 3} and is 7"]),
                            (2, ["out[-1], outside of its 3, was 255 and is 7"]),
                            (3, ["file[2], which is only read, was 3 and is 7"]),
                            (4, [f"file[3], outside of its 3, was {PAINT_BYTE + 3} and is 7"])):
            got = self.linked.call("to_version_2", dict(file=bytes([kind, 2, 3]), out=3))
            self.assertEqual(got, (33, {"out": [PAINT_BYTE, PAINT_BYTE + 1, 2]}, words))

    def test_numbers_that_are_read(self):
        for seed, words in ((2**32 - 1, []),
                            (1, [f"out[3], outside of its 3, was {PAINT_BYTE + 3} and is 7"]),
                            (2, ["out[-1], outside of its 3, was 255 and is 7"]),
                            (3, [f"out[11], outside of its 3, was {PAINT_BYTE + 11} and is 7"])):
            got = self.linked.call("practice", dict(states=2**64 - 1, highest=2**32 + 3, seed=seed, out=3))
            self.assertEqual(got, (2**64 - 2**32 - 4, {"out": [PAINT_BYTE, PAINT_BYTE + 1, seed >> 24]}, words))

    def test_numbers_and_bytes(self):
        with mock.patch.dict(library.CALLS, PROBE):
            got = self.linked.call("probe", dict(number=9, out=4))
        self.assertEqual(got, (13, {"out": [200, 9, PAINT_BYTE + 2, PAINT_BYTE + 3]}, []))

    def test_calls(self):
        self.assertTrue(self.linked.has("calculate"))
        self.assertFalse(self.linked.has("series"))
        with self.assertRaises(OSError):
            library.Library(os.path.join(self.folder.name, "no-such.a"))

    def run_program(self, *arguments, name="compare_calls.py", **settings):
        command = [sys.executable, "-B", os.path.join(HERE, name), *arguments]
        return subprocess.run(command, capture_output=True, text=True, check=False, env={**os.environ, **settings})

    def test_program(self):
        result = self.run_program("--library", self.object, "--count", "3", "series")
        self.assertEqual((result.returncode, result.stdout), (2, ""))
        self.assertEqual(result.stderr, "compare_calls.py: the library has no call kuldrepso_series\n")
        result = self.run_program("--library", self.object, "--count", "3", "remainders")
        self.assertEqual((result.returncode, result.stderr), (1, ""))
        self.assertRegex(result.stdout, r"\nremainders 00000-row-01: answer: expected 1000001, got \d+\n")
        for arguments in (["--count", "0"], ["--seed", "1", "--fresh"], ["no-such-call"], ["--library", "no-such.a"]):
            result = self.run_program(*arguments)
            self.assertEqual((result.returncode, result.stdout, result.stderr.count("\n")), (2, "", 1))

    def test_programs_without_compiler(self):
        for name, words in (("compare_calls.py", "the calls of the library: not compared"),
                            (RUN_CALLS, "the stored calls: not run")):
            result = self.run_program(name=name, CC="no-such-compiler")
            self.assertEqual((result.returncode, result.stderr), (0, ""))
            self.assertEqual(result.stdout, f"{words}, no C compiler was found\n")

    def test_run_calls(self):
        stored = os.path.join(run_calls.CALLS, "calculate.txt")
        result = self.run_program("--library", self.object, stored, name=RUN_CALLS)
        self.assertEqual((result.returncode, result.stderr), (1, ""))
        self.assertRegex(result.stdout, r"\Acalculate border-13-A: answer: expected 1, got \d+\n")
        self.assertRegex(result.stdout, r"\ncomparison kit: 0 calls passed, \d+ failed\n\Z")
        for arguments in (["--library", self.object], ["no-such-file"], ["--wrong"]):
            result = self.run_program(*arguments, name=RUN_CALLS)
            self.assertEqual((result.returncode, result.stderr.count("\n")), (2, 1))

    def test_signal(self):
        text = ("import sys, inputs, library; linked = library.Library(sys.argv[1]); "
                "sys.exit(library.in_child(lambda: linked.call('calculate', inputs.calculating(bytes([7]), 1))))")
        command = [sys.executable, "-B", "-c", text, self.object]
        result = subprocess.run(command, cwd=HERE, capture_output=True, text=True, check=False)
        self.assertEqual((result.returncode, result.stderr), (1, ""))
        self.assertRegex(result.stdout, r"\Aended by signal \d+; the input of the call under way is saved as .*txt\n\Z")


if __name__ == "__main__":
    unittest.main()
