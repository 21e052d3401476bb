#!/usr/bin/env python3
"""Tests of order.py and order_false.py, and wrong calculators that order.py has to tell:
python3 conformance/test_order.py"""

import glob
import os
import shutil
import subprocess
import sys
import tempfile
import unittest
from unittest import mock

sys.dont_write_bytecode = True
HERE = os.path.dirname(os.path.abspath(__file__))
ROOT = os.path.dirname(HERE)
sys.path.insert(0, HERE)

import mistakes  # noqa: E402
import mutants  # noqa: E402
import order  # noqa: E402
import order_false  # noqa: E402
import order_models  # noqa: E402
from mistakes import CELL, FIGURE, FIRST, OVER_S, ROWS, START, START_SUM, STARTS, W, wrong  # noqa: E402

calculator = order.reference()
REFERENCE = [sys.executable, "-B", os.path.join(ROOT, "reference", "calculator.py")]
B = bytes.fromhex("001B01020205F5E100000000010000000100000000000F4240000F4240")
ONE = 10**12


def carried(left, key, a, b):
    """a and what the division before left, over b, down; what it leaves is kept for the next one."""
    quotient, left[key] = divmod(a + left.get(key, 0), b)
    return quotient


# Wrong calculators, each with a part of the words in which order.py has to tell it: "rises" is of the first statement,
# which is then tried without the second; all others are of the second, tried without the first.
NEXT_R = "(vars(moment).pop('left', 0) if r == 1 else 0, carried(vars(moment), 'left', A * ONE, sum(w[:N + 1])))[1]"
NEXT_STATE = ("(vars(moment).pop(f'left {r}', 0) if i == 0 else 0, "
              "carried(vars(moment), f'left {r}', A * ONE, sum(w[:N + 1])))[1]")
IN_32_BITS = "(f * 2**32 // model.F % 2**32 * u) >> 32 for f, u in zip(model.f, vectors[{}])"
WRONG = [
    ("rises", wrong("row-backwards", "a row from R to 1", (CELL, CELL.replace("(r - 1)", "(model.R - r)")))),
    ("rises", wrong("columns-first", "cells by r, then by state",
                    (CELL, CELL.replace("(i - 1) * model.R + (r - 1)", "(r - 1) * model.M + (i - 1)")))),
    ("rises", wrong("last-up-for-even-r", "the last division up where r is even",
                    (OVER_S, f"({OVER_S} if r % 2 else up(A * ONE, sum(w[:N + 1])))"))),
    ("rises", wrong("last-down-for-odd-r", "the last division down where r is odd",
                    (OVER_S, f"(A * ONE // sum(w[:N + 1]) if r % 2 else {OVER_S})"))),
    ("rises", wrong("rest-to-next-r", "the last division gets what that for r - 1 left", (OVER_S, NEXT_R))),
    ("rises", wrong("one-as-0", "a figure of 1 without its first digit", (FIGURE, "0.{ticks % ONE:012d}"))),
    ("rises", mutants.TABLE["w-of-n-1-and-r-1"]),
    ("rises", mutants.TABLE["mix-exchanged"]),
    ("start: the row rises", wrong("start-row-backwards", "start figures from R to 1", (STARTS, STARTS.replace(
        "range(1, model.R + 1)", "range(model.R, 0, -1)")))),
    ("start: the row rises", wrong("start-up-for-even-r", "start figures up where r is even",
                                   (START, f"(up({START_SUM}, MILLION) if r % 2 == 0 else {START})"))),
    ("time 1, state 1: the row rises", wrong("blocks-by-r", "a block of several times by r, then by state",
                    ("[moment(w, U, N, i, r) for i in range(model.M) for r in range(1, model.R + 1)]",
                     "[moment(w, U, N, i, r) for r in range(1, model.R + 1) for i in range(model.M)]"))),
    ("falls", mutants.TABLE["F-sum"]),
    ("falls", wrong("F-and-first", "F the sum of the largest reward and that of state 1",
                    ("T, f, max(f), c", "T, f, max(f) + f[0], c"))),
    ("falls", wrong("rest-to-next-state", "the last division gets what that of the state before left",
                    (OVER_S, NEXT_STATE))),
    ("falls", wrong("share-in-32-bits", "f over F as a fraction of 32 bits: F over F is 0",
                    (FIRST, IN_32_BITS.format(-1)), (W, IN_32_BITS.format("r - 1")))),
    ("falls", wrong("last-down-for-even-rewards", "the last division down where the first shares have an even sum",
                    (OVER_S, f"({OVER_S} if sum(U[0][1]) % 2 else A * ONE // sum(w[:N + 1]))"))),
    ("falls", wrong("rewards-16-bit", "rewards without their upper bits",
                    ("return [number(file, first + 4 * i, 4) for i",
                     "return [number(file, first + 4 * i, 4) % 2**16 or 1 for i"))),
    ("the level", wrong("level-by-rewards", "a tolerance that falls with the sum of the rewards",
                        ('("level", level(model.X, model.epsilon))',
                         '("level", level(model.X, max(1, model.epsilon * model.F // sum(model.f))))'))),
    ("is refused 10", wrong("refuses-equal-rewards", "row 10 for equal rewards",
                            (ROWS[10], "max(f) == 0 or len(f) > 1 and min(f) == max(f)"))),
]


def fault(ask, tries):
    """The first fault that order.py finds, in words; none: an empty word."""
    for each in tries:
        try:
            order.check(ask, each)
        except order.Fault as found:
            return str(found)
    return ""


class WrongCalculators(unittest.TestCase):

    def test_each_is_told(self):
        """Within the default count of the default seed, by the statement that it breaks."""
        tries = list(order_models.tries(1, order.COUNT))
        for words, entry in WRONG:
            ask = order.by_module(mutants.module(entry, [*mistakes.HELPERS, carried]))
            with mock.patch.object(order, "check_raised" if "rises" in words else "check_rows"):
                self.assertIn(words, fault(ask, tries), f"{entry.name}: {entry.what}")
        self.assertEqual(len({entry.name for _, entry in WRONG}), len(WRONG))

    def test_raised_file(self):
        """The words for file B with its second reward raised to the largest, which the calculator gets wrong."""
        each = order_models.Try("B", B, 2, [(0, B), (1, B[:17] + bytes([0, 0, 0, 1]) + B[21:])])
        right = calculator.sheet
        for sheet, words in (
                (b"refused 9\n", "the file is refused 9, though no row of the table stops it"),
                (right(each.raised[1][1]).replace(b"level 3", b"level 4"), "the level was 3 and is 4"),
                (right(each.first).replace(b"2 2 0.17", b"2 2 0.16"),
                 "state 2, r = 2: the figure falls from 0.175000000000 to 0.165000000000"),
                (right(each.first).replace(b"2 2 0.17", b"2 2 0.37"),
                 "state 2: the row rises from 0.281250000000 for r = 1 to 0.375000000000 for r = 2")):
            with self.assertRaises(order.Fault) as found:
                order.check(lambda file: order.read_sheet(file, right(file) if file == B else sheet), each)
            self.assertEqual(str(found.exception), "with the reward of state 2 raised from 0 to 1 "
                             f"(the file's largest is 1): {words}")
            self.assertEqual(found.exception.files, {"first": B, "raised": each.raised[1][1]})

    def test_another_answer(self):
        """The words for a calculator that answers file B otherwise when it is run once more, be it higher or lower."""
        each = order_models.Try("B", B, 2, [(0, B)])
        right = calculator.sheet(B)
        for sheet, words in (
                (b"refused 9\n", "the file is refused 9, though no row of the table stops it"),
                (right.replace(b"level 3", b"level 4"), "the level was 3 and is 4"),
                (right.replace(b"2 2 0.17", b"2 2 0.16"),
                 "state 2, r = 2: the figure was 0.175000000000 and is 0.165000000000"),
                (right.replace(b"1 1 0.71", b"1 1 0.72"),
                 "state 1, r = 1: the figure was 0.718750000000 and is 0.728750000000")):
            sheets = iter([right, sheet])
            with self.assertRaises(order.Fault) as found:
                order.check(lambda file: order.read_sheet(file, next(sheets)), each)
            self.assertEqual(str(found.exception), f"run once more, the same file has another answer: {words}")
            self.assertEqual(found.exception.files, {"first": B})
        self.assertEqual(order.check(lambda file: order.read_sheet(file, right), each), 4)

    def test_no_sheet(self):
        sheet = calculator.sheet(B)
        for output, words in (
                (b"", 'line 1: expected "level " and a number, got no line'),
                (sheet[:-1], 'line 5: expected "2 2 " and a figure, got "2 2 0.175000000000"'),
                (sheet.replace(b"1 2 ", b"1 3 "), 'line 3: expected "1 2 " and a figure, got "1 3 0.612500000000"'),
                (sheet.replace(b"0.7", b"00.7"), 'line 2: expected "1 1 " and a figure, got "1 1 00.718750000000"'),
                (sheet.replace(b"\n", b"\r\n"), r'line 1: expected "level " and a number, got "level 3\r"'),
                (sheet + b"2 3 0.1\n", "more than 5 lines")):
            with self.assertRaises(order.Fault) as found:
                order.read_sheet(B, output)
            self.assertEqual(str(found.exception), words)


# The numbers that a file has in a field, or that come of its fields, and those which files of several states have to
# reach: the least and the largest that an accepted file can have there, and some next to these.
ENDS = [
    ("tolerance", lambda model: [model.epsilon], {1, 100_000_000}),
    ("time", lambda model: [model.T], {1, 256_000_000}),
    ("starting weight", lambda model: model.a, {0, 1, 999_999, 1_000_000}),
    ("reward", lambda model: model.f, {0, 1_000_000}),
    ("largest reward", lambda model: [model.F], {1, 1_000_000}),
    ("rate", lambda model: [rate for i, row in enumerate(model.c) for j, rate in enumerate(row) if i != j],
     {0, 1, 10_000_000}),
    ("row sum", lambda model: [model.E - row[i] for i, row in enumerate(model.c)], {0, 1, 10_000_000}),
    ("E and T", lambda model: [(model.E, model.T)], {(1, 256_000_000), (10_000_000, 1), (10_000_000, 25)}),
    ("E times T", lambda model: [model.X], {1, 256_000_000}),
]


class Models(unittest.TestCase):

    def test_they_cover(self):
        """Over the default count: both versions, each with 1 and with 64 states, every highest moment, and the ends of
        every other field, each in three files or more."""
        tries = list(order_models.tries(1, order.COUNT))
        files = [each.first for each in tries]
        found = [calculator.read_model(file) for file in files]
        self.assertEqual({calculator.refusal(file, 520) for file in files}, {0})
        self.assertLessEqual({1, 2, 3, 4, 5, 6, 7, 8, 63, 64}, {model.M for model in found})
        self.assertLessEqual({(1, 1), (1, 64), (2, 1), (2, 64)}, {(file[2], file[3]) for file in files})
        self.assertEqual({model.R for model in found}, set(range(1, 9)))
        self.assertGreater(sum(model.R >= 3 for model in found), 0.8 * len(found))
        self.assertGreater(min(sum(file[2] == version for file in files) for version in (1, 2)), 0.4 * len(files))
        for name, numbers, ends in ENDS:
            for end in ends:
                reached = sum(end in numbers(model) for model in found if model.M > 1)
                self.assertGreaterEqual(reached, 3, f"{name}: {end}")
        for holds in (lambda model: 0 in model.f, lambda model: model.M > 1 and len(set(model.f)) == 1,
                      lambda model: {999_999, 1_000_000} <= set(model.f), lambda model: model.F == 1,
                      lambda model: any(row[i] == model.E for i, row in enumerate(model.c)) and model.M > 1,
                      lambda model: all(row[i] == model.E for i, row in enumerate(model.c)) and model.M > 1):
            self.assertGreater(sum(map(holds, found)), 5)

    def test_raised(self):
        """Rewards go from the file's own by one more and some between to its largest; nothing else changes."""
        steps = []
        for each in order_models.tries(1, order.COUNT):
            before = calculator.read_model(each.first)
            rewards = [reward for reward, _ in each.raised]
            self.assertEqual((rewards, rewards[0], rewards[-1]), (sorted(rewards), before.f[each.state - 1], before.F))
            for reward, file in each.raised:
                f = [reward if i == each.state else other for i, other in enumerate(before.f, 1)]
                self.assertEqual(calculator.read_model(file), before._replace(f=f))
            steps.append(len(rewards))
        self.assertEqual(set(steps), {1, 2, 3, 4})
        self.assertGreater(steps.count(4), 100)

    def test_ticks(self):
        """Neighbours that are equal or a tick apart, between 0 and 1, and figures that rise by a tick: rounding decides
        the order. The raised state's own first figure always rises."""
        equal = apart = by_a_tick = 0
        for each in order_models.tries(1, order.COUNT):
            before = order.read_sheet(each.first, calculator.sheet(each.first))
            for _, figures in before.rows:
                equal += sum(one == other and 0 < one < ONE for one, other in zip(figures, figures[1:]))
                apart += sum(one == other + 1 for one, other in zip(figures, figures[1:]))
            for _, file in each.raised[1:]:
                after = order.read_sheet(file, calculator.sheet(file))
                by_a_tick += sum(change == 1 for _, _, change in order_false.changes(before, after))
                self.assertGreater(after.rows[each.state - 1][1][0], before.rows[each.state - 1][1][0] + 1_000)
                before = after
        self.assertGreater(min(equal, apart, by_a_tick), 20)

    def test_seeds(self):
        self.assertEqual(list(order_models.tries(1, 30)), list(order_models.tries(1, 30)))
        self.assertNotEqual(list(order_models.tries(1, 30)), list(order_models.tries(2, 30)))


class FalseStatements(unittest.TestCase):
    """The examples are those that docs/PROOFS.md may quote."""

    EXAMPLES = {
        "equal-at-1": ["000F01010205F5E1000000000100000001"],
        "equal-at-0": ["001B01020205F5E100000000010000000100000000" "0000000000000000"],
        "equal-between": ["001B01020305F5E10000000001000F4240000F423F" "0000000100000000"],
        "equal-start": ["002302020205F5E1000000000100" "07A1200007A120" "0000000100000000" "0000000000000000"],
        "past-others": [B.hex().upper(), "001B01020205F5E100000000010000000100000002" "000F4240000F4240"],
        "past-itself-largest": ["001B01020205F5E100000000010000000100000001" "000F4240000F4240",
                                "001B01020205F5E100000000010000000100000002" "000F4240000F4240"],
        "past-itself": ["001B01020205F5E100000000020000000300000002" "000F4240000F4240",
                        "001B01020205F5E100000000020000000300000008" "000F4240000F4240"],
        "not-all-rise": ["001B01020205F5E100000000010000000100000000" "0000000000000000",
                         "001B01020205F5E100000000010000000100000001" "0000000000000000"],
    }

    def test_examples(self):
        found = {each.name: order_false.search(each, calculator) for each in order_false.STATEMENTS}
        self.assertEqual({name: [file.hex().upper() for file in example.files] for name, example in found.items()},
                         self.EXAMPLES)

    def test_figures(self):
        """Some of their figures, by hand: 23/32 and 9/32 are those of file B, and half of one and the other add up."""
        def first_moments(name):
            files = [bytes.fromhex(file) for file in self.EXAMPLES[name]]
            answers = [order.read_sheet(file, calculator.sheet(file)) for file in files]
            return [[figures[0] for _, figures in answer.rows] for answer in answers]

        self.assertEqual(first_moments("past-others"), [[23 * ONE // 32, 9 * ONE // 32],
                                                        [(23 + 18) * ONE // 64, (9 + 46) * ONE // 64]])
        self.assertEqual(first_moments("past-itself-largest")[0], [ONE, ONE])
        self.assertEqual(first_moments("equal-start"), [[ONE, 0, ONE // 2]])
        lower = first_moments("past-itself")
        self.assertLess(lower[1][1], lower[0][1])

    def test_a_search_without_an_example(self):
        never = order_false.STATEMENTS[0]._replace(shows=lambda before, after: False)
        self.assertIsNone(order_false.search(never, calculator))


class Programs(unittest.TestCase):
    """order.py from another folder, and this folder alone."""

    def run_program(self, path, *arguments):
        with tempfile.TemporaryDirectory() as folder:
            command = [sys.executable, "-B", path, *arguments]
            result = subprocess.run(command, cwd=folder, env={**os.environ, "TMPDIR": folder}, capture_output=True,
                                    text=True, check=False)
            saved = {}
            for name in sorted(os.listdir(folder)):
                with open(os.path.join(folder, name), "rb") as source:
                    saved[name] = source.read()
        return result, saved

    def order(self, *arguments):
        return self.run_program(os.path.join(HERE, "order.py"), *arguments)

    def test_right(self):
        for arguments in (("--count", "6", *REFERENCE), ("--count", "20", "--seed", "5", "--reference"),
                          ("--count", "5", "--fresh", "--reference")):
            result, saved = self.order(*arguments)
            self.assertEqual((result.returncode, result.stderr, saved), (0, "", {}))
            self.assertRegex(result.stdout, rf"\Aorder of the figures: {arguments[1]} files, seed \d+, in which a "
                             r"reward was raised \d+ times: none of \d+ rows rises, no figure is lower for a raised "
                             r"reward\n\Z")

    def test_wrong(self):
        result, saved = self.order(sys.executable, "-B", os.path.join(HERE, "mutants.py"), "--as", "F-sum")
        self.assertEqual((result.returncode, result.stderr), (1, ""))
        self.assertRegex(result.stdout, r"\A\d{5}-[a-z0-9-]+: with the reward of state \d raised from \d+ to \d+ \(the "
                         r"file's largest is \d+\): state \d, r = \d: the figure falls from 0\.\d{12} to 0\.\d{12}\n"
                         r"file \d+ of 400, seed 1\nthe first file is saved as .*\nthe raised file is saved as .*\n\Z")
        self.assertEqual([name.rpartition("-")[2] for name in saved], ["first.model", "raised.model"])
        first, raised = (calculator.read_model(file) for file in saved.values())
        self.assertEqual(sum(new > old for old, new in zip(first.f, raised.f)), 1)

    def test_no_run(self):
        for arguments in ((), ("--reference", *REFERENCE), ("--seed", "1", "--fresh", "--reference"),
                          ("--count", "0", "--reference"), ("no-such-command",), ("--wrong", *REFERENCE)):
            result, _ = self.order(*arguments)
            self.assertEqual((result.returncode, result.stdout, result.stderr.count("\n")), (2, "", 1), arguments)

    def test_this_folder_alone(self):
        with tempfile.TemporaryDirectory() as root:
            folder = os.path.join(root, "kit")
            os.mkdir(folder)
            for path in glob.glob(os.path.join(HERE, "*.py")):
                shutil.copy(path, folder)
            result, _ = self.run_program(os.path.join(folder, "order.py"), "--count", "3", *REFERENCE)
            self.assertEqual((result.returncode, result.stderr), (0, ""))
            for name, arguments in (("order.py", ["--reference"]), ("order_false.py", [])):
                result, _ = self.run_program(os.path.join(folder, name), *arguments)
                self.assertEqual((result.returncode, result.stderr.count("\n")), (2, 1))
                self.assertIn("no reference calculator", result.stderr)

    def test_false(self):
        result, _ = self.run_program(os.path.join(HERE, "order_false.py"))
        self.assertEqual((result.returncode, result.stderr), (0, ""))
        self.assertTrue(result.stdout.endswith("\n8 of 8 statements shown to be false\n"))


if __name__ == "__main__":
    unittest.main()
