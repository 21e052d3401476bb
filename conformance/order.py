#!/usr/bin/env python3
"""The order of the figures (document 02, S-9), on generated files that have no stored sheet.

    python3 conformance/order.py [--count N] [--seed S | --fresh] COMMAND [ARGUMENT...]
    python3 conformance/order.py [--count N] [--seed S | --fresh] --reference

The first runs any calculator, the second the reference, with lists of times as well. Of every file: in each row, that
of a state or the start row, the figure for r + 1 is at most that for r; and with one state's reward raised, up to the
file's largest, the file is accepted with the same level and no figure is lower. The file itself is run twice and has
the same answer both times. It stops at the first file of which one of these does not hold. order_false.py shows
statements next to the first two that are false. Exit status: 0 when all holds, 1 when something does not, 2 when the
run itself is not possible.
"""

import os
import re
import sys
import time
from collections import namedtuple
from contextlib import contextmanager

sys.dont_write_bytecode = True
HERE = os.path.dirname(os.path.abspath(__file__))
sys.path.insert(0, HERE)

import order_models  # noqa: E402
import runner  # noqa: E402

COUNT = 400
PROGRESS_EVERY = 10   # seconds between progress lines

# The levels of an accepted file, one for each time, and its rows: (whose, figures in ticks for r = 1, 2, ...).
Answer = namedtuple("Answer", "levels rows")


class Fault(Exception):
    """What is wrong, in words; `files` are the files that show it, by name."""

    def __init__(self, words, **files):
        super().__init__(words)
        self.files = files


# --- Asking a calculator -----------------------------------------------------------------------------

def row_names(file):
    """The rows of an accepted file's sheet, as their lines begin."""
    return [f"{i + 1}" for i in range(file[3])] + ["start"] * (file[2] == 2)


def read_sheet(file, output):
    """The answer that a sheet has; a Fault where it is no sheet of an accepted file."""
    R = file[4]
    if re.fullmatch(rb"refused \d+\n", output):
        raise Fault(f"the file is {output.decode().strip()}, though no row of the table stops it")
    begins = ["level "] + [f"{name} {r} " for name in row_names(file) for r in range(1, R + 1)]
    lines = output.decode("latin-1").split("\n")
    numbers = []
    for k, begin in enumerate(begins):
        found = re.fullmatch(begin + (r"(\d)\.(\d{12})" if k else r"(\d+)"), lines[k]) if k < len(lines) - 1 else None
        if not found:
            start = sum(len(line) + 1 for line in lines[:k])
            raise Fault(f"line {k + 1}: expected \"{begin}\" and a {'figure' if k else 'number'}, "
                        f"got {runner.quoted(output, start)}")
        numbers.append(int("".join(found.groups())))
    if lines[len(begins):] != [""]:
        raise Fault(f"more than {len(begins)} lines")
    rows = [(f"state {name}" if name != "start" else "start", numbers[1 + k * R:1 + (k + 1) * R])
            for k, name in enumerate(row_names(file))]
    return Answer(numbers[:1], rows)


def by_command(command):
    """The answers of a program."""
    def ask(file):
        output, trouble = runner.run(command, file)
        if trouble:
            raise Fault(trouble)
        return read_sheet(file, output)
    return ask


def listed_times(model):
    """A list of times for a model: 1, a third of its own, its own, and the next one within the limit."""
    most = order_models.MAX_X // model.E
    return sorted({1, max(1, model.T // 3), model.T, min(model.T + 1, most)})


def by_module(calculator):
    """The answers of a calculator that is a module like reference/calculator.py: its sheet, then a block of `series`
    for each of several times."""
    def ask(file):
        levels, rows = read_sheet(file, calculator.sheet(file))
        times = listed_times(calculator.read_model(file))
        size, R = calculator.block_size(file), file[4]
        found, cells = [0] * len(times), [0] * size * len(times)
        if calculator.series(file, times, found, cells) != ("times", len(times)):
            raise Fault(f"series with the times {times} is refused")
        for k, T in enumerate(times):
            rows += [(f"time {T}, {whose}", cells[k * size + j * R:k * size + (j + 1) * R])
                     for j, (whose, _) in enumerate(rows[:size // R])]
        return Answer(levels + found, rows)
    return ask


def reference():
    """The reference calculator, which stands beside this folder."""
    folder = os.path.join(os.path.dirname(HERE), "reference")
    if not os.path.isfile(os.path.join(folder, "calculator.py")):
        raise OSError(f"there is no reference calculator in {folder}")
    sys.path.insert(0, folder)
    import calculator
    return calculator


# --- The two statements ------------------------------------------------------------------------------

def figure(ticks):
    return f"{ticks // 10**12}.{ticks % 10**12:012d}"


def check_rows(rows):
    """A Fault where the figure for r + 1 is above that for r."""
    for whose, figures in rows:
        for r, (one, next_one) in enumerate(zip(figures, figures[1:]), 1):
            if next_one > one:
                raise Fault(f"{whose}: the row rises from {figure(one)} for r = {r} to {figure(next_one)} "
                            f"for r = {r + 1}")


def figures_of_both(before, after):
    """(whose, r, old, new) for every figure of two answers."""
    for (whose, olds), (_, news) in zip(before.rows, after.rows):
        for r, (old, new) in enumerate(zip(olds, news), 1):
            yield whose, r, old, new


def check_levels(before, after):
    """A Fault where a level is another."""
    if after.levels != before.levels:
        raise Fault(f"the level was {before.levels[0]} and is {after.levels[0]}" if len(after.levels) == 1 else
                    f"the levels were {before.levels} and are {after.levels}")


def check_same(before, after):
    """A Fault where a level or a figure is another."""
    check_levels(before, after)
    for whose, r, old, new in figures_of_both(before, after):
        if new != old:
            raise Fault(f"{whose}, r = {r}: the figure was {figure(old)} and is {figure(new)}")


def check_raised(before, after):
    """A Fault where a level is another, or a figure lower, after a reward was raised."""
    check_levels(before, after)
    for whose, r, old, new in figures_of_both(before, after):
        if new < old:
            raise Fault(f"{whose}, r = {r}: the figure falls from {figure(old)} to {figure(new)}")


@contextmanager
def told(words, **files):
    """A Fault gets these words before its own, and the files that show it."""
    try:
        yield
    except Fault as fault:
        raise Fault(f"{words}{fault}", **files) from None


def check(ask, each):
    """A Fault where a statement does not hold of a file, or of the same file with a reward raised step by step, or
    where the file has another answer when it is run once more; how many rows were looked at."""
    with told("", first=each.first):
        before = ask(each.first)
        check_rows(before.rows)
    with told("run once more, the same file has another answer: ", first=each.first):
        check_same(before, ask(each.first))
    looked_at, largest = 2 * len(before.rows), each.raised[-1][0]
    for (reward, file), (new_reward, raised) in zip(each.raised, each.raised[1:]):
        with told(f"with the reward of state {each.state} raised from {reward} to {new_reward} "
                  f"(the file's largest is {largest}): ", first=file, raised=raised):
            after = ask(raised)
            check_raised(before, after)
            check_rows(after.rows)
        looked_at += len(after.rows)
        before = after
    return looked_at


def run(ask, count, seed):
    """0 when both statements hold of all files, 1 at the first of which one does not."""
    last_word, rows, raised = time.monotonic(), 0, 0
    for done, each in enumerate(order_models.tries(seed, count)):
        if time.monotonic() - last_word >= PROGRESS_EVERY:
            last_word = time.monotonic()
            print(f"{done} of {count} files in order so far", file=sys.stderr, flush=True)
        try:
            rows += check(ask, each)
        except Fault as fault:
            print(f"{each.name}: {fault}")
            print(f"file {done + 1} of {count}, seed {seed}")
            for word, file in fault.files.items():
                print(f"the {word} file is saved as {runner.save(f'order-seed{seed}-{each.name}-{word}.model', file)}")
            return 1
        raised += len(each.raised) - 1       # the first has the file's own reward
    print(f"order of the figures: {count} files, seed {seed}, in which a reward was raised {raised} times: "
          f"none of {rows} rows rises, no figure is lower for a raised reward")
    return 0


# --- The script --------------------------------------------------------------------------------------

def options():
    parser = runner.Parser(description="Whether rows of figures do not rise, and raised rewards lower no figure.")
    runner.add_count_and_seed(parser, COUNT, "files")
    parser.add_argument("--reference", action="store_true", help="the reference itself, called in this program")
    runner.add_command(parser, "--reference has to be")
    result = runner.parsed(parser)
    if bool(result.command) == result.reference:
        parser.error("give the command of a calculator, as in: order.py ./calculator, or --reference")
    return result


def main():
    given = options()
    ask = by_command(given.command) if given.command else by_module(reference())
    return run(ask, given.count, given.seed)


if __name__ == "__main__":
    runner.leave(main)
