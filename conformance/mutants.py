#!/usr/bin/env python3
"""Wrong calculators against the stored sheets: does the kit tell each of them?

    python3 conformance/mutants.py              a line for each, with the first two models that catch it
    python3 conformance/mutants.py --as NAME    behave as that calculator: model in, sheet out

The wrong calculators stand in mistakes.py, each the reference with one thing changed. A stored
model catches one that prints another sheet for it, or none: for every model a right calculator
prints a sheet, so a division by 0, or a program without an end, counts as caught. Exit status:
0 when two models or more catch each, 1 when not, 2 when the run is not possible.
"""

import contextlib
import functools
import io
import math
import multiprocessing
import os
import subprocess
import sys
import types

sys.dont_write_bytecode = True
HERE = os.path.dirname(os.path.abspath(__file__))
REFERENCE = os.path.join(os.path.dirname(HERE), "reference", "calculator.py")
sys.path.insert(0, HERE)

import mistakes  # noqa: E402
import run  # noqa: E402
import runner  # noqa: E402
from mistakes import EQUIVALENT, TABLE, Wrong  # noqa: E402

ENOUGH = 2        # models that have to catch a wrong calculator
CHEAP = 10**6     # the cost of models on which the changes that no sheet can show are tried
WORKERS = min(2, os.cpu_count() or 1)
STOPPED = (ArithmeticError, LookupError, ValueError)     # what its numbers may raise; other errors are in its text
RIGHT = Wrong("reference", "nothing changed", (), None)


# --- From an entry to a calculator ---------------------------------------------------------------

def reference_text():
    with open(REFERENCE, encoding="utf-8") as source:
        return source.read()


def changed_text(text, entry):
    """The text with the entry's changes; a ValueError where an old text is not there exactly once."""
    for old, new in entry.changes:
        if text.count(old) != 1:
            raise ValueError(f"{entry.name}: the reference has it {text.count(old)} times, not once: {old!r}")
        if old == new:
            raise ValueError(f"{entry.name}: nothing is changed in {old!r}")
        text = text.replace(old, new)
    return text


def module(entry, helpers=mistakes.HELPERS):
    """The entry's calculator as a module: its sheet(file) is what it prints."""
    result = types.ModuleType(entry.name)
    for helper in helpers:
        setattr(result, helper.__name__, helper)
    try:
        exec(compile(changed_text(reference_text(), entry), entry.name, "exec"), result.__dict__)
    except SyntaxError as error:
        raise ValueError(f"{entry.name}: its text is no program: {error}") from error
    return result


@functools.lru_cache(maxsize=None)
def calculator(name):
    """The named wrong calculator as a module."""
    return module(TABLE[name])


# --- Trying it -------------------------------------------------------------------------------------

def cost(model, sheet):
    """About the work for a model: the multiplications of its vectors, and its bytes."""
    if not sheet.startswith(b"level "):
        return 0, len(model)
    return int(sheet.split()[1]) * model[3]**2 * model[4], len(model)


@functools.lru_cache(maxsize=None)
def kit(most=math.inf):
    """The stored models up to a cost with their sheets, as (name, model, sheet), the cheapest first."""
    files = [(name, run.stored(name + ".model"), run.stored(name + ".sheet")) for name in run.names()]
    return sorted((file for file in files if cost(*file[1:])[0] < most), key=lambda file: cost(*file[1:]))


def printed(program, model):
    """The sheet that a calculator, as a module, prints for a model, or None where its numbers stop it."""
    try:
        return program.sheet(model)
    except STOPPED:
        return None
    except Exception as error:
        raise ValueError(f"{program.__name__}: its text is wrong, not its numbers: {error}") from error


def called(entry):
    """A function of a model and its sheet that tells whether the calculator, as a module, fails."""
    program = module(entry)
    return lambda model, expected: printed(program, model) != expected


def started(entry, files):
    """The same for the calculator as a program; on the first accepted model it has to run without an error."""
    sample = next(model for _, model, sheet in files if sheet.startswith(b"level "))
    command = [sys.executable, os.path.join(HERE, "mutants.py"), "--as", entry.name]
    with contextlib.suppress(subprocess.TimeoutExpired):
        result = subprocess.run(command, input=sample, capture_output=True, timeout=entry.time_limit, check=False)
        if result.returncode > 0:
            raise ValueError(f"{entry.name}: as a program it ends with status {result.returncode}")
    return lambda model, expected: bool(runner.check(command, model, expected, entry.time_limit))


def catches(entry, files, enough=ENOUGH):
    """How many models were tried, and the names of those that catch the calculator, up to `enough`."""
    fails = started(entry, files) if entry.time_limit else called(entry)
    caught = []
    for tried, (name, model, expected) in enumerate(files, 1):
        if fails(model, expected):
            caught.append(name)
            if len(caught) == enough:
                break
    return tried, caught


# --- All of them -------------------------------------------------------------------------------------

def judge(entry, files):
    """Prints the entry's line; whether enough models catch it."""
    tried, caught = catches(entry, files)
    enough = len(caught) >= ENOUGH
    line = f"{entry.name}: {tried} models tried, caught by {' and '.join(caught) or 'none'}"
    print(line if enough else f"{line}: fewer than two ({entry.what})", flush=True)
    return enough


def judge_right(entry, files):
    """Whether no model catches a calculator that is right; prints a line where one does."""
    _, caught = catches(entry, files, 1)
    if caught:
        print(f"{entry.name}: it prints the right sheets, and yet {caught[0]} catches it ({entry.what})")
    return not caught


def judge_equivalent(entry, files):
    """Prints why no sheet can show the change; whether that is so for these models."""
    right = judge_right(entry, files)
    if right:
        print(f"{entry.name}: left out, no sheet can show it: {entry.what}", flush=True)
    return right


def self_test(entry, files):
    """Whether the trying itself is right: the reference passes, as a module and as a program, and a changed
    text that changes nothing is caught by none, and would be told."""
    few = files[:-1:20]
    same = mistakes.wrong("same", "r W + n V in place of n V + r W", (mistakes.MIX, "(r * w + n * v) // (n + r)"))
    right = judge_right(entry, files) and judge_right(entry._replace(time_limit=60), few)
    with contextlib.redirect_stdout(io.StringIO()) as said:
        told = not judge(same, files[:-1]) and "caught by none: fewer than two" in said.getvalue()
    if not told:
        print("self-test: a change that changes nothing is taken for a wrong calculator")
    return right and told


def judged(job):
    """What a judge prints of an entry, and what it returns; run by a worker."""
    judge_entry, entry, most = job
    with contextlib.redirect_stdout(io.StringIO()) as said:
        good = judge_entry(entry, kit(most))
    return said.getvalue(), good


def verdicts(jobs, work=judged):
    """What the judges return, job by job; what they print is printed in the same order."""
    with multiprocessing.Pool(WORKERS) as pool:
        for said, good in pool.imap(work, jobs):
            print(said, end="", flush=True)
            yield good


def judge_all():
    """Prints a line for every wrong calculator; 0 where the kit tells each, else 1."""
    jobs = [(self_test, RIGHT, math.inf)] + [(judge, entry, math.inf) for entry in TABLE.values()]
    jobs += [(judge_equivalent, entry, CHEAP) for entry in EQUIVALENT]
    bad = [job for job, good in zip(jobs, verdicts(jobs)) if not good]
    wrong = [entry.name for judge_entry, entry, _ in bad if judge_entry is judge]
    same = [entry.name for judge_entry, entry, _ in bad if judge_entry is judge_equivalent]
    if same:
        print(f"{len(same)} of {len(EQUIVALENT)} changes that no sheet can show are caught: {', '.join(same)}")
    if wrong:
        print(f"{len(wrong)} of {len(TABLE)} wrong calculators are caught by fewer than two models: {', '.join(wrong)}")
    else:
        print(f"{len(TABLE)} wrong calculators, each caught by two models or more; {len(EQUIVALENT)} changes left out")
    return 1 if bad else 0


def behave_as(name):
    """Runs the named calculator as a program."""
    known = {entry.name: entry for entry in (RIGHT, *TABLE.values(), *EQUIVALENT)}
    if name not in known:
        raise ValueError(f"no calculator is named {name}")
    program = module(known[name])
    try:
        return program.main([])
    except STOPPED as error:
        print(f"{name}: stopped by its numbers: {error}", file=sys.stderr)
        return 1


def main(arguments):
    if arguments and (len(arguments) != 2 or arguments[0] != "--as"):
        print("mutants.py: no argument to try all, or --as NAME to behave as one", file=sys.stderr)
        return 2
    try:
        return behave_as(arguments[1]) if arguments else judge_all()
    except ValueError as error:        # a text of mistakes.py that is wrong
        print(f"mutants.py: {error}", file=sys.stderr)
        return 2


if __name__ == "__main__":
    runner.leave(main, sys.argv[1:])
