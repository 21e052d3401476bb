#!/usr/bin/env python3
"""Wrong calls against the stored ones: does the kit tell each of them?

    python3 conformance/call_mutants.py       a line for each, with the first two stored calls that catch it

The wrong calls stand in call_mistakes.py, each the reference with one thing changed. A stored call catches one that
answers something else, leaves another number in an element of a slice, or is stopped by its numbers. Exit status: 0
when two stored calls or more catch each, 1 when not, 2 when the run is not possible.
"""

import contextlib
import functools
import io
import os
import sys

sys.dont_write_bytecode = True
HERE = os.path.dirname(os.path.abspath(__file__))
sys.path[:0] = [HERE, os.path.join(os.path.dirname(HERE), "reference")]

import call_mistakes  # noqa: E402
import cases  # noqa: E402
import inputs  # noqa: E402
import mutants  # noqa: E402
import run_calls  # noqa: E402
import runner  # noqa: E402
from call_mistakes import LEFT_OUT, RIGHT, TABLE  # noqa: E402

ENOUGH = 2        # stored calls that have to catch a wrong one


def cost(each):
    """About the work for a case: the multiplications of its vectors, and the bytes of its file, or of the dealt one."""
    size = len(each.given["file"]) if "file" in each.given else each.given["out"]
    return inputs.cost(each.given) if each.answer < 10**6 else 0, size


def caught(program, each):
    """Whether a case catches a wrong program."""
    try:
        return inputs.outcome(program, each.call, each.given) != cases.expected(each)
    except mutants.STOPPED:
        return True
    except Exception as error:
        raise ValueError(f"{program.__name__}: its text is wrong, not its numbers: {error}") from error


@functools.lru_cache(maxsize=None)
def kits():
    """The stored calls by the call, the cheapest first."""
    stored = sorted(run_calls.stored(), key=cost)
    return {call: [each for each in stored if each.call == call] for call in TABLE}


def catches(entry, kit, enough=ENOUGH):
    """The names of the stored calls that catch the entry, up to `enough`."""
    program = mutants.module(entry, call_mistakes.HELPERS)
    found = []
    for each in kit:
        if caught(program, each):
            found.append(each.name)
            if len(found) == enough:
                break
    return found


def judge(call, entry, kit):
    """Prints the entry's line; whether enough stored calls catch it."""
    found = catches(entry, kit)
    line = f"{call} {entry.name}: caught by {' and '.join(found) or 'none'}"
    print(line if len(found) >= ENOUGH else f"{line}: fewer than two ({entry.what})", flush=True)
    return len(found) >= ENOUGH


def judge_equivalent(call, entry, kit):
    """Prints why no call can show the change; whether that is so for the stored ones."""
    found = catches(entry, kit, 1)
    verdict = f"yet {found[0]} catches it" if found else "left out, no call can show it"
    print(f"{call} {entry.name}: {verdict}: {entry.what}", flush=True)
    return not found


def judge_right(call, entry, kit):
    """Whether no stored call catches the reference; prints a line where one does."""
    right = not catches(entry, kit, 1)
    if not right:
        print(f"{call}: a stored call catches the reference itself")
    return right


def judged(job):
    """What a judge prints of a call's entry, and what it returns; run by a worker."""
    judge_entry, call, entry = job
    with contextlib.redirect_stdout(io.StringIO()) as said:
        good = judge_entry(call, entry, kits()[call])
    return said.getvalue(), good


def main(arguments):
    if arguments:
        print("call_mutants.py: takes no argument", file=sys.stderr)
        return 2
    jobs = [(judge_right, call, RIGHT) for call in TABLE]
    jobs += [(judge, call, entry) for call, table in TABLE.items() for entry in table.values()]
    jobs += [(judge_equivalent, call, entry) for call, entries in LEFT_OUT.items() for entry in entries]
    kits()                             # read once, for every worker
    try:
        failed = [job for job, good in zip(jobs, mutants.verdicts(jobs, judged)) if not good]
    except ValueError as error:        # a text of call_mistakes.py that is wrong
        print(f"call_mutants.py: {error}", file=sys.stderr)
        return 2
    bad, wrong, same = ([f"{call} {entry.name}" for judge_entry, call, entry in failed if judge_entry is each]
                        for each in (judge_right, judge, judge_equivalent))
    total, left_out = (sum(map(len, table.values())) for table in (TABLE, LEFT_OUT))
    if wrong:
        print(f"{len(wrong)} of {total} wrong calls are caught by fewer than two stored calls: {', '.join(wrong)}")
    if same:
        print(f"{len(same)} of {left_out} changes that no call can show are caught: {', '.join(same)}")
    if not (bad or wrong or same):
        print(f"{total} wrong calls, each caught by two stored calls or more; {left_out} changes left out")
    return 1 if bad or wrong or same else 0


if __name__ == "__main__":
    runner.leave(main, sys.argv[1:])
