#!/usr/bin/env python3
"""Run the library against the stored calls.

    python3 conformance/run_calls.py [--library PATH] [FILE...]

Without --library, the library that the script build of this repository makes is called; PATH is a static library or a
shared object (.so). Without FILE all of conformance/calls is run; FILE has calls in the same form, as
reference/compare_calls.py saves them. Exit status: 0 when all pass, or no library can be linked on this machine, 1 when
one fails, 2 when the run itself is not possible.
"""

import os
import sys

sys.dont_write_bytecode = True
HERE = os.path.dirname(os.path.abspath(__file__))
CALLS = os.path.join(HERE, "calls")
sys.path[:0] = [HERE, os.path.join(os.path.dirname(HERE), "reference")]

import cases  # noqa: E402
import library  # noqa: E402
import models  # noqa: E402
import runner  # noqa: E402


def options():
    parser = models.Parser(description="Run the library against the stored calls.")
    parser.add_argument("--library", metavar="PATH", help="unless given, what build makes")
    parser.add_argument("files", nargs="*", metavar="FILE", help="calls as text; unless given, those of the kit")
    return parser.parse_args()


def stored(paths=()):
    """The cases of some files, or of all in conformance/calls."""
    result = []
    for path in paths or (os.path.join(CALLS, name) for name in sorted(os.listdir(CALLS)) if name.endswith(".txt")):
        with open(path, encoding="ascii") as source:
            result += cases.read(source.read())
    if not result:
        raise OSError("no calls in conformance/calls")
    return result


def run_all(linked, all_cases):
    """Prints what fails; how many calls failed."""
    failed = 0
    for each in all_cases:
        if not linked.has(each.call):
            raise OSError(f"the library has no call kuldrepso_{each.call}")
        trouble = cases.trouble(linked, each)
        if trouble:
            failed += 1
            print(f"{each.call} {each.name}: {trouble}", flush=True)
    return failed


def main():
    given = options()
    reason = library.why_not()
    if reason:
        print(f"the stored calls: not run, {reason}")
        return 0
    all_cases = stored(given.files)
    linked = library.opened(given.library)
    if not linked:
        return 2
    failed = run_all(linked, all_cases)
    print(f"comparison kit: {len(all_cases) - failed} calls passed, {failed} failed")
    return 1 if failed else 0


if __name__ == "__main__":
    runner.leave(library.in_child, main)
