#!/usr/bin/env python3
"""Compare the calls of the library with the reference on generated inputs.

    python3 reference/compare_calls.py [--count N] [--seed S | --fresh] [--library PATH] [CALL...]

Without --library, the library that the script build of this repository makes is called; PATH is a static library or a
shared object (.so). Without CALL every call is compared. The answer and every element of every slice have to be equal,
and nothing before or after a slice may change. It stops at the first input that differs. Exit status: 0 when all are
equal, or no library can be linked on this machine, 1 when one differs or a row or an end of a call is never reached, 2
when the run itself is not possible.
"""

import os
import sys

sys.dont_write_bytecode = True
HERE = os.path.dirname(os.path.abspath(__file__))
sys.path[:0] = [HERE, os.path.join(os.path.dirname(HERE), "conformance")]

import calculator  # noqa: E402
import cases  # noqa: E402
import inputs  # noqa: E402
import library  # noqa: E402
import runner  # noqa: E402


def options():
    """The command line, with the seed chosen."""
    parser = runner.Parser(description="Compare the library's calls with the reference on generated inputs.")
    runner.add_count_and_seed(parser, 300, "inputs of each call")
    parser.add_argument("--library", metavar="PATH", help="unless given, what build makes")
    parser.add_argument("calls", nargs="*", metavar="CALL", help=f"of {', '.join(library.CALLS)}; unless given, all")
    result = runner.parsed(parser)
    for name in result.calls:
        if name not in library.CALLS:
            parser.error(f"{name} is not a call")
    return result


def compare(linked, call, count, seed):
    """0 when all inputs of a call are equal, 1 at the first that differs, or where a row or an end is never reached."""
    all_reached = []
    for done, (name, _, given) in enumerate(inputs.GENERATED[call](seed, count)):
        result = inputs.outcome(calculator, call, given)
        each = cases.case(name, call, given, result)
        wrong = cases.trouble(linked, each)
        if wrong:
            path = cases.save(each, os.path.join(library.FOLDER, f"difference-seed{seed}-{call}-{name}.txt"))
            print(f"{call} {name}: {wrong}")
            print(f"input {done + 1} of {count} differs, seed {seed}; it is saved as {path}")
            return 1
        all_reached += inputs.reached(call, given, result)
    counts = inputs.tally(call, all_reached)
    print(f"compared {count} inputs of {call}, seed {seed}: all equal ({inputs.tally_words(call, counts)})", flush=True)
    never = [str(each) for each, n in counts.items() if not n and count >= inputs.enough(call)]
    if never:
        print(f"{call}: never reached: {', '.join(never)}")
    return 1 if never else 0


def main():
    given = options()
    reason = library.why_not()
    if reason:
        print(f"the calls of the library: not compared, {reason}")
        return 0
    linked = library.opened(given.library)
    if not linked:
        return 2
    for call in given.calls or library.CALLS:
        if not linked.has(call):
            raise OSError(f"the library has no call kuldrepso_{call}")
        print(f"comparing {given.count} inputs of {call}, seed {given.seed}", flush=True)
        if compare(linked, call, given.count, given.seed):
            return 1
    return 0


if __name__ == "__main__":
    runner.leave(library.in_child, main)
