#!/usr/bin/env python3
"""Run any calculator against the stored sheets.

    python3 conformance/run.py COMMAND [ARGUMENT...]

The command gets each model on standard input and prints its sheet on standard output. For
each model that fails, the first character that differs is named. Exit status: 0 when all
pass, 1 when one fails, 2 when the run itself is not possible.
"""

import os
import sys

sys.dont_write_bytecode = True
HERE = os.path.dirname(os.path.abspath(__file__))
sys.path.insert(0, HERE)

import runner  # noqa: E402

FILES = os.path.join(HERE, "files")
MOST_WITHOUT_END = 2   # models; each takes the time limit of runner.py


def names():
    """The names of the stored models, sorted; those that document 01 explains come first."""
    result = [name[:-6] for name in os.listdir(FILES) if name.endswith(".model")]
    result.sort(key=lambda name: (not name.startswith("hand-"), name))
    if not result:
        raise OSError("no models in conformance/files")
    return result


def stored(name):
    with open(os.path.join(FILES, name), "rb") as source:
        return source.read()


def run_all(command):
    """Prints what fails; how many models passed and how many failed."""
    passed = failed = without_end = 0
    for name in names():
        trouble = runner.check(command, stored(name + ".model"), stored(name + ".sheet"))
        if trouble:
            failed += 1
            print(f"{name}.model: {trouble}", flush=True)
        else:
            passed += 1
        without_end += trouble.startswith(runner.NO_END)
        if without_end == MOST_WITHOUT_END:
            print(f"{without_end} models had no end in time: the models that follow are not tried", flush=True)
            break
    return passed, failed


def main(command):
    if not command or command[0].startswith("-"):
        print("run.py: give the command of a calculator, as in: run.py ./calculator", file=sys.stderr)
        return 2
    passed, failed = run_all(command)
    print(f"comparison kit: {passed} passed, {failed} failed")
    return 1 if failed else 0


if __name__ == "__main__":
    runner.leave(main, sys.argv[1:])
