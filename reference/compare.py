#!/usr/bin/env python3
"""Run a calculator and the reference on generated models and compare them byte for byte.

    python3 reference/compare.py [--count N] [--seed S | --fresh] [COMMAND [ARGUMENT...]]

Without a command, the program that the script build of this repository makes is run. The
command gets each model as conformance/run.py gives it, and what differs is named in the same
words. It stops at the first model that differs. Exit status: 0 when all are equal, 1 when one
differs, 2 when the run itself is not possible.
"""

import os
import subprocess
import sys
import time

sys.dont_write_bytecode = True
HERE = os.path.dirname(os.path.abspath(__file__))
ROOT = os.path.dirname(HERE)
sys.path[:0] = [HERE, os.path.join(ROOT, "conformance")]

import calculator  # noqa: E402
import models  # noqa: E402
import runner  # noqa: E402

BUILD = os.path.join(ROOT, "build")
PROGRESS_EVERY = 10   # seconds between progress lines


def options():
    """The command line, with the seed chosen."""
    parser = runner.Parser(description="Compare a calculator with the reference on generated models.")
    runner.add_count_and_seed(parser, 300, "models")
    runner.add_command(parser, "what build makes")
    return runner.parsed(parser)


def built():
    """The command of the program made from the sources as they are; none where build has said why it cannot be."""
    result = subprocess.run([BUILD, "calculator"], stdout=subprocess.PIPE, check=False)
    if result.returncode:
        return []
    path = os.fsdecode(result.stdout).rstrip("\n")
    if not path:
        raise OSError(f"{BUILD} calculator printed no path")
    return [path]


def compare(command, count, seed):
    """0 when all models are equal, 1 at the first that differs."""
    last_word = time.monotonic()
    for done, (name, file) in enumerate(models.mixed_models(seed, count)):
        if time.monotonic() - last_word >= PROGRESS_EVERY:
            last_word = time.monotonic()
            print(f"{done} of {count} models equal so far", file=sys.stderr, flush=True)
        trouble = runner.check(command, file, calculator.sheet(file))
        if trouble:
            path = runner.save(f"difference-seed{seed}-{name}.model", file)
            print(f"{name}: {trouble}")
            print(f"model {done + 1} of {count} differs, seed {seed}; it is saved as {path}")
            return 1
    print(f"compared {count} models, seed {seed}: all equal")
    return 0


def main():
    given = options()
    command = given.command or built()
    if not command:
        return 2
    print(f"comparing {given.count} models, seed {given.seed}", flush=True)
    return compare(command, given.count, given.seed)


if __name__ == "__main__":
    runner.leave(main)
