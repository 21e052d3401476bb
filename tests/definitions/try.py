#!/usr/bin/env python3
"""The definitions tried by an outside program: what the reference says of small generated files of both versions, alone,
with lists of times, with a state, n and r, of their moves to the other version, of practice files, and of files with one
reward rate raised, as theorems.

    python3 tests/definitions/try.py             every statement must be proved
    python3 tests/definitions/try.py --wrong     one number of each kind in a case is altered, an answer's count of row
                                                 means to one more, one less and N × M, and of rewards the opposite is
                                                 said; each must be refused
    --seed N    other files and numbers        --keep    leave the scratch crate, and say where it stands

Each file is a theorem four times: what a call answers (the level with the count of row means of document 02, S-8, or the
refusal's number), all cells after the call (also those past the moments and start figures, which stay), the number lent
for the count after the call (which stays after a refusal), and the bytes of the printed sheet. Each file with a list of
times (S-3) is one four times too: what the call answers (the count of row means, or the refusal's number), all level
cells and all block cells after the call (also those past the last level and block, which stay), and the number lent for
the count. A fifth says which bytes the file has with the list's last time in the place of its own, where the list is
accepted or row 12 stops it. Each file with a state, n and r (S-4) is one four times: what the call answers (the rests of
V, W and U, none, or the refusal's number), and each of the three numbers after the call (which stay where no rests are
given). Where they are given, a fifth says the quotients V, W and U. Each move of a file (S-5) is one twice: what the call
answers (the count of bytes, or the refusal's number), and all bytes after the call (also those past the moved file, which
stay). Where it is accepted, a third says the moved file. Each practice file (S-6), from M, R and a seed number, is one
twice likewise; where it is accepted, a third says the file that is dealt, and a fourth its level and count of row means,
with M × R cells. Each state of a file with a reward from its own to the file's largest (S-9) is one six times, and seven
where its own is above 0: the bytes of the file with that reward, which are built from its fields, what a call answers for
it, that this is the answer for the file itself, all cells after the call, that the reward is one that the state may be
raised to, and that one more than the largest and one less than its own are not. The numbers are the reference's, which
counts the row means one by one as it takes them. The theorems stand in a scratch crate outside the repository, which cites
a copy of crates/definitions and is checked by `rt check`. A refusal counts only where the prover names the altered statement and
says that its two sides differ, and for each kind of number it must have shown the right and the altered one side by side;
of what rewards a state may be raised to, where it says that what is left to show is false.
"""

import copy
import pathlib
import random
import re
import shutil
import subprocess
import sys
import tempfile
import time
from collections import Counter, namedtuple

sys.dont_write_bytecode = True
ROOT = pathlib.Path(__file__).resolve().parent.parent.parent
sys.path.insert(0, str(ROOT / "reference"))

import calculator  # noqa: E402
import inputs  # noqa: E402
import models  # noqa: E402

# --- All that names a definition. Those to unfold are read from the crate's specs/ (`unfoldable`). ------------

HEAD = """\
use Rattle.std.specs.Prelude.{ℕ, ◌-◌, ◌*◌, List, [], ◌∷◌, ◌≡◌, refl, length, get_or, Some, None}
use Rattle.std.proofs.Common.{arith}
use Rattle.definitions.specs.Chain.{model_of, chain_of}
use Rattle.definitions.specs.Rules.{accepted, refused, saying, last_time}
use Rattle.definitions.specs.Moment.{count_after}
use Rattle.definitions.specs.Remainders.{number_after, mean_of, share_of}
use Rattle.definitions.specs.Written.{count_of, bytes_after}
use Rattle.definitions.specs.Order.{Raises}
"""
USE = "use Rattle.definitions.specs.{module}.{{{names}}}\n"
LENT = """
abbrev {name} : {type}
{name} = {value}
"""
THEOREM = """
pub {name} : {says}
unfolding {unfolded}
{name} = {proof}
"""
ANSWER = {
    "level": "accepted (record {{ level = {}; means = {} }})",
    "refused": "refused {}",
    "times": "accepted {}",
    "given": "accepted (Some (record {{ mean = {}; share = {}; mix = {} }}))",
    "none": "accepted None",
    "bytes": "accepted {}",
}
# For the other parts, what is written is all.
RIGHT = {"moved": "accepted ({})", "dealt": "accepted ({})", "unchanged": "outcome {file} (length {cells})"}
LEFT = {
    "calculate": {
        "answer": "outcome {file} (length {cells})",
        "cells": "cells_after (outcome {file} (length {cells})) {file} {cells}",
        "row_means": "count_after (saying (λ x. x.means) (outcome {file} (length {cells}))) (get_or {row_means} 0 0) ∷ []",
        "sheet": "printed_sheet {file}",
    },
    "series": {
        "answer": "series_outcome {file} {times} (length {levels}) (length {cells})",
        "levels": "levels_after (series_outcome {file} {times} (length {levels}) (length {cells})) {file} {times} {levels}",
        "cells": "blocks_after (series_outcome {file} {times} (length {levels}) (length {cells})) {file} {times} {cells}",
        "row_means": "count_after (series_outcome {file} {times} (length {levels}) (length {cells})) (get_or {row_means} 0 0) ∷ []",
        "file": "with_time {file} (last_time {times})",
    },
    "remainders": {
        "answer": "remainders_of {file} {state} {n} {r}",
        "mean": "number_after (remainders_of {file} {state} {n} {r}) (λ x. x.mean) (get_or {mean} 0 0) ∷ []",
        "share": "number_after (remainders_of {file} {state} {n} {r}) (λ x. x.share) (get_or {share} 0 0) ∷ []",
        "mix": "number_after (remainders_of {file} {state} {n} {r}) (λ x. x.mix) (get_or {mix} 0 0) ∷ []",
        "quotients": "mean_of (chain_of (model_of {file})) {n} {r} ({state} - 1) ∷ share_of (chain_of (model_of {file})) {n} {r} ({state} - 1) ∷ U (chain_of (model_of {file})) {n} {r} ({state} - 1) ∷ []",
    },
    "to_version_2": {
        "answer": "count_of (to_version_2 {file} (length {out}))",
        "out": "bytes_after (to_version_2 {file} (length {out})) {out}",
        "moved": "to_version_2 {file} (length {out})",
    },
    "to_version_1": {
        "answer": "count_of (to_version_1 {file} (length {out}))",
        "out": "bytes_after (to_version_1 {file} (length {out})) {out}",
        "moved": "to_version_1 {file} (length {out})",
    },
    "practice": {
        "answer": "count_of (practice {states} {highest} {seed} (length {out}))",
        "out": "bytes_after (practice {states} {highest} {seed} (length {out})) {out}",
        "dealt": "practice {states} {highest} {seed} (length {out})",
        "level": "outcome (practice_file {states} {highest} {seed}) ({states} * {highest})",
    },
    "raised": {
        "rewarded": "with_reward {file} {state} {reward}",
        "answer": "outcome (with_reward {file} {state} {reward}) (length {cells})",
        "unchanged": "outcome (with_reward {file} {state} {reward}) (length {cells})",
        "cells": "cells_after (outcome (with_reward {file} {state} {reward}) (length {cells})) (with_reward {file} {state} {reward}) {cells}",
    },
}
# What is said of a reward and how it is proved: the parts that are no equation.
OF_REWARD = {
    "admitted": ("Raises {file} {state} {}", "record { state = omega arith; from = omega arith; to = omega arith }"),
    "not-admitted": ("Raises {file} {state} {} → ⊥", "λ h. omega arith"),
}

# --- The files ------------------------------------------------------------------------------------------------

# Models of the comparison kit whose last division leaves half of its divisor for some moment, or a little less or more.
HALVES = ["half-tick-3", "half-tick-to-one-1", "half-tick-to-one-less", "half-tick-to-a-tick-1", "half-tick-to-a-tick-less", "half-tick-one-less-2", "half-tick-to-0-1-more"]

# A call of the reference with what is lent to it, {parameter: value}, and what stops it: the number of a rule, or "none"
# where the file has no such U(n,r); 0 where nothing does.
Case = namedtuple("Case", "call name rule given")


def small(rng, M, R, most=1_000_000, T=2):
    """The fields of an accepted file of M states, with rates of at most `most` millionths."""
    rates = [[rng.randint(1, most) for _ in range(M - 1)] for _ in range(M)]
    rewards = [rng.randint(1, models.MAX_REWARD) for _ in range(M)]
    return models.valid(M, R, models.log_uniform(rng, 1, models.MAX_TOLERANCE), T, rewards, rates)


def accepted_fields(rng):
    """The fields of files that no rule stops, by name."""
    absorbing, unrewarded = small(rng, 3, 2), small(rng, 3, 1)
    absorbing["rates"][rng.randrange(3)] = [0, 0]
    unrewarded["rewards"][rng.randrange(3)] = 0
    return {
        "one-state": small(rng, 1, 1),
        "one-state-q-above-1": small(rng, 1, 3, T=rng.randint(1_000_001, 3_000_000)),
        "two-states": small(rng, 2, 2),
        "three-states": small(rng, 3, 3),
        "q-below-1": small(rng, 3, 2, most=100_000),
        "absorbing-state": absorbing,
        "no-rates": {**small(rng, 2, 2, T=rng.randint(1, 2_000_000)), "rates": [[0], [0]]},
        "unrewarded-state": unrewarded,
        "at-the-borders": models.valid(2, 1, models.MAX_TOLERANCE, 1, [models.MAX_REWARD, 0], [[models.MAX_ROW_SUM], [rng.randint(1, 9)]]),
        "most-jumps": small(rng, 1, 1, T=256_000_000),
    }


# Files of version 2 that no rule stops: M, R and their kind of starting weights (models.STARTS).
STARTING = {"start-one-state": (1, 2, "on-first"), "start-on-first": (2, 2, "on-first"), "start-on-last": (3, 2, "on-last"), "start-nearly-on-one": (2, 2, "nearly-on-one"), "start-with-zeros": (3, 2, "with-zeros"), "start-even": (3, 1, "even"), "start-uneven": (3, 3, "uneven")}


def starting_fields(rng, name):
    """The fields of a file of STARTING."""
    M, R, kind = STARTING[name]
    return models.in_version_2(small(rng, M, R), models.STARTS[kind](rng, M))


def shows_rounding(file):
    """Whether every start figure of a file would be another one if it were rounded to the nearest or up, or if each
    weight times moment were rounded down by itself. All weight on one state leaves nothing to round."""
    model, cells = calculator.read_model(file), [0] * inputs.need(file)
    calculator.calculate(file, cells)
    for r in range(model.R):
        terms = [weight * moment for weight, moment in zip(model.a, cells[r::model.R])]
        left, lefts = sum(terms) % calculator.MILLION, sum(term % calculator.MILLION for term in terms)
        if 2 * left < calculator.MILLION or lefts < calculator.MILLION:
            return max(model.a) == models.ALL_WEIGHT
    return True


def starting_file(rng, name):
    """The bytes of a file of STARTING, drawn until its level is at most 4 and its figures show their rounding."""
    while True:
        file = models.build(**starting_fields(rng, name))
        if inputs.limits(file)["n"] <= 4 and shows_rounding(file):
            return file


def accepted_files(rng):
    """{name: bytes} of files that no rule stops."""
    made = {name: models.build(**each) for name, each in accepted_fields(rng).items()}
    kit = {name: (ROOT / f"conformance/files/{name}.model").read_bytes() for name in HALVES}
    return {**made, **kit, **{name: starting_file(rng, name) for name in STARTING}}


def refused_files(rng):
    """(rule, bytes) of version 1 files that one of the rules 1 to 12 stops, just past its border."""
    def changed(**fields):
        return models.build(**{**small(rng, 2, 2), **fields})
    return [
        (1, changed()[:12]),
        (2, changed() + b"\0"),
        (3, changed(version=0)),
        (3, changed(version=3)),
        (4, changed(M=0)),
        (4, changed(M=65)),
        (5, changed(R=0)),
        (5, changed(R=9)),
        (6, models.relength(changed()[:-4])),
        (6, changed(M=64, R=8)),
        (7, changed(eps=0)),
        (7, changed(eps=models.MAX_TOLERANCE + 1)),
        (8, changed(T=0)),
        (9, changed(rewards=[rng.randint(0, 9), models.MAX_REWARD + 1])),
        (10, changed(rewards=[0, 0])),
        (11, changed(rates=[[rng.randint(0, 9)], [models.MAX_ROW_SUM + 1]])),
        (12, models.build(**{**small(rng, 1, 1), "T": 256_000_001})),
        (12, changed(rates=[[6_918_919], [rng.randint(0, 9)]], T=37)),
    ]


def with_version(file, version):
    return file[:2] + bytes([version]) + file[3:]


def breaking(rng, *rules):
    """A file of version 2 and two states that breaks these of the rules 1 to 12, 16 and 17."""
    return models.breaking(rng, starting_fields(rng, "start-on-first"), set(rules))


def refused_starts(rng):
    """(rule, bytes) of version 2 files that one of the rules 1 to 12 and 16 stops: by the next version, by a wrong length,
    by each wrong sum of models.WRONG_SUMS, by a rule with later ones and, last, by each rule with the next one."""
    order = inputs.ROWS["calculate"][:-1]
    two = starting_fields(rng, "start-on-first")
    return [
        (3, with_version(models.build(**two), 3)),
        (6, with_version(models.build(**small(rng, 1, 1)), 2)),
        (6, with_version(models.build(**small(rng, 2, 2)), 2)),
        (6, models.relength(models.build(**two)[:-4])),
        *((16, models.build(**{**two, "weights": make(rng, 2)})) for make in models.WRONG_SUMS.values()),
        (3, breaking(rng, 3, 16)),
        (6, breaking(rng, 6, 16)),
        (8, breaking(rng, 8, 9, 16)),
        (16, breaking(rng, 10, 16)),
        (16, breaking(rng, 11, 16)),
        (16, breaking(rng, 12, 16)),
        *((rule, breaking(rng, *order[place:place + 2])) for place, rule in enumerate(order)),
    ]


def lent(rng, count):
    """So many cells with numbers of chance, which tell what a call leaves."""
    return [rng.randint(1, 99) for _ in range(count)]


def lent_count(rng):
    """A number lent for the count of row means, above every count of these files."""
    return [rng.randint(1_000, 9_999)]


def file_cases(rng, accepted, refused, refused_2):
    """Every file with its cells: two more than its figures need; for 13, and for 12 and 16 before it, less than needed,
    of version 2 also just as many as its moments need."""
    def case(name, rule, file, count):
        return Case("calculate", name, rule, dict(file=file, cells=lent(rng, count), row_means=lent_count(rng)))
    result = [case(name, 0, file, inputs.need(file) + 2) for name, file in accepted.items()]
    result += [case(f"rule-{rule}-{place}", rule, file, 4) for place, (rule, file) in enumerate(refused)]
    result += [case(f"start-rule-{rule}-{place}", rule, file, 8) for place, (rule, file) in enumerate(refused_2)]
    result.append(case("rule-12-before-13", 12, dict(refused)[12], 1))
    result += [case(f"start-rule-{rule}-before-13", rule, dict(refused_2)[rule], 5) for rule in (12, 16)]
    result.append(case("rule-13", 13, models.build(**small(rng, 2, 2)), 3))
    return result + [case(f"start-rule-13-{count}", 13, accepted["start-on-first"], count) for count in (4, 5)]


# --- The files with lists of times ----------------------------------------------------------------------------

# The accepted files that get a list no row stops, and how many times it has.
TIMES = {"one-state": 1, "one-state-q-above-1": 4, "two-states": 3, "three-states": 2, "q-below-1": 4, "absorbing-state": 2, "no-rates": 8, "at-the-borders": 2, "half-tick-3": 2, "half-tick-to-one-less": 3, "start-one-state": 1, "start-on-first": 1, "start-nearly-on-one": 3, "start-even": 2}


def rising(rng, file, count):
    """So many times, the file's own among them; the others for eight jumps at most, or the first hours where these are too few."""
    most = max(count, inputs.longest_time(file) // 32)
    times = {inputs.own_time(file)}
    while len(times) < count:
        times.add(models.log_uniform(rng, 1, most))
    return sorted(times)


def refused_lists(two, stopped):
    """(rule, file, times, count of level cells, of block cells) of lists that a row stops, with an accepted file of two
    states or a stopped one. Most break later rows too: a list of 9 zeros 8, 14 and 15, an empty one 14, and `few` cells 13
    for every list that has a time."""
    longest, block = inputs.longest_time(two), inputs.need(two)
    few = 1, 3
    return [
        *((rule, stopped[rule], [0] * 9, *few) for rule in range(1, 8)),
        (8, stopped[8], [2, 1], *few),
        (8, stopped[9], [0, 1, 1], *few),
        *((rule, stopped[rule], [], *few) for rule in (9, 10, 11)),
        (14, two, [], *few),
        (14, two, [longest + 1] * 9, *few),
        (15, two, [longest + 1, longest + 1], *few),
        (15, two, [1, 2, 4, 0], *few),
        (12, two, [1, longest + 1], *few),
        (12, two, [models.MAX_WORD], *few),
        (13, two, [1, longest], 1, 2 * block),
        (13, two, [1, longest], 2, 2 * block - 1),
    ]


def refused_lists_2(two, stopped):
    """The same of version 2 alone: 16 before and after other rows, and block cells for the moments alone."""
    few = 1, 3
    return [
        (8, stopped[16], [0, 1, 1], *few),
        (16, stopped[16], [], *few),
        (16, stopped[16], [2, 1], *few),
        (16, stopped[16], [models.MAX_WORD], *few),
        (13, two, [1, 2], 2, 8),
    ]


def list_cases(rng, files, stopped, stopped_2):
    """Every list with its file and its cells. Those of an accepted list are as many as needed, or one or two more, and its
    file mostly has a time of its own that the list has not."""
    def case(name, rule, file, times, levels, cells):
        slices = dict(levels=lent(rng, levels), cells=lent(rng, cells))
        return Case("series", f"list-{name}", rule, dict(file=file, times=times, **slices, row_means=lent_count(rng)))
    result = []
    for place, (name, count) in enumerate(TIMES.items()):
        file, more = files[name], (place + 2) % 3
        other = inputs.with_time(file, inputs.another_time(rng, file))
        result.append(case(name, 0, other, rising(rng, file, count), count + more, count * inputs.need(file) + more))
    two, two_2 = files["two-states"], files["start-on-first"]
    lists = refused_lists(two, stopped) + refused_lists(two_2, stopped_2) + refused_lists_2(two_2, stopped_2)
    for place, (rule, *given) in enumerate(lists):
        result.append(case(f"rule-{rule}-{place}", rule, *given))
    return result


# --- The files with a state, n and r --------------------------------------------------------------------------

RESTS = ("mean", "share", "mix")

# Files that are asked, and whether V, W and U leave a rest there. V leaves none where E is 1, nor where no rate leads out
# of the state, and there U leaves none either, since V is W. W leaves none where there is one state.
ASKED = {"three-states": (True, True, True), "rates-of-1": (False, True, True), "absorbing-state": (False, True, False), "no-rates": (False, True, False), "one-state-q-above-1": (False, False, False), "start-uneven": (True, True, True)}


def asked(rng, name, places):
    """A file with state, n and r: some at their places, the others within their limits. Drawn until the level is from 2
    to 6, and the rests that are given are above 0 as ASKED has it."""
    while True:
        fields = {**accepted_fields(rng), "rates-of-1": small(rng, 2, 2, most=1, T=2_000_000), "start-uneven": starting_fields(rng, "start-uneven")}
        file = models.build(**fields[name])
        limit = inputs.limits(file)
        numbers = {**inputs.within(rng, limit), **{number: inputs.PLACES[place](limit[number]) for number, place in places.items()}}
        word, rests = calculator.rests(file, **numbers)
        if 2 <= limit["n"] <= 6 and (word == "none" or tuple(map(bool, rests)) == ASKED[name]):
            return dict(file=file, **numbers)


def placed():
    """Where state, n and r stand, by a name: each of them at each of its places, then all at one."""
    each = {f"{number}-{place}": {number: place} for number in inputs.NUMBERS for place in inputs.PLACES}
    return {**each, **{f"all-{place}": dict.fromkeys(inputs.NUMBERS, place) for place in ("1", "limit", "largest")}}


def refused_numbers(rng, refused):
    """(rule, file with state, n and r): numbers that no file has with the last file of each rule, 1 with the others."""
    last = dict(refused)
    for rule, file in refused:
        numbers = inputs.all_beyond(rng, inputs.MOST) if file == last[rule] else dict.fromkeys(inputs.NUMBERS, 1)
        yield rule, dict(file=file, **numbers)


def asked_cases(rng, refused, refused_2):
    """State, n and r at their places, then within every file of ASKED, then past the states of a version 2 file, where
    its start figures have no rests, then with the refused files."""
    def case(name, rule, given):
        before = rng.sample(range(100, 1000), len(RESTS))    # three different ones, above every rest of U
        return Case("remainders", f"asked-{name}", rule, dict(given, **{rest: [number] for rest, number in zip(RESTS, before)}))
    result = []
    for name, places in placed().items():
        inside = set(places.values()) <= {"1", "limit"}
        result.append(case(name, 0 if inside else "none", asked(rng, "three-states", places)))
    result += [case(name, 0, asked(rng, name, {})) for name in ASKED]
    result.append(case("start-past-states", "none", asked(rng, "start-uneven", {"state": "past-limit"})))
    result += [case(f"rule-{rule}-{place}", rule, given) for place, (rule, given) in enumerate(refused_numbers(rng, refused))]
    return result + [case(f"start-rule-{rule}", rule, given) for rule, given in refused_numbers(rng, [*dict(refused_2).items()])]


# --- The files that are moved ---------------------------------------------------------------------------------

# The version 1 files that are moved to version 2 and, so moved, back. One of eight states has a length above 255.
MOVED = ["one-state", "two-states", "three-states", "absorbing-state", "no-rates", "at-the-borders", "half-tick-3", "eight-states"]


def refused_moves(rng, files, refused, refused_2):
    """(call, rule, file, how many bytes are lent past those of the moved file). Where it is below 0, 13 holds too."""
    two, two_2, eight = files["two-states"], files["start-on-first"], files["eight-states"]
    elsewhere = [files[name] for name in STARTING if any(inputs.weights_of(files[name])[1:])]
    there, back = "to_version_2", "to_version_1"
    by_rule = [(there, *each) for each in refused] + [(back, *each) for each in refused_2]
    return [
        *((*each, -1 if place % 2 else 2) for place, each in enumerate(by_rule)),
        (there, 3, two_2, 9),
        (there, 3, dict(refused_2)[16], -1),
        (there, 3, with_version(two, 2), 0),
        (there, 6, with_version(two_2, 1), 0),
        (there, 13, two, -1),
        (there, 13, two, -8),    # as many as the file itself has
        (there, 13, files["one-state"], -99),
        (there, 13, eight, -1),
        (back, 3, two, 0),
        (back, 3, dict(refused)[12], -1),
        (back, 3, with_version(two_2, 1), 0),
        *((back, 17, file, more) for file, more in zip(elsewhere, (0, -1, 8, 1, -99))),
        (back, 17, models.build(**{**starting_fields(rng, "start-on-first"), "weights": [999_999, 1]}), 0),
        (back, 9, breaking(rng, 9, 17), 0),
        (back, 11, breaking(rng, 11, 17), -1),
        (back, 12, breaking(rng, 12, 17), 0),
        (back, 12, breaking(rng, 12, 17), -1),
        (back, 13, two_2, -1),
        (back, 13, files["start-one-state"], -99),
        (back, 13, calculator.as_version_2(eight), -1),
    ]


def move_cases(rng, accepted, refused, refused_2):
    """Every move with the bytes that are lent; for those that are accepted just enough, or one or two more."""
    def case(call, name, rule, file, more):
        out = lent(rng, max(0, inputs.moved_length(call, file) + more))
        return Case(call, f"move-{call[-1]}-{name}", rule, dict(file=file, out=out))
    files = {**accepted, "eight-states": models.build(**small(rng, 8, 1))}
    result = []
    for place, name in enumerate(MOVED):
        result.append(case("to_version_2", name, 0, files[name], place % 3))
        result.append(case("to_version_1", name, 0, calculator.as_version_2(files[name]), (place + 1) % 3))
    result += [case("to_version_1", name, 0, files[name], 0) for name in ("start-one-state", "start-on-first")]
    for place, (call, rule, file, more) in enumerate(refused_moves(rng, files, refused, refused_2)):
        result.append(case(call, f"rule-{rule}-{place}", rule, file, more))
    return result


# --- The practice files ---------------------------------------------------------------------------------------

def dealt_numbers(rng):
    """{name: (M, R, seed number)} of practice files that no row stops: the seed numbers of inputs.SEEDS, those with a draw
    of inputs.DRAWS (two states have all of these draws), R at its ends, and numbers of chance."""
    def any_R():
        return rng.randint(1, inputs.SIZES["highest"])
    seeds = {name: (M, any_R(), seed) for M, (name, seed) in enumerate(inputs.SEEDS.items(), 1)}
    draws = {name: (2, any_R(), inputs.seed_drawing(*draw, rng.getrandbits(16))) for name, draw in inputs.DRAWS.items()}
    ends = {f"highest-{R}": (rng.randint(1, 3), R, rng.getrandbits(32)) for R in (1, inputs.SIZES["highest"])}
    chance = {f"by-chance-{M}": (M, any_R(), rng.getrandbits(32)) for M in (1, 2, 3, 4, 6)}
    return {**seeds, **draws, **ends, **chance}


def refused_practice():
    """(rule, M, R, count of bytes): M and R each at 0 and past their limits, alone and with later rows; then 13 alone, by
    one byte, by all, with the bytes that the length field counts, and with those of a file of fewer states."""
    far, large = 2**32 + 1, inputs.LARGEST    # far is 1 in 32 bits
    one, two, four = map(inputs.dealt_length, (1, 2, 4))
    return [
        *((4, M, 1, one) for M in (0, 65, far, large)),
        (4, 0, 8, 0),
        (4, 0, 0, one),
        (4, 65, 9, 0),
        (4, far, far, one),
        *((5, 1, R, one) for R in (0, 9, far, large)),
        (5, 1, 9, one - 1),
        (5, 2, 0, 0),
        (5, 64, 9, two),
        (13, 1, 8, one - 1),
        (13, 1, 1, 0),
        (13, 2, 2, two - 1),
        (13, 2, 8, two - 2),
        (13, 3, 1, two),
        (13, 4, 3, four - 1),
    ]


def practice_cases(rng):
    """Every practice file with the bytes that are lent; for those that are accepted just enough, or one or two more."""
    def case(name, rule, M, R, seed, count):
        return Case("practice", f"dealt-{name}", rule, dict(states=M, highest=R, seed=seed, out=lent(rng, count)))
    result = []
    for place, (name, (M, R, seed)) in enumerate(dealt_numbers(rng).items()):
        result.append(case(name, 0, M, R, seed, inputs.dealt_length(M) + place % 3))
    for place, (rule, M, R, count) in enumerate(refused_practice()):
        result.append(case(f"rule-{rule}-{place}", rule, M, R, inputs.any_seed(rng), count))
    return result


# --- The files with one reward raised -------------------------------------------------------------------------

# The files of four states among them: version and R.
FOUR_STATES = {"four-states": (1, 4), "four-states-one-moment": (1, 1), "start-four-states": (2, 4), "start-four-states-two-moments": (2, 2)}


def four_states(rng, version, R):
    """The bytes of a file of four states, with hardly a jump."""
    fields = small(rng, 4, R, most=9_000)
    return models.build(**(fields if version == 1 else models.in_version_2(fields, models.uneven(rng, 4))))


def with_reward(file, state, reward):
    """The bytes that are built from a file's fields with another reward for a state, counted from 0."""
    model = calculator.read_model(file)
    rewards = [*model.f[:state], reward, *model.f[state + 1:]]
    return models.build(file[2], model.M, model.R, model.epsilon, model.T, rewards, calculator.read_rates(file, model.M), model.a)


def raised_cases(rng, accepted):
    """Files of up to four states and a level of at most 7: each state below the file's largest reward, or the only one, in
    turn with its own reward, one more, one between and the largest, as far as they differ. The cells are those of the
    file's block."""
    files = {name: file for name, file in accepted.items() if file[3] <= 4 and inputs.limits(file)["n"] <= 7}
    files.update((name, four_states(rng, *sizes)) for name, sizes in FOUR_STATES.items())
    result = []
    for name, file in files.items():
        rewards = calculator.read_model(file).f
        largest = max(rewards)
        for state, own in enumerate(rewards):
            if own < largest or len(rewards) == 1:
                to = sorted({own, min(own + 1, largest), (own + largest) // 2, largest})
                given = dict(file=file, state=state, reward=to[len(result) % len(to)], cells=lent(rng, inputs.need(file)))
                result.append(Case("raised", f"raised-{name}-{state}", 0, given))
    return result


def cases(rng):
    """All files alone, then some of them with lists, then files with a state, n and r, then moves, then practice files, then
    files with one reward raised."""
    accepted, refused, refused_2 = accepted_files(rng), refused_files(rng), refused_starts(rng)
    return [
        *file_cases(rng, accepted, refused, refused_2),
        *list_cases(rng, accepted, dict(refused), dict(refused_2)),
        *asked_cases(rng, refused, refused_2),
        *move_cases(rng, accepted, refused, refused_2),
        *practice_cases(rng),
        *raised_cases(rng, accepted),
    ]


# --- What is stated of them -----------------------------------------------------------------------------------

# Cases whose numbers are not altered: hundreds of weights or of bytes would take the prover longest to show.
LONG = {"most-jumps", "move-2-eight-states", "move-1-eight-states"}

# One theorem: its case, a label, the part of LEFT that it is about, and the value on the right.
Fact = namedtuple("Fact", "case label part value")

# The kinds of number in an answer, by its word, and in the parts that always have the same kinds: each with the places
# where it stands. An answer is a word and numbers; of the file with another time, one of the time's bytes is altered. That
# a raised reward leaves the answer unchanged has no number. The count of row means in an answer is altered by
# `other_counts`.
KINDS = {
    "refused": {"rule": [1]},
    "level": {"level": [1]},
    "times": {"acceptance": [0]},
    "given": {"given": [0], "rest-of-V": [1], "rest-of-W": [2], "rest-of-U": [3]},
    "none": {"none": [0]},
    "bytes": {"count": [1]},
    "file": {"byte": range(9, 13)},
    "quotients": {"V": [0], "W": [1], "U": [2]},
    "unchanged": {},
}

# What an answer becomes where its word is altered.
OTHER = {"times": ("refused", 13), "given": ("none", 1), "none": ("given", 0, 0, 0)}


def right_facts(case):
    """What the reference says of a case."""
    if case.call == "raised":
        return raised_facts(case, **case.given)
    given = copy.deepcopy(case.given)
    answer = getattr(calculator, case.call)(**given)
    if {"refused": answer[1], "none": "none"}.get(answer[0], 0) != case.rule:
        sys.exit(f"try.py: {case.name} is answered {answer}: the case does not show what it is for")
    values = {"answer": answer, **{part: given[part] for part in ("levels", "cells", "row_means", *RESTS, "out") if part in given}}
    if "row_means" in given:
        values["answer"] = with_count(answer, given["row_means"])
    if case.call == "calculate":
        values["sheet"] = list(calculator.sheet(given["file"]))
    elif case.call == "series" and case.rule in (0, 12):
        values["file"] = list(inputs.with_time(given["file"], given["times"][-1]))
    elif case.call == "practice" and answer[0] == "bytes":
        M, R = given["states"], given["highest"]
        file = calculator.dealt(M, R, given["seed"])
        values.update(dealt=list(file), level=run_answer(file, M * R))
    elif answer[0] == "bytes":
        values["moved"] = given["out"][:answer[1]]
    elif answer[0] == "given":
        values.update(given_values(**{each: given[each] for each in ("file", *inputs.NUMBERS)}))
    return [Fact(case, part, part, value) for part, value in values.items()]


def raised_facts(case, file, state, reward, cells):
    """What it says of a file with one reward raised."""
    raised, after, rewards = with_reward(file, state, reward), list(cells), calculator.read_model(file).f
    calculator.calculate(raised, after)
    values = {"rewarded": list(raised), "answer": run_answer(raised, len(cells)), "unchanged": [], "cells": after}
    facts = [Fact(case, part, part, value) for part, value in values.items()]
    facts += [Fact(case, "own-to-largest", "admitted", reward), Fact(case, "past-largest", "not-admitted", max(rewards) + 1)]
    if rewards[state]:
        facts.append(Fact(case, "below-own", "not-admitted", rewards[state] - 1))
    return facts


def with_count(answer, row_means):
    """The answer of a run with the count of row means that it gave: behind the level, or in the place of the number of
    times, which the definitions do not answer. A refusal has none."""
    return {"level": (*answer, *row_means), "times": ("times", *row_means)}.get(answer[0], answer)


def run_answer(file, cells):
    """That of an accepted file, lent so many cells."""
    row_means = [0]
    return with_count(calculator.calculate(file, [0] * cells, row_means), row_means)


def given_values(file, state, n, r):
    """The answer that gives the rests, and the quotients."""
    line = next(line for line in calculator.worked(file).lines if (line.state, line.n, line.r) == (state, n, r))
    word, rests = calculator.rests(file, state, n, r)
    return {"answer": (word, *rests), "quotients": [line.V, line.W, line.U]}


def filled_count(case, part):
    """How many numbers of a part a call fills."""
    if case.rule:
        return 0
    if part == "levels":
        return len(case.given["times"])
    return inputs.rooms(case.call, case.given)[1] if part in ("cells", "out") else 1


def kinds(fact):
    """The kinds of number in a fact, each with the places where it stands."""
    case, part, value = fact.case, fact.part, fact.value
    same = KINDS.get(value[0] if part == "answer" else part)
    if same is not None:
        return same.items()
    if part == "dealt":
        rates = 13 + 4 * case.given["states"]
        return [("dealt-length", range(2)), ("dealt-version", [2]), ("dealt-states", [3]), ("dealt-highest", [4]),
                ("dealt-tolerance", range(5, 9)), ("dealt-time", range(9, 13)), ("dealt-reward", range(13, rates)),
                ("dealt-rate", range(rates, len(value)))]
    file = case.given.get("file")
    if part == "rewarded":
        first = calculator.first_reward(file, file[3]) + 4 * case.given["state"]
        return [("reward-byte", range(first, first + 4)), ("other-byte", [*range(first), *range(first + 4, len(value))])]
    if part == "sheet":
        lines = len(bytes(value).split(b"start")[0])    # those before the start's
        return [("byte", range(lines)), ("start-byte", range(lines, len(value)))]
    if part == "moved":
        weights = range(13, 13 + 4 * file[3]) if case.call == "to_version_2" else []
        return [("moved-length", range(2)), ("moved-version", [2]), ("moved-weight", weights),
                ("moved-number", [place for place in range(3, len(value)) if place not in weights])]
    filled = range(filled_count(case, part))
    stays = range(len(filled), len(value))
    if part == "cells":
        starts = [place for place in filled if place % inputs.need(file) >= file[3] * file[4]]
        return [("moment", [place for place in filled if place not in starts]), ("start-figure", starts), ("cell-that-stays", stays)]
    name = {"levels": "level", "out": "byte", "row_means": "lent-count"}.get(part, part)
    return [(name, filled), (f"{name}-that-stays", stays)]


def altered(value, place):
    """An answer or a list with the number at a place one off, or with another word."""
    if value[place] in OTHER:
        return OTHER[value[place]]
    return type(value)([*value[:place], value[place] ^ 1, *value[place + 1:]])


def other_seed(fact):
    """A practice file as the seed number one off deals it, and the first byte that differs, right and wrong."""
    M, R, seed = (fact.case.given[each] for each in ("states", "highest", "seed"))
    other = list(calculator.dealt(M, R, seed ^ 1))
    right, wrong = next(pair for pair in zip(fact.value, other) if pair[0] != pair[1])
    return fact._replace(label="seed", value=other), right, wrong


def other_counts(fact):
    """An answer with another count of row means, which stands last in it: one more, one less, and N × M, which is left out
    where R is 1."""
    *others, count = fact.value
    given = fact.case.given
    R = given["highest"] if fact.case.call == "practice" else given["file"][4]
    for label, other in (("one-more", count + 1), ("one-less", count - 1), ("N-times-M", count // R)):
        if other != count:
            yield fact._replace(label=f"row-means-{label}", value=(*others, other)), count, other


def opposite(fact):
    """The opposite of what is said of a reward."""
    return fact._replace(part="admitted" if fact.part == "not-admitted" else "not-admitted")


def shown(value, place):
    """The number at a place, or the answer's word, as the prover shows it."""
    return "accepted" if value[place] == "times" else value[place]


def wrong_facts(rng, facts):
    """Each kind of number of a case's facts, altered: (the fact, the number that is right, the altered one)."""
    for fact in facts:
        if fact.part in OF_REWARD:
            yield opposite(fact), fact.value, fact.value
            continue
        for label, places in kinds(fact):
            if places:
                place = rng.choice(places)
                wrong = fact._replace(label=label, value=altered(fact.value, place))
                yield wrong, shown(fact.value, place), shown(wrong.value, place)
        if fact.part == "dealt":
            yield other_seed(fact)
        if isinstance(fact.value, tuple) and fact.value[0] in ("level", "times"):
            yield from other_counts(fact)


def unfoldable():
    """Each module of the definitions with the names that may be unfolded."""
    modules = {}
    for path in sorted((ROOT / "crates/definitions/specs").glob("*.antt")):
        names = re.findall(r"^unfoldable pub (\S+)", path.read_text(encoding="utf-8"), re.M)
        if names:
            modules[path.stem] = names
    return modules


def written(value):
    """An answer, a number, or a list of numbers, in antt."""
    if isinstance(value, tuple):
        return ANSWER[value[0]].format(*value[1:])
    if isinstance(value, int):
        return str(value)
    return " ∷ ".join([*map(str, value), "[]"])


def lent_name(case, what):
    """The name of what is lent to a case."""
    return f"{case.name}_lent_{what}".replace("-", "_")


def theorem_name(fact):
    return f"{fact.case.name}_{fact.label}".replace("-", "_")


def stated(fact):
    """What a fact says, and its proof, in antt."""
    names = {what: lent_name(fact.case, what) for what in fact.case.given}
    if fact.part in OF_REWARD:
        says, proof = OF_REWARD[fact.part]
        return dict(says=says.format(fact.value, **names), proof=proof)
    left = LEFT[fact.case.call][fact.part].format(**names)
    return dict(says=f"{left} ≡ {RIGHT.get(fact.part, '{}').format(written(fact.value), **names)}", proof="refl")


def theorems(facts):
    """The text of a module that states all the facts."""
    modules = unfoldable()
    unfolded = " ".join(name for names in modules.values() for name in names)
    text = [HEAD] + [USE.format(module=module, names=", ".join(names)) for module, names in modules.items()]
    for case in {fact.case.name: fact.case for fact in facts}.values():
        for what, value in case.given.items():
            kind = "ℕ" if isinstance(value, int) else "List ℕ"
            text.append(LENT.format(name=lent_name(case, what), type=kind, value=written(value)))
    text += [THEOREM.format(name=theorem_name(fact), unfolded=unfolded, **stated(fact)) for fact in facts]
    return "".join(text)


# --- The prover -----------------------------------------------------------------------------------------------

def check(folder, facts):
    """The exit status of rt, and all that it printed, for a scratch crate that states the facts, beside a copy of crates/definitions."""
    (folder / "crates.txt").write_text("definitions:\ntried: definitions\n", encoding="utf-8")
    shutil.copytree(ROOT / "crates/definitions", folder / "crates/definitions", ignore=shutil.ignore_patterns("out", "must-fail"))
    crate = folder / "crates/tried"
    (crate / "src").mkdir(parents=True)
    (crate / "specs").mkdir()
    (crate / "src/lib.rt").write_text("// No code: the theorems are in specs/.\n", encoding="utf-8")
    (crate / "specs/Lib.antt").write_text("pub mod Tried\n", encoding="utf-8")
    (crate / "specs/Tried.antt").write_text(theorems(facts), encoding="utf-8")
    done = subprocess.run(["rt", "check"], cwd=crate, stdout=subprocess.PIPE, stderr=subprocess.STDOUT, timeout=600, check=False)
    return done.returncode, done.stdout.decode("utf-8", "replace")


def errors(said):
    """(name of the theorem, the whole message) of each error; the name is empty where the prover gives none."""
    blocks = re.split(r"^(?=\S)", said, flags=re.M)
    found = []
    for block in blocks:
        match = re.match(r"\S+: error: (?:`([^`]*)`)?", block)
        if match:
            found.append((match.group(1) or "", block))
    return found


def counted(call, facts):
    """The cases and the theorems of a call, in words."""
    of_call = [fact for fact in facts if fact.case.call == call]
    words = Counter({"level": "accepted", "times": "accepted", "bytes": "accepted"}.get(fact.value[0], fact.value[0]) for fact in of_call if fact.part == "answer")
    return f"{call} {sum(words.values())} cases ({', '.join(f'{count} {word}' for word, count in sorted(words.items()))}), {len(of_call)} theorems"


def try_right(folder, facts):
    """Whether all facts are proved, and a line to print."""
    status, said = check(folder, facts)
    if status == 0 and re.search(r"^logic=proved", said, re.M):
        return True, "the definitions agree with the reference: " + "; ".join(counted(call, facts) for call in LEFT)
    names = [name for name, _ in errors(said)]
    return False, f"{said[:3000]}\ntry.py: not proved: {', '.join(names) or 'see above'}"


# How the prover says that two sides differ, how it shows them computed, and how it spells what is no number.
DIFFER = re.compile(r"the two types (first )?differ")
COMPUTED = re.compile(r"computed as far as they go, the two types (?:(?:first )?differ|are `Path ).*?\(found\)", re.S)
SPELLED = {"given": "Some", "none": "None"}


def try_wrong(folder, wrongs):
    """Whether every altered fact is refused, as a fact, and nothing else is; and a line to print."""
    status, said = check(folder, [fact for fact, _, _ in wrongs])
    messages = dict(errors(said))
    numbers = {theorem_name(fact): ((fact.case.call, fact.label), right, wrong) for fact, right, wrong in wrongs}
    of_rewards = {theorem_name(fact) for fact, _, _ in wrongs if fact.part in OF_REWARD}
    counts, seen = Counter(kind for kind, _, _ in numbers.values()), set()
    trouble = [f"{name}: an altered number was not refused" for name in numbers if name not in messages]
    for name, message in messages.items():
        if name in of_rewards and "All of that holds, and the goal fails" in message:
            seen.add(numbers[name][0])
            continue
        computed = COMPUTED.search(message)
        if name not in numbers or not (computed or DIFFER.search(message)):
            trouble.append(f"{name}: refused for another reason: {message.splitlines()[0][:300]}")
            continue
        kind, right, wrong = numbers[name]
        if computed and all(re.search(rf"\b{SPELLED.get(number, number)}\b", computed.group()) for number in (right, wrong)):
            seen.add(kind)
        elif computed:
            trouble.append(f"{name}: {wrong} for {right} is not what differs: {computed.group()[:300]}")
    trouble += [f"{call} {label}: the prover showed no two numbers of this kind" for call, label in counts if (call, label) not in seen]
    if status != 1 or trouble:
        return False, "\n".join(trouble + [f"try.py: exit status {status}, {len(trouble)} faults"])
    words = {call: ", ".join(f"{label} {count}" for (of, label), count in sorted(counts.items()) if of == call) for call in LEFT}
    return True, f"{len(numbers)} altered numbers refused: " + "; ".join(f"{call} {kinds}" for call, kinds in words.items())


def main():
    parser = models.Parser(description="State what the reference says of small files, alone, with lists of times, with a state, n and r, moved, and with one reward raised, and of practice files, and let the prover check it.")
    parser.add_argument("--wrong", action="store_true", help="alter one number of each kind in a case; each must be refused")
    parser.add_argument("--seed", type=int, default=1)
    parser.add_argument("--keep", action="store_true", help="leave the scratch crate")
    options = parser.parse_args()
    rng = random.Random(options.seed)
    tried = [right_facts(case) for case in cases(rng)]
    folder = pathlib.Path(tempfile.mkdtemp(prefix="definitions-tried-"))
    began = time.monotonic()
    try:
        if options.wrong:
            good, line = try_wrong(folder, [wrong for facts in tried if facts[0].case.name not in LONG for wrong in wrong_facts(rng, facts)])
        else:
            good, line = try_right(folder, [fact for facts in tried for fact in facts])
    finally:
        if options.keep:
            print(f"the scratch crate is {folder / 'crates/tried'}")
        else:
            shutil.rmtree(folder)
    print(f"{line} (seed {options.seed}, {time.monotonic() - began:.0f} s)" if good else line)
    return 0 if good else 1


if __name__ == "__main__":
    sys.exit(main())
