#!/usr/bin/env python3
"""Searches for edge files of the kit: small models on which a rounding or a border decides the sheet.

    python3 conformance/search.py                         the searches, one line each
    python3 conformance/search.py NAME [--from K] [--to K] [--step D] [--try K] [--seed S] [--finds F] [--seconds T]
    python3 conformance/search.py NAME [--within D] [--least E]                 for t and its bound
    python3 conformance/search.py NAME [--off D] [--quotient Q] [--family F]    for the last division
    python3 conformance/search.py WRONG --against OTHER   two calculators of mistakes.py against each other
    python3 conformance/search.py --check                 every row of edges.py holds, and its search finds it

NAME is a search of the list or a wrong calculator of mistakes.py, for which --family chooses the models too. A search
makes numbered tries: number K always gives the same models. What it finds is printed as rows of edges.py. --help says
what each option is.
"""

import os
import sys
import textwrap
import time
from collections import namedtuple

sys.dont_write_bytecode = True
HERE = os.path.dirname(os.path.abspath(__file__))
sys.path.insert(0, HERE)
sys.path.insert(0, os.path.join(os.path.dirname(HERE), "reference"))

import calculator  # noqa: E402
import edges  # noqa: E402
import mistakes  # noqa: E402
import models  # noqa: E402
import mutants  # noqa: E402
import runner  # noqa: E402
from calculator import ONE  # noqa: E402
from edges import Edge, Half  # noqa: E402
from families import FAMILIES, level_blocks, level_crossings, level_edges, miss_at, two_states  # noqa: E402

NEAR_HALF = 10**5      # "a little" off the half is at most this part of the divisor
NEAR_BORDER = 2 * ONE  # or, for a given quotient, what one more in A adds to twice the remainder

# tries(K, options) gives rows without a search; judge(row, options) what holds of a row, or nothing.
Search = namedtuple("Search", "what tries judge")


# --- What holds of a row -------------------------------------------------------------------------

def near_bound(row, options):
    """t at n within reach of its bound, as the level's families give it."""
    return row.holds if abs(row.holds[0].miss) <= options.within else []


def built(row):
    """The bytes of a row's model."""
    return models.build(**models.edge_fields(row))


def last_divisions(row):
    """The last division of every moment."""
    model = calculator.read_model(built(row))
    N = calculator.level(model.X, model.epsilon)
    w = calculator.weights(model.X, N)
    U = calculator.reward_vectors(model, N)
    S = sum(w)
    for i in range(model.M):
        for r in range(1, model.R + 1):
            A = sum(w[n] * U[n][r][i] // ONE for n in range(N + 1))
            yield Half(i + 1, r, S, A * ONE // S, 2 * (A * ONE % S) - S)


def half_ticks(row, options):
    """The moments whose last division leaves half its divisor, or a little less or more."""
    def near(half):
        if options.quotient not in (None, half.quotient):
            return False
        if options.off is not None:
            return half.off == options.off
        return abs(half.off) <= (half.divisor // NEAR_HALF if options.quotient is None else NEAR_BORDER)

    return list(filter(near, last_divisions(row)))


def differ(one, other, row):
    """Whether two calculators print different sheets for a row."""
    return mutants.printed(one, built(row)) != mutants.printed(other, built(row))


def other_sheet(row, options):
    """The wrong calculator prints another sheet than the reference, or than the one it is set against."""
    if not differ(options.wrong, options.right, row):
        return []
    return row.holds + [f"{options.name} against {options.against}" if options.against else options.name]


SEARCHES = {
    "level-edges": Search("t meets its bound or misses it by one; try K is X = K", level_edges, near_bound),
    "level-blocks": Search("the same, faster, from q = 1 on; try K is the X from 1,000 K on", level_blocks, near_bound),
    "level-crossings": Search("the same for a small tolerance and some n, whatever X", level_crossings, near_bound),
    "half-ticks": Search("the last division leaves half its divisor, or a little less or more", two_states, half_ticks),
}


# --- Wrong calculators ------------------------------------------------------------------------------

def changed_functions(name):
    """The functions of the reference that a wrong calculator changes."""
    text = mutants.reference_text()
    before = [text[:text.index(old)] for old, _ in mutants.TABLE[name].changes]
    return {part.rpartition("\ndef ")[2].split("(")[0] for part in before}


def family_for(name):
    """The level's family where only the level is changed, else the two families of pairs."""
    return "level-crossings" if changed_functions(name) <= {"tail", "level"} else "two-states"


# --- Running a search -----------------------------------------------------------------------------------

def read_options(words):
    """The options of a search; one line and status 2 where they are wrong."""
    parser = models.Parser(prog="search.py", description="Search for edge files of the kit.")
    parser.add_argument("name", help="a search, or a wrong calculator of mistakes.py")
    parser.add_argument("--against", metavar="OTHER", help="a second wrong calculator in place of the reference")
    parser.add_argument("--family", choices=sorted(FAMILIES), help="the models to try")
    parser.add_argument("--seed", type=int, default=1, help="of the models")
    parser.add_argument("--from", type=models.positive, default=1, dest="first", metavar="K", help="the first try")
    parser.add_argument("--to", type=models.positive, default=models.MAX_X, dest="last", metavar="K", help="the last")
    parser.add_argument("--try", type=models.positive, dest="only", metavar="K", help="try K alone")
    parser.add_argument("--step", type=models.positive, default=1, help="from one try to the next")
    parser.add_argument("--within", type=models.positive, default=1, help="how far t may be from its bound")
    parser.add_argument("--least", type=models.positive, default=1, help="the least tolerance for which t is tried")
    parser.add_argument("--off", type=int, help="twice what the last division leaves, less its divisor")
    parser.add_argument("--quotient", type=int, help="of the last division, rounded down")
    parser.add_argument("--finds", type=models.positive, default=4, help="stop after so many")
    parser.add_argument("--seconds", type=models.positive, default=60, help="stop after this time")
    options = parser.parse_args(words)
    if options.only:
        options.first = options.last = options.only
    for name in (options.name, options.against or options.name):
        if name not in mutants.TABLE and (name not in SEARCHES or options.against):
            parser.error(f"no search and no wrong calculator is named {name}")
    if options.family and options.name in SEARCHES and options.name != "half-ticks":
        parser.error(f"{options.name} has its own family")
    return options


def prepared(options):
    """The search that the options name; the calculators it needs go into the options."""
    options.wrong_weights = None
    if options.name in SEARCHES:
        search = SEARCHES[options.name]
        return search._replace(tries=FAMILIES[options.family]) if options.family else search
    options.wrong = mutants.calculator(options.name)
    options.right = mutants.calculator(options.against) if options.against else calculator
    if changed_functions(options.name) == {"weights"} and not options.against:
        options.wrong_weights = options.wrong.weights
    family = options.family or family_for(options.name)
    return Search(mutants.TABLE[options.name].what, FAMILIES[family], other_sheet)


def command(options, first, last):
    """The words that repeat the tries from first to last."""
    words = [options.name]
    for word, value, usual in (("against", options.against, None), ("family", options.family, None),
                               ("seed", options.seed, 1), ("within", options.within, 1), ("least", options.least, 1),
                               ("off", options.off, None), ("quotient", options.quotient, None)):
        if value != usual:
            words.append(f"--{word} {value}")
    if first == last:
        return " ".join(words + [f"--try {first}"])
    return " ".join(words + [f"--from {first} --to {last}"] + [f"--step {options.step}"] * (options.step > 1))


def finds(search, options, k):
    """The rows that try k finds."""
    for row in search.tries(k, options):
        holds = search.judge(row, options)
        if holds:
            yield row._replace(search=command(options, k, k), holds=holds)


def shown(row):
    """A row as the text of edges.py, numbers with underscores."""
    def number(value):
        return f"[{', '.join(map(number, value))}]" if isinstance(value, list) else f"{value:_}"

    def held(each):
        return f'"{each}"' if isinstance(each, str) else f"{type(each).__name__}({', '.join(map(number, each))})"

    first = f'Edge("{row.name}", "{row.search}",'
    items = [held(each).replace(" ", "\0") for each in row.holds]        # not to be broken
    holds = textwrap.fill(f"[{', '.join(items)}],", 110, subsequent_indent=" ", break_on_hyphens=False)
    *fields, rates = map(number, model_of(row))
    model = f"{', '.join(fields)}, {rates}),"
    lines = [first if len(first) <= 116 else first.replace(", ", ",\n     ", 1),
             textwrap.indent(holds.replace("\0", " "), " " * 5),
             textwrap.indent(model if len(model) <= 111 else model.replace(f", {rates}", f",\n{rates}"), " " * 5)]
    return textwrap.indent("\n".join(lines), " " * 4)


def run(options):
    """One search to its end: rows, how many tries, how long, and the command that repeats it."""
    search, start, found, k = prepared(options), time.monotonic(), [], None
    for k in range(options.first, options.last + 1, options.step):
        for row in finds(search, options, k):
            if model_of(row) not in found:
                found.append(model_of(row))
                name = row.name or f"{'' if options.name in SEARCHES else 'rounding-'}{options.name}-{len(found)}"
                print(shown(row._replace(name=name)), flush=True)
        if len(found) >= options.finds or time.monotonic() - start > options.seconds:
            break
    tries = 0 if k is None else (k - options.first) // options.step + 1
    print(f"{tries} tries, {len(found)} found, {time.monotonic() - start:.1f} seconds; to repeat: "
          f"python3 conformance/search.py {command(options, options.first, k or options.last)}"
          f" --finds {max(len(found), 1)} --seconds {10 * options.seconds}")
    return 0 if found else 1


# --- The stored rows ---------------------------------------------------------------------------------------

# Searches that are quick from their first try on, and stored rows that they find.
QUICK = [
    ("level-edges --from 2020000 --to 2029999", ["level-edge-002025767-at-4"]),
    ("level-blocks --from 2000 --to 2040", ["level-edge-002025767-at-4"]),
    ("level-crossings --to 400", ["level-edge-216543796-at-310", "level-edge-224789569-at-318"]),
    ("t-nearest --to 130", ["level-edge-005499024-at-23"]),
    ("half-ticks --to 850", ["half-tick-1", "half-tick-2"]),
    ("half-ticks --family power-of-two --to 560", ["half-tick-power-of-two-1", "half-tick-power-of-two-3"]),
    ("half-ticks --family few-ticks --quotient 0 --to 300", ["half-tick-to-a-tick-less", "half-tick-to-a-tick-more"]),
    ("half-ticks --family aimed --off -1 --to 40", ["half-tick-one-less-1", "half-tick-one-less-2"]),
    ("last-division-even --to 850", ["half-tick-1", "half-tick-2"]),
    ("last-division-even --against last-division-half-down --to 850", ["half-tick-1", "half-tick-2"]),
    ("m-nearest --family pairs --to 730", ["rounding-m-nearest-1"]),
    ("weights-right-nearest --family pairs --to 610", ["rounding-weights-right-nearest-1"]),
]


def model_of(row):
    return row[Edge._fields.index("R"):]


def holds_of(row, each):
    """Whether one stated thing holds of a row's model."""
    if isinstance(each, str):
        wrong, _, other = each.partition(" against ")
        right = mutants.calculator(other) if other else calculator
        return differ(mutants.calculator(wrong), right, row)
    if isinstance(each, Half):
        return each in last_divisions(row)
    model = calculator.read_model(built(row))
    level = each.n + (each.miss > 0)
    return (miss_at(model.X, each.n, model.epsilon), calculator.level(model.X, model.epsilon)) == (each.miss, level)


def found_by(words):
    """The models that a search finds, all its tries run."""
    options = read_options(words.split())
    search = prepared(options)
    return [model_of(row) for k in range(options.first, options.last + 1, options.step)
            for row in finds(search, options, k)]


def troubles(row):
    """What is wrong with a row: a line for each thing that does not hold, and for a search that does not find it."""
    result = [word for word, given in (("nothing is said to hold of it", row.holds), ("it names no search", row.search))
              if not given]
    try:
        result += [f"{each} does not hold" for each in row.holds if not holds_of(row, each)]
    except KeyError as name:
        return [f"no wrong calculator is named {name}"]
    if row.search and model_of(row) not in found_by(row.search):
        result.append(f"not found by search.py {row.search}")
    return result


def self_test():
    """A row with another tolerance or time, one that states too much and one without a search have to be told."""
    level, digits = edges.LEVEL_ROWS[0], edges.DIGIT_ROWS[-1]
    for row in (level._replace(epsilon=level.epsilon + 1), digits._replace(holds=["bound-up"]),
                digits._replace(holds=[digits.holds[0]._replace(off=0)]), digits._replace(search=""),
                digits._replace(T=digits.T + 1, holds=["row-mean-up"])):
        if not troubles(row):
            yield f"a changed row passes: {row}"


def check():
    """Every row of edges.py: what it states holds, its try gives it; and the quick searches find what is stored."""
    start = time.monotonic()
    lines = list(self_test()) + [f"{row.name}: {line}" for row in edges.EDGES for line in troubles(row)]
    rows = {row.name: row for row in edges.EDGES}
    for words, names in QUICK:
        found = found_by(words)
        lines += [f"{name}: not found by search.py {words}" for name in names if model_of(rows[name]) not in found]
    for line in lines:
        print(line)
    print(f"edges: {len(edges.EDGES)} rows, each tried and made again by its search, {len(QUICK)} short searches; "
          f"{len(lines)} faults, {time.monotonic() - start:.1f} seconds")
    return 1 if lines else 0


def list_searches():
    """A line for each search, then for each wrong calculator that changes a step of the calculation."""
    for name, search in SEARCHES.items():
        print(f"{name}: {search.what}")
    for entry in mistakes.CALCULATION:
        print(f"{entry.name}: models that show it: {entry.what}")
    return 0


def main(words):
    try:
        if not words:
            return list_searches()
        if words == ["--check"]:
            return check()
        return run(read_options(words))
    except ValueError as error:        # a text of mistakes.py that is wrong
        print(f"search.py: {error}", file=sys.stderr)
        return 2


if __name__ == "__main__":
    runner.leave(main, sys.argv[1:])
