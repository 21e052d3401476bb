#!/usr/bin/env python3
"""Worked solutions: the divisions of the reward vectors, each quotient with its rest (document 02, S-4), and for a file
of version 2 those of the start figures (S-5).

    python3 examples/worked.py [--library PATH]             writes B.worked, B-start.worked and pair.worked
    python3 examples/worked.py [--library PATH] --check     compares them with what the library gives, byte for byte,
                                                            and each of their numbers with the reference
    python3 examples/worked.py [--library PATH] FILE        prints the solution of a model file

The rests are those that the library's call kuldrepso_remainders gives, the level is that of kuldrepso_calculate. Each
dividend is worked out here, from the file and the vectors so far. Its rest is taken off, and what is left has to be
divisible: the quotient stands in the table, and goes into the dividends after it. Moments and start figures are those
of kuldrepso_calculate; what a start figure leaves of its dividend has to be below 1,000,000.

Without --library, the library that the script build of this repository makes is called; PATH is a static library or a
shared object (.so). Exit status: 0; 1 where a call or a stored file is wrong, or FILE is refused; 2 when the run itself
is not possible. Where no library can be linked on this machine, --check compares with the reference alone.
"""

import os
import re
import sys
from functools import partial
from itertools import zip_longest
from operator import mul

sys.dont_write_bytecode = True
HERE = os.path.dirname(os.path.abspath(__file__))
sys.path[:0] = [os.path.join(os.path.dirname(HERE), name) for name in ("reference", "conformance")]

import calculator  # noqa: E402
import cases  # noqa: E402
import inputs  # noqa: E402
import library  # noqa: E402
import models  # noqa: E402
import runner  # noqa: E402
import stored  # noqa: E402
from calculator import GIVEN, MILLION, NONE, ONE, REFUSED  # noqa: E402

NAMES = ["B", "B-start", "pair"]     # the models with a stored solution
STORED = ", ".join(name + ".worked" for name in NAMES)
HEADINGS = ["n", "r", "state", "V", "rest", "W", "rest", "U", "rest"]
START_HEADINGS = ["r", "dividend", "start", "rest"]
START = "Start figures:"  # begins the part for version 2
WIDTH = 100               # of a line with a list of numbers


class Wrong(Exception):
    """What a call gives, or a stored file, is wrong; the words say where."""


def place(n, r, state):
    return f"n = {n}, r = {r}, state {state}"


# --- The library's calls --------------------------------------------------------------------------

def opened(path):
    """The library, with both calls; none where build has said why it cannot be made."""
    linked = library.opened(path)
    for name in ("calculate", "remainders"):
        if linked and not linked.has(name):
            raise OSError(f"the library has no call kuldrepso_{name}")
    return linked


def called(linked, name, given):
    """What a call answers, and what it writes. Its input is saved first, for a call that ends the process."""
    before = {each.name: library.painted(given[each.name]) for each in library.CALLS[name] if each.written}
    cases.save(cases.case("worked", name, given, (GIVEN, before)), library.UNDER_WAY)
    answer, written, faults = linked.call(name, given)
    if faults:
        raise Wrong(f"kuldrepso_{name} changes what has to stay: {faults[0]}")
    return answer, written


def remainders(linked, file, n, r, state):
    """The answer of kuldrepso_remainders, and the rests of V, W and U."""
    answer, written = called(linked, "remainders", inputs.asked(file, state=state, n=n, r=r))
    return answer, [written[name][0] for name in ("mean", "share", "mix")]


def rests(linked, file, n, r, state):
    """The rests of V, W and U at a place of the table."""
    answer, given = remainders(linked, file, n, r, state)
    if answer != GIVEN:
        raise Wrong(f"{place(n, r, state)}: kuldrepso_remainders answers {answer}, not {GIVEN}")
    return given


def judged(linked, file):
    """What kuldrepso_calculate answers of a file, its level or a refusal, and the cells. kuldrepso_remainders has to
    answer the same refusal, or none behind the level."""
    answer, written = called(linked, "calculate", inputs.calculating(file, calculator.LENT_CELLS))
    n, right = (1, answer) if answer >= REFUSED else (answer + 1, NONE)
    got, _ = remainders(linked, file, n, 1, 1)
    if got != right:
        raise Wrong(f"{place(n, 1, 1)}: kuldrepso_remainders answers {got}, not {right}; kuldrepso_calculate {answer}")
    return answer, written["cells"]


# --- The divisions --------------------------------------------------------------------------------

def quotient(what, dividend, divisor, rest):
    """The dividend less its rest, divided exactly."""
    if rest >= divisor:
        raise Wrong(f"{what}: the rest {rest} is not below the divisor {divisor}")
    if (dividend - rest) % divisor:
        raise Wrong(f"{what}: {dividend} less the rest {rest} is not divided exactly by {divisor}")
    return (dividend - rest) // divisor


def line(model, n, r, i, earlier, lower, given):
    """The line of state i (counted from 0 here) with the rests given for it; earlier is U(n-1,r), lower is U(n,r-1)."""
    where = place(n, r, i + 1)
    rest_V, rest_W, rest_U = given
    V = quotient(f"{where}, V", sum(map(mul, model.c[i], earlier)), model.E, rest_V)
    W = quotient(f"{where}, W", model.f[i] * lower[i], model.F, rest_W)
    U = quotient(f"{where}, U", n * V + r * W, n + r, rest_U)
    return calculator.Line(n, r, i + 1, V, rest_V, W, rest_W, U, rest_U)


def at_0(model):
    """U(0,0) to U(0,R)."""
    vectors = [[ONE] * model.M]
    for r in range(1, model.R + 1):
        vectors.append([model.f[i] * vectors[r - 1][i] // model.F for i in range(model.M)])
    return vectors


def blocks(model, N, ask):
    """The lines of each n from 1 to N: r by r, then state by state. `ask` gives the rests at n, r and state."""
    earlier = at_0(model)
    for n in range(1, N + 1):
        vectors, lines = [[ONE] * model.M], []
        for r in range(1, model.R + 1):
            new = [line(model, n, r, i, earlier[r], vectors[r - 1], ask(n, r, i + 1)) for i in range(model.M)]
            vectors.append([each.U for each in new])
            lines += new
        yield lines
        earlier = vectors


def start_lines(model, cells):
    """For each r of a version 2 file: r, the sum of weight times moment, the start figure, and what it leaves."""
    for r in range(1, model.R + 1):
        dividend = sum(map(mul, model.a, moments(model, cells, r)))
        figure = cells[model.M * model.R + r - 1]
        rest = dividend - MILLION * figure
        if not 0 <= rest < MILLION:
            raise Wrong(f"start {r}: {dividend} less {MILLION} x {figure} is {rest}, no rest below {MILLION}")
        yield r, dividend, figure, rest


# --- The text -------------------------------------------------------------------------------------

def rates(model):
    """The chain and the reward rates as lists with labels."""
    return {**{f"c({i},j)": row for i, row in enumerate(model.c, 1)}, "f(j)": model.f}


def starts(first):
    """U(0,1) to U(0,R) as lists with labels."""
    return {f"U(0,{r})": vector for r, vector in enumerate(first) if r}


def moments(model, cells, r):
    """Moment r of each state, from the cells."""
    return cells[r - 1:model.M * model.R:model.R]


def weighted(model, cells):
    """The starting weights of version 2, and the moments, as lists with labels."""
    return {"weight": model.a, **{f"moment({r})": moments(model, cells, r) for r in range(1, model.R + 1)}}


def listed(lists):
    """Lists with labels, in columns, each on as many lines as it takes."""
    margin = max(map(len, lists))
    wide = max(len(str(number)) for numbers in lists.values() for number in numbers)
    count = (WIDTH - margin) // (wide + 1)
    for label, numbers in lists.items():
        for k in range(0, len(numbers), count):
            start = " " * (margin + 2) if k else f"{label:<{margin}} ="
            yield f"  {start} " + " ".join(f"{number:>{wide}}" for number in numbers[k:k + count])


def head(name, model, N):
    """The lines before the table: what is divided by what, and the numbers of this file."""
    return [
        f"Worked solution of {name}: every quotient of the reward vectors with its rest.",
        "",
        f"States M = {model.M}, highest moment R = {model.R}, level N = {N}.",
        f"E = {model.E} is the largest sum of a row of rates (1 where all are 0).",
        f"F = {model.F} is the largest reward rate.",
        "",
        "For each n from 1 to N, r from 1 to R and state i there are three divisions:",
        f"  V       sum over j of c(i,j) x U(n-1,r) at j   divided by E = {model.E}",
        f"  W       f(i) x U(n,r-1) at i                   divided by F = {model.F}",
        "  U(n,r)  n x V + r x W                          divided by n + r",
        "The rest is what a division leaves over: quotient x divisor + rest is the dividend.",
        "V, W and U are in ticks, millionths of a millionth.",
        "",
        "The lists go from state 1 to state M. c(i,j) is the rate from i to j, and c(i,i) fills row i up to E:",
        *listed(rates(model)),
        f"U(n,0) = {ONE} at every state. U(0,r) at j is f(j) x U(0,r-1) at j divided by F, without the rest:",
        *listed(starts(at_0(model))),
        "",
    ]


def widths(model, N):
    """Of the table's columns."""
    divisors = (model.E, model.F, N + model.R)
    return [len(str(N)), 1, 5, *(wide for most in divisors for wide in (14, max(4, len(str(most - 1)))))]


def row(cells, columns):
    return " ".join(f"{cell:>{wide}}" for cell, wide in zip(cells, columns))


def start_part(model, cells):
    """The lines for the start figures of a version 2 file."""
    columns = [1, 19, 14, len(str(MILLION - 1))]
    return [
        "",
        f"{START} for each r the sum over the states of weight x moment(r), divided by {MILLION}.",
        "The weights are in millionths, the moments are those of the sheet, in ticks, from state 1 to state M:",
        *listed(weighted(model, cells)),
        "",
        row(START_HEADINGS, columns),
        *(row(each, columns) for each in start_lines(model, cells)),
    ]


def solution(linked, file, name, N, cells):
    """The lines of the worked solution of an accepted file: the head, a row for each n, r and state, and in version 2
    the start figures."""
    model = calculator.read_model(file)
    columns = widths(model, N)
    yield from head(name, model, N)
    yield row(HEADINGS, columns)
    for lines in blocks(model, N, partial(rests, linked, file)):
        if lines[0].n > 1:
            yield ""
        for each in lines:
            yield row(each, columns)
    if model.a:
        yield from start_part(model, cells)


# --- The stored solutions -------------------------------------------------------------------------

def read(name):
    with open(os.path.join(HERE, name), "rb") as source:
        return source.read()


def contents(linked):
    """{file name: bytes} as the library gives them."""
    result = {}
    for name in NAMES:
        file = read(name + ".model")
        try:
            lines = [*solution(linked, file, name + ".model", *judged(linked, file))]
        except Wrong as wrong:
            raise Wrong(f"{name}.model, {wrong}") from None
        result[name + ".worked"] = "".join(each + "\n" for each in lines).encode("ascii")
    return result


def compare_with_library(linked):
    """Stops where a stored solution is not what the library gives."""
    wanted = contents(linked)
    for name in stored.differences(HERE, wanted):
        there = read(name) if os.path.exists(os.path.join(HERE, name)) else b""
        raise Wrong(f"{name} is not what the library gives: {runner.first_difference(wanted.get(name, b''), there)}")


def numbers_in(text):
    """What a solution says: {(label, number, ...)} before its tables, and the numbers of each row of them."""
    headings = "|".join(" +".join(each) for each in (HEADINGS, START_HEADINGS))
    labels, rows = [], []
    for part in re.split(f"(?m)^(?={START})", text):
        top, *rest = re.split(f"(?m)^ *(?:{headings})$", part)
        labels += re.findall(r"(\S+) += ([\d\s]*\d)", top)
        rows += [each.split() for each in "".join(rest).splitlines() if each]
    return {(label, *numbers.split()) for label, numbers in labels}, rows


def numbers_of(file):
    """What the solution of a file has to say, by the reference."""
    model, worked, cells = calculator.read_model(file), calculator.worked(file), [0] * calculator.LENT_CELLS
    calculator.calculate(file, cells)
    labels = {"M": [model.M], "R": [model.R], "N": [worked.N], "E": [worked.E], "F": [worked.F],
              **rates(model), "U(n,0)": [ONE], **starts(worked.first), **(weighted(model, cells) if model.a else {})}
    lines = [*worked.lines, *(start_lines(model, cells) if model.a else [])]
    return {(label, *map(str, numbers)) for label, numbers in labels.items()}, [[*map(str, each)] for each in lines]


def compare_with_reference(name):
    """Stops where a number of a stored solution is not the reference's."""
    labels, rows = numbers_in(read(name + ".worked").decode("ascii", "replace"))
    right_labels, right_rows = numbers_of(read(name + ".model"))
    for label, *numbers in sorted(labels ^ right_labels):
        whose = "the file" if (label, *numbers) in labels else "the reference"
        raise Wrong(f"{name}.worked: {label} = {' '.join(numbers)} in {whose} alone")
    for got, right in zip_longest(rows, right_rows, fillvalue=["missing"]):
        if got != right:
            raise Wrong(f"{name}.worked: a row is {' '.join(got)}, by the reference {' '.join(right)}")


# --- The program ----------------------------------------------------------------------------------

def show(linked, path):
    """Prints the solution of a model file, or its refusal; the status."""
    file = calculator.read_input([path])
    answer, cells = judged(linked, file)
    if answer >= REFUSED:
        print(f"refused {answer - REFUSED}", flush=True)
        print(f"worked.py: rule {answer - REFUSED} of docs/FORMAT.md", file=sys.stderr)
        return 1
    name = os.path.basename(path).encode("ascii", "backslashreplace").decode("ascii")
    for each in solution(linked, file, name, answer, cells):
        print(each)
    return 0


def write(linked):
    stored.write(HERE, contents(linked))
    print(f"wrote {STORED}")
    return 0


def check(linked):
    """Compares the stored solutions, with the reference alone where there is no library; the status."""
    if linked:
        compare_with_library(linked)
    for name in NAMES:
        compare_with_reference(name)
    print(f"{STORED}: as {'the library gives and ' if linked else ''}the reference has them")
    return 0


def options():
    parser = models.Parser(description="The divisions of the reward vectors, each quotient with its rest.")
    parser.add_argument("--library", metavar="PATH", help="unless given, what build makes")
    group = parser.add_mutually_exclusive_group()
    group.add_argument("--check", action="store_true", help="compare the stored solutions")
    group.add_argument("file", nargs="?", metavar="FILE", help="print its solution; unless given, write the stored ones")
    return parser.parse_args()


def run(given):
    reason = library.why_not()
    if reason and not given.check:
        raise OSError(reason)
    if reason:
        print(f"the worked solutions: not made, {reason}")
        return check(None)
    linked = opened(given.library)
    if not linked:
        return 2
    if given.file is not None:
        return show(linked, given.file)
    return check(linked) if given.check else write(linked)


def main():
    given = options()
    try:
        return run(given)
    except Wrong as wrong:
        print(end="", flush=True)
        print(f"worked.py: {wrong}", file=sys.stderr)
        return 1


if __name__ == "__main__":
    runner.leave(library.in_child, main)
