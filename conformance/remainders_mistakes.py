"""The wrong calls of remainders for call_mistakes.py: each the reference's with one thing changed.

TABLE holds the mistakes, as those of mistakes.py; EQUIVALENT the changes that no call can show, each with the reason.
"""

import itertools
from collections import namedtuple

import mistakes
from mistakes import wrong


# --- Parts of the reference that the entries change ------------------------------------------

OUTCOME = "word, N = outcome(file, LENT_CELLS)"
REFUSED = "        return (word, N)\n"
MODEL = REFUSED + "    model = read_model(file)\n"
LIMITS = {"state": "model.M", "n": "N", "r": "model.R"}
WITHIN = {number: f"1 <= {number} <= {limit}" for number, limit in LIMITS.items()}
TEST = f"if not ({' and '.join(WITHIN.values())}):"
NONE = 'return ("none", NONE)'
STEP = "divisions(model, reward_vectors(model, n), n, r, state - 1)"
RESTS = f"{STEP}[1::2]"
ASKED = "word, value = rests(file, state, n, r)\n"
PUT = "mean[0], share[0], mix[0] = value"
GIVEN = "return (word, GIVEN)"
SUM = "sum(map(mul, model.c[i], U[n - 1][r]))"
PRODUCT = "model.f[i] * U[n][r - 1][i]"
MIX = "n * V + r * W"
# Each division by the number that takes its rest; `other` is the text for another rest, that of a by b.
Division = namedtuple("Division", "letter dividend text other")
DIVISIONS = {
    "mean": Division("V", SUM, f"V, rest_V = divmod({SUM}, model.E)",
                     f"a, b = {SUM}, model.E\n    V, rest_V = a // b, (REST)"),
    "share": Division("W", PRODUCT, f"W, rest_W = divmod({PRODUCT}, model.F)",
                      f"a, b = {PRODUCT}, model.F\n    W, rest_W = a // b, (REST)"),
    "mix": Division("U", MIX, f"return (V, rest_V, W, rest_W, *divmod({MIX}, n + r))",
                    f"a, b = {MIX}, n + r\n    return (V, rest_V, W, rest_W, a // b, (REST))"),
}


# --- Helpers for the new texts -----------------------------------------------------------------------

def passes(file, row):
    """Whether no row of the refusal table before this one holds."""
    before = mistakes.ORDER[1:mistakes.ORDER.index(row)]
    return len(file) >= 13 and not any(mistakes.row_holds(k, file) for k in before)


def over_before(U, n, r, i):
    """U(n-1,r) with the states before state i overwritten by U(n,r)."""
    return U[n][r][:i] + U[n - 1][r][i:]


HELPERS = (passes, over_before)


# --- The rests --------------------------------------------------------------------------------------------

def rest(number, name, what, new):
    """Another rest of a division, a being the dividend and b the divisor; the quotient is as it was."""
    letter, _, text, other = DIVISIONS[number]
    return wrong(f"{number}-{name}", f"the rest of {letter}: {what}", (text, other.replace("REST", new)))


def rests(number, *entries):
    return [rest(number, *entry) for entry in entries]


def of_each():
    """Mistakes that each of the three divisions may have."""
    for number in DIVISIONS:
        yield from rests(
            number,
            ("up", "what is missing to the next quotient", "-a % b"),
            ("divisor-for-0", "the divisor where nothing is left", "a % b or b"),
            ("nearest", "the distance to the nearest quotient", "min(a % b, -a % b)"),
            ("quotient", "the quotient in its place", "a // b"),
            ("not-reduced", "doubled and not taken out again", "a % (2 * b)"),
            ("odd", "the dividend without its last bit", "(a - a % 2) % b"),
            ("one-more", "one more", "a % b + 1"),
            ("32-bit", "the dividend in 32 bits", "a % 2**32 % b"),
            ("8-bit", "in 8 bits", "a % b % 2**8"),
            ("in-ticks", "in ticks of the quotient", "a % b * ONE // b"),
            ("0", "always 0", "0"))


MEAN = rests(
    "mean",
    ("by-F", "by F", "a % model.F"),
    ("by-M", "by M", "a % model.M"),
    ("by-R", "by R", "a % model.R"),
    ("by-row-sum", "by the row's own sum, without the diagonal", "a % (b - model.c[i][i] or b)"),
    ("by-one-more", "by E + 1", "a % (b + 1)"),
    ("by-million", "by 1,000,000", "a % MILLION"),
    ("by-n-and-r", "by n + r", "a % (n + r)"),
    ("16-bit", "in 16 bits", "a % b % 2**16"),
    ("64-bit-signed", "the sum in 64 bits with a sign", "signed(a, 64) % b"),
    ("binary64", "the sum in binary64", "int(float(a)) % b"),
    ("term-by-term", "the rests of the products summed, not taken by E again",
     "sum(c * u % b for c, u in zip(model.c[i], U[n - 1][r]))"),
    ("first-term", "of the product of the first state alone", "model.c[i][0] * U[n - 1][r][0] % b"),
    ("last-term", "of the product of the last state alone", "model.c[i][-1] * U[n - 1][r][-1] % b"),
)

SHARE = rests(
    "share",
    ("by-E", "by E", "a % model.E"),
    ("by-R", "by R", "a % model.R"),
    ("by-M", "by M", "a % model.M"),
    ("by-own-reward", "by f(i)", "a % (model.f[i] or b)"),
    ("by-first-reward", "by the first state's reward", "a % (model.f[0] or b)"),
    ("by-last-reward", "by the last state's reward", "a % (model.f[-1] or b)"),
    ("by-sum-of-rewards", "by the sum of the rewards", "a % sum(model.f)"),
    ("by-million", "by 1,000,000", "a % MILLION"),
    ("by-one", "by 10^12", "a % ONE"),
    ("by-n-and-r", "by n + r", "a % (n + r)"),
    ("16-bit", "in 16 bits", "a % b % 2**16"),
    ("binary64", "the product in binary64", "int(float(a)) % b"),
    ("even-reward", "of the product with the reward's last bit lost", "(a - model.f[i] % 2 * U[n][r - 1][i]) % b"),
)

V_EXACT, W_EXACT = f"Fraction({SUM}, model.E)", f"Fraction({PRODUCT}, model.F)"
MIXED = rests(
    "mix",
    ("by-n", "by n", "a % n"),
    ("by-r", "by r", "a % r"),
    ("by-one-more", "by n + r + 1", "a % (b + 1)"),
    ("by-one-less", "by n + r - 1", "a % (b - 1)"),
    ("by-n-and-R", "by n + R", "a % (n + model.R)"),
    ("by-n-times-r", "by n r", "a % (n * r)"),
    ("by-8-bit", "by n + r in 8 bits", "a % (b % 2**8 or b)"),
    ("by-E", "by E", "a % model.E"),
    ("by-F", "by F", "a % model.F"),
    ("exact", "V and W not rounded", f"int(n * {V_EXACT} + r * {W_EXACT}) % b"),
    ("exact-V", "V not rounded", f"int(n * {V_EXACT} + r * W) % b"),
    ("exact-W", "W not rounded", f"int(n * V + r * {W_EXACT}) % b"),
    ("divided-late", "n times the sum by E, r times the product by F",
     f"(n * {SUM} // model.E + r * {PRODUCT} // model.F) % b"),
    ("of-nearest", "V and W rounded to the nearest",
     f"(n * nearest({SUM}, model.E) + r * nearest({PRODUCT}, model.F)) % b"),
    ("of-rounded-up", "V and W rounded up", f"(n * up({SUM}, model.E) + r * up({PRODUCT}, model.F)) % b"),
    ("n-and-r-exchanged", "n and r, or V and W, exchanged", "(r * V + n * W) % b"),
    ("plain-sum", "of V + W", "(V + W) % b"),
    ("r-1", "r = 1 for every r", "(n * V + W) % b"),
    ("n-one-less", "n - 1 times V", "((n - 1) * V + r * W) % b"),
    ("n-one-more", "n + 1 times V", "((n + 1) * V + r * W) % b"),
    ("V-alone", "of n V alone", "n * V % b"),
    ("W-alone", "of r W alone", "r * W % b"),
    ("term-by-term", "the rests of n V and r W summed, not taken by n + r again", "n * V % b + r * W % b"),
    ("of-rests", "of the rests of V and W", "(n * rest_V + r * rest_W) % b"),
)


# --- Where V and W are taken from ---------------------------------------------------------------------------

def taken(number, name, what, new):
    """Another dividend, with its quotient and rest."""
    letter, dividend, _, _ = DIVISIONS[number]
    return wrong(f"{letter}-{name}", f"{letter} taken {what}", (dividend, new))


def mean_of(name, what, row="model.c[i]", vector="U[n - 1][r]"):
    return taken("mean", name, what, f"sum(map(mul, {row}, {vector}))")


SOURCES = [
    mean_of("of-n", "from U(n,r)", vector="U[n][r]"),
    mean_of("of-r-1", "from U(n-1,r-1)", vector="U[n - 1][r - 1]"),
    mean_of("of-n-and-r-1", "from U(n,r-1)", vector="U[n][r - 1]"),
    mean_of("of-n-0", "from U(0,r)", vector="U[0][r]"),
    mean_of("overwritten", "from U(n-1,r) overwritten state by state", vector="over_before(U, n, r, i)"),
    mean_of("transposed", "with c(j,i)", row="[row[i] for row in model.c]"),
    mean_of("without-diagonal", "without the diagonal", row="[c * (j != i) for j, c in enumerate(model.c[i])]"),
    mean_of("diagonal-E", "with the diagonal E", row="[model.E if j == i else c for j, c in enumerate(model.c[i])]"),
    mean_of("diagonal-last", "with the diagonal at the end of its row",
            row="[*model.c[i][:i], *model.c[i][i + 1:], model.c[i][i]]"),
    mean_of("first-row", "with the first state's row", row="model.c[0]"),
    mean_of("next-row", "with the row of the state behind", row="model.c[(i + 1) % model.M]"),
    mean_of("without-last-state", "without the last state", row="model.c[i][:-1]"),
    taken("mean", "own-state", "as U(n-1,r) at the state", "model.E * U[n - 1][r][i]"),
    wrong("V-carry-lost", "V as the sum of the products' quotients, its rest right",
          (DIVISIONS["mean"].text, f"V = sum(c * u // model.E for c, u in zip(model.c[i], U[n - 1][r]))\n"
                                   f"    rest_V = {SUM} % model.E")),
    taken("share", "of-n-1-and-r-1", "from U(n-1,r-1)", "model.f[i] * U[n - 1][r - 1][i]"),
    taken("share", "of-n-1", "from U(n-1,r)", "model.f[i] * U[n - 1][r][i]"),
    taken("share", "of-r", "from U(n,r)", "model.f[i] * U[n][r][i]"),
    taken("share", "of-n-0", "from U(0,r-1)", "model.f[i] * U[0][r - 1][i]"),
    taken("share", "of-one", "from 10^12", "model.f[i] * ONE"),
    taken("share", "0-for-r-1", "as 0 where r is 1", "(r > 1) * model.f[i] * U[n][r - 1][i]"),
    taken("share", "of-first-state", "from U(n,r-1) at the first state", "model.f[i] * U[n][r - 1][0]"),
    taken("share", "first-reward", "with the first state's reward", "model.f[0] * U[n][r - 1][i]"),
    taken("share", "last-reward", "with the last state's reward", "model.f[-1] * U[n][r - 1][i]"),
    taken("share", "largest-reward", "with F", "model.F * U[n][r - 1][i]"),
]


def stepped(name, what, vectors="n", n="n", r="r", i="state - 1", part="[1::2]"):
    """The rests of another step than the one asked for."""
    return wrong(f"step-{name}", f"the rests {what}",
                 (RESTS, f"divisions(model, reward_vectors(model, {vectors}), {n}, {r}, {i}){part}"))


STEPS = [
    stepped("n-before", "of n - 1", n="n - 1"),
    stepped("n-behind", "of n + 1", vectors="n + 1", n="n + 1"),
    stepped("n-last", "of N", vectors="N", n="N"),
    stepped("n-first", "of n = 1", n="1"),
    stepped("n-8-bit", "of n in 8 bits", n="(n % 2**8 or n)"),
    stepped("r-before", "of r - 1", r="r - 1"),
    stepped("r-behind", "of r + 1, 1 behind R", r="r % model.R + 1"),
    stepped("r-first", "of r = 1", r="1"),
    stepped("r-last", "of R", r="model.R"),
    stepped("n-and-r-exchanged", "of U(r,n)", vectors="max(n, r)", n="r", r="n"),
    stepped("state-before", "of the state before", i="state - 2"),
    stepped("state-behind", "of the state behind, 1 behind M", i="state % model.M"),
    stepped("state-first", "of state 1", i="0"),
    stepped("states-reversed", "with the states counted from the last", i="model.M - state"),
    stepped("quotients", "in the place of which the quotients are given", part="[0::2]"),
]


def of_sheets(*entries):
    """Wrong calculators of mistakes.py, as wrong calls."""
    return [entry._replace(name=f"sheet-{entry.name}") for entry in entries]


def in_whole_numbers(entry):
    """Whether a mistake is not one of binary64 or of 15 digits: it takes rarer models to show those of the level."""
    return not any(word in entry.name for word in ("binary64", "15-digits", "as-share"))


def in_few_arrows(entry):
    """Whether a mistake is not one of 4,032 arrows, those of 64 states with no rate of 0."""
    return entry.name != "arrows-at-most-4031-in-all"


SHEETS = of_sheets(*mistakes.CHAIN, *mistakes.VECTORS, *filter(in_few_arrows, mistakes.ARROWS),
                   *filter(in_whole_numbers, mistakes.LEVEL))


# --- The numbers ----------------------------------------------------------------------------------------------

def read(number, name, what, new):
    """A number read otherwise."""
    return wrong(f"{number}-{name}", f"{number} {what}", (OUTCOME, f"{number} = {new}\n    {OUTCOME}"))


def within(number, name, what, new, step=STEP):
    """A number within other limits, and the step that is then given."""
    return wrong(f"{number}-{name}", f"{number} {what}", (WITHIN[number], new), *[(STEP, step)] * (step != STEP))


def tested(name, what, when):
    """None by another test of the numbers, `outside` telling which of them are; each is then cut to its limits."""
    outside = ", ".join(f"not {test}" for test in WITHIN.values())
    cut = "".join(f"    {number} = max(1, min({number}, {limit}))\n" for number, limit in LIMITS.items())
    return wrong(f"none-{name}", f"none {what}",
                 (TEST, f"outside = [{outside}]\n    if {when}:\n        {NONE}\n{cut}    if False:"))


def of_each_number():
    """Mistakes that each of the three numbers may have."""
    for k, (number, limit) in enumerate(LIMITS.items()):
        for bits in (8, 16, 32):
            yield read(number, f"{bits}-bit", f"in {bits} bits", f"{number} % 2**{bits}")
        yield read(number, "negative", "of 2^63 and more, below 0 with a sign, taken for 1",
                   f"{number} if {number} < 2**63 else 1")
        yield read(number, "0-as-1", "of 0 taken for 1", f"{number} or 1")
        yield within(number, "0", "of 0 let through", f"0 <= {number} <= {limit}")
        yield within(number, "1", "of 1 outside", f"2 <= {number} <= {limit}")
        yield within(number, "limit", "at its limit outside", f"1 <= {number} < {limit}")
        yield tested(f"without-{number}", f"without a test of {number}", f"any(outside[:{k}] + outside[{k + 1}:])")


def in_one(name, what, place, count, other):
    """Two numbers tested by the one place that they have in a table."""
    return tested(f"by-{name}", f"by the place that {what} have in a table", f"not 0 <= {place} < {count} or {other}")


def last_n(name, what, new):
    return within("n", f"up-to-{name}", f"up to {what}", f"1 <= n <= {new}")


def last_r(name, what, new):
    return wrong(f"r-up-to-{name}", f"r up to {what}", (MODEL, f"{MODEL}    model = model._replace(R={new})\n"))


def exchanged(first, second):
    """Two of the numbers exchanged."""
    other = {first: second, second: first}
    numbers = ", ".join(other.get(name, name) for name in LIMITS)
    return wrong(f"{first}-and-{second}-exchanged", f"{first} and {second} exchanged",
                 (ASKED, f"word, value = rests(file, {numbers})\n"))


NUMBERS = [
    *of_each_number(),
    within("state", "from-0", "counted from 0", "0 <= state < model.M", STEP.replace("state - 1", "state")),
    within("n", "from-0", "counted from 0", "0 <= n < N", STEP.replace("n)", "n + 1)").replace(" n,", " n + 1,")),
    within("r", "from-0", "counted from 0", "0 <= r < model.R", STEP.replace(" r,", " r + 1,")),
    within("state", "one-past", "up to M + 1, which is taken for the first", "1 <= state <= model.M + 1",
           STEP.replace("state - 1", "(state - 1) % model.M")),
    within("state", "up-to-63", "up to 63 at most", "1 <= state <= min(model.M, 63)"),
    within("state", "up-to-64", "up to 64, from M + 1 on as if from 1", "1 <= state <= 64",
           STEP.replace("state - 1", "(state - 1) % model.M")),
    read("state", "6-bit", "less 1 in 6 bits", "(state - 1) % 64 + 1"),
    read("n", "10-bit", "in 10 bits", "n % 2**10"),
    read("r", "3-bit", "less 1 in 3 bits", "(r - 1) % 8 + 1"),
    last_n("563", "563", "563"),
    last_n("m", "m", "model.X // MILLION"),
    last_n("m-and-1", "m + 1", "model.X // MILLION + 1"),
    last_n("2m-and-51", "2 m + 51", "2 * (model.X // MILLION) + 51"),
    last_n("N-in-8-bits", "N in 8 bits", "N % 256"),
    last_n("level-of-least-tolerance", "the level of the tolerance 1", "level(model.X, 1)"),
    last_n("level-of-largest-tolerance", "the level of the tolerance 100,000,000", "level(model.X, 100_000_000)"),
    last_n("level-of-time-1", "the level of the time 1", "level(model.E, model.epsilon)"),
    last_n("level-of-rate-million", "the level of the time alone, E taken as 1,000,000",
           "level(min(256, model.T) * MILLION, model.epsilon)"),
    within("r", "up-to-7", "up to 7 at most", "1 <= r <= min(model.R, 7)"),
    last_r("R-and-1", "R + 1", "model.R + 1"),
    last_r("8", "8", "8"),
    last_r("M", "M", "model.M"),
    *(exchanged(*pair) for pair in itertools.combinations(LIMITS, 2)),
    tested("where-all-are", "only where all three are outside", "all(outside)"),
    tested("where-two-are", "only where two or more are outside", "sum(outside) > 1"),
    tested("where-one-is", "only where just one is outside", "sum(outside) == 1"),
    tested("where-not-two-are", "not where two are outside", "sum(outside) % 2"),
    in_one("state-and-r", "state and r", "(state - 1) * model.R + r - 1", "model.M * model.R", "outside[1]"),
    in_one("n-and-r", "n and r", "(n - 1) * model.R + r - 1", "N * model.R", "outside[0]"),
    in_one("n-and-state", "n and state", "(n - 1) * model.M + state - 1", "N * model.M", "outside[2]"),
]


# --- The refusals ------------------------------------------------------------------------------------------------

def none_first(name, what, when):
    """None answered before a refusal."""
    return wrong(f"none-first-{name}", f"none before the refusals {what}",
                 (OUTCOME, f"if {when}:\n        {NONE}\n    {OUTCOME}"))


def refused(name, what, when, new):
    """Another end of a file with a refusal, N being its row."""
    return wrong(f"refused-{name}", what, (REFUSED, f"        if {when}:\n            {new}\n{REFUSED}"))


ROWS = [
    *of_sheets(*map(mistakes.left_out, mistakes.ORDER[:-1])),
    *of_sheets(*mistakes.one_before()),
    *of_sheets(mistakes.earlier(16, 7), mistakes.earlier(11, 16), mistakes.earlier(12, 16), mistakes.tested_last(16)),
    *of_sheets(*mistakes.VERSION_2),
    *(wrong(f"row-13-{cells}-cells", f"row 13 judged with {cells} cells",
            (OUTCOME, OUTCOME.replace("LENT_CELLS", str(cells)))) for cells in (0, 1, 3)),
    none_first("state", "by a state that no file has", "not 1 <= state <= 64"),
    none_first("n", "by an n that no file has", "not 1 <= n <= LEVEL_LIMIT"),
    none_first("r", "by an r that no file has", "not 1 <= r <= 8"),
    none_first("0", "by a 0", "0 in (state, n, r)"),
    none_first("largest", "by numbers of more than 32 bits", "max(state, n, r) >= 2**32"),
    none_first("state-by-M", "from 5 on by the state", "passes(file, 5) and not 1 <= state <= file[3]"),
    none_first("r-by-R", "from 6 on by r", "passes(file, 6) and not 1 <= r <= file[4]"),
    none_first("n-by-12", "by n before 12", "passes(file, 12) and not 1 <= n <= LEVEL_LIMIT"),
    none_first("n-by-16", "by n before 16", "passes(file, 16) and not 1 <= n <= LEVEL_LIMIT"),
    none_first("version-2", "for every file of version 2", "passes(file, 4) and file[2] == 2"),
    refused("16-none", "none in the place of 16", "N == 16", NONE),
    refused("none", "none in the place of every refusal", "True", NONE),
    refused("12-none", "none in the place of 12", "N == 12", NONE),
    refused("13", "13 in the place of every refusal", "True", 'return ("refused", 13)'),
]


# --- What is written, what is answered --------------------------------------------------------------------------

def first(number):
    return wrong(f"{number}-cleared-first", f"{number} set to 0 before all else",
                 (ASKED, f"fill({number})\n    {ASKED}"))


def ended(name, what, word, new):
    """Something done by a call that ends with this word, or with this refusal."""
    when = f'if "{word}" in (word, f"{{word}}-{{value}}"):'
    return wrong(f"{word}-{name}", f"{word}: {what}", (ASKED, f"{ASKED}    {when}\n        {new}\n"))


def put(name, what, new):
    return wrong(f"put-{name}", what, (PUT, new))


def of_each_written():
    """Mistakes that each of the three numbers that take a rest may have."""
    for number in DIVISIONS:
        yield first(number)
        yield ended(f"{number}-written", f"{number} written", "none", f"fill({number})")
        yield ended(f"{number}-written", f"the row in {number}", "refused", f"fill({number}, 0, 1, value)")
        yield put(f"without-{number}", f"{number} not written", PUT.replace(f"{number}[0]", "_"))
        yield put(f"{number}-not-0", f"{number} not written where it is 0",
                  f"kept = {number}[0]\n    {PUT}\n    {number}[0] = {number}[0] or kept")


def other_orders():
    """The three rests in every other order."""
    right = tuple(DIVISIONS)
    for order in itertools.permutations(right):
        if order != right:
            yield put("-".join(order), f"{', '.join(order)} for mean, share, mix",
                      ", ".join(f"{number}[0]" for number in order) + " = value")


def answered(name, what, *changes):
    return wrong(f"answer-{name}", f"{what} answered", *changes)


WRITTEN = [
    *of_each_written(),
    *other_orders(),
    put("added", "the rests added to what the numbers hold",
        "mean[0], share[0], mix[0] = (old[0] + new for old, new in zip((mean, share, mix), value))"),
    ended("all-written", "1 in all three", "none", "mean[0] = share[0] = mix[0] = NONE"),
    ended("mean-cleared", "mean set to 0", "refused-1", "fill(mean)"),
    ended("share-cleared", "share set to 0", "refused-6", "fill(share)"),
    ended("mix-cleared", "mix set to 0", "refused-12", "fill(mix)"),
    answered("given-1", "1 where the rests are given", (GIVEN, "return (word, NONE)")),
    answered("given-3", "3 where the rests are given", (GIVEN, "return (word, 3)")),
    answered("level", "the level where the rests are given", (GIVEN, "return outcome(file, LENT_CELLS)")),
    answered("n", "n where the rests are given", (GIVEN, "return (word, n)")),
    answered("mix", "the rest of U where the rests are given", (GIVEN, "return (word, mix[0])")),
    answered("none-0", "0 for none", (NONE, 'return ("none", GIVEN)')),
    answered("none-2", "2 for none", (NONE, 'return ("none", 2)')),
    answered("none-13", "refusal 13 for none", (NONE, 'return ("refused", 13)')),
    answered("none-20", "refusal 20 for none", (NONE, 'return ("refused", 20)')),
    answered("none-largest", "2^64 - 1 for none", (NONE, 'return ("none", 2**64 - 1)')),
    answered("none-0-refused", "1,000,000 for none", (NONE, 'return ("refused", 0)')),
    answered("none-by-row", "4, 5 or 13 for none",
             (NONE, 'return ("refused", 13 if not 1 <= n <= N else 5 if 1 <= state <= model.M else 4)')),
    answered("exchanged", "given for none and none for given", (GIVEN, "return (word, NONE)"),
             (NONE, 'return ("none", GIVEN)')),
    answered("row", "a row without its 1,000,000", (REFUSED, '        return ("row", N)\n')),
]

TABLE = (*of_each(), *MEAN, *SHARE, *MIXED, *SOURCES, *STEPS, *SHEETS, *NUMBERS, *ROWS, *WRITTEN)


# --- Changes that no call can show ----------------------------------------------------------------------------

EQUIVALENT = (
    rest("mean", "64-bit", "the sum in 64 bits: it is at most E times 10^12, which is below 2^64", "a % 2**64 % b"),
    rest("mean", "terms-reduced", "the rests of the products summed and taken by E again: that is the same",
         "sum(c * u % b for c, u in zip(model.c[i], U[n - 1][r])) % b"),
    rest("mean", "32-bit-rest", "in 32 bits: it is below 10,000,000", "a % b % 2**32"),
    rest("share", "64-bit-signed", "the product in 64 bits with a sign: it is at most 10^18", "signed(a, 64) % b"),
    rest("share", "32-bit-rest", "in 32 bits: it is below 1,000,000", "a % b % 2**32"),
    rest("mix", "binary64", "the sum in binary64: it is at most 1,032 times 10^12, which is below 2^53",
         "int(float(a)) % b"),
    rest("mix", "16-bit", "in 16 bits: it is below 1,032", "a % b % 2**16"),
    rest("mix", "by-difference", "of r times W less V: n + r divides n V + r V", "r * (W - V) % b"),
    stepped("vectors-to-N", "from vectors as far as N: those up to n are the same", vectors="N"),
)
