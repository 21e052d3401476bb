"""The tables of wrong counts of row means (S-8) for call_mutants.py: each the reference's calculate or series with one
thing changed.

As in mistakes.py, an entry names the mistake, says it in a line and gives its changes in the text of
reference/calculator.py. CALCULATE and SERIES hold the mistakes, EQUIVALENT what no call of series can show, with the
reason.
"""

from mistakes import wrong

# --- Parts of the reference that the entries change ------------------------------------------

STORED = "        row_means[0] = taken[0]\n"
VECTORS = "reward_vectors(model, max(found), taken)"
SERIES_WEIGHTS = "w = weights(model.E * T, N)"
GIVE = "    give(row_means, taken)\n"
ANSWERED = {"calculate": "    return result\n", "series": '    return ("times", len(times))\n'}
JUDGED = {"calculate": "    result = outcome(file, len(cells))\n",
          "series": "    row = series_refusal(file, times, len(levels), len(cells))\n"}
ROW = {"calculate": '(result[1] if result[0] == "refused" else 0)', "series": "row"}
LEVEL = {"calculate": "N", "series": "max(found)"}
WEIGHTS = {"calculate": "w", "series": "weights(model.E * times[-1], found[-1])"}
JUMPS = {"calculate": "(model.X // MILLION)", "series": "(model.E * times[-1] // MILLION)"}
REFUSALS = {"calculate": (1, 6, 16, 11, 12, 13), "series": (1, 6, 8, 16, 11, 14, 15, 12, 13)}


# --- Helpers for the new texts -----------------------------------------------------------------------

def put(row_means, number):
    """Writes a number to where one is lent."""
    if row_means:
        row_means[0] = number


HELPERS = (put,)


# --- Another number -----------------------------------------------------------------------------------

def given(call, name, what, number):
    """Another number of row means given by an accepted call."""
    end = GIVE + ANSWERED[call]
    return wrong(f"row-means-{name}", f"row means: {what}",
                 (end, f"    put(row_means, {number})\n{ANSWERED[call]}"))


def numbers(call):
    """Numbers that a hand solution may take for the count; N is the level, of several times the largest."""
    N, M, R, w, m = LEVEL[call], "model.M", "model.R", WEIGHTS[call], JUMPS[call]
    for name, what, number in (
            ("from-n-0", "counted from n = 0", f"({N} + 1) * {M} * {R}"),
            ("from-n-2", "counted from n = 2", f"({N} - 1) * {M} * {R}"),
            ("from-r-0", "counted from r = 0", f"{N} * {M} * ({R} + 1)"),
            ("from-r-2", "counted from r = 2", f"{N} * {M} * ({R} - 1)"),
            ("without-R", "one for each state and n: N M", f"{N} * {M}"),
            ("without-M", "one for each r and n: N R", f"{N} * {R}"),
            ("without-N", "one for each state and r: M R", f"{M} * {R}"),
            ("for-each-n", "one for each n: N", N),
            ("for-each-term", "one for each term: N + 1", f"{N} + 1"),
            ("added-not-multiplied", "N + M + R", f"{N} + {M} + {R}"),
            ("one-more", "one more", "taken[0] + 1"),
            ("one-less", "one less", "taken[0] - 1"),
            ("8-bit", "in 8 bits", "taken[0] % 2**8"),
            ("16-bit", "in 16 bits", "taken[0] % 2**16"),
            ("at-most-65535", "held at 65,535", "min(taken[0], 2**16 - 1)"),
            ("with-start", "one more state in version 2", f"{N} * ({M} + len(model.a[:1])) * {R}"),
            ("with-start-figures", "one for each start figure too", f"taken[0] + len(model.a[:1]) * {R}"),
            ("with-moments", "one for each moment too", f"taken[0] + {M} * {R}"),
            ("of-arrows", "only the rows that have an arrow",
             f"{N} * sum(row[i] < model.E for i, row in enumerate(model.c)) * {R}"),
            ("of-rewards", "only the states that have a reward", f"{N} * sum(f > 0 for f in model.f) * {R}"),
            ("products", "each product of a row mean: N M M R", f"{N} * {M} * {M} * {R}"),
            ("products-above-0", "each product with a c(i,j) above 0",
             f"{N} * {R} * sum(c > 0 for row in model.c for c in row)"),
            ("arrows", "one for each arrow", f"{N} * {R} * sum(sum(map(bool, row)) for row in read_rates(file, {M}))"),
            ("with-W", "W counted too", "2 * taken[0]"),
            ("with-W-and-U", "every division counted: V, W and U", "3 * taken[0]"),
            ("of-weights-above-0", "only the n whose weight is above 0", f"sum(map(bool, {w}[1:])) * {M} * {R}"),
            ("from-m", "only the n from m on", f"({N} - {m}) * {M} * {R}"),
            ("to-m", "only the n up to m", f"{m} * {M} * {R}"),
            ("of-the-bound", "2 m + 51 in the place of the level", f"(2 * {m} + 51) * {M} * {R}"),
            ("of-the-limit", "1,024 in the place of the level", f"LEVEL_LIMIT * {M} * {R}"),
            ("cells", "the number of cells", "len(cells)"),
            ("0", "0 always", "0")):
        yield given(call, name, what, number)


# --- Where it is written ----------------------------------------------------------------------------------

def refused(call, name, what, when, number):
    """The number written by a refused call."""
    return wrong(f"row-means-{name}", f"row means: {what}",
                 (JUDGED[call], f"{JUDGED[call]}    if {when}:\n        put(row_means, {number})\n"))


def written(call):
    """The number written where it must stay, not written, or written otherwise."""
    row, end = ROW[call], GIVE + ANSWERED[call]
    yield wrong("row-means-cleared-first", "row means: set to 0 before the table is tried",
                (JUDGED[call], f"    put(row_means, 0)\n{JUDGED[call]}"))
    yield refused(call, "refused-0", "0 written by a refusal", row, "0")
    yield refused(call, "refusal", "a refusal's number written", row, row)
    yield refused(call, "refused-one-more", "one added by a refusal", row, "row_means[0] + 1")
    for number in REFUSALS[call]:
        yield refused(call, f"refused-{number}", f"0 written although {number} is answered", f"{row} == {number}", "0")
    yield wrong("row-means-added", "row means: added to what stands there", (STORED, STORED.replace("=", "+=")))
    yield wrong("row-means-not-written", "row means: not written", (end, ANSWERED[call]))
    yield wrong("row-means-low-half", "row means: its low 32 bits alone written",
                (STORED, "        row_means[0] = row_means[0] >> 32 << 32 | taken[0]\n"))


CALCULATE = (
    *numbers("calculate"),
    *written("calculate"),
    wrong("row-means-answered", "row means: exchanged with the level",
          (GIVE + ANSWERED["calculate"], '    put(row_means, N)\n    return ("level", taken[0])\n')),
    wrong("row-means-in-cells", "row means: written to the first cell too",
          (GIVE + ANSWERED["calculate"], f"{GIVE}    cells[0] = taken[0]\n{ANSWERED['calculate']}")),
)


def of_levels(name, what, N):
    """Another level in the place of the largest."""
    return given("series", name, what, f"{N} * model.M * model.R")


SERIES = (
    *numbers("series"),
    *written("series"),
    of_levels("of-the-first", "those of the first time", "found[0]"),
    of_levels("of-the-least", "those of the least level", "min(found)"),
    of_levels("of-the-second-last", "those of the time before the last", "found[-2:][0]"),
    of_levels("of-all-times", "those of each time added up", "sum(found)"),
    of_levels("for-each-time", "those of the largest level for each time", "max(found) * len(times)"),
    of_levels("from-the-first", "those past the first level", "(max(found) - found[0])"),
    of_levels("of-different-levels", "those of each different level added up", "sum(set(found))"),
    of_levels("of-the-own-time", "those of the file's own time", "level(model.X, model.epsilon)"),
    of_levels("of-q-256", "those of the longest time that row 12 lets pass",
              "level(256_000_000 // model.E * model.E, model.epsilon)"),
    wrong("row-means-vectors-anew", "row means: the vectors taken anew for each time, all counted",
          (f"U = {VECTORS}", "U = []"),
          (SERIES_WEIGHTS, f"{SERIES_WEIGHTS}\n        U = reward_vectors(model, N, taken)")),
    wrong("row-means-past-the-level", "row means: the vectors taken one step past the largest level, and counted",
          (VECTORS, VECTORS.replace("max(found)", "max(found) + 1"))),
    wrong("row-means-answered", "row means: exchanged with the number of times",
          (GIVE + ANSWERED["series"], '    put(row_means, len(times))\n    return ("times", taken[0])\n')),
    wrong("row-means-in-levels", "row means: written to the first level cell too",
          (GIVE + ANSWERED["series"], f"{GIVE}    levels[0] = taken[0]\n{ANSWERED['series']}")),
)

EQUIVALENT = (
    of_levels("of-the-last", "those of the last time: no time is known at which the level falls", "found[-1]"),
)
