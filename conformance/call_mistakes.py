"""The tables of wrong calls for call_mutants.py: each the reference's series or calculate with one thing changed, wrong
counts of row means from count_mistakes.py, those of remainders from remainders_mistakes.py, those of the converter from
move_mistakes.py and those of practice from practice_mistakes.py.

As in mistakes.py, an entry names the mistake, says it in a line and gives its changes in the text of
reference/calculator.py. TABLE holds the mistakes by call, LEFT_OUT the changes that no call can show, each with the
reason; EQUIVALENT are those of series.
"""

import count_mistakes
import mistakes
import move_mistakes
import practice_mistakes
import remainders_mistakes
from mistakes import ROWS as FILE_ROWS
from mistakes import wrong
from remainders_mistakes import of_sheets

RIGHT = mistakes.Wrong("reference", "nothing changed", (), None)


# --- Parts of the reference that the entries change ------------------------------------------

JUDGED = "row = refusal(file, LENT_CELLS)"
TO_8 = "    if 1 <= row <= 8:"
TO_11 = "    if row == 16 or 9 <= row <= 11:"
LIMIT = "> 256_000_000"
LAST_X = "model.E * times[-1]"
NEEDED = "len(times) * block_size(file)"
ABOVE = "late <= early"
ROWS = {
    8: "times and times[0] == 0",
    14: "not 1 <= len(times) <= MOST_TIMES",
    15: f"any({ABOVE} for early, late in zip(times, times[1:]))",
    12: f"{LAST_X} {LIMIT}",
    13: f"levels < len(times) or cells < {NEEDED}",
}
# The same where it is not known that the rows before do not hold. An empty list has no last time.
FREE = {
    **ROWS,
    12: f"times and last_product(file, times) {LIMIT}",
    13: "levels < len(times) or cells < len(times) * block_of(file)",
}
SERIES_ROW = "    row = series_refusal(file, times, len(levels), len(cells))\n"
REFUSED = SERIES_ROW + "    if row:\n"
FOUND = "found = [level(model.E * T, model.epsilon) for T in times]"
VECTORS = "U = reward_vectors(model, max(found), taken)"
COUNTED = VECTORS.replace("U = ", "")      # for the count alone
PAIRS = "enumerate(zip(times, found))"
WEIGHTS = "w = weights(model.E * T, N)"
MOMENT = "moment(w, U, N, i, r)"
BLOCK = f"block = [{MOMENT} for i in range(model.M) for r in range(1, model.R + 1)]"
STARTS = "block += start_figures(model, block)"
PUT_LEVEL = "levels[k] = N"
PUT_BLOCK = "cells[k * size:(k + 1) * size] = block"
ANSWER = 'return ("times", len(times))'
CALCULATE_ROW = "    result = outcome(file, len(cells))\n"
PUT_STARTS = mistakes.PUT_STARTS
CALCULATE_END = f"{PUT_STARTS}{count_mistakes.GIVE}    return result\n"


# --- Helpers for the new texts -----------------------------------------------------------------------

def last_product(file, times):
    """E times the last time as far as the bytes are there."""
    M = file[3] if len(file) > 3 else 0
    first = 13 + (8 if file[2:3] == b"\2" else 4) * M
    rates = [int.from_bytes(file[k:k + 4], "big") for k in range(first, len(file), 4)]
    sums = [sum(rates[k:k + M - 1]) for k in range(0, len(rates), M - 1)] if M > 1 else []
    return (max(sums, default=0) or 1) * times[-1]


def block_of(file):
    """The cells of a block as far as the bytes are there."""
    return (file[3] + (file[2] == 2)) * file[4] if len(file) > 4 else 0


def with_time_1(file):
    """The file with the time 1, where it has one."""
    return file[:9] + b"\0\0\0\1" + file[13:] if len(file) >= 13 else file


def swapped_bytes(T):
    """A time with its bytes in the other order."""
    return int.from_bytes(T.to_bytes(4, "little"), "big")


def fill(cells, first=0, end=None, value=0):
    """Writes a number to the cells from one place to before another, as far as they go."""
    for k in range(first, len(cells) if end is None else min(end, len(cells))):
        cells[k] = value


def lay(cells, places, block):
    """Writes a block to some places."""
    for place, moment in zip(places, block):
        cells[place] = moment


def half_down(a, b):
    """a / b rounded to the nearest, a half going down."""
    return -((b - 2 * a) // (2 * b))


HELPERS = (*mistakes.HELPERS, *count_mistakes.HELPERS, *remainders_mistakes.HELPERS, *move_mistakes.HELPERS,
           *practice_mistakes.HELPERS, last_product, block_of, with_time_1, swapped_bytes, fill, lay, half_down)


# --- Series: the refusal table -------------------------------------------------------------------------

def border(row, name, what, new):
    return wrong(f"row-{row:02d}-{name}", f"row {row}: {what}", (f"if {ROWS[row]}:", f"if {new}:"))


def borders(row, *entries):
    return [border(row, *entry) for entry in entries]


def test_of(row):
    return f"    if {FREE[row]}:\n        return {row}\n"


BEFORE = {"all": f"    {JUDGED}", "8-list": f"    if {ROWS[8]}:", "9": TO_11,
          **{str(row): f"    if {ROWS[row]}:" for row in (14, 15, 12, 13)}}
BEHIND = {"11": f"    if {ROWS[14]}:", "14": f"    if {ROWS[15]}:",
          "15": "    model = read_model(file)\n    if model.E",
          "12": f"    if {ROWS[13]}:", "13": "    return 0\n\n\ndef series("}


def earlier(row, *places):
    """Row `row` of the list tested before a place of the table: a row, all rows, or 8 of the list."""
    for place in places:
        yield wrong(f"row-{row:02d}-before-{place}", f"row {row} of the list tested before {place}",
                    (BEFORE[place], test_of(row) + BEFORE[place]))


def later(row, *places):
    """Row `row` of the list tested behind a place of the table; row 12 has no last time to judge in an empty list."""
    free_12 = [(f"if {ROWS[12]}:", f"if {FREE[12]}:")] if row == 14 else []
    for place in places:
        yield wrong(f"row-{row:02d}-after-{place}", f"row {row} of the list tested after row {place}",
                    (f"    if {ROWS[row]}:", "    if False:"), (BEHIND[place], test_of(row) + BEHIND[place]), *free_12)


ROW_8 = [
    *borders(
        8,
        ("list-left-out", "the list not looked at", "False"),
        ("any-0", "any listed 0", "0 in times"),
        ("last-0", "the last listed time", "times and times[-1] == 0"),
        ("first-1", "a first time of 1 too", "times and times[0] <= 1"),
        ("empty-list", "an empty list too", "not times or times[0] == 0"),
        ("16-bit", "the first time in 16 bits", "times and times[0] % 2**16 == 0"),
        ("not-of-9", "a list of more than 8 not looked at", "1 <= len(times) <= 8 and times[0] == 0")),
    wrong("row-08-own-time-left-out", "row 8: the file's own time not looked at",
          (JUDGED, "row = refusal(with_time_1(file), LENT_CELLS)")),
    wrong("row-08-own-time-only-without-list", "row 8: the file's own time looked at only where the list is empty",
          (JUDGED, "row = refusal(with_time_1(file) if times else file, LENT_CELLS)")),
    *earlier(8, "all"),
    *later(8, "11", "14", "15"),
]

ROW_14 = [
    *borders(
        14,
        ("left-out", "not tested", "False"),
        ("without-0", "an empty list let through", "len(times) > 8"),
        ("without-limit", "no upper limit", "not times"),
        ("at-8", "8 times refused", "not 1 <= len(times) < 8"),
        ("at-9", "9 times let through", "not 1 <= len(times) <= 9"),
        ("at-1", "one time refused", "not 2 <= len(times) <= 8"),
        ("at-7", "7 times refused", "not 1 <= len(times) < 7"),
        ("limit-16", "up to 16 times let through", "not 1 <= len(times) <= 16"),
        ("8-bit", "the count in 8 bits", "not 1 <= len(times) % 256 <= 8"),
        ("by-level-cells", "more times than level cells", "not 1 <= len(times) <= levels")),
    wrong("row-14-empty-is-15", "an empty list answered with 15",
          (f"if {ROWS[15]}:", f"if not times or {ROWS[15]}:"), (f"if {ROWS[14]}:", "if len(times) > 8:")),
    wrong("rows-14-and-15-exchanged", "14 and 15 exchanged",
          ("        return 14\n", "        return 10 + 5\n"), ("        return 15\n", "        return 14\n")),
    *earlier(14, "all", "8-list", "9"),
    *later(14, "15", "12", "13"),
]

ROW_15 = [
    *borders(
        15,
        ("left-out", "not tested", "False"),
        ("equal-let-through", "equal times let through", ROWS[15].replace("<=", "<")),
        ("falling-let-through", "only equal times refused", ROWS[15].replace("<=", "==")),
        ("falling-list", "a list that does not fall refused", ROWS[15].replace("<=", ">=")),
        ("first-two-only", "the first two times only", "times[1:] and times[1] <= times[0]"),
        ("last-two-only", "the last two times only", "times[1:] and times[-1] <= times[-2]"),
        ("not-first-two", "the first two times not compared",
         ROWS[15].replace("times, times[1:]", "times[1:], times[2:]")),
        ("not-last-two", "the last two times not compared", ROWS[15].replace("times[1:]", "times[1:-1]")),
        ("last-to-first", "the last time held against the first alone", "times[1:] and times[-1] <= times[0]"),
        ("each-to-first", "each held against the first alone", "any(late <= times[0] for late in times[1:])"),
        ("sets", "equal times at any place refused, no order asked for", "len(set(times)) < len(times)"),
        ("next", "times next to each other refused", ROWS[15].replace(ABOVE, "late <= early + 1")),
        ("signed", "times in 32 bits with a sign", ROWS[15].replace(ABOVE, "signed(late, 32) <= signed(early, 32)")),
        ("difference-signed", "their difference in 32 bits with a sign",
         ROWS[15].replace(ABOVE, "signed(late - early, 32) <= 0")),
        ("16-bit", "times in 16 bits", ROWS[15].replace(ABOVE, "late % 2**16 <= early % 2**16"))),
    *earlier(15, "all", "8-list", "9", "14"),
    *later(15, "12", "13"),
]

ROW_12 = [
    *borders(
        12,
        ("left-out", "not tested", "False"),
        ("first-time", "judged on the first time", f"model.E * times[0] {LIMIT}"),
        ("second-last", "judged on the time before the last", f"model.E * times[-2:][0] {LIMIT}"),
        ("own-time", "judged on the file's own time", f"model.X {LIMIT}"),
        ("own-time-too", "judged on the file's own time as well", f"max({LAST_X}, model.X) {LIMIT}"),
        ("own-time-and-last", "only where the file's own time is late as well", f"min({LAST_X}, model.X) {LIMIT}"),
        ("all-late", "only where it holds for every time", f"model.E * min(times) {LIMIT}"),
        ("sum", "judged on the sum of the times", f"model.E * sum(times) {LIMIT}"),
        ("spread", "judged on the last time less the first", f"model.E * (times[-1] - times[0]) {LIMIT}"),
        ("at-256000000", "a product of 256,000,000 refused", f"{LAST_X} >= 256_000_000"),
        ("at-256000001", "a product of 256,000,001 let through", f"{LAST_X} > 256_000_001"),
        ("whole-q", "q rounded down, above 256", f"{LAST_X} // MILLION > 256"),
        ("32-bit", "E times the last time in 32 bits", f"{LAST_X} % 2**32 {LIMIT}"),
        ("32-bit-signed", "the same with a sign", f"signed({LAST_X}, 32) {LIMIT}"),
        ("without-rates", "not tested where all rates are 0",
         f"max(map(sum, read_rates(file, file[3]))) * times[-1] {LIMIT}")),
    wrong("row-12-of-the-file", "row 12 of the file's own time kept, before 14",
          (f"    if {ROWS[14]}:", f"    if row == 12:\n        return 12\n    if {ROWS[14]}:")),
    *earlier(12, "8-list", "9", "14", "15"),
    *later(12, "13"),
]

ROW_13 = [
    *borders(
        13,
        ("left-out", "not tested", "False"),
        ("levels-alone", "only the level cells counted", "levels < len(times)"),
        ("cells-alone", "only the block cells counted", f"cells < {NEEDED}"),
        ("both-short", "only where both slices are too short", ROWS[13].replace(" or ", " and ")),
        ("one-block", "cells for one block enough", ROWS[13].replace(NEEDED, "block_size(file)")),
        ("a-block-less", "a block less enough", ROWS[13].replace(NEEDED, "(len(times) - 1) * block_size(file)")),
        ("moments-alone", "the start figures not counted", ROWS[13].replace(NEEDED, "len(times) * model.M * model.R")),
        ("start-once", "the start figures counted once",
         ROWS[13].replace(NEEDED, "len(times) * model.M * model.R + len(model.a[:1]) * model.R")),
        ("start-in-version-1", "start figures counted in version 1 too",
         ROWS[13].replace(NEEDED, "len(times) * (model.M + 1) * model.R")),
        ("start-one-each", "one start figure counted for a block",
         ROWS[13].replace(NEEDED, "len(times) * (model.M * model.R + len(model.a[:1]))")),
        ("start-M-each", "M start figures counted for a block",
         ROWS[13].replace(NEEDED, "len(times) * (model.M * model.R + len(model.a))")),
        ("without-R", "M cells for a block enough", ROWS[13].replace(NEEDED, "len(times) * model.M")),
        ("without-M", "R cells for a block enough", ROWS[13].replace(NEEDED, "len(times) * model.R")),
        ("at-the-last-level", "just enough level cells refused", ROWS[13].replace("levels <", "levels <=")),
        ("at-the-last-cell", "just enough block cells refused", ROWS[13].replace("cells <", "cells <=")),
        ("a-level-less", "one level cell less let through", ROWS[13].replace("levels <", "levels + 1 <")),
        ("a-cell-less", "one block cell less let through", ROWS[13].replace("cells <", "cells + 1 <")),
        ("8-levels", "8 level cells asked for", ROWS[13].replace("levels < len(times)", "levels < 8")),
        ("8-blocks", "cells for 8 blocks asked for", ROWS[13].replace(NEEDED, "8 * block_size(file)")),
        ("512-cells", "512 cells for a block asked for", ROWS[13].replace(NEEDED, "512 * len(times)")),
        ("520-cells", "520 cells for a block asked for", ROWS[13].replace(NEEDED, "520 * len(times)")),
        ("levels-in-cells", "block cells for the levels asked for too",
         ROWS[13].replace(NEEDED, f"len(times) + {NEEDED}")),
        ("exchanged", "the two counts exchanged", f"cells < len(times) or levels < {NEEDED}"),
        ("exact", "counts that are not just enough refused", ROWS[13].replace("<", "!=")),
        ("8-bit", "the block cells needed in 8 bits", ROWS[13].replace(NEEDED, f"{NEEDED} % 256"))),
    *earlier(13, "all", "8-list", "9", "14", "15", "12"),
]


def row_16_after(place):
    """Row 16 tested behind a place of the table; the rows of the file before 9 to 11 are as they were."""
    return wrong(f"row-16-after-{place}", f"row 16 tested after row {place}", (TO_11, "    if 9 <= row <= 11:"),
                 (BEHIND[place], f"    if row == 16:\n        return 16\n{BEHIND[place]}"))


ROW_16 = [
    wrong("row-16-left-out-here", "row 16 left out in series", (TO_11, "    if 9 <= row <= 11:")),
    wrong("row-16-before-8-list", "row 16 tested before a first listed time of 0",
          (TO_8, "    if row == 16 or 1 <= row <= 8:")),
    wrong("row-16-as-12", "row 16, like 12, taken for one that does not count in series",
          (JUDGED, f"{JUDGED}\n    row = 0 if row in (12, 16) else row")),
    *map(row_16_after, ("14", "15", "12", "13")),
    *of_sheets(*mistakes.VERSION_2, mistakes.earlier(16, 8), mistakes.earlier(16, 7), mistakes.earlier(9, 16),
               mistakes.earlier(10, 16), mistakes.earlier(11, 16), mistakes.left_out(16),
               *(entry for entry in mistakes.REFUSAL_TABLE if entry.name.startswith(("row-03-", "row-06-of"))
                 and "-row-" not in entry.name)),
]


# --- Series: levels and blocks ----------------------------------------------------------------------------

def listed(name, what, new):
    """Other times from the start on."""
    return wrong(f"times-{name}", f"times {what}", (SERIES_ROW, f"    times = {new}\n{SERIES_ROW}"))


def own(name, what, new):
    """The file's own time among those of an accepted list."""
    return wrong(f"own-time-{name}", f"{what} for the file's own time", (FOUND, f"times = {new}\n    {FOUND}"))


TIMES = [
    listed("sorted", "sorted first", "sorted(times)"),
    listed("sorted-once-each", "sorted first, equal ones once", "sorted(set(times))"),
    listed("signed", "in 32 bits with a sign", "[signed(T, 32) for T in times]"),
    listed("16-bit", "in 16 bits", "[T % 2**16 for T in times]"),
    listed("24-bit", "in 24 bits", "[T % 2**24 for T in times]"),
    listed("binary32", "in binary32", "[int(binary32(T)) for T in times]"),
    listed("other-byte-order", "with their bytes in the other order", "[swapped_bytes(T) for T in times]"),
    listed("first-8", "past the eighth left out", "times[:8]"),
    listed("without-0", "of 0 left out", "[T for T in times if T]"),
    listed("without-late", "past the limit left out", "[T for T in times if T <= 256_000_000]"),
    wrong("times-from-each-other", "each time taken from the one before it",
          (PAIRS, "enumerate(zip([b - a for a, b in zip([0, *times], times)], found))")),
    own("first", "the first block and level", "[model.T, *times[1:]]"),
    own("last", "the last block and level", "[*times[:-1], model.T]"),
    own("all", "every block and level", "[model.T] * len(times)"),
    wrong("own-time-levels", "levels alone for the file's own time", (FOUND, FOUND.replace("model.E * T", "model.X"))),
    wrong("own-time-weights", "weights alone for the file's own time", (WEIGHTS, "w = weights(model.X, N)")),
]


def put_level(name, what, place, value):
    return wrong(f"levels-{name}", f"levels {what}", (PUT_LEVEL, f"levels[{place}] = {value}"))


LEVELS = [
    put_level("reversed", "from the last time to the first", "len(times) - 1 - k", "N"),
    put_level("first", "all that of the first time", "k", "found[0]"),
    put_level("last", "all that of the last time", "k", "found[-1]"),
    put_level("one-later", "one cell later", "k + 1", "N"),
    put_level("added", "added up", "k", "sum(found[:k + 1])"),
    put_level("steps", "each less the one before it", "k", "N - (found[k - 1] if k else 0)"),
    put_level("as-jumps", "as m, q rounded down", "k", "model.E * T // MILLION"),
    put_level("8-bit", "in 8 bits", "k", "N % 256"),
    put_level("without-the-last", "without that of the last time", "k", "N if T < times[-1] else levels[k]"),
    wrong("levels-always-rising", "each level above the one before it", (FOUND, FOUND + (
        "\n    for k in range(1, len(found)):\n        found[k] = max(found[k], found[k - 1] + 1)"))),
    wrong("levels-in-cells", "each level before its block", (PUT_LEVEL, "levels[k] = cells[k * (size + 1)] = N"),
          (PUT_BLOCK, "cells[k * (size + 1) + 1:(k + 1) * (size + 1)] = block")),
]


def up_to(name, what, levels):
    return wrong(f"blocks-up-to-{name}", f"blocks summed up to {what}, which is given as the level",
                 (PAIRS, f"enumerate(zip(times, {levels}))"))


def weighted(name, what, new):
    return wrong(f"weights-{name}", f"the weights {what}", (WEIGHTS, f"w = {new}"))


def put_block(name, what, new):
    return wrong(f"blocks-{name}", f"blocks {what}", (PUT_BLOCK, new))


def last_division(name, what):
    """The last division of a block by another rule, a function of A * 10^12 and S(N)."""
    terms = "sum(w[n] * U[n][r][i] // ONE for n in range(N + 1))"
    return wrong(f"last-division-{name.replace('_', '-')}", f"the last division of a block {what}",
                 (BLOCK, BLOCK.replace(MOMENT, f"{name}({terms} * ONE, sum(w[:N + 1]))")))


BLOCKS = [
    up_to("first-level", "the first level", "[found[0]] * len(times)"),
    up_to("last-level", "the last level", "[found[-1]] * len(times)"),
    up_to("other-level", "the level at the other end of the list", "found[::-1]"),
    wrong("blocks-past-their-level", "each block summed up to the last level, its own level given",
          (WEIGHTS, WEIGHTS.replace("N", "found[-1]")), (BLOCK, BLOCK.replace("U, N", "U, found[-1]"))),
    weighted("of-the-first", "of the first time for every block", "weights(model.E * times[0], max(found))"),
    weighted("of-the-last", "of the last time for every block", "weights(model.E * times[-1], max(found))"),
    weighted("not-reset", "added to those of the times before",
             "[sum(v) for v in zip(*(weights(model.E * t, max(found)) for t in times[:k + 1]))]"),
    put_block("reversed", "from the last time to the first",
              "cells[(len(times) - 1 - k) * size:(len(times) - k) * size] = block"),
    put_block("interleaved", "cell by cell, the times of a moment next to each other",
              "cells[k:len(times) * size:len(times)] = block"),
    put_block("state-by-state", "state by state, the times of a state next to each other",
              "lay(cells, ((j // model.R * len(times) + k) * model.R + j % model.R for j in range(size)), block)"),
    put_block("one-cell-later", "one cell later", "cells[k * size + 1:(k + 1) * size + 1] = block"),
    put_block("a-cell-too-far", "with a cell past their end, where there is one",
              f"{PUT_BLOCK}\n        fill(cells, (k + 1) * size, (k + 1) * size + 1)"),
    put_block("all-in-the-first", "all in the place of the first", "cells[:size] = block"),
    put_block("first-alone", "past the first not written", "cells[:size] = block if k == 0 else cells[:size]"),
    put_block("last-cell-missing", "without their last cell", "cells[k * size:(k + 1) * size - 1] = block[:-1]"),
    put_block("eight-cells-each", "with eight cells for every state",
              "lay(cells, ((k * model.M + i) * 8 + r for i in range(model.M) for r in range(model.R)), block)"),
    put_block("512-apart", "512 cells apart", "cells[k * 512:k * 512 + size] = block"),
    put_block("R-apart", "R cells apart", "cells[k * model.R:k * model.R + size] = block"),
    put_block("M-apart", "M cells apart", "cells[k * model.M:k * model.M + size] = block"),
    put_block("added", "added up from time to time", "before = cells[(k - 1) * size:k * size] if k else [0] * size\n"
              "        cells[k * size:(k + 1) * size] = map(sum, zip(before, block))"),
    wrong("blocks-r-by-r", "the moments of a block r by r",
          (BLOCK, f"block = [{MOMENT} for r in range(1, model.R + 1) for i in range(model.M)]")),
    wrong("blocks-r-falling", "the moments of a state from the highest to the first",
          (BLOCK, BLOCK.replace("range(1, model.R + 1)", "range(model.R, 0, -1)"))),
    last_division("int.__floordiv__", "down")._replace(name="last-division-down"),
    last_division("up", "up"),
    last_division("half_down", "to the nearest, a half going down"),
    last_division("even", "to the nearest, a half to the even one"),
]

def put_starts(name, what, new):
    """The start figures of a block given otherwise."""
    return wrong(f"block-starts-{name}", f"start figures {what}", (STARTS, new))


def laid(name, what, *changes):
    """Blocks with start figures laid otherwise."""
    return wrong(f"blocks-starts-{name}", f"start figures {what}", *changes)


NOT_WRITTEN = "cells[k * size + len(block):(k + 1) * size]"
BLOCK_STARTS = [
    put_starts("not-written", "not written", f"block += {NOT_WRITTEN}"),
    put_starts("first-block-alone", "written in the first block alone",
               f"block += start_figures(model, block) if k == 0 else {NOT_WRITTEN}"),
    put_starts("last-block-alone", "written in the last block alone",
               f"block += start_figures(model, block) if T == times[-1] else {NOT_WRITTEN}"),
    put_starts("0-past-the-first", "0 in every block but the first",
               "block += start_figures(model, block) if k == 0 else [0] * (size - len(block))"),
    put_starts("before-moments", "before the moments of a block", "block = start_figures(model, block) + block"),
    put_starts("of-the-first", "those of the first time in every block",
               "block += start_figures(model, cells if k else block)"),
    put_starts("of-the-block-before", "those of the time before, from the second block on",
               "block += start_figures(model, cells[max(0, k - 1) * size:] if k else block)"),
    put_starts("added", "added up from block to block",
               "block += [x + (cells[(k - 1) * size + j] if k else 0) "
               "for j, x in enumerate(start_figures(model, block), len(block))]"),
    put_starts("r-falling", "from the highest r to the first", "block += start_figures(model, block)[::-1]"),
    laid("after-all-blocks", "behind the last block, time by time",
         (STARTS, "starts, block = start_figures(model, block), block"),
         (PUT_BLOCK, "size = model.M * model.R\n        cells[k * size:(k + 1) * size] = block\n"
                     "        lay(cells, range(len(times) * size + k * model.R, len(cells)), starts)")),
    laid("overwritten", "overwritten by the next block, M R cells behind",
         (PUT_BLOCK, "lay(cells, range(k * model.M * model.R, len(cells)), block)")),
    laid("room-in-version-1", "given room in version 1 too",
         (PUT_BLOCK, "lay(cells, range(k * (model.M + 1) * model.R, len(cells)), block)")),
    laid("from-512", "from cell 512 of a block on",
         (PUT_BLOCK, "lay(cells, [*range(k * size, k * size + model.M * model.R), *range(512, len(cells))], block)")),
]

REUSED_VECTORS = [
    wrong("vectors-to-the-first-level", "the vectors worked out as far as the first level, the last of them repeated",
          (VECTORS, f"{COUNTED}\n    U = reward_vectors(model, found[0])\n    U += [U[-1]] * (max(found) - found[0])")),
    wrong("vectors-one-short", "the vectors worked out to one less than the largest level, the last of them repeated",
          (VECTORS, f"{COUNTED}\n    U = reward_vectors(model, max(found) - 1)\n    U.append(U[-1])")),
    wrong("vectors-carried-on", "the vectors of each time taken up where those of the time before end",
          (VECTORS, f"{COUNTED}\n    vectors = reward_vectors(model, sum(found))"),
          (WEIGHTS, f"{WEIGHTS}\n        U = vectors[sum(found[:k]):]")),
    wrong("vectors-from-the-level-before", "the vectors of each time begun at the level of the time before",
          (VECTORS, f"{COUNTED}\n    vectors = reward_vectors(model, 2 * max(found))"),
          (WEIGHTS, f"{WEIGHTS}\n        U = vectors[found[k - 1] if k else 0:]")),
]


# --- Series: what is written, what is answered ----------------------------------------------------------------

def first(name, what, new):
    """Something done before the table is tried."""
    return wrong(name, f"{what} before the table is tried", (SERIES_ROW, f"    {new}\n{SERIES_ROW}"))


def refused(name, what, when, new):
    """Something done by a refused call."""
    return wrong(name, f"{what}", (REFUSED, f"{SERIES_ROW}    if {when}:\n        {new}\n    if row:\n"))


def at_the_end(name, what, new):
    """Something done by an accepted call at its end."""
    return wrong(name, what, (ANSWER, f"{new}\n    {ANSWER}"))


def answered(name, what, new):
    return wrong(f"answer-{name}", f"{what} answered", (ANSWER, f'return ("times", {new})'))


WRITTEN = [
    first("levels-cleared-first", "the level cells set to 0", "fill(levels)"),
    first("cells-cleared-first", "the block cells set to 0", "fill(cells)"),
    refused("refusal-in-levels", "a refusal's number in the first level cell", "row", "fill(levels, 0, 1, row)"),
    refused("refusal-in-cells", "a refusal's number in the first block cell", "row", "fill(cells, 0, 1, row)"),
    *(refused(f"refused-{row}-levels", f"levels written although {row} is answered", f"row == {row}", "fill(levels)")
      for row in (8, 16, 14, 15, 12, 13)),
    *(refused(f"refused-{row}-cells", f"blocks written although {row} is answered", f"row == {row}", "fill(cells)")
      for row in (8, 16, 14, 15, 12, 13)),
    refused("refused-13-what-fits", "what fits of the first block written although 13 is answered", "row == 13",
            "fill(cells, 0, block_of(file))"),
    at_the_end("cells-past-the-end-cleared", "cells past the last block set to 0", "fill(cells, len(times) * size)"),
    at_the_end("levels-past-the-end-cleared", "level cells past the last level set to 0", "fill(levels, len(times))"),
    at_the_end("levels-past-the-end-repeated", "level cells past the last level take it too",
               "fill(levels, len(times), None, N)"),
    answered("0", "0", "0"),
    answered("8", "8", "8"),
    answered("one-less", "one less than the number of times", "len(times) - 1"),
    answered("last-level", "the last level", "found[-1]"),
    answered("first-level", "the first level", "found[0]"),
    answered("cells", "the number of cells written", "len(times) * size"),
    answered("lent-levels", "the number of level cells lent", "len(levels)"),
]

SERIES = (*ROW_8, *ROW_14, *ROW_15, *ROW_12, *ROW_13, *ROW_16, *TIMES, *LEVELS, *BLOCKS, *BLOCK_STARTS,
          *of_sheets(*mistakes.START_FIGURES), *REUSED_VECTORS, *WRITTEN)


# --- Calculate: row 13 ----------------------------------------------------------------------------------------

def cells_13(name, what, new):
    return wrong(f"row-13-{name}", f"row 13: {what}", (f"if {FILE_ROWS[13]}:", f"if {new}:"))


def cells_13_before(row):
    text = f"    if {FILE_ROWS[row]}:"
    return wrong(f"row-13-before-{row}", f"row 13 tested before row {row}",
                 (text, f"    if cells < block_of(file):\n        return 13\n{text}"))


def judged(name, what, when, new):
    """Something done once the table is tried."""
    return wrong(name, what, (CALCULATE_ROW, f"{CALCULATE_ROW}    if {when}:\n        {new}\n"))


def ended(name, what, new):
    return wrong(name, what, (CALCULATE_END, CALCULATE_END.replace("    return result\n", new)))


def starts(name, what, new):
    """The start figures of calculate laid otherwise."""
    return wrong(f"starts-{name}", f"start figures {what}", (PUT_STARTS, new))


CALCULATE = (
    cells_13("left-out", "not tested", "False"),
    cells_13("at-the-last-cell", "just enough cells refused", "cells <= block_size(file)"),
    cells_13("one-less", "one cell less let through", "cells + 1 < block_size(file)"),
    cells_13("exact", "more cells than enough refused", "cells != block_size(file)"),
    cells_13("moments-alone", "the start figures not counted", "cells < M * R"),
    cells_13("start-in-version-1", "start figures counted in version 1 too", "cells < (M + 1) * R"),
    cells_13("start-one", "one start figure counted", "cells < M * R + (file[2] == 2)"),
    cells_13("start-M", "M start figures counted", "cells < M * R + (M if file[2] == 2 else 0)"),
    cells_13("start-8", "8 start figures counted", "cells < M * R + (8 if file[2] == 2 else 0)"),
    cells_13("at-most-512", "512 cells enough for every file", "cells < min(block_size(file), 512)"),
    cells_13("none", "only no cells refused", "cells == 0"),
    cells_13("M", "M cells enough", "cells < M"),
    cells_13("R", "R cells enough", "cells < R"),
    cells_13("M-M", "M times M cells asked for", "cells < M * M"),
    cells_13("M-plus-R", "M + R cells enough", "cells < M + R"),
    cells_13("8-each", "8 cells for every state asked for", "cells < 8 * M"),
    cells_13("512", "512 cells asked for", "cells < 512"),
    cells_13("520", "520 cells asked for", "cells < 520"),
    cells_13("8-bit", "the cells needed in 8 bits", "cells < block_size(file) % 256"),
    cells_13("8-bit-count", "the count of cells in 8 bits", "cells % 256 < block_size(file)"),
    *map(cells_13_before, mistakes.ORDER[:-1]),
    wrong("cells-cleared-first", "the cells set to 0 before the table is tried",
          (CALCULATE_ROW, f"    fill(cells)\n{CALCULATE_ROW}")),
    judged("refused-13-cells", "cells written although 13 is answered", 'result == ("refused", 13)', "fill(cells)"),
    judged("refusal-in-cells", "a refusal's number in the first cell", 'result[0] == "refused"',
           "fill(cells, 0, 1, result[1])"),
    judged("refused-16-cells", "cells written although 16 is answered", 'result == ("refused", 16)', "fill(cells)"),
    ended("cells-past-the-end-cleared", "cells past the block set to 0",
          "    fill(cells, block_size(file))\n    return result\n"),
    ended("a-cell-too-far", "a cell past the block written, where there is one",
          "    fill(cells, block_size(file), block_size(file) + 1)\n    return result\n"),
    ended("R-cells-too-far", "R cells past the moments written in version 1 too, where there are some",
          "    fill(cells, block_size(file), (model.M + 1) * model.R)\n    return result\n"),
    ended("answer-cells", "the number of cells answered", '    return ("level", block_size(file))\n'),
    ended("answer-0", "0 answered", '    return ("level", 0)\n'),
    starts("not-written", "not written", ""),
    starts("first-alone", "for r = 1 alone", "    lay(cells, [model.M * model.R], start_figures(model, cells))\n"),
    starts("from-512", "from cell 512 on", "    lay(cells, range(512, len(cells)), start_figures(model, cells))\n"),
    starts("at-the-end", "in the last cells of the slice",
           "    lay(cells, range(len(cells) - model.R, len(cells)), start_figures(model, cells))\n"),
    starts("one-later", "one cell later",
           "    lay(cells, range(model.M * model.R + 1, len(cells)), start_figures(model, cells))\n"),
    starts("before-moments", "before the moments",
           "    size = model.M * model.R\n"
           "    cells[:block_size(file)] = start_figures(model, cells) + cells[:size]\n"),
    *of_sheets(*mistakes.VERSION_2, *mistakes.START_FIGURES, *mistakes.START_CELLS[:-1], mistakes.left_out(16),
               mistakes.tested_last(16), mistakes.earlier(16, 8), mistakes.earlier(16, 7),
               *(mistakes.earlier(row, 16) for row in (9, 10, 11, 12)),
               *(entry for entry in mistakes.REFUSAL_TABLE if entry.name.startswith(("row-03-", "row-06-of"))
                 and "-row-" not in entry.name)),
)


# --- Changes that no call can show ----------------------------------------------------------------------------

EQUIVALENT = (
    border(12, "any-time", "judged on any time: by 15 the last is the largest",
           f"any(model.E * T {LIMIT} for T in times)"),
    border(12, "64-bit", "the product in 64 bits: it is below 10^7 times 2^32", f"{LAST_X} % 2**64 {LIMIT}"),
    border(15, "all-pairs", "each time held against all before it: one above the time before it is above all of them",
           "any(late <= early for k, late in enumerate(times) for early in times[:k])"),
    border(14, "past-the-eighth", "tested on what comes past the eighth time: that is the same",
           "not times or times[MOST_TIMES:]"),
    wrong("vectors-to-the-last-level", "the vectors as far as the last level: no time is known at which the level "
          "falls; where t meets its bound at n, t less its bound rises by 12 or more from X to X + 1",
          (VECTORS, VECTORS.replace("max(found)", "found[-1]"))),
    wrong("vectors-for-each-time", "the vectors worked out anew for each time, and not counted again: they do not "
          "depend on it", (WEIGHTS, f"{WEIGHTS}\n        U = reward_vectors(model, N)")),
    wrong("vectors-past-the-level", "the vectors nine steps past the largest level, where they are not used, and not "
          "counted", (VECTORS, f"{COUNTED}\n    U = reward_vectors(model, max(found) + 9)")),
    wrong("weights-past-the-level", "weights past the level, which are not used",
          (WEIGHTS, "w = weights(model.E * T, LEVEL_LIMIT)")),
    wrong("blocks-last-first", "the last block written first", (PAIRS, f"reversed(list({PAIRS}))")),
)


def by_name(entries):
    result = {}
    for entry in entries:
        if entry.name in result:
            raise ValueError(f"two wrong calls are named {entry.name}")
        result[entry.name] = entry
    return result


TABLE = {
    "calculate": by_name((*CALCULATE, *count_mistakes.CALCULATE)),
    "practice": by_name(practice_mistakes.TABLE),
    "remainders": by_name(remainders_mistakes.TABLE),
    "series": by_name((*SERIES, *count_mistakes.SERIES)),
    "to_version_1": by_name(move_mistakes.TO_VERSION_1),
    "to_version_2": by_name(move_mistakes.TO_VERSION_2),
}
LEFT_OUT = {
    "practice": practice_mistakes.EQUIVALENT,
    "remainders": remainders_mistakes.EQUIVALENT,
    "series": (*EQUIVALENT, *count_mistakes.EQUIVALENT),
    "to_version_1": move_mistakes.EQUIVALENT_1,
    "to_version_2": move_mistakes.EQUIVALENT_2,
}
