"""The wrong calls of practice for call_mistakes.py: each the reference's with one thing changed.

TABLE holds the mistakes, as those of mistakes.py; EQUIVALENT the changes that no call can show, each with the reason.
Those of a file that is written, whatever it is, come from move_mistakes.py.
"""

from mistakes import wrong
from move_mistakes import SHORT, frames, laid, rooms


# --- Parts of the reference that the entries change ------------------------------------------

FIRST = "    x = seed\n"
STEP = "x = (x * MULTIPLIER + INCREMENT) % 2**32"
DRAW = "yield x >> 16"
STREAM = "stream = draws(seed)"
TIME = "T = 1 + next(stream) // 4096"
REWARDS = "rewards = [1 + next(stream), *islice(stream, M - 1)]"
RATES = "rates = islice(stream, M * (M - 1))        # row by row, as in the file"
ROW_BY_ROW = "[list(islice(stream, M - 1)) for _ in range(M)]"
FIELDS = "bytes([M, R]) + words([10_000, T, *rewards, *rates])"
WORD = 'each.to_bytes(4, "big")'
PRACTICE = "def practice(states, highest, seed, out):"
STATES = "if not 1 <= states <= 64:"
HIGHEST = "if not 1 <= highest <= 8:"
ROW_4 = f'    {STATES}\n        return ("refused", 4)\n'
ROW_5 = f'    {HIGHEST}\n        return ("refused", 5)\n'
END = "    return written(dealt(states, highest, seed), out)\n"


# --- Helpers for the new texts -----------------------------------------------------------------------

def from_the_seed(seed, stream):
    """The draws with the seed number's own upper 16 bits as the first."""
    yield seed >> 16
    yield from stream


def flat(rows):
    return [rate for row in rows for rate in row]


def dealt_size(states):
    """The bytes of a practice file, also where there are too many states."""
    return 4 * states * states + 13


HELPERS = (from_the_seed, flat, dealt_size)


# --- The stream and its draws -----------------------------------------------------------------------------

def first(name, what, new):
    return wrong(f"seed-{name}", f"the seed number: {what}", (FIRST, f"    x = {new}\n"))


def step(name, what, new, *changes):
    return wrong(f"step-{name}", f"the step: {what}", (STEP, f"x = {new}"), *changes)


def draw(name, what, new):
    return wrong(f"draw-{name}", f"a draw: {what}", (DRAW, f"yield {new}"))


def stream(name, what, new):
    return wrong(f"stream-{name}", f"the stream: {what}", (STREAM, new))


SEEDS = (
    stream("from-the-seed", "the seed number as the first 'next', its upper 16 bits the first draw",
           "stream = from_the_seed(seed, draws(seed))"),
    *(first(f"{bits}-bits", f"cut to {bits} bits", f"seed % 2**{bits}") for bits in (8, 15, 16, 24, 31)),
    first("upper-16-bits", "its upper 16 bits alone", "seed >> 16"),
    first("0-as-1", "0 taken for 1", "seed or 1"),
    first("1-as-0", "1 taken for 0", "0 if seed == 1 else seed"),
    first("largest-as-0", "2^32 - 1 taken for 0", "seed % (2**32 - 1)"),
    first("at-most-2-31", "at most 2^31 - 1", "min(seed, 2**31 - 1)"),
    first("absolute", "with a sign that is left out", "abs(signed(seed, 32))"),
    first("odd", "made odd", "seed | 1"),
    first("one-more", "one more", "seed + 1"),
    first("one-less", "one less", "seed - 1"),
    first("complement", "every bit the other one", "seed ^ 2**32 - 1"),
    first("low-byte-first", "low byte first", "swapped_bytes(seed)"),
    first("not-used", "0 for every seed number", "0"),
    stream("with-states", "the number of states added to the seed number", "stream = draws(seed + M)"),
    stream("with-moments", "R added to the seed number", "stream = draws(seed + R)"),
    stream("with-states-and-moments", "M times R added to the seed number", "stream = draws(seed + M * R)"),
)

STEPS = (
    step("product-31-bits", "the product cut to 31 bits", "(x * MULTIPLIER % 2**31 + INCREMENT) % 2**32"),
    step("product-24-bits", "the product cut to 24 bits", "(x * MULTIPLIER % 2**24 + INCREMENT) % 2**32"),
    step("product-16-bits", "the product cut to 16 bits", "(x * MULTIPLIER % 2**16 + INCREMENT) % 2**32"),
    step("product-saturated", "a product past 32 bits as 2^32 - 1",
         "(min(x * MULTIPLIER, 2**32 - 1) + INCREMENT) % 2**32"),
    step("product-upper-half", "the product shifted down by 32 bits", "((x * MULTIPLIER >> 32) + INCREMENT) % 2**32"),
    step("sum-saturated", "a sum past 32 bits as 2^32 - 1", "min(x * MULTIPLIER % 2**32 + INCREMENT, 2**32 - 1)"),
    step("lower-half", "only the lower half of the previous number multiplied",
         "(x % 2**16 * MULTIPLIER + INCREMENT) % 2**32"),
    step("multiplier-16-bits", "the multiplier cut to 16 bits", "(x * (MULTIPLIER % 2**16) + INCREMENT) % 2**32"),
    step("increment-16-bits", "the increment cut to 16 bits", "(x * MULTIPLIER + INCREMENT % 2**16) % 2**32"),
    step("binary32", "in binary32", "int(binary32(x * MULTIPLIER + INCREMENT)) % 2**32"),
    step("16-bits", "cut to 16 bits", "(x * MULTIPLIER + INCREMENT) % 2**16"),
    step("24-bits", "cut to 24 bits", "(x * MULTIPLIER + INCREMENT) % 2**24"),
    step("31-bits", "cut to 31 bits", "(x * MULTIPLIER + INCREMENT) % 2**31"),
    step("31-bits-upper-16", "cut to 31 bits, of which the upper 16 are a draw",
         "(x * MULTIPLIER + INCREMENT) % 2**31", (DRAW, "yield x >> 15")),
    step("33-bits", "cut to 33 bits", "(x * MULTIPLIER + INCREMENT) % 2**33"),
    step("64-bits", "cut to 64 bits, a draw to 32", "(x * MULTIPLIER + INCREMENT) % 2**64",
         (DRAW, "yield (x >> 16) % 2**32")),
    step("64-bits-upper-16", "cut to 64 bits, of which the upper 16 are a draw",
         "(x * MULTIPLIER + INCREMENT) % 2**64", (DRAW, "yield x >> 48")),
    step("not-cut", "not cut, a draw all that stands above 16 bits, in 32", "x * MULTIPLIER + INCREMENT",
         (DRAW, "yield (x >> 16) % 2**32")),
    step("2-32-less-1", "cut by 2^32 - 1", "(x * MULTIPLIER + INCREMENT) % (2**32 - 1)"),
    step("no-increment", "without the increment", "x * MULTIPLIER % 2**32"),
    step("no-multiplier", "without the multiplier", "(x + INCREMENT) % 2**32"),
    step("multiplier-of-C", "the multiplier 1103515245", "(x * 1103515245 + INCREMENT) % 2**32"),
    step("of-C", "the multiplier 1103515245 and the increment 12345", "(x * 1103515245 + 12345) % 2**32"),
    step("increment-of-C", "the increment 12345", "(x * MULTIPLIER + 12345) % 2**32"),
    step("increment-1", "the increment 1", "(x * MULTIPLIER + 1) % 2**32"),
    step("multiplier-one-less", "the multiplier one less", "(x * (MULTIPLIER - 1) + INCREMENT) % 2**32"),
    step("multiplier-one-more", "the multiplier one more", "(x * (MULTIPLIER + 1) + INCREMENT) % 2**32"),
    step("multiplier-digits", "the multiplier 1664252", "(x * 1664252 + INCREMENT) % 2**32"),
    step("increment-one-less", "the increment one less", "(x * MULTIPLIER + INCREMENT - 1) % 2**32"),
    step("increment-one-more", "the increment one more", "(x * MULTIPLIER + INCREMENT + 1) % 2**32"),
    step("increment-digits", "the increment 1013904233", "(x * MULTIPLIER + 1013904233) % 2**32"),
    step("exchanged", "multiplier and increment exchanged", "(x * INCREMENT + MULTIPLIER) % 2**32"),
    step("increment-first", "the increment added before the product", "(x + INCREMENT) * MULTIPLIER % 2**32"),
    step("increment-subtracted", "the increment subtracted", "(x * MULTIPLIER - INCREMENT) % 2**32"),
    step("increment-by-bits", "the increment put in bit by bit, without carries",
         "(x * MULTIPLIER ^ INCREMENT) % 2**32"),
    step("from-the-draw", "made from the draw before it", "((x >> 16) * MULTIPLIER + INCREMENT) % 2**32"),
    step("twice", "two steps for each draw", "((x * MULTIPLIER + INCREMENT) * MULTIPLIER + INCREMENT) % 2**32"),
)

DRAWS = (
    wrong("draw-before-the-step", "a draw before the step",
          (f"{STEP}\n        {DRAW}", f"{DRAW}\n        {STEP}")),
    draw("lower-16-bits", "the lower 16 bits", "x % 2**16"),
    draw("middle-bits", "the 16 bits in the middle", "x >> 8 & 0xFFFF"),
    draw("upper-15-bits", "the upper 15 bits", "x >> 17"),
    draw("upper-17-bits", "the upper 17 bits", "x >> 15"),
    draw("15-bits", "the upper 16 bits without the first", "x >> 16 & 0x7FFF"),
    draw("from-bit-1", "16 bits behind the first", "x >> 15 & 0xFFFF"),
    draw("upper-8-bits", "the upper 8 bits", "x >> 24"),
    draw("all-bits", "all 32 bits", "x"),
    draw("low-byte-first", "its two bytes exchanged", "(x >> 24) + (x >> 16 & 0xFF) * 256"),
    draw("halves-added", "the upper 16 bits with the lower ones put in", "(x >> 16) ^ x % 2**16"),
    draw("signed-shift", "a shift with the sign, in 32 bits", "(signed(x, 32) >> 16) % 2**32"),
    draw("signed-quotient", "a quotient with the sign, in 16 bits",
         "int(signed(x, 32) / 2**16) % 2**16"),
    draw("signed-absolute", "a shift with the sign, which is left out", "abs(signed(x, 32) >> 16)"),
    draw("nearest", "rounded to the nearest", "(x + 2**15 >> 16) % 2**16"),
    draw("up", "rounded up", "-(-x >> 16) % 2**16"),
    draw("over-65535", "the stream over 65,535", "x // 65535 % 2**16"),
    draw("as-a-share", "the stream as a share of 65,535", "x * 65535 // 2**32"),
    draw("rest", "what the stream leaves by 65,535", "x % 65535"),
    draw("at-least-1", "0 as 1", "(x >> 16) or 1"),
    stream("first-left-out", "a draw for the tolerance too, before that of the time", f"{STREAM}\n    next(stream)"),
    stream("header-drawn", "a draw for each field before the time", f"{STREAM}\n    list(islice(stream, 4))"),
    wrong("stream-tolerance-after-time", "a draw for the tolerance too, behind that of the time",
          (TIME, f"{TIME}\n    next(stream)")),
    wrong("stream-anew-for-rewards", "the stream begun anew for the rewards", (TIME, f"{TIME}\n    {STREAM}")),
    wrong("stream-anew-for-rates", "the stream begun anew for the rates", (REWARDS, f"{REWARDS}\n    {STREAM}")),
    wrong("stream-anew-for-each-row", "the stream begun anew for each row of rates",
          (RATES, "rates = [*islice(draws(seed), M - 1)] * M")),
)


# --- The fields of the file -----------------------------------------------------------------------------------

def time(name, what, new):
    return wrong(f"time-{name}", f"the time: {what}", (TIME, f"T = {new}"))


def rewards(name, what, new):
    return wrong(f"rewards-{name}", f"the rewards: {what}", (REWARDS, f"rewards = {new}"))


def rates(name, what, new, *changes):
    return wrong(f"rates-{name}", f"the rates: {what}", (RATES, f"rates = {new}"), *changes)


def fields(name, what, new):
    return wrong(name, what, (FIELDS, new))


LATE_TIME = f"rates = list(islice(stream, M * (M - 1)))\n    {TIME}"
NO_MORE = (REWARDS, "rewards = list(islice(stream, M))")
FIELD_MISTAKES = (
    time("over-4095", "the draw over 4,095", "1 + next(stream) // 4095"),
    time("over-4097", "the draw over 4,097", "1 + next(stream) // 4097"),
    time("over-4000", "the draw over 4,000", "1 + next(stream) // 4000"),
    time("over-2048", "the draw over 2,048", "1 + next(stream) // 2048"),
    time("over-8192", "the draw over 8,192", "1 + next(stream) // 8192"),
    time("without-1", "without the 1", "next(stream) // 4096"),
    time("at-least-1", "without the 1, and 1 in the place of 0", "next(stream) // 4096 or 1"),
    time("2-more", "2 in the place of the 1", "2 + next(stream) // 4096"),
    time("1-before-division", "the 1 added to the draw", "(1 + next(stream)) // 4096"),
    time("1-before-and-behind", "the 1 added to the draw too", "1 + (1 + next(stream)) // 4096"),
    time("up", "rounded up", "1 - -next(stream) // 4096"),
    time("nearest", "rounded to the nearest", "1 + (next(stream) + 2048) // 4096"),
    time("at-most-15", "at most 15", "min(15, 1 + next(stream) // 4096)"),
    time("rest", "1 and what the draw leaves by 4,096", "1 + next(stream) % 4096"),
    time("lower-bits", "1 and the lowest four bits of the draw", "1 + next(stream) % 16"),
    time("draw", "1 and the whole draw", "1 + next(stream)"),
    time("always-1", "always 1, and no draw for it", "1"),
    time("always-1-drawn", "always 1, and yet a draw for it", "next(stream) and 1 or 1"),
    wrong("time-behind-rewards", "the time drawn behind the rewards", (f"    {TIME}\n", ""),
          (REWARDS, f"{REWARDS}\n    {TIME}")),
    wrong("time-last", "the time drawn last", (f"    {TIME}\n", ""), (RATES, LATE_TIME)),
    rewards("none-plus-1", "none plus 1", "list(islice(stream, M))"),
    rewards("each-plus-1", "each plus 1", "[1 + each for each in islice(stream, M)]"),
    rewards("last-plus-1", "the last plus 1", "[*islice(stream, M - 1), 1 + next(stream)]"),
    rewards("first-at-least-1", "the first plus 1 only where it is 0", "[next(stream) or 1, *islice(stream, M - 1)]"),
    rewards("first-at-most-65535", "the first at most 65,535",
            "[min(65535, 1 + next(stream)), *islice(stream, M - 1)]"),
    rewards("first-16-bits", "the first, with its 1, in 16 bits",
            "[(1 + next(stream)) % 2**16, *islice(stream, M - 1)]"),
    rewards("first-1", "the first 1, and no draw for it", "[1, *islice(stream, M - 1)]"),
    rewards("first-1-drawn", "the first 1, and yet a draw for it", "[next(stream) and 1 or 1, *islice(stream, M - 1)]"),
    rewards("first-2-more", "the first plus 2", "[2 + next(stream), *islice(stream, M - 1)]"),
    rewards("first-two-plus-1", "the first two plus 1",
            "[each + (k < 2) for k, each in enumerate(islice(stream, M))]"),
    rewards("falling", "drawn from the last state to the first",
            "(lambda drawn: [1 + drawn[0], *drawn[1:]])(list(islice(stream, M))[::-1])"),
    rates("first-plus-1", "the first plus 1 in the place of the first reward",
          "[each + (k == 0) for k, each in enumerate(islice(stream, M * (M - 1)))]", NO_MORE),
    rates("first-plus-1-too", "the first plus 1 as well",
          "[each + (k == 0) for k, each in enumerate(islice(stream, M * (M - 1)))]"),
    rates("each-plus-1", "each plus 1", "[each + 1 for each in islice(stream, M * (M - 1))]"),
    rates("with-diagonal", "a draw for each diagonal entry too, which the file leaves out",
          "[each for k, each in enumerate(islice(stream, M * M)) if k % (M + 1)]"),
    rates("with-diagonal-in-file", "the diagonal drawn and put into the file", "islice(stream, M * M)"),
    rates("by-columns", "drawn column by column", f"flat(by_columns({ROW_BY_ROW}))"),
    rates("j-falling", "those of a row drawn from the last j to the first",
          f"flat(row[::-1] for row in {ROW_BY_ROW})"),
    rates("i-falling", "the rows drawn from the last state to the first", f"flat({ROW_BY_ROW}[::-1])"),
    rates("falling", "drawn from the last to the first", "list(islice(stream, M * (M - 1)))[::-1]"),
    rates("one-for-each-row", "one draw for each row", "flat([next(stream)] * (M - 1) for _ in range(M))"),
    rates("same-both-ways", "one draw for both ways between two states",
          "(lambda drawn: flat([drawn[min(i, j), max(i, j)] for j in range(M) if j != i] for i in range(M)))("
          "{(i, j): next(stream) for i in range(M) for j in range(i + 1, M)})"),
    rates("15-bits", "in 15 bits", "[each % 2**15 for each in islice(stream, M * (M - 1))]"),
    rates("last-0", "the last 0", "[*islice(stream, M * (M - 1) - 1), 0] if M > 1 else []"),
    wrong("rates-before-rewards", "the rates drawn before the rewards",
          (REWARDS, f"rates = list(islice(stream, M * (M - 1)))\n    {REWARDS}"), (f"    {RATES}\n", "")),
    wrong("rates-with-their-reward", "each reward drawn with the rates of its state",
          (REWARDS, "drawn = [[next(stream), *islice(stream, M - 1)] for _ in range(M)]\n"
                    "    rewards = [row[0] + (k == 0) for k, row in enumerate(drawn)]"),
          (RATES, "rates = flat(row[1:] for row in drawn)")),
    fields("rates-put-first", "the rates put before the rewards",
           "bytes([M, R]) + words([10_000, T, *rates, *rewards])"),
    fields("moments-one-less", "R one less", "bytes([M, R - 1]) + words([10_000, T, *rewards, *rates])"),
    fields("moments-1", "R always 1", "bytes([M, 1]) + words([10_000, T, *rewards, *rates])"),
    *(fields(f"tolerance-{tolerance}", f"the tolerance {tolerance:,}",
             f"bytes([M, R]) + words([{tolerance}, T, *rewards, *rates])")
      for tolerance in (0, 10, 1_000, 9_999, 10_001, 100_000, 10_000_000)),
    fields("tolerance-low-byte-first", "the tolerance low byte first",
           "bytes([M, R]) + words([swapped_bytes(10_000), T, *rewards, *rates])"),
    fields("time-low-byte-first", "the time low byte first",
           "bytes([M, R]) + words([10_000, swapped_bytes(T), *rewards, *rates])"),
    fields("rewards-low-byte-first", "the rewards low byte first",
           "bytes([M, R]) + words([10_000, T, *map(swapped_bytes, rewards), *rates])"),
    fields("rates-low-byte-first", "the rates low byte first",
           "bytes([M, R]) + words([10_000, T, *rewards, *map(swapped_bytes, rates)])"),
    wrong("numbers-low-byte-first", "numbers of four bytes low byte first", (WORD, WORD.replace("big", "little"))),
    wrong("numbers-16-bits", "numbers of four bytes in 16 bits", (WORD, f"(each % 2**16).{WORD[5:]}")),
    wrong("numbers-two-bytes", "numbers of two bytes", (WORD, '(each % 2**16).to_bytes(2, "big")')),
    wrong("version-2", "the version byte 2", (f"framed(1, {FIELDS})", f"framed(2, {FIELDS})")),
    wrong("version-2-with-weights", "a version 2 file, all weight on state 1",
          (f"return framed(1, {FIELDS})", f"return as_version_2(framed(1, {FIELDS}))")),
)


# --- The refusal table -----------------------------------------------------------------------------------------

def before_all(name, what, new):
    return wrong(name, what, (ROW_4, f"    {new}\n{ROW_4}"))


def limits(row, number, text, limit):
    """Row 4 or 5 with another limit, or judged by fewer bits of its number."""
    for name, what, new in (
            ("one-more", f"{limit + 1} let through", f"if not 1 <= {number} <= {limit + 1}:"),
            ("one-less", f"{limit} refused", f"if not 1 <= {number} < {limit}:"),
            ("0", "0 let through", f"if not 0 <= {number} <= {limit}:"),
            ("from-2", "1 refused", f"if not 2 <= {number} <= {limit}:"),
            ("to-255", "only what is no byte refused", f"if not 1 <= {number} <= 255:")):
        yield wrong(f"row-{row:02d}-{name}", f"row {row}: {what}", (text, new))
    for bits in (8, 16, 31, 32):
        yield before_all(f"{number}-{bits}-bits", f"{number} cut to {bits} bits", f"{number} %= 2**{bits}")
    yield before_all(f"{number}-signed", f"{number} with a sign that is left out",
                     f"{number} = abs(signed({number}, 64))")


def too_short(name, what, test, row=ROW_4):
    return wrong(f"row-13-{name}", f"row 13 {what}", (row, f'    if {test}:\n        return ("refused", 13)\n{row}'))


def answered(row, text, other):
    return wrong(f"row-{row:02d}-as-{other}", f"row {row} answered with {other}",
                 (text, text.replace(f'"refused", {row}', f'"refused", {other}')))


REFUSALS = (
    *limits(4, "states", STATES, 64),
    *limits(5, "highest", HIGHEST, 8),
    wrong("limits-exchanged", "the limits of states and moments exchanged",
          (STATES, STATES.replace("64", "8")), (HIGHEST, HIGHEST.replace("8", "64"))),
    wrong("row-05-before-04", "row 5 tested before row 4", (ROW_4 + ROW_5, ROW_5 + ROW_4)),
    wrong("row-05-for-no-states", "row 5 tested before row 4 where there are no states",
          (STATES, f"{STATES[:-1]} and (states or 1 <= highest <= 8):")),
    wrong("row-05-for-too-many-states", "row 5 tested before row 4 where there are too many states",
          (STATES, f"{STATES[:-1]} and (states == 0 or 1 <= highest <= 8):")),
    too_short("before-04", "tested before row 4", "len(out) < dealt_size(states)"),
    too_short("before-05", "tested before row 5", "len(out) < dealt_size(states)", ROW_5),
    too_short("no-bytes-first", "tested before all else where no byte is lent", "not out"),
    too_short("no-bytes-before-05", "tested before row 5 where no byte is lent", "not out", ROW_5),
    too_short("17-bytes-first", "tested before all else for fewer than 17 bytes", "len(out) < 17"),
    answered(4, ROW_4, 5),
    answered(4, ROW_4, 6),
    answered(5, ROW_5, 4),
    answered(5, ROW_5, 6),
    wrong("row-13-as-6", "row 13 answered with 6",
          (f'{SHORT}\n        return ("refused", 13)', f'{SHORT}\n        return ("refused", 6)')),
    *rooms(),
    wrong("row-13-cells", "row 13 by M R, the cells that the file takes", (SHORT, "if len(out) < file[3] * file[4]:")),
    wrong("row-13-version-2", "row 13 by the length of version 2", (SHORT, "if len(out) < len(file) + 4 * file[3]:")),
    wrong("row-13-numbers", "row 13 by the numbers of the file, not its bytes",
          (SHORT, "if len(out) < file[3]**2 + 7:")),
    wrong("exchanged", "M and R exchanged", (END, END.replace("states, highest", "highest, states"))),
    wrong("exchanged-first", "M and R exchanged before they are judged",
          (PRACTICE, PRACTICE.replace("states, highest", "highest, states"))),
)


# --- What is written, what is answered --------------------------------------------------------------------------

def marked(row, text):
    return wrong(f"refused-{row}-written", f"a byte written although {row} is answered",
                 (text, text.replace("        return", "        mark(out)\n        return")))


WRITTEN = (
    marked(4, ROW_4),
    marked(5, ROW_5),
    wrong("refused-5-dealt", "the file written although 5 is answered",
          (HIGHEST, f"{HIGHEST}\n        written(dealt(states, highest % 2**8, seed), out)")),
    before_all("cleared-first", "all bytes set to 0 before the table is tried", "out[:] = bytes(len(out))"),
    wrong("header-first", "the header written before 13 is tried",
          (END, f"    out[:13] = dealt(states, highest, seed)[:min(13, len(out))]\n{END}")),
    *laid(),
    *frames(),
)

TABLE = (*SEEDS, *STEPS, *DRAWS, *FIELD_MISTAKES, *REFUSALS, *WRITTEN)


# --- Changes that no call can show -------------------------------------------------------------------------------

EQUIVALENT = (
    step("cut-at-the-draw", "the stream never cut, but each draw to 16 bits: the lower 32 bits do not depend on those "
         "above", "x * MULTIPLIER + INCREMENT", (DRAW, "yield (x >> 16) % 2**16")),
    step("binary64", "in binary64: product and sum are below 2^53",
         "int(float(x) * float(MULTIPLIER) + float(INCREMENT)) % 2**32"),
    step("signed", "with a sign, cut to 32 bits at the draw", "signed(x * MULTIPLIER + INCREMENT, 32)",
         (DRAW, "yield x % 2**32 >> 16")),
    step("cut-twice", "the product cut as well", "(x * MULTIPLIER % 2**32 + INCREMENT) % 2**32"),
    first("signed", "with a sign: it is the same in 32 bits", "signed(seed, 32)"),
    draw("signed-16-bits", "a shift with the sign, cut to 16 bits", "(signed(x, 32) >> 16) % 2**16"),
    time("shifted", "the draw shifted by 12 bits", "1 + (next(stream) >> 12)"),
    time("1-as-4096", "4,096 added to the draw", "(4096 + next(stream)) // 4096"),
    wrong("row-13-before-dealing", "row 13 judged by M", (END, END.replace(
        "written(", '("refused", 13) if len(out) < 4 * states * states + 13 else written('))),
)
