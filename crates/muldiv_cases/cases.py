#!/usr/bin/env python3
"""Cases for muldiv: the table in src/cases.rt and the expected output in stdout.

Run from the root of the repository:

    python3 crates/muldiv_cases/cases.py && (cd crates/muldiv_cases && rt fmt)

Python's whole numbers have no width, so a division is one expression here.
"""

import os
import random

LIMIT = 2**62  # a, b and c stay below this
WIDE = 2**64  # and the quotient below this


def line(quotient, remainder):
    return "%d %d" % (quotient, remainder)


def expected(a, b, c):
    if c == 0 or a >= LIMIT or b >= LIMIT or c >= LIMIT:
        return "none"
    quotient, remainder = divmod(a * b, c)
    return "none" if quotient >= WIDE else line(quotient, remainder)


def cases():
    top = LIMIT - 1
    rows = [
        # small ones: a or b is 0, odd and even b, exact and not
        (0, 0, 1), (0, 5, 7), (5, 0, 7), (0, top, top), (top, 0, 1),
        (1, 1, 1), (7, 3, 2), (7, 4, 2), (7, 5, 3), (100, 99, 100), (6, 6, 37),
        # c is 0
        (0, 0, 0), (1, 1, 0), (top, top, 0), (LIMIT, 1, 0),
        # a, b and c on both sides of 2^62
        (top, 1, 1), (LIMIT, 1, 1), (1, top, 1), (1, LIMIT, 1), (1, 1, top), (1, 1, LIMIT),
        (top, top, top), (LIMIT, top, top), (top, LIMIT, top), (top, top, LIMIT), (top, top, top - 1),
        (LIMIT, 0, 1), (0, LIMIT, 1), (0, 0, LIMIT),
        (WIDE - 1, 1, 1), (1, WIDE - 1, 1), (1, 1, WIDE - 1), (WIDE - 1, WIDE - 1, WIDE - 1),
        # a quotient of 2^64 - 1, of 2^64 and near them
        (15, (WIDE - 1) // 15, 1), (5, (WIDE - 1) // 5, 1), (2**32 - 1, 2**32 + 1, 1),
        (2**32, 2**32, 1), (4, 2**61, 1), (8, 2**61, 1), (2**61, 8, 1), (2**61, 7, 1),
        (2**33, 2**33, 4), (2**33, 2**33, 5), (2**33 + 1, 2**33 + 1, 4), (10 * (2**32 - 1), 2**32 + 1, 10),
        (10 * (2**32 - 1) + 9, 2**32 + 1, 10), (top, 4, 1), (top, 5, 1), (top, top, 2**60 - 1), (top, top, 2**60),
        (top, top, 2**60 + 1), (top, 9, 2), (top, 8, 2),
        # products past 64 bits, as the calculator has them
        (10**15, 10**12, 10**12), (166666666666666, 499999999999, 10**12),
        (2666666666666666, 100000000, 10**9), (10**15, 256000000, 256 * 10**6),
        (10**18, 10**12, 10**15 + 7), (3 * 10**17, 10**12, 2718281828459045),
    ]
    dice = random.Random(62)
    for bits_a, bits_b, bits_c in ((62, 62, 62), (62, 40, 50), (50, 40, 40), (40, 62, 41), (62, 62, 60), (62, 62, 59), (61, 33, 30), (55, 55, 48)):
        rows += [tuple(dice.getrandbits(bits) for bits in (bits_a, bits_b, bits_c)) for _ in range(3)]
    # a quotient of 2^64 - 1 that leaves a remainder, and the same with one more in b, which is 2^64 or more
    found = 0
    while found < 4:
        a, c = dice.getrandbits(60), dice.getrandbits(57)
        b = (WIDE * c - 1) // a
        if b < LIMIT and a * b // c == WIDE - 1 and a * b % c > 0:
            rows += [(a, b, c), (a, b + 1, c)]
            found += 1
    return rows


def terms():
    """w up to 10^15 and u up to 10^12, for w * u by 10^12."""
    most_w, most_u, part = 10**15, 10**12, 10**6
    rows = [
        (0, 0), (0, most_u), (most_w, 0), (1, most_u), (most_w, 1), (most_w, most_u), (most_w - 1, most_u - 1), (1, most_u - 1),
        # the parts: none below 10^6, none above it, one below the next
        (part, part), (part - 1, part - 1), (part + 1, part - 1), (part - 1, part + 1), (part * part, part), (part, part * part - 1),
        # file B
        (166666666666666, 499999999999), (500000000000000, 333333333333),
    ]
    # where one of the three carries alone decides the last digit: of the lower parts, of each middle product
    dice = random.Random(12)
    wanted = {"carry": 4, "first": 4, "second": 4}
    while any(wanted.values()):
        w, u = dice.randrange(most_w + 1), dice.randrange(most_u + 1)
        (w1, w0), (u1, u0) = divmod(w, part), divmod(u, part)
        full = (w1 * u0 + w0 * u1 + w0 * u0 // part) // part
        less = {"carry": (w1 * u0 + w0 * u1) // part, "first": (w0 * u1 + w0 * u0 // part) // part, "second": (w1 * u0 + w0 * u0 // part) // part}
        kind = dice.choice(list(wanted))
        if wanted[kind] and less[kind] != full:
            wanted[kind] -= 1
            rows.append((w, u))
    return rows


def table(name, rows):
    kind = ", ".join("u64" for _ in rows[0])
    return "pub const %s: [(%s); %d] = [\n%s];\n" % (name, kind, len(rows), "".join("    %s,\n" % (row,) for row in rows))


def main():
    here = os.path.dirname(os.path.abspath(__file__))
    rows, pairs = cases(), terms()
    with open(os.path.join(here, "src", "cases.rt"), "w") as out:
        out.write("// Made by cases.py: a, b and c of each case of mul_div, and w and u of each case of over_trillion.\n")
        out.write(table("DIVISIONS", rows) + "\n" + table("TERMS", pairs))
    with open(os.path.join(here, "stdout"), "w") as out:
        out.writelines(expected(*row) + "\n" for row in rows)
        out.writelines(line(*divmod(w * u, 10**12)) + "\n" for w, u in pairs)


main()
