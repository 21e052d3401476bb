#!/usr/bin/env python3
"""Makes stdout, the sheets that src/main.rt writes, with Python's own formatting: python3 cases.py > stdout"""

ONE = 10**12


def sheet(level, states, highest, block, cells):
    lines = [f"level {level}"]
    for k in range(block):
        i, r = divmod(k, highest)
        whole, rest = divmod(cells[k], ONE)
        lines.append(f"{i + 1 if i < states else 'start'} {r + 1} {whole}.{rest:012d}")
    return "".join(line + "\n" for line in lines)


def refused(rule):
    return f"refused {rule}\n"


B = [718750000000, 612500000000, 281250000000, 175000000000, 390625000000, 284375000000]
FIGURES = [k * 1923076921 for k in range(520)]

print(
    sheet(3, 2, 2, 4, B)
    + sheet(3, 2, 2, 6, B)
    + sheet(1, 1, 1, 1, [ONE])
    + refused(3)
    + refused(12)
    + refused(255)
    + sheet(1024, 64, 8, 520, FIGURES)
    + sheet(99, 3, 3, 9, FIGURES)
    + sheet(100, 0, 8, 8, FIGURES)
    + sheet(0, 64, 0, 0, FIGURES)
    + sheet(2**64 - 1, 1, 8, 8, FIGURES),
    end="",
)
