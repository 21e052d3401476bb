#!/usr/bin/env python3
"""Writes stdin and stdout: the cases that are judged, and the rows that stop each (0: none): the file's
alone, and the file's with a list of times.

The answers are computed here from the table of document 01 and those of S-3 and S-5 alone. Where a file is
short enough for the printed sheet its own answer is also held to the independent reference, which is run as a
program; it lends 520 cells, so row 13 is this page's own, and so is every answer with a list.
"""
import os
import random
import subprocess
import sys

HERE = os.path.dirname(os.path.abspath(__file__))
REFERENCE = os.path.join(HERE, '..', '..', 'reference', 'calculator.py')
SHEET = 16654  # the bytes that the sheet's program reads
CELLS = 520    # the cells that it lends


def number(value, width=4):
    return value.to_bytes(width, 'big')


def model(states=1, highest=1, tolerance=10000, time=1, rewards=None, rates=None, weights=()):
    """A file's bytes, of version 2 where it has weights; rates holds row after row, the diagonal left out."""
    body = bytes([2 if weights else 1, states, highest]) + number(tolerance) + number(time)
    body += b''.join(number(a) for a in weights)
    body += b''.join(number(f) for f in (rewards or [1] * states))
    body += b''.join(number(c) for c in (rates or [0] * (states * (states - 1))))
    return number(len(body), 2) + body


def put(file, at, part):
    return file[:at] + part + file[at + len(part):]


def measured(file):
    """The same bytes, with the length that they have."""
    return put(file, 0, number(len(file) - 2, 2))


def row(file, cells, times=None, levels=None):
    """The first row of the table that holds, or 0; with a list of times, of the table of a series."""
    def big(at, width=4):
        return int.from_bytes(file[at:at + width], 'big')

    if len(file) < 13:
        return 1
    if big(0, 2) != len(file) - 2:
        return 2
    if file[2] not in (1, 2):
        return 3
    m, r = file[3], file[4]
    if m == 0 or m > 64:
        return 4
    if r == 0 or r > 8:
        return 5
    weights = m if file[2] == 2 else 0
    if big(0, 2) != 4 * m * m + 4 * weights + 11:
        return 6
    if big(5) == 0 or big(5) > 100_000_000:
        return 7
    if big(9) == 0 or (times and times[0] == 0):
        return 8
    if weights and sum(big(13 + 4 * i) for i in range(m)) != 1_000_000:
        return 16
    rewards = [big(13 + 4 * (weights + i)) for i in range(m)]
    if max(rewards) > 1_000_000:
        return 9
    if max(rewards) == 0:
        return 10
    at = 13 + 4 * (weights + m)
    sums = [sum(big(at + 4 * ((m - 1) * i + k)) for k in range(m - 1)) for i in range(m)]
    if max(sums) > 10_000_000:
        return 11
    last, blocks = big(9), 1
    if times is not None:
        if not 1 <= len(times) <= 8:
            return 14
        if any(later <= time for time, later in zip(times, times[1:])):
            return 15
        last, blocks = times[-1], len(times)
    if max(1, max(sums)) * last > 256_000_000:
        return 12
    if cells < blocks * (m + (1 if weights else 0)) * r:
        return 13
    if times is not None and levels < len(times):
        return 13
    return 0


A = bytes.fromhex('000F0101010000271000000001' + '00000005')
B = bytes.fromhex('001B01020205F5E10000000001' + '0000000100000000000F4240000F4240')
B_REWARDS, B_RATES = 13, 21

cases = []  # a file, its number of cells, a list of times and the number of its level cells


def add(*files, cells=CELLS, times=(1,), levels=8):
    cases.extend((file, cells, times, levels) for file in files)


# the table's small examples, row by row, then A and B
add(b'', A[:-1], put(A, 2, b'\x02'), put(A, 3, b'\x00'), put(A, 4, b'\x09'), put(A, 3, b'\x02'))
add(put(A, 5, number(0)), put(A, 9, number(0)), put(A, 13, number(1_000_001)), put(A, 13, number(0)))
add(put(B, B_RATES, number(10_000_001)), put(B, 9, number(257)))
add(B, cells=3)
add(A, B)
# hand-checked files
add(put(B, B_REWARDS, number(0) * 2), put(put(B, 2, b'\x09'), 3, b'\x00'), put(B, 5, number(100_000_001)))
add(put(B, 9, number(256)), put(B, B_RATES, number(10_000_000)), put(B, 5, number(1)))
add(B, cells=4)

# lengths: none, too short, the header alone, the longest, one more, and past any length field
full = model(64, 1, rates=[(7 * k) % 1000 for k in range(64 * 63)], rewards=[k for k in range(64)])
add(b'\x00', b'\x00\x00', A[:12], A[:13], put(A[:13], 0, number(11, 2)), full, full + b'\x00', measured(full + b'\x00'))
for size in (65537, 65538):
    add(put(full + bytes(size - len(full)), 0, number((size - 2) % 65536, 2)))

# borders: 64 and 65 states, R 8 and 9, tolerance, reward, row sum, E times T, cells
add(model(65), put(A, 3, b'\x41'), put(A, 3, b'\xff'))
add(put(A, 4, b'\x08'), put(A, 4, b'\x00'), put(A, 4, b'\xff'))
add(put(A, 5, number(100_000_000)), put(A, 5, number(100_000_001)), put(A, 5, number(2**32 - 1)))
add(put(A, 13, number(1_000_000)), put(A, 13, number(2**32 - 1)), put(B, B_REWARDS + 4, number(1_000_000)), put(B, B_REWARDS + 4, number(1_000_001)))
for last in (5_000_000, 5_000_001):
    rates = [1, 2, 3, 4, 5_000_000, last]
    add(model(3, rates=rates), model(3, rates=rates[4:] + rates[:4]))
add(model(64, rates=[2**32 - 1] * (64 * 63)))
add(put(A, 9, number(256_000_000)), put(A, 9, number(256_000_001)), put(A, 9, number(2**32 - 1)))
add(put(put(B, B_RATES, number(10_000_000)), 9, number(25)), put(put(B, B_RATES, number(10_000_000)), 9, number(26)))
add(put(put(B, B_RATES, number(10_000_000)), 9, number(2**32 - 1)))
for cells in (511, 512):
    add(put(full, 4, b'\x08'), cells=cells)
for cells in (0, 1):
    add(A, cells=cells)
add(b'', A[:-1], put(A, 4, b'\x09'), cells=0)

# the order: each file is held by its row and by later ones
file = put(B, 9, number(257))
add(file, cells=3)
file = put(file, B_RATES, number(10_000_001))
add(file, put(file, B_REWARDS, number(0) * 2), cells=3)
for at, part in ((B_REWARDS, number(1_000_001)), (9, number(0)), (5, number(0))):
    file = put(file, at, part)
    add(file, cells=3)
file = measured(file + number(0))
add(file, cells=3)
for at, part in ((4, b'\x09'), (3, b'\x00'), (2, b'\x09'), (0, number(0, 2))):
    file = put(file, at, part)
    add(file, cells=3)
add(file[:12], cells=3)

# the list: how many times, where it starts, whether it falls, at the first, the last and a middle time
rising = tuple(range(1, 17))
for times in ((), rising[:1], rising[:2], rising[:7], rising[:8], rising[:9], rising):
    add(A, B, times=times)
for times in ((0,), (0, 1), (0, 0), (0,) + rising[:8], (1, 0), (2, 1), (2, 2), (1, 2, 2), (1, 3, 2), (1, 3, 2, 4), (3, 2, 4)):
    add(B, times=times)
for times in (rising[:7] + (7,), rising[:7] + (1,), (1,) + rising[:7], rising[:4] + rising[3:7], rising[::-1], (1,) * 9):
    add(B, times=times)
# its last time alone, up to the largest number; the file's time has no part
for times in ((256,), (257,), (1, 256), (1, 257), (255, 256, 257), (2**31, 2**32 - 1), (2**32 - 1,), (2**32 - 2, 2**32 - 1)):
    add(B, put(B, 9, number(257)), put(B, 9, number(0)), times=times)
for times in ((1, 256_000_000), (1, 256_000_001), (256_000_000, 256_000_001), (2**32 - 1, 1)):
    add(A, times=times)
add(put(B, B_RATES, number(10_000_000)), times=(24, 25))
add(put(B, B_RATES, number(10_000_000)), times=(25, 26))
# its room: the blocks, and the levels
for count in (1, 2, 8):
    for cells in (4, 4 * count - 1, 4 * count):
        for levels in (0, 1, count - 1, count, 2**32 - 1):
            add(B, cells=cells, times=rising[:count], levels=levels)
for cells in (4095, 4096):
    add(put(full, 4, b'\x08'), cells=cells, times=rising[:8])

# the order with a list: each case is held by its row and by later ones
held = dict(cells=3, levels=0)
add(B, times=(257,), **held)
add(B, times=(256, 257, 257), **held)
add(B, times=(0, 257, 257), **held)
for times in ((), (300,) * 9, rising[::-1], (0,) * 9):
    file = put(B, 9, number(257))
    add(file, put(file, B_RATES, number(10_000_001)), put(file, B_REWARDS, number(0) * 2), put(file, B_REWARDS, number(1_000_001)), times=times, **held)
    add(put(file, 9, number(0)), put(file, 5, number(0)), file[:-1], b'', times=times, **held)

# version 2: its length, its version, its weights' sum up to the largest, and its room
START = model(2, 2, 100_000_000, rewards=[1, 0], rates=[1_000_000] * 2, weights=[250_000, 750_000])
START_REWARDS = 21
add(START, put(START, 2, b'\x01'), put(START, 2, b'\x03'), put(START, 2, b'\x00'), put(B, 2, b'\x02'), START[:-1])
many = dict(states=64, highest=8, rates=[(7 * k) % 1000 for k in range(64 * 63)], rewards=range(64))
for weights in ([999_999], [1_000_000], [1_000_001], [0], [2**32 - 1]):
    add(model(weights=weights))
for weights in ([0, 1_000_000], [1_000_000, 0], [1, 999_999], [1, 1_000_000], [2**32 - 1, 1_000_001], [2**31, 2**31 + 1_000_000]):
    add(put(START, 13, b''.join(map(number, weights))))
for weights in ([2**32 - 1] * 64, [2**26] * 63 + [2**26 + 1_000_000]):
    add(model(weights=weights, **many))
for cells in (3, 4, 5, 6):
    add(START, cells=cells)
full = model(weights=[15_625] * 64, **many)
for cells in (512, 519, 520):
    add(full, cells=cells)
for cells in (4159, 4160):
    add(full, cells=cells, times=rising[:8])
for cells in (11, 12):
    add(START, cells=cells, times=(1, 2))
add(full + b'\x00', measured(full + b'\x00'))
# the order of 16: before it 7 and 8, after it 9 to 13, 14 and 15
off = put(START, 13, number(250_001))
for at, part in ((5, number(0)), (9, number(0)), (9, number(257)), (START_REWARDS, number(1_000_001)), (START_REWARDS, number(0) * 2), (START_REWARDS + 8, number(10_000_001))):
    for times in ((1,), (0, 1), (), (2, 1), (257,)):
        add(put(off, at, part), put(START, at, part), times=times, cells=5)

# bytes changed at random
random.seed(1)
for _ in range(300):
    file = random.choice([A, B, START, model(3, 2, rates=[1, 0, 2, 3, 0, 4]), model(3, 2, rates=[1, 0, 2, 3, 0, 4], weights=[500_000, 0, 500_000])])
    for _ in range(random.choice([1, 1, 2, 3])):
        file = put(file, random.randrange(len(file)), bytes([random.choice([0, 1, 2, 3, random.randrange(256)])]))
    times = [random.choice([1, 2, 3, 200, 256, 257, 258, random.randrange(300)]) for _ in range(random.choice([1, 2, 2, 3, 4, 8, 9]))]
    times = tuple(random.choice([sorted, sorted, list])(times))
    add(file, cells=random.choice([CELLS, CELLS, CELLS, 2]), times=times, levels=random.choice([8, 8, 8, 2]))


def reference(file):
    sheet = subprocess.run([sys.executable, REFERENCE], input=file, capture_output=True, check=True).stdout.split()
    return int(sheet[1]) if sheet[0] == b'refused' else 0


for file, cells, _, _ in cases:
    if cells == CELLS and len(file) <= SHEET:
        assert row(file, cells) == reference(file), (file.hex(), row(file, cells), reference(file))

with open(os.path.join(HERE, 'stdin'), 'wb') as out:
    for file, cells, times, levels in cases:
        out.write(b''.join(map(number, (len(file), cells, levels, len(times), *times))) + file)
with open(os.path.join(HERE, 'stdout'), 'w') as out:
    out.writelines(f'{row(file, cells)} {row(file, cells, times, levels)}\n' for file, cells, times, levels in cases)
