"""The wrong calls of the converter, to_version_2 and to_version_1, for call_mistakes.py: each the reference's with one
thing changed.

TO_VERSION_2 and TO_VERSION_1 hold the mistakes, as those of mistakes.py; EQUIVALENT_2 and EQUIVALENT_1 the changes that
no call can show, each with the reason.
"""

import mistakes
from mistakes import wrong
from remainders_mistakes import of_sheets


# --- Parts of the reference that the entries change ------------------------------------------

# The rows of each call in their order, and the version that it does not move.
ORDER = {"to_version_2": [*range(1, 14)], "to_version_1": [*range(1, 9), 16, *range(9, 13), 17, 13]}
OTHER = {"to_version_2": 2, "to_version_1": 1}
JUDGED = {call: f"row = refusal(file, LENT_CELLS, [{3 - other}])" for call, other in OTHER.items()}
MOVED = {"to_version_2": "written(as_version_2(file), out)", "to_version_1": "written(as_version_1(file), out)"}
END = {call: f'    return ("refused", row) if row else {moved}' for call, moved in MOVED.items()}
ELSEWHERE = "any(read_starts(file, file[3])[1:])"
ROW_17 = f"    if not row and {ELSEWHERE}:\n        row = 17\n"
LENGTH = '(1 + len(fields)).to_bytes(2, "big")'
FRAMED = f"return {LENGTH} + bytes([version]) + fields"
ON_FIRST = 'MILLION.to_bytes(4, "big") + bytes(4 * (file[3] - 1))'
WITH_STARTS = "framed(2, file[3:13] + starts + file[13:])"
WITHOUT = "framed(1, file[3:13] + file[13 + 4 * file[3]:])"
SHORT = "if len(out) < len(file):"
LAY = "    out[:len(file)] = file\n"
COUNT = 'return ("bytes", len(file))'


# --- Helpers for the new texts -----------------------------------------------------------------------

def moved_size(file, version):
    """The bytes of a file moved to this version, as far as they can be told."""
    weights = 4 * file[3] if len(file) > 3 else 0
    return len(file) + (weights if version == 2 else -weights)


def elsewhere(file):
    """Whether a file of version 2 has weight on another state than the first, as far as the bytes are there."""
    return len(file) > 13 and file[2] == 2 and any(file[17:13 + 4 * file[3]])


def mark(out, value=0):
    """Writes a byte to the first place, where there is one."""
    out[:min(1, len(out))] = [value][:len(out)]


HELPERS = (moved_size, elsewhere, mark)


# --- The refusal table ------------------------------------------------------------------------------

def judged(call, name, what, new):
    """Another row found; `row` is the one that the reference finds, but 17 and 13."""
    return wrong(name, what, (JUDGED[call], f"{JUDGED[call]}\n    {new}"))


def from_row(call, row):
    """The rows from this one on, as text."""
    return repr({*ORDER[call][ORDER[call].index(row):]})


def admitted(call, name, what, versions):
    own = 3 - OTHER[call]
    return wrong(f"row-03-{name}", f"row 3: {what}", (JUDGED[call], JUDGED[call].replace(f"[{own}]", str(versions))))


def versions(call):
    """Row 3: other versions admitted, or refused at another place."""
    own, other = 3 - OTHER[call], OTHER[call]
    yield admitted(call, "both", "both versions admitted", [1, 2])
    yield admitted(call, "exchanged", f"version {other} admitted in the place of {own}", [other])
    yield admitted(call, "with-0", "version 0 admitted too", [0, own])
    yield admitted(call, "with-3", "version 3 admitted too", [own, 3])
    yield admitted(call, "with-5", "version 5 admitted too", [own, 5])
    yield admitted(call, "all-but-the-other", f"only version {other} refused",
                   f"[k for k in range(256) if k != {other}]")
    yield judged(call, "row-03-other-first", f"version {other} refused before all else",
                 f"row = 3 if file[2:3] == bytes([{other}]) else row")
    yield judged(call, "row-03-other-before-2", f"version {other} refused before row 2",
                 f"row = 3 if len(file) > 12 and file[2] == {other} else row")
    yield judged(call, "row-03-other-last", f"version {other} refused after all other rows of a file",
                 f"row = (refusal(file, LENT_CELLS) or row) if row == 3 and file[2] == {other} else row")
    yield judged(call, "row-03-other-as-6", f"version {other} answered with 6",
                 f"row = 6 if row == 3 and file[2] == {other} else row")
    yield judged(call, "row-03-other-as-17", f"version {other} answered with 17",
                 f"row = 17 if row == 3 and file[2] == {other} else row")
    yield wrong("row-03-other-copied", f"version {other}, which is right already, copied",
                (END[call], f"    if row == 3 and file[2] == {other} and not refusal(file, LENT_CELLS):\n"
                            f"        return written(file, out)\n{END[call]}"))


def rows_of_the_file(call):
    """Rows 1 to 12, and 16 of to_version_1: left out, two exchanged, judged in part."""
    rows = [row for row in ORDER[call] if row not in (13, 17)]
    yield from of_sheets(*map(mistakes.left_out, rows))
    yield from of_sheets(*(mistakes.earlier(row, before) for before, row in zip(rows, rows[1:]) if row != 10))
    yield judged(call, "rows-7-to-12-left-out", "the rows from 7 on not tested", "row = row if row <= 6 else 0")
    yield judged(call, "rows-9-to-12-left-out", "rows 9 to 12 not tested", "row = 0 if 9 <= row <= 12 else row")
    yield judged(call, "row-12-left-out-here", "row 12 left out, as no level is needed",
                 "row = 0 if row == 12 else row")


def size_of(call):
    return f"moved_size(file, {OTHER[call]})"


def rooms():
    """The slice for a file that is written."""
    for name, what, new in (
            ("left-out", "not tested", "if False:"),
            ("at-just-enough", "just enough refused", "if len(out) <= len(file):"),
            ("one-less", "a byte less let through", "if len(out) + 1 < len(file):"),
            ("two-less", "the length field not counted", "if len(out) + 2 < len(file):"),
            ("exact", "more than enough refused", "if len(out) != len(file):"),
            ("none", "only no bytes refused", "if not out:"),
            ("header", "only less than 13 bytes refused", "if len(out) < 13:"),
            ("a-word-more", "four bytes more asked for", "if len(out) < len(file) + 4:"),
            ("most", "16,653 bytes asked for", "if len(out) < 16_653:"),
            ("most-1", "16,397 bytes asked for", "if len(out) < 16_397:"),
            ("8-bit", "the bytes needed in 8 bits", "if len(out) < len(file) % 2**8:"),
            ("8-bit-count", "the count lent in 8 bits", "if len(out) % 2**8 < len(file):"),
            ("16-bit-count", "the count lent in 16 bits", "if len(out) % 2**16 < len(file):")):
        yield wrong(f"row-13-{name}", f"row 13: {what}", (SHORT, new))


def row_13(call):
    """The slice for the moved file, and its place in the table."""
    yield from rooms()
    for row in ORDER[call][:-1]:
        yield judged_17(call, f"row-13-before-{row:02d}", f"row 13 tested before row {row}",
                        f"row = 13 if row in {from_row(call, row)} and len(out) < {size_of(call)} else row")


def judged_17(call, name, what, new):
    """Another row found; `row` is the one that the reference finds, but 13."""
    return wrong(name, what, (END[call], f"    {new}\n{END[call]}"))


# --- What is written, what is answered --------------------------------------------------------------------

def laid():
    """A file that is written laid otherwise, bytes written although 13 is answered or past the end, and counts."""
    yield wrong("refused-13-written", "a byte written although 13 is answered",
                (f"    {SHORT}\n", f"    {SHORT}\n        mark(out)\n"))
    yield wrong("refused-13-what-fits", "what fits written although 13 is answered",
                (f"    {SHORT}\n", f"    {SHORT}\n        out[:] = file[:len(out)]\n"))
    yield wrong("refused-13-last-byte", "the last byte lent written although 13 is answered",
                (f"    {SHORT}\n", f"    {SHORT}\n        out[-1:] = [0][:len(out)]\n"))
    yield wrong("past-the-end-one", "a byte past the end set to 0, where there is one",
                (LAY, f"{LAY}    out[len(file):len(file) + 1] = [0][:len(out) - len(file)]\n"))
    yield wrong("past-the-end-word", "four bytes past the end set to 0, where they are",
                (LAY, f"{LAY}    out[len(file):len(file) + 4] = bytes(min(4, len(out) - len(file)))\n"))
    yield wrong("past-the-end-cleared", "all bytes past the end set to 0",
                (LAY, f"{LAY}    out[len(file):] = bytes(len(out) - len(file))\n"))
    yield wrong("last-byte-missing", "the last byte not written", (LAY, LAY.replace("len(file)", "len(file) - 1")
                .replace("= file", "= file[:-1]")))
    yield wrong("first-byte-missing", "the first byte not written", (LAY, "    out[1:len(file)] = file[1:]\n"))
    yield wrong("length-not-written", "the length field not written", (LAY, "    out[2:len(file)] = file[2:]\n"))
    yield wrong("at-the-end", "written at the end of the slice", (LAY, "    out[len(out) - len(file):] = file\n"))
    for name, what, new in (
            ("one-more", "one more", "len(file) + 1"), ("one-less", "one less", "len(file) - 1"),
            ("length", "the length field", "len(file) - 2"), ("0", "0", "0"), ("1", "1", "1"),
            ("lent", "the count of bytes lent", "len(out)"), ("8-bit", "in 8 bits", "len(file) % 2**8"),
            ("states", "M", "file[3]"), ("words", "in words of four bytes", "len(file) // 4")):
        yield wrong(f"count-{name}", f"the count of bytes: {what}", (COUNT, f'return ("bytes", {new})'))


def written_by(call):
    """Bytes written where none may be, and counts."""
    for row in ORDER[call][:-1]:
        yield judged_17(call, f"refused-{row}-written", f"a byte written although {row} is answered",
                        f"mark(out) if row == {row} else None")
    yield wrong("refusal-in-bytes", "a refusal's number in the first byte",
                (END[call], f"    mark(out, row) if row else None\n{END[call]}"))
    yield wrong("cleared-first", "all bytes set to 0 before the table is tried",
                (JUDGED[call], f"out[:] = bytes(len(out))\n    {JUDGED[call]}"))
    yield from laid()
    yield wrong("count-of-the-file", "the count of bytes: that of the file that is moved",
                (END[call], f'    {MOVED[call]} if not row else None\n'
                            f'    return ("refused", row) if row else '
                            f'("refused", 13) if len(out) < {size_of(call)} else ("bytes", len(file))'))


def framed(name, what, new):
    return wrong(name, what, (FRAMED, f"return {new}"))


REST = "bytes([version]) + fields"


def frames():
    """The length field and the version byte of a file that is written, and what follows."""
    yield framed("length-low-byte-first", "the length low byte first",
                 f'(1 + len(fields)).to_bytes(2, "little") + {REST}')
    yield framed("length-counts-itself", "the length with its own two bytes",
                 f'(3 + len(fields)).to_bytes(2, "big") + {REST}')
    yield framed("length-one-less", "the length one less", f'len(fields).to_bytes(2, "big") + {REST}')
    yield framed("version-0", "the version byte 0", f"{LENGTH} + bytes(1) + fields")
    yield framed("version-3", "the version byte 3", f"{LENGTH} + bytes([3]) + fields")
    yield framed("states-and-moments-exchanged", "M and R exchanged",
                 f"{LENGTH} + bytes([version]) + fields[1::-1] + fields[2:]")
    yield framed("tolerance-and-time-exchanged", "tolerance and time exchanged",
                 f"{LENGTH} + bytes([version]) + fields[:2] + fields[6:10] + fields[2:6] + fields[10:]")
    yield framed("time-1", "the time 1",
                 f"{LENGTH} + bytes([version]) + fields[:6] + bytes([0, 0, 0, 1]) + fields[10:]")


def content_of(call):
    """The same of a moved file, and what stays as it was."""
    own, other = 3 - OTHER[call], OTHER[call]
    old = f"(1 + len(fields) {'-' if other == 2 else '+'} 4 * fields[0])"
    yield from frames()
    yield framed("length-stays", "the length field as it was", f'{old}.to_bytes(2, "big") + {REST}')
    yield framed("length-upper-byte-stays", "the upper byte of the length as it was",
                 f'{old}.to_bytes(2, "big")[:1] + {LENGTH}[1:] + {REST}')
    yield framed("length-lower-byte-stays", "the lower byte of the length as it was",
                 f'{LENGTH}[:1] + {old}.to_bytes(2, "big")[1:] + {REST}')
    yield framed("length-one-word", "the length changed by four bytes alone",
                 f'({old} {"+" if other == 2 else "-"} 4).to_bytes(2, "big") + {REST}')
    yield framed("version-stays", "the version byte as it was", f"{LENGTH} + bytes([{own}]) + fields")


def first_weight(name, what, new):
    return wrong(f"weight-{name}", f"the weight: {what}", (ON_FIRST, new))


def words(count):
    return f"bytes(4 * ({count}))"


TO_VERSION_2 = (
    *versions("to_version_2"),
    *rows_of_the_file("to_version_2"),
    *row_13("to_version_2"),
    wrong("row-13-of-the-file", "row 13 by the length of the file that is moved",
          (SHORT, "if len(out) < len(file) - 4 * file[3]:")),
    wrong("row-13-one-weight", "row 13 with one weight counted",
          (SHORT, "if len(out) < len(file) - 4 * (file[3] - 1):")),
    *written_by("to_version_2"),
    *content_of("to_version_2"),
    first_weight("on-last", "on the last state", f'{words("file[3] - 1")} + MILLION.to_bytes(4, "big")'),
    first_weight("on-second", "on the second state, where there is one",
                 '(bytes(4) + MILLION.to_bytes(4, "big") + bytes(4 * file[3]))[4 * (file[3] == 1):][:4 * file[3]]'),
    first_weight("even", "the same on every state",
                 'b"".join((MILLION // file[3] + (k < MILLION % file[3])).to_bytes(4, "big") for k in range(file[3]))'),
    first_weight("on-each", "1,000,000 on every state", 'MILLION.to_bytes(4, "big") * file[3]'),
    first_weight("none", "none", words("file[3]")),
    first_weight("1", "1 in the place of 1,000,000", f'bytes([0, 0, 0, 1]) + {words("file[3] - 1")}'),
    first_weight("100", "100, as percent", f'bytes([0, 0, 0, 100]) + {words("file[3] - 1")}'),
    first_weight("999999", "999,999", f'(MILLION - 1).to_bytes(4, "big") + {words("file[3] - 1")}'),
    first_weight("billion", "10^9", f'BILLION.to_bytes(4, "big") + {words("file[3] - 1")}'),
    first_weight("low-byte-first", "low byte first", f'MILLION.to_bytes(4, "little") + {words("file[3] - 1")}'),
    first_weight("16-bit", "in 16 bits", f'(MILLION % 2**16).to_bytes(4, "big") + {words("file[3] - 1")}'),
    first_weight("alone", "no weights of the other states", 'MILLION.to_bytes(4, "big")'),
    first_weight("one-more", "a weight too many", f'MILLION.to_bytes(4, "big") + {words("file[3]")}'),
    wrong("weights-after-rewards", "the weights put behind the rewards",
          (WITH_STARTS, "framed(2, file[3:13 + 4 * file[3]] + starts + file[13 + 4 * file[3]:])")),
    wrong("weights-at-the-end", "the weights put behind the rates", (WITH_STARTS, "framed(2, file[3:] + starts)")),
    wrong("weights-before-time", "the weights put before the time",
          (WITH_STARTS, "framed(2, file[3:9] + starts + file[9:])")),
    wrong("weights-over-rewards", "the weights put over the rewards",
          (WITH_STARTS, "framed(2, file[3:13] + starts + starts + file[13 + 4 * file[3]:])")),
    wrong("rates-missing", "as many bytes as the file has behind the weights lost",
          (WITH_STARTS, "framed(2, (file[3:13] + starts + file[13:])[:len(file) - 3] + bytes(len(starts)))")),
)


def row_17(name, what, new):
    """Row 17 by another test."""
    return wrong(f"row-17-{name}", f"row 17: {what}", (ROW_17, ROW_17.replace(ELSEWHERE, new)))


STARTS = "read_starts(file, file[3])"
TO_VERSION_1 = (
    *versions("to_version_1"),
    *rows_of_the_file("to_version_1"),
    *of_sheets(mistakes.earlier(16, 7), mistakes.earlier(10, 16), mistakes.earlier(11, 16), mistakes.earlier(12, 16),
               mistakes.tested_last(16),
               *(entry for entry in mistakes.VERSION_2
                 if entry.name not in ("version-3-as-2", "versions-from-2", "row-16-normalised",
                                       "starting-weights-skipped-in-version-1"))),
    wrong("version-3-as-2", "version 3 moved as version 2",
          (JUDGED["to_version_1"], JUDGED["to_version_1"].replace("[2]", "[2, 3]")), *mistakes.AS_VERSION_2),
    wrong("row-16-after-17", "row 16 tested after row 17", (JUDGED["to_version_1"], JUDGED["to_version_1"] + (
        "\n    row = 17 if row == 16 and elsewhere(file) else row"))),
    wrong("row-16-after-13", "row 16 tested after row 13", (JUDGED["to_version_1"], JUDGED["to_version_1"] + (
        "\n    row = 13 if row == 16 and len(out) < moved_size(file, 1) else row"))),
    *row_13("to_version_1"),
    wrong("row-13-of-the-file", "row 13 by the length of the file that is moved",
          (END["to_version_1"], END["to_version_1"].replace(
              "else", 'else ("refused", 13) if len(out) < len(file) else', 1))),
    *written_by("to_version_1"),
    *content_of("to_version_1"),
    wrong("row-17-left-out", "row 17: not tested", (ROW_17, "")),
    row_17("second-alone", "looked at in state 2 alone", f"any({STARTS}[1:2])"),
    row_17("last-alone", "looked at in the last state alone", f"any({STARTS}[1:][-1:])"),
    row_17("not-last", "not looked at in the last state", f"any({STARTS}[1:-1])"),
    row_17("not-second", "not looked at in state 2", f"any({STARTS}[2:])"),
    row_17("from-1", "looked at in state 1 too", f"any({STARTS})"),
    row_17("of-one-state", "weight on one state alone let through, whichever", f"sum(map(bool, {STARTS})) > 1"),
    row_17("above-1", "a millionth elsewhere let through", f"max({STARTS}[1:], default=0) > 1"),
    row_17("half", "less than half elsewhere let through", f"2 * sum({STARTS}[1:]) >= MILLION"),
    row_17("all", "only no weight on state 1 refused", f"{STARTS}[0] == 0"),
    row_17("16-bit", "weights in 16 bits", f"any(a % 2**16 for a in {STARTS}[1:])"),
    row_17("8-bit", "weights in 8 bits", f"any(a % 2**8 for a in {STARTS}[1:])"),
    row_17("16-bit-sum", "their sum in 16 bits", f"sum({STARTS}[1:]) % 2**16"),
    row_17("low-byte", "the last bytes of the weights alone", "any(file[20:13 + 4 * file[3]:4])"),
    row_17("two-or-more", "only files of one state moved", "file[3] > 1"),
    row_17("rewards", "the rewards of other states looked at", "any(read_rewards(file, file[3])[1:])"),
    *(judged("to_version_1", f"row-17-before-{row:02d}", f"row 17 tested before row {row}",
             f"row = 17 if row in {from_row('to_version_1', row)} and elsewhere(file) else row")
      for row in (2, 3, 4, 5, 6, 7, 8, 16, 9, 10, 11, 12)),
    row_17("after-13", "tested after row 13", f"{ELSEWHERE} and len(out) >= len(file) - 4 * file[3]"),
    wrong("row-17-as-16", "row 17 answered with 16", ("        row = 17\n", "        row = 16\n")),
    wrong("row-17-as-3", "row 17 answered with 3", ("        row = 17\n", "        row = 3\n")),
    wrong("row-17-as-13", "row 17 answered with 13", ("        row = 17\n", "        row = 13\n")),
    wrong("refused-17-moved", "the moved file written although 17 is answered",
          (ROW_17, ROW_17 + f"        {MOVED['to_version_1']}\n")),
    wrong("rewards-dropped", "the rewards dropped in the place of the weights",
          (WITHOUT, "framed(1, file[3:13 + 4 * file[3]] + file[13 + 8 * file[3]:])")),
    wrong("last-rates-dropped", "the last 4 M bytes dropped in the place of the weights",
          (WITHOUT, "framed(1, file[3:len(file) - 4 * file[3]])")),
    wrong("one-weight-dropped", "one weight dropped alone", (WITHOUT, "framed(1, file[3:13] + file[17:])")),
    wrong("first-weight-kept", "the first weight kept", (WITHOUT, "framed(1, file[3:17] + file[13 + 4 * file[3]:])")),
    wrong("nothing-dropped", "nothing dropped", (WITHOUT, "framed(1, file[3:])")),
    wrong("M-bytes-dropped", "M bytes dropped", (WITHOUT, "framed(1, file[3:13] + file[13 + file[3]:])")),
    wrong("header-dropped", "tolerance and time dropped as well",
          (WITHOUT, "framed(1, file[3:5] + file[13 + 4 * file[3]:])")),
    wrong("rest-of-the-file-behind", "the end of the file left behind the moved one, as far as it goes",
          (END["to_version_1"], f"    if not row and len(out) >= moved_size(file, 1):\n"
                                f"        out[:] = [*file[:len(out)], *out[len(file):]]\n{END['to_version_1']}")),
)


# --- Changes that no call can show ----------------------------------------------------------------------------

EQUIVALENT_2 = (
    mistakes.left_out(16)._replace(what="row 16 not tested: a file of version 1 has no weights"),
    framed("length-by-states", "the length from M: by row 6 it is the same",
           '(4 * fields[0]**2 + 4 * fields[0] + 11).to_bytes(2, "big") + bytes([version]) + fields'),
    wrong("row-13-before-moving", "row 13 judged by the file and M: the moved file has 4 M bytes more",
          (END["to_version_2"], END["to_version_2"].replace(
              "else", 'else ("refused", 13) if len(out) < len(file) + 4 * file[3] else', 1))),
)
EQUIVALENT_1 = (
    row_17("first-weight", "by a weight on state 1 that is not 1,000,000: by row 16 the others have what is left",
           f"{STARTS}[0] != MILLION"),
    row_17("sum", "by the sum of the other states' weights: it is at most 1,000,000 by row 16", f"sum({STARTS}[1:])"),
    row_17("bytes", "by the bytes of the other states' weights", "any(file[17:13 + 4 * file[3]])"),
    wrong("last-byte-first", "written from the last byte to the first",
          (LAY, "    for k in reversed(range(len(file))):\n        out[k] = file[k]\n")),
)
