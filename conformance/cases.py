"""Calls of the library as text: what a call gets and what it has to give.

A case is some lines `key value...`; a blank line parts two cases. README.md tells the keys.
"""

import os
import sys
from collections import namedtuple

sys.path.insert(0, os.path.join(os.path.dirname(os.path.dirname(os.path.abspath(__file__))), "reference"))

import library  # noqa: E402
from library import CALLS, painted  # noqa: E402

# given: {parameter: a number, the elements of a slice, or the count of a slice that is written}
# answer: the number that the call answers. written: {slice: what its first elements hold then}; the others stay.
Case = namedtuple("Case", "name call given answer written")


def last_changed(elements, before):
    """How many elements there are up to the last that is not as it was."""
    return max((k for k, (new, old) in enumerate(zip(elements, before), 1) if new != old), default=0)


def case(name, call, given, result, other=None):
    """The case of an input and what the call gives: its answer, and each written slice as a whole. `other` is what it
    gives where the slices hold other numbers beforehand: an element may be written with the very number that it has."""
    written = {}
    for each in CALLS[call]:
        if each.written:
            elements = result[1][each.name]
            count = last_changed(elements, painted(len(elements), each.type))
            if other:
                count = max(count, last_changed(other[1][each.name], painted(len(elements), each.type, 0, True)))
            if count:
                written[each.name] = elements[:count]
    return Case(name, call, given, result[0], written)


def expected(each):
    """The answer, and each written slice as a whole."""
    slices = {}
    for part in CALLS[each.call]:
        if part.written:
            first = each.written.get(part.name, [])
            slices[part.name] = first + painted(each.given[part.name], part.type)[len(first):]
    return each.answer, slices


# --- Text ---------------------------------------------------------------------------------------

def shown(kind, value):
    """The elements of a slice: bytes in hexadecimal, other numbers in decimal."""
    return bytes(value).hex().upper() if kind == "u8" else " ".join(map(str, value))


def number_list(kind, words):
    return list(bytes.fromhex("".join(words))) if kind == "u8" else list(map(int, words))


def lines(each):
    """The lines of a case, as (key, value)."""
    yield "name", each.name
    yield "call", each.call
    for part in CALLS[each.call]:
        value = each.given[part.name]
        if part.written:
            yield part.name + "_lent", str(value)
        else:
            yield part.name, shown(part.type, value) if part.slice else str(value)
    yield "answer", str(each.answer)
    for part in CALLS[each.call]:
        if part.name in each.written:
            yield part.name, shown(part.type, each.written[part.name])


def text(cases):
    """The cases as text."""
    blocks = ("".join(f"{key} {value}".rstrip() + "\n" for key, value in lines(each)) for each in cases)
    return "\n".join(blocks)


def read_case(block):
    """The case of a block of lines."""
    values = {}
    for line in block.splitlines():
        key, *words = line.split()
        values[key] = words
    name, call = values["name"][0], values["call"][0]
    given, written = {}, {}
    for part in CALLS[call]:
        words = values.get(part.name, [])
        if part.written:
            given[part.name] = int(values[part.name + "_lent"][0])
            if words:
                written[part.name] = number_list(part.type, words)
        else:
            given[part.name] = number_list(part.type, words) if part.slice else int(words[0])
            if part.type == "u8" and part.slice:
                given[part.name] = bytes(given[part.name])
    return Case(name, call, given, int(values["answer"][0]), written)


def read(content):
    """The cases of a text."""
    return [read_case(block) for block in content.split("\n\n") if block.strip()]


# --- Calling --------------------------------------------------------------------------------------

def save(each, path):
    """Keeps a case as text; where it is."""
    with open(path, "w", encoding="ascii") as target:
        target.write(text([each]))
    return path


def trouble(linked, each):
    """What is wrong with the library's call of a case, in words, or an empty word. While the call runs, the case is
    kept under target/."""
    save(each, library.UNDER_WAY)
    answer, written, faults = linked.call(each.call, each.given)
    return "; ".join(filter(None, [library.difference(each.call, expected(each), (answer, written)), *faults[:1]]))
