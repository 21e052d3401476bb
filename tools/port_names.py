#!/usr/bin/env python3
"""Brings this repository's own names of definitions and lemmas to today's spelling: words in snake case.

usage: tools/port_names.py [--list] [FOLDER]

Run once, at the top of the repository (or FOLDER), after port.py of /opt/rattle/port. It goes over crates/*/specs, proofs and src. A name with dashes gets underscores (sum-split: sum_split), a name in camel case that begins small gets them too
(stateCount: state_count). Names of the kit, names that Rattle generates, types, modules and functions of src/ keep theirs.
--list writes nothing: it prints each name with its new one, and which of them fall together with another name.
"""

import collections
import glob
import os
import re
import sys

TOKEN = re.compile(r"[A-Za-z_µμ][\w'′₀-₉-]*")
KIT = re.compile(r"\s*(?:pub |ghost )?use (?!Rattle[.·](?!std|core))")
GENERATED = re.compile(r"(Need|After|In|At|Then|Else|Joined|InvT|MeasureT|Live|Returned)-|invariant-|decreases-|Goes-")
# Names that would fall together with another one: a lemma beside the definition of its name, a binder beside a definition, a field.
APART = {
    "all_digits": "all_digits_lem",
    "arrow-entry": "arrow_entry_lem",
    "arrow-mean": "arrow_mean_lem",
    "arrow-rate": "arrow_rate_lem",
    "arrow-sum": "arrow_sum_lem",
    "at-time": "at_time_lem",
    "bytes-dealt": "bytes_dealt_lem",
    "bytes_after": "bytes_after_lem",
    "in-table": "in_table_lem",
    "levels-after": "new_levels",
    "long-input": "long_input_lem",
    "next-by-arrows": "next_by_arrows_lem",
    "number-after": "number_after_lem",
    "over-whole": "over_whole_lem",
    "rate-at": "rate_at_lem",
    "row-total": "row_total_lem",
    "series-answer": "series_answer_lem",
    "series-rows": "series_rows_lem",
    "states-in": "states_within",
    "tail-bound": "tail_bound_lem",
}


def antt(root):
    for part in ("specs", "proofs"):
        yield from sorted(glob.glob(os.path.join(root, "crates", "*", part, "**", "*.antt"), recursive=True))


def sources(root):
    yield from sorted(glob.glob(os.path.join(root, "crates", "*", "src", "**", "*.rt"), recursive=True))


def read(path):
    with open(path, encoding="utf-8") as f:
        return f.read()


def code(line):
    """The line without its comment."""
    return re.sub(r"(^|\s)(--|//)(\s.*)?$", "", line)


def kit_names(lines):
    found = set()
    for line in lines:
        if KIT.match(line):
            found.update(TOKEN.findall(line))
    return found


def respelled(name):
    if name in APART:
        return APART[name]
    new = name.rstrip("-").replace("-", "_")
    if re.match(r"[a-z]", new) and re.search(r"[a-z0-9][A-Z]", new):
        new = re.sub(r"(?<=[a-z])(?=[0-9])", "_", new)
        new = re.sub(r"(?<=[a-z0-9])([A-Z])", lambda m: "_" + m[1].lower(), new)
        new = re.sub(r"_+", "_", new)
    return new


def changes(name):
    return name in APART or ("-" in name or re.match(r"[a-z]\w*?[a-z0-9][A-Z]", name)) and not re.match(r"x[0-9A-F]+$", name) and len(name) > 2


def own(root):
    """Each name of this repository that changes, with its new spelling."""
    kit, found = set(), set()
    files = [(p, read(p).split("\n")) for p in antt(root)]
    for _, lines in files:
        kit |= kit_names(lines)
    for _, lines in files:
        for line in lines:
            if KIT.match(line):
                continue
            text = code(line)
            for m in TOKEN.finditer(text):
                before = text[m.start() - 1 : m.start()]
                if before != "." and changes(m[0]) and not GENERATED.match(m[0]):
                    found.add(m[0])
    return {name: respelled(name) for name in sorted(found - kit)}


def turn_line(line, names, own_kit):
    if KIT.match(line):
        return line
    text = code(line)
    rest = line[len(text) :]

    def new(m):
        if m[0] not in names or m[0] in own_kit:
            return m[0]
        if text[: m.start()].endswith(("tie.", "code.")):
            return m[0]
        return names[m[0]]

    text = TOKEN.sub(new, text)
    # in a comment: names in camel case, and names in backticks
    rest = TOKEN.sub(lambda m: names[m[0]] if m[0] in names and "-" not in m[0] else m[0], rest)
    rest = re.sub(r"`([^`]+)`", lambda m: "`" + names.get(m[1], m[1]) + "`", rest)
    return text + rest


def turn(root, names):
    count = 0
    for path in [*antt(root), *sources(root)]:
        old = read(path)
        lines = old.split("\n")
        kit = kit_names(lines)
        new = "\n".join(turn_line(l, names, kit) for l in lines)
        if new != old:
            with open(path, "w", encoding="utf-8") as f:
                f.write(new)
            count += 1
    print(f"{len(names)} names, {count} files")


def together(root, names):
    """New names that another name has already, or that two names would have."""
    taken = collections.defaultdict(set)
    for path in [*antt(root), *sources(root)]:
        for line in read(path).split("\n"):
            for t in TOKEN.findall(code(line)):
                taken[t].add(os.path.relpath(path, os.path.join(root, "crates")))
    by_new = collections.defaultdict(list)
    for old, new in names.items():
        by_new[new].append(old)
    for new, olds in sorted(by_new.items()):
        if len(olds) > 1 or new in taken:
            print(f"{new}: {', '.join(olds)}" + (f"; taken in {', '.join(sorted(taken[new])[:6])}" if new in taken else ""))


def main(argv):
    listing = "--list" in argv
    rest = [a for a in argv if a != "--list"]
    root = rest[0] if rest else "."
    names = own(root)
    if listing:
        for old, new in names.items():
            print(f"{old} {new}")
        print("--")
        together(root, names)
    else:
        turn(root, names)


if __name__ == "__main__":
    main(sys.argv[1:])
