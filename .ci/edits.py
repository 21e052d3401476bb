#!/usr/bin/env python3
"""docs/EDITS.md, made from the edits that the prover must refuse and what `rt ci` or `rt must-fail` says of them.

    python3 .ci/edits.py LOG..            write it; each LOG holds what such a run printed
    python3 .ci/edits.py --check LOG..    fail where it would be another, where an edit has no comment on its first line,
                                          where the refusal that a log shows is no fact that fails, or where no edit
                                          changes the body of a public function

A log shows the first 160 characters of an edit's first refusal that follows from no missing name. SAMPLES is tried first.
"""

import argparse
import pathlib
import re
import sys
from collections import namedtuple

import contracts

ROOT = pathlib.Path(__file__).resolve().parent.parent
PAGE = ROOT / "docs/EDITS.md"

TEXT = """\
# Edits that the prover refuses

Made by `.ci/edits.py` from the log of an `rt ci`; the gate fails where this page is not what it would write.

`crates/NAME/must-fail/LABEL.edit` changes a crate in one place or a few; `rt ci` applies each to a copy and passes only where the prover refuses it. Every one is
refused because a fact fails: the first refusal that `rt ci` shows is either a counterexample (all that is known holds and the goal fails)
or two sides of a goal that differ. "Refused in" names the module or the function whose proof
fails, and the fact: `returns` is what the function ensures, `F-x-requires` what F asks of the call that gives x, `loop-i-init` and `loop-i-preserved` the invariant of a loop over i at the start and after a round.
Most edits keep the code's shape. Some need an operator, a statement or a test more, as `muldiv/to_the_nearest`, where a half has to be added, `moments/levels_written_on_a_refusal`, which adds a test, or `practice/bytes_cleared_on_a_refusal`, which adds a store; where that would move the proof's paths, the edit moves them by as much, so that the fact is what fails.

Three limits. A refused law is not a false law: `one_tick_less_at_the_level`, `half_the_vector_error` and `last_level_one_less` show that the proof does not reach the tighter bound.
And the arithmetic tactic takes a product of two unknowns as one more unknown, so that a counterexample such as `P` = 0 with `P * ZN` = 1 need not be a model.
Last, a right version in another form may be refused in the same words, where the proof is made for this form: that an edit is wrong is not what its refusal shows.

| crate | edit | what it does | refused in | because |
|---|---|---|---|---|
"""

# --- How a refusal is read ------------------------------------------------------------------------------------

LINE = re.compile(r"^rt: must-fail (\w+)/(\S+)\.edit: (.*)$", re.M)
REFUSED = "refused, as it must be: "
SHOWN = 160    # rt shows so much of a refusal
ERROR = re.compile(r"(\S+?):(\d+):\d+: error: `([^`]*)`: (.*)")
# of a function that is proved without a file
NOTE = re.compile(r"note: (\S+?):(\d+):\d+: it is not proved that [^`]*(?:`[^`]*` [^`]*)?\(`([^`]*)`\)(.*)")

COUNTEREXAMPLE, DIFFER = "counterexample", "the two sides differ"
# How the prover begins to tell of a fact that fails.
FACTS = [
    ("`omega`: the goal does not follow", COUNTEREXAMPLE),
    ("`omega`: the part `", COUNTEREXAMPLE),
    ("; the facts known there allow values", COUNTEREXAMPLE),
    ("as printed, the two types ", DIFFER),
    ("computed as far as they go, the two types ", DIFFER),
    ("expected type `", DIFFER),
]
# An operator without its numbers, what the prover left open, or a type of values where no fact is asked: these differ where the proof's shape does.
SHAPE = re.compile(r"(?:where one has|the two types are) `(?:\([^`() ]*◌[^`() ]*\)|[^`() ]*◌[^`() ]*|\?\w*)`|expected type `(?:[\w.]+\.)?(?:ℕ|ℤ|Bool|List [^`]*)`")

# A note on a function's head stands at the first of its attributes.
ATTRIBUTES = re.compile(r"(?:[ \t]*#\[.*?\]\n)+", re.S)

Refusal = namedtuple("Refusal", "place name why")


def place_of(path, line, text_of):
    """The function of a proof file or of a line in a source, or the module's name."""
    path = pathlib.PurePath(path)
    if path.parts[0] == "proofs" and path.name in ("Answers.antt", "Invariants.antt", "Proof.antt"):
        return path.parent.name.lstrip("+")
    if path.parts[0] == "src":
        text = text_of(path)
        lines = text.splitlines()
        attributes = ATTRIBUTES.match("\n".join(lines[line - 1:]))
        line += attributes.group().count("\n") if attributes else 0
        above = [found.name for found in contracts.functions(text) if found.line <= line]
        return above[-1] if above else path.stem
    return path.stem


def reason(message, cut):
    """The fact that fails, in a word or two; empty where the message tells of none. A cut message may end within its first words."""
    if SHAPE.search(message):
        return ""
    return next((why for start, why in FACTS if message.startswith(start) or cut and start.startswith(message)), "")


def refusal(said, text_of):
    """What a log says of an edit, read as a refusal, or None where it names no statement. text_of gives a source's text."""
    if not said.startswith(REFUSED):
        return None
    shown = said[len(REFUSED):]
    match = ERROR.match(shown) or NOTE.match(shown)
    if not match:
        return None
    path, line, name, message = match.groups()
    return Refusal(place_of(path, int(line), text_of), name, reason(message, len(shown) >= SHOWN))


LONG = "L" * 112    # so long that rt cuts what it shows

# What a log says of an edit, and what it is read as: place, name and reason, or None.
SAMPLES = [
    ("refused, as it must be: ./proofs/+f/Answers.antt:8:13: error: `returns`: `omega`: the goal does not follow from what it read. All of that holds", ("f", "returns", COUNTEREXAMPLE)),
    ("refused, as it must be: ./proofs/f/Answers.antt:38:72: error: `returns`: `omega`: the part `.whole` of the goal does not follow from what it read.", ("f", "returns", COUNTEREXAMPLE)),
    ("refused, as it must be: ./specs/Law.antt:103:12: error: `law`: as printed, the two types differ only where one has `0 ∷ 0 ∷ []`", ("Law", "law", DIFFER)),
    ("refused, as it must be: ./proofs/Law.antt:15:12: error: `law`: expected type `f 9 ≡ 53`, but this has type `f 9 ≡ f 9`", ("Law", "law", DIFFER)),
    ("refused, as it must be: ./proofs/f/Answers.antt:9:1: error: `returns`: expected type `Prim.Native.Nat.ℕ`, but this has type `lib.IntN.ℤ`", ("f", "returns", "")),
    ("refused, as it must be: note: src/lib.rt:9:1: it is not proved that what the function ensures holds when it returns (`returns`); the facts known there allow values at which this goal", ("g", "returns", COUNTEREXAMPLE)),
    ("refused, as it must be: note: src/lib.rt:10:1: it is not proved that what the function ensures holds when it returns (`returns`); the facts known there allow values", ("h", "returns", COUNTEREXAMPLE)),
    ("refused, as it must be: note: src/lib.rt:6:9: it is not proved that what `g` requires holds at this call (`g-b-requires`); the facts known there allow values at which this goal", ("f", "g-b-requires", COUNTEREXAMPLE)),
    ("refused, as it must be: note: src/lib.rt:9:1: it is not proved that what the function ensures holds when it returns (`returns`)", ("g", "returns", "")),
    ("refused, as it must be: ./proofs/f/Answers.antt:9:1: error: `below`: `omega` stopped at a bound of its own: the goal has more than 64 parts.", ("f", "below", "")),
    ("refused, as it must be: ./proofs/f/Answers.antt:9:1: error: `returns`: `search`: no proof of `a ≡ b` was found. Every way was tried", ("f", "returns", "")),
    ("refused, as it must be: ./proofs/f/Answers.antt:9:1: error: `returns`: as printed, the two types first differ where one has `Rattle.std.◌*◌` (expected)", ("f", "returns", "")),
    (f"refused, as it must be: ./specs/{LONG}.antt:9:1: error: `law`: `omega`: the go", (LONG, "law", COUNTEREXAMPLE)),
    ("refused, as it must be: ./specs/Law.antt:9:1: error: `law`: `omega`: the go", ("Law", "law", "")),
    ("refused, as it must be: ./specs/Law.antt:9:1: error: expected `×` after the Σ binder, found `:`", None),
    ("refused, as it must be (only because a proof file names what the edit took away, so this says little of the contract: change a value and keep the names): ./proofs/f/Answers.antt:9:1:", None),
    ("refused, as it must be (only by a limit of the prover, which gave no verdict, so this says less of the contract: choose a change that it refuses sooner): ./specs/Law.antt:9:1:", None),
    ("refused, as it must be", None),
    ("BAD EDIT: an 'old:' text is in src/lib.rt 0 times, and not once", None),
    ("NOT REFUSED: the crate is still proved with this edit", None),
]
SOURCE = """
pub fn f() ensures { 1 ≡ 1 }
{
}

// g
pub fn g() ensures { 1 ≡ 1 }
{
}
#[tactic(auto, using(
    crate::specs::Law::law,
))]
fn h() ensures { 1 ≡ 1 }
{
}
"""


def self_test():
    """The samples that are read wrongly."""
    wrong = []
    for said, answer in SAMPLES:
        read = refusal(said, lambda _: SOURCE)
        if (read and tuple(read)) != answer:
            wrong.append(f"edits.py reads {read}, not {answer}, from: {said}")
    return wrong


# --- The page -------------------------------------------------------------------------------------------------

def edits():
    """(crate, label, path) of each edit, in the order of crates.txt."""
    crates = re.findall(r"^(\w+)(?: staticlib)?:", (ROOT / "crates.txt").read_text(encoding="utf-8"), re.M)
    return [(crate, path.stem, path) for crate in crates for path in sorted((ROOT / "crates" / crate / "must-fail").glob("*.edit"))]


def untouched(listed):
    """The public functions in whose body no edit changes anything."""
    changes = {}  # (crate, file) to the texts that its edits replace
    for crate, _, path in listed:
        name = ""
        for line in path.read_text(encoding="utf-8").splitlines():
            name = line[6:] if line.startswith("file: ") else name
            if line.startswith("old: "):
                changes.setdefault((crate, name), []).append(line[5:])
    for path in sorted(ROOT.glob("crates/*/src/**/*.rt")):
        crate, *rest = path.relative_to(ROOT / "crates").parts
        name = "/".join(rest)
        text = path.read_text(encoding="utf-8")
        places = [text.find(old) for old in changes.get((crate, name), [])]
        for found in contracts.scan(text):
            if not any(found.body < place < found.end for place in places):
                yield f"{crate}: no edit changes the body of pub fn {found.name}"


def row(crate, label, path, said):
    """A line of the table, and what is wrong with the edit."""
    faults = []
    comment = re.match(r"#\s*(\S.*)", path.read_text(encoding="utf-8"))
    if not comment:
        faults.append("has no comment on its first line that says what it does")
    found = said and refusal(said, lambda name: (ROOT / "crates" / crate / name).read_text(encoding="utf-8"))
    if not said:
        faults.append("is in no log: run `rt ci`")
    elif not found:
        faults.append(f"is refused by no statement: {said}")
    elif not found.why:
        faults.append(f"is refused in {found.place}, `{found.name}`, but by no fact that fails: {said}")
    where = f"{found.place}, `{found.name}`" if found else ""
    cells = [crate, label, comment.group(1) if comment else "", where, found.why if found else ""]
    line = " | ".join(cell.replace("|", "\\|") for cell in cells)
    return f"| {line} |\n", [f"{crate}/{label} {fault}" for fault in faults]


def main():
    parser = argparse.ArgumentParser(description="Make docs/EDITS.md from the must-fail edits and a log of rt ci.")
    parser.add_argument("--check", action="store_true", help="compare, and write nothing")
    parser.add_argument("logs", nargs="+", type=pathlib.Path, metavar="LOG", help="what rt ci or rt must-fail printed")
    options = parser.parse_args()
    said = {}
    for log in options.logs:
        said.update(((crate, label), text) for crate, label, text in LINE.findall(log.read_text(encoding="utf-8")))
    faults, page, listed = self_test(), TEXT, edits()
    for crate, label, path in listed:
        line, wrong = row(crate, label, path, said.get((crate, label)))
        page += line
        faults += wrong
    faults += untouched(listed)
    if not listed:
        faults.append("no edit was found under crates/: the script looked in the wrong place")
    if not options.check:
        PAGE.write_text(page, encoding="utf-8")
    elif not PAGE.is_file() or PAGE.read_text(encoding="utf-8") != page:
        faults.append("docs/EDITS.md is not what .ci/edits.py writes: run it on a log of rt ci, and commit the page")
    for fault in faults:
        print(f"edits.py: {fault}", file=sys.stderr)
    print(f"{len(listed)} edits, each refused because a fact fails" if not faults else f"{len(listed)} edits, {len(faults)} faults")
    return 1 if faults else 0


if __name__ == "__main__":
    sys.exit(main())
