#!/usr/bin/env python3
"""Fails where a `pub fn` under crates/ has no `ensures` before its body, and where a function of a library lends something by `&mut`
that no `ensures` tells: for each such parameter x (`self` too), `x.new` has to stand in one, by itself or handed to what the clause cites.
Tries itself on FORMS and LENT first."""

import pathlib
import re
import sys
from collections import namedtuple

ROOT = pathlib.Path(__file__).resolve().parent.parent
HEAD = re.compile(r'\b(pub\b)?\s*(?:\([^)]*\)\s*)?(?:(?:const|extern\s*"[^"]*")\s*)*\bfn\s+(\w+)')
LENDS = re.compile(r"(\w+)\s*:\s*&\s*(?:'\w+\s+)?mut\b|&\s*(?:'\w+\s+)?mut\s+(self)\b")
CLAUSE = re.compile(r"\b(requires|ensures)\*?(?:\s+\w+)?\s*$")
NO_CODE = re.compile(r"""//[^\n]*|"(?:\\.|[^"\\])*"|b'(?:\\.[^']*|[^'\\])'""", re.S)

# Public functions, with @ where a clause may stand: without it each is found, with it none is.
FORMS = [
    "pub fn f() @ {}",
    "pub fn f() -> u8 @ { 1 }",
    "pub fn f(\n    a: u8,\n) -> [u8; 2]\n    @\n{\n    [a, a]\n}",
    "pub fn f(a: u8) -> u8\n    requires low { Low {n = 1} a }\n    requires limit {\n        a < 9\n    }\n    @\n{\n    a\n}",
    "impl S {\n    pub fn f(self) -> u8 @ { self.x }\n}",
    'pub mod m { #[unsafe(no_mangle)] pub extern "C" fn f() @ {} }',
    "pub(crate) fn f() @ {}",
    "pub const fn f() @ {}",
    "pub fn f() // ensures {\n    @ {}",
    "pub fn f() @ {}\nfn g() ensures { 1 ≡ 1 } {}",
    "pub fn f<F: Fn(usize) -> u64>(of: F) -> u64 @ { of(1) }",
    "fn g() -> u8 { let s = b\"ensures \\\" {\"; b'{' }\npub fn f<'a>(s: &'a [u8]) -> &'a [u8] @ { s }",
]
CLAUSES = ["ensures { result ≡ g {n = 1} }", "ensures cells {\n        Unit\n    }", "ensures* cells { Unit }"]
PRIVATE = ["fn f() {}", "// pub fn f() {}", 'fn f() { let s = b"pub fn g() {}"; }']

# Functions that lend a and b, with what is untold of them.
LENT = [
    ("pub fn f(a: &mut [u8], b: &mut u64) ensures { a.new ≡ b.new } {}", []),
    ("fn f<'x>(a: &'x mut [u8; 4], n: u8, b: & mut [u64])\n    ensures one { R a.new result }\n    ensures two { result ≡ b.old }\n{}", ["b"]),
    ("pub fn f(a: &mut u8, b: &mut u8) -> u8\n    requires { a.new ≡ b.new }\n    ensures { result ≡ 1 } { 1 } // a.new b.new", ["a", "b"]),
    ("pub fn f(ab: &mut u8, b: &mut u8) ensures { ab.new ≡ 1 } {}", ["b"]),
    ("pub fn f(a: &mut S) ensures { length a.new.items ≡ 1 } {}", []),
    ("fn f(a: &u8, b: u8) -> u8 { let mut a = b; a }", []),
    ("fn f<F: Fn(usize) -> u64, const N: usize>(of: F, a: &mut [u64; N]) ensures { 1 ≡ 1 } {}", ["a"]),
    ("impl S {\n    fn f(&mut self, a: &mut u8) ensures { a.new ≡ 1 } {}\n}", ["self"]),
    ("impl S {\n    fn f(&mut self) ensures { self.new ≡ 1 } {}\n}", []),
]


def code(text):
    """The text with its comments, strings and byte literals blanked, every line where it was."""
    return NO_CODE.sub(lambda match: re.sub(r'[^\n"]', " ", match.group()), text)


Function = namedtuple("Function", "name line public spoke untold body end")


def past_generics(text, place):
    """The place after the type parameters, where there are some."""
    if text[place] != "<":
        return place
    depth = 0
    for place in range(place, len(text)):
        depth += (text[place] == "<") - (text[place] == ">" and text[place - 1] != "-")
        if depth == 0:
            return place + 1
    raise ValueError("type parameters without an end")


def function(text, head):
    """The function whose header matches: whether an `ensures` stands before its body, which `&mut` parameters none tells, and where the body is."""
    start = past_generics(text, head.end())
    depth, clause_from, clause, ensures, lent, body = 0, start, None, None, None, None
    for place in range(start, len(text)):
        sign = text[place]
        if sign == "{" and depth == 0:
            clause = CLAUSE.search(text, clause_from, place)
            body = place if clause is None else None
        depth += (sign in "([{") - (sign in ")]}")
        if sign in ")]}" and depth == 0:
            part = text[clause_from:place + 1]
            if lent is None and sign == ")":
                lent = [name or own for name, own in LENDS.findall(part)]
            elif body is not None:
                told = ensures or ""
                untold = [name for name in lent or [] if not re.search(rf"\b{name}\.new\b", told)]
                return Function(head.group(2), text.count("\n", 0, head.start(2)) + 1, head.group(1) is not None, ensures is not None, untold, body, place)
            elif clause is not None and clause.group(1) == "ensures":
                ensures = (ensures or "") + part
            clause_from = place + 1
    raise ValueError(f"fn {head.group(2)} has no end")


def functions(text):
    """The functions of a source text."""
    text = code(text)
    if "/*" in text:
        raise ValueError("a comment in /* */: only // is read here")
    return [function(text, head) for head in HEAD.finditer(text)]


def scan(text):
    """Those that are public."""
    return [found for found in functions(text) if found.public]


def self_test():
    """What the scan gets wrong among FORMS, PRIVATE and LENT."""
    wrong = [form for form in PRIVATE if scan(form)]
    wrong += [form for form, untold in LENT if [found.untold for found in functions(form)] != [untold]]
    for form in FORMS:
        for clause in ["", *CLAUSES]:
            text = form.replace("@", clause)
            if [(found.name, found.spoke) for found in scan(text)] != [("f", clause != "")]:
                wrong.append(text)
    return wrong


def main():
    wrong = self_test()
    for text in wrong:
        print(f"contracts.py reads this wrongly:\n{text}", file=sys.stderr)
    count, bad = 0, []
    for path in sorted(ROOT.glob("crates/*/src/**/*.rt")):
        library = (ROOT / "crates" / path.relative_to(ROOT).parts[1] / "src/lib.rt").is_file()
        for found in functions(path.read_text(encoding="utf-8")):
            count += found.public
            if found.public and not found.spoke:
                bad.append(f"{path.relative_to(ROOT)}:{found.line}: pub fn {found.name} has no ensures")
            if library and found.untold:
                bad.append(f"{path.relative_to(ROOT)}:{found.line}: fn {found.name} does not tell what it leaves in {', '.join(found.untold)}")
    for line in bad:
        print(line, file=sys.stderr)
    if count == 0:
        print("no public function was found under crates/: the scan looked in the wrong place", file=sys.stderr)
    print(f"{count} public functions, {len(bad)} faults: a silent function, or one that lends something untold")
    return 1 if wrong or bad or count == 0 else 0


if __name__ == "__main__":
    sys.exit(main())
