#!/usr/bin/env python3
"""Fails where a law under crates/*/specs or crates/*/proofs is cited nowhere: it could be deleted, and the gate would stay green.

A law is a `pub` declaration that is no definition (abbrev, unfoldable, record, data). One is cited where another module brings it in by
`use` or an attribute of a function names it, or where its own module has its name beside its own lines. The hand checks, in modules whose name ends in Checked and in
Numeral, are cited by nobody: the edits that they refuse show what they hold. The root, `theorems`, is what laws is for.
A law of TO_COME is for a call of a log that is not written yet; one that is cited has no place there any more.
"""

import pathlib
import re
import sys

ROOT = pathlib.Path(__file__).resolve().parent.parent
LAW = re.compile(r"^( *)pub (?!mod |record |data )([^\s:(){}]+) :", re.M)
USE = re.compile(r"^(?:ghost )?use Rattle\.([\w.]+)\.\{([^}]*)\}", re.M)
ATTRIBUTE = re.compile(r"#!?\[tactic\((.*?)\)\]$", re.M | re.S)
PATH = re.compile(r"\w+(?:::[\w'-]+)+")
WORD = re.compile(r"[^\s(){}.,;]+")

# What stands in proofs/F/, of one function: Rattle's own goals cite it.
OF_A_FUNCTION = ("Proof.antt", "Answers.antt", "Invariants.antt")


def module_of(path):
    """The dotted path of a file's module, as a `use` has it: CRATE.specs.MODULE."""
    return ".".join(pathlib.PurePath(path).with_suffix("").parts[1:])


def by_attributes(path, text):
    """What the attributes of a source name: (module, name)."""
    for attribute in ATTRIBUTE.findall(text):
        for parts in (found.split("::") for found in PATH.findall(attribute)):
            crate = pathlib.PurePath(path).parts[1] if parts[0] == "crate" else parts[0]
            yield ".".join([crate, *parts[1:-1]]), parts[-1]


def uncited(texts):
    """The laws of texts, module path to text, that nothing cites: (path, name)."""
    brought = set()  # (module, name) of every use and attribute
    for path, text in texts.items():
        for module, names in USE.findall(text):
            brought |= {(module, name.split(" as ")[0].strip()) for name in names.split(",")}
        if path.endswith(".rt"):
            brought |= set(by_attributes(path, text))
    for path, text in sorted(texts.items()):
        module, kind = module_of(path), pathlib.PurePath(path).stem
        if path.endswith(".rt") or path.endswith(OF_A_FUNCTION) or kind.endswith("Checked") or kind == "Numeral":
            continue
        code = re.sub(r"--[^\n]*", "", text)
        in_record = {name for body in re.findall(r"^ *pub record .*?where\n((?:  +.*\n|\n)*)", text, re.M) for _, name in LAW.findall(body)}
        for margin, name in LAW.findall(code):
            own = re.compile(f"^{margin}(?:pub )?{re.escape(name)}(?=[ \n])", re.M)
            used = WORD.findall(own.sub("", code)).count(name)
            if name not in in_record and (module, name) not in brought and not used:
                yield path, name


# The laws that wait for calls of a log (document 02, S-12).
TO_COME = {
    *(("crates/laws/specs/LogLaws.antt", name) for name in ("offers_none", "offers_more", "few_accepted", "log_passes", "log_refused", "log_accepted")),
    ("crates/laws/specs/StayLaws.antt", "pair_passes"),
}

# law is cited from the crate a's specs/ alone; lone and near by an attribute alone.
SAMPLE = {
    "crates/a/specs/Laws.antt": "pub lemma : ℕ\nlemma = 1\n\npub law : ℕ\nlaw = lemma\n\npub lone : ℕ\nlone = 2 -- lemma lone\n",
    "crates/a/proofs/Laws.antt": "pub law : ℕ\nlaw = 4\n\npub far : ℕ\nfar = 5\n",
    "crates/a/proofs/f/Answers.antt": "use Rattle.a.proofs.Laws.{far}\npub returns : ℕ\nreturns = far\n",
    "crates/b/specs/More.antt": "use Rattle.a.specs.Laws.{law}\npub record R where\n  pub field : ℕ\n",
    "crates/b/specs/Laws.antt": "pub law : ℕ\nlaw = 3\n\npub near : ℕ\nnear = 6\n",
    "crates/b/src/lib.rt": "#![tactic(auto)]\n\n#[tactic(auto, using(\n    crate::specs::Laws::near,\n    a::specs::Laws::lone,\n))]\nfn f() {}\n",
}
UNCITED = [("crates/a/proofs/Laws.antt", "law"), ("crates/b/specs/Laws.antt", "law")]


def main():
    if list(uncited(SAMPLE)) != UNCITED:
        print("cited.py reads its sample wrongly", file=sys.stderr)
        return 1
    files = [path for kind in ("specs/**/*.antt", "proofs/**/*.antt", "src/**/*.rt") for path in ROOT.glob(f"crates/*/{kind}")]
    texts = {str(path.relative_to(ROOT)): path.read_text(encoding="utf-8") for path in files}
    found = {(path, name) for path, name in uncited(texts) if name != "theorems"}
    bad = sorted(found - TO_COME)
    for path, name in bad:
        print(f"{path}: {name} is cited nowhere", file=sys.stderr)
    for path, name in sorted(TO_COME - found):
        bad.append((path, name))
        print(f"{path}: {name} is in TO_COME, and is cited, or gone", file=sys.stderr)
    print(f"{len(bad)} faults: a law that is cited nowhere; {len(TO_COME)} laws wait for calls to come")
    return 1 if bad or not texts else 0


if __name__ == "__main__":
    sys.exit(main())
