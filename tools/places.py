#!/usr/bin/env python3
"""Counts the places of an older form in crates/*/src, for docs/DESIGN-PASS.md:

    python3 tools/places.py COMMIT        of a commit
    python3 tools/places.py               of the files as they are

By point of that page; what no pattern finds is counted there by reading. The last two parts list what stands in several places by itself:
functions of one name in several crates, facts that three or more contracts ask for, parameters that three or more functions take together.
"""

import pathlib
import re
import subprocess
import sys
from collections import Counter, defaultdict

ROOT = pathlib.Path(__file__).resolve().parent.parent

PATTERNS = [
    ("1", "an enum", r"^\s*(?:pub )?enum \w+"),
    ("1", "a refusal by its number", r"Refused\(\d+\)|Refused\(k\)|Refused\(u8\)|rule: u8|row: u8"),
    ("3", "while, loop", r"^\s*(?:while|loop)\b"),
    ("3", "a for over a range of numbers", r"^\s*for \w+ in [^{]*\.\."),
    ("4", "a function that converts, compares or prints one value", r"^\s*(?:pub )?fn (?:wide|larger|plain|number|line|last|spaced|line_end|say_refusal|say_not_whole)\b"),
    ("6", "a buffer with a place or a count beside it", r"\w+: &(?:mut )?\[u8(?:; \w+)?\], (?:at|count): usize|\w+: &(?:mut )?\[u8; [\w:]+\], count: usize"),
    ("6", "an array for 64 states, filled to M", r"\[0u64; 64\]|\[u64; 64\] *\{|-> \[u64; 64\]"),
    ("6", "parallel arrays", r"\b(?:targets|rates|counts|from|to|spans): &?(?:mut )?\[|^(?:pub )?const (?:A|B|C|W|U|XS|TOLERANCES): \["),
    ("7", "a call of a parameter", r"\b(?:impl|dyn) Fn|: Fn(?:Once|Mut)?\("),
]


def sources(commit):
    """Path and text of each source."""
    if commit is None:
        for path in sorted(ROOT.glob("crates/*/src/*.rt")):
            yield str(path.relative_to(ROOT)), path.read_text(encoding="utf-8")
        return
    git = ["git", "-C", str(ROOT)]
    for path in subprocess.run([*git, "ls-tree", "-r", "--name-only", commit, "crates"], check=True, capture_output=True, text=True).stdout.split():
        if "/src/" in path and path.endswith(".rt"):
            yield path, subprocess.run([*git, "show", f"{commit}:{path}"], check=True, capture_output=True, text=True).stdout


def crate(path):
    return path.split("/")[1]


def facts(text):
    """The facts of each `requires`, cut at × outside brackets."""
    for clause in re.findall(r"^\s*requires(?: \w+)? \{ (.*) \}$", text, re.M):
        depth, part = 0, ""
        for sign in clause + " × ":
            depth += (sign in "([{") - (sign in ")]}")
            if sign == "×" and depth == 0:
                fact = part.strip()
                yield fact[1:-1] if fact.startswith("(") and fact.endswith(")") else fact
                part = ""
            else:
                part += sign


def main():
    texts = dict(sources(sys.argv[1] if len(sys.argv) > 1 else None))
    for point, what, pattern in PATTERNS:
        found = Counter(crate(path) for path, text in texts.items() for _ in re.findall(pattern, text, re.M))
        print(f"{point} {what}: {sum(found.values())}", *(f"{name} {count}" for name, count in sorted(found.items())))
    homes, asked, together = defaultdict(set), Counter(), Counter()
    for path, text in texts.items():
        for name in re.findall(r"^\s*(?:pub )?(?:extern \"C\" )?fn (\w+)", text, re.M):
            homes[name].add(crate(path))
        asked.update(facts(text))
        for params in re.findall(r"\bfn \w+(?:<[^(]*>)?\(([^)]*)\)", text):
            names = [param.split(":")[0].strip() for param in params.split(",") if ":" in param]
            together.update({" ".join(names[at:at + size]) for size in (2, 3, 4, 5) for at in range(len(names) - size + 1)})
    print("2 functions of one name in several crates:", *(f"{name} ({', '.join(sorted(where))})" for name, where in sorted(homes.items()) if len(where) > 1 and name != "main"), sep="\n  ")
    print("5 facts that three or more contracts ask for:", *(f"{count} {fact}" for fact, count in asked.most_common() if count >= 3), sep="\n  ")
    print("5 parameters that three or more functions take side by side:", *(f"{count} {names}" for names, count in together.most_common() if count >= 3), sep="\n  ")


if __name__ == "__main__":
    main()
