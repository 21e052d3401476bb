#!/usr/bin/env python3
"""Moves the imports of theorems that went from specs/ to proofs/.

usage: tools/port_moves.py [FOLDER]

Run at the top of the repository (or FOLDER), as often as need be: it changes only lines that still import a moved name from specs/. It goes over crates/*/specs, proofs and src.
An edit of a statement reads as a bad one where a theorem of specs/ rests on that statement, or one of the edited file, since such a theorem is then not checked. So the
theorems that rest on an edited one stand in proofs/, in a module of the same name; `moment_falls`, which is edited and rests on others, stands apart from what rests on it.
"""

import glob
import os
import re
import sys

# By crate and module of specs/: the module of proofs/ where all of it stands now, or where each of the names does.
MOVES = {
    "definitions": {
        "PromiseChecked": "PromiseChecked",
        "HandChecked": {"wrong_values": "HandChecked"},
        "OrderChecked": {"past_lowers": "OrderChecked"},
    },
    "laws": {
        "Proved": "Proved",
        "Demand3": "Demand3",
        "RewardLaws": "RewardLaws",
        # all but the lemmas that are edited
        "AverageBound": {
            name: "AverageBound"
            for name in ["LastQuotient", "Setting", "weights_covered", "close_at_level", "close_past_level"]
        },
        "Acceptance": {"stochastic": "Acceptance"},
        "ArrowLaws": {"row_listed": "ArrowLaws"},
        "LevelLaws": {"level_max": "LevelLaws"},
        "MomentLaws": {name: "MomentLaws" for name in ["last_within", "level_range", "level_bounded"]},
        "OrderLaws": {
            "moment_falls": "MomentFalls",
            **{
                name: "OrderLaws"
                for name in ["start_falls", "figure_falls", "none_rises", "no_block_rises", "moment_no_lower", "start_no_lower", "cell_no_lower", "reward_raised"]
            },
        },
        "SeriesLaws": {name: "SeriesLaws" for name in ["series_promised", "series_bounded"]},
        "SheetLaws": {name: "SheetLaws" for name in ["sheet_denotes", "read_whole", "read_no_part"]},
        "VectorError": {"vector_near": "VectorError"},
        "VectorLaws": {name: "VectorLaws" for name in ["next_entry_falls", "U_falls"]},
        "WeightError": {name: "WeightError" for name in ["exact_low", "exact_high"]},
    },
    "kuldrepso": {
        "PlainLaws": {name: "PlainLaws" for name in ["outcome_told", "bound_meant", "moved_told", "dealt_told"]},
    },
}
# By crate, edit and the file that it changed: the file where the edited statement stands now.
EDIT_FILES = {
    **{
        ("laws", edit, "specs/Proved.antt"): "proofs/Proved.antt"
        for edit in ["level_exists_unshown", "level_of_the_least_tolerance", "no_refusal_0_alone", "one_at_n_0_alone"]
    },
    **{("laws", edit, "specs/OrderLaws.antt"): "proofs/MomentFalls.antt" for edit in ["strictly_below", "the_wrong_way"]},
    ("laws", "raised_at_a_state_alone", "specs/OrderLaws.antt"): "proofs/OrderLaws.antt",
}
USE = re.compile(r"(\s*(?:pub )?(?:ghost )?use )Rattle\.(\w+)\.specs\.(\w+)\.(?:\{(.*)\}|([\w'?]+)( as [\w'?]+)?)(;?)$")


def turned(line, within):
    """The line, or the lines that stand for it. What stays in specs/ uses nothing of its own crate's proofs/, and may not name it: within is that crate, or None."""
    at = USE.match(line)
    moves = at and MOVES.get(at[2], {}).get(at[3])
    if not moves:
        return [line]
    if at[2] == within:
        names = [] if isinstance(moves, str) else [n.strip() for n in (at[4] or at[5]).split(",") if n.split()[0] not in moves]
        return [f"{at[1]}Rattle.{at[2]}.specs.{at[3]}.{{{', '.join(names)}}}{at[7]}"] if names else []
    if isinstance(moves, str):
        return [line.replace(f"Rattle.{at[2]}.specs.{at[3]}.", f"Rattle.{at[2]}.proofs.{moves}.")]
    if at[5]:
        to = moves.get(at[5])
        return [line.replace(f"Rattle.{at[2]}.specs.{at[3]}.", f"Rattle.{at[2]}.proofs.{to}.") if to else line]
    by = {}
    for name in at[4].split(","):
        by.setdefault(moves.get(name.split()[0]), []).append(name.strip())
    made = [f"{at[1]}Rattle.{at[2]}.specs.{at[3]}.{{{', '.join(by.pop(None))}}}{at[7]}"] if None in by else []
    return made + [f"{at[1]}Rattle.{at[2]}.proofs.{to}.{{{', '.join(names)}}}{at[7]}" for to, names in sorted(by.items())]


def main(argv):
    root = argv[0] if argv else "."
    count = 0
    for part in ("specs", "proofs", "src"):
        for end in ("antt", "rt"):
            for path in sorted(glob.glob(os.path.join(root, "crates", "*", part, "**", "*." + end), recursive=True)):
                with open(path, encoding="utf-8") as f:
                    old = f.read()
                within = os.path.relpath(path, os.path.join(root, "crates")).split(os.sep)[0] if part == "specs" else None
                new = "\n".join(l for line in old.split("\n") for l in turned(line, within))
                if new != old:
                    with open(path, "w", encoding="utf-8") as f:
                        f.write(new)
                    count += 1
    print(f"{count} files")


if __name__ == "__main__":
    main(sys.argv[1:])
