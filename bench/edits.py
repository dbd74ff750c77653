#!/usr/bin/env python3
"""Lists what refused each must-fail edit: crate, edit, kind, first rejected goal.

    rt must-fail NAME.. 2>&1 | bench/edits.py
    bench/edits.py LOG

LOG is what `rt must-fail` or the gate printed. Where the first rejected goal is no contract's clause, the line begins
with a star: such an edit shows nothing of the contract. Ends with status 1 if there is one.
"""
import re
import sys

LINE = re.compile(r"must-fail (\w+)/([\w.-]+)\.edit: (.*)")

# What a goal's name says, the first that fits.
KINDS = [
    ("overflow", r"overflow_|offset_bounds-"),
    ("bounds", r"bounds-|slice_bounds-|nonzero_"),
    ("measure", r"loop-.*-smaller|decreases"),
    ("unreachable", r"prove-"),
    ("loop", r"loop-.*-(init|preserved)"),
    ("invariant", r"invariant_of-"),
    ("requires", r".*-requires"),
    ("ensures", r"returns|.*-clause-"),
]

# A loop's invariant and a type's invariant lead to a clause.
OF_A_CONTRACT = {"loop", "invariant", "requires", "ensures"}


def goal_in(said):
    """The name of the goal: an error tells it first, a note last."""
    error = re.search(r"error: `([\w-]+)`", said)
    if error:
        return error.group(1)
    note = re.search(r"\(`([\w-]+)", said)
    return note.group(1) if note else ""


def kind_of(said):
    """The kind of the goal, and its name or what was said in its place."""
    if "NOT REFUSED" in said or "NOT TRIED" in said or "BAD EDIT" in said:
        return said.split(":")[0].lower(), said
    if "only because a proof file names" in said:
        return "missing name", said
    if "only by a limit" in said:
        return "limit", said
    goal = goal_in(said)
    for kind, pattern in KINDS:
        if re.match(pattern, goal):
            return kind, goal
    return "unknown", said


def main():
    text = open(sys.argv[1], errors="replace") if len(sys.argv) > 1 else sys.stdin
    rows = {}
    for line in text:
        found = LINE.search(line)
        if found:
            rows[found.group(1), found.group(2)] = kind_of(found.group(3))
    stars = 0
    for (crate, edit), (kind, goal) in sorted(rows.items()):
        is_starred = kind not in OF_A_CONTRACT
        stars += is_starred
        print(f"{'*' if is_starred else ' '} {crate:10} {edit:38} {kind:12} {goal}")
    print(f"{len(rows)} edits, {stars} that show nothing of a contract")
    return 1 if stars else 0


if __name__ == "__main__":
    sys.exit(main())
