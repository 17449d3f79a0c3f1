#!/usr/bin/env python3
"""A table of the planted bugs, in Markdown: what each edit of crates/*/must-fail changes, and which fact refuses it first.

usage: rt must-fail 2>&1 | python3 tools/planted.py

Run it at the top of the repository; `rt must-fail --anew` tries every edit, also those whose outcome is kept.
"""
import pathlib
import re
import sys

REFUSED = re.compile(r"rt: must-fail (\w+)/(\w+)\.edit: refused, as it must be(.*)")
PLACE = re.compile(r"(?:\./)?((?:src|proofs|specs)/[^:]+):")
FACT = re.compile(r"`([\w'+-]*(?:returns|requires|preserved|invariant|bounds|init|overflow)[\w'+-]*)`")


def changes(edit):
    """The pairs of texts that an edit exchanges, and its file."""
    lines = edit.read_text(encoding="utf-8").splitlines()
    file = next(line[6:] for line in lines if line.startswith("file: "))
    old = [line[5:].strip() for line in lines if line.startswith("old: ")]
    new = [line[5:].strip() for line in lines if line.startswith("new:")]
    return file, list(zip(old, new))


def code(text):
    return f"`{text}`".replace("|", "\\|") if text else "nothing"


def fact(outcome):
    """The goal that failed first, and the function or file in which it stands."""
    if "only because a proof file names" in outcome:
        return "a name that its proof cites, alone", ""
    place = PLACE.search(outcome)
    where = place.group(1) if place else ""
    if where.startswith("proofs/"):
        where = "/".join(where.split("/")[1:-1])
    name = FACT.search(outcome)
    return (name.group(1) if name else "a fact"), where


def main():
    outcomes = {}
    for line in sys.stdin:
        match = REFUSED.match(line)
        if match:
            outcomes[match.group(1), match.group(2)] = match.group(3)
    for crate in sorted({crate for crate, _ in outcomes}):
        print(f"\n### {crate}\n\n| Planted in | Before | After | Refused by |\n|---|---|---|---|")
        for name in sorted(name for other, name in outcomes if other == crate):
            file, pairs = changes(pathlib.Path("crates", crate, "must-fail", name + ".edit"))
            goal, where = fact(outcomes[crate, name])
            old = "; ".join(code(before) for before, _ in pairs)
            new = "; ".join(code(after) for _, after in pairs)
            print(f"| {file} | {old} | {new} | {code(goal)}{' of ' + where if where else ''} |")


if __name__ == "__main__":
    main()
