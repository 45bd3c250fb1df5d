#!/usr/bin/env python3
"""Looks at what `rt ci` said, beside how many passed.

usage: gate_says.py FILE

How many functions of a crate may wait for a lock, as the checker counted them, is what crates.txt says; a crate whose
proof rt ci kept is named as not compared. Where it is not proved, what rt ci said against it stands below: its first
errors, the functions and what rt ended with. And each edit of must-fail/ could be made: one that can't counts for
nothing in rt ci. The last line is 'N passed, M failed'.
"""
import re
import sys
from pathlib import Path

TOP = Path(__file__).resolve().parent.parent
PROVED = re.compile(r"^logic=(?:.* may-wait=(\d+))?.*\n(?:(?!logic=).*\n)*?rt: (\w+) proved$", re.M)
SECTION = re.compile(r"^== (\w+)\n((?:(?!== ).*\n)*)", re.M)
AGAINST = re.compile(r"^.*(?:: error: |: not proved|warning: | not in the layout|^rt: ).*$", re.M)
LISTED = re.compile(r"^(\w+)(?:[^:#\n]* may_wait=(\d+))?[^:#\n]*:", re.M)


def against(said, name):
    """What rt ci said against a crate, a line each, cut at 300 characters: the first fifteen, and the last five."""
    lines = [it[:300] for crate, text in SECTION.findall(said) if crate == name for it in AGAINST.findall(text)]
    return "".join(f"    {it}\n" for it in lines[:15] + lines[15:][-5:])


def main():
    if len(sys.argv) != 2:
        sys.exit(__doc__)
    said = Path(sys.argv[1]).read_text(encoding="utf-8")
    counted = {name: int(waits or 0) for waits, name in PROVED.findall(said)}
    kept = re.findall(r"^rt: (\w+) is kept:", said, re.M)
    passed = 0
    failed = [f"{it}\n" for it in said.splitlines() if "BAD EDIT" in it]
    for name, waits in LISTED.findall((TOP / "crates.txt").read_text(encoding="utf-8")):
        found = counted.get(name, "none, as it is not proved")
        if found == int(waits or 0):
            passed += 1
        elif name not in kept:
            failed.append(f"FAILED {name}: crates.txt says that {waits or 0} may wait, the checker counted {found}\n"
                          + against(said, name))
    if kept:
        print(f"not compared in this run, since rt ci kept their proofs: {' '.join(kept)}")
    print(f"{''.join(failed)}{passed} passed, {len(failed)} failed")
    return 1 if failed else 0


if __name__ == "__main__":
    sys.exit(main())
